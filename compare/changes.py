"""Changes of the model's rules, one at a time: the comparison must find a difference for each.

A change is an edit of one file of the model, whose text stands there once. A process of its own loads the model
with it, and compares until the first difference.
"""

import functools
import importlib.machinery
import multiprocessing
import sys
import tempfile
from dataclasses import dataclass
from pathlib import Path

import comparison
import reaching

HERE = Path(__file__).resolve().parent
# the modules that make changes, and what was read of the model by them
STAYING = ("__main__", "changes", "driving", "reaching")


@dataclass
class Change:
    """A rule that is told otherwise: the model's file, and its text before and after."""

    title: str
    file: str
    old: str
    new: str

    def made(self):
        """The file of the model as the change makes it."""
        text = (HERE / "model" / self.file).read_text()
        if text.count(self.old) != 1:
            raise ValueError(f"{self.title}: its text doesn't stand once in {self.file}")
        return text.replace(self.old, self.new)

    def lines(self):
        """The lines of the model where its text stands, each with the file's name."""
        before, _, _ = (HERE / "model" / self.file).read_text().partition(self.old)
        first = before.count("\n") + 1
        return [(self.file, first + line) for line in range(self.old.strip("\n").count("\n") + 1)]


READING = [
    Change("a length word 0 is fault 3", "parsing.py",
           "raise Fault(2, owner", "raise Fault(3, owner"),
    Change("the closing byte isn't looked at", "parsing.py",
           "if whole[-1] != 0 and sum(whole) % 256 != 0:", "if False:"),
    Change("a closing byte 0 isn't accepted", "parsing.py",
           "if whole[-1] != 0 and sum(whole)", "if sum(whole)"),
    Change("fault 5 comes before fault 4", "parsing.py",
           "    if whole[-1] != 0",
           "    if kind not in PARSERS:\n        raise Fault(5, owner, place)\n"
           "    if whole[-1] != 0"),
    Change("fault 6 stands one byte later", "parsing.py",
           "byte=place_of_fault(kind, body)", "byte=place_of_fault(kind, body) + 1"),
    Change("fault 6 stands at the body's own end", "parsing.py",
           "byte=place_of_fault(kind, body)", "byte=len(body)"),
    Change("a whole segment may have a length word", "parsing.py",
           "refuse_unless(not (is_whole and length))", "pass"),
    Change("an index of two bytes has its low part first", "parsing.py",
           "(first - 128) * 256 + self.byte()", "first - 128 + 256 * self.byte()"),
    Change("an index of 128 is one byte", "parsing.py",
           "if first < 128 else", "if first <= 128 else"),
    Change("a small index in two bytes is refused", "parsing.py",
           "        first = self.byte()\n",
           "        first = self.byte()\n        refuse_unless(first != 128)\n"),
    Change("records behind MODEND are read", "parsing.py",
           "        if isinstance(read.record, records.ModuleEnd):\n            return\n",
           "        if isinstance(read.record, records.ModuleEnd) and place == len(content):\n"
           "            return\n"),
    Change("level 65 may have no blocks", "parsing.py", "DEEPEST_LEVEL = 64", "DEEPEST_LEVEL = 65"),
    Change("combination 3 is taken", "parsing.py", "(0, 2, 4, 5, 6, 7)", "(0, 2, 3, 4, 5, 6, 7)"),
    Change("bit P of a segment isn't looked at", "parsing.py", " and not acbp & 1)", ")"),
    Change("a start needs no bit 0", "parsing.py",
           "refuse_unless(not has_start or attribute & 0x01)", "refuse_unless(True)"),
    Change("bit 4 of a target thread is looked at", "parsing.py",
           "(7 if of_frame else 3)", "7"),
    Change("an offset of a fix-up has nine bits", "parsing.py",
           "(first & 3) * 256", "(first & 1) * 256"),
    Change("location 4 is an offset", "parsing.py",
           "    refuse_unless(location in list(Location))\n",
           "    location = 1 if location == 4 else location\n"
           "    refuse_unless(location in list(Location))\n"),
    Change("a frame word stands behind any segment", "parsing.py",
           "body.word() if segment == 0 else None", "body.word() if segment <= 1 else None"),
]

MODULE = [
    Change("a later THEADR is fault 7", "module.py",
           "if read_one.place == 0 and not", "if (read_one.place == 0) != "),
    Change("a name index of a group may be 0", "module.py",
           "[] if 1 <= record.name <= len(self.names)", "[] if record.name <= len(self.names)"),
    Change("fault 12 comes before fault 11", "module.py",
           "        self.refuse(faults, place)\n        for public in record.publics:",
           "        self.refuse(faults[-1:], place)\n        for public in record.publics:"),
    Change("fault 18 comes before fault 17", "module.py",
           "        faults += [18] if segment.is_absolute else []\n"
           "        self.refuse(faults, place)",
           "        faults += [18] if segment.is_absolute else []\n"
           "        self.refuse(faults[-1:], place)"),
    Change("data may pass its segment's end by a byte", "module.py",
           "record.offset + length > segment.length",
           "record.offset + length > segment.length + 1"),
    Change("data of no bytes is never outside", "module.py",
           "if record.offset + length > segment.length",
           "if length and record.offset + length > segment.length"),
    Change("a location may go on behind its content", "module.py",
           "first <= offset and offset + width <= first + length",
           "first <= offset < first + length"),
    Change("a thread's index is checked where it is set", "module.py",
           "                threads[subrecord.number] = subrecord.meaning\n",
           "                threads[subrecord.number] = subrecord.meaning\n"
           "                self.refuse(self.resolve_side(subrecord.meaning, {})[1], place)\n"),
    Change("a frame thread is a target thread too", "module.py",
           "self.resolve_side(reference.target, self.target_threads)",
           "self.resolve_side(reference.target, self.frame_threads)"),
    Change("a thread holds for its record alone", "module.py",
           "        for subrecord in record.subrecords:\n",
           "        self.frame_threads = {}\n        for subrecord in record.subrecords:\n"),
    Change("a self-relative base is no fault", "module.py",
           "faults.append(19)", "pass"),
    Change("a start's frame may be its location's", "module.py",
           "                faults.append(20)\n", "                pass\n"),
]

PLACEMENT = [
    Change("a double word is two bytes", "module.py", "4: 256, 5: 4}", "4: 256, 5: 2}"),
    Change("a page is a paragraph", "module.py", "4: 256, 5: 4}", "4: 16, 5: 4}"),
    Change("combination 7 is private", "module.py", '7: "public"', '7: "private"'),
    Change("private parts combine", "placement.py",
           '(owner, index) if segment.kind == "private" else None', "None"),
    Change("parts of two classes combine", "placement.py",
           "found.setdefault((*key, alone)", "found.setdefault((key[0], key[2], alone)"),
    Change("classes don't stand together", "placement.py",
           "    return sorted(combined, key=lambda each: classes.index(each.class_name))",
           "    return combined"),
    Change("classes stand in order of their names", "placement.py",
           "key=lambda each: classes.index(each.class_name)", "key=lambda each: each.class_name"),
    Change("a common segment has its first part's alignment", "placement.py",
           "max(part.segment.alignment for part in parts)", "parts[0].segment.alignment"),
    Change("a stack's later parts keep their alignment", "placement.py",
           'kind != "stack" or number == 0', "True"),
    Change("a combined segment's frame is rounded up", "placement.py",
           "        return self.start // 16\n", "        return -(-self.start // 16)\n"),
    Change("a group's frame is that of its first member", "placement.py",
           "min(member.start for member in members) // 16", "members[0].start // 16"),
    Change("a public's frame is its segment's", "placement.py",
           "if public.group == 0 or not address", "if True or not address"),
    Change("a public in an absolute segment has its group's frame", "placement.py",
           "if public.group == 0 or not address.is_relocatable:", "if public.group == 0:"),
    Change("a folded name has its underscores folded", "placement.py",
           "0x41 <= byte <= 0x5A", "0x41 <= byte <= 0x5F"),
    Change("Z isn't folded", "placement.py", "0x41 <= byte <= 0x5A", "0x41 <= byte < 0x5A"),
    Change("case is ignored always", "placement.py",
           "folded(named.name) if self.ignores_case else named.name", "folded(named.name)"),
    Change("local names are seen by all modules", "placement.py",
           "(owner if named.is_local else None, name)", "(None, name)"),
    Change("a local external means a public too", "placement.py",
           "        return None if found is None else found.meaning\n",
           "        found = found or self.definitions.get((None, external.name))\n"
           "        return None if found is None else found.meaning\n"),
    Change("fault 22 is counted from the start", "placement.py",
           "each.end - 16 * each.frame, FRAME_REACH", "each.end - each.start, FRAME_REACH"),
    Change("a frame reaches a byte farther", "placement.py",
           "FRAME_REACH = 65536", "FRAME_REACH = 65537"),
    Change("fault 23 stands a paragraph later", "placement.py", "1_048_560", "1_048_576"),
    Change("fault 23 stands a byte earlier", "placement.py", "1_048_560", "1_048_559"),
    Change("fault 24 counts from the group's start", "placement.py",
           "end - 16 * layout.group_frame(name).value",
           "end - min(each.start for each in members)"),
    Change("fault 25 comes before fault 22", "placement.py",
           "    check_lengths(layout)\n    define_publics(modules, layout)\n",
           "    define_publics(modules, layout)\n    check_lengths(layout)\n"),
]

IMAGE = [
    Change("a displacement isn't signed in fault 31", "image.py",
           "return number - 0x10000 if number >= NEGATIVE_WORDS else number", "return number"),
    Change("a displacement is subtracted", "image.py",
           "located.target.at(paragraph) + located.displacement",
           "located.target.at(paragraph) - located.displacement"),
    Change("the displacement counts in fault 30", "image.py",
           "    return [] if is_in_frame(located.target.value, located.frame) else [30]",
           "    address = located.target.value + located.displacement\n"
           "    return [] if is_in_frame(address, located.frame) else [30]"),
    Change("a byte reaches 128 on", "image.py", "-128, 127", "-128, 128"),
    Change("a byte reaches 127 back", "image.py", "-128, 127", "-127, 127"),
    Change("fault 31 looks at the first copy", "image.py",
           "- (address + 1) + signed for address in addresses]",
           "- (address + 1) + signed for address in addresses[:1]]"),
    Change("fault 30 doesn't look at the location", "image.py",
           "for address in [target.value, *addresses]", "for address in [target.value]"),
    Change("a word's way is counted from its begin", "image.py",
           "return [(0, width, target - (address + width))]",
           "return [(0, width, target - (address + 1))]"),
    Change("a self-relative byte is written as a word", "image.py",
           "width = 1 if fixup.location == Location.LOW_BYTE else 2", "width = 2"),
    Change("a value takes the place of what was there", "image.py",
           "(held + value) %", "value %"),
    Change("a carry goes into the next byte", "image.py",
           "width = 1 if fixup.location == Location.LOW_BYTE else 2",
           "width = 2 if fixup.segment_relative or fixup.location != Location.LOW_BYTE else 1"),
    Change("a pointer has its base first", "image.py",
           "return [offset, (2, 2, frame)] if",
           "return [(0, 2, frame), (2, 2, offset[2])] if"),
    Change("an absolute target keeps a relocatable frame", "image.py",
           "if frame.is_relocatable and not target.address.is_relocatable:", "if False:"),
    Change("fault 26 doesn't look at a word's high byte", "image.py",
           "laid.covers(word) or laid.covers(word + 1)", "laid.covers(word)"),
    Change("fault 28 comes before fault 27", "image.py",
           "            refuse_smallest(faults, owner, fixup.place)\n",
           "            refuse_smallest([max(faults)] if faults else [], owner, fixup.place)\n"),
    Change("fault 32 looks at earlier words alone", "image.py",
           "[32] if over_word or under_word else []", "[32] if over_word else []"),
    Change("an earlier record's data wins", "image.py",
           "for laid in self.laid:\n            content",
           "for laid in self.laid[::-1]:\n            content"),
    Change("the last start counts", "image.py",
           "        owner, start = starts[1]\n        raise Fault(33, owner, start.place)\n",
           "        starts = starts[1:]\n"),
    Change("fault 33 stands at the first start", "image.py",
           "owner, start = starts[1]", "owner, start = starts[0]"),
    Change("SP is the end of the stack", "image.py",
           "(each.end - 16 * each.frame) % 65536", "each.end % 65536"),
    Change("the last stack counts", "image.py",
           "for each in layout.combined:\n        if each.kind == \"stack\"",
           "for each in layout.combined[::-1]:\n        if each.kind == \"stack\""),
    Change("65,536 relocations are allowed", "image.py",
           "> MOST_RELOCATIONS", "> MOST_RELOCATIONS + 1"),
    Change("the written part ends before bytes 00", "image.py",
           "        ends = [laid.address + len(laid.content) for",
           "        ends = [laid.address + len(laid.content.rstrip(b\"\\0\")) for"),
    Change("the written part ends at the last segment", "image.py",
           "        return max(ends, default=0)\n", "        return self.layout.size\n"),
    Change("data of no bytes is written", "image.py",
           "for laid in self.laid if laid.content]", "for laid in self.laid]"),
    Change("relocations stand in the order of fix-ups", "image.py",
           "sorted(laying.relocations)", "laying.relocations"),
]

FILES = [
    Change("the least extra paragraphs are rounded otherwise", "program_file.py",
           "- program.written() // PARAGRAPH", "- in_paragraphs(program.written())"),
    Change("a relocation's offset may be large", "program_file.py",
           "struct.pack(ENTRY, word % PARAGRAPH, word // PARAGRAPH)",
           "struct.pack(ENTRY, word % 65536, word // 65536 * 4096)"),
    Change("a full last page has 512 bytes", "program_file.py",
           "length % PAGE, -(-length", "(length - 1) % PAGE + 1, -(-length"),
    Change("a table may begin in the header's words", "program_file.py",
           "self.table >= HEADER and", "self.table >= 0 and"),
    Change("a word may end behind the image", "program_file.py",
           "PARAGRAPH * segment + offset + 2 > len(image)",
           "PARAGRAPH * segment + offset + 1 > len(image)"),
    Change("an entry's offset may be FFFFH", "program_file.py",
           "if offset == LAST_OFFSET or PARAGRAPH", "if PARAGRAPH"),
    Change("fault 36 comes after fault 37", "program_file.py",
           "    if not file.is_accepted():\n        raise Fault(36, 0)\n"
           "    if len(content) < file.length:\n        raise Fault(37, 0)\n",
           "    if len(content) < file.length:\n        raise Fault(37, 0)\n"
           "    if not file.is_accepted():\n        raise Fault(36, 0)\n"),
    Change("memory ends a byte later", "program_file.py", "1_048_576", "1_048_577"),
    Change("memory ends a paragraph earlier", "program_file.py", "1_048_576", "1_048_560"),
    Change("SS isn't moved", "program_file.py",
           "(registers.stack + paragraph)", "(registers.stack)"),
]

PRINTING = [
    Change("a listing has eight bytes a line", "printing.py",
           "BYTES_OF_LINE = 16", "BYTES_OF_LINE = 8"),
    Change("a listing's addresses have six digits", "printing.py",
           "{address:05X} ", "{address:06X} "),
    Change("a backslash in a name is printed as it is", "faults.py", "b'\"\\\\'", "b'\"'"),
    Change("byte 7FH is printed as it is", "faults.py", "range(0x20, 0x7F)", "range(0x20, 0x80)"),
    Change("an expansion of 65,536 isn't told", "printing.py",
           "if length > LONGEST_EXPANDED", "if length >= LONGEST_EXPANDED"),
    Change("an expansion counts its outermost blocks once", "printing.py",
           "length = expanded_length(record.blocks)",
           "length = sum(map(len, [b.content for b in record.blocks]))"),
    Change("the map lists local publics", "placement.py",
           "for (owner, _), definition in definitions if owner is None]",
           "for (owner, _), definition in definitions]"),
    Change("the map has a common segment's first length", "printing.py",
           "each.end - each.start, each) for", "each.parts[0].end - each.start, each) for"),
    Change("an index above 127 is written in one byte", "records.py",
           "LARGEST_SHORT_INDEX = 127", "LARGEST_SHORT_INDEX = 128"),
    Change("rewriting keeps an absent displacement as 0", "records.py",
           "        if self.displacement is None:\n            fix_data |= 0x04\n        else:\n"
           "            rest += word(self.displacement)\n",
           "        rest += word(self.displacement or 0)\n"),
    Change("rewriting leaves bit 0 of a start away", "records.py", "main | 0x41", "main | 0x40"),
    Change("rewriting stops before a faulty module", "commands.py",
           "        first_fault = fault\n", "        first_fault, canonical = fault, b\"\"\n"),
    Change("showing stops before a faulty module", "commands.py",
           "        for read in read_records(content, 0):\n            answer.output += printing.show(read)\n",
           "        answer.output = b\"\".join([printing.show(read) for read in read_records(content, 0)])\n"),
]

CHANGES = [*READING, *MODULE, *PLACEMENT, *IMAGE, *FILES, *PRINTING]


def check_texts(some):
    """Each change fits the model as it stands, is Python, and has a title of its own.

    Raises a ValueError or a SyntaxError.
    """
    titles = [change.title for change in some]
    for change in some:
        compile(change.made(), f"{change.file}: {change.title}", "exec")
        if titles.count(change.title) != 1:
            raise ValueError(f"{change.title}: another change has this title")


class Loader(importlib.machinery.SourceFileLoader):
    """Loads a module of this folder, of which each is compiled once for all changes."""

    codes = {}

    def get_code(self, fullname):
        """What the module's file is compiled to, as it stands or as a change makes it."""
        if self.path not in self.codes:
            self.codes[self.path] = compile(Path(self.path).read_bytes(), self.path, "exec")
        return self.codes[self.path]


def finder_here(folder):
    """Finds modules in this folder and below it by that loader."""
    if not Path(folder).is_relative_to(HERE):
        raise ImportError
    return importlib.machinery.FileFinder(folder, (Loader, [".py"]))


def load_anew(kind):
    """The module of this name that compares, loaded anew with all of this folder but those that make changes."""
    for name, module in list(sys.modules.items()):
        file = getattr(module, "__file__", None)
        if file and name not in STAYING and Path(file).is_relative_to(HERE):
            del sys.modules[name]
    return importlib.import_module(kind)


def first_difference(kind, program, change, seeds):
    """The first of some seeds in which a change makes a difference, and the difference; None for none.

    The model is loaded anew, with the change, so this is the last that a process does.
    """
    file = str(HERE / "model" / change.file)
    Loader.codes[file] = compile(change.made(), file, "exec")
    compare_seeds = load_anew(kind).compare_seeds
    for seed in seeds:
        with tempfile.TemporaryDirectory(prefix="omf-changed-") as folder:
            try:
                _, differences = compare_seeds(program, folder, [seed])
            except Exception as problem:  # a file of the changed model that the program doesn't make, say
                differences = [f"seed {seed}: {comparison.MODEL_FAILED}: {problem!r}"]
        if differences:
            return differences[0]
    return None


def tried(kind, program, change_and_seeds):
    """A change and its first difference; that the changed model can't be loaded is no difference."""
    change, seeds = change_and_seeds
    try:
        return change, first_difference(kind, program, change, seeds)
    except Exception as problem:
        raise ValueError(f"{change.title}: the changed model failed") from problem


def try_all(kind, program, chosen, jobs):
    """Tries each of some changes, first in the seeds that run its lines; answers how many made no difference.

    Where the changed model itself fails that is told: it says little of the rule.
    """
    missed, files = 0, {change.file for change in chosen}
    sys.path_hooks.insert(0, finder_here)
    sys.path_importer_cache.clear()
    load_anew(kind.comparison.__name__)
    reached = reaching.reached_by_all(kind.comparison, program, files, range(kind.most_seeds), jobs)
    one = functools.partial(tried, kind.comparison.__name__, program)
    tasks = ((change, reached.in_order(change.lines())) for change in chosen)
    with multiprocessing.get_context("fork").Pool(jobs, maxtasksperchild=1) as pool:
        for change, difference in pool.imap(one, tasks):
            missed += difference is None
            print(f"{answer_of(difference):>20}  {change.file:16} {change.title}", flush=True)
    print(f"{len(chosen):,} changes, not found in {kind.most_seeds:,} seeds: {missed:,}")
    return missed


def answer_of(difference):
    """How a change was found: by the seed of its difference, or not at all."""
    if difference is None:
        return "not found"
    seed, _, _ = difference.partition(":")
    return f"{'fails' if comparison.MODEL_FAILED in difference else 'found'} in {seed}"
