"""Modules as compilers write them: segments of usual names and classes, DGROUP, and names.

Most link; a module of another plan has records that no link takes, and that name much.
"""

from dataclasses import dataclass, field, replace

from generator import communals
from generator.comdats import ComdatMaker
from generator.spelling import RandomSpelling, reclosed
from generator.widening import widened
from model import records
from model.ordering import BEGIN_MARKS, END_MARKS
from model.records import (
    ByThread, Direct, Fixup, Location, Method, PublicName, Reference, ThreadSetting)

GROUP, OTHER_GROUP = b"DGROUP", b"AUTO"
# name, class, combination, whether DGROUP has it, and how often it is met
SEGMENTS = [
    (b"_TEXT", b"CODE", 2, False, 6), (b"SUB_TEXT", b"FAR_CODE", 2, False, 2),
    (b"INIT", b"CODES", 2, False, 1), (b"_NULL", b"BEGDATA", 2, True, 2),
    (b"_AFTERNULL", b"BEGDATA", 2, True, 2), (b"_DATA", b"DATA", 2, True, 6),
    (b"CONST", b"CONST", 2, True, 2), (b"_BSS", b"BSS", 2, True, 4),
    (b"c_common", b"BSS", 2, True, 1), (b"_BSS", b"DATA", 2, True, 1),
    (b"_BSS", b"BSS", 0, True, 1), (b"_BSS", b"BSS", 7, False, 1),
    (b"HUGE_BSS", b"BSS", 2, False, 2),
    (b"STACK", b"STACK", 5, True, 4), (b"OTHER", b"STACK", 5, False, 1),
    (b"FAR_DATA", b"FAR_DATA", 0, False, 3), (b"FAR_BSS", b"FAR_BSS", 0, False, 1),
    (b"HEAP", b"HEAP", 2, False, 1), (b"SHARED", b"DATA", 6, True, 1), (b"", b"", 2, False, 1),
    (b"_DATA", b"data", 2, True, 1), (b"MORE_DATA", b"FAR_DATA", 2, False, 3),
    (b"FAR_SHARED", b"FAR_DATA", 6, False, 2), (b"FAR_DATA", b"FAR_DATA", 2, False, 1)]
# their names, and the classes that are kept out of a program
DEBUG_SEGMENTS = [
    (b"$$SYMBOLS", b"DEBSYM"), (b"$$TYPES", b"DEBTYP"), (b".debug_info", b"DWARF"),
    (b".debug_line", b"DWARF"), (b"", b"DWARF"), (b"DWARF", b"dwarf")]
LONG_LENGTHS = [0x4000, 0x7FE1, 0x8000, 0xFFE1, 0xFFF0, 0xFFF1, 0xFFF1]
CLASSES = sorted({class_name for _, class_name, *_ in SEGMENTS})
NAMES = [
    b"_main", b"_MAIN", b"main", b"_printf", b"printf", b"__printf", b"_exit", b"EXIT", b"exit",
    b"x", b"X", b"_x", b"@", b"`", b"\xE9", b"\xC9", b"y", b"z", b"", b"w"]
MARKS = [*BEGIN_MARKS, *END_MARKS]
TITLES = [b"HELLO.ASM", b"printf", b"a b", b"\x1F\"", b""]
DEFAULT_LIBRARY, OTHER_DEFAULT_LIBRARY, DOSSEG, LIBRARY_MODULE_NAME = 0x9F, 0x81, 0x9E, 0xA3
WEAK, LAZY = 0xA8, 0xA9


@dataclass
class Plan:
    """What the modules of a link share.

    It is the segments that they may have, names, and how likely each of some things is in a module.
    """

    segments: list
    names: list
    wants_marks: float
    is_dosseg: float
    has_others: float
    has_debug: float
    has_long: float
    is_wide: float
    has_communals: float
    has_aliases: float
    has_defaults: float
    has_local_defaults: bool = False
    has_lines: float = 0.2
    ignores_case: bool = False
    libraries: list = field(default_factory=list)
    # names of communal variables, and those that some module declares
    communals: list = field(default_factory=list)
    declared: list = field(default_factory=list)
    # COMDATs that modules share, and the names of those that some module has
    comdats: list = field(default_factory=list)
    shared: list = field(default_factory=list)


def segments_called(names):
    """The usual segments of these names that combine, each once."""
    return [each for each in SEGMENTS if each[0] in names and each[2]]


def any_plan(random, names):
    """A plan with some of the usual segments, often with those of DGROUP."""
    weights = [often for *_, often in SEGMENTS]
    chosen = random.choices(SEGMENTS, weights, k=random.choice([3, 4, 6, 9]))
    return Plan(
        chosen, names, random.choice([0, 0, 0.3]), random.choice([0, 0, 0.2]),
        random.choice([0, 0, 0, 0.6]), random.choice([0, 0, 0.6]), random.choice([0, 0, 0.4]),
        random.choice([0, 0, 0.6]), random.choice([0, 0.3, 0.8]), random.choice([0, 0, 0.4]),
        random.choice([0, 0.4, 0.8]),
        communals=random.sample([*communals.NAMES, *names, *MARKS], random.choice([1, 2, 3, 5])))


class ObjectMaker:
    """Makes one module that wants and offers names."""

    def __init__(self, random, plan, wanted, offered):
        self.random = random
        self.plan = plan
        self.wanted = wanted
        self.offered = offered
        self.spelling = RandomSpelling(random)
        self.pieces = []
        self.names = [b"", GROUP]
        self.externals = 0
        self.lengths = []
        self.grouped = []
        # threads that fix-ups of what is kept out set, for targets
        self.threads = []
        # of each segment, whether it is absolute
        self.absolute = []
        # those that start-up code clears
        self.cleared = []

    def happens(self, likelihood):
        return self.random.random() < likelihood

    def add(self, record):
        self.pieces.append(self.spelling.record(record))

    def add_other(self, kind, body, is_cut=0.1):
        """A record of a type that no link takes, at times cut."""
        body = body[:self.random.randrange(len(body) + 1)] if self.happens(is_cut) else body
        self.pieces.append(reclosed(self.random, kind, body))

    def make(self, title, has_start=False, library_name=None):
        """The bytes of the module."""
        self.add(records.Header(title))
        if self.happens(0.01):
            # a header of the other type
            self.pieces = [reclosed(self.random, 0x82, self.counted(title))]
        self.add_comments(library_name)
        self.define_segments()
        steps = [self.define_externals, self.define_publics, self.define_local_names]
        if self.happens(self.plan.has_communals):
            steps.append(self.define_communals)
        if self.happens(self.plan.has_aliases):
            steps.append(self.define_aliases)
        if self.happens(self.plan.has_defaults):
            steps.append(self.define_defaults)
        if self.plan.has_local_defaults:
            steps.append(self.define_local_default)
        if self.happens(self.plan.has_lines):
            steps.append(self.add_lines)
        if self.happens(0.05):
            steps.append(self.add_communal_externals)
        if self.happens(self.plan.has_others):
            steps += self.random.sample([
                self.add_communal_externals, self.add_publics_of_32_bits, self.add_communal_data,
                self.add_aliases, self.add_names_without_type, self.add_patches],
                self.random.randrange(1, 4))
        comdats = ComdatMaker(self) if self.plan.comdats else None
        steps += [comdats.define_externals] if comdats else []
        self.random.shuffle(steps)
        for step in steps:
            step()
        behind = [self.add_data] + ([comdats.add_all] if comdats else [])
        self.random.shuffle(behind)
        for step in behind:
            step()
        if self.debug:
            self.add_debug_data()
        start = Reference(Direct(Method.SEGMENT, 1), Direct(Method.SEGMENT, 1), 0)
        self.add(records.ModuleEnd(has_start, start if has_start else None))
        content = b"".join(self.pieces)
        return widened(self.random, content) if self.happens(self.plan.is_wide) else content

    def add_comments(self, library_name):
        """A librarian's name, default libraries, and the DOSSEG order; at times any comment."""
        if library_name is not None:
            length = b"" if self.happens(0.2) else bytes([len(library_name)])
            self.add_comment(LIBRARY_MODULE_NAME, length + library_name)
        for name in self.plan.libraries:
            if self.happens(0.3):
                classes = [DEFAULT_LIBRARY, DEFAULT_LIBRARY, OTHER_DEFAULT_LIBRARY]
                self.add_comment(self.random.choice(classes), name)
        if self.happens(self.plan.is_dosseg):
            self.add_comment(DOSSEG, self.random.choice([b"", b"\0"]))
        if self.happens(0.1):
            self.add_comment(self.random.choice([0, 0x9D, 0xA0]), b"SLIBCE")
        if self.happens(0.01):
            # what no program for DOS has: imported names, and records of another form
            class_byte, content = self.random.choice([
                (0xA0, b"\1\0\1a\1b\0"), (0xA0, b"\2\0\1a\0"), (0xAA, b"80386"), (0xAA, b"")])
            self.add_comment(class_byte, content)

    def add_comment(self, class_byte, content):
        self.add(records.Comment(self.random.choice([0, 0x40, 0x80]), class_byte, content))

    def define_segments(self):
        """Some segments, their names, and mostly DGROUP."""
        chosen = self.random.sample(self.plan.segments, self.random.choice([1, 2, 2, 3]))
        for name, class_name, combination, in_group, _ in chosen:
            self.names += [name, class_name]
            is_long = class_name == b"FAR_DATA" and self.happens(self.plan.has_long)
            lengths = LONG_LENGTHS if is_long else [0, 1, 5, 16, 17, 33]
            self.lengths.append(self.random.choice(lengths))
            self.cleared += [len(self.lengths)] if class_name == b"BSS" else []
            self.absolute.append(self.happens(0.03))
            if not self.absolute[-1] and (
                    in_group and self.happens(0.95) or self.happens(0.03)):
                self.grouped.append(len(self.lengths))
        has_other = self.happens(0.2)
        self.names += [OTHER_GROUP] if has_other else []
        other_group = len(self.names)
        self.add(records.NameList(self.names))
        for number, (_, _, combination, *_) in enumerate(chosen):
            where = [0, 0xB800, 4] if self.absolute[number] else [
                self.random.choice([1, 1, 2, 3, 3, 5]), None, None]
            self.add(records.SegmentDefinition(
                where[0], combination, self.lengths[number], 2 * number + 3, 2 * number + 4, 1,
                *where[1:]))
        self.define_debug_segments()
        if has_other:
            self.add(records.GroupDefinition(other_group, [1]))
        # the index of DGROUP, or 0
        self.group = 1 + has_other if self.grouped and self.happens(0.95) else 0
        if self.group:
            self.add(records.GroupDefinition(2, self.grouped))
        # a group of all memory, which a fix-up may name
        self.flat = 0
        if self.happens(0.02):
            self.listed([b"FLAT"], 0x96)
            self.add(records.GroupDefinition(len(self.names), []))
            self.flat = 1 + has_other + (self.group != 0)

    def define_debug_segments(self):
        """Segments that debuggers read, by either type of record, behind the others."""
        self.debug = []
        if not self.happens(self.plan.has_debug):
            return
        chosen = self.random.sample(DEBUG_SEGMENTS, self.random.choice([1, 1, 2]))
        indexes = self.listed([name for segment in chosen for name in segment], 0x96)
        for number in range(len(chosen)):
            width = self.random.choice([2, 4])
            length = self.random.choice([0, 8, 300])
            first = self.random.choice([0x20, 0x28, 0x48, 0x60]) | width // 4
            body = bytes([first]) + length.to_bytes(width, "little")
            for index in indexes[2 * number:2 * number + 2]:
                body += self.spelling.index(index)
            self.add_other(0x98 + width // 4, body + b"\1", 0.02)
            self.debug.append((len(self.lengths) + number + 1, width, length))

    def add_debug_data(self):
        """Bytes of these segments, with fix-ups of all kinds behind them."""
        for index, width, length in self.debug:
            for _ in range(self.random.choice([1, 1, 2])):
                count = min(length, 8)
                body = self.spelling.index(index) + bytes(width) + bytes(count)
                self.add_other(0xA0 + width // 4, body, 0.02)
                if self.happens(0.7):
                    fixups = [self.debug_fixup(width) for _ in range(self.random.choice([1, 2]))]
                    self.add_other(0x9C + width // 4, b"".join(fixups), 0.02)
        if self.happens(0.2):
            # a fix-up behind them is of these bytes, unless other data comes before it
            self.add(records.FixupRecord([self.fixup()]))
        elif self.happens(0.5):
            self.add_data()

    def debug_fixup(self, width):
        """A thread, or a fix-up of any location; rarely of a method that there isn't."""
        method = self.random.choice([0, 0, 1, 2, 3] if self.happens(0.05) else [0])
        if self.happens(0.3):
            kind, number = self.random.choice([0, 0x40]), self.random.randrange(4)
            if kind == 0 and method == 0:
                self.threads.append(number)
            return bytes([kind | method << 2 | number, 1])
        location = self.random.choice([1, 2, 3, 9, 13])
        fix_data = self.random.choice([method << 4, 0x50, 0x50, 0x58, 0xD8])
        fix_data |= 4 * self.random.randrange(2)
        front = bytes([0xC0 | location << 2 & 0x3F, 0, fix_data])
        front += b"\1" if fix_data < 0x40 else b""
        front += b"" if fix_data & 8 else b"\1"
        return front + (b"" if fix_data & 4 else bytes(width))

    def define_externals(self):
        """The names that it wants, in one record or some, and at times marks."""
        names = list(self.wanted)
        if self.happens(self.plan.wants_marks):
            mark = self.other_case(self.random.choice(MARKS))
            names.insert(self.random.randrange(len(names) + 1), mark)
        if self.happens(0.1):
            # at times one twice
            names.append(self.random.choice([*names, *self.plan.names, *self.any_names()]))
        if self.plan.declared and self.happens(0.3):
            names.append(self.random.choice(self.plan.declared))
        self.externals += len(names)
        half = self.random.randrange(len(names) + 1)
        for part in (names[:half], names[half:]):
            self.add(records.ExternalNames(part, [0] * len(part)))

    def define_communals(self):
        """Some of the plan's communal variables in one record or two, at times local ones."""
        known = self.plan.communals
        names = self.random.sample(known, self.random.randrange(1, len(known) + 1))
        names += [self.random.choice(names)] if self.happens(0.05) else []
        half = self.random.randrange(len(names) + 1)
        for part in filter(None, (names[:half], names[half:])):
            is_local = self.happens(0.15)
            part = [self.other_case(name) for name in part]
            entries = [
                communals.usual_entry(self.random, name, self.spelling.index(0)) for name in part]
            kind = communals.LCOMDEF if is_local else communals.COMDEF
            self.add_other(kind, b"".join(entries), 0.01)
            self.externals += len(part)
            self.plan.declared += [] if is_local else part

    def other_case(self, name):
        """A name, at times in another case where case is ignored."""
        if self.happens(0.3 if self.plan.ignores_case else 0.01):
            return self.random.choice([name.upper(), name.lower(), name.swapcase()])
        return name

    def define_publics(self):
        """The names that it offers, rarely a mark."""
        names = list(self.offered)
        if self.happens(self.plan.wants_marks / 5):
            names.append(self.random.choice(MARKS))
        segment = self.random.randrange(1, len(self.lengths) + 1)
        is_absolute = self.happens(0.1)
        in_group = self.group and segment in self.grouped and self.happens(0.7)
        segment, frame = (0, 0xB800) if is_absolute else (segment, None)
        publics = [PublicName(name, self.random.randrange(20), 0) for name in names]
        self.add(records.PublicNames(self.group if in_group else 0, segment, frame, publics))

    def define_local_names(self):
        """Names that other modules don't see."""
        if self.happens(0.15):
            name = self.random.choice([*self.plan.names, *self.plan.communals, *MARKS])
            self.add(records.LocalPublicNames(0, 1, None, [PublicName(name, 0, 0)]))
            if self.happens(0.5):
                # no data wants it, so that the numbers of others stay
                kind = self.random.choice([0xB4, 0xB4, 0xB5])
                self.pieces.append(reclosed(self.random, kind, self.counted(name) + b"\0"))
                self.externals = 0

    def add_lines(self):
        """Numbers of lines, with the offset of each: of any segment and by any group, rarely of none that is there."""
        for _ in range(self.random.choice([1, 1, 2, 3])):
            known = len(self.lengths) + (2 if self.happens(0.05) else 0)
            segment = self.random.randrange(0 if self.happens(0.02) else 1, known + 1)
            group = self.random.choice([0, 0, self.group, 1]) if self.happens(0.5) else 0
            first = self.random.choice([1, 9, 99, 9_998, 65_520])
            count = self.random.choice([0, 1, 2, 3, 4, 5, 8, 9])
            offsets = [self.random.choice([2 * number, 0, 0xFFFF]) for number in range(count)]
            self.add(records.LineNumbers(group, segment, list(enumerate(offsets, first))))

    def counted(self, name):
        return records.name(name)

    def any_names(self):
        """The names of the plan, at times also others."""
        return NAMES if self.happens(0.2) else self.plan.names

    def some_names(self):
        known = self.any_names()
        return self.random.sample(known, min(self.random.choice([0, 1, 1, 2]), len(known)))

    def listed(self, names, kind=None):
        """Indexes of names that a record lists now, rarely of none."""
        kind = kind or self.random.choice([0x96, 0xCA])
        self.add_other(kind, b"".join(map(self.counted, names)), 0.03)
        self.names += names
        count = len(self.names)
        indexes = range(count - len(names) + 1, count + 1)
        return [0 if self.happens(0.05) else index for index in indexes]

    def add_communal_externals(self):
        indexes = self.listed(self.some_names())
        entries = [self.spelling.index(index) + self.spelling.index(0) for index in indexes]
        self.add_other(0xBC, b"".join(entries))
        self.externals += len(indexes)

    def add_publics_of_32_bits(self):
        """Publics by another type of record, or of a frame."""
        base = self.random.choice([b"\0\1", b"\0\0\0\xB8", b"\1\x80\1"])
        entries = [self.counted(name) + bytes(4) + b"\0" for name in self.some_names()]
        self.add_other(0x91, base + b"".join(entries))

    def add_communal_data(self):
        """A COMDAT of any allocation, local or not."""
        for index in self.listed(self.some_names()):
            kind, width = self.random.choice([(0xC2, 2), (0xC3, 4)])
            flags = self.random.choice([0, 1, 2, 4, 5])
            allocation = self.random.choice([0, 0, 1, 2])
            base = self.random.choice([b"\0\1", b"\0\0\0\xB8"]) if allocation == 0 else b""
            attributes = self.random.choice([0, 0x10]) | allocation
            front = bytes([flags, attributes, 1]) + bytes(width) + b"\0"
            self.add_other(kind, front + base + self.spelling.index(index) + bytes(3))

    def add_patches(self):
        """Changes of data, by a type of record that no link takes."""
        kind = self.random.choice([0xB2, 0xB3, 0xC8, 0xC9])
        self.add_other(kind, b"\1\1" + bytes(8 if kind & 1 else 4))

    def define_aliases(self):
        """Aliases of names, mostly of those that modules offer, and rarely one of itself."""
        offered = [*self.wanted, *self.offered]
        pairs = [
            (self.random.choice([*offered, *self.plan.names]), self.random.choice(offered))
            for _ in range(self.random.choice([1, 1, 2, 3]) if offered else 0)]
        pairs = [(a, b) for a, b in pairs if a != b or self.happens(0.1)]
        if pairs:
            self.add_other(0xC6, b"".join(self.counted(a) + self.counted(b) for a, b in pairs), 0.05)

    def external_index(self):
        """The index of an external so far; rarely one of none."""
        if self.happens(0.04):
            return self.random.choice([0, self.externals + 1])
        return self.random.randrange(1, self.externals + 1)

    def define_defaults(self):
        """Weak or lazy externals and their defaults; rarely cut."""
        if self.externals:
            indexes = [self.external_index() for _ in range(2 * self.random.choice([1, 1, 2, 3]))]
            text = b"".join(map(self.spelling.index, indexes))
            text = text[:-1] if self.happens(0.05) else text
            self.add_comment(self.random.choice([WEAK, LAZY]), text)

    def define_local_default(self):
        """A weak or lazy external whose default is a local public of the module, or a variable.

        Mostly nothing defines its own name.
        """
        name = self.random.choice([b"_weak", b"_weak", *self.plan.names])
        self.add(records.ExternalNames([name], [0]))
        if self.happens(0.3):
            self.add_other(communals.LCOMDEF, self.counted(b"_own") + b"\0\x62\2", 0)
        else:
            self.add(records.LocalExternalNames([b"_own"], [0]))
            self.add(records.LocalPublicNames(
                0, 1, None, [PublicName(b"_own", self.random.randrange(20), 0)]))
        self.externals += 2
        indexes = [self.externals - 1, self.externals]
        self.add_comment(
            self.random.choice([WEAK, LAZY]), b"".join(map(self.spelling.index, indexes)))

    def add_aliases(self):
        aliases = [*self.some_names(), *self.some_names()]
        pairs = [(alias, self.random.choice(self.plan.names)) for alias in aliases]
        self.add_other(0xC6, b"".join(self.counted(a) + self.counted(b) for a, b in pairs))

    def add_names_without_type(self):
        """Externals or publics, of which the last has no type index."""
        entries = [self.counted(self.random.choice(self.plan.names)) for _ in range(2)]
        kind, base, offset = self.random.choice([(0x8C, b"", b""), (0x90, b"\0\1", b"\0\0")])
        self.add_other(kind, base + entries[0] + offset + b"\0" + entries[1] + offset)

    def add_data(self):
        """Bytes of some segments, with fix-ups to what is wanted and to other segments."""
        for number, length in enumerate(self.lengths, 1):
            likelihood = 0.15 if number in self.cleared else 0.7
            if length and not self.absolute[number - 1] and self.happens(likelihood):
                content = bytes(self.random.randrange(256) for _ in range(min(length, 12)))
                if self.happens(0.5):
                    content = content[:2] + bytes(len(content[2:4])) + content[4:]
                if length >= 8 and self.happens(0.3):
                    self.add_repeated_data(number)
                    continue
                self.add(records.Data(number, 0, content))
                if length >= 4 and self.happens(0.7):
                    self.add(records.FixupRecord([self.fixup_in(content)]))

    def add_repeated_data(self, number):
        """Bytes that are repeated, with fix-ups in them."""
        content = bytes([self.random.randrange(256), 0, 0, 0])
        block, place = records.Block(2, content), 5
        if self.happens(0.5):
            block, place = records.Block(1, [block]), 9
        self.add(records.RepeatedData(number, 0, [block]))
        if self.happens(0.7):
            place += self.random.choice([0, 0, 0, 1, -2])
            self.add(records.FixupRecord([replace(self.fixup(), offset=place)]))

    def fixup_in(self, content):
        """One in some bytes: an offset at times at their end, where a wider one has no room."""
        fixup = self.fixup()
        if fixup.location == Location.OFFSET and content[-1] < 32:
            return replace(fixup, offset=len(content) - 2)
        return fixup

    def fixup(self):
        """An offset, a pointer or a base of an external or a segment, at times of bytes behind."""
        targets = [Direct(Method.SEGMENT, self.random.randrange(1, len(self.lengths) + 1))]
        if self.externals:
            targets += 3 * [Direct(
                Method.EXTERNAL, self.random.randrange(1, self.externals + 1))]
        if self.threads and self.happens(0.5):
            targets = [ByThread(self.random.choice(self.threads))]
        frame = Direct(Method.TARGET)
        if self.group and self.happens(0.3):
            frame = Direct(Method.GROUP, self.group)
        if self.flat and self.happens(0.5):
            frame = Direct(Method.GROUP, self.flat)
        location = self.random.choice([Location.OFFSET, Location.POINTER, Location.BASE])
        behind = self.random.randrange(3) if self.happens(0.2) else None
        return Fixup(True, location, 0, Reference(frame, self.random.choice(targets), behind))


def module_of_long_externals(length):
    """A module that wants a name by indexes, and by its names a record's body has such a length."""
    spelling, size, count = records.Spelling(), 217, length // 217
    # a name, its length and a type index of a byte, and at last one of two
    names = [(size - 2) * b"a", (size - 3 + length % size) * b"b"]
    indexes = (count - 1) * b"\1\0" + b"\2\x80\0"
    publics = [PublicName(name, 0, 0) for name in names]
    return b"".join([
        spelling.record(records.Header(b"LONG")), spelling.record(records.NameList(names)),
        spelling.framed(0xBC, indexes), spelling.record(records.PublicNames(0, 0, 0, publics)),
        spelling.record(records.ModuleEnd(False, None))])


def module_of_long_aliases(length):
    """A module that wants aliases, and by what these stand for a record's body has such a length."""
    spelling, size, count = records.Spelling(), 217, length // 217
    names = [(size - 2) * b"a", (size - 3 + length % size) * b"b"]
    aliases = [b"\1p" + records.name(names[0]), b"\1q" + records.name(names[1])]
    externals = (count - 1) * b"\1p\0" + b"\1q\x80\0"
    publics = [PublicName(name, 0, 0) for name in names]
    return b"".join([
        spelling.record(records.Header(b"LONG")), spelling.framed(0xC6, b"".join(aliases)),
        spelling.framed(0x8C, externals), spelling.record(records.PublicNames(0, 0, 0, publics)),
        spelling.record(records.ModuleEnd(False, None))])


def module_of_many_parts(count):
    """A module of so many segments of one class, of which none combines and the first has a byte."""
    spelling = records.Spelling()
    names = [b"", b"CODE", *(b"%d" % number for number in range(count))]
    made = [records.Header(b"MANY")]
    made += [records.NameList(names[at:at + 5000]) for at in range(0, len(names), 5000)]
    made += [
        records.SegmentDefinition(1, 2, int(number == 0), number + 3, 2, 1)
        for number in range(count)]
    made.append(records.ModuleEnd(False, None))
    return b"".join(map(spelling.record, made))


def module_of_far_data(number, alignment, length, combination=0, name=b"FAR", in_group=False):
    """A module of far data of an alignment, with its own frame's number unless it is absolute.

    That is said by the segment, by the target, by the location or by a public, in turn.
    """
    segment, frame = Direct(Method.SEGMENT, 1), Direct(Method.TARGET)
    itself = [
        Reference(segment, segment, None), Reference(frame, segment, None),
        Reference(Direct(Method.LOCATION), segment, None),
        Reference(frame, Direct(Method.EXTERNAL, 1), None)][number % 4]
    public = b"far%d" % number
    made = [
        records.Header(b"FAR"), records.NameList([b"", b"FAR_DATA", name, b"FARS"]),
        records.SegmentDefinition(
            alignment, combination, length, 3, 2, 1, *([] if alignment else [0xB800, 0]))]
    if alignment:
        made += [records.GroupDefinition(4, [1])] if in_group else []
        made += [
            records.ExternalNames([public], [0]),
            records.PublicNames(0, 1, None, [records.PublicName(public, 1, 0)]),
            records.Data(1, 2 * number if length > 8 else 0, bytes(2)),
            records.FixupRecord([Fixup(True, Location.BASE, 0, itself)])]
    made.append(records.ModuleEnd(False, None))
    return b"".join(map(records.Spelling().record, made))


def module_of_lengths(names, combination, lengths, is_grouped):
    """A module of segments of these names and lengths, which are in one group or not."""
    made = [
        records.Header(b"LENGTHS"), records.NameList([b"", b"CODE", b"GROUP", *names]),
        *[records.SegmentDefinition(1, combination, length, number, 2, 1)
          for number, length in enumerate(lengths, 4)]]
    if is_grouped:
        made.append(records.GroupDefinition(3, list(range(1, len(lengths) + 1))))
    made.append(records.ModuleEnd(False, None))
    return b"".join(map(records.Spelling().record, made))


def module_of_stack(name, class_name, length, random):
    """A module with a stack of this name, class and length, or with code and no stack."""
    code = [
        records.SegmentDefinition(1, 2, 5, 3, 4, 1), records.Data(1, 0, bytes(5)),
        records.GroupDefinition(2, [])]
    stack = [records.SegmentDefinition(
        random.choice([1, 2, 3]), 5, length or 0, 5, 6, 1)]
    if random.random() < 0.3:
        stack.append(records.GroupDefinition(2, [1]))
    if length and random.random() < 0.2:
        stack.append(records.Data(1, length - 1, b"x"))
    made = [
        records.Header(b"STACKED"),
        records.NameList([b"", b"DGROUP", b"_TEXT", b"CODE", name, class_name]),
        *(code if length is None else stack), records.ModuleEnd(False, None)]
    return b"".join(map(records.Spelling().record, made))


def module_of_default(name, default, kind, others=(), is_local=False):
    """A module that calls a name, which by a comment of this class has a default; by None, none.

    It has other externals behind these two. Where the default is local, the module has a public of
    its own of that name.
    """
    names = [name, default, *others]
    externals = [records.ExternalNames(names, [0] * len(names))]
    if is_local:
        externals = [
            records.ExternalNames([name], [0]), records.LocalExternalNames([default], [0]),
            records.ExternalNames(list(others), [0] * len(others)),
            records.LocalPublicNames(0, 1, None, [PublicName(default, 2, 0)])]
    target = Reference(Direct(Method.TARGET), Direct(Method.EXTERNAL, 1), None)
    made = [
        records.Header(b"CALLS"), records.NameList([b"", b"CODE"]),
        records.SegmentDefinition(1, 2, 3, 2, 2, 1), *externals,
        *([] if kind is None else [records.Comment(0, kind, b"\1\2")]),
        records.Data(1, 0, b"\xE8\0\0"),
        records.FixupRecord([Fixup(False, Location.OFFSET, 1, target)]),
        records.ModuleEnd(False, None)]
    return b"".join(map(records.Spelling().record, made))


def module_of_local_defaults(name, defaults, use, are_variables):
    """A module whose externals are a name, `a`, and two local ones: publics of its, or variables.

    Each default is the class of a comment, and the indexes of an external and of its default. The
    name is used as `use` says; at the offset 1 a sum or a start of 32 bits is 65,536.
    """
    spelling, external = records.Spelling(), Direct(Method.EXTERNAL, 1)
    itself, second = Reference(Direct(Method.TARGET), external, None), Direct(Method.SEGMENT, 2)
    fixups = {
        "offset": [Fixup(True, Location.OFFSET, 0, itself)],
        "base": [Fixup(True, Location.BASE, 0, itself)],
        "frame": [Fixup(True, Location.OFFSET, 0, Reference(external, second, None))],
        "threads": [
            ThreadSetting(True, 1, external), ThreadSetting(False, 2, external),
            Fixup(True, Location.POINTER, 0, Reference(ByThread(1), ByThread(2), None))],
        "other": [Fixup(True, Location.POINTER, 0, Reference(
            Direct(Method.TARGET), Direct(Method.EXTERNAL, 2), None))]}
    made = [
        records.Header(b"LOCAL"), records.NameList([b"", b"CODE", b"DATA"]),
        records.SegmentDefinition(1, 2, 8, 2, 2, 1), records.SegmentDefinition(3, 0, 4, 3, 3, 1),
        records.ExternalNames([name, b"a"], [0, 0])]
    local = [spelling.framed(0xB8, b"\1l\0\x62\2\1m\0\x61\2\1")] if are_variables else [
        spelling.record(records.LocalExternalNames([b"l", b"m"], [0, 0])),
        spelling.record(records.LocalPublicNames(
            0, 2, None, [PublicName(b"l", 1, 0), PublicName(b"m", 2, 0)]))]
    stored = b"\xFF\xFF\0\0" if use == "sum" else bytes(4)
    behind = [
        *(records.Comment(0, kind, bytes([index, default])) for kind, index, default in defaults),
        records.Data(1, 0, stored), records.FixupRecord(fixups.get(use, []))]
    ends = {
        "start": (0x8A, b"\xC1\x56\1"), "start of 32 bits": (0x8B, b"\xC1\x52\1\xFF\xFF\0\0")}
    return b"".join([
        *map(spelling.record, made), *local, *map(spelling.record, behind),
        spelling.framed(0x9C, b"\xE4\0\x56\1") if use == "sum" else b"",
        spelling.framed(*ends.get(use, (0x8A, b"\0")))])


def module_of_external(name, kind):
    """A module that calls a name, which is an external by a record of this type."""
    target = Reference(Direct(Method.TARGET), Direct(Method.EXTERNAL, 1), None)
    bodies = {0x8C: records.name(name) + b"\0", 0xBC: b"\3\0"}
    spelling = records.Spelling()
    return b"".join([
        *map(spelling.record, [
            records.Header(b"CALLS"), records.NameList([b"", b"CODE", name]),
            records.SegmentDefinition(1, 2, 3, 2, 2, 1)]),
        spelling.framed(kind, bodies.get(kind, records.name(name) + b"\0\x62\2")),
        *map(spelling.record, [
            records.Data(1, 0, b"\xE8\0\0"),
            records.FixupRecord([Fixup(False, Location.OFFSET, 1, target)]),
            records.ModuleEnd(False, None)])])


def module_of_alias(alias, name):
    """A module in which a name stands for another."""
    spelling = records.Spelling()
    return b"".join([
        spelling.record(records.Header(b"ALIAS")),
        spelling.framed(0xC6, records.name(alias) + records.name(name)),
        spelling.record(records.ModuleEnd(False, None))])


def module_of_links(offered, wanted, library):
    """A module that offers these names, wants others, and names a default library."""
    publics = [PublicName(name, 0, 0) for name in offered]
    made = [
        records.Header(b"LINKS"), records.NameList([b"", b"CODE"]),
        records.Comment(0, DEFAULT_LIBRARY, library),
        records.SegmentDefinition(1, 2, 1, 2, 2, 1), records.ExternalNames(wanted, [0] * len(wanted)),
        records.PublicNames(0, 1, None, publics), records.Data(1, 0, b"\x90"),
        records.ModuleEnd(False, None)]
    return b"".join(map(records.Spelling().record, made))


def module_of_publics(names):
    """A module that offers these names, each a byte behind the one before."""
    publics = [PublicName(name, place, 0) for place, name in enumerate(names)]
    made = [
        records.Header(b"OFFERS"), records.NameList([b"", b"CODE"]),
        records.SegmentDefinition(1, 2, len(names), 2, 2, 1),
        records.PublicNames(0, 1, None, publics),
        records.Data(1, 0, bytes(len(names))), records.ModuleEnd(False, None)]
    return b"".join(map(records.Spelling().record, made))


def module_of_sum(location, place, number, displacement, is_repeated):
    """A module of so many bytes and four more, with the offset of its segment at this location there,
    a displacement, and a number that stands there."""
    spelling = records.Spelling()
    stored = bytes(place) + (number % 2 ** 32).to_bytes(4, "little")
    length = len(stored).to_bytes(2, "little")
    data = (0xA2, b"\1\0\0\1\0\0\0\4") if is_repeated else (0xA0, b"\1\0\0")
    place += 5 if is_repeated else 0
    return b"".join([
        spelling.record(records.Header(b"SUM")),
        spelling.record(records.NameList([b"", b"CODE"])),
        spelling.framed(0x98, b"\x28" + length + b"\2\1\1"),
        spelling.framed(data[0], data[1] + stored),
        spelling.framed(0x9C, (
            bytes([0xC0 | location << 2 | place >> 8, place & 0xFF, 0x50, 1])
            + displacement.to_bytes(2, "little"))),
        spelling.record(records.ModuleEnd(False, None))])


def module_of_shared_word(location, place, relative, number):
    """A module of twelve bytes, with 256 and a number behind its segment's offset in 32 bits at the
    fifth of them, and a fix-up at this location and place, which is self-relative or not, before it
    or behind."""
    spelling = records.Spelling()
    first = (0x80 if relative else 0xC0) | location << 2
    fixups = [bytes([0xE4, 4, 0x50, 1, 0, 1]), bytes([first, place, 0x54, 1])]
    stored = bytes(4) + (number % 2 ** 32).to_bytes(4, "little") + bytes(4)
    return b"".join([
        spelling.record(records.Header(b"SHARED")),
        spelling.record(records.NameList([b"", b"CODE"])),
        spelling.framed(0x98, b"\x28\x0C\0\2\1\1"),
        spelling.framed(0xA0, b"\1\0\0" + stored),
        *[spelling.framed(0x9C, body) for body in (fixups if place % 2 else reversed(fixups))],
        spelling.record(records.ModuleEnd(False, None))])


def module_of_start(kind, displacement):
    """A module of four bytes whose start, by this type of MODEND, stands so far in its segment."""
    spelling = records.Spelling()
    width = 4 if kind % 2 else 2
    return b"".join([
        spelling.record(records.Header(b"START")),
        spelling.record(records.NameList([b"", b"CODE"])),
        spelling.framed(0x98, b"\x28\4\0\2\1\1"),
        spelling.framed(0xA0, b"\1\0\0\x90\x90\x90\x90"),
        spelling.framed(kind, b"\xC1\x50\1" + displacement.to_bytes(width, "little"))])


def module_of_form(below, length, start, amiss):
    """A module that is a .COM program but for what is amiss: data so far below 100H, so many bytes from
    there on, a start; and a segment address ("word"), a stack, a byte that no data covers ("bss"), another
    first frame. A record of data without a byte ("empty") is none of that."""
    spelling = records.Spelling()
    index = 2 if "frame" in amiss else 1
    begin = 0x100 - below
    data = bytes(number % 251 for number in range(below + length))
    end = 0x100 + length
    word = end.to_bytes(2, "little") if end < 0x10000 else b"\0\0"
    found = [
        spelling.record(records.Header(b"FORM")),
        spelling.record(records.NameList([b"", b"CODE", b"STACK", b"BSS", b"_TEXT", b"FRONT"]))]
    found += [spelling.framed(0x98, b"\x60\x10\0\6\6\1")] if index == 2 else []
    found.append(spelling.framed(0x98, bytes([0x68 if end < 0x10000 else 0x6A]) + word + b"\5\2\1"))
    found += [spelling.framed(0x98, b"\x74\x10\0\3\3\1")] if "stack" in amiss else []
    found += [spelling.framed(0x98, b"\x28\1\0\4\4\1")] if "bss" in amiss else []
    found += [spelling.framed(0xA0, bytes([index, 0, 0]))] if "empty" in amiss else []
    for place in range(0, len(data), 1000):
        content = data[place:place + 1000]
        found.append(spelling.framed(
            0xA0, bytes([index]) + (begin + place).to_bytes(2, "little") + content))
        if "word" in amiss and place == 0 and len(content) > 1:
            found.append(spelling.framed(0x9C, bytes([0xC8, 0, 4, index, index])))
    end_of = b"\0" if start is None else bytes([0xC1, 0x50, index]) + start.to_bytes(2, "little")
    return b"".join([*found, spelling.framed(0x8A, end_of)])


def module_of_edge(name, distance, header):
    """A module of this name with publics at a distance from their frame, below it, and without one, and a local one.

    It has lines of three segments, which are of a group or of none; its first record is of this type.
    """
    spelling, first = records.Spelling(), 0xFFF0
    title = records.name(name)
    made = [
        records.NameList([b"", b"CODE", b"LOW", b"REST", b"HIGH", b"LOWS" + name, b"HIGHS" + name, b"NONE"]),
        records.SegmentDefinition(3, 0, 16, 3, 2, 1), records.SegmentDefinition(3, 0, first - 16, 4, 2, 1),
        records.SegmentDefinition(3, 0, 0x40, 5, 2, 1), records.GroupDefinition(6, [1]),
        records.GroupDefinition(7, [3]), records.GroupDefinition(8, []),
        records.PublicNames(1, 3, None, [PublicName(b"at_" + name, distance - first, 0)]),
        records.PublicNames(2, 1, None, [PublicName(b"below_" + name, 9, 0)]),
        records.PublicNames(3, 1, None, [PublicName(b"no_" + name, 10, 0)]),
        records.PublicNames(3, 2, None, [PublicName(b"free_" + name, 20, 0)]),
        records.LocalPublicNames(0, 1, None, [PublicName(b"own_" + name, 3, 0)]),
        records.Data(1, 0, bytes(16)), records.Data(3, 0, bytes(4)),
        records.LineNumbers(1, 3, [(65_535, distance - first), (7, 2), (12, 10), (345, 0x3F), (6_789, 0)]),
        records.LineNumbers(3, 1, [(10, 11)]), records.LineNumbers(0, 2, [(1, 0xFF), (2, 0xABC)]),
        records.ModuleEnd(False, None)]
    return spelling.framed(header, title) + b"".join(map(spelling.record, made))


def module_of_no_alignment(kind):
    """A module with a 32-bit segment, and one by this type of record whose alignment is none."""
    spelling = records.Spelling()
    length = b"\1\0\0\0" if kind & 1 else b"\1\0"
    return b"".join([
        spelling.record(records.Header(b"AMISS")),
        spelling.record(records.NameList([b"", b"CODE"])),
        spelling.framed(0x99, b"\x29\1\0\0\0\2\2\1"),
        spelling.framed(kind, b"\xE8" + length + b"\2\2\1"),
        spelling.record(records.ModuleEnd(False, None))])


# the type of public names, and the index of their base group
FLAT_PUBLICS = {"publics": (0x90, 1), "local publics": (0xB6, 1), "publics of another group": (0x90, 2)}


def module_of_flat(use):
    """A module with a group FLAT, whose frame something has, or nothing, or another group."""
    spelling = records.Spelling()
    group = b"flat" if use == "other case" else b"FLAT"
    fixups = {
        "target": b"\xC4\0\x55\1", "frame thread": b"\x44\1\xC4\0\x84\1",
        "target thread": b"\4\1\xC4\0\x5C", "other group": b"\xC4\0\x14\2\1",
        **dict.fromkeys(["start", "nothing", *FLAT_PUBLICS], b"")}
    end = b"\xC1\x10\1\1\0\0" if use == "start" else b"\0"
    kind, base = FLAT_PUBLICS.get(use, (0x90, 0))
    publics = spelling.framed(kind, bytes([base]) + b"\1\6_bases\0\0\0")
    return b"".join([
        spelling.record(records.Header(b"FLAT")),
        spelling.record(records.NameList([b"", b"CODE", group, b"DWARF", GROUP])),
        spelling.framed(0x98, b"\x28\4\0\2\2\1"), spelling.framed(0x98, b"\x28\4\0\4\4\1"),
        spelling.framed(0x9A, b"\3"), spelling.framed(0x9A, b"\5\xFF\1"), publics,
        spelling.framed(0xA0, (b"\2" if use == "kept out" else b"\1") + bytes(6)),
        spelling.framed(0x9C, fixups.get(use, b"\xC4\0\x14\1\1")), spelling.framed(0x8A, end)])


def module_of_code(combination, in_group, asks_for_order=False):
    """A module with data and behind it code of the usual name, which are in DGROUP or not; it may ask for the order
    DOSSEG."""
    group = [records.GroupDefinition(6, [1, 2])] if in_group else []
    asking = [records.Comment(0, 0x9E, b"")] if asks_for_order else []
    made = [
        records.Header(b"CODE"), *asking,
        records.NameList([b"", b"_TEXT", b"CODE", b"_DATA", b"DATA", GROUP]),
        records.SegmentDefinition(1, 2, 4, 4, 5, 1),
        records.SegmentDefinition(1, combination, 4, 2, 3, 1), *group,
        records.Data(2, 0, bytes(4)), records.ModuleEnd(False, None)]
    return b"".join(map(records.Spelling().record, made))


def module_of_marks(marks, local, order, segment, count):
    """A module that wants marks, with data, BSS and a stack in DGROUP, and so many bytes in one.

    The segments stand in an order of their numbers; it has local publics.
    """
    publics = [PublicName(name, 0, 0) for name in local]
    names = [b"", GROUP, b"_DATA", b"DATA", b"_BSS", b"BSS", b"STACK"]
    segments = [
        records.SegmentDefinition(2, 2, 4, 3, 4, 1), records.SegmentDefinition(2, 2, 4, 5, 6, 1),
        records.SegmentDefinition(3, 5, 16, 7, 7, 1)]
    made = [
        records.Header(b"MARKS"), records.NameList(names),
        *(segments[number - 1] for number in order), records.GroupDefinition(2, [1, 2, 3]),
        records.ExternalNames(marks, [0] * len(marks)),
        records.LocalPublicNames(0, 1, None, publics), records.Data(segment, 0, count * b"x"),
        records.ModuleEnd(False, None)]
    return b"".join(map(records.Spelling().record, made))


def module_of_wide_segment(front=b"\x29\1\0\0\0"):
    """A module with a 32-bit segment, of a byte unless its SEGDEF begins otherwise, and a byte in it.
    """
    spelling = records.Spelling()
    return b"".join([
        spelling.record(records.Header(b"WIDE")),
        spelling.record(records.NameList([b"", b"CODE"])),
        spelling.framed(0x99, front + b"\2\2\1"), spelling.framed(0xA1, b"\1\0\0\0\0\x90"),
        spelling.record(records.ModuleEnd(False, None))])


def module_of_wide_record(kind, body):
    """A module with this record behind its data: it has a segment, a group of it, and no external."""
    spelling = records.Spelling()
    return b"".join([
        spelling.record(records.Header(b"WIDE")),
        spelling.record(records.NameList([b"", b"CODE", GROUP])),
        spelling.framed(0x98, b"\x28\4\0\2\2\1"), spelling.framed(0x9A, b"\3\xFF\1"),
        spelling.framed(0xA0, b"\1\0\0" + bytes(4)), spelling.framed(kind, body),
        spelling.record(records.ModuleEnd(False, None))])


def module_of_far_public():
    """A module of far data whose public counts from a group of other data, and that has its frame."""
    reference = Reference(Direct(Method.TARGET), Direct(Method.EXTERNAL, 1), None)
    made = [
        records.Header(b"OTHER"), records.NameList([b"", b"FAR_DATA", b"FAR", b"DATA", b"_DATA", b"DGROUP"]),
        records.SegmentDefinition(3, 0, 0x20, 3, 2, 1), records.SegmentDefinition(2, 2, 4, 5, 4, 1),
        records.GroupDefinition(6, [2]), records.ExternalNames([b"far"], [0]),
        records.PublicNames(1, 1, None, [PublicName(b"far", 1, 0)]), records.Data(1, 0, bytes(4)),
        records.FixupRecord([Fixup(True, Location.BASE, 0, reference)]), records.ModuleEnd(False, None)]
    return b"".join(map(records.Spelling().record, made))


def module_of_far_start():
    """A module of far data in which its start is."""
    segment = Direct(Method.SEGMENT, 1)
    made = [
        records.Header(b"STARTS"), records.NameList([b"", b"FAR_DATA", b"FAR"]),
        records.SegmentDefinition(3, 0, 0x20, 3, 2, 1), records.Data(1, 0, bytes(4)),
        records.ModuleEnd(True, Reference(segment, segment, 2))]
    return b"".join(map(records.Spelling().record, made))


def module_of_debug(class_name):
    """A module with code, and with a segment of a class for debuggers."""
    made = [
        records.Header(b"DEBUGGED"), records.NameList([b"", b"CODE", b"$$TYPES", class_name]),
        records.SegmentDefinition(1, 2, 4, 2, 2, 1), records.SegmentDefinition(1, 2, 4, 3, 4, 1),
        records.Data(1, 0, b"code"), records.Data(2, 0, b"type"), records.ModuleEnd(False, None)]
    return b"".join(map(records.Spelling().record, made))


def module_of_communal_data(name, kind, allocation):
    """A module that offers a name by a COMDAT of this type, whose base is said where its allocation is 0."""
    spelling = records.Spelling()
    offset = bytes(4 if kind == 0xC3 else 2)
    base = b"\0\1" if allocation == 0 else b""
    return b"".join([
        spelling.record(records.Header(b"COMDAT")), spelling.record(records.NameList([b"", b"CODE", name])),
        spelling.framed(0x98, b"\x28\4\0\2\2\1"),
        spelling.framed(kind, bytes([0, allocation, 1]) + offset + b"\0" + base + b"\3" + bytes(3)),
        spelling.record(records.ModuleEnd(False, None))])


def module_of_cut_public(name):
    """A module whose public has no type index."""
    spelling = records.Spelling()
    return b"".join([
        spelling.record(records.Header(b"CUT")), spelling.record(records.NameList([b"", b"CODE"])),
        spelling.framed(0x98, b"\x28\4\0\2\2\1"),
        spelling.framed(0x90, b"\0\1" + records.name(name) + b"\0\0"),
        spelling.record(records.ModuleEnd(False, None))])
