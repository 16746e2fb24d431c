"""What `doslib show` prints of files, by docs/DOSLIB.md and the bodies of TIS OMF 1.1.

It is told here by itself: what files hold is told as for `doslib list`, and behind the end of a body
stand as many bytes 00 as are asked for.
"""

from model import listing, parsing
from model.faults import DOSLINK_NAMES
from model.listing import Answer, quoted
from model.parsing import Refused, refuse_unless

BODY_FAULT = 6
DEEPEST_LEVEL = 64
# a block of zeros has two counts and a length
BLOCK_OF_ZEROS = 5
TYPES = {
    0x6E: "RHEADR", 0x70: "REGINT", 0x72: "REDATA", 0x74: "RIDATA", 0x76: "OVLDEF", 0x78: "ENDREC", 0x7A: "BLKDEF",
    0x7C: "BLKEND", 0x7E: "DEBSYM", 0x80: "THEADR", 0x82: "LHEADR", 0x84: "PEDATA", 0x86: "PIDATA", 0x88: "COMENT",
    0x8A: "MODEND", 0x8C: "EXTDEF", 0x8E: "TYPDEF", 0x90: "PUBDEF", 0x92: "LOCSYM", 0x94: "LINNUM", 0x96: "LNAMES",
    0x98: "SEGDEF", 0x9A: "GRPDEF", 0x9C: "FIXUPP", 0xA0: "LEDATA", 0xA2: "LIDATA", 0xA4: "LIBHED", 0xA6: "LIBNAM",
    0xA8: "LIBLOC", 0xAA: "LIBDIC", 0xB0: "COMDEF", 0xB2: "BAKPAT", 0xB4: "LEXTDEF", 0xB6: "LPUBDEF", 0xB8: "LCOMDEF",
    0xBC: "CEXTDEF", 0xC2: "COMDAT", 0xC4: "LINSYM", 0xC6: "ALIAS", 0xC8: "NBKPAT", 0xCA: "LLNAMES", 0xCC: "VERNUM",
    0xCE: "VENDEXT",
}
# those that have a type of 32 bits beside them
WIDE = (0x8A, 0x90, 0x94, 0x98, 0x9C, 0xA0, 0xA2, 0xB2, 0xB4, 0xB6, 0xC2, 0xC4, 0xC8)
CLASSES = {
    0x00: "translator", 0x01: "copyright", 0x81: "default library, as it was said first", 0x9C: "version of DOS",
    0x9D: "memory model", 0x9E: "DOSSEG", 0x9F: "default library", 0xA0: "OMF extension",
    0xA1: "style of debug information", 0xA2: "separator of the linker's passes", 0xA3: "LIBMOD", 0xA4: "EXESTR",
    0xA6: "INCERR", 0xA7: "NOPAD", 0xA8: "WKEXT", 0xA9: "LZEXT", 0xDA: "comment", 0xDB: "compiler", 0xDC: "date",
    0xDD: "time stamp", 0xDF: "user", 0xE9: "dependency file", 0xFF: "command line",
}
TEXTS = (0x00, 0x01, 0x81, 0x9D, 0x9F, 0xA3, 0xA4, 0xDA, 0xDB, 0xDC, 0xDF, 0xFF)
ALIGNMENTS = {1: "byte", 2: "word", 3: "paragraph", 4: "page", 5: "dword"}
COMBINATIONS = {0: "private", 2: "public", 4: "public4", 5: "stack", 6: "common", 7: "public7"}
LOCATIONS = {0: "byte", 1: "offset16", 2: "base", 3: "pointer", 5: "loader16"}
WIDE_LOCATIONS = {**LOCATIONS, 9: "offset32", 13: "loader32"}
SELECTIONS = {0: "one", 1: "any", 2: "same-size", 3: "same"}
ALLOCATIONS = {1: "far code", 2: "far data", 3: "code32", 4: "data32"}
PATCHED = {0: "byte", 1: "word", 2: "dword"}
ROOM = 16


class Body(parsing.Body):
    """Reads a body from its front on, with numbers of any width."""

    def number(self, width):
        return int.from_bytes(self.bytes(width), "little")

    def each(self, read):
        return self.to_the_end(read)


class Names:
    """The names that have an index so far."""

    def __init__(self):
        self.listed, self.segments, self.groups, self.externals = [], [], [], []

    @staticmethod
    def named(names, index):
        return quoted(names[index - 1]) if 0 < index <= len(names) else f"#{index}"

    def own(self, index):
        """The name that a segment or a group gets, which may be empty."""
        return self.listed[index - 1] if 0 < index <= len(self.listed) else b""


def rows(place, content):
    """Bytes in rows."""
    for at in range(0, len(content), ROOM):
        yield f"{place + at:04X}" + "".join(f" {each:02X}" for each in content[at:at + ROOM])


class Reader:
    """Reads bodies; each answers the text behind the type, and the rows below."""

    def __init__(self, names):
        self.names = names
        self.later = []

    def group(self, index):
        return f" group {self.names.named(self.names.groups, index)}" if index else ""

    def segment(self, index):
        return f" segment {self.names.named(self.names.segments, index)}"

    def base(self, body):
        group, segment = body.index(), body.index()
        if segment == 0:
            return f"{self.group(group)} frame {body.number(2):04X}"
        return self.group(group) + self.segment(segment)

    def header(self, body, kind):
        return " " + quoted(body.name()), []

    def comment(self, body, kind):
        head = f" type {body.byte():02X} class "
        its_class, content = body.byte(), body.rest()
        head += f"{its_class:02X}" + (" " + CLASSES[its_class] if its_class in CLASSES else "")
        if its_class in TEXTS:
            return f"{head} {quoted(content)}", []
        return f"{head} bytes {len(content)}", rows(0, content)

    def list_of_names(self, body, kind):
        found = body.each(body.name)
        self.later.append(lambda: self.names.listed.extend(found))
        return "", map(quoted, found)

    def externals(self, body, kind):
        found = body.each(lambda: (body.name(), body.index()))
        self.later.append(lambda: self.names.externals.extend(name for name, _ in found))
        return "", (f"{quoted(name)} type {index}" for name, index in found)

    def listed_externals(self, body, kind):
        found = body.each(lambda: (body.index(), body.index()))
        own = [self.names.own(index) for index, _ in found]
        self.later.append(lambda: self.names.externals.extend(own))
        return "", [f"{self.names.named(self.names.listed, name)} type {index}" for name, index in found]

    def publics(self, body, kind):
        head, width = self.base(body), 4 if kind % 2 else 2
        found = body.each(lambda: (body.name(), self.narrow(body, width), body.index()))
        return head, (f"{quoted(name)} offset {offset:04X} type {index}" for name, offset, index in found)

    def narrow(self, body, width):
        """A number that has to have 16 bits."""
        number = body.number(width)
        if number >= 0x10000:
            self.is_above = True
        return number

    is_above = False

    def lines(self, body, kind):
        width = 4 if kind % 2 else 2
        head = self.group(body.index()) + self.segment(body.index())
        found = body.each(lambda: (body.number(2), self.narrow(body, width)))
        return head, (f"line {number} offset {offset:04X}" for number, offset in found)

    def segment_definition(self, body, kind):
        first, listed = body.byte(), self.names.listed
        alignment, combination = first >> 5, first >> 2 & 7
        refuse_unless(alignment in range(6) and combination in COMBINATIONS)
        place = f"absolute frame {body.number(2):04X} offset {body.byte():02X}" if alignment == 0 else ALIGNMENTS[alignment]
        length = body.number(4 if kind % 2 else 2)
        name, its_class, overlay = body.index(), body.index(), body.index()
        own = self.names.own(name)
        self.later.append(lambda: self.names.segments.append(own))
        return (
            f" {self.names.named(listed, name)} class {self.names.named(listed, its_class)}"
            f" overlay {self.names.named(listed, overlay)} {place} {COMBINATIONS[combination]} length {length}"
            + " big" * bool(first & 2) + " use32" * bool(first & 1)), []

    def group_definition(self, body, kind):
        name = body.index()

        def component():
            refuse_unless(body.byte() == 0xFF)
            return body.index()

        segments = body.each(component)
        own = self.names.own(name)
        self.later.append(lambda: self.names.groups.append(own))
        return f" {self.names.named(self.names.listed, name)}", [self.segment(each)[1:] for each in segments]

    def target_method(self, body, method):
        what, names = [
            ("segment", self.names.segments), ("group", self.names.groups), ("external", self.names.externals)][method]
        return f"{what} {self.names.named(names, body.index())}"

    def frame_method(self, body, method):
        refuse_unless(method in (0, 1, 2, 4, 5))
        return self.target_method(body, method) if method < 3 else {4: "location", 5: "target"}[method]

    def reference(self, body, width):
        first = body.byte()
        # the whole byte is judged before what stands behind it is read
        refuse_unless(first & 0x80 or first >> 4 & 7 in (0, 1, 2, 4, 5))
        refuse_unless(first & 8 or first & 3 < 3)
        frame = f"thread {first >> 4 & 3}" if first & 0x80 else self.frame_method(body, first >> 4 & 7)
        target = f"thread {first & 3}" if first & 8 else self.target_method(body, first & 3)
        distance = "" if first & 4 else f" displacement {body.number(width):04X}"
        return f"frame {frame} target {target}{distance}"

    def subrecord(self, body, width):
        first = body.byte()
        if not first & 0x80:
            number, method = first & 3, first >> 2 & (7 if first & 0x40 else 3)
            if first & 0x40:
                return f"frame thread {number} {self.frame_method(body, method)}"
            refuse_unless(method < 3)
            return f"target thread {number} {self.target_method(body, method)}"
        refuse_unless(first >> 2 & 15 in WIDE_LOCATIONS)
        place = 256 * (first & 3) + body.byte()
        mode = "segment-relative" if first & 0x40 else "self-relative"
        return f"at {place:03X} {mode} {WIDE_LOCATIONS[first >> 2 & 15]} {self.reference(body, width)}"

    def fixups(self, body, kind):
        width = 4 if kind % 2 else 2
        return "", body.each(lambda: self.subrecord(body, width))

    def module_end(self, body, kind):
        first = body.byte()
        refuse_unless(not first & 0x40 or first & 1)
        head = " main" if first & 0x80 else ""
        return head + (f" start {self.reference(body, 4 if kind % 2 else 2)}" if first & 0x40 else ""), []

    def data(self, body, kind):
        segment, offset = body.index(), self.narrow(body, 4 if kind % 2 else 2)
        content = body.rest()
        return f"{self.segment(segment)} offset {offset:04X} bytes {len(content)}", rows(offset, content)

    def block(self, body, level):
        repeat, count = body.number(2), body.number(2)
        refuse_unless(not (level == DEEPEST_LEVEL and count))
        if count == 0:
            return f" {repeat} x" + "".join(f" {each:02X}" for each in body.name())
        inner = []
        while len(inner) < count:
            if not body.has_more():
                body.place += BLOCK_OF_ZEROS * (count - len(inner))
                break
            inner.append(self.block(body, level + 1))
        return f" {repeat} x ({''.join(inner)} )"

    def repeated_data(self, body, kind):
        segment, offset = body.index(), body.number(2)
        found = body.each(lambda: self.block(body, 1))
        return f"{self.segment(segment)} offset {offset:04X}", (each[1:] for each in found)

    def wide_repeated(self, body, kind):
        segment, offset = body.index(), body.number(4)
        begin = body.place
        body.each(lambda: self.wide_block(body, 1))
        content = body.content[begin:]
        return f"{self.segment(segment)} offset {offset:04X} bytes {len(content)}", rows(0, content)

    def wide_block(self, body, level):
        _, count = body.number(4), body.number(2)
        refuse_unless(not (level == DEEPEST_LEVEL and count))
        if count == 0:
            body.name()
            return
        done = 0
        while done < count:
            if not body.has_more():
                body.place += (BLOCK_OF_ZEROS + 2) * (count - done)
                break
            self.wide_block(body, level + 1)
            done += 1

    def count(self, body):
        first = body.byte()
        refuse_unless(first <= 0x80 or first in (0x81, 0x84, 0x88))
        return first if first <= 0x80 else body.number({0x81: 2, 0x84: 3, 0x88: 4}[first])

    def communals(self, body, kind):
        found, unknown = [], b""
        while body.has_more():
            name, index, what = body.name(), body.index(), body.byte()
            if what == 0x62:
                extent = f"near {self.count(body)}"
            elif what == 0x61:
                extent = f"far {self.count(body)} x {self.count(body)}"
            else:
                extent = f"data {what:02X}"
            found.append((name, f"{quoted(name)} type {index} {extent}"))
            if what not in (0x61, 0x62):
                unknown = body.rest()
        self.later.append(lambda: self.names.externals.extend(name for name, _ in found))
        return "", [line for _, line in found] + list(rows(0, unknown))

    def aliases(self, body, kind):
        found = body.each(lambda: (body.name(), body.name()))
        return "", (f"{quoted(name)} is {quoted(other)}" for name, other in found)

    def communal_data(self, body, kind):
        flags = body.byte()
        refuse_unless(flags < 16)
        attributes = body.byte()
        refuse_unless(attributes >> 4 in SELECTIONS and attributes & 15 < 5)
        alignment = body.byte()
        refuse_unless(alignment < 6)
        offset, index = body.number(4 if kind % 2 else 2), body.index()
        base = " " + ALLOCATIONS[attributes & 15] if attributes & 15 else self.base(body)
        name, content = body.index(), body.rest()
        words = [word for bit, word in ((1, "continued"), (2, "repeated"), (4, "local"), (8, "code")) if flags & bit]
        head = "".join(f" {each}" for each in [self.names.named(self.names.listed, name), *words])
        head += f" {SELECTIONS[attributes >> 4]}{base}" + (f" {ALIGNMENTS[alignment]}" if alignment else "")
        return f"{head} offset {offset:04X} type {index} bytes {len(content)}", rows(offset, content)

    def symbol_lines(self, body, kind):
        flags = body.byte()
        refuse_unless(flags < 2)
        head = " " + self.names.named(self.names.listed, body.index()) + (" continued" if flags else "")
        found = body.each(lambda: (body.number(2), body.number(4 if kind % 2 else 2)))
        return head, (f"line {number} offset {offset:04X}" for number, offset in found)

    def patches(self, body, kind):
        segment, location, width = body.index(), body.byte(), 4 if kind % 2 else 2
        refuse_unless(location in PATCHED)
        found = body.each(lambda: (body.number(width), body.number(width)))
        return f"{self.segment(segment)} {PATCHED[location]}", (f"at {at:04X} add {value:04X}" for at, value in found)

    def named_patches(self, body, kind):
        location, name, width = body.byte(), body.index(), 4 if kind % 2 else 2
        refuse_unless(location in PATCHED)
        found = body.each(lambda: (body.number(width), body.number(width)))
        head = f" {self.names.named(self.names.listed, name)} {PATCHED[location]}"
        return head, (f"at {at:04X} add {value:04X}" for at, value in found)

    def version(self, body, kind):
        return " " + quoted(body.rest()), []

    def vendor(self, body, kind):
        vendor, content = body.number(2), body.rest()
        return f" vendor {vendor:04X} bytes {len(content)}", rows(0, content)


READERS = {
    0x80: Reader.header, 0x82: Reader.header, 0x88: Reader.comment, 0x8A: Reader.module_end, 0x8B: Reader.module_end,
    0x8C: Reader.externals, 0x90: Reader.publics, 0x91: Reader.publics, 0x94: Reader.lines, 0x95: Reader.lines,
    0x96: Reader.list_of_names, 0x98: Reader.segment_definition, 0x99: Reader.segment_definition,
    0x9A: Reader.group_definition, 0x9C: Reader.fixups, 0x9D: Reader.fixups, 0xA0: Reader.data, 0xA1: Reader.data,
    0xA2: Reader.repeated_data, 0xA3: Reader.wide_repeated, 0xB0: Reader.communals, 0xB2: Reader.patches,
    0xB3: Reader.patches, 0xB4: Reader.externals, 0xB5: Reader.externals, 0xB6: Reader.publics, 0xB7: Reader.publics,
    0xB8: Reader.communals, 0xBC: Reader.listed_externals, 0xC2: Reader.communal_data, 0xC3: Reader.communal_data,
    0xC4: Reader.symbol_lines, 0xC5: Reader.symbol_lines, 0xC6: Reader.aliases, 0xC8: Reader.named_patches,
    0xC9: Reader.named_patches, 0xCA: Reader.list_of_names, 0xCC: Reader.version, 0xCE: Reader.vendor,
}


def read(names, kind, content):
    """The text and the rows of a whole body, whether a number is too great, and what to do to the names."""
    reader, body = Reader(names), Body(content)
    text, below = READERS[kind](reader, body, kind)
    refuse_unless(body.place == len(content))
    return text, list(below), reader.is_above, reader.later


def completes(names, kind, front, is_narrow):
    """Whether bytes 00 behind a front make a body of it, in which no number is too great where that is asked for."""
    reader, body = Reader(names), Body(front)
    try:
        READERS[kind](reader, body, kind)
    except Refused:
        return False
    return body.place >= len(front) and not (is_narrow and reader.is_above)


def place_of_fault(names, kind, content, is_narrow=False):
    """The length of the longest front that bytes 00 complete."""
    return next(each for each in range(len(content), -1, -1) if completes(names, kind, content[:each], is_narrow))


def type_name(kind):
    """The name of a type, or its number."""
    if kind in TYPES:
        return TYPES[kind]
    return TYPES[kind - 1] + "32" if kind - 1 in WIDE else f"{kind:02X}H"


def lines_of(record, names, place):
    """The lines of a record, and whether its body is wrong."""
    head, content = f"    {place:08X} {type_name(record.kind)}", record.body
    unknown = [f"{head} bytes {len(content)}", *(f"      {row}" for row in rows(0, content))]
    if record.kind not in READERS:
        return unknown, False
    try:
        text, below, is_above, later = read(names, record.kind, content)
    except Refused:
        at = place_of_fault(names, record.kind, content)
        if place_of_fault(names, record.kind, content, is_narrow=True) < at:
            return unknown, False
        return [f"{head} wrong at byte {at} of {len(content)}", *unknown[1:]], True
    if is_above:
        return unknown, False
    for each in later:
        each()
    return [head + text, *(f"      {row}" for row in below)], False


def show_files(files, members=listing.MEMBERS):
    """What is printed of files: pairs of a path, and of the bytes or, of one that isn't read, why."""
    answer = Answer()
    for path, content in files:
        if isinstance(content, str):
            answer.error += f"doslib: {path}: {listing.UNREAD} Device: {content}\n".encode()
            answer.ends.append(("unread", listing.UNREAD))
            answer.status = 3
            continue
        kind = listing.kind_of(content)
        found, faults = members[kind](content)
        lines, wrong = [f"{kind} {quoted(path.encode())} members {len(found)}"], []
        for each in found:
            lines.append(f"  {each.place:08X} {each.length:7} {quoted(each.name)}")
            names = Names()
            for record in listing.records_from(content[:each.place + each.length], each.place)[0]:
                shown, is_wrong = lines_of(record, names, record.place)
                lines += shown
                wrong += [(BODY_FAULT, record.place)] if is_wrong else []
        answer.output += "".join(f"{line}\n" for line in lines).encode()
        for number, place in [*wrong, *faults]:
            name = "Body" if number == BODY_FAULT else DOSLINK_NAMES[number]
            answer.error += f"doslib: {path}: {number} {name} at place {place}\n".encode()
            answer.status = max(answer.status, 1)
        answer.ends.append((kind, wrong[0][0] if wrong else faults[0][0] if faults else 0))
    return answer
