"""What `doslib list` prints of files, by docs/DOSLIB.md and by what docs/FORMATS.md says of names.

It is told here by itself: nothing is shared with the rules by which modules are linked. A module's
records count up to the first that ends it, or up to the first that is at fault.
"""

import re
from dataclasses import dataclass, field

from model.faults import DOSLINK_NAMES

MODULE, LIBRARY, ARCHIVE = "module", "library", "archive"
UNREAD, OUTPUT = 1, 40
PAGES = (16, 32, 64, 128, 256, 512, 1024, 2048, 4096, 8192, 16_384, 32_768)
MAGIC = b"!<arch>\n"
TABLES = (b"/", b"//", b"/SYM64/", b"__.SYMDEF", b"__.SYMDEF SORTED")

# types of records
HEADERS, ENDS = (0x80, 0x82), (0x8A, 0x8B)
COMENT, EXTDEF, CEXTDEF, LEXTDEF, LEXTDEF_32 = 0x88, 0x8C, 0xBC, 0xB4, 0xB5
PUBDEF, COMDAT, ALIAS, COMDEF, LCOMDEF = (0x90, 0x91), (0xC2, 0xC3), 0xC6, 0xB0, 0xB8
LISTS = (0x96, 0xCA)
# classes of comments
DEFAULT_LIBRARY, LIBMOD, WKEXT = (0x9F, 0x81), 0xA3, 0xA8
# how many numbers a far variable has, and a near one; what stands behind the first byte of a number
NUMBERS, BEHIND = {0x61: 2, 0x62: 1}, {0x81: 2, 0x84: 3, 0x88: 4}
LOCAL_FLAG = 4


class AtFault(Exception):
    """The number of a fault, and its place in the file."""


class Cut(Exception):
    """A body has no whole entry any more."""


@dataclass
class Record:
    """A type, a body, and the place of the first byte and of that behind the record."""

    kind: int
    body: bytes
    place: int
    behind: int


@dataclass
class Fields:
    """Reads a body from its front."""

    body: bytes
    at: int = 0

    def bytes(self, count):
        found = self.body[self.at:self.at + count]
        if len(found) < count:
            raise Cut
        self.at += count
        return found

    def byte(self):
        return self.bytes(1)[0]

    def index(self):
        first = self.byte()
        return first if first < 0x80 else 256 * (first - 0x80) + self.byte()

    def name(self):
        return self.bytes(self.byte())

    def base(self):
        """A group and a segment, and a frame where there is no segment."""
        self.index()
        if self.index() == 0:
            self.bytes(2)

    def number(self):
        first = self.byte()
        if first > 0x80:
            if first not in BEHIND:
                raise Cut
            self.bytes(BEHIND[first])

    def variable(self):
        """The name of a communal variable, whose entry has to be whole."""
        name = self.name_and_index()
        count = NUMBERS.get(self.byte())
        if count is None:
            raise Cut
        for _ in range(count):
            self.number()
        return name

    def name_and_index(self):
        name = self.name()
        self.index()
        return name

    def entries(self, read):
        """What is read of each whole entry that is left."""
        found = []
        try:
            while self.at < len(self.body):
                found.append(read())
        except Cut:
            pass
        return found


@dataclass
class Told:
    """A member: its place, its length, its name, and the lines of its names behind what they are."""

    place: int
    length: int
    name: bytes
    lines: list


@dataclass
class Answer:
    """What is printed, the lines of faults, the status, and for counts the first fault of each file, or 0."""

    output: bytes = b""
    error: bytes = b""
    status: int = 0
    ends: list = field(default_factory=list)


def record_at(content, place):
    """The record at a place of a file."""
    if place + 3 > len(content):
        raise AtFault(44, place)
    length = int.from_bytes(content[place + 1:place + 3], "little")
    behind = place + 3 + length
    if length == 0:
        raise AtFault(43, place)
    if behind > len(content):
        raise AtFault(44, place)
    if content[behind - 1] != 0 and sum(content[place:behind]) % 256 != 0:
        raise AtFault(45, place)
    return Record(content[place], content[place + 3:behind - 1], place, behind)


def records_from(content, place):
    """The records of a module, and the fault that ends them, or None."""
    found = []
    while not found or found[-1].kind not in ENDS:
        try:
            found.append(record_at(content, found[-1].behind if found else place))
        except AtFault as fault:
            return found, fault.args
    return found, None


def listed(records):
    """Each record, with the names so far that have an index."""
    names = []
    for record in records:
        yield record, names
        if record.kind in LISTS:
            fields = Fields(record.body)
            names += fields.entries(fields.name)


def by_index(names, index):
    """The name of an index, or None."""
    return names[index - 1] if 0 < index <= len(names) else None


def offered(records):
    """The names that a module offers."""
    for record, names in listed(records):
        fields, width = Fields(record.body), 4 if record.kind % 2 else 2
        try:
            if record.kind in PUBDEF:
                fields.base()

                def public():
                    name = fields.name()
                    fields.bytes(width)
                    fields.index()
                    return name

                yield from fields.entries(public)
            elif record.kind in COMDAT:
                flags, attributes, _ = fields.bytes(3)
                fields.bytes(width)
                fields.index()
                if attributes % 16 == 0:
                    fields.base()
                name = by_index(names, fields.index())
                if name is not None and not flags & LOCAL_FLAG:
                    yield name
            elif record.kind == ALIAS:
                yield from (alias for alias, _ in fields.entries(lambda: (fields.name(), fields.name())))
        except Cut:
            pass


def externals(records):
    """All externals in the order of their indexes: the type of the record, and the name or None."""
    for record, names in listed(records):
        fields = Fields(record.body)
        if record.kind in (EXTDEF, LEXTDEF, LEXTDEF_32):
            found = fields.entries(fields.name_and_index)
        elif record.kind in (COMDEF, LCOMDEF):
            found = fields.entries(fields.variable)
        elif record.kind == CEXTDEF:
            found = [by_index(names, index) for index, _ in fields.entries(lambda: (fields.index(), fields.index()))]
        else:
            found = []
        is_local = record.kind in (LEXTDEF, LEXTDEF_32, LCOMDEF)
        yield from ((record.kind, None if is_local else name) for name in found)


def comments(records, classes):
    """The texts of the comments of some classes."""
    for record in records:
        if record.kind == COMENT and record.body[1:2] and record.body[1] in classes:
            yield record.body[2:]


def weak_ones(records, count):
    """The indexes of weak externals, whose defaults are among so many externals."""
    for text in comments(records, [WKEXT]):
        fields = Fields(text)
        for index, default in fields.entries(lambda: (fields.index(), fields.index())):
            if 0 < default <= count:
                yield index


def wanted(records):
    """The names that a module wants: no name that weak externals alone have."""
    found = list(externals(records))
    weak = set(weak_ones(records, len(found)))
    plain = {name for index, (_, name) in enumerate(found, 1) if index not in weak}
    for kind, name in found:
        if kind in (EXTDEF, CEXTDEF) and name is not None and name in plain:
            yield name


def lines_of(records):
    """The lines behind a member: what each name is, and the name."""
    communals = [name for kind, name in externals(records) if kind == COMDEF]
    parts = [
        ("offers", offered(records)), ("communal", communals), ("wants", wanted(records)),
        ("library", comments(records, DEFAULT_LIBRARY))]
    return [(what, name) for what, names in parts for name in names]


def header_name(record):
    """The name of a record that is a header with a whole name, or none."""
    if record.kind not in HEADERS:
        return None
    try:
        return Fields(record.body).name()
    except Cut:
        return None


def own_name(records):
    """The name of the header that a module begins with."""
    return (header_name(records[0]) if records else None) or b""


def librarian_name(records):
    """The name in the first comment of a librarian, else that of the first header that has one.

    The text is the name, or a byte of its length and the name. Where the name has no bytes it is the module's own.
    """
    for text in comments(records, [LIBMOD]):
        return (text[1:] if text[:1] == bytes([max(len(text) - 1, 0)]) else text) or own_name(records)
    headers = (header_name(record) for record in records)
    return next((each for each in headers if each is not None), b"")


def members_of_library(content):
    """The members of a .LIB that are whole, and the fault behind them, or None."""
    if len(content) < 3:
        return [], [(44, 0)]
    page = 3 + int.from_bytes(content[1:3], "little")
    if page not in PAGES:
        return [], [(42, 0)]
    members, place = [], page
    while content[place:place + 1] != b"\xF1":
        records, fault = records_from(content, place)
        if fault:
            return members, [fault]
        length = records[-1].behind - place
        members.append(Told(place, length, librarian_name(records), lines_of(records)))
        place += -(-length // page) * page
    return members, []


def members_of_archive(content):
    """The members of an archive, and all faults: of their records, and of the header that is none."""
    members, faults, long_names, place = [], [], b"", len(MAGIC)
    while place < len(content):
        header = content[place:place + 60]
        begin = place + 60
        if len(header) < 60 or header[58:] != b"`\n" or not re.fullmatch(rb"[0-9]+ *", header[48:58]):
            return members, [*faults, (46, place)]
        end = begin + int(header[48:58])
        if end > len(content):
            return members, [*faults, (47, place)]
        name = header[:16].rstrip(b" ")
        if name == b"//":
            long_names = content[begin:end]
        if name not in TABLES:
            records, fault = records_from(content[:end], begin)
            name = name_in_archive(name, long_names) or own_name(records)
            members.append(Told(begin, end - begin, name, lines_of(records)))
            faults += [fault] if fault else []
        place = end + end % 2
    return members, faults


def name_in_archive(name, long_names):
    """The name that a header says, or the line of the table of long ones at the place that it says."""
    if re.fullmatch(rb"/[0-9]+", name) and int(name[1:]) < len(long_names):
        name = long_names[int(name[1:]):].split(b"\n")[0]
    elif name[:1] == b"/":
        return name
    return name[:-1] if name[-1:] == b"/" else name


def members_of_module(content):
    """The only member of an object module, which is the whole file, and its fault."""
    records, fault = records_from(content, 0)
    return [Told(0, len(content), own_name(records), lines_of(records))], [fault] if fault else []


def kind_of(content):
    """What a file is by its first bytes."""
    if content[:1] == b"\xF0":
        return LIBRARY
    return ARCHIVE if content[:len(MAGIC)] == MAGIC else MODULE


MEMBERS = {MODULE: members_of_module, LIBRARY: members_of_library, ARCHIVE: members_of_archive}


def quoted(name):
    """A name of any bytes between quotes."""
    plain = [chr(each) if 0x20 <= each <= 0x7E and each not in b'"\\' else f"\\x{each:02X}" for each in name]
    return f'"{"".join(plain)}"'


def list_files(files):
    """What is printed of files: pairs of a path, and of the bytes or, of one that isn't read, why."""
    answer = Answer()
    for path, content in files:
        if isinstance(content, str):
            answer.error += f"doslib: {path}: {UNREAD} Device: {content}\n".encode()
            answer.ends.append(("unread", UNREAD))
            answer.status = 3
            continue
        kind = kind_of(content)
        members, faults = MEMBERS[kind](content)
        lines = [f"{kind} {quoted(path.encode())} members {len(members)}"]
        for each in members:
            lines.append(f"  {each.place:08X} {each.length:7} {quoted(each.name)}")
            lines += [f"    {what} {quoted(name)}" for what, name in each.lines]
        answer.output += "".join(f"{line}\n" for line in lines).encode()
        for number, place in faults:
            answer.error += f"doslib: {path}: {number} {DOSLINK_NAMES[number]} at place {place}\n".encode()
            answer.status = max(answer.status, 1)
        answer.ends.append((kind, faults[0][0] if faults else 0))
    return answer


def at_failing_output(answer):
    """The same where something is printed and that fails."""
    return Answer(b"", f"doslib: output: {OUTPUT} Device\n".encode(), 3, [("output", OUTPUT)])
