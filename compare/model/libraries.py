"""The members of a library, a .LIB or a Unix archive, and the faults 42 to 47.

The records of a .LIB's members are looked at by their frames alone: type, length word, body and
closing byte. What stands behind a member up to the next page, and the dictionary behind the last
one, isn't read. What stands in an archive's members isn't looked at here.
"""

import re
from dataclasses import dataclass

from model.faults import Fault

LIBRARY, LIBRARY_END = 0xF0, 0xF1
ARCHIVE = b"!<arch>\n"
# one that has its members in other files
THIN_ARCHIVE = b"!<thin>\n"
MODULE_ENDS = (0x8A, 0x8B)
HEADERS = (0x80, 0x82)
COMMENT, LIBRARY_MODULE_NAME = 0x88, 0xA3

# the type byte and the length word
FRONT_OF_RECORD = 3
# a page's bytes are a power of two
PAGE_SIZES = [1 << power for power in range(4, 16)]

LENGTH_OF_HEADER = 60
END_OF_HEADER = b"`\n"
SIZE = re.compile(rb"([0-9]+) *")
LONG_NAMES = b"//"
TABLES = (b"/", LONG_NAMES, b"/SYM64/", b"__.SYMDEF", b"__.SYMDEF SORTED")
AT_LONG_NAMES = re.compile(rb"/([0-9]+)")


@dataclass
class Frame:
    """A record's type and its body, and the place behind it."""

    kind: int
    body: bytes
    behind: int


@dataclass
class Member:
    """A module of a library: its place in the file, its bytes, and the library's name of it."""

    place: int
    content: bytes
    name: bytes


def kind_of_file(content):
    """What the first bytes of a file say that it is."""
    if content[:1] == bytes([LIBRARY]):
        return "library"
    return "archive" if content.startswith(ARCHIVE) else "object"


def begins_as_input(content):
    """Whether a file begins as a module does, with a header of one name, or as a library."""
    length = int.from_bytes(content[1:3], "little")
    if content[:1] in (b"\x80", b"\x82"):
        return content[3:4] != b"" and length == content[3] + 2
    if content[:1] == bytes([LIBRARY]):
        return len(content) >= FRONT_OF_RECORD and length + FRONT_OF_RECORD in PAGE_SIZES
    return content.startswith((ARCHIVE, THIN_ARCHIVE))


def read_frame(content, place, owner=None):
    """The record at a place.

    Fault 43 is a length word 0, 44 a file that ends inside the record, 45 a wrong closing byte.
    """
    front = content[place:place + FRONT_OF_RECORD]
    if len(front) < FRONT_OF_RECORD:
        raise Fault(44, owner, place)
    length = int.from_bytes(front[1:], "little")
    behind = place + FRONT_OF_RECORD + length
    if length == 0:
        raise Fault(43, owner, place)
    if behind > len(content):
        raise Fault(44, owner, place)
    if content[behind - 1] != 0 and sum(content[place:behind]) % 256 != 0:
        raise Fault(45, owner, place)
    return Frame(front[0], content[place + FRONT_OF_RECORD:behind - 1], behind)


def module_frames(content, place, owner=None):
    """The records from a place on up to the first that ends a module, or the first fault."""
    while True:
        frame = read_frame(content, place, owner)
        yield frame
        if frame.kind in MODULE_ENDS:
            return
        place = frame.behind


def whole_frames(content):
    """The records of a module up to its end, or to the first that is none."""
    try:
        yield from module_frames(content, 0)
    except Fault:
        pass


def is_counted(text):
    """Whether a text begins with a name behind its length."""
    return text[:1] != b"" and text[0] < len(text)


def name_by_records(frames):
    """The name in a librarian's comment, else that of the header, else none.

    In a comment a length stands before the name, or else the name is the whole text.
    """
    comments = [
        frame.body[2:] for frame in frames
        if frame.kind == COMMENT and frame.body[1:2] == bytes([LIBRARY_MODULE_NAME])]
    comments = [text[1:] if text[:1] == bytes([len(text) - 1]) else text for text in comments[:1]]
    headers = [
        frame.body[1:1 + frame.body[0]] for frame in frames
        if frame.kind in HEADERS and is_counted(frame.body)]
    return (comments + headers + [b""])[0]


def title_of(content):
    """The name in a module's header."""
    return name_by_records([frame for frame in whole_frames(content) if frame.kind in HEADERS])


def library_members(content, owner=None):
    """The members of a .LIB, each at a page, up to the byte F1H at a page.

    Fault 42 is a page of another size, at the library's own record.
    """
    if len(content) < FRONT_OF_RECORD:
        raise Fault(44, owner, 0)
    page = FRONT_OF_RECORD + int.from_bytes(content[1:FRONT_OF_RECORD], "little")
    if page not in PAGE_SIZES:
        raise Fault(42, owner, 0)
    members, place = [], page
    while content[place:place + 1] != bytes([LIBRARY_END]):
        frames = list(module_frames(content, place, owner))
        behind = frames[-1].behind
        members.append(Member(place, content[place:behind], name_by_records(frames)))
        place = -(-behind // page) * page
    return members


def archive_members(content, owner=None):
    """The members of an archive, but for its tables.

    Fault 46 is a wrong header, 47 a member that ends behind the archive; both at the header.
    """
    members, place, long_names = [], len(ARCHIVE), b""
    while place < len(content):
        header = content[place:place + LENGTH_OF_HEADER]
        size = SIZE.fullmatch(header[48:58])
        if not header.endswith(END_OF_HEADER) or len(header) < LENGTH_OF_HEADER or not size:
            raise Fault(46, owner, place)
        begin = place + LENGTH_OF_HEADER
        end = begin + int(size[1])
        if end > len(content):
            raise Fault(47, owner, place)
        name = header[:16].rstrip(b" ")
        if name == LONG_NAMES:
            long_names = content[begin:end]
        elif name not in TABLES:
            members.append(Member(begin, content[begin:end], member_name(name, long_names)))
        place = end + end % 2
    return members


def symbols(content):
    """The names in an archive's symbol table, its first member, each with the place of a header.

    Of `/` and `/SYM64/` a count stands before so many places, the highest byte first, and behind
    these the names; of `__.SYMDEF` pairs of a name's place and a header's, the lowest byte first,
    between their length and that of the names. What a damaged table has beyond its bytes is left out.
    """
    if not content.startswith(ARCHIVE):
        return []
    name, table = content[8:24], content[len(ARCHIVE) + LENGTH_OF_HEADER:]
    if name in (b"/".ljust(16), b"/SYM64/".ljust(16)):
        width = 8 if name.startswith(b"/S") else 4
        count = int.from_bytes(table[:width], "big") if len(table) >= width else 0
        places, names = table[width:], table[width * (1 + count):]
        count = min(count, len(places) // width)
        names = names.split(b"\0")
        # behind the last byte 0 there is a name only where some byte is left
        names = names[:-1] if names[-1] == b"" else names
        return list(zip(names, (
            int.from_bytes(places[at:at + width], "big") for at in range(0, width * count, width))))
    if name in (b"__.SYMDEF".ljust(16), b"__.SYMDEF SORTED"):
        size, pairs = int.from_bytes(table[:4], "little"), table[4:]
        names = pairs[size + 4:]
        if len(pairs) < size + 4:
            return []
        pairs = [pairs[at:at + 8] for at in range(0, size - size % 8, 8)]
        return [
            (names[int.from_bytes(each[:4], "little"):].split(b"\0")[0],
             int.from_bytes(each[4:], "little")) for each in pairs]
    return []


def member_name(name, long_names):
    """The name that a header says: itself, or a line of the table of long names; without its `/`.

    A name that begins with `/` and is no place in that table stays as it is.
    """
    there = AT_LONG_NAMES.fullmatch(name)
    if there and int(there[1]) < len(long_names):
        name = long_names[int(there[1]):].split(b"\n")[0]
    elif name.startswith(b"/"):
        return name
    return name[:-1] if name.endswith(b"/") else name


def members(content, owner=None):
    """The members of a library of either kind, or its first fault.

    What is neither is its own only member, without a name.
    """
    kind = kind_of_file(content)
    if kind == "object":
        return [Member(0, content, b"")]
    return (library_members if kind == "library" else archive_members)(content, owner)
