"""Records of object modules: what they say, and bytes that say it.

A record is a dataclass, and its `body` gives a body that says the same, as docs/FORMATS.md lays it
out. Where several spellings say the same, a `Spelling` chooses one of them: this one the canonical.
"""

import struct
from dataclasses import dataclass
from enum import IntEnum
from typing import Optional, Union

# the bytes of a segment whose bit B is 1
WHOLE_SEGMENT = 65536
# the largest index of one byte, what the first of two bytes has added, and the largest of these
LARGEST_SHORT_INDEX = 127
LONG_INDEX = 128
LARGEST_INDEX = 32767
LONGEST_BODY = 65534


class Method(IntEnum):
    """How a frame or a target is said: by an index; a frame also as the location's or target's."""

    SEGMENT = 0
    GROUP = 1
    EXTERNAL = 2
    LOCATION = 4
    TARGET = 5

    @property
    def has_index(self):
        return self <= Method.EXTERNAL


class Location(IntEnum):
    """What a fix-up changes."""

    LOW_BYTE = 0
    OFFSET = 1
    BASE = 2
    POINTER = 3
    LOADER_OFFSET = 5

    @property
    def width(self):
        """The bytes that it has."""
        return {Location.LOW_BYTE: 1, Location.POINTER: 4}.get(self, 2)

    @property
    def has_base(self):
        return self in (Location.BASE, Location.POINTER)


def word(number):
    return struct.pack("<H", number)


def two_byte_index(number):
    """An index in the longer form, which a small one may have as well."""
    return bytes([LONG_INDEX + number // 256, number % 256])


def name(text):
    """A name behind its length."""
    return bytes([len(text)]) + text


class Spelling:
    """Chooses the canonical one of the bytes that say the same."""

    def index(self, number):
        """An index in its shortest form."""
        return bytes([number]) if number <= LARGEST_SHORT_INDEX else two_byte_index(number)

    def unseen(self, mask):
        """Some bits of a mask, which aren't looked at: 0."""
        return 0

    def closing(self, front):
        """The closing byte behind a front: the one that makes the sum 0."""
        return -sum(front) % 256

    def framed(self, kind, body):
        """A record of a type with a body."""
        front = struct.pack("<BH", kind, len(body) + 1) + body
        return front + bytes([self.closing(front)])

    def record(self, record):
        """The bytes of a record."""
        return self.framed(record.TYPE, record.body(self))


@dataclass
class Header:
    """THEADR."""

    TYPE = 0x80
    NAME = "THEADR"
    name: bytes

    def body(self, spelling):
        return name(self.name)


@dataclass
class Comment:
    """COMENT."""

    TYPE = 0x88
    NAME = "COMENT"
    type_byte: int
    class_byte: int
    content: bytes

    def body(self, spelling):
        return bytes([self.type_byte, self.class_byte]) + self.content


@dataclass
class ModuleEnd:
    """MODEND."""

    TYPE = 0x8A
    NAME = "MODEND"
    main: bool
    start: Optional["Reference"]

    def body(self, spelling):
        main = 0x80 * self.main
        if self.start is None:
            return bytes([main | spelling.unseen(0x3F)])
        return bytes([main | 0x41 | spelling.unseen(0x3E)]) + self.start.spelled(spelling)


@dataclass
class ExternalNames:
    """EXTDEF: names, and a type index each."""

    TYPE = 0x8C
    NAME = "EXTDEF"
    IS_LOCAL = False
    names: list
    types: list

    def body(self, spelling):
        pairs = zip(self.names, self.types)
        return b"".join(name(external) + spelling.index(kind) for external, kind in pairs)


class LocalExternalNames(ExternalNames):
    """LEXTDEF, which means names of its own module."""

    TYPE = 0xB4
    NAME = "LEXTDEF"
    IS_LOCAL = True


@dataclass
class PublicName:
    """A name of a PUBDEF or LPUBDEF."""

    name: bytes
    offset: int
    type: int

    def spelled(self, spelling):
        return name(self.name) + word(self.offset) + spelling.index(self.type)


@dataclass
class PublicNames:
    """PUBDEF; it has a frame where its segment index is 0."""

    TYPE = 0x90
    NAME = "PUBDEF"
    IS_LOCAL = False
    group: int
    segment: int
    frame: Optional[int]
    publics: list

    def body(self, spelling):
        base = spelling.index(self.group) + spelling.index(self.segment)
        if self.segment == 0:
            base += word(self.frame)
        return base + b"".join(public.spelled(spelling) for public in self.publics)


class LocalPublicNames(PublicNames):
    """LPUBDEF, which its own module alone sees."""

    TYPE = 0xB6
    NAME = "LPUBDEF"
    IS_LOCAL = True


@dataclass
class LineNumbers:
    """LINNUM: pairs of a line and an offset."""

    TYPE = 0x94
    NAME = "LINNUM"
    group: int
    segment: int
    lines: list

    def body(self, spelling):
        base = spelling.index(self.group) + spelling.index(self.segment)
        return base + b"".join(word(line) + word(offset) for line, offset in self.lines)


@dataclass
class NameList:
    """LNAMES."""

    TYPE = 0x96
    NAME = "LNAMES"
    names: list

    def body(self, spelling):
        return b"".join(map(name, self.names))


@dataclass
class SegmentDefinition:
    """SEGDEF: the fields A and C, the length, and three indexes.

    With A = 0 it has a frame and an offset.
    """

    TYPE = 0x98
    NAME = "SEGDEF"
    alignment: int
    combination: int
    length: int
    name: int
    class_name: int
    overlay: int
    frame: Optional[int] = None
    offset: Optional[int] = None

    def body(self, spelling):
        whole = self.length == WHOLE_SEGMENT
        body = bytes([self.alignment << 5 | self.combination << 2 | whole << 1])
        if self.alignment == 0:
            body += word(self.frame) + bytes([self.offset])
        body += word(0 if whole else self.length)
        return body + b"".join(map(spelling.index, [self.name, self.class_name, self.overlay]))


@dataclass
class GroupDefinition:
    """GRPDEF: the index of a name, and of segments."""

    TYPE = 0x9A
    NAME = "GRPDEF"
    name: int
    segments: list

    def body(self, spelling):
        components = [b"\xFF" + spelling.index(segment) for segment in self.segments]
        return spelling.index(self.name) + b"".join(components)


@dataclass(frozen=True)
class Direct:
    """A frame or a target that is said by a method, with an index where the method has one."""

    method: Method
    index: Optional[int] = None

    def spelled_index(self, spelling):
        return spelling.index(self.index) if self.method.has_index else b""


@dataclass(frozen=True)
class ByThread:
    """A frame or a target that is said by the number of a thread."""

    number: int


@dataclass
class Reference:
    """What a fix-up or a start refers to; an absent displacement is None."""

    frame: Union[Direct, ByThread]
    target: Union[Direct, ByThread]
    displacement: Optional[int]

    def spelled(self, spelling):
        fix_data, rest = 0, b""
        if isinstance(self.frame, ByThread):
            fix_data |= 0x80 | self.frame.number << 4 | spelling.unseen(0x40)
        else:
            fix_data |= self.frame.method << 4
            rest += self.frame.spelled_index(spelling)
        if isinstance(self.target, ByThread):
            fix_data |= 0x08 | self.target.number
        else:
            fix_data |= self.target.method
            rest += self.target.spelled_index(spelling)
        if self.displacement is None:
            fix_data |= 0x04
        else:
            rest += word(self.displacement)
        return bytes([fix_data]) + rest


@dataclass
class ThreadSetting:
    """A thread subrecord of FIXUPP."""

    of_frame: bool
    number: int
    meaning: Direct

    def spelled(self, spelling):
        first = 0x40 * self.of_frame | self.meaning.method << 2 | self.number
        first |= spelling.unseen(0x20 if self.of_frame else 0x30)
        return bytes([first]) + self.meaning.spelled_index(spelling)


@dataclass
class Fixup:
    """A fix-up subrecord of FIXUPP."""

    segment_relative: bool
    location: Location
    offset: int
    reference: Reference

    def spelled(self, spelling):
        first = 0x80 | 0x40 * self.segment_relative | self.location << 2 | self.offset >> 8
        return bytes([first, self.offset & 0xFF]) + self.reference.spelled(spelling)


@dataclass
class FixupRecord:
    """FIXUPP: thread and fix-up subrecords."""

    TYPE = 0x9C
    NAME = "FIXUPP"
    subrecords: list

    def body(self, spelling):
        return b"".join(each.spelled(spelling) for each in self.subrecords)


@dataclass
class Data:
    """LEDATA."""

    TYPE = 0xA0
    NAME = "LEDATA"
    segment: int
    offset: int
    content: bytes

    def body(self, spelling):
        return spelling.index(self.segment) + word(self.offset) + self.content


@dataclass
class Block:
    """A block of LIDATA: it repeats bytes, or a list of one or more blocks."""

    repeat: int
    content: Union[bytes, list]

    def spelled(self):
        if isinstance(self.content, bytes):
            return word(self.repeat) + word(0) + name(self.content)
        counts = word(self.repeat) + word(len(self.content))
        return counts + b"".join(each.spelled() for each in self.content)


@dataclass
class RepeatedData:
    """LIDATA."""

    TYPE = 0xA2
    NAME = "LIDATA"
    segment: int
    offset: int
    blocks: list

    def body(self, spelling):
        base = spelling.index(self.segment) + word(self.offset)
        return base + b"".join(each.spelled() for each in self.blocks)


KINDS = {kind.TYPE: kind for kind in [
    Header, Comment, ModuleEnd, ExternalNames, PublicNames, LineNumbers, NameList,
    SegmentDefinition, GroupDefinition, FixupRecord, Data, RepeatedData, LocalExternalNames,
    LocalPublicNames]}
