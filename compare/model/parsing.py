"""How bytes are read as records, their frames and bodies, and the faults 1 to 6, 8 and 41."""

from dataclasses import dataclass

from model import records
from model.faults import Fault
from model.records import Block, ByThread, Direct, Location, Method

# no record begins here or behind
END_OF_PLACES = 4_294_901_760
# the type byte and the length word
FRONT_OF_RECORD = 3
# a block of this level has no blocks
DEEPEST_LEVEL = 64
# the bytes of a block that bytes 00 say: two counts and a length
BLOCK_OF_ZEROS = 5
COMPONENT_OF_GROUP = 0xFF

ALIGNMENTS = range(0, 6)
COMBINATIONS = (0, 2, 4, 5, 6, 7)


class Refused(Exception):
    """No body of the type begins with the bytes that were read."""


class Body:
    """Reads a body from its first byte on.

    As many bytes 00 stand behind its end as are asked for, so that `place` at last is the length of
    the shortest accepted body that begins with it, or less where it has bytes left over.
    """

    def __init__(self, content):
        self.content = content
        self.place = 0

    def has_more(self):
        """Whether bytes of the body itself are left."""
        return self.place < len(self.content)

    def bytes(self, count):
        """The next bytes."""
        first = self.place
        self.place += count
        return self.content[first:self.place].ljust(count, b"\0")

    def byte(self):
        return self.bytes(1)[0]

    def rest(self):
        """All bytes that are left."""
        return self.bytes(max(len(self.content) - self.place, 0))

    def word(self):
        return int.from_bytes(self.bytes(2), "little")

    def name(self):
        return self.bytes(self.byte())

    def index(self):
        """An index of one byte, or of two, the high part first."""
        first = self.byte()
        return first if first < 128 else (first - 128) * 256 + self.byte()

    def to_the_end(self, read):
        """What is read again and again until the body ends."""
        found = []
        while self.has_more():
            found.append(read())
        return found


def refuse_unless(accepted):
    """Raises Refused unless something is accepted."""
    if not accepted:
        raise Refused


def header(body):
    return records.Header(body.name())


def comment(body):
    return records.Comment(body.byte(), body.byte(), body.rest())


def module_end(body):
    """With bit 6 there is a start, and then bit 0 must be set."""
    attribute = body.byte()
    has_start = bool(attribute & 0x40)
    refuse_unless(not has_start or attribute & 0x01)
    return records.ModuleEnd(bool(attribute & 0x80), reference(body) if has_start else None)


def names_with_types(body, kind):
    pairs = body.to_the_end(lambda: (body.name(), body.index()))
    return kind([name for name, _ in pairs], [type_index for _, type_index in pairs])


def external_names(body):
    return names_with_types(body, records.ExternalNames)


def local_external_names(body):
    return names_with_types(body, records.LocalExternalNames)


def names_with_offsets(body, kind):
    """A frame word stands only where the segment index is 0."""
    group, segment = body.index(), body.index()
    frame = body.word() if segment == 0 else None
    publics = body.to_the_end(
        lambda: records.PublicName(body.name(), body.word(), body.index()))
    return kind(group, segment, frame, publics)


def public_names(body):
    return names_with_offsets(body, records.PublicNames)


def local_public_names(body):
    return names_with_offsets(body, records.LocalPublicNames)


def line_numbers(body):
    group, segment = body.index(), body.index()
    lines = body.to_the_end(lambda: (body.word(), body.word()))
    return records.LineNumbers(group, segment, lines)


def name_list(body):
    return records.NameList(body.to_the_end(body.name))


def segment_definition(body):
    """Field A is bits 7 to 5, C bits 4 to 2, B bit 1 and P bit 0, which must be clear."""
    acbp = body.byte()
    alignment, combination, is_whole = acbp >> 5, acbp >> 2 & 7, bool(acbp & 2)
    refuse_unless(alignment in ALIGNMENTS and combination in COMBINATIONS and not acbp & 1)
    frame = offset = None
    if alignment == 0:
        frame, offset = body.word(), body.byte()
    length = body.word()
    refuse_unless(not (is_whole and length))
    return records.SegmentDefinition(
        alignment, combination, records.WHOLE_SEGMENT if is_whole else length,
        body.index(), body.index(), body.index(), frame, offset)


def group_definition(body):
    def component():
        refuse_unless(body.byte() == COMPONENT_OF_GROUP)
        return body.index()

    return records.GroupDefinition(body.index(), body.to_the_end(component))


def method(number):
    """A method of a frame or target; 3, 6 and 7 are refused."""
    refuse_unless(number in (0, 1, 2, 4, 5))
    return Method(number)


def direct(body, its_method):
    """A frame or target by a method, with an index where the method has one."""
    return Direct(its_method, body.index() if its_method.has_index else None)


def reference(body):
    """The fix data byte: F, frame, T, P and target; then what they are followed by."""
    fix_data = body.byte()
    by_frame_thread, by_target_thread = fix_data & 0x80, fix_data & 0x08
    frame_method = None if by_frame_thread else method(fix_data >> 4 & 7)
    target_method = None if by_target_thread else method(fix_data & 3)
    frame = ByThread(fix_data >> 4 & 3) if by_frame_thread else direct(body, frame_method)
    target = ByThread(fix_data & 3) if by_target_thread else direct(body, target_method)
    return records.Reference(frame, target, None if fix_data & 0x04 else body.word())


def fixup_record(body):
    return records.FixupRecord(body.to_the_end(lambda: subrecord(body)))


def subrecord(body):
    """Bit 7 of the first byte tells a fix-up from a thread."""
    first = body.byte()
    return fixup(body, first) if first & 0x80 else thread(body, first)


def thread(body, first):
    """Of a target thread's method only the two low bits are looked at."""
    of_frame = bool(first & 0x40)
    its_method = method(first >> 2 & (7 if of_frame else 3))
    return records.ThreadSetting(of_frame, first & 3, direct(body, its_method))


def fixup(body, first):
    """Ten bits of offset, of which the first byte has the high two."""
    location = first >> 2 & 0x0F
    refuse_unless(location in list(Location))
    offset = (first & 3) * 256 + body.byte()
    return records.Fixup(bool(first & 0x40), Location(location), offset, reference(body))


def data(body):
    segment, offset = body.index(), body.word()
    return records.Data(segment, offset, body.rest())


def repeated_data(body):
    segment, offset = body.index(), body.word()
    return records.RepeatedData(segment, offset, body.to_the_end(lambda: block(body, 1)))


def block(body, level):
    """Blocks in a block; the outermost has level 1."""
    repeat, count = body.word(), body.word()
    refuse_unless(not (level == DEEPEST_LEVEL and count))
    if count == 0:
        return Block(repeat, body.name())
    inner = []
    while len(inner) < count:
        if not body.has_more():
            # bytes 00 are accepted as each block that is left
            body.place += BLOCK_OF_ZEROS * (count - len(inner))
            break
        inner.append(block(body, level + 1))
    return Block(repeat, inner)


PARSERS = {
    0x80: header, 0x88: comment, 0x8A: module_end, 0x8C: external_names, 0x90: public_names,
    0x94: line_numbers, 0x96: name_list, 0x98: segment_definition, 0x9A: group_definition,
    0x9C: fixup_record, 0xA0: data, 0xA2: repeated_data, 0xB4: local_external_names,
    0xB6: local_public_names,
}


def becomes_accepted(kind, front):
    """Whether a front becomes an accepted body when some number of bytes 00 follows it."""
    body = Body(front)
    try:
        PARSERS[kind](body)
    except Refused:
        return False
    return not body.has_more()


def parse(kind, content):
    """What a body says, or None where it isn't one of its type."""
    body = Body(content)
    try:
        record = PARSERS[kind](body)
    except Refused:
        return None
    return record if body.place == len(content) else None


def place_of_fault(kind, content):
    """The length of the longest front that becomes an accepted body."""
    lengths = range(len(content), -1, -1)
    return next(length for length in lengths if becomes_accepted(kind, content[:length]))


@dataclass
class Read:
    """A record as it was read: its place, the length of its body, and what it says."""

    place: int
    length: int
    record: object


def read_record(content, place, owner):
    """The record at a place, or the smallest of the faults 2 to 6, and the place behind it."""
    front = content[place:place + FRONT_OF_RECORD]
    if len(front) < FRONT_OF_RECORD:
        raise Fault(3, owner, place)
    kind, length = front[0], int.from_bytes(front[1:], "little")
    if length == 0:
        raise Fault(2, owner, place)
    behind = place + FRONT_OF_RECORD + length
    whole = content[place:behind]
    if len(whole) < FRONT_OF_RECORD + length:
        raise Fault(3, owner, place)
    if whole[-1] != 0 and sum(whole) % 256 != 0:
        raise Fault(4, owner, place)
    if kind not in PARSERS:
        raise Fault(5, owner, place)
    body = whole[FRONT_OF_RECORD:-1]
    record = parse(kind, body)
    if record is None:
        raise Fault(6, owner, place, byte=place_of_fault(kind, body))
    return Read(place, len(body), record), behind


def read_records(content, owner):
    """The records of an input up to its first MODEND, one after the other, or the first fault.

    The content of an input that can't be opened is None.
    """
    if content is None:
        raise Fault(1, owner, 0)
    place = 0
    while True:
        if place >= END_OF_PLACES:
            raise Fault(41, owner, place)
        if place == len(content):
            raise Fault(8, owner, place)
        read, place = read_record(content, place, owner)
        yield read
        if isinstance(read.record, records.ModuleEnd):
            return
