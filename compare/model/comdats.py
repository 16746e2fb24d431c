"""COMDATs: data of which modules may each have some of one name, and of which a link takes one.

A record opens a COMDAT, or goes on with the one that the COMDAT record before it in its module is of. What is taken is
read as the records of a segment of its own, a public name and data.
"""

from dataclasses import dataclass, field

from model.faults import Fault
from model.libraries import read_frame, whole_frames
from model.lowering import (
    ABOVE_16_BITS, ALIGNMENT, BIG, BODY, COMMENT, COMMUNAL_DATA, FRAME, NOTHING, SEGMENTS, USE_32, Data, Lowering,
    Obstacle, definition, itself, paired, width_of)
from model.names import LOCAL_NAME_LIST, NAME_LIST, Ended, Entries, Names, add, names_of
from model.records import Spelling

PUBLIC_NAMES, LOCAL_PUBLIC_NAMES, LEDATA = 0x90, 0xB6, 0xA0
# the bits of a record's flags
CONTINUED, ITERATED, LOCAL, MOST_FLAGS = 0x01, 0x02, 0x04, 0x0F
# which of one name is taken
NO_MATCH, PICK_ANY, SAME_SIZE, EXACT_MATCH = range(4)
# where one is put: in the segment of a base, or in one that has its own name and this class
EXPLICIT, FAR_CODE, FAR_DATA, CODE_32, DATA_32 = range(5)
CLASSES = {FAR_CODE: b"CODE", FAR_DATA: b"FAR_DATA", CODE_32: b"CODE", DATA_32: b"FAR_DATA"}
OF_32_BITS = (CODE_32, DATA_32)
MOST_ALIGNMENT, PARAGRAPH = 5, 3
# combinations, as bits of the first byte of a SEGDEF
COMBINATION, AS_PUBLIC, AS_COMMON = 0x1C, 2 << 2, 6 << 2
MOST_SEGMENTS = 65_535
# the faults
TYPE, SIZE, DATA, LATE_SEGMENT = 5, 78, 79, 80
# what becomes of a record, if it doesn't open a COMDAT that is taken
CONTINUES, LEFT_OUT, STRAY = "continues", "left out", "stray"


@dataclass
class Said:
    """What a record says: its numbers, its type index as it stands, its base where it has one, and its data."""

    flags: int
    selection: int
    allocation: int
    alignment: int
    offset: int
    type_index: bytes
    group: int
    segment: int
    name: int
    content: bytes

    @property
    def end(self):
        """Behind its data."""
        return self.offset + len(self.content)

    @property
    def compared(self):
        """What of it has to be the same in an exact match."""
        return self.flags & ITERATED, self.offset, self.content


def said(kind, body):
    """What the body of a COMDAT says, or None where it isn't one."""
    entries = Entries(body)
    try:
        flags, attributes, alignment = entries.bytes(3)
        offset = int.from_bytes(entries.bytes(width_of(kind)), "little")
        place = entries.place
        entries.index()
        type_index = body[place:entries.place]
        selection, allocation = attributes >> 4, attributes & 0x0F
        group = segment = 0
        if allocation == EXPLICIT:
            group, segment = entries.index(), entries.index()
            entries.bytes(0 if segment else 2)
        name = entries.index()
    except Ended:
        return None
    if flags > MOST_FLAGS or selection > EXACT_MATCH or allocation > DATA_32 or alignment > MOST_ALIGNMENT:
        return None
    return Said(
        flags, selection, allocation, alignment, offset, type_index, group, segment, name, body[entries.place:])


@dataclass
class Comdat:
    """A COMDAT of a module: its name, what its records say, and which of the module's they are."""

    name: bytes
    records: list = field(default_factory=list)
    numbers: list = field(default_factory=list)

    def add(self, number, record):
        self.numbers.append(number)
        self.records.append(record)

    @property
    def is_local(self):
        return bool(self.records[0].flags & LOCAL)

    @property
    def selection(self):
        return self.records[0].selection

    @property
    def length(self):
        return max(each.end for each in self.records)

    @property
    def data(self):
        return [each.compared for each in self.records]


def records_of(content):
    """The COMDAT records of a module, each with its name: what is no COMDAT, or has a name that isn't listed, is none.
    """
    names = Names()
    for frame in whole_frames(content):
        found = said(frame.kind, frame.body) if frame.kind in COMMUNAL_DATA else None
        if found is not None and names.at(found.name):
            yield names.at(found.name)[0], found
        if frame.kind in (NAME_LIST, LOCAL_NAME_LIST):
            add(names, frame)


def is_one(content, place):
    """Whether the record at a place of a module is a COMDAT whose name is listed in front of it."""
    frame = read_frame(content, place)
    found = said(frame.kind, frame.body)
    return found is not None and names_of(content[:place]).at(found.name) != []


def comdats_of(found):
    """The COMDATs of a module's records, in the order in which they are opened; stray records are of none."""
    comdats, last = [], None
    for number, (name, record) in enumerate(found):
        if not record.flags & CONTINUED:
            last = Comdat(name)
            comdats.append(last)
        elif last is not None and last.name != name:
            last = None
        if last is not None:
            last.add(number, record)
    return comdats


def difference(first, other):
    """The fault of two COMDATs of one name, or None where one of them may stand for the other."""
    selections = first.selection, other.selection
    if first.length != other.length and (SAME_SIZE in selections or EXACT_MATCH in selections):
        return SIZE
    return DATA if first.data != other.data and EXACT_MATCH in selections else None


def is_taken(first, other, words):
    """Whether a COMDAT is taken beside the first of its name, or the fault of both, by the words for their modules."""
    if NO_MATCH in (first.selection, other.selection):
        return True
    number = difference(first, other)
    if number is not None:
        fault = Fault(number, name=other.name)
        fault.words = words
        raise fault
    return False


def fates(modules, key):
    """Of each module what becomes of its COMDAT records, or the fault of the first two that don't go together.

    One that opens a COMDAT that is taken has the length of that.
    """
    first, found = {}, []
    for each in modules:
        records = list(records_of(each.content))
        found.append([STRAY] * len(records))
        for one in comdats_of(records):
            takes = True
            if not one.is_local:
                met, word = first.setdefault(key(one.name), (one, each.word))
                takes = met is one or is_taken(met, one, [word, each.word])
            opened, *others = one.numbers
            found[-1][opened] = one.length if takes else LEFT_OUT
            for number in others:
                found[-1][number] = CONTINUES if takes else LEFT_OUT
    return found


class ComdatLowering(Lowering):
    """Lowers the records of a module, of whose COMDAT records it is known what becomes of them."""

    def __init__(self, keeps_debug, means, own_fates):
        super().__init__(keeps_debug, means)
        self.fates = iter(own_fates)
        # the bodies of the SEGDEFs so far, which are lowered, and how many segments COMDATs have behind these
        self.segments = []
        self.opened_so_far = 0
        # the index of the segment of the last COMDAT; 0 where that is kept out
        self.own = 0

    def lower_all(self, kind, body):
        """The types and the bodies of what stands in the place of a record."""
        if kind in COMMUNAL_DATA:
            return self.lower_comdat(kind, body)
        if kind in SEGMENTS:
            if self.opened_so_far:
                raise Obstacle(LATE_SEGMENT)
            self.segments.append(self.lower(kind, body)[1])
            return [(SEGMENTS[0], self.segments[-1])]
        return [self.lower(kind, body)]

    def lower_comdat(self, kind, body):
        """A segment, a name and data of one that is taken; data of one that goes on with it; nothing of another."""
        record = said(kind, body)
        if record is None or not 1 <= record.name <= len(self.names):
            raise Obstacle(BODY)
        fate = next(self.fates, None)
        if fate in (None, STRAY):
            raise Obstacle(TYPE if fate is None else BODY)
        self.drops_fixups, self.data = fate == LEFT_OUT, Data()
        if fate == LEFT_OUT:
            return [(COMMENT, NOTHING)]
        if record.flags & ITERATED:
            raise Obstacle(TYPE)
        opened = [] if fate == CONTINUES else self.opened(record, fate)
        if self.own == 0:
            self.drops_fixups = True
            return [(COMMENT, NOTHING)]
        if record.offset >= FRAME:
            raise Obstacle(ABOVE_16_BITS)
        self.data = Data(stored=record.content, has_negative=False)
        offset = record.offset.to_bytes(2, "little")
        return [*opened, (LEDATA, Spelling().index(self.own) + offset + record.content)]

    def opened(self, record, length):
        """The segment of its own, unless it is kept out, and its name there."""
        if 1 <= record.segment <= len(self.segments) and self.kept_out[record.segment - 1]:
            self.own = 0
            return []
        if length > FRAME:
            raise Obstacle(ABOVE_16_BITS)
        if record.allocation == EXPLICIT:
            self.check_base(record)
        self.opened_so_far += 1
        self.own = len(self.segments) + self.opened_so_far
        if self.own > MOST_SEGMENTS:
            raise Obstacle(ABOVE_16_BITS)
        kind = LOCAL_PUBLIC_NAMES if record.flags & LOCAL else PUBLIC_NAMES
        name = self.names[record.name - 1]
        base = Spelling().index(record.group) + Spelling().index(self.own)
        public = base + bytes([len(name)]) + name + b"\0\0" + record.type_index
        return [(SEGMENTS[0], self.own_segment(record, length)), (kind, public)]

    def check_base(self, record):
        """A base has to have a segment, no group of all memory, and a SEGDEF so far."""
        if record.segment == 0:
            raise Obstacle(TYPE)
        self.refuse_flat([record.group])
        if record.segment > len(self.segments):
            raise Obstacle(BODY)

    def own_segment(self, record, length):
        """The body of the segment: like that of the base, or one by its own name and a class."""
        said_length = b"\0\0" if length == FRAME else length.to_bytes(2, "little")
        big = BIG if length == FRAME else 0
        if record.allocation == EXPLICIT:
            base = definition(SEGMENTS[0], self.segments[record.segment - 1])
            alignment = record.alignment << 5 or base.first & ALIGNMENT
            combination = base.first & COMBINATION
            # parts of a common segment lie over each other
            combination = AS_PUBLIC if combination == AS_COMMON else combination
            standing = b"" if alignment else base.standing
            return bytes([alignment | combination | big]) + standing + said_length + base.name + base.behind_name
        class_name = CLASSES[record.allocation]
        class_index = self.names.index(class_name) + 1 if class_name in self.names else 0
        front = bytes([(record.alignment or PARAGRAPH) << 5 | big]) + said_length
        return front + Spelling().index(record.name) + Spelling().index(class_index) + b"\0"


def upper_words(content, keeps_debug, own_fates):
    """Of each fix-up of a module as it is lowered, if it had 32 bits, the upper word of the number there."""
    lowering = ComdatLowering(keeps_debug, itself, own_fates)
    for frame in whole_frames(content):
        lowering.lower_all(frame.kind, frame.body)
    return lowering.upper_words


def has_wide_comdats(content, lowered_content):
    """Whether a module has COMDATs of 32 bits whose segments have bytes as they are linked."""
    for own, linked in paired(content, lowered_content):
        record = said(own.kind, own.body) if own.kind in COMMUNAL_DATA else None
        if record is not None and record.allocation in OF_32_BITS and linked[0].kind == SEGMENTS[0]:
            if linked[0].body[0] & BIG or any(linked[0].body[1:3]):
                return True
    return False
