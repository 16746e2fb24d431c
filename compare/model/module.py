"""What the records of an input say together, and the faults 7 and 10 to 21."""

from dataclasses import dataclass, field, replace
from typing import Optional

from model import records
from model.faults import Fault, refuse_smallest
from model.parsing import read_records
from model.records import ByThread, Direct, Method

KINDS = {0: "private", 2: "public", 4: "public", 7: "public", 5: "stack", 6: "common"}
ALIGNMENTS = {1: 1, 2: 2, 3: 16, 4: 256, 5: 4}
# the bytes of a block before its blocks or the length of its content, and of that length
COUNTS_OF_BLOCK = 4
LENGTH_OF_CONTENT = 1
FAULT_OF_INDEX = {Method.SEGMENT: 11, Method.GROUP: 12, Method.EXTERNAL: 13}


@dataclass
class Segment:
    """A segment; an absolute one has a frame and an offset, and others have an alignment."""

    name: bytes
    class_name: bytes
    kind: str
    length: int
    alignment: Optional[int]
    frame: Optional[int]
    offset: Optional[int]

    @property
    def is_absolute(self):
        return self.kind == "absolute"


@dataclass
class Group:
    """A GRPDEF: a name, and the indexes of its segments."""

    name: bytes
    segments: list


@dataclass
class External:
    """A name that means a public, or where it is local a local public of its own module."""

    name: bytes
    is_local: bool


@dataclass
class Public:
    """A public name, with its group's and segment's indexes; without a segment it has a frame."""

    name: bytes
    is_local: bool
    offset: int
    group: int
    segment: int
    frame: Optional[int]


@dataclass
class ResolvedReference:
    """A reference whose threads are replaced by what they meant there."""

    frame: Direct
    target: Direct
    displacement: int


@dataclass
class ResolvedFixup:
    """A fix-up, with the place of its record; of an offset that doslink made of one of 32 bits also
    the upper word of the number there."""

    place: int
    segment_relative: bool
    location: records.Location
    offset: int
    reference: ResolvedReference
    upper_word: int = None

    @property
    def reach(self):
        """How many bytes it adds to: a negative number has four."""
        return 4 if self.upper_word else self.location.width


@dataclass
class DataRecord:
    """Data of either type, as `expand` has it: what it stands for, and its contents."""

    place: int
    segment: int
    offset: int
    stored: list
    contents: list
    fixups: list = field(default_factory=list)


@dataclass
class Start:
    """The start of a module, with the place of its MODEND."""

    place: int
    reference: ResolvedReference


def expanded_length(blocks):
    """How many bytes blocks stand for."""
    return sum(block.repeat * content_length(block) for block in blocks)


def content_length(block):
    """How many bytes are repeated by a block."""
    content = block.content
    return len(content) if isinstance(content, bytes) else expanded_length(content)


def expand(blocks, place=0, is_repeated=True):
    """What blocks stored from a place on stand for, their contents, and the place behind them.

    What they stand for is a list of pairs: the place where a byte is stored, and the byte. It isn't
    made inside of a block that is repeated 0 times. A content is a pair of place and length.
    """
    stored, contents = [], []
    for block in blocks:
        place += COUNTS_OF_BLOCK
        if isinstance(block.content, bytes):
            place += LENGTH_OF_CONTENT
            copy = list(enumerate(block.content, place))
            contents.append((place, len(block.content)))
            place += len(block.content)
        else:
            copy, inner_contents, place = expand(block.content, place, is_repeated and block.repeat)
            contents += inner_contents
        if is_repeated:
            stored += copy * block.repeat
    return stored, contents, place


def lies_in(contents, offset, width):
    """Whether stored bytes lie wholly in one content."""
    return any(first <= offset and offset + width <= first + length for first, length in contents)


class Module:
    """The tables of a module, which grow with each record that is read."""

    def __init__(self, owner):
        self.owner = owner
        self.names = []
        self.segments = []
        self.groups = []
        self.externals = []
        self.publics = []
        self.data = []
        self.frame_threads = {}
        self.target_threads = {}
        self.start = None

    def refuse(self, numbers, place):
        """Raises the smallest of some faults, where there is one, at the place of a record."""
        refuse_smallest(numbers, self.owner, place)

    def define_names(self, record, place):
        """Names are never refused."""
        self.names += record.names

    def name_at(self, index):
        """The name of an index; that of 0 is empty."""
        return self.names[index - 1] if index else b""

    def define_segment(self, record, place):
        """Fault 10 is a name or class above the names; index 0 is the empty name."""
        self.refuse([10] if max(record.name, record.class_name) > len(self.names) else [], place)
        kind = KINDS[record.combination] if record.alignment else "absolute"
        alignment = ALIGNMENTS.get(record.alignment)
        self.segments.append(Segment(
            self.name_at(record.name), self.name_at(record.class_name), kind, record.length,
            alignment, record.frame, record.offset))

    def define_group(self, record, place):
        """Fault 10 is a name that isn't there; then, of each component in order, 11 or 21."""
        self.refuse([] if 1 <= record.name <= len(self.names) else [10], place)
        for index in record.segments:
            self.refuse(self.component_faults(index), place)
        self.groups.append(Group(self.names[record.name - 1], record.segments))

    def component_faults(self, index):
        """Fault 11 is a segment that isn't there, 21 an absolute one."""
        if not 1 <= index <= len(self.segments):
            return [11]
        return [21] if self.segments[index - 1].is_absolute else []

    def define_externals(self, record, place):
        """Externals are never refused here: one that nothing uses needs no public."""
        self.externals += [External(name, record.IS_LOCAL) for name in record.names]

    def define_publics(self, record, place):
        """Faults 11 and 12 are indexes above the tables; 0 is none."""
        faults = [11] if record.segment > len(self.segments) else []
        faults += [12] if record.group > len(self.groups) else []
        self.refuse(faults, place)
        for public in record.publics:
            self.publics.append(Public(
                public.name, record.IS_LOCAL, public.offset, record.group, record.segment,
                record.frame))

    def add_data(self, record, place):
        """A LEDATA is one content."""
        self.check_data(record, len(record.content), place)
        stored = list(enumerate(record.content))
        self.data.append(DataRecord(
            place, record.segment, record.offset, stored, [(0, len(stored))]))

    def add_repeated_data(self, record, place):
        """A LIDATA has the contents of its blocks, also those that are repeated 0 times."""
        self.check_data(record, expanded_length(record.blocks), place)
        stored, contents, _ = expand(record.blocks)
        self.data.append(DataRecord(place, record.segment, record.offset, stored, contents))

    def check_data(self, record, length, place):
        """Fault 11 is a segment that isn't there; 17 data past its end; 18 an absolute one."""
        self.refuse([] if 1 <= record.segment <= len(self.segments) else [11], place)
        segment = self.segments[record.segment - 1]
        faults = [17] if record.offset + length > segment.length else []
        faults += [18] if segment.is_absolute else []
        self.refuse(faults, place)

    def add_fixups(self, record, place):
        """A thread holds until it is set again; its index is checked where it is used."""
        for subrecord in record.subrecords:
            if isinstance(subrecord, records.ThreadSetting):
                threads = self.frame_threads if subrecord.of_frame else self.target_threads
                threads[subrecord.number] = subrecord.meaning
            else:
                self.add_fixup(subrecord, place)

    def add_fixup(self, fixup, place):
        """Beside the faults of its reference: 15 is no data before it, 16 a location that isn't
        wholly in the data, 19 a self-relative base or pointer."""
        reference, faults = self.resolve(fixup.reference)
        if not self.data:
            faults.append(15)
        elif not lies_in(self.data[-1].contents, fixup.offset, fixup.location.width):
            faults.append(16)
        if fixup.location.has_base and not fixup.segment_relative:
            faults.append(19)
        self.refuse(faults, place)
        self.data[-1].fixups.append(ResolvedFixup(
            place, fixup.segment_relative, fixup.location, fixup.offset, reference))

    def end(self, record, place):
        """The faults of the start's reference; 20 is a frame that is its location's."""
        if record.start is not None:
            reference, faults = self.resolve(record.start)
            if reference.frame is not None and reference.frame.method == Method.LOCATION:
                faults.append(20)
            self.refuse(faults, place)
            self.start = Start(place, reference)

    def resolve(self, reference):
        """A reference without its threads, and its faults 11 to 14."""
        frame, frame_faults = self.resolve_side(reference.frame, self.frame_threads)
        target, target_faults = self.resolve_side(reference.target, self.target_threads)
        resolved = ResolvedReference(frame, target, reference.displacement or 0)
        return resolved, frame_faults + target_faults

    def resolve_side(self, side, threads):
        """What a frame or target says, by a thread or directly.

        Fault 14 is a thread that isn't set, 11 to 13 an index that means nothing now.
        """
        direct = threads.get(side.number) if isinstance(side, ByThread) else side
        if direct is None:
            return None, [14]
        if not direct.method.has_index:
            return direct, []
        tables = {
            Method.SEGMENT: self.segments, Method.GROUP: self.groups,
            Method.EXTERNAL: self.externals}
        is_there = 1 <= direct.index <= len(tables[direct.method])
        return direct, [] if is_there else [FAULT_OF_INDEX[direct.method]]

    def skip(self, record, place):
        """A later THEADR, a COMENT and a LINNUM act on nothing."""

    def redirect_externals(self, meanings):
        """Makes each reference to an external one to that which it means, by the indexes of both.

        What that one means isn't looked up again.
        """
        for each in [*(fixup for data in self.data for fixup in data.fixups), self.start]:
            if each is not None:
                each.reference = replace(
                    each.reference, frame=redirected(each.reference.frame, meanings),
                    target=redirected(each.reference.target, meanings))


def redirected(side, meanings):
    """A frame or a target; an external is the one that it means."""
    if side.method != Method.EXTERNAL:
        return side
    return Direct(side.method, meanings.get(side.index, side.index))


STEPS = {
    records.Header: Module.skip,
    records.Comment: Module.skip,
    records.LineNumbers: Module.skip,
    records.NameList: Module.define_names,
    records.SegmentDefinition: Module.define_segment,
    records.GroupDefinition: Module.define_group,
    records.ExternalNames: Module.define_externals,
    records.LocalExternalNames: Module.define_externals,
    records.PublicNames: Module.define_publics,
    records.LocalPublicNames: Module.define_publics,
    records.Data: Module.add_data,
    records.RepeatedData: Module.add_repeated_data,
    records.FixupRecord: Module.add_fixups,
    records.ModuleEnd: Module.end,
}


def read(content, owner):
    """The module of an input, up to its MODEND.

    Fault 7 is another first record than THEADR.
    """
    module = Module(owner)
    for read_one in read_records(content, owner):
        if read_one.place == 0 and not isinstance(read_one.record, records.Header):
            raise Fault(7, owner, 0)
        STEPS[type(read_one.record)](module, read_one.record, read_one.place)
    return module
