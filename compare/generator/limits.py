"""Links whose lengths, distances and counts are at a limit, or some bytes before or past it.

Each maker is for one limit and is given an excess: up to 0 the link is allowed, above the fault of
the limit stands. So each limit is met on both sides, whatever is drawn for the rest.
"""

from dataclasses import dataclass
from typing import Optional

from generator.spelling import RandomSpelling
from model import records
from model.records import Block, Direct, Fixup, Location, Method, Reference

FRAME_REACH = 65536
LARGEST_PROGRAM = 1_048_560
END_OF_MEMORY = 1_048_576
MOST_RELOCATIONS = 65535
PAGE = 512
# of a file without relocations
LENGTH_OF_HEADER = 32
FARTHEST_BACK, FARTHEST_ON = -128, 127
# how far past a limit: by bytes and by a paragraph
EXCESSES = [1, 0, -1, 16, 15, 17, -16, -15, -17]
# a limit past which there is no fault
NO_FAULT = 0
BYTE, WORD, PARAGRAPH = 1, 2, 3
ALIGNED_TO = {BYTE: 1, WORD: 2, PARAGRAPH: 16}
PRIVATE, PUBLIC, STACK, COMMON = 0, 2, 5, 6
# names that the modules have, by index
NAMES = [b"", b"CODE", b"DATA"]
TARGET_NAME = b"target"
COPIES = 3


@dataclass
class Case:
    """The records of each input; the fault that stands there, or None; where to load it."""

    inputs: list
    fault: Optional[int] = None
    paragraph: Optional[int] = None

    def contents(self, random):
        """The inputs as bytes."""
        spelling = RandomSpelling(random)
        return [b"".join(map(spelling.record, each)) for each in self.inputs]


def aligned(place, alignment):
    return -(-place // ALIGNED_TO[alignment]) * ALIGNED_TO[alignment]


def segment(length, combination=PRIVATE, alignment=BYTE, name=2):
    return records.SegmentDefinition(alignment, combination, length, name, 1, 0)


def module(*body, start=None):
    """A module that has the names."""
    end = records.ModuleEnd(False, start)
    return [records.Header(b"limits"), records.NameList(NAMES), *body, end]


def any_alignment(random):
    return random.choice(list(ALIGNED_TO))


def long_segment(random, excess):
    """Two parts of one segment, of one module or two, of which the second ends at the reach."""
    kind = random.choice([PUBLIC, STACK])
    before, length = random.randrange(40), random.randrange(1, 65_000)
    first, second = any_alignment(random), any_alignment(random)
    start = aligned(before, first)
    end = start // 16 * 16 + FRAME_REACH + excess
    start_of_second = aligned(start + length, BYTE if kind == STACK else second)
    parts = [
        segment(length, kind, first, name=3),
        segment(end - start_of_second, kind, second, name=3)]
    if random.random() < 0.5:
        return Case([module(segment(before), parts[0]), module(parts[1])])
    return Case([module(segment(before), *parts)])


def long_common(random, excess):
    """A common segment that ends at the reach; its start takes up the excess."""
    behind_frame = random.randrange(max(excess, 0), 16)
    before = 32 + behind_frame
    length = FRAME_REACH + excess - behind_frame
    parts = [segment(length, COMMON, name=3), segment(random.randrange(100), COMMON, name=3)]
    random.shuffle(parts)
    return Case([module(segment(before), parts[0]), module(parts[1])])


def long_group(random, excess):
    """A group, of one definition or two, whose last member ends at the reach of its frame."""
    before, first, between = (random.randrange(most) for most in [40, 30_000, 30_000])
    end = before // 16 * 16 + FRAME_REACH + excess
    lengths = [before, first, between, end - before - first - between]
    members = random.choice([[[2, 4]], [[4, 2]], [[2], [4]], [[4], [3, 2]]])
    groups = [records.GroupDefinition(2, indexes) for indexes in members]
    return Case([module(*map(segment, lengths), *groups)])


def large_program(random, excess):
    """Segments that end where the largest program does."""
    rest, cut = LARGEST_PROGRAM - 15 * FRAME_REACH + excess, 16 * random.randrange(2000)
    lengths = [FRAME_REACH] * 15 + [cut, rest - cut]
    is_whole = excess % 16 == 0
    if is_whole:
        random.shuffle(lengths)
    alignments = [any_alignment(random) if is_whole else BYTE for _ in lengths]
    segments = [segment(length, PRIVATE, to) for length, to in zip(lengths, alignments)]
    return Case([module(*segments)])


def last_paragraph(random, excess):
    """A program that ends at the end of memory where it is loaded."""
    paragraph = random.choice([0xFFFF, 0xFFFE, 0xF000, 0x1000, 2, random.randrange(2, 0x10000)])
    size = END_OF_MEMORY - 16 * paragraph + excess
    if size < 0 or size > LARGEST_PROGRAM:
        paragraph -= 2 if size < 0 else -2
        size = END_OF_MEMORY - 16 * paragraph + excess
    lengths = [FRAME_REACH] * (size // FRAME_REACH) + [size % FRAME_REACH]
    data = [records.Data(1, 0, bytes(min(lengths[0], 3)))] if random.random() < 0.5 else []
    return Case([module(*map(segment, lengths), *data)], paragraph=paragraph)


def many_relocations(random, excess):
    """Copies of a base, as many as a table can have."""
    count = MOST_RELOCATIONS + excess
    base = records.FixupRecord([Fixup(True, Location.BASE, 5, to_segment(1, 1))])
    body = []
    for index, copies in enumerate([32_000, 32_000, count - 64_000], 1):
        body += [records.RepeatedData(index, 0, [Block(copies, bytes(2))]), base]
    return Case([module(*[segment(65_000)] * 3, *body)])


def full_page(random, excess):
    """A file that ends with a page."""
    length = PAGE * random.randrange(1, 5) - LENGTH_OF_HEADER + excess
    return Case([module(segment(length), records.Data(1, 0, bytes(length)))])


def base_at(offset):
    """Data of a word at an offset, which a base relocates."""
    base = records.FixupRecord([Fixup(True, Location.BASE, 0, to_segment(1, 1))])
    return [records.Data(1, offset, bytes(2)), base]


def covered_word(random, excess):
    """Data that ends before or begins behind a relocated word of an earlier record."""
    word, length = random.randrange(100, 200), random.randrange(20, 60)
    offset = random.choice([word - length + excess, word + 2 - excess])
    data = [*base_at(word), records.Data(1, offset, bytes(length))]
    if random.random() < 0.5:
        return Case([module(segment(400), *data)])
    common = segment(400, COMMON)
    return Case([module(common, *data[:2]), module(common, data[2])])


def overlapping_words(random, excess):
    """Two fix-ups of one record, of which at least one has a relocated word, beside each other."""
    location = random.choice([Location.BASE, Location.OFFSET])
    first = random.randrange(20, 60)
    places = [first, first + 2 - excess]
    random.shuffle(places)
    fixups = [
        Fixup(True, kind, place, to_segment(1, 1))
        for kind, place in zip([Location.BASE, location], places)]
    random.shuffle(fixups)
    return Case([module(
        segment(400), records.Data(1, 0, bytes(200)), records.FixupRecord(fixups))])


def to_segment(frame, target, displacement=None):
    """A reference to a segment in the frame of one."""
    return Reference(Direct(Method.SEGMENT, frame), Direct(Method.SEGMENT, target), displacement)


class NoRoom(Exception):
    """Data would stand across two segments, so another layout has to be drawn."""


def with_room(make):
    """Draws again until there is room."""
    def make_with_room(random, excess):
        while True:
            try:
                return make(random, excess)
            except NoRoom:
                continue

    return make_with_room


class Reach:
    """Three long segments behind a short one, a name defined in one of them, and a fix-up to it.

    The frame is that of the third segment, so that addresses stand on both sides of its reach.
    """

    def __init__(self, random, excess):
        self.random = random
        self.lengths = [random.randrange(40)]
        self.lengths += [random.randrange(65_000, 65_521) for _ in range(3)]
        self.starts = [sum(self.lengths[:at]) for at in range(4)]
        self.frame = 16 * (self.starts[2] // 16)
        self.inside = self.frame + random.randrange(1000, 60_000)
        self.before = self.frame - excess
        self.behind = self.frame + FRAME_REACH - 1 + excess
        self.displacement = random.choice([None, 1, 0xFFFF])

    def in_segment(self, address, length=0):
        """The index of the segment that has bytes at an address, and their offset in it."""
        at = max(at for at, start in enumerate(self.starts) if start <= address)
        offset = address - self.starts[at]
        if offset + length > self.lengths[at]:
            raise NoRoom
        return at + 1, offset

    def definitions(self, target):
        """The segments, and an address as the target, by a name, local or not."""
        is_local = self.random.random() < 0.5
        externals = records.LocalExternalNames if is_local else records.ExternalNames
        publics = records.LocalPublicNames if is_local else records.PublicNames
        index, offset = self.in_segment(target)
        defining = publics(0, index, None, [records.PublicName(TARGET_NAME, offset, 0)])
        return [*map(segment, self.lengths), externals([TARGET_NAME], [0]), defining]

    def reference(self, displacement):
        return Reference(Direct(Method.SEGMENT, 3), Direct(Method.EXTERNAL, 1), displacement)

    def case(self, location, is_segment_relative, place, target):
        """A module whose fix-up at an address has another as its target."""
        reference = self.reference(self.displacement)
        fixup = Fixup(is_segment_relative, location, 0, reference)
        content = bytes(location.width)
        data = records.Data(*self.in_segment(place, len(content)), content)
        return Case([module(*self.definitions(target), data, records.FixupRecord([fixup]))])

    def repeated_case(self, location, place, target):
        """The same where data is repeated from a place on."""
        fixup = Fixup(False, location, 5, self.reference(self.displacement))
        length = COPIES * location.width
        data = records.RepeatedData(
            *self.in_segment(place, length), [Block(COPIES, bytes(location.width))])
        return Case([module(*self.definitions(target), data, records.FixupRecord([fixup]))])


def any_location(random):
    """A location that isn't a base, which any frame reaches."""
    return random.choice([each for each in Location if each != Location.BASE])


def target_before_frame(random, excess):
    reach = Reach(random, excess)
    return reach.case(any_location(random), True, reach.inside, reach.before)


def target_behind_reach(random, excess):
    reach = Reach(random, excess)
    return reach.case(any_location(random), True, reach.inside, reach.behind)


def near_target_beside_reach(random, excess):
    """A self-relative fix-up whose target is at one of the two ends."""
    reach = Reach(random, excess)
    target = random.choice([reach.before, reach.behind])
    return reach.case(Location.OFFSET, False, reach.inside, target)


def location_before_frame(random, excess):
    reach = Reach(random, excess)
    return reach.case(Location.LOADER_OFFSET, False, reach.before, reach.inside)


def location_behind_reach(random, excess):
    reach = Reach(random, excess)
    return reach.case(Location.OFFSET, False, reach.behind, reach.inside)


def copy_beside_reach(random, excess):
    """The first or the last copy of a self-relative fix-up at one of the two ends."""
    reach = Reach(random, excess)
    last = (COPIES - 1) * Location.OFFSET.width
    place = random.choice([reach.before, reach.behind - last])
    return reach.repeated_case(Location.OFFSET, place, reach.inside)


def start_beside_reach(random, excess):
    """A start at one of the two ends."""
    reach = Reach(random, excess)
    target = random.choice([reach.before, reach.behind])
    start = reach.reference(random.choice([0, 1, 0xFFFF]))
    return Case([module(*reach.definitions(target), start=start)])


def absolute_beside_reach(random, excess):
    """A public at a frame word at one of the two ends of an absolute segment's frame."""
    frame = random.randrange(0x1000, 0xE000)
    address = 16 * frame + random.choice([-excess, FRAME_REACH - 1 + excess])
    frame_of_public = address // 16 - random.randrange(min(address // 16, 0xFFF))
    public = records.PublicName(TARGET_NAME, address - 16 * frame_of_public, 0)
    absolute = records.SegmentDefinition(0, 0, 16, 1, 1, 0, frame, random.randrange(256))
    reference = Reference(Direct(Method.SEGMENT, 2), Direct(Method.EXTERNAL, 1), None)
    return Case([module(
        segment(10), absolute, records.ExternalNames([TARGET_NAME], [0]),
        records.PublicNames(0, 0, frame_of_public, [public]), records.Data(1, 0, bytes(4)),
        records.FixupRecord([Fixup(True, any_location(random), 0, reference)]))])


def short_case(random, way, copies_before):
    """A byte that has a way to its target, or the copies before or behind it less."""
    reach = Reach(random, 0)
    displacement = random.choice(
        [0, 1, 200, -200, -32_768, 32_767, random.randrange(-32_768, 32_768)])
    reach.displacement = displacement % 65_536
    # so that the target stands in the frame's reach too
    within = random.randrange(1000, 32_000) + (32_500 if displacement >= 0 else 0)
    place = reach.frame + within
    target = place + 1 + way - displacement
    if random.random() < 0.3:
        return reach.case(Location.LOW_BYTE, False, place, target)
    return reach.repeated_case(Location.LOW_BYTE, place - copies_before, target)


def short_back(random, excess):
    return short_case(random, FARTHEST_BACK - excess, COPIES - 1)


def short_on(random, excess):
    return short_case(random, FARTHEST_ON + excess, 0)


# each limit's fault, and its makers
LIMITS = {
    NO_FAULT: [full_page],
    22: [long_segment, long_common],
    23: [large_program],
    24: [long_group],
    26: [covered_word],
    30: [
        target_before_frame, target_behind_reach, near_target_beside_reach, location_before_frame,
        location_behind_reach, copy_beside_reach, start_beside_reach, absolute_beside_reach],
    31: [short_back, short_on],
    32: [overlapping_words],
    34: [many_relocations],
    39: [last_paragraph],
}
# a common segment's start is at most 15 bytes behind its frame, and two words overlap by a byte
MOST_EXCESS_OF = {long_common: 15, overlapping_words: 1}
# many relocations take long
RARE = [many_relocations]
CASES = [
    (fault, with_room(make), excess) for excess in EXCESSES for fault, makers in LIMITS.items()
    for make in makers
    if excess <= MOST_EXCESS_OF.get(make, excess) and (make not in RARE or -1 <= excess <= 1)]


def case(random, number):
    """The limit of a number, which counts all cases round after round, and the case."""
    limit, make, excess = CASES[number % len(CASES)]
    made = make(random, excess)
    made.fault = limit if excess > 0 and limit != NO_FAULT else None
    return limit, made
