"""Modules whose indexes, places and lengths are at a limit, or some before or past it.

As in `limits`, each maker is given an excess: above 0 the fault of the limit stands.
"""

from generator.limits import Case, module, segment, to_segment
from model import records
from model.records import Block, Direct, Fixup, Location, Method, Reference, ThreadSetting

EXCESSES = [1, 0, -1, 16, 17, -16, -17]
DEEPEST_LEVEL = 64
LONGEST_SEGMENT = 65535
# sizes of tables: also those at which indexes get a second byte or another high part
SIZES = [20, 110, 126, 127, 128, 129, 254, 255, 256, 300]


def data_outside(random, excess):
    """Data that ends at a segment's end."""
    content = bytes(random.choice([0, 1, random.randrange(30)]))
    length = random.choice([60, LONGEST_SEGMENT - 17, random.randrange(60, 60_000)])
    offset = length - len(content) + excess
    return module(segment(length), records.Data(1, offset, content))


def whole_segment_outside(random, excess):
    """Data that ends at the end of 65,536 bytes, at times from their begin on."""
    length = random.choice([18 + random.randrange(30), records.WHOLE_SEGMENT + excess])
    offset = records.WHOLE_SEGMENT - length + excess
    blocks = [Block(length // 8, bytes(8)), Block(1, bytes(length % 8))]
    return module(
        segment(records.WHOLE_SEGMENT), records.RepeatedData(1, offset, blocks))


def absolute_data_outside(random, excess):
    """Data that ends at the end of an absolute segment, where another fault stands anyway."""
    length = random.randrange(40, 100)
    absolute = records.SegmentDefinition(0, 0, length, 1, 1, 0, 0x40, 0)
    content = bytes(random.randrange(20))
    return module(absolute, records.Data(1, length - len(content) + excess, content))


def repeated_data_outside(random, excess):
    """Repeated data that ends at a segment's end; what is repeated 0 times counts for nothing."""
    times = random.randrange(1, 20)
    nothing = Block(0, [Block(65_535, [Block(65_535, bytes(255))])])
    blocks = [Block(times, [Block(2, bytes(3)), Block(1, bytes(1))]), nothing]
    random.shuffle(blocks)
    length = random.randrange(200, 1000)
    offset = length - 7 * times + excess
    return module(segment(length), records.RepeatedData(1, offset, blocks))


def fixup_behind_data(random, excess):
    """A location that ends at the data's end."""
    location = random.choice(list(Location))
    length = random.choice([22, 100, 1005])
    fixup = Fixup(True, location, length - location.width + excess, to_segment(1, 1))
    return module(
        segment(2000), records.Data(1, 0, bytes(length)), records.FixupRecord([fixup]))


def fixup_behind_content(random, excess):
    """A location that ends at the end of one of two contents, of which either is repeated."""
    location = random.choice(list(Location))
    length, times = random.randrange(22, 100), random.choice([0, 1, 3])
    # farther behind the first content stands the second
    at_second = excess > 5 or random.random() < 0.5
    end = 5 + length + (5 + length) * at_second
    fixup = Fixup(True, location, end - location.width + excess, to_segment(1, 1))
    blocks = [Block(times, bytes(length)), Block(1, bytes(length))]
    return module(
        segment(2000), records.RepeatedData(1, 0, blocks), records.FixupRecord([fixup]))


def fixup_before_content(random, excess):
    """A location that begins at a content's begin."""
    location = random.choice(list(Location))
    length = random.randrange(22, 100)
    fixup = Fixup(True, location, 5 + length + 5 - excess, to_segment(1, 1))
    blocks = [Block(1, bytes(length)), Block(1, bytes(length))]
    return module(
        segment(2000), records.RepeatedData(1, 0, blocks), records.FixupRecord([fixup]))


def name_above(random, excess):
    """A name's or a class's index at the end of the names."""
    size = random.choice(SIZES)
    index = size + len([b"", b"CODE", b"DATA"]) + excess
    use = random.choice([
        records.SegmentDefinition(1, 0, 0, index, 0, 0),
        records.SegmentDefinition(1, 0, 0, 0, index, 0), records.GroupDefinition(index, [])])
    return module(records.NameList([b"n"] * size), use)


def reference_above(random, method, index):
    """A fix-up's or thread's frame or target, or a start's, by an index."""
    direct, plain = Direct(method, index), Direct(Method.SEGMENT, 1)
    target_frame = Direct(Method.TARGET)
    references = [
        Reference(target_frame, direct, None), Reference(direct, plain, None),
        Reference(records.ByThread(3), plain, None),
        Reference(target_frame, records.ByThread(2), 1)]
    threads = records.FixupRecord([
        ThreadSetting(True, 3, direct), ThreadSetting(False, 2, direct)])
    reference = random.choice(references)
    if random.random() < 0.3:
        return [threads], reference
    fixup = Fixup(True, Location.OFFSET, 0, reference)
    return [threads, records.Data(1, 0, bytes(2)), records.FixupRecord([fixup])], None


def segment_above(random, excess):
    """A segment's index at the end of the segments."""
    size = random.choice(SIZES)
    index = size + excess
    body, start = random.choice([
        ([records.GroupDefinition(1, [1, index])], None),
        ([records.Data(index, 0, b"")], None), ([records.RepeatedData(index, 0, [])], None),
        ([records.PublicNames(0, index, None, [])], None),
        ([records.LocalPublicNames(0, index, None, [])], None),
        reference_above(random, Method.SEGMENT, index)])
    return module(*[segment(2)] * size, *body, start=start)


def group_above(random, excess):
    """A group's index at the end of the groups."""
    size = random.choice(SIZES)
    index = size + excess
    group = random.choice([records.PublicNames, records.LocalPublicNames])
    body, start = random.choice([
        ([group(index, 0, 0, [])], None), reference_above(random, Method.GROUP, index)])
    return module(segment(2), *[records.GroupDefinition(1, [1])] * size, *body, start=start)


def external_above(random, excess):
    """An external's index at the end of the externals."""
    size = random.choice(SIZES)
    local = size // 2
    body, start = reference_above(random, Method.EXTERNAL, size + excess)
    return module(
        segment(2), records.LocalExternalNames([b"x"] * local, [0] * local),
        records.ExternalNames([b"x"] * (size - local), [0] * (size - local)), *body, start=start)


def deep_blocks(random, excess):
    """Blocks as deep as they may be."""
    made = Block(random.randrange(4), b"x")
    for _ in range(DEEPEST_LEVEL + excess - 1):
        made = Block(1, [made])
    return module(segment(10), records.RepeatedData(1, 0, [made]))


# each limit's fault, and its makers
LIMITS = {
    6: [deep_blocks],
    10: [name_above],
    11: [segment_above],
    12: [group_above],
    13: [external_above],
    16: [fixup_behind_data, fixup_behind_content, fixup_before_content],
    17: [
        data_outside, whole_segment_outside, repeated_data_outside, absolute_data_outside],
}
# the fault where a limit isn't passed, if there is one
FAULT_BEFORE = {absolute_data_outside: 18}
# farther before a content stands another one
MOST_EXCESS_OF = {fixup_before_content: 5}
CASES = [
    (fault, make, excess) for excess in EXCESSES for fault, makers in LIMITS.items()
    for make in makers if excess <= MOST_EXCESS_OF.get(make, excess)]


def case(random, number):
    """The limit of a number, which counts all cases round after round, and the case."""
    limit, make, excess = CASES[number % len(CASES)]
    fault = limit if excess > 0 else FAULT_BEFORE.get(make)
    return limit, Case([make(random, excess)], fault)
