"""Records of random modules: mostly sound ones, with each fault once in a while."""

from dataclasses import dataclass

from model import records
from model.module import expand
from model.records import (
    LARGEST_INDEX, Block, ByThread, Direct, Fixup, Location, Method, Reference, ThreadSetting)

SEGMENT_NAMES = [b"", b"CODE", b"DATA", b"code", b'"\\', b"\x00\x7F\xFF"]
LONGEST_NAME = bytes(range(1, 256))
# some differ by case alone, some by the bit that case is told by but in no letter of ASCII
PUBLIC_NAMES = [
    b"x", b"X", b"_main", b"_MAIN", b"_Main", b"", b'a "name"', b'A "Name"', b"\x80\xE9\x1F",
    b"\x80\xC9\x1F", b"@", b"`", b"[", b"{", b"A", b"a", b"Z", b"z", LONGEST_NAME,
    LONGEST_NAME.swapcase(), b"y"]
# of each size of programs
SEGMENT_LENGTHS = {
    "small": [0, 1, 2, 3, 7, 16, 17, 20, 30, 40],
    "repeating": [1, 40, 200, 1000, 4000],
    "large": [0, 20, 40, 5000, 30_000, 65_530, 65_535],
    "huge": [0, 16, 60_000, 65_520, 65_521],
}
# segments of 65,536 bytes beside them that each module of a huge program has
WHOLE_SEGMENTS = 15
FRAMES = [0, 1, 0x40, 0xB800, 0xFFFF]
DISPLACEMENTS = [0, 1, 2, 5, 16, 0x7FFF, 0x8000, 0xFFF0, 0xFFFF]
WITH_INDEX = [Method.SEGMENT, Method.GROUP, Method.EXTERNAL]
# of a fix-up, in ten bits
MOST_OFFSET = 1023


@dataclass
class Plan:
    """What the modules of a link share.

    It is how large they are, the names that they publish, whether names that differ by case alone
    agree, usual names of segments and classes, so that segments combine, and their kinds.
    """

    size: str
    published: list
    ignores_case: bool
    usual: list
    combinations: list

    def some_names(self, random, most):
        """Some names of publics, of which no two agree."""
        names = random.sample(PUBLIC_NAMES, random.randrange(most + 1))
        if not self.ignores_case:
            return names
        return list({name.lower(): name for name in names}.values())


class ModuleMaker:
    """Makes the records of one module, with some names of the plan, and others for itself alone.

    Most of what it makes is sound. What is at fault comes by chance, often enough that each check
    is met.
    """

    def __init__(self, random, plan, publics, likelihood_of_fault=0.003):
        self.random = random
        self.likelihood_of_fault = likelihood_of_fault
        self.plan = plan
        self.publics = publics
        self.local_names = plan.some_names(random, random.choice([2, 4, 8]))
        self.local_publics = list(self.local_names)
        self.records = [records.Header(random.choice(SEGMENT_NAMES))]
        self.names = []
        self.segments = []
        self.groups = 0
        self.externals = 0
        self.frame_threads = []
        self.target_threads = []

    def happens(self, likelihood):
        """Whether something that is so likely happens this time."""
        return self.random.random() < likelihood

    def rarely(self):
        """Whether to do what is at fault, where each module has many an occasion for it."""
        return self.happens(self.likelihood_of_fault)

    def bytes(self, count):
        """Any bytes."""
        return bytes(self.random.randrange(256) for _ in range(count))

    def index(self, count):
        """An index into a table, rarely one that means nothing."""
        if count == 0 or self.rarely():
            return self.random.randrange(count + 2)
        return self.random.randrange(1, count + 1)

    def name_index(self):
        """An index of a name, or 0; often that of a usual name, rarely one that means nothing."""
        if self.rarely():
            return len(self.names) + 1
        usual = [index for index, name in enumerate(self.names, 1) if name in self.plan.usual]
        if usual and self.happens(0.5):
            return self.random.choice(usual)
        return self.random.randrange(len(self.names) + 1)

    def any_index(self):
        """An index that is never checked."""
        return self.random.choice([0, 1, 127, 128, self.random.randrange(LARGEST_INDEX + 1)])

    def table_size(self, method):
        """How much an index of a method may mean so far."""
        sizes = {
            Method.SEGMENT: len(self.segments), Method.GROUP: self.groups,
            Method.EXTERNAL: self.externals}
        return sizes[method]

    def make(self, has_start):
        """All records of the module: definitions, then data with its fix-ups, then the end."""
        self.define_names()
        for _ in range(self.random.randrange(1, 5)):
            self.define_segment()
        if self.plan.size == "huge":
            self.define_whole_segments()
        ways = [
            self.define_group, self.define_externals, self.define_local_externals,
            self.define_publics, self.define_local_publics]
        definitions = [
            define for define in ways for _ in range(self.random.choice([0, 1, 1, 2]))]
        self.random.shuffle(definitions)
        for define in definitions:
            define()
        if self.happens(0.01):
            self.add_fixups([(0, 20)], set())  # before any data
        for _ in range(self.random.choice([0, 1, 2, 2, 3, 4])):
            if self.happens(0.1):
                self.define_more()
            self.add_data()
        if self.publics:
            self.define_publics(len(self.publics))
        if self.local_publics:
            self.define_local_publics(len(self.local_publics))
        self.add_idle_records()
        start = self.reference(at_start=True) if has_start else None
        self.records.append(records.ModuleEnd(self.happens(0.5), start))
        return self.records

    def define_more(self):
        """A definition between data records."""
        ways = [
            self.define_names, self.define_segment, self.define_group, self.define_externals,
            self.define_local_externals, self.define_local_publics]
        self.random.choice(ways)()

    def define_names(self):
        """Names of segments, classes and groups, in any order."""
        most = len(SEGMENT_NAMES)
        names = self.random.sample(SEGMENT_NAMES, self.random.randrange(3, most + 1))
        self.records.append(records.NameList(names))
        self.names += names

    def define_segment(self):
        """A segment; at times an absolute one, or in a large program a whole one."""
        alignments = [1, 2, 3, 5] if self.happens(0.5) else [1, 1, 2, 3, 3, 4, 5, 0]
        alignment = self.random.choice(alignments)
        length = self.random.choice(SEGMENT_LENGTHS[self.plan.size])
        if self.plan.size != "small" and self.happens(0.1):
            length = records.WHOLE_SEGMENT
        combination = self.random.choice(self.plan.combinations)
        segment = records.SegmentDefinition(
            alignment, combination, length, self.name_index(), self.name_index(), self.any_index())
        if alignment == 0:
            segment.frame = self.random.choice(FRAMES)
            segment.offset = self.random.choice([0, 0, 3, 255])
        self.add_segment(segment)

    def add_segment(self, segment):
        """A segment that the records behind it may name."""
        self.records.append(segment)
        self.segments.append(segment)

    def define_whole_segments(self):
        """Private segments, as many as bring a program near the greatest size."""
        for _ in range(WHOLE_SEGMENTS):
            self.add_segment(
                records.SegmentDefinition(3, 0, records.WHOLE_SEGMENT, 1, 1, 0))

    def segment_index(self, suits):
        """The index of a segment that suits; of any where none does, and rarely else."""
        segments = enumerate(self.segments, 1)
        suitable = [index for index, segment in segments if suits(segment)]
        if not suitable or self.happens(2 * self.likelihood_of_fault):
            return self.index(len(self.segments))
        return self.random.choice(suitable)

    def define_group(self):
        """A group, at times without members or with one twice."""
        count = self.random.choice([0, 1, 1, 1, 2, 2, 2, 3])
        components = [
            self.segment_index(lambda segment: segment.alignment != 0) for _ in range(count)]
        self.records.append(records.GroupDefinition(self.index(len(self.names)), components))
        self.groups += 1

    def spelling_of(self, name):
        """A name as a module may spell it: in any case where it is ignored, else rarely."""
        if self.plan.ignores_case or self.rarely():
            return self.random.choice([name, name.upper(), name.lower(), name.swapcase()])
        return name

    def define_externals(self):
        """Names that some module publishes, at times any."""
        self.define_used(records.ExternalNames, self.plan.published)

    def define_local_externals(self):
        """Names that this module defines for itself, at times any."""
        self.define_used(records.LocalExternalNames, self.local_names)

    def define_used(self, kind, defined):
        """Externals of a kind that mostly mean what is defined."""
        known = defined
        if self.happens(0.1):
            known = self.random.choice([PUBLIC_NAMES, self.plan.published, self.plan.published])
        if known:
            count = self.random.randrange(1, 3)
            names = [self.spelling_of(self.random.choice(known)) for _ in range(count)]
            self.records.append(kind(names, [self.any_index() for _ in names]))
            self.externals += len(names)

    def define_publics(self, count=1):
        """Some of the names that this module is to publish, rarely one that a module has."""
        self.define_offsets(records.PublicNames, self.publics, self.plan.published, count)

    def define_local_publics(self, count=1):
        """Some of the names that this module is to define for itself, rarely one that it has."""
        self.define_offsets(
            records.LocalPublicNames, self.local_publics, self.local_names, count)

    def define_offsets(self, kind, waiting, known, count):
        """Publics of a kind, by the next of the names that wait for it."""
        names = [waiting.pop() for _ in range(min(count, len(waiting)))]
        if known and self.happens(0.01):
            names.append(self.spelling_of(self.random.choice(known)))
        segment = 0 if self.happens(0.15) else self.index(len(self.segments))
        group = self.index(self.groups) if self.groups and self.happens(0.5) else 0
        frame = self.random.choice(FRAMES) if segment == 0 else None
        offsets = [0, 1, 5, self.random.randrange(40), self.random.choice([20, 0xFFFF])]
        publics = [
            records.PublicName(name, self.random.choice(offsets), self.any_index())
            for name in names]
        self.records.append(kind(group, segment, frame, publics))

    def add_idle_records(self):
        """At times records that act on nothing, anywhere behind the first."""
        while self.happens(0.2):
            idle = self.random.choice([
                records.Header(self.random.choice(PUBLIC_NAMES)),
                records.Comment(
                    self.random.randrange(256), self.random.randrange(256), self.bytes(3)),
                records.LineNumbers(self.any_index(), self.any_index(), [(1, 0), (65_535, 2)]),
            ])
            self.records.insert(self.random.randrange(1, len(self.records) + 1), idle)

    def add_data(self):
        """A data record of either type in a part, and mostly fix-ups behind it."""
        index = self.segment_index(lambda segment: segment.alignment and segment.length)
        is_there = 1 <= index <= len(self.segments)
        room = self.segments[index - 1].length if is_there else 0
        repeats = self.plan.size == "repeating"
        if self.happens(0.1 if repeats else 0.6):
            count = min(room, self.random.choice([0, 1, 2, 4, 6, 8, 12]))
            contents = [(0, count)]
            offset = self.data_offset(room - count)
            self.records.append(records.Data(index, offset, self.bytes(count)))
        else:
            blocks, stored, contents = self.blocks(room)
            offset = self.data_offset(room - len(stored))
            self.records.append(records.RepeatedData(index, offset, blocks))
        fixed = set()
        for _ in range(self.random.choice([1, 2, 4]) if repeats else 1):
            self.add_fixups(contents, fixed)

    def data_offset(self, most):
        """An offset, mostly one at which the data lies in its segment."""
        most = min(max(most, 0), 65_535)
        return min(most + 1, 65_535) if self.rarely() else self.random.randrange(most + 1)

    def blocks(self, room):
        """Blocks that mostly fit into a room, what they stand for, and their contents."""
        most = 4 if self.plan.size == "repeating" else 2
        for _ in range(10):
            blocks = [self.block(1) for _ in range(self.random.randrange(most + 1))]
            stored, contents, _ = expand(blocks)
            if len(stored) <= room:
                break
        return blocks, stored, contents

    def block(self, level):
        """A block that repeats bytes or, above the third or the sixth level, other blocks."""
        repeats = self.plan.size == "repeating"
        if level < (6 if repeats else 3) and self.happens(0.5 if repeats else 0.3):
            inner = [self.block(level + 1) for _ in range(self.random.randrange(1, 3))]
            return Block(self.random.randrange(4), inner)
        content = self.bytes(self.random.choice([0, 1, 2, 3, 4, 6]))
        repeats = [0, 1, 1, 2, 3, 4] if content else [0, 1, 65_535]
        return Block(self.random.choice(repeats), content)

    def add_fixups(self, contents, fixed):
        """A FIXUPP record with threads, and fix-ups mostly in the contents of the last data.

        The stored places that fix-ups have changed so far are `fixed`.
        """
        subrecords = []
        for _ in range(self.random.choice([0, 1, 1, 2, 3])):
            subrecords += self.thread() if self.happens(0.25) else self.fixup(contents, fixed)
        if subrecords:
            self.records.append(records.FixupRecord(subrecords))

    def direct(self, methods):
        """A frame or target by a method whose table has something, rarely by any."""
        def can_be_used(method):
            return not method.has_index or self.table_size(method) or self.rarely()

        # an index may be at fault where no table has anything
        usable = list(filter(can_be_used, methods)) or methods
        method = self.random.choice(usable)
        return Direct(method, self.index(self.table_size(method)) if method.has_index else None)

    def thread(self):
        """A thread subrecord, and its number among those that were set."""
        of_frame = self.happens(0.5)
        number = self.random.randrange(4)
        (self.frame_threads if of_frame else self.target_threads).append(number)
        meaning = self.direct(list(Method) if of_frame else WITH_INDEX)
        return [ThreadSetting(of_frame, number, meaning)]

    def fixup(self, contents, fixed):
        """A fix-up in the contents, or none where they are too short; rarely one past them.

        A base or a pointer stands rarely on bytes that are fixed, and other fix-ups may.
        """
        location = self.random.choice([*Location, Location.OFFSET, Location.BASE])
        width = 1 if self.happens(0.01) else location.width
        offsets = [
            first + at for first, length in contents for at in range(length - width + 1)]
        if location.has_base and not self.happens(0.05):
            offsets = [at for at in offsets if fixed.isdisjoint(range(at, at + width))]
        if self.rarely():
            offsets = [self.random.choice([0, 3, 20, 1023])]
        offsets = [offset for offset in offsets if offset <= MOST_OFFSET]
        if not offsets:
            return []
        offset = self.random.choice(offsets)
        fixed.update(range(offset, offset + width))
        segment_relative = not self.rarely() if location.has_base else self.happens(0.7)
        return [Fixup(segment_relative, location, offset, self.reference())]

    def by_thread(self, threads):
        """At times a thread that was set, rarely any thread, else None."""
        if self.rarely():
            return ByThread(self.random.randrange(4))
        if threads and self.happens(0.2):
            return ByThread(self.random.choice(threads))
        return None

    def reference(self, at_start=False):
        """A reference; mostly in the frame of the target or, but for a start, of the location."""
        plain = [Method.TARGET]
        if not at_start or self.happens(0.06):
            plain.append(Method.LOCATION)
        methods = plain if self.happens(0.6) else WITH_INDEX
        frame = self.by_thread(self.frame_threads) or self.direct(methods)
        target = self.by_thread(self.target_threads) or self.direct(WITH_INDEX)
        return Reference(frame, target, self.displacement())

    def displacement(self):
        """A displacement or None; at times one that about reaches as far as a byte does."""
        reach = self.random.randrange(96, 160)
        return self.random.choice([
            None, self.random.choice(DISPLACEMENTS), self.random.randrange(65_536), reach,
            65_536 - reach])
