"""Inputs of one module each, for `omf show`, `check` and `rewrite`: sound, random and damaged."""

from generator import links
from generator.modules import WITH_INDEX, ModuleMaker
from generator.spelling import RandomSpelling, damaged
from model import records
from model.records import (
    LARGEST_INDEX, LONGEST_BODY, Block, ByThread, Direct, Fixup, Location, Method, Reference,
    ThreadSetting)

INDEXES = [0, 1, 2, 127, 128, 129, 255, 256, LARGEST_INDEX]
WORDS = [0, 1, 2, 0x7F, 0x80, 0xFF, 0x100, 0x7FFF, 0x8000, 0xFFFF]
LENGTHS_OF_NAMES = [0, 1, 1, 2, 3, 5, 9, 255]
MOST_OFFSET = 1023
DEEPEST_LEVEL = 64


class RecordMaker:
    """Makes records that are bodies of their types, whatever they say together."""

    def __init__(self, random):
        self.random = random

    def word(self):
        return self.random.choice([*WORDS, self.random.randrange(65536)])

    def index(self):
        return self.random.choice([*INDEXES, self.random.randrange(LARGEST_INDEX + 1)])

    def byte(self):
        return self.random.randrange(256)

    def bytes(self, count):
        return bytes(self.byte() for _ in range(count))

    def name(self):
        return self.bytes(self.random.choice(LENGTHS_OF_NAMES))

    def some(self, make):
        """None to a few of something."""
        return [make() for _ in range(self.random.choice([0, 1, 1, 2, 3, 5]))]

    def header(self):
        return records.Header(self.name())

    def comment(self):
        return records.Comment(self.byte(), self.byte(), self.bytes(self.random.choice([0, 1, 40])))

    def names(self):
        return records.NameList(self.some(self.name))

    def segment(self):
        alignment, combination = self.random.randrange(6), self.random.choice([0, 2, 4, 5, 6, 7])
        length = self.random.choice([records.WHOLE_SEGMENT, self.word()])
        absolute = (self.word(), self.byte()) if alignment == 0 else (None, None)
        return records.SegmentDefinition(
            alignment, combination, length, self.index(), self.index(), self.index(), *absolute)

    def group(self):
        return records.GroupDefinition(self.index(), self.some(self.index))

    def externals(self):
        kind = self.random.choice([records.ExternalNames, records.LocalExternalNames])
        names = self.some(self.name)
        return kind(names, [self.index() for _ in names])

    def publics(self):
        kind = self.random.choice([records.PublicNames, records.LocalPublicNames])
        segment = self.index()
        publics = self.some(lambda: records.PublicName(self.name(), self.word(), self.index()))
        return kind(self.index(), segment, self.word() if segment == 0 else None, publics)

    def lines(self):
        pairs = self.some(lambda: (self.word(), self.word()))
        return records.LineNumbers(self.index(), self.index(), pairs)

    def data(self):
        content = self.bytes(self.random.choice([0, 1, 2, 16, 100]))
        return records.Data(self.index(), self.word(), content)

    def repeated_data(self):
        if self.random.random() < 0.15:
            levels = self.random.choice([DEEPEST_LEVEL - 1, DEEPEST_LEVEL, DEEPEST_LEVEL + 1])
            return records.RepeatedData(self.index(), self.word(), [self.deep_block(levels)])
        return records.RepeatedData(
            self.index(), self.word(), self.some(lambda: self.block(1)))

    def deep_block(self, levels):
        """A block of so many levels."""
        made = Block(self.word(), self.bytes(1))
        for _ in range(levels - 1):
            made = Block(self.random.choice([1, 1, self.word()]), [made])
        return made

    def block(self, level):
        if level < 5 and self.random.random() < 0.3:
            inner = [self.block(level + 1) for _ in range(self.random.randrange(1, 4))]
            return Block(self.word(), inner)
        length = self.random.choice([0, 1, 2, 3, 255])
        return Block(self.word(), self.bytes(length))

    def direct(self, methods):
        method = self.random.choice(methods)
        return Direct(method, self.index() if method.has_index else None)

    def reference(self):
        thread = ByThread(self.random.randrange(4))
        frame = self.random.choice([thread, self.direct(list(Method))])
        thread = ByThread(self.random.randrange(4))
        target = self.random.choice([thread, self.direct(WITH_INDEX)])
        return Reference(frame, target, self.random.choice([None, self.word()]))

    def subrecord(self):
        if self.random.random() < 0.4:
            of_frame = self.random.random() < 0.5
            meaning = self.direct(list(Method) if of_frame else WITH_INDEX)
            return ThreadSetting(of_frame, self.random.randrange(4), meaning)
        offset = self.random.choice([0, 255, 256, MOST_OFFSET, self.random.randrange(1024)])
        return Fixup(
            self.random.random() < 0.5, self.random.choice(list(Location)), offset,
            self.reference())

    def fixups(self):
        return records.FixupRecord(self.some(self.subrecord))

    def end(self):
        start = self.random.choice([None, self.reference()])
        return records.ModuleEnd(self.random.random() < 0.5, start)

    def any_record(self):
        """A record of any type but MODEND."""
        return self.random.choice([
            self.header, self.comment, self.names, self.segment, self.group, self.externals,
            self.publics, self.lines, self.data, self.repeated_data, self.fixups])()

    def longest_record(self):
        """A record with the longest body; of the data's index there is one spelling."""
        rest = LONGEST_BODY - 2
        return self.random.choice([
            records.Comment(self.byte(), self.byte(), self.bytes(1) * rest),
            records.NameList([b""] * LONGEST_BODY),
            records.NameList([b"\xFF" * 255] * 255 + [b"\xFF" * 253]),
            records.Data(200, self.word(), bytes(LONGEST_BODY - 4))])


def random_module(random):
    """Records of any kind between a THEADR and a MODEND."""
    maker = RecordMaker(random)
    made = [maker.any_record() for _ in range(random.randrange(8))]
    if random.random() < 0.02:
        made.append(maker.longest_record())
    made = [maker.header(), *made, maker.end()]
    return b"".join(map(RandomSpelling(random).record, made))


def sound_module(random):
    """A module that mostly says something, as those of a link."""
    plan = links.any_plan(random)
    likelihood = random.choice([0.003, 0.05])
    maker = ModuleMaker(random, plan, plan.published, likelihood)
    made = maker.make(has_start=random.random() < 0.5)
    return b"".join(map(RandomSpelling(random).record, made))


def odd_input(random):
    """An input that is no module at all, or None: one that can't be opened."""
    return random.choice([
        None, b"", b"\x80", b"MZ" * 20, b"\x7FELF" + bytes(60), bytes(5000),
        bytes(random.randrange(256) for _ in range(random.randrange(40)))])


def any_input(random):
    """Bytes for show, check and rewrite."""
    if random.random() < 0.02:
        return odd_input(random)
    content = random.choice([sound_module, random_module])(random)
    for _ in range(random.choice([0, 1, 1, 2])):
        content = damaged(random, content)
        if not content:
            break
    if random.random() < 0.2:
        content += bytes(random.randrange(256) for _ in range(random.choice([1, 5, 300])))
    return content
