"""Communal variables: what modules declare of them, and modules that have little else."""

from dataclasses import dataclass
from random import Random

from generator.spelling import RandomSpelling
from model import records
from model.placement import folded
from model.records import Direct, Fixup, Location, Method, PublicName, Reference

COMDEF, LCOMDEF = 0xB0, 0xB8
FAR, NEAR = 0x61, 0x62
# what no module offers
NAMES = [b"_buffer", b"buffer", b"_BUFFER", b"_count", b"table", b"Table", b"_errno", b"\xE9t"]
OTHER_TYPES = [0x00, 0x01, 0x05, 0x5F, 0x60, 0x63]
NO_NUMBERS = [b"\x82", b"\x85", b"\x89", b"\xFF"]
# the first byte of a longer number by the bytes behind it
FORMS = {2: 0x81, 3: 0x84, 4: 0x88}
SIZES = [1, 2, 4, 10, 3, 256, 0]
COUNTS = [0, 1, 1, 2, 3, 4, 5, 127, 128, 129, 300]
LONG_COUNTS = [30_000, 32_768, 65_535]
FRAME = 65_536
# variables at limits: the length of a near one; the count and the size of the elements of a far one
LIMITS = [
    [65_536], [65_537], [65_534, 2], [65_534, 1, 1], [65_535, 1], [65_535, 2], [65_535, 1, 0],
    [65_536, 0], [65_535, 0], [1, 65_535], [1, 65_534], [0, 65_536], [32_768, 32_768],
    [32_768, 32_769], [65_533, 3], [65_533, 2], [0], [1, 1, 2, 3, 1], [0xFF_FFFF], [0xFFFF_FFFF],
    [(65_536, 1)], [(65_537, 1)], [(131_072, 1)], [(131_073, 1)], [(65_535, 1), 1],
    [(1, 65_536)], [(1, 65_537)], [(2, 65_536), 2], [(3, 32_768)], [(1, 131_072)], [(0, 131_072)],
    [(13_107, 5)], [(13_108, 5)], [(16_384, 4)], [(16_385, 4)], [(21_845, 3)], [(21_846, 3)],
    [(240_000, 1), (60_000, 4)], [(0, 4), 0, (4, 0)], [(0xFFFF_FFFF, 0)], [(0, 0xFFFF_FFFF)],
    [(0xFFFF_FFFF, 0xFFFF_FFFF)], [(0xFFFF_FFFF, 1)], [(16, 65_536)], [(15, 65_536), 65_520],
    [(15, 65_536), (65_520, 1)], [(21_846, 3), 65_537], [(32_767, 65_536)], [(32_768, 65_536)],
    [(32_766, 65_536), 2], [(32_767, 65_536), 2], [(32_766, 65_536), (0, 1)],
    [(32_767, 65_536), (0, 1)], [(32_768, 65_536), (13_108, 5)], [(1, 1), (2, 2), 1, (3, 3)],
    [(0x8000, 2), (0x8000, 2), (0x8001, 2)]]

# frames: the variable's own, that of the first variable, of DGROUP, of the data's segment, and of the location
OWN, FIRST = Direct(Method.TARGET), Direct(Method.EXTERNAL, 1)
OTHER_FRAMES = [Direct(Method.GROUP, 1), Direct(Method.SEGMENT, 1), Direct(Method.LOCATION)]
# fix-ups of four bytes: their places there, their locations, and their frames
LOCATIONS = [
    [(0, Location.POINTER, OWN)], [(0, Location.POINTER, OWN)], [(0, Location.OFFSET, OWN)], [(2, Location.BASE, OWN)],
    [(0, Location.OFFSET, OWN), (2, Location.BASE, OWN)], [(0, Location.LOADER_OFFSET, OWN)]]
# those that have a low byte, or a frame that isn't said as the target's
REACHING = [
    [(0, Location.LOW_BYTE, OWN)],
    *[[(0, Location.LOW_BYTE, OWN), (2, Location.BASE, frame)] for frame in (OWN, FIRST)],
    *[[(0, Location.OFFSET, OWN), (2, Location.BASE, frame)] for frame in (FIRST, *OTHER_FRAMES)]]


@dataclass
class Declared:
    """An entry: a near variable of a length, or a far one of a count of elements and their size."""

    is_far: bool
    count: int
    size: int = 1


def usual(random, name):
    """What a module declares of a name, of which most declare alike."""
    shade = sum(folded(name))
    is_far, size = shade % 3 == 0, SIZES[shade % len(SIZES)]
    if random.random() < 0.02:
        is_far = not is_far
    if random.random() < 0.02:
        size = random.choice(SIZES)
    count = random.choice(COUNTS)
    if random.random() < 0.03:
        count = random.choice([*LONG_COUNTS, FRAME // max(size, 1) + random.choice([0, 1])])
    return Declared(is_far, count, size)


def number(random, value):
    """A number in one of its forms, mostly the shortest."""
    forms = [bytes([value])] if value <= 0x80 else []
    forms += [
        bytes([first]) + value.to_bytes(count, "little")
        for count, first in FORMS.items() if value < 256 ** count]
    return forms[0] if random.random() < 0.8 else random.choice(forms)


def entry(random, name, declared, index=b"\0"):
    """The bytes of an entry, whose type index is this one."""
    front = records.name(name) + index
    if not declared.is_far:
        return front + bytes([NEAR]) + number(random, declared.count)
    return front + bytes([FAR]) + number(random, declared.count) + number(random, declared.size)


def usual_entry(random, name, index=b"\0"):
    """One of a name, rarely of another data type, or with a number of no form."""
    if random.random() < 0.008:
        return records.name(name) + index + bytes([random.choice(OTHER_TYPES)]) + b"\2"
    made = entry(random, name, usual(random, name), index)
    if random.random() < 0.008:
        return made[:-1] + random.choice(NO_NUMBERS) + random.choice([b"", b"\2"])
    return made


def module_of_communals(random, title, variables, locations):
    """A module that declares variables with these names, and has the address of each, or a part, in some frame.

    It has `_BSS` too, which at times is of DGROUP or of another group, and at times the offset of a
    local public that is called like the first variable.
    """
    spelling = RandomSpelling(random)
    names = [b"", b"_DATA", b"DATA", b"DGROUP", b"_BSS", b"BSS", b"AUTO"]
    groups = random.choice([[[1], []], [[1, 2], []], [[1], [2]]])
    itself = [
        Fixup(True, location, 4 * number + place, Reference(
            frame, Direct(Method.EXTERNAL, number + 1), None))
        for number in range(len(variables)) for place, location, frame in locations]
    length, local = 4 * len(variables), []
    if variables and random.random() < 0.2:
        name, length = variables[0][0], length + 4
        local = [
            records.LocalPublicNames(0, 1, None, [PublicName(name, 0, 0)]),
            records.LocalExternalNames([name], [0])]
        itself.append(Fixup(True, Location.OFFSET, length - 4, Reference(
            Direct(Method.TARGET), Direct(Method.EXTERNAL, len(variables) + 1), None)))
    made = [records.Header(title), records.NameList(names)]
    made.append(records.SegmentDefinition(2, 2, length, 2, 3, 1))
    # mostly as compilers have it, or private, or of another class
    combination, class_name = random.choice([*4 * [(2, 6)], (0, 6), (2, 3)])
    made.append(records.SegmentDefinition(2, combination, 0, 5, class_name, 1))
    made += [records.GroupDefinition(4, groups[0]), records.GroupDefinition(7, groups[1])]
    pieces = list(map(spelling.record, made))
    entries = [entry(random, name, declared) for name, declared in variables]
    pieces.append(spelling.framed(COMDEF, b"".join(entries)))
    made = [*local, records.Data(1, 0, bytes(length)), records.FixupRecord(itself)]
    pieces += map(spelling.record, [*made, records.ModuleEnd(False, None)])
    return b"".join(pieces)


def module_of_local_variables(
        public=None, start=None, group=None, grouped=1, clashes=False, data_segment=1, far=Declared(True, 3, 4)):
    """A module with three variables that are local to it, near and far, and the address of each.

    It has a local public of a name, or starts at a local external that it doesn't define, or has a
    group of a name with its data or `_BSS` in it. The near variable is at times far too, and the
    data in a segment that isn't there.
    """
    spelling = records.Spelling()
    variables = [
        (b"near", Declared(False, 2)), (b"far", far), (b"other", Declared(True, 1, 2))]
    targets = [Reference(
        Direct(Method.TARGET), Direct(Method.EXTERNAL, number), None) for number in range(1, 5)]
    names = [b"", b"_DATA", b"DATA", b"_BSS", b"BSS", group or b""]
    made = [records.Header(b"LOCAL"), records.NameList(names)]
    made.append(records.SegmentDefinition(2, 2, 12, 2, 3, 1))
    if group is not None:
        made.append(records.SegmentDefinition(2, 2, 0, 4, 5, 1))
        made.append(records.GroupDefinition(6, [grouped]))
    pieces = list(map(spelling.record, made))
    variables += [(b"near", Declared(True, 1, 2))] if clashes else []
    entries = [entry(Random(0), name, declared) for name, declared in variables]
    pieces.append(spelling.framed(LCOMDEF, b"".join(entries)))
    made = [] if start is None else [records.LocalExternalNames([start], [0])]
    if public is not None:
        made.append(records.LocalPublicNames(0, 1, None, [PublicName(public, 0, 0)]))
    made.append(records.Data(data_segment, 0, bytes(12)))
    made.append(records.FixupRecord([
        Fixup(True, Location.POINTER, 4 * place, target) for place, target in enumerate(targets[:3])]))
    made.append(records.ModuleEnd(False, None if start is None else targets[3]))
    return b"".join([*pieces, *map(spelling.record, made)])


def module_of_no_number(front):
    """A module that declares a near variable, whose length begins as no number does."""
    spelling = records.Spelling()
    return b"".join([
        spelling.record(records.Header(b"AMISS")),
        spelling.framed(COMDEF, records.name(b"v") + bytes([0, NEAR]) + front + b"\2"),
        spelling.record(records.ModuleEnd(False, None))])


def at_limit(number):
    """Variables of a case at a limit, by its number, with names of their own."""
    extents = [
        Declared(True, *each) if isinstance(each, tuple) else Declared(False, each)
        for each in LIMITS[number % len(LIMITS)]]
    return [(b"v%d" % place, each) for place, each in enumerate(extents)]
