"""Programs for `doslib match`, and the modules of which segments stand in them."""

import struct
from dataclasses import dataclass

from generator import libraries, listings, widening
from generator.spelling import reclosed
from model import lowering, matching
from model.module import read

ALIGNMENTS = {1: 1, 2: 2, 3: 16, 4: 256, 5: 4}
WIDTHS = {0: 1, 1: 2, 2: 2, 3: 4, 5: 2}
FROM_TARGET = 0x54  # the frame is the target's, and there is no displacement
NAMES = [b"x", b"_main", b"y z", b"", b"\xE9"]


def any_data(random, length):
    """Bytes that at times repeat."""
    if random.random() < 0.2:
        return bytes([random.choice([0, 0x90, 0xFF])]) * length
    return bytes(random.randrange(256) for _ in range(length))


def named(text):
    return bytes([len(text)]) + text


def any_fixup(random, first, last):
    """A fix-up whose location lies between two stored places, or none."""
    location = random.choice([0, 1, 1, 2, 3, 5])
    if last - first < WIDTHS[location]:
        return b""
    at = random.randrange(first, last - WIDTHS[location] + 1)
    is_self_relative = location in (0, 1) and random.random() < 0.3
    front = 0x80 | (0 if is_self_relative else 0x40) | location << 2 | at >> 8
    return bytes([front, at % 256, FROM_TARGET | random.choice([0, 1, 2, 2]), 1])


def any_fixups(random, spans):
    """Fix-ups in some of the spans of stored bytes."""
    return b"".join(any_fixup(random, *random.choice(spans)) for _ in range(random.choice([0, 0, 1, 1, 2, 4])))


def plain_data(random, index, length):
    """Data of a segment, in pieces that may lie over one another."""
    for _ in range(random.choice([1, 1, 2, 3])):
        offset = random.choice([0, 0, random.randrange(length)])
        content = any_data(random, random.choice([length - offset, random.randrange(1, length - offset + 1)]))
        yield 0xA0, bytes([index]) + struct.pack("<H", offset) + content
        yield 0x9C, any_fixups(random, [(0, len(content))])


def repeated_data(random, index, length):
    """Data of which a part stands more than once."""
    inner = any_data(random, random.randrange(1, min(length // 2, 12) + 1))
    count = random.randrange(1, length // len(inner) + 1)
    yield 0xA2, bytes([index, 0, 0]) + struct.pack("<HHB", count, 0, len(inner)) + inner
    yield 0x9C, any_fixups(random, [(5, 5 + len(inner))])


def module(random):
    """A module with some segments and data."""
    lengths = [random.choice([7, 8, 9, 12, 16, 30, 200]) for _ in range(random.choice([1, 1, 2, 3]))]
    pieces = [(0x80, named(random.choice(NAMES))), (0x96, b"".join(map(named, [b"", b"CODE", b"DATA", b"G", b"DEBSYM"])))]
    for length in lengths:
        first = random.choice([1, 1, 2, 2, 3, 4, 5]) << 5 | random.choice([0, 2, 5, 6]) << 2
        names = bytes(random.choice([1, 2, 3, 3, 5]) for _ in range(3))
        pieces.append((0x98, bytes([first]) + struct.pack("<H", length) + names))
    pieces += [(0x9A, b"\4\xFF\1"), (0x8C, named(random.choice(NAMES)) + b"\0")]
    for index, length in enumerate(lengths, 1):
        for _ in range(random.choice([0, 1, 1, 1, 2])):
            make = plain_data if random.random() < 0.75 else repeated_data
            pieces += make(random, index, length)
    pieces.append((0x8A, b"\0"))
    return b"".join(reclosed(random, kind, body) for kind, body in pieces if body)


@dataclass
class Stand:
    """The place of a segment in an image, and of each of its bytes what the segment knows of it, or None."""

    place: int
    cells: list


def image_of(random, modules):
    """An image in which most of their segments stand, some twice, and some of those that debuggers read; and where."""
    image, stands = any_data(random, random.choice([0, 0, 1, 17])), []
    for content in modules:
        found = read(lowering.lowered(content, True, ""), "")
        for index, segment in enumerate(found.segments, 1):
            cells = matching.pattern_of(found, index)
            for _ in range(random.choice([0, 1, 1, 1, 1, 2, 18])):
                image += any_data(random, -len(image) % segment.alignment)
                stands.append(Stand(len(image), cells))
                image += bytes(random.randrange(256) if cell is None else cell for cell in cells)
    return image + any_data(random, random.choice([0, 0, 1, 40])), stands


def program_of(image):
    """A file of an image, without relocated words."""
    length = 32 + len(image)
    words = (length % 512, -(-length // 512), 0, 2, 0, 0xFFFF, 0, 0, 0, 0, 0, 0x1C, 0)
    return struct.pack("<2s13H", b"MZ", *words).ljust(32, b"\0") + image


def files(random):
    """A program, and files: modules and libraries, of which some stand in it."""
    image, _, given = image_and_files(random)
    return program_of(image), given


def image_and_files(random):
    """An image, where segments stand in it, and files with these, each with its path."""
    modules = [module(random) for _ in range(random.choice([1, 1, 2, 3]))]
    image, stands = image_of(random, modules)
    given = [widening.widened(random, each) if random.random() < 0.3 else each for each in modules]
    if random.random() < 0.3:
        given = [libraries.library(random, given)]
    elif random.random() < 0.2:
        given = [libraries.archive(random, given, [random.choice(listings.MEMBER_NAMES) for _ in given])]
    given += [listings.odd_file(random) for _ in range(random.choice([0, 0, 1]))]
    if random.random() < 0.05:
        given.append(random.choice([listings.NO_FILE, listings.FOLDER]))
    random.shuffle(given)
    return image, stands, list(zip(random.sample(listings.PATHS, len(given)), given))
