"""Pairs of programs for `doslib compare`, mostly of two images that are nearly one, and files as for `match`."""

from dataclasses import replace

from generator import listings, programs, searched
from model import matching

PATHS = "FILE.EXE", "OTHER.EXE"
# bytes before an image, so that all that stands in it does so beyond 64 KB, at multiples of the same alignments
FRONT = 65_536
# of a header, the words that say nothing of the image: memory, registers, the checksum, the overlay
FREE_WORDS = [10, 12, 14, 16, 18, 20, 22, 26]


def known(stand):
    """What a segment knows of bytes."""
    return [cell for cell in stand.cells if cell is not None]


def is_known(stand):
    """Whether a segment is looked for."""
    return len(known(stand)) >= matching.LEAST_KNOWN


def place_at(random, stand):
    """A byte of a segment that stands in an image: its first or last one, another, or one that touches it."""
    length = len(stand.cells)
    return stand.place + random.choice([0, length - 1, random.randrange(length), random.randrange(length), -1, length])


def unknown_place(random, stand):
    """A byte that a segment doesn't know, as that of a fix-up, or any one of it."""
    unknown = [at for at, cell in enumerate(stand.cells) if cell is None]
    return stand.place + random.choice(unknown or range(len(stand.cells)))


def place_between(random, length, stands):
    """A byte that no segment has, or any one."""
    taken = {stand.place + at for stand in stands for at in range(len(stand.cells))}
    return random.choice([at for at in range(length) if at not in taken] or range(length))


def any_place(random, image, stands):
    """A byte of an image that has some."""
    way = random.random()
    if way < 0.12 or not stands:
        return place_between(random, len(image), stands)
    looked_for = [stand for stand in stands if is_known(stand)]
    stand = random.choice(looked_for if looked_for and way < 0.9 else stands)
    at = unknown_place(random, stand) if way < 0.35 else place_at(random, stand)
    return min(max(at, 0), len(image) - 1)


def with_other_bytes(random, image, stands):
    """An image with a byte or some changed."""
    changed = bytearray(image)
    for _ in range(random.choice([1, 1, 1, 2, 3]) if image else 0):
        changed[any_place(random, image, stands)] ^= random.choice([1, 0x80, 0xFF, random.randrange(1, 256)])
    return bytes(changed)


def with_other_end(random, image, stands):
    """An image that is longer, or cut, mostly about a segment's end."""
    if random.random() < 0.5 or not image:
        return image + searched.any_data(random, random.choice([1, 1, 2, 16, 600]))
    lengths = [0, len(image) - 1, len(image) - 2, random.randrange(len(image))]
    lengths += [any_place(random, image, stands) for _ in range(4)]
    return image[:random.choice(lengths)]


def altered(random, image, stands):
    """An image that is another one but for little, the same, or another."""
    way = random.random()
    if way < 0.09:
        return image
    if way < 0.11:
        return searched.any_data(random, random.choice([0, 1, len(image)]))
    if way < 0.85:
        image = with_other_bytes(random, image, stands)
    return with_other_end(random, image, stands) if way > 0.8 else image


def with_other_header(random, content):
    """A file whose header has another byte: mostly one that says nothing of the image."""
    changed = bytearray(content)
    at = random.choice(FREE_WORDS) + random.randrange(2)
    if random.random() < 0.1:
        at = random.randrange(programs.HEADER)
    changed[at] ^= random.choice([1, 2, 0x80, 0xFF])
    return bytes(changed)


def with_run(random, image, stands):
    """An image with a run of one byte behind it, in which a segment of this byte alone stands, if there is one."""
    plain = [stand for stand in stands if is_known(stand) and len(set(known(stand))) == 1]
    if not plain:
        return image, stands
    cells = random.choice(plain).cells
    byte = next(cell for cell in cells if cell is not None)
    count = random.choice([0, 1, 3, 14, 15, 16, 40])
    more = [searched.Stand(len(image) + at, cells) for at in range(count + 1)]
    return image + bytes([byte]) * (len(cells) + count), random.choice([stands, []]) + more


def with_front(image, stands):
    """An image in which all stands beyond 64 KB."""
    return b"\xA5" * FRONT + image, [replace(stand, place=FRONT + stand.place) for stand in stands]


def file_of(random, image):
    """A file of an image, which is mostly sound: any header, entries of a table, bytes behind the image, or none."""
    way = random.random()
    if way < 0.12:
        return programs.file_of(random, image)[0]
    content = searched.program_of(image)
    if way < 0.25:
        content = with_other_header(random, content)
    elif way < 0.35:
        content += searched.any_data(random, random.choice([1, 2, 600]))
    elif way < 0.37:
        content = content[:-random.choice([1, 2, 16])]
    return content


def no_program(random, content):
    """What is no program, or can't be read."""
    return random.choice([listings.NO_FILE, listings.FOLDER, content[:20], content[1:], b"", b"M"])


def pair_and_files(random):
    """Two programs and files, each by its path; the second is at times the first one itself, or one of the files."""
    image, stands, files = searched.image_and_files(random)
    if random.random() < 0.5:
        image, stands = with_run(random, image, stands)
    if random.random() < 0.03:
        image, stands = with_front(image, stands)
    if random.random() < 0.2:
        # a file more of the same modules
        unused = [path for path in listings.PATHS if path not in dict(files)]
        files.append((random.choice(unused), random.choice(files)[1]))
    images = [image, altered(random, image, stands)]
    if random.random() < 0.2:
        images.reverse()
    contents = [file_of(random, each) for each in images]
    if random.random() < 0.06:
        contents = [no_program(random, each) if random.random() < 0.6 else each for each in contents]
    program, other = zip(PATHS, contents)
    if random.random() < 0.05:
        other = random.choice([program, random.choice(files)])
    return program, other, files
