"""Files of programs as any linker may have written them, for `omf load`: mostly sound ones."""

import struct

# the words of the header that may be damaged
MAGIC, LAST_PAGE, PAGES, ENTRIES, PARAGRAPHS, TABLE = 0, 1, 2, 3, 4, 12
# lengths of images: of none, about a paragraph, about a page of the file, and beyond a segment
LENGTHS = [0, 1, 2, 15, 16, 17, 40, 479, 480, 481, 1000]
LONG = 70_000
PAGE = 512
HEADER = 28
PARAGRAPHS_OF_MEMORY = 65536
# places of the relocation table: behind the header's words, or those of newer headers
TABLES = [0x1C, 0x1C, 0x1E, 0x20, 0x3E, 0x40]


def any_word(random):
    return random.choice([0, 1, 0x7FFF, 0xFFFF, random.randrange(65536)])


def entry(random, length):
    """An entry of the table, mostly of a word inside an image, by any segment that reaches it."""
    last = length - 2
    if random.random() < 0.01:
        last += random.choice([1, 2, 16])
    place = random.choice([last, random.randrange(last + 1)])
    paragraphs = place // 16
    segment = paragraphs - random.choice([0, 0, random.randrange(min(paragraphs, 4095) + 1)])
    if last >= 65_536 and random.random() < 0.1:
        place, segment = 65_535 + 16, 1  # no word stands across a segment's end
    return struct.pack("<2H", place - 16 * segment, segment)


def least_extra_and_paragraph(random, length):
    """The least extra paragraphs of an image and a paragraph to load it at.

    At times these are just enough for memory, or one too many.
    """
    least, paragraph = random.choice([0, 0, 1, 0x1000, any_word(random)]), any_word(random)
    just_enough = PARAGRAPHS_OF_MEMORY - length // 16 + random.choice([-1, 0, 0, 1])
    if random.random() < 0.5:
        paragraph = min(max(just_enough - least, 0), 65_535)
    elif random.random() < 0.5:
        least = min(max(just_enough - paragraph, 0), 65_535)
    return least, paragraph


def damaged_header(random, words):
    """Header words of which one says what can't be, or just about can."""
    place, value = random.choice([
        (MAGIC, 0x4D5A), (MAGIC, 0x5B4D), (LAST_PAGE, 511), (LAST_PAGE, 512), (PAGES, 0),
        (PAGES, words[PAGES] - 1), (PAGES, words[PAGES] + 1), (ENTRIES, words[ENTRIES] + 1),
        (ENTRIES, 65535), (PARAGRAPHS, 0), (PARAGRAPHS, 1), (PARAGRAPHS, 2),
        (PARAGRAPHS, words[PARAGRAPHS] + 1), (PARAGRAPHS, 65535), (TABLE, 27), (TABLE, 28),
        (TABLE, words[TABLE] + 1)])
    return words[:place] + [value % 65536] + words[place + 1:]


def in_paragraphs(length):
    return -(-length // 16)


def program_file(random):
    """A file, and the paragraph to load it at; at times its header is damaged, or it is cut."""
    length = LONG if random.random() < 0.02 else random.choice(LENGTHS)
    return file_of(random, bytes(random.randrange(256) for _ in range(min(length, 1000))).ljust(length, b"\xA5"))


def file_of(random, image):
    """The same of an image."""
    length = len(image)
    count = random.choice([0, 0, 1, 2, 3, 20]) if length >= 2 else 0
    table = random.choice(TABLES) if count else any_word(random)
    end_of_table = table + 4 * count if count else 0
    paragraphs = in_paragraphs(max(HEADER, end_of_table)) + random.choice([0, 0, 1, 30])
    whole = 16 * paragraphs + length
    least, paragraph = least_extra_and_paragraph(random, length)
    words = [0x5A4D, whole % PAGE, -(-whole // PAGE), count, paragraphs, least]
    words += [any_word(random) for _ in range(6)] + [table, any_word(random)]
    if random.random() < 0.15:
        words = damaged_header(random, words)
    front = bytearray(random.randrange(256) for _ in range(16 * paragraphs))
    front[:HEADER] = struct.pack("<14H", *words)
    if count:
        front[table:end_of_table] = b"".join(entry(random, length) for _ in range(count))
    return cut_or_longer(random, bytes(front) + image), paragraph


def cut_or_longer(random, content):
    """A file that at times is cut, or has bytes behind its end."""
    if random.random() < 0.05:
        places = [0, 1, 2, 27, 28, random.randrange(len(content)), len(content) - 1]
        return content[:random.choice(places)]
    behind = random.choice([0, 0, 1, 5, 600])
    return content + bytes(random.randrange(256) for _ in range(behind))
