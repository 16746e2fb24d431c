"""Libraries of either kind, and ways to damage them."""

from generator.spelling import reclosed

ARCHIVE = b"!<arch>\n"
SMALL_PAGES = [16, 16, 32, 64, 128, 512]
LARGE_PAGES = [1024, 2048, 4096, 8192, 16_384, 32_768]
WRONG_PAGES = [4, 8, 8, 15, 17, 24, 48, 100, 40_000, 65_536, 65_536]
LONGEST_SHORT_NAME = 15


def any_bytes(random, count):
    return bytes(random.randrange(256) for _ in range(min(count, 40))).ljust(count, b"\xAA")


def any_pages(random):
    """Sizes of pages, at times wrong ones."""
    return random.choices([SMALL_PAGES, LARGE_PAGES, WRONG_PAGES], [85, 10, 5])[0]


def library(random, members, pages=None):
    """A .LIB whose members stand at pages of one of some sizes, and whose dictionary lies."""
    page = random.choice(pages or any_pages(random))
    content = b"\xF0" + (page - 3).to_bytes(2, "little") + any_bytes(random, page - 3)
    for member in members:
        while random.random() < 0.05:
            content += strange_member(random)
            content += any_bytes(random, -len(content) % page)
        content += member
        content += any_bytes(random, -len(content) % page)
    end = random.choice([1, page - 3, 2])
    content += b"\xF1" + end.to_bytes(2, "little") + any_bytes(random, end)
    return content + dictionary(random, members)


def strange_member(random):
    """Records of a library's types, or of none, up to one that ends a module."""
    kinds = [random.choice([0xF0, 0, 0x80, 0xFF])]
    kinds += random.choices([0xF0, 0xF1, 0, 0x88], k=random.randrange(3))
    kinds.append(random.choice([0x8A, 0x8B]))
    return b"".join(reclosed(random, kind, any_bytes(random, 5)) for kind in kinds)


def dictionary(random, members):
    """What stands behind the end: nothing, anything, or members that aren't there."""
    blocks = bytes(512 * random.randrange(2)) + any_bytes(random, random.randrange(30))
    return random.choice([b"", blocks, b"".join(members), b"\xF1\1\0\0"])


def header(name, size):
    """The header of an archive's member."""
    return name.ljust(16) + b"0           0     0     644     " + b"%-10d`\n" % size


def archive(random, members, names):
    """An archive of members, with tables that aren't read, and long names in a table."""
    content, long_names, kept = ARCHIVE, b"", []
    for name in names:
        if len(name) > LONGEST_SHORT_NAME or random.random() < 0.1:
            kept.append(b"/%d" % len(long_names))
            long_names += name + b"/\n"
        else:
            kept.append(name + random.choice([b"/", b"/", b""]))
    tables = [b"/", b"__.SYMDEF", b"__.SYMDEF SORTED"]
    for table in random.sample(tables, random.choice([0, 1, 1])):
        content += with_header(table, random.choice([*members, any_bytes(random, 7)]))
    if long_names:
        content += with_header(b"//", long_names)
    for name, member in zip(kept, members):
        if random.random() < 0.05:
            member += any_bytes(random, 3)
        content += with_header(name, member)
    return content[:-1] if random.random() < 0.1 and content[-1:] == b"\n" else content


def foreign(random):
    """What is no object module."""
    return random.choice([
        b"\x7FELF\1\1\1" + bytes(9), b"\x4C\x01" + bytes(18), b"\xCF\xFA\xED\xFE" + bytes(4),
        b"a text\n", b"", b"MZ" + bytes(26)])


# the names of tables of symbols
SYMBOL_TABLES = [b"/", b"/SYM64/", b"__.SYMDEF", b"__.SYMDEF SORTED"]


def symbol_table(form, symbols):
    """The name and the content of a table of symbols: of names, each with the place of a header."""
    names = b"".join(name + b"\0" for name, _ in symbols)
    if form.startswith(b"/"):
        width = 8 if form == b"/SYM64/" else 4
        numbers = [len(symbols), *(place for _, place in symbols)]
        return form, b"".join(number.to_bytes(width, "big") for number in numbers) + names
    at, pairs = 0, b""
    for name, place in symbols:
        pairs += at.to_bytes(4, "little") + place.to_bytes(4, "little")
        at += len(name) + 1
    lengths = [each.to_bytes(4, "little") for each in (len(pairs), len(names))]
    return form, lengths[0] + pairs + lengths[1] + names


def archive_of_symbols(form, members, names, offered, moved=0):
    """An archive of members, in front of which stands a table of the names that each offers."""
    table = form, b""
    for _ in range(2):
        # the places hang on the table's length, which they don't change
        place, symbols = len(ARCHIVE) + len(with_header(*table)), []
        for name, member, offers in zip(names, members, offered):
            symbols += [(each, place + moved) for each in offers]
            place += len(with_header(name, member))
        table = symbol_table(form, symbols)
    return table, b"".join(map(with_header, names, members))


def archive_with_symbols(random, members, names, offered):
    """Such an archive, of which some members are no modules; at times its table is damaged."""
    names = [name[:LONGEST_SHORT_NAME] for name in names]
    members = [foreign(random) if random.random() < 0.5 else each for each in members]
    form = random.choice([b"/", b"/", *SYMBOL_TABLES])
    moved = random.choice([-60, 2]) if random.random() < 0.1 else 0
    (name, table), rest = archive_of_symbols(form, members, names, offered, moved)
    if random.random() < 0.1:
        table = table[:random.randrange(len(table) + 1)]
    return ARCHIVE + with_header(name, table) + rest


def with_header(name, content):
    """A member, up to the next even place."""
    return header(name, len(content)) + content + b"\n" * (len(content) % 2)


def cut(random, content):
    return content[:random.randrange(1, len(content) + 1)]


def with_other_page(random, content):
    """Another page than the one at which the members stand."""
    page = random.choice([*SMALL_PAGES, *LARGE_PAGES, *WRONG_PAGES, *WRONG_PAGES])
    return content[:1] + (page - 3).to_bytes(2, "little") + content[3:]


def with_other_byte(random, content):
    at = random.randrange(len(content))
    byte = random.choice([0, 1, 0x80, 0x8A, 0xF0, 0xF1, 0xFF, random.randrange(256)])
    return content[:at] + bytes([byte]) + content[at + 1:]


def without_a_piece(random, content):
    at = random.randrange(len(content) + 1)
    return content[:at] + content[at + random.choice([1, 1, 2, 16]):]


def without_an_end(random, content):
    """Without the last byte F1H, and what stands behind it."""
    return content[:content.rindex(b"\xF1")] if b"\xF1" in content else content


def with_other_field(random, content):
    """An archive of which a byte of some header is another, mostly in its size or its end."""
    places = [at for at in range(8, len(content) - 1) if content[at:at + 2] == b"`\n"]
    if not places:
        return content
    at = random.choice(places) - random.choice([0, -1, 10, 10, 9, 9, 8, 1])
    byte = random.choice(b"0123456789  -x\0")
    return content[:at] + bytes([byte]) + content[at + 1:]


def record_places(content):
    """The places of the records of a .LIB's members, of which there may be none."""
    page = 3 + int.from_bytes(content[1:3], "little")
    place, begins = page, True
    while place < len(content) and not (begins and content[place] == 0xF1):
        yield place
        begins = content[place] in (0x8A, 0x8B)
        place += 3 + int.from_bytes(content[place + 1:place + 3], "little")
        place += -place % page if begins else 0


def with_other_record(random, content):
    """A .LIB of which a record has another length word or another closing byte."""
    places = list(record_places(content))
    if not places:
        return content
    place, record = random.choice(places), bytearray(content)
    length = int.from_bytes(record[place + 1:place + 3], "little")
    if random.random() < 0.5:
        closing = place + 2 + length
        record[closing] = random.choice([1, 0xFF, (record[closing] + 1) % 256])
    else:
        length = random.choice([0, 0, 0, length + 1, 0xFFFF])
        record[place + 1:place + 3] = length.to_bytes(2, "little")
    return bytes(record)


def damaged(random, content):
    """A library that isn't what it was."""
    ways = [cut, with_other_byte, with_other_byte, without_a_piece]
    if content.startswith(ARCHIVE):
        ways += 4 * [with_other_field]
    elif content.startswith(b"\xF0"):
        ways += [with_other_page, with_other_page, without_an_end, *4 * [with_other_record]]
    return random.choice(ways)(random, content)
