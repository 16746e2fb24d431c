"""Files for `doslib`: those of jobs of `doslink`, and modules whose records say names in odd ways."""

from generator import jobs, libraries
from generator.spelling import reclosed, with_other_body

# what stands in the place of a file that isn't read, by why
NO_FILE, FOLDER = "no such file", "it is a folder"
NAMES = [b"a", b"b", b"c", b"_main", b"x y", b'"q"', b"\\", b"\xE9", b"\x7F~\x1F", b"", 255 * b"n"]
MEMBER_NAMES = [b"m.obj", b"a_long_name_of_a_member.obj", b"a b/c", b"x/", b"", b"\xE9", b"sixteen_bytes_it"]
PATHS = ["a.obj", "B.LIB", "c d", "\u00e9.a", 'q"\\', "e.lib", "f.o", "g"]
MOST_FILES = 4
NUMBERS = [b"\0", b"\x7F", b"\x80", b"\x81\1\2", b"\x84\1\2\3", b"\x88\1\2\3\4"]
WRONG_NUMBERS = [b"\x82\1", b"\x81\1", b"\xFF", b""]


class ModuleMaker:
    """Makes a module of random records."""

    def __init__(self, random):
        self.random = random

    def one_in(self, count):
        return self.random.randrange(count) == 0

    def some(self, make, most=3):
        """So many parts of a body."""
        return b"".join(make() for _ in range(self.random.randrange(most + 1)))

    def name(self):
        name = self.random.choice(NAMES[:4] if not self.one_in(4) else NAMES)
        return bytes([len(name)]) + name

    def index(self, most=7):
        number = self.random.randrange(most)
        return bytes([0x80, number]) if self.one_in(6) else bytes([number])

    def base(self):
        group, segment = self.index(3), self.random.choice([0, 1, 1, 2])
        return group + bytes([segment]) + (b"\0\1" if segment == 0 else b"")

    def named_index(self):
        return self.name() + self.index()

    def number(self):
        return self.random.choice(NUMBERS if not self.one_in(12) else WRONG_NUMBERS)

    def variable(self):
        kind = self.random.choice([0x61, 0x62, 0x62] if not self.one_in(12) else [0, 0x5F, 0x63])
        return self.named_index() + bytes([kind]) + self.number() + (self.number() if kind == 0x61 else b"")

    def publics(self, width):
        return self.base() + self.some(lambda: self.name() + bytes(width) + self.index())

    def communal_data(self, width):
        flags, attributes = self.random.choice([0, 0, 1, 4, 5]), self.random.choice([0, 0x10, 0x11, 0x13, 1])
        base = b"" if attributes % 16 else self.base()
        return bytes([flags, attributes, 0]) + bytes(width) + self.index() + base + self.index()

    def comment(self):
        kind = self.random.choice([0x9F, 0x81, 0xA8, 0xA8, 0xA8, 0xA9, 0xA3, 0, 0x9E])
        text = self.random.choice(NAMES)
        if kind in (0xA8, 0xA9):
            text = self.some(lambda: self.index() + self.index())
        elif kind == 0xA3 and not self.one_in(4):
            text = self.name()
        return bytes([self.random.choice([0, 0x80]), kind]) + text

    def any_number(self, width):
        """A number of so many bytes, which mostly has 16 bits."""
        most = 2 if not self.one_in(8) else width
        return bytes(self.random.choice([0, 0, 1, 0x12, 0xFF]) for _ in range(most)) + bytes(width - most)

    def segment(self, width):
        first = self.random.choice([0, 1, 2, 3, 4, 5, 5, 6]) << 5 | self.random.choice([0, 2, 2, 4, 5, 6, 7, 1]) << 2
        first |= self.random.choice([0, 0, 0, 1, 2, 3])
        place = self.any_number(3) if first < 32 else b""
        return bytes([first]) + place + self.any_number(width) + self.index() + self.index() + self.index()

    def group(self):
        return self.index() + self.some(lambda: (b"\xFF" if not self.one_in(12) else b"\xFE") + self.index())

    def reference(self, width):
        random = self.random
        first = random.choice([0, 1, 2, 4, 5, 5, 8, 9, 0xB, 3]) << 4 | random.choice([0, 1, 2, 4, 5, 6, 8, 0xD, 3])
        frame = self.index() if first >> 4 < 3 else b""
        return bytes([first]) + frame + (b"" if first & 8 else self.index()) + (b"" if first & 4 else self.any_number(width))

    def subrecord(self, width):
        random = self.random
        if self.one_in(3):
            first = random.randrange(128)
            if not self.one_in(8):
                first &= 0x73 if first & 0x40 else 0x7B
            return bytes([first]) + (self.index() if first & 0x50 != 0x50 else b"")
        location = random.choice([0, 1, 1, 2, 3, 5, 9, 13, 4])
        first = 0x80 | random.choice([0, 0x40]) | location << 2 | random.randrange(4)
        return bytes([first, random.randrange(256)]) + self.reference(width)

    def module_start(self, width):
        first = self.random.choice([0, 0x80, 0x41, 0xC1, 0x40])
        return bytes([first]) + (self.reference(width) if first & 0x40 else b"")

    def block(self, width, deep=2):
        random = self.random
        repeat = self.any_number(width)
        if deep and self.one_in(3):
            count = random.choice([1, 2, 2, 3])
            return repeat + bytes([count, 0]) + b"".join(self.block(width, deep - 1) for _ in range(count))
        return repeat + b"\0\0" + self.name()

    def placed_data(self, width):
        front = self.index() + self.any_number(width)
        return front + bytes(self.random.randrange(256) for _ in range(self.random.choice([0, 1, 15, 16, 17, 40])))

    def record_of_one(self):
        """A record of which `list` says nothing, and `show` what it says."""
        random = self.random
        wide = random.randrange(2)
        width = 4 if wide else 2
        patch = lambda: self.any_number(width) + self.any_number(width)  # noqa: E731
        location = lambda: bytes([random.choice([0, 1, 2, 2, 3])])  # noqa: E731
        return random.choice([
            lambda: (0x98 + wide, self.segment(width)), lambda: (0x98, self.segment(2)), lambda: (0x9A, self.group()),
            lambda: (0x9C + wide, self.some(lambda: self.subrecord(width), 5)),
            lambda: (0x9C, self.some(lambda: self.subrecord(2), 5)),
            lambda: (0xA0 + wide, self.placed_data(width)), lambda: (0xA2, self.index() + self.any_number(2) + self.some(
                lambda: self.block(2))), lambda: (0xA3, self.index() + self.any_number(4) + self.some(
                    lambda: self.block(4))),
            lambda: (0x94 + wide, self.index(3) + self.index(3) + self.some(
                lambda: self.any_number(2) + self.any_number(width))),
            lambda: (0xC4 + wide, bytes([random.choice([0, 1, 1, 2])]) + self.index() + self.some(
                lambda: self.any_number(2) + self.any_number(width))),
            lambda: (0xB2 + wide, self.index() + location() + self.some(patch)),
            lambda: (0xC8 + wide, location() + self.index() + self.some(patch)),
            lambda: (0xCC, self.name()), lambda: (0xCE, self.any_number(2) + self.name()),
            lambda: (0xB6 + wide, self.publics(width)), lambda: (random.choice([0x6E, 0x8E, 0x8F, 0xAA, 0xD0]), self.name()),
            lambda: (0x88, bytes([0, random.choice([0x9D, 0xA0, 0xA2, 0xDA, 0xDF, 0xE9, 0xFE, 0xFF])]) + self.name()[1:])])()

    def record(self):
        random = self.random
        kind, body = self.record_of_one() if self.one_in(3) else random.choice([
            lambda: (0x8C, self.some(self.named_index)), lambda: (0x8C, self.some(self.named_index)),
            lambda: (0xBC, self.some(lambda: self.index() + self.index())),
            lambda: (random.choice([0xB4, 0xB5]), self.some(self.named_index)),
            lambda: (0x90, self.publics(2)), lambda: (0x91, self.publics(4)), lambda: (0xB6, self.publics(2)),
            lambda: (0xC2, self.communal_data(2)), lambda: (0xC3, self.communal_data(4)),
            lambda: (0xC6, self.some(lambda: self.name() + self.name())),
            lambda: (random.choice([0xB0, 0xB0, 0xB8]), self.some(self.variable)),
            lambda: (random.choice([0x96, 0xCA]), self.some(self.name)),
            lambda: (0x88, self.comment()), lambda: (0x88, self.comment()),
            lambda: (random.choice([0x80, 0x82]), self.name()),
            lambda: (random.choice([0, 0x98, 0xA0, 0xF0, 0xF1]), self.some(self.name))])()
        if self.one_in(8):
            body = body[:random.randrange(len(body) + 1)]
        piece = reclosed(random, kind, body)
        return with_other_body(random, piece) if self.one_in(20) else piece

    def defaults(self):
        """Externals of few names, shared, local and communal, of which some are weak or lazy."""
        random = self.random
        pieces = [
            (0x8C, self.some(self.short_name)), (0xB4, self.some(self.short_name, 2)),
            (0xB0, self.some(lambda: self.short_name() + b"\x62\1", 2)), (0x8C, self.some(self.short_name))]
        random.shuffle(pieces)
        pieces.append((0x88, b"\0" + random.choice([b"\xA8", b"\xA8", b"\xA9"]) + self.some(self.pair)))
        return b"".join(reclosed(random, kind, body) for kind, body in pieces)

    def short_name(self):
        return b"\1" + self.random.choice([b"a", b"b", b"c"]) + b"\0"

    def pair(self):
        return self.index(5) + self.index(7)

    def librarian_name(self):
        name = self.random.choice(NAMES)
        return reclosed(self.random, 0x88, b"\0\xA3" + self.random.choice([b"", bytes([len(name)])]) + name)

    def module(self):
        """A module, mostly with a header, and at times with bytes behind it."""
        random = self.random
        front = [(random.choice([0x80, 0x80, 0x82]), self.name()), (0x96, self.some(self.name))]
        if self.one_in(8):
            random.shuffle(front)
        if self.one_in(8):
            del front[0]
        content = b"".join(reclosed(random, kind, body) for kind, body in front)
        content += b"".join(self.record() for _ in range(random.randrange(8)))
        if self.one_in(6):
            content += self.defaults()
        if self.one_in(6):
            content += b"".join(self.librarian_name() for _ in range(random.choice([1, 2])))
        wide = random.choice([0, 0, 1])
        content += reclosed(random, 0x8A + wide, self.module_start(4 if wide else 2) if self.one_in(2) else b"\0")
        return content


def with_a_damage(random, content):
    """Any file that is cut, or of which some byte is another."""
    ways = [libraries.cut, libraries.with_other_byte, libraries.with_other_byte, libraries.without_a_piece]
    return random.choice(ways)(random, content)


def member(random):
    """What stands in an archive: mostly a module, at times a damaged one or none, or with bytes behind."""
    content = ModuleMaker(random).module()
    if random.random() < 0.1:
        content = with_a_damage(random, content)
    elif random.random() < 0.1:
        content = random.choice([libraries.foreign(random), content + libraries.any_bytes(random, 5)])
    return content


def with_blanks_first(random, content):
    """An archive of which one size, of ten bytes, begins with a blank; any other file as it is."""
    if not isinstance(content, bytes):
        return content
    places = [at for at in range(18, len(content) - 1) if content[at:at + 2] == b"`\n" and content[at - 1:at] == b" "]
    if not places:
        return content
    at = random.choice(places)
    return content[:at - 10] + b" " + content[at - 10:at - 1] + content[at:]


def odd_file(random):
    """A module, a library or an archive, at times a damaged one."""
    maker, count = ModuleMaker(random), random.randrange(4)
    kind = random.choice(["module", "library", "library", "archive", "archive"])
    if kind == "module":
        content = maker.module() + libraries.any_bytes(random, random.choice([0, 0, 1, 9]))
        return with_a_damage(random, content) if random.random() < 0.3 else content
    if kind == "library":
        content = libraries.library(random, [maker.module() for _ in range(count)])
    else:
        members = [member(random) for _ in range(count)]
        content = libraries.archive(random, members, [random.choice(MEMBER_NAMES) for _ in members])
    return libraries.damaged(random, content) if random.random() < 0.3 else content


def of_a_job(random, seed):
    """Some files of a job of doslink, in any order; those that aren't there count."""
    found = list(jobs.case(random, seed).files.values())
    random.shuffle(found)
    for content in found[:MOST_FILES]:
        if content and random.random() < 0.2:
            content = with_a_damage(random, content)
        yield NO_FILE if content is None else content


def files(random, seed):
    """Pairs of a path and of its bytes, or why it can't be read; one path may be told of twice."""
    if seed % 3 == 0:
        contents = list(of_a_job(random, seed))
    else:
        contents = [odd_file(random) for _ in range(random.choice([1, 1, 2, 3]))]
    if not contents or random.random() < 0.05:
        contents.insert(random.randrange(len(contents) + 1), random.choice([NO_FILE, FOLDER]))
    named = list(zip(random.sample(PATHS, len(contents)), contents))
    is_told_twice = random.random() < 0.05
    if random.random() < 0.1:
        named = [(path, with_blanks_first(random, content)) for path, content in named]
    return [*named, named[0]] if is_told_twice else named
