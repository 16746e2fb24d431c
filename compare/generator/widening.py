"""Modules of which some records are written by other types that say the same.

They are those with numbers of 32 bits, those of a communal variable or of a name by its index in
the place of an external, and the other types of a header and of a list of names.
"""

from generator import communals
from generator.spelling import RandomSpelling, pieces

# of each of these types the one with numbers of 32 bits is the next
ENDS, PUBLICS, LINES = 0x8A, (0x90, 0xB6), 0x94
COMDATS = (0xC2, 0xC3)
SEGMENTS, LEDATA, LIDATA, FIXUPS = 0x98, 0xA0, 0xA2, 0x9C
EXTERNALS, LOCAL_EXTERNALS = 0x8C, 0xB4
LIKELY = 0.6


class Reader:
    """Takes fields from the front of a body."""

    def __init__(self, body):
        self.body = body
        self.place = 0

    def has_more(self):
        return self.place < len(self.body)

    def take(self, count):
        begin, self.place = self.place, self.place + count
        return self.body[begin:self.place]

    def take_index(self):
        return self.take(2 if self.body[self.place] & 0x80 else 1)

    def take_name(self):
        return self.take(self.body[self.place] + 1)

    def rest(self):
        return self.take(len(self.body) - self.place)


class Widening:
    """Writes the records of one module, some of them by other types."""

    def __init__(self, random):
        self.random = random
        self.spelling = RandomSpelling(random)
        # how places in the data before move, and whether its numbers have 32 bits
        self.moved = {}
        self.is_wide = False

    def happens(self, likelihood):
        return self.random.random() < likelihood

    def wide(self, number):
        """A number of two bytes in four; rarely a greater one."""
        return number + (b"\1\0" if self.happens(0.005) else b"\0\0")

    def widen(self, kind, body):
        """The type and the body of a record that says the same."""
        reader = Reader(body)
        if kind in (LEDATA, LIDATA):
            return self.widen_data(kind, reader)
        if kind == FIXUPS:
            return self.widen_fixups(reader)
        if kind in COMDATS:
            # fix-ups behind it are of its data
            self.moved, self.is_wide = {}, False
            return kind, body
        if not self.happens(LIKELY):
            return kind, body
        if kind == 0x80:
            return (0x82, body) if self.happens(0.3) else (kind, body)
        if kind == 0x96:
            return 0xCA, body
        if kind == SEGMENTS:
            return self.widen_segment(reader)
        if kind in PUBLICS:
            return kind + 1, self.widen_publics(reader)
        if kind == LINES:
            return kind + 1, self.widen_lines(reader)
        if kind == ENDS:
            return kind + 1, self.widen_end(reader)
        if kind in (EXTERNALS, LOCAL_EXTERNALS) and self.happens(0.3):
            kinds = {EXTERNALS: communals.COMDEF, LOCAL_EXTERNALS: communals.LCOMDEF}
            return kinds[kind], self.communals(reader)
        return kind, body

    def widen_segment(self, reader):
        """By either type, with the bit of 32 bits or without."""
        first = reader.take(1)[0]
        standing = b"" if first & 0xE0 else reader.take(3)
        length = reader.take(2)
        first |= self.random.choice([0, 1])
        if self.happens(0.5):
            return SEGMENTS, bytes([first]) + standing + length + reader.rest()
        length = self.wide(length)
        if self.happens(0.05):
            # as long as offsets of 32 bits reach, or of 16
            first, length = self.random.choice([(first | 2, b"\0\0\0\0"), (first, b"\0\0\1\0")])
        return SEGMENTS + 1, bytes([first]) + standing + length + reader.rest()

    def widen_publics(self, reader):
        front = reader.take_index()
        segment = reader.take_index()
        front += segment + (reader.take(2) if not any(segment.lstrip(b"\x80")) else b"")
        while reader.has_more():
            front += reader.take_name() + self.wide(reader.take(2)) + reader.take_index()
        return front

    def widen_lines(self, reader):
        front = reader.take_index() + reader.take_index()
        while reader.has_more():
            front += reader.take(2) + self.wide(reader.take(2))
        return front

    def widen_end(self, reader):
        front = reader.take(1)
        if not front[0] & 0x40:
            return front + reader.rest()
        return front + self.reference(reader, True)

    def communals(self, reader):
        """Externals as communal variables."""
        found = b""
        while reader.has_more():
            name = reader.take_name()[1:]
            found += communals.usual_entry(self.random, name, reader.take_index())
        return found

    def widen_data(self, kind, reader):
        self.is_wide = self.happens(LIKELY)
        self.moved = {}
        if not self.is_wide:
            return kind, reader.body
        front = reader.take_index() + self.wide(reader.take(2))
        if kind == LEDATA:
            return kind + 1, front + reader.rest()
        begin, found = reader.place, b""
        while reader.has_more():
            found += self.wide(reader.take(2)) + reader.take(2)
            if found[-2:] == b"\0\0":
                content = reader.take_name()
                for place in range(len(content)):
                    self.moved[reader.place - begin - len(content) + place] = len(found) + place
                found += content
        return kind + 1, front + found

    def widen_fixups(self, reader):
        """Places as the data has them, and at times offsets of 32 bits."""
        is_wide, found = self.happens(LIKELY), b""
        while reader.has_more():
            first = reader.take(1)[0]
            if not first & 0x80:
                has_index = (first >> 2 & 7) < 4 if first & 0x40 else True
                found += bytes([first]) + (reader.take_index() if has_index else b"")
                continue
            place = (first & 3) << 8 | reader.take(1)[0]
            place = self.moved.get(place, place)
            location = first >> 2 & 15
            if location == 1 and self.happens(0.5 if is_wide or self.is_wide else 0.2):
                location = self.random.choice([9, 13])
                # at times a self-relative one
                first &= ~0x40 if self.happens(0.15) else 0xFF
            found += bytes([first & 0xC0 | location << 2 | place >> 8 & 3, place & 0xFF])
            found += self.reference(reader, is_wide, location in (9, 13) and self.happens(0.1))
        return FIXUPS + is_wide, found

    def reference(self, reader, is_wide, is_great=False):
        """A reference, whose displacement becomes a wide one or not, or is about as great as a word
        may be."""
        begin, fix_data = reader.place, reader.take(1)[0]
        if not fix_data & 0x80 and fix_data >> 4 & 7 < 4:
            reader.take_index()
        if not fix_data & 8:
            reader.take_index()
        front = reader.body[begin:reader.place]
        if fix_data & 4:
            return front
        displacement = reader.take(2)
        if is_great:
            displacement = (65_536 - self.random.randrange(1, 20)).to_bytes(2, "little")
        return front + (self.wide(displacement) if is_wide else displacement)


def widened(random, content):
    """A module that says the same by other types of records; of some kinds all stay."""
    widening, found = Widening(random), b""
    for piece in pieces(content):
        kind, body = piece[0], piece[3:-1]
        try:
            other = widening.widen(kind, body)
        except IndexError:
            # a record that is cut
            other = kind, body
        found += piece if other == (kind, body) else widening.spelling.framed(*other)
    return found
