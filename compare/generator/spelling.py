"""Random choices between bytes that say the same, and ways to damage an input."""

from model import records
from model.records import Spelling, two_byte_index


class RandomSpelling(Spelling):
    """Mostly the canonical bytes, and at times others that say the same."""

    def __init__(self, random):
        self.random = random

    def plainly(self):
        """Whether to choose the canonical spelling, as most of the time."""
        return self.random.random() < 0.8

    def index(self, number):
        """At times a small index in two bytes."""
        return super().index(number) if self.plainly() else two_byte_index(number)

    def unseen(self, mask):
        """At times any bits of a mask."""
        return 0 if self.plainly() else self.random.randrange(256) & mask

    def closing(self, front):
        """At times 0."""
        return super().closing(front) if self.plainly() else 0


def pieces(content):
    """The records of a sound input, as their bytes, and what stands behind MODEND."""
    found, place = [], 0
    while place < len(content):
        length = 3 + int.from_bytes(content[place + 1:place + 3], "little")
        found.append(content[place:place + length])
        place += length
    return found


def reclosed(random, kind, body):
    """A record of a type with a body that may be none of it."""
    return RandomSpelling(random).framed(kind, body)


def with_other_body(random, piece):
    """A record with another body, which a byte or some were changed, put in or taken out of."""
    kind, body = piece[0], bytearray(piece[3:-1])
    for _ in range(random.choice([1, 1, 1, 2, 4])):
        at = random.randrange(len(body) + 1)
        way = random.randrange(6)
        if way == 0 or at == len(body):
            body[at:at] = bytes([any_byte(random)])
        elif way == 1:
            del body[at:at + random.choice([1, 1, 2, 5])]
        elif way == 2:
            del body[at:]
        elif way == 3:
            body[at] ^= 1 << random.randrange(8)
        else:
            body[at] = any_byte(random)
    return reclosed(random, kind, bytes(body[:records.LONGEST_BODY]))


def any_byte(random):
    return random.choice([0, 1, 2, 0x7F, 0x80, 0x81, 0xFE, 0xFF, random.randrange(256)])


def with_wrong_closing(random, piece):
    """A record whose closing byte is neither 0 nor makes the sum 0."""
    right = -sum(piece[:-1]) % 256
    wrong = [closing for closing in range(1, 256) if closing != right]
    nearly = [closing for closing in (right + 1, right - 1, 1, 255) if closing in wrong]
    return piece[:-1] + bytes([random.choice(random.choice([wrong, nearly]))])


def with_other_type(random, piece):
    """A record of a type that isn't taken: one of them plus or less 1, or any."""
    beside = random.choice(list(records.KINDS)) ^ 1
    others = [kind for kind in range(256) if kind not in records.KINDS]
    return reclosed(random, random.choice([beside, random.choice(others)]), piece[3:-1])


def without_length(random, piece):
    """A record whose length word is 0."""
    return bytes([piece[0], 0, 0]) + piece[3:]


def with_other_length(random, piece):
    """A record whose length word is 1 too many or too few, or any."""
    length = int.from_bytes(piece[1:3], "little")
    length += random.choice([-1, 1, 1, random.randrange(65536)])
    return piece[:1] + (length % 65536).to_bytes(2, "little") + piece[3:]


def with_kind_of_another(random, piece):
    """A record of one type with the body of another."""
    return reclosed(random, random.choice(list(records.KINDS)), piece[3:-1])


def with_other_type_and_closing(random, piece):
    return with_wrong_closing(random, with_other_type(random, piece))


def with_other_field(random, piece):
    """A record with any three bits in a byte whose bits are fields, or a first byte of none."""
    kind, body = piece[0], bytearray(piece[3:-1])
    at = random.choice(PLACES_OF_FIELDS.get(kind, [0]))
    if body and kind in REFUSED_FIRST_BYTES and random.random() < 0.5:
        body[0] = random.choice(REFUSED_FIRST_BYTES[kind])
    elif at < len(body):
        field = 7 << random.randrange(6)
        body[at] = body[at] & ~field | random.randrange(256) & field
    return reclosed(random, kind, bytes(body))


# of SEGDEF: P, C = 1 and 3, A = 6 and 7; of MODEND: a start without bit 0
REFUSED_FIRST_BYTES = {0x98: [0x61, 0x64, 0x6C, 0xC0, 0xE0], 0x8A: [0x40, 0xC0, 0x7E]}
# in SEGDEF, MODEND, GRPDEF and FIXUPP the bytes that have fields or one value
PLACES_OF_FIELDS = {0x98: [0], 0x8A: [0, 1], 0x9A: [1], 0x9C: [0, 2]}
DAMAGES = [
    with_other_body, with_other_body, with_other_body, with_wrong_closing, with_other_type,
    with_other_type_and_closing, without_length, with_other_length, with_kind_of_another]


def damaged(random, content):
    """An input with one record changed, taken away, doubled or put elsewhere, or cut."""
    found = pieces(content)
    at = random.randrange(len(found))
    way = random.randrange(10)
    if way == 0:
        return content[:random.randrange(len(content) + 1)]
    if way == 1:
        found = found[:at]
    elif way == 2:
        del found[random.choice([0, 0, at, -1])]
    elif way == 3:
        found.insert(random.randrange(len(found)), found[at])
    elif way == 4:
        with_fields = [at for at, piece in enumerate(found) if piece[0] in PLACES_OF_FIELDS]
        at = random.choice(with_fields or [at])
        found[at] = with_other_field(random, found[at])
    else:
        for _ in range(random.choice([1, 1, 1, 1, 2])):
            found[at] = random.choice(DAMAGES)(random, found[at])
    return b"".join(found)
