"""Inputs of about four gigabytes, whose last record begins at the last place or just behind it."""

from model import records
from model.records import LONGEST_BODY, Spelling

END_OF_PLACES = 4_294_901_760
# the type byte, the length word and the closing byte
AROUND_BODY = 4
LONGEST = LONGEST_BODY + AROUND_BODY
HEADER = Spelling().record(records.Header(b"long"))
END = Spelling().record(records.ModuleEnd(False, None))


def comment(length):
    """A comment of so many bytes with its frame; its closing byte is 0, so that no sum is taken."""
    front = Spelling().framed(records.Comment.TYPE, bytes(length - AROUND_BODY))[:-1]
    return front + b"\0"


class LongInput:
    """A THEADR, longest comments and two shorter ones, and a MODEND that begins at a place.

    It gives its length and its slices as bytes do, but only makes what is asked for.
    """

    def __init__(self, place):
        self.count, rest = divmod(place - len(HEADER), LONGEST)
        self.count -= 1
        self.longest = comment(LONGEST)
        half = (rest + LONGEST) // 2
        self.behind = comment(half) + comment(rest + LONGEST - half) + END
        self.place_behind = len(HEADER) + self.count * LONGEST

    def __len__(self):
        return self.place_behind + len(self.behind)

    def __getitem__(self, part):
        """A slice that lies in one record."""
        if part.start < len(HEADER):
            return HEADER[part]
        if part.start >= self.place_behind:
            return self.behind[part.start - self.place_behind:part.stop - self.place_behind]
        within = (part.start - len(HEADER)) % LONGEST
        return self.longest[within:within + part.stop - part.start]

    def pieces(self):
        """All of its bytes, piece after piece."""
        yield HEADER
        for _ in range(self.count):
            yield self.longest
        yield self.behind
