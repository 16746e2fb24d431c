"""The faults, and the lines that tell them."""

import re
from pathlib import Path

TABLE = Path(__file__).resolve().parent.parent.parent / "docs" / "faults.txt"
LAST_OF_OMF = 41
FOUND = {int(number): name for number, name in re.findall(r"^(\d+) (\w+): ", TABLE.read_text(encoding="utf-8"), re.M)}
NAMES = {number: name for number, name in FOUND.items() if number <= LAST_OF_OMF}
# all that doslink alone has
DOSLINK_NAMES = {number: name for number, name in FOUND.items() if number > LAST_OF_OMF}
# those of libraries, whose places count the library's bytes
OF_LIBRARIES = range(42, 48)
# what else ends a job of doslink, without a number
MISSING, TOO_MANY_PARTS, WORDS, READ_AND_WRITTEN, WRITTEN_TWICE = "M", "P", "W", "O", "T"
OTHER_FORM, MODULE_WRITTEN = "F", "B"
OTHER_ENDS = {
    OTHER_FORM: "another form", MODULE_WRITTEN: "OUT is a module",
    MISSING: "names are missing", TOO_MANY_PARTS: "TooManySegments", WORDS: "wrong words",
    READ_AND_WRITTEN: "OUT is read", WRITTEN_TWICE: "MAP is OUT",
}
# the faults of devices, which have a status of their own
DEVICE_FAULTS = (1, 40)

# types of records that no module may have, as a line tells them behind their numbers
TYPE_NAMES = {
    0x6E: " RHEADR", 0x70: " REGINT", 0x72: " REDATA", 0x74: " RIDATA", 0x76: " OVLDEF", 0x78: " ENDREC",
    0x7A: " BLKDEF", 0x7C: " BLKEND", 0x7E: " DEBSYM", 0x84: " PEDATA", 0x86: " PIDATA", 0x8E: " TYPDEF",
    0x92: " LOCSYM", 0xA4: " LIBHED", 0xA6: " LIBNAM", 0xA8: " LIBLOC", 0xAA: " LIBDIC", 0xB2: " BAKPAT",
    0xB3: " BAKPAT", 0xC2: " COMDAT", 0xC3: " COMDAT", 0xC4: " LINSYM", 0xC5: " LINSYM", 0xC8: " NBKPAT",
    0xC9: " NBKPAT", 0xCC: " VERNUM", 0xCE: " VENDEXT",
}

PRINTABLE = frozenset(range(0x20, 0x7F)) - frozenset(b'"\\')


def escaped(name):
    """A name with `\\x` and two digits for a byte that isn't printed as it is."""
    return "".join(chr(b) if b in PRINTABLE else f"\\x{b:02X}" for b in name)


def printed_name(name):
    """An escaped name between quotes."""
    return f'"{escaped(name)}"'


class Fault(Exception):
    """A fault: its number and, where it has them, what it is at.

    `owner` is an input's number, or how it is called; `place` that of a record, `byte` where in the
    body fault 6 stands, and `name` that of a segment, a group, a public or a communal variable.
    """

    def __init__(self, number, owner=None, place=None, byte=None, name=None):
        super().__init__(number, owner, place, byte, name)
        self.number = number
        self.owner = owner
        self.place = place
        self.byte = byte
        self.name = name
        # the type of a record that no module may have, where doslink tells it
        self.kind = None
        # the words for modules that define or declare a name
        self.words = []
        # by how many bytes what is at fault is too long
        self.excess = None
        # what else is said of it
        self.why = None

    @property
    def status(self):
        """The exit status that it makes."""
        return 3 if self.number in DEVICE_FAULTS else 1

    def line(self, files=(), program="omf"):
        """The line on standard error; `files` are the names of inputs that have numbers."""
        whose = files[self.owner] if isinstance(self.owner, int) else "link" if self.owner is None else self.owner
        name = {**NAMES, **DOSLINK_NAMES}[self.number]
        line = f"{program}: {whose}: {self.number} {name}"
        if self.name is not None:
            line += f" {printed_name(self.name)}"
        if self.place is not None:
            line += f" at {'place' if self.number in OF_LIBRARIES else 'record'} {self.place}"
        if self.byte is not None:
            line += f" byte {self.byte}"
        if self.kind is not None:
            line += f" ({self.kind:02X}{TYPE_NAMES.get(self.kind, '')})"
        line += f" in {' and '.join(self.words)}" if self.words else ""
        line += f": {self.why}" if self.why else ""
        return line + "\n"


def refuse_smallest(numbers, owner, place):
    """Raises the smallest of the faults of one item of a record, where it has any."""
    if numbers:
        raise Fault(min(numbers), owner, place)
