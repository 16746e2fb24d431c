"""Reads the map of a linked program in the form of LINK or of TLINK, by its words and columns (docs/FORMATS.md)."""

import re
from dataclasses import dataclass, field

START = "\n Start  Stop   Length Name"
GROUPS = "\n Origin   Group\n"
DETAILS = "\n Detailed map of segments\n\n"
BY_NAME = "\n  Address         Publics by Name\n\n"
BY_VALUE = "\n  Address         Publics by Value\n\n"
ENTRY = "\nProgram entry point at "

ROW = re.compile(r" ([0-9A-F]{5})H ([0-9A-F]{5})H ([0-9A-F]{5})H (.*)")
GROUP = re.compile(r" ([0-9A-F]{4}):0   (.*)")
PART = re.compile(
    r" ([0-9A-F]{4}):([0-9A-F]{4}) (1?[0-9A-F]{4}) C=(.*) S=(.*) G=(.*) M=(.*) ACBP=([0-9A-F]{2})")
# the columns of the names of a class, a segment, a group and a module
PART_WIDTHS = 6, 14, 7, 9
NO_GROUP = "(none)"
PUBLIC = re.compile(r" ([0-9A-F]{4}):([0-9A-F]{4})  (Abs|   )  (.*)")
LINES = re.compile(r"\nLine numbers for (.*) segment (.*)\n\n")
LINE = re.compile(r" *([0-9]+) ([0-9A-F]{4}):([0-9A-F]{4})")


@dataclass(frozen=True)
class Row:
    """A segment: the addresses of its first byte and of its last, which are one where it has none."""

    start: int
    stop: int
    length: int
    name: str
    class_name: str


@dataclass(frozen=True)
class Part:
    """A module's part of a segment, where it stands; the group is None where it is in none."""

    frame: int
    offset: int
    length: int
    class_name: str
    name: str
    group: str
    module: str
    # of its SEGDEF
    attributes: int

    @property
    def address(self):
        """Its address in bytes."""
        return 16 * self.frame + self.offset

    @property
    def alignment(self):
        """The field A: 0 is absolute, 1 a byte, 2 a word, 3 a paragraph, 4 a page, 5 a double word."""
        return self.attributes >> 5

    @property
    def combination(self):
        """The field C."""
        return self.attributes >> 2 & 7

    @property
    def is_big(self):
        """The bit B."""
        return bool(self.attributes & 2)


@dataclass(frozen=True)
class Listed:
    """A public, where it stands."""

    frame: int
    offset: int
    is_absolute: bool
    name: str

    @property
    def address(self):
        """Its address in bytes; one that isn't absolute moves with the program."""
        return 16 * self.frame + self.offset


@dataclass
class LinkMap:
    """What a map says."""

    segments: list = field(default_factory=list)
    # None in the form of TLINK, which lists none
    groups: list = None
    # None where modules' parts of segments aren't told
    parts: list = None
    by_name: list = field(default_factory=list)
    by_value: list = field(default_factory=list)
    # of a file with its module's name, and a segment: each line with its frame and offset
    lines: dict = field(default_factory=dict)
    entry: tuple = (0, 0)


def lines_of(text, pattern):
    """The fields of each line; one of another form is an error."""
    for line in text.splitlines():
        found = pattern.fullmatch(line)
        if found is None:
            raise ValueError(f"no line of a map: {line!r}")
        yield found.groups()


def row(start, stop, length, names, width):
    """A segment, whose name stands in a column of this width, or has a blank behind it where it is longer."""
    at = width if names[:width].endswith(" ") else names.index(" ", width) + 1
    numbers = (int(each, 16) for each in (start, stop, length))
    return Row(*numbers, names[:at].rstrip(" "), names[at:])


def padded(text, width):
    """The name that stands in a column of this width: blanks are behind it up to there, and none where it is longer."""
    name = text.rstrip(" ")
    if text != name.ljust(width):
        raise ValueError(f"no column of {width}: {text!r}")
    return name


def part(frame, offset, length, *names):
    """A part of a segment, of its fields in the order of columns."""
    *names, attributes = names
    class_name, name, group, module = map(padded, names, PART_WIDTHS)
    numbers = (int(each, 16) for each in (frame, offset, length))
    group = None if group == NO_GROUP else group
    return Part(*numbers, class_name, name, group, module, int(attributes, 16))


def public(frame, offset, mark, name):
    return Listed(int(frame, 16), int(offset, 16), mark == "Abs", name)


def read(text):
    """What a map says."""
    front, by_name, by_value, entry = re.split("|".join((BY_NAME, BY_VALUE, ENTRY)), text)
    by_value, *numbers = LINES.split(by_value)
    said = LinkMap()
    front, is_detailed, parts = front.partition(DETAILS)
    if is_detailed:
        said.parts = [part(*each) for each in lines_of(parts, PART)]
        if any(before.address > after.address for before, after in zip(said.parts, said.parts[1:])):
            raise ValueError("parts of segments out of order")
    front, is_link, groups = front.partition(GROUPS)
    if is_link:
        said.groups = [(int(frame, 16), name) for frame, name in lines_of(groups, GROUP)]
    heading, _, rows = front.removeprefix(START).partition("Class\n")
    if front == rows or heading.strip(" "):
        raise ValueError(f"no heading of a map: {front!r}")
    width = len("Name" + heading)
    said.segments = [row(*each, width) for each in lines_of(rows if is_link else rows.removeprefix("\n"), ROW)]
    said.by_name = [public(*each) for each in lines_of(by_name, PUBLIC)]
    said.by_value = [public(*each) for each in lines_of(by_value, PUBLIC)]
    for file, segment, lines in zip(numbers[0::3], numbers[1::3], numbers[2::3]):
        found = LINE.findall(lines)
        said.lines[file, segment] = [(int(number), int(frame, 16), int(offset, 16)) for number, frame, offset in found]
    code, instruction = entry.removesuffix("\n").split(":")
    said.entry = int(code, 16), int(instruction, 16)
    return said
