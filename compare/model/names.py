"""What a module says of names, by the frames of its records alone.

So a module with records that no link takes loses none of its names. A body that ends inside an
entry has the entries before that one; an index of a name that isn't there names nothing.
"""

from dataclasses import dataclass, field

from model.libraries import whole_frames

COMMENT = 0x88
EXTERNAL_NAMES, COMMUNAL_EXTERNALS = 0x8C, 0xBC
PUBLIC_NAMES, PUBLIC_NAMES_32 = 0x90, 0x91
NAME_LIST, LOCAL_NAME_LIST = 0x96, 0xCA
COMMUNAL_DATA, COMMUNAL_DATA_32 = 0xC2, 0xC3
ALIAS = 0xC6
COMMUNAL_VARIABLES = 0xB0
# how many numbers a far variable has, and a near one; what a number has behind its first byte
NUMBERS_OF_VARIABLE = {0x61: 2, 0x62: 1}
BYTES_OF_NUMBER = {0x81: 2, 0x84: 3, 0x88: 4}
# the classes of comments
DEFAULT_LIBRARY = (0x9F, 0x81)
DOSSEG = 0x9E
# of the flags of a COMDAT, and of its attributes the allocation that names a base
IS_LOCAL = 0x04
ALLOCATION, EXPLICIT = 0x0F, 0


class Ended(Exception):
    """A body ended inside an entry."""


def skip_extent(entries):
    """What kind of variable is declared, and its one number or two."""
    kind = entries.byte()
    if kind not in NUMBERS_OF_VARIABLE:
        raise Ended
    for _ in range(NUMBERS_OF_VARIABLE[kind]):
        first = entries.byte()
        if first > 0x80:
            entries.bytes(BYTES_OF_NUMBER.get(first, len(entries.body) + 1))


class Entries:
    """Reads the fields of a body one after the other."""

    def __init__(self, body):
        self.body = body
        self.place = 0

    def has_more(self):
        return self.place < len(self.body)

    def bytes(self, count):
        """The next bytes, all of which have to be there."""
        first, self.place = self.place, self.place + count
        if self.place > len(self.body):
            raise Ended
        return self.body[first:self.place]

    def byte(self):
        return self.bytes(1)[0]

    def name(self):
        return self.bytes(self.byte())

    def index(self):
        """An index of one byte, or of two, the high part first."""
        first = self.byte()
        return first if first < 128 else (first - 128) * 256 + self.byte()

    def base(self):
        """A group, a segment and, where that is 0, a frame."""
        self.index()
        if self.index() == 0:
            self.bytes(2)


@dataclass
class Names:
    """The names that a module wants and offers, its default libraries, and whether it asks for the
    DOSSEG order."""

    wanted: list = field(default_factory=list)
    offered: list = field(default_factory=list)
    # of all externals, also of those that take no member
    externals: list = field(default_factory=list)
    # of communal variables
    communals: list = field(default_factory=list)
    # pairs of an alias and of the name that it stands for
    aliases: list = field(default_factory=list)
    libraries: list = field(default_factory=list)
    dosseg: bool = False
    # of LNAMES and LLNAMES together, which others have an index of
    listed: list = field(default_factory=list)
    # of the names that it wants those that another one has to offer
    needed: list = field(default_factory=list)

    def at(self, index):
        """The listed name of an index, or none; in a list."""
        return self.listed[index - 1:index] if index else []

    def add_externals(self, entries):
        while entries.has_more():
            name = entries.name()
            entries.index()
            self.wanted.append(name)

    def add_communal_externals(self, entries):
        while entries.has_more():
            name = self.at(entries.index())
            entries.index()
            self.wanted += name

    def add_publics(self, entries, width):
        entries.base()
        while entries.has_more():
            name = entries.name()
            entries.bytes(width)
            entries.index()
            self.offered.append(name)

    def add_listed(self, entries):
        while entries.has_more():
            self.listed.append(entries.name())

    def add_communal_data(self, entries, width):
        """The public name of a COMDAT, unless it is local: then it is no other module's."""
        flags, attributes = entries.byte(), entries.byte()
        entries.byte()
        entries.bytes(width)
        entries.index()
        if attributes & ALLOCATION == EXPLICIT:
            entries.base()
        name = self.at(entries.index())
        self.offered += [] if flags & IS_LOCAL else name

    def add_aliases(self, entries):
        """The alias is offered; what it stands for is wanted where the alias is."""
        while entries.has_more():
            alias, substitute = entries.name(), entries.name()
            self.offered.append(alias)
            self.aliases.append((alias, substitute))

    def add_communals(self, entries):
        """The names, as far as what their variables are is whole."""
        while entries.has_more():
            name = entries.name()
            entries.index()
            skip_extent(entries)
            self.communals.append(name)

    def add_comment(self, entries):
        entries.byte()
        class_byte = entries.byte()
        if class_byte in DEFAULT_LIBRARY:
            self.libraries.append(entries.body[entries.place:])
        if class_byte == DOSSEG:
            self.dosseg = True


STEPS = {
    EXTERNAL_NAMES: Names.add_externals,
    COMMUNAL_EXTERNALS: Names.add_communal_externals,
    PUBLIC_NAMES: lambda names, entries: names.add_publics(entries, 2),
    PUBLIC_NAMES_32: lambda names, entries: names.add_publics(entries, 4),
    NAME_LIST: Names.add_listed,
    LOCAL_NAME_LIST: Names.add_listed,
    COMMUNAL_DATA: lambda names, entries: names.add_communal_data(entries, 2),
    COMMUNAL_DATA_32: lambda names, entries: names.add_communal_data(entries, 4),
    ALIAS: Names.add_aliases,
    COMMUNAL_VARIABLES: Names.add_communals,
    COMMENT: Names.add_comment,
}


def names_of(content):
    """The names of a module, up to its end or to the first record that is none."""
    names = Names()
    for frame in whole_frames(content):
        if frame.kind in STEPS:
            add(names, frame)
    return names


def add(names, frame):
    """Adds what one record says, as far as its entries are whole."""
    try:
        STEPS[frame.kind](names, Entries(frame.body))
    except Ended:
        pass


def wanting_places(content, name):
    """Where the records of a module begin that want a name, one after the other.

    An alias may want the name that it stands for.
    """
    names, place = Names(), 0
    for frame in whole_frames(content):
        before, aliases = len(names.wanted), len(names.aliases)
        if frame.kind in STEPS:
            add(names, frame)
        found = names.wanted[before:] + [other for _, other in names.aliases[aliases:]]
        if name in found:
            yield place
        place = frame.behind
