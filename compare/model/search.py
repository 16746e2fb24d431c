"""Which members of libraries a link takes, and which names it misses.

A module is here what it says of names; a library is a list of those of its members. Names agree as
`agreed` gives them one key.
"""

from dataclasses import dataclass
from typing import Optional

from model.placement import folded


@dataclass
class Choice:
    """A member that is taken: for a name, as the first module that wants it spells it."""

    library: int
    member: int
    name: bytes
    wanted_by: int


@dataclass
class Missing:
    """A name that a module wants and no module offers, and one that is like it, or None.

    `like_of` is what offers that, counted over modules and behind them all members.
    """

    name: bytes
    wanted_by: int
    like: Optional[bytes] = None
    like_of: Optional[int] = None


def agreed(ignores_case):
    """What gives names that agree one key: themselves, or their small letters."""
    return folded if ignores_case else lambda name: name


class Wanting:
    """What modules want, in order of meeting, while one after the other joins.

    An alias is used where an external or a communal variable has its name, or where a used alias
    stands for its name. What it stands for is wanted then, by the module that has it. Of aliases of
    one name the first counts.
    """

    def __init__(self, key):
        self.key = key
        # each name, with the number of the module that wants it
        self.found = []
        # what aliases stand for, with the number of its module, by their names
        self.aliases = {}
        self.asked = set()

    def join(self, number, module):
        """First what its externals want, then what their names stand for, then what its aliases do, by its records."""
        self.found += [(name, number) for name in module.wanted]
        for name in [*module.externals, *module.communals]:
            self.ask(name)
        for alias, other in module.aliases:
            if self.key(alias) not in self.aliases:
                self.aliases[self.key(alias)] = (other, number)
                if self.key(alias) in self.asked:
                    self.found.append((other, number))
                    self.ask(other)

    def ask(self, name):
        """The first time that a name is asked for, what it stands for is wanted, and is asked for in turn."""
        while self.key(name) not in self.asked:
            self.asked.add(self.key(name))
            if self.key(name) in self.aliases:
                name, number = self.aliases[self.key(name)]
                self.found.append((name, number))


def wanted_names(modules, key):
    """The names that modules want, in order of meeting, with the number of the module."""
    wanting = Wanting(key)
    for number, module in enumerate(modules):
        wanting.join(number, module)
    return wanting.found


def open_names(modules, key):
    """Those that no module defines: none offers it, and none has a communal variable of it."""
    defined = {
        key(name) for module in modules for name in [*module.offered, *module.communals]}
    return [each for each in wanted_names(modules, key) if key(each[0]) not in defined]


def offering(libraries, name, key):
    """The first library, and in it the first member, that offers a name; or None."""
    for library, members in enumerate(libraries):
        for number, member in enumerate(members):
            if key(name) in map(key, member.offered):
                return library, number
    return None


def next_choice(modules, libraries, key):
    """The member for the first open name that some library offers, or None."""
    for name, wanted_by in open_names(modules, key):
        found = offering(libraries, name, key)
        if found is not None:
            return Choice(*found, name, wanted_by)
    return None


def choose(modules, libraries, key):
    """The members that are taken behind some modules, one after the other; each is then one of them.
    """
    modules, choices = list(modules), []
    while choice := next_choice(modules, libraries, key):
        choices.append(choice)
        modules.append(libraries[choice.library][choice.member])
    return choices


def is_like(name, other):
    """Whether names agree but for case and one underscore before one of them."""
    name, other = folded(name), folded(other)
    return name in (other, b"_" + other) or other == b"_" + name


def missing(modules, members, key):
    """Each name that is missing, once for a module, with the first name that is like it."""
    offered = [
        (name, number) for number, each in enumerate([*modules, *members])
        for name in each.offered]
    found, seen = [], set()
    for name, wanted_by in open_names(modules, key):
        if (key(name), wanted_by) not in seen:
            seen.add((key(name), wanted_by))
            likes = [(other, number) for other, number in offered if is_like(name, other)]
            found.append(Missing(name, wanted_by, *(likes or [(None, None)])[0]))
    return found
