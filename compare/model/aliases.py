"""Aliases: names that stand for others, and what a name means by them.

Names agree as `key` gives them one key; of aliases of one name the first counts.
"""

from dataclasses import dataclass

from model.faults import Fault
from model.libraries import whole_frames
from model.names import ALIAS, Ended, Entries

ENDLESS = 60


@dataclass
class Alias:
    """A name, the name that it stands for, and the place of its record."""

    name: bytes
    substitute: bytes
    place: int


def aliases(content):
    """The aliases of a module, as far as its records have whole ones."""
    place = 0
    for frame in whole_frames(content):
        entries = Entries(frame.body if frame.kind == ALIAS else b"")
        try:
            while entries.has_more():
                name, substitute = entries.name(), entries.name()
                yield Alias(name, substitute, place)
        except Ended:
            pass
        place = frame.behind


def meaning(found, name, key):
    """What a name means by one alias behind the other; None where these go round for ever."""
    met = set()
    while key(name) not in met:
        following = [each.substitute for each in found if key(each.name) == key(name)]
        if not following:
            return name
        met.add(key(name))
        name = following[0]
    return None


def endless(some, found, word, key):
    """The fault of the first of some aliases that goes round for ever, by the module's word."""
    for alias in some:
        if meaning(found, alias.name, key) is None:
            raise Fault(ENDLESS, word, alias.place, name=alias.name)
