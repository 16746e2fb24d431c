"""Weak and lazy externals, each of which means its default where nothing defines it.

A comment has their indexes, which count the externals of all types of records from 1 on. A body
that ends inside an entry has the entries before that one.
"""

from dataclasses import dataclass
from functools import partial
from typing import Optional

from model import names
from model.aliases import Alias, aliases, endless, meaning
from model.communal import OtherType, extent
from model.libraries import whole_frames
from model.names import COMMENT, COMMUNAL_EXTERNALS, EXTERNAL_NAMES, Ended, Entries, Names

# the classes of the comments
WEAK, LAZY = 0xA8, 0xA9
LOCAL_EXTERNAL_NAMES, COMMUNAL_VARIABLES, LOCAL_COMMUNAL_VARIABLES = 0xB4, 0xB0, 0xB8
OTHER_LOCAL_EXTERNAL_NAMES = 0xB5
VARIABLES = (COMMUNAL_VARIABLES, LOCAL_COMMUNAL_VARIABLES)
LOCAL = (LOCAL_EXTERNAL_NAMES, OTHER_LOCAL_EXTERNAL_NAMES, LOCAL_COMMUNAL_VARIABLES)
EXTERNALS = (EXTERNAL_NAMES, COMMUNAL_EXTERNALS, LOCAL_EXTERNAL_NAMES, OTHER_LOCAL_EXTERNAL_NAMES, *VARIABLES)
LISTS = (names.NAME_LIST, names.LOCAL_NAME_LIST)


def external(kind, entries, listed):
    """The name of the next external; None where it is one of its module alone, or isn't there."""
    if kind == COMMUNAL_EXTERNALS:
        found = listed.at(entries.index())
        entries.index()
        return found[0] if found else None
    name = entries.name()
    entries.index()
    if kind in VARIABLES:
        extent(entries)
    return None if kind in LOCAL else name


def externals(content):
    """The names of the externals of a module, in the order of their indexes."""
    listed = Names()
    for frame in whole_frames(content):
        if frame.kind in LISTS:
            names.add(listed, frame)
        entries = Entries(frame.body if frame.kind in EXTERNALS else b"")
        try:
            while entries.has_more():
                yield external(frame.kind, entries, listed)
        except (Ended, OtherType):
            pass


def pairs(content, kind):
    """The indexes of each external of a kind and of its default, behind the comment's place."""
    place = 0
    for frame in whole_frames(content):
        is_of_kind = frame.kind == COMMENT and frame.body[1:2] == bytes([kind])
        entries = Entries(frame.body[2:] if is_of_kind else b"")
        try:
            while entries.has_more():
                yield place, entries.index(), entries.index()
        except Ended:
            pass
        place = frame.behind


@dataclass
class Default(Alias):
    """A name that means its default, with the index of that; one that is local has no name."""

    substitute: Optional[bytes]
    index: int


def defaults(content, kinds):
    """The externals of these kinds with their defaults, each behind its index.

    Both have to be there, and the external itself has to have a name to share.
    """
    found = dict(enumerate(externals(content), 1))
    for kind in kinds:
        for place, index, default in pairs(content, kind):
            if found.get(index) is not None and default in found:
                yield index, Default(found[index], found[default], place, default)


def others(content, kinds):
    """The names that a module has but for its externals of these kinds."""
    indexes = [index for index, _ in defaults(content, kinds)]
    found = [
        name for index, name in enumerate(externals(content), 1) if index not in indexes]
    return set(found)


def names_of(content):
    """The names of a module: those that it wants, and of these those that it needs."""
    found = names.names_of(content)
    own, needed = others(content, [WEAK]), others(content, [WEAK, LAZY])
    found.externals = found.wanted
    found.needed = [name for name in found.wanted if name in needed]
    found.wanted = [name for name in found.wanted if name in own]
    return found


def defined_names(modules, variables, key):
    """The names that are defined: a module offers or needs one, or a communal variable has it."""
    defined = {key(each.name) for each in variables}
    for each in modules:
        defined.update(map(key, each.names.offered + each.names.needed))
    return defined


def undefined(content, defined, key):
    """The externals of a module that mean their defaults by name, as aliases of these."""
    found = [one for _, one in defaults(content, [WEAK, LAZY]) if one.substitute is not None]
    return [one for one in found if key(one.name) not in defined]


def local_ones(content, defined, key):
    """The externals of a module as it is linked that mean local ones of it, by the indexes of both.

    It is linked with what its names mean by aliases. Of the defaults of an index the first counts:
    where it is local, and nothing defines the external's name, the external means it.
    """
    first = {}
    for index, one in defaults(content, [WEAK, LAZY]):
        first.setdefault(index, one)
    return {
        index: one.index for index, one in first.items()
        if one.substitute is None and key(one.name) not in defined}


def means_in(modules, variables, key):
    """For each module its names that stand for others, and those of all modules in front of them.

    These are the aliases of all modules, and behind them what is undefined in that one.
    """
    defined = defined_names(modules, variables, key)
    shared = [one for each in modules for one in aliases(each.content)]
    for each in modules:
        own = undefined(each.content, defined, key)
        yield [*aliases(each.content), *own], [*shared, *own]


def meanings(modules, variables, key):
    """For each module what says what a name means in it, or the fault of the first endless one."""
    found = []
    for each, (own, everywhere) in zip(modules, means_in(modules, variables, key)):
        endless(own, everywhere, each.word, key)
        found.append(partial(meaning, everywhere, key=key))
    return found


def plain_meanings(modules, variables, key):
    """The same where an endless name means itself."""
    def means(name, everywhere):
        found = meaning(everywhere, name, key)
        return name if found is None else found

    return [
        partial(means, everywhere=everywhere)
        for _, everywhere in means_in(modules, variables, key)]
