"""Communal variables that are local to their module, which has them in front of its end.

What a module declares so has become its local externals; the variables are its local publics, with
names, segments and groups that are counted from its own on.
"""

from dataclasses import dataclass
from typing import Optional

from model import module, records
from model.communal import (
    FAR_NAME, MOST_SEGMENTS, NEAR_NAME, OWN_NEAR_NAME, PARAGRAPH, PRIVATE, PUBLIC,
    TOO_MANY_SEGMENTS, WORD, declarations, far_lengths, has_near_segment, merged, near_places,
    segment)
from model.faults import Fault
from model.libraries import whole_frames
from model.names import Ended, Entries
from model.ordering import GROUP, UNINITIALISED
from model.records import Spelling

LOCAL_VARIABLES = 0xB8
NAME_LISTS = (0x96, 0xCA)
SEGMENTS, GROUPS, LOCAL_PUBLICS = 0x98, 0x9A, 0xB6
ENDS = (0x8A, 0x8B)
# the names of a module's variables: of the group, of the near segment, its class, of far ones
OWN_NAMES = 4


@dataclass
class Home:
    """What a module has: how many names, segments and groups, its local publics, and its end."""

    names: int
    segments: int
    groups: int
    publics: list
    end: Optional[int]


def whole_entries(body, read):
    """What is read of a body until it ends, or of what is whole of it."""
    entries = Entries(body)
    try:
        while entries.has_more():
            yield read(entries)
    except Ended:
        pass


def public_name(entries):
    name = entries.name()
    entries.bytes(2)
    entries.index()
    return name


def public_names(body):
    """The names of a body with a base in front."""
    entries = Entries(body)
    try:
        entries.base()
    except Ended:
        return []
    return list(whole_entries(body[entries.place:], public_name))


def home_of(content):
    """What a module has, by its records' frames alone."""
    frames = list(whole_frames(content))
    kinds = [frame.kind for frame in frames]
    names = [
        name for frame in frames if frame.kind in NAME_LISTS
        for name in whole_entries(frame.body, Entries.name)]
    publics = [
        name for frame in frames if frame.kind == LOCAL_PUBLICS
        for name in public_names(frame.body)]
    places = [0] + [frame.behind for frame in frames]
    end = places[-2] if kinds and kinds[-1] in ENDS else None
    return Home(len(names), kinds.count(SEGMENTS), kinds.count(GROUPS), publics, end)


def local_public(group, index, offset, variable):
    return records.LocalPublicNames(
        group, index, None, [records.PublicName(variable.name, offset, 0)])


def local_records(found, near_name, home):
    """The records of variables: the near segment first, then those of far variables."""
    names, segments, groups = home.names, home.segments, home.groups
    if names + OWN_NAMES > MOST_SEGMENTS or MOST_SEGMENTS in (segments, groups) \
            or max(segments, groups) > MOST_SEGMENTS:
        raise found[0].fault(TOO_MANY_SEGMENTS)
    near = [each for each in found if not each.extent.is_far]
    places, end = near_places(near)
    made = [
        records.NameList([GROUP, near_name]), records.NameList([UNINITIALISED, FAR_NAME])]
    if near:
        segments, groups = segments + 1, groups + 1
        made.append(segment(WORD, PUBLIC, end, names + 2, names + 3))
        made.append(records.GroupDefinition(names + 1, [segments]))
    publics = [local_public(groups, segments, place, each) for place, each in zip(places, near)]
    for each in found:
        if each.extent.is_far:
            publics.append(local_public(0, segments + 1, 0, each))
            lengths = far_lengths(each, MOST_SEGMENTS - segments)
            made += [
                segment(PARAGRAPH, PRIVATE, length, names + 4, names + 4) for length in lengths]
            segments += len(lengths)
    return made + publics


def is_module(content):
    """Whether a module is there, without a fault."""
    try:
        module.read(content, None)
    except Fault:
        return False
    return True


def with_own(each, content, near_name, key):
    """The bytes of a module with the variables that it declares as local to it.

    One that is no module without them stays, so that the link tells what is wrong with it.
    """
    if not is_module(content):
        return content
    declared = list(declarations(each.content, each.word, LOCAL_VARIABLES))
    home = home_of(content)
    found = merged(declared, {key(name) for name in home.publics}, key)
    if not found or home.end is None:
        return content
    made = b"".join(map(Spelling().record, local_records(found, near_name, home)))
    return content[:home.end] + made + content[home.end:]


def with_locals(modules, contents, key):
    """The bytes of modules, as they were lowered, with the variables that each declares so."""
    near_name = NEAR_NAME if any(map(has_near_segment, contents)) else OWN_NEAR_NAME
    return [
        with_own(each, content, near_name, key) for each, content in zip(modules, contents)]
