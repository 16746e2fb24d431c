"""Where segments, groups and publics stand, and the faults 22 to 25."""

from dataclasses import dataclass
from typing import Optional

from model.faults import Fault

LARGEST_PROGRAM = 1_048_560
# the bytes that one frame reaches
FRAME_REACH = 65536


@dataclass(frozen=True)
class Address:
    """An address; a relocatable one moves with the program."""

    value: int
    is_relocatable: bool

    def at(self, paragraph):
        """What it is in a program that is loaded at a paragraph."""
        return self.value + 16 * paragraph if self.is_relocatable else self.value


@dataclass(frozen=True)
class Frame:
    """A frame, which is counted in paragraphs; a relocatable one moves with the program."""

    value: int
    is_relocatable: bool

    def at(self, paragraph):
        """What it is in a program that is loaded at a paragraph."""
        return self.value + paragraph if self.is_relocatable else self.value


@dataclass(frozen=True)
class Meaning:
    """What a segment, a group or a public is: an address and a frame.

    A public whose group has no members has no frame.
    """

    address: Address
    frame: Optional[Frame]


def absolute(frame, offset):
    """What stands at an offset in a frame that doesn't move."""
    return Meaning(Address(16 * frame + offset, False), Frame(frame, False))


@dataclass
class Part:
    """A segment of a module that isn't absolute."""

    owner: int
    index: int
    segment: object
    start: Optional[int] = None

    @property
    def end(self):
        return self.start + self.segment.length


@dataclass
class Combined:
    """Parts that combine, with the name, class and kind that they have."""

    name: bytes
    class_name: bytes
    kind: str
    parts: list

    @property
    def start(self):
        return self.parts[0].start

    @property
    def end(self):
        return max(part.end for part in self.parts)

    @property
    def frame(self):
        return self.start // 16


def folded(name):
    """A name with small letters in the place of the capitals A to Z; other bytes stay."""
    return bytes(byte + 0x20 if 0x41 <= byte <= 0x5A else byte for byte in name)


@dataclass
class Definition:
    """A public or a local public, as it was spelled, and what it means."""

    name: bytes
    meaning: Meaning


@dataclass
class Layout:
    """Where everything stands: combined segments in order, members of groups, meanings of names.

    A definition is found by who sees it, None for all modules or the owner of a local public, and
    by its name, folded where case is ignored.
    """

    combined: list
    places: dict
    groups: dict
    definitions: dict
    size: int
    ignores_case: bool

    def key(self, owner, named):
        """Under what a public or external stands in the definitions."""
        name = folded(named.name) if self.ignores_case else named.name
        return (owner if named.is_local else None, name)

    def meaning_of_external(self, owner, external):
        """What the external of a module means, or None."""
        found = self.definitions.get(self.key(owner, external))
        return None if found is None else found.meaning

    def publics(self):
        """The publics in order of inputs and records, without the local ones."""
        definitions = self.definitions.items()
        return [definition for (owner, _), definition in definitions if owner is None]

    def part(self, owner, index):
        """The part of a segment, and what it was combined into."""
        return self.places[owner, index]

    def group_frame(self, name):
        """The frame of a group: that of the least start of its members; None without members."""
        members = self.groups[name]
        return Frame(min(member.start for member in members) // 16, True) if members else None


def combine(modules):
    """Combines parts of one name, class and kind, in order of first meeting.

    A private part stays alone.
    """
    found = {}
    for owner, module in enumerate(modules):
        for index, segment in enumerate(module.segments, 1):
            if not segment.is_absolute:
                alone = (owner, index) if segment.kind == "private" else None
                key = (segment.name, segment.class_name, segment.kind)
                combined = found.setdefault((*key, alone), Combined(*key, []))
                combined.parts.append(Part(owner, index, segment))
    return list(found.values())


def in_order_of_classes(combined):
    """All of one class together, classes in order of first meeting."""
    classes = []
    for each in combined:
        if each.class_name not in classes:
            classes.append(each.class_name)
    return sorted(combined, key=lambda each: classes.index(each.class_name))


def aligned(place, alignment):
    """The least multiple of an alignment that isn't below a place."""
    return -(-place // alignment) * alignment


def put_common(parts, place):
    """Gives parts one start, with the greatest alignment; answers the end of the longest."""
    start = aligned(place, max(part.segment.alignment for part in parts))
    for part in parts:
        part.start = start
    return max(part.end for part in parts)


def put_in_a_row(parts, place, kind):
    """Gives each part its start behind the one before, and answers the last end.

    In a stack only the first part keeps its alignment.
    """
    for number, part in enumerate(parts):
        keeps_alignment = kind != "stack" or number == 0
        part.start = aligned(place, part.segment.alignment if keeps_alignment else 1)
        place = part.end
    return place


def put_all(combined):
    """Gives all parts their starts, from 0 on; answers the size of the program."""
    place = 0
    for each in combined:
        if each.kind == "common":
            place = put_common(each.parts, place)
        else:
            place = put_in_a_row(each.parts, place, each.kind)
    return place


def gather_groups(modules, places):
    """The members of each group, which is one over all modules, in order of first meeting."""
    groups = {}
    for owner, module in enumerate(modules):
        for group in module.groups:
            members = groups.setdefault(group.name, [])
            members += [places[owner, index][1] for index in group.segments]
    return groups


def meaning_of_segment(modules, layout, owner, index):
    """What a segment is as a target or frame: its own start, and its combined segment's frame."""
    segment = modules[owner].segments[index - 1]
    if segment.is_absolute:
        return absolute(segment.frame, segment.offset)
    part, combined = layout.part(owner, index)
    return Meaning(Address(part.start, True), Frame(combined.frame, True))


def meaning_of_public(modules, layout, owner, public):
    """What a public is: absolute, or in a part, where its group or segment gives the frame."""
    if public.segment == 0:
        return absolute(public.frame, public.offset)
    segment = meaning_of_segment(modules, layout, owner, public.segment)
    address = Address(segment.address.value + public.offset, segment.address.is_relocatable)
    if public.group == 0 or not address.is_relocatable:
        return Meaning(address, segment.frame)
    return Meaning(address, layout.group_frame(modules[owner].groups[public.group - 1].name))


def check_length(number, length, most, name=None):
    """A fault is of what has more bytes than it may have, and by how many."""
    if length > most:
        fault = Fault(number, name=name)
        fault.excess = length - most
        raise fault


def check_lengths(layout):
    """Faults 22 to 24: a combined segment, the program, or a group is too long."""
    for each in layout.combined:
        check_length(22, each.end - 16 * each.frame, FRAME_REACH, each.name)
    check_length(23, layout.size, LARGEST_PROGRAM)
    for name, members in layout.groups.items():
        end = max([each.end for each in members], default=0)
        if members:
            check_length(24, end - 16 * layout.group_frame(name).value, FRAME_REACH, name)


def define_publics(modules, layout):
    """Gives each public, local or not, its meaning; fault 25 is a name that an earlier one has.

    A local public clashes with those of its own module alone, never with one that all modules see.
    """
    for owner, module in enumerate(modules):
        for public in module.publics:
            key = layout.key(owner, public)
            if key in layout.definitions:
                raise Fault(25, name=public.name)
            meaning = meaning_of_public(modules, layout, owner, public)
            layout.definitions[key] = Definition(public.name, meaning)


def place(modules, ignores_case):
    """The layout of modules, or the smallest of the faults 22 to 25."""
    combined = in_order_of_classes(combine(modules))
    size = put_all(combined)
    places = {
        (part.owner, part.index): (part, each) for each in combined for part in each.parts}
    groups = gather_groups(modules, places)
    layout = Layout(combined, places, groups, {}, size, ignores_case)
    check_lengths(layout)
    define_publics(modules, layout)
    return layout
