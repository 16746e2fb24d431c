"""Communal variables, which modules declare and none defines, and the module that has them.

It stands behind all others. A near variable lies in its segment of DGROUP; a far one has segments
of its own.
"""

from dataclasses import dataclass

from model import module, records
from model.faults import Fault
from model.libraries import whole_frames
from model.names import Ended, Entries
from model.ordering import GROUP, UNINITIALISED
from model.records import WHOLE_SEGMENT, Location, Method, Spelling

COMMUNAL_VARIABLES = 0xB0
# data types
FAR, NEAR = 0x61, 0x62
# what a number has behind its first byte, where that is greater than the greatest of one byte
LARGEST_OF_A_BYTE = 0x80
BYTES_OF_NUMBER = {0x81: 2, 0x84: 3, 0x88: 4}
TITLE = b"communal"
# the segment of near variables, where some module has it in DGROUP and where none has
NEAR_NAME, OWN_NEAR_NAME = b"_BSS", b"c_common"
FAR_NAME = b"FAR_BSS"
# alignments and combinations
WORD, PARAGRAPH = 2, 3
PRIVATE, PUBLIC = 0, 2
MOST_SEGMENTS = records.LARGEST_INDEX
# locations that have an offset alone, or a byte of one, and those that have a frame
OFFSETS = Location.LOW_BYTE, Location.OFFSET, Location.LOADER_OFFSET
BASES = Location.BASE, Location.POINTER
# the faults
BODY, DATA_TYPE, NEAR_AND_FAR, ELEMENT_SIZES = 53, 54, 55, 56
NEAR_TOO_LONG, CUT_ELEMENT, TOO_MANY_SEGMENTS = 57, 58, 59


class OtherType(Exception):
    """A variable is neither near nor far."""


@dataclass
class Extent:
    """How much room a variable wants: elements of a size, which is a byte where it is near."""

    is_far: bool
    count: int
    size: int

    @property
    def length(self):
        return self.count * self.size


@dataclass
class Variable:
    """A variable as the first module that declares it spells it, and the word for that module."""

    name: bytes
    extent: Extent
    word: str

    def widen(self, other):
        """Has as many elements as another declaration of it; they have to be alike."""
        own = self.extent
        if own.is_far != other.extent.is_far:
            raise self.fault(NEAR_AND_FAR, other.word)
        if own.size != other.extent.size:
            raise self.fault(ELEMENT_SIZES, other.word)
        self.extent = Extent(own.is_far, max(own.count, other.extent.count), own.size)

    def fault(self, number, *others):
        """A fault that names it and its module, and others that declare it."""
        fault = Fault(number, name=self.name)
        fault.words = [self.word, *others]
        return fault


def number(entries):
    """A number of a byte, or of those behind its first."""
    first = entries.byte()
    if first <= LARGEST_OF_A_BYTE:
        return first
    if first not in BYTES_OF_NUMBER:
        raise Ended
    return int.from_bytes(entries.bytes(BYTES_OF_NUMBER[first]), "little")


def extent(entries):
    """A data type and the numbers behind it: one of a near variable, two of a far one."""
    data_type = entries.byte()
    if data_type == NEAR:
        return Extent(False, number(entries), 1)
    if data_type == FAR:
        return Extent(True, number(entries), number(entries))
    raise OtherType


def declarations(content, word, kind=COMMUNAL_VARIABLES):
    """What the records of a module declare, or the fault of the first that can't be read."""
    place = 0
    for frame in whole_frames(content):
        entries = Entries(frame.body if frame.kind == kind else b"")
        try:
            while entries.has_more():
                name = entries.name()
                entries.index()
                yield Variable(name, extent(entries), word)
        except Ended:
            raise Fault(BODY, word, place) from None
        except OtherType:
            raise Fault(DATA_TYPE, word, place) from None
        place = frame.behind


def variables(modules, key):
    """One variable for each name that modules declare and none offers, in order of meeting.

    Of each module the names that it offers are known, its bytes, and its word.
    """
    declared = [one for each in modules for one in declarations(each.content, each.word)]
    offered = {key(name) for each in modules for name in each.names.offered}
    return merged(declared, offered, key)


def merged(declared, offered, key):
    """One variable for each name that is declared and not offered, in order of meeting."""
    found = {}
    for each in declared:
        if key(each.name) not in offered:
            found.setdefault(key(each.name), each).widen(each)
    return list(found.values())


def near_places(near):
    """Where near variables begin in their segment, and the length of that."""
    places, end = [], 0
    for each in near:
        begin = end + (end % 2 if each.extent.length > 1 else 0)
        end = begin + each.extent.length
        if begin >= WHOLE_SEGMENT or end > WHOLE_SEGMENT:
            raise each.fault(NEAR_TOO_LONG)
        places.append(begin)
    return places, end


def far_lengths(variable, most):
    """The lengths of the segments of a far variable, which may have so many."""
    length, size = variable.extent.length, variable.extent.size
    if length > WHOLE_SEGMENT and WHOLE_SEGMENT % size:
        raise variable.fault(CUT_ELEMENT)
    whole, rest = divmod(length, WHOLE_SEGMENT)
    parts = [rest] if rest or not whole else []
    if whole + len(parts) > most:
        raise variable.fault(TOO_MANY_SEGMENTS)
    return whole * [WHOLE_SEGMENT] + parts


def has_near_segment(content):
    """Whether a module has the near segment of compilers, a public one, in DGROUP."""
    try:
        found = module.read(content, None)
    except Fault:
        return False
    grouped = [
        found.segments[index - 1]
        for group in found.groups if group.name == GROUP for index in group.segments]
    return any(
        (each.kind, each.name, each.class_name) == ("public", NEAR_NAME, UNINITIALISED)
        for each in grouped)


def segment(alignment, combination, length, name, class_name):
    return records.SegmentDefinition(alignment, combination, length, name, class_name, 0)


def public(group, index, offset, variable):
    return records.PublicNames(
        group, index, None, [records.PublicName(variable.name, offset, 0)])


def made_records(found, near_name):
    """The records of the module: the near segment first, then those of far variables."""
    near = [each for each in found if not each.extent.is_far]
    places, end = near_places(near)
    before = [segment(WORD, PUBLIC, end, 2, 3), records.GroupDefinition(1, [1])] if near else []
    publics = [public(1, 1, place, each) for place, each in zip(places, near)]
    far, first = [], 1 + (near != [])
    for each in found:
        if each.extent.is_far:
            publics.append(public(0, first + len(far), 0, each))
            far += [
                segment(PARAGRAPH, PRIVATE, length, 4, 4)
                for length in far_lengths(each, MOST_SEGMENTS + 1 - first - len(far))]
    return [
        records.Header(TITLE), records.NameList([GROUP, near_name]),
        records.NameList([UNINITIALISED, FAR_NAME]), *before, *far, *publics,
        records.ModuleEnd(False, None)]


def communal_module(found, contents):
    """The bytes of the module for modules of these bytes, or None where there is no variable."""
    if not found:
        return None
    near_name = NEAR_NAME if any(map(has_near_segment, contents)) else OWN_NEAR_NAME
    return b"".join(map(Spelling().record, made_records(found, near_name)))


def references_at(one, locations):
    """The references of the fix-ups of a module at some locations."""
    return [fixup.reference for data in one.data for fixup in data.fixups if fixup.location in locations]


def framing(reference):
    """What a reference has its frame by: the target, or something else."""
    return reference.target if reference.frame.method == Method.TARGET else reference.frame


def external_names(one, sides):
    """The names of those externals of a module by which some frames or targets are said."""
    return [one.externals[each.index - 1].name for each in sides if each.method == Method.EXTERNAL]


def is_own_far(one, public):
    """Whether a public is a far variable that is local to its module."""
    return public.is_local and public.segment != 0 and public.group == 0 and (
        one.segments[public.segment - 1].class_name == FAR_NAME)


def reached_by_offset(one, found, key):
    """The names of the externals of a module that are far variables, those of the program or its own, and that it
    reaches by their offsets alone: no base and no pointer has their frame. Two externals may mean one of them."""
    far = {key(each.name) for each in found if each.extent.is_far}
    own_far = {key(each.name) for each in one.publics if is_own_far(one, each)}
    by_offset = set(map(key, external_names(one, [each.target for each in references_at(one, OFFSETS)])))
    by_base = set(map(key, external_names(one, map(framing, references_at(one, BASES)))))
    reached = {}
    for each in one.externals:
        if key(each.name) in (own_far if each.is_local else far) & by_offset - by_base:
            reached.setdefault(key(each.name), each.name)
    return list(reached.values())
