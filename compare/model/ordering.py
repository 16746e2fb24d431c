"""The module that stands first in a link: it fixes an order of segments, and defines marks.

Its segments have no bytes. Each opens a class, and in it a combined segment, so that the rules of
placement alone put all others in the order wanted.
"""

from dataclasses import dataclass

from model import module, placement, records
from model.faults import Fault
from model.module import ALIGNMENTS
from model.records import Spelling

TITLE = b"doslink"
GROUP = b"DGROUP"
CODE, BEGIN, UNINITIALISED, STACK = b"CODE", b"BEGDATA", b"BSS", b"STACK"
BEGIN_MARKS = (b"_edata", b"__edata")
END_MARKS = (b"_end", b"__end")
BEGIN_NAME = b"_BSS"
END_NAME = END_CLASS = b"_END"
COMBINATIONS = {"private": 0, "public": 2, "stack": 5, "common": 6}
BYTE_ALIGNED = 1
# the segment before whose code LINK puts null bytes, so that no function is at 0
TEXT, NULL_BYTES = b"_TEXT", bytes(16)
DATA_IN_BSS = 62
# each part has two names, and an index reaches 32,767
MOST_PARTS = 16_383
# an order is one of these, or a list of items
MEETING, DOSSEG = "meeting", "dosseg"


class TooManyParts(Exception):
    """The module would have more segments than there are indexes for their names."""


@dataclass
class Segment:
    """A segment of the module.

    DGROUP may have what it combines with, and some segment of its class. Mostly it has no bytes.
    """

    name: bytes
    class_name: bytes
    kind: str
    alignment: int
    in_group: bool
    class_in_group: bool
    content: bytes = b""


@dataclass
class Class:
    """An item of a list: the class of a name."""

    name: bytes


@dataclass
class Named:
    """An item of a list: the segments of a name in the class before it."""

    name: bytes


def in_order(segments, order):
    """Segments in the order asked for; those that it takes alike stay in order of first meeting."""
    if order == MEETING:
        return segments
    return in_dosseg_order(segments) if order == DOSSEG else in_listed_order(segments, order)


def in_dosseg_order(segments):
    """Classes of code, those outside of DGROUP, and then those in it.

    These are what begins data, other data, what has no data, and the stack.
    """
    def rank(segment):
        if segment.class_name.endswith(CODE):
            return 0
        if not segment.class_in_group:
            return 1
        return {BEGIN: 2, UNINITIALISED: 4, STACK: 5}.get(segment.class_name, 3)

    return sorted(segments, key=rank)


def in_listed_order(segments, items):
    """What a list names, in its order, and behind that the rest."""
    places, class_name = [], None
    for item in items:
        if isinstance(item, Class):
            class_name = item.name
            places.append((class_name, None))
        else:
            # before the rest of its class
            places.insert(len(places) - 1, (class_name, item.name))

    def rank(segment):
        choices = [(segment.class_name, segment.name), (segment.class_name, None)]
        return min([places.index(each) for each in choices if each in places] + [len(places)])

    return sorted(segments, key=rank)


def opening(modules):
    """What the module has for the segments of others, in order of meeting.

    It is one for all that combine, and one for a private one that is the first of its class.
    """
    combined = placement.combine(modules)
    places = {
        (part.owner, part.index): (part, each) for each in combined for part in each.parts}
    in_group = placement.gather_groups(modules, places).get(GROUP, [])
    found, classes = [], []
    for each in combined:
        is_private = each.kind == "private"
        if not is_private or each.class_name not in classes:
            found.append(Segment(
                each.name, each.class_name, each.kind,
                BYTE_ALIGNED if is_private else each.parts[0].segment.alignment,
                not is_private and any(each is member for member in in_group),
                any(each.class_name == member.class_name for member in in_group)))
        classes.append(each.class_name)
    return found


def wanted_marks(modules, marks, key):
    """The marks that some module wants and none defines, both for other modules."""
    wanted = {
        key(each.name) for module in modules for each in module.externals if not each.is_local}
    defined = {
        key(each.name) for module in modules for each in module.publics if not each.is_local}
    return [mark for mark in marks if key(mark) in wanted - defined]


def first_in_group(segments, class_name):
    """The number of the first segment of a class in DGROUP, or None."""
    return next((
        number for number, each in enumerate(segments)
        if each.class_name == class_name and each.in_group), None)


def made(name, class_name):
    """One more segment of DGROUP, which combines with none."""
    return Segment(name, class_name, "private", BYTE_ALIGNED, True, True)


def behind_class(segments, class_name):
    """The number that a segment gets right behind the first of a class."""
    return [each.class_name for each in segments].index(class_name) + 1


def class_behind(segments, class_name):
    """The class that comes next behind another one, or None."""
    classes = list(dict.fromkeys(each.class_name for each in segments))
    behind = classes[classes.index(class_name) + 1:]
    return behind[0] if behind else None


def ordering(modules, order, key):
    """The segments of the module, and its marks with the number of the segment of each.

    Without an order and without a mark there are neither. The mark of the end stands where class BSS
    ends: that is the begin of the stack, where this comes next and its first segment is in DGROUP.
    """
    segments = opening(modules)
    begin_marks = wanted_marks(modules, BEGIN_MARKS, key)
    end_marks = wanted_marks(modules, END_MARKS, key)
    if order == MEETING and not begin_marks + end_marks:
        return [], []
    if begin_marks + end_marks and first_in_group(segments, UNINITIALISED) is None:
        segments.append(made(BEGIN_NAME, UNINITIALISED))
        for each in segments:
            each.class_in_group |= each.class_name == UNINITIALISED
    segments = list(in_order(segments, order))
    begin, end = first_in_group(segments, UNINITIALISED), None
    if end_marks and class_behind(segments, UNINITIALISED) == STACK:
        first = [each.class_name for each in segments].index(STACK)
        end = first if segments[first].in_group else None
    if end_marks and end is None:
        end = behind_class(segments, UNINITIALISED)
        segments.insert(end, made(END_NAME, END_CLASS))
        begin = first_in_group(segments, UNINITIALISED)
    return segments, [
        *((mark, begin) for mark in begin_marks), *((mark, end) for mark in end_marks)]


def check_data(modules, marks, own):
    """Fault 62 is data between the marks, if both are wanted: who starts the program clears it.

    `own` is the order's module as it is read, which stands in front of the others.
    """
    begins = [number for mark, number in marks if mark in BEGIN_MARKS]
    ends = [number for mark, number in marks if mark in END_MARKS]
    if not begins or not ends:
        return
    all_modules = [own, *modules]
    combined = placement.in_order_of_classes(placement.combine(all_modules))
    placement.put_all(combined)
    parts = {(part.owner, part.index): part for each in combined for part in each.parts}
    begin, end = parts[0, begins[0] + 1].start, parts[0, ends[0] + 1].start
    for owner, each in enumerate(modules):
        for data in each.data:
            part = parts.get((owner + 1, data.segment))
            if part is not None and data.stored and begin < part.end and part.start < end:
                raise Fault(DATA_IN_BSS, owner, name=part.segment.name)


def made_records(segments, marks):
    """The records of the module; DGROUP has there the segments with marks alone."""
    codes = {alignment: code for code, alignment in ALIGNMENTS.items()}
    names = [GROUP, *(name for each in segments for name in (each.name, each.class_name))]
    marked = sorted({number for _, number in marks})
    return [
        records.Header(TITLE),
        *(records.NameList([name]) for name in names),
        *(records.SegmentDefinition(
            codes[each.alignment], COMBINATIONS[each.kind], len(each.content), 2 * number,
            2 * number + 1, 0)
            for number, each in enumerate(segments, 1)),
        *([records.GroupDefinition(1, [number + 1 for number in marked])] if marked else []),
        *(records.PublicNames(1, number + 1, None, [records.PublicName(mark, 0, 0)])
          for mark, number in marks),
        *(records.Data(number, 0, each.content)
          for number, each in enumerate(segments, 1) if each.content),
        records.ModuleEnd(False, None)]


def order_module(modules, order, has_null_bytes, key):
    """The bytes of the module, or None where there is nothing to fix or to define.

    The order of DOSSEG has null bytes in front of the code of LINK's name or not.
    """
    segments, marks = ordering(modules, order, key)
    if not segments:
        return None
    if len(segments) > MOST_PARTS:
        raise TooManyParts
    for each in segments:
        if order == DOSSEG and has_null_bytes and (each.name, each.kind) == (TEXT, "public"):
            each.content = NULL_BYTES
    content = b"".join(map(Spelling().record, made_records(segments, marks)))
    check_data(modules, marks, module.read(content, None))
    return content
