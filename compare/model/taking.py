"""The modules of a link as they are taken: each record as one that `omf` reads, or the first fault of one.

What a body is one of is told by showing.py, which reads records of any type, what has no saying in 16 bits by
lowering.py, and what a record may not say beside those before it by module.py.
"""

from itertools import repeat

from model import comdats, lowering, module, parsing, showing
from model.faults import Fault
from model.libraries import whole_frames

BODY, NO_END, NO_SAYING = 6, 8, 51
# the types that a link takes beside those that `omf` reads
MORE_TYPES = (
    0x82, 0x8B, 0x91, 0x95, 0x99, 0x9D, 0xA1, 0xA3, 0xB0, 0xB5, 0xB7, 0xB8, 0xBC, 0xC2, 0xC3, 0xC4, 0xC5, 0xC6, 0xCA)


def body_fault(kind, place, byte):
    """The fault of a body that is none of its type, at a byte of it."""
    return Fault(BODY, place=place, byte=byte) if kind in parsing.PARSERS else Fault(NO_SAYING, place=place)


def check_body(frame, place):
    """A body has to be one of its type, where a link takes records of that."""
    if frame.kind in parsing.PARSERS or frame.kind in MORE_TYPES:
        names = showing.Names()
        try:
            showing.read(names, frame.kind, frame.body)
        except parsing.Refused:
            at = showing.place_of_fault(names, frame.kind, frame.body)
            if showing.place_of_fault(names, frame.kind, frame.body, is_narrow=True) >= at:
                raise body_fault(frame.kind, place, at) from None


def front_of(content, keeps_debug, means, fates):
    """The bytes of a module as it is lowered, up to the first record that can't be, and that one's fault or None."""
    records, found, place = comdats.ComdatLowering(keeps_debug, means, fates), [], 0
    for frame in whole_frames(content):
        try:
            check_body(frame, place)
            linked = records.lower_all(frame.kind, frame.body)
        except Fault as fault:
            return b"".join(found), fault
        except lowering.Obstacle as obstacle:
            return b"".join(found), Fault(obstacle.number, place=place)
        is_same = linked == [(frame.kind, frame.body)]
        found += [content[place:frame.behind]] if is_same else [lowering.framed(kind, body) for kind, body in linked]
        place = frame.behind
    return b"".join([*found, content[place:]]), None


def taken(content, keeps_debug, means=lowering.itself, fates=()):
    """The bytes of a module as it is lowered, or the fault of its first record that has one, by its place."""
    linked, later = front_of(content, keeps_debug, means, fates)
    try:
        module.read(linked, None)
    except Fault as fault:
        # where the front ends there the record behind it is at fault
        if later is not None and fault.number == NO_END:
            raise later from None
        fault.place = lowering.own_place(content, linked, fault.place)
        if fault.number == BODY and content[fault.place] not in parsing.PARSERS:
            fault.number, fault.byte = NO_SAYING, None
        raise fault from None
    return linked


def taken_modules(contents, keeps_debug, means=repeat(lowering.itself), fates=repeat(())):
    """The bytes of modules so, or the first fault of the first that has one, with the module's number.

    Of each it is known what its names mean, and what becomes of its COMDAT records.
    """
    found = []
    for owner, (content, *own) in enumerate(zip(contents, means, fates)):
        try:
            found.append(taken(content, keeps_debug, *own))
        except Fault as fault:
            fault.owner = owner
            raise
    return found
