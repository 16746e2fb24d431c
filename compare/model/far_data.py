"""Far data in one group, as `wlink` has it: all of it is reached by one frame, where it fits.

The group's members are segments that are in no group of their module. They keep their names and
combine as ever.
"""

from dataclasses import replace

from model import placement
from model.module import Group
from model.records import Direct, Method

FAR_DATA, GROUP = b"FAR_DATA", b"AUTO"
# the segments and groups that an index can mean
MOST_INDEXES = 32_767


def members(module):
    """The indexes of the segments that join the group."""
    grouped = {index for group in module.groups for index in group.segments}
    return [
        index for index, segment in enumerate(module.segments[:MOST_INDEXES], 1)
        if segment.class_name == FAR_DATA and not segment.is_absolute and index not in grouped]


def fits(modules):
    """Whether far data fits in one frame as it is placed.

    What stands in a group of its own takes room too, since it stands between the rest.
    """
    combined = placement.in_order_of_classes(placement.combine(modules))
    placement.put_all(combined)
    far = [each for each in combined if each.class_name == FAR_DATA]
    first = min((each.frame for each in far), default=0)
    reach = max((each.end for each in far), default=0) - 16 * first
    return reach <= placement.FRAME_REACH


def put_in_group(module):
    """Makes a group of the far data of a module, and counts what counted from a member from it.

    A module that has no index left for the group stays as it is.
    """
    joined = members(module)
    if not joined or len(module.groups) >= MOST_INDEXES:
        return
    module.groups.append(Group(GROUP, joined))
    group, joined = len(module.groups), set(joined)
    for public in module.publics:
        if public.segment in joined and public.group == 0:
            public.group = group
    for data in module.data:
        for fixup in data.fixups:
            fixup.reference = counted(fixup.reference, data.segment, joined, group)
    if module.start is not None:
        module.start.reference = counted(module.start.reference, None, joined, group)


def counted(reference, here, joined, group):
    """A reference whose frame is the group's where it was a member's, with the location here."""
    frame = reference.frame
    by = {
        Method.LOCATION: Direct(Method.SEGMENT, here), Method.TARGET: reference.target,
    }.get(frame.method, frame)
    is_member = by.method == Method.SEGMENT and by.index in joined
    return replace(reference, frame=Direct(Method.GROUP, group)) if is_member else reference
