"""A stack that has as many bytes as are asked for.

It is the one that the registers of the program are those of: the first of kind stack, in the order
of classes. Parts of it are added by a module behind all others, or cut where they stand.
"""

from model import placement, records
from model.faults import Fault
from model.libraries import whole_frames
from model.ordering import GROUP, STACK
from model.records import Spelling

TITLE = b"stack"
TOO_LONG = 66
BYTE_ALIGNED, PARAGRAPH, IS_STACK = 1, 3, 5
SEGMENT = 0x98
# the bit of a SEGDEF's first byte with which a length of 0 is one of 65,536
IS_WHOLE = 0x02
# what goes before a record's body, and before the length in a SEGDEF that isn't absolute
FRONT, BEFORE_LENGTH = 3, 1


def stack_of(modules):
    """The combined segment that is the stack, or None."""
    found = placement.in_order_of_classes(placement.combine(modules))
    return next((each for each in found if each.kind == "stack"), None)


def length_of(stack):
    """How many bytes it has: but for the first its parts stand right behind each other."""
    return sum(part.segment.length for part in stack.parts)


def made_records(definition, names, group=()):
    return [
        records.Header(TITLE), records.NameList(names), definition, *group,
        records.ModuleEnd(False, None)]


def made(some):
    return b"".join(map(Spelling().record, some))


def segment(alignment, length, name, class_name):
    return records.SegmentDefinition(alignment, IS_STACK, length, name, class_name, 0)


def added_part(stack, length):
    """The module of a part that is added to a stack."""
    definition = segment(BYTE_ALIGNED, length, 1, 2)
    return made(made_records(definition, [stack.name, stack.class_name]))


def new_stack(modules, length):
    """The module of a stack where there is none; it is in DGROUP where that is a group."""
    has_group = any(group.name == GROUP for each in modules for group in each.groups)
    definition = segment(PARAGRAPH, length, 2, 2)
    group = [records.GroupDefinition(1, [1])] if has_group else []
    return made(made_records(definition, [GROUP, STACK], group))


def cut(stack, contents, length):
    """The bytes of modules whose parts of the stack keep, in order, what is left of a length."""
    contents = [bytearray(each) for each in contents]
    for part in stack.parts:
        if part.segment.length > length:
            shorten(contents[part.owner], part.index, length)
        length -= min(length, part.segment.length)
    return [bytes(each) for each in contents]


def shorten(content, index, length):
    """Gives a segment, by its index in its module, a length that is less than it has."""
    place = 0
    for frame in whole_frames(bytes(content)):
        index -= frame.kind == SEGMENT
        if index == 0:
            break
        place = frame.behind
    begin, behind = place + FRONT, frame.behind
    content[begin] &= ~IS_WHOLE
    at = begin + BEFORE_LENGTH
    content[at:at + 2] = length.to_bytes(2, "little")
    content[behind - 1] = -sum(content[place:behind - 1]) % 256


def with_length(modules, contents, asked):
    """The module that is added or None, and the bytes of the modules.

    Fault 66 is one that has more bytes than are asked for and may not be cut.
    """
    stack = stack_of(modules)
    if stack is None:
        return new_stack(modules, asked.length), contents
    length = length_of(stack)
    if length < asked.length:
        return added_part(stack, asked.length - length), contents
    if length > asked.length and not asked.cuts:
        fault = Fault(TOO_LONG)
        fault.why = f"more than {asked.length:,} bytes"
        raise fault
    return None, cut(stack, contents, asked.length)
