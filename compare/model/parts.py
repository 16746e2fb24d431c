"""The modules' parts of segments, as the detailed map of TLINK lists them in front of the publics."""

from model import line_numbers, link_map, placement, records
from model.libraries import whole_frames

SEGDEFS = (0x98, 0x99)
NO_GROUP = b"(none)"


def lines_of(program, contents, given):
    """Each SEGDEF of each module, in order of address, behind a heading; those of one address in order of modules.

    Attributes are those of the modules as they are given.
    """
    yield from [b"", b" Detailed map of segments", b""]
    parts = [
        part for owner, (content, own) in enumerate(zip(contents, given))
        for part in parts_of(program, owner, content, own)]
    for _, row in sorted(parts, key=lambda each: each[0]):
        yield row


def parts_of(program, owner, content, given):
    """The address of each part of a module, and its row: its place is that of a public at its start."""
    module = program.modules[owner]
    definitions = [each for each in line_numbers.said_by(content) if isinstance(each, records.SegmentDefinition)]
    attributes = [frame.body[0] for frame in whole_frames(given) if frame.kind in SEGDEFS]
    attributes += map(attributes_of, definitions[len(attributes):])
    for index, (segment, first) in enumerate(zip(module.segments, attributes), start=1):
        group = group_of(module, index)
        base = line_numbers.Base(group, index, 0)
        meaning = placement.meaning_of_public(program.modules, program.layout, owner, base)
        frame, offset, *_ = link_map.listed(b"", meaning)
        names = b"C=%-6s S=%-14s G=%-7s M=%-9s" % (
            segment.class_name, segment.name, module.groups[group - 1].name if group else NO_GROUP,
            line_numbers.title_of(content))
        row = b" %04X:%04X %04X %s ACBP=%02X" % (frame, offset, segment.length, names, first)
        yield meaning.address.value, row


def group_of(module, segment):
    """The index of the module's first group that has a segment; 0 where none has."""
    return next((index for index, each in enumerate(module.groups, start=1) if segment in each.segments), 0)


def attributes_of(said):
    """The byte A, C, B, P of a SEGDEF of 16 bits."""
    return said.alignment << 5 | said.combination << 2 | (said.length == records.WHOLE_SEGMENT) << 1
