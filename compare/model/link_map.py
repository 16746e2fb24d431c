"""The map of a link in the form of LINK or of TLINK, which debuggers and disassemblers read."""

LINK, TLINK = "link", "tlink"
# the columns of a segment's name
NAME_WIDTH = {LINK: 22, TLINK: 18}
FRAME_REACH = 65_536
PARAGRAPH = 16


def map_of(program, form, line_numbers=(), details=()):
    """Its parts, each but the first behind an empty line of its own; the lines of what is asked for are given."""
    publics = listed_publics(program.layout)
    registers = program.registers
    lines = [b"", *lines_of_segments(program.layout, form)]
    if form == LINK:
        lines += [b"", b" Origin   Group", *lines_of_groups(program.layout)]
    lines += details
    lines += lines_of_publics(b"Name", sorted(publics, key=lambda each: each[3]))
    lines += lines_of_publics(b"Value", sorted(publics, key=lambda each: each[:2]))
    lines += line_numbers
    lines += [b"", b"Program entry point at %04X:%04X" % (registers.code, registers.instruction)]
    return b"".join(line + b"\n" for line in lines)


def lines_of_segments(layout, form):
    """Each combined segment, in order of address."""
    width = NAME_WIDTH[form]
    yield b" Start  Stop   Length " + b"Name".ljust(width) + b" Class"
    if form == TLINK:
        yield b""
    for each in layout.combined:
        length = each.end - each.start
        stop = each.end - 1 if length else each.start
        numbers = b" %05XH %05XH %05XH " % (each.start, stop, length)
        yield numbers + each.name.ljust(width) + b" " + each.class_name


def lines_of_groups(layout):
    """Those with members, in order of first meeting."""
    for name in layout.groups:
        frame = layout.group_frame(name)
        if frame is not None:
            yield b" %04X:0   %s" % (frame.value, name)


def listed_publics(layout):
    """The frame and the offset of each public, its mark and its name, in order of inputs and records."""
    return [listed(each.name, each.meaning) for each in layout.publics()]


def listed(name, meaning):
    """A public counts from its frame, or from its own paragraph where that doesn't reach it."""
    address = meaning.address.value
    frame = address // PARAGRAPH if meaning.frame is None else meaning.frame.value
    if not 0 <= address - PARAGRAPH * frame < FRAME_REACH:
        frame = address // PARAGRAPH
    mark = b"   " if meaning.address.is_relocatable else b"Abs"
    return frame, address - PARAGRAPH * frame, mark, name


def lines_of_publics(order, publics):
    """The publics, behind their heading."""
    yield from [b"", b"  Address         Publics by " + order, b""]
    for frame, offset, mark, name in publics:
        yield b" %04X:%04X  %s  %s" % (frame, offset, mark, name)
