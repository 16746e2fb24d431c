"""What is printed: of records, of a program that is loaded, and the map of a link."""

from model.faults import printed_name
from model.module import expanded_length
from model.records import (
    ByThread, Comment, Data, ExternalNames, Fixup, FixupRecord, GroupDefinition, Header,
    LineNumbers, LocalExternalNames, LocalPublicNames, ModuleEnd, NameList, PublicNames,
    RepeatedData, SegmentDefinition)

# lengths above are printed as this one behind a sign
LONGEST_EXPANDED = 65536
BYTES_OF_LINE = 16


def lines_of_text(lines):
    """Lines with their ends, as bytes."""
    return "".join(f"{line}\n" for line in lines).encode()


def show(read):
    """The lines of a record: what it is, and what it says."""
    record = read.record
    head = f"{read.place:08X} {record.TYPE:02X} {record.NAME:7} {read.length:5}"
    return lines_of_text([head, *(f"  {line}" for line in LINES[type(record)](record))])


def lines_of_header(record):
    yield f"name {printed_name(record.name)}"


def lines_of_comment(record):
    content = record.content.hex().upper() or "-"
    yield f"comment {record.type_byte:02X} {record.class_byte:02X} {content}"


def lines_of_names(record):
    for name in record.names:
        yield f"name {printed_name(name)}"


def lines_of_segment(record):
    line = f"align {record.alignment} combine {record.combination} length {record.length}"
    line += f" name {record.name} class {record.class_name} overlay {record.overlay}"
    if record.frame is not None:
        line += f" frame {record.frame:04X} offset {record.offset:02X}"
    yield line


def lines_of_group(record):
    yield f"group {record.name}"
    for segment in record.segments:
        yield f"segment {segment}"


def lines_of_externals(record):
    local = "local " if record.IS_LOCAL else ""
    for name, type_index in zip(record.names, record.types):
        yield f"{local}external {printed_name(name)} type {type_index}"


def line_of_base(record):
    return f"base group {record.group} segment {record.segment}"


def lines_of_publics(record):
    frame = "" if record.frame is None else f" frame {record.frame:04X}"
    yield line_of_base(record) + frame
    local = "local " if record.IS_LOCAL else ""
    for public in record.publics:
        name = printed_name(public.name)
        yield f"{local}public {name} offset {public.offset:04X} type {public.type}"


def lines_of_line_numbers(record):
    yield line_of_base(record)
    for line, offset in record.lines:
        yield f"line {line} offset {offset:04X}"


def lines_of_data(record):
    offset = f"{record.offset:04X}"
    yield f"data segment {record.segment} offset {offset} bytes {len(record.content)}"


def lines_of_repeated_data(record):
    """Of a great expansion only that it is greater than any segment."""
    length = expanded_length(record.blocks)
    expanded = f">{LONGEST_EXPANDED}" if length > LONGEST_EXPANDED else str(length)
    blocks = f"blocks {len(record.blocks)} expanded {expanded}"
    yield f"data segment {record.segment} offset {record.offset:04X} {blocks}"


def side(kind, meaning):
    """A frame or a target."""
    if isinstance(meaning, ByThread):
        return f"{kind} thread {meaning.number}"
    return f"{kind} {method_and_index(meaning)}"


def method_and_index(direct):
    index = f" index {direct.index}" if direct.method.has_index else ""
    return f"method {int(direct.method)}{index}"


def reference(said):
    line = f"{side('frame', said.frame)} {side('target', said.target)}"
    return line if said.displacement is None else f"{line} displacement {said.displacement:04X}"


def lines_of_fixups(record):
    for subrecord in record.subrecords:
        if isinstance(subrecord, Fixup):
            mode = "segment" if subrecord.segment_relative else "self"
            where = f"{subrecord.offset:03X} {mode} location {int(subrecord.location)}"
            yield f"fixup at {where} {reference(subrecord.reference)}"
        else:
            kind = "frame" if subrecord.of_frame else "target"
            yield f"thread {kind} {subrecord.number} {method_and_index(subrecord.meaning)}"


def lines_of_end(record):
    start = "0" if record.start is None else f"1 {reference(record.start)}"
    yield f"main {int(record.main)} start {start}"


LINES = {
    Header: lines_of_header, Comment: lines_of_comment, NameList: lines_of_names,
    SegmentDefinition: lines_of_segment, GroupDefinition: lines_of_group,
    ExternalNames: lines_of_externals, LocalExternalNames: lines_of_externals,
    PublicNames: lines_of_publics, LocalPublicNames: lines_of_publics,
    LineNumbers: lines_of_line_numbers, Data: lines_of_data,
    RepeatedData: lines_of_repeated_data, FixupRecord: lines_of_fixups, ModuleEnd: lines_of_end,
}


def listing(loaded):
    """A program in memory: its registers, and the bytes of its image."""
    registers, image = loaded.registers, loaded.image
    entry = f"{registers.code:04X}:{registers.instruction:04X}"
    lines = [f"CS:IP {entry} SS:SP {registers.stack:04X}:{registers.stack_pointer:04X}"]
    for place in range(0, len(image), BYTES_OF_LINE):
        address = 16 * loaded.paragraph + place
        lines.append(f"{address:05X} {image[place:place + BYTES_OF_LINE].hex().upper()}")
    return lines_of_text(lines)


def map_of(program):
    """The map of a link."""
    registers = program.registers
    lines = ["segments", *map_of_segments(program)]
    lines += ["groups", *map_of_groups(program.layout)]
    lines += ["publics", *map_of_publics(program.layout)]
    lines.append(f"entry {registers.code:04X}:{registers.instruction:04X}")
    lines.append(f"stack {registers.stack:04X}:{registers.stack_pointer:04X}")
    lines.append(f"size {program.layout.size:06X}")
    lines.append(f"relocations {len(program.relocations)}")
    return lines_of_text(lines)


def map_of_segments(program):
    """Combined segments in their order, then absolute ones in order of inputs and records."""
    rows = [(each.start, each.end - each.start, each) for each in program.layout.combined]
    for module in program.modules:
        for segment in module.segments:
            if segment.is_absolute:
                rows.append((16 * segment.frame + segment.offset, segment.length, segment))
    for start, length, row in rows:
        names = f"{printed_name(row.name)} {printed_name(row.class_name)}"
        yield f"{start:06X} {length:06X} {row.kind:8} {names}"


def map_of_groups(layout):
    """The groups in order of first meeting."""
    for name in layout.groups:
        frame = layout.group_frame(name)
        yield f"{'----' if frame is None else format(frame.value, '04X')} {printed_name(name)}"


def map_of_publics(layout):
    """The publics in order of inputs and records."""
    for public in layout.publics():
        address = public.meaning.address
        kind = "R" if address.is_relocatable else "A"
        yield f"{address.value:06X} {kind} {printed_name(public.name)}"
