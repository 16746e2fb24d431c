"""The line numbers of a program, as maps of LINK and TLINK list them behind the publics."""

from dataclasses import dataclass

from model import link_map, parsing, placement, records

LINES_IN_A_ROW = 4


@dataclass
class Base:
    """What a public has whose place is that of a line."""

    group: int
    segment: int
    offset: int


def paragraphs(program, words, contents):
    """Of each module in order, the lines of each of its segments that has some, in order of segments."""
    for owner, (word, content) in enumerate(zip(words, contents)):
        for segment in range(1, len(program.modules[owner].segments) + 1):
            lines = list(lines_of(program, owner, segment, content))
            if lines:
                yield from paragraph(program, owner, segment, (word, content), lines)


def paragraph(program, owner, segment, source, lines):
    """The lines of a segment behind their heading, four in a row."""
    word, content = source
    name = program.modules[owner].segments[segment - 1].name
    yield b""
    yield b"Line numbers for %s(%s) segment %s" % (word.encode(), title_of(content), name)
    yield b""
    for first in range(0, len(lines), LINES_IN_A_ROW):
        yield b"".join(b"%6d %04X:%04X" % line for line in lines[first:first + LINES_IN_A_ROW])


def said_by(content):
    """What the records of a module say."""
    return [read.record for read in parsing.read_records(content, None)]


def title_of(content):
    """The name in the record that heads a module; empty where another one does."""
    first = said_by(content)[0]
    return first.name if isinstance(first, records.Header) else b""


def lines_of(program, owner, segment, content):
    """The lines of a segment in order of records: each number, and the frame and the offset of its code.

    These are those of a public with the same group, segment and offset. A group that the module hasn't is none.
    """
    groups = program.modules[owner].groups
    for record in said_by(content):
        if isinstance(record, records.LineNumbers) and record.segment == segment:
            group = record.group if record.group <= len(groups) else 0
            for number, offset in record.lines:
                base = Base(group, segment, offset)
                meaning = placement.meaning_of_public(program.modules, program.layout, owner, base)
                frame, offset, *_ = link_map.listed(b"", meaning)
                yield number, frame, offset
