"""Answers that were written out by hand, from the rules alone: the model must give these bytes.

They are what the rules say of names that are local or agree but for case, of repeated data, of how
long a program's file is, and of bodies.
"""

from model import commands, records
from model.records import (
    Block, Direct, Fixup, Location, Method, PublicName, Reference, Spelling)


def header(words):
    """A program's header: the words behind the magic, the table's place and no overlay."""
    return "4D5A" + words + "1C000000"


# a program's header asks for all memory, where no less is said, and has no checksum
MOST = "FFFF"
NO_REGISTERS = "0000 0000 0000 0000 0000"
NO_TABLE = "00000000"

NEAR_CALL = [
    records.Data(1, 0, bytes.fromhex("E80000")),
    records.FixupRecord([Fixup(
        False, Location.OFFSET, 1,
        Reference(Direct(Method.TARGET), Direct(Method.EXTERNAL, 1), None))])]


def to_segment(index, displacement=None):
    """A reference to a segment in its own frame."""
    direct = Direct(Method.SEGMENT, index)
    return Reference(direct, direct, displacement)


def of(*body, length=17, start=None, main=False):
    """A module with a segment CODE of a length."""
    segment = records.SegmentDefinition(1, 2, length, 2, 1, 1)
    names = records.NameList([b"", b"CODE"])
    return [records.Header(b"A"), names, segment, *body, records.ModuleEnd(main, start)]


def externals(name, kind=records.ExternalNames):
    return kind([name], [0])


def publics(*entries, kind=records.PublicNames):
    return kind(0, 1, None, [PublicName(name, offset, 0) for name, offset in entries])


LOCAL = of(
    externals(b"x", records.LocalExternalNames),
    publics((b"x", 16), kind=records.LocalPublicNames), *NEAR_CALL)
CALLING = of(externals(b"x"), publics((b"x", 16)), *NEAR_CALL)
CALLING_CAPITAL = of(externals(b"x"), publics((b"X", 16)), *NEAR_CALL)
OF_ANOTHER = of(
    externals(b"x"), publics((b"x", 16), kind=records.LocalPublicNames), *NEAR_CALL)
WITH_BASE = of(
    records.Data(1, 0, bytes.fromhex("B800008ED8")),
    records.FixupRecord([Fixup(True, Location.BASE, 1, to_segment(1))]),
    length=5, main=True, start=to_segment(1, 0))
ACROSS_A_SEGMENT = of(
    records.SegmentDefinition(1, 2, 4, 1, 1, 1), records.Data(2, 1, bytes(2)),
    records.FixupRecord([Fixup(True, Location.BASE, 0, to_segment(2))]),
    length=65_534)
THREE_BASES = of(
    records.RepeatedData(1, 0, [Block(3, bytes(2))]),
    records.FixupRecord([Fixup(True, Location.BASE, 5, to_segment(1))]), length=6)
OVER_TWO_CONTENTS = of(
    records.RepeatedData(1, 0, [Block(3, bytes(2))]),
    records.FixupRecord([Fixup(True, Location.BASE, 4, to_segment(1))]), length=6)
STACK = of(records.SegmentDefinition(3, 5, 256, 1, 2, 1), length=5)
WHOLE_STACK = of(records.SegmentDefinition(3, 5, records.WHOLE_SEGMENT, 2, 1, 1), length=0)
ZEROS = of(records.Data(1, 0, b"\x41"), records.Data(1, 4, bytes(2)), records.Data(1, 17, b""))

# of near calls: last page, pages, no relocations, header paragraphs, least extra
CALL = header("2300 0100 0000 0200 0200" + MOST + NO_REGISTERS) + NO_TABLE + "E80D00"
TWO_CALLS = (
    header("3400 0100 0000 0200 0200" + MOST + NO_REGISTERS) + NO_TABLE
    + "E80D00" + "00" * 14 + "E80D00")
TWO_LOCAL = of(publics((b"x", 0), (b"x", 1), kind=records.LocalPublicNames))
TWO_LOCAL_CASES = of(
    publics((b"x", 0), kind=records.LocalPublicNames),
    publics((b"X", 1), kind=records.LocalPublicNames))
TWO_CASES = of(publics((b"x", 0), (b"X", 1)))

# title, modules, whether case is ignored, and the file, or the fault's line
LINKS = [
    ("no segments", [[records.Header(b"A"), records.ModuleEnd(False, None)]], False,
     header("2000 0100 0000 0200 0000" + MOST + NO_REGISTERS) + NO_TABLE),
    ("a base", [WITH_BASE], False,
     header("2500 0100 0100 0200 0100" + MOST + NO_REGISTERS) + "01000000" + "B800008ED8"),
    ("a call", [CALLING], False, CALL),
    ("a stack, and no data", [STACK], False,
     header("2000 0100 0000 0200 1100" + MOST + "0100 0001 0000 0000 0000") + NO_TABLE),
    ("a stack of a whole segment", [WHOLE_STACK], False,
     header("2000 0100 0000 0200 0010" + MOST + NO_REGISTERS) + NO_TABLE),
    ("bytes 00 that data covers", [ZEROS], False,
     header("2600 0100 0000 0200 0200" + MOST + NO_REGISTERS) + NO_TABLE + "410000000000"),
    ("a base across segments", [ACROSS_A_SEGMENT], False,
     header("2100 8100 0100 0200 0100" + MOST + NO_REGISTERS) + "0F00FF0F" + "00" * 65_535
     + "FF0F"),
    ("repeated bases", [THREE_BASES], False,
     header("3600 0100 0300 0300 0100" + MOST + NO_REGISTERS) + "00000000 02000000 04000000"
     + "00" * 8 + "00" * 6),
    ("a word over two contents", [OVER_TWO_CONTENTS], False,
     "omf: 0: 16 FixupPlace at record 40\n"),
    ("a local name", [LOCAL], False, CALL),
    ("a local name of each module", [LOCAL, LOCAL], False, TWO_CALLS),
    ("a local public that another external wants", [LOCAL, OF_ANOTHER], False,
     "omf: 1: 27 Unresolved at record 54\n"),
    ("a local name and a public", [LOCAL, CALLING], False, TWO_CALLS),
    ("a public and a local name", [CALLING, LOCAL], False, TWO_CALLS),
    ("a local external and a public", [of(
        externals(b"x", records.LocalExternalNames), publics((b"x", 16)), *NEAR_CALL)], False,
     "omf: 0: 27 Unresolved at record 54\n"),
    ("a local name twice in a module", [TWO_LOCAL], False,
     'omf: link: 25 DuplicatePublic "x"\n'),
    ("a local name twice but for case", [TWO_LOCAL_CASES], True,
     'omf: link: 25 DuplicatePublic "X"\n'),
    ("a capital", [CALLING_CAPITAL], False, "omf: 0: 27 Unresolved at record 54\n"),
    ("a capital, without regard to case", [CALLING_CAPITAL], True, CALL),
    ("two names that differ by case", [TWO_CASES], False,
     header("2000 0100 0000 0200 0200" + MOST + NO_REGISTERS) + NO_TABLE),
    ("two names that agree", [TWO_CASES], True, 'omf: link: 25 DuplicatePublic "X"\n'),
    ("letters beyond ASCII", [of(publics((b"\xE9", 0), (b"\xC9", 1)))], True,
     header("2000 0100 0000 0200 0200" + MOST + NO_REGISTERS) + NO_TABLE),
    ("bytes beside the letters", [of(publics((b"@", 0), (b"`", 1), (b"[", 2), (b"{", 3)))], True,
     header("2000 0100 0000 0200 0200" + MOST + NO_REGISTERS) + NO_TABLE),
]

# title, modules, whether case is ignored, and the lines of the map that tell the publics
MAPS = [
    ("a public", [CALLING_CAPITAL], True, ['000010 R "X"']),
    ("a local public", [LOCAL, LOCAL], False, []),
]

WITH_STACK = (
    header("2000 0100 0000 0200 1100" + MOST + "0100 0001 0000 0000 0000") + NO_TABLE)

# title, file, paragraph, and the listing or the fault's line
LOADS = [
    ("a base", header("2500 0100 0100 0200 0100" + MOST + NO_REGISTERS) + "01000000" + "B800008ED8",
     0x1234, "CS:IP 1234:0000 SS:SP 1234:0000\n12340 B834128ED8\n"),
    ("the last paragraph for a stack", WITH_STACK, 0xFFEF, "CS:IP FFEF:0000 SS:SP FFF0:0100\n"),
    ("a paragraph too high for a stack", WITH_STACK, 0xFFF0, "omf: 0: 39 DoesNotFit\n"),
    ("another linker's, with room",
     header("2100 0100 0000 0200 EFFF 0000" + NO_REGISTERS) + NO_TABLE + "41", 0x11,
     "CS:IP 0011:0000 SS:SP 0011:0000\n00110 41\n"),
    ("another linker's, one paragraph too long",
     header("2100 0100 0000 0200 F0FF 0000" + NO_REGISTERS) + NO_TABLE + "41", 0x11,
     "omf: 0: 39 DoesNotFit\n"),
    ("an image that is longer than its room",
     header("2100 0100 0000 0200 0000 0000" + NO_REGISTERS) + NO_TABLE + "41", 0xFFFF,
     "CS:IP FFFF:0000 SS:SP FFFF:0000\nFFFF0 41\n"),
    ("another magic", "5A4D" + "00" * 30, 0, "omf: 0: 35 Magic\n"),
    ("no header", header("2000 0100 0000 0100 0000 0000" + NO_REGISTERS) + NO_TABLE, 0,
     "omf: 0: 36 Header\n"),
    ("a byte too few", header("2200 0100 0000 0200 0000 0000" + NO_REGISTERS) + NO_TABLE + "41", 0,
     "omf: 0: 37 Truncated\n"),
    ("an entry outside",
     header("2500 0100 0100 0200 0000 0000" + NO_REGISTERS) + "04000000" + "B800008ED8", 0,
     "omf: 0: 38 RelocationOutside\n"),
]

# title, a record in hexadecimal, and its lines, or where in the body its fault 6 is
BODIES = [
    ("a name", "80 0300 0141 3B", ['name "A"']),
    ("a closing byte 0", "80 0300 0141 00", ['name "A"']),
    ("a name that is cut", "80 0300 0241 00", 2),
    ("a byte too many", "80 0400 014142 00", 2),
    ("an index of two bytes", "9A 0300 8001 00", ["group 1"]),
    ("half an index", "9A 0200 80 00", 1),
    ("a component of another kind", "9A 0400 01FE01 00", 1),
    ("alignment 6", "98 0700 C80000010203 00", 0),
    ("a whole segment", "98 0700 620000010203 00",
     ["align 3 combine 0 length 65536 name 1 class 2 overlay 3"]),
    ("a whole segment's length, low byte", "98 0700 620100010203 00", 1),
    ("a whole segment's length, high byte", "98 0700 620001010203 00", 2),
    ("an absolute segment", "98 0A00 00 00B805 1000 010203 00",
     ["align 0 combine 0 length 16 name 1 class 2 overlay 3 frame B800 offset 05"]),
    ("frame method 3", "9C 0500 C4003402 00", 2),
    ("a fix-up", "9C 0500 C5035401 00",
     ["fixup at 103 segment location 1 frame method 5 target method 0 index 1"]),
]


def linked(links, ignores_case):
    """The answer to linking some modules' records, where a file's name is its number."""
    inputs = [
        (str(number), b"".join(map(Spelling().record, made)))
        for number, made in enumerate(links)]
    out, map_file = commands.Output("out"), commands.Output("map")
    answer, _ = commands.link(inputs, ignores_case, out, map_file)
    return answer


def expected(text):
    """A fault's line, or the bytes that hexadecimal digits say."""
    return text.encode() if text.startswith("omf:") else bytes.fromhex(text)


def shown(digits):
    """The lines of a record behind its head line, or the place of its fault 6."""
    answer = commands.show("0", bytes.fromhex(digits))
    if b": 6 Body" in answer.error:
        return int(answer.error.split()[-1])
    return [line.strip() for line in answer.output.decode().splitlines()[1:]]


def check():
    """Raises an AssertionError where the model gives another answer."""
    for title, links, ignores_case, wanted in LINKS:
        answer = linked(links, ignores_case)
        assert (answer.error or answer.files["out"]) == expected(wanted), title
    for title, links, ignores_case, wanted in MAPS:
        lines = linked(links, ignores_case).files["map"].decode().split("\n")
        publics_of_map = lines[lines.index("publics") + 1:lines.index("entry 0000:0000")]
        assert publics_of_map == wanted, title
    for title, digits, paragraph, wanted in LOADS:
        answer = commands.load("0", bytes.fromhex(digits), paragraph)
        assert (answer.error or answer.output) == wanted.encode(), title
    for title, digits, wanted in BODIES:
        assert shown(digits) == wanted, title
