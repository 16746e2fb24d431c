"""Answers of `doslink` that were written out by hand, from the rules alone.

The model must give them. They are what the rules say of libraries, of the names of a module, of
what is taken for them, of the module that fixes an order, of modules that are lowered, of COMDATs, of communal
variables, also local ones, of aliases, of weak and lazy externals, and of directives.
"""

import functools

from model import (
    aliases, comdats, communal, directives, far_data, image, libraries, line_jobs, link_map, linking,
    local, lowering, module, names, ordering, records, search, taking, weak)
from model.directives import Form, Input, Job, Stack
from model.faults import Fault
from model.names import Names
from model.ordering import Class, Named
from model.places import DosFiles, PlacedFiles, UnlistedFiles
from model.records import Direct, Method, PublicName, Spelling
from worked import MOST, NEAR_CALL, NO_REGISTERS, NO_TABLE, header

# modules of a header and an end, and their bytes
A, B = "80 0300 0141 3B  8A 0200 00 74", "80 0300 0142 00  8A 0200 00 00"
# a module that its librarian calls LM
NAMED = "80 0300 0141 3B  88 0600 00A3 02 4C4D 00  8A 0200 00 74"
# a library's own record of a page of 16 bytes, and one of 32
PAGE_16, PAGE_32 = "F0 0D00" + "AA" * 13, "F0 1D00" + "AA" * 29

# title, a .LIB, and the place, length and name of each member, or the fault and its place
LIBRARIES = [
    ("no members", PAGE_16 + "F1", []),
    ("one", PAGE_16 + A + "AA" * 5 + "F1", [(16, 11, b"A")]),
    ("what stands behind the end isn't read", PAGE_16 + A + "00" * 5 + "F1 0500 8A0200",
     [(16, 11, b"A")]),
    ("two", PAGE_16 + A + "AA" * 5 + B + "AA" * 5 + "F1", [(16, 11, b"A"), (32, 11, b"B")]),
    ("a librarian's name without its length",
     PAGE_16 + "88 0500 00A3 4C4D 00  8A 0200 00 74" + "AA" * 3 + "F1", [(16, 13, b"LM")]),
    ("a header that is cut", PAGE_16 + "80 0300 0241 00  8A 0200 00 74" + "AA" * 5 + "F1",
     [(16, 11, b"")]),
    ("two in larger pages", PAGE_32 + A + "AA" * 21 + B + "AA" * 21 + "F1",
     [(32, 11, b"A"), (64, 11, b"B")]),
    ("a member of more than a page", PAGE_16 + NAMED + "AA" * 12 + "F1", [(16, 20, b"LM")]),
    ("a member that ends with its page", PAGE_16 + "88 0800 0000" + "00" * 6 + "8A 0200 00 74"
     + "F1", [(16, 16, b"")]),
    ("an end by the other type", PAGE_16 + "80 0300 0141 3B  8B 0200 00 00" + "AA" * 5 + "F1",
     [(16, 11, b"A")]),
    ("a type of no record", PAGE_16 + "00 0300 0141 00  8A 0200 00 74" + "AA" * 5 + "F1",
     [(16, 11, b"")]),
    ("an end inside a member is none", PAGE_16 + "F0 0300 0141 00  F1 0200 00 00  8A 0200 00 00"
     + "F1", [(16, 16, b"")]),
    ("a page of 8", "F0 0500" + "AA" * 5 + "F1", (42, 0)),
    ("a page of 17", "F0 0E00" + "AA" * 14 + "F1", (42, 0)),
    ("a page of 48", "F0 2D00" + "AA" * 45 + "F1", (42, 0)),
    ("a page of 32,768", "F0 FD7F" + "AA" * 32_765 + "F1", []),
    ("a page of 65,536", "F0 FDFF" + "AA" * 65_533 + "F1", (42, 0)),
    ("a page of 3", "F0 0000 F1", (42, 0)),
    ("no length", "F0 0D", (44, 0)),
    ("no end", PAGE_16, (44, 16)),
    ("no end behind a member", PAGE_16 + A, (44, 32)),
    ("a front that is cut", PAGE_16 + "80 03", (44, 16)),
    ("a record that is cut", PAGE_16 + "80 0300 0141 3B  8A 0200 00", (44, 22)),
    ("a length 0", PAGE_16 + "80 0300 0141 3B  88 0000", (43, 22)),
    ("a closing byte", PAGE_16 + "80 0300 0141 3C", (45, 16)),
    ("a record that is cut and whose closing byte is wrong", PAGE_16 + "80 0400 0141 3C", (44, 16)),
    ("a member that ends before its end", PAGE_16 + "80 0300 0141 3B  F1 0200 00 00", (44, 27)),
]


def member(name, size, content):
    """A header of an archive's member, and its content."""
    fields = f"{name:16}{0:<12}{0:<6}{0:<6}{644:<8}{size:<10}"
    return fields.encode() + b"`\n" + content


MAGIC = b"!<arch>\n"
A_BYTES = bytes.fromhex(A)
LONG = b"a_long_name_of_one.o/\nanother.o/\n"

# title, an archive, and as above
ARCHIVES = [
    ("no members", MAGIC, []),
    ("a module in the place of a library", A_BYTES, [(0, 11, b"")]),
    ("another line end", MAGIC[:-1] + b"\r\n", [(0, 9, b"")]),
    ("one of an odd length", MAGIC + member("a.o/", 11, A_BYTES), [(68, 11, b"a.o")]),
    ("two", MAGIC + member("a.o/", 11, A_BYTES + b"\n") + member("b.o", 11, A_BYTES),
     [(68, 11, b"a.o"), (140, 11, b"b.o")]),
    ("tables", MAGIC + member("/", 4, bytes(4)) + member("__.SYMDEF", 2, bytes(2))
     + member("__.SYMDEF SORTED", 2, bytes(2)) + member("a.o/", 11, A_BYTES),
     [(256, 11, b"a.o")]),
    ("long names", MAGIC + member("//", 33, LONG + b"\n") + member("/0", 11, A_BYTES + b"\n")
     + member("/22", 11, A_BYTES),
     [(162, 11, b"a_long_name_of_one.o"), (234, 11, b"another.o")]),
    ("nothing in a member", MAGIC + member("a.o/", 0, b""), [(68, 0, b"a.o")]),
    ("what is no module", MAGIC + member("a.o/", 2, b"\xFF\xFF"), [(68, 2, b"a.o")]),
    ("a header that is cut", MAGIC + member("a.o/", 0, b"")[:-1], (46, 8)),
    ("a name that is no place of a long one", MAGIC + member("/9/", 0, b"") + member("/9", 0, b""),
     [(68, 0, b"/9/"), (128, 0, b"/9")]),
    ("another end of a header", MAGIC + member("a.o/", 0, b"")[:-1] + b"\r", (46, 8)),
    ("a size of no digits", MAGIC + member("a.o/", " ", b""), (46, 8)),
    ("a size that isn't decimal", MAGIC + member("a.o/", "1F", bytes(31)), (46, 8)),
    ("a digit behind a space", MAGIC + member("a.o/", "1 1", bytes(11)), (46, 8)),
    ("a header at an odd place", MAGIC + member("a.o/", 11, A_BYTES) + member("b.o/", 0, b""),
     (46, 80)),
    ("a member that is too long", MAGIC + member("a.o/", 12, A_BYTES), (47, 8)),
    ("a second that is too long", MAGIC + member("a.o/", 11, A_BYTES + b"\n")
     + member("b.o/", 12, A_BYTES), (47, 80)),
]

# title, bodies of records as type and hexadecimal, and the names that they want and offer
NAMES = [
    ("externals", [(0x8C, "0161 00 0162 8001")], "a b", ""),
    ("externals that are cut", [(0x8C, "0161 00 0262")], "a", ""),
    ("an external without a type", [(0x8C, "0161 00 0162")], "a", ""),
    ("publics", [(0x90, "00 01 0161 0000 00 0162 0500 00")], "", "a b"),
    ("publics of a frame", [(0x90, "00 00 00B8 0161 0000 00")], "", "a"),
    ("publics by indexes of two bytes", [(0x90, "8000 8001 0161 0000 8000")], "", "a"),
    ("32-bit publics", [(0x91, "00 01 0161 00000000 00")], "", "a"),
    ("16-bit publics of a 32-bit type", [(0x91, "00 01 0161 0000 00")], "", ""),
    ("communal externals", [(0x96, "00 0161 0162"), (0xBC, "03 00 02 00 00 00 04 00")], "b a", ""),
    ("local names beside others", [(0xCA, "0161"), (0x96, "0162"), (0xBC, "01 00 02 00")], "a b",
     ""),
    ("a name that is listed later", [(0xBC, "01 00"), (0x96, "0161")], "", ""),
    ("an alias", [(0xC6, "0161 0162 0163")], "", "a"),
    ("a communal variable", [(0xB0, "0161 00 62 02 0162 00 61 01 81 00")], "", ""),
    ("data of a COMDAT", [(0x96, "0161"), (0xC2, "00 00 00 0000 00 00 01 01 FFFF")], "", "a"),
    ("a COMDAT of a frame", [(0x96, "0161"), (0xC2, "00 00 00 0000 00 00 00 00B8 01")], "", "a"),
    ("a COMDAT of no base", [(0x96, "0161"), (0xC2, "00 11 00 0000 00 01 05 05")], "", "a"),
    ("a 32-bit COMDAT", [(0x96, "0161"), (0xC3, "00 11 00 00000000 00 01")], "", "a"),
    ("a local COMDAT", [(0x96, "0161"), (0xC2, "04 11 00 0000 00 01")], "", ""),
    ("what no other module sees", [
        (0xB0, "0161 00 62 02"), (0xB4, "0161 00"), (0xB5, "0161 00"), (0xB6, "00 01 0161 0000 00"),
        (0xB7, "00 01 0161 00000000 00"), (0xB8, "0161 00 62 02")], "", ""),
    ("behind the end", [(0x8A, "00"), (0x8C, "0161 00")], "", ""),
    ("behind the other end", [(0x8B, "00"), (0x8C, "0161 00")], "", ""),
]

# title, bodies of records, a name, and where the records begin that want it
WANTED_AT = [
    ("two externals", [(0x8C, "0161 00"), (0x8C, "0162 00 0161 00"), (0x8C, "0162 00")], "a",
     [0, 7]),
    ("behind a header", [(0x80, "0161"), (0x8C, "0161 00")], "a", [6]),
    ("a name that is listed", [(0x96, "0161 0162"), (0xBC, "01 00"), (0xBC, "02 00")], "b", [14]),
    ("one that is listed too late", [(0xBC, "01 00"), (0x96, "0161"), (0xBC, "01 00")], "a", [12]),
    ("an alias", [(0xC6, "0161 0162"), (0xC6, "0162 0161")], "b", [0]),
    ("communal and local names", [(0xB0, "0161 00 62 02"), (0xB4, "0161 00")], "a", []),
    ("behind the end", [(0x8A, "00"), (0x8C, "0161 00")], "a", []),
]

# title, modules and libraries of modules as names wanted and offered, whether case is ignored, and
# the library and member that are taken, the name, and the module that wants it
SEARCHES = [
    ("nothing wanted", ["-a"], [["-b"]], False, []),
    ("one", ["a-"], [["-b", "-a"]], False, [(0, 1, b"a", 0)]),
    ("what is offered by a module", ["a-", "-a"], [["-a"]], False, []),
    ("a member of a member", ["a-"], [["-c", "b-a", "c-b"]], False,
     [(0, 1, b"a", 0), (0, 2, b"b", 1), (0, 0, b"c", 2)]),
    ("a name of the files first", ["ab-"], [["c-a", "-c", "-b"]], False,
     [(0, 0, b"a", 0), (0, 2, b"b", 0), (0, 1, b"c", 1)]),
    ("two libraries that want each other", ["a-"], [["b-a", "d-c"], ["c-b", "-d"]], False,
     [(0, 0, b"a", 0), (1, 0, b"b", 1), (0, 1, b"c", 2), (1, 1, b"d", 3)]),
    ("the first library", ["a-"], [["-a"], ["-a"]], False, [(0, 0, b"a", 0)]),
    ("the first member", ["a-"], [["-ab", "-a"]], False, [(0, 0, b"a", 0)]),
    ("the second library, by a name before", ["ba-"], [["-a"], ["-ab"]], False, [(1, 0, b"b", 0)]),
    ("a name that nothing offers", ["xa-"], [["-a"]], False, [(0, 0, b"a", 0)]),
    ("a member that wants its own name", ["a-"], [["a-a"]], False, [(0, 0, b"a", 0)]),
    ("other case", ["A-"], [["-a"]], False, []),
    ("other case, which is ignored", ["A-", "a-"], [["-a"]], True, [(0, 0, b"A", 0)]),
    ("other case that is offered", ["a-A"], [["-a"]], True, []),
    ("a variable of another module", ["a-", "-:a"], [["-a"]], False, []),
    ("a variable wants nothing", ["-:a"], [["-a"]], False, []),
    ("a variable of a member isn't looked for", ["a-"], [["-:a", "-a"]], False, [(0, 1, b"a", 0)]),
    ("a variable of a member that is taken", ["ab-"], [["-a:b", "-b"]], False, [(0, 0, b"a", 0)]),
    ("an alias that nobody uses", ["-=ab"], [["-b"]], False, []),
    ("an alias", ["a-", "-=ab"], [["-b"]], False, [(0, 0, b"b", 1)]),
    ("an alias of a member, which is taken for it", ["ac-"], [["-=ab", "-c", "-b"]], False,
     [(0, 0, b"a", 0), (0, 1, b"c", 0), (0, 2, b"b", 1)]),
    ("an alias of an alias", ["a-", "-=bcab"], [["-c"]], False, [(0, 0, b"c", 1)]),
    ("an alias of itself", ["a-", "-=aa"], [["-a"]], False, []),
    ("the first of two", ["a-", "-=ab", "-=ac"], [["-bc"]], False, [(0, 0, b"b", 1)]),
    ("an alias of a variable's name", ["-:a", "-=ab"], [["-b"]], False, [(0, 0, b"b", 1)]),
]

# title, modules and libraries, whether case is ignored, and what is missing, by whom, and like what
MISSING = [
    ("nothing", ["a-", "-a"], [], False, []),
    ("once for a module", ["aa-", "a-"], [], False, [(b"a", 0, None), (b"a", 1, None)]),
    ("by its first spelling", ["Aa-"], [], True, [(b"A", 0, None)]),
    ("another case", ["a-", "-A"], [], False, [(b"a", 0, b"A")]),
    ("another case in a library", ["a-"], [["-A"]], False, [(b"a", 0, b"A")]),
    ("letters and digits alike", ["1-", "-2"], [], False, [(b"1", 0, None)]),
    ("what an alias stands for", ["a-", "-=ab"], [], False, [(b"b", 1, None)]),
    ("not that of one that nobody uses", ["-=ab"], [], False, []),
    ("not that of a variable", ["a-", "-:a"], [], False, []),
]


def segment(name, class_name, kind="public", alignment=1, in_group=False):
    """One that is in DGROUP with all of its class, or not."""
    return ordering.Segment(name, class_name, kind, alignment, in_group, in_group)


TEXT, FAR = segment(b"T", b"MY_CODE"), segment(b"F", b"FAR_DATA", alignment=16)
NULL = segment(b"N", b"BEGDATA", alignment=16, in_group=True)
DATA = segment(b"D", b"DATA", alignment=2, in_group=True)
BSS, STACK = segment(b"B", b"BSS", in_group=True), segment(b"S", b"STACK", "stack", 16, True)
OUTER_STACK = segment(b"S", b"STACK", "stack", 16)

# title, segments as they are met, and their order by DOSSEG
DOSSEG = [
    ("all", [STACK, BSS, DATA, NULL, FAR, TEXT], [TEXT, FAR, NULL, DATA, BSS, STACK]),
    ("of one kind as they are met", [DATA, segment(b"E", b"CONST", in_group=True)],
     [DATA, segment(b"E", b"CONST", in_group=True)]),
    ("a stack outside of DGROUP", [DATA, OUTER_STACK], [OUTER_STACK, DATA]),
    ("a segment outside of DGROUP of a class in it", [
        ordering.Segment(b"X", b"DATA", "public", 1, False, True), NULL, FAR],
     [FAR, NULL, ordering.Segment(b"X", b"DATA", "public", 1, False, True)]),
    ("code in DGROUP", [FAR, segment(b"T", b"CODE", in_group=True)],
     [segment(b"T", b"CODE", in_group=True), FAR]),
]

# title, the items of a list, segments as they are met, and their order
LISTS = [
    ("a class", ["DATA"], [TEXT, DATA, FAR], [DATA, TEXT, FAR]),
    ("a class that no segment has", ["HEAP", "DATA"], [TEXT, DATA], [DATA, TEXT]),
    ("a segment first in its class", ["DATA", ".E"],
     [TEXT, DATA, segment(b"E", b"DATA")], [segment(b"E", b"DATA"), DATA, TEXT]),
    ("segments of a class", ["DATA", ".E", ".D"],
     [DATA, segment(b"X", b"DATA"), segment(b"E", b"DATA")],
     [segment(b"E", b"DATA"), DATA, segment(b"X", b"DATA")]),
    ("a name in another class", ["DATA", ".F"], [FAR, DATA], [DATA, FAR]),
]


def bytes_of(made):
    return b"".join(map(Spelling().record, made))


def module_of(segments, wants=(), locally=(), defines=()):
    """A module of segments that wants names, some of them locally, and defines some.

    A segment is a name, a class, an alignment, a combination, and whether DGROUP has it.
    """
    listed = [b"DGROUP", *(name for segment in segments for name in segment[:2])]
    grouped = [number for number, segment in enumerate(segments, 1) if segment[4]]
    made = [
        records.Header(b"A"), records.NameList(listed),
        *(records.SegmentDefinition(each[2], each[3], 5, 2 * number, 2 * number + 1, 0, 0, 0)
          for number, each in enumerate(segments, 1)),
        records.GroupDefinition(1, grouped),
        records.ExternalNames(wants, [0] * len(wants)),
        records.LocalExternalNames(locally, [0] * len(locally)),
        records.PublicNames(0, 0, 0, [PublicName(name, 0, 0) for name in defines]),
        records.ModuleEnd(False, None)]
    return module.read(bytes_of(made), 0)


CODE_OF = (b"T", b"CODE", 1, 2, False)
DATA_OF = (b"D", b"DATA", 2, 2, True)
BSS_OF = (b"B", b"BSS", 3, 2, True)
STACK_OF = (b"S", b"STACK", 3, 5, True)
PRIVATE_BSS = (b"P", b"BSS", 3, 0, True)
OUTER_BSS = (b"_BSS", b"BSS", 1, 2, False)

# title, modules, an order, whether case is ignored, the names and classes of the segments of the
# module in front, with the alignment of each, and its marks with the segments of these
ORDERS = [
    ("none", [module_of([CODE_OF, BSS_OF])], "meeting", False, "", ""),
    ("DOSSEG", [module_of([STACK_OF, BSS_OF, CODE_OF])], "dosseg", False,
     "T.CODE.1 B.BSS.16 S.STACK.16", ""),
    ("DGROUP of another module", [
        module_of([DATA_OF[:4] + (False,), CODE_OF]), module_of([DATA_OF])], "dosseg", False,
     "T.CODE.1 D.DATA.2", ""),
    ("the first part's alignment", [
        module_of([(b"D", b"DATA", 1, 2, True)]), module_of([DATA_OF])], "dosseg", False,
     "D.DATA.1", ""),
    ("marks", [module_of([CODE_OF, BSS_OF, STACK_OF], [b"_edata", b"_end"])], "meeting", False,
     "T.CODE.1 B.BSS.16 S.STACK.16", "_edata@B _end@S"),
    ("all marks", [module_of(
        [BSS_OF, STACK_OF], [b"__end", b"_end", b"__edata", b"_edata"])], "meeting", False,
     "B.BSS.16 S.STACK.16", "_edata@B __edata@B _end@S __end@S"),
    ("a mark that is defined", [module_of([BSS_OF], [b"_edata"], defines=[b"_edata"])], "meeting",
     False, "", ""),
    ("a mark that is wanted locally", [module_of([BSS_OF], locally=[b"_edata"])], "meeting", False,
     "", ""),
    ("a mark of another case", [module_of([BSS_OF], [b"_EDATA"])], "meeting", False, "", ""),
    ("a mark of another case, which is ignored", [module_of([BSS_OF], [b"_EDATA"])], "meeting",
     True, "B.BSS.16", "_edata@B"),
    ("no BSS", [module_of([DATA_OF, STACK_OF], [b"_edata"])], "dosseg", False,
     "D.DATA.2 _BSS.BSS.1 S.STACK.16", "_edata@_BSS"),
    ("no BSS, as they are met", [module_of([DATA_OF, STACK_OF], [b"_edata"])], "meeting", False,
     "D.DATA.2 S.STACK.16 _BSS.BSS.1", "_edata@_BSS"),
    ("no BSS in DGROUP", [module_of([OUTER_BSS, DATA_OF], [b"_edata"])], "dosseg", False,
     "D.DATA.2 _BSS.BSS.1 _BSS.BSS.1", "_edata@_BSS"),
    ("BSS of a class in DGROUP", [module_of([OUTER_BSS, BSS_OF], [b"_edata"])], "meeting", False,
     "_BSS.BSS.1 B.BSS.16", "_edata@B"),
    ("data between BSS and the stack", [
        module_of([BSS_OF, DATA_OF, STACK_OF], [b"_edata", b"_end"])], "meeting", False,
     "B.BSS.16 _END._END.1 D.DATA.2 S.STACK.16", "_edata@B _end@_END"),
    ("the stack before BSS", [module_of([STACK_OF, BSS_OF], [b"_end"])], "meeting", False,
     "S.STACK.16 B.BSS.16 _END._END.1", "_end@_END"),
    ("a stack outside of DGROUP before its own", [
        module_of([BSS_OF, (b"O", b"STACK", 3, 5, False), STACK_OF], [b"_end"])], "meeting", False,
     "B.BSS.16 _END._END.1 O.STACK.16 S.STACK.16", "_end@_END"),
    ("no stack", [module_of([BSS_OF, DATA_OF], [b"_end"])], "meeting", False,
     "B.BSS.16 _END._END.1 D.DATA.2", "_end@_END"),
    ("no stack behind a class met again", [module_of([BSS_OF, DATA_OF, OUTER_BSS], [b"_end"])],
     "meeting", False, "B.BSS.16 _END._END.1 D.DATA.2 _BSS.BSS.1", "_end@_END"),
    ("neither", [module_of([CODE_OF], [b"_end"])], "dosseg", False,
     "T.CODE.1 _BSS.BSS.1 _END._END.1", "_end@_END"),
    ("a private BSS", [module_of([PRIVATE_BSS, DATA_OF], [b"_edata"])], "dosseg", False,
     "D.DATA.2 P.BSS.1 _BSS.BSS.1", "_edata@_BSS"),
    ("a private one behind one of its class", [module_of([BSS_OF, PRIVATE_BSS])], "dosseg", False,
     "B.BSS.16", ""),
    ("a private one before one of its class", [module_of([PRIVATE_BSS, BSS_OF])], "dosseg", False,
     "P.BSS.1 B.BSS.16", ""),
    ("private ones of a class", [module_of([PRIVATE_BSS]), module_of([PRIVATE_BSS])], "dosseg",
     False, "P.BSS.1", ""),
    ("an absolute one", [module_of([(b"A", b"ABS", 0, 2, False), CODE_OF])], "dosseg", False,
     "T.CODE.1", ""),
]


def given(files, libraries=()):
    """Files, and behind them libraries by their names."""
    return [*map(Input, files), *(Input(name, is_library=True) for name in libraries)]


RESPONSE = """\
option quiet
debug dwarf
file rtl/large/prt0l.o
library hello.a
library rtl/large/system.a
format dos
order clname CODE clname BEGDATA segment _NULL segment _AFTERNULL clname BSS

# made by hand
name 'my hello.exe'
"""

# title, directives, and what of the job isn't as in one without any directive, or the line's fault
DIRECTIVES = [
    ("of a compiler", RESPONSE, {
        "is_quiet": True, "out": "my hello.exe",
        "inputs": given(["rtl/large/prt0l.o"], ["hello.a", "rtl/large/system.a"]),
        "order": [
            Class(b"CODE"), Class(b"BEGDATA"), Named(b"_NULL"), Named(b"_AFTERNULL"),
            Class(b"BSS")]}),
    ("several names", 'FILE a.o, "b c.o",d.o', {"inputs": given(["a.o", "b c.o", "d.o"])}),
    ("an option that is cut", "op q\n", {"is_quiet": True}),
    ("one that is cut too short", "op no\n", 'line 1: "no": unknown option'),
    ("shorter words", "op quiet\nlib a.lib\n", {"is_quiet": True, "inputs": given([], ["a.lib"])}),
    ("a map of a name", "option map=a.map, quiet", {"map": "a.map", "is_quiet": True}),
    ("a map", "name a.exe\noption map", {"out": "a.exe", "maps_to_out": True}),
    ("case", "option caseignore", {"ignores_case": True}),
    ("DOSSEG", "option dosseg", {"order": ordering.DOSSEG}),
    ("what is left out", "\noption symfile\nsort global\ndisable 1014", {"warnings": [
        ("line 2", "no file of symbols is written"), ("line 3", "the map is not sorted"),
        ("line 4", "no message is left out")]}),
    ("folders", "libpath my/lib,other", {"folders": ["my/lib", "other"]}),
    ("folders of modules", "path my/obj;other\np 'a b;c' file d",
     {"object_folders": ["my/obj", "other", "a b", "c"], "inputs": given(["d"])}),
    ("one that is none", "path ;a;", {"object_folders": ["", "a", ""]}),
    ("a list of them", "path a,b", 'line 1: ",": wrong operands'),
    ("line ends of DOS", "file a.o\r\nfile b.o\r\n", {"inputs": given(["a.o", "b.o"])}),
    ("white space", " \tfile\ta.o ", {"inputs": given(["a.o"])}),
    ("a quote that isn't closed", 'file "a.o', "line 1: \"file \\\"a.o\": a quote isn't closed"),
    ("a quote inside of a word", "file a'b", {"inputs": given(["a'b"])}),
    ("an equals sign in a name", "file a=b", 'line 1: "=": wrong operands'),
    ("spaces around one", "option map = a.map", {"map": "a.map"}),
    ("a value of an option without one", "option quiet=1",
     'line 1: "quiet": wrong operands'),
    ("no option", "option", 'line 1: "option": wrong operands'),
    ("a directive between quotes", "'file' a.o", 'line 1: "file": unknown directive'),
    ("no default libraries", "option nodefaultlibs", {"has_default_libraries": False}),
    ("a stack", "option stack=4096", {"stack": Stack(4096, True)}),
    ("one in kilobytes", "option quiet, stack=0x2k", {"is_quiet": True, "stack": Stack(2048, True)}),
    ("the longest", "option stack=64K", {"stack": Stack(65536, True)}),
    ("a longer one", "option stack=65537", 'line 1: "stack": wrong operands'),
    ("a start", "option start=x, start='Y z'", {"start": "Y z"}),
    ("one that is cut", "op star=x, sta=5", {"start": "x", "stack": Stack(5, True)}),
    ("one without a name", "option start", 'line 1: "start": wrong operands'),
    ("one of 255 bytes", "option start=" + 255 * "n", {"start": 255 * "n"}),
    ("one of 256", "option start=" + 256 * "n", 'line 1: "start": wrong operands'),
    ("references", "reference a, B\nref {c 'd e',f}", {"references": ["a", "B", "c", "d e", "f"]}),
    ("no reference", "reference", 'line 1: "reference": wrong operands'),
    ("aliases", "alias a=B, 'c d' = c\nA e=f file g", {
        "aliases": [("a", "B"), ("c d", "c"), ("e", "f")], "inputs": given(["g"])}),
    ("an alias of nothing", "alias a=", 'line 1: "alias": wrong operands'),
    ("half an alias", "alias a=b, c", 'line 1: "alias": wrong operands'),
    ("files and libraries in their order", "lib a\nfile b\nlib c",
     {"inputs": [Input("a", True), Input("b"), Input("c", True)]}),
    ("what changes nothing", "op nofarcalls",
     {"warnings": [("line 1", "the option has no effect")]}),
    ("a .COM file", "file a.o\nformat dos com",
     {"inputs": given(["a.o"]), "form": Form("com")}),
    ("an .EXE file", "format dos exe", {"form": Form("exe")}),
    ("no form", "format dos com\nformat dos", {}),
    ("a .COM file by its system", "system COM", {"form": Form("com")}),
    ("no form by a system", "system com\nsystem dos", {}),
    ("a raw image", "output raw", {"form": Form("bin")}),
    ("one from an address on", "output raw offset=0x7c00", {"form": Form("bin", 0, 0x7C00)}),
    ("one in kilobytes", "OUTPUT RAW OFFSET = 31k", {"form": Form("bin", 0, 0x7C00)}),
    ("an address above the memory", "output raw offset=1048577",
     'line 1: "1048577": wrong operands'),
    ("another output", "output hex", 'line 1: "hex": wrong operands'),
    ("another system by its name", "system os2",
     'line 1: "os2": no other program is written than one for DOS'),
    ("another system", "format windows",
     'line 1: "windows": no other program is written than one for DOS'),
    ("no directive", "file a.o\n\nfoo bar\r\n", 'line 3: "foo": unknown directive'),
    ("no word", "=", 'line 1: "=": unknown directive'),
    ("a line of a makefile", "system dos name x file main,util option quiet",
     {"out": "x", "inputs": given(["main", "util"]), "is_quiet": True}),
    ("words that are cut", "sys com n x f a l b libp c op q, m=x.map, st=2k, dos form dos exe out raw",
     {"form": Form("bin"), "out": "x", "inputs": given(["a"], ["b"]), "folders": ["c"],
      "is_quiet": True, "map": "x.map", "stack": Stack(2048, True), "order": ordering.DOSSEG}),
    ("directives in some lines", "name\nx.exe\nfile a ,\n  b # and\n, c#d\nlib e",
     {"out": "x.exe", "inputs": given(["a", "b", "c#d"], ["e"])}),
    ("lists in braces", "file {a\nb,'c d' # e\n} lib { } libpath {f g}",
     {"inputs": given(["a", "b", "c d"]), "folders": ["f", "g"]}),
    ("braces that aren't closed", "name x file {a b", 'line 1: "file": wrong operands'),
    ("a list behind braces", "file {a}, b", 'line 1: ",": wrong operands'),
    ("a name behind a list", "file a\n b c", 'line 2: "b": unknown directive'),
    ("keywords as names", "file file name option lib lib",
     {"inputs": given(["file"], ["lib"]), "out": "option"}),
    ("an order up to another directive", "ord clname A segment B segment C file clname",
     {"order": [Class(b"A"), Named(b"B"), Named(b"C")], "inputs": given(["clname"])}),
    ("words of debug and of sort", "d watcom lines, ty debug all sort glob alpha disable 1, 2 n x",
     {"out": "x", "warnings": [("line 1", "the map is not sorted"), ("line 1", "no message is left out")]}),
    ("where a directive begins", "option quiet,\n map\n, symfile sort",
     {"is_quiet": True, "maps_to_out": True, "warnings": [
         ("line 1", "no file of symbols is written"), ("line 3", "the map is not sorted")]}),
    ("one that isn't taken", "name x libfile here", 'line 1: "libfile": unknown directive'),
    ("a quote in a later line", "foo\n'a", "line 2: \"'a\": a quote isn't closed"),
    ("a system behind a system", "system dos com", 'line 1: "com": wrong operands'),
    ("no file", "file", 'line 1: "file": wrong operands'),
    ("no name behind a comma", "file a.o,", 'line 1: "file": wrong operands'),
    ("an order of nothing", "order clname", 'line 1: "clname": wrong operands'),
    ("a segment of no class", "order segment A", 'line 1: "segment": wrong operands'),
]

SPLIT = [
    ("a  b\n\tc", ["a", "b", "c"]), ('-o "my out" x', ["-o", "my out", "x"]),
    ("a'b 'c d\"", ["a'b", "'c", 'd"']), ('"" ""', ["", ""])]


# words of LINK and TLINK over some response files: what the job has that a job of no options hasn't, or its fault
LINE_FILES = {
    "main.rsp": b"c0s main+\r\nprint\r\nprog\r\n\r\ncs\r\n\x1A;nothing of this", "objs": b"a+b\n", "first": b"@objs,p",
    "itself": b"@itself", "wrong": b"/e\na\n p /z", "Tlink.cfg": b"/c\r\n/Ld ; -x\r\n\x1A/z"}
# title, the environment's LINK or the bytes of TLINK.CFG, and the same of what stands behind that
FRONTS = [
    ("options of LINK", "link", "/NOI /CO", ["a", "/E;"], {
        "inputs": given(["a"]), "ignores_case": False, "warnings": [
            ("LINK: line 1, column 6", "no data for debuggers is written"),
            ("line 1, column 3", "the program isn't packed: it runs the same")]}),
    ("a later option", "link", "/ST:64", ["/ST:32", "a;"], {"inputs": given(["a"]), "stack": Stack(32, True)}),
    ("an object", "link", "c0", ["a,p;"], {"inputs": given(["c0", "a"]), "out": "p"}),
    ("a response file of LINK", "link", "@objs", [",p;"], {"inputs": given(["a", "b"]), "out": "p"}),
    ("one that is wrong", "link", "@wrong", ["a"], 'LINK: line 3, column 4: "/z": unknown option'),
    ("a wrong option of LINK", "link", "/NOI /z", ["a;"], 'LINK: line 1, column 6: "/z": unknown option'),
    ("one behind LINK", "link", "/NOI", ["a", "/z;"], 'line 1, column 3: "/z": unknown option'),
    ("a quote that LINK doesn't close", "link", '/NOI "', ['a";'],
     'LINK: line 1, column 6: "\\"": a quote isn\'t closed'),
    ("a call", "link", "C:\\BIN\\doslink --as link", ["a;"], {"inputs": given(["a"])}),
    ("another one", "link", "run C:\\BIN\\Link.exe", ["a;"], {"inputs": given(["a"])}),
    ("no call", "link", "doslink", ["a;"], {"inputs": given(["doslink", "a"])}),
    ("LINK of TLINK", "tlink", "/z", ["/x-", "a"], {
        "inputs": given(["a"]), "folders": ["d"], "ignores_case": False, "maps_to_out": True}),
    ("options of TLINK.CFG", "tlink", b"/c\n/Le;f", ["/Lg", "/x", "a"], {
        "inputs": given(["a"]), "folders": ["e", "f", "g"], "ignores_case": False}),
    ("a later option of TLINK", "tlink", b"/c/x\r\n", ["/c-", "a"], {"inputs": given(["a"])}),
    ("semicolons", "tlink", b";/x;\n;", ["a"], {"inputs": given(["a"])}),
    ("no options", "tlink", b"\r\n\x1A/z", ["/x", "a"], {"inputs": given(["a"])}),
    ("a wrong option of TLINK.CFG", "tlink", b"/x\r\n /z", ["a"], 'TLINK.CFG: line 2, column 2: "/z": unknown option'),
    ("an object in TLINK.CFG", "tlink", b"/x c0", ["a"], 'TLINK.CFG: line 1, column 4: "c0": an option is expected'),
    ("a comma in TLINK.CFG", "tlink", b"/x,", ["a"], 'TLINK.CFG: line 1, column 3: ",": an option is expected'),
    ("a response file in TLINK.CFG", "tlink", b"@objs", ["a"],
     'TLINK.CFG: line 1, column 1: "@objs": an option is expected'),
    ("a warning of TLINK.CFG", "tlink", b"/x\n/v", ["a"], {
        "inputs": given(["a"]), "warnings": [("TLINK.CFG: line 2, column 1", "no data for debuggers is written")]}),
]
LINES = [
    ("all fields", "link", ["/NOI", "a+b,p,l,c", "d/", "e"], {
        "inputs": given(["a", "b"], ["c", "e"]), "out": "p", "map": "l", "folders": ["d/"], "ignores_case": False}),
    ("the same by TLINK", "tlink", ["/c", "a", "b,", "p,l,c", "d/", "e;"], {
        "inputs": given(["a", "b"], ["c", "e"]), "out": "p", "map": "l", "folders": ["d/"], "ignores_case": False}),
    ("a map of LINK", "link", ["a,,;"], {"inputs": given(["a"]), "maps_to_out": True}),
    ("none", "link", ["a,;"], {"inputs": given(["a"])}),
    ("a map of TLINK", "tlink", ["a"], {"inputs": given(["a"]), "maps_to_out": True}),
    ("a response file", "tlink", ["@main.rsp"], {
        "inputs": given(["c0s", "main", "print"], ["cs"]), "out": "prog", "maps_to_out": True}),
    ("two in a line", "link", ["@objs,p,nul,@objs"], {"inputs": given(["a", "b"], ["a", "b"]), "out": "p"}),
    ("one that names another", "link", ["@first;"], {"inputs": given(["a", "b"]), "out": "p"}),
    ("one that names itself", "link", ["@itself"], '"@itself": response files name one another more than 8 deep'),
    ("a name with a blank", "tlink", ["/x", "a b", "c"], {"inputs": given(["a b", "c"])}),
    ("a line in a word", "link", ["a b,p;"], {"inputs": given(["a", "b"]), "out": "p"}),
    ("a stack", "link", ["a/ST:010;"], {"inputs": given(["a"]), "stack": Stack(8, True)}),
    ("a .COM file", "tlink", ["/x/t", "a"], {"inputs": given(["a"]), "form": Form("com")}),
    ("DOSSEG", "link", ["/NON", "a;"], {"inputs": given(["a"]), "order": ordering.DOSSEG, "has_null_bytes": False}),
    ("no null bytes in front", "link", ["/NON", "/DO", "a;"], {
        "inputs": given(["a"]), "order": ordering.DOSSEG, "has_null_bytes": False}),
    ("no null bytes behind", "link", ["/DO", "a/NON;"], {
        "inputs": given(["a"]), "order": ordering.DOSSEG, "has_null_bytes": False}),
    ("no library by default, and not this one", "link", ["/NOD:x", "/NOD", "a;"], {
        "inputs": given(["a"]), "has_default_libraries": False, "left_out": ["x"]}),
    ("folders", "tlink", ["/x", "/Lc;d", "a/n"], {
        "inputs": given(["a"]), "folders": ["c", "d"], "has_default_libraries": False}),
    ("folders of objects", "tlink", ["/x", "/jc;d", "a/n"], {
        "inputs": given(["a"]), "object_folders": ["c", "d"], "has_default_libraries": False}),
    ("an option without effect", "link", ["a", "/CO;"], {
        "inputs": given(["a"]), "warnings": [("line 1, column 3", "no data for debuggers is written")]}),
    ("line numbers", "tlink", ["/l", "a"], {
        "inputs": given(["a"]), "maps_to_out": True, "map_has_lines": True}),
    ("no parts of segments", "tlink", ["/s", "a"], {
        "inputs": given(["a"]), "maps_to_out": True,
        "map_has_details": True}),
    ("paths", "tlink", ["/x", "/home/x/a.obj", "./b/x", "c/x"], {"inputs": given(["/home/x/a.obj", "./b/x", "c"])}),
    ("an unknown option", "link", ["@wrong"], 'line 3, column 4: "/z": unknown option'),
    ("no object", "link", [",p;"], "an object is expected"),
    ("a second name", "link", ["a,b", "c;"], 'line 1, column 5: "c": a comma is expected: the field has its name'),
    ("something behind the end", "link", ["a;b"], 'line 1, column 3: "b": nothing is expected behind `;`'),
    ("an octal number", "link", ["a", "/ST:08;"],
     'line 1, column 3: "/ST:08": a number from 1 to 65536 is expected behind `:`'),
    ("a number that isn't there", "link", ["a", "/CP;"],
     'line 1, column 3: "/CP": a number from 0 to 65535 is expected behind `:`'),
    ("a name of several", "link", ["a", "/PA;"],
     'line 1, column 3: "/PA": more of the option\'s name is expected: it is short for several'),
    ("no front of a name", "link", ["a", "/LX;"], 'line 1, column 3: "/LX": unknown option'),
    ("the front of a name alone", "link", ["a", "/L;"], {
        "inputs": given(["a"]), "maps_to_out": True, "map_has_lines": True}),
    ("a value of no number", "link", ["a", "/ON:EXE;"], 'line 1, column 3: "/ON:EXE": NOEXE is expected behind `:`'),
    ("p-code", "link", ["a", "/PC;"], 'line 1, column 3: "/PC": p-code isn\'t linked'),
    ("a device", "link", ["a,con;"], 'line 1, column 3: "con": a file is expected, and no device'),
    ("an option that changes the program", "link", ["/HIGH", "a;"],
     'line 1, column 1: "/HIGH": the option would change the program, and isn\'t followed'),
    ("all bytes", "tlink", ["/i", "a"], "/i isn't followed: segments without data take no bytes of the file"),
    ("extra paragraphs", "link", ["/CP:0xFFFF", "a;"], {
        "inputs": given(["a"]), "form": Form("exe", most_extra=0xFFFF)}),
    ("fewer", "link", ["/CP:1", "a;"], {"inputs": given(["a"]), "form": Form("exe", most_extra=1)}),
    ("those of a .COM file", "link", ["/CP:1", "a/T;"], {"inputs": given(["a"]), "form": Form("com")}),
]

# of a public, and of an absolute one
MAP_OF_LINK = """
 Start  Stop   Length Name                   Class
 00000H 00010H 00011H CODE                   CODE

 Origin   Group

  Address         Publics by Name

 0040:0002  Abs  a
 0000:0003       b

  Address         Publics by Value

 0000:0003       b
 0040:0002  Abs  a

Program entry point at 0000:0000
"""


def code_module(title, *body):
    """A module with a segment CODE of 17 bytes."""
    return bytes_of([
        records.Header(title), records.NameList([b"", b"CODE"]),
        records.SegmentDefinition(1, 2, 17, 2, 2, 1), *body, records.ModuleEnd(False, None)])


def framed(made):
    return b"".join(Spelling().framed(kind, bytes.fromhex(body)) for kind, body in made)


def wide_module(segment):
    """A module whose one segment has 32 bits."""
    return framed([(0x80, "0157"), (0x96, "00 04434F4445"), (0x99, segment), (0x8A, "00")])


def sum_module(displacement):
    """A module with the offset of its segment and a displacement in 32 bits, and FF00H more."""
    return framed([
        (0x80, "0153"), (0x96, "00 04434F4445"), (0x98, "28 0400 020101"),
        (0xA0, "01 0000 00FF0000"), (0x9C, "E400 50 01" + displacement), (0x8A, "00")])


def negative_module(data, fixups):
    """A module of eight bytes, with this data and fix-ups."""
    return framed([
        (0x80, "014E"), (0x96, "00 04434F4445"), (0x98, "28 0800 020101"), (0xA0, data),
        (0x9C, fixups), (0x8A, "00")])


def shared_module(fixup):
    """A module with the offset of its segment in 32 bits, and a fix-up behind it."""
    return framed([
        (0x80, "0153"), (0x96, "00 04434F4445"), (0x98, "28 0600 020101"),
        (0xA0, "01 0000 000000000000"), (0x9C, "E400 54 01"), (0x9C, fixup), (0x8A, "00")])


def start_module(kind, displacement):
    """A module that starts so far in its segment."""
    return framed([
        (0x80, "0153"), (0x96, "00 04434F4445"), (0x98, "28 0400 020101"),
        (0xA0, "01 0000 90909090"), (kind, "C1 50 01" + displacement)])


def long_module(*segments):
    """A module of these segments, all of them in one group."""
    members = "".join(f"FF{number:02X}" for number in range(1, len(segments) + 1))
    return framed([
        (0x80, "014C"), (0x96, "00 04434F4445"), *[(0x98, each) for each in segments],
        (0x9A, "02" + members), (0x8A, "00")])


def far_module(segment, *made):
    """A module of far data, by the names FAR_DATA, TBL, X and G."""
    return framed([(0x80, "0146"), FAR_NAMES, (0x98, segment), *made, (0x8A, "00")])


def reaching_module(fixups):
    """A module that declares the far variable `far`, and has these fix-ups of its code, which is in DGROUP."""
    return framed([
        (0x80, "0152"), (0x96, "00 04434F4445 06444752 4F5550"), (0x98, "28 0500 02 01 01"), (0x9A, "03 FF01"),
        (0xB0, "03666172 00 61 01 02"), (0xA0, "01 0000 B800000000"), (0x9C, fixups), (0x8A, "00")])


# the names FAR_DATA, TBL, X and G, and a fix-up by which data has its segment's frame
FAR_NAMES = (0x96, "084641525F44415441 0354424C 0158 0147")
OWN_FRAME = ((0xA0, "01 0000 0000"), (0x9C, "C800 54 01"))
CALLING = code_module(b"M", records.ExternalNames([b"x"], [0]), *NEAR_CALL)
CALLED = code_module(b"X", records.PublicNames(0, 1, None, [PublicName(b"x", 2, 0)]))
NAMING = code_module(b"N", records.Comment(0, 0x9F, b"X"))
NAMING_TWO = code_module(b"N", records.Comment(0, 0x9F, b"X"), records.Comment(0, 0x9F, b"Y"))
WANTING_TWO = code_module(b"W", records.ExternalNames([b"_X", b"y", b"y", b"_edata"], [0] * 4))
CALLS_TWICE = code_module(
    b"T", records.ExternalNames([b"x"], [0]), records.Comment(0, 0x9F, b"X"), *NEAR_CALL)
PADDING = bytes(16 - len(CALLED) % 16)
LIBRARY = bytes.fromhex(PAGE_16) + CALLED + PADDING + b"\xF1"
FILES = {
    "m.obj": CALLING, "x.obj": CALLED, "n.obj": NAMING, "two.obj": NAMING_TWO, "t.obj": CALLS_TWICE,
    "w.obj": WANTING_TWO, "x.lib": LIBRARY, "cut.lib": LIBRARY[:-1], "x.a": MAGIC, "X.LIB": MAGIC,
    "wide.obj": wide_module("29 11000000 020201"), "empty.obj": wide_module("29 00000000 020201"),
    "absolute.obj": wide_module("01 4000 00 11000000 020201"),
    "amiss.obj": wide_module("E9 11000000 020201"), "f/X.lib": LIBRARY,
    "sum.obj": sum_module("0001"), "fits.obj": sum_module("FF00"),
    "shared.obj": shared_module("C001 54 01"), "base.obj": shared_module("C802 54 01"),
    "negative.obj": negative_module("01 0200 0000FCFFFFFF", "E402 50 01 0400"),
    "below.obj": negative_module("01 0200 0000FCFFFFFF", "E402 50 01 0300"),
    "carried.obj": negative_module("01 0000 0000FCFFFFFF0100", "C405 50 01 0100 E402 50 01 3412"),
    "start.obj": start_module(0x8B, "FCFF0000"), "start16.obj": start_module(0x8A, "FCFF"),
    "half.obj": long_module("28 0080 020101"), "over.obj": long_module("28 0180 020101"),
    "group.obj": long_module("28 50C3 020101", "28 50C3 010101"),
    "large.obj": long_module(*15 * ["22 0000 020101"], "20 D5FF 020101"),
    "huge.obj": framed([(0x80, "0148"), (0xB0, "0178 00 61 88 F0C9AA3B 01"), (0x8A, "00")]),
    "tbl.obj": far_module("28 0200 02 01 00", (0xA0, "01 0000 0101")),
    "tbl2.obj": far_module("28 0200 02 01 00", (0xA0, "01 0000 0202")),
    "far.obj": far_module("28 0200 03 01 00", (0xA0, "01 0000 0909")),
    "own.obj": far_module("68 0200 03 01 00", *OWN_FRAME),
    "own17.obj": far_module("68 1100 03 01 00", *OWN_FRAME), "long.obj": far_module("68 F0FF 02 01 00"),
    "many.obj": CALLED, "apple.o": b"\xCA\xFE\xBA\xBE\n",
    "f/L": LIBRARY, "f/L.LIB": MAGIC, "f/Y": CALLED, "g/L.LIB": LIBRARY, "bad": b"\xFF"}
# 17 bytes of each module; the call's end is at 3 and x at 19
EIGHT = header("2800 0100 0000 0200 0100" + MOST + NO_REGISTERS) + NO_TABLE
PROGRAM = header("2300 0100 0000 0200 0300" + MOST + NO_REGISTERS) + NO_TABLE + "E81000"

# the same where 2 extra paragraphs are asked for at most, of which it needs 3, and 260
LIMITED = header("2300 0100 0000 0200 0300 0300" + NO_REGISTERS) + NO_TABLE + "E81000"
LIMITED_ABOVE = header("2300 0100 0000 0200 0300 0401" + NO_REGISTERS) + NO_TABLE + "E81000"

# 6 bytes, and 18 of which the last two are relocated
SIX = header("2600 0100 0000 0200 0100" + MOST + NO_REGISTERS) + NO_TABLE
EIGHTEEN = header("3200 0100 0100 0200 0100" + MOST + NO_REGISTERS) + "00000100"

# modules that reach the far variable `far` by its offset alone, each of which is told once
REACHED = [
    ("by an alias",
     "80050003722E63759607000004434F444544980700280300020101328C050002616C00A0B009000366617200610102A7"
     "C6080002616C0366617227A00700010000B80000A09C0500C4015601438A02000074"),
    ("by a weak external",
     "80050003722E63759607000004434F444544980700280300020101328C0400017700F8B009000366617200610102A788"
     "050080A8010248A00700010000B80000A09C0500C4015601438A02000074"),
    ("its own",
     "80050003722E63759607000004434F44454498070028030002010132B8090003666172006101029FA00700010000B800"
     "00A09C0500C4015601438A02000074"),
]

# fix-ups of five bytes of code by a module that declares `far`, and whether they reach it by its offset alone
REACHING = [
    ("by a low byte", "C001 56 01", True),
    ("by a low byte, and a base", "C001 56 01 C803 56 01", False),
    ("by a base of the external's frame", "C401 56 01 C803 26 01 01", False),
    ("by a base of a segment's frame", "C401 56 01 C803 06 01 01", True),
    ("by a base of a group's frame", "C401 56 01 C803 16 01 01", True),
    ("by a base of the location's frame", "C401 56 01 C803 46 01", True)]

# directives, and what is told of them; a file of them that is named too often
SPOKEN_FILES = {
    **FILES, "idle": b"sort global", "f/JOB.lnk": b"name F\\P", "twice.OBJ": FILES["absolute.obj"],
    "Twice.obj": FILES["absolute.obj"], "outer.lnk": b"# of these\n @Inner\t\r\nname P\n",
    "inner": b"file absolute.obj\nsort global\n", "loop": b"@loop", "lacks": b"@nowhere",
    **{f"deep{each}": f"@deep{each + 1}\n".encode() for each in range(8)}, "deep8": b"",
    "D:/x.OBJ": FILES["absolute.obj"],
    "plain": b"\x7FELF", "plain.OBJ": FILES["absolute.obj"], "alone": b"\x7FELF", "bare": FILES["absolute.obj"],
    "bare.OBJ": b"\x7FELF", "L": b"\x7FELF", "L.lib": LIBRARY}
# files of definitions
DEFINED_FILES = {
    "some.DEF": b" NAME P ; a program\r\n\r\nstacksize 0x800\r\n\x1Ax", "wrong.def": b"name p\nEXPORTS _f\n"}
SPOKEN = [
    (["file", "absolute.obj", "name", "p.com"],
     "doslink: warning: p.com: an EXE file is written: format dos com makes a .COM file\n"),
    (["sort", "global", "file", "m.obj", "name", "p.SYS", "@idle"],
     "doslink: warning: line 1: the map is not sorted\ndoslink: warning: idle: line 1: the map is not sorted\n"
     "doslink: warning: p.SYS: an EXE file is written: doslink --form sys makes a device driver\n"
     'doslink: m.obj: "x" is missing: record 26 (0000001A), wanted by "M"\n'),
    (["sort", "global", "file", "none.obj", "name", "f\\p.IMG", "option", "quiet"],
     "doslink: warning: f\\p.IMG: an EXE file is written: output raw makes a raw image\n"
     "doslink: none.obj: 1 Device at record 0: no such file\n"),
    (["file", "absolute.obj", "name", "p.com", "format", "dos", "exe"], ""),
    (["file", "absolute.obj", "name", "p.bin/p"], "doslink: p.bin/p.exe: 40 Device: no such folder\n"),
    # names of DOS: of a file of directives, modules, a library and the program
    (["@F\\job", "file", "M.OBJ", "library", "F\\l"], ""),
    (["file", "TWICE.OBJ", "name", "p"],
     "doslink: TWICE.OBJ: 1 Device at record 0: two names there differ by case alone\n"),
    (["file", 63 * "./" + "TWICE.OBJ"],
     "doslink: " + 63 * "./" + "TWICE.OBJ: 1 Device at record 0: two names there differ by case alone\n"),
    (["file", 64 * "./" + "TWICE.OBJ"], "doslink: " + 64 * "./" + "TWICE.OBJ: 1 Device at record 0: no such file\n"),
    (["file", "Twice.obj", "option", "quiet", "name", "M.obj"],
     "doslink: M.obj: it is a module or a library and would be written\n"),
    (["file", "absolute.obj", "option", "quiet", *200 * ["@idle"]], ""),
    (["file", "absolute.obj", *64 * ["libpath", "f"], *64 * ["path", "f"]], ""),
    (["file", "absolute.obj", *65 * ["libpath", "f"]], "doslink: more than 64 folders are to be searched\n"),
    (["file", "none.obj", *65 * ["path", "f"]], "doslink: more than 64 folders are to be searched\n"),
    (["file", "absolute.obj", "option", "quiet", *200 * ["@idle"], "@more"],
     "doslink: more: a line has at most 200 response files\n"),
    (["file", "absolute.obj", "option", "quiet", *199 * ["@idle"], "@outer"],
     "doslink: Inner: a line has at most 200 response files\n"),
    # files that name others
    (["@outer"], "doslink: warning: Inner: line 2: the map is not sorted\n"),
    (["file", "absolute.obj", "@deep1"], ""),
    (["file", "absolute.obj", "@deep0"], "doslink: deep8: response files name one another more than 8 deep\n"),
    (["file", "absolute.obj", "@loop"], "doslink: loop: response files name one another more than 8 deep\n"),
    (["file", "absolute.obj", "@lacks"], "doslink: nowhere: 1 Device at record 0: no such file\n"),
    (["file", "absolute.obj", "name '@outer'"], ""),
    # drives, and files whose names have no extension
    (["file", "C:\\LIB\\M.OBJ"], "doslink: C:\\LIB\\M.OBJ: 1 Device at record 0: there is no such drive\n"),
    (["file", "absolute.obj", "name", "c:p"], "doslink: c:p.exe: 40 Device: there is no such drive\n"),
    (["@c:x"], "doslink: c:x: 1 Device at record 0: there is no such drive\n"),
    (["file", "d:\\X", "name", "D:p"], ""),
    (["file", "plain"], ""),
    (["file", "bare"], ""),
    (["file", "alone"],
     "doslink: alone: 3 Truncated at record 0: this is an ELF file; nasm wants -f obj\n"),
    (["file", "m.obj", "library", "l"], ""),
]
# what a program reads by its name
CALLED_SO = [
    ("wlink", "wlink"), ("jwlink", "wlink"), ("JWLink.EXE", "wlink"), ("LINK", "link"), ("tlink.exe", "tlink"),
    ("doslink", "doslink"), ("xwlink", "doslink")]
# lines that write an EXE file by the name of another form, and the folder of LIB, which is LINK's alone
NAMED_BY_LINES = [
    ("link", ["absolute.obj,p.com;"], "doslink: warning: p.com: an EXE file is written: /T makes a .COM file\n"),
    ("tlink", ["/x", "absolute.obj,p.Bin"],
     "doslink: warning: p.Bin: an EXE file is written: doslink --form bin makes a raw image\n"),
    ("tlink", ["/x", "absolute.obj,com"], ""),
    ("link", ["absolute.obj,p,,,some;"], "doslink: warning: some.DEF: line 1, column 2: nothing of it is used\n"
     "doslink: warning: some.DEF: line 3, column 1: nothing of it is used\n"),
    ("tlink", ["/x", "absolute.obj,p,,,SOME.def"],
     "doslink: warning: SOME.def: line 1, column 2: nothing of it is used\n"
     "doslink: warning: SOME.def: line 3, column 1: nothing of it is used\n"),
    ("link", ["absolute.obj,p,,,wrong.def;"],
     'doslink: wrong.def: line 2, column 1: "EXPORTS": NAME, DESCRIPTION or STACKSIZE is expected: no other definition '
     "is followed\n"),
    ("link", ["absolute.obj,some.def,,,some;"], "doslink: warning: some.DEF: line 1, column 2: nothing of it is used\n"
     "doslink: warning: some.DEF: line 3, column 1: nothing of it is used\n"
     "doslink: some.def: it is read and would be written\n"),
    ("link", ["absolute.obj,p,,,nowhere;"], "doslink: nowhere.DEF: 1 Device at record 0: no such file\n"),
    ("link", ["absolute.obj,p,,,NUL;"], ""),
    ("link", ["absolute.obj+f\\X.lib,p;"], "doslink: warning: f\\X.lib: it is searched, and not linked whole\n"),
    ("tlink", ["/x", "absolute.obj f\\X.lib,p"], ""), ("link", ["absolute.obj,p,,f\\X.lib;"], ""),
    ("link", ["M,p,,l;"], ""), ("tlink", ["/x", "M,p,,l;"], "doslink: l: 1 Device at record 0: no such file\n"),
    ("tlink", ["/x", "/LG", "M,p,,l;"], ""),
]

# title, what is asked for, the folders of LIB, and the bytes of OUT or the lines on standard error,
# and the lines that tell the modules
LINKS = [
    ("a module of a library", {"inputs": given(["m.obj"], ["x.lib"])}, [], PROGRAM,
     'm.obj\nx.lib(X) for "x"\n'),
    ("fewer extra paragraphs than it needs",
     {"inputs": given(["m.obj"], ["x.lib"]), "form": Form("exe", most_extra=2)}, [], LIMITED,
     'm.obj\nx.lib(X) for "x"\n'),
    ("and more", {"inputs": given(["m.obj"], ["x.lib"]), "form": Form("exe", most_extra=260)}, [],
     LIMITED_ABOVE, 'm.obj\nx.lib(X) for "x"\n'),
    ("the program where the list is told", {"inputs": given(["m.obj"], ["x.lib"]), "out": "-"}, [],
     "doslink: -: it would be the program and the list of what is linked\n", ""),
    ("the map there", {"inputs": given(["m.obj"], ["x.lib"]), "map": "-"}, [],
     "doslink: -: it would be the map and the list of what is linked\n", ""),
    ("the program there, of a module that isn't there", {"inputs": given(["none.obj"]), "out": "-"}, [],
     "doslink: -: it would be the program and the list of what is linked\n", ""),
    ("the program there by a path", {"inputs": given(["m.obj"], ["x.lib"]), "out": "/dev/stdout"}, [],
     "doslink: /dev/stdout: it would be the program and the list of what is linked\n", ""),
    ("the map there by a path", {"inputs": given(["m.obj"], ["x.lib"]), "map": "/dev/stdout"}, [],
     "doslink: /dev/stdout: it would be the map and the list of what is linked\n", ""),
    ("the program and its map there",
     {"inputs": given(["m.obj"], ["x.lib"]), "out": "/dev/stdout", "map": "-", "is_verbose": False}, [],
     "doslink: -: it would be the program and its map\n", ""),
    ("a library among the files", {"inputs": given(["x.lib", "m.obj"])}, [], PROGRAM,
     'm.obj\nx.lib(X) for "x"\n'),
    ("a module in the place of a library", {"inputs": given(["m.obj"], ["x.obj"])}, [],
     PROGRAM, "m.obj\nx.obj\n"),
    ("nothing to take", {"inputs": given(["m.obj"], ["x.a"])}, [],
     'doslink: m.obj: "x" is missing: record 26 (0000001A), wanted by "M"\n', "m.obj\n"),
    ("names that nothing uses", {"inputs": given(["w.obj"], ["x.lib"])}, [],
     'doslink: w.obj: "_X" is missing: record 26 (0000001A), wanted by "W"; "x" is in x.lib(X)\n'
     'doslink: w.obj: "y" is missing: record 26 (0000001A), wanted by "W"\n', "w.obj\n"),
    ("a library without an end", {"inputs": given(["m.obj"], ["cut.lib"])}, [],
     f"doslink: cut.lib: 44 Truncated at place {len(LIBRARY) - 1}\n", ""),
    ("a file that isn't there comes first", {"inputs": given(["cut.lib", "none.obj"])}, [],
     "doslink: none.obj: 1 Device at record 0: no such file\n", ""),
    ("no such library", {"inputs": given(["m.obj"], ["none.lib"])}, [],
     "doslink: none.lib: 1 Device at record 0: no such file\n", ""),
    ("a name in a folder", {"inputs": given(["m.obj"], ["L"]), "folders": ["f", "g"]}, [],
     PROGRAM, 'm.obj\nf/L(X) for "x"\n'),
    ("an ending", {"inputs": given(["m.obj"], ["L"]), "folders": ["g/"]}, [], PROGRAM,
     'm.obj\ng/L.LIB(X) for "x"\n'),
    ("a module in a folder", {"inputs": given(["m.obj", "Y"]), "object_folders": ["g", "f"]}, [], PROGRAM,
     "m.obj\nf/Y\n"),
    ("a library among the files in a folder", {"inputs": given(["m.obj", "L.LIB"]), "object_folders": ["g", "f"]}, [],
     PROGRAM, 'm.obj\ng/L.LIB(X) for "x"\n'),
    ("libraries aren't looked for there", {"inputs": given(["m.obj"], ["L"]), "object_folders": ["g", "f"]}, [],
     "doslink: L: 1 Device at record 0: no such file\n", ""),
    ("nor modules where libraries are", {"inputs": given(["m.obj", "Y"]), "folders": ["f"]}, [],
     "doslink: Y: 1 Device at record 0: no such file\n", ""),
    ("a library of LIB", {"inputs": given(["m.obj"], ["L"])}, ["g"], PROGRAM, 'm.obj\ng/L.LIB(X) for "x"\n'),
    ("folders of the job come first", {"inputs": given(["m.obj"], ["L"]), "folders": ["f"]}, ["g"],
     PROGRAM, 'm.obj\nf/L(X) for "x"\n'),
    ("modules aren't looked for in LIB", {"inputs": given(["m.obj", "Y"])}, ["f"],
     "doslink: Y: 1 Device at record 0: no such file\n", ""),
    ("a default library of this folder", {"inputs": given(["t.obj"])}, ["f"],
     'doslink: t.obj: "x" is missing: record 26 (0000001A), wanted by "T"\n', "t.obj\n"),
    ("no default libraries", {"inputs": given(["t.obj"]), "has_default_libraries": False}, ["f"],
     'doslink: t.obj: "x" is missing: record 26 (0000001A), wanted by "T"\n', "t.obj\n"),
    ("a default library that isn't there", {"inputs": given(["two.obj", "m.obj", "x.lib"])}, ["g"],
     'doslink: warning: library "Y" of two.obj was not found\n',
     'two.obj\nm.obj\nx.lib(X) for "x"\n'),
    ("a default module of LIB", {"inputs": given(["two.obj", "m.obj"])}, ["f"], "",
     "two.obj\nm.obj\nf/Y\n"),
    ("a name twice", {"inputs": given(["x.obj", "x.obj"])}, [],
     'doslink: link: 25 DuplicatePublic "x" in x.obj and x.obj\n', "x.obj\nx.obj\n"),
    ("a name 1,021 times", {"inputs": given(["x.obj", *1020 * ["many.obj"]]), "is_verbose": False}, [],
     f'doslink: link: 25 DuplicatePublic "x" in x.obj{19 * " and many.obj"} and 1,001 more\n', ""),
    ("and all of that", {"inputs": given(["x.obj", *20 * ["many.obj"]])}, [],
     f'doslink: link: 25 DuplicatePublic "x" in x.obj{20 * " and many.obj"}\n', "x.obj\n" + 20 * "many.obj\n"),
    ("a Mach-O file of the other order", {"inputs": given(["apple.o"])}, [],
     "doslink: apple.o: 3 Truncated at record 0: this is a Mach-O file; nasm wants -f obj\n", "apple.o\n"),
    ("a segment of 65,536 bytes", {"inputs": given(["half.obj", "half.obj"])}, [], "",
     "half.obj\nhalf.obj\n"),
    ("and of one more", {"inputs": given(["half.obj", "over.obj"])}, [],
     'doslink: link: 22 SegmentTooLong "CODE": 1 byte over\n', "half.obj\nover.obj\n"),
    ("a group of 100,000 bytes", {"inputs": given(["group.obj"])}, [],
     'doslink: link: 24 GroupTooLong "CODE": 34,464 bytes over\n', "group.obj\n"),
    ("a program of 1,148,533 bytes", {"inputs": given(["large.obj", "group.obj"])}, [],
     "doslink: link: 23 ProgramTooLarge: 99,973 bytes over\n", "large.obj\ngroup.obj\n"),
    ("a program of 1,001,048,560 bytes", {"inputs": given(["huge.obj"])}, [],
     "doslink: link: 23 ProgramTooLarge: 1,000,000,000 bytes over\n", "huge.obj\n"),
    ("a segment of 32 bits that is none", {"inputs": given(["amiss.obj"])}, [],
     "doslink: amiss.obj: 51 Body at record 16\n", "amiss.obj\n"),
    ("a module at fault", {"inputs": given(["bad"])}, [],
     "doslink: bad: 3 Truncated at record 0: this is a text; assemble or compile it first\n",
     "bad\n"),
    ("OUT is read", {"inputs": given(["m.obj"]), "out": "m.obj"}, [],
     "doslink: m.obj: it is read and would be written\n", ""),
    ("the map is read", {"inputs": given(["m.obj"]), "map": "m.obj"}, [],
     "doslink: m.obj: it is read and would be written\n", ""),
    ("the map is OUT", {"inputs": given(["m.obj"]), "out": "x", "map": "x"}, [],
     "doslink: x: it would be the program and its map\n", ""),
    ("32-bit segments", {"inputs": given(["wide.obj", "x.obj", "wide.obj"])}, [],
     2 * "doslink: warning: 32-bit segments of wide.obj are linked as 16-bit ones\n",
     "wide.obj\nx.obj\nwide.obj\n"),
    ("of which only faults are told", {"inputs": given(["wide.obj"]), "is_quiet": True}, [], "",
     "wide.obj\n"),
    ("nothing with bytes", {"inputs": given(["empty.obj"])}, [],
     "doslink: link: 67 NoProgram\n", "empty.obj\n"),
    ("libraries alone", {"inputs": given([], ["x.lib"])}, [], "doslink: link: 67 NoProgram\n", ""),
    ("absolute ones", {"inputs": given(["absolute.obj"])}, [], "", "absolute.obj\n"),
    ("a sum of 65,536", {"inputs": given(["sum.obj"])}, [],
     "doslink: sum.obj: 61 SumAbove16Bits at record 37\n", "sum.obj\n"),
    ("a sum of 65,535", {"inputs": given(["fits.obj"])}, [], "", "fits.obj\n"),
    ("a sum of 0 with -4", {"inputs": given(["negative.obj"])}, [], EIGHT + "0000000000000000",
     "negative.obj\n"),
    ("a sum of -1", {"inputs": given(["below.obj"])}, [],
     "doslink: below.obj: 61 SumAbove16Bits at record 39\n", "below.obj\n"),
    ("a word that ends in another offset's last byte", {"inputs": given(["carried.obj"])}, [],
     EIGHT + "0000301200010200", "carried.obj\n"),
    ("a byte in the word of an offset", {"inputs": given(["shared.obj"])}, [],
     "doslink: shared.obj: 61 SumAbove16Bits at record 39\n", "shared.obj\n"),
    ("a base behind it", {"inputs": given(["base.obj"])}, [], "", "base.obj\n"),
    ("a start at 65,536", {"inputs": given(["fits.obj", "start.obj"])}, [],
     "doslink: start.obj: 61 SumAbove16Bits at record 37\n", "fits.obj\nstart.obj\n"),
    ("a start at 65,532", {"inputs": given(["start.obj"])}, [], "", "start.obj\n"),
    ("a start of 16 bits at 65,536", {"inputs": given(["fits.obj", "start16.obj"])}, [], "",
     "fits.obj\nstart16.obj\n"),
    ("far data of two names", {
        "inputs": given(["tbl.obj", "far.obj", "tbl2.obj"]), "packs_far_data": True}, [],
     SIX + "010102020909", "tbl.obj\nfar.obj\ntbl2.obj\n"),
    ("of one frame", {"inputs": given(["tbl.obj", "own.obj"]), "packs_far_data": True}, [],
     EIGHTEEN + "0101" + "00" * 14 + "0000", "tbl.obj\nown.obj\n"),
    ("and of two", {"inputs": given(["tbl.obj", "own.obj"])}, [],
     EIGHTEEN + "0101" + "00" * 14 + "0100", "tbl.obj\nown.obj\n"),
    ("that doesn't fit", {"inputs": given(["long.obj", "own17.obj"]), "packs_far_data": True}, [],
     "", "long.obj\nown17.obj\n"),
    ("two starts", {"inputs": given(["fits.obj", "start.obj", "start.obj"])}, [],
     "doslink: start.obj: 33 TwoStarts at record 37\n", "fits.obj\nstart.obj\nstart.obj\n"),
]

# what is asked for, and the path of the program
OUTS = [
    ({"inputs": given(["a.obj", "b.obj"])}, "a.EXE"), ({"inputs": given(["a.b/c"])}, "a.b/c.EXE"),
    ({"inputs": given([], ["l.lib"])}, "l.EXE"), ({"inputs": given(["a"]), "out": "b"}, "b"),
]

TABLE = """\
modules
"doslink" order
 000000 R 000000 "CODE" "CODE"
"M" m.obj
 000000 R 000011 "CODE" "CODE"
"X" x.lib(X)
 000011 R 000011 "CODE" "CODE"
"""

# names by their indexes: CODE, DWARF, FAR_DATA and _TEXT
LISTED = (0x96, "04434F4445 054457415246 084641525F44415441 055F54455854")
DEBUG_SEGMENT, CODE_SEGMENT = (0x98, "28 0800 04 02 00"), (0x98, "28 0800 04 01 00")
WITHOUT, NOTHING = (0x98, "20 0000 04 02 00"), (0x88, "00DA")
DATA_OF_1, DATA_OF_2 = (0xA0, "01 0000 00"), (0xA0, "02 0000 00")
FIXUPS = (0x9C, "C400 54 01")

# title, whether debugging is kept, records, and the same as lowered
LOWERED = [
    ("data for debuggers", False, [LISTED, DEBUG_SEGMENT, DATA_OF_1, FIXUPS],
     [LISTED, WITHOUT, NOTHING, (0x9C, "")]),
    ("which is kept", True, [LISTED, DEBUG_SEGMENT, DATA_OF_1, FIXUPS],
     [LISTED, DEBUG_SEGMENT, DATA_OF_1, FIXUPS]),
    ("fix-ups of other data", False,
     [LISTED, DEBUG_SEGMENT, CODE_SEGMENT, DATA_OF_1, FIXUPS, DATA_OF_2, FIXUPS],
     [LISTED, WITHOUT, CODE_SEGMENT, NOTHING, (0x9C, ""), DATA_OF_2, FIXUPS]),
    ("threads stay", False, [
        LISTED, DEBUG_SEGMENT, DATA_OF_1, (0x9C, "00 01  C400 54 01  41 01  C400 9C  53")],
     [LISTED, WITHOUT, NOTHING, (0x9C, "00 01  41 01  53")]),
    ("by 32 bits", False, [
        LISTED, (0x99, "A9 08000000 04 02 00"), (0xA1, "01 00000000 00"),
        (0x9D, "E400 50 01 00000000")],
     [LISTED, WITHOUT, NOTHING, (0x9C, "")]),
    ("repeated", False, [LISTED, DEBUG_SEGMENT, (0xA2, "01 0000 0100 0000 01 00"), FIXUPS],
     [LISTED, WITHOUT, NOTHING, (0x9C, "")]),
    ("an absolute one", False, [LISTED, (0x98, "00 00B8 00 0800 04 8002 01")],
     [LISTED, (0x98, "20 0000 04 8002 01")]),
    ("fix-ups that are cut", False, [LISTED, DEBUG_SEGMENT, DATA_OF_1, (0x9C, "C400")],
     (51, 3)),
    ("a class that is listed later", False, [DEBUG_SEGMENT, LISTED, DATA_OF_1],
     [DEBUG_SEGMENT, LISTED, DATA_OF_1]),
    ("behind the end", False, [LISTED, (0x8A, "00"), DEBUG_SEGMENT],
     [LISTED, (0x8A, "00"), DEBUG_SEGMENT]),
    ("another header and names", False, [(0x82, "0141"), (0xCA, "0141")],
     [(0x80, "0141"), (0x96, "0141")]),
    ("near and far variables", False, [
        (0xB0, "0141 00 62 05  0142 8001 61 81FFFF 80  0143 01 62 84010000"
               " 0144 00 61 00 8801000000")],
     [(0x8C, "0141 00  0142 8001  0143 01  0144 00")]),
    ("local ones", False, [(0xB8, "0141 00 62 05")], [(0xB4, "0141 00")]),
    ("a variable of another type", False, [LISTED, (0xB0, "0141 00 05 05")], (48, 1)),
    ("a length of no form", False, [(0xB0, "0141 00 62 82")], (51, 0)),
    ("a variable that is cut", False, [(0xB0, "0141 00 61 01")], (51, 0)),
    ("externals by indexes", False, [LISTED, (0xBC, "02 00 8001 8005")],
     [LISTED, (0x8C, "054457415246 00  04434F4445 8005")]),
    ("an index of no name", False, [LISTED, (0xBC, "05 00")], (51, 1)),
    ("the index 0", False, [LISTED, (0xBC, "00 00")], (51, 1)),
    ("a segment of 32 bits", False, [LISTED, (0x99, "69 34120000 04 01 00")],
     [LISTED, (0x98, "68 3412 04 01 00")]),
    ("the bit of 32 bits alone", False, [LISTED, (0x98, "69 3412 04 01 00")],
     [LISTED, (0x98, "68 3412 04 01 00")]),
    ("a length of 65,536", False, [LISTED, (0x99, "69 00000100 04 01 00")],
     [LISTED, (0x98, "6A 0000 04 01 00")]),
    ("a longer one", False, [LISTED, (0x99, "69 01000100 04 01 00")], (49, 1)),
    ("a definition that is cut", False, [LISTED, (0x99, "69 010001")], (51, 1)),
    ("local externals of the odd type", False, [(0xB5, "0161 00")], [(0xB4, "0161 00")]),
    ("a group FLAT", False, [(0x96, "04464C4154"), (0x9A, "01")],
     [(0x96, "04464C4154"), (0x9A, "01")]),
    ("a fix-up by it", False, [
        (0x96, "04464C4154"), (0x9A, "01"), (0xA0, "01 0000 0000"), (0x9C, "C400 14 01 01")],
     (65, 3)),
    ("a target thread of it", False, [
        (0x96, "04464C4154"), (0x9A, "01"), (0xA0, "01 0000 0000"), (0x9C, "04 01")], (65, 3)),
    ("a start by it", False, [(0x96, "04464C4154"), (0x9A, "01"), (0x8A, "C0 14 01 01 0000")],
     (65, 2)),
    ("an alias that is cut", False, [(0xC6, "0161 02")], (51, 0)),
    ("a comment of Easy OMF", False, [LISTED, (0x88, "80AA 38")], (63, 1)),
    ("one that imports a name", False, [(0x88, "00A0 01 00 0161 0162 00")], (64, 0)),
    ("one that exports a name", False, [(0x88, "00A0 02 00 0161 00")],
     [(0x88, "00A0 02 00 0161 00")]),
    ("the longest segment of 32 bits", False, [LISTED, (0x99, "6B 00000000 04 01 00")],
     (49, 1)),
    ("publics of 32 bits", False, [(0x91, "00 01 0141 34120000 00")],
     [(0x90, "00 01 0141 3412 00")]),
    ("local ones of a frame", False, [(0xB7, "00 00 00B8 0141 34120000 8001")],
     [(0xB6, "00 00 00B8 0141 3412 8001")]),
    ("an offset of more than 16 bits", False, [(0x91, "00 01 0141 00000100 00")], (49, 0)),
    ("line numbers", False, [(0x95, "00 01 0A00 34120000")], [(0x94, "00 01 0A00 3412")]),
    ("an end", False, [(0x8B, "00")], [(0x8A, "00")]),
    ("a start", False, [(0x8B, "C1 00 01 01 34120000")], [(0x8A, "C1 00 01 01 3412")]),
    ("a start without a displacement", False, [(0x8B, "C1 04 01 01")],
     [(0x8A, "C1 04 01 01")]),
    ("data", False, [(0xA1, "01 34120000 AABB")], [(0xA0, "01 3412 AABB")]),
    ("an offset of 32 bits", False, [(0xA1, "01 00000000 00000000"), (0x9D, "E400 54 02")],
     [(0xA0, "01 0000 00000000"), (0x9C, "C400 54 02")]),
    ("by a displacement", False, [
        (0xA1, "01 00000000 FFFF0000"), (0x9D, "F400 50 02 34120000")],
     [(0xA0, "01 0000 FFFF0000"), (0x9C, "C400 50 02 3412")]),
    ("one whose upper word isn't 0", False, [
        (0xA1, "01 00000000 00000100"), (0x9D, "E400 54 02")], (49, 1)),
    ("one that isn't whole in the data", False, [
        (0xA1, "01 00000000 000000"), (0x9D, "E400 54 02")], (50, 1)),
    ("one that is self-relative", False, [
        (0xA1, "01 00000000 00000000"), (0x9D, "A400 54 02")], (50, 1)),
    ("an offset of 32 bits among fix-ups of 16", False, [
        (0xA0, "01 0000 FFFF0000 0000"), (0x9C, "40 01  C404 54 02  F400 50 02 3412")],
     [(0xA0, "01 0000 FFFF0000 0000"), (0x9C, "40 01  C404 54 02  C400 50 02 3412")]),
    ("one whose upper word isn't 0 there", False, [
        (0xA0, "01 0000 00000100"), (0x9C, "E400 54 02")], (49, 1)),
    ("one that is self-relative there", False, [
        (0xA0, "01 0000 00000000"), (0x9C, "A400 54 02")], (50, 1)),
    ("one behind what is no fix-up", False, [
        (0xA0, "01 0000 00000000"), (0x9C, "C400 34 02  E400 54 02")],
     [(0xA0, "01 0000 00000000"), (0x9C, "C400 34 02  E400 54 02")]),
    ("repeated data", False, [
        (0xA3, "01 00000000  02000000 0100  03000000 0000 04 AA000000"),
        (0x9D, "C40D 54 02  E40D 54 02  8411 54 02")],
     (50, 1)),
    ("places in repeated data", False, [
        (0xA3, "01 00000000  02000000 0100  03000000 0000 04 AA000000"),
        (0x9C, "C40D 54 02  E40D 54 02  840F 54 02")],
     [(0xA2, "01 0000  0200 0100  0300 0000 04 AA000000"),
      (0x9C, "C409 54 02  C409 54 02  840B 54 02")]),
    ("a repeat count of more than 16 bits", False, [
        (0xA3, "01 00000000  00000100 0000 01 AA")], (49, 0)),
]
# The COMDEF of the modules a, b and so on, the names that they offer, whether case is ignored, and
# then the lengths of segments with the segment and the offset of each variable, or a fault.
COMMUNALS = [
    ("the greatest length", ["0178 00 62 05", "0178 00 62 09", "0178 00 62 02"], "", False,
     "9 | x 1:0"),
    ("the greatest count", ["0178 00 61 05 02", "0178 00 61 09 02"], "", False, "18 | x 1:0"),
    ("in order of meeting", ["0179 00 62 01  0178 00 62 01", "017A 00 62 01  0178 00 62 01"], "",
     False, "3 | y 1:0, x 1:1, z 1:2"),
    ("at even places above a byte", ["0161 00 62 01  0162 00 62 02  0163 00 62 01  0164 00 62 00"
                                     "  0165 00 62 03  0166 00 62 01"], "", False,
     "10 | a 1:0, b 1:2, c 1:4, d 1:5, e 1:6, f 1:9"),
    ("far ones behind near ones", ["0161 00 61 03 04  0162 00 62 05  0163 00 61 02 01"], "", False,
     "5 12 2 | b 1:0, a 2:0, c 3:0"),
    ("one of no bytes", ["0178 00 62 00"], "", False, "0 | x 1:0"),
    ("a number's low byte first", ["0161 00 61 84030201 01"], "", False, "65536 515 | a 1:0"),
    ("far ones alone", ["0161 00 61 00 04  0162 00 61 04 00"], "", False, "0 0 | a 1:0, b 2:0"),
    ("numbers of each form", ["0161 00 62 80  0162 00 62 810001  0163 00 61 84010000 8803000000"],
     "", False, "384 3 | a 1:0, b 1:128, c 2:0"),
    ("a type index of two bytes", ["0161 8162 62 05"], "", False, "5 | a 1:0"),
    ("a public wins", ["0178 00 62 05  0179 00 62 02", "0178 00 62 08"], "x", False, "2 | y 1:0"),
    ("a public wins over those that clash", ["0178 00 62 05", "0178 00 61 08 01"], "x", False, ""),
    ("a public in another case", ["0178 00 62 05"], "X", False, "5 | x 1:0"),
    ("which is ignored", ["0178 00 62 05"], "X", True, ""),
    ("spelled as it is first", ["0158 00 62 05", "0178 00 62 07"], "", True, "7 | X 1:0"),
    ("none", [""], "", False, ""),
    ("near and far", ["0178 00 62 05", "", "0178 00 61 05 01"], "", False,
     "link: 55 NearAndFar \"x\" in a and c"),
    ("elements of two sizes", ["", "0178 00 61 05 01", "0178 00 61 01 05"], "", False,
     "link: 56 ElementSizes \"x\" in b and c"),
    ("in one module", ["0178 00 62 05  0178 00 61 05 01"], "", False,
     "link: 55 NearAndFar \"x\" in a and a"),
    ("a table of virtual functions", ["", "0178 00 05 0100"], "", False,
     "b: 54 DataType at record 0"),
    ("a type without its number", ["0178 00 05"], "", False, "a: 54 DataType at record 0"),
    ("an entry that is cut", ["0178 00 61 05"], "", False, "a: 53 Body at record 0"),
    ("a number of no form", ["0178 00 62 82"], "", False, "a: 53 Body at record 0"),
    ("all of a segment", ["0178 00 62 81FEFF  0179 00 62 02"], "", False,
     "65536 | x 1:0, y 1:65534"),
    ("and nothing behind it", ["0178 00 62 84000001  0179 00 62 00"], "", False,
     "link: 57 NearTooLong \"y\" in a"),
    ("a byte more", ["0178 00 62 81FFFF", "0179 00 62 02"], "", False,
     "link: 57 NearTooLong \"y\" in b"),
    ("all of a far segment", ["0178 00 61 813333 05  0179 00 61 02 84000001"], "", False,
     "65535 65536 65536 | x 1:0, y 2:0"),
    ("more than one", ["0178 00 61 84010001 01  0179 00 61 01 01"], "", False,
     "65536 1 1 | x 1:0, y 3:0"),
    ("an element over an edge", ["0178 00 61 813433 05"], "", False,
     "link: 58 CutElement \"x\" in a"),
    ("near before far", ["0178 00 61 813433 05  0179 00 62 84010001"], "", False,
     "link: 57 NearTooLong \"y\" in a"),
    ("a segment too many", ["0179 00 62 00  0178 00 61 81FF7F 84000001"], "", False,
     "link: 59 TooManySegments \"x\" in a"),
]
# the module of a near variable of 5 bytes and a far one of 65,536
COMMUNAL_MODULE = [
    (0x80, "08 636F6D6D756E616C"), (0x96, "06 4447524F5550  08 635F636F6D6D6F6E"),
    (0x96, "03 425353  07 4641525F425353"), (0x98, "48 0500 02 03 00"), (0x9A, "01 FF 01"),
    (0x98, "62 0000 04 04 00"), (0x90, "01 01 0178 0000 00"), (0x90, "00 02 0179 0000 00"),
    (0x8A, "00")]
COMMUNAL_OF_IT = "0178 00 62 05  0179 00 61 81FFFF 01  0179 00 61 84000001 01"
# What a module lists; the first byte of a segment and its length, its indexes, the index of its
# group's name, and whether near variables stand in it.
OF_BSS = "06 4447524F5550  04 5F425353  03 425353  04 4155544F"
NEAR_SEGMENTS = [
    ("a public one", "48 0000", "02 03 00", "01", True),
    ("of the other combinations", "5C 0000", "02 03 00", "01", True),
    ("a private one", "40 0000", "02 03 00", "01", False),
    ("a common one", "58 0000", "02 03 00", "01", False),
    ("of another class", "48 0000", "02 02 00", "01", False),
    ("of another name", "48 0000", "03 03 00", "01", False),
    ("in another group", "48 0000", "02 03 00", "04", False)]

# title, whether case is ignored, aliases, a name, and what it means
MEANINGS = [
    ("no alias", False, "b c", "a", "a"),
    ("an alias of an alias", False, "b c  a b", "a", "c"),
    ("the first of two", False, "a b  a c", "a", "b"),
    ("by case", False, "a b", "A", "A"),
    ("without case", True, "a B  b C", "A", "C"),
    ("of itself", False, "a a", "a", None),
    ("in a circle", False, "d a  a b  b a", "d", None),
    ("beside a circle", False, "d e  a b  b a", "d", "e"),
]
# title, records of aliases, and the place, the name and the other name of each
ALIASES = [
    ("pairs", [(0xC6, "0161 026262 0163 00")], [(0, b"a", b"bb"), (0, b"c", b"")]),
    ("two records", [(0x88, "00DA"), (0xC6, "0161 0162"), (0xC6, "0163 0164")],
     [(6, b"a", b"b"), (14, b"c", b"d")]),
    ("one that is cut", [(0xC6, "0161 0162 0163")], [(0, b"a", b"b")]),
    ("of another type", [(0x8C, "0161 0162")], []),
]
# title, the aliases of the modules a, b and so on, and the fault
ENDLESS = [
    ("in one module", ["0161 0162", "0163 0163"], 'doslink: b: 60 EndlessAlias "c" at record 0\n'),
    ("in two", ["0161 0162", "0162 0161"], 'doslink: a: 60 EndlessAlias "a" at record 0\n'),
    ("one that leads there", ["0164 0161 0161 0161"],
     'doslink: a: 60 EndlessAlias "d" at record 0\n'),
]
# title, bodies of records, for each weak external and then each lazy one the comment's place, the
# index, the name and the default, the names wanted, and of these those needed
DEFAULTS = [
    ("one", [(0x8C, "0161 00 0162 00"), (0x88, "00A8 01 02")], [(10, 1, b"a", b"b")], "b", "b"),
    ("before its external", [(0x88, "00A8 8002 01"), (0x8C, "0161 00 0162 00")],
     [(0, 2, b"b", b"a")], "a", "a"),
    ("externals of all types", [
        (0x96, "0161"), (0xB0, "0163 00 62 02"), (0xB4, "0164 00"), (0xB8, "0165 00 61 02 810001"),
        (0xBC, "01 00"), (0x8C, "0162 00"), (0x88, "00A8 04 05 05 01")],
     [(47, 4, b"a", b"b"), (47, 5, b"b", b"c")], "", ""),
    ("indexes of none, and one that is local", [
        (0x8C, "0161 00 0162 00"), (0xB4, "0163 00"),
        (0x88, "00A8 01 04 00 01 01 00 03 01 01")], [], "a b", "a b"),
    ("a default that is local",
     [(0x8C, "0161 00 0162 00"), (0xB4, "0163 00"), (0x88, "00A8 01 03")],
     [(17, 1, b"a", 3)], "b", "b"),
    ("a lazy one's", [(0x8C, "0161 00"), (0xB8, "0162 00 62 02"), (0x88, "00A9 01 02")],
     [(16, 1, b"a", 2)], "a", ""),
    ("an index that is cut", [(0x8C, "0161 00 0162 00"), (0x88, "00A8 01 02 02 80")],
     [(10, 1, b"a", b"b")], "b", "b"),
    ("no text", [(0x8C, "0161 00"), (0x88, "00A8"), (0x88, "00")], [], "a", "a"),
    ("of other classes", [(0x8C, "0161 00 0162 00"), (0x88, "00A7 01 02"), (0x88, "00AA 01 02")],
     [], "a b", "a b"),
    ("behind an external that is cut",
     [(0x8C, "0161 00 0162"), (0x8C, "0163 00"), (0x88, "00A8 02 01")],
     [(16, 2, b"c", b"a")], "a", "a"),
    ("behind a variable of another type",
     [(0xB0, "0161 00 05 0162 00 62 01"), (0x8C, "0163 00 0164 00"), (0x88, "00A8 01 02")],
     [(23, 1, b"c", b"d")], "d", "d"),
    ("a name that an alias stands for",
     [(0x8C, "0161 00 0162 00"), (0xC6, "0163 0161"), (0x88, "00A8 01 02")],
     [(18, 1, b"a", b"b")], "b", "b"),
    ("one of two externals of a name", [(0x8C, "0161 00 0161 00 0162 00"), (0x88, "00A8 02 03")],
     [(13, 2, b"a", b"b")], "a a b", "a a b"),
    ("both of them", [(0x8C, "0161 00 0161 00 0162 00"), (0x88, "00A8 02 03 01 03")],
     [(13, 2, b"a", b"b"), (13, 1, b"a", b"b")], "b", "b"),
    ("a lazy one", [(0x8C, "0161 00 0162 00"), (0x88, "00A9 01 02")], [(10, 1, b"a", b"b")],
     "a b", "b"),
    ("a lazy one before a weak one",
     [(0x8C, "0161 00 0162 00 0163 00"), (0x88, "00A9 01 03"), (0x88, "00A8 02 03")],
     [(21, 2, b"b", b"c"), (13, 1, b"a", b"c")], "a c", "c"),
    ("one that is both",
     [(0x8C, "0161 00 0162 00 0163 00"), (0x88, "00A9 01 03"), (0x88, "00A8 01 02")],
     [(21, 1, b"a", b"b"), (13, 1, b"a", b"c")], "b c", "b c"),
]
WEAKLY = [(0x8C, "0161 00 0162 00"), (0x88, "00A8 01 02")]
LAZILY = [(0x8C, "0161 00 0162 00"), (0x88, "00A9 01 02")]
# title, modules, names of communal variables, whether case is ignored, what `a` means in each
UNDEFINED = [
    ("nothing else", [WEAKLY], "", False, "b"),
    ("an external", [WEAKLY, [(0x8C, "0161 00")]], "", False, "a a"),
    ("an external before it", [[(0x8C, "0161 00")], WEAKLY], "", False, "a a"),
    ("an alias that nobody uses", [WEAKLY, [(0xC6, "0163 0161")]], "", False, "b a"),
    ("an alias of the name", [WEAKLY, [(0xC6, "0161 0163")]], "", False, "c c"),
    ("an alias of the default", [WEAKLY, [(0xC6, "0162 0163")]], "", False, "c a"),
    ("a public", [WEAKLY, [(0x90, "00 01 0161 0000 00")]], "", False, "a a"),
    ("a public of the default", [WEAKLY, [(0x90, "00 01 0162 0000 00")]], "", False, "b a"),
    ("a communal variable", [WEAKLY], "a", False, "a"),
    ("an external in another case", [WEAKLY, [(0x8C, "0141 00")]], "", False, "b a"),
    ("one that agrees", [WEAKLY, [(0x8C, "0141 00")]], "", True, "a a"),
    ("another default", [WEAKLY, [(0x8C, "0161 00 0163 00"), (0x88, "00A8 01 02")]], "", False,
     "b c"),
    ("a default that is weak", [[(0x8C, "0161 00 0162 00 0163 00"), (0x88, "00A8 01 02 02 03")]],
     "", False, "c"),
    ("two defaults", [[(0x8C, "0161 00 0162 00 0163 00"), (0x88, "00A8 01 02 01 03")]], "", False,
     "b"),
    ("another external of the name", [[(0x8C, "0161 00 0161 00 0162 00"), (0x88, "00A8 01 03")]],
     "", False, "a"),
    ("a lazy one", [LAZILY], "", False, "b"),
    ("a lazy one of a public", [LAZILY, [(0x90, "00 01 0161 0000 00")]], "", False, "a a"),
    ("a lazy one of an external", [LAZILY, [(0x8C, "0161 00")]], "", False, "a a"),
    ("a lazy one beside a weak one", [WEAKLY, LAZILY], "", False, "b b"),
    ("one that is both",
     [[(0x8C, "0161 00 0162 00 0163 00"), (0x88, "00A9 01 03"), (0x88, "00A8 01 02")]], "", False,
     "b"),
]
# title, the externals and comments of the first of some modules, others, the names of communal
# variables, whether case is ignored, and of externals of the first by their indexes the local ones
# that they mean as it is linked
LOCAL_DEFAULTS = [
    ("nothing else", [(0x8C, "0161 00"), (0xB4, "0162 00"), (0x88, "00A8 01 02")], [], "", False,
     {1: 2}),
    ("a lazy one", [(0x8C, "0161 00"), (0xB5, "0162 00"), (0x88, "00A9 01 02")], [], "", False,
     {1: 2}),
    ("a variable", [(0x8C, "0161 00"), (0xB8, "0162 00 62 02"), (0x88, "00A8 01 02")], [], "",
     False, {1: 2}),
    ("before its externals", [(0x88, "00A8 03 8001"), (0xB4, "0162 00"), (0x8C, "0163 00 0161 00")],
     [], "", False, {3: 1}),
    ("one by the index of its name",
     [(0x96, "0161"), (0xBC, "01 00"), (0xB4, "0162 00"), (0x88, "00A8 01 02")], [], "", False,
     {1: 2}),
    ("two that have it", [(0x8C, "0161 00 0163 00"), (0xB4, "0162 00"), (0x88, "00A8 02 03 01 03")],
     [], "", False, {1: 3, 2: 3}),
    ("an external", [(0x8C, "0161 00"), (0xB4, "0162 00"), (0x88, "00A8 01 02")],
     [[(0x8C, "0161 00")]], "", False, {}),
    ("another one of the module",
     [(0x8C, "0161 00 0161 00"), (0xB4, "0162 00"), (0x88, "00A8 01 03")], [], "", False, {}),
    ("which is weak too",
     [(0x8C, "0161 00 0161 00"), (0xB4, "0162 00"), (0x88, "00A8 01 03"), (0x88, "00A9 02 03")],
     [], "", False, {1: 3, 2: 3}),
    ("a public", [(0x8C, "0161 00"), (0xB4, "0162 00"), (0x88, "00A8 01 02")],
     [[(0x90, "00 01 0161 0000 00")]], "", False, {}),
    ("a public in another case", [(0x8C, "0161 00"), (0xB4, "0162 00"), (0x88, "00A8 01 02")],
     [[(0x90, "00 01 0141 0000 00")]], "", False, {1: 2}),
    ("one that agrees", [(0x8C, "0161 00"), (0xB4, "0162 00"), (0x88, "00A8 01 02")],
     [[(0x90, "00 01 0141 0000 00")]], "", True, {}),
    ("a public of the default", [(0x8C, "0161 00"), (0xB4, "0162 00"), (0x88, "00A8 01 02")],
     [[(0x90, "00 01 0162 0000 00")]], "", False, {1: 2}),
    ("a communal variable", [(0x8C, "0161 00"), (0xB4, "0162 00"), (0x88, "00A8 01 02")], [], "a",
     False, {}),
    ("an alias of the name", [(0x8C, "0161 00"), (0xB4, "0162 00"), (0x88, "00A8 01 02")],
     [[(0xC6, "0161 0163"), (0x90, "00 01 0163 0000 00")]], "", False, {}),
    ("an alias of another name to it",
     [(0x8C, "0163 00 0161 00"), (0xB4, "0162 00"), (0x88, "00A8 02 03")],
     [[(0xC6, "0163 0161")]], "", False, {2: 3}),
    ("of two local ones the first",
     [(0x8C, "0161 00"), (0xB4, "0162 00 0163 00"), (0x88, "00A8 01 03 01 02")], [], "", False,
     {1: 3}),
    ("in two comments",
     [(0x8C, "0161 00"), (0xB4, "0162 00 0163 00"), (0x88, "00A9 01 02"), (0x88, "00A9 01 03")],
     [], "", False, {1: 2}),
    ("a weak one's before a lazy one's",
     [(0x8C, "0161 00"), (0xB4, "0162 00 0163 00"), (0x88, "00A9 01 02"), (0x88, "00A8 01 03")],
     [], "", False, {1: 3}),
    ("one of none before it",
     [(0x8C, "0161 00"), (0xB4, "0162 00"), (0x88, "00A8 01 03 01 02")], [], "", False, {1: 2}),
    # a name that is to be shared is an alias before the local one is looked for
    ("one that is shared before it",
     [(0x8C, "0161 00 0162 00"), (0xB4, "0163 00"), (0x88, "00A8 01 02 01 03")], [], "", False, {}),
    ("one that is shared behind it",
     [(0x8C, "0161 00 0162 00"), (0xB4, "0163 00"), (0x88, "00A8 01 03 01 02")], [], "", False, {}),
    ("which nothing defines",
     [(0x8C, "0161 00 0162 00"), (0xB4, "0163 00"), (0x88, "00A8 01 03 01 02 02 03")], [], "",
     False, {1: 3, 2: 3}),
    # and is looked for by the index alone
    ("one that is shared and has a local one",
     [(0x8C, "0161 00 0162 00"), (0xB4, "0163 00"), (0x88, "00A8 01 02 02 03")], [], "", False,
     {2: 3}),
    ("its own one behind that",
     [(0x8C, "0161 00 0162 00"), (0xB4, "0163 00"), (0x88, "00A8 01 02 02 03 01 03")], [], "",
     False, {2: 3}),
]
# two segments and groups, the externals a and b, and the local ones c and d; title, records behind
# these, and the frame and the target of each fix-up and of the start where 2 means 3, and 3 means 4
REDIRECTED_HOME = [
    (0x96, "0147 00"), (0x98, "28 0400 02 02 02"), (0x98, "28 0400 02 02 02"), (0x9A, "01 FF01"),
    (0x9A, "01"), (0x8C, "0161 00 0162 00"), (0xB4, "0163 00 0164 00"), (0xA0, "01 0000 00000000")]
REDIRECTED = [
    ("targets", [(0x9C, "C400 56 02 C401 52 02 0700 8402 56 02")], "F5 T2 3, F5 T2 3, F5 T2 3"),
    ("frames", [(0x9C, "C400 26 02 01 C401 24 02 01 C402 25 02 02")],
     "F2 3 T2 1, F2 3 T0 1, F2 3 T1 2"),
    ("both", [(0x9C, "CC00 26 02 02")], "F2 3 T2 3"),
    ("once", [(0x9C, "C400 56 03 C400 26 03 02")], "F5 T2 4, F2 4 T2 3"),
    ("threads", [
        (0x9C, "49 02 0A 02 C400 9E"), (0xA0, "01 0000 00000000"),
        (0x9C, "C400 96 01 C400 5E")], "F2 3 T2 3, F2 3 T2 1, F5 T2 3"),
    ("all data", [(0x9C, "C400 56 02"), (0xA2, "02 0000 0200 0000 02 0000"), (0x9C, "C405 56 02")],
     "F5 T2 3, F5 T2 3"),
    ("a start", [(0x8A, "C1 22 02 02 0506")], "F2 3 T2 3"),
    ("a start by its target", [(0x8A, "C1 56 02")], "F5 T2 3"),
    ("others", [(0x9C, "C400 54 02 C400 04 02 02 C400 15 02 01 C401 46 01 C402 56 04")],
     "F5 T0 2, F0 2 T0 2, F1 2 T1 1, F4 T2 1, F5 T2 4"),
]
# two names of files that aren't there yet; whether they will be one, and whether where folders can't be listed
NEW_NAMES = [
    ("OUT.EXE", "out.exe", True, False),
    (r".\OUT.EXE", "OUT.EXE", True, True),
    ("OUT.EXE", "OUT.MAP", False, False),
]
# bodies of records of modules, and the fault
ENDLESS_DEFAULTS = [
    ("its own default", [[(0x8C, "0161 00"), (0x88, "00A8 01 01")]],
     'doslink: a: 60 EndlessAlias "a" at record 7\n'),
    ("each that of the other",
     [[(0x8C, "0161 00 0162 00"), (0x88, "00A8 01 02"), (0x88, "00A9 02 01")]],
     'doslink: a: 60 EndlessAlias "a" at record 10\n'),
    ("in two modules", [WEAKLY, [(0x8C, "0162 00 0161 00"), (0x88, "00A9 01 02")]], None),
]
# title, aliases, records, and the same as lowered
RENAMED = [
    ("externals", "a bb", [(0x8C, "0178 00 0161 8001"), (0x8C, "0141 00")],
     [(0x8C, "0178 00 026262 8001"), (0x8C, "0141 00")]),
    ("externals by indexes", "a bb", [(0x96, "0161"), (0xBC, "01 00")],
     [(0x96, "0161"), (0x8C, "026262 00")]),
    ("communal variables", "a bb", [(0xB0, "0161 00 62 01 0178 8001 61 01 02")],
     [(0x8C, "026262 00 0178 8001")]),
    ("others", "a bb",
     [(0xC6, "0161 026262"), (0xB4, "0161 00"), (0x90, "00 01 0161 0000 00"),
      (0xB8, "0161 00 62 01")],
     [(0x88, "00DA"), (0xB4, "0161 00"), (0x90, "00 01 0161 0000 00"), (0xB4, "0161 00")]),
    ("one that is cut behind one that stays", "a bb", [(0x8C, "0178 00 0261")],
     [(0x8C, "0178 00 0261")]),
]

# What modules declare as local, what they are lowered to, and what then stands behind the records
# of that in front of its end; or the fault's line.
END = (0x8A, "00")
HOME = [
    (0x80, "0141"), (0x96, "00 04434F4445"), (0x98, "28 0200 02 02 01"), (0xB4, "0178 00")]
LOCAL_NAMES = [
    (0x96, "06 4447524F5550  08 635F636F6D6D6F6E"), (0x96, "03 425353  07 4641525F425353")]
LOCALS = [
    ("behind the module's own", "0178 00 62 05  0179 00 61 03 02", HOME, [
        *LOCAL_NAMES, (0x98, "48 0500 04 05 00"), (0x9A, "03 FF 02"), (0x98, "60 0600 06 06 00"),
        (0xB6, "01 02 0178 0000 00"), (0xB6, "00 03 0179 0000 00")]),
    ("the greatest length", "0178 00 62 05  0178 00 62 09", HOME, [
        *LOCAL_NAMES, (0x98, "48 0900 04 05 00"), (0x9A, "03 FF 02"),
        (0xB6, "01 02 0178 0000 00")]),
    ("by indexes of two bytes", "0178 00 62 02", [(0x80, "0141"), (0x96, "00" * 127)], [
        *LOCAL_NAMES, (0x98, "48 0200 8081 8082 00"), (0x9A, "8080 FF 01"),
        (0xB6, "01 01 0178 0000 00")]),
    ("a local public wins", "0178 00 62 02", [*HOME, (0xB6, "00 01 0178 0000 00")], []),
    ("a public doesn't", "0178 00 61 02 01", [*HOME, (0x90, "00 01 0178 0000 00")], [
        *LOCAL_NAMES, (0x98, "60 0200 06 06 00"), (0xB6, "00 02 0178 0000 00")]),
    ("near and far", "0178 00 62 02  0178 00 61 02 01", HOME,
     "link: 55 NearAndFar \"x\" in a and a"),
    ("too long", "0178 00 62 84010001", HOME, "link: 57 NearTooLong \"x\" in a"),
    ("the last index", "0178 00 61 01 01", [(0x80, "0141"), (0x96, "00" * 32_763)], [
        *LOCAL_NAMES, (0x98, "60 0100 FFFF FFFF 00"), (0xB6, "00 01 0178 0000 00")]),
    ("no index left", "0178 00 61 01 01", [(0x80, "0141"), (0x96, "00" * 32_764)],
     "link: 59 TooManySegments \"x\" in a"),
]

# modules of far data, each the bodies of its SEGDEFs, and whether all of it fits in one frame
FITTING = [
    (["62 0000 04 03 00"], True), (["60 F1FF 04 03 00"], True),
    (["60 F0FF 04 03 00", "60 1000 04 03 00"], True),
    (["60 F0FF 04 03 00", "60 1100 04 03 00"], False),
    # public ones are parts of one segment, and common ones lie over each other
    (["68 0080 04 03 00", "68 0080 04 03 00"], True), (["78 00C0 04 03 00"] * 3, True),
    (["78 00C0 04 03 00", "60 0140 04 03 00"], False), (["74 00C0 04 03 00"] * 2, False),
    # a gap before a page counts, and so does what stands in the first paragraph before the first one
    (["60 0100 04 03 00", "80 00FF 04 03 00"], True),
    (["60 0100 04 03 00", "80 01FF 04 03 00"], False),
    (["20 0700 01 01 00", "20 F9FF 04 03 00"], True),
    (["20 0700 01 01 00", "20 FAFF 04 03 00"], False),
    # of other classes nothing counts, and of absolute segments nothing does
    (["62 0000 04 03 00", "62 0000 01 01 00"], True),
    (["62 0000 04 03 00", "00 00B8 00 1000 04 03 00"], True)]

# segments: of far data, private, public, a stack and common, of another class, and absolute
PRIVATE_FAR, PUBLIC_FAR, STACK_FAR, COMMON_FAR = (
    (0x98, f"{first} 0800 02 01 00") for first in ("60", "68", "74", "78"))
OTHER_SEGMENT, ABSOLUTE_FAR = (0x98, "68 0800 02 02 00"), (0x98, "00 00B8 00 0800 02 01 00")
BYTES_OF_1, BYTES_OF_2 = (0xA0, "01 0000 00000000"), (0xA0, "02 0000 00000000")

# title, records behind the names, and what the module has then: its groups with their members, the
# group and the segment of each public, and the frame and the target of each fix-up and of the start
GROUPED = [
    ("each kind", [PRIVATE_FAR, PUBLIC_FAR, STACK_FAR, COMMON_FAR], "AUTO 1 2 3 4"),
    ("neither another class nor an absolute one", [OTHER_SEGMENT, ABSOLUTE_FAR, PUBLIC_FAR],
     "AUTO 3"),
    ("nothing", [OTHER_SEGMENT, BYTES_OF_1, (0x9C, "C400 04 01 01")], "F0 1 T0 1"),
    ("what is in a group", [PUBLIC_FAR, PUBLIC_FAR, PUBLIC_FAR, (0x9A, "04"), (0x9A, "02 FF01 FF03")],
     "G, TBL 1 3, AUTO 2"),
    ("the frame of a segment", [
        PUBLIC_FAR, OTHER_SEGMENT, BYTES_OF_2, (0x9C, "C400 04 01 02  C400 04 02 01")],
     "AUTO 1, F1 1 T0 2, F0 2 T0 1"),
    ("that of the target", [
        PUBLIC_FAR, OTHER_SEGMENT, BYTES_OF_2, (0x9C, "C400 54 01  C400 54 02  8400 54 01")],
     "AUTO 1, F1 1 T0 1, F5 T0 2, F1 1 T0 1"),
    ("that of the location", [
        PUBLIC_FAR, OTHER_SEGMENT, BYTES_OF_1, (0x9C, "C400 44 02"), BYTES_OF_2,
        (0x9C, "C400 44 01")], "AUTO 1, F1 1 T0 2, F4 T0 1"),
    ("by a thread", [PUBLIC_FAR, BYTES_OF_1, (0x9C, "40 01  C400 84 01")], "AUTO 1, F1 1 T0 1"),
    ("an external and groups", [
        PUBLIC_FAR, OTHER_SEGMENT, (0x9A, "04 FF02"), (0x8C, "0178 00"), BYTES_OF_2,
        (0x9C, "C400 56 01  C400 26 01 01  C400 14 01 01  C400 55 01")],
     "G 2, AUTO 1, F5 T2 1, F2 1 T2 1, F1 1 T0 1, F5 T1 1"),
    ("publics", [
        PUBLIC_FAR, OTHER_SEGMENT, (0x9A, "04 FF02"), (0x90, "00 01 0161 0000 00"),
        (0x90, "00 02 0162 0000 00"), (0x90, "01 01 0163 0000 00"),
        (0x90, "00 00 0010 0164 0000 00"), (0xB6, "00 01 0165 0000 00")],
     "G 2, AUTO 1, a 2 1, b 0 2, c 1 1, d 0 0, e 2 1"),
    ("a start", [PUBLIC_FAR, (0x8A, "C1 50 01 0000")], "AUTO 1, F1 1 T0 1"),
    ("a start elsewhere", [PUBLIC_FAR, OTHER_SEGMENT, (0x8A, "C1 00 02 01 0000")],
     "AUTO 1, F0 2 T0 1"),
]

# names of a module of COMDATs: f and F are the fourth and the fifth, and the sixth is a class
F_LISTED = (0x96, "00 04434F4445 055F54455854 0166 0146 084641525F44415441")
# records of f with what they say and their data: any is taken, one of the same size, one with the same data, none beside
# another, and a local one, in a far segment; and one that goes on
ANY, SIZED, EXACT, NONE, LOCAL = (
    (0xC2, f"{flags} {attributes} 00 0000 00 04 4142") for flags, attributes in (
        ("00", "11"), ("00", "21"), ("00", "31"), ("00", "01"), ("04", "11")))
MORE = (0xC2, "01 11 00 0200 00 04 43")
# title, the COMDATs of modules, whether case is ignored, and what becomes of each record, by the length that the opened
# one has; or the fault, its name and the modules
FATES = [
    ("one", [[ANY]], False, "2"),
    ("two modules", [[ANY], [ANY]], False, "2, left out"),
    ("of any two the data counts for nothing", [[ANY], [(0xC2, "00 12 03 0000 00 04 FF")]], False, "2, left out"),
    ("the first of three", [[ANY], [EXACT], [SIZED]], False, "2, left out, left out"),
    ("twice in a module", [[ANY, ANY]], False, "2 left out"),
    ("other names", [[ANY], [(0xC2, "00 11 00 0000 00 05 43")]], False, "2, 1"),
    ("names that agree", [[ANY], [(0xC2, "00 11 00 0000 00 05 4142")]], True, "2, left out"),
    ("the data of one size", [[SIZED], [(0xC2, "00 21 00 0000 00 04 FFFF")]], False, "2, left out"),
    ("another size", [[SIZED], [(0xC2, "00 21 00 0000 00 04 FF")]], False, "78 f a b"),
    ("another size of any", [[ANY], [(0xC2, "00 21 00 0000 00 04 FF")]], False, "78 f a b"),
    ("another size of any behind it", [[SIZED], [(0xC2, "00 11 00 0000 00 04 FF")]], False, "78 f a b"),
    ("another size, from an offset on", [[SIZED], [(0xC2, "00 21 00 0100 00 04 4142")]], False, "78 f a b"),
    ("the same data", [[EXACT], [EXACT]], False, "2, left out"),
    ("the same data by an offset of 32 bits", [[EXACT], [(0xC3, "00 31 00 00000000 00 04 4142")]], False,
     "2, left out"),
    ("other data", [[EXACT], [(0xC2, "00 31 00 0000 00 04 4143")]], False, "79 f a b"),
    ("other data of any", [[ANY], [(0xC2, "00 31 00 0000 00 04 4143")]], False, "79 f a b"),
    ("another size and other data", [[EXACT], [(0xC2, "00 31 00 0000 00 04 41")]], False, "78 f a b"),
    ("the same bytes in two records", [[EXACT, MORE], [(0xC2, "00 31 00 0000 00 04 414243")]], False, "79 f a b"),
    ("the same bytes, but repeated", [[EXACT], [(0xC2, "02 31 00 0000 00 04 4142")]], False, "79 f a b"),
    ("as the later one spells it", [[EXACT], [(0xC2, "00 31 00 0000 00 05 4143")]], True, "79 F a b"),
    ("held against the first", [[ANY], [(0xC2, "00 11 00 0000 00 04 FF")], [SIZED]], False, "2, left out, left out"),
    ("the third", [[ANY], [SIZED], [(0xC2, "00 21 00 0000 00 04 FF")]], False, "78 f a c"),
    ("no other one", [[NONE], [ANY]], False, "2, 2"),
    ("no other one behind it", [[ANY], [NONE], [ANY]], False, "2, 2, left out"),
    ("local ones", [[LOCAL], [LOCAL], [LOCAL]], False, "2, 2, 2"),
    ("a local one before others", [[LOCAL], [(0xC2, "00 31 00 0000 00 04 FF")], [EXACT]], False, "78 f b c"),
    ("one that goes on", [[ANY, MORE], [ANY, MORE]], False, "3 continues, left out left out"),
    ("the greatest end counts", [[ANY, MORE, (0xC2, "01 11 00 0100 00 04 43")]], False, "3 continues continues"),
    ("one that goes on with nothing", [[MORE, ANY]], False, "stray 2"),
    ("one that goes on with another name", [[ANY, (0xC2, "01 11 00 0200 00 05 43"), MORE]], False, "2 stray stray"),
    ("in another case", [[ANY, (0xC2, "01 11 00 0200 00 05 43")]], True, "2 stray"),
    ("its length counts for nothing", [[SIZED, (0xC2, "01 11 00 0200 00 05 43")], [SIZED]], False, "2 stray, left out"),
    ("what is cut, or has no name, is none", [[(0xC2, "00 11 00 0000 00"), (0xC2, "00 11 00 0000 00 07"), ANY]], False,
     "2"),
]
# segments of code, of data that is common, and of a class for debuggers; a byte of the first; and what says nothing
OF_CODE, OF_COMMON, OF_DEBUG = (0x98, "68 0500 03 02 01"), (0x98, "38 0500 03 02 01"), (0x98, "28 0500 03 07 01")
HALF, KEPT = (0xA0, "01 0000 90"), (0x88, "00DA")
# title, records behind the names, what becomes of the COMDATs, and the records that they are taken as, or the fault and
# how many stand before it
TAKEN = [
    ("far code", [ANY], [2], [(0x98, "60 0200 04 02 00"), (0x90, "00 01 0166 0000 00"), (0xA0, "01 0000 4142")]),
    ("far data, of a byte's alignment", [(0xC2, "00 12 01 0000 00 04 4142")], [2], [
        (0x98, "20 0200 04 06 00"), (0x90, "00 01 0166 0000 00"), (0xA0, "01 0000 4142")]),
    ("code of 32 bits, with a type", [(0xC3, "00 13 05 01000000 8123 04 4142")], [3], [
        (0x98, "A0 0300 04 02 00"), (0x90, "00 01 0166 0000 8123"), (0xA0, "01 0100 4142")]),
    ("a local one", [LOCAL], [2], [
        (0x98, "60 0200 04 02 00"), (0xB6, "00 01 0166 0000 00"), (0xA0, "01 0000 4142")]),
    ("in the segment of a base", [OF_CODE, (0xC2, "00 10 00 0000 00 01 01 04 4142")], [2], [
        OF_CODE, (0x98, "68 0200 03 02 01"), (0x90, "01 02 0166 0000 00"), (0xA0, "02 0000 4142")]),
    ("of another alignment", [OF_CODE, (0xC2, "00 10 02 0000 00 00 01 04 4142")], [2], [
        OF_CODE, (0x98, "48 0200 03 02 01"), (0x90, "00 02 0166 0000 00"), (0xA0, "02 0000 4142")]),
    ("in a common segment", [OF_COMMON, (0xC2, "00 10 00 0000 00 00 01 04 4142")], [2], [
        OF_COMMON, (0x98, "28 0200 03 02 01"), (0x90, "00 02 0166 0000 00"), (0xA0, "02 0000 4142")]),
    ("of 65,536 bytes", [(0xC2, "00 11 00 FFFF 00 04 41")], [65_536], [
        (0x98, "62 0000 04 02 00"), (0x90, "00 01 0166 0000 00"), (0xA0, "01 FFFF 41")]),
    ("of a byte more", [(0xC2, "00 11 00 FFFF 00 04 4142")], [65_537], (49, 2)),
    ("nothing behind 65,535", [(0xC3, "00 11 00 00000100 00 04")], [65_536], (49, 2)),
    ("with data between", [OF_CODE, ANY, HALF, MORE], [3, "continues"], [
        OF_CODE, (0x98, "60 0300 04 02 00"), (0x90, "00 02 0166 0000 00"), (0xA0, "02 0000 4142"), HALF,
        (0xA0, "02 0200 43")]),
    ("what is left out, and fix-ups behind it", [OF_CODE, ANY, (0x9C, "02 01 C400 54 01"), HALF, (0x9C, "C400 5C")],
     ["left out"], [OF_CODE, KEPT, (0x9C, "02 01"), HALF, (0x9C, "C400 5C")]),
    ("fix-ups behind what is taken", [OF_CODE, ANY, (0x9C, "C400 54 01")], [2], [
        OF_CODE, (0x98, "60 0200 04 02 00"), (0x90, "00 02 0166 0000 00"), (0xA0, "02 0000 4142"),
        (0x9C, "C400 54 01")]),
    ("what debuggers read, and a segment behind it", [
        (0x96, "054457415246"), OF_DEBUG, (0xC2, "00 10 00 0000 00 00 01 04 4142"), (0x9C, "C400 54 01"), OF_CODE, ANY],
     [2, 2], [
        (0x96, "054457415246"), (0x98, "20 0000 03 07 01"), KEPT, (0x9C, ""), OF_CODE, (0x98, "60 0200 04 02 00"),
        (0x90, "00 03 0166 0000 00"), (0xA0, "03 0000 4142")]),
    ("line numbers", [(0xC4, "00 04 0100 0000"), (0xC5, "01 04 0100 00000000")], [], [KEPT, KEPT]),
    ("line numbers that are cut", [(0xC5, "01 04 0100 0000")], [], (51, 2)),
    ("a segment behind one", [ANY, OF_CODE], [2], (80, 3)),
    ("a segment behind one that is left out", [ANY, OF_CODE], ["left out"], [KEPT, OF_CODE]),
    ("one that goes on with another name", [MORE], ["stray"], (51, 2)),
    ("what is repeated", [(0xC2, "02 11 00 0000 00 04 4142")], [2], (5, 2)),
    ("what is repeated and left out", [(0xC2, "02 11 00 0000 00 04 4142")], ["left out"], [KEPT]),
    ("a frame", [(0xC2, "00 10 00 0000 00 00 00 00B8 04 4142")], [2], (5, 2)),
    ("no segment", [OF_CODE, (0xC2, "00 10 00 0000 00 00 02 04 4142")], [2], (51, 3)),
    ("no segment of the group FLAT", [
        (0x96, "04464C4154"), (0x9A, "07"), (0xC2, "00 10 00 0000 00 01 01 04 4142")], [2], (65, 4)),
    ("a segment that another one has", [ANY, (0xC2, "00 10 00 0000 00 00 01 04 4142")], [2, 2], (51, 3)),
    ("what is too long before a frame", [(0xC2, "00 10 00 FFFF 00 00 00 00B8 04 4142")], [65_537], (49, 2)),
    ("the group FLAT", [
        (0x96, "04464C4154"), (0x9A, "07"), OF_CODE, (0xC2, "00 10 00 0000 00 01 01 04 4142")], [2], (65, 5)),
    ("a number below 0", [OF_CODE, (0xC2, "00 11 00 0000 00 04 FCFFFFFF"), (0x9C, "E400 54 01")], [4], (49, 4)),
    ("what is cut", [(0xC2, "00 11 00 0000 00")], [], (51, 2)),
    ("another way to choose", [(0xC2, "00 41 00 0000 00 04 4142")], [], (51, 2)),
    ("without a fate", [ANY], [], (5, 2)),
]
# two modules that have one function, of which the first calls it: its byte is that of the first, in a paragraph of its
# own
HAS_F = [(0x80, "0141"), F_LISTED, (0x98, "28 0500 03 02 01"), (0x8C, "0166 00"), (0xA0, "01 0000 9A00000000"),
         (0x9C, "CC01 56 01"), (0xC2, "00 11 00 0000 00 04 CB"), (0x8A, "00")]
HAS_IT_TOO = [(0x80, "0142"), F_LISTED, (0xC2, "00 11 00 0000 00 04 90CB"), (0x9C, "C400 54 01"), (0x8A, "00")]
# the modules in either order, the table of relocations, and what is in memory
WITH_ONE_F = [
    (["a", "b"], "03000000", "9A 0000 0100" + "00" * 11 + "CB"), (["b", "a"], "05000000", "90CB 9A 0000 0000")]


def members_of(content):
    """The place, length and name of each member, or the fault and its place."""
    try:
        return [
            (each.place, len(each.content), each.name) for each in libraries.members(content)]
    except Fault as fault:
        return fault.number, fault.place


def names_of(bodies):
    """The names that records want and offer."""
    made = b"".join(Spelling().framed(kind, bytes.fromhex(body)) for kind, body in bodies)
    found = names.names_of(made)
    return [b" ".join(each).decode() for each in (found.wanted, found.offered)]


def named(text):
    """A module whose names are letters: before the sign - those that it wants, behind it those that
    it offers, behind : those of its variables, and behind = pairs of aliases and what they mean."""
    text, _, aliases = text.partition("=")
    text, _, communals = text.partition(":")
    wanted, offered = (letters_of(each) for each in text.split("-"))
    pairs = list(zip(letters_of(aliases[::2]), letters_of(aliases[1::2])))
    offered += [alias for alias, _ in pairs]
    return Names(
        wanted, offered, externals=wanted, communals=letters_of(communals), aliases=pairs)


def letters_of(text):
    return [letter.encode() for letter in text]


def named_libraries(texts):
    return [[named(text) for text in library] for library in texts]


def items(texts):
    return [
        Named(text[1:].encode()) if text[0] == "." else Class(text.encode())
        for text in texts]


def check_libraries():
    for title, digits, wanted in LIBRARIES:
        assert members_of(bytes.fromhex(digits)) == wanted, title
    for title, content, wanted in ARCHIVES:
        assert members_of(content) == wanted, title
    for title, bodies, *wanted in NAMES:
        assert names_of(bodies) == wanted, title
    for title, bodies, name, wanted in WANTED_AT:
        places = names.wanting_places(framed(bodies), name.encode())
        assert list(places) == wanted, title


def check_search():
    for title, modules, found, ignores_case, wanted in SEARCHES:
        choices = search.choose(
            list(map(named, modules)), named_libraries(found), search.agreed(ignores_case))
        taken = [(each.library, each.member, each.name, each.wanted_by) for each in choices]
        assert taken == wanted, title
    for title, modules, found, ignores_case, wanted in MISSING:
        members = [member for library in named_libraries(found) for member in library]
        lacking = search.missing(
            list(map(named, modules)), members, search.agreed(ignores_case))
        assert [(each.name, each.wanted_by, each.like) for each in lacking] == wanted, title


def check_order():
    for title, met, wanted in DOSSEG:
        assert ordering.in_dosseg_order(met) == wanted, title
    for title, texts, met, wanted in LISTS:
        assert ordering.in_listed_order(met, items(texts)) == wanted, title
    for title, modules, order, ignores_case, *wanted in ORDERS:
        opened, marks = ordering.ordering(modules, order, search.agreed(ignores_case))
        segments = [
            f"{each.name.decode()}.{each.class_name.decode()}.{each.alignment}" for each in opened]
        marks = [f"{mark.decode()}@{opened[number].name.decode()}" for mark, number in marks]
        assert [" ".join(segments), " ".join(marks)] == wanted, title


def check_directives():
    for text, wanted in SPLIT:
        assert directives.split_words(text) == wanted, text
    without = vars(Job(packs_far_data=True, has_null_bytes=False))
    for title, text, wanted in DIRECTIVES:
        try:
            job = vars(directives.read_directives(directives.lines_of(text)))
            found = {name: value for name, value in job.items() if value != without[name]}
        except directives.DirectiveFault as fault:
            found = fault.text
        assert found == wanted, title


def line_answer(language, words, variable, files):
    """What the job of a line has that a job of no options hasn't, or its fault."""
    without = vars(Job(
        map_form=language, ignores_case=True, form=Form("exe"), has_null_bytes=language == "link"))
    try:
        front, text, _ = line_jobs.text_of(language, words, DosFiles(PlacedFiles(files)), variable)
        job = vars(line_jobs.job_of(language, text, front))
        return {name: value for name, value in job.items() if value != without[name]}
    except line_jobs.LineRefused as refused:
        return refused.text


def check_lines():
    plain = {path: content for path, content in LINE_FILES.items() if path != "Tlink.cfg"}
    for title, language, words, wanted in LINES:
        found = line_answer(language, words, "", plain)
        assert found == wanted, (title, found)
    for title, language, front, words, wanted in FRONTS:
        is_file = isinstance(front, bytes)
        files = {**plain, "tlink.CFG": front} if is_file else LINE_FILES
        found = line_answer(language, words, "/z" if is_file else front, files)
        assert found == wanted, (title, found)
    made = code_module(
        b"x", records.PublicNames(0, 1, None, [PublicName(b"b", 3, 0)]),
        records.PublicNames(0, 0, 0x40, [PublicName(b"a", 2, 0)]))
    assert link_map.map_of(image.link([made], False), "link").decode() == MAP_OF_LINK


def lowered(made, keeps_debug, means=lowering.itself):
    """The bytes of records that are lowered, or the fault and how many records stand before it."""
    try:
        return lowering.lowered(framed(made), keeps_debug, means=means)
    except Fault as fault:
        places = [len(framed(made[:count])) for count in range(len(made))]
        return fault.number, places.index(fault.place)


def check_lowering():
    for title, keeps_debug, made, wanted in LOWERED:
        wanted = wanted if isinstance(wanted, tuple) else framed(wanted)
        assert lowered(made, keeps_debug) == wanted, title
    _, _, made, wanted = LOWERED[0]
    place = lowering.own_place(framed(made), framed(wanted), len(framed(wanted[:3])))
    assert place == len(framed(made[:3]))


def module_of(made):
    """The module of records, with a header before them and an end behind them where they have none."""
    end = [] if made[-1][0] == 0x8A else [END]
    return module.read(framed([(0x80, "0141"), *made, *end]), None)


def told_reference(reference):
    """The methods of a frame and a target, with their indexes."""
    sides = [("F", reference.frame), ("T", reference.target)]
    return " ".join(
        f"{letter}{side.method:d}" + (f" {side.index}" if side.method.has_index else "")
        for letter, side in sides)


def told_references(found):
    """Those of the fix-ups of a module, and of its start."""
    references = [fixup.reference for data in found.data for fixup in data.fixups]
    references += [] if found.start is None else [found.start.reference]
    return list(map(told_reference, references))


def grouped(made):
    """What a module of records has with far data in a group."""
    found = module_of([FAR_NAMES, *made])
    far_data.put_in_group(found)
    told = [" ".join([each.name.decode(), *map(str, each.segments)]) for each in found.groups]
    told += [f"{each.name.decode()} {each.group} {each.segment}" for each in found.publics]
    return ", ".join(told + told_references(found))


def fates_of(bodies, ignores_case):
    """What becomes of the COMDATs of modules of these, or their fault."""
    made = [
        linking.Module(word, framed([(0x80, "0141"), F_LISTED, *records, END]), Names())
        for word, records in zip("abc", bodies)]
    try:
        found = comdats.fates(made, search.agreed(ignores_case))
    except Fault as fault:
        return f"{fault.number} {fault.name.decode()} {' '.join(fault.words)}"
    return ", ".join(" ".join(map(str, each)) for each in found)


def taken_of_comdats(made, fates):
    """The bytes of records that are taken, of which it is known what becomes of COMDATs; or the fault and how many
    records stand before it."""
    front, fault = taking.front_of(framed(made), False, lowering.itself, fates)
    if fault is None:
        return front
    places = [len(framed(made[:count])) for count in range(len(made))]
    return fault.number, places.index(fault.place)


def check_comdats():
    for title, modules, ignores_case, wanted in FATES:
        assert fates_of(modules, ignores_case) == wanted, (title, fates_of(modules, ignores_case))
    front = [(0x80, "0141"), F_LISTED]
    for title, made, fates, wanted in TAKEN:
        wanted = wanted if isinstance(wanted, tuple) else framed([*front, *wanted, END])
        found = taken_of_comdats([*front, *made, END], fates)
        assert found == wanted, (title, found.hex() if isinstance(found, bytes) else found)
    # the record that a fault of a later one stands at
    made, wanted = [*front, ANY, HALF, END], [*front, *TAKEN[0][3], HALF, END]
    for number, own in enumerate([0, 1, 2, 2, 2, 3, 4]):
        place = lowering.own_place(framed(made), framed(wanted), len(framed(wanted[:number])))
        assert place == len(framed(made[:own])), number
    files = {"a": framed(HAS_F), "b": framed(HAS_IT_TOO)}
    for names, table, wanted in WITH_ONE_F:
        program = linking.link(Job(given(names), "out"), files).files["out"]
        assert program[28:] == bytes.fromhex(table + wanted), (names, program.hex())


def check_far_data():
    for bodies, wanted in FITTING:
        modules = [module_of([LISTED, (0x98, body)]) for body in bodies]
        assert far_data.fits(modules) == wanted, bodies
    # the last index of a group; with none left the module stays as it is
    for taken, frame in [(32_766, Direct(Method.GROUP, 32_767)), (32_767, Direct(Method.TARGET))]:
        found = module_of([FAR_NAMES, PUBLIC_FAR, *[(0x9A, "04")] * taken, (0x8A, "C1 50 01 0000")])
        far_data.put_in_group(found)
        assert (len(found.groups), found.start.reference.frame) == (32_767, frame), taken
    for title, made, wanted in GROUPED:
        assert grouped(made) == wanted, title


def communal_answer(bodies, offered, ignores_case):
    """The segments and variables of the module for COMDEFs of these bodies, or the fault's line."""
    taken = [
        linking.Module(word, framed([(0xB0, body)]), Names(offered=offered.encode().split()))
        for word, body in zip("abc", bodies)]
    try:
        found = communal.variables(taken, search.agreed(ignores_case))
        content = communal.communal_module(found, [])
    except Fault as fault:
        return fault.line().partition(": ")[2].strip()
    if content is None:
        return ""
    made = module.read(content, None)
    lengths = " ".join(str(each.length) for each in made.segments)
    places = [f"{each.name.decode()} {each.segment}:{each.offset}" for each in made.publics]
    return f"{lengths} | {', '.join(places)}"


def alias_list(text):
    """Aliases of words in pairs, of a record at place 0."""
    words = text.encode().split()
    return [aliases.Alias(one, other, 0) for one, other in zip(words[::2], words[1::2])]


def endless(made):
    """The line of the first alias of modules that goes round for ever."""
    modules = [
        linking.Module(word, content, weak.names_of(content))
        for word, content in zip("abc", map(framed, made))]
    key = search.agreed(False)
    try:
        weak.meanings(modules, [], key)
    except Fault as fault:
        return fault.line(program="doslink")
    return None


def check_aliases():
    for title, ignores_case, pairs, name, wanted in MEANINGS:
        found = aliases.meaning(alias_list(pairs), name.encode(), search.agreed(ignores_case))
        assert found == (None if wanted is None else wanted.encode()), title
    for title, made, wanted in ALIASES:
        found = [(each.place, each.name, each.substitute) for each in aliases.aliases(framed(made))]
        assert found == wanted, title
    for title, bodies, wanted in ENDLESS:
        assert endless([[(0xC6, body)] for body in bodies]) == wanted, title
    for title, pairs, made, wanted in RENAMED:
        found = alias_list(pairs)
        means = functools.partial(aliases.meaning, found, key=search.agreed(False))
        assert lowered(made, False, means) == framed(wanted), title


def taken_of(modules):
    """The modules of a link of these."""
    return [
        linking.Module("a", content, weak.names_of(content)) for content in map(framed, modules)]


def variables_of(text):
    """Communal variables of these names."""
    return [communal.Variable(each.encode(), None, "a") for each in text.split()]


def meanings_of(name, modules, variables, ignores_case):
    """What a name means in each module of a link of these."""
    found = weak.meanings(taken_of(modules), variables_of(variables), search.agreed(ignores_case))
    return b" ".join(means(name) for means in found).decode()


def local_ones_of(modules, variables, ignores_case):
    """The local externals that those of the first module mean as it is linked."""
    taken, made, key = taken_of(modules), variables_of(variables), search.agreed(ignores_case)
    means = weak.meanings(taken, made, key)[0]
    linked = lowering.lowered(taken[0].content, False, means=means)
    return weak.local_ones(linked, weak.defined_names(taken, made, key), key)


def check_defaults():
    for title, bodies, wanted, names_wanted, names_needed in DEFAULTS:
        content = framed(bodies)
        found = [
            (one.place, index, one.name, one.substitute or one.index)
            for index, one in weak.defaults(content, [weak.WEAK, weak.LAZY])]
        assert found == wanted, title
        assert b" ".join(weak.names_of(content).wanted).decode() == names_wanted, title
        assert b" ".join(weak.names_of(content).needed).decode() == names_needed, title
    for title, modules, variables, ignores_case, wanted in UNDEFINED:
        assert meanings_of(b"a", modules, variables, ignores_case) == wanted, title
    for title, own, others, variables, ignores_case, wanted in LOCAL_DEFAULTS:
        assert local_ones_of([own, *others], variables, ignores_case) == wanted, title
    for title, made, wanted in REDIRECTED:
        found = module_of([*REDIRECTED_HOME, *made])
        found.redirect_externals({2: 3, 3: 4})
        assert ", ".join(told_references(found)) == wanted, title
    for title, modules, wanted in ENDLESS_DEFAULTS:
        assert endless(modules) == wanted, title


def check_communals():
    for title, bodies, offered, ignores_case, wanted in COMMUNALS:
        assert communal_answer(bodies, offered, ignores_case) == wanted, title
    taken = [linking.Module("a", framed([(0xB0, COMMUNAL_OF_IT)]), Names())]
    found = communal.variables(taken, search.agreed(False))
    assert communal.communal_module(found, []) == framed(COMMUNAL_MODULE)
    for title, segment, indexes, group, wanted in NEAR_SEGMENTS:
        content = framed([
            (0x80, "00"), (0x96, OF_BSS), (0x98, segment + indexes), (0x9A, group + "FF 01"),
            (0x8A, "00")])
        assert communal.has_near_segment(content) == wanted, title


def local_answer(body, home):
    """The bytes of a module with the variables that this LCOMDEF declares, or the fault's line."""
    declaring = linking.Module("a", framed([(0xB8, body)]), Names())
    try:
        return local.with_locals([declaring], [framed([*home, END])], search.agreed(False))[0]
    except Fault as fault:
        return fault.line().partition(": ")[2].strip()


def check_locals():
    for title, body, home, wanted in LOCALS:
        wanted = wanted if isinstance(wanted, str) else framed([*home, *wanted, END])
        assert local_answer(body, home) == wanted, title


LACKS = [
    f"doslink: warning: no module has a {each}" for each in ("start", "stack", "byte of code")]


def without_lacks(text):
    """Lines without those that say what a program lacks, which most of these programs do."""
    return "".join(line + "\n" for line in text.splitlines() if line not in LACKS)


def check_new_names():
    for one, other, listed, unlisted in NEW_NAMES:
        for kind, wanted in ((PlacedFiles, listed), (UnlistedFiles, unlisted)):
            files = DosFiles(kind({}))
            assert (files.becomes(one) == files.becomes(other)) == wanted, (kind, one, other)


def check_links():
    for title, asked, folders, wanted, told in LINKS:
        answer = linking.link(Job(**{"out": "out", "is_verbose": True, **asked}), FILES, folders)
        if wanted[:1].isdigit():
            assert answer.files["out"] == bytes.fromhex(wanted), title
        else:
            assert without_lacks(answer.error.decode()) == wanted, title
        assert answer.output == told.encode(), title
    answer = linking.link(Job(given(["absolute.obj"]), "out", is_quiet=True), FILES)
    assert answer.error.decode().splitlines() == LACKS, answer.error
    reached = [(title, bytes.fromhex(content), True) for title, content in REACHED]
    reached += [(title, reaching_module(fixups), is_told) for title, fixups, is_told in REACHING]
    for title, content, is_told in reached:
        answer = linking.link(Job(given(["far.obj"]), "out"), {"far.obj": content})
        wanted = f'doslink: warning: "far" of far.obj {linking.IS_REACHED}\n' if is_told else ""
        assert without_lacks(answer.error.decode()) == wanted, title
    for words, wanted in SPOKEN:
        files = PlacedFiles(SPOKEN_FILES)
        answer = linking.link_by_directives(words, files, can_be_made=files.can_be_made)
        assert without_lacks(answer.error.decode()) == wanted, words
    for language, words, wanted in NAMED_BY_LINES:
        answer = linking.link_by_line(language, words, PlacedFiles({**FILES, **DEFINED_FILES}), ["G"])
        assert without_lacks(answer.error.decode()) == wanted, words
    for called, wanted in CALLED_SO:
        assert linking.language_of(called) == wanted, called
    for length, wanted in ((1, ["start", "byte of code"]), (0, ["start", "stack", "byte of code"])):
        made = framed([(0x80, "0153"), (0x96, "00 05535441434B"), (0x98, f"74 {length:02X}00 02 02 01"), (0x8A, "00")])
        answer = linking.link(Job(given(["absolute.obj", "s.obj"]), "out"), {**FILES, "s.obj": made})
        assert answer.error.decode().splitlines() == [each for each in LACKS if each.split(" a ")[-1] in wanted], length
    for asked, wanted in OUTS:
        assert linking.Linking(Job(**asked), {}, [], None, None).places()[0] == wanted, asked
    job = Job(given(["m.obj"], ["x.lib"]), "out", "map", order=ordering.DOSSEG)
    assert linking.link(job, FILES).files["map"].endswith(TABLE.encode())


def check():
    """Raises an AssertionError where the model gives another answer."""
    check_libraries()
    check_search()
    check_order()
    check_lowering()
    check_comdats()
    check_far_data()
    check_aliases()
    check_defaults()
    check_communals()
    check_locals()
    check_directives()
    check_lines()
    check_new_names()
    check_links()
