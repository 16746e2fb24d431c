"""How each block of commands or of output on a page is run: over which files, and by which words.

A block is named by its first line. The files are made here, by the records of their modules; tools/commands runs them.
"""

import struct
from dataclasses import dataclass, field

from making import (
    ALIAS, BAKPAT, COMDAT, COMDEF, FIXUPP, GRPDEF, LEDATA, LNAMES, MODEND, PUBDEF, SEGDEF, SHORTEST, THEADR, archive,
    comment, externals, library, member, module, name, names, placed, publics, record, uses)


@dataclass(frozen=True)
class Run:
    """The block is commands, which are run one after the other in a new folder with these files. Behind one that
    begins with `$ ` stands what it prints."""
    files: dict = field(default_factory=dict)
    wants: tuple = ()  # programs that have to be there, else the block is passed over


@dataclass(frozen=True)
class Then:
    """The block is commands that go on in the folder of the block before."""


@dataclass(frozen=True)
class Shown:
    """The block stands in what this command prints, in the folder of the block before; `...` stands for more of it."""
    command: str


@dataclass(frozen=True)
class Printed:
    """The block stands in what this command prints, in a new folder with these files."""
    command: str
    files: dict


@dataclass(frozen=True)
class Said:
    """A run in a folder with these files, which ends with a status and says lines on standard error."""
    command: str
    status: int
    files: dict = field(default_factory=dict)


@dataclass(frozen=True)
class Lines:
    """Each line of the block is said by one of these runs, and each run says one of them."""
    runs: tuple


@dataclass(frozen=True)
class Written:
    """The block is a file of this name, by which a command is run in a new folder with these other files."""
    name: str
    command: str
    files: dict
    wants: tuple = ()


@dataclass(frozen=True)
class Untried:
    """The block can't be run here."""
    reason: str


def segment(attributes, length, name_index, class_index):
    return record(SEGDEF, struct.pack("<BHBBB", attributes, length, name_index, class_index, 1))


def data(content, index=1, offset=0):
    return record(LEDATA, struct.pack("<BH", index, offset) + content)


def near(variable, length):
    return record(COMDEF, name(variable) + b"\0\x62" + b"\x84" + struct.pack("<I", length)[:3])


def far(variable, count, size):
    return record(COMDEF, name(variable) + b"\0\x61" + bytes([count, size]))


def stack_of(length):
    """A module with a start, a byte of code and a stack."""
    segments = segment(0x28, 1, 2, 1) + segment(0x74, length, 3, 3)
    start = record(MODEND, b"\xC1\x50\1\0\0")
    return record(THEADR, name(b"main.c")) + names(b"", b"CODE", b"STACK") + segments + data(b"\x90") + start


def filled(content, length):
    """A module with a comment in front of its end, which makes it so long."""
    end = record(MODEND, b"\0")
    return content[:-len(end)] + comment(0, bytes(length - len(content) - SHORTEST)) + end


# a module of C that prints, its library, and a start-up module
HELLO = module(b"hello.c", externals(b"_printf"), publics(b"_main"), uses(1))
PRINTF = module(b"printf", publics(b"_printf"))
CLIB = library(16, PRINTF)
START_UP = module(b"c0s", externals(b"_main"), uses(1))
EMPTY = module(b"main.c", data(b"\x90"))
# the same with the names of its libraries, as compilers write them
FOR_MICROSOFT = module(b"hello.c", comment(0x9F, b"SLIBCE"), externals(b"_printf"), uses(1))
FOR_WATCOM = module(b"hello.c", comment(0x9F, b"clibs"), comment(0x9F, b"math87s"), externals(b"_printf"), uses(1))
TURBO_C = {
    "TC/LIB/C0S.OBJ": START_UP, "TC/LIB/CS.LIB": CLIB, "TC/LIB/EMU.LIB": library(16, module(b"emu")),
    "TC/LIB/MATHS.LIB": library(16, module(b"maths"))}
MICROSOFT_C = {"MSC/LIB/SLIBCE.LIB": CLIB}
WATCOM = {"watcom/lib286/dos/clibs.lib": CLIB, "watcom/lib286/math87s.lib": library(16, module(b"math"))}
# sources for NASM
PUT_ASM = b"global put\nsegment code class=CODE\nput: ret\n"
PRINT_ASM = b"global print\nextern put\nsegment code class=CODE\nprint: call put\nret\n"
MAIN_ASM = b"extern print\nsegment code class=CODE\n..start: call print\n"
COM_ASM = b"segment code class=CODE\nresb 100h\n..start: ret\n"
BOOT_ASM = b"segment code class=CODE\n..start: jmp $\ntimes 510-($-$$) db 0\ndw 0xAA55\n"
SOURCES = {"PRINT.ASM": PRINT_ASM, "PUT.ASM": PUT_ASM, "MAIN.ASM": MAIN_ASM}
# a makefile that has its linkers in variables, and what it links; it fails where a program isn't there then
PUTS = module(b"puts", publics(b"_puts"))
OLD_MAKEFILE = {
    "Makefile": b"all: BIG.EXE SMALL.EXE\n\ttest -s BIG.EXE -a -s BIG.MAP -a -s SMALL.EXE\n"
                b"BIG.EXE: MAIN.OBJ PUTS.OBJ\n\t$(LINK) MAIN+PUTS,$@,BIG.MAP,CLIB;\n"
                b"SMALL.EXE: MAIN.OBJ\n\t$(TLINK) /x main, $@, , clib\n",
    "MAIN.OBJ": HELLO, "PUTS.OBJ": PUTS, "CLIB.LIB": CLIB}

# names that are missing: one that is like another, and many of them
MISSES = placed(b"main.c", {145: externals(b"_prinft")})
WANTS_PRINT = module(b"main.c", externals(b"print"), uses(1))
# members that doslib tells of, and one that has a wrong closing byte in its record at 1060
TOLD = library(
    512, filled(module(b"puts", publics(b"_puts"), externals(b"_write")), 345),
    filled(
        module(b"printf", publics(b"_printf"), near(b"_errno", 2), externals(b"_puts"), comment(0x9F, b"EMU")), 1024))
CUT_IN_TWO = TOLD[:1024] + module(b"sprintf", publics(b"_sprintf")[:-1] + b"\1")

# one that doslib shows, and one whose PUBDEF lacks its last byte
COUNTING = (
    record(THEADR, name(b"count.asm")) + names(b"", b"_TEXT", b"CODE") + segment(0x28, 5, 2, 3)
    + record(PUBDEF, b"\0\1\6_count\0\0\0") + externals(b"_next") + data(b"\x9A\0\0\0\0")
    + record(FIXUPP, b"\xCC\x01\x56\x01") + comment(0x9F, b"EMU") + record(MODEND, b"\0"))
CUT_PUBLIC = (
    record(THEADR, name(b"cut.asm")) + record(PUBDEF, b"\0\1\6_count\0\0") + record(MODEND, b"\0"))
# a program of which it tells: two paragraphs of header with an entry, a paragraph of code, and its data
HELLO_EXE = (struct.pack("<2s15H", b"MZ", 0x35, 1, 1, 2, 0x11, 0xFFFF, 2, 0x100, 0, 0, 0, 0x1C, 0, 1, 0)
             + bytes.fromhex("B8 0100  8E D8  B4 09  31 D2  CD 21  B8 004C  CD 21") + b"Hi!\r$")
# one that differs from it by a byte of its code
OLD_EXE = HELLO_EXE.replace(bytes.fromhex("B4 09"), bytes.fromhex("B4 40"))
# its module
HELLO_ASM = (
    record(THEADR, name(b"hello.asm")) + names(b"", b"_TEXT", b"CODE", b"_DATA", b"DATA") + segment(0x68, 16, 2, 3)
    + segment(0x68, 5, 4, 5) + data(bytes.fromhex("B8 0000  8E D8  B4 09  31 D2  CD 21  B8 004C  CD 21"))
    + record(FIXUPP, b"\xC8\x01\x54\x02") + data(b"Hi!\r$", 2) + record(MODEND, b"\0"))
STRANGE_VARIABLE = record(THEADR, name(b"main.c")) + record(COMDEF, b"\1x\0\x63\1") + record(MODEND, b"\0")
# modules of a library, one with a name of another, and one that wants one of them and another name
LINE, CIRCLE, FILL = (module(b"%s.asm" % each, publics(b"_%s" % each)) for each in (b"line", b"circle", b"fill"))
OLD_LINE = module(b"oldline.asm", publics(b"_line"))
DRAWS = module(b"main.asm", externals(b"_line", b"_exit"), publics(b"_main"), uses(1, 2))
# the table of symbols of an archive: one name, whose member's header stands behind the table's 14 bytes
OF_ELF = archive(
    member(b"/", struct.pack(">2I", 1, 8 + 60 + 14) + b"print\0"), member(b"print.o/", b"\x7FELF\1\1\1" + bytes(9)))
MISSES_TWO = placed(b"main.c", {145: externals(b"_prinft"), 167: externals(b"strlen")})
STRLEN = library(16, module(b"strlen", publics(b"_strlen")))
MANY = module(b"main.c", externals(*(b"n%d" % number for number in range(2_000))))
# records that aren't taken
WITH_BACKPATCH = placed(b"print.c", {312: record(BAKPAT, b"\1\1\0\0\1\0")})
PATCHED_MEMBER = placed(b"printf", {60: publics(b"_printf"), 312: record(BAKPAT, b"\1\1\0\0\1\0")})
CUT_LIBRARY = library(32_768, PRINTF)[:65_536]
LONG_SEGDEF = record(THEADR, name(b"main.module")) + record(SEGDEF, b"\x28\1\0\0\0\0\0")
# a module whose names stand in one twice
MAIN_TWICE = library(16, module(b"main", publics(b"_main", b"_printf")))
DEFINES_X = module(b"x.c", publics(b"x"))
UNRESOLVED = placed(b"main.c", {100: externals(b"_prinft"), 136: uses(1)})  # whose fix-ups stand at 145
LARGE = record(THEADR, name(b"x.c")) + names(b"", b"CODE") + segment(0x28, 60_000, 2, 2) + data(bytes(60_000)) + record(
    MODEND, b"\0")
HALF_OF_TEXT = record(THEADR, name(b"x.c")) + names(b"", b"CODE", b"_TEXT") + segment(0x28, 33_385, 3, 2) + record(
    MODEND, b"\0")
WRONG_SUM = HELLO[:10] + bytes([HELLO[10] ^ 1]) + HELLO[11:]
# communal variables that clash, and one that is too long
WANTS_BUFFER = module(b"main.c", near(b"_buffer", 2), externals(b"_flush"))
FAR_BUFFER = library(16, module(b"buffer", far(b"_buffer", 2, 1), publics(b"_flush")))
LONG_TABLE = module(b"main.c", near(b"_table", 65_537))
# a COMDAT of which all have one size
TABLE_FRONT = record(LNAMES, name(b"_table")) + record(SEGDEF, b"\x28\0\0\2\1\1")
HAS_TABLE = module(
    b"main.c", TABLE_FRONT, record(COMDAT, b"\0\x20\1\0\0\0\0\1\3" + bytes(4)), externals(b"_sum"))
OTHER_TABLE = library(16, module(
    b"table", TABLE_FRONT, record(COMDAT, b"\0\x20\1\0\0\0\0\1\3" + bytes(6)), publics(b"_sum")))
FAR_X = module(b"main.c", far(b"x", 1, 2), uses(1))
# an alias that stands for itself
WANTS_READ = module(b"main.c", externals(b"read"))
OLD_NAMES = library(16, record(THEADR, name(b"read")) + comment(0, b"------") + record(ALIAS, 2 * name(b"read"))
                    + record(MODEND, b"\0"))
# data between marks
CLEARED = (record(THEADR, name(b"main.c")) + names(b"", b"_BSS", b"BSS", b"DGROUP") + segment(0x48, 4, 2, 3)
           + record(GRPDEF, b"\4\xFF\1") + externals(b"_edata", b"_end") + data(b"\1") + record(MODEND, b"\0"))
WIDE_SEGMENT = record(THEADR, name(b"hello.c")) + names(b"", b"CODE") + segment(0x29, 1, 2, 2) + data(b"\x90") + record(
    MODEND, b"\0")
SPACE = record(THEADR, name(b"main.c")) + names(b"", b"BSS") + segment(0x28, 4, 2, 2) + record(MODEND, b"\0")

FREE_PASCAL = Untried("Free Pascal's compiler for DOS isn't at hand: tools/client/run builds it, and links by it")
SHOWN = {
    "README.md": {
        "./install PREFIX                # programs (PREFIX/bin), man pages, documents, examples": Run(),
        "mkdir -p out && ./omf link -o out/HELLO.EXE -m out/HELLO.MAP examples/hello/HELLO.OBJ": Run(),
        "segments": Shown("cat out/HELLO.MAP"),
        "./omf show examples/hello/HELLO.OBJ": Then(),
        "./omf load out/HELLO.EXE 1000": Then(),
        "$ ar qcS out/LETTERS.A examples/letters/*.OBJ": Then(),
        "nasm -f obj A.ASM -o A.OBJ && doslink -o A.EXE A.OBJ": Run({"A.ASM": PUT_ASM}, ("nasm",)),
        "doslink -o A.EXE A.OBJ": Run({"A.OBJ": EMPTY}),
        "doslink -o A.EXE -L TC/LIB TC/LIB/C0S.OBJ A.OBJ -l EMU.LIB -l MATHS.LIB -l CS.LIB": Run(
            {"A.OBJ": HELLO, **TURBO_C}),
        "doslink -o A.EXE -L MSC/LIB A.OBJ": Run({"A.OBJ": FOR_MICROSOFT, **MICROSOFT_C}),
        "doslink -o A.EXE -L watcom/lib286/dos -L watcom/lib286 A.OBJ": Run({"A.OBJ": FOR_WATCOM, **WATCOM}),
        "fpc -Tmsdos -Pi8086 -Wmlarge -Xe -FDPREFIX/share/omf/bin A.PAS": FREE_PASCAL,
        "OBJECTS = MAIN.OBJ PRINT.OBJ PUT.OBJ": Written("Makefile", "make", SOURCES, ("make", "nasm")),
        'make LINK="doslink --as link" TLINK="doslink --as tlink"': Run(OLD_MAKEFILE, ("make",)),
        'doslink: MAIN.OBJ: "_prinft" is missing: record 145 (00000091), wanted by "main.c"': Lines((
            Said("doslink MAIN.OBJ", 1, {"MAIN.OBJ": MISSES}),
            Said("doslink PRINT.OBJ", 1, {"PRINT.OBJ": WITH_BACKPATCH}))),
        "rt ci": Untried("it is the gate, which runs this"),
    },
    "docs/COMMANDS.md": {
        "omf: A.OBJ: 4 Closing at record 0": Lines((
            Said("omf check A.OBJ", 1, {"A.OBJ": WRONG_SUM}),
            Said("omf check A.OBJ", 1, {"A.OBJ": LONG_SEGDEF}),
            Said("omf link -o X.EXE A.OBJ B.OBJ", 1, {"A.OBJ": DEFINES_X, "B.OBJ": DEFINES_X}),
            Said("mkdir HELLO.MAP && omf link -o X.EXE -m HELLO.MAP A.OBJ", 3, {"A.OBJ": EMPTY}),
            Said("ulimit -v 8000; exec omf link -o X.EXE $(yes A.OBJ | head -200)", 3, {"A.OBJ": LARGE}))),
        "nasm -f obj A.ASM -o A.OBJ": Run({"A.ASM": PUT_ASM}, ("nasm",)),
    },
    "docs/FAULTS.md": {
        "omf: main.obj: 27 Unresolved at record 145": Lines((
            Said("omf link -o X.EXE main.obj", 1, {"main.obj": UNRESOLVED}),
            Said("omf link -o X.EXE A.OBJ B.OBJ", 1, {"A.OBJ": DEFINES_X, "B.OBJ": DEFINES_X}))),
        "omf show main.obj | grep -A 20 ^00000091": Run({"main.obj": UNRESOLVED}),
    },
    "docs/DOSLINK.md": {
        "doslink -o HELLO.EXE -m HELLO.MAP HELLO.OBJ -l CLIB.LIB": Run({"HELLO.OBJ": HELLO, "CLIB.LIB": CLIB}),
        "fpc -Tmsdos -Pi8086 -Wmlarge -Xe -FDPREFIX/share/omf/bin HELLO.PAS": FREE_PASCAL,
        "nasm -f obj PRINT.ASM -o print && nasm -f obj PUT.ASM -o put && ar qcS RUN.A print put": Run(
            SOURCES, ("nasm", "ar")),
        "doslink -o HELLO.EXE HELLO.OBJ": Run({"HELLO.OBJ": EMPTY}),
        "doslink -o HELLO.EXE -L TC/LIB TC/LIB/C0S.OBJ HELLO.OBJ -l EMU.LIB -l MATHS.LIB -l CS.LIB": Run(
            {"HELLO.OBJ": HELLO, **TURBO_C}),
        "doslink -o HELLO.EXE -L MSC/LIB HELLO.OBJ": Run({"HELLO.OBJ": FOR_MICROSOFT, **MICROSOFT_C}),
        "doslink -o HELLO.EXE -L watcom/lib286/dos -L watcom/lib286 HELLO.OBJ": Run(
            {"HELLO.OBJ": FOR_WATCOM, **WATCOM}),
        'make LINK="doslink --as link" TLINK="doslink --as tlink"': Run(OLD_MAKEFILE, ("make",)),
        "doslink --as link /NOD 'MAIN+PRINT,MAIN,MAIN,CLIB;'": Run({
            "MAIN.OBJ": START_UP, "PRINT.OBJ": HELLO, "CLIB.LIB": CLIB}),
        "doslink [-o OUT] [-m MAP] [--map-form NAME] [-L FOLDER].. [-l LIB].. [--ignore-case] [--order ORDER]": Untried(
            "tools/lists holds it against help"),
        "nasm -f obj HELLO.ASM -o HELLO.OBJ && doslink --form com HELLO.OBJ": Run(
            {"HELLO.ASM": COM_ASM, "BOOT.ASM": BOOT_ASM}, ("nasm",)),
        "tlink /c /x c0s main util, prog.exe, prog.map, emu maths cs": Run({
            "c0s.obj": START_UP, "main.obj": HELLO, "util.obj": PUTS, "cs.lib": CLIB, "slibce.lib": CLIB,
            "emu.lib": library(16, module(b"emu")), "maths.lib": library(16, module(b"maths"))}),
        'doslink: line 1, column 6: "/z": unknown option': Lines((
            Said("doslink --as link 'MAIN /z;'", 2, {"MAIN.OBJ": EMPTY}),)),
        'doslink: TLINK.CFG: line 2, column 1: "/z": unknown option': Lines((
            Said("doslink --as tlink 'MAIN;'", 2, {"MAIN.OBJ": EMPTY, "TLINK.CFG": b"/c\n/z\n"}),
            Said("LINK='/NOI /z' doslink --as link 'MAIN;'", 2, {"MAIN.OBJ": EMPTY}))),
        'doslink: directives: "_go" is missing: record 15 (0000000F), wanted by "directives"': Lines((
            Said("wlink file MAIN.OBJ option start=_go", 1, {"MAIN.OBJ": EMPTY}),)),
        'wlink path "OBJ;../SHARED/OBJ" file MAIN,UTIL name MAIN.EXE': Run({
            "OBJ/MAIN.OBJ": START_UP, "../SHARED/OBJ/UTIL.OBJ": module(b"util", publics(b"_main"))}),
        "modules": Printed("doslink -o X.EXE -m X.MAP HELLO.OBJ && cat X.MAP", {
            "HELLO.OBJ": "examples/hello/HELLO.OBJ"}),
        "HELLO.OBJ": Printed("doslink -v HELLO.OBJ CLIB.LIB", {"HELLO.OBJ": HELLO, "CLIB.LIB": CLIB}),
        'doslink: warning: library "SLIBCE" of HELLO.OBJ was not found': Lines((
            Said("doslink HELLO.OBJ -l CLIB", 0, {"HELLO.OBJ": FOR_MICROSOFT, "CLIB.LIB": CLIB}),)),
        "doslink: warning: 32-bit segments of HELLO.OBJ are linked as 16-bit ones": Lines((
            Said("doslink HELLO.OBJ", 0, {"HELLO.OBJ": WIDE_SEGMENT}),)),
        'doslink: HELLO.LNK: line 3: "windows": no other program is written than one for DOS': Lines((
            Said("wlink @HELLO.LNK", 2, {"A.OBJ": EMPTY, "HELLO.LNK": b"file A.OBJ\nname A.EXE\nformat windows\n"}),
            Said("wlink @HELLO.LNK", 0, {
                "A.OBJ": EMPTY, "HELLO.LNK": b"file A.OBJ\nname A.EXE\nformat dos\nsort global\n"}))),
        "wlink system dos name x file main,util,'\"my own.obj\"' option quiet": Run({
            "main.obj": START_UP, "util.obj": HELLO, "my own.obj": PRINTF}),
        "NAME        MAIN": Written("main.def", "doslink --as link 'main+hello+printf,prog.exe,nul,,main;'", {
            "main.obj": START_UP, "hello.obj": HELLO, "printf.obj": PRINTF}),
        "option quiet": Written("HELLO.LNK", "wlink @HELLO.LNK", {
            "rtl/large/prt0l.o": START_UP, "hello.a": archive(member(b"hello.o/", HELLO)),
            "rtl/large/system.a": archive(member(b"printf.o/", PRINTF))}),
        "doslink: CLIB.LIB(printf): 5 Type at record 312 (B2 BAKPAT)": Lines((
            Said("doslink HELLO.OBJ CLIB.LIB", 1, {"HELLO.OBJ": HELLO, "CLIB.LIB": library(16, PATCHED_MEMBER)}),
            Said("doslink HELLO.OBJ CLIB.LIB", 1, {"HELLO.OBJ": HELLO, "CLIB.LIB": CUT_LIBRARY}),
            Said("doslink A.OBJ B.OBJ", 1, {"A.OBJ": HALF_OF_TEXT, "B.OBJ": HALF_OF_TEXT}),
            Said("doslink HELLO.OBJ CLIB.LIB", 1, {"HELLO.OBJ": HELLO, "CLIB.LIB": MAIN_TWICE}))),
        'doslink: link: 55 NearAndFar "_buffer" in MAIN.OBJ and CLIB.LIB(buffer)': Lines((
            Said("doslink MAIN.OBJ CLIB.LIB", 1, {"MAIN.OBJ": WANTS_BUFFER, "CLIB.LIB": FAR_BUFFER}),
            Said("doslink MAIN.OBJ", 1, {"MAIN.OBJ": LONG_TABLE}),
            Said("doslink MAIN.OBJ OLDNAMES.LIB", 1, {"MAIN.OBJ": WANTS_READ, "OLDNAMES.LIB": OLD_NAMES}),
            Said("doslink MAIN.OBJ", 1, {"MAIN.OBJ": CLEARED}),
            Said("doslink --stack 4096 MAIN.OBJ", 1, {"MAIN.OBJ": stack_of(8192)}),
            Said("doslink CLIB.LIB", 1, {"CLIB.LIB": CLIB}),
            Said("doslink --form com HELLO.OBJ", 1, {"HELLO.OBJ": "examples/hello/HELLO.OBJ"}),
            Said("doslink MAIN.OBJ CLIB.LIB", 1, {"MAIN.OBJ": HAS_TABLE, "CLIB.LIB": OTHER_TABLE}))),
        'doslink: MAIN.OBJ: "_prinft" is missing: record 145 (00000091), wanted by "main.c"': Lines((
            Said("doslink MAIN.OBJ CLIB.LIB", 1, {"MAIN.OBJ": MISSES_TWO, "CLIB.LIB": STRLEN}),)),
        "doslink: and 1,980 more": Lines((Said("doslink MAIN.OBJ", 1, {"MAIN.OBJ": MANY}),)),
        "doslink: MAIN.O: 3 Truncated at record 0: this is an ELF file; nasm wants -f obj": Lines((
            Said("doslink MAIN.O", 1, {"MAIN.O": b"\x7FELF\1\1\1" + bytes(9)}),
            Said("doslink NOTES.TXT", 1, {"NOTES.TXT": b"int main(void) { return 0; }\n" * 2000}),
            Said("doslink A.OBJ", 3),
            Said("ln -s B.OBJ B.OBJ && doslink B.OBJ", 3))),
        "doslink: RUN.A(print.o): 3 Truncated at record 0: this is an ELF file; nasm wants -f obj": Lines((
            Said("doslink MAIN.OBJ RUN.A", 1, {"MAIN.OBJ": WANTS_PRINT, "RUN.A": OF_ELF}),)),
        "doslink: warning: no module has a start": Lines((
            Said("doslink MAIN.OBJ", 0, {"MAIN.OBJ": SPACE}),
            Said("wlink @LINES", 0, {
                "MAIN.OBJ": stack_of(8192), "LINES": b"file MAIN.OBJ\nname MAIN.EXE\noption stack=4096\n"}),
            Said("doslink A.OBJ", 0, {"A.OBJ": FAR_X}))),
    },
    "docs/DOSLIB.md": {
        "$ ./doslib list examples/letters/COUNT.OBJ": Run(),
        'library "CLIB.LIB" members 2': Printed("doslib list CLIB.LIB", {"CLIB.LIB": TOLD}),
        "doslib: CLIB.LIB: 45 Closing at place 1060": Lines((
            Said("doslib list CLIB.LIB", 1, {"CLIB.LIB": CUT_IN_TWO}), Said("doslib list NONE.LIB", 3))),
        'module "COUNT.OBJ" members 1': Printed("doslib show COUNT.OBJ", {"COUNT.OBJ": COUNTING}),
        'module "CUT.OBJ" members 1': Printed("doslib show CUT.OBJ", {"CUT.OBJ": CUT_PUBLIC}),
        "doslib: CUT.OBJ: 6 Body at place 12": Lines((Said("doslib show CUT.OBJ", 1, {"CUT.OBJ": CUT_PUBLIC}),)),
        'program "HELLO.EXE"': Printed("doslib program HELLO.EXE", {"HELLO.EXE": HELLO_EXE}),
        "doslib program HELLO.EXE --image HELLO.BIN --at 1000": Run({"HELLO.EXE": HELLO_EXE}),
        "doslib: HELLO.OBJ: 35 Magic": Lines((
            Said("doslib program HELLO.OBJ", 1, {"HELLO.OBJ": HELLO}),
            Said("doslib program HELLO.EXE --image HELLO.BIN --at FFFF", 1, {"HELLO.EXE": HELLO_EXE}),
            Said("doslib program HELLO.EXE --image roms/HELLO.BIN", 3, {"HELLO.EXE": HELLO_EXE}),
            Said("doslib program HELLO.EXE --image HELLO.EXE", 2, {"HELLO.EXE": HELLO_EXE}))),
        'module "HELLO.OBJ" "hello.asm"': Printed(
            "doslib match HELLO.EXE HELLO.OBJ", {"HELLO.EXE": HELLO_EXE, "HELLO.OBJ": HELLO_ASM}),
        "doslib: MAIN.OBJ: 54 DataType at place 11": Lines((
            Said("doslib match HELLO.EXE MAIN.OBJ", 1, {"HELLO.EXE": HELLO_EXE, "MAIN.OBJ": STRANGE_VARIABLE}),
            Said("doslib match MAIN.OBJ HELLO.OBJ", 1, {"MAIN.OBJ": STRANGE_VARIABLE, "HELLO.OBJ": HELLO_ASM}))),
        "differ 00000006 09 40": Printed("doslib compare HELLO.EXE OLD.EXE HELLO.OBJ", {
            "HELLO.EXE": HELLO_EXE, "OLD.EXE": OLD_EXE, "HELLO.OBJ": HELLO_ASM}),
        'missing "_exit": MAIN.OBJ wants it in the record at 00000025': Printed(
            "doslib names MAIN.OBJ GFX.LIB", {"MAIN.OBJ": DRAWS, "GFX.LIB": library(16, LINE, OLD_LINE)}),
        "$ doslib make GFX.LIB LINE.OBJ CIRCLE.OBJ": Run({
            "LINE.OBJ": LINE, "CIRCLE.OBJ": CIRCLE, "FILL.OBJ": FILL}),
        'doslib: GFX.LIB: 74 NoMember "cirlce"': Lines((
            Said("doslib delete GFX.LIB cirlce", 1, {"GFX.LIB": library(16, LINE, CIRCLE)}),
            Said("doslib add MAIN.OBJ LINE.OBJ", 1, {"MAIN.OBJ": DRAWS, "LINE.OBJ": LINE}))),
        'doslib: warning: GFX.LIB: "_line" is in "line" and in "oldline"': Lines((
            Said("doslib make GFX.LIB LINE.OBJ OLDLINE.OBJ", 0, {"LINE.OBJ": LINE, "OLDLINE.OBJ": OLD_LINE}),)),
    },
    "examples/README.md": {
        "examples/run": Untried("it wants DOSBox"),
    },
    "examples/letters/README.md": {
        "A #######": Shown("cat examples/letters/OUTPUT.TXT"),  # what examples/run compares with what DOSBox shows
        "omf link -o LETTERS.EXE -m LETTERS.MAP MAIN.OBJ CLEAR.OBJ COUNT.OBJ BARS.OBJ PRINT.OBJ \\": Run({
            f"{each}.OBJ": f"examples/letters/{each}.OBJ"
            for each in ("MAIN", "CLEAR", "COUNT", "BARS", "PRINT", "TEXT", "COUNTERS")}),
        "segments": Shown("cat LETTERS.MAP"),
        "groups": Shown("cat LETTERS.MAP"),
        "publics": Shown("cat LETTERS.MAP"),
        "entry 0000:0000": Shown("cat LETTERS.MAP"),
    },
}
