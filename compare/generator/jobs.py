"""Jobs of `doslink`: files, libraries, what is asked for, and the words or directives for it."""

from dataclasses import dataclass, field, replace
from itertools import groupby
from random import Random
from typing import Optional

from generator import comdats
from generator.communals import (
    LOCATIONS, NO_NUMBERS, OWN, REACHING, Declared, at_limit, module_of_communals, module_of_local_variables,
    module_of_no_number)
from generator.lines import (
    BEHIND_TEXT, CALLS, CONFIGURATIONS, DEFINITIONS, LINES_OF_DEFINITIONS, LINES_OF_TLINK, LINK, MARKED_LINES,
    MARKED_LINES_OF_TLINK, MORE_LINES_OF_LINK, MORE_LINES_OF_TLINK, ODD_CONFIGURATIONS, ODD_FRONTS, ODD_LINES,
    OTHER_OPTIONS, TLINK, WRONG_WORDS, LineSpeller, by_dos, in_another_case)
from generator.libraries import (
    ARCHIVE, SMALL_PAGES, SYMBOL_TABLES, archive, archive_of_symbols, archive_with_symbols, damaged,
    foreign, library, with_header)
from generator.objects import (
    CLASSES, LAZY, MARKS, NAMES, SEGMENTS, TITLES, WEAK, ObjectMaker, any_plan, module_of_alias,
    module_of_code, module_of_communal_data, module_of_cut_public, module_of_debug,
    module_of_default, module_of_edge, module_of_external, module_of_far_data, module_of_far_public,
    module_of_far_start, module_of_flat, module_of_form, module_of_lengths, module_of_links,
    module_of_local_defaults, module_of_long_aliases, module_of_long_externals,
    module_of_many_parts, module_of_marks, module_of_no_alignment, module_of_publics,
    module_of_shared_word, module_of_stack, module_of_start, module_of_sum, module_of_wide_record,
    module_of_wide_segment, segments_called)
from model import ordering
from model.directives import Form, Input, Job, Stack
from model.placement import folded
from model.records import Location

OUT, MAP, RESPONSE, NO_FOLDER = "out.exe", "out.map", "response", "missing/"
# what reads directives, and by what other names it is called
WLINK, CALLED = "wlink", ["jwlink", "jwlink", "JWLINK", "JWLink.EXE", "jwlink.exe", "WLINK", "Wlink.exe"]
FOLDER, OTHER_FOLDER, LAST_FOLDER = "parts", "more/", "last"
OBJECT_FOLDER, OLD_FOLDER = "objs", "old/"
MOST_PARTS, MANY_EVERY = 16_383, 500
# alignments, lengths, combinations and names of far data, which fits in a frame or not, and whether it
# is in a group; an absolute one has no alignment
FAR_DATA_EVERY, FAR_DATA = 25, [
    [(3, 0xFFF0), (3, 16)], [(3, 0xFFF0), (3, 17)], [(3, 0xFFF1), (3, 5)], [(3, 0xFFE1), (3, 15)],
    [(3, 0x8000), (3, 0x8000)], [(1, 0xFFE1), (1, 0x1F)], [(1, 0xFFE1), (1, 0x20)],
    [(0, 0x10), (3, 0x10)], [(3, 0xFFC1), (2, 16), (5, 0x2C)], [(3, 0xFFC1), (2, 16), (5, 0x2D)],
    [(4, 0xFE00), (3, 0x200)], [(4, 0xFE00), (3, 0x201)],
    [(3, 0x110), (4, 0xFE00)], [(3, 0x110), (4, 0xFE01)],
    [(3, 0xFFF0, 2), (3, 0x10, 2, b"TBL")], [(3, 0xFFF0), (3, 0x11, 2)],
    [(3, 0x10, 2), (3, 0x10, 2, b"TBL"), (3, 0x10, 2), (3, 0x10, 2, b"TBL")],
    [(3, 0xC000, 6), (3, 0x4000, 6, b"TBL"), (3, 0xC000, 6)], [(3, 0xC000, 6), (3, 0x4001), (4, 0x10, 6)],
    [(3, 0x8000, 5), (3, 0x8000, 5)], [(3, 0x8000, 5), (3, 0x8000, 5), (3, 5)],
    [(3, 0x10, 2, b"FAR", True), (3, 0x20, 2), (3, 0x10), (3, 0x10, 2)],
    [(3, 0xFFF0, 0, b"FAR", True), (3, 0x10), (3, 0x10)], [(3, 0x10), (3, 0x10, 2, b"FAR_DATA")]]
# one seed in so many has a list of segments, and one BSS outside of DGROUP
RARE_EVERY = 100
# one job in so many has a line that is wrong, each in its turn, and one tells faults alone
WRONG_EVERY, QUIET_EVERY = 25, 250
# the classes that have more than one segment that combines
FULL_CLASSES = [b"BEGDATA", b"DATA", b"BSS", b"STACK"]
COMMUNALS_EVERY = 15
# one job in so many has one name with a default in one module, and with another or none in the next
DEFAULTS_EVERY = 50
# one has defaults that are local to its module, one such a use of its first external, and one any
# modules with such; each default is the class of a comment, and the indexes of an external and of its
# default, which is local from 3 on
LOCAL_DEFAULTS_EVERY, LOCAL_DEFAULTS = 50, [
    [(WEAK, 1, 3)], [(LAZY, 1, 3)], [(WEAK, 1, 3), (WEAK, 1, 4)], [(LAZY, 1, 4), (WEAK, 1, 3)],
    [(WEAK, 1, 2), (WEAK, 1, 3)], [(WEAK, 1, 3), (WEAK, 1, 2)], [(WEAK, 1, 2), (LAZY, 2, 4)],
    [(WEAK, 1, 2), (WEAK, 1, 3), (WEAK, 2, 4)], [(WEAK, 1, 3), (WEAK, 1, 2), (WEAK, 2, 4)],
    [(LAZY, 1, 2), (LAZY, 2, 3), (LAZY, 1, 4)]]
USES = ["offset", "base", "frame", "threads", "other", "start", "sum", "start of 32 bits"]
# and one an alias that records of one of these types name: EXTDEF, COMDEF, LCOMDEF, CEXTDEF
RENAMED_EVERY, RENAMED = 50, [0x8C, 0xB0, 0xB8, 0xBC]
# one has aliases of four names, of which some are used and some members of a library offer
ALIASES_EVERY, ALIASED = 25, [b"a", b"b", b"c", b"d"]
# one has directives that say something of names: of a start, names that are wanted, and aliases
NAMING_EVERY, NAMED = 25, ["a", "b", "c", "d", "default"]
# and one has variables that are local to modules, and what is in their way
LOCAL_EVERY, LOCAL = 50, [
    {}, {"public": b"NEAR"}, {"start": b"start"}, {"group": b"AUTO"},
    {"group": b"DGROUP", "grouped": 2}, {"clashes": True}, {"clashes": True, "data_segment": 2}]
# one job in so many has default libraries behind each other, one a public in two cases, and one
# libraries alone
CHAIN_EVERY, TWICE_EVERY, ALONE_EVERY = 250, 250, 250
# one has what is linked told where the program or the map is written, and one as many files of directives as there
# may be, or one more
MIXED_EVERY, FILES_EVERY = 250, 250
# as many folders of each kind as are searched, or one more
FOLDERS_EVERY, MANY_FOLDERS = 60, [(65, 0, 0), (64, 64, 64), (0, 65, 0), (0, 0, 65), (32, 32, 1), (1, 1, 63)]
# one job in so many has a segment of no alignment, which is lowered or not; one a number of no form
AMISS_EVERY, NO_NUMBER_EVERY = 200, 250
# one has an offset, of 32 bits or 16, with a sum of the most or one more
SUM_EVERY, SUM_LOCATIONS, SUMS = 50, [9, 1, 13, 5], [65_535, 65_536]
# one an offset of 32 bits in the word at 4, and a fix-up of this location and place, in it or not
SHARED_EVERY, SHARED = 50, [
    (0, 4), (0, 3), (1, 5), (2, 6), (3, 1), (1, 2), (5, 3), (0, 6), (3, 0), (9, 4), (2, 5), (1, 6),
    (0, 5), (2, 3), (3, 4), (2, 2)]
# one a start by this type of MODEND with such a sum, alone or beside another one
START_EVERY, STARTS = 50, [(0x8B, 1), (0x8A, 1), (0x8B, 2), (0x8B, 1)]
# one has segments that combine or not, of these lengths and in a group or not: they, the group or
# the program are as long as they may be, or too long by some bytes
LENGTHS_EVERY, LENGTHS = 50, [
    (2, [0x8000, 0x8000], False), (2, [0xFFFF, 2], False), (2, 3 * [0xC350], False),
    (5, [0x10000, 0, 1], False), (6, [15, 0x10000], False), (0, [0xFFFF, 1], True),
    (0, [0x10000, 1], True), (0, [5, 0xC350, 0x8000], True), (0, 15 * [0x10000] + [0xFFF0], False),
    (0, 15 * [0x10000] + [0xFFF1], True), (0, 33 * [0x10000], False)]
# one job in so many has stacks of these lengths, and asks for one of about their sum
STACKS_EVERY, STACKS = 20, [
    [], [1], [33], [3, 5], [16, 0, 17], [0x8000, 0x7FFF, 1], [7, 9, 11], [0x10000]]
# one job in so many is a raw image of data behind a kilobyte, from an address on that is written so
OFFSETS_EVERY, OFFSETS = 25, [
    "1k", "1K", "0x1k", "0X1K", "1024", "0x400", "0X3fF", "1025", "1026", "0x0k", "100000h", "0x100000", "1048576",
    "1048577", "0x100001", "1024k", "1025k", "1m", "0M", "1kk"]
# one has publics that differ by case alone, and lines that say whether it counts
CASES_EVERY, CASE_LINES = 50, [
    "option nocaseignore", "option noignorecase", "option nocaseexact", "option caseexact", "option caseignore",
    "option ignorecase", "op nocaseexact, nocaseignore", "option NoIgnoreCase, NoCaseExact", "op c"]
# one names no program: forms, and whether directives ask for them
UNNAMED_EVERY, UNNAMED = 50, [
    ("sys", False), ("bin", False), ("bin", True), ("com", True), ("com", False), ("exe", True)]
# one words that end behind a sign, and one files of directives by their names, and names without an extension
ENDED_EVERY, SPOKEN_EVERY = 25, 25
# publics that are so far above their frame, and the type of the record in front of them
EDGES = [(65_535, 0x80), (65_536, 0x82), (65_534, 0x80), (65_537, 0x80)]
# one job in so many is a .COM program, or isn't for these reasons
FORMS_EVERY, FORMS = 12, [
    [], ["word"], ["stack"], ["start"], ["below"], ["whole"], ["whole", "bss"], ["bss"], ["frame"], ["empty"],
    ["word", "stack", "start", "below"], ["stack", "start"], ["start", "below"]]
# and one a driver with these
DRIVERS_EVERY, DRIVERS = 50, [["stack"], ["word"], ["below"], [], ["stack", "word"]]
# of a stack that is asked for
STACK_LENGTHS = [1, 2, 0x10, 0x80, 0x100, 0x101, 0x400, 0x1000, 0x8000, 0xFFFF, 0x10000]
# one job in so many has a group FLAT, and what names it; one code in a private segment or in DGROUP
FLAT_EVERY, CODE_EVERY, CODES = 50, 250, [(0, False), (2, True)]
# one has fix-ups of 32 bits, a thread and its use or a displacement that is too great, or a line of
# 32 bits; one a negative number at the last place or behind it; and one a public that is cut
WIDE_EVERY, WIDE = 250, [
    (0x9D, b"\x44\1\xC4\0\x84\1"), (0x9D, b"\xC4\0\x50\1\0\0\1\0"), (0x95, b"\0\1\1\0\2\0\0\0")]
NEGATIVE_EVERY, LAST_PLACES, CUT_EVERY = 250, [1021, 1022], 250
# one has a segment of 32 bits with this length, or as long as offsets of 32 bits reach
WHOLE_EVERY, WHOLE = 125, [b"\x29\0\0\1\0", b"\x2B\0\0\0\0", b"\x29\1\0\1\0"]
FLAT = [
    "frame", "target", "frame thread", "target thread", "start", "kept out", "nothing",
    "other group", "other case", "publics", "local publics", "publics of another group"]
# one wants some marks, and has so many bytes in its data, its BSS or its stack
MARKS_EVERY, CLEARED = 50, [
    (MARKS, 2, 1), (MARKS, 2, 0), (MARKS, 1, 1), (MARKS, 3, 1), (MARKS[:1], 2, 1),
    (MARKS[-1:], 2, 1)]
# one has a file that is no module, or one that is and is cut
FOREIGN_EVERY, FOREIGN = 50, [
    b"", b"\x7FELF\1\1\1\0", b"\x4C\1\0\0", b"\x64\x86\1\0", b"\xCE\xFA\xED\xFE\7\0",
    b"\xCF\xFA\xED\xFE\7\0", b"\xFE\xED\xFA\xCE\r\n", b"\xFE\xED\xFA\xCF\0\0", b"\xCA\xFE\xBA\xBE\n",
    b"\xFE\xED\xFA\xCD", b"\xCA\xFE\xBA\xBF\n", b"MZ\x90\0", b"!<thin>\n/ 0", b"\tmov ax,1\r\n\f\x1A", b"x\0y",
    255 * b"a" + b"\0", 256 * b"a" + b"\0", b"ab\x7F", b"caf\xC3\xA9\n", b"\x80\3", b"\x82\3\0",
    b"\x88\3\0\0\0\0\x8C\4\0\1q\0\0\x99\2\0\x28\0"]
# one has an archive of members that are no modules, of which one has a missing name by the table of
# symbols, or none
SYMBOLS_EVERY, SYMBOLS = 50, [(form, at) for at in (0, 1, None) for form in SYMBOL_TABLES]
# one has a file, which isn't read, where it writes, or asks for a program of another form
WRITTEN_EVERY, THERE = 25, "there.exe"
WRITTEN = [
    b"\x80\3\0\1A\x3B", b"\x80\3\0", b"\x80\4\0\1A\0\0", b"\x82\3\0\1A\0", b"\xF0\x0D\0",
    b"\xF0\x0E\0\0", b"\xF0\x0D", b"!<arch>\n", b"!<thin>\n", b"MZ"]
OTHER_OUTS = [
    "out.com", "OUT.SYS", "a.Bin", "out.img", "com", "out.com.exe", "./0.obj", "././/0.obj",
    RESPONSE, "./" + OUT, "sys"]
# one has about so many lines of a kind as are told
LINES_EVERY, LINE_COUNTS = 25, [20, 21, 22]
# paths whose last names begin as options of TLINK do
FRONTS = ["obj/j", "lib/L", "src/y", "src/T", "src/O", "src/R"]
# what stands beside the object of a line that is wrong, or seems so
BESIDE = [
    "0.obj", "sub/a.obj", "my file.obj", "obj/job.obj", "src/yacc.obj", "src/Table.obj", "src/Rest.obj", "src/Open.obj",
    "main/La.obj", "lib/LIBC.LIB", "lib/libm.lib", "x/l.LIB", "x.lib/y.obj", "two/y.obj", "two/Y.Obj", "two/l.lib",
    "two/L.Lib", "sub/l.Lib", "fold/a.obj", "FOLD/b.obj", "sub/\u00e9.obj", "mixed/x", "mixed.Obj", "Mixed.obj"]
# what is written over there, and a response file
OLDER = {"sub/OLD.EXE": b"an old program", "sub/old.map": b"an old map", "sub/r": b"0,out;"}
# lengths of a body that externals by indexes, or of aliases, have by their names
LONG_BODIES, LONG_EVERY = [65_534, 65_535], 150
# what may stand behind the name of a file, or of a library, in its path
ENDINGS = ["", ".OBJ", ".obj", ".LIB", ".lib"]
MEMBER_NAMES = [b"printf.o", b"exit.o", b"system.o", b"a_long_name_of_a_member.o", b"x"]
DEFAULT_LIBRARIES = [b"SLIBCE", b"runtime.a", b"GRAPH.LIB", b"em87", b"slibce"]
LINES_OF_NOTHING = [
    "", "# made by hand", "debug dwarf", "option quiet", "DEBUG line", "  ", "op quiet",
    "option quiet, nodefaultlibs", "option nod", "OP NoDefaultLibs", "debug novell", "d no",
    "debug codeview all, li, lo", "debug watcom onlyexports", "debug dw", "debug novell only", "d c w al ty lo li",
    "op q", "alias %s=x" % (255 * "n"), "libpath {x, y}", "libp {z}", "path x", "reference {}", "libpath {}"]
LEFT_OUT = [
    "option symfile", "sort global", "disable 1014", "option symfile=out.sym", "op CACHE",
    "option quiet,verbose", "option map, showdead", "option mangled", "op man", "OPTION NoFarCalls",
    "sort glob alpha disable 1, 2",
    "d watcom lines, types\noption quiet,\n symf", "op v # option verbose", "option artificial", "op art, stat",
    "option cache=x", "option farcalls", "op maxe=3", "op sho, verb", "option nocache", "option noc=1", "sort gl alp",
    "sort alphabetical"]
# words of directives and no others, which end behind a sign, or leave out the default library
ENDED_WORDS = [
    ["file 0.obj name o.exe format dos ="], ["file", "0.obj", "format dos ,"], ["file 0.obj", "system dos ="],
    ["name o.exe file 0.obj,"], ["file 0.obj option"], ["file 0.obj option quiet,"], ["file 0.obj output raw ="],
    ["file 0.obj output raw offset"], ["file 0.obj output raw offset ="], ["file 0.obj", "order"], ["file 0.obj sort"],
    ["file 0.obj debug"], ["file 0.obj disable"], ["file 0.obj alias x ="], ["file {0.obj"], ["file 0.obj }"],
    ["file 0.obj name o.exe op dos, nod"], ["file 0.obj name o.exe option nodefaultlibs"], ["file 0.obj option map"]]
# files of directives, of which some are called otherwise than a word says, have a Ctrl-Z, or name others; and such as
# are no modules, beside these
SPOKEN_FILES = {
    "ending.lnk": b"file 0.obj name o.exe\n", "both": b"file 0.obj name o.exe\n",
    "both.lnk": b"file 0.obj name p.exe\n",
    "dot.x.lnk": b"file 0.obj name o.exe\n", "a.b/ending.lnk": b"file 0.obj name o.exe\n", "folder/x": b"name p",
    "folder.lnk": b"file 0.obj name o.exe\n", "ended": b"file 0.obj name o.exe\n\x1Aname p.exe\n\x1A",
    "ended.lnk": b"", "cut": b"file 0.obj\x1A 'x\xE9", "none": b"\x1Aname p.exe",
    "crlf": b"file 0.obj\r\nname 'o\r\n", "outer": b"# first\r\n \t@inner \r\nname o.exe\n",
    "inner.lnk": b"file 0.obj\nsort global\n", "amiss": b"\n@inner\n@wrong\n", "wrong": b"\nfill x\n",
    "loop": b"sort global\n@loop\n", "lacks": b"name o.exe\n@nowhere\n", "quoted": b"file 0.obj name '@inner'\n",
    "pair": b"@inner\n@inner", "tail": b"file 0.obj name o.exe @inner",
    **{f"deep{each}": b"@deep%d" % (each + 1) for each in range(9)}, "deep9": b"name o.exe",
    "com": b"\x7FELF", "only": b"\x7FELF", "only.x": b"\x7FELF",
    "more/only.x": module_of_publics([b"only"])}
# words that name these, or a program without an extension
SPOKEN_WORDS = [
    ["@ending"], ["@both"], ["@dot.x"], ["@a.b/ending"], ["@ended"], ["@cut", "name o.exe"], ["@none", "@ending"],
    ["file com name a.b/o format dos com"], ["@both.lnk"],
    ["@ending", "name ending.lnk"], ["@folder"], ["@a.b\\ending"], ["@crlf"],
    ["file com", "name o"], ["file com", "name o system com"], ["@ending.lnk"],
    ["file com name o format dos exe"], ["file com name O output raw"], ["file com name - system com"],
    ["file com name -"], ["file com name sub/"], ["file com name sub/ format dos com"], ["file obj/com.x name 'sub/'"],
    ["library com name sub/"], ["file com name - option map"], ["file com name sub\\"],
    ["file com name o.x"], ["file com name o."], ["file 0.obj", "system"], ["file 0.obj", "format"],
    ["file 0.obj", "name"], ["file com", "name o.com"], ["@none", "@cut", "name o"],
    ["@outer"], ["@outer", "name inner.lnk"], ["@amiss"], ["file 0.obj", "@loop"], ["@lacks"], ["@quoted"], ["@pair"],
    ["@tail"], [" @inner", "name o"], ["name o\n@inner\t"], ["@deep0", "file 0.obj"], ["@deep1", "file 0.obj"],
    ["@deep2", "file 0.obj name p"], ["file only name o"], ["file only.x name o"],
    ["file only.x path more name o"], ["file 0.obj library only name o"]]
# words that name a program as one of another form is, which is told where no form is said
MISNAMED_WORDS = [
    ["file com name o.com"], ["file com name P.COM option quiet, map, verbose"], ["file com name p.sys sort global"],
    ["file com name a.Bin", "disable 1014"], ["file com name p.IMG option quiet"],
    ["file nowhere name p.img sort global"],
    ["file lacks name o.com"], ["file lacks.obj name o.bin format dos"], ["file com name 'p.bin' system dos"],
    ["file com name o.com format dos exe"], ["file com name p.bin format dos com"], ["file com name o.com output raw"],
    ["file com name o.img system com"], ["file com name p.com/o"], ["file com name .\\o.com"], ["file com name com"],
    ["file com name o.com format dos com format dos"], ["file com name o.sys", "foo"], ["name o.com"],
    ["file com.obj name o.SYS", *24 * ["sort global"]], ["file com name o.Com op map", "file com"],
    ["file lacks library nowhere name o.IMG op quiet"]]
# files of directives, and words that name files by names of DOS, beside those of a line that is wrong, or seems so
NAMES_OF_DOS = {
    "E:/x.obj": module_of_publics([b"drive"]), "f:x.obj": module_of_publics([b"name"]),
    "wants.obj": module_of_links([b"x"], [], b"Z:\\LIB\\C"),
    "Job.Lnk": b"file 0.OBJ name O.exe\n", "twice.lnk": b"file 0.obj\n", "Twice.lnk": b"file 0.obj name p.exe\n",
    "sub/Job": b"file Sub\\A\nname o.exe\n"}
BY_DOS_WORDS = [
    ["@job", "file 0 name JOB.LNK"], ["@JOB"], ["file y name o"], ["@job.lnk"], ["@SUB\\JOB"], ["@twice"],
    ["@Twice.LNK"], ["@TWICE.LNK"], ["@nowhere\\job"],
    ["file SUB\\A name out.exe"], ["file sub\\a.obj,'0.Obj' name OUT.EXE"], ["file Two\\Y name o.exe"],
    ["file two\\y.obj name o.exe"], ["file 0 name o.exe library two\\L"], ["file 0", "name o", "library L libpath TWO"],
    ["file 0 name o library l"], ["file 0 library l libpath SUB;two name o"],
    ["file 0 name SUB\\old.exe option map=Sub/OLD.map"],
    ["file Fold\\a name o"], ["file FOLD\\A name o"], ["file 0 name Fold\\b"],
    ["file 0 name fold\\prog option map=SUB\\List"],
    ["file 0 name TWO\\Y.OBJ"], ["file 0 option map=two\\y.obj name o"], ["file 0 name .\\0.Obj"],
    ["file 0 name SUB\\l.lib"], ["file y path TWO;sub name o"],
    ["file A path nowhere;SUB name o"],
    ["file 0 name Sub\\"], ["file Sub name o"], ["file 0 name New\\prog"], ["file 'Sub\\\u00c9' name o"],
    ["file 0 name out option map=OUT.EXE"], ["file 0 name o library SUB\\L"], ["file 0 name o", "libfile a path sub"],
    ["file mixed\\X name o"], ["file MIXED name o"],
    ["file C:\\0 name o"], ["file 0 name c:o"], ["file 0 name o option map=D:\\list"], ["@c:job"],
    ["file 0", "@Z:\\job"],
    ["file 0 name o library Z:L"], ["file 0 name o library L libpath C:\\LIB"], ["file 0 path c:\\obj name o"],
    ["file nowhere path c:\\obj name o"],
    ["file E:\\x name o"], ["file e:\\X name o"], ["file 0 name e:\\o"], ["file x path e:\\ name o"],
    ["file f:x.obj name o"], ["file f:x name o"], ["file F:x.obj name o"], ["file wants name o"],
    ["file wants,0 name o"],
    ["file 0 name o", "library Lib\\libc"]]
# one job in so many is made of each of these
MISNAMED_EVERY, BY_DOS_EVERY = 50, 50
# and one has stacks of these lengths, and asks for none
EMPTY_EVERY, EMPTY_STACKS = 50, [[0], [0, 0], [0, 1], [1, 0], [0, 0, 0]]
# one has far variables, and fix-ups that have their offsets, and their frames or others
REACHED_EVERY = 50
# and one has COMDATs
COMDATS_EVERY = 25
# lines that ask for something else than the rest, or say it once more
OTHER_LINES = [
    "name two.exe", "option nocaseignore", "option noignorecase", "option nocaseexact",
    "option caseignore,nocaseignore", "option ignorecase, noignorecase", "op caseexact,nocaseexact",
    "option start=" + 255 * "n", "reference " + 255 * "n", "reference " + 127 * "\u00e9" + "n", "reference {a, b}",
    "option stack=2K", "option stack=0x1k", "system dos\nformat dos com", 'option map="list"', "library nowhere",
    "library {nowhere, 0.obj}", "libpath {last, more}", "option start='n'", "option st=0X10", "op dos", "op m=list",
    "op star=n"]
WRONG_LINES = [
    "format dos sys", "system os2", "output", "output hex", "output raw offset", "output raw offset=x",
    "output raw offset=1048577", "output raw 0", "system",
    "foo", "file", "order clname", "option", "name a b", "library a b", "= x",
    "order segment _DATA", "format windows", 'file "a', "option quiet=1", "file a,", "'name' a",
    "option quiet dosseg", "format dos exe com", "format", "format com", "option foo=1",
    "order clname CODE clname", "order clname CODE name A", "sort 'a", "option quiet,", '"a" b',
    ", file a", "file a b", "libpath", "option map=,quiet", 'option "map"', "name",
    "option stack", "option stack=0", "option stack=65537", "option stack=65k", "option stack=x",
    "option stack=-1", "path", "path a,b", "libfile a",
    "alias a", "alias a=b=c", "alias {a=b}", "alias a=b c=d", "alias a=",
    "option start", "option sta=x", "reference", "reference a=b", "reference {a", "re a", "al",
    "option start=" + 256 * "n", "alias n=" + 256 * "n", "reference n," + 256 * "n", "file {a", "file {a}, b",
    "name x a", "system dos exe", "system com com", "reference " + 128 * "\u00e9", "format 'dos'", 'format dos "com"',
    'order "clname" CODE', 'order clname CODE "segment" _TEXT', "'option' quiet", 'debug dwarf "all"', "output 'raw'",
    "output raw 'offset'=1", "system 'com'", "for dos", "sy dos", "ou raw", "so alpha", "dis 1", "option sym",
    "output raw start=1", "op no", "debug quiet", "file\na,\n b c"]
# the shortest words of directives
SHORTEST = {
    "file": "f", "library": "l", "libpath": "libp", "name": "n", "format": "form", "system": "sys", "output": "out",
    "option": "op", "order": "ord", "debug": "d", "sort": "sor", "disable": "disa", "reference": "ref", "alias": "a",
    "path": "p"}


@dataclass
class Case:
    """A job: the files that are there, the words, the program's name, and how it is called, by this or another name.

    The folders are those of LIB, and between them stands a sign. The variable is LINK of the environment, where it is
    there.
    """

    files: dict
    job: Job
    words: list = field(default_factory=list)
    program: str = "doslink"
    folders: list = field(default_factory=list)
    between: str = ":"
    variable: Optional[str] = None
    called: str = "doslink"


class JobMaker:
    """Makes one job."""

    def __init__(self, random, has_lines=False, tells_cases=True):
        self.random = random
        # whether the job is asked for by a line of LINK or TLINK, and whether names of files tell cases apart
        self.has_lines, self.tells_cases = has_lines, tells_cases
        # the environment's LINK, where it is there
        self.variable = None
        self.files = {}
        self.job = Job(out=OUT)
        self.job.ignores_case = self.happens(0.3)
        # directives that have to be among the others, and the address of a raw image as they write it
        self.required_lines = []
        self.offset = None
        self.names = self.some_names()
        self.left = list(self.names)
        self.plan = any_plan(random, self.names)
        self.plan.ignores_case = self.job.ignores_case

    def happens(self, likelihood):
        return self.random.random() < likelihood

    def some_names(self):
        """Names of which no two agree, each of which some module offers; mostly."""
        names = self.random.sample(NAMES, self.random.choice([2, 3, 5, 8]))
        key = folded if self.job.ignores_case else bytes
        return list({key(name): name for name in names}.values())

    def make(self):
        """The files and the job, and how it is asked for."""
        self.folders = self.random.choice([[], [LAST_FOLDER], ["", LAST_FOLDER]])
        if self.happens(0.3):
            self.job.folders = self.random.choice([[FOLDER], [FOLDER, OTHER_FOLDER]])
        self.choose_default_libraries()
        for number in range(self.random.choice([1, 1, 2, 3])):
            self.add_object(number)
        for number in range(self.random.choice([0, 1, 1, 2, 3])):
            self.add_library(number)
        self.add_default_libraries()
        if self.happens(0.8):
            self.offer_the_rest()
        self.ask()
        return self.asked()

    def offer_the_rest(self):
        """A last library with a member for each name, so that none is missing."""
        members = [
            ObjectMaker(self.random, self.plan, [], [name]).make(b"REST") for name in self.names]
        self.files["rest.lib"] = library(self.random, members, SMALL_PAGES)
        self.give_library("rest.lib")

    def give(self, *paths):
        """One more of FILES, or some."""
        self.job.inputs += map(Input, paths)

    def give_library(self, name):
        """One more library by its name."""
        self.job.inputs.append(Input(name, is_library=True))

    def make_far_data(self, segments):
        """Modules of far data, each with these fields."""
        for number, segment in enumerate(segments):
            self.files[f"{number}.obj"] = module_of_far_data(number, *segment)
            self.give(f"{number}.obj")
        self.folders, self.job.map = [], MAP
        return self.asked() if self.happens(0.2) else self.by_directives()

    def make_communals(self, number):
        """One module or two with communal variables at a limit."""
        variables = at_limit(number)
        half = self.random.choice([len(variables), self.random.randrange(len(variables))])
        locations = self.random.choice(LOCATIONS)
        for place, part in enumerate([variables[:half], variables[half:]]):
            self.files[f"{place}.obj"] = module_of_communals(
                self.random, b"%d.C" % place, part, locations)
            self.give(f"{place}.obj")
        self.folders, self.job.map = [], MAP
        self.job.order = self.random.choice([None, None, ordering.DOSSEG])
        return self.asked()

    def asked_of(self, modules):
        """A job of these modules in any order, and of nothing else."""
        self.random.shuffle(modules)
        for number, content in enumerate(modules):
            self.files[f"{number}.obj"] = content
            self.give(f"{number}.obj")
        self.folders = []
        return self.asked()

    def make_defaults(self):
        """A name, or a mark, with a default by one module and another or none by the next."""
        name, kinds = self.random.choice([b"x", *MARKS]), [None, WEAK, LAZY]
        first, other = self.random.choice(kinds[1:]), self.random.choice(kinds)
        again = [name] if self.happens(0.2) else []
        modules = [
            module_of_default(name, b"a", first, again, self.happens(0.5)),
            module_of_default(name, b"b", other), module_of_publics([b"a", b"b"])]
        return self.asked_of(modules)

    def make_local_defaults(self, defaults=None, use=None):
        """A module with defaults of which some are local, and a use of the name; beside it others,
        which define the name or want it, or nothing."""
        defaults = defaults or self.random.choice(LOCAL_DEFAULTS)
        use = use or self.random.choice(USES[:5])
        self.job.ignores_case, self.job.map = self.happens(0.5), MAP
        name = b"X" if self.job.ignores_case and self.happens(0.7) else b"x"
        modules = [module_of_local_defaults(name, defaults, use, self.happens(0.3))]
        if self.happens(0.2):
            modules.append(module_of_local_defaults(
                name, self.random.choice(LOCAL_DEFAULTS), self.random.choice(USES[:5]), True))
        is_needed = 2 not in [index for _, index, _ in defaults]
        offered = self.random.choice([[], [], [b"x"], [b"X"]])
        offered += [b"a"] if is_needed or self.happens(0.2) else []
        modules.append(module_of_publics(offered))
        if self.happens(0.1):
            modules.append(self.random.choice([
                module_of_external(b"x", 0x8C), module_of_external(b"x", 0xB0),
                module_of_alias(b"x", b"a")]))
        return self.asked_of(modules)

    def make_with_local_defaults(self):
        """Any modules, each with such a default among the rest."""
        self.plan.has_local_defaults = True
        return self.make()

    def make_with_comdats(self):
        """Any modules, of which most have some of the same COMDATs, and few have aliases or what no link takes."""
        self.plan.comdats = comdats.some(self.random, self.names)
        self.plan.has_others, self.plan.has_aliases = self.plan.has_others / 4, self.plan.has_aliases / 4
        return self.make()

    def make_shared_comdats(self):
        """Modules, and members of a library, of which most have some of the same COMDATs and little else."""
        plan = self.plan
        plan.comdats, plan.is_wide = comdats.some(self.random, self.names), self.random.choice([0, 0, 0.6])
        plan.wants_marks = plan.has_others = plan.has_long = plan.has_communals = plan.has_aliases = 0
        plan.has_defaults, self.job.map = 0, MAP
        made = [
            ObjectMaker(self.random, plan, [], [] if number else self.names).make(b"%d" % number)
            for number in range(self.random.choice([2, 3, 3, 4]))]
        count = self.random.choice([2, 2, 3])
        if made[count:]:
            self.files["0.lib"] = library(self.random, made[count:], SMALL_PAGES)
            self.give_library("0.lib")
        return self.asked_of(made[:count])

    def make_comdats(self, modules):
        """Modules of COMDATs, mostly in their order."""
        self.folders, self.job.map = [], MAP
        self.job.keeps_debug = self.happens(0.1) and not self.has_lines
        modules = self.random.sample(modules, len(modules)) if self.happens(0.2) else modules
        for number, content in enumerate(modules):
            self.files[f"{number}.obj"] = content
            self.give(f"{number}.obj")
        return self.asked()

    def make_renamed(self, kind):
        """An alias that a module names by a record of a type, beside publics of both names."""
        modules = [
            module_of_external(b"x", kind), module_of_alias(b"x", b"a"),
            module_of_publics([b"a", b"x"])]
        return self.asked_of(modules)

    def make_aliases(self):
        """An external, and aliases of names: of modules, and of members of a library."""
        aliases = [
            module_of_alias(*self.random.sample(ALIASED, 2))
            for _ in range(self.random.choice([1, 2, 2, 3]))]
        name, kind = self.random.choice(ALIASED), self.random.choice([0x8C, 0x8C, 0xB0, WEAK])
        name = name.upper() if self.job.ignores_case else name
        modules = [
            module_of_default(name, b"default", kind) if kind == WEAK else
            module_of_external(name, kind)]
        part = self.random.randrange(len(aliases) + 1)
        members = [module_of_publics([name]) for name in self.random.sample(ALIASED, 3)]
        members += aliases[part:]
        self.random.shuffle(members)
        self.files["0.lib"] = library(self.random, members, SMALL_PAGES)
        self.give_library("0.lib")
        self.job.map, self.job.is_verbose = MAP, True
        return self.asked_of(modules + aliases[:part])

    def make_naming(self):
        """A start, names that are wanted and aliases, by directives; modules have starts and aliases too."""
        kinds = [0x8C, 0xB0, WEAK]
        modules = [module_of_default(self.random.choice(ALIASED), b"default", WEAK)]
        modules += [module_of_external(self.random.choice(ALIASED), self.random.choice(kinds[:2])) for _ in range(2)]
        modules += [module_of_start(self.random.choice([0x8A, 0x8B]), self.random.randrange(4)) for _ in range(2)]
        modules += [module_of_alias(*self.random.sample(ALIASED, 2))]
        modules = self.random.sample(modules, self.random.choice([1, 2, 2, 3, 4]))
        some = self.random.sample(ALIASED, self.random.choice([2, 3, 4]))
        members = [module_of_publics([each]) for each in some] + [module_of_publics([b"default"])]
        members += [module_of_alias(*self.random.sample(ALIASED, 2))] if self.happens(0.3) else []
        self.random.shuffle(members)
        self.files["0.lib"] = library(self.random, members, SMALL_PAGES)
        self.give_library("0.lib")
        if not self.has_lines:
            self.say_names()
        self.job.map, self.folders = MAP, []
        for number, content in enumerate(modules):
            self.files[f"{number}.obj"] = content
            self.give(f"{number}.obj")
        return self.by_directives()

    def say_names(self):
        """A start, names that are wanted, and aliases; lines of LINK and TLINK have no word for them."""
        job = self.job
        job.start = self.random.choice([None, *NAMED])
        job.references = self.random.sample(NAMED, self.random.choice([0, 0, 1, 2]))
        job.aliases = [
            (self.some_case(alias), self.some_case(means)) for alias, means in (
                self.random.sample(NAMED, 2) for _ in range(self.random.choice([0, 0, 1, 2])))]

    def some_case(self, name):
        """A name, in capitals at times where case doesn't count."""
        return name.upper() if self.job.ignores_case and self.happens(0.3) else name

    def make_local(self, given):
        """Two modules with variables that are local to them, of which one has something more."""
        modules = [module_of_local_variables(), module_of_local_variables(**given)]
        self.random.shuffle(modules)
        for number, content in enumerate(modules):
            self.files[f"{number}.obj"] = content
            self.give(f"{number}.obj")
        self.folders, self.job.map = [], MAP
        self.job.ignores_case = self.happens(0.7)
        return self.asked()

    def make_chain(self, is_given):
        """A default library that names another one and wants a name of it, which names none.

        Or it has this name itself, as a library has that is given.
        """
        self.files["0.obj"] = module_of_links([], [b"f"], b"FIRST")
        first = module_of_links([b"f"], [b"g"], b"SECOND")
        second = module_of_links([b"g"], [], b"")
        for name, members in [
                ("FIRST", [first, second] if is_given else [first]), ("SECOND", [second])]:
            self.files[f"{name}.LIB"] = library(self.random, members, SMALL_PAGES)
        self.give("0.obj")
        if is_given:
            self.give("SECOND.LIB")
        self.folders, self.job.map = [], MAP
        return self.asked()

    def make_debug(self, class_name, keeps_debug):
        """A segment for debuggers, which is linked where the words say so."""
        self.files["0.obj"] = module_of_debug(class_name)
        self.give("0.obj")
        self.folders, self.job.map, self.job.keeps_debug = [], MAP, keeps_debug
        return self.case(self.words(), "doslink")

    def make_misplaced(self):
        """A module that stands in a folder of libraries alone."""
        self.files["0.obj"] = self.files["lib/1.obj"] = module_of_publics([b"x"])
        self.give("0.obj")
        self.give("1.obj")
        self.folders, self.job.folders = [], ["lib"]
        return self.case(self.words(), "doslink")

    def make_of_files(self, files, *words):
        """These files, and words of directives."""
        self.files.update(files)
        self.folders = []
        return self.case(list(words), WLINK)

    def make_by_words(self, files, *names):
        """These files, of which some are named."""
        self.files.update(files)
        for name in names:
            self.give(name)
        self.folders = []
        return self.case(self.words(), "doslink")

    def make_driver_in_order(self):
        """A driver in the order in which other programs have null bytes."""
        self.files["0.obj"], self.folders = module_of_form(0, 3, 0x100, []), []
        self.give("0.obj")
        self.job.form, self.job.out = Form("sys"), "o.sys"
        self.job.order, self.job.has_null_bytes = ordering.DOSSEG, True
        return self.case(self.words(), "doslink")

    def make_packed(self, front, segments, behind):
        """Far data by directives, with other modules in front of it and behind."""
        far = [module_of_far_data(number, *segment) for number, segment in enumerate(segments)]
        files = {f"{number}.obj": content for number, content in enumerate([*front, *far, *behind])}
        return self.make_of_files(files, f"file {','.join(files)} name {OUT} option map={MAP}")

    def make_mixed_there(self, out, map_path, lists):
        """The program, its map and the list of what is linked, of which two are on standard output."""
        self.files["0.obj"] = module_of_publics([b"x"])
        self.give("0.obj")
        self.folders, self.job.is_verbose, self.job.out, self.job.map = [], lists, out, map_path
        return self.case(self.words(), "doslink")

    def make_later(self):
        """A name of a default library that a member names, which is wanted in front of that member's own."""
        self.files["0.obj"] = module_of_links([], [b"z", b"x"], b"")
        self.files["0.lib"] = library(self.random, [module_of_links([b"x"], [], b"SECOND")], SMALL_PAGES)
        self.files["SECOND.LIB"] = library(self.random, [module_of_links([b"z"], [], b"")], SMALL_PAGES)
        self.give("0.obj")
        self.give_library("0.lib")
        self.folders, self.job.map = [], MAP
        return self.asked()

    def make_libraries_alone(self):
        """A library, which nothing wants anything of; words have to name a file too."""
        self.files["0.lib"] = library(self.random, [module_of_publics([b"x"])], SMALL_PAGES)
        self.give_library("0.lib")
        self.folders = []
        return self.by_directives()

    def make_twice(self, are_variables):
        """A public that two modules spell in two cases, which don't count, or variables in both."""
        for number, name in enumerate([b"x", b"X"]):
            variables = [(name, Declared(False, 2))]
            self.files[f"{number}.obj"] = module_of_publics([name]) if not are_variables else \
                module_of_communals(self.random, b"TWICE", variables, LOCATIONS[0])
            self.give(f"{number}.obj")
        self.folders, self.job.ignores_case = [], not are_variables
        return self.asked()

    def make_amiss(self):
        """A module with a record that is none of its type, which is lowered or not."""
        self.files["amiss.obj"] = module_of_no_alignment(self.random.choice([0x98, 0x99]))
        self.give("amiss.obj")
        self.folders = []
        return self.asked()

    def make_sum(self, location, total):
        """A module twice: the sum in the second, whose segment begins behind the first, is this, or
        about 0 with a negative number."""
        is_repeated = self.random.choice([False, True])
        place = 0 if is_repeated else self.random.choice([0, 0, 0, 1018, 1021, 1022])
        number = self.random.choice([0, 1, 0xFF, 0xF900, 0xFBFD])
        if location in (9, 13) and self.happens(0.5):
            number = self.random.choice([-1, -4, -5, -0xFF00, -0x1_0000, -0x1_0001])
            total = self.random.choice([total, total, -1, 0, 1])
        displacement = min(max(total - place - 4 - number, 0), 65_535)
        self.files["sum.obj"] = module_of_sum(location, place, number, displacement, is_repeated)
        self.give("sum.obj", "sum.obj")
        self.folders = []
        return self.asked()

    def make_negative(self, place):
        """The same with a negative number at a place, so that the sum is 0 in the first."""
        self.files["sum.obj"] = module_of_sum(9, place, -4, 4, False)
        self.give("sum.obj")
        self.folders = []
        return self.asked()

    def make_wide(self, kind, body):
        """A module with a record with numbers of 32 bits behind its data."""
        self.files["wide.obj"] = module_of_wide_record(kind, body)
        self.give("wide.obj")
        self.folders = []
        return self.asked()

    def make_whole(self, front):
        """A module with a segment of 32 bits, whose SEGDEF begins so."""
        self.files["whole.obj"] = module_of_wide_segment(front)
        self.give("whole.obj")
        self.folders, self.job.map = [], MAP
        return self.asked()

    def make_paged(self, page):
        """A library whose pages have so many bytes, of which a member is wanted."""
        self.files["0.lib"] = library(self.random, [module_of_publics([b"x"])], [page])
        self.give_library("0.lib")
        self.folders, self.job.map = [], MAP
        return self.asked_of([module_of_external(b"x", 0x8C)])

    def make_communal_data(self, kind, allocation):
        """A library whose member offers a wanted name by a COMDAT."""
        self.files["0.lib"] = library(self.random, [module_of_communal_data(b"x", kind, allocation)], SMALL_PAGES)
        self.give_library("0.lib")
        self.folders, self.job.map = [], MAP
        return self.asked_of([module_of_external(b"x", 0x8C)])

    def make_cut_public(self):
        """A name that a member offers, in front of which one has a public of it that is cut."""
        members = [module_of_cut_public(b"x"), module_of_publics([b"x"])]
        self.files["0.lib"] = library(self.random, members, SMALL_PAGES)
        self.give_library("0.lib")
        self.job.is_verbose, self.job.map = True, MAP
        return self.asked_of([module_of_external(b"x", 0x8C)])

    def make_shared(self, location, place):
        """A module with an offset of 32 bits and another fix-up, which share a word or not."""
        relative = location in (0, 1) and self.happens(0.3)
        number = self.random.choice([0, 0, -1, -0x100, -0x101])
        self.files["shared.obj"] = module_of_shared_word(location, place, relative, number)
        self.give("shared.obj")
        self.folders = []
        return self.asked()

    def make_stacks(self, lengths, is_line=False):
        """Modules with stacks of these lengths, of one name or two, and a length that is wanted."""
        names, classes = self.random.choice([
            ([b"STACK"], [b"STACK"]), ([b"STACK"], [b"HEAP"]),
            *2 * [([b"STACK", b"OTHER"], [b"STACK", b"HEAP"])]])
        for number, length in enumerate([None, *lengths]):
            called = self.random.choice(names), self.random.choice(classes)
            self.files[f"{number}.obj"] = module_of_stack(*called, length, self.random)
            self.give(f"{number}.obj")
        half = -sum(lengths) // 2
        asked = sum(lengths) + self.random.choice([half, half, -1, 0, 1, 17])
        self.job.stack = Stack(min(max(asked, 1), 0x10000), cuts=False)
        self.job.order = self.random.choice([
            None, ordering.DOSSEG, [ordering.Class(b"HEAP")]])
        self.folders, self.job.map = [], MAP
        if is_line:
            return self.by_line(LINK)
        is_cut = lengths == [0x10000] or self.happens(0.4)
        return self.by_directives() if is_cut else self.asked()

    def make_empty_stacks(self, lengths):
        """Modules with stacks of these lengths, of which most have no byte, and no length that is wanted."""
        for number, length in enumerate([None, *lengths]):
            self.files[f"{number}.obj"] = module_of_stack(b"STACK", b"STACK", length, self.random)
            self.give(f"{number}.obj")
        self.folders, self.job.map = [], MAP
        return self.asked()

    def make_form(self, amiss):
        """A .COM program, or one that isn't for what is amiss, in some form."""
        form = Form("com") if self.happens(0.5) else self.a_form()
        if form.kind == "bin" and self.happens(0.6):
            amiss = [*amiss, "word"]
        most = 0xFF00
        length = most if "whole" in amiss else self.random.choice([1, 2, 3, 0x20, 1200])
        start = self.random.choice([None, 0x101, 0]) if "start" in amiss else 0x100
        below = self.random.choice([1, 0x100]) if "below" in amiss else 0
        modules = [module_of_form(below, length, start, amiss)]
        if self.happens(0.3) and length != most:
            modules.append(module_of_lengths([b"T"], 2, [self.random.randrange(1, 20)], False))
        for number, content in enumerate(modules):
            self.files[f"{number}.obj"] = content
            self.give(f"{number}.obj")
        self.folders, self.job.map = [], self.random.choice([None, MAP])
        self.job.order = self.random.choice([None, ordering.DOSSEG])
        self.job.form = form
        self.job.out = self.random.choice([None, OUT, "out.com", "out.sys", "out.img", "o.BIN"])
        # where a raw image begins is said by directives alone
        return self.by_directives() if form.kind == "bin" and self.happens(0.3) else self.asked()

    def make_driver(self, amiss):
        """A driver that would be no .COM program, or that has a relocation."""
        self.files["0.obj"], self.folders = module_of_form(int("below" in amiss), 3, 0x100, amiss), []
        self.give("0.obj")
        self.job.form, self.job.out = Form("sys"), "o.sys"
        return self.case(self.words(), "doslink")

    def a_form(self):
        """Some form, mostly one without a header."""
        kind = self.random.choice(["exe", "com", "com", "com", "bin", "bin", "sys"])
        if kind != "bin":
            return Form(kind)
        paragraph = self.random.choice([0, 0, 1, 0x7C0, 0xFFFF])
        return Form("bin", paragraph, self.random.choice([0, 0, 1, 0x100, 0x101, 0x400, 0x100000]))

    def make_offset(self, offset):
        """A raw image from an address on, of data from 401H on."""
        self.files["0.obj"], self.folders = module_of_form(-0x301, 1200, 0x100, ()), []
        self.give("0.obj")
        self.job.form, self.offset = Form("bin", start=1), offset
        return self.by_directives()

    def make_case_lines(self, line):
        """Two publics that differ by case alone, where directives say that it counts, or that it doesn't."""
        for number, name in enumerate([b"x", b"X"]):
            self.files[f"{number}.obj"] = module_of_publics([name])
            self.give(f"{number}.obj")
        self.folders, self.required_lines = [], [line]
        return self.by_directives()

    def make_unnamed(self, kind, by_directives):
        """A program of a form that no name is said of."""
        self.files["0.obj"], self.folders = module_of_form(0, 3, 0x100, ()), []
        self.give("0.obj")
        self.job.out, self.job.form = None, Form(kind)
        return self.by_directives() if by_directives else self.case(self.words(), "doslink")

    def make_lengths(self, combination, lengths, is_grouped):
        """Two modules of segments of these lengths, behind one of another length or not."""
        part = self.random.randrange(len(lengths) + 1)
        names = [[b"S"] * len(lengths), [b"%d" % number for number in range(len(lengths))]]
        names = self.random.choice(names[:1] if combination else names)
        modules = [
            module_of_lengths(names[:part], combination, lengths[:part], is_grouped),
            module_of_lengths(names[part:], combination, lengths[part:], is_grouped)]
        if self.happens(0.3):
            modules.append(module_of_lengths([b"T"], 2, [self.random.randrange(1, 20)], False))
        return self.asked_of(modules)

    def make_flat(self, use):
        """A module with a group FLAT, and something that has its frame, or nothing."""
        self.files["flat.obj"] = module_of_flat(use)
        self.give("flat.obj")
        self.job.keeps_debug = self.happens(0.2)
        self.folders = []
        return self.asked()

    def make_code(self, combination, in_group):
        """Code in a private segment, or in DGROUP, in the order of DOSSEG."""
        self.files["code.obj"] = module_of_code(combination, in_group)
        self.give("code.obj")
        self.folders, self.job.order = [], ordering.DOSSEG
        return self.case(self.words(), "doslink")

    def make_marks(self, marks, segment, count):
        """A module that wants marks, with bytes of its data, its BSS or its stack, in any order.

        They are spelled in capitals at times, and at times the module has a local name like one.
        """
        marks = [mark.upper() for mark in marks] if self.happens(0.3) else marks
        local = [self.random.choice(marks)] if self.happens(0.3) else []
        order = self.random.choice([[1, 2, 3], [2, 1, 3]])
        self.files["marks.obj"] = module_of_marks(
            marks, local, order, order.index(segment) + 1, count)
        self.give("marks.obj")
        self.folders, self.job.map = [], MAP
        self.job.order = self.random.choice([None, ordering.DOSSEG])
        return self.asked()

    def make_foreign(self, content):
        """A file that is no module, or one that is cut, beside one that is."""
        self.files["other"], self.files["0.obj"] = content, module_of_publics([b"x"])
        self.give(*self.random.choice([["other"], ["0.obj", "other"]]))
        self.folders = []
        return self.asked()

    def make_symbols(self, form, at):
        """A missing name, by a table of symbols in the member at this place, or in none."""
        offered = [[b"q"], [b"r"], [b"y"]]
        if at is not None:
            offered[at].append(b"x")
        members = [foreign(self.random), foreign(self.random), module_of_publics([b"y"])]
        table, rest = archive_of_symbols(form, members, [b"one", b"two", b"three"], offered)
        self.files["0.obj"] = module_of_external(b"x", 0x8C)
        self.files["arc"], self.folders = ARCHIVE + with_header(*table) + rest, []
        self.give("0.obj", "arc")
        return self.asked()

    def make_written(self, turn):
        """A program, or its map, in the place of a file, or of another form."""
        self.files["0.obj"], self.folders = module_of_publics([b"x"]), []
        self.give("0.obj")
        number = turn // 2
        path = THERE if turn % 2 else OTHER_OUTS[number % len(OTHER_OUTS)]
        if turn % 2:
            self.files[THERE] = WRITTEN[number % len(WRITTEN)]
        if self.happens(0.5) or path in ("com", "sys"):
            self.job.out = path
        else:
            self.job.map = path
        return self.by_directives() if path == RESPONSE else self.asked()

    def make_many_lines(self, number):
        """As many lines of a kind as are told, or more of them."""
        kinds = [
            self.many_missing, self.many_twice, self.many_absent, self.many_libraries,
            self.many_wide, self.many_left_out, self.many_reached, self.many_alike]
        turn, which = divmod(number, len(kinds))
        self.folders, self.job.is_verbose = [], self.happens(0.3)
        return kinds[which](LINE_COUNTS[turn % len(LINE_COUNTS)])

    def many_missing(self, count):
        self.files["0.obj"] = module_of_links([], [b"n%d" % each for each in range(count)], b"")
        self.give("0.obj")
        return self.asked()

    def many_twice(self, count):
        for name in ("0.obj", "1.obj"):
            self.files[name] = module_of_publics([b"n%d" % each for each in range(count)])
            self.give(name)
        return self.asked()

    def many_alike(self, count):
        """A name of so many publics, of two modules in turn, of one that has all, or of that and one more."""
        self.files["0.obj"], self.files["1.obj"] = (module_of_publics(some * [b"x"]) for some in (1, count - 1))
        self.files["more.obj"] = module_of_publics((count + 1000) * [b"x"])
        self.give(*self.random.choice([
            (["1.obj", "0.obj"] * count)[2:count + 2], ["0.obj", "1.obj"], ["1.obj", "0.obj"], ["more.obj"],
            ["0.obj", "more.obj"], count * ["0.obj"]]))
        return self.asked()

    def many_absent(self, count):
        self.give(*(f"{each}" for each in range(count - 1)))
        self.give_library("nowhere")
        return self.asked()

    def many_libraries(self, count):
        for number in range(count):
            self.files[f"{number}.obj"] = module_of_links([], [], b"nowhere%d" % number)
            self.give(f"{number}.obj")
        return self.asked()

    def many_wide(self, count):
        self.files["wide.obj"] = module_of_wide_segment()
        self.give(*count * ["wide.obj"])
        return self.asked()

    def many_left_out(self, count):
        self.files["0.obj"] = module_of_publics([b"x"])
        self.give("0.obj")
        self.required_lines = [self.random.choice(LEFT_OUT[:3]) for _ in range(count)]
        return self.by_directives()

    def many_reached(self, count):
        return self.make_reached([(0, Location.OFFSET, OWN)], count)

    def make_reached(self, locations, count=3):
        """A module with so many far variables, and fix-ups of each at these locations."""
        variables = [(b"v%d" % each, Declared(True, 1)) for each in range(count)]
        self.files["0.obj"] = module_of_communals(self.random, b"FAR", variables, locations)
        self.give("0.obj")
        self.folders = []
        return self.asked()

    def make_start(self, kind, count, total):
        """A module with an offset of 32 bits or without, and so many with a start, which has this
        sum in the first."""
        self.files["sum.obj"] = module_of_sum(self.random.choice([1, 9]), 0, 0, 0, False)
        self.files["start.obj"] = module_of_start(kind, total - 4)
        self.give("sum.obj", *count * ["start.obj"])
        self.folders = []
        return self.asked()

    def make_no_number(self, front):
        """A communal variable whose length begins so, as no number does."""
        self.files["amiss.obj"] = module_of_no_number(front)
        self.give("amiss.obj")
        self.folders = []
        return self.asked()

    def make_long_externals(self, make_module, length):
        """A record that is as long as one may be, or longer."""
        self.files["long.obj"] = make_module(length)
        self.give("long.obj")
        self.folders = []
        return self.asked()

    def make_many_parts(self, count):
        """An order of so many parts."""
        self.files["many.obj"] = module_of_many_parts(count)
        self.give("many.obj")
        self.job.order = self.random.choice([ordering.DOSSEG, [ordering.Class(b"CODE")]])
        self.folders = []
        return self.asked()

    def make_listed(self):
        """An order that names the segments of a class, which modules have in any other."""
        self.folders = []
        class_name = self.random.choice(FULL_CLASSES)
        names = sorted({name for name, its_class, combines, *_ in SEGMENTS
                        if its_class == class_name and combines})
        self.plan = replace(
            self.plan, segments=segments_called([b"_TEXT", *names]), has_others=0, is_wide=0,
            has_communals=0, has_aliases=0, has_defaults=0)
        self.add_some_objects()
        self.random.shuffle(names)
        self.job.order = [ordering.Class(class_name), *map(ordering.Named, names)]
        return self.by_directives()

    def make_bss_outside(self):
        """Marks that the order's module defines, where class BSS is outside of DGROUP."""
        self.folders = []
        self.plan.segments = segments_called([b"_TEXT", b"_DATA", b"HUGE_BSS"])
        self.plan.wants_marks = 0.9
        self.add_some_objects()
        self.job.order = ordering.DOSSEG
        return self.asked()

    def make_wrong(self, line):
        """Directives of which one is wrong."""
        self.folders, self.required_lines = [], [line]
        self.add_some_objects()
        return self.by_directives()

    def make_ended(self, *words):
        """Words of directives, of which the last one ends behind a sign; a default library isn't there."""
        self.files["0.obj"], self.folders = module_of_links([b"x"], [], b"NOWHERE"), []
        return self.case(list(words), "wlink")

    def make_spoken(self, *words):
        """Words of directives beside files of such; a module that may be a .COM program."""
        self.files["0.obj"], self.folders = module_of_links([b"x"], [], b"NOWHERE"), []
        self.files["com.obj"] = module_of_form(0, 3, 0x100, ())
        self.files.update(SPOKEN_FILES)
        return self.case(list(words), WLINK)

    def make_misnamed(self, *words):
        """Words of directives that ask for no form, or for one, by the name of another; the link may fail."""
        self.files["com.obj"], self.folders = module_of_form(0, 3, 0x100, ()), []
        self.files["lacks.obj"] = module_of_links([b"x"], [b"y"], b"NOWHERE")
        return self.case(list(words), WLINK)

    def make_by_dos(self, *words):
        """Words of directives that name files as DOS does, beside files that are called otherwise by case."""
        if not self.tells_cases:
            # there a drive may be one
            return self.make_spoken(*words) if not any(":" in word for word in words) else self.make_spoken("@outer")
        self.files["0.obj"], self.folders = module_of_publics([b"x"]), [self.random.choice(["Two", "TWO", "sub"])]
        for path in BESIDE:
            self.files[path] = module_of_publics([path.encode()])
        self.files.update({**OLDER, **NAMES_OF_DOS})
        return self.case(list(words), WLINK)

    def make_quiet(self):
        """Directives that ask for faults alone, where a default library isn't there."""
        self.folders, self.required_lines = [], ["option quiet"]
        self.plan.libraries = [b"NOWHERE"]
        self.add_some_objects()
        return self.by_directives()

    def make_mixed(self, out, map_name):
        """What is linked is told on standard output, and the program or its map is to be written there."""
        self.folders = []
        self.add_some_objects()
        self.job.out, self.job.map, self.job.is_verbose, self.job.form = out, map_name, True, None
        return self.case(self.words(), "doslink")

    def make_many_folders(self, libraries, objects, others):
        """So many folders of libraries, of modules and of the environment, in which nothing stands."""
        self.files["0.obj"] = module_of_links([b"x"], [], b"NOWHERE")
        self.give("0.obj")
        self.job.folders, self.job.object_folders = ["f"] * libraries, ["o"] * objects
        self.folders = ["e"] * others
        return self.by_directives() if objects or self.happens(0.5) else self.case(self.words(), "doslink")

    def make_many_responses(self, count):
        """As many files of directives as there may be, or one more."""
        self.files["0.obj"], self.folders = module_of_publics([b"x"]), []
        self.files["r"] = b"debug all\n"
        return self.case(["file 0.obj name out.exe", *["@r"] * count], "wlink")

    def add_some_objects(self):
        """Three of FILES, with a library for the names that they want, and a map."""
        for number in range(3):
            self.add_object(number)
        self.offer_the_rest()
        self.job.map = MAP

    def choose_default_libraries(self):
        if self.happens(0.4):
            self.plan.libraries = self.random.sample(
                DEFAULT_LIBRARIES, self.random.choice([1, 1, 2]))
            self.job.has_default_libraries = self.happens(0.8)

    def spelled(self, name):
        """A name in another case, where case is ignored and rarely where not."""
        if self.happens(0.5 if self.job.ignores_case else 0.01):
            return self.random.choice([name.upper(), name.lower(), name.swapcase()])
        return name

    def wanted(self, most):
        count = min(self.random.randrange(most + 1), len(self.names))
        return [self.spelled(name) for name in self.random.sample(self.names, count)]

    def offered(self, least, most):
        """The next of the names that are left; rarely one that is offered already."""
        count = min(self.random.randrange(least, most + 1), len(self.left))
        names = [self.left.pop() for _ in range(count)]
        if self.names and self.happens(0.15):
            names.append(self.spelled(self.random.choice(self.names)))
        return list(dict.fromkeys(names))

    def add_object(self, number):
        """One of FILES, rarely damaged or missing."""
        maker = ObjectMaker(self.random, self.plan, self.wanted(5), self.offered(0, 1))
        content = maker.make(b"%d.ASM" % number, has_start=number == 0 and self.happens(0.5))
        if self.happens(0.01):
            content = damaged(self.random, content)
        path = f"{number}.obj"
        if self.happens(0.05):
            # without its ending, beside one that has it or another one
            paths = [str(number), f"{number}.OBJ", path]
            there = self.random.sample(paths, self.random.choice([1, 2]))
            self.files.update({each: content for each in there})
            return self.give(str(number))
        self.files[path] = content if not self.happens(0.003) else None
        return self.give(path)

    def members(self):
        """Modules that want each other, with the names that a librarian gives them."""
        count = self.random.choice([0, 1, 2, 3, 4])
        names = self.random.sample(MEMBER_NAMES, count)
        contents, offered = [], []
        for name in names:
            offered.append(self.offered(1, 2))
            maker = ObjectMaker(self.random, self.plan, self.wanted(2), offered[-1])
            kept = self.random.choice([None, name])
            content = maker.make(self.random.choice(TITLES), library_name=kept)
            contents.append(content)
        return contents, names, offered

    def library_content(self):
        contents, names, offered = self.members()
        if self.happens(0.6):
            content = library(self.random, contents)
        elif self.happens(0.2):
            content = archive_with_symbols(self.random, contents, names, offered)
        else:
            content = archive(self.random, contents, names)
        return damaged(self.random, content) if self.happens(0.1) else content

    def add_library(self, number):
        """One that is named, among FILES or by -l, here or in a folder."""
        name = self.random.choice([f"{number}.lib", f"{number}.a", f"L{number}", f"L{number}"])
        name = "a.b/" + name if self.happens(0.03) else name
        content = self.library_content()
        if self.happens(0.3):
            path = self.file_of(name)
            self.files[path] = content
            self.insert(Input(path))
            return
        self.put(name, content, [*self.job.folders, *self.folders])
        self.insert(Input(name, is_library=True))
        if self.happens(0.1):
            # given twice
            self.insert(Input(name, is_library=True))

    def insert(self, given):
        """One more of what is linked, anywhere among it."""
        self.job.inputs.insert(self.random.randrange(len(self.job.inputs) + 1), given)

    def file_of(self, name):
        """The file of a library's name, which has an ending where the name has none."""
        has_ending = "." in name.rpartition("/")[2]
        return name if has_ending else name + self.random.choice(["", ".LIB", ".LIB", ".lib"])

    def put(self, name, content, folders):
        """A library here, or in a folder; at times another one of its name is there too."""
        places = ["", *(folder.rstrip("/") + "/" for folder in folders if folder)]
        if self.happens(0.2):
            self.files[self.random.choice(places) + self.file_of(name)] = self.library_content()
        if self.happens(0.01):
            # where it isn't looked for
            places = ["other/", OBJECT_FOLDER + "/"]
        self.files[self.random.choice(places) + self.file_of(name)] = content

    def add_default_libraries(self):
        """Most that a module may name are there, somewhere."""
        for name in self.plan.libraries:
            if self.happens(0.9):
                content = self.library_content()
                if self.happens(0.05):
                    # it is a module, and no library
                    content = ObjectMaker(self.random, self.plan, [], []).make(b"DEFAULT")
                self.put(name.decode(), content, [*self.job.folders, *self.folders])
        if self.plan.libraries and self.happens(0.06):
            # one that is no text, or none
            self.plan.libraries.append(self.random.choice([b"\xE9LIB", b""]))

    def ask(self):
        """The order, the program and the map, and what is told."""
        self.job.is_verbose = self.happens(0.9)
        self.job.keeps_debug = self.happens(0.1)
        self.job.out = self.place(OUT)
        self.job.map = self.place(MAP) if self.happens(0.8) else None
        if self.happens(0.01):
            self.job.map = self.job.out
        if self.happens(0.5):
            self.job.order = self.random.choice([ordering.DOSSEG, self.some_classes()])
            self.job.has_null_bytes = self.job.order != ordering.DOSSEG or self.happens(0.7)
        if self.happens(0.15):
            self.job.stack = Stack(self.random.choice(STACK_LENGTHS), cuts=False)
        if self.happens(0.1):
            # it is called like the first of FILES
            self.job.out = None
        if self.happens(0.05):
            self.job.form = self.a_form()

    def place(self, path):
        """A path to write at; rarely one in a folder that isn't there, or one that is read."""
        if self.happens(0.01):
            return NO_FOLDER + path
        if self.happens(0.01):
            return self.random.choice(list(self.files))
        return path

    def some_classes(self):
        """A list of classes, and in a response file also of segments."""
        items = []
        usual = {class_name for _, class_name, *_ in self.plan.segments}
        known = sorted(usual) if self.happens(0.7) else CLASSES
        for name in self.random.sample(known, self.random.randrange(1, min(6, len(known) + 1))):
            if name:
                items.append(ordering.Class(name))
                inner = {each for each, class_name, *_ in SEGMENTS if class_name == name and each}
                items += map(ordering.Named, self.random.sample(
                    sorted(inner), self.random.choice([0, min(1, len(inner)), min(2, len(inner))])))
        return items or [ordering.Class(b"CODE")]

    def asked(self):
        """The job by words, by words in a file, or by directives; or by a line of LINK or TLINK."""
        if self.has_lines:
            return self.by_line(self.random.choice([LINK, TLINK]))
        if self.happens(0.35):
            return self.by_directives()
        if isinstance(self.job.order, list):
            self.job.order = [
                item for item in self.job.order if isinstance(item, ordering.Class)]
            if self.happens(0.03):
                self.job.order.append(ordering.Class(b""))
        words = self.words()
        if self.happens(0.15):
            self.files[RESPONSE] = self.text_of(words)
            words = ["@" + RESPONSE]
        return self.case(words, "doslink")

    def by_line(self, language, more=()):
        """The job by the words of LINK or TLINK, without what these have no word for."""
        job, speller = self.job, LineSpeller(self.random, language, self.files)
        kinds = {"sys": "com", "bin": "com"}
        kind = "exe" if job.form is None else job.form.kind
        if self.happens(0.15):
            self.move_inputs()
        if language == TLINK and self.happens(0.2):
            self.move_to_folders()
        if language == TLINK and self.happens(0.8):
            # LIB isn't looked into
            job.folders = [*job.folders, *filter(None, self.folders)]
        if self.happens(0.3):
            self.put_other_cases()
        job.form, job.keeps_debug, job.is_verbose = Form(kinds.get(kind, kind)), False, self.happens(0.5)
        job.order = job.order if job.order == ordering.DOSSEG else None
        job.inputs.sort(key=lambda each: each.is_library)
        words = speller.spelled(job, more)
        self.put_front(language, speller.front)
        return self.case(words, language)

    def put_front(self, language, front):
        """What stands in front of a line: a variable, or a file."""
        if language == LINK:
            self.variable = front or None
        elif front:
            text = front + self.random.choice(["", "", "\n", "\r\n"]) + self.random.choice(BEHIND_TEXT)
            self.files[self.random.choice(CONFIGURATIONS)] = text.encode()

    def move_inputs(self):
        """Some of what is linked, of what is here, stands in folders, by names that begin as options of TLINK do."""
        for name in dict.fromkeys(each.name for each in self.job.inputs):
            paths = [path for path in (name + ending for ending in ENDINGS) if path in self.files]
            if paths and self.happens(0.7):
                front = self.random.choice(FRONTS)
                self.files.update({front + path: self.files.pop(path) for path in paths})
                for each in self.job.inputs:
                    each.name = front + name if each.name == name else each.name

    def move_to_folders(self):
        """Some of what is linked stands in folders of modules, or has another file there."""
        job = self.job
        job.object_folders = self.random.choice([
            [OBJECT_FOLDER], [OBJECT_FOLDER, OLD_FOLDER], [OLD_FOLDER, OBJECT_FOLDER], ["", OBJECT_FOLDER], [FOLDER]])
        for name in dict.fromkeys(each.name for each in job.inputs if not each.is_library or self.happens(0.05)):
            paths = [path for path in (name + ending for ending in ENDINGS) if path in self.files]
            for path in paths if self.happens(0.6) else []:
                places = [each.rstrip("/") + "/" + path for each in (OBJECT_FOLDER, OLD_FOLDER)]
                self.random.shuffle(places)
                self.files[places[0]] = self.files[path] if self.happens(0.2) else self.files.pop(path)
                if self.happens(0.2):
                    self.files[places[1]] = module_of_publics([b"twin"])

    def put_other_cases(self):
        """Files, and folders of LIB, are called otherwise by case; some are there twice, and so is what is written."""
        for path in list(self.files):
            other = in_another_case(self.random, path)
            if other not in self.files and self.happens(0.3):
                self.files[other] = self.files.pop(path) if self.happens(0.7) else module_of_publics([b"twin"])
        for path in (OUT, MAP):
            if self.happens(0.3):
                self.files.setdefault(in_another_case(self.random, path), b"an older one")
        if self.happens(0.3):
            self.folders = [in_another_case(self.random, each) for each in self.folders]

    def make_line_options(self, language, option):
        """A line with an option that asks for no other job, or with a word that is wrong."""
        self.files["0.obj"], self.folders = module_of_publics([b"x"]), []
        self.give("0.obj")
        self.plan.libraries = []
        word = option if isinstance(option, str) else LineSpeller(self.random, language, {}).option(*option)
        return self.by_line(language, [word])

    def make_odd_line(self, line, language=None):
        """A line that is wrong, or that seems so, of a linker or of any."""
        language = language or self.random.choice([LINK, TLINK])
        for path in BESIDE:
            self.files[path] = module_of_publics([path.encode()])
        self.files.update(OLDER)
        self.files["com.obj"], self.folders = module_of_form(0, 3, 0x100, ()), []
        self.files["flat.obj"], self.files["odd.obj"] = (module_of_form(0x100, 3, start, ()) for start in [0, 2])
        self.files["stacked.obj"] = module_of_form(0x100, 3, 0, ("stack",))
        self.files["wordy.obj"] = module_of_form(0x100, 3, 0, ("word",))
        self.files[self.random.choice(["defs.DEF", "defs.def"])] = self.random.choice(DEFINITIONS)
        speller = LineSpeller(self.random, language, self.files)
        name = self.random.choice(["0.obj", "0", '"0.obj"', "0.OBJ"])
        line = line.replace("OBJECT", name)
        return self.case([line[1:]] if line.startswith("~") else speller.words(line), language)

    def make_odd_front(self, language, front):
        """A line with something in front of it that is wrong, or seems so."""
        line = self.random.choice([
            "OBJECT,out", "OBJECT", "/c- OBJECT/x-", ",out", "OBJECT,tlink.cfg", "OBJECT,,TLINK.CFG;"])
        self.put_front(language, front.replace("OBJECT", "0"))
        self.files["tail"] = b"0 /e\r\n"
        return self.make_odd_line(line, language)

    def make_odd_configuration(self, files):
        """TLINK.CFG that is no text, or isn't the file that is meant."""
        self.files.update(files)
        return self.make_odd_line("OBJECT,out", TLINK)

    def make_cases(self, language, counts, more=()):
        """Two publics that differ by case alone, where that counts or not, and more words."""
        for number, name in enumerate([b"x", b"X"]):
            self.files[f"{number}.obj"] = module_of_publics([name])
            self.give(f"{number}.obj")
        self.folders, self.job.ignores_case = [], not counts
        return self.by_line(language, more)

    def make_null_bytes(self, language, order):
        """Code in the order of DOSSEG, which has null bytes or not, where that is asked for or a module asks."""
        self.files["code.obj"] = module_of_code(2, False, asks_for_order=self.happens(0.5))
        self.give("code.obj")
        self.folders, self.job.order, self.job.form = [], order, None
        self.job.has_null_bytes = self.happens(0.5)
        # both options, in any order
        return self.by_line(language, ["/DO", "/non"] if language == LINK and self.happens(0.4) else [])

    def make_deep(self, language, deep):
        """Response files that name one another."""
        self.files["0.obj"], self.folders = module_of_publics([b"x"]), []
        for number in range(deep):
            self.files[f"r{number}"] = b"@r%d\r\n" % (number + 1) if number + 1 < deep else b"0,out\n;\r\n\x1Ax\xE9"
        return self.case(["@r0"], language)

    def make_many_files(self, language, count):
        """As many response files as there may be, or one more."""
        self.files["0.obj"], self.folders = module_of_publics([b"x"]), []
        self.files["r"] = b"/e \n"
        return self.case([*["@r"] * count, "0,out"], language)

    def make_default_switched(self, option):
        """A default library, and options of TLINK that leave out such or don't."""
        self.files["0.obj"] = module_of_links([], [], b"SLIBCE")
        self.files["slibce.lib"] = b"x"
        self.give("0.obj")
        self.folders = []
        return self.by_line(TLINK, [option])

    def make_edge(self, language, edge, option):
        """A map of publics at the edge of their frames, and of a local one; at times with line numbers."""
        for number in range(self.random.choice([1, 2])):
            self.files[f"{number}.obj"] = module_of_edge(b"E%d" % number, *edge)
            self.give(f"{number}.obj")
        self.folders, self.job.map = [], MAP
        return self.by_line(language, [option])

    def make_default_left_out(self, library):
        """A default library, and an option that leaves out this one or another one."""
        self.files["0.obj"] = module_of_links([], [], b"SLIBCE")
        self.files[library] = b"x"
        self.give("0.obj")
        self.folders = []
        words = ["/NOD:" + self.random.choice(["slibce", "SLIBCE.LIB", "other", "slibce.lib", "SLIB"])]
        return self.by_line(LINK, words)

    def make_all_left_out(self):
        """A default library that isn't there, and the option that leaves out all."""
        self.files["0.obj"], self.folders = module_of_links([], [], b"SLIBCE"), []
        self.give("0.obj")
        return self.by_line(LINK, ["/NOD"])

    def make_whole_part(self):
        """A detailed map of a segment that is as long as its offsets reach."""
        self.files["0.obj"], self.folders = module_of_form(0, 0xFF00, None, []), []
        return self.case(["0,out,list/s;"], TLINK)

    def make_detailed_locals(self):
        """A detailed map of the segments of local variables, of which a far one is as long as its offsets reach."""
        self.files["0.obj"], self.folders = module_of_local_variables(far=Declared(True, 65_536)), []
        return self.case(["0,out,list/s;"], TLINK)

    def make_defined_over(self):
        """A program in the place of its file of definitions."""
        self.files["0.obj"], self.folders = module_of_publics([b"x"]), []
        self.files["defs.def"] = b"NAME x\n"
        return self.case(["0,defs.def,nul,,defs;"], LINK)

    def make_of_lib(self, language, line):
        """A library in LIB's folder, which a line names, or only a module."""
        self.files["0.obj"], self.folders = module_of_links([], [b"x"], b"L"), [LAST_FOLDER]
        self.files[f"{LAST_FOLDER}/L.LIB"] = library(self.random, [module_of_publics([b"x"])], SMALL_PAGES)
        return self.case([line], language)

    def make_map(self, form, option=None):
        """A map in a form, of publics in groups, of absolute ones and of any; or, with line numbers, that of a line
        with an option."""
        self.folders, self.plan.wants_marks, self.plan.has_lines = [], 0.9, 0.2 if option is None else 0.9
        self.add_some_objects()
        names = [width * b"N" for width in (17, 18, 19, 22, 23, 40)]
        self.files["long.obj"] = module_of_lengths(names, 2, [0, 1, 2, 0, 1, 2], False)
        self.give("long.obj")
        if option is not None:
            return self.by_line(form, [option])
        self.job.map_form = form
        return self.case(self.words(), "doslink")

    def case(self, words, program):
        variable = self.variable
        if variable is None and self.happens(0.2):
            variable = self.random.choice(["", " ", *CALLS]) if program == LINK else "/q nothing"
        called = self.random.choice(CALLED) if program == WLINK and self.happens(0.4) else program
        return Case(
            self.files, self.job, words, program, self.folders, self.random.choice(":;"), variable, called)

    def text_of(self, words):
        """A response file of words; rarely one that isn't there, or is wrong."""
        quoted = [
            f'"{word}"' if " " in word or not word or self.happens(0.2) else word
            for word in words]
        spaces = [self.random.choice([" ", "\n", "  ", "\t", "\r\n"]) for _ in quoted]
        text = "".join(word + space for word, space in zip(quoted, spaces)).encode()
        if self.happens(0.02):
            return self.random.choice([None, text + b"\xE9", text + b'"a'])
        if self.happens(0.05):
            return text + self.random.choice([b"\x1A", b"\x1A\xE9", b'\x1A"a', b"\x1A x.obj\n", b"\x1A\x1A"])
        return text

    def words(self):
        """The options in any order, and FILES."""
        job = self.job
        options = [["-o", job.out]] if job.out is not None else []
        options += [["-m", job.map]] if job.map is not None else []
        options += [["--ignore-case"]] if job.ignores_case else []
        options += [] if job.has_default_libraries else [["--no-default-libs"]]
        options += [["--keep-debug"]] if job.keeps_debug else []
        options += [["-v"]] if job.is_verbose else []
        options += [] if job.order is None else [["--order", self.order_word()]]
        options += [] if job.stack is None else [["--stack", self.number(job.stack.length)]]
        options += self.form_words()
        if self.has_lines and (job.map_form != "omf" or self.happens(0.2)):
            options += [["--map-form", self.random.choice([job.map_form, job.map_form.upper()])]]
        self.random.shuffle(options)
        given = [["-l", each.name] if each.is_library else [each.name] for each in job.inputs]
        words = self.merged(self.merged(options, [["-L", folder] for folder in job.folders]), given)
        return [word for each in words for word in each]

    def form_words(self):
        """The words for a form; a raw image begins at its first byte."""
        form = self.job.form
        if form is None:
            return []
        words = [["--form", self.random.choice([form.kind, form.kind.upper()])]]
        if form.kind == "bin":
            form.start = 0
            numbers = [f"{form.paragraph:04X}", f"{form.paragraph:x}", f"0x{form.paragraph:X}"]
            if form.paragraph or self.happens(0.5):
                words.append(["--at", self.random.choice(numbers)])
        return words

    def form_lines(self):
        """The line for a form; what no directive says is another form then."""
        form = self.job.form
        if form is not None and form.kind == "sys":
            form.kind = "com"
        if form is None:
            lines = ["format dos", "format dos", "system dos"]
        elif form.kind == "exe":
            lines = ["format dos exe"]
        elif form.kind == "com":
            lines = ["format dos com", "system com", "format dos com", "format DOS COM", "system Com"]
        else:
            form.paragraph = 0
            offset = self.offset or self.size(form.start)
            lines = ["output raw"] if form.start == 0 else []
            lines += [f"output raw offset={offset}", f"output raw offset = '{offset}'"]
        line = self.random.choice(lines)
        if self.happens(0.3):
            # the last one counts
            line = self.random.choice(["format dos com", "system dos", "output raw"]) + "\n" + line
        elif form is None and self.happens(0.3):
            return []
        return [line]

    def merged(self, first, second):
        """Two lists as one, in which each has its order."""
        places = sorted(self.random.randrange(len(first) + 1) for _ in second)
        found = list(first)
        for place, each in zip(reversed(places), reversed(second)):
            found.insert(place, each)
        return found

    def number(self, value):
        """A number in one of its forms."""
        return self.random.choice([str(value), f"0x{value:x}", f"0X{value:X}"])

    def order_word(self):
        if self.job.order == ordering.DOSSEG:
            words = ["dosseg", "dosseg", "DosSeg"] if self.job.has_null_bytes else [
                "dosseg-nonulls", "DOSSEG-NoNulls"]
            return self.random.choice(words)
        return ",".join(item.name.decode() for item in self.job.order)

    def by_directives(self):
        """Directives in any order but that of files and of libraries, in a file or as words."""
        if self.has_lines:
            return self.asked()
        job = self.job
        job.is_verbose = job.keeps_debug = job.has_null_bytes = False
        job.has_default_libraries = True
        if job.stack is not None:
            job.stack.cuts = True
        if self.happens(0.02):
            job.inputs = [each for each in job.inputs if each.is_library]
        if self.happens(0.2):
            self.move_to_folders()
        if self.tells_cases and self.happens(0.15):
            self.put_other_cases()
        lines = self.joined(list(map(self.in_any_case, self.lines())))
        if self.happens(0.8):
            self.files[RESPONSE] = self.text_of_lines(lines)
            return self.case(["@" + self.spelling(RESPONSE)], WLINK)
        parts, words = self.parts_of(lines), []
        for number, part in enumerate(parts):
            if len(part) == 1 and not part[0].startswith("@") and self.happens(0.5):
                words.append(part[0])
            else:
                self.files[f"{RESPONSE}{number}"] = self.text_of_lines(part)
                words.append("@" + self.spelling(f"{RESPONSE}{number}"))
        return self.case(words, WLINK)

    def spelling(self, path):
        """A path by a name of DOS."""
        return by_dos(self.random, path, self.tells_cases)

    def named(self, path):
        """The same, in quotes or not."""
        return self.quoted(self.spelling(path))

    def joined(self, lines):
        """The lines, of which some stand one behind the other."""
        found = []
        for line in lines:
            if found and "#" not in found[-1] and self.happens(0.1):
                found[-1] += self.random.choice([" ", "  ", "\t"]) + line
            else:
                found.append(line)
        return found

    def parts_of(self, lines):
        """The lines in one part or some, of which many have but one."""
        parts = []
        while lines:
            count = self.random.choice([1, 1, 2, len(lines)])
            parts.append(lines[:count])
            lines = lines[count:]
        return parts

    def text_of_lines(self, lines):
        """A response file of directives; rarely one that isn't there, or is wrong."""
        end = self.random.choice(["\n", "\n", "\n", "\r\n"])
        text = (end.join(lines) + self.random.choice(["", "\n"])).encode()
        if self.happens(0.01):
            return self.random.choice([None, text + b"\xE9"])
        return text

    def lines(self):
        job = self.job
        lines = [] if job.out is None else [f"name {self.named(job.out)}"]
        lines += [f"option map={self.spelling(job.map)}"] if job.map and self.happens(0.7) else []
        lines += ["option map"] if job.map and self.happens(0.3) else []
        lines += ["option caseignore"] if job.ignores_case else []
        lines += ["option dosseg"] if job.order == ordering.DOSSEG else []
        lines += [] if job.stack is None else [f"option stack={self.size(job.stack.length)}"]
        lines += [self.order_line()] if isinstance(job.order, list) else []
        lines += self.required_lines
        lines += self.naming_lines()
        lines += self.random.sample(LINES_OF_NOTHING, self.random.randrange(3))
        lines += self.form_lines()
        lines += [self.random.choice(LEFT_OUT)] if self.happens(0.2) else []
        lines += [self.random.choice(OTHER_LINES)] if self.happens(0.05) else []
        lines += [self.random.choice(WRONG_LINES)] if self.happens(0.1) else []
        self.random.shuffle(lines)
        lines = self.merged(lines, self.lists("reference", job.references))
        lines = self.merged(lines, self.alias_lines())
        lines = self.merged(lines, self.lists("libpath", map(self.spelling, job.folders)))
        lines = self.merged(lines, self.path_lines())
        return self.merged(lines, self.given_lines())

    def naming_lines(self):
        """A line of the start, where there is one."""
        if self.job.start is None:
            return []
        word = self.random.choice(["start", "start", "star", "STARt"])
        first = self.random.choice(["", "", "", "start=other, "])
        return [f"option {first}{word}{self.random.choice(['=', ' = '])}{self.quoted(self.job.start)}"]

    def alias_lines(self):
        """A line for each alias, or one of all."""
        aliases = [f"{self.quoted(alias)}={self.quoted(means)}" for alias, means in self.job.aliases]
        if aliases and self.happens(0.5):
            return [f"alias {self.random.choice([',', ' , ']).join(aliases)}"]
        return [f"alias {each}" for each in aliases]

    def path_lines(self):
        """A line of each folder of modules, or one of all."""
        folders = self.job.object_folders
        if folders and self.happens(0.5):
            folders = [";".join(folders)]
        return [f"path {self.named(each)}" for each in folders if each]

    def given_lines(self):
        """The lines of what is linked, in its order."""
        library, lines = self.random.choice(["library", "library", "lib"]), []
        for is_library, some in groupby(self.job.inputs, key=lambda each: each.is_library):
            lines += self.lists(library if is_library else "file", [self.spelling(each.name) for each in some])
        return lines

    def size(self, length):
        """A number of bytes in one of its forms."""
        count = length // 1024
        kilobytes = [f"{count}k", f"{count}K", f"0x{count:x}k"] if length % 1024 == 0 else []
        return self.random.choice([self.number(length), *kilobytes])

    def lists(self, directive, names):
        """A line for each name, or one of all."""
        names = list(map(self.quoted, names))
        if names and self.happens(0.1):
            return [f"{directive} {{{self.random.choice([' ', ', ']).join(names)}}}"]
        if names and self.happens(0.3):
            return [f"{directive} {self.random.choice([',', ', ']).join(names)}"]
        return [f"{directive} {name}" for name in names]

    def quoted(self, name):
        quote = self.random.choice(["", "", "", '"', "'"])
        return quote + name + quote

    def order_line(self):
        words = {ordering.Class: "clname", ordering.Named: "segment"}
        pairs = [f"{words[type(item)]} {item.name.decode()}" for item in self.job.order]
        return "order " + " ".join(pairs)

    def in_any_case(self, line):
        """A line whose first word is mostly as it was, with spaces before it at times."""
        word, space, rest = line.partition(" ")
        word = self.random.choice([word, word, word.upper(), word.capitalize(), SHORTEST.get(word, word)])
        return self.random.choice(["", "", "", "  "]) + word + space + rest


def in_turn(make, cases=((),)):
    """What makes a job of the cases in their turn; a tuple is of what a method is given."""
    def make_case(maker, turn):
        each = cases[turn % len(cases)]
        return make(maker, *each) if isinstance(each, tuple) else make(maker, each)

    return make_case


# One job in so many, behind so many, is made for one rule, each time in its next turn. The first of
# these that a number is one of counts.
MADE = [
    (MANY_EVERY, 0, in_turn(JobMaker.make_many_parts, [MOST_PARTS, MOST_PARTS + 1])),
    (FAR_DATA_EVERY, 1, in_turn(JobMaker.make_far_data, FAR_DATA)),
    (RARE_EVERY, 98, in_turn(JobMaker.make_bss_outside)),
    (RARE_EVERY, 99, in_turn(JobMaker.make_listed)),
    (LONG_EVERY, 3, in_turn(JobMaker.make_long_externals, [
        (make_module, length) for make_module in (module_of_long_externals, module_of_long_aliases)
        for length in LONG_BODIES])),
    (WRONG_EVERY, 8, in_turn(JobMaker.make_wrong, WRONG_LINES[:60])),
    (QUIET_EVERY, 20, in_turn(JobMaker.make_quiet)),
    (ALIASES_EVERY, 14, in_turn(JobMaker.make_aliases)),
    (NAMING_EVERY, 17, in_turn(JobMaker.make_naming)),
    (FLAT_EVERY, 10, in_turn(JobMaker.make_flat, FLAT)),
    (MARKS_EVERY, 16, in_turn(JobMaker.make_marks, CLEARED)),
    (FOREIGN_EVERY, 29, in_turn(JobMaker.make_foreign, FOREIGN)),
    (SYMBOLS_EVERY, 37, in_turn(JobMaker.make_symbols, SYMBOLS)),
    (WRITTEN_EVERY, 6, JobMaker.make_written),
    (LINES_EVERY, 18, JobMaker.make_many_lines),
    (CODE_EVERY, 70, in_turn(JobMaker.make_code, CODES)),
    (WIDE_EVERY, 120, in_turn(JobMaker.make_wide, WIDE)),
    (NEGATIVE_EVERY, 130, in_turn(JobMaker.make_negative, LAST_PLACES)),
    (WHOLE_EVERY, 45, in_turn(JobMaker.make_whole, WHOLE)),
    (CUT_EVERY, 195, in_turn(JobMaker.make_cut_public)),
    (COMMUNALS_EVERY, 2, JobMaker.make_communals),
    (DEFAULTS_EVERY, 7, in_turn(JobMaker.make_defaults)),
    (LOCAL_DEFAULTS_EVERY, 21, in_turn(
        JobMaker.make_local_defaults, [(defaults, None) for defaults in LOCAL_DEFAULTS])),
    (LOCAL_DEFAULTS_EVERY, 28, in_turn(
        JobMaker.make_local_defaults, [(None, use) for use in USES])),
    (LOCAL_DEFAULTS_EVERY, 23, in_turn(JobMaker.make_with_local_defaults)),
    (RENAMED_EVERY, 13, in_turn(JobMaker.make_renamed, RENAMED)),
    (LOCAL_EVERY, 36, in_turn(JobMaker.make_local, LOCAL)),
    (CHAIN_EVERY, 44, in_turn(JobMaker.make_chain, [False, True])),
    (ALONE_EVERY, 95, in_turn(JobMaker.make_libraries_alone)),
    (TWICE_EVERY, 69, in_turn(JobMaker.make_twice, [False, True])),
    (NO_NUMBER_EVERY, 24, in_turn(JobMaker.make_no_number, NO_NUMBERS)),
    (SUM_EVERY, 38, in_turn(JobMaker.make_sum, [
        (location, total) for location in SUM_LOCATIONS for total in SUMS])),
    (SHARED_EVERY, 46, in_turn(JobMaker.make_shared, SHARED)),
    (START_EVERY, 41, in_turn(JobMaker.make_start, [
        (*start, total) for start in STARTS for total in SUMS])),
    (STACKS_EVERY, 5, in_turn(JobMaker.make_stacks, STACKS)),
    (WRONG_EVERY, 19, in_turn(JobMaker.make_wrong, WRONG_LINES[60:])),
    (FORMS_EVERY, 7, in_turn(JobMaker.make_form, FORMS)),
    (LENGTHS_EVERY, 9, in_turn(JobMaker.make_lengths, LENGTHS)),
    (AMISS_EVERY, 11, in_turn(JobMaker.make_amiss)),
    (MIXED_EVERY, 4, in_turn(JobMaker.make_mixed, [("-", None), (OUT, "-"), ("-", "-")])),
    (FILES_EVERY, 30, in_turn(JobMaker.make_many_responses, [201, 200])),
    (FOLDERS_EVERY, 13, in_turn(JobMaker.make_many_folders, MANY_FOLDERS)),
    (OFFSETS_EVERY, 0, in_turn(JobMaker.make_offset, [(each,) for each in OFFSETS])),
    (CASES_EVERY, 40, in_turn(JobMaker.make_case_lines, CASE_LINES)),
    (UNNAMED_EVERY, 34, in_turn(JobMaker.make_unnamed, UNNAMED)),
    (ENDED_EVERY, 22, in_turn(JobMaker.make_ended, [tuple(words) for words in ENDED_WORDS])),
    (WRONG_EVERY, 24, in_turn(JobMaker.make_wrong, OTHER_LINES)),
    (DRIVERS_EVERY, 4, in_turn(JobMaker.make_driver, DRIVERS)),
    (SPOKEN_EVERY, 2, in_turn(JobMaker.make_spoken, [tuple(words) for words in SPOKEN_WORDS])),
    (MISNAMED_EVERY, 30, in_turn(JobMaker.make_misnamed, [tuple(words) for words in MISNAMED_WORDS])),
    (BY_DOS_EVERY, 12, in_turn(JobMaker.make_by_dos, [tuple(words) for words in BY_DOS_WORDS])),
    (EMPTY_EVERY, 35, in_turn(JobMaker.make_empty_stacks, [(lengths,) for lengths in EMPTY_STACKS])),
    (REACHED_EVERY, 32, in_turn(JobMaker.make_reached, [(locations,) for locations in REACHING])),
    (COMDATS_EVERY, 3, in_turn(JobMaker.make_comdats, [(modules,) for modules in comdats.CASES])),
    (COMDATS_EVERY, 11, in_turn(JobMaker.make_with_comdats)),
    (COMDATS_EVERY, 15, in_turn(JobMaker.make_shared_comdats)),
    (COMDATS_EVERY, 23, in_turn(JobMaker.make_shared_comdats)),
]


def made(maker, make, *given):
    """What makes a job, and what it is given, as one case of some."""
    return make(maker, *given)


# what stands in a line, of which each third takes turns of its own
IN_LINES = [
    *[(JobMaker.make_line_options, language, option)
      for language in (LINK, TLINK) for option in [*OTHER_OPTIONS[language], *WRONG_WORDS[language]]],
    *[(JobMaker.make_odd_line, line) for line in MARKED_LINES],
    *[(JobMaker.make_odd_line, line, TLINK) for line in MARKED_LINES_OF_TLINK],
    *[(JobMaker.make_odd_configuration, files) for files in ODD_CONFIGURATIONS],
    *[(JobMaker.make_default_switched, option) for option in ("/n/n-", "/n-/n", "/n", "/n-")],
    (JobMaker.make_cases, TLINK, False, ["/c/c-"]), (JobMaker.make_edge, TLINK, EDGES[0], "/l/l-")]

# Where lines are asked for, half of the jobs are of these: by half of its number.
MADE_BY_LINES = [
    (8, 4, in_turn(JobMaker.make_odd_front, [
        (language, front) for language in (LINK, TLINK) for front in ODD_FRONTS[language]])),
    *[(8, behind, in_turn(made, IN_LINES[part::3])) for part, behind in enumerate((0, 2, 6))],
    (4, 1, in_turn(JobMaker.make_odd_line, [(line,) for line in ODD_LINES] + [
        (line, TLINK) for line in LINES_OF_TLINK])),
    (40, 3, in_turn(JobMaker.make_cases, [
        (language, counts) for counts in (True, False) for language in (LINK, TLINK)])),
    (40, 23, in_turn(JobMaker.make_stacks, [(lengths, True) for lengths in STACKS])),
    (20, 7, in_turn(JobMaker.make_null_bytes, [
        (language, order) for language in (LINK, LINK, TLINK) for order in (ordering.DOSSEG, None)])),
    (40, 31, in_turn(JobMaker.make_edge, [
        (language, edge, option) for edge in EDGES for language, option in ((LINK, "/LI/M"), (TLINK, "/l/m"))])),
    (40, 11, in_turn(JobMaker.make_deep, [
        (language, deep) for deep in (7, 8, 9, 3) for language in (LINK, TLINK)])),
    (40, 19, in_turn(JobMaker.make_many_files, [(LINK, 200), (TLINK, 201), (TLINK, 200), (LINK, 201)])),
    (80, 39, in_turn(JobMaker.make_default_left_out, ["slibce.lib", "SLIBCE.LIB", "SLIBCE"])),
    (80, 79, in_turn(JobMaker.make_of_lib, [
        (language, line) for line in ("0,out,,L", "0,out") for language in (TLINK, LINK)])),
    (20, 15, in_turn(JobMaker.make_map, [
        ("link",), (LINK, "/LI"), ("tlink",), (TLINK, "/l"), ("omf",), (LINK, "/LINENUM"), (TLINK, "/l/m")])),
]

# files with directives that are rare: an option that is cut too short, folders of libraries between `;`, and a
# default library that stands in a folder of modules alone, has two names that differ by case alone, or is called as the
# module is of what directives say of names
# of what directives say of names
OF_FIRST = module_of_links([], [b"f"], b"FIRST")
FIRST = library(Random(1), [module_of_links([b"f"], [], b"")], SMALL_PAGES)
OF_FILES = [
    ({"0.obj": module_of_publics([b"x"])}, "option no"),
    ({"0.obj": OF_FIRST, "lib/FIRST.LIB": FIRST}, "libpath none;lib"),
    ({"0.obj": OF_FIRST, "sub/FIRST.LIB": FIRST}, "path sub"),
    ({"0.obj": module_of_links([], [b"f"], b"First"), "FIRST.LIB": FIRST, "first.lib": FIRST}, ""),
    ({"0.obj": module_of_links([], [b"f"], b"directives"), "directives": FIRST}, "reference f")]
# programs in folders, by the name of a file in another one, and by none where standard input is read, which is empty
IN_FOLDERS = [
    ({"obj/0.obj": module_of_publics([b"x"]), "sub/x": b""}, "file obj/0.obj name sub/"),
    ({"sub/OUT.exe": module_of_publics([b"x"]), "-": b""}, "file - name sub/")]
# two files that are no modules, and a default library whose name is too long, though a file is there
BY_WORDS = [
    ({"0.obj": b"\x7FELF\1\1\1\0", "1.obj": b"MZ\x90\0"}, "0.obj", "1.obj"),
    ({"0.obj": module_of_links([], [b"f"], 126 * b"./" + b"FIRST"), "FIRST.LIB": FIRST}, "0.obj")]
# far data by the frame of its segment, also behind the first; in a group of its own; as a stack; behind eight bytes of
# code; with a public of another group; and with the start
PACKED = [
    ([], 6 * [(3, 0x20)], []), ([], [(3, 0x20), *4 * [(3, 0x20, 0, b"FAR", True)]], []),
    ([], [(3, 0x20), (3, 0x100, 5)], []),
    ([module_of_publics([b"%d" % number for number in range(8)])], [(1, 0xFF00), (1, 0xF9)], []),
    ([], [(3, 0x20)], [module_of_far_public()]), ([], [(3, 0x20)], [module_of_far_start()])]

# what takes turns of its own: lines, and words of directives that all others take turns with
MORE_LINES = [
    *[(JobMaker.make_odd_line, line, TLINK) for line in MORE_LINES_OF_TLINK],
    *[(JobMaker.make_odd_line, line, LINK) for line in MORE_LINES_OF_LINK],
    *[(JobMaker.make_odd_line, line) for line in LINES_OF_DEFINITIONS],
    *[(JobMaker.make_map, TLINK, options) for options in ("/s", "/s/l", "/l/s", "/s/m", "/s", "/s")],
    *[(JobMaker.make_paged, page) for page in (8, 16, 32_768, 65_536)],
    *[(JobMaker.make_communal_data, kind, allocation) for kind in (0xC2, 0xC3) for allocation in (0, 1)],
    *[(JobMaker.make_comdats, modules) for modules in comdats.CASES],
    (JobMaker.make_later,), (JobMaker.make_all_left_out,), (JobMaker.make_defined_over,),
    (JobMaker.make_cases, TLINK, False, ["/c/c-"]), (JobMaker.make_whole_part,), (JobMaker.make_detailed_locals,)]
MORE_WORDS = [
    *[(JobMaker.make_spoken, *words) for words in SPOKEN_WORDS],
    *[(JobMaker.make_by_dos, *words) for words in BY_DOS_WORDS],
    *[(JobMaker.make_debug, name, keeps) for name in (b"DEBTYP", b"DWARF") for keeps in (True, False)],
    (JobMaker.make_misplaced,), (JobMaker.make_driver_in_order,),
    *[(JobMaker.make_of_files, files, f"file 0.obj name {OUT} {more}") for files, more in OF_FILES],
    *[(JobMaker.make_of_files, *each) for each in IN_FOLDERS],
    *[(JobMaker.make_by_words, files, *names) for files, *names in BY_WORDS],
    *[(JobMaker.make_packed, *modules) for modules in PACKED]]
MORE_ON_DEVICES = [
    (JobMaker.make_mixed_there, "/dev/stdout", None, True), (JobMaker.make_mixed_there, OUT, "/dev/stdout", True),
    (JobMaker.make_mixed_there, "-", "/dev/stdout", False)]


def more_case(random, turn, has_words=True, has_devices=True):
    """A job by one more line of LINK or TLINK, or by one more list of words or directives, and its files."""
    cases = [*MORE_LINES, *(MORE_WORDS if has_words else []), *(MORE_ON_DEVICES if has_words and has_devices else [])]
    return in_turn(made, cases)(JobMaker(random, True, True), turn)


def plain_case(random, has_lines, tells_cases):
    """A job that is made for no rule, and its files."""
    return JobMaker(random, has_lines, tells_cases).make()


def case(random, number=1, has_lines=False, tells_cases=True):
    """A job and its files; of some numbers one that is made for one rule, often at its limit."""
    maker, made = JobMaker(random, has_lines, tells_cases), MADE
    if has_lines:
        number, made = number // 2, made if number % 2 else MADE_BY_LINES
    for every, behind, make in made:
        if number % every == behind:
            return make(maker, number // every)
    return maker.make()
