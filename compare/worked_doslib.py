"""Answers of `doslib` that were written out by hand, from docs/DOSLIB.md and docs/FORMATS.md alone.

The model must give them.
"""

from model import differing, listing, making, matching, programs, showing

A = "80 0300 0141 3B  8A 0200 00 74"
PAGE_16 = "F0 0D00" + "AA" * 13
# a module that wants x and y of which x is weak, offers p and q by PUBDEF and ALIAS, and has a variable and a library
NAMED = (
    "80 0300 014D 00  8C 0700 0178 00 0179 00 00  90 0900 00 01 0170 0000 00 00 00"
    "  88 0500 00 A8 01 02 00  C6 0500 0171 017A 00  B0 0700 0176 00 62 02 00 00  88 0600 00 9F 4C 49 42 00"
    "  8A 0200 00 00")


def bytes_of_header(name, size):
    return name.ljust(16) + b"0".ljust(12) + 2 * b"0".ljust(6) + b"644".ljust(8) + b"%-10d`\n" % size


# title, the bytes of a file F, what is printed, and the lines of its faults behind the path
FILES = [
    ("a module", bytes.fromhex(A), ['module "F" members 1', '  00000000      11 "A"'], []),
    ("with bytes behind it", bytes.fromhex(A + "0000"), ['module "F" members 1', '  00000000      13 "A"'], []),
    ("no bytes", b"", ['module "F" members 1', '  00000000       0 ""'], ["44 Truncated at place 0"]),
    ("no end", bytes.fromhex(A[:16]), ['module "F" members 1', '  00000000       6 "A"'], ["44 Truncated at place 6"]),
    ("a library", bytes.fromhex(PAGE_16 + A + "AA" * 5 + "F1"),
     ['library "F" members 1', '  00000010      11 "A"'], []),
    ("a library without its end", bytes.fromhex(PAGE_16 + A + "AA" * 5),
     ['library "F" members 1', '  00000010      11 "A"'], ["44 Truncated at place 32"]),
    ("a wrong page", bytes.fromhex("F0 0E00" + "AA" * 14), ['library "F" members 0'], ["42 PageSize at place 0"]),
    ("an archive", b"!<arch>\n" + bytes_of_header(b"a.o/", 11) + bytes.fromhex(A) + b"\n" + b"x",
     ['archive "F" members 1', '  00000044      11 "a.o"'], ["46 Header at place 80"]),
]
# the example of docs/DOSLIB.md
COUNT = (
    "80 0B00 09 636F756E742E61736D 00  96 0D00 00 05 5F54455854 04 434F4445 00  98 0700 28 0500 02 03 01 00"
    "  90 0D00 00 01 06 5F636F756E74 0000 00 00  8C 0800 05 5F6E657874 00 00  A0 0900 01 0000 9A00000000 00"
    "  9C 0500 CC 01 56 01 00  88 0600 00 9F 454D55 00  8A 0200 00 00")
SHOWN = """\
module "COUNT.OBJ" members 1
  00000000     101 "count.asm"
    00000000 THEADR "count.asm"
    0000000E LNAMES
      ""
      "_TEXT"
      "CODE"
    0000001E SEGDEF "_TEXT" class "CODE" overlay "" byte public length 5
    00000028 PUBDEF segment "_TEXT"
      "_count" offset 0000 type 0
    00000038 EXTDEF
      "_next" type 0
    00000043 LEDATA segment "_TEXT" offset 0000 bytes 5
      0000 9A 00 00 00 00
    0000004F FIXUPP
      at 001 segment-relative pointer frame target target external "_next"
    00000057 COMENT type 00 class 9F default library "EMU"
    00000060 MODEND
"""
NAMES = ['offers "q"', 'communal "v"', 'wants "y"', 'library "LIB"']

# a program of five bytes with a relocated word, and a byte behind it
FIVE = "4D5A 2500 0100 0100 0200 0200 FFFF 0300 0001 CDAB 0400 0500 1C00 0000  0100 0000  B8 0010 8E D8  1A"
TOLD = """\
program "F"
  00 5A4D signature
  02 0025 bytes in last page
  04 0001 pages
  06 0001 relocations
  08 0002 header paragraphs
  0A 0002 minimum allocation
  0C FFFF maximum allocation
  0E 0003 initial SS
  10 0100 initial SP
  12 ABCD checksum
  14 0004 initial IP
  16 0005 initial CS
  18 001C relocation table offset
  1A 0000 overlay
       32 bytes of the header
        5 bytes of the image
        1 bytes behind the image
       32 bytes of memory at least
  0000:0001 -> 00000001 1000
"""
# the bytes of no program, or of a damaged one, and the fault
NO_PROGRAMS = [
    ("", "37 Truncated"), ("4D", "37 Truncated"), ("5A4D", "35 Magic"), (FIVE[:-6], "37 Truncated"),
    (FIVE.replace("2500", "0002"), "36 Header"),
    (FIVE.replace("0100 0000  B8", "0400 0000  B8"), "38 RelocationOutside"),
]


def check_programs():
    """The same of programs."""
    content = bytes.fromhex(FIVE)
    images = (None, None), (programs.Image("O"), "B8 0010 8E D8"), (programs.Image("O", 0x1234), "B8 3422 8E D8")
    for image, written in images:
        answer, found = programs.tell_program("F", content, image)
        assert (answer.output.decode(), answer.error, answer.status) == (TOLD, b"", 0), answer.output.decode()
        assert found == (written and bytes.fromhex(written)), found
    answer, found = programs.tell_program("F", content, programs.Image("O", 0xFFFF))
    assert (answer.output, answer.error, answer.status) == (TOLD.encode(), b"doslib: F: 39 DoesNotFit\n", 1)
    answer, second = programs.tell_program("F", content, programs.Image("O", 0, False))
    assert (answer.output, answer.error, answer.status) == (TOLD.encode(), b"doslib: O: 40 Device\n", 3)
    assert (found, second) == (None, None)
    for path in ("F", "./F"):
        answer, found = programs.tell_program("F", content, programs.Image(path))
        wanted = (b"", f"doslib: {path}: it is read and would be written\n".encode(), 2, None)
        assert (answer.output, answer.error, answer.status, found) == wanted, (path, answer)
    for digits, fault in NO_PROGRAMS:
        answer, found = programs.tell_program("F", bytes.fromhex(digits), programs.Image("O"))
        wanted = (b"", f"doslib: F: {fault}\n".encode(), 1, None)
        assert (answer.output, answer.error, answer.status, found) == wanted, (digits, answer)


# a program of sixteen bytes, a module that stands in it but for its first three and its last, and what is told
LINKED = "4D5A 3000 0100 0000 0200" + 22 * "00" + "  001122 B83412 A1000005060708090A 33"
STANDS = (
    "80 0300 0141 3B  96 0700 00 04434F4445 00  98 0700 28 0C00 02 02 01 00  8C 0400 01 78 00 00"
    "  A0 1000 01 0000 B80000 A1000005060708090A 00  9C 0500 C4 01 56 01 00  8A 0200 00 00")
MATCHED = """\
module "M" "A"
  00000003      12 "CODE" "CODE"
    00000004 1234 external "x"
left 00000000       3
left 0000000F       1
"""

# records behind a header, and the fault of the module in `match`
NOT_TAKEN = [
    ("90 0200 00 00", "6 Body"), ("B0 0600 01 76 00 62 00", "44 Truncated"), ("B0 0500 01 76 00 62 00", "53 Body"),
    ("B0 0600 01 76 00 63 02 00", "54 DataType"), ("B8 0500 01 76 00 62 00", "51 Body"),
    ("B8 0600 01 76 00 63 02 00", "48 DataType"), ("C6 0400 01 76 05 00", "51 Body"), ("91 0200 00 00", "51 Body"),
    ("C2 0200 00 00", "5 Type"), ("C2 0B00 00 11 00 0000 00 01 FFFFFF 00", "51 Body"), ("C4 0300 02 01 00", "5 Type"),
    ("70 0100 00", "5 Type"), ("8A 0200 40 00", "6 Body"), ("8B 0200 40 00", "51 Body"),
]


def check_matches():
    """The same of modules in programs."""
    program = bytes.fromhex(LINKED)
    answer = matching.match_files("P", program, [("M", bytes.fromhex(STANDS))])
    assert (answer.output.decode(), answer.error, answer.status) == (MATCHED, b"", 0), answer
    others = [("A", bytes.fromhex(A[:16])), ("B", "no such file"), ("M", bytes.fromhex(STANDS))]
    answer = matching.match_files("P", program, others)
    assert answer.output.decode() == MATCHED and answer.status == 3, answer
    assert answer.error == b"doslib: A: 44 Truncated at place 6\ndoslib: B: 1 Device: no such file\n", answer.error
    for digits, fault in NOT_TAKEN:
        content = bytes.fromhex("80 0300 0141 3B" + digits + ("8A 0200 00 00" if fault[:2] != "44" else ""))
        answer = matching.match_files("P", program, [("M", content)])
        assert answer.error == f"doslib: M: {fault} at place 6\n".encode(), (digits, answer.error)
    answer = matching.match_files("M", bytes.fromhex(STANDS), others)
    assert (answer.output, answer.error, answer.status) == (b"", b"doslib: M: 35 Magic\n", 1), answer


# the image of that program, and of another one what is told: the module has its twelve bytes from 00000003 on
IMAGE, TITLE = "001122 B83412 A1000005060708090A 33", 'module "M" "A"'
DIFFERENT = [
    ("the same", IMAGE, ["no difference"]),
    ("no bytes", "", ["differ 00000000 00 --"]),
    ("the first byte", "80" + IMAGE[2:], ["differ 00000000 00 80"]),
    ("before the segment", "0011AB" + IMAGE[6:], ["differ 00000002 22 AB"]),
    ("its first byte", "001122 B7" + IMAGE[9:], ["differ 00000003 B8 B7", TITLE, '  00000000 in "CODE" "CODE"']),
    ("in a location", "001122 B83612" + IMAGE[13:], ["differ 00000004 34 36", TITLE, '  00000001 in "CODE" "CODE"']),
    ("its last byte", IMAGE[:-5] + "0C 33", ["differ 0000000E 0A 0C", TITLE, '  0000000B in "CODE" "CODE"']),
    ("behind it", IMAGE[:-2] + "FF", ["differ 0000000F 33 FF"]),
    ("two bytes", "001122 B8340F" + IMAGE[13:-2] + "FF",
     ["differ 00000005 12 0F", TITLE, '  00000002 in "CODE" "CODE"']),
    ("longer", IMAGE + "0A", ["differ 00000010 -- 0A"]),
    ("shorter by one", IMAGE[:-2], ["differ 0000000F 33 --"]),
    ("shorter by two", IMAGE[:-5], ["differ 0000000E 0A --", TITLE, '  0000000B in "CODE" "CODE"']),
]
# a module with two segments of eight bytes, B of class A at any place and A of class B at even ones
ZEROS = (
    "80 0300 0143 39  96 0600 00 0141 0142 00  98 0700 28 0800 03 02 01 00  98 0700 48 0800 02 03 01 00"
    f"  A0 0C00 01 0000 {8 * '00'} 00  A0 0C00 02 0000 {8 * '00'} 00  8A 0200 00 00")
# how many bytes 00 a program has, which of them is another in the next one, and the rows of that module
PLACES = [
    (10, 7, ["00000007 in B A", "00000006 in B A", "00000005 in B A", "00000007 in A B", "00000005 in A B"]),
    (40, 22, ["00000007 in B A", *(f"0000000{each} in A B" for each in (6, 4, 2, 0))]),
    (40, 23, ["00000007 in A B", "00000005 in A B", "00000003 in A B", "00000001 in A B"]),
    (48, 37, ["00000007 in A B"]), (48, 38, []), (7, 6, []),
]


def program_with(digits):
    """A program whose header has two paragraphs, by the digits of its image."""
    image = bytes.fromhex(digits)
    return bytes([0x4D, 0x5A, 32 + len(image), 0, 1, 0, 0, 0, 2, 0]) + bytes(22) + image


def check_differing():
    """The same of programs that differ."""
    program, module = bytes.fromhex(LINKED), bytes.fromhex(STANDS)
    for title, digits, lines in DIFFERENT:
        answer = differing.compare_programs(("P", program), ("Q", program_with(digits)), [("M", module)])
        assert (answer.output.decode().splitlines(), answer.error) == (lines, b""), (title, answer)
        assert answer.status == (0 if title == "the same" else 1), (title, answer)
    for count, at, rows in PLACES:
        images = count * "00", at * "00" + "01" + (count - at - 1) * "00"
        one, other = (program_with(digits) for digits in images)
        answer = differing.compare_programs(("P", one), ("Q", other), [("Z", bytes.fromhex(ZEROS))])
        told = answer.output.decode().replace('"', "").splitlines()
        titles = ["module Z C"] if rows else []
        assert told == [f"differ {at:08X} 00 01", *titles, *(f"  {row}" for row in rows)], told
    check_differing_faults(("P", program), ("Q", program_with(IMAGE[:-5])), ("M", module))
    # the header's words, its table and what stands behind the image are none of it
    one = bytes.fromhex(FIVE)
    other = bytes.fromhex(FIVE.replace("0200 FFFF", "0300 FFFF").replace("0100 0000  B8", "0200 0000  B8")[:-2])
    answer = differing.compare_programs(("P", one), ("Q", other), [("M", module)])
    assert (answer.output, answer.error, answer.status) == (b"no difference\n", b"", 0), answer


def check_differing_faults(program, other, module):
    """What is at fault of programs that differ at the last byte of a module."""
    def told(*given):
        answer = differing.compare_programs(*given)
        return answer.output.decode(), answer.error.decode(), answer.status

    cut, missing = ("A", bytes.fromhex(A[:16])), ("B", "no such file")
    of_cut, of_missing = "doslib: A: 44 Truncated at place 6\n", "doslib: B: 1 Device: no such file\n"
    differ = "differ 0000000E 0A --\n"
    for_module = f'{differ}{TITLE}\n  0000000B in "CODE" "CODE"\n'
    assert told(program, other, [cut]) == (differ, of_cut, 1)
    assert told(program, other, [missing, module]) == (for_module, of_missing, 3)
    assert told(program, other, [module, missing, cut]) == (for_module, of_missing + of_cut, 3)
    assert told(program, program, [cut, missing]) == ("no difference\n", "", 0)
    assert told(missing, cut, [cut]) == ("", of_missing, 3)
    assert told(program, missing, [cut]) == ("", of_missing, 3)
    assert told(cut, missing, [cut]) == ("", "doslib: A: 35 Magic\n", 1)
    assert told(("C", program[1][:-1]), cut, [cut]) == ("", "doslib: C: 37 Truncated\n", 1)
    assert told(program, module, [cut]) == ("", "doslib: M: 35 Magic\n", 1)


# a module y that offers x, and one that has no header record
Y = "80 0700 05 792E6F626A 00  90 0800 00 01 01 78 0000 00 00  8A 0200 00 00"
HEADLESS = "8A 0200 00 00"


def check_libraries():
    """The same of libraries, and of names."""
    module = bytes.fromhex(Y)
    made = making.change("make", "L", [("F", module), ("G", module)])
    content = made.written["L"]
    # the header's page, the place of the dictionary behind two members of 32 bytes, its two blocks, and its flag
    assert content[:10] == bytes.fromhex("F0 0D00 00020000 0200 01"), content[:10].hex()
    assert content[16:42] == content[48:74] == module and content[80:83] == b"\xF1\xAD\x01", content[:90].hex()
    assert len(content) == 512 + 2 * 512
    assert made.error.decode().splitlines() == [
        'doslib: warning: L: "y!" is in "y" and in "y"', 'doslib: warning: L: "x" is in "y" and in "y"']
    assert making.change("add", "F", [("F", module), ("G", module)]).error == b"doslib: F: 73 NotLibrary\n"
    assert making.change("delete", "L", [("L", content)], ["Y", "y"]).status == 0
    assert making.change("delete", "L", [("L", content)], ["y.obj"]).error == b'doslib: L: 74 NoMember "y.obj"\n'
    headless = making.change("make", "L", [("F", module), ("G", bytes.fromhex(HEADLESS))])
    assert (headless.error, headless.written) == (b"doslib: L: 7 NotHeader behind 1 members\n", {}), headless
    assert making.change("make", "F", [("G", module)], (), module).error == b"doslib: F: 73 NotLibrary\n"
    assert making.extract("L", [("L", content)], ["Y"]).written == {"Y.OBJ": module}
    twice = making.printed_names([("F", module), ("L", content)], False)
    assert twice.output.decode().splitlines() == [
        'defined twice "x": F and L(y.obj) define it', 'defined twice "x": F and L(y.obj) define it'], twice
    missing = making.printed_names([("F", bytes.fromhex(NAMED))], True)
    assert (missing.output, missing.status) == (b'missing "y": F wants it in the record at 00000006\n', 1), missing


def check():
    """Raises an AssertionError where the model gives another answer."""
    for title, content, output, errors in FILES:
        answer = listing.list_files([("F", content)])
        assert answer.output.decode().splitlines() == output, title
        assert answer.error.decode().splitlines() == [f"doslib: F: {each}" for each in errors], title
        assert answer.status == (1 if errors else 0), title
    found = listing.list_files([("F", bytes.fromhex(NAMED))]).output.decode().splitlines()[2:]
    assert [line.strip() for line in found] == ['offers "p"', *NAMES], found
    shown = showing.show_files([("COUNT.OBJ", bytes.fromhex(COUNT))])
    assert (shown.output.decode(), shown.error, shown.status) == (SHOWN, b"", 0), shown.output.decode()
    wrong = showing.show_files([("F", bytes.fromhex("90 0600 00 01 06 5F 63 00  8A 0200 00 00"))])
    assert wrong.output.decode().splitlines()[2:4] == ["    00000000 PUBDEF wrong at byte 5 of 5", "      0000 00 01 06 5F 63"]
    assert (wrong.status, wrong.error) == (1, b"doslib: F: 6 Body at place 0\n")
    both = listing.list_files([("F", bytes.fromhex(A[:16])), ("G", "no such file")])
    assert (both.status, both.error.decode().splitlines()[1:]) == (3, ["doslib: G: 1 Device: no such file"])
    check_programs()
    check_matches()
    check_differing()
    check_libraries()
