"""Object modules of any size, to measure the linker with."""

import struct
from dataclasses import dataclass, field
from enum import IntEnum
from typing import Optional

# most data bytes of a record, all of which a fix-up's ten bits of offset reach
RECORD_DATA = 1024
# bytes of a whole segment
SEGMENT = 65536
# far pointers of a module that calls others
CALLS = 5
# publics, and externals, of a module that has many names
NAMES = 5000
# names in one record
NAMES_IN_RECORD = 1000
# names that a module defines and uses, local ones or not
OWN_NAMES = 100
# words of data that are repeated, each stored behind its own repeat and block counts and length
REPEATED_WORDS = 140
REPEATS = 234
# the most copies of a block
MOST_REPEATS = 65535
# fix-ups of three bytes that one record holds, and the place of the first content behind counts and length
SHORT_FIXUPS_IN_RECORD = 21_000
FIRST_CONTENT = 5
# bytes that a record of 13 bytes stands for
EXPANDED = 65_000
# bytes of code of a program that is long and has no other data
CODE = 16
# bytes of a page of a library
PAGE = 512


# bytes of a name that all members of an archive share
LONG_NAME = 200_000

# how many files of directives a line may have
FILES_OF_DIRECTIVES = 200
# names of which a hasher of 64 bits with this first state takes the first eight bytes for its state, so that nothing of
# the others is left in a product
FIRST_STATE, LENGTH_OF_NAME = 0x243F_6A88_85A3_08D3, 16

# types of the records that define names and use them, for all modules or for their own
PUBDEF, LPUBDEF = 0x90, 0xB6
EXTDEF, LEXTDEF = 0x8C, 0xB4

# the type of data of which modules may each have some of one name, and how many of them a module has that shares all
COMDAT, SHARED, SHARED_BYTES = 0xC2, 40, 16
# the types of comments and of aliases, and the class of a comment that gives weak externals their defaults
COMENT, ALIAS, WKEXT = 0x88, 0xC6, 0xA8
# the type of those that declare communal variables
COMDEF = 0xB0
# the class of a comment that names a default library
LIBRARY = 0x9F


class Location(IntEnum):
    """What a fix-up changes."""

    LOW_BYTE = 0
    OFFSET = 1
    BASE = 2
    POINTER = 3


class Target(IntEnum):
    """What a fix-up points to, by its index in the module."""

    SEGMENT = 0
    EXTERNAL = 2


class Alignment(IntEnum):
    """Where a segment may begin."""

    BYTE = 1
    PARAGRAPH = 3


class Combination(IntEnum):
    """Whether a segment combines with those of its name and class."""

    PRIVATE = 0
    PUBLIC = 2


@dataclass
class Inputs:
    """The modules of a link, and what the program that they make must have; its file has all of the size, or
    the written bytes where it has fewer. Beside them stand files of other names, and further words, or in the place of
    all words those by which another linker is called, and the program is OUT.EXE."""

    modules: list
    size: int
    relocations: int
    written: Optional[int] = None
    files: dict = field(default_factory=dict)
    words: tuple = ()
    line: tuple = ()


def record(kind, body):
    """A record with its length and its closing byte."""
    assert len(body) <= 65534
    front = struct.pack("<BH", kind, len(body) + 1) + body
    return front + bytes([-sum(front) % 256])


def index(number):
    """An index in its shortest form."""
    assert number <= 32767
    return bytes([number]) if number < 128 else bytes([128 + number // 256, number % 256])


def name(text):
    """A name, a text or bytes, behind its length."""
    encoded = text if isinstance(text, bytes) else text.encode()
    return bytes([len(encoded)]) + encoded


def header(text):
    return record(0x80, name(text))


def names(*texts):
    return record(0x96, b"".join(map(name, texts)))


def segment(length, alignment=Alignment.BYTE, combination=Combination.PUBLIC):
    """A segment with the first name and the second one as its class."""
    whole = length == SEGMENT
    attributes = alignment << 5 | combination << 2 | whole << 1
    return record(0x98, struct.pack("<BH", attributes, 0 if whole else length) + b"\1\2\1")


def publics(offsets, kind=PUBDEF):
    """Publics of the first segment, of a dictionary from names to offsets."""
    entries = list(offsets.items())
    return b"".join(
        record(kind, b"\0\1" + b"".join(name(text) + struct.pack("<HB", offset, 0) for text, offset in some))
        for some in pieces(entries, NAMES_IN_RECORD)
    )


def externals(texts, kind=EXTDEF):
    return b"".join(
        record(kind, b"".join(name(text) + b"\0" for text in some)) for some in pieces(texts, NAMES_IN_RECORD)
    )


def repeated(number, offset, repeats, contents):
    """Data of some contents, one behind the other, and all of them repeated."""
    blocks = b"".join(struct.pack("<HHB", 1, 0, len(content)) + content for content in contents)
    return record(0xA2, index(number) + struct.pack("<HHH", offset, repeats, len(contents)) + blocks)


def data(number, offset, content):
    return record(0xA0, index(number) + struct.pack("<H", offset) + content)


def fixup(offset, location, target, number):
    """A segment-relative fix-up in the frame of its target."""
    place = 0xC000 | location << 10 | offset
    return struct.pack(">HB", place, 0x54 | target) + index(number)


def fixups(subrecords):
    return record(0x9C, b"".join(subrecords))


def end():
    return record(0x8A, b"\0")


def main_end():
    """The end of the module at whose first byte the program starts."""
    return record(0x8A, b"\xC1\x50\1\0\0")


def pieces(items, length):
    return [items[at : at + length] for at in range(0, len(items), length)]


def filled_segments(size):
    """The lengths of the segments that a number of bytes fills."""
    return [SEGMENT] * (size // SEGMENT) + [size % SEGMENT] * (size % SEGMENT > 0)


def filler(length, seed):
    """Bytes of which no two neighbours are alike."""
    return bytes((seed + 7 * at) % 256 for at in range(length))


def calling_module(number, count):
    """A module with a public that has far pointers to the publics of the modules behind it."""
    calls = CALLS if number < count - 1 else 1
    called = [f"f{(number + 1 + call) % count}" for call in range(calls)]
    return (
        header(f"m{number}")
        + names("CODE", "CODE")
        + segment(4 * CALLS)
        + publics({f"f{number}": 0})
        + externals(called)
        + data(1, 0, bytes(4 * CALLS))
        + fixups(fixup(4 * call, Location.POINTER, Target.EXTERNAL, call + 1) for call in range(calls))
        + (main_end() if number == 0 else end())
    )


def calling_modules(count):
    """Modules that call one another: five relocations each, and one in the last."""
    modules = [calling_module(number, count) for number in range(count)]
    return Inputs(modules, 4 * CALLS * count, CALLS * (count - 1) + 1)


def library(members):
    """A .LIB with a dictionary that holds nothing."""
    def padded(content):
        return content + bytes(-len(content) % PAGE)

    first = b"\xF0" + struct.pack("<HIHB", PAGE - 3, 0, 1, 0)
    last = b"\xF1" + struct.pack("<H", PAGE - 3)
    return b"".join(map(padded, [first, *members, last])) + bytes(PAGE)


def unwanted_module(number):
    """A module as one that is called, whose names no other wants or offers."""
    return (
        header(f"u{number}")
        + names("CODE", "CODE")
        + segment(4 * CALLS)
        + publics({f"u{number}": 0})
        + externals([f"v{number}.{call}" for call in range(CALLS)])
        + data(1, 0, bytes(4 * CALLS))
        + fixups(fixup(4 * call, Location.POINTER, Target.EXTERNAL, call + 1) for call in range(CALLS))
        + end()
    )


def library_of_callers(count):
    """A module, and a library of a number of members of which it takes a third: each of these calls five others."""
    called = calling_modules(count // 3 + 1)
    main, *taken = called.modules
    members = []
    for number, module in enumerate(taken):
        members += [unwanted_module(2 * number), unwanted_module(2 * number + 1), module]
    return Inputs([main, library(members)], called.size, called.relocations)


def comdat(name_index):
    """A COMDAT of which any of its name is taken, in the first segment, at a byte."""
    front = bytes([0, 0x10, 1]) + struct.pack("<HB", 0, 0) + b"\0\1" + index(name_index)
    return record(COMDAT, front + bytes([0x90]) * SHARED_BYTES)


def sharing_module(number):
    """A module with COMDATs, which has the same as any other such module; the first one starts the program."""
    shared = [f"shared{number}" for number in range(SHARED)]
    return (
        header(f"m{number}")
        + names("CODE", "CODE", *shared)
        + segment(4)
        + data(1, 0, bytes(4))
        + b"".join(comdat(at + 3) for at in range(SHARED))
        + (main_end() if number == 0 else end())
    )


def shared_comdats(count):
    """Modules that all have the same COMDATs."""
    return Inputs([sharing_module(number) for number in range(count)], 4 * count + SHARED * SHARED_BYTES, 0)


def library_of_names(count):
    """A library of a number of members, each of which offers a name and wants those of five others."""
    return library(calling_modules(count + 2).modules[1:-1])


def aliases(pairs):
    """Names with those that they stand for."""
    return b"".join(
        record(ALIAS, b"".join(name(text) + name(meaning) for text, meaning in some))
        for some in pieces(pairs, NAMES_IN_RECORD)
    )


def weak_externals(pairs):
    """Externals by their indexes, with their defaults."""
    return b"".join(
        record(COMENT, bytes([0, WKEXT]) + b"".join(index(number) + index(default) for number, default in some))
        for some in pieces(pairs, NAMES_IN_RECORD)
    )


def renaming_module(defined, used, records=b""):
    """A module that defines a name, and has a pointer to the first of the names that it uses."""
    return Inputs([
        header("renaming")
        + names("CODE", "CODE")
        + segment(4)
        + publics({defined: 0})
        + externals(used)
        + records
        + data(1, 0, bytes(4))
        + fixups([fixup(0, Location.POINTER, Target.EXTERNAL, 1)])
        + main_end()
    ], 4, 1)


def weak_externals_of_one_name(count):
    """Externals of one name that nothing defines, each weak, and with the same default."""
    pairs = [(number, count + 1) for number in range(1, count + 1)]
    return renaming_module("_default", ["_weak"] * count + ["_default"], weak_externals(pairs))


def different_weak_externals(count):
    """The same of as many names."""
    pairs = [(number, count + 1) for number in range(1, count + 1)]
    used = [f"_weak{number}" for number in range(count)]
    return renaming_module("_default", used + ["_default"], weak_externals(pairs))


def local_weak_externals(count):
    """Weak externals that nothing defines, each with a default of its own, local to the module, and used once."""
    used, local = [f"_weak{number}" for number in range(count)], [f"_local{number}" for number in range(count)]
    code = header("local") + names("CODE", "CODE") + segment(2 * count)
    code += publics({text: number for number, text in enumerate(local)}, LPUBDEF)
    code += externals(used) + externals(local, LEXTDEF)
    code += weak_externals([(number, count + number) for number in range(1, count + 1)])
    return Inputs([code + fixed_to_externals(count) + main_end()], 2 * count, 0)


def alias_chain(count):
    """Aliases, each of the next one, the last of which is of a public."""
    pairs = [(f"_name{number}", f"_name{number + 1}") for number in range(count)]
    return renaming_module(f"_name{count}", ["_name0"], aliases(pairs))


def aliases_of_one_name(count):
    """Aliases of one name, which all are of a public, and an external of that name."""
    return renaming_module("_public", ["_alias"], aliases([("_alias", "_public")] * count))


def weak_externals_unwanted(count):
    """A module, and a library whose only member nobody wants: it has weak externals of one name."""
    main = renaming_module("_main", ["_main"])
    unwanted = weak_externals_of_one_name(count).modules
    return Inputs([*main.modules, library(unwanted)], main.size, main.relocations)


def archive_member(text, content):
    """A member of an archive: its header, with its name as it stands there, and its bytes."""
    head = f"{text:16}{0:<12}{0:<6}{0:<6}{644:<8}{len(content):<10}`\n".encode()
    return head + content + b"\n" * (len(content) % 2)


def archive(names_table, members):
    """An archive of `ar`, whose members are named by places of its table of long names."""
    front = b"!<arch>\n" + archive_member("//", names_table)
    return front + b"".join(archive_member("/0", content) for content in members)


def defining_module(text, records=b""):
    """A module that defines a name, and has four bytes."""
    return (
        header("defining") + names("CODE", "CODE") + segment(4) + publics({text: 0}) + records + data(1, 0, bytes(4))
        + end())


def archive_of_one_name(count):
    """A module, and an archive with a long name, which all of its members share; the last of them is taken."""
    main = renaming_module("_main", ["u0"])
    members = [unwanted_module(number) for number in reversed(range(1, count))]
    table = b"n" * LONG_NAME + b"/\n"
    return Inputs([*main.modules, archive(table, [*members, defining_module("u0")])], 8, main.relocations)


def missing_names(count):
    """A module that uses names of which none is defined."""
    used = [f"_missing{number}" for number in range(count)]
    code = header("missing") + names("CODE", "CODE") + segment(2 * count) + externals(used) + fixed_to_externals(count)
    return Inputs([code + main_end()], 2 * count, 0)


def symbols_of_missing_names(count):
    """A module that uses names of which none is defined, and an archive whose symbol table says of each that a member
    of its own defines it. The members say nothing."""
    main = missing_names(count)
    listed = b"".join(f"_missing{number}\0".encode() for number in range(count))
    member = archive_member("m.o/", end_only())
    length = 4 + 4 * count + len(listed)
    first = len(b"!<arch>\n") + len(archive_member("/", bytes(length)))
    places = [first + len(member) * number for number in range(count)]
    table = struct.pack(f">{count + 1}I", count, *places) + listed
    offering = b"!<arch>\n" + archive_member("/", table) + member * count
    return Inputs([*main.modules, offering], main.size, main.relocations)


def one_public(count):
    """A module that defines one name many times."""
    entry = name("_public") + struct.pack("<HB", 0, 0)
    records = b"".join(record(PUBDEF, b"\0\1" + entry * len(some)) for some in pieces(range(count), NAMES_IN_RECORD))
    code = header("one") + names("CODE", "CODE") + segment(4) + records + data(1, 0, bytes(4)) + main_end()
    return Inputs([code], 4, 0)


def naming_libraries(texts):
    """Comments that name default libraries."""
    return b"".join(record(COMENT, bytes([0, LIBRARY]) + text.encode()) for text in texts)


def library_chain(count):
    """A module that names a library, whose only member names the next one and wants a name of it."""
    main = renaming_module("_0", ["_1"], naming_libraries(["L1"]))
    files = {}
    for number in range(1, count):
        member = renaming_module(f"_{number}", [f"_{number + 1}"], naming_libraries([f"L{number + 1}"]))
        files[f"L{number}.LIB"] = library([without_start(member.modules[0])])
    files[f"L{count}.LIB"] = library([defining_module(f"_{count}")])
    return Inputs(main.modules, 4 * (count + 1), count, files=files)


def unkind_library_chain(count):
    """A module that wants names, and libraries that name one another, each of which has the last name that is open."""
    wanted = [f"_{number}" for number in range(1, count + 1)]
    main = renaming_module("_0", wanted, naming_libraries(["L1"]))
    files = {
        f"L{number}.LIB": library([defining_module(wanted[-number], naming_libraries([f"L{number + 1}"]))])
        for number in range(1, count)}
    files[f"L{count}.LIB"] = library([defining_module(wanted[0])])
    return Inputs(main.modules, 4 * (count + 1), 1, files=files)


def without_start(module):
    """A module that ends as no main one does."""
    return module[: -len(main_end())] + end()


def absent_libraries(count):
    """A module that names libraries of which none is there."""
    main = renaming_module("_main", ["_main"], naming_libraries(f"ABSENT{number}" for number in range(count)))
    return Inputs(main.modules, main.size, main.relocations)


def left_out_libraries(count):
    """A module that names libraries, of which none is there, and a line of LINK that leaves each out by its name."""
    texts = [f"ABSENT{number}" for number in range(count)]
    main = renaming_module("_main", ["_main"], naming_libraries(texts))
    line = "main.obj" + "".join(f" /NOD:{text}" for text in texts) + ",OUT.EXE,NUL;\n"
    files = {"main.obj": main.modules[0], "left.rsp": line.encode()}
    return Inputs([], main.size, main.relocations, files=files, line=("--as", "link", "@left.rsp"))


def spellings_of_this_folder(count):
    """Paths that lead to the folder that a program runs in, no two alike and each as long as the others."""
    return ["".join("./" if number >> bit & 1 else ".//" for bit in range(13)) for number in range(count)]


def library_named(folders, members):
    """A module, and a library of these members that is named in each of these folders."""
    main = renaming_module("_main", ["_main"])
    words = tuple(word for text in folders for word in ("-l", f"{text}L.LIB"))
    return Inputs(main.modules, main.size, main.relocations, files={"L.LIB": library(members)}, words=words)


def library_of_spellings(count):
    """A module, and a library by as many spellings of its path."""
    return library_named(spellings_of_this_folder(count), [end_only()])


def some_members():
    """Members of which nothing is wanted."""
    return [defining_module(f"_{number}") for number in range(200)]


def long_library_of_spellings(count):
    """A module, and a library of some members by as many spellings of its path."""
    return library_named(spellings_of_this_folder(count), some_members())


def library_named_again(count):
    """A module, and a library of some members that is named so often."""
    return library_named([""] * count, some_members())


def end_only():
    """A module that says nothing."""
    return header("end") + end()


def ordered_classes(count):
    """A module with a segment of each of many classes, which an order names the other way round."""
    texts = [f"C{number}" for number in range(count)]
    listed = b"".join(names(*some) for some in pieces(texts, NAMES_IN_RECORD))
    segments = b"".join(
        record(0x98, struct.pack("<BH", Alignment.BYTE << 5, 1) + 2 * index(number) + b"\0")
        for number in range(1, count + 1))
    filled = b"".join(data(number, 0, b"\x90") for number in range(1, count + 1))
    order = ("--order", ",".join(reversed(texts)))
    return Inputs([header("classes") + listed + segments + filled + main_end()], count, 0, words=order)


def bytes_behind_a_module(count):
    """A module, and as many zeros behind the record that ends it."""
    main = renaming_module("_main", ["_main"])
    return Inputs([module + bytes(count) for module in main.modules], main.size, main.relocations)


def repeated_directives(count):
    """A module, and a file of as many directives, which is named as often as files of directives may be."""
    files = {
        "m.obj": part_module(0), "first.lnk": b"name OUT.EXE file m.obj option quiet\n",
        "more.lnk": b"option cache\n" * count}
    words = ("--as", "wlink", "@first.lnk", *["@more.lnk"] * (FILES_OF_DIRECTIVES - 1))
    return Inputs([], 16, 0, files=files, line=words)


def names_of_one_hash(count):
    """Communal variables whose names a hasher of the kit takes for one, where it is fed each as a whole."""
    front = (FIRST_STATE + LENGTH_OF_NAME).to_bytes(8, "little")
    declared = [front + number.to_bytes(8, "little") for number in range(count)]
    records = b"".join(
        record(COMDEF, b"".join(name(text) + b"\0\x62\1" for text in some))
        for some in pieces(declared, NAMES_IN_RECORD))
    main = header("one") + names("CODE", "CODE") + segment(16) + data(1, 0, filler(16, 0)) + records + main_end()
    return Inputs([main], 16 + count, 0, written=16)


def part_module(number):
    return (
        header(f"m{number}")
        + names("CODE", "CODE")
        + segment(16, Alignment.PARAGRAPH, Combination.PRIVATE)
        + data(1, 0, filler(16, number))
        + end()
    )


def parts(count):
    """Modules of one private segment each."""
    return Inputs([part_module(number) for number in range(count)], 16 * count, 0)


def parts_in_capitals(count, folders=()):
    """Modules of one private segment each, which a line of TLINK names in capitals, by these paths of their folder."""
    files = {f"m{number:05}.obj": module for number, module in enumerate(parts(count).modules)}
    paths = [folder + name.upper() for folder, name in zip(folders or [""] * count, files)]
    line = "+\n".join(paths) + ",OUT.EXE,NUL\n"
    return Inputs(
        [], 16 * count, 0, files={**files, "parts.rsp": line.encode()}, line=("--as", "tlink", "@parts.rsp"))


def parts_by_spellings(count):
    """The same, each by another spelling of the path of their folder."""
    return parts_in_capitals(count, spellings_of_this_folder(count))


def fixed_module(size, width, location, target, targets, after_segments=b""):
    """A module of data that is full of fix-ups, one behind the other, to one target after the other."""
    lengths = filled_segments(size)
    records = [header("fixed"), names("DATA", "DATA")]
    records += [segment(length, Alignment.PARAGRAPH, Combination.PRIVATE) for length in lengths]
    records.append(after_segments)
    done = 0
    for number, length in enumerate(lengths, start=1):
        for offset in range(0, length, RECORD_DATA):
            piece = min(RECORD_DATA, length - offset)
            records.append(data(number, offset, bytes(piece)))
            places = range(0, piece, width)
            records.append(fixups(fixup(at, location, target, (done + at) // width % targets + 1) for at in places))
            done += piece
    records.append(end())
    return b"".join(records)


def fixups_to_names(count, targets=1000):
    """One module with a low byte fixed at each byte of its data, each to a public of another module."""
    offsets = {f"public_{number}": number for number in range(targets)}
    defining = header("names") + names("CODE", "CODE") + segment(targets) + publics(offsets) + end()
    fixed = fixed_module(count, 1, Location.LOW_BYTE, Target.EXTERNAL, targets, externals(list(offsets)))
    return Inputs([fixed, defining], count + targets, 0, count)


def base_words(count):
    """One module with a segment's frame at each word of its data, each of which loading has to change."""
    segments = len(filled_segments(2 * count))
    return Inputs([fixed_module(2 * count, 2, Location.BASE, Target.SEGMENT, segments)], 2 * count, count)


def repeated_data(count):
    """One module whose data is one record of repeated words, with many fix-ups to each of them."""
    size = 2 * REPEATED_WORDS * REPEATS
    # the stored bytes begin with the counts of the outer block, and each content stands behind its counts and length
    places = [4 + 7 * (at % REPEATED_WORDS) + 5 for at in range(count)]
    module = (
        header("repeated")
        + names("DATA", "DATA")
        + segment(size)
        + repeated(1, 0, REPEATS, [b"\0\0"] * REPEATED_WORDS)
        + fixups(fixup(place, Location.OFFSET, Target.SEGMENT, 1) for place in places)
        + end()
    )
    return Inputs([module], size, 0)


def fixed_to_externals(count):
    """Words of data, one for each of some externals, with fix-ups to them."""
    records = []
    for at in range(0, 2 * count, RECORD_DATA):
        length = min(RECORD_DATA, 2 * count - at)
        places = range(0, length, 2)
        records.append(data(1, at, bytes(length)))
        records.append(
            fixups(fixup(place, Location.OFFSET, Target.EXTERNAL, (at + place) // 2 + 1) for place in places)
        )
    return b"".join(records)


def naming_module(number, count, used_as):
    """A module that defines some names and uses those of the next one, as they are spelled there."""
    defined = [f"_name_{number}_{at}" for at in range(NAMES)]
    used = [used_as(f"_name_{(number + 1) % count}_{at}") for at in range(NAMES)]
    return (
        header(f"m{number}")
        + names(f"DATA{number}", "DATA")
        + segment(2 * NAMES)
        + publics({text: 2 * at for at, text in enumerate(defined)})
        + externals(used)
        + fixed_to_externals(NAMES)
        + end()
    )


def many_names(count, used_as=str):
    """Modules with many publics, each of which another module uses."""
    modules = count // NAMES
    return Inputs([naming_module(number, modules, used_as) for number in range(modules)], 2 * count, 0)


def many_names_in_capitals(count):
    """The same, but used in capitals."""
    return many_names(count, str.upper)


def own_names_module(number, text, definition, use):
    """A module that uses the names that it defines."""
    defined = {text.format(number, at): 2 * at for at in range(OWN_NAMES)}
    return (
        header(f"m{number}")
        + names("DATA", "DATA")
        + segment(2 * OWN_NAMES, combination=Combination.PRIVATE)
        + externals(list(defined), use)
        + publics(defined, definition)
        + fixed_to_externals(OWN_NAMES)
        + end()
    )


def local_names(count):
    """Modules that define the same names, each for itself, and use them."""
    modules = [own_names_module(number, "_name_{1:05}", LPUBDEF, LEXTDEF) for number in range(count)]
    return Inputs(modules, 2 * OWN_NAMES * count, 0)


def own_publics(count):
    """Modules that define publics, no two alike and each as long as those of `local_names`, and use them."""
    modules = [own_names_module(number, "_{0:05}_{1:04}", PUBDEF, EXTDEF) for number in range(count)]
    return Inputs(modules, 2 * OWN_NAMES * count, 0)


def fixups_by_threads(title, content, repeats, mode, location, count):
    """A content that is repeated as often as can be, and fix-ups of three bytes each to its first place, by threads."""
    frame_of_target, target_of_segment = b"\x54", b"\x00\1"
    by_threads = struct.pack(">HB", mode | location << 10 | FIRST_CONTENT, 0x8C)
    size = repeats * len(content)
    module = (
        header(title)
        + names("DATA", "DATA")
        + segment(size)
        + record(0xA2, index(1) + struct.pack("<3HB", 0, repeats, 0, len(content)) + content)
        + fixups([frame_of_target, target_of_segment])
        + b"".join(fixups(some) for some in pieces([by_threads] * count, SHORT_FIXUPS_IN_RECORD))
        + end()
    )
    return Inputs([module], size, 0)


def short_fixups(count):
    """Segment-relative fix-ups to one byte."""
    return fixups_by_threads("short", b"A", MOST_REPEATS, 0xC000, Location.LOW_BYTE, count)


def self_relative_fixups(count):
    """Self-relative fix-ups to one word, whose distance is another at each copy."""
    return fixups_by_threads("distances", b"AB", MOST_REPEATS // 2, 0x8000, Location.OFFSET, count)


def expanding_records(count):
    """One module with many records of 13 bytes, each of which stands for the whole segment."""
    expanding = record(0xA2, index(1) + struct.pack("<3HB", 0, EXPANDED, 0, 1) + b"A")
    assert len(expanding) == 13
    module = header("expanding") + names("DATA", "DATA") + segment(EXPANDED) + expanding * count + end()
    return Inputs([module], EXPANDED, 0)


def without_data(size):
    """A program of some code and, behind it, segments of a size in all that have no data."""
    lengths = filled_segments(size)
    records = [header("empty"), names("DATA", "DATA"), segment(CODE, Alignment.PARAGRAPH, Combination.PRIVATE)]
    records += [segment(length, Alignment.PARAGRAPH, Combination.PRIVATE) for length in lengths]
    records += [data(1, 0, filler(CODE, 0)), end()]
    return Inputs([b"".join(records)], CODE + size, 0, CODE)


def large_program(size):
    """One module whose data fills a program of a size."""
    lengths = filled_segments(size)
    records = [header("large"), names("DATA", "DATA")]
    records += [segment(length, Alignment.PARAGRAPH, Combination.PRIVATE) for length in lengths]
    for number, length in enumerate(lengths, start=1):
        for offset in range(0, length, RECORD_DATA):
            records.append(data(number, offset, filler(min(RECORD_DATA, length - offset), number + offset)))
    records.append(end())
    return Inputs([b"".join(records)], size, 0)
