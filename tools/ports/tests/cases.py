"""Runs of the programs, which have to end the same under each system: with the same status, streams and files."""

import os
import resource
import signal
import subprocess
from dataclasses import dataclass, field
from pathlib import Path

TOP = Path(__file__).resolve().parent.parent.parent.parent
EXAMPLES = TOP / "examples"
SECONDS = 120  # of one run
FULL = "/dev/full"  # what is written there fails
# the names that each program is called by: by some of them it takes what is written for another linker
CALLED = {"omf": ("omf",), "doslink": ("doslink", "wlink", "link", "tlink"), "doslib": ("doslib",)}


@dataclass
class Case:
    """A run: which program, its words, the files that are there, and where its output goes.

    Words are texts, or bytes that are none. An output is `pipe`, `closed`, `unread` (a pipe that nobody reads), or a
    path. A folder among the files is one whose bytes are None. The most bytes of a file, where they are given, end in
    an error of the write behind them.
    """

    title: str
    program: str
    words: list
    files: dict = field(default_factory=dict)
    output: str = "pipe"
    most_bytes: int = None
    variables: dict = field(default_factory=dict)
    input: bytes = b""


@dataclass
class Outcome:
    """How a run ended."""

    status: int
    output: bytes
    error: bytes
    files: dict


def prepare(most_bytes):
    """Prepares a run's process: a pipe that nobody reads ends it unless it says otherwise, and what is behind a file's
    most bytes is refused with an error, and not by a signal, which Python ignores."""
    signal.signal(signal.SIGPIPE, signal.SIG_DFL)
    if most_bytes is not None:
        resource.setrlimit(resource.RLIMIT_FSIZE, (most_bytes, most_bytes))


def opened(output, folder):
    """What the output goes to, and how many bytes of it are kept: a file, or subprocess.PIPE."""
    if output == "pipe":
        return subprocess.PIPE
    if output == "unread":
        reading, writing = os.pipe()
        os.close(reading)
        return open(writing, "wb")
    return open(folder / output, "wb")


def put_files(case, folder):
    """Makes a folder with the files of a case, where it isn't there yet."""
    folder.mkdir(exist_ok=True)
    for path, content in case.files.items():
        place = folder / path
        if content is None:
            place.mkdir(parents=True)
        else:
            place.parent.mkdir(parents=True, exist_ok=True)
            place.write_bytes(content)


def run(programs, case, folder):
    """Runs a case in an empty folder by the programs of a folder."""
    put_files(case, folder)
    words = [str(programs / case.program), *case.words]
    if case.output == "closed":
        words = ["/bin/sh", "-c", 'exec "$@" >&-', "sh", *words]
    stdout = subprocess.PIPE if case.output == "closed" else opened(case.output, folder)
    done = subprocess.run(
        words, cwd=folder, stdout=stdout, stderr=subprocess.PIPE, input=case.input, timeout=SECONDS,
        env={**os.environ, **case.variables}, restore_signals=False, preexec_fn=lambda: prepare(case.most_bytes))
    files = {
        str(path.relative_to(folder)): path.read_bytes() if path.is_file() else None
        for path in sorted(folder.rglob("*"))}
    return Outcome(done.returncode, done.stdout or b"", done.stderr, files)


def modules_of(example):
    """The names of an example's modules, in the order of its link, and their bytes."""
    order = example / "MODULES"
    names = order.read_text().split() if order.exists() else sorted(path.name for path in example.glob("*.OBJ"))
    return {name: (example / name).read_bytes() for name in names}


def all_modules():
    """The modules of the examples, each by a name of its own."""
    return {
        f"{example.name}{name}": content for example in sorted(EXAMPLES.iterdir()) if example.is_dir()
        for name, content in modules_of(example).items()}


def of_examples(program_of):
    """Each example linked, and its modules shown, checked and rewritten. `program_of` makes the linked program."""
    for example in sorted(path for path in EXAMPLES.iterdir() if path.is_dir()):
        files = modules_of(example)
        words = ["link", "-o", "OUT.EXE", "-m", "OUT.MAP", *files]
        yield Case(f"{example.name} is linked", "omf", words, files)
        linked = program_of(words, files)
        if linked is not None:
            yield Case(f"{example.name} is loaded", "omf", ["load", "P.EXE", "1000"], {"P.EXE": linked})
        for name, content in files.items():
            for words in (["show", name], ["check", name], ["rewrite", name, "NEW.OBJ"], ["rewrite", name, name]):
                yield Case(f"{example.name}: {' '.join(words)}", "omf", words, {name: content})


HELLO = (EXAMPLES / "hello" / "HELLO.OBJ").read_bytes()
LINK = ["link", "-o", "OUT.EXE"]
ODD_NAMES = ("a b.obj", "ä Ö ß.obj", "мир.obj", "連結.obj", "é😀.obj")
# a module that says nothing but its name
EMPTY = bytes([0x80, 3, 0, 1, 0x41, 0x3B, 0x8A, 2, 0, 0, 0x74])


def of_words():
    """Words that are wrong, and those of help."""
    for words in (
            [], ["help"], ["help", "link"], ["--help"], ["--version"], ["link"], ["lin"], ["link", "-o"],
            ["link", "--no-such"], [*LINK], ["show"], ["load", "A", "XYZW"], [""], ["show", ""],
            ["link", "-o", "", "A"]):
        yield Case(f"omf {words}", "omf", words)
    many = {f"{number}.OBJ": EMPTY for number in range(200)}
    title = "two hundred words, of which the last matters"
    yield Case(title, "omf", [*LINK, *many, "A.OBJ"], {**many, "A.OBJ": HELLO})
    yield Case("two thousand words", "omf", [*LINK, *(f"{number}.OBJ" for number in range(2000))], many)
    yield Case("a long word", "omf", ["show", "x" * 3000])
    yield Case("words with spaces and quotes", "omf", ["show", 'a "b" c\\'])


def of_files():
    """Files that aren't there, or can't be read or written."""
    given = {"A.OBJ": HELLO, "OUT.EXE": b"an older file" * 1000, "omf-0.tmp": b"of another"}
    for title, words, files in (
            ("over an older file", [*LINK, "A.OBJ"], given),
            ("a map over an older file", [*LINK, "-m", "omf-0.tmp", "A.OBJ"], given),
            ("a missing module", [*LINK, "B.OBJ"], given),
            ("a missing folder", ["link", "-o", "none/OUT.EXE", "A.OBJ"], given),
            ("a folder of a file", ["link", "-o", "A.OBJ/OUT.EXE", "A.OBJ"], given),
            ("a folder in the place of OUT", [*LINK, "A.OBJ"], {"A.OBJ": HELLO, "OUT.EXE": None}),
            ("a folder in the place of a module", [*LINK, "A.OBJ"], {"A.OBJ": None}),
            ("a folder that is shown", ["show", "A.OBJ"], {"A.OBJ": None}),
            ("no module", [*LINK, "A.OBJ"], {"A.OBJ": b"no module"}),
            ("an empty module", [*LINK, "A.OBJ"], {"A.OBJ": b""}),
            ("half a module", ["rewrite", "A.OBJ", "B.OBJ"], {"A.OBJ": HELLO[:100], "B.OBJ": b"old"}),
            ("other folders", ["link", "-o", "a/b/OUT.EXE", "c/A.OBJ"], {"c/A.OBJ": HELLO, "a/b": None}),
            ("`.` and `..`", ["link", "-o", "./a/../a/OUT.EXE", "a/../A.OBJ"],
             {"A.OBJ": HELLO, "a/OUT.EXE": b"old"})):
        yield Case(title, "omf", words, files)
    for name in ODD_NAMES:
        yield Case(name, "omf", ["link", "-o", f"{name}.exe", "-m", f"{name}.map", name], {name: HELLO})
        yield Case(f"{name} over another", "omf", ["rewrite", name, name], {name: HELLO})
        yield Case(f"{name} isn't there", "omf", ["show", name])


def of_outputs():
    """Outputs that are closed, read by nobody, or full."""
    for output in ("closed", "unread"):
        for words in (["show", "A.OBJ"], ["check", "A.OBJ"], ["help"], [*LINK, "A.OBJ"], ["show", "B.OBJ"]):
            yield Case(f"{words[0]} to an output that is {output}", "omf", words, {"A.OBJ": HELLO}, output)
    for words in (["show", "A.OBJ"], ["check", "A.OBJ"], [*LINK, "A.OBJ"]):
        yield Case(f"{words[0]} to a full output", "omf", words, {"A.OBJ": HELLO}, FULL)
    for words in (["link", "-o", FULL, "A.OBJ"], [*LINK, "-m", FULL, "A.OBJ"], ["rewrite", "A.OBJ", FULL]):
        yield Case(f"{' '.join(words)}", "omf", words, {"A.OBJ": HELLO})
    yield Case("to the device that takes all", "omf", ["link", "-o", "/dev/null", "A.OBJ"], {"A.OBJ": HELLO})
    for output in ("closed", "unread", FULL):
        for words in (["list", "A.OBJ"], ["list", "A.OBJ", "B.OBJ"], ["list", "B.OBJ"], ["help"], ["--version"]):
            yield Case(f"doslib: {' '.join(words)} to {output}", "doslib", words, {"A.OBJ": HELLO}, output)


def of_limits(length_of):
    """A disk that takes fewer bytes than there are: one less, half of them, none. `length_of` answers how many bytes
    a run writes."""
    for program, words, output in (
            ("omf", ["show", "A.OBJ"], "SHOWN.TXT"), ("omf", [*LINK, "A.OBJ"], "pipe"),
            ("doslib", ["list", "A.OBJ"], "LISTED.TXT")):
        most = length_of(Case("", program, words, {"A.OBJ": HELLO}))
        for left in (most, most - 1, most // 2, 1, 0):
            title = f"{program} {words[0]}: {left} of {most} bytes"
            yield Case(title, program, words, {"A.OBJ": HELLO}, output, left)


def of_doslink():
    """Links by doslink: libraries, folders, the variable LIB, a response file and directives."""
    letters = modules_of(EXAMPLES / "letters")
    members, main = list(letters)[1:], list(letters)[0]
    library = archive({name: letters[name] for name in members})
    files = {main: letters[main], "LETTERS.A": library, "lib/LETTERS.LIB": library, "x/y/LETTERS.LIB": b"no library"}
    for title, words, more, variables in (
            ("a library", ["-v", "-o", "OUT.EXE", "-m", "OUT.MAP", main, "LETTERS.A"], {}, {}),
            ("a library in a folder", ["-v", "-o", "OUT.EXE", "-L", "lib", main, "-l", "LETTERS"], {}, {}),
            ("a library by LIB", ["-v", "-o", "OUT.EXE", main, "-l", "LETTERS"], {}, {"LIB": "lib", "LIBX": "x"}),
            ("a library by another variable", ["-o", "OUT.EXE", main, "-l", "LETTERS"], {}, {"LIBX": "lib"}),
            ("LIB with two folders", ["-o", "OUT.EXE", main, "-l", "LETTERS"], {}, {"LIB": "none;lib"}),
            ("a damaged library", ["-o", "OUT.EXE", "-L", "x/y", main, "-l", "LETTERS"], {}, {}),
            ("a missing library", ["-o", "OUT.EXE", main, "-l", "NONE"], {}, {}),
            ("missing names", ["-o", "OUT.EXE", main], {}, {}),
            ("a response file", ["@WORDS.RSP"], {"WORDS.RSP": f"-o OUT.EXE {main}\nLETTERS.A\n".encode()}, {}),
            ("over an input", ["-o", main, main, "LETTERS.A"], {}, {}),
            ("over an input, otherwise spelled", ["-o", f"./lib/../{main}", main, "LETTERS.A"], {}, {}),
            ("a folder as an input", ["-o", "OUT.EXE", "lib"], {}, {}),
            ("several that aren't there", ["-o", "OUT.EXE", "A.OBJ", "B.OBJ", main], {}, {}),
            ("no words", [], {}, {}), ("wrong words", ["--none"], {}, {}), ("--version", ["--version"], {}, {}),
            ("help", ["help"], {}, {}), ("letters beyond ASCII", ["-o", "ä ö.exe", main, "LETTERS.A"], {}, {})):
        yield Case(f"doslink: {title}", "doslink", words, {**files, **more}, variables={"LIB": "", **variables})
    directives = f"option quiet\nfile {main}\nlibrary LETTERS.A\nname OUT.EXE\n".encode()
    yield Case("wlink: directives", "wlink", ["@LINK.LNK"], {**files, "LINK.LNK": directives}, variables={"LIB": ""})
    for called, words in (
            ("link", ["/M", f"{main},OUT.EXE,,LETTERS.A;"]), ("tlink", ["/c", main, ",", "OUT.EXE", ",", ",", "lib/"]),
            ("link", ["/STACK:4096", "@WORDS.RSP"]), ("tlink", ["@WORDS.RSP"]), ("link", [f"{main};"]),
            ("tlink", ["/q", main]), ("link", []), ("tlink", ["/?"])):
        more = {"WORDS.RSP": f"{main}\r\nOUT.EXE\r\n\r\nLETTERS.A;\r\n".encode()}
        yield Case(f"{called}: {' '.join(words)}", called, words, {**files, **more}, variables={"LIB": "", "LINK": ""})
    by_variable = [f"{main},OUT.EXE,,LETTERS.A;"]
    yield Case("link: by LINK", "link", by_variable, files, variables={"LIB": "", "LINK": "/NOI /STACK:8192"})
    yield Case("doslink: to standard output", "doslink", ["-o", "-", main, "LETTERS.A"], files, variables={"LIB": ""})
    yield Case("doslink: of standard input", "doslink", ["-o", "OUT.EXE", "-", "LETTERS.A"], files,
               variables={"LIB": ""}, input=letters[main])


def of_doslib():
    """Files that doslib tells of: modules, a library, an archive, damaged ones, those that can't be read, and words."""
    letters = modules_of(EXAMPLES / "letters")
    files = {"L.LIB": library_of(letters.values()), "L.A": archive(letters), **letters}
    damaged = {
        "CUT.LIB": files["L.LIB"][:-20], "BYTE.LIB": with_other_byte(files["L.LIB"]), "PAGE.LIB": b"\xF0\5" + bytes(9),
        "CUT.A": files["L.A"][:-20], "BYTE.A": with_other_byte(files["L.A"]), "HALF.OBJ": HELLO[:100], "NONE.OBJ": b""}
    for words in ([], ["help"], ["help", "list"], ["--help"], ["--version"], ["list"], ["lis"], ["list", "--none"],
                  [""], ["list", ""]):
        yield Case(f"doslib {words}", "doslib", words)
    for title, names in (
            ("each kind", [*files]), ("damaged ones", [*damaged]), ("one twice", ["L.LIB", "L.LIB"]),
            ("one that isn't there", ["NONE.LIB"]),
            ("some that aren't there", ["NONE.LIB", "L.LIB", "CUT.A", "NONE.A"]),
            ("a folder", ["lib"]), ("another folder's", ["lib/L.LIB", "lib/../L.A", "./CUT.LIB"]),
            ("a file as a folder", ["L.A/L.LIB"]), ("no library", ["TEXT.LIB"])):
        more = {**damaged, "lib/L.LIB": files["L.LIB"], "TEXT.LIB": b"no library"}
        yield Case(f"doslib: {title}", "doslib", ["list", *names], {**files, **more})
    for name in ODD_NAMES:
        yield Case(f"doslib: {name}", "doslib", ["list", name], {name: files["L.LIB"]})
        yield Case(f"doslib: {name} isn't there", "doslib", ["list", name])
    first = next(iter(letters))
    for words in (["make", "NEW.LIB", *letters], ["make", "NEW.LIB", "L.A"], ["make", "L.LIB", first],
                  ["make", first, "L.A"], ["make", "none/NEW.LIB", first], ["add", "L.LIB", first],
                  ["add", "L.A", first], ["delete", "L.LIB", "main"], ["delete", "L.LIB", "none"],
                  ["replace", "L.LIB", first], ["names", *letters], ["names", "--ignore-case", "L.LIB", first]):
        yield Case(f"doslib: {' '.join(words)}", "doslib", words, files)
    for name in ("MAIN", "NONE"):
        yield Case(f"doslib: extract {name}", "doslib", ["extract", "L.LIB", name], {"L.LIB": files["L.LIB"]})
    many = {f"{number}.OBJ": EMPTY for number in range(2000)}
    yield Case("doslib: two thousand words", "doslib", ["list", *many], many)
    yield Case("doslib: much output", "doslib", ["list", "L.LIB"], {"L.LIB": library_of([HELLO] * 2000)})


def respelled(told, words, others):
    """What doslib says of files, with other words for their paths. Where these are of another number, as `*`, the
    program has put paths in their place."""
    for before, after in zip(words, others) if len(words) == len(others) else ():
        quoted = after.replace("\\", "\\x5C")
        told = told.replace(f'"{before}"'.encode(), f'"{quoted}"'.encode())
        told = told.replace(f"doslib: {before}: ".encode(), f"doslib: {after}: ".encode())
    return told


def links_of_windows(letters):
    """Runs of omf and doslink with words of Windows or DOS: a title, the program, the words, the same of Linux, files,
    and what LIB is in both. There {folder} is the path of the folder of the run."""
    members, main = list(letters)[1:], list(letters)[0]
    library = archive({name: letters[name] for name in members})
    one, none = {"A.OBJ": HELLO}, {"A.OBJ": HELLO, "a/b": None}
    folders = {main: with_default_library(letters[main], b"LETTERS"), "lib/LETTERS.LIB": library, "none": None}
    by_library = ["-o", "OUT.EXE", main]
    # of many files the last one has all that is linked
    many = {**{f"{number:04}.OBJ": EMPTY for number in range(2100)}, "Z.OBJ": HELLO}
    far = 5 * "FAR_AWAY/"
    far_many = {f"{far}{name}": content for name, content in [*many.items()][-1500:]}
    yield from (
        ("`\\` in OUT", "omf", ["link", "-o", "a\\b\\OUT.EXE", "A.OBJ"],
         ["link", "-o", "a/b/OUT.EXE", "A.OBJ"], none, ("", "")),
        ("a drive in OUT", "omf", ["link", "-o", "{folder}\\a\\OUT.EXE", "{folder}\\A.OBJ"],
         ["link", "-o", "{folder}/a/OUT.EXE", "A.OBJ"], none, ("", "")),
        ("an older file behind `\\`", "omf", ["rewrite", "A.OBJ", "a\\b\\B.OBJ"], ["rewrite", "A.OBJ", "a/b/B.OBJ"],
         {**one, "a/b/B.OBJ": b"old"}, ("", "")),
        ("another case", "omf", [*LINK, "a.obj"], [*LINK, "A.OBJ"], one, ("", "")),
        ("the device NUL", "omf", ["link", "-o", "NUL", "A.OBJ"], ["link", "-o", "/dev/null", "A.OBJ"], one,
         ("", "")),
        ("*.OBJ", "omf", [*LINK, "*.OBJ"], [*LINK, "A.OBJ", "B.OBJ"], {**one, "B.OBJ": EMPTY}, ("", "")),
        ("*.OBJ by the order of names", "omf", [*LINK, "*.OBJ"], [*LINK, *sorted(letters)],
         {name: letters[name] for name in sorted(letters, reverse=True)}, ("", "")),
        ("more than 2,000 files by *.OBJ", "omf", [*LINK, "*.OBJ"], [*LINK, *sorted(many)], many, ("", "")),
        ("more than 64 KB of names by *.OBJ", "omf", [*LINK, far.replace("/", "\\") + "*.OBJ"],
         [*LINK, *sorted(far_many)], far_many, ("", "")),
        ("a folder's ?.OBJ", "omf", [*LINK, "a\\?.OBJ"], [*LINK, "a/X.OBJ"], {"a/X.OBJ": HELLO}, ("", "")),
        ("a drive in LIB", "doslink", by_library, by_library, folders, ("{folder}\\lib", "{folder}/lib")),
        ("two folders with drives in LIB", "doslink", by_library, by_library, folders,
         ("{folder}\\none;{folder}/lib", "{folder}/none:{folder}/lib")),
        ("a drive behind -L", "doslink", ["-L", "{folder}\\lib", *by_library], ["-L", "lib", *by_library], folders,
         ("{folder}\\none", "none")),
        ("a long line in a file", "doslink", ["@WORDS.RSP"], ["@WORDS.RSP"],
         {**folders, "WORDS.RSP": " ".join(["-L lib", *["-L none"] * 9000, *by_library]).encode()}, ("", "")))


def lists_of_windows(letters):
    """The same of doslib."""
    one, no_library = {"A.OBJ": HELLO}, ("", "")
    yield from (
        ("`\\` and a drive", "doslib", ["list", "a\\b\\A.OBJ", "{folder}\\A.OBJ"],
         ["list", "a/b/A.OBJ", "./A.OBJ"], {**one, "a/b/A.OBJ": HELLO}, no_library),
        ("`\\` and a drive where nothing is", "doslib", ["list", "a\\A.OBJ", "{folder}\\B.OBJ"],
         ["list", "a/A.OBJ", "./B.OBJ"], one, no_library),
        ("another case", "doslib", ["list", "a.obj"], ["list", "A.OBJ"], one, no_library),
        ("the device NUL", "doslib", ["list", "NUL"], ["list", "/dev/null"], one, no_library),
        ("*.OBJ by the order of names", "doslib", ["list", "*.OBJ"], ["list", *sorted(letters)],
         {name: letters[name] for name in sorted(letters, reverse=True)}, no_library))


def of_windows(own):
    """Runs that have words of Windows or DOS, where this is the path of the folder of the run, and the same with words
    of Linux: pairs of cases, which have to end alike."""
    letters = modules_of(EXAMPLES / "letters")
    for title, program, words, same, files, variables in (*links_of_windows(letters), *lists_of_windows(letters)):
        yield tuple(
            Case(f"{program}: words of Windows: {title}", program,
                 [word.replace("{folder}", folder) for word in given], files,
                 variables={"LIB": value.replace("{folder}", folder)})
            for given, value, folder in ((words, variables[0], own), (same, variables[1], ".")))


def record(kind, body):
    """A record of this kind."""
    front = bytes([kind]) + (len(body) + 1).to_bytes(2, "little") + body
    return front + bytes([-sum(front) % 256])


def with_default_library(module, name):
    """A module with a comment that names a default library behind its first record."""
    first = 3 + int.from_bytes(module[1:3], "little")
    return module[:first] + record(0x88, b"\0\x9F" + name) + module[first:]


def large(thousands):
    """A module of so many thousand bytes: a segment of 1,000 bytes, and what it holds, again and again."""
    front = record(0x80, b"\1A") + record(0x96, b"\0\4CODE") + record(0x98, b"\x28\xE8\3\2\2\1")
    return front + record(0xA0, b"\1\0\0" + bytes(1000)) * thousands + record(0x8A, b"\0")


def module_of_bytes(length):
    """A module of one segment with so many bytes, at most a thousand."""
    content = bytes(at * at // 7 % 256 for at in range(length))
    segment = b"\x28" + length.to_bytes(2, "little") + b"\2\2\1"
    return b"".join((
        record(0x80, b"\1A"), record(0x96, b"\0\4CODE"), record(0x98, segment),
        record(0xA0, b"\1\0\0" + content), record(0x8A, b"\0")))


def library_of(modules):
    """A .LIB of these modules, with pages of 16 bytes and without a dictionary."""
    members = b"".join(content + bytes(-len(content) % 16) for content in modules)
    return record(0xF0, bytes(12)) + members + record(0xF1, bytes(12))


def with_other_byte(content):
    """A file of which the middle byte is another."""
    middle = len(content) // 2
    return content[:middle] + bytes([content[middle] ^ 0x55]) + content[middle + 1:]


def archive(members):
    """A Unix archive of these files."""
    made = b"!<arch>\n"
    for name, content in members.items():
        head = f"{name + '/':16}{0:<12}{0:<6}{0:<6}{0o644:<8o}{len(content):<10}`\n"
        made += head.encode() + content + b"\n" * (len(content) % 2)
    return made
