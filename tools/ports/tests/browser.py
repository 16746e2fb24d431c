"""Tests of the page, in Chromium without a window: what is made there is what the programs that were proved make."""

import base64
import functools
import http.server
import json
import re
import shutil
import subprocess
import sys
import tempfile
import threading
from pathlib import Path

import cases
import keys

sys.path.insert(0, str(cases.TOP / "bench"))
import generate  # noqa: E402

HERE = Path(__file__).resolve().parent
SECONDS = 600  # of the whole page, where others work on the machine
MOST = {"2,001 modules": 1000}  # milliseconds of the clock that a job may take
FAULTS = cases.TOP / "docs" / "FAULTS.md"
# lines without a number, as the programs write them, by what FAULTS.md calls them
LINES = {
    "The program links and does something else than you wrote, or a warning says that no module has a start or no "
    "module has a stack.": ("doslink: warning: no module has a start", "doslink: warning: no module has a stack"),
    "omf: memory, doslink: memory, doslib: memory.": ("omf: memory", "doslink: memory", "doslib: memory"),
    "A name is missing.": ('doslink: A.OBJ: "_x" is missing: record 145 (00000091), wanted by "a.c"',),
    "A warning: a library was not found.": ("doslink: warning: library CLIB of A.OBJ was not found",),
    "A directive or an option, told with line N:": (
        "doslink: warning: A.LNK: line 12: the map is not sorted", 'doslink: A.LNK: line 3: "x": unknown directive',
        "doslink: line 1: \"name 'x\": a quote isn't closed"),
    "It is read and would be written.": ("doslink: A.OBJ: it is read and would be written",),
    "It is a module or a library and would be written.": (
        "doslink: A.OBJ: it is a module or a library and would be written",),
    "Without a form an EXE file is written.": (
        "doslink: A.COM: without a form an EXE file is written: say --form com, or --form exe",
        "doslink: warning: A.COM: an EXE file is written: /T makes a .COM file"),
    "It would be the program and its map.": ("doslink: A.EXE: it would be the program and its map",),
    "It would be the program and the list of what is linked, or the map and the list.": (
        "doslink: -: it would be the program and the list of what is linked",
        "doslink: -: it would be the map and the list of what is linked"),
    "a line has at most 200 response files.": ("doslink: A.RSP: a line has at most 200 response files",),
    "more than 64 folders are to be searched.": ("doslink: more than 64 folders are to be searched",),
    "A word of LINK or TLINK, told with line N, column N:": (
        'doslink: line 1, column 15: "/none": unknown option',
        "doslink: warning: line 1, column 3: no data for debuggers is written"),
    "It is no UTF-8 text.": ("doslink: A.RSP: it is no UTF-8 text",),
    "order: TooManySegments.": ("doslink: order: TooManySegments: there are more than 16,383 to order",),
}
OF_NO_LINE = "The program begins in the wrong segment, or its data isn't cleared."
SAID = "LINES"  # the file whose bytes the module `saying` writes to standard error
FLAGS = ("--headless", "--no-sandbox", "--disable-gpu", "--disable-extensions")


class Quiet(http.server.SimpleHTTPRequestHandler):
    """Serves a folder, and keeps what was asked for, and what was found there at the end."""

    asked, found, has_ended = [], b"", threading.Event()

    def log_message(self, *_):
        Quiet.asked.append(self.path)

    def do_POST(self):
        Quiet.found = self.rfile.read(int(self.headers["Content-Length"]))
        self.send_response(204)
        self.end_headers()
        Quiet.has_ended.set()


def driven(url, *flags):
    """What is found by a document that drives the page, and says it at its end."""
    Quiet.found = b""
    Quiet.has_ended.clear()
    with tempfile.TemporaryDirectory(prefix="omf-page-", ignore_cleanup_errors=True) as folder:
        words = ["chromium", *FLAGS, f"--user-data-dir={folder}", "--remote-debugging-port=0", *flags, url]
        child = subprocess.Popen(words, stdout=subprocess.DEVNULL, stderr=subprocess.DEVNULL)
        has_ended = Quiet.has_ended.wait(SECONDS)
        child.terminate()
        child.wait()
    return json.loads(Quiet.found) if has_ended else [["the page came to its end", False, f"in {SECONDS} seconds"]]


def dumped(url, *flags):
    """The document at an address once it is at rest."""
    with tempfile.TemporaryDirectory(prefix="omf-page-") as folder:
        done = subprocess.run(
            ["chromium", *FLAGS, "--virtual-time-budget=5000", f"--user-data-dir={folder}", *flags, "--dump-dom", url],
            stdout=subprocess.PIPE, stderr=subprocess.DEVNULL, text=True, timeout=SECONDS)
    return done.stdout


def jobs(linked):
    """What is done in the page: a title, the files that are put there, the words, and the files that have to come of
    it by the programs that were proved. `linked` runs those."""
    letters = cases.modules_of(cases.EXAMPLES / "letters")
    main, *others = letters
    library = {main: letters[main], "L.LIB": cases.archive({name: letters[name] for name in others})}
    large, many = generated(generate.large_program, 1048560), generated(generate.calling_modules, 2001)
    for title, files, words in (
            ("hello", {"HELLO.OBJ": cases.HELLO}, ["omf", "link", "-o", "OUT.EXE", "-m", "OUT.MAP", "HELLO.OBJ"]),
            ("letters", letters, ["omf", "link", "-o", "L.EXE", "-m", "L.MAP", *letters]),
            ("a name beyond ASCII", {"ä b.OBJ": cases.HELLO}, ["omf", "link", "-o", "ö.EXE", "ä b.OBJ"]),
            ("records", {"HELLO.OBJ": cases.HELLO}, ["omf", "show", "HELLO.OBJ"]),
            ("a module over itself", {"HELLO.OBJ": cases.HELLO}, ["omf", "rewrite", "HELLO.OBJ", "HELLO.OBJ"]),
            ("a text as a program", {"A.EXE": b"a text\n"}, ["omf", "load", "A.EXE", "1000"]),
            ("a refusal", {main: letters[main]}, ["omf", "link", "-o", "OUT.EXE", main]),
            ("a damaged module", {"A.OBJ": cases.HELLO[:50]}, ["omf", "check", "A.OBJ"]),
            ("a large program", large, ["omf", "link", "-o", "OUT.EXE", "-m", "OUT.MAP", *large]),
            ("2,001 modules", many, ["omf", "link", "-o", "OUT.EXE", *many]),
            ("a library", library, ["doslink", "-v", "-o", "OUT.EXE", "-m", "OUT.MAP", main, "L.LIB"]),
            ("missing names", library, ["doslink", "-o", "OUT.EXE", main]),
            ("what files hold", library, ["doslib", "list", *library]),
            ("a damaged archive", {"A.LIB": library["L.LIB"][:-9]}, ["doslib", "list", "A.LIB"]),
            *lines_of_doslink(main, letters)):
        outcome = linked(words, files)
        if outcome is not None:
            made = {name: content for name, content in outcome.files.items() if is_made(name, words, files)}
            yield {"title": title, "words": words, "files": encoded(files), "most": MOST.get(title), "wanted": {
                "status": outcome.status, "output": outcome.output.decode(), "errors": outcome.error.decode(),
                "made": encoded(made)}}


def is_made(name, words, files):
    """Whether a file was written by a run with these words."""
    return name not in files or words[:2] == ["omf", "rewrite"] and name == words[3]


def lines_of_doslink(main, letters):
    """Jobs, as `jobs` has them, that end in a line without a fault's number."""
    files = {**letters, "OLD.OBJ": cases.HELLO, "BAD.RSP": b"\xff", "JOB.LNK": f"option symf file {main}\n".encode()}
    files["BAD.LNK"] = b"file a\nno directive\n"
    library = {main: cases.with_default_library(letters[main], b"NONE"), **dict(list(letters.items())[1:])}
    yield "a default library that isn't there", library, ["doslink", "-o", "OUT.EXE", *library]
    for title, words in (
            ("over an input", ["doslink", "-o", main, *letters]),
            ("over another module", ["doslink", "-o", "OLD.OBJ", *letters]),
            ("an ending of another form", ["doslink", "-o", "OUT.COM", *letters]),
            ("a map over the program", ["doslink", "-o", "OUT.EXE", "-m", "OUT.EXE", *letters]),
            ("words that are no text", ["doslink", "@BAD.RSP"]),
            ("a directive without effect", ["wlink", "@JOB.LNK"]),
            ("an unknown directive", ["wlink", "@BAD.LNK"]),
            ("an option of LINK without effect", ["link", "/CO", f"{'+'.join(letters)},OUT.EXE;"]),
            ("an unknown option of TLINK", ["tlink", "/none", main])):
        yield title, files, words


def saying():
    """A module in the place of a program: it writes what the file SAID holds to standard error."""
    def section(kind, body):
        return bytes([kind, len(body)]) + body

    def named(name):
        return bytes([len(name)]) + name.encode()

    types = b"\2\x60\3\x7f\x7f\x7f\1\x7f\x60\0\1\x7f"  # of what is imported, and of `run`
    imports = b"\3" + b"".join(named("host") + named(each) + b"\0\0" for each in ("open", "read", "write"))
    exports = b"\2" + named("memory") + b"\2\0" + named("run") + b"\0\3"
    # write(2, 32, read(open(0, length, 0), 32, 4096)), and the status 1
    opened = bytes([0x41, 0, 0x41, len(SAID), 0x41, 0, 0x10, 0])
    code = b"\0\x41\2\x41\x20" + opened + b"\x41\x20\x41\x80\x20\x10\1\x10\2\x1a\x41\1\x0b"
    return b"\0asm\1\0\0\0" + b"".join(section(*each) for each in (
        (1, types), (2, imports), (3, b"\1\1"), (5, b"\1\0\1"), (7, exports), (10, b"\1" + bytes([len(code)]) + code),
        (11, b"\1\0\x41\0\x0b" + named(SAID))))


def lines():
    """Lines of all faults and of all that FAULTS.md has without a number, each with what one of its causes has to have;
    and the titles that FAULTS.md has behind its first part."""
    found = [[line, title] for title, some in LINES.items() for line in some]
    for number, name in re.findall(r"^(\d+) (\w+): ", (cases.TOP / "docs" / "faults.txt").read_text(), re.MULTILINE):
        of_title = "10 to 21" if int(number) in (7, *range(10, 22)) else f"{number} {name}"
        found.append([f"omf: A.OBJ: {number} {name} at record 145", of_title])
        if number in tuple("1345678"):
            found.append([f"omf: A.OBJ: {number} {name} at record 0", "The file is: "])
    _, _, told = FAULTS.read_text().partition("\n## ")
    plain = (" ".join(title.replace("`", "").split()) for title in re.findall(r"^\*\*(.+?)\*\*", told, re.M | re.S))
    return {"name": SAID, "lines": found, "titles": [title for title in plain if title != OF_NO_LINE]}


def encoded(files):
    return {name: base64.b64encode(content).decode() for name, content in files.items()}


def generated(make, count):
    """Modules that bench/generate.py makes."""
    return {f"M{number}.OBJ": bytes(content) for number, content in enumerate(make(count).modules)}


def put(page, folder, wanted):
    """Puts all that is served into a folder: the page, one with a module in the place of the programs, what drives
    both, and what it is given."""
    shutil.copy(page, folder / "index.html")
    shutil.copy(HERE / "drive.html", folder / "drive.html")
    (folder / "jobs.json").write_text(json.dumps(wanted))
    (folder / "lines.json").write_text(json.dumps(lines()))
    (folder / "omf.wasm").write_bytes(saying())
    subprocess.run([HERE.parent / "page", folder, folder / "lines.html"], check=True)


def test(page, linked, check):
    """Tests a page. `linked` runs a program that was proved, and answers None where it isn't there; `check` notes a
    title, whether it holds, and what is told where it doesn't."""
    wanted = list(jobs(linked))
    with tempfile.TemporaryDirectory(prefix="omf-page-") as folder:
        folder = Path(folder)
        put(page, folder, wanted)
        server = http.server.ThreadingHTTPServer(
            ("127.0.0.1", 0), functools.partial(Quiet, directory=str(folder)))
        threading.Thread(target=server.serve_forever, daemon=True).start()
        Quiet.asked = []
        dark = ("--force-dark-mode", "--blink-settings=preferredColorScheme=0")
        for what, words, flags in (("", "", ()), (" in dark", "", dark), (" of lines", "?lines", ())):
            told = driven(f"http://127.0.0.1:{server.server_port}/drive.html{words}", *flags)
            for title, holds, more in told:
                if title.startswith("time of "):
                    print(f"page: {title}", flush=True)
                else:
                    check(f"page{what}: {title}", holds, more)
            count = 0 if words else len(wanted)
            check(f"page{what}: all was tried", sum(line[0].startswith("job") for line in told) >= count, f"{told}")
        server.shutdown()
        own = {"/drive.html", "/drive.html?lines", "/index.html", "/lines.html", "/jobs.json", "/lines.json", "/found",
               "/favicon.ico"}
        others = set(Quiet.asked) - own
        check("page: it asks for nothing", not others, f"{others}")
        at_place = (folder / "index.html").as_uri()
        alone = dumped(at_place)
        check("page: it opens from a file", 'data-ready="yes"' in alone, alone[:500])
        keys.test(at_place, FLAGS, linked, check)
