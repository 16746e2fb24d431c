"""Tests of the port for DOS, in DOSBox: runs there end as those of the programs that were proved."""

import shutil
import subprocess
import sys
import tempfile
from pathlib import Path

import cases
import dos_runs

sys.path.insert(0, str(cases.TOP / "tools"))
import dosbox  # noqa: E402

HERE = Path(__file__).resolve().parent
# settings and lines of DOS behind which the program can't run, and what it says
REFUSED = (
    ("without HIMEM.SYS", "[dos]\nxms=false", (), b"this needs HIMEM.SYS\r\n"),
    ("with 2 MB, and the program has more", "[dosbox]\nmemsize=2", (), b"this needs more extended memory\r\n"),
    ("with 4 MB, and its memory has more", "[dosbox]\nmemsize=4", (), b"this needs more extended memory\r\n"),
    ("as under EMM386", "", ("V86.COM",), b"this needs DOS without EMM386, and not in a window\r\n"),
)
DISK, DISK_FILE = 1440, "disk.img"  # kilobytes of disk A, and what it's in
SECTOR, SECTORS = 512, 2847  # the bytes of one, and how many files can have


def put_disk(drive, left, files):
    """Puts a disk for A into a drive, with files and so many sectors left; it has nothing else."""
    disk, filling = drive / DISK_FILE, drive / "FILLING"
    disk.unlink(missing_ok=True)
    subprocess.run(["mkfs.fat", "-C", disk, str(DISK)], check=True, stdout=subprocess.DEVNULL)
    taken = sum(-(-len(content) // SECTOR) for content in files.values())
    for name, content in {**files, "FILLING": bytes((SECTORS - taken - left) * SECTOR)}.items():
        filling.write_bytes(content)
        subprocess.run(["mcopy", "-i", disk, filling, f"::{name}"], check=True)
    filling.unlink()


def on_disk(drive):
    """The files of disk A, but that which fills it."""
    with tempfile.TemporaryDirectory(prefix="omf-dos-") as folder:
        subprocess.run(["mcopy", "-i", drive / DISK_FILE, "::*", folder], check=True)
        return {path.name: path.read_bytes() for path in Path(folder).iterdir() if path.name != "FILLING"}


def begin(room, programs, settings="", lines=()):
    """Starts DOSBox in a room, with the programs by the names of all, and a full disk A where none is there."""
    room.drive.mkdir(parents=True, exist_ok=True)
    for name, file in programs.items():
        for called in cases.CALLED[name]:
            shutil.copy(file, room.drive / f"{called.upper()}.EXE")
    if not (room.drive / DISK_FILE).exists():
        put_disk(room.drive, 0, {})
    room.begin(dosbox, [f"imgmount a {DISK_FILE} -t floppy", *lines], settings)


def has(case):
    """Whether DOS can have a run: with no more words and with such names of files, without devices of Linux, and
    without a pipe that nobody reads."""
    try:
        dos_runs.tail_of(case.words)
        dos_runs.check_names({*case.files, *filter(dos_runs.LONG.fullmatch, case.words)})
    except dos_runs.NotInDos:
        return False
    return case.output in ("pipe", "closed", cases.FULL) and not any("/dev/" in word for word in case.words)


def test(programs, outcome, check, folder):
    """Tests what is of DOS alone, each in a room of its own in a folder. `outcome` runs a case by the programs that
    were proved, and `check` notes a title, whether it holds, and what is told where it doesn't."""
    if "omf" not in programs:
        return
    for number, (title, settings, lines, told) in enumerate(REFUSED):
        with Started(folder / f"refused{number}", programs, settings, lines) as room:
            ended = room.run("C:\\OMF.EXE", ["help"])
            check(f"{title}: it says so", ended == (3, b"", told), f"{ended}")
    with Started(folder / "letters", programs) as room:
        # as code page 437 has them, which isn't UTF-8, and as UTF-8 has them
        for word in (b"\x8e\x99.OBJ", "é.OBJ".encode()):
            wanted = outcome(cases.Case("", "omf", ["show", word]))
            ended = room.run("C:\\OMF.EXE", ["show", word])
            check(f"{word}", ended == (wanted.status, wanted.output, wanted.error), f"{ended} for {wanted}")
    test_full_disk(programs, outcome, check, folder)
    test_order(programs, outcome, check, folder)


class Started:
    """A room whose DOSBox has begun, and ends behind it; the files are on disk A, which has so many sectors left."""

    def __init__(self, folder, programs, settings="", lines=(), files=None, left=0):
        self.room = dos_runs.Room(folder)
        self.room.drive.mkdir(parents=True)
        subprocess.run(["nasm", "-f", "bin", "-o", self.room.drive / "V86.COM", HERE / "v86.asm"], check=True)
        put_disk(self.room.drive, left, files or {})
        begin(self.room, programs, settings, lines)

    def __enter__(self):
        return self.room

    def __exit__(self, *_):
        self.room.end()


def test_full_disk(programs, outcome, check, folder):
    """On a disk that has one sector left, what takes more ends as on Linux at the device that is full, and what was
    there stays as it was."""
    letters, older, path = cases.modules_of(cases.EXAMPLES / "letters"), {"OUT.EXE": b"an older file"}, "A:\\OUT.EXE"
    files = {"A.OBJ": cases.module_of_bytes(1000), **letters}
    for number, words in enumerate((
            ["link", "-o", "{}", "A.OBJ"], ["link", "-o", "OUT.EXE", "-m", "{}", *letters],
            ["rewrite", "A.OBJ", "{}"])):
        given, same = ([word.format(place) for word in words] for place in (path, cases.FULL))
        wanted = outcome(cases.Case("", "omf", same, files))
        with Started(folder / f"full{number}", programs, files=older, left=1) as room:
            cases.put_files(cases.Case("", "omf", [], files), room.drive / "1")
            status, _, errors = room.run("C:\\OMF.EXE", given, "C:\\1")
        line = wanted.error.replace(cases.FULL.encode(), path.encode())
        title = f"a full disk: {' '.join(given)}"
        check(f"{title}: its end", (status, errors) == (3, line), f"{status} {errors} for {line}")
        found = {each.name: each.read_bytes() for each in (room.drive / "1").iterdir()}
        check(f"{title}: the files", found == wanted.files, f"{sorted(found)}")
        check(f"{title}: the older file", on_disk(room.drive) == older, f"{sorted(on_disk(room.drive))}")
    wanted = outcome(cases.Case("", "omf", ["show", "MAIN.OBJ"], files, cases.FULL))
    with Started(folder / "shown", programs, left=1) as room:
        cases.put_files(cases.Case("", "omf", [], files), room.drive)
        ended = room.run("C:\\OMF.EXE", ["show", "MAIN.OBJ"], output="A:\\SHOWN.TXT")
    check("a full disk: show", ended == (3, b"", wanted.error), f"{ended} for {wanted.error}")


def test_order(programs, outcome, check, folder):
    """*.OBJ means files by the order of their names, though the disk has them in another."""
    letters = cases.modules_of(cases.EXAMPLES / "letters")
    wanted = outcome(cases.Case("", "omf", [*cases.LINK, *sorted(letters)], letters))
    on_its_disk = {name: letters[name] for name in sorted(letters, reverse=True)}
    with Started(folder / "order", programs, files=on_its_disk) as room:
        ended = room.run("C:\\OMF.EXE", ["link", "-o", "C:\\OUT.EXE", "*.OBJ"], "A:\\")
    made = room.drive / "OUT.EXE"
    is_same = ended == (0, b"", b"") and made.read_bytes() == wanted.files["OUT.EXE"]
    check("*.OBJ by the order of names, on a disk with another", is_same, f"{ended}")
