#!/usr/bin/env python3
"""Runs of programs in a DOSBox that stays: with words, a folder, variables and input, each ends with a status and two
streams, as one of Linux does.

    dos_runs.py ROOM PROGRAM [WORD..]    runs a program of a room's drive C as a program of Linux would be run: in the
                                         folder where this is called, with its LIB and LINK, its input and its outputs

What DOS can't have, as names beyond 8.3 or more than 126 characters of words, is done by the program that was proved,
and stands in the room's list of such.
"""

import collections
import fcntl
import os
import re
import signal
import subprocess
import sys
import time
from pathlib import Path

HERE = Path(__file__).resolve().parent
# a part of settings: with `max` DOSBox does less and less where it has to wait, as it does between runs
CYCLES = "[cpu]\ncycles=fixed 1000000\n"
MEMORY = "[dosbox]\nmemsize=63\n"  # megabytes, the most that it has
MOST_WORDS = 126  # characters of a command line, with the space before its first word
MOST_TEXT = 4096  # bytes of a file of words
SECONDS = 600  # of one run, where others work on the machine
NAME = re.compile(r"[A-Z0-9!#$%&'()@^_`{}~-]{1,8}(\.[A-Z0-9!#$%&'()@^_`{}~-]{1,3})?")
LONG = re.compile(r"[\w ]+(\.[\w ]+){2,}|\w* [\w ]*\.\w+")  # a name with two points, or with a space
OUTPUT, CLOSED = "C:\\OUT", ""  # what a program's output goes to
# in a room: the programs' drive C, those that were proved, and the list of what they did
DRIVE, PROVED, OTHERS = "c", "proved", "others.txt"
FULL = os.makedev(1, 7)  # /dev/full: what is written there fails, as it does where an output is closed
KEPT = ("LIB", "LINK")  # the variables that a program is given


class NotInDos(Exception):
    """A run that DOS can't have, for such a reason."""


class Ended(Exception):
    """A run didn't end as it should."""


def tail_of(words):
    """The bytes of a command line, as COMMAND.COM leaves them: a word with a space or of no letters is in quotes."""
    words = [os.fsencode(word) for word in words]
    if any(set(word) & set(b'"\r\n\t') for word in words):
        raise NotInDos("letters of a word")
    text = b"".join(b' "%b"' % word if b" " in word or not word else b" " + word for word in words)
    if len(text) > MOST_WORDS:
        raise NotInDos(f"more than {MOST_WORDS} characters of words")
    return text


class Room:
    """A folder with a drive C, in which one DOSBox runs one program at a time. It's stopped between the runs."""

    def __init__(self, folder):
        self.drive = folder / DRIVE
        self.process = folder / "process"

    def begin(self, dosbox, lines=(), settings=""):
        """Starts DOSBox, with lines of DOS before the first run."""
        self.drive.mkdir(parents=True, exist_ok=True)
        subprocess.run(["nasm", "-f", "bin", "-o", self.drive / "RUNNER.COM", HERE / "runner.asm"], check=True)
        started = dosbox.begin(self.drive, [*lines, "c:", "cd \\", "RUNNER.COM"], settings=CYCLES + MEMORY + settings)
        self.process.write_text(str(started.pid))
        self.started = started

    def end(self):
        """Ends it."""
        self.put("", b"", "", "", {}, b"")
        try:
            self.started.wait(SECONDS)
        finally:
            self.started.kill()

    def put(self, program, words, folder, output, variables, given):
        """Asks for a run."""
        (self.drive / "IN").write_bytes(given)
        job = b"".join(text.encode("ascii").ljust(0x80, b"\0") for text in (folder, program, output))
        job += (bytes([len(words)]) + words + b"\r").ljust(0x80, b"\0")
        job += b"".join(os.fsencode(f"{name}={value}") + b"\0" for name, value in variables.items()) + b"\0\0"
        (self.drive / "JOB.NEW").write_bytes(job)
        (self.drive / "JOB.NEW").rename(self.drive / "JOB")
        os.kill(int(self.process.read_text()), signal.SIGCONT)

    def run(self, program, words, folder="C:\\", output=OUTPUT, variables=None, given=b""):
        """Runs a program: answers its status, what it wrote to its output on C and what to standard error."""
        done = self.drive / "DONE"
        self.put(program, tail_of(words), folder, output, variables or {}, given)
        until = time.monotonic() + SECONDS
        while not done.exists() or done.stat().st_size < 2:
            if time.monotonic() > until:
                raise Ended(f"{program} {words} didn't end in {SECONDS} seconds")
            time.sleep(0.002)
        os.kill(int(self.process.read_text()), signal.SIGSTOP)
        status, way = done.read_bytes()
        done.unlink()
        if way:
            raise Ended(f"{program} {words} ended by {way}, {status}")
        printed = (self.drive / "OUT").read_bytes() if output == OUTPUT else b""
        return status, printed, (self.drive / "ERR").read_bytes()


def take_others(folder):
    """How many runs were none of DOS, by what it hasn't, since this was asked the last time."""
    others = folder / OTHERS
    reasons = collections.Counter(others.read_text().splitlines() if others.exists() else ())
    others.unlink(missing_ok=True)
    return reasons


def files_in(folder):
    """The paths of what is in a folder, in it."""
    return {str(path.relative_to(folder)) for path in folder.rglob("*")}


def check_names(paths):
    """Refuses paths that DOS has no names for, or one name for two."""
    if len({path.upper() for path in paths}) < len(paths):
        raise NotInDos("names that differ in cases")
    if not all(NAME.fullmatch(part) for path in paths for part in path.upper().split("/")):
        raise NotInDos("names beyond 8.3")


def spelled(name, told):
    """A name that DOS has in capital letters, as a text has it, or else with no more than its first part so."""
    for part in (name, name.partition(".")[0]):
        found = re.search(rf"(?<!\w){re.escape(part)}", told, re.IGNORECASE)
        if found:
            return found[0] + name[len(part):]
    return name


def spell(folder, before, words):
    """Gives what is new in a folder the path of an older file, or else the name as words or files of words have it."""
    older = {path.upper(): path for path in before}
    texts = [path.read_bytes().decode("latin-1") for path in (folder / each for each in before)
             if path.is_file() and path.stat().st_size < MOST_TEXT]
    told = " ".join([*words, *texts])
    for path in sorted(files_in(folder) - before):
        place = folder / path
        place.rename(folder / older[path.upper()] if path.upper() in older else
                     place.with_name(spelled(place.name, told)))


def fails():
    """Whether this process's output is closed, or full."""
    try:
        return os.fstat(1).st_rdev == FULL
    except OSError:
        return True


def run_here(room, program, words, output):
    """Runs a program in this folder: answers its status, after its streams."""
    here, before = Path.cwd(), files_in(Path.cwd())
    check_names({*before, *filter(LONG.fullmatch, words)})
    link = room.drive / "W"
    link.unlink(missing_ok=True)
    link.symlink_to(here)
    variables = {name: os.environ[name] for name in KEPT if name in os.environ}
    status, printed, errors = room.run(
        f"C:\\{program.upper()}.EXE", words, "C:\\W", output, variables, sys.stdin.buffer.read())
    spell(here, before, words)
    os.write(2, errors)
    if printed:
        sys.stdout.buffer.write(printed)
    return status


def free_room(folder):
    """A room in which nothing runs, and what keeps it this one's: the first, or the first to be free."""
    while True:
        for each in sorted(folder.glob("room*")):
            lock = open(each / "lock", "w")
            try:
                fcntl.flock(lock, fcntl.LOCK_EX | fcntl.LOCK_NB)
                return Room(each), lock
            except BlockingIOError:
                lock.close()
        time.sleep(0.01)


def main():
    output = CLOSED if fails() else OUTPUT  # before a file here takes the number of a closed one
    folder, program, *words = sys.argv[1:]
    folder = Path(folder)
    room, lock = free_room(folder)
    try:
        with lock:
            status = run_here(room, os.path.basename(program), words, output)
    except NotInDos as reason:
        with open(folder / OTHERS, "a") as others:
            others.write(f"{reason}\n")
        program = str(folder / PROVED / os.path.basename(program))
        os.execv(program, [program, *words])
    sys.exit(status)


if __name__ == "__main__":
    main()
