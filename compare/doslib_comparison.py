"""Runs the commands of `doslib` and their models on the same files, and tells where they differ."""

import os
import random
import re
import subprocess
from pathlib import Path

import comparison
from comparison import expect
from generator import altered, listings, programs as generated, searched
from model import differing, faults, listing, making, matching, programs, showing

KINDS = (
    listing.MODULE, listing.LIBRARY, listing.ARCHIVE, programs.PROGRAM, matching.MATCH, differing.COMPARE, "unread",
    "output")
PROGRAM, IMAGE, OLD = "FILE.EXE", "IMAGE.BIN", b"an older file"
no_counts, lines_of_limits = comparison.no_counts, comparison.lines_of_limits
# one seed in so many has an output that fails
FAILS_EVERY = 50
OUT = "OUT.LIB"
# names of members that are asked for have no other characters, and no more of them, so that files can have them under
# any system
PLAIN_NAME = re.compile(rb"\w{1,200}")


class Comparison(comparison.Comparison):
    """Compares one seed after the other in a folder, or each in one that is kept."""

    def compare(self, seed):
        """One run over the files of a seed; raises a Difference."""
        chance = random.Random(f"{seed} of doslib")
        files = [(self.path_of(path), content) for path, content in listings.files(chance, seed)]
        self.put(files)
        for command, model in (("list", listing.list_files), ("show", showing.show_files)):
            answer, output = comparison.asked(model, files), None
            if seed % FAILS_EVERY == 0 and answer.output:
                answer, output = listing.at_failing_output(answer), comparison.FULL_DEVICE
            self.counts.ends.update(answer.ends)
            self.run([command, *(path for path, _ in files)], answer, output)
        self.compare_names(chance, files)
        self.compare_libraries(chance, files)
        self.compare_program(random.Random(f"{seed} of a program"))
        self.compare_match(random.Random(f"{seed} of a match"))
        self.compare_pair(random.Random(f"{seed} of two programs"))

    def compare_names(self, chance, files):
        """What is told of the names of files."""
        ignores_case = chance.random() < 0.3
        words = ["names", *(["--ignore-case"] if ignores_case else []), *(path for path, _ in files)]
        self.run(words, comparison.asked(making.printed_names, files, ignores_case))

    def compare_libraries(self, chance, files):
        """A library is made of files, and changed by some of them; members are taken out of it."""
        self.change("make", OUT, files)
        library = OUT if OUT in self.there else chance.choice(files)[0]
        some = chance.sample(files, chance.randrange(1, len(files) + 1))
        self.change(chance.choice(["add", "replace"]), library, some)
        command, model = chance.choice([("delete", making.delete), ("extract", making.extract)])
        given = self.now(library)
        names = self.some_names(chance, given)
        self.run([command, library, *names], comparison.asked(model, library, [given], names))
        # mostly over a module or an archive
        self.change("make", chance.choice([path for path, _ in files if path in self.there] or [OUT]), files)

    def change(self, command, path, files):
        """A library is made, or changed by files."""
        given, there = [self.now(each) for each, _ in files], self.there.get(path, b"")
        if command != "make":
            given.insert(0, self.now(path))
        answer = comparison.asked(making.change, command, path, given, (), there)
        self.run([command, path, *(each for each, _ in files)], answer)

    def now(self, path):
        """A file of this path as it is now."""
        return path, self.there.get(path, self.given.get(path, listings.NO_FILE))

    @staticmethod
    def some_names(chance, library):
        """Names of members of a library, in any case, at times one that isn't there."""
        found = [] if isinstance(library[1], str) else [
            making.own_name(each) for each in making.modules_of(making.read([library], making.Answer()))]
        found = [each.decode() for each in found if PLAIN_NAME.fullmatch(each)]
        names = chance.sample(found, min(len(found), chance.randrange(1, 4)))
        names = [each.swapcase() if chance.random() < 0.3 else each for each in names]
        return [*names, "none"] if not names or chance.random() < 0.1 else names

    def compare_program(self, chance):
        """What is told of a program, and mostly its image, in a folder that often has an older one."""
        content, paragraph = generated.program_file(chance)
        if chance.random() < 0.03:
            content = chance.choice([listings.NO_FILE, listings.FOLDER])
        self.put([(PROGRAM, content), (IMAGE, OLD if chance.random() < 0.3 else listings.NO_FILE)])
        image, words = any_image(chance, paragraph)
        answer, written = comparison.asked(programs.tell_program, PROGRAM, content, image)
        output = None
        if chance.random() < 0.02 and answer.output:
            answer, written, output = listing.at_failing_output(answer), None, comparison.FULL_DEVICE
        self.counts.ends.update(answer.ends)
        self.run(["program", PROGRAM, *words], answer, output, {} if written is None else {IMAGE: written})

    def compare_match(self, chance):
        """Which modules of files stand in a program."""
        program, given = searched.files(chance)
        if chance.random() < 0.03:
            program = chance.choice([listings.NO_FILE, listings.FOLDER, program[:20], program[1:]])
        files = [(self.path_of(path), content) for path, content in given]
        self.put([(PROGRAM, program), *files])
        answer, output = comparison.asked(matching.match_files, PROGRAM, program, files), None
        if chance.random() < 0.02 and answer.output:
            answer, output = listing.at_failing_output(answer), comparison.FULL_DEVICE
        self.counts.ends.update(answer.ends)
        self.run(["match", PROGRAM, *(path for path, _ in files)], answer, output)

    def compare_pair(self, chance):
        """Where two programs differ, and which modules of files have the byte."""
        program, other, given = altered.pair_and_files(chance)
        program, other, *files = ((self.path_of(path), content) for path, content in (program, other, *given))
        self.put([program, other, *files])
        answer, output = comparison.asked(differing.compare_programs, program, other, files), None
        if chance.random() < 0.02 and answer.output:
            answer, output = listing.at_failing_output(answer), comparison.FULL_DEVICE
        self.counts.ends.update(answer.ends)
        self.run(["compare", *(path for path, _ in (program, other, *files))], answer, output)

    def path_of(self, path):
        """What a path is called here, which may be a system that hasn't all names of files."""
        return path

    def put(self, files):
        """A folder with these files."""
        self.new_folder()
        self.there, self.folders, self.given = {}, set(), dict(files)
        for path, content in files:
            if content == listings.FOLDER:
                (self.folder / path).mkdir(exist_ok=True)
                self.folders.add(path)
            elif content != listings.NO_FILE:
                (self.folder / path).write_bytes(content)
                self.there[path] = content

    def run(self, words, answer, output=None, written=None):
        """Does what the words ask for, and compares the status, both streams, and the files that are there then."""
        environment = {**os.environ, "LC_ALL": "C.UTF-8"}
        with open(output or os.devnull, "wb") as stdout:
            done = subprocess.run(
                [self.program, *words], cwd=self.folder, env=environment, stdin=subprocess.DEVNULL,
                stdout=stdout if output else subprocess.PIPE, stderr=subprocess.PIPE)
        expect("the faults", done.stderr, answer.error)
        expect("the status", [done.returncode], [answer.status])
        expect("the output", done.stdout or b"", answer.output)
        self.check_files(getattr(answer, "written", {}) if written is None else written)

    def check_files(self, written):
        """The folder has the files of before, and those that were written."""
        self.there.update(written)
        found = {path: Path(self.folder, path).read_bytes() for path in self.there}
        for path, content in self.there.items():
            expect(f"the file {path}", found[path], content)
        expect("the files", sorted(os.listdir(self.folder)), sorted([*self.there, *self.folders]))


def any_image(chance, paragraph):
    """An image that is asked for or none, and the words for it."""
    way = chance.random()
    if way < 0.2:
        return None, []
    if way < 0.3:
        return programs.Image(IMAGE), ["--image", IMAGE]
    path, can_be_made = (IMAGE, True) if way < 0.92 else ("no/such", False)
    if way >= 0.96:
        # the program itself
        path = chance.choice([PROGRAM, f"./{PROGRAM}"])
    digits = f"{paragraph:04X}"
    at = ["--at", digits if chance.random() < 0.8 else digits.lower()]
    return programs.Image(path, paragraph, can_be_made), ["--image", path, *at]


def compare_seeds(program, folder, seeds, keeps=False, kind=Comparison):
    """Compares some seeds; answers the counts and a line for each difference."""
    return comparison.compare_seeds(program, folder, seeds, keeps, kind)


def lines_of_ends(counts):
    """A table of how many files of each kind had which first fault."""
    found = {number for _, number in counts.ends if number}
    names = {**faults.NAMES, **faults.DOSLINK_NAMES}
    return comparison.lines_of_ends(counts, KINDS, {number: names[number] for number in sorted(found)})


def summary(counts, minutes):
    """How many files were told of, and how fast."""
    count = sum(counts.of_command(kind) for kind in KINDS)
    return f"{count:,} files; {count / minutes:,.0f} a minute"
