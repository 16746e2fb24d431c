"""Runs the program and the model on the same, and tells where they differ."""

import collections
import contextlib
import os
import random
import shutil
import subprocess
import threading
from dataclasses import dataclass
from pathlib import Path

from generator import bodies, limits, links, long_inputs, module_limits, programs
from model import commands, faults

# of a difference, how many bytes or characters are shown
SHOWN = 100
OLD = b"an older file"
# one seed in so many is at a limit of a link, and one at a limit of a module
LIMIT_EVERY = 4
INPUT, FOREIGN, PIPE, OUT, MAP = "0.obj", "foreign", "pipe", "out", "map"
NO_FOLDER = "missing/"
# what is written to it fails
FULL_DEVICE = "/dev/full"
DONE = "done"
MODEL_FAILED = "the model itself failed"


class Difference(Exception):
    """Where the program and the model disagree."""


def expect(what, found, wanted):
    """Raises a Difference, which shows both around their first difference."""
    if found != wanted:
        pairs = enumerate(zip(found, wanted))
        shorter = min(len(found), len(wanted))
        at = next((place for place, (left, right) in pairs if left != right), shorter)
        begin = max(at - SHOWN // 2, 0)
        end = begin + SHOWN
        raise Difference(
            f"{what} from {begin} on: the program {found[begin:end]!r},"
            f" the model {wanted[begin:end]!r}")


def asked(command, *given):
    """What a command of the model answers; that it fails is a difference too."""
    try:
        return command(*given)
    except Exception as problem:
        raise Difference(f"{MODEL_FAILED}: {problem!r}") from problem


@dataclass
class Counts:
    """How often each command ended by each fault, or was done, and how often each limit was met."""

    ends: collections.Counter
    limits: collections.Counter

    def add(self, other):
        self.ends.update(other.ends)
        self.limits.update(other.limits)

    def of_command(self, command):
        """How often a command was run."""
        return sum(count for (each, _), count in self.ends.items() if each == command)


def no_counts():
    return Counts(collections.Counter(), collections.Counter())


def any_paragraph(chance):
    """A paragraph to load a program at."""
    return chance.choice([0, 1, 0x1000, 0x1234, 0xFFFF, chance.randrange(65536)])


def paragraph_for(chance, program):
    """Any paragraph, or about the last one where a program fits."""
    last = (limits.END_OF_MEMORY - program.layout.size) // 16 + chance.randrange(2)
    return chance.choice([any_paragraph(chance), min(last, 0xFFFF)])


def feed(pipe, content):
    """Writes a long input to a pipe, as far as it is read."""
    try:
        with open(pipe, "wb", buffering=0) as end_of_pipe:
            for piece in content.pieces():
                end_of_pipe.write(piece)
    except BrokenPipeError:
        pass


class Comparison:
    """Compares one seed after the other in a folder, or each command in one that is kept."""

    def __init__(self, program, top, keeps=False):
        self.program = program
        self.top = top
        self.keeps = keeps
        self.counts = no_counts()
        self.folder = top / "0"
        self.folder.mkdir()

    def compare(self, seed):
        """One link, one file of another linker, one module; raises a Difference."""
        chance = random.Random(seed)
        at_limit, number = seed % LIMIT_EVERY == 0, seed // LIMIT_EVERY
        if at_limit:
            self.compare_link_at_limit(chance, number)
        else:
            contents, ignores_case = links.link(chance)
            program, _ = self.compare_link(chance, contents, ignores_case)
            if program is not None:
                self.compare_linked(program, paragraph_for(chance, program))
        content, paragraph = programs.program_file(chance)
        self.compare_foreign(content, paragraph)
        if at_limit:
            self.compare_module_at_limit(chance, number)
        else:
            self.compare_module(chance, bodies.any_input(chance))

    def compare_link_at_limit(self, chance, number):
        """A link, or the loading of it, that is allowed or refused as its maker meant it."""
        limit, case = limits.case(chance, number)
        program, fault = self.compare_link(chance, case.contents(chance), False, plainly=True)
        if case.paragraph is not None and program is not None:
            fault = self.compare_linked(program, case.paragraph)
        elif program is not None:
            self.compare_linked(program, paragraph_for(chance, program))
        self.count_limit(limit, case, fault)

    def compare_module_at_limit(self, chance, number):
        """A module that is sound or refused as its maker meant it."""
        limit, case = module_limits.case(chance, number)
        self.count_limit(limit, case, self.compare_module(chance, case.contents(chance)[0]))

    def count_limit(self, limit, case, fault):
        """Counts a case at a limit; the fault is 0 for none."""
        wanted = case.fault or 0
        if fault != wanted:
            raise Difference(f"a case at limit {limit}: the model {fault}, its maker {wanted}")
        is_refused = wanted != 0 and wanted == limit
        self.counts.limits[limit, "refused" if is_refused else "allowed"] += 1

    def compare_link(self, chance, contents, ignores_case, plainly=False):
        """One link; answers the program that the model makes, or None, and the fault."""
        missing = [None] if not plainly and chance.random() < 0.003 else []
        inputs = [
            (f"{number}.obj", content) for number, content in enumerate(contents + missing)]
        out = self.any_output(chance, OUT, plainly)
        map_file = self.any_output(chance, MAP, plainly) if chance.random() < 0.8 else None
        words = ["link", *(["--ignore-case"] if ignores_case else []), "-o", out.path]
        words += [] if map_file is None else ["-m", map_file.path]
        answer, program = asked(commands.link, inputs, ignores_case, out, map_file)
        self.compare_answer(
            chance, [*words, *(path for path, _ in inputs)], dict(inputs), answer)
        return program if OUT in answer.files else None, answer.fault

    def any_output(self, chance, path, plainly=False):
        """A file to make, at times in a folder that isn't there."""
        if not plainly and chance.random() < 0.005:
            return commands.Output(NO_FOLDER + path, can_be_made=False)
        return commands.Output(path)

    def compare_linked(self, program, paragraph):
        """The loading of a program that was just linked; answers the fault."""
        answer = asked(commands.load_linked, OUT, program, paragraph)
        self.compare_streams(["load", OUT, f"{paragraph:04X}"], answer)
        return answer.fault

    def compare_foreign(self, content, paragraph):
        """The loading of a file as another linker may have written it."""
        self.new_folder()
        (self.folder / FOREIGN).write_bytes(content)
        answer = asked(commands.load, FOREIGN, content, paragraph)
        self.compare_streams(["load", FOREIGN, f"{paragraph:04X}"], answer)

    def compare_module(self, chance, content):
        """What show, check and rewrite make of an input; answers the fault of check."""
        inputs = {INPUT: content}
        shown = asked(commands.show, INPUT, content)
        checked = asked(commands.check, INPUT, content)
        self.compare_answer(chance, ["show", INPUT], inputs, shown)
        self.compare_streams(["check", INPUT], checked)
        if chance.random() < 0.01:
            self.compare_streams(["show", INPUT], shown.at_failing_output(), FULL_DEVICE)
            self.compare_streams(["check", INPUT], checked.at_failing_output(), FULL_DEVICE)
        out = self.any_output(chance, OUT)
        rewritten = asked(commands.rewrite, INPUT, content, out)
        self.compare_answer(chance, ["rewrite", INPUT, out.path], inputs, rewritten)
        return checked.fault

    def compare_long_input(self, place):
        """What check makes of an input through a pipe, whose last record begins at a place."""
        content, pipe = long_inputs.LongInput(place), self.folder / PIPE
        os.mkfifo(pipe)
        feeding = threading.Thread(target=feed, args=(pipe, content))
        feeding.start()
        answer = commands.check(PIPE, content)
        self.compare_streams(["check", PIPE], answer)
        self.counts.limits[answer.fault, "refused" if answer.fault else "allowed"] += 1
        feeding.join()
        pipe.unlink()

    def compare_answer(self, chance, words, inputs, answer):
        """Runs a command in a folder with inputs, often with an older OUT, and compares all."""
        self.new_folder()
        given = {path: content for path, content in inputs.items() if content is not None}
        if chance.random() < 0.3:
            given[OUT] = OLD
        for path, content in given.items():
            (self.folder / path).write_bytes(content)
        self.compare_streams(words, answer)
        wanted = {**given, **answer.files}
        found = {path.name: path for path in self.folder.iterdir()}
        expect(f"the files of {words[0]}", sorted(found), sorted(wanted))
        for path, content in wanted.items():
            expect(f"{path} of {words[0]}", found[path].read_bytes(), content)

    def new_folder(self):
        """A folder without files, in the place of the one before unless that is kept."""
        if self.keeps:
            self.folder = self.top / str(int(self.folder.name) + 1)
        else:
            shutil.rmtree(self.folder)
        self.folder.mkdir()

    def compare_streams(self, words, answer, output=None):
        """Runs a command and compares its status and its two streams.

        Standard output is a pipe, or the device of a path.
        """
        command = words[0]
        with open(output, "wb") if output else contextlib.nullcontext(subprocess.PIPE) as stdout:
            done = subprocess.run(
                [self.program, *words], cwd=self.folder, stdout=stdout,
                stderr=subprocess.PIPE, stdin=subprocess.DEVNULL, close_fds=False)
        self.counts.ends[command, answer.fault] += 1
        expect(f"the fault of {command}", done.stderr, answer.error)
        expect(f"the status of {command}", [done.returncode], [answer.status])
        expect(f"the output of {command}", done.stdout or b"", answer.output)


def summary(counts, minutes):
    """How many commands were run, and how fast."""
    linked, loaded = counts.of_command("link"), counts.of_command("load")
    others = sum(counts.of_command(name) for name in ["show", "check", "rewrite"])
    return (
        f"{linked:,} links, {loaded:,} loads, {others:,} of show, check and rewrite;"
        f" {linked / minutes:,.0f} links a minute")


def compare_seeds(program, folder, seeds, keeps=False, kind=Comparison):
    """Compares some seeds; answers the counts and a line for each difference."""
    comparison = kind(program, Path(folder), keeps)
    differences = []
    for seed in seeds:
        try:
            comparison.compare(seed)
        except Difference as difference:
            differences.append(f"seed {seed}: {difference}")
    return comparison.counts, differences


def compare_long_inputs(program, folder):
    """Inputs at the limit of fault 41; answers the counts and a line for each difference."""
    comparison = Comparison(program, Path(folder))
    differences = []
    for place in [long_inputs.END_OF_PLACES - 1, long_inputs.END_OF_PLACES]:
        try:
            comparison.compare_long_input(place)
        except Difference as difference:
            differences.append(f"place {place}: {difference}")
    return comparison.counts, differences


COMMANDS = ["link", "load", "show", "check", "rewrite"]


def lines_of_ends(counts, names=COMMANDS, titles=faults.NAMES):
    """A table of how often each command ended by each fault."""
    yield " " * 22 + "".join(f"{name:>9}" for name in names)
    for number, title in {0: DONE, **titles}.items():
        row = [counts.ends[name, number] for name in names]
        yield f"{number or '':2} {title:19}" + "".join(f"{count:9,}" for count in row)


def lines_of_limits(counts):
    """How often each limit was met on either side."""
    for limit in sorted({limit for limit, _ in counts.limits}):
        allowed, refused = (counts.limits[limit, end] for end in ["allowed", "refused"])
        title = f"limit of fault {limit}" if limit else "limits without a fault"
        yield f"{title}: allowed {allowed:,}, refused {refused:,}"
