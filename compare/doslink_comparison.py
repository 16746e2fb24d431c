"""Runs `doslink` and its model on the same jobs, also by lines of LINK and TLINK, and tells where they differ."""

import os
import random
import subprocess

import comparison
from comparison import OLD, expect
from generator import jobs
from model import faults, linking
from model.places import PlacedFiles

LINK, DIRECTIVES = "doslink", "wlink"
# by what it is called to take lines of other linkers, and the words that say the same
LINES = ("link", "tlink")
# one seed in so many has one job more, and one in so many has one that is made for no rule
MORE_EVERY, PLAIN_EVERY = 3, 2
# of a seed that is kept
WORDS = "words"
no_counts, lines_of_limits = comparison.no_counts, comparison.lines_of_limits


class Comparison(comparison.Comparison):
    """Compares one job after the other in a folder, or each in one that is kept."""

    # whether a seed is a job by the words of doslink or wlink, and whether it is one by a line of LINK or TLINK
    has_words = has_lines = True
    # whether names of files tell cases apart, and whether the path /dev/stdout is standard output
    tells_cases = has_devices = True
    # by what names the program is called, so it reads words, directives or lines; all others stand behind --as
    names = (LINK, DIRECTIVES, *LINES, "jwlink", "JWLink.EXE")

    def __init__(self, program, top, keeps=False):
        super().__init__(program, top, keeps)
        self.programs = {name: top / name for name in self.names}
        for path in self.programs.values():
            path.symlink_to(program)

    def compare(self, seed):
        """The jobs of a seed; raises a Difference."""
        if self.has_words:
            chance = random.Random(seed)
            self.compare_case(chance, jobs.case(chance, seed, tells_cases=self.tells_cases))
        if self.has_lines:
            chance = random.Random(f"{seed} by a line")
            self.compare_case(chance, jobs.case(chance, seed, has_lines=True))
        if self.has_lines and seed % MORE_EVERY == 0:
            chance = random.Random(f"{seed} once more")
            turn = seed // MORE_EVERY
            self.compare_case(chance, jobs.more_case(chance, turn, self.has_words, self.has_devices))
        if seed % PLAIN_EVERY == 0:
            chance, has_lines = random.Random(f"{seed} for no rule"), self.has_lines_at(seed // PLAIN_EVERY)
            self.compare_case(chance, jobs.plain_case(chance, has_lines, self.tells_cases or has_lines))

    def has_lines_at(self, number):
        """Whether a job that is made for no rule is by a line: each second one, where some are by words."""
        return self.has_lines and (not self.has_words or number % 2 == 1)

    def compare_case(self, chance, case):
        """One job, often with an older OUT."""
        given = {jobs.OUT: OLD} if chance.random() < 0.3 else {}
        answer = comparison.asked(model_answer, case, self.files_of(case, given))
        self.put(case)
        for path, content in given.items():
            (self.folder / path).write_bytes(content)
        self.run(case, answer)
        self.compare_files(case, {**given, **answer.files})

    def files_of(self, case, given):
        """The files of a case, and older ones, as the system finds them by their paths."""
        return PlacedFiles({**case.files, **given})

    def put(self, case):
        """A folder with the files of a case."""
        self.new_folder()
        for path, content in case.files.items():
            if content is not None:
                (self.folder / path).parent.mkdir(exist_ok=True, parents=True)
                (self.folder / path).write_bytes(content)

    def run(self, case, answer):
        """Runs the program on a case and compares its status and its two streams."""
        environment = {**os.environ, "LIB": case.between.join(case.folders)}
        environment.pop("LINK", None)
        if case.variable is not None:
            environment["LINK"] = case.variable
        done = subprocess.run(
            self.command(case), cwd=self.folder, env=environment,
            stdin=subprocess.DEVNULL, stdout=subprocess.PIPE, stderr=subprocess.PIPE)
        self.counts.ends[case.program, answer.fault] += 1
        if self.keeps:
            variable = [] if case.variable is None else [f"LINK={case.variable}"]
            (self.folder / WORDS).write_text(" ".join([*variable, case.called, *case.words]) + "\n")
        expect("the faults", done.stderr, answer.error)
        expect("the status", [done.returncode], [answer.status])
        expect("the output", done.stdout, answer.output)

    def command(self, case):
        """The program by its name, or by another one and the words that say this one."""
        if case.program != LINK and (len(case.words) % 2 or case.called not in self.programs):
            return [self.programs[LINK], "--as", case.called, *case.words]
        return [self.programs[case.called], *case.words]

    def compare_files(self, case, wanted):
        """The files that are there; those that were given are as they were."""
        wanted = {os.path.normpath(path): content for path, content in wanted.items()}
        given = {path for path, content in case.files.items() if content is not None}
        paths = [path for path in self.folder.rglob("*") if path.is_file()]
        found = {str(path.relative_to(self.folder)) for path in paths} - {WORDS}
        expect("the files", sorted(found), sorted(given.union(wanted)))
        for path, content in {**case.files, **wanted}.items():
            if content is not None:
                expect(path, (self.folder / path).read_bytes(), content)


def model_answer(case, files):
    """What the model answers to a case over its files."""
    where, language = (files, case.folders, files.can_be_made), linking.language_of(case.called)
    if language in LINES:
        return linking.link_by_line(language, case.words, *where, case.variable or "")
    if language == DIRECTIVES:
        return linking.link_by_directives(case.words, *where)
    if case.words == ["@" + jobs.RESPONSE]:
        return linking.link_by_response(jobs.RESPONSE, files, lambda _: case.job, *where[1:])
    return linking.link(case.job, *where)


def compare_seeds(program, folder, seeds, keeps=False, kind=Comparison):
    """Compares some seeds; answers the counts and a line for each difference."""
    return comparison.compare_seeds(program, folder, seeds, keeps, kind)


def lines_of_ends(counts):
    """A table of how often each program ended by each fault."""
    return comparison.lines_of_ends(
        counts, [LINK, DIRECTIVES, *LINES], {
            **faults.NAMES, **faults.DOSLINK_NAMES, **faults.OTHER_ENDS})


def summary(counts, minutes):
    """How many jobs were compared, and how fast."""
    count = sum(counts.of_command(name) for name in (LINK, DIRECTIVES, *LINES))
    return f"{count:,} links; {count / minutes:,.0f} a minute"
