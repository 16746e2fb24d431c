"""Which lines of the model run in which seeds, so that a changed line is tried first where it runs."""

import collections
import concurrent.futures
import functools
import sys
import tempfile
from dataclasses import dataclass, field
from pathlib import Path

MODEL = Path(__file__).resolve().parent / "model"
SEEDS_OF_TASK = 50
# of a function of the model, how many lines that run are looked at in a seed
LINES_OF_FUNCTION = 1000


class Tracer:
    """Collects the lines of some files of the model that run, as pairs of the file's name and the line.

    Of each function it sees so many lines and no more, since a long loop runs the same ones again.
    """

    def __init__(self, files):
        self.seeing = {str(MODEL / name): self.seeing_in(name) for name in files}
        self.left = collections.Counter()
        self.found, self.calls = set(), 0

    def __call__(self, frame, event, _):
        """What follows the lines of a function that is called: of one elsewhere, none."""
        self.calls += 1
        seen = self.seeing.get(frame.f_code.co_filename)
        return seen if seen and self.left[frame.f_code] < LINES_OF_FUNCTION else None

    def seeing_in(self, name):
        """What follows the lines of a function of a file."""
        def see(frame, event, _):
            if event == "line":
                self.found.add((name, frame.f_lineno))
                self.left[frame.f_code] += 1
                frame.f_trace_lines = self.left[frame.f_code] < LINES_OF_FUNCTION
            return see
        return see


@dataclass
class Reached:
    """Of some seeds, which of them run each line, and how many calls each makes."""

    seeds: dict = field(default_factory=lambda: collections.defaultdict(list))
    calls: dict = field(default_factory=dict)

    def add(self, seed, tracer):
        self.calls[seed] = tracer.calls
        for line in tracer.found:
            self.seeds[line].append(seed)

    def join(self, other):
        self.calls.update(other.calls)
        for line, which in other.seeds.items():
            self.seeds[line] += which

    def in_order(self, lines):
        """All seeds, first those that run one of some lines, and of these and of the others each the cheaper ones
        first."""
        running = {seed for line in lines for seed in self.seeds.get(line, [])}
        return sorted(self.calls, key=lambda seed: (seed not in running, self.calls[seed], seed))


def traced(comparison, program, files, seed):
    """A tracer that has seen the lines of some files of the model that run in a seed."""
    tracer = Tracer(files)
    with tempfile.TemporaryDirectory(prefix="omf-reached-") as folder:
        sys.settrace(tracer)
        try:
            sys.modules[comparison].compare_seeds(program, folder, [seed])
        finally:
            sys.settrace(None)
    return tracer


def reached_by(comparison, program, files, seeds):
    """What some seeds run of some files of the model."""
    reached = Reached()
    for seed in seeds:
        reached.add(seed, traced(comparison, program, files, seed))
    return Reached(dict(reached.seeds), reached.calls)


def reached_by_all(comparison, program, files, seeds, jobs):
    """The same of many seeds, by some processes at once."""
    tasks = [seeds[at:at + SEEDS_OF_TASK] for at in range(0, len(seeds), SEEDS_OF_TASK)]
    found = functools.partial(reached_by, comparison.__name__, program, files)
    reached = Reached()
    with concurrent.futures.ProcessPoolExecutor(jobs) as pool:
        for some in pool.map(found, tasks):
            reached.join(some)
    return reached
