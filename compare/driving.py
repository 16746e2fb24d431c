"""What the command lines `run` and `doslink` have in common."""

import argparse
import concurrent.futures
import functools
import subprocess
import sys
import tempfile
import time
from dataclasses import dataclass
from pathlib import Path
from types import ModuleType
from typing import Callable

import changes

TOP = Path(__file__).resolve().parent.parent
SEEDS_OF_TASK = 50


@dataclass
class Kind:
    """One of the command lines: its name, what compares by it, and the answers worked by hand.

    Each of its changes has to be found within so many seeds.
    """

    name: str
    about: str
    comparison: ModuleType
    check_worked: Callable
    changes: list
    most_seeds: int


def find_program(name):
    """A program of this repository, which is unpacked or built where it isn't there."""
    found = subprocess.run([TOP / "release" / "which", name], stdout=subprocess.PIPE, text=True)
    if found.returncode != 0:
        sys.exit("compare: the program isn't there")
    return Path(found.stdout.strip())


def compare_in_new_folder(comparison, program, seeds):
    """Compares some seeds in a folder of their own."""
    with tempfile.TemporaryDirectory(prefix="omf-compare-") as folder:
        return sys.modules[comparison].compare_seeds(program, folder, seeds)


def compare_all(kind, program, seeds, jobs):
    """Compares seeds, by some processes at once; answers how many differ."""
    began, comparison = time.monotonic(), kind.comparison
    tasks = [seeds[at:at + SEEDS_OF_TASK] for at in range(0, len(seeds), SEEDS_OF_TASK)]
    counts, differences = comparison.no_counts(), 0
    compare = functools.partial(compare_in_new_folder, comparison.__name__, program)
    with concurrent.futures.ProcessPoolExecutor(jobs) as pool:
        for done, lines in pool.map(compare, tasks):
            counts.add(done)
            differences += len(lines)
            for line in lines:
                print(line, flush=True)
    minutes = (time.monotonic() - began) / 60
    for line in [*comparison.lines_of_ends(counts), *comparison.lines_of_limits(counts)]:
        print(line)
    print(comparison.summary(counts, minutes))
    print(f"differences: {differences:,}")
    return differences


def keep(kind, program, seed, folder):
    """Compares one seed, and leaves the files of each of its steps in a new folder."""
    folder.mkdir()
    _, differences = kind.comparison.compare_seeds(
        program, folder.resolve(), [seed], keeps=True)
    print(*differences, sep="\n")
    return differences


def parser_of(kind):
    """The words of a command line."""
    parser = argparse.ArgumentParser(description=kind.about)
    parser.add_argument("--program", type=Path, help="an executable, not this repository's")
    parser.add_argument("--count", type=int, default=2000, help="how many seeds (2000)")
    parser.add_argument("--first", type=int, default=0, help="the first seed (0)")
    parser.add_argument("--jobs", type=int, default=2, help="how many processes at once (2)")
    parser.add_argument("--keep", type=Path, help="a new folder for the files of the first seed")
    parser.add_argument(
        "--changed", metavar="WORDS", nargs="?", const="",
        help="changes the model's rules, of which the titles have these words, one at a time:"
        " each must make a difference")
    return parser


def run(kind, arguments, program):
    """Does what is asked for; answers whether anything differs."""
    seeds = range(arguments.first, arguments.first + arguments.count)
    kind.check_worked()
    changes.check_texts(kind.changes)
    if arguments.changed is not None:
        chosen = [change for change in kind.changes if arguments.changed in change.title]
        return changes.try_all(kind, program, chosen, arguments.jobs)
    if arguments.keep is not None:
        return keep(kind, program, arguments.first, arguments.keep)
    return compare_all(kind, program, seeds, arguments.jobs)
