"""The processor time of ports beside that of the programs that were proved, for some links and a list."""

import os
import subprocess
import sys
from pathlib import Path

import cases

sys.path.insert(0, str(cases.TOP / "bench"))
import generate  # noqa: E402

TIMES = 12  # runs, of which the shortest counts


def listed_library(count):
    """A library of a number of members, to be listed."""
    return generate.Inputs([generate.library_of_names(count)], 0, 0)


RUNS = [  # a title, the program, what makes its inputs, and how many
    ("2,001 modules", "omf", generate.calling_modules, 2001),
    ("200,000 fix-ups", "omf", generate.fixups_to_names, 200_000),
    ("50,000 publics and externals", "omf", generate.many_names, 50_000),
    ("300 self-relative fix-ups to 32,767 copies", "omf", generate.self_relative_fixups, 300),
    ("a library of 2,400 members", "doslink", generate.library_of_callers, 2400),
    ("a library of 6,500 members", "doslib", listed_library, 6500),
]
# what stands in front of the files of each program
COMMANDS = {"omf": ["link", "-o", "out"], "doslink": ["-o", "out"], "doslib": ["list"]}


def seconds(words, folder):
    """The processor time of a run, that of the system for it included."""
    child = subprocess.Popen(words, cwd=folder, stdout=subprocess.DEVNULL, stderr=subprocess.DEVNULL)
    _, status, used = os.wait4(child.pid, 0)
    child.returncode = os.waitstatus_to_exitcode(status)
    if child.returncode != 0:
        sys.exit(f"speed: {words[0]} ended with status {child.returncode}")
    return used.ru_utime + used.ru_stime


def least_seconds(commands, folder):
    """The least of some runs of each command, by their titles. They take turns, since a machine is slower at times."""
    least = dict.fromkeys(commands, float("inf"))
    for _ in range(TIMES):
        for title, words in commands.items():
            least[title] = min(least[title], seconds(words, folder))
    return least


def put_inputs(make, count, folder):
    """Writes the inputs of a run to a new folder, and answers its words."""
    inputs = make(count)
    folder.mkdir(parents=True)
    modules = {f"{number:05}": content for number, content in enumerate(inputs.modules)}
    for name, content in {**modules, **dict(inputs.files)}.items():
        (folder / name).write_bytes(content)
    return [*inputs.words, *modules]


def table(folders, room):
    """Prints a row for each run: the time of one that only starts, and of that run without it, for the programs of
    each folder by its title, the first of which are those that were proved."""
    starts = {}
    print(f"| What | {' | '.join(folders)} |\n|---{'|---' * len(folders)}|")
    for title, name, make, count in RUNS:
        folder = Path(room) / title.replace(" ", "-")
        words = put_inputs(make, count, folder)
        there = {port: programs / name for port, programs in folders.items() if (programs / name).exists()}
        if name not in starts:
            starts[name] = least_seconds({port: [program, "--version"] for port, program in there.items()}, folder)
        took = least_seconds(
            {port: [program, *COMMANDS[name], *words] for port, program in there.items()}, folder)
        net = {port: took[port] - starts[name][port] for port in there}
        first = net[next(iter(there))]
        cells = [f"{net[port]:.3f} ({net[port] / first:.2f})" if port in net else "" for port in folders]
        print(f"| {name}: {title} | {' | '.join(cells)} |", flush=True)
    cells = [f"{starts['omf'][port]:.3f}" if port in starts["omf"] else "" for port in folders]
    print(f"| its start, which isn't in the rows above | {' | '.join(cells)} |")
