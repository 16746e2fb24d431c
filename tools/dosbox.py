"""Runs commands of DOS in DOSBox, without a window."""

import os
import subprocess

SETTINGS = """[sdl]
output=surface
[mixer]
nosound=true
[cpu]
cycles=max
{settings}
[autoexec]
@echo off
{mounts}
c:
call run.bat
exit
"""
TAKEN = 100  # kilobytes that LOADFIX takes before it runs a program, which is then loaded above them


def begin(folder, lines, others=None, settings=""):
    """Begins to run these lines with a folder as C: and others by their letters, and answers the process. Settings are
    lines more of DOSBox's own."""
    mounts = "\n".join(f'mount {letter} "{path}"' for letter, path in {"c": ".", **(others or {})}.items())
    (folder / "RUN.BAT").write_bytes("\r\n".join([*lines, "c:", "cd \\", "echo ended > ENDED.TXT", ""]).encode())
    (folder / "dosbox.conf").write_text(SETTINGS.format(mounts=mounts, settings=settings))
    quiet = {**os.environ, "SDL_VIDEODRIVER": "dummy", "SDL_AUDIODRIVER": "dummy"}
    return subprocess.Popen(
        ["dosbox", "-conf", "dosbox.conf"], cwd=folder, env=quiet, stdin=subprocess.DEVNULL,
        stdout=subprocess.DEVNULL, stderr=subprocess.DEVNULL)


def run(folder, lines, seconds, others=None, settings=""):
    """Runs these lines as `begin`, and answers whether they ended in time."""
    with begin(folder, lines, others, settings) as started:
        try:
            started.wait(seconds)
        except subprocess.TimeoutExpired:
            started.kill()
            return False
    return (folder / "ENDED.TXT").exists()


def at_two_addresses(program, taken=TAKEN):
    """Lines that run a program twice, the second time loaded above what LOADFIX takes, into LOW.TXT and HIGH.TXT."""
    return [f"{program} > LOW.TXT", f"loadfix -{taken} {program} > HIGH.TXT"]


def differences(folder, wanted, taken=TAKEN):
    """What a program that was run at two addresses printed in place of its text."""
    problems = []
    of_loadfix = f"{taken} kb allocated.\r\n".encode(), f"{taken} kb freed.\r\n".encode()
    for file, around in (("LOW.TXT", (b"", b"")), ("HIGH.TXT", of_loadfix)):
        path = folder / file
        printed = path.read_bytes() if path.exists() else b""
        if printed != around[0] + wanted + around[1]:
            problems.append(f"{file} is {printed!r} in place of {wanted!r}")
    return problems
