"""The programs to ask."""

import functools
import shutil
import subprocess
from pathlib import Path

TOP = Path(__file__).resolve().parent.parent


@functools.lru_cache(maxsize=None)
def find_program(given, name="omf"):
    """The program of a name to ask: the one that was given, that of this repository, that which was installed with
    this script, or the one on the PATH."""
    if given is not None:
        return given
    which = TOP / "release" / "which"
    if which.exists():
        # unpacks or builds the program where it isn't there yet
        found = subprocess.run([which, name], stdout=subprocess.PIPE, text=True)
        if found.returncode != 0:
            raise FileNotFoundError("the program isn't there")
        return found.stdout.strip()
    installed = TOP.parent.parent / "bin" / name
    found = installed if installed.exists() else shutil.which(name)
    if found is None:
        raise FileNotFoundError(f"there is no {name} on the PATH; --{name} PROGRAM names one")
    return found
