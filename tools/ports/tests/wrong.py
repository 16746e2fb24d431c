"""Wrong shims, which the tests have to find, and the programs that test what a shim has of its own."""

import ctypes
import itertools
import os
import shutil
import subprocess
import sys
import tempfile
from pathlib import Path

HERE = Path(__file__).resolve().parent
PORTS = HERE.parent
sys.path.insert(0, str(PORTS))
import webassembly  # noqa: E402

KIT = Path(os.environ.get("KIT", "/opt/rattle"))
TARGETS = {f"linux-{each}": f"{each}-unknown-linux-gnu" for each in ("x86_64", "aarch64", "riscv64")}


def build_surroundings(shims, port, made):
    """Builds tests/surroundings.c over a folder of shims."""
    clang = KIT / "toolchain" / "bin" / "clang"
    with tempfile.TemporaryDirectory(prefix="omf-port-") as folder:
        linker, thing = Path(folder) / "ld.lld", Path(folder) / "surroundings.o"
        linker.symlink_to(clang)
        words = [f"--target={TARGETS[port]}", "--no-default-config", "-O2", "-ffreestanding", "-fno-stack-protector"]
        subprocess.run([clang, *words, f"-I{shims}", "-c", HERE / "surroundings.c", "-o", thing], check=True)
        subprocess.run([linker, "-static", "-o", made, thing], check=True)


def kit_tools(folder, *names):
    """The kit's clang by the names of what else it can do, in a folder."""
    for name in names:
        (Path(folder) / name).symlink_to(KIT / "toolchain" / "bin" / "clang")
    return [Path(folder) / name for name in names]


def build_for_windows(source, used, made, shims=PORTS / "shims"):
    """Builds a file of C for Windows, which uses these functions of its libraries."""
    with tempfile.TemporaryDirectory(prefix="omf-port-") as folder:
        clang, linker, maker = kit_tools(folder, "clang", "lld-link", "llvm-dlltool")
        thing, libraries = Path(folder) / "thing.o", []
        for library, names in used.items():
            definition = Path(folder) / f"{library}.def"
            definition.write_text(f"LIBRARY {library}.dll\nEXPORTS\n" + "".join(f"{each}\n" for each in names))
            libraries.append(Path(folder) / f"{library}.lib")
            subprocess.run([maker, "-m", "i386:x86-64", "-d", definition, "-l", libraries[-1]], check=True)
        for words in (
                [clang, "--target=x86_64-w64-windows-gnu", "--no-default-config", "-O1", "-ffreestanding",
                 "-fno-stack-protector", f"-I{shims}", "-c", source, "-o", thing],
                [linker, "-lldmingw", "-entry:begin", "-subsystem:console", f"-out:{made}", thing, *libraries]):
            subprocess.run(words, check=True)


def exports(definition):
    """The names of a library's functions in a .def."""
    return definition.read_text().partition("EXPORTS\n")[2].split()


def build_over_windows(shims, made):
    """Builds tests/over_windows.c over a folder of shims, for Windows."""
    used = {name: exports(shims / f"{name}.def") for name in ("kernel32", "msvcrt")}
    build_for_windows(HERE / "over_windows.c", used, made, shims)


def build_over_small_windows(shims, made):
    """Builds the same for this machine, over the small Windows of tests/kernel32.h."""
    subprocess.run(["cc", "-O1", "-w", f"-I{shims}", "-o", made, HERE / "over_windows.c"], check=True)


def build_over_web(shims, made):
    """Builds tests/over_web.c over a folder of shims."""
    with tempfile.TemporaryDirectory(prefix="omf-port-") as folder:
        clang, linker = kit_tools(folder, "clang", "wasm-ld")
        thing, wide = Path(folder) / "thing.o", Path(folder) / "wide.wasm"
        features = ("memory64", "bulk-memory", "sign-ext", "mutable-globals", "nontrapping-float-to-int", "multivalue")
        for words in (
                [clang, "--target=wasm64-unknown-unknown", "--no-default-config", "-mcpu=lime1", "-O2",
                 "-ffreestanding", f"-I{shims}", "-c", HERE / "over_web.c", "-o", thing],
                [linker, "-m", "wasm64", "--no-entry", "--gc-sections", "--stack-first", "-o", wide, thing]):
            subprocess.run(words, check=True)
        wide.write_bytes(webassembly.without_table(wide.read_bytes()))
        words = ["wasm-opt", *(f"--enable-{each}" for each in features), "--memory64-lowering", wide, "-o", made]
        subprocess.run(words, check=True)


def new_paths(folder):
    """Makes files, folders and links in a folder, and answers paths over them."""
    (folder / "a" / "b").mkdir(parents=True)
    (folder / "a" / "f").write_bytes(b"")
    for link, to in (
            ("a/up", ".."), ("a/b/top", "../.."), ("l", "a/b"), ("round", "round"), ("far", str(folder / "a" / "f")),
            ("dead", "none/x"), ("slashes", "./a//b/./"), ("chain", "l/top/far")):
        (folder / link).symlink_to(to)
    parts = ("a", "b", "f", "..", ".", "l", "up", "top", "far", "round", "dead", "none", "slashes", "chain", "")
    for count in (1, 2, 3):
        for chosen in itertools.product(parts, repeat=count):
            yield "/".join(chosen) or "."
    yield from ("/", "//", "/..", f"{folder}/l/../f", "x" * 300, "a/" * 1000 + "f", "./" * 1000 + "a/f")


def resolved(path, folder):
    """What the C library's realpath answers in a folder, or the number of the error."""
    library = ctypes.CDLL(None, use_errno=True)
    library.realpath.restype = ctypes.c_char_p
    made, here = ctypes.create_string_buffer(4096), os.getcwd()
    os.chdir(folder)
    try:
        found = library.realpath(path.encode(), made)
        return str(ctypes.get_errno()) if found is None else found.decode()
    finally:
        os.chdir(here)


def read_edit(path):
    """The file that an edit changes, and the pairs of texts: as those of planted/."""
    file, pairs, old = None, [], None
    for line in path.read_text().splitlines():
        word, _, text = line.partition(": ")
        if word == "file":
            file = text
        elif word == "old":
            old = text
        elif word == "new" or line == "new:":
            pairs.append((old, text))
    return file, pairs


def apply_edit(path, shims):
    """Applies an edit to a folder of shims, in which each old text has to stand once."""
    file, pairs = read_edit(path)
    place = shims / file
    text = place.read_text()
    for old, new in pairs:
        if text.count(old) != 1:
            sys.exit(f"{path.name}: the text stands {text.count(old)} times: {old}")
        text = text.replace(old, new)
    place.write_text(text)
    return file


# the port by which a wrong shim is tried, by its file
PORT_OF = {"linux.c": "linux-x86_64", "heap.h": "linux-x86_64", "heap.ll": "linux-x86_64", "common.h": "linux-x86_64",
           "windows.c": "windows-x86_64", "web.c": "web", "macos.c": "macos"}


def is_found(path, folder):
    """Whether the tests fail with a wrong shim, and the last line that they print."""
    with tempfile.TemporaryDirectory(prefix="omf-port-") as room:
        shims, made = Path(room) / "shims", Path(room) / "made"
        shutil.copytree(PORTS / "shims", shims)
        port = PORT_OF[apply_edit(path, shims)]
        made.mkdir()
        # what the modules compile to is the same
        (made / "objects").symlink_to(folder / "objects")
        for module in sorted(folder.glob("*.bc")):
            words = [PORTS / "build", "--shims", shims, module, made, port]
            built = subprocess.run(words, stdout=subprocess.PIPE, stderr=subprocess.STDOUT, text=True)
            if built.returncode != 0:
                return False, built.stdout
        words = [PORTS / "test", "--shims", shims, "--ends-early", "--count", "20", made, port]
        done = subprocess.run(words, stdout=subprocess.PIPE, stderr=subprocess.DEVNULL, text=True)
        lines = done.stdout.splitlines() or ["nothing was printed"]
        return done.returncode == 1 and "failed" in lines[-1], lines[0] if done.returncode else lines[-1]


def try_all(folder, words, ports):
    """Tries the wrong shims whose names have these words, of some ports or all; answers whether each was found."""
    missed = count = 0
    for path in sorted((PORTS / "wrong").glob("*.edit")):
        if words in path.stem and (not ports or PORT_OF[read_edit(path)[0]] in ports):
            found, line = is_found(path, folder)
            count, missed = count + 1, missed + (not found)
            print(f"{path.stem}: {'found' if found else 'MISSED'}: {line[:150]}", flush=True)
    print(f"{count} wrong shims, {missed} missed")
    return not missed and count > 0
