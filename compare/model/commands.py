"""What each command of `omf` answers: its status, what it prints, and the files that it makes.

An input is a pair of the path and the bytes, which are None where there is no such file. An output
is the path and whether it can be made; a file is made when the first byte is written to it.
"""

from contextlib import contextmanager
from dataclasses import dataclass, field

from model import image, module, printing, program_file
from model.faults import NAMES, Fault
from model.parsing import read_records
from model.records import Spelling


@dataclass
class Answer:
    """What a command does: its status, its two streams, and the bytes of each file it makes."""

    status: int = 0
    output: bytes = b""
    error: bytes = b""
    files: dict = field(default_factory=dict)
    # the number of the fault, where there is one
    fault: int = 0

    def refuse(self, fault, paths):
        """Ends with a fault."""
        self.status, self.error = fault.status, fault.line(paths).encode()
        self.fault = fault.number

    @contextmanager
    def told_until_a_fault(self, path):
        """What is done within goes up to the first fault, which is told of the path."""
        try:
            yield
        except Fault as fault:
            self.refuse(fault, [path])

    def at_failing_output(self):
        """The same command where standard output fails: fault 40 comes first, if it prints."""
        if not self.output:
            return self
        line = f"omf: output: 40 {NAMES[40]}\n"
        return Answer(Fault(40).status, b"", line.encode(), self.files, 40)


@dataclass
class Output:
    """A file to make, at a path where that may not be possible."""

    path: str
    can_be_made: bool = True

    def write(self, answer, content):
        """Writes bytes to it; fault 40 is a path at which it can't be made."""
        if content and not self.can_be_made:
            raise Fault(40, 0)
        if content:
            answer.files[self.path] = answer.files.get(self.path, b"") + content


def link(inputs, ignores_case, out, map_file=None):
    """Nothing is written before all is linked; then OUT is, and the map behind it.

    What was linked stands beside the answer, or None.
    """
    answer = Answer()
    try:
        program = image.link([content for _, content in inputs], ignores_case)
    except Fault as fault:
        answer.refuse(fault, [path for path, _ in inputs])
        return answer, None
    files = [(out, program_file.written_file(program))]
    if map_file is not None:
        files.append((map_file, printing.map_of(program)))
    for output, content in files:
        try:
            output.write(answer, content)
        except Fault as fault:
            answer.refuse(fault, [output.path])
            break
    return answer, program


def load(path, content, paragraph):
    """The listing of a file, of whatever linker."""
    return load_by(path, lambda: program_file.load_file(content, paragraph))


def load_linked(path, program, paragraph):
    """The listing of a link, from what it is and not from its file."""
    return load_by(path, lambda: program_file.load_program(program, paragraph))


def load_by(path, loading):
    answer = Answer()
    with answer.told_until_a_fault(path):
        answer.output = printing.listing(loading())
    return answer


def show(path, content):
    """The lines of all records before the first fault."""
    answer = Answer()
    with answer.told_until_a_fault(path):
        for read in read_records(content, 0):
            answer.output += printing.show(read)
    return answer


def check(path, content):
    """Whether the input begins with a whole sound module."""
    answer = Answer()
    with answer.told_until_a_fault(path):
        module.read(content, 0)
        answer.output = b"ok\n"
    return answer


def rewrite(path, content, out):
    """The records before the first fault in canonical form; a failing output comes first."""
    answer = Answer()
    canonical, first_fault = b"", None
    try:
        for read in read_records(content, 0):
            canonical += Spelling().record(read.record)
    except Fault as fault:
        first_fault = fault
    try:
        out.write(answer, canonical)
    except Fault as fault:
        answer.refuse(fault, [out.path])
        return answer
    if first_fault is not None:
        answer.refuse(first_fault, [path])
    return answer
