"""The program's file by its form: an EXE file, or bytes of the program and no header.

A .COM file is what DOS puts at offset 100H of a segment; a raw image, "bin", is the program at its
paragraph, and "sys" one that is the same at any. One that begins where its program does, "start", is
a .COM file but where that is at 0.
"""

from model import program_file
from model.faults import Fault

# where a .COM program begins and starts, and the end of its segment
COM_START, SEGMENT = 0x100, 0x10000
RELOCATED, STACK_SEGMENT, OTHER_START, DATA_BELOW, TOO_LONG = range(68, 73)
EXTENSIONS = {"exe": ".EXE", "com": ".COM", "start": ".COM", "bin": ".BIN", "sys": ".SYS"}


def kind_of(form):
    """The kind of a form; an EXE file where none is said."""
    return "exe" if form is None else form.kind


def has_below(program, start):
    """Whether data covers an address below one."""
    return any(laid.content and laid.address < start for laid in program.laid)


def starts_at(program):
    """The frame and the offset at which a program starts."""
    return program.registers.code, program.registers.instruction


def faults_of(program, kind):
    """What keeps a program from being a file of a kind, by its number."""
    found = com_faults(program)
    if kind == "sys":
        return [number for number in found if number == RELOCATED]
    if kind == "start" and starts_at(program) == (0, 0):
        return [number for number in found if number not in (OTHER_START, DATA_BELOW)]
    return found


def com_faults(program):
    """What keeps a program from being a .COM file, by its number."""
    start = starts_at(program)
    tests = [
        (RELOCATED, bool(program.relocations)),
        (STACK_SEGMENT, any(each.kind == "stack" for each in program.layout.combined)),
        (OTHER_START, start != (0, COM_START)),
        (DATA_BELOW, has_below(program, COM_START)),
        (TOO_LONG, program.layout.size > SEGMENT)]
    return [number for number, stands in tests if stands]


def written_file(program, form):
    """The bytes of the file, or the first fault that keeps the program from having one."""
    kind = kind_of(form)
    if kind == "exe":
        is_limited = form is not None and form.most_extra is not None
        return program_file.written_file(program, form.most_extra if is_limited else program_file.MOST_EXTRA)
    if kind == "bin":
        # a file that begins behind data would lack it
        if has_below(program, form.start):
            raise Fault(DATA_BELOW)
        return program.image(form.paragraph)[form.start:]
    found = faults_of(program, kind)
    if found:
        raise Fault(found[0])
    begins_at_0 = kind == "sys" or kind == "start" and starts_at(program) == (0, 0)
    return program.image(0)[0 if begins_at_0 else COM_START:]
