"""What `doslib compare` tells: the first byte at which two programs differ, and whose it is, by docs/DOSLIB.md.

The programs are those of programs.py. Which segments stand in the first is looked for as by `match`, in matching.py.
"""

from model import matching, programs
from model.listing import Answer, quoted

COMPARE = "compare"
SAME, NO_BYTE = b"no difference\n", "--"
DIFFERENT = 1  # the status


def first_difference(image, other):
    """The address of the first byte that differs, which the end of one image alone may be, or None."""
    both = min(len(image), len(other))
    for address in range(both):
        if image[address] != other[address]:
            return address
    return None if len(image) == len(other) else both


def byte_at(image, address):
    """The byte at an address, or that there is none."""
    return f"{image[address]:02X}" if address < len(image) else NO_BYTE


class Search(matching.Search):
    """What is told of files by an address in an image."""

    def __init__(self, image, address):
        super().__init__(image)
        self.address = address

    def segment(self, found, index, place):
        """The line of a segment that stands at a place, where it has the byte at the address."""
        segment = found.segments[index - 1]
        if not place <= self.address < place + segment.length:
            return []
        return [f"  {self.address - place:08X} in {quoted(segment.name)} {quoted(segment.class_name)}"]


def compare_programs(program, other, files):
    """What is told of two programs and files: each a pair of a path, and of the bytes or why it isn't read."""
    for path, content in (program, other):
        told, _ = programs.tell_program(path, content)
        if told.status:
            return told
    images = [programs.program_of(content).image for _, content in (program, other)]
    address = first_difference(*images)
    if address is None:
        return Answer(SAME, ends=[(COMPARE, 0)])
    search = Search(images[0], address)
    search.answer.status = DIFFERENT
    search.print([" ".join([f"differ {address:08X}", *(byte_at(image, address) for image in images)])])
    for path, content in files:
        search.file(path, content)
    search.answer.ends = [(COMPARE, search.faults[0] if search.faults else 0)]
    return search.answer
