"""What `doslib program` prints of an MS-DOS executable, and the image that it writes, by docs/DOSLIB.md.

The header is read here by itself, as Microsoft published it: nothing is shared with the rules of `omf load`.
"""

import posixpath
from dataclasses import dataclass

from model.faults import NAMES
from model.listing import Answer, quoted

UNREAD, UNWRITTEN = 1, 40
FOLDER = "it is a folder"
PROGRAM = "program"
# what the words of the header are called, in the order of the file
WORDS = (
    "signature", "bytes in last page", "pages", "relocations", "header paragraphs", "minimum allocation",
    "maximum allocation", "initial SS", "initial SP", "checksum", "initial IP", "initial CS", "relocation table offset",
    "overlay")
MEMORY = 0x100000


class AtFault(Exception):
    """The number of a fault."""


def word(content, place):
    return content[place] + 256 * content[place + 1]


@dataclass
class Program:
    """The words of a header by their names, where the words stand that are relocated, and the image."""

    words: dict
    entries: list
    image: bytes
    header: int
    behind: int

    def needed(self):
        """How many bytes of memory it needs, from the image on."""
        return max(len(self.image), 16 * (len(self.image) // 16 + self.words["minimum allocation"]))

    def loaded(self, paragraph):
        """The image at a paragraph."""
        if 16 * paragraph + self.needed() > MEMORY:
            raise AtFault(39)
        image = bytearray(self.image)
        for segment, offset in self.entries:
            place = 16 * segment + offset
            moved = (word(image, place) + paragraph) % 65536
            image[place], image[place + 1] = moved % 256, moved // 256
        return bytes(image)


def is_sound(words, header, length, table_end):
    """Whether the words of a header agree with one another."""
    if words["pages"] == 0 or words["bytes in last page"] > 511 or header < 28 or header > length:
        return False
    return words["relocations"] == 0 or (words["relocation table offset"] >= 28 and table_end <= header)


def program_of(content):
    """The program of a file, or its first fault."""
    if len(content) >= 2 and content[:2] != b"MZ":
        raise AtFault(35)
    if len(content) < 28:
        raise AtFault(37)
    words = {name: word(content, 2 * number) for number, name in enumerate(WORDS)}
    header, last = 16 * words["header paragraphs"], words["bytes in last page"]
    length = 512 * words["pages"] - (512 - last if last else 0)
    table = words["relocation table offset"]
    if not is_sound(words, header, length, table + 4 * words["relocations"]):
        raise AtFault(36)
    if len(content) < length:
        raise AtFault(37)
    image = content[header:length]
    places = [table + 4 * number for number in range(words["relocations"])]
    entries = [(word(content, place + 2), word(content, place)) for place in places]
    if any(offset == 0xFFFF or 16 * segment + offset + 2 > len(image) for segment, offset in entries):
        raise AtFault(38)
    return Program(words, entries, image, header, len(content) - length)


def lines_of(path, program):
    """What is printed of a program."""
    yield f"program {quoted(path.encode())}"
    for number, (name, value) in enumerate(program.words.items()):
        yield f"  {2 * number:02X} {value:04X} {name}"
    for count, what in ((program.header, "of the header"), (len(program.image), "of the image"),
                        (program.behind, "behind the image"), (program.needed(), "of memory at least")):
        yield f"  {count:7} bytes {what}"
    for segment, offset in program.entries:
        place = 16 * segment + offset
        yield f"  {segment:04X}:{offset:04X} -> {place:08X} {word(program.image, place):04X}"


@dataclass
class Image:
    """The path of an image that is asked for, the paragraph, and whether a file can be made there."""

    path: str
    paragraph: int = 0
    can_be_made: bool = True


def is_over(path, content, image):
    """Whether an image would be written over the program: to its path, or to another one of a file or of nothing."""
    return image.path == path or (content != FOLDER and posixpath.normpath(image.path) == posixpath.normpath(path))


def tell_program(path, content, image=None):
    """What is told of a file, which is its bytes or why it isn't read; and the bytes of the image that is written, or
    None.
    """
    answer = Answer()
    if image and is_over(path, content, image):
        answer.error = f"doslib: {image.path}: it is read and would be written\n".encode()
        answer.status = 2
        return answer, None
    if isinstance(content, str):
        answer.error = f"doslib: {path}: {UNREAD} Device: {content}\n".encode()
        answer.status, answer.ends = 3, [("unread", UNREAD)]
        return answer, None
    written = None
    try:
        program = program_of(content)
        answer.output = "".join(f"{line}\n" for line in lines_of(path, program)).encode()
        written = image and program.loaded(image.paragraph)
        answer.ends = [(PROGRAM, 0)]
    except AtFault as fault:
        number = fault.args[0]
        answer.error = f"doslib: {path}: {number} {NAMES[number]}\n".encode()
        answer.status, answer.ends = 1, [(PROGRAM, number)]
    if written is not None and not image.can_be_made:
        answer.error = f"doslib: {image.path}: {UNWRITTEN} Device\n".encode()
        answer.status, answer.ends, written = 3, [(PROGRAM, UNWRITTEN)], None
    return answer, written
