"""A program's file: how a link is written, how any linker's is loaded, and the faults 35 to 39."""

import struct
from dataclasses import dataclass

from model.faults import Fault

# the bytes that the header's words have, which the table follows in a file that is written here
HEADER = 28
WORDS_OF_HEADER = "<2s13H"
ENTRY = "<2H"
SIZE_OF_ENTRY = 4
PARAGRAPH = 16
PAGE = 512
# the extra paragraphs that a header asks for at most where no fewer are said: all memory
MOST_EXTRA = 0xFFFF
END_OF_MEMORY = 1_048_576
# an entry with this offset has no room for a word
LAST_OFFSET = 0xFFFF


@dataclass
class Registers:
    """CS, IP, SS and SP, as the program's file has them."""

    code: int
    instruction: int
    stack: int
    stack_pointer: int


@dataclass
class Loaded:
    """A program as it stands in memory, from a paragraph on."""

    registers: Registers
    image: bytes
    paragraph: int


def in_paragraphs(length):
    """A length in paragraphs, rounded up."""
    return -(-length // PARAGRAPH)


def written_file(program, most_extra=MOST_EXTRA):
    """The file of a link: header, relocation table, bytes 00 to a whole paragraph, image.

    The least extra paragraphs ask for the memory behind the image, up to the program's size; the most are never fewer.
    """
    relocations, registers = program.relocations, program.registers
    paragraphs = in_paragraphs(HEADER + SIZE_OF_ENTRY * len(relocations))
    length = PARAGRAPH * paragraphs + program.written()
    least_extra = in_paragraphs(program.layout.size) - program.written() // PARAGRAPH
    header = struct.pack(
        WORDS_OF_HEADER, b"MZ", length % PAGE, -(-length // PAGE), len(relocations), paragraphs,
        least_extra, max(most_extra, least_extra), registers.stack, registers.stack_pointer, 0,
        registers.instruction, registers.code, HEADER, 0)
    table = b"".join(
        struct.pack(ENTRY, word % PARAGRAPH, word // PARAGRAPH) for word in relocations)
    return (header + table).ljust(PARAGRAPH * paragraphs, b"\0") + program.image(0)


def load_program(program, paragraph):
    """A link at a paragraph, by its image alone; fault 39 is one that ends above the memory."""
    if PARAGRAPH * paragraph + program.layout.size > END_OF_MEMORY:
        raise Fault(39, 0)
    return loaded(program.registers, program.image(paragraph), paragraph)


def loaded(registers, image, paragraph):
    """A program whose CS and SS are moved by a paragraph."""
    moved = Registers(
        (registers.code + paragraph) % 65536, registers.instruction,
        (registers.stack + paragraph) % 65536, registers.stack_pointer)
    return Loaded(moved, image, paragraph)


@dataclass
class File:
    """The words of a file's header, and what they say of the file's parts."""

    magic: bytes
    last_page: int
    pages: int
    relocations: int
    paragraphs: int
    least_extra: int
    most_extra: int
    stack: int
    stack_pointer: int
    checksum: int
    instruction: int
    code: int
    table: int
    overlay: int

    @property
    def length(self):
        """The bytes that the header tells; those behind them aren't read."""
        if self.last_page == 0:
            return PAGE * self.pages
        return PAGE * (self.pages - 1) + self.last_page

    @property
    def header(self):
        """The bytes before the image."""
        return PARAGRAPH * self.paragraphs

    def is_accepted(self):
        """Whether the header's words go together."""
        if self.pages < 1 or self.last_page >= PAGE or not HEADER <= self.header <= self.length:
            return False
        end_of_table = self.table + SIZE_OF_ENTRY * self.relocations
        return self.relocations == 0 or (self.table >= HEADER and end_of_table <= self.header)


def relocated_words(content, file, image):
    """Where the words that loading changes stand in the image, in the table's order.

    Fault 38 is one outside of it.
    """
    words = []
    for number in range(file.relocations):
        offset, segment = struct.unpack_from(ENTRY, content, file.table + SIZE_OF_ENTRY * number)
        if offset == LAST_OFFSET or PARAGRAPH * segment + offset + 2 > len(image):
            raise Fault(38, 0)
        words.append(PARAGRAPH * segment + offset)
    return words


def parse_file(content):
    """The header of a file, or the first of the faults 35 to 37."""
    if len(content) >= 2 and content[:2] != b"MZ":
        raise Fault(35, 0)
    if len(content) < HEADER:
        raise Fault(37, 0)
    file = File(*struct.unpack_from(WORDS_OF_HEADER, content))
    if not file.is_accepted():
        raise Fault(36, 0)
    if len(content) < file.length:
        raise Fault(37, 0)
    return file


def load_file(content, paragraph):
    """A file at a paragraph, or the first fault: of the file, an entry, or the room in memory."""
    if content is None:
        raise Fault(40, 0)
    file = parse_file(content)
    image = bytearray(content[file.header:file.length])
    words = relocated_words(content, file, image)
    room = max(len(image), PARAGRAPH * (len(image) // PARAGRAPH + file.least_extra))
    if PARAGRAPH * paragraph + room > END_OF_MEMORY:
        raise Fault(39, 0)
    for word in words:
        held = int.from_bytes(image[word:word + 2], "little")
        image[word:word + 2] = ((held + paragraph) % 65536).to_bytes(2, "little")
    registers = Registers(file.code, file.instruction, file.stack, file.stack_pointer)
    return loaded(registers, bytes(image), paragraph)
