"""What `doslib match` tells: which segments of modules stand in a program, by docs/DOSLIB.md.

Members are those of listing.py and the program is that of programs.py; what a module says is read as for a link, which
has models of its own. Where segments stand is looked for by itself, at all places at once.
"""

import re
from dataclasses import replace

from model import comdats, lowering, module, parsing, programs, showing
from model.faults import DOSLINK_NAMES, NAMES, Fault
from model.listing import COMDEF, LIBRARY, MEMBERS, UNREAD, Answer, kind_of, quoted, record_at
from model.records import Direct, Location, Method

MATCH = "match"
MOST_PLACES, LEAST_KNOWN = 16, 8
# faults of framing as `list` tells them, by those of a link
NO_END, TYPE, BODY, NO_SAYING = 8, 5, 6, 51
# faults of COMDEF, by those of other records
OF_COMMUNALS = {48: 54, NO_SAYING: 53}
OF_COMDATS = [bytes([kind]) for kind in (*lowering.COMMUNAL_DATA, *lowering.COMMUNAL_LINES)]
AS_LISTED = {2: 43, 3: 44, 4: 45, NO_END: 44, 41: 41}
OF_HEADERS = (46, 47)  # of an archive
TARGETS = {Method.SEGMENT: ("segment", "segments"), Method.GROUP: ("group", "groups"),
           Method.EXTERNAL: ("external", "externals")}


class NotRead(Exception):
    """The number of a fault of a member, and the place of the record in it."""


def module_of(content):
    """The module of a member's bytes; raises the first fault of its records, one after the other."""
    try:
        bytes_of_16 = lowering.lowered(content, False, "")
    except Fault as obstacle:
        # a record before it may be at fault in what it says beside the others
        front = content[:obstacle.place]
        read_lowered(front, lowering.lowered(front, False, ""), or_end=True)
        raise not_read(content, obstacle.number, obstacle.place) from None
    return with_upper_words(read_lowered(content, bytes_of_16), lowering.upper_words(content, False))


def read_lowered(content, bytes_of_16, or_end=False):
    """The module of lowered bytes; that they end too early is told as well, unless they may."""
    try:
        return module.read(bytes_of_16, "")
    except Fault as fault:
        if or_end and fault.number == NO_END:
            return None
        raise not_read(content, fault.number, lowering.own_place(content, bytes_of_16, fault.place)) from None


def not_read(content, number, place):
    """The fault of a record at a place, as a link tells it: that its body is none of its type comes before what else is
    wrong, and has a number by what its type is. A COMDAT is of a type that isn't taken, unless its name isn't listed.
    """
    kind = content[place:place + 1]
    if kind in OF_COMDATS and number not in AS_LISTED:
        is_unlisted = kind in OF_COMDATS[:2] and not is_wrong_body(content, place) and not comdats.is_one(content, place)
        return NotRead(NO_SAYING if is_unlisted else TYPE, place)
    if number not in (*AS_LISTED, TYPE) and (number == BODY or is_wrong_body(content, place)):
        number = BODY if content[place] in parsing.PARSERS else NO_SAYING
    if content[place:place + 1] == bytes([COMDEF]):
        number = OF_COMMUNALS.get(number, number)
    return NotRead(number, place)


def is_wrong_body(content, place):
    """Whether the body of the record at a place is none of its type."""
    record = record_at(content, place)
    return record.kind in showing.READERS and showing.lines_of(record, showing.Names(), place)[1]


def with_upper_words(found, upper_words):
    """A module with a fix-up more behind each of a negative number of 32 bits, for the upper word."""
    words = iter(upper_words)
    for data in found.data:
        fixups = [(fixup, next(words)) for fixup in data.fixups]
        data.fixups = [each for fixup, word in fixups for each in (fixup, upper_one(fixup, data))[:2 if word else 1]]
    return found


def upper_one(fixup, data):
    """The fix-up of the upper word, which counts from there to its own segment."""
    target = replace(fixup.reference, target=Direct(Method.SEGMENT, data.segment))
    return replace(
        fixup, segment_relative=False, location=Location.OFFSET, offset=fixup.offset + 2, reference=target)


def pattern_of(found, index):
    """Of each byte of a segment what it is in a program, or None."""
    cells = [None] * found.segments[index - 1].length
    for data in found.data:
        if data.segment == index:
            locations = [range(fixup.offset, fixup.offset + fixup.location.width) for fixup in data.fixups]
            changed = {place for location in locations for place in location}
            cells[data.offset:data.offset + len(data.stored)] = [
                None if place in changed else byte for place, byte in data.stored]
    return cells


def places_of(cells, alignment, image):
    """The first places of bytes with gaps."""
    if sum(cell is not None for cell in cells) < LEAST_KNOWN:
        return []
    wanted = b"".join(b"." if cell is None else re.escape(bytes([cell])) for cell in cells)
    found = (match.start() for match in re.finditer(b"(?=" + wanted + b")", image, re.DOTALL))
    return [place for place in found if place % alignment == 0][:MOST_PLACES]


def word(image, place):
    return image[place] + 256 * image[place + 1]


def value(image, place, location):
    """What stands in a location."""
    if location == Location.LOW_BYTE:
        return f"{image[place]:02X}"
    if location == Location.POINTER:
        return f"{word(image, place + 2):04X}:{word(image, place):04X}"
    return f"{word(image, place):04X}"


def target_of(found, fixup):
    """What a fix-up refers to."""
    target = fixup.reference.target
    what, table = TARGETS[target.method]
    return f"{what} {quoted(getattr(found, table)[target.index - 1].name)}"


def lines_of(found, index, place, image):
    """The lines of a segment that stands at a place."""
    segment = found.segments[index - 1]
    yield f"  {place:08X} {segment.length:7} {quoted(segment.name)} {quoted(segment.class_name)}"
    for data in found.data:
        for fixup in data.fixups if data.segment == index else []:
            mode = "" if fixup.segment_relative else "self "
            for number, (stored, _) in enumerate(data.stored):
                if stored == fixup.offset:
                    address = place + data.offset + number
                    yield f"    {address:08X} {value(image, address, fixup.location)} {mode}{target_of(found, fixup)}"


class Search:
    """What is told of files in an image."""

    def __init__(self, image):
        self.image, self.answer, self.taken = image, Answer(), bytearray(len(image))
        self.faults = []

    def print(self, lines):
        self.answer.output += "".join(f"{line}\n" for line in lines).encode()

    def refuse(self, path, number, place):
        name = {**NAMES, **DOSLINK_NAMES}[number]
        self.answer.error += f"doslib: {path}: {number} {name} at place {place}\n".encode()
        self.answer.status = max(self.answer.status, 1)
        self.faults.append(number)

    def file(self, path, content):
        """A file, which is its bytes or why it isn't read."""
        if isinstance(content, str):
            self.answer.error += f"doslib: {path}: {UNREAD} Device: {content}\n".encode()
            self.answer.status = 3
            self.faults.append(UNREAD)
            return
        members, faults = MEMBERS[kind_of(content)](content)
        for each in members:
            self.member(path, each.name, each.place, content[each.place:each.place + each.length])
        for number, place in faults:
            # those of records are told of members
            if kind_of(content) == LIBRARY or number in OF_HEADERS:
                self.refuse(path, number, place)

    def member(self, path, name, begin, content):
        try:
            found = module_of(content)
        except NotRead as fault:
            number, place = fault.args
            self.refuse(path, AS_LISTED.get(number, number), begin + place)
            return
        lines = []
        for index, segment in enumerate(found.segments, 1):
            for place in places_of(pattern_of(found, index), segment.alignment or 1, self.image):
                lines += self.segment(found, index, place)
        if lines:
            self.print([f"module {quoted(path.encode())} {quoted(name)}", *lines])

    def segment(self, found, index, place):
        """The lines of a segment that stands at a place, whose bytes are taken."""
        length = found.segments[index - 1].length
        self.taken[place:place + length] = b"\1" * length
        return lines_of(found, index, place, self.image)

    def left(self):
        """The bytes that no segment has."""
        self.print(f"left {run.start():08X} {run.end() - run.start():7}" for run in re.finditer(b"\0+", self.taken))


def match_files(path, content, files):
    """What is told of files in the program in a file: pairs of a path, and of the bytes or why it isn't read."""
    told, _ = programs.tell_program(path, content)
    if told.status:
        return told
    search = Search(programs.program_of(content).image)
    for each, bytes_of_file in files:
        search.file(each, bytes_of_file)
    search.left()
    search.answer.ends = [(MATCH, search.faults[0] if search.faults else 0)]
    return search.answer
