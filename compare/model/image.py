"""The image of a link: data, fix-ups and the start, and the faults 26 to 34."""

from dataclasses import dataclass, field

from model import far_data, module, placement
from model.faults import Fault, refuse_smallest
from model.placement import Address, Frame
from model.program_file import Registers
from model.records import Location, Method

HIGHEST_IN_FRAME = 65535
MOST_RELOCATIONS = 65535
# how far a byte reaches
FARTHEST_BACK, FARTHEST_ON = -128, 127
NEGATIVE_WORDS = 0x8000


@dataclass
class Located:
    """What a reference comes to: the address of its target, its frame, and its displacement."""

    target: Address
    frame: Frame
    displacement: int


@dataclass
class Patch:
    """A fix-up at one copy of its location, which is counted from the start of its data."""

    position: int
    fixup: module.ResolvedFixup
    located: Located


@dataclass
class LaidData:
    """A data record at its address, with its bytes and the patches of its fix-ups, in order.

    Positions are counted from its address: `changed` are those of bytes that fix-ups change, and
    `relocated` those at which relocated words begin.
    """

    address: int
    content: bytes
    patches: list = field(default_factory=list)
    changed: set = field(default_factory=set)
    relocated: set = field(default_factory=set)

    def covers(self, address):
        """Whether one of the bytes stands at an address."""
        return self.address <= address < self.address + len(self.content)

    def add_patches(self, fixup, located, positions):
        """Adds a fix-up at each copy of its location."""
        self.changed.update(changed_positions(fixup, positions))
        for position in positions:
            self.relocated.update(relocated_words(position, fixup, located))
            self.patches.append(Patch(position, fixup, located))


class References:
    """What the references of modules come to in a layout."""

    def __init__(self, modules, layout):
        self.modules = modules
        self.layout = layout

    def meaning(self, owner, direct, faults):
        """What a segment, group or external is, or None.

        Fault 27 is an external without a public, 28 a group without members.
        """
        if direct.method == Method.SEGMENT:
            return placement.meaning_of_segment(self.modules, self.layout, owner, direct.index)
        if direct.method == Method.EXTERNAL:
            external = self.modules[owner].externals[direct.index - 1]
            found = self.layout.meaning_of_external(owner, external)
            if found is None:
                faults.append(27)
            return found
        frame = self.layout.group_frame(self.modules[owner].groups[direct.index - 1].name)
        if frame is None:
            faults.append(28)
            return None
        return placement.Meaning(Address(16 * frame.value, True), frame)

    def frame(self, owner, direct, target, frame_of_location, faults):
        """The frame that a reference names; fault 28 is a public's whose group has no members."""
        if direct.method == Method.LOCATION:
            return frame_of_location
        by_target = direct.method == Method.TARGET
        meaning = target if by_target else self.meaning(owner, direct, faults)
        if meaning is None:
            return None
        if meaning.frame is None:
            faults.append(28)
        return meaning.frame

    def locate(self, owner, reference, frame_of_location, faults):
        """What a reference comes to, or None with a fault.

        An absolute target takes its own frame in the place of a relocatable one.
        """
        target = self.meaning(owner, reference.target, faults)
        frame = self.frame(owner, reference.frame, target, frame_of_location, faults)
        if faults:
            return None
        if frame.is_relocatable and not target.address.is_relocatable:
            frame = target.frame
        return Located(target.address, frame, reference.displacement)


def is_in_frame(address, frame):
    """Whether a frame reaches an address; both are relocatable or both absolute."""
    return 0 <= address - 16 * frame.value <= HIGHEST_IN_FRAME


def segment_relative_faults(location, located):
    """Fault 29 is a target that moves under a frame that doesn't, 30 one outside its frame.

    A base has neither.
    """
    if location == Location.BASE:
        return []
    if located.target.is_relocatable and not located.frame.is_relocatable:
        return [29]
    return [] if is_in_frame(located.target.value, located.frame) else [30]


def self_relative_faults(location, located, addresses):
    """Fault 29 is a target or frame that doesn't move, 30 a target or location outside the frame,
    31 a byte that doesn't reach the target. A start has the first two, and no location."""
    target, frame = located.target, located.frame
    if not target.is_relocatable or not frame.is_relocatable:
        return [29]
    faults = []
    if not all(is_in_frame(address, frame) for address in [target.value, *addresses]):
        faults.append(30)
    if location == Location.LOW_BYTE:
        signed = signed_word(located.displacement)
        ways = [target.value - (address + 1) + signed for address in addresses]
        if not all(FARTHEST_BACK <= way <= FARTHEST_ON for way in ways):
            faults.append(31)
    return faults


def signed_word(number):
    """A word as a number that may be negative."""
    return number - 0x10000 if number >= NEGATIVE_WORDS else number


class Laying:
    """Lays the data of all modules, record after record, and keeps where relocated words are."""

    def __init__(self, modules, layout):
        self.modules = modules
        self.layout = layout
        self.references = References(modules, layout)
        self.relocations = []
        self.laid = []

    def lay_all(self):
        """Lays data in order of inputs and records."""
        for owner, each in enumerate(self.modules):
            for data in each.data:
                self.lay(owner, data)

    def lay(self, owner, data):
        """Lays a data record; fault 26 is one that covers an earlier record's relocated word."""
        part, combined = self.layout.part(owner, data.segment)
        laid = LaidData(part.start + data.offset, bytes(byte for _, byte in data.stored))
        if any(laid.covers(word) or laid.covers(word + 1) for word in self.relocations):
            raise Fault(26, owner, data.place)
        frame_of_location = Frame(combined.frame, True)
        for fixup in data.fixups:
            faults = []
            located = self.references.locate(owner, fixup.reference, frame_of_location, faults)
            positions = [at for at, (place, _) in enumerate(data.stored) if place == fixup.offset]
            if located is not None:
                faults += fixup_faults(laid, fixup, located, positions)
            refuse_smallest(faults, owner, fixup.place)
            if fixup.upper_word:
                # a word of its own in the program, as far as offsets of its segment's frame reach
                ends = [laid.address + position + 2 for position in positions]
                outside = not all(is_in_frame(end, frame_of_location) for end in ends)
                refuse_smallest([30] if outside else [], owner, fixup.place)
            laid.add_patches(fixup, located, positions)
        self.laid.append(laid)
        self.relocations += [laid.address + position for position in sorted(laid.relocated)]


def fixup_faults(laid, fixup, located, positions):
    """The faults 29 to 32 of a fix-up with its location at some positions, one for each copy."""
    faults = overlap_faults(laid, fixup, located, positions)
    if fixup.segment_relative:
        return faults + segment_relative_faults(fixup.location, located)
    addresses = [laid.address + position for position in positions]
    return faults + self_relative_faults(fixup.location, located, addresses)


def overlap_faults(laid, fixup, located, positions):
    """Fault 32 is a byte shared with an earlier fix-up, in a relocated word of one of them."""
    changed = changed_positions(fixup, positions)
    over_word = any(laid.relocated & {position - 1, position} for position in changed)
    own_words = [
        word for position in positions for word in relocated_words(position, fixup, located)]
    under_word = any(laid.changed & {word, word + 1} for word in own_words)
    return [32] if over_word or under_word else []


def changed_positions(fixup, positions):
    """The positions of all bytes that a fix-up changes."""
    return [position + byte for position in positions for byte in range(fixup.reach)]


def relocated_words(position, fixup, located):
    """Where the relocated word of a fix-up begins, if it has one: a base that moves."""
    if not fixup.location.has_base or not located.frame.is_relocatable:
        return []
    return [position + 2 if fixup.location == Location.POINTER else position]


def values(fixup, located, address, paragraph):
    """What a fix-up adds at an address when loaded at a paragraph: positions, widths and values."""
    target = located.target.at(paragraph) + located.displacement
    frame = located.frame.at(paragraph)
    width = 1 if fixup.location == Location.LOW_BYTE else 2
    if not fixup.segment_relative:
        return [(0, width, target - (address + width))]
    if fixup.location == Location.BASE:
        return [(0, 2, frame)]
    offset = (0, 4 if fixup.upper_word else width, target - 16 * frame)
    return [offset, (2, 2, frame)] if fixup.location == Location.POINTER else [offset]


def add(content, position, width, value):
    """Adds to a byte or a word; no carry leaves it."""
    held = int.from_bytes(content[position:position + width], "little")
    sum_of_both = (held + value) % 256 ** width
    content[position:position + width] = sum_of_both.to_bytes(width, "little")


def is_shared(data, fixup):
    """Whether another fix-up of the data reaches into the word of an offset."""
    word = range(fixup.offset, fixup.offset + 2)
    return any(
        place in word for other in data.fixups if other is not fixup
        for place in range(other.offset, other.offset + other.reach))


def overflows(references, owner, data, fixup):
    """Whether an offset needs more than the 16 bits that it has in a program.

    An offset without a target, or with one outside its frame, has another fault. Where another
    fix-up changes the word too, no sum tells what is in it.
    """
    combined = references.layout.part(owner, data.segment)[1]
    located = references.locate(owner, fixup.reference, Frame(combined.frame, True), [])
    if located is None or segment_relative_faults(fixup.location, located):
        return False
    held = [
        int.from_bytes(bytes(byte for _, byte in data.stored[at:at + 2]), "little")
        for at, (place, _) in enumerate(data.stored) if place == fixup.offset]
    offset = located.target.value - 16 * located.frame.value + located.displacement
    if held and is_shared(data, fixup):
        return True
    numbers = [word | fixup.upper_word << 16 for word in held]
    return any((number + offset) % 2 ** 32 > HIGHEST_IN_FRAME for number in numbers)


def start_overflows(references, owner, start):
    """Whether IP needs more than 16 bits; a start that is at fault has another fault."""
    located = references.locate(owner, start.reference, None, [])
    if located is None or self_relative_faults(Location.OFFSET, located, []):
        return False
    offset = located.target.value - 16 * located.frame.value + located.displacement
    return offset > HIGHEST_IN_FRAME


@dataclass
class Known:
    """What is known of modules that their bytes don't tell.

    `upper_words` has for each module and each of its fix-ups that had 32 bits the upper word of the
    number there, and `meanings` has of each the externals that mean others of it.
    """

    upper_words: list = ()
    meanings: list = ()
    packs_far_data: bool = False


def read(contents, known):
    """The modules of some inputs, with what is known of them.

    Their far data is put in a group where that is asked for, and where it fits in a frame.
    """
    modules = [module.read(content, owner) for owner, content in enumerate(contents)]
    for each, words in zip(modules, known.upper_words):
        fixups = [fixup for data in each.data for fixup in data.fixups]
        for fixup, word in zip(fixups, words):
            fixup.upper_word = word
    for each, meanings in zip(modules, known.meanings):
        each.redirect_externals(meanings)
    if known.packs_far_data and far_data.fits(modules):
        for each in modules:
            far_data.put_in_group(each)
    return modules


def check_sums(contents, known, start_was_wide, ignores_case):
    """Fault 61 is an offset or a start that had 32 bits in its module and needs more than 16.

    Of two starts neither is looked at.
    """
    modules = read(contents, known)
    references = References(modules, placement.place(modules, ignores_case))
    for owner, each in enumerate(modules):
        for data, fixup in [(data, fixup) for data in each.data for fixup in data.fixups]:
            was_wide = fixup.upper_word is not None
            if was_wide and overflows(references, owner, data, fixup):
                raise Fault(61, owner, fixup.place)
    starts = [(owner, each.start) for owner, each in enumerate(modules) if each.start is not None]
    if start_was_wide and len(starts) == 1 and start_overflows(references, *starts[0]):
        owner, start = starts[0]
        raise Fault(61, owner, start.place)


def find_start(modules, references):
    """CS and IP: those of the only start, else 0. Fault 33 is a second start."""
    starts = [
        (owner, each.start) for owner, each in enumerate(modules) if each.start is not None]
    if not starts:
        return 0, 0
    if len(starts) > 1:
        owner, start = starts[1]
        raise Fault(33, owner, start.place)
    owner, start = starts[0]
    faults = []
    located = references.locate(owner, start.reference, None, faults)
    if located is not None:
        faults += self_relative_faults(Location.OFFSET, located, [])
    refuse_smallest(faults, owner, start.place)
    instruction = located.target.value + located.displacement - 16 * located.frame.value
    return located.frame.value, instruction % 65536


def find_stack(layout):
    """SS and SP: the frame and the end of the first stack segment, else 0."""
    for each in layout.combined:
        if each.kind == "stack":
            return each.frame, (each.end - 16 * each.frame) % 65536
    return 0, 0


@dataclass
class Program:
    """A program that was linked, and the modules and layout that it came from."""

    modules: list
    layout: placement.Layout
    laid: list
    relocations: list
    registers: Registers

    def written(self):
        """How many bytes of the program its file has: up to the last that data covers."""
        ends = [laid.address + len(laid.content) for laid in self.laid if laid.content]
        return max(ends, default=0)

    def image(self, paragraph):
        """The bytes of the written part at a paragraph.

        Later data wins, and what no data covers is 0.
        """
        image = bytearray(self.written())
        for laid in self.laid:
            content = bytearray(laid.content)
            for patch in laid.patches:
                address = 16 * paragraph + laid.address + patch.position
                for position, width, value in values(
                        patch.fixup, patch.located, address, paragraph):
                    add(content, patch.position + position, width, value)
            if content:
                image[laid.address:laid.address + len(content)] = content
        return bytes(image)


def link(contents, ignores_case, known=Known()):
    """The program of some inputs, or the first fault.

    All are read, then placed; then come the data, the start, and the number of relocations.
    """
    modules = read(contents, known)
    layout = placement.place(modules, ignores_case)
    laying = Laying(modules, layout)
    laying.lay_all()
    registers = Registers(*find_start(modules, laying.references), *find_stack(layout))
    if len(laying.relocations) > MOST_RELOCATIONS:
        raise Fault(34)
    return Program(modules, layout, laying.laid, sorted(laying.relocations), registers)
