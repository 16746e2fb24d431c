"""Modules as they are handed to the link: of records that it takes.

A lowered module has a record for each record. Debugging segments have nothing in it, communal
variables are externals, names by indexes are names, and numbers of 32 bits have 16. What is no
record, and what stands behind the record that ends the module, stays as it is.
"""

from dataclasses import dataclass

from model.communal import COMMUNAL_VARIABLES, OtherType, extent
from model.faults import Fault
from model.libraries import COMMENT, FRONT_OF_RECORD, whole_frames
from model.names import ALIAS, LOCAL_NAME_LIST, NAME_LIST, Ended, Entries
from model.records import LONGEST_BODY, Spelling

# of each of these types the second one has values of 32 bits
SEGMENTS, DATA = (0x98, 0x99), (0xA0, 0xA1, 0xA2, 0xA3)
REPEATED = (0xA2, 0xA3)
FIXUPS, COMMUNAL_DATA = (0x9C, 0x9D), (0xC2, 0xC3)
# line numbers of COMDATs, and the bit by which they go on with those before
COMMUNAL_LINES, LINES_CONTINUED = (0xC4, 0xC5), 1
PUBLICS_32, LINES_32, END_32 = (0x91, 0xB7), 0x95, 0x8B
# public names, and those that are local
PUBLICS = (0x90, 0x91, 0xB6, 0xB7)
# local communal variables, and local externals, which they become
LOCAL_COMMUNALS, LOCAL_EXTERNALS = 0xB8, 0xB4
COMMUNAL_EXTERNALS, EXTERNALS = 0xBC, 0x8C
# a header and a list of names by the types of others that say the same
SAME = {0x82: 0x80, LOCAL_NAME_LIST: NAME_LIST, 0xB5: LOCAL_EXTERNALS}
DEBUG_CLASSES = (b"DEBSYM", b"DEBTYP", b"DWARF")
# the fields of the byte that begins a SEGDEF: alignment, whether it is as long as its offsets reach,
# and whether it has 32 bits
ALIGNMENT, BIG, USE_32 = 0xE0, 0x02, 0x01
BYTE_ALIGNED = 0x20
# the bit of the byte that begins a MODEND by which it has a start
HAS_START = 0x40
# locations: an offset of 16 bits, and those of 32; the last place of one, and the upper word of a
# negative number
OFFSET, OFFSETS_32 = 1, (9, 13)
LAST_PLACE, NEGATIVE = 1023, b"\xFF\xFF"
# the class of comments of Easy OMF, and class and kind of those that import a name
EASY_OMF, IMPORT = b"\xAA", b"\xA0\x01"
# the method of a frame or a target that is a group, and the group of all memory from 0 on
GROUP_METHOD, FLAT, GROUPS, ENDS = 1, b"FLAT", 0x9A, (0x8A, 0x8B)
# a comment of a class that means nothing
NOTHING = bytes([0x00, 0xDA])
FRAME = 65_536
# the faults
DATA_TYPE, ABOVE_16_BITS, LOCATION, BODY = 48, 49, 50, 51
IS_EASY_OMF, IS_IMPORTED, IS_FLAT = 63, 64, 65


class Obstacle(Exception):
    """Why a record can't be lowered: the number of a fault."""

    def __init__(self, number):
        super().__init__(number)
        self.number = number


@dataclass
class Definition:
    """A SEGDEF: its first byte, where it stands if it is absolute, its length, and its indexes.

    Behind the name are the indexes of class and overlay.
    """

    first: int
    standing: bytes
    length: bytes
    name: bytes
    behind_name: bytes
    class_index: int


@dataclass
class Data:
    """The last data: whether it is repeated, the bytes of its counts, and what it stores."""

    is_repeated: bool = False
    width: int = 2
    stored: bytes = b""
    # whether numbers of 32 bits in it may be negative
    has_negative: bool = True


def width_of(kind):
    """The bytes of a number in a record of a type."""
    return 4 if kind % 2 else 2


def narrowed(number):
    """The two bytes of a number that has four; of a shorter one all."""
    if any(number[2:]):
        raise Obstacle(ABOVE_16_BITS)
    return number[:2]


def definition(kind, body):
    entries = Entries(body)
    first = entries.byte()
    standing = entries.bytes(0 if first & ALIGNMENT else 3)
    length = entries.bytes(width_of(kind))
    at_name = entries.place
    entries.index()
    at_class = entries.place
    class_index = entries.index()
    return Definition(
        first, standing, length, body[at_name:at_class], body[at_class:], class_index)


def take_index(entries, method, with_index, without):
    """An index, where the method has one; there is no other method."""
    if method in with_index:
        entries.index()
    elif method not in without:
        raise Obstacle(BODY)


def take_frame(entries, method):
    take_index(entries, method, (0, 1, 2), (4, 5))


def take_target(entries, method):
    take_index(entries, method % 4, (0, 1, 2), ())


def thread(entries, first):
    """The bytes of a subrecord that sets a thread."""
    place = entries.place - 1
    if first & 0x40:
        take_frame(entries, first >> 2 & 7)
    else:
        take_target(entries, first >> 2)
    return entries.body[place:entries.place]


def reference(entries, width):
    """The bytes of a reference, whose displacement has a width, with one of two bytes."""
    place, fix_data = entries.place, entries.byte()
    if not fix_data & 0x80:
        take_frame(entries, fix_data >> 4 & 7)
    if not fix_data & 8:
        take_target(entries, fix_data)
    front = entries.body[place:entries.place]
    return front, b"" if fix_data & 4 else entries.bytes(width)


def names_of_groups(entries, width):
    """The indexes of groups that the subrecords of a body name, as far as these are whole."""
    try:
        while entries.has_more():
            first = entries.byte()
            if first & 0x80:
                entries.byte()
                yield from groups_of_reference(entries, width)
            else:
                place, _ = entries.place, thread(entries, first)
                is_group = first >> 2 & (7 if first & 0x40 else 3) == GROUP_METHOD
                yield from [Entries(entries.body[place:]).index()] if is_group else []
    except (Ended, Obstacle):
        pass


def groups_of_reference(entries, width):
    """The indexes of groups that are the frame or the target of a reference, which is passed."""
    place, found = entries.place, []
    reference(entries, width)
    fields = Entries(entries.body[place:])
    fix_data = fields.byte()
    if not fix_data & 0x80 and fix_data >> 4 & 7 in (0, 1, 2):
        index = fields.index()
        found += [index] if fix_data >> 4 & 7 == GROUP_METHOD else []
    if not fix_data & 8 and fix_data & 3 == GROUP_METHOD:
        found.append(fields.index())
    return found


def groups_of_start(body, width):
    """The indexes of groups that a start names, as far as it is whole."""
    entries = Entries(body)
    entries.byte()
    try:
        return groups_of_reference(entries, width)
    except (Ended, Obstacle):
        return []


def base_groups(body):
    """The index of the group that is the base of public names, as far as it is whole."""
    try:
        return [Entries(body).index()]
    except Ended:
        return []


def location_of(first):
    """The location of a fix-up with this first byte."""
    return first >> 2 & 15


def wide_fixups(body, width):
    """Whether each of the fix-ups, whose displacements have a width, has 32 bits.

    Only those before what isn't a subrecord are looked at.
    """
    entries = Entries(body)
    try:
        while entries.has_more():
            first = entries.byte()
            if not first & 0x80:
                thread(entries, first)
                continue
            entries.byte()
            reference(entries, width)
            yield location_of(first) in OFFSETS_32
    except (Ended, Obstacle):
        pass


def blocks(data):
    """The places of contents in repeated data, with their bytes.

    Beside each stands how many bytes go before it where counts have two.
    """
    entries, gone = Entries(data.stored), 0
    while entries.has_more():
        entries.bytes(data.width)
        gone += data.width - 2
        if entries.bytes(2) == b"\0\0":
            content = entries.name()
            yield entries.place - len(content), content, gone


def located(data, place):
    """Where a place of data is where its numbers have two bytes, and what is stored from it on."""
    if not data.is_repeated:
        return place, data.stored[place:]
    try:
        for begin, content, gone in blocks(data):
            if begin <= place < begin + len(content):
                return place - gone, content[place - begin:]
    except Ended:
        pass
    raise Obstacle(LOCATION)


class Lowering:
    """Lowers one record of a module after the other."""

    def __init__(self, keeps_debug, means):
        # what a name means
        self.means = means
        self.keeps_debug = keeps_debug
        self.names = []
        # the name of each group
        self.groups = []
        # of each segment, whether it is kept out of the program
        self.kept_out = []
        # of each fix-up that isn't, the upper word of the number there, if it has 32 bits
        self.upper_words = []
        # whether that holds of the segment of the data that came last, and that data
        self.drops_fixups = False
        self.data = Data()

    def lower(self, kind, body):
        """The type and the body of a record, or of what stands in its place."""
        if kind in SEGMENTS:
            return self.lower_segment(kind, body)
        if kind in DATA:
            return self.lower_data(kind, body)
        if kind in FIXUPS:
            return self.lower_fixups(kind, body)
        if kind in COMMUNAL_DATA:
            self.drops_fixups, self.data = False, Data()
        if kind in (NAME_LIST, LOCAL_NAME_LIST):
            self.add_names(Entries(body))
        if kind == GROUPS:
            self.add_group(Entries(body))
        if kind in PUBLICS:
            self.refuse_flat(base_groups(body))
        if kind in ENDS and body[:1] and body[0] & HAS_START:
            self.refuse_flat(groups_of_start(body, width_of(kind)))
        try:
            return self.lower_other(kind, body)
        except Ended:
            raise Obstacle(BODY) from None

    def lower_other(self, kind, body):
        entries = Entries(body)
        if kind == ALIAS:
            while entries.has_more():
                entries.name(), entries.name()
            return COMMENT, NOTHING
        if kind in COMMUNAL_LINES:
            return self.check_communal_lines(entries, width_of(kind))
        if kind == COMMENT:
            self.look_at_comment(body)
        if kind == EXTERNALS and self.has_alias(Entries(body)):
            return EXTERNALS, self.each(entries, self.external)
        if kind == COMMUNAL_VARIABLES:
            return EXTERNALS, self.each(entries, self.communal)
        if kind == LOCAL_COMMUNALS:
            return LOCAL_EXTERNALS, self.each(entries, self.local_communal)
        if kind == COMMUNAL_EXTERNALS:
            return EXTERNALS, self.each(entries, self.named)
        if kind in PUBLICS_32:
            entries.base()
            front = body[:entries.place]
            return kind - 1, front + self.each(entries, self.public)
        if kind == LINES_32:
            entries.index()
            entries.index()
            front = body[:entries.place]
            return kind - 1, front + self.each(entries, self.line)
        if kind == END_32:
            return kind - 1, self.end(entries)
        return SAME.get(kind, kind), body

    def check_communal_lines(self, entries, width):
        """Line numbers of a COMDAT say nothing, where they are some."""
        if entries.byte() > LINES_CONTINUED:
            raise Obstacle(BODY)
        entries.index()
        while entries.has_more():
            entries.bytes(2 + width)
        return COMMENT, NOTHING

    def look_at_comment(self, body):
        """Comments that ask for what no program for DOS has."""
        if body[1:2] == EASY_OMF:
            raise Obstacle(IS_EASY_OMF)
        if body[1:3] == IMPORT:
            raise Obstacle(IS_IMPORTED)

    def each(self, entries, lowered_entry):
        """All entries up to the end of a body."""
        found = b""
        while entries.has_more():
            found += lowered_entry(entries)
        return found

    def communal(self, entries):
        """What a name means, and a type index; what its variable is isn't told here."""
        found = self.external(entries)
        self.skip_extent(entries)
        return found

    def local_communal(self, entries):
        """A name and a type index, as they stand."""
        place = entries.place
        entries.name()
        entries.index()
        found = entries.body[place:entries.place]
        self.skip_extent(entries)
        return found

    def skip_extent(self, entries):
        try:
            extent(entries)
        except OtherType:
            raise Obstacle(DATA_TYPE) from None

    def named(self, entries):
        """The name of an index, and a type index."""
        index, place = entries.index(), entries.place
        entries.index()
        if not 1 <= index <= len(self.names):
            raise Obstacle(BODY)
        return self.renamed(self.names[index - 1]) + entries.body[place:entries.place]

    def renamed(self, name):
        """What a name means, behind its length."""
        means = self.means(name)
        return bytes([len(means)]) + means

    def external(self, entries):
        """What a name means, and a type index."""
        name, place = entries.name(), entries.place
        entries.index()
        return self.renamed(name) + entries.body[place:entries.place]

    def has_alias(self, entries):
        """Whether an external means another name, before what isn't one."""
        try:
            while entries.has_more():
                name = entries.name()
                entries.index()
                if self.means(name) != name:
                    return True
        except Ended:
            pass
        return False

    def public(self, entries):
        place = entries.place
        entries.name()
        name = entries.body[place:entries.place]
        offset = narrowed(entries.bytes(4))
        place = entries.place
        entries.index()
        return name + offset + entries.body[place:entries.place]

    def line(self, entries):
        return entries.bytes(2) + narrowed(entries.bytes(4))

    def end(self, entries):
        """The end of a module, with its start where it has one."""
        attribute = entries.byte()
        if not attribute & 0x40:
            return entries.body
        front, displacement = reference(entries, 4)
        return bytes([attribute]) + front + narrowed(displacement) + entries.body[entries.place:]

    def add_names(self, entries):
        try:
            while entries.has_more():
                self.names.append(entries.name())
        except Ended:
            pass

    def add_group(self, entries):
        try:
            index = entries.index()
        except Ended:
            index = 0
        self.groups.append(self.names[index - 1] if 1 <= index <= len(self.names) else b"")

    def refuse_flat(self, indexes):
        """No frame is that of the group FLAT, and nothing is found from there on."""
        for index in indexes:
            if 1 <= index <= len(self.groups) and self.groups[index - 1] == FLAT:
                raise Obstacle(IS_FLAT)

    def lower_segment(self, kind, body):
        """A segment of a class for debuggers has nothing; another one has a length of 16 bits."""
        try:
            found = definition(kind, body)
        except Ended:
            if kind == SEGMENTS[1]:
                raise Obstacle(BODY) from None
            self.kept_out.append(False)
            return kind, body
        index = found.class_index
        class_name = self.names[index - 1] if 1 <= index <= len(self.names) else b""
        self.kept_out.append(not self.keeps_debug and class_name in DEBUG_CLASSES)
        if self.kept_out[-1]:
            return SEGMENTS[0], bytes([BYTE_ALIGNED, 0, 0]) + found.name + found.behind_name
        first, length = found.first, found.length
        if kind == SEGMENTS[1]:
            first, length = self.narrowed_length(first, length)
        front = bytes([first & ~USE_32]) + found.standing + length
        return SEGMENTS[0], front + found.name + found.behind_name

    def narrowed_length(self, first, length):
        """The first byte and the length of a segment of 32 bits in two bytes.

        With the bit of a whole segment it is as long as offsets of 32 bits reach.
        """
        if first & BIG:
            raise Obstacle(ABOVE_16_BITS)
        if int.from_bytes(length, "little") == FRAME:
            return first | BIG, b"\0\0"
        return first, narrowed(length)

    def lower_data(self, kind, body):
        """Data, without repeat counts and an offset of 32 bits; none of what is kept out."""
        entries = Entries(body)
        self.drops_fixups, self.data = False, Data()
        try:
            index = entries.index()
            front = body[:entries.place]
            self.drops_fixups = 1 <= index <= len(self.kept_out) and self.kept_out[index - 1]
            offset = entries.bytes(width_of(kind))
            self.data = Data(kind in REPEATED, width_of(kind), body[entries.place:])
        except Ended:
            if self.drops_fixups:
                return COMMENT, NOTHING
            if kind % 2:
                raise Obstacle(BODY) from None
            return kind, body
        if self.drops_fixups:
            return COMMENT, NOTHING
        if kind % 2 == 0:
            return kind, body
        return kind - 1, front + narrowed(offset) + self.stored(kind, entries)

    def stored(self, kind, entries):
        if kind not in REPEATED:
            return entries.body[entries.place:]
        try:
            return self.each(entries, self.block)
        except Ended:
            raise Obstacle(BODY) from None

    def block(self, entries):
        """The counts of a block, and its content where it has no blocks."""
        repeat, place = narrowed(entries.bytes(4)), entries.place
        if entries.bytes(2) == b"\0\0":
            entries.name()
        return repeat + entries.body[place:entries.place]

    def lower_fixups(self, kind, body):
        """Of what is kept out, threads alone, since later fix-ups may use them."""
        if not self.drops_fixups:
            self.refuse_flat(names_of_groups(Entries(body), width_of(kind)))
        wide = [] if self.drops_fixups else list(wide_fixups(body, width_of(kind)))
        is_wide = kind % 2 == 1 or self.data.width == 4 or any(wide)
        if not self.drops_fixups and not is_wide:
            self.upper_words += [None for _ in wide]
            return kind, body
        try:
            subrecords = Entries(body)
            width = width_of(kind)
            return FIXUPS[0], self.each(subrecords, lambda _: self.subrecord(subrecords, width))
        except Ended:
            raise Obstacle(BODY) from None

    def subrecord(self, entries, width):
        first = entries.byte()
        if not first & 0x80:
            return thread(entries, first)
        low = entries.byte()
        front, displacement = reference(entries, width)
        if self.drops_fixups:
            return b""
        return self.located(first, low) + front + narrowed(displacement)

    def located(self, first, low):
        """The two bytes of a fix-up that tell its location and its place."""
        location, place, upper_word = location_of(first), (first & 3) << 8 | low, None
        if location in OFFSETS_32:
            # it has to be an offset in a segment
            if not first & 0x40:
                raise Obstacle(LOCATION)
            place, stored = located(self.data, place)
            if len(stored) < 4:
                raise Obstacle(LOCATION)
            upper_word = self.upper_word(place, stored)
            location = OFFSET
        elif self.data.is_repeated and self.data.width == 4:
            place, _ = located(self.data, place)
        self.upper_words.append(upper_word)
        return bytes([first & 0xC0 | location << 2 | place >> 8, place & 0xFF])

    def upper_word(self, place, stored):
        """That of a number at a place: 0, or of a negative one, where no copies are made of it, it is in no
        COMDAT and a fix-up can stand at its upper word."""
        is_negative = stored[2:4] == NEGATIVE
        may_be = self.data.has_negative and not self.data.is_repeated
        if is_negative and may_be and place + 2 <= LAST_PLACE:
            return 0xFFFF
        narrowed(stored[:4])
        return 0


def itself(name):
    """What a name means where none means another one."""
    return name


def names_in_parts(body):
    """The entries of an EXTDEF, in as many bodies as a record can have: names that others mean may be longer."""
    entries, begin = Entries(body), 0
    while entries.has_more():
        place = entries.place
        entries.name(), entries.index()
        if entries.place - begin > LONGEST_BODY:
            yield body[begin:place]
            begin = place
    yield body[begin:]


def framed(kind, body):
    """The bytes of a record, or of several that say the same."""
    bodies = names_in_parts(body) if len(body) > LONGEST_BODY else [body]
    return b"".join(Spelling().framed(kind, each) for each in bodies)


def lowered(content, keeps_debug, owner=None, means=itself):
    """The bytes of a module that is lowered, or the fault of its first record that can't be."""
    lowering, found, place = Lowering(keeps_debug, means), [], 0
    for frame in whole_frames(content):
        try:
            kind, body = lowering.lower(frame.kind, frame.body)
        except Obstacle as obstacle:
            raise Fault(obstacle.number, owner, place) from None
        if (kind, body) == (frame.kind, frame.body):
            found.append(content[place:frame.behind])
        else:
            found.append(framed(kind, body))
        place = frame.behind
    return b"".join([*found, content[place:]])


def upper_words(content, keeps_debug):
    """Of each fix-up of a module as it is lowered, if it had 32 bits, the upper word of the number
    there."""
    lowering = Lowering(keeps_debug, itself)
    for frame in whole_frames(content):
        lowering.lower(frame.kind, frame.body)
    return lowering.upper_words


def has_wide_start(content):
    """Whether a module has a start of 32 bits."""
    return any(
        frame.kind == END_32 and frame.body[:1] and frame.body[0] & HAS_START
        for frame in whole_frames(content))


def is_wide_segment(own, linked):
    """Whether a SEGDEF of 32 bits, which isn't absolute, has bytes as it is linked."""
    first = own.body[0] if own.body else 0
    is_wide = own.kind in SEGMENTS and first & USE_32 != 0 and first & ALIGNMENT != 0
    return is_wide and linked.body[2:] != b"" and (
        linked.body[0] & BIG != 0 or any(linked.body[1:3]))


def paired(content, lowered_content):
    """Each record of a module, with those of the lowered module that say the same."""
    linked = list(whole_frames(lowered_content))
    for own in whole_frames(content):
        # a COMDAT that is taken is a segment, a name and data
        count = 3 if own.kind in COMMUNAL_DATA and linked[:1] and linked[0].kind == SEGMENTS[0] else 1
        while count < len(linked) and goes_on(*linked[count - 1:count + 1]):
            count += 1
        yield own, linked[:count]
        linked = linked[count:]


def has_wide_segments(content, lowered_content):
    """Whether a module has segments of 32 bits that are linked as ones of 16."""
    if content == lowered_content:
        return False
    return any(is_wide_segment(own, linked[0]) for own, linked in paired(content, lowered_content))


def record_places(content):
    """Where the records of a module begin, and what stands behind the last."""
    place = 0
    while place + FRONT_OF_RECORD <= len(content):
        yield place
        place += FRONT_OF_RECORD + int.from_bytes(content[place + 1:place + 3], "little")
    yield place


def own_place(content, lowered_content, place):
    """The place in a module of a record that has a place in the module as it is linked.

    Records that were put in front of the end have the place of that.
    """
    if content == lowered_content:
        return place
    number, own = list(record_places(lowered_content)).index(place), 0
    is_record = number < len(list(whole_frames(lowered_content)))
    for _, linked in paired(content, lowered_content):
        if number < len(linked):
            break
        number, own = number - len(linked), own + 1
    return list(record_places(content))[min(own, len(list(whole_frames(content))) - is_record)]


def goes_on(frame, behind):
    """Whether external names that were too long for one record go on in the next."""
    return frame.kind == behind.kind == EXTERNALS and len(frame.body) + len(behind.body) > LONGEST_BODY
