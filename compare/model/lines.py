"""Lines of LINK and of TLINK: `objects, program, map, libraries, definitions;`, options anywhere.

A line is a text, in which each response file stands in the place of its name, and a front of it: the
environment's LINK, or what TLINK.CFG says. Its words are read one by one, those of the front first, and
what they say is a `Said`; the first that can't be followed is a LineFault.
"""

import re
from dataclasses import dataclass, field
from typing import Optional

from model.line_options import FAULT, OPTION, OVERLAYS, Wrong, has_free_value, parts, takes_folders

LINK, TLINK = "link", "tlink"
NO_OBJECT, SECOND_NAME, TOO_MANY_FIELDS = "NoObject", "SecondName", "TooManyFields"
BEHIND_END, UNCLOSED, RESPONSE = "BehindEnd", "UnclosedQuote", "Response"
DEVICE, TWO_WAYS, NO_OPTION = "Device", "TwoWays", "NoOption"
OBJECTS, PROGRAM, MAP, LIBRARIES, DEFINED, ENDED = range(6)
# blanks, and what else parts words
BLANKS, MARKS = " \t\f\r", "+,;\n"
NO_FILE = "nul"
# the console: a map there is written to standard output
CONSOLE, STANDARD_OUTPUT = "con", "-"
# what can't be written
DEVICES = re.compile("prn|aux|(?:lpt|com)[1-9]")
# what parts folders of DOS, and stands behind a drive there
OF_DOS = re.compile(r"[\\:]")


class LineFault(Exception):
    """The first word at fault: how many bytes of the front and the text stand before it, itself, and why."""

    def __init__(self, place, word, kind):
        super().__init__(place, word, kind)
        self.place = place
        self.word = word
        self.kind = kind


@dataclass
class Said:
    """What a line says."""

    # pairs of a name and whether it is a library
    inputs: list = field(default_factory=list)
    out: Optional[str] = None
    map: Optional[str] = None
    definitions: Optional[str] = None
    folders: list = field(default_factory=list)
    object_folders: list = field(default_factory=list)
    # libraries that aren't searched where only modules name them
    left_out: list = field(default_factory=list)
    # pairs of a place and what has no effect there
    warnings: list = field(default_factory=list)
    case_counts: bool = False
    has_default_libraries: bool = True
    has_no_map: bool = False
    # whether a map is made without a name of it
    makes_map: bool = False
    has_publics: bool = False
    has_lines: bool = False
    is_detailed: bool = False
    writes_all: bool = False
    is_verbose: bool = False
    # "exe" or "com", where an option says it
    form: Optional[str] = None
    # "dosseg" or "dosseg-nonulls"
    order: Optional[str] = None
    stack: Optional[int] = None
    most_extra: Optional[int] = None


@dataclass
class Token:
    """A word, what stands between quotes, or a mark; its place is in characters."""

    kind: str
    text: str
    place: int


def text_of_file(text):
    """What stands in the place of a response file's name: its lines, without the end of the last one."""
    return text.removesuffix("\n")


def tokens(language, text):
    """The tokens of a text, blanks left out."""
    place = 0
    while place < len(text):
        byte = text[place]
        if byte in BLANKS:
            place += 1
        elif byte in MARKS:
            yield Token(byte, byte, place)
            place += 1
        elif byte == '"':
            end = text.find('"', place + 1)
            if end < 0:
                yield Token("unclosed", byte, place)
                return
            yield Token("quoted", text[place + 1:end], place)
            place = end + 1
        else:
            word = word_at(language, text, place)
            yield Token("word", word, place)
            place += len(word)


def word_at(language, text, place):
    """The word that begins at a place; within folders of an option `;` is a part of it, and a folder between quotes."""
    end = place + 1
    while end < len(text) and text[end] not in BLANKS + "+,\n":
        if text[end] == ";" and not in_folders(language, text[place:end]):
            break
        if text[end] == '"':
            close = text.find('"', end + 1)
            if close < 0 or not begins_folder(language, text[place:end]):
                break
            end = close
        end += 1
    return text[place:end]


def begins_folder(language, word):
    """Whether a folder begins behind a word that is begun."""
    return in_folders(language, word) and re.search("(?:;|(?:/|^-)[Lj])$", word) is not None


def in_folders(language, word):
    """Whether a word that is begun is options of which the last one takes folders."""
    options = word[1:].split("/")
    if word[:1] not in ("/", "-") or not any(takes_folders(language, each) for each in options):
        return False
    first = next(at for at, each in enumerate(options) if takes_folders(language, each))
    return all(is_option(language, each) for each in options[:first])


def is_option(language, text):
    return OPTION[language](text) is not None


def touches(language, text):
    """Whether it is an option that may stand behind a name in one word."""
    return is_option(language, text) and not has_free_value(language, text)


def cut(language, word):
    """A word's name, or None, and its options.

    `/` begins an option anywhere, and `-` at a word's start; but it parts folders too. So behind a name an option
    of any value is a part of that.
    """
    if re.match(r"\.{1,2}/", word):
        return word, []
    if word[0] in "/-":
        return cut_begun(language, word)
    name, *rest = word.split("/")
    options = []
    while rest and touches(language, rest[-1]):
        options.insert(0, rest.pop())
    return "/".join([name, *rest]), options


def cut_begun(language, word):
    """One that begins as an option: options, an option of folders that have `/`, or a path.

    Folders that may be options as well are a fault, unless the signs of DOS say that `/` parts no folders there.
    """
    options = parts(word[1:], "/")
    if all(is_option(language, each) for each in options):
        if len(options) > 1 and takes_folders(language, word[1:]) and not OF_DOS.search(word):
            raise Wrong(TWO_WAYS)
        return None, options
    if takes_folders(language, word[1:]) and is_option(language, word[1:]):
        return None, [word[1:]]
    if word[0] == "/" and len(options) > 1:
        return word, []
    raise Wrong(FAULT[language](word[1:]))


def base(name):
    """A name without folders and extensions, and without the colon behind a device, in small letters."""
    return re.split(r"[/\\:]", name.removesuffix(":"))[-1].partition(".")[0].lower()


def refuse_device(name):
    """A device that can't be written is refused."""
    if DEVICES.fullmatch(base(name)):
        raise Wrong(DEVICE)


class Reader:
    """Reads a line."""

    def __init__(self, language, text, front):
        self.language = language
        self.text = text
        self.front = front
        # how many bytes of both stand before the word that is read
        self.place = 0
        self.said = Said(makes_map=language == TLINK)
        self.field = OBJECTS
        # whether `+` or a comma stood last, so that a line goes on
        self.goes_on = False

    def read(self):
        """What the line says; it has to name an object."""
        length = len(self.front.encode())
        self.read_part(self.front, 0, self.read_configured if self.language == TLINK else self.read_token)
        self.read_part(self.text, length, self.read_token)
        if not any(not is_library for _, is_library in self.said.inputs):
            raise LineFault(length + len(self.text.encode()), "", NO_OBJECT)
        return self.said

    def read_part(self, text, start, read_one):
        """The tokens of a part of the line, before which so many bytes stand."""
        for token in tokens(self.language, text):
            self.place = start + len(text[:token.place].encode())
            try:
                read_one(token)
            except Wrong as wrong:
                raise LineFault(self.place, token.text, wrong.kind) from None

    def read_configured(self, token):
        """One of TLINK.CFG, where nothing stands but options; a `;` says nothing there."""
        if token.kind in (";", "\n"):
            return
        name, options = cut(self.language, token.text) if token.kind == "word" else (token.text, [])
        if name is not None:
            raise Wrong(NO_OPTION)
        self.read_options(options)

    def read_token(self, token):
        if self.field == ENDED:
            if token.kind in ("word", "quoted", "unclosed", ","):
                raise Wrong(BEHIND_END)
        elif token.kind == "+":
            self.goes_on = True
        elif token.kind == "\n":
            self.end_line()
        elif token.kind == ",":
            self.end_field()
        elif token.kind == ";":
            self.field = ENDED
        elif token.kind == "unclosed":
            raise Wrong(UNCLOSED)
        else:
            self.read_word(token)

    def end_line(self):
        """The next comma; but nothing behind `+` or a comma, or while no object is named."""
        if not self.goes_on and (self.field != OBJECTS or self.said.inputs):
            self.field = min(self.field + 1, DEFINED)
        self.goes_on = False

    def end_field(self):
        """A map that is reached by a comma is made."""
        if self.field == DEFINED:
            raise Wrong(TOO_MANY_FIELDS)
        self.field += 1
        self.goes_on = True
        self.said.makes_map |= self.field == MAP

    def read_word(self, token):
        """A name, options, or a name and the options that touch it."""
        if token.kind == "quoted":
            return self.read_name(token.text)
        name, options = cut(self.language, token.text)
        if name is not None:
            if name.startswith("@"):
                raise Wrong(RESPONSE)
            self.read_name(name)
        self.read_options(options)

    def read_options(self, options):
        for option in options:
            ask, value = OPTION[self.language](option)
            ask(self.said, value, self.place)

    def read_name(self, name):
        self.goes_on = False
        [self.read_object, self.read_program, self.read_map, self.read_library,
         self.read_definitions][self.field](name)

    def read_object(self, name):
        if name.startswith("("):
            raise Wrong(OVERLAYS)
        self.said.inputs.append((name, False))

    def read_program(self, name):
        if self.said.out is not None:
            raise Wrong(SECOND_NAME)
        refuse_device(name)
        if base(name) in (NO_FILE, CONSOLE):
            raise Wrong(DEVICE)
        self.said.out = name

    def read_map(self, name):
        if self.said.map is not None:
            raise Wrong(SECOND_NAME)
        refuse_device(name)
        self.said.map = name

    def read_library(self, name):
        """A library, or a folder of them."""
        if base(name) == NO_FILE:
            return
        if name.endswith(("/", "\\", ":")):
            self.said.folders.append(name)
        else:
            self.said.inputs.append((name, True))

    def read_definitions(self, name):
        if self.said.definitions is not None:
            raise Wrong(SECOND_NAME)
        refuse_device(name)
        if base(name) == CONSOLE:
            raise Wrong(DEVICE)
        self.said.definitions = name


def read(language, text, front=""):
    """What a line of a language says behind its front, or a LineFault."""
    return Reader(language, text, front).read()


def definitions_of(said):
    """The name of the file of definitions, or None."""
    return None if said.definitions is None or base(said.definitions) == NO_FILE else said.definitions


def map_of(said):
    """The map's name, "" for one beside the program, or None for no map."""
    if said.has_no_map or said.map is not None and base(said.map) == NO_FILE:
        return None
    if said.map is not None:
        return STANDARD_OUTPUT if base(said.map) == CONSOLE else said.map
    return "" if said.makes_map or said.has_publics or said.has_lines else None
