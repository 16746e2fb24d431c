"""What `doslink` is asked for: a job, from words or from the directives of a response file.

Directives are those that compilers write for `wlink`. One stands behind the other, and a line's end is a blank.
"""

import itertools
import re
from dataclasses import dataclass, field
from typing import Optional

from model import ordering

# what parts words
SPACE = " \t\n\f\r"
# a word, or between quotes
WORD = re.compile(rf'[{SPACE}]*(?:"([^"]*)"|([^"{SPACE}][^{SPACE}]*))')
# a number, and its unit
NUMBER = re.compile(r"(?:0[xX]([0-9a-fA-F]+)|([0-9]+))([kKmM]?)")
LONGEST_STACK = 65_536
# the bytes of a name in a module, at most
LONGEST_NAME = 255
# how many response files a line has at most
MOST_FILES = 200
# what is put behind the path of a file of directives, and what such a file ends at
ENDING, END = ".lnk", b"\x1a"
TOO_MANY = f"a line has at most {MOST_FILES} response files"
# and how deep they may name one another
MOST_DEEP = 8
TOO_DEEP = f"response files name one another more than {MOST_DEEP} deep"
# the end of the memory that a real-mode address reaches
MEMORY_END = 0x100000
# a name between quotes of either kind, a word, or a comma, an equals sign or a brace
TOKEN = re.compile(
    rf"""[{SPACE}]*(?:("[^"]*"|'[^']*')|([,={{}}])|([^"'{SPACE},={{}}][^{SPACE},={{}}]*))""")


@dataclass
class Input:
    """A file that is named, or a library, which is looked up in folders."""

    name: str
    is_library: bool = False


@dataclass
class Stack:
    """How many bytes the stack is to have, and whether one that has more is cut."""

    length: int
    cuts: bool


@dataclass
class Form:
    """What the program's file is: "exe", "com", "start", "bin" or "sys"; of a raw image its paragraph and
    the address of its first byte; of an EXE file the paragraphs that it asks for at most behind its image, where that
    is said."""

    kind: str
    paragraph: int = 0
    start: int = 0
    most_extra: Optional[int] = None


@dataclass
class Job:
    """What is to be linked, how, and what is written; `order` is None where none is asked for."""

    # in the order in which they are named
    inputs: list = field(default_factory=list)
    out: Optional[str] = None
    map: Optional[str] = None
    folders: list = field(default_factory=list)
    # the folders of modules
    object_folders: list = field(default_factory=list)
    ignores_case: bool = False
    order: object = None
    has_default_libraries: bool = True
    keeps_debug: bool = False
    packs_far_data: bool = False
    # the name of a file of definitions
    definitions: Optional[str] = None
    # whether the order of DOSSEG has null bytes in front of _TEXT
    has_null_bytes: bool = True
    stack: Optional[Stack] = None
    # None is an EXE file that nobody asked for
    form: Optional[Form] = None
    is_verbose: bool = False
    is_quiet: bool = False
    # the map is asked for, by no name of its own
    maps_to_out: bool = False
    # "omf", "link" or "tlink"
    map_form: str = "omf"
    # whether a map in one of the last two forms has line numbers, and the detailed map of segments
    map_has_lines: bool = False
    map_has_details: bool = False
    # default libraries that aren't searched
    left_out: list = field(default_factory=list)
    # the public at which the program starts, names that are wanted, and pairs of a name and what it means
    start: Optional[str] = None
    references: list = field(default_factory=list)
    aliases: list = field(default_factory=list)
    # pairs of where a line stands and what becomes of what it asks for
    warnings: list = field(default_factory=list)


class Unread(Exception):
    """A response file that isn't there, or is no text."""

    def __init__(self, path, is_there):
        super().__init__(path, is_there)
        self.path = path
        self.is_there = is_there


class DirectiveFault(Exception):
    """A directive that isn't known or asks for what can't be done, or a line whose quote isn't closed."""

    def __init__(self, line, text):
        super().__init__(line, text)
        self.line = line
        self.text = text


WRONG = "wrong operands"


class Refused(Exception):
    """This directive is at fault, by its own word where no token behind it is named."""

    def __init__(self, text=WRONG, at=None):
        super().__init__(text)
        self.text, self.at = text, at


def quoted(text):
    """A text between quotes, with a backslash in front of one and of a quote."""
    escaped = text.replace("\\", "\\\\").replace('"', '\\"').replace("\t", "\\t")
    return f'"{escaped}"'


def pieces(pattern, text):
    """What a pattern finds from the start of a text to its end; spaces may stand at the end."""
    found, place, text = [], 0, text.rstrip(SPACE)
    while place < len(text):
        match = pattern.match(text, place)
        if match is None:
            raise Refused("a quote isn't closed")
        found.append(match)
        place = match.end()
    return found


def split_words(text):
    """The words of a response file, between white space or between quotes."""
    return [match[2] if match[1] is None else match[1] for match in pieces(WORD, text)]


@dataclass
class Token:
    """A word, what stands between quotes, or one of the signs `,`, `=`, `{` and `}`.

    It stands in a line.
    """

    kind: str
    text: str
    line: object = None

    def is_word(self, *words):
        """Whether it is one of some words, in small letters or capitals."""
        return self.kind == "word" and self.text.lower() in words


def token(match, line):
    between, sign, word = match.groups()
    if between is not None:
        return Token("quoted", between[1:-1], line)
    return Token("word", word, line) if sign is None else Token(sign, sign, line)


def tokens_of(line):
    """The tokens of a line up to its comment, which begins where a token would."""
    found, place = [], 0
    while True:
        rest = line.text[place:].lstrip(SPACE)
        if rest[:1] in ("", "#"):
            return found
        match = TOKEN.match(line.text, place)
        if match is None:
            raise DirectiveFault(line.number, f"{line.place()}: {quoted(line.text)}: a quote isn't closed")
        found.append(token(match, line))
        place = match.end()


def keyword(word, keywords):
    """The keyword that a word is, or that it begins with so many letters at least."""
    word = word.lower()
    found = [each for each, least in keywords.items() if each.startswith(word) and len(word) >= least]
    return found[0] if found else None


def first_count(directive, tokens, start):
    """How many tokens the operands of a directive begin with: one, or a list with its braces."""
    if directive in NO_FIRST:
        return 0
    if directive in LISTS and start < len(tokens) and tokens[start].kind == "{":
        ends = (place for place in range(start + 1, len(tokens)) if tokens[place].kind == "}")
        return next(ends, len(tokens)) + 1 - start
    return 1


def goes_on(directive, each):
    """How many operands stand behind a token that goes on with them; None where it doesn't."""
    if each.kind in (",", "="):
        return 1
    if each.kind != "word":
        return None
    if directive in ("debug", "sort"):
        return 0 if keyword(each.text, OWN_WORDS[directive]) else None
    return OWN_WORDS.get(directive, {}).get(each.text.lower())


def operands_end(directive, tokens, start):
    """Where the operands of a directive end that begin there."""
    sure, place = first_count(directive, tokens, start), start
    while place < len(tokens):
        sure = sure - 1 if sure else goes_on(directive, tokens[place])
        if sure is None:
            break
        place += 1
    return place


def parts(tokens):
    """What commas separate."""
    found = [[]]
    for each in tokens:
        if each.kind == ",":
            found.append([])
        else:
            found[-1].append(each)
    return found


def name(tokens):
    """The one name that there is: a second token is one too many."""
    if len(tokens) != 1:
        raise Refused(at=tokens[1] if tokens else None)
    if tokens[0].kind not in ("word", "quoted"):
        raise Refused(at=tokens[0])
    return tokens[0].text


def names(tokens):
    """Names with commas between them, or all between braces, where commas say nothing."""
    if tokens and tokens[0].kind == "{":
        inside = list(itertools.takewhile(lambda each: each.kind != "}", tokens[1:]))
        found = [name([each]) for each in inside if each.kind != ","]
        behind = tokens[len(inside) + 2:]
        if behind or len(tokens) == len(inside) + 1:
            raise Refused(at=behind[0] if behind else None)
        return found
    return list(map(name, parts(tokens)))


def read_files(job, tokens, line):
    job.inputs += map(Input, names(tokens))


def read_libraries(job, tokens, line):
    job.inputs += [Input(each, is_library=True) for each in names(tokens)]


def read_folders(job, tokens, line):
    """Folders of libraries, with semicolons between those of one name."""
    for each in names(tokens):
        job.folders += each.split(";")


def read_object_folders(job, tokens, line):
    """Folders of modules, with semicolons between them."""
    job.object_folders += name(tokens).split(";")


def read_name(job, tokens, line):
    job.out = name(tokens)


def name_of_module(text):
    """A name that a module can have."""
    if len(text.encode()) > LONGEST_NAME:
        raise Refused
    return text


def read_references(job, tokens, line):
    """Names that are wanted, in a list."""
    job.references += map(name_of_module, names(tokens))


def read_aliases(job, tokens, line):
    """Names with equals signs behind them, and what they mean, with commas between such."""
    for alias in parts(tokens):
        if len(alias) != 3 or alias[1].kind != "=":
            raise Refused(at=alias[1] if len(alias) == 3 else None)
        job.aliases.append(tuple(short_name(each) for each in alias[::2]))


def short_name(each):
    """The name that a token is, which a module can have."""
    try:
        return name_of_module(name([each]))
    except Refused:
        raise Refused(at=each) from None


def read_format(job, tokens, line):
    """A program of DOS: an .EXE or a .COM file, where that is said."""
    taken = one_of(tokens[:1], "dos") + one_of(tokens[1:2], "exe", "com")
    nothing_behind(tokens, 2)
    if not taken:
        raise Refused(NOT_DOS)
    job.form = Form(taken[1]) if taken[1:] else None


def one_of(tokens, *words):
    """The word that is taken of some, by the one token that is looked at; none where there is none."""
    if tokens and not tokens[0].is_word(*words):
        raise Refused(NOT_DOS, tokens[0])
    return [each.text.lower() for each in tokens]


def nothing_behind(tokens, most):
    """There are no more tokens than so many."""
    if tokens[most:]:
        raise Refused(at=tokens[most])


def read_system(job, tokens, line):
    """The same by the system's name: `dos` says no form."""
    taken = one_of(tokens[:1], "dos", "com")
    nothing_behind(tokens, 1)
    if not taken:
        raise Refused(NOT_DOS)
    job.form = Form("com") if tokens[0].is_word("com") else None


def read_output(job, tokens, line):
    """A raw image at paragraph 0, which may begin behind the program's first bytes."""
    if not tokens or not tokens[0].is_word("raw"):
        raise Refused(at=tokens[0] if tokens else None)
    start = 0
    if tokens[1:]:
        if len(tokens) != 4:
            raise Refused
        _, offset, mark, value = tokens
        if not offset.is_word("offset") or mark.kind != "=":
            raise Refused(at=offset)
        name([value])
        start = address(value)
    job.form = Form("bin", start=start)


def address(value):
    """A number up to the end of memory: decimal, or hexadecimal behind 0x; of kilobytes with k."""
    found = NUMBER.fullmatch(value.text)
    if found is None or found[3] in ("m", "M"):
        raise Refused(at=value)
    number = int(found[1], 16) if found[1] else int(found[2])
    if number > MEMORY_END:
        raise Refused(at=value)
    return number * (1024 if found[3] else 1)


def read_options(job, tokens, line):
    """Options with commas between them, each a word, or one with an equals sign and a value."""
    for option in parts(tokens):
        try:
            read_part(job, option, line)
        except Refused as refused:
            # by its first word, where no other is wrong
            raise Refused(refused.text, refused.at or next(iter(option), None)) from None


def read_part(job, option, line):
    """A word, or one with an equals sign and a value."""
    if len(option) == 3 and option[1].kind != "=":
        raise Refused(at=option[1])
    if len(option) not in (1, 3):
        raise Refused
    value = name([option[2]]) if option[2:] else None
    if option[0].kind != "word":
        raise Refused
    read_option(job, keyword(option[0].text, OPTIONS), value, line)


def read_option(job, word, value, line):
    """An option; what is left out may have any value, and besides only a map has one."""
    if word in LEFT_OUT:
        job.warnings.append((line, LEFT_OUT[word]))
    elif word == "stack":
        job.stack = Stack(stack_length(value), cuts=True)
    elif word == "start":
        if value is None:
            raise Refused
        job.start = name_of_module(value)
    elif word == "map":
        job.map, job.maps_to_out = value, value is None
    elif word not in SWITCHES:
        raise Refused("unknown option")
    elif value is not None:
        raise Refused
    else:
        setattr(job, *SWITCHES[word])


def stack_length(text):
    """A number of bytes: decimal, or hexadecimal behind 0x, with k or m for 1,024 or its square."""
    found = NUMBER.fullmatch(text or "")
    if found is None:
        raise Refused
    hexadecimal, decimal, unit = found.groups()
    length = int(hexadecimal, 16) if hexadecimal else int(decimal)
    length *= {"": 1, "k": 1024, "m": 1024 * 1024}[unit.lower()]
    if not 1 <= length <= LONGEST_STACK:
        raise Refused
    return length


def read_order(job, tokens, line):
    """A list of classes, each with the segments that come first in it."""
    if not tokens or not tokens[0].is_word("clname"):
        raise Refused(at=tokens[0] if tokens else None)
    job.order = [
        order_item(word, name([its_name])) for word, its_name in zip(tokens[::2], tokens[1::2])]
    if len(tokens) % 2:
        raise Refused(at=tokens[-1])


def order_item(word, its_name):
    if word.is_word("clname"):
        return ordering.Class(its_name.encode())
    if word.is_word("segment"):
        return ordering.Named(its_name.encode())
    raise Refused(at=word)


def leave_out(job, tokens, line):
    """It has no effect; its word is noted by the line that it stands in."""


READERS = {
    "file": read_files, "library": read_libraries, "libpath": read_folders, "name": read_name,
    "format": read_format, "system": read_system, "output": read_output, "option": read_options,
    "order": read_order, "debug": leave_out, "sort": leave_out, "disable": leave_out,
    "reference": read_references, "alias": read_aliases, "path": read_object_folders,
}
# the directives, and how many letters of each there are at least
DIRECTIVES = {
    "file": 1, "library": 1, "libpath": 4, "name": 1, "format": 4, "system": 3, "output": 3,
    "option": 2, "order": 3, "debug": 1, "sort": 3, "disable": 4, "reference": 3, "alias": 1,
    "path": 1,
}
# those whose operands are a list, and those with none but words of their own
LISTS = ("file", "library", "libpath", "reference")
NO_FIRST = ("order", "debug", "sort")
# words that go on with operands, with how many stand behind them; or how many letters there are at least
OWN_WORDS = {
    "format": {"exe": 0, "com": 0}, "system": {"exe": 0, "com": 0}, "output": {"offset": 0},
    "order": {"clname": 1, "segment": 1},
    "debug": {
        "dwarf": 2, "watcom": 1, "codeview": 1, "novell": 2, "all": 2, "lines": 2, "types": 2,
        "locals": 2, "onlyexports": 4},
    "sort": {"global": 2, "alphabetical": 3},
}
# of those, what has no effect where it might be missed
WARNED = {"sort": "the map is not sorted", "disable": "no message is left out"}
NO_EFFECT = "the option has no effect"
NOT_DOS = "no other program is written than one for DOS"
SWITCHES = {
    "quiet": ("is_quiet", True), "dosseg": ("order", ordering.DOSSEG),
    "caseexact": ("ignores_case", False), "nocaseignore": ("ignores_case", False),
    "noignorecase": ("ignores_case", False), "nocaseexact": ("ignores_case", True),
    "caseignore": ("ignores_case", True), "ignorecase": ("ignores_case", True),
    "nodefaultlibs": ("has_default_libraries", False),
}
LEFT_OUT = {
    "symfile": "no file of symbols is written",
    "verbose": NO_EFFECT, "statics": NO_EFFECT, "artificial": NO_EFFECT, "showdead": NO_EFFECT,
    "cache": NO_EFFECT, "nocache": NO_EFFECT, "farcalls": NO_EFFECT, "nofarcalls": NO_EFFECT,
    "maxerrors": NO_EFFECT, "mangled": NO_EFFECT,
}


# the options, and how many letters of each there are at least
SHORTER = {
    "quiet": 1, "map": 1, "stack": 2, "start": 4, "dosseg": 3, "caseexact": 1, "nodefaultlibs": 3, "symfile": 4,
    "verbose": 1, "statics": 4, "artificial": 3, "showdead": 3, "maxerrors": 4,
    "mangled": 3, "cache": 3, "nocache": 5, "farcalls": 2, "nofarcalls": 3, "nocaseignore": 7,
    "noignorecase": 3, "nocaseexact": 5, "caseignore": 5, "ignorecase": 2,
}
OPTIONS = {each: SHORTER.get(each, len(each)) for each in ("map", "stack", "start", *SWITCHES, *LEFT_OUT)}


def read_directive(job, tokens, start):
    """The directive that begins at a token; where its operands end."""
    first = tokens[start]
    directive = keyword(first.text, DIRECTIVES) if first.kind == "word" else None
    if directive is None:
        raise Refused("unknown directive")
    end, place = operands_end(directive, tokens, start + 1), first.line.place()
    if directive in WARNED:
        job.warnings.append((place, WARNED[directive]))
    READERS[directive](job, tokens[start + 1:end], place)
    return end


@dataclass
class Line:
    """A line of directives, with its number, from 1 on, in the response file or word it is in."""

    path: Optional[str]
    number: int
    text: str

    def place(self):
        """Where it stands, as lines of faults and warnings say it."""
        path = "" if self.path is None else f"{self.path}: "
        return f"{path}line {self.number}"


def lines_of(text, path=None):
    """The lines of a text; a carriage return before a line end is of that."""
    return [
        Line(path, number, line.removesuffix("\r"))
        for number, line in enumerate(text.split("\n"), 1)]


def text_of(path, files):
    """The text of a response file: what stands in it up to a Ctrl-Z."""
    if files.get(path) is None:
        raise Unread(path, False)
    try:
        return files[path].partition(END)[0].decode()
    except UnicodeDecodeError:
        raise Unread(path, True) from None


def path_of(path, files):
    """The path of a file of directives: with an ending where nothing is there without."""
    has_dot = "." in re.split(r"[/\\:]", path)[-1]
    longer = path + ENDING
    return longer if not has_dot and files.get(path) is None and files.get(longer) is not None else path


def file_named(line):
    """The file of directives that a line is the name of, behind `@`; None where it is none."""
    text = line.text.strip(SPACE)
    return text[1:] if text.startswith("@") else None


def standing_for(line, files, read):
    """What stands for a line: the lines of the file that it names, else itself.

    The files are read as well.
    """
    path = file_named(line)
    if path is None:
        return [line]
    if len(read) == MOST_FILES:
        raise DirectiveFault(0, f"{path}: {TOO_MANY}")
    read.append(path_of(path, files))
    return lines_of(text_of(read[-1], files), path)


def spoken(words, files):
    """The lines that words give, with those of files in the place of such as name one; and these files.

    Files may name others, so deep.
    """
    lines, read = [line for word in words for line in lines_of(word)], []
    for _ in range(MOST_DEEP):
        lines = [each for line in lines for each in standing_for(line, files, read)]
    for path in map(file_named, lines):
        if path is not None:
            raise DirectiveFault(0, f"{path}: {TOO_DEEP}")
    return lines, read


def read_directives(lines):
    """The job of directives, or the first that is at fault; but a quote that isn't closed is told first."""
    job = Job(packs_far_data=True, has_null_bytes=False)
    tokens, place = [], 0
    for line in lines:
        tokens += tokens_of(line)
    while place < len(tokens):
        try:
            place = read_directive(job, tokens, place)
        except Refused as refused:
            wrong = refused.at or tokens[place]
            raise DirectiveFault(
                wrong.line.number, f"{wrong.line.place()}: {quoted(wrong.text)}: {refused.text}") from None
    return job
