"""The job of the words of LINK or TLINK: their text with what response files have, what stands in front of it, and what
both ask for."""

import re

from model import definitions, line_options, lines, ordering
from model.directives import (
    MOST_DEEP, MOST_FILES, SPACE, TOO_DEEP, TOO_MANY, Form, Input, Job, Stack, quoted, text_of as text_of_path)

# what is told of a word that can't be followed
KINDS = {
    lines.UNCLOSED: "a quote isn't closed",
    lines.NO_OBJECT: "an object is expected",
    lines.SECOND_NAME: "a comma is expected: the field has its name",
    lines.TOO_MANY_FIELDS: "no field is expected behind the definitions",
    lines.BEHIND_END: "nothing is expected behind `;`",
    lines.DEVICE: "a file is expected, and no device",
    lines.NO_OPTION: "an option is expected",
    lines.TWO_WAYS: "a blank is expected between options, and folders without one of an option's name",
    line_options.UNKNOWN_OPTION: "unknown option",
    **{line_options.wrong_value(each): "a number from {} to {} is expected behind `:`".format(*each)
       for each in (line_options.OF_STACKS, line_options.OF_PARAGRAPHS, line_options.OF_ALL)},
    line_options.NO_VALUE_EXPECTED: "no value is expected behind the option",
    line_options.NO_NOEXE: "NOEXE is expected behind `:`",
    line_options.SHORT_FOR_SEVERAL: "more of the option's name is expected: it is short for several",
    line_options.NO_FOLDERS: "folders are expected right behind the letter",
    line_options.PARTLY_QUOTED: "a folder is expected between two quotes, or without",
    line_options.OVERLAYS: "overlays aren't made",
    line_options.P_CODE: "p-code isn't linked",
    line_options.NOT_DOS: "no other program is written than one for DOS",
    line_options.REFUSED: "the option would change the program, and isn't followed",
    definitions.DEFINITIONS: "NAME, DESCRIPTION or STACKSIZE is expected: no other definition is followed",
    definitions.NO_DESCRIPTION: "a text between quotes is expected, and nothing behind it",
    definitions.NO_STACK_SIZE: "a number is expected, and nothing behind it",
}
# what is told of one that has no effect
IDLE = {
    line_options.DEBUG: "no data for debuggers is written",
    line_options.PACKING: "the program isn't packed: it runs the same",
    line_options.NOTHING: "the option has no effect",
    definitions.DEFINITION: "nothing of it is used",
}
ALL_BYTES = "/i isn't followed: segments without data take no bytes of the file"
# what a map is called, and a file of definitions
MAP, OF_DEFINITIONS = ".MAP", ".DEF"
# what stands in front of a line: a file of TLINK, and a variable of LINK
FRONTS = {lines.TLINK: "TLINK.CFG", lines.LINK: "LINK"}
# what parts the folders of a linker that a variable calls
BETWEEN_FOLDERS = re.compile(r"[\\/:]")


class LineRefused(Exception):
    """Words that can't be followed, and what is told of them."""

    def __init__(self, text):
        super().__init__(text)
        self.text = text


def text_of(language, words, files, variable=""):
    """What stands in front of words, and their text, in both of which each response file stands in the place of its
    name; and the files.

    Response files may name others.
    """
    read = []
    configuration = [FRONTS[language]] if language == lines.TLINK and is_there(FRONTS[language], files) else []
    if language == lines.TLINK:
        front = "".join(text_of_path(path, files) for path in configuration)
    else:
        front = with_all_files(language, "" if is_call(variable) else variable, files, read)
    text = with_all_files(language, "".join(as_typed(word) + " " for word in words), files, read)
    return front, text, [*configuration, *read]


def is_there(path, files):
    """Whether something stands at a path, or two things may be meant."""
    return files.get(path) is not None or files.is_folder(path) or files.has_two(path)


def is_call(variable):
    """Whether a variable is a call of a linker, which make hands on: it has `--as`, or the name of LINK."""
    words = [token.text for token in lines.tokens(lines.LINK, variable)]
    return "--as" in words or any(
        BETWEEN_FOLDERS.split(word)[-1].lower() in ("link", "link.exe") for word in words)


def with_all_files(language, text, files, read):
    """A text with response files, and those that they name."""
    for _ in range(MOST_DEEP):
        text = with_files(language, text, files, read)
    return text


def as_typed(word):
    """A word, in quotes again where a shell took them from a name; other words with blanks are a part of a line."""
    is_bare = any(each in SPACE for each in word) and not any(each in '",;+' for each in word)
    return f'"{word}"' if is_bare else word


def with_files(language, text, files, read):
    """A text in which each word that names a response file is what that says."""
    parts, behind = [], 0
    for token in lines.tokens(language, text):
        if token.kind == "word" and token.text.startswith("@"):
            parts += [text[behind:token.place], content(token.text[1:], files, read)]
            behind = token.place + len(token.text)
    return "".join([*parts, text[behind:]])


def content(path, files, read):
    """What a response file says."""
    if len(read) == MOST_FILES:
        raise LineRefused(f"{path}: {TOO_MANY}")
    read.append(path)
    return lines.text_of_file(text_of_path(path, files))


def place_in(language, front, text, place):
    """A place in a line, which is in bytes, by its part, its line there and by its byte in that, both from 1 on."""
    name, length = "", len(front.encode())
    if place < length:
        name, before = f"{FRONTS[language]}: ", front.encode()[:place]
    else:
        before = text.encode()[:place - length]
    return f"{name}line {before.count(10) + 1}, column {len(before) - (before.rfind(10) + 1) + 1}"


def said_by(language, text, front):
    """What a text says behind its front, or why it can't be followed."""
    try:
        return lines.read(language, text, front)
    except lines.LineFault as fault:
        if fault.kind == lines.NO_OBJECT:
            raise LineRefused(KINDS[fault.kind]) from None
        if fault.kind == lines.RESPONSE:
            raise LineRefused(f"{quoted(fault.word)}: {TOO_DEEP}") from None
        place = place_in(language, front, text, fault.place)
        raise LineRefused(f"{place}: {quoted(fault.word)}: {KINDS[fault.kind]}") from None


def has_other_extension(name):
    """Whether a name that is said has an extension, and another one than .COM."""
    _, dot, extension = BETWEEN_FOLDERS.split(name or "")[-1].rpartition(".")
    return dot != "" and extension.lower() != "com"


def definitions_of(name, files):
    """The path of a file of definitions, and what is told of each of its statements."""
    path = name if "." in BETWEEN_FOLDERS.split(name)[-1] else name + OF_DEFINITIONS
    text = text_of_path(path, files)
    try:
        places = definitions.statements(text)
    except lines.LineFault as fault:
        place = place_in(lines.LINK, "", text, fault.place)
        raise LineRefused(f"{path}: {place}: {quoted(fault.word)}: {KINDS[fault.kind]}") from None
    return path, [f"{path}: {place_in(lines.LINK, '', text, each)}: {IDLE[definitions.DEFINITION]}" for each in places]


def job_of(language, text, front=""):
    """The job of a text behind its front; its program and its map are still named as they are written."""
    said = said_by(language, text, front)
    if said.writes_all:
        raise LineRefused(ALL_BYTES)
    # a .COM file has no header that could ask for memory
    form = Form("exe", most_extra=said.most_extra)
    if said.form == "com":
        form = Form("start" if language == lines.TLINK and has_other_extension(said.out) else "com")
    map_name = lines.map_of(said)
    return Job(
        inputs=[Input(name, is_library) for name, is_library in said.inputs],
        out=said.out, map=map_name or None, maps_to_out=map_name == "", map_form=language,
        map_has_lines=said.has_lines, map_has_details=said.is_detailed,
        folders=said.folders, object_folders=said.object_folders, ignores_case=not said.case_counts,
        order=ordering.DOSSEG if said.order else None,
        has_default_libraries=said.has_default_libraries, left_out=said.left_out,
        has_null_bytes=language == lines.LINK and said.order != "dosseg-nonulls",
        definitions=lines.definitions_of(said),
        stack=None if said.stack is None else Stack(said.stack, cuts=True), form=form, is_verbose=said.is_verbose,
        warnings=[(place_in(language, front, text, place), IDLE[idle]) for place, idle in said.warnings])
