"""Files of definitions, which lines of LINK and TLINK name: statements without an effect, and those that are wrong."""

import re

from model.line_options import OF_ALL, number
from model.lines import LineFault

# what is wrong with a statement
DEFINITIONS, NO_DESCRIPTION, NO_STACK_SIZE = "Definitions", "NoDescription", "NoStackSize"
# what is told of one that is passed over
DEFINITION = "Definition"
BLANK = r"[ \t\f\r]*"
# what may stand at a line's end
END = BLANK + "(?:;.*)?"
WORD = re.compile(r"""[^ \t\f\r][^ \t\f\r;"']*""")
QUOTED = re.compile(BLANK + """(?:"[^"]*"|'[^']*')""" + END, re.DOTALL)


def statements(text):
    """The places of a text's statements, in bytes; a LineFault at the first that is wrong."""
    places, behind = [], 0
    for line in text.split("\n"):
        front = re.sub("^" + BLANK, "", line)
        place = behind + len(line.encode()) - len(front.encode())
        behind += len(line.encode()) + 1
        if not front or front.startswith(";"):
            continue
        word = WORD.match(front)[0]
        kind = fault_of(word.lower(), front[len(word):])
        if kind is not None:
            raise LineFault(place, word, kind)
        places.append(place)
    return places


def fault_of(word, operands):
    """What is wrong with a statement of this word, or None."""
    if word == "name":
        return None
    if word == "description":
        return None if QUOTED.fullmatch(operands) else NO_DESCRIPTION
    if word == "stacksize":
        return None if is_number(re.sub("^" + BLANK, "", operands)) else NO_STACK_SIZE
    return DEFINITIONS


def is_number(text):
    """Whether it is a number, with nothing behind it."""
    word = WORD.match(text)
    if word is None or not re.fullmatch(END, text[word.end():], re.DOTALL):
        return False
    value = number(word[0])
    return value is not None and OF_ALL[0] <= value <= OF_ALL[1]
