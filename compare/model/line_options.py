"""The options of LINK and of TLINK, and what each asks for.

An option is found by its text without the `/` or `-` in front of it. What it asks for is done to what
is said so far, a `Said` of lines.py; one that can't be followed is a Wrong.
"""

import re

# why a word can't be followed
UNKNOWN_OPTION, REFUSED = "UnknownOption", "Refused"
SHORT_FOR_SEVERAL, NO_VALUE_EXPECTED, NO_NOEXE, NO_FOLDERS = "ShortForSeveral", "NoValue", "NoNoExe", "NoFolders"
OVERLAYS, NOT_DOS, P_CODE, PARTLY_QUOTED = "Overlays", "NotDos", "PCode", "PartlyQuoted"
# what becomes of an option that is taken with a warning
DEBUG, PACKING, NOTHING = "Debug", "Packing", "Nothing"
# the numbers that are expected of options
OF_STACKS, OF_PARAGRAPHS, OF_ALL = (1, 65_536), (0, 65_535), (0, 1_048_576)


def wrong_value(expected):
    """That another number is expected than what stands there, or any at all."""
    return "WrongValue {{ least: {}, most: {} }}".format(*expected)


class Wrong(Exception):
    """A word that can't be followed."""

    def __init__(self, kind):
        super().__init__(kind)
        self.kind = kind


def sets(**values):
    """What says of a job that these are its values."""
    def ask(said, value, place):
        for name, each in values.items():
            setattr(said, name, each)

    return ask


def warns(idle):
    """What has no effect, or not all that it would have."""
    def ask(said, value, place):
        said.warnings.append((place, idle))

    return ask


def refuses(kind):
    def ask(said, value, place):
        raise Wrong(kind)

    return ask


nothing = sets()

# ---- LINK

NO_VALUE, VALUE, EITHER = "no value", "a value", "a value or none"
# the letters in front are as few as tell which one it is, those in brackets may be left out
LINK_NAMES = re.compile(r"(\w+)(?:\[(\w+)\])?")


def number(text):
    """Decimal, octal behind 0, hexadecimal behind 0x; None where it is none."""
    if re.fullmatch("0[xX][0-9a-fA-F]+", text):
        return int(text[2:], 16)
    if re.fullmatch("0[0-7]*", text):
        return int(text, 8)
    if re.fullmatch("[1-9][0-9]*", text):
        return int(text)
    return None


def within(text, expected):
    value = number(text)
    if value is None or not expected[0] <= value <= expected[1]:
        raise Wrong(wrong_value(expected))
    return value


def set_stack(said, value, place):
    said.stack = within(value, OF_STACKS)


def set_most_extra(said, value, place):
    said.most_extra = within(value, OF_PARAGRAPHS)


def any_number(said, value, place):
    within(value, OF_ALL)


def no_program_of_faults(said, value, place):
    """Where there is a fault no program is written, which is all that can be asked for."""
    if value.upper() != "NOEXE":
        raise Wrong(NO_NOEXE)


def in_dosseg_order(said, value, place):
    """With null bytes, unless an option in front of it or behind it asks for none."""
    said.order = said.order or "dosseg"


def leave_out_defaults(said, value, place):
    """All libraries that only modules name, or the one of this name."""
    if value is None:
        said.has_default_libraries = False
    else:
        said.left_out.append(value)


def is_front(word, name, least):
    """Whether a word is a name that is shortened to so many letters at least."""
    return len(word) >= least and name.startswith(word.upper())


def map_of_publics(said, value, place):
    """With the publics; the other forms of its value change nothing."""
    if value is not None and (is_front(value, "FULL", 1) or is_front(value, "ADDRESS", 1)):
        said.warnings.append((place, NOTHING))
        return
    if value is not None:
        within(value, OF_ALL)
    said.has_publics = True


LINK = [
    ("B[ATCH]", NO_VALUE, nothing), ("NOL[OGO]", NO_VALUE, nothing), ("PAU[SE]", NO_VALUE, nothing),
    ("INF[ORMATION]", NO_VALUE, sets(is_verbose=True)),
    ("Q[UICKLIBRARY]", NO_VALUE, refuses(REFUSED)),
    ("CO[DEVIEW]", NO_VALUE, warns(DEBUG)),
    ("CP[ARMAXALLOC]", VALUE, set_most_extra),
    ("DO[SSEG]", NO_VALUE, in_dosseg_order),
    ("NON[ULLSDOSSEG]", NO_VALUE, sets(order="dosseg-nonulls")),
    ("DS[ALLOCATE]", NO_VALUE, refuses(REFUSED)), ("HI[GH]", NO_VALUE, refuses(REFUSED)),
    ("NOG[ROUPASSOCIATION]", NO_VALUE, refuses(REFUSED)),
    ("DY[NAMIC]", NO_VALUE, refuses(OVERLAYS)), ("OL[DOVERLAY]", NO_VALUE, refuses(OVERLAYS)),
    ("O[VERLAYINTERRUPT]", VALUE, warns(NOTHING)),
    ("PADC[ODE]", EITHER, warns(NOTHING)), ("PADD[ATA]", EITHER, warns(NOTHING)),
    ("A[LIGNMENT]", EITHER, warns(NOTHING)), ("PM[TYPE]", EITHER, warns(NOTHING)),
    ("W[ARNFIXUP]", NO_VALUE, warns(NOTHING)), ("INC[REMENTAL]", NO_VALUE, warns(NOTHING)),
    ("E[XEPACK]", NO_VALUE, warns(PACKING)), ("F[ARCALLTRANSLATION]", NO_VALUE, warns(PACKING)),
    ("NOF[ARCALLTRANSLATION]", NO_VALUE, nothing),
    ("PACKC[ODE]", NO_VALUE, warns(PACKING)), ("PACKC[ODE]", VALUE, warns(NOTHING)),
    ("PACKD[ATA]", NO_VALUE, warns(PACKING)), ("PACKD[ATA]", VALUE, warns(NOTHING)),
    ("NOP[ACKCODE]", NO_VALUE, nothing),
    ("PACKF[UNCTIONS]", NO_VALUE, warns(NOTHING)), ("NOPACKF[UNCTIONS]", NO_VALUE, nothing),
    ("PC[ODE]", NO_VALUE, refuses(P_CODE)), ("ON[ERROR]", VALUE, no_program_of_faults),
    ("L[INENUMBERS]", NO_VALUE, sets(has_lines=True)),
    ("M[AP]", EITHER, map_of_publics),
    ("NOD[EFAULTLIBRARYSEARCH]", EITHER, leave_out_defaults),
    ("NOE[XTDICTIONARY]", NO_VALUE, nothing),
    ("NOI[GNORECASE]", NO_VALUE, sets(case_counts=True)),
    ("SE[GMENTS]", VALUE, any_number), ("ST[ACK]", VALUE, set_stack),
    ("T[INY]", NO_VALUE, sets(form="com")),
]


def link_option(text):
    """What an option of LINK asks for, with its value or None, or None where there is no such one."""
    word, colon, value = text.partition(":")
    value = value if colon else None
    for names, takes, ask in LINK:
        short, rest = LINK_NAMES.fullmatch(names).groups()
        fits = takes == EITHER or (takes == VALUE) == (value is not None)
        if fits and is_front(word, short + rest, len(short)):
            return ask, value
    return None


# what is expected behind the names that take a value
EXPECTED = {
    "ST[ACK]": wrong_value(OF_STACKS), "CP[ARMAXALLOC]": wrong_value(OF_PARAGRAPHS),
    "SE[GMENTS]": wrong_value(OF_ALL), "ON[ERROR]": NO_NOEXE,
}


def link_fault(text):
    """Why a text is no option of LINK: a name that takes no value, or has to have one, or that is cut too short."""
    word = text.partition(":")[0]
    if link_option(word) is not None:
        return NO_VALUE_EXPECTED
    names = [(names, *LINK_NAMES.fullmatch(names).groups()) for names, _, _ in LINK]
    for each, short, rest in names:
        if each in EXPECTED and is_front(word, short + rest, len(short)):
            return EXPECTED[each]
    # /H is short for /HELP too, which stands alone
    several = {short + rest for _, short, rest in names} | {"HELP"}
    return SHORT_FOR_SEVERAL if sum(is_front(word, each, 1) for each in several) > 1 else UNKNOWN_OPTION


# ---- TLINK

# what `-` behind them switches off, and what is asked for then
TLINK_FLAGS = {
    "c": (sets(case_counts=True), sets(case_counts=False)),
    "i": (sets(writes_all=True), sets(writes_all=False)),
    "l": (sets(has_lines=True), sets(has_lines=False)),
    "m": (sets(has_publics=True), sets(has_publics=False)),
    "n": (sets(has_default_libraries=False), sets(has_default_libraries=True)),
    "s": (sets(is_detailed=True), sets(is_detailed=False)),
    "x": (sets(has_no_map=True), sets(has_no_map=False)),
    "t": (sets(form="com"), sets(form="exe")),
    "v": (warns(DEBUG), nothing), "f": (warns(PACKING), nothing),
    "o": (refuses(OVERLAYS), nothing),
    "d": (warns(NOTHING), nothing), "M": (warns(NOTHING), nothing),
    **{each: (nothing, nothing) for each in ["e", "3", "C", "E", "k", "j", "P"]},
}
TLINK_WORDS = {"Tdc": sets(form="com"), "Tde": sets(form="exe"), "Td": sets(form="exe"), "yc": nothing, "ye": nothing}


def parts(text, mark):
    """What a mark parts of a text, but for one between quotes."""
    found, begin, is_quoted = [], 0, False
    for at, byte in enumerate(text):
        if byte == '"':
            is_quoted = not is_quoted
        elif byte == mark and not is_quoted:
            found.append(text[begin:at])
            begin = at + 1
    return [*found, text[begin:]]


def folders_in(value):
    """The folders of a value; a quote stands in front of the whole of one and behind it."""
    for folder in parts(value, ";"):
        if '"' in folder and re.fullmatch('"[^"]*"', folder) is None:
            raise Wrong(PARTLY_QUOTED)
        yield folder.replace('"', "")


def add_folders(said, value, place):
    said.folders += folders_in(value)


def add_object_folders(said, value, place):
    said.object_folders += folders_in(value)


# what goes by its beginning, in this order; the value is what the brackets have
TLINK_BEGUN = [
    ("L(.+)", add_folders), ("j(.+)", add_object_folders), ("[AP]=.*", nothing),
    ("O.*", warns(PACKING)), ("y.*", warns(NOTHING)),
    ("T.*", refuses(NOT_DOS)), ("R.*", refuses(REFUSED)),
]


# the letters of those behind which any text is a value
FREE_VALUES = tuple("LjOyTR")


def tlink_word(text):
    """What one of TLINK asks for that has no value, or None."""
    if text in TLINK_FLAGS:
        return TLINK_FLAGS[text][0]
    if text.endswith("-") and text[:-1] in TLINK_FLAGS:
        return TLINK_FLAGS[text[:-1]][1]
    return TLINK_WORDS.get(text)


def tlink_option(text):
    """The same of TLINK, whose options keep their case."""
    ask = tlink_word(text)
    if ask is not None:
        return ask, None
    for pattern, ask in TLINK_BEGUN:
        found = re.fullmatch(pattern, text, re.DOTALL)
        if found:
            return ask, next(iter(found.groups()), None)
    return None


def has_free_value(language, text):
    """Whether any text is its value, so that the last name of a path may read as such an option."""
    return language == "tlink" and text.startswith(FREE_VALUES) and tlink_word(text) is None


def takes_folders(language, text):
    """Whether it is an option whose value is folders, which `;` parts."""
    return language == "tlink" and text[:1] in ("L", "j")


def tlink_fault(text):
    return NO_FOLDERS if text == "L" else UNKNOWN_OPTION


OPTION = {"link": link_option, "tlink": tlink_option}
# why a text is none
FAULT = {"link": link_fault, "tlink": tlink_fault}
