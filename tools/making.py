"""Makes object modules, libraries and archives of their records, for tests and for the commands that pages show."""

import struct

THEADR, COMENT, MODEND, EXTDEF, PUBDEF = 0x80, 0x88, 0x8A, 0x8C, 0x90
LNAMES, SEGDEF, GRPDEF, FIXUPP, LEDATA = 0x96, 0x98, 0x9A, 0x9C, 0xA0
COMDEF, BAKPAT, LEXTDEF, LPUBDEF, COMDAT, ALIAS = 0xB0, 0xB2, 0xB4, 0xB6, 0xC2, 0xC6
SHORTEST = 6  # bytes of a comment without text


def record(kind, body):
    front = struct.pack("<BH", kind, len(body) + 1) + body
    return front + bytes([-sum(front) % 256])


def name(text):
    return bytes([len(text)]) + text


def names(*texts):
    return record(LNAMES, b"".join(map(name, texts)))


def externals(*texts, kind=EXTDEF):
    return record(kind, b"".join(name(each) + b"\0" for each in texts))


def publics(*texts, kind=PUBDEF):
    return record(kind, b"\0\1" + b"".join(name(each) + b"\0\0\0" for each in texts))


def comment(kind, text=b""):
    return record(COMENT, bytes([0, kind]) + text)


def uses(*indexes):
    """Words of data, and a fix-up of each to an external."""
    fixups = b"".join(bytes([0xC4, 2 * at, 0x56, index]) for at, index in enumerate(indexes))
    return record(LEDATA, b"\1\0\0" + bytes(2 * len(indexes))) + record(FIXUPP, fixups)


def module(title, *records, end=b"\0"):
    """A module with one segment of 16 bytes; its own records begin at 29 and the length of its title."""
    front = record(THEADR, name(title)) + names(b"CODE", b"DATA")
    return front + record(SEGDEF, b"\x28\x10\0\1\1\1") + b"".join(records) + record(MODEND, end)


def begin(title):
    """Where a module's own records begin."""
    return len(module(title)) - len(record(MODEND, b"\0"))


def placed(title, records):
    """A module whose own records begin at the places that are said, behind comments that fill up what is between."""
    content = b""
    for place, each in records.items():
        gap = place - begin(title) - len(content)
        if 0 != gap < SHORTEST:
            raise ValueError(f"no comment has {gap} bytes")
        content += (comment(0, b"-" * (gap - SHORTEST)) if gap else b"") + each
    return module(title, content)


def library(page, *modules):
    """A .LIB with a page size; its dictionary holds nothing, and isn't used."""
    content = record(0xF0, bytes(page - 4))[:-1] + b"\0"
    for each in modules:
        content += each
        content += bytes(-len(content) % page)
    content += record(0xF1, bytes(page - 4))
    return content + bytes(512)


def member(title, content):
    header = title.ljust(16) + b"0".ljust(12) + b"0".ljust(6) + b"0".ljust(6) + b"644".ljust(8)
    return header + str(len(content)).encode().ljust(10) + b"`\n" + content + b"\n" * (len(content) % 2)


def archive(*members):
    return b"!<arch>\n" + b"".join(members)
