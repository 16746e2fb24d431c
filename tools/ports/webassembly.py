"""WebAssembly modules, as bytes."""

MAGIC_BYTES = 8
TABLES, ELEMENTS = 4, 9  # kinds of sections


def number(data, at):
    """A number in LEB128, and where it ends."""
    value = shift = 0
    while True:
        value |= (data[at] & 127) << shift
        at, shift = at + 1, shift + 7
        if data[at - 1] < 128:
            return value, at


def without_table(data):
    """A module without the table of functions that wasm-ld gives each, and in which this one has no function, so that
    an engine without tables of 64 bits takes it."""
    made, at = data[:MAGIC_BYTES], MAGIC_BYTES
    while at < len(data):
        kind, (size, start) = data[at], number(data, at + 1)
        if kind == ELEMENTS:
            raise ValueError("the module has functions in its table")
        if kind != TABLES:
            made += data[at:start + size]
        at = start + size
    return made
