"""What a file is that begins as no module does, by its first bytes."""

# the types of the first record of a module: THEADR and LHEADR
HEADERS = (b"\x80", b"\x82")
# what files of other kinds begin with: processors of COFF, words of Mach-O in both orders and of a fat one
ELF, PROGRAM, THIN_ARCHIVE = b"\x7FELF", b"MZ", b"!<thin>"
COFF = (b"\x4C\x01", b"\x64\x86")
MACH_O = (
    b"\xCE\xFA\xED\xFE", b"\xCF\xFA\xED\xFE", b"\xFE\xED\xFA\xCE", b"\xFE\xED\xFA\xCF", b"\xCA\xFE\xBA\xBE")
# the bytes that tell whether a file is a text, and those below a space that a text may have
LOOKED_AT, OF_TEXTS, DELETE = 256, b"\t\n\f\r\x1A", 0x7F


def is_text(content):
    return all(
        byte in OF_TEXTS or 0x20 <= byte and byte != DELETE for byte in content[:LOOKED_AT])


def kind_of(content):
    """What a file is, in words; None where it begins as a module does."""
    if content.startswith(HEADERS):
        return None
    kinds = [
        ("the file is empty", content == b""),
        ("this is an ELF file; nasm wants -f obj", content.startswith(ELF)),
        ("this is a COFF file; nasm wants -f obj", content.startswith(COFF)),
        ("this is a Mach-O file; nasm wants -f obj", content.startswith(MACH_O)),
        ("this is a program, linked already", content.startswith(PROGRAM)),
        ("this is a thin archive, without its members; ar without T makes a whole one",
         content.startswith(THIN_ARCHIVE)),
        ("this is a text; assemble or compile it first", is_text(content))]
    return next((words for words, is_it in kinds if is_it), "this is no object module")
