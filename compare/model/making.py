"""What `doslib` makes of libraries, and tells of names, by docs/DOSLIB.md.

The bytes of a library are those of library_reading.py, which has them by the standard's words.
"""

from dataclasses import dataclass, field, replace

import library_reading
from model import listing, search, weak
from model.faults import DOSLINK_NAMES, NAMES
from model.listing import PAGES, quoted
from model.names import wanting_places

MOST_PAGES, LONGEST_NAME = 65_535, 255
LABELS = {**NAMES, **DOSLINK_NAMES}


class Refused(Exception):
    """The line that says why nothing is written."""


@dataclass
class Source:
    """A file: its path, what it is, and its members with their bytes."""

    path: str
    kind: str = listing.MODULE
    members: list = field(default_factory=list)


@dataclass
class Answer(listing.Answer):
    """What is printed and told, the status, and the files that are written, by their paths."""

    written: dict = field(default_factory=dict)

    def tell(self, line, status=0):
        self.error += f"doslib: {line}\n".encode()
        self.status = max(self.status, status)


def read(files, answer):
    """Files as far as they are whole; what is amiss is told as `list` tells it."""
    told = listing.list_files(files)
    answer.error, answer.status, answer.ends = told.error, told.status, told.ends
    sources = []
    for path, content in files:
        source = Source(path)
        if not isinstance(content, str):
            source.kind = listing.kind_of(content)
            found, _ = listing.MEMBERS[source.kind](content)
            source.members = [(each, content[each.place:each.place + each.length]) for each in found]
        sources.append(source)
    return sources


def modules_of(sources):
    return [content for source in sources for _, content in source.members]


def is_module(content):
    """Whether a file begins with a header record that holds one name."""
    length = int.from_bytes(content[1:3], "little")
    return content[:1] in (b"\x80", b"\x82") and len(content) > 3 and length == content[3] + 2


def own_name(module):
    """The name of a module, without folder and extension."""
    records, _ = listing.records_from(module, 0)
    name = listing.own_name(records)
    for end in b"\\/:":
        name = name[name.rfind(bytes([end])) + 1:]
    return name[:name.rindex(b".")] if b"." in name else name


def has_name(module, name):
    return own_name(module).lower() == name.lower()


def with_change(path, members, name, change):
    """Members with the first of a name in the place of which others stand."""
    for at, module in enumerate(members):
        if has_name(module, name):
            return members[:at] + change + members[at + 1:]
    raise Refused(f"{path}: 74 {LABELS[74]} {quoted(name)}")


def changed(command, path, sources, names):
    """The modules of a library."""
    if command == "make":
        return modules_of(sources)
    if sources[0].kind != listing.LIBRARY:
        raise Refused(f"{path}: 73 {LABELS[73]}")
    members, more = modules_of(sources[:1]), modules_of(sources[1:])
    if command == "add":
        return members + more
    for name in names:
        members = with_change(path, members, name.encode(), [])
    for module in more:
        members = with_change(path, members, own_name(module), [module])
    return members


def dictionary_names(module):
    """The names by which a dictionary has a module: its own, and those that it offers."""
    records, _ = listing.records_from(module, 0)
    name = own_name(module)
    return ([name + b"!"] if name else []) + list(listing.offered(records))


def whole_module(path, at, module):
    """The module up to its end, with its names."""
    if module[:1] not in (b"\x80", b"\x82"):
        raise Refused(f"{path}: 7 {LABELS[7]} behind {at} members")
    records, _ = listing.records_from(module, 0)
    names = dictionary_names(module)
    if any(len(name) > LONGEST_NAME for name in names):
        raise Refused(f"{path}: 75 {LABELS[75]} behind {at} members")
    return module[:records[-1].behind], names


def library(path, modules):
    """The bytes of a library of modules, and the warnings of it."""
    members = [whole_module(path, at, module) for at, module in enumerate(modules)]
    sizes = [size for size in PAGES if 1 + sum(-(-len(module) // size) for module, _ in members) <= MOST_PAGES]
    if not sizes:
        raise Refused(f"{path}: 76 {LABELS[76]}")
    found = library_reading.library_of(members, sizes[0])
    if found is None:
        raise Refused(f"{path}: 77 {LABELS[77]}")
    first, warnings = {}, []
    for module, names in members:
        for name in names:
            if name in first:
                warnings.append(f"warning: {path}: {quoted(name)} is in {quoted(own_name(first[name]))} and in "
                                f"{quoted(own_name(module))}")
            first.setdefault(name, module)
    return found, warnings


def change(command, path, files, names=(), there=b""):
    """A library at a path that is made of files, or changed by them and by names: then it is the first of the files.

    There stands a file with these bytes; over a module or an archive none is made.
    """
    answer = Answer()
    if command == "make" and (is_module(there) or there[:8] in (b"!<arch>\n", b"!<thin>\n")):
        answer.tell(f"{path}: 73 {LABELS[73]}", 1)
        return answer
    sources = read(files, answer)
    if answer.status:
        return answer
    try:
        answer.written[path], warnings = library(path, changed(command, path, sources, names))
        for line in warnings:
            answer.tell(line)
    except Refused as refused:
        answer.tell(refused, 1)
    return answer


def delete(path, files, names):
    return change("delete", path, files, names)


def extract(path, files, names):
    """Members of a file, each in one of its own."""
    answer = Answer()
    modules = modules_of(read(files, answer))
    if answer.status:
        return answer
    found = {}
    for name in names:
        module = next((each for each in modules if has_name(each, name.encode())), None)
        if module is None:
            answer.tell(f"{path}: 74 {LABELS[74]} {quoted(name.encode())}", 1)
            return answer
        found[f"{name}.OBJ"] = module
    answer.written = found
    return answer


def title(source, member):
    """How a module is told: by the path of its file, and in a library or an archive by its name."""
    name = quoted(member.name)[1:-1]
    return source.path if source.kind == listing.MODULE else f"{source.path}({name})"


def printed_names(files, ignores_case):
    """What is told of the names of files."""
    answer = Answer()
    held = [(source, *each) for source in read(files, answer) for each in source.members]
    said, key = [needs(content) for _, _, content in held], search.agreed(ignores_case)
    lines = []
    for each in search.missing(said, [], key):
        source, member, content = held[each.wanted_by]
        place = member.place + next(iter(wanting_places(content, each.name)), 0)
        lines.append(f"missing {quoted(each.name)}: {title(source, member)} wants it in the record at {place:08X}")
    first = {}
    for (source, member, _), names in zip(held, said):
        for name in names.offered:
            if key(name) in first:
                lines.append(f"defined twice {quoted(name)}: {first[key(name)]} and {title(source, member)} define it")
            first.setdefault(key(name), title(source, member))
    if lines:
        answer.status = max(answer.status, 1)
    answer.output = "".join(f"{line}\n" for line in lines or ["each name that is wanted is defined once"]).encode()
    return answer


def needs(content):
    """What a module says of names: of those that it wants the ones that another has to define."""
    names = weak.names_of(content)
    return replace(names, wanted=names.needed)
