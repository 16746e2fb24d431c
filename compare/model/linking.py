"""What `doslink` answers: which modules it links, and what becomes of them.

Files are found in a dict of their bytes by path. All files of a job stand in one list: FILES, the
libraries that it names, and the default libraries. The first bytes of each tell what it is.
"""

import re
from dataclasses import dataclass, replace
from os.path import normpath
from typing import Optional

from model import (
    comdats, communal, directives, faults, foreign, forms, image, libraries, line_jobs, line_numbers, lines, link_map,
    local, lowering, module, naming, ordering, parts, printing, search, stack, taking)
from model.commands import Answer, Output
from model.directives import Form
from model.faults import Fault, escaped, printed_name
from model.names import Names, wanting_places
from model.places import DosFiles
from model.weak import defined_names, local_ones, meanings, names_of, plain_meanings

PROGRAM = "doslink"
# the words for modules that are made
ORDER, COMMUNAL, STACK = "order", "communal", "stack"
NO_START, NO_STACK = "no module has a start", "no module has a stack"
NO_CODE = "no module has a byte of code"
IS_REACHED = "is far and reached by its offset alone: declare it near (NASM: common NAME:near SIZE)"
# what is put behind the name of a library that has no dot, in turn
ENDINGS = ["", ".LIB", ".lib"]
TYPE, DUPLICATE, NO_PROGRAM = 5, 25, 67
# what a program reads that is called so: directives, lines of LINK or TLINK, or words of its own
DIRECTIVES = "wlink"
CALLED = {"wlink": DIRECTIVES, "jwlink": DIRECTIVES, "link": lines.LINK, "tlink": lines.TLINK}
# endings of files of other forms, and the kind of each
OTHER_FORMS = {"com": "com", "sys": "sys", "bin": "bin", "img": "bin"}
# what makes such a file: in words of its own, and in what a program reads
OTHER_HELP = {"sys": "doslink --form sys makes a device driver", "bin": "doslink --form bin makes a raw image"}
OWN_HELP = {
    lines.LINK: {"com": "/T makes a .COM file"}, lines.TLINK: {"com": "/t makes a .COM file"},
    DIRECTIVES: {"com": "format dos com makes a .COM file", "bin": "output raw makes a raw image"}}
# how many folders of each kind are searched at most
MOST_FOLDERS = 64
# standard output as OUT or MAP, and a path that leads to it
STANDARD_OUTPUT, OUTPUT_PATH = "-", "/dev/stdout"
MARKS = [*ordering.BEGIN_MARKS, *ordering.END_MARKS]
# the statuses where the job is at fault, and where what is asked for is wrong
INPUT, WRONG_WORDS, NO_DEVICE = 1, 2, 3
# how long the name of a default library may be
LONGEST_NAME = 255
TWO_NAMES = "two names there differ by case alone"
NO_DRIVE = "there is no such drive"


class Stop(Exception):
    """The job ends with a status; each of the lines says why."""

    def __init__(self, status, kind, lines):
        super().__init__(status, kind, lines)
        self.status = status
        self.kind = kind
        self.lines = lines


@dataclass
class Module:
    """A module: how lines call it, its bytes, its names, and that for which it was taken."""

    word: str
    content: bytes
    names: Names
    wanted: Optional[bytes] = None


def made_module(word, content):
    """A module that is made, in a list; none where there are no bytes."""
    return [] if content is None else [Module(word, content, Names())]


def object_module(path, content):
    return Module(path, content, names_of(content))


def library_modules(path, content):
    """The members of a library, or its fault."""
    return [
        Module(f"{path}({escaped(each.name)})", each.content, names_of(each.content))
        for each in libraries.members(content, path)]


def last_part(path):
    """What stands behind the folders of a path."""
    return re.split(r"[/\\:]", path)[-1]


def language_of(called):
    """What a program reads by its name, in any case and with .exe or without."""
    return CALLED.get(called.lower().removesuffix(".exe"), PROGRAM)


def other_form(path):
    """The kind of the form of which a path has the ending: none of one that has another, or of no path."""
    last = last_part(path or "")
    return OTHER_FORMS.get(last.rpartition(".")[2].lower()) if "." in last else None


def named_otherwise(path, language):
    """A warning that an EXE file has the name of another form, by which of the program's words this is made."""
    makes = {**OTHER_HELP, **OWN_HELP[language]}[other_form(path)]
    return f"warning: {path}: an EXE file is written: {makes}"


def with_ending(path, ending):
    """A path with another ending of its last part."""
    return (path.rpartition(".")[0] if "." in last_part(path) else path) + ending


def with_extension(path, extension):
    """A path with an extension, where it has none."""
    return path if "." in last_part(path) else path + extension


def whole_names(job, first):
    """A job of a line whose program and map have their names: the program that of the first object, in this folder,
    where it has none."""
    extension = forms.EXTENSIONS[job.form.kind]
    unsaid = with_ending(last_part(first), extension)
    job.out = unsaid if job.out is None else whole_path(job.out, unsaid, extension)
    if job.map and job.map != STANDARD_OUTPUT:
        job.map = whole_path(job.map, with_ending(last_part(job.out), line_jobs.MAP), line_jobs.MAP)
    return job


def whole_path(path, name, extension):
    """A path that is said, where this name stands in a folder alone."""
    return with_extension(path, extension) if last_part(path) else path + name


def named_whole(job):
    """A job of directives whose program has its name: one that is said has an extension, or is that of the first file
    in a folder alone, unless it is no file. It is an EXE file by any name where no form is said."""
    if job.out not in (None, STANDARD_OUTPUT):
        extension = forms.EXTENSIONS["exe" if job.form is None else job.form.kind].lower()
        first = next((each.name for each in job.inputs if not each.is_library), STANDARD_OUTPUT)
        name = "OUT" if last_part(first) == STANDARD_OUTPUT else last_part(first)
        job.out = whole_path(job.out, with_ending(name, extension), extension)
    job.form = job.form or Form("exe")
    return job


def nowhere(path):
    """No path is one of a folder, or means two names of one."""
    return False


def in_folder(folder, name):
    """The path of a file in a folder, which is this one where it is empty."""
    return folder + ("/" if folder and folder[-1] not in "/\\:" else "") + name


def paths_of(name, endings, folders):
    """Where a file may be: here, or in the first folder that has it, with one of some endings."""
    return [in_folder(folder, name + ending) for folder in ["", *folders] for ending in endings]


def file_paths(name, folders):
    """Where one of FILES may be: its path may have one of two endings that its name hasn't."""
    endings = ["", ".OBJ", ".obj"] if "." not in last_part(name) else [""]
    return paths_of(name, endings, folders)


def library_paths(name, folders):
    """The same of a library."""
    endings = [""] if "." in last_part(name) else ENDINGS
    return paths_of(name, endings, folders)


def is_foreign(content):
    """Whether a file begins as none with modules does."""
    return libraries.kind_of_file(content) == "object" and not content.startswith(foreign.HEADERS)


def told_name(name):
    """The name of a library, of which so many bytes are told at most."""
    return printed_name(name[:LONGEST_NAME]) + (".." if len(name) > LONGEST_NAME else "")


def why_unread(paths, files):
    """What is said where there is a file at none of some paths: of the last one where there is something else."""
    is_folder, has_two, lacks_drive = (
        getattr(files, name, nowhere) for name in ("is_folder", "has_two", "lacks_drive"))
    for path in reversed(paths):
        if lacks_drive(path):
            return NO_DRIVE
        if has_two(path):
            return TWO_NAMES
        if is_folder(path):
            return "it is a folder"
    return "no such file"


def why_unwritten(path, files, is_free):
    """What is said where no file can be made at a path; it is free where none was just written there."""
    is_folder, has_two, lacks_drive = (
        getattr(files, name, nowhere) for name in ("is_folder", "has_two", "lacks_drive"))
    if lacks_drive(path):
        return NO_DRIVE
    if has_two(path):
        return TWO_NAMES
    if not is_free:
        return "it was just written"
    return "it is a folder" if is_folder(path) else "no such folder"


def looked_path(path):
    """The path that is looked at for what stands at one that is written."""
    return OUTPUT_PATH if path == STANDARD_OUTPUT else path


class Linking:
    """A job while it is done: its files, the modules that it takes, and what is told."""

    def __init__(self, job, files, folders, can_be_made, answer, also_read=()):
        self.job = job
        # response files, and files of directives
        self.also_read = also_read
        self.files = files
        # where a path leads to
        self.place = getattr(files, "place", normpath)
        # and one of a file that is yet to be written
        self.becomes = getattr(files, "becomes", self.place)
        self.is_told_by = getattr(files, "is_told_by", self.place)
        self.folders = folders
        self.can_be_made = can_be_made
        self.answer = answer
        self.key = search.agreed(job.ignores_case)
        # of each file its path and its bytes, and how many of them were searched
        self.inputs = []
        self.searched = 0
        # which of them is none that is read, but the module of what the job says of names
        self.says_names = None
        # the members of libraries, and the modules that are taken
        self.libraries = []
        self.taken = []
        # the default libraries that were named
        self.met = set()
        # the warnings of default libraries that aren't there, and all others
        self.absent = []
        self.warnings = []

    def run(self):
        """Does the job, or raises a Fault or a Stop."""
        if not self.job.inputs:
            raise Stop(WRONG_WORDS, faults.WORDS, ["no file is named to be linked"])
        self.check_form()
        self.check_output()
        self.check_folders()
        self.read_given()
        self.search()
        while self.job.has_default_libraries and self.add_default_libraries():
            self.search()
        if self.job.is_quiet:
            self.absent.clear()
        out, map_path = self.places()
        self.tell()
        self.check_foreign()
        variables = communal.variables(self.taken, self.key)
        self.check_names(variables)
        program = self.linked(variables)
        self.write(out, forms.written_file(program, self.job.form))
        if map_path is not None:
            self.write(map_path, self.map_of(program))
        self.warn_of_program(program, variables)

    def read_given(self):
        """Files and libraries in the order in which they are named.

        Each has to be there; a file may be there by another ending, and in a folder. All that aren't are told.
        """
        lines = []
        for each in self.job.inputs:
            paths = self.paths_of_input(each)
            path = self.found_given(paths)
            if path is None:
                lines.append(f"{each.name}: 1 Device at record 0: {why_unread(paths, self.files)}")
            else:
                self.add(path)
        if lines:
            raise Stop(NO_DEVICE, 1, told_at_most(lines, self.job.is_verbose))
        if naming.says_names(self.job):
            self.says_names = len(self.inputs)
            self.inputs.append((naming.DIRECTIVES, naming.names_module(self.job)))

    def paths_of_input(self, given):
        """Where what is named may be: a library in folders of its own, and a file in those of objects."""
        if given.is_library:
            return library_paths(given.name, self.library_folders())
        return file_paths(given.name, self.job.object_folders)

    def library_folders(self):
        """The folders of libraries: those of the job, and behind them those of LIB."""
        return [*self.job.folders, *self.folders]

    def read_paths(self):
        """The paths of the files that are read."""
        return [path for number, (path, _) in enumerate(self.inputs) if number != self.says_names]

    def map_of(self, program):
        """The map in its form; that of `omf` has the modules behind it."""
        if self.job.map_form == "omf":
            return printing.map_of(program) + self.table_of(program)
        lines, details = [], []
        if self.job.map_has_details:
            details = parts.lines_of(program, self.contents, [each.content for each in self.handed])
        if self.job.map_has_lines:
            words = [each.word for each in self.handed]
            lines = line_numbers.paragraphs(program, words, self.contents)
        return link_map.map_of(program, self.job.map_form, lines, details)

    def found(self, paths):
        """The first path at which a file is, or None."""
        return next((path for path in paths if self.files.get(path) is not None), None)

    def found_given(self, paths):
        """The same, but that a file that is taken last is so where there is another one."""
        return self.found([path for path in paths if not self.is_taken_last(path)]) or self.found(paths)

    def is_taken_last(self, path):
        """Whether the file at a path has no extension, and begins as none with modules does."""
        content = self.files.get(path)
        return content is not None and "." not in last_part(path) and is_foreign(content)

    def add(self, path):
        """One more file."""
        self.inputs.append((path, self.files[path]))

    def add_default_libraries(self):
        """Those that the modules taken so far name and that weren't met before.

        They stand behind the others. One that isn't there is warned of, and one that is among the
        files isn't there twice. An empty name is none. Answers whether there were any.
        """
        names = {}
        for each in self.taken:
            for name in filter(None, each.names.libraries):
                names.setdefault(name, each.word)
        new = [(name, word) for name, word in names.items() if name not in self.met]
        for name, word in new:
            if not self.is_left_out(name):
                self.add_default_library(name, word)
            self.met.add(name)
        return bool(new)

    def is_left_out(self, name):
        """Whether a default library isn't to be searched, in whatever case and with .LIB or without."""
        left_out = [each.lower().removesuffix(".lib") for each in self.job.left_out]
        return name.decode("latin1").lower().removesuffix(".lib") in left_out

    def add_default_library(self, name, word):
        """One that is there and can't be opened is a fault; no file has a name of more than 255 bytes."""
        try:
            paths = library_paths(name.decode(), self.library_folders()) if len(name) <= LONGEST_NAME else []
        except UnicodeDecodeError:
            paths = []
        path, why = self.found(paths), why_unread(paths, self.files)
        if path is None and why == TWO_NAMES:
            raise Stop(NO_DEVICE, 1, [f"{name.decode()}: 1 Device at record 0: {why}"])
        if path is None:
            self.absent.append(
                f"{PROGRAM}: warning: library {told_name(name)} of {word} was not found\n")
        elif self.place(path) not in map(self.place, self.read_paths()):
            self.add(path)

    def search(self):
        """Takes the objects of new files, and members of all libraries for what is wanted then.

        What was taken stays. The first of the new libraries that is at fault is told.
        """
        objects = []
        for path, content in self.inputs[self.searched:]:
            if libraries.kind_of_file(content) == "object":
                objects.append(object_module(path, content))
            else:
                self.libraries.append(library_modules(path, content))
        self.searched = len(self.inputs)
        self.taken += objects
        choices = search.choose(
            [each.names for each in self.taken],
            [[member.names for member in members] for members in self.libraries], self.key)
        self.taken += [
            replace(self.libraries[each.library][each.member], wanted=each.name)
            for each in choices]

    def check_form(self):
        """Where no form is said the program's name may not be that of another than an .EXE."""
        says = other_form(self.job.out)
        if self.job.form is None and says is not None:
            raise Stop(WRONG_WORDS, faults.OTHER_FORM, [
                f"{self.job.out}: without a form an EXE file is written: say --form {says}, or --form exe"])

    def check_output(self):
        """What is linked is told on standard output: then neither the program nor the map is written there."""
        for path, what in ((self.job.out, "program"), (self.job.map, "map")):
            if self.job.is_verbose and path == STANDARD_OUTPUT:
                raise Stop(WRONG_WORDS, faults.WRITTEN_TWICE, [
                    f"{path}: it would be the {what} and the list of what is linked"])

    def check_folders(self):
        """So many folders of libraries are searched, of modules, and of the environment."""
        if max(map(len, [self.job.folders, self.job.object_folders, self.folders])) > MOST_FOLDERS:
            raise Stop(WRONG_WORDS, faults.WORDS, [f"more than {MOST_FOLDERS} folders are to be searched"])

    def places(self):
        """The paths of the program and of the map, or None.

        Neither may be a file that is read, however it is spelled, nor one that begins as a module or
        a library does, nor both one. So it is with the list of what is linked, on standard output.
        """
        out = self.job.out
        if out is None:
            first = min(self.job.inputs, key=lambda each: each.is_library)
            extension = forms.EXTENSIONS[forms.kind_of(self.job.form)]
            out = with_ending("OUT" if first.name == "-" else first.name, extension)
        map_path = self.job.map
        if self.job.maps_to_out:
            map_path = with_ending("OUT" if out == STANDARD_OUTPUT else out, ".MAP")
        self.check_place(out)
        if map_path is not None:
            self.check_place(map_path)
            self.check_apart(map_path, out, "the program and its map")
        if self.job.is_verbose:
            self.check_place(STANDARD_OUTPUT)
            for path, what in ((out, "program"), (map_path, "map")):
                if path is not None:
                    self.check_apart(path, STANDARD_OUTPUT, f"the {what} and the list of what is linked")
        return out, map_path

    def check_apart(self, path, other, what):
        """What is written to two paths is written to two files."""
        if self.is_told_by(looked_path(path)) == self.is_told_by(looked_path(other)):
            raise Stop(WRONG_WORDS, faults.WRITTEN_TWICE, [f"{path}: it would be {what}"])

    def check_place(self, path):
        """A file that is written is none that is read, and no module or library at all."""
        read = [*self.also_read, *self.read_paths()]
        looked = looked_path(path)
        if self.place(looked) in map(self.place, read):
            raise Stop(WRONG_WORDS, faults.READ_AND_WRITTEN, [
                f"{path}: it is read and would be written"])
        if libraries.begins_as_input(self.files.get(looked) or b""):
            raise Stop(WRONG_WORDS, faults.MODULE_WRITTEN, [
                f"{path}: it is a module or a library and would be written"])

    def tell(self):
        """Tells each module, and the name for which it was taken."""
        if self.job.is_verbose:
            for each in self.taken:
                name = "" if each.wanted is None else f" for {printed_name(each.wanted)}"
                self.answer.output += f"{each.word}{name}\n".encode()

    def check_names(self, variables):
        """No name may be missing, but for those that the order's module defines.

        A module that can't be read is told before: it may have lost the names that are missing. And
        so is a member that can't be read, by which the symbol table of its archive offers one.
        """
        missing = list(self.missing())
        marks = [self.key(mark) for mark in MARKS]
        lines = [line for name, line in missing if self.key(name) not in marks]
        self.wants_marks = any(self.key(name) in marks for name, _ in missing)
        if lines:
            self.check_modules(variables)
            self.check_offering(variables, {
                self.key(name) for name, _ in missing if self.key(name) not in marks})
            raise Stop(INPUT, faults.MISSING, told_at_most(lines, self.job.is_verbose))

    def missing(self):
        """Each name that is missing, and a line: who wants it, where, and where one like it is."""
        members = [member for members in self.libraries for member in members]
        lacking = search.missing(
            [replace(each.names, wanted=each.names.needed) for each in self.taken],
            [each.names for each in members], self.key)
        for each in lacking:
            wanter = self.taken[each.wanted_by]
            place = next(wanting_places(wanter.content, each.name))
            line = f"{wanter.word}: {printed_name(each.name)} is missing"
            line += f": record {place} ({place:08X})"
            title = title_of(wanter.content)
            line += "" if title is None else f", wanted by {printed_name(title)}"
            if each.like is not None:
                like_of = [*self.taken, *members][each.like_of].word
                line += f"; {printed_name(each.like)} is in {like_of}"
            yield each.name, line

    def check_foreign(self):
        """The first file or member that begins as no module does has its own fault; COMDATs that clash come first."""
        places = [place for place, each in enumerate(self.taken) if foreign.kind_of(each.content) is not None]
        if places:
            means, fates = plain_meanings(self.taken, [], self.key), comdats.fates(self.taken, self.key)
        for place in places:
            self.check_module(self.taken[place], means[place], fates[place])

    def check_modules(self, variables):
        """The first module that can't be lowered or read has its own fault; COMDATs that clash come first."""
        means = plain_meanings(self.taken, variables, self.key)
        fates = comdats.fates(self.taken, self.key)
        for each, *own in zip(self.taken, means, fates):
            self.check_module(each, *own)

    def check_offering(self, variables, missing):
        """The first member with a fault that a symbol table says to have one of these names."""
        for path, content in self.inputs:
            places = {
                place for name, place in libraries.symbols(content) if self.key(name) in missing}
            for member in libraries.members(content, path) if places else []:
                if member.place - libraries.LENGTH_OF_HEADER in places:
                    each = Module(
                        f"{path}({escaped(member.name)})", member.content, names_of(member.content))
                    *_, own = plain_meanings([*self.taken, each], variables, self.key)
                    self.check_module(each, own, *comdats.fates([each], self.key))

    def check_module(self, each, own, own_fates):
        """A module that can't be lowered or read has its own fault."""
        self.contents, self.handed = [each.content], [each]
        try:
            taking.taken_modules([each.content], self.job.keeps_debug, [own], [own_fates])
        except Fault as fault:
            raise self.with_words(fault) from None

    def linked(self, variables):
        """The program of the modules as they are lowered, with what is local to each, between those
        that are made."""
        taken = self.taken
        means = meanings(taken, variables, self.key)
        fates = comdats.fates(taken, self.key)
        self.contents, self.handed = [each.content for each in taken], taken
        try:
            lowered = taking.taken_modules(self.contents, self.job.keeps_debug, means, fates)
        except Fault as fault:
            raise self.with_words(fault) from None
        lowered = self.with_start(lowered)
        lowered = local.with_locals(taken, lowered, self.key)
        behind = made_module(COMMUNAL, communal.communal_module(variables, lowered))
        self.check_bytes(lowered + [each.content for each in behind])
        contents, added = self.with_stack(lowered + [each.content for each in behind])
        behind += made_module(STACK, added)
        contents += [] if added is None else [added]
        before = made_module(ORDER, self.order_module(contents))
        # the modules as they are linked, and as they were read
        self.contents = [each.content for each in before] + contents
        self.handed = before + taken + behind
        self.check_cut()
        self.warn_of_wide_segments(contents)
        # of each fix-up that had 32 bits, the upper word of the number there
        upper_words = [
            comdats.upper_words(each.content, self.job.keeps_debug, own) for each, own in zip(taken, fates)]
        upper_words = [[] for _ in before] + upper_words + [[] for _ in behind]
        wide_start = any(lowering.has_wide_start(each.content) for each in taken)
        defined = defined_names(taken, variables, self.key)
        known = image.Known(
            upper_words, [local_ones(each, defined, self.key) for each in self.contents],
            self.job.packs_far_data)
        try:
            image.check_sums(self.contents, known, wide_start, self.job.ignores_case)
            return image.link(self.contents, self.job.ignores_case, known)
        except Fault as fault:
            raise self.with_words(fault) from None

    def with_start(self, lowered):
        """Lowered modules, without their own starts where the job says where the program starts."""
        if self.job.start is None:
            return lowered
        says = naming.names_module(self.job)
        return [
            content if each.content == says else naming.without_start(content)
            for each, content in zip(self.taken, lowered)]

    def check_bytes(self, contents):
        """Fault 67 is a program of modules of which no segment has a byte."""
        try:
            modules = [module.read(content, None) for content in contents]
        except Fault:
            return
        if not any(segment.length for each in modules for segment in each.segments):
            raise Fault(NO_PROGRAM)

    def with_stack(self, contents):
        """The bytes of modules with a stack as long as is asked for, and a module for it or None.

        Where a module can't be read nothing is done, so that the link says so.
        """
        if self.job.stack is None:
            return contents, None
        before = self.order_module(contents)
        before = [] if before is None else [before]
        try:
            modules = [module.read(each, None) for each in before + contents]
        except Fault:
            return contents, None
        added, changed = stack.with_length(modules, before + contents, self.job.stack)
        if changed != before + contents:
            text = f"the stack is cut to {self.job.stack.length:,} bytes"
            self.warnings.append(f"{PROGRAM}: warning: {text}\n")
        return changed[len(before):], added

    def check_cut(self):
        """Fault 17 is data in what a stack that is cut has no more."""
        try:
            for owner, content in enumerate(self.contents if self.job.stack else []):
                module.read(content, owner)
        except Fault as fault:
            raise self.with_words(fault) from None

    def warn_of_wide_segments(self, contents):
        """Segments of 32 bits are linked as ones of 16, which is told."""
        words = [
            each.word for each, content in zip(self.taken, contents)
            if lowering.has_wide_segments(each.content, content) or comdats.has_wide_comdats(each.content, content)]
        lines = [] if self.job.is_quiet else [
            f"{PROGRAM}: warning: 32-bit segments of {word} are linked as 16-bit ones\n"
            for word in words]
        self.warnings += limited(lines, self.job.is_verbose)

    def warn_of_program(self, program, variables):
        """What a program lacks that can't be run, also where only faults are asked for, and what it
        reaches in a frame that it doesn't load."""
        segments = [segment for each in program.modules for segment in each.segments]
        # only an .EXE file has a header, which says where the start and the stack are
        has_header = forms.kind_of(self.job.form) == "exe"
        lacks = [
            (NO_START, has_header and all(each.start is None for each in program.modules)),
            (NO_STACK, has_header and not any(each.kind == "stack" and each.length for each in segments)),
            (NO_CODE, not any(data.stored for each in program.modules for data in each.data))]
        self.warnings += [
            f"{PROGRAM}: warning: {text}\n" for text, is_lacking in lacks if is_lacking]
        reached = [
            f"{PROGRAM}: warning: {printed_name(name)} of {handed.word} {IS_REACHED}\n"
            for handed, each in zip(self.handed, program.modules)
            for name in communal.reached_by_offset(each, variables, self.key)]
        self.warnings += limited(reached, self.job.is_verbose)

    def with_words(self, fault):
        """A fault with the word for its module, and its record's place in the module's file.

        Where two publics have one name all such names are told. Of what is too long it
        says by how many bytes.
        """
        if fault.owner is not None:
            owner, linked = self.handed[fault.owner], self.contents[fault.owner]
            place = lowering.own_place(owner.content, linked, fault.place)
            if fault.number == TYPE:
                fault.kind = owner.content[place]
            fault.why = foreign.kind_of(owner.content)
            fault.place = place
            fault.owner = owner.word
        if fault.excess is not None:
            fault.why = f"{fault.excess:,} {'byte' if fault.excess == 1 else 'bytes'} over"
        if fault.number == DUPLICATE:
            raise Stop(INPUT, DUPLICATE, told_at_most(
                list(self.duplicates()), self.job.is_verbose))
        return fault

    def duplicates(self):
        """A line for each name of which a second public is met, then: the modules that have it.

        A local public's name is its module's own. So many modules are told at most, each as often as it has the name.
        """
        words, seconds = {}, []
        for owner, (handed, content) in enumerate(zip(self.handed, self.contents)):
            for public in module.read(content, None).publics:
                key = (owner if public.is_local else None, self.key(public.name))
                words.setdefault(key, []).append(handed.word)
                if len(words[key]) == 2:
                    seconds.append((key, public.name))
        for key, name in seconds:
            where = " and ".join(told_at_most(words[key], self.job.is_verbose, ""))
            yield f"link: {DUPLICATE} DuplicatePublic {printed_name(name)} in {where}"

    def order_module(self, contents):
        """The order's module, or None; also where a module can't be read, so that the link says so.

        An order may have no more parts than names that an index reaches.
        """
        if self.order() == ordering.MEETING and not self.wants_marks:
            return None
        try:
            modules = [module.read(content, None) for content in contents]
        except Fault:
            return None
        try:
            return ordering.order_module(
                modules, self.order(), self.has_null_bytes(), self.key)
        except ordering.TooManyParts:
            raise Stop(INPUT, faults.TOO_MANY_PARTS, [
                "order: TooManySegments: there are more than 16,383 to order"]) from None
        except Fault as fault:
            fault.owner = [*self.taken, *2 * [Module(COMMUNAL, b"", Names())]][fault.owner].word
            raise

    def has_null_bytes(self):
        """Whether the order of DOSSEG has null bytes: a .COM file has none."""
        return self.job.has_null_bytes and forms.kind_of(self.job.form) == "exe"

    def order(self):
        """The order asked for, or that of a comment, or that of meeting."""
        if self.job.order is not None:
            return self.job.order
        asks = any(each.names.dosseg for each in self.taken)
        return ordering.DOSSEG if asks else ordering.MEETING

    def table_of(self, program):
        """Each module by its title and word, and its segments: their starts and lengths."""
        lines = ["modules"]
        for owner, (handed, content) in enumerate(zip(self.handed, self.contents)):
            lines.append(f"{printed_name(title_of(content))} {handed.word}")
            for index, segment in enumerate(program.modules[owner].segments, 1):
                start = start_of(program.layout, owner, index, segment)
                names = f"{printed_name(segment.name)} {printed_name(segment.class_name)}"
                lines.append(f" {start} {segment.length:06X} {names}")
        return "".join(line + "\n" for line in lines).encode()

    def write(self, path, content):
        """Fault 40 is a file that can't be made, or that would take the place of one that was just written."""
        if path == STANDARD_OUTPUT:
            self.answer.output += content
            return
        is_free = self.becomes(path) not in map(self.becomes, self.answer.files)
        try:
            Output(path, is_free and self.can_be_made(path)).write(self.answer, content)
            # a raw image from behind the program's end has no byte, and is a file all the same
            self.answer.files.setdefault(path, b"")
        except Fault as fault:
            fault.owner, fault.why = path, why_unwritten(path, self.files, is_free)
            raise


def start_of(layout, owner, index, segment):
    """Where a segment starts, and whether it moves with the program."""
    if segment.is_absolute:
        return f"{16 * segment.frame + segment.offset:06X} A"
    return f"{layout.part(owner, index)[0].start:06X} R"


def title_of(content):
    """The name in a module's first record, where that is a header and has the whole of it."""
    length = content[3] if content[3:] else 0
    if content[:1] in (b"\x80", b"\x82") and 4 <= len(content) and length <= len(content) - 4:
        return content[4:4 + length]
    return None


def always(path):
    """Each file can be made."""
    return True


# how many lines of a kind are told, unless all are asked for
MOST_TOLD = 20


def told_at_most(lines, tells_all, front="and "):
    """The first lines, and how many more there are."""
    rest = len(lines) - MOST_TOLD
    return lines if tells_all or rest <= 0 else [*lines[:MOST_TOLD], f"{front}{rest:,} more"]


def limited(lines, tells_all):
    """The same of whole lines."""
    rest = len(lines) - MOST_TOLD
    return lines if tells_all or rest <= 0 else [
        *lines[:MOST_TOLD], f"{PROGRAM}: and {rest:,} more\n"]


def told(lines):
    """Lines of the program, each behind its name."""
    return "".join(f"{PROGRAM}: {line}\n" for line in lines)


def link_by_directives(words, files, folders=(), can_be_made=always):
    """The answer to directives, whose names of files are those of DOS.

    What is left out is told before all else, unless nothing is to be told but faults; then, in any case, that an EXE
    file has the name of another form.
    """
    files = DosFiles(files)
    try:
        spoken, spoken_files = directives.spoken(words, files)
        job = directives.read_directives(spoken)
    except directives.DirectiveFault as fault:
        return Answer(WRONG_WORDS, error=told([fault.text]).encode(), fault=faults.WORDS)
    except directives.Unread as unread:
        return unread_answer(unread, files)
    warnings = [] if job.is_quiet else [f"warning: {place}: {text}" for place, text in job.warnings]
    misnamed = []
    if job.form is None and other_form(job.out) is not None:
        misnamed = [named_otherwise(job.out, DIRECTIVES)]
    answer = link_by_dos_names(named_whole(job), files, folders, can_be_made, spoken_files)
    answer.error = told([*told_at_most(warnings, False), *misnamed]).encode() + answer.error
    return answer


def link_by_response(path, files, job_of, folders=(), can_be_made=always):
    """The answer to the words of a response file, by what makes a job of them."""
    try:
        words = directives.split_words(directives.text_of(path, files))
    except directives.Unread as unread:
        return unread_answer(unread, files)
    except directives.Refused as refused:
        return Answer(WRONG_WORDS, error=told([refused.text]).encode(), fault=faults.WORDS)
    return link(job_of(words), files, folders, can_be_made, [path])


def link_by_line(language, words, files, folders=(), can_be_made=always, variable=""):
    """The answer to the words of LINK or TLINK, whose names of files are those of DOS, and to the environment's LINK.

    Its LIB is LINK's alone.

    What is left out is told before all else, then libraries that aren't linked whole, and that an EXE file has the name
    of another form.
    """
    files = DosFiles(files)
    folders = () if language == lines.TLINK else folders
    try:
        front, text, spoken_files = line_jobs.text_of(language, words, files, variable)
        job = line_jobs.job_of(language, text, front)
    except line_jobs.LineRefused as refused:
        return Answer(WRONG_WORDS, error=told([refused.text]).encode(), fault=faults.WORDS)
    except directives.Unread as unread:
        return unread_answer(unread, files)
    first = next((each.name for each in job.inputs if not each.is_library), "")
    warnings = [f"warning: {place}: {what}" for place, what in job.warnings]
    searched = [] if language == lines.TLINK else [
        f"warning: {each.name}: it is searched, and not linked whole" for each in job.inputs
        if not each.is_library and each.name.lower().endswith(".lib")]
    misnamed = []
    if job.form.kind == "exe" and other_form(job.out) is not None:
        misnamed = [named_otherwise(job.out, language)]
    kinds = [*told_at_most(warnings, job.is_verbose), *told_at_most(searched, job.is_verbose), *misnamed]
    try:
        if job.definitions is not None:
            path, statements = line_jobs.definitions_of(job.definitions, files)
            kinds += told_at_most([f"warning: {each}" for each in statements], job.is_verbose)
            spoken_files = [*spoken_files, path]
    except line_jobs.LineRefused as refused:
        return Answer(WRONG_WORDS, error=told([*kinds, refused.text]).encode(), fault=faults.WORDS)
    except directives.Unread as unread:
        answer = unread_answer(unread, files)
        answer.error = told(kinds).encode() + answer.error
        return answer
    answer = link_by_dos_names(whole_names(job, first), files, folders, can_be_made, spoken_files)
    answer.error = told(kinds).encode() + answer.error
    return answer


def link_by_dos_names(job, files, folders, can_be_made, also_read):
    """The answer to a job over files by names of DOS; what is written has the system's names."""
    answer = link(job, files, folders, lambda path: files.can_be_made(path, can_be_made), also_read)
    answer.files = {files.meant(path): content for path, content in answer.files.items()}
    return answer


def unread_answer(unread, files):
    """The answer where a response file isn't there, or is no text."""
    if unread.is_there:
        lines = told([f"{unread.path}: it is no UTF-8 text"])
        return Answer(WRONG_WORDS, error=lines.encode(), fault=faults.WORDS)
    fault = Fault(1, unread.path, 0)
    fault.why = why_unread([unread.path], files)
    return Answer(fault.status, error=fault.line(program=PROGRAM).encode(), fault=1)


def link(job, files, folders=(), can_be_made=always, also_read=()):
    """The answer to a job; folders are those of LIB.

    Nothing is written before all is linked; then OUT is, then the map.
    """
    answer = Answer()
    linking = Linking(job, files, folders, can_be_made, answer, also_read)
    line = ""
    try:
        linking.run()
    except Fault as fault:
        answer.status, answer.fault = fault.status, fault.number
        line = fault.line(program=PROGRAM)
    except Stop as stop:
        answer.status, answer.fault = stop.status, stop.kind
        line = told(stop.lines)
    warnings = limited(linking.absent, job.is_verbose) + linking.warnings
    answer.error = ("".join(warnings) + line).encode()
    return answer
