"""docs/STATEMENT.md and the pages of docs/statement/: all on which the contract of a function rests."""

import difflib
import posixpath
import re
import textwrap
import unicodedata

import cited

GUIDE, READING, WORKED = "STATEMENT.md", "statement/README.md", "statement/worked.md"
FURTHER = "statement/doslink/README.md"
CLAUSES = "Its clauses:"
CITED = "They cite "
WHOLE = "Definition by definition: "
SEVERAL = "## Names of more than one thing"
COUNTS = r"[\d,]+ definitions\sof [\d,]+\slines\sand\s\d+\stypes\sof [\d,]+\slines"
WIDTH = 100


def plain(name):
    """A name as it is printed: that of an operator without the places of its arguments."""
    return name.replace("◌", "")


def wrapped(line, indent=""):
    """The lines of an item of a list or of a paragraph."""
    return textwrap.wrap(
        line, WIDTH, initial_indent=indent, subsequent_indent=indent + "  " * line.startswith("- "),
        break_long_words=False, break_on_hyphens=False)


def differences(page, text, wanted):
    """What is wrong with a page that should be another text."""
    lines = difflib.unified_diff(text.split("\n"), wanted.split("\n"), lineterm="", n=0)
    return [f"docs/{page} {'should have' if line[0] == '+' else 'has'}: {line[1:]}"
            for line in lines if not line.startswith(("---", "+++", "@@"))]


def declared_in(repository, crate, file):
    """The definitions of a file of specs/, or the types of one of src/."""
    folder, _, name = file.partition("/")
    if folder == "specs":
        name = name.removesuffix(".antt")
        found = repository.specs.get((crate, name))
        return [cited.Definition(crate, name, it) for it in found.declared] if found else []
    code = repository.code.get(crate)
    return [cited.Type(crate, it) for it, where in code.types.items() if where.file == name] if code else []


def tabled(repository, part, crate=None):
    """The rows of a part's tables that begin with names: the text of the first cell, and of each of its names what it
    may mean by the files of the last cell. A file without a crate is of the crate that was named before it."""
    for first, last in re.findall(r"^\| (\[?`.*?) \|(?:.*\|)? ([^|]*) \|$", part, re.M):
        files = []
        for other, file in re.findall(r"(\w+)? ?((?:specs|src)/\w+\.(?:antt|rt))", last):
            crate = other or crate
            files.append((crate, file))
        names = {name: {one for it in files for one in declared_in(repository, *it) if plain(one.name) == name}
                 for name in re.findall(r"`([^`]+)`", first)}
        yield first, last, names


class Statement:
    """All on which the contract of a function rests, in the order in which pages show it, and links to each of it."""

    guide, reading = "../STATEMENT.md", "README.md"  # as its pages lead to what leads through them

    def __init__(self, repository, function):
        self.repository, self.found = repository, repository.of_function(function)
        code, file, self.function, self.contract = repository.function(function)
        self.cited = {one for part in code.cited_by_function(self.function, file) for it in part
                      for one in repository.found_in(it)}
        self.scope, self.files = code.scopes[file], repository.files_of(self.found)
        self.order = [it for here in self.files.values() for it in here]
        self.crates = [it for it in repository.crates if any(crate == it for crate, _ in self.files)]

    @staticmethod
    def anchor(one):
        """A word of letters, by which a page has a definition or a type once."""
        name = re.sub(r"[^\w-]", lambda it: unicodedata.name(it[0]).lower().replace(" ", "-"), plain(one.name))
        return f"type-{name}" if isinstance(one, cited.Type) else f"{one.file}-{name}"

    def link(self, one, page=None):
        """A link to a definition or a type from the page of a crate, from another page beside it, or from outside."""
        target = {one.crate: "", None: f"statement/{one.crate}.md"}.get(page, f"{one.crate}.md")
        return f"[`{plain(one.name)}`]({target}#{self.anchor(one)})"

    def links(self, found, page=None):
        """Links to those that the statement has, in its order."""
        return ", ".join(self.link(it, page) for it in self.order if it in found)

    def rests(self, found, page):
        """The lines that say on what something rests."""
        links = self.links(found, page)
        return ["", *wrapped(f"Rests on {links}.")] if links else []

    def sizes(self, found):
        """How many definitions, of how many lines, and how many types, of how many lines."""
        types = {it for it in found if isinstance(it, cited.Type)}
        return [count for it in (found - types, types) for count in (len(it), self.repository.count(it))]

    def size_of(self, crate):
        """The same of a crate, in words."""
        sizes = self.sizes({it for it in self.found if it.crate == crate})
        parts = zip(("definition", "type"), sizes[::2], sizes[1::2])
        return " and ".join(f"{number} {word}{'s' * (number > 1)} of {lines:,} line{'s' * (lines > 1)}"
                            for word, number, lines in parts if number)

    def several(self):
        """The names that stand for more than one thing."""
        names = [it.name for it in self.order]
        return sorted({it for it in names if names.count(it) > 1})

    def of_library(self):
        """The words of the library on which it rests."""
        found = self.scope.of_library(cited.words(" ".join(self.function.clauses)))
        for one in self.order:
            if isinstance(one, cited.Type):
                code = self.repository.code[one.crate]
                block = cited.without_comments(code.shown(one.name), cited.CODE_COMMENT)
                found |= code.scopes[code.types[one.name].file].of_library(cited.words(block))
            else:
                found |= self.repository.specs[one[:2]].of_library([one.name])
        return found


class Further(Statement):
    """The same of a function whose pages stand in a folder below those of another one, and have what those lack."""

    guide, reading = "README.md", "../README.md"

    def __init__(self, repository, function, first):
        super().__init__(repository, function)
        shared, self.above = [it for it in first.order if it in self.found], first.found
        self.found = self.found - first.found
        self.files = repository.files_of(self.found)
        self.order = shared + [it for here in self.files.values() for it in here]
        self.crates = [it for it in repository.crates if any(crate == it for crate, _ in self.files)]

    def link(self, one, page=None):
        """A link to a definition or a type from the page of a crate, or from another one beside it."""
        near = "" if page == one.crate else f"{one.crate}.md"
        target = f"../{one.crate}.md" if one in self.above else near
        return f"[`{plain(one.name)}`]({target}#{self.anchor(one)})"


class CratePage:
    """The page of a crate: its definitions and types as they stand in their files, in an order in which what one rests
    on comes before it."""

    def __init__(self, statement, crate):
        self.statement, self.repository, self.crate = statement, statement.repository, crate
        self.sections = list(self.files())

    def files(self):
        """The files of the crate with what of each is shown: before a definition the types that it names, and the
        others in their own file of the code."""
        shown = set()

        def with_types(one):
            shown.add(one)
            for it in self.statement.order:
                is_type = isinstance(it, cited.Type) and it.crate == self.crate and it in self.statement.found
                if is_type and it in self.repository.rests_on(one) and it not in shown:
                    yield from with_types(it)
            yield one

        for (crate, path), here in self.statement.files.items():
            if crate == self.crate:
                found = [it for one in here if one not in shown for it in with_types(one)]
                if found:
                    yield path, found

    def text(self):
        lines = [f"# The statement: `{self.crate}`", "", *wrapped(self.front()), ""]
        for path, here in self.sections:
            links = ", ".join(self.statement.link(it, self.crate) for it in here)
            lines += wrapped(f"- [{path}](#{self.place(path)}): {links}")
        for path, here in self.sections:
            lines += ["", f'## <a id="{self.place(path)}"></a>{path}', *self.head(path, here)]
            for one in here:
                lines += ["", *self.item(one, path)]
        return "\n".join(lines) + "\n"

    def front(self):
        crates = self.statement.crates
        at = crates.index(self.crate)
        near = (("before", crates[at - 1] if at else None), ("behind", [*crates, None][at + 1]))
        beside = "".join(f"; {word} this page comes [`{it}`]({it}.md)" for word, it in near if it)
        guide, reading = self.statement.guide, self.statement.reading
        return (f"{self.statement.size_of(self.crate)} of crates/{self.crate}, each as it stands in its file and with "
                f"what it rests on. [The statement]({guide}) leads through them; [README.md]({reading}) says "
                f"how to read them{beside}. `tools/definitions --write` makes this page.")

    @staticmethod
    def place(path):
        return re.sub(r"\W", "-", path)

    def head(self, path, here):
        """What a file of specs/ says of itself, and the names under which it takes words of others."""
        if not path.startswith("specs/"):
            return []
        specs = self.repository.specs[self.crate, path[6:].removesuffix(".antt")]
        renamed = specs.renamed([it.name for it in here if not isinstance(it, cited.Type)])
        lines = ["", *wrapped(specs.title)] if specs.title else []
        return lines + (["", "```agda", renamed, "```"] if renamed else [])

    def item(self, one, path):
        """A definition or a type under its name, with what it rests on."""
        is_type = isinstance(one, cited.Type)
        file = f"src/{self.repository.code[one.crate].types[one.name].file}" if is_type else path
        title = f"`{plain(one.name)}`" + (f", of {file}" if file != path else "")
        return [f'### <a id="{self.statement.anchor(one)}"></a>{title}', "", "```rust" if is_type else "```agda",
                self.repository.shown(one), "```", *self.statement.rests(self.repository.rests_on(one), one.crate)]


def worked_groups(repository, crate, path):
    """What a file of worked examples declares, from one comment to the next, with what each group rests on."""
    specs, groups = cited.Specs(repository, crate, "Worked", path.read_text(encoding="utf-8")), []
    for name in specs.declared:
        if specs.says[name] or not groups:
            groups.append([])
        groups[-1].append(name)
    for names in groups:
        cites = (it for name in names for it in specs.declared[name].cites(specs.scope))
        title = specs.says[names[0]] or "the words that they use"
        yield title[0].upper() + title[1:], specs.text(names), set().union(*map(repository.found_in, cites))


def worked_page(statement):
    """The page of the examples that Worked.antt of some crates, or of their tests, has the checker evaluate."""
    lines = ["# Worked examples", ""]
    lines += wrapped(
        "Bodies, programs, fix-ups and a file, with the numbers that the definitions give for them. The checker "
        "evaluates each line with `≡` that `refl` proves, and refuses another number. [README.md](README.md) says how to read "
        "them; `tools/definitions --write` makes this page.")
    root = statement.repository.root
    for crate in statement.crates:
        # no module of tests has the whole name of a library: `mz_file` has those of `mz`
        name = crate.removeprefix("omf_")
        of_tests = [it for end in ("", "_file") for it in root.glob(f"crates/*_tests/proofs/{name}{end}/Worked.antt")]
        files = [*root.glob(f"crates/{crate}/proofs/Worked.antt"), *of_tests]
        if files:
            lines += ["", f'## <a id="{crate}"></a>`{crate}`: ' + ", ".join(str(it.relative_to(root)) for it in files)]
        groups = (it for path in files for it in worked_groups(statement.repository, crate, path))
        for at, (title, text, rests) in enumerate(groups, 1):
            lines += ["", f"### {at}. {title}", "", "```agda", text, "```", *statement.rests(rests, "worked")]
    return "\n".join(lines) + "\n"


class Guide:
    """docs/STATEMENT.md, which is written by hand but for the contract, the counts and the links."""

    def __init__(self, statement, text):
        self.statement, self.wrong, self.led = statement, [], set()
        parts = re.split(r"^(?=## )", text, flags=re.M)
        parts[0] = re.sub(COUNTS, self.counted, parts[0])
        text = "".join(self.chapter(it) if re.match(r"## \d", it) else it for it in parts).rstrip("\n") + "\n"
        self.text = self.with_contract(text)
        self.wrong += [f"docs/{GUIDE} leads to no page of `{it}`" for it in statement.crates if it not in self.led]

    def counted(self, found):
        """How many there are, with the spaces and ends of lines that the words have."""
        sizes = iter(self.statement.sizes(self.statement.found))
        return re.sub(r"[\d,]+", lambda _: f"{next(sizes):,}", found[0])

    def with_contract(self, text):
        """The text with the contract as it stands in the code, and links to what it cites."""
        contract = self.statement.contract
        cites = "\n".join(wrapped(f"{CITED}{self.statement.links(self.statement.cited)}."))
        text = re.sub(rf"(?<=^{CLAUSES}\n\n```rust\n).*?(?=\n```$)", lambda _: contract, text, flags=re.M | re.S)
        text = re.sub(rf"^{CITED}(?s:.*?)(?=\n\n)", lambda _: cites, text, flags=re.M)
        self.wrong += [f"docs/{GUIDE} leaves out `{it}`" for it in (contract, cites) if it not in text]
        return text

    def chapter(self, part):
        """A chapter with links in its tables, and below them to the pages of their crates."""
        kept, *more = re.split(rf"^{WHOLE}", part, maxsplit=1, flags=re.M)
        rows = list(tabled(self.statement.repository, kept))
        named = {one.crate for _, _, names in rows for found in names.values() for one in found}
        self.led |= named
        pages = (f"[`{it}`](statement/{it}.md), {self.statement.size_of(it)}"
                 for it in self.statement.crates if it in named)
        line = "\n".join(wrapped(f"{WHOLE}{'; '.join(pages)}."))
        behind = "".join(more).partition("\n\n")[2]
        return "\n\n".join(filter(None, [self.linked(kept, rows), line, behind])).rstrip("\n") + "\n\n"

    def linked(self, part, rows):
        """A part with links in the first cells of its tables."""
        for first, last, names in rows:
            for name, found in names.items():
                self.wrong += [] if found & self.statement.found else [
                    f"docs/{GUIDE} names `{name}`, which {last} doesn't define or `link` doesn't rest on"]
            links = ", ".join(self.statement.links(found) or f"`{name}`" for name, found in names.items())
            part = part.replace(f"| {first} |", f"| {links} |", 1)
        return part.rstrip("\n")


class FurtherGuide:
    """docs/statement/doslink/README.md, which is written by hand but for the contract, the counts and the links."""

    def __init__(self, statement, text):
        self.statement, self.wrong = statement, []
        sizes = iter(f"{it:,}" for it in statement.sizes(statement.found))
        text = re.sub(COUNTS, lambda found: re.sub(r"[\d,]+", lambda _: next(sizes), found[0]), text, count=1)
        text = self.replaced(rf"(?<=^{CLAUSES}\n\n```rust\n).*?(?=\n```$)", statement.contract, text)
        cites = "\n".join(wrapped(f"{CITED}{statement.links(statement.cited)}."))
        text = self.replaced(rf"^{CITED}.*?(?=\n\n)", cites, text)
        pages = "; ".join(f"[`{it}`]({it}.md), {statement.size_of(it)}" for it in statement.crates)
        self.text = self.replaced(rf"^{WHOLE}.*?(?=\n\n)", "\n".join(wrapped(f"{WHOLE}{pages}.")), text)

    def replaced(self, pattern, wanted, text):
        """The text with something made in its place."""
        text = re.sub(pattern, lambda _: wanted, text, flags=re.M | re.S)
        self.wrong += [] if wanted in text else [f"docs/{FURTHER} leaves out `{wanted}`"]
        return text


class Reading:
    """docs/statement/README.md, which is written by hand but for the links of names of more than one thing. Each such
    name has to stand there, and each word of the library."""

    def __init__(self, statement, text):
        self.statement, self.wrong = statement, []
        front, head, rest = text.partition(SEVERAL)
        table, after, behind = rest.partition("\n## ")
        listed, several = re.findall(r"^\| `([^`]+)` \|", table, re.M), statement.several()
        self.wrong += [f"docs/{READING} lists `{it}`, which stands for one thing alone"
                       for it in listed if it not in several]
        self.wrong += [f"`{it}` stands for more than one thing, and docs/{READING} doesn't list it"
                       for it in several if it not in listed]
        self.text = front + head + re.sub(r"^\| `([^`]+)` \|.*$", self.row, table, flags=re.M) + after + behind
        self.wrong += [f"docs/{READING} doesn't say what the library's `{it}` means"
                       for it in sorted(statement.of_library() - self.said())]

    def row(self, found):
        """The row of a name with a link to each thing."""
        files = self.statement.files.items()
        things = (f"[{crate} {path}]({crate}.md#{self.statement.anchor(it)})"
                  for (crate, path), here in files for it in here if it.name == found[1])
        return f"| `{found[1]}` | {', '.join(things)} |"

    def said(self):
        """The words of the text that are no plain words."""
        return set(" ".join(re.findall(r"`([^`\n]+)`", self.text.replace(r"\|", "|"))).replace(",", " ").split())


class Pages:
    """All pages of the statement of a function, and of a further one where there is such: what they should be, and what
    is wrong with those that there are."""

    def __init__(self, repository, function, further):
        self.docs, statement = repository.root / "docs", Statement(repository, function)
        guide, reading = Guide(statement, self.read(GUIDE)), Reading(statement, self.read(READING))
        self.wanted = {f"statement/{it}.md": CratePage(statement, it).text() for it in statement.crates}
        self.wanted |= {WORKED: worked_page(statement), GUIDE: guide.text, READING: reading.text}
        self.wrong = [*guide.wrong, *reading.wrong]
        if repository.function(further):
            self.add(Further(repository, further, statement))
        self.wrong += self.dangling()

    def add(self, further):
        """Adds the pages of a further function."""
        guide = FurtherGuide(further, self.read(FURTHER))
        self.wanted |= {f"statement/doslink/{it}.md": CratePage(further, it).text() for it in further.crates}
        self.wanted |= {FURTHER: guide.text}
        self.wrong += guide.wrong

    def read(self, page):
        path = self.docs / page
        return path.read_text(encoding="utf-8") if path.exists() else ""

    def dangling(self):
        """The links to a place of a page that the page doesn't have."""
        places = {page: set(re.findall(r'<a id="([^"]+)"', text)) for page, text in self.wanted.items()}
        for page, text in self.wanted.items():
            for other, place in re.findall(r"\]\(([\w/.]+\.md)?#([^)]+)\)", text):
                target = posixpath.normpath(posixpath.join(posixpath.dirname(page), other)) if other else page
                if place not in places.get(target, ()):
                    yield f"docs/{page} leads to {other}#{place}, which isn't there"

    def other(self):
        """Pages beside them that are none of theirs."""
        pages = (str(it.relative_to(self.docs)) for it in (self.docs / "statement").rglob("*.md"))
        return sorted(it for it in pages if it not in self.wanted)

    def faults(self):
        """What is wrong with the pages."""
        wrong = list(self.wrong)
        for page, wanted in self.wanted.items():
            wrong += differences(page, self.read(page), wanted)
        return wrong + [f"docs/{it} is no page of the statement" for it in self.other()]

    def write(self):
        (self.docs / FURTHER).parent.mkdir(parents=True, exist_ok=True)
        for page in self.other():
            (self.docs / page).unlink()
        for page, text in self.wanted.items():
            (self.docs / page).write_text(text, encoding="utf-8")
