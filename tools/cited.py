"""What contracts and definitions cite: definitions of specs/, and types that src/ declares."""

import re
from functools import cache, cached_property
from typing import NamedTuple

LIBRARY = "Rattle"
MARKS = {"pub", "abbrev", "unfoldable", "opaque", "axiom", "pattern"}
KINDS = {"data", "record", "mutual", "module"}
HEADERS = {"use", "mod", "infix", "infixl", "infixr", "ruleset", "open"}
CLOSERS = {"(": ")", "{": "}", "[": "]"}
COMMENT = r"\{-(?s:.*?)-\}|--.*"
CODE_COMMENT = r"/\*(?s:.*?)\*/|//.*"
WORD = re.compile(r"[(){}\[\];,]|(?:«[^»]*»|[^\s(){}\[\];,«»])+")
USE = re.compile(r"^[ \t]*(?:pub |ghost )*use Rattle\.([^\s{};]*?)(?:\.?\{([^}]*)\}| as (\S+?))?;?[ \t]*$", re.M)


class Definition(NamedTuple):
    """A definition of a file below a crate's specs/."""
    crate: str
    file: str
    name: str


class Type(NamedTuple):
    """A type or a trait that a crate's code declares."""
    crate: str
    name: str


def without_comments(text, comment):
    """The text with its lines, without such comments and without what its strings hold."""
    def left(found):
        return '""' if found[0][0] == '"' else "\n" * found[0].count("\n")

    return re.sub(rf'"[^"\n]*"|{comment}', left, text)


def words(text):
    """The words and brackets of a text. A reserved word is a name between « and »."""
    return WORD.findall(text)


def indent(line):
    return len(line) - len(line.lstrip(" "))


def closing(tokens, at):
    """Where the bracket at a place is closed."""
    depth = 0
    for end in range(at, len(tokens)):
        depth += (tokens[end] in CLOSERS) - (tokens[end] in CLOSERS.values())
        if depth == 0:
            return end
    return len(tokens)


def find(tokens, wanted, start=0):
    """The first place behind no open bracket of a word for which the test holds, or the end."""
    at = start
    while at < len(tokens) and not wanted(tokens[at]):
        at = closing(tokens, at) + 1
    return min(at, len(tokens))


def split(tokens, marks):
    """The parts between these words, where they stand in no bracket."""
    parts, start = [], 0
    while start <= len(tokens):
        end = find(tokens, lambda it: it in marks, start)
        parts.append(tokens[start:end])
        start = end + 1
    return parts


def end_of_let(tokens, at):
    """The place of the `in` that belongs to the `let` at a place."""
    depth = 0
    while at < len(tokens):
        depth += (tokens[at] == "let") - (tokens[at] == "in")
        if depth == 0:
            break
        at = closing(tokens, at) + 1
    return at


def typed(tokens):
    """The names that a bracket binds, and their type, where it is one such as `(x y : A)`."""
    colon = find(tokens, lambda it: it == ":")
    names = tokens[:colon]
    is_binder = 0 < colon < len(tokens) and not any(it in CLOSERS or it in ("=", ";", ",") for it in names)
    return (names, tokens[colon + 1 :]) if is_binder else ([], [])


class Scope:
    """What the words of a file mean, by its `use` lines and what it defines itself."""

    def __init__(self, repository, text):
        self.repository, self.names, self.modules, self.variants, self.library = repository, {}, {}, set(), {}
        for path, listed, alias in USE.findall(text):
            if listed:
                for one in filter(None, (it.strip() for it in listed.split(","))):
                    name, _, other = one.partition(" as ")
                    self.take(f"{path}.{name}", other or name.rpartition(".")[2])
            else:
                self.modules.setdefault(alias or path.rpartition(".")[2], set()).add(path)

    def take(self, path, word):
        found = self.repository.named(path)
        if found:
            self.define(word, found)
            if ".TheVariants." in path:
                self.variants.add(word)
        else:
            self.library |= dict.fromkeys(filter(None, word.split("◌")), path.rpartition(".")[2])

    def define(self, word, found):
        """An operator is known by its whole name, and by what stands between the places of its arguments."""
        for each in {word, *filter(None, word.split("◌"))}:
            self.names.setdefault(each, set()).add(found)

    def meant(self, word):
        """What a word may mean. Behind a dot stands a field, or a name of the module before it."""
        first, _, rest = word.partition(".")
        found = set(self.names.get(first, ()))
        for path in self.modules.get(first, ()):
            found.add(self.repository.named(f"{path}.{rest}"))
        if first == LIBRARY:
            found.add(self.repository.named(rest))
        return found - {None}

    def of_library(self, tokens):
        """The words among these that the file takes from the library."""
        return {first for first in (it.partition(".")[0] for it in tokens) if first in self.library}

    def is_constructor(self, word):
        return word in self.variants or any(map(self.repository.is_constructor, self.names.get(word, ())))


def pattern(tokens, scope, bound):
    """The names that a pattern binds, and what it cites."""
    names, found, at = set(), set(), 0
    while at < len(tokens):
        token = tokens[at]
        if token in CLOSERS:
            end = closing(tokens, at)
            inner = tokens[at + 1 : end]
            binds, type_ = typed(inner)
            names |= set(binds)
            found |= cited(type_, scope, bound)
            for item in [] if binds else split(inner, {",", ";"}):
                more, cites = pattern(item[2:] if item[1:2] == ["="] else item, scope, bound)
                names, found = names | more, found | cites
            at = end
        elif "." in token.strip(".") or scope.is_constructor(token):
            found |= scope.meant(token)
        elif token != "record":
            names.add(token)
        at += 1
    return names, found


def cited(tokens, scope, bound=frozenset()):
    """What a term cites, where these names are bound around it. A binder holds up to the end of the bracket or of the
    item that it stands in."""
    return set().union(*(cited_by_item(it, scope, set(bound)) for it in split(tokens, {",", ";"})))


def cited_by_item(tokens, scope, bound):
    found, at = set(), 0
    while at < len(tokens):
        token = tokens[at]
        if token == "λ":
            dot = find(tokens, lambda it: it.endswith("."), at + 1)
            names, cites = pattern([*tokens[at + 1 : dot], *filter(None, [tokens[dot][:-1]])], scope, bound)
            found, bound, at = found | cites, bound | names, dot
        elif token == "let":
            end = end_of_let(tokens, at)
            equals = find(tokens, lambda it: it == "=", at + 1)
            front, *type_ = split(tokens[at + 1 : equals], {":"})
            names, cites = pattern(front, scope, bound)
            for part in [*type_, tokens[equals + 1 : end]]:
                found |= cited(part, scope, bound)
            found, bound, at = found | cites, bound | names, end
        elif token in CLOSERS:
            end = closing(tokens, at)
            names, cites = cited_in_bracket(tokens, at, end, scope, bound)
            found, bound, at = found | cites, bound | names, end
        elif token.partition(".")[0] not in bound:
            found |= scope.meant(token)
        at += 1
    return found


def cited_in_bracket(tokens, start, end, scope, bound):
    """The names that a bracket binds for what follows it, and what it cites. The word before a `=` is a label."""
    inner, is_record = tokens[start + 1 : end], "record" in tokens[max(start - 2, 0) : start]
    names, type_ = ([], []) if is_record else typed(inner)
    if names:
        return set(names), cited(type_, scope, bound)
    found, fields = set(), set()
    if find(inner, lambda it: it == "↦") < len(inner):
        for case in split(inner, {"|"}):
            front, *rest = split(case, {"↦"})
            binds, cites = pattern(front, scope, bound)
            found |= cites.union(*(cited(it, scope, bound | binds) for it in rest))
        return set(), found
    for item in split(inner, {",", ";"}):
        labelled = tokens[start] == "{" and item[1:2] in (["="], [":"])
        found |= cited_by_item(item[2:] if labelled else item, scope, bound | fields)
        fields |= {item[0]} if item[1:2] == [":"] else set()
    return set(), found


class Block(NamedTuple):
    """A block that definitions stand in: the parameters that it gives them, and the numbers of its first lines."""
    parameters: list
    lines: list


class Declaration:
    """A definition as its file has it: the blocks around it, its signature, what belongs to it, and the numbers of its
    lines."""

    def __init__(self, kind, name, around, signature):
        self.kind, self.name, self.around, self.signature = kind, name, around, signature
        self.parts, self.lines = [], []

    @property
    def constructors(self):
        if self.kind != "data":
            return []
        return [name for it in map(self.without_marks, self.parts) for name in it[: find(it, lambda word: word == ":")]]

    @staticmethod
    def without_marks(tokens):
        return tokens[1:] if tokens[:1] == ["pub"] else tokens

    def cites(self, scope):
        found, bound = set(), set()
        for tokens, _ in self.around:
            found, bound = found | cited(tokens, scope, bound), bound | pattern(tokens, scope, bound)[0]
        found |= cited(self.signature, scope, bound)
        if self.kind in ("data", "record"):
            colon = find(self.signature, lambda it: it == ":")
            bound |= pattern(self.signature[:colon], scope, bound)[0]
            for tokens in map(self.without_marks, self.parts):
                is_field = tokens[1:2] == [":"]
                found |= cited(tokens[2:] if is_field else tokens, scope, bound)
                bound |= {tokens[0]} if is_field and self.kind == "record" else set()
            return found
        own = {self.name, *self.name.split("◌")}
        for tokens in self.parts:
            equals = find(tokens, lambda it: it == "=")
            if tokens[0] == "unfolding" or equals == len(tokens):
                found |= cited(tokens, scope, bound)
                continue
            names, cites = pattern([it for it in tokens[:equals] if it not in own], scope, bound)
            found |= cites | cited(tokens[equals + 1 :], scope, bound | names)
        return found


def items(lines):
    """Lines with those behind them that are further in or end an open bracket. A line is its number and its text."""
    found, depth = [], 0
    for line in lines:
        if not found or depth == 0 and indent(line[1]) <= indent(lines[0][1]):
            found.append([])
        found[-1].append(line)
        depth += sum((it in CLOSERS) - (it in CLOSERS.values()) for it in words(line[1]))
    return found


def joined(lines):
    return words(" ".join(text for _, text in lines))


def declarations(lines, around=()):
    """The declarations of a file or of a block in it."""
    found = []
    for item in items(lines) if lines else []:
        tokens, numbers = joined(item), [number for number, _ in item]
        head = find(tokens, lambda it: it not in MARKS | KINDS)
        kinds = KINDS.intersection(tokens[:head])
        rest = tokens[head + 1 :]
        is_signature = head > 0 or rest[find(rest, lambda it: it in (":", "=")) :][:1] == [":"]
        header = 1 + next((at for at, (_, text) in enumerate(item) if text.split()[-1:] == ["where"]), len(item) - 1)
        if "mutual" in kinds:
            found += declarations(item[1:], [*around, Block([], numbers[:1])])
        elif "module" in kinds:
            block = Block(joined(item[:header])[head + 1 : -1], numbers[:header])
            found += declarations(item[header:], [*around, block])
        elif tokens[head] in HEADERS:
            continue
        elif is_signature:
            end = header if kinds else len(item)
            found.append(Declaration(*kinds or ["term"], tokens[head], around, joined(item[:end])[head + 1 :]))
            found[-1].parts += map(joined, items(item[end:]) if item[end:] else [])
            found[-1].lines += numbers
        elif found:
            found[-1].parts.append(tokens)
            found[-1].lines += numbers
    return found


def above(lines, at):
    """The numbers of the lines right above one that speak of it: its comment, and an operator's precedence."""
    first = at - 1 if at and lines[at - 1].lstrip().startswith("infix") else at
    while first and re.match(r" *-- (?!----)", lines[first - 1]):
        first -= 1
    return range(first, at)


def comment_above(lines, at):
    """The comment right above a line, as one line."""
    return " ".join(lines[it].strip()[3:] for it in above(lines, at) if lines[it].lstrip().startswith("--"))


class Specs:
    """A file of specs/: what its head says, and its definitions in their order, each with what the comment above it
    says."""

    def __init__(self, repository, crate, file, raw):
        text, self.lines = without_comments(raw, COMMENT), raw.split("\n")
        end = next((at for at, line in enumerate(self.lines) if not line.startswith("--")), 0)
        self.title, self.scope = comment_above(self.lines, end), Scope(repository, text)
        found = declarations([(at, it) for at, it in enumerate(text.split("\n")) if it.strip()])
        self.declared = {it.name: it for it in found}
        self.says = {it.name: comment_above(self.lines, it.lines[0]) for it in found}
        self.owners = {name: it.name for it in found for name in it.constructors}
        for name in [*self.declared, *self.owners]:
            self.scope.define(name, Definition(crate, file, name))

    def numbers(self, names):
        """The numbers of the lines of these definitions and of the blocks that they stand in, without comments."""
        found = set()
        for it in map(self.declared.get, names):
            found.update(it.lines, *(block.lines for block in it.around))
        return found

    def text(self, names):
        """These definitions as they stand in the file, with their comments and the blocks around them."""
        shown = set()
        for it in map(self.declared.get, names):
            for first, *rest in [*(block.lines for block in it.around), it.lines]:
                shown.update(above(self.lines, first), range(first, max([first, *rest]) + 1))
        return "\n".join(("" if at - 1 in shown else "\n") + self.lines[at] for at in sorted(shown)).strip("\n")

    def renamed(self, names):
        """The lines that take a word under another name, as far as these definitions use it."""
        used = {it.partition(".")[0] for it in words(self.text(names))}
        uses = (it for it in self.lines if it.startswith("use "))
        return "\n".join(it for it in uses if used.intersection(re.findall(r" as ([^\s,}]+)", it)))

    def of_library(self, names):
        """The words of the library in these definitions."""
        return self.scope.of_library(words("\n".join(self.lines[it].partition("--")[0] for it in self.numbers(names))))


class Declared(NamedTuple):
    """A type or trait of the code: its file below src/, and its text with comments and without attributes."""
    file: str
    text: str


def braced(text, at):
    """The text inside the next braces, and the place behind them."""
    start, depth = text.index("{", at), 0
    for end in range(start, len(text)):
        depth += (text[end] == "{") - (text[end] == "}")
        if depth == 0:
            break
    return text[start + 1 : end], end + 1


def top_level(source):
    """What stands in a file of code side by side, each with the comments and attributes above it."""
    blocks = [[]]
    for line in source.split("\n"):
        is_head = not re.match(r"$|[ {})\]>]|where\b", line)
        if is_head and any(it.strip() and not it.startswith(("//", "#")) for it in blocks[-1]):
            blocks.append([])
        blocks[-1].append(line)
    return ["\n".join(it) for it in blocks]


def head_of(block):
    """What a block of code begins with behind comments and attributes, up to the first brace, in one line."""
    return " ".join(re.sub(r"^(?://|#).*", "", block, flags=re.M).partition("{")[0].split())


def owner_of(line, inner):
    """The type or trait that a block of code belongs to; none where it is about an inner trait or type of the crate."""
    made_from = re.match(r"impl(?:<[^<>]*>)? From<(\w+)", line)
    if made_from and made_from[1] in inner:
        return None
    line = line.replace("->", "")
    while "<" in line and line != (line := re.sub(r"<[^<>]*>", "", line)):
        pass
    match = re.match(r"(?:unsafe )?impl (?:([\w:]+) for )?&?(\w+)", line)
    match = match or re.match(r"pub (?:unsafe )?(trait|struct|enum) (\w+)", line)
    return match[2] if match and match[1] not in inner else None


class Function(NamedTuple):
    """A function: the words before `fn`, its name, its signature, and its clauses."""
    marks: list
    name: str
    signature: str
    clauses: list

    @property
    def values(self):
        """The names of what a clause may speak of, each as it is and as one that is a reserved word."""
        names = {"self", "result", *re.findall(r"(\w+)\s*:(?!:)", self.signature.partition("(")[2])}
        return names | {f"«{it}»" for it in names}


HEAD = re.compile(r"^( *)((?:[\w()]+ )*)fn (\w+)", re.M)
CLAUSE = re.compile(r"\[[^\[\]]*\]|\([^()]*\)|\b(?:requires|ensures)\b\*?\s*\w*\s*(\{)|[{;]")
GHOST = re.compile(r"^    (?:pub )?ghost (?!use\b)(\w+)", re.M)


def functions(block, depth):
    """The functions of a block of code that stand so far in."""
    for head in HEAD.finditer(block):
        if len(head[1]) != depth:
            continue
        at, end, clauses = head.end(), None, []
        while found := CLAUSE.search(block, at):
            at = found.end()
            if found[1]:
                end = found.start() if end is None else end
                clause, at = braced(block, found.start(1))
                clauses.append(clause)
            elif found[0] in "{;":
                break
        yield Function(head[2].split(), head[3], block[head.start() : end or at], clauses)


def ghosts(block):
    """The ghost items of a trait, a type or of what is done for one: their names, and the terms after each."""
    found = {}
    for head in GHOST.finditer(block):
        at, terms = head.end(), []
        while re.compile(r"\s*[:=]\s*\{").match(block, at):
            term, at = braced(block, at)
            terms.append(term)
        found[head[1]] = terms
    return found


class Code:
    """The code of a crate, without its tests: what it hands out, its types, and its public contracts."""

    def __init__(self, repository, crate, folder):
        self.repository, self.crate, self.sources = repository, crate, {}
        for path in sorted(folder.rglob("*.rt")):
            if "tests" not in (*path.relative_to(folder).parts, path.stem):
                self.sources[path.relative_to(folder).as_posix()] = path.read_text(encoding="utf-8")
        self.plain = {file: without_comments(it, CODE_COMMENT) for file, it in self.sources.items()}
        self.blocks = [(file, it) for file, text in self.plain.items() for it in top_level(text)]
        root = self.plain.get("lib.rt", self.plain.get("main.rt", ""))
        self.public = set(re.findall(r"^pub (?:fn|struct|enum|trait|type|const) (\w+)", root, re.M))
        for listed in re.findall(r"^pub use [\w:]+::(\{[^}]*\}|\w+);", root, re.M):
            self.public |= set(re.findall(r"\w+", listed))

    @cached_property
    def scopes(self):
        return {file: Scope(self.repository, it) for file, it in self.plain.items()}

    @cached_property
    def types(self):
        """Its types and traits, by name."""
        found = {}
        for file, source in self.sources.items():
            for block in top_level(source):
                head = re.match(r"(?:pub(?:\(\w+\))? )?(?:struct|enum|trait|type) (\w+)", head_of(block))
                if head:
                    found[head[1]] = Declared(file, re.sub(r"^(?: *#!?\[|//!).*\n", "", block, flags=re.M).strip())
        return found

    @cached_property
    def models(self):
        """What a clause sees of a type that has a model: the file, and the words of that type."""
        found = {}
        for file, block in self.blocks:
            head = re.match(r"impl.*? Model for (\w+)", head_of(block))
            if head:
                found[head[1]] = (file, words(" ".join(ghosts(block).get("Value", ()))))
        return found

    def shown(self, name):
        """A type as clauses see it: one with a model without its fields."""
        text = self.types[name].text
        if name not in self.models:
            return text
        seen = set().union(*map(self.repository.found_in, self.cited_by_type(name)))
        names = ", ".join(f"`{it.name}` of {it.crate} specs/{it.file}.antt" for it in sorted(seen))
        return re.sub(r" \{\n.*|;$", f" {{ .. }}\n// seen as {names or 'a value of the library'}", text, flags=re.S)

    def type_named(self, word, file):
        """The type that a word of a file of code means, if the code declares it."""
        crate = self.crate
        for path, listed in re.findall(r"^(?:pub )?use ([\w:]+)::(\{[^}]*\}|\w+(?: as \w+)?);", self.plain[file], re.M):
            for name, other in re.findall(r"(\w+)(?: as (\w+))?", listed):
                if word == (other or name):
                    first = path.partition("::")[0]
                    is_own = first in ("crate", "self", "super") or f"{first}.rt" in self.plain
                    crate, word = self.crate if is_own else first, name
        code = self.repository.code.get(crate)
        return Type(crate, word) if code and word in code.types else None

    def inner_in(self, file):
        """The words of a file for types and traits that aren't handed out: the crate's own, and those of inner modules
        of others."""
        taken = re.findall(r"^(?:pub )?use \w[\w:]*::(\{[^}]*\}|\w+);", self.plain[file], re.M)
        named = {it: self.type_named(it, file) for it in re.findall(r"[A-Z]\w*", " ".join(taken))}
        found = {it for it, type_ in named.items() if type_ and it not in self.repository.code[type_.crate].public}
        return set(self.types) - self.public | found

    def types_in(self, text, file):
        """The types that the code declares and a text of a file names."""
        return {self.type_named(it, file) for it in re.findall(r"\b[A-Z]\w*", text)} - {None}

    def cited_by_type(self, name):
        """What a type says: of one with a model only what is seen of it, else its fields and ghost items."""
        if name in self.models:
            file, value = self.models[name]
            return cited(value, self.scopes[file])
        file, text = self.types[name]
        block = without_comments(text, CODE_COMMENT)
        is_enum = re.search(r"^(?:pub(?:\(\w+\))? )?enum ", block, re.M)
        found = self.types_in(re.sub(r"^    \w+", "", block, flags=re.M) if is_enum else block, file)
        fields = set(re.findall(r"^    (?:pub )?(\w+):", block, re.M))
        return (found | self.cited_by_block(block, file, True, fields)) - {Type(self.crate, name)}

    def cited_by_block(self, block, file, takes_all, fields=frozenset()):
        """What the ghost items of a block and the contracts of its methods cite: of all, or of the public ones."""
        scope, items, found = self.scopes[file], ghosts(block), set()
        bound = {"self", *items, *fields}
        for terms in items.values():
            found |= set().union(*(cited(words(it), scope, bound) for it in terms))
        for each in functions(block, 4):
            if takes_all or each.marks[:1] == ["pub"]:
                found |= set().union(*(cited(words(it), scope, bound | each.values) for it in each.clauses))
        return found

    def cited_by_contracts(self):
        """What the public contracts cite: those of functions, of types and traits, and of what is done for types."""
        found = set()
        for file, block in self.blocks:
            line = head_of(block)
            if owner_of(line, self.inner_in(file)) in self.public:
                takes_all = " trait " in line or re.match(r"(?:unsafe )?impl\b.* for ", line)
                fields = set(re.findall(r"^    (?:pub )?(\w+):", block, re.M))
                found |= self.cited_by_block(block, file, takes_all, fields)
            for each in functions(block, 0):
                if each.marks[:1] == ["pub"] and each.name in self.public:
                    found |= self.cited_by_function(each, file)[0]
        return found

    def cited_by_function(self, function, file):
        """What the clauses of a function cite, and the types of its signature."""
        terms = (cited(words(it), self.scopes[file], function.values) for it in function.clauses)
        return set().union(*terms), self.types_in(function.signature, file)


class Repository:
    """The crates below a folder, each behind those that it stands on."""

    def __init__(self, root):
        self.root = root
        listed = re.findall(r"^(\w+):", (root / "crates.txt").read_text(encoding="utf-8"), re.M)
        folders = {it: root / "crates" / it for it in listed if (root / "crates" / it / "specs").is_dir()}
        self.crates = list(folders)
        self.code = {crate: Code(self, crate, folder / "src") for crate, folder in folders.items()}
        self.specs = {}
        for crate, folder in folders.items():
            for path in sorted((folder / "specs").rglob("*.antt")):
                file = path.relative_to(folder / "specs").with_suffix("").as_posix()
                self.specs[crate, file] = Specs(self, crate, file, path.read_text(encoding="utf-8"))

    def named(self, path):
        """The definition or type that a path names behind the name of the library, if it is one of these crates."""
        match path.split("."):
            case [crate, "specs", "declared", *rest] if crate in self.code:
                end = next((at for at, it in enumerate(rest) if re.match(r"The[A-Z]", it)), len(rest))
                named = [it for it in rest[:end] if it in self.code[crate].types]
                return Type(crate, named[-1]) if named and rest[-1] else None
            case [crate, "specs", "inside", file, name, *_] if crate in self.code and name:
                return Definition(crate, f"inside/{file}", name)
            case [crate, "specs", file, name, *_] if crate in self.code and name:
                return Definition(crate, file, name)
        return None

    def is_constructor(self, found):
        specs = self.specs.get(found[:2]) if isinstance(found, Definition) else None
        if specs is None or found.name in specs.declared:
            return False
        handed_on = specs.scope.names.get(found.name, set()) - {found}
        return found.name in specs.owners or any(map(self.is_constructor, handed_on))

    def found_in(self, found):
        """The definition or type itself, where a file only hands it on from another, or names a constructor."""
        specs = self.specs.get(found[:2]) if isinstance(found, Definition) else None
        if isinstance(found, Type) or specs and found.name in specs.declared:
            return {found}
        if specs and found.name in specs.owners:
            return {found._replace(name=specs.owners[found.name])}
        handed_on = specs.scope.names.get(found.name, set()) - {found} if specs else ()
        return set().union(*map(self.found_in, handed_on))

    def cited_by(self, found):
        """What a definition or a type cites itself."""
        if isinstance(found, Type):
            return self.code[found.crate].cited_by_type(found.name)
        specs = self.specs[found[:2]]
        return specs.declared[found.name].cites(specs.scope)

    def resting(self, todo):
        """These definitions and types and all those that they cite."""
        found, todo = set(), set(todo)
        while todo:
            for one in self.found_in(todo.pop()) - found:
                found.add(one)
                todo |= self.cited_by(one)
        return found

    def of_contracts(self):
        """The definitions and types on which the public contracts rest."""
        return self.resting(set().union(*(it.cited_by_contracts() for it in self.code.values())))

    def function(self, name):
        """The code and the file of a public function, the function, and its contract as it stands there, if there is
        such a function. Its crate may stand before its name, as in `omf_commands::link`."""
        crate, _, name = name.rpartition("::")
        for code in [self.code[crate]] if crate in self.code else self.code.values():
            for file, source in code.sources.items():
                for block in top_level(source):
                    for each in functions(without_comments(block, CODE_COMMENT), 0):
                        if each.marks[:1] == ["pub"] and each.name == name:
                            text = re.sub(r"^(?:#|//!).*\n", "", block, flags=re.M)
                            return code, file, each, text.partition("\n{")[0].strip()
        return None

    def of_function(self, name):
        """Those on which the contract of a public function rests, with the types of its signature; none where there
        is no such function."""
        match self.function(name):
            case [code, file, function, _]:
                return self.resting(set().union(*code.cited_by_function(function, file)))
        return set()

    def files_of(self, found):
        """Definitions and types by crate and file: crates from the bottom up, the files of each as specs/Lib.antt lists
        them, and behind them those of its code."""
        files = {}
        for crate in self.crates:
            listed = (self.root / "crates" / crate / "specs/Lib.antt").read_text(encoding="utf-8").split()
            specs = {file: it for (owner, file), it in self.specs.items() if owner == crate}
            for file in sorted(specs, key=lambda it: (listed.index(it) if it in listed else len(listed), it)):
                files[crate, f"specs/{file}.antt"] = [Definition(crate, file, it) for it in specs[file].declared]
            for name, declared in self.code[crate].types.items():
                files.setdefault((crate, f"src/{declared.file}"), []).append(Type(crate, name))
        kept = {where: [it for it in here if it in found] for where, here in files.items()}
        return {where: here for where, here in kept.items() if here}

    def shown(self, one):
        """A definition or a type as its file has it."""
        if isinstance(one, Type):
            return self.code[one.crate].shown(one.name)
        return self.specs[one[:2]].text([one.name])

    @cache
    def rests_on(self, one):
        """What a definition or a type cites itself, where that is defined."""
        return set().union(*map(self.found_in, self.cited_by(one))) - {one}

    def count(self, found):
        """How many lines definitions and types have together, without comments."""
        types = {it for it in found if isinstance(it, Type)}
        files = {}
        for crate, file, name in set(found) - types:
            files.setdefault((crate, file), []).append(name)
        texts = [without_comments(self.code[it.crate].shown(it.name), CODE_COMMENT) for it in types]
        return sum(len(self.specs[file].numbers(names)) for file, names in files.items()) + sum(
            bool(line.strip()) for text in texts for line in text.split("\n"))
