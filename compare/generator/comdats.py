"""COMDATs: data of one name that some modules have, as compilers write it, and modules that have little else."""

from dataclasses import dataclass

from generator.spelling import reclosed
from model import records
from model.records import Direct, Method, ThreadSetting

COMDAT, COMDAT_32, LINSYM, LINSYM_32 = 0xC2, 0xC3, 0xC4, 0xC5
CONTINUED, ITERATED, LOCAL, OF_CODE = 1, 2, 4, 8
NO_MATCH, PICK_ANY, SAME_SIZE, EXACT_MATCH = range(4)
EXPLICIT, FAR_CODE, FAR_DATA, CODE_32, DATA_32 = range(5)
NAMES = [b"_inline", b"_INLINE", b"W?f$n()v", b"vtable", b"_twice"]


def body(kind, name, content, flags=0, selection=PICK_ANY, allocation=FAR_CODE, alignment=0, offset=0, base=b"",
         index=records.Spelling().index):
    """The body of a COMDAT, by the index of its name."""
    front = bytes([flags, selection << 4 | allocation, alignment])
    return front + offset.to_bytes(4 if kind == COMDAT_32 else 2, "little") + index(0) + base + index(name) + content


@dataclass
class Shared:
    """A COMDAT that some modules have: what its records say, and its parts, each of an offset and bytes."""

    name: bytes
    is_local: bool
    selection: int
    allocation: int
    alignment: int
    parts: list


def some_parts(random, length):
    """So many bytes in a record or some, mostly in order."""
    content = bytes(random.randrange(256) for _ in range(length))
    content = content[:2] + bytes(len(content[2:4])) + content[4:]
    cuts = sorted({random.randrange(length + 1) for _ in range(random.choice([0, 0, 1, 2]))} | {0})
    parts = [(begin, content[begin:end]) for begin, end in zip(cuts, [*cuts[1:], length])]
    if random.random() < 0.1:
        random.shuffle(parts)
    return parts


def some(random, more_names):
    """Some that modules share; rarely one that has another name of theirs."""
    names = random.sample(NAMES, random.choice([1, 2, 3, 4]))
    names += [random.choice(more_names)] if random.random() < 0.1 else []
    return [
        Shared(
            name, random.random() < 0.1,
            random.choice([0, 1, 1, 1, 2, 2, 3, 3, 3] if random.random() < 0.3 else [1, 2, 3]),
            random.choice([0, 0, 0, 1, 1, 2, 2, 3, 4]), random.choice([0, 0, 1, 2, 3, 4, 5]),
            some_parts(random, random.choice([0, 1, 4, 4, 8, 12, 17, 33])))
        for name in names]


class ComdatMaker:
    """Writes COMDATs into the module that another maker makes."""

    def __init__(self, maker):
        self.maker = maker
        self.random = maker.random
        known = maker.plan.comdats
        self.chosen = self.random.sample(known, self.random.randrange(len(known) + 1))

    def happens(self, likelihood):
        return self.random.random() < likelihood

    def define_externals(self):
        """Names of COMDATs that it has or that a module before it has, by EXTDEF or by an index."""
        maker, known = self.maker, [each.name for each in self.chosen if not each.is_local]
        names = [name for name in {*known, *maker.plan.shared} if self.happens(0.6)]
        for name in map(maker.other_case, sorted(names)):
            if self.happens(0.5):
                maker.add(records.ExternalNames([name], [0]))
            else:
                entries = [maker.spelling.index(each) + b"\0" for each in self.listed(name)]
                maker.pieces.append(reclosed(self.random, 0xBC, b"".join(entries)))
            maker.externals += 1
        for each in self.chosen:
            if each.is_local and self.happens(0.5):
                maker.add(records.LocalExternalNames([each.name], [0]))
                maker.externals += 1

    def listed(self, name):
        """The index of a name that is listed now, or was; in a list."""
        names = self.maker.names
        if name not in names or self.happens(0.3):
            maker_kind = self.random.choice([0x96, 0xCA])
            self.maker.pieces.append(reclosed(self.random, maker_kind, self.maker.counted(name)))
            names.append(name)
        return [len(names) - names[::-1].index(name)]

    def add_all(self):
        """Those that are chosen, and rarely a segment behind them."""
        for class_name in (b"CODE", b"FAR_DATA"):
            if self.happens(0.7):
                self.listed(class_name)
        for each in self.chosen:
            self.add(each)
        if self.chosen and self.happens(0.02):
            self.maker.add(records.SegmentDefinition(1, 2, 4, 1, 1, 1))

    def base(self):
        """Any segment, in its group; rarely one of another group, none that is there, or a frame."""
        maker, index = self.maker, self.maker.spelling.index
        if self.happens(0.02):
            return self.random.choice([b"\0\0\0\xB8", b"\0" + index(len(maker.lengths) + 9), b"\1\1", b"\3\1"])
        segment = self.random.randrange(1, len(maker.lengths) + 1)
        if maker.debug and self.happens(0.3):
            segment = maker.debug[0][0]
        in_group = maker.group and segment in maker.grouped and self.happens(0.9)
        return index(maker.group if in_group else 0) + index(segment)

    def changed(self, shared):
        """What it says here: mostly the same as elsewhere."""
        selection, parts = shared.selection, shared.parts
        if self.happens(0.05):
            selection = self.random.choice([PICK_ANY, PICK_ANY, SAME_SIZE, EXACT_MATCH, NO_MATCH])
        if self.happens(0.6 if selection == PICK_ANY else 0.05):
            length = max(offset + len(content) for offset, content in parts)
            parts = some_parts(self.random, length if self.happens(0.6) else length + 1)
        return selection, parts

    def add(self, shared):
        """The records of one, with fix-ups and line numbers behind them."""
        selection, parts = self.changed(shared)
        base = self.base() if shared.allocation == EXPLICIT else b""
        name, = self.listed(self.maker.other_case(shared.name))
        flags = LOCAL if shared.is_local else self.random.choice([0, 0, OF_CODE])
        for number, (offset, content) in enumerate(parts):
            said = flags | CONTINUED if number else flags
            if self.happens(0.005):
                said ^= self.random.choice([CONTINUED, CONTINUED, ITERATED])
            kind = self.random.choice([COMDAT, COMDAT, COMDAT_32])
            self.maker.add_other(kind, body(
                kind, name, content, said, selection, shared.allocation, shared.alignment, offset, base,
                self.maker.spelling.index), 0.005)
            self.add_behind(content, name)
        if not shared.is_local:
            self.maker.plan.shared.append(shared.name)

    def add_behind(self, content, name):
        """Threads, a fix-up, line numbers, and rarely other data in front of what goes on with it."""
        maker = self.maker
        if self.happens(0.15):
            number = self.random.randrange(4)
            maker.add(records.FixupRecord([ThreadSetting(False, number, Direct(Method.SEGMENT, 1))]))
            maker.threads.append(number)
        if len(content) >= 4 and self.happens(0.6):
            maker.add(records.FixupRecord([maker.fixup_in(content)]))
        if self.happens(0.1):
            kind = self.random.choice([LINSYM, LINSYM_32])
            lines = bytes(self.random.choice([0, 1, 2]) * (4 if kind == LINSYM else 6))
            maker.add_other(kind, b"\0" + maker.spelling.index(name) + lines, 0.05)
        if self.happens(0.1):
            maker.add_data()


# of a module of COMDATs: its names, from 1 on, and the indexes of those that these have
LISTED = [b"", b"CODE", b"DATA", b"_TEXT", b"_DATA", b"DGROUP", b"f", b"g", b"SHARED", b"F", b"DWARF", b"FLAT"]
F, G, CAPITAL_F, UNLISTED = 7, 8, 10, 99
# bases: code, data in DGROUP, a common segment by no group and by DGROUP, one that debuggers read, an absolute one, one
# of FLAT, a frame, and a segment that isn't there, by no group or by FLAT
CODE, GROUPED, COMMON, GROUPED_COMMON, KEPT_OUT, ABSOLUTE, FLAT, OF_FRAME, NOWHERE, FLAT_NOWHERE = (
    b"\0\1", b"\1\2", b"\0\3", b"\1\3", b"\0\4", b"\0\5", b"\2\1", b"\0\0\0\xB8", b"\0\6", b"\2\6")
LATE = (0x98, b"\x28\4\0\5\3\1")


def made(content, name=F, kind=COMDAT, base=b"", **said):
    """A COMDAT record, whose segment is that of a base where it has one."""
    allocation = {"allocation": EXPLICIT} if base else {}
    return kind, body(kind, name, content, base=base, **{**allocation, **said})


def module_of_comdats(pieces, far_data=True, wants=(), local=(), alias=None):
    """A module with these records behind its own; it may want names, or local ones, and have a pointer to the first."""
    spelling = records.Spelling()
    end = records.ModuleEnd(False, None)
    front = [
        records.Header(b"COMDATS"), records.NameList(LISTED + ([b"FAR_DATA"] if far_data else [])),
        records.SegmentDefinition(3, 2, 5, 4, 2, 1), records.SegmentDefinition(2, 2, 4, 5, 3, 1),
        records.SegmentDefinition(1, 6, 4, 9, 3, 1), records.SegmentDefinition(1, 0, 8, 5, 11, 1),
        records.SegmentDefinition(0, 0, 8, 5, 3, 1, 0xB800, 0),
        records.GroupDefinition(6, [2, 3]), records.GroupDefinition(12, []),
        records.ExternalNames(list(wants), [0] * len(wants)),
        records.LocalExternalNames(list(local), [0] * len(local)), records.Data(1, 0, bytes(5))]
    found = [spelling.record(each) for each in front]
    if wants or local:
        found.append(spelling.framed(0x9C, b"\xCC\0\x56\1"))
    if alias is not None:
        found.append(spelling.framed(0xC6, b"".join(map(records.name, alias))))
    found += [spelling.framed(kind, content) for kind, content in pieces]
    return b"".join([*found, spelling.record(end)])


def two(first, other, **said):
    """Two modules, of which each has one of two COMDATs, and wants its name."""
    return [module_of_comdats([first], wants=[b"f"], **said), module_of_comdats([other])]


def one(*pieces, **said):
    """A module of these records."""
    return [module_of_comdats(pieces, **said)]


ADD_OFFSET, ADD_OFFSET_32, SET_THREAD = (0x9C, b"\xC4\0\x54\1"), (0x9C, b"\xE4\0\x54\1"), (0x9C, b"\2\2")
BY_THREAD = (0x9C, b"\xC8\0\x5E")
SIZED, EXACT = {"selection": SAME_SIZE}, {"selection": EXACT_MATCH}
# the modules of each job of COMDATs
CASES = [
    two(made(b"one"), made(b"two")), two(made(b"one"), made(b"other")),
    two(made(b"one", **SIZED), made(b"two", **SIZED)), two(made(b"one", **SIZED), made(b"other", **SIZED)),
    two(made(b"one", **SIZED), made(b"other")), two(made(b"one", **EXACT), made(b"two", **EXACT)),
    two(made(b"one", **EXACT), made(b"one", **EXACT)), two(made(b"one", **EXACT), made(b"two")),
    two(made(b"one", **EXACT), made(b"other", **EXACT)), two(made(b"one"), made(b"\0one", **EXACT)),
    two(made(b"one", **EXACT), made(b"ne", offset=1, **EXACT)),
    [module_of_comdats([made(b"one", **EXACT)]), module_of_comdats([
        made(b"on", **EXACT), made(b"e", offset=2, flags=CONTINUED, **EXACT)])],
    [*two(made(b"one"), made(b"two")), module_of_comdats([made(b"three", **SIZED)])],
    [module_of_comdats([
        made(b"ab", offset=offset, **EXACT), made(b"ab", flags=CONTINUED, offset=2 - offset, **EXACT)])
     for offset in (0, 2)],
    [*map(module_of_comdats, ([made(b"one")], [made(b"other")], [made(b"two", **SIZED)]))],
    two(made(b"one"), made(b"two", selection=NO_MATCH)),
    one(made(b"one"), (0x9C, b"\xC4\2\x54\1")), one(made(b"one"), made(b"two", name=G, base=NOWHERE)),
    one(made(b"one", base=FLAT_NOWHERE)), one(made(b"one", kind=COMDAT_32, offset=0xFFFE, base=OF_FRAME)),
    [*two(made(b"one", **SIZED), made(b"other")), module_of_comdats([], wants=[b"nowhere"])],
    [*two(made(b"one", **SIZED), made(b"other")), b"MZ"],
    two(made(b"one", selection=NO_MATCH), made(b"two")),
    two(made(b"one", selection=NO_MATCH), made(b"one", selection=NO_MATCH)),
    two(made(b"one", name=F), made(b"two", name=CAPITAL_F)), two(made(b"one", **EXACT), made(b"two", name=CAPITAL_F)),
    [module_of_comdats([made(b"one", flags=LOCAL)], local=[b"f"]), module_of_comdats(
        [made(b"other", flags=LOCAL, **EXACT)], local=[b"f"])],
    [module_of_comdats([made(b"one", flags=LOCAL)], local=[b"f"]), *two(made(b"two", **EXACT), made(b"two"))],
    one(made(b"one"), made(b"two", name=G, flags=CONTINUED, offset=3)), one(made(b"one", flags=CONTINUED)),
    one(made(b"one"), made(b"two", name=G), made(b"three", flags=CONTINUED, offset=3)),
    one(made(b"one"), made(b"two", name=CAPITAL_F, flags=CONTINUED, offset=3)),
    one(made(b"one"), (0xA0, b"\1\0\0ab"), made(b"four", flags=CONTINUED, offset=4), ADD_OFFSET, wants=[b"f"]),
    one(made(b"one", name=G), made(b"two", flags=OF_CODE)),
    one(made(b"one", base=CODE), made(b"two", name=G, base=CODE)),
    one(made(b"one", alignment=1), made(b"two", name=G, alignment=4)),
    one(made(b"one", base=CODE, alignment=1), made(b"two", name=G, base=CODE, alignment=5)),
    one(made(b"one", base=COMMON), made(b"other", name=G, base=COMMON), wants=[b"f"]),
    one(made(b"one", base=GROUPED), wants=[b"f"]),
    one(made(b"one", base=GROUPED_COMMON, alignment=3), wants=[b"f"]),
    one(made(b"one", allocation=FAR_DATA), wants=[b"f"]),
    one(made(b"one", allocation=FAR_DATA), far_data=False), one(made(b"one", allocation=CODE_32), wants=[b"f"]),
    one(made(b"", allocation=DATA_32), made(b"x", name=G, allocation=CODE_32, kind=COMDAT_32)),
    one(made(b"", allocation=DATA_32)), one(made(b"one", base=FLAT)), one(made(b"one", base=OF_FRAME)),
    one(made(b"one", base=NOWHERE)), one(made(b"one", base=ABSOLUTE)), one(made(b"one", base=ABSOLUTE, alignment=1)),
    one(made(b"one!", base=KEPT_OUT), ADD_OFFSET, made(b"two!", flags=CONTINUED, offset=4, base=KEPT_OUT), ADD_OFFSET,
        LATE, made(b"g", name=G)),
    one(made(b"one"), LATE), [module_of_comdats([made(b"one")]), module_of_comdats([made(b"two"), LATE])],
    one(LATE, made(b"one", base=NOWHERE)), one(made(b"one", flags=ITERATED)),
    two(made(b"one"), made(b"two", flags=ITERATED)), two(made(b"one", **EXACT), made(b"one", flags=ITERATED)),
    one(made(b"one", kind=COMDAT_32, offset=0xFFFD)), one(made(b"one", kind=COMDAT_32, offset=0xFFFE)),
    one(made(b"one", kind=COMDAT_32), made(b"", flags=CONTINUED, kind=COMDAT_32, offset=0x10000)),
    one(made(b"\1\0\0\0"), ADD_OFFSET_32), one(made(b"\1\0\xFF\xFF"), ADD_OFFSET_32),
    one(made(b"\1\0\1\0"), ADD_OFFSET_32),
    [module_of_comdats([made(b"one!"), ADD_OFFSET]), module_of_comdats([
        made(b"two!"), ADD_OFFSET, SET_THREAD, made(b"three", name=G), BY_THREAD], wants=[b"f", b"g"])],
    two(made(b"one!", **EXACT), made(b"one!", **EXACT)), one(made(b"one", name=UNLISTED)), one(made(b"one", name=0)),
    one((COMDAT, made(b"")[1][:-1])), one((COMDAT, b"\x10" + made(b"one")[1][1:])), one((LINSYM, b"\0\7\1\0\2\0")),
    one((LINSYM, b"\2\7")), one((LINSYM_32, b"\1\7\1\0\2\0")), one((0xC8, b"\1\7")), one((0xB2, b"\1\1")),
    [module_of_comdats([made(b"cut")[:1] + (b"\0",)]), *two(made(b"one", **SIZED), made(b"other"))],
    [*two(made(b"one", **SIZED), made(b"other")), module_of_comdats([], alias=(b"a", b"a"))]]
