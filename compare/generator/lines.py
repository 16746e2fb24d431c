"""Lines of LINK and of TLINK: a job in their words, spelled at random, and words that are wrong."""

LINK, TLINK = "link", "tlink"
RESPONSE, PART = "response", "part"
# options that a job says nothing of, as they are written in full, and how many letters tell them apart
OTHER_OPTIONS = {
    LINK: [
        ("BATCH", 1), ("NOLOGO", 3), ("PAUSE", 3), ("CODEVIEW", 2), ("OVERLAYINTERRUPT:63", 1),
        ("PADCODE:2", 4), ("PADDATA", 4), ("ALIGNMENT:16", 1), ("ALIGNMENT", 1), ("PMTYPE:VIO", 2),
        ("WARNFIXUP", 1), ("INCREMENTAL", 3), ("EXEPACK", 1), ("FARCALLTRANSLATION", 1),
        ("NOFARCALLTRANSLATION", 3), ("PACKCODE", 5), ("PACKCODE:512", 5), ("PACKDATA", 5), ("PACKDATA:512", 5),
        ("NOPACKCODE", 3), ("NOEXTDICTIONARY", 3), ("SEGMENTS:0x100", 2), ("SEGMENTS:0X100", 2), ("MAP:FULL", 1),
        ("MAP:ADDRESS", 1), ("MAP:f", 1), ("MAP:a", 1), ("LINENUMBERS", 1), ("PMTYPE", 2), ("CPARMAXALLOC:1", 2),
        ("CPARMAXALLOC:0", 2), ("CPARMAXALLOC:0xFFFF", 2), ("CPARMAXALLOC:0XA", 2), ("CPARMAXALLOC:020", 2),
        ("MAP:200", 1), ("NONULLSDOSSEG", 3), ("NODEFAULTLIBRARYSEARCH:slibce", 3),
        ("NODEFAULTLIBRARYSEARCH:Runtime.A", 3), ("PACKFUNCTIONS", 5), ("NOPACKFUNCTIONS", 7), ("ONERROR:NOEXE", 2),
        ("ONERROR:noexe", 2)],
    TLINK: [(each, len(each)) for each in [
        "c-", "d", "e", "3", "C", "E", "k", "j", "P", "P=4096", "A=16", "yc", "ye", "yex", "yx", "v", "v-", "f", "f-",
        "O", "Ol", "i", "i-", "m", "m-", "l", "s", "x", "x-", "jobjs", "jone;two", "n-", "t-", "Tde", "o-", "yc-", "d-",
        "Lc:\\tc\\lib/c-", "jc:\\obj/e", "Lone\\two/v", "Ld:/d", "Lone;d:/m/Ltwo", "Lone/two", "Lc:\\tc/lib/m",
        "Td", "M"]],
}
WRONG_WORDS = {
    LINK: [
        "/X", "/NO", "/ST:0", "/ST:65537", "/ST:089", "/ST:", "/ST:4k", "/CP:65536", "/CP:x", "/DS", "/HIGH", "/OLD",
        "/Q", "/NOG", "/DY", "(a+b)", '"a', "/NOI:1", "/SE:x", "/SE", "/M:x", "/STACKS", "-x", "@nowhere", "/", "/PACK",
        "/S:4", "/C", "/nowhere/x.obj", "-nowhere/x.obj", "/D", "/LX", "/L:1", "/IN", "/O", "/PAD", "/PA", "/DYNAMIC",
        "/OL",
        "/M:", "/SE:0x", "/F:1", "/A:", "/NOD:", "/PAUSE:1", "/HI",
        "/PC", "/PCODE:1", "/ON", "/ON:x", "/ONERROR:NOEXE2", "/PACKF:1", "/NOP:1"],
    TLINK: [
        "/q", "-q", "/o", "/Twe", "/R", "/Rk", "/L", "/A", "(a+b)", '"a', "/cx", "@nowhere", "-", "/tx", "/M", "/X",
        "/nowhere/x.obj", "-c/q", "/La/c", "-ja/Tdc", "/La;b/v-", "/j/c", "/Tdx", "/4", "/A5", "/i", "/s-", "/-",
        "/P4"],
}
# lines that are wrong, or seem so; `OBJECT` is that of the job, and behind `~` all is one word
ODD_LINES = [
    "/e\nOBJECT\nout", "/e /m\n\n OBJECT+\n\nout\n\n", "OBJECT\nout", "OBJECT\nout\n\n", "OBJECT\n\nlist", "OBJECT,,",
    "OBJECT,,;",
    "OBJECT,", "OBJECT,;", "OBJECT\nout\n\nnul\n", "OBJECT,out,/m", "OBJECT,out,nul/m", "OBJECT /m", "OBJECT+\n/e\nout",
    "OBJECT +/e\nout",
    "OBJECT,out.x.y", "OBJECT,,,sub\\ c:,nul", "OBJECT,,,sub/ x", "OBJECT,./out/e", "./0/e", "OBJECT,con.x;x", '"0/e"',
    "OBJECT,out.com", "OBJECT,out.bin", "OBJECT,more\\out", "OBJECT,,,nul",
    "sub/a;", '"sub\\a"', "sub/a.obj,,", "sub/a,sub/p", "com/t;", "com,prog/t", "com/t,prog.x",
    "~my file", "~OBJECT out", "~OBJECT,my out;", "~0 com,out;", "~com 0+my", '~"my file" OBJECT,out;', "OBJECT,nul",
    "OBJECT,NUL.X,list", "OBJECT,nul:", "OBJECT,out,NUL:", "OBJECT,,con:", "OBJECT,,,nul:", "OBJECT,,,,nul:",
    "OBJECT,out,prn:", "OBJECT,com1:", "OBJECT,,Lpt2:x", "OBJECT,,nul:.x", "OBJECT,,nul.x:", "OBJECT,x:nul",
    "OBJECT,,con.x:y", ",,,x.lib;", "OBJECT,,list.", "OBJECT,x\\y,", "OBJECT (x+y)",
    "OBJECT,out /l", "OBJECT,out,list/LI/s/l", "OBJECT /l /s", '"', '"OBJECT" "', "OBJECT,con", "OBJECT,CON.MAP",
    "OBJECT,,con", "OBJECT,com4",
    "OBJECT,com5", "OBJECT,,lpt4", "OBJECT,nul.", "OBJECT,out,list;;+ \n", "OBJECT \n;", "x@y,out", "OBJECT,out,@x",
    "OBJECT,@",
    ";", "", ",prog", "/c", "OBJECT,a b", "OBJECT,,a b", "OBJECT,,,,nul,x", "OBJECT;x", "OBJECT;,x", "OBJECT,prn",
    "OBJECT,,aux", "OBJECT,com1", "OBJECT,com3,", "OBJECT,,LPT9.x", 'OBJECT,"prn"', "OBJECT,d:a", "c:OBJECT",
    "OBJECT,,,,x.def", "OBJECT,,,,nowhere", "OBJECT,,,,nul nul nul", "OBJECT;;", "OBJECT;/c", 'OBJECT;"',
    "OBJECT\n\n\n\n\nx",
    # folders in the place of files, files in that of folders, and names without a byte
    "sub", "OBJECT+sub+nowhere", '"sub/"', '"0.obj/"', "OBJECT,,,sub", "OBJECT,,,lib x/ nowhere/", "@sub", "@0.obj/x",
    "@", '""', 'OBJECT,,,""', "OBJECT,sub", "OBJECT,x.lib", "OBJECT,,x.lib", 'OBJECT,"sub/"', "OBJECT,0.obj/prog",
    "OBJECT,nowhere/prog", "OBJECT,sub/prog,x/list", "OBJECT,,nowhere/list", "./sub/../0", '"nowhere/../0"',
    "obj/job,,", "OBJECT,,,lib/LIBC",
    # names of DOS: of other case, folders, two that differ by case alone, and files that are there
    "SUB\\A", '"sub\\A.obj"', "./Sub/../OBJECT", "Two\\Y,out,list", "two\\y.obj", "OBJECT Two/y nowhere",
    "OBJECT,,,two\\L", "OBJECT,,,TWO\\ L x.lib\\", "OBJECT,,,TWO\\ SUB\\ L", "OBJECT,TWO\\Y.OBJ", "OBJECT,,TWO\\Y.OBJ",
    "@Two\\y.OBJ", "@SUB\\R", "Fold\\a", "FOLD\\A", "OBJECT,Fold\\b", "OBJECT,fold\\Prog,SUB\\List",
    "OBJECT,SUB\\Old.exe,Sub/old.Map", "OBJECT,.\\0.Obj", "OBJECT,,,LIB\\ libc", '"Sub\\\u00c9"', "OBJECT SUB\\\u00e9",
    "OBJECT,Sub\\", "OBJECT,New\\prog", "Two", "Mixed", "MIXED"]
# the same of TLINK: what may be options behind a name, and folders of DOS
LINES_OF_TLINK = [
    "OBJECT,out,nul/x-", "OBJECT/x/x-", "OBJECT,,,/x-", "~my file/x", "OBJECT/La/m", "OBJECT /La/c", "/x/c OBJECT",
    "obj/job", "obj/job.obj/c,out", "OBJECT+obj/job/m", "obj/job/d-/e,,", "src/yacc.obj", "src/yacc/yc",
    "src/Table+OBJECT", "src/Rest/Tde", "src/Open;", "src/ye", "sub/a/A=16", "sub/a.obj/P=1/c", "main/La/c", "main/La",
    "main/Lc:\\lib", "main/x/La", "OBJECT,,,lib/LIBC.LIB", "OBJECT,,,lib/LIBC/n", "OBJECT,,,lib/libm lib/LIBC",
    "OBJECT,,,sub/Lx/", "OBJECT,obj/job2,obj/job3", "OBJECT,,,,nul/O", "OBJECT,,,,nul/j", "OBJECT,,nul/Ol",
    "OBJECT,nowhere/Table", "OBJECT /Lc:\\tc\\lib/c", "OBJECT -jc:\\obj/Tdc", "OBJECT /Lsub\\more/v,,,x",
    "OBJECT /Lsub:/v,,,x", "OBJECT /Lx/c\\d,,,y", "OBJECT,,, /Lx;c:\\tc/m l", "OBJECT -La/j", "OBJECT /c/La/m",
    "OBJECT /Lc:\\tc\\lib/c;", "OBJECT /jx/Lc:\\tc,,,l", "OBJECT /Lx/q,,,l", "OBJECT /Lx,,,l"]
# lines of TLINK with folders in quotes, and with programs that begin at their start, which have another extension than
# .COM
MORE_LINES_OF_TLINK = [
    'OBJECT /L"lib",,,LIBC', 'OBJECT /L"my lib;lib",,,libm', 'OBJECT -L"lib"/m,,,LIBC', 'a /j"sub"/c',
    'a /j"my obj;sub"',
    'OBJECT /L"li"b,,,LIBC', 'OBJECT /Lli"b",,,LIBC', 'OBJECT /L"lib', 'OBJECT /L"lib"x,,,l', 'OBJECT /L"c:\\tc lib"/e',
    'OBJECT /L"lib";', 'OBJECT /L"",,,x/l', 'OBJECT /L"x/c",,,l', 'a -j"sub/",out', 'OBJECT /L"x";"lib",,,l',
    'OBJECT/L"x",,,l', 'OBJECT /e"x"', 'OBJECT /m/L"x",,,l', 'OBJECT /L"x"+/j"sub"+a', 'OBJECT /L"x"/q,,,l',
    '/L"prn" OBJECT', '/Lsub;con OBJECT', '/jnul: OBJECT', '/L"x;aux",,,l',
    "com,out.bin/t", "com,out.rom/Tdc", "flat,out.bin/t", "flat,out/t", "flat,out./t", "flat,out.x/t", "com,out.CoM/t",
    "flat,out.com/t", "com,sub/prog.y/t", "com,out.bin/t/t-", 'com,"out.bin"/t', "com+0,out.bin/t", "flat+0,out.bin/t",
    "odd,out.bin/t", "odd,out/t", "flat,out.bin", "com,out.bin,list/t/s", "flat,out.sys/Tdc",
    "stacked,out.bin/t", "wordy,out.bin/t", "stacked,out/t", "wordy+0,out.x/Tdc",
    "flat,x.lib/prog /t", "flat,./out /t", "com,x.lib\\prog /Tdc"]
# lines of LINK, whose /TINY is of .COM files alone
MORE_LINES_OF_LINK = [
    "flat,out.bin/T", "flat,out.x /TINY;", "com,out.bin/t", "com,out /Tin",
    "OBJECT /CO,,,,defs", "/E /CO OBJECT,,,,defs;", "OBJECT,out/co,nul,,defs /E", "/EXE OBJECT,,,,defs",
    "OBJECT /HE;", "/HEL OBJECT;"]
# lines that name files of definitions, and what such a file has
LINES_OF_DEFINITIONS = [
    "OBJECT,,,,defs", "OBJECT,out,list,,defs.def/m", 'OBJECT,,,,"defs"', "OBJECT,,,,Defs.Def;", "OBJECT,,,,./defs",
    "OBJECT,defs.def,,,defs", "OBJECT,,defs.DEF,,defs", "OBJECT,,,,defs defs", "OBJECT,,,,absent", "OBJECT,,,,defs.x",
    "OBJECT,,,,sub", "OBJECT,,,,0.obj", "/e OBJECT,,,,defs", "OBJECT\nout\n\n\ndefs\n", "nowhere,,,,defs",
    "OBJECT,,,,defs;x", "OBJECT,,,,con", "OBJECT,,,,prn.def", "OBJECT,,,,sub\\..\\defs"]
DEFINITIONS = [
    b"", b"; none\r\nNAME prog\r\n", b"name\n description 'a;b' ; c\nSTACKSIZE 4096", b"STACKSIZE 0x800;",
    b"stacksize x",
    b"LIBRARY x", b"\tName x WINDOWAPI\n\nEXPORTS\n", b"DESCRIPTION x", b'description "a;b"',
    b"DESCRIPTION 'a\nb'",
    b"\x1Alibrary", b"name x\x1Alibrary", b"name\xE9", b"STACKSIZE 4096 4", b"stacksize 1048577", b"stacksize 1048576",
    b"stacksize 010;", b"STACKSIZE 08", b"NAME;x\nname'x'\nNAMES", b"\fNAME\f\r\n\f", b"name\n" * 24,
    b"name x\n" * 21 + b"code",
    b"DESCRIPTION 'a' b", b"description 'a';", b"DESCRIPTION", b"STACKSIZE", b"STACKSIZE;4", b"\n\n  segments\n",
    b"  name a\n\xC3\xA9 x", b"DESCRIPTION 'a\"", b'description"a"', b"stacksize\t0X10\f;x",
    b"name \xC3\xA9\n heapsize 0"]
# lines by which marks, blanks and options that are switched off show; of each linker, and of TLINK alone
MARKED_LINES = [
    "OBJECT+,\nlist", "OBJECT +,out,\nnul", "OBJECT,\nout,\nlist,\n;", "OBJECT,\n\nlist", "OBJECT,out,\r\nlist\r\n",
    "OBJECT,/e\nout",
    "OBJECT /e\nout,\n", "OBJECT+ /e\n;", "OBJECT,\n,\nlist", "OBJECT,out,list,,\nnul", "/e+\nOBJECT",
    "OBJECT\f/e\f,\fout", "OBJECT\t,\tout\t", "OBJECT\tsub\\a,out",
    '0"sub\\a",out', 'OBJECT"', 'OBJECT,out"list"', "OBJECT+sub\\a,out,list", "OBJECT,out,list/m", "OBJECT,,,,nul",
    "OBJECT,,,,NUL.DEF", "OBJECT,prn.x", "OBJECT,,con.map", "OBJECT,out,,\\+x", "OBJECT,aux,list", "OBJECT,out,lpt1",
    "OBJECT,out\f;", "~\f0\f", "OBJECT,out\r,list\r", "~0\f/e", 'OBJECT;"a\tb"', "OBJECT;a\\b",
    'OBJECT,sub/prog,"lib/"', "OBJECT,sub\\prog,lib\\"]
MARKED_LINES_OF_TLINK = [
    "OBJECT,out,list/s/s-", "OBJECT,out,list/s", "OBJECT,out/i/i-", "OBJECT/o-", "OBJECT,out/t/t-", "com/t-/t,out",
    "OBJECT,out/m/m-", "OBJECT,out/l/l-", "OBJECT/v/v-", "OBJECT/f/f-", "OBJECT /Lx/y,,,l", "OBJECT /Lsub/more/x",
    "OBJECT -Lx/,,,l", "OBJECT/s-/s,out,list", "OBJECT,out,nul/s"]
# the environment's LINK that is a call of a linker
CALLS = ["doslink --as link", "/usr/bin/doslink --as LINK /q", "link", "C:\\BIN\\LINK.EXE /q", "run ./link\t/q",
         "a:Link", "doslink --as tlink /q",
         '"C:\\My Bin\\LINK.EXE" /q']
# what stands in front of a line that is wrong, or seems so; `OBJECT` is that of the job
ODD_FRONTS = {
    LINK: [
        *CALLS, "/NOI /NOLOGO /CO", "\t/NOI\n/CO ", "/z", "/NOI /z", "/NOI\n /z", "OBJECT", "OBJECT /NOI", "OBJECT;",
        "OBJECT,",
        "OBJECT,out", "OBJECT,,list,x.lib", "OBJECT\n", "OBJECT+", "+", ",", ";", "OBJECT nowhere", "@nowhere", "@tail",
        "/NOI @tail", '"OBJECT"', '"', '"OBJECT" "', "/HIGH", "/ST:0", "/ST:64 /CO /CO", "linker", "doslink",
        "/NOD:link",
        "--As", "--asx", "link.obj", "(a+b)", "con", "sub\\a", "SUB/A /E", "/PM /CO /W /INC", "\u00e9 /z"],
    TLINK: [
        "/c /x", "/x\r\n/c", "-x\n\n-c/v", ";", "/x;/c;", "; /x ;\n;", "/Lsub;x.lib\n/n", "/La;b /Lsub",
        "/v /f\n/y /jobj\n /v",
        "OBJECT", "/x OBJECT", "OBJECT/x", "/x @tail", ",", "/x,", "+", "/x +\n/c", '"OBJECT"', '"', '/x "', "/z",
        "/x\n/z",
        "/x\n\n /c /z", "/La/c", "/Lc:\\a/c", "/home/x", "./x", "/i", "/i /i-", "/i-", "/o", "/Twe", "/t", "/l /s",
        "/x-",
        "\u00e9", "/x \u00e9 /z"],
}
# the names of TLINK.CFG, and what it may be that is no text of options, or isn't the file that is meant
CONFIGURATIONS = ["TLINK.CFG", "TLINK.CFG", "tlink.cfg", "Tlink.Cfg"]
ODD_CONFIGURATIONS = [
    {"TLINK.CFG": b""}, {"TLINK.CFG": b"/x\xE9"}, {"tlink.cfg": b"\x1A\xE9"}, {"TLINK.CFG/x": b"/z"},
    {"tlink.cfg/x": b""},
    {"tlink.cfg": b"/z", "Tlink.cfg": b"/z"}, {"tlink.cfg": b"/z", "TLINK.CFG": b"/x\n"}, {"sub/TLINK.CFG": b"/z"},
    {"TLINK.CFG": b"\x1A/z"}, {"tlink.cf": b"/z", "tlink.cfgs": b"/z", "xtlink.cfg": b"/z", "tlink": b"/z"},
    {"LINK": b"/z", "LINK.CFG": b"/z"}]
# extra paragraphs that are asked for at most, which most programs need more of, need just so, or need fewer of
EXTRA = [0, 0, 1, 0x10, 0xFFFF]
# options of TLINK whose values may be anything, so that they touch no name, and those that only begin so
APART, TOUCHING = "LjOyTR", ("j", "yc", "ye", "Tdc", "Tde")
BEHIND_TEXT = ["", "", "\x1A", "\x1Amore,words;\n/q"]


def in_another_case(random, path):
    """A path whose letters are capitals, small ones, of the other case, or of any case."""
    changes = [str.upper, str.lower, str.swapcase, lambda letter: random.choice([letter, letter.swapcase()])]
    change = random.choice(changes)
    return "".join(map(change, path))


def by_dos(random, path, in_any_case=True):
    """A path as it is, or in another case where that may be, or with folders of DOS."""
    if in_any_case and random.random() < 0.1:
        path = in_another_case(random, path)
    return path.replace("/", "\\") if random.random() < 0.1 else path


class LineSpeller:
    """Spells a job in the words of one of the two linkers; the files get those that the words name."""

    def __init__(self, random, language, files):
        self.random = random
        self.language = language
        self.files = files
        # what stands in front of the line
        self.front = ""

    def happens(self, likelihood):
        return self.random.random() < likelihood

    def spelled(self, job, more=()):
        """The words of a job; `more` are words that stand anywhere."""
        return self.words(self.line(job, more))

    def line(self, job, more):
        """A line: its fields, with options anywhere; at times some of both stand in front of it."""
        fields = self.fields(job)
        options = [*self.options(job), *more]
        if self.happens(0.3):
            options, fields[0] = self.with_front(options, fields[0])
        text = self.joined(fields)
        return self.with_options(text, options)

    def with_front(self, options, objects):
        """The options and the objects that don't stand in front of the line: options of either, objects of LINK
        alone."""
        count = self.random.randint(0, len(options))
        parts = options[:count] + [self.option(*self.random.choice(OTHER_OPTIONS[self.language]))]
        if self.language == LINK:
            first = self.random.choice([0, 0, 1, len(objects)])
            parts, objects = [*parts, *objects[:first]], objects[first:]
            if first == 0:
                self.random.shuffle(parts)
            self.front = " ".join(parts)
        else:
            self.front = "".join(part + self.random.choice([" ", "\n", "\n", "\r\n", " ; ", "\t"]) for part in parts)
        return options[count:], objects

    # ---- fields

    def fields(self, job):
        """The names of each field, as few fields as there have to be or more."""
        objects = [self.name(each.name, ".obj") for each in job.inputs if not each.is_library]
        libraries = [self.name(each.name, ".LIB") for each in job.inputs if each.is_library]
        folders = [self.spelling(each.rstrip("/") + "/") for each in job.folders]
        if self.language == TLINK and self.happens(0.5):
            self.folders, folders = list(map(self.spelling, job.folders)), []
        else:
            self.folders = []
        out = [] if job.out is None else [self.name(job.out, ".EXE")]
        fields = [objects, out, self.map_field(job), [*folders, *libraries], self.definitions()]
        while fields[-1] == [] and self.happens(0.7):
            fields.pop()
        return fields

    def map_field(self, job):
        if job.map is not None:
            return [self.name(job.map, ".MAP")]
        return self.random.choice([[], [], ["nul"], ["NUL.MAP"], ["Nul"]])

    def definitions(self):
        return self.random.choice([[], [], [], ["nul"], ["NUL.DEF"]])

    def name(self, name, extension):
        """A name without its extension, by another path, or in quotes."""
        if name.lower().endswith(extension.lower()) and self.happens(0.5):
            name = name[:-len(extension)]
        if self.happens(0.05):
            name = "./" + name
        name = self.spelling(name)
        return f'"{name}"' if self.happens(0.1) else name

    def spelling(self, path):
        """A path by a name of DOS."""
        return by_dos(self.random, path)

    def joined(self, fields):
        """Names with signs between them; a `;` may stand behind them."""
        parts = []
        for number, names in enumerate(fields):
            parts.append(" ".join(names) if number else self.plus(names))
        text = ""
        for number, part in enumerate(parts):
            text += (self.between(text.endswith(tuple(", "))) if number else "") + part
        return text + self.random.choice(["", ";", ";", " ;", ";\n"])

    def plus(self, names):
        """Objects, with blanks or `+` between them."""
        text = ""
        for number, name in enumerate(names):
            text += (self.random.choice([" ", "+", " + ", "  ", "+\n", " +\n "]) if number else "") + name
        return text

    def between(self, is_behind_comma):
        """What stands between fields; a line's end is nothing behind a comma."""
        return self.random.choice([",", ",", ", ", " , ", "," if is_behind_comma else "\n"])

    # ---- options

    def options(self, job):
        """Those that say what the job asks for, and others."""
        if self.language == LINK:
            options = self.link_options(job)
        else:
            options = self.tlink_options(job)
        if self.happens(0.4):
            options += [self.option(*self.random.choice(OTHER_OPTIONS[self.language]))]
        self.random.shuffle(options)
        return options

    def link_options(self, job):
        options = [] if job.ignores_case else [("NOIGNORECASE", 3)]
        options += [("INFORMATION", 3)] if job.is_verbose else []
        options += [] if job.has_default_libraries else [("NODEFAULTLIBRARYSEARCH", 3)]
        if job.order is not None:
            options += [("DOSSEG", 2) if job.has_null_bytes else ("NONULLSDOSSEG", 3)]
        options += [] if job.stack is None else [(f"STACK:{self.number(job.stack.length)}", 2)]
        options += [("TINY", 1)] if job.form.kind == "com" else []
        options += [(f"CPARMAXALLOC:{self.number(self.random.choice(EXTRA))}", 2)] if self.happens(0.2) else []
        options += [("MAP", 1)] if job.map is not None and self.happens(0.5) else []
        return [self.option(*each) for each in options]

    def tlink_options(self, job):
        options = [] if job.ignores_case else ["c"]
        options += [] if job.has_default_libraries else ["n"]
        options += [self.random.choice(["t", "Tdc"])] if job.form.kind == "com" else []
        options += ["x"] if job.map is None and self.happens(0.7) else []
        options += ["L" + ";".join(self.folders)] if self.folders else []
        options += ["j" + ";".join(map(self.spelling, job.object_folders))] if job.object_folders else []
        return [self.option(each, len(each)) for each in options]

    def number(self, value):
        return self.random.choice([str(value), f"0x{value:x}", f"0X{value:X}", f"0{value:o}"])

    def option(self, text, least):
        """An option, of LINK with as many letters as tell it apart or more, in any case."""
        name, colon, value = text.partition(":")
        if self.language == LINK:
            name = name[:self.random.choice([least, least, len(name), self.random.randint(least, len(name))])]
            name = self.random.choice([name, name, name.lower(), name.capitalize()])
        return self.random.choice("///-") + name + colon + value

    def with_options(self, text, options):
        """Options in front, behind or within a line; one that touches a name begins with `/`."""
        text, end = text.rstrip(";\n "), text[len(text.rstrip(";\n ")):]
        for option in options:
            at = self.random.choice([0, len(text), *(
                place for place, each in enumerate(text) if each in " ,+\n" and text.count('"', 0, place) % 2 == 0)])
            touches = at and text[at - 1] not in ' ,+\n"' and self.happens(0.5) and not text[:at].endswith(";")
            # what begins with `./` holds no option
            touches = touches and not text[:at].replace(",", " ").replace("+", " ").split()[-1].startswith("./")
            if touches and option[0] == "/" and self.may_touch(option[1:]):
                text = text[:at] + option + text[at:]
            else:
                text = text[:at] + " " + option + " " + text[at:]
        return text + end

    def may_touch(self, option):
        """Whether an option behind a name in one word is one, and no part of a path."""
        return self.language == LINK or option[:1] not in APART or option in TOUCHING

    # ---- how a line is said

    def words(self, line):
        """Words, with response files in the place of all of them, of some or of none."""
        if "\n" in line or self.happens(0.3):
            return ["@" + self.spelling(self.response(RESPONSE, line))]
        parts = [line] if self.happens(0.2) and '"' in line else line.split(" ")
        if len(parts) > 1 and self.happens(0.3) and '"' not in line and "@" not in line:
            at = self.random.randrange(1, len(parts))
            some = [parts[:at], parts[at:]]
            number = self.random.randrange(2)
            some[number] = ["@" + self.spelling(self.response(PART, " ".join(some[number])))]
            parts = [*some[0], *some[1]]
        return [part for part in parts if part] or [";"]

    def response(self, name, text):
        """A response file; rarely one that isn't there, or is no text."""
        if self.happens(0.3):
            text = text.replace("\n", "\r\n")
        text += self.random.choice(["", "", "\n", "\r\n"]) + self.random.choice(BEHIND_TEXT)
        self.files[name] = text.encode()
        if self.happens(0.01):
            self.files[name] = self.random.choice([None, self.files[name] + b"\xE9"])
        return name
