"""Whatever docs/PROMISES.md names in backticks exists in the sources, and what has to stand there does.

Names belong to what stands before them in the same cell or paragraph: after `crate/File: name` a further name is of
that file too, after `crate::name` of that crate. A name that fits no kind is a fault.

Of some other pages only the names with a crate or a folder and those of several words, joined by `_` or `-`, are looked
at: definitions, laws, functions, fields. The rest are words of many kinds."""
import collections
import re

from documents import code, pages

# names that are neither of the sources nor files
WORDS = {
    "crate/File: name": "how a definition is written",
    "crates/crate/specs/File.antt": "where it stands",
    "crate/proofs/File.antt": "how a file of theorems is written",
    "crates/crate/proofs/File.antt": "where it stands",
    "crate::name": "how a function or a type is written",
    "crates/crate/src": "where it stands",
    "crate/edit": "how a must-fail edit is written",
    "crates/crate/must-fail/edit.edit": "where it stands",
    "theorem": "what it is followed by",
    "rt ci": "a command of the kit",
    "memcpy": "a function of C",
    "memset": "a function of C",
    "bool": "a type of C and Rust",
    "requires": "a word of Rattle",
    "refusal": "a field of each answer in C",
    "reading": "an argument",
    "Refused": "a case of the answers' enums",
    "..Leaves": "how definitions are called that say what is left in a buffer",
    "refusal n 0": "a term in definitions",
}

QUOTES = ("Document 01", "000")  # columns whose words are others'
# columns in which each cell names something, or else points to where it is named
NAMING = ("Function", "Answer", "Its definition", "Here", "Edit", "Refused in")
ELSEWHERE = re.compile(r"\w+ case|below|the .* under \".*\"")
FOLDERS = "crates|tests|docs|include|bindings|examples|meter-font|bench|tools|processors"
PATH = re.compile(rf"(?<![\w/.`])(?:{FOLDERS})/[\w./*-]*\w")

JOINED = re.compile(r"[A-Za-z0-9]+(?:[-_][A-Za-z0-9]+)+")

# where a name without a crate is looked for: what it would be, the names there, and the crate
Near = collections.namedtuple("Near", "kind names crate")


class Reader:
    """Goes through a page's names, or only through those that are written whole, counts them by kind and keeps the
    faults."""

    def __init__(self, page, every):
        self.page, self.every, self.counts, self.faults = page, every, collections.Counter(), []
        self.used, self.edits = set(), collections.Counter()

    def fault(self, line, text):
        self.faults.append(f"{self.page}:{line}: {text}")

    def read(self):
        for piece in pages.pieces(self.page):
            if piece.column in QUOTES:
                self.counts["quoted words"] += len(list(pages.names(piece.text)))
                continue
            for m in PATH.finditer(re.sub(r"`[^`]*`", lambda m: "`" * len(m[0]), piece.text)):
                self.found(piece.line, m[0], "files", code.exists(m[0]))
            names = "`" in piece.text or PATH.search(piece.text) or ELSEWHERE.fullmatch(piece.text)
            if self.every and piece.column in NAMING and not names:
                self.fault(piece.line, f'nothing is named under "{piece.column}"')
            near = None
            for below, name in pages.names(piece.text):
                near = self.name(piece, piece.line + below, name, near)

    def found(self, line, name, kind, there):
        self.counts[kind] += 1
        if not there:
            self.fault(line, f"no such {kind[:-1]}: {name}")

    def name(self, piece, line, name, near):
        """looks a name up, and says where the next one is looked for"""
        if name in WORDS:
            self.used.add(name)
            self.counts["listed words"] += 1
            return near
        m = re.fullmatch(r"(\w+)/([A-Z]\w*)(?:: (\S+))?", name)
        if m:
            return self.in_file(line, name, "definitions", m[1], code.definitions(m[1], m[2]), m[3])
        m = re.fullmatch(r"(\w+)/proofs/([\w/]+)\.antt", name)
        if m:
            return self.in_file(line, name, "theorems", m[1], code.theorems(m[1], m[2]), None)
        m = re.fullmatch(r"([A-Z]\w*)\.antt", name)
        if m and near:
            return self.in_file(line, name, "theorems", near.crate, code.theorems(near.crate, m[1]), None)
        m = re.fullmatch(r"(\w+)::(\w+)", name)
        if m:
            return self.in_crate(line, name, m[1], m[2])
        m = re.fullmatch(r"(\w+)/\w+", name)
        if m and m[1] in code.crates():
            self.found(line, name, "edits", name in code.edits())
            self.edits[name] += piece.column == "Edit"
        elif PATH.fullmatch(name) or self.every and "/" in name:
            self.found(line, name, "files", code.exists(name))
        elif not self.every and JOINED.fullmatch(name):
            self.anywhere(line, name)
        elif not self.every:
            self.counts["words not looked up"] += 1
        elif piece.column == "Refused in":
            self.refusing(piece, line, name)
        else:
            self.bare(line, name, near)
        return near

    def in_file(self, line, name, kind, crate, names, one):
        self.found(line, name, "files", names is not None)
        if one:
            self.found(line, name, kind, one in (names or ()))
        return Near(kind, names or set(), crate)

    def in_crate(self, line, name, crate, one):
        if crate in code.types():  # a function of a type
            crate = next(c for c in code.crates() if crate in code.types(c))
        names = code.functions(crate) | code.types(crate)
        self.found(line, name, "types" if one[0].isupper() else "functions", one in names)
        return Near("functions", names, crate)

    def refusing(self, piece, line, name):
        """the function or the law that refuses a row's edits, in a crate of theirs"""
        crates = {edit.split("/")[0] for _, edit in pages.names(piece.first) if "/" in edit}
        law = any(name in code.all_declared("proofs", crate) for crate in crates)
        there = law or any(name in code.functions(crate) for crate in crates)
        self.found(line, name, "theorems" if law else "functions", there)

    def bare(self, line, name, near):
        """a name alone: of what stands before it, of that one's crate, or, as a definition and its theorems often stand
        together, a theorem of another file"""
        if near and name in near.names:
            self.found(line, name, near.kind, True)
        elif near and name in code.functions(near.crate):
            self.found(line, name, "functions", True)
        elif near and near.kind != "theorems" and JOINED.fullmatch(name) and name in code.all_declared("proofs"):
            self.found(line, name, "theorems", True)
        elif near and name not in code.crates():
            self.fault(line, f"{name} is not where the page has it")
        else:
            self.anywhere(line, name)

    def anywhere(self, line, name):
        kinds = {
            "definitions": code.all_declared("specs"),
            "theorems": code.all_declared("proofs"),
            "functions": code.functions(),
            "crates": code.crates(),
            **({} if self.every else code.other_names()),
        }
        kind = next((kind for kind, names in kinds.items() if name in names), None)
        self.found(line, name, kind or "names", kind)


def stands(reader):
    """what docs/PROMISES.md has to name: every listed word, every edit once, every program, every folder of tests"""
    for word in sorted(set(WORDS) - reader.used):
        yield f"{reader.page}: the listed word `{word}` is not there"
    for edit in sorted(code.edits()):
        if reader.edits[edit] != 1:
            yield f"{reader.page}: the edit {edit} stands {reader.edits[edit]} times in the table of shams"
    believed = [p.text for p in pages.pieces(reader.page) if p.section == "What a reader has to believe"]
    told = {name for text in believed if "The programs (" in text for _, name in pages.names(text)}
    run = "\n".join(p.text for p in pages.pieces(reader.page) if p.section == "Run")
    for crate in code.crates():
        if code.reaches_outside(crate) and crate not in told:
            yield f"{reader.page}: {crate} is not among the programs"
        if code.is_program(crate) and not re.search(rf"\bcrates/{crate}\b", run):
            yield f'{reader.page}: crates/{crate} does not stand under "Run"'
    for file in code.files("crates/promises/proofs/Unique*.antt"):
        if file not in code.read(reader.page):
            yield f"{reader.page}: {file}, with theorems of uniqueness, is not named"
    for folder in code.folders("tests"):
        if not re.search(rf"\btests/{folder}\b", run):
            yield f'{reader.page}: tests/{folder} does not stand under "Run"'


def drawn():
    """docs/ARCHITECTURE.md has each crate of crates.txt once in its table"""
    tables = [table for table in pages.tables(pages.ARCHITECTURE) if table.head[0] == "Crate"]
    told = [name for table in tables for _, row in table.rows for _, name in pages.names(row[0])]
    for crate in sorted(set(told) | set(code.crates())):
        if told.count(crate) != 1 or crate not in code.crates():
            yield f"{pages.ARCHITECTURE}: {crate} stands {told.count(crate)} times in the table of crates"


def answered():
    """docs/PROMISES.md has each enum that a public function answers with once in its table of answers, beside the
    definition that says its number and values, and each other enum in the sentence below it"""
    tables = [table for table in pages.tables(pages.PROMISES) if table.head[0] == "Answer"]
    rows = [(line, name, row[1]) for table in tables for line, row in table.rows for _, name in pages.names(row[0])]
    told = [enum for _, enum, _ in rows]
    for enum in sorted(code.answers() | set(told)):
        if told.count(enum) != 1 or enum not in code.answers():
            yield f"{pages.PROMISES}: {enum} stands {told.count(enum)} times in the table of answers"
    for line, enum, cell in rows:
        crate, file, name = re.fullmatch(r"`(\w+)/(\w+): (\w+)`", cell).groups()
        if f" {name} : {enum.split('::')[1]} → Said\n" not in code.read(f"crates/{crate}/specs/{file}.antt"):
            yield f"{pages.PROMISES}:{line}: {name} does not say what {enum} answers"
    rest = [p.text for p in pages.pieces(pages.PROMISES) if "The remaining enums are no answers" in p.text]
    named = {name for text in rest for _, name in pages.names(text)}
    for enum in sorted(code.enums() - code.answers() - named):
        yield f"{pages.PROMISES}: {enum} is no answer, and is not told to be none"


def exported():
    """docs/CALLS.md has each function of the header that answers once beside the call that it is"""
    inline = r"^static inline (?:thk_\w+_answer|uint32_t) (thk_\w+)\("
    declared = re.findall(inline, code.read("include", "thalluskin.h"), re.M)
    tables = [table for table in pages.tables(pages.CALLS) if "C" in table.head]
    told = [name for table in tables for _, row in table.rows for _, name in pages.names(row[table.head.index("C")])]
    for name in sorted({*declared, *told}):
        if told.count(name) != 1 or name not in declared:
            yield f"{pages.CALLS}: {name} stands {told.count(name)} times in the table of exported functions"


def check():
    readers = [Reader(pages.PROMISES, True)]
    readers += [Reader(page, False) for page in (pages.ARCHITECTURE, pages.DECISIONS, pages.DIFFERENCES)]
    for reader in readers:
        reader.read()
    faults = [fault for reader in readers for fault in reader.faults]
    faults += [*stands(readers[0]), *drawn(), *answered(), *exported()]
    return sum((r.counts for r in readers), collections.Counter(answers=len(code.answers()))), faults
