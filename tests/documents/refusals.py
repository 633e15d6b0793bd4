"""Refusals are told alike wherever they are told: their numbers, and for each call the order in which it tests them,
in the theorem on its numbers too."""
import glob
import re

from documents import code, pages

ORDER = "Refusals, in order"
EVERY, DUMPS = [*range(1, 21), 27], 20  # the numbers, and the one that the dump program alone gives
IN_HEADER = [0] + [n for n in EVERY if n != DUMPS]  # what the library's functions answer
# answers the refusal's number itself, so that its type does not show that it refuses
NUMBERS = {("dumper", "print_dump")}
# answers no values, so that its theorem is of another form: utf8/proofs/CheckedText.antt
NO_VALUES = {("utf8", "check")}
# take a record and cannot refuse: its own test, the view, whose functions test it, and a name's bytes, empty instead
UNREFUSED = {("tables", "record_fits"), ("font", "open"), ("names", "name_bytes"), ("font", "name_bytes")}


class Orders:
    """A page's calls with their refusals, in order."""

    def __init__(self, page, column):
        self.page, self.cells, self.faults = page, {}, []
        self.first = set()  # the calls of the first table
        for table in pages.tables(page):
            if table.head[0] == column and ORDER not in table.head:
                self.faults.append(f'{page}: the table under "{table.section}" has no column "{ORDER}"')
            elif table.head[0] == column:
                for line, row in table.rows:
                    self.row(line, row[0], row[table.head.index(ORDER)])
                self.first = self.first or set(self.cells)

    def row(self, line, first, cell):
        calls, crate = [], None
        for _, name in pages.names(first):
            m = re.match(r"(?:(\w+)::)?(\w+)", name)
            crate = {"Font": "font", None: "thalluskin" if m[2].startswith("thalluskin_") else crate}.get(m[1], m[1])
            calls.append((crate, m[2]))
        for place, call in enumerate(calls):
            if call in self.cells:
                self.faults.append(f"{self.page}:{line}: {call[0]}::{call[1]} stands twice")
            self.cells[call] = (line, cell, place, len(calls))

    def named(self, name):
        """the call that a cell means by a name: not the view's function where there is another"""
        crate, _, name = name.rpartition("::")
        calls = [c for c in self.cells if c[1] == name and crate in ("", c[0])]
        return min(calls, key=lambda c: c[0] == "font", default=None)

    def order(self, call, seen=()):
        """the numbers; one that a clause tells twice counts where it tells it first"""
        line, cell, place, many = self.cells[call]
        numbers = []
        for clause in cell.split(";"):
            told = []
            for m in re.finditer(r"(\d+) to (\d+)|\d+|as (`[^`]+`(?:, `[^`]+`)*)", clause):
                if m[1]:
                    told += range(int(m[1]), int(m[2]) + 1)
                elif m[0].isdigit():
                    told += [] if int(m[0]) in told else [int(m[0])]
                else:
                    told += self.referred(line, [name for _, name in pages.names(m[3])], place, many, seen + (call,))
            numbers += told
        return numbers

    def referred(self, line, names, place, many, seen):
        """the numbers of another call: of the one that is named, or of several names that for this call of the row"""
        name = names[place] if len(names) == many else names[0]
        other = self.named(name)
        if len(names) not in (1, many) or other is None or other in seen:
            self.faults.append(f"{self.page}:{line}: refused as which call? {', '.join(names)}")
            return []
        return self.order(other, seen)


def header_orders():
    """the same of the C header, from the comment before each function"""
    orders = Orders("include/thalluskin.h", None)
    text = code.read(orders.page)
    for m in re.finditer(r"/\*((?:(?!\*/).)*)\*/\nstatic inline thk_\w+_answer (thk_\w+)\(", text, re.S):
        told = re.sub(r"\s+(?:\* )?", " ", m[1]).rpartition("Refused ")[2]
        told = told.replace("as that", "as " + "".join(re.findall(r"thk_\w+", m[1])[:1]))
        told = re.sub(r"as thk_(\w+)", r"as `thalluskin_\1`", told)
        orders.row(text[:m.start(2)].count("\n") + 1, f"`{m[2].replace('thk_', 'thalluskin_')}`", told)
    return orders


def compare(known, orders, calls):
    """the calls' orders on a page against those of the other page, which knows all"""
    for call in sorted(calls):
        name = "::".join(call)
        if call not in orders.cells:
            yield f"{orders.page}: {name} is missing"
        elif call not in known.cells:
            yield f"{orders.page}:{orders.cells[call][0]}: {name} is not in {known.page}"
        elif known.order(call) != orders.order(call):
            line = orders.cells[call][0]
            yield f"{orders.page}:{line}: {name} is refused {orders.order(call)}, in {known.page} {known.order(call)}"


def listed(known, calls):
    """docs/CALLS.md has every function of the view's crate where it tells of the view, in a row or in its text"""
    pieces = [piece for piece in pages.pieces(calls.page) if piece.section.endswith("through the view")]
    told = {name.partition("(")[0] for piece in pieces for _, name in pages.names(piece.text)}
    for crate, name in sorted(call for call in known.cells if call[0] == "font"):
        if not {name, f"{crate}::{name}"} & told:
            yield f"{calls.page}: {crate}::{name} is missing"


def public(known):
    """every public function has its row, with refusals where it can refuse, and no row is of another"""
    functions = dict(code.public())
    for call in sorted(set(functions) | set(known.cells)):
        name = "::".join(call)
        if call not in functions:
            yield f"{known.page}:{known.cells[call][0]}: {name} is no public function"
        elif call not in known.cells:
            yield f"{known.page}: the public function {name} is missing"
        elif bool(known.order(call)) != (functions[call] or call in NUMBERS):
            yield f"{known.page}:{known.cells[call][0]}: {name} can{'' if functions[call] else 'not'} refuse"


def recorded(known):
    """a public function that takes a record, or a view that holds one, tests it before all else"""
    for call in sorted(takers() & set(known.cells) - UNREFUSED):
        if known.order(call)[:1] != [6]:
            yield f"{known.page}:{known.cells[call][0]}: {'::'.join(call)} takes a record and does not refuse 6 first"
    for call in sorted(UNREFUSED - takers()):
        yield f"{'::'.join(call)} takes no record"


def takers():
    """the public functions that take a record, or a view that holds one"""
    return {call for call, signature in code.signatures() if re.search(r"\b(?:Record|Font|self)\b", signature)}


def theorems():
    """the theorems on a call's numbers, NAME_refusals: NAME, its list, and whether 6 is said to be the record's test"""
    files = sorted(glob.glob(code.path("crates/*/proofs/*Refusals.antt")))
    lists = [code.read(path) for path in files + sorted(glob.glob(code.path("crates/*/specs/*.antt")))]
    shared = dict(re.findall(r"^(of_\w+) = ((?:\w+ ∷|\w+ \+\+).*)", "\n".join(lists), re.M))

    def numbers(told):
        words = re.findall(r"\d+|of_\w+", told)
        return [n for w in words for n in ([int(w)] if w.isdigit() else numbers(shared[w]))]

    for path in files:
        stated = r"^ *pub (\S+)_refusals :(.*?)^ *(?:unfolding|\1_refusals)\b"
        for m in re.finditer(stated, code.read(path), re.M | re.S):
            told = re.search(r"(NumberedBy|Refusals s rec) (\w+|\((?:[^()]|\([^()]*\))*\))", m[2])
            assert told, f"{path}: {m[1]}_refusals has a form that is not known here"
            yield m[1], (numbers(told[2]), told[1] != "NumberedBy")


def proved(known):
    """each theorem has the list of the page, and no call is without one that tells its numbers there itself"""
    lists = dict(theorems())
    for name, (numbers, _) in lists.items():
        if all(known.order(call) != numbers for call in known.cells if call[1] == name):
            yield f"{known.page}: {name} is proved to be refused {numbers}"
    for call in sorted(known.first - NUMBERS - NO_VALUES):
        line, cell, _, _ = known.cells[call]
        if re.search(r"\d", cell) and call[1] not in lists:
            yield f"{known.page}:{line}: no theorem on the numbers of {'::'.join(call)}"
        elif re.search(r"\d", cell) and call in takers() and not lists[call[1]][1]:
            yield f"{known.page}:{line}: the theorem on {'::'.join(call)} does not say that 6 is the record's test"


def told_numbers():
    """each place that tells refusals by number, with the numbers it has and those it has to have"""
    tables = [t for t in pages.tables(pages.CALLS) if t.head[0] == "No"]
    yield pages.CALLS, [int(row[0]) for t in tables for _, row in t.rows], EVERY
    rows = [row[0] for t in pages.tables(pages.PROMISES) if t.section == "Refusal numbers" for _, row in t.rows]
    parts = [part for row in rows for part in row.split("; ")]
    yield pages.PROMISES, [int(m[1]) for m in map(re.compile(r"(\d+) [a-z]").match, parts) if m], EVERY
    text = code.read("include/thalluskin.h")
    header = re.findall(r"^ *THK_(?!WHY_)(\w+) = (\d+)\b", text, re.M)
    yield "include/thalluskin.h", [int(n) for _, n in header], IN_HEADER
    words = re.findall(r'^ *case THK_(?!WHY_)(\w+):\n *return "(.*)";$', text, re.M)
    told = {row[0]: row[1] for t in tables for _, row in t.rows}
    yield "include/thalluskin.h, words", words, [(name, told.get(n, "not refused")) for name, n in header]
    refusal = code.read("bindings/rust/src/refusal.rs")
    constants = re.findall(r"^ *pub const (\w+): u32 = (\d+);", refusal, re.M)
    yield "bindings/rust/src/refusal.rs", constants, header[1:]
    yield "bindings/rust/src/refusal.rs, reasons", re.findall(r"Refusal::(\w+) =>", refusal), [c for c, _ in constants]


def differing(has, must):
    lacking, more = [n for n in must if n not in has], [n for n in has if n not in must]
    return f"lack {lacking} and have {more} too" if lacking or more else "stand twice or in another order"


def check():
    known, calls, header = Orders(pages.PROMISES, "Function"), Orders(pages.CALLS, "Call"), header_orders()
    exported = {call for call in known.cells if call[0] == "thalluskin" and known.order(call)}
    faults = list(public(known)) + list(recorded(known)) + list(proved(known))
    faults += [*compare(known, calls, known.first | set(calls.cells)), *listed(known, calls)]
    faults += compare(known, header, exported | set(header.cells))
    numbers = list(told_numbers())
    faults += [f"{place}: refusals {differing(has, must)}" for place, has, must in numbers if has != must]
    faults += dict.fromkeys(known.faults + calls.faults + header.faults)
    counts = {
        "public functions": len(known.cells),
        "orders of refusals": sum(len(orders.cells) for orders in (known, calls, header)),
        "lists of refusals": len(numbers),
        "theorems on refusals": len(dict(theorems())),
    }
    return counts, faults
