#!/usr/bin/env python3
"""Every public function of the libraries has a contract on its answer and asks nothing of its caller,
and the files crates/promises/proofs/Unique*.antt say of each that its contract determines the answer. That the
contracts and the theorems hold is for the prover; this sees that none is missing, and that the static library
exports functions with the very contracts of the library's. A function that answers nothing, and is lent nothing
that it could change, has nothing to determine; what a function read from outside the program no contract can
determine."""
import collections
import glob
import os
import re
import sys

sys.path.insert(0, os.path.dirname(os.path.dirname(os.path.abspath(__file__))))

from common import ROOT  # noqa: E402
from contracts.functions import exported_functions, public_functions  # noqa: E402

# Functions that answer what they read from outside, or whether what they print is taken: they have an `ensures`, and no
# theorem. One that answers yes or no to what is there has nothing that could be said of its answer.
READING = {("console", name) for name in ("file_of_argument", "input", "input_into", "print_answer")}
ASKING = {("console", "has_argument")}


# what a theorem on a function of the view says of two results, where it speaks of the contract in the logic alone
VIEW = {
    "answer": r"\(λ κs r₁ r₂ x₁ x₂\. r₁ ≡ r₂\)",
    "part": r"\(λ κs r₁ r₂ x₁ x₂\. SamePart r₁ r₂\)",
    "buffer": r"\(λ κs r₁ r₂ x₁ x₂\. \(r₁ ≡ r₂\) × \((x)₁((?:\.[01])*\.now) ≡ \1₂\2\)\)",
}


def determines(clauses):
    """what a function's contract has to fix"""
    if "&mut" in clauses:
        return "buffer"
    return "part" if re.search(r"-> &", clauses) else "answer"


def fixed():
    """(crate, name), and what is fixed, "answer", "part" or "buffer" with the answer, of each theorem of those
    files: one about that function's own contract, and no other; and of which functions one speaks of the contract in the
    logic alone"""
    found, in_logic = collections.defaultdict(set), set()
    for path in sorted(glob.glob(os.path.join(ROOT, "crates", "promises", "proofs", "Unique*.antt"))):
        with open(path, encoding="utf-8") as f:
            for function, what, is_in_logic in fixed_by(f.read()):
                found[function].add(what)
                if is_in_logic:
                    in_logic.add(function)
    return found, in_logic


def is_of_the_view(crate, clauses):
    """whether a function takes or makes a view of a font"""
    return crate == "font" and bool(re.search(r"\bself\b|-> Font\b", clauses))


def stated(text, name, indent=""):
    """what a theorem of this name states, in one line"""
    found = re.search(rf"^{indent}pub {re.escape(name)} : (.*(?:\n{indent} +.*)*)", text, re.M)
    return re.sub(r"\s+", " ", found[1]).strip() if found else ""


def fixed_by(text):
    reads = r"^use Rattle\.(\w+)\.proofs\.(?:Font\.)?(\w+)\.Reads as (\S+)-reads$"
    for crate, name, short in re.findall(reads, text, re.M):
        kinds = rf"^use Rattle\.{crate}\.proofs\.(?:Font\.)?{name}\.Kinds as {re.escape(short)}-kinds$"
        s = re.escape(short)
        theorem = rf"Fixes(Part|Lent|) \d+ {s}-kinds\.ps {s}-kinds\.r {s}-reads\.Post\b *(.*)"
        says = re.fullmatch(theorem, stated(text, short.replace("-", "_") + "_unique"))
        if says and re.search(kinds, text, re.M):
            whole = {"": "", "Part": r"\(λ κs r\. r\)", "Lent": r"\(λ κs x\. x(?:\.[01])*\.now\)"}[says[1]]
            if re.fullmatch(whole, says[2]):
                yield (crate, name), {"": "answer", "Part": "part", "Lent": "buffer"}[says[1]], False
    contracts = r"^use Rattle\.(\w+)\.specs\.contracts\.(?:Font\.)?(\w+) as (view-\S+)$"
    for crate, name, short in re.findall(contracts, text, re.M):
        s = re.escape(short)
        theorem = rf"FixesSaid 𝓤 {s}\.ended \({s}\.clauses 𝓛 mem run\) (.*)"
        says = re.fullmatch(theorem, stated(text, short.replace("-", "_") + "_unique", "  "))
        for fixed_part, form in VIEW.items():
            if says and re.fullmatch(form, says[1]):
                yield (crate, name), fixed_part, True


def in_one_line(clauses):
    """a signature and its clauses, however many lines the layout gives the parameters"""
    return re.sub(r"\s+", " ", clauses).replace("( ", "(").replace(", )", ")").strip()


def passing():
    """what is wrong with the functions that the static library exports: each has the name, the parameters, the answer
    and the clauses of a function of the library, so that what is proved of that one is said of it too"""
    of_library = collections.defaultdict(set)
    for crate, name, clauses in public_functions():
        of_library[name].add(in_one_line(clauses))
    exported = list(exported_functions())
    for crate, name, clauses in exported:
        if in_one_line(clauses) not in of_library[name]:
            yield f"{crate}::{name} does not have the signature and the clauses of a library's function {name}"
    exporting = {name for _, name, _ in exported}
    for crate, name, _ in public_functions():
        if exported and name.startswith("thalluskin_") and name not in exporting:
            yield f"{crate}::{name} is not exported"


def main():
    (theorems, in_logic), found, bad = fixed(), set(), list(passing())
    for crate, name, clauses in public_functions():
        found.add((crate, name))
        if re.search(r"\brequires\b", clauses):
            bad.append(f"{crate}::{name} has a requires")
        if "->" not in clauses and "&mut" not in clauses or (crate, name) in ASKING:
            continue
        if not re.search(r"\bensures\b", clauses):
            bad.append(f"{crate}::{name} has no ensures")
        if (crate, name) in READING:
            continue
        if (crate, name) not in theorems:
            bad.append(f"{crate}::{name} has no theorem that its contract determines its answer")
        elif is_of_the_view(crate, clauses) and (crate, name) not in in_logic:
            bad.append(f"{crate}::{name} has no theorem on its contract in the logic alone")
        elif theorems[crate, name] != {determines(clauses)}:
            has, must = " and its ".join(sorted(theorems[crate, name])), determines(clauses)
            bad.append(f"{crate}::{name} has a theorem on its {has}, not on its {must}")
    lost = sorted(set(theorems) - found)
    bad += [f"{crate}::{name} has a theorem, but is no public function" for crate, name in lost]
    bad += [f"{crate}::{name} reads, but is no public function" for crate, name in sorted((READING | ASKING) - found)]
    for line in bad:
        print(line)
    print(f"contracts: {len(found)} public functions, {len(bad)} faults")
    return 1 if bad else 0


sys.exit(main())
