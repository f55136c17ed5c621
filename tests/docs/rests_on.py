#!/usr/bin/env python3
"""Which files of definitions the public contracts and the statement of demand 3 rest on, by what they import.

The public calls are those of the table of calls in docs/GUARANTEES.md. A contract rests on the files of the definitions that it names,
a file of definitions on every file that it imports. The structs and enums, which a file imports from `specs.declared`, are not counted,
nor is what comes from a library of the toolchain.
"""
import re
from pathlib import Path
from costs import all_crates

TOP = Path(__file__).resolve().parents[2]
DEMAND = {"crates/agreement/specs/Demand.antt", "crates/agreement/specs/Words.antt"}
IMPORT = r"use Rattle\.(\w+)\.specs\.(\w+)"
WORD = r"(?<![\w◌'-])%s(?![\w◌'-])"


def of_crates(imports):
    """The files of the definitions among (crate, module), those of this repository's crates."""
    return [f"crates/{crate}/specs/{module}.antt" for crate, module in imports if module != "declared" and (TOP / "crates" / crate).is_dir()]


def public_calls(guarantees):
    """The rows of the table of calls: (source file, name of the function)."""
    for names, source in re.findall(r"^\| ((?:`\w+`(?:, )?)+) \| (crates/\S+\.rt) \|", guarantees, re.M):
        for name in re.findall(r"\w+", names):
            yield source, name


def contract(source, name):
    """The text of a source file, and in it a public call's parameters and clauses; a call may be a method."""
    text = (TOP / source).read_text() if (TOP / source).exists() else ""
    found = re.search(rf'^( *)pub (?:extern "C" )?fn {name}(\(.*?)\n\1\{{', text, re.S | re.M)
    if not found or "requires" in found[2] or "ensures" not in found[2]:
        raise ValueError(f"`{name}` in {source} is no public function with an `ensures` and without a `requires`")
    return text, found[2]


def named_by(source, name):
    """The files of the definitions that the contract of a public call names."""
    text, found = contract(source, name)
    promise = found[found.index("ensures"):]
    for crate, module, names in re.findall(rf"^ghost {IMPORT}\.\{{(.*?)\}};", text, re.M):
        if any(re.search(WORD % re.escape(n), promise) for n in names.split(", ")):
            yield from of_crates([(crate, module)])


def closure(files):
    """The files, and all that they import."""
    seen, todo = set(), list(files)
    while todo:
        file = todo.pop()
        if file not in seen:
            seen.add(file)
            todo += of_crates(re.findall(rf"^{IMPORT}", (TOP / file).read_text(), re.M))
    return seen


def in_order(files):
    """By crate as in crates.txt, within a crate as in its specs/Lib.antt."""
    for crate in all_crates():
        folder = f"crates/{crate}/specs"
        lib = TOP / folder / "Lib.antt"
        modules = re.findall(r"^pub mod (\w+)", lib.read_text(), re.M) if lib.exists() else []
        listed = [f"{folder}/{m}.antt" for m in modules if f"{folder}/{m}.antt" in files]
        if listed:
            yield folder, listed


def believed(guarantees):
    """What all public contracts and demand 3 rest on, and what demand 3 alone rests on."""
    contracts = {file for source, name in public_calls(guarantees) for file in named_by(source, name)}
    demand = closure(DEMAND)
    return closure(contracts) | demand, demand
