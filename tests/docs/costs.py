#!/usr/bin/env python3
"""The table of docs/COSTS.md, "Lines and check times", and what the must-fail edits and the faults may cost.

    costs.py --lines [NAME=CHECK,EDITS ..]
        writes the table anew: lines and edits as the tree has them; the seconds stay, but those of a crate that is named, which were measured:
        of a check of it from nothing, and of all its edits. A crate that is new to the table has to be named

`mistakes` says where the table is not the tree's and where the tree is over the budget of CONTRIBUTING.md, "What a wish may add to the
gate". The seconds of an edit are reckoned as those of a check of its crate.
"""
import re
import sys
from pathlib import Path

TOP = Path(__file__).resolve().parents[2]
PAGE = TOP / "docs/COSTS.md"
HEAD = "| crate | src | specs | proofs | edits | check, s | edits, s |\n|---|---|---|---|---|---|---|\n"
TABLE = re.compile(re.escape(HEAD) + r"((?:\|.*\|\n)+)")
ROW = re.compile(r"^\| `(\w+)` \| (\d+) \| (\d+) \| (\d+) \| (\d+) \| (\d+) \| (\d+) \|$", re.M)
# At wish 8, and what each wish after it may add.
SECONDS, SECONDS_A_WISH = 1400, 150
FAULTS, FAULTS_A_WISH = 150, 15
CODE, TESTS = 45, 60


def all_crates():
    """The crates, in the order of crates.txt."""
    return re.findall(r"^(\w+)[^:#\n]*:", (TOP / "crates.txt").read_text(), re.M)


def counted():
    """Of each crate, in the order of crates.txt: lines of src, specs and proofs, and must-fail edits."""
    for crate in all_crates():
        folder = TOP / "crates" / crate
        files = [[f for f in (folder / part).rglob("*") if f.suffix in (".rt", ".antt")] for part in ("src", "specs", "proofs")]
        lines = [sum(len(f.read_text().splitlines()) for f in found) for found in files]
        yield crate, (*lines, len(list(folder.glob("must-fail/*.edit"))))


def mistakes():
    table = TABLE.search(PAGE.read_text())
    if not table:
        yield "docs/COSTS.md: has no table of crates"
        return
    rows = {name: tuple(map(int, numbers)) for name, *numbers in ROW.findall(table[1])}
    tree = dict(counted())
    for name in [*tree, *(set(rows) - set(tree))]:
        there, wanted = rows.get(name, ())[:4], tree.get(name, ())
        if there != wanted:
            yield f"docs/COSTS.md: `{name}` has {there}, should have {wanted}"
    wishes = len(list(TOP.glob("docs/changes/wish-*.md"))) - 8
    seconds = sum(row[3] * row[4] for row in rows.values())
    if seconds > SECONDS + SECONDS_A_WISH * wishes:
        yield f"docs/COSTS.md: the must-fail edits take {seconds} s, {SECONDS + SECONDS_A_WISH * wishes} are the budget"
    faults = len(re.findall(r"^old: ", (TOP / "tests/drill/faults.txt").read_text(), re.M))
    if faults > FAULTS + FAULTS_A_WISH * wishes:
        yield f"tests/drill/faults.txt: {faults} faults, {FAULTS + FAULTS_A_WISH * wishes} are the budget"
    for name, row in rows.items():
        most = TESTS if name.startswith("suite") else CODE
        if row[4] > most:
            yield f"docs/COSTS.md: `{name}` takes {row[4]} s to check, {most} are the most before it is split"


def write(measured):
    """Writes the table, with these seconds of some crates."""
    page = PAGE.read_text()
    seconds = {name: tuple(map(int, numbers[-2:])) for name, *numbers in ROW.findall(TABLE.search(page)[1])} | measured
    tree = dict(counted())
    wrong = sorted(set(measured) - set(tree)) + [name for name in tree if name not in seconds]
    if wrong:
        sys.exit(f"costs.py: {', '.join(wrong)}: a crate of crates.txt has seconds, and nothing else")
    rows = [(f"`{name}`", *numbers, *seconds[name]) for name, numbers in tree.items()]
    rows.append(("all", *map(sum, zip(*(row[1:] for row in rows)))))
    text = "".join("| " + " | ".join(map(str, row)) + " |\n" for row in rows)
    PAGE.write_text(TABLE.sub(lambda _: HEAD + text, page))


if __name__ == "__main__":
    words = [re.fullmatch(r"(\w+)=(\d+),(\d+)", word) for word in sys.argv[2:]]
    if sys.argv[1:2] != ["--lines"] or None in words:
        sys.exit(__doc__)
    write({m[1]: (int(m[2]), int(m[3])) for m in words})
