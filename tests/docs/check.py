#!/usr/bin/env python3
"""Checks what the documents cite. `--write` first sets the list of line counts under "What a reader must believe".

- Every path of the repository exists; one in the out/ of a crate is what `rt` makes there. `floor/specs/Step` is short for
  crates/floor/specs/Step.antt, and in a document about a crate `specs/Step` for that of the crate. A reading of docs/DECISIONS.md is there.
- Names in backticks before a path, "`a`, `b` (path)" or "`a` in path", are words of that file or of a file in that folder, outside
  comments; so are the names behind it in "(`path`, `a`)", and the calls in the table of calls. Code behind it, "(path), `last: u16`",
  stands there as it is, and so does a quotation: path, "text".
- The list of definitions has the right files, stars, line counts and sums.
- What C calls is in the table of calls, and has the parameters and clauses of the call of that name which stands there besides.
- The lines of the box on a socket that docs/BOX-MAKERS.md shows are those of the program.
- The lines and edits in docs/COSTS.md are the tree's, and the tree is within the gate's budget (costs.py).
"""
import re
import sys
import costs
from rests_on import TOP, WORD, believed, contract, in_order, public_calls

GUARANTEES = "docs/GUARANTEES.md"
DOCS = [GUARANTEES, "README.md", "CONTRIBUTING.md", "docs/DECISIONS.md", "docs/PROTOCOL.md", "docs/BOX-MAKERS.md", "docs/DRILLS.md", "docs/COSTS.md"]
DOCS += sorted(f"docs/changes/{note.name}" for note in TOP.glob("docs/changes/*.md"))
ROOTS = "crates|tests|drills|include|docs|\\.ci"
PARTS = "specs|proofs|src|must-fail"
PATH = re.compile(
    rf"(?<![\w/.-])(?:\.\./)?((?:{ROOTS})(?=/)(?:/[\w.*-]*[\w*])*)/?"  # a path
    rf"|(?<=`)(\w+/(?:{PARTS})(?:/\w+)?|(?:{PARTS})/\w+)(?=`)"  # a short form
)
CODE = re.compile(r"`([^`]+)`")
NAME = re.compile(r"[\w◌'-]+")
mistakes, checked = [], 0


def check(holds, where, what):
    global checked
    checked += 1
    if not holds:
        mistakes.append(f"{where}: {what}")


def made(crate):
    """What `rt` makes in the out/ of a crate: a program and what it printed, or a library for C."""
    if (TOP / "crates" / crate / "src/main.rt").exists():
        return [crate, "stdout"]
    return [f"lib{crate}.a"] if re.search(rf"^{crate} staticlib\b", (TOP / "crates.txt").read_text(), re.M) else []


def meant(path, crates):
    """The files and folders that a path means, in a document that is about these crates; of what `rt` makes, the crate's folder."""
    out = re.fullmatch(r"crates/(\w+)/out/(.+)", path)
    if out:
        return [TOP / "crates" / out[1]] if out[2] in made(out[1]) else []
    first = path.split("/")[0]
    tries = [path] if re.fullmatch(ROOTS, first) else [f"crates/{path}"]
    if re.fullmatch(PARTS, first):
        tries = [f"crates/{crate}/{path}" for crate in crates]
    return [found for t in tries for end in ("", ".antt") for found in TOP.glob(t + end)]


def texts(places):
    """What stands in some files, or in the files of some folders, without the lines that are comments."""
    for place in places:
        for file in [place] if place.is_file() else sorted(place.rglob("*.*")):
            yield re.sub(r"^\s*(--|//).*$", "", file.read_text(errors="replace"), flags=re.M)


def names_before(clause):
    """The names that belong to the path behind this text, which starts behind the path before: those since its last stop."""
    clause = re.sub(r"[Cc]rate `\w+`", "crate", clause.strip("`"))
    hidden = CODE.sub(lambda c: "`" + "x" * len(c[1]) + "`", clause)
    start = max((m.end() for m in re.finditer(r"[;|]|[.:] ", hidden)), default=0)
    cited = re.search(r"` (\(|in |are in |stands? in )\(?\[?$", clause)
    return CODE.findall(clause[start:]) if cited else []


def part(pattern, text):
    """The part of the text's beginning that the pattern's brackets name."""
    found = re.match(pattern, text)
    return found[1] if found else ""


def check_line(where, line, crates, readings):
    last = 0
    for m in PATH.finditer(line):
        path, before, behind = m[1] or m[2], line[:m.start()], line[m.end():]
        if "NAME" in path:
            continue
        places = meant(path, crates)
        check(places, where, f"{path} does not exist")
        names = [] if path.startswith("docs/") else names_before(before[last:])
        names += CODE.findall(part(r"`((?:, `[^`]+`)+)\)", behind) + part(r"\| ((?:`\w+`(?:, )?)+) \| $", before))
        for name in filter(NAME.fullmatch, names if places else []):
            check(any(re.search(WORD % re.escape(name), t) for t in texts(places)), where, f"`{name}` is not in {path}")
        exact = [c for c in CODE.findall(part(r"\)((?:(?:,| and) `[^`]+`)+)", behind)) if not NAME.fullmatch(c)]
        exact += re.findall(r'"([^"]+)"', part(r'\)?, (?:heading )?((?:"[^"]+"(?:, | and )?)+)', behind))
        for text in exact if places else []:
            check(any(text in t for t in texts(places)), where, f"{path} does not have: {text}")
        for number in re.findall(r"\d+", part(r", readings? (\d+(?:(?:, | and )\d+)*)", behind)):
            check(number in readings, where, f"{path} has no reading {number}")
        last = m.end()


def check_counts(lines, write):
    """The list of definitions under "What a reader must believe"; corrected in `lines` and in the file where `write` is set."""
    try:
        files, demand = believed("\n".join(lines))
    except (ValueError, OSError) as wrong:
        return check(False, GUARANTEES, wrong)
    count = {file: len((TOP / file).read_text().splitlines()) for file in files}
    star = {file: "" if file in demand else "\\*" for file in files}
    sums = iter([f"{len(s)} files, {sum(count[f] for f in s):,} lines" for s in (files, demand)])
    first = next(i for i, line in enumerate(lines) if line.startswith("1. That these definitions"))
    end = next(i for i in range(first + 1, len(lines)) if not lines[i].startswith("   - "))
    right = [re.sub(r"\d+ files, [\d,]+ lines", lambda _: next(sums), lines[first])]
    for folder, listed in in_order(files):
        right.append(f"   - {folder}: " + ", ".join(f"{f.split('/')[-1]}{star[f]} {count[f]}" for f in listed))
    if write:
        lines[first:end], end = right, first + len(right)
        (TOP / GUARANTEES).write_text("\n".join(lines))
    for i in range(max(len(right), end - first)):
        there = lines[first + i] if first + i < end else "nothing"
        wanted = right[i] if i < len(right) else "nothing"
        check(there == wanted, f"{GUARANTEES}:{first + i + 1}", f"has {there.strip()}\n    should have {wanted.strip()}")


def check_exports(lines):
    """The functions for C, of the libraries for C, and those of the same names that they call, if they do."""
    calls = list(public_calls("\n".join(lines)))
    for crate in re.findall(r"^(\w+) staticlib\b", (TOP / "crates.txt").read_text(), re.M):
        for file in sorted((TOP / "crates" / crate / "src").rglob("*.rt")):
            source = str(file.relative_to(TOP))
            text = file.read_text()
            for name in re.findall(r'extern "C" fn (\w+)', text):
                wanted = 1 + bool(re.search(rf"::{name}\(", text))
                places = [place for place, n in calls if n == name]
                said = {re.sub(r"[\s,]+", " ", contract(place, name)[1]).replace("( ", "(").replace(" )", ")") for place in places}
                check(source in places and len(places) == wanted and len(said) == 1, source, f"`{name}` is not as in the table of calls: {places}")


def check_shown():
    """What docs/BOX-MAKERS.md shows of the box on a socket is what stands there between its marks."""
    program = (TOP / "tests/box/box.c").read_text()
    shown = re.search(r"/\* \[serve\] \*/\n(.*?)/\* \[/serve\] \*/", program, re.S)
    blocks = re.findall(r"^```c\n(.*?)^```$", (TOP / "docs/BOX-MAKERS.md").read_text(), re.S | re.M)
    check(shown and shown[1] in blocks, "docs/BOX-MAKERS.md", "does not show the lines of tests/box/box.c between its marks")


check_shown()
found = list(costs.mistakes())
check(not found, "docs/COSTS.md", "\n    ".join(found))
decisions = (TOP / "docs/DECISIONS.md").read_text()
for doc in DOCS:
    lines = (TOP / doc).read_text().split("\n")
    if doc == GUARANTEES:
        check_counts(lines, "--write" in sys.argv)
        check_exports(lines)
    crates = re.findall(r"[Cc]rate `(\w+)`", "\n".join(lines))
    for i, line in enumerate(lines):
        check_line(f"{doc}:{i + 1}", line, crates, re.findall(r"^(\d+)\. ", decisions, re.M))
print("\n".join(mistakes) if mistakes else f"docs: {checked} citations checked")
sys.exit(1 if mistakes else 0)
