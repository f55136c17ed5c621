#!/usr/bin/env python3
"""Turns the names of this repository's definitions, lemmas and fields to the spelling of today's Rattle: snake case, with no dash.

usage: python3 tools/respell.py [TOP]

Run once, on the files that port.py of the toolchain has turned. It goes over crates/*/specs, crates/*/proofs, crates/*/src and the edits of
crates/*/must-fail. A name is turned where a file of specs/ or proofs/ declares it and the file at hand does not import it from a library
of the toolchain. Names of functions, types and modules, of C, and strings stay. The choice of crates/base/specs/Choice.antt becomes
`when◌then◌else◌`: the toolchain's library has an `if◌then◌else◌` that binds otherwise, and `rt ci` keeps that name for it.
"""
import collections
import pathlib
import re
import sys

TOP = pathlib.Path(sys.argv[1] if len(sys.argv) > 1 else ".").resolve()
WORD = r"[^\s(){}\[\],.;:λ→∀\"`|]+"
# A lemma or a field that would have the name of a definition that it stands beside.
LEMMAS = {
    "is-waiting", "row-at", "is-reading", "is-writing", "is-active", "is-gone", "is-busy", "row-heard", "department-at", "header-values",
    "departments-part", "is-on-the-way", "row-place", "new-floor", "write-issued", "heard-in", "told-from", "issued-row", "stopped-box",
    "gone-station", "heard-row", "turned-back", "decided-in", "no-values", "written-size", "asked-of", "heard-by", "outranked-read",
    "row-asked", "row-served", "solo-number", "solo-value",
}
# The same, of names that port.py has turned: in these files alone.
TURNED = {
    "all_yes": (r"crates/requests/(specs|proofs)/Claims\.antt", r"(?<![\w'.])all_yes(?= [:=] )", "all_yes_lem"),
    "all_said": (r"crates/solo/proofs/(Driven|Phases)\.antt", r"(?<![\w'.])all_said(?![\w'])", "all_said_lem"),
    "new-row": (r"crates/solo/proofs/Decides\.antt", r"(?<![\w'-])new-row(?![\w'-])", "new_row_lem"),
    "read_answer": (r"crates/chain/proofs/Chain\.antt", r"(?<![\w'.])read_answer(?![\w'])", "read_answer_lem"),
}


def snake(name):
    if name in LEMMAS:
        return name.replace("-", "_") + "_lem"
    if re.match(r"[a-z]", name):
        name = re.sub(r"(?<=[a-z0-9])([A-Z])", lambda m: "_" + m[1].lower(), name)
    return re.sub(r"(?<=\w)-(?=\w)", "_", name)


def declared(text):
    """The names that a file of specs/ or proofs/ declares."""
    text = re.sub(r"--.*", "", text)
    for m in re.finditer(rf"^[ ]*(?:pub |abbrev |unfoldable )*({WORD})((?: +{WORD})*)((?: *[({{][^:\n]*)?) *:", text, re.M):
        yield m[1]
        yield from m[2].split()
    for m in re.finditer(r"\b(?:record|data|module) +([^\s(){}]+)", text):
        yield m[1]
    for m in re.finditer(rf"[({{]((?:{WORD} +)*{WORD}) *:", text):
        yield from m[1].split()
    for m in re.finditer(r"\blet +([^\s(){}]+)", text):
        yield m[1]
    for m in re.finditer(r"λ ([^.]*)\.", text):
        yield from (name.strip("()") for name in m[1].split())
    for m in re.finditer(r"^use [\w.·-]+ as ([\w·-]+)$", text, re.M):
        yield m[1]


def imported(text, own):
    """The names that a file imports from outside the repository."""
    for m in re.finditer(r"^(?:ghost )?(?:pub )?use ([\w.·'-]+?)\.?(?:\{([^}]*)\})?;?$", text, re.M):
        parts = m[1].split(".")
        if not (parts[0] == "Rattle" and len(parts) > 1 and parts[1] in own):
            yield from (name.strip().split(" as ")[-1] for name in (m[2] or "").split(","))


def words(text, kept, some):
    """The text with its names turned: all of them, or those that have no dash."""
    word = r"[a-zA-Z_][\w']*(?:-[\w']+)*"
    turn = lambda m: names[m[0]] if m[0] in names and m[0] not in kept and (some or "-" not in m[0]) else m[0]
    return re.sub(rf"(?<![\w'#·-]){word}(?![\w'·-])", turn, text)


def chosen(text):
    """The text with its choices under their own name."""
    text = text.replace("if◌then◌else◌", "when◌then◌else◌")
    return re.sub(r"(?<![\w'◌-])if(?= )", "when", text)


def turned(line, kept, suffix):
    """A line with its names turned. In a comment a word with a dash is a name where it stands in backticks, and a string stays."""
    mark = "//" if suffix == ".rt" else "--"
    start = re.search(rf"(?<![^\s]){mark}", line)
    at = start.start() if start else len(line)
    if suffix == ".edit":
        at = 0 if line.startswith("#") else len(line)
    head, tail = line[:at], line[at:]
    if suffix == ".rt":
        head = "".join(s if s.startswith('"') else words(s, kept, False) for s in re.split(r'("(?:[^"\\]|\\.)*")', head))
    else:
        head = words(head, kept, True)
    if suffix == ".antt" or " then " in head or head.startswith("ghost use") or re.match(r"(old|new): +else if ", head):
        head = chosen(head)
    return head + "".join(s if s.startswith('"') else words(s, kept, s.startswith("`")) for s in re.split(r"(`[^`]*`)", tail))


antt = sorted(p for kind in ("specs", "proofs") for p in TOP.glob(f"crates/*/{kind}/**/*.antt") if "/out/" not in str(p))
code = sorted(p for p in TOP.glob("crates/*/src/**/*.rt"))
edits = sorted(TOP.glob("crates/*/must-fail/*.edit"))
own = {p.name for p in TOP.glob("crates/*")}
names = {}
for p in antt:
    for name in declared(p.read_text()):
        if re.fullmatch(r"[a-zA-Z_][\w'-]*", name) and snake(name) != name:
            names[name] = snake(name)
# A step of a proof is named by the function that it calls.
for p in code:
    for name in re.findall(r"\bfn (\w+)", p.read_text()):
        if "_" in name:
            for step in (name, name + "-spec", *(name + str(k) for k in range(2, 10))):
                names.setdefault(step.replace("_", "-"), step.replace("-", "_"))
for p in antt + code + edits:
    text = before = p.read_text()
    if p.suffix == ".edit":
        kept = set()
    else:
        kept = set(imported(text, own))
    where = str(p.relative_to(TOP))
    for file, old, new in TURNED.values():
        if re.fullmatch(file, where):
            text = re.sub(old, new, text)
    text = "\n".join(turned(line, kept, p.suffix) for line in text.split("\n"))
    if text != before:
        p.write_text(text)
for new in sorted(n for n, k in collections.Counter(names.values()).items() if k > 1):
    print(f"look: {new}: {', '.join(sorted(n for n in names if names[n] == new))}")
print(f"respell: {len(names)} names")
