#!/usr/bin/env python3
"""Checks that nothing that `solo_finish` reaches divides or takes a remainder.

- source: the functions of crates/*/src that it calls, found by their names, have no `/`, no `%` and no call whose name speaks of a
  division. Contracts may divide: they are no code. Each function that the module calls is among those found.
- module: the LLVM module that the toolchain makes of a program that calls `solo_finish`, before it is optimised. The program is made
  here and is not proved; what checks the toolchain then puts in are taken out (tests/build.py).
- machine: that module as machine code, for x86-64 and for a Cortex-M0, which has no division instruction, so that a division there is a
  call of a library's routine; each as it stands and optimised. What may be called outside the module is listed in OUTSIDE.

`--self-test` puts each fault of faults.txt into a copy of the source; exactly the checks that it names have to notice it.
"""
import concurrent.futures
import os
import pathlib
import re
import shutil
import subprocess
import sys
import tempfile

HERE = pathlib.Path(__file__).resolve().parent
TOP = HERE.parents[1]
sys.path.insert(0, str(TOP / "tests"))
import build
OUT = TOP / "target" / "division-test"
START = "solo::solo_finish"
# What a walk that lost its way would not find.
KNOWN = {"plans::round_above", "plans::put_exchange", "base::put_bytes", "base::majority", "base::split32", "commands::encode", "commands::decode", "steps::run_sound", "steps::turn", "runs::record_at", "steps::free::next_sound", "steps::free::better", "steps::free::all_served", "steps::stations_below", "places::lower", "attempts::rows::waits_at", "attempts::rows::department_of", "parts::kinds::change", "parts::begin::begin", "requests::masks::count_below", "register::Register::rmw_write", "register::ByDepartment::with"}
# Calls of no function of the source: cases of std's enums, and std's functions and methods. What these do is in the module.
BUILT_IN = {"Some", "Ok", "Err", "len", "get", "copied", "iter", "all", "filter", "take", "count", "contains", "copy_from_slice", "enumerate", "count_ones", "min", "max", "saturating_sub"}
BUILT_IN |= {"is_some", "is_none_or", "map_or", "unwrap_or", "u16::from", "u32::from", "usize::from", "u16::from_be_bytes", "u32::from_be_bytes"}
WORDS = {"if", "while", "for", "match", "return", "loop", "else", "let", "in", "as"}
# What the module has beside the functions of the source: std's, the body of a closure and its calls, and what drops a value.
MADE = re.compile(r"core::.*|.*::fn::.*|.*::Destruct\+\+.*|.*PartialEq::eq")
NAMES_DIVISION = re.compile(r"(?i)div|rem(_|$)|modulo")
# What the code may call outside the module: copies, zeros, the number of ones, the product of two numbers of 64 bits, by which a Cortex-M0
# finds the place of a box or of a station in the code as it stands, and the trap at a place of the library that is proved not to be reached.
OUTSIDE = re.compile(r"memcpy|memmove|memset|__aeabi_mem(cpy|move|clr)[48]?|__aeabi_lmul|llvm\.(memmove|memset|ctpop)\.[\w.]+|llvm\.trap")
# The machines, and on each the instructions that go elsewhere: x86-64, and a Cortex-M0.
JUMPS = {"x86_64-unknown-linux-gnu": r"call\w*|j\w+", "thumbv6m-none-eabi": r"b|bl|blx|bx|b(eq|ne|hs|lo|mi|pl|vs|vc|hi|ls|ge|lt|gt|le)"}
BUILDS = [(target, level) for target in JUMPS for level in ("-O0", "-O3")]


def reached(calls, start):
    """What is reached from a function, itself included, where `calls` has what each calls."""
    found, left = set(), [start]
    while left:
        name = left.pop()
        if name not in found:
            found.add(name)
            left += calls.get(name, ())
    return found


def closed(text, start):
    """The place behind the brace that closes the one at a place."""
    depth = 0
    for end in range(start, len(text)):
        depth += {"{": 1, "}": -1}.get(text[end], 0)
        if depth == 0:
            return end + 1
    raise ValueError("a brace is not closed")


def without_clauses(text):
    """Source without comments, texts, ghost items and contracts; every other character stays where it was."""
    blank = lambda m: re.sub(r"[^\n]", " ", m[0])
    text = re.sub(r"//[^\n]*|/\*.*?\*/|b?\"(?:\\.|[^\"\\])*\"|b?'(?:\\.|[^'\\])'", blank, text, flags=re.S)
    text = re.sub(r"ghost use [^;]*;", blank, text)
    while clause := re.search(r"\b(requires|ensures)\b[^{]*", text):
        end = closed(text, clause.end())
        text = text[: clause.start()] + re.sub(r"[^\n]", " ", text[clause.start() : end]) + text[end:]
    return text


class Source:
    """The functions of the crates, by their whole names, with their bodies."""

    def __init__(self, tree):
        self.bodies, self.places, self.used, self.methods = {}, {}, {}, {}
        for file in sorted(tree.glob("crates/*/src/**/*.rt")):
            parts = file.relative_to(tree / "crates").with_suffix("").parts
            module = "::".join([parts[0], *(p for p in parts[2:] if p not in ("lib", "main", "mod"))])
            text = without_clauses(file.read_text())
            for item in re.finditer(r"\buse ((?:\w+::)+)(\w+|\{[^{}]*\});", text):
                for name in re.findall(r"\w+", item[2]):
                    self.used[f"{module}::{name}"] = (module, item[1] + name)
            blocks = [(m.end(), closed(text, m.end() - 1), m[1]) for m in re.finditer(r"^impl\b(?:<[^{}()]*?>)? ([^{}]+?) \{", text, re.M)]
            for item in re.finditer(r"\bfn (\w+)\s*(?:<[^()]*>)?\(", text):
                start = text.index("{", item.end())
                name = f"{module}::{item[1]}"
                for head in (head for first, end, head in blocks if first < start < end):
                    trait, _, kind = re.sub(r"<(\w+)>", lambda m: m[1].title(), head).rpartition(" for ")
                    kind = kind if trait else re.sub(r"<.*", "", head)
                    name = f"{parts[0]}::{(kind + trait if trait else kind)[0].upper()}{(kind + trait if trait else kind)[1:]}::{item[1]}"
                    self.methods.setdefault(item[1], {})[name] = kind
                self.bodies[name] = text[start : closed(text, start)]
                self.places[name] = (file.relative_to(tree), text.count("\n", 0, start))

    def meant(self, module, path):
        """The function that a path means in a module, None for a variant of an enum."""
        first, *rest = path.split("::")
        crate, above = module.split("::")[0], module.rsplit("::", 1)[0]
        for head in {"crate": [crate], "super": [above], "self": [module]}.get(first, [f"{module}::{first}", first]):
            name = "::".join([head, *rest])
            if name in self.bodies:
                return name
            if name in self.used:
                return self.meant(*self.used[name])
        if rest and first[0].isupper() and rest[-1][0].isupper():
            return None
        raise LookupError(path)

    def called(self, module, path, method):
        """The functions that a call may mean: a method is told by its name alone."""
        *kind, last = path.split("::")
        named = self.methods.get(last, {})
        if method or kind and kind[-1] in named.values():
            found = {name for name in named if method or named[name] == kind[-1]}
            if found or path in BUILT_IN:
                return found
            raise LookupError(path)
        if path in BUILT_IN:
            return set()
        callee = self.meant(module, path)
        return {callee} if callee else set()

    def check(self):
        """What each function reached calls, and what is wrong."""
        calls, wrong, left = {}, [], [START]
        while left:
            name = left.pop()
            if name in calls:
                continue
            calls[name] = set()
            body, (file, line) = self.bodies[name], self.places[name]
            here = lambda place: f"source: {file}:{line + 1 + body.count(chr(10), 0, place)}: {name}"
            wrong += [f"{here(m.start())} has `{m[0]}`" for m in re.finditer(r"[/%]", body)]
            for call in re.finditer(r"\b((?:\w+::)*\w+)\s*\(", body):
                path = call[1]
                if path in WORDS:
                    continue
                if NAMES_DIVISION.search(path):
                    wrong.append(f"{here(call.start())} calls `{path}`")
                    continue
                try:
                    callees = self.called(name.rsplit("::", 1)[0], path, re.search(r"(?<!\.)\.$", body[: call.start()]))
                except LookupError:
                    wrong.append(f"{here(call.start())} calls `{path}`, which is not found")
                    continue
                calls[name] |= callees
                left += callees
        return reached(calls, START), wrong


PROGRAM = """fn main() {
    let made = steps::new_floor(3, 2, &[0, 1]);
    let f = made.floor;
    let v = suits::of_one(9);
    let done = solo::solo_finish(f, 1, v);
}
"""


def module_of(tree, out):
    """The module of a program that calls `solo_finish`, as text."""
    return build.lowered(tree, out, "finish", PROGRAM, "suits floor steps solo")


def check_module(text):
    """The functions that the module's code reaches, and what is wrong."""
    symbol = r"@(?:\"([^\"]+)\"|([\w.$]+))"
    calls, wrong, bodies = {}, [], {}
    for item in re.finditer(rf"^define [^\n]*?{symbol}\([^\n]*\{{\n(.*?)^\}}", text, re.M | re.S):
        bodies[item[1] or item[2]] = item[3]
    for name, body in bodies.items():
        calls[name] = {a or b for a, b in re.findall(symbol, body)} & bodies.keys()
    for name in sorted(reached(calls, START)):
        for line in bodies[name].splitlines():
            if re.search(r"= (exact )?[usf](div|rem)\b", line):
                wrong.append(f"module: {name} has `{line.strip()}`")
            if re.search(r"\b(call|invoke)\b", line):
                callee = re.search(rf"\b(?:call|invoke)\b[^@(]*{symbol}\(", line)
                callee = callee and (callee[1] or callee[2])
                if callee not in bodies and not OUTSIDE.fullmatch(callee or ""):
                    wrong.append(f"module: {name} calls outside: `{line.strip()}`")
    return reached(calls, START), wrong


def instructions(text, comment):
    """The instructions of each function in a listing."""
    lines, name = {}, None
    for line in text.splitlines():
        label = re.match(r"\"?([\w:.$]+?)\"?:(?:\s|$)", line)
        if label and not label[1].startswith(".L"):
            name = label[1]
            lines[name] = []
        elif name and re.match(r"\t[a-z]", line):
            lines[name].append(line.split(comment)[0].replace('"', "").strip())
    return lines


def check_machine(text, out, target, level):
    """The functions that the machine code reaches, and what is wrong; `solo_finish` is the one that can be called from outside."""
    text = re.sub(r"^target .*\n|\"target-cpu\"=\"[^\"]*\"", "", text, flags=re.M)
    # A name that a listing cannot tell from what stands around it gets another.
    odd = {name: f"odd.{i}" for i, name in enumerate(sorted(set(re.findall(r'@"([^"]+)"', text)))) if not re.fullmatch(r"[\w:.$]+", name)}
    names = {plain: name for name, plain in odd.items()}
    text = re.sub(r'([@$])"([^"]+)"', lambda m: f'{m[1]}"{odd.get(m[2], m[2])}"', text)
    text = re.sub(rf"^define internal (.*@\"{START}\")", r"define \1", text, flags=re.M)
    text = re.sub(r"^define (?!internal)(.*@main\()", r"define internal \1", text, flags=re.M)
    code, listing = out / "machine.ll", out / f"{target}{level}.s"
    code.write_text(text)
    subprocess.run([build.clang(), f"--target={target}", level, "-w", "-S", "-x", "ir", code, "-o", listing], check=True)
    lines = instructions(listing.read_text(), "#" if target.startswith("x86") else "@ ")
    mentioned = lambda line: set(re.findall(r"[A-Za-z_][\w:.$]*", line))
    calls = {name: {word for line in body for word in mentioned(line)} & lines.keys() for name, body in lines.items()}
    where, wrong, found = f"machine: {target} {level}", [], reached(calls, START)
    for name in sorted(found):
        for line in lines.get(name, ()):
            operation, _, goes = line.partition("\t")
            goes = goes.split("@")[0]
            if re.search(r"div|rem", operation):
                wrong.append(f"{where}: {name} has `{line}`")
            # An indirect jump is that of a table of cases: the module has no indirect call.
            known = goes in lines or goes.startswith(".L") or goes == "lr" or line.startswith("jmpq\t*")
            if re.fullmatch(JUMPS[target], operation) and not known and not OUTSIDE.fullmatch(goes):
                wrong.append(f"{where}: {name} goes outside: `{line}`")
    if not lines.get(START):
        wrong.append(f"{where}: no code of {START}")
    return {names.get(name, name) for name in found}, wrong


def check(tree, out):
    """How many functions are reached, and what is wrong."""
    in_source, wrong = Source(tree).check()
    text = module_of(tree, out)
    in_module, more = check_module(text)
    wrong += more
    of_source = {re.sub(r"::<.*", "", name) for name in in_module}
    wrong += [f"source: {name}, which the module has, is not found" for name in sorted(of_source - in_source) if not MADE.fullmatch(name)]
    wrong += [f"{kind}: {name} is not reached" for kind, found in (("source", in_source), ("module", of_source)) for name in sorted(KNOWN - found)]
    for target, level in BUILDS:
        found, more = check_machine(text, out, target, level)
        wrong += more
        if level == "-O0":
            wrong += [f"machine: {target}: {name} is not reached" for name in sorted(in_module - found)]
    return len(in_module), wrong


def faulty(tree, changes):
    """A copy of the source with a fault in it."""
    for crate in (TOP / "crates").iterdir():
        shutil.copytree(crate / "src", tree / "crates" / crate.name / "src")
    shutil.copy(TOP / "crates.txt", tree)
    for name, old, new in changes:
        text = (tree / name).read_text()
        assert text.count(old) == 1, f"faults.txt: `{old}` stands not once in {name}"
        (tree / name).write_text(text.replace(old, new))
    return tree


def try_fault(number, entry):
    """The fault of an entry, what has to notice it, what noticed it, and what was wrong."""
    whole = re.fullmatch(r"# (.*)\n((?:file: .*\nold: .*\nnew: .*\n)+)noticed: (.*)\n?", entry)
    assert whole, f"faults.txt: an entry is not as its head says: {entry}"
    changes = re.findall(r"file: (.*)\nold: (.*)\nnew: (.*)\n", whole[2])
    # Outside the checkout, as in tests/build.py.
    with tempfile.TemporaryDirectory(prefix="division-") as tree:
        _, wrong = check(faulty(pathlib.Path(tree), changes), OUT / "faulty" / str(number))
    told = [kind for kind in ("source", "module", "machine") if any(line.startswith(kind) for line in wrong)]
    return whole[1], whole[3], " ".join(told) or "nothing", wrong


def self_test():
    entries = (HERE / "faults.txt").read_text().split("\n\n")[1:]
    with concurrent.futures.ThreadPoolExecutor(os.cpu_count()) as pool:
        for title, wanted, told, wrong in pool.map(try_fault, range(len(entries)), entries):
            if told != wanted:
                print("\n".join(wrong))
                sys.exit(f"division: {title}: noticed by {told}, and faults.txt says {wanted}")
    print(f"division: {len(entries)} faults, each noticed by the checks that it names and by no other")


def main():
    OUT.mkdir(parents=True, exist_ok=True)
    if sys.argv[1:] == ["--self-test"]:
        return self_test()
    count, wrong = check(TOP, OUT / "right")
    if wrong:
        sys.exit("\n".join(f"division: {line}" for line in wrong))
    print(f"division: solo_finish reaches {count} functions, none of which divides: in source, module and {len(BUILDS)} builds of machine code")


main()
