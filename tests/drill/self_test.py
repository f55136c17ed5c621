"""self_test.py SOURCES OUT SEED [full]: puts each fault of faults.txt into a copy of reference.rs, as many at a time as there are
processors.

The comparisons are compiled once, on the right reference as a library that is loaded when they start; each faulty reference is compiled as
such a library, and takes its place. What the comparison runs programs on, and what they have to print, is recorded once with the right
reference; what the faulty one prints has to differ from it, or it has to end otherwise. Where the fault names a claim that it breaks, one
of demand 3, the deletion or the return of boxes, a comparison that uses the faulty reference, with no program, has to find that claim
broken. A fault of the writer is put into the reference that the writer is compared with, and write.rs has to find the two different.
`full` looks for a broken claim with the other faults too, wants none, and prints a line for each fault.
"""
import concurrent.futures
import os
import pathlib
import re
import shutil
import subprocess
import sys

sources, out, seed = pathlib.Path(sys.argv[1]), pathlib.Path(sys.argv[2]), sys.argv[3]
full = sys.argv[4:] == ["full"]
right = (sources / "reference.rs").read_text()
text = (sources / "faults.txt").read_text()
faults = re.findall(r"^# (.*)\nold: (.*)\nnew: (.*)\n(?:breaks: (\w+)\n)?(writer\n)?", text + "\n", re.M)
assert len(faults) == len(re.findall(r"^old: ", text, re.M)), "faults.txt: an entry is not as its head says"
named = {claim for _, _, _, claim, _ in faults if claim}
assert named == {"agreement", "validity", "abort", "shown", "deletion", "return"}, f"faults.txt breaks {sorted(named)}, which is not each claim"
standard = subprocess.run(["rustc", "--print", "target-libdir"], check=True, capture_output=True, text=True).stdout.strip()


def types(source):
    """What the comparisons have of the reference when they are compiled: a fault may change no more than what its functions do."""
    return re.findall(r"^ *(?:#\[derive.*\n *)?(?:pub )?(?:(?:struct|enum) [^}]*}|(?:type|const) [^;]*;|fn [^{]*{)", source, re.M)


def library(folder, optimised):
    """Compiles the reference of a folder as a library that is loaded when a program starts. Where it is optimised, rustc would have small
    functions of it compiled into the comparisons, and does not where it keeps parts between runs."""
    words = ["--crate-name", "reference", "--crate-type", "dylib", "-C", "prefer-dynamic", "-A", "warnings"]
    words += ["-O", "-C", f"incremental={folder / 'kept'}"] if optimised else []
    subprocess.run(["rustc", "--edition", "2021", *words, "-o", folder / "libreference.so", folder / "reference.rs"], check=True)


def run(folder, name, *words):
    """A comparison that has run on the reference of a folder."""
    env = {**os.environ, "LD_LIBRARY_PATH": f"{folder}:{standard}"}
    return subprocess.run([out / "self" / name, *words], capture_output=True, text=True, timeout=300, env=env)


def difference(folder, name, *words):
    """What a comparison prints on the reference of a folder where it finds a difference; where it ends otherwise, nothing."""
    done = run(folder, name, *words)
    return done.stdout if done.returncode == 1 else ""


def broken_claim(folder, claim):
    """The claim that a comparison on the faulty reference finds broken, if any; where one is named, that one."""
    said = difference(folder, "compare", "-", "4000", seed, folder / "left", claim or "claims")
    found = re.search(r"the reference's own trace breaks (\w+):", said)
    return found[1] if found else ""


def try_fault(number):
    """Whether the fault is noticed, and the claim that it breaks; that is looked for where the fault names one."""
    _, old, new, claim, writer = faults[number]
    assert right.count(old) == 1, f"faults.txt: `{old}` stands not once in reference.rs"
    faulty = right.replace(old, new)
    assert types(faulty) == types(right), f"faults.txt: `{new}` changes more than what a function does"
    folder = out / "self" / str(number)
    folder.mkdir()
    (folder / "reference.rs").write_text(faulty)
    library(folder, full)
    if writer:
        return "expected refusal" in difference(folder, "write", "100", seed, folder / "left"), ""
    noticed = re.search(r": expected\n.*^printed\n|: the program ended with", difference(folder, "compare", out / "self" / "recorded"), re.M | re.S)
    return bool(noticed), broken_claim(folder, claim) if claim or full else ""


def prepare():
    """Compiles the comparisons, and records what a program has to print. The right reference is not told from itself."""
    folder = out / "self" / "right"
    folder.mkdir(parents=True)
    shutil.copy(sources / "reference.rs", folder)
    library(folder, True)
    words = ["--edition", "2021", "-C", "opt-level=1", "-C", "prefer-dynamic", "--extern", f"reference={folder / 'libreference.so'}", "-L", out]
    made = [subprocess.Popen(["rustc", *words, "-o", out / "self" / name, sources / f"{name}.rs"]) for name in ("compare", "write")]
    assert not any([rustc.wait() for rustc in made]), "a comparison is not compiled"
    for words in (["4000", seed, out / "left", "record"], []):
        done = run(folder, "compare", out / "self" / "recorded", *words)
        assert done.returncode == 0, f"the right reference is told from itself: {done.stdout}{done.stderr}"


shutil.rmtree(out / "self", ignore_errors=True)
prepare()
wrong = 0
with concurrent.futures.ThreadPoolExecutor(os.cpu_count()) as pool:
    for (why, _, _, claim, _), (noticed, broken) in zip(faults, pool.map(try_fault, range(len(faults)))):
        right_so = noticed and broken == claim
        wrong += not right_so
        if full or not right_so:
            print(f"{'noticed' if noticed else 'MISSED'}, breaks {broken or 'no claim'}, should break {claim or 'none'}: {why}", flush=True)
print(f"drill self-test: {len(faults)} faults, {wrong} not as faults.txt has them" if wrong else f"drill self-test: {len(faults)} faults noticed")
sys.exit(1 if wrong else 0)
