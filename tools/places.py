#!/usr/bin/env python3
"""Counts the places that docs/DESIGN-PASS.md speaks of, in src/ of every crate: places.py COMMIT [--list]"""
import re
import subprocess
import sys

PATTERNS = [
    ("1a", "cases of own enums that say 'none' or 'refused'", r"^    (Refused|TurnedAway|Outranked|None)(\(.*\))?,$"),
    ("1b", "a flag or a number with the value that it speaks of beside it", r"^    (pub )?(found|ok|taken|refusal|row|sized|digit): (bool|u8)"),
    ("1c", "a refusal or a kind written as a number", r"(return|Refused\(|TurnedAway\(|refusal:|=>) ?([1-9]|1[0-9]|2[0-9])(;|\)|,)"),
    ("3", "loops that are no `for`", r"^ *(while .*|loop) \{"),
    ("4a", "lines that print by hand", r"(io|cases|text)::(print|fill|pick|hex|write_all|print_decimal|refusal)\(|^ +(print|fill|pick|hex|refusal)\("),
    ("4b", "types that derive nothing but Clone and Copy", r"^#\[derive\(Clone, Copy\)\]"),
    ("5a", "`requires` that n is at most 9", r"^ *requires .*n ≤ 9"),
    ("5b", "`requires` that a place is at most a buffer's length", r"^ *requires .*at ≤ length out"),
    ("5c", "`requires` that a box has a bit of a mask", r"^ *requires .*b < 16"),
    ("5d", "functions that take the parts of a drill one by one", r"^ *departments: &\[u8\],$"),
    ("6", "a buffer with a place in it beside", r"(out|buffer): &mut \[u8\], at: usize"),
    ("7", "a match on a number that says what to do", r"match (kind|r\[0\]|what|first|number) "),
]


def sources(commit):
    names = subprocess.run(["git", "ls-tree", "-r", "--name-only", commit, "crates"], capture_output=True, text=True, check=True)
    for name in names.stdout.split():
        if re.match(r"crates/\w+/src/", name):
            text = subprocess.run(["git", "show", f"{commit}:{name}"], capture_output=True, text=True, check=True)
            yield name, text.stdout.split("\n")


def main():
    files = list(sources(sys.argv[1]))
    for point, words, pattern in PATTERNS:
        found = [f"{name}:{i}: {line}" for name, lines in files for i, line in enumerate(lines, 1) if re.search(pattern, line)]
        print(f"{point:3} {len(found):4}  {words}")
        if "--list" in sys.argv:
            print("\n".join("          " + f for f in found))


main()
