#!/usr/bin/env python3
"""01's limits are named once: in crates/limits, in code and in specs, with the same numbers; no other Rattle text has such a number.

  tools/check_limits.py [TREE]    a sentence for each fault in TREE/crates; status 1 where there is one

Examples and comments are left out, and what a number means elsewhere (NOWHERE, ELSEWHERE). Limits below 100 are looked for only where they bound something.
It tries itself too: each number, put into a line as a bound, must be found.
"""
import glob
import os
import re
import sys

TOP = sys.argv[1] if len(sys.argv) > 1 else os.path.join(os.path.dirname(os.path.abspath(__file__)), "..")
# Numbers that are looked for nowhere: 65536 is also how many values 16 bits have, 256 how many a byte has, 16 and 8 are widths of blocks of columns and bytes of a word, 2 and 4 are too common. And in a crate: the exponent past a
# double's last, the greatest byte, parts of a length and sizes of a product.
NOWHERE = {65536, 256, 16, 8, 4, 2}
ELSEWHERE = {("ieee", 1024), ("exports", 255), ("row_length", 2**10), ("row_length", 2**12), ("row_length", 2**40), ("row_length", 2**42)}
EXAMPLES = ("proofs/Examples.antt", "record_call/proofs/Halls.antt")
BOUND = r"(?:≤|<=|<|\*|;|replicate) (\d+)\b"


def value(text, known):
    """The number of a constant's expression, by the names before it."""
    text = re.sub(r"[A-Za-z]\w*", lambda m: str(known[m[0]]), text)
    return eval(re.sub(r"(?<=\d)_(?=\d)", "", text).replace("^", "**").replace("/", "//"), {"__builtins__": {}})


def named(path, form):
    """{name: number}, in the order of the file."""
    found = {}
    with open(os.path.join(TOP, path), encoding="utf-8") as text:
        for name, body in re.findall(form, text.read(), re.M):
            found[name] = value(body, found)
    return found


def literals(line):
    """The numbers that a line of code or proof has, powers of two among them."""
    line = re.sub(r"(?<=\d)_(?=\d)", "", line)
    powers = [2 ** int(k) for k in re.findall(r"\b2 \^ (\d+)\b", line) if int(k) < 64] + [1 << int(k) for k in re.findall(r"\b1 << (\d+)\b", line) if int(k) < 64]
    line = re.sub(r"\b2 \^ \d+|\b1 << \d+", "", line)
    return powers + [int(k) for k in re.findall(r"(?<![\w.«-])(\d+)\b(?!\.\d)", line) if int(k) >= 100] + [int(k) for k in re.findall(BOUND, line) if int(k) < 100]


def faults(line, crate, limits):
    return [n for n in literals(line) if n in limits - NOWHERE and (crate, n) not in ELSEWHERE]


def lines(path):
    with open(path, encoding="utf-8") as text:
        return [re.sub(r"(//|--).*", "", line) for line in text]


def main():
    code = named("crates/limits/src/lib.rt", r"^pub const (\w+): \w+ = (.*);$")
    specs = named("crates/limits/specs/Limits.antt", r"^(\w+) = (.*)$")
    said = [f"crates/limits: {name} is {n} in code and {specs.get(name.lower())} in specs" for name, n in code.items() if specs.get(name.lower()) != n]
    said += [f"crates/limits: {name} is in specs and not in code" for name in specs if name not in map(str.lower, code)]
    limits = set(code.values())
    for n in limits - NOWHERE:
        if not faults(f"    few : count ≤ {n}", "tables", limits):
            said.append(f"{n} would not be found")
    texts = [path for part, form in (("src", "rt"), ("specs", "antt"), ("proofs", "antt")) for path in glob.glob(os.path.join(TOP, f"crates/*/{part}/**/*.{form}"), recursive=True)]
    for path in sorted(texts):
        short = os.path.relpath(path, TOP)
        crate = short.split(os.sep)[1]
        if crate == "limits" or short.endswith(EXAMPLES):
            continue
        for k, line in enumerate(lines(path), 1):
            said += [f"{short}:{k}: {n} is a limit's number: name it (crates/limits)" for n in faults(line, crate, limits)]
    print("\n".join(said), end="\n" if said else "")
    return 1 if said else 0


sys.exit(main())
