#!/usr/bin/env python3
"""Spells the repository's own definitions, lemmas, fields and constructors in snake case: `upTo-next` as `up_to_next`. Run once, after port.py, at the top
of the tree: it rewrites crates/*/{src,specs,proofs} and the edits in place. Functions, parameters and constants of src/ keep their names, and so do types,
facts (which begin with a capital) and names with a sign in them, but for their words in camel case. It fails, and writes nothing, where two names would fall
together or a new spelling stands in a file already."""

import collections
import glob
import os
import re
import sys

WORD = re.compile(r'[^\s(){}.;,@"«»\[\]|:\\]+')
DECLARED = re.compile(r"^(\s*)((?:abbrev|unfoldable|pub|axiom|data|record|ruleset)\s+)*([^\s(){}.;,@\"«»:]+)(?: \{[^{}\n]*\})* :(?:\s|$)")
PLAIN = re.compile(r"[a-zα-ω][A-Za-z0-9₀-₉α-ω_'-]*\Z")
# Modules that fall together with one that Rattle makes.
MODULES = {"Contracts": "Clauses"}
# A spelling that is taken, or would meet another.
INSTEAD = {"of-bits": "of_bits_lem", "is-nan": "is_nan_lem", "workRows": "prepared_rows", "workCols": "prepared_cols", "workValues": "prepared_values"}
# Heads behind which a name is Rattle's own.
MADE = re.compile(r"(?:c|w|l|goal|tie|args|new|initial|auto|ranges|before)\Z")


def snake(name):
    words = re.sub(r"(?<=[a-z0-9₀-₉])[A-Z](?![A-Z])|(?<=[a-z0-9₀-₉])[A-Z]+", lambda m: "_" + m[0].lower(), name)
    return words.replace("-", "_") if PLAIN.match(name) else words


def files():
    for d, ds, fs in os.walk("crates"):
        ds[:] = sorted(x for x in ds if x != "out")
        for f in sorted(fs):
            if f.endswith((".antt", ".rt", ".edit")):
                yield os.path.join(d, f)


def read(p):
    with open(p, encoding="utf-8") as f:
        return f.read()


def declared(texts):
    names, fields = set(), set()
    for p, t in texts.items():
        if not p.endswith(".antt") or os.path.basename(p) in ("Proof.antt", "Lib.antt"):
            continue
        for line in t.split("\n"):
            m = DECLARED.match(line)
            if m and not line.lstrip().startswith("--") and re.match("[a-z]", m[3]):
                (fields if m[1] else names).add(m[3])
    return names, fields


def code_and_comments(p, t):
    """(text, is a comment) in turn."""
    mark = "//" if p.endswith(".rt") else "--" if p.endswith(".antt") else "#"
    at = r"(?m)//[^\n]*" if mark == "//" else r"(?m)(?:(?<=\s)|^)--[^\n]*" if mark == "--" else r"(?m)^#[^\n]*"
    last = 0
    for m in re.finditer(at, t):
        yield t[last : m.start()], False
        yield m[0], True
        last = m.end()
    yield t[last:], False


def turn(p, t, table, fields):
    proof = p.endswith("Proof.antt")
    local = set()
    if proof:
        local = {m[3] for m in map(DECLARED.match, t.split("\n")) if m}

    def code(s):
        def one(m):
            w = m[0]
            if w in MODULES and m.start() and s[m.start() - 1] == ".":
                return MODULES[w]
            if w not in table or w in local:
                return w
            if m.start() and s[m.start() - 1] == ".":
                head = re.search(r'([^\s(){}.;,@"«»\[\]]*)\.\Z', s[: m.start()])[1]
                if re.match("[A-Z]", head):
                    return table[w]
                if MADE.match(head) or w not in fields:
                    return w
            return table[w]

        return WORD.sub(one, s)

    def comment(s):
        camel = lambda w: table[w] if w in table and re.search("[A-Z]", w) else w
        s = re.sub(r"`[^`\n]*`", lambda m: WORD.sub(lambda x: table.get(x[0], x[0]), m[0].replace("`", " ` ")).replace(" ` ", "`"), s)
        return WORD.sub(lambda m: camel(m[0]), s)

    if p.endswith(".rt"):
        # clauses and ghost items alone have these names
        return "".join(comment(s) if c else WORD.sub(lambda m: code_word(s, m, table, fields), s) for s, c in code_and_comments(p, t))
    return "".join(comment(s) if c else code(s) for s, c in code_and_comments(p, t))


def code_word(s, m, table, fields):
    w = m[0]
    if w in MODULES and s[m.start() - 1 : m.start()] == ".":
        return MODULES[w]
    if w not in table:
        return w
    if m.start() and s[m.start() - 1] == "." and w not in fields:
        head = re.search(r'([^\s(){}.;,@"«»\[\]]*)\.\Z', s[: m.start()])[1]
        if not re.match("[A-Z]", head):
            return w
    return table[w]


def places(texts):
    """Where each own name is declared: in specs/ or in proofs/ alone."""
    where = collections.defaultdict(set)
    for p, t in texts.items():
        if p.endswith(".antt") and os.path.basename(p) not in ("Proof.antt", "Lib.antt"):
            for line in t.split("\n"):
                m = DECLARED.match(line)
                if m and not line.lstrip().startswith("--") and re.match("[a-z]", m[3]):
                    where[m[3]].add("specs" if "/specs/" in p else "proofs")
    return where


def spellings(where):
    """Old to new. A lemma that would have its function's name gets _lem."""
    to = collections.defaultdict(set)
    for n in where:
        to[INSTEAD.get(n, snake(n))].add(n)
    table = {}
    for n in where:
        b = INSTEAD.get(n, snake(n))
        others = to[b] - {n}
        plain = not re.search("[A-Z]", n)
        if others and plain and "specs" not in where[n] and any(re.search("[A-Z]", o) or "specs" in where[o] for o in others):
            b += "_lem"
        if b != n:
            table[n] = b
    return table


def main():
    texts = {p: read(p) for p in files()}
    names, fields = declared(texts)
    where = places(texts)
    table = spellings(where)
    to = collections.defaultdict(set)
    for a, b in table.items():
        to[b].add(a)
    for b in to:
        if b in where and b not in table:
            to[b].add(b)
    bad = 0
    for b, many in sorted(to.items()):
        if len(many) > 1:
            print("together:", b, sorted(many))
    # a new spelling that a file has already as a variable
    for p, t in texts.items():
        if not p.endswith(".antt") or p.endswith("Proof.antt"):
            continue
        for s, c in code_and_comments(p, t):
            for m in () if c else WORD.finditer(s):
                if m[0] in to and m[0] not in where and s[m.start() - 1 : m.start()] != ".":
                    print("variable:", m[0], p)
    # a parameter of a function that would hide a word of its clauses
    for p, t in texts.items():
        if p.endswith(".rt"):
            for m in re.finditer(r"fn (\w+)[^(]*\(([^)]*)\)(.*?)\n\{", t, re.S):
                words = {table.get(w[0], w[0]) for w in WORD.finditer(m[3])}
                for q in re.findall(r"(\w+)\s*:", m[2]):
                    if q in to and q in {table.get(w[0]) for w in WORD.finditer(m[3])}:
                        print("parameter:", p, m[1], q, sorted(to[q]))
    if "--check" in sys.argv:
        print(len(table), "names")
        return 0
    for p, t in texts.items():
        new = turn(p, t, table, fields)
        if new != t:
            with open(p, "w", encoding="utf-8") as f:
                f.write(new)
    for old, to_name in MODULES.items():
        for p in glob.glob(f"crates/*/specs/{old}.antt"):
            os.rename(p, os.path.join(os.path.dirname(p), to_name + ".antt"))
        for p in glob.glob("crates/*/specs/Lib.antt"):
            t = read(p)
            new = re.sub(rf"(?m)^pub mod {old}$", f"pub mod {to_name}", t)
            if new != t:
                with open(p, "w", encoding="utf-8") as f:
                    f.write(new)
    print(len(table), "names")
    return 0


if __name__ == "__main__":
    raise SystemExit(main())
