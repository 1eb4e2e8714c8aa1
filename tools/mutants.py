#!/usr/bin/env python3
"""Makes random small edits to the code and lists those that the prover doesn't refuse.

  tools/mutants.py [--crates A,B] [--each 12] [--seed 1] [--list]      without --crates: every crate that has code

An edit changes one place in the body of a function or in the value of a constant, never a contract or a comment: a comparison, an
arithmetic operator, && or ||, a number by 1, true or false, the operands of - or <, or two arguments next to each other whose types are the
same. Each crate gets EACH of them; the kind of an edit is drawn first, then its place. Each is tried by itself, by `rt check` in a copy of the tree, over what
was checked of the crate. Where + becomes - or *, the proof's name for that step is changed with it, if that is enough. --list prints the edits alone.
(`rt plant` tries wrong bodies of another kind, whole ones.)
"""
import argparse
import collections
import os
import random
import re
import shutil
import subprocess
import sys
import tempfile

TOP = os.path.dirname(os.path.dirname(os.path.abspath(__file__)))
COMPARISONS = ["<", "<=", ">", ">=", "==", "!="]
TOKEN = re.compile(r"::<[\w, ]+>|0x[0-9a-fA-F_]+(?:[ui](?:8|16|32|64|size))?|\d[\d_]*e-?\d+|\d[\d_]*\.\d[\d_]*(?:f64)?|\d[\d_]*(?:[ui](?:8|16|32|64|size)|f64)?|\w+|'\w+|<=|>=|==|!=|&&|\|\||\+=|-=|\*=|->|=>|::|\.\.|\S")
WORD, NUMBER = re.compile(r"[A-Za-z_]\w*$"), re.compile(r"\d")
KEYWORDS = {"return", "if", "else", "while", "match", "let", "mut", "in", "as"}
Token = collections.namedtuple("Token", "text start end")
Edit = collections.namedtuple("Edit", "crate file line kind old new start end put function")
STEPS = {"+": "add", "-": "sub", "*": "mul"}
# What the prover says where a proof names what the edit took away.
OTHER_SHAPE = r"proofs/.*(has no field|is not in scope|has no `|was not admitted)"


def blanked(text):
    """The text with its comments made spaces, so that places stay."""
    return re.sub(r"//[^\n]*", lambda m: " " * len(m.group()), text)


def closing(text, at):
    """The place of the brace that closes the one at `at`."""
    depth = 0
    for k in range(at, len(text)):
        depth += {"{": 1, "}": -1}.get(text[k], 0)
        if depth == 0:
            return k
    raise ValueError("a brace is not closed")


def bodies(text):
    """The spans of code with their functions: the bodies of functions, and the values of constants, which have none."""
    for found in re.finditer(r"\bfn (\w+)", text):
        at = found.end()
        while True:
            brace = text.index("{", at)
            if not re.search(r"\b(requires|ensures)(?: ?\*)?(?: \w+)?\s*$", text[at:brace]):
                break
            at = closing(text, brace) + 1
        yield brace + 1, closing(text, brace), found.group(1)
    for found in re.finditer(r"^(?:pub )?const \w+: [^=]+=", text, re.M):
        yield found.end(), text.index(";", found.end()), None


def tokens_in(text, start, end):
    return [Token(m.group(), m.start(), m.end()) for m in TOKEN.finditer(text, start, end)]


def matching(tokens, k, step):
    """From a bracket to the one that belongs to it."""
    depth = 0
    while 0 <= k < len(tokens):
        depth += {"(": step, "[": step, ")": -step, "]": -step}.get(tokens[k].text, 0)
        if depth == 0:
            return k
        k += step
    return None


def is_operand(token):
    return bool(WORD.match(token.text) and token.text not in KEYWORDS or NUMBER.match(token.text))


def left_operand(tokens, k):
    """Where the operand that ends at token k begins: names, fields, calls and indices."""
    while k is not None and k >= 0:
        if tokens[k].text in ")]":
            k = matching(tokens, k, -1)
            if k is None:
                return None
            if k and is_operand(tokens[k - 1]) or k and tokens[k - 1].text in ")]":
                k -= 1
                continue
            return k
        if not is_operand(tokens[k]):
            return None
        if k >= 2 and tokens[k - 1].text in (".", "::"):
            k -= 2
            continue
        return None if k and tokens[k - 1].text == "as" else k
    return None


def right_operand(tokens, k):
    """Where the operand that begins at token k ends."""
    if k >= len(tokens):
        return None
    if tokens[k].text == "(":
        k = matching(tokens, k, 1)
    elif not is_operand(tokens[k]):
        return None
    while k is not None and k + 1 < len(tokens):
        following = tokens[k + 1].text
        if following in (".", "::"):
            k += 2
        elif following in "([":
            k = matching(tokens, k + 1, 1)
        else:
            break
    return None if k is None or k + 1 < len(tokens) and tokens[k + 1].text == "as" else k


def split_at_commas(text):
    parts, depth, start = [], 0, 0
    for k, c in enumerate(text):
        depth += {"(": 1, "[": 1, "{": 1, "<": 1, ")": -1, "]": -1, "}": -1, ">": -1}.get(c, 0)
        if c == "," and depth == 0:
            parts.append(text[start:k])
            start = k + 1
    return [p.strip() for p in parts + [text[start:]] if p.strip()]


def signatures():
    """The types of the arguments of each function, by its name; None where functions of a name differ."""
    found = {}
    for crate in sorted(os.listdir(os.path.join(TOP, "crates"))):
        for _, text in sources(crate):
            for m in re.finditer(r"\bfn (\w+)(?:<[^>]*>)?\(", text):
                end, depth = m.end(), 1
                while depth:
                    depth += {"(": 1, ")": -1}.get(text[end], 0)
                    end += 1
                types = [re.sub(r"'\w+ ", "", p.split(":", 1)[1].strip()) for p in split_at_commas(text[m.end() : end - 1]) if ":" in p]
                found[m.group(1)] = types if found.get(m.group(1), types) == types else None
    return found


def sources(crate):
    folder = os.path.join(TOP, "crates", crate, "src")
    for name in sorted(os.listdir(folder)):
        if name.endswith(".rt"):
            path = os.path.join(folder, name)
            yield os.path.relpath(path, TOP), blanked(open(path).read())


def stepped(number):
    """A number one higher and one lower, as it is written."""
    m = re.match(r"(0x[0-9a-fA-F_]+|\d[\d_]*)(\.[\d_]+)?(.*)$", number)
    value = int(m.group(1).replace("_", ""), 0)
    write = lambda v: ("0x%x" % v if number.startswith("0x") else str(v)) + (m.group(2) or "") + m.group(3)
    return [write(v) for v in (value + 1, value - 1) if v >= 0]


def changes(text, start, end, types):
    """(kind, start, end, new text) of each edit in a span."""
    tokens = tokens_in(text, start, end)
    span = lambda a, b: text[tokens[a].start : tokens[b].end]
    for k, t in enumerate(tokens):
        binary = k and (is_operand(tokens[k - 1]) or tokens[k - 1].text in ")]")
        if t.text in COMPARISONS and binary:
            for other in COMPARISONS:
                if other != t.text:
                    yield "comparison", t.start, t.end, other
        if t.text in ("+", "-", "*") and binary:
            for other in "+-*":
                if other != t.text:
                    yield "arithmetic", t.start, t.end, other
        if t.text in ("+=", "-="):
            yield "arithmetic", t.start, t.end, "-=" if t.text == "+=" else "+="
        if t.text in ("&&", "||"):
            yield "and, or", t.start, t.end, "||" if t.text == "&&" else "&&"
        if t.text in ("true", "false"):
            yield "truth", t.start, t.end, "false" if t.text == "true" else "true"
        if NUMBER.match(t.text) and not (k and tokens[k - 1].text == "." and tokens[k - 2].text != "."):
            for other in stepped(t.text):
                yield "number", t.start, t.end, other
        if t.text in ("-", "<") and binary:
            a, b = left_operand(tokens, k - 1), right_operand(tokens, k + 1)
            if a is not None and b is not None and span(a, k - 1) != span(k + 1, b):
                yield "operands", tokens[a].start, tokens[b].end, f"{span(k + 1, b)} {t.text} {span(a, k - 1)}"
        if t.text == "(" and k and types.get(tokens[k - 1].text):
            close = matching(tokens, k, 1)
            places = arguments(text, t.end, tokens[close].start)
            kinds = types[tokens[k - 1].text]
            for i in range(len(places) - 1):
                (a, b), (c, d) = places[i], places[i + 1]
                if len(places) == len(kinds) and kinds[i] == kinds[i + 1] and text[a:b] != text[c:d]:
                    yield "arguments", a, d, text[c:d] + text[b:c] + text[a:b]


def arguments(text, start, end):
    """The spans of a call's arguments."""
    spans, depth, begin = [], 0, start
    for k in range(start, end + 1):
        c = text[k] if k < end else ","
        depth += {"(": 1, "[": 1, "{": 1, ")": -1, "]": -1, "}": -1}.get(c, 0)
        if c == "," and depth == 0:
            part = text[begin:k]
            if part.strip():
                spans.append((begin + len(part) - len(part.lstrip()), begin + len(part.rstrip())))
            begin = k + 1
    return spans


def edits(crate, types):
    """Every edit of a crate, by kind."""
    found = collections.defaultdict(list)
    for file, text in sources(crate):
        whole = open(os.path.join(TOP, file)).read()
        module = os.path.basename(file)[: -len(".rt")]
        for start, end, name in bodies(text):
            function = name and tuple([] if module in ("lib", "main") else [module]) + (name,)
            for kind, a, b, new in changes(text, start, end, types):
                old, put = (" ".join(shown(whole, a, b, part).split()) for part in (whole[a:b], new))
                found[kind].append(Edit(crate, file, text.count("\n", 0, a) + 1, kind, old, put, a, b, new, function))
    return found


def shown(text, a, b, new):
    """The lines of a place, with the place replaced."""
    end = text.find("\n", b)
    return re.sub(r"//[^\n]*", "", text[text.rfind("\n", 0, a) + 1 : a] + new + text[b:end])


def chosen(crate, types, each, seed):
    """So many edits of a crate, none twice."""
    rng, found, out = random.Random(f"{crate} {seed}"), edits(crate, types), []
    for _ in range(each):
        kinds = sorted(kind for kind in found if found[kind])
        if kinds:
            left = found[rng.choice(kinds)]
            out.append(left.pop(rng.randrange(len(left))))
    return out


def text_of(path):
    with open(path, encoding="utf-8") as file:
        return file.read()


class Trials:
    """The edits of one crate, in a copy of the tree."""

    def __init__(self, room, name):
        self.room, self.name, self.folder = room, name, os.path.join(room, "crates", name)

    def restore(self):
        for part in ("src", "proofs"):
            shutil.rmtree(os.path.join(self.folder, part), ignore_errors=True)
            if os.path.isdir(os.path.join(TOP, "crates", self.name, part)):
                shutil.copytree(os.path.join(TOP, "crates", self.name, part), os.path.join(self.folder, part))

    def check(self):
        """Status and words of `rt check`."""
        done = subprocess.run(["rt", "check"], cwd=self.folder, stdin=subprocess.DEVNULL, stdout=subprocess.PIPE, stderr=subprocess.STDOUT)
        return done.returncode, done.stdout.decode(errors="replace")

    def unedited(self):
        """What is wrong with the crate as it is, or nothing."""
        status, said = self.check()
        return None if status == 0 and re.search(r"^logic=proved", said, re.M) else f"{self.name}: unedited it is not proved (exit {status}): {said[-500:]}"

    def judged(self, status, said):
        """What the prover says of the crate, and its first complaint."""
        told = [line for line in said.split("\n") if re.match(r"(?:note: )?\S+:\d+:\d+: ", line) and ("error" in line or line.startswith("note: "))]
        first = next((line for line in told if not re.search(OTHER_SHAPE, line)), "")
        if status == 0 and re.search(r"^logic=proved", said, re.M):
            return "survived", ""
        if status == 1 and re.search(r"^logic=not-proved", said, re.M):
            return ("other shape", told[0]) if told and not first else ("refused", first)
        return ("no verdict" if status == 3 else "not compiling"), first

    def verdict(self, e):
        """The verdict on an edit: on the proof as it stands or, where an operator's step has another name now, with that name in the proof."""
        self.restore()
        path = os.path.join(self.room, e.file)
        text = text_of(path)
        with open(path, "w", encoding="utf-8") as file:
            file.write(text[: e.start] + e.put + text[e.end :])
        said, why = self.judged(*self.check())
        step = re.match(r"\./(proofs/\S+?\.antt):\S+ error: .*?`(?:goal\.)?((overflow_|)(?:add|sub|mul)(-[\w-]*))`", why)
        if said == "other shape" and e.kind == "arithmetic" and step:
            proof = os.path.join(self.folder, step[1])
            text, word = text_of(proof), lambda name: r"(?<![\w-])" + re.escape(name) + r"(?![\w-])"
            with open(proof, "w", encoding="utf-8") as file:
                file.write(re.sub(word(step[2]), step[3] + STEPS[e.put[0]] + step[4], text))
            said, why = self.judged(*self.check())
        return said, why


def with_code():
    """The crates that have a function."""
    return [crate for crate in sorted(os.listdir(os.path.join(TOP, "crates"))) if any(re.search(r"^(?:pub )?(?:extern \"C\" )?fn ", text, re.M) for _, text in sources(crate))]


def main():
    options = argparse.ArgumentParser(description=__doc__, formatter_class=argparse.RawDescriptionHelpFormatter)
    options.add_argument("--crates")
    options.add_argument("--each", type=int, default=12)
    options.add_argument("--seed", default="1")
    options.add_argument("--list", action="store_true")
    options.add_argument("--verbose", action="store_true", help="the prover's first complaint of each edit as well")
    given = options.parse_args()
    crates, types = given.crates.split(",") if given.crates else with_code(), signatures()
    describe = lambda e: f"{e.file}:{e.line}: {e.kind}: {e.old}  =>  {e.new}"
    tally, survivors, base = collections.defaultdict(collections.Counter), [], tempfile.mkdtemp()
    try:
        for part in () if given.list else ("crates.txt", "HANDLES"):
            if os.path.exists(os.path.join(TOP, part)):
                shutil.copy(os.path.join(TOP, part), base)
        if not given.list:
            shutil.copytree(os.path.join(TOP, "crates"), os.path.join(base, "crates"), ignore=shutil.ignore_patterns("out", "must-fail", "edits", "more"))
        for crate in crates:
            batch = chosen(crate, types, given.each, given.seed)
            if given.list:
                print("\n".join(map(describe, batch)))
                continue
            trials = Trials(base, crate)
            wrong = trials.unedited()
            if wrong:
                sys.exit(wrong)
            for e in batch:
                said, why = trials.verdict(e)
                tally[crate][said] += 1
                survivors += [e] if said == "survived" else []
                print(f"{said}: {describe(e)}" + (f"\n    {why[:300]}" if given.verbose and why else ""), flush=True)
    finally:
        shutil.rmtree(base, ignore_errors=True)
    if given.list:
        return
    columns = ["refused", "other shape", "not compiling", "no verdict", "survived"]
    print("| crate | tried | " + " | ".join(columns) + " |")
    for name, counts in list(tally.items()) + [("all", sum(tally.values(), collections.Counter()))]:
        print(f"| {name} | {sum(counts.values())} | " + " | ".join(str(counts[c]) for c in columns) + " |")
    print(f"seed {given.seed}")
    for e in survivors:
        print(f"survived: {describe(e)}")


if __name__ == "__main__":
    main()
