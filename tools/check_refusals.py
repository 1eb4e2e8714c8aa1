#!/usr/bin/env python3
"""No refused call touches a double that it is lent, and no accepted one a double behind those it uses.

  tools/check_refusals.py [TREE]    a sentence for each fault in TREE/crates; status 1 where there is one

The logic knows one NaN, so no contract can say that a NaN's bits stay; the text of the code can. A call is a function that is lent a `&mut [f64]`,
has no `requires`, and answers something else than a double. Its length aside, a call either hands such a slice on whole, once, to a call that is held to
the same, or:

- it doesn't use it up to the last `return` or `?`, so that a refusal that is returned there finds it as it was;
- behind that there is no branch and the answer is an accepted one, so that no other refusal is given;
- there it is written through parts `&mut slice[..end]` or `&mut slice[start..end]`, by the call or by the function that it hands the whole slice on to.

It tries itself too: each call with a statement put at its start that touches the slice must be found at fault.
"""
import dataclasses
import glob
import os
import re
import sys

TOP = sys.argv[1] if len(sys.argv) > 1 else os.path.join(os.path.dirname(os.path.abspath(__file__)), "..")
# These must be among the calls that are found.
KNOWN = {"open", "sweep_run", "sweep", "turn", "finish", "finish_ranged", "dual_variables", "lift_solution"}
TAMPERED = ["{0}[0] = {0}[0];", "clear(&mut *{0});", "clear(&mut {0}[..1]);", "let other = {0};", "clear({0});"]
LENT = "&mut [f64]"
CLAUSE = r"\b(requires|ensures)(?: ?\*)?(?: \w+)?"


@dataclasses.dataclass
class Function:
    crate: str
    module: str
    name: str
    parameters: list  # pairs: name, type
    requires: bool
    result: str
    body: str
    file: str
    line: int  # of the body
    uses: dict  # names to what `use` says they are

    def lent(self):
        return [name for name, kind in self.parameters if kind == LENT]

    def is_call(self):
        return bool(self.lent()) and not self.requires and self.result not in ("", "f64")

    def fault(self, at, said):
        return f"{self.file}:{self.line + self.body[:at].count(chr(10))}: {self.name} {said}"


# ---- reading ------------------------------------------------------------------------------------


def blank(match):
    return re.sub(r"[^\n]", " ", match[0])


def closing(text, at):
    """The place behind the bracket that closes the one at `at`."""
    depth = 0
    for k in range(at, len(text)):
        depth += (text[k] in "([{") - (text[k] in ")]}")
        if depth == 0:
            return k + 1
    raise ValueError("a bracket is not closed")


def split_list(text):
    """The parts between commas that stand in no bracket."""
    parts, depth, start = [], 0, 0
    for k, c in enumerate(text):
        depth += (c in "([{") - (c in ")]}")
        if c == "," and depth == 0:
            parts.append(text[start:k])
            start = k + 1
    return [p.strip() for p in [*parts, text[start:]] if p.strip()]


def paths_of(line):
    """The paths of a `use`, those in braces each."""
    before, brace, inside = re.sub(r"\s+", "", line).partition("{")
    return [before + part for part in inside.rpartition("}")[0].split(",") if part] if brace else [before]


def parameter_of(text):
    name, colon, kind = re.sub(r"^mut ", "", text).partition(": ")
    return (name, kind) if colon else ("self", name)


def functions_of(file, text):
    """Comments and ghost imports are passed over."""
    text = re.sub(r"//[^\n]*|^ghost use [^;]*;", blank, text, flags=re.M)
    uses = {path.split("::")[-1]: path for line in re.findall(r"(?m)^(?:pub )?use ([^;]+);", text) for path in paths_of(line)}
    crate, module = re.search(r"crates/(\w+)/src/(\w+)\.rt$", file).groups()
    for head in re.finditer(r"(?m)^[ \t]*(?:pub )?(?:extern \"C\" )?fn (\w+)(?:<[^(]*>)?\s*(?=\()", text):
        end = closing(text, head.end())
        parameters = [parameter_of(p) for p in split_list(text[head.end() + 1 : end - 1])]
        clauses, start = [], text.index("{", end)
        result = re.match(rf"\s*(?:-> *)?([^{{]*?)\s*(?:{CLAUSE})?\s*$", text[end:start])[1]
        while clause := re.search(rf"{CLAUSE}\s*$", text[end:start]):
            clauses.append(clause[1])
            end = closing(text, start)
            start = text.index("{", end)
        body = text[start : closing(text, start)]
        yield Function(crate, module, head[1], parameters, "requires" in clauses, result, body, file, text[:start].count("\n") + 1, uses)


def all_functions():
    found = {}
    for path in sorted(glob.glob(os.path.join(TOP, "crates/*/src/*.rt"))):
        with open(path) as text:
            for f in functions_of(os.path.relpath(path, TOP), text.read()):
                found[f.crate, f.module, f.name] = f
    return found


# ---- uses of a slice ------------------------------------------------------------------------------


def uses_of(body, name):
    """Where the name stands for the slice, not for a field, a path or a function."""
    return [m.start() for m in re.finditer(rf"(?<![\w.:]){name}\b(?!\s*(?:\(|:(?!:)|::))", body)]


def kind_of(body, at, name):
    before, after = body[:at], body[at + len(name) :]
    if after.startswith(".len()"):
        return "length"
    if re.search(r"&mut $", before) and re.match(r"\[(?:\w+(?:\.\w+)*)?\.\.\w+(?:\.\w+)*\]", after):
        return "part"
    if re.search(r"(?<!&)& *$", before) and after.startswith("["):
        return "read"
    if re.search(r"[(,]\s*(&mut \*)?$", before) and re.match(r"\s*[,)]", after):
        return "whole"
    return "other"


def lent_to(functions, f, at):
    """The function that is called with what stands at `at`, and the name and type of its parameter."""
    depth, commas, k = 0, 0, at
    while depth < 1:
        k -= 1
        depth += (f.body[k] in "([{") - (f.body[k] in ")]}")
        commas += f.body[k] == "," and depth == 0
    path = re.search(r"([\w:]*)\s*$", f.body[:k])[1]
    callee = resolve(functions, f, path)
    return (callee, *callee.parameters[commas]) if callee else (None, path, "")


def resolve(functions, f, path):
    own = functions.get((f.crate, f.module, path))
    if own or not path:
        return own
    parts = f.uses.get(path, path).split("::")
    crates = {crate for crate, _, _ in functions}
    crate = parts[0] if parts[0] in crates else f.crate
    module = "lib" if len(parts) < 3 and parts[0] in crates else parts[-2] if len(parts) > 1 else "lib"
    return functions.get((crate, module, parts[-1]))


# ---- what is held ---------------------------------------------------------------------------------


def behind_refusals(f):
    """The place behind the statement of the last `return` or `?`; 0 where there is none."""
    returns = [m.start() for m in re.finditer(r"\breturn\b|(?<=\))\?", f.body)]
    depth = 0
    for k, c in enumerate(f.body):
        depth += (c in "([{") - (c in ")]}")
        if returns and k > returns[-1] and depth == 1 and c in "};":
            return k + 1
    return 0


def refusal_faults(functions, f):
    held = [name for name in f.lent() if not handed_on(functions, f, name)]
    found = [x for name in held for x in slice_faults(functions, f, name)]
    return found + (answer_faults(f) if held else [])


def handed_on(functions, f, name):
    """Whether all that is done with the slice, its length aside, is to lend it whole to one other call."""
    uses = [at for at in uses_of(f.body, name) if kind_of(f.body, at, name) != "length"]
    if len(uses) != 1 or kind_of(f.body, uses[0], name) != "whole":
        return not uses
    callee, _, lent_as = lent_to(functions, f, uses[0])
    return callee is not None and lent_as == LENT and callee.is_call()


def slice_faults(functions, f, name):
    end = behind_refusals(f)
    before = [at for at in uses_of(f.body[:end], name) if kind_of(f.body, at, name) != "length"]
    return [f.fault(at, f"uses {name} before its last refusal") for at in before] + tail_faults(functions, f, name, end)


def answer_faults(f):
    """What lets a call refuse behind its last `return` or `?`."""
    end = behind_refusals(f)
    if end == 0:
        return [f.fault(0, "has no refusal of its own and does more with a slice than hand it on to one call")]
    found = []
    branch = re.search(r"\b(if|match|while|for|loop)\b", f.body[end:])
    if branch:
        found.append(f.fault(end + branch.start(), "branches behind its last refusal"))
    answer = f.body[end:-1].split(";")[-1].strip()
    if not re.match(r"0$|Ok\(", answer, flags=re.S):
        found.append(f.fault(end, "answers what need not be accepted behind its last refusal"))
    return found


def tail_faults(functions, f, name, start=0):
    """What an accepted function does with a slice beside lending parts with an end."""
    found = []
    for at in uses_of(f.body, name):
        kind = kind_of(f.body, at, name) if at >= start else "length"
        if kind == "whole":
            callee, inner, lent_as = lent_to(functions, f, at)
            if callee is None:
                found.append(f.fault(at, f"lends {name} to {inner}, which is not found"))
            elif lent_as == LENT:
                found += tail_faults(functions, callee, inner)
        elif kind == "other":
            found.append(f.fault(at, f"uses {name} otherwise than by a part with an end"))
    return found


def tampered_faults(functions, f):
    """The statements that may be put at the start of a call unseen."""
    for name in f.lent():
        for statement in TAMPERED:
            other = dataclasses.replace(f, body="{ " + statement.format(name) + f.body[1:])
            if not refusal_faults(functions, other):
                yield f.fault(0, f"could start with `{statement.format(name)}` unseen: tools/check_refusals.py is wrong")


def main():
    functions = all_functions()
    calls = [f for f in functions.values() if f.is_call()]
    found = [f"the call {name} is not found" for name in sorted(KNOWN - {f.name for f in calls})]
    for f in calls:
        found += refusal_faults(functions, f) or tampered_faults(functions, f)
    print("\n".join(dict.fromkeys(found)) or f"{len(calls)} calls leave the doubles they are lent where they refuse")
    sys.exit(bool(found))


main()
