"""The calls that take a factor, and starts. The cases are those of oracle/gen.py on the functions under them, which C can't call: sums, norms, products and
multipliers are compared through `dual_variables`, rounding through `compute_rounded_sol`, projection and starts through `open`."""
import calls
import gen
import runs
from lists import slices

TABLES = ["multiply", "grad", "obj", "dual", "check"]
NAMES = ["dot", "norm", "project", *TABLES, "start", "round", "prepared", "sols", "dual_call", "rounded_call"]


# ---- cases of gen.py --------------------------------------------------------------------------------


def leaf_lines(kind, count, seed, longest):
    """Name and words of the generator's lines that aren't longer."""
    for line in gen.lines(kind, count, seed):
        if len(line) < longest:
            name, *words = line.split()
            yield name, [int(w, 16) for w in words]


def table_of(words):
    """Size and entries, and the words behind them."""
    size, count = words[:2]
    rows, cols, values = (words[2 + k : 2 + 3 * count : 3] for k in range(3))
    return {"m": size, "count": count, "rows": rows, "cols": cols, "values": [signed(v) for v in values]}, words[2 + 3 * count :]


def signed(v):
    return v - 2**64 if v >> 63 else v


def lent_of(words, *rest):
    """A table as lent, rank and factor, and what is left as slices or words."""
    m, count, rows, cols, values, rank, factor, *others = slices(words, 1, 1, None, None, None, 1, None, *rest)
    return {"m": m, "count": count, "rows": rows, "cols": cols, "values": [signed(v) for v in values], "rank": rank, "factor": factor}, others


LINK = {"m": 2, "count": 2, "rows": [0, 1], "cols": [1, 0], "values": [8, 8]}


def duals(name, words):
    """Cases of `dual_variables`."""
    if name == "dot":
        a, b = slices(words, None, None)
        return [{**LINK, "rank": len(a), "factor": a + b, "out": 2}] if a else []
    if name == "dual_call":
        s, (room,) = lent_of(words, 1)
        return [{**s, "out": room}]
    table, rest = table_of(words[2:] if name == "step" else words)
    rank, factor = slices(rest, 1, None)
    return [{**table, "rank": rank, "factor": factor, "out": table["m"]}]


def rounded(name, words):
    """Cases of `compute_rounded_sol`; those of a single draw are over a table without entries."""
    if name == "rounded_call":
        s, (count, draws, room) = lent_of(words, 1, None, 1)
        return [{**s, "draw_count": count, "draws": draws, "out": room}]
    rank, m, factor, *rest = slices(words, 1, 1, None, *([None] if name == "round" else [1, None]))
    bare = {"m": m, "count": 0, "rows": [], "cols": [], "values": [], "rank": rank, "factor": factor}
    return [{**bare, "draw_count": 1, "draws": rest[-1][at : at + rank], "out": m} for at in range(0, len(rest[-1]), rank)]


def opened(name, words):
    """Lines of `open` without entries, whose factor is the start's."""
    if name == "norm":
        (numbers,) = slices(words, None)
        kind, most, m, rank = 1, 0, 1, len(numbers)
    elif name == "project":
        m, rank, numbers = slices(words, 1, 1, None)
        kind, most = 1, 0
    else:
        kind, most, m, rank, numbers = slices(words, 1, 1, 1, 1, None)
    settings = {"rank": rank, "rule": 3, "number": 0, "most": most, "minimum": 0, "objective": 0, "stationarity": 0, "start": kind}
    return [runs.open_line(runs.table(m - 1, [], [0] * (m - 1)), {**settings, "numbers": numbers, "factor": m * rank})] if rank else []


def add_leaves(lines, kind, count, seed, longest):
    """The cases of one kind of the generator."""
    asked = list(leaf_lines(kind, count, seed, longest))
    name = kind.split("-", 1)[1]
    made = lambda by: [x for _, words in asked for x in by(name, words)]
    if name == "prepared":
        calls.add(lines, "entrywise_lower_bound", [table_of(words)[0] for _, words in asked])
    elif name in ("norm", "project", "start"):
        runs.Answered(made(opened)).add(lines)
    elif name in ("round", "sols", "rounded_call"):
        calls.add(lines, "compute_rounded_sol", made(rounded))
    else:
        calls.add(lines, "dual_variables", made(duals))


def add(lines):
    for name in NAMES:
        lines.heading(name)
        add_leaves(lines, f"leaf-{name}", 40, "7", 6000)
    add_leaves(lines, "leaf-dual_call", 60, "17", 6000)
    lines.heading("step")
    add_leaves(lines, "leaf-step", 150, "11", 9000)
    lines.heading("up to 128 signs of low rank")
    for name in NAMES[2:]:
        add_leaves(lines, f"wide-{name}", 3, "13", 40000)
    add_leaves(lines, "wide-step", 10, "13", 40000)
