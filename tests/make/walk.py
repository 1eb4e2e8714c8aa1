"""Small houses in full: `least_choice` (02, Note 9), which the Rust has not; numbers and values are those of oracle/model.py, by plain enumeration. The float
bound's bits are the Rust's, by `entrywise_lower_bound` of the sign table that it makes, and each is held, exactly, to the least cost or to that of random choices."""
import itertools
import random
import struct

import calls
import faults
import gen
import model
import tables
from factors import signed
from faults import Fault, drop, entry, put
from lists import leaves

LIMIT = faults.LIMIT
BATCH = 100


# ---- calls ------------------------------------------------------------------------------------------


def walk(lines, s):
    """The call with what it gives back; the number."""
    number = model.walk_number(*[s[k] for k in (*calls.TABLE, "b")])
    back = []
    if number == 0:
        b, cost, visited = model.least_choice(s["n"], calls.entries_of(s), s["c"][: s["n"]])
        back = [bytes(b), cost, visited]
    lines.call("least_choice", [s[k] for k in calls.TABLE], [s["b"]], number, back)
    return number


def small(n, entries, c, more=0):
    """A case; with `more` every slice has so many elements behind."""
    s = tables.hall(n, entries + [(9, 9, 9)] * more, c + [LIMIT] * more, b=n + more)
    s["count"] -= more
    return s


def add_all(lines, some):
    for s in some:
        assert walk(lines, s) == 0


# ---- the float bound --------------------------------------------------------------------------------


def double(bits):
    return struct.unpack(">d", struct.pack(">Q", bits))[0]


def add_bounds(lines, halls, choices):
    """`entrywise_lower_bound` of each hall's sign table, bits and table by the Rust; held to the cost of each of its choices. Answers how many these are."""
    made = [calls.entries_back(words) for words in leaves([("signtable", [n, len(e), *itertools.chain(*e), c]) for n, e, c in halls])]
    cases = [{"m": n + 1, "count": count, "rows": rows, "cols": cols, "values": [signed(v) for v in values]} for (n, _, _), (rows, cols, values, count) in zip(halls, made)]
    bounds = leaves([("bound", calls.matrix(s, "m")) for s in cases])
    held = 0
    for (n, e, c), s, (bits,) in zip(halls, cases, bounds):
        lines.call("entrywise_lower_bound", [s[k] for k in calls.SIGN_TABLE], [], 0, [bits])
        for b in choices(n, e, c):
            assert model.at_most_eighths(double(bits), model.cost(e, c, b)), (n, e, c, b)
            held += 1
    return held


# ---- cases ------------------------------------------------------------------------------------------

EDGES = [(0, [], []), (1, [(0, 0, 2)], [-3]), (1, [(0, 0, 2)], [-1]), (1, [], [0]), (1, [(0, 0, -LIMIT)], [0]), (1, [], [LIMIT // 2]), (1, [], [-LIMIT // 2]),
         (2, [(0, 1, LIMIT // 2), (1, 0, LIMIT // 2)], [0, 0]), (2, [(0, 1, -LIMIT // 2), (1, 0, -LIMIT // 2)], [0, 0])]


def ties():
    """Halls with many choices of least cost: all of them, those of a wagon less, pairs that want to part, pairs that want to meet."""
    for n in (1, 2, 5, 8):
        pairs = [(i, j) for i in range(n) for j in range(n) if i != j]
        yield n, [], [0] * n
        yield n, [], [-1] + [0] * (n - 1)
        yield n, [], [0] * (n - 1) + [-1]
        yield n, [(i, j, 2) for i, j in pairs], [-1] * n
        yield n, [(i, j, -1) for i, j in pairs], [(n - 1) // 2] * n


def dense(rng, n, value):
    """Every place stored."""
    h = {(i, j): value() for i in range(n) for j in range(i, n)}
    return n, [(i, j, h[min(i, j), max(i, j)]) for i in range(n) for j in range(n)], [value() for _ in range(n)]


def diagonal(rng, n):
    """Costs of single wagons alone: the floor is the least cost, and the bound lies below it by its margin alone."""
    return n, [(i, i, rng.choice([0, 2, -2, 7])) for i in range(n)], [rng.randrange(-5, 6) for _ in range(n)]


def some_halls(rng, count, most):
    for _ in range(count):
        n = rng.randint(0, most)
        yield (n, *gen.hall(rng, n)) if rng.randrange(4) else diagonal(rng, n)


# Each number alone, and every two; a house of 17 to 255 wagons asks for no c and no b.
FAULTS = [f for f in faults.HALL if not (f.number == 14 and "range" in f.rests)] + [
    Fault(14, entry(2, cols=256)), Fault(31, drop("b"), "n"), Fault(31, drop("b", 2), "n"),
    Fault(24, put(n=17), spoils="n"), Fault(24, put(n=255), spoils="n")]
BASE = {"n": 2, **faults.BASE, "c": [-1, 4], "b": 2}


def add_faults(lines):
    for some in [(), *faults.in_pairs(FAULTS, BASE)]:
        s = faults.at_once(BASE, some)
        assert walk(lines, s) == (faults.first_number(some) if some else 0), s


def add_many(lines):
    """17 wagons with c absent, short and whole, 16 by H alone or with the c that are there; 255 and 256."""
    over = [(0, 0, LIMIT + 1)]
    for n in (17, 255, 256):
        for e in ([], [(0, 0, LIMIT)], over):
            for c in ([], [0] * 16, [1] * 16, [0] * n):
                walk(lines, tables.hall(n, e, c, b=0))


def add(lines):
    rng = random.Random("walk 1")
    lines.heading("the least houses, and those at the limit of magnitude")
    add_all(lines, [small(*h, more=k) for h in EDGES for k in (0, 3)])
    lines.heading("many choices of least cost")
    add_all(lines, [small(*h) for h in ties()])
    lines.heading("random houses")
    halls = list(some_halls(rng, 60, 9))
    add_all(lines, [small(*h, more=rng.choice([0, 0, 2])) for h in halls])
    lines.heading("16 wagons: every place stored, and few")
    add_all(lines, [small(*dense(rng, 16, lambda: rng.randrange(-9, 10))), small(16, *gen.hall(rng, 16, 9))])
    lines.heading("faults")
    add_faults(lines)
    add_many(lines)
    lines.heading("the float bound, below the least cost")
    add_bounds(lines, EDGES + list(ties()) + halls, lambda n, e, c: [model.least_choice(n, e, c)[0]])


def seeded(lines, count, seed):
    """COUNT houses of up to 10 wagons walked, and as many of up to 255 whose bound is held to 25 random choices and, where they are few, to the least."""
    rng = random.Random(f"walk {seed}")
    held = 0
    for start in range(0, count, BATCH):
        some = min(BATCH, count - start)
        add_all(lines, [small(*h, more=rng.choice([0, 0, 1, 4])) for h in some_halls(rng, some, 10)])
        halls = [(n, *gen.hall(rng, n, rng.choice([n, 3 * n, min(8 * n, 2000)]))) for n in (gen.size(rng, high=255) for _ in range(some))]
        held += add_bounds(lines, halls, lambda n, e, c: [[rng.randrange(2) for _ in range(n)] for _ in range(25)])
        lines.heading(f"{held} choices held to their bound")
        yield
