"""The reduced pair, `from_principal_submatrix` and `lift_solution`: stored problems, and seeded ones of many kinds.

A problem is a table, a map, fixed indices, fixed values and a reduced solution; it is one case of each call, and again one of each with slices lent that are too
short, long enough or longer. Tables whose magnitudes add up to more than 2^53, which the oracle doesn't take, are reduced by calls.picked.
"""
import random
import struct

import calls
import tables
from doubles import INF, MINUS, NAN

ODD = [NAN, NAN | MINUS, INF + 1, INF, INF | MINUS, 1, MINUS | 1, (1 << 52) - 1, 1 << 52, INF - 1, 0, MINUS]
WHOLE = 1 << 53
BATCH = 500


# ---- a problem as cases -----------------------------------------------------------------------------


def submatrix(p, **lengths):
    room = dict.fromkeys(("to_rows", "to_cols", "to_values"), len(p["entries"]))
    return tables.signed(p["size"], p["entries"], map=p["map"], fixed=p["fixed"], **{**room, **lengths})


def lift(p, **fields):
    given = {"m": p["size"], "map": p["map"], "fixed": p["fixed"], "fixed_values": p["values"], "solution": p["solution"], "lifted": min(p["size"], 1536)}
    return {**given, **fields}


def lent(rng, p):
    """Both cases with every slice one too short, as long as asked or longer, and at times another count."""
    near = lambda n: max(0, n + rng.choice([0] * 9 + [-1, 1]))
    count = rng.choice([len(p["entries"])] * 9 + [4862, 4863])
    sized = lambda xs: (xs + [7])[: near(len(xs))]
    sub = {"m": p["size"], "count": count, **{name: sized([e[k] for e in p["entries"]]) for k, name in enumerate(("rows", "cols", "values"))}}
    sub |= {"map": p["map"], "fixed": p["fixed"], **{name: near(min(count, 1500)) for name in ("to_rows", "to_cols", "to_values")}}
    lengths = [near(len(p["fixed"])), near(len(p["map"])), near(min(p["size"], 1500))]
    more = lambda xs, n: (xs + [NAN])[:n]
    return sub, lift(p, fixed_values=more(p["values"], lengths[0]), solution=more(p["solution"], lengths[1]), lifted=lengths[2])


# ---- the stored problems ----------------------------------------------------------------------------


def numbers(rng, n):
    one = lambda: rng.getrandbits(64) if rng.randrange(4) == 0 else struct.unpack(">Q", struct.pack(">d", rng.choice([-1.0, 1.0, 0.0, -0.0])))[0]
    return [one() for _ in range(n)]


def some_problems(rng):
    for _ in range(90):
        size = rng.choice([0, 1, 2, 3, 5, 9, 30, 1024, 1025])
        places = sorted({(rng.randrange(size), rng.randrange(size)) for _ in range(rng.randrange(40))} if size else [])
        entries = [(i, j, rng.choice([0, rng.randrange(-(1 << 45), 1 << 45), rng.randrange(-9, 10)])) for i, j in places]
        if rng.randrange(6) == 0:
            entries = tables.damaged(rng, size, [e for e in entries if abs(e[2]) < 1 << 44])
            entries = [(i, j, v if abs(v) < 1 << 46 else 7) for i, j, v in entries]
        pool = list(range(min(size, 60)))
        rng.shuffle(pool)
        mapped, fixed = pool[: rng.randrange(len(pool) + 1)], [rng.randrange(size) for _ in range(rng.randrange(5))] if size else []
        if rng.randrange(8) == 0:
            mapped = mapped + [rng.choice([size, mapped[0] if mapped else size])]
        if rng.randrange(10) == 0:
            fixed = fixed + [size]
        held, solution = numbers(rng, len(fixed)), numbers(rng, len(mapped))
        if size <= 1024 and rng.randrange(9) == 0 and mapped:
            solution = solution[1:]
        yield {"size": size, "entries": entries, "map": mapped, "fixed": fixed, "values": held, "solution": solution}


def extremes(rng):
    """Values that no double holds."""
    for size in (1, 2, 3, 7, 1024):
        entries = [(i, j, rng.choice([(1 << 63) - 1, -(1 << 63), (1 << 53) + 1, -(1 << 53), 1 << 53, 0])) for i in range(min(size, 5)) for j in range(min(size, 5))]
        mapped = rng.sample(range(min(size, 5)), rng.randrange(1, min(size, 5) + 1))
        yield {"size": size, "entries": entries, "map": mapped, "fixed": []}


def lent_problems(rng):
    for _ in range(120):
        size = rng.choice([0, 1, 2, 3, 5, 9, 1024, 1025])
        places = sorted({(rng.randrange(size), rng.randrange(size)) for _ in range(rng.randrange(12))} if size else [])
        entries = [(i, j, rng.randrange(-9, 10)) for i, j in places]
        entries = tables.damaged(rng, size, entries) if size and rng.randrange(4) == 0 else entries
        mapped, fixed = rng.sample(range(size), min(size, rng.randrange(5))), [rng.randrange(size) for _ in range(rng.randrange(4))] if size else []
        if rng.randrange(6) == 0:
            mapped = mapped + [rng.choice([size, mapped[0] if mapped else size])]
        p = {"size": size, "entries": entries, "map": mapped, "fixed": fixed}
        own = random.Random(f"lent {p}")
        yield lent(rng, p | {"values": numbers(own, len(fixed)), "solution": numbers(own, len(mapped))})


def add(lines, rng):
    problems, beyond = list(some_problems(rng)), list(extremes(rng))
    calls.add(lines, "from_principal_submatrix", [submatrix(p) for p in problems + beyond])
    calls.add(lines, "lift_solution", [lift(p) for p in problems])
    subs, lifts = zip(*lent_problems(rng))
    calls.add(lines, "from_principal_submatrix", list(subs))
    calls.add(lines, "lift_solution", list(lifts))


# ---- seeded problems --------------------------------------------------------------------------------


def doubles(rng, n, odd=0.3):
    one = lambda: rng.choice(ODD) if rng.random() < odd else rng.choice([0x3FF0000000000000, 0xBFF0000000000000, rng.getrandbits(64), rng.getrandbits(52)])
    return [one() for _ in range(n)]


def table(rng, size, places, value):
    """Entries at random places, in rising order, without their mirrors."""
    found = {(rng.randrange(size), rng.randrange(size)) for _ in range(places)} if size else []
    return [(i, j, value()) for i, j in sorted(found)]


def problem(rng, size=None, **fields):
    """An accepted problem; the fields given replace what is drawn."""
    size = rng.choice([0, 1, 2, 3, 4, 5, 8, 13, 30, 60]) if size is None else size
    limit = rng.choice([1, 9, 1 << 40, 1 << 46])
    pool = list(range(size))
    rng.shuffle(pool)
    p = {
        "size": size,
        "entries": table(rng, size, rng.randrange(3 * min(size, 20) + 1), lambda: rng.randint(-limit, limit)),
        "map": pool[: rng.choice([0, 1, size // 2, size, rng.randint(0, size)])],
        "fixed": [rng.randrange(size) for _ in range(rng.randrange(6))] if size else [],
    } | fields
    return {"values": doubles(rng, len(p["fixed"])), "solution": doubles(rng, len(p["map"]))} | p


def mirrored(rng):
    size = rng.randint(1, 12)
    return problem(rng, size, entries=tables.mirrored(rng, size, rng.randrange(3 * size), tables.values(rng)))


def unsymmetric(rng):
    """A place without its mirror, or with another value there."""
    size = rng.randint(2, 12)
    entries = dict(((i, j), v) for i, j, v in table(rng, size, 3 * size, tables.values(rng)))
    i, j = rng.sample(range(size), 2)
    entries[i, j] = entries.get((j, i), 0) + 1
    return problem(rng, size, entries=[(i, j, v) for (i, j), v in sorted(entries.items())])


def permuted(rng):
    """Every index mapped, out of order."""
    size = rng.choice([2, 3, 4, 7, 12, 40])
    order = list(range(size))
    while order == sorted(order):
        rng.shuffle(order)
    return problem(rng, size, map=order, entries=table(rng, size, rng.randint(1, 4 * size), tables.values(rng)))


def refixed(rng):
    """Indices fixed again and again, some of them mapped too."""
    size = rng.randint(1, 6)
    return problem(rng, size, fixed=[rng.randrange(size) for _ in range(rng.randint(2, 4 * size + 2))])


def odd(rng):
    """NaN, infinite, subnormal and zero values."""
    p = problem(rng, rng.randint(1, 9))
    return p | {"values": doubles(rng, len(p["fixed"]), 1.0), "solution": doubles(rng, len(p["map"]), 1.0)}


def magnitude(rng):
    """Magnitudes whose sum is 2^53, the oracle's most, and values at the limits of 64 bits."""
    size = rng.randint(1, 8)
    edges = [WHOLE + 1, -WHOLE - 1, (1 << 63) - 1, -(1 << 63), 1 - (1 << 63), 0, WHOLE]
    entries = table(rng, size, rng.randint(1, 3 * size), lambda: rng.choice(edges))
    if rng.randrange(2):
        share = WHOLE // len(entries)
        entries = [(i, j, rng.choice([-1, 1]) * (share if k else WHOLE - share * (len(entries) - 1))) for k, (i, j, _) in enumerate(entries)]
    return problem(rng, size, entries=entries)


def large(rng):
    """The largest size, or many entries; the map is short where the table is long, for the program's lines end at 65,536 bytes."""
    if rng.randrange(2):
        size = rng.choice([1023, 1024])
        return problem(rng, size, entries=table(rng, size, rng.randrange(400), tables.values(rng)), fixed=[rng.randrange(size) for _ in range(rng.randrange(40))])
    return full(rng, rng.choice([2000, 4861, 4862]))


def full(rng, count):
    size = rng.randint(70, 90)
    places = sorted(rng.sample(range(size * size), count))
    return problem(rng, size, entries=[(k // size, k % size, rng.randint(0, 3)) for k in places], map=rng.sample(range(size), rng.randint(0, 30)))


def entry_counts(rng):
    """Around 13; some have an index or an order wrong as well."""
    p = full(rng, rng.choice([4862, 4863, 4864]))
    return disordered(rng, p) if rng.randrange(3) == 0 else p


def disordered(rng, p=None):
    """Around 14: an index at the size or past it, two entries swapped, one twice."""
    p = p or problem(rng, rng.randint(1, 9), entries=None)
    size = p["size"]
    entries = list(p["entries"] or table(rng, size, 3 * min(size, 20), tables.values(rng)))
    k, kind = rng.randrange(len(entries)), rng.randrange(5)
    i, j, v = entries[k]
    beyond = rng.choice([size - 1, size, size, size + 1, 65535])
    if kind == 0:
        entries[-1] = (beyond, entries[-1][1], entries[-1][2])
    elif kind == 1:
        entries[k] = (i, beyond, v)
    elif kind == 2:
        entries.insert(k, entries[k])
    elif kind == 3 and k:
        entries[k - 1], entries[k] = entries[k], entries[k - 1]
    else:
        entries[k] = (i, max(j - rng.randrange(2), 0), v)
    return p | {"entries": entries}


def wrong_indices(rng):
    """Around 20: the size, a map index or a fixed index at its limit or past it, a map index twice."""
    p = problem(rng, rng.choice([0, 1, 2, 3, 7, 1023, 1024, 1024, 1025, 1025, 1400]))
    size, kind = p["size"], rng.randrange(6)
    mapped, fixed = list(p["map"]), list(p["fixed"])
    at = rng.choice([max(size - 1, 0), size, size, size + 1, 65535])
    if kind == 0:
        mapped.insert(rng.randint(0, len(mapped)), at)
    elif kind == 1:
        fixed.insert(rng.randint(0, len(fixed)), at)
    elif kind == 2 and mapped:
        mapped.insert(rng.randint(0, len(mapped)), rng.choice(mapped))
    return p | {"map": mapped, "fixed": fixed, "values": doubles(rng, len(fixed)), "solution": doubles(rng, len(mapped))}


def short_slices(rng, p=None):
    """Around 31: values and solution one too short, as long as asked, or with a tail."""
    p = p or problem(rng, rng.choice([0, 1, 2, 3, 9, 1024, 1025]))
    return p | {"values": doubles(rng, max(len(p["fixed"]) + rng.randint(-1, 1), 0)), "solution": doubles(rng, max(len(p["map"]) + rng.randint(-1, 1), 0))}


def several(rng):
    """Some things wrong at once, so that the order of the numbers tells."""
    p = wrong_indices(rng)
    if p["size"] and rng.randrange(2):
        p = disordered(rng, p)
    return short_slices(rng, p) if rng.randrange(2) else p


# Kinds with their share of the problems, in thousandths.
KINDS = {
    "usual": (120, problem), "mirrored": (80, mirrored), "unsymmetric": (100, unsymmetric), "permuted": (100, permuted), "refixed": (80, refixed), "odd": (80, odd),
    "magnitude": (80, magnitude), "large": (30, large), "around 13": (30, entry_counts), "around 14": (90, disordered), "around 20": (90, wrong_indices),
    "around 31": (60, short_slices), "several": (60, several),
}


def seeded(lines, count, seed):
    """So many problems, in batches."""
    whole = sum(share for share, _ in KINDS.values())
    for kind, (share, make) in KINDS.items():
        rng, left = random.Random(f"{kind} {seed}"), -(-count * share // whole)
        while left:
            problems = [make(rng) for _ in range(min(left, BATCH))]
            left -= len(problems)
            calls.add(lines, "from_principal_submatrix", [submatrix(p) for p in problems])
            calls.add(lines, "lift_solution", [lift(p) for p in problems])
            short = [lent(rng, p) for p in problems if len(p["entries"]) < 1500]
            if short:
                subs, lifts = zip(*short)
                calls.add(lines, "from_principal_submatrix", list(subs))
                calls.add(lines, "lift_solution", list(lifts))
            yield
