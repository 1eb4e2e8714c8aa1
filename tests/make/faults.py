"""Faults of a call, alone and in pairs, each with the number that 01's order gives: for every call that takes slices."""
import itertools

from lists import SEARCH_WORKSPACE

ORDER = [31, 32, 33, 13, 14, 15, 16, 21, 22, 24, 27, 28, 17, 18, 19, 20]
LIMIT = 2**40


class Fault:
    """A number and what makes it due; what its length rests on (31), what it spoils for others."""

    def __init__(self, number, change, rests="", spoils=""):
        self.number, self.change = number, change
        self.rests, self.spoils = set(rests.split()), set(spoils.split())


def first_number(faults):
    spoilt = set().union(*[f.spoils for f in faults])
    due = [f.number for f in faults if not f.rests & spoilt]
    return min(due, key=ORDER.index)


def drop(key, by=1):
    def change(s):
        s[key] = s[key] - by if isinstance(s[key], int) else s[key][:-by]
    return change


def put(**fields):
    return lambda s: s.update(fields)


def entry(k, **fields):
    def change(s):
        for name, x in fields.items():
            s[name][k] = x
    return change


def unmirrored(s):
    """Leaves out the entry at (1, 0)."""
    for name in ("rows", "cols", "values"):
        s[name] = s[name][:1] + s[name][2:]
    s["count"] -= 1


def at_once(call, faults):
    """A copy of the call's fields with the faults put in; of two faults the one on whole fields first."""
    s = {k: list(v) if isinstance(v, list) else v for k, v in call.items()}
    for f in sorted(faults, key=lambda f: (f.change is unmirrored, f.number == 31)):
        f.change(s)
    return s


def apart(probe, a, b):
    """Two faults that change different things; else the later would undo the earlier."""
    changed = []
    for f in (a, b):
        s = at_once(probe, [f])
        changed.append({k for k in s if s[k] != probe[k] and (f.number != 31 or k not in ("rows", "cols", "values", "c"))})
    return not (changed[0] & changed[1])


def single(kinds):
    return [(f,) for f in kinds]


def in_pairs(kinds, probe):
    return single(kinds) + [p for p in itertools.combinations(kinds, 2) if apart(probe, *p)]


def placed(most_entries, limit):
    """Faults of the entries and their slices, for the table of `BASE`."""
    return [
        Fault(31, drop("rows"), "count"), Fault(31, drop("cols"), "count"), Fault(31, drop("values"), "count"),
        Fault(13, put(count=most_entries + 1), spoils="count"), Fault(13, put(count=2**64 - 1), spoils="count"),
        Fault(14, entry(2, cols=2), "range"), Fault(14, entry(2, rows=0, cols=0)), Fault(14, entry(0, rows=1, cols=1)),
        Fault(15, entry(0, values=4)), Fault(15, unmirrored, spoils="room"),
        Fault(16, entry(-1, values=limit)), Fault(16, entry(-1, values=-(2**63))),
    ]


BASE = {"count": 3, "rows": [0, 1, 1], "cols": [1, 0, 1], "values": [3, 3, 2]}
SIGNS = placed(4862, 4 * LIMIT) + [Fault(13, put(m=0), spoils="m"), Fault(13, put(m=257), spoils="m"), Fault(13, put(m=2**64 - 1), spoils="m")]
HALL = placed(4096, LIMIT) + [
    Fault(31, drop("c"), "n"), Fault(13, put(n=256), spoils="n"), Fault(13, put(n=2**64 - 1), spoils="n"), Fault(16, entry(0, c=LIMIT))]
RANK = [Fault(31, drop("factor"), "m rank"), Fault(31, drop("out"), "m"), Fault(17, put(rank=33), spoils="rank"), Fault(17, put(rank=2**64 - 1), spoils="rank")]
INDICES = [Fault(20, put(map=[1, 1])), Fault(20, put(map=[2, 0])), Fault(20, put(fixed=[0, 65535]))]
FACTOR = [0x3FF8000000000000, 0xBFE0000000000000, 0x3FE0000000000000, 0x4000000000000000]

# For each call a case that is accepted, and its faults.
CASES = {
    "beam_search": ({"m": 2, **BASE, "width": 1, "start": b"\0\1", "out": 2, "workspace": SEARCH_WORKSPACE}, SIGNS + [
        Fault(31, drop("start"), "m"), Fault(31, drop("out"), "m"), Fault(31, drop("workspace")), Fault(19, put(width=129)), Fault(19, put(width=2**64 - 1))]),
    "compute_rounded_sol": ({"m": 2, **BASE, "rank": 2, "factor": FACTOR, "draw_count": 2, "draws": FACTOR, "out": 2}, SIGNS + RANK + [
        Fault(31, drop("draws"), "draws rank"), Fault(19, put(draw_count=0), spoils="draws"), Fault(19, put(draw_count=1001), spoils="draws"),
        Fault(19, put(draw_count=2**64 - 1), spoils="draws")]),
    "dual_variables": ({"m": 2, **BASE, "rank": 2, "factor": FACTOR, "out": 2}, SIGNS + RANK),
    "obj_rounded": ({"m": 2, **BASE, "signs": b"\1\0"}, SIGNS + [Fault(31, drop("signs"), "m")]),
    "floor_eighths": ({"m": 2, **BASE}, SIGNS),
    "entrywise_lower_bound": ({"m": 2, **BASE}, SIGNS),
    "eval_qubo_objective": ({"n": 2, **BASE, "c": [-1, 4], "b": b"\1\1"}, HALL + [Fault(31, drop("b"), "n")]),
    "qubo_sign_table": ({"n": 2, **BASE, "c": [-1, 4], "to_rows": 10, "to_cols": 10, "to_values": 10}, HALL + [
        *[Fault(31, drop(name), "n count room") for name in ("to_rows", "to_cols", "to_values")], Fault(31, drop("to_values", 10), "n count")]),
    "qubo_binary_from_sign_solution": ({"m": 3, "signs": b"\1\0\1", "b": 2}, [
        Fault(31, drop("signs"), "m"), Fault(31, drop("b"), "m"), Fault(31, drop("b", 2), "m"), Fault(13, put(m=0), spoils="m"), Fault(13, put(m=257), spoils="m"),
        Fault(13, put(m=2**64 - 1), spoils="m")]),
    "from_principal_submatrix": ({"m": 2, **BASE, "map": [1, 0], "fixed": [0], "to_rows": 3, "to_cols": 3, "to_values": 3}, INDICES + [
        f for f in placed(4862, 1) if f.number in (31, 13, 14)] + [
        *[Fault(31, drop(name), "count") for name in ("to_rows", "to_cols", "to_values")], Fault(20, put(m=1025), spoils="range"),
        Fault(20, put(m=2**64 - 1), spoils="range")]),
    "lift_solution": ({"m": 2, "map": [1, 0], "fixed": [0, 1], "fixed_values": FACTOR[:2], "solution": FACTOR[2:], "lifted": 2}, INDICES + [
        Fault(31, drop("fixed_values")), Fault(31, drop("solution")), Fault(31, drop("lifted"), "m"), Fault(20, put(m=1025), spoils="m"),
        Fault(20, put(m=2**64 - 1), spoils="m")]),
}


def cases(name):
    """The call accepted, then every fault alone and every two that change different fields, each with the number that 01 gives."""
    base, faults = CASES[name]
    return [(base, 0)] + [(at_once(base, f), first_number(f)) for f in in_pairs(faults, base)]
