"""`dual_variables_divided` (02, Note 7): equation 8 with its denominator. The numerators are the Rust's own `dual_variables` over the whole table, the division is
the oracle's harness's (`divided_call`)."""
import random

import calls
import faults
import gen
from faults import Fault, put

STYLES = ["usual", "usual", "mixed", "tiny", "huge", "zero", "whole", "odd", "subnormal"]
SINGLE = [0, 1 << 63, 1, 0x3FF0000000000000, 0xBFF0000000000000, 0x16687E92154EF7AC, 0x1E60000000000000, 0x1FF0000000000000, 0x5FE0000000000000, 0x5FF0000000000000,
          0x7FEFFFFFFFFFFFFF, 0x7FF0000000000000, 0xFFF0000000000000, 0x7FF8000000000000]


# ---- cases ------------------------------------------------------------------------------------------


def case(table, m, rank, factor, room=0):
    stored = gen.entries(table)
    rows, cols, values = ([e[k] for e in stored] for k in range(3))
    return {"m": m, "count": len(stored), "rows": rows, "cols": cols, "values": values, "rank": rank, "factor": factor, "out": m + room}


def some_table(rng, m, most):
    """Up to so many pairs, and a diagonal of values, of stored zeros, or none."""
    style, table = rng.choice(["unit", "small", "large", "zeros"]), {}
    for _ in range(rng.randint(0, most)):
        i, j, v = rng.randrange(m), rng.randrange(m), {"unit": rng.choice([8, -8]), "small": rng.randint(-99, 99), "large": rng.randint(-(2**30), 2**30), "zeros": 0}[style]
        table[i, j] = table[j, i] = v
    zeros = rng.choice([None, 0.0, 0.5, 1.0])
    for i in range(m) if zeros is not None else []:
        table[i, i] = 0 if rng.random() < zeros else rng.choice([8, -8, rng.randint(-99, 99)])
    return table


def some_factor(rng, m, rank):
    """Rows of one style, or each of its own."""
    styles = rng.choice([["usual"], STYLES, STYLES, [rng.choice(STYLES)]])
    return [x for _ in range(m) for x in gen.numbers(rng, rank, rng.choice(styles))]


def some_case(rng, m, rank, most):
    s = case(some_table(rng, m, most), m, rank, some_factor(rng, m, rank), rng.choice([0, 0, 2]))
    return {**s, "factor": s["factor"] + [gen.bits(1.0)] * rng.choice([0, 0, 3])}


def named_rows():
    """Two rows of one number each, of every kind, with 8 eighths between them and on the second's diagonal; the rows' products with themselves are 0.0 (zero, or
    too small to be squared), subnormal, 1.0, the largest, an infinity (too large), NaN."""
    for x in SINGLE:
        for y in SINGLE:
            yield case({(0, 1): 8, (1, 0): 8, (1, 1): -8}, 2, 1, [x, y])


def unit_rows(rng):
    """Rows with one number +1.0 or -1.0 and zeros: their products with themselves are 1.0, and the call gives what `dual_variables` gives."""
    for rank in (1, 2, 5, 32):
        m = rng.randint(2, 9)
        rows = [[0] * rank for _ in range(m)]
        for row in rows:
            row[rng.randrange(rank)] = rng.choice([0x3FF0000000000000, 0xBFF0000000000000])
        yield case(some_table(rng, m, 2 * m), m, rank, [x for row in rows for x in row])


# ---- faults -----------------------------------------------------------------------------------------


def add_faults(lines):
    """Every fault alone, and every two that change different fields: those of `dual_variables`, and the rank 0."""
    base, kinds = faults.CASES["dual_variables"]
    kinds = [*kinds, Fault(17, put(rank=0), spoils="rank")]
    cases = [(base, 0)] + [(faults.at_once(base, f), faults.first_number(f)) for f in faults.in_pairs(kinds, base)]
    numbers = calls.add(lines, "dual_variables_divided", [s for s, _ in cases])
    assert numbers == [number for _, number in cases]


# ---- lists ------------------------------------------------------------------------------------------


def add(lines):
    rng = random.Random("divided 1")
    give = lambda cases: calls.add(lines, "dual_variables_divided", list(cases))
    lines.heading("every kind of row")
    give(named_rows())
    lines.heading("rows whose product with themselves is 1.0")
    same = list(unit_rows(rng))
    give(same)
    calls.add(lines, "dual_variables", same)
    lines.heading("every rank")
    give(some_case(rng, rng.randint(1, 4), rank, 6) for rank in range(1, 33))
    lines.heading("256 signs, and one more")
    give([some_case(rng, 256, 1, 300), some_case(rng, 256, 2, 100), {**some_case(rng, 256, 1, 40), "m": 257}])
    lines.heading("faults")
    add_faults(lines)


def seeded(lines, count, seed):
    """So many calls: each rank in turn, every eighth of up to 256 signs, every 64th with as many entries as there may be."""
    for turn in range(0, count, 100):
        rng = random.Random(f"divided {seed} {turn}")
        cases = []
        for k in range(turn, min(count, turn + 100)):
            m = rng.choice([256, rng.randint(1, 256)]) if k % 8 == 0 else rng.randint(1, 12)
            cases.append(some_case(rng, m, k % 32 + 1 if k % 8 else rng.randint(1, 32), 2300 if k % 64 == 0 else 3 * m))
        calls.add(lines, "dual_variables_divided", cases)
        yield
