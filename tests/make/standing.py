"""Runs whose rows stand or move: the total of rows that sweeps under rules 3 and 4 left as they were (02, Note 2). The oracle reads it off the unchanged Rust row by
row (oracle/mixing_cut/src/standing.rs); where what must come out is plain, it is held here too.

A row stands where its gradient's norm isn't at least 1E-24. Halls are made of couples of wagons with the anchor cut off, so that a row's gradient is its partner's row, and
what stands in the partner's row, of one of the kinds below, decides."""
import random

import gen
import model
import runs
import steps

NAN, INF, MINUS_INF = runs.NAN, runs.INF, runs.MINUS_INF
# rules with their numbers: 3, 4 as 3, 4
RULES = [(3, 0), (4, 0), (4, gen.bits(0.5))]


# ---- rows by kind -------------------------------------------------------------------------------------


def moves(x, rank):
    return model.norm4([x] * rank) >= 1e-24


def threshold(rank):
    """The least x for which a row of such numbers has a norm of 1E-24 or more, and the double before it."""
    low, high = 0, gen.bits(1.0)
    while high - low > 1:
        middle = (low + high) // 2
        low, high = (low, middle) if moves(steps.double(middle), rank) else (middle, high)
    return low, high


def row_kinds(rng, rank):
    below, at = threshold(rank)
    mixed = gen.numbers(rng, rank, "usual")
    mixed[rng.randrange(rank)] = rng.choice([NAN, INF, MINUS_INF])
    return {
        "zero": [rng.choice([0, 1 << 63]) for _ in range(rank)], "below": [below] * rank, "at": [at] * rank, "tiny": [rng.choice([1, 1 << 63 | 1]) for _ in range(rank)],
        "NaN": [NAN] * rank, "infinite": [INF] * rank, "mixed": mixed, "usual": gen.numbers(rng, rank, "usual"),
    }


# kinds that leave the partner standing, whatever the rank
LEFT = ("zero", "below", "tiny", "NaN")


# ---- halls of couples -----------------------------------------------------------------------------------


def couples(n, pairs):
    """n wagons; each pair has a weight of 1.0 between its rows, and no row has one with the anchor."""
    h, c = {}, [0] * n
    for i, k in pairs:
        h[i, k] = h[k, i] = 8
        c[i] = c[k] = -4
    return runs.table(n, gen.entries(h), c)


def record(rng, m, rank, rule, **fields):
    return steps.fresh(rng, m, rank, rule[0], number=rule[1], **fields)


def flat(rows):
    return [x for row in rows for x in row]


def one_link(rng, rank, rule, row):
    """Wagon and anchor, a weight of 1.0 between them: whether the wagon's row moves is up to the anchor's."""
    return ["new", runs.record_line(record(rng, 2, rank, rule, factor=flat([gen.numbers(rng, rank, "usual"), row]))), runs.sweep_line(LINK, 1, 2 * rank)]


LINK = runs.table(1, [], [-4])


def add_thresholds(lines, rng):
    """Every kind of gradient at every rank; what comes out is plain but for numbers that aren't one."""
    for rank in range(1, 33):
        for rule in RULES:
            for kind, row in row_kinds(rng, rank).items():
                answers = runs.Answered(one_link(rng, rank, rule, row))
                total = answers.states[-1][12]
                if kind in ("zero", "below", "tiny"):
                    assert total == 1, (rank, rule, kind, total)
                elif kind in ("at", "usual"):
                    assert total == 0, (rank, rule, kind, total)
                elif kind == "NaN":
                    assert total in (1, 2), (rank, rule, total)
                if rank < 6 or (kind in ("below", "at") and rule != (4, 0)):
                    answers.add(lines)


# ---- pairs of rows ----------------------------------------------------------------------------------------


def side_by_side(rng, rank, rule, kinds, most=1):
    """Wagons 0, 1, .. coupled with as many behind them, so that no row names the one before it, and the rows go two by two."""
    half = len(kinds)
    rows = row_kinds(rng, rank)
    factor = flat([gen.numbers(rng, rank, "usual") for _ in kinds] + [rows[kind] for kind in kinds] + [gen.numbers(rng, rank, "usual")])
    t = couples(2 * half, [(i, i + half) for i in range(half)])
    return ["new", runs.record_line(record(rng, 2 * half + 1, rank, rule, most=most, factor=factor)), runs.sweep_line(t, 5, len(factor))]


def any_couples(rng, rank, rule):
    """Couples anywhere, single wagons between them: rows go alone or two by two, in runs of any length."""
    n = rng.randint(2, 9)
    wagons = rng.sample(range(n), rng.choice([n, n - 1, n // 2]))
    pairs = list(zip(wagons[::2], wagons[1::2]))
    rows = row_kinds(rng, rank)
    factor = flat(rows[rng.choice(list(rows))] for _ in range(n + 1))
    t = couples(n, pairs)
    return ["new", runs.record_line(record(rng, n + 1, rank, rule, most=4, factor=factor)), runs.sweep_line(t, 1, len(factor)), runs.sweep_line(t, 9, len(factor))]


def pair_runs(rng):
    names = list(row_kinds(rng, 1))
    for rule in RULES:
        for a in names:
            for b in names:
                yield side_by_side(rng, rng.choice([1, 2, 3, 4, 5, 7, 8]), rule, [a, b], rng.choice([1, 1, 2]))
        for rank in range(1, 33):
            yield side_by_side(rng, rank, rule, [rng.choice(names) for _ in range(2)])
        for _ in range(40):
            yield any_couples(rng, rng.choice([1, 1, 1, 2, 3, 4, 4, 5, 8]), rule)


# ---- the total over a run ---------------------------------------------------------------------------------


def opened(t, rule, rank, most, numbers):
    return runs.open_line(t, {"rank": rank, "rule": rule[0], "number": rule[1], "most": most, "minimum": 0, "objective": 0, "stationarity": steps.NO_TOLERANCE, "start": 0,
                              "numbers": numbers, "factor": len(numbers)})


def total_runs(rng):
    """Pairs of a script and the totals that its calls must leave: tables that change, calls that are refused, calls of no sweep, and a finish with the total in its result."""
    bare, two = couples(4, []), couples(4, [(0, 2)])
    for rank in (1, 2, 4, 5):
        for rule in RULES:
            numbers = gen.numbers(rng, 5 * rank, "usual")
            lent = len(numbers)
            finish = runs.finish_line(two, runs.finish_of(rng, 5, rank))
            calls = [(opened(bare, rule, rank, 9, numbers), 0), (runs.sweep_line(bare, 0, lent), 0), (runs.sweep_line(bare, 1, lent), 5), (runs.sweep_line(two, 2, lent), 11),
                     (runs.sweep_line(two, 1, lent - 1), 11), (finish, 11), (runs.sweep_line(bare, 2, lent + 1), 21), (runs.sweep_line({**two, "n": 5}, 1, lent), 21),
                     (runs.sweep_line(two, 99, lent), 33), (runs.sweep_line(two, 1, lent), 33), (finish, 33), (finish, 33),
                     (opened(two, rule, rank, 2, numbers), 0), (runs.sweep_line(two, 2, lent), 6)]
            yield [("new", None), *calls]
    # rules 0 to 2 count none, whatever their rows are
    for rule in range(3):
        t = couples(4, [(0, 2)])
        zero = [0] * 5
        yield [("new", None), (runs.record_line(record(rng, 5, 1, (rule, gen.bits(0.25)), most=9, factor=zero)), 0), (runs.sweep_line(t, 3, 5), 0)]
    # a row that is written as it was, and one whose second norm is 0, count none
    for rule, rows in (((3, 0), (1.0, -1.0)), ((4, gen.bits(0.5)), (3.0, -1.0))):
        factor = [gen.bits(x) for x in rows]
        yield [("new", None), (runs.record_line(record(rng, 2, 1, rule, factor=factor)), 0), (runs.sweep_line(LINK, 1, 2), 0 if rule[0] == 3 else 1)]
    # more than 32 bits hold
    most = 2**32 - 1
    for rule in RULES:
        stood = record(rng, 3, 2, rule, sweeps=most - 2, most=most, standing=3 * (most - 2), factor=gen.numbers(rng, 6, "usual"))
        yield [("new", None), (runs.record_line(stood), 3 * (most - 2)), (runs.sweep_line(couples(2, []), 1, 6), 3 * (most - 1)),
               (runs.sweep_line(couples(2, []), 5, 6), 3 * most)]


def add_totals(lines, rng):
    for script in total_runs(rng):
        answers = runs.Answered([line for line, _ in script])
        for (line, total), state, result in zip(script, answers.states, answers.results, strict=True):
            assert total is None or state[12] == total, (line, total, state)
            assert not result or result[10] == total, (line, result)
        answers.add(lines)


# ---- 33 -----------------------------------------------------------------------------------------------------


def forged(rng):
    """Records whose total is at its limit, and one above: 33. The product of size and sweeps may be above 2^64."""
    t, _, base = runs.base(rng)
    finish = runs.finish_of(rng, 3, 2)
    most = 2**32 - 1
    for sweeps, total, number in ((0, 0, 0), (0, 1, 33), (1, 3, 0), (1, 4, 33), (3, 9, 0), (3, 10, 33), (6, 18, 0), (6, 19, 33), (6, 2**64 - 1, 33)):
        yield {**base, "sweeps": sweeps, "standing": total}, t, finish, number
    for sweeps, total, number in ((most - 1, 3 * (most - 1), 0), (most - 1, 3 * (most - 1) + 1, 33), (2**31, 2**33, 33), (2**31, 3 * 2**31, 0)):
        yield {**base, "sweeps": sweeps, "most": most, "standing": total}, t, finish, number
    # sizes that agree though n is refused: 33 comes before 13
    for size, sweeps, total, number in (
            (2**64 - 1, 1, 2**64 - 1, 13), (2**64 - 1, 0, 1, 33), (2**64 - 1, most - 1, 2**64 - 1, 13), (2**63, 1, 2**63, 13), (2**63, 1, 2**63 + 1, 33), (2**63, 2, 2**64 - 1, 13),
            (2**63, 3, 2**64 - 1, 13), (2**32 + 1, most - 1, 2**64 - 1, 33), (2**32 + 2, most - 1, 2**64 - 1, 33), (2**32 + 3, most - 1, 2**64 - 1, 13), (257, 2, 515, 33)):
        yield {**base, "size": size, "sweeps": sweeps, "most": most, "standing": total}, {**t, "n": size - 1}, {**finish, "factor": 0}, number


def forged_runs(rng):
    for run, t, finish, number in forged(rng):
        yield [("new", None), (runs.record_line(run), None), (runs.sweep_line(t, 0, finish["factor"]), number),
               (runs.record_line({**run, "stage": 1}), None), (runs.finish_line(t, finish), number)]


# ---- the list -----------------------------------------------------------------------------------------------


def add(lines):
    rng = random.Random("standing 1")
    lines.heading("gradients of every kind, at every rank")
    add_thresholds(lines, rng)
    lines.heading("pairs of rows, and runs of pairs")
    answers = runs.Answered([line for script in pair_runs(rng) for line in script])
    totals = [state[12] for (name, _), state in zip(answers.calls, answers.states) if name == "sweep"]
    assert len(set(totals)) > 12, totals
    answers.add(lines)
    lines.heading("the total over a run")
    add_totals(lines, rng)
    lines.heading("a total above m times the sweeps done")
    runs.judged(forged_runs(rng)).add(lines)
