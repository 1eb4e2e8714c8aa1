"""One sweep of every rule at every rank from 1 to 32, then a finish: runs that stand before their first sweep with a factor of any numbers. The sweep gives the
step and, as a check is due after it, the objective; the finish gives multipliers, rounding and figures. Where the check decides, the tolerance is met or missed by a
last bit."""
import math
import random
import struct

import factors
import gen
import runs
from lists import leaves

NO_TOLERANCE = gen.bits(-1.0)


def double(bits):
    return struct.unpack(">d", struct.pack(">Q", bits))[0]


def fresh(rng, m, rank, rule, **fields):
    """A run record before its first sweep, the only one."""
    record = {"size": m, "rank": rank, "rule": rule, "number": 0 if rule == 3 else gen.rule_number(rng, rule), "sweeps": 0, "last": gen.usual(rng), "objective": 0,
              "stationarity": NO_TOLERANCE, "minimum": 0, "most": 1, "stage": 0, "status": 0, "standing": 0, "factor": gen.factor(rng, m, rank)}
    return {**record, **fields}


def script(rng, t, record, width, draws, more=0):
    m, rank = record["size"], record["rank"]
    lines = ["new", runs.record_line(record), runs.sweep_line(t, 1, m * rank + more)]
    return lines + [runs.finish_line(t, runs.finish_of(rng, m, rank, width, draws, more))]


def small_steps(rng):
    for rank in range(1, 33):
        for rule in range(5):
            n = rng.randint(0, max(1, 40 // rank))
            yield script(rng, runs.some_table(rng, n), fresh(rng, n + 1, rank, rule), rng.choice([0, 1, 2]), rng.choice([1, 2]), rng.choice([0, 0, 2]))


def wide_steps(rng):
    """Up to 128 signs of low rank, few entries."""
    for rule in range(5):
        gen.WIDE = True
        for _ in range(2):
            m, rank = gen.shape(rng)
            yield script(rng, runs.some_table(rng, m - 1), fresh(rng, m, rank, rule), 1, 1)
        gen.WIDE = False


# ---- the check decides by a last bit ----------------------------------------------------------------


def beside(x):
    return [math.nextafter(x, -math.inf), x, math.nextafter(x, math.inf)]


def measured(t, rank, factors_):
    """What a check meets at each factor: objective, residual, norm."""
    (table,) = leaves([("signtable", [t["n"], t["count"], *[x for e in zip(t["rows"], t["cols"], t["values"]) for x in e], t["c"]])])
    (work,) = leaves([("work", [t["n"] + 1, *table])])
    entries = work[: 1 + 3 * work[0]]
    return [[double(x) for x in words[-3:]] for words in leaves([("check", [t["n"] + 1, *entries, rank, f]) for f in factors_])]


def edge_runs(rng):
    """Whether what the check meets is no number; and records that differ in one tolerance by a last bit, so that the run stops or goes on."""
    for rank in (1, 2, 3, 4, 5, 8, 13, 17, 32):
        for rule in range(5):
            n = rng.randint(1, 4)
            t = runs.some_table(rng, n)
            record = fresh(rng, n + 1, rank, rule, most=7, number=0 if rule == 3 else gen.bits(0.1), factor=gen.numbers(rng, (n + 1) * rank, "usual"))
            sweep = runs.sweep_line(t, 1, (n + 1) * rank)
            after = runs.Answered(["new", runs.record_line(record), sweep]).states[-1]
            ((objective, residual, norm),) = measured(t, rank, [after[14:]])
            last = objective + abs(objective) / 3 + 1.0
            met = {"stationarity": residual / max(norm, 1.0), **({"objective": last - objective} if rule <= 2 else {})}
            for name, x in met.items():
                yield math.isnan(x), [line for y in beside(x) for line in ("new", runs.record_line({**record, "last": gen.bits(last), name: gen.bits(y)}), sweep)]


def add_edges(lines, rng):
    for unmet, script_ in edge_runs(rng):
        answers = runs.Answered(script_)
        stages = [state[10] for state in answers.states[2::3]]
        assert (stages[0], stages[2]) == ((0, 0) if unmet else (0, 1)), stages
        answers.add(lines)


# ---- lists ------------------------------------------------------------------------------------------


def add(lines):
    rng = random.Random("steps 1")
    for text, scripts in (("every rule at every rank", small_steps(rng)), ("up to 128 signs", wide_steps(rng))):
        lines.heading(text)
        runs.Answered([line for script_ in scripts for line in script_]).add(lines)
    lines.heading("tolerances at a last bit")
    add_edges(lines, rng)


def full_size(rng):
    return rng.choice([256, rng.randint(1, 256), rng.randint(1, 128)])


def full_table(rng, m):
    """A hall of m - 1 wagons with up to 4,096 entries."""
    return runs.some_table(rng, m - 1)


def full_start(rng, rank, start):
    m, most = full_size(rng), rng.randrange(2)
    settings = {"rank": rank, "rule": 3, "number": 0, "most": most, "minimum": 0, "objective": 0, "stationarity": 0, "start": start}
    numbers = gen.factor(rng, m, rank) if start < 2 else gen.numbers(rng, gen.start_count(2, most, m, rank))
    return runs.open_line(full_table(rng, m), {**settings, "numbers": numbers, "factor": m * rank})


def seeded(lines, count, seed):
    """So many rounds: a step of each rule, an open of each start, multipliers and rounding at each rank, with up to 256 signs and 4,862 entries."""
    for turn in range(count):
        rng = random.Random(f"ranks {seed} {turn}")
        for rank in range(1, 33):
            asked = []
            for rule in range(5):
                m = full_size(rng)
                asked += script(rng, full_table(rng, m), fresh(rng, m, rank, rule), rng.choice([0, 1, 4]), rng.choice([1, 3]))
            asked += [full_start(rng, rank, start) for start in range(3)]
            runs.Answered(asked).add(lines)
            yield
        for name in ("multiply", "check", "round", "sols", "dual_call", "rounded_call"):
            factors.add_leaves(lines, f"full-{name}", 32, f"{seed} {turn}", 10**9)
            yield
