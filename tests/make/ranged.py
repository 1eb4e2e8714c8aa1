"""The finish over costs known within ranges, `finish_ranged` (02, Note 8). The result is the Rust's finish on the high table (`oracle run`); the number, the choice's low and
high figures and the low table's floor are oracle/model.py's, from 02's words and 01's formulas.

Held here too: the first number of every pair of faults; that the high figure is the cost; that equal ends give a finish's own result; and, where the ranges are small, that
over every table within them the choice's least and greatest cost are its figures and no choice costs less than the floor."""
import itertools
import random

import faults
import gen
import model
import runs
import steps
from faults import LIMIT, Fault, drop, entry, put
from lists import SEARCH_WORKSPACE

LEAST, GREATEST = -(2**63), 2**63 - 1


# ---- ranged tables ------------------------------------------------------------------------------------


def ranged(n, entries, costs):
    """Of entries (row, column, low, high) and pairs of costs."""
    rows, cols, low, high = ([e[k] for e in entries] for k in range(4))
    return {"n": n, "count": len(entries), "rows": rows, "cols": cols, "low": low, "high": high, "low_c": [a for a, _ in costs], "high_c": [b for _, b in costs]}


def entries_of(t):
    return list(zip(t["rows"], t["cols"], t["low"], t["high"]))[: t["count"]]


def high_of(t):
    return {"n": t["n"], "count": t["count"], "rows": t["rows"], "cols": t["cols"], "values": t["high"], "c": t["high_c"]}


def spread(rng, n, entries, c, wide):
    """A hall with ranges about its costs, mirrored alike; `wide` says how far an end may lie from the cost."""
    ends = {}
    for i, j, v in entries:
        ends[i, j] = ends.get((j, i)) or (v - wide(rng), v + wide(rng))
    return ranged(n, [(i, j, *ends[i, j]) for i, j, _ in entries], [(x - wide(rng), x + wide(rng)) for x in c])


# ---- cases ----------------------------------------------------------------------------------------------


class Case:
    """A record that a run line sets, a ranged table, and what else a finish takes; of `finish_line`, where the lengths stand in one dictionary."""

    def __init__(self, record, t, finish):
        self.record, self.t, self.finish = record, t, finish

    def ranged_line(self):
        t, f = self.t, self.finish
        return "finish_ranged " + gen.words(*[t[k] for k in ("n", "count", "rows", "cols", "low", "high", "low_c", "high_c")], *[f[k] for k in (
            "width", "draw_count", "draws", "factor", "b", "dual", "workspace")])

    def number(self):
        """By the model; a workspace is judged here, as in runs.py."""
        if self.finish["workspace"] < SEARCH_WORKSPACE:
            return 31
        script, w = model.Script(), model.Words(runs.record_line(self.record))
        script.call_record(w)
        w = model.Words(self.ranged_line())
        return script.finish_number(w, script.ranged_table(w))[0]

    def figures(self, b):
        t = self.t
        return model.ranged_figures(t["n"], entries_of(t), t["low_c"][: t["n"]], t["high_c"][: t["n"]], b)


class Answered:
    """Cases with the Rust's finish on the high table."""

    def __init__(self, cases):
        self.cases, self.numbers, self.results = list(cases), [], []
        asked = [line for case in self.cases for line in ("new", runs.record_line(case.record), runs.finish_line(high_of(case.t), case.finish))]
        answers = runs.Answered(asked)
        for k, case in enumerate(self.cases):
            number, on_high, result = case.number(), answers.numbers[3 * k + 2], answers.results[3 * k + 2]
            assert on_high == number or number not in (0, 18, 19, 32, 33), (number, on_high, case.ranged_line())
            self.numbers.append(number)
            self.results.append(self.back(case, result) if number == 0 else [])

    def back(self, case, result):
        (b, dual), _ = runs.cut(result[11:], 0, 0)
        low, high, floor = case.figures(b)
        cost = result[8] - 2**64 if result[8] >= 2**63 else result[8]
        assert high == cost and low <= high, (low, high, cost)
        return [bytes(b), dual, *result[:11], low, high, floor]

    def add(self, lines):
        standing = None
        for case, number, back in zip(self.cases, self.numbers, self.results, strict=True):
            record = runs.record_line(case.record)
            if record != standing:
                fields = [case.record[k] for k in ("size", "rank", "rule", "number", "sweeps", "last", "objective", "stationarity", "minimum", "most", "stage", "status", "standing")]
                lines.run(runs.in_order(fields), case.record["factor"])
                standing = record
            t, f = case.t, case.finish
            lines.call("finish_ranged", [t[k] for k in ("n", "count", "rows", "cols", "low", "high", "low_c", "high_c")],
                       [f[k] for k in ("width", "draw_count", "draws", "factor", "b", "dual", "workspace")], number, back)


def stopped(rng, m, rank, **fields):
    rule = rng.randrange(5)
    sweeps = rng.choice([0, 1, 7])
    return steps.fresh(rng, m, rank, rule, sweeps=sweeps, most=rng.choice([sweeps, sweeps + 3]), stage=1, status=rng.randrange(3), standing=rng.choice([0, m * sweeps]), **fields)


def case_of(rng, t, rank=None, width=None, more=0):
    m = t["n"] + 1
    rank = rank or rng.choice([1, 1, 2, 3, gen.default_rank(m)])
    width = rng.choice([0, 1, 1, 2, 3, 128]) if width is None else width
    return Case(stopped(rng, m, rank), t, runs.finish_of(rng, m, rank, width, rng.choice([1, 1, 2, 5]), more))


# ---- every table within small ranges ------------------------------------------------------------------------


def small_hall(rng):
    """Few wagons, few places, ranges of one to three numbers: at most some hundred tables."""
    while True:
        n = rng.randint(0, 3)
        places = [(i, j) for i in range(n) for j in range(i, n) if rng.random() < 0.6]
        narrow = lambda: rng.choice([(0, 0), (0, 1), (-1, 0), (-1, 1), (0, 2), (3, 3)])
        ends = {}
        for i, j in places:
            low, high = narrow()
            at = rng.randint(-4, 4)
            ends[i, j] = ends[j, i] = (at + low, at + high)
        costs = [(x + a, x + b) for x, (a, b) in ((rng.randint(-4, 4), narrow()) for _ in range(n))]
        t = ranged(n, [(i, j, *ends[i, j]) for i, j in sorted(ends)], costs)
        if sum(1 for _ in itertools.islice(model.tables_within(entries_of(t), t["low_c"], t["high_c"]), 501)) <= 500:
            return t


def hold_all(case, back):
    """Over every table within the ranges: the least and the greatest cost of the choice are its figures, and no choice costs less than the floor. How many tables there are."""
    t, (b, _, *_, low, high, floor) = case.t, back
    tables = list(model.tables_within(entries_of(t), t["low_c"], t["high_c"]))
    costs = [model.cost(h, c, b) for h, c in tables]
    assert min(costs) == low and max(costs) == high, (low, high, min(costs), max(costs))
    for h, c in tables:
        assert all(floor <= model.cost(h, c, choice) for choice in itertools.product((0, 1), repeat=t["n"])), (t, floor)
    return len(tables)


def enumerated(rng, count):
    answers = Answered(case_of(rng, small_hall(rng), more=rng.choice([0, 0, 2])) for _ in range(count))
    tables = sum(hold_all(case, back) for case, back in zip(answers.cases, answers.results, strict=True))
    return answers, tables


# ---- equal ends ------------------------------------------------------------------------------------------------


def equal_case(rng):
    n = rng.choice([0, 1, 2, 3, 5, 9])
    return case_of(rng, spread(rng, n, *gen.hall(rng, n), lambda rng: 0))


def add_equal(lines, rng):
    """Low and high alike: a finish's own result, its cost and its floor."""
    answers = Answered(equal_case(rng) for _ in range(24))
    for case, back in zip(answers.cases, answers.results, strict=True):
        _, _, *result, low, high, floor = back
        assert [low % 2**64, high % 2**64, floor % 2**64] == [result[8], result[8], result[6]], back
    answers.add(lines)


# ---- faults --------------------------------------------------------------------------------------------------

# 23 of an entry and 23 of a c stand at two places of the order.
OF_ENTRY, OF_COST = "23 of an entry", "23 of a c"
ORDER = [31, 32, 33, 13, 14, OF_ENTRY, 15, OF_COST, 16, 18, 19]
SAID = {OF_ENTRY: 23, OF_COST: 23}


def first_number(some):
    spoilt = set().union(*[f.spoils for f in some])
    number = min((f.number for f in some if not f.rests & spoilt), key=ORDER.index)
    return SAID.get(number, number)


TABLE = ranged(2, [(0, 1, 1, 3), (1, 0, 1, 3), (1, 1, -2, 2)], [(-1, -1), (2, 4)])
FAULTS = [
    *[Fault(31, drop(name), "count") for name in ("rows", "cols", "low", "high")], *[Fault(31, drop(name), "n") for name in ("low_c", "high_c")],
    Fault(13, put(count=4097), spoils="count"), Fault(13, put(count=2**64 - 1), spoils="count"), Fault(13, runs.wide, spoils="n"),
    Fault(14, entry(2, cols=2)), Fault(14, entry(2, rows=0, cols=0)), Fault(14, entry(0, rows=1, cols=1)),
    Fault(OF_ENTRY, entry(0, low=4)), Fault(OF_ENTRY, entry(1, high=0)), Fault(OF_ENTRY, entry(0, high=LEAST)), Fault(OF_ENTRY, entry(1, low=GREATEST)),
    Fault(15, entry(0, low=2)), Fault(15, entry(1, high=2)), Fault(15, entry(0, cols=0)),
    Fault(OF_COST, entry(0, low_c=0)), Fault(OF_COST, entry(1, high_c=1)), Fault(OF_COST, entry(1, high_c=LEAST)), Fault(OF_COST, entry(0, low_c=GREATEST)),
    Fault(16, entry(2, high=LIMIT)), Fault(16, entry(2, low=-LIMIT)), Fault(16, entry(2, low=LEAST)), Fault(16, entry(2, high=GREATEST)),
    Fault(16, entry(1, high_c=LIMIT)), Fault(16, entry(0, low_c=-LIMIT // 2)), Fault(16, entry(0, low_c=LEAST)), Fault(16, entry(1, high_c=GREATEST)),
    *[f for f in runs.FINISH_FAULTS if f not in runs.TABLE_FAULTS],
]


def fault_cases(rng, kinds):
    """Cases, each with the number that the order gives."""
    _, _, record = runs.base(rng)
    finish = runs.finish_of(rng, 3, 2)
    probe = {**TABLE, **finish, **record, "stage": 1}
    for some in kinds(probe):
        s = faults.at_once(probe, some)
        yield Case({k: s[k] for k in record}, s, {**{k: s[k] for k in finish}, "factor": s["lent"]}), first_number(some)


def some_of(probe):
    """Each fault alone; of every two numbers a pair of faults, of neighbours in the order four."""
    taken = {}
    for some in faults.in_pairs(FAULTS, {**probe, "stage": 7}):
        places = tuple(sorted(ORDER.index(f.number) for f in some))
        most = len(FAULTS) if len(some) == 1 else 4 if places[1] - places[0] == 1 else 1
        taken[places] = taken.get(places, 0) + 1
        if taken[places] <= most:
            yield some
    assert all((k, k + 1) in taken for k in range(len(ORDER) - 1)), taken


def add_faults(lines, rng):
    wanted = list(fault_cases(rng, some_of))
    judge(Answered(case for case, _ in wanted), [number for _, number in wanted]).add(lines)


def judge(answers, wanted):
    for case, number, said in zip(answers.cases, answers.numbers, wanted, strict=True):
        assert number == said, (number, said, case.ranged_line())
    return answers


# ---- limits --------------------------------------------------------------------------------------------------


def limit_cases(rng):
    """What is just accepted and what just isn't, lengths at their edge; each with its number."""
    _, _, record = runs.base(rng)
    record["stage"] = 1
    finish = runs.finish_of(rng, 3, 2, 3, 2)
    changed = lambda k, **fields: {name: [*TABLE[name][:k], fields[name], *TABLE[name][k + 1 :]] if name in fields else TABLE[name] for name in TABLE}
    # the magnitude at 2^40 by the high end, by the low end, by either end of a c; and one more. Without entry 2 and costs 1 and 4 it is 6
    rest = 6 + 2 * 5
    for by, number in ((0, 0), (1, 16)):
        yield Case(record, changed(2, high=LIMIT - rest + by), finish), number
        yield Case(record, changed(2, low=-(LIMIT - rest) - by), finish), number
        yield Case(record, changed(2, low=-(LIMIT - rest) - by, high=LIMIT - rest), finish), number
        yield Case(record, changed(1, low_c=-(LIMIT - 10) // 2 - by), finish), number
        yield Case(record, changed(1, high_c=(LIMIT - 10) // 2 + by), finish), number
    for ends in ({"low": LEAST, "high": GREATEST}, {"low": LEAST, "high": LEAST}, {"low": GREATEST, "high": GREATEST}, {"low": GREATEST, "high": LEAST}):
        yield Case(record, changed(2, **ends), finish), 16 if ends["low"] <= ends["high"] else 23
    # low above high by one, at the first and the last place
    for k, name in ((2, "low"), (0, "low_c"), (1, "low_c")):
        yield Case(record, changed(k, **{name: TABLE[name.replace("low", "high")][k] + 1}), finish), 23
        yield Case(record, changed(k, **{name: TABLE[name.replace("low", "high")][k]}), finish), 0
    # slices exact, one short, empty, longer
    for name in ("rows", "cols", "low", "high", "low_c", "high_c"):
        for change, number in ((lambda x: x[:-1], 31), (lambda x: [], 31), (lambda x: [*x, 65535 if name in ("rows", "cols") else LEAST], 0)):
            yield Case(record, {**TABLE, name: change(TABLE[name])}, finish), number
    for name, least in (("factor", 6), ("b", 2), ("dual", 3), ("workspace", SEARCH_WORKSPACE)):
        for length, number in ((least - 1, 31), (0, 31), (least, 0), (least + 9, 0)):
            yield Case(record, TABLE, {**finish, name: length}), number
    # what rests on a refused number isn't tested
    empty = {"rows": [], "cols": [], "low": [], "high": []}
    yield Case(record, {**TABLE, **empty, "count": 4097}, finish), 13
    yield Case(record, {**TABLE, **empty, "count": 4097, "low_c": []}, finish), 31
    yield Case({**record, "size": 257}, {**TABLE, "n": 256, "low_c": [], "high_c": []}, {**finish, "b": 0, "dual": 0, "factor": 0}), 13
    yield Case(record, {**TABLE, "n": 256, "low_c": [], "high_c": []}, {**finish, "b": 0, "dual": 0, "factor": 0}), 33


def large_cases(rng):
    """4,096 entries; 127, 128, 254, 255 wagons and one more."""
    for n, pairs, number in ((127, 2048, 0), (128, 40, 0), (254, 40, 0), (255, 60, 0), (256, 10, 13)):
        places = rng.sample([(i, j) for i in range(n) for j in range(i)], pairs)
        ends = {}
        for i, j in places:
            low = rng.randint(-9, 9)
            ends[i, j] = ends[j, i] = (low, low + rng.randint(0, 3))
        costs = [(x, x + rng.randint(0, 2)) for x in (rng.randint(-9, 9) for _ in range(n))]
        yield case_of(rng, ranged(n, [(i, j, *ends[i, j]) for i, j in sorted(ends)], costs), rank=1, width=4), number


# ---- random ----------------------------------------------------------------------------------------------------

WIDTHS = [lambda rng: 0, lambda rng: rng.randint(0, 2), lambda rng: rng.randint(0, 9), lambda rng: rng.choice([0, 0, 5]), lambda rng: rng.randint(0, 10**6)]


def random_case(rng):
    """A hall of any kind with ranges about its costs; one in four is damaged once or twice."""
    n = rng.choice([0, 1, 2, 3, 4, 5, 6, 8, 11, rng.randint(12, 40)])
    t = spread(rng, n, *gen.hall(rng, n), rng.choice(WIDTHS))
    case = case_of(rng, t, more=rng.choice([0, 0, 0, 3]))
    for _ in range(rng.choice([0, 0, 0, 0, 0, 0, 1, 2])):
        damage(rng, case)
    return case


def damage(rng, case):
    t, f, record = case.t, case.finish, case.record
    kind = rng.randrange(12)
    ends = [name for name in ("low", "high", "low_c", "high_c") if t[name]]
    if kind < 4 and ends:
        name = rng.choice(ends)
        k = rng.randrange(len(t[name]))
        t[name][k] += rng.choice([-1, 1, 7, -7])
    elif kind < 6 and ends:
        name = rng.choice(ends)
        t[name][rng.randrange(len(t[name]))] = rng.choice([LEAST, GREATEST, LIMIT, -LIMIT, 0])
    elif kind == 6 and t["rows"]:
        name = rng.choice(["rows", "cols"])
        t[name][rng.randrange(len(t[name]))] = rng.choice([0, t["n"], 65535])
    elif kind == 7:
        name = rng.choice(["rows", "cols", "low", "high", "low_c", "high_c"])
        t[name] = t[name][:-1]
    elif kind == 8:
        name = rng.choice(["factor", "b", "dual", "workspace"])
        f[name] = max(0, f[name] - rng.choice([1, 4]))
    elif kind == 9:
        record.update(rng.choice([{"stage": 0}, {"size": record["size"] + 1}, {"rank": 0}, {"status": 3}, {"sweeps": record["most"] + 1}, {"rule": 4, "number": gen.bits(1.0)}]))
    elif kind == 10:
        f.update(rng.choice([{"width": 129}, {"draw_count": 0}, {"draw_count": 1001}]))
    else:
        t.update(rng.choice([{"count": t["count"] + 1}, {"count": 4097}, {"n": 256}, {"n": t["n"] + 1}]))


# ---- the list --------------------------------------------------------------------------------------------------


def add(lines):
    rng = random.Random("ranged 1")
    lines.heading("every table within small ranges")
    answers, tables = enumerated(rng, 60)
    assert tables > 500, tables
    answers.add(lines)
    lines.heading("equal ends")
    add_equal(lines, rng)
    lines.heading("faults, alone and in pairs")
    add_faults(lines, rng)
    for text, cases in (("limits and lengths", limit_cases), ("large halls", large_cases)):
        lines.heading(text)
        wanted = list(cases(rng))
        judge(Answered(case for case, _ in wanted), [number for _, number in wanted]).add(lines)
    lines.heading("random halls")
    some = Answered(random_case(rng) for _ in range(60))
    some.add(lines)


def seeded(lines, count, seed):
    """So many random calls, in batches; a third of them with all tables within their ranges looked at."""
    rng = random.Random(f"random ranges {seed}")
    for at in range(0, count, 300):
        many = min(300, count - at)
        enumerated(rng, many // 3)[0].add(lines)
        Answered(random_case(rng) for _ in range(many - many // 3)).add(lines)
        yield
