"""Scripts of open, sweep and finish with the answers of the Rust oracle (`oracle run`), as lines of docs/REPLAY.md.

In a script the numbers, the schedule of checks and the order of the stop tests are the oracle's own, after 01 and `solve_maxcut_sdp_profiled`, whose loop can't be
entered half way; the values are the Rust's. A workspace below the size that a finish asks is judged here (31): the oracle has none.

Held here too: 01's first number of every pair of faults; one call of `solve_maxcut_sdp` for every whole run; that every number, rule, start, rank and status
occurs; and that some long run tells each wrong schedule of long_runs.py.
"""
import itertools
import random
import subprocess

import faults
import gen
import long_runs
from faults import LIMIT, Fault, at_once, drop, first_number, in_pairs, put, single
from lists import PROGRAM, SEARCH_WORKSPACE, oracle

NAN, INF, MINUS_INF = 0x7FF8000000000000, 0x7FF0000000000000, 0xFFF0000000000000
# Quiet and signalling, of both signs, with several payloads.
NANS = [0x7FF0000000000001, 0xFFF8000000000000, 0x7FF8DEADBEEF0001, 0xFFF0000000000002, 0x7FF8000000000000, 0x7FF4000000000000, 0xFFFFFFFFFFFFFFFF,
        0xFFF7FFFFFFFFFFFF, 0x7FFFFFFFFFFFFFFF]
bits = gen.bits


# ---- calls ----------------------------------------------------------------------------------


def table(n, entries, c):
    rows, cols, values = ([e[k] for e in entries] for k in range(3))
    return {"n": n, "count": len(entries), "rows": rows, "cols": cols, "values": values, "c": list(c)}


def some_table(rng, n):
    return table(n, *gen.hall(rng, n))


def of_table(t):
    return [t["n"], t["count"], t["rows"], t["cols"], t["values"], t["c"]]


def open_line(t, o):
    return "open " + gen.words(*of_table(t), *[o[k] for k in (
        "rank", "rule", "number", "most", "minimum", "objective", "stationarity", "start", "numbers", "factor")])


def sweep_line(t, k, factor):
    return "sweep " + gen.words(*of_table(t), k, factor, 0)


def exchange_line(rule, number):
    return "exchange " + gen.words(rule, number)


def finish_line(t, f):
    return "finish " + gen.words(*of_table(t), *[f[k] for k in (
        "width", "draw_count", "draws", "factor", "b", "dual", "workspace")])


def record_line(r):
    return "record " + gen.words(*[r[k] for k in (
        "size", "rank", "rule", "number", "sweeps", "last", "objective", "stationarity", "minimum", "most",
        "stage", "status", "standing", "factor")])


def finish_of(rng, m, r, width=1, draws=1, more=0):
    return {"width": width, "draw_count": draws, "draws": gen.numbers(rng, draws * r + more), "factor": m * r + more,
            "b": m - 1 + more, "dual": m + more, "workspace": SEARCH_WORKSPACE + more}


# ---- whole runs: one call of the Rust's solver gives the same ---------------------------------


def whole(rng, rank, rule, start):
    """A job as a script, its sweeps split over several calls; and the job's record."""
    n = rng.randint(0, 6 if rank < 5 else 3 if rank < 13 else 2)
    h, c = gen.hall(rng, n)
    most, minimum = gen.limits(rng, 41)
    m, r = n + 1, rank or gen.default_rank(n + 1)
    draws = rng.choice([1, 1, 2, 3])
    job = {
        "version": 1, "n": n, "count": len(h), "entries": h, "c": c, "rank": rank, "rule": rule,
        "number": gen.rule_number(rng, rule), "most": most, "minimum": minimum,
        "objective_tolerance": gen.tolerance(rng), "stationarity_tolerance": gen.tolerance(rng),
        "width": rng.choice([0, 1, 1, 2, 3, 128]), "start": start,
        "start_numbers": gen.factor(rng, m, r) if start < 2 else gen.numbers(rng, gen.start_count(2, most, m, r)),
        "draw_count": draws, "draws": [x for _ in range(draws) for x in gen.numbers(rng, r)],
    }
    more = rng.choice([0, 0, 3])
    sweeps = [(k, more) for k in rng.choice([[], [1], [0, 2], [19, 1]])]
    left = most - sum(k for k, _ in sweeps)
    if left > 0:
        sweeps.append((rng.choice([left, left, 2**32 - 1]), 0))
    return script_of(job, sweeps, more)


def script_of(job, sweeps, more):
    """A job as a script, and its record. A sweep call is its k and by how much its factor is longer; `more` is that of all other slices."""
    n, m, most = job["n"], job["n"] + 1, job["most"]
    r = job["rank"] or gen.default_rank(m)
    t = table(n, job["entries"], job["c"])
    lines = ["new", open_line(t, {
        "rank": job["rank"], "rule": job["rule"], "number": job["number"], "most": most, "minimum": job["minimum"],
        "objective": job["objective_tolerance"], "stationarity": job["stationarity_tolerance"], "start": job["start"],
        "numbers": job["start_numbers"] + [NAN] * more, "factor": m * r + more})]
    lines += [sweep_line(t, k, m * r + longer) for k, longer in sweeps]
    lines.append(finish_line(t, {
        "width": job["width"], "draw_count": job["draw_count"], "draws": job["draws"] + [NAN] * more, "factor": m * r + more,
        "b": n + more, "dual": m + more, "workspace": SEARCH_WORKSPACE + more}))
    return lines, gen.record(job).hex().upper()


def whole_runs(rng):
    for rank in range(33):
        for rule in range(5):
            start = (rank + rule) % 3
            yield whole(rng, rank, rule, 2 if rank == 0 and start == 1 else start)
    for rule, start, rank in itertools.product(range(5), range(3), (1, 2)):
        yield whole(rng, rank, rule, start)


def answer_of(words):
    """The answer record of a finish's words."""
    body = bytes(words[:3]) + words[3].to_bytes(4, "big") + b"".join(x.to_bytes(8, "big") for x in words[4:10])
    body = b"\1" + body + bytes(words[12 : 12 + words[11]])
    return (len(body).to_bytes(4, "big") + body).hex().upper()


# ---- limits and tolerances --------------------------------------------------------------------


def settings_runs(rng):
    limits = [(0, 0), (0, 5), (1, 0), (1, 1), (1, 5), (3, 0), (3, 2), (25, 7), (25, 20), (21, 30), (40, 2**32 - 1),
              (2**32 - 1, 0)]
    tolerances = [bits(0.0), bits(1e9), NAN, INF, MINUS_INF, bits(1e-6)]
    steps = [bits(x) for x in (0.01, -0.01, 0.1, -1.0)]
    for rule, (most, minimum), pick in itertools.product(range(5), limits, range(4)):
        a, b = rng.choice(tolerances), tolerances[(pick + rule) % 6]
        rank, n = rng.choice([0, 1, 2, 3]), rng.randint(1, 3)
        m, r, start = n + 1, rank or gen.default_rank(n + 1), rng.choice([0, 2])
        tables = [some_table(rng, n), some_table(rng, n)]
        number = steps[pick] if rule < 3 else rng.choice(gen.MOMENTUM)
        lines = ["new", open_line(tables[0], {
            "rank": rank, "rule": rule, "number": number, "most": most, "minimum": minimum, "objective": a,
            "stationarity": b, "start": start, "numbers": gen.numbers(rng, gen.start_count(start, most, m, r), "usual"),
            "factor": m * r})]
        for k in rng.choice([[0, 1, 18, 1, 40], [7, 0, 13, 20], [2, 18, 5], [60]]):
            lines.append(sweep_line(tables[rng.random() < 0.3], k, m * r + rng.choice([0, 0, 1])))
        last = finish_line(tables[pick % 2], finish_of(rng, m, r, rng.choice([0, 1, 2]), more=pick % 2))
        yield lines + [last, last]


# ---- faults, alone and in pairs -----------------------------------------------------------------


def wide(s):
    s["n"] = 256
    if "size" in s and s["size"] == 3:
        s["size"] = 257


TABLE_FAULTS = [f for f in faults.HALL if "n" not in f.spoils] + [Fault(13, wide, spoils="n")]
OPEN_FAULTS = TABLE_FAULTS + [
    Fault(31, drop("numbers"), "n rank start"), Fault(31, drop("factor"), "n rank"),
    Fault(17, put(rank=33), spoils="rank"), Fault(17, put(rank=2**64 - 1), spoils="rank"), Fault(17, put(rank=0, start=1), spoils="rank"),
    Fault(18, put(rule=5)), Fault(18, put(rule=255)), Fault(18, put(rule=4, number=bits(1.0))), Fault(18, put(rule=4, number=NAN)),
    Fault(18, put(rule=4, number=bits(-5e-324))), Fault(18, put(rule=4, number=INF)),
    Fault(19, put(start=3), spoils="start"), Fault(19, put(start=255), spoils="start"),
]
RECORD_FAULTS = [
    Fault(33, put(size=4), spoils="size"), Fault(33, put(size=0), spoils="size"), Fault(33, put(size=2**64 - 1), spoils="size"),
    Fault(33, put(rank=0), spoils="rank"), Fault(33, put(rank=33), spoils="rank"),
    Fault(33, put(sweeps=8)), Fault(33, put(status=3)), Fault(33, put(status=255)), Fault(33, put(standing=2**64 - 1)),
    Fault(18, put(rule=4, number=bits(1.0))), Fault(18, put(rule=4, number=NAN)),
    Fault(31, drop("lent"), "n size rank"),
]
SWEEP_FAULTS = TABLE_FAULTS + RECORD_FAULTS + [Fault(32, put(stage=1)), Fault(33, put(sweeps=7)), Fault(33, put(status=1))]
FINISH_FAULTS = TABLE_FAULTS + RECORD_FAULTS + [
    Fault(32, put(stage=0)), Fault(31, drop("draws"), "draws rank"), Fault(31, drop("b"), "n"), Fault(31, drop("dual"), "n"),
    Fault(31, drop("workspace")), Fault(19, put(width=129)), Fault(19, put(width=2**64 - 1)),
    Fault(19, put(draw_count=0), spoils="draws"), Fault(19, put(draw_count=1001), spoils="draws"),
]


def base(rng):
    t = table(2, [(0, 1, 3), (1, 0, 3), (1, 1, 2)], [-1, 4])
    settings = {"rank": 2, "rule": 2, "number": bits(0.01), "most": 7, "minimum": 2, "objective": 0, "stationarity": 0,
                "start": 0, "numbers": gen.numbers(rng, 6, "usual"), "factor": 6}
    record = {"size": 3, "rank": 2, "rule": 2, "number": bits(0.01), "sweeps": 3, "last": bits(-1.5), "objective": 0,
              "stationarity": 0, "minimum": 2, "most": 7, "stage": 0, "status": 0, "standing": 9, "factor": gen.numbers(rng, 6, "usual"), "lent": 6}
    return t, settings, record


PROBE = {
    "n": 2, **faults.BASE, "c": [-1, 4], "rank": 2, "rule": 2, "number": 0, "start": 0, "numbers": [1] * 6, "factor": 6, "size": 3, "sweeps": 3, "status": 0, "standing": 9,
    "stage": 7, "lent": 6, "draws": [1] * 2, "draw_count": 1, "b": 2, "dual": 3, "workspace": SEARCH_WORKSPACE, "width": 1}


def open_faults(t, settings, kinds):
    """Lines, each with the number that 01 gives it."""
    return [(open_line(s, s), first_number(f)) for f in kinds for s in [at_once({**t, **settings}, f)]]


def record_faults(call, record, kinds, line):
    """Lines, each with the number that 01 gives it, or None where it sets the record."""
    standing = record_line(record)
    lines = [(standing, None)]
    for f in kinds:
        s = at_once({**call, **record}, f)
        if record_line(s) != standing:
            standing = record_line(s)
            lines.append((standing, None))
        lines.append((line(s), first_number(f)))
    return lines + [(record_line(record), None)]


def faulty_sweep(s):
    return sweep_line(s, 2, s["lent"])


def faulty_finish(s):
    return finish_line(s, {**s, "factor": s["lent"]})


def fault_runs(rng):
    t, settings, record = base(rng)
    good = (open_line(t, settings), 0)
    yield [("new", None), good, *open_faults(t, settings, in_pairs(OPEN_FAULTS, PROBE)), good]
    yield [("new", None), *record_faults(t, record, in_pairs(SWEEP_FAULTS, PROBE), faulty_sweep), (sweep_line(t, 2, 6), 0)]
    stopped, finish = {**record, "stage": 1}, finish_of(rng, 3, 2)
    yield [("new", None), *record_faults({**t, **finish}, stopped, in_pairs(FINISH_FAULTS, PROBE), faulty_finish), (finish_line(t, finish), 0)]


def nan_runs(rng):
    """Each fault alone over a record and a factor of NaNs, which a refused call must leave; then accepted calls."""
    t, settings, record = base(rng)
    record.update(last=NANS[0], objective=NANS[1], stationarity=NANS[2], factor=NANS[3:])
    stopped, finish = {**record, "stage": 1}, finish_of(rng, 3, 2)
    yield [("new", None), (record_line(record), None), *open_faults(t, settings, single(OPEN_FAULTS)), (open_line(t, {**settings, "factor": 9}), 0)]
    yield [("new", None), *record_faults(t, record, single(SWEEP_FAULTS), faulty_sweep), (sweep_line(t, 2, 9), 0)]
    yield [("new", None), *record_faults({**t, **finish}, stopped, single(FINISH_FAULTS), faulty_finish),
           (finish_line(t, finish_of(rng, 3, 2, more=5)), 0)]


def edge_runs(rng):
    """Lengths at their edge, and what is just accepted."""
    t, o, record = base(rng)
    lines = [("new", None)]
    for start, most, rank in itertools.product(range(3), (0, 2), (1, 2)):
        needed = gen.start_count(start, most, 3, rank)
        for by, number in ((0, 0), (-1, 31), (4, 0)):
            given = {**o, "start": start, "most": most, "rank": rank, "numbers": gen.numbers(rng, needed + by), "factor": 3 * rank + max(by, 0)}
            lines.append((open_line(t, given), number))
    # a length that rests on a refused number
    lines.append((open_line({**t, "n": 256, "c": []}, {**o, "numbers": [], "factor": 0}), 13))
    lines.append((open_line({**t, "count": 4097, "rows": [], "cols": [], "values": []}, o), 13))
    lines.append((open_line(t, {**o, "rank": 33, "numbers": [], "factor": 0}), 17))
    lines.append((open_line(t, {**o, "start": 3, "numbers": []}), 19))
    lines.append((open_line(t, {**o, "start": 3, "numbers": [], "factor": 5}), 31))
    # the magnitude at its limit, and one above
    for extra, number in ((0, 0), (1, 16)):
        lines.append((open_line({**t, "values": [3, 3, LIMIT - 16 + extra]}, o), number))
        lines.append((open_line({**t, "values": [3, 3, -(LIMIT - 16) - extra]}, o), number))
    for beta in (0.0, -0.0, 5e-324, 1.0 - 2.0**-53):
        lines += [(open_line(t, {**o, "rule": 4, "number": bits(beta), "rank": 5, "numbers": gen.numbers(rng, 15), "factor": 15}), 0),
                  (sweep_line(t, 3, 15), 0)]
    yield lines
    stopped = {**record, "stage": 1}
    f = finish_of(rng, 3, 2, 3, 2, more=1)
    lines = [("new", None), (record_line(stopped), None)]
    for name, least in (("factor", 6), ("b", 2), ("dual", 3), ("workspace", SEARCH_WORKSPACE)):
        for length, number in ((least - 1, 31), (0, 31), (least, 0), (least + 9, 0)):
            lines.append((finish_line(t, {**f, name: length}), number))
    lines += [(finish_line(t, {**f, "draws": f["draws"][:3]}), 31), (finish_line(t, {**f, "draws": f["draws"][:4]}), 0),
              (finish_line(t, {**f, "width": 128}), 0), (sweep_line(t, 0, 6), 32), (finish_line(t, {**f, "draw_count": 0, "draws": []}), 19),
              (finish_line(t, {**f, "draw_count": 1000, "draws": gen.numbers(rng, 2000)}), 0)]
    # a record whose size or rank is refused: its factor's length isn't tested
    for change in ({"rank": 0}, {"rank": 33}, {"size": 4}):
        lines += [(record_line({**stopped, **change}), None), (finish_line(t, {**f, "factor": 0}), 33),
                  (finish_line(t, {**f, "factor": 0, "b": 1}), 31)]
    # 33 before 13, and sizes that agree though n is refused
    for n, size, number in ((256, 3, 33), (256, 257, 13), (2**64 - 2, 2**64 - 1, 13), (2**64 - 1, 0, 33), (1, 3, 33), (3, 3, 31)):
        lines += [(record_line({**stopped, "size": size}), None), (finish_line({**t, "n": n}, {**f, "factor": 0}), number),
                  (record_line({**record, "size": size}), None), (sweep_line({**t, "n": n}, 1, 0), number)]
    # open at the most: 33 for a sweep, 32 for a finish
    lines += [(record_line({**record, "sweeps": 7}), None), (sweep_line(t, 0, 6), 33), (finish_line(t, f), 32)]
    for status in range(3):
        lines += [(record_line({**stopped, "status": status, "sweeps": 0, "standing": 0}), None), (finish_line(t, f), 0)]
    yield lines


# ---- words that are too large for their field ----------------------------------------------------


def word_runs(rng):
    """Pairs of a line for the oracle and the same with words above their fields: they are read as the largest that the field holds, a rule above 4 of a record as
    a momentum that is none, a stage above 1 as stopped."""
    t, o, record = base(rng)
    stopped, finish, most = {**record, "stage": 1}, finish_of(rng, 3, 2), 2**32 - 1
    opened = lambda meant, **given: (open_line(t, {**o, **meant}), open_line(t, {**o, **given}))
    stands = lambda run, meant, **given: (record_line({**run, **meant}), record_line({**run, **given}))
    yield "new", "new"
    for x in (256, 2**32, 2**63, 2**64 - 1):
        yield opened({"rule": 255}, rule=x)
        yield opened({"start": 255}, start=x)
    for x in (2**32, 2**64 - 1):
        yield opened({"most": most}, most=x)
        yield opened({"minimum": most}, minimum=x)
        for run, line in ((record, sweep_line(t, 2, 6)), (stopped, finish_line(t, finish))):
            for name, meant in (("sweeps", most), ("most", most), ("minimum", most), ("status", 255)):
                yield stands(run, {name: meant}, **{name: x})
                yield line, line
            for rule in (5, 255, x):
                yield stands(run, {"rule": 4, "number": NAN}, rule=rule, number=0)
                yield line, line
        for stage in (2, 255, x):
            yield stands(stopped, {}, stage=stage)
            yield sweep_line(t, 2, 6), sweep_line(t, 2, 6)
            yield finish_line(t, finish), finish_line(t, finish)


def word_answers(rng):
    pairs = list(word_runs(rng))
    answers = Answered([line for line, _ in pairs])
    answers.calls = [(name, [int(w, 16) for w in words]) for name, *words in (line.split() for _, line in pairs)]
    return answers


# ---- random scripts, and the largest tables -------------------------------------------------------


def roomy(rng, line):
    """A finish of gen.py with a workspace, at times one word too small."""
    name, *rest = line.split()
    if name == "finish":
        rest[-1] = f"{SEARCH_WORKSPACE + rng.choice([0, 0, 0, 0, 0, 1, 77, -1]):016X}"
    return " ".join([name, *rest])


def changing(rng):
    """Sweeps over two tables in turn, of any size, and finishes over both."""
    n = gen.size(rng)
    rank = rng.choice([0, 0, *range(1, 33)])
    m, r, rule, start = n + 1, rank or gen.default_rank(n + 1), rng.randrange(5), rng.choice([0, 2] if rank == 0 else [0, 1, 2])
    most, minimum = gen.limits(rng, 60 if n <= 20 else 25)
    tables = [some_table(rng, n), some_table(rng, n)]
    lines = ["new", open_line(rng.choice(tables), {
        "rank": rank, "rule": rule, "number": gen.rule_number(rng, rule), "most": most, "minimum": minimum,
        "objective": gen.tolerance(rng), "stationarity": gen.tolerance(rng), "start": start,
        "numbers": gen.numbers(rng, gen.start_count(start, most, m, r)), "factor": m * r})]
    for k in rng.choice([[most], [1, 19, 40], [3, 3, 14, 1, 5], [0, most // 2, most]]):
        lines.append(sweep_line(rng.choice(tables), k, m * r + rng.choice([0, 2])))
    for t in tables:
        width = rng.choice([0, 1, 2, 5, 16]) if n > 20 else rng.choice([0, 1, 2, 7, 128])
        lines.append(finish_line(t, finish_of(rng, m, r, width, rng.choice([1, 2, 5]), rng.choice([0, 3]))))
    return lines


def random_runs(rng, count):
    """Lists of lines, each with its job where it is a whole run."""
    for k in range(count):
        if k % 4 == 0:
            yield whole(rng, rng.randint(0, 32), rng.randrange(5), rng.choice([0, 2]))
        elif k % 4 == 1:
            yield changing(rng), None
        else:
            yield [roomy(rng, line) for line in gen.script(rng)], None


def large_runs(rng, n=127, kinds=((0, 3, 21, 2048, 0), (4, 1, 3, 300, 2))):
    """On n wagons, for each (rank, rule, most, pairs, start): all sweeps in one call."""
    m, pairs = n + 1, [(i, j) for i in range(n) for j in range(i)]
    for rank, rule, most, edges, start in kinds:
        h = {}
        for i, j in rng.sample(pairs, edges):
            h[i, j] = h[j, i] = rng.randint(-100, 100)
        t = table(n, gen.entries(h), [rng.randint(-9, 9) for _ in range(n)])
        r = rank or gen.default_rank(m)
        lines = ["new", open_line(t, {
            "rank": rank, "rule": rule, "number": bits(0.001), "most": most, "minimum": 0, "objective": 0, "stationarity": bits(1e-9),
            "start": start, "numbers": gen.numbers(rng, gen.start_count(start, most, m, r), "usual"), "factor": m * r})]
        lines.append(sweep_line(t, 2**32 - 1, m * r))
        yield lines + [finish_line(t, finish_of(rng, m, r, 16, 3))]


# ---- more than 1,000 sweeps -------------------------------------------------------------------------

# Where sweep calls end: beside the checks, and where one would be due if sweeps were counted modulo 256.
ENDS = [1, 255, 256, 259, 260, 276, 512, 988, 999, 1000, 1002]


def long_script(case):
    """Calls up to the stop, one that may go on past it, and one after it."""
    ends = [0, *[end for end in ENDS if end < case.stop[1]]]
    sweeps = [(b - a, 0) for a, b in zip(ends, ends[1:])]
    return script_of(case.job, [*sweeps, (2**32 - 1, 2), (1, 2)], 2)


def counted_runs(rng):
    """A record that stands before a round count of sweeps, then one sweep a call: its last objective tells which sweeps are checked."""
    t, _, record = base(rng)
    most = 2**32 - 1
    for count in (2**8, 1000, 2**10, 10**4, 2**16, 10**6, 2**24, 2**31, most - 23):
        start = {**record, "rule": 4, "number": bits(0.99), "sweeps": count - 6, "stationarity": bits(-1.0), "minimum": 0, "most": most}
        yield [("new", None), (record_line(start), None)] + [(sweep_line(t, 1, 6), 0)] * 29


def counted_answers(rng):
    answers = judged(counted_runs(rng))
    for before, after in itertools.pairwise(answers.states):
        if before and after:
            sweeps, most = after[4], after[9]
            assert (after[5] != before[5]) == long_runs.due(sweeps, 0, most), sweeps
    return answers


def add_long(lines):
    """The cases of long_runs.py, each script under what it is."""
    found = list(long_runs.cases())
    answers = answered([long_script(case) for case in found])
    for case, result in zip(found, filter(None, answers.results), strict=True):
        assert [result[k] for k in (0, 3, 4)] == [*case.stop[:2], case.relaxed_objective()], case.text
    long_runs.telling(found)
    answers.add(lines, [case.text for case in found])


# ---- the oracle's answers ---------------------------------------------------------------------


def table_length(words):
    """How many words n, count and the four slices are."""
    at = 2
    for _ in range(4):
        at += 1 + words[at]
    return at


def cut(words, *lengths):
    """Slices and single words (1) of a call, and what is left."""
    out = []
    for length in lengths:
        count = 1 if length == 1 else 1 + words[0]
        out.append(words[0] if length == 1 else words[1:count])
        words = words[count:]
    return out, words


def in_order(record):
    """The run's words in the order of the header, where the most comes before the minimum."""
    return [*record[:8], record[9], record[8], *record[10:]]


class Answered:
    """Scripts with their answers, and what was seen."""

    def __init__(self, lines):
        self.numbers, self.results, self.states, self.seen, self.calls = [], [], [], set(), []
        for line, full in zip(lines, oracle(["run"], "".join(line + "\n" for line in lines)), strict=True):
            given, said = full.split(" = ")
            assert given == line
            name, *words = given.split()
            words, (number, *rest) = [int(w, 16) for w in words], [int(w, 16) for w in said.split()]
            state = rest[: 14 + rest[13]] if rest else []
            result = rest[len(state) :]
            if name == "finish" and words[-1] < SEARCH_WORKSPACE:
                number, result = 31, []
            self.numbers.append(number)
            self.results.append(result)
            self.states.append(state)
            self.calls.append((name, words))
            if name == "exchange":
                self.seen.add((name, number))
            if name in ("open", "sweep", "finish"):
                self.see(name, number, words[table_length(words) :], result)

    def see(self, name, number, words, result):
        self.seen.add((name, number))
        if name == "open" and number == 0:
            self.seen |= {("rank", words[0]), ("rule, start", words[1], words[7])}
        if result:
            self.seen.add(("status", result[0]))

    def add(self, lines, headings=()):
        """Writes the lines; the k-th script comes under the k-th heading."""
        headings = iter(headings)
        for (name, words), number, state, result in zip(self.calls, self.numbers, self.states, self.results):
            if name == "new":
                for text in itertools.islice(headings, 1):
                    lines.heading(text)
            elif name == "record":
                lines.run(in_order(words[:13]), words[14:])
            else:
                add_call(lines, name, words, number, state, result)


def add_call(lines, name, words, number, state, result):
    if name == "exchange":
        lines.call("exchange_rule", [], words, number, in_order(state[:13]) if number == 0 else [])
        return
    group, words = cut(words, 1, 1, 0, 0, 0, 0)
    front = state[14 : 14 + state[0] * state[1]] if number == 0 else []
    if name == "open":
        (numbers, factor), _ = cut(words[8:], 0, 1)
        lines.call(name, group, [*words[:8], numbers, factor], number, [front, *in_order(state[:13])] if number == 0 else [])
    elif name == "sweep":
        lines.call(name, group, words[:2], number, [*in_order(state[:13]), front] if number == 0 else [])
    else:
        given, _ = cut(words, 1, 1, 0, 1, 1, 1, 1)
        back = []
        if number == 0:
            (b, dual), _ = cut(result[11:], 0, 0)
            back = [bytes(b), dual, *result[:11]]
        lines.call(name, group, given, number, back)


ALL = {("rank", r) for r in range(33)} | {("status", k) for k in range(3)} | {
    ("rule, start", rule, start) for rule in range(5) for start in range(3)} | {
    (name, number) for name, numbers in (
        ("open", [0, 31, 13, 14, 15, 16, 17, 18, 19]), ("sweep", [0, 31, 32, 33, 13, 14, 15, 16, 18]),
        ("finish", [0, 31, 32, 33, 13, 14, 15, 16, 18, 19])) for number in numbers}


def answered(scripts):
    """The scripts' answers; a whole run's must be those of one call of the Rust's solver."""
    lines, ends = [], []
    for script, _ in scripts:
        lines += script
        ends.append(len(lines) - 1)
    answers = Answered(lines)
    for end, (_, job) in zip(ends, scripts):
        if job:
            hold_whole(job, answers.results[end], answers.states[end][14:])
    return answers


def hold_whole(job, result, factor):
    """`oracle trace` runs the job by one call of `solve_maxcut_sdp`, and stops where its own steps differ from that."""
    done = subprocess.run([PROGRAM, "trace"], input=bytes.fromhex(job), capture_output=True)
    assert done.returncode == 0, done.stderr
    last = {}
    for name, *words in map(str.split, done.stdout.decode().splitlines()):
        last[name] = words
    doubles = lambda words: [int(w, 16) for w in words]
    assert last["answer"] == [answer_of(result)], (job, result)
    assert doubles(last["dual_variables"]) == result[len(result) - len(last["dual_variables"]) :], (job, result)
    assert doubles(last.get("factor", last["start_factor"])) == factor, (job, factor)


def judged(scripts):
    """The answers of lines with their numbers."""
    pairs = [pair for script in scripts for pair in script]
    answers = Answered([line for line, _ in pairs])
    for (line, wanted), number in zip(pairs, answers.numbers, strict=True):
        assert wanted is None or wanted == number, (wanted, number, line)
    return answers


def add(lines):
    rng = random.Random("runs 1")
    wholes = answered(list(whole_runs(rng)))
    broken = judged([*fault_runs(rng), *edge_runs(rng)])
    rest = Answered([line for script in settings_runs(rng) for line in script])
    short = [pair for pair in random_runs(rng, 190) if sum(map(len, pair[0])) < 10000]
    others = answered(short + [(script, None) for script in large_runs(rng)])
    assert wholes.seen | broken.seen | rest.seen | others.seen == ALL
    rng = random.Random("runs 2")
    for text, answers in (
            ("whole runs", wholes), ("faults, alone and in pairs", broken), ("limits and tolerances", rest), ("random scripts, and the largest tables", others),
            ("refused calls over NaNs", judged(nan_runs(rng))), ("round counts of sweeps", counted_answers(rng)),
            ("words that are too large for their field", word_answers(rng))):
        lines.heading(text)
        answers.add(lines)
    lines.heading("more than 1,000 sweeps")
    add_long(lines)


def seeded(lines, count, seed):
    """So many random scripts, in batches."""
    rng = random.Random(f"random runs {seed}")
    for at in range(0, count, 250):
        answered(list(random_runs(rng, min(250, count - at)))).add(lines)
        yield
