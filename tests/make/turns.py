"""Turns that several runs share (02, Note 11), as lines of docs/REPLAY.md.

Each hall is run alone by the oracle (`oracle run`), one sweep a call, so that record and factor after every sweep are those of the Rust's `apply_step`. After a turn
each run must stand at the bits of the run alone after as many sweeps as it got, or where it stopped. Shares are oracle/model.py's, from 02's words. The number of a run is
the oracle's: of an open one that of a sweep, of a stopped one that of a finish, which has the same but 32.

Held here too: the number that 02's order gives every fault and every pair of them; that every number, an uneven share, a stop within a turn and a turn
without an open run occur.
"""
import itertools
import random

import gen
import model
import runs
from faults import Fault, at_once, first_number, put
from lists import SEARCH_WORKSPACE, oracle
from runs import bits, table

RECORD = ["size", "rank", "rule", "number", "sweeps", "last", "objective", "stationarity", "minimum", "most", "stage", "status", "standing"]
SLICES = ["rows", "cols", "values"]
MOST_SWEEPS = 45  # of a hall
NUMBERS = [0, 25, 26, 31, 33, 13, 14, 15, 16, 18]


# ---- halls, each alone -------------------------------------------------------------------------------


def some_hall(rng, n=None, ranks=(0, 1, 2, 3, 4, 5, 17, 32)):
    """A table, and what its run is opened with."""
    if n is None:
        n = rng.choice([*range(7)] * 6 + [9, 14, 20, 31, 64, 127, 128, 200, 255])
    t = table(n, *gen.hall(rng, n, None if n < 15 else 2 * n))
    m, rule = n + 1, rng.randrange(5)
    rank = rng.choice(ranks if n < 15 else [0, 1, 2])
    r, start = rank or gen.default_rank(m), rng.choice([0, 2] if rank == 0 else [0, 1, 2])
    most, minimum = gen.limits(rng, MOST_SWEEPS if n < 15 else 12)
    style = rng.choice(["usual", "usual", None])
    return t, {
        "rank": rank, "rule": rule, "number": gen.rule_number(rng, rule), "most": most, "minimum": minimum,
        "objective": gen.tolerance(rng), "stationarity": gen.tolerance(rng), "start": start,
        "numbers": gen.numbers(rng, gen.start_count(start, most, m, r), style), "factor": m * r}


def alone(halls):
    """Of each hall the records, with their factors, after 0, 1, .. sweeps, up to the stop."""
    script = []
    for t, o in halls:
        script += ["new", runs.open_line(t, o)] + [runs.sweep_line(t, 1, o["factor"])] * o["most"]
    answers, out = runs.Answered(script), []
    for (name, _), number, state in zip(answers.calls, answers.numbers, answers.states):
        if name == "new":
            out.append([])
        elif number == 0:
            out[-1].append({**dict(zip(RECORD, state)), "factor": state[14:]})
    for (_, o), states in zip(halls, out, strict=True):
        assert states[-1]["stage"] == 1 and [s["stage"] for s in states[:-1]] == [0] * (len(states) - 1), o
        assert [s["sweeps"] for s in states] == list(range(len(states)))
    return out


# ---- a turn -----------------------------------------------------------------------------------------------


def flat(tables, records, lent=None):
    """Tables and factors one after the other. Where a slice of a run is cut, what lies behind is gone."""
    given = {"halls": [x for t in tables for x in (t["n"], t["count"])], "records": [r for r in records], "factors": []}
    for name in [*SLICES, "c"]:
        whole = list(itertools.takewhile(lambda t: t.get("cut") != name, tables))
        given[name] = [x for t in tables[: len(whole) + 1] for x in t[name]]
    for r in records:
        given["factors"] += r["factor"]
    given["lent"] = len(given["factors"]) if lent is None else lent
    return given


def words_of(record):
    return runs.in_order([record[k] for k in RECORD])


def member_lines(given):
    """For the oracle, the record and a call of each run whose parts begin within what is lent."""
    entries = costs = at = 0
    for n, count, r in zip(given["halls"][::2], given["halls"][1::2], given["records"]):
        if any(len(given[k]) < entries for k in SLICES) or len(given["c"]) < costs or given["lent"] < at:
            return
        t = {"n": n, "count": count, **{k: given[k][entries:] for k in SLICES}, "c": given["c"][costs:]}
        lent = given["lent"] - at
        yield runs.record_line(r)
        if r["stage"] == 0:
            yield runs.sweep_line(t, 0, lent)
        else:
            yield runs.finish_line(t, {"width": 1, "draw_count": 1, "draws": [0] * 64, "factor": lent, "b": 300, "dual": 300, "workspace": SEARCH_WORKSPACE})
        entries, costs, at = entries + count, costs + n, at + r["size"] * r["rank"]


def member_numbers(turns):
    """For each turn the numbers of its runs, as far as they can be asked."""
    scripts = [list(member_lines(given)) for given in turns]
    said = oracle(["run"], "".join(line + "\n" for script in scripts for line in ["new", *script]))
    numbers = [int(line.split(" = ")[1].split()[0], 16) if line.startswith(("sweep", "finish")) else None for line in said]
    out, at = [], 0
    for script in scripts:
        out.append([x for x in numbers[at + 1 : at + 1 + len(script)] if x is not None])
        at += 1 + len(script)
    return out


class Asked:
    """A list's lines to be, with the turns whose number the oracle is still to say."""

    def __init__(self):
        self.steps, self.asked, self.seen = [], [], set()

    def heading(self, text):
        self.steps.append(("heading", text))

    def exchange(self, record, rule, value, number, after):
        """An exchange of one run's rule (02, Note 12), with the number that the oracle answers and the record that it leaves."""
        self.steps.append(("exchange", record, rule, value, number, after))

    def stands(self, records):
        self.steps.append(("runs", [x for r in records for x in words_of(r)], [x for r in records for x in r["factor"]]))

    def turn(self, given, sweeps, count, after, wanted=None):
        """A turn that leaves the records so if it is accepted; `wanted` is the number that 02's order gives."""
        self.steps.append(("turn", given, sweeps, count, after, wanted, len(self.asked)))
        self.asked.append({**given, "records": given["records"] if 0 < count <= 8 and 8 <= sweeps <= 10000 else []})

    def add(self, lines):
        numbers = member_numbers(self.asked)
        for name, *step in self.steps:
            if name == "heading":
                lines.heading(*step)
            elif name == "runs":
                lines.runs(*step)
            elif name == "exchange":
                record, rule, value, number, after = step
                lines.run(words_of(record), record["factor"])
                lines.call("exchange_rule", [], [rule, value], number, [] if number else words_of(after))
            else:
                given, sweeps, count, after, wanted, k = step
                number = model.turn_number(sweeps, count, numbers[k])
                assert wanted is None or number == wanted, (number, wanted, given)
                assert number or len(numbers[k]) == count
                self.seen.add(("number", number))
                back = [] if number else [[x for r in after for x in words_of(r)], [x for r in after for x in r["factor"]]]
                lines.call("turn", [given[k] for k in ("halls", *SLICES, "c")], [count, len(given["records"]) * len(RECORD), sweeps, given["lent"]], number, back)


# ---- lists of turns ---------------------------------------------------------------------------------------


DAMAGES = [  # of a run: its record, its table, or what is lent
    lambda rng, r, t: r.update(size=rng.choice([0, r["size"] + 1, 2**64 - 1])), lambda rng, r, t: r.update(rank=rng.choice([0, 33, 2**64 - 1])),
    lambda rng, r, t: r.update(sweeps=r["most"] + 1), lambda rng, r, t: r.update(sweeps=r["most"], standing=0), lambda rng, r, t: r.update(status=rng.choice([1, 2, 3, 255])),
    lambda rng, r, t: r.update(standing=r["size"] * r["sweeps"] + 1), lambda rng, r, t: r.update(rule=4, number=rng.choice(gen.BAD_MOMENTUM)),
    lambda rng, r, t: r.update(stage=1), lambda rng, r, t: r.update(minimum=0),
    lambda rng, r, t: t.update(n=rng.choice([256, t["n"] + 1, 2**64 - 1])), lambda rng, r, t: t.update(count=rng.choice([4097, t["count"] + 1, 2**64 - 1])),
    lambda rng, r, t: t["values"] and t["values"].__setitem__(-1, 2**41), lambda rng, r, t: t["values"] and t["values"].__setitem__(0, t["values"][0] + 1),
    lambda rng, r, t: t["cols"] and t["cols"].__setitem__(0, t["n"]), lambda rng, r, t: t["rows"] and t["rows"].__setitem__(-1, 0),
    lambda rng, r, t: t["c"] and t["c"].__setitem__(0, -(2**63)),
    lambda rng, r, t: t.update(cut=rng.choice([*SLICES, "c"])),
]


def copied(tables, records):
    return [{k: list(v) if isinstance(v, list) else v for k, v in t.items()} for t in tables], [dict(r) for r in records]


def damaged(rng, asked, tables, records, sweeps):
    """One or two runs damaged; a turn; the runs as they were. A damaged record that is accepted makes no sweep here, its stage being stopped."""
    ts, rs = copied(tables, records)
    for i in sorted(rng.sample(range(len(rs)), min(len(rs), rng.choice([1, 1, 2])))):
        rng.choice(DAMAGES)(rng, rs[i], ts[i])
        if "cut" in ts[i]:
            name = ts[i]["cut"]
            ts[i][name] = ts[i][name][:-1]
    for r in rs:
        r["stage"] = 1 if rng.random() < 0.5 else r["stage"]
    given = flat(ts, rs)
    if rng.random() < 0.1:
        given["lent"] = max(0, given["lent"] - rng.choice([1, 3, given["lent"]]))
    number = model.turn_number(sweeps, len(rs), member_numbers([given])[0])
    if number == 0 and any(r["stage"] == 0 for r in rs):
        return  # it would be another run's sweeps
    asked.stands(rs)
    asked.turn(given, sweeps, len(rs), rs)
    asked.stands(records)


def some_turn(rng):
    return rng.choice([8, 9, 10, 11, 13, 16, 17, 24, 31, 40, rng.randint(8, 60), rng.randint(8, 10000), 10000])


def add_list(rng, asked, halls, states):
    """Turns until all have stopped, and one more; among them refused ones."""
    tables, places = [t for t, _ in halls], [0] * len(halls)
    now = lambda: [s[p] for s, p in zip(states, places)]
    asked.stands(now())
    for left in itertools.count():
        given, sweeps = flat(tables, now()), some_turn(rng)
        given["lent"] += rng.choice([0, 0, 0, 1, 7])
        refused = rng.random()
        if refused < 0.08:
            asked.turn(given, rng.choice([0, 7, 10001, 2**32 - 1]), rng.choice([len(halls), len(halls), 0, 9]), None, 25)
        elif refused < 0.12:
            asked.turn(given, sweeps, rng.choice([0, 9, 2**64 - 1]), None, 26)
        elif refused < 0.16:
            asked.turn({**given, "lent": rng.randrange(len(given["factors"]))}, sweeps, len(halls), None, 31)
        elif refused < 0.3:
            damaged(rng, asked, tables, now(), sweeps)
        opens = [r["stage"] == 0 for r in now()]
        shares = model.shares(sweeps, opens)
        for i, share in enumerate(shares):
            stop = len(states[i]) - 1
            if share and stop < places[i] + share:
                asked.seen.add("a stop within a turn")
            places[i] = min(stop, places[i] + share)
        if len({s for s, o in zip(shares, opens) if o}) == 2:
            asked.seen.add("uneven shares")
        asked.seen.add(("runs", len(halls)))
        asked.turn(given, sweeps, len(halls), now(), 0)
        if not any(opens):
            asked.seen.add("none open")
            return
        assert left < MOST_SWEEPS + 1


def lists(rng, count, asked, halls_of):
    halls = [halls_of(rng, k) for k in range(count)]
    states = iter(alone([hall for some in halls for hall in some]))
    for some in halls:
        add_list(rng, asked, some, list(itertools.islice(states, len(some))))


def random_halls(rng, k):
    return [some_hall(rng) for _ in range(rng.choice([1, 2, 2, 3, 3, 4, 5, 6, 7, 8]))]


# ---- faults, alone and in pairs ------------------------------------------------------------------------------

# Of a run and its table by the fields of `runs.base`; one for each number, then the others of it.
TABLE = [
    Fault(13, put(count=4097), spoils="count"), Fault(14, lambda s: s["cols"].__setitem__(2, 2)), Fault(15, lambda s: s["values"].__setitem__(0, 4)),
    Fault(16, lambda s: s["values"].__setitem__(-1, 2**40))]
OWN = [Fault(31, put(cut="values"), "count"), Fault(33, put(status=3)), *TABLE, Fault(18, put(rule=4, number=bits(1.0)))]
OTHERS = [
    *[Fault(31, put(cut=name), "count") for name in ("rows", "cols")], Fault(31, put(cut="c"), "n"), Fault(31, put(cut="factor"), "size rank"),
    *[f for f in runs.RECORD_FAULTS if f.number == 33], Fault(13, runs.wide, spoils="n"), Fault(13, put(count=2**64 - 1), spoils="count"),
    Fault(18, put(rule=4, number=runs.NAN))]
ONLY_OPEN = [Fault(33, put(sweeps=7)), Fault(33, put(status=1))]
TURN = [(25, 7, 2), (25, 10001, 2), (25, 0, 2), (26, 8, 0), (26, 8, 9), (26, 10000, 2**64 - 1), (25, 7, 0), (25, 10001, 9)]


def faulty(calls, faults):
    """Two runs with the faults of each put in."""
    tables, records = [], []
    for call, some in zip(calls, faults, strict=True):
        s = at_once({**call, "cut": ""}, some)
        if s["cut"]:
            s[s["cut"]] = s[s["cut"]][:-1]
        tables.append({k: s[k] for k in ("n", "count", *SLICES, "c", "cut")})
        records.append({k: s[k] for k in (*RECORD, "factor")})
    given = flat(tables, records)
    cut = [r for t, r in zip(tables, records) if t["cut"] == "factor"]
    if cut:
        given["lent"] = 5 if cut[0] is records[0] else 11
    return given


def add_faults(rng, asked):
    t, _, record = runs.base(rng)
    calls = [{**t, **record}, {**t, **record, "stage": 1, "status": 1, "rule": 3, "number": 0}]
    pairs = [f for f in itertools.combinations(OWN, 2)]
    of_run = [[(f,) for f in OWN + OTHERS + (ONLY_OPEN if k == 0 else [])] + pairs for k in range(2)]
    both = [((), ()), *[(f, ()) for f in of_run[0]], *[((), f) for f in of_run[1]], *[((f,), (g,)) for f, g in itertools.product(OWN, OWN)]]
    good = faulty(calls, ((), ()))
    for faults in both:
        given = faulty(calls, faults)
        asked.stands(given["records"])
        wanted = next((first_number(f) for f in faults if f), None)
        if wanted:
            asked.turn(given, rng.choice([8, 9, 10000]), 2, None, wanted)
    for number, sweeps, count in TURN:
        asked.stands(good["records"])
        asked.turn(good, sweeps, count, None, number)
        for faults in ([((f,), ()) for f in OWN] if number == 25 or sweeps == 8 else []):
            given = faulty(calls, faults)
            asked.stands(given["records"])
            asked.turn(given, sweeps, count, None, number)


def add_lengths(rng, asked):
    """Each flat slice one too short, exact, and longer; a stopped run needs no less of its own."""
    halls = [some_hall(rng, n) for n in (2, 0, 3)]
    for t, o in halls:
        o["most"] = 2
    tables, states = [t for t, _ in halls], alone(halls)
    for place in (0, -1):
        records = [s[place] for s in states]
        given = flat(tables, records)
        after = [s[-1] for s in states]
        for name in (*SLICES, "c"):
            asked.stands(records)
            if given[name]:
                asked.turn({**given, name: given[name][:-1]}, 9, 3, None, 31)
            asked.turn({**given, name: given[name] + [7]}, 9, 3, after, 0)
        for lent in (0, len(given["factors"]) - 1):
            asked.stands(records)
            asked.turn({**given, "lent": lent}, 9, 3, None, 31)


def add(lines):
    rng, asked = random.Random("turns 1"), Asked()
    asked.heading("lists of turns")
    lists(rng, 24, asked, lambda rng, k: [some_hall(rng, rng.randint(0, 4), [0, 1, 2, 3]) for _ in range(k % 8 + 1)])
    asked.heading("larger ranks and halls")
    lists(rng, 3, asked, lambda rng, k: [some_hall(rng, n, [17, 32]) for n in ((1, 2), (1, 20), (31, 0))[k]])
    asked.heading("lengths")
    add_lengths(rng, asked)
    asked.heading("faults, alone and in pairs")
    add_faults(rng, asked)
    asked.add(lines)
    wanted = {("number", k) for k in NUMBERS} | {("runs", k) for k in range(1, 9)} | {"a stop within a turn", "uneven shares", "none open"}
    assert wanted <= asked.seen, wanted - asked.seen


def seeded(lines, count, seed):
    """So many lists, in batches."""
    rng = random.Random(f"turns {seed}")
    for at in range(0, count, 50):
        asked = Asked()
        lists(rng, min(50, count - at), asked, random_halls)
        asked.add(lines)
        yield
