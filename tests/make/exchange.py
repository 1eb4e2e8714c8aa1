"""Another rule while running (02, Note 12): scripts with exchanges, answered by the oracle, whose harness drives the unchanged `apply_step` with each sweep's rule."""
import itertools
import random

import gen
import model
import runs
import turns
from faults import Fault, at_once, first_number, in_pairs, put
from runs import bits, exchange_line, finish_line, finish_of, open_line, record_line, sweep_line

BAD_NUMBERS = [bits(1.0), bits(-1e-300), runs.NAN, runs.INF, runs.MINUS_INF, bits(1.5)]
GOOD_NUMBERS = {0: bits(0.01), 1: bits(0.05), 2: bits(0.02), 3: runs.NAN, 4: bits(0.5)}


# ---- cases ------------------------------------------------------------------------------------------


def opened(rng, rule, most=60, minimum=0, objective=0, stationarity=0, n=3, rank=2):
    """A table, its m and rank, and the line that opens a run."""
    t, m = runs.some_table(rng, n), n + 1
    number = gen.rule_number(rng, rule)
    return t, m, rank, open_line(t, {"rank": rank, "rule": rule, "number": number, "most": most, "minimum": minimum, "objective": objective,
                                     "stationarity": stationarity, "start": 0, "numbers": gen.numbers(rng, m * rank, "usual"), "factor": m * rank})


def every_pair(rng):
    """Each rule exchanged for each, itself too, between sweeps; checks at 20 and 40 then go by the new rule."""
    for old, new in itertools.product(range(5), range(5)):
        t, m, r, line = opened(rng, old)
        sweeps = [sweep_line(t, k, m * r) for k in (3, 17, 25)]
        yield ["new", line, sweeps[0], exchange_line(new, GOOD_NUMBERS[new]), sweeps[1], exchange_line(old, GOOD_NUMBERS[old]), sweeps[2], sweep_line(t, 60, m * r),
               exchange_line(new, GOOD_NUMBERS[new]), finish_line(t, finish_of(rng, m, r))]


def stop_tests(rng):
    """A check's tests are those of the rule that stands at the check: with a tolerance that the objective meets, rules 0 to 2 stop, rules 3 and 4 don't."""
    for old, new in itertools.product(range(5), range(5)):
        t, m, r, line = opened(rng, old, objective=bits(1e9))
        yield ["new", line, exchange_line(new, GOOD_NUMBERS[new]), sweep_line(t, 1, m * r), exchange_line(new, GOOD_NUMBERS[new]), sweep_line(t, 30, m * r)]


def refused_between(rng):
    """Refused exchanges between sweeps, which change nothing: a rule above 4, bad momenta; before the first sweep, and after the stop."""
    bad = [(5, 0), (255, runs.NAN), *[(4, x) for x in BAD_NUMBERS]]
    t, m, r, line = opened(rng, 4, most=21)
    script = ["new", line]
    for rule, number in bad:
        script += [exchange_line(rule, number), sweep_line(t, 1, m * r)]
    yield [*script, exchange_line(4, bits(-0.0)), sweep_line(t, 40, m * r), exchange_line(0, bits(0.1)), exchange_line(9, 0)]
    t, m, r, line = opened(rng, 0, most=0)
    yield ["new", line, exchange_line(3, 0), finish_line(t, finish_of(rng, m, r))]


STOPPED = Fault(32, put(stage=1), spoils="open")
RECORD = [Fault(33, put(rank=0)), Fault(33, put(rank=33)), Fault(33, put(sweeps=8)), Fault(33, put(sweeps=7), "open"), Fault(33, put(status=3)),
          Fault(33, put(status=1), "open"), Fault(33, put(standing=10))]
RULES = [Fault(18, put(rule=4, number=bits(1.0))), Fault(18, put(new=5)), Fault(18, put(new=4, value=bits(1.0))), Fault(18, put(new=4, value=runs.NAN))]


def fault_scripts(rng):
    """Every fault of an exchange alone, and every two that change different fields; a record of any size is accepted."""
    _, _, record = runs.base(rng)
    record = {**record, "new": 3, "value": 0}
    yield [("new", None), (record_line(record), None), (exchange_line(3, 0), 0)]
    script = [("new", None)]
    for some in in_pairs([STOPPED, *RECORD, *RULES], record):
        s = at_once(record, some)
        script += [(record_line(s), None), (exchange_line(s["new"], s["value"]), first_number(some))]
    yield script
    yield [("new", None)] + [x for size in (0, 1, 256, 257, 2**64 - 1) for x in (
        (record_line({**record, "size": size, "standing": 0}), None), (exchange_line(1, bits(0.1)), 0))]


def wide_words():
    """A rule above a byte is refused as 255 is."""
    return [2**8, 2**32, 2**64 - 1]


# ---- turns after an exchange -----------------------------------------------------------------------------


def after_exchange(asked_of):
    """For each (table, record, rule, value) the number of the exchange, and the records after 0, 1, .. further sweeps of the run alone, up to its stop."""
    script = ["new"]
    for t, record, rule, value in asked_of:
        script += [record_line(record), exchange_line(rule, value)] + [sweep_line(t, 1, len(record["factor"]))] * (record["most"] - record["sweeps"])
    answers, out = runs.Answered(script), []
    for (name, _), number, state in zip(answers.calls, answers.numbers, answers.states):
        now = {**dict(zip(turns.RECORD, state)), "factor": state[14:]} if state else None
        if name == "exchange":
            out.append((number, [now]))
        elif name == "sweep" and number == 0:
            out[-1][1].append(now)
    return out


def some_exchange(rng):
    """A rule and its number, at times a bad one."""
    if rng.random() < 0.2:
        return rng.choice([(5, 0), (255, runs.NAN), (4, rng.choice(BAD_NUMBERS))])
    rule = rng.randrange(5)
    return rule, gen.rule_number(rng, rule)


def turns_after(rng, count, asked, halls_of):
    """Lists of turns: one turn, an exchange of some of the runs, refused ones and stopped runs among them, and turns of all until they have stopped."""
    some = [halls_of(rng, k) for k in range(count)]
    states = iter(turns.alone([hall for halls in some for hall in halls]))
    steps, wanted = [], []
    for halls in some:
        of = list(itertools.islice(states, len(halls)))
        sweeps = rng.choice([8, 9, 11, 16, 24])
        shares = model.shares(sweeps, [s[0]["stage"] == 0 for s in of])
        before, after = [s[0] for s in of], [s[min(share, len(s) - 1)] for s, share in zip(of, shares)]
        chosen = [(some_exchange(rng) if rng.random() < 0.7 else None) for _ in halls]
        steps.append((halls, of, sweeps, before, after, chosen))
        wanted += [(t, r, *x) for (t, _), r, x in zip(halls, after, chosen) if x]
    answers = iter(after_exchange(wanted))
    for halls, of, sweeps, before, after, chosen in steps:
        asked.stands(before)
        asked.turn(turns.flat([t for t, _ in halls], before), sweeps, len(halls), after, 0)
        later = []
        for s, r, x in zip(of, after, chosen):
            if x is None:
                later.append(s[r["sweeps"]:])
                continue
            number, new = next(answers)
            asked.seen.add(("exchange", number))
            asked.exchange(r, *x, number, new[0])
            assert number == 0 or new == s[r["sweeps"]:]
            later.append(new)
        turns.add_list(rng, asked, halls, later)


# ---- lists ------------------------------------------------------------------------------------------


def add(lines):
    rng = random.Random("exchange 1")
    seen = set()
    for text, scripts in (("every rule for every other", every_pair(rng)), ("the stop tests of the rule that stands", stop_tests(rng)), ("refused exchanges between sweeps", refused_between(rng))):
        lines.heading(text)
        made = runs.Answered([line for script in scripts for line in script])
        made.add(lines)
        seen |= made.seen
    lines.heading("faults")
    for script in fault_scripts(rng):
        made = runs.Answered([line for line, _ in script])
        assert all(wanted is None or number == wanted for number, (_, wanted) in zip(made.numbers, script)), script
        made.add(lines)
        seen |= made.seen
    lines.heading("a rule above a byte")
    _, _, record = runs.base(rng)
    made = runs.Answered(["new", record_line(record)])
    made.add(lines)
    for rule in wide_words():
        lines.call("exchange_rule", [], [rule, 0], 18, [])
    assert {("exchange", k) for k in (0, 32, 33, 18)} <= seen
    lines.heading("turns after an exchange")
    asked = turns.Asked()
    turns_after(rng, 16, asked, lambda rng, k: [turns.some_hall(rng, rng.randint(0, 4), [0, 1, 2, 3]) for _ in range(k % 8 + 1)])
    asked.add(lines)
    assert {("exchange", k) for k in (0, 32, 18)} <= asked.seen, asked.seen
    lines.heading("random scripts")
    runs.Answered([runs.roomy(rng, line) for _ in range(30) for line in gen.exchange_script(rng)]).add(lines)


def seeded(lines, count, seed):
    """So many random scripts with exchanges, and a tenth as many lists of turns after exchanges, in batches."""
    rng = random.Random(f"exchange {seed}")
    for at in range(0, count, 250):
        runs.Answered([runs.roomy(rng, line) for _ in range(min(250, count - at)) for line in gen.exchange_script(rng)]).add(lines)
        asked = turns.Asked()
        turns_after(rng, min(250, count - at) // 10, asked, turns.random_halls)
        asked.add(lines)
        yield
