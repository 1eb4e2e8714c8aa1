"""Stored jobs with the Rust oracle's answers. Where a job was made for a number, the oracle must answer that number.

Each job is a line with slices of just the size asked for, and two with an answer slice and a workspace a byte too short.
"""
import collections
import random

import gen
import long_runs
import model
from lists import ANSWER, WORKSPACE, oracle

SEED = 20261116
ODD_NUMBERS = [("NaN", x) for x in gen.NANS] + [("infinite", x) for x in gen.INFS]
STYLES = ["mixed", "tiny", "huge", "zero", "whole", "odd", "subnormal"]


# ---- accepted jobs ---------------------------------------------------------------------------


def job(rng, hall, draw_count=1, start_style="usual", draw_style="usual", **fields):
    """The record of a job on the hall (n, entries, c); numbers that aren't given are drawn."""
    n, entries, c = hall
    j = gen.base(n=n, entries=entries, c=c, draw_count=draw_count, **{"start": 0, **fields})
    m = n + 1
    rank = j["rank"] or gen.default_rank(m)
    if "start_numbers" not in fields:
        j["start_numbers"] = gen.numbers(rng, gen.start_count(j["start"], j["most"], m, rank), start_style)
    if "draws" not in fields:
        j["draws"] = gen.numbers(rng, draw_count * rank, draw_style)
    return gen.record(j)


def some_hall(rng, n):
    return (n, *gen.hall(rng, n))


def dense_hall(rng, n, low=-9, high=9):
    """Every pair has a cost: searches from it have several rounds."""
    h = {}
    for i in range(n):
        for k in range(i, n):
            h[i, k] = h[k, i] = rng.randint(low, high)
    return n, gen.entries(h), [rng.randint(low, high) for _ in range(n)]


def by_rule(rng):
    turn = 0
    for rule in range(5):
        for start in range(3):
            for rank in (0, 1, 2, 3, 4, 5, 9, 17):
                turn += 1
                rank = rank or (0 if start != 1 else 6)
                most, width = (0, 1, 2, 20, 21, 41)[turn % 6], (0, 1, 2, 3, 7, 128, 127)[turn % 7]
                number = gen.rule_number(rng, rule)
                yield f"rule {rule}, start {start}, rank {rank}, most {most}, W {width}", job(
                    rng, some_hall(rng, 1 + turn % 5), rule=rule, start=start, rank=rank, most=most, minimum=turn % 4, width=width, number=number,
                    draw_count=1 + turn % 3, objective_tolerance=gen.bits(1e-9), stationarity_tolerance=gen.bits((1e-6, -1.0)[turn % 2]))


def by_rank(rng):
    for rank in range(1, 33):
        yield f"rank {rank}", job(rng, some_hall(rng, 1 + rank % 4), rank=rank, rule=rank % 5, number=gen.bits(0.25), start=rank % 3, most=rank % 4, width=rank)
    for n in (0, 1, 2, 3, 4, 7, 8, 12, 17, 20, 30):
        yield f"rank 0, n {n}", job(rng, some_hall(rng, n), start=2, width=2)


def by_width(rng):
    for width in (0, 1, 2, 3, 4, 5, 8, 16, 31, 32, 64, 100, 127, 128):
        for n in (9, 13):
            yield f"W {width}, n {n}", job(rng, dense_hall(rng, n), rank=2, start=2, width=width, draw_count=2)


def ties(rng):
    for n in (3, 4, 5, 6, 8):
        ring = n, gen.entries({(i, k): 1 for i in range(n) for k in range(n) if (i - k) % n in (1, n - 1)}), [-1] * n
        full = n, gen.entries({(i, k): 2 for i in range(n) for k in range(n) if i != k}), [-n] * n
        for name, hall in (("ring", ring), ("equal pairs", full)):
            for width in (1, 3):
                draws = gen.numbers(rng, 2, "whole") * 3
                yield f"ties: {name} of {n}, W {width}, equal draws", job(rng, hall, rank=2, rule=3, most=n % 3, width=width, draw_count=3, draws=draws)


def degenerate(rng):
    halls = [("n 0", (0, [], [])), ("no entries, no costs", (3, [], [0, 0, 0])), ("no entries", (3, [], [2, 0, -5]))]
    halls += [("stored zeros", (2, [(0, 0, 0), (0, 1, 0), (1, 0, 0), (1, 1, 0)], [0, 0])), ("a diagonal of zeros", (2, [(0, 0, 0), (0, 1, 1), (1, 0, 1), (1, 1, -2)], [0, 0]))]
    for name, hall in halls:
        for rule in range(5):
            for most in (0, 1, 21):
                yield f"{name}, rule {rule}, most {most}", job(rng, hall, rule=rule, number=gen.bits(0.5), most=most, start=2, width=1)
    yield "n 127 without entries", job(rng, (127, [], [1, -1, 0] * 42 + [5]), rank=1, width=2)
    yield "n 127, one entry", job(rng, (127, [(126, 126, -3)], [0] * 127), rank=1, start=2, width=128)


def odd_settings(rng):
    hall = 2, [(0, 1, 3), (1, 0, 3), (1, 1, -4)], [-1, -1]
    for rule in range(4):
        for name, x in ODD_NUMBERS + [("zero", 0), ("-0.0", gen.bits(-0.0)), ("subnormal", 1), ("huge", gen.bits(1e300))]:
            yield f"rule {rule}, number {name}", job(rng, hall, rule=rule, number=x, most=2, start=rule % 3, rank=2)
    for x in gen.MOMENTUM:
        yield f"momentum {x:016X}", job(rng, hall, rule=4, number=x, most=21, rank=3)
    for name, x in ODD_NUMBERS + [("-1", gen.bits(-1.0)), ("0", 0), ("least subnormal", 1), ("large", gen.bits(1e9))]:
        for rule in (0, 3, 4):
            for field in ("objective_tolerance", "stationarity_tolerance"):
                yield f"rule {rule}, {field} {name}", job(rng, hall, rule=rule, number=gen.bits(0.1), most=22, rank=2, **{"stationarity_tolerance": gen.bits(-1.0), field: x})
    for most in (1, 2, 19, 20, 21, 40, 41):
        for minimum in (0, most - 1, most, most + 1, 2**32 - 1):
            yield f"most {most}, minimum {minimum}", job(rng, hall, rule=(most + minimum) % 5, number=gen.bits(0.01), most=most, minimum=minimum, rank=2, stationarity_tolerance=gen.bits(1e-2))


def odd_numbers(rng):
    for style in STYLES:
        for start in range(3):
            yield f"start {start}, numbers {style}", job(rng, some_hall(rng, 4), rank=3, rule=start + 2, number=gen.bits(0.5), start=start, start_style=style, most=2)
            yield f"start {start}, draws {style}", job(rng, some_hall(rng, 4), rank=3, rule=start, number=gen.bits(0.1), start=start, draw_style=style, most=1, draw_count=3)
    for name, x in ODD_NUMBERS:
        for start in range(3):
            yield f"start {start} of {name} alone", job(rng, some_hall(rng, 2), rank=2, start=start, most=start, start_numbers=[x] * gen.start_count(start, start, 3, 2))


def limits(rng):
    for n in (1, 2, 3, 4, 6):
        for rule in (2, 3, 4):
            _, entries, c = dense_hall(rng, n)
            h = {(i, k): v for i, k, v in entries}
            gen.grow(h, c, rng)
            yield f"magnitude about 2^40, n {n}, rule {rule}", job(rng, (n, gen.entries(h), c), rule=rule, number=gen.bits(1e-12), most=3, width=4, rank=2)


def large(rng):
    for rule in range(5):
        yield f"the large job, rule {rule}", bytes.fromhex(oracle(["problem", "job", str(rule), "17", "200", "128", "30", "1"], "")[0])
    yield "the large job without sweeps", bytes.fromhex(oracle(["problem", "job", "3", "17", "0", "128", "2", "1"], "")[0])
    for n in (40, 60, 127):
        yield f"n {n}", job(rng, some_hall(rng, n), rank=3, most=5, width=16, draw_count=4)


def accepted(rng):
    for group in (by_rule, by_rank, by_width, ties, degenerate, odd_settings, odd_numbers, limits, large):
        yield from ((0, text, record) for text, record in group(rng))
    yield from ((0, "any", gen.record(gen.job(rng, "small"))) for _ in range(60))


def long_jobs():
    """Jobs in which the checks at sweeps 256, 260 and 1,000 decide; runs.py holds that they do."""
    for case in long_runs.cases():
        yield 0, case.text, gen.record(case.job)


# ---- refused jobs ----------------------------------------------------------------------------


def whole_job():
    """A job with every field: entries 0 to 3, three costs, a start with signs and draws, two draws."""
    one = gen.bits(1.0)
    return gen.base(
        n=3, entries=[(0, 0, 2), (0, 1, -1), (1, 0, -1), (2, 2, 4)], c=[1, 0, -2], rank=2, rule=4, number=gen.bits(0.5), most=3, minimum=1,
        width=2, start=2, start_numbers=[one] * 12, draw_count=2, draws=[one] * 4)


FIELDS = ["version", "n", "count", "entry 0", "entry 1", "entry 2", "entry 3", "c 0", "c 1", "c 2", "rank", "rule", "number", "most", "minimum",
          "objective tolerance", "stationarity tolerance", "W", "start", "start numbers", "draw count", "draws"]


def entries_with(k, entry):
    entries = whole_job()["entries"]
    entries[k] = entry
    return {"entries": entries}


# The field that decides, the number, what is wrong. Fields in reading order, so the first of two faults is the earlier one's.
FAULTS = [
    *[("version", 12, f"version {v}", {"version": v}) for v in (0, 4, 255)],
    *[("n", 13, f"n {v}", {"n": v}) for v in (128, 255)],
    *[("count", 13, f"{v} entries", {"count": v}) for v in (4097, 65535)],
    ("entry 0", 14, "row out of range", entries_with(0, (3, 0, 2))),
    ("entry 1", 14, "column out of range", entries_with(1, (0, 3, -1))),
    ("entry 1", 14, "an entry twice", entries_with(1, (0, 0, 2))),
    ("entry 2", 14, "falling columns", entries_with(2, (0, 0, 1))),
    ("entry 3", 14, "falling rows", entries_with(3, (0, 2, 4))),
    ("entry 3", 15, "mirror unequal", entries_with(1, (0, 1, 1))),
    ("entry 3", 15, "mirror absent", entries_with(3, (2, 0, 4))),
    ("entry 3", 15, "mirror of a stored zero absent", entries_with(3, (1, 2, 0))),
    ("c 2", 16, "magnitude in c", {"c": [1, 2**39, 0]}),
    ("c 2", 16, "magnitude in H", entries_with(0, (0, 0, 2**40 + 1))),
    ("c 2", 16, "the least number in c", {"c": [-(2**63), 0, 0]}),
    *[("rank", 17, f"rank {v}", {"rank": v}) for v in (33, 255)],
    *[("rule", 18, f"rule {v}", {"rule": v}) for v in (5, 255)],
    *[("number", 18, f"momentum {x:016X}", {"number": x}) for x in gen.BAD_MOMENTUM],
    *[("W", 19, f"W {v}", {"width": v}) for v in (129, 255)],
    *[("start", 19, f"start {v}", {"start": v}) for v in (3, 255)],
    ("start", 17, "rank 0 with start 1", {"rank": 0, "start": 1}),
    *[("draw count", 19, f"{v} draws", {"draw_count": v}) for v in (0, 1001, 65535)],
]


def ended(parts, k, inside):
    """The record that ends before field k, or inside it; its length is right."""
    return gen.frame(b"".join(parts[:k]) + (parts[k][: len(parts[k]) // 2] if inside else b""))


def joined(own, first, later):
    """Elements that the first change changed, else the later one's."""
    return [f if f != o else l for o, f, l in zip(own, first, later)]


class Reading:
    """A whole job, its fields in reading order, and what may be wrong with them."""

    def __init__(self, whole, fields, faults):
        self.whole, self.fields, self.faults = whole, fields, faults

    def faulty(self, *changes):
        """The fields' bytes with the changes made; where two change one field, the first stands."""
        j = self.whole()
        for change in reversed(changes):
            if "entries" in change:
                change = {"entries": joined(self.whole()["entries"], change["entries"], j["entries"])}
            elif "pins" in change:
                change = {"pins": [tuple(joined(*pin)) for pin in zip(self.whole()["pins"], change["pins"], j["pins"])]}
            j.update(change)
        return gen.parts(j)

    def endings(self):
        parts = self.faulty()
        for k, field in enumerate(self.fields):
            yield 11, f"ended before {field}", ended(parts, k, False)
            if len(parts[k]) > 1:
                yield 11, f"ended inside {field}", ended(parts, k, True)
                yield 11, f"{field} without its last byte", gen.frame(b"".join(parts[:k]) + parts[k][:-1])
        body = b"".join(parts)
        for spare in (1, 8):
            yield 11, f"{spare} bytes left over", gen.frame(body + bytes(spare))
        for off in (-1, 1, 4, 2**31):
            yield 11, f"length off by {off}", (len(body) + off).to_bytes(4, "big") + body

    def one_fault(self):
        for field, number, text, change in self.faults:
            parts, k = self.faulty(change), self.fields.index(field)
            body = b"".join(parts)
            yield number, text, gen.frame(body)
            yield 11, f"{text}, ended before {field}", ended(parts, k, False)
            if len(parts[k]) > 1:
                yield 11, f"{text}, ended inside {field}", ended(parts, k, True)
            yield number, f"{text}, ended after {field}", ended(parts, k + 1, False)
            yield number, f"{text}, bytes left over", gen.frame(body + b"\0")
            yield 11, f"{text}, length off by one", (len(body) + 1).to_bytes(4, "big") + body

    def two_faults(self):
        first_of = {}
        for fault in self.faults:
            first_of.setdefault((fault[0], fault[1]), fault)
        chosen = list(first_of.values())
        for i, (_, number, text, change) in enumerate(chosen):
            for field, _, later, other in chosen[i + 1 :]:
                yield number, f"{text}, {later}", gen.frame(b"".join(self.faulty(change, other)))

    def refused(self):
        for group in (self.endings, self.one_fault, self.two_faults):
            yield from group()


def refused(rng):
    yield from Reading(whole_job, FIELDS, FAULTS).refused()
    for _ in range(120):
        yield None, "damaged", gen.damaged(rng)


# ---- the list --------------------------------------------------------------------------------


def cases():
    """Triples: the number expected or None, what it is, the record; no record twice."""
    rng = random.Random(SEED)
    seen = set()
    edges = [(int(text[:2]), text[3:], record) for text, record in gen.edges()]
    for number, text, record in [*edges, *accepted(rng), *refused(rng), *long_jobs()]:
        if record not in seen and (number is not None or len(record) < 3000):
            seen.add(record)
            yield number, text, record


def ended_soon(data):
    """Whether the job is refused, or accepted with few sweeps."""
    try:
        return model.read_job(data)[3]["most"] <= 100
    except model.Refused:
        return True


def answers(records):
    """Pairs of a number and an answer record."""
    lines = oracle(["answers"], "".join((record.hex().upper() or "-") + "\n" for record in records))
    assert len(lines) == len(records)
    return [(int(line[10:], 16) if len(line) == 12 else 0, bytes.fromhex(line)) for line in lines]


def stored(lines, text, record, number, answer):
    lines.heading(f"{number:02} {text}")
    lines.call("answer", [record], [WORKSPACE, ANSWER], number, [answer])
    lines.call("answer", [record], [WORKSPACE, ANSWER - 1], 31, [b""])
    lines.call("answer", [record], [WORKSPACE - 1, ANSWER], 31, [b""])


def add(lines):
    """Writes the list; gives the jobs' count by number."""
    made, counts = list(cases()), collections.Counter()
    for (number, text, record), (got, answer) in zip(made, answers([record for _, _, record in made])):
        assert number in (None, got), (number, got, text)
        counts[got] += 1
        stored(lines, text, record, got, answer)
    return counts
