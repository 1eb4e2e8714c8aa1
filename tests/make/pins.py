"""Stored jobs of version 2 (02, Note 1) with the Rust oracle's answers; and seeded ones. Where a job was made for a number, the oracle must answer that
number. oracle/model.py must answer the small ones alike. Of an accepted job the pins are kept, and none pinned is the answer of version 1."""
import random

import gen
import jobs
import model

SEED = 20261116
ONE, ZERO = gen.bits(1.0), 0
PAIR = 2, [(0, 1, 3), (1, 0, 3)], [-1, -1]


# ---- accepted jobs ---------------------------------------------------------------------------


def fields_of(rng, hall, pins, draw_count=1, start_style="usual", draw_style="usual", **given):
    """Fields of a job on the hall (n, entries, c); numbers that aren't given are drawn, as many as the free wagons ask for."""
    n, entries, c = hall
    j = gen.base(n=n, entries=entries, c=c, version=2, pins=pins, pin_count=len(pins), draw_count=draw_count, **{"start": 0, **given})
    m = n - len(pins) + 1
    rank = j["rank"] or gen.default_rank(m)
    if "start_numbers" not in given:
        j["start_numbers"] = gen.numbers(rng, gen.start_count(j["start"], j["most"], m, rank), start_style)
    if "draws" not in given:
        j["draws"] = gen.numbers(rng, draw_count * rank, draw_style)
    return j


def job(rng, hall, pins, **given):
    return gen.record(fields_of(rng, hall, pins, **given))


def worked(rng):
    """Halls worked by hand: 01's, with wagons pinned."""
    signs = lambda many: {"start": 2, "start_numbers": [ONE] * many}
    for pin in ((0, 0), (0, 1), (1, 0), (1, 1)):
        yield f"H_01 = H_10 = 3, c = -1, -1, wagon {pin[0]} pinned to {pin[1]}", job(rng, PAIR, [pin], draws=[ONE, ZERO], **signs(2))
    for store in (0, 1):
        yield f"the worked example, its wagon pinned to {store}", job(rng, (1, [(0, 0, 2)], [-3]), [(0, store)], draws=[ONE], **signs(1))
    yield "the worked example, none pinned", job(rng, (1, [(0, 0, 2)], [-3]), [], draws=[ONE, ZERO], **signs(2))
    yield "n 0, none pinned", job(rng, (0, [], []), [], draws=[ONE], **signs(1))
    for stores in ((0, 0), (0, 1), (1, 0), (1, 1)):
        yield f"both wagons pinned, to {stores[0]} and {stores[1]}", job(rng, PAIR, list(enumerate(stores)), draws=[ONE], **signs(1))
    # The reduced sign table has one entry where the whole one has eight: a cost and a row sum that fall to 0.
    yield "a cost that falls to 0", job(rng, (2, [(0, 1, 3), (1, 0, 3)], [-3, 0]), [(1, 1)], rank=1)
    yield "a row sum that falls to 0", job(rng, (3, [(0, 1, 2), (0, 2, -2), (1, 0, 2), (1, 2, 2), (2, 0, -2), (2, 1, 2)], [0, -1, 0]), [(2, 1)], rank=2)


def diagonals(rng):
    """What a pinned wagon costs by itself, once in the diagonal and once in c; a free one's diagonal stays."""
    hall = 3, [(0, 0, 5), (0, 2, -1), (1, 1, 7), (2, 0, -1), (2, 2, 9)], [2, -4, 1]
    for i in range(3):
        for store in (0, 1):
            yield f"entries on the diagonal, wagon {i} pinned to {store}", job(rng, hall, [(i, store)], rank=2, most=3)
    zeros = 3, [(0, 0, 0), (0, 1, 0), (1, 0, 0), (1, 2, 0), (2, 1, 0)], [0, 0, 0]
    for rule in range(5):
        yield f"stored zeros stay, rule {rule}", job(rng, zeros, [(2, 1)], rule=rule, number=gen.bits(0.5), most=2, start=1, rank=1, start_style="huge")


def by_rule(rng):
    turn = 0
    for rule in range(5):
        for start in range(3):
            for rank in (0, 1, 3, 8):
                turn += 1
                rank = rank or (0 if start != 1 else 6)
                n = 2 + turn % 6
                yield f"rule {rule}, start {start}, rank {rank}", job(
                    rng, jobs.some_hall(rng, n), gen.some_pins(rng, n, ("one", "half", "any")[turn % 3]), rule=rule, start=start, rank=rank,
                    most=(0, 1, 2, 20, 21, 41)[turn % 6], minimum=turn % 4, width=(0, 1, 2, 3, 7, 128, 127)[turn % 7], number=gen.rule_number(rng, rule),
                    draw_count=1 + turn % 3, objective_tolerance=gen.bits(1e-9), stationarity_tolerance=gen.bits((1e-6, -1.0)[turn % 2]))


def by_count(rng):
    """How many are free: m, and the rank that 0 means, are the reduced table's."""
    for n in (1, 2, 3, 5, 9):
        hall = jobs.dense_hall(rng, n)
        for count in range(n + 1):
            pins = [(i, rng.randrange(2)) for i in rng.sample(range(n), count)]
            yield f"n {n}, {count} pinned, rank 0", job(rng, hall, pins, start=2, most=count % 3, width=1 + count % 3)
    for free in (0, 1, 2, 7, 8, 17, 126, 127):
        pins = [(i, rng.randrange(2)) for i in rng.sample(range(127), 127 - free)]
        yield f"n 127, {free} free, rank 0", job(rng, (127, [], [1, -1, 0] * 42 + [5]), pins, start=2, width=2)


def all_pinned(rng):
    for rule in range(5):
        for start in range(3):
            for most in (0, 1, 21):
                rank = rule if start != 1 else rule + 1
                yield f"all pinned, rule {rule}, start {start}, rank {rank}, most {most}", job(
                    rng, jobs.dense_hall(rng, 4), [(i, (rule + i) % 2) for i in range(4)], rule=rule, number=gen.bits(0.5), start=start, rank=rank, most=most, draw_count=2)
    yield "all of 127 pinned to 1", job(rng, jobs.some_hall(rng, 127), [(i, 1) for i in range(127)], start=2)


def orders(rng):
    """The same pins in any order: the free wagons rise, so the answer is the same."""
    hall, pins = jobs.dense_hall(rng, 7), [(5, 1), (0, 0), (3, 1), (6, 0)]
    fields = fields_of(rng, hall, pins, rank=3, most=5, width=3, draw_count=2)
    for text, order in (("as drawn", pins), ("rising", sorted(pins)), ("falling", sorted(pins)[::-1])):
        yield f"four pins {text}", gen.record(fields | {"pins": order})


def by_width(rng):
    for width in (0, 1, 2, 3, 8, 32, 127, 128):
        for count in (1, 5):
            yield f"W {width}, {count} of 13 pinned", job(rng, jobs.dense_hall(rng, 13), gen.some_pins(rng, 13, "few")[:count], rank=2, start=2, width=width, draw_count=2)


def odd_numbers(rng):
    for style in jobs.STYLES:
        for start in range(3):
            yield f"start {start}, numbers {style}", job(
                rng, jobs.some_hall(rng, 5), gen.some_pins(rng, 5, "half"), rank=3, rule=start + 2, number=gen.bits(0.5), start=start, start_style=style, most=2)
            yield f"start {start}, draws {style}", job(
                rng, jobs.some_hall(rng, 5), gen.some_pins(rng, 5, "half"), rank=3, rule=start, number=gen.bits(0.1), start=start, draw_style=style, most=1, draw_count=3)


def limits(rng):
    """At each limit; one beyond is among the refused."""
    half = 2**39
    link = 2, [(0, 1, half), (1, 0, half)], [0, 0]
    for store in (0, 1):
        yield f"magnitude 2^40, wagon 1 pinned to {store}: all of it is left, or none", job(rng, link, [(1, store)], rank=2, most=3)
        yield f"magnitude 2^40 in a pinned wagon's cost, store {store}", job(rng, (2, [], [0, -half]), [(1, store)], rank=2, most=3)
        yield f"magnitude 2^40 in a pinned wagon's own entry, store {store}", job(rng, (2, [(1, 1, 2 * half)], [0, 0]), [(1, store)], rank=2, most=3)
        yield f"magnitude 2^40, both pinned, store {store}", job(rng, link, [(0, 1), (1, store)], rank=2, most=3)
    for n in (2, 3, 4, 6):
        for rule in (2, 3, 4):
            _, entries, c = jobs.dense_hall(rng, n)
            h = {(i, k): v for i, k, v in entries}
            gen.grow(h, c, rng)
            yield f"magnitude about 2^40, n {n}, rule {rule}", job(
                rng, (n, gen.entries(h), c), gen.some_pins(rng, n, "half"), rule=rule, number=gen.bits(1e-12), most=3, width=4, rank=2)
    yield "wagon 126 of 127 pinned", job(rng, jobs.some_hall(rng, 127), [(126, 1)], rank=1, width=2)
    yield "rank 32", job(rng, jobs.some_hall(rng, 3), [(2, 1)], rank=32, most=2)
    yield "W 128, 1,000 draws", job(rng, jobs.some_hall(rng, 3), [(2, 1)], rank=1, width=128, draw_count=1000)
    yield "4,096 entries, 60 pinned", job(rng, full_hall(rng), [(i, i % 2) for i in range(60)], rank=2, most=4, width=16)
    yield "65,535 bytes", longest(rng)


def full_hall(rng):
    """127 wagons, 4,096 entries."""
    pairs = rng.sample([(i, k) for i in range(127) for k in range(i + 1, 127)], 2048)
    h = {}
    for i, k in pairs:
        h[i, k] = h[k, i] = rng.randint(-9, 9)
    return 127, gen.entries(h), [rng.randint(-9, 9) for _ in range(127)]


def longest(rng, spare=b""):
    """The longest job, 65,535 bytes: with pins the bytes of a whole record are odd in number."""
    record = job(
        rng, (120, [(0, 0, 1), (1, 1, -2)], [1] * 120), [(i, i % 2) for i in range(0, 30, 5)], rank=9, start=2, start_numbers=[ONE] * 115, draw_count=883, draws=[ONE] * 7947)
    assert len(record) == gen.FRAME - 1
    return gen.frame(record[4:] + spare)


def large(rng):
    for rule in range(5):
        yield f"n 127, 2,048 pairs, 27 pinned, rule {rule}", job(
            rng, full_hall(rng), [(i, rng.randrange(2)) for i in rng.sample(range(127), 27)], rule=rule, number=gen.bits(0.01 if rule < 4 else 0.5), rank=9, most=25, width=32,
            draw_count=5)
    for n in (40, 60):
        yield f"n {n}, a third pinned", job(rng, jobs.some_hall(rng, n), gen.some_pins(rng, n, "all")[: n // 3], rank=3, most=5, width=16, draw_count=4)


def none_pinned(rng):
    """Jobs of version 1 with a pin count of 0 put in; what they are answered is held to what version 1 is."""
    for _ in range(40):
        j = gen.job(rng, "small")
        yield "none pinned", gen.record(j | {"version": 2, "pins": [], "pin_count": 0})


def accepted(rng):
    for group in (worked, diagonals, by_rule, by_count, all_pinned, orders, by_width, odd_numbers, limits, large, none_pinned):
        yield from ((0, text, record) for text, record in group(rng))
    yield from ((0, "any", gen.record(gen.job(rng, "small", "some"))) for _ in range(80))


# ---- refused jobs ----------------------------------------------------------------------------


def whole_job():
    """The whole job of version 1 with two pins: one free wagon, so a start and draws of two rows."""
    return jobs.whole_job() | {"version": 2, "pins": [(2, 1), (0, 0)], "pin_count": 2, "start_numbers": [ONE] * 6}


AT = jobs.FIELDS.index("rank")
FIELDS = [*jobs.FIELDS[:AT], "pin count", "wagon of pin 0", "store of pin 0", "wagon of pin 1", "store of pin 1", *jobs.FIELDS[AT:]]


def pin(k, *changed):
    pins = whole_job()["pins"]
    pins[k] = changed
    return {"pins": pins}


PIN_FAULTS = [
    *[("wagon of pin 0", 21, f"wagon {v} of 3 pinned", pin(0, v, 1)) for v in (3, 127, 128, 255)],
    *[("store of pin 0", 21, f"store {v}", pin(0, 2, v)) for v in (2, 255)],
    ("wagon of pin 1", 21, "pinned twice, to the other store", pin(1, 2, 0)),
    ("wagon of pin 1", 21, "pinned twice, to the same store", pin(1, 2, 1)),
    *[("wagon of pin 1", 21, f"then wagon {v} of 3 pinned", pin(1, v, 0)) for v in (3, 255)],
    *[("store of pin 1", 21, f"then store {v}", pin(1, 0, v)) for v in (2, 128)],
]
FAULTS = [*[f for f in jobs.FAULTS if FIELDS.index(f[0]) < AT], *PIN_FAULTS, *[f for f in jobs.FAULTS if FIELDS.index(f[0]) >= AT]]


def counts():
    """Pin counts that aren't the pins'. A pin more is read from what follows: rank, rule, the number."""
    whole = whole_job()
    yield 21, "a pin more than there are: the rank is its wagon, out of range", gen.record(whole | {"pin_count": 3, "rank": 3})
    yield 21, "a pin more than there are: the rank is its wagon, pinned", gen.record(whole | {"pin_count": 3})
    yield 21, "a pin more than there are: the rule is its store", gen.record(whole | {"pin_count": 3, "rank": 1})
    yield None, "a pin more than there are: rank and rule are a pin", gen.record(whole | {"pin_count": 3, "rank": 1, "rule": 1})
    yield None, "a pin fewer than there are", gen.record(whole | {"pin_count": 1})
    yield None, "a pin count of 0, and two pins", gen.record(whole | {"pin_count": 0})
    yield 21, "a pin count of 255", gen.record(whole | {"pin_count": 255})
    pins = [(2, 1), (0, 0), (1, 1)]
    for fourth in ((0, 0), (2, 1), (3, 0), (255, 0)):
        yield 21, f"four pins of 3 wagons, the last on {fourth[0]}", gen.record(whole | {"pins": [*pins, fourth], "pin_count": 4})
    three = gen.parts(whole | {"pins": pins, "pin_count": 4})
    yield 11, "four pins of 3 wagons, ended after three", jobs.ended(three, FIELDS.index("pin count") + 7, False)
    for wagon in (0, 127, 255):
        yield 21, f"n 0 with a pin on {wagon}", gen.frame(bytes([2, 0, 0, 0, 1, wagon, 0]))
    yield 11, "n 0, one pin announced, nothing after", gen.frame(bytes([2, 0, 0, 0, 1]))
    yield 11, "n 0, nothing after", gen.frame(bytes([2, 0, 0, 0]))
    yield 21, "n 0 with a pin out of range, ended before its store", gen.frame(bytes([2, 0, 0, 0, 1, 0]))
    yield 11, "n 0, no pin, nothing after", gen.frame(bytes([2, 0, 0, 0, 0]))
    yield 21, "n 1, its wagon pinned twice", gen.frame(bytes([2, 1, 0, 0, *bytes(8), 2, 0, 1, 0, 1]))
    yield 11, "n 1, its wagon pinned, ended before the rank", gen.frame(bytes([2, 1, 0, 0, *bytes(8), 1, 0, 1]))


def beyond(rng):
    """One beyond each limit, and a start or draws for another number of wagons than are free."""
    link = 2, [(0, 1, 2**39), (1, 0, 2**39)], [0, 1]
    yield 16, "magnitude above 2^40, none of it left without the pinned wagon", job(rng, link, [(1, 0)], rank=1)
    yield 16, "magnitude above 2^40 in a pinned wagon's cost", job(rng, (2, [], [0, 2**39 + 1]), [(1, 0)], rank=1)
    yield 16, "magnitude above 2^40 and a pin out of range", job(rng, link, [(2, 0)], rank=1, start_numbers=[], draws=[])
    yield 13, "n 128", job(rng, (128, [], [0] * 128), [(127, 0)], rank=1)
    yield 13, "n 128, ended after n", gen.frame(bytes([2, 128]))
    yield 13, "4,097 entries, nothing after", gen.frame(bytes([2, 127]) + (4097).to_bytes(2, "big"))
    yield 21, "wagon 127 of 127", job(rng, (127, [], [0] * 127), [(127, 0)], rank=1)
    yield 11, "65,536 bytes, one of them left over", longest(rng, b"\0")
    yield 11, "65,537 bytes, length right", longest(rng, bytes(2))
    hall, pins = jobs.dense_hall(rng, 5), [(1, 1), (4, 0)]
    for start in range(3):
        fields = fields_of(rng, hall, pins, rank=2, most=1, start=start)
        for more, text in ((-1, "a number of the start too few"), (1, "a number of the start too many"), (4, "a start for all wagons")):
            numbers = (fields["start_numbers"] + [ONE] * 4)[: len(fields["start_numbers"]) + more]
            yield None, f"{text}, start {start}", gen.record(fields | {"start_numbers": numbers})
        yield 11, f"a draw's number too few, start {start}", gen.record(fields | {"draws": fields["draws"][:-1]})
        yield 11, f"a draw's number too many, start {start}", gen.record(fields | {"draws": fields["draws"] + [ONE]})
    fields = fields_of(rng, jobs.dense_hall(rng, 8), [(1, 1), (4, 0)], start=2)
    yield None, "draws for the rank of all wagons", gen.record(fields | {"draws": gen.numbers(rng, gen.default_rank(9), "usual")})


def of_version_1(rng):
    """Jobs of version 1 in which the version alone is changed."""
    yield 19, "01's worked example with version 2", gen.record(gen.base(version=2))
    yield 13, "the same with n 128", gen.record(gen.base(version=2, n=128))
    whole = gen.parts(jobs.whole_job() | {"version": 2})
    yield 21, "a whole job of version 1 with version 2", gen.frame(b"".join(whole))
    yield 11, "the same, ended after the version", jobs.ended(whole, 1, False)
    yield 21, "the same, bytes left over", gen.frame(b"".join(whole) + b"\0")
    yield 11, "the same, length off by one", gen.frame(b"".join(whole))[:3] + bytes([1 + len(b"".join(whole))]) + b"".join(whole)
    yield 11, "65,537 bytes of version 2", gen.frame(bytes([2, *bytes(gen.FRAME - 4)]))
    for _ in range(10):
        yield None, "a job of version 1 with version 2", gen.record(gen.job(rng, "small") | {"version": 2})
        yield None, "a job of version 2 with version 1", gen.record(gen.job(rng, "small", "some") | {"version": 1})


def refused(rng):
    yield from jobs.Reading(whole_job, FIELDS, FAULTS).refused()
    yield from counts()
    yield from beyond(rng)
    yield from of_version_1(rng)
    for _ in range(150):
        yield None, "damaged", gen.damaged(rng, True)


# ---- the list --------------------------------------------------------------------------------


def cases():
    """Triples: the number expected or None, what it is, the record; no record twice, none that sweeps without end."""
    rng, seen = random.Random(SEED), set()
    for number, text, record in [*accepted(rng), *refused(rng)]:
        if record not in seen and (number is not None or len(record) < 3000 and jobs.ended_soon(record)):
            seen.add(record)
            yield number, text, record


def hold(record, got, answer):
    """The model's answer to a job that it can answer quickly, the pins, and version 1's answer where none is pinned."""
    if len(record) < 3000:
        assert model.answer(record) == answer, record.hex()
    if got == 0:
        n, entries, c, *_, pins = model.read_job(record)
        b = answer[60:]
        assert all(b[i] == store for i, store in pins.items()) and len(b) == n
        assert model.cost(entries, c, b) == int.from_bytes(answer[44:52], "big", signed=True)


def without_count(record):
    """The job of version 1 of one that pins none: without the pin count."""
    at = 8 + 10 * int.from_bytes(record[6:8], "big") + 8 * record[5]
    return gen.frame(b"\1" + record[5:at] + record[at + 1 :])


def add(lines):
    made = list(cases())
    answers = jobs.answers([record for _, _, record in made])
    for (number, text, record), (got, answer) in zip(made, answers):
        assert number in (None, got), (number, got, text)
        hold(record, got, answer)
        jobs.stored(lines, text, record, got, answer)
    plain = [(record, answer) for (_, _, record), (got, answer) in zip(made, answers) if got == 0 and record[4] == 2 and not model.read_job(record)[-1]]
    assert len(plain) > 40 and jobs.answers([without_count(record) for record, _ in plain]) == [(0, answer) for _, answer in plain]
    four = [answer for (_, text, _), (_, answer) in zip(made, answers) if text.startswith("four pins ") and answer[5] != 21 and len(answer) > 6]
    assert len(four) == 3 and len(set(four)) == 1


# ---- seeded jobs -------------------------------------------------------------------------------


def flipped(rng, j=None):
    """A job, small where none is given, with some bytes changed, put in or taken out, most of them at the pins; its length is right in most cases."""
    j = j or gen.job(rng, "small", "some")
    body = bytearray(b"".join(gen.parts(j)))
    pins = 4 + 10 * j["count"] + 8 * j["n"]
    for _ in range(rng.randint(1, 4)):
        at = min(len(body) - 1, pins + rng.randrange(3 + 2 * len(j["pins"]))) if rng.random() < 0.6 else rng.randrange(len(body))
        body[at : at + rng.randrange(2)] = bytes([rng.choice([0, 1, 2, 127, 128, 255, rng.randrange(256)])]) * rng.choice([1, 1, 1, 0, 2])
    data = gen.frame(bytes(body))
    return data if rng.random() < 0.95 else data[: rng.randrange(len(data) + 1)]


def at_limits(rng):
    """Magnitudes at the limit and one beyond; what the pins take out of the table doesn't lower it."""
    n = rng.randint(1, 6)
    entries, c = gen.hall(rng, n)
    h = {(i, k): v for i, k, v in entries}
    gen.grow(h, c, rng)
    c[rng.randrange(n)] += rng.choice([0, 0, 1, -1])
    rank = rng.choice([1, 2, 31, 32, 33])
    pins = gen.some_pins(rng, n, "some")
    start, most = rng.randrange(3), rng.choice([0, 1, 20, 21])
    return job(rng, (n, gen.entries(h), c), pins, rank=rank, rule=rng.randrange(5), number=gen.bits(0.5), most=most, start=start, width=rng.choice([0, 1, 128, 129]))


# Kinds with their share of the jobs, in thousandths.
KINDS = {
    "small": (380, lambda rng: gen.record(gen.job(rng, "small", "some"))),
    "damaged": (250, lambda rng: gen.damaged(rng, True)),
    "flipped": (150, flipped),
    "limits": (90, at_limits),
    "all": (50, lambda rng: gen.record(gen.job(rng, "mixed", "all"))),
    "none": (20, lambda rng: gen.record(gen.job(rng, "mixed", "none"))),
    "mixed": (56, lambda rng: gen.record(gen.job(rng, "mixed", "some"))),
    "large": (4, lambda rng: gen.record(gen.job(rng, "large", "some"))),
}
