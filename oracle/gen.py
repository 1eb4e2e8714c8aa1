#!/usr/bin/env python3
"""Makes inputs for the oracle: gen.py KIND COUNT SEED

    jobs, jobs-small, jobs-large   accepted job records, one per line in hexadecimal
    damaged                        jobs around every refusal number
    edges                          a fixed list at the limits; "# NN why" before each job names the
                                   number that it is refused with, 00 for none (COUNT cuts it)
    pinned, pinned-small, pinned-large, pinned-damaged
                                   the same of version 2, with pins; pinned-damaged around 21 above all
    pinned-all, pinned-none        accepted, with every wagon pinned, with none
    larger, larger-damaged         the same of version 3, most of 128 to 255 wagons, of few sweeps
    leaf, leaf-NAME                lines for `oracle leaf`, of all functions in turn or of one
    wide-NAME                      the same of one function, up to 128 signs of low rank, few entries
    full-NAME                      the same, each rank from 1 to 32 in turn (a step's rule changes every 32 lines), up to 256 signs
    leaf-edges                     a fixed list for `oracle leaf` at the limits (COUNT cuts it)
    reduced                        lines for `oracle leaf` on reduced problems, refusals included
    run                            scripts for `oracle run`; COUNT scripts

The same KIND, COUNT and SEED give the same lines. Doubles are drawn as bits, so that every NaN
pattern, infinities, subnormals and both zeros occur.
"""
import random
import struct
import sys

sys.dont_write_bytecode = True
import model  # noqa: E402

WIDE = False  # set by the kind wide-NAME: many rows, few numbers in each, few entries
FULL = None  # set by the kind full-NAME: the number of the line
SIGNS = 128  # the most signs of a table in a leaf; the kind full-NAME sets 256
LIMIT = 2**40
SIGN_LIMIT = 2**42
FRAME = 65536


def bits(x):
    return struct.unpack(">Q", struct.pack(">d", x))[0]


NANS = [0x7FF8000000000000, 0xFFF8000000000000, 0x7FF0000000000001, 0xFFFFFFFFFFFFFFFF]
INFS = [0x7FF0000000000000, 0xFFF0000000000000]
ODD = [bits(x) for x in (
    0.0, -0.0, 1.0, -1.0, 0.5, 5e-324, -5e-324, 2.0**-1022, 1e-310, 1e-160, -1e-162, 2.0**-537,
    1e154, 1.5e154, -1e200, 1.7976931348623157e308, 1e-24, 9.99e-25, 1.0 + 2.0**-52, 1.0 - 2.0**-53,
    1e16, 3.0, 1.0 / 3.0,
)]


# ---- doubles --------------------------------------------------------------------------------


def odd(rng):
    """A double of an unusual kind."""
    k = rng.randrange(10)
    if k < 2:
        return rng.choice(NANS)
    if k < 4:
        return rng.choice(INFS)
    if k < 9:
        return rng.choice(ODD)
    return rng.getrandbits(64)


def usual(rng):
    return bits(rng.gauss(0.0, 1.0))


NUMBER_STYLES = ["usual"] * 14 + ["mixed", "tiny", "huge", "zero", "whole", "odd", "subnormal"]


def numbers(rng, count, style=None):
    """Doubles of one style."""
    style = style or rng.choice(NUMBER_STYLES)
    if style == "usual":
        return [usual(rng) for _ in range(count)]
    if style == "mixed":
        return [odd(rng) if rng.random() < 0.1 else usual(rng) for _ in range(count)]
    if style == "tiny":
        scale = rng.choice([1e-12, 1e-150, 1e-162, 1e-170, 1e-300])
        return [bits(rng.gauss(0.0, scale)) for _ in range(count)]
    if style == "huge":
        scale = rng.choice([1e12, 1e150, 1e154, 1e160, 1e300])
        return [bits(rng.gauss(0.0, scale)) for _ in range(count)]
    if style == "zero":
        return [bits(rng.choice([0.0, 0.0, -0.0])) for _ in range(count)]
    if style == "whole":
        return [bits(float(rng.randint(-3, 3))) for _ in range(count)]
    if style == "odd":
        return [odd(rng) for _ in range(count)]
    return [rng.getrandbits(52) | rng.getrandbits(1) << 63 for _ in range(count)]


def factor(rng, m, rank):
    """A factor row by row; at times with some rows of another style."""
    flat = numbers(rng, m * rank)
    chance = rng.choice([0.0, 0.0, 0.0, 0.08])
    for i in range(m):
        if rng.random() < chance:
            flat[i * rank : (i + 1) * rank] = numbers(rng, rank)
    return flat


# ---- tables ---------------------------------------------------------------------------------


def value(rng, style):
    if style == "unit":
        return rng.choice([-1, 1])
    if style == "small":
        return rng.randint(-9, 9)
    if style == "zeros":
        return rng.choice([0, 0, 0, 1, -1])
    return rng.randint(-(10**6), 10**6)


def symmetric(rng, size, most_entries, style):
    """A symmetric table as a dictionary of its places, with at most so many of them."""
    density = rng.choice([0.005, 0.01] if WIDE else [0.0, 0.2, 0.5, 1.0])
    on_diagonal = rng.choice([0.0, 0.5, 1.0])
    pairs = [(i, j) for i in range(size) for j in range(i, size)
             if rng.random() < (on_diagonal if i == j else density)]
    rng.shuffle(pairs)
    table = {}
    for i, j in pairs:
        if len(table) + (1 if i == j else 2) > most_entries:
            continue
        table[i, j] = table[j, i] = value(rng, style)
    return table


def sparse(rng, size, pairs, style):
    """A symmetric table with so many pairs of places, drawn anywhere; at times a place comes twice."""
    table = {}
    for _ in range(pairs if size else 0):
        i, j = rng.randrange(size), rng.randrange(size)
        table[i, j] = table[j, i] = value(rng, style)
    return table


def entries(table):
    return [(i, j, table[i, j]) for i, j in sorted(table)]


def hall(rng, n, pairs=None):
    """Entries of H and c, accepted; where it is said how many pairs there are, no more than these."""
    style = rng.choice(["unit", "small", "small", "zeros", "large", "limit", "flat", "quiet"])
    basic = {"limit": "small", "flat": "small", "quiet": "small"}.get(style, style)
    h = symmetric(rng, n, 4096, basic) if pairs is None else sparse(rng, n, pairs, basic)
    c = [value(rng, basic) if rng.random() < 0.8 else 0 for _ in range(n)]
    if style == "flat":
        # Row sums of the absorbed table are 0 where they can be, so that no anchor entry stands.
        for i in range(n):
            row = sum(v for (r, _), v in h.items() if r == i)
            c[i] = -row // 2 if row % 2 == 0 else 0
    if style == "quiet":
        # All of the sign table's diagonal is 0: no c, stored zeros, and a total of 0.
        c = [0] * n
        for i in range(n):
            if (i, i) in h:
                h[i, i] = 0
        places = [(i, j) for i, j in h if i < j]
        for k, (i, j) in enumerate(places):
            v = abs(h[i, j]) + 1 if k % 2 == 0 else None
            if v is None:
                before = places[k - 1]
                v = -h[before]
            h[i, j] = h[j, i] = v
        if len(places) % 2 == 1:
            i, j = places[-1]
            h[i, j] = h[j, i] = 0
    if style == "limit":
        grow(h, c, rng)
    total = sum(map(abs, h.values())) + 2 * sum(map(abs, c))
    assert total <= LIMIT and len(h) <= 4096
    return entries(h), c


def grow(h, c, rng):
    """Scales the hall up so that its magnitude is 2^40, or just below where that can't be."""
    total = sum(map(abs, h.values())) + 2 * sum(map(abs, c))
    if total == 0:
        return
    scale = LIMIT // total
    for place in h:
        h[place] *= scale
    for i in range(len(c)):
        c[i] *= scale
    rest = LIMIT - total * scale
    if (0, 0) in h:
        h[0, 0] += rest if h[0, 0] >= 0 else -rest
    elif c:
        c[0] += rest // 2 if c[0] >= 0 else -(rest // 2)


def most_entries():
    """As many as a sign table of so many signs has at most."""
    return 4094 + 3 * SIGNS


def sign_table(rng, m, pairs=None):
    """A symmetric table of eighths, accepted as a sign table."""
    style = rng.choice(["unit", "small", "small", "zeros", "large", "limit", "bare", "still"])
    basic = {"limit": "small", "bare": "small", "still": "small"}.get(style, style)
    table = symmetric(rng, m, most_entries(), basic) if pairs is None else sparse(rng, m, pairs, basic)
    if style == "bare":
        table = {place: v for place, v in table.items() if place[0] != place[1]}
    if style == "still":
        for place in table:
            if place[0] == place[1]:
                table[place] = 0
    if style == "limit":
        total = sum(map(abs, table.values()))
        if total:
            scale = SIGN_LIMIT // total
            for place in table:
                table[place] *= scale
            if (0, 0) in table:
                rest = SIGN_LIMIT - total * scale
                table[0, 0] += rest if table[0, 0] >= 0 else -rest
    return entries(table)


def size(rng, kind="mixed", low=0, high=127):
    """A number of wagons, or with low 1 and high 128 of signs."""
    if kind == "small":
        return rng.randint(low, min(high, low + 6))
    if kind == "large":
        return rng.choice([high, high - 1, rng.randint(40, high)])
    k = rng.random()
    if k < 0.7:
        return rng.randint(low, low + 6)
    return rng.randint(low, 20) if k < 0.95 else rng.choice([high, rng.randint(20, high)])


def shape(rng):
    """Rows of a factor, and its rank."""
    if WIDE:
        m = rng.choice([128, 127, rng.randint(21, 128)])
        return m, rng.randint(1, 384 // m)
    if FULL is not None:
        return rng.choice([SIGNS, rng.randint(1, SIGNS), rng.randint(1, 128)]), FULL % 32 + 1
    return size(rng, low=1, high=128), rng.randint(1, 32)


def some_rank(rng, small=False):
    return rng.choice([1, 1, 2, 3, 4, 5]) if small else rng.randint(1, 32)


def default_rank(m):
    r = 0
    while r * r < 2 * m:
        r += 1
    return max(1, min(m, r + 1))


# ---- jobs -----------------------------------------------------------------------------------


MOMENTUM = [bits(x) for x in (0.0, -0.0, 0.1, 0.5, 0.9, 5e-324, 1.0 - 2.0**-53, 1e-17)]
ALPHA = [bits(x) for x in (0.01, 0.1, 0.001, 1.0, 1e-5, -0.1, 0.0, -0.0, 5.0, 1e-300, 1e300)]
TOLERANCE = [bits(x) for x in (0.0, 1e-2, 1e-4, 1e-8, -1.0, 1.0, 1e9, 5e-324)]


def rule_number(rng, rule):
    if rule == 4:
        return rng.choice(MOMENTUM) if rng.random() < 0.6 else bits(rng.random())
    return rng.choice(ALPHA) if rng.random() < 0.85 else odd(rng)


def tolerance(rng):
    return rng.choice(TOLERANCE) if rng.random() < 0.85 else odd(rng)


def limits(rng, most_sweeps):
    most = rng.choice([0, 0, 1, 2, 3, 19, 20, 21, 25, 40, 41, 60])
    most = min(most, most_sweeps)
    minimum = rng.choice([0, 1, 2, 5, 7, 19, 20, 21, most, max(0, most - 1), most + 1, 2**32 - 1])
    return most, minimum


def start_count(kind, most, m, rank):
    if kind in (0, 1):
        return m * rank
    return m + (m * rank if most > 0 and rank > 1 else 0)


def some_pins(rng, n, how):
    """Pairs of a wagon and its store, no wagon twice, in any order."""
    if how == "some":
        how = rng.choice(["one", "few", "half", "most", "any", "all", "none"])
    count = {"none": 0, "one": 1, "few": 3, "half": n // 2, "most": n - 1, "all": n}.get(how, rng.randint(0, n))
    wagons = rng.sample(range(n), max(0, min(n, count)))
    if rng.random() < 0.5:
        wagons.sort()
    stores = rng.choice([[0], [1], [0, 1], [0, 1], [0, 1]])
    return [(i, rng.choice(stores)) for i in wagons]


def job(rng, kind="mixed", pinned=None):
    """Fields of an accepted job: of version 2 where it is said how many are pinned."""
    n = size(rng, kind)
    small = kind == "small"
    rank = rng.choice([0, some_rank(rng, small)])
    start = rng.randrange(3)
    if start == 1 and rank == 0:
        rank = some_rank(rng, small)
    rule = rng.randrange(5)
    h, c = hall(rng, n)
    most, minimum = limits(rng, 60 if n <= 20 else 25)
    pins = some_pins(rng, n, pinned) if pinned else []
    m = n - len(pins) + 1
    r = rank or default_rank(m)
    while m * r * 8 > 20000:
        rank = r = rng.randint(1, 17)
    width = rng.choice([0, 1, 1, 2, 3, 7, 128, rng.randint(0, 128)])
    if n > 20:
        width = rng.choice([0, 1, 2, 5, 16, 128])
    room = FRAME - (46 + 10 * len(h) + 8 * n + 8 * start_count(start, most, m, r))
    room -= 1 + 2 * len(pins) if pinned else 0
    draws = rng.choice([1, 1, 2, 3, 5, 12]) if rng.random() < 0.98 else 1000
    draws = max(1, min(draws, room // (8 * r)))
    numbers_of_start = factor(rng, m, r) if start < 2 else (
        numbers(rng, m) + numbers(rng, start_count(2, most, m, r) - m))
    pinned = {"version": 2, "pin_count": len(pins), "pins": pins} if pinned else {"version": 1}
    return {
        **pinned, "n": n, "count": len(h), "entries": h, "c": c, "rank": rank, "rule": rule,
        "number": rule_number(rng, rule), "most": most, "minimum": minimum,
        "objective_tolerance": tolerance(rng), "stationarity_tolerance": tolerance(rng),
        "width": width, "start": start, "start_numbers": numbers_of_start,
        "draw_count": draws,
        "draws": [x for _ in range(draws) for x in numbers(rng, r)],
    }


LARGER = [128, 129, 192, 193, 240, 255]


def larger_size(rng):
    """Wagons of a job of version 3: above 127 in four of five, most often where a word of signs begins or ends."""
    k = rng.random()
    if k < 0.8:
        return rng.choice(LARGER) if k < 0.5 else rng.randint(128, 255)
    return rng.choice([0, 1, 127, rng.randint(0, 8), rng.randint(0, 127)])


def larger_job(rng):
    """Fields of an accepted job of version 3. Where the frame has no room for its start, it starts by signs and makes no sweep."""
    n = larger_size(rng)
    pairs, width = rng.choice([0, 3, n // 2, n, n, 2 * n]), rng.choice([0, 1, 1, 2, 3])
    if rng.random() < 0.04:
        width = rng.choice([16, 128, rng.randint(0, 128)])
    h, c = hall(rng, n, pairs if rng.random() < 0.98 else 2048)
    pins = some_pins(rng, n, rng.choice(["none", "one", "few", "some"]))
    m = n - len(pins) + 1
    rank, rule = rng.choice([0, 0, 1, 1, 2, 3, 32, rng.randint(1, 32)]), rng.randrange(5)
    start, most = rng.choice([0, 1, 2] if rank else [0, 2]), rng.choice([0, 0, 0, 1, 1, 2, 3, 21])
    r = rank or default_rank(m)
    room = (FRAME - 47 - 10 * len(h) - 8 * n - 2 * len(pins)) // 8 - r
    if start_count(start, most, m, r) > room:
        start, most = 2, 0
    count = start_count(start, most, m, r)
    draws = 1 + min(rng.choice([0, 0, 1, 2, 11]), (room - count) // r)
    return base(
        version=3, n=n, entries=h, c=c, pin_count=len(pins), pins=pins, rank=rank, rule=rule, number=rule_number(rng, rule),
        most=most, minimum=rng.choice([0, 1, most, most + 1, 2**32 - 1]), objective_tolerance=tolerance(rng),
        stationarity_tolerance=tolerance(rng), width=width, start=start,
        start_numbers=factor(rng, m, r) if start < 2 else numbers(rng, m) + numbers(rng, count - m),
        draw_count=draws, draws=[x for _ in range(draws) for x in numbers(rng, r)])


def u64s(values):
    return b"".join(struct.pack(">Q", x % 2**64) for x in values)


def parts(j):
    """The record's fields in order, as bytes."""
    return [
        bytes([j["version"]]), bytes([j["n"]]), struct.pack(">H", j["count"]),
        *[bytes([i, k]) + u64s([v]) for i, k, v in j["entries"]],
        *[u64s([v]) for v in j["c"]],
        *([bytes([j["pin_count"]])] if "pins" in j else []),
        *[bytes([x]) for pin in j.get("pins", []) for x in pin],
        bytes([j["rank"]]), bytes([j["rule"]]), u64s([j["number"]]),
        struct.pack(">I", j["most"]), struct.pack(">I", j["minimum"]),
        u64s([j["objective_tolerance"]]), u64s([j["stationarity_tolerance"]]),
        bytes([j["width"]]), bytes([j["start"]]), u64s(j["start_numbers"]),
        struct.pack(">H", j["draw_count"]), u64s(j["draws"]),
    ]


def frame(body):
    return struct.pack(">I", len(body)) + body


def record(j):
    return frame(b"".join(parts(j)))


# ---- damaged jobs ---------------------------------------------------------------------------


def put_entry(j, rng, change):
    """Changes one entry, if there is one."""
    if j["entries"]:
        k = rng.randrange(len(j["entries"]))
        j["entries"][k] = change(*j["entries"][k])


def asymmetric(j, rng):
    pairs = [k for k, (i, l, _) in enumerate(j["entries"]) if i != l]
    if pairs:
        k = rng.choice(pairs)
        i, l, v = j["entries"][k]
        if rng.random() < 0.5:
            j["entries"][k] = (i, l, v + 1)
        else:
            del j["entries"][k]
            j["count"] = max(0, j["count"] - 1)


def unordered(j, rng):
    if len(j["entries"]) > 1:
        k = rng.randrange(len(j["entries"]) - 1)
        e = j["entries"]
        if rng.random() < 0.5:
            e[k], e[k + 1] = e[k + 1], e[k]
        else:
            e[k + 1] = e[k]


def oversized(j, rng):
    v = rng.choice([LIMIT + 1, -(2**63), 2**63 - 1, 2**60, LIMIT])
    if j["c"] and rng.random() < 0.5:
        j["c"][rng.randrange(len(j["c"]))] = v
    else:
        put_entry(j, rng, lambda i, k, _: (i, k, v) if i == k else (i, k, _))


BAD_MOMENTUM = [bits(x) for x in (1.0, -5e-324, -1.0, 2.0)] + NANS + INFS


def bad_momentum(j, rng):
    j["rule"], j["number"] = 4, rng.choice(BAD_MOMENTUM)


DAMAGES = [
    lambda j, rng: j.update(version=rng.choice([0, 4, 4, 255])),
    lambda j, rng: j.update(n=rng.choice([128, 129, 200, 255])),
    lambda j, rng: j.update(count=rng.choice([4097, 5000, 65535])),
    lambda j, rng: j.update(count=min(65535, max(0, j["count"] + rng.choice([-1, 1])))),
    lambda j, rng: j.update(n=min(255, max(0, j["n"] + rng.choice([-1, 1])))),
    lambda j, rng: put_entry(j, rng, lambda i, k, v: (j["n"], k, v)),
    lambda j, rng: put_entry(j, rng, lambda i, k, v: (i, rng.choice([j["n"], 255]), v)),
    unordered,
    asymmetric,
    asymmetric,
    oversized,
    oversized,
    lambda j, rng: j.update(rank=rng.choice([33, 34, 255])),
    lambda j, rng: j.update(rank=0, start=1),
    lambda j, rng: j.update(rule=rng.choice([5, 6, 255])),
    bad_momentum,
    lambda j, rng: j.update(width=rng.choice([129, 200, 255])),
    lambda j, rng: j.update(start=rng.choice([3, 4, 255])),
    lambda j, rng: j.update(draw_count=rng.choice([0, 1001, 65535])),
    lambda j, rng: j.update(draw_count=min(65535, j["draw_count"] + 1)),
]


def put_pin(j, rng, change):
    """Changes one pin, if there is one."""
    if j["pins"]:
        k = rng.randrange(len(j["pins"]))
        j["pins"][k] = change(*j["pins"][k])


def pinned_twice(j, rng):
    if len(j["pins"]) > 1:
        a, b = rng.sample(range(len(j["pins"])), 2)
        j["pins"][a] = (j["pins"][b][0], rng.randrange(2))


def one_pin_more(j, rng):
    """A pin more than was meant, of any wagon: all that follows is too long or too short for the free ones."""
    j["pins"].append((rng.randrange(j["n"] + 1), rng.randrange(2)))
    j["pin_count"] = min(255, j["pin_count"] + rng.randrange(2))


PIN_DAMAGES = [
    lambda j, rng: put_pin(j, rng, lambda i, s: (min(255, rng.choice([j["n"], j["n"] + 1, 127, 128, 255])), s)),
    lambda j, rng: put_pin(j, rng, lambda i, s: (i, rng.choice([2, 3, 128, 255]))),
    lambda j, rng: put_pin(j, rng, lambda i, s: (rng.randrange(256), rng.randrange(256))),
    lambda j, rng: j.update(pin_count=min(255, max(0, j["pin_count"] + rng.choice([-1, 1])))),
    lambda j, rng: j.update(pin_count=rng.choice([0, j["n"], 255])),
    lambda j, rng: j.update(version=rng.choice([0, 1, 1, 4, 255])),
    pinned_twice,
    pinned_twice,
    one_pin_more,
]


LARGER_DAMAGES = [
    lambda j, rng: j.update(version=rng.choice([1, 1, 2, 2, 4, 4, 0, 255])),
    lambda j, rng: j.update(n=rng.choice([0, 127, 128, 254, 255])),
    lambda j, rng: put_pin(j, rng, lambda i, s: (rng.randrange(j["n"], 256), s)),
    lambda j, rng: put_pin(j, rng, lambda i, s: (rng.randrange(128, 256), s)),
    lambda j, rng: put_entry(j, rng, lambda i, k, v: (i, rng.randrange(128, 256), v)),
]


def damaged(rng, pinned=False, larger=False):
    """A damaged job, or one that is still accepted; never one that sweeps without end."""
    while True:
        data = damaged_once(rng, pinned, larger)
        try:
            if model.read_job(data)[3]["most"] <= 100:
                return data
        except model.Refused:
            return data


def damaged_once(rng, pinned, larger):
    j = larger_job(rng) if larger else job(rng, rng.choice(["small", "small", "mixed"]), "some" if pinned else None)
    for _ in range(rng.choice([0, 1, 1, 1, 2, 3])):
        damages = PIN_DAMAGES if pinned and rng.random() < (0.4 if larger else 0.7) else DAMAGES
        if larger and rng.random() < 0.3:
            damages = LARGER_DAMAGES
        rng.choice(damages)(j, rng)
    fields = parts(j)
    if pinned and rng.random() < 0.15:
        # Ends at some byte of the pins, or right behind them.
        whole = 3 + len(j["entries"]) + len(j["c"]) + rng.randrange(2 * len(j["pins"]) + 2)
        return frame(b"".join(fields[:whole]))
    k = rng.randrange(10)
    if k == 0:
        # Ends with or inside a field, the length field right.
        whole = rng.randrange(len(fields))
        last = fields[whole]
        return frame(b"".join(fields[:whole]) + last[: rng.randrange(len(last) + 1)])
    body = b"".join(fields)
    if k == 1:
        return frame(body + bytes(rng.choice([1, 2, 8])))
    if k == 2:
        return struct.pack(">I", (len(body) + rng.choice([-1, 1, 4, 2**31])) % 2**32) + body
    if k == 3:
        return frame(body)[: rng.randrange(len(body) + 4)]
    if k == 4 and rng.random() < 0.2:
        return frame(body + bytes(FRAME + rng.choice([-3, -4]) - len(body)))
    if k == 5 and body:
        at = rng.randrange(min(len(body), 60))
        return frame(body[:at] + bytes([rng.randrange(256)]) + body[at + 1 :])
    return frame(body)


# ---- the fixed list -------------------------------------------------------------------------


def one(x):
    return bits(float(x))


def base(**fields):
    """The worked example, with fields changed."""
    j = {
        "version": 1, "n": 1, "entries": [(0, 0, 2)], "c": [-3], "rank": 0, "rule": 3,
        "number": 0, "most": 0, "minimum": 0, "objective_tolerance": 0,
        "stationarity_tolerance": 0, "width": 1, "start": 2, "start_numbers": [one(1), one(1)],
        "draws": [one(1), one(0)], "draw_count": 1,
    }
    j.update(fields)
    j.setdefault("count", len(j["entries"]))
    return j


def cut(j, at):
    """The record ended after `at` bytes of its body, the length field right."""
    return frame(b"".join(parts(j))[:at])


def triple():
    h = [(0, 1, 3), (1, 0, 3)]
    return base(n=2, entries=h, c=[-1, -1], start_numbers=[one(1)] * 3,
                draws=[one(1), one(0), one(0)])


def edges():
    """Pairs of a comment, which starts with the number expected, and a record."""
    def j(text, **fields):
        return text, record(base(**fields))

    nan, inf = NANS[0], INFS[0]
    pair = [(0, 1, 5), (1, 0, 5)]
    two = {"n": 2, "c": [0, 0], "start_numbers": [one(1)] * 3, "draws": [one(1)] * 3}
    wide = {"rank": 1, "start_numbers": [one(1), one(1)], "draws": [one(1)]}
    full = {"n": 127, "entries": [(0, 0, 1)], "c": [0] * 127, "rank": 17, "start": 0,
            "start_numbers": [one(1)] * (128 * 17), "draw_count": 346,
            "draws": [one(1)] * (346 * 17)}
    body = b"".join(parts(base()))
    yield j("00 the worked example")
    yield "00 n 0", record(base(n=0, entries=[], c=[], start_numbers=[one(1)], draws=[one(1)]))
    yield "00 H_01 = H_10 = 3, c = -1, -1", record(triple())
    # 16
    yield j("00 magnitude 2^40 in H", entries=[(0, 0, LIMIT)], c=[0])
    yield j("00 magnitude 2^40 in H, negative", entries=[(0, 0, -LIMIT)], c=[0])
    yield j("00 magnitude 2^40 in c", entries=[], c=[2**39])
    yield j("00 magnitude 2^40 in both", entries=[(0, 0, LIMIT - 2)], c=[-1])
    yield j("16 magnitude 2^40 + 1", entries=[(0, 0, LIMIT + 1)], c=[0])
    yield j("16 magnitude 2^40 + 1, both", entries=[(0, 0, LIMIT - 1)], c=[1])
    yield j("16 magnitude 2^40 + 2 in c", entries=[], c=[2**39 + 1])
    yield j("16 least 64-bit number in H", entries=[(0, 0, -(2**63))], c=[0])
    yield j("16 least 64-bit number in c", c=[-(2**63)])
    yield j("16 magnitude and rank 33", entries=[(0, 0, LIMIT + 1)], rank=33)
    # 19
    yield j("00 W 128", width=128)
    yield j("00 W 0", width=0)
    yield j("19 W 129", width=129)
    yield j("19 start 3", start=3)
    yield j("19 no draws", draw_count=0, draws=[])
    yield j("19 1,001 draws", **{**wide, "draw_count": 1001, "draws": [one(1)] * 1001})
    yield j("00 1,000 draws", **{**wide, "draw_count": 1000, "draws": [one(1)] * 1000})
    # 18
    for text, number in [("-0.0", bits(-0.0)), ("least subnormal", 1),
                         ("just below 1", bits(1.0 - 2.0**-53))]:
        yield j("00 momentum " + text, rule=4, number=number)
    for text, number in [("1.0", one(1)), ("NaN", nan), ("infinite", inf), ("-inf", INFS[1]),
                         ("negative subnormal", 2**63 + 1)]:
        yield j("18 momentum " + text, rule=4, number=number)
    for rule in range(4):
        yield j(f"00 rule {rule} with NaN", rule=rule, number=nan)
    yield j("18 rule 5", rule=5)
    # 17, and its order against 18 and 19
    yield j("00 rank 32", rank=32, draws=[one(1)] * 32)
    yield j("17 rank 33", rank=33)
    yield j("17 rank 33 and rule 5", rank=33, rule=5)
    yield j("17 rank 0 with start 1", start=1)
    yield j("18 rank 0, rule 5, start 1", rule=5, start=1)
    yield j("19 rank 0, W 129, start 1", width=129, start=1)
    yield j("17 rank 0, start 1, no draws", start=1, draw_count=0)
    # 13, 14, 15
    yield j("13 n 128", n=128)
    yield "13 n 128, nothing after", frame(bytes([1, 128]))
    yield "13 4,097 entries, nothing after", frame(bytes([1, 127]) + struct.pack(">H", 4097))
    yield "11 n 127 and half a count", frame(bytes([1, 127, 16]))
    yield "14 n 0 with an entry", record(base(n=0, c=[], start_numbers=[one(1)], draws=[one(1)]))
    yield j("14 row out of range", entries=[(1, 0, 1)])
    yield j("14 column out of range", entries=[(0, 1, 1)])
    yield "11 an entry out of range, cut short", frame(bytes([1, 1, 0, 1, 9, 9, 0]))
    yield "14 the same, whole", frame(bytes([1, 1, 0, 1, 9, 9]) + bytes(8))
    yield j("14 an entry twice", entries=[(0, 0, 1), (0, 0, 1)])
    yield j("14 falling order", **{**two, "entries": [(1, 0, 5), (0, 1, 5)]})
    yield j("14 falling columns", **{**two, "entries": [(0, 1, 5), (0, 0, 5)]})
    yield j("14 out of range before a missing mirror", **{**two, "entries": [(0, 1, 5), (2, 0, 5)]})
    yield j("15 mirror absent", **{**two, "entries": pair[:1]})
    yield j("15 mirror absent below", **{**two, "entries": pair[1:]})
    yield j("15 mirror unequal", **{**two, "entries": [(0, 1, 5), (1, 0, -5)]})
    yield j("15 a stored zero without mirror", **{**two, "entries": [(0, 1, 0)]})
    yield j("15 mirror and magnitude", **{**two, "entries": [(0, 1, LIMIT + 1)]})
    yield "15 mirror absent, c cut short", frame(bytes([1, 2, 0, 1, 0, 1]) + bytes(8 + 3))
    yield "11 c cut short", frame(bytes([1, 1, 0, 0]) + bytes(7))
    yield "16 c whole, nothing after", frame(bytes([1, 1, 0, 0, 1]) + bytes(7))
    # 12
    for version in (0, 4, 255):
        yield j(f"12 version {version}", version=version)
    yield j("12 version 4 and n 128", version=4, n=128)
    # 11
    yield "11 no byte", b""
    yield "11 three bytes", bytes(3)
    yield "11 a length of 0", bytes(4)
    yield "11 wrong length and wrong version", struct.pack(">I", 91) + b"\x04" + body[1:]
    yield "11 length one less", struct.pack(">I", 91) + body
    yield "11 length one more", struct.pack(">I", 93) + body
    yield "11 a spare byte", frame(body + b"\x00")
    yield "11 a spare byte outside the frame", frame(body) + b"\x00"
    for at in (1, 2, 3, 4, 13, 14, 21, 22, 23, 24, 31, 32, 35, 39, 47, 55, 56, 57, 72, 73, 74, 91):
        yield f"11 ended after {at} bytes", cut(base(), at)
    yield "18 rule 5 ended before its number", cut(base(rule=5), 24)
    yield "19 W 129 ended before the start", cut(base(width=129), 57)
    yield "19 no draws and spare bytes", record(base(draw_count=0))
    yield "11 a draw too few", record(base(draws=[one(1)]))
    yield "00 65,536 bytes", record(base(**full))
    yield "11 65,537 bytes, length right", frame(b"".join(parts(base(**full))) + b"\x00")
    yield "11 65,537 bytes and version 4", frame(b"".join(parts(base(version=4, **full))) + b"\x00")
    # Values at their limits
    yield j("00 a warm sign 0.0", start_numbers=[0, one(1)])
    yield j("00 a warm sign -0.0", start_numbers=[bits(-0.0), one(1)])
    yield j("00 a warm sign NaN", start_numbers=[nan, one(1)])
    yield j("00 rounding 0.0", draws=[0, one(1)])
    yield j("00 a draw of zeros", draws=[0, 0])
    yield j("00 a draw with NaN", draws=[nan, 0])
    yield j("00 an infinite draw", draws=[inf, 0])
    yield j("00 a draw whose squares vanish", draws=[bits(1e-170), 0])
    yield j("00 the first of two equal draws", draw_count=2, draws=[one(1), 0, one(-1), 0])
    for most, minimum in [(1, 0), (1, 1), (1, 2), (19, 0), (20, 0), (21, 0), (41, 7), (41, 50)]:
        for rule in range(5):
            yield f"00 most {most}, minimum {minimum}, rule {rule}", record(base(
                rule=rule, number=bits(0.1), most=most, minimum=minimum,
                start_numbers=[one(1), one(-1), one(1), bits(0.5), one(-2), bits(0.25)]))
    for text, tolerance_bits in [("NaN", nan), ("inf", inf), ("-1", one(-1)), ("0", 0)]:
        for rule in range(5):
            yield f"00 tolerances {text}, rule {rule}", record(base(
                rule=rule, number=bits(0.1), most=45, objective_tolerance=tolerance_bits,
                stationarity_tolerance=tolerance_bits,
                start_numbers=[one(1), one(-1), one(1), bits(0.5), one(-2), bits(0.25)]))
    # All of the diagonal 0, with a stored zero at (0, 0) and an infinite factor element.
    quiet = {"n": 1, "entries": [(0, 0, 0)], "c": [0], "rank": 1, "start": 1,
             "start_numbers": [bits(1e-170), one(1)], "draws": [one(1)], "most": 1, "number": one(1)}
    for rule in range(5):
        number = bits(0.5) if rule == 4 else one(1)
        yield f"00 quiet diagonal, rule {rule}", record(base(**{**quiet, "rule": rule, "number": number}))


# ---- words ----------------------------------------------------------------------------------


def words(*items):
    """Lists are slices: their length, then their words."""
    text = []
    for item in items:
        values = [len(item)] + list(item) if isinstance(item, list) else [item]
        text += [f"{x % 2**64:016X}" for x in values]
    return " ".join(text)


def table_words(size, table):
    return " ".join([words(size, len(table))] + [words(*e) for e in table])


# ---- leaves ---------------------------------------------------------------------------------


def signs(rng, m):
    return [rng.randrange(2) for _ in range(m)]


def table_and_factor(rng):
    m, rank = shape(rng)
    return " ".join([table_words(m, sign_table(rng, m)), words(rank, factor(rng, m, rank))])


def leaf_sqrt(rng):
    exponent = rng.randrange(2046)
    shaped = exponent << 52 | rng.getrandbits(52)
    square = bits(float(rng.getrandbits(26) ** 2))
    near = max(0, square + rng.choice([-1, 0, 1]))
    return words(rng.choice([shaped, shaped, near, odd(rng), rng.getrandbits(52)]))


def leaf_signtable(rng):
    n = size(rng)
    h, c = hall(rng, n)
    return table_words(n, h) + " " + words(c)


def leaf_table(rng):
    m = size(rng, low=1, high=128) if not WIDE and FULL is None else shape(rng)[0]
    return table_words(m, sign_table(rng, m))


def leaf_obj_rounded(rng):
    m = size(rng, low=1, high=128)
    return table_words(m, sign_table(rng, m)) + " " + words(signs(rng, m))


def leaf_cost(rng):
    n = size(rng)
    h, c = hall(rng, n)
    return table_words(n, h) + " " + words(c, signs(rng, n))


def leaf_beam(rng):
    m = size(rng, low=1, high=128)
    width = rng.choice([0, 1, 2, 3, 128, rng.randint(0, 128)]) if m <= 20 else rng.randint(0, 4)
    return table_words(m, sign_table(rng, m)) + " " + words(width, signs(rng, m))


def leaf_dot(rng):
    k = rng.randint(0, 32)
    return words(numbers(rng, k), numbers(rng, k))


def leaf_project(rng):
    m, rank = shape(rng)
    return words(m, rank, factor(rng, m, rank))


def leaf_step(rng):
    rule = rng.randrange(5) if FULL is None else FULL // 32 % 5
    return words(rule, rule_number(rng, rule)) + " " + table_and_factor(rng)


def leaf_start(rng):
    kind, most = rng.randrange(3), rng.randrange(2)
    m, rank = shape(rng)
    count = start_count(kind, most, m, rank)
    given = factor(rng, m, rank) if kind < 2 else numbers(rng, m) + numbers(rng, count - m)
    return words(kind, most, m, rank, given)


def leaf_round(rng):
    m, rank = shape(rng)
    return words(rank, m, factor(rng, m, rank), numbers(rng, rank))


def leaf_rounded(rng):
    (m, rank), count = shape(rng), rng.randint(1, 8)
    draws = [x for _ in range(count) for x in numbers(rng, rank)]
    return " ".join([table_words(m, sign_table(rng, m)), words(rank, factor(rng, m, rank)),
                     words(count, draws)])


def leaf_sols(rng):
    (m, rank), count = shape(rng), rng.randint(0, 5)
    draws = [x for _ in range(count) for x in numbers(rng, rank)]
    return words(rank, m, factor(rng, m, rank), count, draws)


def call(rng):
    """Size, table, rank, factor of a call, and the rank that is meant; refused at times."""
    m, rank = shape(rng)
    rank = rng.choice([0, rank])
    table = sign_table(rng, m)
    spoiled = rng.random() < 0.2
    if spoiled:
        m = rng.choice([0, m, m, m, m, SIGNS + 1])
        rank = rng.choice([rank, rank, 33])
        table = spoil(rng, table, SIGN_LIMIT)
    count = rng.choice([len(table)] * 8 + [most_entries(), most_entries() + 1]) if spoiled else len(table)
    meant = rank or default_rank(min(m, SIGNS))
    lent = lent_slices(rng, table, count) if spoiled else [count] + [[e[k] for e in table] for k in range(3)]
    room = rng.choice([0, 0, 0, 1, -1]) if spoiled else rng.choice([0, 0, 3])
    f = (factor(rng, m, meant) + [bits(1.0)] * max(room, 0))[: max(0, m * meant + room)]
    return [m, *lent, rank, f], m, meant, spoiled


def answer_room(rng, m, spoiled):
    return max(0, m + (rng.choice([0, 0, 0, 1, -1]) if spoiled else rng.choice([0, 0, 2])))


def diagonal_call(rng):
    """Size, table, rank and factor of an accepted call: values and stored zeros on the diagonal; the factor's rows usual, or each of its own style."""
    style, zeros = rng.choice(["unit", "small", "small", "zeros"]), rng.choice([0.0, 0.5, 0.5, 1.0])
    if WIDE or FULL is not None:
        m, rank = shape(rng)
        table = symmetric(rng, m, most_entries() - m, style)
    else:
        m, rank = rng.randint(1, 8), rng.randint(1, 5)
        pairs = [(i, j) for j in range(m) for i in range(j) if rng.random() < 0.7]
        table = {place: v for i, j in pairs for v in [value(rng, style)] for place in [(i, j), (j, i)]}
    for i in range(m):
        table[i, i] = 0 if rng.random() < zeros else rng.choice([8, -8, rng.randint(-99, 99)])
    stored = entries(table)
    styles = rng.choice([["usual"], NUMBER_STYLES[-8:]])
    f = [x for _ in range(m) for x in numbers(rng, rank, rng.choice(styles))]
    return [m, len(stored), *[[e[k] for e in stored] for k in range(3)], rank, f], m


def leaf_dual_call(rng):
    if rng.random() < 0.6:
        given, m = diagonal_call(rng)
        return words(*given, answer_room(rng, m, False))
    given, m, _, spoiled = call(rng)
    return words(*given, answer_room(rng, m, spoiled))


def leaf_rounded_call(rng):
    given, m, meant, spoiled = call(rng)
    count = rng.choice([0, 1, 2, 1001, 2**64 - 1]) if spoiled and rng.random() < 0.3 else rng.randint(1, 6)
    draws = [x for _ in range(min(count, 6)) for x in numbers(rng, meant)]
    if spoiled and rng.random() < 0.2:
        draws = draws[:-1]
    return words(*given, count, draws, answer_room(rng, m, spoiled))


def reduced_table(rng, size_, most=60):
    places = {(rng.randrange(size_), rng.randrange(size_)) for _ in range(rng.randint(0, most))}
    limit = rng.choice([3, 1000, 2**40, 2**46])
    return [(i, j, rng.randint(-limit, limit)) for i, j in sorted(places)]


def indices(rng, size_):
    chosen = list(range(size_))
    rng.shuffle(chosen)
    chosen = chosen[: rng.choice([0, 1, size_ // 2, size_])]
    if rng.random() < 0.3:
        chosen.sort()
    fixed = [rng.randrange(size_) for _ in range(rng.randint(0, 2 * size_ + 1))] if size_ < 20 else []
    return chosen, fixed


def reduced_size(rng):
    return rng.choice([1, 2, 3, 4, 5, 8, 12, 60, 1024])


def leaf_submatrix(rng):
    n = reduced_size(rng)
    return table_words(n, reduced_table(rng, n)) + " " + words(*indices(rng, n))


def leaf_lift(rng):
    n = rng.choice([0, 1, 2, 3, 5, 9, 20])
    chosen, fixed = indices(rng, n) if n else ([], [])
    return words(n, chosen, fixed, numbers(rng, len(fixed)), numbers(rng, len(chosen)))


def lent_slices(rng, table, count):
    """Rows, columns and values, sometimes too short or with a tail."""
    slices = [[e[k] for e in table] for k in range(3)]
    for s in slices:
        change = rng.randrange(14)
        if change == 0 and s:
            s.pop()
        elif change == 1:
            s += [rng.randrange(9)] * rng.randint(1, 3)
    return [count] + slices


def spoil(rng, table, limit):
    """A table that 14, 15 or 16 may refuse."""
    table = list(table)
    k = rng.randrange(6)
    if table and k == 0:
        i = rng.randrange(len(table))
        table[i] = (table[i][0], table[i][1] + rng.choice([1, 200]), table[i][2])
    if len(table) > 1 and k == 1:
        table[0], table[1] = table[1], table[0]
    if table and k == 2:
        i = rng.randrange(len(table))
        table[i] = (table[i][0], table[i][1], rng.choice([limit + 1, limit, -(2**63), table[i][2] + 1]))
    if table and k == 3:
        del table[rng.randrange(len(table))]
    return table


def leaf_sign_table_number(rng):
    m = rng.choice([0, 1, 2, 3, 4, 128, 129, 2**64 - 1])
    table = sign_table(rng, min(m, 4)) if m else []
    if rng.random() < 0.7:
        table = spoil(rng, table, SIGN_LIMIT)
    count = rng.choice([len(table)] * 8 + [4478, 4479, 2**64 - 1])
    return words(m, *lent_slices(rng, table, count))


def leaf_submatrix_number(rng):
    n = rng.choice([0, 1, 2, 3, 5, 1024, 1025])
    table = reduced_table(rng, n, 6) if n else []
    if rng.random() < 0.3:
        table = spoil(rng, table, 2**62)
    count = rng.choice([len(table)] * 8 + [4478, 4479])
    chosen, fixed = indices(rng, n) if n else ([], [])
    spoil_indices(rng, n, chosen, fixed)
    room = [count % 5000 + rng.choice([0, 0, 0, 0, 1, -1]) for _ in range(3)]
    return words(n, *lent_slices(rng, table, count), chosen, fixed, *[max(0, x) for x in room])


def spoil_indices(rng, n, chosen, fixed):
    k = rng.randrange(8)
    if k == 0:
        chosen.append(n)
    if k == 1:
        fixed.append(rng.choice([n, n + 1]))
    if k == 2 and chosen:
        chosen.append(rng.choice(chosen))


def leaf_lift_number(rng):
    n = rng.choice([0, 1, 2, 3, 1024, 1025, 2**64 - 1])
    chosen, fixed = indices(rng, min(n, 4)) if n else ([], [])
    spoil_indices(rng, n, chosen, fixed)
    lengths = [len(fixed), len(chosen), n if n <= 1025 else 0]
    lengths = [max(0, x + rng.choice([0] * 8 + [1, -1])) for x in lengths]
    return words(n, chosen, fixed, *lengths)


LEAVES = {
    "sqrt": leaf_sqrt,
    "rank": lambda rng: words(rng.randint(1, 128)),
    "signtable": leaf_signtable,
    "obj_rounded": leaf_obj_rounded,
    "floor": leaf_table,
    "bound": leaf_table,
    "cost": leaf_cost,
    "decode": lambda rng: words(signs(rng, size(rng, low=1, high=128))),
    "beam": leaf_beam,
    "work": leaf_table,
    "prepared": leaf_table,
    "dot": leaf_dot,
    "norm": lambda rng: words(numbers(rng, rng.randint(0, 32))),
    "project": leaf_project,
    "multiply": table_and_factor,
    "obj": table_and_factor,
    "grad": table_and_factor,
    "dual": table_and_factor,
    "multipliers": table_and_factor,
    "step": leaf_step,
    "start": leaf_start,
    "check": table_and_factor,
    "round": leaf_round,
    "rounded": leaf_rounded,
    "sols": leaf_sols,
    "dual_call": leaf_dual_call,
    "divided_call": leaf_dual_call,
    "rounded_call": leaf_rounded_call,
    "submatrix": leaf_submatrix,
    "lift": leaf_lift,
    "sign_table_number": leaf_sign_table_number,
    "submatrix_number": leaf_submatrix_number,
    "lift_number": leaf_lift_number,
}
REDUCED = ["submatrix", "lift", "submatrix_number", "lift_number"]


def leaf_lines(rng, names, count):
    for k in range(count):
        name = names[k % len(names)]
        yield f"{name} {LEAVES[name](rng)}"


def wide_lines(rng, name, count):
    global WIDE
    WIDE = True
    yield from leaf_lines(rng, [name], count)
    WIDE = False


def full_lines(rng, name, count):
    global FULL, SIGNS
    SIGNS = 256
    for FULL in range(count):
        yield from leaf_lines(rng, [name], 1)
    FULL, SIGNS = None, 128


def doubles(*values):
    return [bits(float(x)) for x in values]


def leaf_edges():
    """Lines on values where a wrong order, guard or comparison shows."""
    nan, inf = float("nan"), float("inf")
    link = table_words(2, [(0, 1, 8), (1, 0, 8)])
    bare = table_words(2, [])
    for x in (2.0, 5e-324, 0.0, -0.0, -1.0, inf, -inf, nan, 1.7976931348623157e308, 2.0**-1022,
              1.0 + 2.0**-52, 1.0 - 2.0**-53, 2.0**-1073, 4.0 - 2.0**-51, 2.0**52 + 1):
        yield "sqrt " + words(bits(x))
    for m in range(1, 129):
        yield f"rank {words(m)}"
    for a, b in [((1e16, 1, -1e16), (1, 1, 1)), ((1, 1e16, -1e16), (1, 1, 1)),
                 ((0.1,) * 10, (0.1,) * 10), ((inf, 1), (0, 1)), ((-0.0,), (1,)), ((), ()),
                 ((1 + 2.0**-30, 1), (1 - 2.0**-30, -1)), ((5e-324, 5e-324), (0.5, 0.5))]:
        yield "dot " + words(doubles(*a), doubles(*b))
    for a in [(), (0, 0), (-0.0,), (3, 4), (1e200, 1), (1e-170, 0), (1e-162, 1e-162), (inf, nan),
              (-inf, 1), (nan,), (1, 1e-9, 1e-9, 1e-9, 1e-9), (1e-9, 1e-9, 1e-9, 1e-9, 1)]:
        yield "norm " + words(doubles(*a))
        if a:
            yield "project " + words(1, len(a), doubles(*a))
    yield from sign_table_edges()
    yield from step_edges(link, bare)
    yield from rounding_edges(link)
    yield from beam_edges()
    yield "submatrix " + table_words(3, [(0, 1, 5), (0, 2, 7), (2, 0, -7), (2, 2, 0)]) + " " + words([2, 0], [1])
    yield "submatrix " + table_words(2, [(0, 0, 2**53), (0, 1, 0)]) + " " + words([1, 0], [])
    yield "submatrix " + table_words(2, [(0, 0, -(2**53))]) + " " + words([0], [0, 0])
    yield "submatrix " + table_words(2, [(0, 0, 1)]) + " " + words([], [])
    yield "submatrix " + table_words(0, []) + " " + words([], [])
    yield "lift " + words(3, [2], [0, 0, 2], doubles(1, 2, 3), doubles(9))
    yield "lift " + words(0, [], [], [], [])
    yield "lift " + words(2, [], [1], doubles(nan), [])


def sign_table_edges():
    halls = [
        (0, [], []), (1, [], [0]), (1, [], [5]), (1, [(0, 0, 0)], [0]), (1, [(0, 0, 2)], [-1]),
        (1, [(0, 0, 2)], [-3]), (2, [(0, 1, 3), (1, 0, 3)], [-1, -1]),
        (2, [(0, 1, 2), (1, 0, 2)], [-1, -1]), (2, [(0, 1, 0), (1, 0, 0)], [0, 0]),
        (1, [(0, 0, LIMIT)], [0]), (1, [], [-LIMIT // 2]),
        (2, [(0, 0, 1), (0, 1, -1), (1, 0, -1), (1, 1, 1)], [0, 0]),
    ]
    for n, h, c in halls:
        yield "signtable " + table_words(n, h) + " " + words(c)
        for b in ([0] * n, [1] * n):
            yield "cost " + table_words(n, h) + " " + words(c, b)
    tables = [
        (1, []), (1, [(0, 0, 0)]), (2, [(0, 0, 0), (1, 1, 0)]), (2, [(0, 0, 0), (1, 1, -8)]),
        (2, [(0, 0, 0), (0, 1, 0), (1, 0, 0)]), (1, [(0, 0, SIGN_LIMIT)]),
        (2, [(0, 1, SIGN_LIMIT // 2), (1, 0, SIGN_LIMIT // 2)]),
        (2, [(0, 0, 1), (0, 1, 1), (1, 0, 1), (1, 1, 1)]),
    ]
    for m, table in tables:
        for name in ("floor", "bound", "work"):
            yield f"{name} {table_words(m, table)}"
        for x in ([0] * m, [1] + [0] * (m - 1)):
            yield "obj_rounded " + table_words(m, table) + " " + words(x)
    for x in ([0], [1], [0, 0], [0, 1], [1, 0], [1, 1]):
        yield "decode " + words(x)


def step_edges(link, bare):
    nan, inf = float("nan"), float("inf")
    below, above = bits(1e-24) - 1, bits(1e-24) + 1
    zero_entry = table_words(2, [(0, 0, 0), (0, 1, 8), (1, 0, 8)])
    # Rule 3's guard: the norm of row 0's gradient is row 1's number.
    for x in (below, bits(1e-24), above, bits(-1e-24), 0, bits(nan), bits(inf), bits(1e160)):
        for rule, number in [(3, 0), (4, bits(0.5)), (4, bits(-0.0)), (2, bits(0.5))]:
            yield f"step {words(rule, number)} {link} {words(1, [bits(0.25), x])}"
    # Momentum whose new row is 0: its second norm has no guard.
    yield f"step {words(4, bits(0.5))} {link} {words(1, doubles(3, -1))}"
    # Momentum 0.0 and -0.0 are rule 3: an infinite old row does not come through.
    for number in (0, bits(-0.0), 1):
        yield f"step {words(4, number)} {link} {words(2, doubles(inf, nan, 0.6, 0.8))}"
        yield f"step {words(4, number)} {link} {words(3, doubles(0.1, 0.2, 0.3, 0.7, 0.11, 0.13))}"
    # Four running sums against one.
    for rank in range(1, 33):
        shape = [1e8 if k % 5 == 2 else 1.0 + k / 7 for k in range(2 * rank)]
        for rule, number in [(3, 0), (4, bits(0.9)), (2, bits(1e-3)), (0, bits(1e-3)), (1, bits(1e-3))]:
            yield f"step {words(rule, number)} {link} {words(rank, doubles(*shape))}"
    for rule in (0, 1, 2):
        for number in (0.0, -0.0, nan, inf, 1e-300, 0.5):
            for rows in ((0, 0, 0, 0), (1, 0, 0, 1), (1, 0, -1, 0), (0, 0, 1, 0)):
                yield f"step {words(rule, bits(number))} {link} {words(2, doubles(*rows))}"
                yield f"step {words(rule, bits(number))} {bare} {words(2, doubles(*rows))}"
    # A stored zero times an infinite number.
    for name in ("multiply", "grad", "dual", "multipliers", "check", "obj"):
        for table in (link, bare, zero_entry):
            yield f"{name} {table} {words(1, doubles(inf, 1))}"
            yield f"{name} {table} {words(2, doubles(0.1, 0.2, 0.3, 0.7))}"
    for rule in range(5):
        yield f"step {words(rule, bits(0.5))} {zero_entry} {words(1, doubles(inf, 1))}"
    # (2·q)·dot against 2·(q·dot), where the products are subnormal.
    eighth = table_words(2, [(0, 1, 1), (1, 0, 1)])
    yield f"obj {eighth} {words(1, doubles(1, 1.5e-323))}"


def rounding_edges(link):
    nan, inf = float("nan"), float("inf")
    rows = doubles(1, 0, 0, 1)
    for draw in ((0, 0), (1, 0), (0, -1), (nan, 1), (inf, 1), (1e-170, 0), (1e200, 1), (-0.0, 5e-324)):
        yield "round " + words(2, 2, rows, doubles(*draw))
    yield "round " + words(1, 3, doubles(nan, inf, -inf), doubles(1))
    yield f"rounded {link} {words(2, rows, 2, doubles(1, 1, -1, -1))}"
    yield f"rounded {link} {words(2, rows, 3, doubles(1, 1, 1, -1, -1, 1))}"
    yield f"rounded {link} {words(2, rows, 1, doubles(nan, 0))}"
    for most in (0, 1):
        for rank in (1, 2):
            x = doubles(0.0, -0.0, nan, -5e-324)
            more = doubles(*range(4 * rank)) if most and rank > 1 else []
            yield "start " + words(2, most, 4, rank, x + more)
    for kind in (0, 1):
        yield "start " + words(kind, 1, 2, 2, doubles(0, 0, 3, 4))


def beam_edges():
    ring = [(i, j, 8) for i in range(5) for j in range(5) if (i - j) % 5 in (1, 4)]
    full = [(i, j, 1 if i != j else 3) for i in range(4) for j in range(4)]
    lone = [(0, 0, -7)]
    for width in (0, 1, 2, 3, 128):
        for m, table in ((5, ring), (4, full), (1, lone), (1, [])):
            for bit in (0, 1):
                yield f"beam {table_words(m, table)} {words(width, [bit] * m)}"


# ---- scripts --------------------------------------------------------------------------------


class Hall:
    """The table of a call."""

    def __init__(self, rng, n, pairs=None):
        self.n = n
        self.table, self.c = hall(rng, n, pairs)

    def lent(self, rng, bad=0.1):
        """Words of n, count and the slices; with some chance one thing is wrong."""
        n, count, table, c = self.n, len(self.table), list(self.table), list(self.c)
        if rng.random() < bad:
            k = rng.randrange(7)
            if k == 0:
                n = rng.choice([128, 200, 2**64 - 1, n + 1, max(0, n - 1)])
            elif k == 1:
                count = rng.choice([4097, 5000, 2**64 - 1, count + 1])
            elif k < 6:
                table = spoil(rng, table, LIMIT)
                count = len(table)
            elif c:
                c[0] = rng.choice([LIMIT, -(2**63), LIMIT // 2 + 1])
        if rng.random() < bad / 2 and c:
            c.pop()
        elif rng.random() < 0.1:
            c += [7, 7]
        slices = lent_slices(rng, table, count) if rng.random() < bad else [
            count, *[[e[k] for e in table] for k in range(3)]]
        return words(n, *slices, c)


def length(rng, needed, bad=0.05):
    if rng.random() < bad:
        return rng.choice([0, max(0, needed - 1)])
    return needed + rng.choice([0, 0, 0, 1, 50])


def open_line(rng, h, bad, far=False):
    """`far`: with sweeps enough that it is open for some calls."""
    m = h.n + 1
    rank, rule, start = rng.choice([0, some_rank(rng, True)]), rng.randrange(5), rng.randrange(3)
    if start == 1 and rank == 0 and rng.random() > bad:
        rank = some_rank(rng, True)
    number = rule_number(rng, rule)
    most, minimum = limits(rng, 60)
    if rng.random() < 0.1:
        most = 2**32 - 1
    if far:
        most, minimum = rng.choice([min(most + 20, 2**32 - 1), 60, 150]), rng.choice([minimum, 25, 40])
    if rng.random() < bad:
        k = rng.randrange(4)
        rank = rng.choice([33, 40, 2**64 - 1]) if k == 0 else rank
        rule = rng.choice([5, 255]) if k == 1 else rule
        start = rng.choice([3, 255]) if k == 2 else start
        if k == 3:
            rule, number = 4, rng.choice(BAD_MOMENTUM)
    r = rank if 1 <= rank <= 32 else default_rank(m)
    count = start_count(min(start, 2), most, m, r)
    given = factor(rng, m, r) if start < 2 else numbers(rng, count)
    if rng.random() < bad / 2 and given:
        given.pop()
    elif rng.random() < 0.1:
        given += numbers(rng, 3)
    line = " ".join(["open", h.lent(rng, bad), words(
        rank, rule, number, most, minimum, *(tolerance(rng) if not far or rng.random() < 0.4 else 0 for _ in range(2)), start, given,
        length(rng, m * r, bad / 2))])
    return line, m, r


def sweep_line(rng, h, m, r, few=(0, 1, 1, 2, 3, 5, 18, 19, 20, 21, 40)):
    k = rng.choice(few)
    return " ".join(["sweep", h.lent(rng), words(k, length(rng, m * r), 0)])


def finish_line(rng, h, m, r):
    width = rng.choice([0, 1, 2, 3, 128]) if rng.random() < 0.95 else rng.choice([129, 2**64 - 1])
    count = rng.choice([1, 1, 2, 5]) if rng.random() < 0.93 else rng.choice([0, 1001, 2**64 - 1])
    draws = [x for _ in range(min(count, 5)) for x in numbers(rng, r)]
    if rng.random() < 0.05 and draws:
        draws.pop()
    return " ".join(["finish", h.lent(rng), words(
        width, count, draws, length(rng, m * r), length(rng, m - 1), length(rng, m), 0)])


def exchange_line(rng):
    """Another rule, at times a bad one."""
    if rng.random() < 0.15:
        return "exchange " + words(rng.choice([5, 6, 255]), odd(rng))
    rule = rng.randrange(5)
    number = rng.choice(BAD_MOMENTUM) if rule == 4 and rng.random() < 0.3 else rule_number(rng, rule)
    return "exchange " + words(rule, odd(rng) if rule == 3 else number)


def record_line(rng, m, r):
    """A record that no run need have left."""
    rule = rng.randrange(5)
    number = rng.choice(BAD_MOMENTUM) if rule == 4 and rng.random() < 0.4 else rule_number(rng, rule)
    if rule == 3:
        number = 0
    stage, status = rng.randrange(2), rng.choice([0, 0, 0, 0, 1, 2, 3, 255])
    if stage == 0 and rng.random() < 0.8:
        status = 0
    most = rng.choice([0, 1, 5, 20, 60])
    sweeps = rng.choice([0, max(0, most - 1), most // 2, most, most + 1])
    size_ = rng.choice([m] * 8 + [0, m + 1, 2**64 - 1])
    rank = rng.choice([r] * 8 + [0, 33])
    most_rows = min(size_ * sweeps, 2**64 - 2)
    standing = rng.choice([0, 0, 0, 0, rng.randint(0, most_rows), most_rows, most_rows + 1, 2**64 - 1])
    numbers_ = factor(rng, m, r)
    return "record " + words(size_, rank, rule, number, sweeps, odd(rng), tolerance(rng),
                             tolerance(rng), rng.choice([0, 1, 5, 20]), most, stage, status, standing, numbers_)


def script(rng, n=None, pairs=None):
    """On a small hall, or on one of n wagons with so many pairs."""
    yield "new"
    h = Hall(rng, size(rng, "small") if n is None else n, pairs)
    bad = rng.choice([0.0, 0.0, 0.3])
    line, m, r = open_line(rng, h, bad)
    yield line
    if bad > 0.0:
        # Whatever became of that open, a run must stand for the calls after it.
        line, m, r = open_line(rng, h, 0.0)
        yield line
    if rng.random() < 0.25:
        yield record_line(rng, m, r)
    for _ in range(rng.randint(1, 7)):
        table = h if rng.random() < 0.7 else Hall(rng, h.n, pairs)
        yield (sweep_line if rng.random() < 0.6 else finish_line)(rng, table, m, r)
    yield finish_line(rng, h, m, r)


def exchange_script(rng):
    """A run whose rule is exchanged between its sweeps."""
    yield "new"
    h = Hall(rng, size(rng, "small"))
    line, m, r = open_line(rng, h, 0.0, True)
    yield line
    if rng.random() < 0.1:
        yield record_line(rng, m, r)
    for _ in range(rng.randint(1, 4)):
        yield sweep_line(rng, h, m, r, [1, 1, 2, 3, 5, 18])
        yield exchange_line(rng)
    for _ in range(rng.randint(2, 6)):
        table = h if rng.random() < 0.8 else Hall(rng, h.n)
        yield rng.choice([lambda: exchange_line(rng), lambda: sweep_line(rng, table, m, r), lambda: sweep_line(rng, table, m, r), lambda: finish_line(rng, table, m, r)])()
    yield sweep_line(rng, h, m, r, [150])
    yield finish_line(rng, h, m, r)


# How large the jobs of version 2 are, and how many of their wagons are pinned.
PINNED = {
    "pinned": ("mixed", "some"), "pinned-small": ("small", "some"), "pinned-large": ("large", "some"),
    "pinned-all": ("mixed", "all"), "pinned-none": ("mixed", "none"),
}

# ---- main -----------------------------------------------------------------------------------


def lines(kind, count, seed):
    rng = random.Random(f"{kind} {seed}")
    if kind in ("jobs", "jobs-small", "jobs-large"):
        sized = {"jobs": "mixed", "jobs-small": "small", "jobs-large": "large"}[kind]
        return (record(job(rng, sized)).hex().upper() for _ in range(count))
    if kind in PINNED:
        return (record(job(rng, *PINNED[kind])).hex().upper() for _ in range(count))
    if kind == "pinned-damaged":
        return (damaged(rng, True).hex().upper() or "-" for _ in range(count))
    if kind == "larger":
        return (record(larger_job(rng)).hex().upper() for _ in range(count))
    if kind == "larger-damaged":
        return (damaged(rng, True, True).hex().upper() or "-" for _ in range(count))
    if kind == "damaged":
        return (damaged(rng).hex().upper() or "-" for _ in range(count))
    if kind == "edges":
        pairs = list(edges())[:count]
        return (f"# {text}\n{data.hex().upper() or '-'}" for text, data in pairs)
    if kind == "reduced":
        return leaf_lines(rng, REDUCED, count)
    if kind == "leaf":
        return leaf_lines(rng, list(LEAVES), count)
    if kind == "leaf-edges":
        return iter(list(leaf_edges())[:count])
    if kind.startswith("leaf-") and kind[5:] in LEAVES:
        return leaf_lines(rng, [kind[5:]], count)
    if kind.startswith("wide-") and kind[5:] in LEAVES:
        return wide_lines(rng, kind[5:], count)
    if kind.startswith("full-") and kind[5:] in LEAVES:
        return full_lines(rng, kind[5:], count)
    if kind == "exchange":
        return (line for _ in range(count) for line in exchange_script(rng))
    if kind == "run":
        return (line for _ in range(count) for line in script(rng))
    sys.exit(f"gen.py: no kind {kind!r}\n{__doc__}")


def main():
    if len(sys.argv) != 4:
        sys.exit(__doc__)
    for line in lines(sys.argv[1], int(sys.argv[2]), sys.argv[3]):
        print(line)


if __name__ == "__main__":
    main()
