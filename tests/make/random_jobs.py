"""Seeded jobs of many kinds with the oracle's answers, for a comparison at scale."""
import collections
import random
import struct
import subprocess

import gen
import jobs
import larger
import pins
from lists import ANSWER, PROGRAM, WORKSPACE

BATCH = 500


def job(rng, hall, rank, **fields):
    """A record on the hall (entries, c), with numbers of the styles given."""
    entries, c = hall
    m, most, start = len(c) + 1, fields.get("most", 0), fields.setdefault("start", rng.randrange(3))
    draws, style = fields.setdefault("draw_count", rng.randint(1, 4)), fields.pop("style", None)
    return gen.record(gen.base(
        n=len(c), entries=entries, c=c, rank=rank, start_numbers=gen.numbers(rng, gen.start_count(start, most, m, rank), style),
        **{"draws": gen.numbers(rng, draws * rank, style), **fields}))


def flipped(rng):
    """A small job with some bytes changed, put in or taken out; its length is right in most cases."""
    body = bytearray(gen.record(gen.job(rng, "small"))[4:])
    for _ in range(rng.randint(1, 4)):
        at = rng.randrange(len(body)) if body else 0
        body[at : at + rng.randrange(2)] = bytes([rng.choice([0, 1, 127, 128, 255, rng.randrange(256)])]) * rng.choice([1, 1, 1, 0, 2])
    data = gen.frame(bytes(body))
    return data if rng.random() < 0.95 else data[: rng.randrange(len(data) + 1)]


def ties(rng):
    """Halls in which many choices cost the same, and draws that round alike."""
    n = rng.randint(2, 12)
    value, ring = rng.choice([-1, 1, 2]), rng.random() < 0.5
    h = {(i, k): value for i in range(n) for k in range(n) if i != k and (not ring or (i - k) % n in (1, n - 1))}
    rank = rng.randint(1, 3)
    return job(rng, (gen.entries(h), [rng.choice([0, 0, -value])] * n), rank, rule=rng.randrange(2, 5), most=rng.choice([0, 0, 1, 2]), style="whole",
               width=rng.choice([0, 1, 2, 3, 5, 16, 128]), draw_count=rng.randint(1, 6))


def odd_numbers(rng):
    """Subnormal, tiny, huge and NaN numbers in every place."""
    style, rule = rng.choice(["subnormal", "tiny", "huge", "zero", "odd", "mixed"]), rng.randrange(5)
    number = rng.choice(gen.MOMENTUM) if rule == 4 else rng.choice([gen.odd(rng), rng.getrandbits(52)])
    n = rng.randint(0, 6)
    return job(rng, gen.hall(rng, n), rng.randint(1, 6), rule=rule, number=number, most=rng.choice([0, 1, 2, 3, 21]), minimum=rng.randrange(4), style=style,
               objective_tolerance=gen.odd(rng), stationarity_tolerance=gen.odd(rng), width=rng.choice([0, 1, 4]))


def limits(rng):
    """Jobs at a limit, on either side of it."""
    n = rng.randint(1, 5)
    entries, c = gen.hall(rng, n)
    h = {(i, k): v for i, k, v in entries}
    if rng.random() < 0.6:
        gen.grow(h, c, rng)
    over = rng.choice([0, 0, 1, -1, 2**62])
    if (0, 0) in h:
        h[0, 0] += over
    else:
        c[0] += over
    rank, most = rng.choice([1, 2, 31, 32, 32, 33]), rng.choice([0, 1, 19, 20, 21, 40, 41])
    rule = rng.choice([0, 1, 2, 3, 4, 4, 4, 5])
    number = rng.choice(gen.MOMENTUM + gen.BAD_MOMENTUM) if rule == 4 else rng.choice(gen.ALPHA)
    draws = rng.choice([1, 1, 2, 3, 1000, 1001]) if rank == 1 else rng.choice([0, 1, 1, 2, 2])
    return job(rng, (gen.entries(h), c), rank, rule=rule, number=number, most=most, minimum=rng.choice([0, 1, most, most + 1]), style="usual",
               width=rng.choice([0, 1, 127, 128, 128, 129]), draw_count=draws, stationarity_tolerance=gen.bits(-1.0))


def double(bits):
    return struct.unpack(">d", struct.pack(">Q", bits))[0]


def stops(rng):
    """Jobs whose stop hangs on a last bit: a tolerance is set at what the oracle met at a check, and just beside it."""
    while True:
        j = gen.job(rng, "small")
        j.update(rule=rng.randrange(5), most=rng.choice([1, 2, 20, 21, 41]), minimum=rng.choice([0, 1, 2, 20]), start=0,
                 objective_tolerance=0, stationarity_tolerance=gen.bits(-1.0))
        j["number"] = gen.bits(rng.choice([0.5, 0.01]))
        rank = j["rank"] or gen.default_rank(j["n"] + 1)
        j["start_numbers"] = gen.numbers(rng, (j["n"] + 1) * rank, "usual")
        traced = subprocess.run([PROGRAM, "trace"], input=gen.record(j), capture_output=True, check=True).stdout.decode().split("\n")
        met = collections.defaultdict(list)
        for line in traced:
            if line.startswith("check_"):
                met[line.split()[0]].append(line.split()[-1])
        if not met["check_residual"]:
            continue
        k = rng.randrange(len(met["check_residual"]))
        previous, new, residual, norm = (double(int(met["check_" + name][k], 16)) for name in ("previous", "objective", "residual", "norm"))
        field, at = rng.choice([("objective_tolerance", abs(new - previous)), ("stationarity_tolerance", residual / max(norm, 1.0))])
        if at == at and at > 0.0:
            return [gen.record(j | {field: gen.bits(at) + step}) for step in (-2, -1, 0, 1, 2)]


# Kinds with their share of the jobs, in thousandths.
KINDS = {
    "small": (300, lambda rng: gen.record(gen.job(rng, "small"))),
    "damaged": (270, gen.damaged),
    "flipped": (130, flipped),
    "ties": (80, ties),
    "odd": (80, odd_numbers),
    "limits": (60, limits),
    "stops": (40, stops),
    "mixed": (36, lambda rng: gen.record(gen.job(rng, "mixed"))),
    "large": (4, lambda rng: gen.record(gen.job(rng, "large"))),
}


def batches(kind, make, count, seed):
    """Batches of records of a kind."""
    rng, batch = random.Random(f"{kind} {seed}"), []
    while count > 0:
        made = make(rng)
        made = [data for data in (made if isinstance(made, list) else [made]) if jobs.ended_soon(data)][:count]
        batch += made
        count -= len(made)
        if len(batch) >= BATCH or count == 0:
            yield batch
            batch = []


def seeded(lines, count, seed, kinds=KINDS):
    """So many jobs, in batches."""
    for kind, (share, make) in kinds.items():
        for records in batches(kind, make, count * share // 1000, seed):
            for record, (number, answer) in zip(records, jobs.answers(records)):
                lines.call("answer", [record], [WORKSPACE, ANSWER], number, [answer])
            yield


def seeded_pins(lines, count, seed):
    """So many jobs of version 2."""
    yield from seeded(lines, count, f"pins {seed}", pins.KINDS)


def seeded_larger(lines, count, seed):
    """So many jobs of version 3."""
    yield from seeded(lines, count, f"larger {seed}", larger.KINDS)
