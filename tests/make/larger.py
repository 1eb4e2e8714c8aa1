"""Stored jobs of version 3 (02, Note 5), of halls of up to 255 wagons, and calls on tables of 129 to 256 signs, with the Rust oracle's answers; and seeded ones. Where a job was made for a number, the oracle must
answer that number. oracle/model.py must answer the small ones alike. Of an accepted job the pins are kept; in versions 1 and 2 more than 127 wagons are 13;
and a job of up to 127 wagons is answered as in version 2."""
import random

import calls
import gen
import jobs
import pins
import runs
import tables
import words
from lists import SEARCH_WORKSPACE

SEED = 20261117
SIZES = gen.LARGER


def job(rng, hall, held, **given):
    return gen.record(pins.fields_of(rng, hall, held, **given) | {"version": 3})


def sparse_hall(rng, n, pairs):
    """So many pairs have a cost, and some wagons one of their own."""
    h = {}
    for i, k in rng.sample([(i, k) for i in range(n) for k in range(i, n)], pairs):
        h[i, k] = h[k, i] = rng.randint(-9, 9)
    return n, gen.entries(h), [rng.randint(-9, 9) for _ in range(n)]


def some_pins(rng, n, many):
    return [(i, rng.randrange(2)) for i in rng.sample(range(n), many)]


def accepted(rng):
    for n in SIZES:
        for many in (0, 1, n - 128, n - 127, n // 2, n):
            held = some_pins(rng, n, many)
            yield f"n {n}, {many} pinned, rank 0", job(rng, sparse_hall(rng, n, 40), held, start=2, width=2)
            yield f"n {n}, {many} pinned, rank 32, W 128", job(rng, sparse_hall(rng, n, 90), held, rank=32, start=2, width=128, draw_count=2)
        for rule in range(5):
            number = gen.bits(0.01 if rule < 4 else 0.5)
            yield f"n {n}, rule {rule}", job(rng, sparse_hall(rng, n, 200), some_pins(rng, n, 3), rank=3, rule=rule, number=number, most=3, width=3)
        if n in (129, 255):
            yield f"n {n}, rank 0, swept", job(rng, sparse_hall(rng, n, 300), [], start=2, most=2, width=1)
        yield f"n {n} without entries", job(rng, (n, [], [1, -1, 0] * (n // 3) + [5] * (n % 3)), [], rank=1, width=2)
    yield "n 255, 4,096 entries", job(rng, sparse_hall_of(rng, 255, 2048), [], rank=2, start=2, width=4)
    yield "n 255, 4,096 entries, 100 pinned", job(rng, sparse_hall_of(rng, 255, 2048), some_pins(rng, 255, 100), rank=2, most=2, width=4)
    yield "the last wagon pinned", job(rng, sparse_hall(rng, 255, 40), [(254, 1)], rank=1, width=2)


def sparse_hall_of(rng, n, pairs):
    """So many pairs of different wagons, all costs other than 0."""
    h = {}
    for i, k in rng.sample([(i, k) for i in range(n) for k in range(i + 1, n)], pairs):
        h[i, k] = h[k, i] = rng.choice([-1, 1]) * rng.randint(1, 9)
    return n, gen.entries(h), [rng.choice([-1, 1]) * rng.randint(1, 9) for _ in range(n)]


def refused(rng):
    for n in (128, 255):
        hall = n, [], [0] * n
        for version in (1, 2):
            yield 13, f"n {n} in version {version}", gen.record(pins.fields_of(rng, hall, [], rank=1) | {"version": version})
        yield 11, f"n {n}, nothing after", gen.frame(bytes([3, n]))
        yield 13, f"n {n}, 4,097 entries, nothing after", gen.frame(bytes([3, n]) + (4097).to_bytes(2, "big"))
        yield 14, f"n {n}, row {n}", job(rng, (n, [(n, 0, 1)] if n < 255 else [(1, 255, 1)], [0] * n), [], rank=1)
        yield 15, f"n {n}, a mirror absent", job(rng, (n, [(0, n - 1, 1)], [0] * n), [], rank=1)
        yield 21, f"n {n}, wagon {n} pinned", job(rng, hall, [(n, 0)], rank=1)
        yield 21, f"n {n}, wagon {n - 1} pinned twice", job(rng, hall, [(n - 1, 0), (n - 1, 1)], rank=1)
    yield 16, "n 255, the magnitude", job(rng, (255, [], [2**39] + [0] * 253 + [1]), [], rank=1)


def as_in_two(rng):
    """Pairs of a record of version 2 and the same of version 3, of up to 127 wagons."""
    for n in (0, 1, 2, 3, 7, 64, 127):
        for many in {0, n // 2, n}:
            j = pins.fields_of(rng, jobs.some_hall(rng, n), some_pins(rng, n, many), start=2, width=2)
            yield gen.record(j), gen.record(j | {"version": 3})


def add_calls(lines, rng):
    for m in (129, 192, 193, 241, 256):
        signs = lambda: bytes(rng.randrange(2) for _ in range(m))
        table = tables.signed(m, tables.mirrored(rng, m, 300, lambda: rng.randrange(-9, 10)))
        calls.add(lines, "obj_rounded", [{**table, "signs": signs()}])
        calls.add(lines, "floor_eighths", [table])
        calls.add(lines, "entrywise_lower_bound", [table])
        calls.add(lines, "qubo_binary_from_sign_solution", [{"m": m, "signs": signs(), "b": m - 1}])
        calls.add(lines, "beam_search", [{**table, "width": width, "start": signs(), "out": m, "workspace": SEARCH_WORKSPACE} for width in (0, 1, 3, 128)])
        for rank in (1, 32) if m == 129 else (0, 3) if m == 256 else (2,):
            meant = rank or gen.default_rank(m)
            given = {**table, "rank": rank, "factor": gen.numbers(rng, m * meant, "usual"), "out": m}
            calls.add(lines, "dual_variables", [given])
            calls.add(lines, "compute_rounded_sol", [{**given, "draw_count": 2, "draws": gen.numbers(rng, 2 * meant, "usual")}])
    # as many entries as a sign table has at most, and one more
    for count in (4862, 4863):
        full = tables.signed(256, [(i, j, 1) for i in range(256) for j in range(256)][:count])
        calls.add(lines, "floor_eighths", [full])
    hall = sparse_hall_of(rng, 255, 2048)
    room = dict.fromkeys(("to_rows", "to_cols", "to_values"), 4862)
    calls.add(lines, "qubo_sign_table", [tables.hall(*hall, **room)])
    calls.add(lines, "eval_qubo_objective", [tables.hall(*hall, b=bytes(rng.randrange(2) for _ in range(255)))])


def add(lines):
    lines.heading("tables of 129 to 256 signs")
    add_calls(lines, random.Random("larger 1"))
    lines.heading("runs on 128 and 255 wagons")
    rng = random.Random("larger 2")
    scripts = [script for n in (128, 255) for script in runs.large_runs(rng, n, ((0 if n == 255 else 9, 3, 4, 300, 2), (3, 4, 3, 500, 0), (2, 0, 2, 100, 2)))]
    runs.Answered([line for script in scripts for line in script]).add(lines)
    rng = random.Random(SEED)
    made = [*[(0, text, record) for text, record in accepted(rng)], *refused(rng)]
    twos = list(as_in_two(rng))
    made += [(None, "as in version 2", record) for _, record in twos]
    answers = jobs.answers([record for _, _, record in made])
    for (number, text, record), (got, answer) in zip(made, answers):
        assert number in (None, got), (number, got, text)
        pins.hold(record, got, answer)
        jobs.stored(lines, text, record, got, answer)
    assert jobs.answers([record for record, _ in twos]) == answers[-len(twos) :]


# ---- seeded jobs -------------------------------------------------------------------------------


def at_limits(rng):
    """Entries and magnitudes at their limits and beyond."""
    n = rng.choice(SIZES)
    if rng.random() < 0.4:
        _, entries, c = sparse_hall_of(rng, n, rng.choice([2047, 2048, 2048, 2049]))
        entries = rng.choice([[], [], [(0, 0, 5)]]) + entries
    else:
        entries, c = gen.hall(rng, n, rng.choice([1, n]))
        h = {(i, k): v for i, k, v in entries}
        gen.grow(h, c, rng)
        c[rng.randrange(n)] += rng.choice([0, 0, 1, -1])
        entries = gen.entries(h)
    held = gen.some_pins(rng, n, rng.choice(["none", "some"]))
    rank = rng.choice([1, 2, 31, 32, 32, 33])
    most = rng.choice([0, 0, 1]) if rank < 3 else 0
    return job(rng, (n, entries, c), held, rank=rank, rule=rng.randrange(5), number=gen.bits(0.5), most=most, start=2, width=rng.choice([0, 0, 1, 1, 2, 129]))


def longest(rng):
    """Jobs of 65,535 bytes, as many as a whole one of version 3 has at most (their number is odd), and with a byte or two left over; some of another version."""
    while True:
        n, rank = rng.choice(SIZES), rng.randint(8, 32)
        hall, held = sparse_hall_of(rng, n, 20), some_pins(rng, n, rng.choice([0, 4, 100]))
        numbers = (gen.FRAME - 1 - 47 - 10 * len(hall[1]) - 8 * n - 2 * len(held)) // 8 - (n - len(held) + 1)
        if numbers % rank == 0:
            break
    record = job(rng, hall, held, rank=rank, start=2, draw_count=numbers // rank, width=1)
    assert len(record) == gen.FRAME - 1
    version = rng.choice([3, 3, 3, 3, 1, 2, 4])
    return gen.frame(bytes([version]) + record[5:] + bytes(rng.choice([0, 0, 1, 2])))


# Kinds with their share of the jobs, in thousandths.
KINDS = {
    "larger": (440, lambda rng: gen.record(gen.larger_job(rng))),
    "damaged": (270, lambda rng: gen.damaged(rng, True, True)),
    "flipped": (130, lambda rng: pins.flipped(rng, gen.larger_job(rng))),
    "limits": (50, at_limits),
    "longest": (10, longest),
    "to 127": (100, lambda rng: gen.record(gen.job(rng, rng.choice(["small", "mixed"]), "some") | {"version": 3})),
}


# ---- seeded calls and scripts ------------------------------------------------------------------


def some_calls(lines, rng):
    """Each call on a table of its own of 129 to 256 signs."""
    m = 1 + rng.choice([*SIZES, rng.randint(128, 255), rng.randint(128, 255)])
    signs = lambda: bytes(rng.randrange(2) for _ in range(m))
    table = lambda: tables.signed(m, gen.sign_table(rng, m, rng.choice([0, 3, m, 300, 2300])))
    calls.add(lines, "obj_rounded", [{**table(), "signs": signs()}])
    calls.add(lines, "floor_eighths", [table()])
    calls.add(lines, "entrywise_lower_bound", [table()])
    calls.add(lines, "qubo_binary_from_sign_solution", [{"m": m, "signs": signs(), "b": m - 1}])
    width = rng.choice([0, 1, 2, 3]) if rng.random() < 0.95 else rng.randint(0, 128)
    calls.add(lines, "beam_search", [{**table(), "width": width, "start": signs(), "out": m, "workspace": SEARCH_WORKSPACE}])
    hall = m - 1, *gen.hall(rng, m - 1, rng.choice([0, 3, m, 300, 2048]))
    calls.add(lines, "qubo_sign_table", [tables.hall(*hall, **dict.fromkeys(("to_rows", "to_cols", "to_values"), 4862))])
    calls.add(lines, "eval_qubo_objective", [tables.hall(*hall, b=signs()[1:])])
    words.pack(lines, m, signs(), 4)
    words.add_pair(lines, m, signs(), signs())


def seeded_calls(lines, count, seed):
    """So many rounds: every call on a table, and a script with changing tables and forged records."""
    for turn in range(count):
        rng = random.Random(f"larger calls {seed} {turn}")
        some_calls(lines, rng)
        n = rng.choice([*SIZES, rng.randint(128, 255)])
        runs.Answered([runs.roomy(rng, line) for line in gen.script(rng, n, rng.choice([0, 3, n, 2 * n]))]).add(lines)
        yield
