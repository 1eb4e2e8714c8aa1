"""By block, then the house (02, Notes 6 and 10): `block_search`. Where no wagon is both pinned and in a block, by the Rust's own functions, which the oracle drives block by block
(oracle/mixing_cut/src/blocks.rs), and by oracle/model.py where the house is small; where one is, by the model, which takes it out of the block. Beside the calls whose choice that changes
stands the `lift_solution` in which that wagon is fixed and mapped: its mapped value stands, as ever."""
import random

import calls
import faults
import gen
import jobs
import model
import tables
from faults import Fault, drop, put
from lists import SEARCH_WORKSPACE, leaves, slices

SMALL = 9  # up to so many wagons the model answers too
MOST_BLOCKS = 16
ONE = gen.bits(1.0)
GROUP = calls.TABLE
GIVEN = ["pinned", "stores", "present", "sizes", "wagons", "width", "choice", "falls", "workspace"]


# ---- cases --------------------------------------------------------------------------------------------


def case(hall, pins, present, blocks, width, more=0, **fields):
    """A call's fields; with `more`, every slice that may be longer is."""
    n, entries, c = hall
    tail = bytes([7] * more)
    given = {"pinned": [i for i, _ in pins], "stores": bytes(store for _, store in pins) + tail, "present": bytes(present) + tail, "sizes": [len(b) for b in blocks],
             "wagons": [i for b in blocks for i in b] + [65535] * more, "width": width, "choice": n + more, "falls": len(blocks) + more, "workspace": SEARCH_WORKSPACE + more}
    return tables.hall(n, entries, c, **{**given, **fields})


def blocks_of(s):
    at, out = 0, []
    for size in s["sizes"]:
        out.append(s["wagons"][at : at + size])
        at += size
    return out


def bad_list(n, wagons):
    return any(i >= n for i in wagons) or len(set(wagons)) < len(wagons)


def number_of(s):
    """02's order: 31, 13 to 16, 21, 22, 19."""
    lent, n, many = calls.Lent(s, "wagons"), s["n"], len(s["sizes"]) > MOST_BLOCKS

    def short():
        lists = len(s["stores"]) < len(s["pinned"]) or s["workspace"] < SEARCH_WORKSPACE
        blocks = not many and (len(s["wagons"]) < sum(s["sizes"]) or s["falls"] < len(s["sizes"]))
        return lent.short(c=n, present=n, choice=n) or lists or blocks

    pins = lambda: bad_list(n, s["pinned"]) or any(x > 1 for x in s["stores"][: len(s["pinned"])])
    blocks = lambda: any(x > 1 for x in s["present"][:n]) or many or any(bad_list(n, b) for b in blocks_of(s))
    return calls.first((31, short), *lent.numbers(), (21, pins), (22, blocks), (19, lambda: not 1 <= s["width"] <= 128))


def pins_of(s):
    return dict(zip(s["pinned"], s["stores"]))


def asked(s):
    n, pins = s["n"], pins_of(s)
    return "blocks", [*calls.wagon_case(s), s["width"], list(pins), list(pins.values()), list(s["present"][:n]), blocks_of(s)]


def modelled(s):
    return model.by_blocks(s["n"], calls.entries_of(s), s["c"], pins_of(s), s["present"], blocks_of(s), s["width"])


def in_both(s):
    """A wagon is pinned and in a block."""
    return not set(s["pinned"]).isdisjoint(s["wagons"][: sum(s["sizes"])])


def add_cases(lines, cases):
    """The cases with their answers; the numbers."""
    numbers = [number_of(s) for s in cases]
    by_rust = [number == 0 and not in_both(s) for s, number in zip(cases, numbers)]
    answers = iter(leaves([asked(s) for s, rust in zip(cases, by_rust) if rust]))
    for s, number, rust in zip(cases, numbers, by_rust):
        back = []
        if number == 0:
            choice, falls = slices(next(answers), None, None) if rust else modelled(s)
            if rust and s["n"] <= SMALL:
                assert modelled(s) == (choice, falls), s
            back = [bytes(choice), falls]
        lines.call("block_search", [s[k] for k in GROUP], [s[k] for k in GIVEN], number, back)
    return numbers


# ---- houses worked by hand ------------------------------------------------------------------------------

PAIR = 2, [(0, 1, 3), (1, 0, 3)], [-1, -1]
STAR = 3, [(0, 1, 3), (0, 2, 3), (1, 0, 3), (2, 0, 3)], [-2, -1, -1]


def worked():
    """Text, case, choice, falls."""
    yield "a pinned wagon in a block stays; by Note 6 it moved: choice 1, fall 8", case((1, [], [-1]), [(0, 0)], [0], [[0]], 1), [0], [0]
    yield "and the others go by it; by Note 6: choice 1, 0, fall 8", case(PAIR, [(0, 0)], [0, 0], [[0]], 1), [0, 1], [0]
    yield "a free wagon by way of a pinned one; by Note 6: choice 1, 0, 0, falls 16 and 0", case(STAR, [(0, 0)], [1, 0, 0], [[0, 1], [2]], 1), [0, 1, 1], [8, 8]
    yield "no pin, no block: the house", case(PAIR, [], [0, 0], [], 1), [1, 0], []
    yield "no wagon, an empty block", case((0, [], []), [], [], [[]], 1), [], [0]
    yield "no wagon, no block", case((0, [], []), [], [], [], 128), [], []
    yield "all pinned, no block", case(PAIR, [(1, 1), (0, 1)], [0, 0], [], 1), [1, 1], []
    yield "all pinned, both in a block", case(PAIR, [(0, 0), (1, 0)], [1, 1], [[1, 0]], 1), [0, 0], [0]
    yield "a block of pinned wagons alone, one of others", case(STAR, [(0, 1), (1, 0)], [0, 1, 0], [[1, 0], [2]], 1), [1, 0, 0], [0, 0]
    yield "an empty block first", case(PAIR, [], [0, 0], [[], [1]], 1), [0, 1], [0, 8]
    yield "the same block twice", case(PAIR, [], [0, 0], [[1], [1]], 1), [0, 1], [8, 0]


def add_worked(lines):
    for text, s, choice, falls in worked():
        lines.heading(text)
        assert modelled(s) == (choice, falls), text
        assert add_cases(lines, [s]) == [0]


def add_overwritten(lines):
    """`lift_solution` with the pins fixed and a block mapped that names one of them: the mapped value stands, with Note 10 as before."""
    lift = lambda size, mapped, fixed, values, solution: {
        "m": size, "map": mapped, "fixed": fixed, "fixed_values": values, "solution": solution, "lifted": size}
    calls.add(lines, "lift_solution", [lift(1, [0], [0], [0], [ONE]), lift(2, [0], [0, 1], [0, 0], [ONE]), lift(3, [0, 1], [0, 2], [0, 0], [ONE, 0])])


# ---- houses at random -------------------------------------------------------------------------------------


def sparse_hall(rng, n, pairs, low=-9, high=9):
    h = {}
    for _ in range(pairs if n else 0):
        i, k = rng.randrange(n), rng.randrange(n)
        h[i, k] = h[k, i] = rng.randint(low, high)
    return n, gen.entries(h), [rng.randint(low, high) for _ in range(n)]


def some_blocks(rng, n, pinned, count=None):
    """Blocks of any wagons in any order: the house cut in parts, blocks that overlap, empty ones, ones of pinned wagons, of all; of every second call, and of most large ones, none that names a pinned wagon."""
    count = rng.choice([0, 1, 2, 2, 3, 4, 7, 15, 16]) if count is None else count
    if rng.randrange(2) or n > 40 and rng.randrange(8):
        free = [i for i in range(n) if i not in pinned]
        return [rng.sample(free, rng.randint(0, min(len(free), rng.choice([3, 12, 255])))) for _ in range(count)]
    if rng.randrange(3) == 0 and count:
        order = rng.sample(range(n), n)
        return [order[k::count] for k in range(count)]
    out = []
    for _ in range(count):
        kind = rng.randrange(10)
        pool = pinned if kind == 0 else [i for i in range(n) if i not in pinned] if kind < 3 else range(n)
        size = 0 if kind == 9 else len(pool) if kind == 8 else rng.randint(0, min(len(pool), rng.choice([3, 12, 255])))
        out.append(rng.sample(pool, size))
    return out


def some_case(rng, n, width=None, count=None, more=None):
    big = 4096 if n > 40 else 3 * n * n
    style = rng.randrange(6)
    hall = jobs.dense_hall(rng, n) if style == 0 and n <= 40 else sparse_hall(rng, n, rng.randint(0, min(2000, 4 * n, big)), *rng.choice([(-9, 9), (-1, 1), (-(1 << 30), 1 << 30), (0, 9)]))
    hall = hall if len(hall[1]) <= 4096 else (n, [], hall[2])
    pins = gen.some_pins(rng, n, rng.choice(["none", "one", "few", "half", "any", "some"]))
    width = rng.choice([1, 1, 2, 3, 8]) if width is None else width
    more = rng.choice([0, 0, 0, 1, 5]) if more is None else more
    return case(hall, pins, [rng.randrange(2) for _ in range(n)], some_blocks(rng, n, [i for i, _ in pins], count), width, more)


def damaged(rng):
    """A call with one to three things wrong or at a limit."""
    s = some_case(rng, rng.choice([0, 1, 2, 3, 5, 9]), count=rng.choice([0, 1, 2, 3, 16]))
    n = s["n"]
    for _ in range(rng.randint(1, 3)):
        damage(rng, s, n, rng.randrange(14))
    return s


def damage(rng, s, n, kind):
    shorter = lambda x: x - 1 if isinstance(x, int) else x[:-1]
    if kind == 0:
        name = rng.choice(["rows", "cols", "values", "c", "stores", "present", "wagons", "choice", "falls", "workspace"])
        s[name] = shorter(s[name]) if s[name] else s[name]
    elif kind == 1:
        s["n"] = rng.choice([255, 256, 2**63])
    elif kind == 2:
        s["count"] = rng.choice([min(s["count"] + 1, 2**64 - 1), 4097, 2**64 - 1])
    elif kind in (3, 4) and s["rows"]:
        s[rng.choice(["rows", "cols"])][-1] = rng.choice([0, n, 65535])
    elif kind == 5 and s["values"]:
        s["values"][rng.randrange(len(s["values"]))] += 1
    elif kind == 6 and s["c"]:
        s["c"][0] = rng.choice([1 << 39, (1 << 39) + 1, -(1 << 63)])
    elif kind == 7:
        s["pinned"], s["stores"] = s["pinned"] + [rng.choice([n, 65535, *s["pinned"][:1]])], s["stores"][: len(s["pinned"])] + b"\1"
    elif kind == 8 and s["stores"]:
        s["stores"] = bytes([rng.choice([2, 255])]) + s["stores"][1:]
    elif kind == 9 and s["present"]:
        at = rng.randrange(len(s["present"]))
        s["present"] = s["present"][:at] + bytes([2]) + s["present"][at + 1 :]
    elif kind == 10:
        s["sizes"] = s["sizes"] + [0] * (rng.choice([16, 17, 40]) - len(s["sizes"]))
    elif kind == 11 and s["wagons"]:
        s["wagons"][rng.randrange(len(s["wagons"]))] = rng.choice([n, 65535, s["wagons"][0]])
    elif kind == 12 and s["sizes"]:
        at = rng.randrange(len(s["sizes"]))
        s["sizes"][at] = min(65535, s["sizes"][at] + rng.choice([1, 65535]))
    elif kind == 13:
        s["width"] = rng.choice([0, 128, 129, 2**64 - 1])


# ---- the limits -------------------------------------------------------------------------------------------


def arena(rng):
    """255 wagons, 4,096 entries."""
    pairs = rng.sample([(i, k) for i in range(255) for k in range(i + 1, 255)], 2048)
    h = {}
    for i, k in pairs:
        h[i, k] = h[k, i] = rng.randint(-9, 9)
    return 255, gen.entries(h), [rng.randint(-9, 9) for _ in range(255)]


def add_limits(lines, rng):
    lines.heading("255 wagons, 16 blocks, some pinned")
    hall, order = arena(rng), rng.sample(range(255), 255)
    present, pins = [rng.randrange(2) for _ in range(255)], [(i, rng.randrange(2)) for i in rng.sample(range(255), 30)]
    parts = [order[k::16] for k in range(16)]
    some = [case(hall, pins, present, parts, 1), case(hall, [], present, [order] * 2, 1), case(hall, [(i, 1) for i in order], present, parts[:3], 2, 3)]
    some += [case(hall, pins, present, parts + [[]], 1), case(hall, pins, present, parts, 1, choice=254), case(hall, pins, present, parts, 1, falls=15)]
    assert add_cases(lines, some) == [0, 0, 0, 22, 31, 31]
    lines.heading("W 128 and 129; 16 and 17 blocks; 256 wagons; magnitude 2^40 and one more")
    hall = jobs.dense_hall(rng, 12)
    present, half = [0, 1] * 6, 1 << 39
    widths = [case(hall, [(3, 1)], present, [[1, 2, 3], list(range(12))], w) for w in (128, 129, 0, 2**64 - 1)]
    counts = [case(hall, [], present, [[k % 12] for k in range(many)], 1) for many in (16, 17)]
    sizes = [case((n, [], [1] * n), [], [1] * n, [list(range(n))], 1) for n in (255, 256)]
    heavy = [case((2, [(0, 1, v), (1, 0, v)], [0, 0]), [(1, 1)], [1, 0], [[0], [1]], 1) for v in (-half, half, half + 1)]
    assert add_cases(lines, widths + counts + sizes + heavy) == [0, 19, 19, 19, 0, 22, 0, 13, 0, 0, 16]


# ---- faults: each alone, and every two that change different fields ------------------------------------------

BASE = {"n": 2, **faults.BASE, "c": [-1, 4], "pinned": [1], "stores": b"\1", "present": b"\0\1", "sizes": [1, 2], "wagons": [0, 1, 0], "width": 1, "choice": 2, "falls": 2,
        "workspace": SEARCH_WORKSPACE}
KINDS = faults.HALL + [
    Fault(31, drop("stores")), Fault(31, drop("present"), "n"), Fault(31, drop("choice"), "n"), Fault(31, drop("falls"), "blocks"), Fault(31, drop("wagons"), "blocks"),
    Fault(31, drop("workspace")), Fault(21, put(pinned=[2])), Fault(21, put(stores=b"\2")), Fault(21, put(pinned=[1, 1], stores=b"\1\1")), Fault(22, put(present=b"\0\2")),
    Fault(22, put(sizes=[1, 2] + [0] * 15), spoils="blocks"), Fault(22, put(wagons=[2, 1, 0])), Fault(22, put(wagons=[0, 1, 1])), Fault(19, put(width=0)), Fault(19, put(width=129)),
    Fault(19, put(width=2**64 - 1))]


def add_faults(lines):
    lines.heading("block_search: faults")
    some = [(), *faults.in_pairs(KINDS, BASE)]
    assert add_cases(lines, [faults.at_once(BASE, f) for f in some]) == [faults.first_number(f) if f else 0 for f in some]


def add(lines):
    rng = random.Random("blocks 1")
    add_worked(lines)
    lines.heading("a mapped index overwrites a fixed one")
    add_overwritten(lines)
    lines.heading("houses of up to nine wagons, and some larger")
    add_cases(lines, [some_case(rng, n) for n in list(range(10)) * 8 + [12, 20, 33, 64, 65, 128]])
    add_limits(lines, rng)
    add_faults(lines)


# Shares of the calls, in hundredths, and how they are made.
SHARES = {
    "small": (44, lambda rng: some_case(rng, rng.randint(0, 9))), "middle": (18, lambda rng: some_case(rng, rng.randint(10, 40))),
    "large": (10, lambda rng: some_case(rng, rng.choice([64, 127, 128, 129, 192, 240, 254, 255]), width=rng.choice([1, 1, 2, 5]))),
    "wide": (4, lambda rng: some_case(rng, rng.randint(5, 14), width=rng.choice([16, 127, 128]))), "damaged": (24, damaged),
}


def seeded(lines, count, seed):
    """So many calls, in batches."""
    for kind, (share, make) in SHARES.items():
        rng, left = random.Random(f"{kind} {seed}"), -(-count * share // 100)
        while left:
            batch = [make(rng) for _ in range(min(left, 100))]
            left -= len(batch)
            add_cases(lines, batch)
            yield
