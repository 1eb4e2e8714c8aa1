"""At most k wagons moved (02, Note 13): `limited_search`. By levels of the Rust's own `get_improving_children`, which the oracle sorts and cuts (oracle/mixing_cut/src/limited.rs), and by
oracle/model.py where the house is small; there 02's promises of the choice are held too."""
import random

import blocks
import calls
import faults
import gen
import jobs
import model
import tables
from faults import Fault, drop, put
from factors import signed
from lists import SEARCH_WORKSPACE, leaves, slices

SMALL = 9  # up to so many wagons the model answers too
GROUP = calls.TABLE
GIVEN = ["present", "k", "width", "choice", "workspace"]


# ---- cases --------------------------------------------------------------------------------------------


def case(hall, present, k, width, more=0, **fields):
    """A call's fields; with `more`, every slice that may be longer is."""
    n, entries, c = hall
    given = {"present": bytes(present) + bytes([7] * more), "k": k, "width": width, "choice": n + more, "workspace": SEARCH_WORKSPACE + more}
    return tables.hall(n, entries, c, **{**given, **fields})


def number_of(s):
    """02's order: 31, 13 to 16, 27, 28, 19."""
    lent, n = calls.Lent(s, "wagons"), s["n"]
    short = lambda: lent.short(c=n, present=n, choice=n) or s["workspace"] < SEARCH_WORKSPACE
    return calls.first((31, short), *lent.numbers(), (27, lambda: any(x > 1 for x in s["present"][:n])), (28, lambda: s["k"] > n), (19, lambda: not 1 <= s["width"] <= 128))


def asked(s):
    return "limited", [*calls.wagon_case(s), s["k"], s["width"], list(s["present"][: s["n"]])]


def held(s, choice, cost, rounds):
    """The model's answer, and what 02 promises of it."""
    n, entries, present = s["n"], calls.entries_of(s), list(s["present"][: s["n"]])
    if n <= SMALL:
        assert model.limited(n, entries, s["c"], present, s["k"], s["width"]) == (choice, cost, rounds), s
    if n <= 40:
        assert model.limited_holds(entries, s["c"], present, s["k"], choice, cost, rounds), s


def add_cases(lines, cases):
    """The cases with their answers; the numbers."""
    numbers = [number_of(s) for s in cases]
    answers = iter(leaves([asked(s) for s, number in zip(cases, numbers) if number == 0]))
    for s, number in zip(cases, numbers):
        back = []
        if number == 0:
            choice, cost, rounds = slices(next(answers), None, 1, 1)
            held(s, choice, signed(cost), rounds)
            back = [bytes(choice), cost, rounds]
        lines.call("limited_search", [s[k] for k in GROUP], [s[k] for k in GIVEN], number, back)
    return numbers


# ---- houses worked by hand ------------------------------------------------------------------------------

PAIR = 2, [(0, 1, 3), (1, 0, 3)], [-1, -1]
APART = 3, [], [-1, -2, -3]
SWAP = 2, [(0, 1, 4), (1, 0, 4)], [-2, -3]
BACK = 2, [(0, 1, 3), (1, 0, 3)], [-1, -5]
TURN = 3, [(0, 1, -4), (0, 2, -4), (1, 0, -4), (2, 0, -4)], [5, -1, -1]


def worked():
    """Text, case, choice, cost in eighths, rounds."""
    yield "no wagon: k must be 0", case((0, [], []), [], 0, 1), [], 0, 0
    yield "k 0: the present choice", case(APART, [0, 0, 0], 0, 1), [0, 0, 0], 0, 0
    yield "each of three wagons betters the choice: with k 1 the best of them alone, in one round", case(APART, [0, 0, 0], 1, 1), [0, 0, 1], -24, 1
    yield "with k 2 the two best; at the second level W is 1", case(APART, [0, 0, 0], 2, 1), [0, 1, 1], -40, 2
    yield "with k 3 all", case(APART, [0, 0, 0], 3, 1), [1, 1, 1], -48, 3
    yield "nothing is better where it stands", case(APART, [1, 1, 1], 3, 128), [1, 1, 1], -48, 0
    yield "two equal children: the first of them", case(PAIR, [0, 0], 1, 1), [1, 0], -8, 1
    yield "the same with k n", case(PAIR, [0, 0], 2, 1), [1, 0], -8, 1
    yield "a swap would cost less, but either wagon alone costs more: the choice stays, with k 1 and with k 2", case(SWAP, [1, 0], 2, 1), [1, 0], -16, 0
    yield "a wagon that costs more alone goes last, once two others have", case(TURN, [0, 0, 0], 3, 1), [1, 1, 1], -40, 3
    yield "with k 2 it can't", case(TURN, [0, 0, 0], 2, 1), [0, 1, 1], -16, 2
    yield "at distance k a wagon may still go back: a third round, to a choice that level 1 has had", case(BACK, [0, 0], 2, 1), [0, 1], -40, 3


def add_worked(lines):
    for text, s, choice, cost, rounds in worked():
        lines.heading(text)
        n = s["n"]
        assert model.limited(n, calls.entries_of(s), s["c"], list(s["present"][:n]), s["k"], s["width"]) == (choice, cost, rounds), text
        assert add_cases(lines, [s]) == [0]


# ---- houses at random -------------------------------------------------------------------------------------


def some_k(rng, n):
    """0 to n: few, many, all, none."""
    return rng.choice([0, 1, min(2, n), n // 2, max(n - 1, 0), n, rng.randint(0, n), rng.randint(0, min(n, 6))]) if n else 0


def some_case(rng, n, width=None, ends=None, more=None):
    ends = rng.choice([(-9, 9), (-1, 1), (-(1 << 30), 1 << 30), (0, 9)]) if ends is None else ends
    dense = n <= 40 and rng.randrange(5) == 0
    hall = jobs.dense_hall(rng, n) if dense else blocks.sparse_hall(rng, n, rng.randint(0, min(2000, 4 * n)), *ends)
    width = rng.choice([1, 1, 2, 3, 8]) if width is None else width
    more = rng.choice([0, 0, 0, 1, 5]) if more is None else more
    return case(hall, [rng.randrange(2) for _ in range(n)], some_k(rng, n), width, more)


def tied(rng):
    """Costs of few values, so that many children cost the same, at every level."""
    n = rng.randint(2, 12)
    v = rng.choice([1, 2, 4])
    hall = blocks.sparse_hall(rng, n, rng.randint(0, 2 * n), -v, v) if rng.randrange(2) else (n, [], [rng.choice([-v, v])] * n)
    return case(hall, [rng.randrange(2) for _ in range(n)] if rng.randrange(2) else [0] * n, some_k(rng, n), rng.choice([1, 2, 3, 4, 128]))


def damaged(rng):
    """A call with one to three things wrong or at a limit."""
    s = some_case(rng, rng.choice([0, 1, 2, 3, 5, 9]))
    for _ in range(rng.randint(1, 3)):
        damage(rng, s, s["n"], rng.randrange(11))
    return s


def damage(rng, s, n, kind):
    shorter = lambda x: x - 1 if isinstance(x, int) else x[:-1]
    if kind == 0:
        name = rng.choice(["rows", "cols", "values", "c", "present", "choice", "workspace"])
        s[name] = shorter(s[name]) if s[name] else s[name]
    elif kind == 1:
        s["n"] = rng.choice([255, 256, 2**63])
    elif kind == 2:
        s["count"] = rng.choice([min(s["count"] + 1, 2**64 - 1), 4097, 2**64 - 1])
    elif kind in (3, 4) and s["rows"]:
        s[rng.choice(["rows", "cols"])][-1] = rng.choice([0, n, 65535]) % 65536
    elif kind == 5 and s["values"]:
        s["values"][rng.randrange(len(s["values"]))] += 1
    elif kind == 6 and s["c"]:
        s["c"][0] = rng.choice([1 << 39, (1 << 39) + 1, -(1 << 63)])
    elif kind in (7, 8) and s["present"]:
        at = rng.randrange(len(s["present"]))
        s["present"] = s["present"][:at] + bytes([rng.choice([2, 255])]) + s["present"][at + 1 :]
    elif kind == 9:
        s["k"] = rng.choice([n, n + 1, 255, 256, 2**64 - 1]) % 2**64
    elif kind == 10:
        s["width"] = rng.choice([0, 128, 129, 2**64 - 1])


# ---- the limits -------------------------------------------------------------------------------------------


def add_limits(lines, rng):
    lines.heading("255 wagons, 4,096 entries: k 0, 1, 30, 254, 255, and 256 by 28")
    hall, present = blocks.arena(rng), [rng.randrange(2) for _ in range(255)]
    some = [case(hall, present, k, 1, more) for k, more in ((0, 0), (1, 0), (30, 3), (254, 0), (255, 0), (256, 0))]
    some += [case(hall, present, 3, 1, choice=254), case(hall, present, 3, 1, workspace=SEARCH_WORKSPACE - 1)]
    assert add_cases(lines, some) == [0, 0, 0, 0, 0, 28, 31, 31]
    lines.heading("W 128, 129, 0; k n and one more; 256 wagons; magnitude 2^40 and one more; a byte behind the wagons")
    hall, half = jobs.dense_hall(rng, 12), 1 << 39
    present = [0, 1] * 6
    widths = [case(hall, present, 4, w) for w in (128, 129, 0, 2**64 - 1)]
    ks = [case(hall, present, k, 2) for k in (12, 13, 2**64 - 1)]
    sizes = [case((n, [], [1] * n), [1] * n, 3, 1) for n in (255, 256)]
    heavy = [case((2, [(0, 1, v), (1, 0, v)], [0, 0]), [1, 0], 1, 1) for v in (-half, half, half + 1)]
    tails = [{**case(PAIR, [0, 0], 1, 1), "present": p} for p in (b"\0\0\2", b"\0\2\0", b"\0")]
    assert add_cases(lines, widths + ks + sizes + heavy + tails) == [0, 19, 19, 19, 0, 28, 28, 0, 13, 0, 0, 16, 0, 27, 31]


# ---- faults: each alone, and every two that change different fields ------------------------------------------

BASE = {"n": 2, **faults.BASE, "c": [-1, 4], "present": b"\0\1", "k": 1, "width": 1, "choice": 2, "workspace": SEARCH_WORKSPACE}
KINDS = faults.HALL + [
    Fault(31, drop("present"), "n"), Fault(31, drop("choice"), "n"), Fault(31, drop("workspace")), Fault(27, put(present=b"\2\1")), Fault(27, put(present=b"\0\377")),
    Fault(28, put(k=3)), Fault(28, put(k=2**64 - 1)), Fault(19, put(width=0)), Fault(19, put(width=129)), Fault(19, put(width=2**64 - 1))]


def add_faults(lines):
    lines.heading("limited_search: faults")
    some = [(), *faults.in_pairs(KINDS, BASE)]
    assert add_cases(lines, [faults.at_once(BASE, f) for f in some]) == [faults.first_number(f) if f else 0 for f in some]


def add(lines):
    rng = random.Random("limited 1")
    add_worked(lines)
    lines.heading("houses of up to nine wagons, and some larger")
    add_cases(lines, [some_case(rng, n) for n in list(range(10)) * 8 + [12, 20, 33, 64, 65, 128]])
    lines.heading("children that cost the same")
    add_cases(lines, [tied(rng) for _ in range(40)])
    add_limits(lines, rng)
    add_faults(lines)


# Shares of the calls, in hundredths, and how they are made.
SHARES = {
    "small": (38, lambda rng: some_case(rng, rng.randint(0, 9))), "middle": (18, lambda rng: some_case(rng, rng.randint(10, 40))),
    "large": (10, lambda rng: some_case(rng, rng.choice([64, 127, 128, 129, 192, 240, 254, 255]), width=rng.choice([1, 1, 2, 5]))),
    "wide": (4, lambda rng: some_case(rng, rng.randint(5, 14), width=rng.choice([16, 127, 128]))), "tied": (10, tied), "damaged": (20, damaged),
}


def seeded(lines, count, seed):
    """So many calls, in batches."""
    for kind, (share, make) in SHARES.items():
        rng, left = random.Random(f"limited {kind} {seed}"), count * share // 100
        while left:
            batch = [make(rng) for _ in range(min(left, 100))]
            left -= len(batch)
            add_cases(lines, batch)
            yield
