"""How long the rows are that a sweep under rule 3 rewrites (02, Note 14): runs of the unchanged Rust from factors whose numbers are finite and at most 2 in magnitude,
of every scale. A row's squared length is worked out by whole numbers from its bits, and must differ from 1 by at most 2^-40.

No row starts near that length, so after the first sweep the rows with other bits are those that it rewrote; the oracle's total of rows left says how many there are.
Rows that a sweep rewrote keep the length in every later one, and all numbers stay at most 2."""
import math
import random
import sys

import gen
import runs
import steps

ONE, ALLOWED, TWO = 1 << 2148, 1 << 2108, 1 << 1075
SCALES = [2.0, 1.0, 0.3, 1e-3, 1e-8, 1e-16, 1e-20, 1e-24, 1e-30, 1e-33]
SMALL = [1e-100, 1e-160, 1e-200, 1e-308, 1e-310, 5e-324]  # no entry makes a norm of 1E-24 of these alone
CALLS = [1, 1, 3]  # sweeps of a script's calls; stored scripts make the first two


# ---- whole numbers ----------------------------------------------------------------------------------------


def units(bits):
    """The magnitude of a finite double, in units of 2^-1074."""
    field, digits = bits >> 52 & 0x7FF, bits & 2**52 - 1
    assert field < 0x7FF, f"{bits:X} is no finite number"
    return (2**52 + digits) << (field - 1) if field else digits


def missed(row):
    """By how much the squared length differs from 1, in units of 2^-2148."""
    return abs(sum(units(x) ** 2 for x in row) - ONE)


class Judge:
    """Counts rows that were rewritten and rows that were not; keeps the largest miss of the first."""

    def __init__(self):
        self.first = self.left = self.rows = self.largest = 0

    def look(self, answers):
        """One script's answers."""
        states = [s for (name, _), s in zip(answers.calls, answers.states) if name in ("record", "sweep")]
        assert set(answers.numbers) == {0}
        m, rank = states[0][:2]
        cut = [[tuple(s[14:][i * rank : (i + 1) * rank]) for i in range(m)] for s in states]
        new = {i for i in range(m) if cut[1][i] != cut[0][i]}
        assert len(new) == m - states[1][12], (len(new), m, states[1][12])
        self.first, self.left = self.first + len(new), self.left + m - len(new)
        for before, after in zip(cut, cut[1:]):
            new |= {i for i in range(m) if after[i] != before[i]}
            assert all(units(x) <= TWO for row in after for x in row)
            for i in new:
                miss = missed(after[i])
                assert miss <= ALLOWED, (rank, [f"{x:X}" for x in after[i]], math.log2(miss) - 2148)
                self.largest = max(self.largest, miss)
            self.rows += len(new)

    def said(self):
        return f"first sweeps: {self.first:,} rows rewritten, {self.left:,} left standing; with later ones {self.rows:,} lengths, the largest miss 2^{math.log2(self.largest) - 2148:.1f}"


# ---- factors and tables -------------------------------------------------------------------------------------


def row(rng, rank, style, scale):
    if style == "ends":
        return [rng.choice([-scale, scale]) for _ in range(rank)]
    if style == "one":
        return [rng.uniform(-2.0, 2.0) if j == rank - 1 else rng.uniform(-scale, scale) for j in range(rank)]
    if style == "scales":
        return [rng.uniform(-1.0, 1.0) * rng.choice(SCALES + SMALL) for _ in range(rank)]
    return [rng.uniform(-scale, scale) for _ in range(rank)]


def factor(rng, m, rank):
    """Rows at most 2, none of them near the length 1; at times nearly equal, so that a gradient is a difference of their last bits."""
    style, scale = rng.choice(["even", "even", "even", "ends", "one", "scales", "near"]), rng.choice(rng.choice([SCALES] * 5 + [SMALL]))
    style = "one" if style == "even" and scale < 1e-50 else style
    first = row(rng, rank, style, scale)
    flat = []
    while len(flat) < m * rank:
        new = [math.nextafter(x, rng.choice([0.0, -2.0, 2.0])) for x in first] if style == "near" else row(rng, rank, style, scale)
        words = [gen.bits(max(-2.0, min(2.0, x))) for x in new]
        if missed(words) > ALLOWED:
            flat += words
        else:
            first = row(rng, rank, style, scale / 2)
            style = "even" if style == "ends" else style
    return flat


def table(rng, n):
    """Entries up to 2^30, few or many; or two of up to 2^38, which move rows of very small numbers."""
    most = rng.choice([1, 7, 2**10, 2**20, 2**30])
    h = {}
    if n > 1 and rng.random() < 0.4:
        i, k = rng.sample(range(n), 2)
        h[i, k] = h[k, i] = rng.choice([-1, 1]) * rng.randint(2**30, 2**38)
    else:
        for _ in range(min(rng.choice([n // 2, 2 * n, 4 * n]), 400)):
            i, k = rng.randrange(n), rng.randrange(n)
            h[i, k] = h[k, i] = rng.randint(-most, most)
    return runs.table(n, gen.entries(h), [rng.randint(-most, most) if rng.random() < 0.5 and len(h) < 800 and most < 2**30 else 0 for _ in range(n)])


def script(rng, m, rank, calls):
    numbers = factor(rng, m, rank)
    record = steps.fresh(rng, m, rank, 3, most=sum(calls) + 1, factor=numbers)
    tables = [table(rng, m - 1), table(rng, m - 1)]
    return ["new", runs.record_line(record), *[runs.sweep_line(tables[min(i, 1)], k, m * rank + i) for i, k in enumerate(calls)]]


# ---- the list -----------------------------------------------------------------------------------------------


def add(lines):
    rng, judge = random.Random("lengths 1"), Judge()
    for m, rank in [(m, rank) for rank in range(1, 33) for m in (2, 5)] + [(256, 1), (256, 3)]:
        answers = runs.Answered(script(rng, m, rank, CALLS[:2]))
        judge.look(answers)
        answers.add(lines)
    lines.heading(judge.said())


def seeded(lines, count, seed):
    """So many scripts; what came out is said at the end."""
    rng, judge = random.Random(f"lengths {seed}"), Judge()
    for _ in range(count):
        rank = rng.randint(1, 32)
        m = 256 if rng.random() < 0.02 else rng.choice([2, 3, 5, 9, 17, max(2, 256 // rank)])
        answers = runs.Answered(script(rng, m, rank, CALLS))
        judge.look(answers)
        answers.add(lines)
        yield
    print(judge.said(), file=sys.stderr)
