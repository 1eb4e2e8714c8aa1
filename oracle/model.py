#!/usr/bin/env python3
"""A second reading of documents 01 and 02, in plain Python, to hold the oracle against.

Written from their words and, where 01 points to them, from the six files; it shares no code with
the Rust harness. It reads and prints what the oracle's modes of the same name do:

    model.py answers | leaf | run        lines on standard input
    model.py trace                       one job record (bytes) on standard input

Slow; meant for small tables.
"""
import itertools
import math
import struct
import sys

NAN = float("nan")
INF = float("inf")

# 02, Note 5: the most wagons by a job's version; a call has the last's. A sign table has a sign more, and three entries a wagon and one more than H.
WAGONS = {1: 127, 2: 127, 3: 255}
MOST_WAGONS = WAGONS[3]
MOST_SIGNS, MOST_SIGN_ENTRIES = MOST_WAGONS + 1, 4096 + 3 * MOST_WAGONS + 1


# ---- doubles: one rounding per operation, nothing fused ------------------------------------


def div(a, b):
    if b != 0.0:
        return a / b
    if a == 0.0 or a != a:
        return NAN
    return math.copysign(INF, a) * math.copysign(1.0, b)


def root(x):
    if x != x or x < 0.0:
        return NAN
    return math.sqrt(x)


def total(numbers):
    result = 0.0
    for x in numbers:
        result = result + x
    return result


def dot(a, b):
    result = 0.0
    for x, y in zip(a, b, strict=True):
        result = result + x * y
    return result


def norm(a):
    return root(total(x * x for x in a))


def norm4(a):
    """The norm of rules 3 and 4: four running sums, then the rest one by one."""
    sums = [0.0] * 4
    whole = len(a) // 4 * 4
    for k in range(whole):
        sums[k % 4] = sums[k % 4] + a[k] * a[k]
    result = (sums[0] + sums[1]) + (sums[2] + sums[3])
    for x in a[whole:]:
        result = result + x * x
    return root(result)


def project(rows):
    return [[div(x, length) for x in row] for row, length in ((r, norm(r)) for r in rows)]


# ---- tables: lists of (row, column, value), rising ------------------------------------------


def sign_table(n, entries, c):
    """01's sign table of H and c, in eighths."""
    h = {(i, j): v for i, j, v in entries}
    for i, x in enumerate(c):
        if x != 0:
            h[i, i] = h.get((i, i), 0) + 2 * x
    q = dict(h)
    for i in range(n):
        row = sum(v for (r, _), v in h.items() if r == i)
        if row != 0:
            q[i, n] = q[n, i] = -row
    q[n, n] = sum(h.values())
    return [(i, j, q[i, j]) for i, j in sorted(q)]


def set_aside(table):
    """The table of the sweeps: off its diagonal, unless all of the diagonal is 0."""
    if all(v == 0 for i, j, v in table if i == j):
        return list(table)
    return [(i, j, v) for i, j, v in table if i != j]


def diagonal(m, table):
    values = [0.0] * m
    for i, j, v in table:
        if i == j:
            values[i] = v / 8
    return values


def floor_of(table):
    return sum(v if i == j else -abs(v) for i, j, v in table)


def float_bound(table):
    bound = floor_of(table) / 8
    magnitude = sum(abs(v) for _, _, v in table) / 8
    return bound - ((8.0 * 2.0**-52) * (float(len(table)) + 1.0)) * magnitude


def obj_rounded(table, x):
    return sum(v if i == j else 2 * v * x[i] * x[j] for i, j, v in table if i <= j)


def cost(entries, c, b):
    """Eighths: 4·b·H·b + 8·c·b."""
    return 4 * sum(v * b[i] * b[j] for i, j, v in entries) + 8 * sum(x * y for x, y in zip(c, b))


def decode(x):
    return [int(s != x[-1]) for s in x[:-1]]


def default_rank(m):
    r = 0
    while r * r < 2 * m:
        r += 1
    return max(1, min(m, r + 1))


# ---- pinned wagons (02, Note 1) --------------------------------------------------------------


def reduced(n, entries, c, pins):
    """The free wagons, H and c of them alone, and the constant in eighths."""
    free = [i for i in range(n) if i not in pins]
    new = {i: k for k, i in enumerate(free)}
    h = [(new[i], new[j], v) for i, j, v in entries if i in new and j in new]
    costs = [c[i] + sum(v for r, j, v in entries if r == i and pins.get(j) == 1) for i in free]
    return free, h, costs, cost(entries, c, merged(n, free, [0] * len(free), pins))


def merged(n, free, b, pins):
    """The choice of all wagons: the free ones as chosen, the pinned ones in their stores."""
    chosen = dict(zip(free, b, strict=True)) | pins
    return [chosen[i] for i in range(n)]


# ---- signs in words (02, Notes 4 and 5) --------------------------------------------------------


def choice_words(m):
    """Two to 128 signs, then four."""
    return 2 if m <= 128 else 4


def packed(signs):
    """Words of 64 bits, bit i set for sign −, unused bits 0; any byte but 0 is −."""
    bits = 64 * choice_words(len(signs))
    digits = "".join("01"[s != 0] for s in signs).ljust(bits, "0")
    return [int(digits[k : k + 64][::-1], 2) for k in range(0, bits, 64)]


def distance(m, x, y):
    """The number of ones in the exclusive or of two choices of m signs."""
    words = choice_words(m)
    return sum(f"{a ^ b:b}".count("1") for a, b in zip(x[:words], y[:words], strict=True))


def choice_number(m, *slices):
    """31 of slices (needed, lent), which rests on m; 13 of m."""
    bad = not 1 <= m <= MOST_SIGNS
    return first((31, lambda: not bad and any(lent < needed for needed, lent in slices)), (13, lambda: bad))


# ---- costs known within ranges (02, Note 8) --------------------------------------------------


def ends(entries):
    """The low and the high table of entries (row, column, low, high)."""
    return [(i, j, low) for i, j, low, _ in entries], [(i, j, high) for i, j, _, high in entries]


def ranged_numbers(n, count, entries, low_c, high_c):
    """The numbers of a ranged table in their order, each with its test: 23, low above high, for an entry after 14, for a c before 16."""
    low, high = ends(entries)
    ranges = [(a, b) for _, _, a, b in entries]
    larger = lambda pairs: sum(max(abs(a), abs(b)) for a, b in pairs)
    return (
        (13, lambda: n > MOST_WAGONS or count > 4096),
        (14, lambda: n14(n, low)),
        (23, lambda: any(a > b for a, b in ranges)),
        (15, lambda: n15(low) or n15(high)),
        (23, lambda: any(a > b for a, b in zip(low_c, high_c))),
        (16, lambda: larger(ranges) + 2 * larger(zip(low_c, high_c)) > 2**40),
    )


def ranged_figures(n, entries, low_c, high_c, b):
    """Eighths: what the choice costs by the low and by the high table, and the low table's floor."""
    low, high = ends(entries)
    return [cost(low, low_c, b), cost(high, high_c, b), floor_of(sign_table(n, low, low_c))]


def tables_within(entries, low_c, high_c):
    """Every mirrored table within the ranges, as entries and c."""
    places = [(i, j, low, high) for i, j, low, high in entries if i <= j]
    for values in itertools.product(*[range(low, high + 1) for *_, low, high in places], *[range(a, b + 1) for a, b in zip(low_c, high_c)]):
        h = {}
        for (i, j, _, _), v in zip(places, values):
            h[i, j] = h[j, i] = v
        yield [(i, j, h[i, j]) for i, j in sorted(h)], list(values[len(places) :])


# ---- small houses in full (02, Note 9) ----------------------------------------------------------

MOST_WALKED = 16


def least_choice(n, entries, c):
    """All 2^n choices, wagon 0 the lowest binary digit: the first of least cost, its cost, and how many were visited."""
    best, least, visited = None, None, 0
    for k in range(2**n):
        b = [k // 2**i % 2 for i in range(n)]
        this = cost(entries, c, b)
        visited += 1
        if best is None or this < least:
            best, least = b, this
    return best, least, visited


def walk_number(n, count, rows, cols, values, c, lent):
    """31, where the table's slices rest on the count, c and the choice's on n; 13 to 16, a c that isn't there counting 0; 24."""
    many, bad_count = n > MOST_WALKED, count > 4096
    short = lambda: not bad_count and min(map(len, (rows, cols, values))) < count or not many and min(len(c), lent) < n
    entries = lambda: list(zip(rows, cols, values))[:count]
    return first((31, short), (13, lambda: n > MOST_WAGONS or bad_count), (14, lambda: n14(n, entries())), (15, lambda: n15(entries())),
                 (16, lambda: n16(entries(), c[:n])), (24, lambda: many))


def at_most_eighths(x, v):
    """Whether a double is finite and at most v / 8, in whole numbers."""
    if math.isnan(x) or math.isinf(x):
        return False
    above, below = x.as_integer_ratio()
    return 8 * above <= v * below


# ---- floats over tables ---------------------------------------------------------------------


def by_row(m, table):
    rows = [[] for _ in range(m)]
    for i, j, v in table:
        rows[i].append((j, v / 8))
    return rows


def multiply(table, factor):
    rank = len(factor[0]) if factor else 0
    product = []
    for row in by_row(len(factor), table):
        product.append([total(q * factor[k][j] for k, q in row) for j in range(rank)])
    return product


def obj(table, factor):
    trace = 0.0
    for i, j, v in table:
        if i == j:
            trace = trace + v / 8
        if i < j:
            trace = trace + (2.0 * (v / 8)) * dot(factor[i], factor[j])
    return trace


def grad(table, factor):
    return [[2.0 * x for x in row] for row in multiply(table, factor)]


def duals(table, factor):
    return [dot(p, v) for p, v in zip(multiply(table, factor), factor)]


def multipliers(table, factor):
    values = duals(set_aside(table), factor)
    return [d + x for d, x in zip(values, diagonal(len(factor), table))]


def moved(factor, alpha, gradient, sign):
    def one(v, g):
        return v + alpha * g if sign > 0 else v - alpha * g

    return [[one(v, g) for v, g in zip(r, s)] for r, s in zip(factor, gradient)]


def step(rule, number, table, factor):
    """One sweep; a new factor."""
    return step_told(rule, number, table, factor)[0]


def step_told(rule, number, table, factor):
    """One sweep; a new factor, and how many rows it left as they were under rules 3 and 4."""
    if rule <= 1:
        return gradient_step(rule, number, table, factor), 0
    factor, left = [list(row) for row in factor], 0
    for i, row in enumerate(by_row(len(factor), table)):
        factor[i], wrote = row_step(rule, number, i, row, factor)
        left += not wrote
    return factor, left


def gradient_step(rule, number, table, factor):
    if rule == 0:
        return project(moved(factor, number, grad(table, factor), -1))
    g = grad(table, factor)
    f0 = obj(table, factor)
    x = obj(table, moved(factor, number, g, 1)) - f0
    y = obj(table, moved(factor, number, g, -1)) - f0
    alpha = div((0.5 * (y - x)) * number, x + y)
    if obj(table, moved(factor, alpha, g, -1)) > f0:
        alpha = number
    return project(moved(factor, alpha, g, -1))


def row_step(rule, number, i, row, factor):
    """The row anew, and whether it was written: under rules 3 and 4 only where its norm is at least 1E-24."""
    old = factor[i]
    g = [0.0] * len(old)
    for k, q in row:
        if k != i:
            g = [x + q * v if rule == 2 else x - q * v for x, v in zip(g, factor[k])]
    if rule == 2:
        t = [v - number * x for v, x in zip(old, g)]
        length = norm(t)
        return [div(x, length) for x in t], True
    length = norm4(g)
    if not length >= 1e-24:
        return old, False
    inverse = div(1.0, length)
    new = [x * inverse for x in g]
    if rule == 4 and number != 0.0:
        new = [(1.0 + number) * x - number * v for x, v in zip(new, old)]
        inverse = div(1.0, norm4(new))
        new = [x * inverse for x in new]
    return new, True


def start_factor(kind, most, m, rank, numbers):
    def rows(flat):
        return [flat[i * rank : (i + 1) * rank] for i in range(m)]

    if kind in (0, 1):
        return project(rows(numbers))
    factor = [[0.0] * rank for _ in range(m)]
    if most > 0 and rank > 1:
        factor = [[1e-2 * x for x in row] for row in project(rows(numbers[m:]))]
    for i in range(m):
        factor[i][0] = 1.0 if numbers[i] >= 0.0 else -1.0
    return project(factor)


def start_count(kind, most, m, rank):
    if kind in (0, 1):
        return m * rank
    return m + (m * rank if most > 0 and rank > 1 else 0)


def round_draw(factor, draw):
    length = norm(draw)
    unit = [div(x, length) for x in draw]
    return [1 if dot(row, unit) > 0.0 else -1 for row in factor]


def round_all(table, factor, draws):
    best = None
    for draw in draws:
        x = round_draw(factor, draw)
        o = obj_rounded(table, x)
        if best is None or o < best[1]:
            best = (x, o)
    return best


def search(table, width, start, keep=lambda child: True):
    """Signs, objective, sizes of the non-empty levels, of the children that are kept."""
    best = (start, obj_rounded(table, start))
    levels = []
    if width == 0:
        return best[0], best[1], levels
    m = len(start)
    rows = [[] for _ in range(m)]
    own = [0] * m
    for i, j, v in table:
        rows[i].append((j, v))
        if i == j:
            own[i] = v

    def children(x, o):
        for i in range(m):
            change = 4 * own[i] - 4 * x[i] * sum(v * x[j] for j, v in rows[i])
            child = x[:i] + [-x[i]] + x[i + 1 :]
            if change < 0 and keep(child):
                yield child, o + change

    level = list(children(*best))
    while level:
        levels.append(len(level))
        for child in level:
            if child[1] < best[1]:
                best = child
        level = sorted((y for x in level for y in children(*x)), key=lambda y: y[1])[:width]
    return best[0], best[1], levels


# ---- by block, then the house (02, Notes 6 and 10) ---------------------------------------------


def searched_among(n, entries, c, width, moving, b):
    """The wagons that move searched with all others held where b has them: the choice, and by how much its full cost falls, in eighths."""
    free, h, costs, _ = reduced(n, entries, c, {i: b[i] for i in range(n) if i not in moving})
    start = [1 - 2 * b[i] for i in free] + [1]
    found = search(sign_table(len(free), h, costs), width, start)[0]
    after = list(b)
    for i, store in zip(free, decode(found), strict=True):
        after[i] = store
    return after, cost(entries, c, b) - cost(entries, c, after)


def by_blocks(n, entries, c, pins, present, blocks, width):
    """The last choice, and each block's fall in eighths. A pinned wagon is taken out of a block before the search."""
    b, falls = [pins.get(i, present[i]) for i in range(n)], []
    for block in blocks:
        b, fall = searched_among(n, entries, c, width, set(block) - set(pins), b)
        falls.append(fall)
    return searched_among(n, entries, c, width, set(range(n)) - set(pins), b)[0], falls


# ---- at most k wagons moved (02, Note 13) --------------------------------------------------------


def wagons_moved(b, present):
    return sum(x != y for x, y in zip(b, present, strict=True))


def limited(n, entries, c, present, k, width):
    """The choice, its cost in eighths, the rounds: the anchor stays, and at most k wagons stand elsewhere than they do now."""
    start = [1 - 2 * b for b in present] + [1]
    found, objective, levels = search(sign_table(n, entries, c), width, start, lambda x: x[n] == 1 and wagons_moved(decode(x), present) <= k)
    return decode(found), objective, len(levels)


def limited_holds(entries, c, present, k, b, cost_, rounds):
    """02's promises of the choice b: within k, no dearer than the present one, and no choice within k that differs from it in one wagon costs less."""
    one = [b[:i] + [1 - b[i]] + b[i + 1 :] for i in range(len(b))]
    fall = cost(entries, c, present) - cost_
    return (wagons_moved(b, present) <= k and cost_ == cost(entries, c, b) and 4 * rounds <= fall and (k > 0 or b == present)
            and all(cost_ <= cost(entries, c, x) for x in one if wagons_moved(x, present) <= k))


# ---- the run --------------------------------------------------------------------------------

OPEN, STOPPED = 0, 1


class Run:
    """The run record, with the factor beside it."""

    FIELDS = (
        "size rank rule number sweeps last objective_tolerance stationarity_tolerance "
        "minimum most stage status standing"
    ).split()


def opened(n, entries, c, s):
    """s: rank, rule, number, most, minimum, two tolerances, start, numbers."""
    run = Run()
    m = n + 1
    run.size, run.rank = m, s["rank"] or default_rank(m)
    run.rule, run.number = s["rule"], 0.0 if s["rule"] == 3 else s["number"]
    run.sweeps, run.status, run.standing = 0, 0, 0
    run.minimum, run.most = s["minimum"], s["most"]
    run.objective_tolerance = s["objective_tolerance"]
    run.stationarity_tolerance = s["stationarity_tolerance"]
    run.factor = start_factor(s["start"], run.most, m, run.rank, s["numbers"])
    run.last = obj(set_aside(sign_table(n, entries, c)), run.factor)
    run.stage = STOPPED if run.most == 0 else OPEN
    return run


def measured(work, factor):
    """Multipliers, objective, residual and norm of a check."""
    product = multiply(work, factor)
    dual = [dot(p, v) for p, v in zip(product, factor)]
    squares = []
    for p, d, v in zip(product, dual, factor):
        for x, y in zip(p, v):
            difference = x - d * y
            squares.append(difference * difference)
    length = root(total(x * x for p in product for x in p))
    return dual, total(dual), root(total(squares)), length


def swept(run, work):
    """One sweep; what the check found, if one was due."""
    run.factor, left = step_told(run.rule, run.number, work, run.factor)
    run.sweeps += 1
    run.standing += left
    found = None
    if run.sweeps in (1, run.minimum, run.most) or run.sweeps % 20 == 0:
        dual, new, residual, length = measured(work, run.factor)
        threshold = run.stationarity_tolerance * (length if length > 1.0 else 1.0)
        previous, run.last = run.last, new
        decision = "GoOn"
        if run.sweeps >= run.minimum and residual <= threshold:
            decision, run.status = "Stationary", 1
        elif run.rule <= 2 and abs(new - previous) < run.objective_tolerance:
            decision, run.status = "ObjectiveTolerance", 1
        elif run.rule <= 2 and new > previous:
            decision, run.status = "ObjectiveIncreased", 2
        found = (dual, residual, length, threshold, previous, new, decision)
    if run.status != 0 or run.sweeps == run.most:
        run.stage = STOPPED
    return found


def finished(run, n, entries, c, width, draws):
    table = sign_table(n, entries, c)
    rounded, rounded_cost = round_all(table, run.factor, draws)
    signs, least, levels = search(table, width, rounded)
    b = decode(signs)
    assert cost(entries, c, b) == least
    return {
        "relaxed": run.last + total(diagonal(n + 1, table)),
        "bound": float_bound(table),
        "floor": floor_of(table),
        "rounded": rounded,
        "rounded_cost": rounded_cost,
        "signs": signs,
        "cost": least,
        "levels": levels,
        "b": b,
        "dual": multipliers(table, run.factor),
    }


# ---- a turn of several runs (02, Note 11) ------------------------------------------------------


def shares(sweeps, opens):
    """"With a runs not stopped .. each gets S div a, and the first S mod a of them, by number, one more"; a stopped run gets none."""
    a, out, before = sum(opens), [], 0
    for is_open in opens:
        out.append(sweeps // a + (before < sweeps % a) if is_open else 0)
        before += is_open
    return out


def turn_number(sweeps, count, numbers):
    """"25, S out of range, before 26. 26, no run or more than 8 ..; then the first run that its own number .. refuses"; `numbers` are the runs' own."""
    return first((25, lambda: not 8 <= sweeps <= 10000), (26, lambda: not 1 <= count <= 8), *[(k, lambda: True) for k in numbers if k])


# ---- numbers --------------------------------------------------------------------------------


def n14(size, entries):
    before = None
    for i, j, _ in entries:
        if i >= size or j >= size or (before is not None and before >= (i, j)):
            return True
        before = (i, j)
    return False


def n15(entries):
    h = {(i, j): v for i, j, v in entries}
    return any(h.get((j, i)) != v for i, j, v in entries)


def n16(entries, c):
    return sum(abs(v) for _, _, v in entries) + 2 * sum(map(abs, c)) > 2**40


def n18(rule, number):
    return rule > 4 or (rule == 4 and not 0.0 <= number < 1.0)


def first(*pairs):
    for number, holds in pairs:
        if holds():
            return number
    return 0


class Refused(Exception):
    pass


def refuse(condition, number):
    if condition:
        raise Refused(number)


class Reader:
    def __init__(self, data):
        self.data, self.at = data, 0

    def take(self, k):
        refuse(self.at + k > len(self.data), 11)
        self.at += k
        return self.data[self.at - k : self.at]

    def u(self, k):
        return int.from_bytes(self.take(k), "big")

    def i64(self):
        return int.from_bytes(self.take(8), "big", signed=True)

    def f64(self):
        return struct.unpack(">d", self.take(8))[0]


def read_job(data):
    refuse(len(data) > 65536, 11)
    r = Reader(data)
    refuse(r.u(4) != len(data) - 4, 11)
    version = r.u(1)
    refuse(version not in WAGONS, 12)
    n = r.u(1)
    refuse(n > WAGONS[version], 13)
    count = r.u(2)
    refuse(count > 4096, 13)
    entries = []
    for _ in range(count):
        e = Reader(r.take(10))
        entries.append((e.u(1), e.u(1), e.i64()))
        refuse(n14(n, entries[-2:]), 14)
    refuse(n15(entries), 15)
    c = [r.i64() for _ in range(n)]
    refuse(n16(entries, c), 16)
    pins = read_pins(r, n) if version >= 2 else {}
    m = n - len(pins) + 1
    s = {"rank": r.u(1)}
    refuse(s["rank"] > 32, 17)
    s["rule"] = r.u(1)
    refuse(s["rule"] > 4, 18)
    s["number"] = r.f64()
    refuse(n18(s["rule"], s["number"]), 18)
    s["most"], s["minimum"] = r.u(4), r.u(4)
    s["objective_tolerance"], s["stationarity_tolerance"] = r.f64(), r.f64()
    width = r.u(1)
    refuse(width > 128, 19)
    s["start"] = r.u(1)
    refuse(s["start"] > 2, 19)
    refuse(s["start"] == 1 and s["rank"] == 0, 17)
    rank = s["rank"] or default_rank(m)
    s["numbers"] = [r.f64() for _ in range(start_count(s["start"], s["most"], m, rank))]
    draw_count = r.u(2)
    refuse(not 1 <= draw_count <= 1000, 19)
    draws = [[r.f64() for _ in range(rank)] for _ in range(draw_count)]
    refuse(r.at != len(data), 11)
    return n, entries, c, s, width, draws, pins


def read_pins(r, n):
    """The store of each pinned wagon. A byte is judged once it is read: the wagon before its store."""
    pins = {}
    for _ in range(r.u(1)):
        wagon = r.u(1)
        refuse(wagon >= n or wagon in pins, 21)
        store = r.u(1)
        refuse(store > 1, 21)
        pins[wagon] = store
    return pins


# ---- words ----------------------------------------------------------------------------------


def bits(x):
    if x != x:
        return 0x7FF8000000000000
    return struct.unpack(">Q", struct.pack(">d", x))[0]


def word(x):
    if isinstance(x, float):
        x = bits(x)
    return f"{x % 2**64:016X}"


def out(*parts):
    """Lists are slices: their length, then their words."""
    text = []
    for part in parts:
        if isinstance(part, list):
            text.append(word(len(part)))
            text += [word(x) for x in part]
        else:
            text.append(word(part))
    return " ".join(text)


def out_table(table):
    return " ".join([word(len(table))] + [word(x) for e in table for x in e])


def flat(rows):
    return [x for row in rows for x in row]


def sign_words(x):
    return [int(s < 0) for s in x]


class Words:
    def __init__(self, line):
        self.name, *self.rest = line.split()
        self.rest.reverse()

    def u(self):
        return int(self.rest.pop(), 16)

    def i(self):
        value = self.u()
        return value - 2**64 if value >= 2**63 else value

    def f(self):
        return struct.unpack(">d", struct.pack(">Q", self.u()))[0]

    def slice(self, element):
        return [element() for _ in range(self.u())]

    def table(self):
        size = self.u()
        return size, self.slice(lambda: (self.u(), self.u(), self.i()))

    def signs(self):
        return [-1 if x else 1 for x in self.slice(self.u)]

    def rows(self, rank):
        numbers = self.slice(self.f)
        return [numbers[k : k + rank] for k in range(0, len(numbers), rank)]

    def table_factor(self):
        _, table = self.table()
        rank = self.u()
        return table, self.rows(rank), rank


# ---- modes ----------------------------------------------------------------------------------


def answer(data):
    try:
        n, entries, c, s, width, draws, pins = read_job(data)
    except Refused as refusal:
        return bytes([0, 0, 0, 2, 1, refusal.args[0]])
    free, h, costs, constant = reduced(n, entries, c, pins)
    run = opened(len(free), h, costs, s)
    work = set_aside(sign_table(len(free), h, costs))
    while run.stage == OPEN:
        swept(run, work)
    f = finished(run, len(free), h, costs, width, draws)
    b = merged(n, free, f["b"], pins)
    assert cost(entries, c, b) == f["cost"] + constant
    return record(run, f, b, constant)


def record(run, f, b, constant):
    """The answer record: the run and its result f on the free wagons, the choice of all."""
    body = bytes([1, run.status, run.rank, len(b)]) + struct.pack(">I", run.sweeps)
    body += struct.pack(">QQ", bits(f["relaxed"]), bits(f["bound"]))
    body += b"".join(struct.pack(">q", f[x] + constant) for x in ("floor", "rounded_cost", "cost"))
    body += struct.pack(">Q", len(f["levels"])) + bytes(b)
    return struct.pack(">I", len(body)) + body


def trace(data):
    lines = []

    def line(name, *values):
        shown = []
        for value in values:
            for x in value if isinstance(value, (list, tuple)) else [value]:
                shown.append(word(x) if isinstance(x, float) else str(x))
        lines.append(" ".join([name] + shown))

    try:
        all_n, all_entries, all_c, s, width, draws, pins = read_job(data)
    except Refused as refusal:
        line("refused", refusal.args[0])
        line("answer", answer(data).hex().upper())
        return lines
    free, entries, c, constant = reduced(all_n, all_entries, all_c, pins)
    n = len(free)
    if pins:
        line("free", free)
        line("constant", constant)
    table = sign_table(n, entries, c)
    work = set_aside(table)
    line("size", n + 1)
    line("sign_table", len(table))
    for entry in table:
        line("entry", entry)
    run = opened(n, entries, c, s)
    line("rank", run.rank)
    line("start_factor", flat(run.factor))
    line("objective_at_open", run.last)
    line("work_entries", len(work))
    line("diagonal", diagonal(n + 1, table))
    while run.stage == OPEN:
        found = swept(run, work)
        line("sweep", run.sweeps)
        line("factor", flat(run.factor))
        if found:
            names = "multipliers residual norm threshold previous objective decision"
            for name, value in zip(names.split(), found):
                line("check_" + name, value)
    line("status", run.status)
    line("sweeps", run.sweeps)
    for draw in draws:
        x = round_draw(run.factor, draw)
        line("draw_signs", sign_words(x))
        line("draw_objective", obj_rounded(table, x))
    f = finished(run, n, entries, c, width, draws)
    line("relaxed_objective", f["relaxed"])
    line("dual_variables", f["dual"])
    line("float_bound", f["bound"])
    line("floor", f["floor"])
    line("rounded_signs", sign_words(f["rounded"]))
    line("rounded_cost", f["rounded_cost"])
    line("level_sizes", f["levels"])
    line("rounds", len(f["levels"]))
    line("signs", sign_words(f["signs"]))
    line("cost", f["cost"])
    line("choice", f["b"])
    line("answer", record(run, f, merged(all_n, free, f["b"], pins), constant).hex().upper())
    return lines


def leaf(line):
    w = Words(line)
    result = LEAVES[w.name](w)
    assert not w.rest, "words left over"
    return f"{line} = {result}"


def leaf_signtable(w):
    n, entries = w.table()
    return out_table(sign_table(n, entries, w.slice(w.i)))


def leaf_cost(w):
    _, entries = w.table()
    c = w.slice(w.i)
    return out(cost(entries, c, [int(x != 0) for x in w.slice(w.u)]))


def leaf_beam(w):
    _, table = w.table()
    width = w.u()
    signs, least, levels = search(table, width, w.signs())
    return out(sign_words(signs), least, len(levels))


def leaf_work(w):
    m, table = w.table()
    return out_table(set_aside(table)) + " " + out(diagonal(m, table))


def leaf_prepared(w):
    m, table = w.table()
    work, values = set_aside(table), diagonal(m, table)
    starts = [sum(i < k for i, _, _ in work) for k in range(m + 1)]
    places = [i for i, _, _ in work], [j for _, j, _ in work]
    return out(*places, [v / 8 for _, _, v in work], starts, values, total(values))


def leaf_project(w):
    w.u()
    return out(flat(project(w.rows(w.u()))))


def leaf_factor(function):
    def run(w):
        table, factor, _ = w.table_factor()
        result = function(table, factor)
        return out(flat(result) if isinstance(result[0], list) else result)

    return run


def leaf_obj(w):
    table, factor, _ = w.table_factor()
    return out(obj(table, factor))


def leaf_step(w):
    rule, number = w.u(), w.f()
    table, factor, _ = w.table_factor()
    return out(flat(step(rule, number, table, factor)))


def leaf_start(w):
    kind, most, m, rank = w.u(), w.u(), w.u(), w.u()
    return out(flat(start_factor(kind, most, m, rank, w.slice(w.f))))


def leaf_check(w):
    table, factor, _ = w.table_factor()
    dual, new, residual, length = measured(table, factor)
    return out(dual, new, residual, length)


def leaf_round(w):
    rank = w.u()
    w.u()
    factor = w.rows(rank)
    return out(sign_words(round_draw(factor, w.slice(w.f))))


def leaf_rounded(w):
    table, factor, rank = w.table_factor()
    w.u()
    x, o = round_all(table, factor, w.rows(rank))
    return out(sign_words(x), o)


def leaf_sols(w):
    rank = w.u()
    w.u()
    factor = w.rows(rank)
    w.u()
    return out([s for draw in w.rows(rank) for s in sign_words(round_draw(factor, draw))])


def called(w):
    """Size, entries, the rank meant, factor, and the numbers with their conditions, 31 apart."""
    m = w.u()
    count, entries, short = lent_entries(w)
    rank, factor = w.u(), w.slice(w.f)
    bad, wide = not 1 <= m <= MOST_SIGNS, rank > 32
    meant = rank or (0 if bad else default_rank(m))
    short = count <= MOST_SIGN_ENTRIES and short or not bad and not wide and len(factor) < m * meant
    numbers = [
        (13, lambda: bad or count > MOST_SIGN_ENTRIES),
        (14, lambda: n14(m, entries)),
        (15, lambda: n15(entries)),
        (16, lambda: sum(abs(v) for _, _, v in entries) > 2**42),
        (17, lambda: wide),
    ]
    rows = [] if bad or wide else [factor[i * meant : i * meant + meant] for i in range(m)]
    return m, entries, rank, meant, rows, short, numbers


def leaf_dual_call(w):
    m, entries, _, _, rows, short, numbers = called(w)
    room = w.u()
    short = short or 1 <= m <= MOST_SIGNS and room < m
    number = first((31, lambda: short), *numbers)
    return out(number) if number else out(0, duals(entries, rows))


def leaf_divided_call(w):
    """02, Note 7: each numerator over the whole table divided by its row's product with itself; a rank of 0 is 17, and the factor's length is then not tested."""
    m = w.u()
    count, entries, short = lent_entries(w)
    rank, factor, room = w.u(), w.slice(w.f), w.u()
    bad, wrong = not 1 <= m <= MOST_SIGNS, not 1 <= rank <= 32
    short = count <= MOST_SIGN_ENTRIES and short or not bad and (room < m or not wrong and len(factor) < m * rank)
    number = first(
        (31, lambda: short),
        (13, lambda: bad or count > MOST_SIGN_ENTRIES),
        (14, lambda: n14(m, entries)),
        (15, lambda: n15(entries)),
        (16, lambda: sum(abs(v) for _, _, v in entries) > 2**42),
        (17, lambda: wrong),
    )
    if number:
        return out(number)
    rows = [factor[i * rank : i * rank + rank] for i in range(m)]
    return out(0, [div(above, dot(v, v)) for above, v in zip(duals(entries, rows), rows)])


def leaf_rounded_call(w):
    m, entries, rank, meant, rows, short, numbers = called(w)
    count, draws, room = w.u(), w.slice(w.f), w.u()
    bad, none = not 1 <= m <= MOST_SIGNS, not 1 <= count <= 1000
    short = short or not bad and room < m
    if not (none or rank > 32 or rank == 0 and bad):
        short = short or len(draws) < count * meant
    number = first((31, lambda: short), *numbers, (19, lambda: none))
    if number:
        return out(number)
    x, o = round_all(entries, rows, [draws[k * meant : k * meant + meant] for k in range(count)])
    return out(0, sign_words(x), o)


def leaf_submatrix(w):
    _, table = w.table()
    new = {old: k for k, old in enumerate(w.slice(w.u))}
    w.slice(w.u)
    return out_table(sorted((new[i], new[j], v) for i, j, v in table if i in new and j in new))


def leaf_lift(w):
    lifted = [0.0] * w.u()
    indices, fixed = w.slice(w.u), w.slice(w.u)
    values, reduced = w.slice(w.f), w.slice(w.f)
    for i, x in list(zip(fixed, values)) + list(zip(indices, reduced)):
        lifted[i] = x
    return out(lifted)


def lent_entries(w):
    """Count, rows, columns, values; then the entries and whether the slices hold them."""
    count = w.u()
    slices = w.slice(w.u), w.slice(w.u), w.slice(w.i)
    return count, list(zip(*slices))[:count], min(map(len, slices)) < count


def n20(size, indices, fixed):
    out_of_range = any(i >= size for i in indices + fixed)
    return size > 1024 or out_of_range or len(set(indices)) < len(indices)


def leaf_sign_table_number(w):
    m = w.u()
    count, entries, short = lent_entries(w)
    return out(
        first(
            (31, lambda: count <= MOST_SIGN_ENTRIES and short),
            (13, lambda: not 1 <= m <= MOST_SIGNS or count > MOST_SIGN_ENTRIES),
            (14, lambda: n14(m, entries)),
            (15, lambda: n15(entries)),
            (16, lambda: sum(abs(v) for _, _, v in entries) > 2**42),
        )
    )


def leaf_submatrix_number(w):
    size = w.u()
    count, entries, short = lent_entries(w)
    indices, fixed = w.slice(w.u), w.slice(w.u)
    results = [w.u(), w.u(), w.u()]
    return out(
        first(
            (31, lambda: count <= MOST_SIGN_ENTRIES and (short or min(results) < count)),
            (13, lambda: count > MOST_SIGN_ENTRIES),
            (14, lambda: n14(size, entries)),
            (20, lambda: n20(size, indices, fixed)),
        )
    )


def leaf_lift_number(w):
    size = w.u()
    indices, fixed = w.slice(w.u), w.slice(w.u)
    values, reduced, lifted = w.u(), w.u(), w.u()
    short = values < len(fixed) or reduced < len(indices) or (size <= 1024 and lifted < size)
    return out(first((31, lambda: short), (20, lambda: n20(size, indices, fixed))))


LEAVES = {
    "sqrt": lambda w: out(root(w.f())),
    "rank": lambda w: out(default_rank(w.u())),
    "signtable": leaf_signtable,
    "obj_rounded": lambda w: out(obj_rounded(w.table()[1], w.signs())),
    "floor": lambda w: out(floor_of(w.table()[1])),
    "bound": lambda w: out(float_bound(w.table()[1])),
    "cost": leaf_cost,
    "decode": lambda w: out(decode(w.signs())),
    "beam": leaf_beam,
    "work": leaf_work,
    "prepared": leaf_prepared,
    "dot": lambda w: out(dot(w.slice(w.f), w.slice(w.f))),
    "norm": lambda w: out(norm(w.slice(w.f))),
    "project": leaf_project,
    "multiply": leaf_factor(multiply),
    "obj": leaf_obj,
    "grad": leaf_factor(grad),
    "dual": leaf_factor(duals),
    "multipliers": leaf_factor(multipliers),
    "step": leaf_step,
    "start": leaf_start,
    "check": leaf_check,
    "round": leaf_round,
    "rounded": leaf_rounded,
    "sols": leaf_sols,
    "dual_call": leaf_dual_call,
    "divided_call": leaf_divided_call,
    "rounded_call": leaf_rounded_call,
    "submatrix": leaf_submatrix,
    "lift": leaf_lift,
    "sign_table_number": leaf_sign_table_number,
    "submatrix_number": leaf_submatrix_number,
    "lift_number": leaf_lift_number,
}


class Script:
    def __init__(self):
        self.run = None

    def line(self, line):
        w = Words(line)
        number, result = getattr(self, "call_" + w.name)(w)
        assert not w.rest, "words left over"
        parts = [number]
        if self.run:
            parts += [getattr(self.run, field) for field in Run.FIELDS]
            parts.append(flat(self.run.factor))
        return f"{line} = {out(*parts, *result)}"

    def call_new(self, w):
        self.run = None
        return 0, []

    def call_record(self, w):
        run = Run()
        for field in Run.FIELDS:
            floats = "number last objective_tolerance stationarity_tolerance".split()
            setattr(run, field, w.f() if field in floats else w.u())
        numbers = w.slice(w.f)
        cut = run.size * run.rank
        cut = cut if 0 < cut <= len(numbers) else 0
        run.factor = [numbers[k : k + run.rank] for k in range(0, cut, run.rank or 1)]
        run.factor += [[x] for x in numbers[cut:]]
        self.run = run
        return 0, []

    def table(self, w):
        """n, entries, c; 31 of its slices; 13 to 16."""
        n = w.u()
        count, entries, short = lent_entries(w)
        c = w.slice(w.i)
        self.n, self.entries, self.c = n, entries, c[:n]
        self.bad_n = n > MOST_WAGONS
        self.short = (count <= 4096 and short) or (not self.bad_n and len(c) < n)
        return (
            (13, lambda: self.bad_n or count > 4096),
            (14, lambda: n14(n, entries)),
            (15, lambda: n15(entries)),
            (16, lambda: n16(entries, self.c)),
        )

    def ranged_table(self, w):
        """The same of a ranged table: n, entries and c are the high table's."""
        n, count = w.u(), w.u()
        rows, cols = w.slice(w.u), w.slice(w.u)
        low, high, low_c, high_c = [w.slice(w.i) for _ in range(4)]
        self.ranges = [*zip(rows, cols, low, high)][:count]
        self.low_c, self.high_c = low_c[:n], high_c[:n]
        self.n, self.entries, self.c, self.bad_n = n, ends(self.ranges)[1], self.high_c, n > MOST_WAGONS
        self.short = (count <= 4096 and min(map(len, (rows, cols, low, high))) < count) or (not self.bad_n and min(len(low_c), len(high_c)) < n)
        return ranged_numbers(n, count, self.ranges, self.low_c, self.high_c)

    def call_open(self, w):
        numbers = self.table(w)
        s = {"rank": w.u(), "rule": w.u(), "number": w.f(), "most": w.u(), "minimum": w.u()}
        s["objective_tolerance"], s["stationarity_tolerance"] = w.f(), w.f()
        s["start"], s["numbers"] = w.u(), w.slice(w.f)
        factor_length = w.u()
        bad_rank = s["rank"] > 32 or (s["rank"] == 0 and s["start"] == 1)
        short = self.short
        m = self.n + 1
        rank = s["rank"] or default_rank(min(m, MOST_SIGNS))
        if not self.bad_n and not bad_rank:
            short = short or factor_length < m * rank
            if s["start"] <= 2:
                needed = start_count(s["start"], s["most"], m, rank)
                short = short or len(s["numbers"]) < needed
        number = first(
            (31, lambda: short),
            *numbers,
            (17, lambda: bad_rank),
            (18, lambda: n18(s["rule"], s["number"])),
            (19, lambda: s["start"] > 2),
        )
        if number == 0:
            s["numbers"] = s["numbers"][:needed]
            self.run = opened(self.n, self.entries, self.c, s)
        return number, []

    def state_numbers(self, wrong_stage, factor_length, short):
        run = self.run
        agrees = run.size == self.n + 1
        bad_rank = not 1 <= run.rank <= 32
        if agrees and not bad_rank and not self.bad_n:
            short = short or factor_length < run.size * run.rank
        is_open = run.stage == OPEN
        return (
            (31, lambda: short),
            (32, lambda: run.stage == wrong_stage),
            (33, lambda: not agrees or bad_rank),
            (33, lambda: run.sweeps > run.most or (is_open and run.sweeps == run.most)),
            (33, lambda: run.status > 2 or (is_open and run.status != 0)),
            (33, lambda: run.standing > run.size * run.sweeps),
        )

    def call_sweep(self, w):
        numbers = self.table(w)
        k, factor_length, _ = w.u(), w.u(), w.u()
        run = self.run
        number = first(
            *self.state_numbers(STOPPED, factor_length, self.short),
            *numbers,
            (18, lambda: n18(run.rule, run.number)),
        )
        if number == 0:
            work = set_aside(sign_table(self.n, self.entries, self.c))
            made = 0
            while run.stage == OPEN and made < k:
                swept(run, work)
                made += 1
        return number, []

    def call_exchange(self, w):
        """02, Note 12: rule and number exchanged on an open run, all else carried over; 32, 33 of the record alone, 18."""
        rule, value, run = w.u(), w.f(), self.run
        is_open = run.stage == OPEN
        number = first(
            (32, lambda: not is_open),
            (33, lambda: not 1 <= run.rank <= 32 or run.sweeps >= run.most or run.status != 0 or run.standing > run.size * run.sweeps),
            (18, lambda: n18(run.rule, run.number) or n18(rule, value)),
        )
        if number == 0:
            run.rule, run.number = rule, 0.0 if rule == 3 else value
        return number, []

    def finish_number(self, w, numbers):
        """The number of a finish over the table just read; and its width and draws."""
        width, draw_count, draws = w.u(), w.u(), w.slice(w.f)
        factor_length, b_length, dual_length, _ = w.u(), w.u(), w.u(), w.u()
        run = self.run
        bad_draws = not 1 <= draw_count <= 1000
        short = self.short
        if not bad_draws and 1 <= run.rank <= 32:
            short = short or len(draws) < draw_count * run.rank
        if not self.bad_n:
            short = short or b_length < self.n or dual_length < self.n + 1
        number = first(
            *self.state_numbers(OPEN, factor_length, short),
            *numbers,
            (18, lambda: n18(run.rule, run.number)),
            (19, lambda: width > 128 or bad_draws),
        )
        return number, width, draw_count, draws

    def call_finish(self, w):
        return self.finish_over(w, self.table(w))

    def call_finish_ranged(self, w):
        """A finish on the high table, and the figures of its choice; the oracle has none."""
        number, result = self.finish_over(w, self.ranged_table(w))
        return number, result and [*result, *ranged_figures(self.n, self.ranges, self.low_c, self.high_c, result[-2])]

    def finish_over(self, w, numbers):
        run = self.run
        number, width, draw_count, draws = self.finish_number(w, numbers)
        if number != 0:
            return number, []
        draws = [draws[k * run.rank : (k + 1) * run.rank] for k in range(draw_count)]
        f = finished(run, self.n, self.entries, self.c, width, draws)
        head = [run.status, run.rank, self.n, run.sweeps, f["relaxed"], f["bound"], f["floor"]]
        return 0, head + [f["rounded_cost"], f["cost"], len(f["levels"]), run.standing, f["b"], f["dual"]]


def main():
    mode = sys.argv[1] if len(sys.argv) == 2 else ""
    script = Script()
    modes = {
        "answers": lambda line: answer(bytes.fromhex(line.strip("-"))).hex().upper(),
        "leaf": leaf,
        "run": script.line,
    }
    if mode == "trace":
        print("\n".join(trace(sys.stdin.buffer.read())))
    elif mode in modes:
        for line in sys.stdin:
            line = line.strip()
            if line and not line.startswith("#"):
                print(modes[mode](line))
    else:
        sys.exit("usage: model.py answers|leaf|run|trace")


if __name__ == "__main__":
    main()
