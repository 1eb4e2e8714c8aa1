"""Roots, eighths and bit patterns, worked out by whole numbers after IEEE 754 and 01, and the default rank, by the oracle."""
import math
import struct

from lists import leaves

NAN = 0x7FF8000000000000
INF = 0x7FF0000000000000
MINUS = 1 << 63


def root(b):
    """The bits of the double nearest to the exact root, ties to even."""
    field, digits = b >> 52 & 2047, b & (1 << 52) - 1
    if field == 2047:
        return NAN if digits or b >> 63 else b
    if field == 0 and digits == 0:
        return b
    if b >> 63:
        return NAN
    m, x = (digits, -1074) if field == 0 else (digits + (1 << 52), field - 1075)
    if x % 2:
        m, x = m * 2, x - 1
    n = m << 240
    whole = math.isqrt(n)
    drop = whole.bit_length() - 53
    q, middle = whole >> drop, ((whole >> drop) * 2 + 1) << drop - 1
    if n > middle * middle or n == middle * middle and q % 2:
        q += 1
    power = x // 2 - 120 + drop
    if q == 1 << 53:
        q, power = q // 2, power + 1
    return (power + 1075 << 52) + q - (1 << 52)


def eighth(v):
    """The bits of the double nearest to v / 8, ties to even."""
    if v == 0:
        return 0
    sign, n = (MINUS, -v) if v < 0 else (0, v)
    drop = max(n.bit_length() - 53, 0)
    q, rest = n >> drop, n & (1 << drop) - 1
    half = 1 << drop - 1 if drop else 1
    if drop and (rest > half or rest == half and q % 2):
        q += 1
    if q == 1 << 53:
        q, drop = q // 2, drop + 1
    up = 53 - q.bit_length()
    return sign + (drop - up - 3 + 1075 << 52) + (q << up) - (1 << 52)


def roots(rng):
    special = [0, MINUS, INF, MINUS | INF, NAN, INF | 1, MINUS | NAN, MINUS | 1, MINUS | 0x3FF0000000000000, 1, 2, 3, 4, (1 << 52) - 1, 1 << 52, (1 << 52) + 1, INF - 1]
    special += [0x4000000000000000, 0x3FF0000000000000, 0x3FF0000000000001, 0x3FEFFFFFFFFFFFFF, 0x4008000000000000, 0x4022000000000000]
    for _ in range(120):  # squares of doubles of 26 digits, and their neighbours
        s = rng.getrandbits(26) | 1 << 25
        b = struct.unpack(">Q", struct.pack(">d", float(s) * float(s) * 2.0 ** (2 * rng.randrange(-500, 450))))[0]
        special += [b - 1, b, b + 1]
    special += [rng.getrandbits(rng.randrange(1, 53)) for _ in range(60)]  # subnormals
    special += [rng.getrandbits(63) for _ in range(160)]
    return [(b, root(b)) for b in special if b < 1 << 64]


def eighths(rng):
    values = [0, 1, -1, 7, 8, -8, 1 << 53, -(1 << 53), (1 << 53) - 1, (1 << 53) + 1, (1 << 53) + 3, (1 << 63) - 1, -(1 << 63), 1 << 42, -(1 << 42)]
    values += [rng.randrange(-(1 << 42), 1 << 42) for _ in range(60)] + [rng.randrange(-(1 << 63), 1 << 63) for _ in range(60)]
    return [(v % (1 << 64), eighth(v)) for v in values]


def patterns(rng):
    values = [0, MINUS, INF, INF | MINUS, INF + 1, INF | MINUS | 1, NAN, NAN | MINUS, (1 << 64) - 1, (1 << 63) - 1, 1, MINUS | 1]
    values += [INF | rng.getrandbits(52) | rng.getrandbits(1) << 63 for _ in range(30)] + [rng.getrandbits(64) for _ in range(60)]
    is_nan = lambda b: b % MINUS > INF
    return [(b, NAN if is_nan(b) else b) for b in values]


def add(lines, rng):
    """sqrt, eighth, double_of and bits_of, default_sdp_rank."""
    for name, cases in (("sqrt", roots(rng)), ("eighth", eighths(rng))):
        for given, wanted in cases:
            lines.call(name, [], [given], 0, [wanted])
    for given, wanted in patterns(rng):
        lines.call("double_of", [], [given], 0, [wanted])
        lines.call("bits_of", [], [given], 0, [wanted])
    sizes = list(range(1, 300)) + [1023, 1024, 4096, 65535]
    for m, (rank,) in zip(sizes, leaves([("rank", [m]) for m in sizes])):
        lines.call("default_sdp_rank", [], [m], 0, [rank])
