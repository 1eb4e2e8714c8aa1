"""Choices in words: `pack_signs` and `distance` (02, Notes 4 and 5), which the Rust has not. Numbers and values are those of oracle/model.py."""
import random

import faults
import model
from faults import Fault, drop, put

SIZES = [1, 63, 64, 65, 127, 128, 129, 192, 193, 255, 256]
BYTES = [0, 0, 1, 1, 2, 128, 255]
WORD = 2**64 - 1


# ---- calls ------------------------------------------------------------------------------------------


def pack(lines, m, signs, words):
    """The signs into a slice of so many words; the number."""
    number = model.choice_number(m, (m, len(signs)), (model.choice_words(m), words))
    lines.call("pack_signs", [], [m, signs, words], number, [] if number else [model.packed(signs[:m])])
    return number


def apart(lines, m, x, y):
    """Two choices in words; the number."""
    number = model.choice_number(m, (model.choice_words(m), len(x)), (model.choice_words(m), len(y)))
    lines.call("distance", [], [m, x, y], number, [] if number else [model.distance(m, x, y)])
    return number


def differ(a, b):
    """In how many signs two choices differ."""
    return sum((s != 0) != (t != 0) for s, t in zip(a, b, strict=True))


# ---- cases ------------------------------------------------------------------------------------------


def choices(m):
    """All alike, stripes, and one sign − at each end and about the end of a word."""
    ones = [bytes(int(k == i) for k in range(m)) for i in (0, 62, 63, 64, 127, 128, 192, m - 1) if i < m]
    return list(dict.fromkeys([bytes(m), bytes([1]) * m, bytes(k % 2 for k in range(m)), bytes(k % 3 % 2 for k in range(m)), *ones]))


def add_sizes(lines):
    """Each packed, and its distance from itself, from all + and from all −: the number of signs in which they differ."""
    for m in SIZES:
        some = choices(m)
        for signs in some:
            pack(lines, m, signs, model.choice_words(m))
        for a in some:
            for b in dict.fromkeys((a, *some[:2])):
                x, y = model.packed(a), model.packed(b)
                assert model.distance(m, x, y) == differ(a, b)
                apart(lines, m, x, y)


def add_longer(lines, rng):
    """Slices with tails: signs behind the last and words behind a choice's don't count. Bits behind the last sign do."""
    for m in SIZES:
        signs = bytes(rng.choice(BYTES) for _ in range(m))
        for more in (1, 9):
            pack(lines, m, signs + bytes([1]) * more, model.choice_words(m) + more)
        x, y = model.packed(signs), model.packed(bytes(m))
        apart(lines, m, x + [WORD], y + [0])
        apart(lines, m, x + [WORD, 0, 1], y)
        words = model.choice_words(m)
        unused = model.packed(bytes(m) + bytes([1]) * (64 * words - m))
        for a, b in ((x, [p | q for p, q in zip(y, unused)]), (unused, y), (unused, unused), ([WORD] * words, [0] * words), ([WORD] * (words - 1) + [0], [WORD] * words)):
            apart(lines, m, a, b)


def add_pair(lines, m, a, b):
    """How far two choices are apart."""
    x, y = model.packed(a), model.packed(b)
    assert model.distance(m, x, y) == differ(a, b)
    apart(lines, m, x, y)


def add_random(lines, rng):
    for _ in range(20):
        m = rng.choice([rng.randint(1, 128), rng.randint(129, 256)])
        signs = lambda: bytes(rng.choice(BYTES) for _ in range(m))
        pack(lines, m, signs(), model.choice_words(m) + rng.randrange(3))
        add_pair(lines, m, signs(), signs())
    for _ in range(20):
        m = rng.choice([rng.randint(1, 128), rng.randint(129, 256)])
        some = lambda: [rng.getrandbits(64) for _ in range(model.choice_words(m))]
        pack(lines, m, rng.randbytes(m + rng.randrange(3)), model.choice_words(m))
        apart(lines, m, some(), some())


# ---- faults: each alone, at one size every two that change different fields --------------------------

REFUSED = [Fault(13, put(m=m), spoils="m") for m in (0, 257, WORD)]
CASES = {
    "distance": [Fault(31, drop(k, by), "m") for k in "xy" for by in (1, 2)] + REFUSED,
    "pack_signs": [Fault(31, drop("signs"), "m"), *[Fault(31, drop("words", by), "m") for by in (1, 2)]] + REFUSED,
}


def add_faults(lines):
    for name, kinds in CASES.items():
        lines.heading(f"{name}: faults")
        for m in SIZES:
            words = model.choice_words(m)
            given = {"m": m, "x": [5] + [WORD] * (words - 1), "y": [6] + [0] * (words - 1)} if name == "distance" else {"m": m, "signs": bytes([0, 1] * 128)[:m], "words": words}
            for some in [(), *(faults.in_pairs(kinds, given) if m == 65 else faults.single(kinds))]:
                s = faults.at_once(given, some)
                made = apart(lines, s["m"], s["x"], s["y"]) if name == "distance" else pack(lines, s["m"], s["signs"], s["words"])
                assert made == (faults.first_number(some) if some else 0), (name, s)


def add(lines):
    rng = random.Random("words 1")
    lines.heading("choices of the same size")
    add_sizes(lines)
    lines.heading("longer slices, unused bits that are set")
    add_longer(lines, rng)
    lines.heading("random choices and words")
    add_random(lines, rng)
    add_faults(lines)


def seeded(lines, count, seed):
    """So many calls of `distance`, each choice packed where it is made of signs: of signs and of any words in turn, some of them longer slices or too short."""
    for turn in range(0, count, 100):
        rng = random.Random(f"distances {seed} {turn}")
        for k in range(turn, min(count, turn + 100)):
            m = rng.choice([rng.randint(1, 64), rng.randint(65, 256), rng.choice(SIZES)])
            words = model.choice_words(m)
            if k % 2:
                apart(lines, m, *[[rng.getrandbits(64) for _ in range(max(0, words + rng.choice([0, 0, 0, 1, -1])))] for _ in "xy"])
            else:
                add_pair(lines, m, *[bytes(rng.choice(BYTES) for _ in range(m)) for _ in "xy"])
        yield
