"""The calls on tables: seeded ones, accepted and refused, and every fault of every call that takes slices, alone and in pairs."""
import calls
import faults
import gen
from lists import SEARCH_WORKSPACE


# ---- tables: size, entries, value limits

def mirrored(rng, size, pairs, value):
    """Entries in rising order, each with its mirror; some values are 0."""
    entries = {}
    for _ in range(pairs if size else 0):
        i, j, v = rng.randrange(size), rng.randrange(size), value()
        entries[i, j] = entries[j, i] = v
    return [(i, j, v) for (i, j), v in sorted(entries.items())]


def damaged(rng, size, entries):
    """A table with one thing wrong, or nothing."""
    out, kind = list(entries), rng.randrange(6)
    k = rng.randrange(len(out)) if out else None
    if out and kind == 0:
        out[k] = (out[k][0], out[k][1], out[k][2] + 1)
    elif out and kind == 1:
        out[k] = (size, out[k][1], out[k][2])
    elif out and kind == 2:
        del out[k]
    elif out and kind == 3:
        out.insert(k, out[k])
    elif out and kind == 4:
        out[k] = (out[k][0], out[k][1], -(1 << 63))
    return out


def values(rng):
    return rng.choice([lambda: rng.randrange(-9, 10), lambda: rng.randrange(-(1 << 30), 1 << 30), lambda: rng.randrange(3)])


def halls(rng):
    """(n, entries, c) of halls, accepted and refused."""
    out = [(0, [], []), (1, [(0, 0, 2)], [-3]), (2, [(0, 1, 3), (1, 0, 3)], [-1, -1]), (1, [(0, 0, 1 << 40)], [0]), (1, [(0, 0, (1 << 40) + 1)], [0])]
    out += [(1, [(0, 0, 0)], [1 << 39]), (1, [(0, 0, 1)], [1 << 39]), (1, [], [-(1 << 63)]), (256, [], [0] * 256), (255, [], [1] * 255), (2, [(0, 1, 0), (1, 0, 0)], [0, 0])]
    for _ in range(60):
        n = rng.randrange(1, 12)
        out.append((n, mirrored(rng, n, rng.randrange(3 * n), values(rng)), [rng.choice([0, 0, rng.randrange(-9, 10)]) for _ in range(n)]))
    for _ in range(30):
        n = rng.randrange(1, 8)
        out.append((n, damaged(rng, n, mirrored(rng, n, rng.randrange(1, 3 * n), values(rng))), [rng.randrange(-9, 10) for _ in range(n)]))
    out.append((90, mirrored(rng, 90, 900, lambda: rng.randrange(4)), [rng.randrange(3) for _ in range(90)]))
    return out


def sign_tables(rng):
    """(m, entries) of sign tables, accepted and refused."""
    out = [(1, [(0, 0, 0)]), (0, []), (257, []), (256, []), (2, [(0, 1, 1 << 41), (1, 0, 1 << 41)]), (2, [(0, 0, 1), (0, 1, 1 << 41), (1, 0, 1 << 41)])]
    for _ in range(50):
        m = rng.randrange(1, 12)
        out.append((m, mirrored(rng, m, rng.randrange(4 * m), values(rng))))
    for _ in range(30):
        m = rng.randrange(1, 8)
        out.append((m, damaged(rng, m, mirrored(rng, m, rng.randrange(1, 3 * m), values(rng)))))
    out.append((128, mirrored(rng, 128, 1500, lambda: rng.randrange(8))))
    return out


def lent(size, entries, **fields):
    """The fields of a call on a table in slices of just its length."""
    rows, cols, values_ = ([e[k] for e in entries] for k in range(3))
    return {**size, "count": len(entries), "rows": rows, "cols": cols, "values": values_, **fields}


def signed(m, entries, **fields):
    return lent({"m": m}, entries, **fields)


def hall(n, entries, c, **fields):
    return lent({"n": n}, entries, c=c, **fields)


def add(lines, rng):
    """The seeded cases."""
    sign, wagons = sign_tables(rng), halls(rng)
    signs = lambda m: bytes(rng.randrange(2) for _ in range(m))
    room = lambda n, e: dict.fromkeys(("to_rows", "to_cols", "to_values"), len(e) + 3 * n + 1)
    calls.add(lines, "obj_rounded", [signed(m, e, signs=signs(m)) for m, e in sign])
    calls.add(lines, "floor_eighths", [signed(m, e) for m, e in sign])
    calls.add(lines, "entrywise_lower_bound", [signed(m, e) for m, e in sign])
    calls.add(lines, "qubo_sign_table", [hall(n, e, c, **room(n, e)) for n, e, c in wagons])
    calls.add(lines, "eval_qubo_objective", [hall(n, e, c, b=signs(n)) for n, e, c in wagons])
    beams = []
    for m, e in sign + [(9, mirrored(rng, 9, 40, lambda: rng.randrange(-2, 3))) for _ in range(40)]:
        width = rng.choice([0, 1, 1, 2, 3, 128, 128, 129])
        beams.append(signed(m, e, width=width, start=signs(m), out=m, workspace=SEARCH_WORKSPACE))
    calls.add(lines, "beam_search", beams)


def add_decoded(lines, rng):
    """Signs of every size, of any byte; m at its limits."""
    some = [{"m": m, "signs": bytes(rng.choice([0, 0, 1, 1, 2, 255]) for _ in range(m + more)), "b": max(m - 1, 0) + more}
            for m in range(1, 131) for more in (0, rng.randrange(4))]
    calls.add(lines, "qubo_binary_from_sign_solution", some + [{"m": 0, "signs": b"", "b": 0}, {"m": 1, "signs": b"\5", "b": 0}])


def add_edges(lines, rng):
    """Searches of gen.py, signs that are any byte, and slices with a tail."""
    byte = lambda m: bytes(rng.choice([0, 0, 1, 128, 255]) for _ in range(m))
    for _ in range(60):
        m, more = gen.size(rng, low=1, high=128), rng.choice([0, 3])
        table = signed(m, gen.sign_table(rng, m) + [(7, 7, 7)] * more)
        table["count"] -= more
        width = rng.choice([0, 1, 2, 3, 128, rng.randint(0, 128)]) if m <= 20 else rng.randint(0, 4)
        calls.add(lines, "beam_search", [{**table, "width": width, "start": byte(m + more), "out": m + more, "workspace": SEARCH_WORKSPACE + more}])
        calls.add(lines, "obj_rounded", [{**table, "signs": byte(m + more)}])


def add_faults(lines):
    for name in faults.CASES:
        lines.heading(f"{name}: faults")
        cases, wanted = zip(*faults.cases(name))
        assert calls.add(lines, name, list(cases)) == list(wanted), name
