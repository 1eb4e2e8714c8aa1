"""The calls on tables, factors and reduced problems: their arguments by name, 01's number for them, and what the oracle answers.

A case is a dictionary of a call's fields. Slices are lists of words or bytes, of any length; a slice that is lent to be written is its length.
"""
import gen
from lists import SEARCH_WORKSPACE, leaves, slices

LIMITS = {"wagons": (0, 255, 4096, 1 << 40), "signs": (1, 256, 4862, 1 << 42)}


# ---- 01's numbers -----------------------------------------------------------------------------------


def out_of_order(size, entries):
    places = [(i, j) for i, j, _ in entries]
    return any(i >= size or j >= size for i, j in places) or any(a >= b for a, b in zip(places, places[1:]))


def unmirrored(entries):
    stored = {(i, j): v for i, j, v in entries}
    return any(stored.get((j, i)) != v for i, j, v in entries)


def entries_of(s):
    return list(zip(s["rows"], s["cols"], s["values"]))[: s["count"]]


class Lent:
    """What can be refused of a table that is lent: its size, its count, then the rest."""

    def __init__(self, s, kind):
        self.s, self.size = s, s["n"] if kind == "wagons" else s["m"]
        least, most, most_entries, self.limit = LIMITS[kind]
        self.bad_size = not least <= self.size <= most
        self.bad_count = s["count"] > most_entries

    def short(self, **needed):
        """31 of the table, and of slices that need so many elements of its size."""
        table = not self.bad_count and any(len(self.s[k]) < self.s["count"] for k in ("rows", "cols", "values"))
        return table or not self.bad_size and any(length(self.s[k]) < n for k, n in needed.items())

    def numbers(self):
        """13 to 16, each with its test."""
        entries = lambda: entries_of(self.s)
        magnitude = lambda: sum(abs(v) for _, _, v in entries()) + 2 * sum(map(abs, self.s.get("c", [])[: self.size]))
        return [(13, lambda: self.bad_size or self.bad_count), (14, lambda: out_of_order(self.size, entries())), (15, lambda: unmirrored(entries())),
                (16, lambda: magnitude() > self.limit)]


def length(slice_):
    return slice_ if isinstance(slice_, int) else len(slice_)


def first(*tests):
    return next((number for number, holds in tests if holds()), 0)


def table_number(s, kind, **needed):
    lent = Lent(s, kind)
    return first((31, lambda: lent.short(**needed)), *lent.numbers())


def beam_number(s):
    lent = Lent(s, "signs")
    short = lambda: lent.short(start=s["m"], out=s["m"]) or s["workspace"] < SEARCH_WORKSPACE
    return first((31, short), *lent.numbers(), (19, lambda: s["width"] > 128))


def factor_number(s):
    """`dual_variables`, and with draws `compute_rounded_sol`."""
    lent, bad_rank, bad_draws = Lent(s, "signs"), s["rank"] > 32, "draws" in s and not 1 <= s["draw_count"] <= 1000
    rank = s["rank"] or (0 if lent.bad_size else gen.default_rank(s["m"]))
    unknown = bad_rank or rank == 0

    def short():
        factor = not lent.bad_size and not bad_rank and len(s["factor"]) < s["m"] * rank
        draws = "draws" in s and not bad_draws and not unknown and len(s["draws"]) < s["draw_count"] * rank
        return lent.short(out=s["m"]) or factor or draws

    return first((31, short), *lent.numbers(), (17, lambda: bad_rank), (19, lambda: bad_draws))


def divided_number(s):
    """`dual_variables_divided`: the rank is given, 0 is 17."""
    lent, bad_rank = Lent(s, "signs"), not 1 <= s["rank"] <= 32
    short = lambda: lent.short(out=s["m"]) or not lent.bad_size and not bad_rank and len(s["factor"]) < s["m"] * s["rank"]
    return first((31, short), *lent.numbers(), (17, lambda: bad_rank))


def sign_table_number(s):
    """The slices for the sign table rest on n and on the count."""
    lent, room = Lent(s, "wagons"), s["count"] + 3 * s["n"] + 1
    written = lambda: not lent.bad_size and not lent.bad_count and any(s[k] < room for k in ("to_rows", "to_cols", "to_values"))
    return first((31, lambda: lent.short(c=s["n"]) or written()), *lent.numbers())


def decode_number(s):
    bad = not 1 <= s["m"] <= LIMITS["signs"][1]
    return first((31, lambda: not bad and (len(s["signs"]) < s["m"] or s["b"] < s["m"] - 1)), (13, lambda: bad))


def bad_indices(size, s):
    return size > 1024 or any(i >= size for i in s["map"] + s["fixed"]) or len(set(s["map"])) < len(s["map"])


def submatrix_number(s):
    bad_count = s["count"] > LIMITS["signs"][2]
    short = lambda: not bad_count and any(length(s[k]) < s["count"] for k in ("rows", "cols", "values", "to_rows", "to_cols", "to_values"))
    return first((31, short), (13, lambda: bad_count), (14, lambda: out_of_order(s["m"], entries_of(s))), (20, lambda: bad_indices(s["m"], s)))


def lift_number(s):
    short = lambda: len(s["fixed_values"]) < len(s["fixed"]) or len(s["solution"]) < len(s["map"]) or s["m"] <= 1024 and s["lifted"] < s["m"]
    return first((31, short), (20, lambda: bad_indices(s["m"], s)))


# ---- what the oracle is asked of an accepted case, and what its words give back ----------------------


def matrix(s, size):
    """A table as the oracle takes it."""
    entries = entries_of(s)
    return [s[size], len(entries), *[x for e in entries for x in e]]


def wagon_case(s):
    return [*matrix(s, "n"), s["c"][: s["n"]]]


def lent_case(s):
    return [s[k] for k in ("m", "count", "rows", "cols", "values", "rank", "factor")]


def rounded_case(s):
    return "rounded_call", [*lent_case(s), s["draw_count"], s["draws"], s["out"]]


def dual_case(s):
    return "dual_call", [*lent_case(s), s["out"]]


def divided_case(s):
    return "divided_call", [*lent_case(s), s["out"]]


def table_case(s):
    return "sign_table_number", [s[k] for k in SIGN_TABLE]


def entries_back(words):
    count, rest = words[0], words[1:]
    assert len(rest) == 3 * count
    return [*[rest[k::3] for k in range(3)], count]


def picked(s):
    """The entries whose row and column are mapped, under their new indices; the oracle takes magnitudes of up to 2^53 in all."""
    new = {old: k for k, old in enumerate(s["map"])}
    found = sorted((new[i], new[j], v) for i, j, v in entries_of(s) if i in new and j in new)
    return [len(found), *[x % 2**64 for e in found for x in e]]


def beam_back(words):
    signs, objective, rounds = slices(words, None, 1, 1)
    return [bytes(signs), objective, rounds]


def rounded_back(words):
    number, signs, objective = slices(words, 1, None, 1)
    assert number == 0
    return [bytes(signs), objective]


def dual_back(words):
    number, out = slices(words, 1, None)
    assert number == 0
    return [out]


SIGN_TABLE = ["m", "count", "rows", "cols", "values"]
TABLE = ["n", "count", "rows", "cols", "values", "c"]


class Call:
    """The fields of the call's table and its other arguments, in the order of the header; its number; what the oracle is asked; what that gives back. `judge` is
    what the oracle is asked for the number of a case, where it knows one."""

    def __init__(self, group, given, number, asked, back, judge=None):
        self.group, self.given, self.number, self.asked, self.back, self.judge = group.split(), given.split(), number, asked, back, judge


SIGNED, HALL = " ".join(SIGN_TABLE), " ".join(TABLE)
CALLS = {
    "beam_search": Call(SIGNED, "width start out workspace", beam_number, lambda s: ("beam", [*matrix(s, "m"), s["width"], list(s["start"][: s["m"]])]), beam_back),
    "compute_rounded_sol": Call(SIGNED, "rank factor draw_count draws out", factor_number, rounded_case, rounded_back, rounded_case),
    "dual_variables": Call(SIGNED, "rank factor out", factor_number, dual_case, dual_back, dual_case),
    "dual_variables_divided": Call(SIGNED, "rank factor out", divided_number, divided_case, dual_back, divided_case),
    "obj_rounded": Call(
        SIGNED, "signs", lambda s: table_number(s, "signs", signs=s["m"]), lambda s: ("obj_rounded", [*matrix(s, "m"), list(s["signs"][: s["m"]])]), list),
    "floor_eighths": Call(SIGNED, "", lambda s: table_number(s, "signs"), lambda s: ("floor", matrix(s, "m")), list, table_case),
    "entrywise_lower_bound": Call(SIGNED, "", lambda s: table_number(s, "signs"), lambda s: ("bound", matrix(s, "m")), list, table_case),
    "eval_qubo_objective": Call(
        HALL, "b", lambda s: table_number(s, "wagons", c=s["n"], b=s["n"]), lambda s: ("cost", [*wagon_case(s), list(s["b"][: s["n"]])]), list),
    "qubo_sign_table": Call(
        HALL, "to_rows to_cols to_values", sign_table_number, lambda s: ("signtable", wagon_case(s)), entries_back),
    "qubo_binary_from_sign_solution": Call(
        "", "m signs b", decode_number, lambda s: ("decode", [list(s["signs"][: s["m"]])]), lambda words: [bytes(slices(words, None)[0])]),
    "from_principal_submatrix": Call(
        SIGNED, "map fixed to_rows to_cols to_values", submatrix_number, lambda s: ("submatrix", [*matrix(s, "m"), s["map"], s["fixed"]]), entries_back,
        lambda s: ("submatrix_number", [*[s[k] for k in SIGN_TABLE], s["map"], s["fixed"], s["to_rows"], s["to_cols"], s["to_values"]])),
    "lift_solution": Call(
        "", "m map fixed fixed_values solution lifted", lift_number,
        lambda s: ("lift", [s["m"], s["map"], s["fixed"], s["fixed_values"][: len(s["fixed"])], s["solution"][: len(s["map"])]]), lambda words: slices(words, None),
        lambda s: ("lift_number", [s["m"], s["map"], s["fixed"], len(s["fixed_values"]), len(s["solution"]), s["lifted"]])),
}


def too_large(s):
    return sum(abs(v) for _, _, v in entries_of(s)) > 1 << 53


def add(lines, name, cases):
    """Writes the cases of a call with their answers; the oracle's numbers must be those of this file."""
    call = CALLS[name]
    numbers = [call.number(s) for s in cases]
    if call.judge:
        for s, number, (said, *_) in zip(cases, numbers, leaves([call.judge(s) for s in cases])):
            assert number == said, (name, number, said, s)
    by_oracle = [number == 0 and not (name == "from_principal_submatrix" and too_large(s)) for s, number in zip(cases, numbers)]
    answers = iter(leaves([call.asked(s) for s, asked in zip(cases, by_oracle) if asked]))
    for s, number, asked in zip(cases, numbers, by_oracle):
        back = call.back(next(answers) if asked else picked(s)) if number == 0 else []
        lines.call(name, [s[k] for k in call.group], [s[k] for k in call.given], number, back)
    return numbers
