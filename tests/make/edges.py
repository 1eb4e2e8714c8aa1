"""oracle/gen.py's fixed list at the limits (`leaf-edges`), as calls."""
import calls
import doubles
import factors
import gen
import runs
import steps
from lists import SEARCH_WORKSPACE, slices

# The steps' tables of two signs as halls of one wagon: off its diagonal the sign table is the same.
LINK, BARE = runs.table(1, [], [-4]), runs.table(1, [], [0])
ROOM = ("to_rows", "to_cols", "to_values")


def hall_of(words):
    table, rest = factors.table_of(words)
    return {"n": table.pop("m"), **table}, rest


def table_cases(name, words):
    """The call, and its fields, of a line on a table."""
    if name in ("signtable", "cost"):
        table, rest = hall_of(words)
        c, *b = slices(rest, None, *([None] if name == "cost" else []))
        table["c"] = [factors.signed(v) for v in c]
        if b:
            return "eval_qubo_objective", {**table, "b": bytes(b[0])}
        return "qubo_sign_table", {**table, **dict.fromkeys(ROOM, table["count"] + 3 * table["n"] + 1)}
    if name == "decode":
        (signs,) = slices(words, None)
        return "qubo_binary_from_sign_solution", {"m": len(signs), "signs": bytes(signs), "b": len(signs) - 1}
    if name == "lift":
        m, map_, fixed, values, solution = slices(words, 1, None, None, None, None)
        return "lift_solution", {"m": m, "map": map_, "fixed": fixed, "fixed_values": values, "solution": solution, "lifted": m}
    table, rest = factors.table_of(words)
    if name == "obj_rounded":
        return "obj_rounded", {**table, "signs": bytes(slices(rest, None)[0])}
    if name == "beam":
        width, start = slices(rest, 1, None)
        return "beam_search", {**table, "width": width, "start": bytes(start), "out": table["m"], "workspace": SEARCH_WORKSPACE}
    if name == "submatrix":
        map_, fixed = slices(rest, None, None)
        return "from_principal_submatrix", {**table, "map": map_, "fixed": fixed, **dict.fromkeys(ROOM, table["count"])}
    if name == "rounded":
        rank, factor, count, draws = slices(rest, 1, None, 1, None)
        return "compute_rounded_sol", {**table, "rank": rank, "factor": factor, "draw_count": count, "draws": draws, "out": table["m"]}
    return {"floor": "floor_eighths", "bound": "entrywise_lower_bound"}[name], table


def step_script(words):
    """A run that stands before its only sweep, or nothing where the table has stored zeros."""
    rule, number, table = words[0], words[1], factors.table_of(words[2:])
    hall = {(2, 8): LINK, (0,): BARE}.get((table[0]["count"], *table[0]["values"][:1]))
    rank, factor = slices(table[1], 1, None)
    if not hall:
        return []
    record = {"size": 2, "rank": rank, "rule": rule, "number": 0 if rule == 3 else number, "sweeps": 0, "last": 0, "objective": 0,
              "stationarity": steps.NO_TOLERANCE, "minimum": 0, "most": 1, "stage": 0, "status": 0, "standing": 0, "factor": factor}
    return ["new", runs.record_line(record), runs.sweep_line(hall, 1, 2 * rank)]


def add(lines):
    for line in gen.leaf_edges():
        name, *words = line.split()
        words = [int(w, 16) for w in words]
        if name == "sqrt":
            lines.call(name, [], words, 0, [doubles.root(words[0])])
        elif name in ("norm", "project", "start"):
            runs.Answered(factors.opened(name, words)).add(lines)
        elif name == "step":
            runs.Answered(step_script(words)).add(lines)
        elif name == "round":
            calls.add(lines, "compute_rounded_sol", factors.rounded(name, words))
        elif name in ("dot", *factors.TABLES):
            calls.add(lines, "dual_variables", factors.duals(name, words))
        elif name not in ("rank", "work", "multipliers"):
            call, case = table_cases(name, words)
            calls.add(lines, call, [case])
