"""The least cost of a small hall (02, Note 9): exact.c walks every choice by the library's call `least_choice`, with pins every one that keeps them."""
import tempfile

from .answer import cost_of, eighths, free_part, hold
from .program import built, output
from .text import Refused

WALKED = 16  # wagons that may move, at most


def with_exact(hall, answer):
    """The answer with `exact`: the first choice of least cost, its cost in eighths, and how many were visited."""
    free = hall.free()
    if len(free) > WALKED:
        raise Refused(f"{hall.path}: every choice is walked where at most {WALKED} wagons may move, and here {len(free)} may.")
    with tempfile.TemporaryDirectory() as folder:
        found = walked(built(folder, "exact", "Every choice is walked by"), hall)
    hold(unlike(found, answer, hall))
    return {**answer, "exact": found}


def walked(program, hall):
    """The walk of the wagons that may move, with the pinned ones in their stores and their own cost added."""
    pairs, costs, constant = free_part(hall)
    entries = [x for (i, k), v in sorted(pairs.items()) for x in (i, k, v)]
    given = " ".join(map(str, [len(costs), len(pairs), *entries, *costs])) + "\n"
    said = dict(line.split("=") for line in output([program], given.encode(), "gcc built it just now.").decode().splitlines())
    chosen = dict(zip(hall.free(), map(int, said["choice"]), strict=True)) | hall.pins
    return {"cost": int(said["cost"]) + constant, "visited": int(said["visited"]), "choice": [chosen[i] for i in range(len(hall.names))]}


def unlike(found, answer, hall):
    """Where the walk and the answer contradict each other or the hall."""
    if found["cost"] != cost_of(hall, found["choice"]):
        yield f"the least choice is said to cost {eighths(found['cost'])}, and by the hall's own costs it costs {eighths(cost_of(hall, found['choice']))}"
    if answer["cost"] < found["cost"]:
        yield f"its cost {eighths(answer['cost'])} is below {eighths(found['cost'])}, the least of all choices"
    if found["cost"] < answer["floor"]:
        yield f"its floor {eighths(answer['floor'])} is above {eighths(found['cost'])}, the least of all choices"
