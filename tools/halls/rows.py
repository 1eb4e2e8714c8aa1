"""How many rows the sweeps left standing (02, Note 2). The answer record doesn't hold it: rows.c makes the run again by the library's calls."""
import tempfile

from . import program
from .answer import eighths, hold, pinned_cost
from .hall import COUNTING
from .record import free_job

COSTS = ["floor", "rounded", "cost"]  # an answer's include the pinned wagons' own cost, those of the run don't
DOUBLES = ["relaxed", "bound"]
CALLED = {"rounded": "rounded cost", "relaxed": "relaxed objective", "bound": "float bound"}


def with_rows(job, hall, answer):
    """The answer with `standing`, the total of rows (None under a rule that doesn't count them), once the run is seen to be the answer's."""
    with tempfile.TemporaryDirectory() as folder:
        made = made_again(built(folder), job)
    hold(unlike(made, answer, hall))
    return {**answer, "standing": made["standing"] if hall.rule in COUNTING else None}


def built(folder):
    """The program of rows.c."""
    return program.built(folder, "rows", "Rows are counted by")


def made_again(command, job, low_ends=None):
    """The run of a job, by name as rows.c writes it; with the low ends of its costs, finished over ranges."""
    given, ranges = (free_job(job), []) if low_ends is None else (job + low_ends, ["--ranges"])
    said = program.output([command, *ranges], given, "gcc built it just now.").decode()
    return {name: value_of(name, text) for name, _, text in (line.partition("=") for line in said.splitlines())}


def value_of(name, text):
    return list(map(int, text)) if name == "choice" else float(text) if name in DOUBLES else int(text)


def unlike(made, answer, hall):
    """Where a run isn't the one of an answer."""
    free, own = hall.free(), pinned_cost(hall)
    meant = {name: answer[name] for name in ("status", "rank", "sweeps", "rounds", *DOUBLES)}
    meant.update({name: answer[name] - own for name in COSTS}, choice=[answer["choice"][i] for i in free], size=len(free) + 1, rule=hall.rule)
    for name, value in meant.items():
        if made[name] != value and not (made[name] != made[name] and value != value):  # a NaN is like a NaN
            show = eighths if name in COSTS else str
            yield f"the hall's run, made again by the library's calls, gives {CALLED.get(name, name)} {show(made[name])}, not {show(value)}"
