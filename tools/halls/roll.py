"""Which wagons to roll tonight, at most k of them (02, Note 13), by the library's call; what it gives is held against the hall, and said."""
import copy
import tempfile

from .answer import STORES, changes, cost_of, eighths, hold
from .blocks import here, unnamed
from .picture import plan
from .program import built, output
from .say import listed, stores
from .text import Refused, counted


def rolled(hall):
    """What the call gives, by name: the choice, its cost in eighths, the rounds; beside them the cost before and which wagons roll."""
    ready(hall)
    with tempfile.TemporaryDirectory() as folder:
        said = output([built(folder, "roll", "Wagons to roll are found by")], given(hall), "gcc built it just now.").decode()
    fields = dict(line.partition("=")[::2] for line in said.splitlines())
    found = {"choice": list(map(int, fields["choice"])), "cost": int(fields["cost"]), "rounds": int(fields["rounds"]), "before": cost_of(hall, here(hall))}
    found["moved"] = [i for i, store in enumerate(found["choice"]) if store != hall.present[i]]
    hold(wrongs(hall, found))
    return found


def ready(hall):
    """What the call would refuse, or doesn't take, in the hall's own words."""
    if unnamed(hall):
        raise Refused(f"{hall.path}: to roll wagons, `present left WAGON..` and `present right WAGON..` say where each wagon stands; they don't name {listed(hall, unnamed(hall))}.")
    if hall.moves is None:
        raise Refused(f"{hall.path}: to roll wagons, `moves K` says how many may be rolled.")
    if hall.moves > len(hall.names):
        raise hall.wrong("moves", f"{counted(hall.moves, 'wagon')} may be rolled, and the hall has {len(hall.names)}")
    if hall.pins:
        raise hall.wrong("pin", "the search for at most so many wagons takes no pins; `tools/hall clear` does")
    if hall.ranged:
        raise Refused(f"{hall.path} has costs written as ranges, and the search for at most so many wagons can't take them.")
    if hall.width == 0:
        raise hall.wrong("width", "wagons to roll are searched with a width of at least 1")


def given(hall):
    """Standard input of roll.c."""
    parts = [len(hall.names), len(hall.pairs)]
    for (i, k), v in sorted(hall.pairs.items()):
        parts += [i, k, v]
    return " ".join(map(str, [*parts, *hall.costs, *here(hall), hall.moves, hall.width])).encode()


def wrongs(hall, found):
    """Where the hall's own costs say otherwise."""
    cost, moved = cost_of(hall, found["choice"]), found["moved"]
    if len(moved) > hall.moves:
        yield f"it moves {counted(len(moved), 'wagon')}, and {hall.moves} may be rolled"
    if found["cost"] != cost:
        yield f"its cost is {eighths(found['cost'])}, and by the hall's own costs its choice costs {eighths(cost)}"
    if 4 * found["rounds"] > found["before"] - cost:
        yield f"before, it costs {eighths(found['before'])}, and after {counted(found['rounds'], 'round')} {eighths(cost)}"
    for i, (name, change) in enumerate(list(changes(hall, found["choice"]))[:-1]):
        if change < 0 and len(moved) + (-1 if i in moved else 1) <= hall.moves:
            yield f"with {name} moved to the other store the choice costs {eighths(-change)} less"


# ---- picture and words


def drawn(hall, found):
    """Both stores after tonight, an arrow at each wagon that rolls."""
    shown = copy.copy(hall)
    shown.moved = set(found["moved"])
    figures = f"Cost {eighths(found['cost'])}, before {eighths(found['before'])}     {counted(len(found['moved']), 'wagon')} to roll, at most {hall.moves}"
    promised = [told(hall, found), settled(hall)]
    return plan(shown, found, {"cost": f"{figures}.".replace("     ", "; "), "figures": figures, "promised": promised, "checked": "The costs were worked out again from the hall's own."})


def words(hall, found):
    """For the crew: which wagons to roll, what that saves, and where each wagon is in the end."""
    yield told(hall, found)
    for side, wagons in zip(STORES, stores(hall, found)):
        yield f"{side.capitalize()} store: {listed(hall, wagons)}."
    fall = found["before"] - found["cost"]
    yield f"This costs {eighths(found['cost'])}, {f'{eighths(fall)} less than before' if fall else 'as before'}. {settled(hall)}"
    yield f"The search took {counted(found['rounds'], 'round')}."


def told(hall, found):
    """Which wagons to roll, and where to."""
    if not found["moved"]:
        return f"Roll no wagon tonight, of at most {hall.moves}."
    sides = ", ".join(f"{hall.names[i]} from the {STORES[hall.present[i]]} to the {STORES[found['choice'][i]]}" for i in found["moved"])
    return f"Roll {counted(len(found['moved']), 'wagon')} tonight, of at most {hall.moves}: {sides}."


def settled(hall):
    return f"Rolling one wagon more, with at most {hall.moves} in all, or one wagon less makes it no cheaper."
