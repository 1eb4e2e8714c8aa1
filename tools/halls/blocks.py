"""A house cleared block by block (02, Notes 6 and 10), by the library's call; what it gives is held against the hall, and said."""
import copy
import tempfile

from .answer import STORES, changes, cost_of, eighths, hold
from .picture import plan
from .program import built, output
from .say import listed, stores
from .text import Refused, counted


def cleared(hall):
    """What the call gives, by name: the choice, each block's fall, the costs before, after the blocks and in the end, in eighths."""
    ready(hall)
    with tempfile.TemporaryDirectory() as folder:
        said = output([built(folder, "blocks", "Blocks are cleared by")], given(hall), "gcc built it just now.").decode()
    fields = dict(line.partition("=")[::2] for line in said.splitlines())
    found = {"choice": list(map(int, fields["choice"])), "falls": list(map(int, fields["falls"].split()))}
    found["before"], found["cost"] = cost_of(hall, first_choice(hall)), cost_of(hall, found["choice"])
    found["blocks"] = found["before"] - sum(found["falls"])
    hold(wrongs(hall, found))
    return found


def ready(hall):
    """What the call would refuse, in the hall's own words."""
    if unnamed(hall):
        raise Refused(f"{hall.path}: to clear a house, `present left WAGON..` and `present right WAGON..` say where each wagon stands; they don't name {listed(hall, unnamed(hall))}.")
    if hall.ranged:
        raise Refused(f"{hall.path} has costs written as ranges, and a house can't be cleared by them.")
    if hall.width == 0:
        raise Refused(f"{hall.path}: a house is cleared with a width of at least 1.")


def unnamed(hall):
    """The wagons of which no line says where they stand."""
    return [i for i in range(len(hall.names)) if i not in hall.present]


def here(hall):
    """The store that each wagon stands in now."""
    return [hall.present[i] for i in range(len(hall.names))]


def first_choice(hall):
    return [hall.pins.get(i, hall.present[i]) for i in range(len(hall.names))]


def given(hall):
    """Standard input of blocks.c."""
    parts = [len(hall.names), len(hall.pairs)]
    for (i, k), v in sorted(hall.pairs.items()):
        parts += [i, k, v]
    parts += [*hall.costs, len(hall.pins)]
    for i, store in hall.pins.items():
        parts += [i, store]
    parts += [*here(hall), len(hall.blocks)]
    for wagons in hall.blocks.values():
        parts += [len(wagons), *wagons]
    return " ".join(map(str, [*parts, hall.width])).encode()


def wrongs(hall, found):
    """Where the hall's own costs say otherwise."""
    for name, fall in zip(hall.blocks, found["falls"]):
        if fall < 0:
            yield f"the fall of block {name} is {eighths(fall)}"
    if found["cost"] > found["blocks"]:
        yield f"by the hall's own costs the choice costs {eighths(found['cost'])}, and after the blocks {eighths(found['blocks'])} is left"
    for i, store in hall.pins.items():
        if found["choice"][i] != store:
            yield f"it has wagon {hall.names[i]} in the {STORES[1 - store]} store, and it is pinned to the {STORES[store]} one"
    for moved, change in changes(hall, found["choice"]):
        if change < 0:
            yield f"with {moved} moved to the other store the choice costs {eighths(-change)} less"


# ---- picture and words


def drawn(hall, found):
    """The house when it is cleared, an arrow at each wagon that moves."""
    shown = copy.copy(hall)
    shown.moved = {i for i, store in enumerate(found["choice"]) if store != hall.present[i]}
    before = eighths(cost_of(hall, here(hall)))
    saves = [f"block {name} {eighths(fall)}" for name, fall in zip(hall.blocks, found["falls"])] + [f"then the house {eighths(found['blocks'] - found['cost'])}"]
    figures = f"Cost {eighths(found['cost'])}, before {before}     {counted(len(shown.moved), 'wagon')} to move"
    promised = [f"What the cost falls by: {', '.join(saves)}.", settled(hall)]
    return plan(shown, found, {"cost": f"{figures}.".replace("     ", "; "), "figures": figures, "promised": promised, "checked": "Costs and falls were worked out again from the hall's own costs."})


def words(hall, found):
    """For the crew: what moves, block by block what that saves, and where each wagon is in the end."""
    present = here(hall)
    yield told(hall, present, found["choice"])
    first, away = first_choice(hall), [i for i, store in hall.pins.items() if hall.present[i] != store]
    yield f"Before, it costs {eighths(cost_of(hall, present))}."
    if away:
        yield f"First to their pinned stores: {listed(hall, sorted(away))}; then it costs {eighths(cost_of(hall, first))}."
    for name, fall in zip(hall.blocks, found["falls"]):
        yield f"Block {name}: {saved(fall)} ({listed(hall, sorted(set(hall.blocks[name]) - set(hall.pins)))})."
    yield f"Then all wagons{' that are not pinned' if hall.pins else ''}: {saved(found['blocks'] - found['cost'])}."
    for side, wagons in zip(STORES, stores(hall, found)):
        yield f"{side.capitalize()} store: {listed(hall, wagons)}."
    both = sorted(set(hall.pins) & {i for wagons in hall.blocks.values() for i in wagons})
    if both:
        yield f"Pinned, and so left out of their blocks: {listed(hall, both)}."
    yield f"This costs {eighths(found['cost'])}. {settled(hall)}"


def settled(hall):
    wagon, them = ("free wagon", "all free ones") if hall.pins else ("wagon", "all of them")
    return f"No single {wagon} moved to the other store makes it cheaper, nor {them} at once."


def saved(fall):
    return f"the cost falls by {eighths(fall)}" if fall else "nothing to gain"


def told(hall, before, after):
    """Which wagons change their store."""
    moved = [i for i, (a, b) in enumerate(zip(before, after)) if a != b]
    if not moved:
        return "No wagon moves."
    sides = ", ".join(f"{hall.names[i]} from the {STORES[before[i]]} to the {STORES[after[i]]}" for i in moved)
    return f"{counted(len(moved), 'wagon')} of {len(hall.names)} {'moves' if len(moved) == 1 else 'move'}: {sides}."
