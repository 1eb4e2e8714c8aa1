"""A checked answer in words, and as JSON."""
import json
import math

from .answer import STATUSES, STORES, eighths, pinned_cost
from .hall import COUNTING, RULES
from .text import Wrong, counted, shown


def words(hall, answer):
    """For the technician: stores first, then what they cost and what is promised."""
    for side, wagons in zip(STORES, stores(hall, answer)):
        yield f"{side.capitalize()} store: {listed(hall, wagons)}."
    if hall.retractable:
        yield f"Retractable: {listed(hall, sorted(hall.retractable))}."
    if hall.pins:
        yield f"Pinned, may not move: {pinned(hall)}."
    yield " ".join([f"This costs {between(answer)}.", *promises(hall, answer)])
    yield f"The search started from a cost of {eighths(answer['rounded'])}{' by the high costs' if 'low' in answer else ''} and took {counted(answer['rounds'], 'round')}."
    floats, own = f"Relaxed objective {answer['relaxed']:.6g}, float bound {answer['bound']:.6g}", pinned_cost(hall)
    without = f"; both are without the pinned wagons' own cost, {eighths(own)}" if own else ""
    yield f"Sweeps: {answer['sweeps']} at rank {answer['rank']}; {STATUSES[answer['status']]}. {floats}{without}."
    if "standing" in answer:
        yield rows_left(hall, answer)
    if "exact" in answer:
        yield beside_least(hall, answer)


def rows_left(hall, answer):
    """Whether the sweeps moved anything; the rows are the factor's, not those that the hall's wagons stand in."""
    if hall.rule not in COUNTING:
        return f"Rows left standing: not counted under the rule {RULES[hall.rule]}, only under {' and '.join(RULES[rule] for rule in COUNTING)}."
    if answer["sweeps"] == 0:
        return "Rows left standing: none, as no sweep was made."
    size, left = len(hall.free()) + 1, answer["standing"]
    total = size * answer["sweeps"]
    many = f"none of {total:,}" if left == 0 else f"all {left:,}" if left == total else f"{left:,} of {total:,}"
    swept = f"{counted(answer['sweeps'], 'sweep')} of {counted(size, 'row')} (one for each {'free ' if hall.pins else ''}wagon, one for the anchor)"
    return f"Rows left standing: {many}, in {swept}{'; nothing measurable pulled there' if left else ''}."


def between(answer):
    """What the plan costs; where costs are ranges, whatever they turn out to be."""
    if "low" not in answer:
        return eighths(answer["cost"])
    return f"at least {eighths(answer['low'])} and at most {eighths(answer['high'])}, whatever the costs within their ranges turn out to be"


def beside_least(hall, answer):
    """The plan beside the first choice of least cost, once every choice is walked."""
    found, fall = answer["exact"], answer["cost"] - answer["exact"]["cost"]
    walked = f"Every choice{' that keeps the pins' if hall.pins else ''} was walked, {found['visited']:,} in all."
    if fall == 0:
        return f"{walked} None costs less than this plan."
    sides = "; ".join(f"{side} store: {listed(hall, wagons)}" for side, wagons in zip(STORES, stores(hall, found)))
    return f"{walked} The least costs {eighths(found['cost'])}, {eighths(fall)} less than this plan, {sides}."


def listed(hall, wagons):
    return ", ".join(hall.names[i] for i in wagons) or "no wagon"


def pinned(hall):
    """Each pinned wagon with its store."""
    return ", ".join(f"{hall.names[i]} in the {STORES[store]} store" for i, store in sorted(hall.pins.items()))


def stores(hall, answer):
    """The wagons of each store."""
    return [[i for i, b in enumerate(answer["choice"]) if b == store] for store in (0, 1)]


def moves(hall, answer, after, next_answer):
    """Which wagons change their store from one plan to the next, by name; both answers are held against their own halls before."""
    store = {name: next_answer["choice"][i] for i, name in enumerate(after.names)}
    if set(store) != set(hall.names):
        unlike = sorted(set(store) ^ set(hall.names))
        raise Wrong(f"The halls {hall.path} and {after.path} have different wagons: {', '.join(map(shown, unlike))}.")
    moved = [(name, answer["choice"][i]) for i, name in enumerate(hall.names) if store[name] != answer["choice"][i]]
    told = ", ".join(f"{name} from the {STORES[side]} to the {STORES[1 - side]}" for name, side in moved)
    yield f"{counted(len(moved), 'wagon')} of {len(hall.names)} {'changes its' if len(moved) == 1 else 'change their'} store: {told}." if moved else "No wagon changes its store."
    yield f"The plans cost {eighths(answer['cost'])} and {eighths(next_answer['cost'])}, each by its own hall."


def promises(hall, answer):
    """What holds of this choice beside its cost, a sentence for each; where wagons are pinned, of choices that keep the pins."""
    choice, wagon, them = ("No choice that keeps the pins", "free wagon", "all free ones") if hall.pins else ("No choice at all", "wagon", "all of them")
    if "low" in answer:
        search = "The search was off (width 0)." if hall.width == 0 else "By the high costs no single wagon moved to the other store makes it cheaper, nor all of them at once."
        return [f"{choice} costs less than {eighths(answer['low_floor'])}, the floor of the low costs.", search]
    if answer["cost"] == answer["floor"]:
        return [f"{choice} costs less."]
    floor = f"{choice} costs less than {eighths(answer['floor'])}, the floor."
    if hall.width == 0:
        return [floor, f"The search was off (width 0): one {wagon} moved may make it cheaper."]
    return [floor, f"No single {wagon} moved to the other store makes it cheaper, nor {them} at once."]


def as_json(hall, answer):
    """Costs in whole units, which a double holds exactly; null where a float is not finite."""
    finite = lambda x: x if math.isfinite(x) else None
    fields = {
        "hall": hall.title,
        "choice": {name: STORES[b] for name, b in zip(hall.names, answer["choice"])},
        "cost": answer["cost"] / 8,
        "floor": answer["floor"] / 8,
        "rounded_cost": answer["rounded"] / 8,
        "rounds": answer["rounds"],
        "status": answer["status"],
        "status_words": STATUSES[answer["status"]],
        "sweeps": answer["sweeps"],
        "rank": answer["rank"],
        "relaxed_objective": finite(answer["relaxed"]),
        "float_bound": finite(answer["bound"]),
        "rows": {row: [hall.names[i] for i in members] for row, members in hall.rows.items()},
        "retractable": [hall.names[i] for i in sorted(hall.retractable)],
        "pinned": {hall.names[i]: STORES[store] for i, store in sorted(hall.pins.items())},
        "pinned_cost": pinned_cost(hall) / 8,
    }
    if "low" in answer:
        fields.update({name: answer[key] / 8 for name, key in (("cost_at_least", "low"), ("cost_at_most", "high"), ("low_floor", "low_floor"))})
    if "standing" in answer:
        fields["rows_standing"] = answer["standing"]
    if "exact" in answer:
        found = answer["exact"]
        fields["least"] = {"choice": {name: STORES[b] for name, b in zip(hall.names, found["choice"])}, "cost": found["cost"] / 8, "walked": found["visited"]}
    return json.dumps(fields, indent=2, ensure_ascii=False, allow_nan=False) + "\n"
