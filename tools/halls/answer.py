"""An answer record, read and held against its hall: each wrong answer is an error (01, "Job and answer records"; 02, Note 1 where wagons are pinned)."""
import math
import os
import re
import struct

from .text import Refused, Wrong, counted, text_of

TOP = os.path.dirname(os.path.dirname(os.path.dirname(os.path.abspath(__file__))))
HEADER = "include/wagonplan.h"
NUMBERS = [*range(11, 20), 21]  # what the record call answers, 31 aside, which writes no record
FIELDS = ["length", "version", "status", "rank", "n", "sweeps", "relaxed", "bound", "floor", "rounded", "cost", "rounds"]
LAYOUT = ">IBBBBIddqqqQ"
NAN = bytes.fromhex("7FF8000000000000")
STATUSES = ["all sweeps were made", "stopped at a tolerance", "stopped as the objective rose"]
STORES = ["left", "right"]


def sentence_of(number):
    """What the C header says of a number."""
    found = re.search(rf'case {number}: return "([^"]*)";', text_of(os.path.join(TOP, HEADER)))
    return found[1] if found else "The header has no sentence for it."


def read_answer(data, hall):
    """The fields by name, `choice` among them, once each is what the hall allows."""
    refuse(data)
    hold(framed(data, hall))
    answer = dict(zip(FIELDS, struct.unpack_from(LAYOUT, data)), choice=list(data[60:]))
    for test in (stated, costed, searched, run):
        hold(test(answer, hall))
    return answer


def hold(wrongs):
    for wrong in wrongs:
        raise Wrong(f"The answer is wrong: {wrong}.")


def refuse(data):
    """The error that a refusal's six bytes say, where they are one."""
    if len(data) != 6 or data[:4] != bytes([0, 0, 0, 2]):
        return
    if data[4] != 1:
        raise Wrong(f"The answer is wrong: it is a refusal of version {data[4]}, not 1.")
    if data[5] not in NUMBERS:
        raise Wrong(f"The answer is wrong: it is a refusal by {data[5]}, and a job is refused by a number from {NUMBERS[0]} to {NUMBERS[-2]} or by {NUMBERS[-1]}.")
    raise Refused(f"The job was refused by {data[5]}: {sentence_of(data[5])}")


def framed(data, hall):
    """Length, version and size."""
    if len(data) < 4:
        yield f"it has {counted(len(data), 'byte')}, and an answer begins with its length in 4"
        return
    stated_length = 4 + int.from_bytes(data[:4], "big")
    if len(data) < stated_length:
        yield f"it is cut short, {len(data)} bytes where its length field says {stated_length:,}"
    if len(data) > stated_length:
        yield f"it has {len(data):,} bytes, and its length field says {stated_length}"
    if len(data) < 60:
        yield f"it has {len(data)} bytes, and an answer has 60 and one for each wagon"
        return
    if data[4] != 1:
        yield f"its version is {data[4]}, not 1"
    if data[7] != len(hall.names):
        yield f"it is for {counted(data[7], 'wagon')}, and the hall has {len(hall.names)}"
    if len(data) != 60 + data[7]:
        yield f"it has {len(data)} bytes, and an answer for {counted(data[7], 'wagon')} has {60 + data[7]}"
    if math.isnan(struct.unpack(">d", data[12:20])[0]) and data[12:20] != NAN:
        yield f"its relaxed objective is the NaN {data[12:20].hex().upper()}, not {NAN.hex().upper()}"


def stated(answer, hall):
    """Bytes that have few meanings."""
    if answer["status"] >= len(STATUSES):
        yield f"its status is {answer['status']}, which is from 0 to {len(STATUSES) - 1}"
    for name, store in zip(hall.names, answer["choice"]):
        if store > 1:
            yield f"it has wagon {name} in store {store}, which is 0 for left or 1 for right"
    for i, store in hall.pins.items():
        if answer["choice"][i] != store:
            yield f"it has wagon {hall.names[i]} in the {STORES[1 - store]} store, and it is pinned to the {STORES[store]} one"


def costed(answer, hall):
    """The cost, the floor and the float bound, worked out again from the hall."""
    pairs, costs, constant = free_part(hall)
    cost, table = cost_of(hall, answer["choice"]), sign_table(pairs, costs)
    floor, bound = floor_of(table) + constant, bound_of(table)
    if answer["cost"] != cost:
        yield f"its cost is {eighths(answer['cost'])}, and by the hall's own costs its choice costs {eighths(cost)}"
    if answer["cost"] < answer["floor"]:
        yield f"its cost {eighths(answer['cost'])} is below its floor {eighths(answer['floor'])}"
    if answer["floor"] != floor:
        yield f"its floor is {eighths(answer['floor'])}, and by the hall's own costs it is {eighths(floor)}"
    if answer["bound"] != bound:
        yield f"its float bound is {answer['bound']!r}, and by the hall's own costs it is {bound!r}"


def searched(answer, hall):
    """The search's figures, and that no free wagon alone nor all of them make it cheaper."""
    fall = answer["rounded"] - answer["cost"]
    if fall < 0:
        yield f"its cost {eighths(answer['cost'])} is above {eighths(answer['rounded'])}, which the search started from"
    if 4 * answer["rounds"] > fall:
        yield f"it counts {counted(answer['rounds'], 'round')}, and the fall from {eighths(answer['rounded'])} to {eighths(answer['cost'])} allows at most {fall // 4:,}"
    if fall > 0 and answer["rounds"] == 0:
        yield f"its cost fell from {eighths(answer['rounded'])} to {eighths(answer['cost'])} in no round"
    if hall.width > 0:
        for moved, change in changes(hall, answer["choice"]):
            if change < 0:
                yield f"with {moved} moved to the other store the choice costs {eighths(-change)} less"
    elif answer["rounds"] > 0:
        yield f"it counts {counted(answer['rounds'], 'round')} of a search of width 0"


def run(answer, hall):
    """What the sweeps may have done."""
    if answer["rank"] != hall.meant_rank():
        yield f"its rank is {answer['rank']}, and the hall's is {hall.meant_rank()}"
    if answer["sweeps"] > hall.most:
        yield f"it made {counted(answer['sweeps'], 'sweep')}, and the hall allows {hall.most:,}"
    if answer["status"] == 0 and answer["sweeps"] != hall.most:
        yield f"its status says that all sweeps were made, and it made {answer['sweeps']:,} of {hall.most:,}"
    if answer["status"] != 0 and answer["sweeps"] == 0:
        yield f"its status is {answer['status']}, a stop, and it made no sweep"


def cost_of(hall, choice):
    """In eighths, as all costs of an answer are."""
    return cost_by(hall.pairs, hall.costs, choice)


def cost_by(pairs, costs, choice):
    return 4 * sum(v * choice[i] * choice[k] for (i, k), v in pairs.items()) + 8 * sum(c * b for c, b in zip(costs, choice))


def changes(hall, choice):
    """What each wagon that isn't pinned, moved alone, and all of them change the cost by, in eighths."""
    sums = [8 * c for c in hall.costs]  # what wagon i adds to a choice in which it is 0
    for (i, k), v in hall.pairs.items():
        sums[i] += 4 * v if i == k else 8 * v * choice[k]
    for i in hall.free():
        yield f"wagon {hall.names[i]}", sums[i] * (1 - 2 * choice[i])
    moved = [b if i in hall.pins else 1 - b for i, b in enumerate(choice)]
    yield f"all wagons{' that are not pinned' if hall.pins else ''}", cost_of(hall, moved) - cost_of(hall, choice)


def free_part(hall):
    """Pairs and costs of the wagons that aren't pinned, numbered anew, and the pinned ones' own cost in eighths: a wagon pinned to 1 leaves its pairs'
    costs with the others."""
    new, costs = {i: k for k, i in enumerate(hall.free())}, list(hall.costs)
    for (i, k), v in hall.pairs.items():
        if hall.pins.get(k) == 1:
            costs[i] += v
    pairs = {(new[i], new[k]): v for (i, k), v in hall.pairs.items() if i in new and k in new}
    return pairs, [costs[i] for i in new], pinned_cost(hall)


def pinned_cost(hall):
    """What the pinned wagons cost by themselves, in eighths; floor and costs of an answer include it."""
    return cost_of(hall, [hall.pins.get(i, 0) for i in range(len(hall.names))])


def sign_table(pairs, costs):
    """01's sign table in eighths: c absorbed at (i, i), row sums at (i, n) and (n, i) where they aren't 0, the sum of all at (n, n)."""
    n, table = len(costs), dict(pairs)
    for i, c in enumerate(costs):
        if c:
            table[i, i] = table.get((i, i), 0) + 2 * c
    sums = [0] * n
    for (i, _), v in table.items():
        sums[i] += v
    for i, total in enumerate(sums):
        if total:
            table[i, n] = table[n, i] = -total
    return {**table, (n, n): sum(sums)}


def floor_of(table):
    """The diagonal of a sign table less the absolute values of all other entries."""
    return sum(v if i == k else -abs(v) for (i, k), v in table.items())


def bound_of(table):
    """01's float bound: the floor in whole units less its margin, one rounding for each operation; the sums are exact."""
    return floor_of(table) / 8 - 8.0 * 2.0**-52 * (len(table) + 1.0) * (sum(map(abs, table.values())) / 8)


def eighths(x):
    """Exact: no cost has more than three places after the point."""
    return ("-" if x < 0 else "") + f"{abs(x) // 8:,}" + f"{abs(x) % 8 / 8:.3f}"[1:].rstrip("0").rstrip(".")
