"""What a plan costs at least and at most where costs are written as ranges (02, Note 8). A job can't carry ranges: it has the high ends, and rows.c makes its run again by the
library's calls, with the finish over the ranges."""
import struct
import tempfile

from .answer import cost_by, eighths, floor_of, hold, sign_table
from .program import built
from .rows import made_again, unlike


def with_ranges(job, hall, answer):
    """The answer with `low`, `high` and `low_floor`, once the run is seen to be the answer's and the figures to be the hall's own; as it is where no cost is a range."""
    if not hall.ranged:
        return answer
    with tempfile.TemporaryDirectory() as folder:
        made = made_again(built(folder, "rows", "Ranges are worked out by"), job, low_ends(hall))
    hold(unlike(made, answer, hall))
    hold(miscounted(made, hall, answer["choice"]))
    return {**answer, **{name: made[name] for name in ("low", "high", "low_floor")}}


def low_ends(hall):
    """In a job's order of entries and costs."""
    return struct.pack(f">{len(hall.low_pairs)}q", *(v for _, v in sorted(hall.low_pairs.items()))) + struct.pack(f">{len(hall.low_costs)}q", *hall.low_costs)


def miscounted(made, hall, choice):
    """Figures that aren't those worked out again from the hall's own ends."""
    meant = {"low": cost_by(hall.low_pairs, hall.low_costs, choice), "high": cost_by(hall.pairs, hall.costs, choice), "low_floor": floor_of(sign_table(hall.low_pairs, hall.low_costs))}
    for name, value in meant.items():
        if made[name] != value:
            yield f"its {name.replace('_', ' ')} is {eighths(made[name])}, and by the hall's own ranges it is {eighths(value)}"
