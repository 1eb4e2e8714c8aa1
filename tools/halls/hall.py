"""A hall: its wagons, their costs and rows, and the settings of its job, as a hall file gives them (docs/HOST.md)."""
import io
import os

from .answer import STORES
from .table import read_table
from .text import Refused, count, counted, ends, real, shown, text_of

RULES = ["Grad", "GradAdv", "Coord", "CoordNoStep", "CoordMomentum"]
COUNTING = [3, 4]  # the rules whose sweeps count the rows that they leave standing
STARTS = ["random", "factor", "signs"]

# 01's limits, and the characters of a name, so that it can be read in the picture.
WAGONS, ENTRIES, MAGNITUDE, RANK, WIDTH, DRAWS, SWEEPS, BLOCKS = 255, 4096, 2**40, 32, 128, 1000, 2**32 - 1, 16
NAMES = {"wagon": 24, "row": 16, "block": 16}


class Hall:
    def __init__(self, path):
        self.path, self.title = path, shown(os.path.splitext(os.path.basename(path))[0])
        self.names, self.costs, self.pairs, self.magnitude = [], [], {}, 0
        self.ranged, self.low_costs, self.low_pairs = False, [], {}  # the low ends; costs and pairs are the high ones, which a job has (02, Note 8)
        self.rows, self.retractable, self.pins = {}, set(), {}  # pins: the store of each wagon that may not move
        self.present, self.blocks = {}, {}  # the store that each wagon stands in now; a block's wagons by its name
        self.moves = None  # how many wagons may be rolled from there, where a line says it
        self.moved = set()  # the wagons that a picture shows as rolled; none as the hall is read
        self.rank, self.rule, self.number, self.most, self.minimum, self.tolerances, self.width = 0, 3, 0.0, 200, 0, (0.0, 1e-6), 128
        self.start, self.start_numbers, self.seed, self.draw_count, self.draws = 0, None, "1", 30, []
        self.places, self.lines = {}, {}  # a wagon's index by its name; the last line of each word, the line of each draw

    # ---- lines of the file

    def wagon(self, name, cost):
        self.new_name(name, self.places, "wagon")
        if len(self.names) == WAGONS:
            raise Refused(f"wagon {shown(name)} is number {WAGONS + 1}; a hall has at most {WAGONS} wagons")
        low, high = ends(cost)
        self.weigh(2 * max(abs(low), abs(high)), f"the cost {shown(cost)} of {shown(name)}")
        self.places[name] = len(self.names)
        self.names.append(name)
        self.costs.append(high)
        self.low_costs.append(low)
        self.ranged |= ".." in cost

    def pair(self, one, other, cost):
        i, k, (low, high) = self.place(one), self.place(other), ends(cost)
        if (i, k) in self.pairs:
            raise Refused(f"the pair {shown(one)} {shown(other)} has a cost already")
        entries = len(self.pairs) + (1 if i == k else 2)
        if entries > ENTRIES:
            limit = f"it has at most {ENTRIES:,}, which is {ENTRIES // 2:,} pairs of two wagons"
            raise Refused(f"with the pair {shown(one)} {shown(other)} the table has {entries:,} entries; {limit}")
        self.weigh((1 if i == k else 2) * max(abs(low), abs(high)), f"the cost {shown(cost)} of the pair {shown(one)} {shown(other)}")
        self.pairs[i, k] = self.pairs[k, i] = high
        self.low_pairs[i, k] = self.low_pairs[k, i] = low
        self.ranged |= ".." in cost

    def table(self, name):
        path = os.path.join(os.path.dirname(self.path), name)
        try:
            read_table(path, self)
        except OSError as error:
            raise Refused(f"the table {shown(name)} can't be read: {error.strerror}") from None

    def row(self, name, *wagons):
        self.new_name(name, self.rows, "row")
        members = [self.place(wagon) for wagon in wagons]
        for k, i in enumerate(members):
            other = next((row for row, there in self.rows.items() if i in there), name if i in members[:k] else None)
            if other:
                raise Refused(f"wagon {shown(wagons[k])} stands in row {shown(other)} already")
        self.rows[name] = members

    def set_retractable(self, *wagons):
        self.retractable.update(map(self.place, wagons))

    def pin(self, name, store):
        i = self.place(name)
        if store not in STORES:
            raise Refused(f"a wagon is pinned to the store {' or '.join(STORES)}, not {shown(store)}")
        if i in self.pins:
            raise Refused(f"wagon {shown(name)} is pinned to the {STORES[self.pins[i]]} store already")
        self.pins[i] = STORES.index(store)

    def set_present(self, store, *wagons):
        if store not in STORES:
            raise Refused(f"a wagon stands in the store {' or '.join(STORES)}, not {shown(store)}")
        for name in wagons:
            i = self.place(name)
            if i in self.present:
                raise Refused(f"wagon {shown(name)} stands in the {STORES[self.present[i]]} store already")
            self.present[i] = STORES.index(store)

    def block(self, name, *wagons):
        self.new_name(name, self.blocks, "block")
        members = [self.place(wagon) for wagon in wagons]
        for k, i in enumerate(members):
            if i in members[:k]:
                raise Refused(f"wagon {shown(wagons[k])} stands in block {shown(name)} already")
        if len(self.blocks) == BLOCKS:
            raise Refused(f"block {shown(name)} is number {BLOCKS + 1}; a hall has at most {BLOCKS} blocks")
        self.blocks[name] = members

    def set_moves(self, many):
        self.moves = count("number of moves", many, 0, WAGONS)

    def set_rank(self, rank):
        self.rank = count("rank", rank, 0, RANK)

    def set_rule(self, name, number="0"):
        if name not in RULES:
            raise Refused(f"a rule is one of {', '.join(RULES)}, not {shown(name)}")
        value = real(number)
        if name == "CoordMomentum" and not 0 <= value < 1:
            raise Refused(f"the momentum {shown(number)} of CoordMomentum is not from 0 to below 1")
        self.rule, self.number = RULES.index(name), value

    def set_sweeps(self, most, minimum="0"):
        self.most, self.minimum = count("most sweeps", most, 0, SWEEPS), count("minimum of sweeps", minimum, 0, SWEEPS)

    def set_tolerances(self, objective, stationarity):
        self.tolerances = real(objective), real(stationarity)

    def set_width(self, width):
        self.width = count("width", width, 0, WIDTH)

    def set_start(self, kind, *numbers):
        if kind not in STARTS:
            raise Refused(f"a start is one of {', '.join(STARTS)}, not {shown(kind)}")
        self.start = STARTS.index(kind)
        self.start_numbers = [real({"+": "1", "-": "-1"}.get(x, x)) for x in numbers]

    def set_seed(self, word):
        self.seed = word

    def set_draws(self, many):
        self.draw_count = count("count of draws", many, 1, DRAWS)

    def draw(self, *numbers):
        if len(self.draws) == DRAWS:
            raise Refused(f"this is draw {DRAWS + 1:,}; a job has at most {DRAWS:,}")
        self.draws.append([real(x) for x in numbers])

    # ---- what the lines share

    def place(self, name):
        if name not in self.places:
            raise Refused(f"no wagon above is named {shown(name)}")
        return self.places[name]

    def new_name(self, name, names, what):
        if name in names:
            raise Refused(f"there are two {what}s named {shown(name)}")
        if len(name) > NAMES[what]:
            raise Refused(f"the {what}'s name {shown(name)} has {len(name)} characters; it has at most {NAMES[what]}")

    def weigh(self, more, what):
        self.magnitude += more
        if self.magnitude > MAGNITUDE:
            sums = "the costs without their signs, that of a wagon or a pair twice, that of a wagon paired with itself once"
            raise Refused(f"with {what} the magnitude is above 2^40 = {MAGNITUDE:,}: {sums}")

    def take(self, number, word, *rest):
        """One line of the file."""
        if word not in LINES:
            raise Refused(f"a line starts with one of {', '.join(LINES)}, not {shown(word)}")
        for text in (word, *rest):
            if not text.isprintable():
                raise Refused(f"the word {shown(text)} has a character that can't be printed")
        form, least, most, act = LINES[word]
        if not least <= len(rest) <= most:
            raise Refused(f"it is written `{word} {form}`, and here {word} is followed by {counted(len(rest), 'word')}")
        act(self, *rest)
        self.lines[f"draw {len(self.draws)}" if word == "draw" else word] = number

    def wrong(self, word, sentence):
        """What shows once the whole file is read, with the line that it hangs on where there is one."""
        line = f", line {self.lines[word]}" if word in self.lines else ""
        return Refused(f"{self.path}{line}: {sentence}.")

    def free(self):
        """The wagons that aren't pinned; a run is theirs alone."""
        return [i for i in range(len(self.names)) if i not in self.pins]

    def meant_rank(self):
        m = len(self.free()) + 1
        least = next(r for r in range(m + 2) if r * r >= 2 * m)
        return self.rank or max(1, min(m, least + 1))


# How each line is written, how many words follow at least and at most, and what takes them.
MANY = 1 << 22
LINES = {
    "wagon": ("NAME COST", 2, 2, Hall.wagon),
    "pair": ("NAME NAME COST", 3, 3, Hall.pair),
    "table": ("FILE.csv", 1, 1, Hall.table),
    "row": ("NAME WAGON..", 2, MANY, Hall.row),
    "retractable": ("WAGON..", 1, MANY, Hall.set_retractable),
    "pin": ("NAME left|right", 2, 2, Hall.pin),
    "present": ("left|right WAGON..", 2, MANY, Hall.set_present),
    "block": ("NAME WAGON..", 1, MANY, Hall.block),
    "moves": ("K", 1, 1, Hall.set_moves),
    "rank": ("R", 1, 1, Hall.set_rank),
    "rule": ("NAME [NUMBER]", 1, 2, Hall.set_rule),
    "sweeps": ("MOST [MINIMUM]", 1, 2, Hall.set_sweeps),
    "tolerances": ("OBJECTIVE STATIONARITY", 2, 2, Hall.set_tolerances),
    "width": ("W", 1, 1, Hall.set_width),
    "start": ("KIND [NUMBER..]", 1, MANY, Hall.set_start),
    "draw": ("NUMBER..", 1, MANY, Hall.draw),
    "draws": ("COUNT", 1, 1, Hall.set_draws),
    "seed": ("WORD", 1, 1, Hall.set_seed),
}


def read_hall(path):
    """A hall file, or a table alone where the name ends in .csv."""
    hall = Hall(path)
    try:
        (read_table if path.lower().endswith(".csv") else read_lines)(path, hall)
    except Refused as refused:
        raise Refused(f"{refused}.") from None
    if hall.ranged and hall.pins:
        raise hall.wrong("pin", "a hall with costs written as ranges has no pins; the library's finish over ranges takes none")
    return hall


def read_lines(path, hall):
    for number, line in enumerate(io.StringIO(text_of(path), newline=None), 1):
        words = line.split("#")[0].split()
        try:
            if words:
                hall.take(number, *words)
        except Refused as refused:
            raise Refused(f"{path}, line {number}: {refused}") from None
