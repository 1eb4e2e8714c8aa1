"""A hall to its job record, and a job record back to a hall without names (01, "Job and answer records"; 02, Note 1 for version 2, with pins, Note 5 for version 3, of larger halls)."""
import random
import struct

from .answer import free_part
from .hall import DRAWS, Hall
from .text import Wrong, counted

BYTES = 65536  # a job record, at most
SMALL = 127  # wagons of versions 1 and 2, at most
HEAD, SETTINGS = ">IBBH", ">BBdIIddBB"


def job_of(hall):
    """The job record; numbers that the file leaves open are made from its seed."""
    made = random.Random(hall.seed)
    start, draws = start_of(hall, made), draws_of(hall, made)
    version = version_of(len(hall.names), hall.pins)
    table = table_of(hall.pairs, hall.costs) + pins_of(version, hall.pins)
    settings = struct.pack(SETTINGS, hall.rank, hall.rule, hall.number, hall.most, hall.minimum, *hall.tolerances, hall.width, hall.start)
    parts = table, settings + doubles(start), struct.pack(">H", len(draws)) + b"".join(map(doubles, draws))
    length = struct.calcsize(HEAD) + sum(map(len, parts))
    if length > BYTES:
        raise too_long(hall, length, parts)
    return struct.pack(HEAD, length - 4, version, len(hall.names), len(hall.pairs)) + b"".join(parts)


def free_job(job):
    """The job without pins that has the same run: of the wagons that aren't pinned alone, with this job's settings, start and draws."""
    pairs, costs, _ = free_part(hall_of(job))
    version = version_of(len(costs), {})
    parts = table_of(pairs, costs) + pins_of(version, {}) + job[places(job)[-1] :]
    return struct.pack(HEAD, struct.calcsize(HEAD) - 4 + len(parts), version, len(costs), len(pairs)) + parts


def version_of(wagons, pins):
    """The first version that has so many wagons, and these pins."""
    return 3 if wagons > SMALL else 2 if pins else 1


def table_of(pairs, costs):
    return b"".join(struct.pack(">BBq", i, k, v) for (i, k), v in sorted(pairs.items())) + struct.pack(f">{len(costs)}q", *costs)


def pins_of(version, pins):
    """Count, and wagon and store of each; no byte in version 1."""
    return bytes([len(pins), *(x for pin in sorted(pins.items()) for x in pin)]) if version > 1 else b""


def start_of(hall, made):
    """The start's numbers, a row for each wagon that isn't pinned and one for the anchor."""
    m, rank = len(hall.free()) + 1, hall.meant_rank()
    if hall.start == 1 and hall.rank == 0:
        raise hall.wrong("start", "`start factor` needs a line `rank R` with R from 1 to 32, and the rank is 0")
    needed = m if hall.start == 2 else m * rank
    numbers = hall.start_numbers or ([1.0] * m if hall.start == 2 else near_normal(made, m * rank))
    if len(numbers) != needed:
        rows = f"{m} rows with the anchor's{' and none for a pinned wagon' if hall.pins else ''}{'' if hall.start == 2 else f', rank {rank}'}"
        raise hall.wrong("start", f"this start has {counted(needed, 'number')} ({rows}), not {len(numbers):,}")
    if hall.start == 2 and hall.most > 0 and rank > 1:
        return numbers + near_normal(made, m * rank)
    return numbers


def draws_of(hall, made):
    rank = hall.meant_rank()
    for k, draw in enumerate(hall.draws, 1):
        if len(draw) != rank:
            raise hall.wrong(f"draw {k}", f"draw {k:,} has {counted(len(draw), 'number')}; it has {rank}, as many as the rank")
    return hall.draws or [near_normal(made, rank) for _ in range(hall.draw_count)]


def near_normal(made, many):
    return [sum(made.random() for _ in range(12)) - 6.0 for _ in range(many)]


def doubles(numbers):
    return struct.pack(f">{len(numbers)}d", *numbers)


def too_long(hall, length, parts):
    """The frame's limit in the words of the hall file."""
    table, start, draws = map(len, parts)
    rank, room = hall.meant_rank(), BYTES - (length - draws) - 2
    fit = min(DRAWS, max(0, room // (8 * rank)))
    advice = f"{counted(fit, 'draw')} of {rank} numbers would fit" if fit else "no draw would fit; a lower rank makes start and draws shorter"
    word = next((word for word in ("draws", f"draw {len(hall.draws)}", "rank", "start") if word in hall.lines), "")
    spent = f"{table:,} for the table, {start:,} for settings and start, {draws:,} for the draws"
    return hall.wrong(word, f"the job takes {length:,} bytes, {spent}, and has at most {BYTES:,}: {advice}")


def hall_of(job):
    """The hall of a job that the program accepted, its wagons named by their numbers from 0."""
    hall = Hall("job")
    try:
        n, costs, pins, at = places(job)
        hall.names = [str(i) for i in range(n)]
        hall.pairs = {(i, k): v for i, k, v in struct.iter_unpack(">BBq", job[struct.calcsize(HEAD) : costs])}
        hall.costs = list(struct.unpack_from(f">{n}q", job, costs))
        hall.pins = dict(struct.iter_unpack(">BB", job[pins + 1 : at]))
        hall.rank, hall.rule, hall.number, hall.most, hall.minimum, *tolerances, hall.width, hall.start = struct.unpack_from(SETTINGS, job, at)
    except struct.error:
        raise Wrong("The program answered a job that is cut short.") from None
    hall.tolerances = tuple(tolerances)
    return hall


def places(job):
    """A job's count of wagons, and where its costs, its pins and its settings begin; version 1 has no byte for pins."""
    _, version, n, entries = struct.unpack_from(HEAD, job)
    costs = struct.calcsize(HEAD) + 10 * entries
    pins = costs + 8 * n
    return n, costs, pins, pins + (1 + 2 * struct.unpack_from(">B", job, pins)[0] if version > 1 else 0)
