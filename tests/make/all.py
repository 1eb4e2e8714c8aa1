#!/usr/bin/env python3
"""Makes the stored lists of calls (docs/REPLAY.md) by the Rust oracle.

  tests/make/all.py                      writes tests/lists/*.txt
  tests/make/all.py --check              compares them with what is stored, and writes nothing
  tests/make/all.py KIND COUNT SEED      prints seeded lines instead: KIND is `ranks` (COUNT tables at every rank and rule), `jobs`, `pins` (jobs of version 2), `larger` (of version 3),
                                         `runs`, `larger-calls` (calls and scripts on 129 to 256 signs), `reduced`, `blocks`, `divided`, `ranged` (finishes over ranges), `walk` (houses walked in full, float bounds), `turns` (lists of turns), `exchange` (scripts that exchange the rule), `limited` (at most k wagons moved)
                                         `distances` or `lengths` (runs under rule 3, the largest miss of a row's length said at the end)

The same COUNT and SEED give the same lines.
"""
import os
import random
import sys

sys.dont_write_bytecode = True
sys.path.insert(0, os.path.join(os.path.dirname(os.path.abspath(__file__)), "..", "..", "oracle"))
import blocks  # noqa: E402
import divided  # noqa: E402
import doubles  # noqa: E402
import edges  # noqa: E402
import exchange  # noqa: E402
import factors  # noqa: E402
import jobs  # noqa: E402
import larger  # noqa: E402
import limited  # noqa: E402
import lengths  # noqa: E402
import pins  # noqa: E402
import random_jobs  # noqa: E402
import ranged  # noqa: E402
import reduced  # noqa: E402
import runs  # noqa: E402
import standing  # noqa: E402
import steps  # noqa: E402
import tables  # noqa: E402
import walk  # noqa: E402
import turns  # noqa: E402
import words  # noqa: E402
from lists import PROGRAM, TOP, Lines  # noqa: E402


def add_tables(lines):
    """Numbers, tables and the reduced pair, one seed through all of them; then the faults."""
    rng = random.Random(20261115)
    for text, add in (("roots, eighths, bits, ranks", doubles.add), ("tables", tables.add), ("the reduced pair", reduced.add)):
        lines.heading(text)
        add(lines, rng)
    rng = random.Random("tables 1")
    lines.heading("decoded signs")
    tables.add_decoded(lines, rng)
    lines.heading("any bytes for signs, slices with tails")
    tables.add_edges(lines, rng)
    tables.add_faults(lines)


LISTS = {"tables": add_tables, "factors": factors.add, "steps": steps.add, "standing": standing.add, "edges": edges.add, "runs": runs.add, "jobs": jobs.add, "pins": pins.add, "larger": larger.add, "words": words.add,
         "blocks": blocks.add, "divided": divided.add, "ranged": ranged.add, "walk": walk.add, "turns": turns.add, "exchange": exchange.add, "limited": limited.add, "lengths": lengths.add}
SEEDED = {"ranks": steps.seeded, "jobs": random_jobs.seeded, "pins": random_jobs.seeded_pins, "larger": random_jobs.seeded_larger, "runs": runs.seeded,
          "larger-calls": larger.seeded_calls, "reduced": reduced.seeded, "blocks": blocks.seeded, "divided": divided.seeded, "ranged": ranged.seeded, "walk": walk.seeded, "turns": turns.seeded,
          "exchange": exchange.seeded, "limited": limited.seeded, "lengths": lengths.seeded, "distances": words.seeded}


def stored(check):
    """Writes or compares every list; the status to end with."""
    status = 0
    for name, add in LISTS.items():
        lines, path = Lines(), os.path.join(TOP, "tests", "lists", name + ".txt")
        add(lines)
        if not check:
            with open(path, "w") as out:
                out.write(lines.text())
        elif open(path).read() != lines.text():
            print(f"tests/lists/{name}.txt is not what tests/make/all.py makes")
            status = 1
    return status


def main():
    arguments = sys.argv[1:]
    if not os.access(PROGRAM, os.X_OK):
        print("no oracle is built (oracle/README.md): not run")
        sys.exit(77)
    if len(arguments) == 3 and arguments[0] in SEEDED:
        lines = Lines()
        for _ in SEEDED[arguments[0]](lines, int(arguments[1]), arguments[2]):
            sys.stdout.write(lines.text())
            lines.out.clear()
    elif arguments in ([], ["--check"]):
        sys.exit(stored(arguments == ["--check"]))
    else:
        sys.exit(__doc__)


if __name__ == "__main__":
    main()
