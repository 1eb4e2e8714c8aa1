#!/usr/bin/env python3
"""bench/pin.py COUNT WITH WITHOUT <JOB: pins COUNT wagons of the job of version 1 on standard input, every k-th, to 0 and 1 in turn. WITH is the
job of version 2; WITHOUT the job of version 1 on its reduced hall, which runs alike. WITH.more and WITHOUT.more have a byte too many, which is 11 after all
else is read and judged."""
import os
import sys

sys.dont_write_bytecode = True
sys.path.insert(0, os.path.join(os.path.dirname(os.path.abspath(__file__)), "..", "oracle"))
import gen  # noqa: E402
import model  # noqa: E402


def main():
    count, with_pins, without = int(sys.argv[1]), *sys.argv[2:]
    n, entries, c, s, width, draws, _ = model.read_job(sys.stdin.buffer.read())
    pins = [(k * n // count, k % 2) for k in range(count)]
    free, h, costs, _ = model.reduced(n, entries, c, dict(pins))
    m, rank = len(free) + 1, s["rank"] or model.default_rank(len(free) + 1)
    numbers = s.pop("numbers")[: model.start_count(s["start"], s["most"], m, rank)]
    for name in ("number", "objective_tolerance", "stationarity_tolerance"):
        s[name] = gen.bits(s[name])
    common = {**s, "width": width, "start_numbers": list(map(gen.bits, numbers)), "draw_count": len(draws), "draws": [gen.bits(x) for draw in draws for x in draw[:rank]]}
    jobs = (
        (with_pins, gen.base(version=2, n=n, entries=entries, c=c, pins=pins, pin_count=count, **common)),
        (without, gen.base(n=len(free), entries=h, c=costs, **common)))
    for path, job in jobs:
        record = gen.record(job)
        for name, data in ((path, record), (path + ".more", gen.frame(record[4:] + b"\0"))):
            with open(name, "wb") as file:
                file.write(data)


if __name__ == "__main__":
    main()
