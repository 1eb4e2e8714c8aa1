#!/usr/bin/env python3
"""Runs the program on stored jobs, standard input to standard output, and compares: tests/check_program.py [PROGRAM]

Every tenth job of tests/lists/jobs.txt and pins.txt, every job above 10,000 bytes, and inputs longer than a frame. PROGRAM is target/bin/wagonplan where it isn't given.
"""
import os
import subprocess
import sys

TOP = os.path.dirname(os.path.dirname(os.path.abspath(__file__)))
PROGRAM = sys.argv[1] if len(sys.argv) > 1 else os.path.join(TOP, "target", "bin", "wagonplan")


def cases():
    """Pairs of a job and its answer."""
    lists = [os.path.join(TOP, "tests", "lists", name) for name in ("jobs.txt", "pins.txt")]
    lines = [line.split() for path in lists for line in open(path) if line[0] != "#"]
    for k, (job, answer) in enumerate((given, answer) for _, given, *_, answer in lines if given != "~"):
        if k % 10 == 0 or len(job) > 20000:
            yield bytes.fromhex(job.strip("-")), bytes.fromhex(answer)
        if len(job) == 2 * 65536:  # a whole frame, and one byte more
            yield bytes.fromhex(job + "00"), bytes([0, 0, 0, 2, 1, 11])
    for length in (65536, 65537, 70000, 1 << 20):
        yield (length - 4).to_bytes(4, "big") + bytes(length - 4), bytes([0, 0, 0, 2, 1, 12 if length == 65536 else 11])


def plain(answer):
    """The answer with the doubles' zeros made +0.0: 01 holds them for equal."""
    minus = bytes([128]) + bytes(7)
    return answer[:12] + b"".join(answer[k : k + 8].replace(minus, bytes(8)) for k in (12, 20)) + answer[28:]


def main():
    jobs = differences = 0
    for job, answer in cases():
        done = subprocess.run([PROGRAM], input=job, capture_output=True)
        jobs += 1
        if done.returncode != 0 or plain(done.stdout) != plain(answer):
            differences += 1
            print(f"status {done.returncode}, another answer to the job {job[:60].hex()}..")
    print(f"program: jobs {jobs}, differences {differences}")
    sys.exit(differences != 0)


if __name__ == "__main__":
    main()
