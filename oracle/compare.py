#!/usr/bin/env python3
"""Holds the oracle against the second reading in model.py: compare.py ORACLE [SCALE] [SEED] [KIND]

ORACLE is the program. SCALE multiplies the number of cases (1: some seconds). KIND names the only
kinds to compare, by how they begin. Prints one line for each kind of case and ends with status 1 at
the first difference.
"""
import subprocess
import sys

sys.dont_write_bytecode = True
import gen  # noqa: E402
import model  # noqa: E402

# Kind of input, the oracle's mode, cases at scale 1.
KINDS = [
    ("jobs-small", "answers", 300),
    ("damaged", "answers", 600),
    ("edges", "answers", 1000),
    ("pinned-small", "answers", 300),
    ("pinned-damaged", "answers", 300),
    ("pinned", "answers", 50),
    ("pinned-all", "answers", 50),
    ("pinned-none", "answers", 20),
    ("pinned-large", "answers", 2),
    ("leaf", "leaf", 320),
    ("leaf-beam", "leaf", 200),
    ("leaf-edges", "leaf", 1000),
    ("reduced", "leaf", 200),
    ("run", "run", 60),
    ("exchange", "run", 60),
]
TRACES = {"jobs-small": 40, "pinned-small": 20}


def oracle(program, mode, data):
    done = subprocess.run([program, mode], input=data, capture_output=True)
    if done.returncode != 0:
        sys.exit(f"oracle {mode} failed: {done.stderr.decode()}")
    return done.stdout


def fail(kind, asked, got, wanted):
    sys.exit(f"{kind} differs\nasked  {asked}\noracle {got}\nmodel  {wanted}")


def same(kind, asked, got, wanted):
    if len(got) != len(wanted):
        sys.exit(f"{kind}: {len(got)} answers of the oracle, {len(wanted)} of the model")
    for a, g, w in zip(asked, got, wanted):
        if g != w:
            fail(kind, a, g, w)


def compare_lines(program, kind, mode, count, seed):
    text = "\n".join(gen.lines(kind, count, seed))
    asked = [line for line in text.split("\n") if not line.startswith("#")]
    got = oracle(program, mode, (text + "\n").encode()).decode().splitlines()
    answers = {
        "answers": lambda line: model.answer(bytes.fromhex(line.strip("-"))).hex().upper(),
        "leaf": model.leaf,
        "run": model.Script().line,
    }
    same(kind, asked, got, [answers[mode](line) for line in asked])
    if kind == "edges":
        comments = [line for line in text.split("\n") if line.startswith("#")]
        for comment, answer in zip(comments, got):
            number = int(answer[10:12], 16) if len(answer) == 12 else 0
            if number != int(comment[2:4]):
                fail(kind, comment, number, int(comment[2:4]))
    print(f"{kind}: {len(asked)} lines the same")


def compare_traces(program, kind, count, seed):
    for line in gen.lines(kind, count, f"trace {seed}"):
        record = bytes.fromhex(line)
        got = oracle(program, "trace", record).decode().splitlines()
        same("trace", model.trace(record), got, model.trace(record))
    print(f"trace: {count} {kind} the same")


def main():
    if not 2 <= len(sys.argv) <= 5:
        sys.exit(__doc__)
    program = sys.argv[1]
    scale = int(sys.argv[2]) if len(sys.argv) > 2 else 1
    seed = sys.argv[3] if len(sys.argv) > 3 else "1"
    only = sys.argv[4] if len(sys.argv) > 4 else ""
    for kind, mode, count in KINDS:
        if kind.startswith(only):
            compare_lines(program, kind, mode, count * scale, seed)
    for kind, count in TRACES.items():
        if kind.startswith(only):
            compare_traces(program, kind, count * scale, seed)


if __name__ == "__main__":
    main()
