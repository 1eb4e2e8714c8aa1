"""The line format of stored calls (docs/REPLAY.md), and the oracle that answers them."""
import os
import subprocess
import sys

sys.dont_write_bytecode = True
TOP = os.path.dirname(os.path.dirname(os.path.dirname(os.path.abspath(__file__))))
PROGRAM = os.path.join(TOP, "target", "oracle", "release", "oracle")
WORKSPACE = 16384  # bytes, of a job
SEARCH_WORKSPACE = 1024  # words, of a search or a finish
ANSWER = 315


# ---- lines ----------------------------------------------------------------------------------------


def item(x):
    """A word, a slice of bytes, or a slice of words."""
    if isinstance(x, bytes):
        return x.hex().upper() or "-"
    if isinstance(x, list):
        return " ".join([f"{len(x):X}", *map(item, x)])
    return f"{x % 2**64:X}"


class Lines:
    """Lines of one list. A group, the table or the job of a call, that is also the last one's is written `~`."""

    def __init__(self):
        self.out, self.group = [], None

    def heading(self, text):
        self.out.append(f"# {text}")

    def call(self, name, group, given, number, back):
        words = [item(x) for x in group]
        first = ["~"] if group and words == self.group else words
        self.group = words if group else self.group
        self.out.append(" ".join([name, *first, *map(item, given), "=", item(number), *map(item, back)]))

    def run(self, record, factor):
        """Sets run and factor, whatever they say."""
        self.out.append(" ".join(["run", *map(item, record), item(factor)]))

    def runs(self, records, factors):
        """Sets the runs that share turns, and their factors."""
        self.out.append(" ".join(["runs", item(records), item(factors)]))

    def text(self):
        return "".join(line + "\n" for line in self.out)


# ---- the oracle -----------------------------------------------------------------------------------


def oracle(mode, text):
    """The lines that the oracle prints."""
    done = subprocess.run([PROGRAM, *mode], input=text, capture_output=True, text=True)
    if done.returncode != 0:
        sys.exit(f"oracle {' '.join(mode)}: {done.stderr[:500]}")
    return done.stdout.splitlines()


def flat(items):
    """Words as the oracle takes them: a slice is its length and its words."""
    for x in items:
        if isinstance(x, int):
            yield f"{x % 2**64:016X}"
        else:
            yield from flat([len(x), *x])


def leaves(asked):
    """The words that the oracle answers to lines (name, items)."""
    lines = [" ".join([name, *flat(items)]) for name, items in asked]
    answers = oracle(["leaf"], "".join(line + "\n" for line in lines))
    assert len(answers) == len(lines)
    return [[int(w, 16) for w in line.split(" = ")[1].split()] for line in answers]


def slices(words, *counts):
    """Cuts words into slices (None: the length stands before it) and single words (1)."""
    at, out = 0, []
    for count in counts:
        if count == 1:
            out.append(words[at])
            at += 1
        else:
            length = words[at]
            out.append(words[at + 1 : at + 1 + length])
            at += 1 + length
    assert at == len(words)
    return out
