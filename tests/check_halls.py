#!/usr/bin/env python3
"""Tests of tools/hall, tools/plan and tools/show_hall.sh; tests/check_halls.sh runs it. WAGONPLAN may name another program than target/bin/wagonplan,
WAGONPLAN_ARCHIVE another archive than target/libwagonplan.a."""
import itertools
import json
import os
import random
import shutil
import struct
import subprocess
import sys
import tempfile
import unittest
import xml.etree.ElementTree

sys.dont_write_bytecode = True
sys.path.insert(0, os.path.join(os.path.dirname(os.path.dirname(os.path.abspath(__file__))), "tools"))
from halls import answer, exact, hall, picture, program, record, rows, say  # noqa: E402
from halls.text import Refused, Wrong  # noqa: E402

TOP = answer.TOP
PROGRAM = os.environ.get("WAGONPLAN") or os.path.join(TOP, "target", "bin", "wagonplan")
HALLS = "examples/halls"
STALLS, DOORWAY, REPAIRS, BALCONY = (os.path.join(TOP, HALLS, name) for name in ("stalls.txt", "doorway.txt", "repairs.txt", "balcony.txt"))
TWO = "wagon a 1\nwagon b -2\n"
FRAME = "wagon a 0\npair a a 1\nrank 24\n"
SVG = "{http://www.w3.org/2000/svg}"


def run(*words, given=b"", **env):
    """A command of tools/ as a user runs it."""
    return subprocess.run([os.path.join(TOP, "tools", words[0]), *words[1:]], input=given, capture_output=True, env={**os.environ, **env}, check=False)


def many(wagons, more=""):
    return "".join(f"wagon w{i} 0\n" for i in range(wagons)) + more


def all_pairs(wagons, most):
    pairs = [(i, k) for i in range(wagons) for k in range(i + 1, wagons)][:most]
    return "".join(f"pair w{i} w{k} 1\n" for i, k in pairs)


ALL_LEFT = "".join(f"pin w{i} left\n" for i in range(127))


def empty_table(wagons):
    return "".join(f",w{i}" for i in range(wagons)) + "\n" + "".join(f"w{i}{',' * wagons}\n" for i in range(wagons))


def contents(path):
    with open(path, "rb") as file:
        return file.read()


def changed(data, at, new):
    return data[:at] + new + data[at + len(new) :]


def stored_jobs():
    """Each stored job in hexadecimal, with its answer or refusal."""
    for name in ("jobs.txt", "pins.txt"):
        with open(os.path.join(TOP, "tests", "lists", name), encoding="ascii") as file:
            lines = (line.split() for line in file if line.startswith("answer ") and " ~ " not in line)
            yield from ((words[1], bytes.fromhex(words[-1])) for words in lines if words[-2] != "1F")


class Case(unittest.TestCase):
    def setUp(self):
        self.folder = tempfile.mkdtemp()
        self.addCleanup(shutil.rmtree, self.folder)

    def file(self, name, data):
        path = os.path.join(self.folder, name)
        with open(path, "wb") as file:
            file.write(data if isinstance(data, bytes) else data.encode())
        return path

    def script(self, text):
        path = self.file("program", "#!/bin/sh\n" + text)
        os.chmod(path, 0o755)
        return path

    def hall(self, text, name="hall.txt"):
        return hall.read_hall(self.file(name, text))

    def sentence(self, text, name="hall.txt"):
        with self.assertRaises(Refused) as caught:
            record.job_of(self.hall(text, name))
        return str(caught.exception)

    def answered(self, made):
        job = record.job_of(made)
        data = subprocess.run([PROGRAM], input=job, capture_output=True, check=True).stdout
        return data, answer.read_answer(data, made)

    def ends(self, done, status, *sentences):
        """The status, and no traceback; each sentence is on standard error."""
        said = done.stderr.decode()
        self.assertEqual(done.returncode, status, said)
        self.assertNotIn("Traceback", said)
        for sentence in sentences:
            self.assertIn(sentence, said)


class HallFiles(Case):
    WRONG = [
        ("wagon a\n", "line 1: it is written `wagon NAME COST`, and here wagon is followed by 1 word."),
        ("wagon a 1\nwagon a 2\n", "line 2: there are two wagons named a."),
        ("wagon a one\n", "line 1: one is not a whole number."),
        ("wagon a 1.5\n", "line 1: 1.5 is not a whole number."),
        (TWO + "pair a c 1\n", "line 3: no wagon above is named c."),
        (TWO + "pair a b 1\npair b a 1\n", "line 4: the pair b a has a cost already."),
        (TWO + "row A a b\nrow A a\n", "line 4: there are two rows named A."),
        (TWO + "row A a\nrow B b a\n", "line 4: wagon a stands in row A already."),
        (TWO + "row A a a\n", "line 3: wagon a stands in row A already."),
        (TWO + "row A c\n", "line 3: no wagon above is named c."),
        (TWO + "row A\n", "line 3: it is written `row NAME WAGON..`, and here row is followed by 1 word."),
        (TWO + "retractable c\n", "line 3: no wagon above is named c."),
        (TWO + "pin a\n", "line 3: it is written `pin NAME left|right`, and here pin is followed by 1 word."),
        (TWO + "pin a left right\n", "line 3: it is written `pin NAME left|right`, and here pin is followed by 3 words."),
        (TWO + "pin c left\n", "line 3: no wagon above is named c."),
        ("pin a left\n" + TWO, "line 1: no wagon above is named a."),
        (TWO + "pin a middle\n", "line 3: a wagon is pinned to the store left or right, not middle."),
        (TWO + "pin a 0\n", "line 3: a wagon is pinned to the store left or right, not 0."),
        (TWO + "pin a left\npin b left\npin a left\n", "line 5: wagon a is pinned to the left store already."),
        (TWO + "pin a right\npin a left\n", "line 4: wagon a is pinned to the right store already."),
        (TWO + "pin a right\nstart signs + + +\n", "line 4: this start has 2 numbers (2 rows with the anchor's and none for a pinned wagon), not 3."),
        (TWO + "pin a right\npin b left\nstart signs + +\n", "line 5: this start has 1 number (1 rows with the anchor's and none for a pinned wagon), not 2."),
        ("wagons a 1\n", "line 1: a line starts with one of wagon, pair, table, row, "),
        ("rule Fast\n", "line 1: a rule is one of Grad, "),
        ("rule CoordMomentum 1\n", "line 1: the momentum 1 of CoordMomentum is not from 0 to below 1."),
        ("rule CoordMomentum nan\n", "line 1: the momentum nan "),
        ("start middle\n", "line 1: a start is one of random, factor, signs, not middle."),
        ("tolerances 0 small\n", "line 1: small is not a number."),
        ("wagon a\x01 1\n", "line 1: the word a? has a character that can't be printed."),
        (TWO + "start factor 1 2\n", "line 3: `start factor` needs a line `rank R` with R from 1 to 32"),
        (TWO + "start signs + +\n", "line 3: this start has 3 numbers (3 rows with the anchor's), not 2."),
        (TWO + "rank 2\nstart factor 1 2\n", "line 4: this start has 6 numbers (3 rows with the anchor's, rank 2), not 2."),
        (TWO + "rank 2\ndraw 1 0\ndraw 1\ndraw 1 0\n", "line 5: draw 2 has 1 number; it has 2, as many as the rank."),
        (FRAME + ("draw" + " 0" * 24 + "\n") * 340, "line 343: the job takes 65,728 bytes"),
        (TWO + "table absent.csv\n", "line 3: the table absent.csv can't be read: No such file or directory."),
    ]

    def test_wrong_lines(self):
        for text, sentence in self.WRONG:
            self.assertIn(sentence, self.sentence(text))

    def test_bytes_that_are_no_text(self):
        self.assertIn("hall.txt is not UTF-8 text: byte 7 is FF in hexadecimal.", self.sentence(b"wagon \xff 1\n"))
        self.assertIn("is longer than 4,194,304 bytes.", self.sentence(b"#" * (1 << 22) + b"\n"))

    # What stands at a limit, which the program must answer, and one beyond it.
    LIMITS = [
        (many(255), many(256), "line 256: wagon w255 is number 256; a hall has at most 255 wagons."),
        (many(127, all_pairs(127, 2048)), many(127, all_pairs(127, 2049)), "line 2176: with the pair w17 w60 the table has 4,098 entries; it has at most 4,096"),
        (f"wagon a {2**39}\n", f"wagon a {2**39 + 1}\n", "line 1: with the cost 549755813889 of a the magnitude is above 2^40 = 1,099,511,627,776"),
        (TWO + f"pair a b {2**39 - 3}\n", TWO + f"pair a b -{2**39 - 2}\n", "line 3: with the cost -549755813886 of the pair a b the magnitude is above 2^40"),
        (TWO + f"pair a a {2**40 - 6}\n", TWO + f"pair a a {2**40 - 5}\n", "line 3: with the cost 1099511627771 of the pair a a the magnitude is above 2^40"),
        (TWO + "rank 32\n", TWO + "rank 33\n", "line 3: the rank is 33; it is from 0 to 32."),
        (TWO + "width 128\n", TWO + "width 129\n", "line 3: the width is 129; it is from 0 to 128."),
        (TWO + "draws 1000\n", TWO + "draws 1001\n", "line 3: the count of draws is 1001; it is from 1 to 1,000."),
        (TWO + "draws 1\n", TWO + "draws 0\n", "line 3: the count of draws is 0; it is from 1 to 1,000."),
        (TWO + "rank 1\n" + "draw 1\n" * 1000, TWO + "rank 1\n" + "draw 1\n" * 1001, "line 1004: this is draw 1,001; a job has at most 1,000."),
        (TWO + "sweeps 4294967295\n", TWO + "sweeps 4294967296\n", "line 3: the most sweeps is 4294967296; it is from 0 to 4,294,967,295."),
        (TWO + "width 0\n", TWO + "width -1\n", "line 3: the width is -1; it is from 0 to 128."),
        (FRAME + "draws 339\n", FRAME + "draws 340\n", "line 4: the job takes 65,728 bytes, 18 for the table, 420 for settings and start, "
         "65,282 for the draws, and has at most 65,536: 339 draws of 24 numbers would fit."),
        (FRAME + "pin a left\ndraws 339\n", FRAME + "pin a left\ndraws 340\n", "line 5: the job takes 65,539 bytes, 21 for the table, 228 for settings and start, "
         "65,282 for the draws, and has at most 65,536: 339 draws of 24 numbers would fit."),
        (many(127, ALL_LEFT), many(127, ALL_LEFT) + "pin w126 right\n", "line 255: wagon w126 is pinned to the left store already."),
        ("rule CoordMomentum 0.99\n", "rule CoordMomentum -0.01\n", "line 1: the momentum -0.01 of CoordMomentum is not from 0 to below 1."),
        (f"wagon {'n' * 24} 0\nrow {'r' * 16} {'n' * 24}\n", f"wagon {'n' * 25} 0\n", " has 25 characters; it has at most 24."),
        (TWO + f"row {'r' * 16} a\n", TWO + f"row {'r' * 17} a\n", "line 3: the row's name rrrrrrrrrrrrrrrrr has 17 characters; it has at most 16."),
    ]

    def test_limits(self):
        for at, beyond, sentence in self.LIMITS:
            self.answered(self.hall(at))
            self.assertIn(sentence, self.sentence(beyond))

    def test_no_draw_fits(self):
        text = many(127, all_pairs(127, 2048)) + "rank 32\n"
        self.assertIn("no draw would fit; a lower rank makes start and draws shorter", self.sentence(text))

    def test_longest_job(self):
        self.assertEqual(len(record.job_of(self.hall(FRAME + "draws 339\n"))), 65536)


class Tables(Case):
    TEXT = TWO + "wagon c 0\npair a b 3\npair b c -4\n"
    CSV = "costs,a,b,c\na,1,3,\nb,3,-2,-4\nc,0,-4,0\n"

    def test_same_as_text(self):
        job = record.job_of(self.hall(self.TEXT))
        for old, new in ((",", ","), (",", ";"), (",", "\t"), ("\n", "\r\n"), ("a", '"a"'), ("c,0,-4,0\n", "c,0,-4,0\n,,,\n"), ("costs", "\ufeffcosts")):
            self.assertEqual(job, record.job_of(self.hall(self.CSV.replace(old, new), "table.csv")))
        self.file("table.csv", self.CSV)
        self.assertEqual(job, record.job_of(self.hall("table table.csv\nrow A a b\n")))

    WRONG = [
        ("", "table.csv is empty"),
        (",a,b\na,1,2\nb,3,1\n", "table.csv, cell B3 (b with a) is 3, and cell C2 (a with b) is 2: they must be the same."),
        (",a,b\na,1,2\n", "table.csv names 2 wagons in its first row and has 1 rows below it: it must be square."),
        (",a,b\na,1,2\nb,2\n", "table.csv, row 3 has 2 cells, the first row has 3."),
        (",a,b\nb,1,2\na,2,1\n", "table.csv, cell A2 is `b`, and cell B1 is a: row and column have the same names in the same order."),
        (",a,b\na,1,x\nb,x,1\n", "table.csv, cell C2: x is not a whole number."),
        (",a,b\na,1,2\nb,x,1\n", "table.csv, cell B3: x is not a whole number."),
        (",a,b\na,1.5,2\nb,2,1\n", "table.csv, cell B2: 1.5 is not a whole number."),
        (",a,a\na,1,2\na,2,1\n", "table.csv, cell C3: there are two wagons named a."),
        (",a a\na a,1\n", "table.csv, cell B1: a wagon's name is one word without #, not `a a`."),
        (",a,b\na,1,549755813888\nb,549755813888,0\n", "table.csv, cell C2: with the cost 549755813888 of the pair a b the magnitude is above 2^40"),
        (empty_table(256), "table.csv, cell IW257: wagon w255 is number 256; a hall has at most 255 wagons."),
        (b',"\xff"\n', "table.csv is not UTF-8 text"),
        ("," + "x" * 200000 + "\n", "table.csv is no CSV table: field larger than field limit"),
    ]

    def test_wrong_cells(self):
        for data, sentence in self.WRONG:
            self.assertIn(sentence, self.sentence(data, "table.csv"))

    def test_error_in_a_named_table(self):
        self.file("table.csv", ",a,b\na,1,2\nb,3,1\n")
        self.assertRegex(self.sentence(TWO + "table table.csv\n"), r"hall.txt, line 3: .*table.csv, cell B2: there are two wagons named a\.$")


class Answers(Case):
    def setUp(self):
        super().setUp()
        self.stalls = hall.read_hall(STALLS)
        self.good, self.fields = self.answered(self.stalls)

    def wrong_answers(self):
        """Each kind of wrong answer with its sentence; the good one costs -50, its floor is -65, its search fell from -35 in 4 rounds."""
        good, eighths = self.good, lambda x: struct.pack(">q", round(8 * x))
        moved = [1 - b if i == 0 else b for i, b in enumerate(self.fields["choice"])]
        cost = struct.pack(">q", answer.cost_of(self.stalls, moved))
        yield good[:-1], "it is cut short, 71 bytes where its length field says 72"
        yield good + b"\0", "it has 73 bytes, and its length field says 72"
        yield b"", "it has 0 bytes, and an answer begins with its length in 4"
        yield bytes(4), "it has 4 bytes, and an answer has 60 and one for each wagon"
        yield changed(good, 3, b"\x39"), "it has 72 bytes, and its length field says 61"
        yield changed(good, 4, b"\2"), "its version is 2, not 1"
        yield changed(good, 7, b"\x0b"), "it is for 11 wagons, and the hall has 12"
        yield changed(good, 3, b"\x45") + b"\0", "it has 73 bytes, and an answer for 12 wagons has 72"
        yield changed(good, 5, b"\3"), "its status is 3, which is from 0 to 2"
        yield changed(good, 60, b"\2"), "it has wagon A1 in store 2, which is 0 for left or 1 for right"
        yield changed(good, 44, eighths(-49)), "its cost is -49, and by the hall's own costs its choice costs -50"
        yield changed(good, 60, b"\1"), "its cost is -50, and by the hall's own costs its choice costs -41"
        yield changed(good, 28, eighths(-49.875)), "its cost -50 is below its floor -49.875"
        yield changed(good, 28, eighths(-66)), "its floor is -66, and by the hall's own costs it is -65"
        yield changed(good, 20, struct.pack(">d", -64.0)), "its float bound is -64.0, and by the hall's own costs it is -65.00000000000992"
        yield changed(good, 20, answer.NAN), "its float bound is nan, and by the hall's own costs it is -65.00000000000992"
        yield changed(good, 36, eighths(-51)), "its cost -50 is above -51, which the search started from"
        yield changed(good, 52, struct.pack(">Q", 31)), "it counts 31 rounds, and the fall from -35 to -50 allows at most 30"
        yield changed(good, 52, bytes(8)), "its cost fell from -35 to -50 in no round"
        yield changed(changed(changed(good, 60, bytes(moved)), 44, cost), 36, eighths(0)), "with wagon A1 moved to the other store the choice costs 9 less"
        yield changed(good, 6, b"\6"), "its rank is 6, and the hall's is 7"
        yield changed(good, 8, struct.pack(">I", 21)), "it made 21 sweeps, and the hall allows 20"
        yield changed(good, 8, struct.pack(">I", 19)), "its status says that all sweeps were made, and it made 19 of 20"
        yield changed(changed(good, 5, b"\1"), 8, bytes(4)), "its status is 1, a stop, and it made no sweep"
        yield changed(good, 12, bytes.fromhex("FFF8000000000000")), "its relaxed objective is the NaN FFF8000000000000, not 7FF8000000000000"
        yield bytes([0, 0, 0, 2, 1, 31]), "it is a refusal by 31, and a job is refused by a number from 11 to 19 or by 21"
        yield bytes([0, 0, 0, 2, 1, 20]), "it is a refusal by 20, and a job is refused by a number from 11 to 19 or by 21"
        yield bytes([0, 0, 0, 2, 2, 11]), "it is a refusal of version 2, not 1"

    def test_wrong_answers(self):
        for data, sentence in self.wrong_answers():
            with self.assertRaises(Wrong) as caught:
                answer.read_answer(data, self.stalls)
            self.assertEqual(f"The answer is wrong: {sentence}"[:90], str(caught.exception)[:90].rstrip("."))
            self.assertNotIsInstance(caught.exception, Refused)

    def test_status_of_wrong_answers(self):
        kinds = list(self.wrong_answers())
        for form, (data, sentence) in zip(["words", "json", "plan"] * len(kinds), kinds[::3]):
            self.ends(run("hall", form, STALLS, "-", given=data), 1, sentence)

    def test_refusals(self):
        for number in answer.NUMBERS:
            done = run("hall", "words", STALLS, "-", given=bytes([0, 0, 0, 2, 1, number]))
            self.ends(done, 1, f"The job was refused by {number}: {answer.sentence_of(number)}")
            self.assertNotIn("no sentence", done.stderr.decode())

    def test_all_wagons_and_no_width(self):
        made = self.hall("wagon a -3\nwagon b -3\npair a b 4\nsweeps 0\nwidth 0\nstart signs + + +\ndraw 1 0 0\n")
        data, fields = self.answered(made)
        self.assertEqual((fields["choice"], fields["rounds"]), ([0, 0], 0))  # both in the right store cost less: -2
        made.width = 1
        apart = self.hall("wagon a 1\nwagon b 1\npair a b -3\nsweeps 0\nstart signs + + +\ndraw 1 0 0\n")
        for other, sentence in ((made, "with wagon a moved"), (apart, "with all wagons moved to the other store the choice costs 1 less")):
            table = answer.sign_table(other.pairs, other.costs)
            with self.assertRaises(Wrong) as caught:
                answer.read_answer(changed(data, 20, struct.pack(">dq", answer.bound_of(table), answer.floor_of(table))), other)
            self.assertIn(sentence, str(caught.exception))
        made.width = 0
        with self.assertRaises(Wrong) as caught:
            answer.read_answer(changed(changed(data, 52, struct.pack(">Q", 1)), 36, struct.pack(">q", 8)), made)
        self.assertIn("it counts 1 round of a search of width 0", str(caught.exception))
        self.assertIn("one wagon moved may make it cheaper", "\n".join(say.words(made, fields)))

    def test_stored_jobs(self):
        """Every stored answer is right by its job, and every refusal has its sentence."""
        counts = [0, 0]
        for job, data in stored_jobs():
            if len(data) == 6:
                self.assertRaises(Refused, answer.refuse, data)
            else:
                answer.read_answer(data, record.hall_of(bytes.fromhex(job)))
            counts[len(data) == 6] += 1
        self.assertGreater(min(counts), 100)

    def test_json(self):
        done = run("hall", "json", STALLS, "-", given=self.good)
        self.ends(done, 0)
        found = json.loads(done.stdout)
        self.assertEqual([("left", "right").index(found["choice"][name]) for name in self.stalls.names], self.fields["choice"])
        self.assertEqual([found[key] for key in ("cost", "floor", "rounded_cost", "rounds", "status", "sweeps", "rank")], [-50, -65, -35, 4, 0, 20, 7])
        self.assertEqual((found["rows"]["B"], found["retractable"]), (["B1", "B2", "B3", "B4"], ["A2", "A4", "B2", "B4", "C3"]))
        not_finite = json.loads(say.as_json(self.stalls, {**self.fields, "relaxed": float("nan")}))
        self.assertIsNone(not_finite["relaxed_objective"])

    def test_eighths(self):
        self.assertEqual([answer.eighths(x) for x in (0, 1, -1, -12, 8, 8 * 2**40 + 7)], ["0", "0.125", "-0.125", "-1.5", "1", "1,099,511,627,776.875"])


class Pins(Case):
    """Wagons that may not move: a job of version 2, and an answer in which they stay."""

    def setUp(self):
        super().setUp()
        self.repairs = hall.read_hall(REPAIRS)
        self.good, self.fields = self.answered(self.repairs)

    def test_job(self):
        job = record.job_of(self.hall("wagon a -1\nwagon b -1\npair a b 3\npin a left\nsweeps 0\ntolerances 0 0\nwidth 1\nstart signs + +\ndraw 1 0\n"))
        stored = contents(os.path.join(TOP, "tests", "lists", "pins.txt")).decode().split("\n")
        self.assertEqual(stored[0], "# 00 H_01 = H_10 = 3, c = -1, -1, wagon 0 pinned to 0")
        self.assertEqual(job.hex().upper(), stored[1].split()[1])
        self.assertEqual([record.job_of(self.hall(TWO + more))[4] for more in ("", "pin a left\n")], [1, 2])
        self.assertEqual([record.job_of(self.hall(many(n, "rank 1\n" + more)))[4] for n in (127, 128, 255) for more in ("", "pin w0 left\n")], [1, 2, 3, 3, 3, 3])
        back = record.hall_of(record.job_of(self.repairs))
        self.assertEqual((back.pins, back.pairs, back.costs), ({3: 0, 6: 1}, self.repairs.pairs, self.repairs.costs))
        self.assertEqual((back.most, back.width, back.meant_rank()), (3, 16, self.repairs.meant_rank()))

    def test_words_and_json(self):
        said = list(say.words(self.repairs, self.fields))
        self.assertIn("Pinned, may not move: A4 in the left store, B2 in the right store.", said)
        self.assertIn(f"No choice that keeps the pins costs less than {answer.eighths(self.fields['floor'])}, the floor.", said[4])
        self.assertIn("No single free wagon moved to the other store makes it cheaper, nor all free ones at once.", said[4])
        found = json.loads(say.as_json(self.repairs, self.fields))
        self.assertEqual(found["pinned"], {"A4": "left", "B2": "right"})
        self.assertEqual((found["choice"]["A4"], found["choice"]["B2"]), ("left", "right"))
        self.assertEqual(found["pinned_cost"], 3)
        self.assertIn(", float bound -30.5; both are without the pinned wagons' own cost, 3.", said[-1])
        none = json.loads(say.as_json(*self.of("wagon a 1\n")))
        self.assertEqual((none["pinned"], none["pinned_cost"]), ({}, 0))

    def of(self, text):
        made = self.hall(text)
        return made, self.answered(made)[1]

    def test_all_pinned(self):
        made, fields = self.of("wagon a 4\nwagon b -9\npair a b 3\npair b b 5\npin a right\npin b right\n")
        self.assertEqual([fields[key] for key in ("cost", "floor", "rounded", "rounds", "rank", "choice")], [4, 4, 4, 0, 1, [1, 1]])
        self.assertIn("This costs 0.5. No choice that keeps the pins costs less.", list(say.words(made, fields)))

    def test_no_search(self):
        made, fields = self.of("wagon a -1\nwagon b -1\nwagon c 9\npair a b 3\npin c right\nwidth 0\n")
        self.assertEqual(say.promises(made, fields)[1], "The search was off (width 0): one free wagon moved may make it cheaper.")

    def test_pins_in_a_named_table(self):
        self.file("table.csv", Tables.CSV)
        by_table, by_lines = (self.hall(text + "pin b right\n", name) for text, name in (("table table.csv\n", "one.txt"), (Tables.TEXT, "other.txt")))
        self.assertEqual(record.job_of(by_table), record.job_of(by_lines))

    def test_wrong_answers(self):
        """A pinned wagon that is moved; a floor without the pinned wagons' cost; a free wagon that could move."""
        good, choice = self.good, self.fields["choice"]
        moved = [1 - b if i == 3 else b for i, b in enumerate(choice)]
        told = lambda data: self.assertRaises(Wrong, answer.read_answer, data, self.repairs)
        with self.assertRaises(Wrong) as caught:
            answer.read_answer(changed(good, 60, bytes(moved)), self.repairs)
        self.assertIn("it has wagon A4 in the right store, and it is pinned to the left one", str(caught.exception))
        constant = answer.free_part(self.repairs)[2]
        self.assertNotEqual(constant, 0)
        for at, key in ((28, "floor"), (36, "rounded"), (44, "cost")):
            if key != "rounded":
                told(changed(good, at, struct.pack(">q", self.fields[key] - constant)))
        told(changed(good, 6, bytes([self.fields["rank"] + 1])))
        for i in self.repairs.free():
            other = [1 - b if k == i else b for k, b in enumerate(choice)]
            cost = struct.pack(">q", answer.cost_of(self.repairs, other))
            if answer.cost_of(self.repairs, other) > self.fields["cost"]:
                told(changed(changed(changed(good, 60, bytes(other)), 44, cost), 36, cost))

    def test_job_on_standard_input(self):
        job = record.job_of(self.repairs)
        done = run("plan", "-", given=job)
        self.ends(done, 0)
        self.assertIn("Pinned, may not move: 3 in the left store, 6 in the right store.", done.stdout.decode())
        at = 8 + 10 * len(self.repairs.pairs) + 8 * len(self.repairs.names)
        for place, byte in ((1, 10), (1, 255), (2, 2), (3, 3), (4, 200)):
            self.ends(run("plan", "-", given=changed(job, at + place, bytes([byte]))), 1, f"The job was refused by 21: {answer.sentence_of(21)}")


class Exact(Case):
    """The least cost of a small hall, walked by the library's call, beside the search's answer."""

    UNSEARCHED = "wagon front -1\nwagon back -1\npair front back 3\nwidth 0\nsweeps 0\n"
    PLAIN, HELD = UNSEARCHED + "start signs + + +\ndraw 1 0 0\n", UNSEARCHED + "pin front left\nstart signs + +\ndraw 1 0\n"

    def last(self, *words):
        done = run(*words, "--exact")
        self.ends(done, 0)
        return done.stdout.decode().splitlines()[-1]

    def test_said(self):
        """A search of width 0 misses the least; that of the same hall doesn't."""
        for text, sentence in (
            (self.PLAIN, "Every choice was walked, 4 in all. The least costs -1, 1 less than this plan, left store: back; right store: front."),
            (self.PLAIN.replace("width 0", "width 1"), "Every choice was walked, 4 in all. None costs less than this plan."),
            (self.HELD, "Every choice that keeps the pins was walked, 2 in all. The least costs -1, 1 less than this plan, left store: front; right store: back."),
            ("", "Every choice was walked, 1 in all. None costs less than this plan."),
        ):
            path = self.file("hall.txt", text)
            self.assertEqual(self.last("hall", "solve", path), sentence)
            self.assertEqual(self.last("plan", path), sentence)

    def test_json(self):
        written = os.path.join(self.folder, "json")
        self.ends(run("plan", self.file("hall.txt", self.PLAIN), "--exact", "--json", written), 0)
        found = json.loads(contents(written))
        self.assertEqual(found["least"], {"choice": {"front": "right", "back": "left"}, "cost": -1.0, "walked": 4})
        self.assertEqual((found["choice"]["front"], found["cost"]), ("left", 0.0))
        self.ends(run("plan", self.file("hall.txt", self.PLAIN), "--json", written), 0)
        self.assertNotIn("least", json.loads(contents(written)))

    def test_every_choice(self):
        """Against all choices of small random halls, with and without pins, worked out here."""
        command, made = program.built(self.folder, "exact", ""), random.Random("exact")
        for _ in range(40):
            wagons = made.randint(0, 6)
            lines = [f"wagon w{i} {made.randint(-9, 9)}\n" for i in range(wagons)]
            lines += [f"pair w{i} w{k} {made.randint(-9, 9)}\n" for i in range(wagons) for k in range(i, wagons) if made.random() < 0.7]
            lines += [f"pin w{i} {made.choice(answer.STORES)}\n" for i in range(wagons) if made.random() < 0.2]
            this = hall.read_hall(self.file("hall.txt", "".join(lines)))
            keeping = [b for k in range(2**wagons) for b in [[k >> i & 1 for i in range(wagons)]] if all(b[i] == store for i, store in this.pins.items())]
            least = min(keeping, key=lambda b: answer.cost_of(this, b))  # the first of them
            self.assertEqual(exact.walked(command, this), {"cost": answer.cost_of(this, least), "visited": len(keeping), "choice": least})

    def test_too_many(self):
        """17 wagons that may move are too many, 16 are not."""
        self.ends(run("plan", self.file("hall.txt", many(17)), "--exact"), 1, "every choice is walked where at most 16 wagons may move, and here 17 may.")
        self.assertIn("65,536 in all. None costs less", self.last("plan", self.file("hall.txt", many(17, "pin w16 right\n"))))

    def test_answers_that_contradict(self):
        this = hall.read_hall(self.file("hall.txt", self.PLAIN))
        found = {"cost": -8, "visited": 4, "choice": [1, 0]}
        for fields, sentence in (({"cost": -16, "floor": -20}, "its cost -2 is below -1, the least of all choices"), ({"cost": 0, "floor": -4}, "its floor -0.5 is above -1, the least of all choices")):
            self.assertEqual(list(exact.unlike(found, fields, this)), [sentence])
        self.assertIn("is said to cost -2, and by the hall's own costs it costs -1", next(exact.unlike({**found, "cost": -16}, {"cost": 0, "floor": -20}, this)))

    def test_nothing_to_walk_with(self):
        absent = os.path.join(self.folder, "absent")
        self.ends(run("plan", DOORWAY, "--exact", WAGONPLAN_ARCHIVE=absent), 2, f"Every choice is walked by the archive {absent}, which isn't there.")


class Rows(Case):
    """How many rows the sweeps left standing: the run made again by the library's calls, and held against the answer."""

    SAID = [
        (many(2, "sweeps 5 5\n"), 15, "all 15, in 5 sweeps of 3 rows (one for each wagon, one for the anchor); nothing measurable pulled there."),
        (TWO + "wagon c 0\nsweeps 5 5\n", 5, "5 of 20, in 5 sweeps of 4 rows (one for each wagon, one for the anchor); nothing measurable pulled there."),
        (TWO + "rule CoordMomentum 0.5\nsweeps 1\n", 0, "none of 3, in 1 sweep of 3 rows (one for each wagon, one for the anchor)."),
        (many(2, "rule CoordMomentum 0.5\nsweeps 1\n"), 3, "all 3, in 1 sweep of 3 rows (one for each wagon, one for the anchor); nothing measurable pulled there."),
        (TWO + "sweeps 0\n", 0, "none, as no sweep was made."),
        # pinned to the right, w2 leaves its pair's cost with w0, which has none of its own; pinned to the left it leaves nothing
        (many(3, "pair w0 w2 4\npin w2 right\nsweeps 2 2\n"), 2, "2 of 6, in 2 sweeps of 3 rows (one for each free wagon, one for the anchor); nothing measurable pulled there."),
        (many(3, "pair w0 w2 4\npin w2 left\nsweeps 2 2\n"), 6, "all 6, in 2 sweeps of 3 rows (one for each free wagon, one for the anchor); nothing measurable pulled there."),
        (TWO + "pin a right\npin b left\nsweeps 2 2\n", 2, "all 2, in 2 sweeps of 1 row (one for each free wagon, one for the anchor); nothing measurable pulled there."),
        *((TWO + f"rule {rule} 0.01\n", None, f"not counted under the rule {rule}, only under CoordNoStep and CoordMomentum.") for rule in hall.RULES[:3]),
    ]

    def test_said(self):
        written = os.path.join(self.folder, "json")
        for text, total, sentence in self.SAID:
            done = run("plan", self.file("hall.txt", text), "--rows", "--json", written)
            self.ends(done, 0)
            self.assertEqual(done.stdout.decode().splitlines()[-1], f"Rows left standing: {sentence}")
            self.assertEqual(json.loads(contents(written))["rows_standing"], total)

    def test_every_command(self):
        """From a hall, from its answer and from its job."""
        made = hall.read_hall(REPAIRS)
        job, data = record.job_of(made), self.answered(made)[0]
        for command, given in ((("hall", "solve", REPAIRS), b""), (("hall", "words", REPAIRS, "-"), data), (("plan", "-"), job)):
            done = run(*command, "--rows", given=given)
            self.ends(done, 0)
            self.assertTrue(done.stdout.decode().endswith("\nRows left standing: none of 27, in 3 sweeps of 9 rows (one for each free wagon, one for the anchor).\n"))
        self.assertEqual(json.loads(run("hall", "json", REPAIRS, "-", "--rows", given=data).stdout)["rows_standing"], 0)
        self.assertNotIn(b"standing", run("hall", "words", REPAIRS, "-", given=data).stdout + run("hall", "json", REPAIRS, "-", given=data).stdout)

    def test_stored_jobs(self):
        """The run made again is that of every stored answer, and no total is above the rows swept."""
        command, totals = rows.built(self.folder), []
        for job, data in stored_jobs():
            if len(data) != 6:
                made, found = record.hall_of(bytes.fromhex(job)), rows.made_again(command, bytes.fromhex(job))
                self.assertEqual(list(rows.unlike(found, answer.read_answer(data, made), made)), [])
                self.assertLessEqual(found["standing"], found["size"] * found["sweeps"] if made.rule in hall.COUNTING else 0)
                totals.append(found["standing"])
        self.assertGreater(sum(total > 0 for total in totals), 10)

    def test_answers_of_another_run(self):
        """Right by the hall, but not what its run gives."""
        good = self.answered(hall.read_hall(BALCONY))[0]
        sweeps, relaxed, rounded = (changed(good, at, new) for at, new in ((8, struct.pack(">I", 39)), (12, answer.NAN), (36, struct.pack(">qqQ", -8 * 26, -8 * 27, 1))))
        for data, sentence in ((sweeps, "gives sweeps 40, not 39"), (relaxed, "gives relaxed objective -28.11"), (rounded, "gives rounds 0, not 1")):
            self.ends(run("hall", "words", BALCONY, "-", given=data), 0)
            self.ends(run("hall", "words", BALCONY, "-", "--rows", given=data), 1, "The answer is wrong: the hall's run, made again by the library's calls, ", sentence)
        other = self.script(f"cat '{self.file('answer', sweeps)}'")
        self.ends(run("plan", BALCONY, "--rows", WAGONPLAN=other), 2, "gives sweeps 40, not 39.")

    def test_cost_with_pins(self):
        """Costs are compared without the pinned wagons' own."""
        made = hall.read_hall(REPAIRS)
        fields = self.answered(made)[1]
        found = rows.made_again(rows.built(self.folder), record.job_of(made))
        self.assertEqual(found["cost"] + answer.pinned_cost(made), fields["cost"])
        told = list(rows.unlike(found, {**fields, "cost": fields["cost"] - 24}, made))
        self.assertEqual(told, ["the hall's run, made again by the library's calls, gives cost -23, not -26"])

    def test_nothing_to_count_with(self):
        absent = os.path.join(self.folder, "absent")
        self.ends(run("plan", DOORWAY, "--rows", WAGONPLAN_ARCHIVE=absent), 2, f"Rows are counted by the archive {absent}, which isn't there. tools/archive.sh proves and builds it")
        os.symlink(sys.executable, os.path.join(self.folder, "python3"))
        self.ends(run("plan", DOORWAY, "--rows", PATH=self.folder, WAGONPLAN_ARCHIVE=PROGRAM), 2, "The program gcc can't be run: No such file or directory. Rows are counted by a small program")
        self.ends(run("plan", DOORWAY, "--rows", WAGONPLAN_ARCHIVE=self.file("archive", "no archive")), 2, "The program gcc ended with status 1")

    def test_jobs_that_the_calls_refuse(self):
        job = record.job_of(hall.read_hall(DOORWAY))
        at = record.places(job)[-1]
        command = rows.built(self.folder)
        for bad, sentence in (
            (b"", "The job is cut short."), (job[:-1], "The job has another length than it says."), (changed(job, 4, b"\2"), "The job isn't of version 1 or 3."),
            (changed(job + b"\0", 3, bytes([job[3] + 1])), "The job has bytes left over."), (bytes(65537), "The job is too long."),
            (changed(job, 7, b"\xff"), "The job is cut short."), (changed(job, at + 1, b"\5"), f"The call open was refused by 18: {answer.sentence_of(18)}"),
            (changed(job, at + 34, b"\x81"), f"The call finish was refused by 19: {answer.sentence_of(19)}"),
        ):
            done = subprocess.run([command], input=bad, capture_output=True, check=False)
            self.assertEqual((done.returncode, done.stdout, done.stderr.decode()), (1, b"", sentence + "\n"))


class Ranges(Case):
    """Costs written as ranges: the library's finish over them, held against the hall's own ends (02, Note 8)."""

    HALL = "wagon a -3..-1\nwagon b 2\nwagon c -4..0\npair a b 1..3\npair a c -2..2\npair c c 0..2\n"

    def test_words_and_json(self):
        """The figures are those of every plain hall within the ranges: the least and the greatest cost of the plan."""
        path, written = self.file("hall.txt", self.HALL), os.path.join(self.folder, "json")
        done = run("plan", path, "--json", written)
        self.ends(done, 0)
        found, said = json.loads(contents(written)), done.stdout.decode()
        chosen = [answer.STORES.index(found["choice"][name]) for name in "abc"]
        costs = []
        for a, c, ab, ac, cc in itertools.product((-3, -2, -1), range(-4, 1), (1, 2, 3), range(-2, 3), (0, 1, 2)):
            pairs = {(0, 1): ab, (1, 0): ab, (0, 2): ac, (2, 0): ac, (2, 2): cc}
            costs.append(answer.cost_by(pairs, [a, 2, c], chosen) / 8)
            self.assertTrue(all(found["low_floor"] <= answer.cost_by(pairs, [a, 2, c], b) / 8 for b in itertools.product((0, 1), repeat=3)))
        self.assertEqual((found["cost_at_least"], found["cost_at_most"]), (min(costs), max(costs)))
        self.assertEqual(found["cost_at_most"], found["cost"])
        low, high, floor = (answer.eighths(int(8 * found[name])) for name in ("cost_at_least", "cost_at_most", "low_floor"))
        self.assertIn(f"This costs at least {low} and at most {high}, whatever the costs within their ranges turn out to be. No choice at all costs less than {floor}, the floor of the low costs. "
                      "By the high costs no single wagon moved to the other store makes it cheaper, nor all of them at once.\n", said)
        self.assertIn(f"Cost from {low} to {high}     Floor {floor}", run("hall", "plan", path, "-", given=self.answered(self.hall(self.HALL))[0]).stdout.decode())

    def test_equal_ends(self):
        """A range of one number says what the number says."""
        written = os.path.join(self.folder, "json")
        self.ends(run("plan", self.file("hall.txt", "wagon a -3..-3\nwagon b 2\npair a b 1\n"), "--json", written), 0)
        found = json.loads(contents(written))
        self.assertEqual([found[name] for name in ("cost_at_least", "cost_at_most", "low_floor")], [found["cost"], found["cost"], found["floor"]])

    def test_wrong_lines(self):
        for text, sentence in (("wagon a 7..3\n", "line 1: the range 7..3 has its low end above its high end."), ("wagon a 3..\n", "line 1: 3.. is no range of two whole numbers, as 3..7 is."),
                               ("wagon a 1..2..3\n", "line 1: 1..2..3 is no range of two whole numbers"), ("wagon a 0..1\npin a left\n", "line 2: a hall with costs written as ranges has no pins"),
                               (f"wagon a -{2**39 + 1}..0\n", "the magnitude is above 2^40")):
            self.assertIn(sentence, self.sentence(text))
        self.ends(run("hall", "job", self.file("hall.txt", "wagon a 0..1\n")), 1, "has costs written as ranges, and a job can't carry them")
        self.assertIn("they must be the same", self.sentence(",a,b\na,0,1..2\nb,1..3,0\n", "table.csv"))

    def test_table(self):
        made = self.hall(",a,b\na,-1..0,1..2\nb,1..2,3\n", "table.csv")
        self.assertEqual((made.low_costs, made.costs, made.low_pairs, made.pairs, made.ranged), ([-1, 3], [0, 3], {(0, 1): 1, (1, 0): 1}, {(0, 1): 2, (1, 0): 2}, True))


class Pictures(Case):
    def drawn(self, made):
        """The picture's root, once it is well formed and has its words."""
        _, fields = self.answered(made)
        root = xml.etree.ElementTree.fromstring("\n".join(picture.plan(made, fields)))
        title, told = root.find(f"{SVG}title").text, root.find(f"{SVG}desc").text
        self.assertIn(f"{len(made.names)} wagon", title)
        at_all = "No choice that keeps the pins costs less" if made.pins else "No choice at all costs less"
        for words in ("Left store: ", "Right store: ", f"Cost {answer.eighths(fields['cost'])}.", at_all):
            self.assertIn(words, told)
        wagons = [group for group in root.iter(f"{SVG}g") if group.get("class", "").startswith("wagon")]
        self.assertEqual(sorted(group.find(f"{SVG}text").text for group in wagons), sorted(made.names))
        red = [group.find(f"{SVG}text").text for group in wagons if group.find(f"{SVG}rect").get("fill") == picture.RED]
        self.assertEqual(sorted(red), sorted(made.names[i] for i in made.retractable))
        locked = [group.find(f"{SVG}text").text for group in wagons if group.find(f"{SVG}g[@class='lock']") is not None]
        self.assertEqual(sorted(locked), sorted(made.names[i] for i in made.pins))
        self.assertEqual(sorted(locked), sorted(group.find(f"{SVG}text").text for group in wagons if group.find(f"{SVG}title").text.endswith(", pinned")))
        return root, fields

    def texts(self, root):
        return [found.text for found in root.iter(f"{SVG}text")]

    def test_stalls(self):
        root, _ = self.drawn(hall.read_hall(STALLS))
        said = self.texts(root)
        promised = ["No choice at all costs less than -65, the floor.", "No single wagon moved to the other store makes it cheaper, nor all of them at once."]
        for words in ("LEFT STORE: 7 wagons", "RIGHT STORE: 5 wagons", "Row A", "Row C", "Cost -50     Floor -65", "retractable", *promised):
            self.assertIn(words, said)

    def test_pins(self):
        """The lock beside the name, and what it means, for who sees it and for who doesn't."""
        root, _ = self.drawn(hall.read_hall(REPAIRS))
        self.assertIn("pinned", self.texts(root))
        self.assertIn("Pinned, with a lock, may not move: A4 in the left store, B2 in the right store.", root.find(f"{SVG}desc").text)
        self.assertIn("B2: right store, row B, retractable, pinned", [found.text for found in root.iter(f"{SVG}title")])
        root, _ = self.drawn(hall.read_hall(STALLS))
        self.assertNotIn("pinned", self.texts(root))
        self.drawn(self.hall(many(127, ALL_LEFT)))

    def test_names_that_xml_must_escape(self):
        self.drawn(self.hall("wagon <a&b>\" -1\nwagon ' 2\nrow <&> '\nretractable '\npin ' right\n"))

    def test_no_wagon_and_no_search(self):
        self.drawn(self.hall(""))
        root, _ = self.drawn(self.hall("wagon a -1\nwagon b -1\npair a b 3\nwidth 0\n"))
        self.assertIn("The search was off (width 0): one wagon moved may make it cheaper.", self.texts(root))

    def test_largest_hall(self):
        """127 wagons of a full table, in rows, in as many rows as wagons, and in none; kept for the browser."""
        os.makedirs(os.path.join(TOP, "target", "halls"), exist_ok=True)
        costs = "".join(f"wagon w{i} {i % 9 - 5}\n" for i in range(127))
        table = costs + all_pairs(127, 2048) + "sweeps 5\ndraws 2\nretractable w1 w126\n"
        rows = ["".join(f"row {k} {' '.join(f'w{i}' for i in range(k, min(127, k + step)))}\n" for k in range(0, 127, step)) for step in (13, 1)]
        for name, more in (("rows", rows[0]), ("single", rows[1]), ("none", "")):
            made = self.hall(table + more + "pin w5 left\npin w100 right\npin w126 right\n")
            root, fields = self.drawn(made)
            sizes = {float(group.find(f"{SVG}text").get("font-size")) for group in root.iter(f"{SVG}g") if group.get("class") == "wagon"}
            self.assertGreaterEqual(min(sizes), picture.READABLE)
            program.write_file(os.path.join(TOP, "target", "halls", f"largest-{name}.svg"), "\n".join(picture.plan(made, fields)).encode())
            self.assertEqual("Row 0" in self.texts(root), name == "rows")


class Commands(Case):
    def test_help_and_version(self):
        for words in (("hall", "--help"), ("hall", "--version"), ("hall", "solve", "--help"), ("plan", "--help"), ("plan", "--version")):
            done = run(*words)
            self.ends(done, 0)
            self.assertTrue(done.stdout)

    def test_bad_usage(self):
        for words in ((), ("draw",), ("words", STALLS), ("solve",), ("job", STALLS, "--plan", "x"), ("plan", STALLS, "-", "--rows")):
            self.ends(run("hall", *words), 1, "usage: hall")
        self.ends(run("plan", STALLS, "--drawing", "x"), 2, "usage: plan")
        self.ends(run("hall", "job", "absent.txt"), 1, "absent.txt can't be read: No such file or directory.")
        self.ends(run("hall", "job", self.folder), 1, "can't be read: Is a directory.")
        self.ends(run("plan", "absent.txt"), 2, "absent.txt can't be read: No such file or directory.")

    def test_solve_and_plan(self):
        made = hall.read_hall(STALLS)
        data, fields = self.answered(made)
        words = "".join(line + "\n" for line in say.words(made, fields))
        files = [os.path.join(self.folder, name) for name in ("answer", "plan.svg", "plan.json")]
        for command in (("hall", "solve"), ("plan",)):
            done = run(*command, STALLS, "--answer", files[0], "--plan", files[1], "--json", files[2])
            self.ends(done, 0)
            self.assertEqual(done.stdout.decode(), words)
            written = [contents(path) for path in files]
            self.assertEqual(written, [data, "".join(line + "\n" for line in picture.plan(made, fields)).encode(), say.as_json(made, fields).encode()])
            self.assertEqual(sorted(os.listdir(self.folder)), sorted(map(os.path.basename, files)))
        self.assertEqual(run("hall", "job", STALLS).stdout, record.job_of(made))

    def test_moves(self):
        one, two = "wagon a -1\nwagon b -1\npair a b 3\n", "wagon b 5\nwagon a -2\n"
        files = []
        for name, text in (("one", one), ("two", two), ("other", "wagon a 1\nwagon c 1\n")):
            made = self.hall(text, name + ".txt")
            files += [self.file(name + ".txt", text), self.file(name, self.answered(made)[0])]
        same = run("hall", "moves", *files[:2], *files[:2])
        self.ends(same, 0)
        self.assertEqual(same.stdout.decode().splitlines()[0], "No wagon changes its store.")
        before, after = (self.answered(hall.read_hall(path))[1]["choice"] for path in (files[0], files[2]))
        moved = [name for name, k, j in (("a", 0, 1), ("b", 1, 0)) if before[k] != after[j]]
        done = run("hall", "moves", *files[:4])
        self.ends(done, 0)
        self.assertIn(f"{len(moved)} wagon{'' if len(moved) == 1 else 's'} of 2 change" if moved else "No wagon changes", done.stdout.decode())
        for name in moved:
            self.assertIn(f"{name} from the ", done.stdout.decode())
        self.ends(run("hall", "moves", *files[:2], *files[4:]), 1, "have different wagons: b, c.")
        self.ends(run("hall", "moves", *files[:2], files[0], files[3]), 1, "The answer is wrong")
        self.ends(run("hall", "moves", *files[:3]), 1, "usage: hall")

    def test_clear(self):
        pair = "wagon a -1\nwagon b -1\npair a b 3\n"
        said = lambda text: run("hall", "clear", self.file("house.txt", text))
        done = said(pair + "present left a b\nblock one a\n")
        self.ends(done, 0)
        self.assertEqual(done.stdout.decode().splitlines(), [
            "1 wagon of 2 moves: a from the left to the right.", "Before, it costs 0.", "Block one: the cost falls by 1 (a).", "Then all wagons: nothing to gain.", "Left store: b.",
            "Right store: a.", "This costs -1. No single wagon moved to the other store makes it cheaper, nor all of them at once."])
        done = said(pair + "present right a b\npin a left\nblock none\nblock free b\n")
        self.ends(done, 0)
        self.assertEqual(done.stdout.decode().splitlines(), [
            "1 wagon of 2 moves: a from the right to the left.", "Before, it costs 1.", "First to their pinned stores: a; then it costs -1.", "Block none: nothing to gain (no wagon).",
            "Block free: nothing to gain (b).", "Then all wagons that are not pinned: nothing to gain.", "Left store: a.", "Right store: b.",
            "This costs -1. No single free wagon moved to the other store makes it cheaper, nor all free ones at once."])
        done = said(pair + "present left a b\npin a left\nblock one a\n")
        self.ends(done, 0)
        self.assertIn("Block one: nothing to gain (no wagon).\nThen all wagons that are not pinned: the cost falls by 1.\nLeft store: a.\nRight store: b.\nPinned, and so left out of their blocks: a.\n", done.stdout.decode())
        page = os.path.join(self.folder, "cleared.svg")
        self.ends(run("hall", "clear", self.file("house.txt", pair + "present left a b\nblock one a\n"), "--plan", page), 0)
        with open(page, encoding="utf-8") as file:
            drawn = file.read()
        self.assertEqual((drawn.count('class="wagon moved"'), drawn.count('class="arrow"')), (1, 2))
        for words in ("With an arrow, moved: a.", "Cost -1, before 0     1 wagon to move", "What the cost falls by: block one 1, then the house 0."):
            self.assertIn(words, drawn)
        self.ends(run("hall", "clear", REPAIRS, "--plan", page), 0)
        self.ends(said(pair + "present left a\nblock one a\n"), 1, "they don't name b.")
        self.ends(said(pair + "present left a b\nwidth 0\n"), 1, "a width of at least 1.")
        self.ends(said("wagon a -1..2\npresent left a\nblock one a\n"), 1, "has costs written as ranges, and a house can't be cleared by them.")
        for line, sentence in (
                ("present left a a\n", "wagon a stands in the left store already"), ("present here a\n", "a wagon stands in the store left or right, not here"), ("block x a a\n", "wagon a stands in block x already"),
                ("block x\nblock x\n", "there are two blocks named x"), ("block x c\n", "no wagon above is named c"),
                ("".join(f"block x{k} a\n" for k in range(17)), "block x16 is number 17; a hall has at most 16 blocks"), ("present left\n", "it is written `present left|right WAGON..`")):
            self.ends(said(pair + line), 1, sentence)
        self.ends(run("hall", "clear", self.file("house.txt", pair + "present left a b\n"), WAGONPLAN_ARCHIVE=os.path.join(self.folder, "none.a")), 1, "Blocks are cleared by the archive")

    def test_roll(self):
        pair, three = "wagon a -1\nwagon b -1\npair a b 3\n", "wagon a -1\nwagon b -2\nwagon c -3\n"
        said = lambda text, *more: run("hall", "roll", self.file("house.txt", text), *more)
        settled = lambda k: f"Rolling one wagon more, with at most {k} in all, or one wagon less makes it no cheaper."
        for text, told in (
                (pair + "present left a b\nmoves 1\n", ["Roll 1 wagon tonight, of at most 1: a from the left to the right.", "Left store: b.", "Right store: a.",
                 f"This costs -1, 1 less than before. {settled(1)}", "The search took 1 round."]),
                (pair + "present left a b\nmoves 0\n", ["Roll no wagon tonight, of at most 0.", "Left store: a, b.", "Right store: no wagon.", f"This costs 0, as before. {settled(0)}", "The search took 0 rounds."]),
                (three + "present left a c\npresent right b\nmoves 1\n", ["Roll 1 wagon tonight, of at most 1: c from the left to the right.", "Left store: a.", "Right store: b, c.",
                 f"This costs -5, 3 less than before. {settled(1)}", "The search took 1 round."]),
                (three + "present left a b c\nmoves 2\nwidth 1\n", ["Roll 2 wagons tonight, of at most 2: b from the left to the right, c from the left to the right.", "Left store: a.", "Right store: b, c.",
                 f"This costs -5, 5 less than before. {settled(2)}", "The search took 2 rounds."])):
            done = said(text)
            self.ends(done, 0)
            self.assertEqual(done.stdout.decode().splitlines(), told)
        page = os.path.join(self.folder, "rolled.svg")
        self.ends(said(three + "present left a b c\nmoves 2\n", "--plan", page), 0)
        with open(page, encoding="utf-8") as file:
            drawn = file.read()
        self.assertEqual((drawn.count('class="wagon moved"'), drawn.count('class="arrow"')), (2, 3))
        for words in ("With an arrow, moved: b, c.", "Cost -5, before 0     2 wagons to roll, at most 2", "Roll 2 wagons tonight, of at most 2: b from the left", settled(2)):
            self.assertIn(words, drawn)
        self.ends(run("hall", "roll", STALLS, "--plan", page), 0)
        for text, sentence in (
                ("present left a\nmoves 1\n", "they don't name b."), ("present left a b\n", "`moves K` says how many may be rolled."),
                ("present left a b\nmoves 3\n", "line 5: 3 wagons may be rolled, and the hall has 2."), ("present left a b\nmoves 1\npin a left\n", "line 6: the search for at most so many wagons takes no pins"),
                ("present left a b c\nmoves 1\n", "no wagon above is named c"), ("present left a b\nmoves 1\nwidth 0\n", "line 6: wagons to roll are searched with a width of at least 1"),
                ("moves 256\n", "the number of moves is 256; it is from 0 to 255"), ("moves -1\n", "the number of moves is -1; it is from 0 to 255"), ("moves\n", "it is written `moves K`"),
                ("wagon c 1..2\npresent left a b c\nmoves 1\n", "has costs written as ranges")):
            self.ends(said(pair + text), 1, sentence)
        self.ends(run("hall", "roll", STALLS, WAGONPLAN_ARCHIVE=os.path.join(self.folder, "none.a")), 1, "Wagons to roll are found by the archive")

    def test_job_on_standard_input(self):
        done = run("plan", given=record.job_of(hall.read_hall(DOORWAY)))
        self.ends(done, 0)
        self.assertIn("Left store: 1.\nRight store: 0.\nThis costs -1.", done.stdout.decode())
        job = record.job_of(hall.read_hall(DOORWAY))
        for bad, number in ((job[:-1], 11), (b"", 11), (changed(job, 4, b"\4"), 12), (changed(job, 4, b"\2"), 19), (changed(job, 4, b"\3"), 19), (changed(job, 5, b"\x80"), 13), (job + bytes(1 << 20), 11)):
            self.ends(run("plan", "-", given=bad), 1, f"The job was refused by {number}: {answer.sentence_of(number)}")

    def test_refused_halls(self):
        self.ends(run("plan", self.file("hall.txt", many(256))), 1, "hall.txt, line 256: wagon w255 is number 256")

    PROGRAMS = [
        ("kill -9 $$", "was killed by signal 9 and gave no whole answer."),
        ("exit 3", "ended with status 3 and gave no whole answer."),
        ("exit 0", "The answer is wrong: it has 0 bytes"),
        (f"'{PROGRAM}' | head -c 61", "it is cut short, 61 bytes where its length field says 62"),
        (f"'{PROGRAM}' | head -c 6", "it is cut short, 6 bytes where its length field says 62"),
        (f"'{PROGRAM}' | {{ dd bs=1 count=51 status=none; printf '\\000'; dd bs=1 count=1 of=/dev/null status=none; cat; }}",
         "its cost is -32, and by the hall's own costs its choice costs -1"),
        (f"'{PROGRAM}'; echo", "it has 63 bytes, and its length field says 62"),
    ]

    def test_no_whole_answer(self):
        old = self.file("answer", "old")
        for text, sentence in self.PROGRAMS:
            other = self.script(text)
            self.ends(run("plan", DOORWAY, "--answer", old, WAGONPLAN=other), 2, sentence)
        self.ends(run("hall", "solve", DOORWAY, WAGONPLAN=other), 1, sentence)
        for absent in (os.path.join(self.folder, "absent"), self.folder, old):
            self.ends(run("plan", DOORWAY, "--answer", old, WAGONPLAN=absent), 2, f"The program {absent} can't be run: ")
        self.assertEqual(contents(old), b"old")

    def test_full_disk(self):
        """The old file stays, nothing else is left behind, and the answer is still said."""
        old = self.file("answer", "old")
        done = subprocess.run(["bash", "-c", 'ulimit -f 0; "$0" "$1" --answer "$2"', os.path.join(TOP, "tools", "plan"), DOORWAY, old], capture_output=True, check=False)
        self.ends(done, 2, "answer can't be written: File too large; what was there before is unchanged.")
        self.assertIn(b"Left store: back.", done.stdout)
        self.assertEqual((contents(old), os.listdir(self.folder)), (b"old", ["answer"]))
        with open("/dev/full", "wb") as full:
            done = subprocess.run([os.path.join(TOP, "tools", "plan"), DOORWAY], stdout=full, stderr=subprocess.PIPE, check=False)
        self.ends(done, 2, "Standard output can't be written: No space left on device.")
        self.ends(run("plan", DOORWAY, "--json", "/dev/full"), 2, "/dev/full can't be written: No space left on device")
        self.ends(run("plan", DOORWAY, "--json", os.path.join(self.folder, "absent", "x")), 2, "can't be written: No such file or directory")

    def test_first_command(self):
        """From a tree in which nothing is built, with an rt that only says what the real one says."""
        for name in ("tools", HALLS, answer.HEADER, "crates.txt", "crates/wagonplan/stdin", "crates/wagonplan/stdout"):
            source, to = os.path.join(TOP, name), os.path.join(self.folder, name)
            if os.path.exists(source):
                os.makedirs(os.path.dirname(to), exist_ok=True)
                (shutil.copytree if os.path.isdir(source) else shutil.copy)(source, to)
        says = "".join(f"echo 'fn {name}::a: proved'; echo 'crate {name}: modules loaded=0 checked=9'; echo 'logic=proved functions=1 sum=1'; " for name in ("laws", "wagonplan"))
        shutil.move(self.script(f"{{ {says} }} >&2; mkdir out; ln -s '{PROGRAM}' out/wagonplan; exec out/wagonplan"), os.path.join(self.folder, "rt"))
        command = [os.path.join(self.folder, "tools", "show_hall.sh")]
        done = subprocess.run(command, capture_output=True, env={**os.environ, "PATH": self.folder + ":" + os.environ["PATH"], "WAGONPLAN": ""}, check=False)
        self.ends(done, 0)
        total = len(needed("wagonplan"))
        self.assertRegex(done.stdout.decode(), rf"^The program wagonplan isn't built yet. Its {total} crates are proved now(.|\n)*minutes(.|\n)*"
                         rf"\[ 1 of {total}\]   0:0\d  laws\n\[ 2 of {total}\]   0:0\d  wagonplan\n(.|\n)*took 4 rounds(.|\n)*target/plan.svg")
        xml.etree.ElementTree.parse(os.path.join(self.folder, "target", "plan.svg"))


def needed(name):
    """The crates that one stands on, itself among them."""
    with open(os.path.join(TOP, "crates.txt"), encoding="utf-8") as file:
        edges = dict(line.split(":") for line in file if line[0].isalpha())
    seen, todo = set(), [name]
    while todo:
        crate = todo.pop()
        if crate in edges and crate not in seen:
            seen.add(crate)
            todo += edges[crate].split()
    return seen


class Fuzz(Case):
    """Random and damaged inputs: a sentence or an answer, never another exception."""

    def damaged(self, made, data):
        data = bytearray(data)
        for _ in range(made.randint(1, 4)):
            at = made.randrange(len(data) + 1)
            act = made.randrange(4)
            if act == 0:
                data[at : at + 1] = bytes([made.randrange(256)])
            elif act == 1:
                del data[at : at + made.randrange(20)]
            elif act == 2:
                data[at:at] = made.choice([b"\n", b" ", b"9" * 30, b"-", b"nan", b"1e999", b"\0", b"wagon ", b"table .\n", b",", b"\xff", "\u2028é".encode()])
            else:
                data = data[:at]
        return bytes(data) if made.randrange(10) else made.randbytes(made.randrange(100))

    def test_halls_and_tables(self):
        made = random.Random(7)
        sources = [(contents(path), "hall.txt") for path in (STALLS, DOORWAY, REPAIRS)] + [(Tables.CSV.encode(), "table.csv")]
        for _ in range(800):
            data, name = made.choice(sources)
            try:
                record.job_of(self.hall(self.damaged(made, data), name))
            except Refused:
                pass

    def test_answers(self):
        made = random.Random(8)
        halls = [(found, self.answered(found)[0]) for found in map(hall.read_hall, (STALLS, REPAIRS))]
        for _ in range(2000):
            found, good = made.choice(halls)
            try:
                fields = answer.read_answer(self.damaged(made, good), found)
                "".join([*say.words(found, fields), *picture.plan(found, fields), say.as_json(found, fields)])
            except Wrong:
                pass

    def test_jobs(self):
        made = random.Random(9)
        jobs = [record.job_of(hall.read_hall(path)) for path in (DOORWAY, REPAIRS)]
        for _ in range(600):
            try:
                record.hall_of(self.damaged(made, made.choice(jobs)))
            except Wrong:
                pass


if __name__ == "__main__":
    unittest.main()
