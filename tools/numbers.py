#!/usr/bin/env python3
"""The refusal numbers and their sentences: include/wagonplan.h has them (`wagonplan_sentence`), README.md shows them, tools/hall reads them there.

  tools/numbers.py            status 1 where README's table is not the header's list
  tools/numbers.py --write    rewrites the table
"""
import os
import re
import sys

TOP = os.path.dirname(os.path.dirname(os.path.abspath(__file__)))
HEADER = os.path.join(TOP, "include", "wagonplan.h")
PAGE = os.path.join(TOP, "README.md")
HEAD = "| number | what it says |\n|---|---|\n"


def text_of(path):
    with open(path, encoding="utf-8") as file:
        return file.read()


def table():
    """The rows of every refusal, those from the state first, as they are judged."""
    found = [(int(number), sentence) for number, sentence in re.findall(r'case (\d+): return "([^"]*)";', text_of(HEADER)) if number != "0"]
    return HEAD + "".join(f"| {number} | {sentence} |\n" for number, sentence in sorted(found, key=lambda row: (row[0] < 31, row[0])))


def main():
    page, made = text_of(PAGE), table()
    shown = re.search(re.escape(HEAD) + r"(?:\|.*\n)*", page)
    if shown is None:
        sys.exit("README.md has no table of numbers")
    if sys.argv[1:] == ["--write"]:
        with open(PAGE, "w", encoding="utf-8") as out:
            out.write(page.replace(shown[0], made))
    elif shown[0] != made:
        sys.exit("README.md's table of numbers is not that of include/wagonplan.h: tools/numbers.py --write")


if __name__ == "__main__":
    main()
