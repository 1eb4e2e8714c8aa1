#!/usr/bin/env python3
"""The dependencies in crates.txt: which of them a crate's text uses, and a picture of them.

  tools/edges.py             status 1 where crates.txt lists a crate that no text of the crate names, or leaves out one that it names, or where
                             docs/crates.svg is not the picture
  tools/edges.py --write     rewrites the lists of crates.txt, and the picture

A crate names another by `Rattle.NAME.` in its specs, proofs and contracts, or by `NAME::` in its code. The kit's libraries stay as they are listed.
"""
import os
import re
import sys

TOP = os.path.dirname(os.path.dirname(os.path.abspath(__file__)))
LIST = os.path.join(TOP, "crates.txt")
PICTURE = os.path.join(TOP, "docs", "crates.svg")
HEAD = re.compile(r"(\w+)( staticlib)?:(.*)")


def listed():
    """{crate: [what it stands on]} in the order of crates.txt."""
    with open(LIST, encoding="utf-8") as lines:
        pairs = [found.groups() for found in map(HEAD.match, lines) if found]
    return {name: rest.split() for name, _, rest in pairs}


def text_of(name):
    """The crate's text, comments left out."""
    found = []
    for part in ("src", "specs", "proofs"):
        for folder, _, files in os.walk(os.path.join(TOP, "crates", name, part)):
            for file in files:
                if file.endswith((".rt", ".antt")):
                    with open(os.path.join(folder, file), encoding="utf-8") as text:
                        found += [re.sub(r"(//|--).*", "", line) for line in text]
    return "".join(found)


def named(name, crates):
    """What the crate's text names, in reading order, then the kit's libraries."""
    text = text_of(name)
    used = set(re.findall(r"\bRattle\.(\w+)\.", text)) | set(re.findall(r"(?<![\w:])(\w+)::", text))
    return [other for other in crates if other in used and other != name] + [other for other in crates[name] if other not in crates]


def write_list(uses):
    with open(LIST, encoding="utf-8") as lines:
        text = [HEAD.sub(lambda m: f"{m[1]}{m[2] or ''}: {' '.join(uses[m[1]])}".rstrip(), line) if HEAD.match(line) else line for line in lines]
    with open(LIST, "w", encoding="utf-8") as out:
        out.writelines(text)


def heights(uses):
    """How many crates lie below each, on the longest way down."""
    found = {}
    for name in uses:
        found[name] = 1 + max((found[other] for other in uses[name] if other in found), default=-1)
    return found


def direct(uses):
    """The edges that no longer way implies."""
    below = {}
    for name in uses:
        below[name] = set().union(*({other} | below.get(other, set()) for other in uses[name])) if uses[name] else set()
    return [(name, other) for name in uses for other in uses[name] if other in uses and not any(other in below[third] for third in uses[name] if third in uses)]


def picture(uses):
    """Crates in rows, each above what it stands on; an edge only where no longer way implies it."""
    height = heights(uses)
    rows = [[name for name in uses if height[name] == level] for level in range(max(height.values()) + 1)]
    wide, high, step = 132, 24, 58
    width = max(len(row) for row in rows) * (wide + 16) + 16
    tall = len(rows) * step + 16
    place = {}
    for level, row in enumerate(rows):
        left = (width - len(row) * (wide + 16) + 16) // 2
        for k, name in enumerate(row):
            place[name] = (left + k * (wide + 16), tall - 16 - high - level * step)
    out = [
        f'<svg xmlns="http://www.w3.org/2000/svg" viewBox="0 0 {width} {tall}" width="{width}" height="{tall}" font-family="sans-serif" font-size="12">',
        "<title>The crates of Ketulin</title>",
        "<desc>Each crate stands above those that it uses; a line goes to each of them that no longer way leads to.</desc>",
    ]
    for name, other in direct(uses):
        (x, y), (u, v) = place[name], place[other]
        out.append(f'<line x1="{x + wide // 2}" y1="{y + high}" x2="{u + wide // 2}" y2="{v}" stroke="#999"/>')
    for name, (x, y) in place.items():
        out.append(f'<rect x="{x}" y="{y}" width="{wide}" height="{high}" rx="4" fill="#fff" stroke="#333"/>')
        out.append(f'<text x="{x + wide // 2}" y="{y + 16}" text-anchor="middle">{name}</text>')
    return "\n".join([*out, "</svg>", ""])


def main():
    crates = listed()
    uses = {name: named(name, crates) for name in crates}
    drawn = picture(uses)
    if sys.argv[1:] == ["--write"]:
        write_list(uses)
        with open(PICTURE, "w", encoding="utf-8") as out:
            out.write(drawn)
        return
    wrong = [f"crates.txt: {name} lists {other}, which it doesn't use" for name in crates for other in crates[name] if other not in uses[name]]
    wrong += [f"crates.txt: {name} uses {other}, which isn't listed" for name in crates for other in uses[name] if other not in crates[name]]
    if not os.path.exists(PICTURE) or open(PICTURE, encoding="utf-8").read() != drawn:
        wrong.append("docs/crates.svg is not the picture of crates.txt: tools/edges.py --write")
    print("\n".join(wrong), end="\n" if wrong else "")
    sys.exit(1 if wrong else 0)


if __name__ == "__main__":
    main()
