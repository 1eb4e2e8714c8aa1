#!/usr/bin/env python3
"""The page for the buyer, docs/buyer.html, from the repository's own files.

  tools/page.py             status 1 where docs/buyer.html is not the page, where README tells other counts, or where something is wrong with it
  tools/page.py --write     writes both

docs/page has its parts: promises.txt, the sentences and where their statements stand; rests.txt, what they rest on; template.html
and style.css; the answers of the two halls that it shows. Wrong are: a statement that isn't found, one that rests on a definition under proofs/, names in
rests.txt that CLAIMS' table hasn't got or the other way round, a link to nowhere, an id that is there twice, anything that a browser would fetch.
"""
import os
import re
import struct
import sys
from html import escape

sys.dont_write_bytecode = True
from halls.answer import eighths, read_answer  # noqa: E402
from halls.hall import read_hall  # noqa: E402
from halls.picture import plan  # noqa: E402
from halls.record import job_of  # noqa: E402
from halls.say import words  # noqa: E402
from statements import ORDER, Crates  # noqa: E402

TOP = os.path.dirname(os.path.dirname(os.path.abspath(__file__)))
PARTS = os.path.join(TOP, "docs", "page")
PAGE = os.path.join(TOP, "docs", "buyer.html")
README = os.path.join(TOP, "README.md")
COUNTS = re.compile(r"(`tools/believe answer_record plain_run` prints )[\d,]+( lines, )[\d,]+( definitions)")
MAIN = ["answer_record", "plain_run"]  # the record call, the theorem on lists
LONG = 30  # a statement of more lines may be cut by the end of a printed page
KINDS = {"specs": "definition", "proofs": "theorem", "src": "contract of the code", "declared": "type of the code"}


class Fault(Exception):
    pass


def read(*path):
    with open(os.path.join(TOP, *path), encoding="utf-8") as file:
        return file.read()


def slug(*words):
    return re.sub(r"[^\w.-]", lambda m: f"x{ord(m[0]):x}", ".".join(words), flags=re.A)


def prose(text):
    """A sentence with `code` and **strong** words."""
    text = escape(text, quote=False)
    return re.sub(r"\*\*(.+?)\*\*", r"<strong>\1</strong>", re.sub(r"`(.+?)`", r"<code>\1</code>", text))


# ---- the promises


class Promise:
    def __init__(self, sentence):
        self.sentence, self.places = sentence, []


def places_of(line):
    """(key, field) of each name in `CRATE/PART/FILE: NAME, NAME.FIELD`."""
    found = re.fullmatch(r"(\w+)/(specs|proofs|src)/([\w/]+): (.+)", line.strip())
    if not found:
        raise Fault(f"no place: {line.strip()}")
    for name in found[4].split(", "):
        last, _, field = name.partition(".")
        yield (found[1], found[2], found[3].replace("/", "."), last), field


def promised(crates):
    """[(heading, sentences before the list, [promise])]."""
    groups = []
    for line in read("docs", "page", "promises.txt").split("\n"):
        if not line.strip() or line.startswith("#"):
            continue
        mark, rest = line[:1], re.sub(r"^(==|\||\*) ", "", line)
        if mark == "=":
            groups.append((rest, [], []))
        elif mark == "|":
            groups[-1][1].append(rest)
        elif mark == "*":
            groups[-1][2].append(Promise(rest))
        else:
            groups[-1][2][-1].places += places_of(line)
    for heading, _, promises in groups:
        for promise in promises:
            check_promise(crates, heading, promise)
    return groups


def check_promise(crates, heading, promise):
    if not promise.places:
        raise Fault(f"{heading}: a promise without a statement: {promise.sentence}")
    for key, field in promise.places:
        where = f"{key[0]}/{key[1]}/{key[2].replace('.', '/')}: {key[3]}"
        if key not in crates.text:
            raise Fault(f"{heading}: no statement {where}")
        if field and field not in crates.text[key].inner:
            raise Fault(f"{heading}: {where} has no field {field}")
        wrong = [other for other in crates.reached([key]) if other[1] == "proofs" and other != key]
        if wrong:
            raise Fault(f"{heading}: {where} rests on what stands under proofs/: {', '.join(other[3] for other in wrong)}")


# ---- the texts


class Shown:
    """Which statements the page has, and their ids: those of the promises, and those of the appendix."""

    def __init__(self, crates, groups):
        self.crates = crates
        keys = dict.fromkeys(key for _, _, promises in groups for promise in promises for key, _ in promise.places)
        self.statements = crates.in_order(keys)
        self.own = [crates.named(name)[0] for name in MAIN]
        self.others = crates.in_order([key for key in crates.reached(self.own) if key not in self.own])
        self.ids = {key: slug("d", *key[:1], *key[2:]) for key in [*self.own, *self.others]}
        self.ids_of_statements = {key: slug("s", *key[:1], *key[2:]) for key in self.statements}

    def link(self, key):
        return self.ids.get(key) or self.ids_of_statements.get(key)

    def code(self, key, fields=False):
        """A statement's text, its names linked; with an id for each field."""
        crates, what = self.crates, self.crates.text[key]
        deep = "  " if what.modules else ""
        text = "\n".join([*(header for _, header in what.modules), *(deep + line for line in crates.shown(key).split("\n"))])
        place, out = crates.place(key), []
        for line in text.split("\n"):
            if line.strip().startswith(("--", "//")):
                out.append(f"<i>{escape(line, quote=False)}</i>")
                continue
            made, at = [], 0
            for start, end, found in crates.words(place, line):
                target = self.link(found) if found and found != key else None
                if target and start >= at:
                    made += [escape(line[at:start], quote=False), f'<a href="#{target}">{escape(line[start:end], quote=False)}</a>']
                    at = end
            line = "".join([*made, escape(line[at:], quote=False)])
            named = re.match(r"(\s*(?:pub )?)([^\s(){}<]+)( :)", line)
            if fields and named and named[2] in what.inner:
                line = f'{named[1]}<b id="{slug(self.ids_of_statements[key], named[2])}">{named[2]}</b>{line[named.end(2):]}'
            out.append(line)
        return "\n".join(out)

    def note(self, key):
        """The comment beside a statement; where it has none, that of its file."""
        what = self.crates.text[key]
        lines = [*(note for note, _ in what.modules if note), what.note]
        said = [strip(text) for text in lines if text]
        if said:
            return " ".join(said)
        head = re.match(r"((?:(?:--|//).*\n)+)", read(self.crates.path(key)))
        return "Of the file: " + strip(head[1]) if head else ""


def strip(note):
    return " ".join(re.sub(r"^\s*(--|//) ?", "", line).strip() for line in note.strip().split("\n"))


# ---- the parts of the page


def promises_html(groups, shown):
    out, number = [], 0
    for heading, intro, promises in groups:
        out.append(f'<h3 id="{anchor(heading)}">{prose(heading)}</h3>')
        out += [f'<p class="intro">{prose(text)}</p>' for text in intro]
        out.append(f'<ol class="promises" start="{number + 1}">')
        for promise in promises:
            number += 1
            links = []
            for key, field in promise.places:
                target = shown.ids_of_statements[key]
                links.append(f'<a href="#{slug(target, field) if field else target}"><code>{escape(key[3] + ("." + field if field else ""))}</code></a>')
            out.append(f'<li id="p{number}">{prose(promise.sentence)} <span class="links">{" ".join(links)}</span></li>')
        out.append("</ol>")
    return "\n".join(out)


def anchor(heading):
    return re.sub(r"[^a-z0-9]+", "-", heading.lower()).strip("-")


def rests_html():
    given = [line.partition(": ") for line in read("docs", "page", "rests.txt").split("\n") if line.strip() and not line.startswith("#")]
    table = read("docs", "CLAIMS.md").split("## What the proofs rest on", 1)[1].split("\n## ", 1)[0]
    claimed = [row.split(" | ")[0].strip("| ") for row in table.split("\n") if row.startswith("| ")][1:]
    if [name for name, _, _ in given] != claimed:
        raise Fault(f"docs/page/rests.txt and CLAIMS' table differ: {sorted({name for name, _, _ in given} ^ set(claimed)) or 'their order'}")
    for name, _, text in given:
        for figure in re.findall(r"\d{1,3}(?:,\d{3})+", text):
            if figure not in table:
                raise Fault(f"docs/page/rests.txt, {name}: CLAIMS' table doesn't say {figure}")
    return "\n".join(f'<dt id="rests-{anchor(name)}">{prose(name[:1].upper() + name[1:])}</dt><dd>{prose(text)}</dd>' for name, _, text in given)


def statements_html(groups, shown):
    cited, number = {}, 0
    for _, _, promises in groups:
        for promise in promises:
            number += 1
            for key, _ in promise.places:
                cited.setdefault(key, []).append(number)
    out, section = [], None
    for key in shown.statements:
        if shown.crates.section(key) != section:
            section = shown.crates.section(key)
            out.append(f"<h3>{escape(ORDER[section][0])}</h3>")
        text = shown.code(key, fields=True)
        back = ", ".join(f'<a href="#p{k}">{k}</a>' for k in dict.fromkeys(cited[key]))
        size = " long" if text.count("\n") > LONG else ""
        out.append(
            f'<div class="statement{size}" id="{shown.ids_of_statements[key]}"><h4><code>{escape(key[3])}</code> <span class="where">{KINDS[key[1]]}, '
            f'{shown.crates.path(key)}</span></h4>\n<div class="pair"><div class="note">{prose(shown.note(key))}</div><pre>{text}</pre></div>\n'
            f'<p class="back">Behind {"promise" if len(set(cited[key])) == 1 else "promises"} {back}.</p></div>'
        )
    return "\n".join(out)


def appendix_html(shown):
    out, section, file, opened = [], None, None, False
    crates = shown.crates
    for key in [*shown.own, *shown.others]:
        here = -1 if key in shown.own else crates.section(key)
        if here != section or crates.path(key) != file:
            if opened:
                out.append("</div>")
            if here != section:
                out.append(f"<h3>{'The two promises' if here < 0 else escape(ORDER[here][0])}</h3>")
            out.append(f'<div class="file"><h4 class="where">{crates.path(key)}</h4>')
            section, file, opened = here, crates.path(key), True
        what = crates.text[key]
        notes = "".join(f"<i>{escape(line, quote=False)}</i>\n" for text in [*(note for note, _ in what.modules), what.note] if text for line in text.split("\n"))
        out.append(f'<pre id="{shown.ids[key]}">{notes}{shown.code(key)}</pre>')
    out.append("</div>")
    out.append(f"<h3>Names of the kit's own libraries that these use</h3><p>{', '.join(f'<code>{escape(name)}</code>' for name in crates.kit_names([*shown.own, *shown.others]))}</p>")
    return "\n".join(out)


# ---- the worked hall


def hexes(data):
    return " ".join(f"{byte:02X}" for byte in data)


def row(what, data, meaning):
    return f'<tr><td>{prose(what)}</td><td class="bytes">{hexes(data)}</td><td>{prose(meaning)}</td></tr>'


class Cut:
    """A record cut into its fields from the front."""

    def __init__(self, record):
        self.record, self.at = record, 0

    def take(self, form):
        size = struct.calcsize(">" + form)
        part = self.record[self.at : self.at + size]
        self.at += size
        return part, struct.unpack(">" + form, part)


def table_html(head, rows):
    return f"<table><thead><tr>{''.join(f'<th>{name}</th>' for name in head)}</tr></thead><tbody>{''.join(rows)}</tbody></table>"


def job_rows(hall, job):
    cut, rules = Cut(job), ["Grad", "GradAdv", "Coord", "CoordNoStep", "CoordMomentum"]
    data, (length,) = cut.take("I")
    yield row("length of the rest", data, f"{length}")
    data, (version,) = cut.take("B")
    yield row("version", data, f"{version}")
    data, (n,) = cut.take("B")
    yield row("wagons", data, f"{n}")
    data, (count,) = cut.take("H")
    yield row("entries of H", data, f"{count}: each pair stands twice, once either way round")
    for _ in range(count):
        data, (i, k, value) = cut.take("BBq")
        yield row("entry", data, f"row {i}, column {k}: {value}")
    for i in range(n):
        data, (value,) = cut.take("q")
        yield row("c", data, f"wagon {i}, {hall.names[i]}: {value}")
    data, (rank,) = cut.take("B")
    yield row("rank", data, f"{rank}: the one that 01 gives" if rank == 0 else f"{rank}")
    data, (rule,) = cut.take("B")
    yield row("rule", data, f"{rule}, {rules[rule]}")
    data, (number,) = cut.take("d")
    yield row("its number", data, f"{number:g}")
    data, (most, least) = cut.take("II")
    yield row("most sweeps, minimum", data, f"{most}, {least}")
    data, (one, two) = cut.take("dd")
    yield row("tolerances", data, f"{one:g}, {two:g}")
    data, (width,) = cut.take("B")
    yield row("W, the width", data, f"{width}")
    data, (start,) = cut.take("B")
    yield row("start", data, f"{start}: {['random', 'a factor', 'signs'][start]}")
    data, signs = cut.take(f"{n + 1}d")
    yield row("its numbers", data, "the signs " + " ".join("+" if x >= 0 else "−" for x in signs) + ", the last of them the anchor's")
    data, (draws,) = cut.take("H")
    yield row("draws", data, f"{draws}")
    data = job[cut.at :]
    yield row("the draw", data, " ".join(f"{x:g}" for x in struct.unpack(f">{len(data) // 8}d", data)))


def answer_rows(hall, answer):
    cut = Cut(answer)
    data, (length,) = cut.take("I")
    yield row("length of the rest", data, f"{length}")
    for what, say in [("version", str), ("status", lambda v: f"{v}: all sweeps were made" if v == 0 else str(v)), ("rank", str), ("wagons", str)]:
        data, (value,) = cut.take("B")
        yield row(what, data, say(value))
    data, (value,) = cut.take("I")
    yield row("sweeps", data, str(value))
    for what, more in [("relaxed objective", ", which bounds nothing"), ("float bound", ", a double just below the floor")]:
        data, (value,) = cut.take("d")
        yield row(what, data, f"{value:.17g}{more}")
    for what in ("floor", "rounded cost", "cost"):
        data, (value,) = cut.take("q")
        yield row(what, data, f"{value} eighths, which is {eighths(value)}")
    data, (value,) = cut.take("Q")
    yield row("rounds", data, str(value))
    for i, name in enumerate(hall.names):
        data, (value,) = cut.take("B")
        yield row("choice", data, f"wagon {i}, {name}: the {'right' if value else 'left'} store")


def choice_rows(hall, answer):
    """Every choice of a small hall with its cost, worked out here."""
    n = len(hall.names)
    for k in range(1 << n):
        b = [k >> i & 1 for i in range(n)]
        pairs = sum(v * b[i] * b[j] for (i, j), v in hall.pairs.items())
        cost = 4 * pairs + 8 * sum(c * x for c, x in zip(hall.costs, b, strict=True))
        mark = "the plan" if b == answer["choice"] else ""
        right = ", ".join(name for name, x in zip(hall.names, b, strict=True) if x) or "none"
        yield f'<tr><td>{" ".join(map(str, b))}</td><td>{escape(right)}</td><td class="number">{eighths(cost)}</td><td>{mark}</td></tr>'


def answered(name):
    """The hall, its job, the stored answer's bytes, and what they say, held against the hall."""
    hall = read_hall(os.path.join(TOP, "examples", "halls", f"{name}.txt"))
    record = bytes.fromhex(read("docs", "page", f"{name}.answer"))
    return hall, job_of(hall), record, read_answer(record, hall)


def picture(name, hall, answer, caption):
    """The plan's drawing; its ids have the hall's name before them, since the page has several."""
    drawn = re.sub(r"<\?xml.*?\?>\s*|<style>@page.*?</style>\s*", "", "\n".join(plan(hall, answer)))
    drawn = re.sub(r'\b(id|aria-labelledby|aria-describedby)="([^"]*)"', lambda m: f'{m[1]}="{" ".join(f"{name}-{part}" for part in m[2].split())}"', drawn)
    return f"<figure>\n{drawn}\n<figcaption>{prose(caption)}</figcaption></figure>"


def hall_html():
    hall, job, record, answer = answered("doorway")
    text = read("examples", "halls", "doorway.txt").rstrip()
    larger, larger_job, larger_record, larger_answer = answered("stalls")
    return "\n".join([
        "<p>The third hall of the scope document: two wagons that each save 1 by going into the right store, and cost 3 where both do. It is small enough to see through; the tools and records are the same for every hall.</p>",
        "<h3>The table</h3>",
        f"<pre>{escape(text, quote=False)}</pre>",
        f"<p>The hall file <code>examples/halls/doorway.txt</code>. H is {hall.pairs[0, 1]} at both places of the pair, c is {hall.costs[0]} and {hall.costs[1]}. All choices there are:</p>",
        table_html(["choice", "in the right store", "cost", ""], choice_rows(hall, answer)),
        "<h3>The job's bytes</h3>",
        f"<p><code>tools/hall job examples/halls/doorway.txt</code> writes {len(job)} bytes. Numbers are big-endian, doubles are their bits.</p>",
        table_html(["field", "bytes", "meaning"], job_rows(hall, job)),
        "<h3>The answer's bytes</h3>",
        f"<p><code>wagonplan</code> answers with {len(record)} bytes.</p>",
        table_html(["field", "bytes", "meaning"], answer_rows(hall, record)),
        "<p>Hold it against the promises: the cost is the plan's own; moving either wagon alone, or both, costs no less; no choice costs less than the floor; one round is at most twice the fall of 1. Here the plan is also the least, which nobody promised: the four choices show it.</p>",
        "<h3>The plan</h3>",
        *(f"<p>{escape(line, quote=False)}</p>" for line in words(hall, answer)),
        picture("doorway", hall, answer, "The page for the door, as `tools/plan` draws it."),
        "<h3>A hall of twelve wagons</h3>",
        f"<p><code>examples/halls/stalls.txt</code>: a job of {len(larger_job):,} bytes, an answer of {len(larger_record)}.</p>",
        *(f"<p>{escape(line, quote=False)}</p>" for line in words(larger, larger_answer)),
        picture("stalls", larger, larger_answer, "The same promises, of a hall that nobody works out by hand: 4,096 choices."),
    ])


# ---- the page


def counts(shown):
    """How many lines `tools/believe answer_record plain_run` prints, and of how many definitions."""
    import runpy

    believe = runpy.run_path(os.path.join(TOP, "tools", "believe"), run_name="believe")
    own, others, wrong = believe["parts"](shown.crates, shown.own)
    if wrong:
        raise Fault(f"{' and '.join(MAIN)} rest on what stands under proofs/: {', '.join(key[3] for key in wrong)}")
    return believe["text"](shown.crates, own, others).count("\n") + 1, len(own) + len(others)


def page():
    crates = Crates()
    groups = promised(crates)
    shown = Shown(crates, groups)
    lines, definitions = counts(shown)
    calls = re.search(r"WAGONPLAN_VERSION = (\d+)", read("include", "wagonplan.h"))[1]
    parts = {
        "style": read("docs", "page", "style.css").strip(),
        "version": read("VERSION").strip(),
        "calls": calls,
        "kit": escape(read(".ci", "kit").strip()),
        "promise_count": str(sum(len(promises) for _, _, promises in groups)),
        "statement_count": str(len(shown.statements)),
        "promises": promises_html(groups, shown),
        "rests": rests_html(),
        "hall": hall_html(),
        "statements": statements_html(groups, shown),
        "appendix": appendix_html(shown),
        "believe_lines": f"{lines:,}",
        "believe_count": f"{definitions:,} in all",
    }
    text = re.sub(r"\{\{(\w+)\}\}", lambda m: parts[m[1]], read("docs", "page", "template.html"))
    return text, COUNTS.sub(rf"\g<1>{lines:,}\g<2>{definitions:,}\3", read("README.md"))


def faults(text):
    """What is wrong with a page that stands alone."""
    ids = re.findall(r'\sid="([^"]*)"', text)
    for name in sorted({name for name in ids if ids.count(name) > 1} if len(ids) != len(set(ids)) else []):
        yield f"an id that is there twice: {name}"
    for target in sorted(set(re.findall(r'href="([^"]*)"', text))):
        if not target.startswith("#"):
            yield f"a link out of the page: {target}"
        elif target[1:] not in ids:
            yield f"a link to nowhere: {target}"
    for pattern in (r"<script", r"\ssrc=", r"url\(", r"@import", r"<link", r"<iframe", r"\son\w+="):
        if re.search(pattern, text):
            yield f"something that a browser would run or fetch: {pattern}"
    if "{{" in re.sub(r"<pre.*?</pre>", "", text, flags=re.S):
        yield "a place of the template that is not filled"


def main():
    try:
        text, readme = page()
    except Fault as fault:
        sys.exit(f"docs/page: {fault}")
    wrong = list(faults(text))
    if sys.argv[1:] == ["--write"]:
        for path, made in ((PAGE, text), (README, readme)):
            with open(path, "w", encoding="utf-8") as out:
                out.write(made)
    else:
        if not os.path.exists(PAGE) or text != read("docs", "buyer.html"):
            wrong.append("docs/buyer.html is not the page: tools/page.py --write")
        if readme != read("README.md") or not COUNTS.search(readme):
            wrong.append("README tells other counts of tools/believe: tools/page.py --write")
    sys.exit("\n".join(wrong) or 0)


if __name__ == "__main__":
    main()
