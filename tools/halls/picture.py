"""A checked answer as an SVG page of A4 that hangs by the door: each row of the hall with its wagons in the left and in the right store.

All lengths are millimetres. The largest type is taken with which every wagon fits, on a page that lies or stands.
"""
from html import escape
from unicodedata import east_asian_width

from .answer import STORES, eighths
from .say import between, listed, pinned, promises, stores
from .text import counted

MARGIN, TOP, FOOT = 10.0, 38.0, 46.0
LABEL = 22.0  # the strip between the stores, with the rows' names
SIZES = [size / 10 for size in range(120, 9, -1)]
READABLE = 2.0  # smaller than this, the rows are given up for larger type
LOCK = ARROW = 0.9  # the room that a lock takes beside a pinned wagon's name, and an arrow beside one that moves, in sizes of the type
LEGEND = 34.0  # the room of what a sign means
INK, PAPER, PLAIN, RED = "#1a1a1a", "#f3f5f8", "#ffffff", "#b71c1c"
BOLD = ' font-weight="bold"'


class Layout:
    """Where each wagon stands: `bands` are the rows, each a name and the wagons of either store."""

    def __init__(self, hall, bands, page, size):
        self.bands, self.page, self.size, self.gap = bands, page, size, 0.25 * size
        self.label = LABEL if bands[0][0] is not None else 6.0
        self.store = (page[0] - 2 * MARGIN - self.label) / 2
        names = [em(name) + (LOCK if i in hall.pins else 0) + (ARROW if i in hall.moved else 0) for i, name in enumerate(hall.names)]
        self.wide, self.high = size * (max(names, default=1) + 0.9), 1.8 * size
        self.across = int((self.store - self.gap) // (self.wide + self.gap))

    def lines(self, band):
        return max(1, *(-(-len(wagons) // self.across) for wagons in band[1]))

    def heights(self):
        return [self.lines(band) * (self.high + self.gap) + self.gap for band in self.bands]

    def fits(self):
        return self.across > 0 and sum(self.heights()) <= self.page[1] - TOP - FOOT

    def left(self, side):
        return MARGIN + side * (self.store + self.label)


def em(text):
    """The width of a text in sizes of its type, no less than any common sans-serif takes."""
    return sum(1.05 if east_asian_width(c) in "WF" or c in "mwMW@%" else 0.42 if c in "fijlrt.,:;'|!()[]-I" else 0.8 if c.isupper() else 0.66 for c in text)


def fitted(size, words, width, weight=1.1):
    """The size, or less where the words, in bold by the weight, would be wider than the width."""
    return min(size, width / (weight * em(words)))


def bands_of(hall, answer):
    """The hall's rows, and last the wagons that no row has."""
    sides = stores(hall, answer)
    in_rows = {i for members in hall.rows.values() for i in members}
    rows = [*hall.rows.items(), ("", [i for i in range(len(hall.names)) if i not in in_rows])]
    bands = [(name, [[i for i in members if i in side] for side in sides]) for name, members in rows if members]
    return bands if hall.rows else [(None, sides)]


def layout(hall, answer):
    """Rows on a page that lies, on one that stands, or without rows: whichever has the largest type, rows first where they can be read."""
    rows, plain = bands_of(hall, answer), [(None, stores(hall, answer))]
    pages = (297.0, 210.0), (210.0, 297.0)
    best = lambda bands: max((fitting(hall, bands, page) for page in pages), key=lambda found: found.size)
    found = best(rows)
    return found if found.size >= READABLE else max(found, best(plain), key=lambda other: other.size)


def fitting(hall, bands, page):
    return next((found for found in (Layout(hall, bands, page, size) for size in SIZES) if found.fits()), Layout(hall, bands, page, SIZES[-1]))


# ---- the drawing


def text(x, y, size, words, anchor="start", fill=INK, more=""):
    return f'<text x="{x:.2f}" y="{y:.2f}" font-size="{size:.2f}" text-anchor="{anchor}" fill="{fill}"{more}>{escape(words)}</text>'


def box(x, y, wide, high, fill, more=""):
    return f'<rect x="{x:.2f}" y="{y:.2f}" width="{wide:.2f}" height="{high:.2f}" fill="{fill}"{more}/>'


def plan(hall, answer, said=None):
    """The page; below the stores stands what is said of the answer: its figures, what is promised, and how that was checked."""
    said = said or usual(hall, answer)
    found = layout(hall, answer)
    wide, high = found.page
    size, view = f'width="{wide:g}mm" height="{high:g}mm"', f'viewBox="0 0 {wide:g} {high:g}"'
    yield f'<svg xmlns="http://www.w3.org/2000/svg" {size} {view} role="img" aria-labelledby="title text" font-family="Helvetica, Arial, sans-serif">'
    yield f'<title id="title">{escape(title_of(hall))}</title>'
    yield f'<desc id="text">{escape(told(hall, answer, said))}</desc>'
    yield f"<style>@page {{ size: {wide:g}mm {high:g}mm; margin: 0 }}</style>"
    yield box(0, 0, wide, high, "#ffffff")
    yield text(MARGIN, 20, fitted(8.0, title_of(hall), wide - 2 * MARGIN), title_of(hall), more=BOLD)
    yield from heads(hall, answer, found)
    yield from drawn_bands(hall, found)
    yield from foot(hall, said, found)
    yield "</svg>"


def usual(hall, answer):
    figures = f"Cost {eighths(answer['cost'])}     Floor {eighths(answer['floor'])}"
    if "low" in answer:
        figures = f"Cost from {eighths(answer['low'])} to {eighths(answer['high'])}     Floor {eighths(answer['low_floor'])}"
    searched = f"The search took {counted(answer['rounds'], 'round')} from a cost of {eighths(answer['rounded'])}."
    checked = f"Cost and floor were worked out again from the hall's own costs. {searched}"
    return {"cost": f"Cost {between(answer)}.", "figures": figures, "promised": promises(hall, answer), "checked": checked}


def title_of(hall):
    return f"{hall.title}: {counted(len(hall.names), 'wagon')} into two stores"


def told(hall, answer, said):
    """The whole plan in words, for who can't see it."""
    sides = [f"{side.capitalize()} store: {listed(hall, wagons)}." for side, wagons in zip(STORES, stores(hall, answer))]
    rows = [f"Row {row}: {listed(hall, members)}." for row, members in hall.rows.items()]
    retractable = [f"Retractable, in red: {listed(hall, sorted(hall.retractable))}."] if hall.retractable else []
    still = [f"Pinned, with a lock, may not move: {pinned(hall)}."] if hall.pins else []
    rolled = [f"With an arrow, moved: {listed(hall, sorted(hall.moved))}."] if hall.moved else []
    return " ".join([*sides, *retractable, *still, *rolled, *rows, said["cost"], *said["promised"]])


def heads(hall, answer, found):
    """Above each store its side, its count, and an arrow to it."""
    for side, (name, wagons) in enumerate(zip(STORES, stores(hall, answer))):
        tip, inner, start = ((MARGIN + x) if side == 0 else (found.page[0] - MARGIN - x) for x in (2, 7, 10))
        words = f"{name.upper()} STORE: {counted(len(wagons), 'wagon')}"
        yield f'<g class="store">{box(found.left(side), 26, found.store, 10, INK)}'
        yield f'<path d="M{tip:.2f} 31 L{inner:.2f} 28 L{inner:.2f} 34 Z" fill="#ffffff"/>'
        yield text(start, 33, fitted(5.2, words, found.store - 12), words, ("start", "end")[side], "#ffffff", BOLD) + "</g>"


def drawn_bands(hall, found):
    y = TOP
    for (name, sides), high in zip(found.bands, found.heights()):
        for side, wagons in enumerate(sides):
            yield box(found.left(side), y, found.store, high, PAPER, ' stroke="#ffffff" stroke-width="0.4"')
            for k, i in enumerate(wagons):
                yield from wagon(hall, found, i, side, name, place(found, side, len(wagons), k, y))
        if name:
            words = f"Row {name}" if len(name) <= 3 else name
            yield text(found.page[0] / 2, y + high / 2 + 1, min(high - 0.6, fitted(5.0, words, LABEL - 2)), words, "middle", more=BOLD)
        y += high


def place(found, side, many, k, y):
    """A wagon's corner: left ones from the left edge, right ones from the right edge, both in the row's order."""
    line, at = divmod(k, found.across)
    here = min(found.across, many - line * found.across)
    step, gap = found.wide + found.gap, found.gap
    x = found.left(0) + gap + at * step if side == 0 else found.page[0] - MARGIN - (here - at) * step
    return x, y + gap + line * (found.high + gap)


def wagon(hall, found, i, side, row, corner):
    """A box with the name; a retractable one red with white type, so that it is told apart in black and white too; a pinned one with a lock; one that moves with an arrow to its store."""
    x, y = corner
    red, still, rolls, size = i in hall.retractable, i in hall.pins, i in hall.moved, found.size
    words = f"{hall.names[i]}: {STORES[side]} store" + (f", row {row}" if row else "") + (", retractable" if red else "") + (", pinned" if still else "") + (", moved" if rolls else "")
    ink = "#ffffff" if red else INK
    yield f'<g class="wagon{" retractable" if red else ""}{" pinned" if still else ""}{" moved" if rolls else ""}"><title>{escape(words)}</title>'
    yield box(x, y, found.wide, found.high, RED if red else PLAIN, f' stroke="{INK}" stroke-width="{0.7 if still else 0.25}" rx="0.8"')
    if still:
        yield lock(x + 0.4 * size, y + found.high / 2 - 0.5 * size, size, ink)
    if rolls:
        yield arrow(x + (0.4 + (LOCK if still else 0)) * size, y + found.high / 2, size, side, ink)
    middle = x + (found.wide + ((LOCK if still else 0) + (ARROW if rolls else 0)) * size) / 2
    yield text(middle, y + found.high / 2 + 0.36 * size, size, hall.names[i], "middle", ink) + "</g>"


def lock(x, y, size, ink):
    """A padlock of 0.65 by 0.95 sizes: its body, and the shackle above it."""
    body = f"M{x:.2f} {y + 0.42 * size:.2f} h{0.65 * size:.2f} v{0.53 * size:.2f} h{-0.65 * size:.2f} Z"
    shackle = f"M{x + 0.13 * size:.2f} {y + 0.45 * size:.2f} v{-0.18 * size:.2f} a{0.195 * size:.2f} {0.195 * size:.2f} 0 0 1 {0.39 * size:.2f} 0 v{0.18 * size:.2f}"
    return f'<g class="lock"><path d="{body}" fill="{ink}"/><path d="{shackle}" fill="none" stroke="{ink}" stroke-width="{0.11 * size:.2f}"/></g>'


def arrow(x, y, size, side, ink):
    """A triangle of 0.65 by 0.7 sizes that points to the store, its middle at the height y."""
    base, tip = (0.65, 0) if side == 0 else (0, 0.65)
    return f'<path class="arrow" d="M{x + tip * size:.2f} {y:.2f} L{x + base * size:.2f} {y - 0.35 * size:.2f} v{0.7 * size:.2f} Z" fill="{ink}"/>'


def foot(hall, said, found):
    """The figures, what is promised, and what red, a lock and an arrow mean."""
    y, width = found.page[1] - FOOT + 10, found.page[0] - 2 * MARGIN
    figures, promised, checked = said["figures"], said["promised"], said["checked"]
    legends = LEGEND * (bool(hall.retractable) + bool(hall.pins) + bool(hall.moved))
    yield text(MARGIN, y, fitted(7.5, figures, width - max(40, legends + 6)), figures, more=f'{BOLD} xml:space="preserve"')
    size = min(fitted(4.2, line, width, 0.9) for line in promised)
    for k, line in enumerate(promised):
        yield text(MARGIN, y + 8 + 6 * k, size, line)
    yield text(MARGIN, y + 8 + 6 * len(promised), fitted(3.4, checked, width, 0.9), checked)
    x = found.page[0] - MARGIN - LEGEND
    if hall.retractable:
        yield box(x, y - 4.6, 7, 5, RED, f' stroke="{INK}" stroke-width="0.25" rx="0.8"')
        yield text(x + 9, y - 0.6, 4.2, "retractable")
        x -= LEGEND
    if hall.pins:
        yield lock(x + 2, y - 4.6, 5, INK)
        yield text(x + 9, y - 0.6, 4.2, "pinned")
        x -= LEGEND
    if hall.moved:
        yield arrow(x + 2, y - 2.1, 5, 1, INK)
        yield text(x + 9, y - 0.6, 4.2, "moves")
