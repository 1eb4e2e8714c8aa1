"""A square table of costs with names, as a spreadsheet writes it."""
import csv
import io

from .text import Refused, ends, shown, text_of


def read_table(path, hall):
    """The table's wagons and pairs into `hall`. An error names the cell; the caller says the rest of where it is."""
    rows = cells_of(path)
    names = names_of(rows, path)
    for i, name in enumerate(names):
        with_place(path, i + 1, i + 1, hall.wagon, name, rows[i + 1][i + 1] or "0")
    for i, one in enumerate(names):
        for k in range(i + 1, len(names)):
            add_pair(path, hall, rows, i, k, (one, names[k]))


def add_pair(path, hall, rows, i, k, names):
    """The cell above the diagonal and the one below, which must hold the same; a cost of 0 is no entry."""
    cell, mirror = rows[i + 1][k + 1] or "0", rows[k + 1][i + 1] or "0"
    value, other = (with_place(path, r + 1, c + 1, ends, text) for r, c, text in ((i, k, cell), (k, i, mirror)))
    if value != other:
        below = f"cell {cell_name(k + 1, i + 1)} ({names[1]} with {names[0]}) is {shown(mirror)}"
        above = f"cell {cell_name(i + 1, k + 1)} ({names[0]} with {names[1]}) is {shown(cell)}"
        raise Refused(f"{path}, {below}, and {above}: they must be the same")
    if any(value):
        with_place(path, i + 1, k + 1, hall.pair, *names, cell)


def cells_of(path):
    """Rows of cells without spaces around them; empty rows at the end are left out."""
    text = text_of(path)
    first = text.split("\n")[0]
    separator = next((mark for mark in ";\t" if mark in first), ",")
    try:
        rows = [[cell.strip() for cell in row] for row in csv.reader(io.StringIO(text, newline=""), delimiter=separator)]
    except csv.Error as error:
        raise Refused(f"{path} is no CSV table: {error}") from None
    while rows and not any(rows[-1]):
        rows.pop()
    if not rows:
        raise Refused(f"{path} is empty; its first row and its first column have the wagons' names")
    return rows


def names_of(rows, path):
    """The names of the first row, which the first column must repeat in the same order."""
    names = rows[0][1:]
    if len(rows) != len(names) + 1:
        raise Refused(f"{path} names {len(names)} wagons in its first row and has {len(rows) - 1} rows below it: it must be square")
    for r, row in enumerate(rows):
        if len(row) != len(names) + 1:
            raise Refused(f"{path}, row {r + 1} has {len(row)} cells, the first row has {len(names) + 1}")
    for i, name in enumerate(names):
        if not name or not name.isprintable() or len(name.split()) != 1 or "#" in name:
            raise Refused(f"{path}, cell {cell_name(0, i + 1)}: a wagon's name is one word without #, not `{shown(name)}`")
        if rows[i + 1][0] != name:
            differ = f"cell {cell_name(i + 1, 0)} is `{shown(rows[i + 1][0])}`, and cell {cell_name(0, i + 1)} is {shown(name)}"
            raise Refused(f"{path}, {differ}: row and column have the same names in the same order")
    return names


def with_place(path, row, column, act, *words):
    try:
        return act(*words)
    except Refused as refused:
        raise Refused(f"{path}, cell {cell_name(row, column)}: {refused}") from None


def cell_name(row, column):
    """As spreadsheets count: columns A, B, .., Z, AA, AB, .., rows from 1."""
    letters, rest = "", column
    while rest >= 0:
        letters, rest = chr(65 + rest % 26) + letters, rest // 26 - 1
    return f"{letters}{row + 1}"
