"""A table's listing as text, what comparing two listings prints, and what mending a damaged one prints, in another
language than ours.

From docs/RULES.md 16 (the text) and requests P1 (the comparing) and P12 (the mending). No code of the crates takes
part. A listing is held as whole numbers: bit patterns of f64s for the region, of f32s for the cells, and any pattern
may stand there, NaNs too.
"""
import io
import re

LEAST, MOST = 2, 4096  # of width and of height
UPDATES = 1 << 32  # fewer than that
NOT_A_LISTING, SIZES_DIFFER = 14, 15

TABLE = re.compile(rb"table\t([1-9][0-9]{0,3})\t([1-9][0-9]{0,3})\t(0|[1-9][0-9]{0,9})\n")
REGION = re.compile(rb"region\t([0-9a-f]{16})\t([0-9a-f]{16})\t([0-9a-f]{16})\t([0-9a-f]{16})\n")
PAIR = re.compile(rb"([0-9a-f]{8})\t([0-9a-f]{8})\n")
LONGEST = 75  # bytes of a region's line; the others are shorter


# ---- writing


def table_line(w, h, updates):
    return b"table\t%d\t%d\t%d\n" % (w, h, updates)


def region_line(edges):
    return b"region\t%016x\t%016x\t%016x\t%016x\n" % tuple(edges)


def cell_line(u, v, a, b):
    return b"cell\t%d\t%d\t%08x\t%08x\n" % (u, v, a, b)


def written(w, h, updates, edges, pairs):
    """A listing's text. The pairs are those of the cells, row by row."""
    cells = (cell_line(i % w, i // w, *pair) for i, pair in enumerate(pairs))
    return b"".join((table_line(w, h, updates), region_line(edges), *cells))


def refused(number):
    return b"refused\t%d\n" % number


# ---- reading


class NotAListing(Exception):
    """Says which line isn't what it has to be."""


class Reader:
    """A listing that is read line by line out of a stream of bytes, however long. Holds its table line and its region;
    `pairs` goes through the cells."""

    def __init__(self, stream, name="a text"):
        self.stream, self.name = stream, name
        self.lines = 0
        found = self.next(TABLE, "a table line: table, width, height, updates")
        self.width, self.height, self.updates = (int(field) for field in found.groups())
        if not (LEAST <= self.width <= MOST and LEAST <= self.height <= MOST):
            self.bad(f"width or height isn't {LEAST} to {MOST}")
        if self.updates >= UPDATES:
            self.bad("more updates than 32 bits hold")
        found = self.next(REGION, "a region line: region and four patterns of 16 lower-case digits")
        self.edges = tuple(int(field, 16) for field in found.groups())

    def bad(self, words):
        raise NotAListing(f"{self.name}, line {self.lines}: {words}")

    def line(self):
        self.lines += 1
        return self.stream.readline(LONGEST + 1)

    def next(self, form, words):
        line = self.line()
        found = form.fullmatch(line)
        if not found:
            self.bad("a refusal, not a table" if line.startswith(b"refused\t") else f"isn't {words}, parted by tabs")
        return found

    def size(self):
        return self.width, self.height

    def pairs(self):
        """The cells' pairs of patterns, row by row; at the end nothing may follow."""
        for v in range(self.height):
            for u in range(self.width):
                line, place = self.line(), b"cell\t%d\t%d\t" % (u, v)
                found = PAIR.fullmatch(line, len(place)) if line.startswith(place) else None
                if not found:
                    self.bad(f"isn't cell {u} {v} with two patterns of 8 lower-case digits, parted by tabs")
                yield int(found[1], 16), int(found[2], 16)
        line = self.line()
        if line.startswith((b"filled\t", b"differs\t")):
            self.bad("mend-listing's report, which is no part of a listing: grep -Ev '^(filled|differs)' drops it")
        if line:
            self.bad("there is more after the last cell")


# ---- comparing


def read(text):
    """Size, table line, region line and the cells' pairs of a text, or None."""
    try:
        found = Reader(io.BytesIO(text))
        pairs = list(found.pairs())
    except NotAListing:
        return None
    return found.size(), table_line(*found.size(), found.updates), region_line(found.edges), pairs


def compared(old, new):
    """All that is printed for two texts."""
    one, two = read(old), read(new)
    if one is None or two is None:
        return refused(NOT_A_LISTING)
    if one[0] != two[0]:
        return refused(SIZES_DIFFER)
    width = one[0][0]
    lines = [line for k in (1, 2) if one[k] != two[k] for line in (one[k], two[k])]
    cells = [(i, a, b) for i, (a, b) in enumerate(zip(one[3], two[3])) if a != b]
    lines += [b"%d\t%d\t%08x\t%08x\t%08x\t%08x\n" % (i % width, i // width, *a, *b) for i, a, b in cells]
    return b"".join(lines) + b"count\t%d\n" % len(cells)


def status(printed):
    """What the command ends with: 0 equal, 1 different, 2 refused, as diff has it."""
    return 2 if printed.startswith(b"refused\t") else int(printed != b"count\t0\n")


# ---- mending

# A line that may be kept, without its newline. A table has at most 4,096 columns and rows: no more than four digits.
CELL = re.compile(rb"cell\t(0|[1-9][0-9]{0,3})\t(0|[1-9][0-9]{0,3})\t[0-9a-f]{8}\t[0-9a-f]{8}")


def kept(w, h, damaged):
    """The lines that a text gives of a table's cells, by their places: of each cell the first. What stands behind the
    last newline is no line."""
    found = {}
    for line in damaged.split(b"\n")[:-1]:
        cell = CELL.fullmatch(line)
        if cell and int(cell[1]) < w and int(cell[2]) < h:
            found.setdefault((int(cell[1]), int(cell[2])), line + b"\n")
    return found


def mended(fresh, damaged):
    """All that is printed for a camera file and a damaged listing, from what the printer prints for that file."""
    table = read(fresh)
    if table is None:
        return fresh
    (w, h), *header, pairs = table
    built = {(i % w, i // w): cell_line(i % w, i // w, *pair) for i, pair in enumerate(pairs)}
    given = kept(w, h, damaged)
    lines = header + [given.get(place, line) for place, line in built.items()]
    lines += [b"filled\t%d\t%d\n" % place for place in built if place not in given]
    lines += [b"differs\t%d\t%d\n" % place for place, line in built.items() if given.get(place, line) != line]
    return b"".join(lines)


def mended_status(printed):
    """What the command ends with: 0 nothing to tell, 1 cells were filled or differ, 2 refused."""
    if printed.startswith(b"refused\t"):
        return 2
    return int(not printed.splitlines()[-1].startswith(b"cell\t"))
