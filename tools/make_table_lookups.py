#!/usr/bin/env python3
"""Makes crates/test_table_lookups/stdin and stdout: points looked up in lens tables, and what comes of each.

    python3 tools/make_table_lookups.py              writes both files, and says on stderr what they cover
    python3 tools/make_table_lookups.py --listing    lists the questions made by hand for a person to read, a line each:
                                                     the refusal it is about, what is special, x and y, what is owed
    python3 tools/make_table_lookups.py --self-test  tests this script, and writes nothing

stdin has a question a line: 33 fields with tabs between, each 16 hexadecimal digits: width, height, the places of the
table, and as bit patterns of f64s the region (lower x, y, upper x, y), the point (x, y), and 24 numbers, all of them
f32s, of which the table has the first. So every line has 561 bytes with its end. An answer is 0, u and v, or the
refusal's number. A line of another form, or with more than 24 places, is answered by `bad`, and the last line of
stdout counts the lines of stdin.

How the answers are made. From docs/RULES.md, 5.6, 12.4 and 14, by `lookup` below, in another way than the crate's:
the whole part is found by counting the cells that the index has passed, and every sum, product and quotient is worked
out as a fraction and rounded by `nearest` of make_leaf_vectors.py. No float of the platform takes part, until each
number is compared with what Python's own f64 gives, and a difference stops the script.

How the questions are made. First those made by hand: the table of the rules' example, at its edges and with every
refusal, each with words that say what it is about. Then by splitmix64 from fixed seeds, of every kind and with every
ending that `ENDINGS` names. So every run writes the same bytes.

No number of an answer may lie outside the four cells that it is made of: the script stops if one does, and its last
line on stderr says how near to the least or the greatest of them the nearest came. Some questions, of `near_the_ends`,
are made to come near: fractions next to 0 and to 1, subnormal ones, cells of either sign and any exponent.
"""
import math
import pathlib
import sys
from collections import Counter
from fractions import Fraction

from lens_models import MODELS
from lens_tables import FINISHED, fresh, turn
from make_leaf_vectors import INF, LARGEST, NAN, SIGN, Splitmix, nearest, parts, value
from model_questions import lens, pattern

FOLDER = pathlib.Path(__file__).resolve().parent.parent / "crates" / "test_table_lookups"
PLACES = 24  # of a table at most
FIELDS = 9 + PLACES
LEAST, MOST = 2, 4096
DIGITS = frozenset("0123456789abcdef")
BELOW = SIGN + INF

# ---- f64 by patterns: a number is its bit pattern here, and every NaN is NAN


def is_nan(a):
    return a % SIGN > INF


def is_finite(a):
    return a % SIGN < INF


def exact(a):
    """The fraction that a finite number is."""
    m, e = parts(a % SIGN)
    size = Fraction(m) * Fraction(2) ** e
    return -size if a >= SIGN else size


def rounded(q, sign):
    """The pattern nearest to the fraction q; a zero has the sign that is given."""
    if q == 0:
        return sign
    sign = SIGN if q < 0 else 0
    # nearest wants m * 2^e: enough digits that what is cut off can't matter but for being there
    q = abs(q)
    shift = q.denominator.bit_length() - q.numerator.bit_length() + 120
    shift = max(shift, 0)
    m, rest = divmod(q.numerator << shift, q.denominator)
    return sign + min(nearest(2 * m + (1 if rest else 0), -shift - 1, 53, -1074), INF)


def agrees(a, x):
    """What was worked out is what the platform's f64 has."""
    assert a == NAN and math.isnan(x) or a == pattern(x), (hex(a), x)
    return a


def add(a, b):
    if is_nan(a) or is_nan(b):
        r = NAN
    elif not is_finite(a):
        r = NAN if not is_finite(b) and a != b else a
    elif not is_finite(b):
        r = b
    else:
        r = rounded(exact(a) + exact(b), SIGN if a == b == SIGN else 0)
    return agrees(r, value(a) + value(b))


def less(a, b):
    return add(a, NAN if is_nan(b) else b ^ SIGN)


def times(a, b):
    sign = (a ^ b) & SIGN
    if is_nan(a) or is_nan(b):
        r = NAN
    elif is_finite(a) and is_finite(b):
        r = rounded(exact(a) * exact(b), sign)
    else:
        r = NAN if a % SIGN == 0 or b % SIGN == 0 else sign + INF
    return agrees(r, value(a) * value(b))


def over(a, b):
    sign = (a ^ b) & SIGN
    if is_nan(a) or is_nan(b):
        return NAN
    if not is_finite(a):
        return sign + INF if is_finite(b) else NAN
    if not is_finite(b):
        return sign
    if b % SIGN == 0:
        return NAN if a % SIGN == 0 else sign + INF
    return agrees(rounded(exact(a) / exact(b), sign), value(a) / value(b))


def of(n):
    """A whole number."""
    return rounded(Fraction(n), 0)


def compared(a, b):
    """-1, 0 or 1, of two that are no NaN."""
    big = Fraction(2) ** 2000
    x, y = ((big if z == INF else -big) if not is_finite(z) else exact(z) for z in (a, b))
    return (x > y) - (x < y)


# ---- lookup


def place(index, cells):
    """Whole part, neighbour and fraction of an index, or None outside."""
    if compared(index, 0) < 0 or compared(index, of(cells - 1)) > 0:
        return None
    whole = 0
    while whole + 1 < cells and compared(of(whole + 1), index) <= 0:
        whole += 1
    return whole, whole + 1 if whole + 1 < cells else whole, less(index, of(whole))


def between(c, d, a):
    return add(c, times(a, less(d, c)))


def increment_refused(steps):
    if any(is_finite(z) and compared(z, 0) <= 0 for z in steps):
        return 8
    return 0 if all(is_finite(z) for z in steps) else 11


def spots(table, region, w, h, x, y):
    """A refusal's number and None, or 0 and where the point lies across and down, each as `place` says."""
    if not all(is_finite(z) for z in (*region, x, y)):
        return 4, None
    if not (LEAST <= w <= MOST and LEAST <= h <= MOST):
        return 6, None
    if len(table) != 2 * w * h:
        return 7, None
    left, top, right, bottom = region
    steps = over(less(right, left), of(w - 1)), over(less(bottom, top), of(h - 1))
    number = increment_refused(steps)
    if number:
        return number, None
    across = place(over(less(x, left), steps[0]), w)
    down = place(over(less(y, top), steps[1]), h)
    return (9, None) if across is None or down is None else (0, (across, down))


def used(table, w, across, down, k):
    """The numbers k of the four cells: those of the upper row, then of the lower one."""
    return [table[2 * (v * w + u) + k] for v in down[:2] for u in across[:2]]


def lookup(table, region, w, h, x, y):
    """A refusal's number and None, or 0 and the pixel. All numbers are bit patterns, the table's of f64s too."""
    number, both = spots(table, region, w, h, x, y)
    if number:
        return number, None
    across, down = both
    pixel = []
    for k in (0, 1):
        c00, c10, c01, c11 = used(table, w, across, down, k)
        pixel.append(between(between(c00, c10, across[2]), between(c01, c11, across[2]), down[2]))
    return (0, pixel) if all(is_finite(z) for z in pixel) else (11, None)


def margins(question):
    """For each number of an answer how far it lies from the nearer end of its window, which reaches from the least of
    its four cells to the greatest: as a part of their largest magnitude, 0 at an end and below 0 outside."""
    number, pixel = lookup(*question)
    if number:
        return []
    told = []
    for k, z in enumerate(pixel):
        cells = [exact(c) for c in used(question[0], question[2], *spots(*question)[1], k)]
        margin = min(exact(z) - min(cells), max(cells) - exact(z))
        told.append(margin / (max(abs(c) for c in cells) or 1))
    return told


# ---- the questions made by hand: each is its words and what is asked, with a heading before a section's first

LISTED = [-2.0, -1.5, 1.0, -1.5, 4.0, -1.5, -2.0, 2.5, 1.0, 2.5, 4.0, 2.5]
BOX = (-2.0, -1.5, 4.0, 2.5)


def bits(z):
    """A float's pattern; an int is one already."""
    return z if isinstance(z, int) else pattern(z)


def line(words, table, region, w, h, x, y):
    return words, ([bits(z) for z in table], [bits(z) for z in region], w, h, bits(x), bits(y))


def to_read(words, question):
    """A question made by hand in the listing's form."""
    number, pixel = lookup(*question)
    told = ["refused", str(number)] if number else ["answered", *(f"{z:016x}" for z in pixel)]
    return "\t".join([words, *(f"{z:016x}" for z in question[-2:]), *told])


def listed(words, x, y):
    return line(words, LISTED, BOX, 3, 2, x, y)


def edged(words, *region):
    return line(words, LISTED, region, 3, 2, 1.0, 0.5)


def spoilt(words, first, last, x, y):
    return line(words, [first, *LISTED[1:11], last], BOX, 3, 2, x, y)


def sized(words, w, h):
    return line(words, LISTED, BOX, w, h, 1.0, 0.5)


def by_hand():
    return [
        "The table of the rules, 3 by 2, region -2 -1.5 4 2.5: the numbers to check by hand, each cell's own point, and points between.",
        listed("hand\tthe middle", 1.0, 0.5),
        listed("hand\tthe last cell", 4.0, 2.5),
        listed("9\tpast the right", 4.5, 0.0),
        *(listed(f"none\tcell {i % 3} {i // 3}", *LISTED[2 * i : 2 * i + 2]) for i in range(5)),
        listed("none\tbetween", 0.1, 0.2),
        listed("none\tbetween", 3.3, -0.7),
    ]


def last_answered(inside, outside, ask):
    """The last pattern from inside on that isn't refused with 9, both of one sign."""
    step = 1 if outside > inside else -1
    a, b = inside, outside
    while abs(b - a) > 1:
        mid = (a + b) // 2
        a, b = (mid, b) if ask(mid) != 9 else (a, mid)
    return a, a + step


def side(words, inside, outside, across):
    """Two lines: the last answered and the first refused."""
    table, region = [bits(z) for z in LISTED], [bits(z) for z in BOX]
    where = lambda z: (z, 0) if across else (0, z)
    ends = last_answered(bits(inside), bits(outside), lambda z: lookup(table, region, 3, 2, *where(z))[0])
    return [listed(words, *where(z)) for z in ends]


def sides():
    return [
        "Refusal 9, on each side: the last f64 that is answered and the first that is refused. The index is judged: at the bottom it still rounds to 1 one f64 past the edge.",
        *side("9\tleft", -1.0, -9.0, True),
        *side("9\tright", 3.0, 9.0, True),
        *side("9\ttop", -1.0, -9.0, False),
        *side("9\tbottom", 1.0, 9.0, False),
    ]


def rounded_sides():
    thirds = lambda words, x: line(words, LISTED, (0.0, 0.0, 0.7, 1.0), 3, 2, x, 0.0)
    wide = lambda words, x: line(words, LISTED, (-1e308, 0.0, 0.0, 1.0), 3, 2, x, 0.0)
    seven = bits(0.7)
    return [
        "Refusal 9, over 0 0 0.7 1; and where point - lower overflows, over -1e308 0 0 1.",
        *(thirds("9\tright of 0.7", seven + n) for n in range(3)),
        thirds("9\tleft of 0", SIGN),
        thirds("9\tleft of 0", SIGN + 1),
        wide("9\ta finite difference", 0.0),
        wide("9\tan infinite difference", 1e308),
    ]


def no_numbers():
    return [
        "Refusal 11, on the answer: u of cell 0 0 or v of cell 2 1 is NaN or infinite. It is used with a fraction of 0 too.",
        spoilt("11\tu infinite, used", INF, 0, -1.0, 0.0),
        spoilt("11\tu infinite, its own point", INF, 0, -2.0, -1.5),
        spoilt("11\tu infinite, in the other row", INF, 0, -2.0, 2.5),
        spoilt("11\tu infinite, not used", INF, 0, 1.0, -1.5),
        spoilt("11\tu NaN, used", NAN, 0, 0.0, 2.0),
        spoilt("11\tu NaN, not used", NAN, 0, 2.0, 0.0),
        spoilt("11\tv NaN, used", 0, NAN, 2.0, 0.0),
        spoilt("11\tv NaN, a neighbour by 0", 0, NAN, 1.0, -1.5),
        spoilt("11\tv NaN, not used", 0, NAN, 0.5, 0.0),
        spoilt("11\tv infinite, used", 0, BELOW, 4.0, 2.5),
        spoilt("11\tboth", NAN, INF, 0.0, 0.0),
        spoilt("9\tboth, and outside", NAN, INF, 5.0, 0.0),
    ]


def not_finite():
    names = ("left", "top", "right", "bottom")
    found = ["Refusal 4: an edge is NaN, +infinity, -infinity; then the largest f64, which is none of these. Its bits stand before the point's. Then a coordinate."]
    for z in (NAN, INF, BELOW, LARGEST):
        found += [edged(f"4\t{name} edge\t{z:016x}", *BOX[:i], z, *BOX[i + 1 :]) for i, name in enumerate(names)]
    found += [listed("4\tx", z, 0) for z in (NAN, INF, BELOW)]
    return found + [listed("4\ty", 0, z) for z in (NAN, INF, BELOW)]


def sizes():
    most = 2**64 - 1
    name = lambda n: "the largest" if n == most else n
    cases = [(6, 0, 2), (6, 1, 6), (6, 6, 1), (6, 3, 0), (6, 4097, 2), (6, 2, 4097), (6, most, 2), (6, 2, most)]
    cases += [(7, 4096, 4096), (7, 2, 2), (7, 4, 2), ("none", 2, 3), ("none", 3, 2)]
    return [
        "Refusals 6 and 7: a width or height outside 2 to 4096; a table of 12 places for another size.",
        *(sized(f"{no}\t{name(w)} by {name(h)}", w, h) for no, w, h in cases),
    ]


def lengths():
    of_length = lambda word, n: line(f"{word}\t{n} places", [0.5] * n, BOX, 3, 2, 1.0, 0.5)
    found = ["Refusal 7: 3 by 2 with another length than 12."]
    return found + [of_length("7", 0), of_length("7", 11), of_length("7", 13), of_length("none", 12)]


def flat_boxes():
    return [
        "Refusals 8 and 11 on the increments.",
        edged("8\tno width", 1.0, -1.5, 1.0, 2.5),
        edged("8\tno height", -2.0, 0.5, 4.0, 0.5),
        edged("8\tturned across", 4.0, -1.5, -2.0, 2.5),
        edged("8\tturned down", -2.0, 2.5, 4.0, -1.5),
        edged("8\thalf of the least f64", 0.0, -1.5, 1, 2.5),
        edged("9\tthe least f64", 0.0, -1.5, 2, 2.5),
        edged("11\tinfinite across", -1e308, -1.5, 1e308, 2.5),
        edged("11\tinfinite down", -2.0, -1e308, 4.0, 1e308),
        edged("8\t-infinite across: 8 down", 1e308, 0.5, -1e308, 0.5),
        edged("11\t-infinite across", 1e308, -1.5, -1e308, 2.5),
    ]


def order():
    short = lambda words, w, x: line(words, [0.5] * 3, (0.0, 0.0, 0.0, 1.0), w, 2, x, 0.5)
    return [
        "The order where several hold: 4, 6, 7, then 8 and 11 on the increments, then 9, then 11 on the answer.",
        short("4\t6, 7, 8 and 9 hold too", 1, NAN),
        short("6\t7, 8 and 9 hold too", 1, 5.0),
        short("7\t8 and 9 hold too", 3, 5.0),
        edged("8\t11 across holds too", -1e308, 0.5, 1e308, 0.5),
        edged("8\t11 down holds too", 1.0, -1e308, 1.0, 1e308),
        edged("8\tthe index is above the last too", -2.0, -1.5, -2.0, 2.5),
        edged("8\tthe index is below 0 too", 3.0, -1.5, 2.0, 2.5),
        spoilt("9\t11 on the answer holds too", NAN, NAN, -3.0, 0.0),
    ]


def signs():
    table = [SIGN, 0.0, 5.0, 0.0, -3.0, 0.0, -3.0, 0.0]
    return [
        "The fraction at index -0 is -0: row 0 holds -0 and 5, row 1 holds -3 and -3.",
        line("none\tindex -0", table, (0.0, 0.0, 1.0, 1.0), 2, 2, SIGN, 0.0),
        line("none\tindex +0", table, (0.0, 0.0, 1.0, 1.0), 2, 2, 0, 0.0),
    ]


def ends():
    """Two by two cells one apart: the index is the point's own coordinate."""
    most, least = 3.4028234663852886e38, 2.0**-149  # of f32s
    below_one = bits(1.0) - 1
    numbers = lambda u, v: [z for pair in zip(u, v) for z in pair]
    square = lambda words, u, v, x, y: line(words, numbers(u, v), (0.0, 0.0, 1.0, 1.0), 2, 2, x, y)
    wide, tiny, tenth = (-most, least, most, -1.0), (0.0, 1.0, -1.0, least), widened(0x3DCCCCCD)
    return [
        "Next to an end of the window, which reaches from the least of the four cells to the greatest; then four equal cells, and four zeros.",
        square("none\tfractions next to 1", wide, tiny, below_one, below_one),
        square("none\tfractions next to 0", wide, tiny, bits(0.0) + 1, bits(0.0) + 1),
        square("none\tnext to 1, next to 0", wide, tiny, below_one, 2.0**-53),
        square("none\tnext to 0, next to 1", wide, tiny, 2.0**-53, below_one),
        square("none\tthe largest subnormal fraction", wide, tiny, 2**52 - 1, 2**52 - 1),
        square("none\tthe difference rounds up", (-1.0, 2.0**-53 + 2.0**-70, -1.0, -1.0), tiny, below_one, 0.0),
        square("none\tfour equal cells", [tenth] * 4, [-most] * 4, 0.1, 0.7),
        square("none\tfour zeros", (SIGN, 0, 0, SIGN), (0, SIGN, SIGN, SIGN), 0.1, 0.7),
    ]


SECTIONS = (by_hand, sides, rounded_sides, no_numbers, not_finite, sizes, lengths, flat_boxes, order, signs, ends)


def listing():
    """The questions made by hand, for a person to read."""
    found = ["Lookups in tables. A line: refusal, what is special, bits of x and of y, what is owed."]
    for section in SECTIONS:
        heading, *cases = section()
        lines = [to_read(*case) for case in cases]
        for told in lines:
            fields = told.split("\t")
            # a line named for a number is told it, but for the edges, where it is told beside an answer
            assert fields[0] not in ("6", "7", "8") or fields[-2:] == ["refused", fields[0]], told
            assert fields[0] not in ("none", "hand") or fields[4] == "answered", told
        found += ["", heading, *lines]
    return found


def made_by_hand():
    return [("by hand", question_line(*question)) for section in SECTIONS for _, question in section()[1:]]


# ---- the others


def widened(pattern32):
    """The f64 pattern of an f32's."""
    sign, field, low = pattern32 >> 31 << 63, pattern32 >> 23 & 0xFF, pattern32 % 2**23
    if field == 0xFF:
        return NAN if low else sign + INF
    m, e = (low, -149) if field == 0 else (low + 2**23, field - 150)
    return sign + nearest(m, e, 53, -1074) if m else sign


def unit(rng):
    """From 0 to 1, in steps of 2^-30."""
    return Fraction(rng.bits(30), 2**30)


def size(rng):
    while True:
        w, h = 2 + rng.below(5), 2 + rng.below(5)
        if 2 * w * h <= PLACES:
            return w, h


def plain_cell(rng):
    """An f32 of up to 12 binary digits before the point and 12 behind it, or all of an f32's 24."""
    return widened(rng.bits(1) << 31 | 120 + rng.below(20) << 23 | rng.bits(23))


def wild_cell(rng):
    """Any pattern, and one in 32 or so no number."""
    return widened(rng.bits(32) | (0 if rng.below(40) else 0x7F800000))


def box(rng):
    left, top = (exact(plain_cell(rng)) for _ in range(2))
    width, height = (abs(exact(plain_cell(rng))) for _ in range(2))
    return [rounded(q, 0) for q in (left, top, left + width, top + height)]


def wild(rng):
    """Any f64 that is a number."""
    while True:
        a = rng.bits(64)
        if is_finite(a):
            return a


def inside(rng, lower, upper):
    return rounded(exact(lower) + unit(rng) * (exact(upper) - exact(lower)), 0)


def near(rng, lower, upper, cells):
    """A cell's own coordinate, or a few f64s beside it."""
    a = rounded(exact(lower) + Fraction(rng.below(cells), cells - 1) * (exact(upper) - exact(lower)), 0)
    return min(max(a % SIGN + rng.below(5) - 2, 0), LARGEST) + (a & SIGN)


def ordinary(rng):
    w, h = size(rng)
    region = box(rng)
    table = [plain_cell(rng) for _ in range(2 * w * h)]
    return table, region, w, h, inside(rng, region[0], region[2]), inside(rng, region[1], region[3])


def on_cells(rng):
    table, region, w, h, _, _ = ordinary(rng)
    return table, region, w, h, near(rng, region[0], region[2], w), near(rng, region[1], region[3], h)


def with_wild_cells(rng):
    table, region, w, h, x, y = ordinary(rng)
    return [wild_cell(rng) for _ in table], region, w, h, x, y


def beyond(rng):
    """Up to half a region beyond each side."""
    table, region, w, h, _, _ = ordinary(rng)
    point = []
    for lower, upper in (region[::2], region[1::2]):
        reach = (exact(upper) - exact(lower)) / 2
        point.append(rounded(exact(lower) - reach + unit(rng) * 4 * reach, 0))
    return table, region, w, h, *point


def wild_boxes(rng):
    table, _, w, h, _, _ = ordinary(rng)
    region = [wild(rng) for _ in range(4)]
    for lower in (0, 1):
        if rng.bits(3) and exact(region[lower]) > exact(region[lower + 2]):
            region[lower], region[lower + 2] = region[lower + 2], region[lower]
    pick = lambda a, b: inside(rng, a, b) if rng.bits(2) else wild(rng)
    return table, region, w, h, pick(region[0], region[2]), pick(region[1], region[3])


def tiny_boxes(rng):
    """Among the subnormals, where an increment or an index has few digits."""
    table, _, w, h, _, _ = ordinary(rng)
    left, top = rng.below(20), rng.below(20)
    region = [left, top, left + rng.below(20), top + rng.below(20)]
    at = lambda lower, upper: max(lower + rng.below(upper - lower + 3) - 1, 0)
    return table, region, w, h, at(left, region[2]), at(top, region[3])


def zeros(rng):
    """Cells, edges and coordinates that are zeros of both signs, and 1."""
    w, h = size(rng)
    pick = lambda: (0, SIGN, pattern(1.0), pattern(-1.0))[rng.below(4)]
    corner = (0, SIGN)
    region = [corner[rng.bits(1)], corner[rng.bits(1)], pattern(float(w - 1)), pattern(float(h - 1))]
    at = lambda cells: corner[rng.bits(1)] if rng.bits(1) else pattern(rng.below(2 * cells - 1) / 2)
    return [pick() for _ in range(2 * w * h)], region, w, h, at(w), at(h)


def far_apart(rng):
    """An f32 of any exponent, a subnormal one or a zero, with few digits or all."""
    field = (0, 1 + rng.below(254), 120 + rng.below(14), 254)[rng.below(4)]
    return widened(rng.bits(1) << 31 | field << 23 | (rng.bits(23), 0, 2**23 - 1, 1)[rng.below(4)])


def beside(rng, cells):
    """A coordinate in a row of cells one apart: next to a cell, before it or behind it, or behind the first of them by
    a subnormal number, or anywhere."""
    u = rng.below(cells - 1)
    near = (of(u + 1) - 1 - rng.below(3), of(u) + rng.below(3), rng.below(2**52), rounded(u + unit(rng), 0))
    return near[rng.below(4)]


def one_near(rng):
    w, h = size(rng)
    region = [0, 0, of(w - 1), of(h - 1)]
    return [far_apart(rng) for _ in range(2 * w * h)], region, w, h, beside(rng, w), beside(rng, h)


def near_the_ends(rng):
    """Of some questions the one whose answer comes nearest to an end of its window and isn't at it."""
    asked = [one_near(rng) for _ in range(8)]
    return min(asked, key=lambda q: min((m for m in margins(q) if m > 0), default=9))


def misfits(rng):
    """Something of 4, 6 or 7 in an ordinary question, and often two."""
    table, region, w, h, x, y = ordinary(rng)
    for _ in range(1 + rng.below(2)):
        kind = rng.below(4)
        odd = (NAN, INF, BELOW)[rng.below(3)]
        if kind == 0:
            region[rng.below(4)] = odd
        elif kind == 1:
            x, y = (odd, y) if rng.bits(1) else (x, odd)
        elif kind == 2:
            wrong = (0, 1, 4097, 2**32 + 3, 2**64 - 1)[rng.below(5)]
            w, h = (wrong, h) if rng.bits(1) else (w, wrong)
        else:
            table = table[: rng.below(len(table))]
    return table, region, w, h, x, y


def of_a_lens(model):
    """A table of 4 by 3 that an ordinary lens of the model has, by tools/lens_tables.py, at any point or next to a cell's."""

    def made(rng):
        while True:
            camera = model, tuple([4.0, 4.25, 1.5, 1.0] + lens(rng, model)[4:])
            table = [0] * 24
            status, _, job = turn(fresh(camera, 4, 3)[1], table, 100)
            if status == FINISHED:
                break
        region = [pattern(z) for z in job.region]
        at = near if rng.bits(1) else lambda rng, lower, upper, _: inside(rng, lower, upper)
        where = (at(rng, region[k], region[k + 2], cells) for k, cells in enumerate((4, 3)))
        return [widened(z) for z in table], region, 4, 3, *where

    made.__name__ = f"of {MODELS[model]}"
    return made


KINDS = (
    (ordinary, 80),
    (on_cells, 60),
    (with_wild_cells, 50),
    (beyond, 50),
    (wild_boxes, 40),
    (tiny_boxes, 40),
    (zeros, 50),
    (misfits, 40),
    (near_the_ends, 60),
    *((of_a_lens(model), 12) for model in range(len(MODELS))),
)

ENDINGS = (0, 4, 6, 7, 8, 9, 11)


def question_line(table, region, w, h, x, y):
    numbers = [w, h, len(table), *region, x, y, *table, *[0] * (PLACES - len(table))]
    return "\t".join(f"{n:016x}" for n in numbers)


def read(text):
    """The question of a line (with its end), or None if it is bad."""
    fields = text[:-1].split("\t")
    if text[-1:] != "\n" or len(fields) != FIELDS or any(len(f) != 16 or not DIGITS.issuperset(f) for f in fields):
        return None
    w, h, places, *rest = (int(f, 16) for f in fields)
    if places > PLACES:
        return None
    rest = [NAN if is_nan(z) else z for z in rest]
    return rest[6 : 6 + places], rest[:4], w, h, rest[4], rest[5]


def reply(text):
    question = read(text)
    if question is None:
        return "bad"
    number, pixel = lookup(*question)
    return str(number) if number else "\t".join(["0", *(f"{z:016x}" for z in pixel)])


def bad_lines():
    """Lines of the right length that aren't of the form; the last is cut off."""
    good = question_line(*ordinary(Splitmix(99)))
    many = "\t".join(["0" * 15 + "3", "0" * 15 + "4", f"{25:016x}", *good.split("\t")[3:]])
    return [good.upper().replace("0", "A", 1), good.replace("\t", " ", 1), many, good[:-1] + "g", good[:100]]


def questions():
    found = made_by_hand()
    for seed, (kind, count) in enumerate(KINDS):
        rng = Splitmix(1000 + seed)
        found += [(kind.__name__, question_line(*kind(rng))) for _ in range(count)]
    return found


def make():
    asked = questions()
    lines = [q + "\n" for _, q in asked]
    bad = bad_lines()
    lines += [b + "\n" for b in bad[:-1]] + [bad[-1]]
    assert all(len(text) == 17 * FIELDS for text in lines[:-1])
    answers = [reply(text) for text in lines]
    endings = Counter((name, told.split("\t")[0]) for (name, _), told in zip(asked, answers))
    assert set(ENDINGS) == {int(n) for _, n in endings}, endings
    assert answers[len(asked) :] == ["bad"] * len(bad)
    said = [*answers, f"lines\t{len(lines)}"]
    apart = [m for text in lines[: len(asked)] for m in margins(read(text))]
    return "".join(lines), "\n".join(said) + "\n", endings, apart


def how_near(apart):
    """Of all numbers answered: none lies outside its window; how many are an end of it, and how near another came."""
    assert min(apart) >= 0, min(apart)
    least = min(m for m in apart if m > 0)
    power = least.numerator.bit_length() - least.denominator.bit_length()
    power -= Fraction(2) ** power > least
    at = sum(m == 0 for m in apart)
    told = f"{len(apart)} numbers: none outside its four cells, {at} at an end, the nearest other less than "
    return f"{told}2^{power + 1} of the largest magnitude away"


# ---- tests


def test_arithmetic():
    """add, times and over hold themselves to the platform's: at wild numbers, and at those near one another."""
    rng = Splitmix(5)
    for _ in range(3000):
        a, b = wild(rng), wild(rng)
        c = min(a % SIGN + rng.below(100), LARGEST) + (rng.bits(1) << 63)
        for x, y in ((a, b), (a, c), (c, b)):
            add(x, y), less(x, y), times(x, y), over(x, y)


def test_by_hand():
    table, region = [bits(z) for z in LISTED], [bits(z) for z in BOX]
    ask = lambda x, y: lookup(table, region, 3, 2, bits(x), bits(y))
    assert ask(1.0, 0.5) == (0, [bits(1.0), bits(0.5)])
    assert ask(4.0, 2.5) == (0, [bits(4.0), bits(2.5)])
    assert ask(4.5, 0.0) == (9, None)


def test_margins():
    ask = lambda x, y: margins(([bits(z) for z in LISTED], [bits(z) for z in BOX], 3, 2, bits(x), bits(y)))
    assert ask(4.5, 0.0) == [] and ask(4.0, 2.5) == [0, 0]
    assert ask(1.75, 0.5) == [Fraction(3, 16), Fraction(4, 5)]  # (1.75, 0.5) of cells from 1 to 4 and from -1.5 to 2.5
    near = how_near([Fraction(0), Fraction(3, 16), Fraction(4, 5)])
    assert near.startswith("3 numbers: ") and "1 at an end" in near and "less than 2^-2 " in near, near


def self_test():
    test_arithmetic()
    test_by_hand()
    test_margins()
    assert listing() and make() == make()
    print("self-test: ok", file=sys.stderr)


def main():
    if sys.argv[1:] == ["--self-test"]:
        return self_test()
    if sys.argv[1:] == ["--listing"]:
        return print("\n".join(listing()))
    asked, said, endings, apart = make()
    (FOLDER / "stdin").write_text(asked)
    (FOLDER / "stdout").write_text(said)
    for name in ("by hand", *(kind.__name__ for kind, _ in KINDS)):
        told = ", ".join(f"{n}: {c}" for (k, n), c in sorted(endings.items(), key=lambda t: int(t[0][1])) if k == name)
        print(f"{name:16} {told}", file=sys.stderr)
    print(how_near(apart), file=sys.stderr)


if __name__ == "__main__":
    main()
