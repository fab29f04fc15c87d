#!/usr/bin/env python3
"""Makes crates/test_table_vectors/stdin and stdout: jobs for the table builder, and what each of its turns gives.

    python3 tools/make_table_vectors.py              writes both files, and says on stderr what they cover
    python3 tools/make_table_vectors.py --self-test  tests this script and lens_tables.py, and writes nothing

A question is a line of 22 fields with tabs between, each 16 hexadecimal digits: the model's number,
the width, the height, the allowance of every turn, 1 for a strict job and 0 for another, 1 for cells of
sixteen bits and 0 for f32s, and sixteen parameters as bit patterns of f64s. A model with fewer
parameters has zeros in the places that are left. So every line has 374 bytes with its end, and the
program reads one at a time.

The answer to a question takes several lines, with tabs between fields; counts are decimal:

    fresh                              the record was made; or: refused N, and nothing more
    running  DONE UPDATES NO FIRST     one line for each turn, by its status: the record's units done and
    finished DONE UPDATES NO FIRST       updates after the turn, its samples whose flag says no, and the
    refused  N DONE UPDATES NO FIRST     position of the first of them
    edges    four f64s                 lower x, lower y, upper x, upper y, of the last record
    region   four f64s                 the same
    table    f32s or i16s              every place of the table: two for each cell, by rows

Turns follow one another, all with the question's allowance, as long as the status is running. An
allowance of 0 stands for a single turn that may do nothing. Before the first turn every place of the
table holds 3f000000, which is 0.5, or 16, in thirty-seconds. f64s have 16 digits, f32s have 8, and an i16 is
spelled as the f32 that is the same number, 41800000 for 16. A line of another form, a number that
is no model's or a mark above 1 is answered by `bad`, and the last line of stdout counts the lines of stdin.

The program's table has room for 3,072 cells: no question that gets a fresh record asks for more.

How the answers are made. By tools/lens_tables.py, from the text of the Rust and from docs/RULES.md.

How the questions are made. By hand where a rule has an edge, with ordinary cameras, and by a
search over splitmix64's numbers, from fixed seeds, for wild cameras that end in every way they can. So
every run writes the same bytes. A question that two kinds have is asked once, and counted for the first.
"""
import itertools
import math
import pathlib
import struct
import sys
from collections import Counter
from dataclasses import replace
from fractions import Fraction

from lens_models import AFFINE, BC, BC12, COUNTS, DISTORT, EUCM, KB, LIMITS, MODELS, MOST_PARAMS, NO_MODEL, UNDISTORT
from lens_models import answer, no_quotient, short_search
from lens_tables import (
    F32,
    FINISHED,
    I16,
    MOST,
    REFUSED,
    RUNNING,
    ZEROS,
    Job,
    border,
    call_refused,
    cell_point,
    distort_table,
    extended,
    flags,
    fresh,
    in_sixteen_bits,
    increments,
    narrow,
    region_of,
    rust_samples,
    samples,
    tallies,
    thirty_seconds,
    total,
    turn,
    unit,
)
from make_leaf_vectors import INF, NANS, SIGN, Splitmix, value
from make_leaf_vectors import narrow as exact_narrow
from make_leaf_vectors import thirty_seconds as exact_thirty_seconds
from model_questions import BC_EXAMPLE, PRISM, misspelled, number_of, pattern, sized, spelled, uniform
from model_questions import unit as plain

FOLDER = pathlib.Path(__file__).resolve().parent.parent / "crates" / "test_table_vectors"
ROOM = 3072  # cells that the program's table has room for
CELLS = (F32, I16)  # a line's kind of cell is its place here
BEFORE = {F32: 0x3F000000, I16: 16}  # what every place of the table holds before the first turn: 0.5
SEARCHING = [model for model in range(NO_MODEL) if LIMITS[model]]
LARGE = 10**6  # an allowance that no job of this size uses up
DIGITS = frozenset("0123456789abcdef")
FIELDS = 6 + MOST_PARAMS
LINE = 17 * FIELDS


# ---- a question's line, and its answer


def patterns(params):
    return [pattern(z) for z in params]


def question_line(model, w, h, allowance, params, strict=False, cells=F32):
    """A question's parameters are bit patterns here: a NaN would not keep its pattern in a float."""
    unused = [0] * (MOST_PARAMS - len(params))
    return "\t".join(f"{n:016x}" for n in (model, w, h, allowance, strict, CELLS.index(cells), *params, *unused))


def read(line):
    """Camera, width, height, allowance, strict mark and kind of cell of a line (with its end), or None if it is bad."""
    fields = line[:-1].split("\t")
    if line[-1:] != "\n" or len(fields) != FIELDS or any(len(f) != 16 or not DIGITS.issuperset(f) for f in fields):
        return None
    model, w, h, allowance, mark, cells, *params = (int(f, 16) for f in fields)
    if model >= NO_MODEL or mark > 1 or cells > 1:
        return None
    return (model, tuple(value(p) for p in params[: COUNTS[model]])), w, h, allowance, mark == 1, CELLS[cells]


def turns(job, table, allowance, cells=F32):
    """What each turn of a job gives, up to the first that isn't running; for an allowance of 0, one turn."""
    while True:
        status, number, job = turn(job, table, allowance, cells)
        yield status, number, job
        if status != RUNNING or allowance == 0:
            return


def turn_line(status, number, job):
    told = [status, number] if status == REFUSED else [status]
    return "\t".join(map(str, (*told, job.done, job.updates, job.unsettled, job.first)))


def box_line(word, box):
    return "\t".join([word, *map(spelled, box)])


def built(question):
    """Status, refusal's number, last record and table of a question, and what each turn gave. A question that doesn't
    say is not strict, and has f32s."""
    camera, w, h, allowance, *said = question
    strict, cells = *said, *(False, F32)[len(said) :]
    number, job = fresh(camera, w, h, strict)
    if number:
        return "not made", number, None, None, []
    assert w * h <= ROOM
    table = [BEFORE[cells]] * (2 * w * h)
    taken = list(turns(job, table, allowance, cells))
    status, number, job = taken[-1]
    return status, number, job, table, taken


def table_line(table, cells):
    return "\t".join(["table", *(f"{z:08x}" for z in (table if cells is F32 else map(narrow, table)))])


def reply(line):
    """The lines that answer a line."""
    question = read(line)
    if question is None:
        return ["bad"]
    status, number, job, table, taken = built(question)
    if status == "not made":
        return [f"refused\t{number}"]
    lines = ["fresh"] + [turn_line(*t) for t in taken]
    lines += [box_line("edges", job.edges), box_line("region", job.region)]
    beyond = table[2 * max(job.done - border(job.width, job.height), 0) :]
    assert beyond.count(BEFORE[question[-1]]) == len(beyond)
    return lines + [table_line(table, question[-1])]


# ---- the questions
#
# A question is (model, width, height, allowance, parameters), its parameters floats, or bit patterns as ints.
# A case is the same without the allowance.

KB_EXAMPLE = [0.1, 0.01, 0.001, 0.0001]  # the coefficients of the Rust's own test


def by(case, *allowances):
    model, w, h, params = case
    return [(model, w, h, a, params) for a in allowances]


def each_way(cases):
    """Each case unit by unit, with allowances that end just ahead of the refused unit and just at it, and in one turn.
    Ahead of unit 1 that is a turn of 0, which doesn't meet the refusal."""
    for _, refused, case in cases:
        yield from by(case, 1, refused - 1, refused, LARGE)


LISTED = (AFFINE, 3, 2, [1.0, 1.0, 0.0, 0.0])  # the table of docs/RULES.md


def by_hand():
    """Document 01's table by many allowances, the last one the largest there is; and a first turn of 0."""
    last, most = border(3, 2), total(3, 2)
    about = last - 1, last, last + 1, last + 3, most - 1, most, most + 1
    found = by(LISTED, 1, 7, 100, 0, 2, 5, *about, 2**63, 2**64 - 1)
    found += by((AFFINE, 2, 2, [1.0, 1.0, 0.0, 0.0]), 1, 0)
    found += by((AFFINE, 3, 2, [600.0, 600.0, 1.0, 0.5]), LARGE)  # the camera of the Rust's own test
    found += by((AFFINE, 3, 2, [3.0, 3.0, 0.7, 0.7]), LARGE)  # (lo + hi)/2 is not lo + (hi - lo)/2
    for model in range(EUCM, NO_MODEL):
        found += by((model, 5, 4, plain(model)), 0)
    return found


ORDINARY = [
    (AFFINE, [60.0, 61.5, 31.7, 24.2]),
    (EUCM, [40.0, 41.0, 32.3, 23.1, 0.6, 1.1]),
    (KB, [45.0, 45.5, 31.6, 23.8] + KB_EXAMPLE),
    (BC, [60.0, 60.5, 31.6, 23.8] + BC_EXAMPLE),
    (BC12, [60.0, 60.5, 31.6, 23.8] + BC_EXAMPLE + PRISM),
]


def ordinary():
    """64 by 48 cells of a lens of each model: in one turn, and one of them by four turns."""
    found = [(model, 64, 48, LARGE, params) for model, params in ORDINARY]
    return found + [(KB, 64, 48, 1000, [30.0, 30.5, 31.6, 23.8, -0.02, 0.01, -0.003, 0.0005])]


def by_sevens():
    """16 by 9 cells of each model by turns of 7, of a bc lens without a denominator, and of one that is a prism alone."""
    found = []
    for model, params in ORDINARY:
        small = [z / 4 for z in params[:2]] + [7.4, 4.1]
        found.append((model, 16, 9, 7, small + params[4:]))
    found.append((BC, 16, 9, 7, [20.0, 21.0, 7.7, 3.9, -0.28, 0.07, 0.0002, -0.0003, 0.01, 0.0, 0.0, 0.0]))
    return found + [(BC12, 16, 9, 7, [20.0, 21.0, 7.7, 3.9] + [0.0] * 8 + [0.03, -0.01, -0.02, 0.02])]


def narrow_and_flat():
    """The least width and the least height, alone and both: sides of one sample between the corners. 257 doesn't fit in a
    byte."""
    found = []
    for model, params in ORDINARY:
        found += by((model, 2, 2, [9.0, 8.0, 0.25, 0.75] + params[4:]), 1, border(2, 2), LARGE)
        found += by((model, 2, 7, [9.0, 8.0, 0.25, 3.5] + params[4:]), 1)
        found += by((model, 7, 2, [9.0, -8.0, 3.5, 0.25] + params[4:]), 4)
    found += by((AFFINE, 257, 2, [200.0, 201.0, 127.0, 0.5]), 300)
    return found + by((KB, 2, 257, [200.0, 201.0, 0.5, 127.0] + KB_EXAMPLE), border(2, 257) - 1)


# kb lenses whose corners lie at 87.0, 87.4 and 86.7 degrees off the axis: between 3/2 and 99/64
WIDE = [
    (KB, 5, 3, [1.92, 1.92, 2.0, 1.0, 0.0, 0.0, 0.0, 0.0]),
    (KB, 16, 9, [-6.1, 5.75, 7.5, 4.0, 0.01, -0.004, 0.0, 0.0]),
    (KB, 2, 7, [2.405, 2.405, 0.5, 3.0, 0.0, 0.0, 0.0, 0.0]),
]


def wide():
    """Tables that reach 87 degrees, which were refused with 10 before request P7."""
    return [q for case in WIDE for q in by(case, 7, LARGE)]


def refused_4():
    """A NaN or an infinity at each parameter of each model, the patterns in turn. Some have a zero focal length or a
    wrong size as well: 4 comes first."""
    not_finite = NANS + [INF, SIGN + INF]
    found = []
    for model, good in ORDINARY:
        for place in range(COUNTS[model]):
            params = patterns(good)
            if place % 3 == 1:
                params[place % 2] = 0
            params[place] = not_finite[len(found) % len(not_finite)]
            found.append((model, 1 if place % 4 == 2 else 5, 4, (0, 1, LARGE)[place % 3], params))
    return found


def refused_5():
    """fx or fy or both zero, of either sign; with a wrong size too: 5 comes first."""
    found = []
    for model, good in ORDINARY:
        for fx, fy in ((0.0, 1.0), (1.0, 0.0), (-0.0, 600.0), (-600.0, -0.0), (0.0, -0.0)):
            found.append((model, 3, 2, LARGE, [fx, fy] + good[2:]))
        found.append((model, 1, 4097, 1, [-0.0] + good[1:]))
    return found


def refused_6():
    """A width or a height just beyond its ends and far beyond: numbers that fit again once high bits are lost."""
    model, _, _, params = LISTED
    found = []
    for wrong in (0, 1, 4097, 2**16 + 3, 2**32 + 3, 2**63 + 2, 2**64 - 1):
        found += [(model, wrong, 2, LARGE, params), (model, 3, wrong, 0, params), (model, wrong, wrong, 1, params)]
    for model, params in ORDINARY[1:]:
        found += [(model, w, h, 1, params) for w, h in ((1, 48), (64, 1), (4097, 48), (64, 4097))]
    return found


def sample_at(w, h, u, v):
    """The position of the first border sample at this pixel."""
    return samples(w, h).index((u, v)) + 1


# Jobs that end at a refused unit: the refusal's number, that unit, and the case. `test_endings` holds them to it.

# With alpha 1/2 and beta 1, eucm's k is 1 - q/4: zero at a squared radius of 4, negative beyond. Both are refused.
HALF_EUCM = [0.5, 1.0]

REFUSED_SAMPLES = [
    (10, 1, (KB, 3, 2, [1.0, 1.0, 3.0, 3.0, 0.0, 0.0, 0.0, 0.0])),
    (10, 2, (KB, 3, 2, plain(KB))),  # a radius of 1.58
    (10, 6, (KB, 3, 2, [1.1, 1.1, 0.0, 0.0, 0.0, 0.0, 0.0, 0.0])),
    (11, 1, (KB, 3, 2, [1.0, 1.0, 0.5, -0.5, -1 / 3, 0.0, 0.0, 0.0])),  # a slope of 0
    (11, 3, (KB, 3, 2, [1.0, 8.0, -0.5, -0.5, -1 / 3, 0.0, 0.0, 0.0])),
    (11, 1, (AFFINE, 3, 2, [1e-309, 1.0, 5.0, 0.0])),  # a quotient overflows
    (11, 7, (AFFINE, 3, 2, [1e-308, 1.0, 0.0, 0.0])),
    (11, 2, (AFFINE, 3, 2, [1.0, -1e-308, 0.0, -0.5])),
    (16, 1, (EUCM, 3, 2, [1.0, 1.0, -2.5, -0.5] + HALF_EUCM)),  # a k of 0
    (16, 1, (EUCM, 3, 2, [0.5, 1.0, 0.5, 0.5] + HALF_EUCM)),  # -1/4
    (16, 7, (EUCM, 3, 2, [1.0, 1.0, 0.5, 0.5] + HALF_EUCM)),
    # 0 in the middle of the left side, and not beside it
    (16, sample_at(2, 2, -0.5, 0.5), (EUCM, 2, 2, [1.5, 8.0, 0.5, 0.5, 1.5, 1.0])),
    (16, sample_at(2, 2, 1.5, 0.5), (EUCM, 2, 2, [3.0, 8.0, -0.5, 0.5, 1.5, 1.0])),  # the same on the right side
    (16, sample_at(2, 2, -0.5, 0.5), (EUCM, 2, 2, [1.1, 16.0, 0.5, 0.5, 1.1, 1.0])),  # -0
    (11, sample_at(2, 2, -0.5, 0.5), (EUCM, 2, 2, [2.0, 8.0, 0.5, 0.5, 2.0, 1.0])),  # NaN
    (11, 1, (EUCM, 3, 2, [1.0, 1.0, 0.0, -0.5, 2.0, 1.0])),  # NaN at once
    (11, 1, (BC, 2, 2, [1.0, 1.0, 0.5, 0.5, 0.0, 0.0, 0.0, 0.0, 0.0, 1.0, 0.0, 0.0])),
    (11, 2, (BC, 3, 3, [1e-51, 1e-51, -1.0, -1.0] + [0.0] * 8)),  # the sixth power of a radius overflows
    (11, 1, (BC12, 2, 2, [1.0, 1.0, 0.5, 0.5, 0.0, 0.0, 0.0, 0.0, 0.0, 1.0, 0.0, 0.0] + [0.0] * 4)),
    (11, 2, (BC12, 3, 3, [1e-51, 1e-51, -1.0, -1.0] + [0.0] * 12)),
    # 1 + 2 s1 x and 1 + 4 s2 x^3 are 0 at x = -1
    (11, 1, (BC12, 3, 2, [1.0, 4.0, 0.5, 0.5] + [0.0] * 8 + [0.5, 0.0, 0.0, 0.0])),
    (11, sample_at(3, 2, -0.5, 0.5), (BC12, 3, 2, [1.0, 4.0, 0.5, 0.5] + [0.0] * 8 + [0.0, 0.25, 0.0, 0.0])),
]

# All points have one x, so the region is refused with 8; and of all samples only the last hasn't settled, which a strict job
# tells first. An f64 as large as these u has its neighbour 2^-20 away: the last sample is off by two such steps, the others
# by one at most. Found by a search.
FLAT_UNSETTLED_LAST = [
    (BC, 3, 2, [4500000.0, 0.0103, -2.711e16, 0.5, 3.68e-12] + [0.0] * 7),
    (BC, 3, 2, [4700000.0, 0.00949, -2.748e16, 0.5, 1.36e-15] + [0.0] * 7),
    (BC12, 3, 2, [4500000.0, 0.0103, -2.711e16, 0.5, 3.68e-12] + [0.0] * 7 + [0.0, -0.0, -0.0, 0.0]),
]

REFUSED_REGIONS = [
    (8, border(3, 2), (AFFINE, 3, 2, [1.0, 1.0, 1e300, 0.0])),  # no width
    (8, border(3, 2), (AFFINE, 3, 2, [1.0, 1.0, 0.0, -1e300])),  # no height
    (11, border(3, 2), (AFFINE, 3, 2, [2e-308, 1.0, 0.0, 0.0])),  # the doubled width overflows
    (11, border(3, 2), (AFFINE, 3, 2, [1.0, 2e-308, 0.0, 0.0])),
    (11, border(2, 2), (AFFINE, 2, 2, [4e-308, 1.0, -4.5, 0.0])),  # the sum of the edges overflows
    (11, border(2, 2), (AFFINE, 2, 2, [-4e-308, 1.0, -4.5, 0.0])),
    (8, border(3, 2), (AFFINE, 3, 2, [1.0, 2e-308, 1e300, 0.0])),  # 8 across, 11 down
    (8, border(3, 2), (AFFINE, 3, 2, [2e-308, 1.0, 0.0, 1e300])),  # 11 across, 8 down
    (8, border(3, 2), (EUCM, 3, 2, [1.0, 1.0, 1e17, 0.0, 0.0, 1.0])),
    (8, border(3, 2), (KB, 3, 2, [1e21, 1e21, 1e17, 0.0] + KB_EXAMPLE)),
    (8, border(3, 2), (BC, 3, 2, [1e21, 1e21, 0.0, 1e17] + BC_EXAMPLE)),
    (8, border(3, 2), (BC12, 3, 2, [1e21, 1e21, 0.0, 1e17] + BC_EXAMPLE + PRISM)),
    *((8, border(3, 2), case) for case in FLAT_UNSETTLED_LAST),
]

# Those of models that search whose samples have all settled: a strict job is refused there as any other.
STRICT_REGIONS = [ending for ending in REFUSED_REGIONS if LIMITS[ending[2][0]] and ending[2] not in FLAT_UNSETTLED_LAST]

# (upper - lower)/6 rounds up, and six times that overflows: an infinite point between finite edges
BRINK = float.fromhex("0x1.c000000000001p-1021")

REFUSED_CELLS = [
    (12, border(2, 2) + 1, (BC, 2, 2, plain(BC, 1e60))),
    (12, border(3, 3) + 3, (BC, 3, 3, [1.0, 1.0, -1.0, -1.0, 1e55] + [0.0] * 7)),  # the end of a row
    (12, border(2, 2) + 1, (BC12, 2, 2, plain(BC12, 1e60))),
    (12, border(3, 3) + 3, (BC12, 3, 3, [1.0, 1.0, -1.0, -1.0, 1e55] + [0.0] * 11)),
    (12, border(2, 2) + 1, (KB, 2, 2, [3.0, 3.0, 0.5, 0.5, 0.0, 0.0, 0.0, 1e60])),
    (12, border(2, 2) + 1, (EUCM, 2, 2, [1.0, -1e39, 0.5, 7.5e38] + HALF_EUCM)),  # v alone is too large
    (12, border(2, 2) + 1, (EUCM, 2, 2, [1e39, 1.0, -7.5e38, 0.5] + HALF_EUCM)),  # u alone, below zero
    (12, border(2, 2) + 3, (EUCM, 2, 2, [1.0, 1e39, 0.5, 1e39] + HALF_EUCM)),  # the next row begins too large
    (12, border(3, 2) + 2, (EUCM, 3, 2, [1e39, 1.0, 1e39, 0.5] + HALF_EUCM)),
    (11, border(3, 3) + 1, (BC, 3, 3, [2.2e-51, 2.2e-51, 3.0, 3.0] + [0.0] * 8)),  # a radius to the sixth overflows
    (11, border(3, 3) + 6, (BC, 3, 3, [2.2e-51, 2.2e-51, -1.0, -1.0] + [0.0] * 8)),
    (11, border(3, 3) + 1, (BC12, 3, 3, [2.2e-51, 2.2e-51, 3.0, 3.0] + [0.0] * 12)),
    (11, border(3, 3) + 6, (BC12, 3, 3, [2.2e-51, 2.2e-51, -1.0, -1.0] + [0.0] * 12)),
    (11, border(3, 3) + 9, (BC, 3, 3, [2.5e-51, 2.5e-51, -1.0, -1.0] + [0.0] * 8)),  # the same at the last cell of all
    (11, border(2, 2) + 1, (KB, 2, 2, [1.2, 1.2, 0.5, 0.5, 0.0, 0.0, 0.0, 5e307])),  # an infinite slope: theta stays
    (11, border(2, 2) + 2, (KB, 2, 2, [3.4, 3.4, -1.618, -1.618, 0.0, 0.0, 0.0, 5e307])),  # cell 1 lies at the centre
    (11, border(4, 3) + 4, (EUCM, 4, 3, [4.0, 4.0, 0.0, 0.0, 0.4, -0.6])),  # the root of a negative
    (11, border(7, 2) + 7, (AFFINE, 7, 2, [BRINK, 1.0, 0.0, 0.0])),
    (11, border(7, 3) + 7, (AFFINE, 7, 3, [-BRINK, 1.0, 6.0, 0.0])),
    (11, border(2, 7) + 13, (AFFINE, 2, 7, [1.0, BRINK, 0.0, 3.5])),  # the same in the last row
]

# Two points of a border have zeros of unlike sign, as Newton ends at an angle of 0 for the first, whose tangent isn't
# above 0, and the second lies on the axis; and a third is refused. The edges told are those of the points before, so
# they show which zero was kept. The sign of a focal length changes both.
ENDS_AT_ZERO = [-22.0, 136.0, -256.0, 0.0]  # at a radius of 1/4

ZERO_EDGES = [
    (10, sample_at(3, 2, 2.5, 0.5), (KB, 3, 2, [3.5, 4.0, -0.5, 0.5] + ENDS_AT_ZERO)),  # x, lower edge: -0, then +0
    (10, sample_at(3, 2, 2.5, 0.5), (KB, 3, 2, [-3.5, 4.0, -0.5, 0.5] + ENDS_AT_ZERO)),  # x, upper edge: +0, then -0
    (10, sample_at(3, 2, 2.5, 0.5), (KB, 3, 2, [4.0, 1.0, 0.5, -0.5] + ENDS_AT_ZERO)),  # y, lower edge: -0, then +0
    (10, sample_at(3, 2, 2.5, 0.5), (KB, 3, 2, [4.0, -1.0, 0.5, -0.5] + ENDS_AT_ZERO)),  # y, upper edge: +0, then -0
]

# Weak bc lenses with a border of exact points: 0 updates, and pixels halfway between two f32s.
TIES = [
    (BC, 5, 3, [4.0, 4.0, 2.0, 1.0, 2.0**-19] + [0.0] * 7),
    (BC, 5, 3, [4.0, 4.0, 2.0, 1.0, -(2.0**-19)] + [0.0] * 7),
    (BC, 3, 2, [4.0, 4.0, 1.0, 0.5, -3 * 2.0**-20] + [0.0] * 7),
]

# Pixels so small that the f32 is subnormal, or a zero. With beta -1 eucm's k is 1 + q/4: the points of far pixels lie close
# to the axis, where the lens is all but flat.
SMALL_CELLS = [
    (EUCM, 3, 2, [1e-20, -1e-20, 0.0, 0.0, 0.5, -1.0]),
    (EUCM, 3, 2, [1e-22, 2e-23, 0.0, -0.0, 0.5, -1.0]),
    (EUCM, 3, 2, [1e-40, -1e-40, 0.0, -0.0, 0.5, -1.0]),
]

# Every border sample takes all the updates there are, so that updates are at their limit in each record. Found by
# a search, and cut short.
MOST_UPDATES = [
    (KB, 2, 2, [1.1035, 0.9418, 0.3335, 0.5, 0.106, -0.2004, 0.0025, -0.5064]),
    (BC, 2, 2, [1.54, 1.54, 0.5, 0.5, -0.85, 0.16, 0.04, 0.07, -0.06, -0.26, 0.33, 0.9]),
    (BC12, 2, 2, [1.66, 1.66, 0.5, 0.5, -0.85, 0.16, 0.04, 0.07, -0.06, -0.26, 0.33, 0.9, -0.19, -0.03, -0.17, -0.16]),
]

# Borders whose samples all have a point, and the pixels of those whose flag says no. `test_unsettled` holds them to it.
# Found by a search over cameras with random parameters of one or two decimals, for borders of which few samples don't
# settle; then by what Newton did there.
UNSETTLED = [
    # kb: after 20 updates the step isn't small yet, at an angle above 0
    ({(-0.5, -0.5)}, (KB, 3, 2, [3.69, 7.16, 1.65, 1.64, 0.02, -0.54, 0.0, 0.0])),
    ({(1.5, -0.5)}, (KB, 3, 2, [5.1, 5.4, 2.1, 1.5, -1.3, 0.6, 0.0, 0.0])),
    ({(0.5, 1.5)}, (KB, 3, 2, [6.0, 1.6, 2.0, 1.7, -1.7, 1.1, 0.0, 0.0])),
    ({(2.5, 1.5)}, (KB, 3, 2, [7.6, 4.1, -0.2, 0.4, -0.7, -0.3, 0.0, 0.0])),
    # kb: the step is small, at an angle below 0: the mirrored branch
    ({(-0.5, -0.5)}, (KB, 3, 2, [7.3, 7.5, 2.6, 1.8, -0.1, -1.2, 0.0, 0.0])),
    ({(-0.5, 0.5)}, (KB, 3, 2, [7.7, 7.4, 2.4, 0.9, -0.1, -1.2, 0.0, 0.0])),
    ({(2.5, 0.5)}, (KB, 3, 2, [7.7, 6.7, -0.2, 0.5, -0.2, -1.2, 0.0, 0.0])),
    ({(2.5, 1.5)}, (KB, 3, 2, [5.5, 4.7, 0.7, -0.1, -0.4, -0.7, 0.0, 0.0])),
    # kb: two far from each other
    ({(0.5, -0.5), (2.5, 0.5)}, (KB, 3, 2, [3.6, 1.24, 0.91, 0.14, 0.06, -1.22, 0.04, 0.77])),
    # bc: after 50 updates the step isn't small yet
    ({(-0.5, -0.5)}, (BC, 3, 2, [2.21, 2.41, 0.69, -0.14, -0.74, -0.37, 0.0, 0.01, -0.23, 0.05, 0.0, 0.0])),
    ({(1.5, -0.5)}, (BC, 3, 2, [1.19, 4.82, 0.65, 0.11, 0.66, -0.51, -0.02, -0.04, 0.16, -0.13, 1.0, 0.0])),
    ({(-0.5, 0.5)}, (BC, 3, 2, [3.35, 6.74, 1.13, 1.65, -0.05, -0.87, 0.0, 0.0, -0.45, 0.0, 0.64, 0.0])),
    ({(2.5, 0.5)}, (BC, 3, 2, [4.81, 4.11, 0.44, -0.41, -0.95, -0.07, -0.04, 0.0, 0.06, 0.0, 0.0, -0.36])),
    ({(2.5, 1.5)}, (BC, 3, 2, [3.68, 6.69, 0.58, 1.13, 0.59, 0.52, 0.0, 0.0, -0.1, -0.49, -0.63, -0.16])),
    ({(1.5, -0.5), (2.5, 0.5)}, (BC, 3, 2, [2.5, 3.68, -0.33, 1.44, 0.47, -0.29, 0.0, -0.03, -0.2, 0.0, 0.0, 0.09])),
    # all of them
    *((set(samples(*case[1:3])), case) for case in MOST_UPDATES),
    # bc12: there is no point, or the search doesn't come to it; some bend by their prism alone
    ({(-0.5, -0.5)}, (BC12, 3, 2, [2.9, 5.09, 1.8, 1.68, 0.86] + [0.0] * 7 + [0.0, 0.0, 0.2, 0.0])),
    ({(1.5, -0.5)}, (BC12, 3, 2, [1.3, 2.14, 0.74, 0.67] + [0.0] * 8 + [0.22, 0.0, 0.0, 0.0])),
    ({(-0.5, 0.5)}, (BC12, 3, 2, [3.3, 1.9, 0.47, 1.4, 0.41, 0.0, 0.0, 0.0, 0.17] + [0.0] * 3 + [0.0, 0.2, 0.0, 0.0])),
    ({(2.5, 0.5)}, (BC12, 3, 2, [6.6, 1.1, 1.5, 1.13, 0.59] + [0.0] * 7 + [0.0, 0.0, 0.18, 0.0])),
    ({(2.5, 1.5)}, (BC12, 3, 2, [2.03, 6.3, 0.44, 0.9] + [0.0] * 8 + [0.24, 0.0, 0.23, 0.18])),
    (
        {(1.5, -0.5), (2.5, 0.5)},
        (BC12, 3, 2, [1.87, 1.21, 0.29, 0.21, 0.0, 0.0, 0.0, 0.0, -0.2] + [0.0] * 3 + [0.0, 0.0, 0.0, -0.06]),
    ),
]

# A sample's own refusal comes before 18: these have no point, and their searches haven't settled either.
OWN_REFUSALS = [
    (10, 3, (KB, 3, 2, [2.31, 6.94, 1.19, -0.33, -1.7, 1.2, 0.0, 0.2])),  # 20 updates, an angle of -2.6
    (10, 5, (KB, 3, 2, [5.98, 5.06, -0.35, 1.29, -0.8, 0.1, 0.0, 0.0])),  # a small step, an angle of -2.45
    (11, 1, (KB, 3, 2, [1.0, 1.0, 0.5, -0.5, -1 / 3, 0.0, 0.0, 0.0])),  # NaN
    (11, 1, (BC, 2, 2, [1.0, 1.0, 0.5, 0.5, 0.0, 0.0, 0.0, 0.0, 0.0, 1.0, 0.0, 0.0])),
    (11, 1, (BC12, 2, 2, [1.0, 1.0, 0.5, 0.5, 0.0, 0.0, 0.0, 0.0, 0.0, 1.0, 0.0, 0.0, 0.0, 0.0, -0.0, -0.0])),
]

# A sample that didn't settle, and behind it one that is refused by its own number, which isn't counted: that number,
# its unit, and the one of the sample that didn't settle.
UNSETTLED_THEN_REFUSED = [
    (10, 2, 1, (KB, 3, 2, [4.72, 7.82, 2.29, 0.79, -1.11, 0.45, -0.21, 0.32])),
    (10, 8, 3, (KB, 3, 2, [3.3, 3.19, 0.46, 1.45, 0.93, -0.68, -0.08, -0.99])),
    (11, 3, 2, (BC, 3, 2, [1.94, 5.08, 2.23, 1.95, -0.97, 0.47, 0.0, 0.0, 0.0, 0.0, 0.91, -0.41])),
    (11, 5, 2, (BC12, 3, 2, [1.08, 2.46, 0.3, 0.34] + [0.0] * 7 + [-0.99, 0.2, 0.09, 0.0, 0.0])),
]


def first_unsettled(pixels, case):
    """The position of the first sample that lies at one of these pixels."""
    return min(sample_at(*case[1:3], *pixel) for pixel in pixels)


def unsettled_last(model):
    """A case of UNSETTLED in which the last sample, and none at another pixel, doesn't settle."""
    return next(case for pixels, case in UNSETTLED if case[0] == model and pixels == {samples(*case[1:3])[-1]})


def strict_endings():
    """Where strict jobs end that meet a sample whose flag says no, and those that don't come to it."""
    found = [(18, first_unsettled(pixels, case), case) for pixels, case in UNSETTLED]
    found += [(18, border(*case[1:3]), case) for case in FLAT_UNSETTLED_LAST]
    return found + OWN_REFUSALS + [(18, first, case) for _, _, first, case in UNSETTLED_THEN_REFUSED]


def unsettled():
    """Jobs that aren't strict: turns that stop before, at and behind the first such sample, and in one turn."""
    for pixels, case in UNSETTLED:
        first = first_unsettled(pixels, case)
        yield from by(case, 1, first - 1, first, first + 1, LARGE)
    for _, refused, _, case in UNSETTLED_THEN_REFUSED:
        yield from by(case, 1, refused, LARGE)


# ---- bc12 without a prism builds bc's table

NO_PRISM = [
    (BC, 16, 9, [15.0, 15.125, 7.4, 4.1] + BC_EXAMPLE),
    (BC, 7, 5, [20.0, 21.0, 3.7, 2.9, -0.28, 0.07, 0.0002, -0.0003, 0.01, 0.0, 0.0, 0.0]),
    *(case for _, case in UNSETTLED if case[0] == BC),
]


def without_a_prism():
    """The same parameters with zeros of either sign behind them; and bc's own, asked beside it."""
    for n, (_, w, h, params) in enumerate(NO_PRISM):
        zeros = [(0.0, -0.0)[(n >> i) % 2] for i in range(4)]
        yield from by((BC, w, h, params), LARGE)
        yield from by((BC12, w, h, params + zeros), 7, LARGE)


# ---- cells of sixteen bits

# With alpha 1/2 and beta 1, a cell's pixel grows with s: shapes that put one of its numbers across an edge at some s, its
# unit, and which number that is, on which side.
SHAPES = [
    (border(3, 2) + 3, "u, above", lambda s: (EUCM, 3, 2, [s, 1.0, s, 0.5] + HALF_EUCM)),
    (border(2, 2) + 1, "u, below", lambda s: (EUCM, 2, 2, [s, 1.0, -0.75 * s, 0.5] + HALF_EUCM)),
    (border(2, 2) + 1, "v, above", lambda s: (EUCM, 2, 2, [1.0, -s, 0.5, 0.75 * s] + HALF_EUCM)),
    (border(2, 2) + 1, "v, below", lambda s: (EUCM, 2, 2, [1.0, s, 0.5, -0.75 * s] + HALF_EUCM)),
    (border(2, 2) + 3, "v, the next row begins too far", lambda s: (EUCM, 2, 2, [1.0, s, 0.5, s] + HALF_EUCM)),
]


def about_the_edge(shape):
    """The two f64s next to each other of which the first has a table and the second is refused."""
    low, high = 1.0, 2.0**20
    while math.nextafter(low, high) != high:
        middle = (low + high) / 2
        _, number, _, _, _ = built(question_of(shape(middle), LARGE, False, I16))
        low, high = (low, middle) if number else (middle, high)
    return low, high


def question_of(case, *rest):
    model, w, h, params = case
    return (model, tuple(params)), w, h, *rest


def at_the_edge():
    """The last case in and the first out, on both sides."""
    for _, _, shape in SHAPES:
        for s in about_the_edge(shape):
            yield from by(shape(s), 3, LARGE)


# An affine table of width w ends at (3w - 1)/2: 1022.5 for 682, and for 683 at 1024, which is 32,768 thirty-seconds.
REFUSED_WIDE_16 = [
    (19, border(683, 2) + 683, (AFFINE, 683, 2, [1.0, 1.0, 0.0, 0.0])),
    (19, border(2, 683) + 1365, (AFFINE, 2, 683, [1.0, 64.0, 0.0, 0.25])),
    (19, border(2, 683) + 1, (AFFINE, 2, 683, [256.0, -64.0, 0.5, 0.25])),  # upside down, so it begins there
]

# The number is 19 also where an f32 would be infinite, and 11 where nothing finite could be rounded.
REFUSED_CELLS_16 = [
    *((19, border(*shape(1e39)[1:3]) + 1, shape(1e39)) for _, _, shape in SHAPES),
    (19, border(2, 2) + 1, (BC, 2, 2, plain(BC, 1e60))),
    (19, border(2, 2) + 1, (BC12, 2, 2, plain(BC12, 1e60))),
    (19, border(2, 2) + 1, (KB, 2, 2, [3.0, 3.0, 0.5, 0.5, 0.0, 0.0, 0.0, 1e60])),
    (11, border(2, 2) + 1, (KB, 2, 2, [1.2, 1.2, 0.5, 0.5, 0.0, 0.0, 0.0, 5e307])),
    (11, border(4, 3) + 4, (EUCM, 4, 3, [4.0, 4.0, 0.0, 0.0, 0.4, -0.6])),
    (11, border(7, 2) + 7, (AFFINE, 7, 2, [BRINK, 1.0, 0.0, 0.0])),
]

# The cells of an affine table of 129 are 129/64 apart, so that every other one lies in the middle of two thirty-seconds.
TIES_16 = [
    (AFFINE, 129, 2, [1.0, 1.0, 0.0, 0.0]),
    (AFFINE, 2, 129, [-2.0, 4.0, 0.5, 16.0]),
    (AFFINE, 682, 2, [1.0, 1.0, 0.0, 0.0]),
]


# ---- wild cameras


def stage(question):
    """Where a question ends: its refusal's number, 0 for none, and a word."""
    status, number, job, _, _ = built(question)
    if job is None:
        return number, "fresh"
    if number == 0:
        return 0, status
    last = border(job.width, job.height)
    if job.done < last:
        return number, "unit 1" if job.done == 0 else "unit B" if job.done == last - 1 else "a sample"
    return number, "cell 1" if job.done == last else "a cell"


STAGES = ("fresh", "unit 1", "a sample", "unit B", "cell 1", "a cell", FINISHED, RUNNING)


# ---- request P14: bc cameras whose k4, k5 and k6 are zeros, which the builder samples by the short engine

# k4, k5 and k6: zeros of every sign; and with one that is none, so that the full engine is asked
ZERO_SIGNS = list(itertools.product((0.0, -0.0), repeat=3))
TINY = [[1e-300, 0.0, 0.0], [0.0, -1e-300, 0.0], [-0.0, 0.0, 5e-324]]

# Of these the two engines' edges differ in the sign of a zero. Found by a search over small lenses with a border that
# starts or ends at the axis.
SIGNED_EDGES = [
    (BC, 3, 2, [-1.0, -2.0, 1.0, 1.5, -0.24, 0.0, 0.0, 0.0, -0.0, 0.0, -0.0, 0.0]),
    (BC, 2, 2, [-0.5, -4.0, 1.0, -0.5, -0.0, -0.26, 0.0, 0.0, -0.0, 0.0, -0.0, -0.0]),
    (BC, 3, 2, [3.0, -4.0, 2.5, -0.5, -0.39, 0.0, 0.0, 0.27, -0.0, -0.0, -0.0, 0.0]),
    (BC, 2, 3, [-1.0, 2.0, 1.5, 1.0, 0.0, 0.0, 0.29, 0.0, -0.2, 0.0, -0.0, 0.0]),
]

# a cell whose pixel is a zero, of either sign
ZERO_CELLS = [
    (BC, 3, 3, [1.0, 1.0, 0.0, 0.0, 0.0, 0.0, 0.0, 0.0, 0.0, 0.0, 0.0, 0.0]),
    (BC, 3, 3, [1.0, -1.0, -0.0, 0.0, -0.25, 0.0, 0.0, 0.0, 0.0, -0.0, 0.0, -0.0]),
    (BC, 2, 2, [2.0, 2.0, 0.5, 0.5, -0.1, 0.02, 0.0, -0.0, 0.0, -0.0, -0.0, -0.0]),
]


def short_path():
    weak = [9.0, 8.0, 2.0, 1.5, -0.28, 0.07, 0.0002, -0.0003, 0.01]
    found = [(BC, 5, 4, 7, weak + list(last)) for last in ZERO_SIGNS + TINY]
    return found + [q for case in SIGNED_EDGES + ZERO_CELLS for q in by(case, 3, LARGE)]


def wild_zeros(rng, model):
    return wild(rng, model)[:9] + [(0.0, -0.0)[rng.bits(1)] for _ in range(3)]


def zero_signs(question, job):
    """What the short engine comes to in a job: samples that it hands over to the full one, of which that has the point
    or refuses, and whether the record's edges have a zero of another sign than by the full one."""
    (model, params), w, h, *_ = question
    if not no_quotient(model, params):
        return
    yield "jobs"
    edges = None
    for n, pixel in enumerate(samples(w, h)[: job.done + 1]):
        number, given = answer(model, UNDISTORT, params, *pixel)
        *_, fu, fv, last = short_search(params, *pixel)
        if not math.isfinite(fu + fv + last):
            yield "samples done again by the full engine, " + ("refused" if number else "answered")
        if n < min(job.done, border(w, h)):
            edges = given[:2] * 2 if n == 0 else extended(edges, *given[:2])
    if edges and patterns(edges) != patterns(job.edges):
        assert edges == job.edges
        yield "records with an edge of another zero than the full engine's"


def wild(rng, model):
    """Focal lengths of any size and sign. Half of them are of one size across and down, and most centres lie near
    the image: else nearly no table would be finished."""
    spans = (2, 6, 20, 60, 160, 340, 1021)
    s, t = spans[rng.below(7)], spans[rng.below(7)]
    fx, fy = sized(rng, t), sized(rng, t)
    if rng.bits(1):
        fy = math.copysign(fx * uniform(rng, 0.5, 2), fy)
    params = [fx, fy]
    for _ in range(2):
        chance = rng.below(6)
        exact = (0.0, -0.0, 0.5, 1.5)[rng.below(4)]
        params.append(exact if chance == 0 else sized(rng, t) if chance == 1 else uniform(rng, -2, 4))
    for _ in range(COUNTS[model] - 4):
        chance = rng.below(8)
        small = uniform(rng, -1, 1)
        params.append(0.0 if chance == 0 else -0.0 if chance == 1 else small if chance < 4 else sized(rng, s))
    return params


def by_ending(rng, model, most, finished, tries, strict=False, cells=F32, wild=wild):
    """2 by 2 tables: of each ending that so many tries come to at most so many, and of those that finish as many as
    said."""
    have = Counter()
    allowances = (1, 3, LARGE, 5)
    for _ in range(tries):
        params = wild(rng, model)
        ending = stage(((model, tuple(params)), 2, 2, LARGE, strict, cells))
        if ending[1] == "fresh":
            continue
        if have[ending] < (finished if ending[1] == FINISHED else most):
            yield model, 2, 2, allowances[have.total() % 4], params
            have[ending] += 1


def kinds():
    """Each kind's name and its questions, of jobs that aren't strict. The seeds differ, so that a change in one kind
    leaves the others."""
    yield "by hand", by_hand()
    yield "64 by 48", ordinary()
    yield "16 by 9, by sevens", by_sevens()
    yield "narrow and flat", narrow_and_flat()
    yield "87 degrees", wide()
    yield "refused 4", refused_4()
    yield "refused 5", refused_5()
    yield "refused 6", refused_6()
    yield "refused at a sample", each_way(REFUSED_SAMPLES)
    yield "refused at unit B", each_way(REFUSED_REGIONS)
    yield "refused at a cell", each_way(REFUSED_CELLS)
    yield "zeros as edges", each_way(ZERO_EDGES)
    yield "halfway between two f32s", [q for case in TIES for q in by(case, 4)]
    yield "small f32s", [q for case in SMALL_CELLS for q in by(case, LARGE)]
    yield "as many updates as can be", [q for case in MOST_UPDATES for q in by(case, 1, border(2, 2), LARGE)]
    yield "unsettled samples", unsettled()
    yield "bc12 without a prism", without_a_prism()
    for model, name in enumerate(MODELS):
        yield f"{name}, wild", by_ending(Splitmix(70 + model), model, 3, 6, 3000)
    yield "bc, k4 to k6 zeros", short_path()
    yield "bc, k4 to k6 zeros, wild", by_ending(Splitmix(78), BC, 6, 6, 3000, wild=wild_zeros)


def strict_kinds():
    """The same of strict jobs. Without an unsettled sample they are like the others."""
    yield "strict, settled", [(model, 5, 4, 7, [9.0, 8.0, 2.0, 1.5] + params[4:]) for model, params in ORDINARY]
    yield "strict, refused at a sample", each_way(strict_endings())
    yield "strict, refused at unit B", each_way(STRICT_REGIONS)
    for model in SEARCHING:
        yield f"{MODELS[model]}, wild, strict", by_ending(Splitmix(74 + model), model, 3, 6, 2000, True)


def kinds_16():
    """The same of cells of sixteen bits. What comes before the cells is the same as for f32s, and asked fewer times."""
    yield "i16, by hand", by_hand()
    yield "i16, 64 by 48", [q for q in ordinary() if q[0] == KB]
    yield "i16, 16 by 9, by sevens", by_sevens()
    yield "i16, narrow and flat", narrow_and_flat()
    yield "i16, refused at a sample", [q for _, _, case in REFUSED_SAMPLES for q in by(case, LARGE)]
    yield "i16, refused at unit B", [q for _, _, case in REFUSED_REGIONS for q in by(case, LARGE)]
    yield "i16, refused at a cell", each_way(REFUSED_CELLS_16)
    yield "i16, refused at a cell far out", [q for _, _, case in REFUSED_WIDE_16 for q in by(case, LARGE)]
    yield "i16, at the edge of sixteen bits", at_the_edge()
    yield "i16, halfway between two", [q for case in TIES_16 + TIES for q in by(case, LARGE)]
    yield "i16, unsettled samples", [q for _, case in UNSETTLED for q in by(case, LARGE)]
    for model, name in enumerate(MODELS):
        yield f"i16, {name}, wild", by_ending(Splitmix(170 + model), model, 2, 4, 2000, False, I16)
    yield "i16, bc, k4 to k6 zeros", short_path()


def strict_kinds_16():
    yield "i16, strict, settled", [(model, 5, 4, 7, [9.0, 8.0, 2.0, 1.5] + params[4:]) for model, params in ORDINARY]
    yield "i16, strict, refused at a sample", [q for _, _, case in strict_endings() for q in by(case, LARGE)]


def bad_lines():
    """Lines of LINE bytes that are not of the form: the program reads so many at a time. The last one is of the
    form, and is bad because `main` cuts its end off."""
    model, w, h, params = LISTED
    good = question_line(model, w, h, LARGE, patterns(params))
    bad = [" " * (LINE - 1), "\t" * (LINE - 1), good.replace("\t", " ")]
    fields = good.split("\t")
    one = fields[6]
    # the model, the mark and the kind of cell: the first number past the last, and large ones that fit again once high
    # bits are lost
    for wrong in (NO_MODEL, 2**8, 2**32, 2**63):
        bad.append("\t".join([f"{wrong:016x}"] + fields[1:]))
    for place, wrong in itertools.product((4, 5), (2, 2**8 + 1, 2**32, 2**63 + 1)):
        bad.append("\t".join(fields[:place] + [f"{wrong:016x}"] + fields[place + 1 :]))
    bad += misspelled(fields, one)
    assert all(len(line) == LINE - 1 for line in bad)
    return bad + [good]


# ---- the files


def halfway(z):
    """Whether a finite z lies in the middle of two neighbouring f32s: `toward` zero or `away` from it, as it rounds."""
    near = narrow(z)
    rounded = value32(near)
    if rounded == z:
        return None
    other = value32(near + 1 if abs(rounded) < abs(z) else near - 1)
    if abs(z - rounded) != abs(other - z):
        return None
    return "away" if abs(rounded) > abs(z) else "toward"


def value32(bits):
    return struct.unpack("<f", struct.pack("<I", bits))[0]


def kind_of_f32(z, bits):
    yield "f32s"
    if bits >> 31:
        yield "f32s with a minus"
    if bits % 2**31 == 0:
        yield "f32s that are zeros"
    elif bits % 2**31 < 2**23:
        yield "f32s that are subnormal"
    if halfway(z):
        yield f"pixels halfway between two f32s, rounded {halfway(z)}"


def kind_of_i16(z, number):
    yield "i16s"
    if number < 0:
        yield "i16s with a minus"
    if number == 0:
        yield "i16s that are 0"
    if abs(32 * z - number) == 0.5:
        yield f"pixels halfway between two i16s, rounded {'away' if abs(number) > abs(32 * z) else 'toward'}"
    if number in (-32768, 32767):
        yield f"i16s that are {number}"


def cell_kinds(question, job, table):
    """What can be said of the numbers of the cells done."""
    camera, w, h, *_, cells = question
    for i in range(max(job.done - border(w, h), 0)):
        v, u = divmod(i, w)
        pixel = answer(camera[0], DISTORT, camera[1], *cell_point(job.region, w, h, u, v))[1]
        for z, number in zip(pixel, table[2 * i : 2 * i + 2]):
            yield from kind_of_f32(z, number) if cells is F32 else kind_of_i16(z, number)


def all_kinds():
    for some, strict, cells in (
        (kinds(), False, F32),
        (strict_kinds(), True, F32),
        (kinds_16(), False, I16),
        (strict_kinds_16(), True, I16),
    ):
        for name, questions in some:
            yield name, questions, strict, cells


def ask():
    """The lines of stdin and of stdout, each question once, and what is to be said about them."""
    asked, answers, said = {}, [], Counter()
    for kind, questions, strict, cells in all_kinds():
        before = len(asked)
        for model, w, h, allowance, params in questions:
            line = question_line(model, w, h, allowance, patterns(params), strict, cells)
            if line in asked:
                continue
            asked[line] = kind
            answers += reply(line + "\n")
            question = read(line + "\n")
            assert question[0][1] == tuple(map(number_of, params)) or stage(question) == (4, "fresh")
            said[("ending", MODELS[model], *stage(question))] += 1
            _, _, job, table, taken = built(question)
            for status, _, _ in taken:
                said["turns", status] += 1
            if job:
                for word in zero_signs(question, job):
                    said["short", word] += 1
                said["cells", "done"] += max(job.done - border(w, h), 0)
                for word in cell_kinds(question, job, table):
                    said["cells", word] += 1
                most = LIMITS[model] * border(w, h)
                if job.unsettled:
                    said["unsettled", MODELS[model], job.first == 1, job.done >= border(w, h)] += 1
                if most and job.done >= border(w, h):
                    said["updates", MODELS[model]] = max(said["updates", MODELS[model]], job.updates / most)
        said["kind", kind] = len(asked) - before
    return list(asked), answers, said


UNSETTLED_PLACES = (
    ("from the first on", (True, True)),
    ("from a later one on", (False, True)),
    ("from the first on, the border not done", (True, False)),
    ("from a later one on, the border not done", (False, False)),
)


def summary(said, count, bad):
    """What the questions cover, on stderr. It asserts what may not be missing."""

    def say(*words):
        print(*words, file=sys.stderr)

    for key, n in said.items():
        if key[0] == "kind":
            say(f"{n:5} {key[1]}")
    endings = {key[1:] for key in said if key[0] == "ending"}
    columns = sorted({ending[1:] for ending in endings}, key=lambda c: (STAGES.index(c[1]), c[0]))
    say(f"\n{'ends at':24}" + "".join(f"{name:>8}" for name in MODELS))
    for number, word in columns:
        label = f"{word}, refused {number}" if number else word
        say(f"{label:24}" + "".join(f"{said['ending', name, number, word]:8}" for name in MODELS))
    say("\nturns:", ", ".join(f"{key[1]} {n}" for key, n in said.items() if key[0] == "turns"))
    for key, n in said.items():
        if key[0] == "cells":
            say(f"{n:7} {'cells done' if key[1] == 'done' else key[1]}")
    searching = [MODELS[model] for model in SEARCHING]
    for name in searching:
        say(f"updates of a whole {name} border, at most: {said['updates', name]:.3f} of the limit")
    for name in searching:
        some = {words: said["unsettled", name, *place] for words, place in UNSETTLED_PLACES}
        say(f"{name}, tables with unsettled samples:", ", ".join(f"{n} {words}" for words, n in some.items()))
        assert all(some.values()), name
    for key, n in said.items():
        if key[0] == "short":
            say(f"bc, k4 to k6 zeros: {n} {key[1]}")
    assert sum(key[0] == "short" for key in said) == 4
    say(f"\n{count} questions, {bad} bad lines")
    # every number that a job can be refused with, at each place where it can be
    everywhere = [(4, "fresh"), (5, "fresh"), (6, "fresh"), (11, "unit 1"), (11, "a sample"), (8, "unit B")]
    everywhere += [(11, "a cell"), (0, FINISHED), (0, RUNNING)]
    wanted = [(name, *ending) for name in MODELS for ending in everywhere]
    wanted += [("kb", 10, "unit 1"), ("kb", 10, "a sample"), ("affine", 11, "unit B")]
    wanted += [("eucm", 16, "unit 1"), ("eucm", 16, "a sample")]
    wanted += [("eucm", 16, "unit B")]
    wanted += [(name, 18, place) for name in searching for place in ("unit 1", "a sample", "unit B")]
    wanted += [(name, *ending) for name in MODELS[1:] for ending in ((11, "cell 1"), (12, "cell 1"), (12, "a cell"))]
    wanted += [(name, 19, "cell 1") for name in MODELS[1:]] + [(name, 19, "a cell") for name in MODELS]
    for ending in wanted:
        assert said[("ending", *ending)], ending
    assert all(said["updates", name] == 1 for name in searching)
    assert said["cells", "f32s that are subnormal"] and said["cells", "f32s that are zeros"]
    for word, kind in itertools.product(("toward", "away"), ("f32s", "i16s")):
        assert said["cells", f"pixels halfway between two {kind}, rounded {word}"]
    assert said["cells", "i16s that are 32767"] and said["cells", "i16s that are -32768"]


# ---- the self-test

# Document 01's table, as printed there, and the same by hand: the edges are -0.5 and 2.5 across, -0.5 and 1.5 down;
# so mid is 1 and 0.5, range 3 and 2, and the region goes from -2 to 4 and from -1.5 to 2.5. Increments 3 and 4.
LISTING = """table 3 2 0
region c000000000000000 bff8000000000000 4010000000000000 4004000000000000
cell 0 0 c0000000 bfc00000
cell 1 0 3f800000 bfc00000
cell 2 0 40800000 bfc00000
cell 0 1 c0000000 40200000
cell 1 1 3f800000 40200000
cell 2 1 40800000 40200000"""

# its ten border samples, written out from the rule, and those of the two sizes that are smallest beside it
LISTED_BORDER = [
    (-0.5, -0.5), (-0.5, 1.5), (0.5, -0.5), (0.5, 1.5), (1.5, -0.5), (1.5, 1.5), (2.5, -0.5), (2.5, 1.5),
    (-0.5, 0.5), (2.5, 0.5),
]  # fmt: skip
BORDER_2_2 = [(-0.5, -0.5), (-0.5, 1.5), (0.5, -0.5), (0.5, 1.5), (1.5, -0.5), (1.5, 1.5), (-0.5, 0.5), (1.5, 0.5)]
BORDER_2_3 = [
    (-0.5, -0.5), (-0.5, 2.5), (0.5, -0.5), (0.5, 2.5), (1.5, -0.5), (1.5, 2.5),
    (-0.5, 0.5), (1.5, 0.5), (-0.5, 1.5), (1.5, 1.5),
]  # fmt: skip

ENDINGS = REFUSED_SAMPLES + REFUSED_REGIONS + REFUSED_CELLS + ZERO_EDGES


def cases():
    """Cases of all kinds, those that finish and those that don't, none of them large."""
    found = [LISTED] + [case for _, _, case in ENDINGS + OWN_REFUSALS] + TIES + SMALL_CELLS
    found += [case for _, case in UNSETTLED] + [case for *_, case in UNSETTLED_THEN_REFUSED]
    found += [(model, w, h, params) for model, w, h, _, params in by_sevens() + narrow_and_flat() + short_path()]
    for model in range(NO_MODEL):
        rng = Splitmix(80 + model)
        found += [(model, 2 + i % 3, 2 + i % 2, wild(rng, model)) for i in range(150)]
    rng = Splitmix(84)
    found += [(BC, 2 + i % 3, 2 + i % 2, wild_zeros(rng, BC)) for i in range(150)]
    return [case for case in found if fresh((case[0], tuple(case[3])), *case[1:3])[0] == 0]


def started(case, strict=False):
    """The fresh record of a case, and a table in which no two places hold the same."""
    model, w, h, params = case
    number, job = fresh((model, tuple(params)), w, h, strict)
    assert number == 0
    return job, list(range(2 * w * h))


def test_listing():
    job, table = started(LISTED)
    assert (border(3, 2), total(3, 2)) == (10, 16) and samples(3, 2) == LISTED_BORDER
    end = Job(job.camera, 3, 2, total(3, 2), (-0.5, -0.5, 2.5, 1.5), (-2.0, -1.5, 4.0, 2.5), 0)
    assert turn(job, table, 100) == (FINISHED, 0, end)
    assert increments((-2.0, -1.5, 4.0, 2.5), 3, 2) == (3.0, 4.0)
    _, _, job, table, _ = built(read(question_line(AFFINE, 3, 2, 100, patterns(LISTED[3])) + "\n"))
    lines = [f"table {job.width} {job.height} {job.updates}", box_line("region", job.region).replace("\t", " ")]
    lines += [f"cell {i % 3} {i // 3} {table[2 * i]:08x} {table[2 * i + 1]:08x}" for i in range(6)]
    assert lines == LISTING.split("\n")
    print("docs/RULES.md's table: as printed there")


def test_border():
    """The Rust's border has each corner twice: ours is that one, each pixel where it is met first."""
    assert samples(2, 2) == BORDER_2_2 and samples(2, 3) == BORDER_2_3
    sizes = [(w, h) for w in range(2, 9) for h in range(2, 9)] + [(2, MOST), (MOST, 2), (MOST, MOST)]
    for w, h in sizes:
        assert samples(w, h) == list(dict.fromkeys(rust_samples(w, h))) and border(w, h) == 2 * w + 2 * h
        corners = [(u, v) for u in (-0.5, w - 0.5) for v in (-0.5, h - 0.5)]
        assert Counter(rust_samples(w, h)) - Counter(samples(w, h)) == Counter(corners)
    print("borders:", len(sizes))


def test_allowances():
    """The same table for every allowance, the units done after each turn, and the cells after the border and a row."""
    last, most = border(3, 2), total(3, 2)
    job, whole = started(LISTED)
    _, _, end = turn(job, whole, 100)
    for allowance in range(1, most + 2):
        job, table = started(LISTED)
        before = list(table)
        for n, (status, number, job) in enumerate(turns(job, table, allowance), 1):
            assert job.done == min(n * allowance, most) and number == 0
            assert status == (FINISHED if job.done == most else RUNNING)
            cells = max(job.done - last, 0)
            assert table[: 2 * cells] == whole[: 2 * cells] and table[2 * cells :] == before[2 * cells :]
        assert job == end and n == -(-most // allowance)
    job, table = started(LISTED)
    before = list(table)
    assert turn(job, table, 0) == (RUNNING, 0, job) and table == before
    _, _, job = turn(job, table, last)
    assert table == before and job.region == (-2.0, -1.5, 4.0, 2.5)
    _, _, job = turn(job, table, 3)
    assert table == whole[:6] + before[6:]
    assert turn(end, whole, 0) == turn(end, whole, 5) == (FINISHED, 0, end)
    print(f"allowances: 1 to {most + 1}")


def test_by_hand():
    """Numbers of the rules and of docs/DIFFERENCES.md, and sizes at their ends."""
    plain_camera = (AFFINE, (1.0, 1.0, 0.0, 0.0))
    sizes = {(1, 2): 6, (2, 1): 6, (2, 2): 0, (MOST, MOST): 0, (MOST + 1, 2): 6, (2, MOST + 1): 6, (0, 2): 6}
    assert all(fresh(plain_camera, *size)[0] == number for size, number in sizes.items())
    assert fresh((AFFINE, (-0.0, 1.0, 0.0, 0.0)), 3, 2)[0] == 5 and fresh((AFFINE, (0.0, 1.0, 0.0, 0.0)), 1, 2)[0] == 5
    assert fresh((AFFINE, (0.0, math.nan, 0.0, 0.0)), 1, 2)[0] == 4
    # mid as half of the sum, and not the lower edge plus half of the range
    thirds = built(((AFFINE, (3.0, 3.0, 0.7, 0.7)), 3, 2, LARGE))[2]
    low, _, high, _ = thirds.edges
    otherwise = low + (high - low) / 2 - (high - low)
    assert [spelled(z) for z in (thirds.region[0], otherwise)] == ["bfeccccccccccccd", "bfeccccccccccccc"]
    # bc with k1 = 1e60: the pixel that doesn't fit
    job = built(((BC, tuple(plain(BC, 1e60))), 2, 2, LARGE))[2]
    pixel = answer(BC, DISTORT, job.camera[1], *cell_point(job.region, 2, 2, 0, 0))[1]
    assert all(-1.08e44 < z < -1.06e44 for z in pixel)
    # an infinite point from finite increments
    job = built(((AFFINE, (BRINK, 1.0, 0.0, 0.0)), 7, 2, LARGE))[2]
    assert cell_point(job.region, 7, 2, 6, 0)[0] == math.inf > max(increments(job.region, 7, 2))
    # zeros as edges: which sign was kept
    kept = [built(((m, tuple(p)), w, h, LARGE))[2].edges for _, _, (m, w, h, p) in ZERO_EDGES]
    assert [spelled(kept[n][place]) for n, place in enumerate((0, 2, 1, 3))] == ["8" + "0" * 15, "0" * 16] * 2
    assert list(map(spelled, extended((0.0, -0.0, 0.0, -0.0), -0.0, 0.0))) == list(map(spelled, (0.0, -0.0, 0.0, -0.0)))
    for model, w, h, params in MOST_UPDATES:
        status, _, job, _, _ = built(((model, tuple(params)), w, h, LARGE))
        assert status == FINISHED and job.updates == LIMITS[model] * border(w, h)
    print("by hand: as said")


def test_endings():
    """Each refusing case ends where its list says. The unit that refuses leaves record and table as they were, however
    often it is tried; and an allowance that ends ahead of it doesn't meet it."""
    tried = [(*ending, False, F32) for ending in ENDINGS + OWN_REFUSALS]
    tried += [(number, refused, case, False, F32) for number, refused, _, case in UNSETTLED_THEN_REFUSED]
    tried += [(*ending, True, F32) for ending in strict_endings() + STRICT_REGIONS]
    tried += [(*ending, False, I16) for ending in REFUSED_SAMPLES + REFUSED_REGIONS + REFUSED_CELLS_16]
    tried += [(*ending, False, I16) for ending in REFUSED_WIDE_16 + ZERO_EDGES]
    tried += [(*ending, True, I16) for ending in strict_endings()]
    tried += [(19, unit, shape(about_the_edge(shape)[1]), False, I16) for unit, _, shape in SHAPES]
    for number, refused, case, strict, cells in tried:
        job, table = started(case, strict)
        assert turn(job, table, refused - 1, cells)[:2] == (RUNNING, 0), case
        _, _, job = turn(*started(case, strict), refused - 1, cells)
        assert job.done == refused - 1
        before = list(table)
        assert unit(job, cells) == (number, None, None), (case, unit(job, cells))
        for allowance in (1, 2, LARGE):
            assert turn(job, table, allowance, cells) == (REFUSED, number, job) and table == before
        assert turn(job, table, 0, cells) == (RUNNING, 0, job)
        again, other = started(case, strict)
        assert turn(again, other, LARGE, cells) == (REFUSED, number, job) and other == before
        assert not strict or (job.unsettled, job.first) == (0, 0)
    print("refused units:", len(tried))


def test_unsettled():
    """Which samples have a flag that says no, and what a job that isn't strict says of them in the end."""
    for pixels, case in UNSETTLED:
        model, w, h, params = case
        assert flags((model, tuple(params)), w, h) == [pixel not in pixels for pixel in samples(w, h)], case
        status, _, end = turn(*started(case), LARGE)
        count = sum(pixel in pixels for pixel in samples(w, h))
        assert (status, end.unsettled, end.first) == (FINISHED, count, first_unsettled(pixels, case)), case
    for number, refused, first, case in UNSETTLED_THEN_REFUSED:
        _, _, end = turn(*started(case), LARGE)
        assert (end.done, end.unsettled, end.first) == (refused - 1, 1, first), case
    for model, w, h, params in FLAT_UNSETTLED_LAST:
        assert flags((model, tuple(params)), w, h) == [True] * (border(w, h) - 1) + [False]
    # by hand: three flags that say no of five
    assert tallies([True, False, True, False, False]) == (3, 2) and tallies([True]) == tallies([]) == (0, 0)
    print("unsettled samples:", len(UNSETTLED) + len(UNSETTLED_THEN_REFUSED))


def ending(case, strict, cells):
    """Where a job ends by the definition: the units done and the number. Of a strict job that is the first sample whose
    flag says no, unless one before it has no point."""
    model, w, h, params = case
    job, table = started(case)
    _, number, end = turn(job, table, LARGE, cells)
    _, first = tallies(flags((model, tuple(params)), w, h))
    return (first - 1, 18) if strict and first else (end.done, number)


def hold_split(case, strict, cells, rng):
    """Demand 3: allowances of any kind, zeros among them. Done is the smaller of their sum and F; the cells done are
    those of the Rust's function, all others untouched; the updates are the sum over the samples done, count and first
    those of their flags."""
    model, w, h, params = case
    camera = model, tuple(params)
    job, one_go = started(case, strict)
    untouched = list(one_go)
    status, number, end = turn(job, one_go, LARGE, cells)
    assert (end.done, number) == ending(case, strict, cells)
    rust_number, rust_region, rust_table = distort_table(camera, w, h, cells)
    if number != 18:
        assert rust_number == number
    if number == 0:
        # a repr tells one zero from the other
        assert repr(rust_region) == repr(end.region) and rust_table == one_go
    each, told_flags = [], flags(camera, w, h)
    for u, v in samples(w, h)[: end.done]:
        each.append(answer(model, UNDISTORT, params, u, v)[1][2])
    assert all(n <= LIMITS[model] for n in each)
    job, table = started(case, strict)
    spent = 0
    while True:
        allowance = (0, 1, 2, rng.below(9), rng.below(total(w, h)))[rng.below(5)]
        spent += allowance
        told, refusal, job = turn(job, table, allowance, cells)
        assert job.done == min(spent, end.done) and job.updates == sum(each[: job.done]) and job.strict == strict
        assert (job.unsettled, job.first) == tallies(told_flags[: job.done])
        places = 2 * max(job.done - border(w, h), 0)
        assert table[:places] == one_go[:places] and table[places:] == untouched[places:]
        assert call_refused(job, table) == 0
        if spent > end.done or job.done == total(w, h):
            assert (told, refusal) == (status, number)
            break
        assert (told, refusal) == (RUNNING, 0)
    assert repr(job) == repr(end)
    return status, number


def test_without_a_prism():
    """bc12 with zeros for its prism builds bc's table, bit by bit, and its border takes bc's updates and has its flags."""
    tried = Counter()
    for (_, w, h, params), cells in itertools.product(NO_PRISM, CELLS):
        bc = built(((BC, tuple(params)), w, h, LARGE, False, cells))
        for zeros in itertools.product((0.0, -0.0), repeat=4):
            status, number, job, table, _ = built(((BC12, (*params, *zeros)), w, h, LARGE, False, cells))
            assert (status, number, table) == (bc[0], bc[1], bc[3])
            assert repr(replace(job, camera=())) == repr(replace(bc[2], camera=())), (params, zeros)
            tried[status] += 1
    print("bc12 without a prism, as bc:", dict(tried))


def test_splits():
    rng, tried = Splitmix(90), Counter()
    for case, strict, cells in itertools.product(cases() + TIES_16, (False, True), CELLS):
        words = "strict" if strict else "not strict", "f32" if cells is F32 else "i16"
        tried[*hold_split(case, strict, cells, rng), *words] += 1
    print("split into turns:", dict(tried))


def test_admitted():
    """Every record that a build can have is admitted: those of all cases, unit by unit, every third job strict."""
    tried = 0
    for n, case in enumerate(cases()):
        job, table = started(case, n % 3 == 0)
        while True:
            assert turn(job, table, 0) == (FINISHED if job.done == total(*case[1:3]) else RUNNING, 0, job)
            tried += 1
            if job.done == total(*case[1:3]):
                break
            number, after, _ = unit(job)
            if number:
                break
            job = after
    print("records of a build, admitted:", tried)


def test_impossible():
    """Each line of 13 by itself, at its limit and beyond; and that 4, 5, 6, 7 come ahead of it."""
    tried = Counter()

    def tell(number, job, table):
        before = list(table)
        for allowance in (0, 1, LARGE):
            told = turn(job, table, allowance)
            if number:
                assert told[:2] == (REFUSED, number) and told[2] is job and table == before, (job, told)
            else:
                assert allowance or told[0] != REFUSED, (job, told)
            table[:] = before
        tried[number] += 1

    inf, nan = math.inf, math.nan
    for case in [LISTED] + TIES + MOST_UPDATES + [(KB, 5, 3, [9.0, 8.0, 2.0, 1.0] + KB_EXAMPLE)]:
        model, w, h, _ = case
        last, most, limit = border(w, h), total(w, h), LIMITS[model]
        job, table = started(case)
        _, _, end = turn(job, table, LARGE)
        end = replace(end, unsettled=0, first=0)
        # done
        tell(0, replace(end, done=most), table)
        for done in (most + 1, 2**32, 2**64 - 1):
            tell(13, replace(end, done=done), table)
        # updates: only samples count
        for done in (0, 1, 2, last - 1, last, last + 1, most):
            tell(0, replace(end, done=done, updates=limit * min(done, last)), table)
            tell(13, replace(end, done=done, updates=limit * min(done, last) + 1), table)
            tell(13, replace(end, done=done, updates=2**64 - 1), table)
        # count and first: at most the samples done, both or neither, and none of them in a strict record
        for done in (0, 1, 2, last - 1, last, last + 1, most):
            here, some = replace(end, done=done, updates=0), min(done, last)
            tell(0, replace(here, strict=True), table)
            for count, first in ((1, 1), (1, some), (some, 1), (some, some)):
                tell(0 if some else 13, replace(here, unsettled=count or 1, first=first or 1), table)
                tell(13, replace(here, unsettled=count or 1, first=first or 1, strict=True), table)
            for count, first in ((some + 1, 1), (1, some + 1), (0, 1), (0, some + 1), (1, 0), (some + 1, 0)):
                tell(13, replace(here, unsettled=count, first=first), table)
                tell(13, replace(here, unsettled=count, first=first, strict=True), table)
            for far in (2**32 - 1, 2**64 - 1):
                tell(13, replace(here, unsettled=far, first=1), table)
                tell(13, replace(here, unsettled=1, first=far), table)
        # edges, however few units are done
        for place in range(4):
            for wrong in (nan, inf, -inf):
                for done in (0, 1, last, most):
                    edges = (*end.edges[:place], wrong, *end.edges[place + 1 :])
                    tell(13, replace(end, done=done, edges=edges, updates=0), table)
                    region = (*end.region[:place], wrong, *end.region[place + 1 :])
                    tell(4, replace(end, done=done, region=region, updates=0), table)
                    tell(4, replace(end, done=done, region=region, edges=edges, updates=0), table)
        # edges that are finite, but of no build, are admitted
        tell(0, replace(end, edges=(5.0, 5.0, -5.0, -5.0)), table)
        # the region: from unit B on its increments are judged, before it not
        x0, y0, x1, y1 = end.region
        wrong = [(x1, y0, x0, y1), (x0, y1, x1, y0), (x0, y0, x0, y1), (x0, y0, x1, y0), ZEROS]
        wrong += [(-1e308, y0, 1e308, y1), (x0, -1e308, x1, 1e308)]
        for region in wrong:
            for done in (last, last + 1, most):
                tell(13, replace(end, done=done, region=region), table)
            for done in (0, 1, last - 1):
                tell(0, replace(end, done=done, region=region, updates=0), table)
        # the order
        bad = replace(end, done=most + 1)
        params = job.camera[1]
        for number, wrong_job, wrong_table in (
            (7, bad, table[:-1]),
            (7, bad, table + [0]),
            (7, end, []),
            (6, replace(bad, width=1), table[:-1]),
            (6, replace(bad, height=MOST + 1), []),
            (5, replace(bad, width=1, camera=(model, (-0.0, *params[1:]))), []),
            (5, replace(end, camera=(model, (params[0], 0.0, *params[2:]))), table),
            (4, replace(bad, width=1, camera=(model, (0.0, nan, *params[2:]))), []),
            (4, replace(bad, width=1, camera=(model, (0.0, *params[1:])), region=(0.0, 0.0, 0.0, inf)), []),
        ):
            tell(number, wrong_job, wrong_table)
    print("records judged, by number:", dict(sorted(tried.items())))


def test_carried():
    """What a record brings along: edges are overwritten by sample 1, a region by unit B. Unit B tells its sample's
    refusal ahead of the increments', and 8 ahead of 11."""
    before_last = border(3, 2) - 1
    job, table = started(LISTED)
    odd = replace(job, edges=(7.0, 7.0, -7.0, -7.0), region=(9.0, 8.0, 7.0, 6.0))
    _, _, after = turn(odd, table, 1)
    assert after.edges == (-0.5, -0.5, -0.5, -0.5) and after.region == (9.0, 8.0, 7.0, 6.0)
    _, _, after = turn(odd, table, before_last)
    assert after.region == (9.0, 8.0, 7.0, 6.0)
    assert turn(odd, table, before_last + 1)[2].region == (-2.0, -1.5, 4.0, 2.5)
    # edges handed in inside out: all four move to the last sample's point, so the region has no width.
    # No record brings a negative increment to unit B, as its sample always ends up between the edges.
    inside_out = replace(job, done=before_last, edges=(20.0, 20.0, -20.0, -20.0))
    assert turn(inside_out, table, 1) == (REFUSED, 8, inside_out)
    assert extended((20.0, 20.0, 10.0, 10.0), 2.5, 0.5) == (2.5, 0.5, 10.0, 10.0)
    assert region_of((2.5, 0.5, 10.0, 10.0)) == (-1.25, -4.25, 13.75, 14.75)
    # the last sample of a strict job: its flag says no, and the edges alone would give 8
    strict, cells = started(unsettled_last(KB), True)
    here = replace(strict, done=before_last, edges=(9.0, 9.0, -9.0, -9.0))
    assert turn(here, cells, 1) == (REFUSED, 18, here)
    assert turn(replace(here, strict=False), cells, 1)[1] == 8
    # the last sample is refused 10, and the edges alone would give 8 or 11
    for edges in (ZEROS, (-1e308, -1e308, 1e308, 1e308)):
        steep = Job((KB, tuple(plain(KB))), 3, 2, before_last, edges)
        assert turn(steep, table, 1) == (REFUSED, 10, steep)
    narrow_and_wide = replace(job, done=before_last, edges=(2.5, -1e308, 2.5, 1e308))
    assert turn(narrow_and_wide, table, 1) == (REFUSED, 8, narrow_and_wide)
    wide = replace(job, done=before_last, edges=(-1e308, -0.5, 1e308, 1.5))
    assert turn(wide, table, 1) == (REFUSED, 11, wide)
    print("records from elsewhere: as said")


def test_narrow():
    """The platform's conversion to an f32 against the one by whole numbers that test_leaf_vectors has."""
    rng, tried = Splitmix(91), 0
    some = [rng.bits(64) for _ in range(2000)]
    some += [(rng.bits(1) << 63) + (rng.below(280) + 1023 - 152 << 52) + rng.bits(52) for _ in range(4000)]
    some += [(b >> 28 << 28) for b in some]
    for b in some:
        if math.isfinite(value(b)):
            owed = exact_narrow(b)
            assert narrow(value(b)) == (None if owed % 2**31 == 0x7F800000 else owed), hex(b)
            tried += 1
    assert [halfway(z) for z in (1 + 2.0**-24, -1 - 3 * 2.0**-24, 1.0, 0.1)] == ["toward", "away", None, None]
    print("narrowed:", tried)


def test_thirty_seconds():
    """By fractions, by the platform and by whole numbers; then by what is asked for: no other multiple of 1/32 is nearer,
    and of two as near it is the even one. And both kinds of one table: they differ by 1/64 and the f32's own rounding at
    most."""
    rng, tried = Splitmix(92), 0
    some = [rng.bits(64) for _ in range(500)]
    some += [(rng.bits(1) << 63) + (rng.below(30) + 1023 - 18 << 52) + rng.bits(52) for _ in range(4000)]
    some += [(b >> 42 << 42) for b in some] + [pattern(n / 64 * s) for n in range(65500, 65600) for s in (1, -1)]
    for z in filter(math.isfinite, map(value, some)):
        number = thirty_seconds(z)
        assert number == exact_thirty_seconds(pattern(z)), z
        if number is None:
            assert not -32768.5 <= 32 * z < 32767.5
            continue
        off = abs(32 * Fraction(z) - number)
        assert in_sixteen_bits(z) == number and (off < Fraction(1, 2) or off == Fraction(1, 2) and number % 2 == 0)
        tried += 1
    compared = 0
    for case in [LISTED] + TIES + TIES_16 + [(model, 64, 48, params) for model, params in ORDINARY]:
        tables = [built(question_of(case, LARGE, False, cells)) for cells in CELLS]
        assert tables[0][:3] == tables[1][:3] and tables[0][0] == FINISHED
        for single, sixteen in zip(tables[0][3], tables[1][3]):
            z = Fraction(value32(single))
            rounding = max(abs(z) / 2**24, Fraction(1, 2**150))
            assert abs(z - Fraction(sixteen, 32)) <= Fraction(1, 64) + rounding, (z, sixteen)
            compared += 1
    print("in thirty-seconds:", tried, "numbers of both kinds of table compared:", compared)


def test_lines():
    """Bad lines are bad, and the last of them wouldn't be with its end. And one answer in full."""
    bad = bad_lines()
    assert all(read(line + "\n") is None for line in bad[:-1]) and read(bad[-1]) is None and read(bad[-1] + "\n")
    line = question_line(AFFINE, 3, 2, 15, patterns(LISTED[3])) + "\n"
    assert len(line) == LINE
    lines = reply(line)
    assert lines[:3] == ["fresh", "running\t15\t0\t0\t0", "finished\t16\t0\t0\t0"] and len(lines) == 6
    assert lines[3] == "edges\tbfe0000000000000\tbfe0000000000000\t4004000000000000\t3ff8000000000000"
    listed = LISTING.split("\n")
    assert lines[4].replace("\t", " ") == listed[1]
    assert lines[5].split("\t") == ["table"] + [z for text in listed[2:] for z in text.split(" ")[3:]]
    line = question_line(AFFINE, 3, 2, 0, patterns(LISTED[3])) + "\n"
    zeros, untouched = "\t0000000000000000" * 4, "table" + "\t3f000000" * 12
    assert reply(line) == ["fresh", "running\t0\t0\t0\t0", "edges" + zeros, "region" + zeros, untouched]
    line = question_line(AFFINE, 3, 2, 1000, patterns([1.0, 1.0, 1e300, 0.0])) + "\n"
    assert reply(line)[1] == "refused\t8\t9\t0\t0\t0" and reply(line)[-1] == untouched
    line = question_line(AFFINE, 1, 2, 0, patterns(LISTED[3])) + "\n"
    assert reply(line) == ["refused\t6"]
    # in thirty-seconds: -2, 1 and 4 across, -1.5 and 2.5 down
    line = question_line(AFFINE, 3, 2, 1000, patterns(LISTED[3]), False, I16) + "\n"
    lines, places = reply(line), [z for down in (-48, 80) for across in (-64, 32, 128) for z in (across, down)]
    assert lines[1] == "finished\t16\t0\t0\t0"
    assert [value32(int(z, 16)) for z in lines[-1].split("\t")[1:]] == places
    print("lines: as said")


def self_test():
    test_listing()
    test_border()
    test_allowances()
    test_by_hand()
    test_endings()
    test_unsettled()
    test_without_a_prism()
    test_splits()
    test_admitted()
    test_impossible()
    test_carried()
    test_narrow()
    test_thirty_seconds()
    test_lines()


def main():
    asked, answers, said = ask()
    bad = bad_lines()
    count = len(asked)
    asked += bad
    # every bad line has its end but the last, which would be good with it
    for line in bad[:-1]:
        answers += reply(line + "\n")
    answers += reply(bad[-1]) + [f"lines\t{len(asked)}"]
    assert answers[-len(bad) - 1 : -1] == ["bad"] * len(bad)
    stdin, stdout = ("".join(line + "\n" for line in lines) for lines in (asked, answers))
    (FOLDER / "stdin").write_bytes(stdin[:-1].encode("ascii"))
    (FOLDER / "stdout").write_bytes(stdout.encode("ascii"))
    summary(said, count, len(bad))
    print(f"stdin {len(stdin) - 1} bytes, stdout {len(stdout)} bytes", file=sys.stderr)


if __name__ == "__main__":
    if sys.argv[1:] == ["--self-test"]:
        self_test()
    else:
        main()
