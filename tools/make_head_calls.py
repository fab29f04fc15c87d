#!/usr/bin/env python3
"""Makes crates/test_head_calls/stdin and stdout: calls of the five functions that a head calls, and what is owed for each.

    python3 tools/make_head_calls.py              writes both files, and says on stderr what they cover
    python3 tools/make_head_calls.py --self-test  tests this script, and writes nothing

The program's first lines tell the form of a line. Here every case says what its buffers hold, and only the words that
are not there yet are put. What a call owes comes from lens_tables, lens_models and make_table_lookups, which were made
from the rules and the Rust, and the bytes from Python's struct and include/lens.h. Of the jobs that are refused at a
unit, and of each record next to what a turn takes, the number also stands here, written down from the words of the
rules (docs/RULES.md 5.1, 5.2, 13.5), and the two must agree. No code of the crates takes part.
"""
import itertools
import math
import pathlib
import struct
import sys
from collections import Counter
from dataclasses import replace

from lens_models import AFFINE, BC, BC12, COUNTS, EUCM, KB, LIMITS, MILD, MOST_PARAMS, NO_MODEL, UNDISTORT, answer
from lens_models import MODELS as NAMES
from lens_tables import F32, FINISHED, I16, REFUSED, RUNNING, ZEROS, Job
from lens_tables import border, call_refused, camera_refused, distort_table, extended, fresh, narrow, samples
from lens_tables import size_refused, thirty_seconds, total, turn
from make_leaf_vectors import Splitmix
from make_table_lookups import BOX, lookup
from make_table_lookups import LISTED as LISTED_CELLS
from make_table_vectors import BRINK, FLAT_UNSETTLED_LAST, HALF_EUCM, LISTED, LISTING, NO_PRISM, OWN_REFUSALS, SEARCHING
from make_table_vectors import SHAPES, SIGNED_EDGES, UNSETTLED
from make_table_vectors import UNSETTLED_THEN_REFUSED, about_the_edge, first_unsettled, sample_at, unsettled_last

FOLDER = pathlib.Path(__file__).resolve().parent.parent / "crates" / "test_head_calls"
FIELDS, LINE = 12, 204
BYTES, NUMBERS = 512, 64  # of a buffer, of the table
FILL, BEFORE, BEFORE16 = 0xA5, struct.unpack("<I", struct.pack("<f", 12345.0))[0], 12345
# A job's places (include/lens.h), and its words before the check word. Behind the parameters all is where they leave it.
PARAMS, SIZE = 8, 8 + 8 * MOST_PARAMS
DONE, EDGES_AT, REGION_AT, TALLIES, MARK, CHECK, JOB = (SIZE + n for n in (8, 16, 48, 80, 88, 96, 104))
WORDS = CHECK // 8
ANSWER, PIXEL, BOX_BYTES, OBSERVATION = 48, 16, 32, 40
REFILL, PUT_READ, PUT_LENT, PUT_TABLE, JOB_NEW, TURN, OBSERVE, LOOKUP, FLIPS, TURN16, FLIPS16 = range(11)
STATUS = {RUNNING: 0, FINISHED: 1, REFUSED: 2}
NAN, INF = math.nan, math.inf
LARGEST, LEAST = sys.float_info.max, 2.0**-1074
MAX32, MAX64 = 2**32 - 1, 2**64 - 1
ODD = (NAN, INF, -INF, -0.0)  # what may stand where a number should
NAME = {F32: "lens_turn", I16: "lens_turn16"}


# ---- bytes


def doubles(*numbers):
    return struct.pack(f"<{len(numbers)}d", *numbers)


def pattern(x):
    return struct.unpack("<Q", doubles(x))[0]


def widened(bits32):
    return struct.unpack("<f", struct.pack("<I", bits32))[0]


def summed(text, words):
    return (int.from_bytes(text, "little") + sum(words)) % 2**64


def check_word(data, text=b"LENSJOB2"):
    """Of the words before it, the sum from the text on, modulo 2^64 (docs/RULES.md 21.3)."""
    return summed(text, struct.unpack_from(f"<{WORDS}Q", data))


def mended(data):
    """Bytes of a record with the check word that is right for them."""
    return data[:CHECK] + struct.pack("<Q", check_word(data))


def record_bytes(job):
    """The bytes of a record (include/lens.h)."""
    model, params = job.camera
    filled = [*params, *[0.0] * (MOST_PARAMS - len(params))]
    return mended(
        struct.pack("<2I", model, job.updates)
        + doubles(*filled)
        + struct.pack("<2IQ", job.width, job.height, job.done)
        + doubles(*job.edges, *job.region)
        + struct.pack("<2IQ", job.unsettled, job.first, job.strict)
    )


def record_of(data):
    """The record that so many bytes hold, or None for a model that there is not. A mark that is neither 0 nor 1 is nobody's
    here: it is refused."""
    model, updates = struct.unpack_from("<2I", data, 0)
    if model >= NO_MODEL:
        return None
    params = struct.unpack_from(f"<{COUNTS[model]}d", data, PARAMS)
    w, h, done = struct.unpack_from("<2IQ", data, SIZE)
    edges, region = struct.unpack_from("<4d", data, EDGES_AT), struct.unpack_from("<4d", data, REGION_AT)
    unsettled, first, mark = struct.unpack_from("<2IQ", data, TALLIES)
    return Job((model, params), w, h, done, edges, region, updates, unsettled, first, mark == 1)


def marked(data, mark):
    """The bytes with another strict mark."""
    return data[:MARK] + struct.pack("<Q", mark) + data[MARK + 8 :]


def poked(data, at, x):
    """The bytes with another f64 at a place."""
    return data[:at] + doubles(x) + data[at + 8 :]


# ---- what each function owes: the number, and the later bytes of what it may write


def camera_of(model, params):
    """1 or 3 and None, or 4, 5 or 0 and the camera."""
    if model >= NO_MODEL:
        return 1, None
    if len(params) != 8 * COUNTS[model]:
        return 3, None
    camera = model, struct.unpack(f"<{COUNTS[model]}d", params)
    return camera_refused(camera), camera


def lowest(*numbers):
    return min((n for n in numbers if n), default=0)


def job_new_owed(model, params, w, h, mark, job):
    number, camera = camera_of(model, params)
    number = lowest(number, size_refused(w, h), 7 if len(job) != JOB else 0, 13 if mark > 1 else 0)
    return number, job if number else record_bytes(Job(camera, w, h, strict=mark == 1))


def turn_refused(data, table, room):
    """The number before any unit. Bytes of another length hold no record that could be judged."""
    if len(data) != JOB:
        return 7
    job = record_of(data)
    mark, check = struct.unpack_from("<2Q", data, MARK)
    damaged = 13 if mark > 1 or check != check_word(data) else 0
    return lowest(1 if job is None else call_refused(job, table), damaged, 7 if room != ANSWER else 0)


def turn_owed(data, table, allowance, lent, kind=F32):
    number = turn_refused(data, table, len(lent))
    if number:
        return number, data, table, lent
    cells = list(table)
    status, number, after = turn(record_of(data), cells, allowance, kind)
    units = total(after.width, after.height)
    said = struct.pack("<6Q", STATUS[status], after.done, units, after.updates, after.unsettled, after.first)
    return number, record_bytes(after), cells, said


def observed(camera, record):
    number, given = answer(camera[0], UNDISTORT, camera[1], *struct.unpack_from("<2d", record))
    x, y, _, flag = (0.0, 0.0, 0, False) if number else given
    return record[:16] + doubles(x, y) + bytes([flag, number]) + record[34:]


def observe_owed(model, params, data):
    number, camera = camera_of(model, params)
    number = lowest(number, 7 if len(data) % OBSERVATION else 0)
    if number:
        return number, data
    return 0, b"".join(observed(camera, data[i : i + 40]) for i in range(0, len(data), 40))


def lookup_owed(table, region, w, h, x, y, lent):
    """A region's bytes past its end are zeros, for what is refused with less than 7."""
    edges = struct.unpack("<4Q", region[:32].ljust(32, b"\0"))
    cells = [pattern(widened(z)) for z in table]
    number, pixel = lookup(cells, edges, w, h, pattern(x), pattern(y))
    number = lowest(number, 7 if len(region) != BOX_BYTES or len(lent) != PIXEL else 0)
    return number, lent if number else struct.pack("<2Q", *pixel)


# ---- the lines


def spelled_cells(cells, kind):
    """An i16 is spelled as the f32 that is the same number."""
    return "".join(f"{z:08x}" for z in (cells if kind is F32 else map(narrow, cells)))


class Head:
    """The buffers as the program has them, and the lines of both files."""

    def __init__(self):
        self.asked, self.owed, self.said = [], [], Counter()
        self.refill()

    def line(self, *words):
        words = [*words, *[0] * (FIELDS - len(words))]
        self.asked.append("\t".join(f"{w:016x}" for w in words) + "\n")

    def heading(self, words):
        text = f"# {words} ".ljust(LINE - 1, "-") + "\n"
        assert len(text) == LINE and text.isascii(), words
        self.asked.append(text)
        self.owed.append(text)

    def refill(self):
        self.read, self.lent, self.answer = (bytes([FILL]) * BYTES for _ in range(3))
        self.tables = {F32: [BEFORE] * NUMBERS, I16: [BEFORE16] * NUMBERS}
        self.line(REFILL)

    @property
    def table(self):
        return self.tables[F32]

    def put(self, what, old, new):
        """Puts the words that are others, at most eight a line."""
        at = 0
        while at < len(new):
            if new[at] == old[at]:
                at += 1
                continue
            n = min(8, len(new) - at)
            while new[at + n - 1] == old[at + n - 1]:
                n -= 1
            self.line(what, at, n, *new[at : at + n])
            at += n

    def put_bytes(self, what, old, data):
        new = data + old[len(data) :]
        self.put(what, struct.unpack("<64Q", old), struct.unpack("<64Q", new))
        return new

    def reads(self, data):
        self.read = self.put_bytes(PUT_READ, self.read, data)

    def lends(self, data):
        self.lent = self.put_bytes(PUT_LENT, self.lent, data)

    def cells(self, table):
        new = [*table, *self.table[len(table) :]]
        self.put(PUT_TABLE, [pattern(widened(z)) for z in self.table], [pattern(widened(z)) for z in new])
        self.tables[F32] = new

    def reply(self, what, number, *buffers):
        """The line of a call: a buffer is before, after, and its spelling."""
        words = ["kept" if old == new else spelling for old, new, spelling in buffers]
        self.owed.append("\t".join([str(number), *words]) + "\n")
        self.said[what, number] += 1
        return number, words

    def job_new(self, model, params, w, h, room=JOB, stay=0, mark=0):
        self.reads(params)
        self.line(JOB_NEW, stay, model, len(params), room, 0, 0, w, h, 0, 0, mark)
        number, after = job_new_owed(model, params, w, h, mark, self.lent[:room])
        reply = self.reply("lens_job_new", number, (self.lent[:room], after, after.hex()))
        if stay:
            self.lent = after + self.lent[room:]
        return reply

    def turn(self, allowance, places, length=JOB, room=ANSWER, stay=0, kind=F32):
        self.line(TURN if kind is F32 else TURN16, stay, 0, 0, length, room, places, 0, 0, 0, 0, allowance)
        given = self.lent[:length], self.tables[kind][:places], self.answer[:room]
        number, data, cells, said = turn_owed(given[0], given[1], allowance, given[2], kind)
        spelled = data.hex(), spelled_cells(cells, kind), said.hex()
        reply = self.reply(NAME[kind], number, *zip(given, (data, cells, said), spelled))
        if stay:
            self.lent = data + self.lent[length:]
            self.tables[kind] = cells + self.tables[kind][places:]
        return reply

    def flips(self, allowance, places, kind=F32):
        """A turn with each bit of the job flipped, from the lowest of the first byte on: the numbers that refuse them."""
        self.line(FLIPS if kind is F32 else FLIPS16, 0, 0, 0, JOB, ANSWER, places, 0, 0, 0, 0, allowance)
        numbers = []
        for bit in range(8 * JOB):
            flipped = int.from_bytes(self.lent[:JOB], "little") ^ (1 << bit)
            given = flipped.to_bytes(JOB, "little"), self.tables[kind][:places], self.answer[:ANSWER]
            number, *after = turn_owed(given[0], given[1], allowance, given[2], kind)
            assert number and tuple(after) == given, bit
            self.reply(NAME[kind], number, *((old, old, "") for old in given))
            numbers.append(number)
        self.owed.append(f"bits\t{8 * JOB}\n")
        return numbers

    def observe(self, model, params, data, length=None):
        self.reads(params)
        self.lends(data)
        length = len(data) if length is None else length
        self.line(OBSERVE, 0, model, len(params), length)
        number, after = observe_owed(model, params, self.lent[:length])
        return self.reply("lens_observe", number, (self.lent[:length], after, after.hex()))

    def lookup(self, places, region, w, h, x, y, length=BOX_BYTES, room=PIXEL):
        self.reads(region)
        self.line(LOOKUP, 0, 0, length, 0, room, places, w, h, pattern(x), pattern(y))
        before = self.answer[:room]
        number, after = lookup_owed(self.table[:places], self.read[:length], w, h, x, y, before)
        return self.reply("lens_lookup", number, (before, after, after.hex()))

    def bad(self, text):
        self.asked.append(text)
        self.owed.append("bad\n")


# ---- the rules' table, unit by unit and in other turns

CAMERA = (AFFINE, tuple(LISTED[3]))
W, H = LISTED[1:3]
B, T = border(W, H), total(W, H)
ALL = 100


def started(head, camera, w, h, mark=0):
    """A fresh job in the buffer that is lent, and an untouched table."""
    head.refill()
    head.job_new(camera[0], doubles(*camera[1]), w, h, stay=1, mark=mark)


def in_turns(head, camera, w, h, allowances, mark=0, kind=F32):
    """A job from its start to its end: the record and the cells."""
    started(head, camera, w, h, mark)
    turns = 0
    while struct.unpack_from("<Q", head.lent, DONE)[0] < total(w, h):
        number, _ = head.turn(allowances[turns % len(allowances)], 2 * w * h, stay=1, kind=kind)
        assert number == 0
        turns += 1
    return head.lent, head.tables[kind]


def rules_table(head):
    head.heading("the rules' table, affine 1 1 0 0, 3 by 2, unit by unit")
    lent, table = in_turns(head, CAMERA, W, H, [1])
    cells = [f"cell {i % W} {i // W} {table[2 * i]:08x} {table[2 * i + 1]:08x}" for i in range(W * H)]
    assert cells == LISTING.split("\n")[2:]
    for words, allowances in (
        ("7 units", [7]),
        ("100 units", [ALL]),
        ("0, 1, 7, 100 units", [0, 1, 7, ALL]),
        ("as many units as can be said", [MAX64]),
    ):
        head.heading(f"the same in turns of {words}; then a turn of 0 and one of 100 after the last")
        assert in_turns(head, CAMERA, W, H, allowances) == (lent, table)
        for allowance in (0, ALL):
            assert head.turn(allowance, 12)[1][:2] == ["kept", "kept"]


# ---- the numbers by hand that are run and not proved (docs/RULES.md 17)


def by_hand(head):
    head.heading(f"by hand: the rules' table after {B}, {B + 3} and {T} units")
    started(head, CAMERA, W, H)
    for allowance, done, cells in ((B, B, 0), (3, B + 3, 3), (1000, T, 6)):
        assert head.turn(allowance, 12, stay=1)[0] == 0
        assert record_of(head.lent).done == done and head.table[:12].count(BEFORE) == 12 - 2 * cells
    region = head.lent[REGION_AT:TALLIES]
    head.heading("by hand: lookup (1, 0.5), (4, 2.5), (4.5, 0) in it")
    for x, y, owed in ((1.0, 0.5, 0), (4.0, 2.5, 0), (4.5, 0.0, 9)):
        assert head.lookup(12, region, W, H, x, y) == (owed, ["kept" if owed else doubles(x, y).hex()])
    head.heading("by hand: width 1, width 2, fx = -0")
    for fx, w, owed in ((1.0, 1, 6), (1.0, 2, 0), (-0.0, W, 5)):
        assert head.job_new(AFFINE, doubles(fx, 1.0, 0.0, 0.0), w, H)[0] == owed


# ---- jobs refused at a unit

# Words, camera, width, height, and what the words say: the refusal's number and the unit refused.
JOBS = [
    ("kb 1 1 0 0 0 0 0 0, 3 by 2: sample 2 lies at an angle over 99/64",
     KB, (1.0, 1.0, 0.0, 0.0, 0.0, 0.0, 0.0, 0.0), 3, 2, 10, 2),
    ("eucm 1 1 0.5 0.5 0.5 1, 3 by 2: the ray of sample 7 points backwards",
     EUCM, (1.0, 1.0, 0.5, 0.5, *HALF_EUCM), 3, 2, 16, 7),
    (f"eucm 2 8 0.5 0.5 2 1, 2 by 2: sample {sample_at(2, 2, -0.5, 0.5)} has no finite point",
     EUCM, (2.0, 8.0, 0.5, 0.5, 2.0, 1.0), 2, 2, 11, sample_at(2, 2, -0.5, 0.5)),
    ("affine 1 1 1e300 0, 3 by 2: all points have one x, and the increment across is 0",
     AFFINE, (1.0, 1.0, 1e300, 0.0), 3, 2, 8, B),
    ("affine 2e-308 1 0 0, 3 by 2: the increment across is infinite",
     AFFINE, (2e-308, 1.0, 0.0, 0.0), 3, 2, 11, B),
    ("affine 1 2e-308 1e300 0, 3 by 2: the increment is 0 across and infinite down",
     AFFINE, (1.0, 2e-308, 1e300, 0.0), 3, 2, 8, B),
    ("eucm 1e39 1 1e39 0.5 0.5 1, 3 by 2: the pixel of cell (1, 0) is too large for an f32",
     EUCM, (1e39, 1.0, 1e39, 0.5, *HALF_EUCM), 3, 2, 12, B + 2),
    ("bc 1 1 -1 -1 1e55 0 0 0 0 0 0 0, 3 by 3: the pixel of cell (2, 0) is too large for an f32",
     BC, (1.0, 1.0, -1.0, -1.0, 1e55, *[0.0] * 7), 3, 3, 12, border(3, 3) + 3),
    ("bc12 1 1 -1 -1 1e55 and zeros, 3 by 3: the pixel of cell (2, 0) is too large for an f32",
     BC12, (1.0, 1.0, -1.0, -1.0, 1e55, *[0.0] * 11), 3, 3, 12, border(3, 3) + 3),
    ("bc12 1 4 0.5 0.5 and zeros but s2 0.25, 3 by 2: the prism's slope is -1 at the point of a sample, which has no finite one",
     BC12, (1.0, 4.0, 0.5, 0.5, *[0.0] * 9, 0.25, 0.0, 0.0), 3, 2, 11, sample_at(3, 2, -0.5, 0.5)),
    ("eucm 2 2 0 0 0.4 -0.5, 3 by 2: the pixel of cell (2, 0) is NaN",
     EUCM, (2.0, 2.0, 0.0, 0.0, 0.4, -0.5), 3, 2, 11, B + 3),
    ("affine X 1 0 0, X = 002c000000000001, 7 by 2: the point of cell (6, 0) is infinite",
     AFFINE, (BRINK, 1.0, 0.0, 0.0), 7, 2, 11, border(7, 2) + 7),
]  # fmt: skip


def refused_at_a_unit(head, jobs=JOBS, kind=F32):
    before = {F32: BEFORE, I16: BEFORE16}[kind]
    for words, model, params, w, h, number, unit in jobs:
        head.heading(f"{words}; after a turn of 100: turns of 0, 1, 100")
        started(head, (model, params), w, h)
        given, _ = head.turn(ALL, 2 * w * h, stay=1, kind=kind)
        done = record_of(head.lent).done
        assert (given, done) == (number, unit - 1), (words, given, done)
        assert head.tables[kind][: 2 * w * h].count(before) == 2 * (w * h - max(done - border(w, h), 0))
        for allowance in (0, 1, ALL):
            again, kept = head.turn(allowance, 2 * w * h, kind=kind)
            assert again == (number if allowance else 0) and kept[:2] == ["kept", "kept"], words


# ---- what a turn refuses before any unit, and what it takes next to that

EDGES = (-0.5, -0.5, 2.5, 1.5)
REGION = (-2.0, -1.5, 4.0, 2.5)
KB_ORDINARY = (KB, (10.0, 10.0, 1.0, 0.5, 0.0, 0.0, 0.0, 0.0))
BC_ORDINARY = (BC, (10.0, 10.0, 1.0, 0.5, 0.1, 0.0, 0.0, 0.0, 0.0, 0.0, 0.0, 0.0))
BC12_ORDINARY = (BC12, (*BC_ORDINARY[1], 0.01, 0.0, -0.02, 0.005))
EUCM_ORDINARY = (EUCM, (10.0, 10.0, 1.0, 0.5, 0.5, 1.0))
STEEP = (JOBS[0][1], JOBS[0][2])

# What a turn of 1 that is taken says and changes: a sample leaves the table, and the last unit finishes.
SAMPLE = "running, record changed"
CELL = "running, table and record changed"
LAST = "finished, table and record changed"
OVER = "finished, nothing changed"


def affine(fx=1.0, fy=1.0, cx=0.0):
    return AFFINE, (fx, fy, cx, 0.0)


def with_last(camera, x):
    """A camera with another last parameter."""
    model, params = camera
    return model, (*params[:-1], x)


def record(camera=CAMERA, done=5, updates=0, edges=EDGES, region=REGION, w=W, h=H, unsettled=0, first=0, strict=False):
    return Job(camera, w, h, done, edges, region, updates, unsettled, first, strict)


def put(box, place, x):
    return (*box[:place], x, *box[place + 1 :])


def units_lines():
    yield f"Units done: at most T, which is {T}."
    for done, outcome in ((0, SAMPLE), (T - 1, LAST), (T, OVER), (T + 1, 13), (MAX64, 13)):
        yield f"units {done}", record(done=done), outcome


def limits(most):
    """After 5 samples, after all and among the cells: the last count that is taken, and the first that is not."""
    for done, outcome in ((5, SAMPLE), (B, CELL), (B + 3, CELL)):
        yield done, most * min(done, B), outcome
        yield done, most * min(done, B) + 1, 13


def updates_lines():
    yield f"Updates: at most 0 (affine, eucm), 20 (kb) or 50 (bc, bc12) for each sample done, of which there are {B}."
    for name, camera, rows in (
        ("affine", CAMERA, ((5, 0, SAMPLE), (5, 1, 13), (B + 3, 1, 13))),
        ("eucm", EUCM_ORDINARY, ((5, 0, SAMPLE), (5, 1, 13))),
        ("kb", KB_ORDINARY, ((0, 0, SAMPLE), (0, 1, 13), *limits(20))),
        ("bc", BC_ORDINARY, ((0, 1, 13), *limits(50), (B + 3, 2**32 - 1, 13))),
        ("bc12", BC12_ORDINARY, ((0, 1, 13), *limits(50), (B + 3, 2**32 - 1, 13))),
    ):
        for done, updates, outcome in rows:
            yield f"{name}, units {done}, updates {updates}", record(camera, done, updates), outcome


def tallies_lines():
    yield f"Count and first: at most the samples done, {B} in all; both 0 or neither; in a strict job both 0."
    for done, outcome in ((0, SAMPLE), (1, SAMPLE), (5, SAMPLE), (B - 1, SAMPLE), (B, CELL), (B + 3, CELL), (T, OVER)):
        most = min(done, B)
        taken = {(1, 1), (1, most), (most, 1), (most, most)} if done else set()
        refused = {(most + 1, 1), (1, most + 1), (0, 1), (1, 0), (most + 1, 0), (MAX32, 1), (1, MAX32), (0, MAX32)}
        for count, first in sorted(taken | refused):
            told = record(done=done, unsettled=count, first=first)
            words = f"units {done}, count {count}, first {first}"
            yield words, told, outcome if (count, first) in taken else 13
            yield f"{words}, strict", replace(told, strict=True), 13
        yield f"units {done}, none, strict", record(done=done, strict=True), outcome


def edges_lines():
    yield "Edges so far: finite, even where sample 1 would overwrite them."
    for words, done, place, x, outcome in (
        ("left NaN", 0, 0, NAN, 13),
        ("left NaN", 5, 0, NAN, 13),
        ("top infinite", 5, 1, INF, 13),
        ("right -infinite", B, 2, -INF, 13),
        ("bottom NaN", B + 3, 3, NAN, 13),
        ("bottom infinite", T, 3, INF, 13),
        ("left the largest f64", 5, 0, LARGEST, SAMPLE),
    ):
        yield f"{words}, units {done}", record(done=done, edges=put(EDGES, place, x)), outcome


def regions_lines():
    yield (
        f"Region once {B} units are done: increments finite and above 0. "
        "A line gives one pair of edges; the other is true."
    )
    x, y = 0, 1
    for words, done, axis, lower, upper, outcome in (
        ("x from 4 to 4", B, x, 4.0, 4.0, 13),
        ("x from 0 to -0", B, x, 0.0, -0.0, 13),
        ("x from 4 to -2", B, x, 4.0, -2.0, 13),
        ("x from -L to L, L the largest f64", B, x, -LARGEST, LARGEST, 13),
        ("x from 0 to 2^-1074, which halved is 0", B, x, 0.0, LEAST, 13),
        ("x from 0 to 2^-1073", B, x, 0.0, 2 * LEAST, CELL),
        ("y from 1 to 1", B + 3, y, 1.0, 1.0, 13),
        ("y from 2.5 to -1.5", B + 3, y, 2.5, -1.5, 13),
        ("y from -L to L, L the largest f64", B + 3, y, -LARGEST, LARGEST, 13),
        ("x from 4 to 4", T, x, 4.0, 4.0, 13),
    ):
        region = put(put(REGION, axis, lower), axis + 2, upper)
        yield f"{words}, units {done}", record(done=done, region=region), outcome
    yield f"all zeros, units {B}", record(done=B, region=(0.0,) * 4), 13
    yield f"all zeros, units {B - 1}", record(done=B - 1, region=(0.0,) * 4), SAMPLE


def not_finite_lines():
    yield "4: a region edge or a parameter is NaN or infinite, at any count of units."
    yield "region left NaN, units 0", record(done=0, region=put(REGION, 0, NAN)), 4
    yield "region top infinite, units 5", record(done=5, region=put(REGION, 1, INF)), 4
    yield f"region right -infinite, units {B}", record(done=B, region=put(REGION, 2, -INF)), 4
    yield f"region bottom NaN, units {T}", record(done=T, region=put(REGION, 3, NAN)), 4
    yield "affine, fx NaN", record(affine(fx=NAN)), 4
    yield "affine, cx infinite", record(affine(cx=INF)), 4
    yield "eucm, beta NaN", record(with_last(EUCM_ORDINARY, NAN)), 4
    yield "kb, k3 -infinite", record(with_last(KB_ORDINARY, -INF)), 4
    yield "bc, k6 NaN", record(with_last(BC_ORDINARY, NAN)), 4
    yield "bc12, s4 infinite", record(with_last(BC12_ORDINARY, INF)), 4


def focal_lines():
    yield "5: fx or fy is zero, of either sign."
    yield "fx 0", record(affine(fx=0.0)), 5
    yield "fx -0", record(affine(fx=-0.0)), 5
    yield "fy 0", record(affine(fy=0.0)), 5
    yield "fy -0", record(affine(fy=-0.0)), 5


def sizes_lines():
    yield "6: width or height outside 2 to 4,096."
    for words, w, h, numbers, outcome in (
        ("no number", 0, 2, 0, 6),
        ("4 numbers", 1, 2, 4, 6),
        ("8 numbers", 2, 2, 8, SAMPLE),
        ("12 numbers, where 16384 are due", 4096, 2, 12, 7),
        ("12 numbers", 4097, 2, 12, 6),
        ("12 numbers", MAX32, 2, 12, 6),
        ("no number", 3, 0, 0, 6),
        ("6 numbers", 3, 1, 6, 6),
        ("12 numbers, where 24576 are due", 3, 4096, 12, 7),
        ("12 numbers", 3, 4097, 12, 6),
        ("12 numbers", 3, MAX32, 12, 6),
    ):
        yield f"{w} by {h}, {words}", record(done=0, w=w, h=h), outcome, numbers


def lengths_lines():
    yield "7: a table that has not exactly 12 numbers."
    lengths = ((0, 0, 7), (0, 11, 7), (0, 12, SAMPLE), (0, 13, 7), (B + 3, 10, 7), (B + 3, 24, 7), (T, 11, 7))
    for done, numbers, outcome in lengths:
        yield f"{numbers or 'no'} number{'s' if numbers else ''}, units {done}", record(done=done), outcome, numbers


def order_lines():
    def wrong(camera, w, region):
        return record(camera, T + 1, 1, put(EDGES, 0, NAN), region, w)

    yield (
        "Several at once: 4, 5, 6, 7, 13, and only then a unit. "
        "The record is wrong by its units, updates and edges too."
    )
    unsound = put(REGION, 1, NAN)
    yield "fx NaN, fy 0, width 1, 11 numbers", wrong(affine(NAN, 0.0), 1, REGION), 4, 11
    yield "region NaN, fy 0, width 1, 11 numbers", wrong(affine(fy=0.0), 1, unsound), 4, 11
    yield "region NaN", wrong(CAMERA, W, unsound), 4
    yield "fy 0, width 1, 11 numbers", wrong(affine(fy=0.0), 1, REGION), 5, 11
    yield "width 1, 11 numbers", wrong(CAMERA, 1, REGION), 6, 11
    yield "11 numbers", wrong(CAMERA, W, REGION), 7, 11
    yield "12 numbers", wrong(CAMERA, W, REGION), 13
    yield "kb, units 1, updates 21, and sample 2 is refused 10", record(STEEP, 1, 21), 13
    yield "kb, units 1, updates 20, and sample 2 is refused 10", record(STEEP, 1, 20), 10


CHANGED = {SAMPLE: (0, True, False), CELL: (0, True, True), LAST: (0, True, True), OVER: (0, False, False)}


def beside_a_refusal(head, kind=F32):
    """Turns of 1, of affine 1 1 0 0 and 3 by 2 unless a line says so. An outcome is a refusal's number, or what
    a turn that is taken says and changes."""
    for lines in (
        units_lines(),
        updates_lines(),
        tallies_lines(),
        edges_lines(),
        regions_lines(),
        not_finite_lines(),
        focal_lines(),
        sizes_lines(),
        lengths_lines(),
        order_lines(),
    ):
        head.refill()
        head.heading(("" if kind is F32 else "turn16. ") + next(lines))
        for words, job, outcome, *numbers in lines:
            head.lends(record_bytes(job))
            number, kept = head.turn(1, numbers[0] if numbers else 12, kind=kind)
            if isinstance(outcome, str):
                done, record, table = CHANGED[outcome]
                assert (number, kept[0] != "kept", kept[1] != "kept") == (done, record, table), words
                assert kept[2].startswith("01" if outcome in (LAST, OVER) else "00"), words
            else:
                # 10 is a unit's, and its answer is written; the others write nothing
                assert number == outcome and kept[:2] == ["kept", "kept"], words
                assert (kept[2] == "kept") == (outcome != 10), words


def fresh_records(head):
    head.refill()
    head.heading("a fresh record: 4, 5, 6")
    for (model, params), w, h, number in (
        (affine(fx=-0.0), 3, 2, 5),
        (CAMERA, 1, 2, 6),
        (CAMERA, 2, 2, 0),
        (CAMERA, 4096, 4096, 0),
        (CAMERA, 4097, 2, 6),
        (affine(NAN, 0.0), 1, 2, 4),
        (affine(fx=0.0), 1, 2, 5),
    ):
        assert head.job_new(model, doubles(*params), w, h)[0] == number


# ---- a hostile caller

CAMERAS = [(model, (10.0, 12.0, 1.0, 0.5, *MILD[model])) for model in range(NO_MODEL)]
LAST_CAMERA = CAMERAS[-1]  # of the most parameters
MODELS8 = (*range(NO_MODEL + 2), 255)
MODELS32 = (*MODELS8, 256, MAX32)
SIZES = (0, 1, 2, 3, 4095, 4096, 4097, MAX32)
MOST_HANDED = 8 * MOST_PARAMS + 8  # bytes of parameters: one more than a model has
PLACES = [*range(PARAMS, SIZE, 8), *range(EDGES_AT, TALLIES, 8)]  # of a record's f64s


def after_units(camera, done, w=W, h=H):
    """The record that a build has after so many units."""
    number, job = fresh(camera, w, h)
    status, refused, job = turn(job, [0] * (2 * w * h), done)
    assert number == refused == 0 and job.done == done
    return job


def of_twelve(job):
    """The 208 bytes that a record of the releases before P5 had, with room for twelve parameters. Without a prism the sum of
    its words is the same."""
    data = record_bytes(job)
    return data[: PARAMS + 8 * 12] + data[SIZE:]


def subsets(faults):
    for n in range(len(faults) + 1):
        yield from itertools.combinations(faults, n)


def hostile_turns(head):
    head.refill()
    good = after_units(CAMERAS[KB], 9)
    none = mended(struct.pack("<I", NO_MODEL) + record_bytes(good)[4:])
    for words, data in (("", record_bytes(good)), (f", model {NO_MODEL}", none)):
        head.heading(f"turn: records of every length from 0 to 300{words}")
        head.lends(data)
        for n in range(301):
            assert head.turn(1, 12, n)[0] == (7 if n != JOB else 1 if words else 0)
    head.heading(f"turn: records of before, which had 192 and 208 bytes, each with its own check word; {JOB - 1} bytes of one; {JOB + 1}")
    body = of_twelve(good)[:184]
    head.lends(body + struct.pack("<Q", summed(b"LENSJOB1", struct.unpack("<23Q", body))))
    assert head.turn(1, 12, 192) == head.turn(0, 12, 192, 32) == (7, ["kept"] * 3)
    for camera in CAMERAS[:BC12]:
        head.lends(of_twelve(after_units(camera, 9)))
        for allowance, room in itertools.product((0, 1, MAX64), (48, 32)):
            assert head.turn(allowance, 12, 208, room) == (7, ["kept"] * 3)
    head.lends(record_bytes(good))
    assert head.turn(1, 12, JOB - 1) == head.turn(1, 12, JOB + 1) == (7, ["kept"] * 3)
    head.heading("turn: answers of every length from 0 to 64, then tables of every length from 0 to 64")
    head.lends(record_bytes(good))
    for n in range(65):
        assert head.turn(1, 12, room=n)[0] == (0 if n == ANSWER else 7)
    for n in range(65):
        assert head.turn(1, n)[0] == (0 if n == 12 else 7)
    head.heading(f"turn: model numbers 0 to {NO_MODEL + 1}, 255, 256, 2^32 - 1, at 0 and at 9 units")
    for done, model in itertools.product((0, 9), MODELS32):
        head.lends(mended(struct.pack("<2I", model, 0) + record_bytes(after_units(LAST_CAMERA, done))[8:]))
        assert (head.turn(1, 12)[0] == 1) == (model >= NO_MODEL)
    for done in (5, B + 3):
        for camera in CAMERAS:
            head.heading(f"turn: {NAMES[camera[0]]} after {done} units; NaN, infinity, -infinity, -0 at each f64's place")
            data = record_bytes(after_units(camera, done))
            for at, x in itertools.product(PLACES, ODD):
                head.lends(mended(poked(data, at, x)))
                head.turn(1, 12)


def impossible_records(head):
    for camera in CAMERAS:
        head.refill()
        head.heading(f"turn: {NAMES[camera[0]]}, the most updates and one more; more units than there are")
        for done in (0, 1, B - 1, B, B + 3, T):
            job, most = after_units(camera, done), LIMITS[camera[0]] * min(done, B)
            for updates in sorted({most, most + 1, 2**31, MAX32}):
                head.lends(record_bytes(replace(job, updates=updates)))
                assert head.turn(1, 12)[0] == (0 if updates <= most else 13)
        for done in (T + 1, T + 2, 2**31, 2**32, 2**63, MAX64):
            head.lends(record_bytes(replace(job, done=done)))
            assert head.turn(1, 12)[0] == 13
    head.heading("turn: every width with every height, with the table's length where there is room for it")
    for w, h in itertools.product(SIZES, SIZES):
        head.lends(record_bytes(Job(CAMERA, w, h)))
        places = 2 * w * h if 2 * w * h <= NUMBERS else NUMBERS
        assert head.turn(1, places)[0] == (6 if not (2 <= w <= 4096 and 2 <= h <= 4096) else 0 if w * h <= 32 else 7)
    head.heading("turn: allowances")
    head.lends(record_bytes(after_units(CAMERAS[BC], B - 1)))
    for allowance in (0, 1, 2, 7, 8, 2**31, 2**32, 2**63, MAX64):
        assert head.turn(allowance, 12)[0] == 0


FAULTS = {
    1: f"model {NO_MODEL}",
    4: "fx NaN",
    5: "fy 0",
    6: "width 1",
    7: "11 numbers",
    13: f"{T + 1} units",
    "mark": "mark 2",
    "check": "a wrong check word",
    "answer": "47 bytes of answer",
    "record": f"{JOB - 1} of record",
}


def several_faults_of_a_turn(head, some=tuple(FAULTS), kind=F32):
    """Every set of faults. Bytes of another length hold no record, so one less of them is 7 whatever stands there."""
    head.refill()
    head.heading(f"{NAME[kind][5:]}: every set of: {', '.join(FAULTS[fault] for fault in some)}")
    good = after_units(CAMERAS[KB], 9)
    for faults in subsets(some):
        data = record_bytes(replace(good, done=T + 1 if 13 in faults else 9, width=1 if 6 in faults else 3))
        data = struct.pack("<I", NO_MODEL if 1 in faults else KB) + data[4:]
        data = poked(data, 8, NAN) if 4 in faults else data
        data = poked(data, 16, 0.0) if 5 in faults else data
        data = mended(marked(data, 2) if "mark" in faults else data)
        head.lends(data[:CHECK] + bytes([data[CHECK] ^ 1]) + data[CHECK + 1 :] if "check" in faults else data)
        places = 11 if 7 in faults else 4 if 6 in faults else 12
        number, kept = head.turn(1, places, JOB - ("record" in faults), ANSWER - ("answer" in faults), kind=kind)
        own = {"answer": 7, "mark": 13, "check": 13}
        owed = 7 if "record" in faults else min([own.get(f, f) for f in faults], default=0)
        assert number == owed and (not owed or kept == ["kept"] * 3), faults


# ---- damaged jobs of the rules' table: the check word is the one that the job had


def damaged(head, data, number):
    """Bytes that are not quite those of the job that is lent, in a turn of 1 and one of 100. Then the job again."""
    whole = head.lent[:JOB]
    assert data != whole
    head.lends(data)
    for allowance in (1, ALL):
        assert head.turn(allowance, 12) == (number, ["kept"] * 3)
    head.lends(whole)


def damaged_in_one_word(head, job):
    """Zeros for each word in turn, where there are none. fx and fy are the words at 8 and 16."""
    head.heading("a job at 5 units with edges of -1e6 and 1e6; with zeros for a word of 8 bytes, each in turn; all zeros; all a5")
    damaged(head, job[:EDGES_AT] + doubles(-1e6, -1e6, 1e6, 1e6) + job[REGION_AT:], 13)
    for at in range(0, JOB, 8):
        if any(job[at : at + 8]):
            damaged(head, job[:at] + bytes(8) + job[at + 8 :], {8: 5, 16: 5, SIZE: 6}.get(at, 13))
    damaged(head, bytes(JOB), 5)
    damaged(head, b"\xa5" * JOB, 1)


def damaged_in_the_region(head, job):
    head.heading(f"a job at {B} units with one bit of the region flipped: its left edge is -4 for -2")
    other = poked(job, REGION_AT, -4.0)
    assert struct.unpack_from("<d", job, REGION_AT) == (-2.0,)
    assert bin(int.from_bytes(job, "little") ^ int.from_bytes(other, "little")).count("1") == 1
    damaged(head, other, 13)


def damaged_jobs(head):
    """What is done to a job between two turns. All of it is refused, nothing is written, and the job itself goes on."""
    started(head, CAMERA, W, H)
    done = 0
    for units in (5, B - 1, B, B + 3):
        assert head.turn(units - done, 12, stay=1)[0] == 0
        done = units
        if units == 5:
            damaged_in_one_word(head, head.lent[:JOB])
        if units == B:
            damaged_in_the_region(head, head.lent[:JOB])
        head.heading(f"a job at {units} units with each of its {8 * JOB} bits flipped in turn; then the job itself")
        assert set(head.flips(ALL, 12)) == {1, 4, 6, 7, 13}
        assert head.turn(ALL, 12)[0] == 0


# The rules' table as the release before built it: fourteen samples, each corner twice, of twenty units. Units done, the
# edges, the region.
BEFORE_P11 = (
    (0, (0.0,) * 4, (0.0,) * 4),
    (5, (-0.5, -0.5, 1.5, 1.5), (0.0,) * 4),
    (10, EDGES, (0.0,) * 4),
    (14, EDGES, REGION),
    (17, EDGES, REGION),
    (20, EDGES, REGION),
)


def jobs_of_before(head):
    """Jobs whose sweep was another, and whose check word starts from another text: none is gone on with. With the check
    word of now, those of 0, 5 and 14 units would be taken: their units are some of ours, by number."""
    for done, edges, region in BEFORE_P11:
        head.refill()
        head.heading(f"turn: the rules' table after {done} units of the release before, check word LENSJOB1; then LENSJOB2")
        for strict in (False, True):
            data = record_bytes(record(done=done, edges=edges, region=region, strict=strict))
            head.lends(data[:CHECK] + struct.pack("<Q", check_word(data, b"LENSJOB1")))
            for allowance in (0, 1, ALL, MAX64):
                assert head.turn(allowance, 12) == (13, ["kept"] * 3)
            head.lends(data)
            assert head.turn(1, 12)[0] == (0 if done in (0, 5, 14) else 13)


def wrong_check_words(head):
    """The check word alone: off by one, off by 2^63, as a sum that starts from 0, and that of another job."""
    head.refill()
    head.heading("turn: kb after 9 units with a wrong check word: 1 more, 1 less, 2^63 more, a sum from 0 on, the one of 8 units, zeros")
    good, other = (record_bytes(after_units(CAMERAS[KB], done)) for done in (9, 8))
    right = check_word(good)
    wrong = (right + 1, right - 1, right + 2**63, right - check_word(bytes(CHECK)), check_word(other), 0)
    for word in wrong:
        head.lends(good[:CHECK] + struct.pack("<Q", word % 2**64))
        assert head.turn(1, 12) == (13, ["kept"] * 3)
    head.lends(good)
    assert head.turn(1, 12)[0] == 0
    # what the sum does not show: changes of two words that come to 0
    head.heading("turn: the same with k0 a bit pattern up and k1 one down, with cx and cy exchanged, with both their signs flipped: taken")
    words, sign = struct.unpack(f"<{WORDS + 1}Q", good), 1 << 63
    for i, j, new_i, new_j in (
        (5, 6, words[5] + 1, words[6] - 1),
        (3, 4, words[4], words[3]),
        (3, 4, words[3] ^ sign, words[4] ^ sign),
    ):
        head.lends(struct.pack(f"<{WORDS + 1}Q", *(new_i if k == i else new_j if k == j else z for k, z in enumerate(words))))
        assert head.turn(1, 12)[0] == 0


def likely_tallies(rng):
    """Count, first and mark, most of them such as a build might have."""
    if rng.below(2):
        return 0, 0, rng.below(2)
    return rng.below(4), rng.below(4), rng.below(3)


def random_records(head):
    rng = Splitmix(20)
    head.refill()
    for words, spoil in (("random bytes", 0), ("random bytes after a model", 1), ("random numbers in a likely record", 2)):
        head.heading(f"turn: 100 records of {words}")
        for _ in range(100):
            data = b"".join(struct.pack("<Q", rng.bits(64)) for _ in range(WORDS))
            places = 12
            if spoil:
                data = struct.pack("<2I", rng.below(NO_MODEL), 0) + data[8:]
            if spoil == 2:
                w, h = 2 + rng.below(4), 2 + rng.below(4)
                places = 2 * w * h
                numbers = [(rng.below(4001) - 2000) / 2.0 ** rng.below(12) for _ in range(MOST_PARAMS + 8)]
                size = struct.pack("<2IQ", w, h, rng.below(total(w, h) + 1))
                data = data[:8] + doubles(*numbers[:MOST_PARAMS]) + size + doubles(*numbers[MOST_PARAMS:])
                data += struct.pack("<2IQ", *likely_tallies(rng))
            head.lends(mended(data))
            head.turn(1 + rng.below(60), places)


def hostile_jobs(head):
    head.refill()
    for model, params in CAMERAS:
        head.heading(f"job_new: {NAMES[model]}, parameters of every length from 0 to {MOST_HANDED}; then NaN, infinity, -infinity, -0 in each place")
        head.reads(doubles(*params).ljust(MOST_HANDED, b"\0"))
        for n in range(MOST_HANDED + 1):
            assert head.job_new(model, head.read[:n], 3, 2)[0] == (0 if n == 8 * COUNTS[model] else 3)
        for place, x in itertools.product(range(COUNTS[model]), ODD):
            owed = 4 if not math.isfinite(x) else 5 if place < 2 else 0
            assert head.job_new(model, poked(doubles(*params), 8 * place, x), 3, 2)[0] == owed
    model, params = LAST_CAMERA[0], doubles(*LAST_CAMERA[1])
    head.heading(f"job_new: records of every length from 0 to 300; models 0 to {NO_MODEL + 1} and 255; every width with every height")
    for n in range(301):
        assert head.job_new(model, params, 3, 2, n)[0] == (0 if n == JOB else 7)
    for other in MODELS8:
        assert head.job_new(other, params, 3, 2)[0] == (0 if other == model else 3 if other < NO_MODEL else 1)
    for w, h in itertools.product(SIZES, SIZES):
        assert head.job_new(model, params, w, h)[0] == (0 if 2 <= w <= 4096 and 2 <= h <= 4096 else 6)
    head.heading("job_new: marks 0, 1, 2, 3, 127, 128, 254, 255")
    for mark in (0, 1, 2, 3, 127, 128, 254, 255):
        assert head.job_new(model, params, 3, 2, mark=mark)[0] == (0 if mark < 2 else 13)
    head.heading(f"job_new: every set of: model {NO_MODEL}, a byte of parameters less, cx NaN, fx -0, height 4097, a byte of record more, mark 2")
    for faults in subsets((1, 3, 4, 5, 6, 7, 13)):
        data = poked(params, 16, NAN) if 4 in faults else params
        data = poked(data, 0, -0.0) if 5 in faults else data
        data = data[:-1] if 3 in faults else data
        w, h, mark = 3, 4097 if 6 in faults else 2, 2 if 13 in faults else 0
        number, kept = head.job_new(NO_MODEL if 1 in faults else model, data, w, h, JOB + (7 in faults), mark=mark)
        assert number == min(faults, default=0) and (not faults or kept == ["kept"]), faults


# ---- lists: every byte behind a pixel is ff before a call


def observation(u, v):
    return doubles(u, v) + b"\xff" * 24


PIXELS = (
    (1.0, 0.5),
    (3.0, -2.0),
    (-0.0, 0.0),
    (NAN, 0.5),
    (1.0, INF),
    (-INF, NAN),
    (LARGEST, 0.5),
    (1.0, -LARGEST),
    (30.0, 0.5),
    (1e6, 1e6),
    (LEAST, -LEAST),
    (13.0, 11.0),
)


def hostile_lists(head):
    head.refill()
    full = b"".join(observation(u, v) for u, v in PIXELS)
    for model, params in CAMERAS:
        data = doubles(*params)
        head.heading(f"observe: {NAMES[model]}, 12 records, all ff behind their pixels; a byte less, a byte more, 11 records, none")
        for n in (480, 479, 481, 440, 0):
            assert head.observe(model, data, full, n)[0] == (7 if n % 40 else 0)
        head.heading(f"observe: {NAMES[model]}, records that are all ff; parameters of every length from 0 to {MOST_HANDED}; odd numbers in each place")
        assert head.observe(model, data, b"\xff" * 120)[0] == 0
        head.lends(full)
        head.reads(data.ljust(MOST_HANDED, b"\0"))
        for n in range(MOST_HANDED + 1):
            assert head.observe(model, head.read[:n], full[:40])[0] == (0 if n == 8 * COUNTS[model] else 3)
        for place, x in itertools.product(range(COUNTS[model]), ODD):
            owed = 4 if not math.isfinite(x) else 5 if place < 2 else 0
            assert head.observe(model, poked(data, 8 * place, x), full[:40])[0] == owed
    model, data = CAMERAS[KB][0], doubles(*CAMERAS[KB][1])
    head.heading(f"observe: lists of every length from 0 to 90; models 0 to {NO_MODEL + 1} and 255")
    for n in range(91):
        assert head.observe(model, data, full, n)[0] == (7 if n % 40 else 0)
    for other in MODELS8:
        assert head.observe(other, data, full[:80])[0] == (0 if other == KB else 3 if other < NO_MODEL else 1)
    head.heading("observe: NaN, infinity, -infinity, -0 as each coordinate of the second record")
    for k, x in itertools.product((0, 1), ODD):
        assert head.observe(model, data, full[:40] + poked(observation(2.0, 2.0), 8 * k, x))[0] == 0
    head.heading(f"observe: every set of: model {NO_MODEL}, 63 bytes of parameters, cx NaN, fx -0, 81 bytes of list")
    for faults in subsets((1, 3, 4, 5, 7)):
        own = poked(data, 16, NAN) if 4 in faults else data
        own = poked(own, 0, -0.0) if 5 in faults else own
        own = own[:63] if 3 in faults else own
        number, kept = head.observe(NO_MODEL if 1 in faults else KB, own, full, 81 if 7 in faults else 80)
        assert number == min(faults, default=0) and (not faults or kept == ["kept"]), faults


# ---- lookups in the rules' table


def corners():
    """Each edge and the middle, and the next f64 on both sides of an edge."""
    left, top, right, bottom = BOX
    across = [math.nextafter(left, -INF), left, 0.25, right, math.nextafter(right, INF)]
    down = [math.nextafter(top, -INF), top, 0.5, bottom, math.nextafter(bottom, INF)]
    return itertools.product(across, down)


def hostile_lookups(head):
    head.refill()
    head.cells([struct.unpack("<I", struct.pack("<f", z))[0] for z in LISTED_CELLS])
    box = doubles(*BOX)
    head.heading("lookup: the corners, the middle, and a step beyond each edge; far outside")
    for x, y in [*corners(), (1e300, 0.0), (0.0, -1e300), (LARGEST, -LARGEST), (-0.0, LEAST)]:
        inside = BOX[0] <= x <= BOX[2] and BOX[1] <= y <= BOX[3]
        assert head.lookup(12, box, W, H, x, y)[0] in ((0,) if inside else (0, 9))
    assert head.said["lens_lookup", 9] > 10
    head.heading("lookup: regions of every length from 0 to 40; answers of every length from 0 to 24; tables of every length from 0 to 64")
    for n in range(41):
        assert head.lookup(12, box, W, H, 0.5, 0.5, n)[0] == (0 if n == 32 else 7)
    for n in range(25):
        assert head.lookup(12, box, W, H, 0.5, 0.5, room=n)[0] == (0 if n == 16 else 7)
    for n in range(65):
        assert head.lookup(n, box, W, H, 0.5, 0.5)[0] == (0 if n == 12 else 7)
    head.heading("lookup: NaN, infinity, -infinity, -0 as each edge and as each coordinate; then 20 bytes of a region whose second edge is NaN")
    for at, x in itertools.product(range(0, 32, 8), ODD):
        assert (head.lookup(12, poked(box, at, x), W, H, 0.5, 0.5)[0] == 4) == (not math.isfinite(x))
    for x, y in [*((z, 0.5) for z in ODD), *((0.5, z) for z in ODD)]:
        assert (head.lookup(12, box, W, H, x, y)[0] == 4) == (not (math.isfinite(x) and math.isfinite(y)))
    assert head.lookup(12, poked(box, 8, NAN), W, H, 0.5, 0.5, 20)[0] == 4
    head.heading("lookup: every width with every height")
    for w, h in itertools.product(SIZES, SIZES):
        places = 2 * w * h if 2 * w * h <= NUMBERS else NUMBERS
        assert head.lookup(places, box, w, h, 0.5, 0.5)[0] == (6 if not (2 <= w <= 4096 and 2 <= h <= 4096) else 0 if w * h <= 32 else 7)
    head.heading("lookup: boxes without extent, turned about, or too wide")
    for edges, number in (
        ((4.0, -1.5, 4.0, 2.5), 8),
        ((0.0, -1.5, -0.0, 2.5), 8),
        ((4.0, -1.5, -2.0, 2.5), 8),
        ((-2.0, 2.5, 4.0, -1.5), 8),
        ((-LARGEST, -1.5, LARGEST, 2.5), 11),
        ((-2.0, -LARGEST, 4.0, LARGEST), 11),
        ((4.0, -LARGEST, 4.0, LARGEST), 8),
        ((0.0, 0.0, 0.0, 0.0), 8),
    ):
        assert head.lookup(12, doubles(*edges), W, H, 0.5, 0.5)[0] == number
    head.heading("lookup: every set of: x NaN, height 4097, 11 numbers, a box without extent, a point outside, 17 bytes of answer, 31 of region")
    for faults in subsets((4, 6, 7, 8, 9, "answer", "region")):
        edges = doubles(*((4.0, *BOX[1:]) if 8 in faults else BOX))
        x = NAN if 4 in faults else 9.0 if 9 in faults else 0.5
        places = 11 if 7 in faults else 12
        h = 4097 if 6 in faults else H
        number, kept = head.lookup(places, edges, W, h, x, 0.5, 31 if "region" in faults else 32, 17 if "answer" in faults else 16)
        owed = min([f if isinstance(f, int) else 7 for f in faults], default=0)
        assert number == owed and (not owed or kept == ["kept"]), faults
    head.heading("lookup: cells that are NaN or infinite")
    for z in (0x7FC00000, 0x7F800000, 0xFF800000):
        head.cells([z])
        for x, y in ((-2.0, -1.5), (4.0, 2.5)):
            head.lookup(12, box, W, H, x, y)
    assert head.said["lens_lookup", 11] >= 5


# ---- each model in turns of different sizes


def builds(head):
    for camera in CAMERAS:
        head.heading(f"{NAMES[camera[0]]}, 5 by 4: all at once, unit by unit, in turns of 9, of 0 3 20 1")
        first = in_turns(head, camera, 5, 4, [MAX64])
        for allowances in ([1], [9], [0, 3, 20, 1]):
            assert in_turns(head, camera, 5, 4, allowances) == first
    for w, h in ((2, 2), (2, 7), (7, 2)):
        head.heading(f"each model, {w} by {h}: all at once, unit by unit, in turns of {border(w, h)}, which do the border first")
        for camera in CAMERAS:
            first = in_turns(head, camera, w, h, [MAX64])
            for allowances in ([1], [border(w, h)]):
                assert in_turns(head, camera, w, h, allowances) == first


def without_a_prism(head):
    """Zeros for bc12's prism: the job is bc's but for the model, the zeros and the check word, and the table is bc's."""
    zeros = (0.0, -0.0, -0.0, 0.0)
    for model, w, h, params in [(BC, 5, 4, CAMERAS[BC][1]), *(case for case in NO_PRISM if case[1:3] == (3, 2))]:
        head.heading(f"bc and bc12 without a prism, {w} by {h}: at once; bc12 in turns of 9")
        job, table = in_turns(head, (model, tuple(params)), w, h, [MAX64])
        for allowances in ([MAX64], [9]):
            other, cells = in_turns(head, (BC12, (*params, *zeros)), w, h, allowances)
            assert cells == table and replace(record_of(other), camera=()) == replace(record_of(job), camera=())


# ---- bc's short engine


def by_the_full_engine(job):
    """The record as a release had it that had no short engine: the same but for signs of zeros among the edges."""
    edges = ZEROS
    for n, pixel in enumerate(samples(job.width, job.height)[: job.done]):
        x, y = answer(job.camera[0], UNDISTORT, job.camera[1], *pixel)[1][:2]
        edges = (x, y, x, y) if n == 0 else extended(edges, x, y)
    assert edges == job.edges
    return replace(job, edges=edges)


def zeros_as_edges(head):
    """Each record of a build by the short engine whose edges have other zeros than the full engine's; and such a build that the
    full engine began: the table is the same."""
    for _, w, h, params in SIGNED_EDGES:
        camera = BC, tuple(params)
        assert distort_table(camera, w, h)[0] == 0
        head.heading(f"bc, k4 to k6 zeros, {w} by {h}: unit by unit; then begun by the full engine, at each unit of the border")
        lent, table = in_turns(head, camera, w, h, [1])
        others = 0
        for done in range(border(w, h)):
            mine = after_units(camera, done, w, h)
            other = by_the_full_engine(mine)
            others += record_bytes(other) != record_bytes(mine)
            head.refill()
            head.lends(record_bytes(other))
            assert head.turn(MAX64, 2 * w * h, stay=1)[0] == 0 and head.table == table
            # all of the record but its edges and its check word
            assert head.lent[:EDGES_AT] == lent[:EDGES_AT] and head.lent[REGION_AT:CHECK] == lent[REGION_AT:CHECK]
        assert others


# ---- samples that don't settle, and strict jobs


def said_by(words):
    """Status, units done, units, updates, count and first of the answer's spelling."""
    return struct.unpack("<6Q", bytes.fromhex(words))


def unsettled_builds(head):
    """The cameras of make_table_vectors: turns that stop before, at and behind the first sample that doesn't settle, then
    to the end; in one turn; and strict, which stops there for good."""
    for pixels, (model, w, h, params) in UNSETTLED:
        first, count = first_unsettled(pixels, (model, w, h, params)), sum(p in pixels for p in samples(w, h))
        where = "all" if len(pixels) > 2 else " and ".join(f"({u}, {v})" for u, v in sorted(pixels))
        sizes = f"{NAMES[model]}, {w} by {h}"
        head.heading(f"{sizes}, unsettled at {where}: turns to before, to, behind; at once; strict in both ways")
        camera, places = (model, tuple(params)), 2 * w * h
        started(head, camera, w, h)
        for allowance, owed in ((first - 1, (0, 0)), (1, (1, first)), (1, None)):
            number, kept = head.turn(allowance, places, stay=1)
            told = said_by(kept[2])
            assert number == 0 and (owed is None or told[4:] == owed) and told[5] in (0, first), (params, told)
        number, kept = head.turn(ALL, places, stay=1)
        assert number == 0 and said_by(kept[2])[::5] == (1, first) and said_by(kept[2])[4] == count
        in_small = head.lent[:JOB], head.table[:places]
        started(head, camera, w, h)
        assert head.turn(ALL, places, stay=1)[0] == 0 and (head.lent[:JOB], head.table[:places]) == in_small
        for allowances in ((ALL,), (first - 1, 1, 2)):
            started(head, camera, w, h, 1)
            for allowance in allowances:
                number, kept = head.turn(allowance, places, stay=1)
            said = said_by(kept[2])
            assert number == 18 and kept[1] == "kept" and said[:2] == (2, first - 1) and said[4:] == (0, 0)
            again = head.turn(0, places), head.turn(1, places), head.turn(ALL, places)
            assert [n for n, _ in again] == [0, 18, 18] and record_of(head.lent).strict


def beside_18(head):
    """A sample's own refusal comes before 18; 18 before the region's 8 and 11; and a refused sample isn't counted."""
    for number, unit, (model, w, h, params) in OWN_REFUSALS:
        head.heading(f"{NAMES[model]}, {w} by {h}, strict: sample {unit} has no point, so {number} and not 18")
        started(head, (model, tuple(params)), w, h, 1)
        told, kept = head.turn(ALL, 2 * w * h)
        assert told == number and said_by(kept[2])[1] == unit - 1
    for number, unit, first, (model, w, h, params) in UNSETTLED_THEN_REFUSED:
        words = f"sample {first} doesn't settle, sample {unit} is refused {number}; then strict"
        head.heading(f"{NAMES[model]}, {w} by {h}: {words}")
        for mark, owed in ((0, (number, unit - 1, 1, first)), (1, (18, first - 1, 0, 0))):
            started(head, (model, tuple(params)), w, h, mark)
            told, kept = head.turn(ALL, 2 * w * h)
            said = said_by(kept[2])
            assert (told, said[1], said[4], said[5]) == owed
    for model, w, h, params in FLAT_UNSETTLED_LAST:
        words = f"sample {border(w, h)}, the last, is the first that doesn't settle, and the increment across is 0; then strict"
        head.heading(f"{NAMES[model]}, {w} by {h}: {words}")
        for mark, owed in ((0, 8), (1, 18)):
            for allowances in ((ALL,), (1,) * border(w, h)):
                started(head, (model, tuple(params)), w, h, mark)
                for allowance in allowances:
                    told, kept = head.turn(allowance, 2 * w * h, stay=1)
                said = said_by(kept[2])
                assert (told, said[0], said[1], *said[4:]) == (owed, 2, border(w, h) - 1, 0, 0)
    for model in SEARCHING:
        before_the_region(head, *unsettled_last(model))


def before_the_region(head, model, w, h, params):
    """The last sample with edges of no build: 18 is told before what the region would be refused with."""
    words = "with edges that give a region of 8, of 11, and a sound one; then strict"
    head.heading(f"{NAMES[model]} before the last sample, which doesn't settle: {words}")
    head.refill()
    for edges, number in (((9.0, 9.0, -9.0, -9.0), 8), ((-1e308, -1.0, 1e308, 1.0), 11), ((-1.0, -1.0, 1.0, 1.0), 0)):
        job = record((model, tuple(params)), border(w, h) - 1, 0, edges, (0.0,) * 4, w, h)
        for strict in (False, True):
            head.lends(record_bytes(replace(job, strict=strict)))
            told, kept = head.turn(1, 2 * w * h)
            assert told == (18 if strict else number)
            done = (border(w, h), 1, border(w, h)) if told == 0 else (border(w, h) - 1, 0, 0)
            assert (said_by(kept[2])[1], *said_by(kept[2])[4:]) == done


def damaged_tallies(head):
    """Each bit of a job whose count and first aren't 0, and of a strict one: bits of both, and of the mark."""
    for words, place, mark in (("kb, sample 1 not settled", 0, 0), ("bc, strict, settled up to here", 12, 1)):
        _, (model, w, h, params) = UNSETTLED[place]
        started(head, (model, tuple(params)), w, h, mark)
        assert head.turn(6, 2 * w * h, stay=1)[0] == 0
        job = record_of(head.lent)
        assert (job.unsettled, job.first, job.strict) == ((0, 0, True) if mark else (1, 1, False))
        head.heading(f"{words}: a job at 6 units with each of its {8 * JOB} bits flipped in turn; then the job itself")
        assert 13 in head.flips(ALL, 2 * w * h)[8 * TALLIES :]
        assert head.turn(1, 2 * w * h)[0] == 0


def marks(head):
    """The strict mark in a record: 0 and 1 are taken and stay as they are, all others are refused."""
    for words, job in (
        ("affine, fresh", record(done=0, edges=(0.0,) * 4, region=(0.0,) * 4)),
        ("kb after 5 units", after_units(CAMERAS[KB], 5)),
        ("bc after its last unit", after_units(CAMERAS[BC], T)),
        ("bc12 after 9 units", after_units(CAMERAS[BC12], 9)),
    ):
        head.refill()
        head.heading(f"turn: {words}, with the marks 0, 1, 2, 3, 255, 256, 2^32, 2^32 + 1, 2^56, 2^63, 2^64 - 1")
        for mark in (0, 1, 2, 3, 255, 256, 2**32, 2**32 + 1, 2**56, 2**63, MAX64):
            head.lends(mended(marked(record_bytes(job), mark)))
            number, kept = head.turn(1, 12)
            assert number == (0 if mark < 2 else 13) and (mark < 2 or kept == ["kept"] * 3), mark
            if mark < 2 and kept[0] != "kept":
                assert bytes.fromhex(kept[0])[MARK:CHECK] == struct.pack("<Q", mark)
    head.heading("strict jobs that settle, 5 by 4: unit by unit and at once, as the others but for the mark and the check word")
    for camera in CAMERAS:
        lent, table = in_turns(head, camera, 5, 4, [MAX64])
        for allowances in ([1], [MAX64]):
            other, cells = in_turns(head, camera, 5, 4, allowances, 1)
            assert cells == table and other[:MARK] == lent[:MARK] and other[:JOB] == mended(marked(lent[:JOB], 1))


# ---- cells of sixteen bits: the same jobs by lens_turn16

EDGE, BELOW = 1023.984375, -1024.015625  # the first number of pixels out above, and the last one in below

# What is refused before the cells is refused as ever; then the two jobs whose pixels are too large for a float are too
# far.
JOBS16 = [
    *(job for job in JOBS if job[5] != 12),
    ("eucm 1e39 1 1e39 0.5 0.5 1, 3 by 2: the pixel of cell (0, 0) is too far, and fits a float",
     EUCM, (1e39, 1.0, 1e39, 0.5, *HALF_EUCM), 3, 2, 19, B + 1),
    ("bc 1 1 -1 -1 1e55 0 0 0 0 0 0 0, 3 by 3: the pixel of cell (0, 0) is too far, and fits a float",
     BC, (1.0, 1.0, -1.0, -1.0, 1e55, *[0.0] * 7), 3, 3, 19, border(3, 3) + 1),
    ("bc12 1 1 -1 -1 1e55 and zeros, 3 by 3: the pixel of cell (0, 0) is too far, and fits a float",
     BC12, (1.0, 1.0, -1.0, -1.0, 1e55, *[0.0] * 11), 3, 3, 19, border(3, 3) + 1),
    *((f"eucm with an s of {s!r}, {shape(s)[1]} by {shape(s)[2]}: {words} is the first s whose cell is too far",
       EUCM, tuple(shape(s)[3]), *shape(s)[1:3], 19, unit)
      for unit, words, shape in SHAPES for s in about_the_edge(shape)[1:]),
]  # fmt: skip


def rules_table_16(head):
    head.heading("turn16. the rules' table, affine 1 1 0 0, 3 by 2, unit by unit, in turns of 7, 100, 0 1 7 100, as many as can be said")
    lent, table = in_turns(head, CAMERA, W, H, [1], kind=I16)
    # -2, 1 and 4 across, -1.5 and 2.5 down, in thirty-seconds
    assert table[: 2 * W * H] == [z for v in (-48, 80) for u in (-64, 32, 128) for z in (u, v)]
    for allowances in ([7], [ALL], [0, 1, 7, ALL], [MAX64]):
        assert in_turns(head, CAMERA, W, H, allowances, kind=I16) == (lent, table)
        for allowance in (0, ALL):
            assert head.turn(allowance, 12, kind=I16)[1][:2] == ["kept", "kept"]
    assert in_turns(head, CAMERA, W, H, [1])[0] == lent
    for camera in CAMERAS:
        head.heading(f"turn16. {NAMES[camera[0]]}, 5 by 4: all at once, unit by unit, in turns of 9, of 0 3 20 1; 2 by 2 and 7 by 2 in both")
        first = in_turns(head, camera, 5, 4, [MAX64], kind=I16)
        for allowances in ([1], [9], [0, 3, 20, 1]):
            assert in_turns(head, camera, 5, 4, allowances, kind=I16) == first
        for w, h in ((2, 2), (7, 2)):
            first = in_turns(head, camera, w, h, [MAX64], kind=I16)
            assert in_turns(head, camera, w, h, [1], kind=I16) == first


def both_calls(head):
    """A record doesn't say of which kind its table is: cells of either go into their own table."""
    head.heading(f"turn and turn16 on one job, in turns of 1 from {B} units on, by turns; each table has the cells of its own calls")
    started(head, CAMERAS[BC], W, H)
    head.turn(B, 12, stay=1)
    for i in range(W * H):
        assert head.turn(1, 12, stay=1, kind=(F32, I16)[i % 2])[0] == 0
    for kind, before, odd in ((F32, BEFORE, 1), (I16, BEFORE16, 0)):
        places = head.tables[kind][:12]
        assert [places[2 * i : 2 * i + 2] == [before] * 2 for i in range(W * H)] == [i % 2 == odd for i in range(W * H)]


def spots():
    """Numbers of pixels that are the first cell's: both edges and the numbers beside them, ties that go down and up,
    zeros, the smallest numbers, and some that are far."""
    for z in (EDGE, BELOW, 1023.96875, -1024.0, 1024.0, -1024.03125):
        yield from (math.nextafter(z, -INF), z, math.nextafter(z, INF))
    for n in (1, 3, 5, 7, 65533):
        for z in (n / 64, -n / 64):
            yield from (math.nextafter(z, -INF), z, math.nextafter(z, INF))
    yield from (0.0, -0.0, LEAST, -LEAST, 2.0**-1022, -(2.0**-1022), 1 / 32, -1 / 32, 319.99)
    for z in (*(2.0**e for e in (11, 15, 16, 26, 27, 31, 32, 47, 52, 58, 63)), 1e39, 1e300):
        yield from (z, -z)


def at_the_edge_16(head):
    """Jobs whose border is done, of affine 1 1 0 0 with a region that begins at a pixel of our choice: that is the pixel of
    cell (0, 0). u alone, v alone; and 19 only where it isn't 11."""
    head.refill()
    head.heading("turn16. affine 1 1 0 0, 3 by 2, the border done; a region's left edge is each of some numbers, then its top")
    met = Counter()
    for z, across in itertools.product(spots(), (True, False)):
        far = z + 1.0 if abs(z) < 2.0**40 else z + abs(z)
        region = (z, -1.5, far, 2.5) if across else (-2.0, z, 4.0, far)
        head.lends(record_bytes(record(done=B, region=region)))
        number, kept = head.turn(1, 12, kind=I16)
        owed = thirty_seconds(z)
        assert number == (19 if owed is None else 0) and (owed is not None) == (BELOW <= z < EDGE), z
        other = -48 if across else -64
        pair = (owed, other) if across else (other, owed)
        assert kept[1] == "kept" if owed is None else kept[1].startswith(spelled_cells(pair, I16)), z
        met[number] += 1
    assert met[0] > 50 and met[19] > 50
    head.heading("turn16. the same with eucm 2 2 0 0 0.4 -0.5, whose pixel there is NaN: 11, and 19 next to it")
    for x, number in ((4.0, 11), (1e6, 19)):
        camera = (EUCM, (2.0, 2.0, 0.0, 0.0, 0.4, -0.5)) if number == 11 else CAMERA
        head.lends(record_bytes(record(camera, B, region=(x, -1.5, x + 6.0, 2.5))))
        assert head.turn(1, 12, kind=I16)[0] == number


def hostile_turns_16(head):
    head.refill()
    good = record_bytes(after_units(CAMERAS[KB], B + 2))
    head.lends(good)
    head.heading("turn16: records of some lengths; answers of every length from 0 to 64; tables of every length from 0 to 64")
    for n in (0, 1, 8, 136, 192, 208, 224, JOB - 1, JOB, JOB + 1, 300, 2 * JOB, 512):
        assert head.turn(1, 12, n, kind=I16)[0] == (0 if n == JOB else 7)
    for n in range(65):
        assert head.turn(1, 12, room=n, kind=I16)[0] == (0 if n == ANSWER else 7)
    for n in range(65):
        assert head.turn(1, n, kind=I16)[0] == (0 if n == 12 else 7)
    head.heading(f"turn16: a job at {B + 2} units with each of its {8 * JOB} bits flipped in turn; then the job itself")
    assert set(head.flips(ALL, 12, I16)) == {1, 4, 6, 7, 13}
    assert head.turn(ALL, 12, kind=I16)[0] == 0
    several_faults_of_a_turn(head, (1, 4, 5, 6, 7, 13, "check", "answer"), I16)


def strict_16(head):
    for place in (0, 6, 13, 15, 19):
        pixels, (model, w, h, params) = UNSETTLED[place]
        first = first_unsettled(pixels, (model, w, h, params))
        head.heading(f"turn16. {NAMES[model]}, {w} by {h}, sample {first} is the first that doesn't settle: at once; strict")
        started(head, (model, tuple(params)), w, h)
        number, kept = head.turn(ALL, 2 * w * h, kind=I16)
        assert number == 0 and said_by(kept[2])[5] == first
        started(head, (model, tuple(params)), w, h, 1)
        number, kept = head.turn(ALL, 2 * w * h, stay=1, kind=I16)
        assert number == 18 and said_by(kept[2])[:2] == (2, first - 1)
        assert head.turn(1, 2 * w * h, kind=I16)[0] == 18


def of_sixteen_bits(head):
    rules_table_16(head)
    both_calls(head)
    refused_at_a_unit(head, JOBS16, I16)
    beside_a_refusal(head, I16)
    at_the_edge_16(head)
    strict_16(head)
    hostile_turns_16(head)


def no_calls(head):
    head.heading("lines that are no calls: an unknown function, an upper-case digit, a space for a tab, a line cut off")
    head.line(11)
    head.owed.append("bad\n")
    text = "\t".join(["000000000000000a", *["0" * 16] * 11]) + "\n"
    head.bad(text.replace("a", "A"))
    head.bad(text.replace("\t", " ", 1))
    head.bad(text[:100])


def written():
    head = Head()
    for part in (
        rules_table,
        by_hand,
        refused_at_a_unit,
        beside_a_refusal,
        fresh_records,
        builds,
        without_a_prism,
        zeros_as_edges,
        unsettled_builds,
        beside_18,
        damaged_tallies,
        marks,
        hostile_turns,
        impossible_records,
        several_faults_of_a_turn,
        damaged_jobs,
        jobs_of_before,
        wrong_check_words,
        random_records,
        hostile_jobs,
        hostile_lists,
        hostile_lookups,
        of_sixteen_bits,
        no_calls,
    ):
        part(head)
    head.owed.append(f"lines\t{len(head.asked)}\n")
    return head


def cover(said):
    """Says on stderr what the calls cover. It asserts what may not be missing."""
    for key, count in sorted(said.items()):
        print(f"{count:6} ", *key, file=sys.stderr)
    for name, numbers in (
        ("lens_job_new", {0, 1, 3, 4, 5, 6, 7, 13}),
        ("lens_turn", {0, 1, 4, 5, 6, 7, 8, 10, 11, 12, 13, 16, 18}),
        ("lens_turn16", {0, 1, 4, 5, 6, 7, 8, 10, 11, 13, 16, 18, 19}),
        ("lens_observe", {0, 1, 3, 4, 5, 7}),
        ("lens_lookup", {0, 4, 6, 7, 8, 9, 11}),
    ):
        assert {n for what, n in said if what == name} == numbers, name


def self_test():
    """By hand: a record's bytes there and back, and an affine lens in each function."""
    boxes = (1.0, 2.0, 3.0, 4.0), (5.0, 6.0, 7.0, 8.0)
    job = Job((EUCM, (1.0, 2.0, 3.0, 4.0, 0.5, 1.0)), 3, 2, 5, *boxes, 0, 258, 3, True)
    data = record_bytes(job)
    assert len(data) == JOB == 240 and record_of(data) == job and data[56:136] == bytes(80)
    assert data[216:232] == bytes([2, 1, 0, 0, 3, 0, 0, 0, 1, 0, 0, 0, 0, 0, 0, 0]) and len(data[232:]) == 8
    assert data[:8] == b"\1" + bytes(7) and data[136:152] == bytes([3, 0, 0, 0, 2, 0, 0, 0, 5, 0, 0, 0, 0, 0, 0, 0])
    full = replace(job, camera=(BC12, tuple(float(n) for n in range(1, 17))))
    assert record_of(record_bytes(full)) == full and record_bytes(full)[128:136] == doubles(16.0)
    old = of_twelve(job)
    assert len(old) == 208 and old[104:112] == bytes([3, 0, 0, 0, 2, 0, 0, 0])
    assert summed(b"LENSJOB2", struct.unpack("<25Q", old[:200])) == struct.unpack("<Q", old[200:])[0]
    assert camera_of(BC12, doubles(*[1.0] * 12))[0] == camera_of(BC, doubles(*[1.0] * 16))[0] == 3
    lens = doubles(2.0, 4.0, 1.0, 0.0)
    assert observe_owed(AFFINE, lens, observation(3.0, 8.0)) == (0, doubles(3.0, 8.0, 1.0, 2.0) + b"\1\0" + b"\xff" * 6)
    assert observe_owed(AFFINE, lens, observation(NAN, 8.0))[1][16:34] == bytes(17) + b"\4"
    assert observe_owed(NO_MODEL, b"", b"1") == (1, b"1") and observe_owed(AFFINE, lens, b"1") == (7, b"1")
    number, made = job_new_owed(AFFINE, lens, 3, 2, 0, bytes(JOB))
    body = bytes(8) + lens + bytes(96) + bytes([3, 0, 0, 0, 2, 0, 0, 0]) + bytes(88)
    # 2 is 4000000000000000, 4 is 4010000000000000, 1 is 3ff0000000000000; the size is 200000003
    check = 0x32424F4A534E454C + 0x4000000000000000 + 0x4010000000000000 + 0x3FF0000000000000 + 0x200000003
    assert number == 0 and made == body + check.to_bytes(8, "little")
    number, strict = job_new_owed(AFFINE, lens, 3, 2, 1, bytes(JOB))
    assert number == 0 and strict == body[:224] + b"\1" + bytes(7) + (check + 1).to_bytes(8, "little")
    assert job_new_owed(AFFINE, lens, 3, 2, 2, b"1" * JOB) == (13, b"1" * JOB)
    assert job_new_owed(AFFINE, lens, 3, 2, 2, b"")[0] == 7
    assert check_word(bytes(232)) == 0x32424F4A534E454C and check_word(b"\xff" * 232) == 0x32424F4A534E454C - 29
    number, after, cells, said = turn_owed(made, [BEFORE] * 12, 1, bytes(ANSWER))
    assert (number, cells, said) == (0, [BEFORE] * 12, struct.pack("<6Q", 0, 1, T, 0, 0, 0))
    assert after[152:184] == doubles(-0.75, -0.125, -0.75, -0.125) and after[184:232] == bytes(48)
    assert turn_owed(made, [BEFORE] * 11, 1, b"")[0] == 7 and turn_owed(made[1:], [], 1, b"")[0] == 7
    # in sixteen bits the first of 16 units is the same, and the eleventh puts -2 and -1.5 as -64 and -48
    assert turn_owed(made, [7] * 12, 1, bytes(ANSWER), I16) == (0, after, [7] * 12, said)
    assert turn_owed(made, [7] * 12, 11, bytes(ANSWER), I16)[2] == [-64, -48, *[7] * 10]
    cells = [struct.unpack("<I", struct.pack("<f", z))[0] for z in LISTED_CELLS]
    assert lookup_owed(cells, doubles(*BOX), 3, 2, 0.25, 0.5, bytes(16)) == (0, doubles(0.25, 0.5))
    print("bytes and calls by hand: as said")


def main():
    head = written()
    cover(head.said)
    (FOLDER / "stdin").write_text("".join(head.asked))
    (FOLDER / "stdout").write_text("".join(head.owed))
    print(f"{len(head.asked)} lines, {sum(head.said.values())} calls", file=sys.stderr)


if __name__ == "__main__":
    if sys.argv[1:] == ["--self-test"]:
        self_test()
    else:
        main()
