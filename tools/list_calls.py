"""The lists' part of test_camera_calls: 0, 1 and 100 observations handed to the list call, by a camera of each model that
is taken, and by three that are refused. Each record meets every fate there is: an answer, 4, 10, 16 or 11.

    python3 tools/list_calls.py   tests this script

Each record is answered by tools/lens_models.py, from the text of the Rust. What a list call makes of the answers is as
docs/RULES.md has it. No code of the crates takes part.
"""
import math
import struct
import sys
from collections import Counter
from typing import NamedTuple

from camera_lines import FILL, LENT, OBSERVE, PUT, heading, packed, question, reply
from lens_models import AFFINE, BC, BC12, COUNTS, EUCM, KB, MODELS, MOST_PARAMS, TABLE, UNDISTORT, answer, bits

MOST = 100
NAN, INF, LARGEST = math.nan, math.inf, sys.float_info.max


class Record(NamedTuple):
    pixel: tuple
    answer: tuple
    flag: bool
    number: int

    def bytes(self):
        """The 40 of C's; the last six nobody reads or writes."""
        return packed(*self.pixel, *self.answer) + bytes([self.flag, self.number]) + bytes([FILL] * 6)


# ---- the records: the pixels of a 10 by 10 grid, row by row, but for five

ODD = {37: (NAN, None), 58: (None, INF), 59: (-INF, None), 73: (LARGEST, None), 74: (None, -LARGEST)}


def record_at(place):
    u, v = ODD.get(place, (None, None))
    pixel = (64.0 * (place % 10) if u is None else u, 48.0 * (place // 10) if v is None else v)
    return Record(pixel, (float(place), -7.0), True, 99)


RECORDS = [record_at(place) for place in range(MOST)]


# ---- the list call


def refusal_of(params):
    """The camera by itself: 4, then 5."""
    if not all(math.isfinite(z) for z in params):
        return 4
    return 5 if params[0] == 0 or params[1] == 0 else 0


def observed(model, params, record):
    number, given = answer(model, UNDISTORT, params, *record.pixel)
    if number:
        return Record(record.pixel, (0.0, 0.0), False, number)
    return Record(record.pixel, given[:2], given[3], 0)


def observe_all(model, params, records):
    """The number returned, and the list after the call."""
    number = refusal_of(params)
    return number, records if number else [observed(model, params, record) for record in records]


# ---- the cameras: fy and the last parameter are what a line may spoil

TAKEN = {
    AFFINE: [0.5, 0.5, 288.0, 216.0],
    EUCM: [120.0, 120.0, 288.0, 216.0, 0.625, 1.125],
    KB: [200.0, 200.0, 288.0, 216.0, 2.0**-4, -(2.0**-5), 2.0**-6, -(2.0**-8)],
    BC: [250.0, 250.0, 288.0, 216.0, -0.25, 2.0**-4, 2.0**-9, -(2.0**-10), 2.0**-5, 2.0**-6, -(2.0**-7), 2.0**-10],
}
TAKEN[BC12] = TAKEN[BC] + [2.0**-8, -(2.0**-9), -(2.0**-7), 2.0**-10]
LAST = [model.params.split()[-1] for model in TABLE]


def cameras():
    """Words for each camera, and its parameters."""
    for model, name in enumerate(MODELS):
        good = TAKEN[model]
        zero = 0.0 if model in (AFFINE, KB) else -0.0
        fy = f"fy {zero:g}"
        infinite = math.copysign(INF, 1.0 if model in (AFFINE, KB) else -1.0)
        flat = [good[0], zero] + good[2:]
        yield model, f"{name}, taken", good
        yield model, f"{name}, {LAST[model]} NaN", good[:-1] + [NAN]
        yield model, f"{name}, {fy}", flat
        yield model, f"{name}, {fy}, {LAST[model]} infinite", flat[:-1] + [infinite]


# ---- the lines. A call has the place of its first record, and how many

ONE_OF_EACH = [(0, 0), (44, 1), (0, 1), (37, 1), (73, 1), (0, MOST)]
NONE = [(0, 0), (44, 1), (0, MOST)]


def put_lines():
    """The records, as many words a line as it has room for. What the last line has too many of finds no room."""
    data = b"".join(record.bytes() for record in RECORDS)
    assert len(data) == LENT
    step = 8 * MOST_PARAMS
    for at in range(0, LENT, step):
        words = [word for (word,) in struct.iter_unpack("<Q", data[at : at + step])]
        yield question(0, PUT, 0, 0, words, at, 0)


def call_lines(model, params, first, n):
    """The line of a call, the line that is owed on it, and the list after it."""
    number, after = observe_all(model, params, RECORDS[first : first + n])
    asked = question(model, OBSERVE, 8 * COUNTS[model], 40 * n, [bits(z) for z in params], 40 * first, 0)
    return asked, reply(number, b"".join(record.bytes() for record in after)), number, after


def made():
    """The lines, and what is owed on them."""
    asked, owed, said = list(put_lines()), [], Counter()
    for model, words, params in cameras():
        asked.append(heading(f"lists: {words}"))
        owed.append(heading(f"lists: {words}"))
        for first, n in ONE_OF_EACH if words.endswith("taken") else NONE:
            line, answered, number, after = call_lines(model, params, first, n)
            asked.append(line)
            owed.append(answered)
            said[MODELS[model], "returned", number] += 1
            if number == 0:
                said.update((MODELS[model], n, record.number, record.flag) for record in after)
    cover(said)
    return asked, owed, said


def cover(said):
    """Asserts what may not be missing."""
    for model, name in enumerate(MODELS):
        assert all(said[name, "returned", number] for number in (0, 4, 5))
        for n in (1, MOST):
            assert said[name, n, 0, True] and said[name, n, 4, False] and said[name, n, 11, False]
            assert bool(said[name, n, 10, False]) == (model == KB)
    assert said["bc", MOST, 0, False] and said["bc12", MOST, 0, False] and said["eucm", MOST, 11, False] > 2 and said["eucm", MOST, 16, False]


# ---- the self-test


def self_test():
    """A list by hand: affine 2 4 1 0, a pixel that is answered, and one of each refusal that affine has."""
    old = ((5.0, 6.0), True, 99)
    asked = [Record((3.0, 8.0), *old), Record((NAN, 8.0), *old), Record((3.0, INF), *old)]
    number, after = observe_all(AFFINE, [2.0, 4.0, 1.0, 0.0], asked)
    assert number == 0 and after[0] == Record((3.0, 8.0), (1.0, 2.0), True, 0)
    assert after[0].bytes() == struct.pack("<4d", 3, 8, 1, 2) + bytes([1, 0]) + b"\xa5" * 6
    assert all((r.answer, r.flag, r.number) == ((0.0, 0.0), False, 4) for r in after[1:])
    assert all(a.bytes()[:16] == b.bytes()[:16] for a, b in zip(after, asked, strict=True))
    far = observe_all(AFFINE, [0.5, 1.0, 0.0, 0.0], [Record((LARGEST, 0.0), *old)])
    assert far == (0, [Record((LARGEST, 0.0), (0.0, 0.0), False, 11)])
    for params, number in (([-0.0, 1.0, 0.0, 0.0], 5), ([0.0, 1.0, 0.0, INF], 4)):
        assert observe_all(AFFINE, params, asked) == (number, asked)
    assert observe_all(AFFINE, TAKEN[AFFINE], []) == (0, [])
    print("a list by hand: as said")


if __name__ == "__main__":
    self_test()
