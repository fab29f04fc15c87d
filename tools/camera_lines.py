"""The lines of test_camera_calls, and what the functions that C calls owe on them.

crates/test_camera_calls/src/main.rt tells the form of a line. The numbers are those of tools/lens_models.py, from the
text of the Rust, and the bytes those of Python's struct. What is refused, and with which number, is as docs/RULES.md
has it. No code of the crates takes part.
"""
import math
import struct

from lens_models import COUNTS, DISTORT, ENTRIES, MOST_PARAMS, NO_MODEL, UNDISTORT, answer, tangent

FIELDS = 4 + MOST_PARAMS + 2
LINE = 17 * FIELDS
HANDED, LENT = 304, 4000  # the most bytes
ROW = range(301)  # the n of a row
FILL = 0xA5
ROOT, TANGENT, OBSERVE, PUT, ARCTANGENT = range(4, 9)  # after the four operations
BY_LENT, BY_HANDED, BY_BOTH, BY_MODEL = 16, 32, 48, 64  # added for a row
SIZES = (16, 24, 8 * ENTRIES + 8, 8 * ENTRIES + 8)  # of the operations' answers


def heading(words):
    """A line that is written as it is."""
    line = f"# {words} ".ljust(LINE - 1, "-")
    assert len(line) == LINE - 1 and line.isascii(), words
    return line


def question(model, done, handed, lent, words, x, y):
    """A line. Its numbers are bit patterns here: a NaN would not keep its pattern in a float. Where there are fewer
    words than a model has at most, bytes a5 fill the line."""
    words = [*words, *[int.from_bytes([FILL] * 8, "little")] * (MOST_PARAMS - len(words))]
    line = "\t".join(f"{n:016x}" for n in (model, done, handed, lent, *words, x, y))
    assert len(line) == LINE - 1
    return line


def operation_question(model, operation, words, x, y):
    """The line of an operation with which both lengths are right."""
    return question(model, operation, 8 * COUNTS[model], SIZES[operation], words, x, y)


def reply(number, out):
    """The line of an answer: its bytes eight at a time, the least first."""
    if number:
        return str(number)
    assert len(out) % 8 == 0
    words = (int.from_bytes(out[i : i + 8], "little") for i in range(0, len(out), 8))
    return "\t".join([str(number), *(f"{word:016x}" for word in words)])


def row(one):
    """The lines of a row: one call of n after the other, said where something is to be said."""
    lines, last = [], None
    for n in ROW:
        number, out = one(n)
        if number == 0 or number != last:
            lines.append(f"{n}\t{reply(number, out)}")
        last = number
    return lines


# ---- what is owed on a call: the number returned, and the answer's bytes if it is 0


def packed(*numbers):
    """Eight bytes each, least first; a NaN as 7ff8000000000000."""
    return b"".join(struct.pack("<Q", 0x7FF8000000000000) if math.isnan(x) else struct.pack("<d", x) for x in numbers)


def answer_bytes(operation, given):
    if operation == DISTORT:
        return packed(*given)
    if operation == UNDISTORT:
        x, y, updates, flag = given
        return packed(x, y) + struct.pack("<IBxxx", updates, flag)
    entries = [*given[0], *given[1]]
    return packed(*entries, *[0.0] * (ENTRIES - len(entries))) + struct.pack("<Q", len(given[0]))


def call(operation, model, params, room, x, y):
    """Every refusal is written down; the lowest is returned."""
    refusals, out = set(), None
    if room != SIZES[operation]:
        refusals.add(7)
    if model >= NO_MODEL:
        refusals.add(1)
    else:
        if len(params) != 8 * COUNTS[model]:
            refusals.add(3)
        else:
            numbers = list(struct.unpack(f"<{COUNTS[model]}d", params))
            number, given = answer(model, operation, numbers, x, y)
            if number:
                refusals.add(number)
            else:
                out = answer_bytes(operation, given)
    return (min(refusals), None) if refusals else (0, out)


def tangent_call(theta, room):
    t = math.nan if not math.isfinite(theta) else tangent(theta)
    refusals = {7} if room != 8 else set()
    if t is None:
        refusals.add(10)
    return (min(refusals), None) if refusals else (0, packed(t))
