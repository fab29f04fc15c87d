"""A hostile caller's part of test_camera_calls: every length from 0 to 300, every model number, every kind of number that
is none in every place; and the functions of one number.

    python3 tools/hostile_calls.py   tests this script

What is owed is as tools/camera_lines.py has it.
"""
import math
import struct
from collections import Counter

import camera_lines
from camera_lines import ARCTANGENT, BY_BOTH, BY_HANDED, BY_LENT, BY_MODEL, FILL, HANDED, ROOT, SIZES, TANGENT
from camera_lines import call, heading, packed, question, reply, tangent_call
from lens_models import BC, BC12, BY_PARAMS, BY_POINT, COUNTS, DISTORT, MILD, MODELS, NO_MODEL, OPERATIONS
from lens_models import UNDISTORT, arctangent, bits, root

# NaNs that signal or do not, of either sign, and the infinities
PATTERNS = (
    0x7FF0000000000001,
    0x7FF8000000000000,
    0x7FFFFFFFFFFFFFFF,
    0xFFF8000000000001,
    0x7FF0000000000000,
    0xFFF0000000000000,
)
ANGLES = (
    0x3FF0000000000000,
    0x8000000000000000,
    0x3FF8000000000001,
    0x3FF8C00000000000,
    0x3FF8C00000000001,
    0xBFF8C00000000001,
    0x7FF0000000000001,
    0xFFFFFFFFFFFFFFFF,
    0xFFF0000000000000,
)


def of_bits(bits):
    return struct.unpack("<d", struct.pack("<Q", bits))[0]


def words_of(model, fx):
    """The parameters, as bit patterns."""
    return [bits(z) for z in (fx, 500.0, 320.0, 240.0, *MILD[model])]


def block(words):
    """The bytes that parameters are the start of."""
    return struct.pack(f"<{len(words)}Q", *words).ljust(HANDED, bytes([FILL]))


def place_of(operation):
    return (400.0, 100.0) if operation == UNDISTORT else (0.25, -0.5)


class Part:
    """The lines so far, what is owed on them, and what they cover."""

    def __init__(self):
        self.asked, self.owed, self.said = [], [], Counter()

    def heading(self, words):
        self.asked.append(heading(words))
        self.owed.append(heading(words))

    def single(self, name, line, owed):
        self.asked.append(line)
        self.owed.append(reply(*owed))
        self.said[name, owed[0]] += 1

    def row(self, name, words, line, one):
        self.heading(words)
        self.asked.append(line)
        self.owed += camera_lines.row(one)
        self.said.update((name, one(n)[0]) for n in camera_lines.ROW)


def rows(part, operation, model):
    """The calls of a row, each row with its words."""
    x, y = place_of(operation)
    size, room = 8 * COUNTS[model], SIZES[operation]
    name = OPERATIONS[operation]

    def row(words, kind, one, fx=600.0, x=x):
        line = question(model, operation + kind, size, room, words_of(model, fx), bits(x), bits(y))
        part.row(name, f"{name}, {MODELS[model]}: {words}", line, lambda n: one(n, block(words_of(model, fx)), x))

    def by_lent(n, params, x):
        return call(operation, model, params[:size], n, x, y)

    row("n bytes of answer", BY_LENT, by_lent)
    row("n bytes of params", BY_HANDED, lambda n, params, x: call(operation, model, params[:n], room, x, y))
    row("n bytes of both", BY_BOTH, lambda n, params, x: call(operation, model, params[:n], n, x, y))
    row("n bytes of answer, fx = -0", BY_LENT, by_lent, fx=-0.0)
    row("n bytes of answer, x = 1e308", BY_LENT, by_lent, x=1e308)
    row("n bytes of answer, x = 2000", BY_LENT, by_lent, x=2000.0)
    row("model n, params of this one", BY_MODEL, lambda n, params, x: call(operation, n % 256, params[:size], room, x, y))


def patterns(part, operation, model):
    """NaN or an infinity in a place: a parameter's, or past them all x's, or y's."""
    name, count, room = OPERATIONS[operation], COUNTS[model], SIZES[operation]
    part.heading(f"{name}, {MODELS[model]}: NaNs and infinities, in each parameter's place, in x's and in y's")
    for place in range(count + 2):
        for odd in PATTERNS:
            numbers = words_of(model, 600.0) + [bits(z) for z in place_of(operation)]
            numbers[place] = odd
            words, x, y = numbers[:count], *numbers[count:]
            line = question(model, operation, 8 * count, room, words, x, y)
            part.single(name, line, call(operation, model, block(words)[: 8 * count], room, of_bits(x), of_bits(y)))


def tangents(part, angle):
    theta = of_bits(angle)
    line = question(0, TANGENT + BY_LENT, 0, 8, [], angle, 0)
    part.row("tangent", f"tangent of {angle:016x}: n bytes of answer", line, lambda n: tangent_call(theta, n))


def one_number(part):
    """The two functions that refuse nothing, at numbers of every kind."""
    numbers = [bits(z) for z in (0.0, -0.0, 1.0, -1.0, 2.25, 1e-300, -1e-9, 0.4, -3.5, 1e300, 5e-324)] + [*PATTERNS]
    for name, done, f in (("root", ROOT, root), ("arctangent", ARCTANGENT, arctangent)):
        part.heading(f"{name} of numbers of every kind")
        for number in numbers:
            part.single(name, question(0, done, 0, 0, [], number, 0), (0, packed(f(of_bits(number)))))


def made():
    part = Part()
    for operation in range(4):
        for model in range(NO_MODEL):
            rows(part, operation, model)
            patterns(part, operation, model)
    for angle in ANGLES:
        tangents(part, angle)
    one_number(part)
    said = part.said
    for name in OPERATIONS:
        assert all(said[name, number] for number in (0, 1, 3, 4, 5, 7, 11))
    assert said["undistort", 10] and not any(said[name, 2] for name in OPERATIONS)
    assert said["tangent", 0] and said["tangent", 7] and said["tangent", 10]
    return part


def self_test():
    """The rules' own affine lens, its refusals, and two that meet."""
    lens = struct.pack("<4d", 600, 600, 1, 0.5)
    assert call(DISTORT, 0, lens, 16, 0.5, -0.25) == (0, struct.pack("<2d", 301, -149.5))
    assert call(UNDISTORT, 0, lens, 24, 301.0, -149.5) == (0, struct.pack("<2d", 0.5, -0.25) + bytes([0, 0, 0, 0, 1, 0, 0, 0]))
    assert call(BY_POINT, 0, lens, 264, 0.5, -0.25)[1][256:] == bytes([2, 0, 0, 0, 0, 0, 0, 0])
    assert call(DISTORT, NO_MODEL, b"", 0, math.nan, 0.0) == (1, None)
    assert call(BY_PARAMS, BC, b"", 0, math.nan, 0.0) == (3, None)
    assert call(DISTORT, BC, lens, 0, math.nan, 0.0) == (3, None)
    # the twelve of bc are not bc12's sixteen, nor these bc's; and sixteen numbers of a row fill the record
    for model, words in ((BC12, words_of(BC, 600.0)), (BC, words_of(BC12, 600.0))):
        assert call(DISTORT, model, struct.pack(f"<{len(words)}Q", *words), 16, 0.5, 0.5) == (3, None)
    filled = call(BY_PARAMS, BC12, struct.pack("<16Q", *words_of(BC12, 600.0)), 264, 0.25, -0.5)[1]
    assert filled[256:] == bytes([16, 0, 0, 0, 0, 0, 0, 0]) and any(filled[248:256])
    assert call(DISTORT, 0, lens, 15, math.nan, 0.0) == (4, None)
    assert call(DISTORT, 0, lens, 15, 0.0, 0.0) == (7, None)
    assert tangent_call(1.6, 8) == (10, None) and tangent_call(1.6, 7) == (7, None)
    assert tangent_call(math.inf, 8) == (0, bytes([0, 0, 0, 0, 0, 0, 0xF8, 0x7F]))
    assert reply(*call(UNDISTORT, 0, lens, 24, 301.0, -149.5)).split("\t")[1:] == ["3fe0000000000000", "bfd0000000000000", "0000000100000000"]
    print("the affine lens, and refusals that meet: as said")


if __name__ == "__main__":
    self_test()
