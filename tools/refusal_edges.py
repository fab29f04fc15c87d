"""Every refusal that a call with one point can meet, at its edge: the last input that is answered, and next to it the
first that is refused. Questions for model_questions.py; the edges of the tangent itself are in make_angle_vectors.py.

    python3 tools/refusal_edges.py   lists the edges for a person to read, a line each

An edge is an operation, a camera and a place in plain words, and numbers to put for X, each with the refusal that is
owed, 0 for none. `questions` holds what tools/lens_models.py answers to that, so an edge that moved stops the script.
"""
from lens_models import BY_PARAMS, BY_POINT, DISTORT, MODELS, OPERATIONS, UNDISTORT, answer, bits
from make_leaf_vectors import INF, LARGEST, NAN, SIGN, value

FOUR = (DISTORT, UNDISTORT, BY_POINT, BY_PARAMS)
NOT_4 = (0, 11)  # where it doesn't matter whether the answer is finite


def no_refusal_2():
    """bc by its parameters, which 2 refused before request P3, ahead of 4 and 5: now these are told."""
    yield BY_PARAMS, "bc 1 1 0 0 0 0 0 0 0 0 0 0 at (X, 0)", {1.0: 0, NAN: 4}
    yield BY_PARAMS, "bc X 1 0 0 0 0 0 0 0 0 0 0 at (1, 0)", {NAN: 4, 0: 5, SIGN: 5, 1: 0}


def refusal_4():
    """A parameter or a coordinate is NaN or infinite: the first and the last parameter of each model, and both
    coordinates. These are judged without regard to the model, so that affine stands for all. The largest f64 is
    neither, be its answer finite or not. The radius of (0.75, 0.5625) is 0.9375: there the largest parameters still
    have finite answers. Where they don't, the point is so near the axis that its squared radius is 0."""
    for words in (
        "affine X 1 0 0 at (0.75, 0.5625)",
        "affine 1 1 0 X at (0.75, 0.5625)",
        "eucm X 1 0 0 0.5 1 at (0.75, 0.5625)",
        "eucm 1 1 0 0 0.5 X at (1e-200, 1e-200)",
        "kb X 1 0 0 0 0 0 0 at (0.75, 0.5625)",
        "kb 1 1 0 0 0 0 0 X at (0.75, 0.5625)",
        "bc X 1 0 0 0 0 0 0 0 0 0 0 at (0.75, 0.5625)",
        "bc 1 1 0 0 0 0 0 0 0 0 0 X at (1e-200, 1e-200)",
        "bc12 X 1 0 0 0 0 0 0 0 0 0 0 0 0 0 0 at (0.75, 0.5625)",
        "bc12 1 1 0 0 0 0 0 0 0 0 0 0 0 0 0 X at (1e-200, 1e-200)",
        "affine 1 1 0 0 at (X, 0.5625)",
        "affine 1 1 0 0 at (0.75, X)",
    ):
        for operation in FOUR:
            yield operation, words, {LARGEST: NOT_4, INF: 4, SIGN + LARGEST: NOT_4, SIGN + INF: 4, NAN: 4}


def refusal_5():
    """fx or fy is zero, of either sign; the least f64 above zero is none. Affine by every operation, and the other
    models by one: each has its own case where focal lengths are looked up, and the operations share it."""
    around_zero = {1: 0, 0: 5, SIGN: 5, SIGN + 1: 0}
    for words in ("affine X 1 0 0 at (0, 0)", "affine 1 X 0 0 at (0, 0)"):
        for operation in FOUR:
            yield operation, words, around_zero
    for rest in ("eucm {} 0 0 0.5 1", "kb {} 0 0 0 0 0 0", "bc {} 0 0 0 0 0 0 0 0 0 0", "bc12 {} 0 0 0 0 0 0 0 0 0 0 0 0 0 0"):
        yield DISTORT, rest.format("X 1") + " at (0, 0)", around_zero
        yield DISTORT, rest.format("1 X") + " at (0, 0)", around_zero


def refusal_5_among_others():
    """4 comes before 5; and 5 before 10 and 11, which the next two would be were it not for the focal length."""
    for operation in FOUR:
        yield operation, "affine 0 1 0 0 at (X, 0)", {NAN: 4}
    yield UNDISTORT, "kb 1 0 0 0 0 0 0 0 at (X, 0)", {2.0: 5}
    yield UNDISTORT, "affine 0 1 0 0 at (X, 0)", {1.0: 5}


def refusal_10():
    """Newton's last theta is finite and past 99/64. Without bend Newton ends at the pixel's radius. At the radius 0.001
    the last lens is all but flat where Newton starts: the first step leads far out, and 20 do not lead back; but up to
    a squared radius of EPS no step is made."""
    last = bits(99 / 64)
    yield UNDISTORT, "kb 1 1 0 0 0 0 0 0 at (X, 0)", {last: 0, last + 1: 10, SIGN + last: 0, SIGN + last + 1: 10}
    yield UNDISTORT, "kb 1 1 0 0 0 0 0 0 at (0, X)", {last: 0, last + 1: 10}
    yield UNDISTORT, "kb 1 1 0 0 -333.3333 0 0 0 at (X, 0)", {0x3F50624DD2F1A9FC: 0, 0x3F50624DD2F1A9FD: 10}


def between_10_and_11():
    """The largest pixel whose last theta is finite, and the next: theta's eighth power overflows on the way, and NaN
    is not past 99/64. No pixel could be refused both: where theta is past 99/64 there is no answer to judge."""
    yield UNDISTORT, "kb 1 1 0 0 0 0 0 0 at (X, 0)", {0x47EFFFFFFFFFFFFF: 10, 0x47F0000000000000: 11}


def refusal_16():
    """eucm's z is zero or negative. With alpha 0.5 it falls to 0 at the pixel 2 and is negative beyond, so that the point
    of 2 would be infinite too: 16 comes before 11. With alpha above 1 the quotient for z is all but 0 / 0 at one pixel:
    +0 at 1.5, -0 at 1.1, and at 2 NaN, which is refused with 11; z is positive on both sides. 4 and 5 come before."""
    two = bits(2.0)
    around_two = {two - 1: 0, two: 16, two + 1: 16}
    yield UNDISTORT, "eucm 1 1 0 0 0.5 1 at (X, 0)", around_two | {SIGN + z: told for z, told in around_two.items()}
    yield UNDISTORT, "eucm 1 1 0 0 0.5 1 at (0, X)", around_two
    yield UNDISTORT, "eucm -1 1 0 0 0.5 1 at (X, 0)", around_two
    for alpha, z, told in (("1.5", bits(2 / 3), 16), ("1.1", 0x3FED1745D1745D17, 16), ("2", bits(0.5), 11)):
        yield UNDISTORT, f"eucm 1 1 0 0 {alpha} 1 at (X, 0)", {z - 1: 0, z: told, z + 1: 0}
    yield UNDISTORT, "eucm 1 1 0 0 0.5 1 at (3, X)", {INF: 4, LARGEST: 11}
    yield UNDISTORT, "eucm X 1 0 0 0.5 1 at (3, 3)", {NAN: 4, 0: 5, SIGN: 5, 1.0: 16}


# the sixth power of X overflows, and a coefficient of 0 times that is NaN
OVERFLOWN = "bc 1 1 0 0 0 0 0 0 0 0 0 0 at (X, 0)", {0x4A9965FEA53D6E3C: 0, 0x4A9965FEA53D6E3D: 11}
# the same with a prism of zeros, which is refused no earlier: its largest power is the fourth
NO_PRISM = "bc12 1 1 0 0 0 0 0 0 0 0 0 0 0 0 0 0 at (X, 0)", OVERFLOWN[1]

# u is the angle times fx: with the largest fx that overflows once the angle passes 1, the angle of 1.557
BENT = "kb largest 1 0 0 0 0 0 0 at (X, 0)", {0x3FF8EB245CBEE3A7: 0, 0x3FF8EB245CBEE3A8: 11}

# the square of X overflows
LEVEL = "eucm 1 1 0 0 0.5 1 at (X, 0)", {0x5FEFFFFFFFFFFFFF: 0, 0x5FF0000000000000: 11}


def halves(operation, words, signs=(0, SIGN)):
    """X is doubled on the way: half of the largest f64 is the last."""
    yield operation, words, {sign + bits(2.0**1023) - n: 0 if n else 11 for sign in signs for n in (1, 0)}


def refusal_11_distort():
    """u or v is NaN or infinite. Half the last digit of the largest f64 is 2^970: less is rounded off, and from there
    on the sum is infinite. With beta -1 there is a root of 1 - X * X up to 1 and none beyond."""
    yield from halves(DISTORT, "affine 2 1 0 0 at (X, 0)")
    yield from halves(DISTORT, "affine 1 2 0 0 at (0, X)", (0,))
    digit = bits(2.0**970)
    yield DISTORT, "affine 1 1 largest 0 at (X, 0)", {digit - 1: 0, digit: 11}
    yield DISTORT, "eucm 1 1 0 0 0.5 -1 at (X, 0)", {bits(1.0): 0, bits(1.0) + 1: 11}
    yield DISTORT, *BENT
    yield DISTORT, *OVERFLOWN
    yield DISTORT, *NO_PRISM
    # the squared radius is 2, and its square 4
    yield from halves(DISTORT, "bc12 1 1 0 0 0 0 0 0 0 0 0 0 X 0 0 0 at (1, 1)")
    yield from halves(DISTORT, "bc12 1 1 0 0 0 0 0 0 0 0 0 0 0 0 X 0 at (1, 1)", (0,))
    quarter = bits(2.0**1022)
    yield DISTORT, "bc12 1 1 0 0 0 0 0 0 0 0 0 0 0 X 0 0 at (1, 1)", {quarter - 1: 0, quarter: 11}
    yield DISTORT, "bc12 1 1 0 0 0 0 0 0 0 0 0 0 0 0 0 X at (1, 1)", {quarter - 1: 0, quarter: 11}


def refusal_11_undistort():
    """x or y is NaN or infinite. eucm: the largest pixel whose squared radius is finite has a negative z; the next one's
    squared radius is infinite, and z is NaN. kb: the lens bends so much that Newton's first step overflows; up to there
    20 steps lead to an angle below 99/64, though not to the right one, and the answer says that it did not settle."""
    yield from halves(UNDISTORT, "affine 0.5 1 0 0 at (X, 0)")
    yield UNDISTORT, LEVEL[0], {0x5FEFFFFFFFFFFFFF: 16, 0x5FF0000000000000: 11}
    yield UNDISTORT, "kb 1 1 0 0 0 0 0 1e299 at (X, 0)", {0x405C7AF03E0A18F3: 0, 0x405C7AF03E0A18F4: 11}
    yield UNDISTORT, *OVERFLOWN
    yield UNDISTORT, *NO_PRISM


def refusal_11_jacobians():
    """An entry is NaN or infinite. Those of affine hold what was handed in, and are finite whenever that is. kb by the
    point: theta times the radius to the seventh overflows. bc by the parameters: k3's column is x times the radius to the
    sixth; and with k4 at -1 the denominator is 0 at (1, 0), and on both sides it is not."""
    yield BY_POINT, *LEVEL
    yield BY_POINT, "kb 1 1 0 0 0 0 0 0 at (X, 0)", {0x491249232F9EE093: 0, 0x491249232F9EE094: 11}
    yield BY_POINT, *OVERFLOWN
    yield BY_PARAMS, *LEVEL
    yield BY_PARAMS, *BENT
    yield BY_PARAMS, "bc 1 1 0 0 0 0 0 0 0 0 0 0 at (X, 0)", {0x491381147622F886: 0, 0x491381147622F887: 11}
    pole = bits(-1.0)
    yield BY_PARAMS, "bc 1 1 0 0 0 0 0 0 0 X 0 0 at (1, 0)", {pole - 1: 0, pole: 11, pole + 1: 0}
    # bc12 by the point: twice s1 or s3. By the parameters: on the axis x = 0 it is s2's column that overflows
    yield BY_POINT, *NO_PRISM
    yield from halves(BY_POINT, "bc12 1 1 0 0 0 0 0 0 0 0 0 0 X 0 0 0 at (1, 0)")
    yield from halves(BY_POINT, "bc12 1 1 0 0 0 0 0 0 0 0 0 0 0 0 X 0 at (0, 1)", (0,))
    sixteenth = bits(2.0**1020)
    yield BY_PARAMS, "bc12 X 1 0 0 0 0 0 0 0 0 0 0 0 0 0 0 at (0, 2)", {sixteenth - 1: 0, sixteenth: 11}
    yield BY_PARAMS, "bc12 1 X 0 0 0 0 0 0 0 0 0 0 0 0 0 0 at (2, 0)", {sixteenth - 1: 0, sixteenth: 11}
    yield BY_PARAMS, "bc12 1 1 0 0 0 0 0 0 0 X 0 0 0 0 0 0 at (1, 0)", {pole - 1: 0, pole: 11, pole + 1: 0}


def none_refused():
    """The answer alone is judged. At X = 0 the Rust divides by zero on the way; at 1e200 the squared radius is
    infinite."""
    for operation in (DISTORT, BY_POINT, BY_PARAMS):
        yield operation, "kb 1 1 0 0 0 0 0 0 at (X, 0)", {0: 0}
    for operation in (DISTORT, BY_PARAMS):
        yield operation, "kb 1 1 0 0 0 0 0 0 at (X, 0)", {1e200: 0}


def by_hand():
    """The numbers to check by hand (docs/RULES.md, 17), those of one point."""
    yield DISTORT, "affine X 600 1 0.5 at (0.5, -0.25)", {-0.0: 5}
    yield DISTORT, "affine 600 600 1 0.5 at (X, -0.25)", {0.5: 0}
    yield UNDISTORT, "affine 600 600 1 0.5 at (X, -149.5)", {301.0: 0}
    yield DISTORT, "eucm 1 1 0 0 0.5 1 at (X, 2)", {2.0: 0}
    yield UNDISTORT, "eucm 1 1 0 0 0.5 1 at (X, 1)", {1.0: 0}
    yield UNDISTORT, "eucm 1 1 0 0 0.5 1 at (X, 0)", {2.0: 16}
    yield UNDISTORT, "eucm 1 1 0 0 0.5 1 at (X, 2)", {2.0: 16}
    yield DISTORT, "kb 1000 1000 320 280 0 0 0 0 at (X, 0)", {0: 0}
    yield UNDISTORT, "kb 1000 1000 320 280 0 0 0 0 at (X, 280)", {320.0: 0}
    yield DISTORT, "bc 1 1 0 0 0 0 1 0 0 0 0 0 at (X, 1)", {1.0: 0}
    yield DISTORT, "bc 1 1 0 0 0 0 0 1 0 0 0 0 at (X, 1)", {1.0: 0}
    yield UNDISTORT, "bc 1 1 0 0 0 0 0 0 0 0 0 0 at (X, 4)", {3.0: 0}
    yield BY_PARAMS, "bc 1 1 0 0 0 0 0 0 0 0 0 0 at (X, 2)", {1.0: 0}
    yield DISTORT, "bc12 1 1 0 0 0 0 0 0 0 0 0 0 1 2 3 4 at (X, 1)", {1.0: 0}
    yield BY_PARAMS, "bc12 1 1 0 0 0 0 0 0 0 0 0 0 0 0 0 0 at (X, 2)", {1.0: 0}


SECTIONS = (
    no_refusal_2,
    refusal_4,
    refusal_5,
    refusal_5_among_others,
    refusal_10,
    between_10_and_11,
    refusal_16,
    refusal_11_distort,
    refusal_11_undistort,
    refusal_11_jacobians,
    none_refused,
    by_hand,
)


def pattern(z):
    """A float's bit pattern; an int is one already."""
    return z if isinstance(z, int) else bits(z)


def read(words, x):
    """Model, parameters and the two coordinates, all numbers bit patterns, with x for X."""
    lens, place = words.split(" at ")
    name, *params = lens.split()
    coordinates = place.strip("()").split(", ")
    special = {"X": x, "largest": LARGEST}
    numbers = [special[word] if word in special else bits(float(word)) for word in params + coordinates]
    return MODELS.index(name), numbers[:-2], *numbers[-2:]


def edges():
    """Each case: the section's name, the question, what it looks like in words, and the number that is told."""
    for section in SECTIONS:
        for operation, words, numbers in section():
            for x, owed in numbers.items():
                model, params, *place = read(words, pattern(x))
                told, _ = answer(model, operation, [value(z) for z in params], *(value(z) for z in place))
                assert told == owed or told in NOT_4 == owed, (OPERATIONS[operation], words, x, told)
                line = f"{OPERATIONS[operation]}\t{words}\t{pattern(x):016x}\t{told}"
                yield section.__name__, (model, operation, params, *place), line


def questions():
    return [question for _, question, _ in edges()]


if __name__ == "__main__":
    for name, _, line in edges():
        print(name, line, sep="\t")
