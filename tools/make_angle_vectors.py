#!/usr/bin/env python3
"""Makes crates/test_angle_vectors/stdin and stdout: questions to `arctangent` and `tangent`, and what is owed.

    python3 tools/make_angle_vectors.py

A question is a line of four fields with tabs between: `arctangent` or `tangent`, the argument, and
the least and the largest f64 that may be answered, each number as the 16 hexadecimal digits of its
bit pattern. What is owed is the first two fields with a tab and a word: `within` where a number is
to be answered, `nan` where a NaN is (7ff8000000000000 stands for both ends) and `refused` where no
answer is (7ff0000000000000). The program writes `outside` for a number beyond the two ends, so that
a wrong answer shows as a difference. A zero is owed with its sign: both ends are that zero. A line of
another form is answered by `bad`, and the last line of stdout counts the lines of stdin.

Since the program itself judges its answers, some questions try the judge: their ends leave out every
right answer, and what is owed is `outside`.

How the two ends are made. With fractions.Fraction, from the published series alone: G, P and A below
are its text. No float takes part, and neither does any code of the crates. Both functions owe an f64
whose image under an increasing function lies within a reach of a number: for the arctangent the image
of r is r itself, and the number A(x) or 2P; for the tangent the image of t is A(t), and the number
theta. `ends` finds the first such f64 and the last by halving the f64s in their order. The reaches
are sharper than what is promised, 2^-46 and 2^-44: 2^-49 for the arctangent, for which 1129/2^60 is
proved, and 2^-45 for the tangent. Only afterwards the platform's math.atan and math.tan are held to
lie between the ends, and a difference stops the script.

Halving asks that A increases. Inside a piece it does: the derivative of G is (1 - z^48)/(1 + z^2),
above 0 for z below 1, and (1-x)/(1+x) and 1/x fall. The pieces meet in one value at 1. At 2/5 and
at 5/2 they do not meet, and A jumps there by 2^-65.7; `main` works out that it jumps upwards at
both. So A increases throughout, no place needs a treatment of its own, and each end is exact: its
neighbour outwards is beyond the reach.

How the questions are made. By hand for the special values and for both sides of each piece's end,
and by splitmix64 from a fixed seed for the rest. So every run writes the same bytes. The script says
how many questions there are of each kind; a question that two kinds have is asked once, and counted
for the first.
"""
import functools
import math
import pathlib
from collections import Counter
from fractions import Fraction

from make_leaf_vectors import BUFFER, INF, LARGEST, NAN, NANS, NORMAL, SIGN, Splitmix
from make_leaf_vectors import around, both, f64, parts, value

# ---- the series, and what is owed

TWO_FIFTHS, FIVE_HALVES = Fraction(2, 5), Fraction(5, 2)
LIMIT = Fraction(99, 64)
BEFORE = Fraction(3, 2)  # the limit before request P7
ARCTANGENT_REACH = Fraction(1, 2**49)
TANGENT_REACH = Fraction(1, 2**45)


def G(x):
    """The first 24 terms of x - x^3/3 + x^5/5 - ..."""
    return sum((-1) ** k * x ** (2 * k + 1) / (2 * k + 1) for k in range(24))


P = 4 * G(Fraction(1, 5)) - G(Fraction(1, 239))


def A(x):
    if x <= TWO_FIFTHS:
        return G(x)
    if x <= 1:
        return P - G((1 - x) / (1 + x))
    return 2 * P - A(1 / x)


def number(place):
    """The f64 at a place in the order of the finite f64s. A number's place is its pattern, and for one
    below zero the place of its negation with a minus. Both zeros stand at 0."""
    m, e = parts(abs(place))
    return (m if place >= 0 else -m) * Fraction(2) ** e


@functools.cache
def angle(place):
    return A(number(place))


def first(holds, low, high):
    """The first whole number from low to high of which it holds, as it does of every later one."""
    assert holds(high)
    while low < high:
        middle = (low + high) // 2
        if holds(middle):
            high = middle
        else:
            low = middle + 1
    return low


def ends(image, start, target, reach):
    """The patterns of the first and of the last f64, from a place on, whose image is within reach of
    the target."""
    low = first(lambda place: image(place) >= target - reach, start, LARGEST)
    high = first(lambda place: image(place) > target + reach, start, LARGEST) - 1
    assert low <= high
    return pattern(low), pattern(high)


def pattern(place):
    return place if place >= 0 else SIGN - place


def place_of(bits):
    return bits if bits < SIGN else SIGN - bits


@functools.cache
def arctangent(bits):
    """Of the f64 with the pattern bits, not negative: the ends, and the word that is owed."""
    if bits > INF:
        return NAN, NAN, "nan"
    if bits == 0:
        return 0, 0, "within"
    exact = 2 * P if bits == INF else angle(bits)
    return *ends(number, -LARGEST, exact, ARCTANGENT_REACH), "within"


@functools.cache
def tangent(bits):
    """The same of the tangent. It is not negative, so the f64s begin at 0."""
    if bits >= INF:
        return NAN, NAN, "nan"
    if bits == 0:
        return 0, 0, "within"
    if number(bits) > LIMIT:
        return INF, INF, "refused"
    return *ends(angle, 0, number(bits), TANGENT_REACH), "within"


def odd(owed):
    """What is owed for every f64: for one with a minus the ends change places, each with its sign
    turned. The patterns that stand for a NaN and for a refusal have no sign to turn."""

    def of(bits):
        low, high, word = owed(bits % SIGN)
        if bits >= SIGN and word == "within":
            low, high = SIGN ^ high, SIGN ^ low
        return low, high, word

    return of


# ---- the questions


def at_least(x):
    """The pattern of the first f64 that is not below x. The one before it is below x."""
    return first(lambda place: number(place) >= x, 0, LARGEST)


def beside(x, units):
    """The f64s so many units on both sides of x, for a list of units. Unit 0 is the first that is
    not below x."""
    return [at_least(x) + k for n in units for k in (n, -n)]


def between(rng, low, high, count):
    """Random patterns from low to below high, with random signs: each exponent is met about as often
    as another, so that small numbers are not left out."""
    return [rng.bits(1) * SIGN + low + rng.below(high - low) for _ in range(count)]


def subnormals(rng):
    return both([1, 2, 3, NORMAL // 2, NORMAL - 1] + [rng.of_length(k) for k in range(12, 53, 10)])


def small():
    """Numbers that are answered as they are. Below a reach the ends take in zero, and little more is
    asked than that the answer is small too."""
    powers = [-1000, -500, -100, -61, -60, -50, -49, -48, -46, -45, -44, -30, -21]
    return both([NORMAL, NORMAL + 1] + [f64(1, e) for e in powers])


SMALL = f64(1, -20)  # below it the argument itself is answered
NEAR = [0, 1, 2, 3, 1000, 2**20, 2**40]
SOME = [Fraction(x) for x in "1/239 1/10 1/5 1/4 1/3 3/8 3/7 5/12 9/20 1/2 3/5 2/3 3/4 7/8 9/10".split()]
SOME += [Fraction(x) for x in "11/10 7/5 2 12/5 13/5 3 4 5 7 10 14 100".split()]


def shared_kinds(rng):
    """The kinds that both functions are asked alike."""
    return {
        "NaN": NANS,
        "infinity": both([INF]),
        "zero": both([0]),
        "subnormal": subnormals(rng),
        "small": small(),
        "beside 2^-20": both(beside(Fraction(1, 2**20), NEAR)),
    }


def arctangent_kinds(rng):
    two_fifths, one, five_halves = at_least(TWO_FIFTHS), f64(1, 0), at_least(FIVE_HALVES)
    powers = [-19, -18, -12, -8, -6, -5, -4, -3, -2, -1, 1, 2, 3, 4, 6, 10, 20, 48, 49, 50, 53, 54, 60, 61]
    powers += [64, 500, 1022, 1023]
    large = [at_least(Fraction(10) ** 308) + k for k in (-1, 0, 1)] + [LARGEST - 1, LARGEST]
    # where the angle passes 1/4, 1/2 and 1, from where on an f64's unit is twice as large
    steps = [first(lambda place: angle(place) >= Fraction(1, n), 0, LARGEST) for n in (4, 2, 1)]
    return {
        **shared_kinds(rng),
        "beside 2/5": both(beside(TWO_FIFTHS, NEAR)),
        "beside 1": both(beside(Fraction(1), NEAR)),
        "beside 5/2": both(beside(FIVE_HALVES, NEAR)),
        "10^308 and the largest": both(large),
        "power of two": both(f64(1, e) for e in powers),
        "above 2^-20": both(f64(3, e) for e in range(-21, -11)),
        "fraction": both(at_least(x) for x in SOME),
        "angle beside a power of two": [x for b in steps for x in around(b)],
        "random, small": between(rng, 0, SMALL, 10),
        "random, up to 2/5": between(rng, SMALL, two_fifths, 40),
        "random, up to 1": between(rng, two_fifths, one, 40),
        "random, up to 5/2": between(rng, one, five_halves, 40),
        "random, above 5/2": between(rng, five_halves, f64(1, 6), 25) + between(rng, f64(1, 6), INF, 15),
    }


def tangent_kinds(rng):
    # the angles at which the pieces of A meet, as f64s
    two_fifths, one, five_halves = (at_least(A(x)) for x in (TWO_FIFTHS, Fraction(1), FIVE_HALVES))
    last, before = at_least(LIMIT), at_least(BEFORE)  # 99/64 is an f64, and the last that is answered
    powers = [-19, -18, -16, -12, -10, -8, -6, -5, -4, -3, -2, -1, 0]
    steep = [at_least(Fraction(31, 20)), at_least(2 * P), f64(1, 1), f64(3, 0), at_least(4 * P), f64(1, 2)]
    steep += [f64(10, 0), f64(355, 0), f64(1, 53), f64(1, 500), at_least(Fraction(10) ** 308), LARGEST]
    return {
        **shared_kinds(rng),
        "tangent near 2/5": both(beside(A(TWO_FIFTHS), NEAR)),
        "tangent near 1": both(beside(P, NEAR)),
        "tangent near 5/2": both(beside(A(FIVE_HALVES), NEAR)),
        "beside 3/2, the last one before P7": both(before + s * n for n in NEAR for s in (-1, 1)),
        "99/64, the last answered, and below": both(last - n for n in NEAR),
        "above 99/64, refused": both(last + n for n in NEAR[1:]),
        "hundredth from 3/2 on": both(at_least(Fraction(n, 100)) for n in range(151, 155)),
        "far above, refused": both(steep),
        "power of two": both(f64(1, e) for e in powers),
        "thirty-second": [rng.bits(1) * SIGN + f64(n, -5) for n in range(1, 50)],
        "random, small": between(rng, 0, SMALL, 10),
        "random, tangent up to 2/5": between(rng, SMALL, two_fifths, 35),
        "random, tangent up to 1": between(rng, two_fifths, one, 35),
        "random, tangent up to 5/2": between(rng, one, five_halves, 35),
        "random, up to 3/2": between(rng, five_halves, before, 25),
        "random, up to 99/64": between(rng, before, last, 30),
        "random, refused": between(rng, last + 1, f64(1, 2), 6) + between(rng, last + 1, INF, 6),
    }


def bad_lines():
    one = "3ff0000000000000"
    good = f"arctangent\t{one}\t{one}\t{one}"
    fields = good.split("\t")
    bad = ["", "\t", "arctangent", "tangent", "\t\t\t", one]
    bad += [good[1:], good[4:], good[:-1], good[10:], good[11:], good.upper(), "A" + good[1:]]
    bad += [" " + good, good + " ", good + "\r", good + "\t", good + "\t" + one]
    bad += ["\t".join(fields[:n]) for n in (2, 3)] + [good.replace("\t", other) for other in (" ", "", "\t\t")]
    bad += ["\t".join([word] + fields[1:]) for word in ("", "tan", "angent", "arctangents", "tangent ")]
    # each field by itself: a digit too few, one too many, and the neighbours of the digits' ranges
    for n in (1, 2, 3):
        others = [one[1:], "0" + one, "/" + one[1:], one[1:] + ":", "`" + one[1:], one[1:] + "g", one.upper()]
        bad += ["\t".join(fields[:n] + [other] + fields[n + 1 :]) for other in others]
    # each tab by itself
    for n in (1, 2, 3):
        bad.append("\t".join(fields[:n]) + " " + "\t".join(fields[n:]))
        bad.append("\t".join(fields[:n]) + "\t".join(fields[n:]))
    return bad


# ---- the files


def agrees(bits, low, high, word, platform):
    """Whether the platform's function gives what is owed, where it is a number."""
    if word != "within":
        return True
    answer = platform(value(bits))
    return value(low) <= answer <= value(high) and math.copysign(1, answer) == (-1 if bits >= SIGN else 1)


def ask(name, kinds, owed, platform):
    """The questions of each kind, each question once, with the ends and the word that are owed."""
    asked = []
    seen = set()
    for kind, patterns in kinds.items():
        new = [b for b in dict.fromkeys(patterns) if b not in seen]
        seen.update(new)
        for b in new:
            low, high, word = owed(b)
            assert 0 <= b < 2**64 and agrees(b, low, high, word, platform), hex(b)
            asked.append((name, b, low, high, word))
        print(f"{name}: {len(new)} {kind}")
    assert len(asked) >= 320
    return asked


def misplaced(name, owed, patterns):
    """Questions that try the judge: the ends take in all f64s beyond the last right answer, or all
    before the first; a zero of the other sign; and what stands for a NaN and for a refusal."""
    asked = []
    for b in patterns:
        low, high, _ = owed(b)
        asked.append((name, b, pattern(place_of(high) + 1), LARGEST, "outside"))
        asked.append((name, b, SIGN + LARGEST, pattern(place_of(low) - 1), "outside"))
    asked += [(name, b, SIGN ^ b, SIGN ^ b, "outside") for b in both([0])]
    asked += [(name, f64(1, 0), end, end, "outside") for end in (NAN, INF)]
    print(f"{name}: {len(asked)} misplaced ends")
    return asked


def main():
    # A jumps upwards where two pieces do not meet: see above
    turned = G((1 - TWO_FIFTHS) / (1 + TWO_FIFTHS))
    assert G(TWO_FIFTHS) < P - turned and P + turned < 2 * P - G(TWO_FIFTHS)
    some = both(at_least(x) for x in SOME[2::6])
    arctangents = ask("arctangent", arctangent_kinds(Splitmix(3)), odd(arctangent), math.atan)
    arctangents += misplaced("arctangent", odd(arctangent), some)
    tangents = ask("tangent", tangent_kinds(Splitmix(4)), odd(tangent), math.tan)
    tangents += misplaced("tangent", odd(tangent), [b for b in some if number(b % SIGN) <= LIMIT])
    bad = bad_lines()
    asked, answers = [], []
    for questions in (arctangents, tangents):
        print(f"{questions[0][0]}: {len(questions)} in all:", dict(Counter(word for *_, word in questions)))
        asked += [f"{name}\t{b:016x}\t{low:016x}\t{high:016x}" for name, b, low, high, _ in questions]
        answers += [f"{name}\t{b:016x}\t{word}" for name, b, *_, word in questions]
    asked += bad
    answers += ["bad"] * len(bad) + [f"lines\t{len(asked)}"]
    print(f"{len(bad)} bad lines; {len(asked)} lines in all")
    folder = pathlib.Path(__file__).resolve().parent.parent / "crates" / "test_angle_vectors"
    for name, lines in (("stdin", asked), ("stdout", answers)):
        text = "".join(line + "\n" for line in lines).encode("ascii")
        assert name != "stdin" or len(text) <= BUFFER, len(text)
        (folder / name).write_bytes(text)


if __name__ == "__main__":
    main()
