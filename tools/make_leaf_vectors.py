#!/usr/bin/env python3
"""Makes crates/test_leaf_vectors/stdin and stdout: questions to `root`, `narrow` and `thirty_seconds`,
and the answers.

    python3 tools/make_leaf_vectors.py

A question is a line, one of these words, a tab and the 16 hexadecimal digits of an f64's bit
pattern. Its answer is that line with a tab and the pattern of the correctly rounded result: 16
digits of an f64 for `root`, 8 of an f32 for `narrow`. Every NaN is answered by one pattern. For
`thirty_seconds` it is the number of the nearest multiple of 1/32, written as the pattern of that
whole number as an f64, or `too far` where 16 bits don't hold it. A line of another form is answered
by `bad`, and the last line of stdout counts the lines of stdin.

How the answers are made. A pattern is taken apart into whole numbers, and its value is m * 2^e.
The root is found with math.isqrt on a number scaled to 108 to 110 bits, and held by two squarings
to lie within half a unit; the f32 and the number of thirty-seconds are found with one division with
remainder, ties to even. No float takes part, and neither does any code of this repository. Only
afterwards each answer is compared with the platform's math.sqrt, its conversion to a C float and
its rounding of 32 * x to a whole number, and a difference stops the script.

How the questions are made. By hand for the special values and the edges, by a search for the hard
roots (`close_squares`: x such that 4x lies next to the square of an odd number, so that the root
lies next to the midpoint of two f64s), and by splitmix64 from a fixed seed for the rest. So every
run writes the same bytes. The script says how many questions there are of each kind; a question
that two kinds have is asked once, and counted for the first.
"""
import math
import pathlib
import struct
from fractions import Fraction

SIGN = 1 << 63
INF, NAN = 0x7FF0000000000000, 0x7FF8000000000000
INF32, NAN32 = 0x7F800000, 0x7FC00000
LARGEST = INF - 1
NORMAL = 1 << 52  # the pattern of the smallest normal, 2^-1022
BUFFER = 65536  # what the program reads at most

NANS = [NAN, NAN + 1, INF + 1, INF + (1 << 28), INF + (1 << 51) - 1, INF + 0x123456789ABC, SIGN - 1]
NANS += [SIGN + x for x in NANS]


class Splitmix:
    """splitmix64: the same numbers in every version of Python."""

    def __init__(self, seed):
        self.state = seed

    def bits(self, k):
        """A number below 2^k, k at most 64."""
        self.state = (self.state + 0x9E3779B97F4A7C15) % 2**64
        z = self.state
        z = (z ^ z >> 30) * 0xBF58476D1CE4E5B9 % 2**64
        z = (z ^ z >> 27) * 0x94D049BB133111EB % 2**64
        return (z ^ z >> 31) >> 64 - k

    def of_length(self, k):
        """A number of exactly k bits."""
        return 1 << k - 1 | (self.bits(k - 1) if k > 1 else 0)

    def below(self, n):
        return self.bits(64) % n


# ---- the answers


def parts(bits):
    """m and e of the finite f64 with the pattern bits, whose magnitude is m * 2^e."""
    field, low = bits >> 52 & 0x7FF, bits % NORMAL
    return (low, -1074) if field == 0 else (low + NORMAL, field - 1075)


def in_units(m, e, unit):
    """m * 2^e in units of 2^unit, to the nearest whole number, ties to even."""
    if unit <= e:
        return m << e - unit
    n, rest = divmod(m, 1 << unit - e)
    half = 1 << unit - e - 1
    return n + (rest > half or rest == half and n % 2 == 1)


def nearest(m, e, digits, least):
    """The pattern of m * 2^e, rounded once to nearest, ties to even, in the format with so many
    binary digits and the smallest value 2^least. What is too large gives no pattern of the format,
    but one at its infinity or above."""
    unit = max(m.bit_length() + e - digits, least)
    n = in_units(m, e, unit)
    # a carry into n's next binary digit counts the exponent up
    return (unit - least << digits - 1) + n if n else 0


def root(bits):
    """The pattern of the root, correctly rounded."""
    if bits % SIGN > INF:
        return NAN
    if bits % SIGN == 0 or bits == INF:
        return bits
    if bits >= SIGN:
        return NAN
    m, e = parts(bits)
    # the root is r * 2^t with r from 2^52 on and below 2^53; four is 4 * r^2, a whole number
    t = (m.bit_length() + e + 1) // 2 - 53
    four = m << e + 2 - 2 * t
    r = (math.isqrt(four) + 1) // 2
    assert (2 * r - 1) ** 2 < four < (2 * r + 1) ** 2 and r.bit_length() == 53
    return nearest(r, t, 53, -1074)


def narrow(bits):
    """The pattern of the nearest f32, ties to even."""
    if bits % SIGN > INF:
        return NAN32
    sign = bits >> 63 << 31
    if bits % SIGN == INF:
        return sign + INF32
    return sign + min(nearest(*parts(bits), 24, -149), INF32)


def thirty_seconds(bits):
    """The number of the nearest multiple of 1/32, ties to even, or None outside 16 bits."""
    if bits % SIGN >= INF:
        return None
    n = in_units(*parts(bits), -5)
    if bits >= SIGN:
        n = -n
    return n if -32768 <= n <= 32767 else None


# ---- the questions


def f64(m, e):
    """The pattern of m * 2^e, which is an f64."""
    bits = nearest(m, e, 53, -1074)
    n, f = parts(bits)
    assert bits < INF and n * Fraction(2) ** f == m * Fraction(2) ** e
    return bits


def around(bits):
    """A pattern, one unit below it and one above."""
    return [bits - 1, bits, bits + 1]


def both(patterns):
    """Each pattern, and the same with a minus."""
    return [x for b in patterns for x in (b, SIGN + b)]


def close_squares(length, power, offsets):
    """Each n of 53 bits such that n * 2^power is z^2 - c, for an odd z of so many bits and an offset
    c. An offset is 1 mod 8, so that it has a root mod 2^power, which is found bit by bit."""
    found = []
    for c in offsets:
        x = 1
        for k in range(3, power):
            if (x * x - c) % 2 ** (k + 1):
                x += 1 << k - 1
        half = 1 << power - 1
        least = 1 << length - 1
        for y in (x, -x, x + half, -x + half):
            z = least + (y - least) % 2**power
            n = z * z - c >> power
            if z.bit_length() == length and n.bit_length() == 53:
                assert z % 2 == 1 and n << power == z * z - c
                found.append(n)
    return found


def gap(m):
    """How far the root of m * 2^-1074 is from the next midpoint of two f64s, on some scale."""
    t = (m.bit_length() + 1) // 2 - 53
    four = m << 2 - 2 * t
    z = math.isqrt(four) - 1 | 1
    return min(abs(four - y * y) * 2**64 // y for y in (z, z + 2))


def hard_roots():
    """Roots very close to a midpoint, at both parities of the exponent and at many exponents."""
    scales = (-52, -1074, -1022, -538, 402, 918)
    found = []
    for power in (54, 55):
        for i, n in enumerate(close_squares(54, power, range(-63, 66, 8))):
            found.append(f64(n, power % 2 + scales[i % 6]))
    return found


def nearly_exact_roots():
    """Roots that miss an f64 by very little: what is beyond the last digit is nearly nothing."""
    scales = (-52, -1074, 918)
    found = []
    for power in (52, 53):
        for i, n in enumerate(close_squares(53, power, range(-31, 34, 8))):
            found.append(f64(n, power % 2 + scales[i % 3]))
    return found


def hard_subnormals(rng):
    """Of each length from 4 to 52 in steps of 4, the subnormal of 4000 whose root is hardest."""
    found = []
    for length in range(4, 53, 4):
        some = [rng.of_length(length) for _ in range(4000)]
        found.append(min((m for m in some if math.isqrt(m) ** 2 != m), key=gap))
    return found


def squares(rng):
    """Squares whose roots are exact, of even numbers and of odd ones, at large and small scales."""
    roots = [2, 3, 5, 6, 7, 10, 11, 12, 181, 4096, 2**26 - 1, 2**26 - 2, 2**26 + 1, 94906265, 94906264]
    roots += [rng.of_length(26) for _ in range(12)]
    scales = (0, 0, -1074, -54, 2, 900)
    return [f64(k * k, scales[i % 6]) for i, k in enumerate(roots)]


def beside_squares(rng):
    """One unit above and below an even square and an odd one, also where it is a subnormal."""
    found = []
    for k in (4, 9, 94906264, 94906265, rng.of_length(26) & ~1, rng.of_length(26) | 1):
        for e in (0, -4, -1074):
            b = f64(k * k, e)
            found += [b - 1, b + 1]
    return found


def subnormals(rng):
    """Of every length: the least, the largest and one between."""
    return [m for k in range(1, 53) for m in (1 << k - 1, (1 << k) - 1, rng.of_length(k))]


def root_kinds(rng):
    one = f64(1, 0)
    powers = [-1022, -1021, -1000, -513, -512, -511, -127, -126, -64, -53, -52, -3, -2, -1, 0, 1, 2, 3]
    powers += [4, 5, 10, 31, 32, 52, 53, 54, 63, 64, 127, 128, 511, 512, 513, 1000, 1021, 1022, 1023]
    negatives = [one, f64(1, 1), f64(1, 2), LARGEST, NORMAL, NORMAL + 1, NORMAL - 1, 1, 2, 3, 4]
    negatives += [rng.below(INF) for _ in range(6)] + [rng.bits(52) for _ in range(4)]
    return {
        "NaN": NANS,
        "infinity": both([INF]),
        "zero": both([0]),
        "negative": [SIGN + b for b in negatives],
        "subnormal": subnormals(rng),
        "power of two": [f64(1, e) for e in powers],
        "beside a power of two": [x for e in (-1021, -2, -1, 0, 1, 2, 1023) for x in around(f64(1, e))],
        "edge of the range": [LARGEST - 1, LARGEST, NORMAL - 2] + around(NORMAL) + [NORMAL + 2],
        "by hand": [f64(9, -2)],  # document 01's number to check by hand
        "exact square": squares(rng),
        "beside a square": beside_squares(rng),
        "ones": [f64(2**53 - 1, e) for e in (-1074, -1073, -600, -53, -52, -51, 0, 1, 500, 970)],
        "near a midpoint": hard_roots(),
        "near a midpoint, subnormal": hard_subnormals(rng),
        "near an f64": nearly_exact_roots(),
        "random, positive": [rng.below(INF) for _ in range(60)],
        "random, from 1/4 to 4": [f64(1, -2) + rng.bits(54) for _ in range(30)],
        "random pattern": [rng.bits(64) for _ in range(20)],
    }


def tie(n, unit):
    """The pattern of the midpoint of n and n + 1, in units of 2^unit."""
    return f64(2 * n + 1, unit - 1)


def normal_ties(rng):
    """Midpoints of two normal f32s: down to an even number and up to one, and a unit beside each."""
    found = []
    for unit in (-148, -127, -60, -24, -1, 23, 40, 103):
        for n in (rng.of_length(24) | 1, rng.of_length(24) & ~1):
            found += around(rng.bits(1) * SIGN + tie(n, unit))
    for unit in (-149, 0, 104):
        for n in (2**23, 2**23 + 1, rng.of_length(24) | 1, rng.of_length(24) & ~1, 2**24 - 3, 2**24 - 2):
            found += both(around(tie(n, unit)))
    return found


def subnormal_ties(rng):
    """The same below the smallest normal f32. The midpoint of 0 and 2^-149 goes to 0."""
    ns = [0, 1, 2, 3, 4, 5, 254, 255, 2**22 - 1, 2**22, 2**23 - 2, 2**23 - 1]
    ns += [rng.of_length(k) for k in range(3, 24, 2)]
    return both(x for n in ns for x in around(tie(n, -149)))


def carries():
    """Numbers that round up to a power of two, or just do not: the carry goes into the exponent."""
    found = []
    for e in (-149, -148, -100, -24, -23, 0, 80, 103):
        found += around(tie(2**24 - 1, e)) + [f64(2**53 - 1, e - 29)]
    return both(found)


def exact_f32s(rng):
    """Numbers that are f32s already."""
    found = [f64(n, e) for n, e in ((1, 0), (1, -1), (3, 0), (10, 0), (2**23 + 1, -23), (2**24 - 1, -24))]
    found += [f64(rng.of_length(24), rng.below(254) - 149) for _ in range(16)]
    return both(found) + [f64(rng.of_length(k), -149) for k in range(1, 24)]


def far_below(rng):
    """Numbers below half of the smallest f32, among them the f64s' subnormals."""
    found = [1, 2, 3, NORMAL - 1, NORMAL, NORMAL + 1, f64(1, -1000), f64(1, -200), f64(1, -151)]
    found += [f64(2**53 - 1, -151 - 53), f64(3, -153)] + [rng.of_length(k) for k in range(4, 53, 8)]
    return both(found)


def small_patterns(rng):
    """One number at each exponent of an f32's subnormals and a little beyond."""
    return [rng.bits(1) * SIGN + f64(rng.of_length(53), e - 52) for e in range(-152, -124)]


def random_f32_range(rng):
    return [rng.bits(1) * SIGN + f64(rng.of_length(53), rng.below(279) - 150 - 52) for _ in range(90)]


def narrow_kinds(rng):
    last = tie(2**24 - 1, 104)  # 2^128 - 2^103: the first that rounds to infinity
    too_large = [f64(1, 128), f64(1, 128) + 1, f64(3, 127), f64(1, 129), f64(1, 500), LARGEST]
    least = f64(1, -126)
    boundary = around(least) + around(f64(2**23 - 1, -149)) + around(f64(2**23 + 1, -149))
    return {
        "NaN": NANS,
        "infinity": both([INF]),
        "zero": both([0]),
        "exact f32": exact_f32s(rng),
        "largest f32 and its edge": both(around(f64(2**24 - 1, 104)) + around(last)),
        "too large": both(too_large),
        "smallest f32 and its half": both(around(f64(1, -149)) + around(f64(1, -150)) + around(f64(3, -151))),
        "smallest normal f32": both(boundary),
        "carry": carries(),
        "tie, normal": normal_ties(rng),
        "tie, subnormal": subnormal_ties(rng),
        "far below": far_below(rng),
        "each small exponent": small_patterns(rng),
        "beside an f32": [x for b in exact_f32s(rng)[12:32:2] for x in (b - 1, b + 1)],
        "random, in the range": random_f32_range(rng),
        "random pattern": [rng.bits(64) for _ in range(20)],
    }


def signed(n, e):
    """The pattern of n * 2^e, which is an f64, for an n of either sign."""
    return f64(n, e) if n >= 0 else SIGN + f64(-n, e)


def multiple_ties(rng):
    """Midpoints of two multiples of 1/32: down to an even number and up to one, and a unit beside
    each."""
    ns = [0, 1, 2, 3, 4, 5, 30, 31, 32, 33, 254, 255, 16383, 16384, 32764, 32765]
    ns += [rng.of_length(k) for k in range(3, 16)]
    return both(x for n in ns for x in around(tie(n, -5)))


def range_ends():
    """The last number in and the first out on each side, each with the f64s beside it."""
    ends = [65532, 65533, 65534, 65535, 65536, 65537, 65538, 65539, 65540]
    return both(x for n in ends for x in around(f64(n, -6)))


def multiples(rng):
    """Multiples of 1/32, among them the largest and the smallest that 16 bits hold."""
    ns = [1, 2, 3, 31, 32, 33, 64, 1000, 20480, 32766, 32767]
    found = [signed(n, -5) for n in ns + [-n for n in ns] + [-32768]]
    return found + [signed(rng.below(65536) - 32768, -5) for _ in range(24)]


def too_far(rng):
    """Numbers past the range, up to the largest: those at which a sum or a whole number of 16, 32, 53
    or 64 bits would wrap among them."""
    powers = [11, 15, 16, 20, 26, 27, 31, 32, 46, 47, 48, 52, 53, 58, 59, 62, 63, 64, 128, 500, 1023]
    found = [f64(1, e) for e in powers] + [f64(3, e) for e in (46, 47)] + [f64(2**32 + 1, -5), LARGEST]
    return both(found + [f64(rng.of_length(53), rng.below(900) - 41) for _ in range(12)])


def random_pixels(rng):
    """Numbers inside the range, by exponent."""
    return [rng.bits(1) * SIGN + f64(rng.of_length(53), rng.below(18) - 7 - 53) for _ in range(120)]


def thirty_seconds_kinds(rng):
    tiny = [1, 2, 3, NORMAL - 1, NORMAL, NORMAL + 1, f64(1, -1000), f64(1, -60), f64(1, -7)]
    tiny += [rng.of_length(k) for k in range(4, 53, 8)]
    return {
        "NaN": NANS,
        "infinity": both([INF]),
        "zero": both([0]),
        "end of the range": range_ends(),
        "tie": multiple_ties(rng),
        "multiple of 1/32": multiples(rng),
        "beside a multiple": [x for b in multiples(rng)[-12:] for x in (b - 1, b + 1)],
        "tiny": both(tiny),
        "too far": too_far(rng),
        "random, in the range": random_pixels(rng),
        "random pattern": [rng.bits(64) for _ in range(20)],
    }


def bad_lines():
    one = "3ff0000000000000"
    bad = ["", "\t", "root", "narrow", "root\t", "narrow\t", one, "\t" + one, "root" + one]
    bad += ["root " + one, "root\t\t" + one, " root\t" + one, "Root\t" + one, "roots\t" + one]
    bad += ["root\t" + one[1:], "root\t0" + one, "root\t" + one + " ", "root\t" + one + "\r"]
    bad += ["narrow\t" + one[1:], "narrow\t0" + one, "narrow\t" + one + "\t", "arrow\t" + one]
    bad += ["root\t" + one.upper(), "narrow\t0x" + one[2:], "root\t-" + one[1:]]
    bad += ["thirty_seconds", "thirty_seconds\t" + one[1:], "thirty_seconds\t" + one + "0", "thirty\t" + one]
    # the neighbours of the digits' ranges, at the first place and at the last
    bad += ["root\t" + c + one[1:] for c in "/:`g"] + ["narrow\t" + one[1:] + c for c in "/:`g"]
    return bad


# ---- the files


def value(bits):
    return struct.unpack("<d", struct.pack("<Q", bits))[0]


def platform_root(bits):
    x = value(bits)
    if x < 0 or math.isnan(x):
        return NAN
    return struct.unpack("<Q", struct.pack("<d", math.sqrt(x)))[0]


def platform_narrow(bits):
    x = value(bits)
    if math.isnan(x):
        return NAN32
    try:
        return struct.unpack("<I", struct.pack("<f", x))[0]
    except OverflowError:
        return (bits >> 63 << 31) + INF32


def platform_thirty_seconds(bits):
    x = value(bits)
    # 32 * x is exact unless it overflows
    if math.isnan(x) or math.isinf(32 * x):
        return None
    n = round(32 * x)
    return n if -32768 <= n <= 32767 else None


def shown(number):
    return "too far" if number is None else f"{signed(number, 0):016x}"


def ask(word, show, kinds, answer, platform):
    """The lines of stdin and of stdout for the kinds of questions, each question once."""
    asked, answers = [], []
    seen = set()
    for kind, patterns in kinds.items():
        new = [b for b in dict.fromkeys(patterns) if b not in seen]
        seen.update(new)
        for b in new:
            assert 0 <= b < 2**64 and answer(b) == platform(b), hex(b)
            asked.append(f"{word}\t{b:016x}")
            answers.append(f"{word}\t{b:016x}\t{show(answer(b))}")
        print(f"{word}: {len(new)} {kind}")
    print(f"{word}: {len(asked)} in all")
    return asked, answers


def main():
    bad = bad_lines()
    roots = ask("root", "{:016x}".format, root_kinds(Splitmix(1)), root, platform_root)
    narrows = ask("narrow", "{:08x}".format, narrow_kinds(Splitmix(2)), narrow, platform_narrow)
    kinds = thirty_seconds_kinds(Splitmix(3))
    multiples_asked = ask("thirty_seconds", shown, kinds, thirty_seconds, platform_thirty_seconds)
    asked = roots[0] + bad + narrows[0] + multiples_asked[0]
    answers = roots[1] + ["bad"] * len(bad) + narrows[1] + multiples_asked[1] + [f"lines\t{len(asked)}"]
    print(f"{len(bad)} bad lines; {len(asked)} lines in all")
    folder = pathlib.Path(__file__).resolve().parent.parent / "crates" / "test_leaf_vectors"
    for name, lines in (("stdin", asked), ("stdout", answers)):
        text = "".join(line + "\n" for line in lines).encode("ascii")
        assert name != "stdin" or len(text) <= BUFFER
        (folder / name).write_bytes(text)


if __name__ == "__main__":
    main()
