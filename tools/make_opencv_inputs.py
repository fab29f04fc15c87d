#!/usr/bin/env python3
"""Makes what the programs over crates/opencv are run on, and what they have to write:

    crates/test_opencv_params/stdin, stdout    many texts, one after the other
    crates/opencv_params/stdin, stdout         a camera of ours

    python3 tools/make_opencv_inputs.py              writes the files
    python3 tools/make_opencv_inputs.py --self-test  tests what can be tested beside that, and writes nothing

The form stands here as two regular expressions, and the move as two lists of places, written from docs/RULES.md 24. Each
refused text stands here with its number, and `answered` must say the same. A pattern is told by Python's struct and math.
No code of the crates takes part.
"""
import math
import random
import re
import struct

from parts import make, part

LONGEST = 4096
FIELDS = rb"((?:\t[0-9a-f]{16})+)\n"
OURS = re.compile(rb"params" + FIELDS, re.DOTALL)
THEIRS = re.compile(rb"matrix" + FIELDS + rb"coeffs" + FIELDS, re.DOTALL)
NAMES = "fx fy cx cy k1 k2 p1 p2 k3 k4 k5 k6".split()
MATRIX = ("fx", 0, "cx", 0, "fy", "cy", 0, 0, 1)  # row by row
COEFFS = "k1 k2 p1 p2 k3 k4 k5 k6".split()
TAKEN = (4, 5, 8, 12, 14)


def bits(x):
    return struct.pack(">d", x).hex().encode()


def value(pattern):
    return struct.unpack(">d", bytes.fromhex(pattern.decode()))[0]


ZERO, MINUS_ZERO, ONE = bits(0.0), bits(-0.0), bits(1.0)


# ---- what is owed


def line(word, patterns):
    return word + b"".join(b"\t" + p for p in patterns) + b"\n"


def ours(camera):
    return line(b"params", [camera[name] for name in NAMES])


def theirs(camera):
    matrix = [bits(float(place)) if isinstance(place, int) else camera[place] for place in MATRIX]
    return line(b"matrix", matrix) + line(b"coeffs", [camera[name] for name in COEFFS])


def fields(text):
    return text.split(b"\t")[1:]


def read_theirs(matrix, coeffs):
    """A camera, or None for 17."""
    if len(matrix) != len(MATRIX) or len(coeffs) not in TAKEN:
        return None
    for place, entry in zip(MATRIX, matrix):
        if isinstance(place, int) and value(entry) != place:
            return None
    if any(value(entry) != 0.0 for entry in coeffs[8:]):
        return None
    camera = {place: entry for place, entry in zip(MATRIX, matrix) if isinstance(place, str)}
    camera.update(zip(COEFFS, coeffs + [ZERO] * 8))
    return camera


def judged(camera):
    if not all(math.isfinite(value(camera[name])) for name in NAMES):
        return 4
    return 5 if value(camera["fx"]) == 0.0 or value(camera["fy"]) == 0.0 else 0


def asked(text):
    """A refusal's number, 0 for none; the camera; how it is written out."""
    short = len(text) <= LONGEST
    found = OURS.fullmatch(text) if short else None
    if found:
        params = fields(found[1])
        return (0, dict(zip(NAMES, params)), theirs) if len(params) == 12 else (3, None, None)
    found = THEIRS.fullmatch(text) if short else None
    if not found:
        return 14, None, None
    camera = read_theirs(fields(found[1]), fields(found[2]))
    return (0, camera, ours) if camera else (17, None, None)


def refused(number):
    return b"refused\t%d\n" % number


def answered(text):
    number, camera, written = asked(text)
    number = number or judged(camera)
    return refused(number) if number else written(camera)


# ---- texts

NAN, LOUD_NAN, MINUS_NAN = b"7ff8000000000000", b"7ff0000000000001", b"ffffffffffffffff"
INF, MINUS_INF = b"7ff0000000000000", b"fff0000000000000"
LEAST, LARGEST = b"0000000000000001", b"7fefffffffffffff"
NEARLY_ONE = b"3fefffffffffffff"
ODD = (NAN, LOUD_NAN, MINUS_NAN, INF, MINUS_INF)
BARREL = [16.0, 16.0, 10.0, 7.5, -0.3, 0.1, 0.001, -0.0005, -0.02, 0.0, 0.0, 0.0]
WIDE = [1000.0, 1001.0, 320.5, 240.25, 0.1, -0.02, 0.003, -0.0004, 0.05, 0.006, -0.0007, 0.00008]
PLAIN = [bits(x) for x in WIDE]
OF_OURS = line(b"params", PLAIN)
M = [PLAIN[0], ZERO, PLAIN[2], ZERO, PLAIN[1], PLAIN[3], ZERO, ZERO, ONE]
C = PLAIN[4:]


def pair(matrix, coeffs):
    return line(b"matrix", matrix) + line(b"coeffs", coeffs)


OF_THEIRS = pair(M, C)


def with_entry(numbers, place, entry):
    return [*numbers[:place], entry, *numbers[place + 1 :]]


def param(place, entry):
    return line(b"params", with_entry(PLAIN, place, entry))


def entry(place, pattern):
    return pair(with_entry(M, place, pattern), C)


def coefficients(n):
    """So many, zeros past the eighth."""
    return (C + [ZERO] * 8)[:n]


def instead(text, old, new):
    assert text.count(old) >= 1, (text, old)
    return text.replace(old, new, 1)


def not_the_form():
    yield "nothing", b""
    yield "only a newline", b"\n"
    for words, text in (("ours", OF_OURS), ("theirs", OF_THEIRS)):
        yield f"{words} with a second newline", text + b"\n"
        yield f"{words} twice", text + text
        yield f"{words} with a NUL behind it", text + b"\0"
        yield f"{words} with a carriage return", text[:-1] + b"\r\n"
        yield f"{words} with a carriage return at the first line's end", instead(text, b"\n", b"\r\n")
        yield f"{words} with a space for a tab", instead(text, b"\t", b" ")
        yield f"{words} with two tabs for one", instead(text, b"\t", b"\t\t")
        yield f"{words} with a tab at the end", text[:-1] + b"\t\n"
        yield f"{words} with an upper-case digit", instead(text, b"f", b"F")
        yield f"{words} with a g", instead(text, b"4", b"g")
        yield f"{words} with 15 digits", instead(text, b"\t4", b"\t")
        yield f"{words} with 17 digits", instead(text, b"\t4", b"\t44")
        yield f"{words} with a capital in the word", text[:1].upper() + text[1:]
        yield f"{words} with a space in front", b" " + text
        yield f"{words} with a newline in front", b"\n" + text
        yield f"{words}, a byte order mark in front", b"\xef\xbb\xbf" + text
    yield "the matrix line alone", line(b"matrix", M)
    yield "the coeffs line alone", line(b"coeffs", C)
    yield "the coeffs line first", line(b"coeffs", C) + line(b"matrix", M)
    yield "a params line behind the matrix line", line(b"matrix", M) + OF_OURS
    yield "a matrix line behind ours", OF_OURS + line(b"matrix", M)
    yield "ours between theirs", line(b"matrix", M) + OF_OURS + line(b"coeffs", C)
    yield "an empty line between theirs", line(b"matrix", M) + b"\n" + line(b"coeffs", C)
    yield "a third line behind theirs", OF_THEIRS + line(b"coeffs", C)
    yield "another word of six letters", line(b"sparam", PLAIN)
    yield "a camera file", b"camera\tbc\t20\t15\n" + OF_OURS
    yield "no params", line(b"params", [])
    yield "no coefficient", pair(M, [])
    yield "no entry in the matrix", pair([], C)
    yield "neither", pair([], [])
    yield "4,097 bytes of ours", OF_OURS[:-1] + b"\n" * (4097 - len(OF_OURS) + 1)
    yield "4,104 bytes of ours that would be of the form", line(b"params", [ONE] * 241)
    yield "4,111 bytes of theirs that would be of the form", pair([ONE] * 120, [ONE] * 121)


def refusals():
    for words, text in not_the_form():
        yield 14, words, text
    for words, text in (("ours", OF_OURS), ("theirs", OF_THEIRS)):
        for n in range(len(text)):
            yield 14, f"{words} cut after {n} bytes", text[:n]
    for n in (*range(1, 12), *range(13, 17), 240):
        yield 3, f"ours with {n}", line(b"params", [ONE] * n)
    yield 3, "ours with 11, NaN among them", line(b"params", [NAN] * 11)
    yield 3, "ours with 13, fx 0", line(b"params", [ZERO] * 13)
    for place in (1, 3, 6, 7):
        for pattern in (ONE, LEAST, b"8000000000000001", NAN, INF, MINUS_INF, MINUS_NAN):
            yield 17, f"{pattern.decode()} for entry {place + 1} of the matrix", entry(place, pattern)
    for pattern in (ZERO, MINUS_ZERO, NEARLY_ONE, b"3ff0000000000001", b"bff0000000000000", NAN, INF):
        yield 17, f"{pattern.decode()} for the last entry", entry(8, pattern)
    for n in (1, 3, 4, 6, 8, 10, 12):
        yield 17, f"a matrix of {n}", pair((M + M)[:n], C)
    for n in range(1, 16):
        if n not in TAKEN:
            yield 17, f"{n} coefficients", pair(M, coefficients(n))
    yield 17, "231 coefficients, the most that fit", pair(M, [ZERO] * 231)
    yield 14, "232 coefficients, more than fit", pair(M, [ZERO] * 232)
    for n in (12, 14):
        for place in range(8, n):
            for pattern in (LEAST, ONE, NAN, MINUS_INF):
                yield 17, f"{pattern.decode()} for coefficient {place + 1} of {n}", pair(M, with_entry(coefficients(n), place, pattern))
    yield 17, "a skew before NaN", pair(with_entry(with_entry(M, 1, ONE), 0, NAN), C)
    yield 17, "a skew before fx 0", pair(with_entry(with_entry(M, 1, ONE), 0, ZERO), C)
    yield 17, "7 coefficients before NaN", pair(M, with_entry(coefficients(7), 2, NAN))
    yield 17, "a ninth before an infinity", pair(M, with_entry(with_entry(coefficients(12), 8, ONE), 0, INF))
    for place in range(12):
        for pattern in ODD:
            yield 4, f"ours with {pattern.decode()} for {NAMES[place]}", param(place, pattern)
    for place in (0, 2, 4, 5):
        for pattern in ODD:
            yield 4, f"theirs with {pattern.decode()} for {MATRIX[place]}", entry(place, pattern)
    for n in TAKEN:
        for place in range(min(n, 8)):
            yield 4, f"NaN for coefficient {place + 1} of {n}", pair(M, with_entry(coefficients(n), place, NAN))
    yield 4, "ours with NaN before fx 0", line(b"params", with_entry(with_entry(PLAIN, 11, NAN), 0, ZERO))
    yield 4, "theirs with NaN before fy 0", pair(with_entry(M, 4, ZERO), with_entry(C, 7, NAN))
    for pattern in (ZERO, MINUS_ZERO):
        for place in (0, 1):
            yield 5, f"ours with {pattern.decode()} for {NAMES[place]}", param(place, pattern)
        for place in (0, 4):
            yield 5, f"theirs with {pattern.decode()} for {MATRIX[place]}", entry(place, pattern)


def moves():
    yield "ours", OF_OURS
    yield "ours with 1 to 12", line(b"params", [bits(float(n)) for n in range(1, 13)])
    yield "theirs", OF_THEIRS
    yield "theirs with 1 to 4 and 5 to 12", pair([bits(1.0), ZERO, bits(3.0), ZERO, bits(2.0), bits(4.0), ZERO, ZERO, ONE], [bits(float(n)) for n in range(5, 13)])
    for n in TAKEN:
        yield f"{n} coefficients", pair(M, coefficients(n))
    for n in (12, 14):
        yield f"{n} coefficients, those past the eighth -0", pair(M, C + [MINUS_ZERO] * (n - 8))
    for place in (1, 3, 6, 7):
        yield f"-0 for entry {place + 1} of the matrix", entry(place, MINUS_ZERO)
    yield "-0 for all four", pair([*M[:1], MINUS_ZERO, M[2], MINUS_ZERO, *M[4:6], MINUS_ZERO, MINUS_ZERO, ONE], C)
    for pattern in (ZERO, MINUS_ZERO, LEAST, LARGEST):
        for place in range(2, 12):
            yield f"ours with {pattern.decode()} for {NAMES[place]}", param(place, pattern)
    for pattern in (LEAST, LARGEST, b"8000000000000001", b"ffefffffffffffff"):
        for place in (0, 1):
            yield f"ours with {pattern.decode()} for {NAMES[place]}", param(place, pattern)
    for place in (2, 5):
        yield f"theirs with -0 for {MATRIX[place]}", entry(place, MINUS_ZERO)
    for place in range(8):
        yield f"theirs with -0 for {COEFFS[place]}", pair(M, with_entry(C, place, MINUS_ZERO))


def round_trips():
    """500 cameras of ours and 500 of theirs, random patterns: what each gives, and what that gives."""
    source = random.Random(8)

    def pattern(nonzero=False):
        while True:
            p = b"%016x" % source.getrandbits(64)
            if math.isfinite(value(p)) and not (nonzero and value(p) == 0.0):
                return p

    for n in range(500):
        mine = line(b"params", [pattern(True), pattern(True), *(pattern() for _ in range(10))])
        there = answered(mine)
        assert answered(there) == mine
        yield f"ours, random {n + 1}", mine
        yield f"ours, random {n + 1}, back", there
    for n in range(500):
        matrix = [pattern(True), ZERO, pattern(), ZERO, pattern(True), pattern(), ZERO, ZERO, ONE]
        many = TAKEN[n % len(TAKEN)]
        coeffs = [*(pattern() for _ in range(min(many, 8))), *(source.choice((ZERO, MINUS_ZERO)) for _ in range(many - 8))]
        yours = pair(matrix, coeffs)
        there = answered(yours)
        assert answered(there) == pair(matrix, (coeffs + [ZERO] * 8)[:8])
        yield f"theirs, random {n + 1}", yours
        yield f"theirs, random {n + 1}, back", there


def cases():
    for words, text in (*moves(), *round_trips()):
        answer = answered(text)
        assert not answer.startswith(b"refused"), words
        yield f"# {words}\n".encode(), text, answer
    for number, words, text in refusals():
        assert answered(text) == refused(number), (number, words, answered(text))
        yield f"# {number}: {words}\n".encode(), text, refused(number)


def files():
    found = [(words, text[: LONGEST + 1], answer) for words, text, answer in cases()]
    yield "crates/test_opencv_params/stdin", b"".join(part(words) + part(text) for words, text, _ in found)
    yield "crates/test_opencv_params/stdout", b"".join(words + answer for words, _, answer in found) + b"cases\t%d\n" % len(found)
    yield "crates/opencv_params/stdin", OF_OURS
    yield "crates/opencv_params/stdout", answered(OF_OURS)


def self_test():
    camera = dict(zip(NAMES, PLAIN))
    assert ours(camera) == OF_OURS and theirs(camera) == OF_THEIRS
    assert answered(OF_OURS) == OF_THEIRS and answered(OF_THEIRS) == OF_OURS
    assert len(OF_OURS) == 211 and len(OF_THEIRS) == 303
    numbers = {number for number, _, _ in refusals()}
    assert numbers == {14, 3, 17, 4, 5}, numbers
    # a list of every length from 0 to 15, whatever becomes of it
    lengths = {text.count(b"\t") - 9 for _, text in moves() if text.startswith(b"matrix")}
    lengths |= {text.count(b"\t") - 9 for number, words, text in refusals() if words.endswith("coefficients") and number == 17}
    lengths |= {text.count(b"\t") - 9 for _, words, text in refusals() if words == "no coefficient"}
    assert set(range(16)) <= lengths, lengths
    texts = [text for _, text, _ in cases()]
    assert sum(1 for _ in round_trips()) == 2000
    for text in texts:
        answer = answered(text)
        if not answer.startswith(b"refused"):
            assert answered(answer) == (text if text.startswith(b"params") else pair(*blank(text))), text
    print(f"self-test passed, {len(texts)} cases")


def blank(text):
    """The numbers of theirs as they come back."""
    found = THEIRS.fullmatch(text)
    matrix, coeffs = fields(found[1]), fields(found[2])
    for place in (1, 3, 6, 7):
        matrix[place] = ZERO
    return matrix, (coeffs + [ZERO] * 8)[:8]


if __name__ == "__main__":
    make(files, self_test)
