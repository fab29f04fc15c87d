#!/usr/bin/env python3
"""Makes what the mending of a listing is run on, and what has to be written:

    crates/test_mend_listing/stdin, stdout       many camera files and damaged listings, one after the other
    crates/mend_listing/args, data, stdout       one of 4,096 cells, as two files

    python3 tools/make_mend_inputs.py              writes the files
    python3 tools/make_mend_inputs.py --self-test  tests what can be tested beside that, and writes nothing

What is owed comes from tools/listings.py, written from docs/RULES.md and request P12, and from the tables of
tools/lens_tables.py. No code of the crates takes part.
"""
import functools

import make_printer_inputs as printer_inputs
from lens_models import AFFINE, BC, BC12, EUCM, KB
from listings import cell_line, kept, mended, mended_status, read, refused, region_line, table_line
from make_leaf_vectors import Splitmix
from make_printer_inputs import BARREL, EXAMPLE, KB_TEST, camera_file, printed
from model_questions import BC_EXAMPLE, PRISM
from parts import make, part

# Of how many bytes the pieces are that a listing is handed over in; None is for one that is mended at once.
PIECES = (None, 1, 2, 3, 7, 26, 27, 28, 33, 34, 63, 64, 65, 96, 1000, 4096)

# ---- tables

CAMERAS = {
    "affine": EXAMPLE,
    "eucm": camera_file(EUCM, (500.0, 500.0, 16.0, 12.0, 0.5, 1.0), 5, 4),
    "kb": camera_file(KB, KB_TEST, 8, 6),
    "bc": camera_file(BC, (4.8, 4.8, 3.0, 2.5, *BC_EXAMPLE), 6, 5),
    "bc, barrel": camera_file(BC, (4.8, 4.8, 3.0, 2.5, *BARREL), 6, 5),
    "bc12": camera_file(BC12, (10.0, 10.0, 6.0, 1.5, *BC_EXAMPLE, *PRISM), 12, 3),
}
# 4,096 cells, as many as there may be, in two shapes.
SQUARE = camera_file(BC, (60.0, 61.0, 32.0, 31.0, *BARREL), 64, 64)
HIGH = camera_file(AFFINE, (100.0, 100.0, 0.5, 1024.0), 2, 2048)


@functools.cache
def fresh(camera):
    return printed(camera)


def lines(text):
    return text.splitlines(keepends=True)


def cells_of(text):
    """The lines of a listing's cells."""
    return lines(text)[2:]


TINY = camera_file(AFFINE, (2.0, 3.0, 0.5, 0.25), 2, 2)
WHOLE = fresh(EXAMPLE)
CELL = lines(WHOLE)[4]  # cell 2 0
OTHER = cell_line(2, 0, 0x12345678, 0x9ABCDEF0)  # the same cell with other bits
assert read(WHOLE) and CELL.startswith(b"cell\t2\t0\t")


def with_line(k, line, text=WHOLE):
    found = lines(text)
    return b"".join([*found[:k], line, *found[k + 1 :]])


def behind(k, line, text=WHOLE):
    """A text with one more line behind its k-th."""
    found = lines(text)
    return b"".join([*found[:k], line, *found[k:]])


def without(k, text=WHOLE):
    return with_line(k, b"", text)


def swapped(j, k, text=WHOLE):
    found = lines(text)
    found[j], found[k] = found[k], found[j]
    return b"".join(found)


def in_place(line):
    """The example with something else where cell 2 0 was."""
    return with_line(4, line)


def instead(old, new):
    """The same, with a part of that cell's line replaced."""
    assert CELL.count(old), old
    return in_place(CELL.replace(old, new, 1))


# ---- damages of any listing


def flipped(text, bit):
    place = bit // 8
    return text[:place] + bytes([text[place] ^ 1 << bit % 8]) + text[place + 1 :]


def shuffled(found, bits):
    found = list(found)
    for i in range(len(found) - 1, 0, -1):
        j = bits(64) % (i + 1)
        found[i], found[j] = found[j], found[i]
    return found


def with_others(text, which):
    """A listing with other bits in some cells."""
    return b"".join(
        line[:-2] + (b"1" if line[-2:-1] == b"0" else b"0") + b"\n" if k >= 2 and which(k - 2) else line
        for k, line in enumerate(lines(text))
    )


def of_any(text):
    """Words and damaged text."""
    bits, found = Splitmix(len(text)).bits, lines(text)
    last = len(found) - 1
    yield "whole", text
    for k in sorted({0, 1, 2, 3, last // 2, last}):
        yield f"line {k + 1} dropped", without(k, text)
        yield f"line {k + 1} doubled", behind(k, found[k], text)
        yield f"line {k + 1} cut in its middle", with_line(k, found[k][: len(found[k]) // 2] + b"\n", text)
        yield f"line {k + 1} without its newline", with_line(k, found[k][:-1], text)
        yield f"line {k + 1} with a carriage return", with_line(k, found[k][:-1] + b"\r\n", text)
        yield f"line {k + 1} with a NUL in its middle", with_line(k, found[k][:9] + b"\0" + found[k][10:], text)
        yield f"line {k + 1} in upper case", with_line(k, found[k].upper(), text)
    for j, k in ((0, 1), (1, 2), (2, 3), (2, last), (last - 1, last)):
        yield f"lines {j + 1} and {k + 1} swapped", swapped(j, k, text)
    yield "every second line dropped", b"".join(found[::2])
    yield "every line doubled", b"".join(line + line for line in found)
    yield "the lines in the other order", b"".join(reversed(found))
    yield "the lines in any order", b"".join(shuffled(found, bits))
    yield "cut after two thirds", text[: len(text) * 2 // 3]
    yield "its first third lost", text[len(text) // 3 :]
    yield "a hole in its middle", text[: len(text) // 3] + text[len(text) // 2 :]
    yield "without its last byte", text[:-1]
    for n in range(12):
        yield f"one bit flipped, {n + 1}", flipped(text, bits(64) % (8 * len(text)))
    many = text
    for _ in range(len(found) // 2):
        many = flipped(many, bits(64) % (8 * len(text)))
    yield "a bit flipped in some lines", many
    yield "other bits in every third cell", with_others(text, lambda i: i % 3 == 1)
    yield "other bits in every cell", with_others(text, lambda i: True)
    some = with_others(text, lambda i: i % 2 == 0)
    yield "other bits in every second cell, every third line lost", b"".join(
        line for k, line in enumerate(lines(some)) if k % 3
    )
    yield "carriage returns before all newlines", text.replace(b"\n", b"\r\n")
    yield "zeros before the numbers of some lines", b"".join(
        line.replace(b"cell\t", b"cell\t0") if k % 4 == 3 else line for k, line in enumerate(found)
    )
    yield "upper-case digits in every cell", b"".join(
        line[:-18] + line[-18:].upper() if k > 1 else line for k, line in enumerate(found)
    )
    width, height = found[0].split(b"\t")[1:3]
    for words, place in (("column", width + b"\t0"), ("row", b"0\t" + height)):
        outside = b"cell\t" + place + found[-1][-19:]
        yield f"a line of a {words} that the table hasn't", behind(1, outside, with_line(last, outside, text))
    yield "spaces for tabs in some lines", b"".join(
        line.replace(b"\t", b" ") if k % 5 == 3 else line for k, line in enumerate(found)
    )
    yield "the cells alone", b"".join(found[2:])
    yield "what is printed of it with every second line dropped", mended(text, b"".join(found[::2]))


# ---- damages of a small one, at each line, byte and bit


def each_line():
    for k in range(8):
        yield f"line {k + 1} dropped", without(k)
        yield f"line {k + 1} doubled", behind(k + 1, lines(WHOLE)[k])
        yield f"nothing but line {k + 1}", lines(WHOLE)[k]
        yield f"an empty line behind line {k + 1}", behind(k + 1, b"\n")
    for j in range(8):
        for k in range(j + 1, 8):
            yield f"lines {j + 1} and {k + 1} swapped", swapped(j, k)


def each_byte(text):
    for n in range(len(text)):
        yield f"cut after {n} bytes", text[:n]
        yield f"without byte {n}", text[:n] + text[n + 1 :]
        yield f"with byte {n} twice", text[: n + 1] + text[n:]
        yield f"a newline before byte {n}", text[:n] + b"\n" + text[n:]


def each_bit(text):
    first, last = (text.index(b"\ncell\t%d\t1\t" % u) for u in (0, 1))
    for n in range(8 * first, 8 * last + 8):
        yield f"bit {n} flipped", flipped(text, n)


# ---- a line that is nearly one of a cell

NEXT_TO_DIGITS = b"/:`g@AFG \xb0"


def near_lines():
    for byte in NEXT_TO_DIGITS:
        for place in (9, 16, 18, 25):
            line = CELL[:place] + bytes([byte]) + CELL[place + 1 :]
            yield f"byte {byte} for the digit at {place}", in_place(line)
    for byte in (b"\0", b"\r", b" ", b"\t", b"\x1a", b"\x7f", b"\xff", b"\n"):
        yield f"byte {byte[0]} for a tab", instead(b"\t", byte)
        yield f"byte {byte[0]} before the newline", in_place(CELL[:-1] + byte + b"\n")
        yield f"byte {byte[0]} before the line", in_place(byte + CELL)
        yield f"byte {byte[0]} in the middle", in_place(CELL[:12] + byte + CELL[12:])
    for u in ("", "02", "002", "00", "+2", "-2", " 2", "2 ", "2.", "0x2", "two", "3", "4", "9", "10", "12", "258",
              "4095", "4096", "9999", "10000", "65536", "65538", "4294967296", "4294967298", "18446744073709551616",
              "18446744073709551618", "2" * 30, "0" * 30, "2" * 90):  # fmt: skip
        yield f"{u} for a column", in_place(b"cell\t%s\t0\t40800000\tbfc00000\n" % u.encode())
    for v in ("", "00", "000", "+0", "-0", " 0", "0 ", "2", "3", "10", "256", "4095", "4096", "10000", "65536",
              "4294967296", "18446744073709551616", "0" * 30, "1" * 90):  # fmt: skip
        yield f"{v} for a row", in_place(b"cell\t2\t%s\t40800000\tbfc00000\n" % v.encode())
    yield "the greatest column and row, twice", WHOLE + 2 * cell_line(4095, 4095, 1, 2)
    for words, old, new in (
        ("an upper-case digit", b"bfc", b"BFC"), ("one upper-case digit", b"bfc", b"bFc"),
        ("7 digits", b"40800000", b"4080000"), ("9 digits", b"40800000", b"408000000"),
        ("no digits", b"40800000", b""), ("7 and 9 digits", b"40800000\tbfc00000", b"4080000\t0bfc00000"),
        ("9 and 7 digits", b"40800000\tbfc00000", b"40800000b\tfc00000"), ("0x", b"40800000", b"0x408000"),
        ("a sign", b"40800000", b"-0800000"), ("one number", b"\t40800000", b""),
        ("three numbers", b"\t40800000", b"\t40800000\t40800000"), ("two tabs", b"\t", b"\t\t"),
        ("a tab at the end", b"\n", b"\t\n"), ("a blank at the end", b"\n", b" \n"), ("two blanks", b"\n", b"  \n"),
        ("Cell", b"cell", b"Cell"), ("cells", b"cell", b"cells"), ("cel", b"cell", b"cel"), ("CELL", b"cell", b"CELL"),
        ("filled", b"cell", b"filled"), ("differs", b"cell", b"differs"), ("no word", b"cell\t", b""),
        ("a word and no more", CELL, b"cell\n"), ("a word and tabs", CELL, b"cell\t\t\t\t\n"),
        ("no place", b"2\t0\t", b""), ("places swapped", b"2\t0\t", b"0\t2\t"),
    ):  # fmt: skip
        yield f"{words} in a line", instead(old, new)
    patterns = ("an infinity", 0x7F800000), ("a NaN", 0x7FC00001), ("another NaN", 0xFFFFFFFF), ("-0", 0x80000000)
    for word, new in patterns:
        yield f"{word} in a cell", in_place(cell_line(2, 0, new, 0xBFC00000))
        yield f"{word} in a cell's second number", in_place(cell_line(2, 0, 0x40800000, new))
    yield "a cell's numbers swapped", in_place(cell_line(2, 0, 0xBFC00000, 0x40800000))


# ---- a cell that occurs again


def again():
    for k in range(2, 8):
        u, v = (k - 2) % 3, (k - 2) // 3
        other = cell_line(u, v, 0x12345678, 0x9ABCDEF0)
        yield f"cell {u} {v} with other bits before it", behind(k, other)
        yield f"cell {u} {v} with other bits behind it", behind(k + 1, other)
        yield f"cell {u} {v} with other bits before all", other + WHOLE
        yield f"cell {u} {v} with other bits behind all", WHOLE + other
        yield f"cell {u} {v} for its neighbour, with other bits", with_line(2 + (k - 1) % 6, other)
    yield "other bits, others, and the cell", behind(4, OTHER + cell_line(2, 0, 1, 2))
    yield "others in the other order, and the cell", behind(4, cell_line(2, 0, 1, 2) + OTHER)
    yield "a bad line of the cell before it", behind(4, OTHER.replace(b"\n", b" \n"))
    yield "a bad line of the cell, another, and the cell", behind(4, OTHER.replace(b"\n", b"\r\n") + OTHER)
    yield "the listing twice", WHOLE + WHOLE
    yield "the listing twice, with other bits in the first", with_others(WHOLE, lambda i: i % 2) + WHOLE
    yield "the listing twice, with other bits in the second", WHOLE + with_others(WHOLE, lambda i: i % 2)


# ---- long lines, and texts that are no listing

LONG = (1, 5, 26, 27, 31, 32, 33, 34, 35, 48, 63, 64, 65, 66, 69, 95, 96, 97, 128, 192, 4095, 4096, 4097, 8192)


def long_lines():
    for n in LONG:
        yield f"a cell's line behind {n} bytes of another", in_place(b"x" * n + CELL)
        yield f"a cell's line before {n} bytes of another", in_place(CELL[:-1] + b"x" * n + b"\n")
        yield f"a line of {n} bytes before a cell's", in_place(b"x" * (n - 1) + b"\n" + CELL)
    for n in LONG[:20]:
        yield f"a cell's line behind {n} digits of itself", in_place((CELL[:-1] * 8)[:n] + CELL)
        yield f"{n} zeros for a column", in_place(b"cell\t" + b"0" * n + b"\t0\t40800000\tbfc00000\n")
        yield f"a cell's line cut at {n} by a newline", in_place((CELL[:n] + b"\n" + CELL[n:]))
    for n in (2, 3, 4):
        yield f"{n} lines of a cell run together", in_place(CELL[:-1] * (n - 1) + CELL)


def no_listings():
    bits = Splitmix(12).bits
    yield "nothing", b""
    yield "a newline", b"\n"
    yield "newlines", b"\n" * 5000
    yield "no newline", b"x"
    yield "an endless line", b"7" * 9000
    yield "an endless line of cells without a newline", CELL[:-1] * 400
    yield "an endless line, then the listing", b"7" * 9000 + b"\n" + WHOLE
    yield "an endless line that ends with the listing", b"7" * 9000 + WHOLE
    yield "NULs", b"\0" * 5000
    yield "NULs before the listing", b"\0" * 5000 + WHOLE
    yield "NULs behind the listing", WHOLE + b"\0" * 5000
    yield "every byte", bytes(range(256)) * 8
    for n in range(4):
        found = bytes(bits(8) for _ in range(3000))
        yield f"any bytes, {n + 1}", found
        yield f"any bytes, {n + 1}, and then the listing", found + b"\n" + WHOLE
    yield "a camera file", EXAMPLE
    yield "a refusal's line", refused(6)
    yield "a byte order mark before the listing", b"\xef\xbb\xbf" + WHOLE
    yield "a byte order mark before the cells", b"\xef\xbb\xbf" + b"".join(cells_of(WHOLE))
    yield "sixteen bits a character", WHOLE.decode().encode("utf-16-le")
    yield "carriage returns for newlines", WHOLE.replace(b"\n", b"\r")
    region = with_line(1, region_line((1, 2, 3, 4)))
    yield "another table line and another region", with_line(0, table_line(7, 9, 99), region)
    yield "a listing of another size, smaller", fresh(camera_file(AFFINE, (1.0, 1.0, 0.0, 0.0), 2, 2))
    yield "a listing of another size, larger", fresh(camera_file(AFFINE, (1.0, 1.0, 0.0, 0.0), 5, 4))
    yield "a listing of as many cells, otherwise shaped", fresh(camera_file(AFFINE, (1.0, 1.0, 0.0, 0.0), 2, 3))
    yield "another camera's listing of this size", fresh(camera_file(AFFINE, (1.5, 1.0, 0.0, 0.0), 3, 2))
    yield "the cells of a larger listing, 12 by 3", b"".join(cells_of(fresh(CAMERAS["bc12"])))
    once = mended(WHOLE, in_place(b""))
    assert once == WHOLE + b"filled\t2\t0\n"
    yield "a mended listing with its report", once
    twice = mended(WHOLE, without(3, in_place(OTHER)))
    assert twice.endswith(b"\nfilled\t1\t0\ndiffers\t2\t0\n")
    yield "a mended listing with both reports", twice
    yield "the reports alone", b"filled\t1\t0\ndiffers\t2\t0\n"
    yield "the reports before the listing", b"filled\t1\t0\ndiffers\t2\t0\n" + in_place(b"")


# ---- the example of RULES 16.9: a line lost, one garbled, a cell with another bit, a cell twice

BY_HAND = b"".join(
    (
        *lines(WHOLE)[:2],
        b"cell\t1\t0\t3f800000\tbfc00000\n",
        b"cell\t0\t0\tc0000000\tbfc00001\n",
        b"cell\t2\t0\t40800000\tBFC00000\n",
        b"cell\t0\t1\tc0000000\t40200000\n",
        b"cell\t0\t1\tc0000000\t40200010\n",
        b"cell\t2\t1\t40800000\t40200000\n",
    )
)

# ---- the files


def damaged():
    """Words, camera file, listing."""
    yield "the rules' example", EXAMPLE, BY_HAND
    for name, camera in CAMERAS.items():
        for words, text in of_any(fresh(camera)):
            yield f"{name}: {words}", camera, text
    for found in (each_line(), near_lines(), again(), long_lines(), no_listings()):
        for words, text in found:
            yield words, EXAMPLE, text
    for words, text in (*each_byte(fresh(TINY)), *each_bit(fresh(TINY))):
        yield f"2 by 2: {words}", TINY, text


def large():
    """4,096 cells: words, camera file, listing."""
    found = lines(fresh(HIGH))
    some = found[::-1][: len(found) // 2] + [b"x" * 5000 + found[7]] + found[2::5]
    yield "2 by 2048, from its last line on, half of it, and then every fifth", HIGH, b"".join(some)
    assert len(b"".join(some)) <= 100_000


def refusals():
    """Every refusal of the printer, each with a listing: words, camera file, listing, number."""
    for n, (number, words, camera) in enumerate(printer_inputs.REFUSED):
        yield f"{number}: {words}", camera, (WHOLE, b"", BY_HAND)[n % 3], number


def cases():
    """Words, camera file, listing, length of a piece, what is printed. Each question is asked in pieces of one length,
    but the rules' example and one damage of each model are asked in pieces of every length."""
    asked = set()
    for n, (words, camera, text) in enumerate((*damaged(), *large())):
        if (camera, text) in asked:
            continue
        asked.add((camera, text))
        every = "rules" in words or "every third line lost" in words
        for length in PIECES if every else PIECES[n % len(PIECES) :][:1]:
            yield words, camera, text, length, mended(fresh(camera), text)
    for n, (words, camera, text, number) in enumerate(refusals()):
        answer = mended(fresh(camera), text)
        assert answer == refused(number), words
        yield words, camera, text, PIECES[n % len(PIECES)], answer


def heading(words, length):
    return f"# {words}, {length or 'all'} at a time\n".encode()


def asked_of(words, camera, text, length):
    """The parts of a case: the listing at once, or an empty part, the pieces and an empty part. An empty listing has no
    pieces."""
    pieces = [text[at : at + length] for at in range(0, len(text), length)] if length else []
    listing = (text,) if text and not length else (b"", *pieces, b"")
    return b"".join(map(part, (heading(words, length), camera, *listing)))


def for_the_program():
    """One pair for the program itself, 64 by 64: some lines lost, some cut, some with other bits, some run into the
    next, and an end without a newline. The file is many times as long as what the program reads at once."""
    found = lines(with_others(fresh(SQUARE), lambda i: i % 13 == 5))
    kinds = {3: lambda line: b"", 8: lambda line: line[:20] + b"\n", 11: lambda line: line[:-1]}
    return b"".join(kinds.get(k % 17, lambda line: line)(line) for k, line in enumerate(found)) + found[5][:-1]


def files():
    found = list(cases())
    yield "crates/test_mend_listing/stdin", b"".join(asked_of(*question) for *question, _ in found)
    answered = b"".join(heading(words, n) + answer for words, _, _, n, answer in found)
    answered += b"cases\t%d\n" % len(found)
    assert len(answered) < 1 << 20  # no more is taken of a program
    yield "crates/test_mend_listing/stdout", answered
    yield "crates/mend_listing/args", b"camera.txt\nlisting.txt\n"
    yield "crates/mend_listing/data/camera.txt", SQUARE
    yield "crates/mend_listing/data/listing.txt", for_the_program()
    yield "crates/mend_listing/stdout", mended(fresh(SQUARE), for_the_program())


def spelled_back(w, h, line):
    """Whether a line gives a cell, asked in another way: the numbers that can be made out are written again, and have
    to give the same bytes."""
    try:
        _, u, v, a, b = line.split(b"\t")
        u, v, a, b = int(u), int(v), int(a, 16), int(b, 16)
        return 0 <= u < w and 0 <= v < h and min(a, b) >= 0 and max(a, b) < 2**32 and cell_line(u, v, a, b) == line
    except ValueError:
        return False


def self_test():
    assert mended(WHOLE, BY_HAND).replace(b"\t", b" ").decode().splitlines() == [
        "table 3 2 0",
        "region c000000000000000 bff8000000000000 4010000000000000 4004000000000000",
        "cell 0 0 c0000000 bfc00001", "cell 1 0 3f800000 bfc00000", "cell 2 0 40800000 bfc00000",
        "cell 0 1 c0000000 40200000", "cell 1 1 3f800000 40200000", "cell 2 1 40800000 40200000",
        "filled 2 0", "filled 1 1", "differs 0 0"]  # fmt: skip
    assert {n for *_, n in refusals()} == {1, 3, 4, 5, 6, 8, 10, 11, 12, 14, 16}
    statuses, counts = [0, 0, 0], []
    for words, camera, text, _, answer in cases():
        statuses[mended_status(answer)] += 1
        if answer.startswith(b"refused"):
            continue
        size, *header, pairs = read(fresh(camera))
        w, h = size
        printed_lines = lines(answer)
        assert printed_lines[:2] == header, words
        # Every cell once, in row order, and mending again gives the same cells.
        cells = printed_lines[2 : 2 + w * h]
        assert [line.split(b"\t")[1:3] for line in cells] == [[b"%d" % (i % w), b"%d" % (i // w)] for i in range(w * h)]
        assert lines(mended(fresh(camera), answer))[2 : 2 + w * h] == cells, words
        # The lines that give a cell, found in another way; the last of the text's parts has no newline.
        parts = text.split(b"\n")
        good = [line + b"\n" for line in parts[:-1] if spelled_back(w, h, line + b"\n")]
        given = kept(w, h, text)
        assert {line for line in given.values()} <= set(good), words
        assert {tuple(map(int, line.split(b"\t")[1:3])) for line in good} == set(given), words
        told = printed_lines[2 + w * h :]
        fills = [line for line in told if line.startswith(b"filled\t")]
        assert len(fills) == w * h - len(given) and told[: len(fills)] == fills, words
        assert len(told) - len(fills) == sum(x not in lines(fresh(camera)) for x in given.values()), words
        counts.append((len(fills), len(told) - len(fills)))
    assert mended(WHOLE, WHOLE) == WHOLE and min(statuses) > 5, statuses
    assert sum(1 for fills, others in counts if fills and others) > 20
    answer = mended(fresh(SQUARE), for_the_program())
    assert len(for_the_program()) > 20 * 4096 and b"\nfilled\t" in answer and b"\ndiffers\t" in answer
    print(f"self-test passed: {sum(statuses)} questions, statuses 0, 1 and 2: {statuses}")


if __name__ == "__main__":
    make(files, self_test)
