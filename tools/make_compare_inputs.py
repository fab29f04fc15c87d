#!/usr/bin/env python3
"""Makes what the comparing of two listings is run on, and what has to be written:

    crates/test_compare_listings/stdin, stdout       many pairs of texts, one after the other
    crates/compare_listings/args, data, stdout       one pair, as two files

    python3 tools/make_compare_inputs.py              writes the files
    python3 tools/make_compare_inputs.py --self-test  tests what can be tested beside that, and writes nothing

What is owed comes from tools/listings.py, written from docs/RULES.md and request P1. Each refused text stands here with
its number, and `compared` must say the same. No code of the crates takes part.
"""
from listings import LONGEST, MOST, UPDATES, cell_line, compared, read, refused, status, written
from make_leaf_vectors import Splitmix
from make_printer_inputs import EXAMPLE, printed
from parts import make, part

# ---- listings

EDGES = (0xC000000000000000, 0xBFF8000000000000, 0x4010000000000000, 0x4004000000000000)
PAIRS = ((0xC0000000, 0xBFC00000), (0x3F800000, 0xBFC00000), (0x40800000, 0xBFC00000),
         (0xC0000000, 0x40200000), (0x3F800000, 0x40200000), (0x40800000, 0x40200000))  # fmt: skip
OLD = written(3, 2, 0, EDGES, PAIRS)  # the rules' example
SMALL = written(2, 2, 7, EDGES, PAIRS[:4])
NANS = (0x7FC00000, 0x7FC00001, 0x7F800001, 0xFFFFFFFF)


def numbers(w, h, seed):
    """A listing's numbers, drawn from a seed; the patterns may be any."""
    bits = Splitmix(seed).bits
    return w, h, bits(32), [bits(64) for _ in range(4)], [(bits(32), bits(32)) for _ in range(w * h)]


def drawn(w, h, seed):
    return written(*numbers(w, h, seed))


def with_pair(i, pair):
    """The example with another cell i."""
    return written(3, 2, 0, EDGES, [*PAIRS[:i], pair, *PAIRS[i + 1 :]])


def with_edge(k, edge):
    return written(3, 2, 0, [*EDGES[:k], edge, *EDGES[k + 1 :]], PAIRS)


def lines(text):
    return text.splitlines(keepends=True)


def instead(old, new, text=OLD):
    assert text.count(old), old
    return text.replace(old, new, 1)


# ---- pairs that are compared

OTHERS = written(3, 2, 41, [edge ^ 1 for edge in EDGES], [(a ^ 1, b ^ 0x80000000) for a, b in PAIRS])


def differences():
    yield "equal", OLD, OLD
    yield "equal, of the smallest size", SMALL, SMALL
    for bit in range(64):
        a, b = PAIRS[4]
        yield f"bit {bit} of a cell", OLD, with_pair(4, (a ^ 1 << bit & 0xFFFFFFFF, b ^ 1 << bit >> 32))
    for i, (a, b) in enumerate(PAIRS):
        yield f"cell {i + 1} alone", OLD, with_pair(i, (a ^ 1, b ^ 1))
        yield f"cell {i + 1} alone, the other way round", with_pair(i, (a ^ 1, b ^ 1)), OLD
    for k in range(4):
        for bit in (0, 31, 32, 63):
            yield f"bit {bit} of edge {k + 1}", OLD, with_edge(k, EDGES[k] ^ 1 << bit)
    for updates in (1, 9, 10, 4095, 99999, UPDATES - 1):
        yield f"updates 0 and {updates}", OLD, written(3, 2, updates, EDGES, PAIRS)
        yield f"updates {updates} and 0", written(3, 2, updates, EDGES, PAIRS), OLD
    yield "all cells, the region and the updates", OLD, OTHERS
    yield "the same, the other way round", OTHERS, OLD
    yield "all cells", OLD, written(3, 2, 0, EDGES, [(a ^ 1, b) for a, b in PAIRS])
    yield "region and updates, no cell", OLD, written(3, 2, 41, [edge ^ 1 for edge in EDGES], PAIRS)
    yield "updates and the last cell", OLD, instead(b"\t2\t0\n", b"\t2\t8\n", with_pair(5, (0, 0)))
    yield "0 and -0", with_pair(2, (0, 0)), with_pair(2, (0x80000000, 0x80000000))
    yield "the infinities", with_pair(2, (0x7F800000, 0)), with_pair(2, (0xFF800000, 0))
    yield "one NaN twice", with_pair(2, (NANS[0], NANS[3])), with_pair(2, (NANS[0], NANS[3]))
    for one in NANS:
        for two in NANS:
            if one != two:
                yield f"NaN {one:08x} and NaN {two:08x}", with_pair(3, (0, one)), with_pair(3, (0, two))
    yield "edges that are NaNs", with_edge(2, 0x7FF8000000000000), with_edge(2, 0xFFFFFFFFFFFFFFFF)
    digits = 0x0123456789ABCDEF, 0xFEDCBA9876543210, 0, (1 << 64) - 1
    pairs = (0x01234567, 0x89ABCDEF), (0xFEDCBA98, 0x76543210), (0, 1), (2, 3)
    yield "every digit", written(2, 2, 1234567890, digits, pairs), SMALL
    yield "16 by 3", drawn(16, 3, 1), drawn(16, 3, 2)
    yield "3 by 16", drawn(3, 16, 3), drawn(3, 16, 4)
    yield "12 by 101, numbers of 1 to 3 digits, equal", drawn(12, 101, 5), drawn(12, 101, 5)


def long_differences():
    """A listing of as many columns or rows as there may be, and one with two other cells."""
    for w, h in ((MOST, 2), (2, MOST)):
        *rest, pairs = numbers(w, h, w)
        others = list(pairs)
        for i in (999, w * h - 1):
            others[i] = (pairs[i][0] ^ 1, pairs[i][1])
        yield f"{w} by {h}, two cells", written(*rest, pairs), written(*rest, others)


# ---- texts that are no listing


def without(k, text=OLD):
    found = lines(text)
    return b"".join(found[:k] + found[k + 1 :])


def swapped(j, k):
    found = lines(OLD)
    found[j], found[k] = found[k], found[j]
    return b"".join(found)


def with_line(k, line):
    found = lines(OLD)
    found[k] = line
    return b"".join(found)


def behind(k, line):
    """The example with one more line behind its k-th."""
    found = lines(OLD)
    return b"".join([*found[:k], line, *found[k:]])


CELL = lines(OLD)[4]  # cell 2 0
BY_COLUMNS = b"".join([*lines(OLD)[:2], *(cell_line(i // 2, i % 2, *PAIRS[i]) for i in range(6))])
NEXT_TO_DIGITS = b"/:`g@AFG \xb0"

NO_LISTING = [
    ("nothing", b""),
    ("only a newline", b"\n"),
    ("a refused listing", refused(14)),
    ("a refused listing of a number that is none", refused(99)),
    ("a refused line before the listing", refused(6) + OLD),
    ("a refused line behind the listing", OLD + refused(6)),
    ("a camera file", EXAMPLE),
    ("no newline at the end", OLD[:-1]),
    ("two newlines at the end", OLD + b"\n"),
    ("a newline before the first line", b"\n" + OLD),
    ("an empty line behind the region", behind(2, b"\n")),
    ("a NUL at the end", OLD + b"\0"),
    ("a NUL before the first line", b"\0" + OLD),
    ("a space at the end", OLD + b" "),
    ("carriage returns before all newlines", OLD.replace(b"\n", b"\r\n")),
    ("a carriage return before the first newline", instead(b"\n", b"\r\n")),
    ("a carriage return before the last newline", OLD[:-1] + b"\r\n"),
    ("carriage returns for newlines", OLD.replace(b"\n", b"\r")),
    ("a byte order mark", b"\xef\xbb\xbf" + OLD),
    ("the listing twice", OLD + OLD),
    # lines
    ("no table line", without(0)),
    ("no region line", without(1)),
    ("two table lines", behind(1, lines(OLD)[0])),
    ("two region lines", behind(2, lines(OLD)[1])),
    ("the region before the table", swapped(0, 1)),
    ("the region behind the cells", without(1) + lines(OLD)[1]),
    *((f"cell line {k - 1} missing", without(k)) for k in range(2, 8)),
    *((f"cell line {k - 1} twice", behind(k, lines(OLD)[k])) for k in range(2, 8)),
    *((f"cell lines {k - 1} and {k} in the other order", swapped(k, k + 1)) for k in range(2, 7)),
    ("a seventh cell, below the last row", OLD + cell_line(0, 2, 0, 0)),
    ("a seventh cell, right of the last column", OLD + cell_line(3, 1, 0, 0)),
    ("a fourth cell in the first row", behind(5, cell_line(3, 0, 0, 0))),
    ("one cell for another", with_line(3, lines(OLD)[2])),
    ("the rows in the other order", b"".join(lines(OLD)[:2] + lines(OLD)[5:] + lines(OLD)[2:5])),
    ("cells by columns", BY_COLUMNS),
    ("a line of six columns in place of two of three", written(6, 1, 0, EDGES, PAIRS)),
    ("cells 3 by 2, but a table line that says 3 by 3", instead(b"\t3\t2\t", b"\t3\t3\t")),
    ("cells 3 by 2, but a table line that says 2 by 2", instead(b"\t3\t2\t", b"\t2\t2\t")),
    ("cells 3 by 2, but a table line that says 2 by 3", instead(b"\t3\t2\t", b"\t2\t3\t")),
    ("cells 2 by 2, but a table line that says 4 by 2", instead(b"\t2\t2\t", b"\t4\t2\t", SMALL)),
    ("a difference's line for a cell", with_line(4, b"2\t0\t40800000\tbfc00000\t40800000\tbfc00001\n")),
    # the table line
    ("width 1", written(1, 2, 0, EDGES, PAIRS[:2])),
    ("height 1", written(2, 1, 0, EDGES, PAIRS[:2])),
    ("width 0", instead(b"\t3\t", b"\t0\t")),
    ("height 0", instead(b"\t2\t", b"\t0\t")),
    *((f"{width} for the width", instead(b"\t3\t", b"\t%s\t" % width.encode()))
      for width in ("", "03", "0003", "+3", "-3", " 3", "3 ", "3.", "0x3", "three", "4097", "9999", "10000", "65539",
                    "4294967299", "18446744073709551619", "3" * 40)),
    *((f"{height} for the height", instead(b"\t2\t", b"\t%s\t" % height.encode()))
      for height in ("", "02", "+2", "4097", "10000", "65538", "4294967298", "18446744073709551618")),
    *((f"{updates} for the updates", instead(b"\t2\t0\n", b"\t2\t%s\n" % updates.encode()))
      for updates in ("", "00", "01", "000", "-0", "+0", " 0", "0 ", str(UPDATES), "4294967300", "9999999999",
                      "10000000000", "18446744073709551615", "18446744073709551616", "0" * 40, "1" * 70)),
    ("no updates", instead(b"\t2\t0\n", b"\t2\n")),
    ("updates twice", instead(b"\t2\t0\n", b"\t2\t0\t0\n")),
    ("a tab at the table line's end", instead(b"\t2\t0\n", b"\t2\t0\t\n")),
    ("Table for table", instead(b"table", b"Table")),
    ("tables for table", instead(b"table", b"tables")),
    ("tabl for table", instead(b"table", b"tabl")),
    ("a space before table", b" " + OLD),
    # the region line
    ("a region in upper case", instead(b"c000000000000000", b"C000000000000000")),
    ("an edge of 15 digits", instead(b"c000000000000000", b"c00000000000000")),
    ("an edge of 17 digits", instead(b"c000000000000000", b"0c000000000000000")),
    ("three edges", instead(b"\t4004000000000000", b"")),
    ("five edges", instead(b"\t4004000000000000", b"\t4004000000000000\t4004000000000000")),
    ("an edge of no digits", instead(b"c000000000000000", b"")),
    ("0x before an edge", instead(b"c000000000000000", b"0xc0000000000000")),
    ("a sign before an edge", instead(b"c000000000000000", b"-000000000000000")),
    ("a NUL in an edge", instead(b"c000000000000000", b"c0000000\x000000000")),
    ("a tab at the region line's end", instead(b"4004000000000000\n", b"4004000000000000\t\n")),
    ("a space at the region line's end", instead(b"4004000000000000\n", b"4004000000000000 \n")),
    ("Region for region", instead(b"region", b"Region")),
    ("region cut short", instead(b"region", b"regio")),
    # a cell line
    ("a cell in upper case", instead(b"bfc00000", b"BFC00000")),
    *((f"byte {byte} for a digit", with_line(4, CELL[:-9] + bytes([byte]) + CELL[-8:])) for byte in NEXT_TO_DIGITS),
    *((f"byte {byte} for the last digit", OLD[:-2] + bytes([byte]) + b"\n") for byte in NEXT_TO_DIGITS),
    ("a NUL for a digit", with_line(4, CELL[:-9] + b"\0" + CELL[-8:])),
    ("a number of 7 digits", instead(b"40800000", b"4080000")),
    ("a number of 9 digits", instead(b"40800000", b"040800000")),
    ("two numbers of 7 and 9 digits", instead(b"40800000\tbfc00000", b"4080000\t0bfc00000")),
    ("a cell with one number", instead(b"\t40800000", b"")),
    ("a cell with three numbers", instead(b"\t40800000", b"\t40800000\t40800000")),
    ("a cell with no place", with_line(4, b"cell\t40800000\tbfc00000\n")),
    *((f"{u} for a cell's column", with_line(4, b"cell\t%s\t0\t40800000\tbfc00000\n" % u.encode()))
      for u in ("", "02", "002", "+2", "-2", "2 ", "3", "1", "258", "65538", "4294967298", "18446744073709551618")),
    *((f"{v} for a cell's row", with_line(4, b"cell\t2\t%s\t40800000\tbfc00000\n" % v.encode()))
      for v in ("", "00", "+0", "-0", "1", "256", "65536", "4294967296", "18446744073709551616")),
    ("spaces for tabs", OLD.replace(b"\t", b" ")),
    ("one space for a tab", with_line(4, CELL.replace(b"\t", b" ", 1))),
    ("two tabs for one", with_line(4, CELL.replace(b"\t", b"\t\t", 1))),
    ("a tab before a cell's end", with_line(4, CELL[:-1] + b"\t\n")),
    ("a space before a cell's end", with_line(4, CELL[:-1] + b" \n")),
    ("a tab before a cell", with_line(4, b"\t" + CELL)),
    ("Cell for cell", with_line(4, CELL.replace(b"cell", b"Cell"))),
    ("cells for cell", with_line(4, CELL.replace(b"cell", b"cells"))),
    ("cel for cell", with_line(4, CELL.replace(b"cell", b"cel"))),
    # long lines
    *((f"a line of {n} bytes before the last", behind(7, b"x" * (n - 1) + b"\n"))
      for n in (74, 75, 76, 77, 95, 96, 97, 4097)),
    *((f"{n} zeros before the table line", b"0" * n + OLD) for n in (LONGEST, 96, 4096)),
    *((f"{n} bytes without a newline", b"7" * n) for n in (75, 76, 96, 97, 4096, 9000)),
    *((f"a last cell line of {n} bytes, the first of which are the right one's",
       without(7) + lines(OLD)[7][:-1] + b"0" * (n - len(lines(OLD)[7])) + b"\n") for n in (28, 75, 76, 96, 97, 192)),
    *((f"{n} NULs behind the listing", OLD + b"\0" * n) for n in (76, 96, 5000)),
]  # fmt: skip

SIZES = [
    ("3 by 2 and 2 by 2", OLD, SMALL),
    ("2 by 2 and 3 by 2", SMALL, OLD),
    ("3 by 2 and 2 by 3, as many cells", OLD, written(2, 3, 0, EDGES, PAIRS)),
    ("3 by 2 and 3 by 3", OLD, written(3, 3, 0, EDGES, [*PAIRS, *PAIRS[:3]])),
    ("2 by 12 and 12 by 2", drawn(2, 12, 6), drawn(12, 2, 6)),
    ("3 by 2 and 259 by 2, a column's number of one byte more", OLD, drawn(259, 2, 7)),
    ("2 by 3 and 2 by 259", written(2, 3, 0, EDGES, PAIRS), drawn(2, 259, 8)),
]


def refusals():
    """Number, words, old, new."""
    for words, text in NO_LISTING:
        yield 14, f"old: {words}", text, OLD
        yield 14, f"new: {words}", OLD, text
        yield 14, f"both: {words}", text, text
    yield 14, "one no listing, the other a refused one", OLD[:-1], refused(1)
    for words, old, new in SIZES:
        yield 15, words, old, new
    for words, old, new in SIZES:
        yield 14, f"{words}, and old has no newline at the end", old[:-1], new
        yield 14, f"{words}, and new has no newline at the end", old, new[:-1]
        yield 14, f"{words}, and new has a line too many", old, new + b"\n"
    yield 14, "3 by 2 and a refused listing", OLD, refused(6)
    yield 15, "all cells, the region and the updates differ, and so do the sizes", OTHERS, SMALL
    for w, h in ((MOST + 1, 2), (2, MOST + 1)):
        yield 14, f"{w} by {h}", drawn(w, h, w), OLD


def damaged():
    """A small listing that is cut, or has one byte lost, doubled or changed: words, old, new."""
    for n in range(len(SMALL)):
        yield f"old cut after {n} bytes", SMALL[:n], SMALL
        yield f"new cut after {n} bytes", SMALL, SMALL[:n]
        yield f"new without byte {n}", SMALL, SMALL[:n] + SMALL[n + 1 :]
        yield f"new with byte {n} twice", SMALL, SMALL[: n + 1] + SMALL[n:]
        yield f"new with byte {n} one more", SMALL, SMALL[:n] + bytes([SMALL[n] + 1]) + SMALL[n + 1 :]
        yield f"new with a case bit changed in byte {n}", SMALL, SMALL[:n] + bytes([SMALL[n] ^ 32]) + SMALL[n + 1 :]


# ---- the files


def cases():
    """Words, old, new, what is printed. No pair is asked twice."""
    asked = set()
    for words, old, new in (*differences(), *long_differences()):
        answer = compared(old, new)
        assert not answer.startswith(b"refused"), words
        assert status(answer) == (old != new), words
        asked.add((old, new))
        yield words, old, new, answer
    for number, words, old, new in refusals():
        assert compared(old, new) == refused(number), words
        assert (old, new) not in asked, words
        asked.add((old, new))
        yield f"{number}: {words}", old, new, refused(number)
    for words, old, new in damaged():
        if (old, new) not in asked:
            asked.add((old, new))
            yield words, old, new, compared(old, new)


def heading(words):
    return f"# {words}\n".encode()


# The example of RULES 16.6: updates, an edge of the region, the first cell and the last.
BY_HAND = written(3, 2, 41, (*EDGES[:3], EDGES[3] ^ 1), [(0xC0000001, 0xBFC00000), *PAIRS[1:5], (0x40800000, 0x40200010)])

# One pair for the program itself, 40 by 40: updates, an edge of the region, and every cell but each seventh. Both files and what is
# told of them are several times as long as what the program holds.
CELLS = [(0x3F800000 + n, 0xC0000000 + 3 * n) for n in range(1600)]
MOVED = [(a, b ^ 1) if n % 2 else (a ^ 0x80000000, b) for n, (a, b) in enumerate(CELLS)]
PAIR = (
    written(40, 40, 0, EDGES, CELLS),
    written(40, 40, 41, (*EDGES[:3], EDGES[3] ^ 1), [old if n % 7 == 0 else new for n, (old, new) in enumerate(zip(CELLS, MOVED))]),
)


def files():
    found = list(cases())
    asked = b"".join(part(heading(words)) + part(old) + part(new) for words, old, new, _ in found)
    answered = b"".join(heading(words) + answer for words, _, _, answer in found)
    yield "crates/test_compare_listings/stdin", asked
    yield "crates/test_compare_listings/stdout", answered + b"cases\t%d\n" % len(found)
    yield "crates/compare_listings/args", b"old.txt\nnew.txt\n"
    yield "crates/compare_listings/data/old.txt", PAIR[0]
    yield "crates/compare_listings/data/new.txt", PAIR[1]
    yield "crates/compare_listings/stdout", compared(*PAIR)


def written_again(text):
    """Whether a text is a listing, asked in another way: the numbers that can be made out are written again, and have
    to give the same bytes."""
    try:
        rows = [line.split(b"\t") for line in text.split(b"\n")]
        w, h, updates = (int(field) for field in rows[0][1:4])
        edges = [int(field, 16) for field in rows[1][1:5]]
        pairs = [(int(row[3], 16), int(row[4], 16)) for row in rows[2:-1]]
        if not (2 <= w <= 4096 and 2 <= h <= 4096 and 0 <= updates < 2**32 and len(pairs) == w * h):
            return False
        if any(not 0 <= edge < 2**64 for edge in edges) or any(not 0 <= x < 2**32 for pair in pairs for x in pair):
            return False
        return written(w, h, updates, edges, pairs) == text
    except (ValueError, IndexError, TypeError):
        return False


def self_test():
    assert OLD == printed(EXAMPLE)
    assert compared(OLD, BY_HAND).replace(b"\t", b" ").decode().splitlines() == [
        "table 3 2 0", "table 3 2 41",
        "region c000000000000000 bff8000000000000 4010000000000000 4004000000000000",
        "region c000000000000000 bff8000000000000 4010000000000000 4004000000000001",
        "0 0 c0000000 bfc00000 c0000001 bfc00000", "2 1 40800000 40200000 40800000 40200010", "count 2"]  # fmt: skip
    assert compared(*PAIR).endswith(b"\ncount\t1371\n") and all(len(text) > 8 * 4096 for text in (*PAIR, compared(*PAIR)))
    texts = {text for _, old, new, _ in cases() for text in (old, new)}
    for text in texts:
        assert (read(text) is not None) == written_again(text), text[:200]
    assert max(len(line) for text in texts if read(text) for line in lines(text)) == LONGEST
    answers = [answer for *_, answer in cases()]
    kinds = [answers.count(answer) for answer in (refused(14), refused(15), b"count\t0\n")]
    assert min(kinds) > 2, kinds
    # A text that is changed in one byte is refused, or the report tells of that byte.
    told = [words for words, old, new, answer in cases() if "one more" in words and not answer.startswith(b"refused")]
    assert len(told) > 50 and all(compared(old, new) != b"count\t0\n" for _, old, new in damaged())
    print(f"self-test passed: {len(texts)} texts, {kinds[0]} pairs refused 14, {kinds[1]} refused 15")


if __name__ == "__main__":
    make(files, self_test)
