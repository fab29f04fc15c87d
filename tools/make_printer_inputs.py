#!/usr/bin/env python3
"""Makes what the printer's programs are run on, and what they have to write:

    crates/test_printer_inputs/stdin, stdout    many inputs, one after the other
    crates/table_printer/stdin, stdout     the rules' example
    examples/NAME.camera                   a camera file for each model, and two more of bc whose border takes updates

    python3 tools/make_printer_inputs.py              writes the files
    python3 tools/make_printer_inputs.py --self-test  tests what can be tested beside that, and writes nothing

The form of the text stands here as one regular expression, written from docs/RULES.md 16. Tables come from
tools/lens_tables.py. Each refused input stands here with its number, and `printed` must say the same. No code of
the crates takes part.
"""
import re

import listings
from lens_models import AFFINE, BC, BC12, COUNTS, EUCM, KB, MODELS, bits
from lens_tables import FINISHED, fresh, total, turn
from listings import refused
from make_leaf_vectors import value
from model_questions import BC_EXAMPLE, PRISM, spelled
from make_head_calls import JOBS
from make_table_vectors import LISTING
from parts import make, part

NAMES = {name.encode(): number for number, name in enumerate(MODELS)}
FORM = re.compile(
    rb"camera\t([a-z0-9]{1,16})\t([1-9][0-9]{0,3})\t([1-9][0-9]{0,3})\nparams((?:\t[0-9a-f]{16})+)\n", re.DOTALL
)
LONGEST = 4096
MOST_CELLS = 4096


# ---- what is printed


def listing(job, table):
    return listings.written(job.width, job.height, job.updates, map(bits, job.region), zip(table[::2], table[1::2]))


def asked(text):
    """A refusal's number, 0 for none, and the camera, width and height that a text asks for."""
    found = FORM.fullmatch(text) if len(text) <= LONGEST else None
    if not found:
        return 14, None
    name, w, h, params = found.groups()
    if name not in NAMES:
        return 1, None
    numbers = tuple(value(int(field, 16)) for field in params.split(b"\t")[1:])
    if len(numbers) != COUNTS[NAMES[name]]:
        return 3, None
    return 0, ((NAMES[name], numbers), int(w), int(h))


def printed(text):
    number, question = asked(text)
    if number:
        return refused(number)
    number, job = fresh(*question)
    if number:
        return refused(number)
    if job.width * job.height > MOST_CELLS:
        return refused(6)
    table = [0] * (2 * job.width * job.height)
    status, number, job = turn(job, table, total(job.width, job.height))
    return listing(job, table) if status == FINISHED else refused(number)


# ---- inputs


def written(name, w, h, fields):
    return b"camera\t%s\t%d\t%d\nparams%s\n" % (name, w, h, b"".join(b"\t" + f for f in fields))


def camera_file(model, params, w, h):
    name = next(n for n, m in NAMES.items() if m == model)
    return written(name, w, h, [spelled(x).encode() for x in params])


ONE = b"3ff0000000000000"
ZERO = b"0000000000000000"
PLAIN = [ONE, ONE, ZERO, ZERO]
EXAMPLE = written(b"affine", 3, 2, PLAIN)
KB_TEST = (1000.0, 1000.0, 320.0, 280.0, 0.1, 0.01, 0.001, 0.0001)
BC_TEST = (1000.0, 1000.0, 10.0, 7.5, *BC_EXAMPLE)
# Five coefficients; without k4, k5 and k6 there is no quotient.
BARREL = (-0.3, 0.1, 0.001, -0.0005, -0.02, 0.0, 0.0, 0.0)

EXAMPLES = {
    "affine": EXAMPLE,
    "eucm": camera_file(EUCM, (500.0, 500.0, 16.0, 12.0, 0.5, 1.0), 32, 24),
    "kb": camera_file(KB, KB_TEST, 64, 48),
    "bc": camera_file(BC, BC_TEST, 20, 15),
    "bc_wide": camera_file(BC, (16.0, 16.0, 10.0, 7.5, *BC_EXAMPLE), 20, 15),
    "bc_barrel": camera_file(BC, (16.0, 16.0, 10.0, 7.5, *BARREL), 20, 15),
    # bc_wide's lens with its last glass tilted a little
    "bc12": camera_file(BC12, (16.0, 16.0, 10.0, 7.5, *BC_EXAMPLE, *PRISM), 20, 15),
}


def instead(old, new):
    assert old in EXAMPLE
    return EXAMPLE.replace(old, new, 1)


def with_field(place, field):
    return written(b"affine", 3, 2, [*PLAIN[:place], field, *PLAIN[place + 1 :]])


def sized(length, name_length):
    """A text of the form, of so many bytes."""
    fields, over = divmod(length - 19 - name_length, 17)
    assert over == 0
    text = written(b"a" * name_length, 2, 2, [ONE] * fields)
    assert len(text) == length and FORM.fullmatch(text)
    return text


NOT_THE_FORM = [
    ("nothing", b""),
    ("only a newline", b"\n"),
    ("no newline at the end", EXAMPLE[:-1]),
    ("two newlines at the end", EXAMPLE + b"\n"),
    ("a carriage return before the first newline", instead(b"\n", b"\r\n")),
    ("a carriage return before the last newline", EXAMPLE[:-1] + b"\r\n"),
    ("a third line", EXAMPLE + EXAMPLE.splitlines(keepends=True)[1]),
    ("the lines in the other order", b"".join(reversed(EXAMPLE.splitlines(keepends=True)))),
    ("the first line alone", EXAMPLE.splitlines(keepends=True)[0]),
    ("upper-case hexadecimal", instead(b"3ff", b"3FF")),
    ("15 digits", with_field(1, ONE[1:])),
    ("17 digits", with_field(1, ONE + b"0")),
    ("a g among the digits", with_field(2, b"g" + ONE[1:])),
    ("an x among the digits", with_field(2, b"0x" + ONE[2:])),
    ("a zero in front of the width", instead(b"\t3\t", b"\t03\t")),
    ("a zero in front of the height", instead(b"\t2\n", b"\t02\n")),
    ("width 0", instead(b"\t3\t", b"\t0\t")),
    ("a width of 5 digits", instead(b"\t3\t", b"\t10000\t")),
    ("a height of 5 digits", instead(b"\t2\n", b"\t10000\n")),
    ("a width with a sign", instead(b"\t3\t", b"\t+3\t")),
    ("no width", instead(b"\t3\t", b"\t\t")),
    ("no height", instead(b"\t2\n", b"\n")),
    ("a fourth field", instead(b"\t2\n", b"\t2\t2\n")),
    ("a space for a tab", instead(b"\t3", b" 3")),
    ("two tabs for one", instead(b"\t3", b"\t\t3")),
    ("a tab at the line's end", instead(b"\t2\n", b"\t2\t\n")),
    ("a NUL in the name", instead(b"affine", b"aff\0ne")),
    ("a NUL at the end", EXAMPLE + b"\0"),
    ("a byte above 127", instead(b"affine", b"affin\xe9")),
    ("no name", instead(b"affine", b"")),
    ("a name with a capital", instead(b"affine", b"Affine")),
    ("a name with a dash", instead(b"affine", b"brown-conrady")),
    ("a name of 17 letters", instead(b"affine", b"abcdefghijklmnopq")),
    ("no params", written(b"affine", 3, 2, [])),
    ("the first word in another case", instead(b"camera", b"Camera")),
    ("the second word cut short", instead(b"params", b"param")),
    ("4,097 bytes that would be of the form", sized(4097, 15)),
    ("4,097 bytes, of which the first two lines are the example", EXAMPLE + b"\n" * (4097 - len(EXAMPLE))),
]

NAN, INF, MINUS_INF, LAST_NAN = b"7ff8000000000000", b"7ff0000000000000", b"fff0000000000000", b"ffffffffffffffff"
MINUS_ZERO = b"8000000000000000"

REFUSED = [
    *((14, words, text) for words, text in NOT_THE_FORM),
    (1, "an unknown name", instead(b"affine", b"pinhole")),
    (1, "an unknown name of 16 letters", instead(b"affine", b"abcdefghijklmnop")),
    (1, "an unknown name of digits", instead(b"affine", b"2")),
    (1, "bc1, the first three letters of bc12", written(b"bc1", 3, 2, [ONE] * 16)),
    (1, "bc120, more than bc12", written(b"bc120", 3, 2, [ONE] * 16)),
    (1, "the number of bc12", written(b"4", 3, 2, [ONE] * 16)),
    (1, "4,096 bytes", sized(4096, 14)),
    (1, "an unknown name before a wrong count", written(b"pinhole", 3, 2, [NAN])),
    (3, "affine with the 6 of eucm", written(b"affine", 3, 2, [ONE] * 6)),
    (3, "eucm with the 8 of kb", written(b"eucm", 3, 2, [ONE] * 8)),
    (3, "kb with the 12 of bc", written(b"kb", 3, 2, [ONE] * 12)),
    (3, "bc with the 16 of bc12", written(b"bc", 3, 2, [ONE] * 16)),
    (3, "bc12 with the 12 of bc", written(b"bc12", 3, 2, [ONE] * 12)),
    (3, "bc12 with 15", written(b"bc12", 3, 2, [ONE] * 15)),
    (3, "bc12 with 17", written(b"bc12", 3, 2, [ONE] * 17)),
    (3, "bc with the 4 of affine", written(b"bc", 3, 2, [ONE] * 4)),
    (3, "affine with 1", written(b"affine", 3, 2, [ONE])),
    (3, "kb with 9", written(b"kb", 3, 2, [ONE] * 9)),
    (3, "affine with 239, the most that fit", written(b"affine", 3, 2, [ONE] * 239)),
    (3, "a wrong count before NaN", written(b"affine", 3, 2, [NAN] * 5)),
    *((4, f"{field.decode()} for parameter {place + 1}", with_field(place, field))
      for place in range(4) for field in (NAN, INF, MINUS_INF, LAST_NAN)),
    (4, "NaN before a zero focal length", written(b"affine", 3, 2, [ZERO, ONE, NAN, ZERO])),
    (4, "NaN for s4", written(b"bc12", 3, 2, [*PLAIN, *[ZERO] * 11, NAN])),
    (5, "bc12, fy -0", written(b"bc12", 3, 2, [ONE, MINUS_ZERO, *[ZERO] * 14])),
    (5, "fx 0", with_field(0, ZERO)),
    (5, "fx -0", with_field(0, MINUS_ZERO)),
    (5, "fy 0", with_field(1, ZERO)),
    (5, "fy -0", with_field(1, MINUS_ZERO)),
    (5, "fx 0 before width 1", written(b"affine", 1, 2, [ZERO, ONE, ZERO, ZERO])),
    (6, "width 1", written(b"affine", 1, 2, PLAIN)),
    (6, "height 1", written(b"affine", 2, 1, PLAIN)),
    (6, "width 4097", written(b"affine", 4097, 2, PLAIN)),
    (6, "height 9999", written(b"affine", 2, 9999, PLAIN)),
    (6, "4,097 cells: 17 by 241", written(b"affine", 17, 241, PLAIN)),
    (6, "8,192 cells: 4096 by 2", written(b"affine", 4096, 2, PLAIN)),
    (6, "4,097 cells before an increment of 0", camera_file(AFFINE, (1.0, 1.0, 1e300, 0.0), 17, 241)),
    *((number, words, camera_file(model, params, w, h)) for words, model, params, w, h, number, _ in JOBS),
]  # fmt: skip

TABLES = [
    ("the rules' example", EXAMPLE),
    ("2 by 2, the smallest", written(b"affine", 2, 2, PLAIN)),
    ("negative focal lengths", camera_file(AFFINE, (-2.0, -3.0, 0.25, 1.5), 4, 3)),
    ("eucm", camera_file(EUCM, (500.0, 500.0, 16.0, 12.0, 0.5, 1.0), 5, 4)),
    ("kb, the camera of the Rust's test", camera_file(KB, KB_TEST, 8, 6)),
    ("bc", camera_file(BC, BC_TEST, 6, 5)),
    ("bc, a wide lens whose border takes updates", camera_file(BC, (4.8, 4.8, 3.0, 2.5, *BC_EXAMPLE), 6, 5)),
    ("bc, so wide that 10 of the 22 samples take all 50 updates", camera_file(BC, (2.4, 2.4, 3.0, 2.5, *BC_EXAMPLE), 6, 5)),
    ("bc, barrel, five coefficients", camera_file(BC, (4.8, 4.8, 3.0, 2.5, *BARREL), 6, 5)),
    ("bc, barrel, with -0 for k4 and k6", camera_file(BC, (4.8, 4.9, 3.0, 2.5, *BARREL[:5], -0.0, 0.0, -0.0), 6, 5)),
    ("bc12, the barrel with a prism", camera_file(BC12, (4.8, 4.8, 3.0, 2.5, *BARREL, *PRISM), 6, 5)),
    ("bc12, the wide lens with a prism", camera_file(BC12, (4.8, 4.8, 3.0, 2.5, *BC_EXAMPLE, *PRISM), 6, 5)),
    ("bc12, a prism alone", camera_file(BC12, (4.8, 4.8, 3.0, 2.5, *[0.0] * 8, 0.03, -0.01, -0.02, 0.005), 6, 5)),
    ("bc12, the barrel with a prism of zeros, which is bc's table", camera_file(BC12, (4.8, 4.8, 3.0, 2.5, *BARREL, 0.0, -0.0, -0.0, 0.0), 6, 5)),
    ("4,096 cells, the most: 2 by 2048", camera_file(AFFINE, (100.0, 100.0, 0.5, 1024.0), 2, 2048)),
]


def cases():
    for words, text in TABLES:
        answer = printed(text)
        assert answer.startswith(b"table\t"), words
        yield f"# {words}\n".encode(), text, answer
    for number, words, text in REFUSED:
        assert printed(text) == refused(number), words
        yield f"# {number}: {words}\n".encode(), text, refused(number)


def files():
    found = list(cases())
    yield "crates/test_printer_inputs/stdin", b"".join(part(words) + part(text) for words, text, _ in found)
    yield "crates/test_printer_inputs/stdout", b"".join(words + answer for words, _, answer in found) + b"cases\t%d\n" % len(found)
    yield "crates/table_printer/stdin", EXAMPLE
    yield "crates/table_printer/stdout", printed(EXAMPLE)
    for name, text in EXAMPLES.items():
        yield f"examples/{name}.camera", text


def updates(text):
    """Of a table that is printed."""
    return int(printed(text).splitlines()[0].split(b"\t")[3])


def self_test():
    assert printed(EXAMPLE).replace(b"\t", b" ").decode().splitlines() == LISTING.splitlines()
    given = {number for number, _, _ in REFUSED}
    assert given == {1, 3, 4, 5, 6, 8, 10, 11, 12, 14, 16}, given
    for name, text in EXAMPLES.items():
        assert printed(text).startswith(b"table\t"), name
    # Newton's models take updates, but for the bc lens that is as good as flat.
    for name in ("kb", "bc_wide", "bc_barrel", "bc12"):
        assert updates(EXAMPLES[name]) > 0, name
    assert all(any(name.split("_")[0] == model for name in EXAMPLES) for model in MODELS)
    taking = [words for words, text in TABLES if updates(text) > 0]
    assert [words.split(",")[0] for words in taking] == ["kb", "bc", "bc", "bc", "bc", "bc12", "bc12", "bc12", "bc12"], taking
    listings = {words: printed(text) for words, text in TABLES}
    barrel, with_prism, flat = (next(t for w, t in listings.items() if w.startswith(words))
                                for words in ("bc, barrel, five", "bc12, the barrel with a prism", "bc12, the barrel with a prism of"))
    assert barrel == flat != with_prism
    texts = [text for _, text in TABLES] + [text for _, _, text in REFUSED]
    assert len(set(texts)) == len(texts)
    print("self-test passed")


if __name__ == "__main__":
    make(files, self_test)
