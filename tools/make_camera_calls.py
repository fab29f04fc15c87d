#!/usr/bin/env python3
"""Makes crates/test_camera_calls/stdin and stdout: calls of a camera over bytes, and what is owed on each.

    python3 tools/make_camera_calls.py                         writes both files, and says on stderr what they cover
    python3 tools/make_camera_calls.py --sample QUESTIONS ANSWERS   the same, with another sample of the oracle's
    python3 tools/make_camera_calls.py --self-test             tests the scripts that make the parts, and writes nothing

The parts: questions to the models (tools/model_questions.py, some by difference_quotients.py), a hostile caller
(hostile_calls.py), a sample of the oracle's questions, lists of observations (list_calls.py), and lines that are no
calls. The program's first lines tell the form of a line.

The oracle's part is not made here: `oracle/run sample` draws it, with what the Rust's own text answers. It stands only
in the two files, and is taken from them, unless another is given.
"""
import pathlib
import sys

import difference_quotients
import hostile_calls
import list_calls
import model_questions
from camera_lines import ARCTANGENT, BY_LENT, HANDED, LENT, LINE, OBSERVE, PUT, ROOT, heading, operation_question, question
from lens_models import AFFINE, DISTORT, NO_MODEL, bits

CRATE = pathlib.Path(__file__).resolve().parent.parent / "crates" / "test_camera_calls"
SAMPLE = heading("the oracle's sample, from the Rust's own text")
NUMBERS = [bits(z) for z in (2.0, 4.0, 1.0, 0.0)]


def no_models():
    """A model's number that is none, and numbers that are no byte but end in one that is a model."""
    for model in (NO_MODEL, 255, 256, 2**32, 2**63):
        yield question(model, DISTORT, 32, 16, NUMBERS, 0, 0)


def no_calls():
    """Lines of the right length that are not of the form. The last one is of the form, and is bad because `written`
    cuts its end off."""
    good = operation_question(AFFINE, DISTORT, NUMBERS, 0, 0)
    fields = good.split("\t")
    bad = [" " * (LINE - 1), "\t" * (LINE - 1), good.replace("\t", " ")]
    bad += model_questions.misspelled(fields, fields[4])
    # what is done: the first number past the last, large ones, rows of what has no row, the first row past the last
    for done in (ARCTANGENT + 1, 2**32, 2**63, ROOT + BY_LENT, PUT + BY_LENT, ARCTANGENT + BY_LENT, 80):
        bad.append(question(AFFINE, done, 32, 16, NUMBERS, 0, 0))
    # more bytes than there are: handed over, lent, and before a list or in it
    for handed, lent in ((HANDED + 1, 16), (2**64 - 1, 16), (32, LENT + 1), (32, 2**64 - 1)):
        bad.append(question(AFFINE, DISTORT, handed, lent, NUMBERS, 0, 0))
    for first, lent in ((LENT - 40, 80), (LENT + 1, 0), (2**64 - 40, 40)):
        bad.append(question(AFFINE, OBSERVE, 32, lent, NUMBERS, first, 0))
    bad += [question(AFFINE, PUT, 0, 0, [], first, 0) for first in (LENT + 1, 2**64 - 8)]
    return bad + [good]


def after(name, title):
    """The lines of a part of a file, which ends where the next heading stands."""
    lines = (CRATE / name).read_text(encoding="ascii").split("\n")
    start = lines.index(title) + 1
    stop = next(i for i in range(start, len(lines)) if lines[i].startswith("#"))
    return lines[start:stop]


def sample(words):
    """The oracle's questions and answers: those that are given, or those that stand in the files."""
    if not words:
        return after("stdin", SAMPLE), after("stdout", SAMPLE)
    asked, owed = (pathlib.Path(name).read_text(encoding="ascii").splitlines() for name in words)
    assert owed.pop() == f"lines\t{len(asked)}"
    return asked, owed


def written(words):
    """The lines of stdin and of stdout."""
    asked, owed = [], []

    def part(title, questions, answers):
        asked.extend([title, *questions])
        owed.extend([title, *answers])
        print(f"{len(questions):6} lines, {len(answers):6} of answers: {title[2:].rstrip('-')}", file=sys.stderr)

    oracle = sample(words)
    assert len(oracle[0]) == len(oracle[1]) > 2000
    questions, answers, _ = model_questions.made()
    part(heading("the models"), questions, answers)
    hostile = hostile_calls.made()
    part(heading("a hostile caller"), hostile.asked, hostile.owed)
    part(SAMPLE, *oracle)
    questions, answers, _ = list_calls.made()
    part(heading("lists of observations"), questions, answers)
    none = list(no_models())
    part(heading("no models"), none, ["1"] * len(none))
    none = no_calls()
    part(heading("no calls"), none, ["bad"] * len(none))
    assert all(len(line) == LINE - 1 for line in asked)
    owed.append(f"lines\t{len(asked)}")
    # the last line is a good one, but its end is cut off
    return "\n".join(asked), "".join(line + "\n" for line in owed)


def main(words):
    stdin, stdout = written(words)
    (CRATE / "stdin").write_bytes(stdin.encode("ascii"))
    (CRATE / "stdout").write_bytes(stdout.encode("ascii"))


def self_test():
    model_questions.self_test()
    difference_quotients.self_test()
    hostile_calls.self_test()
    list_calls.self_test()


if __name__ == "__main__":
    if sys.argv[1:] == ["--self-test"]:
        self_test()
    elif sys.argv[1:2] == ["--sample"]:
        main(sys.argv[2:4])
    else:
        main([])
