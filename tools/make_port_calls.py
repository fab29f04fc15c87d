#!/usr/bin/env python3
"""Makes crates/test_port_calls/stdin and stdout: calls of the camera's four operations and of the list of observations in
its first form, and what is owed on each.

    python3 tools/make_port_calls.py               writes both files, and says on stderr what they cover
    python3 tools/make_port_calls.py --self-test   tests the scripts that make the parts, and writes nothing

The operations are asked every question that test_camera_calls asks the models (tools/model_questions.py), and the answers
are the ones owed there, which tools/lens_models.py makes from the text of the Rust. A list has three records: the pixels
of tools/list_calls.py, three at a time, by each of its cameras. No code of the crates takes part. The program's first
lines tell the form of a line.
"""
import pathlib
import sys
from collections import Counter

import list_calls
import model_questions
from lens_models import AFFINE, MODELS, MOST_PARAMS, NO_MODEL, bits

CRATE = pathlib.Path(__file__).resolve().parent.parent / "crates" / "test_port_calls"
LINE = 17 * (2 + MOST_PARAMS + 6)
LIST = 4  # after the four operations
NAN_BITS = 0x7FF8000000000000


def spelled(words):
    return "\t".join(f"{word:016x}" for word in words)


def question(model, done, params, places):
    """A line, its numbers bit patterns. Parameters that a model hasn't and places that a call hasn't are zeros."""
    line = spelled([model, done, *params, *[0] * (MOST_PARAMS - len(params)), *places, *[0] * (6 - len(places))])
    assert len(line) == LINE - 1
    return line


# ---- the operations


def operations():
    """The models' questions in this program's form, with the answers owed on them."""
    asked, owed, said = model_questions.made()
    for line, answer in zip(asked, owed, strict=True):
        words = [int(field, 16) for field in line.split("\t")]
        yield question(words[0], words[1], words[4:20], words[20:]), answer


# ---- the lists


def pattern(z):
    return NAN_BITS if z != z else bits(z)


def before(record):
    """A record as the program makes it of a pixel."""
    return list_calls.Record(record.pixel, (99.0, -99.0), True, 99)


def told(record):
    return [*map(pattern, record.pixel), *map(pattern, record.answer), int(record.flag), record.number]


# where the three records of a list stand among those of list_calls: neighbours, and such as are refused
THREES = [(0, 1, 2), (44, 37, 45), (58, 59, 24), (73, 74, 75), (8, 13, 80)]


def lists(said):
    for model, words, params in list_calls.cameras():
        for places in THREES:
            records = [before(list_calls.RECORDS[place]) for place in places]
            number, after = list_calls.observe_all(model, params, records)
            said.update((MODELS[model], number, record.number) for record in after)
            pixels = [pattern(z) for record in records for z in record.pixel]
            owed = f"{number}\t" + spelled(word for record in after for word in told(record))
            yield question(model, LIST, [pattern(z) for z in params], pixels), owed


def cover(said):
    """Asserts that every fate of a record comes up, and both refusals of a camera, which leave the records."""
    for name in MODELS:
        assert said[name, 0, 0] and said[name, 0, 4] and said[name, 4, 99] and said[name, 5, 99]
        assert said[name, 4, 99] + said[name, 5, 99] == sum(n for key, n in said.items() if key[0] == name and key[1])
    assert said["kb", 0, 10] and said["eucm", 0, 16] and any(said[name, 0, 11] for name in MODELS)


# ---- the lines


def no_calls():
    """Lines of the right length that are not of the form, or name no model or no call. The last one is of the form, and
    is bad because `written` cuts its end off."""
    good = question(AFFINE, 0, [bits(1.0), bits(1.0)], [0, 0])
    bad = [" " * (LINE - 1), good.replace("\t", " "), good[:-1] + "A", "g" + good[1:]]
    bad += [question(model, 0, [], []) for model in (NO_MODEL, 255, 256, 2**32, 2**63)]
    return bad + [question(AFFINE, done, [], []) for done in (LIST + 1, 256, 2**32, 2**63)] + [good]


def written():
    said = Counter()
    parts = {"lists": list(lists(said)), "operations": list(operations()), "no calls": [(line, "bad") for line in no_calls()]}
    cover(said)
    for name, lines in parts.items():
        print(f"{len(lines):6} lines: {name}", file=sys.stderr)
    lines = [line for part in parts.values() for line in part]
    owed = [answer for _, answer in lines] + [f"lines\t{len(lines)}"]
    return "\n".join(line for line, _ in lines), "".join(answer + "\n" for answer in owed)


def self_test():
    model_questions.self_test()
    list_calls.self_test()


if __name__ == "__main__":
    if sys.argv[1:] == ["--self-test"]:
        self_test()
    else:
        stdin, stdout = written()
        (CRATE / "stdin").write_bytes(stdin.encode("ascii"))
        (CRATE / "stdout").write_bytes(stdout.encode("ascii"))
