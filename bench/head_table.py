#!/usr/bin/env python3
"""head_table.py ARCHIVE COST.md: prints what docs/HEAD.md says under "Units in 3 ms", and its line on the stack, from the archive's bounds
and from what docs/COST.md has as met. For a person to put there: it writes nothing."""
import math, re, sys

from bound import FUNCTIONS, Bounds
from models import MODELS, TABLE

MILLISECONDS = 3
RATES = [50, 100, 400]  # millions of instructions a second
WIDTH, HEIGHT = 640, 480
UPDATES = [str(model.limit or "none") for model in TABLE.values()]


def n(number):
    return f"{number:,}"


def lines(head, rows):
    return "\n".join(["| " + " | ".join(head) + " |", "|" + "---|" * len(head), *("| " + " | ".join(row) + " |" for row in rows)])


def met(page, model):
    """The row of docs/COST.md, met and at most by turns: sample, cell, a turn's own."""
    with open(page) as text:
        found = re.search(rf"^\| {model} \| \w+ \| (\d+) \| (\d+) \| (\d+) \| (\d+) \| (\d+) \| (\d+) \|$", text.read(), re.M)
    return [int(x) for x in found.groups()] if found else sys.exit(f"{page} has no row of {model} with met and at most: run bench/run")


def sixteen(bounds):
    """The cells of lens_turn16, whose samples cost the same."""
    rows = []
    for model in range(len(MODELS)):
        own, prices = bounds.instructions("lens_turn16", model)
        fit = [n((rate * 1000 * MILLISECONDS - own) // prices["cell"]) for rate in RATES]
        rows.append([MODELS[model], n(prices["cell"]), n(own), *fit])
    print(f"\nOf `lens_turn16`, and how many of its cells fit {MILLISECONDS} ms at so many million instructions a second:\n")
    print(lines(["", "cell, at most", "a turn's own, at most", *map(str, RATES)], rows))


def main(archive, page):
    bounds = Bounds(archive)
    most = [bounds.instructions("lens_turn", model) for model in range(len(MODELS))]
    rows = []
    for model, (own, prices) in enumerate(most):
        a = met(page, MODELS[model])
        if [a[1], a[3], a[5]] != [prices["sample"], prices["cell"], own]:
            sys.exit(f"{page} has other bounds than {archive} for {MODELS[model]}: run bench/run head")
        rows.append([MODELS[model], n(a[1]), n(a[0]), UPDATES[model], n(a[3]), n(a[2]), n(own), n(a[4])])
    print("The most that a unit can take, and a turn beside its units, in x86-64 instructions, whatever the camera and the record are; "
          "and the most that was met (docs/COST.md, \"The worst unit of each model\", says how both were found):\n")
    print(lines(["", "border sample, at most", "met", "its updates", "cell, at most", "met", "a turn's own, at most", "met"], rows))
    full, short = (Bounds(archive, engine).instructions("lens_turn", MODELS.index("bc"))[1]["sample"] for engine in ("full", "short"))
    print("\nbc's sample at most is one that both engines search, the short one and then, since a number on the way wasn't finite, the full "
          f"one: only a camera whose k4, k5 and k6 are zeros can have it. One that the short engine does alone takes at most {n(short)}, and "
          f"one of a camera whose three aren't all zeros {n(full)}; docs/COST.md has what was met of each.")
    print("\nA turn of s samples and c cells takes at most\n\n    a turn's own + s × a border sample + c × a cell\n\n"
          "instructions, and what memcpy takes, which is in what was met: for at most four calls in a turn, with at most 256 bytes each. So the units that fit a frame are\n\n    units = (free time × rate - a turn's own) / a unit\n\n"
          "rounded down, where the rate is how many of these instructions the processor does in a unit of time, and a unit is a border "
          "sample until the border is done and a cell from then on (`LENS_TURN_DONE` of the answer is then `LENS_SAMPLES` or more). For a "
          f"turn that may do both, take the dearer. In {MILLISECONDS} ms, samples / cells:\n")

    def fits(model, kind, rate):
        own, prices = most[model]
        return (rate * 1000 * MILLISECONDS - own) // prices[kind]

    both = [[" / ".join(n(fits(m, kind, rate)) for kind in ("sample", "cell")) for m in range(len(MODELS))] for rate in RATES]
    print(lines(["millions of instructions a second", *MODELS], [[str(rate), *row] for rate, row in zip(RATES, both)]))
    sixteen(bounds)
    samples, cells, rows = 2 * WIDTH + 2 * HEIGHT, WIDTH * HEIGHT, []
    for model, (own, prices) in enumerate(most):
        border, rest = (math.ceil(count / fits(model, kind, 100)) for count, kind in ((samples, "sample"), (cells, "cell")))
        total = samples * prices["sample"] + cells * prices["cell"] + (border + rest) * own
        rows.append([MODELS[model], n(total), f"{n(border + rest)}, of which {n(border)} for the border"])
    print(f"\nA whole table of {WIDTH} by {HEIGHT} cells has {n(samples)} samples and {n(cells)} cells. At most, a turn in each frame:\n")
    print(lines(["", "instructions", f"frames of {MILLISECONDS} ms at 100 million a second"], rows))
    stacks = {name: bounds.stack(name)[0] for name in FUNCTIONS}
    deepest = max(stacks.values())
    print("\nFor the table of memory:\n")
    print(f"| stack | {n(deepest)} at most, of {', '.join(f'`{f}`' for f, s in stacks.items() if s == deepest)}; "
          f"{n(stacks['lens_turn'])} for a turn: over all paths, memcpy's own aside (docs/COST.md) |")


if __name__ == "__main__":
    if len(sys.argv) != 3:
        sys.exit(__doc__)
    main(*sys.argv[1:])
