#!/usr/bin/env python3
"""report_head.py COUNTER FOLDER COST.md [RUNNER...]: counts with COUNTER the loops of FOLDER/count_turn, asks FOLDER/stack, reckons the
bounds of the archive that BOUND_ARCHIVE names (bound.py), and writes the page's last part, what a head budgets with. It needs no count of
the Rust's. Whatever was counted above its bound ends it, and the page stays."""
import datetime, os, re, subprocess, sys

from bound import FUNCTIONS, LOOPS, Bounds
from counting import each, folder, machine, page, runner
from models import MODELS, TABLE

TITLE = "\n## The worst unit of each model\n\n"
WORST = """In x86-64 instructions, through `lens_turn`, and the cells of sixteen bits through `lens_turn16`. Counted on the same machine, DATE.

- *Met*: a turn of two units less a turn of one, the most of 16 records. (What a turn of none takes more behind the last sample than before it is taken off that sample.) Samples are ones that take the most updates that there can be, of stretched lenses, four of them the last sample, which closes the region; cells are of lenses that somebody might have. A turn's own is there a turn of none: reading, judging and writing the record, and the loop that counts.
- *At most*: the longest path through the archive's instructions, each loop as often as it can be passed (bench/bound.py; the loops stand below). No input need take that path. A turn of s samples and c cells takes at most a turn's own + s · a border sample + c · a cell, whatever the record and the camera are. What memcpy itself takes, of which a turn makes at most four calls with at most 256 bytes each, is in what is met and not in what is at most.

docs/HEAD.md budgets with what is *at most*.

| | updates | border sample, met | at most | cell, met | at most | a turn's own, met | at most |
|---|---|---|---|---|---|---|---|
"""
BY_CAMERA = """
A bc camera whose k4, k5 and k6 are zeros has the short engine, without the quotient. A point where a number on the way isn't finite is done again by the full engine, so bc's *at most* above is one behind the other. By the camera:

| bc | border sample, met | at most | cell, met | at most |
|---|---|---|---|---|
"""
SIXTEEN = """
Of `lens_turn16`, whose samples are the same code:

| | cell of sixteen bits, met | at most | a turn's own, met | at most |
|---|---|---|---|---|
"""
LEFT = """
The loops that the compiler has left in the archive. It has laid out the others (the root's digits, the arctangent's series, the bytes of a number) pass by pass, so that they stand in the paths as they are.

| in | passes at most | instructions a pass | from |
|---|---|---|---|
"""
EACH = """
## Each C function at most

Reckoned in the same way, in instructions, for every input; `lens_lookup` and the functions of one number have no model. The only function from outside is memcpy, whose own instructions and stack are not in it; how often it can be called stands beside.

The stack is in bytes, over all paths, with the 8 of the return address and without what the caller passes on the stack. *Met* is what a call took on a stack that was painted before, of one camera a model (bench/stack.c).

| | MODELS | calls of memcpy | stack, met | stack, at most |
|LINES---|---|---|---|
""".replace("MODELS", " | ".join(MODELS)).replace("LINES", "---|" * len(MODELS))
ASKED = """
## What is ours alone: asked, before and now

In instructions. Promises are as they were; *before* is what this page had before the work on them, on 2026-11-16. Narrow is counted by tools/count-leaves, with a call, a return and the way back to an f64: its 17 are the 14 that were asked, and these three.

| | asked, at most | before | now |
|---|---|---|---|
"""
TRIED = """
Where it isn't reached, and what was tried (counted without proofs):

- *affine distort*: asking for affine before the other models gives 48. What is left is the call of `camera::distort` itself: a function that isn't inlined is handed a copy of the camera, 136 bytes.
- *a turn's own*: at most 560 are for reading a record, its check word and judging it, which takes 199; 199 for judging it again, since `distortion_table::turn` takes any record; 199 for writing it. Judging once was tried when a turn's own was 1,792: 1,336, with a stack of 3,208 bytes for 2,952. Handing back status and progress alone gained nothing.
"""
BC = MODELS.index("bc")
# Counted through C and not in the bounds: the caller's loop, and a memcpy of at most 256 bytes.
CALLER, COPY = 40, 40
faults = []


def made(program, *words):
    """What a program writes, line by line."""
    return subprocess.run([*runner, f"{folder}/{program}", *words], capture_output=True, text=True, check=True).stdout.splitlines()


def hold(what, met, most):
    """What was met, which must not be above the most. Differences of averages have the last digits of a float."""
    if round(met, 3) > most:
        faults.append(f"{what}: {met:.0f} were counted, and the bound is {most}")
    print(f"{what}: met {met:.0f}, at most {most}, {most / met:.2f} of it")


def units(model, kind, own, price, count="count"):
    """What a unit of that kind costs at most, and the turn around it."""
    name, jobs = f"{folder}/{model}_{kind}.jobs", made("count_turn", "cases", model, kind)
    with open(name, "w") as out:
        out.write("\n".join(jobs))

    def turn(allowance, ahead):
        return [each(50, "count_turn", count, allowance, None, name, i, ahead) for i in range(len(jobs))]

    one, two, before, after = turn(1, 0), turn(2, 0), turn(0, 1), turn(0, 2)
    # What a turn of none takes changes with the last sample, which is not that unit's.
    unit = max(b - a - (d - c) for a, b, c, d in zip(one, two, before, after))
    words = "a " + kind.replace("_", " ") + ("" if count == "count" else " of sixteen bits")
    copies, each_unit = bounds.copies("lens_turn", MODELS.index(model))
    copy = COPY * each_unit.get(kind.split("_")[-1], 0)
    hold(f"{model}: {words}", unit, price + copy)
    for n, counted in enumerate((before + after, one, two)):
        hold(f"{model}: a turn of {n}, the last {words}", max(counted), own + COPY * copies + n * (price + copy))
    return unit, max(before + after)


def worst(bounds, model):
    own, prices = bounds.instructions("lens_turn", MODELS.index(model))
    (sample, around), (cell, also) = (units(model, kind, own, prices[kind]) for kind in ("sample", "cell"))
    return (f"| {model} | {TABLE[model].limit or 'none'} | {sample:.0f} | {prices['sample']} | {cell:.0f} | {prices['cell']} "
            f"| {max(around, also):.0f} | {own} |\n")


def engine(archive, words, kind):
    """bc's units by one engine alone."""
    bounds = Bounds(archive, kind)
    own, prices = bounds.instructions("lens_turn", BC)
    (sample, _), (cell, _) = (units("bc", f"{kind}_{unit}", own, prices[unit]) for unit in ("sample", "cell"))
    return f"| {words} | {sample:.0f} | {prices['sample']} | {cell:.0f} | {prices['cell']} |\n"


def again(bounds):
    """A sample whose search the short engine ends at a NaN, and the full one goes on with to the last update. It is refused, so there is
    no turn of two."""
    own, prices = bounds.instructions("lens_turn", BC)
    name, jobs = f"{folder}/bc_again.jobs", made("count_turn", "cases", "bc", "again")
    with open(name, "w") as out:
        out.write("\n".join(jobs))
    none, one = ([each(50, "count_turn", "count", n, None, name, i, 0) for i in range(len(jobs))] for n in (0, 1))
    hold("bc: a turn of a sample that is done again", max(one), own + prices["sample"] + COPY * bounds.copies("lens_turn", BC)[0])
    met = max(b - a for a, b in zip(none, one))
    return f"| zeros, done again by the full engine | {met:.0f}, refused with 11 | {prices['sample']} | | {prices['cell']} |\n"


def worst_sixteen(bounds, model):
    own, prices = bounds.instructions("lens_turn16", MODELS.index(model))
    cell, around = units(model, "cell", own, prices["cell"], "count16")
    return f"| {model} | {cell:.0f} | {prices['cell']} | {around:.0f} | {own} |\n"


def left(bounds):
    for limit in LOOPS:
        costs = [bounds.pass_of(limit, model) for model in range(len(MODELS))]
        cost = f"{max(costs)}" if limit.passes else "by model"
        yield f"| {', '.join(f'`{name}`' for name in limit.places())} | {limit.passes or 'one for each ' + limit.unit} | {cost} | {limit.why} |\n"


def functions(bounds):
    stack = dict(line.split() for line in made("stack"))
    for name, by_model in FUNCTIONS.items():
        cells = []
        for model in range(len(MODELS)):
            own, prices = bounds.instructions(name, model)
            more = {"lens_turn": " and its units", "lens_turn16": " and its units", "lens_observe": " and {} a record"}.get(name, "")
            cells.append(f"{own}{more.format(*prices.values())}")
        cells = cells if by_model else [cells[0], *[""] * (len(MODELS) - 1)]
        most = bounds.stack(name)[0]
        hold(f"{name}: stack", int(stack[name]), most)
        copies, by_unit = max((bounds.copies(name, model) for model in range(len(MODELS))), key=lambda one: one[0])
        copies = f"{copies or 'none'}" + "".join(f" and {n} a {unit}" for unit, n in by_unit.items() if n)
        yield f"| `{name}` | {' | '.join(cells)} | {copies} | {stack[name]} | {most} |\n"


def through_c(bounds, text):
    """The page's column of calls through C, which report.py has counted, against the bounds."""
    found = re.findall(r"^\| (\w+) (distort|undistort|dx_distort_x|dx_distort_params)(?:, \d+ updates)? \|.* (\d+) \|$", text, re.M)
    if not found:
        sys.exit(f"{page} has no calls through C: run bench/run whole")
    for model, operation, counted in found:
        at, name = MODELS.index(model), f"lens_{operation}"
        allowed = CALLER + COPY * bounds.copies(name, at)[0]
        hold(f"{name} of {model}, with its caller", int(counted), bounds.instructions(name, at)[0] + allowed)


def asked(text):
    """The goals for what is ours alone, from the page's own rows."""
    def row(title):
        found = re.search(rf"^\| {title} \|(.*)\|$", text, re.M)
        return [float(word) if word.strip() else None for word in found.group(1).split("|")]

    ours, camera = 1, 4
    turns = [row(rf"{model} \| \w+") for model in MODELS]
    own = sorted(turn[4] for turn in turns)
    distort = row("affine distort")
    yield "affine distort: the camera, above the model", "40", "122", f"{distort[camera] - distort[ours]:.0f}"
    yield "eucm dx_distort_params, the model", "480", "504", f"{row('eucm dx_distort_params')[ours]:.0f}"
    yield "kb dx_distort_params, the model", "no loop", "1301", f"{row('kb dx_distort_params')[ours]:.0f}"
    yield "narrow, by tools/count-leaves", "17", "32", "15"
    yield "affine cell", "110", "186", f"{row('affine cell')[ours]:.0f}"
    yield "affine cell, through `lens_turn`, met", "", "234", f"{turns[0][2]:.0f}"
    yield "a turn's own, met", "900", "1709 to 1947", f"{own[0]:.0f} to {own[-1]:.0f}"
    yield "a turn's own, at most", "", "1943", f"{max(turn[5] for turn in turns):.0f}"
    yield "arctangent", "300", "359", f"{row('arctangent')[ours]:.0f}"
    yield "tangent", "400", "451", f"{row('tangent')[ours]:.0f}"


with open(page) as before:
    text = before.read().split(TITLE)[0]
if f"Counted on {machine()}," not in text:
    sys.exit(f"{page} was not counted on this machine ({machine()}): run bench/run whole, so that it has one")
archive = os.environ["BOUND_ARCHIVE"]
bounds = Bounds(archive)
through_c(bounds, text)
text += TITLE + WORST.replace("DATE", datetime.date.today().isoformat()) + "".join(worst(bounds, model) for model in MODELS)
text += BY_CAMERA + engine(archive, "k4, k5 and k6 aren't all zeros", "full")
text += engine(archive, "zeros, done by the short engine alone", "short") + again(bounds)
text += SIXTEEN + "".join(worst_sixteen(bounds, model) for model in MODELS)
text += LEFT + "".join(left(bounds)) + EACH + "".join(functions(bounds))
text += ASKED + "".join(f"| {' | '.join(one)} |\n" for one in asked(text)) + TRIED
if faults:
    sys.exit("A bound that doesn't hold (lines with a caller come from the page: after a change to the archive run bench/run whole):\n"
             + "\n".join(faults))
with open(page, "w") as out:
    out.write(text)
