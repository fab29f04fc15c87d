#!/usr/bin/env python3
"""report.py COUNTER FOLDER COST.md [RUNNER...]: counts with COUNTER the loops of FOLDER/count and count_c, takes off the empty loop, and
writes the page up to the part that report_head.py writes. RUNNER starts an x86-64 program on this machine."""
import datetime, subprocess

from counting import each, folder, machine, page, runner
from models import MODELS, OPERATIONS, TABLE, in_rust

NO_RUST, INSTEAD = "bc dx_distort_params", "bc dx_distort_x"  # a todo!() there; and what of ours it is held to
UPDATES = {"kb": [2, 3, 4, 5, 20], "bc": [1, 2, 3, 4, 50], "bc12": [1, 2, 3, 4, 50]}


def cases(model, operation, updates):
    name = f"{folder}/{model}_{operation}_{updates}.cases"
    with open(name, "w") as out:
        subprocess.run([*runner, folder + "/count", "cases", model, operation, str(updates)], stdout=out, check=True)
    return name


def row(title, model, operation, updates="-"):
    """Title, and what the Rust, our model, our camera and our C function take; None where there is no such function."""
    file = cases(model, operation, updates)
    name = operation if model == "one" else f"{model}_{operation}"
    empty = each(3200, "count", "count", "none", None, file)
    sides = ["rust", "ours"] if model == "one" or in_rust(model, operation) else ["ours"]
    took = {side: each(3200, "count", "count", f"{side}_{name}", None, file) - empty + 2 for side in sides}
    if model != "one":
        took["camera"] = each(3200, "count", "count", f"camera_{name}", None, file) - empty + 2
        took["c"] = each(3200, "count_c", model, operation, None, file)
    return title, took


def table_rows(model):
    """A cell and a border sample. Two sizes with as many border samples give the cells' difference; what is left of one of
    them is its border, which has each corner twice in the Rust."""
    took = {}
    for side, samples in (("rust", 2 * 32 + 2 * 32 + 4), ("ours", 2 * 32 + 2 * 32)):
        if side == "rust" and not TABLE[model].rust:
            continue
        wide, square = (each(20, "count", "table", side, model, w, h, None) for w, h in ((48, 16), (32, 32)))
        cell = (square - wide) / (32 * 32 - 48 * 16)
        took[side] = cell, (square - 32 * 32 * cell) / samples
    return [(f"{model} {what}", {side: t[i] for side, t in took.items()}) for i, what in enumerate(("cell", "border sample"))]


def inside(title):
    """How many roots, arctangents and tangents a call takes. bc takes none of ours: it tests its norms by their squares."""
    words = title.split()
    if words[0] == "eucm":
        return 1, 0, 0
    if words[0] == "kb" and words[1].startswith(("undistort", "border")):
        return 2, 0, 1
    if words[0] == "kb":
        return 1, 1, 0
    return 0, 0, 0


def rest(title, took, rows):
    """Our count over the Rust's, root, arctangent and tangent taken off both as they stand in the first three rows."""
    left = {side: took[side] - sum(n * rows[i][1][side] for i, n in enumerate(inside(title))) for side in ("rust", "ours")}
    return left["ours"] / left["rust"]


def line(title, took, rows):
    def cell(side):
        return f"{took[side]:.0f}" if side in took else ""

    def ratio(side):
        return f"{took[side] / took['rust']:.2f}" if side in took and "rust" in took else ""

    apart = f"{rest(title, took, rows):.2f}" if any(inside(title)) else ""
    return f"| {title} | {cell('rust')} | {cell('ours')} | {ratio('ours')} | {apart} | {cell('camera')} | {ratio('camera')} | {cell('c')} |"


def operations():
    for m in MODELS:
        for o in OPERATIONS:
            if o == "undistort" and m in UPDATES:
                for n in UPDATES[m]:
                    yield row(f"{m} {o}, {n} updates", m, o, n)
            else:
                yield row(f"{m} {o}", m, o)


GOALS = [  # what the order asks, the most, and the rows that are meant
    ("affine", 1.1, lambda title: title.startswith("affine d") or title.startswith("affine u")),
    ("bc", 1.1, lambda title: title != NO_RUST and (title.startswith("bc d") or title.startswith("bc u"))),
    (f"{NO_RUST}, which the Rust hasn't, over our {INSTEAD}", 1.6, lambda title: title == NO_RUST),
    ("bc12, which the Rust hasn't, over our bc", 1.15, lambda title: title.startswith(("bc12 distort", "bc12 undistort"))),
    ("the table's own work, which is nearly all of affine's cell and border sample", 1.1,
     lambda title: title in ("affine cell", "affine border sample")),
    ("kb undistort", 2, lambda title: title.startswith("kb undistort")),
]


def goal(what, most, meant, rows):
    met, missed = [], []
    for title, took in rows:
        if meant(title):
            beside = INSTEAD if title == NO_RUST else title.replace("bc12", "bc")
            ratio = took["ours"] / (took["rust"] if "rust" in took else dict(rows)[beside]["ours"])
            (met if ratio <= most else missed).append(f"{title} {ratio:.2f}")
    return f"| {what} | {most} | {'; '.join(met) or 'none'} | {'; '.join(missed) or 'none'} |"


rows = [row(name, "one", name) for name in ("root", "arctangent", "tangent")]
rows += list(operations())
rows += [r for m in MODELS for r in table_rows(m)]
with open(__file__.replace("report.py", "COST.head.md")) as head:
    text = head.read()
text = text.replace("MACHINE", machine()).replace("DATE", datetime.date.today().isoformat())
with open(page, "w") as out:
    out.write(text)
    out.write("| | the Rust | ours, the model | ratio | of the rest | ours, the camera | ratio | ours, through C |\n")
    out.write("|---|---|---|---|---|---|---|---|\n")
    for title, took in rows:
        out.write(line(title, took, rows) + "\n")
    out.write("\n## The goals\n\n| | at most | met by | missed by |\n|---|---|---|---|\n")
    for what, most, meant in GOALS:
        out.write(goal(what, most, meant, rows) + "\n")
