#!/usr/bin/env python3
"""Prints the table of docs/CONTRACTS.md that says which definitions a reader of demand 3's law has to believe, with their lines.

Run from the project's root. `--check` compares it with the document and says where they differ (exit status 1);
`--write` puts it there."""
import re
import sys

TABLE = [
    ("what is owed, of a job", "distortion_table", "specs/Held", ["BuiltJob", "Held", "held_plan", "held_state"]),
    ("what is owed", "plans", "specs/Built", ["Built", "progress_of", "doable", "unit_number", "border_number",
                                        "sample_number", "content_number", "content_at", "region_of", "edges_below",
                                        "settled_at", "before_refused", "first_no", "sum_below"]),
    ("but for a zero's sign among the edges", "alike_plans", "specs/AlikePlans", ["BuiltAlike", "AlikeProgress", "AlikeRegions"]),
    ("a sweep, a plan, a state", "plans", "specs/Plan", ["Content", "Sweep", "Plan", "State", "nowhere", "begun", "fresh", "one_no", "all_units",
                                                   "found", "too_strict", "cells_done", "cell_in"]),
    ("calls, and A", "plans", "specs/Calls", ["both_or_neither", "tallied", "samples_done", "possible", "sound", "admitted", "judged", "Build", "allowed"]),
    ("a call, by the contract", "distortion_table", "proofs/Calls", ["Called", "turns", "Turns"]),
    ("a call, by the contract of `lens_turn`, `lens_turn16`", "lens_c", "proofs/Laws", ["Turned", "Turned16"]),
    ("what firmware holds", "turn_bytes", "specs/Calls", ["HeldBytes", "bytes_plan", "bytes_state", "bytes_said"]),
    ("our table's plan", "table_plans", "specs/Tables", ["Engine", "full", "Border", "corners_once", "opens_for", "sweep_by",
                                                  "table_by", "sweep_with", "full_sweep", "full_table"]),
    ("kinds of cell", "cell", "specs/Kind", ["Kind", "f32s", "i16s"]),
    ("a cell", "cell", "specs/Cell", ["cell_point", "f32", "both_held", "i16", "of_pixel", "cell_by"]),
    ("the border", "border", "specs/Border", ["before", "outside", "pixel", "pairs", "top_and_bottom", "left_and_right", "border",
                                        "samples", "border_at"]),
    ("edges and region", "border", "specs/Edges", ["lowered", "raised", "widened", "edges_after", "two", "mid", "doubled"]),
]


def lines_of(crate, name, wanted):
    """The first and last line of each definition, comments above it aside. A record's field of the same name is passed over: it
    stands without a definition's word before it."""
    text = open(f"crates/{crate}/{name}.antt", encoding="utf-8").read().split("\n")
    found, fields = {}, set()
    for i, line in enumerate(text):
        m = re.match(r"( *)((?:abbrev |unfoldable )?)pub ((?:abbrev |unfoldable |record |data )?)([^\s:]+)", line)
        if not m or m.group(4) not in wanted or line.lstrip().startswith("pub mod"):
            continue
        is_field = not m.group(2) and not m.group(3)
        if m.group(4) in found and (is_field or m.group(4) not in fields):
            continue
        (fields.add if is_field else fields.discard)(m.group(4))
        indent, j = len(m.group(1)), i + 1
        while j < len(text) and text[j].strip() and (len(text[j]) - len(text[j].lstrip()) > indent
                                                     or text[j].lstrip().startswith(m.group(4) + " ")
                                                     or text[j].strip() in ("}", ")")):
            j += 1
        found[m.group(4)] = (i + 1, j)
    missing = [w for w in wanted if w not in found]
    if missing:
        sys.exit(f"{crate}/{name}: no {missing}")
    return [(w, *found[w]) for w in wanted]


def table():
    out = ["| | File | Definitions, with their lines |", "|---|---|---|"]
    for what, crate, name, wanted in TABLE:
        defs = ", ".join(f"`{w}` {a}-{b}" if a != b else f"`{w}` {a}" for w, a, b in lines_of(crate, name, wanted))
        out.append(f"| {what} | {crate} {name} | {defs} |")
    return "\n".join(out)


if __name__ == "__main__":
    made, page = table(), "docs/CONTRACTS.md"
    text = open(page, encoding="utf-8").read()
    if "--write" in sys.argv:
        start = text.index(made.split("\n")[0])
        end = text.index("\n\n", start)
        open(page, "w", encoding="utf-8").write(text[:start] + made + text[end:])
    elif "--check" in sys.argv:
        missing = [line for line in made.split("\n") if line not in text]
        print("\n".join(missing) if missing else "as in the document")
        sys.exit(1 if missing else 0)
    else:
        print(made)
