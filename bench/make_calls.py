#!/usr/bin/env python3
"""make_calls.py FOLDER: writes FOLDER/calls.rt, a Rattle library that exports each operation of each model, of the model's own
crate (`ours_`) and of the camera (`camera_`), and FOLDER/calls.rs, the same of the Rust's text (`rust_`), with a list of all
names. Every function takes as many parameters as a model has at most and two coordinates, and gives the sum of its answer's numbers, so that no part
of an answer goes unasked and both sides carry the same load. A refusal gives NaN. The functions of one number take x."""
import sys

from models import MODELS, MOST_PARAMS, OPERATIONS, PASSED, TABLE, in_rust

NUMBERS = [f"p{i}" for i in PASSED] + ["x", "y"]
TYPED = ", ".join(f"{n}: f64" for n in NUMBERS)
SIGNATURE = "(" + TYPED + ") -> f64"


def pairs(side):
    """Each model with each operation that it has on a side."""
    return [(m, o) for m in MODELS for o in OPERATIONS if side != "rust" or in_rust(m, o)]


def columns(model, operation):
    return len(TABLE[model].fields()) if operation == "dx_distort_params" else 2


def camera_of(model):
    one = TABLE[model]
    given = [f"{f}: p{i}" for i, f in enumerate(one.fields())]
    if one.holds:
        given[: len(TABLE[one.holds].fields())] = [f"{one.holds}: {camera_of(one.holds)}"]
    return f"{one.crate}::{one.name}Params {{ {', '.join(given)} }}"


def place(operation):
    return "lens::Pixel(x, y)" if operation == "undistort" else "lens::Point(x, y)"


def entries(model, operation, record):
    return " + ".join(f"{record}[{i}]" for i in range(2 * columns(model, operation)))


def exported(name, body):
    return f"#[unsafe(no_mangle)]\npub extern \"C\" fn {name}{SIGNATURE} {{\n{body}\n}}\n"


def matched(call, answered):
    """A result's answer, and NaN for a refusal."""
    binding, value = answered
    return f"    match {call} {{\n        Ok({binding}) => {value},\n        Err(_) => 0.0 / 0.0,\n    }}"


DISTORTED = ("pixel", "pixel.0 + pixel.1")
UNDISTORTED = ("settled", "settled.point.0 + settled.point.1")


def ours(model, operation):
    call = f"{TABLE[model].crate}::{operation}({camera_of(model)}, {place(operation)})"
    if operation == "distort":
        body = f"    let pixel = {call};\n    pixel.0 + pixel.1"
    elif operation != "undistort":
        body = f"    let jacobian = {call};\n    let e = jacobian.entries;\n    {entries(model, operation, 'e')}"
    elif model in ("eucm", "kb"):
        body = matched(call, UNDISTORTED)
    else:
        body = f"    let settled = {call};\n    settled.point.0 + settled.point.1"
    return exported(f"ours_{model}_{operation}", body)


def camera(model, operation):
    call = f"camera::{operation}(camera::Camera::{TABLE[model].name}({camera_of(model)}), {place(operation)})"
    if operation == "distort":
        body = matched(call, DISTORTED)
    elif operation == "undistort":
        body = matched(call, UNDISTORTED)
    else:
        body = matched(call, ("jacobian", entries(model, operation, "jacobian.entries")))
    return exported(f"camera_{model}_{operation}", body)


def table(model):
    """A whole table, and how many units were done."""
    name = TABLE[model].name
    return (f"#[unsafe(no_mangle)]\npub extern \"C\" fn table_{model}({TYPED}, width: usize, height: usize, table: &mut [f32]) -> usize {{\n"
            f"    let turned = distortion_table::distort_table(camera::Camera::{name}({camera_of(model)}), width, height, table);\n"
            f"    turned.job.at.done\n}}\n")


def rust(model, operation):
    name = TABLE[model].name
    params = ", ".join(f"Num::of(p{i})" for i in range(len(TABLE[model].fields())))
    call = f"{name}DistortionImpl::<Num<Platform>, 1, 0, 0>::{operation}(SVector([{params}]), SVector([Num::of(x), Num::of(y)]))"
    wide = columns(model, operation)
    jacobian = " + ".join(f"a[{i // wide}][{i % wide}].0" for i in range(2 * wide))
    total = jacobian if operation.startswith("dx") else "a[0].0 + a[1].0"
    return f"pub extern \"C\" fn rust_{model}_{operation}{SIGNATURE} {{\n    let a = {call}.0;\n    {total}\n}}\n"


TANGENT = "    arctan::tangent(x).unwrap_or(0.0 / 0.0)"
ONE_NUMBER = {  # ours and the platform's
    "root": ("    root::root(x)", "x.sqrt()"),
    "arctangent": ("    arctan::arctangent(x)", "x.atan()"),
    "tangent": (TANGENT, "x.tan()"),
}

folder = sys.argv[1]
rattle = ["#![tactic(auto)]\n"] + [f(m, o) for f in (ours, camera) for m, o in pairs("ours")] + [table(m) for m in MODELS]
rattle += [exported("ours_" + name, body) for name, (body, _) in ONE_NUMBER.items()]
names = {side: [f"{side}_{m}_{o}" for m, o in pairs(side)] for side in ("rust", "ours", "camera")}
for side in ("rust", "ours"):
    names[side] += [f"{side}_{name}" for name in ONE_NUMBER]
with open(folder + "/calls.rt", "w") as out:
    out.write("\n".join(rattle))
with open(folder + "/calls.rs", "w") as out:
    out.write("use rust_text::traits::IsCameraDistortionImpl;\nuse rust_text::{Num, Platform, SVector};\n")
    for one in TABLE.values():
        if one.rust:
            out.write(f"use rust_text::distortions::{one.crate}::{one.name}DistortionImpl;\n")
    count = len(NUMBERS)
    out.write(f"pub type Call = unsafe extern \"C\" fn({', '.join(['f64'] * count)}) -> f64;\n")
    out.write(f"pub type Table = unsafe extern \"C\" fn({', '.join(['f64'] * count)}, usize, usize, *mut f32, usize) -> usize;\n")
    each = ", ".join(f"c[{i}]" for i in [*PASSED, MOST_PARAMS, MOST_PARAMS + 1])
    out.write(f"pub fn apply(f: Call, c: &[f64; {count}]) -> f64 {{\n    unsafe {{ f({each}) }}\n}}\n")
    out.write(f"pub fn apply_table(f: Table, c: &[f64; {count}], width: usize, height: usize, cells: &mut [f32]) -> usize {{\n"
              f"    unsafe {{ f({each}, width, height, cells.as_mut_ptr(), cells.len()) }}\n}}\n")
    out.write(f"pub extern \"C\" fn none{SIGNATURE} {{\n    x\n}}\n")
    out.write("extern \"C\" {\n")
    for name in names["ours"] + names["camera"]:
        out.write(f"    fn {name}{SIGNATURE};\n")
    for m in MODELS:
        out.write(f"    fn table_{m}({TYPED}, width: usize, height: usize, table: *mut f32, length: usize) -> usize;\n")
    out.write("}\n")
    out.write("".join(rust(m, o) for m, o in pairs("rust")))
    for name, (_, call) in ONE_NUMBER.items():
        out.write(f"pub extern \"C\" fn rust_{name}{SIGNATURE} {{\n    {call}\n}}\n")
    rows = [f"    (\"{name}\", {name}),\n" for side in names.values() for name in side]
    out.write(f"pub const CALLS: [(&str, Call); {len(rows)}] = [\n{''.join(rows)}];\n")
    out.write(f"pub const TABLES: [Table; {len(MODELS)}] = [{', '.join('table_' + m for m in MODELS)}];\n")
