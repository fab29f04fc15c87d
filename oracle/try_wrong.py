#!/usr/bin/env python3
"""try_wrong.py COMPILE... -- ARGS...: can the oracle see? Each edit of oracle/wrong/ makes the stand-in or the oracle wrong in one
place; built so and run with ARGS, it has to count differences. Prints a line for each, and fails if one isn't seen."""
import os, re, shutil, subprocess, sys

at = sys.argv.index("--")
compiler, args = sys.argv[1:at], sys.argv[at + 1:]
here = os.path.dirname(os.path.abspath(__file__))
work = os.path.join(here, "../target/oracle/wrong")
unseen = 0


def build(*words):
    subprocess.run([*compiler, "-A", "warnings", *words], check=True)


names = sorted(os.listdir(here + "/wrong"))
for number, name in enumerate(names, 1):
    print(f"oracle/run wrong: {number} of {len(names)}: {name}", file=sys.stderr, flush=True)
    with open(f"{here}/wrong/{name}") as edit:
        keys = dict(line.rstrip("\n").split(": ", 1) for line in edit if not line.startswith("#"))
    shutil.rmtree(work, ignore_errors=True)
    shutil.copytree(here, work)
    path = os.path.join(work, keys["file"])
    with open(path) as source:
        text = source.read()
    if text.count(keys["old"]) != 1:
        sys.exit(f"{name}: its old text doesn't stand there once")
    with open(path, "w") as source:
        source.write(text.replace(keys["old"], keys["new"]))
    library = work + "/librust_text.rlib"
    build("--crate-type", "rlib", "--crate-name", "rust_text", "-o", library, work + "/rust_text/lib.rs")
    build("--extern", "rust_text=" + library, "-o", work + "/oracle", work + "/compare/main.rs")
    last = subprocess.run([work + "/oracle", *args], capture_output=True, text=True).stdout.splitlines()[-1]
    seen = int(re.search(r"differences (\d+)", last).group(1))
    unseen += seen == 0
    print(f"{name}: {seen} differences", flush=True)
print(f"wrong oracles unseen: {unseen}")
sys.exit(unseen > 0)
