"""What both reports share: COUNTER FOLDER COST.md [RUNNER...] on the command line, one call's instructions, and the machine."""
import os, platform, re, subprocess, sys

counter, folder, page, runner = sys.argv[1], sys.argv[2], sys.argv[3], sys.argv[4:]


def insns(program, *words):
    done = subprocess.run([counter, f"{folder}/{program}", *map(str, words)], capture_output=True, text=True)
    if done.returncode != 0:
        sys.exit(f"{words}: {done.stderr}")
    return int(re.search(r"insns: (\d+)", done.stderr).group(1))


def each(n, *words):
    """Instructions of one call, by a program and its words; the count stands where there is None. N calls and 2N are counted, so
    that start-up drops out."""
    at = words.index(None)
    once, twice = (insns(*words[:at], k * n, *words[at + 1:]) for k in (1, 2))
    return (twice - once) / n


def machine():
    """The machine and the compiler of the Rust's text, which both decide what is counted."""
    compiler = [f"{os.environ['SHARED']}/tools/cross-rust", "--version"]
    return f"{platform.machine()}, {subprocess.run(compiler, capture_output=True, text=True).stdout.strip()}"
