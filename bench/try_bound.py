#!/usr/bin/env python3
"""try_bound.py [ARCHIVE]: bound.py against a small program whose figures were worked out by hand, and against changes of it, and of what is
said of the archive, that it must refuse. Prints a line each and returns 1 if one is wrong. It needs gcc for x86-64."""
import os, subprocess, sys, tempfile

import bound
from bound import Bounds, Limit

PROGRAM = """
.section .text.leaf,"ax"
.globl leaf
leaf:
  mov %rax,-0x40(%rsp)
  test %edi,%edi
  je 1f
  xor %eax,%eax
  xor %edx,%edx
1: ret
.section .text.nest,"ax"
.globl nest
nest:
  push %rbx
  sub $0x20,%rsp
  mov $3,%ecx
2: mov $5,%ebx
3: call leaf
  dec %ebx
  jne 3b
  cmp $0x77,%ecx
  je 4f
  dec %ecx
  jne 2b
4: add $0x20,%rsp
  pop %rbx
  ret
"""
OUTER, INNER = Limit("nest", [r"cmp \$0x77,"], passes=3, why="3 down to 1"), Limit("nest", ["call leaf"], passes=5, why="5 down to 1")
# leaf: 6. A pass within: 1 + 6 + 2 = 9, five of them 45. A pass around: 1 + 45 + 4 = 50, three of them 150. Before it 3, behind it 3.
# Stack: 8 of the return address, 8 and 32; and leaf's 8 and the 64 that it writes below.
RIGHT = 6, 156, 120
# A pass of walk is a call of leaf, 7, and 2 more; beside its steps walk takes 3, and top, which calls it, 5.
UNITS = """
.section .text.walk,"ax"
.globl walk
walk:
  test %edi,%edi
  je 6f
5: call leaf
  dec %edi
  jne 5b
6: ret
.section .text.top,"ax"
.globl top
top:
  call walk
  ret
"""
STEP = Limit("walk", ["call leaf"], unit="step", by="leaf", why="a step each")
AROUND = Limit("top", ["call walk"], passes=3, why="3 down to 1")
REFUSED = [  # what is changed, and what the refusal must say
    ("mov $3,%ecx", "call *%rax\n  mov $3,%ecx", "isn't named"),
    ("mov $3,%ecx", "jmp *%rax\n  mov $3,%ecx", "no jump table"),
    ("mov $3,%ecx", "mov $3,%ecx\n  js 3f", "more than one way in"),
    ("xor %eax,%eax", "call nest", "recursion"),
    ("xor %eax,%eax", "call strlen", "isn't in the archive"),
    ("xor %eax,%eax", "rep stosb", "how often it repeats"),
    ("xor %eax,%eax", "sub %rax,%rsp", "in a way that isn't known"),
    ("xor %eax,%eax", "push %rax", "depends on the way"),
    ('.section .text.nest,"ax"', "", "doesn't stand alone"),
]
wrong = 0


def told(what, right):
    global wrong
    wrong += not right
    print(f"{'right' if right else 'WRONG'}: {what}")


def refusal(make):
    try:
        make()
    except SystemExit as end:
        return str(end)
    return "not refused"


def archive(folder, text):
    with open(f"{folder}/a.s", "w") as out:
        out.write(text)
    compiler = "gcc" if os.uname().machine == "x86_64" else "x86_64-linux-gnu-gcc"
    subprocess.run([compiler, "-c", "-o", f"{folder}/a.o", f"{folder}/a.s"], check=True)
    return f"{folder}/a.o"


def small(folder):
    def all_of(text):
        bounds = Bounds(archive(folder, text))
        return bounds.instructions("leaf")[0], bounds.instructions("nest")[0], bounds.stack("nest")[0]

    bound.LOOPS[:] = [OUTER, INNER]
    found = all_of(PROGRAM)
    told(f"leaf, nest and its stack: {found}", found == RIGHT)
    for old, new, says in REFUSED:
        found = refusal(lambda: all_of(PROGRAM.replace(old, new)))
        told(found.splitlines()[0], says in found)
    for loops, says in (([OUTER], "fits 0 lines"), ([OUTER, INNER, Limit("nest", ["bsf"], passes=1, why="gone")], "any more"),
                        ([OUTER, INNER, Limit("gone", ["bsf"], passes=1, why="gone")], "no function gone")):
        bound.LOOPS[:] = loops
        found = refusal(lambda: all_of(PROGRAM))
        told(found.splitlines()[0], says in found)


def units(folder):
    """A function that is called brings its units' price along, unless it is called in a loop."""
    bound.LOOPS[:] = [OUTER, INNER, STEP]
    bound.UNITS["walk"] = [STEP]
    found = Bounds(archive(folder, PROGRAM + UNITS)).instructions("top")
    told(f"top and a step: {found}", found == (5, {"step": 9}))
    bound.LOOPS.append(AROUND)
    looped = (PROGRAM + UNITS).replace("  call walk", "  mov $3,%ecx\n7: call walk\n  dec %ecx\n  jne 7b")
    found = refusal(lambda: Bounds(archive(folder, looped)).instructions("top"))
    told(found.splitlines()[0], "is called in a loop" in found)
    bound.UNITS.clear()


def lens(path, tables):
    for name in ("job_bytes::write", "camera::finite_parameters", "lens_lookup"):
        bound.MODEL_TABLES[:] = [*tables, name]
        found = refusal(lambda: Bounds(path))
        told(found, "MODEL_TABLES" in found)
        bound.MODEL_TABLES.clear()
    bound.MODEL_TABLES[:] = tables
    cut = [Bounds(path).instructions("lens_turn", model) for model in range(len(bound.MODELS))]
    bound.MODEL_TABLES.clear()
    whole = Bounds(path).instructions("lens_turn")
    least = all(own <= whole[0] and all(price <= whole[1][unit] for unit, price in prices.items()) for own, prices in cut)
    told(f"without a word on models lens_turn takes {whole}, and no model more", least)
    bound.MODEL_TABLES[:] = tables
    shut(path)
    engines(path, bound.MODELS.index("bc"))


def shut(path):
    """A cell with the ways that no pass takes, and ways that aren't behind the comparison that is said, or aren't there."""
    cell = next(one for one in bound.LOOPS if one.function == "lens_turn")
    kept, less = cell.shut, Bounds(path).instructions("lens_turn", 0)[1]["cell"]
    cell.shut = ()
    more = Bounds(path).instructions("lens_turn", 0)[1]["cell"]
    told(f"a cell of affine {less}, and with counts above 4,096 {more}", less < more)
    for pair, says in (((kept[0], r"cmp \$0xfff,"), "and not behind"), ((r"ucomisd", kept[1]), "and not behind"), (("bsf ", kept[1]), "any more")):
        cell.shut = pair
        found = refusal(lambda: Bounds(path))
        told(found, says in found)
    cell.shut = kept


def engines(path, bc):
    """bc by one engine alone and by both, and the others, to which the engines are one."""
    both, full, short = ([Bounds(path, one).instructions("lens_turn", model)[1] for model in range(len(bound.MODELS))]
                         for one in (None, "full", "short"))
    apart = all(both[m] == full[m] for m in range(len(bound.MODELS)) if m != bc)
    told(f"a sample of bc by both engines, the full and the short one {[one[bc]['sample'] for one in (both, full, short)]}, and of no other",
         apart and short[bc]["sample"] < full[bc]["sample"] < both[bc]["sample"] <= short[bc]["sample"] + full[bc]["sample"])
    kept = dict(bound.ENGINES)
    bound.ENGINES["engine::distort"] = ("subsd ", "divsd ", "bsf ")
    found = refusal(lambda: Bounds(path))
    told(found, "ENGINES: 0 blocks" in found)
    bound.ENGINES.update(kept)


kept = dict(bound.FUNCTIONS), list(bound.MODEL_TABLES), list(bound.LOOPS), dict(bound.UNITS), dict(bound.ENGINES)
bound.FUNCTIONS.clear(), bound.MODEL_TABLES.clear(), bound.UNITS.clear(), bound.ENGINES.clear()
with tempfile.TemporaryDirectory() as folder:
    small(folder)
    units(folder)
bound.FUNCTIONS.update(kept[0]), bound.UNITS.update(kept[3]), bound.ENGINES.update(kept[4])
bound.LOOPS[:] = kept[2]
if len(sys.argv) == 2:
    lens(sys.argv[1], kept[1])
sys.exit(wrong > 0)
