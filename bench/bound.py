#!/usr/bin/env python3
"""bound.py ARCHIVE: the most instructions and the most stack that each function of the archive can take, whatever it is handed. Prints
them; bench/report_head.py writes them into docs/COST.md.

How it is reckoned. machine_code.py reads the archive as it is linked: each function's blocks, the calls, the loops. There is no
recursion and no indirect call, which it checks. So the most is the longest path: each instruction counts 1, a call counts 1 and what
the function called takes at most, and a loop counts as often as it can be passed. That last is what a person says, in LOOPS below, from
what is proved of the source. A loop that isn't in LOOPS is an error, and so is a line of LOOPS that fits no loop. A path that no input
takes counts too, but for counts above 4,096 in a cell: the figures are bounds and not the worst input's.

A unit's part of a turn. The loops over samples and cells have no number of passes: they have a price. A pass of the loop at its longest
is what a sample costs, S, or a cell, C. Then each call that makes a sample is counted S less, and each that makes a cell C less: no pass
is then above 0, which is checked, so the longest path passes each loop once, and what it comes to is the turn's own. A function that is
called brings its own and the prices of its units along, outside of any loop, which is checked. Hence

    a turn of s samples and c cells takes at most  own + s * S + c * C.

A first sample that the compiler has taken out of the loop is covered: what it takes above S is in the turn's own.

A model's part. The camera is an enum, and a function that asks for its model does so by a jump table, in the enum's order, which
is that of the numbers. For a model only its entry is followed in the functions of MODEL_TABLES; what each entry leads to is looked at, so that
another table in its place is noticed. Elsewhere all ways are followed: the figure is then too high and never too low.

The short engine. Only bc comes to it (engine::short_for, proved), and a point that it can't do is done again by the full one: what bc
takes at most is one behind the other. Bounds(archive, "full") and Bounds(archive, "short") have bc by one engine alone.

The stack. What a function pushes and reserves at its deepest, the 8 bytes of its return address, the red zone below the stack pointer
as far as it is touched, and at each call what the function called takes at most. An alignment counts as the most it can skip. What the
caller of a C function passes on the stack isn't in it.

memcpy is the one function from outside, called by the turns and by what begins a job. Its own instructions and stack are not in the
figures; how often it can be called is said."""
import re, sys
from dataclasses import dataclass
from functools import lru_cache

from machine_code import call_of, fail, order, read
from models import MODELS

OUTSIDE = {"memcpy"}


@dataclass
class Limit:
    """A loop of `function` that has an instruction like each of `has` and none like one of `lacks`, outside of loops within it. It is
    passed at most `passes` times at each entry. `first`: its head tests before a pass, so that the head is run once more, to leave. With
    a `unit` it has a price and no number: each call of `by`, or without one each pass, is one unit. `many`: a loop of a function that
    was inlined at many places; `function` is then a list, and each of them has one or more. `never`: the C functions that don't come to
    it, whatever they are handed. `shut`: what an instruction is like of each block that no pass comes to, and the comparison that stands right
    before each jump to such a block: it is come to only where the number that is compared is above."""
    function: object
    has: list
    why: str
    passes: int = None
    first: bool = False
    unit: str = None
    by: str = None
    lacks: list = ()
    many: bool = False
    never: list = ()
    shut: tuple = ()

    def places(self):
        return self.function if self.many else [self.function]

    def fits(self, text):
        def met(pattern):
            return any(re.search(pattern, re.sub(r"\s+", " ", line)) for line in text)
        return all(map(met, self.has)) and not any(map(met, self.lacks))


# region::float of a count above 4,096 is two halves, rounded. A cell's column and row are below its table's width and height, which are at
# most that, or the record is refused (job::admitted, region::sized).
COUNTED = (r"pshufd \$0x44,", r"cmp \$0x1000,")

# Each loop, how often it can be passed, and why. `has` holds the limit as it stands in the instructions where there is one, so that
# another limit, or another loop in its place, is noticed.
LOOPS = [
    Limit("camera::undistort_judged", [r"cmp \$0x15,", r"divsd"], passes=20, first=True,
          why="kannala_brandt::newton, LIMIT = 20 (specs: newton, limit); the updates are counted from 1, and 21 ends it"),
    Limit(["brown_conrady::undistort", "camera::undistort_judged"], [r"cmp \$0x32,", r"divpd|divsd"], many=True, passes=50,
          why="brown_conrady::newton and thin_prism::newton, LIMIT = 50 (specs: newton, limit); a pass that ends it early makes no update"),
    Limit("distortion_table::up_to_cells", [r"cmp \$0x32,", r"divpd|divsd"], passes=50,
          why="short_brown_conrady::newton, brown_conrady's LIMIT = 50 (specs: newton, limit); a pass that ends it early makes no update"),
    Limit("camera_bytes::read", [r"cmp \$0x10,"], lacks=["call"], passes=16,
          why="camera_bytes::numbers: as many as any model has, MOST = 16; 16 ends it"),
    Limit("distortion_table::up_to_cells", [r"call camera::undistort_judged"], unit="sample",
          why="sweep::units: a pass for each sample that is begun"),
    Limit("lens_turn", [r"call engine::distort"], unit="cell", by="engine::distort", shut=COUNTED,
          why="distortion_table's fill: one call for each cell that is begun; no column or row is above 4,096"),
    Limit("lens_turn16", [r"call engine::distort"], unit="cell", by="engine::distort", shut=COUNTED,
          why="the same, of sixteen bits"),
    Limit("lens_observe", [r"call camera::undistort_judged"], unit="observation",
          why="observation_bytes: a pass for each record, tested behind the pass, which is skipped for a list of none"),
]

# little_endian's `last` has a loop that the compiler makes two of, four bytes a pass and one. Fewer than eight bytes are left there. Every C
# function but lens_lookup has tested all lengths before it reads a number.
PARTS = ["lens_lookup", "camera_bytes::read", "lens_observe"]
TESTED = ["lens_distort", "lens_undistort", "lens_dx_distort_x", "lens_dx_distort_params", "lens_job_new", "lens_turn", "lens_turn16", "lens_observe"]
LOOPS += [
    Limit(PARTS, [r"shl \$0x10,", "movzbl"], many=True, passes=1, never=TESTED,
          why="little_endian::last, four bytes a pass: fewer than eight are left (its requires); entered only by lens_lookup"),
    Limit(PARTS, [r"shl \$0x8,", "movzbl"], lacks=[r"shl \$0x10,", "call"], many=True, passes=3, never=TESTED,
          why="the same, the bytes that four passes leave"),
]

# Functions with one jump table, which is over the model. What tells its entries apart: affine, bc and bc12 call neither root nor arctangent
# nor tangent, eucm the root alone, kb both; and bc takes longer than affine, bc12 longer than bc, but where bc has two engines: there it is
# told by the short one's test (ENGINES). To take a function out of this is always sound.
MODEL_TABLES = ["engine::distort", "lens_distort", "camera::undistort_judged", "lens_dx_distort_x", "lens_dx_distort_params"]
BY_CALLS = [(False, False), (True, False), (True, True), (False, False), (False, False)]

# Where the engines are told apart, and the one block of it that every path through each has: of the short one, to which only bc comes, its
# last test, of x - x, or None: where its search begins; what does its point again; and the full one's own. In a function with a jump table over
# the model they are sought among the blocks that bc alone comes to, what does the point again behind the short one's, and the full one's not.
ENGINES = {"engine::distort": (r"subsd (%xmm\d+),\1$", r"divsd ", r"divsd "),
           "distortion_table::up_to_cells": (None, r"call brown_conrady::undistort", r"call camera::undistort_judged")}
BC = MODELS.index("bc")

# The functions that C has, in the header's order, and whether a model is handed in.
FUNCTIONS = {"lens_distort": True, "lens_undistort": True, "lens_dx_distort_x": True, "lens_dx_distort_params": True,
             "lens_job_new": True, "lens_turn": True, "lens_turn16": True, "lens_lookup": False, "lens_observe": True, "lens_root": False,
             "lens_arctangent": False, "lens_tangent": False}


def every_loop(loops):
    for loop in loops:
        yield loop
        yield from every_loop(loop.inside)


class Bounds:
    def __init__(self, archive, engine=None):
        self.functions = read(archive)
        self.closed = {}  # the blocks that no call comes to, by function
        self.name_loops()
        self.check_calls()
        self.shut = self.find_engines(engine)
        self.check_models()

    # ---- what is checked before anything is reckoned

    def name_loops(self):
        for name in {name for limit in LOOPS for name in limit.places()}.difference(self.functions):
            fail(f"LOOPS: there is no function {name} (inlined, or renamed)")
        for function in self.functions.values():
            limits = [limit for limit in LOOPS if function.name in limit.places()]
            found = []
            for loop in every_loop(function.loops):
                own = loop.body.difference(*(inner.body for inner in loop.inside))
                text = [line.text() for at in sorted(own) for line in function.blocks[at].lines]
                fits = [limit for limit in limits if limit.fits(text)]
                if len(fits) != 1:
                    fail(f"{function.name}+{loop.head:x}: a loop of {len(text)} instructions fits {len(fits)} lines of LOOPS:\n"
                         + "\n".join(text))
                loop.entry = fits[0]
                if loop.entry in found and not loop.entry.many:
                    fail(f"LOOPS: two loops of {function.name} fit {loop.entry.has}")
                found.append(loop.entry)
                if loop.entry.first and loop.body.issuperset(function.blocks[loop.head].after):
                    fail(f"{function.name}+{loop.head:x}: LOOPS says that its head tests, but it doesn't leave there")
                if loop.entry.shut:
                    self.closed.setdefault(function.name, set()).update(self.shut_blocks(function, own, *loop.entry.shut))
            for limit in limits:
                if limit not in found:
                    fail(f"LOOPS: no loop of {function.name} fits {limit.has} any more: {limit.why}")

    def shut_blocks(self, function, own, has, behind):
        """The blocks among `own` with an instruction like `has`. Each jump to one must be taken where a number is above that of `behind`."""
        def like(pattern, line):
            return re.search(pattern, re.sub(r"\s+", " ", line.text()))

        found = {at for at in own if any(like(has, line) for line in function.blocks[at].lines)}
        if not found:
            fail(f"LOOPS: no block of the loop in {function.name} has an instruction like {has!r} any more")
        for block in function.blocks.values():
            for at in found.intersection(block.after):
                way = {"ja": 0, "jbe": 1}.get(block.lines[-1].op)
                if way is None or len(block.lines) < 2 or not like(behind, block.lines[-2]) or block.after[way] != at or block.after[1 - way] == at:
                    fail(f"{function.name}+{block.lines[-1].at:x}: leads to {at:x}, which LOOPS says no pass comes to, and not behind {behind!r}")
        return found

    def check_calls(self):
        done, way = set(), []

        def visit(name):
            if name in way:
                fail(f"recursion: {' -> '.join([*way, name])}")
            if name in OUTSIDE or name in done:
                return
            if name not in self.functions:
                fail(f"{way[-1]} calls {name}, which isn't in the archive")
            way.append(name)
            for other in sorted(self.functions[name].calls()):
                visit(other)
            done.add(way.pop())

        for name in self.functions:
            visit(name)
        for name in FUNCTIONS:
            if name not in self.functions:
                fail(f"the archive has no {name}")

    def engine_blocks(self, name, patterns):
        """The short engine's block, what does its point again, and the full one's."""
        function = self.functions.get(name)
        blocks = function.blocks if function else {}

        def one(pattern, among):
            fits = [at for at in among if any(re.search(pattern, re.sub(r"\s+", " ", line.text())) for line in blocks[at].lines)]
            if len(fits) != 1:
                fail(f"ENGINES: {len(fits)} blocks of {name} have an instruction like {pattern!r}")
            return fits[0]

        def reached(at):
            return order(at, lambda way: blocks[way].after)

        def search():
            heads = [loop.head for loop in every_loop(function.loops) if loop.entry.passes] if function else []
            return heads[0] if len(heads) == 1 else fail(f"ENGINES: {len(heads)} searches of {name}")

        table = next((block.after for block in blocks.values() if block.table and len(block.after) == len(MODELS)), None)
        if not table:
            return one(patterns[0], blocks) if patterns[0] else search(), one(patterns[1], blocks), one(patterns[2], blocks)
        others = {at for model, way in enumerate(table) if model != BC for at in reached(way)}
        own = [at for at in reached(table[BC]) if at not in others]
        short = one(patterns[0], own)
        behind = reached(short)
        return short, one(patterns[1], [at for at in own if at in behind]), one(patterns[2], [at for at in own if at not in behind])

    def find_engines(self, engine):
        """The blocks that a model doesn't come to, of each function where engines are told apart: bc's, and the others'."""
        shut = {}
        for name, patterns in ENGINES.items():
            short, again, full = self.engine_blocks(name, patterns)
            shut[name] = {"full": [short], "short": [again, full]}.get(engine, []), [short]
        return shut

    def check_models(self):
        for name in MODEL_TABLES:
            tables = [b for b in self.functions[name].blocks.values() if b.table] if name in self.functions else []
            if [len(b.after) for b in tables] != [len(MODELS)]:
                fail(f"MODEL_TABLES: {name} hasn't one jump table of {len(MODELS)} entries any more; take it out")
            takes = [self.instructions(name, model)[0] for model in range(len(MODELS))]
            calls = [self.called_from(self.functions[name], way) for way in tables[0].after]
            if calls != BY_CALLS or not takes[0] < min(takes[3:]) or not (name in ENGINES or takes[3] < takes[4]):
                fail(f"MODEL_TABLES: the entries of {name}'s jump table don't look like {', '.join(MODELS)}: {takes}")

    def called_from(self, function, at):
        """Whether what follows calls the root, and whether the arctangent or the tangent."""
        places = order(at, lambda one: function.blocks[one].after)
        called = {call_of(line) for one in places for line in function.blocks[one].lines}
        return "root::root" in called, bool(called & {"arctan::forward", "arctan::tangent"})

    # ---- which ways a model takes

    def ways(self, function, at, model):
        block = function.blocks[at]
        closed = self.closed.get(function.name)
        if closed and closed.intersection(block.after):
            return [way for way in block.after if way not in closed]
        if model is not None and block.table and function.name in MODEL_TABLES:
            return [block.after[model]]
        if model is not None and function.name in self.shut:
            return [way for way in block.after if way not in self.shut[function.name][model != BC]]
        return block.after

    # ---- the longest path

    def paths(self, function, model, root, weight, inside, entry, blocks, passes):
        """The most that a path from `entry` to the end of each block takes, within `blocks`. `passes` is filled with what a pass of each
        loop takes at most. Edges back to `entry` are the caller's."""
        place = {at: loop for loop in inside for at in loop.body}

        def shut(at, way):
            return way in place and at not in place[way].body and root in place[way].entry.never

        def after(at):
            return [way for way in self.ways(function, at, model) if way in blocks and way != entry and not shut(at, way)]

        def shrunk(node):
            loop = place.get(node)
            found = [(way if way not in place else place[way].head) for at in (loop.body if loop else [node]) for way in after(at)]
            return [way for way in found if way != node]

        until, total = {entry: 0}, {}
        for node in order(entry if entry not in place else place[entry].head, shrunk):
            if node not in until:
                continue
            loop = place.get(node)
            if loop is None:
                total[node] = until[node] + weight(node)
                ends = {node: total[node]}
            else:
                ends = self.through(function, model, root, weight, loop, passes)
                ends = {at: until[node] + most for at, most in ends.items()}
                total.update(ends)
            for at, most in ends.items():
                for way in after(at):
                    head = place[way].head if way in place else way
                    if head != node:
                        until[head] = max(until.get(head, most), most)
        return total

    def through(self, function, model, root, weight, loop, passes):
        """The same through a loop, from its entry, all its passes counted."""
        within = self.paths(function, model, root, weight, loop.inside, loop.head, loop.body, passes)
        latches = [within[at] for at in loop.latches if at in within]
        one = max(latches, default=0)
        passes[loop.head] = one
        if loop.entry.unit:
            # the first reckoning asks for the price of a pass; the second has taken it off, and then no pass may cost
            more = 0
        else:
            more = loop.entry.passes - 1
        if more > 0 and one < 0:
            fail(f"{function.name}+{loop.head:x}: a pass below 0")
        ends = {at: more * one + most for at, most in within.items()}
        if loop.entry.first:
            ends[loop.head] = max(ends[loop.head], (more + 1) * one + within[loop.head])
        return ends

    def weights(self, function, prices, what):
        """What each block takes: `what` of its lines, less the price of each unit that it makes."""
        heads = {loop.head: loop.entry for loop in every_loop(function.loops)}

        def weight(at):
            block = function.blocks[at]
            most = 0
            for line in block.lines:
                called = call_of(line)
                most += what(line, called)
                if called and function.name in UNITS:
                    most -= sum(prices.get(e.unit, 0) for e in UNITS[function.name] if e.by == called)
            if at in heads and heads[at].unit and not heads[at].by:
                most -= prices.get(heads[at].unit, 0)
            if block.leaves:
                most += what(None, block.leaves)
            return most
        return weight

    def most(self, function, model, root, prices, what):
        """The longest path from the function's start to its end, and what a pass of each loop takes at most."""
        passes = {}
        entry = function.lines[0].at
        weight = self.weights(function, prices, what)
        total = self.paths(function, model, root, weight, function.loops, entry, set(function.blocks), passes)
        return max(v for at, v in total.items() if not function.blocks[at].after), passes

    def reckon(self, name, model, root, what):
        """The most of a function beside its units, and each unit's price."""
        function = self.functions[name]
        best, passes = self.most(function, model, root, {}, what)
        prices = {loop.entry.unit: max(0, passes.get(loop.head, 0)) for loop in every_loop(function.loops) if loop.entry.unit}
        if prices:
            best, passes = self.most(function, model, root, prices, what)
            for loop in every_loop(function.loops):
                if loop.entry.unit and passes.get(loop.head, 0) > 0:
                    fail(f"{name}+{loop.head:x}: a pass without a {loop.entry.unit} in it")
        return best, prices

    def brought(self, name, model, root):
        """The prices of units that functions called from this one bring along. None may be called from within a loop."""
        function, found = self.functions[name], {}
        looped = {at for loop in every_loop(function.loops) for at in loop.body}
        for at, block in function.blocks.items():
            for called in [*map(call_of, block.lines), block.leaves]:
                if not called or called in OUTSIDE:
                    continue
                for unit, price in self.instructions(called, model, root)[1].items():
                    if at in looped:
                        fail(f"{name}+{at:x}: {called}, which has units of its own, is called in a loop")
                    found[unit] = max(price, found.get(unit, 0))
        return found

    def one_each(self, model, root):
        """The weight of an instruction, and of the function that it calls, beside its units."""
        def what(line, called):
            inside = self.instructions(called, model, root)[0] if called and called not in OUTSIDE else 0
            return inside + (1 if line else 0)
        return what

    @lru_cache(maxsize=None)
    def instructions(self, name, model=None, root=None):
        """(the most instructions beside units, the price of each unit) of a function, for one model by its number or for all; called from
        the C function `root`, or from anywhere."""
        root = root or (name if name in FUNCTIONS else None)
        best, prices = self.reckon(name, model, root, self.one_each(model, root))
        brought = self.brought(name, model, root)
        if prices.keys() & brought.keys():
            fail(f"{name} has units of its own and calls a function with the same: {prices}, {brought}")
        return best, {**brought, **prices}

    def pass_of(self, limit, model):
        """What a pass of a loop of LOOPS takes at most."""
        most = 0
        for name in limit.places():
            function = self.functions[name]
            passes = self.most(function, model, None, {}, self.one_each(model, None))[1]
            most = max([most, *(passes.get(loop.head, 0) for loop in every_loop(function.loops) if loop.entry is limit)])
        return most

    @lru_cache(maxsize=None)
    def copies(self, name, model=None):
        """How often a function calls one from outside at most, beside its units, and how often each unit does."""
        def what(line, called):
            return 0 if not called else 1 if called in OUTSIDE else self.copies(called, model)[0]
        return self.reckon(name, model, None, what)

    # ---- the stack

    def moved(self, function, line, state):
        """Where the stack pointer is after an instruction, below where it was at the function's start, and where %rbp keeps a place."""
        at, kept = state
        spot = f"{function.name}+{line.at:x}: {line.op} {line.args}"
        parts = line.args.split(",")
        number = re.match(r"\$(-?0x[0-9a-f]+),%rsp$", line.args)
        value = int(number.group(1), 16) if number else 0
        value -= 1 << 64 if value >= 1 << 63 else 0
        address = re.match(r"(-?0x[0-9a-f]+)?\((%r[sb]p)\),%rsp$", line.args)
        if line.op.startswith("push"):
            return at + 8, kept
        if line.op == "pop":
            if line.args == "%rsp":
                fail(spot)
            return at - 8, (None if line.args == "%rbp" else kept)
        if line.op == "leave":
            if kept is None:
                fail(f"{spot}: where %rbp points isn't known")
            return kept - 8, None
        if line.op == "sub" and number:
            return at + value, kept
        if line.op == "add" and number:
            return at - value, kept
        if line.op == "and" and number and value < 0 and -value & (-value - 1) == 0:
            return at - value - 8, kept
        if line.op == "lea" and address:
            base = at if address.group(2) == "%rsp" else kept
            if base is None:
                fail(f"{spot}: where %rbp points isn't known")
            return base - int(address.group(1) or "0", 16), kept
        if line.op == "mov" and line.args == "%rbp,%rsp" and kept is not None:
            return kept, kept
        if line.op == "mov" and line.args == "%rsp,%rbp":
            return at, at
        if parts[-1] == "%rsp" and line.op not in ("cmp", "test", "call") or line.op in ("xchg", "enter") and "%rsp" in parts:
            fail(f"{spot}: the stack pointer is moved in a way that isn't known here")
        if parts[-1] in ("%rbp", "%ebp", "%bp", "%bpl") and not line.op.startswith(("cmp", "test", "ucomis")):
            kept = None
        return at, kept

    @lru_cache(maxsize=None)
    def stack(self, name):
        """(the most bytes, along which calls), the return address counted."""
        function = self.functions[name]
        entry = function.lines[0].at
        states, todo, most, along = {entry: (0, None)}, [entry], 0, []

        def deep(bytes_, way):
            nonlocal most, along
            if bytes_ > most:
                most, along = bytes_, way

        while todo:
            place = todo.pop()
            state = states[place]
            block = function.blocks[place]
            for line in block.lines:
                below = re.search(r"-0x([0-9a-f]+)\(%rsp([,)])", line.args)
                if below:
                    deep(state[0] + int(below.group(1), 16), [])
                called = call_of(line)
                if called:
                    inside, way = (8, []) if called in OUTSIDE else self.stack(called)
                    deep(state[0] + inside, [called, *way])
                state = self.moved(function, line, state)
                deep(state[0], [])
            if block.leaves:
                inside, way = (8, []) if block.leaves in OUTSIDE else self.stack(block.leaves)
                deep(state[0] + inside - 8, [block.leaves, *way])
            if block.leaves is not None and state[0] != 0:
                fail(f"{name}+{block.lines[-1].at:x}: leaves with the stack pointer moved by {state[0]}")
            for way in block.after:
                if way not in states:
                    states[way] = state
                    todo.append(way)
                elif states[way][0] != state[0]:
                    fail(f"{name}+{way:x}: the stack pointer depends on the way there")
                elif states[way][1] != state[1] and states[way][1] is not None:
                    states[way] = (state[0], None)
                    todo.append(way)
        return most + 8, along


UNITS = {}
for one in LOOPS:
    if one.unit:
        UNITS.setdefault(one.function, []).append(one)


def print_all(bounds):
    print(f"instructions at most, by model ({', '.join(MODELS)})")
    for name in sorted(bounds.functions, key=lambda n: (n in FUNCTIONS, n)):
        each = [bounds.instructions(name, model) for model in range(len(MODELS))]
        own = [one[0] for one in each]
        print(f"  {name}: {own[0] if len(set(own)) == 1 else own}")
        for unit in each[0][1]:
            print(f"    each {unit}: {[one[1][unit] for one in each]}")
        own, units = zip(*(bounds.copies(name, model) for model in range(len(MODELS))))
        if any(own) or any(map(any, (one.values() for one in units))):
            print(f"    calls of memcpy at most: {list(own)}, {units[0]}")
    print("stack at most")
    for name in FUNCTIONS:
        most, along = bounds.stack(name)
        print(f"  {name}: {most}, along {' > '.join(along) or 'itself'}")
    print("loops")
    for limit in LOOPS:
        print(f"  {', '.join(limit.places())}: {limit.passes or 'each ' + limit.unit}: {limit.why}")


if __name__ == "__main__":
    if len(sys.argv) != 2:
        sys.exit(__doc__)
    print_all(Bounds(sys.argv[1]))
