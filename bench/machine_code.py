"""An x86-64 archive as functions, blocks and loops, read by objdump. Whatever it can't read for certain ends the program: an indirect
call, an indirect jump that is no jump table, a loop with two ways in, a stack pointer that is moved in a way of its own."""
import platform, re, subprocess, sys
from dataclasses import dataclass, field


def fail(text):
    sys.exit(f"bound: {text}")


@dataclass
class Line:
    """One instruction. `to` is what its relocation names, if it has one."""
    at: int
    op: str
    args: str
    to: str = None
    addend: int = 0

    def text(self):
        return f"{self.op} {self.to if self.op in ('call', 'jmp') and self.to else self.args}".strip()


@dataclass
class Block:
    lines: list
    after: list = field(default_factory=list)  # the addresses of the blocks that can come next
    table: bool = False  # ends in a jump table: `after` in the table's order
    leaves: str = None  # the function that it jumps to for good, or "" for a return


@dataclass
class Loop:
    head: int
    body: set
    latches: list
    inside: list = field(default_factory=list)
    entry: object = None  # what the table of loops says of it


@dataclass
class Function:
    name: str
    lines: list
    blocks: dict = field(default_factory=dict)
    loops: list = field(default_factory=list)  # the outermost ones

    def calls(self):
        return {t for b in self.blocks.values() for t in [*(call_of(x) for x in b.lines), b.leaves] if t}


JUMP = re.compile(r"^(notrack )?(j\w+|loop\w*)$")


def call_of(line):
    return line.to if line.op == "call" else None


def objdump(*words):
    tool = "objdump" if platform.machine() == "x86_64" else "x86_64-linux-gnu-objdump"
    return subprocess.run([tool, *words], capture_output=True, text=True, check=True).stdout


def plain(symbol):
    """A function by its own name: local ones are called by their section's."""
    return symbol[6:] if symbol.startswith(".text.") else symbol


def relocated(text):
    found = re.match(r"\s*[0-9a-f]+: (R_\w+)\s+(.*?)([+-]0x[0-9a-f]+)?$", text)
    if not found:
        fail(f"can't read the relocation {text!r}")
    return found.group(2), int(found.group(3) or "0", 16)


def read_functions(archive):
    functions, section, lines = {}, None, None
    for text in objdump("-drw", "--no-show-raw-insn", archive).splitlines():
        label = re.match(r"^[0-9a-f]+ <(.*)>:$", text)
        if text.startswith("Disassembly of section "):
            section = text[len("Disassembly of section "):-1]
        elif label:
            name = label.group(1)
            if section != f".text.{name}" or name in functions:
                fail(f"{name} doesn't stand alone in a section of its own ({section})")
            lines = functions.setdefault(name, Function(name, [])).lines
        elif re.match(r"^\s*[0-9a-f]+:\t", text):
            at, words, *relocation = text.strip().split("\t", maxsplit=2)
            words = words.split("#")[0].strip()
            op, _, args = words.partition(" ")
            if op in ("notrack", "bnd"):
                op, _, args = args.strip().partition(" ")
            if op.startswith("rep"):
                fail(f"{name}+{at} {words}: how often it repeats isn't known here")
            to, addend = relocated(relocation[0]) if relocation else (None, 0)
            lines.append(Line(int(at.rstrip(":"), 16), op, args.strip(), to and plain(to), addend))
    return functions


def read_tables(archive):
    """Each section of constants that holds a jump table: where each of its entries, four bytes apart, leads."""
    tables, section = {}, None
    for text in objdump("-rw", archive).splitlines():
        if text.startswith("RELOCATION RECORDS FOR ["):
            section = text[len("RELOCATION RECORDS FOR ["):-2]
        found = re.match(r"^([0-9a-f]+) (R_\w+)\s+(.*?)([+-]0x[0-9a-f]+)?$", text)
        if found and section.startswith(".rodata"):
            if found.group(2) != "R_X86_64_PC32":
                fail(f"{section}: a {found.group(2)}, which no jump table here has")
            tables.setdefault(section, {})[int(found.group(1), 16)] = (plain(found.group(3)), int(found.group(4) or "0", 16))
    return tables


def table_targets(function, k, tables):
    """Where the indirect jump at line k may lead: the entries of the one table whose address is taken last before it."""
    line = function.lines[k]
    for before in reversed(function.lines[:k]):
        if before.op == "lea" and before.to and before.to.startswith(".rodata"):
            break
        if JUMP.match(before.op) or before.op in ("call", "ret"):
            fail(f"{function.name}+{line.at:x}: {line.text()}: no jump table is loaded right before it")
    else:
        fail(f"{function.name}+{line.at:x}: {line.text()}: no jump table is loaded before it")
    entries, start, starts = tables.get(before.to, {}), before.addend + 4, set()
    for other in function.lines:
        if other.op == "lea" and other.to == before.to:
            starts.add(other.addend + 4)
    end = min([s for s in starts if s > start], default=None)
    targets = []
    for at in sorted(e for e in entries if e >= start and (end is None or e < end)):
        name, addend = entries[at]
        if name != function.name or at != start + 4 * len(targets):
            fail(f"{function.name}: its jump table at {before.to}+{start:x} can't be read")
        targets.append(addend - (at - start))
    if not targets:
        fail(f"{function.name}: its jump table at {before.to}+{start:x} is empty")
    return targets


def split(function, tables):
    """The function's blocks."""
    lines, known = function.lines, {line.at for line in function.lines}
    nexts, starts = {}, {lines[0].at}
    for k, line in enumerate(lines):
        following = lines[k + 1].at if k + 1 < len(lines) else None
        ways, table, leaves = None, False, None
        if line.op == "ret":
            ways, leaves = [], ""
        elif line.op in ("ud2", "hlt", "int3"):
            ways = []
        elif line.op == "call" and (line.args.startswith("*") or not line.to or line.addend != -4):
            fail(f"{function.name}+{line.at:x}: call {line.args}: a call of what isn't named")
        elif JUMP.match(line.op):
            if line.args.startswith("*"):
                ways, table = table_targets(function, k, tables), True
            elif line.to:
                if line.addend != -4:
                    fail(f"{function.name}+{line.at:x}: a jump into the middle of {line.to}")
                ways, leaves = [], line.to
            else:
                ways = [int(line.args.split()[0], 16)]
            if line.op != "jmp":
                ways.append(following)
        if ways is not None:
            if any(way not in known for way in ways):
                fail(f"{function.name}+{line.at:x}: {line.text()}: leads out of the function")
            nexts[line.at] = ways, table, leaves
            starts.update(ways)
            if following is not None:
                starts.add(following)
    for k, line in enumerate(lines):
        if line.at in starts:
            block = function.blocks[line.at] = Block([])
        block.lines.append(line)
        if line.at in nexts:
            block.after, block.table, block.leaves = nexts[line.at]
        elif k + 1 < len(lines) and lines[k + 1].at in starts:
            block.after = [lines[k + 1].at]
    # what no path comes to (padding)
    reached, todo = set(), [lines[0].at]
    while todo:
        at = todo.pop()
        if at not in reached:
            reached.add(at)
            todo += function.blocks[at].after
    function.blocks = {at: block for at, block in function.blocks.items() if at in reached}
    for block in function.blocks.values():
        if not block.after and block.leaves is None and block.lines[-1].op not in ("ud2", "hlt", "int3"):
            fail(f"{function.name}+{block.lines[-1].at:x}: runs off the function's end")


def order(entry, after):
    """Every block behind all that lead to it, back edges aside."""
    done, out, stack = {entry}, [], [(entry, iter(after(entry)))]
    while stack:
        at, ways = stack[-1]
        for way in ways:
            if way not in done:
                done.add(way)
                stack.append((way, iter(after(way))))
                break
        else:
            out.append(at)
            stack.pop()
    return out[::-1]


def find_loops(function):
    """The loops, each with one way in, and those inside them."""
    entry = function.lines[0].at
    places = order(entry, lambda at: function.blocks[at].after)
    rank = {at: i for i, at in enumerate(places)}
    before = {at: [] for at in places}
    for at in places:
        for way in function.blocks[at].after:
            before[way].append(at)
    over = {entry: entry}

    def meet(a, b):
        while a != b:
            while rank[a] > rank[b]:
                a = over[a]
            while rank[b] > rank[a]:
                b = over[b]
        return a

    moved = True
    while moved:
        moved = False
        for at in places[1:]:
            new = None
            for way in before[at]:
                if way in over:
                    new = way if new is None else meet(new, way)
            if over.get(at) != new:
                over[at], moved = new, True

    def dominates(a, b):
        while rank[b] > rank[a]:
            b = over[b]
        return a == b

    loops = {}
    for at in places:
        for way in function.blocks[at].after:
            if rank[way] <= rank[at]:
                if not dominates(way, at):
                    fail(f"{function.name}+{way:x}: a loop with more than one way in")
                loop = loops.setdefault(way, Loop(way, {way}, []))
                loop.latches.append(at)
                todo = [at]
                while todo:
                    one = todo.pop()
                    if one not in loop.body:
                        loop.body.add(one)
                        todo += before[one]
    ranked = sorted(loops.values(), key=lambda loop: len(loop.body))
    for i, loop in enumerate(ranked):
        around = next((other for other in ranked[i + 1:] if loop.body < other.body), None)
        (around.inside if around else function.loops).append(loop)


def read(archive):
    functions, tables = read_functions(archive), read_tables(archive)
    for function in functions.values():
        split(function, tables)
        find_loops(function)
    return functions
