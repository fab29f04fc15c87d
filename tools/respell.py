#!/usr/bin/env python3
"""respell [ROOT]: the names of this repository's own definitions and lemmas, from words joined by dashes or capitals to words joined by underscores.

Run once, on what port.py made of a tree. A name counts as the repository's own if a file of specs/ or proofs/ declares it:
at the top, below a `where`, or as a field. A name that a file takes from the library keeps its spelling in that file, and so
do operators' names (`⊠-swap`) and the names that Rattle makes (`loop-i-preserved`). Words in comments and in documents
are turned where they stand between backticks. It says which names fall together, and stops before it writes anything then."""
import collections, os, re, sys

ROOT = sys.argv[1] if len(sys.argv) > 1 else "."
PLAIN = r"[\w'₀-₉]+"
NAME = re.compile(rf"(?<![\w'₀-₉·-]){PLAIN}(?:-{PLAIN})*(?![\w'₀-₉·-])")
# A lemma that would have its function's name says that it is one.
LEMMAS = {"is-zero": "is_zero_lem", "is-nan": "is_nan_lem", "at-most": "at_most_lem", "up-to-one": "up_to_one_lem"}
HEAD = r"(?:(?:abbrev|unfoldable|pub|data|record|constructor|ruleset|let)[ ]+)*"
DECLARED = re.compile(rf"(?m)^[ ]*{HEAD}({PLAIN}(?:-{PLAIN})+|[a-z][a-z0-9']*[A-Z]{PLAIN})(?:[ ]+[({{][^\n]*?[)}}])*[ ]+:(?:[ ]|$)")
USED = re.compile(r"use ([^\s{]+?)\.\{([^}]*)\}")
LIBRARY = re.compile(r"(?!Rattle\.)|Rattle\.(std|core)\.")
TICKED = re.compile(r"`[^`\n]*`")


def texts(folder, ends):
    for base, folders, names in os.walk(os.path.join(ROOT, folder)):
        folders[:] = sorted(f for f in folders if f not in ("out", ".git", "target"))
        for name in sorted(names):
            if name.endswith(ends):
                yield os.path.join(base, name)


def read(path):
    with open(path, encoding="utf-8") as f:
        return f.read()


def code(text):
    return re.sub(r"--[^\n]*", "", text)


def bare(text):
    """What a file says without its comments and without the paths of the modules that it uses."""
    return re.sub(r"(?m)^(\s*use )\S+?(\.\{| as )", r"\1\2", code(text))


def goals(path):
    """Whether a file answers the goals of one function, whose names are Rattle's."""
    return re.search(r"/proofs/.+/[^/]*\.antt$", path) is not None


def library_names(text):
    names = set()
    for module, items in USED.findall(code(text)):
        if LIBRARY.match(module):
            names |= {item.strip().split(" as ")[0] for item in items.split(",")}
    return names


def spelled_names():
    """What the files declare in today's spelling, port.py's renamings among it: documents and edits still have the older one."""
    declared = re.compile(rf"(?m)^[ ]*{HEAD}({PLAIN}_{PLAIN})(?:[ ]+[({{][^\n]*?[)}}])*[ ]+:(?:[ ]|$)")
    return {name for path in texts("crates", (".antt",)) for name in declared.findall(code(read(path)))}


def own_names():
    names = set()
    for path in texts("crates", (".antt",)):
        for name in DECLARED.findall(code(read(path))):
            if not goals(path) or not re.match(r"loop-|returns|overflow-|Need-|.*-requires$|.*-result$", name):
                names.add(name)
    return names


def snake(name):
    return re.sub("([a-z0-9])([A-Z])", lambda m: m.group(1) + "_" + m.group(2).lower(), name).replace("-", "_")


def turn(part, new, kept):
    def one(m):
        name = m.group(0)
        if name not in new or name in kept:
            return name
        return snake(name) if part[:m.start()].endswith(".") else new[name]

    return NAME.sub(one, part)


def turned(path, text, new, older):
    kept = library_names(text) if path.endswith(".antt") else set()
    ticked = lambda t: TICKED.sub(lambda m: turn(turn(m.group(0), new, kept), older, kept), t)
    if path.endswith(".antt") or path.endswith(".rt"):
        mark = "--" if path.endswith(".antt") else "//"
        lines = []
        for line in text.split("\n"):
            at = line.find(mark)
            lines.append(turn(line, new, kept) if at < 0 else turn(line[:at], new, kept) + ticked(line[at:]))
        return "\n".join(lines)
    if path.endswith(".edit"):
        return "\n".join(turn(turn(line, new, kept), older, kept) if re.match("(old|new):", line) else ticked(line) for line in text.split("\n"))
    return ticked(text)


def main():
    names = own_names()
    new = {name: LEMMAS.get(name, snake(name)) for name in names}
    to = collections.defaultdict(set)
    for name in names:
        to[new[name]].add(name)
    paths = [*texts("crates", (".antt", ".rt", ".edit")), *texts("docs", (".md",)), *(p for p in [os.path.join(ROOT, "README.md")] if os.path.exists(p))]
    both = [f"{' and '.join(sorted(group))} are one" for group in to.values() if len(group) > 1]
    for path in paths:
        if path.endswith(".antt"):
            text = bare(read(path))
            words = set(re.findall(rf"(?<![\w'₀-₉-]){PLAIN}(?![\w'₀-₉-])", text))
            both += [f"{path}: {name}" for name in set(NAME.findall(text)) & names - library_names(read(path)) if new[name] in words]
    if both:
        print("\n".join(both))
        print(f"respell: {len(both)} fall together; nothing was written")
        return 1
    older = {name.replace("_", "-"): name for name in spelled_names() if name.replace("_", "-") not in names}
    changed = 0
    for path in paths:
        text = read(path)
        after = turned(path, text, new, older)
        if after != text:
            changed += 1
            with open(path, "w", encoding="utf-8") as f:
                f.write(after)
    print(f"respell: {len(names)} names, {changed} files")
    return 0


sys.exit(main())
