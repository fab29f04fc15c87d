"""The sources of crates as tokens, functions and types, which tools/older-forms counts in. It reads Rattle's .rt no
further than that: a function is its parameters, result, clauses and body, a type its fields or variants.
"""
import io
import pathlib
import re
import subprocess
import sys
import tarfile

ROOT = pathlib.Path(__file__).resolve().parent.parent
TOKEN = re.compile(
    r"""(?P<comment>//[^\n]*)|b?"(?:\\.|[^"\\])*"|b?'(?:\\.|[^'\\])'|'\w+|[^\W\d]\w*|\d\w*(?:\.\d\w*)?(?:e[+-]\d+)?"""
    r"""|::|->|=>|==|!=|<=|>=|&&|\|\||\+=|-=|\*=|\.\.=|\.\.|\S"""
)
KEYWORDS = set("as break const else enum false fn for if impl in let loop match mut pub return self struct true while".split())
READ = r"crates/\w+/src/.*\.rt|crates/\w+/proofs/.*\.antt|crates\.txt"
OPEN, CLOSE = {"(": ")", "[": "]", "{": "}"}, set(")]}")


class Item:
    """A function or a type, as tokens with their lines."""

    def __init__(self, crate, file, line, name):
        self.crate, self.file, self.line, self.name = crate, file, line, name
        self.kind, self.derives, self.params, self.fields = "fn", [], [], []
        self.result, self.clauses, self.body, self.signature, self.exported = "()", [], [], [], False


def files(commit):
    """Each text of crates/*/src and crates/*/proofs by its path, and the crates that are programs or tests."""
    if commit is None:
        paths = sorted(str(p.relative_to(ROOT)) for p in [*ROOT.glob("crates/*/*/**/*.*t*"), ROOT / "crates.txt"])
        texts = {path: (ROOT / path).read_text(encoding="utf-8") for path in paths if re.fullmatch(READ, path)}
    else:
        ran = subprocess.run(["git", "archive", commit, "crates", "crates.txt"], cwd=ROOT, capture_output=True, check=False)
        if ran.returncode:
            sys.exit(f"older-forms: {commit} is no commit of this repository that has crates/ and crates.txt")
        with tarfile.open(fileobj=io.BytesIO(ran.stdout)) as tar:
            kept = sorted((m for m in tar if re.fullmatch(READ, m.name)), key=lambda m: m.name)
            texts = {m.name: tar.extractfile(m).read().decode() for m in kept}
    programs, heading = set(), ""
    for line in texts["crates.txt"].split("\n"):
        heading = line[2:] if line.startswith("#") else heading
        if heading.startswith("programs") and not line.startswith("#"):
            programs.add(re.split(r"[ :]", line)[0])
    return texts, programs


def tokens(text):
    found, line, at = [], 1, 0
    for m in TOKEN.finditer(text):
        line, at = line + text.count("\n", at, m.start()), m.start()
        if not m.group("comment"):
            found.append((m.group(), line))
    return found


def behind(ts, i):
    """The index behind the bracket that closes the one at i."""
    depth = 0
    for j in range(i, len(ts)):
        depth += (ts[j][0] in OPEN) - (ts[j][0] in CLOSE)
        if depth == 0:
            return j + 1
    return len(ts)


def upto(ts, i, ends):
    """The index of the next token of ends that no bracket holds, or the end."""
    while i < len(ts) and ts[i][0] not in ends:
        i = behind(ts, i) if ts[i][0] in OPEN else i + 1
    return i


def parts(ts, separator=","):
    """The parts between separators that no bracket holds."""
    found, i = [], 0
    while i < len(ts):
        j, angles = i, 0
        while j < len(ts) and (ts[j][0] != separator or angles > 0):
            angles += (separator == ",") * ((ts[j][0] == "<") - (ts[j][0] == ">"))
            j = behind(ts, j) if ts[j][0] in OPEN else j + 1
        found.append(ts[i:j])
        i = j + 1
    return [p for p in found if p]


def said(ts):
    """Tokens as text."""
    text, last, kinds = "", "", 0
    for word in (t if isinstance(t, str) else t[0] for t in ts):
        opens = word == "<" and re.match(r"[A-Z]|::|fn$", last)
        shuts = word == ">" and kinds > 0
        tight = opens or shuts or last in ("(", "[", ".", "::", "!", "&", "..", "") or word in ", ; ) ] . ? : :: ..".split()
        called = word in ("(", "[") and re.match(r"[\w)\]>]", last) and last not in KEYWORDS
        text += word if tight or called or (last == "<" and kinds) else " " + word
        kinds += bool(opens) - shuts
        last = word
    return text


def items(crate, file, text):
    ts, i, derives = tokens(text), 0, []
    while i < len(ts):
        word, line = ts[i]
        if word == "#" and ts[i + 2][0] == "derive":
            end = behind(ts, i + 1)
            derives, i = [t for t, _ in ts[i + 4 : end - 2] if t != ","], end
        elif word in ("struct", "enum") and i + 2 < len(ts):
            item = Item(crate, file, line, ts[i + 1][0])
            at = opening(ts, i + 1)
            item.kind, item.derives, derives = word, derives, []
            i = behind(ts, at) if ts[at][0] in OPEN else at + 1
            item.body = ts[at:i]
            item.fields = [[t for t in p if t[0] not in ("pub", "ghost")] for p in parts(item.body[1:-1])]
            yield item
        elif word == "fn" and ts[i + 1][0] not in ("(", "["):
            item = Item(crate, file, line, ts[i + 1][0])
            at = opening(ts, i + 1)
            end = behind(ts, at)
            for p in parts(ts[at + 1 : end - 1]):
                k = upto(p, 0, {":"})
                item.params.append((said([t for t in p[:k] if t[0] != "mut"]), said(p[k + 1 :])))
            at = upto(ts, end, {"requires", "ensures", "where", "{", ";"})
            item.result = said(ts[end + 1 : at]) or "()"
            item.signature, item.exported = ts[i:at], "extern" in [t for t, _ in ts[max(0, i - 2) : i]]
            while at < len(ts) and ts[at][0] not in ("{", ";"):
                stop = upto(ts, at + 1, {"requires", "ensures", "{", ";"})
                if ts[at][0] in ("requires", "ensures"):
                    item.clauses.append((ts[at][0], ts[stop + 1 : behind(ts, stop) - 1]))
                    stop = behind(ts, stop)
                at = stop
            i = behind(ts, at) if at < len(ts) and ts[at][0] == "{" else at + 1
            item.body = ts[at + 1 : i - 1]
            yield item
        else:
            i += 1


def opening(ts, i):
    """The index of the first bracket behind the name at i and its type parameters, or of a semicolon."""
    i, kinds = i + 1, 0
    while i < len(ts) and (kinds or ts[i][0] not in ("(", "{", ";")):
        kinds += (ts[i][0] == "<") - (ts[i][0] == ">")
        i += 1
    return i


def matches(ts):
    """Each match: its line, what is matched, and its arms, a pattern and what stands behind the arrow."""
    for i, (word, line) in enumerate(ts):
        if word != "match":
            continue
        at = upto(ts, i + 1, {"{"})
        inner, arms, k = ts[at + 1 : behind(ts, at) - 1], [], 0
        while k < len(inner):
            arrow = upto(inner, k, {"=>"})
            end = upto(inner, arrow, {","})
            if inner[arrow + 1 :] and inner[arrow + 1][0] == "{":
                end = behind(inner, arrow + 1)
            arms.append((inner[k:arrow], inner[arrow + 1 : end]))
            k = end + 1 if end < len(inner) and inner[end][0] == "," else end
        yield line, said(ts[i + 1 : at]), arms


def loops(ts):
    """Each while: its line, its condition and its body."""
    for i, (word, line) in enumerate(ts):
        if word == "while":
            at = upto(ts, i + 1, {"{"})
            yield line, ts[i + 1 : at], ts[at + 1 : behind(ts, at) - 1]
