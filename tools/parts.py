"""How the scripts that make inputs write the cases of a program that only tests (crates/parts), and how they end."""
import pathlib
import sys

ROOT = pathlib.Path(__file__).resolve().parent.parent


def part(text):
    """A text, with its length before it as four bytes, the least first."""
    return len(text).to_bytes(4, "little") + text


def make(files, self_test):
    """Writes the files, each a name and its bytes, or tests only, as the command's words say."""
    if sys.argv[1:] == ["--self-test"]:
        self_test()
        return
    for name, content in files():
        path = ROOT / name
        path.parent.mkdir(parents=True, exist_ok=True)
        path.write_bytes(content)
