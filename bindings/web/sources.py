#!/usr/bin/env python3
"""From which sources a page was made: bindings/web/sources.py PAGE says which of them are others now, and ends with 1 where some are.

The page has a sum of each crate below it, of the files of web/ and of the examples. Of a crate it is that of its code, without the lines that
are comments: these change no module. Definitions and proofs change none either."""
import hashlib
import pathlib
import re
import sys

WEB = pathlib.Path(__file__).resolve().parent
TOP = WEB.parent.parent
sys.path.insert(0, str(TOP / "build"))
import crates  # noqa: E402

# What of web/ goes into the page, or makes it.
PARTS = ("build", "bundle.py", "*.js", "*.css", "*.html")
MADE = "taprio.html"
TOLD = re.compile(r'<meta name="made-from" content="([^"]*)">')


def code(text):
    """The lines of a source that are neither blank nor a comment."""
    return b"".join(line for line in text.splitlines(keepends=True) if line.strip() and not line.strip().startswith(b"//"))


def sum_of(paths, take=lambda it: it):
    """A sum of files, by their names and by what is taken of each."""
    found = hashlib.sha256()
    for path in sorted(paths):
        found.update(f"{path.name}\0".encode() + hashlib.sha256(take(path.read_bytes())).digest())
    return found.hexdigest()[:12]


def sums():
    """By the name of a part, the sum of its files."""
    lines = crates.listed()
    found = {}
    for name in crates.below(["taprio_c"]):
        files = [it for it in (TOP / "crates" / name / "src").rglob("*.rt") if it.name != "tests.rt"]
        found[f"crates/{name}"] = sum_of(files, lambda it, name=name: lines[name][0].encode() + code(it))
    found["web"] = sum_of(it for part in PARTS for it in WEB.glob(part) if it.name != MADE)
    shown = [it for it in (TOP / "examples").iterdir() if it.suffix not in (".py", ".txt")]
    found["examples"] = sum_of([*shown, TOP / "crates" / "examples" / "src" / "main.rt"])
    return found


def had_by(page):
    """The sums that a page's text has, by the names of their parts."""
    had = TOLD.search(page)
    return dict(it.split("=") for it in had[1].split()) if had else {}


def told(earlier=None):
    """The sums as the page has them. With the module of an earlier page those of the crates are that page's."""
    now = sums()
    if earlier is not None:
        now = {name: it for name, it in had_by(earlier).items() if name.startswith("crates/")} | {name: now[name] for name in ("web", "examples")}
    return " ".join(f"{name}={it}" for name, it in now.items())


def differing(page):
    """The parts that are others now than those that a page's text was made from."""
    had = had_by(page)
    now = sums()
    return sorted(name for name in had.keys() | now.keys() if had.get(name) != now.get(name))


if __name__ == "__main__":
    others = differing(pathlib.Path(sys.argv[1]).read_text(encoding="utf-8"))
    print("".join(f"changed since the page was made: {it}\n" for it in others), end="")
    sys.exit(1 if others else 0)
