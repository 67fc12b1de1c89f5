#!/usr/bin/env python3
"""What crates.txt says: build/crates.py NAME.. prints the libraries of the repository that these crates stand on, and the crates, a line each,
each behind all that it stands on."""
import pathlib
import sys

HERE = pathlib.Path(__file__).resolve().parent.parent


def listed(text=None):
    """By the name of a crate, in the order of the file, its line and the libraries that it names."""
    found = {}
    for line in (text if text is not None else (HERE / "crates.txt").read_text(encoding="utf-8")).splitlines():
        head, colon, names = line.partition("#")[0].partition(":")
        if colon:
            found[head.split()[0]] = (line, names.split())
    return found


def below(names):
    """The crates that these stand on, and these, each behind all that it stands on."""
    crates, needed = listed(), []

    def need(name):
        if name in crates and name not in needed:
            for it in crates[name][1]:
                need(it)
            needed.append(name)

    for name in names:
        if name not in crates:
            sys.exit(f"crates.txt has no crate {name}")
        need(name)
    return needed


if __name__ == "__main__":
    print("\n".join(below(sys.argv[1:])))
