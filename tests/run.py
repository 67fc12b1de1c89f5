#!/usr/bin/env python3
"""Runs each row and each case of this folder on a built program: tests/run.py PROGRAM [WORD]. With WORD only those whose name has it.

A row is of a TOML file, or of a function `rows()` of a Python file; a case is a function `case_..(program)` of a Python file, which
raises AssertionError. Its last line is `N passed, M failed`."""
import concurrent.futures
import importlib.util
import os
import pathlib
import sys
import time
import traceback

from rows import judge, read, run

HERE = pathlib.Path(__file__).resolve().parent
OWN = {"rows.py", "run.py"}


def module(path):
    """A Python file of this folder, loaded."""
    spec = importlib.util.spec_from_file_location(f"cases_{path.stem}", path)
    found = importlib.util.module_from_spec(spec)
    spec.loader.exec_module(found)
    return found


def of_row(program, row):
    """What a row's run differs in."""
    return judge(row, run(program, row.words, row.input, row.files))


def of_case(program, case):
    """What a case has against the program."""
    case(program)
    return ""


def all_of_it(program):
    """By name, what there is to run."""
    found = {}
    def add(name, work):
        if name in found:
            sys.exit(f"tests: {name} stands twice")
        found[name] = work
    for path in sorted(HERE.glob("*.toml")):
        for row in read(path):
            add(f"{path.stem}: {row.name}", lambda row=row: of_row(program, row))
    for path in sorted(HERE.glob("*.py")):
        if path.name in OWN:
            continue
        cases = module(path)
        for row in cases.rows() if hasattr(cases, "rows") else []:
            add(f"{path.stem}: {row.name}", lambda row=row: of_row(program, row))
        for name, case in vars(cases).items():
            if name.startswith("case_"):
                add(f"{path.stem}: {name[5:]}", lambda case=case: of_case(program, case))
    return found


def outcome(work):
    """What is said of a row or a case that fails; nothing where it passes. And its seconds."""
    began = time.monotonic()
    try:
        told = work()
    except Exception:
        told = traceback.format_exc()
    return told, time.monotonic() - began


def main(program, word=""):
    work = {name: it for name, it in all_of_it(os.path.abspath(program)).items() if word in name}
    failed = 0
    with concurrent.futures.ThreadPoolExecutor(os.cpu_count()) as pool:
        for name, (told, seconds) in zip(work, pool.map(outcome, work.values())):
            if told:
                failed += 1
                print(f"FAILED {name}\n{told}", flush=True)
            elif seconds > 10:
                print(f"slow: {name}: {seconds:.0f} s", flush=True)
    print(f"{len(work) - failed} passed, {failed} failed")
    return 1 if failed or not work else 0


if __name__ == "__main__":
    sys.path.insert(0, str(HERE))
    sys.exit(main(*sys.argv[1:3]) if len(sys.argv) in (2, 3) else __doc__)
