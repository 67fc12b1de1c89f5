"""The package of Python: its own tests, in a process of their own, with this program and without the shared object."""
import os
import pathlib
import subprocess
import sys

TOP = pathlib.Path(__file__).resolve().parent.parent
SECONDS = 180


def passes(program, module):
    """Runs one file of bindings/python/tests. What it skips needs the shared object, or something else that isn't installed."""
    given = os.environ | {"TAPRIO_PORT": program, "TAPRIO_LIBRARY": "/nowhere/libtaprio.so", "PYTHONDONTWRITEBYTECODE": "1"}
    words = [sys.executable, "-W", "error", "-m", "unittest", module]
    ran = subprocess.run(words, cwd=TOP / "bindings" / "python" / "tests", env=given, capture_output=True, text=True, timeout=SECONDS)
    assert ran.returncode == 0, ran.stderr


def runs_of(module):
    """A case of a file of tests."""
    return lambda program: passes(program, module)


for _path in sorted((TOP / "bindings" / "python" / "tests").glob("test_*.py")):
    globals()[f"case_{_path.stem.removeprefix('test_')}"] = runs_of(_path.stem)
