"""What the tests share. Run them with `python3 -m unittest discover bindings/python/tests`; a word says what is skipped, and why.

The program is the one that TAPRIO_PORT names, or that of the checkout, which is built where it isn't yet. The shared object is that of
bindings/c/build. With TAPRIO_INSTALLED, which may say anything, the package, the program and the shared object are those that are
installed."""

import contextlib
import os
import pathlib
import sys
import unittest

HERE = pathlib.Path(__file__).resolve().parent
ROOT = HERE.parents[2]
EXAMPLES = ROOT / "crates" / "examples" / "data"
if not EXAMPLES.is_dir():
    EXAMPLES = ROOT / "examples"
DATA = HERE / "data"
IS_INSTALLED = bool(os.environ.get("TAPRIO_INSTALLED"))
if not IS_INSTALLED and str(HERE.parent) not in sys.path:
    sys.path.insert(0, str(HERE.parent))

import taprio  # noqa: E402

PROGRAM = os.environ.get("TAPRIO_PORT") or (taprio.program.found() if IS_INSTALLED else taprio.program.of_checkout(str(ROOT / "taprio_port")))
if PROGRAM:
    os.environ["TAPRIO_PORT"] = PROGRAM
HAS_LIBRARY = taprio.library.is_there()
HAS_BOUNDS = HAS_LIBRARY and taprio.library.has("taprio_bounds")
HAS_BOUNDS_ASKED = HAS_LIBRARY and taprio.library.has("taprio_bounds_asked")
HAS_PATHS = HAS_LIBRARY and taprio.library.has("taprio_paths")
HAS_PLAN = HAS_LIBRARY and taprio.library.has("taprio_plan")
HAS_FRAMES = HAS_LIBRARY and taprio.library.has("taprio_frames")
HAS_FRAMES_BY_STREAM = HAS_LIBRARY and taprio.library.has("taprio_frames_by_stream")
HAS_FRAMES_OF_CAPTURE = HAS_LIBRARY and taprio.library.has("taprio_frames_of_capture")
HAS_MOMENT = HAS_LIBRARY and taprio.library.has("taprio_moment")

wants_library = unittest.skipUnless(HAS_LIBRARY, "bindings/c/out/libtaprio.so isn't there: bindings/c/build makes it")
wants_program = unittest.skipUnless(PROGRAM, "there is no program: name one in TAPRIO_PORT")
BOUNDS = PROGRAM or ("library" if HAS_BOUNDS else None)
wants_bounds = unittest.skipUnless(BOUNDS, "there is neither a program nor a library with bounds")
PATHS = PROGRAM or ("library" if HAS_PATHS else None)
wants_paths = unittest.skipUnless(PATHS, "there is neither a program nor a library with paths")
PLAN = PROGRAM or ("library" if HAS_PLAN else None)
wants_plan = unittest.skipUnless(PLAN, "there is neither a program nor a library with plans")
FRAMES = PROGRAM or ("library" if HAS_FRAMES else None)
wants_frames = unittest.skipUnless(FRAMES, "there is neither a program nor a library with tables of frames")
FRAMES_BY_STREAM = PROGRAM or ("library" if HAS_FRAMES_BY_STREAM else None)
wants_frames_by_stream = unittest.skipUnless(FRAMES_BY_STREAM, "there is neither a program nor a library with tables of frames by stream")
FRAMES_OF_CAPTURE = PROGRAM or ("library" if HAS_FRAMES_OF_CAPTURE else None)
wants_frames_of_capture = unittest.skipUnless(FRAMES_OF_CAPTURE, "there is neither a program nor a library with tables of the frames of a capture")
wants_moment = unittest.skipUnless(HAS_MOMENT, "there is no library that reads moments")
wants_port = unittest.skipUnless(HAS_LIBRARY or PROGRAM, "there is neither bindings/c/out/libtaprio.so nor a program")


@contextlib.contextmanager
def environment(**variables):
    """Variables of the environment for a while; None takes one away."""
    before = {name: os.environ.get(name) for name in variables}
    try:
        for name, value in variables.items():
            os.environ.pop(name, None) if value is None else os.environ.__setitem__(name, value)
        yield
    finally:
        for name, value in before.items():
            os.environ.pop(name, None) if value is None else os.environ.__setitem__(name, value)
