"""A transmit port with eight traffic classes whose gates are opened and closed by schedules (IEEE Std 802.1Q, 8.6.8.4).

The five calls `run`, `check`, `streams`, `draw` and `replay` are jobs of the program `taprio_port`, over memory. Inputs are
`bytes` or `str`; outputs are `bytes`. Moments are in picoseconds, rates in Mb/s, sizes in octets. A value out of its limits raises
`BadValue`, an input with a fault `BadInput`, which has the line or the record and what was reported before it; out of memory,
`MemoryError` is raised.

    >>> import taprio
    >>> taprio.run("frame 1 0 60\\nclock 1000000\\n")
    b'queued 1 class 0\\nstart 1 class 0 at 0 end 672000\\n'

They run over the shared object that `bindings/c/build` makes, or over the program, whichever is there: `backend` says which is taken.
`taprio.library` has the calls over the shared object, and `Program` over the program. `Port` is a port that is driven call by call, over the
shared object alone. Calls may be made from several threads: they share nothing, and the interpreter goes on meanwhile.

`taprio.schedules` reads and writes schedules (times in nanoseconds), `Stream` is a stream of
frames (times in nanoseconds), `run_streams` runs both, `frames` gives those of a script or a capture, `bounds` tells how long the frames of streams
wait for ever, `paths` how late they are through a network, `plan` finds schedules for them, `read_run`, `read_frames`, `read_check`, `read_bounds` and `read_paths` give what the
jobs answer as objects, and `read_capture` reads a capture.
`moment` reads a moment such as `12.303us`, over the shared object.
"""

from .captures import read_capture
from .faults import (
    BadAnswer,
    BadCapture,
    BadInput,
    BadSchedule,
    BadValue,
    LeftOut,
    LibraryMissing,
    NoPlan,
    Refused,
    Replay,
    TaprioError,
)
from .jobs import check, draw, replay, run, streams
from .library import Library, moment
from .plotting import plot
from .port import Port
from .program import Backend, Program, backend
from .results import read_bounds, read_check, read_frames, read_paths, read_run
from .schedules import Schedule
from .traffic import Stream, bounds, frames, paths, plan, run_streams, table

__version__ = "0.2.0"

__all__ = [
    "Backend",
    "BadAnswer",
    "BadCapture",
    "BadInput",
    "BadSchedule",
    "BadValue",
    "LeftOut",
    "Library",
    "LibraryMissing",
    "NoPlan",
    "Port",
    "Program",
    "Refused",
    "Replay",
    "Schedule",
    "Stream",
    "TaprioError",
    "__version__",
    "backend",
    "bounds",
    "check",
    "draw",
    "frames",
    "moment",
    "paths",
    "plan",
    "plot",
    "read_bounds",
    "read_capture",
    "read_check",
    "read_frames",
    "read_paths",
    "read_run",
    "replay",
    "run",
    "run_streams",
    "streams",
    "table",
]
