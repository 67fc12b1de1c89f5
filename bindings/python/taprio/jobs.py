"""The jobs of the program as calls, over the library or the program, whichever is there (`taprio.backend` says which is taken)."""

from __future__ import annotations

from typing import Union

from .faults import Replay
from .library import Octets, octets
from .program import backend
from .schedules import Configured, Schedule

__all__ = ["check", "draw", "lines", "replay", "run", "streams"]


def lines(schedule: Union[Schedule, Configured, Octets]) -> bytes:
    """A schedule as the line that sets it; lines as they are."""
    one = schedule.schedule if isinstance(schedule, Configured) else schedule
    return f"{one.tc()}\n".encode() if isinstance(one, Schedule) else octets(one)


def run(
    script: Octets, rate: int = 1000, mtu: int = 1500, room: int = 128, until: int | None = None, summary: bool = False
) -> bytes:
    """Runs a script, and gives the answers to its lines.

    `rate` is one of 10, 100, 1000, 2500, 5000, 10000, 25000, 40000, 50000 and 100000 Mb/s, `mtu` 68 to 9216 octets, `room` 1 to 4096
    frames a class, and `until`, where it is given, the moment to run to after the script, at most 9223372036854775807000; `summary`
    asks for a summary at the end.
    """
    return backend().run(script, rate, mtu, room, until, summary)


def check(schedules: Union[Schedule, Configured, Octets], rate: int = 1000, windows: bool = False, shares: bool = False) -> bytes:
    """Tells of each schedule command which classes it keeps apart, with `shares` also which classes share windows, and with `windows` what
    it gives each class. The schedules are `tc` lines, or one `Schedule`."""
    return backend().check(lines(schedules), rate, windows, shares)


def streams(table: Octets, script: Octets = b"", from_: int = 0, late: bool = False, seed: int | None = None) -> bytes:
    """Makes a script with the frames of a table of streams, and with the lines of another script among them.

    `from_` is added to each offset: a moment in picoseconds, at most 9223372036854775807000, such as the one at which the schedule of
    the script comes into force. Each frame comes at its earliest moment, with `late` at its latest, and with a `seed`, a whole number
    below 2^64, at a moment and with a length that it draws: the same for the same seed.
    """
    return backend().streams(table, script, from_, late, seed)


def draw(
    script: Octets,
    rate: int = 1000,
    mtu: int = 1500,
    room: int = 128,
    until: int | None = None,
    begin: int | None = None,
    end: int | None = None,
    width: int = 1200,
) -> bytes:
    """Draws the run of a script as an SVG picture, of the time from `begin` to `end`, `width` pixels wide, as `taprio.library.draw` does."""
    return backend().draw(script, rate, mtu, room, until, begin, end, width)


def replay(
    script: Octets,
    capture: Octets,
    rate: int = 1000,
    mtu: int = 1500,
    room: int = 128,
    until: int | None = None,
    summary: bool = False,
    stamp: str = "start",
) -> Replay:
    """Replays a script and a capture (classic pcap), and gives a `Replay`: the report, and the capture of the frames that leave, as
    `taprio.library.replay` does."""
    return backend().replay(script, capture, rate, mtu, room, until, summary, stamp)
