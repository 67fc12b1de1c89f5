"""The jobs of the program as calls over the shared object: octets in, octets out, by ctypes.

The shared object is what `bindings/c/build` makes. It is loaded at the first call that needs it, from the first of these places: the file that
the variable TAPRIO_LIBRARY of the environment names, `libtaprio.so` beside this module (an installed package has it there), and in the
checkout `bindings/c/out/libtaprio.so` and `out/unproved/libtaprio.so`. What it promises is in `bindings/c/taprio.h`.
"""

from __future__ import annotations

import ctypes
import functools
import os
import pathlib
from collections.abc import Callable, Iterable
from typing import Any, Union

from .faults import NO_MEMORY, NO_ROOM, BadInput, BadValue, LibraryMissing, NoPlan, Replay, TaprioError, index, of_text

__all__ = [
    "BadInput",
    "BadValue",
    "Library",
    "LibraryMissing",
    "NoPlan",
    "Replay",
    "TaprioError",
    "bounds",
    "check",
    "draw",
    "frames",
    "moment",
    "paths",
    "plan",
    "replay",
    "run",
    "streams",
]

Octets = Union[bytes, bytearray, memoryview, str]
"""An input: octets, or a text, which is taken as UTF-8."""


class _PortValues(ctypes.Structure):
    _fields_ = [
        ("rate", ctypes.c_uint32),
        ("mtu", ctypes.c_uint32),
        ("room", ctypes.c_uint32),
        ("summary", ctypes.c_uint32),
        ("has_until", ctypes.c_uint64),
        ("until_low", ctypes.c_uint64),
        ("until_high", ctypes.c_uint64),
    ]


class _PictureValues(ctypes.Structure):
    _fields_ = [
        ("from_low", ctypes.c_uint64),
        ("from_high", ctypes.c_uint64),
        ("has_to", ctypes.c_uint64),
        ("to_low", ctypes.c_uint64),
        ("to_high", ctypes.c_uint64),
        ("width", ctypes.c_uint32),
        ("unused", ctypes.c_uint32),
    ]


class _PlanValues(ctypes.Structure):
    _fields_ = [
        ("cycle", ctypes.c_uint64),
        ("least_interval", ctypes.c_uint64),
        ("base_time", ctypes.c_uint64),
        ("entries", ctypes.c_uint32),
        ("share", ctypes.c_uint32),
    ]


class _MomentValue(ctypes.Structure):
    _fields_ = [("low", ctypes.c_uint64), ("high", ctypes.c_uint64), ("is_moment", ctypes.c_uint64)]


class _Ran(ctypes.Structure):
    _fields_ = [("output", ctypes.c_uint64), ("fault", ctypes.c_uint64), ("status", ctypes.c_uint8)]


class _ReplayRan(ctypes.Structure):
    _fields_ = [
        ("report", ctypes.c_uint64),
        ("departures", ctypes.c_uint64),
        ("fault", ctypes.c_uint64),
        ("status", ctypes.c_uint8),
    ]


_OCTETS = [ctypes.c_char_p, ctypes.c_size_t]
_LENT = [ctypes.POINTER(ctypes.c_char), ctypes.c_size_t]


# The calls of a port, by what follows its place.
_OF_PORT: dict[str, list[Any]] = {
    "taprio_port_new": [ctypes.c_uint32, ctypes.c_uint32, ctypes.c_uint32, ctypes.c_void_p],
    "taprio_port_arrive": [ctypes.c_void_p, ctypes.c_void_p],
    "taprio_port_install": [ctypes.c_void_p, ctypes.c_void_p],
    "taprio_port_delete": [ctypes.c_void_p],
    "taprio_port_step": [ctypes.c_uint64, ctypes.c_uint64, ctypes.c_void_p],
    "taprio_port_report": [ctypes.c_void_p],
    "taprio_port_counters": [ctypes.c_uint32, ctypes.c_void_p],
    "taprio_port_free": [],
}

# What a shared object lacks that was built before there were bounds, tables of frames, ports that are driven, late frames, lines of what
# is shared, bounds of classes that share, paths, or plans.
_LATER = ("taprio_streams_from", "taprio_bounds", "taprio_frames", "taprio_replay_stamped", "taprio_frames_by_stream", "taprio_frames_of_capture", "taprio_moment", "taprio_streams_late", "taprio_streams_drawn", "taprio_bounds_slack", "taprio_bounds_asked", "taprio_check_shares", "taprio_paths", "taprio_plan", *_OF_PORT)


def _path() -> str:
    """Where the shared object is, or should be."""
    here = pathlib.Path(__file__).resolve().parent
    proved = here.parent.parent / "c" / "out" / "libtaprio.so"
    unproved = here.parents[2] / "out" / "unproved" / "libtaprio.so"
    there = (it for it in (here / "libtaprio.so", proved, unproved) if it.exists())
    return os.environ.get("TAPRIO_LIBRARY") or str(next(there, proved))


@functools.lru_cache(maxsize=None)
def _loaded(path: str) -> ctypes.CDLL:
    """The shared object, with the types of its functions."""
    try:
        return _typed(ctypes.CDLL(path))
    except (OSError, AttributeError) as fault:
        raise LibraryMissing(
            f"the library can't be loaded ({fault}): build it with bindings/c/build, or name one in TAPRIO_LIBRARY, "
            "or call the program instead with taprio.Program, or name it in TAPRIO_PORT"
        ) from fault


def _typed(library: ctypes.CDLL) -> ctypes.CDLL:
    """The shared object, once its functions have their types."""
    port, picture = ctypes.POINTER(_PortValues), ctypes.POINTER(_PictureValues)
    ran, replay_ran = ctypes.POINTER(_Ran), ctypes.POINTER(_ReplayRan)
    calls: dict[str, list[Any]] = {
        "taprio_run": [port, *_OCTETS, *_LENT, *_LENT, ran],
        "taprio_frames": [port, *_OCTETS, *_LENT, *_LENT, ran],
        "taprio_frames_by_stream": [port, *_OCTETS, *_OCTETS, *_LENT, *_LENT, ran],
        "taprio_frames_of_capture": [port, *_OCTETS, *_OCTETS, *_LENT, *_LENT, ran],
        "taprio_moment": [*_OCTETS, ctypes.POINTER(_MomentValue)],
        "taprio_check": [ctypes.c_uint32, ctypes.c_uint32, *_OCTETS, *_LENT, *_LENT, ran],
        "taprio_check_shares": [ctypes.c_uint32, ctypes.c_uint32, *_OCTETS, *_LENT, *_LENT, ran],
        "taprio_streams": [*_OCTETS, *_OCTETS, *_LENT, *_LENT, ran],
        "taprio_streams_from": [ctypes.c_uint64, ctypes.c_uint64, *_OCTETS, *_OCTETS, *_LENT, *_LENT, ran],
        "taprio_streams_late": [ctypes.c_uint64, ctypes.c_uint64, *_OCTETS, *_OCTETS, *_LENT, *_LENT, ran],
        "taprio_streams_drawn": [ctypes.c_uint64, ctypes.c_uint64, ctypes.c_uint64, *_OCTETS, *_OCTETS, *_LENT, *_LENT, ran],
        "taprio_bounds": [port, ctypes.c_uint64, *_OCTETS, *_OCTETS, *_LENT, *_LENT, ran],
        "taprio_bounds_slack": [port, ctypes.c_uint64, *_OCTETS, *_OCTETS, *_LENT, *_LENT, ran],
        "taprio_bounds_asked": [port, ctypes.c_uint64, ctypes.c_uint32, *_OCTETS, *_OCTETS, *_LENT, *_LENT, ran],
        "taprio_paths": [port, ctypes.c_uint64, ctypes.c_uint32, *_OCTETS, *_OCTETS, *_LENT, *_LENT, ran],
        "taprio_plan": [port, ctypes.POINTER(_PlanValues), *_OCTETS, *_OCTETS, *_LENT, *_LENT, ran],
        "taprio_draw": [port, picture, *_OCTETS, *_LENT, *_LENT, ran],
        "taprio_replay": [port, *_OCTETS, *_OCTETS, *_LENT, *_LENT, *_LENT, replay_ran],
        "taprio_replay_stamped": [port, ctypes.c_uint32, *_OCTETS, *_OCTETS, *_LENT, *_LENT, *_LENT, replay_ran],
        **{name: [ctypes.c_void_p, *given] for name, given in _OF_PORT.items()},
    }
    for name, given in calls.items():
        if name in _LATER and not hasattr(library, name):
            continue
        typed = getattr(library, name)
        typed.argtypes = given
        typed.restype = None
    return library


def has(name: str) -> bool:
    """Whether the shared object, which has to be there, has this function."""
    return hasattr(_loaded(_path()), name)


def function(name: str) -> Callable[..., None]:
    """A function of the shared object, which is loaded where it isn't yet."""
    if not has(name):
        raise LibraryMissing(
            f"the library {_path()} has no {name}: build it again with bindings/c/build, or call the program instead with taprio.Program"
        )
    found: Callable[..., None] = getattr(_loaded(_path()), name)
    return found


def is_there() -> bool:
    """Whether the shared object is there and can be loaded."""
    try:
        _loaded(_path())
    except LibraryMissing:
        return False
    return True


def octets(text: Octets) -> bytes:
    """The octets of an input."""
    if isinstance(text, str):
        return text.encode()
    return bytes(memoryview(text))


def number(value: int, bits: int, name: str) -> int:
    """A whole number in a field of so many bits. One that does not fit is the greatest, which is over the limits of every value."""
    given = index(value)
    if given is None:
        raise TypeError(f"{name} is a whole number, not {value!r}")
    most = (1 << bits) - 1
    return given if 0 <= given <= most else most


def seed_of(seed: int, late: bool) -> int:
    """A seed of 64 bits. Another one would draw other frames, so it is no value that is made to fit."""
    given = index(seed)
    if given is None:
        raise TypeError(f"seed is a whole number, not {seed!r}")
    if not 0 <= given < 1 << 64:
        raise ValueError(f"seed is 0 to {(1 << 64) - 1}, not {given}")
    if late:
        raise ValueError("frames come late, or as a seed draws them, and not both")
    return given


def _halves(moment: int | None, name: str) -> tuple[int, int, int]:
    if moment is None:
        return 0, 0, 0
    moment = number(moment, 128, name)
    return 1, moment & 0xFFFF_FFFF_FFFF_FFFF, moment >> 64


def stamp_is_end(stamp: str) -> bool:
    """Whether departures have the moment at which the last octet has been sent, and not that of the start."""
    if stamp not in ("start", "end"):
        raise BadValue("bad value of --stamp", "--stamp")
    return stamp == "end"


def silent_classes(silent: Iterable[int]) -> tuple[int, ...]:
    """The classes that send nothing, in rising order; each is one of 0 to 7, and stands there once."""
    given = sorted(_class_of(it) for it in silent)
    if len(set(given)) < len(given) or not all(0 <= it <= 7 for it in given):
        raise BadValue("bad value of --silent", "--silent")
    return tuple(given)


def _class_of(value: Any) -> int:
    given = index(value)
    if given is None:
        raise TypeError(f"silent is whole numbers from 0 to 7, and one is {value!r}")
    return given


def _asked(classes: tuple[int, ...], leftovers: bool, slack: bool = False, why: bool = False) -> int:
    """What is asked of bounds and of paths, as TAPRIO_SLACK, TAPRIO_LEFTOVERS, TAPRIO_WHY and TAPRIO_SILENT say it."""
    return bool(slack) + 2 * bool(leftovers) + 4 * bool(why) + sum(256 << it for it in classes)


def streams_or_capture(streams: Octets | None, capture: Octets | None) -> None:
    """Refuses a table of streams with a capture: a record has no id of a stream."""
    if streams is not None and capture is not None:
        raise BadValue("a table of streams does not go with a capture", "--capture")


def _port(rate: int, mtu: int, room: int, until: int | None, summary: bool) -> _PortValues:
    numbers = number(rate, 32, "rate"), number(mtu, 32, "mtu"), number(room, 32, "room")
    return _PortValues(*numbers, bool(summary), *_halves(until, "until"))


def _call(name: str, given: list[Any], ran: _Ran | _ReplayRan, names: list[str], guess: int) -> list[bytes]:
    """Calls with slices that it makes larger where the call tells that it wants more room; the octets of each."""
    called = function(name)
    lengths = [guess] * (len(names) - 1) + [256]
    while True:
        lent = [ctypes.create_string_buffer(length + 1) for length in lengths]
        slices = [it for slot, length in zip(lent, lengths) for it in (slot, length)]
        called(*given, *slices, ctypes.byref(ran))
        wanted = [getattr(ran, name) for name in names]
        if ran.status != NO_ROOM:
            break
        lengths = [max(have, want) for have, want in zip(lengths, wanted)]
    if ran.status == NO_MEMORY:
        raise MemoryError("out of memory")
    return [ctypes.string_at(slot, length) for slot, length in zip(lent, wanted)]


def _one(name: str, given: list[Any], guess: int) -> bytes:
    ran = _Ran()
    output, text = _call(name, given, ran, ["output", "fault"], guess)
    if ran.status:
        raise of_text(ran.status, text.decode("utf-8", "replace"), output)
    return output


def run(
    script: Octets, rate: int = 1000, mtu: int = 1500, room: int = 128, until: int | None = None, summary: bool = False
) -> bytes:
    """Runs a script, and gives the answers to its lines.

    `rate` is one of 10, 100, 1000, 2500, 5000, 10000, 25000, 40000, 50000 and 100000 Mb/s, `mtu` 68 to 9216 octets, `room` 1 to 4096
    frames a class, and `until`, where it is given, the moment to run to after the script, at most 9223372036854775807000; `summary`
    asks for a summary at the end.
    """
    script = octets(script)
    given = [ctypes.byref(_port(rate, mtu, room, until, summary)), script, len(script)]
    return _one("taprio_run", given, 4 * len(script) + 4096)


def frames(
    script: Octets,
    rate: int = 1000,
    mtu: int = 1500,
    room: int = 128,
    until: int | None = None,
    streams: Octets | None = None,
    capture: Octets | None = None,
) -> bytes:
    """Runs a script, and gives a table of its frames: comma-separated values with a head, a row a frame.

    The values are those of `run`. With `streams`, a table of streams, a column more has the stream of each frame, by its first id; and
    another one, where a stream of the table has a deadline, whether the frame is in time. With
    `capture` (classic pcap) the frames are its records, run with the lines of the script as `replay` runs them, and `until` is as there;
    both do not go together. `taprio.read_frames` reads the table, and `taprio.frames` does both.
    """
    streams_or_capture(streams, capture)
    script = octets(script)
    port = ctypes.byref(_port(rate, mtu, room, until, False))
    if capture is not None:
        capture = octets(capture)
        given = [port, script, len(script), capture, len(capture)]
        return _one("taprio_frames_of_capture", given, 4 * len(capture) + 4096)
    if streams is None:
        return _one("taprio_frames", [port, script, len(script)], 6 * len(script) + 4096)
    table = octets(streams)
    return _one("taprio_frames_by_stream", [port, table, len(table), script, len(script)], 7 * len(script) + 4096)


def moment(word: str) -> int:
    """The moment that a word says, in picoseconds, as the program's options are read: `12.303us`, or whole picoseconds.

    A word that says none, or one after the greatest moment, raises `ValueError`.
    """
    text, said = octets(word), _MomentValue()
    function("taprio_moment")(text, len(text), ctypes.byref(said))
    if not said.is_moment:
        raise ValueError(f"{word!r} is no moment")
    return int(said.high) << 64 | int(said.low)


def check(schedules: Octets, rate: int = 1000, windows: bool = False, shares: bool = False) -> bytes:
    """Tells of each schedule command which classes it keeps apart, with `shares` also which classes share windows, and with `windows` what
    it gives each class."""
    schedules = octets(schedules)
    given = [number(rate, 32, "rate"), bool(windows), schedules, len(schedules)]
    return _one("taprio_check_shares" if shares else "taprio_check", given, 4 * len(schedules) + 4096)


def streams(table: Octets, script: Octets = b"", from_: int = 0, late: bool = False, seed: int | None = None) -> bytes:
    """Makes a script with the frames of a table of streams, and with the lines of another script among them.

    `from_` is added to each offset: a moment in picoseconds, at most 9223372036854775807000, such as the one at which the schedule of
    the script comes into force. Each frame comes at its earliest moment, with `late` at its latest, and with a `seed`, below 2^64, at a
    moment and with a length that it draws; with both, `ValueError` is raised.
    """
    table, script = octets(table), octets(script)
    given = [table, len(table), script, len(script)]
    guess = 4 * (len(table) + len(script)) + 65536
    _, low, high = _halves(from_, "from_")
    if seed is not None:
        return _one("taprio_streams_drawn", [seed_of(seed, late), low, high, *given], guess)
    if late:
        return _one("taprio_streams_late", [low, high, *given], guess)
    if from_ == 0:
        return _one("taprio_streams", given, guess)
    return _one("taprio_streams_from", [low, high, *given], guess)


def bounds(
    table: Octets,
    schedules: Octets,
    rate: int = 1000,
    mtu: int = 1500,
    room: int = 128,
    frames: int = 1_000_000,
    slack: bool = False,
    silent: Iterable[int] = (),
    leftovers: bool = False,
    why: bool = False,
) -> bytes:
    """Tells for each schedule command how long the frames of a table of streams wait, for ever: the classes that it keeps apart, the
    verdict about each class that has streams, and the least and the greatest wait of each stream, with whether its deadline is met.

    `rate`, `mtu` and `room` are those of `run`; `frames`, 1 to 1,000,000,000, is how many frames of a class are looked at, at most. With
    `slack` it is also told how much jitter each stream with a deadline may have. The classes in `silent` send nothing, where they have no
    streams in the table, and it is told which these are; with `leftovers` frames of other classes may wait from before the
    schedule, but of silent ones. With `why` it is also told what the greatest wait of each stream is made of. A deadline that is missed is no fault. `taprio.read_bounds` reads what is told, and `taprio.bounds` does both.
    """
    table, schedules, classes = octets(table), octets(schedules), silent_classes(silent)
    port = ctypes.byref(_port(rate, mtu, room, None, False))
    limit, texts = number(frames, 64, "frames"), [table, len(table), schedules, len(schedules)]
    guess = 4 * (len(table) + len(schedules)) + 4096
    if not classes and not leftovers and not why:
        return _one("taprio_bounds_slack" if slack else "taprio_bounds", [port, limit, *texts], guess)
    return _one("taprio_bounds_asked", [port, limit, _asked(classes, leftovers, slack, why), *texts], guess)


def paths(
    network: Octets,
    schedules: Octets,
    rate: int = 1000,
    mtu: int = 1500,
    room: int = 128,
    frames: int = 1_000_000,
    silent: Iterable[int] = (),
    leftovers: bool = False,
) -> bytes:
    """Tells how long the frames of a network's streams take from end to end, for ever, with one schedule command for each port: what holds
    of each port and its classes, how long each stream waits there, and how long it takes in all, with whether its deadline is met.

    `rate`, `mtu` and `room` are those of `run`, for each port of which the network says nothing else; `frames`, `silent` and `leftovers` are
    those of `bounds`, for every port. A deadline that is missed is no fault. `taprio.read_paths` reads what is told, and `taprio.paths` does
    both.
    """
    network, schedules = octets(network), octets(schedules)
    asked = _asked(silent_classes(silent), leftovers)
    given = [ctypes.byref(_port(rate, mtu, room, None, False)), number(frames, 64, "frames"), asked, network, len(network), schedules, len(schedules)]
    return _one("taprio_paths", given, 4 * (len(network) + len(schedules)) + 4096)


def cycle_of(cycle: int | None) -> int | None:
    """The cycle of a plan. None, and not 0, says that none is given."""
    if cycle == 0:
        raise BadValue("bad value of --cycle", "--cycle")
    return cycle


def plan(
    table: Octets,
    rate: int = 1000,
    mtu: int = 1500,
    room: int = 128,
    cycle: int | None = None,
    entries: int = 256,
    least_interval: int = 0,
    base_time: int = 0,
    share: bool = False,
    device: str = "eth0",
) -> bytes:
    """Finds a schedule by which the streams of a table meet their deadlines, or one for each port of a network: its `tc` line, or one
    line for each port. A strict run of `bounds`, or of `paths`, has no finding with them. Where none is found, `NoPlan` is raised, and says why.

    `rate`, `mtu` and `room` are those of `run`. In nanoseconds are `cycle`, 1 to 4294967295, where it is given, `least_interval`, which each
    entry has at the least, 0 to 4294967295, and `base_time`, at most 2^63 - 1. `entries`, 1 to 256, is how many a schedule has at most. With
    `share` classes without deadlines may use what the windows of higher ones leave. `device`, 1 to 15 octets, is the device of the line where
    the table names no port.
    """
    table, name, cycle = octets(table), device.encode(), cycle_of(cycle)
    times = number(cycle or 0, 64, "cycle"), number(least_interval, 64, "least_interval"), number(base_time, 64, "base_time")
    asked = _PlanValues(*times, number(entries, 32, "entries"), bool(share))
    port = ctypes.byref(_port(rate, mtu, room, None, False))
    return _one("taprio_plan", [port, ctypes.byref(asked), name, len(name), table, len(table)], 65536)


def _beginning(begin: int | None) -> tuple[int, int]:
    """The halves of the moment that a picture begins at: 2^128 - 1 says that there is none, and no moment is so great."""
    moment = 2**128 - 1 if begin is None else min(number(begin, 128, "begin"), 2**128 - 2)
    return moment % 2**64, moment >> 64


def draw(
    script: Octets,
    rate: int = 1000,
    mtu: int = 1500,
    room: int = 128,
    until: int | None = None,
    begin: int | None = None,
    end: int | None = None,
    width: int = 1200,
) -> bytes:
    """Draws the run of a script as an SVG picture, of the time from `begin` to `end`, `width` pixels wide.

    `begin` is at most 9223372036854774807000, `end` after it and at most 9223372036854775807000, `width` 400 to 2400. With `begin` alone the picture goes to
    the run's end, and with `end` alone it begins at 0. With neither it begins with the first frame, and goes to the run's end; without a frame it shows two
    cycles of the first schedule. The run goes on to `until`, as that of `run`.
    """
    script = octets(script)
    from_low, from_high = _beginning(begin)
    has_to, to_low, to_high = _halves(end, "end")
    shown = _PictureValues(from_low, from_high, has_to, to_low, to_high, number(width, 32, "width"), 0)
    given = [ctypes.byref(_port(rate, mtu, room, until, False)), ctypes.byref(shown), script, len(script)]
    return _one("taprio_draw", given, 65536)


def replay(
    script: Octets,
    capture: Octets,
    rate: int = 1000,
    mtu: int = 1500,
    room: int = 128,
    until: int | None = None,
    summary: bool = False,
    stamp: str = "start",
) -> Replay:
    """Replays a script and a capture (classic pcap), and gives a `Replay`: the report, and the capture of the frames that leave.

    The values are those of `run`, but that `until` is at most 4294967296000000000000, the last moment that a capture can say; where
    it is None, the port runs on until no frame can start any more. The records of the frames that leave have the moment at which each
    starts, or with `stamp="end"` the one at which its last octet has been sent.
    """
    script, capture = octets(script), octets(capture)
    given = [ctypes.byref(_port(rate, mtu, room, until, summary)), script, len(script), capture, len(capture)]
    late = stamp_is_end(stamp)
    ran = _ReplayRan()
    names = ["report", "departures", "fault"]
    guess = 4 * len(script) + 2 * len(capture) + 4096
    name, given = ("taprio_replay_stamped", [given[0], 1, *given[1:]]) if late else ("taprio_replay", given)
    report, departures, text = _call(name, given, ran, names, guess)
    if ran.status:
        raise of_text(ran.status, text.decode(), Replay(report, departures))
    return Replay(report, departures)


class Library:
    """The calls of this module as one object, which can be handed on in the place of a `taprio.Program`."""

    run = staticmethod(run)
    frames = staticmethod(frames)
    check = staticmethod(check)
    streams = staticmethod(streams)
    bounds = staticmethod(bounds)
    paths = staticmethod(paths)
    plan = staticmethod(plan)
    draw = staticmethod(draw)
    replay = staticmethod(replay)

    def __repr__(self) -> str:
        return "Library()"
