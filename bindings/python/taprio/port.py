"""A port that is driven call by call, for a simulator with a clock of its own.

It stands on the shared object (`taprio.library`): there is no text, and no process. Moments are picoseconds, lengths octets, and the times of a
`Schedule` nanoseconds.

    >>> with Port() as port:
    ...     port.arrive(1, priority=0, length=1000)
    ...     port.run(1_000_000_000)
    Arrival(id=1, traffic_class=0, dropped=None)
    [Start(id=1, traffic_class=0, at=0, end=8192000)]
"""

from __future__ import annotations

import ctypes
import threading
import types
from dataclasses import dataclass
from typing import Any

from .faults import BadValue, Refused, index
from .library import function
from .schedules import Schedule

__all__ = ["Arrival", "ClassCounters", "Port", "Start"]

_U32, _U64, _U128 = (1 << 32) - 1, (1 << 64) - 1, (1 << 128) - 1

_NO_PORT, _QUEUED, _DROPPED, _INSTALLED, _REFUSED, _MALFORMED, _START, _REST, _BACKWARD, _OPENED, _NOT_OPENED = range(11)
_REASONS = (
    "",
    "NoClass",
    "Runt",
    "TooLong",
    "OverSdu",
    "Full",
    "MapMissing",
    "MapChanged",
    "SduTooLarge",
    "IntervalTooShort",
    "CycleTooShort",
    "CycleTooLong",
    "ExtensionTooLong",
    "BaseTooLate",
    "Busy",
    "BadClassCount",
    "TooManyPriorities",
    "ClassOutOfRange",
    "QueueCount",
    "EmptyQueue",
    "QueueOverlap",
    "NoEntries",
    "TooManyEntries",
    "ZeroInterval",
)
_OPTIONS = {24: "--rate", 25: "--mtu", 26: "--room"}
_SDU_TOO_LARGE, _INTERVAL_TOO_SHORT, _BUSY = 8, 9, 14


class _Place(ctypes.Structure):
    _fields_ = [("words", ctypes.c_uint64 * 2)]


class _Frame(ctypes.Structure):
    _fields_ = [
        ("id", ctypes.c_uint64),
        ("length", ctypes.c_uint32),
        ("priority", ctypes.c_uint8),
        ("tagged", ctypes.c_uint8),
    ]


class _Entry(ctypes.Structure):
    _fields_ = [("interval", ctypes.c_uint32), ("gates", ctypes.c_uint8)]


class _Range(ctypes.Structure):
    _fields_ = [("count", ctypes.c_uint16), ("offset", ctypes.c_uint16)]


class _Schedule(ctypes.Structure):
    _fields_ = [
        ("base_time", ctypes.c_uint64),
        ("cycle_time", ctypes.c_uint64),
        ("extension", ctypes.c_uint64),
        ("length", ctypes.c_uint32),
        ("num_tc", ctypes.c_uint8),
        ("has_queues", ctypes.c_uint8),
        ("has_max_sdu", ctypes.c_uint8),
        ("unused", ctypes.c_uint8),
        ("map", ctypes.c_uint8 * 16),
        ("queues", _Range * 8),
        ("max_sdu", ctypes.c_uint32 * 8),
        ("entries", _Entry * 256),
    ]


class _Answer(ctypes.Structure):
    _fields_ = [
        ("id", ctypes.c_uint64),
        ("at_low", ctypes.c_uint64),
        ("at_high", ctypes.c_uint64),
        ("end_low", ctypes.c_uint64),
        ("end_high", ctypes.c_uint64),
        ("kind", ctypes.c_uint32),
        ("reason", ctypes.c_uint32),
        ("traffic_class", ctypes.c_uint32),
        ("entry", ctypes.c_uint32),
    ]

    @property
    def at(self) -> int:
        return int(self.at_low) | int(self.at_high) << 64

    @property
    def end(self) -> int:
        return int(self.end_low) | int(self.end_high) << 64


class _Report(ctypes.Structure):
    _fields_ = [
        ("now_low", ctypes.c_uint64),
        ("now_high", ctypes.c_uint64),
        ("no_class", ctypes.c_uint64),
        ("gates", ctypes.c_uint8),
        ("pending", ctypes.c_uint8),
    ]


class _Counters(ctypes.Structure):
    _fields_ = [
        (name, ctypes.c_uint64)
        for name in ("accepted", "sent", "sent_octets", "waiting", "runt", "too_long", "over_sdu", "full")
    ]


@dataclass(frozen=True)
class Arrival:
    """What became of a frame that arrived."""

    id: int
    traffic_class: int | None
    """The class whose queue it joined, 0 to 7; None if it is dropped."""
    dropped: str | None
    """Why it is dropped, such as "Full", or None."""


@dataclass(frozen=True)
class Start:
    """A frame that starts."""

    id: int
    traffic_class: int
    at: int
    """The moment at which its preamble goes out, in picoseconds."""
    end: int
    """The moment at which the wire is free again, in picoseconds."""


@dataclass(frozen=True)
class ClassCounters:
    """What a class has counted: frames, but for `sent_octets`."""

    accepted: int
    sent: int
    sent_octets: int
    waiting: int
    runt: int
    too_long: int
    over_sdu: int
    full: int


def _whole(value: int, name: str, most: int) -> int:
    """A whole number of 0 to `most`."""
    given = index(value)
    if given is None:
        raise TypeError(f"{name} is a whole number, not {value!r}")
    if not 0 <= given <= most:
        raise BadValue(f"{name} is 0 to {most}, not {given}", name)
    return given


def _struct_of(schedule: Schedule) -> _Schedule:
    """A schedule as the library takes it."""
    struct = _Schedule(schedule.base_time, schedule.cycle, schedule.extension, len(schedule.entries))
    for at, entry in enumerate(schedule.entries):
        struct.entries[at] = _Entry(entry.interval, entry.gates)
    if schedule.map is not None:
        struct.num_tc = schedule.classes or 0
        struct.map[:] = schedule.map
    if schedule.queues is not None:
        struct.has_queues = 1
        for at, queues in enumerate(schedule.queues[:8]):
            struct.queues[at] = _Range(queues.size, queues.offset)
    if schedule.max_sdu is not None:
        struct.has_max_sdu = 1
        for at, most in enumerate(schedule.max_sdu[:8]):
            struct.max_sdu[at] = most
    return struct


class Port:
    """A transmit port with its gates. Its clock begins at 0, all gates are open, and nothing waits.

    `rate` is one of 10, 100, 1000, 2500, 5000, 10000, 25000, 40000, 50000 and 100000 Mb/s, `mtu` 68 to 9216 octets, and `room` 1 to
    4096 frames a class. A value out of its limits raises `BadValue`, and without memory `MemoryError` is raised. Use it in a `with`
    statement, or call `close`. Several threads may use one port: its calls wait for each other.
    """

    def __init__(self, rate: int = 1000, mtu: int = 1500, room: int = 128) -> None:
        self._lock = threading.Lock()
        self._place: _Place | None = None
        self._free = function("taprio_port_free")
        numbers = (_whole(rate, "rate", _U32), _whole(mtu, "mtu", _U32), _whole(room, "room", _U32))
        place, told = _Place(), _Answer()
        function("taprio_port_new")(ctypes.byref(place), *numbers, ctypes.byref(told))
        if told.kind != _OPENED:
            option = _OPTIONS.get(told.reason)
            raise BadValue(f"bad value of {option}", option) if option else MemoryError("out of memory")
        self._place = place

    def _called(self, name: str, *given: Any) -> None:
        """Calls the library with the place of the port."""
        with self._lock:
            if self._place is None:
                raise ValueError("the port is closed")
            function(name)(ctypes.byref(self._place), *given)

    def _answer(self, name: str, *given: Any) -> _Answer:
        """What a call answers."""
        told = _Answer()
        self._called(name, *given, ctypes.byref(told))
        return told

    def arrive(self, id: int, priority: int, length: int, tagged: bool = False) -> Arrival:
        """A frame arrives now. `id` is your name for it, 0 to 2^64 - 1; `priority` is 0 to 15 (others have no class); `length` is the
        octets from the destination address to the end of the payload, without the check sequence."""
        frame = _Frame(_whole(id, "id", _U64), _whole(length, "length", _U32), _whole(priority, "priority", 255), bool(tagged))
        told = self._answer("taprio_port_arrive", ctypes.byref(frame))
        if told.kind == _QUEUED:
            return Arrival(told.id, told.traffic_class, None)
        return Arrival(told.id, None, _REASONS[told.reason])

    def install(self, schedule: Schedule) -> int:
        """A schedule is given now. The moment at which it comes into force, in picoseconds; or `Refused` is raised, and nothing has
        changed. The first schedule of a port needs a `map`."""
        return self._command(self._answer("taprio_port_install", ctypes.byref(_struct_of(schedule))))

    def delete(self) -> int:
        """The schedule is to end, and all gates to open. The moment at which they do, in picoseconds; or `Refused` is raised."""
        return self._command(self._answer("taprio_port_delete"))

    @staticmethod
    def _command(told: _Answer) -> int:
        if told.kind == _INSTALLED:
            return told.at
        traffic_class = told.traffic_class if told.reason == _SDU_TOO_LARGE else None
        entry = told.entry if told.reason == _INTERVAL_TOO_SHORT else None
        raise Refused(_REASONS[told.reason], traffic_class, entry, told.at if told.reason == _BUSY else None)

    def step(self, until: int) -> Start | None:
        """The clock goes on to the next start before `until`, a moment in picoseconds, and gives it; or to `until`, and gives None. A
        moment before the clock, or over 9223372036854775807000, raises `BadValue`, and nothing has changed."""
        moment = _whole(until, "until", _U128)
        told = self._answer("taprio_port_step", moment & _U64, moment >> 64)
        if told.kind == _BACKWARD:
            raise BadValue(f"until is the clock's moment or later, at most 9223372036854775807000, not {until}", "until")
        return Start(told.id, told.traffic_class, told.at, told.end) if told.kind == _START else None

    def run(self, until: int) -> list[Start]:
        """All starts before `until`, a moment in picoseconds, in order, and the clock is there then. It raises what `step` does."""
        starts = []
        while (start := self.step(until)) is not None:
            starts.append(start)
        return starts

    def _report(self) -> _Report:
        shown = _Report()
        self._called("taprio_port_report", ctypes.byref(shown))
        return shown

    @property
    def now(self) -> int:
        """The clock, in picoseconds."""
        shown = self._report()
        return int(shown.now_low) | int(shown.now_high) << 64

    @property
    def gates(self) -> int:
        """Which classes are open now: bit c is class c."""
        return int(self._report().gates)

    @property
    def pending(self) -> bool:
        """Whether a command is accepted and not in force yet."""
        return bool(self._report().pending)

    @property
    def no_class(self) -> int:
        """How many frames were dropped since their priority has no class."""
        return int(self._report().no_class)

    def counters(self, traffic_class: int) -> ClassCounters:
        """What a class, 0 to 7, has counted, and how many of its frames wait."""
        counted = _Counters()
        self._called("taprio_port_counters", _whole(traffic_class, "traffic_class", 7), ctypes.byref(counted))
        return ClassCounters(*(getattr(counted, name) for name, _ in _Counters._fields_))

    def close(self) -> None:
        """Frees the port. Other calls raise `ValueError` then."""
        with self._lock:
            if self._place is not None:
                self._free(ctypes.byref(self._place))
                self._place = None

    def __enter__(self) -> Port:
        return self

    def __exit__(
        self, kind: type[BaseException] | None, fault: BaseException | None, trace: types.TracebackType | None
    ) -> None:
        self.close()

    def __del__(self) -> None:
        if getattr(self, "_place", None) is not None:
            self.close()
