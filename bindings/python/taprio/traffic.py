"""Streams of frames, a run of a schedule with them, the frames of a run, the bounds of their waits, at a port and through a network, and schedules
for them."""

from __future__ import annotations

import dataclasses
from collections.abc import Iterable, Mapping
from typing import Optional, Union

from .faults import BadValue, index
from .jobs import lines
from .library import Octets, octets
from .program import Chosen, backend
from .results import Bounds, Frames, Paths, Run, of_answers, read_bounds, read_frames, read_paths
from .schedules import Configured, Schedule, read

__all__ = ["Stream", "bounds", "frames", "paths", "plan", "run_streams", "table"]

GREATEST = 9_223_372_036_854_775_807
"""The greatest moment, in nanoseconds."""


@dataclasses.dataclass(frozen=True)
class Stream:
    """Frames of one priority that arrive at a fixed period, or up to a jitter later; times are whole nanoseconds. A value that no table
    of streams could say raises `BadValue`."""

    first_id: int
    """The id of the first frame; the following ones have the following ids."""
    priority: int
    """The priority; 0 to 15 have a class."""
    length: int
    """Octets from the destination address to the end of the payload, without the check sequence; of the longest frame."""
    period: int
    """From one frame to the next, in nanoseconds."""
    offset: int | None = 0
    """When the first frame arrives, at the earliest, in nanoseconds; under `bounds` from the moment on at which the schedule comes into
    force. None where that isn't known: then a run takes it as 0, and `bounds` take any moments of frames that are no closer together than
    the period, less the jitter."""
    count: int = 1
    """How many frames arrive; under `bounds` they go on for ever."""
    tagged: bool = False
    """Whether the frames have a customer VLAN tag."""
    deadline: int | None = None
    """How long after its nominal moment, or with the offset None after its arrival, each frame has to have left the wire, in nanoseconds,
    for `bounds`; a run takes no notice of it."""
    shortest: int | None = None
    """Octets of the shortest frame, at most `length`, for `bounds`; None where all frames have one length. Those of a run have `length`."""
    jitter: int | None = None
    """By how much a frame may arrive later than its nominal moment, in nanoseconds, for `bounds`; None where none does. In a run each
    arrives at the earliest."""

    def __post_init__(self) -> None:
        for name, most in (
            ("first_id", 2**64 - 1),
            ("priority", 255),
            ("length", 2**32 - 1),
            ("period", GREATEST),
            ("offset", GREATEST),
            ("count", 2**32 - 1),
            ("deadline", GREATEST),
            ("shortest", 2**32 - 1),
            ("jitter", GREATEST),
        ):
            value = getattr(self, name)
            if name in ("offset", "deadline", "shortest", "jitter") and value is None:
                continue
            given = index(value)
            if given is None or not 0 <= given <= most:
                raise BadValue(f"bad value of {name}: a whole number from 0 to {most} is expected, and {value!r} is given", name)
            object.__setattr__(self, name, given)
        if self.count and self.first_id + self.count - 1 > 2**64 - 1:
            raise BadValue("bad value of count: the last id is over 2^64 - 1", "count")
        if self.shortest is not None and self.shortest > self.length:
            raise BadValue("bad value of shortest: the shortest frame is longer than the longest", "shortest")
        latest = (self.offset or 0) + (self.jitter or 0)
        if latest > GREATEST:
            raise BadValue(f"bad value of jitter: the first frame may arrive after {GREATEST} ns", "jitter")
        if self.count and latest + (self.count - 1) * self.period > GREATEST:
            raise BadValue(f"bad value of count: the last frame arrives after {GREATEST} ns", "count")

    @property
    def ids(self) -> range:
        """The ids of its frames."""
        return range(self.first_id, self.first_id + self.count)

    def line(self) -> str:
        """Its line of a table of streams, without a newline."""
        offset = "any" if self.offset is None else f"{self.offset}ns"
        words = f"stream {self.first_id} {self.priority} {self.length} {self.period}ns {offset} {self.count}"
        shortest = "" if self.shortest is None else f" shortest {self.shortest}"
        jitter = "" if self.jitter is None else f" jitter {self.jitter}ns"
        deadline = "" if self.deadline is None else f" deadline {self.deadline}ns"
        return words + (" tagged" if self.tagged else "") + shortest + jitter + deadline


def table(streams: Iterable[Stream]) -> str:
    """A table of streams, as `taprio.streams` and the jobs `streams` and `bounds` read it."""
    return "".join(f"{stream.line()}\n" for stream in streams)


def _table(streams: Union[Iterable[Stream], Octets]) -> bytes:
    """Streams as a table; a table as it is."""
    return octets(streams) if isinstance(streams, (str, bytes, bytearray, memoryview)) else table(streams).encode()


def run_streams(
    schedule: Union[Schedule, Octets, None],
    streams: Union[Iterable[Stream], Octets],
    *,
    until_ns: int,
    from_ns: int = 0,
    rate: int = 1000,
    mtu: int = 1500,
    room: int = 128,
    late: bool = False,
    seed: Optional[int] = None,
    port: Chosen = None,
) -> Run:
    """Runs a schedule with streams of frames from moment 0 to `until_ns`, in nanoseconds; the run has a summary.

    `schedule` may also be the lines of a script, or None for a port that is always open, and `streams` a table. `rate` is in Mb/s, `mtu`
    in octets, `room` in frames of a class. What runs it is `port`, as `taprio.backend` says.

    A schedule with base time 0 comes into force at the start of its second cycle, and before that all gates are open: let the streams
    begin behind it. `from_ns`, in nanoseconds, is added to the offset of each stream. Each frame of a stream with a jitter comes at its
    earliest moment, with `late` at its latest, and with a `seed`, below 2^64, at a moment and with a length that it draws."""
    chosen = backend(port)
    for name, value in (("until_ns", until_ns), ("from_ns", from_ns)):
        if index(value) is None:
            raise TypeError(f"{name} is a whole number, not {value!r}")
    until_ns, from_ns = int(until_ns), int(from_ns)
    script = chosen.streams(_table(streams), b"" if schedule is None else lines(schedule), from_=1000 * from_ns, late=late, seed=seed)
    answers = chosen.run(script, rate=rate, mtu=mtu, room=room, until=1000 * until_ns, summary=True)
    return of_answers(answers, script)


def frames(
    script: Octets,
    *,
    rate: int = 1000,
    mtu: int = 1500,
    room: int = 128,
    until: int | None = None,
    streams: Union[Iterable[Stream], Octets, None] = None,
    capture: Octets | None = None,
    port: Chosen = None,
) -> Frames:
    """The frames of a script, each with its class, its length, when it came, started and ended, and how long it waited; or why it was
    dropped. One that is left has no start. `pandas.DataFrame(taprio.results.rows(frames))` makes a table of them.

    They stand in the order of their fate: a dropped frame where it came, one that was sent where it started, and those that are left at the
    end. The values are those of `run`, and moments are picoseconds. With `streams`, which may also be a table, each frame has the first id of
    the stream that it is of, and whether it has left by the deadline of that stream, where it has one.

    With `capture`, a classic pcap, the frames are its records, run with the lines of the script as `replay` runs them, and `until` is as
    there: the id of a frame is the number of its record, from 0. `streams` does not go with it. What runs the script is `port`, as
    `taprio.backend` says."""
    of = {} if streams is None else {"streams": _table(streams)}
    of |= {} if capture is None else {"capture": octets(capture)}
    return read_frames(backend(port).frames(script, rate=rate, mtu=mtu, room=room, until=until, **of))


def bounds(
    schedule: Union[Schedule, Octets],
    streams: Union[Iterable[Stream], Octets],
    *,
    rate: int = 1000,
    mtu: int = 1500,
    room: int = 128,
    frames: int = 1_000_000,
    slack: bool = False,
    silent: Iterable[int] = (),
    leftovers: bool = False,
    why: bool = False,
    port: Chosen = None,
) -> Bounds:
    """How long the frames of periodic streams wait under a schedule, for ever: the least and the greatest wait of each stream, and whether
    its deadline is met. Where a stream of a class has a jitter, several lengths or the offset None, the bounds of the class hold whenever
    its frames come.

    Of a class that the schedule keeps apart they hold whatever the other classes send. Those of a class that shares its windows stand on
    what is known of the classes above it there: that they send the streams of the table, or that they are `silent` and send nothing, where
    they have no streams. Where neither is known of one of them, there are no bounds. With `leftovers` frames of other classes may wait
    from before the schedule, but of silent ones. `silent` are classes from 0 to 7, each once, such as `(6, 7)`; others raise `BadValue`.

    `schedule` may also be `tc` lines, each of which is judged by itself, and `streams` a table. The offsets of the streams count from the
    moment at which the schedule comes into force, and each stream goes on for ever: its `count` is no matter, and a period of 0 raises
    `BadInput`. `rate` is in Mb/s, `mtu` in octets, `room` in frames of a class, and `frames`, 1 to 1,000,000,000, is how many frames of a
    class are looked at, at most. With `slack` each stream with a deadline also has the greatest jitter with which it still makes it, and
    with `why` each stream with a greatest wait has what that is made of: `gates`, `blocking`, `higher` and `queue`. What runs it is `port`, as `taprio.backend` says. Times of
    the answer are picoseconds."""
    told = backend(port).bounds(_table(streams), lines(schedule), rate=rate, mtu=mtu, room=room, frames=frames, slack=slack, silent=silent, leftovers=leftovers, why=why)
    return read_bounds(told)


def _of_ports(schedules: Union[Mapping[str, Union[Schedule, Configured]], Octets]) -> bytes:
    """The schedules of ports as lines; lines as they are."""
    if not isinstance(schedules, Mapping):
        return octets(schedules)
    plain = {name: it.schedule if isinstance(it, Configured) else it for name, it in schedules.items()}
    return "".join(f"{it.tc(name)}\n" for name, it in plain.items()).encode()


def paths(
    network: Octets,
    schedules: Union[Mapping[str, Union[Schedule, Configured]], Octets],
    *,
    rate: int = 1000,
    mtu: int = 1500,
    room: int = 128,
    frames: int = 1_000_000,
    silent: Iterable[int] = (),
    leftovers: bool = False,
    port: Chosen = None,
) -> Paths:
    """How late the frames of a network's streams are, at each port of their way and at its end, for ever, and whether their deadlines are met.

    `network` is a text: its ports, its links, and its streams with their ways. `schedules` has the schedule of each port by its name, or is
    their `tc` lines, in which the word behind `dev` is the port. A port without a schedule has its gates open. Base times say how the
    cycles of the ports lie to one another.

    `rate`, in Mb/s, `mtu`, in octets, and `room`, in frames of a class, are those of each port of which the network says nothing else.
    `frames`, `silent` and `leftovers` are as for `bounds`, at every port. A line that has a fault, and a schedule that its port refuses,
    raises `BadInput`. What runs it is `port`, as `taprio.backend` says. Times of the answer are picoseconds."""
    told = backend(port).paths(network, _of_ports(schedules), rate=rate, mtu=mtu, room=room, frames=frames, silent=silent, leftovers=leftovers)
    return read_paths(told)


def plan(
    streams: Union[Iterable[Stream], Octets],
    *,
    rate: int = 1000,
    mtu: int = 1500,
    room: int = 128,
    cycle: int | None = None,
    entries: int = 256,
    least_interval: int = 0,
    base_time: int = 0,
    share: bool = False,
    device: str = "eth0",
    port: Chosen = None,
) -> list[Configured]:
    """A schedule by which the streams meet their deadlines, for ever: one `Configured`, or of a network one for each port that its streams cross,
    whose name is in `device`. `bounds`, or `paths`, meet every deadline with them. Where none is found, `NoPlan` is raised: there may be one even so.

    `streams` may also be a table, or the text of a network. `rate`, in Mb/s, `mtu`, in octets, and `room`, in frames of a class, are those of
    `bounds`. Times are nanoseconds: `cycle`, 1 to 4294967295, where it is given; `least_interval`, which each entry has at the least, 0 to
    4294967295; and `base_time`, at most 2^63 - 1. `entries`, 1 to 256, is how many a schedule has at most. With `share` classes without deadlines
    may use what the windows of higher ones leave. `device` is the device where no port is named. A bad line raises `BadInput`. What runs it
    is `port`, as `taprio.backend` says."""
    told = backend(port).plan(
        _table(streams), rate=rate, mtu=mtu, room=room, cycle=cycle, entries=entries, least_interval=least_interval, base_time=base_time, share=share, device=device
    )
    return read(told, "tc") if told else []
