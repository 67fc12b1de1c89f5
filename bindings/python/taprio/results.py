"""What the jobs answer, as objects: `read_run` reads the answers of a script or the report of a replay, `read_frames` a table of frames,
`read_check` the answers of a check, `read_bounds` those of bounds, and `read_paths` those of paths.

Moments and times are whole picoseconds, sizes are octets. `rows()` gives dicts, for `pandas.DataFrame` or whatever else takes them."""

from __future__ import annotations

import dataclasses
import functools
import itertools
import re
from collections import deque
from collections.abc import Callable, Iterable, Iterator, Sequence
from typing import Any, TypeVar, Union, overload

from .faults import BadAnswer
from .library import Octets, octets
from .schedules.model import logical_lines

__all__ = [
    "Answer",
    "Backward",
    "Bounded",
    "Bounds",
    "Change",
    "Check",
    "Checked",
    "ClassSummary",
    "ClassVerdict",
    "Counted",
    "Dropped",
    "Frame",
    "Frames",
    "Hop",
    "Installed",
    "Left",
    "OpenSummary",
    "PathBound",
    "Paths",
    "PortBounds",
    "Queued",
    "Refused",
    "Report",
    "Run",
    "Shares",
    "Started",
    "StreamBound",
    "TcFault",
    "Window",
    "WireSummary",
    "read_bounds",
    "read_check",
    "read_frames",
    "read_paths",
    "read_run",
    "rows",
]


@dataclasses.dataclass(frozen=True)
class Queued:
    """A frame was queued."""

    id: int
    traffic_class: int


@dataclasses.dataclass(frozen=True)
class Dropped:
    """A frame was dropped. `name` is why, such as "Full"."""

    id: int
    name: str


@dataclasses.dataclass(frozen=True)
class Started:
    """A frame left from `start` to `end`, when the wire is free again; picoseconds."""

    id: int
    traffic_class: int
    start: int
    end: int


@dataclasses.dataclass(frozen=True)
class Installed:
    """A command was accepted. It comes into force at the moment `change`, in picoseconds."""

    change: int


@dataclasses.dataclass(frozen=True)
class Refused:
    """A command was refused. `name` is why, and `number` what some names have with them."""

    name: str
    number: int | None = None


@dataclasses.dataclass(frozen=True)
class TcFault:
    """A `tc` line is no command. `name` is why, and `where` an option or the position of a word."""

    name: str
    where: str | None = None


@dataclasses.dataclass(frozen=True)
class Backward:
    """The clock would have gone back."""


@dataclasses.dataclass(frozen=True)
class Counted:
    """What a class has counted."""

    traffic_class: int
    accepted: int
    sent: int
    octets: int
    runt: int
    too_long: int
    over_sdu: int
    full: int
    waiting: int


@dataclasses.dataclass(frozen=True)
class Change:
    """A schedule of a report: it comes into force at the moment `at`, in picoseconds; the other times are nanoseconds.

    Of a deletion all but `at` are None."""

    at: int
    base_time: int | None = None
    cycle: int | None = None
    extension: int | None = None
    entries: int | None = None


@dataclasses.dataclass(frozen=True)
class Report:
    """What a query tells."""

    now: int
    """The moment, in picoseconds."""
    mask: int
    """The open classes: bit c is class c."""
    no_class: int
    """How many frames had no class."""
    classes: int | None
    """How many classes there are; None where no command was accepted yet, as are map and queues."""
    map: tuple[int, ...] | None
    queues: tuple[tuple[int, int], ...] | None
    """The queues of each class: their number, and the first."""
    in_force: Change | None
    pending: Change | None
    announced: Change | None


@dataclasses.dataclass(frozen=True)
class Left:
    """So many frames of a class wait at the end."""

    traffic_class: int
    frames: int


@dataclasses.dataclass(frozen=True)
class ClassSummary:
    """The summary of a class: counts of frames, octets that were sent, and waits in picoseconds (None where no frame has left)."""

    traffic_class: int
    queued: int
    sent: int
    dropped: int
    octets: int
    least: int | None
    mean: int | None
    greatest: int | None
    most: int
    """How many of its frames waited at once, at most."""


@dataclasses.dataclass(frozen=True)
class WireSummary:
    """For how many picoseconds the wire was busy, and the share of the run in parts per million: from moment 0, and from `first`."""

    busy: int
    ppm: int
    first: int | None = None
    """The moment at which the first frame was queued, in picoseconds, where one was."""
    ppm_since: int | None = None
    """The share of the time since then. None of a summary that doesn't tell it."""


@dataclasses.dataclass(frozen=True)
class OpenSummary:
    """How many frames were queued before the first command was in force: all gates were open for them."""

    frames: int
    change: int
    """From when on the command is in force, in picoseconds."""


Answer = Union[
    Queued, Dropped, Started, Installed, Refused, TcFault, Backward, Counted, Report, Left, ClassSummary, WireSummary, OpenSummary
]


@dataclasses.dataclass(frozen=True)
class Frame:
    """A frame of a run. Moments are in picoseconds; one is None where it isn't known, or didn't come."""

    id: int
    traffic_class: int | None
    """None of a dropped frame in a run; in a table of frames that of its priority, where it has one."""
    arrived: int | None
    """Known where the script is."""
    start: int | None
    end: int | None
    wait: int | None
    """From its arrival to its start."""
    dropped: str | None
    """Why it was dropped; None where it wasn't."""
    priority: int | None = None
    """Known where the script is, and so is the length, in octets."""
    length: int | None = None
    stream: int | None = None
    """The stream that it is of, by its first id: in a table of frames with streams, where it is of one."""
    met: bool | None = None
    """Whether it has left by the deadline of its stream, in a table of frames with streams that have deadlines; a dropped one has not. None
    where its stream has none, and where it is left."""


def rows(items: Iterable[Any]) -> list[dict[str, Any]]:
    """A dict of each object of this module, by the names of its attributes."""
    return [dict(vars(it)) for it in items]


@dataclasses.dataclass(frozen=True, repr=False)
class Run:
    """The answers of a run. `answers` and `frames` are made of the text when they are first asked for."""

    text: str
    """The lines of the answers."""
    script: bytes | None = None
    """What was run, where it is known."""

    def __repr__(self) -> str:
        return f"Run({len(self.frames)} frames)"

    @functools.cached_property
    def answers(self) -> tuple[Answer, ...]:
        """All of them, in their order."""
        return _answers(self.text)

    @functools.cached_property
    def frames(self) -> tuple[Frame, ...]:
        """The frames that were queued or dropped, in the order in which they arrived."""
        return _frames(self.text, None if self.script is None else _arrivals(self.script))

    def _told(self, words: tuple[str, ...]) -> list[Answer]:
        """The answers whose lines begin so."""
        return [_answer(line, number) for number, line in enumerate(self.text.split("\n"), 1) if line.startswith(words)]

    @functools.cached_property
    def summary(self) -> dict[int, ClassSummary]:
        """The summary of each class that had frames; empty where none was asked for."""
        return {it.traffic_class: it for it in self._told(("summary class ",)) if isinstance(it, ClassSummary)}

    @functools.cached_property
    def wire(self) -> WireSummary | None:
        """The summary of the wire."""
        return next((it for it in self._told(("summary wire ",)) if isinstance(it, WireSummary)), None)

    @functools.cached_property
    def early(self) -> OpenSummary | None:
        """The frames that were queued before the first command was in force; None where there are none, or no summary."""
        return next((it for it in self._told(("summary open ",)) if isinstance(it, OpenSummary)), None)

    @functools.cached_property
    def left(self) -> dict[int, int]:
        """How many frames of each class wait at the end; empty where all have left or were dropped."""
        return {it.traffic_class: it.frames for it in self._told(("left ",)) if isinstance(it, Left)}

    def of(self, ids: Iterable[int]) -> list[Frame]:
        """The frames with these ids, such as those of a stream: `run.of(stream.ids)`."""
        wanted = ids if isinstance(ids, (range, set, frozenset)) else set(ids)
        return [frame for frame in self.frames if frame.id in wanted]

    def rows(self) -> list[dict[str, Any]]:
        """A dict of each frame: `pandas.DataFrame(run.rows())`."""
        return rows(self.frames)

    def summary_rows(self) -> list[dict[str, Any]]:
        """A dict of each class of the summary."""
        return rows(self.summary.values())


@dataclasses.dataclass(frozen=True)
class Window:
    """What a schedule gives a class; times in picoseconds."""

    traffic_class: int
    open: int | None
    """The longest time that it stays open; None where it never closes."""
    closed: int
    """The longest time that it stays closed; 0 where it never closes."""
    share: int
    """For how long it is open in a cycle."""
    cycle: int
    """How long a cycle takes."""
    frame: int | None
    """The longest frame that can start, in octets; 0 where not even the shortest can, None where any can."""
    wait: int | None = None
    """The longest time from arrival to start of a frame of that length, if none is before it; None where it never starts."""
    length: int | None = None
    """The length of a frame that was asked for (`--frame`), in octets; None where none was."""
    length_wait: int | None = None
    """The longest time from arrival to start of a frame of that one; None where it never starts."""


@dataclasses.dataclass(frozen=True)
class Shares:
    """A class, and the others that share windows with it, from the lowest up: at some moment of the cycle both are open."""

    traffic_class: int
    others: tuple[int, ...]


@dataclasses.dataclass(frozen=True)
class Checked:
    """What was told of one schedule: the classes that it keeps apart, its windows, the classes that a priority leads to and that it never
    opens, and the classes that share windows with others, where these were asked for; or why it is none."""

    apart: tuple[int, ...] | None
    windows: tuple[Window, ...] = ()
    fault: Refused | TcFault | None = None
    never: tuple[int, ...] = ()
    shares: tuple[Shares, ...] = ()


@dataclasses.dataclass(frozen=True)
class Check:
    """What was told of each schedule, in their order."""

    schedules: tuple[Checked, ...]

    def rows(self) -> list[dict[str, Any]]:
        """A dict of each window, with the number of its schedule, from 0, and whether the class is kept apart."""
        return [
            {"schedule": number, "apart": window.traffic_class in (it.apart or ())} | rows([window])[0]
            for number, it in enumerate(self.schedules)
            for window in it.windows
        ]


@dataclasses.dataclass(frozen=True)
class ClassVerdict:
    """What holds for ever of a class that has streams. Moments are picoseconds from the schedule's coming into force."""

    traffic_class: int
    verdict: str
    """"bounded" where each frame finds room and its wait has a bound; "within" where it has one whenever the frames come; "full" where a
    frame finds its queue full; "stuck" where a frame fits into no window, so that those behind it wait for ever; "overloaded" where no
    frame found its queue full yet, but the backlog grows for ever; "long" where more frames had to be looked at than was allowed; "late"
    where a moment is after the greatest.

    Of a class that shares its windows there are also "open" where classes above it may send in them, and nothing else is known of these;
    "behind" where a class above it has streams and no bounds; and "blocked" where its longest frame fits into no window behind a frame of
    another class that may have the wire when the window opens.

    Of a class of a network's port there are also "cyclic" where it depends on itself, in a circle, or on such a class; and "unknown" where
    it isn't known when the frames of one of its streams come."""
    most: int | None = None
    """The greatest number of frames that ever wait at once; for "bounded" and "within", as `room`. Where a class that is "within" has more
    than there is room, some may be dropped."""
    room: int | None = None
    """How many frames the queue holds."""
    frames: int | None = None
    """After so many frames, for "bounded", all goes on as before,"""
    every: int | None = None
    """which takes so long, in picoseconds."""
    at: int | None = None
    """When the first frame comes that finds no room; for "full" and "stuck", as the following two. None where that is after the greatest
    moment, or where the frames may come at any moments."""
    stream: int | None = None
    """The first id of its stream."""
    frame: int | None = None
    """Which frame of its stream it is, from 1."""
    stuck_at: int | None = None
    """When the first frame comes that never starts; for "stuck", as the following two. None where the frames may come at any moments: then
    it is the longest frame of the class that never starts."""
    stuck_stream: int | None = None
    """The first id of its stream."""
    stuck_frame: int | None = None
    """Which frame of its stream it is, from 1."""
    open_to: tuple[int, ...] = ()
    """For "open", these classes, in rising order."""
    behind: int | None = None
    """For "behind", that class."""


@dataclasses.dataclass(frozen=True)
class StreamBound:
    """What holds for ever of the frames of a stream; times in picoseconds."""

    first_id: int
    """The first id of the stream."""
    traffic_class: int | None
    """Its class; None where each frame is dropped."""
    verdict: str
    """"bounded" where the four times are there, and some frames reach them; "within" where they are there, and hold whenever the frames
    come; "none" where the class loses frames or one never leaves; "unknown" where the class has too little room, or no answer was found, as
    of one that shares its windows and is "open", "behind", "blocked" or "stuck"; "dropped" where each frame is dropped when it comes, or
    each of the shortest.

    The times that are "within" count from a frame's nominal moment where its stream has an offset, so that the jitter is in them; with the
    offset `any`, and where they are "bounded", from its arrival."""
    least_wait: int | None = None
    """The least time from a frame's arrival to its start, over all its frames."""
    greatest_wait: int | None = None
    least_end: int | None = None
    """The least time from a frame's arrival to the moment when the wire is free again, which the deadline is for."""
    greatest_end: int | None = None
    dropped: str | None = None
    """Why each frame is dropped, such as "TooLong"; None where none is."""
    deadline: int | None = None
    """Its deadline, in picoseconds; None where it has none."""
    met: bool | None = None
    """Whether each frame has left by its deadline; None where that isn't known, or there is no deadline."""
    slack: int | None = None
    """Where slack is asked, the greatest jitter with which it makes its deadline, in picoseconds; None where it makes it with none."""
    gates: int | None = None
    """Where it is asked, what its greatest wait would be if nothing else was sent, by shut gates and its own jitter and frames. The four parts
    of it come to its greatest wait; they are None where it has none."""
    blocking: int | None = None
    """What is added by a frame of a lower class, which is in the way."""
    higher: int | None = None
    """What is added by the frames of higher classes."""
    queue: int | None = None
    """What is added by the other streams of its class."""


@dataclasses.dataclass(frozen=True)
class Bounded:
    """What was told of one schedule: the classes that it keeps apart, the verdict about each class, and the bounds of each stream; or why it
    is none. A deletion keeps nothing apart, and has neither classes nor streams."""

    apart: tuple[int, ...] | None
    classes: tuple[ClassVerdict, ...] = ()
    streams: tuple[StreamBound, ...] = ()
    fault: Refused | TcFault | None = None
    silent: tuple[int, ...] | None = None
    """The classes that are taken to send nothing: those of which it was said, and that have no streams. None where it was said of none."""


def _stream_finding(stream: StreamBound) -> str | None:
    """What is found of a stream: its deadline isn't known to be met, or it has none and each of its frames is dropped."""
    if stream.deadline is None:
        return None if stream.dropped is None else f"stream {stream.first_id}: dropped"
    return None if stream.met else f"stream {stream.first_id}: deadline {'unknown' if stream.met is None else 'missed'}"


def _schedule_finding(number: int, it: Bounded) -> str | None:
    """What is found first of a schedule: it is none, or a stream, or a class that loses frames."""
    if it.fault is not None:
        return f"schedule {number}: {'refused' if isinstance(it.fault, Refused) else 'tc-fault'} {it.fault.name}"
    of_classes = (f"class {one.traffic_class}: {one.verdict}" for one in it.classes if one.verdict in ("full", "stuck", "overloaded"))
    return next(filter(None, (*map(_stream_finding, it.streams), *of_classes)), None)


@dataclasses.dataclass(frozen=True)
class Bounds:
    """What was told of each schedule, in their order."""

    schedules: tuple[Bounded, ...]

    @property
    def finding(self) -> str | None:
        """What is found first, None where nothing is: "schedule 0: refused MapMissing" (from 0), "stream 7: deadline missed", "deadline unknown"
        or "dropped", "class 5: full", "stuck" or "overloaded", and "no stream is in the table" or "no schedule was judged" where no bound of any
        stream is told."""
        found = next(filter(None, (_schedule_finding(number, it) for number, it in enumerate(self.schedules))), None)
        if found or any(it.streams for it in self.schedules):
            return found
        return "no stream is in the table" if any(it.apart for it in self.schedules) else "no schedule was judged"

    @property
    def met(self) -> bool:
        """Whether there is no finding: where the program ends with status 0 under `--strict`. False where nothing was judged."""
        return self.finding is None

    def rows(self) -> list[dict[str, Any]]:
        """A dict of each stream, with the number of its schedule, from 0: `pandas.DataFrame(bounds.rows())`."""
        return [{"schedule": number} | row for number, it in enumerate(self.schedules) for row in rows(it.streams)]

    def class_rows(self) -> list[dict[str, Any]]:
        """A dict of each class that has streams, with the number of its schedule, from 0."""
        return [{"schedule": number} | row for number, it in enumerate(self.schedules) for row in rows(it.classes)]


@dataclasses.dataclass(frozen=True)
class PortBounds:
    """What was told of a port of a network: the classes that its schedule keeps apart, and the verdict about each class that has streams."""

    name: str | None
    """None of the one port of a network that names none."""
    apart: tuple[int, ...]
    classes: tuple[ClassVerdict, ...] = ()
    silent: tuple[int, ...] = ()
    """The classes that are taken to send nothing: those of which it was said, and that have no streams there."""


@dataclasses.dataclass(frozen=True)
class Hop:
    """How long the frames of a stream wait at a port of their way, in picoseconds. Where it is known when they come the times count from the
    earliest moment at which a frame may come, and else from its arrival there."""

    first_id: int
    """The first id of the stream."""
    port: str | None
    """The name of the port; None of a network's one port that has none."""
    traffic_class: int
    least_wait: int
    greatest_wait: int


@dataclasses.dataclass(frozen=True)
class PathBound:
    """When the frames of a stream have left the last port of their way, the gap behind them included; in picoseconds from their nominal
    moment at the first port, or of those with the offset `any` from their arrival there."""

    first_id: int
    """The first id of the stream."""
    verdict: str
    """"within" where the two ends are there; "none" where a port drops frames of the stream; "unknown" where its class has no bounds at a
    port, whose verdict about the class says why."""
    least_end: int | None = None
    greatest_end: int | None = None
    deadline: int | None = None
    """Its deadline, in picoseconds; None where it has none, or the ends are not there."""
    met: bool | None = None
    """Whether each frame has left by the deadline; None where that isn't known, or there is no deadline."""
    at: str | None = None
    """For "none" and "unknown", the name of that port, where it has one."""


@dataclasses.dataclass(frozen=True)
class Paths:
    """What was told of a network: its ports, a port behind those whose frames it gets, the waits of each stream at the ports of its way, and
    its way from end to end."""

    ports: tuple[PortBounds, ...]
    hops: tuple[Hop, ...] = ()
    paths: tuple[PathBound, ...] = ()
    cyclic: tuple[tuple[str, int], ...] = ()
    """The classes that depend on themselves, in a circle, or on such a class, each with the name of its port."""

    @property
    def met(self) -> bool:
        """Whether there is a path, each has its ends, no class may have more frames than room, and each deadline is known to be met. False
        where there is no path. A network of which no port has a schedule is judged by open gates: `paths --strict` finds that, this can't."""
        fits = all(it.most is None or it.room is None or it.most <= it.room for port in self.ports for it in port.classes)
        ends = all(it.verdict == "within" and (it.deadline is None or it.met is True) for it in self.paths)
        return bool(self.paths) and fits and ends

    def rows(self) -> list[dict[str, Any]]:
        """A dict of each way: `pandas.DataFrame(paths.rows())`."""
        return rows(self.paths)

    def hop_rows(self) -> list[dict[str, Any]]:
        """A dict of each wait of a stream at a port of its way."""
        return rows(self.hops)

    def class_rows(self) -> list[dict[str, Any]]:
        """A dict of each class that has streams, with the name of its port."""
        return [{"port": port.name} | row for port in self.ports for row in rows(port.classes)]


def _wait(text: str) -> int | None:
    return None if text == "-" else int(text)


def _change(text: str) -> Change | None:
    """What stands behind `in-force`, `pending` and `announced`."""
    words = text.split()
    if words == ["none"]:
        return None
    if words[0] == "open":
        return Change(int(words[2]))
    return Change(*(int(word) for word in words[1::2]))


_CHANGE = r"(none|open change \d+|change \d+ base \d+ cycle \d+ extension \d+ entries \d+)"
_REPORT = [
    re.compile(r"report now (\d+) mask ([0-9a-f]{2}) no-class (\d+)"),
    re.compile(r"classes (?:none|(\d+) map ((?:\d+ ){16})queues((?: \d+@\d+)+))"),
    re.compile(f"in-force {_CHANGE}"),
    re.compile(f"pending {_CHANGE}"),
    re.compile(f"announced {_CHANGE}"),
]
_LINES: list[tuple[re.Pattern[str], Callable[..., Answer]]] = [
    (re.compile(r"queued (\d+) class (\d+)"), lambda *it: Queued(*map(int, it))),
    (re.compile(r"start (\d+) class (\d+) at (\d+) end (\d+)"), lambda *it: Started(*map(int, it))),
    (re.compile(r"dropped (\d+) (\w+)"), lambda id, name: Dropped(int(id), name)),
    (re.compile(r"installed change (\d+)"), lambda at: Installed(int(at))),
    (re.compile(r"refused (\w+)(?: (\d+))?"), lambda name, number: Refused(name, None if number is None else int(number))),
    (re.compile(r"tc-fault (\w+)(?: (\S+))?"), TcFault),
    (re.compile(r"backward"), Backward),
    (
        re.compile(
            r"count class (\d+) accepted (\d+) sent (\d+) octets (\d+) runt (\d+) too-long (\d+) over-sdu (\d+) full (\d+) waiting (\d+)"
        ),
        lambda *it: Counted(*map(int, it)),
    ),
    (re.compile(r"left class (\d+) frames (\d+)"), lambda *it: Left(*map(int, it))),
    (
        re.compile(
            r"summary class (\d+) queued (\d+) sent (\d+) dropped (\d+) octets (\d+) least (\d+|-) mean (\d+|-) greatest (\d+|-) most (\d+)"
        ),
        lambda *it: ClassSummary(
            int(it[0]), int(it[1]), int(it[2]), int(it[3]), int(it[4]), _wait(it[5]), _wait(it[6]), _wait(it[7]), int(it[8])
        ),
    ),
    (
        re.compile(r"summary wire busy (\d+) ppm (\d+)(?: from (\d+|-) ppm (\d+))?"),
        lambda *it: WireSummary(int(it[0]), int(it[1]), _wait(it[2] or "-"), None if it[3] is None else int(it[3])),
    ),
    (re.compile(r"summary open (\d+) frames before (\d+)"), lambda *it: OpenSummary(*map(int, it))),
]
_BY_WORD: dict[str, list[tuple[re.Pattern[str], Callable[..., Answer]]]] = {}
for _pattern, _make in _LINES:
    _BY_WORD.setdefault(_pattern.pattern.partition(" ")[0], []).append((_pattern, _make))


def _answer(line: str, number: int) -> Answer:
    """The answer of a line."""
    for pattern, make in _BY_WORD.get(line.partition(" ")[0], []):
        found = pattern.fullmatch(line)
        if found:
            return make(*found.groups())
    raise BadAnswer(f"line {number}: expected an answer, found {line[:60]!r}", number)


def _report(lines: Sequence[str], number: int) -> Report:
    """The answer of the five lines of a query."""
    found = []
    for at, pattern in enumerate(_REPORT):
        match = pattern.fullmatch(lines[at]) if at < len(lines) else None
        if match is None:
            has = repr(lines[at][:60]) if at < len(lines) else "the end"
            raise BadAnswer(f"line {number + at}: expected a line of a report, found {has}", number + at)
        found.append(match.groups())
    (now, mask, no_class), (classes, map_, queues), *changes = found
    pairs = tuple((int(size), int(first)) for size, first in re.findall(r"(\d+)@(\d+)", queues or ""))
    classified = None if classes is None else int(classes), None if map_ is None else tuple(map(int, map_.split()))
    return Report(int(now), int(mask, 16), int(no_class), *classified, pairs or None, *(_change(it[0]) for it in changes))


# The lines that there are many of, each read by one call for the whole text; the last part is any other line.
_MANY_ANSWERS = re.compile(r"queued (\d+) class (\d+)$|start (\d+) class (\d+) at (\d+) end (\d+)$|dropped (\d+) (\w+)$|(.+)$", re.ASCII | re.MULTILINE)
_MANY_LINES = re.compile(r"frame (\d+) (\d+) (\d+)(?: tagged)?$|clock (\d+)$|(.+)$", re.ASCII | re.MULTILINE)

_Kind = TypeVar("_Kind")


def _made(kind: type[_Kind], values: dict[str, Any]) -> _Kind:
    """An object of these values. (The `__init__` of a frozen class takes most of the time of a long run.)"""
    made = object.__new__(kind)
    object.__setattr__(made, "__dict__", values)
    return made


def _answers(text: str) -> tuple[Answer, ...]:
    """The answers of a text."""
    lines = text.removesuffix("\n").split("\n") if text else []
    found: list[Answer] = []
    at = 0
    while at < len(lines):
        if lines[at].startswith("report "):
            found.append(_report(lines[at : at + len(_REPORT)], at + 1))
            at += len(_REPORT)
        else:
            found.append(_answer(lines[at], at + 1))
            at += 1
    return tuple(found)


def _arrival(words: list[str]) -> list[int] | None:
    """The numbers of a line `clock` or `frame`, or None where it is malformed."""
    numbers = words[1:-1] if words[-1] == "tagged" else words[1:]
    if not all(word.isascii() and word.isdigit() for word in numbers) or len(numbers) != (1 if words[0] == "clock" else 3):
        return None
    return [int(it) for it in numbers]


def _arrivals(script: Octets) -> list[tuple[int, int, int, int]]:
    """The frames of a script, up to its first malformed line: the moment, the id, the priority and the length."""
    now, found = 0, []
    text = octets(script).decode("utf-8", "replace")
    if "\\" in text:
        # (lines that go on in the next one)
        text = "\n".join(" ".join(words) for _, words in logical_lines(text))
    for id, priority, length, clock, other in _MANY_LINES.findall(text):
        if other:
            words = re.split(r"[ \t\r]+", other.strip(" \t\r"))
            if words[0] not in ("clock", "frame"):
                continue
            numbers = _arrival(words)
            if numbers is None:
                break
            if words[0] == "frame":
                found.append((now, numbers[0], numbers[1], numbers[2]))
            else:
                now = max(now, numbers[0])
        elif clock:
            now = max(now, int(clock))
        else:
            found.append((now, int(id), int(priority), int(length)))
    return found


def read_run(answers: Octets, script: Octets | None = None) -> Run:
    """The answers of a script, or the report of a replay. With the script that was run, it is known when each frame arrived.

    A text that a run doesn't write raises `BadAnswer`; the answers of another script do too."""
    run = of_answers(answers, script)
    # (what is wrong with them is said here)
    assert isinstance(run.answers, tuple) and isinstance(run.frames, tuple)
    return run


def of_answers(answers: Octets, script: Octets | None = None) -> Run:
    """The same for answers that a run has just given: they are read when they are asked for."""
    text = octets(answers).decode("utf-8", "replace").replace("\r\n", "\n")
    return Run(text, None if script is None else octets(script))


def _frames(text: str, arrivals: list[tuple[int, int, int, int]] | None) -> tuple[Frame, ...]:
    """The frames of a run, in the order of their arrival. Those of a class leave in that order."""
    found: list[dict[str, Any]] = []
    waiting: dict[str, deque[dict[str, Any]]] = {}
    for queued, class_, started, of_class, at, end, dropped, name, other in _MANY_ANSWERS.findall(text):
        if other:
            continue
        if started:
            line = waiting.get(of_class)
            one = line.popleft() if line else None
            if one is None or one["id"] != int(started):
                raise BadAnswer(f"frame {started} starts, and isn't the first of its class", 0)
            one["start"], one["end"] = int(at), int(end)
            if one["arrived"] is not None:
                one["wait"] = one["start"] - one["arrived"]
            continue
        id = int(queued or dropped)
        arrived = priority = length = None
        if arrivals is not None:
            if len(found) >= len(arrivals) or arrivals[len(found)][1] != id:
                raise BadAnswer(f"frame {id} is answered, and the script has another one there", 0)
            arrived, _, priority, length = arrivals[len(found)]
        one = {
            "id": id,
            "traffic_class": int(class_) if queued else None,
            "arrived": arrived,
            "start": None,
            "end": None,
            "wait": None,
            "dropped": name or None,
            "priority": priority,
            "length": length,
            "stream": None,
            "met": None,
        }
        found.append(one)
        if queued:
            waiting.setdefault(class_, deque()).append(one)
    return tuple([_made(Frame, one) for one in found])


_HEAD = "id,class,len,arrival_ps,start_ps,end_ps,wait_ps,fate"
_ROW = r"^(\d+),(\d?),(\d+),(\d+),(?:(\d+),(\d+),(\d+),sent|,,,(left|[A-Z]\w*))"
# Each head, and its rows; where there is no such column, it is empty.
_TABLES = {
    _HEAD: re.compile(f"{_ROW}()()$", re.ASCII | re.MULTILINE),
    f"{_HEAD},stream": re.compile(rf"{_ROW},(\d*)()$", re.ASCII | re.MULTILINE),
    f"{_HEAD},stream,deadline": re.compile(rf"{_ROW},(\d*),(|met|missed)$", re.ASCII | re.MULTILINE),
}


class Frames(Sequence[Frame]):
    """The frames of a table, which are read here as a tuple has them. Each is made where it is asked for, so many of them take little time
    and memory: `list(frames)` keeps them."""

    def __init__(self, table: list[tuple[str, ...]]) -> None:
        self._table = table

    def __len__(self) -> int:
        return len(self._table)

    @overload
    def __getitem__(self, at: int) -> Frame: ...

    @overload
    def __getitem__(self, at: slice) -> Frames: ...

    def __getitem__(self, at: int | slice) -> Frame | Frames:
        return Frames(self._table[at]) if isinstance(at, slice) else _frame(*self._table[at])

    def __iter__(self) -> Iterator[Frame]:
        return itertools.starmap(_frame, self._table)

    def __eq__(self, other: object) -> bool:
        if not isinstance(other, (Frames, tuple)):
            return NotImplemented
        return len(self) == len(other) and all(one == it for one, it in zip(self, other))

    def __hash__(self) -> int:
        return hash(tuple(self))

    def __repr__(self) -> str:
        return repr(tuple(self))


def read_frames(table: Octets) -> Frames:
    """The frames of a table that `frames` writes, in its order: a dropped frame stands where it came, one that was sent where it started, and
    those that are left at the end. A text that is no such table raises `BadAnswer`."""
    head, _, text = octets(table).decode("utf-8", "replace").replace("\r\n", "\n").partition("\n")
    if head not in _TABLES:
        raise BadAnswer(f"line 1: expected the head of a table of frames, found {head[:60]!r}", 1)
    row = _TABLES[head]
    found = row.findall(text)
    lines = text.count("\n") + (not text.endswith("\n")) if text else 0
    if len(found) != lines:
        number, line = next((number, line) for number, line in enumerate(text.split("\n"), 2) if not row.fullmatch(line))
        raise BadAnswer(f"line {number}: expected a row of a table of frames, found {line[:60]!r}", number)
    return Frames(found)


def _frame(
    id: str, class_: str, length: str, arrived: str, start: str, end: str, wait: str, fate: str, stream: str, deadline: str
) -> Frame:
    """The frame of a row."""
    values = {
        "id": int(id),
        "traffic_class": int(class_) if class_ else None,
        "arrived": int(arrived),
        "start": int(start) if start else None,
        "end": int(end) if start else None,
        "wait": int(wait) if start else None,
        "dropped": None if fate == "left" else fate or None,
        "priority": None,
        "length": int(length),
        "stream": int(stream) if stream else None,
        "met": deadline == "met" if deadline else None,
    }
    return _made(Frame, values)


_WINDOW = re.compile(
    r"window class (\d+) open (\d+|always) closed (\d+) share (\d+) of (\d+) frame (\d+|none|any)"
    r"(?: wait (\d+|none)(?: length (\d+) wait (\d+|none))?)?"
)
_NEVER = re.compile(r"never (\d+)")
_APART = re.compile(r"apart ((?:\d )*\d|none)")
_SHARES = re.compile(r"shares (\d) with ((?:\d )*\d)")


def _wait_of(text: str | None) -> int | None:
    return None if text in (None, "none") else int(text)


def _window(found: re.Match[str]) -> Window:
    """The window of a line about a class."""
    class_, open_, closed, share, cycle, frame, wait, length, length_wait = found.groups()
    return Window(
        int(class_),
        None if open_ == "always" else int(open_),
        int(closed),
        int(share),
        int(cycle),
        None if frame == "any" else 0 if frame == "none" else int(frame),
        _wait_of(wait),
        _number(length),
        _wait_of(length_wait),
    )


def read_check(answers: Octets) -> Check:
    """What a check tells of each schedule, with and without windows and what is shared. A text that no check writes raises `BadAnswer`."""
    found: list[Checked] = []
    for number, line in enumerate(octets(answers).decode("utf-8", "replace").splitlines(), 1):
        apart, shares, window, never = (form.fullmatch(line) for form in (_APART, _SHARES, _WINDOW, _NEVER))
        last = found[-1] if found and found[-1].apart is not None else None
        if apart:
            found.append(Checked(() if apart[1] == "none" else tuple(map(int, apart[1].split()))))
        elif shares and last:
            one = Shares(int(shares[1]), tuple(map(int, shares[2].split())))
            found[-1] = dataclasses.replace(last, shares=(*last.shares, one))
        elif window and last:
            found[-1] = dataclasses.replace(last, windows=(*last.windows, _window(window)))
        elif never and last:
            found[-1] = dataclasses.replace(last, never=(*last.never, int(never[1])))
        else:
            answer = _answer(line, number)
            if not isinstance(answer, (Refused, TcFault)):
                raise BadAnswer(f"line {number}: expected an answer of a check, found {line[:60]!r}", number)
            found.append(Checked(None, (), answer))
    return Check(tuple(found))


_CLASS = re.compile(
    r"class (\d+) (?:(blocked|overloaded|long|late|stuck)|open to ((?:\d )*\d)|behind (\d)|(within )?most (\d+) of (\d+)(?(5)| frames (\d+) every (\d+))"
    r"|(?=full|stuck)(?:(stuck) at (\d+) stream (\d+) frame (\d+))? ?(?:(full) at (\d+) stream (\d+) frame (\d+))?)"
)
_BOUND = re.compile(
    r"bound (\d+) (?:class (\d+) (?:(none|unknown)|(wait|within) (\d+) to (\d+) end (\d+) to (\d+))|dropped (\w+))"
    r"(?: deadline (\d+) (met|missed|unknown))?"
)


_SILENT = re.compile(r"silent((?: \d)*)")
_SLACK = re.compile(r"slack (\d+) (?:none|jitter (\d+))")
_WHY = re.compile(r"why (\d+) gates (\d+) blocking (\d+) higher (\d+) queue (\d+)")


def _number(text: str | None) -> int | None:
    return None if text is None else int(text)


def _classes(text: str) -> tuple[int, ...]:
    return tuple(map(int, text.split()))


def _verdict(found: re.Match[str]) -> ClassVerdict:
    """The verdict of a line about a class."""
    class_, word, open_to, behind, within, most, room, frames, every, stuck, stuck_at, stuck_stream, stuck_frame, full, at, stream, frame = found.groups()
    shared = "open" if open_to else "behind" if behind else None
    numbers = (most, room, frames, every, at, stream, frame, stuck_at, stuck_stream, stuck_frame)
    return ClassVerdict(
        int(class_),
        word or shared or stuck or full or ("within" if within else "bounded"),
        *map(_number, numbers),
        open_to=_classes(open_to or ""),
        behind=_number(behind),
    )


def _bound(found: re.Match[str]) -> StreamBound:
    """The bounds of a line about a stream."""
    first_id, class_, word, kind, *times, dropped, deadline, met = found.groups()
    least_wait, greatest_wait, least_end, greatest_end = map(_number, times)
    return StreamBound(
        int(first_id),
        _number(class_),
        word or ("dropped" if dropped else "within" if kind == "within" else "bounded"),
        least_wait,
        greatest_wait,
        least_end,
        greatest_end,
        dropped,
        _number(deadline),
        {"met": True, "missed": False}.get(met),
    )


def read_bounds(answers: Octets) -> Bounds:
    """What bounds tell of each schedule. A text that no bounds write raises `BadAnswer`."""
    found: list[Bounded] = []
    for number, line in enumerate(octets(answers).decode("utf-8", "replace").splitlines(), 1):
        apart, silent, verdict, bound, slack, why = (form.fullmatch(line) for form in (_APART, _SILENT, _CLASS, _BOUND, _SLACK, _WHY))
        last = found[-1] if found and found[-1].apart is not None else None
        if apart:
            found.append(Bounded(() if apart[1] == "none" else _classes(apart[1])))
        elif silent and last and last == Bounded(last.apart):
            found[-1] = dataclasses.replace(last, silent=_classes(silent[1]))
        elif verdict and last and not last.streams:
            found[-1] = dataclasses.replace(last, classes=(*last.classes, _verdict(verdict)))
        elif bound and last:
            found[-1] = dataclasses.replace(last, streams=(*last.streams, _bound(bound)))
        elif slack and last and last.streams and last.streams[-1].first_id == int(slack[1]):
            stream = dataclasses.replace(last.streams[-1], slack=_number(slack[2]))
            found[-1] = dataclasses.replace(last, streams=(*last.streams[:-1], stream))
        elif why and last and last.streams and last.streams[-1].first_id == int(why[1]):
            parts = zip(("gates", "blocking", "higher", "queue"), map(int, why.groups()[1:]))
            stream = dataclasses.replace(last.streams[-1], **dict(parts))
            found[-1] = dataclasses.replace(last, streams=(*last.streams[:-1], stream))
        else:
            answer = _answer(line, number)
            if not isinstance(answer, (Refused, TcFault)):
                raise BadAnswer(f"line {number}: expected an answer of bounds, found {line[:60]!r}", number)
            found.append(Bounded(None, fault=answer))
    return Bounds(tuple(found))


_PORT = re.compile(r"port ([^ /]+)")
_UNHEARD = re.compile(r"class (\d) (cyclic|unknown)")
_HOP = re.compile(r"hop (\d+)(?: ([^ /]+))? class (\d) within (\d+) to (\d+)")
_PATH = re.compile(r"path (\d+) end (\d+) to (\d+)(?: deadline (\d+) (met|missed|unknown))?")
_STOP = re.compile(r"path (\d+) (none|unknown)(?: at ([^ /]+))?")
_CYCLIC = re.compile(r"cyclic(?: [^ /]+/\d)+")


def _hop(found: re.Match[str]) -> Hop:
    """The wait of a line about a stream at a port."""
    first_id, port, class_, least, greatest = found.groups()
    return Hop(int(first_id), port, int(class_), int(least), int(greatest))


def _path(found: re.Match[str]) -> PathBound:
    """The ends of a line about a way that goes to its end."""
    first_id, least, greatest, deadline, met = found.groups()
    return PathBound(int(first_id), "within", int(least), int(greatest), _number(deadline), {"met": True, "missed": False}.get(met))


def _circles(line: str) -> tuple[tuple[str, int], ...]:
    """The classes of a line about circles."""
    return tuple((name, int(class_)) for name, _, class_ in (word.partition("/") for word in line.split(" ")[1:]))


class _PathsReader:
    """Reads what paths tell, line by line: ports, circles, and the ways with their hops, in this order."""

    def __init__(self) -> None:
        self.ports: list[PortBounds] = []
        self.name: str | None = None
        self.is_named = False
        self.cyclic: tuple[tuple[str, int], ...] = ()
        self.hops: list[Hop] = []
        self.paths: list[PathBound] = []

    def take(self, line: str) -> bool:
        """Takes a line, where it may stand there."""
        if self._take_way(line):
            return True
        return not (self.cyclic or self.hops or self.paths) and (self._take_head(line) or self._take_of_port(line))

    def _take_head(self, line: str) -> bool:
        """The lines with which a port begins: its name, which only an only port lacks, and what its schedule keeps apart."""
        port, apart = _PORT.fullmatch(line), _APART.fullmatch(line)
        if port and not self.is_named and (self.name or not self.ports):
            self.name, self.is_named = port[1], True
        elif apart and (self.is_named or not self.ports):
            self.ports.append(PortBounds(self.name, () if apart[1] == "none" else _classes(apart[1])))
            self.is_named = False
        else:
            return False
        return True

    def _take_of_port(self, line: str) -> bool:
        """What is told of the last port."""
        if not self.ports or self.is_named:
            return False
        last = self.ports[-1]
        silent, verdict, unheard, cyclic = (form.fullmatch(line) for form in (_SILENT, _CLASS, _UNHEARD, _CYCLIC))
        if silent and not last.silent and not last.classes:
            self.ports[-1] = dataclasses.replace(last, silent=_classes(silent[1]))
        elif verdict:
            self.ports[-1] = dataclasses.replace(last, classes=(*last.classes, _verdict(verdict)))
        elif unheard:
            self.ports[-1] = dataclasses.replace(last, classes=(*last.classes, ClassVerdict(int(unheard[1]), unheard[2])))
        elif cyclic:
            self.cyclic = _circles(line)
        else:
            return False
        return True

    def _take_way(self, line: str) -> bool:
        """What is told of a stream."""
        if not self.ports or self.is_named:
            return False
        hop, path, stop = (form.fullmatch(line) for form in (_HOP, _PATH, _STOP))
        if hop:
            self.hops.append(_hop(hop))
        elif path:
            self.paths.append(_path(path))
        elif stop:
            self.paths.append(PathBound(int(stop[1]), stop[2], at=stop[3]))
        else:
            return False
        return True


def read_paths(answers: Octets) -> Paths:
    """What paths tell of a network. A text that no paths write raises `BadAnswer`."""
    reader = _PathsReader()
    text = octets(answers).decode("utf-8", "replace").replace("\r\n", "\n")
    lines = text.removesuffix("\n").split("\n")
    for number, line in enumerate(lines, 1):
        if not reader.take(line):
            raise BadAnswer(f"line {number}: expected an answer of paths, found {line[:60]!r}", number)
    if reader.is_named:
        raise BadAnswer(f"line {len(lines) + 1}: expected what port {reader.name} keeps apart, found the end", len(lines) + 1)
    return Paths(tuple(reader.ports), tuple(reader.hops), tuple(reader.paths), reader.cyclic)
