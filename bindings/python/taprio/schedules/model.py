"""A schedule, and where it was found."""

from __future__ import annotations

import contextlib
import dataclasses
import re
from collections.abc import Iterable, Iterator, Mapping, Sequence, Set
from typing import Any, Literal, NamedTuple, NoReturn

from ..faults import BadSchedule, index

__all__ = ["CLOCKS", "Configured", "Entry", "Ranges", "Schedule", "Side", "device_word"]

CLOCKS = ("REALTIME", "MONOTONIC", "BOOTTIME", "TAI")
CLASSES, PRIORITIES, MOST_ENTRIES = 8, 16, 256
U8, U16, U32, U64 = 2**8 - 1, 2**16 - 1, 2**32 - 1, 2**64 - 1

Side = Literal["oper", "admin"]


class Entry(NamedTuple):
    """An entry of a gate control list."""

    gates: int
    """The open gates: bit c is class c. 0 to 255."""
    interval: int
    """For how many nanoseconds. 1 to 2^32 - 1."""


class Ranges(NamedTuple):
    """The queues of a class, as `COUNT@OFFSET` of a `tc` line."""

    size: int
    offset: int


def fault(place: str, expected: str, found: object) -> NoReturn:
    """Says that something else stands somewhere than should."""
    raise BadSchedule(place, expected, str(found))


def whole(value: object, place: str, least: int, most: int, unit: str = "") -> int:
    """A whole number within limits."""
    given = index(value)
    if given is None or not least <= given <= most:
        fault(place, f"a whole number from {least} to {most}{unit}", value)
    return given


def listed(values: object, name: str, expected: str) -> list[Any]:
    """What stands in a sequence. What has no order, or says something by its keys, is none."""
    if isinstance(values, (Mapping, Set, str, bytes)) or not isinstance(values, Iterable):
        raise TypeError(f"{name}: expected {expected}, found {type(values).__name__}")
    return list(values)


@dataclasses.dataclass(frozen=True, init=False)
class Schedule:
    """A gate schedule: which gates are open when. All times are whole numbers of nanoseconds.

    A value that no `tc` line could say raises `BadSchedule`. What only the port refuses (an interval that is shorter than a frame, a
    cycle over 2^40 ns) does not.
    """

    entries: tuple[Entry, ...]
    """1 to 256 entries of gates and interval."""
    base_time: int
    """When a cycle starts, in nanoseconds."""
    cycle: int
    """How long a cycle takes, in nanoseconds; 0 is the sum of the intervals (`cycle_time` has it either way)."""
    extension: int
    """By how many nanoseconds the last cycle before a change may be longer."""
    map: tuple[int, ...] | None
    """The class of each of 16 priorities, or None where the schedule doesn't say it. Missing ones are class 0."""
    classes: int | None
    """How many classes there are, 1 to 8; by default the least number that `map` needs. None without a map."""
    queues: tuple[Ranges, ...] | None
    """The queues of each class. They have no effect on the port."""
    max_sdu: tuple[int, ...] | None
    """The longest service data unit of each class from 0 up, in octets; 0, or a missing one, is no limit. None leaves the limits as they
    are."""
    clock: str | None
    """The clock of a `tc` line, such as "TAI". It has no effect on the port."""
    flags: int
    """The flags of a `tc` line: 0, or 2 (the network card opens the gates). They have no effect on the port."""

    def __init__(
        self,
        entries: Iterable[tuple[int, int]],
        base_time: int = 0,
        cycle: int = 0,
        extension: int = 0,
        map: Sequence[int] | None = None,
        classes: int | None = None,
        queues: Iterable[tuple[int, int]] | None = None,
        max_sdu: Sequence[int] | None = None,
        clock: str | None = None,
        flags: int = 0,
    ) -> None:
        def put(name: str, value: object) -> None:
            object.__setattr__(self, name, value)

        pairs = listed(entries, "entries", "a sequence of pairs of gates and interval")
        put("entries", tuple(_entry(number, entry) for number, entry in enumerate(pairs)))
        if not 1 <= len(self.entries) <= MOST_ENTRIES:
            fault("entries", f"1 to {MOST_ENTRIES} entries", len(self.entries))
        put("base_time", whole(base_time, "base_time", 0, U64, " nanoseconds"))
        put("cycle", whole(cycle, "cycle", 0, U64, " nanoseconds"))
        put("extension", whole(extension, "extension", 0, U64, " nanoseconds"))
        put("map", None)
        put("classes", None)
        if map is not None:
            map = listed(map, "map", "a sequence of the class of each priority, such as [0, 0, 0, 0, 0, 0, 1, 0]")
            if not 1 <= len(map) <= PRIORITIES:
                fault("map", f"1 to {PRIORITIES} classes", len(map))
            most = CLASSES if classes is None else whole(classes, "classes", 1, CLASSES)
            padded = tuple(whole(it, f"map of priority {at}", 0, most - 1) for at, it in enumerate(map)) + (0,) * (
                PRIORITIES - len(map)
            )
            put("map", padded)
            put("classes", max(padded) + 1 if classes is None else most)
        elif classes is not None:
            fault("classes", "a map with it", "none")
        put("queues", None)
        if queues is not None:
            put("queues", _ranges(self.classes, listed(queues, "queues", "a sequence of pairs of count and offset, one for each class")))
        put("max_sdu", None)
        if max_sdu is not None:
            max_sdu = listed(max_sdu, "max_sdu", "a sequence of the octets of each class from 0 up")
            if not 1 <= len(max_sdu) <= PRIORITIES:
                fault("max_sdu", f"1 to {PRIORITIES} numbers of octets", len(max_sdu))
            sizes = [whole(it, f"max_sdu of class {at}", 0, U32, " octets") for at, it in enumerate(max_sdu)]
            sizes = sizes[:CLASSES]
            while len(sizes) > 1 and not sizes[-1]:
                sizes.pop()
            put("max_sdu", tuple(sizes))
        put("clock", None)
        if clock is not None:
            name = clock.upper().removeprefix("CLOCK_")
            if name not in CLOCKS:
                fault("clock", f"one of {', '.join(CLOCKS)}", clock)
            put("clock", name)
        if flags not in (0, 2):
            fault("flags", "0 or 2", flags)
        put("flags", int(flags))

    @property
    def cycle_time(self) -> int:
        """How long a cycle takes, in nanoseconds."""
        return self.cycle or sum(entry.interval for entry in self.entries)

    def with_cycle(self) -> Schedule:
        """The same schedule with its cycle said, as other forms than a `tc` line have it."""
        return dataclasses.replace(self, cycle=self.cycle_time)

    def tc(self, device: str = "eth0", verb: str = "replace") -> str:
        """The schedule as one `tc` line, without a newline."""
        from .tc import line

        return line(self, device, verb)


@dataclasses.dataclass(frozen=True)
class Configured:
    """A schedule of a document, and of what it is."""

    schedule: Schedule
    device: str | None = None
    """The interface; None where the document doesn't say it."""
    side: Side = "admin"
    """"oper" is in force, "admin" is what is set, or comes into force next."""
    place: str = ""
    """Where it stands in its document."""


class Parts:
    """The parts of a document, of which those of one device may be wanted: a fault of another device's is passed over then."""

    def __init__(self, wanted: str | None) -> None:
        self.wanted = wanted
        self.fault: BadSchedule | None = None

    @contextlib.contextmanager
    def of(self, device: str | None) -> Iterator[None]:
        """Reads what is said of a device."""
        try:
            yield
        except BadSchedule as fault:
            if self.wanted is None or device in (None, self.wanted):
                raise
            self.fault = self.fault or fault

    def nothing(self, place: str, expected: str, found: str) -> NoReturn:
        """Says that there is no schedule: by the fault that was passed over, where there is one."""
        raise self.fault or BadSchedule(place, expected, found)


def placed(place: str, *values: Any, **named: Any) -> Schedule:
    """A schedule of what was read at a place of a document, which a fault then names."""
    try:
        return Schedule(*values, **named)
    except BadSchedule as wrong:
        raise BadSchedule(f"{place}: {wrong.place}", wrong.expected, wrong.found) from None


def _entry(number: int, entry: tuple[int, int]) -> Entry:
    try:
        gates, interval = entry
    except (TypeError, ValueError):
        raise TypeError(f"entry {number}: expected a pair of gates and interval, found {entry!r}") from None
    return Entry(
        whole(gates, f"gates of entry {number}", 0, U8), whole(interval, f"interval of entry {number}", 1, U32, " nanoseconds")
    )


def _ranges(classes: int | None, queues: Iterable[tuple[int, int]]) -> tuple[Ranges, ...]:
    if classes is None:
        fault("queues", "a map with them", "none")
    found = []
    for number, (count, offset) in enumerate(queues):
        found.append(
            Ranges(whole(count, f"queues of class {number}", 1, U16), whole(offset, f"queues of class {number}", 0, U16))
        )
    if len(found) != classes:
        fault("queues", f"a range for each of {classes} classes", f"{len(found)}")
    for number, one in enumerate(found):
        for other in found[:number]:
            if one.offset < other.offset + other.size and other.offset < one.offset + one.size:
                fault(f"queues of class {number}", "queues that no other class has", f"{one.size}@{one.offset}")
    return tuple(found)


def default_ranges(classes: int) -> tuple[Ranges, ...]:
    """One queue for each class, as a port has them that is told nothing else."""
    return tuple(Ranges(1, number) for number in range(classes))


def device_word(device: str | None, otherwise: str = "eth0") -> str:
    """A device as one word of a `tc` line: blanks in its name are underscores there."""
    return re.sub(r"\s", "_", device) if device else otherwise


def before_tc(words: list[str]) -> str:
    """How to go on with a line that is perhaps pasted from a shell, where something stands before its `tc`; else nothing."""
    is_command = [(word == "tc" or word.endswith("/tc")) and behind == "qdisc" for word, behind in zip(words, words[1:])]
    if words[0] == "tc" or not any(is_command):
        return ""
    return "; leave out what stands before tc, such as a prompt, sudo or a path"


_OF_SHELLS = {"\\": "; nothing may stand behind the backslash that joins the next line", ">": "; leave out the prompt of the shell"}


def of_shell(word: str) -> str:
    """How to go on with a word that has what a shell alone reads; else nothing."""
    if word in _OF_SHELLS:
        return _OF_SHELLS[word]
    if word.endswith(";"):
        return "; leave out the semicolon"
    return "; leave out the quotation marks" if word[0] in "\"'" else ""


def logical_lines(text: str) -> Iterator[tuple[int, list[str]]]:
    """The words of each line that has some, with its number, from 1. A backslash before the end of a line takes the next one into it."""
    first, joined = 1, ""
    lines = text.split("\n")
    for number, line in enumerate(lines, 1):
        bare = line.removesuffix("\r")
        if bare.endswith("\\") and number < len(lines):
            joined += bare[:-1] + " "
            continue
        words = re.split(r"[ \t\r]+", (joined + line).strip(" \t\r"))
        if words != [""]:
            yield first, words
        first, joined = number + 1, ""
