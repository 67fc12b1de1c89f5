"""What goes wrong, as exceptions, and what a replay gives. All of it survives pickle and copies: a fault crosses a pool of processes."""

from __future__ import annotations

import operator
import re
from typing import Any, NamedTuple

__all__ = ["BadAnswer", "BadCapture", "BadInput", "BadSchedule", "BadValue", "LeftOut", "LibraryMissing", "NoPlan", "Refused", "Replay", "TaprioError"]

NO_PLAN, BAD_VALUE, BAD_INPUT, NO_MEMORY, NO_ROOM = 1, 2, 3, 4, 5
_BEFORE = "taprio_port: "
# (a network's faults may name ports or another line behind their names, and its schedules' what a port answers before it)
_PLACE = re.compile(r"(\w+) (\w+)(?: (\d+))?: (?:refused |tc-fault )?(\w+)(?: .+)?")


def index(value: object) -> int | None:
    """A whole number: an `int`, or what stands for one, such as those of numpy; None of anything else, and of a truth."""
    if isinstance(value, bool):
        return None
    try:
        return operator.index(value)  # type: ignore[arg-type]
    except TypeError:
        return None


class Replay(NamedTuple):
    """What a replay gives: the `report`, and `departures`, the capture of the frames that leave; a pair of both."""

    report: bytes
    """The lines of answers."""
    departures: bytes
    """The frames that leave, as a classic pcap."""


class TaprioError(Exception):
    """A call did not do what it was asked for. Its text is that of the program, without its name."""


class BadValue(TaprioError, ValueError):
    """A value is out of its limits. `option` is the program's option for it, such as "--mtu", or the attribute of a `Stream`."""

    def __init__(self, text: str, option: str) -> None:
        super().__init__(text)
        self.option = option

    def __reduce__(self) -> tuple[Any, ...]:
        return type(self), (self.args[0], self.option), self.__dict__


class BadInput(TaprioError, ValueError):
    """An input has a fault.

    `input` is "script" (also for schedules), "table" or "capture", and of `paths` "network" or "schedules". `line` is the number of the
    line, from 1, `record` that of a record of a capture, from 0; both are None at a fault of a capture's header. `name` is the fault's
    name, also where a port refuses a schedule, and `output` what was told before it: octets, or of a replay a `Replay`.
    """

    def __init__(self, text: str, kind: str, line: int | None, record: int | None, name: str, output: bytes | Replay) -> None:
        super().__init__(text)
        self.input = kind
        self.line = line
        self.record = record
        self.name = name
        self.output = output

    def __reduce__(self) -> tuple[Any, ...]:
        return type(self), (self.args[0], self.input, self.line, self.record, self.name, self.output), self.__dict__


class LibraryMissing(TaprioError, OSError):
    """The shared object can't be loaded. The text says which file was looked for, and what to do."""


class NoPlan(TaprioError, ValueError):
    """No schedule is found by which the streams meet their deadlines. `reason` is why, as `plan` says it: "none deadline 1". It stands in the
    text, too."""

    def __init__(self, text: str, reason: str) -> None:
        super().__init__(text)
        self.reason = reason

    def __reduce__(self) -> tuple[Any, ...]:
        return type(self), (self.args[0], self.reason), self.__dict__


class Refused(TaprioError, ValueError):
    """A port did not accept a command, and nothing has changed.

    `name` is why, such as "Busy" (docs/errors.md). `traffic_class` is the class of "SduTooLarge", `entry` the index of the entry of
    "IntervalTooShort", and `moment` the lead moment of "Busy", in picoseconds; else they are None.
    """

    def __init__(self, name: str, traffic_class: int | None = None, entry: int | None = None, moment: int | None = None) -> None:
        more = [str(it) for it in (traffic_class, entry, moment) if it is not None]
        super().__init__(" ".join(["refused", name, *more]))
        self.name = name
        self.traffic_class = traffic_class
        self.entry = entry
        self.moment = moment

    def __reduce__(self) -> tuple[Any, ...]:
        return type(self), (self.name, self.traffic_class, self.entry, self.moment), self.__dict__


class BadSchedule(TaprioError, ValueError):
    """A document has no schedule that can be read, or a schedule can't be said in another form.

    `place` is where: a line, or the path in a JSON document. `expected` is what should stand there, and `found` what does. Of a `tc`
    line `name` is what the port says of it behind `tc-fault`, such as "BadNumber 14"; else it is None.
    """

    def __init__(self, place: str, expected: str, found: str, name: str | None = None) -> None:
        super().__init__(f"{place}: expected {expected}, found {found}" + (f" ({name})" if name else ""))
        self.place = place
        self.expected = expected
        self.found = found
        self.name = name

    def __reduce__(self) -> tuple[Any, ...]:
        return type(self), (self.place, self.expected, self.found, self.name), self.__dict__


class BadAnswer(TaprioError, ValueError):
    """A text is none that a job writes. `line` is the number of the line, from 1."""

    def __init__(self, text: str, line: int) -> None:
        super().__init__(text)
        self.line = line

    def __reduce__(self) -> tuple[Any, ...]:
        return type(self), (self.args[0], self.line), self.__dict__


class BadCapture(TaprioError, ValueError):
    """A file is no capture that can be replayed. The text says what it is, and what to do, or which block of a pcapng can't be read.

    `block` is the number of that block and `place` that of its first octet, both from 0, `name` the fault's name, such as "ShortBlock" or
    "BadLink 113" (docs/errors.md), and `output` the classic pcap of the packets before it. Else they are None.
    """

    def __init__(
        self, text: str, block: int | None = None, place: int | None = None, name: str | None = None, output: bytes | None = None
    ) -> None:
        super().__init__(text)
        self.block = block
        self.place = place
        self.name = name
        self.output = output

    def __reduce__(self) -> tuple[Any, ...]:
        return type(self), (self.args[0], self.block, self.place, self.name, self.output), self.__dict__


class LeftOut(UserWarning):
    """Something of a document has no counterpart, and was left out. The text says where, and what."""


def of_text(status: int, text: str, output: bytes | Replay) -> TaprioError:
    """The exception of a text that the library or the program has told, with its status."""
    text = text.rstrip("\n").removeprefix(_BEFORE)
    if status == NO_PLAN and isinstance(output, bytes):
        reason = output.decode("utf-8", "replace").rstrip("\n")
        return NoPlan(f"{text}: {reason}", reason)
    if status == BAD_VALUE and text.startswith("bad value of "):
        return BadValue(text, text.rpartition(" ")[2])
    found = _PLACE.fullmatch(text) if status == BAD_INPUT else None
    if not found:
        return TaprioError(text)
    kind, place, number, name = found.groups()
    at = None if number is None else int(number)
    return BadInput(text, kind, at if place == "line" else None, at if place == "record" else None, name, output)
