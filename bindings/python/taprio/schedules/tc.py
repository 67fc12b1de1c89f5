"""`tc` lines, by the grammar of docs/reference/tc.md."""

from __future__ import annotations

import re
import warnings
from collections.abc import Iterable
from typing import NoReturn

from ..faults import BadSchedule, LeftOut
from .model import CLASSES, CLOCKS, MOST_ENTRIES, PRIORITIES, U8, U16, U32, U64, Configured, Parts, Schedule, before_tc, device_word, logical_lines, of_shell

__all__ = ["line", "read_tc", "write_tc"]

VERBS = ("add", "replace", "change")
TIMES = ("base-time", "cycle-time", "cycle-time-extension")
OPTIONS = ("num_tc", "map", "queues", *TIMES, "sched-entry", "clockid", "flags", "max-sdu")
# what options do that set no gate
UNSERVED = {
    "txtime-delay": "txtime-delay is for launch times (txtime assist)",
    "fp": "fp says which classes are preemptible (frame preemption)",
}
_ALL_DIGITS = re.compile(r"[0-9]+")
_RANGE = re.compile(r"([0-9]+)@([0-9]+)")
_HEX = re.compile(r"(?:0x)?([0-9a-fA-F]+)")


class _Words:
    """The words of a line, of which some are read."""

    def __init__(self, number: int, words: list[str]) -> None:
        self.place = f"line {number}"
        self.words = words
        self.at = 0

    def fault(self, name: str, expected: str, at: int | None = None) -> NoReturn:
        """Says what is wrong, by the name that the port has for it."""
        place = self.place if at is None else f"{self.place}, word {at}"
        found = "the end of the line" if at is None or at >= len(self.words) else repr(self.words[at]) + of_shell(self.words[at])
        raise BadSchedule(place, expected, found, name)

    def wrong(self, name: str, expected: str, found: str) -> NoReturn:
        """Says what is wrong with the line as a whole."""
        raise BadSchedule(self.place, expected, found, name)

    def next(self, option: str) -> str:
        """The word behind an option."""
        if self.at >= len(self.words):
            self.fault(f"MissingWord {option}", f"a word behind {option}")
        self.at += 1
        return self.words[self.at - 1]

    def number(self, text: str, most: int, at: int) -> int:
        """A decimal number that is not over a limit."""
        if not _ALL_DIGITS.fullmatch(text) or len(text.lstrip("0")) > 20 or int(text.lstrip("0") or "0") > most:
            self.fault(f"BadNumber {at}", f"a decimal number from 0 to {most}", at)
        return int(text.lstrip("0") or "0")

    def hexadecimal(self, text: str, most: int, at: int) -> int:
        """A hexadecimal number that is not over a limit."""
        found = _HEX.fullmatch(text)
        digits = found[1].lstrip("0") if found else ""
        if not found or len(digits) > 8 or int(digits or "0", 16) > most:
            self.fault(f"BadNumber {at}", f"a hexadecimal number from 0 to {most:x}", at)
        return int(digits or "0", 16)

    def run(self, option: str, shape: re.Pattern[str]) -> list[int]:
        """The positions of the longest run of words of a shape behind an option; at least one."""
        first = self.at
        while self.at < len(self.words) and shape.fullmatch(self.words[self.at]):
            self.at += 1
        if self.at == first:
            self.fault(f"MissingWord {option}", f"a value behind {option}", first)
        return list(range(first, self.at))


def _heads(words: _Words) -> tuple[str | None, str | None]:
    """Reads the words before `taprio`; the device, and which of dev and parent is missing."""
    seen: dict[str, str] = {}
    while words.at < len(words.words) and words.words[words.at] in ("dev", "root", "parent", "handle"):
        head = words.words[words.at]
        kind = "parent" if head == "root" else head
        if kind in seen:
            words.fault(f"Repeated {kind}", f"{kind} once", words.at)
        words.at += 1
        seen[kind] = head if head == "root" else words.next(kind)
    return seen.get("dev"), next((kind for kind in ("dev", "parent") if kind not in seen), None)


def _command(words: _Words) -> tuple[str | None, Schedule | None]:
    """The device and the schedule of a line; no schedule of a deletion."""
    given = words.words
    for at, wanted in enumerate((("tc",), ("qdisc",), (*VERBS, "del"))):
        if at >= len(given) or given[at] not in wanted:
            words.fault("NotTaprio", "tc qdisc add, replace, change or del", at)
    words.at = 3
    device, missing = _heads(words)
    deletes = given[2] == "del"
    if deletes and words.at == len(given):
        pass
    elif words.at >= len(given) or given[words.at] != "taprio":
        words.fault("NotTaprio", "dev, root, parent, handle or taprio", words.at)
    else:
        words.at += 1
    if deletes:
        if words.at < len(given):
            words.fault(f"UnknownOption {words.at}", "the end of the line", words.at)
        if missing:
            words.fault(f"MissingWord {missing}", "dev and root" if missing == "dev" else "root or parent")
        return device, None
    return device, _options(words, missing)


def _options(words: _Words, missing: str | None) -> Schedule:
    """Reads what stands behind `taprio`."""
    given = words.words
    times: dict[str, int] = {}
    lists: dict[str, list[int]] = {}
    ranges: list[tuple[int, int]] | None = None
    entries: list[tuple[int, int]] = []
    clock: str | None = None
    flags = 0
    seen: set[str] = set()
    while words.at < len(given):
        at, option = words.at, given[words.at]
        if option in UNSERVED:
            words.fault(f"Unsupported {option}", f"an option that sets gates: {UNSERVED[option]}, and can be left out", at)
        if option not in OPTIONS:
            words.fault(f"UnknownOption {at}", "an option of taprio", at)
        if option in seen and option != "sched-entry":
            words.fault(f"Repeated {option}", f"{option} once", at)
        seen.add(option)
        words.at += 1
        at = words.at
        if option == "num_tc" or option in TIMES:
            times[option] = words.number(words.next(option), U8 if option == "num_tc" else U64, at)
        elif option in ("map", "max-sdu"):
            most = U8 if option == "map" else U32
            found = words.run(option, _ALL_DIGITS)
            lists[option] = []
            for place in found:
                if option == "max-sdu" and place - at >= PRIORITIES:
                    words.fault(f"BadNumber {place}", f"at most {PRIORITIES} numbers", place)
                lists[option].append(words.number(given[place], most, place))
        elif option == "queues":
            ranges = []
            for place in words.run(option, _RANGE):
                count, _, offset = given[place].partition("@")
                ranges.append((words.number(count, U16, place), words.number(offset, U16, place)))
        elif option == "sched-entry":
            if words.next(option) != "S":
                words.fault("Unsupported sched-entry", "S (preemption is not modelled)", at)
            gates = words.hexadecimal(words.next(option), U8, at + 1)
            entries.append((gates, words.number(words.next(option), U32, at + 2)))
        elif option == "clockid":
            clock = words.next(option)
            if clock.upper().removeprefix("CLOCK_") not in CLOCKS:
                words.fault(f"BadNumber {at}", f"one of {', '.join(CLOCKS)}", at)
        else:
            flags = words.hexadecimal(words.next(option), U32, at)
            if flags not in (0, 2):
                words.fault("Unsupported flags", "0 or 2: 1 asks for launch times (txtime assist), sets no gate, and can be left out", at)
    if missing:
        words.fault(f"MissingWord {missing}", "dev before taprio" if missing == "dev" else "root or parent before taprio")
    classes, priorities = times.get("num_tc"), lists.get("map")
    if classes is None and (priorities is not None or ranges is not None):
        words.fault("MissingWord num_tc", "num_tc with map and queues")
    if priorities is None and (classes is not None or ranges is not None):
        words.fault("MissingWord map", "map with num_tc and queues")
    if classes is not None and priorities is not None:
        _check_map(words, classes, priorities)
        if ranges is not None:
            _check_ranges(words, classes, ranges)
    if not entries:
        words.wrong("NoEntries", "a sched-entry", "none")
    if len(entries) > MOST_ENTRIES:
        words.wrong("TooManyEntries", f"at most {MOST_ENTRIES} entries", str(len(entries)))
    if not all(interval for _, interval in entries):
        words.wrong("ZeroInterval", "intervals of at least 1 ns", "0")
    return Schedule(
        entries,
        times.get("base-time", 0),
        times.get("cycle-time", 0),
        times.get("cycle-time-extension", 0),
        priorities,
        classes,
        ranges,
        lists.get("max-sdu"),
        clock,
        flags,
    )


def _check_map(words: _Words, classes: int, priorities: list[int]) -> None:
    if not 1 <= classes <= CLASSES:
        words.wrong("BadClassCount", f"num_tc from 1 to {CLASSES}", str(classes))
    if len(priorities) > PRIORITIES:
        words.wrong("TooManyPriorities", f"at most {PRIORITIES} numbers behind map", str(len(priorities)))
    if max(priorities) >= classes:
        words.wrong("ClassOutOfRange", f"classes from 0 to {classes - 1} behind map", str(max(priorities)))


def _check_ranges(words: _Words, classes: int, ranges: list[tuple[int, int]]) -> None:
    if len(ranges) != classes:
        words.wrong("QueueCount", f"{classes} ranges behind queues", str(len(ranges)))
    if not all(count for count, _ in ranges):
        words.wrong("EmptyQueue", "ranges of at least one queue", "0")
    for number, (count, offset) in enumerate(ranges):
        for other_count, other in ranges[:number]:
            if offset < other + other_count and other < offset + count:
                words.wrong("QueueOverlap", "ranges that don't overlap", f"{count}@{offset}")


def read_tc(text: str, device: str | None = None) -> list[Configured]:
    """The schedules of `tc` lines. Comments, empty lines and backslashes work as in scripts; a deletion has no schedule and is left out. Where a
    device is given, the faults of lines of other devices are passed over.

    Each schedule is of the side "admin": it is what the line sets."""
    found: list[Configured] = []
    parts = Parts(device)
    for number, words in logical_lines(text):
        if words[0].startswith("#"):
            continue
        if words[0] != "tc":
            raise BadSchedule(f"line {number}", "a line that begins with tc", repr(words[0]) + before_tc(words), "UnknownLine")
        with parts.of(words[words.index("dev") + 1] if "dev" in words[:-1] else None):
            of_device, schedule = _command(_Words(number, words))
            if schedule is None:
                warnings.warn(f"line {number}: a deletion has no schedule, and is left out", LeftOut, stacklevel=2)
            else:
                found.append(Configured(schedule, of_device, "admin", f"line {number}"))
    if not found and parts.fault:
        raise parts.fault
    return found


def line(schedule: Schedule, device: str = "eth0", verb: str = "replace") -> str:
    """A schedule as one `tc` line, without a newline."""
    if verb not in VERBS:
        raise ValueError(f"verb: expected one of {', '.join(VERBS)}, found {verb}")
    words = ["tc", "qdisc", verb, "dev", device_word(device), "root", "taprio"]
    if schedule.map is not None:
        short = schedule.map if any(schedule.map[8:]) else schedule.map[:8]
        words += ["num_tc", str(schedule.classes), "map", *map(str, short)]
    if schedule.queues is not None:
        words += ["queues", *(f"{count}@{offset}" for count, offset in schedule.queues)]
    words += ["base-time", str(schedule.base_time)]
    words += ["cycle-time", str(schedule.cycle)] if schedule.cycle else []
    words += ["cycle-time-extension", str(schedule.extension)] if schedule.extension else []
    for gates, interval in schedule.entries:
        words += ["sched-entry", "S", f"{gates:02x}", str(interval)]
    words += ["max-sdu", *map(str, schedule.max_sdu)] if schedule.max_sdu is not None else []
    words += ["clockid", f"CLOCK_{schedule.clock}"] if schedule.clock else []
    words += ["flags", f"{schedule.flags:#x}"] if schedule.flags else []
    return " ".join(words)


def write_tc(schedules: Iterable[Configured | Schedule]) -> str:
    """Schedules as `tc` lines, one each. Where the name of a device is no word, a warning says which word stands for it."""
    found = [it if isinstance(it, Configured) else Configured(it) for it in schedules]
    for it in found:
        if it.device and device_word(it.device) != it.device:
            warnings.warn(
                f"{it.device}: its blanks are left out, and it is called {device_word(it.device)}", LeftOut, stacklevel=2
            )
    return "".join(f"{line(it.schedule, it.device or 'eth0')}\n" for it in found)
