"""What `tc qdisc show` prints: its text, and the JSON of `tc -j qdisc show`.

Its forms are those of iproute2 6.1, which the tests compare with the real `tc`; `max-sdu` and `fp` are as later versions print them."""

from __future__ import annotations

import json
import re
import warnings
from collections.abc import Iterable
from typing import Any, NoReturn

from ..faults import BadSchedule, LeftOut
from .documents import Node, load
from .model import CLASSES, CLOCKS, PRIORITIES, U8, U16, U32, U64, Configured, Parts, Schedule, Side, default_ranges, device_word, placed

__all__ = ["read_show", "read_show_json", "write_show", "write_show_json"]

_HEAD = re.compile(r"(?:(?:added|deleted|replaced) )?qdisc (\S+) (\S+)(?: (.*))?")
_STATISTICS = re.compile(r"\s+(?:Sent|backlog|rate|requeues|window_drops|tx_overruns)\b")
_DIGITS = re.compile(r"[0-9]+")
# What `tc -j` of iproute2 6.1 writes between two schedules: the second has no name, and the text is no JSON.
_NAMELESS = re.compile(r"(?<=[\]0-9])\s*,\s*(?=\{\s*\"base_time\")")


def _left_out(place: str, what: str) -> None:
    warnings.warn(f"{place}: {what} is left out", LeftOut, stacklevel=3)


class _Options:
    """What is said of a qdisc, before it becomes schedules."""

    def __init__(self, device: str | None, place: str) -> None:
        self.device = device
        self.place = place
        self.classes = 0
        self.map: list[int] = []
        self.queues: list[tuple[int, int]] = []
        self.clock: str | None = None
        self.flags = 0
        self.max_sdu: list[int] | None = None
        self.sides: list[_Side] = []

    def schedules(self) -> list[Configured]:
        """The schedules that it has: the first one is in force, and a second one comes."""
        found: list[Configured] = []
        names: tuple[Side, Side] = ("oper", "admin")
        for name, side in zip(names, self.sides):
            if not side.entries:
                continue
            classes = self.classes or None
            schedule = placed(
                side.place,
                side.entries,
                side.base_time,
                side.cycle,
                side.extension,
                self.map if classes else None,
                classes,
                self.queues if classes and self.queues else None,
                self.max_sdu,
                self.clock,
                self.flags,
            )
            found.append(Configured(schedule, self.device, name, side.place))
        return found


class _Side:
    """One of the two schedules of a qdisc."""

    def __init__(self, place: str) -> None:
        self.place = place
        self.base_time = 0
        self.cycle = 0
        self.extension = 0
        self.entries: list[tuple[int, int]] = []


class _Words:
    """The words of a qdisc's lines, each with the number of its line."""

    def __init__(self, words: list[tuple[int, str]], last: int) -> None:
        self.words = words
        self.last = last
        self.at = 0

    @property
    def place(self) -> str:
        """The line of the next word."""
        return f"line {self.words[self.at][0] if self.at < len(self.words) else self.last}"

    def peek(self) -> str | None:
        """The next word."""
        return self.words[self.at][1] if self.at < len(self.words) else None

    def wrong(self, expected: str) -> NoReturn:
        """Says what should come next."""
        word = self.peek()
        raise BadSchedule(self.place, expected, "the end" if word is None else repr(word))

    def take(self, expected: str) -> str:
        """The next word, whatever it is."""
        word = self.peek()
        if word is None:
            self.wrong(expected)
        self.at += 1
        return word

    def keyword(self, wanted: str) -> None:
        """The next word, which has to be this one."""
        if self.peek() != wanted:
            self.wrong(wanted)
        self.at += 1

    def whole(self, what: str, most: int) -> int:
        """A whole number."""
        word = self.peek()
        if word is None or not _DIGITS.fullmatch(word) or len(word) > 20 or int(word) > most:
            self.wrong(f"{what}, a whole number from 0 to {most}")
        self.at += 1
        return int(word)

    def hexadecimal(self, what: str, most: int) -> int:
        """A number as tc prints a mask."""
        word = self.peek()
        if word is None or not re.fullmatch(r"(?:0x)?[0-9a-f]{1,8}", word) or int(word, 16) > most:
            self.wrong(f"{what}, a mask such as 0x1, at most {most:#x}")
        self.at += 1
        return int(word, 16)

    def numbers(self, what: str, most: int, count: int) -> list[int]:
        """The numbers that follow, at most so many."""
        found: list[int] = []
        while len(found) < count and _DIGITS.fullmatch(self.peek() or ""):
            found.append(self.whole(what, most))
        return found


def read_show(text: str, device: str | None = None) -> list[Configured]:
    """The schedules in the text of `tc qdisc show`, of all devices. Other qdiscs are passed over, and where a device is given, the faults of
    other devices.

    With `-oneline`, `tc` writes a backslash for each end of a line; that is read too."""
    found: list[Configured] = []
    lines = text.replace("\\", "\n").split("\n")
    starts = [number for number, line in enumerate(lines) if _HEAD.fullmatch(line.rstrip("\r "))]
    if not starts or any(line.strip() for line in lines[: starts[0]]):
        first = next((number for number, line in enumerate(lines) if line.strip()), 0)
        raise BadSchedule(
            f"line {first + 1}", "a line that begins with qdisc", repr(lines[first][:40]) if text.strip() else "nothing"
        )
    kinds, parts = [], Parts(device)
    for start, end in zip(starts, [*starts[1:], len(lines)]):
        head = _HEAD.fullmatch(lines[start].rstrip("\r "))
        assert head
        kinds.append(head[1])
        if head[1] == "taprio":
            words = [(start + 1, word) for word in (head[3] or "").split()]
            for number in range(start + 1, end):
                if not _STATISTICS.match(lines[number]):
                    words += [(number + 1, word) for word in lines[number].split()]
            with parts.of(_device_of([word for _, word in words])):
                found += _of_text(_Words(words, end))
    if not found:
        has = "one without a schedule" if "taprio" in kinds else ", ".join(kinds)
        parts.nothing(f"line {starts[0] + 1}", "a qdisc of the kind taprio with a schedule", has)
    return found


def _device_of(words: list[str]) -> str | None:
    """The device of a qdisc, by the words behind its handle."""
    head = words[: words.index("tc")] if "tc" in words else words
    return head[head.index("dev") + 1] if "dev" in head[:-1] else None


def _of_text(words: _Words) -> list[Configured]:
    """The schedules of a qdisc."""
    options = _Options(None, words.place)
    while words.peek() not in (None, "tc"):
        word = words.take("tc")
        if word == "dev":
            options.device = words.take("a device")
    words.keyword("tc")
    options.classes = words.whole("the number of classes", CLASSES)
    words.keyword("map")
    options.map = words.numbers("a class", U8, PRIORITIES)
    words.keyword("queues")
    while words.peek() == "offset":
        words.keyword("offset")
        offset = words.whole("an offset", U16)
        words.keyword("count")
        options.queues.append((words.whole("a count", U16), offset))
    while words.peek() is not None:
        _option(words, options)
    return options.schedules()


def _option(words: _Words, options: _Options) -> None:
    """Reads one of the options behind the queues."""
    place, word = words.place, words.take("an option")
    if word == "clockid":
        clock = words.take("a clock")
        options.clock = clock if clock in CLOCKS else None
        if clock not in (*CLOCKS, "invalid"):
            _left_out(place, f"clockid {clock}")
    elif word == "flags":
        options.flags = _flags(words.hexadecimal("flags", U32), place)
    elif word == "txtime":
        words.keyword("delay")
        _left_out(place, f"txtime delay {words.whole('a delay', U32)}")
    elif word == "base-time" and len(options.sides) < 2:
        side = _Side(place)
        options.sides.append(side)
        side.base_time = words.whole("a base time", U64)
        words.keyword("cycle-time")
        side.cycle = words.whole("a cycle time", U64)
        words.keyword("cycle-time-extension")
        side.extension = words.whole("an extension", U64)
    elif word == "index" and options.sides:
        entries = options.sides[-1].entries
        words.at -= 1
        _entry_of_text(words, entries)
    elif word == "max-sdu":
        options.max_sdu = words.numbers("a size", U32, PRIORITIES) or None
    elif word == "fp":
        kinds = []
        while words.peek() in ("E", "P", "?"):
            kinds.append(words.take("E or P"))
        if "P" in kinds:
            _left_out(place, f"fp {' '.join(kinds)} (frame preemption)")
    else:
        words.at -= 1
        words.wrong("an option of taprio")


def _entry_of_text(words: _Words, entries: list[tuple[int, int]]) -> None:
    words.keyword("index")
    at = words.at
    if words.whole("an index", U32) != len(entries):
        words.at = at
        words.wrong(f"the index {len(entries)}")
    words.keyword("cmd")
    if words.peek() != "S":
        words.wrong("the command S (preemption is not modelled)")
    words.keyword("S")
    words.keyword("gatemask")
    gates = words.hexadecimal("gates", U8)
    words.keyword("interval")
    entries.append((gates, words.whole("an interval", U32)))


def _flags(flags: int, place: str) -> int:
    """The flags that a schedule has; others are left out."""
    if flags & ~2:
        _left_out(place, f"flags {flags & ~2:#x}" + (" (txtime assist)" if flags & 1 else ""))
    return flags & 2


def read_show_json(text: str, device: str | None = None) -> list[Configured]:
    """The schedules in the JSON of `tc -j qdisc show`, of all devices. Other qdiscs are passed over, and where a device is given, the faults of
    other devices.

    `tc` of iproute2 6.1 leaves out the name of a schedule that comes next, which is no JSON then; this is read too."""
    try:
        document = load(text)
    except BadSchedule:
        if not _NAMELESS.search(text):
            raise
        document = load(_NAMELESS.sub(', "admin": ', text))
    found: list[Configured] = []
    kinds, parts = [], Parts(device)
    for qdisc in document.items():
        kind = qdisc.need("kind").text()
        kinds.append(kind)
        if kind == "taprio":
            named = qdisc.get("dev")
            with parts.of(named.value if named and isinstance(named.value, str) else None):
                found += _of_json(qdisc)
    if not found:
        has = "one without a schedule" if "taprio" in kinds else ", ".join(kinds) or "none"
        parts.nothing("/", "a qdisc of the kind taprio with a schedule", has)
    return found


def _of_json(qdisc: Node) -> list[Configured]:
    """The schedules of a qdisc."""
    device = qdisc.get("dev")
    given = qdisc.need("options")
    options = _Options(device.text() if device else None, qdisc.place)
    options.classes = given.need("tc").whole(0, CLASSES)
    options.map = [it.whole(0, U8) for it in given.need("map").items()]
    options.queues = [(it.need("count").whole(0, U16), it.need("offset").whole(0, U16)) for it in given.need("queues").items()]
    options.sides = [_side_of_json(given)]
    read = {"tc", "map", "queues", "base_time", "cycle_time", "cycle_time_extension", "schedule"}
    for name, node in given.members().items():
        if name == "clockid":
            clock = node.text()
            options.clock = clock if clock in CLOCKS else None
            if clock not in (*CLOCKS, "invalid"):
                _left_out(node.place, clock)
        elif name == "flags":
            options.flags = _flags(node.hexadecimal(U32), node.place)
        elif name == "max-sdu":
            options.max_sdu = [it.whole(0, U32) for it in node.items()] or None
        elif name == "admin":
            options.sides.append(_side_of_json(node))
        elif name == "fp":
            if any(it.value == "P" for it in node.items()):
                _left_out(node.place, "frame preemption")
        elif name not in read:
            _left_out(node.place, json.dumps(node.value)[:40])
    return options.schedules()


def _side_of_json(node: Node) -> _Side:
    side = _Side(node.place)
    names = {name: node.get(name) for name in ("base_time", "cycle_time", "cycle_time_extension")}
    numbers = [it.whole(0, U64, " nanoseconds") if it else 0 for it in names.values()]
    side.base_time, side.cycle, side.extension = numbers
    entries = node.get("schedule")
    for number, entry in enumerate(entries.items() if entries else []):
        if entry.need("index").whole(0, U32) != number:
            raise entry.need("index").wrong(f"the index {number}")
        if entry.need("cmd").value != "S":
            raise entry.need("cmd").wrong('"S" (preemption is not modelled)')
        side.entries.append((entry.need("gatemask").hexadecimal(U8), entry.need("interval").whole(0, U32, " nanoseconds")))
    return side


def _by_device(schedules: Iterable[Configured | Schedule]) -> dict[str, dict[Side, Schedule]]:
    """The schedules of each device: one in force, and one that comes. Schedules without a side are in force here."""
    found: dict[str, dict[Side, Schedule]] = {}
    for it in schedules:
        given = it if isinstance(it, Configured) else Configured(it, side="oper")
        sides = found.setdefault(device_word(given.device), {})
        if given.side in sides:
            raise BadSchedule(device_word(given.device), f"one {given.side} schedule of a device", "two")
        sides[given.side] = given.schedule
    return found


def _qdiscs(schedules: Iterable[Configured | Schedule]) -> list[dict[str, Any]]:
    """The document of `tc -j qdisc show`, with the name of the schedule that comes next."""
    found = []
    for device, sides in _by_device(schedules).items():
        one = sides.get("oper") or sides["admin"]
        other = sides.get("admin")
        if other and (one.classes, one.map, one.queues, one.clock) != (other.classes, other.map, other.queues, other.clock):
            raise BadSchedule(device, "the same map, queues and clock of both schedules", "others")
        classes = one.classes or 0
        max_sdu = _shown_sizes(device, one, other, classes)
        queues = one.queues or default_ranges(classes)
        options: dict[str, Any] = {
            "tc": classes,
            "map": list(one.map or [0] * PRIORITIES),
            "queues": [{"offset": offset, "count": count} for count, offset in queues],
            "clockid": one.clock or "invalid",
        }
        if one.flags:
            options["flags"] = f"{one.flags:#x}"
        options |= _side_for_json(sides.get("oper"))
        if other:
            options["admin"] = _side_for_json(other)
        if max_sdu:
            options["max-sdu"] = max_sdu
        found.append({"kind": "taprio", "handle": "100:", "dev": device, "root": True, "refcnt": 9, "options": options})
    return found


def _shown_sizes(device: str, one: Schedule, other: Schedule | None, classes: int) -> list[int]:
    """The longest service data unit of each class, as tc shows them: once for both schedules, and of the classes that there are."""
    if other and (one.max_sdu, one.flags) != (other.max_sdu, other.flags):
        warnings.warn(f"{device}: max-sdu and flags of the admin schedule are left out: those of the other are shown", LeftOut, stacklevel=4)
    sizes = list(one.max_sdu or ())
    if any(sizes[classes:]):
        beyond = [number for number, size in enumerate(sizes) if size and number >= classes]
        text = f"max-sdu of class {', '.join(map(str, beyond))} is left out: tc shows those of {classes} class{'es' if classes > 1 else ''}"
        warnings.warn(f"{device}: {text if classes else 'max-sdu is left out: tc shows none where there is no map'}", LeftOut, stacklevel=4)
    return (sizes + [0] * classes)[:classes] if one.max_sdu is not None else []


def _side_for_json(schedule: Schedule | None) -> dict[str, Any]:
    if schedule is None:
        return {"base_time": 0, "cycle_time": 0, "cycle_time_extension": 0}
    entries = enumerate(schedule.entries)
    return {
        "base_time": schedule.base_time,
        "cycle_time": schedule.cycle_time,
        "cycle_time_extension": schedule.extension,
        "schedule": [
            {"index": number, "cmd": "S", "gatemask": f"{gates:#x}" if gates else "0", "interval": interval}
            for number, (gates, interval) in entries
        ],
    }


def write_show_json(schedules: Iterable[Configured | Schedule]) -> str:
    """Schedules as the JSON of `tc -j qdisc show`; one that comes next has the name "admin"."""
    return json.dumps(_qdiscs(schedules), separators=(",", ":")) + "\n"


def write_show(schedules: Iterable[Configured | Schedule]) -> str:
    """Schedules as the text of `tc qdisc show`."""
    found = []
    for qdisc in _qdiscs(schedules):
        options = qdisc["options"]
        found.append(
            f"qdisc taprio 100: dev {qdisc['dev']} root refcnt 9 tc {options['tc']} map {' '.join(map(str, options['map']))}\n"
        )
        found.append("queues" + "".join(f" offset {it['offset']} count {it['count']}" for it in options["queues"]) + "\n")
        found.append(f"clockid {options['clockid']}" + (f" flags {options['flags']}" if "flags" in options else ""))
        for side in [options, options["admin"]] if "admin" in options else [options]:
            found.append(f"\tbase-time {side['base_time']} cycle-time {side['cycle_time']}")
            found.append(f" cycle-time-extension {side['cycle_time_extension']}" + ("\n" if "schedule" in side else ""))
            for entry in side.get("schedule", []):
                found.append(f"\tindex {entry['index']} cmd S gatemask {entry['gatemask']} interval {entry['interval']}\n")
        found.append("max-sdu " + " ".join(map(str, options["max-sdu"])) + " \n" if "max-sdu" in options else "")
        found.append("\n")
    return "".join(found)
