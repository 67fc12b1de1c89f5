"""The managed objects of IEEE Std 802.1Qcw as JSON (RFC 7951): `gate-parameter-table` of the bridge port of an interface, of the YANG
modules ieee802-dot1q-sched and ieee802-dot1q-sched-bridge, and `traffic-class-table` of ieee802-dot1q-bridge beside it."""

from __future__ import annotations

import json
import math
import warnings
from collections.abc import Iterable
from typing import Any

from ..faults import BadSchedule, LeftOut
from .documents import Node, load, local
from .model import CLASSES, U8, U32, U64, Configured, Parts, Schedule, Side, placed

__all__ = ["RECOMMENDED", "read_qcw", "write_qcw"]

RECOMMENDED = (1, 0, 2, 3, 4, 5, 6, 7)
"""The class of each priority where a document doesn't say it: those that IEEE Std 802.1Q-2018, Table 8-5, recommends for eight classes."""
SECOND = 10**9
# What is said of a running port, and is no part of a schedule.
_STATE = {
    "config-change",
    "config-change-error",
    "config-change-time",
    "config-pending",
    "current-time",
    "oper-gate-states",
    "supported-cycle-max",
    "supported-interval-max",
    "supported-list-max",
    "tick-granularity",
}
_OF_SIDES = {
    f"{side}-{name}" for side in ("admin", "oper") for name in ("control-list", "cycle-time", "cycle-time-extension", "base-time")
}
_READ = _OF_SIDES | {"admin-gate-states", "gate-enabled", "queue-max-sdu-table"}


def _left_out(node: Node, why: str) -> None:
    warnings.warn(f"{node.place}: {why}", LeftOut, stacklevel=3)


def read_qcw(text: str, map: Iterable[int] | None = None, device: str | None = None) -> list[Configured]:
    """The schedules of a document, of all ports and of both sides; names may stand with and without the prefixes of their modules.

    The document may be that of all interfaces, or any part of it that has a `gate-parameter-table`. `map` is the class of each priority,
    for ports without a `traffic-class-table`; where it isn't given either, `RECOMMENDED` is taken, and a warning says so. Ports without a
    control list have no schedule, and are passed over; where a device is given, so are the faults of other devices."""
    document = load(text)
    given = None if map is None else tuple(map)
    found: list[Configured] = []
    tables, parts = 0, Parts(device)
    for above, node in document.walk():
        if local(node.path.rpartition("/")[2]) == "gate-parameter-table":
            tables += 1
            with parts.of(_device_of(above)):
                found += _table(node, above, given)
        elif node is document and _is_table(node):
            tables += 1
            found += _table(node, [], given)
    if not found:
        parts.nothing(
            "/",
            "a gate-parameter-table with an admin-control-list or an oper-control-list",
            f"{tables or 'no'} such tables, without a list" if tables else "none",
        )
    return found


def _device_of(above: list[Node]) -> str | None:
    """The interface that a table lies in."""
    device = None
    for outer in above:
        named = outer.get("name")
        device = named.text() if named else device
    return device


def _is_table(node: Node) -> bool:
    """Whether a document is what lies in a table."""
    return bool(_OF_SIDES & node.members().keys())


def _table(table: Node, above: list[Node], given: tuple[int, ...] | None) -> list[Configured]:
    """The schedules of one port."""
    members = table.members()
    sides: list[tuple[Side, Node]] = []
    names: tuple[Side, Side] = ("oper", "admin")
    for side in names:
        entries = _entries(members.get(f"{side}-control-list"))
        if entries is not None:
            sides.append((side, entries))
    if not sides:
        return []
    for name, node in members.items():
        if name not in _READ and name not in _STATE:
            _left_out(node, f"{name} is left out")
    states = members.get("admin-gate-states")
    if states and states.whole(0, U8) != U8:
        _left_out(states, f"{states.value} is left out: before a schedule is in force, all gates are open")
    enabled = members.get("gate-enabled")
    if enabled and not enabled.truth():
        _left_out(enabled, "it is false, so the port runs no schedule; what is read is what it would run")
    classes, map_ = _map(table, above, given)
    max_sdu = _max_sdu(members.get("queue-max-sdu-table"))
    device = _device_of(above)
    return [
        Configured(_side(members, side, entries, classes, map_, max_sdu), device, side, table.place) for side, entries in sides
    ]


def _entries(control: Node | None) -> Node | None:
    """The entries of a control list; None where there are none."""
    found = control.get("gate-control-entry") if control else None
    return found if found and found.items() else None


def _side(
    members: dict[str, Node], side: Side, entries: Node, classes: int, map_: tuple[int, ...], max_sdu: list[int] | None
) -> Schedule:
    """The schedule of one side of a table."""
    found: dict[int, tuple[int, int]] = {}
    for entry in entries.items("index"):
        index = entry.need("index").whole(0, U32)
        if index in found:
            raise entry.need("index").wrong("each index once")
        operation = entry.need("operation-name")
        if local(operation.text()) != "set-gate-states":
            raise operation.wrong("set-gate-states (preemption is not modelled)")
        gates = entry.need("gate-states-value").whole(0, U8)
        found[index] = (gates, entry.need("time-interval-value").whole(1, U32, " nanoseconds"))
        for name, node in entry.members().items():
            if name not in ("index", "operation-name", "gate-states-value", "time-interval-value"):
                _left_out(node, f"{name} is left out")
    cycle = members.get(f"{side}-cycle-time")
    if cycle is None:
        _left_out(entries, f"there is no {side}-cycle-time: the cycle is the sum of the intervals")
    base = members.get(f"{side}-base-time")
    extension = members.get(f"{side}-cycle-time-extension")
    return placed(
        entries.place,
        [found[index] for index in sorted(found)],
        _moment(base) if base else 0,
        _cycle(cycle) if cycle else 0,
        extension.whole(0, U32, " nanoseconds") if extension else 0,
        map_,
        classes,
        max_sdu=max_sdu,
    )


def _moment(node: Node) -> int:
    """A time of seconds and nanoseconds, in nanoseconds."""
    seconds, nanoseconds = node.get("seconds"), node.get("nanoseconds")
    rest = nanoseconds.whole(0, SECOND - 1, " nanoseconds") if nanoseconds else 0
    return (seconds.whole(0, U64 // SECOND - 1, " seconds") if seconds else 0) * SECOND + rest


def _cycle(node: Node) -> int:
    """A fraction of a second, in nanoseconds; 0 is the sum of the intervals."""
    numerator, denominator = node.need("numerator").whole(0, U32), node.need("denominator").whole(1, U32)
    cycle, rest = divmod(numerator * SECOND, denominator)
    if rest or (numerator and not cycle):
        raise BadSchedule(node.place, "a whole number of nanoseconds", f"{numerator}/{denominator} of a second")
    return cycle


def _map(table: Node, above: list[Node], given: tuple[int, ...] | None) -> tuple[int, tuple[int, ...]]:
    """How many classes there are, and the class of each priority."""
    beside = above[-1] if above else None
    for name in ("traffic-class", "traffic-class-table"):
        beside = beside and (beside.get(name) or beside)
    rows = beside.get("traffic-class-map") if beside else None
    if rows is None:
        if given is None:
            text = " ".join(map(str, RECOMMENDED))
            _left_out(
                table,
                f"there is no traffic-class-table beside it: the recommended classes of priorities 0 to 7 are taken, {text}",
            )
        chosen = RECOMMENDED if given is None else given
        return max(chosen, default=0) + 1, chosen
    classes: dict[int, dict[int, int]] = {}
    for row in rows.items("priority"):
        available = row.need("available-traffic-class").items("num-traffic-class")
        of_number = {
            it.need("num-traffic-class").whole(1, CLASSES): it.need("traffic-class").whole(0, CLASSES - 1) for it in available
        }
        classes[row.need("priority").whole(0, CLASSES - 1)] = of_number
    missing = [priority for priority in range(CLASSES) if priority not in classes]
    if missing:
        raise BadSchedule(rows.place, "each priority from 0 to 7", f"none for {missing[0]}")
    common = sorted(set.intersection(*(set(it) for it in classes.values())))
    if not common:
        raise BadSchedule(rows.place, "a num-traffic-class that each priority has", "none")
    if len(common) > 1:
        _left_out(rows, f"it has the classes for {', '.join(map(str, common))} classes: those for {common[-1]} are taken")
    return common[-1], tuple(classes[priority][common[-1]] for priority in range(CLASSES))


def _max_sdu(node: Node | None) -> list[int] | None:
    """The limit of each class."""
    if node is None:
        return None
    found: dict[int, int] = {}
    for row in node.items("traffic-class"):
        number = row.need("traffic-class")
        if number.whole(0, CLASSES - 1) in found:
            raise number.wrong("each traffic class once")
        size = row.get("queue-max-sdu")
        found[number.whole(0, CLASSES - 1)] = size.whole(0, U32, " octets") if size else 0
        for name, other in row.members().items():
            if name not in ("traffic-class", "queue-max-sdu", "transmission-overrun"):
                _left_out(other, f"{name} is left out")
    return [found.get(number, 0) for number in range(max(found) + 1)] if found else None


def write_qcw(schedules: Iterable[Configured | Schedule]) -> str:
    """Schedules as a document of interfaces, with prefixes; one without a side is the side "admin".

    What has no counterpart there is left out, and a warning says so. A cycle that is no fraction of two numbers of 32 bits raises
    `BadSchedule`."""
    ports: dict[str, dict[str, Any]] = {}
    done: set[tuple[str, str]] = set()
    for it in schedules:
        given = it if isinstance(it, Configured) else Configured(it)
        device = given.device or "eth0"
        if (device, given.side) in done:
            raise BadSchedule(device, f"one {given.side} schedule of a port", "two")
        done.add((device, given.side))
        port = ports.setdefault(device, {})
        _say_what_is_left_out(given.schedule, device)
        if given.schedule.map is not None:
            rows = _rows(given.schedule)
            if port.setdefault("traffic-class", rows) != rows:
                raise BadSchedule(device, "the same map of both schedules", "another")
        table = port.setdefault("ieee802-dot1q-sched-bridge:gate-parameter-table", {"gate-enabled": True})
        _put(table, given)
    interfaces = [{"name": device, "ieee802-dot1q-bridge:bridge-port": port} for device, port in ports.items()]
    return json.dumps({"ietf-interfaces:interfaces": {"interface": interfaces}}, indent=2, ensure_ascii=False) + "\n"


def _say_what_is_left_out(schedule: Schedule, device: str) -> None:
    if schedule.map and any(schedule.map[CLASSES:]):
        warnings.warn(f"{device}: the classes of priorities 8 to 15 are left out", LeftOut, stacklevel=3)
    for name, value in (("queues", schedule.queues), ("clockid", schedule.clock), ("flags", schedule.flags)):
        if value:
            warnings.warn(f"{device}: {name} is left out", LeftOut, stacklevel=3)


def _rows(schedule: Schedule) -> dict[str, Any]:
    """The traffic class table of a map."""
    return {
        "traffic-class-table": {
            "traffic-class-map": [
                {
                    "priority": priority,
                    "available-traffic-class": [{"num-traffic-class": schedule.classes, "traffic-class": number}],
                }
                for priority, number in enumerate((schedule.map or ())[:CLASSES])
            ]
        }
    }


def _put(table: dict[str, Any], given: Configured) -> None:
    """Puts a schedule into the table of its port."""
    schedule, side = given.schedule, given.side
    shared = math.gcd(schedule.cycle_time, SECOND)
    numerator, denominator = schedule.cycle_time // shared, SECOND // shared
    if numerator > U32:
        raise BadSchedule(
            f"{given.device or 'eth0'}: {side}-cycle-time",
            "a fraction of two numbers of 32 bits",
            f"{numerator}/{denominator} of a second",
        )
    if schedule.extension > U32:
        raise BadSchedule(
            f"{given.device or 'eth0'}: {side}-cycle-time-extension",
            "a number of 32 bits, in nanoseconds",
            str(schedule.extension),
        )
    if schedule.max_sdu is not None:
        rows = [{"traffic-class": number, "queue-max-sdu": size} for number, size in enumerate(schedule.max_sdu)]
        if table.setdefault("queue-max-sdu-table", rows) != rows:
            raise BadSchedule(given.device or "eth0", "the same max-sdu of both schedules", "another")
    if side == "admin":
        table["admin-gate-states"] = U8
    table[f"{side}-control-list"] = {
        "gate-control-entry": [
            {
                "index": number,
                "operation-name": "ieee802-dot1q-sched:set-gate-states",
                "time-interval-value": interval,
                "gate-states-value": gates,
            }
            for number, (gates, interval) in enumerate(schedule.entries)
        ]
    }
    table[f"{side}-cycle-time"] = {"numerator": numerator, "denominator": denominator}
    table[f"{side}-cycle-time-extension"] = schedule.extension
    seconds, nanoseconds = divmod(schedule.base_time, SECOND)
    table[f"{side}-base-time"] = {"seconds": str(seconds), "nanoseconds": nanoseconds}
    if side == "admin":
        table["config-change"] = True
