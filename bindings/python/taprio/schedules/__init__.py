"""Schedules: read from switches, from `tc` and from `tc` lines, and written as each of them. All times are whole nanoseconds.

    >>> from taprio.schedules import Schedule, read
    >>> loop = Schedule([(0x02, 50_000), (0x01, 200_000)], map=[0, 0, 0, 0, 0, 0, 1, 0])
    >>> loop.tc("eth0")
    'tc qdisc replace dev eth0 root taprio num_tc 2 map 0 0 0 0 0 0 1 0 base-time 0 sched-entry S 02 50000 sched-entry S 01 200000'
    >>> read(loop.tc())[0].schedule == loop
    True

| form | read | write | what it is |
|---|---|---|---|
| "tc" | `read_tc` | `write_tc` | `tc` lines |
| "show" | `read_show` | `write_show` | the text of `tc qdisc show` |
| "json" | `read_show_json` | `write_show_json` | the JSON of `tc -j qdisc show` |
| "qcw" | `read_qcw` | `write_qcw` | the managed objects of IEEE Std 802.1Qcw as JSON (RFC 7951) |

Each reader gives a list of `Configured`: a `Schedule`, its device, and its side ("oper" is in force, "admin" is what is set). A document
that can't be read raises `BadSchedule`, with the place in the document. What has no counterpart is left out with the warning `LeftOut`,
or raises `BadSchedule` where the gates would do something else without it.
"""

from __future__ import annotations

import re
from collections.abc import Callable, Iterable
from typing import Literal, Union

from ..faults import BadSchedule

from .model import Configured, Entry, Ranges, Schedule, Side, before_tc
from .qcw import RECOMMENDED, read_qcw, write_qcw
from .show import read_show, read_show_json, write_show, write_show_json
from .tc import read_tc, write_tc

__all__ = [
    "FORMS",
    "RECOMMENDED",
    "Configured",
    "Entry",
    "Form",
    "Ranges",
    "Schedule",
    "Side",
    "form_of",
    "read",
    "read_qcw",
    "read_show",
    "read_show_json",
    "read_tc",
    "write",
    "write_qcw",
    "write_show",
    "write_show_json",
    "write_tc",
]

Form = Literal["tc", "show", "json", "qcw"]
FORMS: tuple[Form, ...] = ("tc", "show", "json", "qcw")

Schedules = Iterable[Union[Configured, Schedule]]
_READERS: dict[Form, Callable[[str, str | None], list[Configured]]] = {
    "tc": read_tc,
    "show": read_show,
    "json": read_show_json,
    "qcw": lambda text, device: read_qcw(text, device=device),
}
_WRITERS: dict[Form, Callable[[Schedules], str]] = {"tc": write_tc, "show": write_show, "json": write_show_json, "qcw": write_qcw}


def form_of(text: str) -> Form:
    """Which form a text has, by its content."""
    for number, line in enumerate(text.split("\n"), 1):
        words = line.split()
        if not words or words[0].startswith("#"):
            continue
        first = words[0]
        if first == "tc":
            return "tc"
        if first in ("qdisc", "added", "deleted", "replaced"):
            return "show"
        if first.startswith("["):
            return "json"
        if first.startswith("{"):
            return "qcw"
        if first.startswith("<"):
            found = f"{first[:20]!r}, which is XML: ask for JSON (application/yang-data+json)"
            raise BadSchedule(f"line {number}", "tc lines, the output of tc qdisc show, or JSON", found)
        raise BadSchedule(f"line {number}", "tc lines, the output of tc qdisc show, or JSON", repr(first[:40]) + before_tc(words))
    pasted = re.search(r"(?m)^[ \t]*# *(?:sudo +)?\S*tc +qdisc\b", text)
    found = "comments alone; one begins with # tc: leave out the prompt if that is one" if pasted else "nothing"
    raise BadSchedule("line 1", "tc lines, the output of tc qdisc show, or JSON", found)


def read(text: str | bytes, form: Form | None = None, device: str | None = None) -> list[Configured]:
    """The schedules of a text, of all devices and both sides. Its form is found by the content where it isn't given. Where a device is given,
    what is wrong with the schedules of other devices is passed over."""
    if isinstance(text, bytes):
        try:
            text = text.decode()
        except UnicodeDecodeError as wrong:
            raise BadSchedule(f"octet {wrong.start}", "a text in UTF-8", f"{wrong.object[wrong.start]:#04x}") from None
    text = text.removeprefix("\ufeff")
    return _READERS[form or form_of(text)](text, device)


def write(schedules: Schedules, form: Form = "tc") -> str:
    """Schedules as a text of a form."""
    return _WRITERS[form](schedules)
