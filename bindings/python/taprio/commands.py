"""The command `python3 -m taprio`: schedules of switches and of tc become `tc` lines, and `tc` lines become those."""

from __future__ import annotations

import argparse
import dataclasses
import os
import re
import sys
import warnings
from typing import NoReturn

from . import __version__
from .faults import BadSchedule, LeftOut
from .schedules import FORMS, Configured, Form, form_of, read, read_qcw, write

__all__ = ["main"]

WORDS, INPUT, MACHINE = 2, 3, 4
_HELP = """\
forms:
  tc      tc lines, which the program reads
  show    the text of tc qdisc show
  json    the JSON of tc -j qdisc show
  qcw     the managed objects of IEEE 802.1Qcw as JSON (RFC 7951)

The exit status is 0, or 2 for a bad option, 3 for a bad input, and 4 if a
file can't be opened or a write fails. Unless it is 0, nothing is written.
What has no counterpart is said on standard error."""


class _Parser(argparse.ArgumentParser):
    def error(self, message: str) -> NoReturn:
        """Says what is wrong with a word, on one line."""
        self.exit(WORDS, f"taprio: {message} ({self.prog} --help)\n")


def _map(text: str) -> list[int]:
    """The class of each priority, as words."""
    words = re.split(r"[\s,]+", text.strip())
    if not 1 <= len(words) <= 16 or not all(re.fullmatch("[0-7]", word) for word in words):
        raise argparse.ArgumentTypeError("1 to 16 classes from 0 to 7 are expected, such as '0 0 0 0 0 0 1 0'")
    return [int(word) for word in words]


def _parser() -> _Parser:
    shape = argparse.RawDescriptionHelpFormatter
    parser = _Parser(
        prog="python3 -m taprio",
        description="Take schedules from switches and from tc, and give them back.",
        formatter_class=shape,
    )
    parser.add_argument("--version", action="version", version=f"taprio {__version__}")
    jobs = parser.add_subparsers(dest="job", metavar="JOB", required=True)
    for job, text in (("import", "write schedules as tc lines"), ("export", "write schedules in another form")):
        one = jobs.add_parser(job, help=text, description=text.capitalize() + ".", formatter_class=shape, epilog=_HELP)
        one.add_argument("files", metavar="FILE", nargs="*", default=["-"], help="a file; - or nothing is the standard input")
        one.add_argument("--from", dest="source", choices=FORMS, help="the form of the input (default: found by its content)")
        if job == "export":
            one.add_argument("--to", choices=FORMS, required=True, help="the form of the output")
        one.add_argument("--dev", metavar="NAME", help="take this device alone; a device without a name gets it")
        sides = "in force (oper), set or pending (admin), both, or one: oper where it is there"
        default = "one" if job == "import" else "both"
        one.add_argument(
            "--side", choices=("one", "oper", "admin", "both"), default=default, help=f"{sides} (default: {default})"
        )
        one.add_argument(
            "--map", type=_map, metavar="CLASSES", help="the class of each priority, for qcw without a traffic class table"
        )
    return parser


def _octets(path: str) -> bytes:
    if path == "-":
        return sys.stdin.buffer.read()
    with open(path, "rb") as file:
        return file.read()


def _read(octets: bytes, form: Form | None, map_: list[int] | None, device: str | None) -> tuple[list[Configured], Form]:
    """The schedules of a file, and its form."""
    try:
        text = octets.decode().removeprefix("\ufeff")
    except UnicodeDecodeError as wrong:
        raise BadSchedule(f"octet {wrong.start}", "a text in UTF-8", f"{octets[wrong.start]:#04x}") from None
    found = form or form_of(text)
    return (read_qcw(text, map_, device) if found == "qcw" else read(text, found, device)), found


def _of_device(found: list[Configured], device: str | None) -> list[Configured]:
    """The schedules of a device; those without a name get it."""
    if device is None:
        return found
    chosen = [dataclasses.replace(it, device=device) for it in found if it.device in (None, device)]
    if not chosen:
        raise BadSchedule("/", f"a schedule of {device}", ", ".join(sorted({str(it.device) for it in found})))
    return chosen


def _of_side(found: list[Configured], side: str) -> list[Configured]:
    """The schedules of a side. Where one of two is taken and they differ, a warning says so."""
    if side == "both":
        return found
    if side != "one":
        chosen = [it for it in found if it.side == side]
        if not chosen:
            raise BadSchedule("/", f"a schedule of the side {side}", "the other side")
        return chosen
    in_force = {it.device: it.schedule for it in found if it.side == "oper"}
    chosen = []
    for it in found:
        if it.side == "admin" and it.device in in_force:
            if it.schedule != in_force[it.device]:
                warnings.warn(f"{it.place}: the admin schedule is left out (--side admin, --side both)", LeftOut, stacklevel=2)
        else:
            chosen.append(it)
    return chosen


def _as_in(found: list[Configured], form: Form, to: Form) -> list[Configured]:
    """A `tc` line has no side: in what tc shows it is the schedule in force."""
    return [dataclasses.replace(it, side="oper") for it in found] if form == "tc" and to in ("show", "json") else found


def main(words: list[str]) -> int:
    """Runs the command, and gives its exit status."""
    try:
        given = _parser().parse_args(words)
    except SystemExit as end:
        return end.code if isinstance(end.code, int) else WORDS
    to: Form = given.to if given.job == "export" else "tc"
    found: list[Configured] = []
    name = ""
    told: list[str] = []
    try:
        with warnings.catch_warnings(record=True) as said:
            warnings.simplefilter("always")
            for path in given.files:
                name = "standard input" if path == "-" else path
                read_, form = _read(_octets(path), given.source, given.map, given.dev)
                # (a tc line sets a schedule, and each is taken)
                chosen = _of_device(read_, given.dev)
                found += _as_in(chosen if form == "tc" else _of_side(chosen, given.side), form, to)
                told += [f"taprio: {name}: {it.message}\n" for it in said]
                said.clear()
            name = "output" if len(given.files) > 1 else name
            text = write(found, to)
            told += [f"taprio: {name}: {it.message}\n" for it in said]
    except BadSchedule as fault:
        print(f"taprio: {name}: {fault}", file=sys.stderr)
        return INPUT
    except OSError as fault:
        print(f"taprio: cannot open {name}: {fault.strerror}", file=sys.stderr)
        return MACHINE
    sys.stderr.write("".join(told))
    try:
        sys.stdout.buffer.write(text.encode())
        sys.stdout.buffer.flush()
    except OSError as fault:
        if not isinstance(fault, BrokenPipeError):
            print(f"taprio: write failed: {fault.strerror}", file=sys.stderr)
        # What is left in the buffer is not tried again when the interpreter ends.
        os.dup2(os.open(os.devnull, os.O_WRONLY), sys.stdout.fileno())
        return MACHINE
    return 0
