"""The jobs of the program as calls over the program itself: a process each, for where there is no shared object."""

from __future__ import annotations

import functools
import os
import pathlib
import shutil
import subprocess
import sys
import tempfile
from collections.abc import Iterable
from typing import NoReturn, Protocol, Union

from . import library
from .faults import BAD_INPUT, BAD_VALUE, NO_PLAN, LibraryMissing, Replay, TaprioError, of_text
from .library import Library, Octets, cycle_of, number, octets, seed_of, silent_classes, stamp_is_end, streams_or_capture

__all__ = ["Backend", "Chosen", "Program", "backend"]


class Backend(Protocol):
    """What runs the jobs: a `Library` or a `Program`. Moments are in picoseconds, rates in Mb/s, sizes in octets."""

    def run(
        self, script: Octets, rate: int = 1000, mtu: int = 1500, room: int = 128, until: int | None = None, summary: bool = False
    ) -> bytes:
        """The answers of a script."""

    def frames(
        self,
        script: Octets,
        rate: int = 1000,
        mtu: int = 1500,
        room: int = 128,
        until: int | None = None,
        streams: Octets | None = None,
        capture: Octets | None = None,
    ) -> bytes:
        """The table of the frames of a script, or of a capture, as comma-separated values; with `streams` also the stream of each."""

    def check(self, schedules: Octets, rate: int = 1000, windows: bool = False, shares: bool = False) -> bytes:
        """What schedules keep apart, what is shared, and their windows."""

    def streams(
        self, table: Octets, script: Octets = b"", from_: int = 0, late: bool = False, seed: int | None = None
    ) -> bytes:
        """A script with the frames of a table, whose offsets count from `from_`; with `late` each at its latest moment, and with a `seed`
        at one that it draws."""

    def bounds(
        self,
        table: Octets,
        schedules: Octets,
        rate: int = 1000,
        mtu: int = 1500,
        room: int = 128,
        frames: int = 1_000_000,
        slack: bool = False,
        silent: Iterable[int] = (),
        leftovers: bool = False,
        why: bool = False,
    ) -> bytes:
        """How long the frames of a table wait under each schedule, for ever; with `slack` also how much jitter each stream may have, and
        with `why` what its greatest wait is made of. The classes in `silent` send nothing, and with `leftovers` frames may wait from
        before the schedule."""

    def paths(
        self,
        network: Octets,
        schedules: Octets,
        rate: int = 1000,
        mtu: int = 1500,
        room: int = 128,
        frames: int = 1_000_000,
        silent: Iterable[int] = (),
        leftovers: bool = False,
    ) -> bytes:
        """How long the frames of a network's streams take from end to end, for ever, under the schedules of its ports."""

    def plan(
        self,
        table: Octets,
        rate: int = 1000,
        mtu: int = 1500,
        room: int = 128,
        cycle: int | None = None,
        entries: int = 256,
        least_interval: int = 0,
        base_time: int = 0,
        share: bool = False,
        device: str = "eth0",
    ) -> bytes:
        """A schedule by which the streams of a table meet their deadlines, or one for each port of a network."""

    def draw(
        self,
        script: Octets,
        rate: int = 1000,
        mtu: int = 1500,
        room: int = 128,
        until: int | None = None,
        begin: int | None = None,
        end: int | None = None,
        width: int = 1200,
    ) -> bytes:
        """A picture of a run, as SVG."""

    def replay(
        self,
        script: Octets,
        capture: Octets,
        rate: int = 1000,
        mtu: int = 1500,
        room: int = 128,
        until: int | None = None,
        summary: bool = False,
        stamp: str = "start",
    ) -> Replay:
        """The report of a replay, and the capture of what leaves."""


class Program:
    """The program `taprio_port` at a path, with the calls of the library: the same inputs, outputs and exceptions.

    Each call is a process of its own, which takes some milliseconds. What the machine refuses (a file, a read, a write) is a
    `TaprioError` with the program's text.
    """

    def __init__(self, path: str | os.PathLike[str]) -> None:
        self.path = os.path.abspath(os.fspath(path))

    def __repr__(self) -> str:
        return f"Program({self.path!r})"

    def _ran(self, words: list[str], input: bytes, folder: str | None = None, also: int = BAD_INPUT) -> tuple[int, str, bytes]:
        """The status, the fault's text and the standard output. `also` is a status that the job has beside those of all."""
        try:
            ran = subprocess.run([self.path, *words], input=input, capture_output=True, cwd=folder, check=False)
        except OSError as fault:
            raise TaprioError(f"the program can't be run: {fault}") from fault
        lines = ran.stderr.decode("utf-8", "replace").splitlines()
        # (in a checkout the script of the same name says before it whether the program is proved)
        text = lines[-1] if lines else ""
        if ran.returncode and text == "taprio_port: out of memory":
            raise MemoryError("out of memory")
        if ran.returncode not in (0, BAD_VALUE, BAD_INPUT, also):
            raise TaprioError(text.removeprefix("taprio_port: ") or f"the program ended with status {ran.returncode}")
        return ran.returncode, text, ran.stdout

    def _one(self, words: list[str], input: bytes) -> bytes:
        status, text, output = self._ran(words, input)
        if status:
            raise of_text(status, text, output)
        return output

    @staticmethod
    def _port(rate: int, mtu: int, room: int, until: int | None, summary: bool) -> list[str]:
        words = ["--rate", str(number(rate, 32, "rate")), "--mtu", str(number(mtu, 32, "mtu"))]
        words += ["--room", str(number(room, 32, "room"))]
        words += [] if until is None else ["--until", str(number(until, 128, "until"))]
        return words + (["--summary"] if summary else [])

    @staticmethod
    def _asked(frames: int, silent: Iterable[int], leftovers: bool) -> list[str]:
        """What is asked of bounds and of paths."""
        classes = silent_classes(silent)
        words = ["--frames", str(number(frames, 64, "frames")), *(["--silent", ",".join(map(str, classes))] if classes else [])]
        return words + (["--leftovers"] if leftovers else [])

    def run(
        self, script: Octets, rate: int = 1000, mtu: int = 1500, room: int = 128, until: int | None = None, summary: bool = False
    ) -> bytes:
        """Runs a script, as `taprio.run` does."""
        script = octets(script)
        return self._one(["script", *self._port(rate, mtu, room, until, summary)], script)

    def frames(
        self,
        script: Octets,
        rate: int = 1000,
        mtu: int = 1500,
        room: int = 128,
        until: int | None = None,
        streams: Octets | None = None,
        capture: Octets | None = None,
    ) -> bytes:
        """Runs a script, and gives a table of its frames, as `taprio.library.frames` does."""
        streams_or_capture(streams, capture)
        script = octets(script)
        words = ["frames", *self._port(rate, mtu, room, until, False)]
        if capture is not None:
            return self._with_file([*words, "--capture", "capture"], "capture", octets(capture), script)
        if streams is None:
            return self._one(words, script)
        return self._with_file([*words, "--by-stream", "table"], "table", octets(streams), script)

    def check(self, schedules: Octets, rate: int = 1000, windows: bool = False, shares: bool = False) -> bytes:
        """Tells of each schedule command what it keeps apart, as `taprio.check` does."""
        schedules = octets(schedules)
        words = ["check", "--rate", str(number(rate, 32, "rate")), *(["--shares"] if shares else []), *(["--windows"] if windows else [])]
        return self._one(words, schedules)

    def _with_file(self, words: list[str], name: str, content: bytes, input: bytes) -> bytes:
        """The output where the words name a file of this content."""
        with tempfile.TemporaryDirectory(prefix="taprio-") as folder:
            pathlib.Path(folder, name).write_bytes(content)
            status, text, output = self._ran(words, input, folder)
        if status:
            raise of_text(status, text, output)
        return output

    def streams(
        self, table: Octets, script: Octets = b"", from_: int = 0, late: bool = False, seed: int | None = None
    ) -> bytes:
        """Makes a script of a table of streams, as `taprio.streams` does."""
        table, script = octets(table), octets(script)
        words = ["streams", "--with", "script", *([] if from_ == 0 else ["--from", str(number(from_, 128, "from_"))]), *(["--late"] if late else [])]
        words += [] if seed is None else ["--seed", str(seed_of(seed, late))]
        return self._with_file(words, "script", script, table)

    def bounds(
        self,
        table: Octets,
        schedules: Octets,
        rate: int = 1000,
        mtu: int = 1500,
        room: int = 128,
        frames: int = 1_000_000,
        slack: bool = False,
        silent: Iterable[int] = (),
        leftovers: bool = False,
        why: bool = False,
    ) -> bytes:
        """Tells how long the frames of a table wait under each schedule, as `taprio.library.bounds` does."""
        table, schedules = octets(table), octets(schedules)
        words = ["bounds", *self._port(rate, mtu, room, None, False), *self._asked(frames, silent, leftovers)]
        words += [*(["--slack"] if slack else []), *(["--why"] if why else [])]
        return self._with_file([*words, "table"], "table", table, schedules)

    def paths(
        self,
        network: Octets,
        schedules: Octets,
        rate: int = 1000,
        mtu: int = 1500,
        room: int = 128,
        frames: int = 1_000_000,
        silent: Iterable[int] = (),
        leftovers: bool = False,
    ) -> bytes:
        """Tells how long the frames of a network's streams take from end to end, as `taprio.library.paths` does."""
        network, schedules = octets(network), octets(schedules)
        words = ["paths", *self._port(rate, mtu, room, None, False), *self._asked(frames, silent, leftovers)]
        return self._with_file([*words, "network"], "network", network, schedules)

    def plan(
        self,
        table: Octets,
        rate: int = 1000,
        mtu: int = 1500,
        room: int = 128,
        cycle: int | None = None,
        entries: int = 256,
        least_interval: int = 0,
        base_time: int = 0,
        share: bool = False,
        device: str = "eth0",
    ) -> bytes:
        """Finds a schedule for a table, or those for a network, as `taprio.plan` does."""
        table, cycle = octets(table), cycle_of(cycle)
        words = ["plan", *self._port(rate, mtu, room, None, False), f"--device={device}", "--entries", str(number(entries, 32, "entries"))]
        words += ["--least-interval", f"{number(least_interval, 64, 'least_interval')}ns"]
        words += ["--base-time", str(number(base_time, 64, "base_time")), *(["--share"] if share else [])]
        words += [] if cycle is None else ["--cycle", f"{number(cycle, 64, 'cycle')}ns"]
        with tempfile.TemporaryDirectory(prefix="taprio-") as folder:
            pathlib.Path(folder, "table").write_bytes(table)
            status, text, output = self._ran([*words, "table"], b"", folder, also=NO_PLAN)
        if status:
            raise of_text(status, text, output)
        return output

    def draw(
        self,
        script: Octets,
        rate: int = 1000,
        mtu: int = 1500,
        room: int = 128,
        until: int | None = None,
        begin: int | None = None,
        end: int | None = None,
        width: int = 1200,
    ) -> bytes:
        """Draws the run of a script, as `taprio.draw` does."""
        script = octets(script)
        words = ["draw", *self._port(rate, mtu, room, until, False)]
        words += [] if begin is None else ["--from", str(number(begin, 128, "begin"))]
        words += [] if end is None else ["--to", str(number(end, 128, "end"))]
        return self._one([*words, "--width", str(number(width, 32, "width"))], script)

    def replay(
        self,
        script: Octets,
        capture: Octets,
        rate: int = 1000,
        mtu: int = 1500,
        room: int = 128,
        until: int | None = None,
        summary: bool = False,
        stamp: str = "start",
    ) -> Replay:
        """Replays a script and a capture, as `taprio.replay` does."""
        script, capture = octets(script), octets(capture)
        stamped = ["--stamp", "end"] if stamp_is_end(stamp) else []
        words = ["replay", *self._port(rate, mtu, room, until, summary), *stamped, "script", "-", "departures"]
        with tempfile.TemporaryDirectory(prefix="taprio-") as folder:
            pathlib.Path(folder, "script").write_bytes(script)
            status, text, report = self._ran(words, capture, folder)
            departures = pathlib.Path(folder, "departures")
            found = Replay(report, departures.read_bytes() if departures.exists() else b"")
        if status:
            raise of_text(status, text, found)
        return found


BESIDE = pathlib.Path(__file__).resolve().parent / "taprio_port"
CHECKOUT = pathlib.Path(__file__).resolve().parents[3] / "taprio_port"


@functools.lru_cache(maxsize=None)
def of_checkout(path: str, word: str = "--where") -> str | None:
    """The program of a checkout, from the script of that name. With `--where` the script builds one where there is none, and says so on the
    standard error; it takes about a minute. With `--built` it builds none. None where there is no script, or it can't."""
    if not os.path.isfile(path):
        return None
    with open(path, "rb") as file:
        if file.read(2) != b"#!":
            return path
    ran = subprocess.run([path, word], stdin=subprocess.DEVNULL, stdout=subprocess.PIPE, text=True, check=False)
    return ran.stdout.strip() or None if ran.returncode == 0 else None


def found() -> str | None:
    """The program that is there: the one in the package, that of the checkout where it is built, the one on the PATH, and the one that the
    checkout builds. None where there is none."""
    if os.access(BESIDE, os.X_OK):
        return str(BESIDE)
    return of_checkout(str(CHECKOUT), "--built") or shutil.which("taprio_port") or of_checkout(str(CHECKOUT))


def command() -> NoReturn:
    """The command `taprio_port` of an installed package: the program that it has."""
    os.execv(BESIDE, [str(BESIDE), *sys.argv[1:]])


Chosen = Union[Backend, str, "os.PathLike[str]", None]
"""A backend, or "library", or the path of a program, or None for what there is."""


def backend(chosen: Chosen = None) -> Backend:
    """What runs the jobs: "library" is the shared object, and any other text the path of the program.

    None takes the first that there is: the program that the variable TAPRIO_PORT of the environment names, the shared object, and the
    program: the one in the package, that of the checkout, or `taprio_port` on the PATH. In a checkout without any it is built, which
    takes about a minute. Raises `LibraryMissing` where there is none.
    """
    if chosen is None:
        named = os.environ.get("TAPRIO_PORT")
        if named:
            return Program(named)
        if library.is_there():
            return Library()
        program = found()
        if program:
            return Program(program)
        raise LibraryMissing(
            "there is nothing that runs a port: put the program taprio_port on the PATH, or name it in TAPRIO_PORT; or build the library with "
            "bindings/c/build, or name it in TAPRIO_LIBRARY"
        )
    if isinstance(chosen, (str, os.PathLike)):
        if chosen == "library":
            return Library()
        return Program(chosen)
    return chosen
