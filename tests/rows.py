"""Rows: words and an input for the program, and what has to come out. Standard library alone (Python 3.11).

A row stands in a TOML file of this folder (CONTRIBUTING.md shows one), or is made by a function of a Python file there."""
import dataclasses
import os
import shlex
import struct
import subprocess
import sys
import tempfile
import threading
import tomllib

SECONDS = 60


@dataclasses.dataclass(frozen=True)
class Row:
    """Words and an input, and what is wanted of the program."""

    name: str
    # The words behind the program's name.
    words: list
    # The standard input.
    input: bytes = b""
    # Files that lie in the folder where the program runs, by name.
    files: dict = dataclasses.field(default_factory=dict)
    # The standard output, whole; or None, and what it begins with and has somewhere.
    output: bytes | None = b""
    output_begins: bytes = b""
    output_has: bytes = b""
    # Lines that stand in it, each once; and how many of its lines begin so.
    output_lines: list = dataclasses.field(default_factory=list)
    output_begun: dict = dataclasses.field(default_factory=dict)
    # The standard error, in the same way.
    errors: bytes | None = b""
    errors_begin: bytes = b""
    # What the files hold afterwards, by name; None where there may be no such file.
    written: dict = dataclasses.field(default_factory=dict)
    status: int = 0


@dataclasses.dataclass(frozen=True)
class Ran:
    """What a run of the program has left."""

    status: int
    output: bytes
    errors: bytes
    # What the files of its folder hold, by name.
    files: dict


def run(program, words, input=b"", files=None, **how):
    """Runs the program in a folder of its own, with these files in it; `how` goes to subprocess.run."""
    with tempfile.TemporaryDirectory(prefix="taprio-row-") as folder:
        for name, octets in (files or {}).items():
            with open(os.path.join(folder, name), "wb") as file:
                file.write(octets)
        given = {"input": input, "stdout": subprocess.PIPE, "stderr": subprocess.PIPE, "timeout": SECONDS, "cwd": folder} | how
        ran = subprocess.run([program, *words], **given)
        left = {}
        for name in os.listdir(folder):
            path = os.path.join(folder, name)
            if os.path.isfile(path):
                with open(path, "rb") as file:
                    left[name] = file.read()
        return Ran(ran.returncode, ran.stdout or b"", ran.stderr or b"", left)


def run_fed(program, words, pieces, files=None, **how):
    """The same with these pieces as the standard input, one after another, for as long as the program reads; they may have no end."""
    reader, writer = os.pipe()

    def feed():
        try:
            with open(writer, "wb") as pipe:
                for piece in pieces:
                    pipe.write(piece)
        except BrokenPipeError:
            pass

    feeding = threading.Thread(target=feed)
    feeding.start()
    try:
        with open(reader, "rb") as source:
            return run(program, words, None, files, stdin=source, **how)
    finally:
        feeding.join()


def shown(octets):
    """Octets as a person reads them, at most some lines."""
    text = octets.decode("latin-1")
    return text if len(text) <= 2000 else f"{text[:1000]}\n[.. {len(text) - 2000} octets ..]\n{text[-1000:]}"


def differs(what, wanted, got):
    """Says in what two texts differ, with the first line that does."""
    if wanted == got:
        return ""
    wanted_lines, got_lines = wanted.split(b"\n"), got.split(b"\n")
    for number, (one, other) in enumerate(zip(wanted_lines, got_lines), 1):
        if one != other:
            return f"{what}, line {number}:\n  wanted: {shown(one)!r}\n  got:    {shown(other)!r}\n"
    return f"{what}: {len(wanted_lines)} lines are wanted, and there are {len(got_lines)}; the first {min(len(wanted_lines), len(got_lines))} are alike\n"


def judge(row, ran):
    """Says in what a run differs from what its row wants; nothing where it doesn't."""
    told = ""
    if ran.status != row.status:
        told += f"status: {row.status} is wanted, got {ran.status}\n"
    for what, got, whole, begins in [
        ("standard output", ran.output, row.output, row.output_begins),
        ("standard error", ran.errors, row.errors, row.errors_begin),
    ]:
        if whole is not None:
            told += differs(what, whole, got)
        elif not got.startswith(begins):
            told += differs(what, begins, got[: len(begins)])
    if row.output_has not in ran.output:
        told += f"standard output: {shown(row.output_has)!r} stands nowhere in it\n"
    lines = ran.output.split(b"\n") if row.output_lines or row.output_begun else []
    for line in row.output_lines:
        if lines.count(line) != 1:
            told += f"standard output: the line {shown(line)!r} stands in it {lines.count(line)} times, not once\n"
    for front, wanted in row.output_begun.items():
        got = sum(line.startswith(front) for line in lines)
        if got != wanted:
            told += f"standard output: {wanted} lines are to begin with {shown(front)!r}, and {got} do\n"
    for name, octets in row.written.items():
        if octets is None and name in ran.files:
            told += f"file {name}: it is there, and should not be\n"
        elif octets is not None and ran.files.get(name) is None:
            told += f"file {name}: it isn't there\n"
        elif octets is not None:
            told += differs(f"file {name}", octets, ran.files[name])
    return told


def captured(records, nanoseconds=True):
    """A classic capture (little-endian, Ethernet) of records `(moment, octets)` or `(moment, octets, original length)`, with moments in
    nanoseconds, or in microseconds where it has those."""
    found = [struct.pack("<IHHiIII", 0xA1B23C4D if nanoseconds else 0xA1B2C3D4, 2, 4, 0, 0, 262144, 1)]
    for moment, octets, *length in records:
        second, rest = divmod(moment, 10**9 if nanoseconds else 10**6)
        found += [struct.pack("<IIII", second, rest, len(octets), *(length or [len(octets)])), octets]
    return b"".join(found)


def tagged(priority, octets):
    """The front of an Ethernet frame with a customer tag of this priority, filled with zeros to so many octets."""
    return (bytes([2, 0, 0, 0, 0, 2, 2, 0, 0, 0, 0, 1, 0x81, 0, priority << 5, 5, 8, 0]) + bytes(octets))[:octets]


def octets(value):
    """The octets of a text of a TOML file, where each character is one."""
    return value.encode("latin-1")


def file_octets(value):
    """A file of a row, or its input: its text; or `{ hex = ".." }`; or `{ capture = [[moment, octets, priority], ..] }`: frames of that many
    octets, with a customer tag, at moments in nanoseconds. A fourth number is the original length, where more was on the wire."""
    if isinstance(value, str):
        return octets(value)
    if "hex" in value:
        return bytes.fromhex(value["hex"])
    return captured([(moment, tagged(priority, length), *original) for moment, length, priority, *original in value["capture"]])


TEXTS = ("input", "output", "output_begins", "output_has", "errors", "errors_begin")


def read(path):
    """The rows of a TOML file. What `[all]` says there holds of each row that doesn't say it itself."""
    with open(path, "rb") as file:
        table = tomllib.load(file)
    for entry in table["row"]:
        given = {**table.get("all", {}), **entry}
        row = {key: file_octets(value) if key in TEXTS else value for key, value in given.items()}
        row["words"] = shlex.split(row["words"]) if isinstance(row["words"], str) else row["words"]
        for key in ("files", "written"):
            row[key] = {name: file_octets(value) for name, value in row.get(key, {}).items()}
        if "output_lines" in row:
            row["output_lines"] = [octets(line) for line in row["output_lines"]]
        if "output_begun" in row:
            row["output_begun"] = {octets(front): count for front, count in row["output_begun"].items()}
        for name in row.pop("not_written", []):
            row["written"][name] = None
        for part in ("output_begins", "output_has", "output_lines", "output_begun", "errors_begin"):
            if part in row:
                row.setdefault(part.split("_")[0], None)
        yield Row(**row)


if __name__ == "__main__":
    sys.exit("run ./test --quick")
