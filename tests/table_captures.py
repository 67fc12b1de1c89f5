"""The frames of a table of streams as a capture (`streams --capture`), and what a replay of it gives."""
import random
import re
import struct
import subprocess
import tempfile
import pathlib

from rows import Row, captured, run

TO_FILE = ["streams", "--capture", "out"]
TO_ANSWERS = ["streams", "--capture", "-"]


def frame(id, priority, length, is_tagged=False):
    """The octets of a frame: two addresses, a tag where it has one or a priority to tell, the type of local experiments, its id, and zeros."""
    octets = bytes.fromhex("020000000002 020000000001")
    if is_tagged or priority > 0:
        octets += bytes([0x81, 0, priority << 5, 0])
    octets += bytes.fromhex("88b5") + id.to_bytes(8, "big")
    return octets[:length].ljust(min(length, 262144), b"\0")


def of(frames):
    """The capture of frames: each with its moment in nanoseconds, and its octets."""
    return captured(frames)


def fault(name, table, text, words=(), status=3):
    """A table that a capture can't have, to standard output and to a file: nothing of it is written."""
    told = f"taprio_port: {text}\n".encode()
    return [
        Row(f"{name}, to standard output", [*TO_ANSWERS, *words], table, errors=told, status=status),
        Row(f"{name}, to a file", [*TO_FILE, *words], table, errors=told, status=status, written={"out": b""}),
    ]


TWO = b"""# id priority len period offset count
stream 7 5 64 250us 10us 2 jitter 4us
stream 1 0 60 1ms 0ns 1 deadline 1ms
stream 100 0 1514 500us 10us 1 tagged
"""
TWO_CAPTURED = of(
    [(0, frame(1, 0, 60)), (10_000, frame(7, 5, 64)), (10_000, frame(100, 0, 1514, True)), (260_000, frame(8, 5, 64))]
)
LAST = b"stream 1 0 60 1s 4294967295s 1\n"


def rows_of_captures():
    """What is written, and where."""
    late = of([(0, frame(1, 0, 60)), (10_000, frame(100, 0, 1514, True)), (14_000, frame(7, 5, 64)), (264_000, frame(8, 5, 64))])
    return [
        Row("a capture is written into a file, and nothing is answered", TO_FILE, TWO, output=b"", written={"out": TWO_CAPTURED}),
        Row("a file that is there is written anew", TO_FILE, TWO, {"out": bytes(100_000)}, output=b"", written={"out": TWO_CAPTURED}),
        Row("with - the capture goes to standard output", TO_ANSWERS, TWO, output=TWO_CAPTURED),
        Row("a file of the name - is reached by a folder", ["streams", "--capture", "./-"], TWO, output=b"", written={"-": TWO_CAPTURED}),
        Row("frames that come as late as they may", [*TO_ANSWERS, "--late"], TWO, output=late),
        Row("offsets count from a moment", [*TO_ANSWERS, "--from", "1ms"], b"stream 1 0 60 1us 2us 1\n", output=of([(1_002_000, frame(1, 0, 60))])),
        Row("a moment is rounded down to a nanosecond", TO_ANSWERS, b"stream 1 0 60 1us 1999ps 1\n", output=of([(1, frame(1, 0, 60))])),
        Row("a table without a frame", TO_ANSWERS, b"stream 1 0 60 1us 0us 0\n", output=of([])),
        Row("an empty table", TO_ANSWERS, b"", output=of([])),
        Row("frames that are shorter than their header", TO_ANSWERS, b"stream 1 0 5 1us 0us 1\n", output=of([(0, frame(1, 0, 5))])),
        Row("the shortest frame with a tag", TO_ANSWERS, b"stream 1 7 18 1us 0us 1\n", output=of([(0, frame(1, 7, 18))])),
        Row("a frame longer than a record", TO_ANSWERS, b"stream 1 0 300000 1us 0us 1\n", output=of([(0, frame(1, 0, 300_000), 300_000)])),
        Row("the greatest id", TO_ANSWERS, b"stream 18446744073709551615 0 60 1us 0us 1\n", output=of([(0, frame(2**64 - 1, 0, 60))])),
        Row("the last second of a capture", TO_ANSWERS, LAST, output=of([(4294967295 * 10**9, frame(1, 0, 60))])),
    ]


def rows_of_faults():
    """What a capture can't have, and words that don't go together."""
    port = b"stream 1 0 60 1us 0us 1\nstream 2 8 60 1us 0us 1\n"
    return [
        *fault("a priority that a tag can't say", port, "table line 2: BadNumber"),
        *fault("a frame too short for its tag", b"stream 1 1 17 1us 0us 1\n", "table line 1: BadNumber"),
        *fault("the shortest frame too short for its tag", b"stream 1 0 60 1us 0us 1 tagged shortest 17\n", "table line 1: BadNumber"),
        *fault("a frame after the last second", b"stream 1 0 60 1s 4294967295s 2\n", "table line 1: ClockTooLate"),
        *fault("a frame that may come after it", b"stream 1 0 60 1s 4294967295s 1 jitter 1s\n", "table line 1: ClockTooLate"),
        *fault("a frame after it, by --from", LAST, "table line 1: ClockTooLate", ["--from", "1s"]),
        *fault("more frames than 2,000,000", b"stream 1 0 60 1us 0us 2000001\n", "table line 1: TooManyLines"),
        *fault("a line of another kind", b"frame 1 0 60\n", "table line 1: UnknownLine"),
        Row("a bad value comes first, and no file is made", [*TO_FILE, "--from", "x"], TWO, errors=b"taprio_port: bad value of --from\n", status=2, written={"out": None}),
        Row("a file in no folder", ["streams", "--capture", "no/out"], TWO, errors=b"taprio_port: cannot open no/out\n", status=4),
        Row("a script doesn't go with a capture", [*TO_FILE, "--with", "script"], TWO, {"script": b""}, errors=None, errors_begin=b"error: ", status=2, written={"out": None}),
        Row("a malformed line, with a hint", [*TO_ANSWERS, "--explain"], b"strem 1 0 60 1us 0us 1\n", status=3, errors=b"taprio_port: table line 1: UnknownLine\n"
            b"    strem 1 0 60 1us 0us 1\n    ^^^^^\n    a line of a table begins with stream; perhaps: stream\n"),
        Row("two streams that share ids, in a strict run", [*TO_FILE, "--strict"], b"stream 1 0 60 1us 0us 2\nstream 2 0 60 1us 9us 1\n", errors=None,
            errors_begin=b"taprio_port: warning: table lines ", status=1, written={"out": of([(0, frame(1, 0, 60)), (1000, frame(2, 0, 60)), (9000, frame(2, 0, 60))])}),
    ]


def rows():
    return rows_of_captures() + rows_of_faults()


def case_the_table_is_not_overwritten(program):
    """Where OUT is the file that standard input reads, by another name too, it stays as it was."""
    with tempfile.TemporaryDirectory(prefix="taprio-row-") as folder:
        table = pathlib.Path(folder) / "table"
        table.write_bytes(TWO)
        (table.parent / "link").symlink_to("table")
        for name in ["table", "./table", "link"]:
            with open(table, "rb") as source:
                ran = subprocess.run([program, "streams", "--capture", name], stdin=source, capture_output=True, cwd=folder, check=False)
            assert (ran.returncode, ran.stdout, ran.stderr) == (2, b"", f"taprio_port: OUT is one of the inputs: {name}\n".encode()), ran
            assert table.read_bytes() == TWO


def random_table(dice):
    """A table whose moments are whole nanoseconds, with its lines' ids apart."""
    lines = []
    for number in range(dice.randint(1, 6)):
        longest = dice.randint(64, 1514)
        words = [f"stream {1000 * number} {dice.randrange(8)} {longest} {dice.randint(5, 60)}us {dice.randrange(90)}us {dice.randrange(12)}"]
        words += dice.choice([[], ["tagged"]]) + dice.choice([[], [f"shortest {dice.randint(18, longest)}"]])
        lines.append(" ".join([*words, *dice.choice([[], [f"jitter {dice.randrange(9)}us"]])]))
    return ("\n".join(lines) + "\n").encode()


def starts(answers):
    """When frames start and end, and of which class, in the order of the starts."""
    return re.findall(rb"^start \d+ (class \d+ at \d+ end \d+)$", answers, re.M)


def case_a_replay_of_the_capture_is_the_run_of_the_script(program):
    """Frames start in a replay of the capture as they do in the run of the script that the table makes."""
    dice = random.Random(11)
    started = 0
    for number in range(60):
        table = random_table(dice)
        schedule = f"tc qdisc replace dev eth0 root taprio num_tc 8 map 0 1 2 3 4 5 6 7 base-time {dice.randrange(60) * 1000}" + "".join(
            f" sched-entry S {dice.randrange(256):02x} {dice.randrange(2, 40) * 1000}" for _ in range(dice.randint(1, 4))
        )
        script = schedule.encode() + b"\n"
        words = dice.choice([[], ["--late"]])
        beside = run(program, ["streams", *words, "--with", "script"], table, {"script": script}).output
        wanted = run(program, ["script", "--until", "2ms"], beside)
        capture = run(program, [*TO_ANSWERS, *words], table).output
        got = run(program, ["replay", "--until", "2ms", "script", "-", "out"], capture, {"script": script})
        assert (got.status, wanted.status) == (0, 0), (number, got, wanted)
        assert starts(got.output) == starts(wanted.output), (number, table, script)
        started += len(starts(got.output))
    assert started > 500


def case_drawn_frames_are_those_of_the_script(program):
    """With a seed the records have the lengths, the priorities and the ids of the script's frames, and their moments, rounded down."""
    dice = random.Random(12)
    for number in range(20):
        table = random_table(dice)
        words = ["--seed", str(dice.randrange(2**64))]
        wanted, moment = [], 0
        for line in run(program, ["streams", *words], table).output.decode().splitlines():
            name, *values = line.split()
            if name == "clock":
                moment = int(values[0]) // 1000
            else:
                wanted.append((moment, frame(int(values[0]), int(values[1]), int(values[2]), "tagged" in values)))
        assert run(program, [*TO_ANSWERS, *words], table).output == of(wanted), (number, table, words)


def case_more_frames_than_a_buffer(program):
    """2,000,000 frames, of which 30 octets each are told: 76 MB, and as many records."""
    capture = run(program, TO_ANSWERS, b"stream 0 0 22 1us 0us 2000000\n").output
    assert len(capture) == 24 + 2_000_000 * (16 + 22)
    second, rest, kept, length = struct.unpack("<IIII", capture[-38:-22])
    assert (second, rest, kept, length) == (1, 999_999_000, 22, 22)
    assert capture[-8:] == (1_999_999).to_bytes(8, "big")
