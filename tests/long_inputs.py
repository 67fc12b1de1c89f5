"""Rows and cases whose input is long or made by a rule: long lines, full lists, long runs."""
import pathlib

from rows import Row, read, run

HALF = b"tc qdisc replace dev eth0 root taprio num_tc 2 map 0 1 sched-entry S 02 50000 sched-entry S 01 50000\n"

# One octet more than a line may have.
LONG_LINE = b"#" * 65537

# A script with a schedule, queries and moments.
SCRIPT = (
    b"# the schedule\ntc qdisc replace\nquery\nclock 100\ncount 5\nclock 250000000\nquery\nclock 300000000\nquery\n"
    b"clock 500000001\nquery"
)


def rows():
    yield Row(
        "streams: before a line of the script that is too long its lines and their frames are written",
        ["streams", "--with", "plan.script"],
        input=b"stream 1 5 60 6ps 0s 3\n",
        files={"plan.script": b"clock 5\n\nclock 7\n" + LONG_LINE},
        output=b"clock 0\nframe 1 5 60\nclock 5\n\nclock 6\nframe 2 5 60\nclock 7\n",
        errors=b"taprio_port: script line 4: LongLine\n",
        status=3,
    )
    yield Row(
        "streams: a line of the table is too long: nothing of the script is written",
        ["streams", "--with", "plan.script"],
        input=LONG_LINE,
        files={"plan.script": SCRIPT},
        errors=b"taprio_port: table line 1: LongLine\n",
        status=3,
    )
    yield Row(
        "streams: a fault of the table is told before one of the script",
        ["streams", "--with", "plan.script"],
        input=b"stream 1 5 60 1us 0s\n",
        files={"plan.script": b"query\n" + LONG_LINE},
        errors=b"taprio_port: table line 1: WordCount\n",
        status=3,
    )
    yield Row(
        "streams: a long line of the script before any clock line ends the output before all frames",
        ["streams", "--with", "plan.script"],
        input=b"stream 1 5 60 1us 0s 1\n",
        files={"plan.script": b"query\n" + LONG_LINE},
        output=b"query\n",
        errors=b"taprio_port: script line 2: LongLine\n",
        status=3,
    )
    stream, bound = b"stream 1 1 60 1ms 0s 1\n", b"bound 1 class 1 wait 0 to 0 end 672000 to 672000\n"
    answer = b"apart 0 1\nclass 1 most 1 of 128 frames 1 every 1000000000\n" + bound
    for name, table, schedules, output, errors in [
        ("a line of the table is too long: nothing is answered", stream + LONG_LINE, HALF, b"", b"table line 2: LongLine"),
        ("the table has too many lines", stream + b"\n" * 4_000_000, HALF, b"", b"table line 4000001: TooManyLines"),
        ("a line of the schedules is too long", stream, HALF + LONG_LINE, answer, b"script line 2: LongLine"),
        ("the schedules have too many lines", stream, HALF + b"\n" * 4_000_000, answer, b"script line 4000001: TooManyLines"),
    ]:
        yield Row(f"bounds: {name}", ["bounds", "table"], schedules, {"table": table}, output, errors=b"taprio_port: " + errors + b"\n", status=3)
    # Each frame of class 1 comes at the first moment of its window, and of class 0 too.
    yield Row(
        "bounds: ten thousand streams of two classes",
        ["bounds", "--strict", "table"],
        HALF,
        {"table": b"".join(b"stream %d %d 60 1s %dus 1 deadline 672ns\n" % (it, it % 2, 100 * (it // 2) + 50 * (1 - it % 2)) for it in range(10_000))},
        b"apart 0 1\n"
        + b"".join(b"class %d most 1 of 128 frames 5000 every 1000000000000\n" % it for it in range(2))
        + b"".join(b"bound %d class %d wait 0 to 0 end 672000 to 672000 deadline 672000 met\n" % (it, it % 2) for it in range(10_000)),
    )
    # Its first octets are those of the last physical line that there may be, which is joined with the next.
    yield Row(
        "script: a line that is too long is told before a physical line too many",
        ["script"],
        input=b"\n" * 3_999_999 + b"#" * 65_534 + b"\\\n#",
        errors=b"taprio_port: script line 4000000: LongLine\n",
        status=3,
    )
    for words in [["script"], ["script", "--rate", "1000", "--mtu", "1500", "--room", "0128"]]:
        yield Row(
            f"{' '.join(words)}: a class has room for 128 frames, and the next is dropped",
            words,
            input=b"".join(b"frame %d 0 60\n" % number for number in range(129)),
            output=b"".join(b"queued %d class 0\n" % number for number in range(128))
            + b"dropped 128 Full\nleft class 0 frames 128\n",
        )
    yield Row(
        "check: a list of 256 entries, as many as it takes",
        ["check", "--windows"],
        input=b"tc qdisc replace dev eth0 root taprio num_tc 2 map 0 1"
        + b" sched-entry S 01 1000 sched-entry S 02 1000" * 128,
        output=b"apart 0 1\n"
        b"window class 0 open 1000000 closed 1000000 share 128000000 of 256000000 frame 101 wait 1999999\n"
        b"window class 1 open 1000000 closed 1000000 share 128000000 of 256000000 frame 101 wait 1999999\n",
    )


def case_what_streams_writes_is_a_script(program):
    table = b"stream 1 5 60 1us 0s 3\nstream 10 6 60 1us 0s 1\n"
    script = run(program, ["streams"], table)
    ran = run(program, ["script", "--until", "3000000"], script.output)
    assert (script.status, script.errors, ran.status, ran.errors) == (0, b"", 0, b"")
    assert ran.output == (
        b"queued 1 class 5\nqueued 10 class 6\n"
        b"start 10 class 6 at 0 end 672000\nstart 1 class 5 at 672000 end 1344000\n"
        b"queued 2 class 5\nstart 2 class 5 at 1344000 end 2016000\n"
        b"queued 3 class 5\nstart 3 class 5 at 2016000 end 2688000\n"
    ), ran.output


def frames_drawn(program, *words):
    """The lines of a picture of 30,000 frames of 60 octets, one each 10 microseconds, and how long it is."""
    lines = (b"clock %d\nframe %d %d 60\n" % (number * 10_000_000, number, number % 8) for number in range(30_000))
    script = b"".join(lines)
    ran = run(program, ["draw", "--width", "1096", *words], script)
    assert (ran.status, ran.errors) == (0, b"")
    return ran.output.decode().split("\n"), len(ran.output)


def case_the_picture_of_a_long_run_joins_its_frames(program):
    lines, length = frames_drawn(program)
    assert sum(line.startswith('<rect class="f"') for line in lines) <= 9 * 1001 + 1
    assert length < 2_000_000


def case_a_window_of_a_long_run_shows_each_frame(program):
    lines, _length = frames_drawn(program, "--from", "250000000000", "--to", "250100000000")
    assert sum(line.startswith('<rect class="f"') for line in lines) == 2 * 10 + 1
    assert lines.count('<rect class="f" x="164.00" y="284" width="6.72" height="16"/>') == 1


def case_a_picture_is_text(program):
    """Those of the rows of `draw.toml` are: the names and numbers in them are UTF-8."""
    for row in read(pathlib.Path(__file__).with_name("draw.toml")):
        run(program, row.words, row.input).output.decode()
