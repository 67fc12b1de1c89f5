"""Scripts that `streams --with` merges: odd last lines, the limits of a script, and random ones beside scripts that are merged here by the rules
of what a script's line is."""
import random
import re

from rows import Row, run

GREATEST_MOMENT = 9223372036854775807000
TC = b"tc qdisc replace dev eth0 root taprio num_tc 2 map 0 1 sched-entry S 02 50000 sched-entry S 01 50000"
ONE = b"stream 1 5 60 1us 50ps 1\n"
ONE_FRAME = b"clock 50\nframe 1 5 60\n"


def with_script(name, script, output, table=ONE, **wanted):
    return Row(f"streams: {name}", ["streams", "--with", "plan.script"], table, {"plan.script": script}, output, **wanted)


def refused(name):
    return {"errors": b"taprio_port: " + name + b"\n", "status": 3}


def rows():
    longest = b"#" * 65_535
    for name, last in [
        ("that is a clock line", b"clock 100\\"),
        ("that is a query", b"query\\"),
        ("that is a command", TC + b" clockid TAI\\"),
        ("of two physical lines", b"count \\\n 5\\"),
        ("with a carriage return behind it", b"clock 100\\\r"),
        ("of 65,535 octets", longest[1:] + b"\\"),
    ]:
        yield with_script(f"a blank keeps a last line with a backslash {name}", b"# 1\n" + last, b"# 1\n" + last + b" \n" + ONE_FRAME)
    for name, last in [
        ("that ends with a carriage return", b"query\r"),
        ("with a backslash and a blank at its end", b"query\\ "),
        ("of blanks", b" \t "),
        ("of 65,536 octets", longest + b"#"),
    ]:
        yield with_script(f"a last line stays: one {name}", last, last + b"\n" + ONE_FRAME)
    for name, last in [("a backslash", longest + b"\\"), ("a backslash and CR", longest[1:] + b"\\\r")]:
        yield with_script(
            f"a last line of 65,536 octets has no room behind {name}",
            b"clock 100\n" + last,
            ONE_FRAME + b"clock 100\n",
            **refused(b"script line 2: LongLine"),
        )
    # Frames that come a period apart take two lines each; those of one moment take one, and one clock line.
    apart, at_once = b"stream 1 0 60 1ps 0s %d\n", b"stream 1 0 60 0s 0s %d\n"
    for name, table, line in [
        ("2,000,001 frames a period apart", apart % 2_000_001, 1),
        ("4,000,000 frames at one moment", at_once % 4_000_000, 1),
        ("more frames than can be counted soon", apart % 1 + b"stream 1 0 60 1us 0s 4294967295\n" + apart % 1, 2),
        ("the lines of many streams", b"# 2\n" + b"".join(b"stream 1 0 60 6ps %dps 400001\n" % it for it in range(6)), 6),
    ]:
        yield Row(f"streams: a script has no room for {name}", ["streams"], table, **refused(b"table line %d: TooManyLines" % line))
    yield with_script(
        "the lines of the script have no room beside those of the frames",
        b"query\n# \\\n\n\n",
        b"query\n",
        at_once % 3_999_997,
        **refused(b"script line 2: TooManyLines"),
    )
    yield with_script(
        "the lines of the script have no room beside those of few frames, which are counted there",
        b"query\nquery\nquery\n",
        b"query\nquery\n",
        apart % 1_999_999,
        **refused(b"script line 3: TooManyLines"),
    )
    yield with_script(
        "the lines of the script have no room, and the frames before the line are written",
        b"clock 3\nquery\nquery\n",
        b"clock 0\nframe 0 0 60\nclock 3\nquery\n",
        b"stream 0 0 60 5ps 0ps 2\n" + b"stream 1 0 60 0s 10ps 3999993\n",
        **refused(b"script line 3: TooManyLines"),
    )


def case_a_script_has_room_for_4_000_000_lines(program):
    for table, plan, last in [
        (b"stream 1 0 60 1ps 0s 2000000\n", b"", b"frame 2000000 0 60"),
        (b"stream 1 0 60 0s 0s 1999999\n", b"query\n" * 2_000_000, b"frame 1999999 0 60"),
        (b"stream 1 0 60 0s 0s 3999999\n", b"", b"frame 3999999 0 60"),
        (b"stream 1 0 60 0s 0s 3999996\n", b"query\n# \\\n.", b"frame 3999996 0 60"),
    ]:
        ran = run(program, ["streams", "--with", "plan.script"], table, {"plan.script": plan})
        assert (ran.status, ran.errors, ran.output.count(b"\n")) == (0, b"", 4_000_000), ran.output.count(b"\n")
        assert ran.output.endswith(last + b"\n")
    read = run(program, ["check", "--script"], ran.output)
    assert (read.status, read.errors) == (0, b""), read.errors


def lines_of(script):
    """The words of each line of a script: a backslash before LF, or before CR LF, joins the next physical line and is a blank."""
    joined = re.sub(rb"\\\r?\n", b"  ", script)
    *lines, last = joined.split(b"\n")
    return [[word for word in re.split(rb"[ \t\r]+", line) if word] for line in (lines + [last] if last else lines)]


def clock_of(words):
    """The moment of a good clock line."""
    if len(words) == 2 and words[0] == b"clock" and words[1].isdigit() and int(words[1]) <= GREATEST_MOMENT:
        return int(words[1])
    return None


def merged_here(frames, script):
    """The words of a script's lines, each line with a tab at its end, among frames by rising moment: a clock line before each."""
    output, moment = [], 0

    def frames_before(end):
        while frames and (end is None or frames[0][0] < end):
            at, frame = frames.pop(0)
            output.extend([b"clock %d" % at, frame])

    for words in lines_of(script):
        moment = max(moment, clock_of(words) or 0)
        frames_before(moment)
        output.append(b" ".join(words) + b"\t")
    frames_before(None)
    return b"\n".join(output) + b"\n"


def a_table(dice):
    """A table of streams, and its frames by moment."""
    streams = [(100 * it, dice.randrange(8), dice.choice([60, 400, 1514]), dice.choice([0, 7, 10**6]), dice.randrange(3 * 10**6), dice.randrange(5)) for it in range(dice.randrange(4))]
    table = b"".join(b"stream %d %d %d %dps %dps %d\n" % stream for stream in streams)
    frames = [(offset + period * it, b"frame %d %d %d" % (number + it, priority, length)) for number, priority, length, period, offset, count in streams for it in range(count)]
    return table, sorted(frames, key=lambda frame: frame[0])


def a_line(dice):
    """A line of a script, good or odd."""
    return dice.choice([
        b"clock %d" % dice.randrange(4 * 10**6), b"clock %d" % dice.randrange(100), b"query", b"count 5", b"count 8", TC, b"tc qdisc replace",
        b"frame 9 5 60", b"frame 9 5 60 tagged", b"# clock 5", b"", b"  ", b"cloc\\\n k 7", b"clock\\\n 2000000", b"query \\\r\n", b"#\\\nquery", b"hello", b"clock 1 2",
    ])  # fmt: skip


def a_last_line(dice):
    """A last line without a line feed, odd at its end."""
    end = dice.choice([b"\\", b"\\", b"\\\\", b"\\\r", b"\r", b" ", b"\\ ", b"\\\t", b""])
    line = a_line(dice) + end
    if dice.random() < 0.2:
        front = b"#" if dice.random() < 0.7 else b""
        line = front + b" " * (dice.choice([65_535, 65_536, 65_537]) - len(front + line)) + line
    return line


def case_a_merged_script_answers_as_one_that_is_merged_here(program):
    dice, refusals, odd = random.Random(3), 0, 0
    for number in range(250):
        table, frames = a_table(dice)
        last = a_last_line(dice)
        script = b"".join(a_line(dice) + dice.choice([b"\n", b"\n", b"\r\n"]) for _ in range(dice.randrange(6))) + last
        ran = run(program, ["streams", "--with", "plan.script"], table, {"plan.script": script})
        if len(last) > 65_536 or (len(last) == 65_536 and re.search(rb"\\\r?\Z", last)):
            assert ran.status == 3 and ran.errors.endswith(b": LongLine\n"), (number, ran.errors)
            refusals += 1
            continue
        assert (ran.status, ran.errors) == (0, b""), (number, ran.errors)
        odd += bool(re.search(rb"\\\r?\Z", last))
        got = run(program, ["script", "--until", "5000000"], ran.output)
        wanted = run(program, ["script", "--until", "5000000"], merged_here(frames, script))
        assert (got.status, got.output) == (wanted.status, wanted.output), (number, table, script)
        name = re.compile(rb"line \d+")
        assert name.sub(b"", got.errors) == name.sub(b"", wanted.errors), (number, script, got.errors, wanted.errors)
    assert refusals > 10 and odd > 80, (refusals, odd)
