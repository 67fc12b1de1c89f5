"""Each limit of the documents is reached with ample memory, and each job answers as with small numbers.

No contract refuses a job that gives up: "out of memory" may be answered at any time. So what is answered is compared here with
rules that need no port. `bench/sizes` does the same with random sizes between the limits."""
from rows import captured, run, tagged

# How long 60 octets take on the wire at 1000 Mb/s, in picoseconds.
SHORT = 672_000
# Late enough for all frames here.
END = "4000000000000000"
# A schedule that opens classes 1 and 0 by turns.
HALVES = b"tc qdisc replace dev eth0 root taprio num_tc 2 map 0 1 sched-entry S 02 500000 sched-entry S 01 500000\n"


def answered(program, words, input=b"", files=None):
    """What a run that ends well has written, and its files."""
    ran = run(program, words, input, files)
    assert (ran.status, ran.errors) == (0, b""), (words, ran.status, ran.errors, ran.output[:200])
    return ran.output, ran.files


def has(program, words, input, wanted, files=None):
    """A run ends well and writes just this."""
    output, _files = answered(program, words, input, files)
    assert output == wanted, (words, len(output), len(wanted), output[-300:], wanted[-300:])


def full(frames):
    """What a script answers to one frame more than a class holds, all at moment 0, at its end, with a summary."""
    queued = b"".join(b"queued %d class 0\n" % number for number in range(frames)) + b"dropped %d Full\n" % frames
    starts = b"".join(b"start %d class 0 at %d end %d\n" % (number, number * SHORT, (number + 1) * SHORT) for number in range(frames))
    greatest = (frames - 1) * SHORT
    summary = b"summary class 0 queued %d sent %d dropped 1 octets %d least 0 mean %d greatest %d most %d\n" % (
        frames, frames, 60 * frames, greatest // 2, greatest, frames)
    busy = frames * SHORT
    return queued, starts, summary, busy


def of_room(program, room):
    """A class with this room holds as many frames, and drops one more."""
    words, (queued, starts, summary, busy) = ["--room", str(room)], full(room)
    script = b"".join(b"frame %d 0 60\n" % number for number in range(room + 1))
    wire = b"summary wire busy %d ppm 0 from 0 ppm 0\n" % busy
    has(program, ["script", *words, "--summary", "--until", END], script, queued + starts + summary + wire)
    row = b"%d,0,60,0,%d,%d,%d,sent\n"
    output, _files = answered(program, ["frames", *words, "--until", END], script)
    assert sorted(output.splitlines(True)[1:]) == sorted(
        [row % (number, number * SHORT, (number + 1) * SHORT, number * SHORT) for number in range(room)] + [b"%d,0,60,0,,,,Full\n" % room])
    capture = captured([(0, tagged(0, 60))] * (room + 1))
    output, files = answered(program, ["replay", *words, "--until", str(busy), "script", "capture", "out"], b"", {"script": b"", "capture": capture})
    assert output == queued + starts, (room, output[-300:])
    assert files["out"] == captured((number * SHORT // 1000, tagged(0, 60)) for number in range(room)), room
    answered(program, ["draw", *words], script)
    last = ["--from", str((room - 1) * SHORT), "--to", str(busy)]
    output, _files = answered(program, ["draw", *words, *last], script)
    assert (output.count(b'<rect class="f"'), output.count(b">%d</text>\n" % (room - 1))) == (3, 2), (room, output[-2000:])
    table = b"stream 1 0 60 1s 0s 1\n" * room
    output, _files = answered(program, ["bounds", *words, "table"], HALVES, {"table": table})
    assert b"\nclass 0 most %d of %d frames %d every 1000000000000\n" % (room, room, room) in output, (room, output[:300])
    output, _files = answered(program, ["bounds", *words, "table"], HALVES, {"table": table + table[:22]})
    assert b"\nclass 0 full at 0 stream 1 frame 1\n" in output, (room, output[:300])


def of_mtu(program, mtu):
    """A frame with so many octets of data is taken, also with a tag, and one octet more is too long."""
    words, longest = ["--mtu", str(mtu)], mtu + 14
    script = b"frame 1 0 %d\nframe 2 0 %d\nframe 3 0 %d tagged\nframe 4 0 %d tagged\n" % (longest, longest + 1, longest + 4, longest + 5)
    first, second = max(60, longest) + 24, longest + 4 + 24
    ends = [first * 8000, (first + second) * 8000]
    starts = b"start 1 class 0 at 0 end %d\nstart 3 class 0 at %d end %d\n" % (ends[0], *ends)
    has(program, ["script", *words, "--until", END], script, b"queued 1 class 0\ndropped 2 TooLong\nqueued 3 class 0\ndropped 4 TooLong\n" + starts)
    output, _files = answered(program, ["frames", *words, "--until", END], script)
    assert sorted(output.splitlines()[1:]) == sorted([
        b"1,0,%d,0,0,%d,0,sent" % (longest, ends[0]), b"2,0,%d,0,,,,TooLong" % (longest + 1),
        b"3,0,%d,0,%d,%d,%d,sent" % (longest + 4, *ends, ends[0]), b"4,0,%d,0,,,,TooLong" % (longest + 5)]), output
    output, _files = answered(program, ["draw", *words, "--to", str(ends[1])], script)
    assert (output.count(b'<rect class="f"'), output.count(b'<path class="d"')) == (5, 3), output[-3000:]
    capture = captured([(0, tagged(0, longest + 4)), (0, tagged(0, longest + 5)), (0, bytes(longest)), (0, bytes(longest + 1))])
    output, files = answered(program, ["replay", *words, "--until", END, "script", "capture", "out"], b"", {"script": b"", "capture": capture})
    assert output.startswith(b"queued 0 class 0\ndropped 1 TooLong\nqueued 2 class 0\ndropped 3 TooLong\nstart 0 "), output
    assert files["out"] == captured([(0, tagged(0, longest + 4)), (second * 8, bytes(longest))])
    table = b"stream 1 0 %d 1s 0s 1\nstream 2 0 %d 1s 0s 1\n" % (longest, longest + 1)
    output, _files = answered(program, ["bounds", *words, "table"], HALVES, {"table": table})
    assert b"\nclass 0 most 1 of 128 frames 1 every " in output and b"bound 2 dropped TooLong\n" in output, output


def of_entries(program, entries):
    """A schedule of so many entries, each of a microsecond, the last of which alone opens class 1; one more is no command."""
    front = b"tc qdisc replace dev eth0 root taprio num_tc 2 map 0 1 base-time 100000"
    command = front + b" sched-entry S 01 1000" * (entries - 1) + b" sched-entry S 02 1000\n"
    more = command[:-1] + b" sched-entry S 01 1000\n"
    change, cycle = 100_000_000, entries * 1_000_000
    script = command + b"clock %d\nquery\nframe 1 1 60\n" % change
    start = change + cycle - 1_000_000
    until = ["--until", str(change + cycle)]
    output, _files = answered(program, ["script", *until], script)
    assert output.startswith(b"installed change %d\n" % change) and output.endswith(
        b"queued 1 class 1\nstart 1 class 1 at %d end %d\n" % (start, start + SHORT)), output
    assert b"\nin-force change %d base 100000 cycle %d extension 0 entries %d\n" % (change, entries * 1000, entries) in output, output
    output, _files = answered(program, ["frames", *until], script)
    assert output.endswith(b"\n1,1,60,%d,%d,%d,%d,sent\n" % (change, start, start + SHORT, start - change)), output
    output, _files = answered(program, ["check", "--windows"], command)
    assert b"\nwindow class 1 open 1000000 closed %d share 1000000 of %d frame 101 wait %d\n" % (cycle - 1_000_000, cycle, cycle - 1) in output, output
    output, _files = answered(program, ["draw", "--from", str(start), "--to", str(start + SHORT)], script)
    assert output.count(b'<rect class="f"') == 3, output[-3000:]
    table = {"table": b"stream 1 1 60 1s %dps 1\n" % (cycle - 1_000_000)}
    output, _files = answered(program, ["bounds", "table"], command, table)
    assert b"\nclass 1 most 1 of 128 " in output, output
    capture = captured([(change // 1000, tagged(1, 60))])
    output, files = answered(program, ["replay", *until, "script", "capture", "out"], b"", {"script": command, "capture": capture})
    assert files["out"] == captured([(start // 1000, tagged(1, 60))]), output
    if entries == 256:
        has(program, ["script"], more, b"tc-fault TooManyEntries\n")
        has(program, ["check"], more, b"tc-fault TooManyEntries\n")


def of_streams(program, streams):
    """So many streams, a frame of each, a microsecond apart; every second one in class 1."""
    table = b"".join(b"stream %d %d 60 1s %dus 1\n" % (it + 1, it % 2, it) for it in range(streams))
    script = b"".join(b"clock %d\nframe %d %d 60\n" % (it * 1_000_000, it + 1, it % 2) for it in range(streams))
    has(program, ["streams"], table, script)
    has(program, ["streams", "--with", "empty"], table, script, {"empty": b""})
    rows = b"".join(b"%d,%d,60,%d,%d,%d,0,sent,%d\n" % (it + 1, it % 2, at, at, at + SHORT, it + 1) for it in range(streams) for at in [it * 1_000_000])
    has(program, ["frames", "--by-stream", "table", "--until", END], script, b"id,class,len,arrival_ps,start_ps,end_ps,wait_ps,fate,stream\n" + rows, {"table": table})
    table = b"".join(b"stream %d %d 60 10s %dus 1\n" % (it + 1, it % 2, 1000 * (it // 2) + 500 * (1 - it % 2)) for it in range(streams))
    output, _files = answered(program, ["bounds", "table"], HALVES, {"table": table})
    assert output.endswith(b"".join(b"bound %d class %d wait 0 to 0 end 672000 to 672000\n" % (it + 1, it % 2) for it in range(streams))), output[:300]


def case_a_table_has_as_many_streams_as_memory_holds(program):
    """No number of streams is a limit: one above 2^16, and half a million."""
    for streams in (70_000, 500_000):
        table = b"".join(b"stream %d %d 60 1s %dus 1\n" % (it + 1, it % 2, it) for it in range(streams))
        has(program, ["streams"], table, b"".join(b"clock %d\nframe %d %d 60\n" % (it * 1_000_000, it + 1, it % 2) for it in range(streams)))


def of_octets(program, octets):
    """A record with so many octets is kept with them where the port takes so long a frame, and else goes on to the next record."""
    record = (0, tagged(0, octets), max(60, octets))
    last = (0, tagged(1, 60))
    words = ["replay", "--mtu", "9216", "--until", END, "script", "capture", "out"]
    output, files = answered(program, words, b"", {"script": b"", "capture": captured([record, last])})
    takes = octets <= 9216 + (18 if octets >= 18 else 14)
    assert output.startswith(b"queued 0 class 0\n" if takes else b"dropped 0 TooLong\n"), output
    left = [last, (SHORT // 1000, *record[1:])] if takes else [last]
    assert files["out"] == captured(left), (octets, len(files["out"]))


def of_line(program, octets):
    """A line of so many octets is read, in each input that has lines."""
    comment, frame, stream = b"#" * octets + b"\n", b"frame 1 0 60\n", b"stream 1 0 60 1s 0s 1\n"
    blanks = b"frame" + b" " * (octets - 11) + b"1 0 60\n"
    answer, row = b"queued 1 class 0\nstart 1 class 0 at 0 end 672000\n", b"1,0,60,0,0,672000,0,sent"
    head = b"id,class,len,arrival_ps,start_ps,end_ps,wait_ps,fate"
    for script in (comment + frame, blanks):
        has(program, ["script", "--until", "1us"], script, answer)
        has(program, ["frames", "--until", "1us"], script, head + b"\n" + row + b"\n")
        has(program, ["frames", "--until", "1us", "--by-stream", "table"], script, head + b",stream\n" + row + b",1\n", {"table": comment + stream})
        output, _files = answered(program, ["draw"], script)
        assert output.count(b'<rect class="f"') == 3, output[-3000:]
        output, files = answered(program, ["replay", "--until", "1us", "script", "capture", "out"], b"", {"script": comment, "capture": captured([(0, tagged(0, 60))])})
        assert files["out"] == captured([(0, tagged(0, 60))]), output
        has(program, ["streams", "--with", "plan"], b"", script, {"plan": script})
    has(program, ["streams"], comment + stream, b"clock 0\nframe 1 0 60\n")
    delete = b"tc qdisc del" + b" " * (octets - 25) + b"dev eth0 root\n"
    for tc in (comment + b"tc qdisc del dev eth0 root\n", delete):
        has(program, ["check"], tc, b"apart none\n")
    output, _files = answered(program, ["bounds", "table"], comment + HALVES, {"table": comment + stream})
    assert b"\nbound 1 class 0 wait 500000000 to 500000000 " in output, output


def of_width(program, width):
    """A picture may be so wide."""
    output, _files = answered(program, ["draw", "--width", str(width)], b"frame 1 0 60\n")
    assert output.startswith(b'<svg xmlns="http://www.w3.org/2000/svg" width="%d" ' % width) and output.endswith(b"</svg>\n"), output[:200]


# What has limits: a check of a size, the least size, the greatest, and others at which a body may give up.
SIZES = {
    "room": (of_room, 1, 4096, [2, 2731]),
    "mtu": (of_mtu, 68, 9216, [1500]),
    "entries": (of_entries, 2, 256, [255]),
    "streams": (of_streams, 1, 10_000, [1025]),
    "octets": (of_octets, 0, 262_144, [1, 13, 14, 9230, 9234, 9235]),
    "line": (of_line, 26, 65_536, [65_535]),
    "width": (of_width, 400, 2400, [1096]),
}


def at_limits(check, sizes):
    """A case that tries these sizes."""
    def case(program):
        for size in sizes:
            check(program, size)
    return case


for name, (check, least, greatest, others) in SIZES.items():
    globals()[f"case_{name}_from_the_least_to_the_greatest"] = at_limits(check, [least, *others, greatest])


# How many octets a table may have that is planned for.
MOST_PLANNED = 16_777_216


def case_a_table_of_the_most_octets_is_planned(program):
    """A table of 16,777,216 octets, most of them comments, is planned as it is without them; one octet more is too many, and nothing is written."""
    stream = b"stream 1 7 60 1ms 0ns 1 deadline 1ms\n"
    comment = b"#" + b"x" * 998 + b"\n"
    lines, rest = divmod(MOST_PLANNED - len(stream), len(comment))
    table = stream + comment * lines + (b"#" * (rest - 1) + b"\n" if rest else b"")
    assert len(table) == MOST_PLANNED
    wanted, most, more = (run(program, ["plan", "table"], b"", {"table": text}) for text in (stream, table, table + b"\n"))
    assert (wanted.status, most.status, most.output) == (0, 0, wanted.output), (wanted, most)
    assert (more.status, more.output, more.errors) == (3, b"", b"taprio_port: plan: the table has more than 16777216 octets\n")
