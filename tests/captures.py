"""Replays of captures that a rule makes: cut behind each octet, faulty, with odd frames, long, and without end."""
import random
import re

from rows import Row, captured, run, run_fed, tagged

# The last moment that a capture can say.
END_OF_ALL = "4294967296000000000000"
HEADER = bytes.fromhex("a1b2c3d4 0002 0004 00000000 00000000 00040000 00000001")
# Big-endian, in microseconds: two frames of 60 octets of which 18 are captured, with priorities 3 and 5,
# at 2 s and 500 microseconds and at 2 s and 400 microseconds.
TWO_RECORDS = HEADER + bytes.fromhex(
    "00000002 000001f4 00000012 0000003c 020000000002 020000000001 8100 6005 0800"
    "00000002 00000190 00000012 0000003c 020000000002 020000000001 8100 a005 0800"
)
# What leaves of them. Little-endian, in nanoseconds: the same frames, that of priority 5 first, at 2 s and 500,000 and
# 500,672 nanoseconds.
BOTH_LEFT = bytes.fromhex(
    "4d3cb2a1 0200 0400 00000000 00000000 00000400 01000000"
    "02000000 20a10700 12000000 3c000000 020000000002 020000000001 8100 a005 0800"
    "02000000 c0a30700 12000000 3c000000 020000000002 020000000001 8100 6005 0800"
)
# What leaves of the first frame alone.
FIRST_LEFT = bytes.fromhex(
    "4d3cb2a1 0200 0400 00000000 00000000 00000400 01000000"
    "02000000 20a10700 12000000 3c000000 020000000002 020000000001 8100 6005 0800"
)
# The two frames little-endian, in nanoseconds.
TWO_CAPTURED = bytes.fromhex(
    "4d3cb2a1 0200 0400 00000000 00000000 00000400 01000000"
    "02000000 20a10700 12000000 3c000000 020000000002 020000000001 8100 6005 0800"
    "02000000 801a0600 12000000 3c000000 020000000002 020000000001 8100 a005 0800"
)
# What is told of both where all gates are open: the second comes no earlier than the first, and goes first.
BOTH_TOLD = b"""queued 0 class 3
queued 1 class 5
start 1 class 5 at 2000500000000 end 2000500672000
start 0 class 3 at 2000500672000 end 2000501344000
"""
# What is told of the first alone.
FIRST_TOLD = b"""queued 0 class 3
start 0 class 3 at 2000500000000 end 2000500672000
"""
# What a summary tells of it.
FIRST_SUMMED = b"""summary class 3 queued 1 sent 1 dropped 0 octets 60 least 0 mean 0 greatest 0 most 1
summary wire busy 672000 ppm 0 from 2000500000000 ppm 0
"""
# Late enough for all that comes of two frames.
END = "3000000000000"

PRIORITY_3 = bytes.fromhex("020000000002 020000000001 8100 6005 0800")
PRIORITY_5 = bytes.fromhex("020000000002 020000000001 8100 a005 0800")
# Too few octets for a frame.
THIRTEEN = b"\x01" * 13
# Octets without a tag.
HUNDRED = b"\x08" * 100
# More octets than the mtu and a header.
LONG = b"\x07" * 1515


def of_input(name, capture, until=END, **wanted):
    """A replay of a capture on the standard input, beside an empty script."""
    return Row(name, ["replay", "--until", until, "script", "-", "out"], capture, {"script": b""}, **wanted)


def of_files(name, capture, until, script=b"", words=(), **wanted):
    """A replay of a capture in a file, beside a script."""
    words = ["replay", *words, "--until", until, "script", "capture", "out"]
    return Row(name, words, b"", {"script": script, "capture": capture}, **wanted)


def status_of(text):
    """The status where the text of a fault of an input is this one."""
    return 3 if text else 0


def cut(octets):
    """What comes of the first octets of the capture of two frames, so many: a header has 24, and each record 34."""
    if octets < 24:
        told, left, text = b"", b"", b"taprio_port: capture header: ShortHeader\n"
    elif octets < 58:
        told, left, text = b"", FIRST_LEFT[:24], b"taprio_port: capture record 0: ShortRecord\n"
    elif octets < 92:
        told, left, text = FIRST_TOLD, FIRST_LEFT, b"taprio_port: capture record 1: ShortRecord\n"
    else:
        told, left, text = BOTH_TOLD, BOTH_LEFT, b""
    if octets in (24, 58):
        text = b""
    return {"output": told, "written": {"out": left}, "errors": text, "status": status_of(text)}


def cut_with_lines(octets):
    """The same of little-endian octets, behind the header and a record, where a script goes on: the rest of it,
    the moment to run to and the frames that are left are told, and then the fault."""
    return of_files(
        f"two frames cut behind octet {octets}, and a script that goes on",
        TWO_CAPTURED[:octets],
        END,
        b"clock 2000500000001\nclock 3000000000000\ncount 3\n",
        output=FIRST_TOLD
        + b"count class 3 accepted 1 sent 1 octets 60 runt 0 too-long 0 over-sdu 0 full 0 waiting 0\n",
        written={"out": FIRST_LEFT},
        errors=b"taprio_port: capture record 1: ShortRecord\n",
        status=3,
    )


# Octets that come into the capture of two frames, from which one on, and the text of the fault.
CHANGES = [
    ("another magic number", 0, "00000000", b"taprio_port: capture header: BadMagic\n"),
    ("another version", 5, "03", b"taprio_port: capture header: BadVersion\n"),
    ("another link than Ethernet", 23, "71", b"taprio_port: capture header: BadLink\n"),
    ("a link type of 0", 23, "00", b"taprio_port: capture header: BadLink\n"),
    ("a snapshot length of 0, which says nothing", 16, "00000000", b""),
    (
        "more octets than a record may have, before a bad fraction",
        28,
        "000f4240 00040001",
        b"taprio_port: capture record 0: LongRecord\n",
    ),
    ("a million microseconds behind the second", 28, "000f4240", b"taprio_port: capture record 0: BadFraction\n"),
    ("a microsecond less", 28, "000f423f", b""),
    ("one octet more than there is", 62, "00000000 00000013", b"taprio_port: capture record 1: ShortRecord\n"),
]


def changed(name, at, octets, text):
    """The capture of two frames with some of its octets replaced: the status and the text alone are wanted."""
    octets = bytes.fromhex(octets)
    capture = TWO_RECORDS[:at] + octets + TWO_RECORDS[at + len(octets) :]
    return of_input(f"a capture with {name}", capture, output=None, errors=text, status=status_of(text))


# More octets that come into the header, each from which one on, and the text of the fault: the first fault is told. The zone, the accuracy
# and the snapshot length may be anything.
HEADERS = [
    ("the last octet of the magic number changed", [(3, "d5")], b"taprio_port: capture header: BadMagic\n"),
    ("the first octet of the version changed", [(4, "02")], b"taprio_port: capture header: BadVersion\n"),
    ("another minor version", [(7, "03")], b"taprio_port: capture header: BadVersion\n"),
    ("an octet before the link", [(20, "04")], b"taprio_port: capture header: BadLink\n"),
    ("another zone", [(9, "ff")], b""),
    ("another accuracy", [(15, "ff")], b""),
    ("no octet of a snapshot length", [(17, "00")], b""),
    ("another link and another version", [(23, "71"), (7, "03")], b"taprio_port: capture header: BadVersion\n"),
    (
        "another link, another version and another magic number",
        [(23, "71"), (7, "03"), (0, "00")],
        b"taprio_port: capture header: BadMagic\n",
    ),
]


def with_octets(capture, changes):
    """A capture with octets replaced, each from which one on."""
    for at, octets in changes:
        octets = bytes.fromhex(octets)
        capture = capture[:at] + octets + capture[at + len(octets) :]
    return capture


def headers():
    """Changed headers: nothing leaves behind a fault, and both frames do without one."""
    for name, changes, text in HEADERS:
        told, left = (b"", b"") if text else (BOTH_TOLD, BOTH_LEFT)
        capture = with_octets(TWO_RECORDS, changes)
        wanted = {"output": told, "written": {"out": left}, "errors": text, "status": status_of(text)}
        yield of_input(f"a header with {name}", capture, **wanted)
    yield of_input(
        "a header that is cut, with three other faults",
        with_octets(TWO_RECORDS, [(23, "71"), (7, "03"), (0, "00")])[:23],
        written={"out": b""},
        errors=b"taprio_port: capture header: ShortHeader\n",
        status=3,
    )


# A fraction of a second in microseconds, the greatest and one more; and how many octets of the second record are there, one more, as many
# as a record may have, one more, and more than half of the numbers there are.
BELOW, SECOND = "000f423f", "000f4240"
WHOLE, MISSING, MOST, MORE, SIGN = "00000012", "00000013", "00040000", "00040001", "80000012"
# Fractions and lengths of the second record, and its fault: the first of them is told.
FIELDS = [
    ("a microsecond before the next second", BELOW, WHOLE, ""),
    ("a whole second of microseconds", SECOND, WHOLE, "BadFraction"),
    ("an octet more than there is, a microsecond before the next second", BELOW, MISSING, "ShortRecord"),
    ("an octet more than there is, and a whole second of microseconds", SECOND, MISSING, "BadFraction"),
    ("as many octets as a record may have", BELOW, MOST, "ShortRecord"),
    ("an octet more than a record may have", BELOW, MORE, "LongRecord"),
    ("an octet more than a record may have, and a whole second of microseconds", SECOND, MORE, "LongRecord"),
    ("octets of more than half of the numbers", BELOW, SIGN, "LongRecord"),
]


def second_records():
    """The second record with these fields: the first leaves in any case."""
    for name, fraction, length, fault in FIELDS:
        capture = with_octets(TWO_RECORDS, [(62, fraction), (66, length)])
        told, left = FIRST_TOLD, FIRST_LEFT
        if not fault:
            told += b"queued 1 class 5\nstart 1 class 5 at 2999999000000 end 2999999672000\n"
            left = captured([(2000500000, PRIORITY_3, 60), (2999999000, PRIORITY_5, 60)])
        text = f"taprio_port: capture record 1: {fault}\n".encode() if fault else b""
        wanted = {"output": told, "written": {"out": left}, "errors": text, "status": status_of(text)}
        yield of_input(f"a second record with {name}", capture, **wanted)


# As `tcpdump -w` writes on a little-endian machine, in microseconds: an ARP request of 42 octets at 1700000000.123456. Made by hand.
TCPDUMP = bytes.fromhex(
    "d4c3b2a1 0200 0400 00000000 00000000 00000400 01000000"
    "00f15365 40e20100 2a000000 2a000000"
    "ffffffffffff 020000000001 0806 0001 0800 06 04 0001 020000000001 c0000201 000000000000 c0000202"
)
# As `tshark -F nsecpcap -w` writes with a snapshot length of 14, in nanoseconds: the first 14 octets of a frame of 98, at
# 1700000000.123456789. Made by hand.
TSHARK = bytes.fromhex(
    "4d3cb2a1 0200 0400 00000000 00000000 0e000000 01000000"
    "00f15365 15cd5b07 0e000000 62000000"
    "020000000002 020000000001 0800"
)
LATE = "1700000002000000000000"


def other_captures():
    """Captures as other tools write them, and those that are written here."""
    yield of_input(
        "a frame that tcpdump has captured",
        TCPDUMP,
        LATE,
        output=b"queued 0 class 0\nstart 0 class 0 at 1700000000123456000000 end 1700000000123456672000\n",
        written={"out": captured([(1700000000123456000, TCPDUMP[40:], 42)])},
    )
    yield of_input(
        "a part of a frame that tshark has captured",
        TSHARK,
        LATE,
        output=b"queued 0 class 0\nstart 0 class 0 at 1700000000123456789000 end 1700000000123457765000\n",
        written={"out": captured([(1700000000123456789, TSHARK[40:], 98)])},
    )
    yield of_input(
        "a frame a nanosecond before the next second",
        with_octets(TSHARK, [(28, "ffc99a3b")]),
        LATE,
        output=b"queued 0 class 0\nstart 0 class 0 at 1700000000999999999000 end 1700000001000000975000\n",
        written={"out": captured([(1700000000999999999, TSHARK[40:], 98)])},
    )
    yield of_input(
        "a whole second of nanoseconds",
        with_octets(TSHARK, [(28, "00ca9a3b")]),
        LATE,
        written={"out": captured([])},
        errors=b"taprio_port: capture record 0: BadFraction\n",
        status=3,
    )
    yield of_input(
        "what has left of two frames, as what comes: each frame leaves at once",
        BOTH_LEFT,
        output=b"""queued 0 class 5
start 0 class 5 at 2000500000000 end 2000500672000
queued 1 class 3
start 1 class 3 at 2000500672000 end 2000501344000
""",
        written={"out": BOTH_LEFT},
    )
    yield of_input(
        "the second of two frames by itself",
        HEADER + TWO_RECORDS[58:],
        output=b"queued 0 class 5\nstart 0 class 5 at 2000400000000 end 2000400672000\n",
        written={"out": captured([(2000400000, PRIORITY_5, 60)])},
    )


# Two frames of class 3, between them a frame that is too short and one of class 0, all at a microsecond.
A_DROPPED_FRAME = captured(
    [(1000, PRIORITY_3, 60), (1000, THIRTEEN, 13), (1000, HUNDRED, 100), (1000, PRIORITY_3, 60)]
)
# The same with two more between, both too long.
SOME_DROPPED = captured(
    [
        (1000, PRIORITY_3, 60),
        (1000, THIRTEEN, 13),
        (1000, LONG, 1515),
        (1000, HUNDRED, 2000),
        (1000, HUNDRED, 100),
        (1000, PRIORITY_3, 60),
    ]
)
# What leaves of both.
ALL_BUT_THE_DROPPED = captured([(1000, PRIORITY_3, 60), (1672, PRIORITY_3, 60), (2344, HUNDRED, 100)])


def summed(name, until, told, summary, left):
    """The replay of a dropped frame among others, without a summary and with one, which stands behind the report."""
    wanted = {"written": {"out": left}}
    return [
        of_files(name, A_DROPPED_FRAME, until, output=told, **wanted),
        of_files(
            f"{name}, and a summary", A_DROPPED_FRAME, until, words=["--summary"], output=told + summary, **wanted
        ),
    ]


def rows_of_odd_frames():
    """Frames that are dropped, and frames that are cut in their tag."""
    found = summed(
        "a frame is too short, and all others leave",
        "10000000",
        b"""queued 0 class 3
dropped 1 Runt
queued 2 class 0
queued 3 class 3
start 0 class 3 at 1000000 end 1672000
start 3 class 3 at 1672000 end 2344000
start 2 class 0 at 2344000 end 3336000
""",
        b"""summary class 0 queued 1 sent 1 dropped 1 octets 100 least 1344000 mean 1344000 greatest 1344000 most 1
summary class 3 queued 2 sent 2 dropped 0 octets 120 least 0 mean 336000 greatest 672000 most 2
summary wire busy 2336000 ppm 233600 from 1000000 ppm 259555
""",
        ALL_BUT_THE_DROPPED,
    )
    # Of the frame that is on the wire at the end a single picosecond counts.
    found += summed(
        "a picosecond after the first frame has begun two are left",
        "1000001",
        b"""queued 0 class 3
dropped 1 Runt
queued 2 class 0
queued 3 class 3
start 0 class 3 at 1000000 end 1672000
left class 0 frames 1
left class 3 frames 1
""",
        b"""summary class 0 queued 1 sent 0 dropped 1 octets 0 least - mean - greatest - most 1
summary class 3 queued 2 sent 1 dropped 0 octets 60 least 0 mean 0 greatest 0 most 2
summary wire busy 1 ppm 0 from 1000000 ppm 1000000
""",
        captured([(1000, PRIORITY_3, 60)]),
    )
    found.append(
        of_files(
            "a frame that is dropped leaves no octets behind: those of the frames round it leave in their order",
            SOME_DROPPED,
            "10000000",
            output=b"""queued 0 class 3
dropped 1 Runt
dropped 2 TooLong
dropped 3 TooLong
queued 4 class 0
queued 5 class 3
start 0 class 3 at 1000000 end 1672000
start 5 class 3 at 1672000 end 2344000
start 4 class 0 at 2344000 end 3336000
""",
            written={"out": ALL_BUT_THE_DROPPED},
        )
    )
    in_a_tag = PRIORITY_3[:15]
    found.append(
        of_files(
            "a frame shorter than a header is a runt; one whose tag is cut has none, and is as long as was captured",
            captured([(0, PRIORITY_3[:13], 13), (0, in_a_tag, 10)]),
            "1000000",
            output=b"dropped 0 Runt\nqueued 1 class 0\nstart 1 class 0 at 0 end 672000\n",
            written={"out": captured([(0, in_a_tag, 10)])},
        )
    )
    return found


def rows():
    """All that is a row."""
    found = [
        of_input(f"two frames cut behind octet {octets}", TWO_RECORDS[:octets], **cut(octets)) for octets in range(93)
    ]
    found += [cut_with_lines(octets) for octets in range(59, 92)]
    front = TWO_CAPTURED[:68]
    short = {"written": {"out": FIRST_LEFT}, "errors": b"taprio_port: capture record 1: ShortRecord\n", "status": 3}
    found.append(
        of_files("what was written is let out before a fault is told", front, END, output=FIRST_TOLD, **short)
    )
    told = FIRST_TOLD + FIRST_SUMMED
    found.append(
        of_files("a summary before a fault of a record", front, END, words=["--summary"], output=told, **short)
    )
    found += [changed(*change) for change in CHANGES]
    found += [*headers(), *second_records(), *other_captures()]
    found.append(
        of_files(
            "twelve records, and a thirteenth that is cut",
            captured([(1000, PRIORITY_3, 60)] * 13)[:-1],
            END,
            output=None,
            errors=b"taprio_port: capture record 12: ShortRecord\n",
            status=3,
        )
    )
    return found + rows_of_odd_frames()


def case_octets_are_those_of_the_records(program):
    """Captures that are given here by their octets are those of the records that are meant."""
    assert captured([(2000500000, PRIORITY_3, 60), (2000400000, PRIORITY_5, 60)]) == TWO_CAPTURED
    assert captured([(2000500000, PRIORITY_5, 60), (2000500672, PRIORITY_3, 60)]) == BOTH_LEFT


def long_record(program, octets, zeros):
    """What a replay says of a record that says that so many octets were captured, with so many octets of 0 behind its header, 65,521 at a
    time."""
    capture = HEADER + bytes(8) + octets.to_bytes(4, "big") + bytes(4 + zeros)
    pieces = [capture[at : at + 65521] for at in range(0, len(capture), 65521)]
    ran = run_fed(program, ["replay", "--until", END, "script", "-", "out"], pieces, {"script": b""})
    return ran.status, ran.output, ran.errors


def case_the_longest_record_comes_in_pieces(program):
    """It has 262,144 octets; one behind it has none. One octet less is a cut record, and one more is too many."""
    assert long_record(program, 262144, 262144 + 16) == (0, b"dropped 0 TooLong\ndropped 1 Runt\n", b"")
    assert long_record(program, 262144, 262143) == (3, b"", b"taprio_port: capture record 0: ShortRecord\n")
    assert long_record(program, 262145, 262145) == (3, b"", b"taprio_port: capture record 0: LongRecord\n")


def case_octets_are_kept_while_frames_wait_alone(program):
    """With room for one frame a class, 100,000 frames of 1,000 octets, 10 microseconds apart, all leave at once."""
    capture = captured((10_000 * number, bytes(1000)) for number in range(100_000))
    words = ["replay", "--room", "1", "--until", "2000000000000", "script", "-", "out"]
    ran = run(program, words, capture, {"script": b""})
    assert (ran.status, ran.errors) == (0, b""), (ran.status, ran.errors)
    assert len(ran.files["out"]) == 24 + 100_000 * 1016
    assert ran.files["out"] == capture


def random_replay(dice):
    """A script with one schedule and perhaps a later line, a capture of up to 30 frames in 40 microseconds, and the last moment of both."""
    entries = " ".join(f"sched-entry S {dice.randrange(256):02x} {dice.randrange(2, 20) * 1000}" for _ in range(dice.randint(1, 4)))
    tc = f"tc qdisc replace dev eth0 root taprio num_tc 8 map 0 1 2 3 4 5 6 7 base-time {dice.randrange(60) * 1000} {entries}\n"
    clock = dice.choice([0, dice.randrange(90_000_000)])
    moments = sorted(dice.randrange(40_000) for _ in range(dice.randrange(30)))
    records = [(moment, tagged(dice.randrange(8), 18), dice.choice([60, 400, 1514])) for moment in moments]
    return f"{tc}clock {clock}\nquery\n".encode(), captured(records), max([clock, *(1000 * moment for moment in moments)])


def case_a_run_without_a_moment_ends_with_its_last_frame(program):
    """Without --until outputs are those of --until with the end of the last frame that starts, and so a run to the last moment of all starts no more."""
    dice = random.Random(5)
    for number in range(60):
        script, capture, last = random_replay(dice)
        files = {"script": script, "capture": capture}
        room = ["--room", str(dice.choice([1, 4, 128]))]
        ran = run(program, ["replay", "--summary", *room, "script", "capture", "out"], b"", files)
        assert ran.status == 0, (number, ran)
        ends = [int(end) for at, end in re.findall(rb"at (\d+) end (\d+)\n", ran.output) if int(at) >= last]
        upto = run(program, ["replay", "--summary", "--until", str([last, *ends][-1]), *room, "script", "capture", "out"], b"", files)
        assert (upto.output, upto.files["out"]) == (ran.output, ran.files["out"]), (number, ran.output, upto.output)
        more = run(program, ["replay", "--until", END_OF_ALL, *room, "script", "capture", "out"], b"", files)
        assert ran.output.startswith(more.output), (number, ran.output, more.output)
