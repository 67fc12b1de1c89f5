"""Cases of the faults that end a run: each has its place in the code, in docs/errors.md and on the page, and helps in its own words.

The code's list is crates/job/src/kind.rt. The comment of each case there begins with what is printed of it: a name, or the front of a text."""
import pathlib
import re
import struct

from rows import captured, run

ROOT = pathlib.Path(__file__).resolve().parent.parent
KINDS = "crates/job/src/kind.rt"
PAGE = "docs/errors.md"
WORDS = "bindings/web/faults.js"
# The parts of docs/errors.md that have these faults.
PARTS = ["A line is malformed", "A strict run finds something", "A capture is malformed", "An option has a bad value", "Files and memory"]
# What the page never meets: it opens no files, has no strict runs, and lacks these options or gives them values of its own.
UNMET = {"BadShift", "OUT is one of the inputs", "cannot open", "read failed", "write failed", "bounds", "bounds: no schedule was judged",
         "bounds: no stream is in the table", "NoColumn", "FieldCount", "NoPayload", "NoId"} | {
    f"bad value of --{name}"
    for name in ("map", "frame", "stamp", "shift", "width", "device", "next", "format", "fcs", "by", "within")}
# What a strict run finds, and is no fault: it ends no run.
FINDINGS = {"compare: pair", "compare: missing", "compare: extra", "compare: no pair", "frame", "class", "paths", "paths: stream", "paths: no schedule was judged", "paths: no stream is in the network"}
# A limit whose text says all.
LIMITS = {"paths: there are more than 65536 ports"}
# What needs no further words there.
PLAIN = {"out of memory"}


def kinds():
    """By the name of a case, such as `LineKind::LongLine`, what is printed of it."""
    found = {}
    for name, body in re.findall(r"pub enum (\w+Kind) \{\n(.*?)^\}", (ROOT / KINDS).read_text(encoding="utf-8"), re.MULTILINE | re.DOTALL):
        for comment, case in re.findall(r"((?: +///.*\n)+) +(\w+),$", body, re.MULTILINE):
            printed = re.match(r" +/// `([^`]+)`", comment)
            assert printed, f"{KINDS}: the comment of {name}::{case} doesn't begin with what is printed"
            found[f"{name}::{case}"] = printed[1]
    assert len(found) >= 36, f"{KINDS}: only {len(found)} cases are found: mend the expressions here"
    return found


def documented():
    """The headings of the parts of docs/errors.md that have these faults."""
    text = (ROOT / PAGE).read_text(encoding="utf-8")
    found = set()
    for part in PARTS:
        body = re.search(rf"^## {part}\n(.*?)(?=^## |\Z)", text, re.MULTILINE | re.DOTALL)
        assert body, f"{PAGE}: it has no part {part}"
        found |= {name for heading in re.findall(r"^### (.*)", body[1], re.MULTILINE) for name in re.findall(r"`([^`]+)`", heading)}
    return found - FINDINGS - LIMITS


def on_the_page():
    """What the page has words for."""
    text = (ROOT / WORDS).read_text(encoding="utf-8")
    tables = dict(re.findall(r"^const (\w+) = \{\n(.*?)^\};", text, re.MULTILINE | re.DOTALL))
    keys = {name: set(re.findall(r'^  "?([\w-]+)"?:', body, re.MULTILINE)) for name, body in tables.items()}
    return keys["MEANINGS"] | {f"bad value of --{name}" for name in keys["WANTED"]}


def case_each_fault_stands_in_the_code_in_the_documents_and_on_the_page(program):
    """The three lists are one, but for what the page never meets."""
    printed = set(kinds().values())
    lacks = [f"{PAGE}: it has no section for {name}" for name in printed - documented()]
    lacks += [f"{KINDS}: it has no case for {name}, which is in {PAGE}" for name in documented() - printed]
    lacks += [f"{WORDS}: it has no words for {name}" for name in printed - on_the_page() - UNMET - PLAIN]
    lacks += [f"{KINDS}: it has no case for {name}, which is in {WORDS}" for name in on_the_page() - printed]
    lacks += [f"tests/faults.py: {name} is said not to be met on the page, and is in {WORDS}" for name in on_the_page() & (UNMET | PLAIN)]
    lacks += [f"tests/faults.py: there is no fault {name}" for name in (UNMET | PLAIN) - printed]
    assert not lacks, "\n".join(sorted(lacks))


STREAM = b"stream 1 0 60 1ms 0us 1 deadline 1ms\n"
COMMAND = b"tc qdisc replace dev eth0 root taprio num_tc 1 map 0 sched-entry S 01 300000\n"
HEADER = captured([])
REPLAY = ["replay", "script", "capture", "out"]


def header(magic=0xA1B2C3D4, minor=4, link=1):
    """The header of a capture."""
    return struct.pack("<IHHIIII", magic, 2, minor, 0, 0, 65535, link)


def record(fraction=0, octets=60):
    """A record of a capture that says so, with 60 octets."""
    return struct.pack("<IIII", 0, fraction, octets, octets) + bytes(60)


def replay(capture, *words):
    """A replay of this capture."""
    return ["replay", *words, "script", "capture", "out"], b"", {"script": b"", "capture": capture}


def bounds(table, schedules, *words):
    """The bounds of this table under these schedules."""
    return ["bounds", *words, "table"], schedules, {"table": table}


def compare(first, *words):
    """A comparison of this input with an empty capture."""
    return ["compare", *words, "first", "second"], b"", {"first": first, "second": HEADER}


NETWORK = b"port a room 8\nlink a b 1us\nclocks 1us\nstream 1 7 60 1ms 0us 1 via a b\n"


def paths(network, schedules=b""):
    """The paths of this network under these schedules."""
    return ["paths", "network"], schedules, {"network": network}


def plan(*words):
    """A plan with these words, for one stream."""
    return ["plan", *words, "table"], b"", {"table": STREAM}


def command(port):
    """A schedule of a port."""
    return COMMAND.replace(b"eth0", port)


# By the case, a run that ends so, and in which words it is helped; None where nothing is.
HELPED = {
    "LineKind::LongLine": ((["script"], b"#" * 65537, {}), "a line has at most 65536 octets"),
    "LineKind::TooManyLines": ((["streams"], b"stream 1 5 60 1us 0s 2000001\n", {}), "an input has at most 4000000 lines"),
    "LineKind::UnknownLine": ((["script"], b"frames 1 0 60\n", {}), "a line of a script begins with"),
    "LineKind::UnknownTableLine": ((["streams"], b"frame 1 0 60\n", {}), "a line of a table begins with stream"),
    "LineKind::FrameInReplay": ((REPLAY, b"", {"script": b"frame 1 0 60\n", "capture": HEADER}), "in a replay frames come from the capture"),
    "LineKind::WordCount": ((["script"], b"count\n", {}), "a count line is: count CLASS"),
    "LineKind::BadNumber": ((["script"], b"count 8\n", {}), "CLASS is a whole number"),
    "LineKind::ClockTooLate": ((["script"], b"clock 9223372036854775807001\n", {}), "the greatest moment is"),
    "LineKind::StreamTooLate": ((["streams"], b"stream 1 0 60 9223372036s 0s 2000\n", {}), "the last frame comes at OFFSET and COUNT - 1 times PERIOD"),
    "LineKind::UnknownNetworkLine": (paths(b"ports a\n"), "a line of a network begins with port, link, clocks or stream"),
    "LineKind::BadName": (paths(b"port a/b\n"), "a port's name is 1 to 15 octets"),
    "LineKind::SecondPort": (paths(NETWORK + b"port a rate 100\n"), "one port line says all"),
    "LineKind::SecondLink": (paths(NETWORK + b"link a b 2us\n"), "one link line leads from a port to another"),
    "LineKind::SecondClocks": (paths(NETWORK + b"clocks 2us\n"), "one clocks line says"),
    "LineKind::PortTwice": (paths(b"stream 1 7 60 1ms 0us 1 via a a\n"), "behind via stand the ports"),
    "LineKind::NoLink": (paths(b"stream 1 7 60 1ms 0us 1 via a b\n"), "each step of a way needs its line"),
    "LineKind::NoWay": (paths(NETWORK + b"stream 2 7 60 1ms 0us 1\n"), "with several ports each stream says its way"),
    "LineKind::NoCommand": (paths(NETWORK, b"tc qdisc replace\n"), "a schedule is one line"),
    "LineKind::Deletion": (paths(NETWORK, b"tc qdisc del dev a root\n"), "a port without a schedule has no line here"),
    "LineKind::UnknownPort": (paths(NETWORK, command(b"c")), "the word behind dev is a port of the network"),
    "LineKind::Uncrossed": (paths(NETWORK + b"port c\n", command(b"c")), "nothing would be judged"),
    "LineKind::SecondSchedule": (paths(NETWORK, command(b"a") + command(b"a")), "each port has one schedule"),
    "LineKind::NoColumn": (compare(b"id,end_ps\n"), "a file that begins as no capture is a table"),
    "LineKind::FieldCount": (compare(b"id,start_ps\n1\n"), "each line has as many fields"),
    "LineKind::NoPayload": (compare(b"id,start_ps\n1,0\n", "--by", "payload"), "a table of frames has no octets"),
    "CaptureKind::NoId": (compare(HEADER + record(), "--by", "id"), "a frame carries an ID where streams --capture made it"),
    "CaptureKind::ShortHeader": (replay(HEADER[:23]), "a capture begins with a header of 24 octets"),
    "CaptureKind::BadMagic": (replay(header(magic=1)), "this is no classic pcap file"),
    "CaptureKind::BadVersion": (replay(header(minor=3)), "the version of a classic pcap file is 2.4"),
    "CaptureKind::BadLink": (replay(header(link=0)), "the link type is 0, NULL"),
    "CaptureKind::ShortRecord": (replay(header() + record()[:-1]), "the capture ends within this record"),
    "CaptureKind::LongRecord": (replay(header() + record(octets=262145)), "a record has at most 262144 octets"),
    "CaptureKind::BadFraction": (replay(header() + record(fraction=1000000)), "the fraction of a time stamp is below a second"),
    "CaptureKind::TooManyRecords": (replay(HEADER + bytes(16 * 4000001)), "a capture has at most 4000000 records"),
    "CaptureKind::BadShift": (replay(HEADER + record(), "--shift=-1"), "with --shift each record comes at moment 0 or later"),
    "ValueKind::Rate": ((["script", "--rate", "1G"], b"", {}), "--rate is 10, 100"),
    "ValueKind::Mtu": ((["draw", "--mtu", "64"], b"", {}), "--mtu is a whole number"),
    "ValueKind::Room": ((["frames", "--room", "0"], b"", {}), "--room is a whole number"),
    "ValueKind::Map": ((["check", "--map", "8"], b"", {}), "--map is 1 to 16 classes"),
    "ValueKind::Frame": ((["check", "--frame", "long"], b"", {}), "--frame is a whole number of octets"),
    "ValueKind::Frames": (bounds(STREAM, b"", "--frames", "0"), "--frames is a whole number from 1"),
    "ValueKind::Silent": (bounds(STREAM, b"", "--silent", "6,8"), "--silent is classes from 0 to 7"),
    "ValueKind::Until": (replay(HEADER, "--until", "4294967297s"), "--until is picoseconds"),
    "ValueKind::Stamp": (replay(HEADER, "--stamp", "last"), "--stamp is start or end"),
    "ValueKind::Shift": (replay(HEADER, "--shift", "1min"), "--shift is picoseconds, or a number with its unit such as 37s"),
    "ValueKind::Format": (replay(HEADER, "--format", "pcap2"), "--format is pcap, pcapng or auto"),
    "ValueKind::Fcs": (replay(HEADER, "--fcs", "4"), "--fcs is absent or present"),
    "ValueKind::By": (compare(b"", "--by", "time"), "--by is order, id or payload"),
    "ValueKind::Within": (compare(b"", "--within", "1min"), "--within is picoseconds"),
    "ValueKind::Seed": ((["streams", "--seed", "x"], b"", {}), "--seed is a whole number from 0"),
    "ValueKind::From": ((["streams", "--from", "1min"], b"", {}), "--from is picoseconds"),
    "ValueKind::To": ((["draw", "--from", "1", "--to", "1"], b"", {}), "--to is picoseconds"),
    "ValueKind::Width": ((["draw", "--width", "399"], b"", {}), "--width is a whole number of pixels"),
    "ValueKind::Cycle": (plan("--cycle", "1.5ns"), "--cycle is a time of whole nanoseconds"),
    "ValueKind::Entries": (plan("--entries", "257"), "--entries is a whole number from 1 to 256"),
    "ValueKind::LeastInterval": (plan("--least-interval", "10"), "--least-interval is a time of whole nanoseconds"),
    "ValueKind::Device": (plan("--device", "a/b"), "--device is the name of a network device"),
    "ValueKind::BaseTime": (plan("--base-time", "1us"), "--base-time is a whole number of nanoseconds"),
    "ValueKind::Next": ((["paths", "--next", "c", "network"], b"", {"network": NETWORK}), "--next is the name of a port of the network"),
    "FaultKind::Found": (bounds(STREAM, b"tc qdisc replace\n", "--strict"), None),
    "FaultKind::NoSchedule": (bounds(STREAM, b"", "--strict"), "a schedule of standard input that a new port accepts is judged"),
    "FaultKind::NoStream": (bounds(b"", COMMAND, "--strict"), "the file has no line such as: stream"),
    "FaultKind::OutIsInput": ((["replay", "script", "capture", "./capture"], b"", {"script": b"", "capture": HEADER}), "OUT would be emptied before it is read"),
    "FaultKind::CannotOpen": ((["bounds", "table"], b"", {}), "the path, and the right to open it"),
    "FaultKind::ReadFailed": ((["bounds", "."], b"", {}), "the call isn't tried again"),
    "FaultKind::WriteFailed": ((["replay", "script", "capture", "/dev/full"], b"", {"script": b"", "capture": HEADER}), "the call isn't tried again"),
    "FaultKind::OutOfMemory": None,
}


def case_each_fault_is_helped_in_its_own_words(program):
    """What is printed is the fault's, and what helps with it stands below, without a line where the fault is of none."""
    listed = kinds()
    assert HELPED.keys() == listed.keys(), sorted(HELPED.keys() ^ listed.keys())
    wrong = []
    for name, tried in HELPED.items():
        if tried is None:
            continue
        (words, input, files), wanted = tried
        text = run(program, [words[0], "--explain", *words[1:]], input, files).errors.decode()
        first, *lines = text.splitlines()
        helps = lines[-1:] == [] if wanted is None else lines[-1:] and lines[-1].startswith(f"    {wanted}")
        if listed[name] not in first or not helps or (not name.startswith("LineKind") and len(lines) > 1):
            wrong.append(f"{name}: {text}")
    assert not wrong, "\n".join(wrong)


def case_a_write_that_fails_behind_a_malformed_line_is_helped_without_the_line(program):
    """The line has nothing to do with it."""
    with open("/dev/full", "wb") as full:
        ran = run(program, ["script", "--explain"], b"frame 1 0 60\nclock\n", stdout=full)
    assert ran.errors.splitlines() == [b"taprio_port: write failed", b"    the call isn't tried again: check the disk, or the program at the other end of the pipe"], ran
