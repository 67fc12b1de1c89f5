"""Cases of captures in pcapng, and of check sequences: what they answer is what the classic captures answer that they come to."""
import concurrent.futures
import functools
import itertools
import pathlib
import random
import shutil
import struct
import tempfile
import tomllib

import pcapng_tools
from rows import run

CASES = pathlib.Path(__file__).resolve().parent / "imports" / "pcapng.toml"
SCRIPT = b"tc qdisc replace dev eth0 root taprio num_tc 2 map 0 1 sched-entry S 02 50000 sched-entry S 01 200000\n"


def replayed(program, capture, *words):
    """A replay of a capture: its status, its report, and what left."""
    ran = run(program, ["replay", *words, "script", "capture", "out"], b"", {"script": SCRIPT, "capture": capture})
    return ran.status, ran.output, ran.files.get("out"), ran.errors


def tabled(program, capture, *words):
    """The table of its frames."""
    ran = run(program, ["frames", *words, "--capture", "capture"], SCRIPT, {"capture": capture})
    return ran.status, ran.output


def case_a_pcapng_answers_as_the_classic_capture_that_it_comes_to(program):
    """The rows that the Python package and the page are tried on, in both ways to ask."""
    with open(CASES, "rb") as file:
        cases = tomllib.load(file)["case"]
    for case in cases:
        octets = bytes.fromhex(case["input"])
        auto, asked = replayed(program, octets, "--format", "auto"), replayed(program, octets, "--format", "pcapng")
        assert auto == asked, case["name"]
        if "classic" in case:
            classic = bytes.fromhex(case["classic"])
            assert auto[:3] == replayed(program, classic)[:3] and auto[0] == 0, (case["name"], auto)
            assert tabled(program, octets, "--format", "auto") == tabled(program, classic), case["name"]
            assert replayed(program, classic, "--format", "auto") == replayed(program, classic), case["name"]
            told = replayed(program, octets, "--format", "auto", "--explain")[3]
            assert (b"moments rounded down to whole nanoseconds: " in told) == case.get("rounded", False), (case["name"], told)
        else:
            assert auto[0] == 3 and auto[3] == f"taprio_port: capture {case['block']}\n".encode(), (case["name"], auto)


@functools.cache
def without_tools():
    """Whether a tool isn't there. Then that is said once, and the cases below do nothing."""
    missing = [name for name in pcapng_tools.TOOLS if not shutil.which(name)]
    if missing:
        print(f"captures of Wireshark's tools and tcpdump: skipped, since {missing[0]} isn't there")
    return bool(missing)


def case_captures_of_wiresharks_tools_answer_as_editcaps_classic_ones(program):
    """Where the tools are: made by tshark, tcpdump, editcap and mergecap, and by hand."""
    if not without_tools():
        assert pcapng_tools.compare(lambda octets: replayed(program, octets, "--format", "auto")[:3]) >= 60


def answered(program, octets):
    """What the program says of each frame of a capture: its moment in nanoseconds, its octets on the wire, and those that are captured. A
    port of 10 Gb/s lets out all of them in their order, so that the records that leave tell what is captured."""
    words = ["--format", "auto", "--rate", "10000", "--room", "4096"]
    table = run(program, ["frames", *words, "--capture", "capture"], b"", {"capture": octets})
    left = run(program, ["replay", *words, "script", "capture", "out"], b"", {"script": b"", "capture": octets})
    assert table.status == 0 and left.status == 0, (table.errors, left.errors)
    rows = sorted((row.split(b",") for row in table.output.splitlines()[1:]), key=lambda row: int(row[0]))
    captured, at, out = [], 24, left.files["out"]
    while at < len(out):
        captured.append(struct.unpack_from("<I", out, at + 8)[0])
        at += 16 + captured[-1]
    assert [int(row[0]) for row in rows] == list(range(len(captured))), (len(rows), len(captured))
    return [(int(row[3]) // 1000, int(row[2]), count) for row, count in zip(rows, captured)]


def in_order(moments):
    """Moments as a replay takes them: none is before the one in front of it, and without a time stamp it is that one."""
    return list(itertools.accumulate((at or 0 for at in moments), max))


def agree(what, frames, shark, dump):
    """The same frames in the same order, as tshark and tcpdump tell them. Whether tcpdump reads the capture."""
    assert [frame[1:] for frame in frames] == [frame[1:] for frame in shark], what
    assert [frame[0] for frame in frames] == in_order(frame[0] for frame in shark), what
    if dump is not None:
        assert all(wire in (None, frame[1]) for frame, (_, wire) in zip(frames, dump, strict=True)), what
        assert [frame[0] for frame in frames] == in_order(frame[0] for frame in dump), what
    return dump is not None


def case_frames_are_those_that_tshark_and_tcpdump_tell(program):
    """Of each capture the same frames in the same order: moment, length and captured octets as tshark tells them, moment and length as
    tcpdump does."""
    if without_tools():
        return
    with tempfile.TemporaryDirectory(prefix="taprio-tools-") as name:
        captures = pcapng_tools.all_of_them(pathlib.Path(name))
    with concurrent.futures.ThreadPoolExecutor(4) as pool:
        octets = [it for _, it in captures]
        told = zip(captures, pool.map(pcapng_tools.by_tshark, octets), pool.map(pcapng_tools.by_tcpdump, octets), strict=True)
        by_tcpdump = sum(agree(what, answered(program, it), shark, dump) for (what, it), shark, dump in told)
    assert len(captures) >= 60 and by_tcpdump >= 60, (len(captures), by_tcpdump)


def case_a_link_type_that_isn_t_ethernet_is_a_fault_that_has_its_number(program):
    """Of both formats."""
    if without_tools():
        return
    with tempfile.TemporaryDirectory(prefix="taprio-tools-") as name:
        for what, number, octets in pcapng_tools.other_links(pathlib.Path(name)):
            status, _, _, errors = replayed(program, octets, "--format", "auto", "--explain")
            assert status == 3 and b"BadLink" in errors and str(number).encode() in errors, (what, errors)


def mixed(order, resolution):
    """A section with all kinds of packets and blocks."""
    octets = pcapng_tools.section(order, resolution)
    for number in range(6):
        data = bytes(12) + b"\x88\xf7" + bytes([number] * (number * 7))
        octets += pcapng_tools.enhanced(order, 1_000_000 * number, len(data), data)
        octets += pcapng_tools.block(order, 0x0BAD0000 + number, bytes(number * 5)) + pcapng_tools.simple(order, len(data), data)
        octets += pcapng_tools.obsolete(order, 1_000_000 * number, len(data) + 9, data)
    return octets


def case_a_capture_that_is_cut_or_turned_ends_where_it_can_t_be_read(program):
    """Cut at each octet of some: what comes before the block that is cut is answered, the block is named, or it is whole. With an octet turned
    the run ends with status 0 or 3, and never otherwise."""
    dice = random.Random("pcapng")
    octets = mixed("<", 9) + mixed(">", None)
    whole = tabled(program, octets, "--format", "auto")
    assert whole[0] == 0, whole
    for at in [4, 11, 12, 28, *(dice.randrange(29, len(octets)) for _ in range(60))]:
        status, output, _, errors = replayed(program, octets[:at], "--format", "auto")
        table = tabled(program, octets[:at], "--format", "auto")[1]
        rows = {row.split(b",")[0] for row in table.splitlines()[1:]}
        assert rows <= {row.split(b",")[0] for row in whole[1].splitlines()[1:]}, at
        assert (status == 3) == errors.startswith(b"taprio_port: capture block "), (at, errors)
    for _ in range(200):
        turned = bytearray(octets)
        turned[dice.randrange(len(octets))] ^= 1 << dice.randrange(8)
        assert replayed(program, bytes(turned), "--format", "pcapng")[0] in (0, 3)


def without_sequences(octets):
    """A classic capture without the check sequences of its frames, cut here."""
    order = "<" if octets[:4] in (b"\xd4\xc3\xb2\xa1", b"\x4d\x3c\xb2\xa1") else ">"
    made, at = octets[:24], 24
    while at < len(octets):
        seconds, fraction, captured, original = struct.unpack_from(order + "IIII", octets, at)
        data = octets[at + 16 : at + 16 + captured]
        cut = original if original < 4 else original - 4
        keep = captured if original < 4 else min(captured, original - 4)
        made += struct.pack(order + "IIII", seconds, fraction, keep, cut) + data[:keep]
        at += 16 + captured
    return made


def case_check_sequences_are_not_counted_twice(program):
    """In either order and resolution, with frames that are cut, and shorter than a check sequence."""
    dice = random.Random("fcs")
    for magic, order in ((0xA1B23C4D, "<"), (0xA1B2C3D4, ">"), (0xA1B23C4D, ">")):
        octets = struct.pack(order + "IHHiIII", magic, 2, 4, 0, 0, 262144, 1)
        for number in range(40):
            original = dice.choice([0, 3, 4, 5, 64, 68, 1518])
            captured = min(original, dice.choice([0, 4, 60, 62, 64, 2000])) if dice.random() < 0.9 else original + 5
            octets += struct.pack(order + "IIII", number, number, captured, original) + dice.randbytes(captured)
        cut = without_sequences(octets)
        assert replayed(program, octets, "--fcs", "present") == replayed(program, cut), magic
        assert tabled(program, octets, "--fcs", "present") == tabled(program, cut), magic
        assert replayed(program, octets, "--fcs", "absent") == replayed(program, octets), magic
        torn = replayed(program, octets[:-1], "--fcs", "present")
        assert torn[0] == 3 and torn[3] == b"taprio_port: capture record 39: ShortRecord\n", torn


def case_a_bad_word_about_a_capture_is_refused_before_anything_is_read(program):
    """Status 2, and no output file is made."""
    for words in (["--format", "pcap2"], ["--format", ""], ["--fcs", "yes"]):
        ran = run(program, ["replay", *words, "script", "none", "out"], b"", {"script": b""})
        assert ran.status == 2 and "out" not in ran.files and ran.errors == f"taprio_port: bad value of {words[0]}\n".encode(), ran
        ran = run(program, ["frames", *words, "--capture", "none"], b"")
        assert ran.status == 2 and ran.errors == f"taprio_port: bad value of {words[0]}\n".encode(), ran
