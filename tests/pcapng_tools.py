"""Captures of both formats as Wireshark's tools and tcpdump write them, some by hand, and what these tools read of them.

    tests/pcapng_tools.py COMMAND ..

COMMAND reads a capture from its standard input, in either format. It has to write the same of a capture and of the classic one that
`editcap -F nsecpcap` makes of it. Without the tools it says so, and does nothing."""
import pathlib
import random
import re
import shutil
import struct
import subprocess
import sys
import tempfile

TOOLS = ["editcap", "mergecap", "tshark", "tcpdump"]
# Little-endian, in nanoseconds, at most 262,144 octets, Ethernet.
CLASSIC = struct.pack("<IHHiIII", 0xA1B23C4D, 2, 4, 0, 0, 262144, 1)
SECOND = 10**9


def classic(frames):
    """A classic capture of (nanoseconds, octets on the wire, octets captured)."""
    return CLASSIC + b"".join(struct.pack("<IIII", at // SECOND, at % SECOND, len(octets), wire) + octets for at, wire, octets in frames)


def frames(seed, count):
    rng = random.Random(seed)
    at, made = 1_767_225_600 * SECOND, []
    for _ in range(count):
        at += rng.randrange(2_000_000)
        octets = bytes(12) + b"\x88\xf7" + rng.randbytes(rng.choice([0, 1, 2, 3, 46, 100, 1486]))
        made.append((at, len(octets) + rng.choice([0, 0, 7]), octets))
    return made


def block(order, kind, body):
    """A block: its type, its length, its octets filled up to a multiple of four, and its length once more."""
    body += bytes(-len(body) % 4)
    length = struct.pack(order + "I", len(body) + 12)
    return struct.pack(order + "I", kind) + length + body + length


def option(order, code, value):
    return struct.pack(order + "HH", code, len(value)) + value + bytes(-len(value) % 4)


def header(order, options=b""):
    """A section header."""
    return block(order, 0x0A0D0D0A, struct.pack(order + "IHHq", 0x1A2B3C4D, 1, 0, -1) + options)


def interface(order, link, snap, options):
    """An interface, with options."""
    return block(order, 1, struct.pack(order + "HHI", link, 0, snap) + options)


def section(order, resolution=None, snap=0, offset=None):
    """A section header, and one interface of Ethernet."""
    options = b"" if resolution is None else option(order, 9, bytes([resolution]))
    options += b"" if offset is None else option(order, 14, struct.pack(order + "q", offset))
    return header(order) + interface(order, 1, snap, options and options + option(order, 0, b""))


def enhanced(order, ticks, wire, octets, number=0, options=b""):
    """A packet of the interface with this number."""
    front = struct.pack(order + "IIIII", number, ticks >> 32, ticks & 0xFFFFFFFF, len(octets), wire)
    return block(order, 6, front + octets + bytes(-len(octets) % 4) + options)


def obsolete(order, ticks, wire, octets):
    return block(order, 2, struct.pack(order + "HHIIII", 0, 0, ticks >> 32, ticks & 0xFFFFFFFF, len(octets), wire) + octets)


def simple(order, wire, octets):
    return block(order, 3, struct.pack(order + "I", wire) + octets)


def by_hand():
    """By name, captures that no tool writes: big-endian ones, other resolutions, blocks of old, blocks that are passed over."""
    some = frames(1, 20)
    for order, name in (("<", "little-endian"), (">", "big-endian")):
        for resolution, ticks in ((None, 10**6), (0, 1), (3, 10**3), (6, 10**6), (9, 10**9), (128 + 10, 2**10), (128 + 20, 2**20)):
            packets = b"".join(enhanced(order, at * ticks // SECOND, wire, octets) for at, wire, octets in some)
            yield f"{name}, resolution {resolution}", section(order, resolution) + packets
        old = b"".join(obsolete(order, at // 1000, wire, octets) for at, wire, octets in some)
        yield f"{name}, packet blocks of old", section(order) + old
        passed = block(order, 0x80000123, bytes(70_000)) + block(order, 5, struct.pack(order + "III", 0, 0, 0))
        mixed = b"".join(enhanced(order, at, wire, octets) + passed for at, wire, octets in some[:4])
        yield f"{name}, blocks that are passed over", section(order, 9) + mixed
        yield f"{name}, simple packets", section(order, snap=64) + b"".join(simple(order, len(it), it[:64]) for _, _, it in some)


def by_hand_of_our_days():
    """By name, more of them: parts of 10^-12 s, other offsets, several interfaces, options and comments, names and statistics in between."""
    some, epoch = frames(4, 20), 1_767_225_600
    for order, name in (("<", "little-endian"), (">", "big-endian")):
        # tshark 4.0 loses what is more than 2^64 / 10^9 parts of a second behind a whole one, so these lie within 18 ms.
        ticks = ((at - epoch * SECOND) // 3 * 1000 + 999 for at, _, _ in some)
        pico = b"".join(enhanced(order, tick, wire, octets) for tick, (_, wire, octets) in zip(ticks, some))
        yield f"{name}, 10^-12 s behind an offset", section(order, 12, offset=epoch) + pico
        late = b"".join(enhanced(order, at + 3600 * SECOND, wire, octets) for at, wire, octets in some)
        yield f"{name}, an offset below 0", section(order, 9, offset=-3600) + late
        remark, end = option(order, 1, b"a comment, with an odd length"), option(order, 0, b"")
        three = header(order, remark + option(order, 4, b"a test") + end) + b"".join(
            interface(order, 1, snap, remark + option(order, 2, b"eth0") + option(order, 9, bytes([resolution])) + end)
            for snap, resolution in ((0, 9), (262_144, 6), (65_535, 3)))
        for count, (at, wire, octets) in enumerate(some):
            number = count % 3
            three += enhanced(order, at // 1000**number, wire, octets, number, remark + option(order, 2, bytes(4)) + end)
            three += block(order, 5, struct.pack(order + "III", number, 0, count) + option(order, 4, bytes(8)) + end)
            three += block(order, 4, struct.pack(order + "HH", 1, 10) + b"\x0a\0\0\1alpha\0" + bytes(6))
        yield f"{name}, three interfaces, names, statistics and comments", three
        for magic, unit in ((0xA1B23C4D, 1), (0xA1B2C3D4, 1000)):
            records = ((struct.pack(order + "IIII", at // SECOND, at % SECOND // unit, len(octets), wire), octets) for at, wire, octets in some)
            start = struct.pack(order + "IHHiIII", magic, 2, 4, 0, 0, 262144, 1)
            yield f"{name}, classic, {unit} ns", start + b"".join(front + octets for front, octets in records)


# Captures by the tools: what it is, the file that it is in, and the command that makes it. `first.pcap` and `second.pcap` are classic ones
# in nanoseconds, `third.pcap` has packets of IP, `hosts` names for their addresses, and `keys` a text.
MADE = """
nanoseconds | one.pcapng | editcap -F pcapng first.pcap one.pcapng
nanoseconds, others | two.pcapng | editcap -F pcapng second.pcap two.pcapng
classic, microseconds | micro.pcap | editcap -F pcap first.pcap micro.pcap
microseconds | micro.pcapng | editcap -F pcapng micro.pcap micro.pcapng
cut to 60 octets, with comments | cut.pcapng | editcap -F pcapng -s 60 -a 3:a_comment -a 5:another first.pcap cut.pcapng
classic, cut to 40 octets | cut.pcap | editcap -F nsecpcap -s 40 first.pcap cut.pcap
cut before its end, the length as it was | chopped.pcapng | editcap -C -4 one.pcapng chopped.pcapng
an hour and a nanosecond sooner | sooner.pcapng | editcap -t -3600.000000001 one.pcapng sooner.pcapng
a comment about the capture | remark.pcapng | editcap --capture-comment hello one.pcapng remark.pcapng
secrets in front | secret.pcapng | editcap --inject-secrets tls,keys one.pcapng secret.pcapng
a part of it | part.pcapng | editcap -r one.pcapng part.pcapng 5-90 200-220
without what comes twice | once.pcapng | editcap -d one.pcapng once.pcapng
by tshark | shark.pcapng | tshark -r one.pcapng -w shark.pcapng
by tshark, of a classic one | sharked.pcapng | tshark -r micro.pcap -F pcapng -w sharked.pcapng
by tshark, classic | shark.pcap | tshark -r two.pcapng -F nsecpcap -w shark.pcap
by tshark, classic, microseconds | shark.micro.pcap | tshark -r two.pcapng -F pcap -w shark.micro.pcap
by tshark, what a filter takes | filtered.pcapng | tshark -r two.pcapng -Y frame.len>100 -w filtered.pcapng
cut before its end, the length too | shorter.pcapng | editcap -L -C -4 filtered.pcapng shorter.pcapng
by tshark, with a table of names | names.pcapng | tshark -r third.pcap -H hosts -N n -V -W n -w names.pcapng
by tcpdump, of a pcapng | dumped.pcap | tcpdump -r one.pcapng --time-stamp-precision=nano -w dumped.pcap
by tcpdump, microseconds | dumped.micro.pcap | tcpdump -r one.pcapng -w dumped.micro.pcap
by tcpdump, of a classic one | dumped.again.pcap | tcpdump -r dumped.pcap --time-stamp-precision=nano -w dumped.again.pcap
by tcpdump, what a filter takes | dumped.some.pcap | tcpdump -r two.pcapng --time-stamp-precision=nano -w dumped.some.pcap greater 100
two interfaces | merged.pcapng | mergecap -I none -w merged.pcapng one.pcapng two.pcapng
two interfaces made one | joined.pcapng | mergecap -I all -w joined.pcapng one.pcapng two.pcapng
two interfaces of two resolutions | mixed.pcapng | mergecap -I none -w mixed.pcapng two.pcapng micro.pcapng
four interfaces | four.pcapng | mergecap -I none -w four.pcapng merged.pcapng mixed.pcapng
one behind the other, moments that go back | behind.pcapng | mergecap -a -w behind.pcapng two.pcapng sooner.pcapng
the same made to go on | onward.pcapng | editcap -S 0 behind.pcapng onward.pcapng
merged and cut | short.pcapng | mergecap -s 30 -w short.pcapng one.pcapng two.pcapng
merged, classic | merged.pcap | mergecap -F nsecpcap -w merged.pcap one.pcapng two.pcapng
by tcpdump, of two interfaces | dumped.merged.pcap | tcpdump -r merged.pcapng --time-stamp-precision=nano -w dumped.merged.pcap
10^-12 s, by editcap | pico.pcapng | editcap by_hand.pcapng pico.pcapng
10^-12 s and 10^-9 s | picos.pcapng | mergecap -I none -w picos.pcapng by_hand.pcapng sooner.pcapng
"""


def packets_of_ip():
    """Frames whose addresses have names, of a time that 64 bits of 10^-12 s can say."""
    packet = bytes.fromhex("4500001400004000401166d6") + bytes([10, 0, 0, 1, 10, 0, 0, 2])
    return [(at, 34, bytes(12) + b"\x08\x00" + packet) for at, _, _ in frames(5, 60)]


def by_tools(folder):
    """By name, what the tools write."""
    (folder / "first.pcap").write_bytes(classic(frames(2, 300)))
    (folder / "second.pcap").write_bytes(classic(frames(3, 300)))
    (folder / "third.pcap").write_bytes(classic(packets_of_ip()))
    (folder / "hosts").write_text("10.0.0.1 alpha\n10.0.0.2 beta\n")
    (folder / "keys").write_text("CLIENT_RANDOM 00 00\n")
    ticks = ((600 * SECOND + at % SECOND // 3) * 1000 + 500 for at, _, _ in frames(6, 40))
    (folder / "by_hand.pcapng").write_bytes(section("<", 12) + b"".join(enhanced("<", tick, 60, bytes(12) + b"\x88\xf7" + bytes(46)) for tick in ticks))
    for what, name, command in (line.split(" | ") for line in MADE.strip().splitlines()):
        subprocess.run(command.split(), cwd=folder, check=True, stdout=subprocess.DEVNULL, stderr=subprocess.DEVNULL)
        yield what, (folder / name).read_bytes()
    yield "two sections", (folder / "one.pcapng").read_bytes() + (folder / "two.pcapng").read_bytes()


def all_of_them(folder):
    """By name, every capture of Ethernet frames here."""
    return [*by_tools(folder), *by_hand(), *by_hand_of_our_days()]


def other_links(folder):
    """Captures of other link types, with the number of each (LINKTYPE_RAW, LINKTYPE_IEEE802_11, LINKTYPE_LINUX_SLL)."""
    (folder / "first.pcap").write_bytes(classic(frames(2, 3)))
    for kind, number in (("rawip", 101), ("ieee-802-11", 105), ("linux-sll", 113)):
        for form in ("pcap", "nsecpcap", "pcapng"):
            subprocess.run(["editcap", "-F", form, "-T", kind, "first.pcap", "other"], cwd=folder, check=True, stderr=subprocess.DEVNULL)
            yield f"{kind}, {form}", number, (folder / "other").read_bytes()


def nanoseconds(text):
    """A time that is written as seconds with a point, in whole nanoseconds; None where there is none."""
    seconds, _, parts = text.partition(".")
    return int(seconds) * SECOND + int((parts + "0" * 9)[:9]) if text else None


def by_tshark(octets):
    """What tshark tells of each frame: its moment in nanoseconds, its octets on the wire, and those that are captured."""
    words = ["tshark", "-n", "-r", "-", "-T", "fields", "-e", "frame.time_epoch", "-e", "frame.len", "-e", "frame.cap_len"]
    told = subprocess.run(words, input=octets, check=True, stdout=subprocess.PIPE, stderr=subprocess.DEVNULL).stdout.decode()
    rows = [line.split("\t") for line in told.splitlines()]
    return [(nanoseconds(at), int(wire), int(captured)) for at, wire, captured in rows]


def by_tcpdump(octets):
    """What tcpdump tells of each frame: its moment in nanoseconds, and its octets on the wire, or None where it doesn't tell them, as of a
    frame that is cut within its header. None where it doesn't read the capture, as with snap lengths that differ."""
    words = ["tcpdump", "-r", "-", "--time-stamp-precision=nano", "-tt", "-n", "-e", "-q"]
    ran = subprocess.run(words, input=octets, stdout=subprocess.PIPE, stderr=subprocess.DEVNULL)
    rows = [line for line in ran.stdout.decode().splitlines() if line[:1].isdigit()]
    lengths = [re.search(r", length (\d+)", row) for row in rows]
    told = [(nanoseconds(row.split()[0]), int(length[1]) if length else None) for row, length in zip(rows, lengths)]
    return told if ran.returncode == 0 else None


def by_editcap(folder, octets):
    """The classic capture that editcap makes of one, under our header; None where it makes none, as of one with secrets."""
    given, made = folder / "given", folder / "made.pcap"
    given.write_bytes(octets)
    ran = subprocess.run(["editcap", "-F", "nsecpcap", given, made], stdout=subprocess.DEVNULL, stderr=subprocess.DEVNULL)
    return CLASSIC + made.read_bytes()[24:] if ran.returncode == 0 else None


def compare(answer):
    """How many captures have one answer in both formats. The first that has two is an AssertionError."""
    count = 0
    with tempfile.TemporaryDirectory(prefix="taprio-pcapng-") as name:
        folder = pathlib.Path(name)
        for what, octets in all_of_them(folder):
            made = by_editcap(folder, octets)
            if made is not None:
                assert len(made) > len(CLASSIC), what
                assert answer(octets) == answer(made), what
                count += 1
    return count


def main(command):
    missing = [name for name in TOOLS if not shutil.which(name)]
    if missing:
        print(f"pcapng_tools: skipped, since {missing[0]} isn't there")
        return

    def answer(octets):
        return subprocess.run(command, input=octets, stdout=subprocess.PIPE, stderr=subprocess.DEVNULL, check=True).stdout

    print(f"pcapng_tools: {compare(answer)} captures are read as editcap reads them")


if __name__ == "__main__":
    if len(sys.argv) < 2:
        sys.exit(__doc__)
    main(sys.argv[1:])
