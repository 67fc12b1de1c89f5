"""Captures: classic ones as they are, pcapng as the classic one that it comes to, and a word for the others."""

import gzip
import os
import pathlib
import struct
import subprocess
import tempfile
import tomllib
import unittest

import support
import taprio

FRAMES = [bytes([2, 0, 0, 0, 0, number]) + bytes(range(40)) for number in range(3)]
CASES = support.ROOT / "tests" / "imports" / "pcapng.toml"
MOMENTS = [1_764_189_000_123_456_789, 1_764_189_000_123_456_790, 1_764_189_001_000_000_001]


def option(order, code, octets):
    return struct.pack(order + "HH", code, len(octets)) + octets + bytes(-len(octets) % 4)


def block(order, kind, body):
    return struct.pack(order + "II", kind, 12 + len(body)) + body + struct.pack(order + "I", 12 + len(body))


def section(order="<", magic=0x1A2B3C4D, version=1):
    return block(order, 0x0A0D0D0A, struct.pack(order + "IHHq", magic, version, 0, -1))


def interface(order="<", link=1, snap=0, options=b""):
    return block(order, 1, struct.pack(order + "HHI", link, 0, snap) + options)


def enhanced(order, ticks, frame, number=0, captured=None):
    """A packet of the interface with this number, which says that so many octets are captured."""
    count = len(frame) if captured is None else captured
    front = struct.pack(order + "IIIII", number, ticks >> 32, ticks & 0xFFFFFFFF, count, 1000 + len(frame))
    return block(order, 6, front + frame + bytes(-len(frame) % 4))


def pcapng(order="<", resolution=9, link=1, moments=MOMENTS, cut=0):
    """A capture of one interface (draft-ietf-opsawg-pcapng), with ticks of a second of 10 to this power."""
    found = section(order) + interface(order, link, 0, option(order, 9, bytes([resolution])) + option(order, 0, b""))
    for moment, frame in zip(moments, FRAMES):
        found += enhanced(order, moment * 10**resolution // 10**9, frame)
    return found[: len(found) - cut]


# The name of a fault, the number of the block that has it, the blocks before it, and that block.
ONE = section() + interface() + enhanced("<", 5, FRAMES[0])
FAULTY = [
    ("BadByteOrder", 3, ONE, section(magic=0)),
    ("BadLength", 3, ONE, struct.pack("<II", 5, 8) + bytes(8)),
    ("BadLength", 3, ONE, block("<", 5, bytes(2))),
    ("BadLength", 3, ONE, block("<", 6, bytes(16))),
    ("BadLength", 3, ONE, block("<", 6, bytes(20))[:-4] + bytes(4)),
    ("BadLength", 3, ONE, block("<", 5, bytes(20))[:-4] + bytes(4)),
    ("LongRecord", 3, ONE, struct.pack("<II", 6, 524_292) + bytes(24)),
    ("LongRecord", 3, ONE, enhanced("<", 5, bytes(8), captured=262_145)),
    ("ShortBlock", 3, ONE, b"\5\0\0\0\x0c\0\0\0\x0c\0\0"),
    ("ShortBlock", 3, ONE, struct.pack("<II", 5, 2**32 - 4) + bytes(24)),
    ("BadVersion", 3, ONE, section(version=2)),
    ("TooManyInterfaces", 258, ONE + 255 * interface(), interface()),
    ("BadOption", 3, ONE, interface(options=option("<", 9, b"\6\0"))),
    ("BadOption", 3, ONE, interface(options=option("<", 14, bytes(4)))),
    ("BadOption", 3, ONE, interface(options=struct.pack("<HH", 1, 5) + bytes(4))),
    ("NoInterface", 3, ONE, enhanced("<", 5, FRAMES[0], number=1)),
    ("NoInterface", 4, ONE + section(), block("<", 3, bytes(4))),
    ("BadLink 113", 4, ONE + interface(link=113), enhanced("<", 5, FRAMES[0], number=1)),
    ("BadCaptured", 3, ONE, enhanced("<", 5, bytes(8), captured=9)),
    ("BadMoment", 4, ONE + interface(options=option("<", 14, b"\xff" * 8)), enhanced("<", 999_999, FRAMES[0], number=1)),
    ("BadMoment", 3, ONE, enhanced("<", 2**32 * 10**6, FRAMES[0])),
]


def classic(moments):
    found = struct.pack("<IHHiIII", 0xA1B23C4D, 2, 4, 0, 0, 262144, 1)
    for moment, frame in zip(moments, FRAMES):
        found += struct.pack("<IIII", *divmod(moment, 10**9), len(frame), 1000 + len(frame)) + frame
    return found


class Captures(unittest.TestCase):
    def setUp(self):
        self.folder = tempfile.TemporaryDirectory(prefix="taprio-capture-")
        self.addCleanup(self.folder.cleanup)
        self.path = os.path.join(self.folder.name, "capture")

    def read(self, octets):
        pathlib.Path(self.path).write_bytes(octets)
        return taprio.read_capture(self.path)

    def fault(self, octets, text):
        with self.assertRaises(taprio.BadCapture) as raised:
            self.read(octets)
        self.assertIn(self.path, str(raised.exception))
        self.assertIn(text, str(raised.exception))

    def test_classic(self):
        octets = (support.EXAMPLES / "machine.pcap").read_bytes()
        self.assertEqual(self.read(octets), octets)
        self.assertEqual(taprio.read_capture(pathlib.Path(self.path)), octets)
        for magic in (0xA1B2C3D4, 0xA1B23C4D):
            for order in "<>":
                self.assertEqual(self.read(struct.pack(order + "I", magic)), struct.pack(order + "I", magic))

    def test_others(self):
        self.fault(gzip.compress(classic(MOMENTS)), "is compressed with gzip: gunzip it first")
        self.fault(b"\xfd7zXZ\0", "xz")
        self.fault(b"", "is no capture: it begins with nothing")
        self.fault(b"# a text", "is no capture: it begins with 23 20 61 20")
        with self.assertRaises(FileNotFoundError):
            taprio.read_capture("/nowhere/capture")

    def test_pcapng(self):
        for order in "<>":
            for resolution in (9, 6, 3):
                ticks = 10 ** (9 - resolution)
                wanted = classic([moment // ticks * ticks for moment in MOMENTS])
                self.assertEqual(self.read(pcapng(order, resolution)), wanted, (order, resolution))
        self.assertEqual(self.read(pcapng(moments=[])), classic([]))
        self.assertEqual(self.read(pcapng() + pcapng(">", 6)), self.read(pcapng()) + self.read(pcapng(">", 6))[24:])
        if support.PROGRAM:
            taprio.Program(support.PROGRAM).replay("", self.read(pcapng()), until=2_000_000_000 * 10**12)

    def test_what_counts_for_nothing(self):
        """Options behind the end of them, and the count of drops behind the interface of a packet of old."""
        options = option("<", 0, b"") + option("<", 9, b"\6\0")
        old = block("<", 2, struct.pack("<HHIIII", 0, 7, 0, 5, 46, 1046) + FRAMES[0] + bytes(2))
        self.assertEqual(self.read(section() + interface(options=options) + old), classic([5000]))

    def test_packets_without_a_moment(self):
        """A simple packet is of the first interface, and is captured up to its snap length, where that isn't 0."""
        frame = bytes(range(60))
        for snap, count in ((0, 60), (20, 20), (96, 60)):
            octets = section() + interface(snap=snap) + interface(link=113) + block("<", 3, struct.pack("<I", 60) + frame)
            self.assertEqual(self.read(octets), classic([]) + struct.pack("<IIII", 0, 0, count, 60) + frame[:count])

    def test_faulty_blocks(self):
        """The block is named as the program does it, and the packets before it are there."""
        for name, number, before, faulty in FAULTY:
            with self.subTest(name, faulty=faulty[:40]):
                text, output = f"capture block {number} at octet {len(before)}: {name}", self.read(before)
                with self.assertRaises(taprio.BadCapture) as raised:
                    self.read(before + faulty)
                fault = raised.exception
                self.assertEqual(str(fault), f"{self.path}: {text}")
                self.assertEqual((fault.block, fault.place, fault.name, fault.output), (number, len(before), name, output))
                if support.PROGRAM:
                    words = [support.PROGRAM, "frames", "--format", "auto", "--capture", self.path]
                    ran = subprocess.run(words, input=b"", capture_output=True, check=False)
                    self.assertEqual(ran.stderr.decode(), f"taprio_port: {text}\n")

    @unittest.skipUnless(CASES.exists(), "tests/imports lies in the repository")
    def test_pcapng_as_the_program_reads_it(self):
        for case in tomllib.loads(CASES.read_text(encoding="utf-8"))["case"]:
            octets = bytes.fromhex(case["input"])
            with self.subTest(case["name"]):
                if "classic" in case:
                    self.assertEqual(self.read(octets), bytes.fromhex(case["classic"]))
                else:
                    self.fault(octets, f": capture {case['block']}")


if __name__ == "__main__":
    unittest.main()
