"""Captures in pcapng for bench/hostile: random ones, whole or with lengths, options, resolutions, links and moments that can't be."""
import struct

SECTION, INTERFACE, OBSOLETE, SIMPLE, NAMES, STATISTICS, ENHANCED = 0x0A0D0D0A, 1, 2, 3, 4, 5, 6
LIMITS = [0, 1, 3, 4, 11, 12, 13, 28, 32, 255, 256, 65_535, 65_536, 262_144, 262_145, 2**31 - 1, 2**31, 2**32 - 4, 2**32 - 1]


class Capture:
    """Blocks one after another, of which few or many are faulty."""

    def __init__(self, rng):
        self.rng, self.order, self.interfaces, self.pieces = rng, "<", 0, []
        self.faulty = rng.choice([0, 0, 0.02, 0.2])
        self.ticks = rng.choice([0, 10**6, 10**15, 1_767_225_600 * 10**9, rng.randrange(2**62)])

    def is_faulty(self):
        return self.rng.random() < self.faulty

    def pack(self, form, *numbers):
        return struct.pack(self.order + form, *numbers)

    def block(self, kind, body):
        """A block, now and then with a length that can't be, at one of its ends or at both."""
        rng = self.rng
        body += bytes(-len(body) % 4) if not self.is_faulty() else b""
        front = back = len(body) + 12
        if self.is_faulty():
            wrong = rng.choice([*LIMITS, front + 1, front - 1, front + 4, front - 4, front * 2]) % 2**32
            front, back = rng.choice([(wrong, back), (front, wrong), (wrong, wrong)])
        self.pieces.append(self.pack("II", kind, front) + body + self.pack("I", back))

    def option(self, code, value):
        """An option, now and then with a length that isn't its own."""
        length = self.rng.choice([*LIMITS[:12], len(value) + 1, len(value) + 4]) if self.is_faulty() else len(value)
        return self.pack("HH", code, length % 65_536) + value + bytes(-len(value) % 4)

    def options(self, own=b""):
        """Some options, mostly with their end; or so many that they fill the block."""
        rng, found = self.rng, own
        for _ in range(rng.choice([0, 0, 0, 1, 2])):
            found += self.option(rng.choice([1, 2, 3, 8, 9, 14, 2988, rng.randrange(1, 65_536)]), rng.randbytes(rng.choice([0, 1, 2, 8, 9])))
        found += self.option(rng.randrange(1, 65_536), b"") * 20_000 if rng.random() < 0.0005 else b""
        return found + (self.option(0, b"") if rng.random() < 0.8 else b"")

    def section(self):
        """A section header, in either order of octets."""
        rng = self.rng
        self.order, self.interfaces = rng.choice("<>"), 0
        magic = 0x1A2B3C4D if not self.is_faulty() else rng.choice([0x1A2B3C4E, 0, 0x4D3C2B1A, rng.randrange(2**32)])
        versions = (1, rng.choice([0, 0, 2])) if not self.is_faulty() else (rng.randrange(4), rng.randrange(4))
        length = -1 if rng.random() < 0.9 else rng.choice([0, 28, 2**63 - 1, -2**63])
        self.block(SECTION, self.pack("IHHq", magic, *versions, length) + self.options())

    def interface(self):
        """An interface, mostly of Ethernet, with any resolution and offset."""
        rng, own = self.rng, b""
        # Few resolutions and offsets go with the ticks: the moments of others lie beyond the last one.
        is_odd = self.is_faulty() or rng.random() < 0.03
        if rng.random() < 0.8 or is_odd:
            resolution = rng.choice([0, 3, 6, 127, 128, 255, rng.randrange(256), rng.randrange(256)]) if is_odd else rng.choice([9, 9, 12, 18, 158, 168])
            own += self.option(9, bytes([resolution] * (1 if not self.is_faulty() else rng.randrange(4))))
        if rng.random() < 0.2 or is_odd:
            odd = [-1, 2**32, 2**63 - 1, -2**63, rng.randrange(-2**63, 2**63)]
            own += self.option(14, self.pack("q", rng.choice(odd if is_odd else [0, 1, 1_767_225_600]))[: 8 if not self.is_faulty() else rng.randrange(9)])
        link = 1 if not self.is_faulty() else rng.choice([0, 101, 105, 113, 65_535])
        self.block(INTERFACE, self.pack("HHI", link, 0, rng.choice([0, 0, 1514, 262_144, rng.choice(LIMITS)])) + self.options(own))
        self.interfaces += 1

    def data(self):
        """The octets of a frame, and how many were on the wire."""
        rng = self.rng
        captured = rng.choice([0, 13, 14, 60, 64, rng.randint(0, 200), 1514]) if rng.random() < 0.998 else rng.randint(0, 262_145)
        tag = struct.pack(">HH", 0x8100, rng.randrange(65_536)) if rng.random() < 0.5 else b"\x88\xf7\0\0"
        original = rng.choice([captured, captured, captured + 4, 60]) if not self.is_faulty() else rng.choice(LIMITS)
        return (bytes(12) + tag + bytes(captured))[:captured], original

    def packet(self):
        """A packet of one of the three kinds."""
        rng = self.rng
        octets, original = self.data()
        captured = len(octets) if not self.is_faulty() else rng.choice([*LIMITS, len(octets) + 1, len(octets) + 4])
        number = rng.randrange(self.interfaces) if self.interfaces and not self.is_faulty() else rng.choice([0, self.interfaces, 65_535])
        self.ticks = max(0, self.ticks + rng.choice([0, 1, 1000, 10**6, rng.randrange(10**9), -5])) % 2**64
        if self.is_faulty():
            self.ticks = rng.choice([0, 2**64 - 1, 2**63, rng.randrange(2**64)])
        high, low = self.ticks >> 32, self.ticks & 0xFFFFFFFF
        kind = rng.choice([ENHANCED, ENHANCED, ENHANCED, ENHANCED, SIMPLE, OBSOLETE])
        if kind == ENHANCED:
            self.block(kind, self.pack("IIIII", number, high, low, captured, original) + octets + bytes(-len(octets) % 4) + self.options())
        elif kind == OBSOLETE:
            drops = rng.choice([0, 65_535])
            self.block(kind, self.pack("HHIIII", number % 65_536, drops, high, low, captured, original) + octets)
        else:
            self.block(kind, self.pack("I", original) + octets)

    def other(self):
        """A block that is passed over."""
        rng = self.rng
        kind = rng.choice([NAMES, STATISTICS, 7, 9, 10, 0x0BAD, 0x80000001, 0, 2**32 - 1, rng.randrange(2**32)])
        self.block(kind, rng.randbytes(rng.choice([0, 4, 12, 20, 100]) if rng.random() < 0.998 else rng.randrange(100_000)) + self.options())

    def whole(self, count):
        """The octets of so many blocks behind a section and an interface."""
        rng = self.rng
        if not self.is_faulty():
            self.section()
        if not self.is_faulty():
            self.interface()
        for _ in range(rng.choice([1, 250, 256, 257, 300]) if rng.random() < 0.01 else 0):
            self.interface()
        for _ in range(count):
            rng.choices([self.packet, self.other, self.interface, self.section], [20, 3, 2, 0.5])[0]()
        return b"".join(self.pieces)


def pcapng(rng, size=None):
    """The octets of a capture in pcapng: of few blocks, or of as many octets as the size wants. Some are random behind their front."""
    if size is None:
        if rng.random() < 0.03:
            front = Capture(rng)
            front.section()
            return front.pieces[0][: rng.choice([4, 8, 12, 28])] + rng.randbytes(rng.choice([0, 1, 4, 40, 400]))
        return Capture(rng).whole(rng.choice([0, 1, 2, 5, 10, 20]))
    pieces, total = [], 0
    kind = rng.randrange(4)
    while total < size:
        capture = Capture(rng)
        capture.faulty = 0 if total < size // 2 else capture.faulty
        if kind == 0:
            # Interfaces without end: a section has at most 256, so these sections are short.
            capture.section()
            for _ in range(rng.choice([256, 256, 256, 257])):
                capture.interface()
            pieces.append(b"".join(capture.pieces))
        else:
            pieces.append(capture.whole(2000))
        total += len(pieces[-1])
    return b"".join(pieces)
