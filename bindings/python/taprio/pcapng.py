"""Captures in pcapng (draft-ietf-opsawg-pcapng) as records of a classic capture, as the definitions in `crates/pcapng/specs` say: the rule of
the program's `--format auto`."""

from __future__ import annotations

import struct
from collections.abc import Iterator
from dataclasses import dataclass, field

__all__ = ["BadBlock", "records_of"]

SECTION_HEADER, DESCRIPTION, OBSOLETE, SIMPLE, ENHANCED = 0x0A0D0D0A, 1, 2, 3, 6
# The fewest octets of the blocks that are read. Others have 12, and are passed over.
FEWEST_OCTETS = {SECTION_HEADER: 28, DESCRIPTION: 20, OBSOLETE: 32, SIMPLE: 16, ENHANCED: 32}
MAX_BLOCK_OCTETS, MAX_RECORD_OCTETS, MAX_INTERFACES = 524_288, 262_144, 256
# How a section header spells its order of octets.
ORDERS = {b"\x1a\x2b\x3c\x4d": ">", b"\x4d\x3c\x2b\x1a": "<"}
END, RESOLUTION, OFFSET = 0, 9, 14  # options of an interface
ETHERNET = 1
SECOND = 10**9


class BadBlock(Exception):
    """A block can't be read, and ends the capture. Its number and its place in the octets, both from 0, and the name of its fault."""

    def __init__(self, number: int, place: int, name: str) -> None:
        super().__init__(f"capture block {number} at octet {place}: {name}")
        self.number = number
        self.place = place
        self.name = name


class _Fault(Exception):
    """The name of a block's fault."""


@dataclass(frozen=True)
class _Block:
    """A whole block: what it is, and its octets, whose numbers are in this order."""

    kind: int
    order: str
    octets: memoryview

    def number(self, form: str, at: int) -> int:
        return int(struct.unpack_from(self.order + form, self.octets, at)[0])


@dataclass(frozen=True)
class _Interface:
    """What counts of an interface: its link type, its snap length, the ticks of a second, and the seconds that are added."""

    link: int
    snap: int
    ticks: int = 10**6
    offset: int = 0


@dataclass
class _Section:
    """The section that is read: the order of its octets, None before the first, and its interfaces so far."""

    order: str | None = None
    interfaces: list[_Interface] = field(default_factory=list)

    def interface(self, number: int) -> _Interface:
        """The interface of a packet."""
        if number >= len(self.interfaces):
            raise _Fault("NoInterface")
        found = self.interfaces[number]
        if found.link != ETHERNET:
            raise _Fault(f"BadLink {found.link}")
        return found


def records_of(octets: bytes) -> Iterator[bytes]:
    """The records of the classic capture, little-endian and in nanoseconds, that a pcapng comes to: one for each packet, in their order. A
    block that can't be read raises `BadBlock`, behind the records of those before it."""
    section, number, at = _Section(), 0, 0
    while at < len(octets):
        try:
            block = _block(memoryview(octets)[at:], section.order)
            record = _taken(section, block)
        except _Fault as fault:
            raise BadBlock(number, at, str(fault)) from None
        if record:
            yield record
        number, at = number + 1, at + len(block.octets)


def _block(octets: memoryview, order: str | None) -> _Block:
    """The first block of octets, in a section of this order, or before the first one."""
    if len(octets) < 12:
        raise _Fault("ShortBlock")
    if octets[:4] == b"\n\r\r\n":
        order = ORDERS.get(bytes(octets[8:12]))
        if order is None:
            raise _Fault("BadByteOrder")
    if order is None:
        raise _Fault("NotPcapng")
    kind, length = struct.unpack_from(order + "II", octets)
    if length < FEWEST_OCTETS.get(kind, 12) or length % 4:
        raise _Fault("BadLength")
    if kind in FEWEST_OCTETS and length > MAX_BLOCK_OCTETS:
        raise _Fault("LongRecord")
    if len(octets) < length:
        raise _Fault("ShortBlock")
    found = _Block(kind, order, octets[:length])
    if found.number("I", length - 4) != length:
        raise _Fault("BadLength")
    return found


def _taken(section: _Section, block: _Block) -> bytes:
    """Takes a block into its section, and gives its record, or nothing where it has no packet."""
    if block.kind == SECTION_HEADER:
        if block.number("H", 12) != 1:
            raise _Fault("BadVersion")
        section.order, section.interfaces = block.order, []
    elif block.kind == DESCRIPTION:
        if len(section.interfaces) >= MAX_INTERFACES:
            raise _Fault("TooManyInterfaces")
        section.interfaces.append(_interface(block))
    elif block.kind == SIMPLE:
        return _simple(section.interface(0), block)
    elif block.kind == OBSOLETE:
        return _stamped(section.interface(block.number("H", 8)), block)
    elif block.kind == ENHANCED:
        return _stamped(section.interface(block.number("I", 8)), block)
    return b""


def _interface(block: _Block) -> _Interface:
    """The interface that a block describes. Of two options of a kind the last one counts."""
    ticks, offset = 10**6, 0
    for code, value in _options(block):
        if code == RESOLUTION:
            if len(value) != 1:
                raise _Fault("BadOption")
            ticks = (2 if value[0] & 128 else 10) ** (value[0] & 127)
        elif code == OFFSET:
            if len(value) != 8:
                raise _Fault("BadOption")
            (offset,) = struct.unpack(block.order + "q", value)
    return _Interface(block.number("H", 8), block.number("I", 12), ticks, offset)


def _options(block: _Block) -> Iterator[tuple[int, memoryview]]:
    """The options of an interface, up to the one that ends them: the code of each, and its value."""
    at, end = 16, len(block.octets) - 4
    while at < end:
        code, length = block.number("H", at), block.number("H", at + 2)
        if code == END:
            return
        if at + 4 + length > end:
            raise _Fault("BadOption")
        yield code, block.octets[at + 4 : at + 4 + length]
        at += 4 + -(-length // 4) * 4


def _stamped(interface: _Interface, block: _Block) -> bytes:
    """The record of a packet with a time stamp, rounded down to whole nanoseconds."""
    high, low, captured, original = struct.unpack_from(block.order + "IIII", block.octets, 12)
    moment = ((high << 32) + low) * SECOND // interface.ticks + interface.offset * SECOND
    return _record(moment, original, captured, block.octets[28:-4])


def _simple(interface: _Interface, block: _Block) -> bytes:
    """The record of a simple packet. It has no time stamp, and doesn't say how much of it was captured."""
    original = block.number("I", 8)
    return _record(0, original, min(original, interface.snap or original), block.octets[12:-4])


def _record(moment: int, original: int, captured: int, octets: memoryview) -> bytes:
    """A record with so many captured ones of these octets."""
    if captured > MAX_RECORD_OCTETS:
        raise _Fault("LongRecord")
    if captured > len(octets):
        raise _Fault("BadCaptured")
    if not 0 <= moment < 2**32 * SECOND:
        raise _Fault("BadMoment")
    return struct.pack("<IIII", *divmod(moment, SECOND), captured, original) + octets[:captured]
