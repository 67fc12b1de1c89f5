"""Captures from files, as the classic pcap that a replay reads."""

from __future__ import annotations

import os
import struct

from .faults import BadCapture
from .pcapng import ETHERNET, MAX_RECORD_OCTETS, BadBlock, records_of

__all__ = ["read_capture"]

_CLASSIC = (b"\xa1\xb2\xc3\xd4", b"\xd4\xc3\xb2\xa1", b"\xa1\xb2\x3c\x4d", b"\x4d\x3c\xb2\xa1")
_PCAPNG = b"\n\r\r\n"
_OTHERS = {
    b"\x1f\x8b": "is compressed with gzip: gunzip it first",
    b"BZh": "is compressed with bzip2: bunzip2 it first",
    b"\xfd7zXZ": "is compressed with xz: unxz it first",
    b"\x28\xb5\x2f\xfd": "is compressed with zstd: unzstd it first",
}
# The header of a classic pcap, little-endian, with nanoseconds.
_HEADER = struct.pack("<IHHiIII", 0xA1B23C4D, 2, 4, 0, 0, MAX_RECORD_OCTETS, ETHERNET)


def read_capture(path: str | os.PathLike[str]) -> bytes:
    """The octets of a capture of Ethernet frames, as a classic pcap, which `taprio.replay` takes.

    A classic pcap comes as it is. A pcapng becomes the classic one, with nanoseconds, that the program's `--format auto` reads it as; its
    time stamps are rounded down. A block of it that can't be read raises `BadCapture`, which says where and what, as the program does, and
    has the packets before it. So does a packet that isn't of Ethernet. Anything else raises `BadCapture` with what to do."""
    name = os.fspath(path)
    with open(path, "rb") as file:
        octets = file.read()
    if octets[:4] in _CLASSIC:
        return octets
    if octets[:4] == _PCAPNG:
        return _of_pcapng(octets, name)
    for magic, text in _OTHERS.items():
        if octets.startswith(magic):
            raise BadCapture(f"{name} {text}")
    raise BadCapture(f"{name} is no capture: it begins with {octets[:4].hex(' ') or 'nothing'}")


def _of_pcapng(octets: bytes, name: str) -> bytes:
    """The classic pcap that a pcapng comes to."""
    found = [_HEADER]
    try:
        for record in records_of(octets):
            found.append(record)
    except BadBlock as fault:
        raise BadCapture(f"{name}: {fault}", fault.number, fault.place, fault.name, b"".join(found)) from None
    return b"".join(found)
