"""Writes machine.pcap: what arrives at a port of a machine control within one millisecond.

A drive sends a control frame of 64 octets every 250 microseconds, in a VLAN with priority 6. A camera sends a burst of frames of
1,500 octets without a tag, one every 20 microseconds, of which the first 60 octets are captured. Run it here:

    python3 machine.capture.py > machine.pcap
"""
import struct
import sys

MICROSECONDS = 0xA1B2C3D4
CAPTURED_AT_MOST = 60


def header():
    return struct.pack('<IHHiIII', MICROSECONDS, 2, 4, 0, 0, 65535, 1)


def record(microseconds, frame):
    captured = frame[:CAPTURED_AT_MOST]
    return struct.pack('<IIII', microseconds // 1000000, microseconds % 1000000, len(captured), len(frame)) + captured


def control(number):
    tag = struct.pack('>HH', 0x8100, 6 << 13 | 5)
    head = bytes.fromhex('02000000000a02000000000b') + tag + bytes.fromhex('88b5')
    return head + struct.pack('>I', number) + bytes(42)


def camera(number):
    head = bytes.fromhex('02000000000a02000000000c') + bytes.fromhex('88b5')
    return head + struct.pack('>I', number) + bytes(1482)


def main():
    frames = [(250 * k, control(k)) for k in range(4)]
    frames += [(190 + 20 * k, camera(k)) for k in range(8)]
    out = header() + b''.join(record(at, frame) for at, frame in sorted(frames))
    sys.stdout.buffer.write(out)


main()
