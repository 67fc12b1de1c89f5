"""The two forms of `tc qdisc show`, compared with what the real tc of iproute2 prints. Its printing is had without a kernel's qdisc: `tc_dump.c`
is preloaded, and answers its question with messages that are made here."""

import os
import pathlib
import random
import shutil
import struct
import subprocess
import tempfile
import unittest
import warnings

import random_schedules
import support  # noqa: F401
from taprio import LeftOut
from taprio.schedules import Configured, Schedule, read_show, read_show_json, write_show, write_show_json

TC = shutil.which("tc") or next((path for path in ("/usr/sbin/tc", "/sbin/tc") if os.path.exists(path)), None)
CC = shutil.which("cc")
CLOCKS = {None: -1, "REALTIME": 0, "MONOTONIC": 1, "BOOTTIME": 7, "TAI": 11}


def attribute(kind, octets):
    return struct.pack("<HH", 4 + len(octets), kind) + octets + bytes(-len(octets) % 4)


def qdisc(device, kind, options=b"", parent=0xFFFFFFFF, more=b""):
    """A message that tells of a qdisc (RTM_NEWQDISC); the device with the number N is ethN."""
    body = (
        struct.pack("<BBHiIII", 0, 0, 0, device, 0x1000000, parent, 9)
        + attribute(1, kind.encode() + b"\0")
        + attribute(2, options)
        + more
    )
    return struct.pack("<IHHII", 16 + len(body), 36, 2, 0, 0) + body


def side(schedule):
    """The attributes of one of the two schedules (linux/pkt_sched.h, TCA_TAPRIO_ATTR_..)."""
    entries = b"".join(
        attribute(
            1,
            attribute(1, struct.pack("<I", number))
            + attribute(2, b"\0")
            + attribute(3, struct.pack("<I", gates))
            + attribute(4, struct.pack("<I", interval)),
        )
        for number, (gates, interval) in enumerate(schedule.entries)
    )
    times = attribute(3, struct.pack("<q", schedule.base_time)) + attribute(8, struct.pack("<q", schedule.cycle_time))
    return times + attribute(9, struct.pack("<q", schedule.extension)) + attribute(2, entries)


def options(oper, admin=None):
    """The attributes of a taprio qdisc with a schedule in force, or one that comes, or both."""
    one = oper or admin
    queues = list(one.queues or []) + [(0, 0)] * (16 - len(one.queues or []))
    counts, offsets = [count for count, _ in queues], [offset for _, offset in queues]
    map_ = one.map or [0] * 16
    found = attribute(1, struct.pack("<B16BB16H16H", one.classes or 0, *map_, 0, *counts, *offsets))
    if one.clock:
        found += attribute(5, struct.pack("<i", CLOCKS[one.clock]))
    else:
        found += attribute(5, struct.pack("<i", -1))
    found += attribute(10, struct.pack("<I", one.flags)) if one.flags else b""
    found += side(oper) if oper else b""
    return found + (attribute(7, side(admin)) if admin else b"")


@unittest.skipUnless(TC, "there is no tc: iproute2 has it")
@unittest.skipUnless(CC, "there is no cc, which makes what is preloaded into tc")
class TheRealOne(unittest.TestCase):
    @classmethod
    def setUpClass(cls):
        cls.folder = tempfile.TemporaryDirectory(prefix="taprio-tc-")
        cls.object = os.path.join(cls.folder.name, "tc_dump.so")
        source = pathlib.Path(__file__).with_name("tc_dump.c")
        subprocess.run([CC, "-std=c11", "-Wall", "-Wextra", "-shared", "-fPIC", "-O1", "-o", cls.object, source], check=True)

        # (other versions have to be read too, and may print otherwise)
        cls.alike = "iproute2-6.1." in subprocess.run([TC, "-V"], capture_output=True, text=True, check=True).stdout

    @classmethod
    def tearDownClass(cls):
        cls.folder.cleanup()

    def shown(self, messages, *words):
        """What tc prints of these messages."""
        path = os.path.join(self.folder.name, "messages")
        pathlib.Path(path).write_bytes(messages)
        given = os.environ | {"TC_DUMP": path, "LD_PRELOAD": self.object, "LC_ALL": "C"}
        ran = subprocess.run([TC, *words], env=given, capture_output=True, text=True, timeout=60)
        self.assertEqual((ran.returncode, ran.stderr), (0, ""))
        return ran.stdout

    def test_random_schedules(self):
        """Both forms are what tc of iproute2 6.1 prints, octet for octet, and what tc prints is read as the schedules that were set."""
        for seed in range(12):
            dice = random.Random(seed)
            wanted, messages = [], b""
            for device in range(1, dice.randint(2, 6)):
                oper, admin = random_schedules.schedule(dice), None
                clock, flags = dice.choice([(None, 2), ("TAI", 0), ("REALTIME", 0), ("MONOTONIC", 0), ("BOOTTIME", 0)])
                oper = Schedule(
                    oper.entries,
                    oper.base_time,
                    oper.cycle,
                    oper.extension,
                    oper.map,
                    oper.classes,
                    oper.queues,
                    None,
                    clock,
                    flags,
                )
                if dice.random() < 0.4:
                    other = random_schedules.schedule(dice)
                    admin = Schedule(
                        other.entries,
                        other.base_time,
                        other.cycle,
                        other.extension,
                        oper.map,
                        oper.classes,
                        oper.queues,
                        None,
                        clock,
                        flags,
                    )
                if admin and dice.random() < 0.3:
                    oper = None
                wanted += [Configured(it, f"eth{device}", name) for name, it in (("oper", oper), ("admin", admin)) if it]
                messages += qdisc(device, "taprio", options(oper, admin))
            with self.subTest(seed=seed):
                text, json = self.shown(messages, "qdisc", "show"), self.shown(messages, "-j", "qdisc", "show")
                if self.alike:
                    self.assertEqual(write_show(wanted), text)
                    # (tc leaves the name of the second schedule out)
                    self.assertEqual(write_show_json(wanted).replace('"admin":', ""), json)
                self.assertEqual(
                    [(it.schedule, it.device, it.side) for it in read_show(text)],
                    [(it.schedule, it.device, it.side) for it in wanted],
                )
                for found in (json, self.shown(messages, "-j", "-p", "qdisc", "show"), write_show_json(wanted)):
                    self.assertEqual(
                        [(it.schedule, it.device, it.side) for it in read_show_json(found)],
                        [(it.schedule, it.device, it.side) for it in wanted],
                    )

    def test_other_qdiscs_and_statistics(self):
        """What else tc shows is passed over: other kinds, the queues below a taprio, and counters."""
        schedule = Schedule([(2, 50_000), (1, 200_000)], 5, 250_000, 0, [0, 1], 2, [(1, 0), (1, 1)], clock="TAI")
        counters = attribute(7, attribute(1, struct.pack("<QI", 1234, 7)) + attribute(3, struct.pack("<5I", 0, 0, 1, 0, 0)))
        messages = qdisc(1, "pfifo", struct.pack("<I", 1000), more=counters) + qdisc(
            2, "taprio", options(schedule), more=counters
        )
        messages += qdisc(2, "pfifo", struct.pack("<I", 1000), 0x1000001, counters)
        for words in (
            ["qdisc", "show"],
            ["-s", "qdisc", "show"],
            ["-s", "-d", "qdisc", "show"],
            ["-o", "qdisc", "show"],
            ["-r", "qdisc", "show"],
        ):
            text = self.shown(messages, *words)
            self.assertEqual([(it.schedule, it.device) for it in read_show(text)], [(schedule, "eth2")])
            with warnings.catch_warnings():
                warnings.simplefilter("ignore", LeftOut)
                json = read_show_json(self.shown(messages, "-j", *words))
            self.assertEqual([(it.schedule, it.device) for it in json], [(schedule, "eth2")])
        # One device: its name isn't printed.
        text = self.shown(messages, "qdisc", "show", "dev", "eth2")
        self.assertEqual([(it.schedule, it.device) for it in read_show(text)], [(schedule, None)])
        json = self.shown(messages, "-j", "qdisc", "show", "dev", "eth2")
        self.assertEqual([(it.schedule, it.device) for it in read_show_json(json)], [(schedule, None)])

    def test_what_is_left_out_is_said(self):
        schedule = Schedule([(1, 1000)], 0, 1000, 0, [0], 1, [(1, 0)], clock="TAI")
        more = attribute(10, struct.pack("<I", 1)) + attribute(11, struct.pack("<I", 200_000))
        messages = qdisc(3, "taprio", options(schedule) + more)
        for read, text, place in (
            (read_show, self.shown(messages, "qdisc", "show"), "line 3"),
            (read_show_json, self.shown(messages, "-j", "qdisc", "show"), r"\[0\]/options"),
        ):
            with warnings.catch_warnings(record=True) as said:
                warnings.simplefilter("always")
                found = read(text)
            self.assertEqual(found[0].schedule, schedule)
            texts = sorted(str(it.message) for it in said)
            self.assertEqual(len(texts), 2, texts)
            self.assertRegex("\n".join(texts), rf"{place}.*flags 0x1 \(txtime assist\) is left out")
            self.assertRegex("\n".join(texts), rf"{place}.*200000 is left out")


if __name__ == "__main__":
    unittest.main()
