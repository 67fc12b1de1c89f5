"""The jobs as calls, over the shared object and over the program: the same inputs, outputs and exceptions."""

import dataclasses
import ctypes.util
import os
import pathlib
import pickle
import struct
import tempfile
import threading
import unittest
from unittest import mock

import support
import taprio


def octets(name):
    return (support.EXAMPLES / name).read_bytes()


SCHEDULE = "tc qdisc replace dev eth0 root taprio num_tc 2 map 0 1 base-time 0 sched-entry S 2 50000 sched-entry S 1 200000\n"
SHARED = "tc qdisc replace dev eth0 root taprio num_tc 3 map 0 1 2 sched-entry S 4 100000 sched-entry S 3 400000\n"
STREAM = "stream 1 1 60 250us 60us 1 deadline 200us\n"
TOGETHER = "tc qdisc replace dev eth0 root taprio num_tc 2 map 0 1 base-time 0 sched-entry S 3 50000 sched-entry S 0 50000\n"
ALONE = "class 0 within most 1 of 128\nbound 2 class 0 within 0 to 50671999 end 672000 to 51343999 deadline 1000000000 met\n"
ABOVE = "class 1 within most 1 of 128\nbound 1 class 1 within 0 to 63007998 end 672000 to 63679998\n"
NETWORK = """\
link a b 1us 2us
stream 1 1 60 250us 60us 1 deadline 200us via a b
stream 2 0 60 1ms any 1 via b
"""
PORT_A = SCHEDULE.replace("eth0", "a")
PORTS = PORT_A + TOGETHER.replace("eth0", "b")
BOUNDED = b"""\
apart 0 1
class 1 most 1 of 128 frames 1 every 250000000
bound 1 class 1 wait 190000000 to 190000000 end 190672000 to 190672000 deadline 200000000 met
"""


class Frames:
    """What is asked of the library where it has the call, and of the program."""

    HEAD = b"id,class,len,arrival_ps,start_ps,end_ps,wait_ps,fate\n"

    def test_frames(self):
        script = "frame 1 0 60\nframe 2 16 60\nframe 3 0 60\n"
        self.assertEqual(self.port.frames(script), self.HEAD + b"2,,60,0,,,,NoClass\n1,0,60,0,,,,left\n3,0,60,0,,,,left\n")
        told = self.port.frames(bytearray(script, "ascii"), 100, 1000, 1, 6_720_000)
        self.assertEqual(told, self.port.frames(script, rate=100, mtu=1000, room=1, until=6_720_000))
        self.assertEqual(told, self.HEAD + b"2,,60,0,,,,NoClass\n3,0,60,0,,,,Full\n1,0,60,0,0,6720000,0,sent\n")
        self.assertEqual(self.port.frames(""), self.HEAD)
        self.assertEqual(self.port.frames("frame 1 0 13\n" * 3000).count(b"\n1,0,13,0,,,,Runt"), 3000)

    def test_faults_of_frames(self):
        with self.assertRaises(taprio.BadInput) as caught:
            self.port.frames("frame 1 0 13\nframe 2 0 60\nclok\n")
        self.assertEqual(caught.exception.output, self.HEAD + b"1,0,13,0,,,,Runt\n")
        with self.assertRaises(taprio.BadValue):
            self.port.frames("", room=0)


class FramesByStream:
    """What is asked of the library where it has the call, and of the program."""

    STREAMS = "stream 2 0 60 1us 0us 2\n\nstream 1 0 60 1us 0us 9\n"
    STREAM_HEAD = b"id,class,len,arrival_ps,start_ps,end_ps,wait_ps,fate,stream\n"

    def test_frames_by_stream(self):
        script = "frame 1 0 60\nframe 3 16 60\nframe 10 0 60\n"
        told = self.port.frames(script, streams=self.STREAMS)
        self.assertEqual(told, self.STREAM_HEAD + b"3,,60,0,,,,NoClass,2\n1,0,60,0,,,,left,1\n10,0,60,0,,,,left,\n")
        self.assertEqual(self.port.frames("", 100, 1000, 1, 5, b""), self.STREAM_HEAD)

    def test_frames_by_stream_with_a_deadline(self):
        told = self.port.frames("frame 1 0 60\nframe 3 16 60\nframe 10 0 60\n", until=1344000, streams=f"{self.STREAMS}stream 10 0 60 1us 0us 1 deadline 1us\n")
        rows = b"3,,60,0,,,,NoClass,2,\n1,0,60,0,0,672000,0,sent,1,\n10,0,60,0,672000,1344000,672000,sent,10,missed\n"
        self.assertEqual(told, self.STREAM_HEAD[:-1] + b",deadline\n" + rows)

    def test_faults_of_frames_by_stream(self):
        with self.assertRaises(taprio.BadInput) as caught:
            self.port.frames("frame 2 0 13\nclok\n", streams=self.STREAMS)
        self.assertEqual(caught.exception.output, self.STREAM_HEAD + b"2,0,13,0,,,,Runt,2\n")
        with self.assertRaises(taprio.BadInput) as caught:
            self.port.frames("frame 2 0 13\n", streams="stream 1\n")
        self.assertEqual((str(caught.exception), caught.exception.output), ("table line 1: WordCount", b""))


class FramesOfCapture:
    """What is asked of the library where it has the call, and of the program."""

    HEAD = Frames.HEAD

    def test_frames_of_a_capture(self):
        """Each record has the row that the report of the replay tells."""
        script, capture = octets("machine.script"), octets("machine.pcap")
        told = self.port.frames(script, capture=capture)
        rows = told.splitlines()[1:]
        self.assertEqual([row.split(b",")[0] for row in rows], [b"%d" % number for number in range(12)])
        self.assertEqual(rows[6], b"6,0,1500,270000000,312192000,324384000,42192000,sent")
        report = self.port.replay(script, capture).report
        starts = [row.split(b",") for row in rows]
        self.assertEqual(
            [b"start %b class %b at %b end %b" % (row[0], row[1], row[4], row[5]) for row in starts],
            [line for line in report.splitlines() if line.startswith(b"start ")],
        )
        self.assertEqual(self.port.frames(script, 1000, 1500, 128, None, None, bytearray(capture)), told)
        self.assertIn(b"\n6,0,1500,270000000,,,,Full\n", self.port.frames(script, room=1, capture=capture))
        stopped = self.port.frames("", until=750_000_000, capture=capture)
        self.assertTrue(stopped.endswith(b"\n11,6,64,750000000,,,,left\n"))
        self.assertEqual(self.port.frames("", capture=capture[:24]), self.HEAD)

    def test_faults_of_frames_of_a_capture(self):
        script, capture = octets("machine.script"), octets("machine.pcap")
        with self.assertRaises(taprio.BadInput) as caught:
            self.port.frames(script, capture=capture[:150])
        fault = caught.exception
        self.assertEqual((fault.input, fault.record, fault.name), ("capture", 1, "ShortRecord"))
        self.assertEqual(fault.output, self.HEAD + b"0,1,64,0,0,704000,0,sent\n")
        for given, line, name in ((("frame 1 0 60", capture), 1, "FrameInReplay"), (("", b""), None, "ShortHeader")):
            with self.subTest(name), self.assertRaises(taprio.BadInput) as caught:
                self.port.frames(given[0], capture=given[1])
            fault = caught.exception
            self.assertEqual((fault.line, fault.record, fault.name, fault.output), (line, None, name, b""))
        for option, values in (
            ("--mtu", {"mtu": 67}),
            ("--until", {"until": 4_294_967_296_000_000_000_001}),
            ("--capture", {"streams": "stream 1 0 60 1us 0us 2\n"}),
        ):
            with self.subTest(option), self.assertRaises(taprio.BadValue) as caught:
                self.port.frames(script, capture=capture, **values)
            self.assertEqual(caught.exception.option, option)


class Bounds:
    """What is asked of the library where it has the call, and of the program."""

    def test_bounds(self):
        self.assertEqual(self.port.bounds(STREAM, SCHEDULE), BOUNDED)
        by_name = self.port.bounds(STREAM, SCHEDULE, rate=100, mtu=1000, room=5, frames=2)
        self.assertEqual(self.port.bounds(STREAM, bytearray(SCHEDULE, "ascii"), 100, 1000, 5, 2), by_name)
        self.assertIn(b"class 1 most 1 of 5 ", self.port.bounds(STREAM, SCHEDULE, room=5))
        self.assertIn(b"end 196720000 to 196720000 ", self.port.bounds(STREAM, SCHEDULE, rate=100))
        self.assertIn(b"class 1 long\n", self.port.bounds("stream 1 1 60 7us 0us 1\n", SCHEDULE, frames=3))
        self.assertEqual(self.port.bounds("", ""), b"")
        self.assertEqual(self.port.bounds("", SCHEDULE * 3000).count(b"apart 0 1\n"), 3000)

    def test_faults_of_bounds(self):
        for table, schedules, found in (
            ("stream 1 1 60 0us 0us 1", SCHEDULE, ("table", 1, "BadNumber", b"")),
            (f"{STREAM}stream 1", SCHEDULE, ("table", 2, "WordCount", b"")),
            (STREAM, f"{SCHEDULE}clock 5\n", ("script", 2, "UnknownLine", BOUNDED)),
        ):
            with self.subTest(found), self.assertRaises(taprio.BadInput) as raised:
                self.port.bounds(table, schedules)
            fault = raised.exception
            self.assertEqual((fault.input, fault.line, fault.name, fault.output), found)

    def test_values_of_bounds(self):
        for option, values in (
            ("--rate", {"rate": 1001}),
            ("--mtu", {"mtu": 9217, "frames": 0}),
            ("--room", {"room": 0}),
            ("--frames", {"frames": 0}),
            ("--frames", {"frames": -1}),
            ("--frames", {"frames": 1_000_000_001}),
            ("--frames", {"frames": 2**64 + 1}),
            ("--silent", {"silent": (8,)}),
            ("--silent", {"silent": [-1], "leftovers": True}),
            ("--silent", {"silent": (6, 6)}),
        ):
            with self.subTest(values), self.assertRaises(taprio.BadValue) as raised:
                self.port.bounds("", "", **values)
            self.assertEqual(raised.exception.option, option)
        for values in ({"frames": 1.0}, {"silent": "6,7"}, {"silent": (True,)}, {"silent": 6}):
            with self.subTest(values), self.assertRaises(TypeError):
                self.port.bounds("", "", **values)

    def test_streams_from_a_moment(self):
        table = "stream 1 5 60 250us 1ps 1"
        self.assertEqual(self.port.streams(table, from_=5), b"clock 6\nframe 1 5 60\n")
        self.assertEqual(self.port.streams(table, "query\n", from_=2**64), b"query\nclock 18446744073709551617\nframe 1 5 60\n")
        with self.assertRaises(taprio.BadInput) as raised:
            self.port.streams(table, from_=9_223_372_036_854_775_807_000)
        self.assertEqual((raised.exception.input, raised.exception.name), ("table", "ClockTooLate"))
        for value in (9_223_372_036_854_775_807_001, -1, 2**128):
            with self.subTest(value), self.assertRaises(taprio.BadValue) as raised:
                self.port.streams(table, from_=value)
            self.assertEqual(raised.exception.option, "--from")
        with self.assertRaises(TypeError):
            self.port.streams(table, from_=0.5)


class BoundsAsked:
    """Where the library has the call, and of the program."""

    def test_what_is_asked_of_bounds(self):
        """Silent classes, leftovers and slack, alone and together; the order of the classes is no matter."""
        low, both = "stream 2 0 60 1ms 0us 1 deadline 1ms\n", "stream 1 1 60 1ms any 1\nstream 2 0 60 1ms 0us 1\n"
        for table, asked, wanted in (
            (low, {}, "class 0 open to 1\nbound 2 class 0 unknown deadline 1000000000 unknown\n"),
            (low, {"silent": ()}, "class 0 open to 1\nbound 2 class 0 unknown deadline 1000000000 unknown\n"),
            (low, {"slack": True}, "class 0 open to 1\nbound 2 class 0 unknown deadline 1000000000 unknown\nslack 2 none\n"),
            (low, {"silent": [1]}, f"silent 1\n{ALONE}"),
            (low, {"silent": [7, 1], "leftovers": True}, f"silent 1 7\n{ALONE}"),
            (low, {"silent": {0}}, "silent\nclass 0 open to 1\nbound 2 class 0 unknown deadline 1000000000 unknown\n"),
            (low, {"silent": (1,), "leftovers": True, "slack": True}, f"silent 1\n{ALONE}slack 2 jitter 948656000\n"),
            (both, {}, f"class 0 within most 1 of 128\n{ABOVE}bound 2 class 0 within 0 to 52015998 end 672000 to 52687998\n"),
            (both, {"leftovers": True}, f"class 0 open to 1\n{ABOVE}bound 2 class 0 unknown\n"),
        ):
            with self.subTest(table=table, asked=asked):
                self.assertEqual(self.port.bounds(table, TOGETHER, **asked).decode(), f"apart none\n{wanted}")
        self.assertEqual(self.port.bounds("", f"tc qdisc del dev eth0 root\n{TOGETHER}", silent=range(8)), b"apart none\napart none\nsilent 0 1 2 3 4 5 6 7\n")


class Paths:
    """What is asked of the library where it has the call, and of the program."""

    def test_paths(self):
        told = self.port.paths(NETWORK, PORTS)
        self.assertTrue(told.startswith(b"port a\napart 0 1\nclass 1 within most 1 of 128\nport b\napart none\nclass 0 within most 1 of 128\n"), told)
        self.assertIn(b"hop 1 a class 1 within 190000000 to 190000000\n", told)
        self.assertEqual(self.port.paths(bytearray(NETWORK, "ascii"), PORTS, 1000, 1500, 128, 1_000_000), told)
        self.assertIn(b"class 1 within most 1 of 5\n", self.port.paths(NETWORK, PORTS, room=5))
        self.assertIn(b"class 1 within most 1 of 9\n", self.port.paths(f"port a room 9\n{NETWORK}", PORTS, room=5))
        self.assertNotEqual(self.port.paths(NETWORK, PORTS, rate=100), told)
        self.assertEqual(self.port.paths("stream 2 0 200 1ms any 1", "", mtu=100), b"apart none\npath 2 none\n")
        self.assertIn(b"class 0 long\n", self.port.paths("stream 2 0 60 3us any 1\n", SCHEDULE, frames=3))
        self.assertEqual(self.port.paths("", ""), b"apart none\n")
        for name in ("line", "vehicle"):
            self.assertEqual(self.port.paths(octets(f"{name}.network"), octets(f"{name}.schedules")), octets(f"{name}.paths"))

    def test_paths_of_many_octets(self):
        """Comments of 100,000 octets before a network and its schedules change nothing."""
        comments = f"#{'x' * 98}\n" * 1000
        self.assertEqual(self.port.paths(comments + NETWORK, comments + PORTS), self.port.paths(NETWORK, PORTS))

    def test_what_is_asked_of_paths(self):
        """Silent classes and leftovers, alone and together."""
        low, both = "stream 2 0 60 1ms any 1\n", "stream 2 0 60 1ms any 1\nstream 1 1 60 1ms any 1\n"
        alone = "class 0 within most 1 of 128\nhop 2 class 0 within 0 to 50671999\npath 2 end 672000 to 51343999\n"
        for network, asked, wanted in (
            (low, {}, "apart none\nclass 0 open to 1\npath 2 unknown\n"),
            (low, {"silent": [1]}, f"apart none\nsilent 1\n{alone}"),
            (low, {"silent": (7, 1), "leftovers": True}, f"apart none\nsilent 1 7\n{alone}"),
            (low, {"silent": {0}}, "apart none\nclass 0 open to 1\npath 2 unknown\n"),
            (both, {"leftovers": True}, "apart none\nclass 0 open to 1\nclass 1 within most 1 of 128\npath 2 unknown\n"
             "hop 1 class 1 within 0 to 63007998\npath 1 end 672000 to 63679998\n"),
        ):
            with self.subTest(network=network, asked=asked):
                self.assertEqual(self.port.paths(network, TOGETHER, **asked).decode(), wanted)

    def test_faults_of_paths(self):
        brief = "tc qdisc replace dev a root taprio num_tc 1 map 0 sched-entry S 01 4\n"
        for network, schedules, found, text in (
            ("port a/b\n", "", ("network", 1, "BadName"), "network line 1: BadName"),
            (f"{NETWORK}link a b 1us\n", "", ("network", 4, "SecondLink"), "network line 4: SecondLink (line 1)"),
            ("stream 1 7 60 1ms 0us 1 via a b\n", "", ("network", 1, "NoLink"), "network line 1: NoLink a b"),
            (b"stream 1 7 60 1ms 0us 1 via \xff \xff\n", "", ("network", 1, "PortTwice"), "network line 1: PortTwice \ufffd"),
            ("stream 1 7 60 0ms 0us 1\n", "", ("network", 1, "BadNumber"), "network line 1: BadNumber"),
            (NETWORK, f"{PORTS}clock 5\n", ("schedules", 3, "UnknownLine"), "schedules line 3: UnknownLine"),
            (NETWORK, f"{PORT_A}{PORT_A}", ("schedules", 2, "SecondSchedule"), "schedules line 2: SecondSchedule (line 1)"),
            (NETWORK, "tc qdisc replace dev a root taprio sched-entry\n", ("schedules", 1, "MissingWord"), "schedules line 1: tc-fault MissingWord sched-entry"),
            (NETWORK, brief, ("schedules", 1, "IntervalTooShort"), "schedules line 1: refused IntervalTooShort 0"),
        ):
            with self.subTest(found), self.assertRaises(taprio.BadInput) as raised:
                self.port.paths(network, schedules)
            fault = raised.exception
            self.assertEqual((fault.input, fault.line, fault.name), found)
            self.assertEqual((str(fault), fault.output), (text, b""))

    def test_values_of_paths(self):
        for option, values in (
            ("--rate", {"rate": 1001}),
            ("--mtu", {"mtu": 9217}),
            ("--room", {"room": 0}),
            ("--frames", {"frames": 0}),
            ("--frames", {"frames": 2**64 + 1}),
            ("--silent", {"silent": (8,)}),
            ("--silent", {"silent": (6, 6), "leftovers": True}),
        ):
            with self.subTest(values), self.assertRaises(taprio.BadValue) as raised:
                self.port.paths("", "", **values)
            self.assertEqual(raised.exception.option, option)
        for values in ({"frames": 1.0}, {"silent": 6}):
            with self.subTest(values), self.assertRaises(TypeError):
                self.port.paths("", "", **values)


class Plans:
    """What is asked of the library where it has the call, and of the program."""

    TABLE = "stream 1 7 60 250us 20us 1 deadline 20us\n"
    LINE = (
        "tc qdisc replace dev {} parent root handle 100 taprio num_tc 2 map 0 0 0 0 0 0 0 1 0 0 0 0 0 0 0 0 queues 1@0 1@1 base-time {} "
        "cycle-time {} sched-entry {} clockid CLOCK_TAI\n"
    )

    def test_plans(self):
        usual = "S 01 20000 sched-entry S 02 672 sched-entry S 01 229328"
        for table, asked, wanted in (
            (self.TABLE, {}, ("eth0", 0, 250000, usual)),
            (bytearray(self.TABLE, "ascii"), {"device": "swp3", "base_time": 250000, "share": False}, ("swp3", 250000, 250000, usual)),
            (self.TABLE, {"cycle": 125000, "least_interval": 1000, "entries": 2}, ("eth0", 0, 125000, "S 02 21000 sched-entry S 01 104000")),
            (self.TABLE, {"rate": 100, "mtu": 1000, "room": 7}, ("eth0", 0, 250000, "S 01 20000 sched-entry S 02 6720 sched-entry S 01 223280")),
            (f"{self.TABLE[:-1]} via a\n", {}, ("a", 0, 250000, usual)),
        ):
            with self.subTest(table=table, asked=asked):
                self.assertEqual(self.port.plan(table, **asked).decode(), self.LINE.format(*wanted))

    def test_none(self):
        with self.assertRaises(taprio.NoPlan) as raised:
            self.port.plan("stream 1 7 60 250us 20us 1 deadline 1ns\n")
        for fault in (raised.exception, pickle.loads(pickle.dumps(raised.exception))):
            self.assertEqual((str(fault), fault.reason), ("plan: no schedule is found: none deadline 1", "none deadline 1"))

    def test_faults_of_plans(self):
        for table, found in (
            ("streams\n", ("table", 1, "UnknownLine")),
            (f"{self.TABLE}stream 1 7 60 0ms 0us 1\n", ("table", 2, "BadNumber")),
            ("link a b\n", ("network", 1, "WordCount")),
        ):
            with self.subTest(found), self.assertRaises(taprio.BadInput) as raised:
                self.port.plan(table)
            fault = raised.exception
            self.assertEqual((fault.input, fault.line, fault.name, fault.output), (*found, b""))

    def test_values_of_plans(self):
        for option, values in (
            ("--rate", {"rate": 1001}),
            ("--mtu", {"mtu": 9217}),
            ("--room", {"room": 0}),
            ("--cycle", {"cycle": 0}),
            ("--cycle", {"cycle": 2**32}),
            ("--cycle", {"cycle": -1}),
            ("--entries", {"entries": 0}),
            ("--entries", {"entries": 257}),
            ("--least-interval", {"least_interval": 2**32}),
            ("--base-time", {"base_time": 2**63}),
            ("--device", {"device": ""}),
            ("--device", {"device": "a/b"}),
            ("--device", {"device": "-" * 16}),
        ):
            with self.subTest(values), self.assertRaises(taprio.BadValue) as raised:
                self.port.plan(self.TABLE, **values)
            self.assertEqual(raised.exception.option, option)
        for values in ({"cycle": 1.0}, {"entries": "2"}, {"base_time": True}):
            with self.subTest(values), self.assertRaises(TypeError):
                self.port.plan(self.TABLE, **values)


class Examples:
    def test_scripts(self):
        for name in ("first", "priorities", "schedule", "manual", "guard_band", "extension"):
            with self.subTest(name):
                self.assertEqual(self.port.run(octets(f"{name}.script")), octets(f"{name}.answers"))
        self.assertEqual(self.port.run(octets("planned.script")), octets("schedule.answers"))
        self.assertEqual(self.port.run(octets("summary.script"), summary=True), octets("summary.answers"))

    def test_worked_scripts(self):
        cases = octets("worked.txt").split(b"====\n")
        for at, case in enumerate(cases):
            with self.subTest(at):
                script, answers = case.split(b"----\n")
                self.assertEqual(self.port.run(script), answers)

    def test_checks(self):
        self.assertEqual(self.port.check(octets("apart.schedules")), octets("apart.answers"))
        self.assertEqual(self.port.check(octets("windows.schedules"), windows=True), octets("windows.answers"))
        self.assertEqual(self.port.check(SHARED, shares=True), b"apart 2\nshares 0 with 1\nshares 1 with 0\n")
        apart, windows = self.port.check(SHARED), self.port.check(SHARED, windows=True)
        self.assertEqual(self.port.check(SHARED, 1000, True, True), windows.replace(apart, self.port.check(SHARED, shares=True)))

    def test_streams(self):
        self.assertEqual(self.port.streams(octets("planned.streams"), octets("planned.schedule")), octets("planned.script"))
        self.assertEqual(self.port.streams("stream 1 5 60 250us 0ns 1"), b"clock 0\nframe 1 5 60\n")

    def test_pictures(self):
        for name, begin, end in (
            ("first", 0, None),
            ("priorities", 0, None),
            ("schedule", 0, 60_000_000),
            ("manual", 1_528_743_495_910_000_000_000, 1_528_743_495_913_000_000_000),
            ("guard_band", 100_000_000, 130_000_000),
            ("extension", 3_000_000_000, 6_000_000_000),
            ("summary", 0, None),
        ):
            with self.subTest(name):
                self.assertEqual(self.port.draw(octets(f"{name}.script"), begin=begin, end=end), octets(f"{name}.svg"))

    def test_a_picture_that_runs_on(self):
        """A run goes on to `until`, and its picture to the run's end."""
        script = "frame 1 0 60\n"
        self.assertEqual(self.port.draw(script, until=5_000_000), self.port.draw(script, begin=0, end=5_000_000))
        self.assertNotEqual(self.port.draw(script), self.port.draw(script, until=5_000_000))

    def test_a_picture_that_says_when_it_begins(self):
        """Where neither moment is given a picture begins with the first frame, or with the first schedule."""
        schedule = "tc qdisc replace dev eth0 root taprio num_tc 1 map 0 base-time 1000000 sched-entry S 01 300000 sched-entry S 00 200000\n"
        self.assertIn(b">counted from 1 ms<", self.port.draw(schedule))
        self.assertIn(b">counted from 3 ms<", self.port.draw(f"{schedule}clock 3000000000\nframe 1 0 60\n"))
        self.assertNotIn(b">counted from ", self.port.draw(schedule, begin=0))
        self.assertNotIn(b">counted from ", self.port.draw(schedule, end=5_000_000_000))

    def test_replays(self):
        script, capture = octets("machine.script"), octets("machine.pcap")
        got = self.port.replay(script, capture, until=2_000_000_000)
        self.assertEqual(got.report, octets("machine.report"))
        self.assertEqual(got.departures, octets("machine.departures.pcap"))
        report, departures = self.port.replay(script, capture, until=2_000_000_000, summary=True)
        self.assertEqual(report, octets("machine.report") + octets("machine.summary"))
        self.assertEqual(departures, octets("machine.departures.pcap"))
        self.assertEqual(self.port.replay(script, capture), got)

    def test_a_replay_without_a_frame(self):
        capture = octets("machine.pcap")[:24]
        self.assertEqual(self.port.replay("", capture), (b"", octets("machine.departures.pcap")[:24]))

    def test_departures_when_their_last_octet_has_been_sent(self):
        script, capture = octets("machine.script"), octets("machine.pcap")
        report, departures = self.port.replay(script, capture, stamp="end")
        self.assertEqual(report, octets("machine.report"))
        at, starts = 24, octets("machine.departures.pcap")
        while at < len(starts):
            seconds, nanoseconds, captured, original = struct.unpack_from("<IIII", starts, at)
            sent = nanoseconds + 8 * (8 + max(original, 60) + 4)
            self.assertEqual(struct.unpack_from("<IIII", departures, at), (seconds, sent, captured, original))
            at += 16 + captured
        self.assertEqual(len(departures), len(starts))
        with self.assertRaises(taprio.BadValue) as raised:
            self.port.replay(script, capture, stamp="middle")
        self.assertEqual(raised.exception.option, "--stamp")


class Faults:
    def test_a_line(self):
        with self.assertRaises(taprio.BadInput) as raised:
            self.port.run("frame 1 0 60\nclock 1000000\nclok 5\n")
        fault = raised.exception
        self.assertEqual((fault.input, fault.line, fault.record, fault.name), ("script", 3, None, "UnknownLine"))
        self.assertEqual(fault.output, b"queued 1 class 0\nstart 1 class 0 at 0 end 672000\n")
        self.assertEqual(str(fault), "script line 3: UnknownLine")

    def test_a_table(self):
        with self.assertRaises(taprio.BadInput) as raised:
            self.port.streams("\nstream 1")
        fault = raised.exception
        self.assertEqual((fault.input, fault.line, fault.name, fault.output), ("table", 2, "WordCount", b""))

    def test_captures(self):
        capture = octets("machine.pcap")
        with self.assertRaises(taprio.BadInput) as raised:
            self.port.replay("", capture[:23], until=0)
        fault = raised.exception
        self.assertEqual((fault.input, fault.line, fault.record, fault.name), ("capture", None, None, "ShortHeader"))
        self.assertEqual(fault.output, taprio.Replay(b"", b""))
        with self.assertRaises(taprio.BadInput) as raised:
            self.port.replay("", capture[:30], until=0)
        fault = raised.exception
        self.assertEqual((fault.input, fault.record, fault.name), ("capture", 0, "ShortRecord"))
        self.assertEqual(len(fault.output.departures), 24)

    def test_values(self):
        for option, values in (
            ("--rate", {"rate": 1001}),
            ("--rate", {"rate": -1}),
            ("--mtu", {"mtu": 67}),
            ("--mtu", {"mtu": 2**32 + 1500}),
            ("--room", {"room": 4097}),
            ("--until", {"until": 9_223_372_036_854_775_807_001}),
            ("--until", {"until": 2**128}),
            ("--rate", {"rate": 1001, "mtu": 2**32, "until": -1}),
        ):
            with self.subTest(values), self.assertRaises(taprio.BadValue) as raised:
                self.port.run("", **values)
            self.assertEqual(raised.exception.option, option)
            self.assertEqual(str(raised.exception), f"bad value of {option}")
        for option, values in (("--from", {"begin": 2**127}), ("--to", {"begin": 5, "end": 5}), ("--width", {"width": 399})):
            with self.subTest(values), self.assertRaises(taprio.BadValue) as raised:
                self.port.draw("", **values)
            self.assertEqual(raised.exception.option, option)
        with self.assertRaises(taprio.BadValue):
            self.port.replay("", octets("machine.pcap"), until=4_294_967_296_000_000_000_001)
        with self.assertRaises(TypeError):
            self.port.run("", rate=1000.0)
        with self.assertRaises(TypeError):
            self.port.run(5)


class Room:
    def test_more_than_was_guessed(self):
        """A table whose script is far longer than it is."""
        table = "stream 1 5 60 250us 0ns 30000"
        script = self.port.streams(table)
        self.assertEqual(script.count(b"frame "), 30000)
        self.assertTrue(script.endswith(b"clock 7499750000000\nframe 30000 5 60\n"))

    def test_empty_inputs(self):
        self.assertEqual(self.port.run(""), b"")
        self.assertEqual(self.port.check(b""), b"")
        self.assertEqual(self.port.streams(bytearray()), b"")

    def test_octets_of_any_kind(self):
        """An octet of 0 ends nothing."""
        with self.assertRaises(taprio.BadInput) as raised:
            self.port.run(b"query\n\0\nquery\n")
        self.assertEqual(raised.exception.line, 2)
        self.assertEqual(raised.exception.output.count(b"\n"), 5)

    def test_threads(self):
        wanted, script, got = octets("schedule.answers"), octets("schedule.script"), []
        threads = [threading.Thread(target=lambda: got.append(self.port.run(script))) for _ in range(8)]
        for thread in threads:
            thread.start()
        for thread in threads:
            thread.join()
        self.assertEqual(got, [wanted] * 8)


@support.wants_library
class OverTheLibrary(Examples, Faults, Room, unittest.TestCase):
    port = taprio.Library()

    def test_calls_that_are_not_there(self):
        """An object that was built before there were bounds is said to be old, and has the other calls."""
        with mock.patch.object(taprio.library, "_loaded", lambda path: mock.Mock(spec=["taprio_run"])):
            with self.assertRaisesRegex(taprio.LibraryMissing, "no taprio_bounds: build it again"):
                taprio.library.bounds("", "")
            with self.assertRaisesRegex(taprio.LibraryMissing, "no taprio_streams_from"):
                taprio.library.streams("", from_=1)
        with mock.patch.object(taprio.library, "_loaded", lambda path: mock.Mock(spec=["taprio_bounds", "taprio_bounds_slack"])):
            for asked in ({"silent": (7,)}, {"leftovers": True}):
                with self.assertRaisesRegex(taprio.LibraryMissing, "no taprio_bounds_asked: build it again"):
                    taprio.library.bounds("", "", **asked)
            with self.assertRaisesRegex(taprio.LibraryMissing, "no taprio_paths: build it again"):
                taprio.library.paths("", "")
            with self.assertRaisesRegex(taprio.LibraryMissing, "no taprio_plan: build it again"):
                taprio.library.plan("")


@support.wants_library
@unittest.skipUnless(support.HAS_BOUNDS, "the library has no bounds: bindings/c/build makes it anew")
class BoundsOverTheLibrary(Bounds, unittest.TestCase):
    port = taprio.Library()


@support.wants_library
@unittest.skipUnless(support.HAS_BOUNDS_ASKED, "this library has no taprio_bounds_asked: build it again with bindings/c/build")
class BoundsAskedOverTheLibrary(BoundsAsked, unittest.TestCase):
    port = taprio.Library()


@support.wants_library
@unittest.skipUnless(support.HAS_PATHS, "this library has no taprio_paths: build it again with bindings/c/build")
class PathsOverTheLibrary(Paths, unittest.TestCase):
    port = taprio.Library()


@support.wants_library
@unittest.skipUnless(support.HAS_PLAN, "this library has no taprio_plan: build it again with bindings/c/build")
class PlansOverTheLibrary(Plans, unittest.TestCase):
    port = taprio.Library()


@support.wants_library
@unittest.skipUnless(support.HAS_FRAMES, "the library has no tables of frames: bindings/c/build makes it anew")
class FramesOverTheLibrary(Frames, unittest.TestCase):
    port = taprio.Library()


@support.wants_library
@unittest.skipUnless(support.HAS_FRAMES_BY_STREAM, "this library has no taprio_frames_by_stream: build it again with bindings/c/build")
class FramesByStreamOverTheLibrary(FramesByStream, unittest.TestCase):
    port = taprio.Library()


@support.wants_library
@unittest.skipUnless(support.HAS_FRAMES_OF_CAPTURE, "this library has no taprio_frames_of_capture: build it again with bindings/c/build")
class FramesOfCaptureOverTheLibrary(FramesOfCapture, unittest.TestCase):
    port = taprio.Library()


@support.wants_moment
class Moments(unittest.TestCase):
    def test_moments(self):
        for word, moment in (("0", 0), ("12.303us", 12_303_000), ("18446744073709551616", 1 << 64), ("9223372036.854775807s", 9223372036854775807000)):
            with self.subTest(word):
                self.assertEqual(taprio.moment(word), moment)

    def test_what_is_none(self):
        for word in ("", "1 us", "-1", "0.0005ns", "9223372036854775807001", "\u00b5s"):
            with self.subTest(word), self.assertRaisesRegex(ValueError, "is no moment$"):
                taprio.moment(word)


@support.wants_program
class OverTheProgram(Examples, Faults, Room, Bounds, BoundsAsked, Paths, Plans, Frames, FramesByStream, FramesOfCapture, unittest.TestCase):
    port = taprio.Program(support.PROGRAM or "taprio_port")

    def test_no_program(self):
        with self.assertRaisesRegex(taprio.TaprioError, "the program can't be run"):
            taprio.Program("/nowhere/taprio_port").run("")
        with self.assertRaisesRegex(taprio.TaprioError, "ended with status 1"):
            taprio.Program("/bin/false").run("")

    def test_late_streams(self):
        """Each frame at its latest moment."""
        table = "stream 1 5 60 250us 10us 2 jitter 4us"
        late = b"clock 14000000\nframe 1 5 60\nclock 264000000\nframe 2 5 60\n"
        self.assertEqual(self.port.streams(table, late=True), late)
        self.assertEqual(self.port.streams(table), late.replace(b"14000000", b"10000000").replace(b"264", b"260"))
        self.assertEqual(self.port.streams(table, "query\n", 5, True), b"query\n" + late.replace(b"000000", b"000005"))
        stream = taprio.Stream(1, 5, 60, 250_000, 10_000, 2, jitter=4_000)
        for given, wanted in ((False, [10_000_000, 260_000_000]), (True, [14_000_000, 264_000_000])):
            run = taprio.run_streams(None, [stream], until_ns=1_000_000, late=given, port=support.PROGRAM)
            self.assertEqual([it.arrived for it in run.frames], wanted)

    def test_drawn_streams(self):
        """Each frame as a seed draws it; not beside late ones, and no seed that isn't one of 64 bits."""
        table = "stream 1 5 100 250us any 3 jitter 4us shortest 60"
        drawn = self.port.streams(table, seed=7)
        self.assertEqual(drawn, self.port.streams(table, seed=7))
        self.assertNotEqual(drawn, self.port.streams(table, seed=8))
        self.assertEqual(drawn.count(b"frame"), 3)
        self.assertRaises(ValueError, self.port.streams, table, late=True, seed=7)
        self.assertRaises(ValueError, self.port.streams, table, seed=2**64)
        stream = taprio.Stream(1, 5, 100, 250_000, None, 3, jitter=4_000, shortest=60)
        runs = [taprio.run_streams(None, [stream], until_ns=2_000_000, seed=it, port=support.PROGRAM) for it in (7, 7, 8)]
        self.assertEqual(runs[0].frames, runs[1].frames)
        self.assertNotEqual(runs[0].frames, runs[2].frames)

    def test_slack(self):
        """How much jitter a stream may have; of one that misses its deadline anyway none, and of one without a deadline nothing."""
        schedule = taprio.Schedule([(0x80, 13_000), (0x7F, 237_000)], map=range(8))
        streams = [
            taprio.Stream(1, 7, 60, 250_000, 0, 1, deadline=5_000),
            taprio.Stream(2, 7, 60, 250_000, 1_000, 1, deadline=100),
            taprio.Stream(3, 7, 60, 250_000, 2_000, 1),
        ]
        told = taprio.bounds(schedule, streams, slack=True, port=support.PROGRAM).schedules[0].streams
        self.assertEqual([it.met for it in told], [True, False, None])
        self.assertEqual([it.slack is None for it in told], [False, True, True])
        jittered = dataclasses.replace(streams[0], jitter=told[0].slack // 1000)
        for more, met in ((0, True), (1, None)):
            later = dataclasses.replace(jittered, jitter=jittered.jitter + more)
            of = taprio.bounds(schedule, [later, *streams[1:]], port=support.PROGRAM).schedules[0].streams[0]
            self.assertIs(bool(of.met), bool(met))
        plain = taprio.bounds(schedule, streams, port=support.PROGRAM).schedules[0].streams
        self.assertEqual([dataclasses.replace(it, slack=None) for it in told], list(plain))


    def test_why(self):
        """What the greatest waits are made of, and that nothing else changes."""
        schedule = taprio.Schedule([(0x03, 100_000)], map=(0, 1))
        streams = [taprio.Stream(1, 1, 60, 15_000, None, 1), taprio.Stream(2, 0, 1514, 1_000_000, None, 1)]
        told = taprio.bounds(schedule, streams, why=True, port=support.PROGRAM).schedules[0].streams
        for it in told:
            self.assertEqual(it.gates + it.blocking + it.higher + it.queue, it.greatest_wait)
        self.assertEqual([it.higher > 0 for it in told], [False, True])
        plain = taprio.bounds(schedule, streams, port=support.PROGRAM).schedules[0].streams
        nothing = {"gates": None, "blocking": None, "higher": None, "queue": None}
        self.assertEqual([dataclasses.replace(it, **nothing) for it in told], list(plain))


class WithoutALibrary(unittest.TestCase):
    def test_what_is_said(self):
        """The error is raised at the first call, and not where the module is loaded; it names the file, and what to do."""
        with support.environment(TAPRIO_LIBRARY="/nowhere/libtaprio.so"):
            with self.assertRaises(taprio.LibraryMissing) as raised:
                taprio.library.run("")
            for word in ("/nowhere/libtaprio.so", "TAPRIO_PORT", "bindings/c/build", "TAPRIO_LIBRARY", "taprio.Program"):
                self.assertIn(word, str(raised.exception))
            self.assertIsInstance(raised.exception, OSError)
            self.assertFalse(taprio.library.is_there())
            with self.assertRaises(TypeError):
                taprio.library.run(5)

    def test_another_object(self):
        """An object of another kind is no library, and that is said too."""
        with tempfile.NamedTemporaryFile(suffix=".so") as file:
            file.write(b"no object")
            file.flush()
            for path in (file.name, ctypes.util.find_library("c")):
                with support.environment(TAPRIO_LIBRARY=path), self.assertRaisesRegex(taprio.LibraryMissing, "bindings/c/build"):
                    taprio.library.check("")

    def test_backends(self):
        """What is chosen is taken; without a choice the program that is named, and then what there is."""
        with support.environment(TAPRIO_LIBRARY="/nowhere/libtaprio.so", TAPRIO_PORT="some/taprio_port"):
            self.assertTrue(taprio.backend().path.endswith("/some/taprio_port"))
            self.assertIsInstance(taprio.backend("library"), taprio.Library)
            self.assertEqual(taprio.backend("/bin/false").path, "/bin/false")
            given = taprio.Program("/bin/true")
            self.assertIs(taprio.backend(given), given)
        with tempfile.TemporaryDirectory(prefix="taprio-checkout-") as folder, support.environment(
            TAPRIO_LIBRARY="/nowhere/libtaprio.so", TAPRIO_PORT=None, PATH=folder
        ):
            for name, text, found in (
                ("script", "#!/bin/sh\n[ $1 = --where ] && echo /some/where/taprio_port\n", "/some/where/taprio_port"),
                ("fails", "#!/bin/sh\nexit 4\n", None),
                ("program", "\x7fELF", os.path.join(folder, "program")),
                ("nothing", None, None),
            ):
                path = pathlib.Path(folder, name)
                if text is not None:
                    path.write_text(text)
                    path.chmod(0o755)
                beside = mock.patch.object(taprio.program, "BESIDE", pathlib.Path(folder, "beside"))
                with self.subTest(name), beside, mock.patch.object(taprio.program, "CHECKOUT", path):
                    if found is None:
                        with self.assertRaisesRegex(taprio.LibraryMissing, "PATH.*TAPRIO_PORT.*bindings/c/build.*TAPRIO_LIBRARY"):
                            taprio.backend()
                    else:
                        self.assertEqual(taprio.backend().path, found)

    def test_where_the_program_is_found(self):
        """In the package, then where a checkout has built it, then on the PATH, and then where a checkout builds it."""
        with tempfile.TemporaryDirectory(prefix="taprio-found-") as folder, support.environment(
            TAPRIO_LIBRARY="/nowhere/libtaprio.so", TAPRIO_PORT=None, PATH=f"{folder}/path"
        ):

            def put(name, text):
                path = pathlib.Path(folder, name)
                path.parent.mkdir(exist_ok=True)
                path.write_text(text)
                path.chmod(0o755)
                return path

            beside = pathlib.Path(folder, "beside", "taprio_port")
            builds = put("builds", "#!/bin/sh\n[ $1 = --where ] && echo /made/taprio_port\n")
            built = put("built", "#!/bin/sh\necho /built/taprio_port\n")
            with mock.patch.object(taprio.program, "BESIDE", beside), mock.patch.object(taprio.program, "CHECKOUT", builds):
                self.assertEqual(taprio.backend().path, "/made/taprio_port")
                on_path = put("path/taprio_port", "")
                self.assertEqual(taprio.backend().path, str(on_path))
                with mock.patch.object(taprio.program, "CHECKOUT", built):
                    self.assertEqual(taprio.backend().path, "/built/taprio_port")
                    put("beside/taprio_port", "")
                    self.assertEqual(taprio.backend().path, str(beside))


@support.wants_port
class Whichever(unittest.TestCase):
    """The calls of the package itself, over the library or the program, whichever is there."""

    def test_calls(self):
        schedule = taprio.Schedule([(2, 50_000), (1, 200_000)], map=[0, 1])
        chosen = taprio.backend()
        self.assertEqual(taprio.run("frame 1 0 60\n", until=672_000), b"queued 1 class 0\nstart 1 class 0 at 0 end 672000\n")
        self.assertEqual(taprio.run(SCHEDULE, summary=True), chosen.run(SCHEDULE, summary=True))
        self.assertEqual(taprio.streams(STREAM, SCHEDULE, from_=1000), chosen.streams(STREAM, SCHEDULE, from_=1000))
        self.assertEqual(taprio.draw("frame 1 0 60\n", width=400), chosen.draw("frame 1 0 60\n", width=400))
        script, capture = octets("machine.script"), octets("machine.pcap")
        self.assertEqual(taprio.replay(script, capture, stamp="end"), chosen.replay(script, capture, stamp="end"))
        for given in (schedule, taprio.schedules.Configured(schedule), SCHEDULE, SCHEDULE.encode()):
            self.assertEqual(taprio.check(given), b"apart 0 1\n")
        self.assertEqual(taprio.check(schedule, rate=100, windows=True), chosen.check(SCHEDULE, 100, True))
        self.assertEqual(taprio.check(SHARED, shares=True), chosen.check(SHARED, shares=True))
        for wrong in (5, None, {}):
            with self.assertRaises(TypeError):
                taprio.check(wrong)
        with self.assertRaisesRegex(taprio.BadValue, "--room"):
            taprio.run("", room=0)


class Indexed:
    """A whole number of another kind, such as those of numpy."""

    def __init__(self, value):
        self.value = value

    def __index__(self):
        return self.value


@support.wants_port
class Numbers(unittest.TestCase):
    def test_whole_numbers(self):
        """What has __index__ is a whole number; a fraction, a truth and a text are none."""
        self.assertEqual(taprio.run("frame 1 0 60\n", rate=Indexed(100), until=Indexed(1)), taprio.run("frame 1 0 60\n", rate=100, until=1))
        schedule = taprio.Schedule([(Indexed(1), Indexed(300_000))], base_time=Indexed(5), map=[Indexed(0)], classes=Indexed(1))
        self.assertEqual(schedule, taprio.Schedule([(1, 300_000)], base_time=5, map=[0], classes=1))
        self.assertTrue(all(type(it) is int for it in (schedule.base_time, schedule.classes, *schedule.map, *schedule.entries[0])))
        stream = taprio.Stream(Indexed(1), Indexed(0), Indexed(60), Indexed(1000), count=Indexed(2))
        self.assertEqual((stream, type(stream.count)), (taprio.Stream(1, 0, 60, 1000, count=2), int))
        ran = taprio.run_streams(schedule, [stream], until_ns=Indexed(5000))
        self.assertEqual(ran, taprio.run_streams(schedule, [stream], until_ns=5000))
        for wrong in (1.0, True, "1", None):
            with self.subTest(wrong):
                with self.assertRaises(TypeError):
                    taprio.run("", rate=wrong)
                with self.assertRaises(TypeError):
                    taprio.run_streams(schedule, [stream], until_ns=wrong)
                with self.assertRaises(taprio.BadValue):
                    taprio.Stream(1, wrong, 60, 1000)
                with self.assertRaises(taprio.BadSchedule):
                    taprio.Schedule([(1, wrong)])


if __name__ == "__main__":
    unittest.main()
