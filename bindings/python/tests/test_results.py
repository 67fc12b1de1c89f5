"""Answers as objects: of the examples, of random runs, and of texts that no job writes."""

import dataclasses
import importlib.util
import pathlib
import pickle
import random
import subprocess
import sys
import tempfile
import unittest
import warnings
from unittest import mock

import support
import taprio
from taprio import results

LOOP = taprio.Schedule([(0x02, 50_000), (0x01, 200_000)], map=[0, 0, 0, 0, 0, 0, 1, 0])
CONTROL = taprio.Stream(1, priority=6, length=64, period=250_000, offset=1_000_000, count=4)
MET = "stream 1 6 60 250us 60us 1 deadline 250us"
LOAD = taprio.Stream(1000, priority=0, length=1514, period=20_000, offset=992_000, count=51)


def octets(name):
    return (support.EXAMPLES / name).read_bytes()


class Runs(unittest.TestCase):
    def test_examples(self):
        """Each answer of the examples is read."""
        for path in sorted(
            [*support.EXAMPLES.glob("*.answers"), *support.EXAMPLES.glob("*.report"), *support.EXAMPLES.glob("*.summary")]
        ):
            if path.name in ("apart.answers", "windows.answers"):
                continue
            with self.subTest(path.name):
                found = taprio.read_run(path.read_bytes())
                reports = sum(isinstance(it, results.Report) for it in found.answers)
                self.assertEqual(len(found.answers) + 4 * reports, path.read_bytes().count(b"\n"))
        for case in octets("worked.txt").split(b"====\n"):
            script, answers = case.split(b"----\n")
            taprio.read_run(answers, script)

    def test_waits(self):
        """The arrivals of a script give the waits, and their summary is the one that the program has."""
        found = taprio.read_run(octets("summary.answers"), octets("summary.script"))
        self.assertEqual(
            [(it.id, it.arrived, it.start, it.wait, it.length) for it in found.frames],
            [
                (1, 0, 0, 0, 60),
                (2, 0, 672000, 672000, 60),
                (3, 1000001, 13648000, 12647999, 60),
                (4, 1000001, 1344000, 343999, 1514),
            ],
        )
        self.assertEqual(found.summary[0], results.ClassSummary(0, 3, 3, 0, 180, 0, 4439999, 12647999, 2))
        self.assertEqual(found.wire, results.WireSummary(14320000, 716000, 0, 716000))
        self.assertEqual(found.left, {})
        self.assertEqual(
            found.rows()[3],
            {
                "id": 4,
                "traffic_class": 5,
                "arrived": 1000001,
                "start": 1344000,
                "end": 13648000,
                "wait": 343999,
                "dropped": None,
                "priority": 0 + 5,
                "length": 1514,
                "stream": None,
                "met": None,
            },
        )
        self.assertEqual([row["traffic_class"] for row in found.summary_rows()], [0, 5])

    def test_kinds(self):
        text = b"""\
queued 1 class 0
dropped 2 Full
installed change 200000000
refused MapMissing
refused Busy 12336000
tc-fault BadNumber 14
tc-fault NoEntries
tc-fault MissingWord map
backward
count class 0 accepted 1 sent 0 octets 2 runt 3 too-long 4 over-sdu 5 full 6 waiting 7
report now 672000 mask 0f no-class 9
classes 2 map 0 0 0 0 0 0 1 0 0 0 0 0 0 0 0 0 queues 1@0 2@1
in-force open change 5
pending change 1000000000 base 1 cycle 2 extension 3 entries 4
announced none
left class 0 frames 1
summary class 0 queued 1 sent 0 dropped 1 octets 0 least - mean - greatest - most 1
summary wire busy 0 ppm 0 from - ppm 0
"""
        found = taprio.read_run(text)
        self.assertEqual(found.wire, results.WireSummary(0, 0, None, 0))
        self.assertEqual(taprio.read_run("summary wire busy 5 ppm 7\n").wire, results.WireSummary(5, 7))
        self.assertEqual(
            list(found.answers[2:12]),
            [
                results.Installed(200000000),
                results.Refused("MapMissing"),
                results.Refused("Busy", 12336000),
                results.TcFault("BadNumber", "14"),
                results.TcFault("NoEntries"),
                results.TcFault("MissingWord", "map"),
                results.Backward(),
                results.Counted(0, 1, 0, 2, 3, 4, 5, 6, 7),
                results.Report(
                    672000,
                    15,
                    9,
                    2,
                    (0, 0, 0, 0, 0, 0, 1) + (0,) * 9,
                    ((1, 0), (2, 1)),
                    results.Change(5),
                    results.Change(1000000000, 1, 2, 3, 4),
                    None,
                ),
                results.Left(0, 1),
            ],
        )
        self.assertEqual(found.frames[1], results.Frame(2, None, None, None, None, None, "Full"))
        self.assertEqual((found.summary[0].least, found.left), (None, {0: 1}))
        self.assertEqual(len(results.rows(found.answers)), 14)

    def test_no_answers(self):
        for text, line in (
            (b"queued 1\n", 1),
            (b"queued 1 class 0\nqueue 2 class 0\n", 2),
            (b"report now 1 mask 00 no-class 0\nclasses none\n", 3),
            (b"report now x mask 00\n", 1),
            (b"start 1 class 0 at 0 end 1\n", 0),
            (b"\xff", 1),
            (b"\n", 1),
        ):
            with self.subTest(text), self.assertRaises(taprio.BadAnswer) as raised:
                taprio.read_run(text)
            self.assertEqual(raised.exception.line, line)
        # What was answered before a malformed line is read.
        for bad in ("frame 2 0", "frame 2 0 6_0", "clock +5", "clock 5 5", "frame 2 0 60 60 tagged"):
            self.assertEqual(len(taprio.read_run(b"queued 1 class 0\n", f"frame 1 0 60 tagged\n{bad}\nframe 3 0 60\n").frames), 1)
        with self.assertRaises(taprio.BadAnswer):
            taprio.read_run(b"queued 1 class 0\n", b"frame 2 0 60\n")
        with self.assertRaises(taprio.BadAnswer):
            taprio.read_run(b"queued 1 class 0\n", b"")

    @support.wants_port
    def test_random_runs(self):
        """Of random streams the waits of frames are those of the summary; and what is not sent is left or dropped."""
        for seed in range(20):
            dice = random.Random(seed)
            given, first = [], 0
            for _ in range(dice.randint(1, 5)):
                count = dice.randint(0, 30)
                given.append(
                    taprio.Stream(
                        first,
                        dice.randrange(18),
                        dice.randint(10, 1600),
                        dice.randint(1, 10**5),
                        dice.randint(0, 10**6),
                        count,
                        dice.random() < 0.3,
                    )
                )
                first += count
            found = taprio.run_streams(LOOP, given, until_ns=dice.randint(10**6, 3 * 10**6), room=dice.choice([1, 4, 128]))
            self.assertTrue(sum(it.count for it in given) >= len(found.frames))
            for number, summary in found.summary.items():
                waits = [it.wait for it in found.frames if it.traffic_class == number and it.start is not None]
                self.assertEqual(
                    (summary.sent, summary.least, summary.greatest),
                    (len(waits), min(waits, default=None), max(waits, default=None)),
                )
                self.assertEqual(summary.mean, sum(waits) // len(waits) if waits else None)
                self.assertEqual(summary.queued - summary.sent, found.left.get(number, 0))
            for frame in found.frames:
                stream = next(it for it in given if frame.id in it.ids)
                self.assertEqual((frame.priority, frame.length), (stream.priority, stream.length))
                self.assertEqual(frame.arrived, 1000 * (stream.offset + (frame.id - stream.first_id) * stream.period))


class Checks(unittest.TestCase):
    def test_examples(self):
        apart = taprio.read_check(octets("apart.answers"))
        self.assertEqual([it.apart for it in apart.schedules], [(0, 1, 2), (2,), (1,), None, (), None])
        self.assertEqual(
            [it.fault for it in apart.schedules][3:],
            [results.Refused("IntervalTooShort", 0), None, results.TcFault("MissingWord", "map")],
        )
        found = taprio.read_check(octets("windows.answers"))
        self.assertEqual(found.schedules[0].windows[0], results.Window(0, 300000000, 600000000, 300000000, 900000000, 37476, 899999999))
        self.assertEqual(found.schedules[2].windows[1].frame, 0)
        self.assertEqual(found.schedules[2].windows[1].wait, None)
        self.assertEqual([it.never for it in found.schedules[:2]], [(), (2,)])
        always = found.schedules[3].windows[0]
        self.assertEqual((always.open, always.closed, always.frame, always.wait), (None, 0, None, 0))
        shared = taprio.read_check(b"apart 3\nshares 0 with 1\nshares 1 with 0 2\nshares 2 with 1\nnever 3\napart none\n").schedules
        self.assertEqual(shared[0].shares, (results.Shares(0, (1,)), results.Shares(1, (0, 2)), results.Shares(2, (1,))))
        self.assertEqual((shared[0].never, shared[1].shares), ((3,), ()))
        given = taprio.read_check(b"apart 0\nwindow class 0 open 1 closed 1 share 1 of 2 frame 3 wait 4 length 5 wait none\n")
        self.assertEqual(given.schedules[0].windows[0], results.Window(0, 1, 1, 1, 2, 3, 4, 5, None))
        self.assertEqual(
            found.rows()[0],
            {
                "schedule": 0,
                "apart": True,
                "traffic_class": 0,
                "open": 300000000,
                "closed": 600000000,
                "share": 300000000,
                "cycle": 900000000,
                "frame": 37476,
                "wait": 899999999,
                "length": None,
                "length_wait": None,
            },
        )
        self.assertEqual(len(found.rows()), octets("windows.answers").count(b"window"))

    def test_no_answers(self):
        for text in (
            b"window class 0 open 1 closed 1 share 1 of 2 frame 3\n",
            b"apart\n",
            b"apart 0\nqueued 1 class 0\n",
            b"refused X 0\nwindow class 0 open 1 closed 1 share 1 of 2 frame 3 wait 4\n",
            b"refused X 0\nnever 1\n",
            b"never 1\n",
            b"shares 0 with 1\n",
            b"apart none\nshares 0 with\n",
            b"refused X 0\nshares 0 with 1\n",
        ):
            with self.subTest(text), self.assertRaises(taprio.BadAnswer):
                taprio.read_check(text)


class Frames(unittest.TestCase):
    """A table of frames holds what a run's answers tell of each frame, and reads so."""

    def test_ends_of_lines(self):
        """A text whose lines end as those of Windows is the same run and the same table."""
        script = "frame 1 0 60\nframe 2 0 13\nclock 1000000\n"
        answers = "queued 1 class 0\ndropped 2 Runt\nstart 1 class 0 at 0 end 672000\n"
        found = results.read_run(answers, script)
        self.assertEqual([(it.id, it.start, it.dropped) for it in found.frames], [(1, 0, None), (2, None, "Runt")])
        self.assertEqual(results.read_run(answers.replace("\n", "\r\n"), script.replace("\n", "\r\n")).frames, found.frames)
        self.assertEqual(results.read_run(answers, script.replace("frame 1 0 60", "frame  1\t0 \\\n 60  tagged")).frames, found.frames)
        self.assertEqual(results.read_run(answers.removesuffix("\n"), script).frames, found.frames)
        table = "id,class,len,arrival_ps,start_ps,end_ps,wait_ps,fate\n2,0,13,0,,,,Runt\n1,0,60,0,0,672000,0,sent\n"
        self.assertEqual(results.read_frames(table.replace("\n", "\r\n")), results.read_frames(table))
        self.assertEqual(results.read_frames(table.removesuffix("\n")), results.read_frames(table))
        read = results.read_frames(table)
        self.assertEqual((len(read), read[1], read[-2], read[1:], read[:0]), (2, list(read)[1], list(read)[0], tuple(read)[1:], ()))
        self.assertEqual((read, hash(read), repr(read)), (tuple(read), hash(tuple(read)), repr(tuple(read))))
        self.assertNotEqual(read, tuple(read)[1:])
        self.assertNotEqual(read, list(read))
        self.assertEqual(pickle.loads(pickle.dumps(read)), read)
        self.assertEqual([it["dropped"] for it in results.rows(read)], ["Runt", None])
        self.assertEqual(list(results.rows(read)[0]), [it.name for it in dataclasses.fields(results.Frame)])
        with self.assertRaises(IndexError):
            read[2]
        self.assertEqual(pickle.loads(pickle.dumps(found)), found)
        self.assertEqual(dataclasses.replace(found.frames[0], id=1), found.frames[0])
        self.assertEqual(results.read_run(""), results.Run(""))

    @support.wants_frames
    def test_a_script(self):
        found = taprio.frames("frame 1 0 60\nframe 2 16 60\nclock 5\nframe 3 0 60\n", until=672_001, port=support.FRAMES)
        self.assertEqual(
            found,
            (
                results.Frame(2, None, 0, None, None, None, "NoClass", None, 60),
                results.Frame(1, 0, 0, 0, 672_000, 0, None, None, 60),
                results.Frame(3, 0, 5, 672_000, 1_344_000, 671_995, None, None, 60),
            ),
        )
        self.assertEqual(results.rows(found)[1]["start"], 0)
        with self.assertRaises(taprio.BadInput):
            taprio.frames("clok\n", port=support.FRAMES)

    @support.wants_frames_by_stream
    def test_streams(self):
        streams = [taprio.Stream(first_id=10, priority=0, length=60, period=1000, count=2), taprio.Stream(first_id=7, priority=0, length=60, period=1000, count=9)]
        script = "frame 6 0 60\nframe 7 0 60\nframe 11 0 60\nframe 15 16 60\nframe 16 0 13\nclock 672000\n"
        found = taprio.frames(script, streams=streams, port=support.FRAMES_BY_STREAM)
        self.assertEqual([(it.id, it.stream) for it in found], [(15, 7), (16, None), (6, None), (7, 7), (11, 10)])
        self.assertEqual([it.stream for it in taprio.frames(script, streams=taprio.table(streams), port=support.FRAMES_BY_STREAM)], [it.stream for it in found])
        with self.assertRaisesRegex(taprio.BadInput, "table line 1"):
            taprio.frames(script, streams="strem 1\n", port=support.FRAMES_BY_STREAM)

    @support.wants_frames_of_capture
    def test_a_capture(self):
        script, capture = (support.EXAMPLES / "machine.script").read_text(), taprio.read_capture(support.EXAMPLES / "machine.pcap")
        found = taprio.frames(script, capture=capture, port=support.FRAMES_OF_CAPTURE)
        self.assertEqual(len(found), 12)
        self.assertEqual(found[5], results.Frame(5, 0, 250_000_000, 300_000_000, 312_192_000, 50_000_000, None, None, 1500))
        with self.assertRaisesRegex(taprio.BadInput, "capture header: BadMagic"):
            taprio.frames(script, capture=bytes(24), port=support.FRAMES_OF_CAPTURE)
        with self.assertRaisesRegex(taprio.BadValue, "does not go with a capture"):
            taprio.frames(script, streams=[], capture=capture, port=support.FRAMES_OF_CAPTURE)

    @support.wants_frames
    def test_examples(self):
        """In each example the frames of the table are those of the answers, in the order of their fate."""
        for path in sorted(support.EXAMPLES.glob("*.script")):
            with self.subTest(path.name):
                script = path.read_bytes()
                run = taprio.read_run(taprio.backend(support.FRAMES).run(script, until=9 * 10**21), script)
                told = taprio.frames(script, until=9 * 10**21, port=support.FRAMES)
                self.assertEqual(sorted(map(known, told)), sorted(map(known, run.frames)))

    def test_what_is_no_table(self):
        head = "id,class,len,arrival_ps,start_ps,end_ps,wait_ps,fate\n"
        self.assertEqual(taprio.read_frames(head), ())
        by_stream = f"{head[:-1]},stream\n"
        self.assertEqual([it.stream for it in taprio.read_frames(f"{by_stream}1,0,60,0,,,,left,\n2,0,60,0,,,,left,2\n")], [None, 2])
        by_deadline = f"{by_stream[:-1]},deadline\n"
        table = f"{by_deadline}1,0,13,0,,,,Runt,1,missed\n2,0,60,0,0,1,0,sent,1,met\n3,0,60,0,,,,left,1,\n4,0,60,0,,,,left,,\n"
        self.assertEqual([(it.stream, it.met) for it in taprio.read_frames(table)], [(1, False), (1, True), (1, None), (None, None)])
        others = [(f"{by_stream}1,0,60,0,,,,left\n", 2), (f"{head}1,0,60,0,,,,left,2\n", 2), (f"{by_stream}1,0,60,0,,,,left,2,met\n", 2)]
        others += [(f"{by_deadline}1,0,60,0,,,,left,2\n", 2), (f"{by_deadline}1,0,60,0,,,,left,2,late\n", 2)]
        for text, line in (("", 1), ("id,class\n", 1), (f"{head}1,0,60,0,,,,\n", 2), (f"{head}1,0,60,0,,,,left\n1,0,60\n", 3), *others):
            with self.subTest(text), self.assertRaisesRegex(taprio.BadAnswer, f"^line {line}: "):
                taprio.read_frames(text)


def known(frame):
    """What both a table of frames and a run tell of a frame."""
    class_ = -1 if frame.dropped or frame.traffic_class is None else frame.traffic_class
    return frame.id, frame.arrived, frame.length, class_, frame.start or -1, frame.end or -1, frame.dropped or ""


class Bounds(unittest.TestCase):
    ANSWERS = b"""\
apart 1 2 3
class 0 open to 4 5
class 1 most 3 of 128 frames 5 every 500000000
class 2 full at 63510000000 stream 300 frame 509
class 3 stuck at 10 stream 501 frame 1 full at 128000000000 stream 500 frame 129
bound 100 class 0 unknown deadline 5 unknown
bound 200 class 1 wait 13 to 25 end 26 to 38 deadline 1000 met
bound 201 class 1 wait 13 to 25 end 26 to 38
bound 300 class 2 none deadline 1000 missed
bound 500 class 3 none
bound 600 dropped TooLong deadline 7 missed
refused IntervalTooShort 0
tc-fault MissingWord map
apart none
class 4 long
class 5 late
class 6 overloaded
apart 5 6 7
class 5 within most 3 of 2
class 6 stuck
class 7 within most 2 of 128
bound 1 class 7 within 0 to 245 end 6 to 246 deadline 300 met
bound 2 class 7 within 0 to 245 end 6 to 246 deadline 100 unknown
bound 3 class 7 within 0 to 240 end 17 to 242
bound 4 class 5 unknown
bound 5 class 6 none deadline 10 missed
apart none
silent 4 6
class 0 blocked
class 1 behind 3
class 2 within most 1 of 128
class 3 stuck
class 5 open to 7
bound 2 class 2 within 0 to 5 end 1 to 6 deadline 7 met
slack 2 jitter 1000
bound 3 class 3 unknown
apart 7
silent
"""

    def test_kinds(self):
        found = taprio.read_bounds(self.ANSWERS)
        self.assertEqual(
            found.schedules[0],
            results.Bounded(
                (1, 2, 3),
                (
                    results.ClassVerdict(0, "open", open_to=(4, 5)),
                    results.ClassVerdict(1, "bounded", 3, 128, 5, 500000000),
                    results.ClassVerdict(2, "full", at=63510000000, stream=300, frame=509),
                    results.ClassVerdict(3, "stuck", at=128000000000, stream=500, frame=129, stuck_at=10, stuck_stream=501, stuck_frame=1),
                ),
                (
                    results.StreamBound(100, 0, "unknown", deadline=5),
                    results.StreamBound(200, 1, "bounded", 13, 25, 26, 38, None, 1000, True),
                    results.StreamBound(201, 1, "bounded", 13, 25, 26, 38),
                    results.StreamBound(300, 2, "none", deadline=1000, met=False),
                    results.StreamBound(500, 3, "none"),
                    results.StreamBound(600, None, "dropped", dropped="TooLong", deadline=7, met=False),
                ),
            ),
        )
        self.assertEqual(
            found.schedules[1:],
            (
                results.Bounded(None, fault=results.Refused("IntervalTooShort", 0)),
                results.Bounded(None, fault=results.TcFault("MissingWord", "map")),
                results.Bounded((), (results.ClassVerdict(4, "long"), results.ClassVerdict(5, "late"), results.ClassVerdict(6, "overloaded"))),
                results.Bounded(
                    (5, 6, 7),
                    (results.ClassVerdict(5, "within", 3, 2), results.ClassVerdict(6, "stuck"), results.ClassVerdict(7, "within", 2, 128)),
                    (
                        results.StreamBound(1, 7, "within", 0, 245, 6, 246, None, 300, True),
                        results.StreamBound(2, 7, "within", 0, 245, 6, 246, None, 100),
                        results.StreamBound(3, 7, "within", 0, 240, 17, 242),
                        results.StreamBound(4, 5, "unknown"),
                        results.StreamBound(5, 6, "none", deadline=10, met=False),
                    ),
                ),
                results.Bounded(
                    (),
                    (
                        results.ClassVerdict(0, "blocked"),
                        results.ClassVerdict(1, "behind", behind=3),
                        results.ClassVerdict(2, "within", 1, 128),
                        results.ClassVerdict(3, "stuck"),
                        results.ClassVerdict(5, "open", open_to=(7,)),
                    ),
                    (
                        results.StreamBound(2, 2, "within", 0, 5, 1, 6, None, 7, True, 1000),
                        results.StreamBound(3, 3, "unknown"),
                    ),
                    silent=(4, 6),
                ),
                results.Bounded((7,), silent=()),
            ),
        )
        self.assertEqual([row["schedule"] for row in found.class_rows()], [0, 0, 0, 0, 3, 3, 3, 4, 4, 4, 5, 5, 5, 5, 5])
        self.assertEqual([it.silent for it in found.schedules], [None] * 5 + [(4, 6), ()])
        within = found.rows()[6]
        self.assertEqual((within["schedule"], within["verdict"], within["greatest_end"], within["met"]), (4, "within", 246, True))
        self.assertEqual(
            found.rows()[1],
            {
                "schedule": 0,
                "first_id": 200,
                "traffic_class": 1,
                "verdict": "bounded",
                "least_wait": 13,
                "greatest_wait": 25,
                "least_end": 26,
                "greatest_end": 38,
                "dropped": None,
                "deadline": 1000,
                "met": True,
                "slack": None,
                "gates": None,
                "blocking": None,
                "higher": None,
                "queue": None,
            },
        )

    def test_met(self):
        """One deadline that is missed or unknown, or one schedule that is refused, and not all is met."""
        for text, met in (
            ("", False),
            ("apart 1\nbound 1 class 1 none\n", True),
            ("apart 1\nbound 1 class 1 wait 0 to 0 end 5 to 5 deadline 5 met\n", True),
            ("apart 1\nbound 1 class 1 within 0 to 2 end 3 to 5 deadline 5 met\n", True),
            ("apart 1\nclass 1 within most 3 of 2\nbound 1 class 1 unknown\n", True),
            ("apart 1\nbound 1 class 1 within 0 to 2 end 3 to 5 deadline 4 unknown\n", False),
            ("apart 1\nbound 1 class 1 none deadline 5 missed\n", False),
            ("apart 1\nbound 1 class 1 unknown deadline 5 unknown\n", False),
            ("refused MapMissing\n", False),
            ("tc-fault NoEntries\napart 1\n", False),
        ):
            with self.subTest(text):
                self.assertIs(taprio.read_bounds(text).met, met)

    def test_no_answers(self):
        for text, line in (
            (b"class 1 long\n", 1),
            (b"apart none\nclass 1 shared\n", 2),
            (b"apart none\nclass 1 open to\n", 2),
            (b"apart none\nclass 1 behind\n", 2),
            (b"apart none\nclass 1 open to 2 most 1 of 2\n", 2),
            (b"silent 1\n", 1),
            (b"apart none\nsilent none\n", 2),
            (b"apart none\nsilent\nsilent\n", 3),
            (b"apart none\nclass 1 long\nsilent 2\n", 3),
            (b"refused MapMissing\nsilent 2\n", 2),
            (b"bound 1 class 1 none\n", 1),
            (b"apart\n", 1),
            (b"apart 1\nqueued 1 class 0\n", 2),
            (b"refused MapMissing\nbound 1 class 1 none\n", 2),
            (b"apart 1\nbound 1 class 1 none\nclass 1 long\n", 3),
            (b"apart 1\nclass 1 most 1 of 2\n", 2),
            (b"apart 1\nclass 1 most 1 of 2 every 3\n", 2),
            (b"apart 1\nclass 1 within most 1\n", 2),
            (b"apart 1\nclass 1 within most 1 of 2 frames 1 every 5\n", 2),
            (b"apart 1\nclass 1 full\n", 2),
            (b"apart 1\nbound 1 class 1 wait 1 to 2\n", 2),
            (b"apart 1\nbound 1 class 1 within 1 to 2\n", 2),
            (b"apart 1\nbound 1 class 1 none deadline 5\n", 2),
            (b"apart 1\nbound 1 dropped\n", 2),
        ):
            with self.subTest(text), self.assertRaises(taprio.BadAnswer) as raised:
                taprio.read_bounds(text)
            self.assertEqual(raised.exception.line, line)

    @support.wants_bounds
    def test_a_schedule(self):
        """A schedule and its line, streams and their table, and the values of the port."""
        control = dataclasses.replace(CONTROL, offset=60_000, deadline=250_000)
        found = taprio.bounds(LOOP, [control], port=support.BOUNDS)
        self.assertEqual(
            found.schedules,
            (
                results.Bounded(
                    (0, 1),
                    (results.ClassVerdict(1, "bounded", 1, 128, 1, 250_000_000),),
                    (results.StreamBound(1, 1, "bounded", 190_000_000, 190_000_000, 190_704_000, 190_704_000, None, 250_000_000, True),),
                ),
            ),
        )
        self.assertEqual(taprio.bounds(f"{LOOP.tc()}\n", taprio.table([control]), port=support.BOUNDS), found)
        self.assertFalse(taprio.bounds(LOOP, [dataclasses.replace(control, deadline=190_703)], port=support.BOUNDS).met)
        other = taprio.bounds(LOOP, [control], rate=100, room=7, port=support.BOUNDS).schedules[0]
        self.assertEqual((other.classes[0].room, other.streams[0].least_end), (7, 197_040_000))
        self.assertEqual(taprio.bounds(LOOP, [LOAD], frames=3, port=support.BOUNDS).schedules[0].classes[0].verdict, "long")
        with self.assertRaises(taprio.BadInput):
            taprio.bounds(LOOP, [dataclasses.replace(control, period=0)], port=support.BOUNDS)
        with self.assertRaises(TypeError):
            taprio.bounds(None, [control], port=support.BOUNDS)

    @support.wants_program
    def test_any_moments(self):
        """Streams with a jitter, several lengths, and the offset None; a class with too little room; and one whose frame fits no window."""
        late = dataclasses.replace(CONTROL, offset=60_000, jitter=5_000, shortest=60, deadline=250_000)
        schedule = taprio.bounds(LOOP, [late], port=support.PROGRAM).schedules[0]
        self.assertEqual(schedule.classes, (results.ClassVerdict(1, "within", 1, 128),))
        self.assertEqual(
            schedule.streams, (results.StreamBound(1, 1, "within", 190_000_000, 190_000_000, 190_672_000, 190_704_000, None, 250_000_000, True),)
        )
        self.assertEqual(taprio.bounds(LOOP, [dataclasses.replace(late, deadline=190_703)], port=support.PROGRAM).finding, "stream 1: deadline unknown")
        free = taprio.Stream(9, 6, 64, 1_000_000, None)
        schedule = taprio.bounds(LOOP, [late, free], room=1, port=support.PROGRAM).schedules[0]
        self.assertEqual(schedule.classes, (results.ClassVerdict(1, "within", 2, 1),))
        self.assertEqual([(it.verdict, it.met) for it in schedule.streams], [("unknown", None)] * 2)
        short = taprio.Schedule([(0x02, 800), (0x01, 249_200)], map=LOOP.map)
        stuck = taprio.bounds(short, [dataclasses.replace(free, length=100)], port=support.PROGRAM)
        self.assertEqual((stuck.schedules[0].classes, stuck.finding), ((results.ClassVerdict(1, "stuck"),), "class 1: stuck"))

    @support.wants_program
    def test_shared_windows(self):
        """A class that shares its windows: what it is open to, with these silent, behind a class with streams, with leftovers, and blocked."""
        both = taprio.Schedule([(0x03, 50_000), (0x00, 50_000)], map=LOOP.map)
        low, high = taprio.Stream(1, 0, 60, 1_000_000, deadline=1_000_000), taprio.Stream(9, 6, 60, 1_000_000, None)

        def told(streams, schedule=both, **asked):
            return taprio.bounds(schedule, streams, port=support.PROGRAM, **asked).schedules[0]

        within = [results.ClassVerdict(number, "within", 1, 128) for number in (0, 1)]
        open_to = results.ClassVerdict(0, "open", open_to=(1,))
        self.assertEqual(told([low]), results.Bounded((), (open_to,), (results.StreamBound(1, 0, "unknown", deadline=1_000_000_000),)))
        for asked in ({}, {"leftovers": True}, {"slack": True}):
            with self.subTest(asked):
                alone = told([low], silent=(1,), **asked)
                self.assertEqual((alone.silent, alone.classes), ((1,), (within[0],)))
                times = (0, 50_671_999, 672_000, 51_343_999, None, 1_000_000_000, True)
                slack = 948_656_000 if asked.get("slack") else None
                self.assertEqual(alone.streams, (results.StreamBound(1, 0, "within", *times, slack),))
        self.assertEqual(told([low, high]).classes, tuple(within))
        self.assertIsNone(told([low, high]).silent)
        self.assertEqual(told([low, high], leftovers=True).classes, (open_to, within[1]))
        named = told([low, high], silent={0, 1})
        self.assertEqual((named.silent, named.classes), ((), tuple(within)))
        late = taprio.Schedule([(0x01, 20_000), (0x03, 5_000), (0x00, 50_000)], map=LOOP.map)
        longer = dataclasses.replace(low, length=1514)
        self.assertEqual(told([longer, high], late).classes, (results.ClassVerdict(0, "behind", behind=1), results.ClassVerdict(1, "blocked")))

    @support.wants_bounds
    def test_random_bounds(self):
        """Random streams of one class: a run as long as their bounds go has just the least and the greatest wait of each stream and the
        most frames at once; and a queue that gets full drops just the frame that is named."""
        verdicts = set()
        for seed in range(40):
            dice = random.Random(seed)
            given = []
            for number in range(dice.randint(1, 3)):
                period, offset = dice.choice([75_000, 100_000, 125_000, 250_000, 500_000]), dice.randint(0, 250_000)
                given.append(taprio.Stream(1000 * number, 6, dice.randint(60, 1500), period, offset, 9_000_000 // period))
            room = dice.choice([1, 2, 128])
            told = taprio.bounds(LOOP, given, room=room, port=support.BOUNDS).schedules[0]
            run = taprio.run_streams(LOOP, given, from_ns=250_000, until_ns=12_000_000, room=room, port=support.BOUNDS)
            verdict = told.classes[0]
            verdicts.add(verdict.verdict)
            if verdict.verdict == "bounded":
                for stream, bound in zip(given, told.streams):
                    # (after 8 ms some stream may have ended)
                    waits = [it.wait for it in run.of(stream.ids) if it.arrived < 8_000_000_000]
                    self.assertEqual((min(waits), max(waits)), (bound.least_wait, bound.greatest_wait))
                self.assertEqual(run.summary[1].most, verdict.most)
            elif verdict.verdict == "full" and verdict.at < 8_000_000_000:
                first = next(it for it in run.frames if it.dropped)
                self.assertEqual((first.id, first.arrived), (verdict.stream + verdict.frame - 1, verdict.at + 250_000_000))
        self.assertEqual(verdicts, {"bounded", "full"})

    @support.wants_program
    def test_met_and_strict(self):
        """All is met just where the program ends with status 0 under --strict."""
        for table, schedules, status in (
            (MET, LOOP.tc(), 0),
            (MET.replace("deadline 250us", "deadline 1us"), LOOP.tc(), 1),
            (MET.replace(" 60us 1 ", " 60us 1 jitter 5us "), LOOP.tc(), 0),
            (MET.replace(" 60us 1 ", " any 1 jitter 5us "), LOOP.tc(), 0),
            (MET.replace(" 60us 1 deadline 250us", " any 1 deadline 200us"), LOOP.tc(), 1),
            (MET, "tc qdisc del dev eth0 root", 1),
            (MET, f"{LOOP.tc()}\ntc qdisc replace", 1),
            (MET, "# nothing", 1),
            (MET.partition(" deadline")[0].replace("stream 1 6 ", "stream 1 16 "), LOOP.tc(), 1),
            ("", LOOP.tc(), 1),
            ("", "", 1),
        ):
            with self.subTest(table=table, schedules=schedules), tempfile.TemporaryDirectory(prefix="taprio-strict-") as folder:
                path = pathlib.Path(folder, "table")
                path.write_text(table)
                words = [support.PROGRAM, "bounds", "--strict", path]
                ran = subprocess.run(words, input=schedules.encode(), capture_output=True, check=False)
                self.assertEqual(ran.returncode, status)
                self.assertIs(taprio.read_bounds(ran.stdout).met, status == 0)

    def test_finding(self):
        """What is found first is said, with the number of its schedule where it is none."""
        class_2, class_4 = b"apart 2\nclass 2 full at 1 stream 3 frame 4\n", b"apart 4\nclass 4 overloaded\n"
        for answers, finding in (
            (b"", "no schedule was judged"),
            (b"apart none\n", "no schedule was judged"),
            (b"apart 0 1\n", "no stream is in the table"),
            (b"apart 1\nbound 1 class 0 unknown\n", None),
            (b"apart 1\nbound 1 class 0 unknown\nrefused MapMissing\n", "schedule 1: refused MapMissing"),
            (b"tc-fault MissingWord map\n", "schedule 0: tc-fault MissingWord"),
            (class_2 + b"bound 3 class 2 none\nbound 9 class 2 none\n", "class 2: full"),
            (class_2 + b"bound 3 class 2 none\nbound 9 class 2 none deadline 5 unknown\n", "stream 9: deadline unknown"),
            (class_4 + b"bound 3 class 4 none deadline 5 missed\n", "stream 3: deadline missed"),
            (class_4 + b"bound 3 dropped Runt\n", "stream 3: dropped"),
            (b"apart 4\nclass 4 stuck at 1 stream 3 frame 4\nbound 3 class 4 none\n", "class 4: stuck"),
            (b"apart 4\nclass 4 stuck\nbound 3 class 4 none\n", "class 4: stuck"),
            (b"apart 4\nclass 4 within most 3 of 2\nbound 3 class 4 unknown\n", None),
            (b"apart 4\nclass 4 within most 1 of 2\nbound 3 class 4 within 0 to 2 end 3 to 5 deadline 4 missed\n", "stream 3: deadline missed"),
        ):
            with self.subTest(answers):
                found = taprio.read_bounds(answers)
                self.assertEqual((found.finding, found.met), (finding, finding is None))


class Paths(unittest.TestCase):
    def told(self, *lines):
        return taprio.read_paths("".join(f"{line}\n" for line in lines))

    def test_met(self):
        """Only where there is a path, each has its ends and its deadline, and no class may have more frames than room."""
        fits, path = "class 7 within most 1 of 1", "path 1 end 5 to 60"
        for lines, met in (
            ((), False),
            ((fits, path), True),
            ((fits, f"{path} deadline 60 met"), True),
            ((fits, f"{path} deadline 59 unknown"), False),
            ((fits, f"{path} deadline 4 missed"), False),
            ((fits, f"{path} deadline 60 met", "path 2 unknown"), False),
            ((fits, f"{path} deadline 60 met", "path 2 none"), False),
            (("class 7 within most 2 of 1", f"{path} deadline 60 met"), False),
        ):
            with self.subTest(lines):
                self.assertIs(self.told("apart none", *lines).met, met)

    def test_kinds(self):
        """Each line, of ports with names; the verdicts about classes are those of bounds, and two more."""
        found = self.told(
            "port a", "apart 6 7", "silent 3 4", "class 5 open to 6", "class 6 behind 7", "class 7 within most 1 of 128",
            "port class", "apart none", "class 5 unknown", "class 6 cyclic", "class 7 overloaded",
            "cyclic class/6 a/5",
            "hop 1 a class 7 within 0 to 12", "hop 1 class class 7 within 3 to 4", "path 1 end 5 to 60 deadline 60 met",
            "hop 2 a class 7 within 0 to 12", "path 2 end 5 to 60",
            "hop 3 a class 7 within 0 to 12", "path 3 none at class",
            "path 4 unknown at a",
            "hop 5 a class 7 within 0 to 12", "path 5 end 5 to 60 deadline 4 missed",
            "hop 6 a class 7 within 0 to 12", "path 6 end 5 to 60 deadline 50 unknown",
        )  # fmt: skip
        self.assertEqual(
            found.ports,
            (
                results.PortBounds(
                    "a",
                    (6, 7),
                    (
                        results.ClassVerdict(5, "open", open_to=(6,)),
                        results.ClassVerdict(6, "behind", behind=7),
                        results.ClassVerdict(7, "within", 1, 128),
                    ),
                    (3, 4),
                ),
                results.PortBounds(
                    "class", (), (results.ClassVerdict(5, "unknown"), results.ClassVerdict(6, "cyclic"), results.ClassVerdict(7, "overloaded"))
                ),
            ),
        )
        self.assertEqual(found.cyclic, (("class", 6), ("a", 5)))
        self.assertEqual(found.hops[:2], (results.Hop(1, "a", 7, 0, 12), results.Hop(1, "class", 7, 3, 4)))
        self.assertEqual([it.first_id for it in found.hops], [1, 1, 2, 3, 5, 6])
        self.assertEqual(
            found.paths,
            (
                results.PathBound(1, "within", 5, 60, 60, True),
                results.PathBound(2, "within", 5, 60),
                results.PathBound(3, "none", at="class"),
                results.PathBound(4, "unknown", at="a"),
                results.PathBound(5, "within", 5, 60, 4, False),
                results.PathBound(6, "within", 5, 60, 50),
            ),
        )
        self.assertEqual(
            found.rows()[0],
            {"first_id": 1, "verdict": "within", "least_end": 5, "greatest_end": 60, "deadline": 60, "met": True, "at": None},
        )
        self.assertEqual(found.hop_rows()[1], {"first_id": 1, "port": "class", "traffic_class": 7, "least_wait": 3, "greatest_wait": 4})
        self.assertEqual([(it["port"], it["traffic_class"]) for it in found.class_rows()], [(name, class_) for name in ("a", "class") for class_ in (5, 6, 7)])

    def test_a_port_without_a_name(self):
        found = self.told("apart none", "class 7 within most 1 of 128", "hop 1 class 7 within 0 to 9", "path 1 end 6 to 15", "path 2 unknown", "path 3 none")
        self.assertEqual(found.ports, (results.PortBounds(None, (), (results.ClassVerdict(7, "within", 1, 128),)),))
        self.assertEqual(found.hops, (results.Hop(1, None, 7, 0, 9),))
        self.assertEqual([(it.verdict, it.at) for it in found.paths], [("within", None), ("unknown", None), ("none", None)])

    def test_examples(self):
        """Each line of the examples is read."""
        for name, ports, ways in (("line", ["sw1", "sw2", "sw3"], [1, 2, 3]), ("vehicle", ["front", "rear", "core"], [1, 2, 11, 12, 21, 22])):
            with self.subTest(name):
                found = taprio.read_paths(octets(f"{name}.paths"))
                self.assertEqual(([it.name for it in found.ports], [it.first_id for it in found.paths]), (ports, ways))
                lines = 2 * len(found.ports) + len(found.class_rows()) + len(found.hops) + len(found.paths)
                self.assertEqual(lines, octets(f"{name}.paths").count(b"\n"))

    def test_no_answers(self):
        for lines, line in (
            ([], 1),
            (["port a"], 2),
            (["port a/b"], 1),
            (["port a", "port b"], 2),
            (["port a", "class 1 long"], 2),
            (["apart none", "apart none"], 2),
            (["apart none", "port a"], 2),
            (["port a", "apart none", "apart 1"], 3),
            (["port a", "apart none", "class 1 most 1"], 3),
            (["apart none", "class 1 long", "silent 2"], 3),
            (["apart none", "silent 1", "silent 2"], 3),
            (["apart none", "cyclic"], 2),
            (["apart none", "cyclic a"], 2),
            (["apart none", "path 1 end 3"], 2),
            (["apart none", "path 1 end 3 to 4 deadline 5"], 2),
            (["apart none", "path 1 none", "class 1 long"], 3),
            (["apart none", "cyclic a/1", "class 1 long"], 3),
            (["apart none", "hop 1 a class 1 within 0"], 2),
            (["hop 1 a class 1 within 0 to 5"], 1),
            (["apart none", "bound 1 class 1 none"], 2),
            (["refused MapMissing"], 1),
        ):
            with self.subTest(lines), self.assertRaises(taprio.BadAnswer) as raised:
                self.told(*lines)
            self.assertEqual(raised.exception.line, line)

    @support.wants_paths
    def test_a_network(self):
        """Schedules by the names of their ports, and as lines; a port that has none; and the values of the ports."""
        network = "link a b 1us\nlink b c 1us\nstream 1 6 60 250us 60us 1 deadline 1ms via a b c\n"
        later = dataclasses.replace(LOOP, base_time=1_608)
        given = {"a": LOOP, "b": taprio.schedules.Configured(later, "eth0", "oper", "line 1")}
        found = taprio.paths(network, given, silent=(7,), port=support.PATHS)
        self.assertEqual(found, taprio.paths(network, f"{LOOP.tc('a')}\n{later.tc('b')}\n", silent=(7,), port=support.PATHS))
        self.assertEqual([(it.name, it.apart) for it in found.ports], [("a", (0, 1)), ("b", (0, 1)), ("c", ())])
        self.assertEqual([(it.port, it.traffic_class) for it in found.hops], [("a", 1), ("b", 1), ("c", 6)])
        self.assertEqual([(it.verdict, it.met) for it in found.paths], [("within", True)])
        self.assertEqual([(it.silent, it.classes[0].verdict) for it in found.ports], [((7,), "within")] * 3)
        slow = taprio.paths(network, given, silent=[7], rate=100, mtu=1000, room=7, port=support.PATHS)
        self.assertEqual({it.room for port in slow.ports for it in port.classes}, {7})
        self.assertLess(found.paths[0].greatest_end, slow.paths[0].greatest_end)
        self.assertEqual([it.at for it in taprio.paths(network, given, port=support.PATHS).paths], ["c"])
        self.assertEqual(taprio.paths("stream 1 0 60 3us any 1\n", LOOP.tc(), frames=3, port=support.PATHS).ports[0].classes[0].verdict, "long")
        with self.assertRaises(taprio.BadInput):
            taprio.paths(network, {"d": LOOP}, port=support.PATHS)
        with self.assertRaises(TypeError):
            taprio.paths(network, None, port=support.PATHS)

    @support.wants_paths
    def test_a_circle(self):
        network = "link a b 1us\nlink b a 1us\nstream 1 7 60 1ms any 1 deadline 1ms via a b\nstream 2 7 60 1ms any 1 via b a\n"
        found = taprio.paths(network, {}, port=support.PATHS)
        self.assertEqual(found.cyclic, (("a", 7), ("b", 7)))
        self.assertEqual({it.verdict for port in found.ports for it in port.classes}, {"cyclic"})
        self.assertEqual([(it.verdict, it.at) for it in found.paths], [("unknown", "a"), ("unknown", "b")])

    @support.wants_paths
    def test_one_port_as_bounds(self):
        """With one port, and a talker that follows no clock, the times are those of bounds."""
        for length in (60, 64, 300, 1500):
            alarm = taprio.Stream(9, 6, length, 250_000, None)
            one = taprio.bounds(LOOP, [alarm], port=support.PATHS).schedules[0].streams[0]
            way = taprio.paths(taprio.table([alarm]), {"eth0": LOOP}, port=support.PATHS)
            self.assertEqual(way.hops, (results.Hop(9, None, 1, one.least_wait, one.greatest_wait),))
            self.assertEqual(way.paths, (results.PathBound(9, "within", one.least_end, one.greatest_end),))


class Plans(unittest.TestCase):
    @support.wants_plan
    def test_a_table(self):
        """Streams and their table have one plan, which meets each deadline."""
        streams = [dataclasses.replace(CONTROL, deadline=60_000), taprio.Stream(9, 5, 1514, 500_000, None, deadline=400_000)]
        (planned,) = taprio.plan(streams, base_time=1_000_000, device="swp3", port=support.PLAN)
        self.assertEqual([planned], taprio.plan(taprio.table(streams), base_time=1_000_000, device="swp3", port=support.PLAN))
        self.assertEqual((planned.device, planned.schedule.base_time), ("swp3", 1_000_000))
        found = taprio.bounds(planned.schedule, streams, port=support.PLAN)
        self.assertEqual([it.met for it in found.schedules[0].streams], [True, True])
        self.assertTrue(found.met)
        short = taprio.plan(streams, entries=5, least_interval=10_000, cycle=125_000, share=True, port=support.PLAN)[0].schedule
        self.assertEqual(short.cycle_time, 125_000)
        self.assertLessEqual(len(short.entries), 5)
        self.assertGreaterEqual(min(it.interval for it in short.entries), 10_000)
        slow = taprio.plan(streams, rate=100, room=7, port=support.PLAN)[0].schedule
        self.assertTrue(taprio.bounds(slow, streams, rate=100, room=7, port=support.PLAN).met)
        with self.assertRaises(taprio.NoPlan):
            taprio.plan(streams, mtu=1000, port=support.PLAN)

    @support.wants_plan
    def test_a_network(self):
        """Each port that streams cross has a schedule, and with them each deadline is met."""
        network = "link a b 2us 3us\nstream 1 7 64 500us 20us 1 deadline 60us via a b\nstream 9 6 200 1ms any 1 deadline 900us via a b\n"
        planned = taprio.plan(network, port=support.PLAN)
        self.assertEqual([it.device for it in planned], ["a", "b"])
        self.assertTrue(taprio.paths(network, {it.device: it for it in planned}, port=support.PLAN).met)

    @support.wants_plan
    def test_none(self):
        with self.assertRaises(taprio.NoPlan) as raised:
            taprio.plan([dataclasses.replace(CONTROL, deadline=1)], port=support.PLAN)
        self.assertEqual(raised.exception.reason, "none deadline 1")
        with self.assertRaises(TypeError):
            taprio.plan(None, port=support.PLAN)


class Streams(unittest.TestCase):
    def test_tables(self):
        self.assertEqual(CONTROL.line(), "stream 1 6 64 250000ns 1000000ns 4")
        self.assertEqual(
            taprio.table([taprio.Stream(0, 7, 60, 5, tagged=True), LOAD]),
            "stream 0 7 60 5ns 0ns 1 tagged\nstream 1000 0 1514 20000ns 992000ns 51\n",
        )
        self.assertEqual(CONTROL.ids, range(1, 5))
        self.assertEqual(taprio.Stream(1, 6, 64, 5, deadline=7).line(), "stream 1 6 64 5ns 0ns 1 deadline 7ns")
        self.assertEqual(taprio.Stream(1, 6, 64, 5, tagged=True, deadline=0).line(), "stream 1 6 64 5ns 0ns 1 tagged deadline 0ns")
        self.assertEqual(taprio.Stream(1, 6, 64, 5, None).line(), "stream 1 6 64 5ns any 1")
        late = taprio.Stream(1, 6, 64, 5, tagged=True, deadline=7, shortest=60, jitter=4)
        self.assertEqual(late.line(), "stream 1 6 64 5ns 0ns 1 tagged shortest 60 jitter 4ns deadline 7ns")
        self.assertEqual(taprio.Stream(1, 6, 64, 5, shortest=0, jitter=0).line(), "stream 1 6 64 5ns 0ns 1 shortest 0 jitter 0ns")

    def test_faults(self):
        for values, option in (
            ({"first_id": -1}, "first_id"),
            ({"priority": 256}, "priority"),
            ({"length": 2**32}, "length"),
            ({"period": 0.5}, "period"),
            ({"offset": 2**63}, "offset"),
            ({"count": True}, "count"),
            ({"deadline": 0.5}, "deadline"),
            ({"deadline": -1}, "deadline"),
            ({"offset": "any"}, "offset"),
            ({"shortest": 0.5}, "shortest"),
            ({"shortest": 61}, "shortest"),
            ({"jitter": "5us"}, "jitter"),
            ({"jitter": 2**63}, "jitter"),
            ({"offset": 1, "jitter": 2**63 - 1, "count": 0}, "jitter"),
            ({"offset": None, "jitter": 2**63 - 1, "count": 2}, "count"),
            ({"first_id": 2**64 - 1, "count": 2}, "count"),
            ({"period": 2**62, "count": 3}, "count"),
        ):
            with self.subTest(values), self.assertRaises(taprio.BadValue) as raised:
                taprio.Stream(**{"first_id": 1, "priority": 0, "length": 60, "period": 1000} | values)
            self.assertEqual(raised.exception.option, option)

    @support.wants_port
    def test_each_table_is_read(self):
        """The greatest values of a stream are ones for the table too."""
        for stream in (
            taprio.Stream(2**64 - 1, 255, 2**32 - 1, 2**63 - 1, 2**63 - 1),
            taprio.Stream(0, 0, 0, 0, 0, 0),
            taprio.Stream(0, 0, 0, 2**62, 0, 2, True),
            taprio.Stream(0, 0, 0, 0, 0, 0, True, 2**63 - 1),
        ):
            taprio.backend().streams(taprio.table([stream]))

    @support.wants_program
    def test_each_late_table_is_read(self):
        """So are those with a jitter, a shortest frame and the offset None."""
        for stream in (
            taprio.Stream(0, 0, 2**32 - 1, 0, None, 1, True, 2**63 - 1, 2**32 - 1, 2**63 - 1),
            taprio.Stream(0, 0, 0, 1, 2**62, 0, shortest=0, jitter=2**62 - 1),
        ):
            taprio.backend(support.PROGRAM).streams(taprio.table([stream]))

    @support.wants_port
    def test_a_run(self):
        """The run of the README: its summary, and the waits of each stream."""
        found = taprio.run_streams(LOOP, [CONTROL, LOAD], until_ns=3_000_000)
        self.assertEqual(found.summary[0], results.ClassSummary(0, 51, 51, 0, 77214, 0, 17721411, 58000000, 3))
        self.assertEqual([it.wait for it in found.of(CONTROL.ids)], [0] * 4)
        self.assertEqual(max(it.wait for it in found.of(LOAD.ids)), 58000000)
        self.assertEqual(len(found.of([1, 1000])), 2)
        self.assertEqual(taprio.run_streams(LOOP.tc(), taprio.table([CONTROL, LOAD]), until_ns=3_000_000).answers, found.answers)
        self.assertEqual(len(taprio.run_streams(None, [CONTROL], until_ns=3_000_000).frames), 4)
        with self.assertRaises(taprio.BadValue):
            taprio.run_streams(LOOP, [CONTROL], until_ns=2**64)
        with self.assertRaises(TypeError):
            taprio.run_streams(LOOP, [CONTROL], until_ns=1e6)

    @support.wants_library
    @support.wants_program
    def test_a_run_over_both(self):
        one, other = (
            taprio.run_streams(LOOP, [CONTROL, LOAD], until_ns=3_000_000, port=port) for port in ("library", support.PROGRAM)
        )
        self.assertEqual(one, other)


class Plots(unittest.TestCase):
    def test_without_matplotlib(self):
        with mock.patch.dict(sys.modules, {"matplotlib": None, "matplotlib.pyplot": None}), self.assertRaisesRegex(
            ImportError, "needs matplotlib"
        ):
            taprio.plot(taprio.read_run(octets("summary.answers")))

    @unittest.skipUnless(importlib.util.find_spec("matplotlib"), "matplotlib isn't installed")
    def test_with_matplotlib(self):
        # (what others warn of is theirs)
        with warnings.catch_warnings():
            warnings.simplefilter("ignore")
            import matplotlib

            matplotlib.use("Agg")
            axes = taprio.plot(taprio.read_run(octets("summary.answers"), octets("summary.script")))
            self.assertEqual([it.get_text() for it in axes.get_yticklabels()], ["class 0", "class 5"])
            self.assertEqual(sum(len(it.get_paths()) for it in axes.collections), 4 + 3)
            self.assertIs(taprio.plot(taprio.read_run(b""), axes), axes)


if __name__ == "__main__":
    unittest.main()
