"""Exceptions and replays cross processes: they survive pickle and copies, with all that they say."""

import copy
import multiprocessing
import pickle
import unittest

import support
import taprio

FAULTS = [
    taprio.BadValue("bad value of --mtu", "--mtu"),
    taprio.BadInput("script line 3: UnknownLine", "script", 3, None, "UnknownLine", b"queued 1 class 0\n"),
    taprio.BadInput("network line 2: SecondLink (line 1)", "network", 2, None, "SecondLink", b""),
    taprio.BadInput("capture record 0: ShortRecord", "capture", None, 0, "ShortRecord", taprio.Replay(b"a", b"b")),
    taprio.BadSchedule("line 3", "an interval in nanoseconds", "300us"),
    taprio.BadCapture("a.pcap is compressed with gzip: gunzip it first"),
    taprio.BadCapture("a.pcapng: capture block 2 at octet 48: BadLink 113", 2, 48, "BadLink 113", b"header"),
    taprio.LibraryMissing("the library can't be loaded"),
    taprio.TaprioError("write failed"),
]
WAYS = [copy.copy, copy.deepcopy] + [
    lambda it, protocol=protocol: pickle.loads(pickle.dumps(it, protocol)) for protocol in range(pickle.HIGHEST_PROTOCOL + 1)
]


class Special(taprio.BadInput):
    """A fault of somebody else's, with something of its own."""


def answered(script):
    """A script's answers, of whatever there is; a function that a pool can call."""
    return taprio.backend().run(script)


def raised(number):
    raise FAULTS[number]


class Copies(unittest.TestCase):
    def same(self, one, other):
        self.assertIs(type(one), type(other))
        self.assertEqual((str(one), one.args, vars(one)), (str(other), other.args, vars(other)))

    def test_faults(self):
        for fault in FAULTS:
            for way in WAYS:
                with self.subTest(fault=fault, way=way):
                    self.same(way(fault), fault)

    def test_what_others_add(self):
        fault = Special("script line 3: UnknownLine", "script", 3, None, "UnknownLine", b"")
        fault.file = "mine.script"
        fault.add_note("in a sweep")
        for way in WAYS:
            self.same(way(fault), fault)
            self.assertEqual(way(fault).__notes__, ["in a sweep"])

    def test_replays(self):
        replay = taprio.Replay(b"report", b"departures")
        for way in WAYS:
            found = way(replay)
            self.assertIs(type(found), taprio.Replay)
            self.assertEqual((found.report, found.departures), (b"report", b"departures"))
        report, departures = replay
        self.assertEqual((report, departures), replay)
        self.assertEqual(replay, (b"report", b"departures"))

    def test_the_texts_of_the_program(self):
        for text, wanted in [
            ("taprio_port: capture header: BadMagic\n", ("capture", None, None, "BadMagic")),
            ("taprio_port: table line 7: BadNumber", ("table", 7, None, "BadNumber")),
        ]:
            fault = taprio.faults.of_text(3, text, b"")
            self.assertEqual((fault.input, fault.line, fault.record, fault.name), wanted)
        self.assertEqual(taprio.faults.of_text(2, "taprio_port: bad value of --mtu", b"").option, "--mtu")
        self.assertIs(type(taprio.faults.of_text(2, "error: unexpected argument", b"")), taprio.TaprioError)


class Pools(unittest.TestCase):
    """A fault in a pool of processes comes out of it, and doesn't hang it."""

    def pool(self):
        return multiprocessing.get_context("spawn").Pool(2)

    def test_each_fault(self):
        with self.pool() as pool:
            for number, fault in enumerate(FAULTS):
                with self.assertRaises(type(fault)) as got:
                    pool.apply_async(raised, [number]).get(60)
                self.assertEqual(str(got.exception), str(fault))

    @support.wants_port
    def test_a_bad_script_among_good_ones(self):
        with self.pool() as pool:
            good = pool.map_async(answered, ["frame 1 0 60\n"] * 4).get(60)
            self.assertEqual(good, [b"queued 1 class 0\nleft class 0 frames 1\n"] * 4)
            with self.assertRaises(taprio.BadInput) as got:
                pool.map_async(answered, ["frame 1 0 60\n", "frame 1\n", "query\n"]).get(60)
            self.assertEqual((got.exception.line, got.exception.name, got.exception.output), (1, "WordCount", b""))


if __name__ == "__main__":
    unittest.main()
