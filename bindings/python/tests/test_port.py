"""A port that is driven call by call: what its calls answer, and that they answer what a script does."""

import copy
import pickle
import random
import threading
import unittest

import random_schedules
import support
import taprio
from taprio.port import Arrival, ClassCounters, Port, Start

HAS_PORTS = support.HAS_LIBRARY and taprio.library.has("taprio_port_new")
TWO = taprio.Schedule([(0x02, 100_000), (0x01, 100_000)], map=[0, 1])


@unittest.skipUnless(HAS_PORTS, "bindings/c/out/libtaprio.so isn't there, or has no ports: bindings/c/build makes it")
class PortTest(unittest.TestCase):
    def test_the_run_of_the_example(self):
        with Port() as port:
            self.assertEqual(port.install(TWO), 200_000_000)
            self.assertTrue(port.pending)
            self.assertEqual(port.run(1_000_000_000), [])
            self.assertEqual((port.now, port.gates, port.pending), (1_000_000_000, 2, False))
            self.assertEqual(port.arrive(1, 0, 1514), Arrival(1, 0, None))
            self.assertEqual(port.arrive(2, 1, 1514), Arrival(2, 1, None))
            first = Start(2, 1, 1_000_000_000, 1_012_304_000)
            self.assertEqual(port.run(1_200_000_000), [first, Start(1, 0, 1_100_000_000, 1_112_304_000)])
            self.assertEqual(port.counters(1), ClassCounters(1, 1, 1514, 0, 0, 0, 0, 0))

    def test_frames_that_are_dropped(self):
        with Port(room=1) as port:
            self.assertEqual(port.arrive(2**64 - 1, 3, 60), Arrival(2**64 - 1, 3, None))
            for why, frame in (
                ("Full", (1, 3, 60)),
                ("Runt", (2, 3, 13)),
                ("Runt", (3, 3, 17, True)),
                ("TooLong", (4, 3, 2**32 - 1)),
                ("NoClass", (5, 16, 60)),
                ("NoClass", (6, 255, 60)),
            ):
                self.assertEqual(port.arrive(*frame), Arrival(frame[0], None, why))
            self.assertEqual(port.no_class, 2)

    def test_commands_that_are_refused(self):
        with Port() as port:
            for schedule, wanted in (
                (taprio.Schedule([(1, 1000)]), ("MapMissing", None, None, None)),
                (taprio.Schedule([(1, 1000)], map=[0], max_sdu=[0, 1501]), ("SduTooLarge", 1, None, None)),
                (taprio.Schedule([(1, 1000), (1, 479)], map=[0]), ("IntervalTooShort", None, 1, None)),
                (taprio.Schedule([(1, 1000)], map=[0], cycle=2**40 + 1), ("CycleTooLong", None, None, None)),
            ):
                with self.assertRaises(taprio.Refused) as raised:
                    port.install(schedule)
                fault = raised.exception
                self.assertEqual((fault.name, fault.traffic_class, fault.entry, fault.moment), wanted)
            port.install(TWO)
            with self.assertRaises(taprio.Refused) as raised:
                port.delete()
            self.assertEqual((raised.exception.name, raised.exception.moment), ("Busy", 12_336_000))
            for other in (pickle.loads(pickle.dumps(raised.exception)), copy.deepcopy(raised.exception)):
                self.assertEqual((str(other), other.moment), ("refused Busy 12336000", 12_336_000))
            self.assertIsNone(port.step(12_336_000))
            self.assertEqual(port.delete(), 24_672_000)

    def test_values(self):
        for option, values in (("--rate", {"rate": 1001}), ("--mtu", {"mtu": 67}), ("--room", {"room": 4097}), ("rate", {"rate": 2**32})):
            with self.assertRaises(taprio.BadValue) as raised:
                Port(**values)
            self.assertEqual(raised.exception.option, option)
        with Port() as port:
            for option, call in (
                ("id", lambda: port.arrive(-1, 0, 60)),
                ("id", lambda: port.arrive(2**64, 0, 60)),
                ("priority", lambda: port.arrive(1, 256, 60)),
                ("until", lambda: port.step(-1)),
                ("until", lambda: port.step(9_223_372_036_854_775_807_001)),
                ("until", lambda: port.step(2**128)),
                ("traffic_class", lambda: port.counters(8)),
            ):
                with self.assertRaises(taprio.BadValue) as raised:
                    call()
                self.assertEqual(raised.exception.option, option)
            with self.assertRaises(TypeError):
                port.step(0.5)
            self.assertIsNone(port.step(9_223_372_036_854_775_807_000))
            self.assertEqual(port.now, 9_223_372_036_854_775_807_000)
            with self.assertRaises(taprio.BadValue):
                port.step(5)

    def test_a_closed_port(self):
        port = Port()
        port.close()
        port.close()
        for call in (lambda: port.arrive(1, 0, 60), lambda: port.now, lambda: port.delete(), lambda: port.run(5)):
            with self.assertRaises(ValueError):
                call()

    def test_many_ports_and_threads(self):
        ports = [Port(room=4096) for _ in range(50)]

        def drive(at):
            for number in range(50):
                ports[at % 50].arrive(number, number % 8, 60)

        threads = [threading.Thread(target=drive, args=(at,)) for at in range(100)]
        for thread in threads:
            thread.start()
        for thread in threads:
            thread.join()
        for port in ports:
            self.assertEqual(len(port.run(10**12)), 100)

    def test_as_a_script(self):
        """Random schedules and frames: the calls answer what the script answers."""
        rng = random.Random(3)
        for _ in range(30):
            schedule = random_schedules.schedule(rng)
            lines, answers, now = [], [], 0
            with Port(room=4) as port:
                lines.append(schedule.tc())
                try:
                    answers.append(f"installed change {port.install(schedule)}")
                except taprio.Refused as fault:
                    answers.append(str(fault))
                for number in range(40):
                    now += rng.randrange(30_000_000)
                    lines.append(f"clock {now}")
                    answers += [f"start {it.id} class {it.traffic_class} at {it.at} end {it.end}" for it in port.run(now)]
                    priority, length = rng.randrange(16), rng.randrange(14, 1515)
                    lines.append(f"frame {number} {priority} {length}")
                    came = port.arrive(number, priority, length)
                    answers.append(
                        f"queued {number} class {came.traffic_class}" if came.dropped is None else f"dropped {number} {came.dropped}"
                    )
            told = taprio.run("\n".join(lines) + "\n", room=4).decode().splitlines()
            self.assertEqual([line for line in told if not line.startswith("left ")], answers)


if __name__ == "__main__":
    unittest.main()
