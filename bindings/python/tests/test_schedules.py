"""Schedules: the four forms, their faults, what is left out, and round trips."""

import copy
import json
import random
import unittest
import warnings

import random_schedules
import support
import taprio
from taprio.schedules import (
    FORMS,
    RECOMMENDED,
    Configured,
    Schedule,
    form_of,
    read,
    read_qcw,
    read_show,
    read_show_json,
    read_tc,
    write,
    write_qcw,
    write_show,
    write_show_json,
)
from taprio.schedules.model import logical_lines

LOOP = Schedule([(0x02, 50_000), (0x01, 200_000)], map=[0, 0, 0, 0, 0, 0, 1, 0])
SHOWN = """\
qdisc taprio 100: root refcnt 9 tc 3 map 2 2 1 0 2 2 2 2 2 2 2 2 2 2 2 2
queues offset 0 count 1 offset 1 count 1 offset 2 count 2
clockid TAI base-time 1528743495910289987 cycle-time 900000 cycle-time-extension 0
        index 0 cmd S gatemask 0x1 interval 300000
        index 1 cmd S gatemask 0x2 interval 300000
        index 2 cmd S gatemask 0x4 interval 300000
"""


def plain(found):
    """What was read, without where."""
    return [(it.schedule, it.device, it.side) for it in found]


class Cases(unittest.TestCase):
    def fault(self, call, *given, place=None, expected=None, found=None):
        """The exception of a call, whose place, and what was expected and found, have these texts in them."""
        with warnings.catch_warnings():
            warnings.simplefilter("ignore", taprio.LeftOut)
            with self.assertRaises(taprio.BadSchedule) as raised:
                call(*given)
        fault = raised.exception
        for text, there in ((place, fault.place), (expected, fault.expected), (found, fault.found)):
            if text is not None:
                self.assertIn(text, there)
        self.assertNotIn("\n", str(fault))
        return fault

    def quiet(self, call, *given):
        """What a call gives; it may not warn."""
        with warnings.catch_warnings():
            warnings.simplefilter("error")
            return call(*given)

    def warned(self, call, *given):
        """What a call gives, and the texts of its warnings."""
        with warnings.catch_warnings(record=True) as said:
            warnings.simplefilter("always")
            found = call(*given)
        self.assertTrue(all(it.category is taprio.LeftOut for it in said))
        return found, [str(it.message) for it in said]


class Schedules(Cases):
    def test_values(self):
        self.assertEqual(LOOP.classes, 2)
        self.assertEqual(LOOP.map, (0, 0, 0, 0, 0, 0, 1, 0) + (0,) * 8)
        self.assertEqual((LOOP.cycle, LOOP.cycle_time, LOOP.with_cycle().cycle), (0, 250_000, 250_000))
        self.assertEqual(LOOP.entries[0].gates, 2)
        self.assertEqual(Schedule([(1, 5)], clock="clock_tai").clock, "TAI")
        self.assertEqual(Schedule([(1, 5)], max_sdu=[100, 0, 0]).max_sdu, (100,))
        self.assertEqual(Schedule([(1, 5)], max_sdu=[0, 0]).max_sdu, (0,))
        self.assertEqual(len({LOOP, copy.deepcopy(LOOP), Schedule(list(LOOP.entries), map=LOOP.map)}), 1)

    def test_faults(self):
        for values, place in (
            ({"entries": []}, "entries"),
            ({"entries": [(1, 5)] * 257}, "entries"),
            ({"entries": [(1, 5), (256, 5)]}, "gates of entry 1"),
            ({"entries": [(1, 0)]}, "interval of entry 0"),
            ({"entries": [(1, 2**32)]}, "interval of entry 0"),
            ({"entries": [(1, 5.0)]}, "interval of entry 0"),
            ({"entries": [(1, True)]}, "interval of entry 0"),
            ({"base_time": -1}, "base_time"),
            ({"cycle": 2**64}, "cycle"),
            ({"extension": None}, "extension"),
            ({"map": []}, "map"),
            ({"map": [0] * 17}, "map"),
            ({"map": [8]}, "map of priority 0"),
            ({"map": [0, 2], "classes": 2}, "map of priority 1"),
            ({"map": [0], "classes": 9}, "classes"),
            ({"classes": 2}, "classes"),
            ({"queues": [(1, 0)]}, "queues"),
            ({"map": [0, 1], "queues": [(1, 0)]}, "queues"),
            ({"map": [0, 1], "queues": [(1, 0), (0, 1)]}, "queues of class 1"),
            ({"map": [0, 1], "queues": [(2, 0), (1, 1)]}, "queues of class 1"),
            ({"max_sdu": []}, "max_sdu"),
            ({"max_sdu": [2**32]}, "max_sdu of class 0"),
            ({"clock": "UTC"}, "clock"),
            ({"flags": 1}, "flags"),
        ):
            with self.subTest(values):
                given = {"entries": [(1, 5)]} | values
                self.fault(lambda given=given: Schedule(**given), place=place)

    @support.wants_program
    def test_what_a_schedule_can_say_is_a_command(self):
        """The lines of random schedules are commands for the program, also those with limits."""
        dice = random.Random(1)
        lines = []
        for _ in range(200):
            one = random_schedules.schedule(dice)
            given = {
                "max_sdu": dice.choice([None, [0], [1500, 0, 100]]),
                "clock": dice.choice([None, "TAI"]),
                "flags": dice.choice([0, 2]),
            }
            lines.append(
                Schedule(one.entries, one.base_time, one.cycle, one.extension, one.map, one.classes, one.queues, **given).tc(
                    "sw0 p1"
                )
            )
        answers = taprio.Program(support.PROGRAM).check("\n".join(lines)).decode().splitlines()
        self.assertEqual(len(answers), 200)
        self.assertFalse([it for it in answers if not it.startswith(("apart", "refused"))])


class Lines(Cases):
    def test_lines(self):
        text = """\
# the manual's
tc qdisc replace dev eth0 parent root handle 100 taprio \\
    num_tc 3 map 2 2 1 0 2 2 2 2 2 2 2 2 2 2 2 2 queues 1@0 1@1 2@2 base-time 1528743495910289987\t\\\r
    sched-entry S 01 300000 sched-entry S 0x2 300000 sched-entry S 04 300000 clockid CLOCK_TAI\r

tc qdisc add dev eth1 root taprio sched-entry S ff 0001000 flags 0x2 max-sdu 5 0"""
        one, other = self.quiet(read_tc, text)
        self.assertEqual((one.device, one.side, one.place), ("eth0", "admin", "line 2"))
        self.assertEqual((other.device, other.place), ("eth1", "line 6"))
        self.assertEqual(one.schedule.queues, ((1, 0), (1, 1), (2, 2)))
        self.assertEqual(one.schedule.clock, "TAI")
        self.assertEqual(other.schedule, Schedule([(255, 1000)], flags=2, max_sdu=[5]))
        self.assertEqual(plain(read_tc(write([one, other]))), plain([one, other]))

    def test_faults(self):
        front = "tc qdisc replace dev eth0 root taprio "
        for line, place, expected, name in (
            ("frame 1 0 60", "line 2", "a line that begins with tc", "UnknownLine"),
            ("tc qdisc replace dev eth0 root mqprio", "line 2, word 6", "taprio", "NotTaprio"),
            (front + "base-time 5us", "line 2, word 8", "a decimal number from 0", "BadNumber 8"),
            (front + "base-time", "line 2", "a word behind base-time", "MissingWord base-time"),
            (front + "sched-entry SH 01 5", "line 2, word 8", "preemption", "Unsupported sched-entry"),
            (front + "fp E P", "line 2, word 7", "fp says which classes are preemptible", "Unsupported fp"),
            (front + "txtime-delay 5", "line 2, word 7", "txtime-delay is for launch times", "Unsupported txtime-delay"),
            (front + "flags 0x1", "line 2, word 8", "1 asks for launch times", "Unsupported flags"),
            (front + "num_tc 1 map 0", "line 2", "a sched-entry", "NoEntries"),
        ):
            with self.subTest(line):
                fault = self.fault(read_tc, "# comment\n" + line, place=place, expected=expected)
                self.assertEqual(fault.name, name)
                self.assertTrue(str(fault).endswith(f"({name})"))

    def test_pasted_lines(self):
        """What stands there of a shell is a fault that says how to go on."""
        plain_line = "tc qdisc replace dev eth0 root taprio num_tc 1 map 0 sched-entry S 01 300000"
        before = "; leave out what stands before tc, such as a prompt, sudo or a path"
        for front in ("sudo ", "$ ", "root@box:~# ", "501 ", "/sbin/", "sudo -E /sbin/"):
            with self.subTest(front):
                found = repr((front + plain_line).split()[0]) + before
                self.assertEqual(self.fault(read, front + plain_line).found, found)
                self.assertEqual(self.fault(read_tc, front + plain_line, expected="a line that begins with tc").found, found)
        self.assertIn("leave out the prompt", self.fault(read, "# " + plain_line).found)
        self.assertEqual(self.fault(read, "# a comment about tc").found, "nothing")
        for line, said in (
            (plain_line + ";", "'300000;'; leave out the semicolon"),
            (plain_line.replace("300000", "'300000'"), "\"'300000'\"; leave out the quotation marks"),
            (plain_line.replace("num_tc", "\\ \n num_tc"), "'\\\\'; nothing may stand behind the backslash that joins the next line"),
            (plain_line.replace("num_tc", "\\\n> num_tc"), "'>'; leave out the prompt of the shell"),
        ):
            with self.subTest(line):
                self.assertEqual(self.fault(read, line).found, said)

    @support.wants_program
    def test_random_ends_of_lines(self):
        """Backslashes, carriage returns, comments and empty lines: the program sees the same lines, with the same numbers."""
        dice = random.Random(3)
        pieces = ["tc x", "#", " ", "\t", "\r", "\\", "\n", "\\\n", "\\\r\n", "\r\n", "\v", "tc", "\\ \n", "\\\\\n"]
        for _ in range(150):
            text = "".join(dice.choice(pieces) for _ in range(dice.randint(1, 25)))
            lines = [(number, words) for number, words in logical_lines(text) if not words[0].startswith("#")]
            wrong = next((number for number, words in lines if words[0] != "tc"), None)
            wanted = [words for number, words in lines if wrong is None or number < wrong]
            try:
                answers, line = taprio.Program(support.PROGRAM).check(text), None
            except taprio.BadInput as fault:
                answers, line = fault.output, fault.line
            with self.subTest(text):
                self.assertEqual((answers.count(b"\n"), line), (len(wanted), wrong))

    def test_deletions(self):
        found, said = self.warned(read_tc, "tc qdisc del dev eth0 root\n" + LOOP.tc())
        self.assertEqual(len(found), 1)
        self.assertEqual(said, ["line 1: a deletion has no schedule, and is left out"])

    @support.wants_program
    def test_random_lines(self):
        """The first fault of each line is the program's, by its name and place; what is a command there has a schedule here."""
        dice = random.Random(0)
        lines = []
        while len(lines) < 3000:
            words = random_schedules.line(dice)
            lines += [" ".join(words)] if words[0] == "tc" else []
        answers = taprio.Program(support.PROGRAM).check("\n".join(lines)).decode().splitlines()
        self.assertEqual(len(answers), len(lines))
        commands = 0
        for line, answer in zip(lines, answers):
            with warnings.catch_warnings():
                warnings.simplefilter("ignore", taprio.LeftOut)
                try:
                    read_tc(line)
                    commands += 1
                    self.assertFalse(answer.startswith("tc-fault"), (line, answer))
                except taprio.BadSchedule as fault:
                    self.assertEqual(answer, f"tc-fault {fault.name}", line)
        self.assertGreater(commands, 300)


class Shown(Cases):
    """What tc shows; test_tc.py has what the real one prints."""

    def test_the_text_of_a_page(self):
        found = self.quiet(read, SHOWN)
        wanted = Schedule(
            [(1, 300_000), (2, 300_000), (4, 300_000)],
            1528743495910289987,
            900_000,
            0,
            [2, 2, 1, 0] + [2] * 12,
            3,
            [(1, 0), (1, 1), (2, 2)],
            clock="TAI",
        )
        self.assertEqual(plain(found), [(wanted, None, "oper")])

    def test_later_versions(self):
        text = (
            SHOWN.replace("qdisc taprio 100: root", "qdisc taprio 100: dev eth0 root offloaded") + "max-sdu 0 100 0 \nfp E E P\n"
        )
        found, said = self.warned(read, text)
        self.assertEqual((found[0].device, found[0].schedule.max_sdu), ("eth0", (0, 100)))
        self.assertEqual(said, ["line 8: fp E E P (frame preemption) is left out"])

    def test_faults_of_the_text(self):
        for old, new, place, expected in (
            ("gatemask 0x2", "gatemask 0x102", "line 5", "at most 0xff"),
            ("index 1 cmd S", "index 1 cmd SH", "line 5", "preemption"),
            ("index 1", "index 2", "line 5", "the index 1"),
            ("interval 300000\n        index 1", "interval\n        index 1", "line 5", "an interval, a whole number"),
            ("interval 300000\n        index 1", "interval 0\n        index 1", "line 3: interval of entry 0", "from 1"),
            ("base-time 1528743495910289987", "base-time -5", "line 3", "a base time"),
            ("cycle-time 900000", "cycle 900000", "line 3", "cycle-time"),
            ("tc 3", "tc 9", "line 1", "number of classes"),
            ("tc 3", "tc 2", "line 3: map of priority 0", "from 0 to 1"),
            ("queues", "queue", "line 2", "queues"),
            ("clockid TAI", "clockid TAI frobnicate 5", "line 3", "an option of taprio"),
            ("qdisc taprio", "qdisc mqprio", "line 1", "the kind taprio"),
            ("qdisc taprio", "qdisk taprio", "line 1", "begins with qdisc"),
        ):
            with self.subTest(new):
                self.assertIn(old, SHOWN)
                self.fault(read_show, SHOWN.replace(old, new, 1), place=place, expected=expected)
        self.fault(read_show, "", found="nothing")

    def test_a_text_that_is_cut_off(self):
        """Each front of it is read, or its fault is said; nothing else is raised."""
        for length in range(len(SHOWN)):
            with warnings.catch_warnings():
                warnings.simplefilter("ignore", taprio.LeftOut)
                try:
                    read_show(SHOWN[:length])
                except taprio.BadSchedule:
                    pass

    def test_faults_of_the_json(self):
        def document():
            return json.loads(write([LOOP], "json"))

        for change, place, expected in (
            (
                lambda it: it[0]["options"]["schedule"][1].update(interval=1.5),
                "[0]/options/schedule[1]/interval",
                "a whole number",
            ),
            (lambda it: it[0]["options"]["schedule"][1].update(cmd="SR"), "[0]/options/schedule[1]/cmd", "preemption"),
            (
                lambda it: it[0]["options"]["schedule"][1].update(gatemask="0x1ff"),
                "[0]/options/schedule[1]/gatemask",
                "at most 0xff",
            ),
            (lambda it: it[0]["options"]["schedule"][1].update(gatemask="abcx"), "[0]/options/schedule[1]/gatemask", "a mask"),
            (lambda it: it[0]["options"]["schedule"][1].pop("gatemask"), "[0]/options/schedule[1]/gatemask", "a value"),
            (lambda it: it[0]["options"]["schedule"].pop(0), "[0]/options/schedule[0]/index", "the index 0"),
            (lambda it: it[0]["options"].update(base_time=-1), "[0]/options/base_time", "from 0"),
            (lambda it: it[0]["options"].update(map=5), "[0]/options/map", "a list"),
            (lambda it: it[0].update(options=[]), "[0]/options", "an object"),
            (lambda it: it[0].pop("options"), "[0]/options", "a value"),
            (lambda it: it[0].update(kind="mq"), "/", "the kind taprio"),
            (lambda it: it.clear(), "/", "the kind taprio"),
        ):
            changed = document()
            change(changed)
            with self.subTest(changed):
                self.fault(read_show_json, json.dumps(changed), place=place, expected=expected)
        for text, place in (
            ("[{", "line 1, column 3"),
            ('[{"a": 1,\n "a": 2}]', "JSON"),
            ("[" * 100_000, "JSON"),
            ("[" + "1" * 5000 + "]", "JSON"),
            ("{}", "/"),
        ):
            self.fault(read_show_json, text, place=place)


class Managed(Cases):
    def document(self, **members):
        """A document of a port, with members of its table changed, or taken out where they are None."""
        table = {
            "gate-enabled": True,
            "admin-control-list": {"gate-control-entry": [self.entry(0, 2, 50_000), self.entry(1, 1, 200_000)]},
            "admin-cycle-time": {"numerator": 1, "denominator": 4000},
            "admin-base-time": {"seconds": "5", "nanoseconds": 7},
        } | {name.replace("_", "-"): value for name, value in members.items()}
        table = {name: value for name, value in table.items() if value is not None}
        port = {"gate-parameter-table": table}
        return json.dumps({"ietf-interfaces:interfaces": {"interface": [{"name": "Gi1/0/1", "bridge-port": port}]}})

    @staticmethod
    def entry(index, gates, interval, operation="ieee802-dot1q-sched:set-gate-states"):
        return {"index": index, "operation-name": operation, "gate-states-value": gates, "time-interval-value": interval}

    def test_a_port(self):
        wanted = Schedule([(2, 50_000), (1, 200_000)], 5_000_000_007, 250_000, 0, RECOMMENDED)
        found, said = self.warned(read, self.document())
        self.assertEqual(plain(found), [(wanted, "Gi1/0/1", "admin")])
        self.assertEqual(len(said), 1)
        self.assertIn("there is no traffic-class-table beside it", said[0])
        self.assertIn('interface[name="Gi1/0/1"]', said[0])
        own = self.quiet(lambda: read_qcw(self.document(), map=[0, 0, 1]))
        self.assertEqual(own[0].schedule.map, (0, 0, 1) + (0,) * 13)

    def test_parts_of_a_document(self):
        """What RESTCONF gives of a port, of a table, and of what lies in it; with and without prefixes."""
        whole = json.loads(self.document())
        interface = whole["ietf-interfaces:interfaces"]["interface"][0]
        table = interface["bridge-port"]["gate-parameter-table"]
        for part, device in (
            ({"ietf-interfaces:interface": [interface]}, "Gi1/0/1"),
            ({"ieee802-dot1q-bridge:bridge-port": interface["bridge-port"]}, None),
            ({"ieee802-dot1q-sched-bridge:gate-parameter-table": table}, None),
            (table, None),
            ({f"ieee802-dot1q-sched-bridge:{name}": value for name, value in table.items()}, None),
        ):
            found, _ = self.warned(read_qcw, json.dumps(part))
            self.assertEqual(plain(found), [(self.warned(read, self.document())[0][0].schedule, device, "admin")])

    def test_both_sides(self):
        given = {
            "oper_control_list": {"gate-control-entry": [self.entry(9, 255, 1000)]},
            "oper_cycle_time": {"numerator": 1, "denominator": 10**6},
        }
        found, _ = self.warned(read, self.document(**given))
        self.assertEqual(
            [(it.side, it.schedule.entries, it.schedule.cycle) for it in found],
            [("oper", ((255, 1000),), 1000), ("admin", ((2, 50_000), (1, 200_000)), 250_000)],
        )

    def test_the_order_is_that_of_the_indices(self):
        entries = {"gate-control-entry": [self.entry(7, 1, 200_000, "set-gate-states"), self.entry(3, 2, 50_000)]}
        found, _ = self.warned(read, self.document(admin_control_list=entries))
        self.assertEqual(found[0].schedule.entries, ((2, 50_000), (1, 200_000)))

    def test_the_traffic_class_table(self):
        document = json.loads(self.document())
        port = document["ietf-interfaces:interfaces"]["interface"][0]["bridge-port"]
        rows = [
            {
                "priority": priority,
                "available-traffic-class": [
                    {"num-traffic-class": count, "traffic-class": min(priority, count - 1)} for count in (2, 3)
                ],
            }
            for priority in range(8)
        ]
        for name, table in (
            ("traffic-class", {"traffic-class-table": {"traffic-class-map": rows}}),
            ("traffic-class-table", {"traffic-class-map": rows}),
        ):
            port.pop("traffic-class", None)
            port[name] = table
            found, said = self.warned(read, json.dumps(document))
            self.assertEqual((found[0].schedule.classes, found[0].schedule.map), (3, (0, 1) + (2,) * 6 + (0,) * 8))
            self.assertEqual(len(said), 1)
            self.assertIn("for 2, 3 classes: those for 3 are taken", said[0])
        del rows[5]
        self.fault(read, json.dumps(document), place="traffic-class-map", found="none for 5")

    def test_what_is_left_out_is_said(self):
        for members, text in (
            ({"gate_enabled": False}, "gate-enabled: it is false"),
            ({"admin_gate_states": 3}, "admin-gate-states: 3 is left out"),
            ({"admin_cycle_time": None}, "there is no admin-cycle-time"),
            ({"frobnication": 5}, "frobnication: frobnication is left out"),
            ({"queue_max_sdu_table": [{"traffic-class": 1, "queue-max-sdu": 5, "colour": 1}]}, "colour is left out"),
        ):
            _, said = self.warned(lambda members=members: read_qcw(self.document(**members), map=[0]))
            self.assertEqual(len(said), 1, said)
            self.assertIn(text, said[0])
        state = {
            "admin_gate_states": 255,
            "config_pending": False,
            "oper_gate_states": 1,
            "tick_granularity": 10,
            "supported_list_max": 8,
        }
        self.quiet(lambda: read_qcw(self.document(**state), map=[0]))

    def test_faults(self):
        def entries(*found):
            return {"admin_control_list": {"gate-control-entry": list(found)}}

        at = '/ietf-interfaces:interfaces/interface[name="Gi1/0/1"]/bridge-port/gate-parameter-table/'
        row = at + "admin-control-list/gate-control-entry[index=1]/"
        one = self.entry(0, 1, 1000)
        for members, place, expected, found in (
            (entries(one, self.entry(1, 1, 1.5)), row + "time-interval-value", "a whole number", "1.5"),
            (entries(one, self.entry(1, 1, 0)), row + "time-interval-value", "from 1", "0"),
            (entries(one, self.entry(1, 1, "5us")), row + "time-interval-value", "a whole number", '"5us"'),
            (entries(one, self.entry(1, 256, 5)), row + "gate-states-value", "to 255", "256"),
            (entries(one, self.entry(1, True, 5)), row + "gate-states-value", "to 255", "true"),
            (
                entries(one, self.entry(1, 1, 5, "ieee802-dot1q-sched:set-and-hold-mac")),
                row + "operation-name",
                "set-gate-states",
                "set-and-hold-mac",
            ),
            (entries(one, self.entry(0, 1, 5)), "gate-control-entry[index=0]/index", "each index once", "0"),
            (entries(one, {"index": 1}), row + "operation-name", "a value", "none"),
            (entries(5), "gate-control-entry[0]", "an object", "5"),
            (entries(*[self.entry(number, 1, 5) for number in range(257)]), "gate-control-entry: entries", "1 to 256", "257"),
            (
                {"admin_cycle_time": {"numerator": 1, "denominator": 3}},
                at + "admin-cycle-time",
                "a whole number of nanoseconds",
                "1/3 of a second",
            ),
            (
                {"admin_cycle_time": {"numerator": 1, "denominator": 2 * 10**9}},
                at + "admin-cycle-time",
                "a whole number of nanoseconds",
                "of a second",
            ),
            ({"admin_cycle_time": {"numerator": 1, "denominator": 0}}, at + "admin-cycle-time/denominator", "from 1", "0"),
            (
                {"admin_base_time": {"seconds": "5", "nanoseconds": 10**9}},
                at + "admin-base-time/nanoseconds",
                "to 999999999",
                "1000000000",
            ),
            ({"admin_base_time": {"seconds": "-5"}}, at + "admin-base-time/seconds", "from 0", '"-5"'),
            ({"admin_cycle_time_extension": 0.5}, at + "admin-cycle-time-extension", "a whole number", "0.5"),
            (
                {"queue_max_sdu_table": [{"traffic-class": 8}]},
                at + "queue-max-sdu-table[traffic-class=8]/traffic-class",
                "to 7",
                "8",
            ),
            ({"gate_enabled": "yes"}, at + "gate-enabled", "true or false", '"yes"'),
            ({"admin_control_list": None}, "/", "an admin-control-list", "1 such tables"),
        ):
            with self.subTest(members):
                self.fault(read_qcw, self.document(**members), place=place, expected=expected, found=found)
        self.fault(read_qcw, "{}", found="none")
        self.fault(read_qcw, '{"gate-parameter-table": 5}')

    def test_what_can_not_be_written(self):
        self.fault(
            write_qcw, [Schedule([(1, 5)], cycle=2**40 - 1)], place="admin-cycle-time", found="43980465111/40000000 of a second"
        )
        self.fault(write_qcw, [Schedule([(1, 5)], extension=2**32)], place="admin-cycle-time-extension")
        self.fault(write_qcw, [LOOP, LOOP], expected="one admin schedule")
        _, said = self.warned(write_qcw, [Schedule([(1, 5)], map=[0] * 8 + [1], queues=[(1, 0), (1, 1)], clock="TAI", flags=2)])
        self.assertEqual(
            said,
            [
                "eth0: the classes of priorities 8 to 15 are left out",
                "eth0: queues is left out",
                "eth0: clockid is left out",
                "eth0: flags is left out",
            ],
        )


class RoundTrips(Cases):
    def test_each_form(self):
        """What a form can say comes back from it; each of the others says the same."""
        for seed in range(60):
            dice = random.Random(seed)
            found = []
            for device in range(dice.randint(1, 4)):
                schedule = random_schedules.schedule(dice)
                extension = schedule.extension
                sides = dice.choice([["oper"], ["admin"], ["oper", "admin"]])
                for side in sides:
                    entries = schedule.entries if side == "oper" else random_schedules.schedule(dice).entries
                    made = Schedule(
                        entries, schedule.base_time, schedule.cycle, extension, schedule.map, schedule.classes, schedule.queues
                    )
                    found.append(Configured(made, f"eth{device}", side))
            for form in FORMS:
                wanted = plain(found)
                if form == "tc":
                    wanted = [(schedule, device, "admin") for schedule, device, _ in wanted]
                if form == "qcw":
                    wanted = [
                        (Schedule(it.entries, it.base_time, it.cycle, it.extension, it.map, it.classes), device, side)
                        for it, device, side in wanted
                    ]
                text, _ = self.warned(write, found, form)
                with self.subTest(seed=seed, form=form):
                    self.assertEqual(form_of(text), form)
                    self.assertEqual(plain(self.quiet(read, text)), wanted)
                    self.assertEqual(plain(self.quiet(read, text.encode())), wanted)

    def test_limits(self):
        """Limits of classes come back from the forms that have them."""
        one = Schedule([(1, 1000)], 0, 1000, 0, [0, 1], 2, max_sdu=[0, 100])
        for form in ("tc", "qcw"):
            self.assertEqual(read(write([one], form))[0].schedule, one)
        for form in ("show", "json"):
            self.assertEqual(read(write([one], form))[0].schedule.max_sdu, one.max_sdu)

    def test_without_a_map(self):
        one = Schedule([(1, 1000)], 0, 1000)
        for form in ("tc", "show", "json"):
            self.assertEqual(read(write([one], form))[0].schedule, one)

    def test_changed_at_random(self):
        """Documents with octets changed are read, or their fault is said on one line; nothing else is raised."""
        dice = random.Random(5)
        for _ in range(600):
            form = dice.choice(FORMS)
            with warnings.catch_warnings():
                warnings.simplefilter("ignore", taprio.LeftOut)
                octets = bytearray(write([random_schedules.schedule(dice)], form).encode())
                for _ in range(dice.randint(1, 3)):
                    at = dice.randrange(len(octets))
                    octets[at : at + dice.randrange(3)] = bytes(
                        dice.choice(b'0159aexf{}[]",: -.\n\t\\\xff') for _ in range(dice.randrange(3))
                    )
                try:
                    read(bytes(octets))
                except taprio.BadSchedule as fault:
                    self.assertNotIn("\n", str(fault))

    def test_forms_by_their_content(self):
        self.assertEqual(form_of("# a comment\n\n  tc qdisc ..."), "tc")
        for text, found in (("", "nothing"), ("\n# only\n", "nothing"), ("<rpc-reply/>", "XML"), ("frame 1 0 60", "'frame'")):
            self.fault(form_of, text, found=found)
        self.fault(read, b"tc \xff", place="octet 3", found="0xff")


class Sequences(unittest.TestCase):
    def test_what_is_no_sequence(self):
        """A dict says something by its keys: it is refused with what is expected, and so is what has no order."""
        for values, expected in (
            ({"map": {6: 1}}, "map: expected a sequence of the class of each priority.* found dict"),
            ({"map": {0, 1}}, "map: .* found set"),
            ({"map": "01"}, "map: .* found str"),
            ({"map": 5}, "map: .* found int"),
            ({"map": [0], "max_sdu": {0: 128}}, "max_sdu: expected a sequence of the octets.* found dict"),
            ({"map": [0], "queues": {1: 0}}, "queues: expected a sequence of pairs.* found dict"),
        ):
            with self.subTest(values), self.assertRaisesRegex(TypeError, expected):
                Schedule([(1, 1000)], **values)
        for entries, expected in (({1: 1000}, "entries: expected .* found dict"), ([1], "entry 0: expected a pair of gates and interval, found 1")):
            with self.subTest(entries), self.assertRaisesRegex(TypeError, expected):
                Schedule(entries)
        self.assertEqual(Schedule(iter([(1, 1000)]), map=iter([0])), Schedule([(1, 1000)], map=(0,)))


class LeftOutOfShow(unittest.TestCase):
    def told(self, *schedules):
        found = []
        for written in (write_show, write_show_json):
            with warnings.catch_warnings(record=True) as said:
                warnings.simplefilter("always")
                written(schedules)
            found.append([str(it.message) for it in said])
        self.assertEqual(found[0], found[1])
        return found[0]

    def test_sizes(self):
        """`tc qdisc show` has one list of sizes, of the classes that there are: what it can't say is told."""
        entries = [(1, 1000)]
        self.assertEqual(self.told(Schedule(entries, map=[0, 1], max_sdu=[0, 128])), [])
        self.assertEqual(
            self.told(Schedule(entries, map=[0, 1], max_sdu=[0, 0, 128, 0, 64])),
            ["eth0: max-sdu of class 2, 4 is left out: tc shows those of 2 classes"],
        )
        self.assertEqual(self.told(Schedule(entries, max_sdu=[128])), ["eth0: max-sdu is left out: tc shows none where there is no map"])
        both = (Configured(Schedule(entries, map=[0], max_sdu=[128]), "eth0", "oper"), Configured(Schedule(entries, map=[0]), "eth0", "admin"))
        self.assertEqual(
            self.told(*both), ["eth0: max-sdu and flags of the admin schedule are left out: those of the other are shown"]
        )


if __name__ == "__main__":
    unittest.main()
