"""The command `python3 -m taprio`: words, forms, pipes, faults, and that nothing is half written."""

import io
import json
import os
import pathlib
import re
import subprocess
import sys
import tempfile
import unittest

import support
import taprio
from taprio.commands import main
from taprio.schedules import read, write

LINE = "tc qdisc replace dev eth0 root taprio num_tc 2 map 0 0 0 0 0 0 1 0 base-time 0 sched-entry S 02 50000 sched-entry S 01 200000\n"
# Runs the whole of a pipe with bash where a status in it counts.
FRONT = "set -eu; "


class Commands(unittest.TestCase):
    def setUp(self):
        self.folder = tempfile.TemporaryDirectory(prefix="taprio-command-")
        self.addCleanup(self.folder.cleanup)

    def ran(self, *words, input=b""):
        """Status, standard output and standard error of the command, in this process."""
        streams = [
            io.TextIOWrapper(io.BytesIO(input.encode() if isinstance(input, str) else input)),
            io.TextIOWrapper(io.BytesIO()),
            io.StringIO(),
        ]
        before = sys.stdin, sys.stdout, sys.stderr, os.getcwd()
        try:
            sys.stdin, sys.stdout, sys.stderr = streams
            os.chdir(self.folder.name)
            status = main([str(word) for word in words])
        finally:
            sys.stdin, sys.stdout, sys.stderr = before[:3]
            os.chdir(before[3])
        streams[1].flush()
        return status, streams[1].buffer.getvalue().decode(), streams[2].getvalue()

    def ran_apart(self, words, input, stdout):
        """Status and standard error of a process of its own."""
        given = os.environ | {"PYTHONPATH": str(support.HERE.parent)}
        run = subprocess.run(
            [sys.executable, "-m", "taprio", *words],
            input=input.encode(),
            stdout=stdout,
            stderr=subprocess.PIPE,
            env=given,
            timeout=60,
        )
        return run.returncode, run.stderr.decode()

    def put(self, name, text):
        pathlib.Path(self.folder.name, name).write_text(text)

    def test_each_form_by_its_content(self):
        for form in ("tc", "show", "json", "qcw"):
            text = write([it.schedule.with_cycle() for it in read(LINE)], form)
            wanted = LINE.replace(
                "base-time 0", ("queues 1@0 1@1 " if form in ("show", "json") else "") + "base-time 0 cycle-time 250000"
            )
            with self.subTest(form):
                self.assertEqual(self.ran("import", input=text), (0, wanted, ""))
                self.put("given", text)
                self.assertEqual(self.ran("import", "--from", form, "given"), (0, wanted, ""))
                self.assertEqual(self.ran("import", "-", input=text), (0, wanted, ""))
                status, exported, errors = self.ran("export", "--to", form, input=LINE)
                self.assertEqual((status, errors), (0, ""))
                self.assertEqual(read(exported)[0].schedule.entries, read(LINE)[0].schedule.entries)
                self.assertEqual(read(exported)[0].side, "oper" if form in ("show", "json") else "admin")

    def test_one_device_beside_a_fault(self):
        """What is wrong with another device is no reason to refuse the one that is asked for; without `--dev` it is."""
        good = [it.schedule.with_cycle() for it in read(LINE)]
        wrong = {"show": ("index 0", "index 5"), "json": ('"index":0', '"index":5'), "qcw": ("set-gate-states", "set-and-hold-mac")}
        for form in ("tc", "show", "json", "qcw"):
            faulty, sound = (write([taprio.schedules.Configured(*good, name)], form) for name in ("eth7", "eth0"))
            faulty = faulty.replace(*wrong.get(form, ("sched-entry S", "sched-entry X")), 1)
            if form == "json":
                text = json.dumps(json.loads(faulty) + json.loads(sound))
            elif form == "qcw":
                text = json.loads(faulty)
                for name, node in json.loads(sound).items():
                    text[name]["interface"] += node["interface"]
                text = json.dumps(text)
            else:
                text = faulty + sound
            with self.subTest(form):
                status, output, _ = self.ran("import", "--dev", "eth0", input=text)
                self.assertEqual((status, output.split()[:5]), (0, "tc qdisc replace dev eth0".split()))
                for words in ([], ["--dev", "eth7"]):
                    status, output, errors = self.ran("import", *words, input=text)
                    self.assertEqual((status, output), (3, ""), words)
                status, _, alone = self.ran("import", "--dev", "eth0", input=faulty)
                self.assertEqual((status, alone), (3, self.ran("import", input=faulty)[2]))

    def test_several_files(self):
        self.put("one", LINE)
        self.put("other", write(read(LINE.replace("eth0", "eth1")), "qcw"))
        wanted = LINE + LINE.replace("eth0", "eth1").replace("base-time 0", "base-time 0 cycle-time 250000")
        self.assertEqual(self.ran("import", "one", "other"), (0, wanted, ""))
        self.assertEqual(self.ran("import", "--dev", "eth1", "other")[0], 0)

    def test_devices(self):
        status, output, errors = self.ran("import", "--dev", "sw0p2", support.DATA / "large.json")
        self.assertEqual((status, output.count("\n"), errors), (0, 1, ""))
        self.assertTrue(output.startswith("tc qdisc replace dev sw0p2 root"))
        status, output, errors = self.ran("import", "--dev", "sw0p9", support.DATA / "large.json")
        self.assertEqual((status, output), (3, ""))
        self.assertIn("expected a schedule of sw0p9, found GigabitEthernet 1/1, sw0p2, sw0p3", errors)
        nameless = write(read(LINE), "show").replace("dev eth0 ", "")
        self.assertTrue(self.ran("import", input=nameless)[1].startswith("tc qdisc replace dev eth0 root"))
        self.assertTrue(self.ran("import", "--dev", "lan1", input=nameless)[1].startswith("tc qdisc replace dev lan1 root"))

    def test_sides(self):
        large = str(support.DATA / "large.json")

        def entries(*words):
            status, output, errors = self.ran("import", "--dev", "sw0p3", *words, large)
            self.assertEqual(status, 0, errors)
            return [re.findall(r"sched-entry S (\w+) (\d+)", line) for line in output.splitlines()], errors

        oper, admin = [("ff", "500000")], [("c0", "100000"), ("3f", "400000")]
        found, errors = entries()
        self.assertEqual(found, [oper])
        self.assertIn("the admin schedule is left out (--side admin, --side both)", errors)
        self.assertEqual(entries("--side", "oper")[0], [oper])
        self.assertEqual(entries("--side", "admin")[0], [admin])
        self.assertEqual(entries("--side", "both")[0], [oper, admin])
        status, output, errors = self.ran("import", "--side", "oper", input=write(read(LINE), "qcw"))
        self.assertEqual((status, output), (3, ""))
        self.assertIn("a schedule of the side oper", errors)

    def test_maps(self):
        document = json.loads((support.DATA / "small.json").read_text())
        del document["ietf-interfaces:interfaces"]["interface"][0]["ieee802-dot1q-bridge:bridge-port"]["traffic-class"]
        status, output, errors = self.ran("import", input=json.dumps(document))
        self.assertEqual(status, 0)
        self.assertIn("num_tc 8 map 1 0 2 3 4 5 6 7 ", output)
        self.assertIn("recommended classes", errors)
        status, output, errors = self.ran("import", "--map", "0 0 0 0 0 0 1", input=json.dumps(document))
        self.assertEqual((status, errors), (0, ""))
        self.assertIn("num_tc 2 map 0 0 0 0 0 0 1 0 ", output)

    def test_words(self):
        for words in (
            [],
            ["frobnicate"],
            ["import", "--from", "xml"],
            ["export"],
            ["export", "--to", "xml"],
            ["import", "--map", "9"],
            ["import", "--bogus"],
        ):
            with self.subTest(words):
                status, output, errors = self.ran(*words)
                self.assertEqual((status, output), (2, ""))
                self.assertRegex(errors, r"\Ataprio: .*--help\)\n\Z")
        for words, text in (
            (["--help"], "JOB"),
            (["import", "--help"], "forms:"),
            (["export", "--help"], "--to"),
            (["--version"], f"taprio {taprio.__version__}\n"),
        ):
            status, output, errors = self.ran(*words)
            self.assertEqual((status, errors), (0, ""))
            self.assertIn(text, output)

    def test_inputs(self):
        """A fault is one line of file, place, and what was expected; nothing is written, also not of the files before."""
        self.put("good", LINE)
        for text, place, expected in (
            (LINE + "frame 1 0 60\n", "line 2", "expected a line that begins with tc, found 'frame'"),
            ("", "line 1", "found nothing"),
            ("[]", "/", "expected a qdisc of the kind taprio"),
            ('{"a": [1, 2', "line 1, column 12", "expected JSON"),
            ("<x/>", "line 1", "which is XML"),
            (b"\xff", "octet 0", "expected a text in UTF-8, found 0xff"),
            (b"\x89PNG\r\n", "octet 0", "UTF-8"),
        ):
            pathlib.Path(self.folder.name, "bad").write_bytes(text if isinstance(text, bytes) else text.encode())
            with self.subTest(text):
                status, output, errors = self.ran("import", "good", "bad")
                self.assertEqual((status, output, errors.count("\n")), (3, "", 1))
                self.assertTrue(errors.startswith(f"taprio: bad: {place}: "), errors)
                self.assertIn(expected, errors)
        self.assertEqual(
            self.ran("import", "good", "nowhere"), (4, "", "taprio: cannot open nowhere: No such file or directory\n")
        )
        status, output, errors = self.ran("import", input="# nothing")
        self.assertTrue(errors.startswith("taprio: standard input: line 1: expected "), errors)
        # What can't be written in another form is told before anything is written.
        self.put("two", LINE + LINE)
        self.assertEqual(
            self.ran("export", "--to", "qcw", "two"),
            (3, "", "taprio: two: eth0: expected one admin schedule of a port, found two\n"),
        )

    @unittest.skipUnless(os.path.exists("/dev/full"), "there is no /dev/full")
    def test_writes_that_fail(self):
        with open("/dev/full", "wb") as full:
            self.assertEqual(self.ran_apart(["import"], LINE, full), (4, "taprio: write failed: No space left on device\n"))
        reader, writer = os.pipe()
        os.close(reader)
        with open(writer, "wb") as pipe:
            self.assertEqual(self.ran_apart(["import"], LINE, pipe), (4, ""))


@support.wants_program
class FromASwitch(unittest.TestCase):
    """A schedule that a switch gives as JSON goes in, is checked and drawn, in one pipe."""

    def pipe(self, command):
        given = os.environ | {
            "PYTHONPATH": str(support.HERE.parent),
            "PORT": support.PROGRAM,
            "PYTHON": sys.executable,
            "DATA": str(support.DATA),
        }
        with tempfile.TemporaryDirectory(prefix="taprio-pipe-") as folder:
            run = subprocess.run(["sh", "-c", FRONT + command], capture_output=True, text=True, env=given, cwd=folder, timeout=60)
        return run.returncode, run.stdout, run.stderr

    def test_small(self):
        status, output, errors = self.pipe(
            '"$PYTHON" -m taprio import "$DATA/small.json" | tee line | "$PORT" check --windows; cat line | "$PORT" draw --from 250000000 --to 1000000000 > picture; cat line picture'
        )
        self.assertEqual((status, errors), (0, ""))
        lines = output.split("\n")
        self.assertEqual(
            lines[:4],
            [
                "apart 0 1",
                "window class 0 open 200000000 closed 50000000 share 200000000 of 250000000 frame 24976 wait 249999999",
                "window class 1 open 50000000 closed 200000000 share 50000000 of 250000000 frame 6226 wait 249999999",
                "tc qdisc replace dev sw0p1 root taprio num_tc 2 map 0 0 0 0 0 0 1 0 base-time 0 cycle-time 250000 sched-entry S 02 50000 sched-entry S 01 200000 max-sdu 0 128",
            ],
        )
        self.assertTrue(lines[4].startswith("<svg "), lines[4])
        self.assertTrue(output.endswith("</svg>\n"))
        # Of three cycles: class 1 is open at the start of each, and class 0 in the rest.
        bands = re.findall(r'<rect class="o" x="([0-9.]+)" y="(310|274)" width="([0-9.]+)"', output)
        self.assertEqual(
            [(x, width) for x, y, width in bands if y == "274"], [("64.00", "73.60"), ("432.00", "73.60"), ("800.00", "73.60")]
        )
        self.assertEqual(
            [(x, width) for x, y, width in bands if y == "310"],
            [("137.60", "294.40"), ("505.60", "294.40"), ("873.60", "294.40")],
        )

    def test_large(self):
        status, output, errors = self.pipe(
            '"$PYTHON" -m taprio import "$DATA/large.json" | tee lines | "$PORT" check --windows; cut -d " " -f 5 lines'
        )
        self.assertEqual(status, 0)
        self.assertEqual(len(errors.splitlines()), 2, errors)
        self.assertIn('interface[name="sw0p3"]', errors.splitlines()[0])
        self.assertIn(
            "GigabitEthernet 1/1: its blanks are left out, and it is called GigabitEthernet_1/1", errors.splitlines()[1]
        )
        answers = output.splitlines()
        self.assertEqual(
            [line for line in answers if line.startswith("apart")], ["apart 0 1 2 3 4 5 6 7", "apart 6 7", "apart none"]
        )
        self.assertEqual(answers[-3:], ["GigabitEthernet_1/1", "sw0p2", "sw0p3"])
        first = [line for line in answers if line.startswith("window")][:8]
        self.assertEqual(
            first,
            [
                f"window class {number} open 15625000 closed 109375000 share 125000000 of 1000000000 frame 1929 wait 124998999"
                for number in range(8)
            ],
        )
        status, output, errors = self.pipe(
            '"$PYTHON" -m taprio import --dev sw0p2 "$DATA/large.json" | "$PORT" draw --from 1764189000000000000000 --to 1764189001000000000000'
        )
        self.assertEqual(status, 0)
        self.assertTrue(output.startswith("<svg "))

    def test_faulty(self):
        status, output, errors = self.pipe('"$PYTHON" -m taprio import "$DATA/faulty.json"')
        at = '/ietf-interfaces:interfaces/interface[name="hold"]/ieee802-dot1q-bridge:bridge-port/ieee802-dot1q-sched-bridge:gate-parameter-table/'
        self.assertEqual((status, output), (3, ""))
        self.assertEqual(
            errors,
            f'taprio: {support.DATA}/faulty.json: {at}admin-control-list/gate-control-entry[index=1]/operation-name: expected set-gate-states (preemption is not modelled), found "ieee802-dot1q-sched:set-and-hold-mac"\n',
        )
        document = json.loads((support.DATA / "faulty.json").read_text())
        found = []
        for interface in document["ietf-interfaces:interfaces"]["interface"]:
            try:
                read(json.dumps({"ietf-interfaces:interface": [interface]}))
            except ValueError as fault:
                found.append(str(fault).partition("gate-parameter-table/")[2])
        self.assertEqual(
            found,
            [
                'admin-control-list/gate-control-entry[index=1]/operation-name: expected set-gate-states (preemption is not modelled), found "ieee802-dot1q-sched:set-and-hold-mac"',
                "admin-cycle-time: expected a whole number of nanoseconds, found 1/3000 of a second",
                "admin-control-list/gate-control-entry[index=0]/time-interval-value: expected a whole number from 1 to 4294967295 nanoseconds, found 50000.5",
                "admin-control-list/gate-control-entry[index=0]/index: expected each index once, found 0",
                "admin-control-list/gate-control-entry[index=1]/gate-states-value: expected a whole number from 0 to 255, found 256",
                "admin-base-time/nanoseconds: expected a whole number from 0 to 999999999 nanoseconds, found 1000000000",
            ],
        )


if __name__ == "__main__":
    unittest.main()
