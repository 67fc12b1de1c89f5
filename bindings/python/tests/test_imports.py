"""Schedules of other forms as `tc` lines: each case of tests/imports, which the page is tried on, too."""

import io
import sys
import tomllib
import unittest

import support
from taprio.commands import main
from taprio.faults import BadSchedule
from taprio.schedules import form_of

CASES = support.ROOT / "tests" / "imports" / "cases.toml"
SAID = "taprio: standard input: "


def imported(text):
    """The status of `python3 -m taprio import`, what it writes, and what it says."""
    streams = [io.TextIOWrapper(io.BytesIO(text.encode())), io.TextIOWrapper(io.BytesIO()), io.StringIO()]
    before = sys.stdin, sys.stdout, sys.stderr
    try:
        sys.stdin, sys.stdout, sys.stderr = streams
        status = main(["import"])
    finally:
        sys.stdin, sys.stdout, sys.stderr = before
    streams[1].flush()
    return status, streams[1].buffer.getvalue().decode(), streams[2].getvalue()


@unittest.skipUnless(CASES.exists(), "tests/imports lies in the repository")
class Imports(unittest.TestCase):
    def test_each_case(self):
        for case in tomllib.loads(CASES.read_text(encoding="utf-8"))["case"]:
            text = case["input"] if "input" in case else (support.ROOT / case["file"]).read_text(encoding="utf-8")
            wanted = 3 if "fault" in case else 0, "".join(f"{it}\n" for it in case.get("lines", []))
            said = "".join(f"{SAID}{it}\n" for it in [*case.get("notes", []), *([case["fault"]] if "fault" in case else [])])
            with self.subTest(case["name"]):
                self.assertEqual(imported(text), (*wanted, said))
                form = case["name"].partition(":")[0]
                if form == "xml":
                    self.assertRaises(BadSchedule, form_of, text)
                else:
                    self.assertEqual(form_of(text), form)


if __name__ == "__main__":
    unittest.main()
