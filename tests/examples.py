"""The scripts of examples/worked.txt, and the examples that have answers beside them."""
import pathlib

from rows import Row

EXAMPLES = pathlib.Path(__file__).resolve().parent.parent / "examples"
# What is asked for beside an example's text.
WORDS = {"summary.script": ["script", "--summary"], "windows.schedules": ["check", "--windows"]}


def rows():
    for number, part in enumerate((EXAMPLES / "worked.txt").read_bytes().split(b"====\n"), 1):
        script, answers = part.split(b"----\n")
        yield Row(f"worked script {number}", ["script"], input=script, output=answers)
    for path in sorted(EXAMPLES.iterdir()):
        answers = path.with_suffix(".answers")
        if path.suffix in (".script", ".schedules") and answers.exists():
            words = WORDS.get(path.name, ["check" if path.suffix == ".schedules" else "script"])
            yield Row(f"examples/{path.name}", words, input=path.read_bytes(), output=answers.read_bytes())
    def octets(name):
        return (EXAMPLES / name).read_bytes()

    yield Row("examples/planned.streams", ["streams", "--with", "planned.schedule"], input=octets("planned.streams"),
              files={"planned.schedule": octets("planned.schedule")}, output=octets("planned.script"))
    for schedule in ("drive", "drive_short"):
        yield Row(f"examples/{schedule}.schedule", ["bounds", "drive.streams"], input=octets(f"{schedule}.schedule"),
                  files={"drive.streams": octets("drive.streams")}, output=octets(f"{schedule}.bounds"))
    for network in ("line", "vehicle"):
        yield Row(f"examples/{network}.network", ["paths", "--strict", "network"], input=octets(f"{network}.schedules"),
                  files={"network": octets(f"{network}.network")}, output=octets(f"{network}.paths"))
    for words, more in [([], b""), (["--summary"], octets("machine.summary"))]:
        yield Row(f"examples/machine.pcap {' '.join(words)}", ["replay", *words, "--until", "2000000000", "script", "capture", "out"],
                  files={"script": octets("machine.script"), "capture": octets("machine.pcap")},
                  output=octets("machine.report") + more, written={"out": octets("machine.departures.pcap")})
