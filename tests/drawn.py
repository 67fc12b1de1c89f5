"""Pictures: those of the examples, which lie beside them, those of replays, and what a picture doesn't have."""
import pathlib
import random
import tempfile

from frames import merged, moments, records, script
from rows import Row, captured, run, shown

EXAMPLES = pathlib.Path(__file__).resolve().parent.parent / "examples"

# The input of a picture, the picture, and the options.
PICTURES = [
    ("first.script", "first.svg", []),
    ("priorities.script", "priorities.svg", []),
    ("schedule.script", "schedule.svg", ["--to", "60000000"]),
    ("manual.script", "manual.svg", ["--from", "1528743495910000000000", "--to", "1528743495913000000000"]),
    ("guard_band.script", "guard_band.svg", ["--from", "100000000", "--to", "130000000"]),
    ("extension.script", "extension.svg", ["--from", "3000000000", "--to", "6000000000"]),
    ("summary.script", "summary.svg", []),
    ("planned.script", "planned.svg", ["--to", "60000000"]),
    ("machine.script", "machine.svg", ["--to", "1000000000"]),
    ("apart.schedules", "apart.svg", ["--from", "1528743495910000000000", "--to", "1528743495913000000000"]),
    ("windows.schedules", "windows.svg", ["--from", "1528743495910000000000", "--to", "1528743495913000000000"]),
]


def rows():
    """Each picture of an example."""
    return [
        Row(
            f"examples/{picture}",
            ["draw", *options],
            (EXAMPLES / script).read_bytes(),
            output=(EXAMPLES / picture).read_bytes(),
        )
        for script, picture, options in PICTURES
    ]


def case_a_command_with_a_fault_is_passed_over(program):
    """A command that is refused is drawn like one that was not given, and the run goes on."""
    without = run(program, ["draw"], b"frame 1 0 60\nclock 50000000\n")
    ran = run(program, ["draw"], b"tc qdisc replace\nframe 1 0 60\nclock 50000000\n")
    assert (without.status, without.errors, ran.status, ran.errors) == (0, b"", 0, b""), (without, ran)
    assert without.output == ran.output, shown(ran.output)


def case_what_no_option_says_is_what_the_help_says(program):
    """A picture without options is the one with the options' defaults."""
    script = b"""\
tc qdisc replace dev eth0 root taprio num_tc 1 map 0 0 0 0 0 0 0 0 queues 1@0 base-time 0 sched-entry S 01 100000
frame 1 0 60
frame 2 0 60
clock 50000000
"""
    words = ["draw", "--rate", "1000", "--mtu", "1500", "--room", "128", "--from", "0", "--to", "50us", "--width", "1200"]
    without, ran = run(program, ["draw"], script), run(program, words, script)
    assert (without.status, ran.status) == (0, 0) and without.output == ran.output
    assert without.output.startswith(b"<svg "), shown(without.output)


def case_joined_marks_span_what_they_stand_for(program):
    """5,010 frames that are dropped within 3.5 ms are one mark from the first to the last; so are as many changes of the schedule."""
    ran = run(program, ["draw", "--to", "3600us", "--width", "1096"], b"".join(b"frame %d 0 13\nclock %d\n" % (it, it * 700_000) for it in range(5010)))
    left, right = 64, 64 + 5008 * 700 // 3600
    wanted = b'<path class="d" d="M%d 320l8 8m0 -8l-8 8m4 -4H%dm-4 -4l8 8m0 -8l-8 8"/>\n' % (left - 4, right)
    assert ran.status == 0 and ran.output.count(wanted) == 1, shown(ran.output)


def case_a_picture_has_20000_shapes_as_they_are(program):
    """With one shape more, those of a row that are closer than a pixel are joined. Each class has one open time; four have dropped frames."""
    for frames, marks in ((19_992, 19_992), (19_993, 4)):
        ran = run(program, ["draw"], b"".join(b"frame 1 %d 13\n" % (number % 4) for number in range(frames)))
        assert (ran.status, ran.errors) == (0, b""), ran.errors
        # The legend has one, too.
        found = ran.output.count(b'\n<path class="d" ') - 1
        assert found == marks, (frames, found)


def case_bands_are_the_same_however_many_parts_there_are(program):
    """A class that is open ten pixels and closed half of one is light, with one grey pixel or two at each gap, beside 30,000 dropped frames, too."""
    command = b"tc qdisc replace dev eth0 root taprio num_tc 1 map 0 base-time 0 sched-entry S 01 1000000 sched-entry S 00 50000\n"
    few, many = (run(program, ["draw", "--to", "100ms", "--width", "1096"], command + b"frame 1 0 13\nclock 1\n" * count) for count in (0, 30_000))
    assert (few.status, many.status) == (0, 0)
    bands = [[line for line in ran.output.split(b"\n") if line.startswith(b"<rect") and b' y="310" ' in line] for ran in (few, many)]
    assert bands[0] == bands[1] and sum(b'class="o"' in line for line in bands[0]) == 94, bands


def last_moment(lines, report):
    """The last moment of a run: that of its last line, or the end of its last frame."""
    ends = [int(line.split()[7]) for line in report.splitlines() if line.startswith("start ")]
    return max([now for now, _ in moments(lines)] + ends, default=0)


def case_pictures_of_captures_are_those_of_the_scripts_that_merge_both(program):
    """The picture of a random script beside a random capture is that of the script that merges both, which runs on to the end of its last frame. So it is
    with options; and where the last record is cut, it is that of the others."""
    drawn = 0
    with tempfile.TemporaryDirectory() as room:
        path = f"{room}/capture"
        for seed in range(80):
            dice = random.Random(f"drawn captures {seed}")
            lines = [line for line in script(dice) if not line.startswith("frame")]
            taken = records(dice)
            words = [] if dice.random() < 0.5 else ["--room", str(dice.choice([1, 2, 7, 30]))]
            until = [] if dice.random() < 0.6 else ["--until", str(dice.randrange(2_000_000_000))]
            view = dice.choice([[], [], ["--to", "300us"], ["--from", "20us"], ["--from", "10us", "--to", "90us", "--width", "700"]])
            whole = captured(taken)
            is_cut = bool(taken) and dice.random() < 0.2
            pathlib.Path(path).write_bytes(whole[:-1] if is_cut else whole)
            octets = "".join(f"{line}\n" for line in lines).encode()
            ran = run(program, ["draw", *words, *until, *view, "--capture", path], octets)
            report = run(program, ["frames", *words, *until, "--capture", path], octets)
            assert (ran.status, ran.errors) == (report.status, report.errors), (seed, ran.status, ran.errors)
            if ran.errors.startswith(b"taprio_port: script"):
                assert ran.output == b"", seed
                continue
            both = "".join(f"{line}\n" for line in merged(lines, taken[:-1] if is_cut else taken))
            told = run(program, ["script", *words, "--until", "4294967296s"], both.encode())
            end = until or ["--until", str(last_moment(both.splitlines(), told.output.decode()))]
            wanted = run(program, ["draw", *words, *end, *view], both.encode())
            assert ran.output == wanted.output, (seed, end, shown(ran.output), shown(wanted.output))
            drawn += 1
    assert drawn > 40, drawn
