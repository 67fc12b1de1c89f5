"""`bounds --slack` beside `bounds` itself: with the jitter that is told each stream makes its deadline, and with one nanosecond more it doesn't; and without a
jitter where none is told."""
import random
import tempfile

import bounds_late
from bounds_agree import lines_of
from rows import Row

CASES = 60
SCHEDULE = b"tc qdisc replace dev eth0 root taprio num_tc 8 map 0 1 2 3 4 5 6 7 base-time 0 sched-entry S 80 13000 sched-entry S 7f 237000\n"
# By hand, of a frame that takes 672 ns in a window of 13 us, each 250 us: one alone that comes late, one that waits for the next window, where the
# next frame of its stream would come with it, one that fits no deadline; and of any offset the fourth that comes with three others, if it may by then.
WORKED = [
    ("0us 1 deadline 5us", "wait 0 to 0 end 672000 to 672000 deadline 5000000 met", "jitter 4328000"),
    ("0us 1 deadline 250672ns", "wait 0 to 0 end 672000 to 672000 deadline 250672000 met", "jitter 249999000"),
    ("0us 1 deadline 671ns", "wait 0 to 0 end 672000 to 672000 deadline 671000 missed", "none"),
    ("any 1 deadline 240us", "within 0 to 237671999 end 672000 to 238343999 deadline 240000000 met", "jitter 749640000"),
    ("any 1 deadline 1us", "within 0 to 237671999 end 672000 to 238343999 deadline 1000000 missed", "none"),
]


def rows():
    for stream, bound, slack in WORKED:
        output = f"bound 1 class 7 {bound}\nslack 1 {slack}\n".encode()
        files = {"table": f"stream 1 7 60 250us {stream}\n".encode()}
        yield Row(f"slack: of a stream with {stream}", ["bounds", "--slack", "table"], SCHEDULE, files, None, output_has=output)
    without = b"apart 7\nclass 7 most 1 of 128 frames 1 every 250000000\nbound 1 class 7 wait 0 to 0 end 672000 to 672000\n"
    yield Row("slack: none is told of a stream without a deadline", ["bounds", "--slack", "table"], SCHEDULE, {"table": b"stream 1 7 60 250us 0us 1\n"}, without)


def table(world, deadlines, changed=None, jitter=None):
    """The table of a world with deadlines, where one stream may have another jitter."""
    lines = bounds_late.table(world).decode().splitlines()
    for place, deadline in enumerate(deadlines):
        words = lines[place].split()
        if place == changed:
            words[words.index("jitter") + 1] = f"{jitter}ps"
        lines[place] = " ".join(words) + (f" deadline {deadline}ps" if deadline else "")
    return "".join(line + "\n" for line in lines).encode()


def told(program, world, octets, words, folder):
    """The lines of the streams."""
    with open(f"{folder}/table", "wb") as file:
        file.write(octets)
    given = ["bounds", "--rate", str(world.rate), "--frames", "400", *words, "table"]
    lines = lines_of(program, given, world.schedule.encode(), folder).decode().splitlines()
    return [line.split() for line in lines if line.startswith(("bound ", "slack "))]


def is_met(program, world, deadlines, place, jitter, folder):
    """Whether the stream at a place makes its deadline with this jitter."""
    octets = table(world, deadlines, place, jitter)
    return told(program, world, octets, [], folder)[place][-1] == "met"


def agrees(program, seed, folder):
    """A case; how many jitters were told, and how many times none was."""
    world, chance = bounds_late.world(seed), random.Random(seed)
    cycle = world.cycle
    deadlines = [chance.choice([0, cycle // 3, cycle, 2 * cycle, 5 * cycle]) for _ in world.streams]
    octets = table(world, deadlines)
    plain = told(program, world, octets, [], folder)
    lines = told(program, world, octets, ["--slack"], folder)
    assert [line for line in lines if line[0] == "bound"] == plain, "the lines of bounds stay"
    some, none = 0, 0
    for place, (line, deadline) in enumerate(zip(plain, deadlines)):
        behind = lines[lines.index(line) + 1 :][:1]
        is_slack = bool(behind) and behind[0][0] == "slack"
        assert is_slack == bool(deadline), (line, behind)
        if not is_slack:
            continue
        assert behind[0][1] == line[1], (line, behind)
        if behind[0][2] == "none":
            assert not is_met(program, world, deadlines, place, 0, folder), (line, behind)
            none += 1
            continue
        jitter = int(behind[0][3])
        assert jitter % 1000 == 0, behind
        assert is_met(program, world, deadlines, place, jitter, folder), (line, behind)
        assert not is_met(program, world, deadlines, place, jitter + 1000, folder), (line, behind)
        some += 1
    return some, none


def case_slack_is_the_last_jitter_with_which_a_deadline_is_met(program):
    some, none = 0, 0
    with tempfile.TemporaryDirectory(prefix="taprio-slack-") as folder:
        for seed in range(CASES):
            try:
                more = agrees(program, seed, folder)
            except Exception as fault:
                raise AssertionError(f"seed {seed}: {bounds_late.table(bounds_late.world(seed)).decode()}{fault!r}") from fault
            some, none = some + more[0], none + more[1]
    assert some > 20 and none > 20, (some, none)
