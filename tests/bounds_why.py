"""`bounds --why` beside `bounds` itself: each share of a greatest wait is what that grows by when more is sent. First the stream alone, with all other classes
silent; then with the lower classes; then with the higher ones and their streams; and at last with the other streams of its class."""
import tempfile

import bounds_shared
from bounds_agree import lines_of
from bounds_shared import FRAMES, class_of
from rows import Row

CASES = 60
SHARED = b"tc qdisc replace dev eth0 root taprio num_tc 3 map 0 1 2 base-time 0 sched-entry S 07 100000 sched-entry S 01 100000\n"
APART = b"tc qdisc replace dev eth0 root taprio num_tc 2 map 0 1 base-time 0 sched-entry S 02 50000 sched-entry S 01 50000\n"
# By hand, at 1000 Mb/s. The window of classes 1 and 2 opens each 200 us, for 100: a frame of 1514 octets that is too late for it by 1 ps waits for
# 100 us and what it needs, and for what a frame of another class that is on the wire then still needs.
WORKED = [
    ("of a stream alone", SHARED, ["--silent", "0,2"], b"stream 1 1 1514 1ms any 1\n", "gates 112303999 blocking 0 higher 0 queue 0"),
    ("of a stream that comes at its moment", APART, [], b"stream 1 1 60 100us 0us 1\nstream 2 1 60 100us 0us 1\n", "gates 0 blocking 0 higher 0 queue 0"),
]


def rows():
    for name, schedule, words, table, shares in WORKED:
        yield Row(f"why: {name}", ["bounds", "--why", *words, "table"], schedule, {"table": table}, None, output_has=f"\nwhy 1 {shares}\n".encode())
    yield Row("why: behind one that comes with it", ["bounds", "--why", "table"], APART, {"table": WORKED[1][3]}, None, output_has=b"\nwhy 2 gates 0 blocking 0 higher 0 queue 672000\n")
    lost = b"stream 1 1 60 1us 0us 1\nstream 2 1 9 100us 0us 1\n"
    both = b"apart 0 1\nclass 1 full at 400000000 stream 1 frame 401\nbound 1 class 1 none\nbound 2 dropped Runt\n"
    yield Row("why: of a stream without a greatest wait nothing is told", ["bounds", "--why", "table"], APART, {"table": lost}, both)
    slack = b"stream 1 1 60 100us 0us 1 deadline 50us\n"
    yield Row("why: behind the slack", ["bounds", "--slack", "--why", "table"], APART, {"table": slack}, None,
              output_has=b"met\nslack 1 jitter 49328000\nwhy 1 gates 0 blocking 0 higher 0 queue 0\n")


def asked(program, world, streams, silent, more, folder):
    """The lines about streams."""
    with open(f"{folder}/table", "wb") as file:
        file.write(bounds_shared.table(world._replace(streams=streams)))
    said = ["--silent", ",".join(map(str, silent))] if silent else []
    words = ["bounds", "--rate", str(world.rate), "--mtu", str(world.mtu), "--frames", str(FRAMES), *said, *more, "table"]
    return [line.split() for line in lines_of(program, words, world.schedule.encode(), folder).decode().splitlines() if line.startswith(("bound ", "why "))]


def greatest(line):
    """The greatest wait of a line about a stream, if it has one."""
    return int(line[7]) if len(line) > 7 and line[4] in ("wait", "within") else None


def alone(program, world, it, streams, silent, folder):
    """The greatest wait of a stream with the streams of other classes beside it, if it has one."""
    mine = class_of(world, it.priority)
    others = [one for one in streams if class_of(world, one.priority) != mine]
    return greatest(asked(program, world, [it, *others], silent, [], folder)[0])


def parts_of(program, world, it, whole, folder):
    """The shares of a greatest wait."""
    mine = class_of(world, it.priority)
    has = {class_of(world, one.priority) for place, one in enumerate(world.streams) if place in bounds_shared.streams_of(world, class_of(world, one.priority))}
    below = [number for number in range(8) if number > mine or number in world.silent and number not in has]
    asks = [([], list(range(8))), ([], below), (world.streams, world.silent)]
    upto, found = 0, []
    for streams, silent in asks:
        wait = alone(program, world, it, streams, silent, folder)
        now = max(upto, min(whole if wait is None else wait, whole))
        found.append(now - upto)
        upto = now
    return [*found, whole - upto]


def agrees(program, seed, folder):
    """A case; how many shares were told, and how many of each kind were more than 0."""
    world = bounds_shared.world(seed)
    plain = asked(program, world, world.streams, world.silent, [], folder)
    lines = asked(program, world, world.streams, world.silent, ["--why"], folder)
    assert [line for line in lines if line[0] == "bound"] == plain, "the lines of bounds stay"
    told, kinds = 0, [0, 0, 0, 0]
    for it, line in zip(world.streams, plain):
        behind = lines[lines.index(line) + 1 :][:1]
        whole = greatest(line)
        assert (whole is not None) == (bool(behind) and behind[0][0] == "why"), (line, behind)
        if whole is None:
            continue
        assert behind[0][1] == line[1] and behind[0][2::2] == ["gates", "blocking", "higher", "queue"], behind
        shares = list(map(int, behind[0][3::2]))
        assert sum(shares) == whole, (line, behind)
        assert shares == parts_of(program, world, it, whole, folder), (line, behind)
        told, kinds = told + 1, [count + (share > 0) for count, share in zip(kinds, shares)]
    return told, kinds


def case_each_share_is_what_the_greatest_wait_grows_by(program):
    told, kinds = 0, [0, 0, 0, 0]
    with tempfile.TemporaryDirectory(prefix="taprio-why-") as folder:
        for seed in range(CASES):
            try:
                more, of = agrees(program, seed, folder)
            except Exception as fault:
                raise AssertionError(f"seed {seed}: {bounds_shared.table(bounds_shared.world(seed)).decode()}{fault!r}") from fault
            told, kinds = told + more, [one + other for one, other in zip(kinds, of)]
    assert told > 40 and min(kinds) > 10, (told, kinds)
