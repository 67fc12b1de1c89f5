"""Bounds against runs: for seeded random schedules and tables, what `bounds` says for ever beside what `streams --from` and `script --summary` do for
some hyperperiods of the same table.

Of a class with bounds each stream's least and greatest wait, and the most frames at once, are those of the run; of a full class the first frame that
the run drops is the one that is told; and of a stuck class no frame starts any more. And what is said with the greatest room for frames: a class that
is overloaded then is full with less, and one that has bounds with less has the same. And deadlines: the greatest end that is told is met by each frame
of the run, as `frames --by-stream` judges them, and a picosecond less is not."""
import collections
import math
import os
import random
import re
import subprocess
import tempfile

CASES = 250
# What a run is beyond the last offset, in hyperperiods, and the picoseconds of a unit of time by the rate: longer where frames take longer.
HYPERPERIODS = 5
UNITS = {100: 10**7, 1000: 10**6, 10000: 10**5}
LENGTHS = [60, 60, 60, 64, 100, 100, 200, 500, 1000, 1514]
PERIODS = [10, 20, 25, 40, 50, 60, 100]
CYCLES = [20, 30, 40, 50, 60, 100]
# Frames of a class that are looked at, and the greatest room for frames: no queue is full after so many.
FRAMES = 3000
GREATEST_ROOM = 4096

Stream = collections.namedtuple("Stream", "first_id priority len period offset tagged")
World = collections.namedtuple("World", "rate room change cycle entries classes schedule streams")


def parts(chance, whole):
    """A whole number as a sum of one to six."""
    cuts = sorted(chance.sample(range(1, whole), chance.randint(0, 5)))
    return [end - begin for begin, end in zip([0, *cuts], [*cuts, whole])]


def masks(chance, classes, count):
    """Masks of a schedule that keeps some classes apart, and opens the others together."""
    apart = [number for number in range(classes) if chance.random() < 0.6]
    shared = [number for number in range(classes) if number not in apart]
    of_some = [1 << number for number in apart] + [sum(1 << number for number in shared if chance.random() < 0.8) for _ in shared]
    return [chance.choice([*of_some, *of_some, 0]) for _ in range(count)]


def world(seed):
    """A schedule and a table."""
    chance = random.Random(seed)
    rate = chance.choice(sorted(UNITS))
    unit = UNITS[rate]
    classes, cycle = chance.randint(1, 4), chance.choice(CYCLES)
    intervals = parts(chance, cycle)
    entries = list(zip(masks(chance, classes, len(intervals)), intervals))
    extra = ""
    if chance.random() < 0.2:
        cycle += chance.choice([-5, 10])
        extra = f" cycle-time {cycle * unit // 1000}"
    # A base time behind the lead of each rate is the change moment.
    change = 10**11 + chance.randint(0, 10**6) * 1000
    schedule = f"tc qdisc replace dev eth0 root taprio num_tc {classes} map {' '.join(map(str, range(classes)))} base-time {change // 1000}{extra}"
    schedule += "".join(f" sched-entry S {mask:02x} {interval * unit // 1000}" for mask, interval in entries) + "\n"
    streams = []
    for place in range(chance.randint(1, 5)):
        period = chance.choice(PERIODS) * unit
        offset = chance.choice([0, chance.randint(0, 60) * unit, chance.randint(0, 3 * period)])
        streams.append(Stream((place + 1) * 10**6, chance.randrange(classes), chance.choice(LENGTHS), period, offset, chance.random() < 0.2))
    return World(rate, chance.choice([1, 2, 3, 4, 8]), change, cycle * unit, [(mask, interval * unit) for mask, interval in entries], classes, schedule, streams)


def longest_open(world, number):
    """For how long a class stays open at most; None where it never closes. A list is cut at the cycle's end, and its last state shown on to it."""
    shown, at = [], 0
    for mask, interval in world.entries:
        if at < world.cycle:
            shown.append([mask >> number & 1, min(interval, world.cycle - at)])
            at += interval
    shown[-1][1] += max(0, world.cycle - at)
    if all(is_open for is_open, _ in shown):
        return None
    longest = now = 0
    for is_open, time in shown + shown:
        now = now + time if is_open else 0
        longest = max(longest, now)
    return longest


def lines_of(program, words, input, folder):
    """The output of a run, which has to end well."""
    ran = subprocess.run([program, *words], input=input, capture_output=True, timeout=60, cwd=folder)
    assert ran.returncode == 0 and not ran.stderr, (words, ran.returncode, ran.stderr)
    return ran.stdout


def table(world, until=0):
    """The lines of the table, with the frames that come up to a time behind the change moment."""
    return "".join(
        f"stream {it.first_id} {it.priority} {it.len} {it.period}ps {it.offset}ps {max(0, (until - it.offset) // it.period + 1)}{' tagged' if it.tagged else ''}\n"
        for it in world.streams
    ).encode()


Run = collections.namedtuple("Run", "table script values arrivals dropped starts summary left")


def simulated(program, world, until, folder):
    """A run of the table up to a time behind the change moment, and of what waits then."""
    with open(os.path.join(folder, "schedule"), "w") as file:
        file.write(world.schedule)
    script = lines_of(program, ["streams", "--from", str(world.change), "--with", "schedule"], table(world, until), folder)
    arrivals, now = {}, 0
    for line in script.splitlines():
        if line.startswith(b"clock "):
            now = int(line[6:])
        elif line.startswith(b"frame "):
            arrivals[int(line.split(b" ", 2)[1])] = now
    values = ["--rate", str(world.rate), "--room", str(world.room), "--until", str(world.change + until + 40 * world.cycle)]
    run = Run(table(world, until), script, values, arrivals, [], [], {}, {})
    answers = lines_of(program, ["script", "--summary", *values], script, folder).split(b"\n")
    assert answers[0] == b"installed change %d" % world.change, answers[0]
    for line in answers:
        said = line.split()
        if line.startswith(b"start "):
            run.starts.append((int(said[1]), int(said[3]), int(said[5])))
        elif line.startswith(b"dropped "):
            run.dropped.append(int(said[1]))
        elif line.startswith(b"summary class "):
            run.summary[int(said[2])] = dict(zip(said[3::2], said[4::2]))
        elif line.startswith(b"left "):
            run.left[int(said[2])] = int(said[4])
    return run


def told(program, world, folder):
    """What is told of each class that is kept apart, and of each stream of such a class; of the others that they share."""
    with open(os.path.join(folder, "table"), "wb") as file:
        file.write(table(world))
    words = ["bounds", "--rate", str(world.rate), "--room", str(world.room), "--frames", str(FRAMES), "table"]
    lines = lines_of(program, words, world.schedule.encode(), folder).decode().splitlines()
    classes = {int(line.split()[1]): line.split()[2:] for line in lines if line.startswith("class ")}
    bounds = [line.split()[2:] for line in lines if line.startswith("bound ")]
    assert len(bounds) == len(world.streams), lines
    apart = {int(number) for number in lines[0].split()[1:] if number != "none"}
    classes = {number: said if number in apart else ["shared"] for number, said in classes.items()}
    return classes, [said if stream.priority in apart else ["shared"] for stream, said in zip(world.streams, bounds)]


def agrees_bounded(world, run, number, said, bounds):
    """A class with bounds: the most frames at once, and the waits of each stream, are those of the run."""
    own = run.summary[number]
    assert int(own[b"most"]) == int(said[1]), (number, said, own)
    assert int(own[b"dropped"]) == 0, (number, said, own)
    waits = collections.defaultdict(list)
    for identity, its_class, at in run.starts:
        if its_class == number:
            waits[identity // 10**6 - 1].append(at - run.arrivals[identity])
    found = {}
    for place, stream in enumerate(world.streams):
        if stream.priority == number:
            wait = re.fullmatch(r"class (\d) wait (\d+) to (\d+) end \d+ to \d+", " ".join(bounds[place]))
            found[place] = (int(wait[2]), int(wait[3]))
            assert found[place] == (min(waits[place]), max(waits[place])), (stream, bounds[place], min(waits[place]), max(waits[place]))
    assert int(own[b"least"]) == min(least for least, _ in found.values()), (found, own)
    assert int(own[b"greatest"]) == max(greatest for _, greatest in found.values()), (found, own)


def is_told(world, run, identity, said):
    """A frame is the one that is told, and comes at that moment."""
    place, before = identity // 10**6 - 1, identity % 10**6
    got = [str(run.arrivals[identity] - world.change), str(world.streams[place].first_id), str(before + 1)]
    assert got == [said[2], said[4], said[6]], (said, got)


def first_drop(world, run, number, said):
    """The first frame that the run drops of a class is the one that is told."""
    is_told(world, run, next(it for it in run.dropped if world.streams[it // 10**6 - 1].priority == number), said)


def agrees_stuck(world, run, number, said):
    """A class that is stuck: the first frame that waits for ever is the one that is told, fits into no window, and none behind it has started."""
    started = {identity for identity, its_class, _ in run.starts if its_class == number}
    queued = [it for it in run.arrivals if world.streams[it // 10**6 - 1].priority == number and it not in run.dropped]
    head = next(it for it in queued if it not in started)
    assert started == set(queued[: queued.index(head)]), (number, said, head)
    is_told(world, run, head, said)
    need = (max(world.streams[head // 10**6 - 1].len, 60) + 24) * 8 * 10**6 // world.rate
    longest = longest_open(world, number)
    assert longest is not None and need > longest, (number, said, need, longest)


def agrees_large(program, world, classes, bounds, folder):
    """With the greatest room: a class that is overloaded is full with less, and one that has bounds with less has the same; what is told of each."""
    large, same = told(program, world._replace(room=GREATEST_ROOM), folder)
    for number, said in large.items():
        if said[0] == "overloaded":
            assert classes[number][0] == "full", (number, said, classes[number])
        if classes[number][0] == "most":
            assert said == [*classes[number][:3], str(GREATEST_ROOM), *classes[number][4:]], (number, said, classes[number])
            of_class = [place for place, stream in enumerate(world.streams) if stream.priority == number]
            assert [same[place] for place in of_class] == [bounds[place] for place in of_class], (number, same, bounds)
    return [f"{said[0]} with room" for said in large.values()]


def judged(program, run, ends, less, folder):
    """What is said of the deadlines of streams: their greatest ends, and less. The words by the first id of the stream, and the status of a strict run."""
    deadlines = [f" deadline {end - less}ps" if end is not None else "" for end in ends]
    with open(os.path.join(folder, "timed"), "wb") as file:
        file.write(b"".join(line + said.encode() + b"\n" for line, said in zip(run.table.splitlines(), deadlines)))
    words = [program, "frames", "--strict", "--by-stream", "timed", *run.values]
    ran = subprocess.run(words, input=run.script, capture_output=True, timeout=60, cwd=folder)
    found = collections.defaultdict(set)
    for row in ran.stdout.decode().splitlines()[1:]:
        *_, stream, word = row.split(",")
        found[int(stream)].add(word)
    return found, ran.returncode


def agrees_deadlines(program, world, run, bounds, folder):
    """Each frame of a stream with bounds has left by the greatest end, and not each a picosecond before; a stream without a deadline has no word."""
    ends = [int(said[-1]) if "end" in said else None for said in bounds]
    if not any(ends):
        return []
    for less, wanted in ((0, {"met"}), (1, {"met", "missed"})):
        found, status = judged(program, run, ends, less, folder)
        assert status == less, (less, status)
        for stream, end in zip(world.streams, ends):
            words = found[stream.first_id]
            assert words <= wanted and ("missed" in words) == bool(less) if end is not None else words == {""}, (stream, less, words)
    return ["deadlines"]


def agrees(program, seed, folder):
    """A case; and what is told of its classes."""
    it = world(seed)
    classes, bounds = told(program, it, folder)
    ends = [int(said[-5]) for said in classes.values() if said[0] in ("full", "stuck")]
    every = math.lcm(it.cycle, *(stream.period for stream in it.streams))
    run = simulated(program, it, max([max(stream.offset for stream in it.streams) + HYPERPERIODS * every, *ends]), folder)
    for number, said in classes.items():
        if said[0] == "most":
            agrees_bounded(it, run, number, said, bounds)
        elif said[0] in ("full", "stuck"):
            first_drop(it, run, number, said[-7:])
            if said[0] == "stuck":
                agrees_stuck(it, run, number, said)
    timed = agrees_deadlines(program, it, run, bounds, folder) if seed % 5 == 0 else []
    return [*(said[0] for said in classes.values()), *agrees_large(program, it, classes, bounds, folder), *timed]


def agree(program, part):
    """A quarter of the cases; each kind of class is among them, and few are too long to be looked at, with room too."""
    kinds = collections.Counter()
    with tempfile.TemporaryDirectory(prefix="taprio-bounds-") as folder:
        for seed in range(part * CASES, (part + 1) * CASES):
            try:
                kinds.update(agrees(program, seed, folder))
            except Exception as fault:
                raise AssertionError(f"seed {seed}: {world(seed).schedule}{table(world(seed)).decode()}{fault!r}") from fault
    assert kinds["most"] > 100 and kinds["full"] > 40 and kinds["stuck"] > 40 and kinds["shared"] > 20 and kinds["long"] < 10, kinds
    assert kinds["overloaded with room"] > 20 and kinds["long with room"] < 10 and kinds["deadlines"] > 10, kinds


def case_bounds_are_those_of_runs_first_quarter(program):
    agree(program, 0)


def case_bounds_are_those_of_runs_second_quarter(program):
    agree(program, 1)


def case_bounds_are_those_of_runs_third_quarter(program):
    agree(program, 2)


def case_bounds_are_those_of_runs_fourth_quarter(program):
    agree(program, 3)
