"""Bounds of frames that come late, or whenever they like, against runs: for seeded random schedules and tables, what `bounds` says beside what `script`
does with frames of the same table, and with frames of the other classes that fill the wire.

No frame starts later than its bound, counted from its arrival, or of a known offset from its earliest moment; no more frames wait at once than is said;
and none is dropped. Where all frames of a class have one length and come whenever they like, a run reaches the bound: all talkers begin at the moment
that is just too late for some frames to be sent before the end of a window."""
import collections
import math
import os
import random
import tempfile

import bounds_agree
from bounds_agree import LENGTHS, UNITS, lines_of, masks, parts

CASES = 250
# (200 of them were tried once, by hand)
WINDOW_CASES = int(os.environ.get("TAPRIO_WINDOWS", "30"))
SEEDS = int(os.environ.get("TAPRIO_SEEDS", "1"))
FRAMES = 400
PERIODS = [20, 25, 40, 50, 60, 100, 120]
CYCLES = [20, 30, 40, 50, 60]

Stream = collections.namedtuple("Stream", "first_id priority len shortest period offset jitter")
World = collections.namedtuple("World", "rate change cycle entries classes schedule streams")


def world(seed):
    """A schedule, and a table in which most streams have jitter or an offset that nobody knows."""
    chance = random.Random(seed)
    rate = chance.choice(sorted(UNITS))
    unit = UNITS[rate]
    classes, cycle = chance.randint(1, 3), chance.choice(CYCLES)
    intervals = parts(chance, cycle)
    entries = list(zip(masks(chance, classes, len(intervals)), intervals))
    change = 10**11 + chance.randint(0, 10**6) * 1000
    schedule = f"tc qdisc replace dev eth0 root taprio num_tc {classes} map {' '.join(map(str, range(classes)))} base-time {change // 1000}"
    schedule += "".join(f" sched-entry S {mask:02x} {interval * unit // 1000}" for mask, interval in entries) + "\n"
    alike = chance.choice(LENGTHS) if chance.random() < 0.5 else None
    streams = []
    for place in range(chance.randint(1, 4)):
        longest = alike or chance.choice(LENGTHS)
        shortest = longest if alike or chance.random() < 0.7 else 60
        offset = None if alike or chance.random() < 0.6 else chance.randint(0, 60) * unit
        jitter = chance.choice([0, 0, chance.randint(1, 30), chance.randint(1, 200)]) * unit
        streams.append(Stream((place + 1) * 10**6, chance.randrange(classes), longest, shortest, chance.choice(PERIODS) * unit, offset, jitter))
    return World(rate, change, cycle * unit, [(mask, interval * unit) for mask, interval in entries], classes, schedule, streams)


def need(world, octets):
    """How long a frame occupies the wire."""
    return (max(octets, 60) + 24) * 8 * 10**6 // world.rate


def table(world, count=1):
    """The lines of the table."""
    lines = []
    for it in world.streams:
        offset = "any" if it.offset is None else f"{it.offset}ps"
        lines.append(f"stream {it.first_id} {it.priority} {it.len} {it.period}ps {offset} {count} jitter {it.jitter}ps shortest {it.shortest}\n")
    return "".join(lines).encode()


def told(program, world, folder):
    """What is told of each class, and of each stream."""
    with open(f"{folder}/table", "wb") as file:
        file.write(table(world))
    lines = lines_of(program, ["bounds", "--rate", str(world.rate), "--frames", str(FRAMES), "table"], world.schedule.encode(), folder).decode().splitlines()
    classes = {int(line.split()[1]): line.split()[2:] for line in lines if line.startswith("class ")}
    return classes, [line.split()[2:] for line in lines if line.startswith("bound ")]


def is_apart(world, number):
    """Whether each entry that opens the class opens it alone. The bounds of others hold, and need not be reached."""
    return all(mask == 1 << number for mask, _ in world.entries if mask >> number & 1)


def comes(chance, world, begin, count):
    """Moments, ids and lengths of each stream's frames, in picoseconds since the change moment. Those of any offset begin at a moment. By chance each comes
    when and as long as it may; else as late as it may or, of any offset, as close behind one another as they may, with the longest length."""

    def moment_of(it, number, slip):
        if it.offset is None:
            return begin + slip + max(0, number * it.period - it.jitter)
        late = chance.choice([0, it.jitter, chance.randint(0, it.jitter)]) if chance else it.jitter
        return it.offset + number * it.period + late

    def of(it):
        last, slip, frames = 0, 0, []
        for number in range(count):
            slip += chance.choice([0, 0, chance.randint(0, it.period)]) if chance else 0
            last = max(last, moment_of(it, number, slip))
            frames.append((last, it.first_id + number, chance.choice([it.len, it.shortest]) if chance else it.len))
        return frames

    return [of(it) for it in world.streams]


def drawn(program, world, count, words, folder):
    """The same as `streams` makes them with these words."""
    script = lines_of(program, ["streams", *words], table(world, count), folder).decode()
    frames, now = [[] for _ in world.streams], 0
    for said in map(str.split, script.splitlines()):
        if said[0] == "clock":
            now = int(said[1])
        else:
            frames[int(said[1]) // 10**6 - 1].append((now, int(said[1]), int(said[3])))
    return frames


def run(program, world, frames, flood, folder, behind=None):
    """A run of these frames, beside full frames of other classes. At one moment they come in the order of the streams, but this one comes last."""
    arrivals = sorted((world.change + moment, 98 if identity == behind else place, identity, octets) for place, of in enumerate(frames) for moment, identity, octets in of)
    end = max(moment for moment, *_ in arrivals) + 60 * world.cycle
    busy = {it.priority for it in world.streams}
    others = [number for number in range(world.classes) if number not in busy] if flood else []
    for number in others:
        arrivals += [(moment, 99, 10**9 + number * 10**6 + at, 1514) for at, moment in enumerate(range(world.change, end, max(world.cycle, need(world, 1514) * 2)))]
    lines, now = [world.schedule], 0
    for moment, place, identity, octets in sorted(arrivals):
        if moment != now:
            lines.append(f"clock {moment}\n")
            now = moment
        priority = world.streams[identity // 10**6 - 1].priority if place < 99 else (identity - 10**9) // 10**6
        lines.append(f"frame {identity} {priority} {octets}\n")
    answers = lines_of(program, ["script", "--summary", "--rate", str(world.rate), "--until", str(end)], "".join(lines).encode(), folder).decode().splitlines()
    starts = {int(said[1]): int(said[5]) for said in map(str.split, answers) if said[0] == "start"}
    dropped = {int(said[1]) for said in map(str.split, answers) if said[0] == "dropped"}
    summary = {int(said[2]): dict(zip(said[3::2], said[4::2])) for said in map(str.split, answers) if said[:2] == ["summary", "class"]}
    return starts, dropped, summary


def holds(world, classes, bounds, frames, ran):
    """No bound is exceeded. The longest wait of each class, of frames of any offset."""
    starts, dropped, summary = ran
    longest = collections.defaultdict(int)
    for place, it in enumerate(world.streams):
        said = bounds[place]
        if said[2] != "within" or not frames[place]:
            continue
        most = classes[it.priority]
        assert int(summary[it.priority]["most"]) <= int(most[2]), (it, most, summary[it.priority])
        for number, (moment, identity, octets) in enumerate(frames[place]):
            assert identity not in dropped, (it, identity)
            begin = moment if it.offset is None else it.offset + number * it.period
            start = starts[identity] - world.change
            assert int(said[3]) <= start - begin <= int(said[5]), (it, number, said, start - begin)
            assert int(said[7]) <= start + need(world, octets) - begin <= int(said[9]), (it, number, said)
            if it.offset is None:
                longest[it.priority] = max(longest[it.priority], start - moment)
    return longest


def moments(world, number):
    """The moments that are just too late for some frames to be sent before a window of the class closes, in the first cycles."""
    longest = max(need(world, it.len) for it in world.streams if it.priority == number)
    at, windows = 0, []
    for mask, interval in world.entries * 3:
        if mask >> number & 1:
            begin = windows.pop()[0] if windows and windows[-1][1] == at else at
            windows.append((begin, at + interval))
        at += interval
    return [0] + [end + 1 - k * longest for begin, end in windows for k in range(1, 1 + (end - begin) // longest)]


def reaches(program, world, classes, bounds, number, folder):
    """The bound of a class whose frames have one length is the longest wait of some run."""
    own = [place for place, it in enumerate(world.streams) if it.priority == number]
    longest = 0
    for begin in moments(world, number):
        frames = comes(None, world, begin, 60)
        longest = max(longest, holds(world, classes, bounds, frames, run(program, world, frames, False, folder))[number])
    assert longest == int(bounds[own[0]][5]), (number, longest, bounds[own[0]])


def with_windows(world, seed):
    """The same world, where each offset is known, and all frames have one length."""
    chance = random.Random(seed)
    octets, unit = chance.choice(LENGTHS), UNITS[world.rate]
    streams = [it._replace(len=octets, shortest=octets, offset=chance.randint(0, 60) * unit) for it in world.streams]
    return world._replace(streams=streams)


def looked_at(world, own):
    """How many frames of each stream of a class are enough: those up to when all have begun, and then those of a time after which all repeats."""
    streams = [world.streams[place] for place in own]
    end = max(it.offset + it.jitter for it in streams) + math.lcm(world.cycle, *(it.period for it in streams))
    return {place: (end - world.streams[place].offset) // world.streams[place].period + 1 for place in own}


def pressing(world, counts, place, number):
    """The run that delays a frame the most: it comes at its latest, and each that can have come by then comes then or at its own latest, before it."""
    it = world.streams[place]
    latest = it.offset + number * it.period + it.jitter
    frames = [[] for _ in world.streams]
    for other, count in counts.items():
        of = world.streams[other]
        for at in range(count):
            earliest = of.offset + at * of.period
            comes_at = min(earliest + of.jitter, latest) if earliest <= latest else earliest + of.jitter
            frames[other].append((comes_at, of.first_id + at, of.len))
    return frames


def reaches_windows(program, seed, folder):
    """Each bound of a class of windows is the wait of some frame in some run, and no run exceeds it. How many streams were tried."""
    it = with_windows(world(seed), seed)
    classes, bounds = told(program, it, folder)
    tried = 0
    for number, said in classes.items():
        own = [place for place, stream in enumerate(it.streams) if stream.priority == number]
        if said[0] != "within" or int(said[2]) > 128 or not is_apart(it, number):
            continue
        counts = looked_at(it, own)
        for place in own:
            stream, longest = it.streams[place], 0
            for at in range(counts[place]):
                frames, identity = pressing(it, counts, place, at), stream.first_id + at
                ran = run(program, it, frames, False, folder, identity)
                holds(it, classes, bounds, frames, ran)
                longest = max(longest, ran[0][identity] - it.change - stream.offset - at * stream.period)
            assert longest == int(bounds[place][5]), (seed, place, longest, bounds[place])
            tried += 1
    return tried


def case_a_frame_is_as_late_as_its_window_lets_it(program):
    """The worst that is told of windows with one length does happen, so `missed` is no guess."""
    with tempfile.TemporaryDirectory(prefix="taprio-late-") as folder:
        tried = sum(reaches_windows(program, seed, folder) for seed in range(0, WINDOW_CASES))
    assert tried > 10, tried


def agrees(program, seed, folder):
    """A case; and what is told of its classes."""
    it, chance = world(seed), random.Random(seed)
    classes, bounds = told(program, it, folder)
    kinds = [said[0] for said in classes.values()]
    if "within" not in kinds:
        return kinds
    for flood in (False, True):
        frames = comes(chance, it, chance.randint(0, it.cycle), 30)
        holds(it, classes, bounds, frames, run(program, it, frames, flood, folder))
    drawings = [["--late"], *(["--seed", str(number)] for number in range(SEEDS))] if SEEDS > 1 or seed % 4 == 1 else []
    for words in drawings:
        frames = drawn(program, it, 30, words, folder)
        holds(it, classes, bounds, frames, run(program, it, frames, False, folder))
    for number, said in classes.items():
        own = [stream for stream in it.streams if stream.priority == number]
        alike = all(stream.offset is None and stream.len == stream.shortest == own[0].len for stream in own)
        if said[0] == "within" and alike and int(said[2]) <= 128 and seed % 8 == 0 and is_apart(it, number):
            reaches(program, it, classes, bounds, number, folder)
            kinds.append("reached")
    return kinds


def late(program, part):
    """A quarter of the cases; each kind of class is among them."""
    kinds = collections.Counter()
    with tempfile.TemporaryDirectory(prefix="taprio-late-") as folder:
        for seed in range(part * CASES, (part + 1) * CASES):
            try:
                kinds.update(agrees(program, seed, folder))
            except Exception as fault:
                raise AssertionError(f"seed {seed}: {world(seed).schedule}{table(world(seed)).decode()}{fault!r}") from fault
    assert kinds["within"] > 50 and kinds["overloaded"] > 10 and kinds["stuck"] > 10 and kinds["reached"] > 5, kinds
    return kinds


def case_no_frame_is_later_than_its_bound_first_quarter(program):
    late(program, 0)


def case_no_frame_is_later_than_its_bound_second_quarter(program):
    late(program, 1)


def case_no_frame_is_later_than_its_bound_third_quarter(program):
    late(program, 2)


def case_no_frame_is_later_than_its_bound_fourth_quarter(program):
    late(program, 3)
