"""`plan` on tables that are known to have a schedule: 200 random ones, whose windows are taken first, with streams that fit them. How many of them get a
plan, in which time; and each line that is printed passes `script`, `check --strict` and `bounds --strict`.

A table is made from windows: frames get slots of a cycle, one after another, until a share of the time is taken; the frames of a class have one length or
two, and its slots are as long as the longer one. Streams of one class have an offset, with a
jitter or without, or come at any moments. Then `bounds` tells how late each ends by these windows, and its deadline is somewhat later."""
import collections
import os
import random
import resource
import signal
import subprocess
import tempfile

CASES = 50
# What frames of a rate take, beside 1000 Mb/s.
RATES = {100: 10, 1000: 1, 10000: 0.1}
LENGTHS = [[60, 60, 100, 200, 300, 500, 1000, 1514], [60, 60, 100, 200, 300]]
STREAMS = 64
# Of all 200 tables 191 got a plan, and of each quarter 47 at the least.
WANTED = 47
LIMIT = 2

Slot = collections.namedtuple("Slot", "start end class_number")
Made = collections.namedtuple("Made", "id priority len shortest period offset jitter")
World = collections.namedtuple("World", "rate octets cycle classes slots streams")


def need(rate, octets):
    """Nanoseconds on the wire, rounded up."""
    return -(-(max(octets, 60) + 24) * 8000 // rate)


def first_free(slots, cycle, start, length):
    """The first moment from `start` on at which so much of the cycle is free, counted on through the next one."""
    at = start
    taken = sorted((slot.start + turn * cycle, slot.end + turn * cycle) for slot in slots for turn in range(-1, 3))
    for begin, end in taken:
        if at < end and at + length > begin:
            at = end
    inside = at % cycle
    if inside + length > cycle:
        return first_free(slots, cycle, at - inside + cycle, length) if at < start + cycle else None
    return at if at < start + cycle else None


def timed_stream(chance, world, number, identity):
    """A stream with an offset, with a slot for each of its frames in a cycle; or none where there is no room."""
    octets = chance.choice(world.octets[number - 1])
    period = world.cycle // chance.choice([1, 1, 1, 2, 4, 5])
    jitter = chance.choice([0, 0, chance.randrange(period // 8)])
    offset = chance.randrange(period)
    length, slots = need(world.rate, max(world.octets[number - 1])), list(world.slots)
    for frame in range(world.cycle // period):
        at = first_free(slots, world.cycle, (offset + frame * period + jitter) % world.cycle, length)
        if at is None:
            return None
        slots.append(Slot(at % world.cycle, at % world.cycle + length, number))
    world.slots[:] = slots
    shortest = chance.choice([octets, octets, 60])
    return Made(identity, number, octets, min(shortest, octets), period, offset, jitter)


def any_streams(chance, world, number, identity):
    """Streams that come at any moments, with windows that are even; or none where there is no room."""
    octets = chance.choice(world.octets[number - 1])
    count, frames = chance.choice([1, 2, 4, 8]), chance.choice([1, 1, 2, 3])
    length, slots, begin = frames * need(world.rate, octets), list(world.slots), chance.randrange(world.cycle)
    for window in range(count):
        at = first_free(slots, world.cycle, (begin + window * world.cycle // count) % world.cycle, length)
        if at is None:
            return []
        slots.append(Slot(at % world.cycle, at % world.cycle + length, number))
    world.slots[:] = slots
    period = world.cycle // count * chance.choice([5, 6, 8]) // 4
    return [Made(identity + place, number, octets, chance.choice([octets, 60]), period, None, 0) for place in range(frames)]


def used(world):
    return sum(slot.end - slot.start for slot in world.slots) / world.cycle


def needed(world):
    """Which share of the time the frames of the streams take."""
    return sum(need(world.rate, stream.len) / stream.period for stream in world.streams)


def world_of(seed):
    """Windows, and the streams that they are for."""
    chance = random.Random(seed)
    rate = chance.choice(sorted(RATES))
    cycle = int(chance.choice([100, 200, 250, 400, 500]) * 1000 * RATES[rate])
    classes, lengths = chance.randint(1, 6), chance.choice(LENGTHS)
    octets = [chance.sample(lengths, chance.choice([1, 1, 2])) for _ in range(classes)]
    world = World(rate, octets, cycle, classes, [], [])
    share, kinds = chance.uniform(0.3, 0.9), [chance.random() < 0.6 for _ in range(world.classes)]
    kinds[chance.randrange(world.classes)] |= chance.random() < 0.9
    failed = 0
    while used(world) < share and len(world.streams) < STREAMS - 3 and failed < 40 and len(world.slots) < 120:
        number = chance.randrange(world.classes)
        if kinds[number]:
            stream = timed_stream(chance, world, number + 1, len(world.streams) + 1)
            more = [stream] if stream else []
        else:
            if any(stream.priority == number + 1 for stream in world.streams):
                failed += 0.25
                continue
            more = any_streams(chance, world, number + 1, len(world.streams) + 1)
        failed += not more
        world.streams.extend(more)
    return world


def schedule_of(world):
    """The schedule of the windows."""
    entries, at = [], 0
    shortest = need(world.rate, 60)
    slots = []
    for slot in sorted(world.slots):
        if slots and (slots[-1].class_number == slot.class_number and slots[-1].end == slot.start):
            slots[-1] = slots[-1]._replace(end=slot.end)
        elif slots and slot.start - slots[-1].end < shortest:
            slots[-1] = slots[-1]._replace(end=slot.start)
            slots.append(slot)
        else:
            slots.append(slot)
    if slots[0].start < shortest:
        slots[0] = slots[0]._replace(start=0)
    if world.cycle - slots[-1].end < shortest:
        slots[-1] = slots[-1]._replace(end=world.cycle)
    for slot in slots:
        if slot.start > at:
            entries.append((1, slot.start - at))
        entries.append((1 << slot.class_number, slot.end - slot.start))
        at = slot.end
    if at < world.cycle:
        entries.append((1, world.cycle - at))
    line = f"tc qdisc replace dev eth0 root taprio num_tc {world.classes + 1} map {' '.join(map(str, range(world.classes + 1)))} base-time 0"
    return line + "".join(f" sched-entry S {mask:02x} {interval}" for mask, interval in entries) + "\n"


def table_of(world, deadlines):
    lines = []
    for stream, deadline in zip(world.streams, deadlines):
        offset = "any" if stream.offset is None else f"{stream.offset}ns"
        line = f"stream {stream.id} {stream.priority} {stream.len} {stream.period}ns {offset} 1"
        line += f" shortest {stream.shortest}" if stream.shortest != stream.len else ""
        line += f" jitter {stream.jitter}ns" if stream.jitter else ""
        lines.append(line + (f" deadline {deadline}ns" if deadline else ""))
    return "".join(line + "\n" for line in lines)


def run(program, words, octets, folder, **how):
    return subprocess.run([program, *words], input=octets, capture_output=True, timeout=120, cwd=folder, **how)


def bounds_of(program, world, folder):
    """How late a frame of each stream ends by the windows, in nanoseconds; None where it has no bounds."""
    with open(os.path.join(folder, "table"), "w") as file:
        file.write(table_of(world, [None] * len(world.streams)))
    ran = run(program, ["bounds", "--rate", str(world.rate), "table"], schedule_of(world).encode(), folder)
    assert ran.returncode == 0, (ran, schedule_of(world))
    lines = [line.split() for line in ran.stdout.decode().splitlines() if line.startswith("bound ")]
    assert len(lines) == len(world.streams), (ran, schedule_of(world))
    return [-(-int(line[-1]) // 1000) if "end" in line else None for line in lines]


def ends_of(program, world, folder):
    """How late a frame of each stream ends by the windows. Streams for which they don't suffice are left out of the table."""
    ends = bounds_of(program, world, folder)
    while None in ends:
        del world.streams[max((stream.len, place) for place, stream in enumerate(world.streams) if ends[place] is None)[1]]
        ends = bounds_of(program, world, folder)
    return ends


def made_table(program, seed, folder):
    """A table that is known to have a schedule."""
    world = world_of(seed)
    ends = ends_of(program, world, folder)
    chance = random.Random(seed)
    deadlines = [int(end * chance.uniform(1.05, 1.5)) + 1 for end in ends]
    table = table_of(world, deadlines)
    with open(os.path.join(folder, "table"), "w") as file:
        file.write(table)
    ran = run(program, ["bounds", "--strict", "--rate", str(world.rate), "table"], schedule_of(world).encode(), folder)
    assert ran.returncode == 0, (ran, table, schedule_of(world))
    return world, table


def passes(program, rate, line, folder):
    """The line is taken by the jobs that read schedules, and all deadlines are met."""
    for words in (["script", "--strict"], ["check", "--strict"], ["bounds", "--strict", "table"]):
        ran = run(program, [words[0], "--rate", str(rate), *words[1:]], line, folder)
        assert ran.returncode == 0, (words, line, ran)
        if words[0] == "script":
            assert ran.stdout.startswith(b"installed change "), (line, ran)


def limited():
    """Ends a program that takes more processor time than a plan may, however busy the processor is with others."""
    resource.setrlimit(resource.RLIMIT_CPU, (LIMIT, LIMIT))


def planned(program, seed, folder):
    """Whether a plan is found in time."""
    world, _ = made_table(program, seed, folder)
    ran = run(program, ["plan", "--rate", str(world.rate), "table"], b"", folder, preexec_fn=limited)
    if ran.returncode == 0:
        assert ran.stdout.count(b"\n") == 1 and ran.stdout.startswith(b"tc ") and not ran.stderr, ran
        passes(program, world.rate, ran.stdout, folder)
    elif ran.returncode == 1:
        assert ran.stdout.startswith(b"none ") and ran.stderr == b"taprio_port: plan: no schedule is found\n", ran
    else:
        assert ran.returncode in (-signal.SIGXCPU, -signal.SIGKILL), ran
    return ran.returncode == 0


def plans(program, part):
    """A quarter of the cases."""
    with tempfile.TemporaryDirectory(prefix="taprio-plans-") as folder:
        found = sum(planned(program, seed, folder) for seed in range(part * CASES, (part + 1) * CASES))
    assert found >= WANTED, found


def case_tables_with_a_schedule_get_a_plan_first_quarter(program):
    plans(program, 0)


def case_tables_with_a_schedule_get_a_plan_second_quarter(program):
    plans(program, 1)


def case_tables_with_a_schedule_get_a_plan_third_quarter(program):
    plans(program, 2)


def case_tables_with_a_schedule_get_a_plan_fourth_quarter(program):
    plans(program, 3)


def shortened(entries, mask, rest):
    """The entries, where each window of a class is shorter by a sixteenth, which is open to the others; None where no window is long enough."""
    found = []
    for opened, interval in entries:
        less = interval // 16 if opened == mask else 0
        found += [(opened, interval - less)] + [(rest, less)] * (less > 0)
    return found if len(found) > len(entries) else None


def case_windows_are_as_long_as_they_have_to_be(program):
    """Of twelve tables the windows of no class can be shorter, all of them, with each deadline still met."""
    with tempfile.TemporaryDirectory(prefix="taprio-plans-") as folder:
        tried = 0
        for seed in range(12):
            world, _ = made_table(program, seed, folder)
            line = run(program, ["plan", "--rate", str(world.rate), "table"], b"", folder).stdout.decode()
            words = line.split()
            entries = [(int(words[at + 2], 16), int(words[at + 3])) for at, word in enumerate(words) if word == "sched-entry"]
            rest = next((mask for mask, _ in entries if mask & 1), 0)
            for mask in {mask for mask, _ in entries} - {rest}:
                shorter = shortened(entries, mask, rest)
                if shorter and len(shorter) <= 256:
                    text = line[: line.index(" sched-entry")] + "".join(f" sched-entry S {opened:02x} {interval}" for opened, interval in shorter)
                    ran = run(program, ["bounds", "--strict", "--rate", str(world.rate), "table"], f"{text}\n".encode(), folder)
                    assert ran.returncode == 1, (seed, mask, ran, text)
                    tried += 1
        assert tried > 20, tried
