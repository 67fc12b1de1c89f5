"""Bounds of classes that share their windows against runs: for seeded random schedules and tables, what `bounds` says beside what `script` does with
frames of the same table, and with frames of lower classes that come whenever they like.

A run is made of attacks. In each the frames of the judged class, and of those above it that share its windows, come as near as their periods and jitter
let them, or by chance; and frames of the other classes, up to the longest that the port takes, come just before them, or before the gate opens. No frame
of a judged class waits for longer than its bound, none is dropped where there is room for as many as may wait, no more than these ever wait, and each
starts. And of a class without bounds it is told rightly which class above it is in the way."""
import collections
import os
import random
import sys
import tempfile

from bounds_agree import lines_of, parts
from rows import Row

# Of a quarter. 1,000 with 24 attacks each were tried once, by hand: bounds_shared.py PROGRAM 0 1000 24.
CASES = 120
ATTACKS = 6
FRAMES = 400
RATES = [100, 1000, 1000, 2500, 10000]
LENGTHS = [60, 60, 60, 64, 100, 100, 200, 500, 1000, 1514]
PERIODS = [15, 20, 25, 40, 50, 60, 100, 120, 200]
CYCLES = [10, 20, 30, 40, 50, 60, 100]
MTUS = [1500, 1500, 68, 100, 200, 500, 1000, 2000]
LIMITS = [0, 0, 46, 64, 100, 200, 500]

Stream = collections.namedtuple("Stream", "first_id priority len shortest period offset jitter tagged")
World = collections.namedtuple("World", "rate mtu change cycle spans classes map limits schedule streams silent")
Frame = collections.namedtuple("Frame", "moment place len tagged")


# 1. A system


def spans_of(entries, cycle):
    """The masks of a cycle with their begins and ends. A list is cut at the cycle's end, and its last state shown on to it."""
    spans, at = [], 0
    for mask, interval in entries:
        if at < cycle:
            spans.append([at, min(at + interval, cycle), mask])
        at += interval
    spans[-1][1] = cycle
    return spans


def random_masks(chance, classes, count):
    """Masks in which classes share entries; some have windows of their own, beside an entry that is open to all."""
    whole = (1 << classes) - 1
    if chance.random() < 0.3:
        own = chance.randrange(classes)
        return [chance.choice([1 << own, whole, 255, whole & ~(1 << own)]) for _ in range(count)]
    if chance.random() < 0.15:
        return [whole] * count
    likely = chance.choice([0.5, 0.7, 0.9])
    return [sum(1 << number for number in range(classes) if chance.random() < likely) for _ in range(count)]


def random_map(chance, classes):
    """The classes of priorities. Some classes have none."""
    if chance.random() < 0.6:
        return list(range(classes))
    some = chance.sample(range(classes), chance.randint(1, classes))
    return [chance.choice(some) for _ in range(16)]


def random_stream(chance, place, world):
    """A stream, whose frames the port takes but of a few."""
    priority = chance.randrange(len(world.map) if chance.random() < 0.8 else 16)
    most = 14 + most_sdu(world, class_of(world, priority))
    longest = min(chance.choice(LENGTHS), most) if chance.random() < 0.9 else chance.choice(LENGTHS)
    shortest = longest if chance.random() < 0.7 else min(60, longest)
    tagged = chance.random() < 0.2
    period = chance.choice(PERIODS) * unit_of(world.rate) * (1 + longest // 400)
    jitter = chance.choice([0, 0, chance.randint(1, 30) * unit_of(world.rate), chance.randint(1, 3 * period)])
    offset = None if chance.random() < 0.6 else chance.randint(0, 60) * unit_of(world.rate)
    return Stream((place + 1) * 10**6, priority, longest, shortest, period, offset, jitter, tagged)


def unit_of(rate):
    """The picoseconds of a unit of time: longer where frames take longer."""
    return 10**9 // rate


def world(seed):
    """A schedule in which classes share windows, and a table."""
    chance = random.Random(seed)
    rate = chance.choice(RATES)
    unit = unit_of(rate)
    classes, cycle = chance.choice([2, 2, 3, 3, 4, 4, 5, 8]), chance.choice(CYCLES)
    intervals = parts(chance, cycle)
    entries = list(zip(random_masks(chance, classes, len(intervals)), intervals))
    extra = ""
    if chance.random() < 0.2:
        cycle += chance.choice([-5, 10])
        extra += f" cycle-time {cycle * unit // 1000}"
    mtu = chance.choice(MTUS)
    limits = [min(chance.choice(LIMITS), mtu) if chance.random() < 0.5 else 0 for _ in range(classes)] if chance.random() < 0.5 else [0] * classes
    if any(limits):
        extra += " max-sdu " + " ".join(map(str, limits))
    change = 10**11 + chance.randint(0, 10**6) * 1000
    mapped = random_map(chance, classes)
    schedule = f"tc qdisc replace dev eth0 root taprio num_tc {classes} map {' '.join(map(str, mapped))} base-time {change // 1000}{extra}"
    schedule += "".join(f" sched-entry S {mask:02x} {interval * unit // 1000}" for mask, interval in entries) + "\n"
    spans = spans_of([(mask, interval * unit) for mask, interval in entries], cycle * unit)
    limits += [0] * (8 - classes)
    bare = World(rate, mtu, change, cycle * unit, spans, classes, mapped, limits, schedule, [], [])
    streams = [random_stream(chance, place, bare) for place in range(chance.randint(1, 5))]
    bare = bare._replace(streams=streams)
    above = [number for number in led(bare) if not streams_of(bare, number) and any(streams_of(bare, lower) for lower in range(number))]
    return bare._replace(silent=[number for number in above if chance.random() < 0.85])


def class_of(world, priority):
    """The class of a priority: a map that is short goes on with class 0."""
    return world.map[priority] if priority < len(world.map) else 0


def led(world):
    """The classes to which a priority leads."""
    return sorted({class_of(world, priority) for priority in range(16)})


def most_sdu(world, number):
    """The greatest service data unit that the port takes into a class."""
    return min(world.mtu, world.limits[number] or world.mtu)


def longest_taken(world, it):
    """The longest frame of a stream that the port takes, or fewer octets than the shortest has."""
    return min(it.len, (18 if it.tagged else 14) + most_sdu(world, class_of(world, it.priority)))


def shares(world, one, other):
    """Whether two classes share windows."""
    return any(mask >> one & mask >> other & 1 for _, _, mask in world.spans)


def streams_of(world, number):
    """The places of the streams of a class, of which the port takes some frames."""
    return [place for place, it in enumerate(world.streams) if class_of(world, it.priority) == number and longest_taken(world, it) >= it.shortest]


def above(world, number):
    """The classes above one that share its windows."""
    return [other for other in range(number + 1, 8) if shares(world, number, other)]


def need(world, octets):
    """How long a frame occupies the wire."""
    return (max(octets, 60) + 24) * 8 * 10**6 // world.rate


def table(world, count=1):
    """The lines of the table."""
    lines = []
    for it in world.streams:
        offset = "any" if it.offset is None else f"{it.offset}ps"
        tag = " tagged" if it.tagged else ""
        lines.append(f"stream {it.first_id} {it.priority} {it.len} {it.period}ps {offset} {count}{tag} jitter {it.jitter}ps shortest {it.shortest}\n")
    return "".join(lines).encode()


# 2. What is told of it


Told = collections.namedtuple("Told", "classes waits most")


def told(program, world, folder, more=()):
    """What is told of each class; and of each that shares its windows and has bounds the wait and how many may wait."""
    with open(f"{folder}/table", "wb") as file:
        file.write(table(world))
    silent = ["--silent", ",".join(map(str, world.silent))] if world.silent else []
    words = ["bounds", "--rate", str(world.rate), "--mtu", str(world.mtu), "--frames", str(FRAMES), *silent, *more, "table"]
    lines = [line.split() for line in lines_of(program, words, world.schedule.encode(), folder).decode().splitlines()]
    classes = {int(line[1]): line[2:] for line in lines if line[0] == "class"}
    bounds = [line[2:] for line in lines if line[0] == "bound"]
    waits, most = {}, {}
    for place, (it, said) in enumerate(zip(world.streams, bounds)):
        number = class_of(world, it.priority)
        if longest_taken(world, it) < it.len:
            assert said == ["dropped", "TooLong" if it.len - (18 if it.tagged else 14) > world.mtu else "OverSdu"], (place, said)
        elif classes[number][0] == "within" and is_shared(world, number):
            wait = int(said[5]) - (0 if it.offset is None else it.jitter)
            assert waits.setdefault(number, wait) == wait, (place, said, waits)
            assert [said[3], said[7], said[9]] == ["0", str(need(world, it.shortest)), str(int(said[5]) + need(world, it.len))], (place, said)
            most[number] = int(classes[number][2])
    return Told(classes, waits, most)


def is_shared(world, number):
    """Whether a class shares windows with another, which may have no priority."""
    return any(shares(world, number, other) for other in range(8) if other != number)


def agrees_in_the_way(world, said):
    """Of a class below one of which nothing is known, or that has no bounds, that is told; and of no other."""
    for number, words in said.classes.items():
        if not is_shared(world, number):
            continue
        higher = above(world, number)
        unknown = [other for other in higher if not streams_of(world, other) and other in led(world) and other not in world.silent]
        without = [other for other in higher if streams_of(world, other) and said.classes[other][0] != "within"]
        if unknown:
            assert words == ["open", "to", *map(str, unknown)], (number, words, unknown)
        elif without:
            assert words == ["behind", str(max(without))], (number, words, without)
        else:
            assert words[0] in ("within", "blocked", "stuck", "long", "crowded"), (number, words)


# 3. Attacks


def openings(world, number):
    """The moments of a cycle at which the gate of a class opens."""
    masks = [mask for _, _, mask in world.spans]
    return [begin for at, (begin, _, mask) in enumerate(world.spans) if mask >> number & 1 and not masks[at - 1] >> number & 1]


def closings(world, number):
    """The moments of a cycle at which it closes."""
    return [world.spans[at - 1][1] for at, (begin, _, mask) in enumerate(world.spans) if not mask >> number & 1 and world.spans[at - 1][2] >> number & 1]




def with_it(world, number):
    """A class and those above it, of which its bounds ask that their frames come as the table says."""
    found = {number} if streams_of(world, number) else set()
    for other in above(world, number):
        if streams_of(world, other):
            found |= with_it(world, other)
    return found


def longest_of(world, number, target):
    """The longest frame that may be sent of a class of which nothing is asked, and whether it is tagged."""
    if number > target and streams_of(world, number):
        it = max((world.streams[place] for place in streams_of(world, number)), key=lambda it: longest_taken(world, it))
        return longest_taken(world, it), it.tagged
    return 18 + most_sdu(world, number), True


def stay(world, number, moment):
    """For how long the gate of a class stays open from a moment of a cycle on: two cycles at most."""
    at, left = moment % world.cycle, 0
    spans = world.spans * 3
    for begin, end, mask in spans[next(k for k, span in enumerate(spans) if span[0] <= at < span[1]) :]:
        if not mask >> number & 1 or left > 2 * world.cycle:
            break
        left += end - max(at, begin) if not left else end - begin
    return left


def fitting(world, number, target, moment):
    """The longest frame of such a class that may start at a moment, or as long as any where none may."""
    longest, tagged = longest_of(world, number, target)
    octets = stay(world, number, moment) * world.rate // (8 * 10**6) - 24
    return (min(longest, octets) if octets >= 60 else longest), tagged


def free(world, number):
    """The classes of which nothing is asked where one is judged, but how long their frames are."""
    return [other for other in led(world) if other not in with_it(world, number) and other not in world.silent]


def phase(chance, world, number):
    """A moment of the cycle: any, or near one where the gate opens, or just too late for some frames before it closes."""
    longest = max(need(world, longest_taken(world, world.streams[place])) for place in streams_of(world, number))
    kind = chance.random()
    if kind < 0.35 and openings(world, number):
        return chance.choice(openings(world, number)) + chance.choice([-1, 0, 0, 1])
    if kind < 0.75 and closings(world, number):
        wide = max([longest, *(need(world, longest_of(world, other, number)[0]) for other in free(world, number))])
        return chance.choice(closings(world, number)) - chance.randint(1, 3) * longest + chance.choice([0, 0, -wide, wide]) + chance.choice([0, 1, 1, 2])
    return chance.randrange(world.cycle)


def stream_frames(chance, world, place, begin, horizon):
    """Frames of a stream from a moment on: as many at once as its jitter allows, and then as near as they may; or by chance."""
    it = world.streams[place]
    jitter = chance.choice([it.jitter, it.jitter, it.jitter, 0, chance.randint(0, it.jitter)])
    slips = chance.random() < 0.2
    longest = longest_taken(world, it)
    lens = chance.choice([[longest], [longest], [it.shortest, longest], [it.shortest, longest, it.len], [it.shortest]])
    count = min(40, (horizon + jitter) // it.period + 1)
    frames, slip = [], 0
    for number in range(count):
        slip += chance.choice([0, 0, chance.randint(0, it.period)]) if slips else 0
        frames.append(Frame(begin + slip + max(0, number * it.period - jitter), place, chance.choice(lens), it.tagged))
    return frames


def flood(chance, world, target, frames, begin, horizon):
    """Frames of the other classes: each just before a judged one comes or the gate opens, or many at once."""
    others = free(world, target)
    if not others or chance.random() < 0.1:
        return []
    found = []
    aims = [begin, begin, begin, *(frame.moment for frame in frames[:8])]
    cycles = range(max(0, begin // world.cycle - 1), (begin + horizon) // world.cycle + 1)
    aims += [at * world.cycle + opening for at in list(cycles)[:6] for opening in openings(world, target)]
    for _ in range(chance.randint(1, 8)):
        other = chance.choice(others)
        longest, tagged = longest_of(world, other, target)
        moment = chance.choice(aims) - chance.choice([1, 1, 1, 0, 2, chance.randint(0, need(world, longest))])
        octets = chance.choice([longest, longest, fitting(world, other, target, moment)[0], chance.randint(min(60, longest), longest)])
        found.append(Frame(moment, -1 - other, octets, tagged))
    if chance.random() < 0.3:
        other = chance.choice(others)
        longest, tagged = longest_of(world, other, target)
        sizes = chance.choice([[longest], [longest, min(60, longest)]])
        moment = begin - chance.randint(0, world.cycle)
        found += [Frame(moment, -1 - other, chance.choice(sizes), tagged) for _ in range(chance.randint(2, 30))]
    return found


def attack(chance, world, said, target, base):
    """Frames of an attack that begins soon behind a moment that is a whole number of cycles."""
    begin = base + world.cycle + phase(chance, world, target) if base else chance.choice([0, 0, phase(chance, world, target) % world.cycle])
    horizon = said.waits[target] + 2 * world.cycle
    frames = []
    for number in with_it(world, target):
        for place in streams_of(world, number):
            period = world.streams[place].period
            if number == target:
                shift = chance.choice([0, 0, 0, 0, 1, chance.randint(0, period)])
            else:
                shift = chance.choice([0, 0, 0, 1, -1, chance.randint(-said.waits[number], period), chance.randint(0, said.waits[target])])
            frames += stream_frames(chance, world, place, max(0, begin + shift), horizon)
    return frames + flood(chance, world, target, frames, begin, horizon)


def whole_run(chance, world, said, target, attacks):
    """The frames of some attacks, one behind another: behind each the wire has time, and each stream may come anew."""
    frames, base = [], 0
    longest = max(it.period + it.jitter for it in world.streams) + said.waits[target] + 4 * world.cycle
    for _ in range(attacks):
        more = attack(chance, world, said, target, base)
        frames += more
        floods = sum(need(world, frame.len) for frame in more if frame.place < 0)
        base = (max(frame.moment for frame in more) + longest + 3 * floods) // world.cycle * world.cycle + world.cycle
    return frames


def conform(world, frames):
    """That frames come no nearer than their streams let them, and none of theirs before the schedule is in force."""
    for place, it in enumerate(world.streams):
        latest = None
        for number, moment in enumerate(sorted(frame.moment for frame in frames if frame.place == place)):
            assert moment >= 0, (place, moment)
            assert latest is None or moment >= latest + number * it.period - it.jitter, (place, number, moment)
            latest = max(latest, moment - number * it.period) if latest is not None else moment


def judged(world, said):
    """The classes whose waits are told, and of all above them that share their windows. It isn't of a class all of whose streams lose frames."""
    return [number for number in said.waits if with_it(world, number) <= set(said.waits)]


Ran = collections.namedtuple("Ran", "waits dropped summary script")


def run(program, world, frames, room, rest, folder, chance, before=()):
    """A run of these frames, behind some lines; of each class how long each frame waited, and None where one never started."""
    order = sorted(frames, key=lambda frame: (frame.moment, chance.random()))
    priorities = {number: [at for at in range(16) if class_of(world, at) == number] for number in led(world)}
    lines, now, came = [*before, world.schedule], None, {}
    for number, frame in enumerate(order):
        moment = world.change + frame.moment
        if moment != now:
            lines.append(f"clock {moment}\n")
            now = moment
        priority = world.streams[frame.place].priority if frame.place >= 0 else chance.choice(priorities[-1 - frame.place])
        lines.append(f"frame {number} {priority} {frame.len}{' tagged' if frame.tagged else ''}\n")
        came[number] = (class_of(world, priority), moment)
    words = ["script", "--summary", "--rate", str(world.rate), "--mtu", str(world.mtu), "--room", str(room), "--until", str(now + rest)]
    script = "".join(lines)
    answers = [line.split() for line in lines_of(program, words, script.encode(), folder).decode().splitlines()]
    assert ["installed", "change", str(world.change)] in answers, answers[0]
    starts = {int(it[1]): int(it[5]) for it in answers if it[0] == "start"}
    dropped = {int(it[1]): it[2] for it in answers if it[0] == "dropped"}
    waits = collections.defaultdict(list)
    for number, (its_class, moment) in came.items():
        if dropped.get(number, "Full") == "Full":
            waits[its_class].append(starts[number] - moment if number in starts else None)
    summary = {int(it[2]): dict(zip(it[3::2], it[4::2])) for it in answers if it[:2] == ["summary", "class"]}
    lost = collections.Counter(came[number][0] for number, why in dropped.items() if why == "Full")
    return Ran(waits, lost, summary, (words, script))


def holds(world, said, target, ran):
    """No bound is exceeded. The longest wait of the class that is judged, and the most of it that waited."""
    for number in with_it(world, target):
        if not ran.waits[number]:
            continue
        assert not ran.dropped[number], (number, "dropped", ran.dropped)
        assert None not in ran.waits[number], (number, "never starts")
        assert max(ran.waits[number]) <= said.waits[number], (number, "waits", max(ran.waits[number]), said.waits[number])
        assert int(ran.summary[number]["most"]) <= said.most[number], (number, "most", ran.summary[number], said.most[number])
    return max(ran.waits[target], default=0), int(ran.summary.get(target, {"most": 0})["most"])


def try_once(program, world, said, target, chance, attacks, folder):
    """A run of attacks on a class."""
    frames = whole_run(chance, world, said, target, attacks)
    conform(world, frames)
    room = max(said.most[number] for number in with_it(world, target)) if chance.random() < 0.7 else 128
    rest = max(said.waits.values()) + 1 + 3 * world.cycle
    ran = run(program, world, frames, room, rest, folder, chance)
    try:
        return holds(world, said, target, ran)
    except AssertionError as fault:
        raise AssertionError(f"{fault}\n{' '.join(ran.script[0])}\n{ran.script[1]}") from fault


def drawn(program, world, words, folder):
    """The frames of the whole table as `streams` makes them with these words."""
    script = lines_of(program, ["streams", *words], table(world, 30), folder).decode()
    frames, now = [], 0
    for said in map(str.split, script.splitlines()):
        if said[0] == "clock":
            now = int(said[1])
        else:
            place = int(said[1]) // 10**6 - 1
            frames.append(Frame(now, place, int(said[3]), world.streams[place].tagged))
    return frames


def agrees_drawn(program, world, said, seed, folder):
    """The runs of `streams`, beside long frames of the classes without streams."""
    chance = random.Random(seed)
    others = [number for number in led(world) if not streams_of(world, number) and number not in world.silent]
    for words in (["--late"], ["--seed", str(seed)]):
        frames = drawn(program, world, words, folder)
        conform(world, frames)
        for frame in chance.sample(frames, min(len(frames), 20)) if others else []:
            other = chance.choice(others)
            frames.append(Frame(frame.moment - 1, -1 - other, *longest_of(world, other, other)))
        ran = run(program, world, frames, 128, max(said.waits.values()) + 1 + 3 * world.cycle, folder, chance)
        for target in judged(world, said):
            holds(world, said, target, ran)


def agrees_leftovers(program, world, seed, attacks, folder):
    """With frames that wait from before the schedule, when the limit of their class was none: up to the greatest that the port takes. How many were judged."""
    said, chance = told(program, world, folder, ["--leftovers"]), random.Random(seed)
    for number, words in said.classes.items():
        unknown = [other for other in above(world, number) if streams_of(world, other) or other not in world.silent]
        assert not is_shared(world, number) or (words[:2] == ["open", "to"]) == bool(unknown), (number, words)
        assert not unknown or not is_shared(world, number) or words[2:] == [str(other) for other in unknown], (number, words, unknown)
    for target in judged(world, said):
        mapped = " ".join(map(str, world.map))
        earlier = [f"tc qdisc replace dev eth0 root taprio num_tc {world.classes} map {mapped} base-time 20000000 sched-entry S 00 100000\n"]
        earlier.append("clock 30000000000\n")
        for identity in range(chance.randint(1, 20)):
            others = [priority for priority in range(16) if class_of(world, priority) != target and class_of(world, priority) not in world.silent]
            if others:
                earlier.append(f"frame {10**9 + identity} {chance.choice(others)} {18 + world.mtu} tagged\n")
        frames = whole_run(chance, world, said, target, attacks)
        ran = run(program, world, frames, 128, said.waits[target] + 1 + 3 * world.cycle, folder, chance, earlier)
        holds(world, said, target, ran)
    return len(judged(world, said))


def agrees(program, seed, attacks, folder):
    """A case: what is told of its classes, and how near a run came to each bound."""
    it, chance = world(seed), random.Random(seed)
    said = told(program, it, folder)
    agrees_in_the_way(it, said)
    near = {}
    for target in judged(it, said):
        wait, most = try_once(program, it, said, target, chance, attacks, folder)
        near[target] = (wait / said.waits[target] if said.waits[target] else 1, most / said.most[target], len(with_it(it, target)))
    if said.waits and seed % 4 == 1:
        agrees_drawn(program, it, said, seed, folder)
    if seed % 4 == 3:
        agrees_leftovers(program, it, seed, attacks, folder)
    return [words[0] for number, words in said.classes.items() if is_shared(it, number)], near


def shown(world):
    """A case for a reader."""
    silent = f"--silent {','.join(map(str, world.silent))} " if world.silent else ""
    return f"--rate {world.rate} --mtu {world.mtu} {silent}\n{world.schedule}{table(world).decode()}"


def tried(program, seeds, attacks):
    """Some cases: how many classes of each kind are among them, and how near their bounds came."""
    kinds, nears = collections.Counter(), []
    with tempfile.TemporaryDirectory(prefix="taprio-shared-") as folder:
        for seed in seeds:
            try:
                said, near = agrees(program, seed, attacks, folder)
            except Exception as fault:
                raise AssertionError(f"seed {seed}: {shown(world(seed))}{fault}") from fault
            kinds.update(said)
            nears += near.values()
    return kinds, nears


def quarter(program, part):
    """A quarter of the cases; each kind of class is among them, and runs come near to the bounds."""
    kinds, nears = tried(program, range(part * CASES, (part + 1) * CASES), ATTACKS)
    assert kinds["within"] > 100 and min(kinds[word] for word in ("open", "behind", "blocked", "stuck", "long")) > 0, kinds
    assert sum(wait > 0.9 for wait, _, _ in nears) > 20, sorted(nears)
    assert sum(judged > 1 for _, _, judged in nears) > 10, nears


def case_no_frame_of_a_shared_class_is_later_than_its_bound_first_quarter(program):
    quarter(program, 0)


def case_no_frame_of_a_shared_class_is_later_than_its_bound_second_quarter(program):
    quarter(program, 1)


def case_no_frame_of_a_shared_class_is_later_than_its_bound_third_quarter(program):
    quarter(program, 2)


def case_no_frame_of_a_shared_class_is_later_than_its_bound_fourth_quarter(program):
    quarter(program, 3)


# 4. By hand: two streams with frames of 3 us in a window of 15 us of 30, which a lower class shares whose frames take 6 us.

WORKED = b"tc qdisc replace dev eth0 root taprio num_tc 2 map 0 1 base-time 100000 sched-entry S 03 15000 sched-entry S 01 15000\n"
TWO = b"stream 1 1 351 30us 0us 1\nstream 2 1 351 30us 8us 1\n"
# Both come when a lower frame has just begun so late that none of them fits behind it; and at the next opening one has just begun, too.
WORST = [(106000001, 0), (106000002, 1), (106000002, 1), (129999999, 0)]
WORST_STARTS = [(106000001, 0), (129999999, 0), (135999999, 1), (138999999, 1)]
# The first one starts at once. The second comes before the first had ended if it had waited, and would start then, behind it: but the first has ended
# sooner, so that a lower frame has the wire, and the second waits for the next cycle.
ANEW = [(100000000, 1), (107999999, 0), (108000000, 1), (129999999, 0)]
ANEW_STARTS = [(100000000, 1), (107999999, 0), (129999999, 0), (135999999, 1)]

# A limit that is new, and a schedule before it with a frame that waits for longer than that lets one.
LIMITED = b"tc qdisc replace dev eth0 root taprio num_tc 2 map 0 1 max-sdu 46 0 base-time 100000 sched-entry S 03 30000\n"
EARLIER = b"tc qdisc replace dev eth0 root taprio num_tc 2 map 0 1 base-time 20000 sched-entry S 00 30000\nclock 30000000\nframe 1 0 1518 tagged\n"


def by_hand(name, came, starts):
    """A run of frames at moments, of the two classes, whose starts are known."""
    lines = [f"clock {moment}\nframe {identity} {number} {351 if number else '726 tagged'}\n" for identity, (moment, number) in enumerate(came)]
    left = collections.defaultdict(collections.deque)
    for identity, (_, number) in enumerate(came):
        left[number].append(identity)
    wanted = [f"start {left[number].popleft()} class {number} at {at} end {at + (3000000 if number else 6000000)}".encode() for at, number in starts]
    words = ["script", "--mtu", "708", "--until", "200us"]
    return Row(name, words, WORKED + "".join(lines).encode(), output=None, output_lines=wanted, output_begun={b"start": len(wanted)})


def rows():
    bounds = b"apart none\nclass 1 within most 3 of 128\n"
    bounds += b"".join(b"bound %d class 1 within 0 to 32999997 end 3000000 to 35999997\n" % number for number in (1, 2))
    yield Row("two streams share their windows with a lower class", ["bounds", "--mtu", "708", "table"], WORKED, {"table": TWO}, bounds)
    for words, wait in (([], 703999), (["--leftovers"], 12335999)):
        told = f"apart none\nclass 1 within most 1 of 128\nbound 9 class 1 within 0 to {wait} end 672000 to {wait + 672000}\n".encode()
        yield Row(f"beside a class whose limit is new {' '.join(words)}", ["bounds", *words, "table"], LIMITED, {"table": b"stream 9 1 60 30us any 1\n"}, told)
    lines = EARLIER + b"clock 40000000\n" + LIMITED + b"clock 100000001\nframe 9 1 60\n"
    starts = [b"start 1 class 0 at 100000000 end 112336000", b"start 9 class 1 at 112336000 end 113008000"]
    yield Row("a frame that waits from before a limit blocks for its whole length", ["script", "--until", "130us"], lines, output=None, output_lines=starts)
    yield by_hand("the second of two waits for as long as the bound says, to the picosecond", WORST, WORST_STARTS)
    yield by_hand("a lower frame blocks a class anew whose frame has ended sooner", ANEW, ANEW_STARTS)


if __name__ == "__main__":
    first, last, attacks = map(int, sys.argv[2:5])
    kinds, nears = tried(os.path.abspath(sys.argv[1]), range(first, last), attacks)
    print(kinds, len(nears), "bounds tried; wait and most reached in the mean:", *(sum(it[k] for it in nears) / len(nears) for k in (0, 1)))
