"""The inputs of bench/instructions: six workloads, those that show how the work grows, and lines that are seldom, each determined by its
name and a seed. All moments are in picoseconds."""
import random
import struct
from functools import partial

REPLACE = "tc qdisc replace dev eth0 root taprio"
MAPPED = f"{REPLACE} num_tc 8 map 0 1 2 3 4 5 6 7"
GREATEST = 9223372036854775807000
SECOND = 10**12

# The times of a record are seconds and nanoseconds, from this second on.
FIRST_SECOND = 1_700_000_000


def entries(chance, masks, shortest, longest):
    return " ".join(f"sched-entry S {mask:02x} {chance.randint(shortest, longest)}" for mask in masks)


def open_gates(chance, count):
    """Frames and no schedule, so that all gates are open; the wire is about as fast as the frames come."""
    now = 0
    for number in range(count):
        tagged = " tagged" if chance.random() < 0.25 else ""
        yield f"frame {number} {chance.randrange(8)} {chance.randint(46, 1514)}{tagged}"
        if chance.random() < 0.3:
            now += chance.randrange(2 * 22_000_000)
            yield f"clock {now}"


def sixteen_entries(chance, count):
    """Frames over a schedule of 16 entries: one for each class, and eight of several classes."""
    masks = [1 << number for number in range(8)] + [0xFF, 0x0F, 0xF0, 0x81, 0x42, 0x24, 0x18, 0x7E]
    chance.shuffle(masks)
    yield f"{MAPPED} base-time 100000 cycle-time-extension 5000 {entries(chance, masks, 20000, 125000)}"
    now = 100_000_000
    yield f"clock {now}"
    for number in range(count):
        octets = chance.choice((46, 64, 64, 128, 256, 512, 594, 1000, 1500, 1514))
        yield f"frame {number} {chance.randrange(8)} {octets}"
        if chance.random() < 0.25:
            now += chance.randrange(2 * 26_000_000)
            yield f"clock {now}"


def short_entries(chance, count):
    """Near clock events over 256 short entries, with few frames between them."""
    masks = [chance.randrange(256) for _ in range(256)]
    yield f"{MAPPED} base-time 100000 {entries(chance, masks, 600, 6000)}"
    now = 100_000_000
    yield f"clock {now}"
    for number in range(count):
        now += chance.randint(50_000, 2_000_000)
        yield f"clock {now}"
        if chance.random() < 0.15:
            yield f"frame {number} {chance.randrange(8)} {chance.choice((46, 64, 100, 200, 300, 600))}"


def far_clocks(chance, count):
    """Clock events 10^15 ps apart and more, while a frame waits that fits into no window of its class."""
    gates = []
    for _ in range(16):
        gates += [(0x02, chance.randint(9000, 12303)), (chance.choice((0x04, 0x08, 0x10)), chance.randint(2000, 50000))]
    yield f"{MAPPED} base-time 100000 " + " ".join(f"sched-entry S {mask:02x} {length}" for mask, length in gates)
    now = 100_000_000
    yield f"clock {now}"
    yield "frame 0 1 1514"
    longest = max(10**15, min(8 * 10**15, GREATEST // (count + 1)))
    for number in range(1, count + 1):
        now += chance.randint(10**15, longest)
        yield f"clock {now}"
        if number % 64 == 0:
            yield f"frame {number} {chance.choice((2, 3, 4))} 64"
        if number % 4096 == 0:
            yield "query"


def options(chance):
    given = []
    if chance.random() < 0.4:
        given.append(f"cycle-time-extension {chance.randint(0, 200000)} ")
    if chance.random() < 0.3:
        given.append(f"cycle-time {chance.randint(10000, 3000000)} ")
    if chance.random() < 0.2:
        given.append("clockid CLOCK_TAI flags 0x2 ")
    if chance.random() < 0.1:
        given.append("max-sdu 0 0 0 1500 0 900 ")
    return "".join(given)


def commands(chance, count):
    """Schedules of 1 to 64 entries that replace each other, with clock events and frames between them."""
    now = frames = 0
    yield f"{MAPPED} base-time 1000 sched-entry S ff 300000"
    for _ in range(count):
        if chance.random() < 0.85:
            now += chance.randint(8_000_000, 60_000_000)
            yield f"clock {now}"
        for _ in range(chance.randrange(3)):
            yield f"frame {frames} {chance.randrange(8)} {chance.randint(46, 1514)}"
            frames += 1
        if chance.random() < 0.02:
            yield "tc qdisc del dev eth0 root"
            continue
        masks = [chance.randrange(256) | 1 << chance.randrange(8) for _ in range(chance.choice((1, 2, 4, 8, 8, 16, 16, 32, 64)))]
        base = max(0, now // 1000 + chance.randint(-50000, 200000))
        head = REPLACE if chance.random() < 0.7 else MAPPED
        yield f"{head} base-time {base} {options(chance)}{entries(chance, masks, 2000, 60000)}"


def eight_entries(chance, count):
    """The schedule of a replay, which has only this line and a query."""
    masks = [0xFF, 0x81, 0x7E, 0x0F, 0xF0, 0x55, 0xAA, 0xFF]
    yield f"{MAPPED} base-time {FIRST_SECOND}000100000 {entries(chance, masks, 30000, 200000)}"
    yield "query"


def write_capture(chance, count, path):
    """Tagged records of 64 to 1500 octets; answers the moment to run to."""
    octets = chance.randbytes(1 << 16)
    now = 0
    with open(path, "wb", buffering=1 << 20) as file:
        file.write(struct.pack("<IHHiIII", 0xA1B23C4D, 2, 4, 0, 0, 262144, 1))
        for _ in range(count):
            now += chance.randint(100, 14000)
            held = chance.randint(64, 1500)
            whole = held if chance.random() < 0.8 else chance.randint(held, 1518)
            at = chance.randrange(60000)
            tag = struct.pack(">HHH", 0x8100, chance.randrange(8) << 13 | 5, 0x0800)
            file.write(struct.pack("<IIII", FIRST_SECOND + now // 10**9, now % 10**9, held, whole))
            file.write(bytes(12) + tag + octets[at:at + held - 18])
    return (FIRST_SECOND + now // 10**9 + 10) * SECOND


def frames_over(many, chance, count):
    """Frames over a schedule of so many entries, whose cycle is as long whatever their number."""
    masks = [chance.randrange(1, 256) for _ in range(many)]
    length = 2_560_000 // many
    yield f"{MAPPED} base-time 100000 {entries(chance, masks, length, length)}"
    now = 100_000_000
    yield f"clock {now}"
    for number in range(count):
        yield f"frame {number} {chance.randrange(8)} {chance.randint(46, 594)}"
        if chance.random() < 0.25:
            now += chance.randrange(2 * 26_000_000)
            yield f"clock {now}"


def clocks_apart(cycles, _chance, count):
    """Clock events so many cycles apart over 16 entries, while a frame waits that fits into no window of its class."""
    yield f"{MAPPED} base-time 100000 " + " ".join(["sched-entry S 02 9000", "sched-entry S 04 11000"] * 8)
    now = 100_000_000
    yield f"clock {now}"
    yield "frame 0 1 1514"
    for _ in range(count):
        now += cycles * 160_000_000
        yield f"clock {now}"


def moments_back(_chance, count):
    """Clock events that would go back."""
    yield "clock 1000000"
    yield from ["clock 5"] * count


def queries(_chance, count):
    """Queries of a port that has no schedule."""
    return iter(["query"] * count)


def counts(_chance, count):
    """What each class has counted, again and again."""
    return (f"count {number % 8}" for number in range(count))


def deletions(_chance, count):
    """Deletions, each of which has come into force before the next: so many lines as are asked for."""
    for number in range(count // 2):
        yield f"clock {number * SECOND}"
        yield "tc qdisc del dev eth0 root"


def written(change, chance, count):
    """The lines of the first workload, written otherwise."""
    return (change(line) for line in open_gates(chance, count))


def with_long_id(line):
    """A frame with an id of 16 digits."""
    word, _, rest = line.partition(" ")
    return line if word == "clock" else f"{word} 10{int(rest.split()[0]):014} " + rest.partition(" ")[2]


WORKLOADS = {
    "open": open_gates,
    "sched16": sixteen_entries,
    "short256": short_entries,
    "far": far_clocks,
    "tc": commands,
    "replay": eight_entries,
}

GROWTH = {f"entries: {many}": partial(frames_over, many) for many in (1, 16, 64, 256)} | {
    f"cycles apart: {cycles}": partial(clocks_apart, cycles) for cycles in (1, 1000, 10**6, 10**8)
}

SELDOM = {
    "moments that go back": moments_back,
    "query": queries,
    "count": counts,
    "clock and del": deletions,
    "tabs": partial(written, lambda line: line.replace(" ", "\t")),
    "CR LF": partial(written, lambda line: line + "\r"),
    "ids of 16 digits": partial(written, with_long_id),
}


def write_script(name, seed, count, path):
    """Writes the script of a workload, and answers how many lines it has."""
    lines = 0
    with open(path, "w") as file:
        for line in (WORKLOADS | GROWTH | SELDOM)[name](random.Random(f"{seed} {name}"), count):
            file.write(line + "\n")
            lines += 1
    return lines
