"""`paths` on random networks, against runs of their ports one after another: what a port sends comes to the next one within the times of the link.

A network is a line of two to five ports, or two lines that meet. Each port has a schedule and a clock of its own. The frames of a stream come from its
talker within its jitter; behind a port they come when its run says, a time of the link later. Each port has other frames of class 0, too. No frame may end
sooner or later than `path` says, and none of a stream with a bound may be dropped. With one port, no jitter and one length, the greatest wait is that of
`bounds`, whose answer is exact there."""
import collections
import os
import random
import subprocess
import tempfile

CASES = 30
# picoseconds of an octet, of the gap, and of what surrounds a frame
OCTET = {100: 80000, 1000: 8000}
GAP = 12
US = 1000 * 1000
CYCLES = 40

Port = collections.namedtuple("Port", "name rate cycle base entries ahead")
Stream = collections.namedtuple("Stream", "id priority len shortest period offset jitter way")
Network = collections.namedtuple("Network", "ports links clocks streams")


def windows(chance, cycle):
    """Entries that keep classes 3 and 2 apart, or let them share: masks and nanoseconds."""
    parts = sorted(chance.sample(range(1, 10), 2))
    cuts = [0, *(part * cycle // 10 for part in parts), cycle]
    masks = chance.choice([[0x8, 0x4, 0x3], [0x8, 0x6, 0x1], [0xC, 0x3, 0xF], [0xF, 0xF, 0xF], [0x8, 0x7, 0x8]])
    return [(mask, end - start) for mask, start, end in zip(masks, cuts, cuts[1:])]


def network(chance):
    """A random network."""
    count = chance.randrange(2, 6)
    cycle = chance.choice([250000, 500000, 1000000])
    clocks = chance.choice([0, 0, 100000, 1500000])
    names = [f"sw{number}" for number in range(count)]
    ports = [
        Port(name, chance.choice([100, 1000, 1000]), chance.choice([cycle, cycle // 2, cycle * 2]), chance.randrange(cycle),
             [], chance.randrange(clocks + 1))
        for name in names
    ]
    ports = [port._replace(entries=windows(chance, port.cycle)) for port in ports]
    joins = count > 2 and chance.random() < 0.5
    pairs = [(0, 2), *((at, at + 1) for at in range(1, count - 1))] if joins else [(at, at + 1) for at in range(count - 1)]
    links = {}
    for one, other in pairs:
        least = chance.randrange(5 * US)
        links[one, other] = (least, least + chance.choice([0, 0, chance.randrange(3 * US)]))
    streams = []
    for number in range(chance.randrange(1, 5)):
        at = chance.randrange(count)
        way = [at]
        while (nexts := [other for one, other in pairs if one == way[-1]]) and chance.random() < 0.8:
            way.append(nexts[0])
        octets = chance.randrange(60, 400)
        period = cycle * chance.choice([1, 2, 4]) * 1000
        streams.append(Stream(
            1000 * (number + 1), chance.choice([2, 3]), octets, chance.choice([octets, 60]), period,
            chance.choice([None, chance.randrange(period)]), chance.choice([0, chance.randrange(period // 4)]), way))
    return Network(ports, links, clocks, streams)


def table(net):
    """The lines of a network."""
    lines = [f"port {port.name} rate {port.rate}" for port in net.ports]
    lines += [f"link {net.ports[a].name} {net.ports[b].name} {least}ps {greatest}ps" for (a, b), (least, greatest) in net.links.items()]
    lines.append(f"clocks {net.clocks}ps")
    for x in net.streams:
        offset = "any" if x.offset is None else f"{x.offset}ps"
        shortest = "" if x.shortest == x.len else f" shortest {x.shortest}"
        jitter = f" jitter {x.jitter}ps" if x.jitter else ""
        way = " ".join(net.ports[at].name for at in x.way)
        lines.append(f"stream {x.id} {x.priority} {x.len} {x.period}ps {offset} 1{shortest}{jitter} via {way}")
    return "".join(f"{line}\n" for line in lines)


def command(port):
    """The schedule of a port."""
    entries = " ".join(f"sched-entry S {mask:02x} {interval}" for mask, interval in port.entries)
    return (f"tc qdisc replace dev {port.name} root taprio num_tc 4 map 0 1 2 3 0 0 0 0 base-time {port.base} "
            f"cycle-time {port.cycle} {entries} clockid CLOCK_TAI\n")


def run(program, words, text):
    """What the program writes for this input."""
    return subprocess.run([program, *words], input=text, capture_output=True, text=True, check=True).stdout


def told(program, net, folder):
    """By stream what `path` says: the least end and the greatest, or None."""
    path = os.path.join(folder, "network")
    with open(path, "w", encoding="utf-8") as file:
        file.write(table(net))
    crossed = {at for x in net.streams for at in x.way}
    schedules = "".join(command(port) for at, port in enumerate(net.ports) if at in crossed)
    answer = run(program, ["paths", "--silent", "1", path], schedules)
    found = {}
    for line in answer.splitlines():
        words = line.split()
        if words[0] == "path":
            found[int(words[1])] = (int(words[3]), int(words[5])) if words[2] == "end" else None
    assert found.keys() == {x.id for x in net.streams}, answer
    return found, answer


def sent(program, port, zero, frames, chance):
    """By frame its end, of a run of a port with these frames at their moments by its clock; and which are dropped."""
    last = max((moment for moment, *_ in frames), default=zero)
    others = [(zero + chance.randrange(max(1, last - zero)), 0, 0, chance.choice([60, 300, 1500])) for _ in range(30)]
    script = [command(port)]
    for moment, identity, priority, octets in sorted(frames + others, key=lambda frame: frame[0]):
        script.append(f"clock {moment}\nframe {identity} {priority} {octets}\n")
    ends, dropped = {}, set()
    for line in run(program, ["script", "--rate", str(port.rate), "--until", f"{last + 20 * port.cycle * 1000}"], "".join(script)).splitlines():
        words = line.split()
        if words[0] == "start":
            ends[int(words[1])] = int(words[7])
        elif words[0] == "dropped":
            dropped.add(int(words[1]))
    return ends, dropped


def arrivals(net, chance, zero):
    """The frames of all talkers, by the clock of their first port: port, moment, id, priority, octets, and their nominal moments."""
    frames, nominal = [], {}
    for x in net.streams:
        slack = chance.choice([0, x.jitter, None])
        moment = chance.randrange(x.period)
        for number in range(CYCLES * 250 * US // x.period):
            identity = x.id + number
            late = chance.randrange(x.jitter + 1) if slack is None else slack
            if x.offset is None:
                at = zero + moment
                moment += x.period - (chance.randrange(x.jitter + 1) if number % 2 and x.jitter else 0) if number % 2 else x.period
                nominal[identity] = at
            else:
                nominal[identity] = zero + x.offset + number * x.period
                at = nominal[identity] + late
            frames.append((x.way[0], at, identity, x.priority, chance.choice([x.len, x.shortest])))
    return frames, nominal


def check(program, seed):
    """A network, its bounds, and two runs."""
    chance = random.Random(seed)
    net = network(chance)
    with tempfile.TemporaryDirectory() as folder:
        bounds, answer = told(program, net, folder)
    zero = 64 * 4 * max(port.cycle for port in net.ports) * 1000
    least_ends = {}
    for turn in range(2):
        waiting, nominal = arrivals(net, chance, zero)
        by_id = {x.id: x for x in net.streams}
        for at in order(net):
            port = net.ports[at]
            frames = [(moment, identity, priority, octets) for where, moment, identity, priority, octets in waiting if where == at]
            ends, dropped = sent(program, port, zero, frames, chance)
            lengths = {identity: octets for _, identity, _, octets in frames}
            for moment, identity, priority, octets in frames:
                x = by_id[identity // 1000 * 1000]
                bound = bounds[x.id]
                if bound is None:
                    continue
                assert identity not in dropped and identity in ends, f"seed {seed}: frame {identity} is lost at {port.name}\n{table(net)}{answer}"
                end = ends[identity]
                if at == x.way[-1]:
                    took = end - nominal[identity]
                    assert bound[0] <= took <= bound[1], f"seed {seed}: frame {identity} took {took}, told {bound}\n{table(net)}{answer}"
                    least_ends[x.id] = max(least_ends.get(x.id, 0), took)
            for identity, end in ends.items():
                x = by_id.get(identity // 1000 * 1000)
                if x is None or at == x.way[-1] or identity not in lengths:
                    continue
                behind = x.way[x.way.index(at) + 1]
                least, greatest = net.links[at, behind]
                link = chance.choice([least, greatest, chance.randrange(least, greatest + 1)])
                moved = net.ports[behind].ahead - port.ahead
                waiting.append((behind, end - GAP * OCTET[port.rate] + link + moved, identity, x.priority, lengths[identity]))
    return [(least_ends[x.id], bounds[x.id][1]) for x in net.streams if bounds[x.id] and x.id in least_ends]


def order(net):
    """The ports, those before others first."""
    ports, placed = list(range(len(net.ports))), []
    while ports:
        ready = [at for at in ports if not any(b == at and a in ports for a, b in net.links)]
        placed += ready
        ports = [at for at in ports if at not in ready]
    return placed


def case_no_frame_of_a_network_ends_outside_of_its_bounds(program):
    """Random networks, each with two runs."""
    reached = [pair for seed in range(CASES) for pair in check(program, seed)]
    assert len(reached) >= CASES // 2, f"only {len(reached)} streams have bounds"


def single(chance):
    """A port with exact streams, each of a class that is kept apart."""
    cycle = 500000
    octets = chance.randrange(60, 600)
    streams = [Stream(number + 1, 2 + number % 2, octets, 0, cycle * 1000, chance.randrange(cycle * 1000), 0, [0]) for number in range(4)]
    port = Port("sw", 1000, cycle, 0, [(0x8, 200000), (0x4, 200000), (0x1, 100000)], 0)
    return Network([port], {}, 0, [x._replace(shortest=x.len) for x in streams])


def case_one_port_waits_as_bounds_says(program):
    """The greatest waits at one port are those of `bounds`."""
    for seed in range(10):
        net = single(random.Random(seed))
        schedule = command(net.ports[0])
        with tempfile.TemporaryDirectory() as folder:
            ends, _ = told(program, net, folder)
            path = os.path.join(folder, "table")
            with open(path, "w", encoding="utf-8") as file:
                file.write("".join(line.split(" via ")[0] + "\n" for line in table(net).splitlines() if line.startswith("stream")))
            for line in run(program, ["bounds", path], schedule).splitlines():
                words = line.split()
                if words[0] == "bound":
                    assert ends[int(words[1])][1] == int(words[-1]), f"seed {seed}: {line}, {ends}"
