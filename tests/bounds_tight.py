"""How near runs come to the bounds of classes that share their windows: tests/bounds_tight.py PROGRAM FIRST LAST ROUNDS, by hand.

Of each system of at most three classes among these seeds (`bounds_shared.world`) a search climbs: of some attacks those with the longest waits are kept
and changed. It tells the longest wait over the bound for classes that no class above them shares windows with, and for the others."""
import collections
import os
import random
import sys
import tempfile

import bounds_shared
from bounds_shared import Frame, class_of, fitting, free, judged, longest_of, need, openings, phase, streams_of, told, with_it, world

TOGETHER = 16
KEPT = 4
OPENINGS = 6

# An attack: the moment of the cycle, of each stream how much later it begins, how much of its jitter is taken and whether its frames are short, and frames
# of other classes: at a moment from the begin on, or just before one of the openings of the gate behind it; of no length: the longest that may start then.
Attack = collections.namedtuple("Attack", "begin shifts jitters short others")


def shift_of(chance, world, said, target, place):
    """When a stream begins."""
    period, number = world.streams[place].period, class_of(world, world.streams[place].priority)
    wait = said.waits[target]
    if number == target:
        return chance.choice([0, 0, 0, 0, 1, chance.randint(0, period), chance.randint(0, wait)])
    return chance.choice([0, 0, 1, -1, chance.randint(-said.waits[number] - 1, 0), chance.randint(0, wait + 1), -chance.randint(0, period)])


def other_of(chance, world, said, target):
    """A frame of another class."""
    number = chance.choice(free(world, target))
    longest, _ = longest_of(world, number, target)
    octets = chance.choice([longest, longest, longest, 0, 0, chance.randint(min(60, longest), longest)])
    if chance.random() < 0.4 and openings(world, target):
        return "opening", chance.choice([0, 0, 0, 1, 1, 2, 3]), number, chance.choice([0, 0, longest])
    moment = chance.choice([-1, -1, -1, chance.randint(-need(world, longest), 0), chance.randint(-world.cycle, said.waits[target])])
    return "moment", moment, number, octets


def before_each(world, target):
    """The longest frame of another class just before the attack, and just before each of the next openings of the gate."""
    number = max(free(world, target), key=lambda it: longest_of(world, it, target)[0])
    return [("moment", -1, number, 0)] + [("opening", count, number, 0) for count in range(OPENINGS if openings(world, target) else 0)]


def first_attack(chance, world, said, target):
    """Any attack: mostly with all jitter at once, and with a frame just before it."""
    places = [place for number in with_it(world, target) for place in streams_of(world, number)]
    others = [other_of(chance, world, said, target) for _ in range(chance.randint(1, 3))] if free(world, target) else []
    if others and chance.random() < 0.5:
        others = before_each(world, target)
    return Attack(
        phase(chance, world, target),
        {place: shift_of(chance, world, said, target, place) for place in places},
        {place: world.streams[place].jitter for place in places},
        {place: chance.random() < 0.1 for place in places},
        others,
    )


def changed(chance, world, said, target, attack):
    """An attack with one or two changes."""
    begin, shifts, jitters, short, others = attack.begin, dict(attack.shifts), dict(attack.jitters), dict(attack.short), list(attack.others)
    longest = max(need(world, it.len) for it in world.streams)
    for _ in range(chance.choice([1, 1, 2, 3])):
        place = chance.choice(list(shifts))
        kind = chance.random()
        if kind < 0.15:
            begin = phase(chance, world, target)
        elif kind < 0.35:
            begin += chance.choice([1, -1, longest, -longest, chance.randint(-longest, longest), chance.randint(-1000, 1000) * 1000])
        elif kind < 0.5:
            shifts[place] = shift_of(chance, world, said, target, place)
        elif kind < 0.65:
            shifts[place] += chance.choice([1, -1, longest, -longest, chance.randint(-longest, longest), chance.randint(-longest, longest)])
        elif kind < 0.68:
            jitters[place] = chance.choice([world.streams[place].jitter, 0, chance.randint(0, world.streams[place].jitter)])
        elif kind < 0.7:
            short[place] = not short[place]
        elif not free(world, target):
            begin = phase(chance, world, target)
        elif kind < 0.9 or not others:
            others = (others + [other_of(chance, world, said, target)])[-8:]
        else:
            at = chance.randrange(len(others))
            which, moment, number, octets = others.pop(at)
            if chance.random() < 0.7 and which == "moment":
                others.insert(at, (which, moment + chance.choice([1, -1, longest, -longest, chance.randint(-longest, longest)]), number, octets))
            elif chance.random() < 0.7:
                others.insert(at, (which, moment, number, chance.choice([0, longest_of(world, number, target)[0]])))
    return Attack(begin % world.cycle, shifts, jitters, short, others)


def opening_behind(world, target, begin, count):
    """The moment of an opening of the gate, of those behind a moment."""
    of = openings(world, target)
    first = begin // world.cycle * world.cycle
    found = [first + turn * world.cycle + at for turn in range(count + 2) for at in of]
    return [moment for moment in found if moment >= begin][count]


def frames_of(world, said, target, attack, base):
    """The frames of an attack, in the cycle that begins then or the next."""
    begin = base + attack.begin
    horizon = said.waits[target] + 2 * world.cycle
    frames = []
    for place, shift in attack.shifts.items():
        it = world.streams[place]
        count = min(60, (horizon + attack.jitters[place]) // it.period + 1)
        octets = it.shortest if attack.short[place] else it.len
        frames += [Frame(begin + shift + max(0, number * it.period - attack.jitters[place]), place, octets, it.tagged) for number in range(count)]
    for which, value, number, octets in attack.others:
        moment = begin + value if which == "moment" else opening_behind(world, target, begin, value) - 1
        frames.append(Frame(moment, -1 - number, octets or fitting(world, number, target, moment)[0], longest_of(world, number, target)[1]))
    return frames


def worst_of(program, world, said, target, attacks, folder):
    """Of each attack the longest wait of the class that is judged."""
    frames, ends, base = [], [], 0
    span = max(it.period + it.jitter + max(0, *(abs(attack.shifts.get(place, 0)) for attack in attacks)) for place, it in enumerate(world.streams))
    back = -(-(span + max(said.waits.values()) + world.cycle) // world.cycle) * world.cycle
    base = back
    for attack in attacks:
        more = frames_of(world, said, target, attack, base)
        frames += more
        last = max(frame.moment for frame in more)
        ends.append(last)
        drained = sum(need(world, frame.len) for frame in more) * 3
        base = (last + 2 * back + drained + max(said.waits.values())) // world.cycle * world.cycle + world.cycle
    bounds_shared.conform(world, frames)
    rest = max(said.waits.values()) + 1 + 3 * world.cycle
    ran = bounds_shared.run(program, world, frames, 128, rest, folder, random.Random(0))
    bounds_shared.holds(world, said, target, ran)
    order = sorted(frame.moment for frame in frames if frame.place >= 0 and class_of(world, world.streams[frame.place].priority) == target)
    worst = [0] * len(attacks)
    for moment, wait in zip(order, ran.waits[target]):
        at = next(at for at, end in enumerate(ends) if moment <= end)
        worst[at] = max(worst[at], wait)
    return worst


def climb(program, world, said, target, rounds, chance, folder):
    """The longest wait that is found over the bound."""
    best = []
    for turn in range(rounds):
        fresh = TOGETHER if not best else 2
        attacks = [first_attack(chance, world, said, target) for _ in range(fresh)]
        attacks += [changed(chance, world, said, target, chance.choice(best)[1]) for _ in range(TOGETHER - fresh)]
        found = zip(worst_of(program, world, said, target, attacks, folder), attacks)
        best = sorted([*best, *found], key=lambda it: -it[0])[:KEPT]
        if best[0][0] == said.waits[target]:
            break
    return best[0][0] / said.waits[target] if said.waits[target] else 1


def kind_of(world, target):
    """Whether a class above shares windows with one, and whether all their frames have one length."""
    places = [place for number in with_it(world, target) for place in streams_of(world, number)]
    lengths = {octets for place in places for octets in (need(world, world.streams[place].len), need(world, world.streams[place].shortest))}
    above = "no class above shares" if with_it(world, target) == {target} else "a class above shares"
    return f"{above}, {'one length' if len(lengths) == 1 else 'several lengths'}"


def main(program, first, last, rounds):
    ratios, systems = collections.defaultdict(list), 0
    with tempfile.TemporaryDirectory(prefix="taprio-tight-") as folder:
        for seed in range(first, last):
            it = world(seed)
            if it.classes > 3:
                continue
            said = told(program, it, folder)
            systems += bool(said.waits)
            for target in judged(it, said):
                ratio = climb(program, it, said, target, rounds, random.Random(seed), folder)
                kind = kind_of(it, target)
                ratios[kind].append((ratio, seed, target))
                print(f"seed {seed} class {target} {kind}: {ratio:.4f}", flush=True)
    print(systems, "systems")
    for kind, them in sorted(ratios.items()):
        print(f"{kind}: {len(them)} bounds, reached {sum(it[0] == 1 for it in them)}, mean {sum(it[0] for it in them) / len(them):.4f}, least {min(them)}")


if __name__ == "__main__":
    main(os.path.abspath(sys.argv[1]), *map(int, sys.argv[2:5]))
