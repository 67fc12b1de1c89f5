"""`streams --seed` beside the same frames drawn here: by SplitMix64, in the form in which its authors gave it, a state that grows at each step (Steele, Lea and
Flood, "Fast splittable pseudorandom number generators", 2014). And what the table allows: each frame in its window, of a length that may be."""
import random

from rows import Row, run

STEP = 0x9E3779B97F4A7C15
WORD = (1 << 64) - 1


class SplitMix64:
    """The generator, one value after another."""

    def __init__(self, seed):
        self.state = seed & WORD

    def next(self):
        self.state = (self.state + STEP) & WORD
        z = self.state
        z = ((z ^ (z >> 30)) * 0xBF58476D1CE4E5B9) & WORD
        z = ((z ^ (z >> 27)) * 0x94D049BB133111EB) & WORD
        return z ^ (z >> 31)


def frames_of(stream, place, seed, begin):
    """The frames of the stream at a place of its table: moment, place, id and octets."""
    first_id, priority, longest, shortest, period, offset, jitter, count = stream
    seeds = SplitMix64(seed)
    own = [seeds.next() for _ in range(place + 1)][place]
    draws = SplitMix64(own)
    drawn = draws.next()
    first = begin + (drawn % period if offset is None else offset)
    reached, frames = 0, []
    for number in range(count):
        late, longer = draws.next() % (jitter + 1), draws.next() % (longest - shortest + 1)
        reached = max(reached, first + number * period + late)
        frames.append((reached, place, first_id + number, priority, shortest + longer))
    return frames


def script_of(streams, seed, begin):
    """The script of a table."""
    frames = sorted(frame for place, stream in enumerate(streams) for frame in frames_of(stream, place, seed, begin))
    lines, now = [], None
    for moment, _, identity, priority, octets in frames:
        if moment != now:
            lines.append(f"clock {moment}\n")
            now = moment
        lines.append(f"frame {identity} {priority} {octets}\n")
    return "".join(lines).encode()


def line_of(stream):
    first_id, priority, longest, shortest, period, offset, jitter, count = stream
    return f"stream {first_id} {priority} {longest} {period}ps {'any' if offset is None else f'{offset}ps'} {count} jitter {jitter}ps shortest {shortest}\n"


def table_of(chance):
    streams = []
    for place in range(chance.randint(1, 6)):
        longest = chance.choice([60, 100, 1514])
        period = chance.choice([1, 1000, 10**6, 3 * 10**6 + 7])
        offset = chance.choice([None, 0, chance.randint(0, 10**7)])
        jitter = chance.choice([0, chance.randint(0, period), chance.randint(0, 10**8)])
        streams.append((place * 1000, chance.randint(0, 7), longest, chance.randint(0, longest), period, offset, jitter, chance.randint(0, 20)))
    return streams


def rows():
    """Random tables, and seeds at the ends of their range."""
    for at, seed in enumerate([0, 1, 7, WORD, WORD - 1, 1 << 63, *range(100, 130)]):
        chance = random.Random(at)
        streams, begin = table_of(chance), chance.choice([0, 10**9])
        name = f"streams: frames as seed {seed} draws them"
        yield Row(name, ["streams", "--from", str(begin), "--seed", str(seed)], "".join(map(line_of, streams)).encode(), {}, script_of(streams, seed, begin))


def case_drawn_frames_are_what_the_table_allows(program):
    """No frame is before its window or behind it, or of a length that may not be; and of any offset no n of them are closer together than may be."""
    for seed in range(40):
        streams = table_of(random.Random(1000 + seed))
        done = run(program, ["streams", "--seed", str(seed)], "".join(map(line_of, streams)).encode())
        came, now = {}, 0
        for words in map(str.split, done.output.decode().splitlines()):
            if words[0] == "clock":
                now = int(words[1])
            else:
                came[int(words[1])] = (now, int(words[3]))
        for first_id, _, longest, shortest, period, offset, jitter, count in streams:
            own = [came[first_id + number] for number in range(count)]
            assert all(shortest <= octets <= longest for _, octets in own), (seed, first_id)
            moments = [moment for moment, _ in own]
            if offset is not None:
                assert all(0 <= moment - offset - number * period <= jitter for number, moment in enumerate(moments)), (seed, first_id)
            for n in range(1, count):
                assert all(later - sooner >= n * period - jitter for sooner, later in zip(moments, moments[n:])), (seed, first_id, n)
