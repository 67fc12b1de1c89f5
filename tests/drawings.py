"""Pictures of random runs against the answers to the same scripts: bands, bars, waits, drops and changes, each at its place to a hundredth of a
pixel. What is expected is taken from what `script` answers and from the schedule, and not from the program's picture.

    python3 tests/drawings.py PROGRAM COUNT    compares so many runs"""
import random
import re
import sys

from rows import run

RUNS = 150
LEFT, RIGHT = 64, 32
# The least width of a light band and of a bar, and of what has an edge, in hundredths of a pixel.
LEAST_LIGHT, LEAST_BAR = 100, 200
LEAST_EDGED = 400
PS = {"ps": 1, "ns": 10**3, "us": 10**6, "ms": 10**9, "s": 10**12}
TOPS = [310, 274, 238, 202, 166, 130, 94, 58, 346]
WIRE = 8
RECT = re.compile(r'<rect class="([opf])( s)?" x="(\d+\.\d\d)" y="(\d+)" width="(\d+\.\d\d)" height="(\d+)"/>')
WAIT = re.compile(r'<path class="w" d="M(\d+\.\d\d) (\d+)H(\d+\.\d\d)(l-6 -4m6 4l-6 4)?"/>')
DROP = re.compile(r'<path class="d" d="M(\d+) (\d+)l8 8m0 -8l-8 8"/>')
CHANGE = re.compile(r'<path class="c" d="M(\d+\.\d\d) 48V382"/>')


class Run:
    """A random script, and the part of its run that is drawn."""

    def __init__(self, number):
        rng = random.Random(f"drawings {number}")
        # Each third says no moment to the picture, which covers what the run has; each ninth run has no frame.
        self.is_open = number % 3 == 0
        self.classes = rng.randint(1, 8)
        self.entries = [(rng.randrange(1 << self.classes), rng.randint(600, 40_000)) for _ in range(rng.randint(1, 5))]
        self.base = rng.randrange(200_000)
        self.frames, self.now = [], 0
        lines = [
            f"tc qdisc replace dev eth0 root taprio num_tc {self.classes} map {' '.join(str(c) for c in range(self.classes))} "
            f"base-time {self.base} {' '.join(f'sched-entry S {mask:02x} {interval}' for mask, interval in self.entries)}"
        ]
        for identifier in range(1, 1 if number % 9 == 0 else rng.randint(2, 40)):
            if rng.random() < 0.6:
                self.now += rng.choice([1, 700, 50_000, 1_000_000, 30_000_000]) * rng.randint(1, 20)
                lines.append(f"clock {self.now}")
            length = rng.choice([13, 60, 60, 200, 1514, 1515])
            priority = rng.randrange(self.classes)
            lines.append(f"frame {identifier} {priority} {length}")
            self.frames.append((self.now, priority))
        self.to = self.now + rng.choice([1_000, 5_000_000, 100_000_000]) * rng.randint(1, 9)
        self.begin = rng.choice([0, 0, rng.randrange(self.to)])
        self.width = rng.choice([400, 777, 1200, 2400])
        self.room = rng.choice([1, 2, 128])
        self.script = "".join(f"{line}\n" for line in lines).encode()

    def words(self):
        """The options that say which time is drawn."""
        return [] if self.is_open else ["--from", str(self.begin), "--to", str(self.to)]

    def cover(self, answers):
        """What a picture covers that is told no moment: from the first frame to the run's end, or two cycles of the schedule."""
        ends = [int(line.split()[7]) for line in answers.split("\n") if line.startswith("start ")]
        if self.frames:
            self.begin = self.frames[0][0]
            last = max([self.now, *ends[-1:]])
            self.to = last if self.begin < last else self.begin + 1_000_000
        else:
            change = int(re.search(r"installed change (\d+)", answers)[1])
            self.begin, self.to = change, change + 2000 * sum(interval for _, interval in self.entries)

    def x(self, moment):
        """The place of a moment, in hundredths of a pixel; before and after the picture that of its edge."""
        inside = min(max(moment, self.begin), self.to) - self.begin
        return LEFT * 100 + inside * (self.width - LEFT - RIGHT) * 100 // (self.to - self.begin)

    def bar(self, begin, end):
        """Where a bar lies that shows a time: within its row, and how wide it is."""
        width = max(LEAST_BAR, self.x(end) - self.x(begin))
        return min(self.x(begin), (self.width - RIGHT) * 100 - width), width

    def light(self, bands):
        """Where the light bands of a class lie, and how wide they are: those that are a pixel wide at least."""
        return [(self.x(begin), self.x(end) - self.x(begin)) for begin, end in bands if self.x(end) - self.x(begin) >= LEAST_LIGHT]

    def grey(self, bands):
        """The grey pixels of a class, as they touch: those into which a band or a gap reaches that is narrower than a pixel."""
        edges, pixels = [self.x(moment) for band in bands for moment in band], set()
        for left, right in zip(edges, edges[1:]):
            if right - left < LEAST_LIGHT:
                pixels |= set(range(left // 100, max(left // 100 + 1, -(-right // 100))))
        first = sorted(it for it in pixels if it - 1 not in pixels)
        last = sorted(it for it in pixels if it + 1 not in pixels)
        return [(begin * 100, (end + 1 - begin) * 100) for begin, end in zip(first, last)]

    def shows(self, begin, end):
        """Whether something of a time is drawn; one of no length is where its moment is."""
        return begin < self.to and (end > self.begin or begin == end >= self.begin)

    def mask(self, change, moment):
        """The gates at a moment, and until when at least they stay."""
        if moment < change:
            return 0xFF, change
        at = (moment - change) % (1000 * sum(interval for _, interval in self.entries))
        for mask, interval in self.entries:
            if at < 1000 * interval:
                return mask, moment + 1000 * interval - at
            at -= 1000 * interval
        raise AssertionError

    def bands(self, change):
        """For each class the longest times for which it is open, up to the end."""
        found, since, moment = [[] for _ in range(8)], [None] * 8, 0
        while moment < self.to:
            mask, after = self.mask(change, moment)
            for number in range(8):
                if mask >> number & 1 and since[number] is None:
                    since[number] = moment
                elif not mask >> number & 1 and since[number] is not None:
                    found[number].append((since[number], moment))
                    since[number] = None
            moment = after
        for number, begin in enumerate(since):
            if begin is not None:
                found[number].append((begin, self.to))
        return found


def expected(one, answers):
    """What is drawn, by the answers. The wait of a frame that doesn't start by the end goes on there."""
    marks, change, waiting = {"o": [], "p": [], "f": [], "w": [], "d": [], "c": []}, float("inf"), set()
    for line in answers.split("\n"):
        words = line.split()
        if words[:1] == ["installed"]:
            change = int(words[2])
            if one.begin <= change < one.to:
                marks["c"].append(one.x(change))
        elif words[:1] == ["dropped"]:
            moment, number = one.frames[int(words[1]) - 1]
            if one.shows(moment, moment):
                marks["d"].append((TOPS[number] + 10, one.x(moment) // 100 - 4))
        elif words[:1] == ["queued"]:
            waiting.add(int(words[1]))
        elif words[:1] == ["start"]:
            identifier, number, at, end = int(words[1]), int(words[3]), int(words[5]), int(words[7])
            came, _ = one.frames[identifier - 1]
            waiting.remove(identifier)
            if one.shows(at, end):
                marks["f"] += [(TOPS[lane] + 10, *one.bar(at, end)) for lane in (number, WIRE)]
            if came < at and one.shows(came, at):
                marks["w"].append((TOPS[number] + 6, one.x(came), one.x(at), False))
    for identifier in waiting:
        came, number = one.frames[identifier - 1]
        if came < one.to:
            marks["w"].append((TOPS[number] + 6, one.x(came), one.x(one.to), True))
    for number, bands in enumerate(one.bands(change)):
        shown = [band for band in bands if one.shows(*band)]
        marks["o"] += [(TOPS[number], *where) for where in one.light(shown)]
        marks["p"] += [(TOPS[number], *where) for where in one.grey(shown)]
    return marks


def drawn(picture):
    """What the picture has, without its legend, whose marks lie below the lanes."""
    hundredths = lambda text: int(text.replace(".", ""))
    marks = {"o": [], "p": [], "f": [], "w": [], "d": [], "c": []}
    for kind, slim, x, y, width, _ in RECT.findall(picture):
        assert bool(slim) == (hundredths(width) < LEAST_EDGED), (kind, x, y, width)
        if int(y) < 400:
            marks[kind].append((int(y), hundredths(x), hundredths(width)))
    marks["w"] = [(int(y), hundredths(begin), hundredths(end), bool(on)) for begin, y, end, on in WAIT.findall(picture)]
    marks["d"] = [(int(y), int(x)) for x, y in DROP.findall(picture) if int(y) < 400]
    marks["c"] = [hundredths(x) for x in CHANGE.findall(picture)]
    return marks


def compare(program, number):
    """Compares the picture of a run with its answers."""
    one = Run(number)
    room = ["--room", str(one.room)]
    if one.is_open:
        one.cover(run(program, ["script", *room], one.script).output.decode())
    told = run(program, ["script", "--until", str(max(one.to, one.now)), *room], one.script)
    picture = run(program, ["draw", *one.words(), "--width", str(one.width), *room], one.script)
    assert (told.status, picture.status, told.errors, picture.errors) == (0, 0, b"", b""), (number, told, picture)
    assert picture.output.startswith(b"<svg ") and picture.output.endswith(b"\n</svg>\n"), (number, picture.output[-40:])
    counted = re.findall(r">counted from (\d+) (\w+)<", picture.output.decode())
    assert [int(many) * PS[unit] for many, unit in counted] == [one.begin] * (one.is_open and one.begin > 0), (number, counted, one.begin)
    wanted, got = expected(one, told.output.decode()), drawn(picture.output.decode())
    for kind in wanted:
        assert sorted(wanted[kind]) == sorted(got[kind]), f"run {number}, marks {kind}: wanted {sorted(wanted[kind])}, got {sorted(got[kind])}"


def case_pictures_of_random_runs_are_their_answers(program):
    """Bands, bars, waits, drops and changes of seeded runs lie where the answers say."""
    for number in range(RUNS):
        compare(program, number)


def case_an_axis_has_two_ticks(program):
    """Two lines of the axis at least, wherever a picture begins, however long it is, and however wide."""
    rng = random.Random("ticks")
    for _ in range(RUNS):
        length = rng.randint(1, 10 ** rng.randint(1, 21))
        begin = rng.randint(0, 9223372036854775807000 - length)
        words = ["draw", "--from", str(begin), "--to", str(begin + length), "--width", str(rng.choice([400, 401, 640, 2400]))]
        picture = run(program, words).output
        assert picture.count(b'\n<path class="g" ') >= 2, words


def case_far_clocks_show_who_is_open_when(program):
    """A class that each entry opens is open up to the end, one that none opens is not, and one that some open is both."""
    for number in range(RUNS // 3):
        one = Run(number)
        picture = run(program, ["draw", "--to", "1000000s", "--width", "1096"], one.script).output.decode()
        for place in range(8):
            opened = {mask >> place & 1 for mask, _ in one.entries}
            looks = [look for look, _, x, y, width, _ in RECT.findall(picture) if int(y) == TOPS[place] and float(x) + float(width) > 1063]
            assert looks == {(0,): [], (1,): ["o"], (0, 1): ["p"]}[tuple(sorted(opened))], (number, place, opened, looks)


def commands(rng):
    """Commands at random moments, each with its moment: schedules that begin soon or late, and deletions."""
    moment, given = 0, []
    for _ in range(rng.randint(2, 7)):
        moment += rng.choice([0, 1, 5_000_000, 12_336_000, 40_000_000])
        if rng.random() < 0.2:
            given.append((moment, "tc qdisc del dev eth0 root"))
        else:
            given.append((moment, f"tc qdisc replace dev eth0 root taprio num_tc 1 map 0 base-time {rng.choice([0, 30, 52, 90, 200])}000 sched-entry S 01 5000"))
    return given


def script_of(events):
    """A script of lines, each at its moment."""
    return "".join(f"clock {moment}\n{line}\n" for moment, line in events).encode()


def in_force(program, given):
    """The changes of the schedule, as queries at the moments of all accepted commands say which of them came into force."""
    told = run(program, ["script"], script_of(given)).output.decode().split("\n")
    asked = {int(line.split()[2]) for line in told if line.startswith("installed")}
    events = sorted([*((moment, 0, place, line) for place, (moment, line) in enumerate(given)), *((moment, 1, 0, "query") for moment in asked)])
    told = run(program, ["script"], script_of((moment, line) for moment, _, _, line in events)).output.decode()
    reports = re.findall(r"report now (\d+) .*\n.*\nin-force (?:open )?change (\d+)", told)
    return sorted({int(now) for now, change in reports if now == change})


def case_changes_are_those_of_the_schedule_in_force(program):
    """A dashed line lies where the schedule in force changes, and none for a command that another one replaced."""
    replaced = 0
    for number in range(RUNS // 3):
        given = commands(random.Random(f"changes {number}"))
        wanted = in_force(program, given)
        picture = run(program, ["draw", "--to", "1ms", "--width", "1096"], script_of(given)).output.decode()
        got = drawn(picture)["c"]
        assert got == [6400 + moment // 10_000 for moment in wanted], (number, wanted, got)
        replaced += len(given) > len(wanted)
    assert replaced > RUNS // 12, replaced


if __name__ == "__main__":
    for each in range(int(sys.argv[2])):
        compare(sys.argv[1], each)
    print(f"{sys.argv[2]} runs are drawn as they were answered")
