"""Hostile input: truncated and malicious scripts, schedules and captures, moments at the limits, and random ones from a seed."""
import itertools

from rows import Row, captured, run, run_fed, tagged

# A gigabit, an mtu of 1500 octets, and room for two frames a class.
SETTINGS = ["--rate", "1000", "--mtu", "1500", "--room", "2"]
END = 3_000_000_000_000
UNKNOWN = b"taprio_port: script line 1: UnknownLine\n"
LONG = b"taprio_port: script line 1: LongLine\n"
MANY = b"taprio_port: script line 4000001: TooManyLines\n"

TC = b"tc qdisc replace dev eth0 root taprio"
EIGHT = TC + b" num_tc 8 map 0 1 2 3 4 5 6 7"

def hundred_frames():
    """A capture of a hundred untagged frames of 60 octets, from 2 s on one every 10 microseconds."""
    return captured([(2_000_000_000 + 10_000 * number, bytes(60)) for number in range(100)])


def replay_words(until=END, settings=SETTINGS):
    return ["replay", *settings, "--until", str(until), "lines", "capture", "departures"]


def replay_row(name, capture, lines=b"", until=END, **wanted):
    return Row(name, replay_words(until), files={"lines": lines, "capture": capture}, **wanted)


def cut_captures():
    """A capture of a hundred frames, cut behind each of its first octets: the whole records before the cut leave, and the fault is that of
    the rest."""
    capture = hundred_frames()
    for cut in range(24, 400):
        records, rest = divmod(cut - 24, 76)
        report = b"".join(b"queued %d class 0\nstart %d class 0 at %d end %d\n" % (number, number, at, at + 672_000)
                          for number in range(records) for at in [2_000_000_000_000 + 10_000_000 * number])
        fault = b"taprio_port: capture record %d: ShortRecord\n" % records if rest else b""
        # (at a fault the clock does not go on to the end, so the last frame has not left)
        yield replay_row(f"a capture of a hundred frames cut at octet {cut}", capture[:cut], output=None, errors=fault,
                         status=3 if rest else 0, written={"departures": capture[: cut - rest]},
                         output_begins=report if not rest else b"")


def headers():
    for at, octet, fault in [(0, 0, "BadMagic"), (4, 3, "BadVersion"), (20, 113, "BadLink"), (18, 0, "")]:
        capture = bytearray(hundred_frames())
        capture[at] = octet
        if fault:
            yield replay_row(f"octet {at} of a header is {octet}", bytes(capture), status=3,
                             errors=f"taprio_port: capture header: {fault}\n".encode(), written={"departures": b""})
        else:
            yield replay_row(f"octet {at} of a header is {octet}", bytes(capture), output=None)


def one_record(fraction, kept, original):
    """The header of a capture in microseconds, and that of a record, big-endian."""
    big = [2 << 16 | 4, 0, 0, 0, 1, 0, fraction, kept, original]
    return bytes.fromhex("a1b2c3d4") + b"".join(it.to_bytes(4, "big") for it in big)


def records():
    """Records at the limits of their fields, with what comes of them."""
    most = 2**32 - 1
    for fraction, kept, original, fault in [
        (1_000_000, 262_145, 60, "LongRecord"), (0, most, most, "LongRecord"), (1_000_000, 0, 60, "BadFraction"),
        (most, 0, 60, "BadFraction"), (0, 262_144, 60, "ShortRecord"), (999_999, 0, 60, ""), (0, 0, most, ""),
    ]:
        text = f"taprio_port: capture record 0: {fault}\n".encode() if fault else b""
        begun = captured([])
        written = {"departures": begun} if fault else {}
        yield replay_row(f"a record with {fraction} microseconds and {kept} of {original} octets", one_record(fraction, kept, original),
                         output=None, errors=text, status=3 if fault else 0, written=written)
    yield replay_row("a record of no octets at the last microsecond of a second", one_record(999_999, 0, 60),
                     output=b"queued 0 class 0\nstart 0 class 0 at 999999000000 end 999999672000\n")


TWO_SCHEDULES = (
    b"tc qdisc replace dev eth0 parent root handle 100 taprio num_tc 3 map 2 2 1 0 2 2 2 2 2 2 2 2 2 2 2 2 "
    b"queues 1@0 1@1 2@2 base-time 1528743495910289987 sched-entry S 01 300000 sched-entry S 02 300000 sched-entry S 04 400000 "
    b"clockid CLOCK_TAI\n"
    b"tc qdisc replace dev eth0 root taprio num_tc 8 map 0 1 2 3 4 5 6 7 sched-entry S 01 300000 sched-entry S 03 300000\n")


def cut_schedules():
    """Two schedules are checked however they are cut; a first word that is cut is no schedule command."""
    for cut in range(len(TWO_SCHEDULES) + 1):
        text = TWO_SCHEDULES[:cut]
        fault = text == b"t" or text.endswith(b"\nt")
        line = 1 if cut == 1 else 2
        yield Row(f"two schedules cut at octet {cut}", ["check"], input=text, output=None, status=3 if fault else 0,
                       errors=b"taprio_port: script line %d: UnknownLine\n" % line if fault else b"")


# One octet over and over, and one behind it, with the text of the fault.
REPEATED = [
    (b"a", 65_536, b"", UNKNOWN),
    (b"a", 65_537, b"", LONG),
    (b"a", 10_000_000, b"", LONG),
    (b"#", 65_536, b"\n", b""),
    (b"#", 65_537, b"\n", LONG),
    (b"\n", 4_000_000, b"", b""),
    (b"\n", 10_000_000, b"", MANY),
    (b"\0", 65_536, b"\n", UNKNOWN),
]


def repeated():
    """Inputs of one octet over and over as the script of a replay (repeated.py has them as a script and as schedule commands)."""
    for octet, times, last, fault in REPEATED:
        yield replay_row(f"a replay with a script of {octet!r} {times} times, and then {last!r}", captured([]), lines=octet * times + last,
                         errors=fault, status=3 if fault else 0, written={"departures": b"" if fault else captured([])})


def rows():
    for made in (repeated, cut_schedules, cut_captures, headers, records):
        yield from made()


def records_of_no_octets(pieces):
    """The header of a capture, and so many times 4,000 records of no octets."""
    yield one_record(0, 0, 0)[:24]
    for _ in pieces:
        yield bytes(64_000)


def drops(program, pieces):
    """The status and the fault of a replay of so many records. 4,000,000 of them are reported: lines of 14 octets and a number, 10 of one
    digit, 90 of two, and so on."""
    words = ["replay", *SETTINGS, "--until", "0", "lines", "-", "departures"]
    ran = run_fed(program, words, records_of_no_octets(pieces), {"lines": b""})
    assert len(ran.output) == 56_000_000 + 26_888_890, len(ran.output)
    assert ran.output.endswith(b"dropped 3999999 Runt\n")
    assert ran.files["departures"] == captured([])
    return ran.status, ran.errors


def case_a_capture_without_end(program):
    fault = drops(program, itertools.repeat(0))
    assert fault == (3, b"taprio_port: capture record 4000000: TooManyRecords\n"), fault


def case_a_capture_of_as_many_records_as_there_may_be(program):
    fault = drops(program, range(1000))
    assert fault == (0, b""), fault


class Numbers:
    """Numbers that look random, from a seed."""

    def __init__(self, state):
        self.state = state

    def draw(self):
        self.state = (self.state * 6364136223846793005 + 1442695040888963407) % 2**64
        return self.state >> 24

    def below(self, many):
        drawn = self.draw()
        return drawn % many if many else 0

    def one_of(self, choices):
        return choices[self.below(len(choices))]

    def octet(self):
        return self.draw() % 256


TIMES = [b"0", b"1", b"480", b"1000", b"20000", b"300000", b"4294967295", b"1099511627776", b"9223372036854775808"]
MOMENTS = [b"0", b"1", b"1000000", b"20000000", b"1000000000", b"4294967296000000000000", b"9223372036854775807000"]
LENGTHS = [b"0", b"13", b"14", b"60", b"1514", b"1518", b"9234", b"4294967295"]
MASKS = [b"00", b"01", b"0x81", b"7f", b"ff", b"100"]
HEADS = [
    TC,
    EIGHT,
    b"tc qdisc add dev eth0 parent 1:2 handle 100: taprio num_tc 2 map 0 1 queues 1@0 2@1",
    EIGHT + b" max-sdu 100 0 1500",
    b"tc qdisc change dev eth0 root taprio flags 0x2 clockid CLOCK_TAI",
    b"tc qdisc del dev eth0 root",
]


def command(numbers):
    """A schedule command with up to four entries."""
    text = numbers.one_of(HEADS) + b" base-time " + numbers.one_of(TIMES)
    if numbers.below(4) == 0:
        text += b" \\\n cycle-time " + numbers.one_of(TIMES)
    for _ in range(numbers.below(5)):
        text += b" sched-entry S " + numbers.one_of(MASKS) + b" " + numbers.one_of(TIMES)
    return text + b"\n"


def line(numbers):
    """A line of a script without frames."""
    kind = numbers.below(6)
    if kind == 0:
        return b"query\n"
    if kind == 1:
        return b"count %d\n" % numbers.below(8)
    if kind == 2:
        return b"# nothing \\\n \xff\n\n"
    return command(numbers) if kind == 3 else b"clock " + numbers.one_of(MOMENTS) + b"\n"


def frame(numbers):
    name, priority = numbers.draw(), numbers.below(17)
    length = numbers.one_of(LENGTHS)
    return b"frame %d %d %s%s\n" % (name, priority, length, numbers.one_of([b"", b" tagged"]))


def script(numbers, with_frames):
    """Up to thirty lines, with frames or without."""
    return b"".join(frame(numbers) if with_frames and numbers.below(2) == 0 else line(numbers) for _ in range(numbers.below(31)))


def record(numbers):
    """A record, perhaps with a tag."""
    fields = [numbers.below(3), numbers.below(1_000_000), 18, numbers.below(2000)]
    octets = tagged(0, 18)
    return b"".join(it.to_bytes(4, "big") for it in fields) + octets[:14] + bytes([numbers.octet()]) + octets[15:]


def capture(numbers):
    return one_record(0, 0, 0)[:24] + b"".join(record(numbers) for _ in range(numbers.below(31)))


def mutated(numbers, text):
    """Some octets changed, and cut, in every other text."""
    if numbers.below(2) == 0:
        return text
    text = bytearray(text)
    for _ in range(numbers.below(4)):
        at, octet = numbers.below(len(text)), numbers.octet()
        if at < len(text):
            text[at] = octet
    return bytes(text[: numbers.below(len(text))] if numbers.below(3) == 0 else text)


def fed(program, words, files, text, most):
    """Runs twice: the second time as the first, with a status of 0 or 3, one line on a fault, and at most so many lines. Whether there was
    no fault."""
    ran, again = (run(program, words, input=text, files=files) for _ in range(2))
    assert ran == again, (words, text, files)
    assert ran.status in (0, 3), (ran, text, files)
    assert ran.errors.count(b"\n") == (1 if ran.status else 0), (ran, text, files)
    assert ran.output.count(b"\n") <= most, (ran, text, files)
    if "capture" in files:
        assert len(ran.files["departures"]) <= len(files["capture"]), (ran, text, files)
    return ran.status == 0


def case_random_scripts(program):
    """A line has at most five lines of an answer, and a frame one more, when it starts; at the end are a clock and what is left."""
    numbers, whole = Numbers(1), 0
    for _ in range(300):
        text = mutated(numbers, script(numbers, True))
        whole += fed(program, ["script", *SETTINGS, "--until", "1000000000"], {}, text, 6 * (text.count(b"\n") + 1) + 9)
    assert whole == 207, whole


def case_random_schedules(program):
    numbers, whole = Numbers(2), 0
    for _ in range(300):
        text = mutated(numbers, b"".join(command(numbers) for _ in range(numbers.below(9))))
        whole += fed(program, ["check"], {}, text, text.count(b"\n") + 1)
    assert whole == 290, whole


def case_random_captures(program):
    """A record has at most two lines, and what leaves is no longer than what came."""
    numbers, whole = Numbers(3), 0
    for _ in range(300):
        lines, octets = script(numbers, False), capture(numbers)
        lines = mutated(numbers, lines)
        octets = mutated(numbers, octets)
        most = 5 * (lines.count(b"\n") + 1) + 10 + len(octets) // 16 * 2
        whole += fed(program, replay_words(4_000_000_000_000), {"lines": lines, "capture": octets}, b"", most)
    assert whole == 124, whole
