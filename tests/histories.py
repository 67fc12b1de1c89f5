"""Worked histories as scripts: schedules, frames and moments, and what is answered. Each line stands beside its answers."""
from rows import Row

TC = "tc qdisc replace dev eth0 root taprio"
EIGHT = TC + " num_tc 8 map 0 1 2 3 4 5 6 7"
CLASSES = "classes 8 map 0 1 2 3 4 5 6 7 0 0 0 0 0 0 0 0 queues 1@0 1@1 1@2 1@3 1@4 1@5 1@6 1@7"


def entries(*windows):
    """The entries of masks and intervals."""
    return "".join(f" sched-entry S {mask} {interval}" for mask, interval in windows)


def report(now, mask, in_force="none", pending="none", announced="none", no_class=0, classes=CLASSES):
    """What a query prints."""
    return [f"report now {now} mask {mask} no-class {no_class}", classes, f"in-force {in_force}", f"pending {pending}",
            f"announced {announced}"]


def at(now, mask, *shown, **more):
    """The lines up to a moment, with a query at it, and what that prints."""
    return [(f"clock {now}", []), ("query", report(now, mask, *shown, **more))]


def history(name, *parts, words=("script",)):
    """A row of lines, each with its answers; a part is a line with its answers, or several."""
    lines = [line for part in parts for line in (part if isinstance(part, list) else [part])]
    return Row(name, list(words), "".join(f"{line}\n" for line, _ in lines).encode(),
               output="".join(f"{answer}\n" for _, answers in lines for answer in answers).encode())


# Three entries that take a millisecond together.
THREE = EIGHT + " base-time 0" + entries(("01", 300000), ("02", 300000), ("04", 400000))
THREE_SHOWN = "change 1000000000 base 0 cycle 1000000 extension 0 entries 3"
ONE = TC + entries(("01", 300000))


def limits():
    """Schedules at the limits of their times."""
    def of(interval, base, cycle, extension):
        return EIGHT + f" base-time {base} cycle-time {cycle} cycle-time-extension {extension}" + entries(("ff", interval))
    yield history(
        "a schedule is refused for its interval, its cycle, its extension and its base time, in this order",
        (of(479, 0, 479, 0), ["refused IntervalTooShort 0"]),
        (of(480, 0, 479, 0), ["refused CycleTooShort"]),
        (of(480, 0, 1099511627777, 0), ["refused CycleTooLong"]),
        (of(480, 0, 1099511627776, 1099511627777), ["refused ExtensionTooLong"]),
        (of(480, 9223372036854775808, 480, 1099511627776), ["refused BaseTooLate"]),
        (of(480, 9223372036854775807, 0, 1099511627776), ["installed change 9223372036854775807000"]),
    )
    short = [
        *at(5050000000, "01", "change 1000000000 base 1000000 cycle 1000000 extension 200000 entries 2"),
        (TC + " base-time 5150000" + entries(("04", 500000), ("04", 500000)), ["installed change 5150000000"]),
    ]
    after = "change 5150000000 base 5150000 cycle 1000000 extension 0 entries 2"
    yield history(
        "nothing is held for a command that is given after the short cycle has begun",
        (EIGHT + " base-time 1000000 cycle-time-extension 200000" + entries(("01", 600000), ("02", 400000)),
         ["installed change 1000000000"]),
        short,
        at(5149999999, "01", "change 1000000000 base 1000000 cycle 1000000 extension 200000 entries 2", after),
        at(5150000000, "04", after),
    )


def held(extension, mask):
    """Two entries, and a change 150 us behind a boundary: the mask from the boundary up to the change."""
    shown = f"change 1000000000 base 1000000 cycle 1000000 extension {extension} entries 2"
    after = "change 5150000000 base 5150000 cycle 1000000 extension 0 entries 2"
    first = EIGHT + f" base-time 1000000 cycle-time-extension {extension}" + entries(("01", 600000), ("02", 400000))
    return [
        (first, ["installed change 1000000000"]),
        *at(2000000000, "01", shown),
        (TC + " base-time 5150000" + entries(("04", 500000), ("04", 500000)), ["installed change 5150000000"]),
        *at(4999999999, "02", shown, after),
        *at(5000000000, mask, shown, after),
        *at(5149999999, mask, shown, after),
        *at(5150000000, "04", after),
    ]


def in_turn():
    """Schedules that come into force, follow one another, and are deleted."""
    three = (THREE, ["installed change 1000000000"])
    yield history(
        "a schedule is announced up to its lead moment, pending up to its change, and then in force",
        three,
        at(0, "ff", "none", "none", THREE_SHOWN),
        at(12335999, "ff", "none", "none", THREE_SHOWN),
        at(12336000, "ff", "none", THREE_SHOWN),
        at(999999999, "ff", "none", THREE_SHOWN),
        at(1000000000, "01", THREE_SHOWN),
        at(1300000000, "02", THREE_SHOWN),
        at(1600000000, "04", THREE_SHOWN),
        at(2000000000, "01", THREE_SHOWN),
    )
    yield history(
        "while a schedule is announced no other is taken; a pending one is replaced, and never comes into force",
        three,
        (ONE, ["refused Busy 12336000"]),
        ("clock 12335999", []),
        (ONE, ["refused Busy 12336000"]),
        ("clock 12336000", []),
        (ONE, ["installed change 300000000"]),
        at(1300000000, "01", "change 300000000 base 0 cycle 300000 extension 0 entries 1"),
    )
    first = "change 1000000000 base 1000000 cycle 1000000 extension 0 entries 2"
    next_one = "change 300000000 base 0 cycle 300000 extension 0 entries 2"
    replaced = TC + entries(("01", 150000), ("01", 150000))
    yield history(
        "a schedule is refused while one is announced, replaces it where it is pending, and is deleted",
        (EIGHT + " base-time 1000000" + entries(("01", 600000), ("02", 400000)), ["installed change 1000000000"]),
        ("clock 1", []),
        (TC + entries(("01", 300000), ("01", 300000)), ["refused Busy 12336000"]),
        at(12336000, "ff", "none", first),
        (replaced, ["installed change 300000000"]),
        at(1300000000, "01", next_one),
        ("tc qdisc del dev eth0 root", ["installed change 1312336000"]),
        at(1312335999, "01", next_one, "none", "open change 1312336000"),
        at(1312336000, "ff", "open change 1312336000"),
    )
    yield history(
        "a schedule comes into force after a deletion, and all classes are open up to then",
        (EIGHT + " base-time 20000" + entries(("01", 100000)), ["installed change 20000000"]),
        ("clock 20000000", []),
        ("tc qdisc del dev eth0 root", ["installed change 32336000"]),
        ("clock 40000000", []),
        (TC + entries(("02", 100000)), ["installed change 100000000"]),
        at(99999999, "ff", "open change 32336000", "change 100000000 base 0 cycle 100000 extension 0 entries 1"),
        at(100000000, "02", "change 100000000 base 0 cycle 100000 extension 0 entries 1"),
    )
    yield history(
        "commands are refused for a map, an interval and a limit, and behind a good one because it is announced",
        (ONE, ["refused MapMissing"]),
        (EIGHT + entries(("01", 479)), ["refused IntervalTooShort 0"]),
        (EIGHT + " max-sdu 1501 0 0 0 0 0 0 0" + entries(("01", 480)), ["refused SduTooLarge 0"]),
        (EIGHT + entries(("01", 480)), ["installed change 12480000"]),
        (EIGHT + entries(("01", 480)), ["refused Busy 12336000"]),
        ("tc qdisc del dev eth0 root", ["refused Busy 12336000"]),
    )
    yield history("the last state is held for a change that the extension reaches", held(200000, "02"))
    yield history("a cycle begins and is cut where the extension is too short", held(100000, "01"))


def frames():
    """Frames that wait, are dropped and are counted."""
    yield history(
        "a frame starts before a change that leaves its class open, and ends behind it",
        (EIGHT + " base-time 1000000" + entries(("01", 1000000)), ["installed change 1000000000"]),
        ("clock 2000000000", []),
        (EIGHT + " base-time 2100000" + entries(("01", 1000000)), ["installed change 2100000000"]),
        ("clock 2099000000", []),
        ("frame 1 0 1514", ["queued 1 class 0"]),
        ("clock 9000000000", ["start 1 class 0 at 2099000000 end 2111304000"]),
    )
    yield history(
        "a class holds two frames behind a closed gate, and they leave when it opens",
        (EIGHT + " base-time 20000" + entries(("00", 100000), ("01", 100000)), ["installed change 20000000"]),
        ("clock 20000000", []),
        ("frame 1 0 60", ["queued 1 class 0"]),
        ("frame 2 0 60", ["queued 2 class 0"]),
        ("frame 3 0 60", ["dropped 3 Full"]),
        ("clock 121000000", ["start 1 class 0 at 120000000 end 120672000", "start 2 class 0 at 120672000 end 121344000"]),
        ("count 0", ["count class 0 accepted 2 sent 2 octets 120 runt 0 too-long 0 over-sdu 0 full 1 waiting 0"]),
        words=["script", "--room", "2"],
    )
    limited = "change 20000000 base 20000 cycle 100000 extension 0 entries 1"
    yield history(
        "each frame is dropped for the first reason that there is, and counted by its class, if it has one",
        (EIGHT + " max-sdu 0 0 100 0 0 0 0 0 base-time 20000" + entries(("ff", 100000)), ["installed change 20000000"]),
        ("frame 1 16 60", ["dropped 1 NoClass"]),
        ("frame 2 0 17 tagged", ["dropped 2 Runt"]),
        ("frame 3 0 1515", ["dropped 3 TooLong"]),
        ("frame 4 0 1514", ["queued 4 class 0"]),
        ("frame 5 0 1518 tagged", ["queued 5 class 0"]),
        ("frame 6 2 115", ["dropped 6 OverSdu"]),
        ("frame 7 2 114", ["queued 7 class 2"]),
        ("count 0", ["count class 0 accepted 2 sent 0 octets 0 runt 1 too-long 1 over-sdu 0 full 0 waiting 2"]),
        ("count 2", ["count class 2 accepted 1 sent 0 octets 0 runt 0 too-long 0 over-sdu 1 full 0 waiting 1"]),
        ("query", report(0, "ff", "none", "none", limited, no_class=1)
         + ["left class 0 frames 2", "left class 2 frames 1"]),
    )


def faults(name, *cases, front="tc qdisc replace dev eth0 root"):
    """A script of tc lines that are no commands, each with its fault."""
    return history(name, *((f"{front}{' ' if front else ''}{line}", [f"tc-fault {fault}"]) for line, fault in cases))


def no_commands():
    """Lines that are no commands."""
    deletion = "tc qdisc del"
    yield history(
        "a deletion names its device and its root in any order",
        (f"{deletion} root dev eth0 taprio", ["installed change 12336000"]),
        ("query", report(0, "ff", announced="open change 12336000", classes="classes none")),
    )
    yield history(
        "a deletion may end behind its root",
        (f"{deletion} dev eth0 root", ["installed change 12336000"]),
        ("query", report(0, "ff", announced="open change 12336000", classes="classes none")),
    )
    yield faults(
        "the faults of a deletion",
        ("dev eth0 root taprio flags 0", "UnknownOption 7"),
        ("root", "MissingWord dev"),
        ("dev eth0", "MissingWord parent"),
        ("dev eth0 root x", "NotTaprio"),
        front=deletion,
    )
    yield faults(
        "the faults of the head of a tc line",
        ("tc qdisc add dev eth0 root mqprio", "NotTaprio"),
        ("tc qdisc replace dev eth0 root parent 1: taprio", "Repeated parent"),
        ("tc qdisc replace root taprio", "MissingWord dev"),
        ("tc qdisc replace dev eth0 taprio", "MissingWord parent"),
        ("tc qdisc replace dev eth0 root handle", "MissingWord handle"),
        ("tc qdisc replace dev eth0 root", "NotTaprio"),
        front="",
    )
    option = "tc qdisc replace dev eth0 root taprio"
    yield faults(
        "the faults of an entry",
        ("base-time 0", "NoEntries"),
        ("sched-entry S 01", "MissingWord sched-entry"),
        ("sched-entry S 1g 300000", "BadNumber 9"),
        ("sched-entry S 1g", "BadNumber 9"),
        ("sched-entry S 100 300000", "BadNumber 9"),
        ("sched-entry S 0X1 300000", "BadNumber 9"),
        ("sched-entry SH 01 300000", "Unsupported sched-entry"),
        front=option,
    )
    yield faults(
        "the faults of a time, of flags, and of an option that is none",
        ("hold 1", "UnknownOption 7"),
        ("base-time 0 base-time 0", "Repeated base-time"),
        ("base-time 18446744073709551616", "BadNumber 8"),
        ("flags 1", "Unsupported flags"),
        ("flags 10", "Unsupported flags"),
        ("flags 100000000", "BadNumber 8"),
        ("fp P", "Unsupported fp"),
        ("txtime-delay 5", "Unsupported txtime-delay"),
        ("clockid UTC", "BadNumber 8"),
        front=option,
    )
    yield faults(
        "the faults of a map, of ranges and of their number",
        ("map 0 1", "MissingWord num_tc"),
        ("queues 1@0", "MissingWord num_tc"),
        ("num_tc 2", "MissingWord map"),
        ("num_tc 2 queues 1@0", "MissingWord map"),
        ("num_tc 256 map 0", "BadNumber 8"),
        ("map", "MissingWord map"),
        ("map x", "MissingWord map"),
        ("map 0 1 300 num_tc 2", "BadNumber 10"),
        ("queues 1@0 65536@0", "BadNumber 9"),
        ("queues 1@0 2@", "UnknownOption 9"),
        ("num_tc 9 map 0 sched-entry S 01 300000", "BadClassCount"),
        ("num_tc 2 map 0 1 0 1 0 1 0 1 0 1 0 1 0 1 0 1 0", "TooManyPriorities"),
        ("num_tc 2 map 0 1 queues 1@0 1@0 sched-entry S 01 480", "QueueOverlap"),
        front=option,
    )
    yield faults(
        "the faults of the limits of classes",
        ("max-sdu 0 0 0 0 0 0 0 0 0 0 0 0 0 0 0 0", "NoEntries"),
        ("max-sdu 0 0 0 0 0 0 0 0 0 0 0 0 0 0 0 0 0 x", "BadNumber 24"),
        ("max-sdu 0 4294967296 0 0 0 0 0 0 0 0 0 0 0 0 0 0", "BadNumber 9"),
        front=option,
    )


def rows():
    for made in (limits, in_turn, frames, no_commands):
        yield from made()
