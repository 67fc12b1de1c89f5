"""Random schedules and lines, by a seed."""

import random

import support  # noqa: F401

from taprio.schedules import Schedule

WORDS = (
    "tc qdisc add replace change del dev root parent handle taprio num_tc map queues base-time cycle-time cycle-time-extension sched-entry S "
    "SH clockid CLOCK_TAI tai REALTIME clock_Tai TA flags max-sdu txtime-delay fp eth0 0 1 2 7 8 9 00 010 255 256 65535 65536 4294967295 "
    "4294967296 18446744073709551615 18446744073709551616 00000000000000000000000000001 0x 0x0 0X1 0x2 1 01 ff 100 0xff -1 +1 1.5 300us "
    "1@0 1@1 2@0 0@0 1@ @1 1@0@5 65536@0 1@65536 65535@65535 a#b"
).split()


def schedule(dice, classes=None):
    """A schedule that every form can say: with its cycle, its map and its queues."""
    classes = classes or dice.randint(1, 8)
    offset, queues = 0, []
    for _ in range(classes):
        count = dice.randint(1, 3)
        queues.append((count, offset))
        offset += count
    entries = [
        (dice.randrange(256), dice.choice([480, 1000, 12345, 2**32 - 1, dice.randint(1, 10**6)]))
        for _ in range(dice.choice([1, 2, 3, 8, 30]))
    ]
    total = sum(interval for _, interval in entries)
    return Schedule(
        entries,
        base_time=dice.choice([0, 1, 999_999_999, 10**9, 1528743495910289987, 2**63 - 1, dice.randrange(2**60)]),
        cycle=dice.choice([total if total < 2**32 else 5, dice.randint(1, 10**9), 1_000_000, 2**32 - 1]),
        extension=dice.choice([0, 0, 1, 1000, 2**32 - 1]),
        map=[dice.randrange(classes) for _ in range(8)] + [0] * 8,
        classes=classes,
        queues=queues,
    )


def line(dice):
    """The words of a `tc` line, mostly right, with some words changed, taken out, doubled or cut off."""
    classes = dice.randint(1, 9)
    words = ["tc", "qdisc", dice.choice(["add", "replace", "change", "replace", "del"])]
    heads = [["dev", "eth0"], dice.choice([["root"], ["parent", "root"]])] + ([["handle", "100:"]] if dice.random() < 0.3 else [])
    dice.shuffle(heads)
    words += sum(heads, []) + ["taprio"]
    options = [["num_tc", str(classes)], ["map", *(str(dice.randrange(classes)) for _ in range(dice.randint(1, 17)))]]
    options += [["queues", *(f"{dice.randint(0, 2) or 1}@{2 * number}" for number in range(classes + (dice.random() < 0.1)))]]
    options += [["base-time", str(dice.randrange(2**60))]] if dice.random() < 0.7 else []
    options += [["cycle-time", "1000000"]] if dice.random() < 0.3 else []
    options += [["clockid", "CLOCK_TAI"], ["flags", "0x2"], ["max-sdu", "100", "0", "1500"]][: dice.randrange(4)]
    options += [
        ["sched-entry", "S", f"{dice.randrange(256):02x}", str(dice.randint(1000, 10**6))] for _ in range(dice.randint(0, 4))
    ]
    dice.shuffle(options)
    words += sum(options, [])
    for _ in range(dice.choice([0, 0, 1, 1, 2, 3])):
        at = dice.randrange(len(words))
        change = dice.randrange(5)
        if change == 0:
            words[at] = dice.choice(WORDS)
        elif change == 1:
            del words[at]
        elif change == 2:
            words.insert(at, dice.choice(WORDS))
        elif change == 3:
            words = words[: max(at, 1)]
        else:
            other = dice.randrange(len(words))
            words[at], words[other] = words[other], words[at]
        if not words:
            words = ["tc"]
    return words
