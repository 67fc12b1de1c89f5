"""Tables of frames beside the answers of the same scripts: random ones, with schedules, drops and moments that go back; and those of random scripts and
captures beside the reports of their replays, and beside the tables of the scripts that merge both."""
import collections
import os
import random
import tempfile

from rows import captured, run, tagged

HEAD = "id,class,len,arrival_ps,start_ps,end_ps,wait_ps,fate"
TC = "tc qdisc replace dev eth0 root taprio num_tc 8 map 0 1 2 3 4 5 6 7 base-time"


def schedule(dice, now):
    """A schedule command, near a moment in picoseconds."""
    base = (now + dice.randrange(20_000_000)) // 1000
    limits = " max-sdu " + " ".join(str(dice.choice([0, 0, 46, 500])) for _ in range(8)) if dice.random() < 0.3 else ""
    entries = "".join(f" sched-entry S {dice.randrange(256):02x} {dice.randrange(480, 9000)}" for _ in range(dice.randrange(1, 5)))
    return f"{TC} {base}{limits}{entries}"


def script(dice):
    """Lines of a script, in which frames come in bursts."""
    now, number, lines = 0, 0, []
    for _ in range(dice.randrange(60)):
        kind = dice.random()
        if kind < 0.6:
            for _ in range(dice.choice([1, 1, 3, 20])):
                number += 1
                length = dice.choice([13, 14, 60, 60, 64, 400, 1514, 1515, 9000])
                tag = dice.choice(["", "", " tagged"])
                lines.append(f"frame {dice.choice([number, 7])} {dice.choice([0, 1, 5, 5, 7, 9, 15, 16, 200])} {length}{tag}")
        elif kind < 0.85:
            now += dice.randrange(1, 30_000_000)
            lines.append(f"clock {now}")
        elif kind < 0.9:
            lines.append(f"clock {dice.randrange(now + 1)}")
        elif kind < 0.95:
            lines.append(schedule(dice, now))
        else:
            lines.append(dice.choice(["query", "count 5", "# clock 5", "", "tc qdisc del dev eth0 root", "tc qdisc replace"]))
    if dice.random() < 0.1:
        lines.append(dice.choice(["clok", "frame 1 0", "clock -1", "frame 1 256 60"]))
    return lines


def class_of(priority):
    """The class of a priority, with the schedules of these scripts as without one."""
    return priority if priority < 8 else 0 if priority < 16 else None


def joined(lines, answers, status):
    """The rows that the answers of a script say, by the order of each class."""
    coming, waiting, rows, now = collections.deque(), collections.defaultdict(collections.deque), [HEAD], 0
    for line in lines:
        words = line.split()
        if words[:1] == ["clock"] and words[1].isdigit():
            now = max(now, int(words[1]))
        elif words[:1] == ["frame"]:
            coming.append((now, words))
    for answer in answers:
        words = answer.split()
        if words[0] in ("queued", "dropped"):
            came, (_, name, priority, length, *_) = coming.popleft()
            assert words[1] == name, answer
            if words[0] == "queued":
                waiting[int(words[3])].append((name, length, came))
            else:
                class_ = class_of(int(priority))
                rows.append(f"{name},{'' if class_ is None else class_},{length},{came},,,,{words[2]}")
        elif words[0] == "start":
            name, length, came = waiting[int(words[3])].popleft()
            assert words[1] == name, answer
            rows.append(f"{name},{words[3]},{length},{came},{words[5]},{words[7]},{int(words[5]) - came},sent")
    if status == 0:
        for class_ in sorted(waiting):
            rows += [f"{name},{class_},{length},{came},,,,left" for name, length, came in waiting[class_]]
    return rows


def case_tables_agree_with_the_answers(program):
    """Each frame has the row that the answers say, in the order of its fate; faults and statuses are those of the script."""
    fates = collections.Counter()
    for seed in range(120):
        dice = random.Random(f"frames {seed}")
        lines = script(dice)
        words = [] if dice.random() < 0.5 else ["--room", str(dice.choice([1, 2, 7, 30]))]
        words += [] if dice.random() < 0.5 else ["--until", str(dice.randrange(2_000_000_000))]
        octets = "".join(f"{line}\n" for line in lines).encode()
        told, table = run(program, ["script", *words], octets), run(program, ["frames", *words], octets)
        assert (table.status, table.errors) == (told.status, told.errors), (seed, table.status, table.errors)
        wanted = joined(lines, told.output.decode().splitlines(), told.status)
        found = table.output.decode().splitlines()
        assert found == wanted, (seed, [pair for pair in zip(found, wanted) if pair[0] != pair[1]][:1])
        fates.update(row.rpartition(",")[2] for row in found[1:])
    assert set(fates) == {"sent", "left", "NoClass", "Runt", "TooLong", "OverSdu", "Full"}, fates


def case_the_share_of_the_wire_counts_from_the_first_frame_too(program):
    """The line of the wire by the table of the frames: the least arrival of those that are queued, and how long they have the wire."""
    begun = 0
    for seed in range(80):
        dice = random.Random(f"shares {seed}")
        day = dice.choice([0, 0, 1, 10**18])
        octets = "".join(f"{line}\n" for line in [f"clock {day}", *script(dice)]).encode()
        words = ["--until", str(day + 2_000_000_000)]
        told, table = run(program, ["script", "--summary", *words], octets), run(program, ["frames", *words], octets)
        if told.status != 0:
            continue
        rows = [row.split(",") for row in table.output.decode().splitlines()[1:]]
        queued = [row for row in rows if row[-1] in ("sent", "left")]
        last = max([day + 2_000_000_000] + [int(line.split()[1]) for line in octets.decode().splitlines() if line.startswith("clock ") and line.split()[1].isdigit()])
        busy = sum(min(int(row[5]), last) - int(row[4]) for row in queued if row[-1] == "sent")
        first = min((int(row[3]) for row in queued), default=None)
        since = 0 if first is None or first == last else busy * 10**6 // (last - first)
        wanted = f"summary wire busy {busy} ppm {busy * 10**6 // last} from {'-' if first is None else first} ppm {since}"
        [wire] = [line for line in told.output.decode().splitlines() if line.startswith("summary wire")]
        assert wire == wanted, (seed, wire, wanted)
        changes = [int(line.split()[2]) for line in told.output.decode().splitlines() if line.startswith("installed change")]
        early = sum(int(row[3]) < changes[0] for row in queued) if changes else 0
        opens = [line for line in told.output.decode().splitlines() if line.startswith("summary open")]
        assert opens == ([f"summary open {early} frames before {changes[0]}"] if early else []), (seed, opens, early)
        begun += bool(first)
    assert begun > 20, begun


def case_a_table_of_many_frames_keeps_those_that_wait(program):
    """A long script of frames that leave at once: as many rows, each with its own numbers."""
    frames = 50_000
    octets = "".join(f"clock {number * 1_000_000}\nframe {number} {number % 8} 60\n" for number in range(frames)).encode()
    ran = run(program, ["frames", "--until", "1s"], octets)
    rows = ran.output.decode().splitlines()[1:]
    assert ran.status == 0 and len(rows) == frames
    for number in (0, 1, 7777, frames - 1):
        came = number * 1_000_000
        assert rows[number] == f"{number},{number % 8},60,{came},{came},{came + 672_000},0,sent", rows[number]


def moments(lines):
    """Each line of a script with the greatest clock number up to it."""
    now = 0
    for line in lines:
        words = line.split()
        if words[:1] == ["clock"] and words[1].isdigit():
            now = max(now, int(words[1]))
        yield now, line


def merged(lines, records):
    """A script of what a script and records `(moment in nanoseconds, octets, original length)` ask: before each record the lines up to its moment."""
    lines, latest, found = list(moments(lines)), 0, []
    for number, (moment, octets, original) in enumerate(records):
        latest = max(latest, moment * 1000)
        while lines and lines[0][0] <= latest:
            found.append(lines.pop(0)[1])
        with_tag = len(octets) >= 16 and octets[12:14] == b"\x81\x00"
        priority = octets[14] >> 5 if with_tag else 0
        found += [f"clock {latest}", f"frame {number} {priority} {max(len(octets), original)}{' tagged' if with_tag else ''}"]
    return found + [line for _, line in lines]


def records(dice):
    """Records of a capture, in bursts, some of which are stamped before the one before them."""
    now, found = 0, []
    for _ in range(dice.randrange(25)):
        now += dice.choice([0, dice.randrange(30_000), dice.randrange(30_000)])
        for _ in range(dice.choice([1, 1, 3, 12])):
            length = dice.choice([13, 14, 60, 60, 64, 400, 1514, 1515])
            octets = dice.choice([tagged(dice.randrange(8), length), bytes(length), tagged(5, length)[:15]])
            found.append((max(0, now - dice.choice([0, 0, 0, 700])), octets, dice.choice([len(octets), 60, 1514])))
    return found


def case_tables_of_captures_agree_with_replays(program):
    """Each record has the row that the report of the replay says; and the table is that of the script that merges both."""
    fates = collections.Counter()
    with tempfile.TemporaryDirectory() as room:
        paths = [os.path.join(room, name) for name in ("script", "capture", "out")]
        for seed in range(60):
            dice = random.Random(f"captures {seed}")
            lines = [line for line in script(dice) if not line.startswith("frame")]
            taken = records(dice)
            words = [] if dice.random() < 0.5 else ["--room", str(dice.choice([1, 2, 7, 30]))]
            until = [] if dice.random() < 0.5 else ["--until", str(dice.randrange(2_000_000_000))]
            end = until or ["--until", "4294967296s"]
            octets = "".join(f"{line}\n" for line in lines).encode()
            whole = captured(taken)
            cut = whole[:len(whole) - 1] if taken and dice.random() < 0.2 else whole
            for path, content in zip(paths, (octets, cut)):
                with open(path, "wb") as file:
                    file.write(content)
            told = run(program, ["replay", *words, *until, *paths], b"")
            table = run(program, ["frames", *words, *until, "--capture", paths[1]], octets)
            assert (table.status, table.errors) == (told.status, told.errors), (seed, table.status, table.errors)
            if told.status == 3 and told.errors.startswith(b"taprio_port: script"):
                assert table.output == b"", seed
                continue
            both = merged(lines, taken if cut == whole else taken[:-1])
            found = table.output.decode().splitlines()
            assert found == joined(both, told.output.decode().splitlines(), 0), seed
            alone = run(program, ["frames", *words, *end], "".join(f"{line}\n" for line in both).encode())
            assert found == alone.output.decode().splitlines(), seed
            fates.update(row.rpartition(",")[2] for row in found[1:])
    assert set(fates) == {"sent", "left", "Runt", "TooLong", "OverSdu", "Full"}, fates


def case_the_rows_of_a_capture_come_with_its_frames(program):
    """A long capture of frames that leave at once: as many rows, each with its own numbers."""
    frames = 20_000
    with tempfile.NamedTemporaryFile() as file:
        file.write(captured([(number * 1000, tagged(number % 8, 60)) for number in range(frames)]))
        file.flush()
        ran = run(program, ["frames", "--capture", file.name], b"")
    rows = ran.output.decode().splitlines()[1:]
    assert ran.status == 0 and len(rows) == frames
    for number in (0, 1, 7777, frames - 1):
        came = number * 1_000_000
        assert rows[number] == f"{number},{number % 8},60,{came},{came},{came + 672_000},0,sent", rows[number]
