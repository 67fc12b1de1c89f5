"""`plan` for networks: random lines and trees of ports with streams of all kinds. Each plan that is printed has one line for each port that streams cross,
and passes `paths --strict`, and each line `script --strict` and `check --strict`; and most of the networks get one."""
import os
import random
import subprocess
import tempfile

CASES = 24
# Of these networks so many get a plan.
WANTED = 21


def run(program, words, octets, folder):
    return subprocess.run([program, *words], input=octets, capture_output=True, timeout=120, cwd=folder, check=False)


def link_time(chance):
    least = chance.randrange(100, 5000)
    return (least, least + chance.choice([0, 0, chance.randrange(2000)]))


def network(chance):
    """The lines of a network: a line of ports, or two lines that meet, and streams along parts of them."""
    names = [f"p{number}" for number in range(chance.randint(2, 5))]
    ways = [names] if len(names) < 4 or chance.random() < 0.6 else [names[:1] + names[2:], names[1:]]
    links = {(one, other): link_time(chance) for way in ways for one, other in zip(way, way[1:])}
    lines = [f"port {name} rate {chance.choice([100, 1000, 1000])}" for name in names if chance.random() < 0.5]
    lines += [f"link {one} {other} {least}ns {greatest}ns" for (one, other), (least, greatest) in links.items()]
    lines += [f"clocks {chance.randrange(500)}ns"] * (chance.random() < 0.4)
    for number in range(chance.randint(1, 10)):
        way = chance.choice(ways)
        begin = chance.randrange(len(way) - 1)
        end = chance.randint(begin + 1, len(way))
        period = chance.choice([500, 1000, 2000, 4000])
        length = chance.choice([60, 64, 200, 500, 1000])
        offset, jitter = chance.choice([("any", 0), (f"{chance.randrange(period)}us", 0), (f"{chance.randrange(period)}us", chance.randrange(20))])
        words = [f"stream {100 * number} {chance.randrange(1, 8)} {length} {period}us {offset} 1"]
        words += [f"shortest {chance.randint(60, length)}"] * (chance.random() < 0.3) + [f"jitter {jitter}us"] * (jitter > 0)
        words += [f"deadline {period * (end - begin) * chance.choice([1, 2, 3]) // 2}us"] * (chance.random() < 0.9)
        lines.append(" ".join([*words, "via", *way[begin:end]]))
    return "".join(line + "\n" for line in lines), names


def crossed(text):
    return {name for line in text.splitlines() if line.startswith("stream") for name in line.split(" via ")[1].split()}


def planned(program, seed, folder):
    """Whether a plan is found, which then passes all that judges it."""
    text, names = network(random.Random(seed))
    with open(os.path.join(folder, "network"), "w") as file:
        file.write(text)
    ran = run(program, ["plan", "network"], b"", folder)
    if ran.returncode == 1:
        assert ran.stdout.startswith(b"none ") and ran.stderr == b"taprio_port: plan: no schedule is found\n", (seed, ran)
        return False
    assert ran.returncode == 0 and not ran.stderr, (seed, ran, text)
    lines = ran.stdout.splitlines(keepends=True)
    assert sorted(line.split()[4].decode() for line in lines) == sorted(crossed(text)), (seed, ran.stdout, text)
    judged = run(program, ["paths", "--strict", "network"], ran.stdout, folder)
    assert judged.returncode == 0 and b"missed" not in judged.stdout and b"unknown" not in judged.stdout, (seed, judged, text)
    for line in lines:
        assert run(program, ["script", "--strict"], line, folder).returncode == 0, (seed, line)
        assert run(program, ["check", "--strict"], line, folder).returncode == 0, (seed, line)
    return True


def case_networks_get_a_plan(program):
    with tempfile.TemporaryDirectory(prefix="taprio-plans-") as folder:
        found = sum(planned(program, seed, folder) for seed in range(CASES))
    assert found >= WANTED, found
