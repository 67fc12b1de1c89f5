"""Cases of `--tolerant` and `--device`: lines as people paste them answer as the plain lines that they mean (imports/pasted_lines.toml)."""
import pathlib
import tomllib

from rows import run

CASES = pathlib.Path(__file__).resolve().parent / "imports" / "pasted_lines.toml"
KINDS = {
    "byte_order": "a byte order mark", "prompt": "the prompt of a shell", "sudo": "sudo", "path": "the path of tc",
    "blanks": "blanks behind a backslash", "quotes": "quotation marks", "semicolon": "semicolons",
    "fp": "fp (frame preemption)", "txtime_delay": "txtime-delay", "txtime_assist": "flags 0x1 (txtime assist)",
}


def cases():
    with open(CASES, "rb") as file:
        return tomllib.load(file)["case"]


def words_of(case):
    """The options of a case."""
    return ["--tolerant"] * case.get("tolerant", False) + (["--device", case["device"]] if "device" in case else [])


def octets_of(text):
    """A text, one octet a character, or octets in hexadecimal."""
    return bytes.fromhex(text["hex"]) if isinstance(text, dict) else text.encode("latin-1")


def warnings_of(case):
    """What is said of what was passed over, in no order."""
    said = {f"taprio_port: warning: passed over: {KINDS[kind.lower()]}, lines: {lines}, the first: {first}" for kind, (lines, first) in case.get("passed", {}).items()}
    if "others" in case:
        lines, first, name = case["others"]
        said.add(f"taprio_port: warning: passed over: tc lines of other devices, such as {name[:64]}, lines: {lines}, the first: {first}")
    return said


def case_pasted_lines_answer_as_the_plain_ones(program):
    """The same answers, the same fault with the same number of its line, and a warning for each kind that was passed over."""
    tried = 0
    for case in cases():
        given = run(program, ["script", *words_of(case)], octets_of(case["input"]))
        plain = run(program, ["script"], octets_of(case["output"]))
        assert (given.status, given.output) == (plain.status, plain.output), case["name"]
        lines = given.errors.decode("latin-1").splitlines()
        said = {line for line in lines if ": passed over: " in line}
        assert [line for line in lines if line not in said] == plain.errors.decode("latin-1").splitlines(), case["name"]
        if given.status == 0:
            assert said == warnings_of(case), (case["name"], said, warnings_of(case))
        tried += 1
    assert tried >= 65, tried


def case_each_job_reads_pasted_lines(program):
    """Every job whose standard input has commands, and the script of a replay."""
    pasted = b"root@box:~# /sbin/tc qdisc replace dev 'eth0' root taprio num_tc 2 map 0 1 sched-entry S 02 50000 sched-entry S 01 200000;\n"
    other = pasted.replace(b"eth0", b"eth1").replace(b"S 02 50000", b"S 03 50000")
    plain = b"tc qdisc replace dev eth0 root taprio num_tc 2 map 0 1 sched-entry S 02 50000 sched-entry S 01 200000\n"
    streams = b"stream 1 1 64 250us 0ns 2\n"
    capture = b"\x4d\x3c\xb2\xa1\x02\x00\x04\x00" + bytes(8) + b"\x00\x00\x04\x00\x01\x00\x00\x00" + bytes(8) + b"\x3c\x00\x00\x00" * 2 + bytes(60)
    for words in (["script", "--until", "1ms"], ["check"], ["bounds", "table"], ["draw", "--until", "1ms"], ["frames", "--capture", "capture"]):
        files = {"table": streams, "capture": capture}
        job, *rest = words
        given = run(program, [job, "--tolerant", "--device", "eth0", *rest], other + pasted, files)
        wanted = run(program, [job, *rest], b"\n" + plain, files)
        assert (given.status, given.output) == (wanted.status, wanted.output) and given.status == 0, (job, given, wanted)
        assert b"such as eth1, lines: 1, the first: 1\n" in given.errors, (job, given.errors)
    given = run(program, ["replay", "--tolerant", "--device", "eth0", "script", "capture", "out"], b"", {"script": other + pasted, "capture": capture})
    wanted = run(program, ["replay", "script", "capture", "out"], b"", {"script": plain, "capture": capture})
    assert (given.status, given.output, given.files["out"]) == (wanted.status, wanted.output, wanted.files["out"]), given
    network = b"stream 1 1 64 250us 0ns 2 via eth0\n"
    given = run(program, ["paths", "--tolerant", "network"], pasted, {"network": network})
    wanted = run(program, ["paths", "network"], plain, {"network": network})
    assert given.output == wanted.output and given.status == 0, given


def case_without_the_options_lines_stay_as_they_are(program):
    """What was refused is refused, octet for octet."""
    for line in (b"sudo tc qdisc del dev eth0 root\n", b"$ tc qdisc del dev eth0 root\n", b"\xef\xbb\xbftc qdisc del dev eth0 root\n"):
        assert run(program, ["script"], line).errors == b"taprio_port: script line 1: UnknownLine\n", line
