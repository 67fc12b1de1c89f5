"""The program and what lies outside it: standard streams that are closed or full or fail, files without a right
to read them, and too little memory."""
import os
import pty
import re
import shutil
import socket
import subprocess
import sys
import tempfile
import time

from captures import BOTH_LEFT, BOTH_TOLD, END, FIRST_LEFT, FIRST_SUMMED, FIRST_TOLD, PRIORITY_3, TWO_RECORDS
from rows import Ran, captured, run, shown

WRITE_FAILED = b"taprio_port: write failed\n"
READ_FAILED = b"taprio_port: read failed\n"
# Words of a replay of the standard input that has time for all frames.
REPLAY = ["replay", "--until", END, "script", "-", "out"]
SCRIPT = {"script": b""}
BROKEN = b"frame 1 0 60\nframe 2 0\nframe 3 0 60\n"
# Each job with an input whose answer is longer than five octets; that of the script has a fault behind the answer.
LONG_ANSWERS = [
    (["script"], BROKEN),
    (["check"], b"tc qdisc del dev eth0 root\n"),
    (["draw"], b"frame 1 0 60\n"),
    (["frames"], b"frame 1 0 13\n"),
    (["streams"], b"stream 1 5 60 250us 0ns 2\n"),
    (["bounds", "script"], b"tc qdisc del dev eth0 root\n"),
    (REPLAY, TWO_RECORDS),
]
# A process with a limit (RLIMIT_FSIZE and RLIMIT_AS by name), which is then another program. A write behind the
# greatest length of a file is a failed one: Python ignores the signal of it, and so does what Python becomes.
LIMITED = """
import os, resource, sys
_, limit, most, *words = sys.argv
resource.setrlimit(getattr(resource, limit), (int(most), int(most)))
os.execv(words[0], words)
"""


def run_limited(program, limit, most, words, octets, files=None, **how):
    """Runs the program with a limit of its process."""
    return run(sys.executable, ["-IS", "-c", LIMITED, limit, str(most), program, *words], octets, files, **how)


def run_without(program, descriptors, words, octets=b"", files=None, **how):
    """Runs the program with standard streams closed, such as `<&-`."""
    return run("/bin/sh", ["-c", f'exec "$0" "$@" {descriptors}', program, *words], octets, files, **how)


def wants(ran, status, output, errors):
    """The run ended so."""
    got = (ran.status, ran.output, ran.errors)
    wanted = (status, output, errors)
    assert got == wanted, [(number, shown(one), shown(other)) for number, one, other in (wanted, got)]


def case_a_standard_output_that_takes_five_octets(program):
    """The write fails, and that is told, also before a fault of the input."""
    for words, octets in LONG_ANSWERS:
        # A device has no greatest length, so the report of a replay alone is cut.
        words = ["/dev/null" if word == "out" else word for word in words]
        with tempfile.TemporaryFile() as output:
            ran = run_limited(program, "RLIMIT_FSIZE", 5, words, octets, SCRIPT, stdout=output)
            wants(ran, 4, b"", WRITE_FAILED)
            assert output.seek(0, os.SEEK_END) == 5, words


def case_a_full_device_as_the_standard_output(program):
    """The write fails, and that is told, also before a fault of the input; OUT has what was let out before the report."""
    for words, octets in LONG_ANSWERS:
        with open("/dev/full", "wb") as full:
            ran = run(program, words, octets, SCRIPT | {"out": b"emptied"}, stdout=full)
        wants(ran, 4, b"", WRITE_FAILED)
        assert words != REPLAY or ran.files["out"] == BOTH_LEFT[:24]


def case_a_full_device_as_out(program):
    """The run ends where the header of OUT can't be let out, before a record is taken, and the failed write is told."""
    ran = run(program, ["replay", "--until", END, "script", "-", "/dev/full"], TWO_RECORDS, SCRIPT)
    wants(ran, 4, b"", WRITE_FAILED)


def case_an_out_that_takes_five_octets(program):
    """The run ends there, before a record is taken, and the failed write is told."""
    ran = run_limited(program, "RLIMIT_FSIZE", 5, REPLAY, TWO_RECORDS, SCRIPT)
    wants(ran, 4, b"", WRITE_FAILED)
    assert ran.files["out"] == BOTH_LEFT[:5]


def case_a_closed_standard_output(program):
    """It is a failed write."""
    for words, octets in LONG_ANSWERS:
        wants(run_without(program, ">&-", words, octets, SCRIPT), 4, b"", WRITE_FAILED)


def case_a_standard_output_that_is_no_longer_read(program):
    """A reader such as `head -1` that goes away: the next write fails, no signal ends the program, and nothing is said of it."""
    script = b"".join(b"frame %d 0 60\n" % number for number in range(100_000))
    with tempfile.TemporaryFile() as file:
        file.write(script)
        file.seek(0)
        with subprocess.Popen([program, "script"], stdin=file, stdout=subprocess.PIPE, stderr=subprocess.PIPE) as ran:
            line = ran.stdout.readline()
            ran.stdout.close()
            errors = ran.stderr.read()
            status = ran.wait(60)
    wants(Ran(status, line, errors, {}), 4, b"queued 0 class 0\n", b"")


def case_a_file_as_the_standard_output(program):
    """It gets the answers, whole, and behind what it held where the shell says so."""
    with tempfile.TemporaryFile() as output:
        output.write(b"before\n")
        output.flush()
        wants(run(program, ["script"], b"frame 1 0 60\nclock 1000000\n", stdout=output), 0, b"", b"")
        output.seek(0)
        assert output.read() == b"before\nqueued 1 class 0\nstart 1 class 0 at 0 end 672000\n"


# What a job writes before it reads anything.
HEADS = {"frames": b"id,class,len,arrival_ps,start_ps,end_ps,wait_ps,fate\n"}
# Each job that reads the standard input.
READING = [["script"], ["frames"], ["check"], ["draw"], ["streams"], ["bounds", "script"], ["replay", "--until", "1", "script", "-", "out"]]


def case_a_standard_input_that_fails_once(program):
    """Behind a failed read no other is tried: the next one would find an end, and all would be well."""
    for words in READING:
        ours, theirs = socket.socketpair()
        # What the other side has left unread makes of its end a reset.
        ours.send(b"unread")
        theirs.close()
        with ours:
            wants(run(program, words, None, SCRIPT, stdin=ours), 4, HEADS.get(words[0], b""), READ_FAILED)


def case_a_folder_as_the_standard_input(program):
    """It can't be read."""
    for words in READING:
        folder = os.open("/", os.O_RDONLY)
        try:
            wants(run(program, words, None, SCRIPT, stdin=folder), 4, HEADS.get(words[0], b""), READ_FAILED)
        finally:
            os.close(folder)


def case_a_closed_standard_input(program):
    """It can't be read, by the jobs that open no file."""
    for words in READING[:-2]:
        wants(run_without(program, "<&-", words), 4, HEADS.get(words[0], b""), READ_FAILED)


def case_a_file_without_the_right_to_read(program):
    """It can't be opened, whichever of the three files it is; what can be is opened before."""
    with tempfile.TemporaryDirectory(prefix="taprio-case-") as folder:
        # Whoever has no right runs a program that it can reach.
        own = os.path.join(folder, "taprio_port")
        shutil.copy(program, own)
        os.chmod(own, 0o755)
        os.chmod(folder, 0o755)
        for name in ("open", "shut"):
            with open(os.path.join(folder, name), "wb") as file:
                file.write(TWO_RECORDS)
        os.chmod(os.path.join(folder, "open"), 0o444)
        os.chmod(os.path.join(folder, "shut"), 0)
        nobody = {"user": 65534} if os.geteuid() == 0 else {}

        def fails_to_open_shut(words):
            ran = subprocess.run(
                [own, *words], input=b"stream\n", cwd=folder, capture_output=True, timeout=60, **nobody
            )
            wants(Ran(ran.returncode, ran.stdout, ran.stderr, {}), 4, b"", b"taprio_port: cannot open shut\n")

        for names in (["shut", "open", "shut"], ["open", "shut", "shut"], ["open", "open", "shut"]):
            fails_to_open_shut(["replay", "--until", "1", *names])
        fails_to_open_shut(["streams", "--with", "shut"])
        fails_to_open_shut(["bounds", "shut"])


def case_a_file_as_the_standard_input_of_a_replay(program):
    """The capture of `-` is what the standard input has from where it stands; what OUT held before is gone."""
    with tempfile.TemporaryFile() as file:
        file.write(b"skipped" + TWO_RECORDS[:58])
        file.seek(7)
        words = ["replay", "--summary", "--until", END, "script", "-", "out"]
        ran = run(program, words, None, SCRIPT | {"out": b"longer than what is left " * 100}, stdin=file)
    wants(ran, 0, FIRST_TOLD + FIRST_SUMMED, b"")
    assert ran.files["out"] == FIRST_LEFT


def case_two_ports_in_a_row_that_a_pipe_joins(program):
    """The second has a frame when its last octet was sent by the first, and the time of the link is over."""
    with tempfile.TemporaryDirectory(prefix="taprio-case-") as folder:
        for name, octets in (("script", b""), ("capture", TWO_RECORDS)):
            with open(os.path.join(folder, name), "wb") as file:
                file.write(octets)
        os.mkfifo(os.path.join(folder, "link"))
        first = [program, "replay", "--stamp", "end", "script", "capture", "link"]
        second = [program, "replay", "--shift", "2us", "script", "link", "out"]
        with subprocess.Popen(first, cwd=folder, stdout=subprocess.DEVNULL, stderr=subprocess.PIPE) as ahead:
            ran = subprocess.run(second, cwd=folder, capture_output=True, timeout=60, check=False)
            _, errors = ahead.communicate(timeout=60)
    assert (ahead.returncode, errors, ran.returncode, ran.stderr) == (0, b"", 0, b""), (errors, ran)
    assert ran.stdout == (b"queued 0 class 5\nstart 0 class 5 at 2000502576000 end 2000503248000\n"
                          b"queued 1 class 3\nstart 1 class 3 at 2000503248000 end 2000503920000\n"), ran


def case_a_replay_that_says_how_far_it_has_come(program):
    """A line comes with a record, where half a second has passed since the start or since the line before; it has how many records a second."""
    record = TWO_RECORDS[24:58]
    with tempfile.TemporaryDirectory(prefix="taprio-case-") as folder:
        open(os.path.join(folder, "script"), "wb").close()
        began = time.monotonic()
        words = [program, "replay", "--progress", "--until", "1", "script", "-", "out"]
        pipes = {"stdin": subprocess.PIPE, "stdout": subprocess.PIPE, "stderr": subprocess.PIPE}
        with subprocess.Popen(words, cwd=folder, bufsize=0, **pipes) as ran:
            while not os.path.exists(os.path.join(folder, "out")):
                assert ran.poll() is None and time.monotonic() < began + 60
                time.sleep(0.01)
            ran.stdin.write(TWO_RECORDS[:58])
            for _ in range(2):
                time.sleep(1)
                ran.stdin.write(2 * record)
            _, errors = ran.communicate(timeout=60)
        longest = 1000 * (time.monotonic() - began) + 1
    line = rb"taprio_port: %d records, at 2000500000000 ps, (\d+) records a second\n"
    told = re.fullmatch(line % 2 + line % 4, errors)
    assert ran.returncode == 0 and told, (ran.returncode, errors)
    for number, records, passed in ((1, 2, 900), (2, 4, 1900)):
        assert records * 1000 // longest <= int(told[number]) <= records * 1000 // passed, (longest, errors)


def replayed_with_pauses(program, words, errors, before_second):
    """The exit status of a replay of four records, two by two, 0.7 seconds apart; `before_second` is called before the second two come."""
    record = TWO_RECORDS[24:58]
    with tempfile.TemporaryDirectory(prefix="taprio-case-") as folder:
        open(os.path.join(folder, "script"), "wb").close()
        began = time.monotonic()
        words = [program, "replay", *words, "--until", "1", "script", "-", "out"]
        with subprocess.Popen(words, cwd=folder, bufsize=0, stdin=subprocess.PIPE, stdout=subprocess.DEVNULL, stderr=errors) as ran:
            while not os.path.exists(os.path.join(folder, "out")):
                assert ran.poll() is None and time.monotonic() < began + 60
                time.sleep(0.01)
            ran.stdin.write(TWO_RECORDS[:24])
            time.sleep(0.7)
            ran.stdin.write(2 * record)
            time.sleep(0.7)
            before_second()
            ran.stdin.write(2 * record)
            ran.communicate(timeout=60)
    return ran.returncode


def case_a_replay_that_is_not_asked_how_far_it_has_come(program):
    """It doesn't say so, where standard error is no terminal."""
    with tempfile.TemporaryFile() as errors:
        status = replayed_with_pauses(program, [], errors, lambda: None)
        errors.seek(0)
        assert (status, errors.read()) == (0, b"")


def case_how_far_a_replay_has_come_is_not_said_again_where_that_failed(program):
    """The first line meets a full pipe, and is lost. The pipe has room again when the second would come, and gets nothing."""
    reader, writer = os.pipe()
    with open(reader, "rb", buffering=0) as reading, open(writer, "wb", buffering=0) as writing:
        os.set_blocking(writer, False)
        os.set_blocking(reader, False)
        filled = 0
        while (count := writing.write(bytes(4096))) is not None:
            filled += count
        drained = []
        status = replayed_with_pauses(program, ["--progress"], writing, lambda: drained.append(reading.read(filled + 1)))
        assert (status, drained, reading.read(1)) == (0, [bytes(filled)], None)


def case_a_terminal_as_the_standard_input(program):
    """That it is waited for is told on standard error, once; not where the words ask for help."""
    prompt = b"reading from the terminal; Ctrl-D ends the input\n"
    for words, wanted in ((["script"], prompt), (["script", "--help"], b""), (["replay", "--help"], b"")):
        ours, terminal = pty.openpty()
        try:
            os.write(ours, b"frame 1 0 60\nclock 1000000\n\x04")
            ran = run(program, words, None, stdin=terminal)
        finally:
            os.close(ours)
            os.close(terminal)
        assert (ran.status, ran.errors) == (0, wanted), (words, ran)
        assert ran.output.startswith(b"queued 1 class 0\n" if wanted else b""), ran


def case_an_output_that_is_an_input(program):
    """A replay refuses an OUT that is its script or its capture, by that name, another one or a link; and the inputs stay."""
    with tempfile.TemporaryDirectory(prefix="taprio-case-") as folder:
        at = lambda name: os.path.join(folder, name)
        files = {"script": b"query\n", "capture": TWO_RECORDS}
        for name, octets in files.items():
            with open(at(name), "wb") as file:
                file.write(octets)
        os.symlink("capture", at("symbolic"))
        os.link(at("capture"), at("hard"))
        for capture in ("capture", "-"):
            for out in ("script", "./script", "capture", "../" + os.path.basename(folder) + "/capture", "symbolic", "hard"):
                with open(at("capture"), "rb") as given:
                    words = [program, "replay", "--until", END, "script", capture, out]
                    ran = subprocess.run(words, cwd=folder, stdin=given, capture_output=True, timeout=60)
                wanted = b"taprio_port: OUT is one of the inputs: %s\n" % out.encode()
                assert (ran.returncode, ran.stdout, ran.stderr) == (2, b"", wanted), (capture, out, ran)
        for name, octets in files.items():
            with open(at(name), "rb") as file:
                assert file.read() == octets, name


def case_too_little_memory(program):
    """It is told: the octets of the frames that wait are more than the process may have."""
    frames = captured([(0, PRIORITY_3 + bytes(8982))] * 4096)
    words = ["replay", "--mtu", "9216", "--room", "4096", "--until", "0", "script", "-", "out"]
    ran = run_limited(program, "RLIMIT_AS", 20_000_000, words, frames, SCRIPT)
    assert (ran.status, ran.errors) == (4, b"taprio_port: out of memory\n"), (ran.status, ran.errors)
    told = b"".join(b"queued %d class 3\n" % number for number in range(4096))
    assert told.startswith(ran.output), shown(ran.output)
