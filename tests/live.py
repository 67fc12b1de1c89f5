"""What was answered is let out before more input is waited for: the program is driven through pipes."""
import os
import select
import signal
import struct
import subprocess
import tempfile
import time


PATIENCE = 20.0  # seconds


def driven(program, words):
    """The program with pipes on its standard streams."""
    return subprocess.Popen([program, *words], stdin=subprocess.PIPE, stdout=subprocess.PIPE, stderr=subprocess.PIPE, bufsize=0)


def given(process, octets):
    """What the program writes to some octets of input, before it gets more: all that comes until the text ends with a line feed."""
    process.stdin.write(octets)
    got = b""
    while not got.endswith(b"\n"):
        ready, _, _ = select.select([process.stdout], [], [], PATIENCE)
        assert ready, ("nothing is let out after", octets, got)
        part = os.read(process.stdout.fileno(), 65536)
        assert part, ("the output ends after", octets, got)
        got += part
    return got


def ended(process):
    """The rest of the output, and the status, once the input ends."""
    process.stdin.close()
    rest = process.stdout.read()
    assert process.stderr.read() == b""
    return rest, process.wait(PATIENCE)


def ends_unread(process, octets):
    """The run ends with status 4 and no text, at some octets of input that nobody reads the answer of. A process that another case starts
    may hold the other end of the pipe for a moment: then they are written once more."""
    process.stdout.close()
    until = time.monotonic() + PATIENCE
    while process.poll() is None and time.monotonic() < until:
        try:
            process.stdin.write(octets)
        except BrokenPipeError:
            break
        time.sleep(0.02)
    assert process.wait(PATIENCE) == 4
    assert process.stderr.read() == b""
    process.stdin.close()


def case_a_script_is_driven_line_by_line(program):
    """Each line is answered before the next one is written."""
    process = driven(program, ["script"])
    assert given(process, b"frame 1 0 60\n") == b"queued 1 class 0\n"
    assert given(process, b"clock 1000000\n") == b"start 1 class 0 at 0 end 672000\n"
    assert given(process, b"frame 2 0 60\nclo") == b"queued 2 class 0\n"
    assert given(process, b"ck 9000000\n") == b"start 2 class 0 at 1000000 end 1672000\n"
    assert given(process, b"tc qdisc replace \\\n dev eth0 root taprio\n") == b"tc-fault NoEntries\n"
    assert ended(process) == (b"", 0)


def case_an_answer_before_half_a_command(program):
    """A command of which a joined line is missing holds nothing back."""
    process = driven(program, ["script"])
    assert given(process, b"frame 1 0 60\ntc qdisc replace \\\n") == b"queued 1 class 0\n"
    assert given(process, b"dev eth0 root taprio\n") == b"tc-fault NoEntries\n"
    assert ended(process) == (b"left class 0 frames 1\n", 0)


def case_a_check_is_driven_line_by_line(program):
    """Each schedule is reported on before the next one is written."""
    process = driven(program, ["check"])
    assert given(process, b"tc qdisc del dev eth0 root\n") == b"apart none\n"
    assert given(process, b"tc qdisc replace dev eth0 root taprio\n") == b"tc-fault NoEntries\n"
    assert ended(process) == (b"", 0)


def case_a_table_of_frames_is_driven_line_by_line(program):
    """The head stands before the first line is waited for, and each row as soon as the fate of its frame is known."""
    process = driven(program, ["frames"])
    assert given(process, b"") == b"id,class,len,arrival_ps,start_ps,end_ps,wait_ps,fate\n"
    process.stdin.write(b"frame 1 0 60\n")
    assert given(process, b"frame 2 0 13\n") == b"2,0,13,0,,,,Runt\n"
    assert given(process, b"clock 1\ncl") == b"1,0,60,0,0,672000,0,sent\n"
    process.stdin.write(b"ock 2\nframe 3 5 60\n")
    assert ended(process) == (b"3,5,60,2,,,,left\n", 0)


def case_nobody_reads_any_more(program):
    """The run ends at the first answer that nobody takes, with status 4 and no text."""
    process = driven(program, ["script"])
    assert given(process, b"frame 1 0 60\n") == b"queued 1 class 0\n"
    ends_unread(process, b"frame 2 0 60\n")


HEADER = struct.pack("<IHHIIII", 0xA1B23C4D, 2, 4, 0, 0, 262144, 1)


def record(microseconds):
    """A record of a capture in nanoseconds: a frame of 60 octets, of which 14 are captured, with priority 0."""
    return struct.pack("<IIII", 0, 1000 * microseconds, 14, 60) + bytes(14)


def replayed(program, folder, script, *words):
    """A replay of the standard input, which is a pipe, and the path of its OUT."""
    path, out = os.path.join(folder, "script"), os.path.join(folder, "out")
    with open(path, "w") as file:
        file.write(script)
    return driven(program, ["replay", *words, path, "-", out]), out


def case_a_replay_is_driven_record_by_record(program):
    """Each record is answered before the next one comes, also where it comes in parts, and what has left stands in OUT."""
    with tempfile.TemporaryDirectory() as folder:
        process, out = replayed(program, folder, "")
        assert given(process, HEADER + record(1)) == b"queued 0 class 0\n"
        assert os.path.getsize(out) == 24
        assert given(process, record(2)) == b"start 0 class 0 at 1000000 end 1672000\nqueued 1 class 0\n"
        assert os.path.getsize(out) == 54
        third = record(3)
        assert given(process, third[:20] + third[20:] + third[:7]) == b"start 1 class 0 at 2000000 end 2672000\nqueued 2 class 0\n"
        assert os.path.getsize(out) == 84
        assert given(process, third[7:]) == b"queued 3 class 0\n"
        assert ended(process) == (b"start 2 class 0 at 3000000 end 3672000\nstart 3 class 0 at 3672000 end 4344000\n", 0)
        assert os.path.getsize(out) == 144


def case_a_replay_that_is_interrupted(program):
    """Nothing that was answered is lost."""
    with tempfile.TemporaryDirectory() as folder:
        process, out = replayed(program, folder, "query\n")
        got = given(process, HEADER + record(1) + record(2))
        # A shell starts what runs in its background with the first of these ignored.
        ignored = signal.getsignal(signal.SIGINT) == signal.SIG_IGN
        stop = signal.SIGTERM if ignored else signal.SIGINT
        process.send_signal(stop)
        assert process.wait(PATIENCE) == -stop
        assert got.endswith(b"queued 0 class 0\nstart 0 class 0 at 1000000 end 1672000\nqueued 1 class 0\n"), got
        assert process.stdout.read() == b""
        assert os.path.getsize(out) == 54
        process.stdin.close()


def case_a_replay_whose_report_nobody_reads_any_more(program):
    """The run ends at the first answer that nobody takes, with status 4 and no text."""
    with tempfile.TemporaryDirectory() as folder:
        process, _ = replayed(program, folder, "")
        assert given(process, HEADER + record(1)) == b"queued 0 class 0\n"
        ends_unread(process, record(2))


def case_a_capture_in_a_named_pipe(program):
    """It is opened once: behind its end nothing more is waited for, also where the run has a fault."""
    for capture, report, status in ((HEADER + record(1), b"queued 0 class 0\nstart 0 class 0 at 1000000 end 1672000\n", 0), (HEADER[:7], b"", 3)):
        with tempfile.TemporaryDirectory() as folder:
            pipe, script, out = (os.path.join(folder, name) for name in ("pipe", "script", "out"))
            os.mkfifo(pipe)
            with open(script, "wb"):
                pass
            process = driven(program, ["replay", "--explain", script, pipe, out])
            with open(pipe, "wb") as writer:
                writer.write(capture)
            assert process.wait(PATIENCE) == status
            assert process.stdout.read() == report
            process.stdin.close()
