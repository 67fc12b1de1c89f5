"""Input that comes in pieces: what is answered is the same, however lines are cut."""
import subprocess
import time

TEXT = b"# a\\\n comment\\\r\n of three lines\nframe 1 \\\n0 60\n\nquery"


def in_pieces(program, piece):
    """What `script` answers to the text, of which so many octets are written at once."""
    with subprocess.Popen([program, "script"], stdin=subprocess.PIPE, stdout=subprocess.PIPE, bufsize=0) as ran:
        for at in range(0, len(TEXT), piece):
            ran.stdin.write(TEXT[at : at + piece])
            time.sleep(0.002)
        ran.stdin.close()
        return ran.stdout.read()


def case_joined_lines_are_the_same_in_any_pieces(program):
    """Cut between any two octets: within a word, behind a backslash, between the two octets of an end of a line."""
    whole = subprocess.run([program, "script"], input=TEXT, stdout=subprocess.PIPE, check=True).stdout
    assert whole.startswith(b"queued 1 class 0\n"), whole
    for piece in range(1, 9):
        assert in_pieces(program, piece) == whole, piece
