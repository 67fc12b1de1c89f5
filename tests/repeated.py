"""One octet over and over, as a script and as schedule commands: lines that are too long or too many, and no end."""
from rows import Row, run_fed

UNKNOWN = b"taprio_port: script line 1: UnknownLine\n"
TOO_LONG = b"taprio_port: script line 1: LongLine\n"
TOO_MANY = b"taprio_port: script line 4000001: TooManyLines\n"

# What comes, how it is called, and the text of its fault, both as a script and as schedule commands.
INPUTS = [
    (b"a" * 65_536, "the longest line, of letters", UNKNOWN),
    (b"a" * 65_537, "a line of letters that is too long by one", TOO_LONG),
    (b"#" * 65_536 + b"\n", "the longest comment", b""),
    (b"#" * 65_537 + b"\n", "a comment that is too long by one", TOO_LONG),
    (b"\n" * 4_000_000, "as many lines as there may be", b""),
    (b"\0" * 65_536 + b"\n", "the longest line, of zero octets", UNKNOWN),
]
# The same of octets without end.
ENDLESS = [(b"a", TOO_LONG), (b"\n", TOO_MANY)]


def rows():
    """Each input by each of the two jobs."""
    return [
        Row(f"{job}: {name}", [job], octets, errors=text, status=3 if text else 0)
        for job in ("script", "check")
        for octets, name, text in INPUTS
    ]


def without_end(octet):
    """Pieces of this octet alone, for ever."""
    while True:
        yield octet * 65_536


def ends(program, job):
    """Each octet without end is told by a job as a line that is too long or too many lines; nothing is answered."""
    for octet, text in ENDLESS:
        ran = run_fed(program, [job], without_end(octet))
        assert (ran.status, ran.output, ran.errors) == (3, b"", text), (octet, ran)


def case_an_octet_without_end_as_a_script(program):
    """A line of letters, and empty lines."""
    ends(program, "script")


def case_an_octet_without_end_as_commands(program):
    """A line of letters, and empty lines."""
    ends(program, "check")
