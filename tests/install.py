"""The install of the program: what is put where, from what is built, and that nothing is put there where a step fails."""
import errno
import os
import pathlib
import shutil
import subprocess
import tempfile
import time

TOP = pathlib.Path(__file__).resolve().parent.parent
SECONDS = 60
TRIES = 20
# Where each file goes, and which it is.
PLACES = {
    "share/man/man1/taprio_port.1": "docs/taprio_port.1",
    "share/bash-completion/completions/taprio_port": "completions/taprio_port.bash",
    "share/zsh/site-functions/_taprio_port": "completions/_taprio_port",
    "share/fish/vendor_completions.d/taprio_port.fish": "completions/taprio_port.fish",
}
BUILT, PROVED = "out/unproved/taprio_port", "crates/taprio_port/out/taprio_port"


class Checkout:
    """A copy of what the install takes, with the program built as it is in a clone."""

    def __init__(self, folder, program, *places):
        self.top = pathlib.Path(folder, "a clone")
        self.top.mkdir()
        for name in ("install", "taprio_port", "crates.txt", "build/place", "build/unproved", *PLACES.values()):
            self.put(name, TOP / name)
        (self.top / "crates" / "port" / "src").mkdir(parents=True)
        for place in places:
            self.put(place, program)

    def put(self, name, source):
        path = self.top / name
        path.parent.mkdir(parents=True, exist_ok=True)
        shutil.copy2(source, path)
        if name in (BUILT, PROVED):
            os.utime(path)

    def ran(self, command, *words, **variables):
        """The status and standard error of one of its commands, run in the folder that it lies in."""
        given = {name: value for name, value in os.environ.items() if name != "DESTDIR"} | variables
        for left in reversed(range(TRIES)):
            try:
                ran = subprocess.run([self.top / command, *words], cwd=self.top.parent, env=given, capture_output=True, text=True, timeout=SECONDS)
            except OSError as fault:
                # (a process that another test began just now may still hold the file that was copied here, open for writing: execve(2))
                if fault.errno != errno.ETXTBSY or not left:
                    raise
                time.sleep(0.1)
            else:
                return ran.returncode, ran.stdout, ran.stderr


def files(folder):
    """What lies under a folder, but for folders."""
    return sorted(str(path.relative_to(folder)) for path in folder.rglob("*") if not path.is_dir())


def answers(program):
    """What a program answers to a frame."""
    ran = subprocess.run([program, "script"], input=b"frame 1 0 60\nclock 1000000\n", capture_output=True, timeout=SECONDS)
    return ran.stdout, ran.stderr


WANTED = (b"queued 1 class 0\nstart 1 class 0 at 0 end 672000\n", b"")


def case_into_a_folder_with_a_blank(program):
    """The program runs from there; the manual page and the completions are those of the clone, and it is said what is not proved."""
    with tempfile.TemporaryDirectory(prefix="taprio-case-") as folder:
        clone = Checkout(folder, program, BUILT)
        status, output, errors = clone.ran("install", "some where")
        to = pathlib.Path(folder, "some where")
        assert (status, output) == (0, "") and f", not proved: with a check at each step (./taprio_port --prove proves it), is {to}/bin/taprio_port\n" in errors, errors
        assert f"install: {to}/bin is not on the PATH\n" in errors, errors
        assert files(to) == sorted(["bin/taprio_port", *PLACES]), files(to)
        for place, name in PLACES.items():
            assert (to / place).read_bytes() == (TOP / name).read_bytes(), place
        assert answers(to / "bin" / "taprio_port") == WANTED
        # A second one takes the place of the first, and what else is there stays.
        (to / "bin" / "other").write_text("stays")
        status, _, errors = clone.ran("install", to, PATH=f"{os.environ['PATH']}:{to}/bin")
        assert status == 0 and "PATH" not in errors, errors
        assert files(to) == sorted(["bin/other", "bin/taprio_port", *PLACES]), files(to)


def case_under_destdir(program):
    """DESTDIR goes before PREFIX, as a word and as a variable."""
    with tempfile.TemporaryDirectory(prefix="taprio-case-") as folder:
        clone, under = Checkout(folder, program, BUILT), pathlib.Path(folder, "under it")
        for number, (words, variables) in enumerate(((["/usr", f"{under}0"], {}), (["/usr"], {"DESTDIR": f"{under}1"}))):
            status, _, errors = clone.ran("install", *words, **variables)
            assert status == 0, errors
            assert answers(f"{under}{number}/usr/bin/taprio_port") == WANTED


def case_the_proved_program(program):
    """It is taken where it is there, and that it is proved is said."""
    with tempfile.TemporaryDirectory(prefix="taprio-case-") as folder:
        clone = Checkout(folder, program, BUILT, PROVED)
        (clone.top / BUILT).write_text("#!/bin/sh\necho another\n")
        status, _, errors = clone.ran("install", "there")
        assert status == 0 and ", proved, is " in errors, errors
        assert answers(pathlib.Path(folder, "there", "bin", "taprio_port")) == WANTED


def case_nothing_where_a_step_fails(program):
    """A folder in the place of a file, a file in the place of a folder, and a program that can't be built: no file is put there."""
    with tempfile.TemporaryDirectory(prefix="taprio-case-") as folder:
        clone, to = Checkout(folder, program, BUILT), pathlib.Path(folder, "there")
        (to / "share" / "man" / "man1" / "taprio_port.1").mkdir(parents=True)
        status, _, errors = clone.ran("install", "there")
        assert (status, files(to)) == (4, []), (status, files(to), errors)
        assert errors == f"cannot put {to}/share/man/man1/taprio_port.1\n", errors
        shutil.rmtree(to)
        to.mkdir()
        (to / "share").write_text("a file")
        status, _, errors = clone.ran("install", "there")
        assert (status, files(to)) == (4, ["share"]), (status, files(to), errors)
        (clone.top / BUILT).unlink()
        status, _, errors = clone.ran("install", "elsewhere", PATH="/nowhere:/usr/bin:/bin")
        assert status == 4 and "rt builds the program, and is not on the PATH" in errors, errors
        assert not pathlib.Path(folder, "elsewhere").exists()


def case_words(program):
    """Help is printed, and what is no PREFIX is refused with status 2; nothing is put anywhere."""
    with tempfile.TemporaryDirectory(prefix="taprio-case-") as folder:
        clone = Checkout(folder, program, BUILT)
        before = files(pathlib.Path(folder))
        for word in ("--help", "-h"):
            status, output, errors = clone.ran("install", word)
            assert (status, errors) == (0, "") and output.startswith("./install PREFIX [DESTDIR]: puts the program"), (output, errors)
        for words, said in (
            ([], "PREFIX is missing"),
            (["--prefix=there"], "there is no option --prefix=there"),
            ([""], "an empty word is no folder"),
            (["one", "two", "three"], "PREFIX and DESTDIR are expected, and three is one more"),
        ):
            status, output, errors = clone.ran("install", *words)
            usage = "usage: ./install PREFIX [DESTDIR]    (./install --help)"
            assert (status, output, errors) == (2, "", f"install: {said}\n{usage}\n"), (status, output, errors)
        assert files(pathlib.Path(folder)) == before


def case_the_version_says_what_is_built(program):
    """`--version` says whether the program is proved, and of which commit the sources are, where git knows it."""
    with tempfile.TemporaryDirectory(prefix="taprio-case-") as folder:
        clone = Checkout(folder, program, BUILT)
        version = subprocess.run([program, "--version"], capture_output=True, text=True, timeout=SECONDS, check=True).stdout.strip()
        for proved, how in ((False, "not proved: with a check at each step"), (True, "proved")):
            if proved:
                clone.put(PROVED, program)
            assert clone.ran("taprio_port", "--version") == (0, f"{version}, {how}\n", ""), how
        for words in ("init -q", "add -A", "-c user.name=a -c user.email=a@example.org commit -qm all"):
            subprocess.run(["git", *words.split()], cwd=clone.top, check=True, timeout=SECONDS)
        commit = subprocess.run(["git", "rev-parse", "--short=12", "HEAD"], cwd=clone.top, capture_output=True, text=True, check=True).stdout.strip()
        for place in (BUILT, PROVED):
            clone.put(place, program)
        assert clone.ran("taprio_port", "--version") == (0, f"{version}, proved, commit {commit}\n", "")
        (clone.top / "crates.txt").write_text("changed\n")
        os.utime(clone.top / "crates.txt", (0, 0))
        assert clone.ran("taprio_port", "--version") == (0, f"{version}, proved, commit {commit} with changes\n", "")


def case_what_is_built(program):
    """`--built` prints the path of the program that is there, the proved one first, and builds none."""
    with tempfile.TemporaryDirectory(prefix="taprio-case-") as folder:
        clone = Checkout(folder, program)
        assert clone.ran("taprio_port", "--built") == (1, "", "")
        for place in (BUILT, PROVED):
            clone.put(place, program)
            assert clone.ran("taprio_port", "--built") == (0, f"{clone.top}/{place}\n", ""), place
        os.utime(clone.top / "crates.txt", (2**31, 2**31))
        assert clone.ran("taprio_port", "--built") == (1, "", "")
