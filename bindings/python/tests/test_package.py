"""The package as a whole: the examples, its types, the words of its pages, and that it loads nothing that it needn't."""

import doctest
import importlib.util
import inspect
import os
import pathlib
import shutil
import subprocess
import sys
import tempfile
import unittest
import zipfile
from unittest import mock

import support

if support.IS_INSTALLED:
    raise unittest.SkipTest("it is of the package in the checkout")

import packing
import taprio
import taprio.schedules

PYTHON = support.HERE.parent


class Examples(unittest.TestCase):
    def printed(self, example, **variables):
        given = {name: value for name, value in os.environ.items() if name not in ("TAPRIO_PORT", "TAPRIO_LIBRARY")}
        given |= {"PYTHONPATH": str(PYTHON)} | variables
        return subprocess.run(
            [sys.executable, "-W", "error", PYTHON / "examples" / f"{example}.py"],
            check=True,
            capture_output=True,
            text=True,
            env=given,
            timeout=60,
        ).stdout

    @support.wants_program
    def test_over_the_program(self):
        wanted = (PYTHON / "examples" / "control_loop.output").read_text()
        self.assertEqual(self.printed("control_loop", TAPRIO_PORT=support.PROGRAM), wanted)

    @support.wants_library
    def test_over_the_library(self):
        wanted = (PYTHON / "examples" / "control_loop.output").read_text()
        self.assertEqual(
            self.printed("control_loop", **{name: os.environ[name] for name in ["TAPRIO_LIBRARY"] if name in os.environ}), wanted
        )


class Package(unittest.TestCase):
    def test_examples_in_texts(self):
        """What the texts of the package show. (That of `taprio` itself runs a port.)"""
        modules = [taprio.schedules] + ([taprio] if support.PROGRAM or support.HAS_LIBRARY else [])
        for module in modules:
            failed, tried = doctest.testmod(module)
            self.assertEqual(failed, 0)
            self.assertGreater(tried, 0)

    def test_names(self):
        """All that the single file had before is there, and each name of a list is."""
        for name in ("BadInput", "BadValue", "Replay", "TaprioError", "check", "draw", "replay", "run", "streams"):
            self.assertIn(name, taprio.__all__)
            self.assertIn(name, taprio.library.__all__)
        for module in (taprio, taprio.library, taprio.schedules, taprio.results, taprio.faults, taprio.pcapng, taprio.program, taprio.traffic):
            for name in module.__all__:
                found = getattr(module, name)
                self.assertTrue(not (inspect.isclass(found) or inspect.isfunction(found)) or found.__doc__, name)
        self.assertTrue((PYTHON / "taprio" / "py.typed").exists())

    def test_what_is_loaded(self):
        """Loading the package loads neither a shared object nor what may not be installed."""
        program = "import sys, taprio; print([name for name in ('matplotlib', 'pandas') if name in sys.modules], taprio.library._loaded.cache_info().currsize)"
        given = os.environ | {"PYTHONPATH": str(PYTHON)}
        ran = subprocess.run([sys.executable, "-c", program], check=True, capture_output=True, text=True, env=given, timeout=60)
        self.assertEqual(ran.stdout, "[] 0\n")

    def test_it_is_packed_whole(self):
        """The wheel has each module, what is built, and the same octets each time; one without a program brings no command."""
        found = {"taprio/taprio_port": (b"#!", 0o755), "taprio/libtaprio.so": (b"", 0o755)}
        about = packing.project()
        self.assertEqual(about["version"], taprio.__version__)
        for built, command in ((found, True), ({}, False)):
            with tempfile.TemporaryDirectory(prefix="taprio-wheel-") as folder, mock.patch.object(packing, "built", lambda built=built: dict(built)):
                name = packing.build_wheel(folder)
                path = pathlib.Path(folder, name)
                octets = path.read_bytes()
                path.unlink()
                self.assertEqual((packing.build_wheel(folder), path.read_bytes()), (name, octets))
                self.assertEqual(name.endswith("-any.whl"), not built)
                with zipfile.ZipFile(path) as archive:
                    names = archive.namelist()
                    rows = archive.read(f"taprio-{taprio.__version__}.dist-info/RECORD").decode().splitlines()
            for module in (PYTHON / "taprio").rglob("*.py"):
                self.assertIn(str(module.relative_to(PYTHON)), names)
            self.assertEqual(set(built), set(found) & set(names))
            self.assertEqual(f"taprio-{taprio.__version__}.dist-info/entry_points.txt" in names, command)
            self.assertEqual([row.partition(",")[0] for row in rows], names)

    @unittest.skipUnless(importlib.util.find_spec("pip"), "pip isn't installed")
    def test_it_is_installed_without_a_network(self):
        """pip takes it into a fresh environment, which has neither setuptools nor wheel to build with."""
        with tempfile.TemporaryDirectory(prefix="taprio installed ") as folder:
            given = {name: value for name, value in os.environ.items() if not name.startswith(("TAPRIO_", "PYTHON", "PIP_"))}
            given |= {"PIP_NO_INDEX": "1", "PIP_DISABLE_PIP_VERSION_CHECK": "1", "PIP_NO_CACHE_DIR": "1"}
            python = pathlib.Path(folder, "bin", "python")

            def ran(*words, **variables):
                done = subprocess.run(words, cwd=folder, env=given | variables, capture_output=True, text=True, timeout=120)
                self.assertEqual(done.returncode, 0, done.stderr)
                return done.stdout

            ran(sys.executable, "-m", "venv", "--without-pip", folder)
            ran(sys.executable, "-m", "pip", "--python", python, "install", PYTHON)
            self.assertEqual(ran(python, "-c", "import taprio; print(taprio.Schedule([(1, 5)]).cycle_time)"), "5\n")
            self.assertTrue(ran(python, "-c", "import taprio; print(taprio.__file__)").startswith(folder))
            if support.PROGRAM:
                run = "import taprio; print(taprio.run('clock 5'))"
                self.assertEqual(ran(python, "-c", run, TAPRIO_PORT=support.PROGRAM), "b''\n")

    @unittest.skipUnless(shutil.which("mypy"), "mypy isn't installed")
    def test_types(self):
        words = ["mypy", "--strict", "--no-incremental", "--cache-dir", os.devnull, "taprio"]
        ran = subprocess.run(words, cwd=PYTHON, capture_output=True, text=True, timeout=60)
        self.assertEqual(ran.returncode, 0, ran.stdout)


if __name__ == "__main__":
    unittest.main()
