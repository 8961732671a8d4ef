"""The plug-in for pytest, over a stand-in for a display: what a failed test leaves and what the report tells; and over the real one where that is built."""
import importlib.util
import os
import pathlib
import re
import subprocess
import sys
import tempfile
import unittest

PYTHON = pathlib.Path(__file__).resolve().parent.parent
TESTS = PYTHON.parent / "tools" / "tests"
PATIENCE = 300  # seconds

GOOD = """
import sys
import pytest

LAMP = (sys.executable, {lamp!r})

@pytest.mark.wlframe(size=(64, 48))
def test_good(wlframe_display):
    assert wlframe_display.size == (64, 48)
    wlframe_display.run(*LAMP)
    wlframe_display.window(title="Lamp", timeout=60)
    wlframe_display.expect("lamp.png", timeout=60)
"""
BAD = GOOD + """
@pytest.mark.wlframe(size=(64, 48))
@pytest.mark.parametrize("count", [1, 2])
def test_bad(wlframe_display, count):
    wlframe_display.run(*LAMP)
    window = wlframe_display.window(title="Lamp", timeout=60)
    window.click(1, 2)
    wlframe_display.wait_for_change(60)
    wlframe_display.expect("lamp.png", timeout=0.2)

def test_without():
    assert 1 + 1 == 3

@pytest.mark.wlframe(size=(64, 48))
def test_crash(wlframe_display):
    client = wlframe_display.run(*LAMP)
    wlframe_display.window(title="Lamp", timeout=60).click(1, 1, button="side")
    while client.returncode is None:
        pass
"""


def python_with_pytest():
    """A Python that has pytest."""
    for each in (sys.executable, "/usr/bin/python3"):
        words = [each, "-c", "import sys, pytest; sys.exit(sys.version_info < (3, 11))"]
        if os.path.exists(each) and subprocess.run(words, capture_output=True, check=False).returncode == 0:
            return each
    return None


def program():
    path = pathlib.Path(os.environ.get("WLFRAME") or PYTHON.parent / "crates" / "wlframe" / "out" / "wlframe")
    if not path.exists():
        raise FileNotFoundError(f"{path}: build the program first (./wlframe --help), or name one by WLFRAME")
    return str(path.resolve())


class Tests(unittest.TestCase):
    def setUp(self):
        self.python = python_with_pytest()
        if self.python is None:
            self.skipTest("pytest isn't installed (Debian: apt-get install python3-pytest)")
        self.room = pathlib.Path(self.enterContext(tempfile.TemporaryDirectory()))
        self.own = self.room / "own"
        self.own.mkdir()

    def pytest(self, text, *options):
        (self.room / "test_lamp.py").write_text(text.format(lamp=str(TESTS / "lamp.py")))
        environment = {**os.environ, "PYTHONPATH": str(PYTHON), "WLFRAME": program(), "TMPDIR": str(self.own), "PYTHONDONTWRITEBYTECODE": "1"}
        environment.pop("WLFRAME_UPDATE", None)
        words = [self.python, "-m", "pytest", "-p", "wlframe.pytest_plugin", "-p", "no:cacheprovider", "--strict-markers", *options]
        done = subprocess.run(words, cwd=self.room, env=environment, capture_output=True, text=True, check=False, timeout=PATIENCE)
        left = [it for it in os.listdir(self.own) if not it.startswith("pytest-of-")]
        self.assertEqual(left, [], done.stdout)
        return done.returncode, done.stdout

    def test_update_and_compare(self):
        status, said = self.pytest(GOOD)
        self.assertEqual(status, 1, said)
        self.assertIn("there is no expected picture lamp.png yet: --wlframe-update", said)
        self.assertTrue((self.room / "wlframe-failed" / "test_lamp-test_good" / "lamp-actual.png").exists())
        self.assertEqual(self.pytest(GOOD, "--wlframe-update")[0], 0)
        self.assertTrue((self.room / "expected" / "lamp.png").exists())
        status, said = self.pytest(GOOD)
        self.assertEqual(status, 0, said)
        self.assertFalse((self.room / "wlframe-failed" / "test_lamp-test_good").exists())

    def test_what_a_failed_test_leaves(self):
        self.assertEqual(self.pytest(GOOD, "--wlframe-update")[0], 0)
        status, said = self.pytest(BAD, "--wlframe-failed", "left")
        self.assertEqual(status, 1, said)
        self.assertRegex(said, "= (3 failed, 2 passed, 1 error|4 failed, 1 passed) in ")  # the crash is seen by the next call, or as the display ends
        self.assertIn("\ntest_lamp.py:21: PictureDiffers\n", said)
        names = sorted(os.listdir(self.room / "left"))
        self.assertEqual(names, ["test_lamp-test_bad-1", "test_lamp-test_bad-2", "test_lamp-test_crash"])
        left = set(os.listdir(self.room / "left" / "test_lamp-test_bad-1"))
        self.assertLessEqual({"last.png", "film.png", "client-1.txt", "lamp-expected.png", "lamp-actual.png", "lamp-diff.png"}, left)
        self.assertEqual((self.room / "left" / names[0] / "client-1.txt").read_text(), "pressed 0x110 at 1, 2\n")
        self.assertRegex(said, r"(?s)what wlframe left of call -+\nin .*/left/test_lamp-test_bad-1:\n  last.png: what was shown last\n")
        self.assertIn("was ended by SIGSEGV", said)
        self.assertTrue(re.search(rf"= wlframe =+\nin {self.room}/left/test_lamp-test_bad-1\n", said), said)

    def test_recording_shows_the_same(self):
        """The recording of a failed test is replayed without the client, where the program makes one."""
        told = subprocess.run([program(), "serve", "--help"], capture_output=True, text=True, check=True).stdout
        if "--record" not in told:
            self.skipTest(f"{program()} makes no recordings (--record)")
        self.pytest(GOOD)
        left = self.room / "wlframe-failed" / "test_lamp-test_good"
        with open(left / "recording.rec", "rb") as recording:
            subprocess.run([program(), "replay", "--size", "64x48", "--ppm", self.room / "replayed.ppm"], stdin=recording, capture_output=True, check=True)
        sys.path.insert(0, str(PYTHON))
        from wlframe import pictures  # pylint: disable=import-outside-toplevel

        with open(self.room / "replayed.ppm", "rb") as stream:
            *_, last = pictures.read(stream)
        self.assertEqual(last, pictures.load(left / "last.png"))


class Installs(unittest.TestCase):
    def test_offline(self):
        """pip installs the package with nothing else, and with it the plug-in and the commands."""
        if not importlib.util.find_spec("pip"):
            self.skipTest("pip isn't installed")
        room = pathlib.Path(self.enterContext(tempfile.TemporaryDirectory()))
        words = [sys.executable, "-m", "pip", "install", "--quiet", "--no-index", "--no-deps", "--disable-pip-version-check", "--target", room / "there", PYTHON]
        done = subprocess.run(words, capture_output=True, text=True, check=False, timeout=PATIENCE)
        self.assertEqual(done.returncode, 0, done.stderr)
        (points,) = (room / "there").glob("wlframe-*.dist-info/entry_points.txt")
        self.assertIn("[pytest11]\nwlframe.pytest_plugin = wlframe.pytest_plugin", points.read_text())
        self.assertTrue((room / "there" / "wlframe" / "py.typed").exists())
        environment = {**os.environ, "PYTHONPATH": str(room / "there")}
        done = subprocess.run([room / "there" / "bin" / "wlframe-ctl", "--help"], env=environment, capture_output=True, text=True, check=True)
        self.assertIn("wait-window", done.stdout)


if __name__ == "__main__":
    unittest.main()
