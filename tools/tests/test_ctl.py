"""tools/ctl and tools/display: a display that runs is pointed at, waited for and pictured."""
import contextlib
import os
import pathlib
import signal
import subprocess
import sys
import tempfile
import unittest

HERE = pathlib.Path(__file__).resolve().parent
sys.path[:0] = [str(HERE), str(HERE.parent.parent / "python")]
from wlframe.pictures import Picture, load  # pylint: disable=wrong-import-position
from rig import TOOLS, program, wait_for  # pylint: disable=wrong-import-position
from test_keys import WHY_NOT  # pylint: disable=wrong-import-position

PATIENCE = 120  # seconds
RED, DARK = (255, 0, 0), (0, 0, 128)
LAMP = [sys.executable, str(HERE / "lamp.py")]


class Controls(unittest.TestCase):
    def setUp(self):
        self.room = pathlib.Path(self.enterContext(tempfile.TemporaryDirectory()))
        self.own = self.room / "own"
        self.own.mkdir()
        self.control = self.room / "control"
        self.environment = {**os.environ, "WLFRAME": str(program()), "TMPDIR": str(self.own)}
        self.environment.pop("WLFRAME_VIEWER", None)

    def start(self, *words, **how):
        process = subprocess.Popen(words, cwd=self.room, env=self.environment, text=True, **how)  # pylint: disable=consider-using-with
        self.addCleanup(self.end, process)
        return process

    def end(self, process):
        process.terminate()
        status = process.wait(PATIENCE)
        for each in (process.stdout, process.stderr):
            with contextlib.suppress(AttributeError):
                each.close()
        self.assertEqual(os.listdir(self.own), [])
        self.assertFalse(self.control.exists())
        return status

    def run_lamp(self, *options):
        """A lamp under tools/run, with a control socket."""
        words = [sys.executable, TOOLS / "run", "--size", "64x48", "--control", self.control, "--", *LAMP, *options]
        process = self.start(*words, stdout=subprocess.PIPE, stderr=subprocess.PIPE)
        wait_for(self.control.exists, "there is no control socket")
        return process

    def ctl(self, *words, environment=None):
        words = [sys.executable, TOOLS / "ctl", *(["--control", self.control] if environment is None else []), *words]
        done = subprocess.run(words, cwd=self.room, env={**self.environment, **(environment or {})}, capture_output=True, text=True, check=False, timeout=PATIENCE)
        return done.returncode, done.stdout, done.stderr

    def shot(self, name, *words):
        """The picture that `shot` writes."""
        self.assertEqual(self.ctl("shot", name, *words), (0, "", ""))
        return load(self.room / name)

    def test_points_waits_and_pictures(self):
        """All commands, one behind the other; the first waits for the window."""
        self.run_lamp("--after", "0.5")
        self.assertEqual(self.ctl("wait-window", "--title", "Lamp", "--timeout", "60"), (0, "32x24 at 0, 0\n", ""))
        self.assertEqual(self.ctl("wait-window", "--app-id", "org.example.lamp"), (0, "32x24 at 0, 0\n", ""))
        self.assertEqual(self.ctl("windows"), (0, '32x24 at 0, 0: toplevel "Lamp" org.example.lamp\n', ""))
        self.assertEqual(self.shot("dark.png").pixel(0, 0), DARK)
        self.assertEqual(self.ctl("click", "3", "4"), (0, "", ""))
        wait_for(lambda: self.shot("red.png", "--window", "Lamp") == Picture(32, 24, bytes(RED) * 768), "the window isn't red")
        self.assertEqual(self.ctl("wait-idle", "--seconds", "0.3", "--timeout", "60"), (0, "", ""))
        self.assertEqual(self.ctl("move", "5", "6", "--window", "Lamp"), (0, "", ""))
        self.assertEqual(self.ctl("drag", "1", "1", "9", "9", "--steps", "2", "--window", "Lamp"), (0, "", ""))
        self.assertEqual(self.ctl("drag", "1", "1", "9", "9"), (0, "", ""))
        self.assertEqual(self.ctl("scroll", "1", "1", "-3", "2", "--window", "Lamp"), (0, "", ""))
        self.assertEqual(self.ctl("scroll", "1", "1", "1001"), (1, "", "ctl: 1001 and 0 clicks: give a wheel at most 1000 at once\n"))
        self.assertEqual(self.ctl("wait-idle", "--ignore", "0,0,32,24", environment={"WLFRAME_VIEWER": str(self.control)}), (0, "", ""))

    def test_buttons_and_counts(self):
        process = self.run_lamp()
        self.assertEqual(self.ctl("click", "3", "4", "--count", "2", "--window", "Lamp", "--timeout", "60"), (0, "", ""))
        self.assertEqual(self.ctl("click", "3", "4", "--button", "273"), (0, "", ""))
        self.assertEqual(process.wait(PATIENCE), 7)
        self.assertEqual(process.stdout.read().splitlines(), ["pressed 0x110 at 3, 4", "pressed 0x110 at 3, 4", "pressed 0x111 at 3, 4"])

    def test_types_copies_and_resizes(self):
        process = self.run_lamp("--keys")
        self.assertEqual(self.ctl("resize", "20", "10", "--window", "Lamp", "--timeout", "60"), (0, "", ""))
        wait_for(lambda: self.ctl("windows")[1].startswith("20x10 "), "the window has its old size")
        self.assertEqual(self.ctl("paste"), (1, "", "ctl: nothing was copied, or no text\n"))
        self.assertEqual(self.ctl("copy", "née\n"), (0, "", ""))
        self.assertEqual(self.ctl("paste"), (0, "née\n", ""))
        if WHY_NOT:
            status, _, said = self.ctl("type", "b")
            self.assertEqual(status, 1)
            self.assertIn("there is no keyboard", said)
            self.skipTest(WHY_NOT)
        self.assertEqual(self.ctl("type", "b"), (0, "", ""))
        self.assertEqual(self.ctl("key", "ctrl+a"), (0, "", ""))
        status, _, said = self.ctl("key", "hyper+a")
        self.assertEqual(status, 1)
        self.assertIn("'hyper+a' is no chord", said)
        self.assertEqual(self.ctl("click", "1", "1", "--button", "right"), (0, "", ""))
        self.assertEqual(process.wait(PATIENCE), 7)
        self.assertEqual(process.stdout.read().splitlines(), ["key 48 with 0", "key 29 with 0", "key 30 with 4", "pressed 0x111 at 1, 1"])

    def test_what_fails(self):
        self.run_lamp()
        self.assertEqual(self.ctl("wait-window", "--timeout", "60")[0], 0)
        for words, status, said in [
            (["wait-window", "--title", "Other", "--timeout", "0.1"], 124, "wasn't shown in 0.1 seconds; there are \"Lamp\""),
            (["click", "1", "1", "--window", "Other", "--timeout", "0.1"], 124, 'with the title "Other" wasn\'t shown'),
            (["click", "40", "1", "--window", "Lamp"], 1, "40, 1 isn't within \"Lamp\""),
            (["move", "64", "1"], 1, "64, 1 isn't within the display of 64x48"),
            (["click", "1", "1", "--button", "fourth"], 1, "fourth: give a button by its number, or as one of left"),
            (["shot", "missing/shot.png"], 1, "missing/shot.png"),
            (["wait-idle", "--seconds", "100", "--timeout", "0.1"], 124, "didn't stay the same for 100 seconds in 0.1"),
            (["wait-idle", "--ignore", "1,2"], 2, "write a box as X,Y,W,H"),
            (["press", "1"], 2, "invalid choice: 'press'"),
        ]:
            done = self.ctl(*words)
            self.assertEqual(done[:2], (status, ""), done)
            self.assertIn(said, done[2])

    def test_no_display(self):
        self.assertEqual(self.ctl("windows"), (1, "", f"ctl: {self.control}: no display answers there: No such file or directory\n"))
        status, _, said = self.ctl("windows", environment={})
        self.assertEqual(status, 2)
        self.assertIn("which display? Name its socket by --control PATH, or by WLFRAME_VIEWER in the environment", said)

    def test_client_that_controls_itself(self):
        """A script under tools/run finds the display by its environment."""
        script = f"{' '.join(LAMP)} & {sys.executable} {TOOLS / 'ctl'} click 1 1 --timeout 60 && {sys.executable} {TOOLS / 'ctl'} windows; kill $!; exit 5"
        words = [sys.executable, TOOLS / "run", "--size", "64x48", "--control", self.control, "--", "sh", "-c", script]
        process = self.start(*words, stdout=subprocess.PIPE)
        self.assertEqual(process.wait(PATIENCE), 5)
        self.assertIn('toplevel "Lamp"', process.stdout.read())

    def test_display_of_its_own(self):
        """tools/display tells a shell how it is found, and ends at SIGTERM."""
        words = [sys.executable, TOOLS / "display", "--size", "64x48", "--control", self.control]
        with open(self.room / "env", "w", encoding="utf-8") as told:
            process = self.start(*words, stdout=told)
        wait_for(lambda: "unset" in (self.room / "env").read_text(), "it doesn't tell")
        shell = f". ./env; {' '.join(LAMP)} & . ./env; {sys.executable} {TOOLS / 'ctl'} wait-window --timeout 60; kill $!"
        done = subprocess.run(["sh", "-c", shell], cwd=self.room, env=self.environment, capture_output=True, text=True, check=False, timeout=PATIENCE)
        self.assertEqual(done.stdout, "32x24 at 0, 0\n")
        process.send_signal(signal.SIGTERM)
        self.assertEqual(process.wait(PATIENCE), 0)

    def test_socket_that_can_not_be_made(self):
        self.control.write_text("kept")
        words = [sys.executable, TOOLS / "run", "--size", "64x48", "--control", self.control, "--", *LAMP]
        done = subprocess.run(words, env=self.environment, capture_output=True, text=True, check=False, timeout=PATIENCE)
        self.assertEqual((done.returncode, done.stderr), (125, f"run: can't make a socket at {self.control}: Address already in use\n"))
        self.assertEqual(self.control.read_text(), "kept")
        self.control.unlink()


if __name__ == "__main__":
    unittest.main()
