"""The supervisor of a display's processes: what it starts, and that nothing is left, whatever ends who asked for it."""
import os
import pathlib
import signal
import subprocess
import sys
import tempfile
import time
import unittest
import unittest.mock

PYTHON = pathlib.Path(__file__).resolve().parent.parent
sys.path.insert(0, str(PYTHON))
from wlframe.faults import Failure  # pylint: disable=wrong-import-position
from wlframe.processes import Household, in_words  # pylint: disable=wrong-import-position
from wlframe.supervisor import LOCK, PREFIX  # pylint: disable=wrong-import-position

PATIENCE = 60  # seconds
# A process that starts another in a session of its own, which outlives it, and tells both numbers.
FORKS = "sleep 1000 & echo $! > one; setsid sh -c 'echo $$ > two; exec sleep 1000' & while [ ! -s two ]; do sleep 0.01; done; echo $$ > three"
# A test run that starts processes and is killed.
RUN = """
import os, sys
sys.path.insert(0, sys.argv[1])
from wlframe.processes import Household
household = Household()
nothing = os.open(os.devnull, os.O_RDWR)
household.start(["sh", "-c", sys.argv[2] + "; sleep 1000"], dict(os.environ), [nothing] * 3)
print(household.folder, household.supervisor.pid, flush=True)
sys.stdin.read()
"""


def wait_for(what, why):
    until = time.monotonic() + PATIENCE
    while time.monotonic() < until:
        if found := what():
            return found
        time.sleep(0.01)
    raise TimeoutError(why)


def is_there(process):
    """Whether a process runs; one that has ended and wasn't waited for doesn't."""
    try:
        return pathlib.Path(f"/proc/{process}/stat").read_text(errors="replace").rpartition(")")[2].split()[0] not in "ZX"
    except OSError:
        return False


class Homes(unittest.TestCase):
    def setUp(self):
        self.room = pathlib.Path(self.enterContext(tempfile.TemporaryDirectory()))
        self.own = self.room / "own"
        self.own.mkdir()
        self.enterContext(unittest.mock.patch.dict(os.environ, {"TMPDIR": str(self.own)}))
        self.enterContext(unittest.mock.patch.object(tempfile, "tempdir", None))
        self.nothing = open(os.devnull, "r+b")  # pylint: disable=consider-using-with
        self.addCleanup(self.nothing.close)

    def home(self):
        made = Household()
        self.addCleanup(made.close)
        return made

    def start(self, home, *words, told=None):
        return home.start(words, dict(os.environ), [self.nothing, told or self.nothing, self.nothing], self.room)

    def numbers(self):
        """The processes that FORKS told."""
        wait_for(lambda: (self.room / "three").exists() and (self.room / "three").stat().st_size, "it doesn't tell its number")
        return [int((self.room / it).read_text()) for it in ("one", "two", "three")]


class Starts(Homes):
    def test_statuses(self):
        home = self.home()
        self.assertEqual(self.start(home, "sh", "-c", "exit 7").wait(PATIENCE), 7)
        self.assertEqual(self.start(home, "sh", "-c", "kill -SEGV $$").wait(PATIENCE), -signal.SIGSEGV)
        self.assertEqual(self.start(home, "true").wait(PATIENCE), 0)

    def test_many_that_end_at_once(self):
        home = self.home()
        started = [self.start(home, "true") for _ in range(20)]
        self.assertEqual([it.wait(PATIENCE) for it in started], 20 * [0])

    def test_output_folder_and_environment(self):
        home = self.home()
        with open(self.room / "told", "wb") as told:
            process = home.start(["sh", "-c", "echo \"$MINE\"; pwd"], {**os.environ, "MINE": "ä\n"}, [self.nothing, told, self.nothing], self.room)
            self.assertEqual(process.wait(PATIENCE), 0)
        self.assertEqual((self.room / "told").read_text(encoding="utf-8"), f"ä\n\n{self.room}\n")

    def test_what_is_not_there(self):
        home = self.home()
        with self.assertRaises(FileNotFoundError) as caught:
            self.start(home, "no-such-client")
        self.assertEqual(caught.exception.filename, "no-such-client")
        with self.assertRaises(PermissionError):
            self.start(home, "/etc/passwd")
        self.assertEqual(self.start(home, "true").wait(PATIENCE), 0)

    def test_no_time(self):
        process = self.start(self.home(), "sleep", "1000")
        with self.assertRaises(subprocess.TimeoutExpired):
            process.wait(0.1)
        self.assertIsNone(process.poll())

    def test_end(self):
        process = self.start(self.home(), "sh", "-c", FORKS + "; wait")
        one, _, three = self.numbers()
        process.end()
        self.assertEqual(process.poll(), -signal.SIGTERM)
        wait_for(lambda: not is_there(one), "what it started is left")
        self.assertFalse(is_there(three))

    def test_end_of_one_that_does_not_want_to(self):
        process = self.start(self.home(), "sh", "-c", f"trap '' TERM; echo > {self.room}/ready; while :; do sleep 1; done")
        wait_for((self.room / "ready").exists, "it isn't ready")
        process.end()
        self.assertEqual(process.poll(), -signal.SIGKILL)

    def test_in_words(self):
        self.assertEqual([in_words(7), in_words(-11)], ["ended with status 7", "was ended by SIGSEGV"])

    def test_long_name(self):
        far = self.own / ("x" * 100)
        far.mkdir()
        with unittest.mock.patch.object(tempfile, "tempdir", str(far)), self.assertRaisesRegex(Failure, "too long a name"):
            Household()
        self.assertEqual(os.listdir(far), [])


class Leaves(Homes):
    def test_close(self):
        home = Household()
        self.start(home, "sh", "-c", FORKS)
        numbers = self.numbers()
        self.assertEqual(os.listdir(self.own), [home.folder.name])
        home.close()
        self.assertEqual([it for it in numbers if is_there(it)], [])
        self.assertEqual(os.listdir(self.own), [])

    def run_one(self):
        """A test run with its folder and its supervisor."""
        words = [sys.executable, "-c", RUN, str(PYTHON), FORKS]
        run = subprocess.Popen(words, cwd=self.room, stdin=subprocess.PIPE, stdout=subprocess.PIPE, text=True)  # pylint: disable=consider-using-with
        self.addCleanup(lambda: (run.kill(), run.wait(), run.stdin.close(), run.stdout.close()))
        folder, supervisor = run.stdout.readline().split()
        return run, pathlib.Path(folder), int(supervisor), self.numbers()

    def test_run_that_is_killed(self):
        run, folder, supervisor, numbers = self.run_one()
        run.kill()
        wait_for(lambda: not is_there(supervisor), "the supervisor is left")
        self.assertEqual([it for it in numbers if is_there(it)], [])
        self.assertFalse(folder.exists())

    def test_run_that_ends_without_closing(self):
        run, folder, supervisor, numbers = self.run_one()
        run.stdin.close()
        self.assertEqual(run.wait(PATIENCE), 0)
        wait_for(lambda: not is_there(supervisor), "the supervisor is left")
        self.assertEqual([it for it in numbers if is_there(it)], [])
        self.assertFalse(folder.exists())

    def test_supervisor_that_is_asked_to_end(self):
        """It goes on: who holds the other end decides."""
        home = self.home()
        for number in (signal.SIGTERM, signal.SIGINT, signal.SIGHUP):
            os.kill(home.supervisor.pid, number)
        self.assertEqual(self.start(home, "true").wait(PATIENCE), 0)

    def test_supervisor_that_is_killed(self):
        """What it started itself ends with it, and the next one removes the folder."""
        home = self.home()
        process = self.start(home, "sleep", "1000")
        home.supervisor.kill()
        home.supervisor.wait()
        with self.assertRaisesRegex(Failure, "the supervisor of the display is gone"):
            process.wait(PATIENCE)
        wait_for(lambda: not is_there(process.pid), "its child is left")
        self.assertTrue(home.folder.exists())
        other = self.home()
        self.assertEqual(os.listdir(self.own), [other.folder.name])

    def test_folders_of_others_stay(self):
        mine, without = self.home(), self.own / f"{PREFIX}without"
        without.mkdir()
        (self.own / "other").mkdir()
        (self.own / "other" / LOCK).touch()
        self.home().close()
        self.assertEqual(sorted(os.listdir(self.own)), sorted([mine.folder.name, without.name, "other"]))


if __name__ == "__main__":
    unittest.main()
