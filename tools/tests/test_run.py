"""tools/run over the real program: pictures, frames and reports; how a run ends; what it says where something fails. test_films has its films."""
import contextlib
import os
import pathlib
import re
import resource
import shutil
import signal
import subprocess
import sys
import tempfile
import unittest

HERE = pathlib.Path(__file__).resolve().parent
sys.path[:0] = [str(HERE), str(HERE.parent.parent / "python")]
from wlframe import pictures  # pylint: disable=wrong-import-position
from rig import TOOLS, program, wait_for  # pylint: disable=wrong-import-position

RED, GREEN, BLUE, BLACK = bytes.fromhex("ff0000"), bytes.fromhex("00ff00"), bytes.fromhex("0000ff"), b"\0\0\0"
OUTPUT, WINDOW = (64, 48), (32, 24)  # WINDOW is painter.py's, which stands in the output's corner
PATIENCE = 120  # seconds
LONG = "12"  # seconds in which a client shows something, also on a machine that does much else
KEPT = "what it said stands above, and what it showed until then is kept"
FULL = "run: /dev/full can't be written: No space left on device; make room there, or name another place"


def read(path):
    """The picture of a file."""
    with open(path, "rb") as stream:
        (picture,) = pictures.read(stream)
    return picture


def expected(colour):
    """The output with the painter's window of this colour."""
    row = colour * WINDOW[0] + BLACK * (OUTPUT[0] - WINDOW[0])
    return pictures.Picture(*OUTPUT, row * WINDOW[1] + BLACK * OUTPUT[0] * (OUTPUT[1] - WINDOW[1]))


def below(process):
    """The numbers of the processes that a process started, and that these started."""
    parents = {}
    for path in pathlib.Path("/proc").glob("[0-9]*/stat"):
        with contextlib.suppress(OSError):
            parents[path.parent.name] = path.read_text(errors="replace").rpartition(")")[2].split()[1]
    found, more = [], [str(process)]
    while more:
        more = [it for it, parent in parents.items() if parent in more]
        found += more
    return found


class Tool(unittest.TestCase):
    """tools/run in a folder of its own."""

    def setUp(self):
        self.room = pathlib.Path(self.enterContext(tempfile.TemporaryDirectory()))
        self.own = self.room / "own"  # where tools/run makes its folder
        self.own.mkdir()

    def words(self, *options, client=()):
        return [sys.executable, TOOLS / "run", "--size", "{}x{}".format(*OUTPUT), *options, "--", *client]

    def environment(self, **more):
        return {**os.environ, "WLFRAME": str(program()), "TMPDIR": str(self.own), **more}

    def run_tool(self, *options, client=(), environment=None, **how):
        """Runs a client under tools/run. The folder of the run has to be gone."""
        done = subprocess.run(
            self.words(*options, client=client),
            cwd=self.room,
            env=self.environment(**(environment or {})),
            capture_output=True,
            text=True,
            timeout=PATIENCE,
            check=False,
            stdin=subprocess.DEVNULL,
            **how,
        )
        self.assertEqual(os.listdir(self.own), [])
        return done

    def paint(self, *options, painter=(), **how):
        return self.run_tool(*options, client=[sys.executable, HERE / "painter.py", *painter], **how)

    def expect(self, done, status, text):
        """It ended with this status, and its last line is this."""
        self.assertEqual((done.returncode, done.stderr.splitlines()[-1:]), (status, [text]))


class Runs(Tool):
    def test_last_frame_of_one_that_leaves(self):
        done = self.paint("--png", "shot.png", painter=["ff0000", "00ff00"])
        self.assertEqual((done.returncode, done.stderr), (0, ""))
        self.assertEqual(read(self.room / "shot.png"), expected(GREEN))

    def test_idle(self):
        done = self.paint("--until-idle", "300", "--png", "shot.png", painter=["--then", "wait", "0000ff"])
        self.assertEqual((done.returncode, done.stderr), (0, ""))
        self.assertEqual(read(self.room / "shot.png"), expected(BLUE))

    def test_time_over(self):
        done = self.paint("--seconds", LONG, "--png", "shot.png", painter=["--then", "wait", "ff0000"])
        self.assertEqual((done.returncode, done.stderr), (124, ""))
        self.assertEqual(read(self.room / "shot.png"), expected(RED))

    def test_changed_frames_and_report(self):
        done = self.paint("--frames", "frames", "--report", "report", painter=["ff0000", "ff0000", "0000ff"])
        self.assertEqual((done.returncode, done.stderr), (0, ""))
        self.assertLessEqual({"0001.png", "0003.png"}, set(os.listdir(self.room / "frames")))
        self.assertNotIn("0002.png", os.listdir(self.room / "frames"))
        self.assertEqual(read(self.room / "frames" / "0001.png"), expected(RED))
        self.assertEqual(read(self.room / "frames" / "0003.png"), expected(BLUE))
        lines = [it.split() for it in (self.room / "report").read_text().splitlines()]
        self.assertEqual([it[2] for it in lines if it[0] == "frame"][:3], 3 * [str(WINDOW[0] * WINDOW[1])])
        self.assertIn(["end", "1", "gone"], lines)

    def test_fullscreen(self):
        done = self.paint("--fullscreen", painter=["ff0000"])
        self.assertEqual((done.returncode, done.stdout), (0, "asked for 64x48\n"))
        self.assertEqual(self.paint(painter=["ff0000"]).stdout, "asked for 0x0\n")

    def test_client_that_fails(self):
        self.assertEqual(self.paint("--png", "shot.png", painter=["--then", "fail", "ff0000"]).returncode, 7)
        self.assertEqual(read(self.room / "shot.png"), expected(RED))

    def test_client_that_dies(self):
        done = self.paint(painter=["--then", "die", "ff0000"])
        self.expect(done, 128 + signal.SIGSEGV, f"run: {sys.executable} was ended by SIGSEGV: {KEPT}")

    def test_client_that_shows_nothing(self):
        (self.room / "shot.png").write_bytes(b"of an earlier run")
        done = self.run_tool("--png", "shot.png", client=["true"])
        self.expect(done, 125, "run: true showed nothing, so there is no picture")
        self.assertFalse((self.room / "shot.png").exists())

    def test_client_that_is_not_there(self):
        self.expect(self.run_tool(client=["no-such-client"]), 127, "run: no-such-client isn't installed")
        self.expect(self.run_tool(client=[HERE / "painter.py"]), 126, f"run: {HERE / 'painter.py'} may not be started")

    def test_wrong_words(self):
        for size in ("0x48", "64x4097", "64", "64x48x2"):
            done = self.paint("--size", size)
            self.expect(done, 125, f"run: --size {size}: give two numbers from 1 to 4096, as 640x480; --help tells more")
        self.expect(self.run_tool(), 125, "run: which client? Put it behind --, as in: -- weston-simple-shm; --help tells more")
        self.assertEqual(self.paint("--seconds", "never").returncode, 125)

    def test_no_program(self):
        done = self.paint(environment={"WLFRAME": "/nowhere/wlframe"})
        self.expect(done, 125, "run: /nowhere/wlframe is no program")

    def stand_in(self, text):
        """A program in the place of the real one, which tells its options as that does."""
        path = self.room / "stand-in"
        path.write_text(f'#!/bin/sh\ncase "$*" in *--help*) exec {program()} "$@";; esac\n{text}\n')
        path.chmod(0o755)
        return {"WLFRAME": str(path)}

    def test_server_that_dies(self):
        """It is killed once something was shown, and the client, which would wait for a minute, is ended."""
        way = self.stand_in(f'{program()} "$@" & it=$!; while [ ! -e shot.png ]; do sleep 0.05; done; kill -9 $it; wait $it; kill -9 $$')
        done = self.paint("--png", "shot.png", painter=["--then", "wait", "ff0000"], environment=way)
        self.expect(done, 125, "run: the server was ended by SIGKILL before the client: what it said stands above; please report this")

    def test_server_that_does_not_start(self):
        done = self.paint(environment=self.stand_in("echo wlframe: bind failed >&2; exit 1"))
        self.assertIn("wlframe: bind failed", done.stderr)
        self.expect(done, 125, "run: the server didn't start: it ended with status 1, and what it said stands above")

    def test_program_without_a_viewer(self):
        path = self.room / "old"
        path.write_text("#!/bin/sh\necho --turns N\n")
        path.chmod(0o755)
        done = self.paint(environment={"WLFRAME": str(path)})
        self.expect(done, 125, f"run: {path} is too old to see what clients show: it has no --viewer. Build it anew, or name a later one")

    def test_words_of_the_server(self):
        """It is asked for 60 turns a second, for the default size that fits most windows, and for what the user asked."""
        path = self.room / "stand-in"
        path.write_text(f'#!/bin/sh\ncase "$*" in *--help*) exec {program()} "$@";; esac\necho "$*" > {self.room}/words\nexit 1\n')
        path.chmod(0o755)
        words = [sys.executable, TOOLS / "run", "--", "true"]
        subprocess.run(words, env=self.environment(WLFRAME=str(path)), capture_output=True, check=False, timeout=PATIENCE)
        self.assertIn(" --size 1024x768 --rate 60", (self.room / "words").read_text())

    def test_idle_limit(self):
        """One that never rests is ended with a status of its own, but where what changes is ignored."""
        lamp = [sys.executable, HERE / "lamp.py", "--blink", "2,3,4,5"]
        done = self.run_tool("--until-idle", "20000", "--idle-limit", LONG, "--png", "shot.png", client=lamp)
        self.expect(done, 123, f"run: {sys.executable} wasn't idle for 20000 milliseconds within {LONG} seconds")
        self.assertEqual(read(self.room / "shot.png").pixel(0, 0), (0, 0, 128))
        done = self.run_tool("--until-idle", "300", "--idle-limit", "60", "--ignore", "2,3,4,5", client=lamp)
        self.assertEqual((done.returncode, done.stderr), (0, ""))
        done = self.run_tool("--until-idle", "300", "--idle-limit", "0.5", client=["sleep", "1000"])
        self.expect(done, 123, "run: sleep showed nothing within 0.5 seconds")

    def test_crop(self):
        lamp = [sys.executable, HERE / "lamp.py", "--geometry", "4,3,20,10"]
        done = self.run_tool("--until-idle", "500", "--crop", "--png", "shot.png", client=lamp)
        self.assertEqual((done.returncode, done.stderr), (0, ""))
        self.assertEqual(read(self.room / "shot.png"), pictures.Picture(20, 10, bytes((0, 0, 128)) * 200))

    def test_words_that_are_for_others(self):
        for option, needs in (("--crop", "--png"), ("--idle-limit=3", "--until-idle"), ("--ignore=1,2,3,4", "--until-idle")):
            self.expect(self.paint(option), 125, f"run: {option.partition('=')[0]} needs {needs}; --help tells more")
        done = self.paint("--until-idle", "10", "--ignore", "1,2,3")
        self.expect(done, 125, "run: argument --ignore: 1,2,3: write a box as X,Y,W,H, like 10,20,100,30; --help tells more")

    def test_client_without_the_dashes(self):
        words = [sys.executable, TOOLS / "run", "--size", "64x48", "weston-flower", "--fast"]
        done = subprocess.run(words, env=self.environment(), capture_output=True, text=True, check=False)
        self.expect(done, 125, "run: put the client behind --, as in: -- weston-flower --fast; --help tells more")
        self.expect(self.paint("--pgn", "shot.png"), 125, "run: there is no option --pgn; --help tells more")
        self.expect(self.paint("shot.png"), 125, "run: shot.png is no option: put what belongs to the client behind --; --help tells more")

    def test_pointer_file(self):
        missing = self.room / "missing"
        self.expect(self.paint("--pointer", missing), 125, f"run: --pointer {missing}: No such file or directory; --help tells more")
        path = self.room / "moves"
        for line in ("move 1 2 3", "motion 1 2", "button 0 272 2", "motion -1 2 3"):
            path.write_text(f"# good\n\n motion 0 -3 4\nbutton 00 272 1 \n{line}\n")
            said = f"run: --pointer {path}: line 5 is {line!r}. Write `motion T X Y`, `button T CODE 0` or `button T CODE 1`; --help tells more"
            self.expect(self.paint("--pointer", path), 125, said)
        path.write_text("# good\nmotion 0 3 4")
        self.assertEqual(self.paint("--pointer", path, painter=["ff0000"]).returncode, 0)

    def test_full_disk(self):
        self.expect(self.paint("--report", "/dev/full", painter=["ff0000"]), 125, FULL)
        missing = self.room / "missing" / "shot.png"
        self.expect(self.paint("--png", missing, painter=["ff0000"]), 125, f"run: {missing} can't be written: there is no such folder")

    def test_full_disk_for_pools(self):
        """No file may be longer than 1,000 bytes, but for the client's own: its memory is shown by a link, and isn't copied."""
        limit = {"preexec_fn": lambda: resource.setrlimit(resource.RLIMIT_FSIZE, (1000, resource.RLIM_INFINITY))}
        done = self.paint("--report", "told", painter=["ff0000"], **limit)
        self.assertEqual((done.returncode, done.stderr), (0, ""))
        self.assertIn("frame ", (self.room / "told").read_text())

    def test_folder_of_frames_that_is_not_empty(self):
        (self.room / "kept").write_text("kept")
        self.expect(self.paint("--frames", "."), 125, "run: . isn't empty: name a new folder for the frames, or empty it")

    def test_side_by_side(self):
        painter = [sys.executable, HERE / "painter.py", "--then", "wait"]
        colours = {"ff0000": RED, "00ff00": GREEN, "0000ff": BLUE}
        how = {"cwd": self.room, "env": self.environment(), "stdout": subprocess.DEVNULL}
        started = [
            subprocess.Popen(self.words("--until-idle", "500", "--png", f"{it}.png", client=[*painter, it]), **how)
            for it in colours
        ]
        self.addCleanup(lambda: [it.kill() for it in started])
        self.assertEqual([it.wait(PATIENCE) for it in started], [0, 0, 0])
        for name, colour in colours.items():
            self.assertEqual(read(self.room / f"{name}.png"), expected(colour))

    def test_end_by_a_signal(self):
        """The last picture is written while the client runs, and all that was started ends."""
        painter = [sys.executable, HERE / "painter.py", "--then", "wait", "ff0000"]
        started = subprocess.Popen(self.words("--png", "shot.png", client=painter), cwd=self.room, env=self.environment(), stdout=subprocess.DEVNULL)
        wait_for((self.room / "shot.png").exists, "no picture is written")
        all_below = below(started.pid)
        self.assertEqual(len(all_below), 4)  # the supervisor, and server, bridge and client below it
        started.send_signal(signal.SIGTERM)
        self.assertEqual(started.wait(PATIENCE), 128 + signal.SIGTERM)
        self.assertFalse([it for it in all_below if (pathlib.Path("/proc") / it).exists()])
        self.assertEqual(read(self.room / "shot.png"), expected(RED))
        self.assertEqual(os.listdir(self.own), [])

    def test_end_by_sigkill(self):
        """Nothing is left: neither the folder nor a process, nor what the client started."""
        client = ["sh", "-c", f"setsid sleep 1000 & {sys.executable} {HERE / 'painter.py'} --then wait ff0000"]
        started = subprocess.Popen(self.words("--png", "shot.png", client=client), cwd=self.room, env=self.environment(), stdout=subprocess.DEVNULL)
        wait_for((self.room / "shot.png").exists, "no picture is written")
        all_below = below(started.pid)
        self.assertGreaterEqual(len(all_below), 6)
        started.kill()
        started.wait()
        wait_for(lambda: not any((pathlib.Path("/proc") / it).exists() for it in all_below), "a process is left")
        self.assertEqual(os.listdir(self.own), [])

    def test_installed(self):
        """What tools/install puts in place works without this folder, and finds its own program."""
        prefix = self.room / "prefix"
        subprocess.run([TOOLS / "install", prefix], env=self.environment(), check=True, capture_output=True)
        environment = {it: value for it, value in self.environment().items() if it != "WLFRAME"}
        words = [prefix / "bin" / "wlframe-run", "--size", "64x48", "--png", "shot.png", "--", sys.executable, HERE / "painter.py", "ff0000"]
        subprocess.run(words, cwd=self.room, env=environment, check=True, capture_output=True)
        self.assertEqual(read(self.room / "shot.png"), expected(RED))
        subprocess.run([prefix / "bin" / "wlframe-compare", "shot.png", "shot.png"], cwd=self.room, check=True)
        examples = TOOLS.parent / "examples"
        for name, words, told in [
            ("compose", [examples / "sync.txt"], (examples / "sync.rec").read_text()),
            ("words", [examples / "sync.rec"], "client 1 -> wl_display#1.sync(new wl_callback#2)\n"),
            ("bridge", ["--help"], "usage: wlframe-bridge"),
        ]:
            done = subprocess.run([prefix / "bin" / f"wlframe-{name}", *words], capture_output=True, text=True, check=True)
            self.assertIn(told, done.stdout)

    def test_another_user(self):
        """It works without the rights of root, from a folder that may only be read."""
        if os.getuid() != 0:
            self.skipTest("only root can be another user; the other tests show it as this one")
        place = pathlib.Path(self.enterContext(tempfile.TemporaryDirectory(dir="/tmp")))
        for name in ("tools", "python"):
            shutil.copytree(TOOLS.parent / name, place / name, ignore=shutil.ignore_patterns("__pycache__"))
        shutil.copy(program(), place / "wlframe")
        (place / "home").mkdir()
        place.chmod(0o755)
        (place / "home").chmod(0o777)
        python = shutil.which("python3", path="/usr/bin:/usr/local/bin") or sys.executable
        other = {"cwd": "/", "user": 65534, "group": 65534, "extra_groups": [], "capture_output": True, "text": True}
        try:
            subprocess.run([python, "-c", "import sys; sys.exit(sys.version_info < (3, 11))"], check=True, **other)
        except (OSError, subprocess.CalledProcessError):
            self.skipTest("there is no Python 3.11 that another user may run")
        words = [python, place / "tools" / "run", "--size", "64x48", "--png", "shot.png", "--program", place / "wlframe"]
        painter = [python, place / "tools" / "tests" / "painter.py", "ff0000"]
        environment = {"PATH": "/usr/bin:/bin", "TMPDIR": str(place / "home")}
        done = subprocess.run([*words, "--", *painter], env=environment, check=False, **{**other, "cwd": place / "home"})
        self.assertEqual((done.returncode, done.stderr), (0, ""))
        self.assertEqual(read(place / "home" / "shot.png"), expected(RED))


if __name__ == "__main__":
    unittest.main()
