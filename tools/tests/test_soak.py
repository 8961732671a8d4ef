"""bench/soak: it passes over the program, and fails where the server ends, stops, is late, tells something else, shows something else or grows. And the dear
messages of bench/hostile.py are ones that the server takes."""
import os
import pathlib
import re
import shlex
import signal
import subprocess
import sys
import tempfile
import unittest
from unittest import mock

sys.path.insert(0, str(pathlib.Path(__file__).resolve().parent))
from rig import TOOLS, loaded, program, wait_for  # pylint: disable=wrong-import-position

SOAK = TOOLS.parent / "bench" / "soak"
sys.path.insert(0, str(SOAK.parent))  # where its modules are
import costly  # pylint: disable=wrong-import-position

SEED = "7"
QUICK = "noise,mutated,flood,comes,halves,pools,titles,windows,menus,pointers"  # kinds that hold nobody up for long
FAILED = r"^bench/soak: after [\d.]+ seconds, seed 7: "


class Soak(unittest.TestCase):
    def setUp(self):
        self.room = pathlib.Path(self.enterContext(tempfile.TemporaryDirectory()))
        self.pid = self.room / "pid"

    def server(self, change=""):
        """The program, which leaves the id of its process, with words that the shell has changed."""
        script = self.room / "server"
        script.write_text(f'#!/bin/bash\necho $$ > {shlex.quote(str(self.pid))}.new\nmv {self.pid}.new {self.pid}\n{change}\nexec {shlex.quote(str(program()))} "$@"\n')
        script.chmod(0o755)
        return script

    def begin(self, *words, change="", seconds=3):
        """Starts a soak of so many seconds."""
        command = [sys.executable, SOAK, "--seconds", str(seconds), "--seed", SEED, "--program", self.server(change), *words]
        process = subprocess.Popen(command, stdout=subprocess.PIPE, stderr=subprocess.STDOUT, text=True)
        self.addCleanup(process.stdout.close)
        self.addCleanup(process.wait)
        self.addCleanup(process.kill)
        return process

    def expect_failure(self, process, why):
        """It fails, and says last why."""
        said, _ = process.communicate()
        self.assertRegex(said.splitlines()[-1], FAILED + why)
        self.assertEqual(process.returncode, 1, said)

    def expect_failure_by(self, number, why, *words):
        """It fails once its server got a signal amid a storm."""
        process = self.begin("--kinds", QUICK, *(words or ["--patience", "60"]), seconds=60)
        wait_for(self.pid.exists, "the soak starts no server")
        server = int(self.pid.read_text())
        wait_for(lambda: b"client 9" in (pathlib.Path(f"/proc/{server}/fd/1").read_bytes()), "no hostile client comes")
        os.kill(server, number)
        self.expect_failure(process, why)

    def test_it_passes(self):
        """A machine with other work is given more time."""
        process = self.begin("--kinds", QUICK, "--patience", "30", "--longest", "30000")
        said, _ = process.communicate()
        self.assertEqual(process.returncode, 0, said)
        connections, requests = re.search(r"^hostile: ([\d,]+) connections, ([\d,]+) requests", said, re.MULTILINE).groups()
        self.assertGreaterEqual(int(connections.replace(",", "")), 31)
        self.assertGreater(int(requests.replace(",", "")), 500)
        self.assertRegex(said, r"(?m)^good: [\d,]+ round trips; ")
        self.assertRegex(said, r"(?m)^the longest began after [\d.]+ seconds, beside .+; the longest without hostile clients took [\d.]+ ms$")
        self.assertRegex(said, r"(?m)^errands: [1-9]\d* pools, toplevels and popups of the good client$")
        self.assertRegex(said, r"(?m)^descriptors: \d+ at most; images looked at: 2$")

    def test_server_that_is_late(self):
        process = self.begin("--kinds", "noise", "--patience", "30", "--longest", "0.001")
        self.expect_failure(process, r"the good client waited \d+ ms for a round trip, after [\d.]+ seconds: above 0.001 ms$")

    def test_server_that_is_killed(self):
        self.expect_failure_by(signal.SIGKILL, r"the server ended by SIGKILL$")

    def test_server_that_stops(self):
        self.expect_failure_by(signal.SIGSTOP, r"the good client waited 5 seconds for a round trip and a frame$", "--patience", "5")

    def test_server_that_tells_something_else(self):
        process = self.begin("--patience", "60", change='set -- "${@/640x480/640x479}"')
        self.expect_failure(process, r"the good client was told [0-9a-f ]+ instead of [0-9a-f ]+$")

    def test_server_that_shows_something_else(self):
        """It reads the clients' memory elsewhere, where there is none."""
        elsewhere = self.room / "elsewhere"
        elsewhere.mkdir()
        process = self.begin("--patience", "6", change=f'set -- "${{@:1:5}}" --size 640x480 --dir {elsewhere} "${{@:10}}"')
        self.expect_failure(process, r"the image is wrong: [\d,]+ pixels, the first at \(0, 0\), which is 000000 and not [0-9a-f]{6}$")

    def test_server_that_grows(self):
        process = self.begin("--kinds", QUICK, "--memory", "0.5", "--patience", "60", seconds=60)
        self.expect_failure(process, r"the server has [\d.,]+ MB in memory, above the 0\.5 MB that it may have$")

    def test_usage(self):
        for words in (["--kinds", "none"], ["--rate", "0"], ["--longest", "0"], ["--memory", "-1"], ["--seconds", "0"], ["--program", "/nowhere"], ["word"]):
            with self.subTest(words):
                done = subprocess.run([sys.executable, SOAK, *words], capture_output=True, text=True, check=False)
                self.assertEqual((done.returncode, done.stdout), (2, ""))
                self.assertRegex(done.stderr, r"^bench/soak: .*; --help tells more\n$")


class Dear(unittest.TestCase):
    """Each of the dear kinds with few windows, on a small output, twice."""

    def setUp(self):
        self.room = self.enterContext(tempfile.TemporaryDirectory())
        self.enterContext(mock.patch.multiple(costly, WINDOWS=4, SUBSURFACES=3))
        costly.make_half(self.room, costly.SMALL)

    def report(self, kind):
        """What a replay tells of it, with a tick behind it where it has none."""
        asked = costly.COSTLY[kind]._replace(side=costly.SMALL)
        lines = costly.recording(asked, 1 if asked.pool else 2) + b"tick 9\n"
        done = subprocess.run([program(), "replay", "--size", "640x480", "--dir", self.room], input=lines, capture_output=True, check=True)
        return done.stdout.decode().splitlines()

    def test_each_is_taken(self):
        for kind, asked in costly.COSTLY.items():
            with self.subTest(kind):
                said = self.report(kind)
                self.assertEqual([it for it in said if it.startswith("end ")], [])
                shown = [int(it.split()[2]) for it in said if it.startswith("frame ")]
                everything = costly.SMALL[0] * costly.SMALL[1]
                if asked.is_of_ticks:
                    each = everything if kind == "translucent" else everything // 2
                    self.assertEqual(shown, [everything, each, each, 0])
                else:
                    self.assertEqual(shown, [0 if asked.pool else everything])

    def test_a_row(self):
        self.assertEqual(
            costly.row("moves", 2.5), "| `moves` | set_position and commit, 253 subsurfaces of 640 by 480 | 24 | 2.50 | 6,827 | 1, above |"
        )
        self.assertRegex(costly.row("columns", 2.5), r"7,688 \(a tick\) \| 2\.50 \| once a tick \| honest work \|$")


if __name__ == "__main__":
    unittest.main()
