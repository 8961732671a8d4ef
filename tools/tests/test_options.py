"""Options that the tests of one tool or another have no use for; and that each option and each public name has a test."""
import inspect
import os
import pathlib
import re
import shutil
import signal
import socket
import subprocess
import sys
import tempfile
import unittest
import unittest.mock

HERE = pathlib.Path(__file__).resolve().parent
sys.path[:0] = [str(HERE), str(HERE.parent.parent / "python")]
import wlframe  # pylint: disable=wrong-import-position
from wlframe import pictures  # pylint: disable=wrong-import-position
from wlframe.commands import conformance  # pylint: disable=wrong-import-position
from rig import TOOLS, has_option, program, wait_for  # pylint: disable=wrong-import-position

PATIENCE = 120  # seconds
RED, BLACK = (255, 0, 0), (0, 0, 0)
PAINTER = [sys.executable, HERE / "painter.py"]
WITH_HELP = ("bridge", "clients", "compare", "conformance", "ctl", "display", "run", "view", "words")
# Where a tool is tested, beside the file of its own name and this one.
ALSO = {
    "bridge": ["rig", "test_keys", "test_links", "test_lives", "test_titles", "test_typing", "test_control", "test_view"],
    "ctl": ["test_control"],
    "display": ["test_ctl", "test_view", "test_page"],
    "run": ["test_films", "test_ctl", "test_view", "test_page"],
    "view": ["test_page"],
}


class Options(unittest.TestCase):
    def setUp(self):
        self.room = pathlib.Path(self.enterContext(tempfile.TemporaryDirectory()))
        self.own = self.room / "own"
        self.own.mkdir()
        self.environment = {**os.environ, "WLFRAME": str(program()), "TMPDIR": str(self.own)}
        self.enterContext(unittest.mock.patch.dict(os.environ, self.environment))
        self.enterContext(unittest.mock.patch.object(tempfile, "tempdir", None))
        self.addCleanup(lambda: self.assertEqual(os.listdir(self.own), []))

    def tool(self, name, *words, **more):
        """Runs a tool, and answers its status and what it said."""
        how = {"cwd": self.room, "env": {**self.environment, **more}, "capture_output": True, "text": True, "stdin": subprocess.DEVNULL}
        done = subprocess.run([sys.executable, TOOLS / name, *words], timeout=PATIENCE, check=False, **how)
        return done.returncode, done.stdout, done.stderr


class Runs(Options):
    def test_trace(self):
        status, _, said = self.tool("run", "--size", "64x48", "--trace", "trace", "--", *PAINTER, "ff0000")
        self.assertEqual((status, said), (0, ""))
        self.assertRegex((self.room / "trace").read_text(), r"-> wl_surface#\d+\.commit\(\)")

    def test_record(self):
        """The recording shows the same again without the client, where the program makes one."""
        status, _, said = self.tool("run", "--size", "64x48", "--record", "made.rec", "--png", "shot.png", "--until-idle", "500", "--", *PAINTER, "--then", "wait", "ff0000")
        if not has_option("--record"):
            self.assertEqual(status, 125)
            self.assertIn("is too old to record what is served: it has no --record", said)
            return
        self.assertEqual((status, said), (0, ""))
        with open(self.room / "made.rec", "rb") as recording:
            subprocess.run([program(), "replay", "--size", "64x48", "--ppm", self.room / "again.ppm"], stdin=recording, capture_output=True, check=True)
        with open(self.room / "again.ppm", "rb") as stream:
            self.assertIn(pictures.load(self.room / "shot.png"), list(pictures.read(stream)))


class Displays(Options):
    """tools/display"""

    def test_rate_fullscreen_trace_and_program(self):
        """The program that is named is asked for the rate, and the client for the output's size."""
        stand_in, told = self.room / "stand-in", self.room / "told"
        stand_in.write_text(f'#!/bin/sh\necho "$*" >> words\nexec {program()} "$@"\n')
        stand_in.chmod(0o755)
        words = [sys.executable, TOOLS / "display", "--control", "ctl", "--size", "64x48", "--rate", "30", "--fullscreen", "--trace", "trace", "--program", stand_in]
        with open(told, "w", encoding="utf-8") as out:
            process = subprocess.Popen(words, cwd=self.room, env={**self.environment, "WLFRAME": "/nowhere"}, stdout=out)
        try:
            wait_for(lambda: "unset" in told.read_text() or process.poll() is not None, "it doesn't come up")
            shell = f". ./told; {sys.executable} {HERE / 'painter.py'} ff0000"
            done = subprocess.run(["sh", "-c", shell], cwd=self.room, env=self.environment, capture_output=True, text=True, check=False, timeout=PATIENCE)
            self.assertEqual(done.stdout, "asked for 64x48\n")
        finally:
            process.send_signal(signal.SIGTERM)
            self.assertEqual(process.wait(PATIENCE), 0)
        self.assertRegex((self.room / "words").read_text(), "--size 64x48 --rate 30")
        self.assertIn("xdg_toplevel", (self.room / "trace").read_text())

    def test_record(self):
        if has_option("--record"):
            self.skipTest("Display(record=..) is what it uses, and has a test")
        status, _, said = self.tool("display", "--control", "ctl", "--record", "made.rec")
        self.assertEqual(status, 1)
        self.assertIn("is too old to record what is served: it has no --record", said)

    def test_wrong_words(self):
        for words, status, said in [
            (["--rate", "0"], 1, "display: rate 0: give 1 to 1000 frames a second\n"),
            (["--rate", "x"], 2, "argument --rate: invalid int value: 'x'"),
            (["--size", "0x4"], 2, "argument --size: invalid size value: '0x4'"),
            (["--program", "/nowhere"], 1, "display: /nowhere is no program\n"),
            (["--password", "x"], 2, "--password needs --view"),
        ]:
            found = self.tool("display", "--control", "ctl", *words)
            self.assertEqual(found[0], status, found)
            self.assertIn(said, found[2])
        self.assertIn("the following arguments are required: --control", self.tool("display")[2])


@unittest.skipUnless(shutil.which("wayvnc"), "wayvnc isn't installed (Debian: wayvnc)")
class Views(Options):
    """tools/view"""

    def display(self):
        """The environment by which clients find a display that clients may look at."""
        display = self.enterContext(wlframe.Display(size=(64, 48), share=True))
        return {"XDG_RUNTIME_DIR": str(display.folder), "WAYLAND_DISPLAY": "wayland-0"}

    def free(self):
        """A port that is free, at least now."""
        with socket.create_server(("127.0.0.1", 0)) as it:
            return it.getsockname()[1]

    def test_ports_and_host(self):
        port, page = self.free(), self.free()
        words = [sys.executable, TOOLS / "view", "--host", "127.0.0.2", "--port", str(port), "--page-port", str(page)]
        process = subprocess.Popen(words, env={**self.environment, **self.display()}, stdout=subprocess.PIPE, text=True)
        try:
            self.assertEqual(process.stdout.readline(), f"a VNC viewer finds the display at 127.0.0.2:{port}\n")
            self.assertRegex(process.stdout.readline(), rf"^a browser finds it at http://127.0.0.2:{page}/|^no page for browsers: ")
        finally:
            process.terminate()
            process.communicate()
        self.assertEqual(process.returncode, 0)

    def test_host_that_others_reach(self):
        """It needs a password."""
        status, _, said = self.tool("view", "--host", "0.0.0.0", **self.display())
        self.assertEqual(status, 1)
        self.assertIn("password", said)


class Clients(Options):
    """tools/clients"""

    @unittest.skipUnless(shutil.which("weston-simple-shm"), "weston isn't installed (Debian: weston)")
    def test_page_and_pictures(self):
        status, row, said = self.tool("clients", "--seconds", "2", "--write", "page.md", "--pictures", "shown", "weston-simple-shm")
        self.assertEqual((status, said), (0, "1 of 1 run\n"))
        self.assertRegex(row, r"^\| `weston-simple-shm` \| weston .*\| \d+ \| ran until it was stopped \|$")
        self.assertIn(row, (self.room / "page.md").read_text())
        self.assertEqual(pictures.load(self.room / "shown" / "weston-simple-shm.png").width, 1024)

    def test_names_that_are_unknown(self):
        status, _, said = self.tool("clients", "no-such-client")
        self.assertEqual(status, 2)
        self.assertIn("no-such-client is no client of the list", said)


@unittest.skipUnless(pathlib.Path("/usr/lib/x86_64-linux-gnu/wlcs/wlcs").exists() and shutil.which("gcc"), "wlcs isn't installed (Debian: wlcs, gcc, libwayland-dev)")
class Conformance(Options):
    """tools/conformance"""

    TEST = "BadBufferTest.test_truncated_shm_file"

    def conform(self, *more):
        return self.tool("conformance", "--filter", f"^{re.escape(self.TEST)}$", "--work", "work", *more, WLFRAME="/nowhere")

    def test_one_that_does_not_pass(self):
        """It is run once, kept, and forgotten where that is asked for. The page has the reason."""
        status, counts, said = self.conform("--program", program(), "--write", "page.md", "--jobs", "1")
        self.assertEqual(status, 0, said)
        self.assertIn("1 of 1: ", said)
        self.assertRegex(counts, r"^ +\d [\w ,]+\n")
        self.assertRegex((self.room / "page.md").read_text(), rf"\| [^|]+ \| 1 \| `{self.TEST}` \|\n")
        self.assertNotIn("1 of ", self.conform("--program", program())[2])
        self.assertIn("1 of 1: ", self.conform("--program", program(), "--again")[2])

    def test_no_program(self):
        self.assertEqual(self.conform()[::2], (2, "conformance: /nowhere is no program\n"))


class Page(unittest.TestCase):
    """The page of tools/conformance"""

    def test_classes(self):
        """Those that apply are counted, and those that don't pass have their reasons, each once."""
        rows = [("A.a", "passed", ""), ("B.b/0", "passed, mended", ""), ("C.c/1", "not served", "No <c>."), ("C.c/3", "not served", "No <c>."), ("D.d", "skipped", "xdg>= 1")]
        rows += [("E.e", "open in the text", "It is open."), ("F.f", "skipped", ""), ("G.g", "not explained", "failed: a|b")]
        text = conformance.page(rows, "/somewhere/wlframe")
        for line in [
            "| of wlcs, over `wlframe` | 8 |",
            "| **that apply** | 4 |",
            "| passed | 2, of them 1 with what is done for wlcs |",
            "| open in the text | 1 |",
            "| No &lt;c>. | 2 | `C.c` /1, /3 |",
            "| It is open. | 1 | `E.e` |",
            "| failed: a\\|b | 1 | `G.g` |",
            "| xdg>= 1 | 1 |",
            "| none: wlcs tests itself | 1 |",
        ]:
            self.assertIn(f"\n{line}\n", text)
        self.assertNotIn("## Against the text", text)

    def test_reasons(self):
        """Each class is one that the page has, and each pattern fits no passed test by accident of being empty."""
        for name, pattern, reason in conformance.classes():
            self.assertIn(name, conformance.MEANINGS)
            self.assertFalse(pattern.search(""))
            self.assertTrue(reason.endswith("."), reason)

    def test_judged(self):
        known = conformance.classes()
        failed = {"plain": {"end": "failed", "why": "", "touch": False}, "mended": {"end": "failed", "why": "x", "touch": False}}
        passed = {"plain": {"end": "failed", "why": "", "touch": False}, "mended": {"end": "passed", "why": "", "touch": False}}
        touch = {"plain": {"end": "crashed", "why": "", "touch": True}, "mended": None}
        skipped = {"plain": {"end": "skipped", "why": "Missing extension: wl_shell>= 1", "touch": False}, "mended": None}
        self.assertEqual(conformance.judged("A.truncated_shm_file", failed, known)[0], "open in the text")
        self.assertEqual(conformance.judged("A.a", failed, known), ("not explained", "failed: x"))
        self.assertEqual(conformance.judged("A.a", passed, known), ("passed, mended", ""))
        self.assertEqual(conformance.judged("A.a", touch, known), ("not served", conformance.TOUCH))
        self.assertEqual(conformance.judged("A.a", skipped, known), ("skipped", "wl_shell>= 1"))


class All(unittest.TestCase):
    """Nothing is left without a test."""

    def texts(self, names=None):
        files = [it for place in (HERE, HERE.parent.parent / "python" / "tests") for it in place.glob("*.py")]
        return "\n".join(it.read_text(encoding="utf-8") for it in files if names is None or it.stem in names)

    def test_options(self):
        for name in WITH_HELP:
            told = subprocess.run([sys.executable, TOOLS / name, "--help"], capture_output=True, text=True, check=True).stdout
            tests = self.texts([f"test_{name}", "test_options", *ALSO.get(name, [])])
            options = set(re.findall(r"(?<![\w-])--[a-z][a-z-]*", told)) - {"--help"}
            missing = [it for it in sorted(options) if not re.search(rf"{it}(?![\w-])", tests)]
            self.assertEqual((name, missing), (name, []))

    def test_public_names(self):
        tests = self.texts()
        for name in wlframe.__all__:
            self.assertRegex(tests, rf"\b{name}\b")
            own = vars(getattr(wlframe, name)) if inspect.isclass(getattr(wlframe, name)) else {}
            told = self.documented()
            missing = [it for it in own if it in told and not re.search(rf"\.{it}\b", tests)]
            self.assertEqual((name, missing), (name, []))

    def documented(self):
        """The names in the code of docs/TESTING.md."""
        text = (TOOLS.parent / "docs" / "TESTING.md").read_text(encoding="utf-8")
        return set(re.findall(r"\w+", " ".join(re.findall(r"`[^`]+`|^ {4}.*$", text, re.MULTILINE))))


if __name__ == "__main__":
    unittest.main()
