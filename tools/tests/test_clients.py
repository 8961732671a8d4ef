"""tools/clients: what it says of a client that runs, of one that is refused something, and of one that shows nothing."""
import importlib.machinery
import importlib.util
import os
import pathlib
import sys
import unittest

HERE = pathlib.Path(__file__).resolve().parent
sys.path.insert(0, str(HERE))
from rig import TOOLS, program  # pylint: disable=wrong-import-position


def load():
    """The command as a module."""
    loader = importlib.machinery.SourceFileLoader("clients", str(TOOLS.parent / "python" / "wlframe" / "commands" / "clients.py"))
    made = importlib.util.module_from_spec(importlib.util.spec_from_loader("clients", loader))
    loader.exec_module(made)
    return made


class Clients(unittest.TestCase):
    def setUp(self):
        self.clients = load()
        before = os.environ.get("WLFRAME")
        os.environ["WLFRAME"] = str(program())
        self.addCleanup(lambda: os.environ.update(WLFRAME=before) if before else os.environ.pop("WLFRAME"))

    def outcome(self, words):
        """What comes of a client that runs for twelve seconds at most."""
        return self.clients.run(self.clients.Client(words, "a-package", 6), 2.0, None)

    def paint(self, words):
        return self.outcome(f"{sys.executable} {HERE / 'painter.py'} {words}")

    def test_one_that_runs(self):
        found = self.paint("ff0000 00ff00")
        self.assertEqual((found.binds, found.ended, found.runs), (["wl_compositor 4", "wl_shm 1", "xdg_wm_base 1"], "left by itself", True))
        self.assertGreaterEqual(found.frames, 2)

    def test_one_that_goes_on(self):
        found = self.paint("--then wait ff0000")
        self.assertEqual((found.frames, found.ended, found.runs), (1, "ran until it was stopped", True))

    def test_one_that_is_refused(self):
        found = self.paint("--then offend ff0000")
        self.assertRegex(found.ended, r"^was refused xdg_wm_base#\d+\.get_xdg_surface\(.*\).*: xdg_wm_base#\d+ error 0, role$")
        self.assertFalse(found.runs)

    def test_one_that_shows_nothing(self):
        found = self.outcome("sh -c 'echo no display >&2; exit 3'")
        self.assertEqual((found.binds, found.frames, found.ended, found.runs), ([], 0, "left by itself with status 3: no display", False))
        self.assertEqual(found.row(), "| `sh -c 'echo no display >&2; exit 3'` | a-package | nothing | 0 | left by itself with status 3: no display |")

    def test_one_that_is_pointed_at(self):
        """It has to be entered and pressed, and to open a popup."""
        client = self.clients.Client("--pointer={top}/a.pointer a-client", "a-package", 5)
        self.assertEqual((client.is_pointed_at, client.words, client.shown), (True, ["a-client"], "--pointer=a.pointer a-client"))
        told = ["<- wl_pointer#3.enter(1, wl_surface#4, 5, 6)", "<- wl_pointer#3.button(2, 7, 272, pressed)", "<- wl_pointer#3.button(3, 8, 272, released)"]
        opened = ["-> xdg_popup#9.grab(wl_seat#2, 2)", "<- xdg_popup#9.configure(0, 0, 5, 5)"]
        counts = "ran until it was stopped; entered: 1, pressed: 1, popups placed: {0}, grabs asked for: {0}"
        for lines, opens in ((told, 0), (told + opened, 1)):
            trace = "".join(f"client 2 {line}\n" for line in lines)
            found = self.clients.outcome_of(client, self.clients.TIME_OVER, "frame 1 1\n", trace, "")
            self.assertEqual((found.ended, found.runs), (counts.format(opens), bool(opens)))

    def test_one_that_scales_and_places_anew(self):
        client = self.clients.Client("a-client", "a-package", 5)
        scales = [f"-> wl_surface#4.set_buffer_scale({scale})" for scale in (1, 2, 11)]
        placed = ["-> xdg_popup#9.reposition(xdg_positioner#8, 1)", "<- xdg_popup#9.repositioned(1)"]
        for lines, done in ((scales[:1], ""), (scales, "; buffer scales above 1: 2"), (scales[1:] + placed, "; buffer scales above 1: 2, popups placed anew: 1")):
            trace = "".join(f"client 2 {line}\n" for line in lines)
            self.assertEqual(self.clients.outcome_of(client, 0, "frame 1 1\n", trace, "").ended, "left by itself" + done)

    def test_page(self):
        """Those that run stand before those that don't, and those that aren't installed behind."""
        client = self.clients.Client("a-client", "a-package", 5)
        runs = self.clients.Outcome(client, ["wl_shm 1"], 7, "left by itself", True)
        fails = self.clients.Outcome(client, [], 0, "was refused", False)
        lines = self.clients.page([fails, runs], [self.clients.Client("b-client", "b-package", 5)]).splitlines()
        order = [
            self.clients.program_in_words(),
            "1 of 2 run.",
            "## Those that run",
            "| `a-client` | a-package | wl_shm 1 | 7 | left by itself |",
            "## Those that don't",
            "| `a-client` | a-package | nothing | 0 | was refused |",
            "Not tried, since they weren't installed: `b-client`.",
        ]
        self.assertEqual([it for it in lines if it in order], order)

    def test_program_of_the_page(self):
        """The page tells whether the program is the one that is proved."""
        self.clients.BUILT = program()
        self.assertIn("proves and builds.", self.clients.program_in_words())
        self.clients.BUILT = pathlib.Path("/nowhere")
        self.assertIn("another program", self.clients.program_in_words())

    def test_rows(self):
        """Each row of the list can be read, and what it names of this repository is there."""
        for client in self.clients.read_clients():
            self.assertTrue(client.words and client.package and client.seconds > 0)
            for word in [*client.words, *(it.partition("=")[2] for it in client.split()[1])]:
                if word.startswith("{top}"):
                    self.assertTrue(pathlib.Path(word.format(top=TOOLS.parent, folder="")).exists(), word)


if __name__ == "__main__":
    unittest.main()
