"""Views of a display: wayvnc and noVNC's page beside it, where they are installed, and what is said where they aren't."""
import os
import pathlib
import re
import shutil
import signal
import socket
import subprocess
import sys
import unittest
import unittest.mock

sys.path.insert(0, str(pathlib.Path(__file__).resolve().parent))
from rfb import Line, Refused, Viewer, Web  # pylint: disable=wrong-import-position
from rig import TOOLS, has_option, wait_for  # pylint: disable=wrong-import-position
from test_display import DARK, LONG, Displays  # pylint: disable=wrong-import-position
from test_keys import WHY_NOT  # pylint: disable=wrong-import-position
import wlframe  # pylint: disable=wrong-import-position
from wlframe import view  # pylint: disable=wrong-import-position

HOST = "127.0.0.1"
UP, DOWN = 8, 16  # the buttons of RFB that a wheel presses


def lacks():
    """Why there can't be a view, or nothing."""
    return WHY_NOT or ("" if shutil.which("wayvnc") else "wayvnc isn't installed") or ("" if has_option("--viewer") else "the program has no --viewer")


class Settings(unittest.TestCase):
    """What is asked of a view."""

    def test_own_addresses(self):
        for host, is_own in (("127.0.0.1", True), ("127.1.2.3", True), ("::1", True), ("localhost", True), ("0.0.0.0", False), ("192.168.1.2", False), ("host", False)):
            with self.subTest(host=host):
                self.assertEqual(view.is_own(host), is_own)

    def test_passwords(self):
        with self.assertRaisesRegex(wlframe.Failure, "other machines can reach 0.0.0.0"):
            view.View(host="0.0.0.0").read_password()
        with self.assertRaisesRegex(wlframe.Failure, "/nowhere/password: the password can't be read: No such file"):
            view.View(password="/nowhere/password").read_password()
        self.assertIsNone(view.View().read_password())

    def test_free_port(self):
        with socket.create_server((HOST, 0)) as taken:
            port = taken.getsockname()[1]
            if port < 65000:
                self.assertGreater(view.free_port(HOST, None, port), port)
            self.assertEqual(view.free_port(HOST, port, 1), port)

    def test_what_is_not_installed(self):
        with unittest.mock.patch.object(shutil, "which", return_value=None), unittest.mock.patch.object(view, "NOVNC", pathlib.Path("/nowhere")):
            with self.assertRaisesRegex(wlframe.Failure, "^wayvnc isn't installed: Debian has it in the package wayvnc$"):
                view.need("wayvnc")
            self.assertEqual(view.why_no_page(), "no page for browsers: Debian has what it needs in the packages websockify and novnc")


class Views(Displays):
    """Tests with a display that is viewed."""

    def setUp(self):
        if why := lacks():
            self.skipTest(why)
        super().setUp()
        self.tells = self.enterContext(unittest.mock.patch.object(wlframe.Display, "tell"))

    def viewed(self, **how):
        """A display with a lamp and a view."""
        display = self.display(view=view.View(**how))
        client, window = self.lamp(display, "--keys")
        return display, client, window

    def viewer(self, line, *who):
        made = Viewer(line, *who)
        self.addCleanup(made.close)
        return made

    def port(self, place):
        return int(place.removeprefix("http://").partition("/")[0].rpartition(":")[2])

    def looks_points_and_types(self, display, client, window, viewer):
        """A viewer sees the picture, clicks, turns the wheel and types."""
        display.wait_until_idle(0.2, LONG)
        self.assertEqual((viewer.width, viewer.height), display.size)
        self.assertEqual(viewer.picture(), display.picture().pixels)
        x, y = window.box[:2]
        for buttons in (0, 1, 0):
            viewer.point(x + 3, y + 4, buttons)
        display.wait_until(lambda: "pressed 0x110 at 3, 4" in client.output, LONG, "no press came")
        for buttons in (DOWN, 0, UP, 0):
            viewer.point(x + 5, y + 6, buttons)
        display.wait_until(lambda: re.search("axis 0 by [1-9].* at 5, 6\naxis 0 by -[1-9].* at 5, 6\n", client.output), LONG, "no wheel came")
        for is_down in (1, 0):
            viewer.key(ord("a"), is_down)
        display.wait_until(lambda: "key 30 with 0" in client.output, LONG, "no key came")


class Vnc(Views):
    def test_without_password(self):
        display, client, window = self.viewed()
        self.looks_points_and_types(display, client, window, self.viewer(Line(HOST, self.port(display.viewed.address))))

    @unittest.skipUnless(shutil.which("openssl"), "openssl isn't installed")
    def test_password(self):
        (self.room / "password").write_text("secret\n")
        display, client, window = self.viewed(password=self.room / "password")
        port = self.port(display.viewed.address)
        with self.assertRaises(Refused):
            Viewer(Line(HOST, port), "wlframe", "other")
        self.looks_points_and_types(display, client, window, self.viewer(Line(HOST, port), "wlframe", "secret"))

    def test_layout(self):
        """Letters of the layout of who looks are typed, as by `--layout de`."""
        display, client, _ = self.viewed(layout="de")
        viewer = self.viewer(Line(HOST, self.port(display.viewed.address)))
        display.wait_until_idle(0.2, LONG)
        for is_down in (1, 0):
            viewer.key(ord("ü"), is_down)
        display.wait_until(lambda: "key 26 with 0" in client.output, LONG, "no key came")

    def test_port_that_somebody_else_takes(self):
        """It was free as it was looked for, and isn't as wayvnc comes: the next is tried. One that was asked for has to be it."""
        with socket.create_server((HOST, 0)) as other:
            taken, found = other.getsockname()[1], view.free_port
            late = [taken]
            with unittest.mock.patch.object(view, "free_port", side_effect=lambda *asked: late.pop() if late else found(*asked)):
                display, client, window = self.viewed()
            port = self.port(display.viewed.address)
            self.assertNotEqual(port, taken)
            self.looks_points_and_types(display, client, window, self.viewer(Line(HOST, port)))
            with self.assertRaisesRegex(wlframe.Failure, "^wayvnc ended with status 1: "):
                self.viewed(port=taken)

    def test_two_views(self):
        one, two = self.display(view=True), self.display(view=True)
        self.assertNotEqual(one.viewed.address, two.viewed.address)

    def test_view_that_ends(self):
        """The display goes on, and tells."""
        display, _, window = self.viewed()
        display.viewed.processes[0].send_signal(signal.SIGKILL)
        display.wait_until(lambda: display.viewed is None, LONG, "it isn't seen")
        self.assertEqual(self.tells.call_args.args[0], "there is no view any more: wayvnc was ended by SIGKILL: it said nothing")
        window.click(1, 1)
        display.wait_for_change(LONG)


class Page(Views):
    def setUp(self):
        if why := view.why_no_page():
            self.skipTest(why)
        super().setUp()

    def test_without_password(self):
        display, client, window = self.viewed()
        port = self.port(display.viewed.page)
        with self.assertRaisesRegex(Refused, "403"):  # the page of another site
            Web(HOST, port, "http://example.org")
        self.looks_points_and_types(display, client, window, self.viewer(Web(HOST, port, f"http://{HOST}:{port}")))

    @unittest.skipUnless(shutil.which("openssl"), "openssl isn't installed")
    def test_password(self):
        (self.room / "password").write_text("secret\n")
        display, client, window = self.viewed(password=self.room / "password")
        port = self.port(display.viewed.page)
        own = f"http://{HOST}:{port}"
        for origin, who, status in ((own, None, "401"), (own, "wlframe:other", "401"), ("http://example.org", "wlframe:secret", "403")):
            with self.subTest(origin=origin, who=who), self.assertRaisesRegex(Refused, status):
                Web(HOST, port, origin, who)
        self.looks_points_and_types(display, client, window, self.viewer(Web(HOST, port, own, "wlframe:secret")))


class Started(Displays):
    """Tests of commands."""

    def setUp(self):
        if why := lacks():
            self.skipTest(why)
        super().setUp()

    def start(self, name, *words, environment=None, **how):
        words = [sys.executable, TOOLS / name, *words]
        process = subprocess.Popen(words, env={**os.environ, **(environment or {})}, text=True, **how)  # pylint: disable=consider-using-with
        self.addCleanup(self.end, process)
        return process

    def end(self, process):
        process.terminate()
        process.communicate()


class Commands(Started):
    def test_view_beside_a_display(self):
        told = self.room / "env"
        with open(told, "w", encoding="utf-8") as env:
            display = self.start("display", "--size", "64x48", "--control", self.room / "control", stdout=env)
        wait_for(lambda: "unset" in told.read_text(), "it doesn't tell")
        lines = [it.removeprefix("export ") for it in told.read_text().splitlines() if it.startswith("export ")]
        found = dict(it.split("=", 1) for it in lines)
        shown = self.start("view", environment=found, stdout=subprocess.PIPE)
        sentence = shown.stdout.readline()
        self.assertRegex(sentence, "^a VNC viewer finds the display at 127.0.0.1:[0-9]+\n$")
        viewer = Viewer(Line(HOST, int(sentence.rpartition(":")[2])))
        self.addCleanup(viewer.close)
        self.assertEqual((viewer.width, viewer.height), (64, 48))
        shown.terminate()
        self.assertEqual(shown.wait(LONG), 0)
        again = self.start("view", environment=found, stdout=subprocess.PIPE, stderr=subprocess.PIPE)
        again.stdout.readline()
        display.terminate()
        self.assertEqual(display.wait(LONG), 0)
        self.assertEqual(again.wait(LONG), 1)
        self.assertIn("view: wayvnc ", again.stderr.read())

    def test_which_display(self):
        shown = self.start("view", environment={"WAYLAND_DISPLAY": ""}, stderr=subprocess.PIPE)
        self.assertEqual((shown.wait(LONG), shown.stderr.read()), (1, "view: which display? Set WAYLAND_DISPLAY to it, as tools/display prints\n"))

    def test_display_that_shares_nothing(self):
        display = self.display()
        shown = self.start("view", environment={"XDG_RUNTIME_DIR": str(display.folder), "WAYLAND_DISPLAY": "wayland-0"}, stderr=subprocess.PIPE)
        self.assertEqual(shown.wait(LONG), 1)
        self.assertIn("view: wayvnc ended with status 1: ", shown.stderr.read())

    def test_run(self):
        script = f"{sys.executable} {pathlib.Path(__file__).with_name('lamp.py')} --keys"
        process = self.start("run", "--size", "64x48", "--view", "--", "sh", "-c", f"exec {script}", stdout=subprocess.PIPE, stderr=subprocess.PIPE)
        sentence = process.stderr.readline()
        self.assertRegex(sentence, "^run: a VNC viewer finds the display at 127.0.0.1:[0-9]+\n$")
        viewer = Viewer(Line(HOST, int(sentence.rpartition(":")[2])))
        self.addCleanup(viewer.close)
        wait_for(lambda: any(viewer.picture()), "the lamp isn't shown")
        for buttons in (0, 4, 0):  # the right one ends it
            viewer.point(3, 4, buttons)
        self.assertEqual(process.wait(LONG), 7)

    def test_password_without_view(self):
        done = subprocess.run([sys.executable, TOOLS / "run", "--password", "x", "--", "true"], capture_output=True, text=True, check=False)
        self.assertEqual((done.returncode, done.stderr), (125, "run: --password needs --view; --help tells more\n"))


class Examples(Started):
    """The views of examples/."""

    def begin(self, name, *words):
        """Starts an example, and answers it and the port of its view."""
        process = subprocess.Popen([TOOLS.parent / "examples" / name, *words], stdout=subprocess.PIPE, stderr=subprocess.PIPE, text=True)  # pylint: disable=consider-using-with
        self.addCleanup(self.end, process)
        sentence = process.stderr.readline()
        self.assertRegex(sentence, "^run: a VNC viewer finds the display at 127.0.0.1:[0-9]+")
        return process, int(re.search(r"127\.0\.0\.1:(\d+)", sentence)[1])

    def test_kiosk(self):
        """The program fills the output, and is started again as it ends."""
        process, port = self.begin("kiosk", "sh", "-c", f"echo begins; exec {sys.executable} {pathlib.Path(__file__).with_name('lamp.py')}")
        viewer = Viewer(Line(HOST, port))
        self.addCleanup(viewer.close)
        for _ in range(2):
            self.assertEqual(process.stdout.readline(), "begins\n")
            wait_for(lambda: viewer.picture() == bytes(DARK) * (1280 * 800), "the program doesn't fill the output")
            for buttons in (0, 4, 0):  # the right one ends it
                viewer.point(1270, 790, buttons)
            self.assertEqual(process.stdout.readline(), "pressed 0x111 at 1270, 790\n")

    @unittest.skipUnless(all(map(shutil.which, ("foot", "gtk4-demo", "weston-clickdot", "openssl"))), "foot, gtk4-demo, weston-clickdot or openssl isn't installed")
    def test_desktop(self):
        """It is there, for who knows the password, until it is ended."""
        (self.room / "password").write_text("secret\n")
        process, port = self.begin("desktop", self.room / "password")
        viewer = Viewer(Line(HOST, port), "wlframe", "secret")
        self.addCleanup(viewer.close)
        self.assertEqual((viewer.width, viewer.height), (1280, 800))
        wait_for(lambda: any(viewer.picture()), "nothing is shown")
        self.assertIsNone(process.poll())
        process.terminate()
        process.communicate()
        self.assertEqual(process.returncode, 128 + signal.SIGTERM)


class Shares(Displays):
    @unittest.skipUnless(shutil.which("grim"), "grim isn't installed")
    def test_grim(self):
        display = self.display(share=True)
        _, window = self.lamp(display)
        window.click(1, 1)
        display.wait_for_change(LONG)
        self.assertEqual(display.run("grim", "-t", "ppm", self.room / "shot.ppm").wait(LONG), 0)
        self.assertEqual(wlframe.load(self.room / "shot.ppm"), display.picture())


if __name__ == "__main__":
    unittest.main()
