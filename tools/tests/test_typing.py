"""What a display types, copies and pastes, and the sizes that its windows are asked to have."""
import os
import pathlib
import shutil
import sys
import unittest
import unittest.mock

sys.path.insert(0, str(pathlib.Path(__file__).resolve().parent))
from rig import has_option  # pylint: disable=wrong-import-position
from test_display import DARK, LONG, Displays  # pylint: disable=wrong-import-position
from test_keys import WHY_NOT  # pylint: disable=wrong-import-position
import wlframe  # pylint: disable=wrong-import-position

# Makes that the bridge finds no libxkbcommon, as where it isn't installed.
WITHOUT = 'import ctypes\n_found = ctypes.CDLL\n\ndef _cdll(name, *rest, **named):\n    if name and "xkbcommon" in str(name):\n        raise OSError("no such library")\n    return _found(name, *rest, **named)\n\nctypes.CDLL = _cdll\n'


class Seen(Displays):
    """Tests that need the program's viewer socket."""

    def setUp(self):
        if not has_option("--viewer"):
            self.skipTest("the program has no --viewer")
        super().setUp()


class WithWindow(Seen):
    """Tests with a lamp that tells of keys."""

    def lamp_with_keys(self, **how):
        display = self.display(**how)
        client, window = self.lamp(display, "--keys")
        return display, client, window

    def assert_told(self, client, *lines):
        client.display.wait_until(lambda: len(client.output.splitlines()) >= len(lines), LONG, f"the client was told {client.output!r}")
        self.assertEqual(client.output.splitlines(), list(lines))


@unittest.skipIf(WHY_NOT, WHY_NOT)
class Types(WithWindow):
    def test_text_and_chords(self):
        display, client, _ = self.lamp_with_keys()
        display.type("bA\n")
        display.press("ctrl+a")
        display.press("Tab")
        self.assert_told(client, "key 48 with 0", "key 42 with 0", "key 30 with 1", "key 28 with 0", "key 29 with 0", "key 30 with 4", "key 15 with 0")

    def test_a_key_is_what_changes_are_waited_for_from(self):
        display, _, window = self.lamp_with_keys()
        display.type("a")
        before = display.begun
        window.click(1, 1)
        display.wait_for_change(LONG)
        display.type("a")
        self.assertNotEqual(display.begun, before)

    def test_letters_that_the_layout_lacks(self):
        display, client, _ = self.lamp_with_keys()
        display.type("éяa")
        display.wait_until(lambda: client.output.endswith("key 30 with 0\n"), LONG, "the last key didn't come")
        self.assertEqual(len(client.output.splitlines()), 3)

    def test_the_window_that_was_pressed_last(self):
        display = self.display()
        first, _ = self.lamp(display, "--keys", "--size", "8x8")
        second, _ = self.lamp(display, "--keys", "--title", "Two")
        display.type("a")
        self.assert_told(second, "key 30 with 0")
        first.windows()[0].click(1, 1)
        self.assert_told(first, "pressed 0x110 at 1, 1")
        display.type("b")
        self.assert_told(first, "pressed 0x110 at 1, 1", "key 48 with 0")
        self.assert_told(second, "key 30 with 0")

    def test_no_window(self):
        display = self.display()
        for do in (lambda: display.type("a"), lambda: display.press("a")):
            with self.assertRaisesRegex(wlframe.NoWindow, "^keys need a window, and none is shown yet"):
                do()

    def test_chords_that_are_none(self):
        display, client, _ = self.lamp_with_keys()
        for bad in ("hyper+a", "ctrl+nosuchkey", ""):
            with self.subTest(bad=bad), self.assertRaises(ValueError):
                display.press(bad)
        display.press("a")
        self.assert_told(client, "key 30 with 0")

    @unittest.skipUnless(shutil.which("foot"), "foot isn't installed")
    def test_a_terminal(self):
        display = self.display(size=(400, 200))
        typed = self.room / "typed"
        display.run("foot", "--config=/dev/null", "sh", "-c", f"read -r word; echo \"$word\" > {typed}", env={"LC_ALL": "C.UTF-8", "SHELL": "/bin/sh"})
        display.window(timeout=LONG)
        display.wait_until_idle(0.5, LONG)
        display.type("Grüße, née\n")
        display.wait_until(typed.exists, LONG, "nothing was typed")
        display.wait_until(typed.read_text, LONG, "nothing was typed")
        self.assertEqual(typed.read_text(), "Grüße, née\n")


class NoKeyboard(WithWindow):
    def test_what_to_install(self):
        """Where libxkbcommon isn't there a sentence says which package has it; the clipboard goes on."""
        (self.room / "sitecustomize.py").write_text(WITHOUT)
        with unittest.mock.patch.dict(os.environ, {"PYTHONPATH": str(self.room)}):
            display = self.display()
        self.lamp(display)
        with self.assertRaisesRegex(wlframe.Failure, "^there is no keyboard: .*libxkbcommon0"):
            display.type("a")
        with self.assertRaisesRegex(wlframe.Failure, "^there is no keyboard: .*libxkbcommon0"):
            display.press("a")
        display.clipboard = "copied"
        self.assertEqual(display.clipboard, "copied")


class Copies(Seen):
    def test_from_and_to_the_test(self):
        display = self.display()
        self.assertIsNone(display.clipboard)
        for text in ("née\n", "", "x" * 100_000):
            display.clipboard = text
            self.assertEqual(display.clipboard, text)

    @unittest.skipUnless(shutil.which("wl-copy"), "wl-copy isn't installed")
    def test_from_and_to_a_client(self):
        display = self.display()
        display.clipboard = "by the test"
        pastes = display.run("wl-paste", "--no-newline")
        self.assertEqual(pastes.wait(LONG), 0)
        self.assertEqual(pastes.output, "by the test")
        display.run("wl-copy", "--foreground", "by a client")
        display.wait_until(lambda: display.clipboard == "by a client", LONG, "nothing was copied")

    def test_closed(self):
        display = self.display()
        display.clipboard = "a"
        display.close()
        with self.assertRaisesRegex(wlframe.Failure, "the display is closed"):
            display.clipboard = "b"

    def test_bridge_that_has_gone(self):
        display = self.display()
        display.clipboard = "a"
        display.bridge.send_signal(9)
        with self.assertRaisesRegex(wlframe.ServerEnded, "^the bridge was ended by"):
            while True:
                display.clipboard = "b"


class Sizes(Seen):
    def test_the_client_takes_it(self):
        display = self.display()
        _, window = self.lamp(display)
        window.resize(20, 10)
        display.wait_until(lambda: (window.width, window.height) == (20, 10), LONG, "the window has its old size")
        display.wait_for_change(LONG)
        self.assertEqual(window.picture(), wlframe.Picture(20, 10, bytes(DARK) * 200))
        window.resize(0, 0)
        window.resize(40, 30)
        display.wait_until(lambda: (window.width, window.height) == (40, 30), LONG, "the window has its old size")

    def test_no_size(self):
        display = self.display()
        client, window = self.lamp(display)
        for sides in ((-1, 5), (5, 4097)):
            with self.subTest(sides=sides), self.assertRaisesRegex(ValueError, "give sides up to 4096"):
                window.resize(*sides)
        client.kill()
        display.wait_until(lambda: not window.is_shown, LONG, "it is still shown")
        with self.assertRaises(wlframe.NoWindow):
            window.resize(5, 5)


if __name__ == "__main__":
    unittest.main()
