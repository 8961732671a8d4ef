"""The page of a view in a browser: a Chromium without a screen opens it, clicks and types there, and sees what the display shows.

    python3 tools/tests/test_page.py --picture docs/view.png         keeps what it sees of a demo
"""
import argparse
import pathlib
import shutil
import sys
import unittest
import unittest.mock

sys.path.insert(0, str(pathlib.Path(__file__).resolve().parent))
from test_display import LONG, WHITE, Displays  # pylint: disable=wrong-import-position
from test_view import lacks  # pylint: disable=wrong-import-position
from browser import WHY_NOT, Browser, Failed, read_png  # pylint: disable=wrong-import-position
import wlframe  # pylint: disable=wrong-import-position
from wlframe import view  # pylint: disable=wrong-import-position

BAR = 25  # pixels of the page above the display
CONNECTED = "document.getElementById('status')?.textContent.startsWith('Connected')"
SIZE = 668, 468  # of the display with the demo
WIDE, HIGH = 640, 440  # of its window
SEARCH, MENU, ENTRY = (92, 24), (570, 24), (150, 70)  # where buttons are in the window, and the search entry
kept: list[str] = []  # where the picture of the demo is kept


class Page(Displays):
    """A display, and a browser that looks at it, whose page has as many pixels as the display and a bar above."""

    def setUp(self):
        if why := WHY_NOT or lacks() or view.why_no_page():
            self.skipTest(why)
        super().setUp()
        self.enterContext(unittest.mock.patch.object(wlframe.Display, "tell"))

    def opened(self, how=True, who="", **more):
        """A display and a browser with its page."""
        display = self.display(view=how, **more)
        browser = Browser(display.size[0], display.size[1] + BAR)
        self.addCleanup(browser.close)
        browser.open(display.viewed.page.replace("//", f"//{who}", 1))
        return display, browser

    def act(self, display, do):
        """Does something in the browser, and waits until the display has shown it."""
        display.begin_input()
        do()
        display.wait_for_change(LONG)
        display.wait_until_idle(1.0, LONG)

    def seen(self, display, browser):
        """Waits until the browser shows what the display does, pixel by pixel, and answers its picture."""
        found = []

        def is_equal():
            found[:] = [read_png(browser.picture())]
            return found[0].crop((0, BAR, *display.size)) == display.picture()

        display.wait_until(is_equal, LONG, "the browser doesn't show what the display does")
        return found[0]

    @unittest.skipUnless(shutil.which("gtk4-demo"), "gtk4-demo isn't installed")
    def test_demo(self):
        """The demo's search entry is opened and typed into, and its menu opened; both are seen."""
        display, browser = self.opened(size=SIZE)
        display.run("gtk4-demo")
        window = display.window(title="GTK Demo", timeout=LONG)
        window.resize(WIDE, HIGH)
        display.wait_until_idle(0.5, LONG)
        left, top = window.x, window.y + BAR
        browser.wait(CONNECTED)
        browser.click(left + SEARCH[0], top + SEARCH[1])
        display.wait_for(lambda picture: picture.pixel(window.x + ENTRY[0], window.y + ENTRY[1]) == WHITE, LONG)
        self.act(display, lambda: browser.type("menu"))
        display.press("ctrl+a")
        display.press("ctrl+c")
        display.wait_until(lambda: display.clipboard == "menu", LONG, "the search entry has no such text")
        self.act(display, lambda: display.press("End"))
        browser.click(left + MENU[0], top + MENU[1])
        display.window(kind="popup", timeout=LONG)
        display.wait_until_idle(0.5, LONG)
        picture = self.seen(display, browser)
        for path in kept:
            picture.save(path)

    @unittest.skipUnless(shutil.which("openssl"), "openssl isn't installed")
    def test_password(self):
        """A browser that knows the password sees the display and clicks, and one that doesn't sees nothing."""
        (self.room / "password").write_text("secret\n")
        display, browser = self.opened(view.View(password=self.room / "password"), "wlframe:secret@", size=(300, 200))
        client, window = self.lamp(display, "--keys")
        browser.wait(CONNECTED)
        self.seen(display, browser)
        browser.click(window.x + 3, window.y + 4 + BAR)
        display.wait_until(lambda: "pressed 0x110 at 3, 4" in client.output, LONG, "no press came")
        browser.type("a")
        display.wait_until(lambda: "key 30 with 0" in client.output, LONG, "no key came")
        with Browser(300, 200) as other, self.assertRaisesRegex(Failed, "ERR_INVALID_AUTH_CREDENTIALS"):
            other.open(display.viewed.page)


if __name__ == "__main__":
    parser = argparse.ArgumentParser()
    parser.add_argument("--picture", metavar="FILE", help="where what is seen of the demo is kept")
    asked, words = parser.parse_known_args()
    kept += [asked.picture] if asked.picture else []
    unittest.main(argv=[sys.argv[0], *words])
