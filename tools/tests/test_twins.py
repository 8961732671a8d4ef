"""Clients are shown the same by links and ranges as where their memory is copied: each is a client of two displays at once."""
import pathlib
import shutil
import sys
import unittest

sys.path.insert(0, str(pathlib.Path(__file__).resolve().parent))
from test_display import LAMP, LONG, Displays  # pylint: disable=wrong-import-position
from twins import Twins, moves_of  # pylint: disable=wrong-import-position

PROGRAMS = "weston-simple-shm", "weston-simple-damage", "weston-subsurfaces", "foot"
SIZE = 400, 300


class Same(Displays):
    """What a client shows is compared until there were some pictures of it."""

    def compare(self, *words, size=SIZE, pictures=3):
        """Runs a client until both displays showed so many pictures, which have to be the same."""
        with Twins(size) as both:
            client = both.run(*words)
            client.display.wait_until(lambda: self.is_seen(both, pictures), LONG, f"{words[0]} shows {len(both.seen)} pictures")

    def is_seen(self, both, pictures):
        both.pause(0.1)
        self.assertTrue(both.compare(), f"after {both.compared} comparisons")
        return len(both.seen) >= pictures

    def test_a_lamp_that_blinks(self):
        self.compare(*map(str, LAMP), "--blink", "2,3,40,5", "--noise", "--size", "60x40", size=(64, 48), pictures=10)

    def test_programs(self):
        for name in filter(shutil.which, PROGRAMS):
            with self.subTest(name):
                self.compare(name, pictures=1 if name == "foot" else 5)

    def test_a_press(self):
        """A press is told to both, with the same serial."""
        with Twins((64, 48)) as both:
            client = both.run(*map(str, LAMP))
            client.display.wait_until(lambda: self.is_seen(both, 1), LONG, "it shows nothing")
            both.point("motion 3 4")
            both.point("button 272 1", "button 272 0")
            client.display.wait_until(lambda: self.is_seen(both, 2), LONG, "it isn't pressed")
            self.assertEqual(client.output, "pressed 0x110 at 3, 4\n")

    def test_a_difference_is_seen(self):
        with Twins((64, 48)) as both:
            self.assertTrue(both.compare())
            self.lamp(both.displays[1])
            self.assertFalse(both.compare())

    def test_what_the_pointer_does(self):
        (self.room / "moves").write_text("# a comment\n\nmotion 1500 3 -4\nbutton 2000 272 1\n")
        self.assertEqual(moves_of(self.room / "moves"), [(1.5, "motion 3 -4"), (2.0, "button 272 1")])


if __name__ == "__main__":
    unittest.main()
