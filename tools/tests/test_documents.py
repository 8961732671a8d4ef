"""What scripts make of pages: the crates in docs/ARCHITECTURE.md by docs/levels, and docs/DEFINITIONS.md by docs/definitions."""
import pathlib
import sys
import unittest

sys.path.insert(0, str(pathlib.Path(__file__).resolve().parent))
from rig import TOOLS, loaded  # pylint: disable=wrong-import-position

LEVELS = loaded(TOOLS.parent / "docs" / "levels")
DEFINITIONS = loaded(TOOLS.parent / "docs" / "definitions")


class Levels(unittest.TestCase):
    def test_the_page_is_what_is_made(self):
        text = LEVELS.PAGE.read_text(encoding="utf-8")
        self.assertEqual(text, LEVELS.page_with(text, LEVELS.table()), "docs/levels --write makes the crates anew")

    def test_the_page_names_what_is_there(self):
        self.assertEqual(LEVELS.unknown(LEVELS.PAGE.read_text(encoding="utf-8")), [])

    def test_what_is_not_there_is_noticed(self):
        text = "`Desk::serve`, `Desk::serve_all_at_once` and `no_such_function`\n```mermaid\nDesk::press, Clients::no_call\n```\n"
        self.assertEqual(LEVELS.unknown(text), ["Desk::serve_all_at_once", "no_such_function", "Clients::no_call"])

    def test_each_crate_stands_on_lower_ones(self):
        uses = LEVELS.read_uses()
        levels = LEVELS.levels_of(uses)
        for crate, level in levels.items():
            for it in uses[crate]:
                self.assertLess(levels[it], level, f"{crate} uses {it}")

    def test_another_table_is_noticed(self):
        text = LEVELS.PAGE.read_text(encoding="utf-8")
        stale = text.replace("| 1 | wl_wire |", "| 2 | wl_wire |")
        self.assertNotEqual(stale, text)
        self.assertEqual(LEVELS.page_with(stale, LEVELS.table()), text)


class Definitions(unittest.TestCase):
    def test_the_page_is_what_is_made(self):
        text = DEFINITIONS.PAGE.read_text(encoding="utf-8")
        self.assertEqual(text, DEFINITIONS.page_with(text, DEFINITIONS.index()), "docs/definitions --write makes the index anew")

    def test_what_is_said_of_a_definition(self):
        text = "-- ---- points\n\n-- The points of a list; each once.\n-- More.\nabbrev pub points : A\n\nunfoldable pub bare : A\n-- within\nabbrev inner : A\n"
        found = [(name, DEFINITIONS.gist(comment)) for name, comment in DEFINITIONS.definitions(text)]
        self.assertEqual(found, [("points", "the points of a list"), ("bare", "")])
        for comment, gist in (
            ("wl_surface.destroy: its xdg_surface must be gone", "wl_surface.destroy: its xdg_surface must be gone"),
            ("one that is set (a. b; c: d) again: more", "one that is set (a. b; c: d) again"),
            (f"One of these four, {'and so on ' * 9}", "One of these four"),
        ):
            with self.subTest(comment):
                self.assertEqual(DEFINITIONS.gist(comment).removesuffix(" ..").lower(), gist.lower())


if __name__ == "__main__":
    unittest.main()
