"""The tools of wlroots' compositors do what their manuals say, command by command, but for those that are known not to."""
import pathlib
import sys
import unittest

sys.path.insert(0, str(pathlib.Path(__file__).resolve().parent))
from test_display import Displays  # pylint: disable=wrong-import-position
from test_view import lacks  # pylint: disable=wrong-import-position
from tries import ALL  # pylint: disable=wrong-import-position


class Tries(Displays):
    def test_all(self):
        if why := lacks():
            self.skipTest(why)
        for each in (it for it in ALL if not it.lacks()):
            with self.subTest(each.command, says=each.says):
                outcome = each.outcome()
                self.assertEqual(bool(outcome), bool(each.known), outcome or f"it is no longer so that {each.known}")


if __name__ == "__main__":
    unittest.main()
