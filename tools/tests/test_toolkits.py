"""Six toolkits take text with letters that the layout lacks, and what is copied in one is pasted in the next."""
import pathlib
import sys
import unittest
import unittest.mock

sys.path.insert(0, str(pathlib.Path(__file__).resolve().parent))
from test_display import Displays  # pylint: disable=wrong-import-position
from test_keys import WHY_NOT  # pylint: disable=wrong-import-position
from toolkits import ALL, OTHER, SIZE, Entry  # pylint: disable=wrong-import-position


class Toolkits(Displays):
    @unittest.skipIf(WHY_NOT, WHY_NOT)
    def test_round(self):
        """Each is typed into, and pastes what the one before copied; the first what the last did."""
        lacks = {it.name: it.lacks() for it in ALL}
        there = [it for it in ALL if not lacks[it.name]]
        if len(there) < 2:
            self.skipTest("; ".join(filter(None, lacks.values())))
        display, before = self.display(size=SIZE), None
        display.is_strict = False
        for each in [*there, there[0]]:
            with self.subTest(each.name, before=before and before.toolkit.name):
                entry = Entry(each, display, self.room / str(before and before.toolkit.name))
                if before is not None:
                    self.assertTrue(entry.pastes(OTHER), entry.faults)
                    before.end()
                display.press("ctrl+a")
                self.assertTrue(entry.type(), entry.faults)
                self.assertTrue(entry.copy(), entry.faults)
                before = entry


if __name__ == "__main__":
    unittest.main()
