"""What a buffer's reader has to read: rows by damage, and the lines that tell a server of them."""
import pathlib
import random
import sys
import tempfile
import types
import unittest

sys.path.insert(0, str(pathlib.Path(__file__).resolve().parent))
import rig  # pylint: disable=unused-import,wrong-import-position
from wlframe.bridge import links, ranges  # pylint: disable=wrong-import-position


def buffer(width=20, height=100):
    return types.SimpleNamespace(width=width, height=height, resized=0, seen=None)


def point_of(transform, width, height, x, y):
    """The point of a buffer that a point of a surface of these sides shows (wl_output.transform)."""
    points = [(x, y), (y, width - 1 - x), (width - 1 - x, height - 1 - y), (height - 1 - y, x)]
    return [*points, (width - 1 - x, y), (y, x), (x, height - 1 - y), (height - 1 - y, width - 1 - x)][transform]


class Rows(unittest.TestCase):
    """Rows of a buffer of 20 by 100 by what is told of a surface."""

    def setUp(self):
        self.told, self.first, self.second = ranges.Damage(), buffer(), buffer()

    def shown(self):
        """Both buffers were shown."""
        self.told.commit(self.first)
        self.told.commit(self.second)

    def test_new_buffer_is_read_whole(self):
        self.assertEqual(self.told.commit(self.first), [(0, 100)])
        self.told.of_surface.add(0, 3, 1, 1)
        self.assertEqual(self.told.commit(self.second), [(0, 100)])

    def test_buffers_in_turns(self):
        self.shown()
        self.told.of_surface.add(0, 10, 5, 2)
        self.assertEqual(self.told.commit(self.first), [(10, 12)])
        self.told.of_surface.add(0, 20, 5, 2)
        self.assertEqual(self.told.commit(self.second), [(10, 12), (20, 22)])
        self.told.of_buffer.add(0, 12, 5, 9)
        self.assertEqual(self.told.commit(self.first), [(12, 22)])
        self.assertEqual(self.told.commit(self.first), [])

    def test_attach_without_damage(self):
        self.shown()
        self.told.of_surface.add(0, 10, 5, 2)
        self.told.commit(self.first)
        self.assertEqual(self.told.commit(self.second), [(10, 12)])

    def test_what_lies_outside(self):
        self.shown()
        for x, y, width, height in ((-9, 0, 9, 9), (20, 0, 9, 9), (0, -9, 9, 9), (0, 100, 9, 9), (0, 0, 0, 9), (0, 0, 9, -1)):
            self.told.of_surface.add(x, y, width, height)
            self.told.of_buffer.add(x, y, width, height)
        self.assertEqual(self.told.commit(self.first), [])
        self.told.of_surface.add(-5, -5, 2**31 - 1, 2**31 - 1)
        self.assertEqual(self.told.commit(self.second), [(0, 100)])

    def test_scale_and_turns(self):
        # a surface of 10 by 50 points; turned by a quarter it has 50 by 10
        expected = {0: (14, 20), 1: (80, 90), 2: (80, 86), 3: (10, 20), 4: (14, 20), 5: (10, 20), 6: (80, 86), 7: (80, 90)}
        for transform, rows in expected.items():
            told, shown = ranges.Damage(), buffer()
            told.scale_by(2)
            told.transform = transform
            told.commit(shown)
            told.of_surface.add(5, 7, 5, 3)
            self.assertEqual(told.commit(shown), [rows], transform)

    def test_other_ways_to_show_it_and_other_sides(self):
        self.shown()
        self.told.scale_by(2)
        self.assertEqual(self.told.commit(self.first), [(0, 100)])
        self.told.transform = 1
        self.assertEqual(self.told.commit(self.first), [(0, 100)])
        self.assertEqual(self.told.commit(buffer(10, 50)), [(0, 50)])
        self.assertEqual(self.told.commit(self.first), [(0, 100)])

    def test_offset_null_and_resize(self):
        self.shown()
        self.told.move(0, 0)
        self.assertEqual(self.told.commit(self.first), [])
        self.told.move(1, 0)
        self.assertEqual(self.told.commit(self.first), [(0, 100)])
        self.told.commit(None)
        self.assertEqual(self.told.commit(self.first), [(0, 100)])
        self.first.resized += 1
        self.assertEqual(self.told.commit(self.first), [(0, 100)])
        self.assertEqual(self.told.commit(self.first), [])

    def test_buffer_that_another_surface_shows(self):
        other = ranges.Damage()
        self.shown()
        self.assertEqual(other.commit(self.first), [(0, 100)])
        self.assertEqual(self.told.commit(self.first), [(0, 100)])

    def test_old_buffer_and_many_rectangles(self):
        self.shown()
        for at in range(ranges.AGES):
            self.told.of_surface.add(0, 2 * at, 1, 1)
            self.told.commit(self.first)
        self.assertEqual(len(self.told.commit(self.second)), ranges.AGES)
        for _ in range(ranges.AGES + 1):
            self.told.of_surface.add(0, 0, 1, 1)
            self.told.commit(self.first)
        self.assertEqual(self.told.commit(self.second), [(0, 100)])
        for at in range(ranges.RECTANGLES + 1):
            self.told.of_buffer.add(at % 20, 10 + 2 * (at % 10), 1, 1)
        self.assertEqual(self.told.commit(self.first), [(10, 29)])

    def test_random_client(self):
        """A reader that reads those rows alone has what the client drew, whatever it drew into buffers before it got them back."""
        for seed in range(30):
            Model(random.Random(seed)).play(self, 60)


class Model:
    """A client with two surfaces and some buffers, and a reader that keeps what it read of each."""

    def __init__(self, chance):
        self.chance = chance
        self.screens = [ranges.Damage(), ranges.Damage()]
        self.content = [None, None]  # what each shows, as rows
        self.buffers = [buffer(width, height) for width, height in ((4, 6), (4, 6), (4, 6), (6, 4), (4, 6), (6, 4))]
        for it in self.buffers:
            it.rows = it.read = [[0] * it.width for _ in range(it.height)]
            it.read = [list(row) for row in it.rows]

    def play(self, test, commits):
        for _ in range(commits):
            self.commit(test)

    def commit(self, test):
        chance, number = self.chance, self.chance.randrange(2)
        screen, shown = self.screens[number], chance.choice(self.buffers)
        if chance.random() < 0.1:
            screen.commit(None)
            self.content[number] = None
        if chance.random() < 0.1:
            screen.scale_by(chance.choice([1, 2]))
        if chance.random() < 0.1:
            screen.transform = chance.randrange(8)
        old = self.content[number]
        if old is None or len(old) != shown.height:
            shown.rows = [[chance.randrange(1000) for _ in range(shown.width)] for _ in range(shown.height)]
        else:
            shown.rows = [list(row) for row in old]
            for _ in range(chance.randrange(3)):
                self.draw(screen, shown)
        for begin, end in screen.commit(shown):
            shown.read[begin:end] = [list(row) for row in shown.rows[begin:end]]
        test.assertEqual(shown.read, shown.rows)
        self.content[number] = shown.rows

    def draw(self, screen, shown):
        """Changes a rectangle, and tells of it in one of two ways."""
        chance = self.chance
        sides = shown.width // screen.scale, shown.height // screen.scale
        width, height = sides[::-1] if screen.transform % 2 else sides
        x, y = chance.randrange(-1, width), chance.randrange(-1, height)
        wide, high = chance.randrange(1, width + 1), chance.randrange(1, height + 1)
        changed = set()
        for at in range(max(x, 0), min(x + wide, width)):
            for down in range(max(y, 0), min(y + high, height)):
                left, top = point_of(screen.transform, width, height, at, down)
                changed |= {(left * screen.scale + i, top * screen.scale + j) for i in range(screen.scale) for j in range(screen.scale)}
        for left, top in changed:
            shown.rows[top][left] = chance.randrange(1000)
        if chance.random() < 0.5 or not changed:
            screen.of_surface.add(x, y, wide, high)
        else:
            left, top = min(it[0] for it in changed), min(it[1] for it in changed)
            screen.of_buffer.add(left, top, max(it[0] for it in changed) + 1 - left, max(it[1] for it in changed) + 1 - top)


class Lines(unittest.TestCase):
    """The file that tells a server what to read."""

    def setUp(self):
        self.folder = pathlib.Path(self.enterContext(tempfile.TemporaryDirectory()))
        (self.folder / "7.r").write_text("1 2 3 4\n", encoding="ascii")
        self.sight = links.Ranges(self.folder, 7)
        self.pool = types.SimpleNamespace(memory=5, forgotten=0)
        self.pool.forget = lambda: setattr(self.pool, "forgotten", self.pool.forgotten + 1)

    def buffer(self, number, begin=0):
        class Shown:  # which weak references can name
            store = links.Link(self.folder / f"7.{number}", number, self.pool, begin)

        return Shown()

    def lines(self):
        self.sight.before_bytes()
        return (self.folder / "7.r").read_text(encoding="ascii").splitlines()

    def test_empty_at_first(self):
        self.assertEqual((self.folder / "7.r").read_bytes(), b"")
        self.assertEqual([it.name for it in self.folder.iterdir()], ["7.r"])

    def test_links_stay(self):
        store = self.buffer(1).store
        self.sight.made(store)
        self.assertRegex(str((self.folder / "7.1").readlink()), r"^/proc/\d+/fd/5$")

    def test_lines_by_store_and_place(self):
        first, second = self.buffer(10), self.buffer(2, begin=1000)
        self.sight.show(first, [(0, 8), (40, 48)])
        self.sight.show(second, [(16, 24)])
        self.sight.show(first, [(8, 12), (20, 24)])
        self.assertEqual(self.lines(), ["2 16 8 1016", "10 0 12 0", "10 20 4 20", "10 40 8 40"])

    def test_taken_back_when_a_sync_behind_it_is_answered(self):
        first = self.buffer(1)
        self.sight.show(first, [(0, 8)])
        self.assertTrue(self.sight.wants_sync())
        self.sight.sync()
        self.sight.show(first, [(8, 16)])
        self.assertEqual(self.lines(), ["1 0 16 0"])
        self.sight.sync()
        self.sight.show(first, [(16, 24)])
        self.assertFalse(self.sight.wants_sync())  # two are on their way
        self.sight.seen()
        self.assertEqual(self.lines(), ["1 8 16 8"])
        self.assertTrue(self.sight.wants_sync())
        self.sight.sync()
        self.sight.seen()
        self.sight.seen()
        self.assertEqual(self.lines(), [])
        self.assertFalse(self.sight.wants_sync())

    def test_taken_back_before_the_client_may_draw(self):
        first, second = self.buffer(1), self.buffer(2)
        self.sight.show(first, [(0, 8)])
        self.sight.show(second, [(0, 8)])
        self.sight.released(first)
        self.assertEqual(self.lines(), ["2 0 8 0"])

    def test_too_many_lines(self):
        first, second = self.buffer(1), self.buffer(2)
        self.sight.show(first, [(16 * it, 16 * it + 5) for it in range(900)])
        self.assertEqual(len(self.lines()), 900)
        self.sight.show(second, [(16 * it, 16 * it + 1) for it in range(2000)])
        self.assertEqual(self.lines()[-1], "2 0 31985 0")
        self.assertEqual(self.pool.forgotten, 0)
        for at in range(1, 9):
            self.sight.show(first, [(16 * it + 2 * at, 16 * it + 2 * at + 1) for it in range(900)])
        self.assertEqual(self.lines(), ["1 0 14401 0", "2 0 31985 0"])
        self.assertEqual(self.pool.forgotten, 2)  # for either store

    def test_commits_that_nothing_answers(self):
        first = self.buffer(1)
        for at in range(3 * links.COMMITS):
            self.sight.show(first, [(8 * at, 8 * at + 4)])
        self.assertLessEqual(len(self.sight.told), links.COMMITS + 1)
        self.assertEqual(self.lines()[0], "1 0 4 0")
        self.sight.sync()
        self.sight.seen()
        self.assertEqual(self.lines(), [])

    def test_closed(self):
        self.sight.close()
        self.assertEqual(list(self.folder.iterdir()), [])


if __name__ == "__main__":
    unittest.main()
