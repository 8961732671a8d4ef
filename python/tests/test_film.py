"""Films of the last seconds."""
import pathlib
import struct
import sys
import unittest
import zlib

sys.path.insert(0, str(pathlib.Path(__file__).resolve().parent))
from fake import run, update  # pylint: disable=wrong-import-position
from wlframe import film, pictures  # pylint: disable=wrong-import-position
from wlframe.viewer import Frame, Reader  # pylint: disable=wrong-import-position

RED, GREEN = 0xFF0000, 0x00FF00


def recent(*updates, seconds=10.0):
    """What is kept of these updates of an output of 4 by 2."""
    frame, reader = Frame(4, 2), Reader()
    kept = film.Recent(frame, seconds)
    for each in reader.take(b"wlframe 1 4 2\n" + b"".join(updates)):
        kept.add(frame, each)
        frame.apply(each)
    return kept


def colours(picture):
    return [picture.pixels[at : at + 3].hex() for at in range(0, len(picture.pixels), 3)]


class Films(unittest.TestCase):
    def test_pictures(self):
        found = list(recent(update(100, run(0, 0, RED)), update(200, run(1, 1, GREEN, GREEN))).pictures())
        self.assertEqual([(when, [it[:3] for it in runs]) for when, runs, _ in found], [(100, []), (100, [(0, 0, 1)]), (200, [(1, 1, 2)])])
        black = "000000"
        self.assertEqual(colours(found[0][2]), 8 * [black])
        self.assertEqual(colours(found[2][2]), ["ff0000", black, black, black, black, "00ff00", "00ff00", black])

    def test_fast_ones_are_one(self):
        found = list(recent(*(update(100 + at, run(0, 0, at)) for at in range(0, 60, 10))).pictures())
        self.assertEqual([when for when, _, _ in found], [100, 130, 150])

    def test_old_ones_go(self):
        found = list(recent(update(0, run(0, 0, RED)), update(5000, run(0, 0, GREEN)), update(5500, run(1, 0, RED)), seconds=1.0).pictures())
        self.assertEqual([when for when, _, _ in found], [0, 5000, 5500])
        self.assertEqual(colours(found[0][2])[0], "ff0000")

    def test_too_many_go(self):
        kept = recent()
        most, film.MOST = film.MOST, 40
        self.addCleanup(setattr, film, "MOST", most)
        frame, reader = Frame(4, 2), Reader()
        for each in reader.take(b"wlframe 1 4 2\n" + update(1, run(0, 0, RED)) + update(2, run(1, 0, GREEN)) + update(3, run(2, 0, RED))):
            kept.add(frame, each)
        self.assertEqual([it.time for it in kept.updates], [2, 3])
        self.assertEqual(colours(kept.base.picture())[0], "ff0000")

    def test_animated(self):
        data = film.animated(recent(update(100, run(0, 0, RED)), update(250, run(1, 1, GREEN, GREEN))))
        found = list(pictures.chunks(data))
        self.assertEqual([name for name, _ in found], [b"IHDR", b"acTL", b"fcTL", b"IDAT", b"fcTL", b"fdAT", b"fcTL", b"fdAT", b"IEND"])
        self.assertEqual(found[1][1], struct.pack(">II", 3, 0))
        controls = [struct.unpack(">IIIIIHHBB", content) for name, content in found if name == b"fcTL"]
        self.assertEqual([it[1:5] for it in controls], [(4, 2, 0, 0), (1, 1, 0, 0), (2, 1, 1, 1)])
        self.assertEqual([it[5] for it in controls], [1, 150, 1000])
        numbers = [int.from_bytes(content[:4]) for name, content in found if name in (b"fcTL", b"fdAT")]
        self.assertEqual(numbers, list(range(5)))
        self.assertEqual(zlib.decompress(found[7][1][4:]), b"\0" + bytes.fromhex("00ff0000ff00"))
        self.assertEqual(colours(pictures.read_png(data)), 8 * ["000000"])

    def lasting(self, kept, until):
        """For how many milliseconds each picture of a film stands."""
        return [struct.unpack(">IIIIIHHBB", content)[5] for name, content in pictures.chunks(film.animated(kept, until)) if name == b"fcTL"]

    def test_a_film_lasts_as_long_as_what_was_shown(self):
        kept = recent(update(100, run(0, 0, RED)), update(250, run(0, 0, GREEN)))
        self.assertEqual(self.lasting(kept, 5250), [1, 150, 5000])
        self.assertEqual(self.lasting(kept, 300), [1, 150, film.ENDING])

    def test_what_is_older_than_the_last_seconds_is_the_first_picture(self):
        kept = recent(update(100, run(0, 0, RED)), update(9000, run(0, 0, GREEN)))
        self.assertEqual(self.lasting(kept, 12_100), [6900, 3100])
        self.assertEqual(self.lasting(kept, 90_000), [10_000])
        self.assertEqual(colours(list(kept.pictures(90_000))[0][2])[0], "00ff00")

    def test_nothing_shown(self):
        self.assertEqual(len(list(recent().pictures())), 1)


if __name__ == "__main__":
    unittest.main()
