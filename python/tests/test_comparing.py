"""How two pictures differ."""
import os
import pathlib
import random
import sys
import time
import unittest

sys.path.insert(0, str(pathlib.Path(__file__).resolve().parent.parent))
from wlframe.comparing import box_of, difference, marks  # pylint: disable=wrong-import-position
from wlframe.pictures import Picture  # pylint: disable=wrong-import-position


def near(chance, picture):
    """A picture whose colours are apart by up to 9."""
    return Picture(picture.width, picture.height, bytes(max(0, min(255, it + chance.randrange(-9, 10))) for it in picture.pixels))


class Compares(unittest.TestCase):
    def test_each_tolerance(self):
        chance = random.Random(1)
        first = Picture(30, 20, bytes(chance.randrange(256) for _ in range(1800)))
        second = near(chance, first)
        for tolerance in (0, 1, 4, 8, 9, 255):
            expected = [int(any(abs(first.pixels[3 * at + it] - second.pixels[3 * at + it]) > tolerance for it in range(3))) for at in range(600)]
            self.assertEqual(list(marks(first, second, tolerance)), expected)

    def test_ends_of_the_scale(self):
        first, second = Picture(2, 1, bytes([0, 255, 0, 9, 9, 9])), Picture(2, 1, bytes([255, 0, 0, 9, 9, 9]))
        self.assertEqual([list(marks(first, second, it)) for it in (0, 254, 255)], [[1, 0], [1, 0], [0, 0]])

    def test_masks(self):
        black, white = Picture(4, 3, bytes(36)), Picture(4, 3, b"\xff" * 36)
        self.assertEqual(sum(marks(black, white, mask=[(1, 1, 2, 9)])), 12 - 4)
        self.assertEqual(sum(marks(black, white, mask=[(-2, -2, 3, 3), (3, 2, 9, 9)])), 12 - 2)
        self.assertEqual(sum(marks(black, white, mask=[(0, 0, 4, 3)])), 0)
        self.assertEqual(sum(marks(black, white, mask=[(9, 9, 4, 3)])), 12)

    def test_box(self):
        found = bytearray(5 * 4)
        self.assertIsNone(box_of(found, 5))
        found[1 * 5 + 3] = found[3 * 5 + 1] = 1
        self.assertEqual(box_of(found, 5), (1, 1, 3, 3))

    def test_permitted_pixels(self):
        black, dotted = Picture(4, 3, bytes(36)), Picture(4, 3, b"\xff" * 6 + bytes(30))
        self.assertIsNone(difference(black, dotted, max_pixels=2))
        found = difference(black, dotted, max_pixels=1)
        self.assertEqual((found.count, found.box), (2, (0, 0, 2, 1)))
        self.assertEqual(found.text, "differs at 2 of 12 pixels, first at 0,0, which is 000000 in the one and ffffff in the other")

    def test_drawn(self):
        first, second = Picture(2, 1, bytes([30, 60, 255, 0, 0, 0])), Picture(2, 1, bytes([30, 60, 255, 0, 0, 1]))
        self.assertEqual(difference(first, second).picture().pixels, bytes([180, 190, 255, 0xD0, 0, 0]))

    def test_sizes(self):
        found = difference(Picture(2, 1, bytes(6)), Picture(1, 2, bytes(6)))
        self.assertEqual((found.text, found.picture()), ("is 2x1 in the one and 1x2 in the other", None))

    def test_large_ones(self):
        """Two pictures of 1920 by 1080 that differ everywhere take less than a second of the processor."""
        size = 3 * 1920 * 1080
        first, second = (Picture(1920, 1080, os.urandom(size)) for _ in range(2))
        begun = time.process_time()
        found = difference(first, second)
        self.assertLess(time.process_time() - begun, 1.0)
        self.assertGreater(found.count, 2_000_000)


class Pictures(unittest.TestCase):
    picture = Picture(3, 2, bytes(range(18)))

    def test_pixel(self):
        self.assertEqual(self.picture.pixel(1, 1), (12, 13, 14))
        for place in ((3, 0), (0, 2), (-1, 0)):
            with self.assertRaises(IndexError):
                self.picture.pixel(*place)

    def test_crop(self):
        self.assertEqual(self.picture.crop((1, 0, 2, 2)), Picture(2, 2, bytes([3, 4, 5, 6, 7, 8, 12, 13, 14, 15, 16, 17])))
        self.assertEqual(self.picture.crop((-5, 1, 6, 9)), Picture(1, 1, bytes([9, 10, 11])))
        for box in ((3, 0, 1, 1), (0, 0, 0, 1), (-2, 0, 2, 2)):
            with self.assertRaises(ValueError):
                self.picture.crop(box)

    def test_equality_and_name(self):
        self.assertEqual(self.picture, Picture(3, 2, bytes(range(18))))
        self.assertNotEqual(self.picture, Picture(3, 2, bytes(18)))
        self.assertNotEqual(self.picture, Picture(2, 3, bytes(range(18))))
        self.assertRegex(repr(self.picture), "^<Picture 3x2 [0-9a-f]{8}>$")


if __name__ == "__main__":
    unittest.main()
