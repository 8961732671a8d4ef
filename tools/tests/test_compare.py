"""tools/compare, and the reading and writing of pictures."""
import io
import pathlib
import subprocess
import sys
import tempfile
import unittest
import zlib

HERE = pathlib.Path(__file__).resolve().parent
sys.path[:0] = [str(HERE), str(HERE.parent.parent / "python")]
from wlframe import pictures  # pylint: disable=wrong-import-position
from wlframe.pictures import Picture  # pylint: disable=wrong-import-position

COMPARE = HERE.parent / "compare"
WHITE, BLACK = b"\xff" * 3, b"\0" * 3


def ppm(picture):
    return b"P6\n%d %d\n255\n" % picture[:2] + picture.pixels


def filtered(picture, kind, coded):
    """A PNG whose rows are filtered."""
    rows = b"".join(bytes([kind]) + row for row in coded)
    head = picture.width.to_bytes(4) + picture.height.to_bytes(4) + bytes([8, 2, 0, 0, 0])
    parts = [(b"IHDR", head), (b"IDAT", zlib.compress(rows)), (b"IEND", b"")]
    return pictures.SIGNATURE + b"".join(pictures.chunk(*it) for it in parts)


class Compares(unittest.TestCase):
    def setUp(self):
        self.room = pathlib.Path(self.enterContext(tempfile.TemporaryDirectory()))
        self.white = Picture(4, 3, WHITE * 12)
        self.dotted = Picture(4, 3, WHITE * 6 + b"\xff\xf0\xff" + WHITE * 2 + BLACK + WHITE * 2)  # points 2,1 and 1,2

    def put(self, name, *frames):
        path = self.room / name
        path.parent.mkdir(exist_ok=True)
        path.write_bytes(b"".join(map(ppm, frames)) if name.endswith("ppm") else pictures.png(*frames))
        return name

    def compare(self, *words, sent=b""):
        done = subprocess.run([sys.executable, COMPARE, *words], cwd=self.room, input=sent, capture_output=True, check=False)
        return done.returncode, done.stdout.decode(), done.stderr.decode()

    def test_equal(self):
        self.put("a.ppm", self.white, self.dotted)
        self.put("b/0001.png", self.white)
        self.put("b/0002.png", self.dotted)
        self.assertEqual(self.compare("a.ppm", "a.ppm"), (0, "", ""))
        self.assertEqual(self.compare("a.ppm", "b"), (0, "", ""))
        self.assertEqual(self.compare("-", "b", sent=ppm(self.white) + ppm(self.dotted)), (0, "", ""))

    def test_first_frame_and_point(self):
        self.put("a.ppm", self.white, self.white, self.white)
        self.put("b.ppm", self.white, self.dotted, self.dotted)
        said = "a.ppm b.ppm: frame 2 differs at 2 of 12 pixels, first at 2,1, which is ffffff in the one and fff0ff in the other\n"
        self.assertEqual(self.compare("a.ppm", "b.ppm"), (1, said, ""))

    def test_tolerance(self):
        self.put("a.png", self.white)
        self.put("b.png", self.dotted)
        said = "a.png b.png: frame 1 differs at 1 of 12 pixels, first at 1,2, which is ffffff in the one and 000000 in the other\n"
        self.assertEqual(self.compare("a.png", "b.png", "--tolerance", "15"), (1, said, ""))
        self.assertEqual(self.compare("a.png", "b.png", "--tolerance", "14")[1][:44], "a.png b.png: frame 1 differs at 2 of 12 pixe")
        self.assertEqual(self.compare("a.png", "b.png", "--tolerance", "255"), (0, "", ""))

    def test_masks_and_permitted_pixels(self):
        self.put("a.png", self.white)
        self.put("b.png", self.dotted)
        self.assertEqual(self.compare("a.png", "b.png", "--max-pixels", "2"), (0, "", ""))
        self.assertEqual(self.compare("a.png", "b.png", "--max-pixels", "1")[0], 1)
        self.assertEqual(self.compare("a.png", "b.png", "--mask", "2,1,1,1", "--mask", "0,2,2,1"), (0, "", ""))
        said = "a.png b.png: frame 1 differs at 1 of 12 pixels, first at 2,1, which is ffffff in the one and fff0ff in the other\n"
        self.assertEqual(self.compare("a.png", "b.png", "--mask", "0,2,2,1"), (1, said, ""))
        status, _, wrong = self.compare("a.png", "b.png", "--mask", "0,2,2")
        self.assertEqual(status, 2)
        self.assertIn("argument --mask: 0,2,2: write a box as X,Y,W,H, like 10,20,100,30", wrong)

    def test_picture_of_the_difference(self):
        self.put("a.png", self.white)
        self.put("b.png", self.dotted)
        self.assertEqual(self.compare("a.png", "b.png", "--diff", "diff.png")[0], 1)
        (found,) = pictures.read(io.BytesIO((self.room / "diff.png").read_bytes()))
        red, paled = b"\xd0\0\0", b"\xff\xff\xff"
        self.assertEqual(found, Picture(4, 3, paled * 6 + red + paled * 2 + red + paled * 2))

    def test_lengths_and_sizes(self):
        self.put("a.ppm", self.white, self.white)
        self.put("b.ppm", self.white)
        self.put("c.ppm", Picture(3, 4, WHITE * 12))
        self.assertEqual(self.compare("a.ppm", "b.ppm"), (1, "b.ppm has 1 frame, and the other has more\n", ""))
        self.assertEqual(self.compare("b.ppm", "c.ppm"), (1, "b.ppm c.ppm: frame 1 is 4x3 in the one and 3x4 in the other\n", ""))

    def test_what_can_not_be_read(self):
        self.put("a.ppm", self.white)
        (self.room / "cut.ppm").write_bytes(ppm(self.white)[:-1])
        (self.room / "cut.png").write_bytes(pictures.png(self.white)[:-1])
        (self.room / "text").write_text("a text")
        (self.room / "empty").mkdir()
        for name, reason in [
            ("cut.ppm", "cut.ppm: the last image is cut off"),
            ("cut.png", "cut.png: the PNG is damaged or cut off"),
            ("text", "text: no PPM image (P6) begins where one should"),
            ("missing", "missing: No such file or directory"),
        ]:
            self.assertEqual(self.compare("a.ppm", name), (2, "", f"compare: {reason}\n"))
        self.assertEqual(self.compare("empty", "empty"), (2, "", "compare: empty and empty hold no picture\n"))
        self.assertEqual(self.compare("a.ppm", "a.ppm", "--tolerance", "256")[0], 2)
        self.assertEqual(self.compare("a.ppm")[0], 2)

    def test_full_disk(self):
        self.put("a.png", self.white)
        self.put("b.png", self.dotted)
        self.assertEqual(self.compare("a.png", "b.png", "--diff", "/dev/full")[::2], (2, "compare: /dev/full: No space left on device\n"))


class Reads(unittest.TestCase):
    picture = Picture(2, 2, bytes([10, 20, 30, 11, 22, 33, 12, 20, 36, 200, 100, 50]))

    def test_pieces(self):
        """It is all the same how a stream is cut into pieces."""
        stream, splitter = ppm(self.picture) * 3, pictures.Splitter()
        found = [it for at in range(len(stream)) for it in splitter.pictures(stream[at : at + 1])]
        self.assertEqual(found, 3 * [self.picture])
        self.assertFalse(splitter.is_within())

    def test_comments_in_a_head(self):
        self.assertEqual(list(pictures.read(io.BytesIO(b"P6 # made by hand\n2\t2\n#\n255\n" + self.picture.pixels))), [self.picture])

    def test_png_there_and_back(self):
        self.assertEqual(list(pictures.read(io.BytesIO(pictures.png(self.picture)))), [self.picture])

    def test_png_of_another_kind(self):
        """Rows filtered by subtraction of the point at the left are read by Pillow, where that is installed, and else refused."""
        rows = [self.picture.pixels[:6], self.picture.pixels[6:]]
        coded = [row[:3] + bytes((row[at] - row[at - 3]) % 256 for at in range(3, 6)) for row in rows]
        stream = io.BytesIO(filtered(self.picture, 1, coded))
        try:
            import PIL  # pylint: disable=import-outside-toplevel,unused-import
        except ImportError:
            with self.assertRaisesRegex(pictures.Unreadable, "install Pillow"):
                list(pictures.read(stream))
            return
        self.assertEqual(list(pictures.read(stream)), [self.picture])


if __name__ == "__main__":
    unittest.main()
