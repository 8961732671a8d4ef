"""The examples: their recordings are what examples/compose.py makes of their texts, and their pictures what the program shows of them."""
import pathlib
import re
import subprocess
import sys
import tempfile
import unittest

sys.path.insert(0, str(pathlib.Path(__file__).resolve().parent))
from rig import TOOLS, program  # pylint: disable=wrong-import-position
from wlframe.pictures import read  # pylint: disable=wrong-import-position

EXAMPLES = TOOLS.parent / "examples"


def replayed(text, images):
    """The report of the recording of a text. Its frames come into a file, at the size that the text names."""
    size = re.search(r"^# \./wlframe replay --size (\d+x\d+) ", text.read_text(encoding="ascii"), re.MULTILINE)[1]
    with open(text.with_suffix(".rec"), "rb") as recording:
        return subprocess.run([program(), "replay", "--size", size, "--ppm", images], stdin=recording, capture_output=True, check=True).stdout.decode()


def pictures_of(path):
    """The pictures that a file has."""
    with open(path, "rb") as stream:
        return list(read(stream))


class Examples(unittest.TestCase):
    def test_recordings(self):
        texts = sorted(EXAMPLES.glob("*.txt"))
        self.assertTrue(texts)
        for text in texts:
            made = subprocess.run([EXAMPLES / "compose.py", text], capture_output=True, check=True).stdout
            self.assertEqual(made, text.with_suffix(".rec").read_bytes(), text)

    def test_pictures(self):
        with tempfile.TemporaryDirectory() as folder:
            images, picture = pathlib.Path(folder) / "frames.ppm", pathlib.Path(folder) / "row.png"
            for name in ("subsurface", "drag", "menu", "pointer", "scale"):
                images.unlink(missing_ok=True)
                replayed(EXAMPLES / f"{name}.txt", images)
                subprocess.run([EXAMPLES / "ppm_to_png.py", "--row", images, picture], capture_output=True, check=True)
                self.assertEqual(*(pictures_of(it) for it in (picture, EXAMPLES / f"{name}.png")), name)

    def test_what_a_scale_paints_again(self):
        with tempfile.TemporaryDirectory() as folder:
            report = replayed(EXAMPLES / "scale.txt", pathlib.Path(folder) / "frames.ppm")
        self.assertNotIn("end ", report)
        self.assertEqual(re.findall("^frame .*", report, re.MULTILINE), ["frame 16 3072", "frame 32 3072", "frame 48 64", "frame 64 960", "frame 80 16"])

    def test_no_client_of_the_pointer_is_refused(self):
        with tempfile.TemporaryDirectory() as folder:
            report = replayed(EXAMPLES / "pointer.txt", pathlib.Path(folder) / "frames.ppm")
        self.assertNotIn("end ", report)
        self.assertEqual(re.findall("^frame .*", report, re.MULTILINE), ["frame 16 5632", "frame 32 3072", "frame 48 3072", "frame 64 5232", "frame 80 896", "frame 96 3072"])


if __name__ == "__main__":
    unittest.main()
