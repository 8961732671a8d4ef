"""The films of tools/run: how long they last, what is in them, and what is said where ffmpeg fails. A stand-in for ffmpeg keeps what it is sent."""
import itertools
import os
import pathlib
import shutil
import subprocess
import sys
import time
import unittest

sys.path.insert(0, str(pathlib.Path(__file__).resolve().parent))
import test_run  # pylint: disable=wrong-import-position
from test_run import HERE, OUTPUT, RED, expected  # pylint: disable=wrong-import-position


class Films(test_run.Tool):
    def stand_in_coder(self, before=""):
        """The environment with a program in the place of ffmpeg, which keeps its words and what it is sent."""
        coder = self.room / "ffmpeg"
        coder.write_text(f'#!/bin/sh\necho "$*" > {self.room}/words\n{before}\ncat > {self.room}/sent\n')
        coder.chmod(0o755)
        return {"PATH": f"{self.room}:{os.environ['PATH']}"}

    def sent(self):
        """The pictures that the coder was sent."""
        data, size = (self.room / "sent").read_bytes(), 3 * OUTPUT[0] * OUTPUT[1]
        self.assertEqual(len(data) % size, 0)
        return [data[at : at + size] for at in range(0, len(data), size)]

    def test_film(self):
        """It begins black, as the client starts, and lasts as long as the run."""
        begun = time.monotonic()
        done = self.paint("--film", "film.mp4", "--until-idle", "4000", painter=["--then", "wait", "ff0000"], environment=self.stand_in_coder())
        took = time.monotonic() - begun
        self.assertEqual((done.returncode, done.stderr), (0, ""))
        self.assertIn("-f rawvideo -pix_fmt rgb24 -s 64x48 -framerate 30 -i -", (self.room / "words").read_text())
        shown, red = self.sent(), expected(RED).pixels
        black = shown.index(red)
        self.assertEqual(shown, black * [bytes(len(red))] + (len(shown) - black) * [red])
        self.assertGreaterEqual(len(shown), 4 * 30 - 1)
        self.assertLessEqual(len(shown), took * 30)

    def test_film_whose_coder_is_slow(self):
        """Neither the client nor the film's clock waits for it: all that was shown is there at its time."""
        lamp = [sys.executable, HERE / "lamp.py", "--blink", "2,3,4,5", "--leave", "4"]
        done = self.run_tool("--film", "film.mp4", client=lamp, environment=self.stand_in_coder("sleep 6"))
        self.assertEqual((done.returncode, done.stderr), (0, ""))
        shown = self.sent()
        self.assertGreaterEqual(len(shown), 4 * 30 - 1)
        lit = [it for it in shown if any(it)]
        blinks = [it for it, _ in itertools.groupby(lit)]
        self.assertEqual(len(set(blinks)), len(blinks))  # each comes once, as it was shown
        self.assertGreater(len(set(lit[-60:])), 1)  # it blinks until the end

    def test_film_whose_coder_fails(self):
        way = self.stand_in_coder("echo no room >&2; exit 1")
        done = self.paint("--film", "film.mp4", "--seconds", "20", painter=["--then", "wait", "ff0000"], environment=way)
        self.assertIn("no room", done.stderr)
        self.expect(done, 125, "run: ffmpeg couldn't write film.mp4: what it said stands above")

    @unittest.skipUnless(shutil.which("ffprobe"), "there is no ffmpeg (Debian: ffmpeg)")
    def test_film_of_ffmpeg(self):
        done = self.paint("--film", "film.mp4", "--until-idle", "3000", painter=["--then", "wait", "ff0000"])
        self.assertEqual((done.returncode, done.stderr), (0, ""))
        words = ["ffprobe", "-v", "error", "-show_entries", "format=duration", "-of", "csv=p=0", self.room / "film.mp4"]
        told = subprocess.run(words, capture_output=True, text=True, check=True).stdout
        self.assertGreaterEqual(float(told), 2.9)
        self.assertLess(float(told), 60)

    def test_missing_ffmpeg(self):
        done = self.paint("--film", "film.mp4", environment={"PATH": str(self.own)})
        self.expect(done, 125, "run: --film needs ffmpeg, which isn't installed (Debian: apt-get install ffmpeg); --frames writes pictures without it")


if __name__ == "__main__":
    unittest.main()
