"""Recordings of unmodified clients: the replay shows each frame that a viewer was told of, to the byte, and at the same times."""
import hashlib
import os
import pathlib
import shutil
import subprocess
import sys
import threading
import unittest

sys.path.insert(0, str(pathlib.Path(__file__).resolve().parent))
from rig import TOOLS, has_option, program  # pylint: disable=wrong-import-position
from test_display import Displays  # pylint: disable=wrong-import-position
from wlframe import pictures  # pylint: disable=wrong-import-position

EXAMPLES = TOOLS.parent / "examples"
SIZE = 320, 240
RATE = 30
LONG = 120  # seconds
PYTHON = "/usr/bin/python3"  # Debian's, which finds what Debian's packages have
VIDEO = "mpv --vo=wlshm --no-audio --no-terminal --no-config --geometry=160x120 av://lavfi:testsrc".split()
FOOT = "foot --config=/dev/null --override=csd.preferred=none --window-size-pixels=200x100 sh -c".split() + ["echo one; sleep 1; ls /; sleep 30"]


def summed(pixels):
    return hashlib.sha256(bytes(pixels)).digest()


def replayed(recording, size, room):
    """What a recording shows: of each tick its time and the sum of its image; and the report."""
    pipe = room / "images"
    os.mkfifo(pipe)
    sums = []

    def read():
        with open(pipe, "rb") as images:
            sums.extend(summed(it.pixels) for it in pictures.read(images))

    reader = threading.Thread(target=read)
    reader.start()
    with open(recording, "rb") as rows:
        words = [program(), "replay", "--size", "{}x{}".format(*size), "--ppm", pipe]
        report = subprocess.run(words, stdin=rows, stdout=subprocess.PIPE, check=True, text=True).stdout
    reader.join()
    times = [int(row.split()[1]) for row in report.splitlines() if row.startswith("frame ")]
    return list(zip(times, sums, strict=True)), report


@unittest.skipUnless(has_option("--record"), "the program writes no recording")
class RecordedClients(Displays):
    def record(self, play):
        """Records what a play with a display shows, and compares it with the replay."""
        recording, shown = self.room / "made.rec", []
        display = self.display(size=SIZE, rate=RATE, record=recording)
        display.is_strict = False
        display.viewer.after.append(lambda frame, update: shown.append((update.time, summed(frame.picture().pixels))))
        play(display)
        display.sync()
        display.close()
        text = recording.read_bytes()
        recording.write_bytes(text[: text.rindex(b"\n") + 1])  # the server may have been ended in the middle of a turn
        frames, report = replayed(recording, SIZE, self.room)
        images = dict(frames)
        self.assertEqual([it for it in shown if images.get(it[0]) != it[1]], [])
        self.assertGreater(len({it[1] for it in shown}), 1, "nothing was shown")
        self.assertNotIn("none ", report)

    def need(self, *names):
        for name in names:
            if not shutil.which(name):
                self.skipTest(f"{name} isn't installed")

    def test_gtk4_with_a_menu(self):
        self.need("gtk4-demo")

        def play(display):
            display.run("gtk4-demo", "--run=dropdown")
            window = display.window(timeout=LONG)
            display.wait_until_idle(0.3, timeout=LONG)
            for x in (100, 160):
                window.click(x, 105)
                display.wait_until_idle(0.3, timeout=LONG)

        self.record(play)

    def test_subsurfaces(self):
        self.need("weston-subsurfaces")

        def play(display):
            display.run("weston-subsurfaces")
            window = display.window(timeout=LONG)
            window.click(20, 20)
            display.pause(2)

        self.record(play)

    def test_video(self):
        self.need("mpv")

        def play(display):
            display.run(*VIDEO)
            display.window(timeout=LONG)
            display.pause(2)

        self.record(play)

    def test_terminal(self):
        self.need("foot")

        def play(display):
            display.run(*FOOT)
            display.window(timeout=LONG)
            display.wait_until_idle(1.5, timeout=LONG)

        self.record(play)

    def test_qt(self):
        if subprocess.run([PYTHON, "-c", "import PyQt6.QtWidgets"], capture_output=True, check=False).returncode:
            self.skipTest("PyQt6 isn't installed")

        def play(display):
            display.run(PYTHON, EXAMPLES / "pytest" / "counter.py")
            window = display.window(timeout=LONG)
            display.wait_until_idle(0.3, timeout=LONG)
            for _ in range(2):
                window.click(window.width // 2, window.height // 2)
                display.wait_until_idle(0.3, timeout=LONG)

        self.record(play)

    def test_two_clients(self):
        """One leaves, and another comes in its place."""
        self.need("weston-flower", "foot")

        def play(display):
            first = display.run("weston-flower")
            display.window(client=first, timeout=LONG)
            second = display.run(*FOOT)
            window = display.window(client=second, timeout=LONG)
            window.click(50, 50)
            first.terminate()
            third = display.run("weston-flower")
            display.window(client=third, timeout=LONG)
            display.pause(1)

        self.record(play)


if __name__ == "__main__":
    unittest.main()
