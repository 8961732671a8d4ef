"""The viewer's socket of the real program: what a viewer sees is what the images show, and no viewer troubles the others."""
import contextlib
import pathlib
import random
import socket
import struct
import subprocess
import sys
import tempfile
import time
import unittest

HERE = pathlib.Path(__file__).resolve().parent
sys.path.insert(0, str(HERE))
from rig import TOOLS, program, wait_for  # pylint: disable=wrong-import-position
from wlframe import pictures  # pylint: disable=wrong-import-position

EXAMPLES = TOOLS.parent / "examples"
SIZE = (160, 112)
PATIENCE = 60
BAD_LINES = [
    b"nonsense\n",
    b"motion 1\n",
    b"motion 1 2 3\n",
    b"motion 2147483648 0\n",
    b"motion 0 -2147483649\n",
    b"button 272 2\n",
    b"button 4294967296 1\n",
    b"sync\n",
    b"sync -1\n",
    b"windows 1\n",
    b"motion\t1 2\n",
    b"\0\n",
    b"#" * 64 + b"\n",
    b"x" * 65,
]
GOOD_LINES = [b"\n", b"#\n", b"#" * 63 + b"\n", b"  motion  +1 2\n".replace(b"+", b""), b"motion -2147483648 2147483647\n", b"button 272 1\n", b"button 272 0\n", b"button 9 0\n"]


class Viewer:
    """A viewer that reads pieces of random lengths, and keeps a picture."""

    def __init__(self, path, chance=None):
        self.chance = chance or random.Random(0)
        self.socket = socket.socket(socket.AF_UNIX)
        self.socket.settimeout(PATIENCE)
        self.socket.connect(str(path))
        self.bytes = bytearray()
        self.seen = []  # of each update: its time, and a copy of the picture
        words = self.line().split()
        assert words[:2] == [b"wlframe", b"1"], words
        self.width, self.height = int(words[2]), int(words[3])
        self.picture = bytearray(self.chance.randbytes(4 * self.width * self.height))  # anything

    def more(self):
        came = self.socket.recv(self.chance.choice([1, 7, 100, 5000, 65536]))
        if not came:
            raise EOFError
        self.bytes += came

    def take(self, count):
        while len(self.bytes) < count:
            self.more()
        front = bytes(self.bytes[:count])
        del self.bytes[:count]
        return front

    def line(self):
        while b"\n" not in self.bytes:
            self.more()
        return self.take(self.bytes.index(b"\n") + 1)[:-1]

    def send(self, *lines):
        for line in lines:
            self.socket.sendall(line)

    def read(self):
        """The words of what is told next. An update is copied."""
        words = self.line().split()
        if words[0] == b"frame":
            last = (-1, 0)  # the row, and the column behind the run before
            for _ in range(int(words[2])):
                x, y, w = struct.unpack("<3I", self.take(12))
                assert w and x + w <= self.width and y < self.height, (x, y, w)
                assert y > last[0] or (y == last[0] and x > last[1]), (x, y, last)
                last = (y, x + w)
                start = 4 * (y * self.width + x)
                self.picture[start : start + 4 * w] = self.take(4 * w)
            self.seen.append((int(words[1]), bytes(self.picture)))
        return words

    def sync(self, number):
        """The time at which all that was sent was shown."""
        self.send(b"sync %d\n" % number)
        while True:
            words = self.read()
            if words[0] == b"synced":
                assert int(words[1]) == number, words
                return int(words[2])

    def close(self):
        self.socket.close()


def colours(picture):
    """The bytes of a PPM image for a picture of blue, green, red and 255."""
    assert picture[3::4] == b"\xff" * (len(picture) // 4)
    made = bytearray(len(picture) // 4 * 3)
    for channel in range(3):
        made[channel::3] = picture[2 - channel :: 4]
    return bytes(made)


class Player:
    """Plays a recording's clients over a server's socket."""

    def __init__(self, room, recording, chance):
        self.room, self.chance = room, chance
        self.rows = (EXAMPLES / recording).read_text(encoding="utf-8").splitlines()
        self.clients = []

    def step(self):
        """Plays on, up to a tick and with it. Returns whether there was one."""
        while self.rows:
            word, *rest = self.rows.pop(0).split() or ["#"]
            if word == "connect":
                one = socket.socket(socket.AF_UNIX)
                one.connect(str(self.room / "server"))
                self.clients.append(one)
            elif word == "bytes":
                self.send(self.clients[int(rest[0]) - 1], bytes.fromhex("".join(rest[1:])))
            elif word == "store":
                client, store, at = map(int, rest[:3])
                path = self.room / f"{client}.{store}"
                path.touch()
                with open(path, "r+b") as file:
                    file.seek(at)
                    file.write(bytes.fromhex("".join(rest[3:])))
            elif word == "tick":
                return True
        return False

    def send(self, client, stream):
        while stream:
            count = self.chance.randrange(1, 1 + len(stream))
            client.sendall(stream[:count])
            stream = stream[count:]
            if self.chance.random() < 0.2:
                time.sleep(0.01)


class Views(unittest.TestCase):
    def setUp(self):
        self.room = pathlib.Path(self.enterContext(tempfile.TemporaryDirectory()))
        self.report = open(self.room / "report", "wb")
        self.addCleanup(self.report.close)
        words = [program(), "serve", "--socket", "server", "--viewer", "viewer", "--rate", "100", "--size", "{}x{}".format(*SIZE), "--ppm", "frames.ppm"]
        self.server = subprocess.Popen(words, cwd=self.room, stdout=self.report, stderr=subprocess.PIPE)
        self.addCleanup(self.end)
        wait_for((self.room / "viewer").exists, "the server makes no socket for a viewer")

    def end(self):
        if self.server.poll() is None:
            self.server.terminate()
        self.server.wait()
        self.server.stderr.close()

    def viewer(self, **more):
        """A viewer that got the place: somebody else may still be leaving it."""
        until = time.monotonic() + PATIENCE
        while True:
            try:
                return Viewer(self.room / "viewer", **more)
            except (EOFError, ConnectionError):
                if time.monotonic() > until:
                    raise

    def images(self):
        """What the images show, by the time of the frame."""
        self.end()
        times = [int(row.split()[1]) for row in (self.room / "report").read_text().splitlines() if row.startswith("frame ")]
        with open(self.room / "frames.ppm", "rb") as stream:
            shown = [bytes(it.pixels) for it in pictures.read(stream)] if times else []
        self.assertEqual(len(times), len(shown))
        return dict(zip(times, shown))

    def check(self, viewers):
        """Each picture is the frame at the update's time."""
        images = self.images()
        black = bytes(3 * SIZE[0] * SIZE[1])
        for viewer in viewers:
            self.assertTrue(viewer.seen)
            for when, picture in viewer.seen:
                before = [it for it in images if it <= when]
                self.assertEqual(colours(picture), images[max(before)] if before else black, when)
        return images

    def test_it_sees_each_frame(self):
        for seed, recording in enumerate(("two_windows.rec", "subsurface.rec", "menu.rec", "scale.rec")):
            with self.subTest(recording):
                self.doCleanups()
                self.setUp()
                chance = random.Random(seed)
                player = Player(self.room, recording, chance)
                viewer, syncs = self.viewer(chance=chance), 0
                viewers = [viewer]
                while player.step():
                    for _ in range(chance.randrange(1, 4)):
                        syncs += 1
                        viewer.sync(syncs)
                    if chance.random() < 0.3:
                        viewer.close()
                        viewer = self.viewer(chance=chance)
                        viewers.append(viewer)
                viewer.sync(syncs + 1)
                images = self.check([it for it in viewers if it.seen])
                self.assertTrue(images)

    def test_bad_lines(self):
        for line in BAD_LINES:
            with self.subTest(line):
                viewer = self.viewer()
                viewer.send(b"sync 5\n", line)
                told = []
                with self.assertRaises(EOFError):
                    while True:
                        told.append(viewer.read())
                self.assertEqual(told[-1], [b"bad", b"line"])
                self.assertEqual(told[-2][:2], [b"synced", b"5"])
                viewer.close()

    def test_good_lines(self):
        viewer = self.viewer()
        for number, line in enumerate(GOOD_LINES * 3):
            cut = viewer.chance.randrange(len(line) + 1)
            viewer.send(line[:cut])
            time.sleep(0.02)
            viewer.send(line[cut:])
            viewer.sync(number)
        viewer.send(b"windows\n")
        self.assertEqual(viewer.read()[0], b"windows")

    def test_of_several_syncs_the_last_is_answered(self):
        viewer = self.viewer()
        viewer.send(b"sync 1\nsync 2\nsync 3\n")
        while (words := viewer.read())[0] != b"synced":
            pass
        self.assertEqual(words[1], b"3")

    def test_there_is_one_at_a_time(self):
        viewer = self.viewer()
        for _ in range(40):
            with socket.socket(socket.AF_UNIX) as other:
                other.settimeout(PATIENCE)
                other.connect(str(self.room / "viewer"))
                self.assertEqual(other.recv(1), b"")
        viewer.sync(1)

    def test_many_come_and_go(self):
        chance = random.Random(4)
        for _ in range(200):
            with contextlib.suppress(OSError), socket.socket(socket.AF_UNIX) as other:
                other.connect(str(self.room / "viewer"))
                other.sendall(chance.choice([b"", b"mot", b"button 272 1\n", b"button 272 1\nbut", b"sync 1\n", chance.randbytes(70)]))
                if chance.random() < 0.3:
                    other.settimeout(1)
                    other.recv(chance.randrange(1, 3000))
        self.viewer().sync(1)

    def test_one_that_never_reads_troubles_nobody(self):
        slow = self.viewer()
        slow.send(b"windows\n" * 20000)
        player = Player(self.room, "two_windows.rec", random.Random(1))
        while player.step():
            time.sleep(0.1)
        time.sleep(0.3)
        self.assertIsNone(self.server.poll())
        slow.sync(7)
        self.check([slow])
        self.assertLess(len(slow.seen), 10)


if __name__ == "__main__":
    unittest.main()
