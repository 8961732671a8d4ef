"""A recording of what the real program served: its replay shows the same frames, tick by tick."""
import io
import pathlib
import random
import socket
import struct
import subprocess
import sys
import tempfile
import time
import unittest

HERE = pathlib.Path(__file__).resolve().parent
sys.path.insert(0, str(HERE))
from rig import TOOLS, has_option, program  # pylint: disable=wrong-import-position
from wlframe import pictures  # pylint: disable=wrong-import-position

EXAMPLES = TOOLS.parent / "examples"
SIZE = (160, 112)
RATE = 100  # turns a second
PATIENCE = 240  # seconds: a program that isn't proved reads slowly
NO_SUCH = struct.pack("<II", 0xFFFFFF, 8 << 16)  # a request of an object that isn't there
SYNC = struct.pack("<II", 1, 12 << 16)  # wl_display.sync, but for its new id
REGISTRY = struct.pack("<II", 1, 12 << 16 | 1)  # wl_display.get_registry, but for its new id: its answers are some twenty times as long


def wait_for(what, why):
    """Waits until the function answers something that is true."""
    until = time.monotonic() + PATIENCE
    while not what():
        if time.monotonic() > until:
            raise TimeoutError(why)
        time.sleep(0.05)


def frames(report, images):
    """Of each frame that a report tells of: its time, how many pixels were painted, and the image."""
    told = [tuple(map(int, row.split()[1:])) for row in report.splitlines() if row.startswith("frame ")]
    shown = [bytes(it.pixels) for it in pictures.read(io.BytesIO(images))] if told else []
    assert len(told) == len(shown), (len(told), len(shown))
    return [(when, count, picture) for (when, count), picture in zip(told, shown)]


class Player:
    """Plays the clients of a recording over a server's sockets, and what its pointer does by the viewer's."""

    def __init__(self, room, rows, chance, before=0):
        self.room, self.rows, self.chance = room, rows, chance
        self.before = before  # how many connected before
        self.clients = []
        self.sent = 0  # how many bytes, by all clients
        self.viewer = socket.socket(socket.AF_UNIX)
        self.viewer.connect(str(room / "viewer"))

    def play(self):
        for row in self.rows:
            word, *rest = row.split() or ["#"]
            if word == "connect":
                self.connect()
            elif word == "bytes":
                self.send(self.clients[int(rest[0]) - 1], bytes.fromhex("".join(rest[1:])))
            elif word == "store":
                self.store(*map(int, rest[:3]), bytes.fromhex("".join(rest[3:])))
            elif word == "gone":
                self.clients[int(rest[0]) - 1].close()
            elif word == "motion":
                self.viewer.sendall("motion {} {}\n".format(*rest[1:]).encode())
            elif word == "button":
                self.viewer.sendall("button {} {}\n".format(*rest[1:]).encode())
            elif word == "tick":
                self.drain()
                time.sleep(self.chance.choice([0, 0.005, 0.03]))
        self.drain()

    def connect(self):
        one = socket.socket(socket.AF_UNIX)
        one.connect(str(self.room / "server"))
        self.clients.append(one)
        time.sleep(3 / RATE)  # so that its number is that of its place

    def send(self, client, stream):
        while stream:
            count = self.chance.randrange(1, 1 + len(stream))
            try:
                client.sendall(stream[:count])
            except OSError:  # it ended
                return
            self.sent += count
            stream = stream[count:]
            if self.chance.random() < 0.2:
                time.sleep(0.01)

    def store(self, client, store, at, found):
        path = self.room / f"{self.before + client}.{store}"
        path.touch()
        with open(path, "r+b") as file:
            file.seek(at)
            file.write(found)

    def drain(self):
        """Clients read what they were sent."""
        for one in (*self.clients, self.viewer):
            if one.fileno() < 0:
                continue
            one.setblocking(False)
            try:
                while one.recv(1 << 16):
                    pass
            except OSError:
                pass
            one.setblocking(True)

    def close(self):
        for one in (*self.clients, self.viewer):
            one.close()


@unittest.skipUnless(has_option("--record"), "the program writes no recording")
class Records(unittest.TestCase):
    def setUp(self):
        self.room = pathlib.Path(self.enterContext(tempfile.TemporaryDirectory()))
        self.server = None

    def serve(self, turns, has_rate=True):
        words = [program(), "serve", "--socket", "server", "--viewer", "viewer", "--turns", str(turns), "--size", "{}x{}".format(*SIZE)]
        words += ["--ppm", "frames.ppm", "--record", "recording", *(["--rate", str(RATE)] if has_rate else [])]
        with open(self.room / "report", "wb") as report:
            self.server = subprocess.Popen(words, cwd=self.room, stdout=report, stderr=subprocess.PIPE)
        self.addCleanup(self.end)
        wait_for((self.room / "viewer").exists, "the server makes no socket for a viewer")

    def end(self):
        if self.server.poll() is None:
            self.server.kill()
        self.server.wait()
        self.server.stderr.close()

    def lines(self):
        """The whole lines that are written."""
        return (self.room / "recording").read_text(encoding="ascii").rpartition("\n")[0].splitlines()

    def turns_pass(self, count=10):
        """Some turns pass. Returns how many lines there are then."""

        def ticks():
            return sum(it.startswith("tick ") for it in self.lines())

        until = ticks() + count
        wait_for(lambda: ticks() >= until, "no turn passes")
        return len(self.lines())

    def is_taken(self, count):
        """Waits until so many bytes of clients are written, and some turns more. Returns how many lines there are then."""

        def found():
            return sum(len(it.split()[2]) // 2 for it in self.lines() if it.startswith("bytes "))

        wait_for(lambda: found() >= count, "what was sent isn't taken")
        return self.turns_pass()

    def stop(self):
        """Ends the server between two turns, some turns after anything happened: what it wrote is whole."""
        self.turns_pass()
        self.end()
        text = (self.room / "recording").read_bytes()
        (self.room / "recording").write_bytes(text[: text.rindex(b"\n") + 1])

    def check(self):
        """The replay shows what was served. Returns the frames, and the recording's lines."""
        served = frames((self.room / "report").read_text(encoding="ascii"), (self.room / "frames.ppm").read_bytes())
        with open(self.room / "recording", "rb") as recording:
            words = [program(), "replay", "--size", "{}x{}".format(*SIZE), "--ppm", "replayed.ppm"]
            done = subprocess.run(words, cwd=self.room, stdin=recording, stdout=subprocess.PIPE, check=True, text=True)
        replayed = frames(done.stdout, (self.room / "replayed.ppm").read_bytes())
        self.assertEqual([(it[0], it[1]) for it in replayed if it[1]], [(it[0], it[1]) for it in served])
        self.assertEqual([it for it in replayed if it[1]], served)
        self.assertNotIn("none ", done.stdout)
        rows = (self.room / "recording").read_text(encoding="ascii").splitlines()
        self.assertLessEqual(max(map(len, rows)), 140_000)
        return served, rows

    def test_clients_of_examples(self):
        for seed, name in enumerate(("two_windows.rec", "subsurface.rec", "menu.rec", "scale.rec", "pointer.rec", "drag.rec", "hover.rec")):
            with self.subTest(name):
                self.doCleanups()
                self.setUp()
                self.serve(turns=150)
                player = Player(self.room, (EXAMPLES / name).read_text(encoding="utf-8").splitlines(), random.Random(seed))
                self.addCleanup(player.close)
                player.play()
                self.assertEqual(self.server.wait(PATIENCE), 0)
                served, _ = self.check()
                self.assertTrue(served)

    def test_each_turn_is_flushed(self):
        self.serve(turns=10_000)
        wait_for(lambda: b"\ntick 50\n" in (self.room / "recording").read_bytes(), "nothing is written")

    def test_equal_bytes_are_not_written(self):
        """A client that only syncs has its stores read again, and none of that is written."""
        self.serve(turns=100_000)
        rows = (EXAMPLES / "two_windows.rec").read_text(encoding="utf-8").splitlines()
        player = Player(self.room, rows, random.Random(5))
        self.addCleanup(player.close)
        player.play()
        before = self.is_taken(player.sent)
        for number in range(5):
            player.send(player.clients[0], SYNC + struct.pack("<I", 1000 + number))
            time.sleep(0.03)
        self.is_taken(player.sent)
        self.stop()
        _, rows = self.check()
        stores = [place for place, row in enumerate(rows) if row.startswith("store ")]
        self.assertTrue(stores)
        self.assertLess(stores[-1], before)
        self.assertGreater(max(place for place, row in enumerate(rows) if row.startswith("bytes ")), before)

    def numbered_anew(self, count, is_slow):
        """A client asks for so many registries, reads no answer, and then breaks the protocol, unless it is too slow before; others connect while
        its answers wait. Returns the lines."""
        self.serve(turns=1_000_000, has_rate=False)  # at a rate a program that isn't proved would take minutes for the flood
        ends = socket.socket(socket.AF_UNIX)
        self.addCleanup(ends.close)
        ends.connect(str(self.room / "server"))
        flood = b"".join(REGISTRY + struct.pack("<I", 2 + number) for number in range(count)) + NO_SUCH
        ends.sendall(flood)
        if is_slow:
            wait_for(lambda: "gone 1" in self.lines(), "it isn't slow")
        else:
            self.is_taken(len(flood))
        base = sum(len(it.split()[2]) // 2 for it in self.lines() if it.startswith("bytes "))
        rows = (EXAMPLES / "two_windows.rec").read_text(encoding="utf-8").splitlines()
        player = Player(self.room, rows, random.Random(6), before=1)
        self.addCleanup(player.close)
        player.play()
        self.is_taken(base + player.sent)
        ends.close()
        wait_for(lambda: "\nend 1 " in (self.room / "report").read_text(encoding="ascii"), "it isn't closed")
        self.stop()
        served, rows = self.check()
        self.assertTrue(served)
        said = (self.room / "report").read_text(encoding="ascii").splitlines()
        self.assertLess(said.index("client 2"), next(place for place, row in enumerate(said) if row.startswith("end 1 ")), said[:5])
        self.assertTrue(any(row.startswith("bytes 1 ") for row in rows[rows.index("connect", rows.index("connect") + 1) :]))
        return rows

    def test_one_that_broke_the_protocol_has_no_number(self):
        """Its bytes wait, and so it has its number still; one that connects then gets another, and in a replay the same."""
        self.assertFalse("gone 1" in self.numbered_anew(count=1_500, is_slow=False))

    def test_a_slow_one_is_gone(self):
        self.assertTrue("gone 1" in self.numbered_anew(count=6_000, is_slow=True))


if __name__ == "__main__":
    unittest.main()
