"""Files `n.r` of any bytes, before the real program: it reads the ranges that they name, and goes on."""
import pathlib
import random
import struct
import sys
import unittest

sys.path.insert(0, str(pathlib.Path(__file__).resolve().parent))
from client import Client  # pylint: disable=wrong-import-position
from rig import Rig  # pylint: disable=wrong-import-position
from wlframe.wayland.wire import DISPLAY  # pylint: disable=wrong-import-position

SIDE = 8  # of the buffer, in pixels
SIZE = 4 * SIDE * SIDE  # bytes of the pool
COLOURS = 0xFF0000, 0x00FF00, 0x0000FF
NUMBERS = 0, 1, 2, 7, 16, 200, SIZE - 1, SIZE, SIZE + 1, 2**31, 2**32 - 1, 2**32, 10**30


class Window:
    """A client of the server itself, without a bridge, that shows one buffer. It puts bytes into its side files as it likes."""

    def __init__(self, rig):
        self.rig, self.client = rig, Client(rig.room / "server")
        client, registry = self.client, self.client.send(DISPLAY, "get_registry")
        self.sync()
        found = {said.values[1]: said.values[0] for said, _ in client.events if said.name == "wl_registry.global"}
        compositor, shm, base = (self.bound(registry, found, *it) for it in (("wl_compositor", 4), ("wl_shm", 1), ("xdg_wm_base", 1)))
        self.surface = client.put(compositor, "create_surface")
        self.shell = client.put(base, "get_xdg_surface", self.surface)
        client.put(self.shell, "get_toplevel")
        client.put(self.surface, "commit")
        pool = client.put(shm, "create_pool", SIZE)
        self.buffer = client.put(pool, "create_buffer", 0, SIDE, SIDE, 4 * SIDE, 1)
        client.flush()
        client.put(self.shell, "ack_configure", client.until("xdg_surface.configure", self.shell).values[0])

    def bound(self, registry, found, interface, version):
        number = self.client.new()
        self.client.put(registry, "bind", found[interface], (interface, version, number))
        return number

    def sync(self):
        done = self.client.send(DISPLAY, "sync")
        self.client.until("wl_callback.done", done)
        self.client.events = [it for it in self.client.events if it[0].name != "wl_callback.done"]

    def fill(self, colour):
        """Each pixel of the side file has this colour."""
        (self.rig.pools / "1.1").write_bytes(struct.pack("<I", colour) * (SIDE * SIDE))

    def tell(self, text):
        """The list of ranges has these bytes. None takes it away."""
        if text is None:
            (self.rig.pools / "1.r").unlink(missing_ok=True)
        else:
            (self.rig.pools / "1.r.new").write_bytes(text)
            (self.rig.pools / "1.r.new").rename(self.rig.pools / "1.r")

    def show(self):
        """The surface is painted anew, and its pixels are those that the server has then."""
        self.client.put(self.surface, "attach", self.buffer, 0, 0)
        self.client.put(self.surface, "damage", 0, 0, SIDE, SIDE)
        self.client.put(self.surface, "commit")
        before = len(self.rig.frames())
        self.sync()
        self.sync()
        pixels = self.rig.frame(before + 1)[1]
        return [pixel for row in pixels[:SIDE] for pixel in row[:SIDE]]


class Lists(unittest.TestCase):
    def setUp(self):
        self.rig = self.enterContext(Rig(bridge=False, size="16x16"))
        self.window = Window(self.rig)
        self.addCleanup(self.window.client.socket.close)

    def shown(self, text, colour):
        """What is shown with this list, where all of the side file has a colour."""
        self.window.fill(colour)
        self.window.tell(text)
        return self.window.show()

    def test_ranges_of_a_window(self):
        red, green, blue = COLOURS
        self.assertEqual(self.shown(None, red), [red] * 64)
        self.assertEqual(self.shown(b"", green), [red] * 64)
        self.assertEqual(self.shown(b"1 8 8 0\n1 32 4 252\n", green), [red] * 2 + [green] * 2 + [red] * 4 + [green] + [red] * 55)
        self.assertEqual(self.shown(b"1 0 4 0\n1 0 256 0\n", blue), [blue] + [red] + [green] * 2 + [red] * 4 + [green] + [red] * 55)
        self.assertEqual(self.shown(b"1 244 999 0\n2 0 4 0\n", blue)[-4:], [red] + [blue] * 3)
        self.assertEqual(self.shown(b"1 0 256 248\n", red)[:4], [red, red, green, green])
        self.assertEqual(self.shown(None, blue), [blue] * 64)

    def test_any_bytes(self):
        chance = random.Random(1)
        for _ in range(200):
            self.window.tell(random_list(chance))
            self.window.sync()
        self.assertIsNone(self.rig.server.poll())
        self.assertEqual(self.shown(None, COLOURS[0]), [COLOURS[0]] * 64)

    def test_no_file(self):
        (self.rig.pools / "1.r").mkdir()
        self.assertEqual(self.window.show(), [0] * 64)
        (self.rig.pools / "1.r").rmdir()
        self.assertEqual(self.shown(b"1 0 256 0\n", COLOURS[1]), [COLOURS[1]] * 64)


def random_list(chance):
    """Bytes of a list: lines that rise, lines that needn't, some bytes of either changed, or no lines at all."""
    kind = chance.randrange(5)
    if kind == 0:
        return chance.randbytes(chance.randrange(10000))
    if kind == 1:
        return b"".join(b"1 %d 1 %d\n" % (at, chance.choice(NUMBERS)) for at in range(chance.choice([10, 300, 4095, 4097, 30000])))
    text = b"".join(b" ".join(b"%d" % chance.choice(NUMBERS) for _ in range(4)) + b"\n" for _ in range(chance.randrange(50)))
    if kind == 2:
        return text
    changed = bytearray(text + bytes(1))
    for _ in range(chance.randrange(4)):
        changed[chance.randrange(len(changed))] = chance.choice(b"0 \n-x\0\xff")
    return bytes(changed) * chance.choice([1, 1, 50])


if __name__ == "__main__":
    unittest.main()
