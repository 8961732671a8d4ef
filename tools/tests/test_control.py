"""The bridge's own globals by which clients type, copy, look and point for others, over the real program; and the programs that use them, where installed."""
import os
import pathlib
import shutil
import socket
import struct
import subprocess
import sys
import unittest

sys.path.insert(0, str(pathlib.Path(__file__).resolve().parent))
from client import Client, Memory, Window  # pylint: disable=wrong-import-position
from rig import Rig, has_option, wait_for  # pylint: disable=wrong-import-position
from test_keys import NO_MODIFIERS, PLAIN, WHY_NOT, WithKeys, down  # pylint: disable=wrong-import-position
from wlframe import keys, xkb  # pylint: disable=wrong-import-position
from wlframe.bridge import own  # pylint: disable=wrong-import-position

TOOLS = pathlib.Path(__file__).resolve().parent.parent
RED, GREEN, OPAQUE = 0xFF0000, 0x00FF00, 0xFF000000
Q, W, SHIFT = 16, 17, 1


class Others(WithKeys):
    """A client that does something for others, without a window."""

    def controller(self, interface, version):
        """A client with a manager of this interface, and with a seat."""
        client = self.client()
        registry = client.begin()
        client.seat, client.output = client.bind(registry, "wl_seat", 7), client.bind(registry, "wl_output", 3)
        client.shm = client.bind(registry, "wl_shm", 1)
        manager = client.bind(registry, interface, version)
        client.registry = registry
        client.round_trip()
        client.take()
        return client, manager


class Typing(Others):
    """Virtual keyboards."""

    def typing(self, layout="fr"):
        client, manager = self.controller("zwp_virtual_keyboard_manager_v1", 1)
        made = client.send(manager, "create_virtual_keyboard", client.seat)
        text = xkb.Keymap.of_layout(layout).text().encode() + b"\0"
        memory = Memory(len(text))
        memory.bytes[:] = text
        client.send(made, "keymap", 1, len(text), descriptor=memory.descriptor)
        return client, made

    def test_types_with_its_own_keymap(self):
        one, window = self.window()
        self.told(one)
        client, made = self.typing()
        for state in (1, 0):
            client.put(made, "key", 5, Q, state)
        client.put(made, "modifiers", SHIFT, 0, 0, 0)
        client.put(made, "key", 6, W, 1)
        client.flush()
        client.round_trip()
        found = self.told(one)
        self.assertEqual([it[0] for it in found[:2]], ["keymap", "modifiers"])
        self.assertEqual(found[2:], [("key", Q, 1), ("key", Q, 0), ("modifiers", SHIFT, 0, 0, 0), ("key", W, 1)])
        client.send(made, "destroy")
        client.round_trip()
        self.assertEqual(self.told(one), [("key", W, 0), NO_MODIFIERS])
        self.keys.type("q")
        self.assertEqual([it[0] for it in self.told(one)], ["keymap", "modifiers", "key", "key"])

    def test_keys_of_one_that_left_go_up(self):
        one, _ = self.window()
        client, made = self.typing()
        client.send(made, "key", 5, Q, 1)
        client.round_trip()
        self.assertIn(("key", Q, 1), self.told(one))
        client.socket.close()
        one.until("wl_keyboard.key")
        self.assertIn(("key", Q, 0), self.told(one))

    def test_no_keymap(self):
        client, manager = self.controller("zwp_virtual_keyboard_manager_v1", 1)
        made = client.send(manager, "create_virtual_keyboard", client.seat)
        client.send(made, "key", 5, Q, 1)
        self.assertIn(f"zwp_virtual_keyboard_v1#{made}, 0 no_keymap", client.error())

    def test_bad_keymap(self):
        client, manager = self.controller("zwp_virtual_keyboard_manager_v1", 1)
        made = client.send(manager, "create_virtual_keyboard", client.seat)
        client.send(made, "keymap", 1, 64, descriptor=Memory(64).descriptor)
        self.assertIn("0 no_keymap", client.error())


class Controlling(Others):
    """Selections without the focus."""

    def test_selections(self):
        client, manager = self.controller("zwlr_data_control_manager_v1", 2)
        device = client.send(manager, "get_data_device", client.seat)
        client.round_trip()
        self.assertEqual([(said.name, *said.values) for said, _ in client.events if said.target == device][-1][0], "zwlr_data_control_device_v1.primary_selection")
        one, window = self.window()
        client.take()
        source = client.put(manager, "create_data_source")
        client.put(source, "offer", PLAIN)
        client.send(device, "set_selection", source)
        offer = one.until("wl_data_device.data_offer").values[0]
        taken, given = os.pipe()
        one.send(offer, "receive", PLAIN, descriptor=given)
        os.close(given)
        client.received.clear()
        client.until("zwlr_data_control_source_v1.send", source)
        with open(client.received.pop(), "wb") as stream:
            stream.write(b"copied")
        with open(taken, "rb") as stream:
            self.assertEqual(stream.read(), b"copied")
        self.keys.copy("by the test")
        client.until("zwlr_data_control_source_v1.cancelled", source)
        client.send(device, "destroy")
        client.round_trip()

    def test_primary_selection(self):
        one, window = self.window()
        manager = one.bind(window.registry, "zwp_primary_selection_device_manager_v1", 1)
        device = one.send(manager, "get_device", window.seat)
        source = one.put(manager, "create_source")
        one.put(source, "offer", PLAIN)
        one.send(device, "set_selection", source, one.until("wl_keyboard.enter").values[0])
        self.assertNotEqual(one.until("zwp_primary_selection_device_v1.selection", device).values, [0])
        one.send(source, "destroy")
        one.take()
        one.round_trip()
        self.assertEqual([said.values for said, _ in one.events if said.target == device], [[0]])

    def test_xdg_output(self):
        for version, told in ((1, ["logical_position", "logical_size", "done"]), (3, ["logical_position", "logical_size", "name", "description"])):
            client, manager = self.controller("zxdg_output_manager_v1", version)
            made = client.send(manager, "get_xdg_output", client.output)
            client.round_trip()
            self.assertEqual([said.message.name for said, _ in client.events if said.target == made], told)
            self.assertEqual(client.until("zxdg_output_v1.logical_size").values, [64, 48])
            self.assertEqual([said.name for said, _ in client.events if said.target == client.output], ["wl_output.done"] if version == 3 else [])
            # one that is asked for before the server tells of its wl_output is told of behind it
            client.take()
            output = client.new()
            client.put(client.registry, "bind", client.globals["wl_output"][0], ("wl_output", 3, output))
            made = client.send(manager, "get_xdg_output", output)
            client.round_trip()
            names = [said.message.name for said, _ in client.events if said.target in (output, made)]
            self.assertEqual(names, ["geometry", "mode", "scale", "done", *told, *(["done"] if version == 3 else [])])


class Hidden(WithKeys):
    """A bridge that shows no globals for control."""

    options = ("--no-control",)

    def test_globals(self):
        client = self.client()
        client.begin()
        self.assertFalse({it.interface for it in own.OWN if it.controls} & set(client.globals))
        self.assertIn("zxdg_output_manager_v1", client.globals)


class WithViewer(Others):
    """Tests with a bridge that is the server's viewer."""

    windows = 0  # that were shown

    @classmethod
    def setUpClass(cls):
        if WHY_NOT or not has_option("--viewer"):
            raise unittest.SkipTest(WHY_NOT or "the program has no --viewer")
        cls.rig = cls.enterClassContext(Rig("--keys", "keys", "--viewer", "viewer", "--view", "view", viewer=True))

    def at_corner(self, colour):
        """A client's window of 8 by 8, of one colour, at the output's corner."""
        client, window = self.window(shown=False)
        place = 32 * (type(self).windows % 8)  # where the server puts it
        type(self).windows += 1
        window.draw(0, OPAQUE | colour)
        client.put(window.surface, "attach", window.buffers[0], -place, -place)
        client.put(window.surface, "damage", 0, 0, 8, 8)
        shown = client.put(window.surface, "frame")
        client.send(window.surface, "commit")
        client.until("wl_callback.done", shown)
        return client, window


class Looker:
    """One who looks by the socket of a viewer."""

    def __init__(self, path):
        self.socket = socket.socket(socket.AF_UNIX)
        self.socket.settimeout(60)
        self.socket.connect(str(path))
        self.stream, self.pixels, self.size = b"", {}, None

    def __enter__(self):
        return self

    def __exit__(self, *_):
        self.socket.close()

    def send(self, line):
        self.socket.sendall(line.encode() + b"\n")

    def bytes(self, count):
        while len(self.stream) < count:
            piece = self.socket.recv(65536)
            if not piece:
                raise ConnectionError(self.stream)
            self.stream += piece
        found, self.stream = self.stream[:count], self.stream[count:]
        return found

    def line(self):
        found = b""
        while not found.endswith(b"\n"):
            found += self.bytes(1)
        return found.decode().rstrip("\n")

    def until(self, begin):
        """Takes what is told up to a line that begins so."""
        while True:
            line = self.line()
            if line.startswith("frame "):
                for _ in range(int(line.split()[2])):
                    x, y, width = struct.unpack("<III", self.bytes(12))
                    row = self.bytes(4 * width)
                    self.pixels |= {(x + at, y): row[4 * at : 4 * at + 4] for at in range(width)}
            if line.startswith(begin):
                return line


class Looking(WithViewer):
    """Pictures and the pointer."""

    def shot(self, client, manager, request="copy", region=None):
        """A picture that a client takes: how it ended, its pixels as rows of 0xrrggbb, and what was told of it."""
        frame = client.send(manager, *(["capture_output_region", 0, client.output, *region] if region else ["capture_output", 0, client.output]))
        form, width, height, stride = client.until("zwlr_screencopy_frame_v1.buffer", frame).values
        self.assertEqual((form, stride), (1, 4 * width))
        memory = Memory(stride * height)
        pool = client.send(client.shm, "create_pool", stride * height, descriptor=memory.descriptor)
        buffer = client.send(pool, "create_buffer", 0, width, height, stride, form)
        client.send(frame, request, buffer)
        client.until("zwlr_screencopy_frame_v1.ready", frame)
        words = struct.unpack(f"<{width * height}I", memory.bytes[:])
        told = [(said.message.name, *said.values) for said, _ in client.events if said.target == frame]
        client.take()
        return [[it & 0xFFFFFF for it in words[y * width : (y + 1) * width]] for y in range(height)], told

    def test_pictures(self):
        one, window = self.at_corner(RED)
        client, manager = self.controller("zwlr_screencopy_manager_v1", 3)
        picture, told = self.shot(client, manager)
        self.assertEqual((len(picture), len(picture[0])), (48, 64))
        self.assertEqual([picture[y][x] for x, y in ((0, 0), (7, 7), (8, 7), (7, 8))], [RED, RED, 0, 0])
        self.assertEqual([it[0] for it in told], ["buffer", "buffer_done", "flags", "ready"])
        picture, _ = self.shot(client, manager, region=(6, 5, 100, 4))
        self.assertEqual((len(picture), len(picture[0]), picture[0][:3], picture[3][:3]), (4, 58, [RED, RED, 0], [0, 0, 0]))
        _, told = self.shot(client, manager, "copy_with_damage")
        self.assertIn(("damage", 0, 0, 64, 48), told)
        # it waits for the next that differs
        frame = client.send(manager, "capture_output", 0, client.output)
        client.round_trip()
        memory = Memory(64 * 48 * 4)
        pool = client.send(client.shm, "create_pool", 64 * 48 * 4, descriptor=memory.descriptor)
        client.send(frame, "copy_with_damage", client.send(pool, "create_buffer", 0, 64, 48, 256, 0))
        client.round_trip()
        self.assertFalse([said for said, _ in client.events if said.name == "zwlr_screencopy_frame_v1.ready"])
        window.draw(1, OPAQUE | GREEN)
        one.put(window.surface, "attach", window.buffers[1], 0, 0)
        one.put(window.surface, "damage", 2, 3, 4, 5)
        one.send(window.surface, "commit")
        client.until("zwlr_screencopy_frame_v1.ready", frame)
        self.assertEqual(client.until("zwlr_screencopy_frame_v1.damage", frame).values, [2, 3, 4, 5])
        self.assertEqual(memory.bytes[256 * 3 + 4 * 2 : 256 * 3 + 4 * 3], b"\x00\xff\x00\xff")

    def test_bad_pictures(self):
        for region, size, twice, error in ((None, 64, True, "0 already_used"), (None, 32, False, "1 invalid_buffer"), ((70, 0, 9, 9), 0, False, None)):
            client, manager = self.controller("zwlr_screencopy_manager_v1", 3)
            if region:
                frame = client.send(manager, "capture_output_region", 0, client.output, *region)
                client.until("zwlr_screencopy_frame_v1.failed", frame)
                continue
            frame = client.send(manager, "capture_output", 0, client.output)
            pool = client.send(client.shm, "create_pool", 64 * 48 * 4, descriptor=Memory(64 * 48 * 4).descriptor)
            buffer = client.send(pool, "create_buffer", 0, size, 48, 4 * size, 0)
            for _ in range(2 if twice else 1):
                client.put(frame, "copy", buffer)
            client.flush()
            self.assertIn(f"zwlr_screencopy_frame_v1#{frame}, {error}", client.error())

    def test_pointer(self):
        one, window = self.at_corner(RED)
        one.send(window.seat, "get_pointer")
        one.round_trip()
        client, manager = self.controller("zwlr_virtual_pointer_manager_v1", 2)
        made = client.send(manager, "create_virtual_pointer", client.seat)
        client.put(made, "motion_absolute", 0, 5, 5, 64, 48)
        client.put(made, "frame")
        client.put(made, "button", 0, 272, 1)
        client.flush()
        self.assertEqual(one.until("wl_pointer.enter").values[1:], [window.surface, 5, 5])
        self.assertEqual(one.until("wl_pointer.button").values[2:], [272, 1])
        client.put(made, "motion", 0, -2, 1)
        client.flush()
        self.assertEqual(one.until("wl_pointer.motion").values[1:], [3, 6])
        one.take()
        client.send(made, "destroy")  # its button goes up
        self.assertEqual(one.until("wl_pointer.button").values[2:], [272, 0])

    def test_viewers(self):
        one, window = self.at_corner(RED)
        with Looker(self.rig.room / "view") as first, Looker(self.rig.room / "view") as second:
            for each in (first, second):
                self.assertEqual(each.until("wlframe"), "wlframe 1 64 48")
                each.send("sync 7")
                self.assertRegex(each.until("synced"), r"synced 7 \d+")
                self.assertEqual((len(each.pixels), each.pixels[7, 7], each.pixels[8, 8]), (64 * 48, b"\x00\x00\xff\xff", b"\x00\x00\x00\xff"))
            one.send(window.seat, "get_pointer")
            one.round_trip()
            first.send("motion 4 4")
            first.send("button 272 1")
            first.send("sync 8")
            first.until("synced 8")
            self.assertEqual(one.until("wl_pointer.button").values[2:], [272, 1])
            one.take()
            first.socket.close()
            self.assertEqual(one.until("wl_pointer.button").values[2:], [272, 0])
            second.send("hello")
            second.until("bad line")


@unittest.skipIf(WHY_NOT, WHY_NOT)
class Programs(WithKeys):
    """Programs that people have, where they are installed."""

    def run_program(self, *words, **more):
        if not shutil.which(words[0]):
            self.skipTest(f"{words[0]} isn't installed")
        environment = {**os.environ, "XDG_RUNTIME_DIR": str(self.rig.room), "WAYLAND_DISPLAY": "wayland"}
        return subprocess.run(words, env=environment, capture_output=True, text=True, timeout=60, check=True, **more).stdout

    def test_wtype(self):
        one, _ = self.window()
        self.told(one)
        self.run_program("wtype", "-d", "1", "né")
        found = self.told(one)
        self.assertEqual([it[0] for it in found if it[0] in ("key", "keymap")], ["keymap", *["key"] * 4])

    def test_wl_clipboard(self):
        self.keys.copy("by the test")
        self.assertEqual(self.run_program("wl-paste", "-n"), "by the test")
        self.assertIn("text/plain", self.run_program("wl-paste", "-l").split())
        copying = subprocess.Popen(["wl-copy", "-f", "né"], env={**os.environ, "XDG_RUNTIME_DIR": str(self.rig.room), "WAYLAND_DISPLAY": "wayland"})
        self.addCleanup(copying.wait)
        self.addCleanup(copying.kill)
        wait_for(lambda: self.keys.clipboard == "né", "wl-copy copies nothing")


class Pictures(WithViewer):
    """A program that takes pictures, where it is installed."""

    run_program = Programs.run_program

    def test_grim(self):
        self.at_corner(RED)
        self.run_program("grim", "-t", "ppm", str(self.rig.room / "shot.ppm"))
        shot, head = (self.rig.room / "shot.ppm").read_bytes(), b"P6\n64 48\n255\n"
        self.assertTrue(shot.startswith(head))
        self.assertEqual((shot[len(head) :][:24], shot[len(head) :][24:27], len(shot)), (b"\xff\x00\x00" * 8, bytes(3), len(head) + 64 * 48 * 3))
        self.assertTrue((self.rig.room / "frames.ppm").read_bytes().endswith(shot))


class Docs(unittest.TestCase):
    def test_docs_have_the_globals(self):
        text = (TOOLS.parent / "docs" / "BRIDGE.md").read_text(encoding="utf-8")
        self.assertTrue(own.in_markdown() in text, "own.in_markdown() makes the table")


if __name__ == "__main__":
    unittest.main()
