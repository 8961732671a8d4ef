"""The bridge between a client and the server: what is shown, rewritten, copied and refused."""
import itertools
import os
import pathlib
import random
import re
import struct
import sys
import threading
import unittest

sys.path.insert(0, str(pathlib.Path(__file__).resolve().parent))
from client import Client, Memory, Menu, Window  # pylint: disable=wrong-import-position
from rig import TOOLS, Rig, wait_for  # pylint: disable=wrong-import-position
from wlframe.wayland.table import GLOBALS, INTERFACES  # pylint: disable=wrong-import-position
from wlframe.wayland.wire import DISPLAY, message, spell  # pylint: disable=wrong-import-position
from wlframe.bridge import refusals  # pylint: disable=wrong-import-position
from wlframe.bridge import rewrites  # pylint: disable=wrong-import-position
from wlframe.bridge.own import FIRST_NAME, OWN  # pylint: disable=wrong-import-position

RED, GREEN, BLUE, BLACK = 0xFF0000, 0x00FF00, 0x0000FF, 0
OPAQUE = 0xFF000000


class WithRig(unittest.TestCase):
    """Tests that share a server and a bridge. Each has clients of its own, which are gone when it ends."""

    options, size, pointer = (), "64x48", ""

    @classmethod
    def setUpClass(cls):
        cls.rig = cls.enterClassContext(Rig(*cls.options, size=cls.size, pointer=cls.pointer, viewer=True))

    def client(self):
        return self.enterContext(Client(self.rig.wayland))


class Shown(WithRig):
    """What clients are shown in place of what the server has."""

    def test_globals(self):
        client = self.client()
        client.begin()
        versions = {name: version for name, (_, version) in client.globals.items()}
        offered = {name: INTERFACES[name].version for name in GLOBALS}
        own = {it.interface: it.version for it in OWN if it.needs != "viewer"}
        self.assertEqual(versions, {**offered, "wl_output": 3, "wl_seat": 7, **own})

    def events_of(self, interface, version):
        client = self.client()
        bound = client.bind(client.begin(), interface, version)
        client.round_trip()
        return [it for it in client.take() if f"#{bound}." in it]

    def test_seat(self):
        self.assertEqual(self.events_of("wl_seat", 7), ["wl_seat#4.capabilities(pointer+keyboard)", 'wl_seat#4.name("seat0")'])
        self.assertEqual(self.events_of("wl_seat", 1), ["wl_seat#4.capabilities(pointer+keyboard)"])

    def test_output(self):
        first = ['wl_output#4.geometry(0, 0, 0, 0, unknown, "wlframe", "framebuffer", normal)', "wl_output#4.mode(current+preferred, 64, 48, 0)"]
        self.assertEqual(self.events_of("wl_output", 3), [*first, "wl_output#4.scale(1)", "wl_output#4.done()"])
        self.assertEqual(self.events_of("wl_output", 1), first)

    def test_bind_before_the_globals_are_told(self):
        client = self.client()
        registry = client.put(DISPLAY, "get_registry")
        client.put(registry, "bind", 1, ("wl_compositor", 4, client.new()))
        client.flush()
        client.round_trip()

    def test_releases_are_swallowed(self):
        client = self.client()
        registry = client.begin()
        for interface, version in (("wl_seat", 5), ("wl_output", 3)):
            client.send(client.bind(registry, interface, version), "release")
        client.round_trip()
        self.assertFalse([it for it in client.take() if "error" in it])

    def test_clipboard_offers_nothing(self):
        client = self.client()
        registry = client.begin()
        manager, seat = client.bind(registry, "wl_data_device_manager", 3), client.bind(registry, "wl_seat", 5)
        device = client.send(manager, "get_data_device", seat)
        source = client.send(manager, "create_data_source")
        client.send(source, "offer", "text/plain")
        client.send(device, "set_selection", source, 1)
        for each in (source, device):
            client.send(each, "destroy" if each == source else "release")
            self.assertEqual(client.until("wl_display.delete_id").values, [each])
            client.take()
        # their ids are free again, for objects that the server knows too
        compositor = client.bind(registry, "wl_compositor", 4)
        client.last = device - 1
        self.assertEqual(client.send(compositor, "create_surface"), device)
        client.last = compositor
        client.round_trip()

    def test_pointer_that_nothing_moves(self):
        client = self.client()
        registry = client.begin()
        pointer = client.send(client.bind(registry, "wl_seat", 5), "get_pointer")
        cursor = client.send(client.bind(registry, "wl_compositor", 4), "create_surface")
        client.send(pointer, "set_cursor", 0, cursor, 0, 0)
        client.send(pointer, "set_cursor", 0, 0, 0, 0)
        client.send(pointer, "release")
        client.round_trip()
        self.assertFalse([it for it in client.take() if "error" in it or "wl_pointer" in it])

    def test_touch_is_refused(self):
        client = self.client()
        client.send(client.bind(client.begin(), "wl_seat", 5), "get_touch")
        self.assertIn("0 missing_capability", client.error())


class WithWindow(WithRig):
    """Tests of windows. Each has a client with one window, which shows its second buffer, all black; the others' are gone."""

    size, windows = "300x300", 0

    def setUp(self):
        frames = len(self.rig.frames())
        self.place = 32 * (self.windows % 8)  # where the server puts it
        type(self).windows += 1
        self.client = Client(self.rig.wayland)
        self.addCleanup(self.leave)
        self.window = Window(self.client, 20, 10)
        self.window.show(1)
        self.first = frames + 1
        self.rig.frame(self.first)
        self.files = f"{1 + self.windows}."  # the bridge's own connection was the first

    def leave(self):
        self.client.socket.close()
        wait_for(lambda: self.rig.ends() == 1 + self.windows, "the server doesn't end the client")
        self.rig.settle()  # a frame has shown that it is gone

    def expect(self, number, damaged, colours):
        """The frame of this number, from 1, has so many damaged points, and these colours, by points of the window."""
        found, picture = self.rig.frame(self.first + number)
        self.assertEqual(found, damaged)
        self.assertEqual({(x, y): picture[self.place + y][self.place + x] for x, y in colours}, colours)


class Windows(WithWindow):
    """What is seen of windows."""

    def test_window(self):
        window = self.window
        window.draw(0, OPAQUE | RED)
        window.show(0)
        self.expect(1, 200, {(0, 0): RED, (19, 9): RED, (20, 9): BLACK, (19, 10): BLACK})
        window.draw(1, OPAQUE | GREEN)
        window.show(1, "damage_buffer", (2, 3, 4, 5))
        self.expect(2, 20, {(2, 3): GREEN, (5, 7): GREEN, (1, 3): RED, (6, 7): RED})

    def test_damage_of_a_turned_buffer(self):
        window = self.window
        window.show(0)
        self.client.send(window.surface, "set_buffer_transform", 1)
        window.draw(0, OPAQUE | RED)
        window.show(0, "damage_buffer", (0, 0, 1, 1))
        # turned by a quarter it is 10 wide and 20 high; what it leaves is painted too
        self.expect(2, 300, {(9, 19): RED, (10, 0): BLACK})
        window.draw(0, OPAQUE | BLUE)
        window.show(0, "damage_buffer", (0, 0, 1, 1))
        # the buffer's first point is the last of the first row
        self.expect(3, 1, {(9, 0): BLUE, (8, 0): RED, (9, 1): RED})

    def test_scale(self):
        window = self.window
        self.client.send(window.surface, "set_buffer_scale", 2)
        window.draw(0, OPAQUE | RED)
        window.show(0, "damage_buffer")
        # its 20 by 10 pixels are 10 by 5 points; what it leaves is painted too
        self.expect(1, 200, {(9, 4): RED, (10, 4): BLACK, (9, 5): BLACK})
        window.draw(0, OPAQUE | GREEN)
        window.show(0, "damage_buffer", (3, 3, 2, 1))
        self.expect(2, 2, {(1, 1): GREEN, (2, 1): GREEN, (0, 1): RED, (3, 1): RED, (1, 0): RED})
        self.client.send(window.surface, "set_buffer_scale", 1)
        window.show(0)
        self.expect(3, 200, {(19, 9): GREEN})

    def test_menu_that_is_placed_anew(self):
        window, client = self.window, self.client
        window.draw(0, OPAQUE | RED)
        menu = Menu(window, 30, 0)
        menu.show(0)
        self.expect(1, 200, {(30, 0): RED, (49, 9): RED, (29, 0): BLACK})
        client.take()
        client.send(menu.popup, "reposition", menu.place(0, 20), 77)
        serial = client.until("xdg_surface.configure", menu.shell).values[0]
        popup, shell = f"xdg_popup#{menu.popup}", f"xdg_surface#{menu.shell}"
        self.assertEqual(client.take(), [f"{popup}.repositioned(77)", f"{popup}.configure(0, 20, 20, 10)", f"{shell}.configure({serial})"])
        window.draw(0, OPAQUE | GREEN)
        menu.show(0, "damage", (0, 0, 1, 1))
        self.expect(2, 1, {(30, 0): GREEN, (31, 0): RED, (0, 20): BLACK})  # it stands where it stood
        client.send(menu.shell, "ack_configure", serial)
        menu.show(0)
        self.expect(3, 400, {(0, 20): GREEN, (19, 29): GREEN, (30, 0): BLACK})

    def test_commit_without_attach_shows_what_was_drawn(self):
        window = self.window
        window.show(0)
        window.draw(0, OPAQUE | RED)
        self.client.put(window.surface, "damage", 0, 0, 20, 10)
        self.client.send(window.surface, "commit")
        self.expect(2, 200, {(0, 0): RED})

    def test_pool_that_grows(self):
        window = self.window
        window.show(0)
        os.ftruncate(window.memory.descriptor, 2400)
        os.pwrite(window.memory.descriptor, struct.pack("<I", OPAQUE | GREEN) * 200, 1600)
        self.client.send(window.pool, "resize", 2400)
        window.buffers.append(self.client.send(window.pool, "create_buffer", 1600, 20, 10, 80, 1))
        window.show(2)
        self.expect(2, 200, {(0, 0): GREEN, (19, 9): GREEN})

    def test_memory_that_is_shorter_than_its_pool(self):
        window = self.window
        memory = Memory(40)
        pool = self.client.send(window.shm, "create_pool", 800, descriptor=memory.descriptor)
        window.buffers.append(self.client.send(pool, "create_buffer", 0, 20, 10, 80, 1))
        memory.fill(0, 10, 1, OPAQUE | GREEN)
        window.show(2)
        self.expect(1, 200, {(9, 0): GREEN, (10, 0): BLACK})

    def test_rows_with_room_between(self):
        window = self.window
        buffer = self.client.send(window.pool, "create_buffer", 40, 5, 10, 80, 1)
        window.draw(0, OPAQUE | RED)
        window.buffers.append(buffer)
        window.show(2, "damage", (0, 0, 5, 10))
        self.expect(1, 200, {(4, 9): RED, (5, 9): BLACK})  # what it leaves is painted too

    def test_large_pool(self):
        begin = 100 << 20  # of a pool of 512 MB, which the server would refuse
        memory = Memory(512 << 20)
        pool = self.client.send(self.window.shm, "create_pool", 512 << 20, descriptor=memory.descriptor)
        memory.fill(begin, 20, 10, OPAQUE | BLUE)
        buffer = self.client.send(pool, "create_buffer", begin, 20, 10, 80, 1)
        self.window.buffers.append(buffer)
        self.window.show(2)
        self.expect(1, 200, {(0, 0): BLUE, (19, 9): BLUE})
        memory.fill(begin, 20, 10, OPAQUE | GREEN)
        self.window.show(2)
        self.expect(2, 200, {(0, 0): GREEN, (19, 9): GREEN})
        for each in (buffer, pool):
            self.client.take()
            self.client.send(each, "destroy")
            self.client.round_trip()
            self.assertEqual([it for it in self.client.take() if "delete_id" in it][0], f"wl_display#1.delete_id({each})")
            # its surface goes on showing what it was
            memory.fill(begin, 20, 10, OPAQUE | RED)
            self.client.put(self.window.surface, "damage", 0, 0, 20, 10)
            shown = self.client.put(self.window.surface, "frame")
            self.client.send(self.window.surface, "commit")
            self.client.until("wl_callback.done", shown)  # so that each has a frame of its own
        self.expect(4, 200, {(0, 0): GREEN, (19, 9): GREEN})

    def test_buffer_outside_of_a_large_pool(self):
        size = 128 << 20
        pool = self.client.send(self.window.shm, "create_pool", size, descriptor=Memory(size).descriptor)
        self.client.send(pool, "create_buffer", size - 799, 20, 10, 80, 1)
        self.assertIn(f"error(wl_shm_pool#{pool}, 1 invalid_stride", self.client.error())


class Copies(WithWindow):
    """What the server is given where all is copied."""

    options = ("--whole",)

    def stored(self, number=1):
        """What the server is given of a pool."""
        return (self.rig.pools / f"{self.files}{number}").read_bytes()

    def test_only_what_is_committed_is_copied(self):
        window = self.window
        window.draw(0, OPAQUE | RED)
        window.draw(1, OPAQUE | GREEN)
        window.show(0)
        self.assertEqual(self.stored(), struct.pack("<I", OPAQUE | RED) * 200 + bytes(800))
        window.show(1)
        self.assertEqual(self.stored(), struct.pack("<I", OPAQUE | RED) * 200 + struct.pack("<I", OPAQUE | GREEN) * 200)

    def test_what_a_pool_holds_when_it_is_made(self):
        window = self.window
        memory = Memory(800)
        memory.fill(0, 20, 10, OPAQUE | BLUE)
        self.client.send(window.shm, "create_pool", 800, descriptor=memory.descriptor)
        self.client.round_trip()
        self.assertEqual(self.stored(2), struct.pack("<I", OPAQUE | BLUE) * 200)

    def test_files_go_with_their_pools(self):
        window = self.window
        window.show(0)
        self.client.send(window.pool, "destroy")
        self.client.round_trip()
        self.assertTrue((self.rig.pools / f"{self.files}1").exists())
        for buffer in window.buffers:
            self.client.send(buffer, "destroy")
        self.client.round_trip()
        self.assertFalse((self.rig.pools / f"{self.files}1").exists())

    def test_large_pool_is_copied_by_buffers(self):
        begin = 100 << 20  # of a pool of 512 MB, which the server would refuse
        memory = Memory(512 << 20)
        pool = self.client.send(self.window.shm, "create_pool", 512 << 20, descriptor=memory.descriptor)
        memory.fill(begin, 20, 10, OPAQUE | BLUE)
        buffer = self.client.send(pool, "create_buffer", begin, 20, 10, 80, 1)
        self.window.buffers.append(buffer)
        self.window.show(2)
        self.assertEqual(self.stored(2), struct.pack("<I", OPAQUE | BLUE) * 200)
        for each in (buffer, pool):
            self.client.send(each, "destroy")
            self.client.round_trip()
            self.assertFalse((self.rig.pools / f"{self.files}2").exists())

    def test_each_pool_has_its_descriptor(self):
        sizes = [4 * (1 + at) for at in range(20)]
        for size in sizes:
            self.client.put(self.window.shm, "create_pool", size, descriptor=Memory(size).descriptor)
        self.client.flush()
        self.client.round_trip()
        self.assertEqual([len(self.stored(2 + at)) for at in range(20)], sizes)

    def test_files_are_for_their_user_alone(self):
        self.assertEqual((self.rig.pools / f"{self.files}1").stat().st_mode & 0o777, 0o600)
        self.assertFalse((self.rig.pools / f"{self.files}1").is_symlink())


class Pointed(WithRig):
    """What clients are told of the pointer: again and again it comes over their windows, is clicked there, moves, goes, and is clicked elsewhere."""

    LEFT, STEP = 272, 150  # the button, and the milliseconds from line to line
    AROUND = ("motion {} 3 2", "button {} 272 1", "button {} 272 0", "motion {} 4 2", "motion {} 60 40", "button {} 272 1", "button {} 272 0")
    pointer = "\n".join(line.format(at) for at, line in zip(range(0, 300_000, STEP), itertools.cycle(AROUND)))
    windows = 0

    def window(self, version):
        """A client with a window, which it moves to the output's corner, and with a wl_pointer of this version."""
        client = self.client()
        window = Window(client, 8, 8)
        place = 32 * (Pointed.windows % 8)  # where the server puts it
        Pointed.windows += 1
        client.put(window.surface, "attach", window.buffers[0], -place, -place)
        client.send(window.surface, "commit")
        window.seat = client.bind(window.registry, "wl_seat", version)
        window.pointer = client.send(window.seat, "get_pointer")
        self.addCleanup(self.leave, client, self.rig.ends())
        return client, window

    def leave(self, client, ended):
        client.socket.close()
        wait_for(lambda: self.rig.ends() > ended, "the server doesn't end the client")

    def released(self, client):
        """The serial of the first release that a client is told of."""
        while True:
            found = [said for said, _ in client.events if said.name == "wl_pointer.button"]
            if len(found) > 1:
                self.assertEqual([it.values[2:] for it in found], [[self.LEFT, 1], [self.LEFT, 0]])
                return found[1].values[0]
            client.receive()

    def told(self, version):
        """What a wl_pointer of this version is told from when it is entered on until it is entered again."""
        client, window = self.window(version)
        names = []
        while names.count("enter") < 3:
            client.receive()
            names = [said.message.name for said, _ in client.events if said.target == window.pointer]
        second, third = [at for at, name in enumerate(names) if name == "enter"][1:3]
        return names[second:third]

    def test_each_event_has_its_frame(self):
        plain = ["enter", "button", "button", "motion", "leave"]
        for version in (1, 4):
            self.assertEqual(self.told(version), plain)
        for version in (5, 7):
            self.assertEqual(self.told(version), [it for name in plain for it in (name, "frame")])

    def test_place_and_surface(self):
        client, window = self.window(5)
        client.until("wl_pointer.leave")
        client.take()
        self.assertEqual(client.until("wl_pointer.enter").values[1:], [window.surface, 3, 2])

    def test_pointer_that_is_released_is_told_nothing_more(self):
        client, window = self.window(5)
        other = client.send(window.seat, "get_pointer")
        client.until("wl_pointer.button", other)
        client.send(window.pointer, "release")
        client.round_trip()
        client.take()
        client.until("wl_pointer.leave", other)
        self.assertEqual([said.target for said, _ in client.events if said.name.startswith("wl_pointer.") and said.target != other], [])

    def test_menu_that_a_press_elsewhere_dismisses(self):
        client, window = self.window(7)
        serial = self.released(client)
        place = client.put(window.base, "create_positioner")
        client.put(place, "set_size", 8, 8)
        client.put(place, "set_anchor_rect", 0, 0, 8, 8)
        surface = client.put(window.compositor, "create_surface")
        shell = client.put(window.base, "get_xdg_surface", surface)
        menu = client.put(shell, "get_popup", window.shell, place)
        client.put(menu, "grab", window.seat, serial)
        client.send(surface, "commit")
        # without the grab it would be dismissed before it is configured
        client.send(shell, "ack_configure", client.until("xdg_surface.configure", shell).values[0])
        client.put(surface, "attach", window.buffers[1], 0, 0)
        client.send(surface, "commit")
        client.until("xdg_popup.popup_done", menu)


def random_value(argument, client, chance):
    """A value for an argument, which may be a bad one."""
    match argument.kind:
        case "string":
            return chance.choice(["", "wl_shm", "x" * 300])
        case "array":
            return bytes(chance.randrange(9))
        case "object":
            return chance.choice([0, *client.objects.by_id, 77])
        case "new_id":
            number = chance.choice([client.new(), client.new(), 0, 1, 0xFF000001])
            return number if argument.interface else (chance.choice(["wl_shm", "wl_seat", "none"]), chance.randrange(9), number)
        case "int":
            return chance.choice([0, 1, 4, 64, 4096, -1, 0x7FFFFFFF])
        case "uint":
            return chance.choice([0, 1, 2, 4, 6, FIRST_NAME + chance.randrange(8), 0xFFFFFFFF])


def put_random(client, chance):
    """Puts a request to some object of the client, or bytes that are none."""
    target = chance.choice([it for it in client.objects.by_id.values() if it.interface in INTERFACES])
    said = chance.choice(INTERFACES[target.interface].requests or INTERFACES["wl_region"].requests)
    data = message(target.number, said.opcode, spell(said, [random_value(it, client, chance) for it in said.arguments]))
    client.objects.asked(client.objects.read(data))
    client.waiting += data if chance.random() < 0.98 else data[: 4 * chance.randrange(3)]
    client.descriptors += [Memory(64).descriptor for it in said.arguments if it.kind == "fd" and chance.random() < 0.9]


class Streams(WithRig):
    """How bytes and descriptors come."""

    def test_byte_by_byte(self):
        client = self.client()
        registry = client.put(DISPLAY, "get_registry")
        client.put(registry, "bind", 1, ("wl_compositor", 4, client.new()))
        for byte in client.waiting:
            client.socket.sendall(bytes([byte]))
        client.waiting = b""
        client.round_trip()

    def test_long_message(self):
        client = self.client()
        window = Window(client, 4, 4)
        client.send(window.toplevel, "set_title", "x" * 60_000)
        client.round_trip()

    def test_many_descriptors_at_once(self):
        client = self.client()
        registry = client.begin()
        shm = client.bind(registry, "wl_shm", 1)
        for at in range(20):
            client.put(shm, "create_pool", 4 * (1 + at), descriptor=Memory(4 * (1 + at)).descriptor)
        client.flush()
        client.round_trip()
        self.assertFalse([it for it in client.take() if "error" in it])

    def test_several_clients(self):
        answered = []

        def ask():
            with Client(self.rig.wayland) as client:
                client.begin()
                for _ in range(20):
                    client.round_trip()
                answered.append(client)

        threads = [threading.Thread(target=ask) for _ in range(8)]
        for each in threads:
            each.start()
        for each in threads:
            each.join()
        self.assertEqual(len(answered), 8)

    def test_random_requests(self):
        """Whatever comes, only who sent it is ended, and the bridge has no fault of its own."""
        chance = random.Random(1)
        for _ in range(60):
            client = self.client()
            registry = client.begin()
            for interface in client.globals:
                client.bind(registry, interface, 1)
            for _ in range(20):
                put_random(client, chance)
            client.waiting += bytes(1000)  # more than a message that was cut waits for, and then no header
            client.flush()
            self.assertIn("error", client.error())
        self.assertNotIn("Traceback", self.rig.words())
        self.client().begin()

    def test_client_that_reads_late(self):
        client = self.client()
        for _ in range(3000):
            client.put(DISPLAY, "sync")
        client.flush()
        client.round_trip()
        self.assertEqual(len([it for it in client.take() if ".done(" in it]), 3001)


class Refused(WithRig):
    """The line that tells which request was refused."""

    def refused(self, ask):
        """What is said of a client that ask has refused, without who it was."""
        client = self.client()
        registry = client.begin()
        ask(client, registry)
        client.flush()
        client.error()
        line = wait_for(lambda: self.rig.words().splitlines()[self.said_before :], "nothing is said of it")[-1]
        self.said_before += 1
        self.assertRegex(line, r"^bridge: client \d+ \(python\S*, process \d+\) was (refused|ended by the bridge:)")
        return re.sub(r"^.*?was (refused|ended by the bridge:)", "", line)

    def setUp(self):
        self.said_before = len(self.rig.words().splitlines())

    def test_opcode_that_is_unknown(self):
        def ask(client, registry):
            client.waiting += message(client.bind(registry, "wl_seat", 5), 77)

        where = "wl_seat#4, opcode 77, of an opcode that wl_seat hasn't: 04000000 4d000800, at version 5 (1 for the server)"
        self.assertEqual(self.refused(ask), f" {where}: wl_display#1 error 1, invalid_method")

    def test_object_that_is_unknown(self):
        def ask(client, registry):
            client.waiting += message(99, 0)

        self.assertEqual(self.refused(ask), " #99, opcode 0, of an object that isn't known: 63000000 00000800: wl_display#1 error 0, invalid_object")

    def test_misspelled(self):
        def ask(client, registry):
            client.waiting += message(DISPLAY, 0)

        where = "wl_display#1.sync, misspelled: its bytes end within an argument: 01000000 00000800, at version 1"
        self.assertEqual(self.refused(ask), f" {where}: wl_display#1 error 1, invalid_method")

    def test_bad_header(self):
        def ask(client, registry):
            client.waiting += struct.pack("<II", DISPLAY, 4 << 16)

        where = "wl_display#1, opcode 0, whose size is 4: 01000000 00000400, at version 1"
        self.assertEqual(self.refused(ask), f" {where}: wl_display#1 error 1, invalid_method")

    def test_scale_of_none(self):
        def ask(client, registry):
            surface = client.put(client.bind(registry, "wl_compositor", 4), "create_surface")
            client.put(surface, "set_buffer_scale", 0)

        where = "wl_surface#5.set_buffer_scale(scale 0), at version 4"
        self.assertEqual(self.refused(ask), f" {where}: wl_surface#5 error 0, invalid_scale")

    def test_positioner_that_lacks_a_size(self):
        def ask(client, registry):
            menu = Menu(Window(client, 4, 4), 0, 0)
            client.round_trip()
            client.put(menu.popup, "reposition", client.put(menu.base, "create_positioner"), 1)

        where = "xdg_popup#19.reposition(positioner xdg_positioner#21, token 1), at version 3"
        self.assertEqual(self.refused(ask), f" {where}: xdg_wm_base#15 error 5, invalid_positioner")

    def test_buffer_that_the_scale_cuts(self):
        def ask(client, registry):
            window = Window(client, 5, 4)
            client.round_trip()
            client.put(window.surface, "set_buffer_scale", 2)
            client.put(window.surface, "attach", window.buffers[0], 0, 0)
            client.put(window.surface, "commit")

        self.assertEqual(self.refused(ask), " wl_surface#12.commit(), at version 4: wl_surface#12 error 2, invalid_size")

    def test_bind_of_a_later_version(self):
        def ask(client, registry):
            client.put(registry, "bind", 1, ("wl_compositor", 9, client.new()))

        where = "wl_registry#2.bind(name 1, id new wl_compositor#4 of version 9), at version 1"
        self.assertEqual(self.refused(ask), f" {where}: wl_display#1 error 0, invalid_object")

    def test_one_of_several(self):
        def ask(client, registry):
            pool = client.put(client.bind(registry, "wl_shm", 1), "create_pool", 64, descriptor=Memory(64).descriptor)
            client.put(pool, "create_buffer", 0, 4, 4, 16, 1)
            client.put(pool, "create_buffer", 4, 4, 4, 16, 0)

        first = "wl_shm_pool#5.create_buffer(id new wl_buffer#6, offset 0, width 4, height 4, stride 16, format xrgb8888)"
        self.assertEqual(self.refused(ask), f", likely, {first}, at version 1: wl_shm_pool#5 error 1, invalid_stride")

    def test_commit_of_another_surface(self):
        def ask(client, registry):
            window = Window(client, 4, 4)
            other = client.put(window.compositor, "create_surface")
            client.put(window.base, "get_xdg_surface", other)
            client.put(other, "attach", window.buffers[0], 0, 0)
            client.put(other, "commit")

        where = "wl_surface#15.commit(), at version 4"
        self.assertEqual(self.refused(ask), f" {where}: xdg_surface#16 error 3, unconfigured_buffer")

    def test_descriptor_that_is_missing(self):
        said = self.refused(lambda client, registry: client.put(client.bind(registry, "wl_shm", 1), "create_pool", 64))
        self.assertEqual(said, " wl_shm.create_pool without its descriptor (invalid_method)")

    def test_bad_request_of_an_own_object(self):
        def bad_source(client, registry):
            source = client.put(client.bind(registry, "wl_data_device_manager", 3), "create_data_source")
            client.waiting += message(source, 7)

        where = "wl_data_source#5, opcode 7, of an opcode that wl_data_source hasn't: 05000000 07000800"
        self.assertEqual(self.refused(bad_source), f" {where} (invalid_method)")


class Plain(WithRig):
    """Without rewritings all is as the server has it."""

    options = ("--plain",)

    def test_globals(self):
        client = self.client()
        client.begin()
        self.assertEqual({name: version for name, (_, version) in client.globals.items()}, {name: INTERFACES[name].version for name in GLOBALS})

    def test_capabilities(self):
        client = self.client()
        client.bind(client.begin(), "wl_seat", 1)
        self.assertEqual(client.until("wl_seat.capabilities").values, [1])


class Fullscreen(WithRig):
    options, size = ("--fullscreen",), "96x32"

    def test_configure(self):
        window = Window(self.client(), 96, 32)
        self.assertEqual(window.configure, [96, 32, struct.pack("<II", 4, 2)])
        window.draw(0, OPAQUE | RED)
        window.show(0)
        damaged, picture = self.rig.frame(1)
        self.assertEqual((damaged, picture[31][95]), (96 * 32, RED))

    def test_each_is_at_the_corner(self):
        for colour in range(1, 11):
            window = Window(self.client(), 96, 32)
            window.draw(0, OPAQUE | colour)
            before = len(self.rig.frames())
            window.show(0)
            _, picture = self.rig.frame(before + 1)
            self.assertEqual((picture[0][0], picture[31][95]), (colour, colour))


class States(WithRig):
    """Toplevels that ask for the whole output."""

    def test_asked_and_given_up(self):
        client = self.client()
        window = Window(client, 4, 4)
        self.assertEqual(window.configure, [0, 0, struct.pack("<I", 4)])
        asked = [
            ("set_maximized", "64, 48, [activated, maximized]"),
            ("set_fullscreen", "64, 48, [activated, fullscreen, maximized]"),
            ("unset_maximized", "64, 48, [activated, fullscreen]"),
            ("unset_fullscreen", "0, 0, [activated]"),
        ]
        for name, told in asked:
            client.take()
            client.send(window.toplevel, name, *([0] if name == "set_fullscreen" else []))
            client.until("xdg_surface.configure")
            self.assertIn(f"xdg_toplevel#{window.toplevel}.configure({told})", client.take())

    def test_place(self):
        """One that asks before it is mapped is shown at the output's corner, and others where the server shows them."""
        for colour, asks, sides, seen in ((1, False, (4, 4), (0, 3)), (2, False, (4, 4), (32, 35)), (3, True, (64, 48), (0, 47))):
            window = Window(self.client(), *sides)
            if asks:
                window.client.send(window.toplevel, "set_fullscreen", 0)
            window.draw(0, OPAQUE | colour)
            before = len(self.rig.frames())
            window.show(0)
            _, picture = self.rig.frame(before + 1)
            self.assertEqual([picture[it][it] for it in seen], [colour, colour])


class Told(WithRig):
    """What stands in the files that a bridge is asked to write."""

    options = ("--log", "log", "--trace", "trace", "--no-keyboard")

    def test_log_and_trace(self):
        with Client(self.rig.wayland) as client:
            client.bind(client.begin(), "wl_seat", 5)
            client.round_trip()
        with Client(self.rig.wayland) as client:
            client.send(client.bind(client.begin(), "wl_seat", 5), "get_touch")
            client.error()
        self.assertEqual(self.rig.end(), 0)
        log = (self.rig.room / "log").read_text(encoding="utf-8").splitlines()
        self.assertEqual([it for it in log if it.startswith("2 ")], ["2 binds wl_seat 5", "2 ended gone"])
        binds, refused, ended = [it for it in log if it.startswith("3 ")]
        self.assertEqual((binds, ended), ("3 binds wl_seat 5", "3 ended refused"))
        self.assertRegex(refused, r"^3 refused: was refused wl_seat#4\.get_touch\(id new wl_touch#5\), at version 5 \(1 for the server\)")
        trace = (self.rig.room / "trace").read_text(encoding="utf-8").splitlines()
        at = trace.index("client 2 -> wl_registry#2.bind(5, new wl_seat#4 of version 5)")
        self.assertEqual(trace[at + 1], "client 2    passed on as: wl_registry#2.bind(5, new wl_seat#4 of version 1)")
        self.assertIn('client 2    passed on as: wl_seat#4.capabilities(pointer); wl_seat#4.name("seat0")', trace)


class Table(unittest.TestCase):
    """The tables that the bridge is written by."""

    def test_docs_have_the_rewritings(self):
        text = (TOOLS.parent / "docs" / "BRIDGE.md").read_text(encoding="utf-8")
        self.assertIn(rewrites.in_markdown(), text)

    def test_rewritings_and_causes_name_messages(self):
        for each in rewrites.REWRITINGS:
            interface, name = each.of.split(".")
            self.assertIsNotNone(INTERFACES[interface].named(name) if each.kind == "request" else INTERFACES[interface].event_named(name), each.of)
        for (interface, error), causes in refusals.CAUSES.items():
            enums = INTERFACES["wl_shm" if interface == "wl_shm_pool" else interface].enums
            self.assertIn(error, enums["error"].values)
            for cause in causes.split():
                self.assertIsNotNone(INTERFACES[cause.split(".")[0]].named(cause.split(".")[1]), cause)


if __name__ == "__main__":
    unittest.main()
