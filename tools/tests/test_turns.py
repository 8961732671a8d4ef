"""The bridge between a random client and a server of a few lines, which both take their time: what the server has read is what was committed.

    python3 tools/tests/test_turns.py --commits 10000 --seed 1      plays that many in each way

The server takes turns as the real one does: it takes some of what came, reads the side files of a client that sent something, and looks then whether the
buffers that are shown hold what was committed. The client draws what it likes into buffers that it has back, and tells but what it has to.
"""
import argparse
import os
import pathlib
import random
import struct
import sys
import tempfile
import types
import unittest

sys.path.insert(0, str(pathlib.Path(__file__).resolve().parent))
import client as tests_client  # pylint: disable=wrong-import-position
from wlframe.bridge.client import Client as Bridged  # pylint: disable=wrong-import-position
from wlframe.bridge.client import display_event  # pylint: disable=wrong-import-position
from wlframe.bridge.seat import Seat  # pylint: disable=wrong-import-position
from wlframe.bridge.links import LINES, quick_folder  # pylint: disable=wrong-import-position
from wlframe.wayland.objects import Objects, cut  # pylint: disable=wrong-import-position
from wlframe.wayland.table import INTERFACES  # pylint: disable=wrong-import-position
from wlframe.wayland.wire import DISPLAY, HEADER, header, message, spell  # pylint: disable=wrong-import-position

NUMBER = 7  # of the connection
SIDES = ((4, 6), (6, 4), (4, 12))  # of buffers
MEMORY = "/dev/shm"  # where a file is made at once
LARGE = 65 << 20  # bytes of a pool that the server isn't told of
OFFERED = {1: ("wl_compositor", 4), 2: ("wl_shm", 1)}


def event(target, interface, name, *values):
    said = INTERFACES[interface].event_named(name)
    return message(target, said.opcode, spell(said, values))


class Server:
    """What a server does with one client: its stores, buffers and surfaces, and what it has read."""

    def __init__(self, folder, chance):
        self.folder, self.chance = folder, chance
        self.objects, self.stream, self.events = Objects(), bytearray(), bytearray()
        self.stores, self.uses = {}, {}  # by number: the bytes, and how many objects it has
        self.pools, self.buffers, self.surfaces = {}, {}, {}
        self.read = 0

    def turn(self, check):
        """Takes some of the messages that came, reads side files, and has the surfaces looked at."""
        found = []
        for _ in range(self.chance.choice([1, 3, 1000])):
            if len(self.stream) < HEADER or len(self.stream) < header(self.stream)[2]:
                break
            size = header(self.stream)[2]
            found.append(bytes(self.stream[:size]))
            del self.stream[:size]
        for each in found:
            self.take(self.objects.read(each))
        if found:
            self.fill()
            for surface in self.surfaces.values():
                if surface.shown:
                    check(surface, self.content(surface.shown))

    def take(self, said):
        assert said.values is not None, self.objects.in_words(said)
        self.objects.asked(said)
        match said.name, said.values:
            case "wl_display.sync", [callback]:
                self.events += event(callback, "wl_callback", "done", 0)
                self.give_back(callback)
            case "wl_shm.create_pool", [pool, _, size]:
                self.pools[pool] = number = len(self.stores) + 1
                self.stores[number], self.uses[number] = bytearray(size), 1
            case "wl_shm_pool.create_buffer", [made, *layout, _]:
                number = self.pools[said.target]
                self.buffers[made] = types.SimpleNamespace(id=made, store=number, layout=layout)
                self.uses[number] += 1
            case "wl_shm_pool.resize", [size]:
                store = self.stores[self.pools[said.target]]
                store.extend(bytes(size - len(store)))
            case "wl_shm_pool.destroy", _:
                self.uses[self.pools.pop(said.target)] -= 1
                self.give_back(said.target)
            case "wl_buffer.destroy", _:
                self.uses[self.buffers.pop(said.target).store] -= 1
                self.give_back(said.target)
            case "wl_compositor.create_surface", [made]:
                self.surfaces[made] = types.SimpleNamespace(id=made, shown=None, pending=None, commits=0)
            case "wl_surface.attach", [buffer, _, _]:
                self.surfaces[said.target].pending = (self.buffers.get(buffer),)
            case "wl_surface.commit", _:
                self.commit(self.surfaces[said.target])

    def commit(self, surface):
        surface.commits += 1
        if surface.pending:
            old, surface.shown, surface.pending = surface.shown, surface.pending[0], None
            if old and old is not surface.shown:
                self.events += event(old.id, "wl_buffer", "release")

    def give_back(self, number):
        self.events += display_event("delete_id", number)

    def fill(self):
        """Reads what the client's side files have."""
        live = [it for it in self.stores if self.uses[it] > 0]
        try:
            lines = (self.folder / f"{NUMBER}.r").read_text(encoding="ascii").splitlines()
        except FileNotFoundError:
            for number in live:
                self.put(number, 0, len(self.stores[number]), 0)
            return
        assert len(lines) <= LINES
        for number, at, size, begin in (map(int, it.split(" ")) for it in lines):
            if number in live:
                self.put(number, at, size, begin)

    def put(self, number, at, size, begin):
        store = self.stores[number]
        try:
            with open(self.folder / f"{NUMBER}.{number}", "rb") as stream:
                stream.seek(begin)
                data = stream.read(min(size, len(store) - at))
        except FileNotFoundError:
            return
        store[at : at + len(data)] = data
        self.read += len(data)

    def content(self, buffer):
        """The rows that a buffer has in its store."""
        at, width, height, stride = buffer.layout
        store = self.stores[buffer.store]
        return [bytes(store[at + stride * row : at + stride * row + 4 * width]) for row in range(height)]


class Drawer(tests_client.Client):
    """A client without a socket: what it asks is taken by take_bytes."""

    def __init__(self):  # pylint: disable=super-init-not-called
        self.objects, self.last, self.waiting, self.descriptors = Objects(), DISPLAY, b"", []
        self.free_ids, self.stream = [], bytearray()

    def new(self):
        return self.free_ids.pop() if self.free_ids else super().new()

    def take_bytes(self):
        data, descriptors = self.waiting, self.descriptors
        self.waiting, self.descriptors = b"", []
        return data, [os.dup(it) for it in descriptors]


class Play:
    """A random play in one of the ways."""

    def __init__(self, way, seed, folder):
        self.chance, self.way = random.Random(seed), way
        settings = types.SimpleNamespace(
            dir=folder, plain=False, output=(1, 1), fullscreen=False, log=None, trace=None, offered=OFFERED, way=way, files=512, space=1 << 30, seat=Seat(None, False, None)
        )
        settings.quick = self.quick = quick_folder()
        self.bridge, self.server, self.drawer = Bridged(NUMBER, settings, print), Server(folder, self.chance), Drawer()
        self.to_bridge, self.to_drawer = bytearray(), bytearray()  # what is on its way
        registry = self.drawer.put(DISPLAY, "get_registry")
        made = [self.drawer.new(), self.drawer.new()]
        for name, number in zip(OFFERED, made):
            self.drawer.put(registry, "bind", name, (*OFFERED[name], number))
        self.shm = made[1]
        self.surfaces = [types.SimpleNamespace(id=self.drawer.put(made[0], "create_surface"), rows=None, scale=1, told=[]) for _ in range(3)]
        self.pools, self.buffers, self.commits = [], [], 0

    def pool(self):
        """A pool for a new buffer."""
        chance = self.chance
        if len(self.pools) > 3 and chance.random() < 0.3:
            self.drawer.put(self.pools.pop(chance.randrange(len(self.pools))).id, "destroy")
        if not self.pools or len(self.pools) < 4 and chance.random() < 0.3:
            size = LARGE if chance.random() < 0.2 else 4096
            memory = tests_client.Memory.__new__(tests_client.Memory)
            memory.descriptor = os.memfd_create("pool")
            os.ftruncate(memory.descriptor, size)
            made = self.drawer.put(self.shm, "create_pool", size, descriptor=memory.descriptor)
            self.pools.append(types.SimpleNamespace(id=made, memory=memory.descriptor, size=size, used=chance.choice([0, 1000])))
        return chance.choice(self.pools)

    def buffer(self, sides):
        """A free buffer of these sides, or a new one, which may lie on others' bytes where these are free."""
        chance, found = self.chance, [it for it in self.buffers if it.is_free and it.sides == sides]
        if found and (chance.random() < 0.8 or len(self.buffers) > 12):
            return chance.choice(found)
        idle = [it for it in self.buffers if it.is_free]
        if idle and len(self.buffers) > 8:
            gone = chance.choice(idle)
            self.buffers.remove(gone)
            self.drawer.put(gone.id, "destroy")
            idle.remove(gone)
        (width, height), gap = sides, chance.choice([0, 0, 8])
        shared = [it for it in idle if it.stride >= 4 * width + gap and it.end - it.at >= it.stride * height and it.pool in self.pools]
        if shared and chance.random() < 0.7:
            other = chance.choice(shared)
            pool, at, stride = other.pool, other.at, other.stride
        else:
            pool, stride = self.pool(), 4 * width + gap
            if pool.used + stride * height > pool.size:
                pool.size += 4096
                os.ftruncate(pool.memory, pool.size)
                self.drawer.put(pool.id, "resize", pool.size)
            at, pool.used = pool.used, pool.used + stride * height
        made = self.drawer.put(pool.id, "create_buffer", at, width, height, stride, 1)
        self.buffers.append(types.SimpleNamespace(id=made, pool=pool, memory=pool.memory, at=at, stride=stride, end=at + stride * height, sides=sides, is_free=True))
        return self.buffers[-1]

    def write(self, buffer, rows):
        for at, row in enumerate(rows):
            os.pwrite(buffer.memory, struct.pack(f"<{len(row)}I", *row), buffer.at + at * buffer.stride)

    def scribble(self):
        """Draws anything into free buffers, where no other buffer on the same bytes is in use."""
        for each in self.buffers:
            if each.is_free and not self.is_held(each) and self.chance.random() < 0.3:
                self.write(each, [[self.chance.randrange(1 << 32)] * each.sides[0] for _ in range(each.sides[1])])

    def is_held(self, buffer):
        """Whether a buffer that the server has shares bytes with it."""
        return any(not it.is_free and it.memory == buffer.memory and it.at < buffer.end and buffer.at < it.end for it in self.buffers)

    def commit(self):
        chance, surface = self.chance, self.chance.choice(self.surfaces)
        self.commits += 1
        if surface.rows and chance.random() < 0.03:
            self.drawer.put(surface.id, "attach", 0, 0, 0)
            self.drawer.put(surface.id, "commit")
            surface.rows = None
            surface.told.append(None)
            return
        had = (len(surface.rows[0]), len(surface.rows)) if surface.rows else None
        buffer = self.buffer(had if had and chance.random() < 0.9 else chance.choice(SIDES))
        if self.is_held(buffer):
            surface.told.append(surface.told[-1] if surface.told else None)
            self.drawer.put(surface.id, "commit")
            return
        is_new = buffer.sides != had
        if chance.random() < 0.05:
            surface.scale, is_new = chance.choice([1, 2]), True
            self.drawer.put(surface.id, "set_buffer_scale", surface.scale)
        width, height = buffer.sides
        surface.rows = [list(row) for row in surface.rows] if not is_new else [[chance.randrange(1 << 32) for _ in range(width)] for _ in range(height)]
        for _ in range(0 if is_new else chance.choice([0, 1, 1, 2])):
            self.change(surface, width, height)
        self.drawer.put(surface.id, "attach", buffer.id, 0, 0)
        if is_new:
            self.drawer.put(surface.id, "damage", 0, 0, 2**31 - 1, 2**31 - 1)
        self.write(buffer, surface.rows)
        buffer.is_free = False
        surface.told.append([struct.pack(f"<{width}I", *row) for row in surface.rows])
        self.drawer.put(surface.id, "commit")

    def change(self, surface, width, height):
        """Changes a rectangle of what a surface shows, and tells of it."""
        chance, scale = self.chance, surface.scale
        x, y = chance.randrange(width // scale), chance.randrange(height // scale)
        wide, high = chance.randrange(1, 1 + width // scale - x), chance.randrange(1, 1 + height // scale - y)
        for row in surface.rows[scale * y : scale * (y + high)]:
            row[scale * x : scale * (x + wide)] = [chance.randrange(1 << 32) for _ in range(scale * wide)]
        how = chance.choice(["damage", "damage_buffer"])
        factor = scale if how == "damage_buffer" else 1
        self.drawer.put(surface.id, how, factor * x, factor * y, factor * wide, factor * high)

    def tell(self, data):
        """The client hears of events."""
        self.drawer.stream += data
        for each in cut(self.drawer.stream):
            said = self.drawer.objects.read(each, "events")
            self.drawer.objects.told(said)
            if said.name == "wl_display.delete_id":
                assert said.values[0] < 0xFE000000
                self.drawer.free_ids.append(said.values[0])
            elif said.name == "wl_buffer.release":
                for buffer in [it for it in self.buffers if it.id == said.target]:
                    buffer.is_free = True
            else:
                assert said.name != "wl_display.error", said.values

    def check(self, shown, content):
        told = next(it.told for it in self.surfaces if it.id == shown.id)
        assert content == told[shown.commits - 1], (self.way, self.commits, shown.id, content, told[shown.commits - 1])

    def step(self):
        """Something goes on, somewhere."""
        chance = self.chance
        match chance.randrange(6):
            case 0:
                for _ in range(chance.choice([1, 1, 3])):
                    self.commit()
                self.bridge.requests(*self.drawer.take_bytes())
            case 1:
                self.scribble()
            case 2:
                count = chance.choice([1, 100, len(self.bridge.to_server)])
                self.server.stream += self.bridge.to_server[:count]
                del self.bridge.to_server[:count]
            case 3:
                self.server.turn(self.check)
            case 4:
                count = chance.choice([4, 30, len(self.server.events)])
                self.bridge.events(bytes(self.server.events[:count]))
                del self.server.events[:count]
            case 5:
                count = chance.choice([4, 30, len(self.bridge.to_client)])
                self.tell(bytes(self.bridge.to_client[:count]))
                del self.bridge.to_client[:count]

    def play(self, commits):
        while self.commits < commits:
            self.step()
        self.bridge.close()
        if self.quick:
            self.quick.close()


def play(way, seed, commits):
    """Plays, and answers how many bytes the server read for each commit."""
    with tempfile.TemporaryDirectory(dir=MEMORY if os.path.isdir(MEMORY) else None) as folder:
        found = Play(way, seed, pathlib.Path(folder))
        found.play(commits)
        assert not os.listdir(folder), os.listdir(folder)
        return found.server.read / found.commits


class Turns(unittest.TestCase):
    """What is read is what was committed, however slow anybody is."""

    def test_copies(self):
        play("copies", 1, 300)

    def test_links(self):
        for seed in range(3):
            play("links", seed, 300)

    def test_ranges(self):
        for seed in range(10):
            play("ranges", seed, 300)


def main():
    parser = argparse.ArgumentParser(description=__doc__.partition("\n")[0])
    parser.add_argument("--commits", type=int, default=1000)
    parser.add_argument("--seed", type=int, default=1)
    asked = parser.parse_args()
    for way in ("copies", "links", "ranges"):
        print(f"{way}: {asked.commits} commits, {play(way, asked.seed, asked.commits):.0f} bytes read for each, and all as it was committed", flush=True)


if __name__ == "__main__":
    main()
