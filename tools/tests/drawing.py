"""A client that draws and commits at random, before two bridges at once: one that copies all, and one of which the pictures have to be the same.

    python3 tools/tests/drawing.py --commits 10000 --seed 1 [--reader] [-- BRIDGE OPTION ..]

It keeps a client's promises: it draws into buffers that it has back alone, and tells all by which a buffer differs from what its surface showed before.
What it draws into them meanwhile, and draws over again, it doesn't tell. With --reader the second bridge finds a stand-in for a server that reads ranges.
"""
import argparse
import contextlib
import os
import pathlib
import random
import struct
import sys

sys.path.insert(0, str(pathlib.Path(__file__).resolve().parent))
from client import Client, Memory  # pylint: disable=wrong-import-position
from reader import RangesRig  # pylint: disable=wrong-import-position
from rig import Rig  # pylint: disable=wrong-import-position
from wlframe.wayland.wire import DISPLAY  # pylint: disable=wrong-import-position

SIZE = "96x80"
SIDES = ((24, 16), (16, 24), (40, 30))  # of buffers: each can be scaled by 2
POINTS = 8192  # of a pool, at first
MANY = 6  # buffers of a surface


class Reuser(Client):
    """A client that uses ids again."""

    def __init__(self, path):
        super().__init__(path)
        self.free = []

    def new(self):
        return self.free.pop() if self.free else super().new()

    def round_trip(self):
        """Waits until all that was asked before is served, and its own sync's id is given back."""
        done = self.send(DISPLAY, "sync")
        while not any(said.name == "wl_display.delete_id" and said.values[0] == done for said, _ in self.events):
            self.receive()

    def told(self):
        """Takes the events, and answers the targets of those that are releases."""
        events, self.events = self.events, []
        self.free += [said.values[0] for said, _ in events if said.name == "wl_display.delete_id"]
        return [said.target for said, _ in events if said.name == "wl_buffer.release"]


class Side:
    """A rig, and what the client has there: everything is asked of both sides alike, so that they give the same ids."""

    def __init__(self, stack, kind, options):
        self.rig = stack.enter_context(kind(*options, size=SIZE, viewer=True))
        self.client = stack.enter_context(Reuser(self.rig.wayland))
        registry = self.client.begin()
        names = ("wl_compositor", 4), ("wl_shm", 1), ("xdg_wm_base", 1), ("wl_subcompositor", 1)
        self.compositor, self.shm, self.base, self.subcompositor = (self.client.bind(registry, *it) for it in names)

    def picture(self):
        """What a viewer sees, once all is shown that was asked."""
        self.rig.settle()
        return bytes(self.rig.viewer.frame.pixels)

    def error(self):
        return [text for said, text in self.client.events if said.name == "wl_display.error"]


class Pool:
    """Memory on both sides, which grows."""

    def __init__(self, pair):
        self.pair, self.used, self.size = pair, 0, 4 * POINTS
        self.memories = [Memory(self.size) for _ in pair.sides]
        self.id = pair.new_pool(self.memories, self.size)

    def room(self, size):
        """Where so many bytes are free."""
        if self.used + size > self.size:
            self.size = self.used + 2 * size
            for memory in self.memories:
                os.ftruncate(memory.descriptor, self.size)
            self.pair.put(self.id, "resize", self.size)
        at, self.used = self.used, self.used + size
        return at


class Buffer:
    """A buffer on both sides: its sides, its wl_shm.format, and its pixels, as rows."""

    def __init__(self, pair, pool, width, height, gap, form):
        self.pool, self.width, self.height, self.stride, self.form = pool, width, height, 4 * (width + gap), form
        self.at = pool.room(self.stride * height)
        self.id = pair.put(pool.id, "create_buffer", self.at, width, height, self.stride, form)
        self.is_free = True

    def write(self, rows):
        for memory in self.pool.memories:
            for at, row in enumerate(rows):
                os.pwrite(memory.descriptor, struct.pack(f"<{self.width}I", *row), self.at + at * self.stride)


class Surface:
    """A surface on both sides: a toplevel, or a subsurface of one."""

    def __init__(self, pair, parent=None):
        self.pair, self.parent, self.buffers, self.rows = pair, parent, [], None
        self.scale, self.transform, self.form = 1, 0, pair.chance.randrange(2)
        self.id = pair.put(pair.sides[0].compositor, "create_surface")
        if parent is None:
            self.shell = pair.put(pair.sides[0].base, "get_xdg_surface", self.id)
            pair.put(self.shell, "get_toplevel")
            pair.put(self.id, "commit")
            pair.acknowledge(self.shell)
        else:
            self.role = pair.put(pair.sides[0].subcompositor, "get_subsurface", self.id, parent.id)
            if pair.chance.random() < 0.5:
                pair.put(self.role, "set_desync")

    def colour(self):
        chance = self.pair.chance
        alpha = chance.choice([0, 128, 255, 255])
        return alpha << 24 | sum(chance.randrange(alpha + 1) << at for at in (0, 8, 16))

    def buffer(self, sides):
        """A free buffer of these sides: one of its own, one of another surface's, or a new one."""
        chance, mine = self.pair.chance, [it for it in self.buffers if it.is_free and (it.width, it.height) == sides]
        others = [(it, held) for it in self.pair.surfaces if it is not self for held in it.buffers if held.is_free and (held.width, held.height) == sides]
        if others and chance.random() < 0.1:
            owner, found = chance.choice(others)
            owner.buffers.remove(found)
            self.buffers.append(found)
            return found
        if mine and (chance.random() < 0.9 or len(self.buffers) >= MANY):
            return chance.choice(mine)
        for each in [it for it in self.buffers if it.is_free][: max(0, len(self.buffers) - MANY)]:
            self.buffers.remove(each)
            self.pair.put(each.id, "destroy")
        made = Buffer(self.pair, self.pair.pool(), *sides, chance.choice([0, 0, 0, 3]), self.form)
        self.buffers.append(made)
        return made

    def change_way(self):
        """Perhaps it is scaled or turned otherwise."""
        chance, pair = self.pair.chance, self.pair
        if chance.random() < 0.06:
            self.scale = chance.choice([1, 2])
            pair.put(self.id, "set_buffer_scale", self.scale)
            return True
        if chance.random() < 0.06:
            self.transform = chance.randrange(8)
            pair.put(self.id, "set_buffer_transform", self.transform)
            return True
        return False

    def changed(self, buffer):
        """Changes a rectangle, and tells of it."""
        chance, pair = self.pair.chance, self.pair
        sides = buffer.width // self.scale, buffer.height // self.scale
        width, height = sides[::-1] if self.transform % 2 else sides
        x, y = chance.randrange(-2, width), chance.randrange(-2, height)
        wide, high = chance.choice([1, 3, width]), chance.choice([1, 3, height])
        inside = [(i, j) for i in range(max(x, 0), min(x + wide, width)) for j in range(max(y, 0), min(y + high, height))]
        points = [shown_point(self.transform, width, height, *it) for it in inside]
        points = [(self.scale * i + a, self.scale * j + b) for i, j in points for a in range(self.scale) for b in range(self.scale)]
        for i, j in points:
            self.rows[j][i] = self.colour()
        if chance.random() < 0.5 or not points:
            pair.put(self.id, "damage", x, y, wide, high)
        else:
            left, top = min(it[0] for it in points), min(it[1] for it in points)
            pair.put(self.id, "damage_buffer", left, top, max(it[0] for it in points) + 1 - left, max(it[1] for it in points) + 1 - top)

    def commit(self):
        """Shows something else, or the same once more, or nothing."""
        chance, pair = self.pair.chance, self.pair
        if self.parent is not None and self.rows and chance.random() < 0.03:
            pair.put(self.id, "attach", 0, 0, 0)
            pair.put(self.id, "commit")
            self.rows = None
            return
        had = (len(self.rows[0]), len(self.rows)) if self.rows else None
        sides = had if had and chance.random() < 0.95 else chance.choice(SIDES)
        buffer, is_new = self.buffer(sides), self.change_way() or sides != had
        if is_new or buffer.form != self.form:  # the same numbers are other colours in another format
            is_new, self.form = True, buffer.form
            self.rows = [[self.colour() for _ in range(sides[0])] for _ in range(sides[1])]
        self.rows = [list(row) for row in self.rows]
        place = (chance.randrange(-4, 5), chance.randrange(-4, 5)) if had and chance.random() < 0.1 else (0, 0)
        pair.put(self.id, "attach", buffer.id, *place)
        if is_new or place != (0, 0):
            pair.put(self.id, *chance.choice([("damage", 0, 0, 99, 99), ("damage_buffer", 0, 0, 99, 99)]))
        for _ in range(0 if is_new else chance.choice([0, 1, 1, 2, 3])):
            self.changed(buffer)
        buffer.write(self.rows)
        buffer.is_free = False
        pair.put(self.id, "commit")


def shown_point(transform, width, height, x, y):
    """The point of a buffer that a point of a surface of these sides shows (wl_output.transform)."""
    points = [(x, y), (y, width - 1 - x), (width - 1 - x, height - 1 - y), (height - 1 - y, x)]
    return [*points, (width - 1 - x, y), (y, x), (x, height - 1 - y), (height - 1 - y, width - 1 - x)][transform]


class Pair:
    """The two sides, and a random client before both of them."""

    def __init__(self, options, seed, kind=Rig):
        self.options, self.chance, self.kind = options, random.Random(seed), kind
        self.surfaces, self.pools, self.commits = [], [], 0

    def __enter__(self):
        self.stack = contextlib.ExitStack()
        try:
            self.sides = [Side(self.stack, Rig, ["--whole"]), Side(self.stack, self.kind, self.options)]
        except BaseException:
            self.stack.close()
            raise
        for _ in range(3):
            top = Surface(self)
            self.surfaces += [top, Surface(self, top), Surface(self, top)]
        return self

    def __exit__(self, *_):
        self.stack.close()

    def put(self, target, name, *values):
        """Asks both sides, which give what is made the same id."""
        made = {side.client.put(target, name, *values) for side in self.sides}
        assert len(made) == 1, made
        return made.pop()

    def new_pool(self, memories, size):
        made = {side.client.put(side.shm, "create_pool", size, descriptor=it.descriptor) for side, it in zip(self.sides, memories)}
        assert len(made) == 1, made
        return made.pop()

    def pool(self):
        """A pool for a new buffer."""
        if not self.pools or self.chance.random() < 0.1 and len(self.pools) < 30 or self.pools[-1].size > 1 << 20:
            if len(self.pools) > 3:  # its buffers keep its memory
                self.put(self.pools.pop(0).id, "destroy")
            self.pools.append(Pool(self))
        return self.chance.choice(self.pools)

    def acknowledge(self, shell):
        for side in self.sides:
            side.client.flush()
            serial = side.client.until("xdg_surface.configure", shell).values[0]
            side.client.put(shell, "ack_configure", serial)

    def free(self):
        """Buffers that both sides gave back are free. The client draws into them, as it likes."""
        told = [side.client.told() for side in self.sides]
        assert sorted(told[0]) == sorted(told[1]), told
        for each in [it for surface in self.surfaces for it in surface.buffers if it.id in told[0]]:
            each.is_free = True
            if self.chance.random() < 0.5:
                each.write([[self.chance.randrange(1 << 32)] * each.width for _ in range(each.height)])

    def step(self):
        """Some commits in one go, and those that they wait for."""
        for surface in self.chance.sample(self.surfaces, self.chance.choice([1, 1, 2, 4])):
            if surface.parent is not None and surface.parent.rows is None:
                surface = surface.parent
            surface.commit()
            self.commits += 1
            if surface.parent is not None and self.chance.random() < 0.7:
                if self.chance.random() < 0.3:
                    self.put(surface.role, "set_position", self.chance.randrange(-9, 30), self.chance.randrange(-9, 30))
                surface.parent.commit()
                self.commits += 1

    def play(self, commits):
        """Plays until there were so many commits, and compares the pictures after each step."""
        while self.commits < commits:
            self.step()
            for side in self.sides:
                side.client.flush()
            for side in self.sides:
                side.client.round_trip()
            pictures = [side.picture() for side in self.sides]
            if pictures[0] != pictures[1]:
                raise AssertionError(f"after {self.commits} commits the pictures differ")
            self.free()


def main():
    words = sys.argv[1:]
    cut = words.index("--") if "--" in words else len(words)
    parser = argparse.ArgumentParser(description=__doc__.partition("\n")[0])
    parser.add_argument("--commits", type=int, default=1000)
    parser.add_argument("--seed", type=int, default=1)
    parser.add_argument("--reader", action="store_true")
    asked = parser.parse_args(words[:cut])
    with Pair(words[cut + 1 :], asked.seed, RangesRig if asked.reader else Rig) as pair:
        pair.play(asked.commits)
        print(f"{pair.commits} commits, and all pictures the same")


if __name__ == "__main__":
    main()
