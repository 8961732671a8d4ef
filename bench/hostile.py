#!/usr/bin/env python3
"""Hostile clients for bench/soak, by kinds. As a command it measures what one message of the dear kinds costs.

    bench/hostile.py [--program FILE] [--kinds KIND,..] [--most N]

    --program FILE    the program wlframe, where it isn't the one that ./wlframe built
    --kinds KIND,..   which of them (all): stacks, large_stacks, moves, large_moves, hits, popups, damages, changes, copies, columns, opaque_columns,
                      translucent, first_pool, side_file
    --most N          send at most so many of a message (16384)

It prints a table of the server's processor milliseconds: for one message, or for the tick that it
leads to. A column tells that of as many messages as the server reads of a client in a turn. It
plays few messages and then more, until the difference takes half a second. `side_file` is measured
at `wlframe serve`.

A kind is a generator: of the pieces that a connection sends, each with the number of requests that
it is meant to be. It may go on for ever, since the server ends most. Each connection asks for POOLS
bytes of pools at most. One place of the crowd is for kinds that are LARGE, which may ask for as
many as there are. bench/costly.py has the kinds that send one dear message again and again.
"""
import argparse
import contextlib
import functools
import itertools
import os
import pathlib
import random
import re
import socket
import struct
import sys
import time

import costly
from costly import COSTLY
from flood import TITLE
from frames import ROOT, message
from opening import BASE, BEGIN, BEGUN, COMPOSITOR, FIRST, OUTPUT, REGISTRY, SEAT, SHM, SUBCOMPOSITOR, shown  # pylint: disable=unused-import
from server import PROGRAM
from wlframe.wayland import wire as wayland_wire

CROWD = 31
POOLS = 8 << 20  # bytes
MOST_POOLS = 1 << 28  # bytes that the server lets a client have
STORES = 64  # live pools that the server lets a client have
MEMORY = "memory"  # the file that stands for the memory of pools
SENT = 1 << 16  # bytes that a connection sends at once
TAKEN = 1 << 18  # bytes that a connection reads at once
PAUSE = 0.002  # seconds, where nobody can go on
COUNTS = 4  # numbers that a crowd counts, before those of its places
WORDS = [0, 1, 2, 3, 7, 8, 9, 0x7FFFFFFF, 0x80000000, 0xFFFFFFFF, 0xFEFFFFFF, 0xFF000000, 0x00100000, 0x00080001, 0xFFFC0000]
SIDE = 32  # pixels of a window
POOL_SIZES = re.compile(rb"(?s)(?=(?:\x00\x00\x10\x00....|\x02\x00\x0c\x00)(....))")  # of all that may be a create_pool or a resize


def recorded():
    """What each client of the examples' recordings sends."""
    streams = {}
    for path in sorted((ROOT / "examples").glob("*.rec")):
        for line in path.read_text(encoding="ascii").splitlines():
            words = line.split()
            if words[:1] == ["bytes"]:
                key = path.name, words[1]
                streams[key] = streams.get(key, b"") + bytes.fromhex("".join(words[2:]))
    return list(streams.values())


class Hostile:
    """What a kind knows of its connection: its chances, its number among the server's connections, the folder of side files, and what it was told.

    It may say that the connection is to close one half of itself, once all before it is sent (`closes`: SHUT_RD or SHUT_WR), or to tell it of serials
    (`told`, empty bytes at first): the latest of each object that had a configure, and that of the latest press or release.
    """

    def __init__(self, chance, number, folder):
        self.chance, self.number, self.folder, self.files = chance, number, folder, []
        self.closes, self.told, self.configures, self.pressed = None, None, {}, 0

    def hear(self, data):
        """Keeps the serials of what it is told. Callbacks look like configures of ids that have none."""
        if self.told is None:
            return
        self.told += data
        at = 0
        while len(self.told) >= at + wayland_wire.HEADER:
            target, opcode, size = wayland_wire.header(self.told, at)
            if len(self.told) < at + size:
                break
            if (opcode, size) == (0, 12):
                self.configures[target] = struct.unpack_from("<I", self.told, at + wayland_wire.HEADER)[0]
            elif (opcode, size) == (3, 24):
                self.pressed = struct.unpack_from("<I", self.told, at + wayland_wire.HEADER)[0]
            at += size
        self.told = self.told[at:]

    def put_file(self, pool, size=None):
        """The memory of its pool of this number is there from now on: random bytes, or so many zeros. Without a folder there is none."""
        if self.folder is None:
            return
        path = self.folder / f"{self.number}.{pool}"
        if size is None:
            os.link(self.folder / MEMORY, path)
        else:
            path.touch()
            os.truncate(path, size)
        self.files.append(path)

    def end(self):
        for path in self.files:
            with contextlib.suppress(FileNotFoundError):
                path.unlink()


def asked_pools(stream):
    """At most so many bytes of pools does a stream ask for, wherever its messages begin."""
    sizes = (int.from_bytes(it[1], "little", signed=True) for it in POOL_SIZES.finditer(stream))
    return sum(it for it in sizes if 0 < it <= MOST_POOLS)


def random_piece(chance):
    """Random bytes, or random words behind a right header."""
    if chance.random() < 0.3:
        return chance.randbytes(chance.randint(1, 4096))
    words = [chance.choice(WORDS + [chance.getrandbits(32)]) for _ in range(chance.randint(0, 6))]
    return message(chance.randint(1, 12), chance.randint(0, 14), *words)


def noise(mine):
    """Random bytes and words, behind a right beginning or from the first byte on."""
    if mine.chance.random() < 0.7:
        yield BEGIN, BEGUN
    rest = POOLS
    while True:
        piece = random_piece(mine.chance)
        rest -= asked_pools(piece)
        if rest < 0:
            return
        yield piece, 1


def changed(chance, stream):
    """A stream with a few changes of its bits, words and parts."""
    stream = bytearray(stream)
    for _ in range(chance.randint(1, 6)):
        at = chance.randrange(len(stream)) & ~3
        end = at + 4 * chance.randint(1, 12)
        match chance.randrange(6):
            case 0:
                stream[chance.randrange(len(stream))] ^= 1 << chance.randrange(8)
            case 1 | 2:
                stream[at : at + 4] = struct.pack("<I", chance.choice(WORDS))
            case 3:
                del stream[at:end]
            case 4:
                stream[at:at] = stream[at:end]
            case 5:
                del stream[end:]
        if not stream:
            return bytes(4)
    return bytes(stream)


def mutated(mine):
    """Recorded streams with changes, in pieces that are cut anywhere."""
    streams = all_streams()
    stream = changed(mine.chance, mine.chance.choice(streams))
    while asked_pools(stream) > POOLS:
        stream = changed(mine.chance, mine.chance.choice(streams))
    mine.put_file(1)
    at = 0
    while at < len(stream):
        cut = at + mine.chance.randint(1, 400)
        yield stream[at:cut], (cut - at) // 16
        at = cut
    for _ in range(mine.chance.randint(0, 50)):
        yield b"", 0


@functools.cache
def all_streams():
    """The recorded streams, and the beginnings of what a few clients with windows send."""
    made = (windows(Hostile(random.Random(seed), 0, None)) for seed in range(4))
    return recorded() + [b"".join(piece for piece, _ in itertools.islice(it, 150)) for it in made]


def flood(mine):
    """Requests whose answers aren't read: round trips, registries or outputs. These are objects that stay, so that there can't be more than 8,192."""
    yield BEGIN, BEGUN
    kind, bursts = mine.chance.randrange(3), mine.chance.randint(1, 100)
    for burst in range(bursts):
        ids = range(FIRST, FIRST + 1000) if kind == 0 else range(FIRST + 1000 * burst, FIRST + 1000 * (burst + 1))
        spelled = (message(1, 0, it) if kind == 0 else message(1, 1, it) if kind == 1 else message(REGISTRY, 0, 4, "wl_output", 1, it) for it in ids)
        yield b"".join(spelled), 1000


flood.reads = False


def comes(mine):
    """A connection that comes and goes, mostly within a message."""
    yield message(1, 0, 2)[: mine.chance.randint(0, 12)], 1


def pools(mine):
    """Pools by the hundred, with their files: made, made larger, used for buffers and gone, to the limit and sometimes past it."""
    yield BEGIN, BEGUN
    ids, numbers, live, rest = itertools.count(FIRST), itertools.count(1), [], POOLS
    for _ in range(mine.chance.randint(50, 600)):
        size = mine.chance.choice([1, 4096, 5000, 65536, 70000])
        if rest >= size and len(live) < STORES:
            pool, buffer = next(ids), next(ids)
            mine.put_file(next(numbers))
            live.append((pool, size))
            rest -= size
            yield message(SHM, 0, pool, size) + message(pool, 0, buffer, 0, 1, 1, 4, 1) * (size >= 4) + message(buffer, 0) * (size >= 4), 3
        if live and (rest < 70000 or len(live) == STORES or mine.chance.random() < 0.5):
            pool, size = live.pop(mine.chance.randrange(len(live)))
            rest += size
            yield message(pool, 1), 1
    if mine.chance.random() < 0.5:
        for _ in range(STORES + 1):
            yield message(SHM, 0, next(ids), 1), 1


def large(mine):
    """Pools up to the limit of all of them and past it, of sizes that are none, and many that come and go."""
    yield BEGIN, BEGUN
    size = mine.chance.choice([MOST_POOLS, MOST_POOLS - 4096, 1 << 27])
    if mine.chance.random() < 0.5:
        yield (message(SHM, 0, FIRST, size) + message(FIRST, 1)) * 1000, 2000
    else:
        mine.put_file(1, size)
    yield message(SHM, 0, FIRST, size) + message(1, 0, FIRST + 1), 2
    for _ in range(200):
        yield message(1, 0, FIRST + 1), 1
    yield message(SHM, 0, FIRST + 2, mine.chance.choice([MOST_POOLS, 0x7FFFFFFF, 0, -1, 1 << 27])), 1


def titles(mine):
    """Titles full of what looks like requests."""
    yield BEGIN + shown(FIRST, 0), BEGUN + 3
    title = wayland_wire.message(FIRST + 2, 2, wayland_wire.block(TITLE))
    for _ in range(mine.chance.randint(1, 300)):
        yield title * 8, 8


def bounds(chance):
    """A rectangle: a likely one, or one at the ends of the numbers."""
    if chance.random() < 0.1:
        return [chance.choice(WORDS) for _ in range(4)]
    return [chance.randint(-8, SIDE), chance.randint(-8, SIDE), chance.randint(1, SIDE), chance.randint(1, SIDE)]


def change(chance, surface, is_root, things):
    """A change of a surface, as a list of requests. One that is a root keeps a buffer, since it would have to be configured anew without."""
    buffer, region, pointer, callback = things
    match chance.randrange(9):
        case 0 | 1:
            return [message(surface, 1, buffer, 0, 0), message(surface, 2, *bounds(chance)), message(surface, 6)]
        case 2:
            return [message(surface, 2, *bounds(chance)) for _ in range(chance.choice([3, 30, 1100]))]
        case 3:
            return [message(surface, 3, callback)]
        case 4:
            drawn = [message(region, chance.randint(1, 2), *bounds(chance)) for _ in range(8)]
            return [message(COMPOSITOR, 1, region), *drawn, message(surface, chance.randint(4, 5), region), message(region, 0)]
        case 5:
            return [message(surface, 5, 0), message(surface, 7, chance.randrange(8)), message(surface, 6)]
        case 6:
            return [message(surface, 1, buffer if is_root else 0, 0, 0), message(surface, 6)]
        case 7:
            return [message(pointer, 0, 0, 0, 0, 0), message(surface, 1, buffer, chance.randint(-9, 9), chance.randint(-9, 9))]
    return [message(surface, 6)]


def windows(mine):
    """Toplevels with subsurfaces and pointers, whose surfaces change as they may, and often."""
    chance, ids = mine.chance, itertools.count(FIRST)
    pool, buffer, region, pointer = (next(ids) for _ in range(4))
    mine.put_file(1)
    size = 4 * SIDE * SIDE
    yield BEGIN + message(SHM, 0, pool, size) + message(pool, 0, buffer, 0, SIDE, SIDE, 4 * SIDE, chance.randrange(2)), BEGUN + 2
    surfaces, roots = [], chance.randint(1, 20)
    for serial in range(1, 1 + roots):
        surface, *_ = (next(ids) for _ in range(3))
        surfaces.append(surface)
        yield shown(surface, serial, buffer), 7
    for _ in range(chance.choice([0, 20, 230])):
        surface, link = next(ids), next(ids)
        parent = chance.choice(surfaces[:roots])
        made = message(COMPOSITOR, 0, surface) + message(SUBCOMPOSITOR, 1, link, surface, parent) + message(link, 1, *bounds(chance)[:2])
        yield made + message(link, chance.randint(4, 5)) + message(surface, 1, buffer, 0, 0) + message(surface, 6), 6
        surfaces.append(surface)
    yield message(SEAT, 0, pointer), 1
    for _ in range(chance.randint(10, 2000)):
        place = chance.randrange(len(surfaces))
        requests = change(chance, surfaces[place], place < roots, (buffer, region, pointer, next(ids)))
        yield b"".join(requests), len(requests)


def pointers(mine):
    """A window and 7,000 wl_pointers, all of which are told what the pointer does over it."""
    pool, buffer, surface, side = FIRST, FIRST + 1, FIRST + 2, 4 * SIDE
    yield BEGIN + message(SHM, 0, pool, 4 * side * side) + message(pool, 0, buffer, 0, side, side, 4 * side, 1) + shown(surface, 1, buffer), BEGUN + 9
    for ids in range(FIRST + 5, FIRST + 7005, 1000):
        yield b"".join(message(SEAT, 0, it) for it in range(ids, ids + 1000)), 1000
    for _ in range(mine.chance.randint(0, 1000)):
        yield b"", 0


def halves(mine):
    """A connection that closes one half of itself: then it asks and can't be answered, or reads what it asked before."""
    yield BEGIN, BEGUN
    for _ in range(mine.chance.randint(0, 200)):
        yield message(1, 0, FIRST), 1
    half = mine.closes = mine.chance.choice([socket.SHUT_RD, socket.SHUT_WR])
    for _ in range(mine.chance.randint(1, 200)):
        yield (message(1, 0, FIRST), 1) if half == socket.SHUT_RD else (b"", 0)


class Menus:
    """A client with toplevels, and with popups on them and on each other, of which it closes the newest first."""

    def __init__(self, mine):
        self.mine, self.ids = mine, itertools.count(FIRST)
        self.pool, self.buffer, self.pointer, self.positioner = (next(self.ids) for _ in range(4))
        self.roots, self.popups, self.mapped = [], [], set()

    def begin(self):
        """The requests for its pool, its wl_pointer and a positioner."""
        self.mine.put_file(1)
        side, chance = 2 * SIDE, self.mine.chance
        made = message(SHM, 0, self.pool, 4 * side * side) + message(self.pool, 0, self.buffer, 0, side, side, 4 * side, chance.randrange(2))
        sized = message(self.positioner, 1, side, side) + message(self.positioner, 2, 0, 0, side, side)
        return BEGIN + made + message(SEAT, 0, self.pointer) + message(BASE, 1, self.positioner) + sized

    def open_toplevel(self):
        self.roots.append([next(self.ids) for _ in range(3)])
        return shown(self.roots[-1][0], 0) + message(self.roots[-1][0], 6)

    def open_popup(self):
        """A popup of a toplevel or of the newest popup, in most cases with the grab by the serial of the latest press or release."""
        chance = self.mine.chance
        surface, shell, popup = (next(self.ids) for _ in range(3))
        parent = self.popups[-1] if self.popups and chance.random() < 0.7 else chance.choice(self.roots)
        self.popups.append([surface, shell, popup])
        made = message(COMPOSITOR, 0, surface) + message(BASE, 2, shell, surface) + message(shell, 2, popup, parent[1], self.positioner)
        moved = message(self.positioner, chance.randint(3, 4), chance.randint(0, 8)) + message(self.positioner, 6, *bounds(chance)[:2])
        return moved + made + message(popup, 1, SEAT, self.mine.pressed) * (chance.random() < 0.8) + message(surface, 6)

    def show_all(self):
        """Maps what was configured and isn't mapped."""
        requests = b""
        for surface, shell, _ in self.roots + self.popups:
            serial = self.mine.configures.pop(shell, None)
            if serial is not None:
                requests += message(shell, 4, serial) + message(surface, 1, self.buffer, 0, 0) + message(surface, 2, *bounds(self.mine.chance)) + message(surface, 6)
                self.mapped.add(surface)
        return requests

    def close(self, one):
        """Destroys a toplevel or a popup with its surface."""
        surface, shell, role = one
        self.mapped.discard(surface)
        return message(role, 0) + message(shell, 0) + message(surface, 0)

    def hide(self):
        """Takes the buffer from something that is mapped, which may then be configured anew."""
        if not self.mapped:
            return b""
        surface = self.mine.chance.choice(sorted(self.mapped))
        self.mapped.discard(surface)
        return message(surface, 1, 0, 0, 0) + message(surface, 6) * self.mine.chance.randint(1, 2)

    def step(self):
        """What comes next, as requests."""
        chance = self.mine.chance
        match chance.randrange(10):
            case 0 | 1 | 2 if len(self.popups) < 40:
                return self.open_popup()
            case 3 | 4 if self.popups:
                return self.close(self.popups.pop())
            case 5:
                return message(chance.choice(self.roots)[2], 5, SEAT, self.mine.pressed)
            case 6:
                return self.hide()
            case 7 if chance.random() < 0.3:
                return self.open_toplevel() if len(self.roots) < 8 else self.close(self.roots.pop(0))
            case 8:
                surface, shell, _ = chance.choice(self.roots + self.popups)
                return message(shell, 3, *bounds(chance)) * (chance.random() < 0.2) + message(surface, 6) * (surface in self.mapped)
        return b""


def menus(mine):
    """Popups that take the grab, are dismissed and go in any order; toplevels that move along with the pointer, are hidden and shown again."""
    mine.told = b""
    client = Menus(mine)
    yield client.begin() + client.open_toplevel(), BEGUN + 11
    for _ in range(mine.chance.randint(20, 500)):
        yield client.show_all() + client.step(), 3
        for _ in range(mine.chance.choice([1, 1, 30])):
            yield b"", 0


def regions(mine):
    """Regions of 510 changes that leave as many rectangles as they can, as what a surface takes of the input and has opaque."""
    yield BEGIN + message(COMPOSITOR, 0, FIRST), BEGUN + 1
    for region in range(FIRST + 1, FIRST + 3):
        yield message(COMPOSITOR, 1, region) + message(region, 1, 0, 0, 2000, 2000), 2
        for place in range(255):
            yield message(region, 2, 4 * place + 1, 0, 1, 2000) + message(region, 2, 0, 4 * place + 1, 2000, 1), 2
        yield message(FIRST, 4, region) + message(FIRST, 5, region) + message(FIRST, 6), 3


def lures(mine):
    """Requests that cost nothing, and then dear ones, in turns: whoever reads more at once of a client that was cheap is caught by them."""
    dear = COSTLY["popups"]
    mine.put_file(1)
    yield dear.begin(dear.side), BEGUN
    cheap = message(costly.ROOT + 2, 8, 0, 0) * 1024  # xdg_toplevel.set_min_size
    while True:
        yield cheap + dear.again(0) * 512, 1536


KINDS = {it.__name__: it for it in (noise, mutated, flood, comes, halves, pools, large, titles, windows, menus, pointers, regions, lures)}
KINDS |= {kind: costly.again(kind) for kind in COSTLY}
LARGE = ["large", *costly.LARGE]
NAMES = list(KINDS)


class Place:
    """A place of the crowd, with a connection of some kind or without."""

    def __init__(self, crowd, number, kinds):
        self.crowd, self.number, self.kinds, self.socket = crowd, number, kinds, None

    def connect(self):
        """Connects as some kind, if the server has room for those that wait."""
        self.socket = socket.socket(socket.AF_UNIX)
        self.socket.setblocking(False)
        try:
            self.socket.connect(self.crowd.path)
        except BlockingIOError:
            self.socket.close()
            self.socket = None
            return False
        chance, kind = self.crowd.chance, self.crowd.chance.choice(self.kinds)
        self.mine = Hostile(chance, self.crowd.connected(), self.crowd.folder)
        self.pieces, self.waiting = KINDS[kind](self.mine), b""
        self.reads = getattr(KINDS[kind], "reads", chance.random() < 0.9)
        self.crowd.counts[COUNTS + self.number] = 1 + NAMES.index(kind)
        return True

    def end(self, by_server=False):
        self.socket.close()
        self.socket = None
        self.mine.end()
        self.crowd.counts[3] += by_server
        self.crowd.counts[COUNTS + self.number] = 0

    def close_half(self):
        self.socket.shutdown(self.mine.closes)
        self.reads = self.reads and self.mine.closes != socket.SHUT_RD
        self.mine.closes = None

    def gather(self):
        """Takes pieces until there is enough to send. False where there are no more."""
        while len(self.waiting) < SENT:
            piece, count = next(self.pieces, (None, 0))
            if piece is None:
                return False
            self.waiting += piece
            self.crowd.counts[1] += count
            if not piece or self.crowd.chance.random() < 0.02:
                return True
        return True

    def step(self):
        """Does what can be done. Answers whether that was something."""
        if self.socket is None:
            return self.connect()
        has_more = self.gather()
        try:
            if self.mine.closes is not None and not self.waiting:
                self.close_half()
            if self.reads:
                with contextlib.suppress(BlockingIOError):
                    told = self.socket.recv(TAKEN)
                    self.mine.hear(told)
                    if not told:
                        self.end(by_server=True)
                        return True
            sent = self.socket.send(self.waiting) if self.waiting else 0
        except BlockingIOError:
            return False
        except OSError:  # the server has closed it
            self.end(by_server=True)
            return True
        self.waiting = self.waiting[sent:]
        self.crowd.counts[2] += sent
        if not has_more and not self.waiting:
            self.end()
        return sent > 0


class Crowd:
    """Hostile clients of the server at a path. Counted are connections, requests, bytes, and connections that the server ended; then it is told
    of each place of the crowd by which of the NAMES it is connected, from 1 on, or 0 where it isn't."""

    def __init__(self, path, folder, seed, kinds, counts):
        self.path, self.folder, self.counts = path, pathlib.Path(folder), counts
        self.chance = random.Random(seed)
        few = [it for it in kinds if it not in LARGE]
        many = [it for it in kinds if it in LARGE]
        self.places = [Place(self, place, (many or few) if place == 0 else few) for place in range(CROWD if few else 1)]

    def connected(self):
        """The number of a new connection: the good client's is 1."""
        self.counts[0] += 1
        return 1 + self.counts[0]

    def run(self, seconds):
        """Sends for so many seconds, and then leaves; at once where the parent has ended."""
        parent, until = os.getppid(), time.monotonic() + seconds
        while time.monotonic() < until and os.getppid() == parent:
            if not sum(place.step() for place in self.places):
                time.sleep(PAUSE)
        for place in self.places:
            if place.socket is not None:
                place.end()


def storm(path, folder, seed, kinds, counts, seconds):
    """A crowd for so many seconds, as a process of its own."""
    os.nice(5)
    Crowd(path, folder, seed, kinds, counts).run(seconds)
    sys.exit(0)


def main():
    """Measures the dear kinds."""
    words = argparse.ArgumentParser(usage="bench/hostile.py [OPTION ..]", description=__doc__.splitlines()[0])
    words.add_argument("--program", type=pathlib.Path, default=PROGRAM, help="the program, where it isn't the one that ./wlframe built")
    words.add_argument("--kinds", default=",".join(COSTLY), help="which kinds")
    words.add_argument("--most", type=int, default=costly.MOST, help="how many of a message are sent at most")
    asked = words.parse_args()
    asked.kinds = asked.kinds.split(",")
    wrong = [it for it in asked.kinds if it not in COSTLY]
    if wrong:
        words.error(f"no kind {wrong[0]}: they are {', '.join(COSTLY)}")
    if not asked.program.exists():
        words.error("build the program first: ./wlframe --help")
    print(f"load {os.getloadavg()[0]:.1f}")
    costly.table(asked.program.resolve(), asked.kinds, max(1, asked.most))


if __name__ == "__main__":
    main()
