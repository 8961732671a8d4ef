#!/usr/bin/env python3
"""Measures what a tick of `wlframe replay` costs at 1920 by 1080, and at 4096 by 4096.

    bench/frames.py [--ticks N] [--rounds N] [--only WORDS]

It writes recordings and plays them by the built program. Before each tick clients commit. A line is
one of these:

- one client with a window of the whole output: it damages all of it, 8 by 8 points, or one;
- the same window in each format: argb8888 opaque by its pixels, opaque by its region, half through
  and all through; xrgb8888 turned, flipped and at scale 2;
- 8 such windows on each other, of which the topmost commits;
- 1, 8 and 32 clients with a window of 8 by 8 points; of these the last one goes and comes again;
- nobody commits;
- a toplevel of 128 by 128 with 1, 16 and 255 subsurfaces of 8 by 8 points, of which the last
  commits, desynchronised or synchronised; 16 also as a chain, each the child of the one before;
- the same toplevel with 1 and 16 popups of 8 by 8 points: the last commits, or all move with the
  toplevel's window geometry.

Each is played with few and with many ticks, one right after the other. The difference is divided by
the ticks between them. So the program's start, the image and the mapping of windows don't count.

Times are processor time, the program's own and the system's for it: the median of the rounds, with
the least and the greatest. Only the last line writes pictures: frames as PPM, beside a copy of as
many bytes and their writing to a file in memory. The report goes to /dev/null. --only measures the
lines whose names have these words.
"""
import argparse
import os
import pathlib
import statistics
import struct
import subprocess
import sys
import tempfile
import time

ROOT = pathlib.Path(__file__).resolve().parent.parent
sys.path.insert(0, str(ROOT / "python"))
from wlframe.wayland import wire as wayland_wire  # pylint: disable=wrong-import-position

PROGRAM = ROOT / "crates" / "wlframe" / "out" / "wlframe"
WHOLE = 1920, 1080
LARGEST = 4096, 4096
ARGB8888, XRGB8888 = 0, 1


def message(sender, opcode, *arguments):
    """A message whose arguments are words or strings."""
    words = [wayland_wire.spelled_string(it) if isinstance(it, str) else struct.pack("<I", it & 0xFFFFFFFF) for it in arguments]
    return wayland_wire.message(sender, opcode, b"".join(words))


def mapped(width, height, form=XRGB8888, region=False, transform=0, scale=1):
    """What a client sends until its window of this size is there, with a region that says that all of it is opaque, or without one. The buffer has the
    sides that make it so by the transform and the scale."""
    columns, rows = (scale * it for it in ((height, width) if transform % 2 else (width, height)))
    stride = 4 * columns
    turned = message(6, 7, transform) if transform else b""
    scaled = message(6, 8, scale) if scale > 1 else b""
    opaque = message(3, 1, 11) + message(11, 1, 0, 0, width, height) + message(6, 4, 11) if region else b""
    return b"".join([
        message(1, 1, 2),
        message(2, 0, 1, "wl_compositor", 4 if scale > 1 else 2, 3),
        message(2, 0, 3, "wl_shm", 1, 4),
        message(2, 0, 6, "xdg_wm_base", 1, 5),
        message(3, 0, 6),
        message(5, 2, 7, 6),
        message(7, 1, 8),
        message(6, 6),
        message(7, 4, 1),
        message(4, 0, 9, stride * rows),
        message(9, 0, 10, 0, columns, rows, stride, form),
        opaque + turned + scaled,
    ]) + committed(width, height)


def committed(width, height):
    """A commit that damages this much of the window, from its corner on."""
    return message(6, 1, 10, 0, 0) + message(6, 2, 0, 0, width, height) + message(6, 6)


def filled(client, count, pixel):
    """The lines that fill so many pixels of a client's store with one."""
    most = 15_000
    return [f"store {client} 1 {4 * first} {pixel * min(most, count - first)}" for first in range(0, count, most)]


def recording(clients, size, damage, ticks, pixel=None, last_alone=False, **how):
    """So many ticks of clients with windows of this size, each tick after a commit of every client, or of the last alone, unless they damage nothing.
    The pixels of the windows are zeros, or as given; `how` tells more of their buffers."""
    lines = []
    for client in range(1, clients + 1):
        lines += ["connect", f"bytes {client} {mapped(*size, **how).hex()}"]
        if pixel:
            lines += filled(client, size[0] * size[1], pixel)
    lines.append("tick 0")
    commits = [f"bytes {client} {committed(*damage).hex()}" for client in range(clients if last_alone else 1, clients + 1)] if damage else []
    for tick in range(ticks):
        lines += commits
        lines.append(f"tick {tick + 1}")
    return "\n".join(lines).encode() + b"\n"


def ends(clients, size, ticks):
    """So many ticks of clients with windows of this size, each tick after the last of them went and came again."""
    lines = []
    for client in range(1, clients + 1):
        lines += ["connect", f"bytes {client} {mapped(*size).hex()}"]
    lines.append("tick 0")
    for tick in range(ticks):
        lines += [f"gone {clients}", "connect", f"bytes {clients} {mapped(*size).hex()}", f"tick {tick + 1}"]
    return "\n".join(lines).encode() + b"\n"


def tree(subsurfaces, chain, synchronised, ticks):
    """So many ticks of a toplevel of 128 by 128 points with subsurfaces of 8 by 8, above each other or, as a chain, each the child of the one before.
    Before each tick the last of them commits all of it: at once or, where all are synchronised, held until the toplevel commits after it."""
    side, child = 128, 8
    surfaces = [13 + 2 * number for number in range(subsurfaces)]
    sent = [
        mapped(side, side),
        message(2, 0, 2, "wl_subcompositor", 1, 11),
        message(9, 0, 12, 0, child, child, 4 * side, XRGB8888),
    ]
    for number, surface in enumerate(surfaces):
        x, y = (1, 1) if chain else (child * (number % 16), child * (number // 16))
        parent = surfaces[number - 1] if chain and number > 0 else 6
        sent += [message(3, 0, surface), message(11, 1, surface + 1, surface, parent), message(surface + 1, 1, x, y)]
        sent += [message(surface, 1, 12, 0, 0), message(surface, 2, 0, 0, child, child), message(surface, 6)]
    # Where they are chained, the position of each is put in force by the commit of its parent, which is held: so all of them commit once more.
    sent += [message(surface, 6) for surface in surfaces] + [message(6, 6)]
    if not synchronised:
        sent += [message(surface + 1, 5) for surface in surfaces]
    commit = message(surfaces[-1], 1, 12, 0, 0) + message(surfaces[-1], 2, 0, 0, child, child) + message(surfaces[-1], 6)
    if synchronised:
        commit += message(6, 6)
    lines = ["connect"]
    first = b"".join(sent)
    lines += [f"bytes 1 {first[at : at + 4096].hex()}" for at in range(0, len(first), 4096)]
    lines.append("tick 0")
    for tick in range(ticks):
        lines += [f"bytes 1 {commit.hex()}", f"tick {tick + 1}"]
    return "\n".join(lines).encode() + b"\n"


def menus(popups, moves, ticks):
    """So many ticks of a toplevel of 128 by 128 points with popups of 8 by 8 on it. Before each tick the last of them commits all of it, or the
    toplevel's window geometry moves to and fro by a pixel, and all of them with it."""
    side, child = 128, 8
    surfaces = [13 + 3 * number for number in range(popups)]
    sent = [mapped(side, side), message(9, 0, 12, 0, child, child, 4 * side, XRGB8888), message(5, 1, 11)]
    sent += [message(11, 1, child, child), message(11, 3, 5), message(11, 4, 8)]
    for number, surface in enumerate(surfaces):
        sent += [message(11, 2, child * (number % 16), child * (number // 16), 1, 1), message(3, 0, surface), message(5, 2, surface + 1, surface)]
        sent += [message(surface + 1, 2, surface + 2, 7, 11), message(surface, 6), message(surface + 1, 4, 2 + number)]
        sent += [message(surface, 1, 12, 0, 0), message(surface, 2, 0, 0, child, child), message(surface, 6)]
    lines = ["connect"]
    first = b"".join(sent)
    lines += [f"bytes 1 {first[at : at + 4096].hex()}" for at in range(0, len(first), 4096)]
    lines.append("tick 0")
    commit = message(surfaces[-1], 1, 12, 0, 0) + message(surfaces[-1], 2, 0, 0, child, child) + message(surfaces[-1], 6)
    for tick in range(ticks):
        move = message(7, 3, 1 - tick % 2, 0, side, side) + message(6, 6)
        lines += [f"bytes 1 {(move if moves else commit).hex()}", f"tick {tick + 1}"]
    return "\n".join(lines).encode() + b"\n"


def seconds(text, size, pictures=None):
    """The processor time of a run."""
    words = [PROGRAM, "replay", "--size", "x".join(map(str, size)), *(["--ppm", pictures] if pictures else [])]
    with tempfile.TemporaryFile() as stream:
        stream.write(text)
        stream.seek(0)
        child = subprocess.Popen(words, stdin=stream, stdout=subprocess.DEVNULL)
        _, status, used = os.wait4(child.pid, 0)
    child.returncode = os.waitstatus_to_exitcode(status)
    if child.returncode != 0:
        sys.exit(f"the program ended with status {child.returncode}")
    return used.ru_utime + used.ru_stime


class Bench:
    """What is measured, and how often."""

    def __init__(self, words):
        self.rounds, self.only, self.full, self.small = words.rounds, words.only, words.ticks, 50 * words.ticks

    def measure(self, name, ticks, recorded, size=WHOLE, pictures=None):
        """Prints milliseconds a tick of what is recorded for a number of ticks."""
        if self.only and self.only not in name:
            return
        few, many, samples = recorded(1), recorded(1 + ticks), []
        for _ in range(self.rounds):
            times = [seconds(text, size, pictures) for text in (many, few)]
            samples.append((times[0] - times[1]) / ticks * 1e3)
        print(f"{name}: {statistics.median(samples):.3f} ms a tick ({min(samples):.3f} to {max(samples):.3f}, {self.rounds} rounds of {ticks} ticks)")

    def commits(self, name, ticks, clients, window, damage, size=WHOLE, pictures=None, **how):
        self.measure(name, ticks, lambda ticks: recording(clients, window, damage, ticks, **how), size, pictures)

    def whole_frames(self):
        opaque, half = "000000ff", "00000080"
        self.commits("1 client, the whole output", self.full, 1, WHOLE, WHOLE)
        self.commits("the same, argb8888, opaque pixels", self.full, 1, WHOLE, WHOLE, form=ARGB8888, pixel=opaque)
        self.commits("the same, argb8888, opaque by its region", self.full, 1, WHOLE, WHOLE, form=ARGB8888, region=True, pixel=opaque)
        self.commits("the same, argb8888, half through", self.full, 1, WHOLE, WHOLE, form=ARGB8888, pixel=half)
        self.commits("the same, argb8888, all through", self.full, 1, WHOLE, WHOLE, form=ARGB8888)
        self.commits("the same, turned by 90 degrees", self.full, 1, WHOLE, WHOLE, transform=1)
        self.commits("the same, flipped", self.full, 1, WHOLE, WHOLE, transform=4)
        self.commits("the same, at scale 2", self.full, 1, WHOLE, WHOLE, scale=2)
        self.commits("8 clients on each other, the topmost commits all of it", self.full, 8, WHOLE, WHOLE, last_alone=True)
        self.commits("1 client, 4096 by 4096, all of it", self.full, 1, LARGEST, LARGEST, LARGEST)

    def small_frames(self):
        self.commits("1 client, 4096 by 4096, one pixel of it", self.small, 1, LARGEST, (1, 1), LARGEST)
        self.commits("1 client, 4096 by 4096, nothing committed", self.small, 1, LARGEST, None, LARGEST)
        self.commits("1 client with the whole output, 8 by 8 of it", self.small, 1, WHOLE, (8, 8))
        self.commits("1 client with the whole output, one pixel of it", self.small, 1, WHOLE, (1, 1))
        for clients in 1, 8, 32:
            self.commits(f"{clients} client{'s' * (clients > 1)}, 8 by 8", self.small, clients, (8, 8), (8, 8))
        self.commits("1 client, nothing committed", self.small, 1, (8, 8), None)
        for clients in 1, 8, 32:
            self.measure(f"one of {clients} with 8 by 8 goes and comes again", self.small, lambda ticks, clients=clients: ends(clients, (8, 8), ticks))

    def trees(self):
        for subsurfaces, chain in (1, False), (16, False), (255, False), (16, True):
            for synchronised in False, True:
                how = f"{subsurfaces} {'chained ' * chain}subsurface{'s' * (subsurfaces > 1)}, the last commits, {'synchronised' if synchronised else 'desynchronised'}"
                self.measure(how, self.small, lambda ticks: tree(subsurfaces, chain, synchronised, ticks))

    def popups(self):
        for popups in 1, 16:
            for moves in False, True:
                how = f"{popups} popup{'s' * (popups > 1)}, {'all move with their parent' if moves else 'the last commits'}"
                self.measure(how, self.small, lambda ticks, popups=popups, moves=moves: menus(popups, moves, ticks))

    def pictures(self):
        """Frames as PPM, and the same bytes copied and written by one call a frame."""
        with tempfile.TemporaryDirectory(dir="/dev/shm") as room:
            self.commits("1 client, the whole output, as PPM", self.full, 1, WHOLE, WHOLE, pictures=f"{room}/frames.ppm")
            image, samples = bytearray(3 * WHOLE[0] * WHOLE[1]), []
            for _ in range(self.rounds):
                with open(f"{room}/copy", "wb", buffering=0) as it:
                    before = time.process_time()
                    for _ in range(self.full):
                        it.write(bytes(image))
                    samples.append((time.process_time() - before) / self.full * 1e3)
            print(f"as many bytes copied and written: {statistics.median(samples):.3f} ms ({min(samples):.3f} to {max(samples):.3f})")


def main():
    parser = argparse.ArgumentParser(description=__doc__.splitlines()[0])
    parser.add_argument("--ticks", type=int, default=20, help="full frames a run; small ones are 50 times as many")
    parser.add_argument("--rounds", type=int, default=5)
    parser.add_argument("--only", help="words of the names of what is measured")
    words = parser.parse_args()
    if not PROGRAM.exists():
        sys.exit("build the program first: ./wlframe --help")
    print(f"load {os.getloadavg()[0]:.1f}")
    bench = Bench(words)
    bench.whole_frames()
    bench.small_frames()
    bench.trees()
    bench.popups()
    bench.pictures()


if __name__ == "__main__":
    main()
