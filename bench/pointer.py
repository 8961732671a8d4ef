#!/usr/bin/env python3
"""Measures what the pointer costs `wlframe replay`: commits below a pointer that rests, and motions.

    bench/pointer.py [--program FILE] [--commits N] [--motions N] [--rounds N] [--only WORDS]

It writes recordings, and plays them by the built program or the one that is named.

- Commits: 1, 100 and 1,000 toplevels of 320 by 320 points lie on each other, up to 250 of one
  client. One client attaches, damages 8 by 8 points and commits, again and again, and no frame is
  shown. The pointer is nowhere, over all of them, or over all of them where none takes input.
- Motions: over 32 windows of 40 by 40 points beside each other, each of a client with a wl_pointer.
  They stay within one window, or go each to another.
- Motions over a window whose client has 7,000 wl_pointers.
- Motions over 1,000 windows on each other that take no input.

Each is played with few and with many commits or motions, one right after the other. The difference
is divided by those between them. Times are processor time, the program's own and the system's for
it: the median of the rounds, with the least and the greatest. The report goes to /dev/null. --only
measures the lines whose names have these words.
"""
import argparse
import itertools
import os
import pathlib
import statistics
import sys

import frames
from frames import PROGRAM, XRGB8888, message

SIZE = 640, 480  # of the output
ON_EACH_OTHER = 320  # pixels of a window's side: each has the point REST, wherever of the eight places it stands
REST = 240, 240
MOST_WINDOWS = 250  # toplevels of a client, of 256 surfaces
BESIDE = 40  # pixels of a window's side in a grid
COLUMNS, CLIENTS = 8, 32
POINTERS = 7_000
PIECE = 60_000  # bytes of a stream in a line
COMPOSITOR, SHM, BASE, SEAT, POOL, BUFFER, NOTHING, FIRST = 3, 4, 5, 6, 7, 8, 9, 10  # ids
COMMIT = 3  # messages


def lines_of(client, stream):
    """The lines of a client's stream."""
    return [f"bytes {client} {stream[at : at + PIECE].hex()}" for at in range(0, len(stream), PIECE)]


def beginning(side):
    """What a client sends before its windows: a buffer of a square, and a region that has no points."""
    return b"".join([
        message(1, 1, 2),
        message(2, 0, 1, "wl_compositor", 2, COMPOSITOR),
        message(2, 0, 3, "wl_shm", 1, SHM),
        message(2, 0, 6, "xdg_wm_base", 1, BASE),
        message(2, 0, 5, "wl_seat", 1, SEAT),
        message(SHM, 0, POOL, 4 * side * side),
        message(POOL, 0, BUFFER, 0, side, side, 4 * side, XRGB8888),
        message(COMPOSITOR, 1, NOTHING),
    ])


def window(surface, serial, takes_input=True, moved=(0, 0)):
    """A toplevel, whose configure has the serial, moved from its place."""
    made = message(COMPOSITOR, 0, surface) + message(BASE, 2, surface + 1, surface) + message(surface + 1, 1, surface + 2)
    region = b"" if takes_input else message(surface, 5, NOTHING)
    return made + message(surface, 6) + message(surface + 1, 4, serial) + region + message(surface, 1, BUFFER, *moved) + message(surface, 6)


def piled(count, takes_input):
    """The lines of so many windows on each other, and how many clients they have."""
    lines, clients = [], range(1, 1 + -(-count // MOST_WINDOWS))
    for client in clients:
        own = min(MOST_WINDOWS, count - MOST_WINDOWS * (client - 1))
        made = (window(FIRST + 3 * number, 1 + number, takes_input) for number in range(own))
        lines += ["connect", *lines_of(client, beginning(ON_EACH_OTHER) + b"".join(made))]
    return lines, len(clients)


def text(lines):
    return "\n".join(lines).encode() + b"\n"


def commits(count, pointed, takes_input, number):
    """A recording of so many commits of one client, whose window is the topmost."""
    lines, clients = piled(count, takes_input)
    if pointed:
        lines.append("motion 0 {} {}".format(*REST))
    last = FIRST + 3 * ((count - 1) % MOST_WINDOWS)
    commit = message(last, 1, BUFFER, 0, 0) + message(last, 2, 0, 0, 8, 8) + message(last, 6)
    return text(lines + lines_of(clients, commit * number) + ["tick 0"])


def beside(pointers=1, clients=CLIENTS):
    """The lines of so many clients with a window each, in a grid, and so many wl_pointers."""
    lines = []
    for client in range(clients):
        place = 32 * (client % 8)
        moved = BESIDE * (client % COLUMNS) - place, BESIDE * (client // COLUMNS) - place
        seats = b"".join(message(SEAT, 0, FIRST + 3 + number) for number in range(pointers))
        lines += ["connect", *lines_of(client + 1, beginning(BESIDE) + seats + window(FIRST, 1, moved=moved))]
    return lines


def motions(lines, points, number):
    """A recording of so many motions, which go around these points."""
    around = itertools.islice(itertools.cycle(points), number)
    return text(lines + [f"motion {at} {x} {y}" for at, (x, y) in enumerate(around)] + ["tick 0"])


class Bench:
    """What is measured, and how often."""

    def __init__(self, words):
        self.rounds, self.only, self.commits, self.motions = words.rounds, words.only, words.commits, words.motions

    def measure(self, name, number, unit, recorded, messages=1):
        """Prints how many messages or motions a second are taken."""
        if self.only and self.only not in name:
            return
        few, many, rates = recorded(1), recorded(1 + number), []
        for _ in range(self.rounds):
            times = [frames.seconds(it, SIZE) for it in (many, few)]
            rates.append(messages * number / max(times[0] - times[1], 1e-6))
        print(f"{name}: {statistics.median(rates):,.0f} {unit}/s ({min(rates):,.0f} to {max(rates):,.0f}, {self.rounds} rounds of {number:,})", flush=True)

    def resting(self):
        for count in 1, 100, 1000:
            for where, pointed, takes_input in ("nowhere", False, True), ("over all", True, True), ("over all, none of which takes input", True, False):
                name = f"commits, {count:,} window{'s' * (count > 1)}, the pointer {where}"
                self.measure(name, self.commits, "messages", lambda number: commits(count, pointed, takes_input, number), COMMIT)

    def moving(self):
        lines = beside()
        within = [(x, 20) for x in range(BESIDE)]
        across = [(BESIDE * column + 20, BESIDE * row + 20) for row in range(CLIENTS // COLUMNS) for column in range(COLUMNS)]
        self.measure("motions within one of 32 windows", self.motions, "motions", lambda number: motions(lines, within, number))
        self.measure("motions, each to another of 32 windows", self.motions, "motions", lambda number: motions(lines, across, number))
        many = beside(POINTERS, 1)
        self.measure(f"motions over a client with {POINTERS:,} wl_pointers", max(1, self.motions // 100), "motions", lambda number: motions(many, within, number))
        pile, _ = piled(1000, False)
        over = [(REST[0] + x, REST[1]) for x in range(16)]
        self.measure("motions over 1,000 windows, none of which takes input", self.motions, "motions", lambda number: motions(pile, over, number))


def main():
    parser = argparse.ArgumentParser(description=__doc__.splitlines()[0])
    parser.add_argument("--program", type=pathlib.Path, default=PROGRAM, help="the program, where it isn't the one that ./wlframe built")
    parser.add_argument("--commits", type=int, default=10_000)
    parser.add_argument("--motions", type=int, default=10_000)
    parser.add_argument("--rounds", type=int, default=5)
    parser.add_argument("--only", help="words of the names of what is measured")
    words = parser.parse_args()
    if not words.program.exists():
        sys.exit("build the program first: ./wlframe --help")
    frames.PROGRAM = words.program.resolve()
    print(f"load {os.getloadavg()[0]:.1f}")
    bench = Bench(words)
    bench.resting()
    bench.moving()


if __name__ == "__main__":
    main()
