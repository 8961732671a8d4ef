#!/usr/bin/env python3
"""Measures what one client can make the server hold, at each of its limits.

    bench/hoards.py [--program FILE] [--only WORD]

Each line is the most that `wlframe replay` has in memory while a client hoards one kind of thing:

- pools that are written, beside as many zeros;
- objects that are regions of 512 changes;
- wl_surfaces with regions and damage that are pending, held and applied;
- toplevels with 64 configures each;
- positioners.

What a client costs that only binds its globals is taken off. Beside it stands what the limits come
to. That leaves out the room that a growing list or a map has to spare.
"""
import argparse
import os
import pathlib
import re
import subprocess
import tempfile
import time

from costly import CHANGES, PIECE, spent
from frames import message
from opening import BASE, BEGIN, BEGUN, COMPOSITOR, FIRST, SHM, SUBCOMPOSITOR
from server import PROGRAM

MEGABYTE = 1e6
PAUSE, CALM = 0.1, 20  # seconds between two looks, and looks without a change
POOLS = 1 << 28  # bytes
OBJECTS, SURFACES, CONFIGURES, DAMAGES = 8192, 256, 64, 1025
CHANGE, RECT = 20, 16  # bytes
HAS = BEGUN + 1  # objects of a client that bound its globals


def region(name):
    """A region of so many changes as may be."""
    return message(COMPOSITOR, 1, name) + message(name, 1, 0, 0, 1, 1) * CHANGES


def pools():
    """A pool of all bytes that leaves its zeros, one that a file is written to, and a small one, since of which these zeros are shared."""
    return message(SHM, 0, FIRST, POOLS) + message(FIRST, 1) + message(SHM, 0, FIRST + 1, POOLS - 1) + message(SHM, 0, FIRST + 2, 1)


def regions():
    """As many regions as there may be objects."""
    return b"".join(region(it) for it in range(FIRST, FIRST + OBJECTS - HAS))


def surfaces():
    """A root and its synchronised subsurfaces, whose regions and damage are applied, held and pending."""
    root, shape = FIRST, FIRST + 1
    children = range(FIRST + 2, FIRST + 2 * SURFACES, 2)
    made = [message(COMPOSITOR, 0, root), region(shape)]
    made += [message(COMPOSITOR, 0, it) + message(SUBCOMPOSITOR, 1, it + 1, it, root) for it in children]
    damaged = lambda it: (message(it, 2, 0, 0, 1, 1) + message(it, 9, 0, 0, 1, 1)) * DAMAGES
    for place in range(3):
        for it in children:
            made.append(message(it, 4, shape) + message(it, 5, shape) + damaged(it))
            made.append(message(it, 6) if place < 2 else b"")
        made.append(message(root, 6) if place == 0 else b"")
    return b"".join(made)


def toplevels():
    """Toplevels each of which has as many configures as may wait."""
    made = []
    for it in range(FIRST, FIRST + 3 * SURFACES, 3):
        made.append(message(COMPOSITOR, 0, it) + message(BASE, 2, it + 1, it) + message(it + 1, 1, it + 2) + message(it, 6))
        made.append(message(it + 2, 9) * (CONFIGURES - 1))
    return b"".join(made)


def positioners():
    return b"".join(message(BASE, 1, it) for it in range(FIRST, FIRST + OBJECTS - HAS))


# What is asked, and bytes by the limits: what is kept of a change is a rectangle and whether it adds.
HOARDS = {
    "pools of 268,435,456 bytes, and as many zeros": (pools, 2 * POOLS),
    "8,192 objects that are regions of 512 changes": (regions, (OBJECTS - HAS) * CHANGES * CHANGE),
    "256 wl_surfaces with regions and damage": (surfaces, (SURFACES - 1) * (6 * CHANGES * CHANGE + 5 * DAMAGES * RECT)),
    "256 toplevels with 64 configures each": (toplevels, None),
    "8,192 objects that are positioners": (positioners, None),
}


def lines_of(stream):
    return "".join(f"bytes 1 {stream[at : at + PIECE].hex()}\n" for at in range(0, len(stream), PIECE)).encode()


def peak(program, stream, has_file, room):
    """The most bytes that a replay of this has in memory, while it is still there, and how its client ended, if it did."""
    (pathlib.Path(room) / "file").touch()
    os.truncate(pathlib.Path(room) / "file", POOLS)
    text = b"connect\n" + lines_of(BEGIN + stream) + (b"file 1 2 0 file\n" if has_file else b"") + b"tick 1\n"
    words = [program, "replay", "--size", "64x64", "--dir", room]
    with tempfile.TemporaryFile(dir=room) as report, subprocess.Popen(words, stdin=subprocess.PIPE, stdout=report) as process:
        process.stdin.write(text)
        process.stdin.flush()
        wait_idle(process)
        status = pathlib.Path(f"/proc/{process.pid}/status").read_text(encoding="ascii")
        process.stdin.close()
        process.wait()
        report.seek(0)
        ended = [it for it in report.read().splitlines() if it.startswith(b"end ")]
    return 1024 * int(re.search(r"VmHWM:\s+(\d+)", status)[1]), b"".join(ended).decode()


def wait_idle(process):
    """Waits until a process waits for more, and has used up no time for a while."""
    idle, before = 0, None
    while idle < CALM:
        time.sleep(PAUSE)
        now = spent(process)
        idle = idle + 1 if now == before else 0
        before = now


def main():
    words = argparse.ArgumentParser(usage="bench/hoards.py [OPTION ..]", description=__doc__.splitlines()[0])
    words.add_argument("--program", type=pathlib.Path, default=PROGRAM, help="the program, where it isn't the one that ./wlframe built")
    words.add_argument("--only", default="", help="what has this in its name")
    asked = words.parse_args()
    if not asked.program.exists():
        words.error("build the program first: ./wlframe --help")
    with tempfile.TemporaryDirectory(dir="/dev/shm" if os.path.isdir("/dev/shm") else None) as room:
        program = asked.program.resolve()
        least, _ = peak(program, b"", False, room)
        print(f"a client that bound its globals: {least / MEGABYTE:.1f} MB", flush=True)
        for name, (made, limit) in HOARDS.items():
            if asked.only in name:
                most, ended = peak(program, made(), made is pools, room)
                wanted = f", {limit / MEGABYTE:.1f} by the limits" if limit else ""
                print(f"{name}: {(most - least) / MEGABYTE:.1f} MB more{wanted}{f'; the client ended: {ended}' if ended else ''}", flush=True)


if __name__ == "__main__":
    main()
