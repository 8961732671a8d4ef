#!/usr/bin/env python3
"""Measures the `store` and `file` lines of `wlframe replay`, and beside them `cp`.

    bench/store_lines.py [--pool BYTES] [--rounds N]

A client makes a pool of BYTES (64 MiB if left out). Three recordings follow, each with the pool: nothing more; `store` lines
of 60,000 bytes that fill it once; and one `file` line that fills it once from a file of as many random bytes. The times of the
lines are those of the last two less that of the first. `cp` copies the same file, in the same folder.

Each round runs all four, one right after the other. Printed are the least processor time and the least elapsed time of the
rounds, since other work on the machine can only add to them, and the load.
"""
import argparse
import os
import pathlib
import struct
import subprocess
import sys
import tempfile
import time

TOP = pathlib.Path(__file__).resolve().parent.parent
sys.path.insert(0, str(TOP / "python"))
from wlframe.wayland.wire import message, spelled_string  # pylint: disable=wrong-import-position

PROGRAM = TOP / "crates" / "wlframe" / "out" / "wlframe"
BYTES_A_LINE = 60_000
REGISTRY, COMPOSITOR, SHM, WM_BASE, POOL = 2, 3, 4, 5, 9


def bind(name, interface, version, object_id):
    return message(REGISTRY, 0, struct.pack("<I", name) + spelled_string(interface) + struct.pack("<II", version, object_id))


def pool_of(size):
    """The lines of a client that makes a pool: the registry, the binds, and create_pool."""
    messages = [
        message(1, 1, struct.pack("<I", REGISTRY)),
        bind(1, "wl_compositor", 2, COMPOSITOR),
        bind(3, "wl_shm", 1, SHM),
        bind(6, "xdg_wm_base", 1, WM_BASE),
        message(SHM, 0, struct.pack("<Ii", POOL, size)),
    ]
    return b"connect\n" + b"".join(b"bytes 1 %s\n" % part.hex().encode() for part in messages)


def write_stores(stream, size, content):
    for at in range(0, size, BYTES_A_LINE):
        stream.write(b"store 1 1 %d %s\n" % (at, content[at : at + BYTES_A_LINE].hex().encode()))


def recording_in(folder, name, size, content):
    """Writes one of the recordings. A tick ends it, so that all was done."""
    path = folder / name
    with path.open("wb") as stream:
        stream.write(pool_of(size))
        if name == "stores":
            write_stores(stream, size, content)
        if name == "file":
            stream.write(b"file 1 1 0 content\n")
        stream.write(b"tick 0\n")
    return path


def timed(command, stdin, stdout):
    """The processor time and the elapsed time of a run, and what it wrote."""
    begun = time.monotonic()
    child = subprocess.Popen(command, stdin=stdin, stdout=stdout)
    written = child.stdout.read() if stdout == subprocess.PIPE else b""
    _, status, used = os.wait4(child.pid, 0)
    elapsed = time.monotonic() - begun
    child.returncode = os.waitstatus_to_exitcode(status)
    if child.returncode != 0:
        sys.exit(f"{command[0]} ended with status {child.returncode}")
    return used.ru_utime + used.ru_stime, elapsed, written


def play(folder, path):
    with path.open("rb") as recording:
        taken = timed([PROGRAM, "replay", "--size", "2x1", "--dir", folder], recording, subprocess.PIPE)
    report = taken[2].decode().splitlines()
    if any(not line.startswith(("client 1", "to 1 ", "frame 0 ")) for line in report):
        sys.exit(f"the report isn't that of a pool and nothing more: {report}")
    return taken[:2]


def copy(folder):
    target = folder / "copy"
    taken = timed(["cp", folder / "content", target], subprocess.DEVNULL, subprocess.DEVNULL)
    target.unlink()
    return taken[:2]


def least(samples, which):
    return min(sample[which] for sample in samples)


def tell(name, size, hex_size, rounds):
    base, lines, copies = rounds["none"], rounds[name], rounds["cp"]
    for which, word in ((0, "processor"), (1, "elapsed")):
        own = max(least(lines, which) - least(base, which), 1e-9)
        rates = f"{size / own / 1e6:,.0f} MB/s" + (f", {hex_size / own / 1e6:,.0f} MB/s of hex" if hex_size else "")
        print(
            f"{name}, {word}: {own * 1e3:.1f} ms ({rates}), with the pool and the program's start "
            f"{least(lines, which) * 1e3:.1f} ms; cp {least(copies, which) * 1e3:.1f} ms, so {own / least(copies, which):.2f} and "
            f"{least(lines, which) / least(copies, which):.2f} times cp"
        )


def main():
    options = argparse.ArgumentParser(description="Measures the store and file lines of `wlframe replay`.")
    options.add_argument("--pool", type=int, default=64 << 20, help="bytes of the pool")
    options.add_argument("--rounds", type=int, default=15, help="samples of each")
    options = options.parse_args()
    if not PROGRAM.exists():
        sys.exit("build the program first: ./wlframe --help")
    before = os.getloadavg()[0]
    with tempfile.TemporaryDirectory() as name:
        folder = pathlib.Path(name)
        content = os.urandom(options.pool)
        (folder / "content").write_bytes(content)
        paths = {kind: recording_in(folder, kind, options.pool, content) for kind in ("none", "stores", "file")}
        rounds = {kind: [] for kind in (*paths, "cp")}
        for _ in range(options.rounds):
            for kind, path in paths.items():
                rounds[kind].append(play(folder, path))
            rounds["cp"].append(copy(folder))
    tell("stores", options.pool, 2 * options.pool, rounds)
    tell("file", options.pool, 0, rounds)
    print(f"load before and after, on {os.cpu_count()} processors: {before:.1f}, {os.getloadavg()[0]:.1f}")


if __name__ == "__main__":
    main()
