#!/usr/bin/env python3
"""Measures what a frame costs weston's headless compositor with its pixman renderer, to compare with bench/frames.py.

    bench/weston.py [--frames N] [--rounds N]

On an output of 1920 by 1080 one client commits its whole window for each frame
(bench/peers/frames_client.c): of 1920 by 1080, and of 8 by 8 points. A line tells weston's
processor time for a frame, with the system's for it: the median of the rounds, with the least and
the greatest. It needs weston, a C compiler, libwayland-dev, libwayland-bin and wayland-protocols of
Debian.
"""
import argparse
import os
import pathlib
import statistics
import subprocess
import tempfile
import time

PEER = pathlib.Path(__file__).resolve().parent / "peers" / "frames_client.c"
SHELL = "/usr/share/wayland-protocols/stable/xdg-shell/xdg-shell.xml"


def build(room):
    """The client, with the code that wayland-scanner writes for the shell."""
    for kind, name in (("client-header", "xdg-shell.h"), ("private-code", "xdg-shell.c")):
        subprocess.run(["wayland-scanner", kind, SHELL, room / name], check=True)
    program = room / "frames_client"
    subprocess.run(["cc", "-O2", "-I", room, PEER, room / "xdg-shell.c", "-lwayland-client", "-o", program], check=True)
    return program


def processor_seconds(process):
    fields = pathlib.Path(f"/proc/{process.pid}/stat").read_text().rpartition(") ")[2].split()
    return (int(fields[11]) + int(fields[12])) / os.sysconf("SC_CLK_TCK")


def weston(room):
    """A compositor that listens, by its process."""
    words = ["weston", "--backend=headless-backend.so", "--use-pixman", "--width=1920", "--height=1080", "--idle-time=0", "--socket=bench-0", "--no-config"]
    with open(room / "log", "w") as log:
        process = subprocess.Popen(words, stdout=log, stderr=log, env={**os.environ, "XDG_RUNTIME_DIR": str(room)}, start_new_session=True)
    for _ in range(100):
        if (room / "bench-0").exists():
            time.sleep(0.5)
            return process
        time.sleep(0.1)
    process.kill()
    raise SystemExit((room / "log").read_text())


def milliseconds(room, program, width, height, frames):
    """Weston's processor time for each frame of a client of this size, in milliseconds."""
    process = weston(room)
    try:
        before = processor_seconds(process)
        environment = {**os.environ, "XDG_RUNTIME_DIR": str(room), "WAYLAND_DISPLAY": "bench-0"}
        subprocess.run([program, str(width), str(height), str(frames)], check=True, env=environment, timeout=600)
        return 1000 * (processor_seconds(process) - before) / frames
    finally:
        process.terminate()
        process.wait()


def main():
    words = argparse.ArgumentParser(description=__doc__.splitlines()[0])
    words.add_argument("--frames", type=int, default=300)
    words.add_argument("--rounds", type=int, default=3)
    asked = words.parse_args()
    with tempfile.TemporaryDirectory() as name:
        room = pathlib.Path(name)
        os.chmod(room, 0o700)
        program = build(room)
        for width, height in ((1920, 1080), (8, 8)):
            seen = [milliseconds(room, program, width, height, asked.frames) for _ in range(asked.rounds)]
            print(f"{width} by {height}: {statistics.median(seen):.2f} ms a frame ({min(seen):.2f} to {max(seen):.2f}), load {os.getloadavg()[0]:.1f}")


if __name__ == "__main__":
    main()
