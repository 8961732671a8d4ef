#!/usr/bin/env python3
"""Measures what a frame of a real client costs, from its memory to a picture.

    bench/clients.py [--program FILE] [--seconds S] [--size WxH] [--weston] [--only WORD]

Each installed client runs under tools/run for some seconds (10). A line tells how many frames a
second painted something, by the server's report. Then it tells the processor milliseconds of a
frame: of the server, of the bridge and of tools/run, each with the system's time for it.

--weston runs the same client afterwards under weston's headless compositor with its pixman
renderer. Then the line also tells its commits a second, by WAYLAND_DEBUG, and weston's time for
each.
"""
import argparse
import contextlib
import os
import pathlib
import re
import shutil
import subprocess
import tempfile
import time

import weston

RUN = pathlib.Path(__file__).resolve().parent.parent / "tools" / "run"
WARM = 2  # seconds before it is counted
START = 60  # seconds until a client shows something, at most
SMALL, LARGE = "640x480", "1920x1080"
VIDEO = "mpv --vo=wlshm --no-audio --no-terminal --no-config av://lavfi:testsrc=rate=60:size={}"
GST = "gst-launch-1.0 -q videotestsrc ! video/x-raw,width={},height={},framerate=60/1 ! waylandsink"
# By their names: the output's size, and the command.
CLIENTS = {
    "mpv 640x480": (SMALL, VIDEO.format(SMALL)),
    "mpv 1080p": (LARGE, VIDEO.format(LARGE)),
    "gst 640x480": (SMALL, GST.format(*SMALL.split("x"))),
    "gst 1080p": (LARGE, GST.format(*LARGE.split("x"))),
    "terminal that scrolls": (LARGE, ["foot", "sh", "-c", "while :; do seq 1000; done"]),
    "terminal that blinks": (LARGE, ["foot", "-o", "cursor.blink=yes", "sleep", "1000"]),
    "weston-simple-shm": (LARGE, "weston-simple-shm"),
    "all of 1080p": (LARGE, "frames_client 1920 1080 1000000"),  # bench/peers has it
    "40 by 30 points of 1080p": (LARGE, "frames_client 1920 1080 1000000 40 30"),
}


def below(process):
    """The processes that a process has started, and those that these have."""
    found = []
    for task in pathlib.Path(f"/proc/{process}/task").iterdir():
        with contextlib.suppress(OSError):
            for each in (task / "children").read_text(encoding="ascii").split():
                found += [int(each), *below(int(each))]
    return found


def parts_of(tool):
    """The processes that are measured, by their names, of those that are there: the server, the bridge, and tools/run."""
    found = {"tools/run": tool}
    for each in below(tool):
        with contextlib.suppress(OSError):
            words = pathlib.Path(f"/proc/{each}/cmdline").read_bytes().split(b"\0")
            for name, word in (("server", b"serve"), ("bridge", b"--listen")):
                if word in words:
                    found[name] = each
    return {name: found[name] for name in ("server", "bridge", "tools/run") if name in found}


def seconds_of(process):
    """The processor time of a process so far."""
    tasks = pathlib.Path(f"/proc/{process}/task").iterdir()
    return sum(int((it / "schedstat").read_text(encoding="ascii").split()[0]) for it in tasks) / 1e9


def under_wlframe(room, asked, size, command):
    """Frames a second, and milliseconds a frame of server, bridge and tools/run; nothing where the client shows nothing, or ends."""
    report = room / "report"
    words = [RUN, "--size", asked.size or size, "--seconds", str(WARM + asked.seconds + START), "--report", report]
    words += ["--program", os.path.abspath(asked.program)] if asked.program else []
    with subprocess.Popen([*words, "--", *command], stdout=subprocess.DEVNULL, stderr=subprocess.DEVNULL) as tool:
        try:
            until = time.monotonic() + START
            while not frames_in(report):
                if tool.poll() is not None or time.monotonic() > until:
                    return None
                time.sleep(0.1)
            time.sleep(WARM)
            parts = parts_of(tool.pid)
            frames, before, begun = frames_in(report), {name: seconds_of(it) for name, it in parts.items()}, time.monotonic()
            time.sleep(asked.seconds)
            count, took = frames_in(report) - frames, time.monotonic() - begun
            return count / took, {name: 1000 * (seconds_of(it) - before[name]) / max(count, 1) for name, it in parts.items()}
        except OSError:
            return None
        finally:
            tool.terminate()


def frames_in(report):
    """In how many frames of a report something was painted."""
    with contextlib.suppress(FileNotFoundError):
        return sum(line.startswith("frame ") and not line.endswith(" 0") for line in report.read_text(encoding="ascii").splitlines())
    return 0


def under_weston(room, asked, command):
    """Commits a second, and milliseconds of weston for each; nothing where the client commits nothing."""
    process = weston.weston(room)
    environment = {**os.environ, "XDG_RUNTIME_DIR": str(room), "WAYLAND_DISPLAY": "bench-0", "WAYLAND_DEBUG": "client"}
    try:
        with open(room / "debug", "wb") as debug, subprocess.Popen(command, env=environment, stdout=subprocess.DEVNULL, stderr=debug, start_new_session=True) as client:
            try:
                until = time.monotonic() + START
                while not commits_in(room):
                    if client.poll() is not None or time.monotonic() > until:
                        return None
                    time.sleep(0.1)
                time.sleep(WARM)
                commits, before, begun = commits_in(room), seconds_of(process.pid), time.monotonic()
                time.sleep(asked.seconds)
                count, took = commits_in(room) - commits, time.monotonic() - begun
                return count / took, 1000 * (seconds_of(process.pid) - before) / max(count, 1)
            finally:
                client.terminate()
    finally:
        process.terminate()
        process.wait()


def commits_in(room):
    """How many surfaces were committed, by what the client says of its requests."""
    return len(re.findall(rb"wl_surface[@#]\d+\.commit\(", (room / "debug").read_bytes()))


def main():
    words = argparse.ArgumentParser(description=__doc__.splitlines()[0])
    words.add_argument("--program", help="the program, where it isn't the one that tools/run takes")
    words.add_argument("--seconds", type=float, default=10)
    words.add_argument("--size", help="the output's size, in place of each client's own")
    words.add_argument("--weston", action="store_true", help="run each under weston too")
    words.add_argument("--only", default="", help="those clients whose names have this in them")
    asked = words.parse_args()
    for name, (size, command) in CLIENTS.items():
        command = command.split() if isinstance(command, str) else command
        if asked.only not in name:
            continue
        needs = "wayland-scanner" if command[0] == "frames_client" else command[0]
        if not shutil.which(needs):
            print(f"{name}: {needs} isn't installed", flush=True)
            continue
        with tempfile.TemporaryDirectory() as folder:
            room = pathlib.Path(folder)
            os.chmod(room, 0o700)
            if command[0] == "frames_client":
                command = [str(weston.build(room)), *command[1:]]
            measured = under_wlframe(room, asked, size, command)
            if measured is None:
                told = f"{name}: it shows nothing, or ends"
            else:
                told = f"{name}: {measured[0]:.1f} frames/s; " + ", ".join(f"{part} {took:.2f} ms" for part, took in measured[1].items())
            if asked.weston:
                measured = under_weston(room, asked, command)
                told += "; under weston " + ("it commits nothing, or ends" if measured is None else f"{measured[0]:.1f} commits/s, {measured[1]:.2f} ms")
        print(f"{told}; load {os.getloadavg()[0]:.1f}", flush=True)


if __name__ == "__main__":
    main()
