#!/usr/bin/env python3
"""Measures whether a view of a display holds: mpv plays a film over all of it, with and without a view.

    bench/view.py [--program FILE] [--seconds S] [--without S] [--rounds N] [--size WxH] [--looks N]

It prints each process's resident memory after a tenth of the time, half of it and all. It also
prints the server's processor time for a frame, and the time between two frames.

In each round it runs --without seconds (300) without a view, and then --seconds (1800) with one.
There a viewer looks N times a second (5).
"""
import argparse
import os
import pathlib
import re
import subprocess
import sys
import tempfile
import threading
import time

TOP = pathlib.Path(__file__).resolve().parent.parent
sys.path[:0] = [str(TOP / "tools" / "tests"), str(TOP / "python")]
from rfb import Line, Refused, Viewer  # pylint: disable=wrong-import-position

TICK = os.sysconf("SC_CLK_TCK")
NAMES = {  # of processes, by what stands in their words
    "server": r"\0serve\0",
    "bridge": r"\0--listen\0.*\0--server\0",
    "wayvnc": r"wayvnc\0.*127\.0\.0\.1",
    "wayvnc of the page": r"wayvnc\0.*unix-socket",
    "websockify": "websockify",
    "mpv": "mpv\0",
}
MANY = 100  # frames until all are up
SKIPPED = 10  # seconds behind them until all goes on as it will
LONGEST = 300  # seconds that all may take to come up
WARM = 0.1  # of the time


def children(number):
    """A process and all below it."""
    below = {}
    for each in pathlib.Path("/proc").glob("[0-9]*"):
        try:
            parent = int((each / "stat").read_text().rpartition(")")[2].split()[1])
        except OSError:
            continue
        below.setdefault(parent, []).append(int(each.name))
    found, waiting = [], [number]
    while waiting:
        found.append(waiting.pop())
        waiting += below.get(found[-1], [])
    return found


def processes(number):
    """By their names here: the processes below one."""
    found = {}
    for each in children(number):
        try:
            words = pathlib.Path(f"/proc/{each}/cmdline").read_text(errors="replace")
        except OSError:
            continue
        for name, pattern in NAMES.items():
            if re.search(pattern, words, re.DOTALL) and "tools/run" not in words and name not in found:
                found[name] = each
                break
    return found


def resident(number):
    """The memory of a process that lies in memory, in MB."""
    return int(re.search(r"VmRSS:\s*(\d+)", pathlib.Path(f"/proc/{number}/status").read_text())[1]) / 1024


def processor(number):
    """The seconds of a processor that a process has taken."""
    words = pathlib.Path(f"/proc/{number}/stat").read_text().rpartition(")")[2].split()
    return (int(words[11]) + int(words[12])) / TICK


def look(port, asked, looked):
    """Looks at the view until it ends."""
    viewer = Viewer(Line("127.0.0.1", port))
    try:
        while True:
            viewer.changes()
            looked.append(time.monotonic())
            time.sleep(1 / asked.looks)
    except (Refused, OSError):
        pass


def frames(report):
    """The times of the frames that a report has, in milliseconds."""
    return [int(it) for it in re.findall(r"^frame (\d+) ", report.read_text(), re.MULTILINE)] if report.exists() else []


def share(numbers, part):
    return sorted(numbers)[min(int(part * len(numbers)), len(numbers) - 1)] if numbers else 0


def measure(asked, with_view, seconds):
    """Shows a film for so long, and prints what was seen."""
    with tempfile.TemporaryDirectory() as folder:
        report, looked = pathlib.Path(folder) / "report", []
        words = [sys.executable, TOP / "tools" / "run", "--size", asked.size, "--fullscreen", "--seconds", str(seconds + LONGEST), "--report", report]
        film = f"av://lavfi:testsrc=size={asked.size}:rate=30"
        words += [*(["--view"] if with_view else []), "--", "mpv", "--vo=wlshm", "--no-audio", "--no-terminal", "--no-config", film]
        with subprocess.Popen(words, stderr=subprocess.PIPE, text=True, env={**os.environ, "WLFRAME": asked.program}) as run:
            if with_view:
                port = int(re.search(r"127\.0\.0\.1:(\d+)", run.stderr.readline())[1])
                threading.Thread(target=look, args=(port, asked, looked), daemon=True).start()
            threading.Thread(target=run.stderr.read, daemon=True).start()
            while len(frames(report)) < MANY:
                time.sleep(1)
            time.sleep(SKIPPED)
            found = processes(run.pid)
            begun, taken, shown = time.monotonic(), processor(found["server"]), len(frames(report))
            samples = []
            while time.monotonic() < begun + seconds and run.poll() is None:
                samples.append((time.monotonic() - begun, {name: resident(it) for name, it in found.items()}))
                print(f"{samples[-1][0]:.0f} s: " + ", ".join(f"{name} {size:.1f} MB" for name, size in samples[-1][1].items()), file=sys.stderr, flush=True)
                time.sleep(min(30, seconds / 10))
            taken = processor(found["server"]) - taken
            times = frames(report)[shown:]
            run.terminate()
            run.wait()
        tell(with_view, samples, taken, times, looked)


def tell(with_view, samples, taken, times, looked):
    gaps = [b - a for a, b in zip(times, times[1:])]
    print(f"{'with' if with_view else 'without'} a view, {samples[-1][0]:.0f} s: {len(times)} frames; of the server {1000 * taken / max(len(times), 1):.2f} ms of a processor for each")
    print(f"  between two frames {share(gaps, 0.5)} ms by the median, {share(gaps, 0.99)} by the 99th of 100, {max(gaps, default=0)} at most; the viewer was told {len(looked)} updates")
    last = samples[-1][0]
    for name in samples[0][1]:
        at = [min(samples, key=lambda it, part=part: abs(it[0] - part * last))[1][name] for part in (WARM, 0.5, 1)]
        print(f"  {name}: {at[0]:.1f}, {at[1]:.1f} and {at[2]:.1f} MB, {max(it[1][name] for it in samples):.1f} at most", flush=True)


def main():
    parser = argparse.ArgumentParser(description=__doc__, formatter_class=argparse.RawDescriptionHelpFormatter)
    parser.add_argument("--program", default=str(TOP / "crates" / "wlframe" / "out" / "wlframe"), metavar="FILE")
    parser.add_argument("--seconds", type=float, default=1800, metavar="S")
    parser.add_argument("--without", type=float, default=300, metavar="S")
    parser.add_argument("--rounds", type=int, default=1, metavar="N")
    parser.add_argument("--size", default="1280x800", metavar="WxH")
    parser.add_argument("--looks", type=float, default=5, metavar="N")
    asked = parser.parse_args()
    for _ in range(asked.rounds):
        measure(asked, False, asked.without)
        measure(asked, True, asked.seconds)


if __name__ == "__main__":
    main()
