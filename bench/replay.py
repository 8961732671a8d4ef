#!/usr/bin/env python3
"""Measures `wlframe replay` on recordings of many wl_display.sync requests.

    bench/replay.py [--syncs N] [--rounds N]

It writes recordings with 5,000 requests a line and with a byte a line, each in a size and in twice that size, and plays them by
the built program in rounds: in each round both sizes, one right after the other, so that both meet the same load. It prints
requests a second, megabytes of recording and of report a second, and how much longer twice the size takes.

Times are processor time, the program's own and the system's for it. A sample is as many runs as take a second at least. Rates are
of the least sample, since other work on the machine can only add to one. The ratio is the median of the rounds' ratios; that of
the least samples, the extremes and the load stand beside it. The report of a first run goes to a file, for its length, and that of
a timed run to /dev/null, so that no disk is timed. The peak memory is that of the first runs, as /proc tells it.

Where valgrind is installed the instructions of smaller runs are counted too. No load changes them.
"""
import argparse
import os
import pathlib
import shutil
import statistics
import subprocess
import sys
import tempfile
import time

PROGRAM = pathlib.Path(__file__).resolve().parent.parent / "crates" / "wlframe" / "out" / "wlframe"
SYNC = "0100000000000c0002000000"
SYNCS_A_LINE = 5_000
BYTES_A_SYNC = len(SYNC) // 2
MOST_LINES = 1_000_000
SAMPLE_SECONDS = 1.0
MOST_COUNTED = 500_000


def write_long_lines(stream, syncs):
    """A recording with 5,000 requests a line."""
    line = f"bytes 1 {SYNC * SYNCS_A_LINE}\n".encode()
    stream.write(b"connect\n")
    for _ in range(syncs // SYNCS_A_LINE):
        stream.write(line)
    stream.write(b"tick 0\n")


def write_short_lines(stream, syncs):
    """A recording with one byte of a request a line."""
    pairs = [SYNC[i : i + 2] for i in range(0, len(SYNC), 2)]
    lines = "".join(f"bytes 1 {pair}\n" for pair in pairs).encode()
    stream.write(b"connect\n")
    for _ in range(syncs):
        stream.write(lines)
    stream.write(b"tick 0\n")


def peak_memory(process):
    """The peak memory of a running process in kB, or 0 where it has ended."""
    try:
        status = pathlib.Path(f"/proc/{process}/status").read_text()
    except OSError:
        return 0
    return sum(int(line.split()[1]) for line in status.splitlines() if line.startswith("VmHWM:"))


def start(recording, report):
    """Plays a recording from its start."""
    recording.seek(0)
    return subprocess.Popen([PROGRAM, "replay", "--size", "2x1"], stdin=recording, stdout=report)


def seconds_of(child, status, used):
    """The processor time of a child that has ended."""
    child.returncode = os.waitstatus_to_exitcode(status)
    if child.returncode != 0:
        sys.exit(f"the program ended with status {child.returncode}")
    return used.ru_utime + used.ru_stime


def play(recording):
    """A timed run."""
    child = start(recording, subprocess.DEVNULL)
    _, status, used = os.wait4(child.pid, 0)
    return seconds_of(child, status, used)


def play_first(recording):
    """A run's seconds, the length of its report, and its peak memory in kB."""
    with tempfile.TemporaryFile() as report:
        child = start(recording, report)
        peak = 0
        ended = 0
        while not ended:
            peak = max(peak, peak_memory(child.pid))
            time.sleep(0.005)
            ended, status, used = os.wait4(child.pid, os.WNOHANG)
        return seconds_of(child, status, used), report.seek(0, os.SEEK_END), peak


def instructions(write, syncs):
    """How many instructions a run takes, as valgrind counts them."""
    counting = ["valgrind", "--tool=cachegrind", "--cache-sim=no", "--cachegrind-out-file=/dev/null"]
    with tempfile.TemporaryFile() as recording:
        write(recording, syncs)
        recording.seek(0)
        run = subprocess.run(
            [*counting, PROGRAM, "replay", "--size", "2x1"],
            stdin=recording, stdout=subprocess.DEVNULL, stderr=subprocess.PIPE, text=True, check=True,
        )
    line = next(line for line in run.stderr.splitlines() if "refs:" in line)
    return int(line.split(":")[1].replace(",", ""))


class Size:
    """One size of a recording, and what its samples took."""

    def __init__(self, write, syncs):
        self.recording = tempfile.TemporaryFile()
        write(self.recording, syncs)
        self.length = self.recording.tell()
        seconds, self.written, self.peak = play_first(self.recording)
        self.runs = int(SAMPLE_SECONDS / seconds) + 1
        self.samples = []

    def sample(self):
        """The mean of some runs, which take a second at least."""
        self.samples.append(statistics.fmean(play(self.recording) for _ in range(self.runs)))

    def told(self):
        return f"{min(self.samples):.3f} to {max(self.samples):.3f} s ({self.runs} runs a sample)"


def measure(name, write, syncs, rounds):
    once, twice = Size(write, syncs), Size(write, 2 * syncs)
    for turn in range(rounds):
        for size in (once, twice) if turn % 2 == 0 else (twice, once):
            size.sample()
    seconds = min(once.samples)
    ratios = [two / one for one, two in zip(once.samples, twice.samples)]
    print(
        f"{name}: {syncs / seconds:,.0f} requests/s, {once.length / seconds / 1e6:.0f} MB/s of recording, "
        f"{once.written / seconds / 1e6:.0f} MB/s of report\n"
        f"    {once.length / 1e6:.1f} MB take {once.told()}, {twice.length / 1e6:.1f} MB {twice.told()}\n"
        f"    twice the size takes {statistics.median(ratios):.2f} times as long by the median of {rounds} rounds "
        f"({min(ratios):.2f} to {max(ratios):.2f}), {min(twice.samples) / seconds:.2f} by the least samples"
    )
    if shutil.which("valgrind"):
        syncs = min(syncs, MOST_COUNTED)
        count, doubled = instructions(write, syncs), instructions(write, 2 * syncs)
        print(f"    {count / syncs:,.0f} instructions a request; twice the size takes {doubled / count:.3f} times as many")
    return max(once.peak, twice.peak)


def main():
    options = argparse.ArgumentParser(description="Measures `wlframe replay`.")
    options.add_argument("--syncs", type=int, default=10_000_000, help="requests in the recording of long lines")
    options.add_argument("--rounds", type=int, default=15, help="samples of each size")
    options = options.parse_args()
    if not PROGRAM.exists():
        sys.exit("build the program first: ./wlframe --help")
    before = os.getloadavg()[0]
    peak = measure("5,000 requests a line", write_long_lines, options.syncs, options.rounds)
    short = (MOST_LINES - 2) // (2 * BYTES_A_SYNC)
    peak = max(peak, measure("one byte a line", write_short_lines, short, options.rounds))
    print(f"peak memory: {peak:,} kB")
    print(f"load before and after, on {os.cpu_count()} processors: {before:.1f}, {os.getloadavg()[0]:.1f}")


if __name__ == "__main__":
    main()
