#!/usr/bin/env python3
"""Measures what `wlframe serve` costs: round trips over its socket, and turns with idle clients.

    bench/server.py [--seconds S] [--turns N] [--idle S] [--peer]

- Round trips: 1 and 31 clients each send wl_display.sync, and read its two events before they send
  the next. One client sends 1,000 of them at once, and then reads all 2,000 events.
- Turns: how long N turns take with 0, 1 and 32 connections that send nothing.
- At a rate: how long a round trip takes at 60 and at 1,000 Hz.
- At 60 Hz over S seconds: the server's share of a processor with 0 and 32 connections that send
  nothing.

--peer asks libwayland's server the same (bench/peers/libwayland_server.c). It needs a C compiler
and Debian's libwayland-dev. Build the program first (`./wlframe --help`).
"""
import argparse
import os
import pathlib
import resource
import selectors
import socket
import struct
import subprocess
import tempfile
import time

TOP = pathlib.Path(__file__).resolve().parent.parent
PROGRAM = TOP / "crates" / "wlframe" / "out" / "wlframe"
PEER = TOP / "bench" / "peers" / "libwayland_server.c"
SYNC = struct.pack("=III", 1, 12 << 16, 2)  # wl_display.sync of the new id 2, which delete_id gives back
ANSWER = 24  # bytes of wl_callback.done and wl_display.delete_id
FOREVER = 1_000_000
BATCH = 1000


class Server:
    """A server in a folder of its own, which takes so many turns; or, at a rate, as many as it can until it is ended."""

    def __init__(self, turns=FOREVER, rate=None):
        self.turns = turns
        self.rate = rate

    def words(self):
        pace = ["--turns", str(self.turns)] if self.rate is None else ["--rate", str(self.rate)]
        return [PROGRAM, "serve", "--socket", self.path, *pace, "--dir", self.room.name, "--size", "64x64"]

    def __enter__(self):
        self.room = tempfile.TemporaryDirectory()
        self.path = pathlib.Path(self.room.name) / "socket"
        self.process = subprocess.Popen(self.words(), stdout=subprocess.DEVNULL)
        return self

    def connect(self):
        """A connection, once the server listens."""
        while True:
            client = socket.socket(socket.AF_UNIX)
            try:
                client.connect(str(self.path))
                return client
            except (FileNotFoundError, ConnectionRefusedError):
                client.close()
                if self.process.poll() is not None:
                    raise
                time.sleep(0.001)

    def __exit__(self, *_):
        self.process.kill()
        self.process.wait()
        self.room.cleanup()


class Peer(Server):
    """libwayland's server in a folder of its own."""

    def words(self):
        program = pathlib.Path(self.room.name) / "peer"
        flags = subprocess.run(["pkg-config", "--cflags", "--libs", "wayland-server"], check=True, capture_output=True, text=True).stdout.split()
        subprocess.run(["cc", "-O2", "-o", program, PEER, *flags], check=True)
        return [program, self.path]


def read(client, size):
    while size > 0:
        data = client.recv(size)
        if not data:
            raise ConnectionError("the server ended the client")
        size -= len(data)


def one_at_a_time(kind, count, seconds):
    """Round trips a second of so many clients together."""
    with kind() as server, selectors.DefaultSelector() as ready:
        for _ in range(count):
            client = server.connect()
            client.sendall(SYNC)
            ready.register(client, selectors.EVENT_READ)
        begun, done = time.monotonic(), 0
        while (passed := time.monotonic() - begun) < seconds:
            for key, _ in ready.select():
                read(key.fileobj, ANSWER)
                done += 1
                key.fileobj.sendall(SYNC)
        return done / passed


def batches(kind, seconds):
    """Requests a second of a client that sends them by the thousand. Their ids differ, since each is given back only once it is answered."""
    requests = b"".join(struct.pack("=III", 1, 12 << 16, 2 + number) for number in range(BATCH))
    with kind() as server:
        client = server.connect()
        begun, done = time.monotonic(), 0
        while (passed := time.monotonic() - begun) < seconds:
            client.sendall(requests)
            read(client, ANSWER * BATCH)
            done += BATCH
        return done / passed


def turns(count, number):
    """The wall and processor microseconds of a turn with so many connections that send nothing."""
    before = resource.getrusage(resource.RUSAGE_CHILDREN)
    with Server(number) as server:
        clients = [server.connect() for _ in range(count)]
        begun = time.monotonic()
        if server.process.wait() != 0:
            raise RuntimeError("the server failed")
        wall = time.monotonic() - begun
        for client in clients:
            client.close()
    after = resource.getrusage(resource.RUSAGE_CHILDREN)
    spent = after.ru_utime + after.ru_stime - before.ru_utime - before.ru_stime
    return wall / number * 1e6, spent / number * 1e6


def trip(rate, seconds):
    """The milliseconds of a round trip at this rate, one at a time: the middle one, and the longest."""
    with Server(rate=rate) as server:
        client = server.connect()
        begun, took = time.monotonic(), []
        while (sent := time.monotonic()) - begun < seconds:
            client.sendall(SYNC)
            read(client, ANSWER)
            took.append((time.monotonic() - sent) * 1e3)
        took.sort()
        return took[len(took) // 2], took[-1]


def processor_seconds(process):
    """What a process took of a processor until now."""
    fields = pathlib.Path(f"/proc/{process.pid}/stat").read_text().rsplit(")", 1)[1].split()
    return (int(fields[11]) + int(fields[12])) / os.sysconf("SC_CLK_TCK")


def idle_share(count, rate, seconds):
    """Which share of a processor the server takes at this rate with so many connections that send nothing."""
    with Server(rate=rate) as server:
        clients = [server.connect() for _ in range(count)] or [server.connect()]
        for client in clients[count:]:
            client.close()
        time.sleep(0.5)
        before, begun = processor_seconds(server.process), time.monotonic()
        time.sleep(seconds)
        spent, passed = processor_seconds(server.process) - before, time.monotonic() - begun
        for client in clients:
            client.close()
    return spent / passed


def main():
    parser = argparse.ArgumentParser(description="What wlframe serve costs.")
    parser.add_argument("--seconds", type=float, default=3.0)
    parser.add_argument("--turns", type=int, default=100_000)
    parser.add_argument("--idle", type=float, default=20.0, help="how many seconds of an idle server are measured")
    parser.add_argument("--peer", action="store_true", help="measure libwayland's server too")
    asked = parser.parse_args()
    for name, kind in [("wlframe", Server), ("libwayland", Peer)][: 2 if asked.peer else 1]:
        for count in (1, 31):
            print(f"{name}, {count:2} clients, one request at a time each: {one_at_a_time(kind, count, asked.seconds):10,.0f} round trips/s")
        print(f"{name},  1 client, {BATCH:,} requests at a time:      {batches(kind, asked.seconds):10,.0f} requests/s")
    for count in (0, 1, 32):
        wall, spent = turns(count, asked.turns)
        print(f"{count:2} idle clients: {wall:7.2f} us a turn, {spent:7.2f} us of processor time")
    for rate in (60, 1000):
        middle, longest = trip(rate, asked.seconds)
        print(f"--rate {rate:4}, 1 client, one request at a time: {middle:7.2f} ms a round trip, {longest:7.2f} at most")
    for count in (0, 32):
        print(f"--rate   60, {count:2} idle clients: {idle_share(count, 60, asked.idle) * 100:5.2f} % of a processor")


if __name__ == "__main__":
    main()
