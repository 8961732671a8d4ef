#!/usr/bin/env python3
"""Measures whether one client's flood slows another client of `wlframe serve` for good.

    bench/flood.py [--requests N] [--trips N]

One client makes round trips (wl_display.sync and its two events) before, during and after the
other's flood. Each line is their median in microseconds. After the flood they should take as long
as before.

The flood is N xdg_toplevel.set_title requests, whose titles are full of the word 0x00100000. That
is how the second word of a wl_shm.create_pool looks, but no pool is made. Build the program first
(`./wlframe --help`).
"""
import argparse
import statistics
import struct
import threading
import time

from server import ANSWER, SYNC, Server, read

WORD = struct.pack("=I", 0x00100000)
TITLE = WORD * 1000 + b"\0\0\0\0"  # its last byte is the NUL that ends it


def message(target, opcode, body=b""):
    return struct.pack("=II", target, (8 + len(body)) << 16 | opcode) + body


def string(text):
    """A string of the wire: its length with the NUL, and bytes up to a whole word."""
    data = text.encode() + b"\0"
    return struct.pack("=I", len(data)) + data + bytes(-len(data) % 4)


def names(client):
    """The names of the globals by interface, as wl_registry 2 tells them."""
    client.sendall(message(1, 1, struct.pack("=I", 2)) + message(1, 0, struct.pack("=I", 3)))
    found, data = {}, b""
    while True:
        data += client.recv(4096)
        while len(data) >= 8 and len(data) >= (size := struct.unpack_from("=I", data, 4)[0] >> 16):
            target, body, data = struct.unpack_from("=I", data)[0], data[8:size], data[size:]
            if target == 2:
                name, length = struct.unpack_from("=II", body)
                found[body[8 : 8 + length - 1].decode()] = name
            elif target == 3:
                return found


def bind(found, interface, version, new):
    return message(2, 0, struct.pack("=I", found[interface]) + string(interface) + struct.pack("=II", version, new))


def toplevel(client):
    """Makes the xdg_toplevel 8."""
    found = names(client)
    client.sendall(bind(found, "wl_compositor", 1, 4) + bind(found, "xdg_wm_base", 1, 5))
    client.sendall(message(4, 0, struct.pack("=I", 6)) + message(5, 2, struct.pack("=II", 7, 6)) + message(7, 1, struct.pack("=I", 8)))


def median(client, trips):
    """The median of so many round trips, in microseconds."""
    times = []
    for _ in range(trips):
        begun = time.monotonic()
        client.sendall(SYNC)
        read(client, ANSWER)
        times.append(time.monotonic() - begun)
    return statistics.median(times) * 1e6


def main():
    parser = argparse.ArgumentParser(description="Round trips beside a flood of titles.")
    parser.add_argument("--requests", type=int, default=10_000)
    parser.add_argument("--trips", type=int, default=2_000)
    asked = parser.parse_args()
    title = message(8, 2, struct.pack("=I", len(TITLE)) + TITLE)
    with Server() as server:
        quiet, loud = server.connect(), server.connect()
        toplevel(loud)
        print(f"before the flood: {median(quiet, asked.trips):8.1f} us a round trip", flush=True)
        flood = threading.Thread(target=lambda: [loud.sendall(title) for _ in range(asked.requests)])
        flood.start()
        print(f"during the flood: {median(quiet, asked.trips):8.1f} us a round trip", flush=True)
        flood.join()
        print(f"after {asked.requests:,} requests: {median(quiet, asked.trips):8.1f} us a round trip", flush=True)
        loud.sendall(message(1, 0, struct.pack("=I", 9)))
        loud.settimeout(10)
        if not loud.recv(4096):
            raise ConnectionError("the server ended the client that flooded it")


if __name__ == "__main__":
    main()
