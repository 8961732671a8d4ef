#!/usr/bin/env python3
"""Looks at a server's output through its viewer's socket, and saves what it sees as a binary PPM image.

    wlframe serve --socket wlframe.sock --rate 60 --viewer viewer.sock
    examples/viewer.py viewer.sock shot.ppm                               saves the output as it is
    examples/viewer.py viewer.sock shot.ppm "motion 20 30" "button 272 1" "button 272 0"     does this first

It ends once all that it sent has been done and shown. docs/VIEWER.md has the format.
"""
import socket
import struct
import sys
from typing import BinaryIO


class Viewer:
    """A viewer of an output, and the picture that it keeps: blue, green, red and 255 for each pixel."""

    def __init__(self, path: str) -> None:
        self.connection = socket.socket(socket.AF_UNIX)
        self.connection.connect(path)
        self.stream: BinaryIO = self.connection.makefile("rb")
        words = self.stream.readline().split()
        if words[:2] != [b"wlframe", b"1"]:
            raise OSError(f"{path} is no viewer's socket, or somebody else has the place")
        self.width, self.height = int(words[2]), int(words[3])
        self.picture = bytearray(4 * self.width * self.height)
        self.syncs = 0

    def send(self, line: str) -> None:
        """Sends a line, as `motion X Y`."""
        self.connection.sendall(line.encode() + b"\n")

    def sync(self) -> int:
        """Waits until all that was sent has been done and shown. Returns the time of that tick."""
        self.syncs += 1
        self.send(f"sync {self.syncs}")
        while True:
            words = self.read()
            if words[0] == b"synced" and int(words[1]) == self.syncs:
                return int(words[2])

    def read(self) -> list[bytes]:
        """Reads what is told next, copies the pixels of an update, and returns the words of its line."""
        words = self.stream.readline().split()
        if not words:
            raise OSError("the connection ended")
        if words[0] == b"bad":
            raise ValueError("the server took a line for none")
        if words[0] == b"frame":
            for _ in range(int(words[2])):
                self.copy_run()
        return words

    def copy_run(self) -> None:
        """Copies one run of pixels."""
        x, y, w = struct.unpack("<3I", self.stream.read(12))
        start = 4 * (y * self.width + x)
        self.picture[start : start + 4 * w] = self.stream.read(4 * w)


def ppm_of(viewer: Viewer) -> bytes:
    """Returns the picture as a binary PPM file."""
    colors = bytearray(3 * viewer.width * viewer.height)
    for channel in range(3):
        colors[channel::3] = viewer.picture[2 - channel :: 4]
    return b"P6\n%d %d\n255\n" % (viewer.width, viewer.height) + colors


def main() -> None:
    if len(sys.argv) < 3:
        print(__doc__.strip(), file=sys.stderr)
        sys.exit(2)
    viewer = Viewer(sys.argv[1])
    for line in sys.argv[3:]:
        viewer.send(line)
    time = viewer.sync()
    with open(sys.argv[2], "wb") as file:
        file.write(ppm_of(viewer))
    print(f"{sys.argv[2]}: the frame at {time}")


if __name__ == "__main__":
    try:
        main()
    except (OSError, ValueError) as error:
        sys.exit(f"examples/viewer.py: {error}")
