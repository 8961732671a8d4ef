"""A stand-in for a server that reads ranges, before the real one: it reads what `n.r` tells of, and gives it to the server as copies.

It passes on what the bridge and the server say to each other. Before bytes of a client go on to the server it does what a server does that hears of that
client: it reads the ranges of `n.r` where there is one, and else all side files of the client whole.
"""
import contextlib
import os
import pathlib
import select
import socket
import sys
import threading

sys.path.insert(0, str(pathlib.Path(__file__).resolve().parent))
from rig import Rig  # pylint: disable=wrong-import-position

PIECE = 65536  # bytes passed on at once
LINES = 4096  # of ranges
MOST = 1 << 20  # bytes of a file that is read whole


class Reader(threading.Thread):
    """Listens in place of the server, and reads the folder `shown` for it, into its own folder."""

    def __init__(self, room):
        super().__init__(daemon=True)
        self.room, self.shown, self.stored = room, room / "shown", room / "pools"
        self.shown.mkdir()
        self.listener = socket.socket(socket.AF_UNIX)
        self.listener.bind(str(room / "reader"))
        self.listener.listen(64)
        self.bytes = {}  # by client: how many were read of its memory by ranges
        self.fault = None

    def run(self):
        number = 0
        with contextlib.suppress(OSError):
            while True:
                near, _ = self.listener.accept()
                number += 1
                far = socket.socket(socket.AF_UNIX)
                far.connect(str(self.room / "server"))
                threading.Thread(target=self.pass_on, args=(number, near, far), daemon=True).start()

    def pass_on(self, number, near, far):
        with near, far, contextlib.suppress(ConnectionError):
            while True:
                for side in select.select([near, far], [], [])[0]:
                    data = side.recv(PIECE)
                    if side is near and data:
                        self.fill(number)
                    if not data and side is near:
                        far.shutdown(socket.SHUT_WR)
                        while rest := far.recv(PIECE):
                            near.sendall(rest)
                    if not data:
                        return
                    (far if side is near else near).sendall(data)

    def fill(self, number):
        """Reads what a server reads that hears of this client."""
        try:
            lines = (self.shown / f"{number}.r").read_text(encoding="ascii").splitlines()
        except FileNotFoundError:
            for each in self.shown.glob(f"{number}.*"):
                if each.name.split(".")[1].isdecimal():
                    self.read(each, 0, MOST, 0)
            return
        if len(lines) > LINES:
            self.fault = f"{len(lines)} lines"
        last = (0, 0)
        for store, at, size, begin in (map(int, it.split(" ")) for it in lines):
            if (store, at) <= last or size <= 0:
                self.fault = f"the lines {lines} aren't in order"
            last = store, at
            self.bytes[number] = self.bytes.get(number, 0) + self.read(self.shown / f"{number}.{store}", begin, size, at)

    def read(self, path, begin, size, at):
        """Puts bytes of a file into the server's, and answers how many."""
        try:
            source = os.open(path, os.O_RDONLY | os.O_NONBLOCK)
        except FileNotFoundError:
            return 0
        with open(source, "rb", buffering=0) as stream:
            if stream.seekable():  # a pipe, which the probe makes, isn't
                stream.seek(begin)
            data = b""
            while len(data) < size and (piece := stream.read(size - len(data))):  # None where a pipe is empty
                data += piece
        target = os.open(self.stored / path.name, os.O_RDWR | os.O_CREAT, 0o600)
        with open(target, "rb+", buffering=0) as stream:
            stream.seek(at)
            stream.write(data)
        return len(data)


class RangesRig(Rig):
    """A rig whose bridge finds a server that reads ranges. `said` tells what was read of which client."""

    def __init__(self, *options, **named):
        super().__init__(*options, bridge=False, **named)

    def __enter__(self):
        super().__enter__()
        self.reader = Reader(self.room)
        self.reader.start()
        self.shown = self.room / "shown"
        self.start_bridge("--server", "reader", "--dir", "shown", *self.options)
        return self

    def __exit__(self, *what):
        super().__exit__(*what)
        self.reader.listener.close()
