"""A stand-in for the server's viewer socket: it greets, tells what a test says, and keeps the lines that it was sent."""
import pathlib
import socket
import struct
import sys
import threading

sys.path.insert(0, str(pathlib.Path(__file__).resolve().parent.parent))


def pixels(*colours):
    """The bytes of pixels 0xrrggbb, as a server tells them."""
    return b"".join(struct.pack("<I", 0xFF000000 | colour) for colour in colours)


def run(x, y, *colours):
    """The bytes of a run."""
    return struct.pack("<III", x, y, len(colours)) + pixels(*colours)


def update(time, *runs):
    """The bytes of an update."""
    return f"frame {time} {len(runs)}\n".encode() + b"".join(runs)


class Server:
    """Takes one viewer. `answers` maps a line to the bytes that answer it; a sync is answered by itself."""

    def __init__(self, path, width, height, answers=None):
        self.path, self.greeting, self.answers = str(path), f"wlframe 1 {width} {height}\n".encode(), answers or {}
        self.lines, self.time = [], 0
        self.listener = socket.socket(socket.AF_UNIX)
        self.listener.bind(self.path)
        self.listener.listen(1)
        self.thread = threading.Thread(target=self.serve, daemon=True)
        self.thread.start()

    def serve(self):
        self.viewer, _ = self.listener.accept()
        with self.viewer:
            self.viewer.sendall(self.greeting)
            rest = b""
            while piece := self.viewer.recv(4096):
                *lines, rest = (rest + piece).split(b"\n")
                for line in lines:
                    self.lines.append(line.decode())
                    self.answer(line.decode())

    def answer(self, line):
        if line in self.answers:
            self.viewer.sendall(self.answers[line])
        elif line.startswith("sync "):
            self.time += 16
            self.viewer.sendall(f"synced {line.split()[1]} {self.time}\n".encode())

    def close(self):
        self.listener.close()
