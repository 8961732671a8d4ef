#!/usr/bin/env python3
"""Writes down what a Wayland client sends first, as a recording.

    examples/capture.py COMMAND [WORD ...] > RECORDING

It listens on a socket of its own, starts the command with WAYLAND_DISPLAY set to that socket, and answers nothing. So the
recording holds what the client sends before it waits for an answer. After a second without bytes the command is stopped.
"""
import os
import pathlib
import socket
import subprocess
import sys
import tempfile

BYTES_A_LINE = 4096
SILENCE = 1.0


def pieces(connection):
    """What comes, until nothing came for a second."""
    connection.settimeout(SILENCE)
    while True:
        try:
            piece = connection.recv(BYTES_A_LINE)
        except socket.timeout:
            return
        if not piece:
            return
        yield piece


def main():
    if len(sys.argv) < 2:
        sys.exit(__doc__)
    with tempfile.TemporaryDirectory() as folder, socket.socket(socket.AF_UNIX) as listener:
        path = pathlib.Path(folder) / "wayland-0"
        listener.bind(str(path))
        listener.listen(1)
        listener.settimeout(10)
        environment = {**os.environ, "WAYLAND_DISPLAY": str(path)}
        client = subprocess.Popen(sys.argv[1:], env=environment, stdout=subprocess.DEVNULL, stderr=subprocess.DEVNULL)
        try:
            connection, _ = listener.accept()
            with connection:
                print("connect")
                for piece in pieces(connection):
                    print(f"bytes 1 {piece.hex()}")
                print("tick 0")
        finally:
            client.kill()
            client.wait()


if __name__ == "__main__":
    main()
