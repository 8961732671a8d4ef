"""A client for tests of tools/run: shows its window in one colour after the other, and then ends as it is told.

    painter.py [--size WxH] [--then leave|wait|fail|die|offend] RRGGBB ..

The window is 32 by 24 points large. It prints the size that it was asked to have, 0x0 where it is free.
"""
import argparse
import os
import pathlib
import resource
import signal
import sys
import time

sys.path.insert(0, str(pathlib.Path(__file__).resolve().parent))
from client import Client, Window  # pylint: disable=wrong-import-position

STATUS = 7  # of one that fails


class Painter(Window):
    """A window whose colour is told."""

    def paint(self, number, colour):
        self.draw(number % 2, 0xFF000000 | int(colour, 16))
        self.show(number % 2)


def main():
    parser = argparse.ArgumentParser()
    parser.add_argument("--size", default="32x24")
    parser.add_argument("--then", default="leave", choices=["leave", "wait", "fail", "die", "offend"])
    parser.add_argument("colours", nargs="*")
    asked = parser.parse_args()
    sides = [int(it) for it in asked.size.split("x")]
    most = resource.getrlimit(resource.RLIMIT_FSIZE)[1]
    resource.setrlimit(resource.RLIMIT_FSIZE, (most, most))  # a test may limit the files of the others
    with Client(pathlib.Path(os.environ["XDG_RUNTIME_DIR"]) / os.environ["WAYLAND_DISPLAY"]) as client:
        window = Painter(client, *sides)
        print("asked for {}x{}".format(*window.configure), flush=True)
        for number, colour in enumerate(asked.colours):
            window.paint(number, colour)
        if asked.then == "wait":
            time.sleep(60)
        if asked.then == "offend":
            client.send(window.base, "get_xdg_surface", window.surface)  # it has a role already
            client.error()
        if asked.then == "die":
            os.kill(os.getpid(), signal.SIGSEGV)
    return STATUS if asked.then == "fail" else 0


if __name__ == "__main__":
    sys.exit(main())
