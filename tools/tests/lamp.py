"""A client for tests of displays: a window with a title that changes its colour at each press of the left button.

    lamp.py [--size WxH] [--title TEXT] [--app-id NAME] [--geometry X,Y,W,H] [--blink X,Y,W,H] [--noise] [--after SECONDS] [--leave SECONDS] [--keys]

It is dark blue at first, and then red, green and blue in turn. A press of the right button ends it with status 7, the middle one makes a bad request, and the side one
crashes it. It writes each press with its point, and each turn of the wheel. With --keys it writes each key that goes down too, with the modifiers that are depressed. It takes each
size that it is asked to have. With --blink it changes the colour of that box all the time, each time to one that the box never had, and with --noise each pixel has a colour of its own, which stays.
--after lets it wait before it shows its window, and --leave lets it go so long after that.
"""
import argparse
import os
import pathlib
import random
import select
import signal
import sys
import time

sys.path.insert(0, str(pathlib.Path(__file__).resolve().parent))
from client import Client, Window  # pylint: disable=wrong-import-position

COLOURS = (0x000080, 0xFF0000, 0x00FF00, 0x0000FF)
LEFT, RIGHT, MIDDLE, SIDE = 0x110, 0x111, 0x112, 0x113
STATUS = 7
LONG = 3600.0  # seconds that it stays, where nothing else is asked
BLINK = 0.05  # seconds
BLINKS, STRIDE = 1 << 21, 40_503  # how many colours a box that blinks has, and an odd number, by which neighbours differ much


def blinking(number):
    """The colour of a box that blinks, as 0xaarrggbb, by the number of the painting. No two of BLINKS paintings have the same: who looks at each second one sees it change too.
    Red, green and blue are 128 at least, as in no colour of a lamp."""
    mixed = number * STRIDE % BLINKS
    return 0xFF808080 | mixed >> 14 << 16 | (mixed >> 7 & 0x7F) << 8 | mixed & 0x7F


class Lamp(Window):
    """The window, with its pointer."""

    def __init__(self, client, asked):
        super().__init__(client, *asked.size)
        self.resize(*self.configure[:2])
        client.put(self.toplevel, "set_title", asked.title)
        client.put(self.toplevel, "set_app_id", asked.app_id)
        if asked.geometry:
            client.put(self.shell, "set_window_geometry", *asked.geometry)
        seat = client.bind(self.registry, "wl_seat", 1)
        self.pointer = client.send(seat, "get_pointer")
        self.keyboard, self.modifiers = client.send(seat, "get_keyboard") if asked.keys else None, 0
        self.wanted = 0, 0  # the size that it is asked to have
        self.blink, self.noise, self.stays, self.count, self.presses, self.place = asked.blink, asked.noise, asked.leave, 0, 0, (0, 0)
        client.take()  # the first configure is acknowledged

    def paint(self):
        """Shows the colour that is due, in the buffer that isn't shown."""
        self.count += 1
        at = self.count % 2
        self.draw(at, 0xFF000000 | COLOURS[(self.presses and 1 + (self.presses - 1) % 3)])
        if self.noise:
            self.memory.bytes[at * self.size : (at + 1) * self.size] = random.Random(1).randbytes(self.size)
        if self.blink:
            x, y, width, height = self.blink
            for row in range(y, y + height):
                self.memory.fill(at * self.size + 4 * (row * self.width + x), width, 1, blinking(self.count))
        self.show(at)

    def take(self, said):
        """Does what an event asks for. True where it is to be painted anew."""
        match said.name:
            case "wl_pointer.enter":
                self.place = said.values[2:4]
            case "wl_pointer.motion":
                self.place = said.values[1:3]
            case "wl_pointer.button" if said.values[3]:
                print(f"pressed {said.values[2]:#x} at {self.place[0]:g}, {self.place[1]:g}", flush=True)
                return self.press(said.values[2])
            case "wl_pointer.axis":
                print(f"axis {said.values[1]} by {said.values[2]:g} at {self.place[0]:g}, {self.place[1]:g}", flush=True)
            case "wl_keyboard.modifiers":
                self.modifiers = said.values[1]
            case "wl_keyboard.key" if said.values[3]:
                print(f"key {said.values[2]} with {self.modifiers}", flush=True)
            case "xdg_toplevel.configure":
                self.wanted = said.values[0], said.values[1]
            case "xdg_surface.configure":
                self.client.send(self.shell, "ack_configure", said.values[0])
                return self.resize(*self.wanted)
        return False

    def resize(self, width, height):
        """Takes a size, unless it is left to the window. True where it is another than before."""
        if not width or not height or (width, height) == (self.width, self.height):
            return False
        self.width, self.height = width, height
        self.make_buffers()
        return True

    def press(self, button):
        if button == RIGHT:
            print("ends as it was told", file=sys.stderr, flush=True)
            sys.exit(STATUS)
        if button == MIDDLE:
            self.client.send(self.base, "get_xdg_surface", self.surface)  # it has a role already
        if button == SIDE:
            os.kill(os.getpid(), signal.SIGSEGV)
        self.presses += button == LEFT
        return button == LEFT

    def run(self):
        self.paint()
        until = time.monotonic() + self.stays
        while (left := until - time.monotonic()) > 0:
            if not self.client.events and select.select([self.client.socket], [], [], min(left, BLINK if self.blink else LONG))[0]:
                self.client.receive()
            events, self.client.events = self.client.events, []
            changed = [self.take(said) for said, _ in events]
            if any(changed) or self.blink:
                self.paint()


def sides(text):
    return tuple(map(int, text.split("x")))


def box(text):
    return tuple(map(int, text.split(",")))


def main():
    parser = argparse.ArgumentParser()
    parser.add_argument("--size", type=sides, default=(32, 24))
    parser.add_argument("--title", default="Lamp")
    parser.add_argument("--app-id", default="org.example.lamp")
    parser.add_argument("--geometry", type=box)
    parser.add_argument("--blink", type=box)
    parser.add_argument("--noise", action="store_true")
    parser.add_argument("--after", type=float, default=0.0)
    parser.add_argument("--leave", type=float, default=LONG)
    parser.add_argument("--keys", action="store_true")
    asked = parser.parse_args()
    time.sleep(asked.after)
    with Client(pathlib.Path(os.environ["XDG_RUNTIME_DIR"]) / os.environ["WAYLAND_DISPLAY"]) as client:
        Lamp(client, asked).run()


if __name__ == "__main__":
    main()
