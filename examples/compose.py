#!/usr/bin/env python3
"""Composes a recording from a text that a person can write.

    examples/compose.py TEXT > RECORDING

Each line of the text is one of these:

    connect                               a client connects; what follows is of this client
    client 1                              what follows is of client 1
    NAME = OBJECT.REQUEST(ARGUMENT, ...)  a request that makes an object, which has this name from then on
    OBJECT.REQUEST(ARGUMENT, ...)         any other request
    fill POOL 40 30 0xffrrggbb at 0       40 by 30 pixels of one colour come into the pool's store, from its byte 0 on, one row after
                                          the other; with `stride 640` behind, each row begins 640 bytes after the one before
    gone 1                                client 1 goes
    ended 1                               client 1 has been refused something, so that its number is free; nothing is sent

The lines `bytes`, `store`, `file`, `motion`, `button` and `tick` of a recording stand in the text as they are (docs/RECORDINGS.md), and so
do comments, which begin with `#`.

A client's names are its own, and `display` is its first object. A new object's id is one above the client's greatest, or the number
that stands in the place of its NAME. An OBJECT may be given by its id too. An ARGUMENT is a number, an object, `null`, `argb8888`,
`xrgb8888` or a string in quotation marks; new ids and descriptors are left out. A bind names the global and its version, as in
`compositor = registry.bind(wl_compositor, 2)`. Whether the compositor accepts a request is for the replay to tell.
"""
import pathlib
import re
import struct
import sys

sys.path.insert(0, str(pathlib.Path(__file__).resolve().parent.parent / "python"))
from wlframe.wayland.table import GLOBALS, INTERFACES, Argument, enum_of  # pylint: disable=wrong-import-position
from wlframe.wayland.wire import message, spelled_string  # pylint: disable=wrong-import-position

FORMATS = {name: str(value) for name, value in enum_of("wl_shm.format").values.items()}
MAX_CLIENTS = 32
# What a line of a recording, of at most 140,000 bytes, has room for, in bytes and in pixels.
MAX_BODY = 60_000
MAX_ROW = 15_000


def pattern(text):
    """A pattern in which each space stands for one or more."""
    return re.compile(text.replace(" ", " +"), re.ASCII)


HEX = "( ([0-9a-fA-F]{2})+)+"
COPIED = pattern(rf"(bytes \d+|store \d+ \d+ \d+){HEX}|file \d+ \d+ \d+ [\w.-]+|motion \d+ -?\d+ -?\d+|button \d+ \d+ 0*[01]|tick \d+")
CLIENT = pattern(r"(client|gone|ended) (\d+)")
FILL = pattern(r"fill (\w+) ([1-9]\d*) ([1-9]\d*) (0x[0-9a-fA-F]{1,8}) at (\d+)(?: stride (\d+))?")
REQUEST = re.compile(r"(?:(\w+) *= *)?(\w+)\.(\w+) *\((.*)\)", re.ASCII)
ARGUMENT = re.compile(r'(?:"[^"]*"|[^,"])+')


class Mistake(Exception):
    """What is wrong with a line of the text."""


def number(kind, text):
    """The four bytes of an int or a uint."""
    try:
        return struct.pack("<i" if kind == "int" else "<I", int(FORMATS.get(text, text), 0))
    except (ValueError, struct.error):
        raise Mistake(f"{text} is no {kind}") from None


def string(text):
    """The bytes of a string: its length with the final NUL, itself, and what fills up the last word."""
    if not re.fullmatch('"[^"]*"', text):
        raise Mistake(f"{text} is no string in quotation marks")
    return spelled_string(text[1:-1])


def bound(arguments):
    """What a bind takes, and its arguments as they are sent, from a global and its version."""
    if len(arguments) != 2 or arguments[0] not in GLOBALS:
        raise Mistake("bind takes a global and its version")
    interface, version = arguments
    taken = [Argument("name", "uint"), Argument("interface", "string"), Argument("version", "uint"), Argument("id", "new_id", interface)]
    return taken, [str(1 + GLOBALS.index(interface)), f'"{interface}"', version]


class Client:
    """A client's objects: their ids by name, their interfaces by id, and the numbers of the stores by the ids of their pools."""

    def __init__(self, number):
        self.number = number
        self.ids = {"display": 1}
        self.interfaces = {1: "wl_display"}
        self.stores = {}
        self.pools = 0

    def find(self, text):
        """The id of an object by its name or by the id."""
        found = int(text) if text.isdecimal() else self.ids.get(text)
        if found not in self.interfaces:
            raise Mistake(f"client {self.number} has no object {text}")
        return found

    def add(self, name, made, interface):
        """There is a new object."""
        self.ids[name] = made
        self.interfaces[made] = interface
        if interface == "wl_shm_pool":
            self.pools += 1
            self.stores[made] = self.pools

    def spelled(self, kind, text):
        """The bytes of an argument."""
        if kind == "object":
            return struct.pack("<I", 0 if text == "null" else self.find(text))
        return string(text) if kind == "string" else number(kind, text)

    def request(self, name, target, request, arguments):
        """The bytes of a request. What it makes has the name."""
        target = self.find(target)
        interface = self.interfaces[target]
        known = INTERFACES[interface].named(request)
        if known is None:
            raise Mistake(f"{interface} has no request {request}")
        taken = [it for it in known.arguments if it.kind != "fd"]
        if request == "bind":
            taken, arguments = bound(arguments)
        new = [it.interface for it in taken if it.kind == "new_id"]
        if bool(new) != bool(name):
            raise Mistake(f"{interface}.{request} makes {'an object: write NAME = in front' if new else 'no object'}")
        if len(arguments) != len(taken) - len(new):
            raise Mistake(f"{interface}.{request} takes {len(taken) - len(new)} arguments, not {len(arguments)}")
        made = int(name) if new and name.isdecimal() else max(self.interfaces) + 1
        rest = iter(arguments)
        body = b"".join(number("uint", str(made)) if it.kind == "new_id" else self.spelled(it.kind, next(rest)) for it in taken)
        if len(body) > MAX_BODY:
            raise Mistake("the message is too long for a line of a recording")
        if new:
            self.add(name, made, new[0])
        return message(target, known.opcode, body)

    def fill(self, pool, width, height, color, at, stride):
        """The lines that fill a rectangle, one for each row."""
        store = self.stores.get(self.find(pool))
        if store is None:
            raise Mistake(f"{pool} is no pool")
        if int(width) > MAX_ROW:
            raise Mistake(f"a row has at most {MAX_ROW} pixels")
        row = (struct.pack("<I", int(color, 16)) * int(width)).hex(" ", 4)
        step = int(stride or 4 * int(width))
        return [f"store {self.number} {store} {int(at) + k * step} {row}" for k in range(int(height))]


class Composer:
    """The clients that are connected by their numbers, and the one that is spoken of."""

    def __init__(self):
        self.clients = {}
        self.client = None

    def connect(self):
        """A client connects. It gets the lowest free number, if there is one."""
        free = set(range(1, 1 + MAX_CLIENTS)) - set(self.clients)
        if free:
            self.client = self.clients[min(free)] = Client(min(free))

    def connected(self, number):
        """The client of this number."""
        if number not in self.clients:
            raise Mistake(f"client {number} isn't connected")
        return self.clients[number]

    def leave(self, number):
        """The client of this number isn't connected any more."""
        if self.client is self.connected(number):
            self.client = None
        del self.clients[number]

    def lines(self, text):
        """The lines of the recording that a line of the text stands for."""
        if not text or text.startswith("#") or COPIED.fullmatch(text):
            return [text]
        if text == "connect":
            self.connect()
            return [text]
        client, fill, request = CLIENT.fullmatch(text), FILL.fullmatch(text), REQUEST.fullmatch(text)
        if client and client[1] == "client":
            self.client = self.connected(int(client[2]))
            return []
        if client:
            self.leave(int(client[2]))
            return [text] if client[1] == "gone" else []
        if not fill and not request:
            raise Mistake(f"no such statement: {text}")
        if self.client is None:
            raise Mistake("of which client? Write `client 1` in front")
        if fill:
            return self.client.fill(*fill.groups())
        name, target, request, arguments = request.groups()
        sent = self.client.request(name, target, request, [argument.strip() for argument in ARGUMENT.findall(arguments)])
        return [f"bytes {self.client.number} {sent.hex(' ', 4)}"]


def main():
    if len(sys.argv) != 2:
        sys.exit(__doc__)
    composer, recording = Composer(), []
    try:
        with open(sys.argv[1], encoding="utf-8") as stream:
            for place, line in enumerate(stream, 1):
                recording += composer.lines(line.strip())
    except Mistake as mistake:
        sys.exit(f"{sys.argv[1]}:{place}: {mistake}")
    except OSError as fault:
        sys.exit(f"{sys.argv[1]}: {fault.strerror}")
    print("\n".join(recording))


if __name__ == "__main__":
    main()
