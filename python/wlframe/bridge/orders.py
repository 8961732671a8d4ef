"""The socket of --keys: lines by which a test types, scrolls, copies and pastes, and asks windows for a size. docs/BRIDGE.md has them all."""
import contextlib
import json
import os
import select
import socket
import threading
import time
import typing

from wlframe.bridge.clipboard import Text
from wlframe.bridge.seat import Seat
from wlframe.xkb import Unknown

PATIENCE = 30.0  # seconds that a client has to take what it is sent, or to give what it copied
MOST = 1 << 26  # bytes of a line, or of what is pasted
PIECE = 65536
LAST_CODE = 0x2FF  # of linux/input-event-codes.h
LARGEST = 4096  # a side of a window, in points
FURTHEST = 1000  # clicks of the wheel at once
WANTED = ("text/plain;charset=utf-8", "UTF8_STRING", "text/plain", "STRING", "TEXT")  # what is pasted, the best first


class Bad(Exception):
    """Why a line is none of those that there are."""


def number(word: str, most: int, what: str) -> int:
    """A word as a number from 0 to the most."""
    if not (word.isascii() and word.isdigit() and len(word) < 12 and int(word) <= most):
        raise Bad(f"{what} has to be a number from 0 to {most}, not {word[:20]}")
    return int(word)


def clicks(word: str) -> int:
    """A word as a number of clicks, below 0 the other way."""
    return number(word, FURTHEST, "clicks down or right") if not word.startswith("-") else -number(word[1:], FURTHEST, "clicks up or left, behind -,")


def string(text: str, what: str) -> str:
    """A string as JSON has it, of whole characters."""
    try:
        found = json.loads(text)
        found.encode()
    except (ValueError, AttributeError):
        raise Bad(f'{what} has to be a JSON string, as "hello"') from None
    return found


class Orders:
    """What one who is connected asks: each line is done before the next is read. The keys that it pressed go up as it leaves."""

    def __init__(self, seat: Seat):
        self.seat = seat
        self.down: set[int] = set()

    def take(self, line: str) -> str:
        """Does what a line asks, and answers what is told of it: nothing, or a line."""
        name, _, rest = line.partition(" ")
        if not name or name.startswith("#"):
            return ""
        do = {"key": self.key, "sync": self.sync, "copy": self.copy, "paste": self.paste, "size": self.size, "focus": self.focus}
        do |= {"keymap": self.keymap, "layout": self.layout, "letters": self.letters, "wheel": self.wheel}
        if name not in do:
            raise Bad(f"{name[:20]} is no order")
        return do[name](rest)

    def keyboard(self) -> typing.Any:
        if self.seat.keyboard is None:
            raise Bad(f"there is no keyboard: {self.seat.why_none}")
        return self.seat.keyboard

    def key(self, rest: str) -> str:
        code, _, state = rest.partition(" ")
        code, is_down = number(code, LAST_CODE, "a key's code"), number(state, 1, "a key's state")
        self.keyboard().key(code, bool(is_down))
        (self.down.add if is_down else self.down.discard)(code)
        return ""

    def wheel(self, rest: str) -> str:
        words = rest.split(" ")
        if len(words) != 2:
            raise Bad("write wheel DOWN RIGHT: clicks, below 0 up and left")
        down, right = map(clicks, words)
        if not self.seat.wheel.settle(PATIENCE):
            raise Bad("the server doesn't answer")
        self.seat.wheel.click(down, right)
        return ""

    def sync(self, rest: str) -> str:
        count = number(rest, 0xFFFFFFFF, "the number of a sync")
        until = time.monotonic() + PATIENCE
        for each in [it.client.posts.when_sent() for it in list(self.seat.clients.values())]:
            if not each.wait(max(until - time.monotonic(), 0)):
                raise Bad("a client doesn't read its events")
        return f"synced {count}"

    def copy(self, rest: str) -> str:
        self.seat.clipboard.set(Text(string(rest, "the text to copy")))
        return "copied"

    def paste(self, rest: str) -> str:
        if rest:
            raise Bad("paste takes no words")
        selection = self.seat.clipboard.selection
        kind = next((it for it in WANTED if selection is not None and it in selection.types), None)
        return "pasted null" if kind is None else f"pasted {json.dumps(content(selection, kind))}"

    def size(self, rest: str) -> str:
        words = rest.split(" ")
        if len(words) != 4:
            raise Bad("write size C S W H: the client by its number, its surface by its id, and two sides")
        client, surface = (number(it, 0xFFFFFFFF, "a client or a surface") for it in words[:2])
        width, height = (number(it, LARGEST, "a side") for it in words[2:])
        seated = self.seat.clients.get(client)
        if seated is None or surface not in seated.windows.toplevels():
            raise Bad(f"client {client} has no toplevel with the surface {surface}")
        seated.client.posts.add(lambda: seated.resize(surface, width, height))
        return f"sized {client} {surface}"

    def focus(self, rest: str) -> str:
        if rest:
            raise Bad("focus takes no words")
        at = self.seat.focus.at
        return "focus none" if at is None else f"focus {at[0].client.number} {at[1]}"

    def keymap(self, rest: str) -> str:
        if rest:
            raise Bad("keymap takes no words")
        return f"keymap {json.dumps(self.keyboard().own.text())}"

    def layout(self, rest: str) -> str:
        try:
            self.keyboard().lay_out(rest)
        except Unknown as fault:
            raise Bad(str(fault)) from None
        return "laid out"

    def letters(self, rest: str) -> str:
        try:
            self.keyboard().add_letters(string(rest, "the letters that the keymap lacks"))
        except Unknown:
            raise Bad("these letters can't be typed") from None
        return "lettered"

    def leave(self) -> None:
        """Who asked is gone."""
        for code in self.down:
            self.seat.keyboard.key(code, False)


def content(selection: typing.Any, kind: str) -> str:
    """What a selection is, as text."""
    taken, given = os.pipe()
    found, until = b"", time.monotonic() + PATIENCE
    with open(taken, "rb", buffering=0) as stream:
        selection.send(kind, given)
        while select.select([stream], [], [], max(until - time.monotonic(), 0))[0]:
            piece = stream.read(PIECE)
            found += piece
            if not piece:
                return found.decode("utf-8", "replace")
            if len(found) > MOST:
                raise Bad("what was copied is too large")
    raise Bad("the client that copied doesn't send its text")


def lines(near: socket.socket) -> typing.Iterator[str]:
    """The lines that come, until the other side leaves."""
    rest = b""
    while piece := near.recv(PIECE):
        *whole, rest = (rest + piece).split(b"\n")
        for each in whole:
            yield each.decode("utf-8", "replace")
        if len(rest) > MOST:
            raise Bad("a line is too long")


def serve(seat: Seat, near: socket.socket) -> None:
    """Takes lines until the other side leaves, or sends a bad one."""
    orders = Orders(seat)
    with near, contextlib.suppress(OSError):
        try:
            for line in lines(near):
                if told := orders.take(line):
                    near.sendall(f"{told}\n".encode())
        except Bad as fault:
            near.sendall(f"bad {fault}\n".encode())
        finally:
            orders.leave()


def listen(seat: Seat, listener: socket.socket) -> None:
    """Serves all that connect, each by a thread of its own, until the listener is closed."""
    while True:
        try:
            near, _ = listener.accept()
        except OSError:
            return
        threading.Thread(target=serve, args=(seat, near), daemon=True).start()
