"""A socket by which another process uses a display that runs: tools/ctl asks, a line of JSON each, and is answered by one.

    {"do": "click", "x": 10, "y": 20, "button": "left", "count": 1, "window": null, "timeout": 5}    answered by {}
    {"do": "windows"}                               answered by {"windows": [{"title": .., "app_id": .., "kind": .., "x": .., "y": .., "width": .., "height": ..}]}

What fails is answered by {"fault": TEXT, "kind": NAME}, with the name of the exception.
"""
from __future__ import annotations

import contextlib
import json
import os
import socket
import typing

from wlframe.faults import Failure

if typing.TYPE_CHECKING:
    from wlframe.display import Display

NAMED = "WLFRAME_VIEWER"  # in the environment: the socket's path
LONGEST = 1 << 20  # bytes of a line
WAITS = 10.0  # seconds that an asker has to take its answer


class Control:
    """The socket, and who is connected to it. What is asked is done one behind the other, between two turns of the display."""

    def __init__(self, display: Display, path: str | os.PathLike):
        self.display, self.path = display, os.path.abspath(path)
        self.listener = socket.socket(socket.AF_UNIX)
        self.askers: dict[socket.socket, bytes] = {}  # with the line that began

    def __enter__(self) -> "Control":
        try:
            self.listener.bind(self.path)
        except OSError as fault:
            self.listener.close()
            raise Failure(f"can't make a socket at {self.path}: {fault.strerror or fault}") from None
        self.listener.listen(16)
        self.listen()
        return self

    def __exit__(self, *_: object) -> None:
        self.rest()
        for each in (self.listener, *self.askers):
            each.close()
        with contextlib.suppress(FileNotFoundError):
            os.remove(self.path)

    def environment(self) -> dict[str, str]:
        """By which clients find the socket."""
        return {NAMED: self.path}

    def listen(self) -> None:
        """Lets the display take what is asked."""
        self.display.also[self.listener] = self.accept
        for asker in self.askers:
            self.display.also[asker] = lambda asker=asker: self.take(asker)

    def rest(self) -> None:
        """Lets it wait."""
        for each in (self.listener, *self.askers):
            self.display.also.pop(each, None)

    def accept(self) -> None:
        asker, _ = self.listener.accept()
        asker.settimeout(WAITS)
        self.askers[asker] = b""
        self.listen()

    def take(self, asker: socket.socket) -> None:
        """Takes what an asker sent, and answers its lines."""
        try:
            piece = asker.recv(LONGEST)
        except OSError:
            piece = b""
        *lines, rest = (self.askers[asker] + piece).split(b"\n")
        self.askers[asker] = rest
        self.rest()
        try:
            with contextlib.suppress(OSError):
                for line in lines:
                    asker.sendall(json.dumps(self.answer(line)).encode() + b"\n")
        finally:
            if not piece or len(rest) > LONGEST:
                del self.askers[asker]
                asker.close()
            self.listen()

    def answer(self, line: bytes) -> dict:
        try:
            asked = json.loads(line)
            return DONE[asked.pop("do")](self.display, **asked) or {}
        except (Failure, ValueError, OSError) as fault:
            return {"fault": str(fault), "kind": type(fault).__name__}
        except (KeyError, TypeError, AttributeError) as fault:
            return {"fault": f"{line[:200]!r} can't be asked: {fault}", "kind": "ValueError"}


def window_of(display: Display, title: str | None, timeout: float):
    """The window of a title, or the topmost one, which is waited for."""
    return display.window(title=title, timeout=timeout)


def point_of(display: Display, x: int, y: int, window: str | None, timeout: float) -> tuple[int, int]:
    """The pixel of the output, once a window is there."""
    found = window_of(display, window, timeout)
    return found.point(x, y) if window is not None else (x, y)


def click(display: Display, x: int, y: int, button: str = "left", count: int = 1, window: str | None = None, timeout: float = 5) -> None:
    display.click(*point_of(display, x, y, window, timeout), button=button, count=count)


def move(display: Display, x: int, y: int, window: str | None = None, timeout: float = 5) -> None:
    display.move(*point_of(display, x, y, window, timeout))


def drag(display: Display, begin: list[int], end: list[int], steps: int = 8, button: str = "left", window: str | None = None, timeout: float = 5) -> None:
    found = window_of(display, window, timeout)
    if window is None:
        display.drag(tuple(begin), tuple(end), steps=steps, button=button)
    else:
        found.drag(tuple(begin), tuple(end), steps=steps, button=button)


def scroll(display: Display, x: int, y: int, down: int, right: int = 0, window: str | None = None, timeout: float = 5) -> None:
    display.scroll(*point_of(display, x, y, window, timeout), down=down, right=right)


def type_text(display: Display, text: str, timeout: float = 5) -> None:
    window_of(display, None, timeout)
    display.type(text)


def key(display: Display, chord: str, timeout: float = 5) -> None:
    window_of(display, None, timeout)
    display.press(chord)


def copy(display: Display, text: str, timeout: float = 5) -> None:
    del timeout  # nothing is waited for
    display.clipboard = text


def paste(display: Display, timeout: float = 5) -> dict:
    del timeout
    return {"text": display.clipboard}


def resize(display: Display, width: int, height: int, window: str | None = None, timeout: float = 5) -> None:
    window_of(display, window, timeout).resize(width, height)


def shot(display: Display, path: str, window: str | None = None, timeout: float = 5) -> None:
    shown = window_of(display, window, timeout) if window is not None else display
    shown.picture().save(path)


def windows(display: Display, timeout: float = 5) -> dict:
    del timeout  # nothing is waited for
    seen = display.look()
    names = ("x", "y", "width", "height")
    return {"windows": [{"title": it.title, "app_id": it.app_id, "kind": it.kind, **dict(zip(names, it.box))} for it in seen]}


def wait_idle(display: Display, seconds: float = 0.2, ignore: list = (), timeout: float = 30) -> None:
    display.wait_until_idle(seconds, timeout, [tuple(it) for it in ignore])


def wait_window(display: Display, title: str | None = None, app_id: str | None = None, timeout: float = 5) -> dict:
    x, y, width, height = display.window(title=title, app_id=app_id, timeout=timeout).box
    return {"x": x, "y": y, "width": width, "height": height}


DONE: dict[str, typing.Callable] = {
    "click": click,
    "move": move,
    "drag": drag,
    "scroll": scroll,
    "type": type_text,
    "key": key,
    "copy": copy,
    "paste": paste,
    "resize": resize,
    "shot": shot,
    "windows": windows,
    "wait-idle": wait_idle,
    "wait-window": wait_window,
}
