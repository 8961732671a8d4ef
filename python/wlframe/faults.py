"""What can go wrong in a test of a client, each with what happened in words."""
from __future__ import annotations

import os
import typing

if typing.TYPE_CHECKING:
    from wlframe.clients import Client


class Failure(Exception):
    """What can't be done, and what to do about it, in a sentence. The others here are of this kind too."""


class ServerEnded(Failure):
    """The server or the bridge ended before the display was closed."""


class TimeOver(Failure):
    """What was waited for didn't come in time."""


class NoWindow(TimeOver):
    """A window didn't come in time, or is gone: `there` lists the windows that are there, in words."""

    def __init__(self, text: str, there: list[str]):
        super().__init__(f"{text}; {'there are ' + ', '.join(there) if there else 'no window is there'}")
        self.there = there


class ClientEnded(Failure):
    """A client ended: `client` with its `returncode`, and `last`, the last lines that it wrote."""

    def __init__(self, text: str, client: "Client | None", last: str = ""):
        super().__init__(f"{text}\n{last}" if last else text)
        self.client, self.last = client, last


class Refused(ClientEnded):
    """A client was refused what it asked, or ended by the bridge: `sentence` is how the bridge tells it."""

    def __init__(self, sentence: str, client: "Client | None", last: str = ""):
        super().__init__(sentence, client, last)
        self.sentence = sentence


class PictureDiffers(Failure, AssertionError):
    """A picture isn't as expected. `expected`, `actual` and `diff` are paths (None where there is no such file), `count` tells how many pixels differ, and `box` where: x, y, width, height."""

    def __init__(self, text: str, expected: os.PathLike, actual: os.PathLike, diff: os.PathLike | None = None, count: int = 0, box=None):
        files = f"\n  expected: {expected}\n  actual:   {actual}" + (f"\n  diff:     {diff}" if diff else "")
        super().__init__(text + files)
        self.expected, self.actual, self.diff, self.count, self.box = expected, actual, diff, count, box


class NotStarted(Failure):
    """A client isn't installed, or may not be started: `fault` is the system's error."""

    def __init__(self, text: str, fault: OSError):
        super().__init__(text)
        self.fault = fault
