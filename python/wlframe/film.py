"""The last seconds of what a display showed, and films of it as animated PNGs, which need no other program."""
from __future__ import annotations

import collections
import os
import struct
import typing
import zlib

from wlframe.pictures import SIGNATURE, Picture, chunk
from wlframe.viewer import Frame, Run, Update

FEWEST = 33  # milliseconds between two pictures of a film
LONGEST = 60_000  # milliseconds that a picture stands
ENDING = 1000  # milliseconds that the last picture stands at least
MOST = 64 << 20  # bytes that updates may take


class Recent:
    """The updates of the last seconds, and the picture before them."""

    def __init__(self, frame: Frame, seconds: float = 10.0):
        self.base = Frame(frame.width, frame.height)
        self.base.pixels[:] = frame.pixels
        self.time: int | None = None  # of the last update that is in the base
        self.span, self.size = 1000 * seconds, 0
        self.updates: collections.deque[Update] = collections.deque()

    def add(self, _frame: Frame, update: Update) -> None:
        """One more update. Those that are too old, or too many, go into the picture before them."""
        self.updates.append(update)
        self.size += len(update.data)
        while self.updates[0].time < update.time - self.span or self.size > MOST:
            oldest = self.updates.popleft()
            self.size -= len(oldest.data)
            self.time = oldest.time
            self.base.apply(oldest)
            if not self.updates:
                return

    def pictures(self, until: int = 0) -> typing.Iterator[tuple[int, list[Run], Picture]]:
        """The pictures of the last seconds before `until`, with their times, and the runs that differ from the one before; those that follow each other too fast are one. The
        first is the one that was shown as those seconds began."""
        frame = Frame(self.base.width, self.base.height)
        frame.pixels[:] = self.base.pixels
        begin, waiting = until - round(self.span), list(self.updates)
        since = self.time
        while waiting and waiting[0].time < begin:
            since = waiting[0].time
            frame.apply(waiting.pop(0))
        if since is None:
            since = waiting[0].time if waiting else 0
        since, runs = max(since, begin), []
        yield since, [], frame.picture()
        for at, update in enumerate(waiting):
            frame.apply(update)
            runs += update.runs
            is_last = at + 1 == len(waiting)
            if is_last or waiting[at + 1].time >= since + FEWEST:
                yield update.time, runs, frame.picture()
                since, runs = update.time, []


def around(runs: typing.Sequence[Run]) -> tuple[int, int, int, int]:
    """The box around runs."""
    left, top = min(run.x for run in runs), min(run.y for run in runs)
    right, bottom = max(run.x + run.width for run in runs), max(run.y for run in runs) + 1
    return left, top, right - left, bottom - top


def packed(picture: Picture) -> bytes:
    """A picture's rows, as a PNG has them."""
    wide = 3 * picture.width
    return zlib.compress(b"".join(b"\0" + picture.pixels[at : at + wide] for at in range(0, len(picture.pixels), wide)), 1)


def animated(recent: Recent, until: int = 0) -> bytes:
    """An animated PNG of the last seconds. The last picture stands until this time, if that is long enough for it to be seen."""
    shown = list(recent.pictures(until))
    width, height = recent.base.width, recent.base.height
    parts = [SIGNATURE, chunk(b"IHDR", struct.pack(">IIBBBBB", width, height, 8, 2, 0, 0, 0)), chunk(b"acTL", struct.pack(">II", len(shown), 0))]
    count = 0
    for at, (when, runs, picture) in enumerate(shown):
        stands = min(shown[at + 1][0] - when, LONGEST) if at + 1 < len(shown) else min(max(until - when, ENDING), LONGEST)
        box = around(runs) if runs else (0, 0, width, height)
        parts.append(chunk(b"fcTL", struct.pack(">IIIIIHHBB", count, box[2], box[3], box[0], box[1], max(stands, 1), 1000, 0, 0)))
        count += 1
        data = packed(picture.crop(box))
        if at == 0:
            parts.append(chunk(b"IDAT", data))
        else:
            parts.append(chunk(b"fdAT", struct.pack(">I", count) + data))
            count += 1
    return b"".join([*parts, chunk(b"IEND", b"")])


def save(recent: Recent, path: str | os.PathLike, until: int = 0) -> None:
    """Writes an animated PNG of the last seconds, until this time."""
    data = animated(recent, until)
    with open(path, "wb") as stream:
        stream.write(data)
