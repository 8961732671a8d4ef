"""The updates of a display, one by one."""
from __future__ import annotations

import collections
import time
import typing

from wlframe.pictures import Picture
from wlframe.viewer import Box, Frame, Update, rectangles

if typing.TYPE_CHECKING:
    from wlframe.display import Display

TICK = 0.1  # seconds between two looks at whether a client still runs

Shown = tuple[int, list[Box], Picture]  # the time in milliseconds, the rectangles that were painted again, and the picture


class Frames:
    """Each update since this was made, for so many seconds, or until no client runs. It iterates over them once."""

    def __init__(self, display: "Display", seconds: float | None):
        self.display = display
        self.until = None if seconds is None else time.monotonic() + seconds
        self.waiting: collections.deque[Shown] = collections.deque()
        self.is_over = False
        display.viewer.after.append(self.keep)

    def keep(self, frame: Frame, update: Update) -> None:
        self.waiting.append((update.time, rectangles(update.runs), frame.picture()))

    def __iter__(self) -> "Frames":
        return self

    def __next__(self) -> Shown:
        while not self.waiting and not self.is_over:
            if self.until is not None and time.monotonic() >= self.until or all(it.returncode is not None for it in self.display.clients):
                self.display.sync()  # what was shown by now is told
                self.close()
            else:
                self.display.tell_news()
                self.display.turn(TICK)
        if not self.waiting:
            raise StopIteration
        return self.waiting.popleft()

    def close(self) -> None:
        """No more are taken."""
        if not self.is_over:
            self.is_over = True
            self.display.viewer.after.remove(self.keep)
