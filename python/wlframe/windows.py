"""A window of a client, as a display shows it."""
from __future__ import annotations

import os
import typing

from wlframe.faults import Failure, NoWindow
from wlframe.pictures import Picture

if typing.TYPE_CHECKING:
    from wlframe.display import Display
    from wlframe.clients import Client

Box = tuple[int, int, int, int]  # x, y, width, height, in pixels of the output


class Seen(typing.NamedTuple):
    """A toplevel or popup that is shown: what names it, what it is called, and where it stands, without the shadow around it where it tells of one."""

    key: tuple[int, int]  # the connection and the number of the toplevel among its own
    kind: str  # toplevel or popup
    title: str
    app_id: str
    client: "Client | None"
    process: int
    box: Box
    surface: Box  # with what stands outside of the window's geometry, as a shadow

    def __str__(self) -> str:
        x, y, width, height = self.box
        named = f'"{self.title}"' if self.title else f"a {self.kind} without a title"
        return f"{named}{f' of {self.app_id}' if self.app_id else ''} ({width}x{height} at {x}, {y})"


class Window:
    """A toplevel or a popup that was shown as it was found. Its place and size are asked for anew each time; NoWindow where it is gone. Coordinates are its own pixels:
    (0, 0) is its upper left corner, without a shadow around it."""

    def __init__(self, display: "Display", seen: Seen):
        self.display, self.key, self.client, self._last = display, seen.key, seen.client, seen

    def look(self) -> Seen:
        """What the window is now."""
        all_seen = self.display.look()
        for seen in all_seen:
            if seen.key == self.key:
                self._last = seen
                return seen
        raise NoWindow(f"{self._last} is no longer shown", [str(it) for it in all_seen])

    @property
    def is_shown(self) -> bool:
        """Whether it is shown."""
        return any(seen.key == self.key for seen in self.display.look())

    @property
    def box(self) -> Box:
        """x, y, width and height, in pixels of the output."""
        return self.look().box

    @property
    def x(self) -> int:
        return self.box[0]

    @property
    def y(self) -> int:
        return self.box[1]

    @property
    def width(self) -> int:
        return self.box[2]

    @property
    def height(self) -> int:
        return self.box[3]

    @property
    def title(self) -> str:
        return self.look().title

    @property
    def app_id(self) -> str:
        return self.look().app_id

    def point(self, x: int, y: int) -> tuple[int, int]:
        """The pixel of the output where a pixel of the window is. Failure where it isn't within both."""
        left, top, width, height = self.box
        if not (0 <= x < width and 0 <= y < height):
            raise Failure(f"{x}, {y} isn't within {self._last}")
        return left + x, top + y

    def move(self, x: int, y: int) -> None:
        """Moves the pointer to a pixel of the window."""
        self.display.move(*self.point(x, y))

    def click(self, x: int, y: int, button: str | int = "left", count: int = 1) -> None:
        """Moves the pointer to a pixel of the window, and clicks there so often."""
        self.display.click(*self.point(x, y), button=button, count=count)

    def scroll(self, x: int, y: int, down: int = 0, right: int = 0) -> None:
        """Moves the pointer to a pixel of the window, and turns the wheel there by so many clicks; below 0 it turns up and left."""
        self.display.scroll(*self.point(x, y), down=down, right=right)

    def drag(self, begin: tuple[int, int], end: tuple[int, int], steps: int = 8, button: str | int = "left") -> None:
        """Presses at one pixel of the window, moves on in steps, and releases at another. Where the window goes along the way is still from pixel to pixel of the output."""
        left, top, _, _ = self.box
        self.display.drag((left + begin[0], top + begin[1]), (left + end[0], top + end[1]), steps=steps, button=button)

    def resize(self, width: int, height: int) -> None:
        """Asks the client to give the window this size, in points and without a shadow around it; 0 by 0 leaves it to the client again. A client may answer with another
        size, and when it does so isn't waited for. Failure for a popup."""
        self.display.ask_size(self.look().key, width, height)

    def picture(self) -> Picture:
        """What is shown where the window stands, also what stands above it."""
        return self.display.picture().crop(self.box)

    def expect(self, name: str | os.PathLike, **how) -> None:
        """As Display.expect, for what is shown where the window stands; masks are in its own pixels."""
        self.display.expect(name, window=self, **how)

    def __repr__(self) -> str:
        return f"<Window {self._last}>"
