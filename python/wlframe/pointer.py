"""What a display's pointer does. Each call returns once the server has taken it and the picture is complete."""
from __future__ import annotations

from wlframe.faults import Failure

BUTTONS = {"left": 0x110, "right": 0x111, "middle": 0x112, "side": 0x113, "extra": 0x114}  # as linux/input-event-codes.h has them


def code_of(button: str | int) -> int:
    """The kernel's number of a button."""
    if isinstance(button, int):
        return button
    if button not in BUTTONS:
        raise ValueError(f"{button}: give a button by its number, or as one of {', '.join(BUTTONS)}")
    return BUTTONS[button]


class Pointer:
    """The part of a display that points. Points are pixels of the output, from its upper left corner."""

    size: tuple[int, int]

    def act(self, *lines: str) -> None:
        """Sends lines, and waits until they were taken and the picture is complete."""
        raise NotImplementedError

    def begin_input(self) -> None:
        """Something is done from which on changes count for wait_for_change."""
        raise NotImplementedError

    def need_window(self) -> None:
        """Failure where no window is shown that could take a click."""
        raise NotImplementedError

    def inside(self, x: int, y: int) -> str:
        """The line that moves the pointer there."""
        width, height = self.size
        if not (0 <= x < width and 0 <= y < height):
            raise Failure(f"{x}, {y} isn't within the display of {width}x{height}")
        return f"motion {int(x)} {int(y)}"

    def move(self, x: int, y: int) -> None:
        """Moves the pointer."""
        line = self.inside(x, y)
        self.begin_input()
        self.act(line)

    def press_button(self, button: str | int = "left") -> None:
        """Presses a button, which stays down until it is released."""
        code = code_of(button)
        self.need_window()
        self.begin_input()
        self.act(f"button {code} 1")

    def release_button(self, button: str | int = "left") -> None:
        """Releases a button."""
        self.begin_input()
        self.act(f"button {code_of(button)} 0")

    def click(self, x: int, y: int, button: str | int = "left", count: int = 1) -> None:
        """Moves the pointer there, and presses and releases a button so often."""
        line, code = self.inside(x, y), code_of(button)
        self.need_window()
        self.begin_input()
        self.act(line)
        for _ in range(count):
            self.act(f"button {code} 1", f"button {code} 0")

    def drag(self, begin: tuple[int, int], end: tuple[int, int], steps: int = 8, button: str | int = "left") -> None:
        """Presses a button at one point, moves on in so many steps, each with a picture of its own, and releases it at the other."""
        if steps < 1:
            raise ValueError(f"{steps} steps: give a drag at least one")
        code, first = code_of(button), self.inside(*begin)
        self.inside(*end)
        self.need_window()
        self.begin_input()
        self.act(first)
        self.act(f"button {code} 1")
        for step in range(1, steps + 1):
            at = [a + round((b - a) * step / steps) for a, b in zip(begin, end)]
            self.act(f"motion {at[0]} {at[1]}")
        self.act(f"button {code} 0")
