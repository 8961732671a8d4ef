"""What a display's keyboard, wheel and clipboard do, by the bridge. Each call returns once clients were sent it and the picture is complete."""
from __future__ import annotations

import contextlib
import pathlib
import typing

from wlframe.faults import Failure, NoWindow
from wlframe.keys import Failed, Keyboard
from wlframe.xkb import Missing

KEYS = "keys"  # the socket's name in the display's folder
LARGEST = 4096  # a side of a window, in points
FURTHEST = 1000  # clicks of the wheel at once


class Typist:
    """The part of a display that types, scrolls, copies and pastes. Keys go to the client that has the keyboard's focus: that of the window that was shown or pressed last."""

    folder: pathlib.Path

    def __init__(self) -> None:
        self.hands: Keyboard | None = None  # the connection to the bridge, once something was typed or copied

    def need_open(self) -> None:
        """Raises where the display isn't open."""
        raise NotImplementedError

    def explain(self) -> None:
        """Raises why server or bridge are gone, if they are."""
        raise NotImplementedError

    def need_window(self) -> None:
        """Failure where no window is shown that could take a click."""
        raise NotImplementedError

    def move(self, x: int, y: int) -> None:
        """Moves the pointer."""
        raise NotImplementedError

    def begin_input(self) -> None:
        """Something is done from which on changes count for wait_for_change."""
        raise NotImplementedError

    def sync(self) -> int:
        """Waits until all that was asked before is taken, and the picture is complete."""
        raise NotImplementedError

    def titles(self) -> list[dict]:
        """What the bridge tells of toplevels and popups."""
        raise NotImplementedError

    @contextlib.contextmanager
    def at_keys(self) -> typing.Iterator[Keyboard]:
        """The connection to the bridge. What was done by it is taken behind; Failure where the bridge refuses it."""
        self.need_open()
        try:
            if self.hands is None:
                self.hands = Keyboard(str(self.folder / KEYS))
            yield self.hands
            self.hands.sync()
        except (Failed, Missing, OSError) as fault:
            self.rest_hands()
            self.explain()
            raise Failure(str(fault)) from None
        self.sync()

    def rest_hands(self) -> None:
        """Ends the connection to the bridge. Keys that are down go up."""
        hands, self.hands = self.hands, None
        if hands is not None:
            hands.close()

    def need_focus(self, keyboard: Keyboard) -> None:
        """Failure where there is no keyboard, and NoWindow where no window has its focus."""
        if keyboard.keymap and keyboard.focus() is None:
            raise NoWindow("keys need a window, and none is shown yet: wait for one by display.window(..)", [])

    def type(self, text: str) -> None:
        """Types a text, character by character; a line's end is the enter key. What the layout lacks is typed by keys that the keymap gets for it."""
        with self.at_keys() as keyboard:
            self.need_focus(keyboard)
            self.begin_input()
            keyboard.type(text)

    def press(self, chord: str) -> None:
        """Presses a key, with others held: 'Tab', 'ctrl+a', 'shift+F10', 'alt+enter'. Keys are called as xkb calls their symbols. ValueError where the layout lacks one."""
        with self.at_keys() as keyboard:
            self.need_focus(keyboard)
            self.begin_input()
            keyboard.press(chord)

    def scroll(self, x: int, y: int, down: int = 0, right: int = 0) -> None:
        """Moves the pointer there, and turns the wheel by so many clicks; below 0 it turns up and left. Who is under the pointer is told."""
        if not (-FURTHEST <= down <= FURTHEST and -FURTHEST <= right <= FURTHEST):
            raise ValueError(f"{down} and {right} clicks: give a wheel at most {FURTHEST} at once")
        self.need_window()
        self.move(x, y)
        with self.at_keys() as keyboard:
            self.begin_input()
            keyboard.wheel(down, right)

    @property
    def clipboard(self) -> str | None:
        """The text that was copied last, by a client or by the test; None where there is none. What a client is just about to copy isn't waited for."""
        with self.at_keys() as keyboard:
            return keyboard.clipboard

    @clipboard.setter
    def clipboard(self, text: str) -> None:
        with self.at_keys() as keyboard:
            self.begin_input()
            keyboard.copy(text)

    def ask_size(self, key: tuple[int, int], width: int, height: int) -> None:
        """Asks the toplevel that a key of Seen names to have this size, in points."""
        if not (0 <= width <= LARGEST and 0 <= height <= LARGEST):
            raise ValueError(f"{width}x{height}: give sides up to {LARGEST}, or 0 by 0 to leave the size to the client")
        told = next((it for it in self.titles() if (it["connection"], it["number"]) == key), None)
        if told is None or told["kind"] != "toplevel":
            raise Failure("only a toplevel can be asked for a size: the client alone sizes its popups" if told else "the window is gone")
        with self.at_keys() as keyboard:
            self.begin_input()
            keyboard.resize(key[0], told["surface"], width, height)
