"""zwp_virtual_keyboard_manager_v1: a client that types, as wtype does. Each virtual keyboard has a keymap of its own, which clients have as long as it is used."""
import os
import typing

from wlframe.xkb import Keymap, Unknown

MOST = 1 << 24  # bytes of a keymap


class Virtual:
    """A virtual keyboard: its keymap, and the keys that it holds down."""

    def __init__(self):
        self.keymap: Keymap | None = None
        self.down: set[int] = set()


class VirtualKeyboards:
    """The virtual keyboards of a client."""

    def __init__(self, client: typing.Any, keyboard: typing.Any):
        self.client, self.keyboard = client, keyboard
        self.all: list[Virtual] = []

    def answer(self, said: typing.Any, made: typing.Any, descriptors: list[int]) -> None:
        """Answers a request to one of them, or to their manager."""
        virtual, values = said.object.state, said.values
        match said.message.name:
            case "create_virtual_keyboard":
                made.state = Virtual()
                self.all.append(made.state)
            case "keymap":
                self.take_keymap(said.object, descriptors[0], values[2])
            case "key" | "modifiers" if virtual.keymap is None:
                self.client.refuse("no_keymap", "a virtual keyboard without a keymap types", said.object)
            case "key":
                (virtual.down.add if values[2] else virtual.down.discard)(values[1])
                self.keyboard.press(virtual.keymap, values[1], values[2] != 0)
            case "modifiers":
                self.keyboard.modify(virtual.keymap, tuple(values))
            case "destroy":
                self.end(virtual)
                self.all.remove(virtual)

    def take_keymap(self, target: typing.Any, descriptor: int, size: int) -> None:
        """A virtual keyboard gets its keymap. One that is none ends the client."""
        try:
            content = os.pread(descriptor, min(size, MOST), 0)
            target.state.keymap = Keymap.of_text(content.partition(b"\0")[0].decode())
        except (OSError, UnicodeDecodeError, Unknown) as fault:
            self.client.refuse("no_keymap", f"what a virtual keyboard got is no keymap: {fault}", target)

    def end(self, virtual: Virtual) -> None:
        """A virtual keyboard has gone: its keys go up."""
        for code in sorted(virtual.down):
            self.keyboard.press(virtual.keymap, code, False)
        self.keyboard.modify(virtual.keymap, (0, 0, 0, 0)) if virtual.keymap is not None else None

    def gone(self) -> None:
        """The client has gone."""
        for each in self.all:
            self.end(each)
