"""zwlr_data_control_manager_v1: a client that copies and pastes without the focus, as wl-copy and wl-paste do. It is told of each selection as it comes."""
import functools
import typing

from wlframe.bridge.clipboard import Clipboard, Devices, Source, Text

EVENTS = ("selection", "primary_selection")


class Control(Devices):
    """The objects of a client by which it controls selections."""

    def __init__(self, client: typing.Any, clipboards: tuple[Clipboard, Clipboard]):
        super().__init__(client, clipboards[0])
        self.clipboards = clipboards
        for clipboard in clipboards:
            clipboard.watchers.append(self)

    def watch(self, clipboard: Clipboard) -> None:
        """A selection has changed: has the client told."""
        self.client.posts.add(functools.partial(self.show, clipboard, clipboard.selection))

    def show(self, clipboard: Clipboard, selection: Text | Source | None) -> None:
        """Tells the client's devices of a selection."""
        name = EVENTS[self.clipboards.index(clipboard)]
        self.offer(selection, [it for it in self.devices if it.version >= 2 or name == "selection"], name)

    def add(self, device: typing.Any) -> None:
        self.devices.append(device)
        for clipboard, name in zip(self.clipboards, EVENTS):
            if device.version >= 2 or name == "selection":
                self.offer(clipboard.selection, [device], name)

    def answer(self, said: typing.Any, made: typing.Any, descriptors: list[int]) -> None:
        if said.message.name in ("set_selection", "set_primary_selection"):
            clipboard = self.clipboards[said.message.name == "set_primary_selection"]
            clipboard.set(self.client.objects.by_id[said.values[0]].state if said.values[0] else None)
        else:
            super().answer(said, made, descriptors)

    def gone(self) -> None:
        """The client has gone."""
        for clipboard in self.clipboards:
            clipboard.watchers.remove(self)
