"""The clipboard of the display: one selection, which the client with the keyboard's focus is offered, and which a test sets and reads; and the primary
selection likewise, which is what was marked last.

What is copied goes from its source to who asks for it by the descriptor that this one gave. The server knows nothing of it. Drags don't begin.
"""
import dataclasses
import functools
import os
import threading
import typing

OFFERED = ("text/plain;charset=utf-8", "text/plain", "UTF8_STRING", "STRING", "TEXT")  # of a text that a test copied
# By the interfaces of devices: what they offer by.
OFFERS = {
    "wl_data_device": "wl_data_offer",
    "zwp_primary_selection_device_v1": "zwp_primary_selection_offer_v1",
    "zwlr_data_control_device_v1": "zwlr_data_control_offer_v1",
}
FIRST_ID, IDS = 0xFF000000, 0x1000000  # ids of objects that the bridge makes


class Text:
    """A selection that a test made."""

    def __init__(self, text: str):
        self.types, self.content = list(OFFERED), text.encode()

    def send(self, _kind: str, descriptor: int) -> None:
        """Writes the text, however slowly it is read, and closes the descriptor."""
        threading.Thread(target=self.write, args=(descriptor,), daemon=True).start()

    def write(self, descriptor: int) -> None:
        try:
            with open(descriptor, "wb") as stream:
                stream.write(self.content)
        except OSError:
            pass  # who asked for it reads it no more

    def cancel(self) -> None:
        """Another took its place."""


class Source:
    """A selection that a client made, by an object of its own: a wl_data_source, say."""

    def __init__(self, client: typing.Any, made: typing.Any):
        self.client, self.object = client, made
        self.types: list[str] = []

    def send(self, kind: str, descriptor: int) -> None:
        """Has the client write it. The descriptor is closed here once it was handed on."""
        self.client.posts.add(functools.partial(self.tell, "send", kind, None, descriptor=descriptor), functools.partial(os.close, descriptor))

    def cancel(self) -> None:
        """Another took its place, and its client may forget it."""
        self.client.posts.add(functools.partial(self.tell, "cancelled"))

    def tell(self, name: str, *values: typing.Any, descriptor: int | None = None) -> None:
        """Tells the client, in its thread, if its object is there still."""
        if self.client.objects.by_id.get(self.object.number) is self.object:
            self.client.send_event(self.object, name, *values, descriptor=descriptor)
        elif descriptor is not None:
            os.close(descriptor)


class Clipboard:
    """A selection, and who is told of it: the devices of this name of who has the focus, and who watches. It changes under the focus's lock."""

    def __init__(self, focus: typing.Any, name: str):
        self.focus, self.lock, self.name = focus, focus.lock, name
        self.selection: Text | Source | None = None
        self.watchers: list[typing.Any] = []

    def set(self, selection: Text | Source | None) -> None:
        """This is the selection now. The client with the focus is told so, and the one whose selection it was."""
        with self.lock:
            old, self.selection = self.selection, selection
            if old is not None and old is not selection:
                old.cancel()
            if self.focus.at is not None:
                self.tell(self.focus.at[0].client)
            for each in self.watchers:
                each.watch(self)

    def end(self, selection: Text | Source) -> None:
        """A selection can't be had any more."""
        with self.lock:
            if self.selection is selection:
                self.selection = None
                self.set(None)

    def leave(self, client: typing.Any) -> None:
        """A client has gone, and with it its selection."""
        with self.lock:
            if isinstance(self.selection, Source) and self.selection.client is client:
                self.end(self.selection)

    def tell(self, client: typing.Any) -> None:
        """Has a client told of the selection: it has the focus, or is to get it."""
        client.posts.add(functools.partial(client.seat.devices[self.name].offer, self.selection))


@dataclasses.dataclass
class Offer:
    """What a wl_data_offer is of."""

    selection: Text | Source


class Devices:
    """The objects of a client that have to do with a selection: a manager, devices, sources and offers. All is called in the client's thread."""

    def __init__(self, client: typing.Any, clipboard: Clipboard):
        self.client, self.clipboard = client, clipboard
        self.devices: list[typing.Any] = []

    def offer(self, selection: Text | Source | None, devices: list[typing.Any] | None = None, event: str = "selection") -> None:
        """Offers a selection to the client, or to some of its devices."""
        for device in self.devices if devices is None else devices:
            offer = self.new_offer(device, selection) if selection is not None else None
            self.client.send_event(device, event, offer.number if offer is not None else 0)

    def new_offer(self, device: typing.Any, selection: Text | Source) -> typing.Any:
        """A new offer, with what can be had of it."""
        number = next(it for it in range(FIRST_ID, FIRST_ID + IDS) if it not in self.client.objects.by_id)
        offer = self.client.objects.add(number, OFFERS[device.interface], device.version, 0)
        offer.state = Offer(selection)
        self.client.send_event(device, "data_offer", number)
        for kind in dict.fromkeys(selection.types):
            self.client.send_event(offer, "offer", kind)
        return offer

    def answer(self, said: typing.Any, made: typing.Any, descriptors: list[int]) -> None:
        """Answers a request to one of them. A descriptor that is handed on isn't among those that came any more."""
        values, state = said.values, said.object.state
        match said.message.name:
            case "create_data_source" | "create_source":
                made.state = Source(self.client, made)
            case "get_data_device" | "get_device":
                self.add(made)
            case "offer":
                state.types.append(values[0])
            case "set_selection":
                self.select(*values)
            case "start_drag" if values[0]:
                self.client.objects.by_id[values[0]].state.cancel()
            case "receive" if values[0] in state.selection.types:
                state.selection.send(values[0], descriptors.pop())
            case "destroy" | "release" if isinstance(state, Source):
                self.client.seat.end(state)
            case "destroy" | "release" if said.object in self.devices:
                self.devices.remove(said.object)

    def add(self, device: typing.Any) -> None:
        """The client made a device. Where the client has the focus it is offered the selection."""
        self.devices.append(device)
        with self.clipboard.lock:
            at = self.clipboard.focus.at
            if at is not None and at[0].client is self.client and self.clipboard.selection is not None:
                self.offer(self.clipboard.selection, [device])

    def select(self, source: int, serial: int) -> None:
        """The client sets the selection, or takes it away. Without a serial that it was told nothing changes."""
        if self.client.serials.was_told(serial):
            self.clipboard.set(self.client.objects.by_id[source].state if source else None)
