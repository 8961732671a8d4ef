"""The seat as clients see it: the server's pointer, and beside it the bridge's wheel, keyboard, clipboard and other globals, of which the server isn't told."""
import typing

from wlframe.bridge import own
from wlframe.bridge.clipboard import Clipboard, Devices, Source
from wlframe.bridge.data_control import Control
from wlframe.bridge.focus import Focus, Windows
from wlframe.bridge.keyboard import Keyboard, Keyboards
from wlframe.bridge.rewrites import request
from wlframe.bridge.screencopy import Shots
from wlframe.bridge.virtual_keyboard import VirtualKeyboards
from wlframe.bridge.virtual_pointer import VirtualPointers
from wlframe.bridge.wheel import Wheel
from wlframe.bridge.xdg_output import Outputs
from wlframe.xkb import Missing

CLIPBOARD, PRIMARY = "wl_data", "zwp_primary"  # what the names of their interfaces begin with


class Seat:
    """What all clients of the bridge share. Unknown is raised where there is no such layout; where it is None, there is no keyboard."""

    def __init__(self, layout: str | None, has_control: bool = True, viewing: typing.Any = None):
        self.focus, self.viewing = Focus(self.moved), viewing
        self.clipboard, self.primary = Clipboard(self.focus, CLIPBOARD), Clipboard(self.focus, PRIMARY)
        self.clients: dict[int, Seated] = {}  # by number
        self.wheel = Wheel(self)
        self.keyboard, self.why_none = None, "it was asked for none"
        if layout is not None:
            try:
                self.keyboard = Keyboard(layout, self.focus)
            except Missing as fault:
                self.why_none = str(fault)
        has = {"keyboard": self.keyboard, "viewer": viewing}
        self.globals = own.shown({it for it, there in has.items() if there is not None}, has_control)

    def join(self, client: typing.Any) -> "Seated":
        """The part of a client."""
        self.clients[client.number] = made = Seated(client, self)
        return made

    def moved(self, old: tuple[Windows, int] | None, new: tuple[Windows, int] | None) -> None:
        """The focus moves. A client is offered the selections before it gets the focus."""
        if new is not None and (old is None or old[0] is not new[0]):
            self.clipboard.tell(new[0].client)
            self.primary.tell(new[0].client)
        if self.keyboard is not None:
            self.keyboard.move(*((it[0].client.seat.keyboards, it[1]) if it is not None else None for it in (old, new)))


class Seated:
    """A client's windows, its wl_keyboards, and its objects of the bridge's own globals."""

    def __init__(self, client: typing.Any, seat: Seat):
        self.client, self.seat, self.globals = client, seat, seat.globals
        self.windows = Windows(client, seat.focus)
        self.devices = {it.name: Devices(client, it) for it in (seat.clipboard, seat.primary)}
        self.sizes: dict[int, tuple[int, int]] = {}  # by xdg_toplevel: the size that it is asked to have
        self.keyboards, virtual = None, None
        if seat.keyboard is not None:
            self.keyboards, virtual = Keyboards(client, seat.keyboard), VirtualKeyboards(client, seat.keyboard)
        # By what the names of interfaces begin with: who answers what is asked of their objects.
        self.parts: dict[str, typing.Any] = {**self.devices, "zxdg_output": Outputs(client), "zwlr_data": Control(client, (seat.clipboard, seat.primary))}
        self.parts |= {"wl_keyboard": self.keyboards, "zwp_virtual": virtual} if virtual is not None else {}
        if seat.viewing is not None:
            self.parts |= {"zwlr_virtual": VirtualPointers(client, seat.viewing, seat.wheel), "zwlr_screencopy": Shots(client, seat.viewing)}

    def follow(self, said: typing.Any, made: typing.Any) -> None:
        """A request goes to the server, and makes an object where one is given."""
        self.windows.follow(said, made)
        if said.name == "xdg_toplevel.destroy":
            self.sizes.pop(said.target, None)

    def resize(self, surface: int, width: int, height: int) -> None:
        """Asks a toplevel to have this size, or any where it is 0 by 0; in the client's thread. The server answers a state that is given up with configures."""
        shown = self.windows.surfaces.get(surface)
        if shown is not None and shown.role == "toplevel":
            self.sizes[shown.role_object] = width, height
            self.client.to_server += request(self.client.objects.by_id[shown.role_object], "unset_maximized")

    def told(self, said: typing.Any) -> None:
        """The server tells the client something."""
        self.windows.told(said)
        if said.name == "wl_output.mode":
            self.parts["zxdg_output"].heard(said)

    def answer(self, said: typing.Any, made: typing.Any, descriptors: list[int]) -> None:
        """Answers a request to an object of the bridge's own."""
        part = next(part for name, part in self.parts.items() if said.object.interface.startswith(name))
        part.answer(said, made, descriptors)

    def end(self, source: Source) -> None:
        """A selection can't be had any more."""
        for each in (self.seat.clipboard, self.seat.primary):
            each.end(source)

    def gone(self) -> None:
        """The client has gone."""
        if self.seat.clients.pop(self.client.number, None) is None:
            return
        self.seat.focus.leave(self.windows)
        for part in self.parts.values():
            getattr(part, "gone", lambda: None)()
        for each in (self.seat.clipboard, self.seat.primary):
            each.leave(self.client)
