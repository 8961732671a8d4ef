"""A client's objects, followed through its requests and the events to it, and what these say in words."""
import dataclasses

from wlframe.wayland.table import DESTRUCTORS, INTERFACES
from wlframe.wayland.wire import DISPLAY, HEADER, Misspelled, arguments_in_words, header, read

SHOWN = 64  # bytes of a message that can't be said in words


@dataclasses.dataclass
class Object:
    """An object of a client: its version is the one that the client asked for, and `served` what the server takes it for."""

    number: int
    interface: str
    version: int
    served: int
    ended: bool = False  # the client has destroyed it, and its id isn't given back yet
    state: object = None  # what who follows it wants to know of it

    def __str__(self):
        return f"{self.interface}#{self.number}"


@dataclasses.dataclass
class Said:
    """A message that was read: its object, which request or event it is, and its values. What isn't known is None; why tells then."""

    target: int
    opcode: int
    data: bytes
    object: Object | None = None
    message: object = None
    values: list | None = None
    why: str = ""

    @property
    def name(self):
        """As 'wl_surface.attach', where all of it is known."""
        return f"{self.object.interface}.{self.message.name}" if self.values is not None else None

    def made(self):
        """The interface, the version (None where it is the object's own) and the id of the object that it makes, if it does."""
        argument = self.message.made
        if argument is None:
            return None
        value = self.values[self.message.arguments.index(argument)]
        return value if argument.interface is None else (argument.interface, None, value)


class Objects:
    """The objects of a client by their ids."""

    def __init__(self):
        self.by_id = {DISPLAY: Object(DISPLAY, "wl_display", 1, 1)}

    def read(self, data, kind="requests"):
        """What the bytes of one message say: a request, or one of the 'events'."""
        target, opcode, _ = header(data)
        said = Said(target, opcode, data, self.by_id.get(target))
        if said.object is None:
            said.why = "of an object that isn't known"
            return said
        known = getattr(INTERFACES[said.object.interface], kind) if said.object.interface in INTERFACES else ()
        if opcode >= len(known):
            said.why = f"of an opcode that {said.object.interface} hasn't"
            return said
        said.message = known[opcode]
        try:
            said.values = read(said.message, data[HEADER:])
        except Misspelled as fault:
            said.why = f"misspelled: {fault}"
        return said

    def add(self, number, interface, version, served=None):
        """There is a new object."""
        self.by_id[number] = made = Object(number, interface, version, version if served is None else served)
        return made

    def asked(self, said):
        """A request was made: answers the object that it makes, if it does. One whose id is in use makes none; a wl_callback may have ended unseen."""
        if said.values is None:
            return None
        if said.message.name in DESTRUCTORS:
            said.object.ended = True
        made = said.made()
        if made is None:
            return None
        interface, version, number = made
        old = self.by_id.get(number)
        if old is not None and not old.ended and old.interface != "wl_callback":
            return None
        return self.add(number, interface or "", version or said.object.version, version or said.object.served)

    def told(self, said):
        """An event was sent: answers the object whose id it gives back, if it does."""
        if said.values is None:
            return None
        made = said.made()
        if made is not None:
            self.add(made[2], made[0], said.object.version)
        return self.by_id.pop(said.values[0], None) if said.name == "wl_display.delete_id" else None

    def name_of(self, number):
        """What an object is called, as 'wl_surface#6'."""
        return str(self.by_id[number]) if number in self.by_id else f"#{number}"

    def interface_of(self, number):
        """The interface of an object, or None."""
        return self.by_id[number].interface if number in self.by_id else None

    def in_words(self, said, labels=False):
        """What a message says, as 'wl_surface#6.attach(wl_buffer#10, 0, 0)'; with labels each argument has its name before it."""
        target = self.name_of(said.target)
        if said.message is None:
            return f"{target}, opcode {said.opcode}, {said.why}: {in_hex(said.data)}"
        if said.values is None:
            return f"{target}.{said.message.name}, {said.why}: {in_hex(said.data)}"
        return f"{target}.{said.message.name}({arguments_in_words(said.message, said.values, self.name_of, self.interface_of, labels)})"


def in_hex(data):
    """The bytes in words of four, and no more than the first of a long message."""
    return data[:SHOWN].hex(" ", 4) + (f" and {len(data) - SHOWN} bytes more" if len(data) > SHOWN else "")


def cut(stream):
    """Takes the messages that are whole off the front of a bytearray. After a header whose size is below its own nothing is whole."""
    found, at = [], 0
    while len(stream) - at >= HEADER:
        size = header(stream, at)[2]
        if size < HEADER or len(stream) < at + size:
            break
        found.append(bytes(stream[at : at + size]))
        at += size
    del stream[:at]
    return found


def is_broken(stream):
    """Whether a header stands at the front whose size is below its own."""
    return len(stream) >= HEADER and header(stream)[2] < HEADER
