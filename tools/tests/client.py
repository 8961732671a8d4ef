"""A small Wayland client, which passes descriptors, for tests over the real program."""
import mmap
import os
import pathlib
import socket
import struct
import sys
import time

sys.path.insert(0, str(pathlib.Path(__file__).resolve().parent.parent.parent / "python"))
from wlframe.wayland.objects import Objects, cut  # pylint: disable=wrong-import-position
from wlframe.wayland.table import INTERFACES  # pylint: disable=wrong-import-position
from wlframe.wayland.wire import DISPLAY, message, spell  # pylint: disable=wrong-import-position

PATIENCE = 60  # seconds that an answer may take
TOP_LEFT, BOTTOM_RIGHT = (INTERFACES["xdg_positioner"].enums["anchor"].values[it] for it in ("top_left", "bottom_right"))


class Gone(Exception):
    """The connection was closed."""


class Memory:
    """Shared memory of so many bytes."""

    def __init__(self, size):
        self.descriptor = os.memfd_create("pool")
        os.ftruncate(self.descriptor, size)
        self.bytes = mmap.mmap(self.descriptor, size)

    def fill(self, at, width, height, colour):
        """Draws a rectangle of one colour, 0xaarrggbb, as rows without anything between."""
        self.bytes[at : at + 4 * width * height] = struct.pack("<I", colour) * (width * height)


class Client:
    """A connection, with the events that came and weren't taken yet."""

    def __init__(self, path):
        self.socket = socket.socket(socket.AF_UNIX)
        self.socket.settimeout(PATIENCE)
        self.socket.connect(str(path))
        self.objects, self.stream, self.events = Objects(), bytearray(), []
        self.globals = {}  # by interface: name, version
        self.last = DISPLAY
        self.waiting, self.descriptors = b"", []
        self.received = []  # the descriptors that came with events

    def __enter__(self):
        return self

    def __exit__(self, *_):
        self.socket.close()
        while self.received:
            os.close(self.received.pop())

    def new(self):
        self.last += 1
        return self.last

    def put(self, target, name, *values, descriptor=None):
        """Puts a request among what flush sends. Where it makes an object its new id is answered, which isn't among the values."""
        interface = self.objects.interface_of(target)
        said = INTERFACES[interface].named(name)
        made = self.new() if said.made is not None and not any(isinstance(it, tuple) for it in values) else None
        whole, rest = [], iter(values)
        for argument in said.arguments:
            is_made = argument.kind == "new_id" and made is not None
            whole.append(made if is_made else None if argument.kind == "fd" else next(rest))
        data = message(target, said.opcode, spell(said, whole))
        self.objects.asked(self.objects.read(data))
        self.waiting += data
        if descriptor is not None:
            self.descriptors.append(descriptor)
        return made

    def flush(self):
        """Sends what was put, with all descriptors beside the first bytes."""
        data, descriptors = self.waiting, self.descriptors
        self.waiting, self.descriptors = b"", []
        if descriptors:
            sent = socket.send_fds(self.socket, [data], descriptors)
            data = data[sent:]
        if data:
            self.socket.sendall(data)

    def send(self, target, name, *values, descriptor=None):
        """Sends a request at once, and answers the new id if it makes an object."""
        made = self.put(target, name, *values, descriptor=descriptor)
        self.flush()
        return made

    def receive(self):
        """Takes what has come as events. Gone where the connection is closed and nothing is left."""
        data, descriptors, _, _ = socket.recv_fds(self.socket, 65536, 28)
        if not data:
            raise Gone
        self.received += descriptors
        self.stream += data
        for each in cut(self.stream):
            said = self.objects.read(each, "events")
            self.events.append((said, self.objects.in_words(said)))
            self.objects.told(said)

    def until(self, name, target=None):
        """Waits for an event of this name, as 'wl_callback.done', and answers it. It and those before it stay in `events`."""
        at, until = 0, time.monotonic() + PATIENCE
        while time.monotonic() < until:
            while at < len(self.events):
                said = self.events[at][0]
                if said.name == name and target in (None, said.target):
                    return said
                at += 1
            self.receive()
        raise TimeoutError(f"no {name} came")

    def take(self):
        """The events that came, in words."""
        words = [it for _, it in self.events]
        self.events = []
        return words

    def round_trip(self):
        """Waits until all that was asked before is served."""
        done = self.send(DISPLAY, "sync")
        self.until("wl_callback.done", done)

    def begin(self):
        """Asks for the registry, and learns the globals."""
        registry = self.send(DISPLAY, "get_registry")
        self.round_trip()
        self.globals = {said.values[1]: (said.values[0], said.values[2]) for said, _ in self.events if said.name == "wl_registry.global"}
        self.events = []
        return registry

    def bind(self, registry, interface, version):
        made = self.new()
        self.send(registry, "bind", self.globals[interface][0], (interface, version, made))
        return made

    def error(self):
        """What ended the client, in words."""
        try:
            said = self.until("wl_display.error")
        except (Gone, ConnectionError):
            return "no error"
        return self.objects.in_words(said)


class Shown:
    """A surface of a client that shows one of its buffers."""

    client = surface = width = height = buffers = None

    def show(self, at, how="damage", rectangle=None):
        """Commits one of the buffers, and waits until it was shown."""
        client = self.client
        client.put(self.surface, "attach", self.buffers[at], 0, 0)
        client.put(self.surface, how, *(rectangle or (0, 0, self.width, self.height)))
        shown = client.put(self.surface, "frame")
        client.send(self.surface, "commit")
        client.until("wl_callback.done", shown)


class Window(Shown):
    """A toplevel of a size with a pool of two buffers, one behind the other. It isn't shown until a buffer is committed."""

    def __init__(self, client, width, height, compositor_version=4):
        self.client, self.width, self.height = client, width, height
        self.registry = client.begin()
        self.compositor = client.bind(self.registry, "wl_compositor", compositor_version)
        self.shm = client.bind(self.registry, "wl_shm", 1)
        self.base = client.bind(self.registry, "xdg_wm_base", 1)
        self.make_buffers()
        self.surface = client.put(self.compositor, "create_surface")
        self.shell = client.put(self.base, "get_xdg_surface", self.surface)
        self.toplevel = client.put(self.shell, "get_toplevel")
        client.send(self.surface, "commit")
        self.configure = client.until("xdg_toplevel.configure").values
        client.send(self.shell, "ack_configure", client.until("xdg_surface.configure").values[0])

    @property
    def size(self):
        return 4 * self.width * self.height

    def make_buffers(self):
        """Makes a pool with two buffers of the window's size."""
        self.memory = Memory(2 * self.size)
        self.pool = self.client.send(self.shm, "create_pool", 2 * self.size, descriptor=self.memory.descriptor)
        self.buffers = [self.client.put(self.pool, "create_buffer", at * self.size, self.width, self.height, 4 * self.width, 1) for at in (0, 1)]

    def draw(self, at, colour):
        """Draws all of one of the buffers."""
        self.memory.fill(at * self.size, self.width, self.height, colour)


class Menu(Shown):
    """A popup on a window or another popup, with its sides and buffers, at a point of it; with a grab where a seat and a serial are given. It isn't shown
    until a buffer is committed."""

    def __init__(self, window, x, y, grab=None):
        self.client, self.width, self.height, self.buffers = window.client, window.width, window.height, window.buffers
        client, self.registry, self.compositor = self.client, window.registry, window.compositor
        self.base = client.bind(window.registry, "xdg_wm_base", 3)
        self.surface = client.put(window.compositor, "create_surface")
        self.shell = client.put(self.base, "get_xdg_surface", self.surface)
        self.popup = client.put(self.shell, "get_popup", window.shell, self.place(x, y))
        if grab:
            client.put(self.popup, "grab", *grab)
        client.send(self.surface, "commit")
        self.acknowledge()

    def place(self, x, y):
        """A positioner that places its upper left corner at this point of its parent."""
        made = self.client.put(self.base, "create_positioner")
        self.client.put(made, "set_size", self.width, self.height)
        self.client.put(made, "set_anchor_rect", x, y, 1, 1)
        self.client.put(made, "set_anchor", TOP_LEFT)
        self.client.put(made, "set_gravity", BOTTOM_RIGHT)
        return made

    def acknowledge(self):
        """Waits for a configure, and acknowledges it. All that it was told of stays in the client's events."""
        self.client.send(self.shell, "ack_configure", self.client.until("xdg_surface.configure", self.shell).values[0])
