"""What the bridge asks the server before any client: whether it is there, reads the same folder, and how large its output is."""
import array
import contextlib
import fcntl
import os
import select
import socket
import struct
import termios
import time

from wlframe.bridge.links import OWN_FILES, remove
from wlframe.wayland.objects import Objects, cut
from wlframe.wayland.table import INTERFACES
from wlframe.wayland.wire import DISPLAY, message, spell

SIZE = 64  # bytes of the probe's pool
PATIENCE = 30  # seconds that an answer may take
AGAIN = 0.02  # seconds between two tries to connect


class Fault(Exception):
    """Why there is nothing to bridge, in words for who started it."""


def connect(path, seconds):
    """A connection to the server, which may yet have to come up."""
    until = time.monotonic() + seconds
    while True:
        far = socket.socket(socket.AF_UNIX)
        try:
            far.connect(path)
            return far
        except OSError as fault:
            far.close()
            if not isinstance(fault, (FileNotFoundError, ConnectionRefusedError)):
                raise Fault(f"{path}: {fault.strerror or fault}") from None
            if time.monotonic() > until:
                raise Fault(f"no server listens at {path}: start `wlframe serve --socket {path} ..` (--wait S waits longer for one)") from None
            time.sleep(AGAIN)


def server_process(far):
    """The process that listens at the other end, if that can be told."""
    process, _, _ = struct.unpack("3i", far.getsockopt(socket.SOL_SOCKET, socket.SO_PEERCRED, 12))
    return process or None


class Probe:
    """A client that asks for the globals, for the output's size and for a pool."""

    def __init__(self, far, path):
        self.far, self.path, self.objects, self.stream = far, path, Objects(), bytearray()
        self.last = DISPLAY
        self.globals, self.size = {}, None

    def request(self, target, name, *values):
        """The bytes of a request."""
        said = INTERFACES[self.objects.interface_of(target)].named(name)
        data = message(target, said.opcode, spell(said, values))
        self.objects.asked(self.objects.read(data))
        return data

    def new(self):
        self.last += 1
        return self.last

    def round_trip(self, requests):
        """Sends requests, and takes the events up to the answer of a sync behind them."""
        done = self.new()
        until = time.monotonic() + PATIENCE
        try:
            self.far.sendall(requests + self.request(DISPLAY, "sync", done))
            while not self.take_until(done, until):
                pass
        except ConnectionError:
            raise Fault(f"what listens at {self.path} ends the connection: is it `wlframe serve`?") from None

    def take_until(self, done, until):
        """Takes events that come, and answers whether the one that is waited for is among them."""
        if not select.select([self.far], [], [], max(until - time.monotonic(), 0))[0]:
            raise Fault(f"what listens at {self.path} gave no answer in {PATIENCE} seconds: is it `wlframe serve`, or is the machine too busy?")
        data = self.far.recv(65536)
        if not data:
            raise ConnectionResetError
        self.stream += data
        is_done = False
        for each in cut(self.stream):
            said = self.objects.read(each, "events")
            is_done = is_done or said.name == "wl_callback.done" and said.target == done
            self.take(said)
        return is_done

    def take(self, said):
        match said.name:
            case "wl_registry.global":
                self.globals[said.values[1]] = said.values[0], said.values[2]
            case "wl_output.mode":
                self.size = said.values[1], said.values[2]
            case "wl_display.error":
                raise Fault(f"the server refused the bridge: {said.values[2]}")

    def bind(self, registry, interface):
        if interface not in self.globals:
            raise Fault(f"what listens at {self.path} has no {interface}: is it `wlframe serve`?")
        number = self.new()
        return number, self.request(registry, "bind", self.globals[interface][0], (interface, 1, number))

    def ask(self, size):
        """Asks for the output's size, and for a pool of so many bytes. All that makes the pool goes in one piece, so that one turn of the server takes it."""
        registry = self.new()
        self.round_trip(self.request(DISPLAY, "get_registry", registry))
        _, bind_output = self.bind(registry, "wl_output")
        shm, bind_shm = self.bind(registry, "wl_shm")
        self.round_trip(bind_output + bind_shm + self.request(shm, "create_pool", self.new(), None, size))


class Pipe:
    """A pipe that holds the probe's bytes, of which can be seen whether they were read. Who reads it once more waits, so it is put away first."""

    def __init__(self, path):
        remove(path)
        self.path = path
        self.ends = os.pipe2(os.O_CLOEXEC | os.O_NONBLOCK)

    def link(self):
        """A link to it is in the folder."""
        os.write(self.ends[1], bytes(SIZE))
        os.symlink(f"{OWN_FILES}/{self.ends[0]}", self.path)

    def put(self):
        """It is itself in the folder."""
        self.close()
        os.mkfifo(self.path, 0o600)
        self.ends = (os.open(self.path, os.O_RDWR | os.O_NONBLOCK | os.O_CLOEXEC),)
        os.write(self.ends[0], bytes(SIZE))

    def is_read(self):
        count = array.array("i", [0])
        fcntl.ioctl(self.ends[0], termios.FIONREAD, count)
        return count[0] == 0

    def close(self):
        remove(self.path)
        for each in self.ends:
            os.close(each)
        self.ends = ()


def has_our_processes(process):
    """Whether the server calls the processes by the numbers by which the bridge does, so that a link leads both to the same file."""
    try:
        return process is not None and os.readlink(f"/proc/{process}/ns/pid") == os.readlink("/proc/self/ns/pid")
    except OSError:
        return False


def way_of_links(asks, pipe, ranges):
    """'links' or 'ranges' where the server follows a link, and None where it doesn't. A server that reads ranges reads none where the file of them is empty."""
    pipe.link()
    if ranges is not None:
        with open(ranges, "x", encoding="ascii"):
            pass
    asks.ask(SIZE)
    if pipe.is_read():
        return "links"
    if ranges is None:
        return None
    os.remove(ranges)
    asks.round_trip(b"")
    return "ranges" if pipe.is_read() else None


def way_found(asks, pipe, ranges, process, most):
    """How the server can read the clients' memory, or None where it doesn't read the folder. `most` is the best way that is wanted."""
    can_link = most != "copies" and has_our_processes(process)
    if can_link:
        way = way_of_links(asks, pipe, ranges if most == "ranges" else None)
        if way:
            return way
    pipe.put()
    if can_link:
        asks.round_trip(b"")
    else:
        asks.ask(SIZE)
    return "copies" if pipe.is_read() else None


def probe(path, folder, seconds, most):
    """Waits for the server and asks it. Answers what it found, the server's process, and how it reads the clients' memory: 'copies', 'links' or 'ranges'. It
    is the first that connects, so its pool is `1.1`."""
    far = connect(path, seconds)
    file, ranges = os.path.join(folder, "1.1"), os.path.join(folder, "1.r")
    try:
        remove(ranges)
        with far, contextlib.closing(Pipe(file)) as pipe:
            asks, process = Probe(far, path), server_process(far)
            way = way_found(asks, pipe, ranges, process, most)
            if way is None:
                raise Fault(
                    f"the server didn't read {file}: give both the same folder (--dir) and the same user. "
                    "If another client or bridge connected to the server before, start both anew"
                )
            return asks, process, way
    except OSError as fault:
        raise Fault(f"{fault.filename or path}: {fault.strerror or fault}") from None
    finally:
        remove(ranges)
