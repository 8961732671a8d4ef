"""Lets unmodified Wayland clients talk to `wlframe serve`.

    wlframe serve --socket server.sock --rate 60 --dir pools
    tools/bridge --listen wayland-7 --server server.sock --dir pools
    WAYLAND_DISPLAY=$PWD/wayland-7 wayland-info

A client hands its shared memory over as a file descriptor, and the server takes none: it reads the memory of the k-th pool of its n-th
connection from the file `n.k` of its folder. So the bridge passes what is asked and told on, takes the descriptor of each
wl_shm.create_pool, and makes that file a link to the client's memory while the server has something to read there. Where the server can't
follow links, and with --whole and --plain, it copies each buffer that is committed. It also shows clients later versions than the server
has, and rewrites what differs (docs/BRIDGE.md has each rewriting, and --plain leaves them away).

It has to be the only one that connects to the server's socket, since the server counts connections. Where a client is ended it tells which
request was refused. It ends with status 0 at SIGTERM or SIGINT, with 1 where there is no server or it is gone or reads another folder, and
2 for wrong options. It is not proved.
"""
import argparse
import contextlib
import os
import resource
import select
import signal
import socket
import stat
import struct
import sys
import threading
import time

from wlframe.bridge import links, orders, probe, titles
from wlframe.bridge.client import Client, Ended
from wlframe.bridge.links import remove
from wlframe.bridge.probe import Fault
from wlframe.bridge.seat import Seat
from wlframe.bridge.viewing import Lost, Viewing
from wlframe.xkb import Unknown

MAX_DESCRIPTORS = 28  # as many as libwayland sends at once
FILES, LEAST_FILES = 512, 128  # of a client, where the bridge may open enough: the server gives a client 64 pools
CLIENTS = 32  # that the server takes
SPARE = 64  # descriptors that are for no client's files
SPACE = 512  # MB of copies of a client: the server takes 256 MB of pools
SILENT = 64  # clients that have connected and said nothing yet
PIECE = 65536  # bytes read at once
FULL = 1 << 20  # bytes that may wait for one side before the other isn't read
PATIENCE = 5  # seconds that clients have to end, or to take what waits for them
LEAVING = 30  # seconds that the server has to end one that has left
AGAIN = 0.2  # seconds within which the process of a server ends whose sockets are closed
INWARDS = select.POLLIN | select.POLLHUP | select.POLLERR


def say(text):
    sys.stderr.write(f"bridge: {text}\n")  # in one piece, since clients are served side by side
    sys.stderr.flush()


def program_of(near):
    """What the client's program is called, with its process, where that can be told."""
    process, _, _ = struct.unpack("3i", near.getsockopt(socket.SOL_SOCKET, socket.SO_PEERCRED, 12))
    try:
        with open(f"/proc/{process}/comm", encoding="utf-8", errors="replace") as stream:
            return f" ({stream.read().strip()}, process {process})"
    except OSError:
        return ""


class Connection:
    """The sockets of a client and of the server for it, and what passes between them."""

    def __init__(self, bridge, near):
        self.bridge, self.near, self.far = bridge, near, None
        self.client, self.is_silent = None, True

    def run(self):
        """Serves the client until it or the server ends it. The server hears of it with its first bytes."""
        name = program_of(self.near)
        try:
            if self.near.recv(1, socket.MSG_PEEK):
                self.is_silent = False
                self.far, number = self.bridge.connect()
                self.client = Client(number, self.bridge.settings, lambda text: say(f"client {number}{name} {text}"))
                try:
                    self.serve()
                except Ended as why:
                    self.client.tell_end(str(why))
                    self.flush_client()
                    with contextlib.suppress(OSError):
                        self.near.shutdown(socket.SHUT_RDWR)
                    self.client.to_server.clear()
                    self.leave()
                finally:
                    self.client.log(f"ended {'refused' if self.client.is_refused else 'gone'}")
        except ConnectionError:
            pass  # the client left before it said anything, or the server is gone
        except OSError as fault:
            say(f"a client{name} was ended: {fault.strerror}")
        finally:
            self.close()

    def serve(self):
        """Passes on what comes, either way, until one side ends. Then the other gets what waits for it."""
        poll, client = select.poll(), self.client
        near, far, woken = self.near.fileno(), self.far.fileno(), client.posts.woken
        poll.register(woken, select.POLLIN)
        while True:
            if not client.to_client:
                client.posts.sent()
            poll.register(near, (select.POLLIN if len(client.to_server) < FULL else 0) | (select.POLLOUT if client.to_client else 0))
            poll.register(far, (select.POLLIN if len(client.to_client) < FULL else 0) | (select.POLLOUT if client.to_server else 0))
            ready = dict(poll.poll())
            send(self.near, client.to_client, ready.get(near, 0), client.to_client_descriptors)
            send(self.far, client.to_server, ready.get(far, 0))
            if ready.get(far, 0) & INWARDS and not self.take_events():
                self.flush_client()
                if not client.is_refused and not self.bridge.is_ending:
                    client.tell_end(self.bridge.why_ended())
                return
            if woken in ready:  # behind the events that came before what was posted
                client.posts.run()
            if ready.get(near, 0) & INWARDS and not self.take_requests():
                self.leave()
                return

    def take_requests(self):
        """Takes what the client sent. False where it has left."""
        try:
            data, descriptors, flags, _ = socket.recv_fds(self.near, PIECE, MAX_DESCRIPTORS, socket.MSG_DONTWAIT)
        except BlockingIOError:
            return True
        except ConnectionError:
            return False
        if flags & socket.MSG_CTRUNC:
            raise Ended("was ended: it sent more descriptors at once than can be taken")
        self.client.requests(data, descriptors)
        return bool(data)

    def take_events(self):
        """Takes what the server sent. False where it has ended the client."""
        try:
            data = self.far.recv(PIECE, socket.MSG_DONTWAIT)
        except BlockingIOError:
            return True
        except ConnectionError:
            return False
        self.client.events(data)
        return bool(data)

    def leave(self):
        """The client has left: the server gets its last requests, and ends it. Its files are there until then."""
        self.client.leave()
        self.flush(self.far, self.client.to_server)
        with contextlib.suppress(OSError, Ended):
            self.far.shutdown(socket.SHUT_WR)
            self.far.settimeout(LEAVING)
            while data := self.far.recv(PIECE):
                self.client.events(data)

    def flush_client(self):
        """Sends all that waits for the client."""
        send(self.near, self.client.to_client, select.POLLOUT, self.client.to_client_descriptors)
        self.flush(self.near, self.client.to_client)

    def flush(self, side, waiting):
        """Sends all that waits for a side, which may have gone."""
        with contextlib.suppress(OSError):
            side.settimeout(PATIENCE)
            side.sendall(waiting)

    def stop(self):
        """Ends it from another thread."""
        for side in filter(None, (self.near, self.far)):
            with contextlib.suppress(OSError):
                side.shutdown(socket.SHUT_RDWR)

    def close(self):
        if self.client is not None:
            self.client.close()
        for side in filter(None, (self.near, self.far)):
            side.close()


def send(side, waiting, events, descriptors=()):
    """Sends what a side takes now, and with it descriptors, which come before the messages that they belong to are whole. Of one that has gone nothing is
    kept: what it sent before it went is still to be read."""
    if waiting and events & (select.POLLOUT | select.POLLHUP | select.POLLERR):
        try:
            taken = [descriptors[at] for at in range(min(len(descriptors), MAX_DESCRIPTORS))]
            del waiting[: socket.send_fds(side, [waiting], taken, socket.MSG_DONTWAIT | socket.MSG_NOSIGNAL)]
            for each in taken:
                os.close(descriptors.popleft())
        except BlockingIOError:
            pass
        except OSError:
            waiting.clear()


class Bridge:
    """What is bridged: the server's socket with the number of connections to it, and the clients that are there."""

    def __init__(self, settings):
        self.settings, self.count, self.lock = settings, 1, threading.Lock()  # the probe was the first
        self.live = {}  # by connection: its thread
        self.is_ending = False  # someone asked the bridge to end
        self.server = None  # a descriptor of the server's process, if there is one
        self.woken, self.wakes = os.pipe()

    def connect(self):
        """A connection to the server, with its number."""
        with self.lock:
            far = socket.socket(socket.AF_UNIX)
            try:
                far.connect(self.settings.server)
            except OSError:
                far.close()
                os.write(self.wakes, b"\0")
                raise
            self.count += 1
            return far, self.count

    def watch(self, process):
        """Watches the server's process, where that can be done."""
        if process:
            with contextlib.suppress(OSError, AttributeError):
                self.server = os.pidfd_open(process)

    def is_server_gone(self, seconds):
        return self.server is not None and bool(select.select([self.server], [], [], seconds)[0])

    def why_ended(self):
        """Why the server closed a connection without an error."""
        if self.is_server_gone(AGAIN):
            return "was ended: the server is gone"
        return "was ended by the server without an error: it read its events too slowly, 32 clients were there before it, or the server is out of memory"

    def accept(self, listener):
        try:
            near, _ = listener.accept()
        except OSError as fault:  # most likely it has too many open files
            say(f"no client can connect: {fault.strerror}")
            time.sleep(AGAIN)
            return
        connection = Connection(self, near)
        silent = [it for it in list(self.live) if it.is_silent]
        if len(silent) >= SILENT:  # the one that has been silent for longest goes
            silent[0].is_silent = False
            silent[0].stop()
        thread = threading.Thread(target=self.run, args=(connection,), daemon=True)
        self.live[connection] = thread
        thread.start()

    def run(self, connection):
        try:
            connection.run()
        finally:
            self.live.pop(connection, None)

    def serve(self, listener):
        """Takes clients until the server is gone."""
        ends = [it for it in (self.server, self.woken) if it is not None]
        while True:
            ready = select.select([listener, *ends], [], [])[0]
            if any(it in ready for it in ends):
                self.wait()
                raise Fault(f"the server at {self.settings.server} is gone")
            self.accept(listener)

    def wait(self):
        """Waits until the clients have ended, for a while."""
        until = time.monotonic() + PATIENCE
        for thread in list(self.live.values()):
            thread.join(max(until - time.monotonic(), 0))

    def stop(self):
        """Ends all clients."""
        self.is_ending = True
        for connection in list(self.live):
            connection.stop()
        self.wait()
        for connection in list(self.live):
            connection.close()


def is_left_over(path):
    """Whether a socket is there to which nobody listens."""
    with socket.socket(socket.AF_UNIX) as asks:
        asks.settimeout(PATIENCE)
        try:
            asks.connect(path)
        except ConnectionRefusedError:
            return stat.S_ISSOCK(os.stat(path).st_mode)
        except OSError:
            pass
    return False


@contextlib.contextmanager
def folder_of(path):
    """The folder of a socket. Where it isn't there it is made, for its user alone, and removed at the end."""
    folder = os.path.dirname(os.path.abspath(path))
    try:
        os.mkdir(folder, 0o700)
    except FileExistsError:
        yield
        return
    except OSError as fault:
        raise Fault(f"{folder}: {fault.strerror}") from None
    try:
        yield
    finally:
        with contextlib.suppress(OSError):
            os.rmdir(folder)


@contextlib.contextmanager
def listening(path):
    """A socket at the path, in the place of one that is left over. It is removed at the end."""
    with folder_of(path), socket.socket(socket.AF_UNIX) as listener:
        try:
            remove(path + ".new")
            if os.path.lexists(path) and not is_left_over(path):
                raise Fault(f"{path} exists already: another bridge or compositor listens there, or it is no socket. Name another path")
            listener.bind(path + ".new")
            listener.listen(128)
            os.rename(path + ".new", path)  # so that who sees it can connect
        except OSError as fault:
            raise Fault(f"{path}: {fault.strerror or fault}") from None
        try:
            yield listener
        finally:
            remove(path)


class Stopped(Exception):
    """Someone asks the bridge to end."""


def stop(*_):
    raise Stopped


def bridged(settings):
    """Bridges until it is asked to end, or there is nothing to bridge any more."""
    if not os.path.isdir(settings.dir):
        raise Fault(f"there is no folder {settings.dir}: make it, and give it to wlframe too (--dir)")
    with listening(settings.listen) as listener, contextlib.ExitStack() as stack:
        most = "copies" if settings.plain or settings.whole else "links" if settings.links else "ranges"
        found, process, settings.way = probe.probe(settings.server, settings.dir, settings.wait, most)
        if settings.way == "copies" != most:
            say("the server can't follow links to the clients' memory, as it has another user or sees other processes. So each committed buffer is copied")
        settings.output = found.size
        settings.offered = {name: (interface, version) for interface, (name, version) in found.globals.items()}
        settings.seat = None if settings.plain else seat(settings, stack)
        settings.quick = links.quick_folder() if settings.way == "ranges" else None
        if settings.quick:
            stack.callback(settings.quick.close)
        bridge = Bridge(settings)
        bridge.watch(process)
        with titles.served(settings.windows, bridge), taking_orders(settings):
            say(f"clients find it by WAYLAND_DISPLAY={os.path.abspath(settings.listen)}")
            try:
                bridge.serve(listener)
            finally:
                bridge.stop()


def files():
    """How many files a client may have, where each of them may have as many."""
    most = resource.getrlimit(resource.RLIMIT_NOFILE)[1]
    each = FILES if most == resource.RLIM_INFINITY else (most - SPARE) // (CLIENTS + 1) - MAX_DESCRIPTORS
    return max(LEAST_FILES, min(FILES, each))


def count(text):
    value = int(text)
    if value < 1:
        raise ValueError
    return value


def megabytes(text):
    return count(text) << 20


def seat(settings, stack):
    """The keyboard and the clipboard of the display, and what shows it to others."""
    try:
        viewing = None
        if settings.viewer:
            viewing = Viewing(settings.viewer, stack.enter_context(listening(settings.view)) if settings.view else None)
        made = Seat(None if settings.no_keyboard else settings.layout, not settings.no_control, viewing)
    except (Lost, Unknown) as fault:
        raise Fault(str(fault)) from None
    if made.keyboard is None and not settings.no_keyboard:
        say(f"there is no keyboard: {made.why_none}")
    return made


@contextlib.contextmanager
def taking_orders(settings):
    """Takes what comes by the socket of --keys, if there is one."""
    if not settings.keys or settings.seat is None:
        yield
        return
    with listening(settings.keys) as listener:
        threading.Thread(target=orders.listen, args=(settings.seat, listener), daemon=True).start()
        yield


def asked():
    parser = argparse.ArgumentParser(description="Lets unmodified Wayland clients talk to wlframe serve.")
    parser.add_argument("--listen", required=True, metavar="PATH", help="the socket that clients connect to")
    parser.add_argument("--server", required=True, metavar="PATH", help="the socket that wlframe serves")
    parser.add_argument("--dir", default=".", metavar="DIR", help="the folder from which wlframe reads side files (.)")
    parser.add_argument("--wait", type=float, default=10, metavar="SECONDS", help="wait so long for the server to come up (10)")
    ways = parser.add_mutually_exclusive_group()
    ways.add_argument("--plain", action="store_true", help="pass each message on as it is")
    ways.add_argument("--fullscreen", action="store_true", help="tell toplevels that they fill the output")
    reads = parser.add_mutually_exclusive_group()
    reads.add_argument("--whole", action="store_true", help="copy each committed buffer, and make no links to the clients' memory")
    reads.add_argument("--links", action="store_true", help="make links, and let the server read whole pools, not only the parts that changed")
    parser.add_argument("--files", type=count, default=files(), metavar="N", help="let a client have so many pools and side files at once (%(default)s here)")
    parser.add_argument("--space", type=megabytes, default=SPACE << 20, metavar="MB", help=f"copy so much of a client's memory at most ({SPACE})")
    parser.add_argument("--keys", metavar="PATH", help="make a socket that takes lines which type, scroll, copy and paste (docs/BRIDGE.md has them)")
    parser.add_argument("--viewer", metavar="PATH", help="the server's viewer socket; with it clients may take pictures and point")
    parser.add_argument("--view", metavar="PATH", help="make a socket like the server's viewer socket, for any number of viewers; it needs --viewer")
    keys = parser.add_mutually_exclusive_group()
    keys.add_argument("--layout", default="us", metavar="NAME", help="the keyboard's layout, as de or us(intl) (us)")
    parser.add_argument("--no-control", action="store_true", help="offer no globals with which a client types, copies or takes pictures for others")
    keys.add_argument("--no-keyboard", action="store_true", help="offer no keyboard")
    parser.add_argument("--log", metavar="FILE", help="append to FILE what each connection binds, and how it ended")
    parser.add_argument("--windows", metavar="PATH", help="make a socket that lists the toplevels as JSON")
    parser.add_argument("--trace", metavar="FILE", help="write each request and event in words, with what the bridge passed on instead")
    found = parser.parse_args()
    if found.view and not found.viewer:
        parser.error("--view needs --viewer")
    return found


def main():
    settings = asked()
    most = resource.getrlimit(resource.RLIMIT_NOFILE)[1]
    resource.setrlimit(resource.RLIMIT_NOFILE, (most, most))  # each pool takes a descriptor, or two
    for each in (signal.SIGTERM, signal.SIGINT, signal.SIGHUP):
        signal.signal(each, stop)
    try:
        with contextlib.ExitStack() as stack:
            settings.log = stack.enter_context(open(settings.log, "a", encoding="utf-8", buffering=1)) if settings.log else None
            settings.trace = stack.enter_context(open(settings.trace, "w", encoding="utf-8", buffering=1)) if settings.trace else None
            bridged(settings)
    except Stopped:
        return 0
    except Fault as fault:
        say(str(fault))
        return 1
    except OSError as fault:
        say(f"{fault.filename}: {fault.strerror}")
        return 1
