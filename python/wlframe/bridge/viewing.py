"""The server's viewer socket, which takes one viewer: the bridge is that one, and hands on what it sees to others by a socket of the same protocol.

The picture is kept as rows of 4 bytes a pixel: blue, green, red, 255. What comes is read by a thread of its own; it never waits for who looks.
"""
import collections
import contextlib
import os
import selectors
import socket
import struct
import threading
import time
import typing

PIECE = 1 << 18
LONGEST = 64  # bytes of a line that a viewer sends
FULL = 1 << 16  # bytes that wait for a viewer before its lines aren't read
PATIENCE = 30.0  # seconds that the server has to make its socket and to tell of itself

Rows = dict[int, tuple[int, int]]  # by a row: from where to where, in pixels, its pixels may be others than are known


class Lost(Exception):
    """There is no viewer socket, or it has another viewer, in words."""


def join(rows: Rows, y: int, begin: int, end: int) -> None:
    """These pixels of a row may be others too."""
    had = rows.get(y, (begin, end))
    rows[y] = min(had[0], begin), max(had[1], end)


class Picture:
    """What the output shows."""

    def __init__(self, width: int, height: int):
        self.width, self.height = width, height
        self.pixels = bytearray(4 * width * height)

    def row(self, y: int, begin: int, end: int) -> memoryview:
        """The bytes of pixels of a row."""
        at = 4 * y * self.width
        return memoryview(self.pixels)[at + 4 * begin : at + 4 * end]

    def whole(self) -> Rows:
        return {y: (0, self.width) for y in range(self.height)}


class Watch:
    """What has changed since somebody looked last. `call`, if there is one, is called once as something changes."""

    def __init__(self, rows: Rows):
        self.rows, self.call = rows, None

    def taken(self) -> tuple[int, int, int, int] | None:
        """The smallest rectangle that has all of it, as x, y, width and height, if there is any; from now on that is known."""
        rows, self.rows = self.rows, {}
        if not rows:
            return None
        left, right = min(it[0] for it in rows.values()), max(it[1] for it in rows.values())
        return left, min(rows), right - left, max(rows) - min(rows) + 1


class Viewer:
    """One who looks by the bridge's socket."""

    def __init__(self, near: socket.socket, picture: Picture):
        self.near, self.watch = near, Watch(picture.whole())
        self.rest, self.out = b"", bytearray(f"wlframe 1 {picture.width} {picture.height}\n".encode())
        self.down: set[int] = set()

    def update(self, picture: Picture, moment: int) -> None:
        """Puts all that has changed among what it is told."""
        rows, self.watch.rows = self.watch.rows, {}
        if rows:
            self.out += f"frame {moment} {len(rows)}\n".encode()
            for y in sorted(rows):
                begin, end = rows[y]
                self.out += struct.pack("<III", begin, y, end - begin) + picture.row(y, begin, end)


class Viewing:
    """The connection to the server's viewer socket, the picture, and who looks at it."""

    def __init__(self, path: str, listener: socket.socket | None = None):
        self.lock, self.ready = threading.RLock(), selectors.DefaultSelector()
        self.server, self.stream, self.out = connected(path), bytearray(), bytearray()
        self.picture, self.moment = self.head(path), 0
        self.position = [self.picture.width / 2, self.picture.height / 2]  # of the pointer, as it was moved last
        self.number, self.waiting = 0, collections.deque()  # the last sync, and who waits for which
        self.asked: collections.deque[Viewer] = collections.deque()  # who asked for windows
        self.watches: list[Watch] = []
        self.woken, self.listener = os.eventfd(0, os.EFD_NONBLOCK | os.EFD_CLOEXEC), listener
        self.viewers: dict[int, Viewer] = {}
        self.ready.register(self.server, selectors.EVENT_READ, self.read)
        self.ready.register(self.woken, selectors.EVENT_READ, self.wake)
        if listener is not None:
            self.ready.register(listener, selectors.EVENT_READ, self.accept)
        threading.Thread(target=self.run, daemon=True).start()

    def head(self, path: str) -> Picture:
        """What the server tells first: the output's sides."""
        while b"\n" not in self.stream:
            piece = self.server.recv(PIECE)
            if not piece:
                raise Lost(f"{path} has a viewer already, or is no viewer's socket")
            self.stream += piece
        line, _, rest = bytes(self.stream).partition(b"\n")
        self.stream[:] = rest
        words = line.split()
        if words[:2] != [b"wlframe", b"1"] or len(words) != 4:
            raise Lost(f"{path} is no viewer's socket")
        return Picture(int(words[2]), int(words[3]))

    def run(self) -> None:
        """Takes what comes until the server is gone."""
        with contextlib.suppress(ConnectionError):
            while True:
                for key, mask in self.ready.select():
                    key.data(mask)
                self.send()

    def tell(self, *lines: str) -> None:
        """Sends lines to the server, from any thread."""
        with self.lock:
            self.out += "".join(f"{it}\n" for it in lines).encode()
        os.eventfd_write(self.woken, 1)

    def when_complete(self, call: typing.Callable) -> None:
        """Calls back once all is in the picture that was asked of the server before."""
        with self.lock:
            self.number += 1
            self.waiting.append((self.number, call))
            self.tell(f"sync {self.number}")

    def watch(self) -> Watch:
        """Has a new watch, for which all has changed."""
        with self.lock:
            self.watches.append(made := Watch(self.picture.whole()))
            return made

    def when_changed(self, watch: Watch, call: typing.Callable) -> None:
        """Calls back as soon as something has changed that a watch doesn't know."""
        with self.lock:
            if watch.rows:
                call()
            else:
                watch.call = call

    def forget(self, watch: Watch) -> None:
        """Nobody looks by this watch any more."""
        with self.lock:
            self.watches.remove(watch)

    def move(self, x: float, y: float) -> None:
        """Moves the pointer to a point of the output, or to the nearest that is in it."""
        with self.lock:
            self.position = [min(max(x, 0), self.picture.width - 1), min(max(y, 0), self.picture.height - 1)]
            self.tell("motion {} {}".format(*map(int, self.position)))

    def wake(self, _mask: int) -> None:
        with contextlib.suppress(BlockingIOError):
            os.eventfd_read(self.woken)

    def send(self) -> None:
        """Sends what waits for the server and for the viewers, as far as they take it."""
        with self.lock:
            push(self.server, self.out)
            wanted = selectors.EVENT_READ | (selectors.EVENT_WRITE if self.out else 0)
            self.ready.modify(self.server, wanted, self.read)
            for viewer in list(self.viewers.values()):
                if not viewer.out:
                    viewer.update(self.picture, self.moment)
                self.push(viewer)

    def push(self, viewer: Viewer) -> None:
        try:
            push(viewer.near, viewer.out)
        except OSError:
            self.end(viewer)
            return
        wanted = (selectors.EVENT_READ if len(viewer.out) < FULL else 0) | (selectors.EVENT_WRITE if viewer.out else 0)
        self.ready.modify(viewer.near, wanted, lambda mask: self.hear(viewer, mask))

    def read(self, mask: int) -> None:
        """Takes what the server sent."""
        if not mask & selectors.EVENT_READ:
            return
        with contextlib.suppress(BlockingIOError):
            piece = self.server.recv(PIECE, socket.MSG_DONTWAIT)
            if not piece:
                raise ConnectionResetError
            self.stream += piece
            with self.lock:
                while (end := self.stream.find(b"\n")) >= 0 and self.take(end):
                    pass

    def take(self, end: int) -> bool:
        """Takes what begins with the line that ends there, if it is whole."""
        words = bytes(self.stream[:end]).split()
        match words[0] if words else b"":
            case b"frame":
                return self.take_frame(end + 1, int(words[1]), int(words[2]))
            case b"windows":
                return self.take_windows(end + 1, int(words[1]))
            case b"synced":
                self.moment = int(words[2])
                while self.waiting and self.waiting[0][0] <= int(words[1]):
                    self.waiting.popleft()[1]()
        del self.stream[: end + 1]
        return True

    def take_frame(self, at: int, moment: int, count: int) -> bool:
        """Takes an update, if all its runs are there."""
        runs, view = [], memoryview(self.stream)
        try:
            for _ in range(count):
                if at + 12 > len(view):
                    return False
                x, y, width = struct.unpack_from("<III", view, at)
                runs.append((at + 12, x, y, width))
                at += 12 + 4 * width
            if at > len(view):
                return False
            for begin, x, y, width in runs:
                self.picture.row(y, x, x + width)[:] = view[begin : begin + 4 * width]
        finally:
            view.release()
        del self.stream[:at]
        self.moment = moment
        self.changed(runs)
        return True

    def changed(self, runs: list[tuple[int, int, int, int]]) -> None:
        """These runs of the picture are new: who looks is told."""
        for watch in [*self.watches, *(it.watch for it in self.viewers.values())]:
            for _, x, y, width in runs:
                join(watch.rows, y, x, x + width)
            if watch.call is not None and runs:
                call, watch.call = watch.call, None
                call()

    def take_windows(self, at: int, count: int) -> bool:
        """Takes a list of windows, if it is whole, and hands it to who asked for it."""
        for _ in range(count):
            at = self.stream.find(b"\n", at) + 1
            if not at:
                return False
        if self.asked:
            viewer = self.asked.popleft()
            viewer.update(self.picture, self.moment)
            viewer.out += self.stream[:at]
        del self.stream[:at]
        return True

    def accept(self, _mask: int) -> None:
        """Takes one more viewer."""
        with contextlib.suppress(OSError), self.lock:
            near, _ = self.listener.accept()
            near.setblocking(False)
            viewer = self.viewers[near.fileno()] = Viewer(near, self.picture)
            self.ready.register(near, selectors.EVENT_READ, lambda mask: self.hear(viewer, mask))

    def hear(self, viewer: Viewer, mask: int) -> None:
        """Takes what a viewer sent."""
        if not mask & selectors.EVENT_READ:
            return
        try:
            piece = viewer.near.recv(PIECE)
        except BlockingIOError:
            return
        except OSError:
            piece = b""
        *lines, viewer.rest = (viewer.rest + piece).split(b"\n")
        with self.lock:
            if not piece or len(viewer.rest) > LONGEST or not all(self.obey(viewer, it) for it in lines):
                if piece:
                    viewer.out += b"bad line\n"
                    with contextlib.suppress(OSError):
                        push(viewer.near, viewer.out)
                self.end(viewer)

    def obey(self, viewer: Viewer, line: bytes) -> bool:
        """Does what a viewer asks. False where its line is bad."""
        match line.split(b" "):
            case [b"sync", number] if is_number(number):
                self.when_complete(lambda: self.answer(viewer, int(number)))
            case [b"windows"]:
                self.asked.append(viewer)
                self.tell("windows")
            case [b"motion", x, y] if is_number(x.removeprefix(b"-")) and is_number(y.removeprefix(b"-")):
                self.position = [float(x), float(y)]
                self.tell(line.decode())
            case [b"button", code, b"0" | b"1" as state] if is_number(code):
                self.tell(line.decode())
                (viewer.down.add if state == b"1" else viewer.down.discard)(int(code))
            case _:
                return not line or line.startswith(b"#")
        return True

    def answer(self, viewer: Viewer, number: int) -> None:
        """All is in the picture that a viewer asked before: it is told what changed, and then so."""
        viewer.update(self.picture, self.moment)
        viewer.out += f"synced {number} {self.moment}\n".encode()

    def end(self, viewer: Viewer) -> None:
        """A viewer has gone. What it pressed is released."""
        if self.viewers.pop(viewer.near.fileno(), None) is not None:
            self.ready.unregister(viewer.near)
            viewer.near.close()
            self.tell(*(f"button {it} 0" for it in sorted(viewer.down)))


def is_number(word: bytes) -> bool:
    """Whether a word is a number of no more digits than any that is meant."""
    return word.isdigit() and len(word) <= 10


def push(side: socket.socket, waiting: bytearray) -> None:
    """Sends what a side takes now."""
    if waiting:
        with contextlib.suppress(BlockingIOError):
            del waiting[: side.send(waiting, socket.MSG_DONTWAIT | socket.MSG_NOSIGNAL)]


def connected(path: str) -> socket.socket:
    """A connection to the server's viewer socket, which may yet have to come up."""
    until = time.monotonic() + PATIENCE
    while True:
        far = socket.socket(socket.AF_UNIX)
        far.settimeout(PATIENCE)
        try:
            far.connect(path)
            return far
        except OSError as fault:
            far.close()
            if not isinstance(fault, (FileNotFoundError, ConnectionRefusedError)) or time.monotonic() > until:
                raise Lost(f"{path}: {fault.strerror or fault}: is the server started with --viewer {path}?") from None
            time.sleep(0.02)
