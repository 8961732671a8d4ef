"""What other threads ask a client's own thread to do."""
import collections
import contextlib
import os
import threading
import typing


def nothing() -> None:
    """Does nothing."""


class Posts:
    """Calls that wait for a client's thread, which is woken by a descriptor; and who waits until all is sent that the client is told."""

    def __init__(self):
        self.woken = os.eventfd(0, os.EFD_NONBLOCK | os.EFD_CLOEXEC)
        self.lock, self.is_closed = threading.Lock(), False
        self.waiting: collections.deque[tuple[typing.Callable, typing.Callable]] = collections.deque()
        self.unsent: list[threading.Event] = []

    def add(self, do: typing.Callable, otherwise: typing.Callable = nothing) -> None:
        """The client's thread will call `do`, or `otherwise` is called where the client has gone."""
        with self.lock:
            if not self.is_closed:
                self.waiting.append((do, otherwise))
                os.eventfd_write(self.woken, 1)
                return
        otherwise()

    def when_sent(self) -> threading.Event:
        """Is set once the client was sent all that it is told by what was added before, or has gone."""
        sent = threading.Event()
        self.add(lambda: self.unsent.append(sent), sent.set)
        return sent

    def run(self) -> None:
        """Calls what waits. For the client's thread alone."""
        with contextlib.suppress(BlockingIOError):
            os.eventfd_read(self.woken)
        while self.waiting:
            self.waiting.popleft()[0]()

    def sent(self) -> None:
        """All was sent that the client was told so far. For the client's thread alone."""
        while self.unsent:
            self.unsent.pop().set()

    def close(self) -> None:
        """The client has gone."""
        with self.lock:
            if self.is_closed:
                return
            self.is_closed = True
            os.close(self.woken)
        self.sent()
        while self.waiting:
            self.waiting.popleft()[1]()
