"""What server and bridge write, read as it comes."""
import os
import typing


class Tail:
    """What another process writes to memory, read as it comes."""

    def __init__(self, name: str):
        self.descriptor, self.at, self.rest = os.memfd_create(name), 0, b""

    def take(self) -> bytes:
        """What is new."""
        found = b""
        while piece := os.pread(self.descriptor, 1 << 16, self.at):
            self.at += len(piece)
            found += piece
        return found

    def lines(self) -> list[str]:
        """The lines that are whole and new."""
        *lines, self.rest = (self.rest + self.take()).split(b"\n")
        return [it.decode(errors="replace") for it in lines]

    def last(self, count: int = 2000) -> str:
        """The last bytes of all that was written."""
        end = os.fstat(self.descriptor).st_size
        return os.pread(self.descriptor, count, max(end - count, 0)).decode(errors="replace").strip()

    def close(self) -> None:
        os.close(self.descriptor)


class Report:
    """What the server tells of its clients, line by line. Who keeps it gets it as it comes."""

    def __init__(self, tail: Tail, keep: typing.Callable[[bytes], None] | None = None):
        self.tail, self.keep, self.rest = tail, keep, b""
        self.numbers: list[int] = []  # by connection: the number of its client
        self.connected = 0  # how many clients are there
        self.frames: list[int] = []  # the time of each frame, in milliseconds

    def take(self) -> None:
        piece = self.tail.take()
        if piece and self.keep:
            self.keep(piece)
        *lines, self.rest = (self.rest + piece).split(b"\n")
        for line in lines:
            match line.split():
                case [b"client", number]:
                    self.numbers.append(int(number))
                    self.connected += 1
                case [b"full"]:
                    self.numbers.append(0)
                case [b"end", *_]:
                    self.connected -= 1
                case [b"frame", when, _]:
                    self.frames.append(int(when))

    def connection(self, number: int) -> int | None:
        """The connection of the client that has a number now, counted from 1."""
        return max((at for at, it in enumerate(self.numbers, 1) if it == number), default=None)
