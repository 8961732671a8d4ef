"""A client of a display: its process, what it wrote, its windows."""
from __future__ import annotations

import pathlib
import signal
import typing

from wlframe.processes import Process, in_words

if typing.TYPE_CHECKING:
    from wlframe.display import Display
    from wlframe.windows import Window

LAST = 20  # lines of what a client wrote that a fault has
KEPT = 4096  # bytes of them


class Client:
    """A program that runs on a display. `words` started it; `returncode` is None while it runs, and negative where a signal ended it."""

    def __init__(self, display: Display, words: list[str], process: Process, output: pathlib.Path | None):
        self.display, self.words, self.process, self.output_path = display, words, process, output
        self.is_asked_to_end = False  # by terminate or kill
        self.refusal: str | None = None  # the bridge's sentence, where it was refused something
        self.kept = ""  # what it wrote, once its file is gone
        self.is_told = False  # a fault has told of its end

    @property
    def pid(self) -> int:
        return self.process.pid

    @property
    def returncode(self) -> int | None:
        return self.process.poll()

    @property
    def name(self) -> str:
        return self.words[0]

    @property
    def output(self) -> str:
        """What it wrote so far, to standard output and standard error."""
        if self.output_path is None:
            return self.kept
        return self.output_path.read_text(encoding="utf-8", errors="replace")

    def keep_output(self) -> None:
        """Keeps what it wrote, since its file goes."""
        if self.output_path is not None:
            self.kept, self.output_path = self.output, None

    def last_lines(self) -> str:
        """The last lines that it wrote."""
        return "\n".join(self.output[-KEPT:].splitlines()[-LAST:])

    def wait(self, timeout: float = 30.0) -> int:
        """Waits until it has ended, and answers its status. TimeOver where that takes longer than so many seconds."""
        self.display.wait_until(lambda: self.returncode is not None, timeout, f"{self.name} hasn't ended")
        self.is_told = self.refusal is None  # who asks for the status knows it
        return self.process.wait()

    def terminate(self) -> None:
        """Asks it and what it started to end (SIGTERM), and doesn't wait."""
        self.is_asked_to_end = True
        self.process.send_signal(signal.SIGTERM)

    def kill(self) -> None:
        """Ends it and what it started (SIGKILL), and waits until it has ended."""
        self.is_asked_to_end = True
        self.process.send_signal(signal.SIGKILL)
        self.process.wait()

    def windows(self) -> list[Window]:
        """Its toplevels that are shown, from bottom to top."""
        return self.display.windows(client=self)

    def ended_in_words(self) -> str:
        """How it ended."""
        return f"{self.name} {in_words(self.process.wait())}"

    def __repr__(self) -> str:
        return f"<Client {' '.join(self.words)} {'runs' if self.returncode is None else in_words(self.returncode)}>"
