"""The processes of a display, which a supervisor starts and of which nothing is left, whatever ends this one (see supervisor.py)."""
import json
import os
import pathlib
import select
import signal
import socket
import struct
import subprocess
import sys
import tempfile
import time
import typing

from wlframe.faults import Failure

SUPERVISOR = pathlib.Path(__file__).resolve().parent / "supervisor.py"
PIECE = 1 << 16  # bytes read at once
MERCY = 2.0  # seconds from asking a process to end to ending it
START = 60.0  # seconds that the supervisor has to come up
LONGEST_SOCKET = 107  # bytes of a socket's path


def in_words(status: int) -> str:
    """How a process ended."""
    return f"was ended by {signal.Signals(-status).name}" if status < 0 else f"ended with status {status}"


def ready(things: typing.Iterable[typing.Any], timeout: float | None) -> set[int]:
    """The descriptors of those of which something can be read within so many seconds, or that are closed; None waits until there is one."""
    poll = select.poll()
    for each in things:
        poll.register(each, select.POLLIN)
    return {descriptor for descriptor, _ in poll.poll(None if timeout is None else max(1000 * timeout, 0))}


class Process:
    """A process that the supervisor started. `returncode` is None while it runs, and negative where a signal ended it."""

    def __init__(self, household: "Household", pid: int):
        self.household, self.pid = household, pid
        self.returncode: int | None = None

    def poll(self) -> int | None:
        """The status, or None while it runs."""
        if self.returncode is None:
            self.household.take(0)
        return self.returncode

    def wait(self, timeout: float | None = None) -> int:
        """The status, once it has ended; subprocess.TimeoutExpired where that doesn't come in so many seconds."""
        until = None if timeout is None else time.monotonic() + timeout
        while self.returncode is None:
            left = None if until is None else until - time.monotonic()
            if left is not None and left <= 0:
                raise subprocess.TimeoutExpired([str(self.pid)], timeout or 0)
            self.household.take(left)
        return self.returncode

    def send_signal(self, number: int) -> None:
        """Sends a signal to the process and what it started, if it hasn't ended."""
        if self.poll() is None:
            self.household.request({"signal": int(number), "process": self.pid})

    def end(self) -> None:
        """Ends it and what it started: by asking, and then without."""
        for how in (signal.SIGTERM, signal.SIGKILL):
            self.send_signal(how)
            try:
                self.wait(MERCY)
                return
            except subprocess.TimeoutExpired:
                continue


class Household:
    """A folder with a supervisor, and the processes that it started."""

    def __init__(self) -> None:
        self.stream, self.asked = bytearray(), 0  # how many requests there were
        self.answers: dict[int, dict] = {}
        self.processes: dict[int, Process] = {}
        self.early: dict[int, int] = {}  # the statuses of those that ended before they were known here
        top = os.path.abspath(tempfile.gettempdir())
        self.control, other = socket.socketpair()
        with other:
            words = [sys.executable, "-I", "-S", SUPERVISOR, str(other.fileno()), top]
            null = subprocess.DEVNULL
            self.supervisor = subprocess.Popen(words, pass_fds=[other.fileno()], stdin=null, stdout=null, start_new_session=True)
        try:
            self.folder = pathlib.Path(self.answer(0, START)["folder"])
            if len(os.fsencode(self.folder)) + len("/wayland-0.new") > LONGEST_SOCKET:
                raise Failure(f"{self.folder} is too long a name for a socket in it: set TMPDIR to a shorter one, as /tmp")
        except BaseException:
            self.close()
            raise

    def fileno(self) -> int:
        """So that it may stand in a selector: it is ready where a process has ended."""
        return self.control.fileno()

    def request(self, asked: dict, descriptors: list[int] = ()) -> dict:
        """Asks the supervisor, and answers what it answers."""
        self.asked += 1
        data = json.dumps({**asked, "id": self.asked}).encode()
        data = struct.pack("<I", len(data)) + data
        try:
            sent = socket.send_fds(self.control, [data], list(descriptors)) if descriptors else 0
            self.control.sendall(data[sent:])
        except ConnectionError:
            raise self.gone() from None
        return self.answer(self.asked, START)

    def answer(self, number: int, timeout: float) -> dict:
        """The answer with a number. Those before it are of requests that something interrupted."""
        until = time.monotonic() + timeout
        while number not in self.answers:
            if time.monotonic() > until:
                raise Failure(f"the supervisor of the display doesn't answer in {timeout:.0f} seconds: is the machine too busy?")
            self.take(until - time.monotonic())
        found = self.answers.pop(number)
        self.answers.clear()
        return found

    def gone(self) -> Failure:
        return Failure("the supervisor of the display is gone: somebody killed it, and with it all that it had started")

    def take(self, timeout: float | None) -> None:
        """Takes what the supervisor tells, and waits for it so long; None waits until it tells something."""
        if self.control.fileno() < 0 or not ready([self.control], timeout):
            return
        try:
            data = self.control.recv(PIECE)
        except ConnectionError:
            data = b""
        if not data:
            raise self.gone()
        self.stream += data
        while len(self.stream) >= 4:
            (length,) = struct.unpack_from("<I", self.stream)
            if len(self.stream) < 4 + length:
                return
            told = json.loads(self.stream[4 : 4 + length])
            del self.stream[: 4 + length]
            if "ended" in told:
                self.ended(told["ended"], told["status"])
            else:
                self.answers[told["id"]] = told

    def start(self, words, environment: dict, streams, folder: str | os.PathLike | None = None) -> Process:
        """Starts a process with these three streams, descriptors or files, in a session of its own. OSError where it can't be started."""
        asked = {"start": [os.fspath(it) for it in words], "environment": environment, "folder": os.path.abspath(folder or os.getcwd())}
        told = self.request(asked, [it if isinstance(it, int) else it.fileno() for it in streams])
        if "errno" in told:
            raise OSError(told["errno"], os.strerror(told["errno"]), told["file"])
        made = self.processes[told["process"]] = Process(self, told["process"])
        made.returncode = self.early.pop(made.pid, None)
        return made

    def ended(self, pid: int, status: int) -> None:
        """A process has ended, perhaps before it is known here."""
        process = self.processes.get(pid)
        if process is None:
            self.early[pid] = status
        else:
            process.returncode = status

    def close(self) -> None:
        """Ends all, and leaves nothing."""
        with self.control:
            try:
                self.request({"close": True})
            except (Failure, OSError):
                pass
        self.supervisor.wait()
