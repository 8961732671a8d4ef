"""A display for a test: a server, a bridge and clients in a folder of their own, pointed at and looked at by the server's viewer socket.

    import wlframe

    with wlframe.Display(size=(480, 360)) as display:
        display.run("gtk4-demo", "--run=dropdown")
        window = display.window(title="Selections", timeout=5)
        window.click(120, 80)
        display.wait_until_idle(0.2)
        display.expect("dropdown.png")

A call that points returns once the server has taken it and the picture of that moment is complete; what the client makes of it is waited for where that is
asked. Whatever ends the test, nothing is left of the display: no process, no file, no socket.
"""
from __future__ import annotations

import contextlib
import errno
import json
import os
import pathlib
import re
import shutil
import socket
import sys
import time
import types
import typing

from wlframe import film, programs, surroundings
from wlframe.clients import Client
from wlframe.expecting import Expecting
from wlframe.faults import ClientEnded, Failure, NotStarted, NoWindow, Refused, ServerEnded, TimeOver
from wlframe.frames import Frames
from wlframe.pictures import Picture
from wlframe.places import command
from wlframe.pointer import Pointer
from wlframe.processes import Household, Process, in_words, ready
from wlframe.telling import Report, Tail
from wlframe.typist import KEYS, Typist
from wlframe.view import View, Viewed
from wlframe.viewer import Box, Frame, Update, Viewer, Windows, rectangles
from wlframe.windows import Seen, Window

START = 60.0  # seconds that server and bridge have to come up
ANSWER = 60.0  # seconds that the server has to answer
TICK = 0.1  # seconds between two looks at what has no descriptor to wait for
PARTING = 5.0  # seconds that the end of a process may come behind that of its sockets
BESIDE = "/usr/games:/usr/local/games:/usr/sbin:/usr/local/sbin"  # where programs are that aren't in everybody's PATH
POPUP = ", or is drawn into its window, as GTK 3 draws popovers"  # why a menu may not be found
READY = "bridge: clients find it by "
REFUSED = re.compile(r"bridge: (client \d+(?: \(.*?, process (\d+)\))? was (?!ended: the server is gone).*)")


class Display(Pointer, Typist, Expecting):
    """A display of `size` pixels (each side from 1 to 4096) that shows `rate` frames a second. `record` names a file for a recording of all that was served (True keeps
    one for save_recording), `trace` one for each request and event in words, `program` the program wlframe. With `fullscreen` clients are asked to fill it. `env` is for the environment of each
    client. `expected` is the folder of the pictures that `expect` compares with, `failed` the one for what is found where they differ. With `share` clients may take
    pictures of the display and point, as grim and wlrctl do; then an update of `frames` is one piece a row. `view` starts wayvnc beside it, and in a browser noVNC."""

    def __init__(
        self,
        size: tuple[int, int] = (1024, 768),
        rate: int = 60,
        record: str | os.PathLike | bool | None = None,
        trace: str | os.PathLike | None = None,
        program: str | os.PathLike | None = None,
        fullscreen: bool = False,
        env: typing.Mapping[str, str] | None = None,
        *,
        pointer: str | os.PathLike | None = None,
        expected: str | os.PathLike = "expected",
        failed: str | os.PathLike = "wlframe-failed",
        update: bool | None = None,
        echo: bool = False,
        report: typing.Callable[[bytes], None] | None = None,
        share: bool = False,
        view: bool | View = False,
    ):
        if len(size) != 2 or not all(1 <= side <= 4096 for side in size):
            raise ValueError(f"size {size}: give two sides from 1 to 4096")
        if not 1 <= rate <= 1000:
            raise ValueError(f"rate {rate}: give 1 to 1000 frames a second")
        self.size, self.rate, self.record, self.trace = tuple(size), rate, record, trace
        self.asked_program, self.fullscreen, self.env, self.pointer_file = program, fullscreen, dict(env or {}), pointer
        self.view = View() if view is True else view or None
        self.is_shared = share or self.view is not None  # the bridge is the server's viewer, and this one is the bridge's
        self.viewed: Viewed | None = None
        self.is_echoing = echo  # what the processes say goes where this process says it
        self.is_strict = True  # a client that is refused or crashes is a fault of whatever waits next
        self.household: Household | None = None
        self.viewer: Viewer | None = None
        self.server: Process | None = None
        self.bridge: Process | None = None
        self.clients: list[Client] = []
        self.sentences: list[str] = []  # what the bridge said, but for its being ready
        self.is_ready = False
        self.begun: bytes = b""  # the pixels as the last call began that pointed, or the last change was waited for
        self.recent: film.Recent | None = None  # the last seconds
        self.also: dict[typing.Any, typing.Callable[[], None]] = {}  # by what else is waited for: what takes what comes
        self.report_to = report
        self.report: Report | None = None  # what the server tells of its clients and frames
        Typist.__init__(self)
        Expecting.__init__(self, expected, failed, update)

    # Beginning and end.

    def __enter__(self) -> "Display":
        self.start()
        return self

    def __exit__(self, kind: type | None, fault: BaseException | None, trace: types.TracebackType | None) -> None:
        try:
            if kind is None:
                self.tell_news()
        finally:
            self.close()

    def start(self) -> None:
        """Starts server and bridge. Whoever calls it calls close."""
        program = programs.find(self.asked_program, self.tell)
        programs.need(program, "--viewer", "see what clients show")
        self.household = Household()
        self.told, self.said, self.server_said = Tail("report"), Tail("bridge"), Tail("server")
        self.report = Report(self.told, self.report_to)
        try:
            self.folder = self.household.folder
            (self.folder / "pools").mkdir()
            surroundings.write_settings(self.folder / "config")
            self.start_server(program)
            self.bridge = self.begin(self.bridge_words(), None, self.said)
            self.wait_up(self.connect, "the server")
            self.wait_up(lambda: self.is_ready, "the bridge")
            self.sync()
            self.first = self.viewer.updates
            self.begin_input()
            self.begin_view()
        except BaseException:
            self.close()
            raise

    def begin_view(self) -> None:
        """Starts the view that was asked for, and tells where it is found."""
        if self.view is not None:
            self.viewed = Viewed(self.view, self.household, surroundings.environment(self.folder, self.env))
            for sentence in self.viewed.sentences:
                self.tell(sentence)

    def close(self) -> None:
        """Ends all clients, the bridge and the server, and leaves nothing of them. What was shown last stays to be asked for."""
        household, self.household = self.household, None
        if household is None:
            return
        self.rest_hands()
        with contextlib.suppress(Failure, OSError):
            self.hear()  # what is said from now on is of the end
        for client in self.clients:
            client.is_asked_to_end |= client.returncode is None
        try:
            with contextlib.suppress(Failure):
                for process in [*reversed([it.process for it in self.clients]), self.bridge, self.server]:
                    if process is not None:
                        process.end()
        finally:
            self.keep_outputs()
            household.close()
            if self.viewer is not None:
                self.viewer.close()
            for each in (self.told, self.said, self.server_said):
                each.close()

    def keep_outputs(self) -> None:
        """What the clients wrote stays to be read when their files are gone."""
        for client in self.clients:
            client.keep_output()

    def start_server(self, program: str) -> None:
        folder = self.folder
        words = [program, "serve", "--socket", folder / "server", "--viewer", folder / "viewer", "--dir", folder / "pools"]
        words += ["--size", "{}x{}".format(*self.size), "--rate", str(self.rate)]
        if self.pointer_file:
            words += ["--pointer", os.path.abspath(self.pointer_file)]
        if self.record:
            programs.need(program, "--record", "record what is served")
            words += ["--record", folder / "recording" if self.record is True else os.path.abspath(self.record)]
        self.server = self.begin(words, self.told, self.server_said)

    def bridge_words(self) -> list:
        """The command of the bridge."""
        folder = self.folder
        words = [*command("bridge"), "--listen", folder / "wayland-0", "--server", folder / "server", "--dir", folder / "pools"]
        words += ["--windows", folder / "titles", "--keys", folder / KEYS, "--wait", str(START), *(["--fullscreen"] if self.fullscreen else [])]
        words += ["--viewer", folder / "viewer", "--view", folder / "view"] if self.is_shared else []
        return words + (["--trace", os.path.abspath(self.trace)] if self.trace else [])

    def begin(self, words: list, told: Tail | None, said: Tail) -> Process:
        """Starts the server or the bridge. The server speaks for itself where this process echoes."""
        echoes = self.is_echoing and told is not None
        with open(os.devnull, "r+b") as nothing:
            streams = [nothing, told.descriptor if told else nothing, sys.stderr.fileno() if echoes else said.descriptor]
            return self.household.start(words, dict(os.environ), streams)

    def connect(self) -> bool:
        """Connects to the viewer's socket, the server's or the bridge's, if it is there."""
        path = self.folder / ("view" if self.is_shared else "viewer")
        if self.viewer is None and path.exists():
            with contextlib.suppress(Failure):
                self.viewer = Viewer(path)
        return self.viewer is not None and self.viewer.frame is not None

    def wait_up(self, is_up: typing.Callable[[], bool], name: str) -> None:
        until = time.monotonic() + START
        while not is_up():
            for process, whose in ((self.server, "the server"), (self.bridge, "the bridge")):
                if process.poll() is not None:
                    raise ServerEnded(f"{whose} didn't start: it {in_words(process.returncode)}, and {self.what_it_said(whose)}")
            if time.monotonic() > until:
                raise Failure(f"{name} didn't come up in {START:.0f} seconds: is the machine too busy?")
            self.turn(0.005, looks=False)

    def what_it_said(self, name: str) -> str:
        if self.is_echoing:
            return "what it said stands above"
        last = (self.server_said if "server" in name else self.said).last()
        return f"it said: {last}" if last else "it said nothing"

    def tell(self, text: str) -> None:
        """Tells the user something that is no fault."""
        print(f"wlframe: {text}", file=sys.stderr)

    def need_open(self) -> None:
        """Raises where the display isn't open."""
        if self.household is None:
            raise Failure("the display is closed, or wasn't started: use it within `with wlframe.Display(..) as display:`")

    # Clients.

    def run(self, *words: str | os.PathLike, env: typing.Mapping[str, str] | None = None, folder: str | os.PathLike | None = None) -> Client:
        """Starts a client by the words of its command, and doesn't wait for a window of it. NotStarted where it isn't there or may not be run."""
        if not words:
            raise ValueError("which client? Give run the words of its command")
        self.need_open()
        whole = surroundings.environment(self.folder, {**self.env, **(env or {})})
        named = [os.fspath(it) for it in words]
        self.begin_input()
        path = None if self.is_echoing else self.folder / f"client-{len(self.clients) + 1}"
        try:
            with contextlib.ExitStack() as stack:
                if path is None:
                    streams = [sys.stdin.fileno() if sys.stdin else os.open(os.devnull, os.O_RDONLY), sys.stdout.fileno(), sys.stderr.fileno()]
                else:
                    nothing, kept = stack.enter_context(open(os.devnull, "rb")), stack.enter_context(open(path, "ab"))
                    streams = [nothing, kept, kept]
                process = self.household.start(named, whole, streams, folder)
        except OSError as fault:
            raise not_started(named[0], fault) from None
        self.clients.append(Client(self, named, process, path))
        return self.clients[-1]

    # What comes.

    def turn(self, patience: float, looks: bool = True) -> None:
        """Takes what is there, or waits for it so many seconds. Raises what is wrong with server and bridge."""
        self.need_open()
        waits = [self.household, *([self.viewer] if self.viewer is not None else []), *self.also]
        found = ready(waits, max(min(patience, TICK), 0))
        self.household.take(0)
        try:
            if self.viewer is not None and self.viewer.fileno() in found:
                self.viewer.take()
        except ServerEnded:
            self.explain()
            raise
        self.hear()
        if looks:
            self.look_after()
        for each, take in list(self.also.items()):
            if each.fileno() in found:
                take()

    def hear(self) -> None:
        """Takes what server and bridge write."""
        self.report.take()
        for line in self.said.lines():
            if line.startswith(READY):
                self.is_ready = True
                continue
            self.sentences.append(line)
            if self.is_echoing:
                print(line, file=sys.stderr, flush=True)
            refused = REFUSED.match(line)
            if refused:
                client = self.client_of(int(refused[2] or 0)) or (self.clients[0] if len(self.clients) == 1 else None)
                is_view = self.viewed is not None and int(refused[2] or 0) in [it.pid for it in self.viewed.processes]
                if client is not None and not is_view and client.refusal is None and not client.is_asked_to_end:
                    client.refusal = refused[1]

    def look_after(self) -> None:
        """Server and bridge have to live as long as the display."""
        for process, name in ((self.server, "the server"), (self.bridge, "the bridge")):
            if process is not None and process.returncode is not None:
                self.explain()
        if self.viewed is not None and (why := self.viewed.ended()):
            self.viewed = None
            self.tell(f"there is no view any more: {why}")

    def explain(self) -> None:
        """Raises why server or bridge are gone: where the server ends the bridge does so too."""
        until = time.monotonic() + PARTING
        while self.server.returncode is None and time.monotonic() < until:
            self.household.take(0.02)
        self.hear()
        end = "the client" if self.is_echoing else "the display was closed"
        if self.server.returncode is not None:
            said = f"{self.what_it_said('the server')}; please report this"
            raise ServerEnded(f"the server {in_words(self.server.returncode)} before {end}: {said}")
        if self.bridge.returncode is not None:
            raise ServerEnded(f"the bridge {in_words(self.bridge.returncode)} before {end}: {self.what_it_said('the bridge')}")

    def client_of(self, process: int) -> Client | None:
        """The client that a process is, or below which it is."""
        by_process = {it.pid: it for it in self.clients}
        for _ in range(64):
            if process in by_process:
                return by_process[process]
            try:
                words = pathlib.Path(f"/proc/{process}/stat").read_text(errors="replace").rpartition(")")[2].split()
            except OSError:
                return None
            if int(words[3]) in by_process:  # its session
                return by_process[int(words[3])]
            process = int(words[1])  # its parent
        return None

    def tell_news(self) -> None:
        """Raises that a client was refused or crashed, once for each."""
        for client in self.clients if self.is_strict else []:
            if client.is_told or client.is_asked_to_end:
                continue
            status = client.process.returncode
            if client.refusal is not None:
                client.is_told = True
                raise Refused(client.refusal, client, client.last_lines())
            if status is not None and status < 0:
                client.is_told = True
                raise ClientEnded(client.ended_in_words(), client, client.last_lines())

    def need_client(self, what: str) -> None:
        """Raises where no client is left of which something could come."""
        if self.is_strict and self.clients and all(it.returncode is not None for it in self.clients):
            for _ in range(3):  # what it said last may be on its way
                self.turn(0.02)
            self.tell_news()
            client = self.clients[-1]
            raise ClientEnded(f"{what}: {client.ended_in_words()}", client, client.last_lines())

    # Waiting.

    def wait_until(self, condition: typing.Callable[[], typing.Any], timeout: float, what: str) -> typing.Any:
        """Waits until the condition is true, and answers what it answered. TimeOver after so many seconds, whose text begins with `what`."""
        until = time.monotonic() + timeout
        while not (found := condition()):
            self.tell_news()
            left = until - time.monotonic()
            if left <= 0:
                raise TimeOver(f"{what} after {timeout:g} seconds")
            self.turn(left)
        return found

    def pause(self, seconds: float) -> None:
        """Takes what comes for so long."""
        until = time.monotonic() + seconds
        while (left := until - time.monotonic()) > 0:
            self.turn(left)

    def ask(self, *lines: str, windows: bool = False) -> int:
        """Sends lines, and waits until they were taken and what changed by then is told, with the windows where they are asked for. Answers the server's time in
        milliseconds."""
        self.need_open()
        viewer, number = self.viewer, self.viewer.next_number()
        lists = viewer.lists + windows
        try:
            viewer.send(*lines, *(["windows"] if windows else []), f"sync {number}")
        except ServerEnded:
            self.explain()
            raise
        self.wait_until(lambda: viewer.synced.number >= number and viewer.lists >= lists, ANSWER, "the server doesn't answer")
        return viewer.synced.time

    def sync(self) -> int:
        """Waits until all that was sent to the server before has been taken, and the picture is complete. Answers the server's time in milliseconds."""
        return self.ask()

    def act(self, *lines: str) -> None:
        self.ask(*lines)

    def begin_input(self) -> None:
        self.need_open()
        self.begun = bytes(self.viewer.frame.pixels)

    def need_window(self) -> None:
        self.ask(windows=True)
        if not self.viewer.windows.shown:
            raise NoWindow("a click needs a window, and none is shown yet: wait for one by display.window(..)", [])

    def wait_for(self, predicate: typing.Callable[[Picture], typing.Any], timeout: float = 5.0) -> typing.Any:
        """Waits until the predicate of the picture is true, which is asked anew where the picture changes. Answers what it answered."""
        asked, answer = -1, None

        def is_true():
            nonlocal asked, answer
            if asked != self.viewer.updates:
                asked, answer = self.viewer.updates, predicate(self.viewer.frame.picture())
            if not answer:
                self.need_client("the picture isn't as it was waited for")
            return answer

        self.sync()
        return self.wait_until(is_true, timeout, "the picture isn't as it was waited for")

    def wait_for_change(self, timeout: float = 5.0, ignore: typing.Sequence[Box] = ()) -> Picture:
        """Waits until the picture differs, outside of the ignored boxes, from what it was as the last call began that pointed, typed or ran a client, or as the last
        change was waited for. Answers the picture."""

        def has_changed():
            if self.viewer.frame.differs(self.begun, ignore):
                return True
            self.need_client("the picture didn't change")
            return False

        self.sync()
        self.wait_until(has_changed, timeout, "the picture didn't change")
        self.begin_input()
        return self.viewer.frame.picture()

    def wait_until_idle(self, seconds: float = 0.2, timeout: float = 30.0, ignore: typing.Sequence[Box] = ()) -> Picture:
        """Waits until something was shown and no pixel outside of the ignored boxes changed for so many seconds, by the server's clock. Answers the picture."""
        last = [self.sync(), None]

        def watch(frame: Frame, update: Update) -> None:
            if frame.has_news(update, ignore):
                last[:] = update.time, rectangles(update.runs)[0]

        self.viewer.before.append(watch)
        until = time.monotonic() + timeout
        try:
            while True:
                left = last[0] + 1000 * seconds - self.sync()
                if self.has_shown and left <= 0:
                    return self.viewer.frame.picture()
                if not self.has_shown:
                    self.need_client("nothing was shown")
                if time.monotonic() > until:
                    raise TimeOver(self.not_idle(seconds, timeout, last[1]))
                self.pause(max(min(left / 1000, 0.25), 0.01))
        finally:
            self.viewer.before.remove(watch)

    @property
    def has_shown(self) -> bool:
        """Whether a client has shown anything yet."""
        return self.viewer.updates > self.first

    def not_idle(self, seconds: float, timeout: float, box: Box | None) -> str:
        if not self.has_shown:
            return f"nothing was shown in {timeout:g} seconds"
        where = f": it changed last at {box}; ignore=[..] leaves boxes out that never rest" if box else ""
        return f"the picture didn't stay the same for {seconds:g} seconds in {timeout:g}{where}"

    # What is kept of it.

    def keep_film(self, seconds: float = 10.0) -> None:
        """Keeps what was shown in the last seconds, for save_film."""
        self.recent = film.Recent(self.viewer.frame, seconds)
        self.viewer.before.append(self.recent.add)

    def save_film(self, path: str | os.PathLike) -> bool:
        """Writes the last seconds as an animated PNG. False where keep_film wasn't called."""
        if self.recent is None:
            return False
        film.save(self.recent, path, self.viewer.time)
        return True

    def save_last(self, path: str | os.PathLike) -> bool:
        """Writes what was shown last, also where the display is closed or the server is gone. False where nothing was ever shown."""
        if self.viewer is None or self.viewer.frame is None:
            return False
        self.viewer.frame.picture().save(path)
        return True

    def save_recording(self, path: str | os.PathLike) -> bool:
        """Copies the recording so far, which a display that is open has where it was made with record=True. False where there is none."""
        kept = self.folder / "recording"
        if self.record is not True or not kept.exists():
            return False
        shutil.copyfile(kept, path)
        return True

    # What is shown.

    def picture(self) -> Picture:
        """What is shown now."""
        if self.household is not None:
            self.sync()
        if self.viewer is None or self.viewer.frame is None:
            raise Failure("the display was never started")
        return self.viewer.frame.picture()

    def frames(self, seconds: float | None = None) -> Frames:
        """Iterates over each update from now on, as its time in milliseconds, the rectangles that were painted again, and the picture; for so many seconds, or until no client
        runs. What is shown while something else is done isn't lost."""
        self.need_open()
        return Frames(self, seconds)

    def titles(self) -> list[dict]:
        """What the bridge tells of toplevels and popups."""
        with socket.socket(socket.AF_UNIX) as asks:
            asks.settimeout(ANSWER)
            try:
                asks.connect(str(self.folder / "titles"))
                data = b""
                while piece := asks.recv(1 << 16):
                    data += piece
            except OSError:
                self.explain()
                raise
        return json.loads(data)

    def look(self) -> list[Seen]:
        """The toplevels and popups that are shown, from bottom to top."""
        self.ask(windows=True)
        shown: Windows = self.viewer.windows
        self.report.take()
        known = {(it["connection"], it["surface"]): it for it in self.titles()}
        found = []
        for client, surface, x, y, width, height in shown.shown:
            told = known.get((self.report.connection(client), surface))
            if told is None:
                continue  # a subsurface, or one that the client has destroyed meanwhile
            left, top, wide, high = told["geometry"] or (0, 0, width, height)
            box = x + left, y + top, min(wide, width - left), min(high, height - top)
            whose = self.client_of(told["process"])
            key = told["connection"], told["number"]
            found.append(Seen(key, told["kind"], told["title"] or "", told["app_id"] or "", whose, told["process"], box, (x, y, width, height)))
        return found

    def windows(self, client: Client | None = None, kind: str = "toplevel") -> list[Window]:
        """The toplevels that are shown, from bottom to top, of one client or of all; or the popups, by kind."""
        return [Window(self, it) for it in self.look() if it.kind == kind and client in (None, it.client)]

    def popups(self, client: Client | None = None) -> list[Window]:
        """The popups that are shown, from bottom to top."""
        return self.windows(client, "popup")

    def window(
        self,
        title: str | re.Pattern | None = None,
        app_id: str | re.Pattern | None = None,
        client: Client | None = None,
        timeout: float = 5.0,
        kind: str = "toplevel",
    ) -> Window:
        """The topmost toplevel with this title, app_id and client, as far as they are told; it is waited for until it is shown. A pattern is searched for. NoWindow where it
        doesn't come in so many seconds, ClientEnded where nobody is left who could show it."""
        until = time.monotonic() + timeout
        while True:
            seen = self.look()
            fitting = [it for it in seen if it.kind == kind and client in (None, it.client) and fits(title, it.title) and fits(app_id, it.app_id)]
            if fitting:
                return Window(self, fitting[-1])
            wanted = wanted_in_words(title, app_id, client, kind)
            if client is not None and client.returncode is not None and self.is_strict:
                self.tell_news()
                raise ClientEnded(f"{wanted} wasn't shown: {client.ended_in_words()}", client, client.last_lines())
            self.need_client(f"{wanted} wasn't shown")
            if time.monotonic() >= until:
                why = POPUP if kind == "popup" else ""
                raise NoWindow(f"{wanted} wasn't shown in {timeout:g} seconds{why}", [str(it) for it in seen])
            self.pause(0.02)


def fits(wanted: str | re.Pattern | None, has: str) -> bool:
    """Whether a title is the one that is wanted."""
    return wanted is None or (wanted == has if isinstance(wanted, str) else bool(wanted.search(has)))


def wanted_in_words(title, app_id, client, kind) -> str:
    """Which window is wanted."""
    words = [f'the title "{it if isinstance(it, str) else it.pattern}"' for it in (title,) if it is not None]
    words += [f'the app_id "{it if isinstance(it, str) else it.pattern}"' for it in (app_id,) if it is not None]
    return f"a {kind}{' with ' + ' and '.join(words) if words else ''}{f' of {client.name}' if client else ''}"


def absent(name: str) -> str:
    """That a client isn't there, or where it is."""
    if "/" in name:
        return f"{name} isn't there"
    found = shutil.which(name, path=BESIDE)
    return f"{name} isn't in PATH, and {found} is there" if found else f"{name} isn't installed"


def not_started(name: str, fault: OSError) -> NotStarted | OSError:
    """Why a client can't be started."""
    if fault.filename == name and fault.errno == errno.ENOENT:
        return NotStarted(absent(name), fault)
    if fault.filename == name and fault.errno in (errno.EACCES, errno.EPERM):
        return NotStarted(f"{name} may not be started", fault)
    return fault
