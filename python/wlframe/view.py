"""A view of a display: wayvnc shows it and types into it, and for browsers websockify hands out noVNC's page. Nothing of VNC is done here.

With a password wayvnc takes viewers by TLS alone, which noVNC's page can't speak. So the page has a wayvnc of its own, which listens in the display's folder;
websockify is the only one that reaches it, and asks for the password itself.
"""
from __future__ import annotations

import contextlib
import dataclasses
import ipaddress
import os
import pathlib
import shutil
import socket
import subprocess
import time
import typing

from wlframe.faults import Failure
from wlframe.places import PACKAGE
from wlframe.processes import Household, Process, in_words

USER = "wlframe"  # whom viewers and browsers name beside the password
NOVNC = pathlib.Path("/usr/share/novnc")
PAGE = "vnc_lite.html"
PORT, PAGE_PORT = 5900, 6080  # the first that are tried
TRIED = 64  # ports
START = 60.0  # seconds that each has to come up
LISTENING = "0A"  # a state of /proc/net/tcp
DAYS = "3650"  # that the certificate holds


@dataclasses.dataclass(frozen=True)
class View:
    """How a display is viewed: at which address, by which ports (None: the first that are free), and the file whose first line is the password. Without one only
    this machine's users can look. `layout` is that of the keyboard of who looks, as xkb calls it: of other letters than it has none is typed (None: us)."""

    host: str = "127.0.0.1"
    port: int | None = None
    page_port: int | None = None
    password: str | os.PathLike | None = None
    layout: str | None = None

    def read_password(self) -> str | None:
        """The password, if there is one. Failure where the file can't be read or has none, or where everybody could look without one."""
        if self.password is None:
            if not is_own(self.host):
                raise Failure(f"other machines can reach {self.host}: a view there needs a password, from a file")
            return None
        try:
            found = pathlib.Path(self.password).read_text(encoding="utf-8").partition("\n")[0].strip()
        except (OSError, UnicodeDecodeError) as fault:
            raise Failure(f"{self.password}: the password can't be read: {getattr(fault, 'strerror', fault)}") from None
        if not found:
            raise Failure(f"{self.password}: its first line has to be a password")
        return found


def is_own(host: str) -> bool:
    """Whether an address is one that other machines can't reach."""
    try:
        return host == "localhost" or ipaddress.ip_address(host).is_loopback
    except ValueError:
        return False


def need(program: str) -> str:
    """The path of a program, or Failure with the package that has it."""
    found = shutil.which(program)
    if not found:
        raise Failure(f"{program} isn't installed: Debian has it in the package {program}")
    return found


def free_port(host: str, asked: int | None, first: int) -> int:
    """The port that was asked for, or the first one at which nobody listens."""
    if asked is not None:
        return asked
    for port in range(first, first + TRIED):
        try:
            socket.create_server((host, port), family=socket.AF_INET6 if ":" in host else socket.AF_INET).close()
            return port
        except OSError:
            continue
    raise Failure(f"{host}: no port from {first} to {first + TRIED - 1} is free")


def why_no_page() -> str:
    """Why there is no page for browsers, or nothing."""
    lacks = [name for name, is_there in (("websockify", shutil.which("websockify")), ("novnc", (NOVNC / PAGE).exists())) if not is_there]
    return f"no page for browsers: Debian has what it needs in the package{'s' if len(lacks) > 1 else ''} {' and '.join(lacks)}" if lacks else ""


class Viewed:
    """The processes of a view. `address` is where VNC viewers find it, `page` where browsers do, or None; `sentences` tell people of both."""

    def __init__(self, view: View, household: Household, environment: typing.Mapping[str, str]):
        self.view, self.household, self.environment = view, household, dict(environment)
        self.processes: list[Process] = []
        self.logs: dict[int, tuple[str, pathlib.Path]] = {}  # by process: its program, and what it says
        self.sentences: list[str] = []
        self.page: str | None = None
        password = view.read_password()
        need("wayvnc")
        configuration = self.configure(password)
        port = self.begin_at_port("wayvnc", view.port, PORT, lambda it: ["--config", configuration, *self.keyboard(), view.host, str(it)])
        self.address = f"{view.host}:{port}"
        as_whom = f", as {USER} with the password" if password else ""
        self.sentences.append(f"a VNC viewer finds the display at {self.address}{as_whom}")
        if why := why_no_page():
            self.sentences.append(why)
        else:
            self.open_page()
            self.sentences.append(f"a browser finds it at {self.page}{as_whom}")

    def keyboard(self) -> list[str]:
        """The words for the layout of who looks."""
        return [f"--keyboard={self.view.layout}"] if self.view.layout else []

    def configure(self, password: str | None) -> pathlib.Path:
        """The file of wayvnc's configuration."""
        lines = ["enable_auth=false"]
        if password:
            key, certificate = self.certify()
            lines = ["enable_auth=true", f"username={USER}", f"password={password}", f"private_key_file={key}", f"certificate_file={certificate}"]
        path = self.household.folder / "wayvnc.conf"
        path.touch(0o600)
        path.write_text("".join(f"{it}\n" for it in lines), encoding="utf-8")
        return path

    def certify(self) -> tuple[pathlib.Path, pathlib.Path]:
        """A key and a certificate that it signs itself."""
        key, certificate = (self.household.folder / it for it in ("key.pem", "certificate.pem"))
        words = [need("openssl"), "req", "-x509", "-newkey", "rsa:2048", "-nodes", "-days", DAYS, "-subj", "/CN=wlframe", "-keyout", key, "-out", certificate]
        done = subprocess.run(words, capture_output=True, text=True, check=False, stdin=subprocess.DEVNULL)
        if done.returncode:
            raise Failure(f"openssl makes no certificate: {done.stderr.strip()}")
        return key, certificate

    def open_page(self) -> None:
        """Starts what a browser needs."""
        inner = self.household.folder / "vnc"
        plain = self.household.folder / "wayvnc-page.conf"
        plain.write_text("enable_auth=false\n", encoding="ascii")
        self.begin("wayvnc", ["--config", plain, *self.keyboard(), "--unix-socket", inner], inner)
        if self.view.password is not None:
            self.environment["PYTHONPATH"] = os.pathsep.join(filter(None, [str(PACKAGE.parent), self.environment.get("PYTHONPATH")]))
        host = f"[{self.view.host}]" if ":" in self.view.host else self.view.host

        def words(port: int) -> list:
            if self.view.password is None:  # pages of other sites, which the user's browser has open, may not connect
                asks = ["--auth-plugin", "ExpectOrigin", "--auth-source", " ".join(f"http://{it}:{port}" for it in ("127.0.0.1", "localhost", "[::1]"))]
            else:
                asks = ["--web-auth", "--auth-plugin", "wlframe.web_password.Password", "--auth-source", os.path.abspath(self.view.password)]
            return ["--web", NOVNC, "--unix-target", inner, *asks, f"{host}:{port}"]

        port = self.begin_at_port("websockify", self.view.page_port, PAGE_PORT, words)
        self.page = f"http://{host}:{port}/{PAGE}?scale=true"

    def begin_at_port(self, name: str, asked: int | None, first: int, words: typing.Callable[[int], list]) -> int:
        """Starts a program at the port that was asked for, or at the first one that is free, by the words for a port, and answers which it is. Where somebody else takes a
        free one before the program does, the next is tried."""
        while True:
            port = free_port(self.view.host, asked, first)
            try:
                self.begin(name, words(port), port)
                return port
            except Failure:
                if asked is not None or not listens(port):
                    raise
                self.processes.pop().end()
                first = port + 1

    def begin(self, name: str, words: list, place: int | pathlib.Path) -> None:
        """Starts a program, and waits until it listens there."""
        log = self.household.folder / f"view-{len(self.processes) + 1}"
        with open(os.devnull, "rb") as nothing, open(log, "ab") as kept:
            process = self.household.start([need(name), *words], self.environment, [nothing, kept, kept])
        self.processes.append(process)
        self.logs[process.pid] = name, log
        until = time.monotonic() + START
        while not listens(place, process.pid):
            if why := self.ended():
                raise Failure(why)
            if time.monotonic() > until:
                raise Failure(f"{name} doesn't listen in {START:.0f} seconds: is the machine too busy?")
            time.sleep(0.05)

    def ended(self) -> str:
        """Which of its processes has ended, with what it said last, or nothing."""
        process = next((it for it in self.processes if it.poll() is not None), None)
        if process is None:
            return ""
        name, log = self.logs[process.pid]
        said = log.read_text(encoding="utf-8", errors="replace").strip().splitlines()
        return f"{name} {in_words(process.returncode)}: {said[-1] if said else 'it said nothing'}"


def listens(place: int | pathlib.Path, process: int | None = None) -> bool:
    """Whether somebody listens at a port or a socket; at a port this process, where one is named. It isn't tried: who listens would take it for a viewer."""
    if isinstance(place, pathlib.Path):
        return place.exists()
    found = set()  # the numbers of the sockets that listen there
    for table in ("/proc/net/tcp", "/proc/net/tcp6"):
        with contextlib.suppress(OSError):
            rows = [it.split() for it in pathlib.Path(table).read_text(encoding="ascii").splitlines()[1:]]
            found |= {it[9] for it in rows if it[3] == LISTENING and int(it[1].rpartition(":")[2], 16) == place}
    return bool(found) if process is None else any(f"socket:[{it}]" in opened(process) for it in found)


def opened(process: int) -> set[str]:
    """What a process has open."""
    found = set()
    with contextlib.suppress(OSError):
        for each in pathlib.Path(f"/proc/{process}/fd").iterdir():
            with contextlib.suppress(OSError):
                found.add(os.readlink(each))
    return found
