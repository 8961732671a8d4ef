"""What the tools of wlroots' compositors are tried with, command by command, each on a display of its own. tools/clients writes the page of it.

A try runs a command as a shell does, in an empty folder, and sees what comes of it.
"""
import contextlib
import json
import os
import pathlib
import re
import shutil
import socket
import struct
import subprocess
import sys
import tempfile
import time
import typing

HERE = pathlib.Path(__file__).resolve().parent
sys.path[:0] = [str(HERE), str(HERE.parent.parent / "python")]
import wlframe  # pylint: disable=wrong-import-position
from browser import WHY_NOT as NO_BROWSER  # pylint: disable=wrong-import-position
from browser import Browser, read_png  # pylint: disable=wrong-import-position
from rfb import Line, Refused, Viewer  # pylint: disable=wrong-import-position
from wlframe import view  # pylint: disable=wrong-import-position

SIZE = 240, 160
PART = 10, 20, 64, 48  # a piece of the display
SHORT, LONG = 5, 60  # seconds that something may take where it may never come, and on a machine that does much else
MANY = 8  # measurements, of which one has to be as it should
HOST, PORT = "127.0.0.1", 5990  # which stands for the first that is free from there on
LAMP = (sys.executable, HERE / "lamp.py")
TYPED = "stty raw -echo; echo ready > ready; exec cat > typed"
ALL: "list[Try]" = []


class Differs(Exception):
    """What came of a command isn't what its manual says, in words."""


def need(holds: object, why: str) -> None:
    if not holds:
        raise Differs(why)


class Room:
    """A display, an empty folder, and the command that is tried."""

    def __init__(self, command: str, display: wlframe.Display, folder: pathlib.Path):
        self.port = view.free_port(HOST, None, PORT)
        self.command, self.display, self.folder = command.replace(str(PORT), str(self.port)), display, folder
        self.client = self.window = None

    def lamp(self, *options: str, size: str = "200x120") -> None:
        """Shows a window, each pixel of which has a colour of its own."""
        self.client = self.display.run(*LAMP, "--noise", "--size", size, "--keys", *options)
        self.window = self.display.window(client=self.client, timeout=LONG)
        self.display.wait_for(lambda picture: any(picture.pixels), LONG)

    def start(self, command: str = "") -> wlframe.Client:
        """Starts the command, or another, and doesn't wait for its end."""
        return self.display.run("sh", "-c", command or self.command, folder=self.folder)

    def run(self, command: str = "", status: int = 0) -> str:
        """Runs the command, or another, and answers what it writes; it has to end with this status."""
        done = self.start(command)
        try:
            found = done.wait(LONG)
        except wlframe.Failure as fault:
            raise Differs(f"{fault}") from None
        need(found == status, f"it ends with status {found}: {done.last_lines().strip() or 'it says nothing'}")
        return done.output

    def until(self, holds: typing.Callable[[], object], why: str, seconds: float = LONG) -> None:
        """Waits until something holds."""
        try:
            self.display.wait_until(holds, seconds, why)
        except wlframe.TimeOver:
            raise Differs(why) from None

    def is_picture(self, name: str, box: tuple[int, int, int, int] = (0, 0, *SIZE)) -> None:
        """A file has this part of the picture, to the byte."""
        data = (self.folder / name).read_bytes()
        found = read_png(data) if data.startswith(b"\x89PNG") else wlframe.load(self.folder / name)
        need(found == self.display.picture().crop(box), "the picture is another one")

    def terminal(self) -> None:
        """A terminal in which a program keeps the bytes that come."""
        self.client = self.display.run("foot", "--config=/dev/null", "sh", "-c", TYPED, folder=self.folder, env={"LC_ALL": "C.UTF-8", "SHELL": "/bin/sh"})
        self.window = self.display.window(client=self.client, timeout=LONG)
        self.until((self.folder / "ready").exists, "the terminal doesn't start its program")

    def types(self, wanted: str) -> None:
        """The command types just this into a terminal."""
        self.terminal()
        self.run()
        path = self.folder / "typed"
        self.until(lambda: len(path.read_bytes()) >= len(wanted.encode()), f"{path.read_bytes()!r} is typed")
        self.display.wait_until_idle(0.2, LONG)
        need(path.read_bytes().decode(errors="replace") == wanted, f"{path.read_bytes().decode(errors='replace')!r} is typed")

    def copies(self, wanted: str | None) -> None:
        """Once the command ran this is the text of the clipboard."""
        self.start()
        self.until(lambda: self.display.clipboard == wanted, f"{self.display.clipboard!r} is copied")

    def pastes(self, wanted: str, status: int = 0) -> None:
        """The command writes just this."""
        found = self.run(status=status)
        need(found == wanted, f"{found!r} is pasted")


class Try(typing.NamedTuple):
    """A command, the packages that it needs, what its manual says of it, and what sees whether that holds. Where it is known not to, why."""

    package: str
    command: str
    says: str
    check: typing.Callable[[Room], None]
    known: str = ""

    @property
    def programs(self) -> list[str]:
        """What has to be installed."""
        more = {"wl-clipboard": ["wl-copy"], "wtype": ["wtype", "foot"], "wf-recorder": ["wf-recorder", "ffmpeg"], "novnc": ["wayvnc", "websockify"]}
        return more.get(self.package, [self.package])

    def lacks(self) -> str:
        """What isn't installed, or nothing."""
        if self.package == "novnc" and (why := NO_BROWSER or view.why_no_page()):
            return why
        return next((f"{it} isn't installed" for it in self.programs if not shutil.which(it)), "")

    def outcome(self) -> str:
        """What doesn't hold, or nothing."""
        with tempfile.TemporaryDirectory(ignore_cleanup_errors=True) as folder, wlframe.Display(SIZE, share=True) as display:
            display.is_strict = False
            display.tell = lambda _: None
            try:
                self.check(Room(self.command, display, pathlib.Path(folder)))
            except (Differs, wlframe.Failure, Refused, OSError) as fault:
                return str(fault) or type(fault).__name__
        return ""


def tries(package: str, command: str, says: str, known: str = ""):
    """Has a function that sees whether a command does what it says among all tries."""

    def add(check):
        ALL.append(Try(package, command, says, check, known))
        return check

    return add


# Pictures, by grim.


def shoots(command: str, says: str, name: str, box: tuple[int, int, int, int] = (0, 0, *SIZE)):
    """A try of grim, whose picture has to be the display's, or a part of it."""

    @tries("grim", command, says)
    def _(room):
        room.lamp()
        room.run()
        room.is_picture(name, box)


shoots("grim shot.png", "the picture, as PNG, to the byte", "shot.png")
shoots("grim -t ppm shot.ppm", "the same as PPM", "shot.ppm")
shoots("grim -t ppm - > shot.ppm", "to standard output", "shot.ppm")
shoots('grim -g "10,20 64x48" -t ppm shot.ppm', "a part of it", "shot.ppm", PART)
shoots('echo "10,20 64x48" | grim -g - -t ppm shot.ppm', "a part that standard input names", "shot.ppm", PART)
shoots("grim -o wlframe -t ppm shot.ppm", "the output of this name", "shot.ppm")
shoots("grim -l 0 shot.png", "as PNG without compression", "shot.png")


@tries("grim", "grim -s 2 -t ppm shot.ppm", "a picture of twice the sides")
def _(room):
    room.lamp()
    room.run()
    found = wlframe.load(room.folder / "shot.ppm")
    need((found.width, found.height) == (2 * SIZE[0], 2 * SIZE[1]), f"it is {found.width}x{found.height}")


@tries("grim", "grim -t jpeg -q 100 shot.jpg", "as JPEG", known="Debian's grim has no JPEG")
def _(room):
    room.lamp()
    room.run()
    data = (room.folder / "shot.jpg").read_bytes()
    head = data.find(b"\xff\xc0")
    need(data.startswith(b"\xff\xd8") and struct.unpack(">HH", data[head + 5 : head + 9]) == SIZE[::-1], "it is no JPEG of the picture's sides")


@tries("grim", "grim -c -t ppm shot.ppm", "with the cursor", known="the display draws no cursor")
def _(room):
    room.lamp()
    room.display.move(60, 60)
    before = room.display.picture()
    room.run()
    need(wlframe.load(room.folder / "shot.ppm") != before, "the picture has no cursor")


@tries("slurp", "slurp", "a part is chosen by the pointer", known="it wants zwlr_layer_shell_v1, which isn't there")
def _(room):
    room.lamp()
    choosing = room.start()
    room.until(lambda: choosing.returncode is not None or len(room.display.look()) > 1, "it shows nothing", SHORT)
    need(choosing.returncode is None, f"it ends with status {choosing.returncode}: {choosing.last_lines()}")


# Keys, by wtype.


def types(command: str, says: str, wanted: str, least: float = 0):
    """A try of wtype, which has to type a text, and to take so many seconds at least."""

    @tries("wtype", command, says)
    def _(room):
        before = time.monotonic()
        room.types(wanted)
        need(time.monotonic() - before >= least, f"it takes {time.monotonic() - before:.1f} seconds")


types('wtype "Grüße, née, 你好"', "a text", "Grüße, née, 你好")
types('printf "two\\nlines" | wtype -', "a text of standard input", "two\rlines")
types("wtype -k Left", "a key", "\x1b[D")
types("wtype -M ctrl a -m ctrl b", "a key with a modifier, and one without", "\x01b")
types("wtype -M alt x -m alt", "another modifier", "\x1bx")
types("wtype -P Home -p Home", "a key is pressed, and released", "\x1b[H")
types("wtype -d 200 abcdef", "with time between the keys", "abcdef", 1)
types("wtype a -s 1000 b", "with a pause", "ab", 1)


# The clipboard, by wl-copy and wl-paste.


def copies(command: str, says: str, wanted: str | None, *before: str):
    """A try of wl-copy: this is what a test pastes then."""

    @tries("wl-clipboard", command, says)
    def _(room):
        room.display.clipboard = "what was there"
        for each in before:
            room.run(each)
        room.copies(wanted)


copies('wl-copy "née à"', "a text", "née à")
copies('printf "two\\nlines" | wl-copy', "a text of standard input", "two\nlines")
copies('printf "a line\\n" | wl-copy -n', "without the line's end", "a line")
copies("wl-copy -c", "nothing is copied any more", None)
copies("wl-copy -s seat0 text", "of this seat", "text")


@tries("wl-clipboard", "wl-copy -o once", "it can be pasted once")
def _(room):
    room.start()
    room.until(lambda: room.display.clipboard == "once", "nothing is copied")
    room.until(lambda: room.display.clipboard is None, "it can be pasted again")


@tries("wl-clipboard", "wl-copy -f text", "it goes on until another copies")
def _(room):
    copying = room.start()
    room.until(lambda: room.display.clipboard == "text", "nothing is copied")
    need(copying.returncode is None, "it has ended")
    room.display.clipboard = "other"
    need(copying.wait(LONG) == 0, "it ends with another status than 0")


@tries("wl-clipboard", "wl-copy -p marked; wl-paste -p; wl-paste -n", "the primary selection, beside the other")
def _(room):
    room.display.clipboard = "copied"
    room.pastes("marked\ncopied")


@tries("wl-clipboard", "wl-copy -t image/png < shot.png; wl-paste -t image/png > pasted.png", "something else than text")
def _(room):
    room.lamp()
    room.display.picture().save(room.folder / "shot.png")
    room.run()
    need((room.folder / "pasted.png").read_bytes() == (room.folder / "shot.png").read_bytes(), "other bytes are pasted")


def pastes(command: str, says: str, wanted: str, copied: str | None = "née", status: int = 0):
    """A try of wl-paste: it writes this of what a test copied."""

    @tries("wl-clipboard", command, says)
    def _(room):
        if copied is not None:
            room.display.clipboard = copied
        room.pastes(wanted, status)


pastes("wl-paste", "what was copied, and a line's end", "née\n")
pastes("wl-paste -n", "what was copied", "née")
pastes("wl-paste -l", "what can be had of it", "text/plain;charset=utf-8\ntext/plain\nUTF8_STRING\nSTRING\nTEXT\n")
pastes("wl-paste -s seat0", "of this seat", "née\n")
pastes("wl-paste", "it says where nothing is copied", "No selection\n", None, 1)


@tries("wl-clipboard", "wl-paste -w cat", "each text as it is copied")
def _(room):
    watching = room.start()
    for text in ("one ", "two ", "three "):
        room.display.clipboard = text
        room.until(lambda text=text: text in watching.output, f"{watching.output!r} is pasted")
    need(watching.output == "one two three ", f"{watching.output!r} is pasted")


# Films, by wf-recorder.


def films(command: str, says: str, *options: str, seconds: float = 3, known: str = ""):
    """A try of wf-recorder, which has to end at SIGINT and to leave a film behind. Answers what sees more of it."""

    def add(check):
        @tries("wf-recorder", command, says, known)
        def _(room):
            room.lamp(*options)
            before = time.monotonic()
            filming = room.start(f"exec {room.command}")
            room.until(lambda: any(room.folder.iterdir()), "it makes no file")
            room.display.pause(seconds)
            filming.process.send_signal(2)
            room.until(lambda: filming.returncode is not None, "SIGINT doesn't end it", SHORT)
            need(filming.returncode == 0, f"it ends with status {filming.returncode}: {filming.last_lines()}")
            check(room, told_of(next(room.folder.iterdir())), time.monotonic() - before)

        return check

    return add


def told_of(film: pathlib.Path) -> dict:
    """What ffprobe tells of a film's picture, and how many seconds it lasts."""
    words = ["ffprobe", "-v", "error", "-count_frames", "-show_streams", "-show_format", "-of", "json", film]
    found = json.loads(subprocess.run(words, capture_output=True, check=True).stdout)
    return {**found["streams"][0], "seconds": float(found["format"]["duration"])}


BLINKS = "--blink", "0,0,40,30"


def has_sides(told: dict, width: int, height: int) -> None:
    need((told["width"], told["height"]) == (width, height), f"the film is {told['width']}x{told['height']}")


@films("wf-recorder -f film.mp4", "a film of the display, as long as it ran", *BLINKS)
def _(_room, told, took):
    has_sides(told, *SIZE)
    need(2 <= told["seconds"] <= took, f"it lasts {told['seconds']:.1f} seconds of {took:.1f}")
    need(int(told["nb_read_frames"]) > 10, f"it has {told['nb_read_frames']} frames")


@films("wf-recorder -c ffv1 -x bgr0 -f film.mkv", "without loss: a frame is the picture to the byte", "--blink", "0,0,1,1")
def _(room, _told, _took):
    words = ["ffmpeg", "-v", "error", "-i", "film.mkv", "-vframes", "1", "film.ppm"]
    subprocess.run(words, cwd=room.folder, check=True, stdin=subprocess.DEVNULL)
    found, shown = (it.crop((0, 40, SIZE[0], SIZE[1] - 40)) for it in (wlframe.load(room.folder / "film.ppm"), room.display.picture()))
    need(found == shown, "the picture is another one")


@films('wf-recorder -g "10,20 64x48" -f film.mp4', "a part of it", *BLINKS)
def _(_room, told, _took):
    has_sides(told, *PART[2:])


@films("wf-recorder -o wlframe -f film.mp4", "the output of this name", *BLINKS)
def _(_room, told, _took):
    has_sides(told, *SIZE)


@films("wf-recorder -D -f film.mp4", "also where nothing changes")
def _(_room, told, _took):
    need(int(told["nb_read_frames"]) > 10, f"it has {told['nb_read_frames']} frames")


@films("wf-recorder -f film.mp4", "SIGINT ends it where nothing changes", known="it ends with the next frame, and none comes")
def _(_room, _told, _took):
    pass


# A view, by wayvnc.


@contextlib.contextmanager
def seen(room: Room, name: str = "", *who: str) -> typing.Iterator[Viewer]:
    """The command, which listens at a socket of this name, or at its port, and a viewer."""
    place = room.folder / name if name else room.port
    showing = room.start(f"exec {room.command}")
    room.until(lambda: view.listens(place) or showing.returncode is not None, "it doesn't listen")
    need(showing.returncode is None, f"it ends with status {showing.returncode}: {showing.last_lines()}")
    made = Viewer(Unix(place) if isinstance(place, pathlib.Path) else Line(HOST, place), *who)
    try:
        yield made
    finally:
        made.close()


class Unix(Line):
    """A connection to a socket."""

    def __init__(self, path: pathlib.Path):  # pylint: disable=super-init-not-called
        self.socket = socket.socket(socket.AF_UNIX)
        self.socket.settimeout(LONG)
        self.socket.connect(str(path))


def takes_part(room: Room, viewer: Viewer) -> None:
    """A viewer sees the picture to the byte, presses, and types."""
    room.display.wait_until_idle(0.2, LONG)
    need(viewer.picture() == room.display.picture().pixels, "the picture is another one")
    press(room, viewer)
    room.until(lambda: "pressed 0x110 at 3, 4" in room.client.output, "no press comes")
    tap(viewer, "a")
    room.until(lambda: "key 30 with 0" in room.client.output, "no key comes")


def press(room: Room, viewer: Viewer) -> None:
    for buttons in (0, 1, 0):
        viewer.point(room.window.x + 3, room.window.y + 4, buttons)


def tap(viewer: Viewer, letter: str) -> None:
    for is_down in (1, 0):
        viewer.key(ord(letter), is_down)


def views(command: str, says: str, place: str = "", known: str = ""):
    """A try of wayvnc, with a viewer."""

    def add(check):
        @tries("wayvnc", command, says, known)
        def _(room):
            room.lamp()
            with seen(room, place) as viewer:
                check(room, viewer)

        return check

    return add


views(f"wayvnc {HOST} {PORT}", "the picture to the byte, presses and keys")(takes_part)
views("wayvnc -u socket", "the same by a socket", "socket")(takes_part)
views(f"wayvnc -o wlframe {HOST} {PORT}", "the output of this name")(takes_part)
views(f"wayvnc -s seat0 {HOST} {PORT}", "the seat of this name")(takes_part)


@views(f"wayvnc -d {HOST} {PORT}", "the picture alone")
def _(room, viewer):
    press(room, viewer)
    tap(viewer, "a")
    need(viewer.picture() == room.display.picture().pixels, "the picture is another one")
    room.display.pause(1)
    need(not room.client.output, f"the client is told: {room.client.output}")


@views(f"wayvnc -k de {HOST} {PORT}", "keys of a layout")
def _(room, viewer):
    tap(viewer, "z")
    room.until(lambda: "key 21 with 0" in room.client.output, f"the client is told: {room.client.output}")


@views(f"wayvnc {HOST} {PORT}", "a letter that its layout lacks", known="wayvnc 0.5 types what its layout has")
def _(room, viewer):
    tap(viewer, "é")
    room.until(lambda: "key" in room.client.output, "no key comes", SHORT)


@views(f"wayvnc -f 4 {HOST} {PORT}", "four frames a second")
def _(room, viewer):
    room.display.run(*LAMP, "--blink", "0,0,8,8", "--size", "8x8")
    room.display.window(title="Lamp", timeout=LONG)
    counts = []
    while not counts or not 4 <= counts[-1] <= 18 and len(counts) < MANY:  # it takes frames early where some took long, as on a busy machine
        until = time.monotonic() + 4
        counts.append(0)
        while time.monotonic() < until:
            viewer.changes()
            counts[-1] += 1
    need(4 <= counts[-1] <= 18, f"{counts} frames come in 4 seconds each")


@tries("wayvnc", f"wayvnc -C config {HOST} {PORT}", "by TLS, with a password")
def _(room):
    words = ["openssl", "req", "-x509", "-newkey", "rsa:2048", "-nodes", "-subj", "/CN=wlframe", "-keyout", "key.pem", "-out", "certificate.pem"]
    subprocess.run(words, cwd=room.folder, capture_output=True, check=True)
    told = {"enable_auth": "true", "username": "me", "password": "secret", "private_key_file": room.folder / "key.pem", "certificate_file": room.folder / "certificate.pem"}
    (room.folder / "config").write_text("".join(f"{name}={value}\n" for name, value in told.items()))
    room.lamp()
    with seen(room, "", "me", "secret") as viewer:
        takes_part(room, viewer)
        with contextlib.suppress(Refused):
            Viewer(Line(HOST, room.port), "me", "other").close()
            need(False, "it takes another password")


@tries("wayvnc", f"wayvnc {HOST} {PORT}", "it goes on where 100 viewers leave as they come")
def _(room):
    showing = room.start(f"exec {room.command}")
    room.until(lambda: view.listens(room.port), "it doesn't listen")
    for _ in range(100):
        Line(HOST, room.port).socket.close()
        room.display.pause(0.01)
    room.display.pause(1)
    ended = showing.returncode
    need(ended is None, f"it ends with status {ended}")


@tries("novnc", "tools/view", "a browser shows the picture to the byte on noVNC's page, and clicks there")
def _(room):
    room.lamp()
    found = view.Viewed(view.View(), room.display.household, {**os.environ, "XDG_RUNTIME_DIR": str(room.display.folder), "WAYLAND_DISPLAY": "wayland-0"})
    with Browser(SIZE[0], SIZE[1] + 25) as browser:
        browser.open(found.page)
        browser.wait("document.getElementById('status')?.textContent.startsWith('Connected')")
        room.until(lambda: read_png(browser.picture()).crop((0, 25, *SIZE)) == room.display.picture(), "the picture is another one")
        browser.click(room.window.x + 3, room.window.y + 29)
        room.until(lambda: "pressed 0x110 at 3, 4" in room.client.output, "no press comes")


def main() -> int:
    """Tries those whose commands have a word, or all, and prints what came of it."""
    wrong = 0
    for each in (it for it in ALL if len(sys.argv) < 2 or re.search(sys.argv[1], it.command)):
        outcome = each.lacks() or each.outcome()
        wrong += bool(outcome) != bool(each.known)
        print(f"{'no ' if outcome else 'yes'} {each.command}: {each.says}{': ' + outcome if outcome else ''}", flush=True)
    return 1 if wrong else 0


if __name__ == "__main__":
    sys.exit(main())
