"""What six toolkits take from the keyboard and the clipboard: an entry of each is typed into, and what is copied in one is pasted in each.

The entries are those of entry.py, and a page in a browser: the title of each window is its text in brackets.
"""
import pathlib
import re
import shutil
import subprocess
import sys
import tempfile
import typing

HERE = pathlib.Path(__file__).resolve().parent
sys.path[:0] = [str(HERE), str(HERE.parent.parent / "python")]
import wlframe  # pylint: disable=wrong-import-position

SIZE = 640, 480
LONG = 60  # seconds that something may take on a machine that does much else
SOON = 30  # seconds that a client may take for a key
TIMES = 5  # that a paste is tried, where a client doesn't wait for the text
REST = 0.5  # seconds without a change until a window is ready
PYTHON = "/usr/bin/python3"  # Debian's, which finds what Debian's packages have
TEXT, OTHER = "Grüße, née", "été"
TITLE = re.compile(r"^\[")
# The page has its title once its entry has the focus.
PAGE = "data:text/html,<meta charset=utf-8><title>begins</title><input autofocus style=caret-color:white onfocus=oninput() oninput=\"document.title='['+value+']'\">"
BROWSER = ["--no-sandbox", "--ozone-platform=wayland", "--disable-gpu", "--no-first-run", "--window-size=400,200"]


class Toolkit(typing.NamedTuple):
    """A toolkit: its name, its Debian packages, of which the first is the toolkit, and the words that start its entry; {folder} is an empty folder."""

    name: str
    packages: tuple[str, ...]
    words: tuple[str, ...]
    needs: str  # a program, or a module of Debian's Python
    paste: str = "ctrl+v"

    def lacks(self) -> str:
        """What isn't installed, or nothing."""
        has = subprocess.run([PYTHON, "-c", self.needs], capture_output=True, check=False).returncode == 0 if " " in self.needs else shutil.which(self.needs)
        return "" if has else f"{self.name} isn't installed: Debian has it in {' and '.join(self.packages)}"


def entry(name: str) -> tuple[str, ...]:
    return PYTHON, str(HERE / "entry.py"), name


GI = "import gi; gi.require_version('Gtk', '{}'); from gi.repository import Gtk"
FOOT = "foot", "--config=/dev/null", "--override=csd.preferred=none", "--window-size-pixels=300x100", *entry("terminal")
ALL = [
    Toolkit("GTK 3", ("libgtk-3-0", "gir1.2-gtk-3.0"), entry("gtk3"), GI.format("3.0")),
    Toolkit("GTK 4", ("libgtk-4-1", "gir1.2-gtk-4.0"), entry("gtk4"), GI.format("4.0")),
    Toolkit("Qt 6", ("libqt6widgets6", "python3-pyqt6"), entry("qt6"), "import PyQt6.QtWidgets"),
    Toolkit("foot", ("foot",), FOOT, "foot", "ctrl+shift+v"),
    Toolkit("Chromium", ("chromium",), ("chromium", *BROWSER, "--user-data-dir={folder}", f"--app={PAGE}"), "chromium"),
    Toolkit("SDL 2", ("libsdl2-2.0-0",), entry("sdl"), "import ctypes; ctypes.CDLL('libSDL2-2.0.so.0')"),
]


class Entry:
    """The entry of a toolkit on a display. `faults` is what it does otherwise than it should."""

    def __init__(self, toolkit: Toolkit, display: wlframe.Display, folder: pathlib.Path):
        self.toolkit, self.display = toolkit, display
        self.faults: list[str] = []
        before = [it.key for it in display.look()]
        words = [it.replace("{folder}", str(folder / toolkit.name)) for it in toolkit.words]
        folder.mkdir(parents=True, exist_ok=True)
        self.client = display.run(*words, env={"LC_ALL": "C.UTF-8", "TMPDIR": str(folder)})
        display.wait_until(lambda: any(it.key not in before and TITLE.match(it.title) for it in display.look()), LONG, f"{toolkit.name} shows no window")
        self.key = next(it.key for it in display.look() if it.key not in before and TITLE.match(it.title))
        display.wait_until_idle(REST, LONG)

    @property
    def text(self) -> str:
        """What it has."""
        return next((it.title[1:-1] for it in self.display.look() if it.key == self.key), "")

    def has(self, wanted: str, what: str) -> bool:
        """Waits until it has this text; what it has else is a fault."""
        try:
            self.display.wait_until(lambda: self.text == wanted, SOON, what)
        except wlframe.TimeOver:
            self.faults.append(f"{what}: {self.text!r}")
        return self.text == wanted

    def type(self) -> bool:
        """A text with letters that the layout lacks is typed, and another in its place behind ctrl+a."""
        self.display.type(TEXT)
        if not self.has(TEXT, "typed"):
            return False
        self.display.press("ctrl+a")
        self.display.type(OTHER)
        return self.has(OTHER, "typed behind ctrl+a")

    def copy(self) -> bool:
        """All of it is copied: in a terminal the word that a double click marks, else what ctrl+a does."""
        if self.toolkit.name == "foot":
            self.window.click(10, 10, count=2)
            self.display.press("ctrl+shift+c")
        else:
            self.display.press("ctrl+a")
            self.display.press("ctrl+c")
        try:
            self.display.wait_until(lambda: (self.display.clipboard or "").strip("\n") == self.text, SOON, "copied")
        except wlframe.TimeOver:
            self.faults.append(f"copied: {self.display.clipboard!r}")
        return (self.display.clipboard or "").strip("\n") == self.text

    def pastes(self, wanted: str) -> bool:
        """What was copied is pasted. SDL waits 14 ms for a text, and a busy client may take longer to write it: there it is tried again."""
        for _ in range(TIMES if self.toolkit.name == "SDL 2" else 1):
            self.display.press(self.toolkit.paste)
            if self.has(wanted, "pasted") or self.text:
                break
        return self.text == wanted

    @property
    def window(self):
        return next(it for it in self.display.windows() if it.key == self.key)

    def end(self) -> None:
        """Ends it, and waits until it is gone."""
        self.client.kill()
        self.display.wait_until(lambda: self.key not in [it.key for it in self.display.look()], LONG, "it stays")


class Row(typing.NamedTuple):
    """What came of a toolkit: whether it takes text, whether it is copied, into which of the others it is pasted, by their names, and what was otherwise."""

    toolkit: Toolkit
    is_typed: bool
    is_copied: bool
    pasted: dict[str, bool]
    faults: list[str]


def row_of(toolkit: Toolkit, targets: list[Toolkit]) -> Row:
    """Types into a toolkit's entry, copies, and pastes into one of each."""
    with tempfile.TemporaryDirectory(ignore_cleanup_errors=True) as room, wlframe.Display(SIZE) as display:
        display.is_strict = False
        folder = pathlib.Path(room)
        pasted, faults = dict.fromkeys((it.name for it in targets), False), []
        try:
            source = Entry(toolkit, display, folder / "source")
            is_typed, is_copied = source.type(), source.copy()
            for each in targets:
                target = Entry(each, display, folder / "target")
                pasted[each.name] = target.pastes(OTHER)
                faults += [f"{each.name}: {it}" for it in target.faults]
                target.end()
        except wlframe.Failure as fault:
            return Row(toolkit, False, False, pasted, [*faults, str(fault)])
        return Row(toolkit, is_typed, is_copied, pasted, source.faults + faults)


def rows() -> typing.Iterator[Row]:
    """What comes of each that is installed."""
    there = [it for it in ALL if not it.lacks()]
    for each in there:
        yield row_of(each, there)


if __name__ == "__main__":
    for found in rows():
        print(found.toolkit.name, found.is_typed, found.is_copied, found.pasted, found.faults, flush=True)
