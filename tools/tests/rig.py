"""A server of the real program and a bridge, in a folder of their own, for tests."""
import contextlib
import ctypes
import functools
import importlib.machinery
import importlib.util
import os
import pathlib
import signal
import subprocess
import sys
import tempfile
import threading
import time

TOOLS = pathlib.Path(__file__).resolve().parent.parent
BRIDGE = TOOLS / "bridge"
sys.path.insert(0, str(TOOLS.parent / "python"))  # where the package is

from wlframe.viewer import Viewer  # pylint: disable=wrong-import-position

RATE = 250  # turns a second, where the program can keep to a rate
TURNS = 1_000_000  # else as many as there can be
PATIENCE = 60  # seconds
LIBC = ctypes.CDLL(None)
PR_SET_PDEATHSIG = 1


def loaded(path):
    """A script as a module."""
    loader = importlib.machinery.SourceFileLoader(path.name, str(path))
    made = importlib.util.module_from_spec(importlib.util.spec_from_loader(path.name, loader))
    loader.exec_module(made)
    return made


def program():
    """The program: the one that WLFRAME names, or the one that is built."""
    path = pathlib.Path(os.environ.get("WLFRAME") or TOOLS.parent / "crates" / "wlframe" / "out" / "wlframe")
    if not path.exists():
        raise FileNotFoundError(f"{path}: build the program first (./wlframe --help), or name one by WLFRAME")
    return path.resolve()


def has_rate():
    """Whether the program can keep to a rate."""
    return has_option("--rate")


@functools.cache
def has_option(option):
    """Whether the program can be started with this option."""
    return option in subprocess.run([program(), "serve", "--help"], capture_output=True, text=True, check=True).stdout


def end_with_parent():
    """A server ends with the tests, even where these are killed."""
    LIBC.prctl(PR_SET_PDEATHSIG, signal.SIGKILL)


def slow_down(process):
    """Lets a server that keeps to no rate work for about a tenth of the time, so that its turns last for a test."""
    while process.poll() is None:
        process.send_signal(signal.SIGSTOP)
        time.sleep(0.009)
        process.send_signal(signal.SIGCONT)
        time.sleep(0.001)


def wait_for(what, why):
    """Waits until the function answers something that is true, and answers it."""
    until = time.monotonic() + PATIENCE
    while time.monotonic() < until:
        found = what()
        if found:
            return found
        time.sleep(0.01)
    raise TimeoutError(why)


class Rig:
    """A folder with a server's socket `server`, a bridge's `wayland`, the folder `pools`, the report and the frames; and what the pointer does."""

    def __init__(self, *options, size="64x48", pointer="", server=True, bridge=True, viewer=False):
        self.options, self.size, self.pointer, self.begins, self.has_viewer = options, size, pointer, (server, bridge), viewer
        self.server = self.bridge = self.viewer = None

    def __enter__(self):
        self.stack = contextlib.ExitStack()
        self.room = pathlib.Path(self.stack.enter_context(tempfile.TemporaryDirectory()))
        self.wayland, self.pools, self.said = self.room / "wayland", self.room / "pools", self.room / "said"
        self.pools.mkdir()
        try:
            if self.begins[0]:
                self.start_server()
            if self.begins[1]:
                self.start_bridge()
        except BaseException:
            self.__exit__()
            raise
        return self

    def __exit__(self, *_):
        if self.viewer is not None:
            self.viewer.socket.close()
        for process in (self.bridge, self.server):
            if process is not None and process.poll() is None:
                process.kill()
                process.wait()
        self.stack.close()

    def start_server(self, turns=None, folder="pools"):
        report = self.stack.enter_context(open(self.room / "report", "w", encoding="ascii"))
        words = ["serve", "--socket", "server", "--dir", folder, "--size", self.size, "--ppm", "frames.ppm"]
        words += ["--rate", str(RATE)] if has_rate() and not turns else ["--turns", str(turns or TURNS)]
        words += ["--viewer", "viewer"] if self.has_viewer else []
        if self.pointer:
            (self.room / "pointer").write_text(self.pointer, encoding="ascii")
            words += ["--pointer", "pointer"]
        self.server = subprocess.Popen([program(), *words], cwd=self.room, stdout=report, preexec_fn=end_with_parent)
        wait_for((self.room / "server").exists, "the server makes no socket")
        if not has_rate() and not turns:
            threading.Thread(target=slow_down, args=(self.server,), daemon=True).start()

    def begin_bridge(self, *options, **named):
        """Starts a bridge, and doesn't wait for it."""
        said = self.stack.enter_context(open(self.said, "w", encoding="utf-8"))
        words = [sys.executable, BRIDGE, "--listen", "wayland", "--server", "server", "--dir", "pools", *(options or self.options)]
        self.bridge = subprocess.Popen(words, cwd=self.room, stderr=said, **named)
        return self.bridge

    def start_bridge(self, *options, **named):
        self.begin_bridge(*options, **named)
        wait_for(lambda: "clients find it" in self.words() or self.bridge.poll() is not None, "the bridge doesn't get ready")
        if "clients find it" not in self.words():
            raise RuntimeError(f"the bridge ended with status {self.bridge.returncode}: {self.words()}")

    def words(self):
        """What the bridge has said."""
        return self.said.read_text(encoding="utf-8")

    def line_with(self, text):
        """A line of the bridge with this text, which may yet have to come."""
        found = wait_for(lambda: [it for it in self.words().splitlines() if text in it], f"the bridge doesn't say {text!r}: {self.words()}")
        return found[-1]

    def ended(self):
        """The status of the bridge, once it has ended."""
        return self.bridge.wait(PATIENCE)

    def end(self, number=signal.SIGTERM):
        """Asks the bridge to end, and answers its status."""
        self.bridge.send_signal(number)
        return self.ended()

    def frames(self):
        """The damaged points of each frame that the report tells."""
        lines = (self.room / "report").read_text(encoding="ascii").splitlines()
        return [int(it.split()[2]) for it in lines if it.startswith("frame ")]

    def ends(self):
        """How many clients the report tells to have ended."""
        return sum(it.startswith("end ") for it in (self.room / "report").read_text(encoding="ascii").splitlines())

    def settle(self):
        """Waits until a tick has shown what was asked of the server before. The rig has to have a viewer."""
        if self.viewer is None:
            self.viewer = Viewer(self.room / "viewer")
        number = self.viewer.synced.number + 1
        self.viewer.send(f"sync {number}")

        def is_synced():
            self.viewer.take()
            return self.viewer.synced.number == number

        wait_for(is_synced, "the server answers no viewer")

    def frame(self, number):
        """Waits for the frame of this number, from 1, and answers how many points of it were damaged and its pixels, rows of 0xrrggbb."""
        wait_for(lambda: len(self.frames()) >= number, f"there is no frame {number}")
        width, height = map(int, self.size.split("x"))
        head = f"P6\n{width} {height}\n255\n".encode()
        one = len(head) + 3 * width * height
        images = self.room / "frames.ppm"
        wait_for(lambda: images.stat().st_size >= number * one, f"there is no image {number}")
        image = images.read_bytes()[(number - 1) * one : number * one]
        assert image.startswith(head)
        pixels = [int.from_bytes(image[at : at + 3]) for at in range(len(head), one, 3)]
        return self.frames()[number - 1], [pixels[row * width : (row + 1) * width] for row in range(height)]
