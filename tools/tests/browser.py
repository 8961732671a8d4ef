"""A Chromium without a screen, which a test leads by its DevTools protocol: it opens a page, points, types, and takes a picture of it."""
import base64
import contextlib
import json
import os
import select
import shutil
import signal
import struct
import subprocess
import tempfile
import time
import zlib

from wlframe.pictures import Picture, chunks

WHY_NOT = "" if shutil.which("chromium") else "chromium isn't installed"
PATIENCE = 120  # seconds that an answer may take on a machine that does much else
END = b"\0"  # of a message
WORDS = ("--headless=new", "--no-sandbox", "--disable-gpu", "--no-first-run", "--disable-dev-shm-usage", "--disable-extensions", "--hide-scrollbars", "--remote-debugging-pipe")


class Failed(Exception):
    """The browser refuses what it is asked, or has gone."""


class Browser:
    """A browser with one page of so many pixels. It reads messages from its descriptor 3 and writes them to 4."""

    def __init__(self, width, height):
        self.folder = tempfile.mkdtemp(prefix="browser-")
        asks, self.asking = os.pipe()
        self.answers, answering = os.pipe()
        words = ["chromium", *WORDS, f"--user-data-dir={self.folder}", f"--window-size={width},{height}", "about:blank"]
        home = {**os.environ, "HOME": self.folder, "XDG_RUNTIME_DIR": self.folder, "TMPDIR": self.folder}
        home.pop("WAYLAND_DISPLAY", None)
        script = 'exec 3<&"$0" 4>&"$1"; shift; exec "$@"'
        self.process = subprocess.Popen(  # pylint: disable=consider-using-with
            ["bash", "-c", script, str(asks), str(answering), *words],
            env=home, pass_fds=(asks, answering), stdin=subprocess.DEVNULL, stdout=subprocess.DEVNULL, stderr=subprocess.DEVNULL, start_new_session=True,
        )
        os.close(asks)
        os.close(answering)
        self.rest, self.number, self.session = b"", 0, None
        page = next(it for it in self.ask("Target.getTargets")["targetInfos"] if it["type"] == "page")
        self.session = self.ask("Target.attachToTarget", targetId=page["targetId"], flatten=True)["sessionId"]
        self.ask("Emulation.setDeviceMetricsOverride", width=width, height=height, deviceScaleFactor=1, mobile=False)

    def __enter__(self):
        return self

    def __exit__(self, *_):
        self.close()

    def close(self):
        """Ends it with all that it started, and removes its folder."""
        with contextlib.suppress(ProcessLookupError):
            os.killpg(self.process.pid, signal.SIGKILL)
        self.process.wait()
        os.close(self.asking)
        os.close(self.answers)
        shutil.rmtree(self.folder, ignore_errors=True)

    def message(self, until):
        """The next message of the browser."""
        while END not in self.rest:
            if not select.select([self.answers], [], [], max(until - time.monotonic(), 0))[0]:
                raise Failed("the browser doesn't answer")
            piece = os.read(self.answers, 1 << 20)
            if not piece:
                raise Failed("the browser has gone")
            self.rest += piece
        said, _, self.rest = self.rest.partition(END)
        return json.loads(said)

    def ask(self, method, **words):
        """Asks for something, and answers what the browser answers. Its events are passed over."""
        self.number += 1
        asked = {"id": self.number, "method": method, "params": words, **({"sessionId": self.session} if self.session else {})}
        os.write(self.asking, json.dumps(asked).encode() + END)
        until = time.monotonic() + PATIENCE
        while True:
            said = self.message(until)
            if said.get("id") == self.number:
                if "error" in said:
                    raise Failed(f"{method}: {said['error']['message']}")
                return said["result"]

    def open(self, address):
        """Goes to a page."""
        found = self.ask("Page.navigate", url=address)
        if "errorText" in found:
            raise Failed(f"{address}: {found['errorText']}")

    def value(self, script):
        """What an expression of the page's script is."""
        found = self.ask("Runtime.evaluate", expression=script, returnByValue=True)
        if "exceptionDetails" in found:
            raise Failed(found["exceptionDetails"]["exception"].get("description", script))
        return found["result"].get("value")

    def wait(self, script):
        """Waits until an expression is true, and answers it."""
        until = time.monotonic() + PATIENCE
        while not (found := self.value(script)):
            if time.monotonic() > until:
                raise Failed(f"it didn't become true: {script}")
            time.sleep(0.1)
        return found

    def click(self, x, y):
        """Clicks a point of the page."""
        for kind, buttons in (("mouseMoved", 0), ("mousePressed", 1), ("mouseReleased", 0)):
            button = "none" if kind == "mouseMoved" else "left"
            self.ask("Input.dispatchMouseEvent", type=kind, x=x, y=y, button=button, buttons=buttons, clickCount=0 if kind == "mouseMoved" else 1)

    def type(self, text):
        """Types small letters and spaces."""
        for letter in text:
            code, number = ("Space", 32) if letter == " " else (f"Key{letter.upper()}", ord(letter.upper()))
            self.ask("Input.dispatchKeyEvent", type="keyDown", key=letter, code=code, text=letter, windowsVirtualKeyCode=number)
            self.ask("Input.dispatchKeyEvent", type="keyUp", key=letter, code=code, windowsVirtualKeyCode=number)

    def picture(self):
        """What the page shows, as a PNG."""
        return base64.b64decode(self.ask("Page.captureScreenshot", format="png")["data"])


def read_png(data):
    """The picture of a PNG of 8 bits for each of red, green and blue, also beside an opacity, whatever filters its rows have."""
    found = dict.fromkeys((b"IHDR", b"IDAT"), b"")
    for name, content in chunks(data):
        if name in found:
            found[name] += content
    width, height, *kind = struct.unpack(">IIBBBBB", found[b"IHDR"])
    assert kind in ([8, 2, 0, 0, 0], [8, 6, 0, 0, 0]), f"a PNG of the kind {kind}"
    pixel = {2: 3, 6: 4}[kind[1]]  # bytes
    rows, step, above, lines = zlib.decompress(found[b"IDAT"]), 1 + pixel * width, bytes(pixel * width), []
    for at in range(0, len(rows), step):
        above = unfilter(rows[at], bytearray(rows[at + 1 : at + step]), above, pixel)
        lines.append(above)
    return Picture(width, height, rgb(b"".join(lines), pixel))


def rgb(data, pixel):
    """Pixels without their opacity."""
    found = bytearray(3 * (len(data) // pixel))
    for part in range(3):
        found[part::3] = data[part::pixel]
    return bytes(found)


def unfilter(kind, row, above, pixel):
    """The bytes of a row of a PNG, by its filter and the row above it."""
    for at, byte in enumerate(row):
        left, corner = (row[at - pixel], above[at - pixel]) if at >= pixel else (0, 0)
        row[at] = byte + (0, left, above[at], (left + above[at]) // 2, paeth(left, above[at], corner))[kind] & 255
    return row


def paeth(left, above, corner):
    """Of three neighbours of a byte the one that is nearest to left + above - corner."""
    return min((left, above, corner), key=lambda it: abs(left + above - corner - it))
