"""Where tools/run puts the frames that a server shows: the last one, each that changed, and a film."""
import collections
import errno
import os
import pathlib
import shutil
import subprocess
import threading
import time

from wlframe.faults import Failure
from wlframe.pictures import Picture, png

PAUSE = 1.0  # seconds from one writing of the last picture to the next, while the client runs
RATE = 30  # pictures of a film in a second
MOST = 256 << 20  # bytes of pictures that may wait for ffmpeg
STILL = (".gif", ".apng")  # kinds of film that don't want colours as a video has them


def unwritten(path, fault):
    """A file can't be written."""
    is_full = fault.errno in (errno.ENOSPC, errno.EDQUOT, errno.EFBIG)
    return Failure(f"{path} can't be written: {os.strerror(fault.errno)}{'; make room there, or name another place' if is_full else ''}")


def write(path, content):
    """Writes a file, so that who looks at it sees the old one or the new one, and never half of it."""
    path = pathlib.Path(path)
    beside = path.with_name(f".{path.name}.{os.getpid()}")
    try:
        beside.write_bytes(content)
        os.replace(beside, path)
    except OSError as fault:
        beside.unlink(missing_ok=True)
        raise unwritten(path, fault) from None


def is_black(picture):
    return picture.pixels.count(0) == len(picture.pixels)


class Last:
    """The last picture, which is written while the client runs too."""

    def __init__(self, path):
        self.path = pathlib.Path(path)
        self.box = None  # the part that is kept, where it isn't all
        self.last, self.drawn = None, None  # the last picture, and the last with anything in it
        self.due, self.written = 0.0, None
        if not self.path.absolute().parent.is_dir():
            raise Failure(f"{path} can't be written: there is no such folder")
        self.path.unlink(missing_ok=True)  # so that what an earlier run left isn't taken for this one's

    def start(self, picture):
        pass

    def stop(self):
        pass

    def add(self, picture, _number):
        self.last = picture
        if not is_black(picture):
            self.drawn = picture
        self.rest()

    def rest(self):
        """Writes what was last shown, if enough time is over."""
        if self.last is not self.written and time.monotonic() >= self.due:
            self.put(self.last)
            self.due = time.monotonic() + PAUSE

    def put(self, picture):
        write(self.path, png(self.cut(picture)))
        self.written = picture

    def cut(self, picture: Picture) -> Picture:
        """The part of the picture that is kept."""
        try:
            return picture.crop(self.box) if self.box else picture
        except ValueError:
            return picture  # the window stands outside of the output

    def end(self, has_left):
        """The output is black once the windows of a client that left are gone: the picture is that before."""
        picture = self.drawn if has_left and self.last and is_black(self.last) and self.drawn else self.last
        if picture is not None and (picture is not self.written or self.box):
            self.put(picture)


class Folder:
    """Each picture that differs from the one before, with its number among all frames as its name."""

    def __init__(self, path):
        self.path = pathlib.Path(path)
        self.last = None
        try:
            self.path.mkdir(parents=True, exist_ok=True)
            if any(self.path.iterdir()):
                raise Failure(f"{path} isn't empty: name a new folder for the frames, or empty it")
        except OSError as fault:
            raise Failure(f"{path} is no folder that frames can be written to: {os.strerror(fault.errno)}") from None

    def start(self, picture):
        pass

    def stop(self):
        pass

    def add(self, picture, number):
        if picture != self.last:
            write(self.path / f"{number:04}.png", png(picture, level=1))
            self.last = picture

    def rest(self):
        pass

    def end(self, _has_left):
        pass


class Film:
    """A film by ffmpeg, from the client's start to its end, in which each picture stands as long as it was shown. A thread of its own gives ffmpeg the
    pictures, so that nothing waits for that; where ffmpeg falls behind, some are left out, and the one before stands longer."""

    def __init__(self, path):
        self.path = path
        self.coder, self.thread, self.fault = None, None, None
        self.begun, self.over, self.stood = 0.0, None, 0.0  # when it began and ended, by this process's clock, and how long pictures stand by now, in seconds
        self.last = None  # the picture that stands now
        self.waiting = collections.deque()  # pictures, each with the time until which it stands; None is the end
        self.size, self.has_more = 0, threading.Condition()  # bytes of those that wait
        if not shutil.which("ffmpeg"):
            raise Failure("--film needs ffmpeg, which isn't installed (Debian: apt-get install ffmpeg); --frames writes pictures without it")

    def words(self, width, height):
        words = ["ffmpeg", "-loglevel", "error", "-nostdin", "-y", "-f", "rawvideo", "-pix_fmt", "rgb24", "-s", f"{width}x{height}"]
        words += ["-framerate", str(RATE), "-i", "-"]
        if not self.path.endswith(STILL):
            words += ["-vf", "pad=ceil(iw/2)*2:ceil(ih/2)*2", "-pix_fmt", "yuv420p"]  # many players take even sides alone
        return [*words, self.path]

    def start(self, picture):
        """The film begins now, with this picture."""
        self.last, self.begun = picture, time.monotonic()

    def add(self, picture, _number):
        if self.over is not None:
            return
        if self.coder is None:
            self.coder = subprocess.Popen(self.words(*picture[:2]), stdin=subprocess.PIPE, start_new_session=True)
            self.thread = threading.Thread(target=self.feed, daemon=True)
            self.thread.start()
        self.stand(time.monotonic() - self.begun)
        self.last = picture

    def stand(self, until):
        """The last picture stands until so many seconds after the beginning."""
        self.stood = until
        with self.has_more:
            if self.waiting and self.size + len(self.last.pixels) > MOST:
                self.waiting[-1] = self.waiting[-1][0], until
                return
            self.waiting.append((self.last, until))
            self.size += len(self.last.pixels)
            self.has_more.notify()

    def feed(self):
        """Gives ffmpeg all that waits, until the end."""
        count = 0
        try:
            while True:
                with self.has_more:
                    self.has_more.wait_for(lambda: self.waiting)
                    picture, until = self.waiting.popleft()
                    if picture is None:
                        break
                    self.size -= len(picture.pixels)
                while count < round(until * RATE):
                    self.coder.stdin.write(picture.pixels)
                    count += 1
            self.coder.stdin.close()
        except OSError as fault:
            self.fault = fault

    def rest(self):
        if self.fault is not None:
            raise self.failure()

    def failure(self):
        return Failure(f"ffmpeg couldn't write {self.path}: what it said stands above")

    def stop(self):
        """It ends now: what is added behind is no part of it."""
        self.over = time.monotonic()

    def end(self, _has_left):
        """It is written."""
        if self.coder is None:
            return
        with self.has_more:  # the last picture is seen, however short it stood
            self.waiting.extend([(self.last, max(self.over - self.begun, self.stood + 1 / RATE)), (None, 0.0)])
            self.has_more.notify()
        self.thread.join()
        if self.coder.wait() != 0 or self.fault is not None:
            raise self.failure()
