"""The process that starts all others of a display, and leaves nothing of them: it runs as `python3 -I -S supervisor.py DESCRIPTOR FOLDER`.

It makes a folder of its own in FOLDER, starts what it is asked to, and tells how each ended. What its children start stays below it, also where its parents end
(PR_SET_CHILD_SUBREAPER). Once the socket of the descriptor is closed it kills all that is below it, removes its folder, and ends; so it
doesn't matter how the one that holds the other end came to its end. Folders of supervisors that were killed themselves are removed by the next one.

A message, either way, is four bytes with its length and then JSON; descriptors come beside the first byte. What is asked has a number, "id", and its answer has it too. Asked can be:

    {"start": [WORD, ..], "environment": {..}, "folder": PATH}    with three descriptors; answered by {"process": N} or {"errno": N, "file": PATH}
    {"signal": N, "process": N}                                   to all of the process's group; answered by {}
    {"close": true}                                               answered by {} once nothing is left

and {"ended": PROCESS, "status": N} comes for each that ended, with a negative number where a signal ended it.
"""
import ctypes
import fcntl
import json
import os
import select
import shutil
import signal
import socket
import struct
import subprocess
import sys
import tempfile
import time

PREFIX = "wlframe-"
LOCK = "lock"  # a file of the folder, which its supervisor has locked as long as it runs
LIBC = ctypes.CDLL(None)
PR_SET_PDEATHSIG, PR_SET_CHILD_SUBREAPER = 1, 36
PIECE = 1 << 16  # bytes read at once
PATIENCE = 10.0  # seconds that killed processes have to be gone


def is_left(folder):
    """Whether a folder is one of this user's whose supervisor is gone."""
    try:
        if os.lstat(folder).st_uid != os.geteuid():
            return False
        lock = os.open(os.path.join(folder, LOCK), os.O_RDWR | os.O_NOFOLLOW)
    except OSError:
        return False
    try:
        fcntl.flock(lock, fcntl.LOCK_EX | fcntl.LOCK_NB)
    except OSError:
        return False
    finally:
        os.close(lock)
    return True


def clean(top):
    """Removes what killed supervisors left."""
    for name in os.listdir(top):
        folder = os.path.join(top, name)
        if name.startswith(PREFIX) and os.path.isdir(folder) and is_left(folder):
            shutil.rmtree(folder, ignore_errors=True)


def make_folder(top):
    """A new folder, with the lock by which others know that it is in use."""
    folder = tempfile.mkdtemp(prefix=PREFIX, dir=top)
    lock = os.open(os.path.join(folder, LOCK + ".new"), os.O_RDWR | os.O_CREAT | os.O_CLOEXEC, 0o600)
    fcntl.flock(lock, fcntl.LOCK_EX)
    os.rename(os.path.join(folder, LOCK + ".new"), os.path.join(folder, LOCK))  # so that there is no lock that isn't held
    return folder


def children():
    """The processes whose parent this one is."""
    found, own = [], str(os.getpid())
    for name in filter(str.isdigit, os.listdir("/proc")):
        try:
            with open(f"/proc/{name}/stat", encoding="utf-8", errors="replace") as stream:
                if stream.read().rpartition(")")[2].split()[1] == own:
                    found.append(int(name))
        except (OSError, IndexError):
            pass  # it has ended meanwhile
    return found


def status_of(waited):
    """How a process ended: its status, or the negative number of a signal."""
    return -os.WTERMSIG(waited) if os.WIFSIGNALED(waited) else os.WEXITSTATUS(waited)


class Supervisor:
    """The control socket, the folder and the processes."""

    def __init__(self, control, top):
        self.control, self.stream, self.descriptors = control, bytearray(), []
        self.running = {}  # by process: its Popen
        self.asked = 0  # the number of what was asked last
        clean(top)
        self.folder = make_folder(top)

    def tell(self, **message):
        data = json.dumps(message).encode()
        self.control.sendall(struct.pack("<I", len(data)) + data)

    def take(self):
        """Takes what came. False where the other end is gone."""
        try:
            data, descriptors, _, _ = socket.recv_fds(self.control, PIECE, 8)
        except ConnectionError:
            return False
        self.stream += data
        self.descriptors += descriptors
        while len(self.stream) >= 4:
            (length,) = struct.unpack_from("<I", self.stream)
            if len(self.stream) < 4 + length:
                break
            asked = json.loads(self.stream[4 : 4 + length])
            del self.stream[: 4 + length]
            if not self.serve(asked):
                return False
        return bool(data)

    def serve(self, asked):
        """Does what is asked. False where that was the last."""
        self.asked = asked["id"]
        if "start" in asked:
            self.start(asked["start"], asked["environment"], asked["folder"])
        elif "signal" in asked:
            self.signal(asked["process"], asked["signal"])
            self.answer()
        return "close" not in asked

    def answer(self, **message):
        """Answers what was asked last."""
        self.tell(id=self.asked, **message)

    def start(self, words, environment, folder):
        streams, self.descriptors = self.descriptors[:3], self.descriptors[3:]
        how = {"stdin": streams[0], "stdout": streams[1], "stderr": streams[2], "start_new_session": True}
        try:
            process = subprocess.Popen(words, env=environment, cwd=folder, preexec_fn=end_with_parent, **how)
        except OSError as fault:
            self.answer(errno=fault.errno, file=fault.filename)
            return
        finally:
            for each in streams:
                os.close(each)
        self.running[process.pid] = process
        self.answer(process=process.pid)

    def signal(self, process, number):
        """Sends a signal to the group of a process that hasn't ended."""
        if process in self.running:
            try:
                os.killpg(process, number)
            except (ProcessLookupError, PermissionError):
                pass

    def reap(self):
        """Tells of each of the processes that has ended; of others that came to be below this one nothing is told."""
        while True:
            try:
                process, waited = os.waitpid(-1, os.WNOHANG)
            except ChildProcessError:
                return
            if not process:
                return
            known = self.running.pop(process, None)
            if known is not None:
                known.returncode = status_of(waited)
                self.tell(ended=process, status=known.returncode)

    def run(self):
        """Serves until the other end is gone."""
        woken, wakes = os.pipe()
        for each in (woken, wakes):
            os.set_blocking(each, False)
        signal.set_wakeup_fd(wakes, warn_on_full_buffer=False)
        signal.signal(signal.SIGCHLD, lambda *_: None)
        while True:
            ready = select.select([self.control, woken], [], [])[0]
            if woken in ready:
                os.read(woken, PIECE)
                self.reap()
            if self.control in ready and not self.take():
                return

    def close(self):
        """Kills all that is below this process, and removes the folder."""
        until = time.monotonic() + PATIENCE
        while (left := children()) and time.monotonic() < until:
            for process in left:
                try:
                    os.kill(process, signal.SIGKILL)
                except ProcessLookupError:
                    pass
            time.sleep(0.002)
            try:
                while os.waitpid(-1, os.WNOHANG)[0]:
                    pass
            except ChildProcessError:
                pass
        shutil.rmtree(self.folder, ignore_errors=True)


def end_with_parent():
    """What is started ends with the supervisor, even where that is killed."""
    LIBC.prctl(PR_SET_PDEATHSIG, signal.SIGKILL)


def main():
    control = socket.socket(fileno=int(sys.argv[1]))
    control.set_inheritable(False)
    LIBC.prctl(PR_SET_CHILD_SUBREAPER, 1)
    for each in (signal.SIGINT, signal.SIGTERM, signal.SIGHUP):
        if signal.getsignal(each) != signal.SIG_IGN:
            signal.signal(each, lambda *_: None)  # what it starts has its own way with these again
    supervisor = Supervisor(control, sys.argv[2])
    try:
        supervisor.answer(folder=supervisor.folder)
        supervisor.run()
    except (BrokenPipeError, ConnectionError):
        pass
    finally:
        supervisor.close()
    try:
        supervisor.answer()
    except OSError:
        pass  # nobody waits for it


if __name__ == "__main__":
    main()
