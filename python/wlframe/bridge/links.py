"""Shared memory that the server reads where the client has it: its side files are links, and are there only while something is to be read.

The k-th pool of the n-th connection has the side file `n.k`, here a symbolic link to /proc/BRIDGE/fd/M: the bridge's own opening of the client's
memory. A link is made before the commit goes out for which the server has to read it. Behind the commit goes a sync of the bridge's own, and once
that is answered the link goes: the server reads in the turn in which it hears of a commit, and answers after that. Where there is no file it leaves
what it has. A server that reads ranges is told in `n.r` which bytes of which store it has to read, and reads nothing else; there the links stay.
"""
import contextlib
import ctypes
import os
import pathlib
import shutil
import stat
import tempfile
import weakref

from wlframe.bridge.ranges import merged

OWN_FILES = f"/proc/{os.getpid()}/fd"
MEMORY_FILES = 0x01021994  # what statfs calls a file system in memory: tmpfs, and where memfd_create makes its files
SYNCS = 2  # of the bridge's own, that may be unanswered
LINES = 4096  # of ranges that the server takes
COMMITS = 1024  # whose ranges are kept apart
SPANS = 1024  # of a commit: more of them become the one around them
LIBC = ctypes.CDLL(None, use_errno=True)
KINDS = {
    stat.S_IFIFO: "a pipe",
    stat.S_IFSOCK: "a socket",
    stat.S_IFCHR: "a device",
    stat.S_IFBLK: "a device",
    stat.S_IFDIR: "a folder",
    stat.S_IFLNK: "a link",
}


class Unfit(Exception):
    """Why a descriptor isn't taken as shared memory."""


def look_at(descriptor):
    """Unfit where a descriptor is of no regular file: reading could stop whoever reads."""
    kind = stat.S_IFMT(os.fstat(descriptor).st_mode)
    if kind != stat.S_IFREG:
        raise Unfit(f"its descriptor is {KINDS.get(kind, 'no file')}, and no shared memory")


def is_in_memory(descriptor):
    """Whether a file lies in a file system in memory, where a read waits for nobody."""
    told = ctypes.create_string_buffer(512)
    return LIBC.fstatfs(descriptor, told) == 0 and ctypes.c_long.from_buffer(told).value == MEMORY_FILES


def opened(descriptor):
    """The bridge's own opening of a client's memory, to read it; None where it can't be had, and has to be copied by the client's descriptor.

    It is kept as long as the memory: while a file is open nobody gets a lease for writing it, which would make the server wait as it opens it.
    """
    if not is_in_memory(descriptor):
        return None
    try:
        return os.open(f"/proc/self/fd/{descriptor}", os.O_RDONLY | os.O_NONBLOCK | os.O_CLOEXEC)
    except BlockingIOError:
        raise Unfit("its descriptor is of a file on which somebody has a lease") from None
    except OSError:
        return None


def remove(path):
    with contextlib.suppress(FileNotFoundError):
        os.remove(path)


class Link:
    """The side file of one of the server's stores, as a link. The store stands for a client's memory from its byte `begin` on."""

    def __init__(self, path, number, pool, begin=0):
        self.path, self.number, self.pool, self.begin, self.skip = path, number, pool, begin, begin
        self.target, self.is_shown = f"{OWN_FILES}/{pool.memory}", False
        remove(path)  # what an earlier bridge left

    def show(self):
        if not self.is_shown:
            os.symlink(self.target, self.path)
            self.is_shown = True

    def hide(self):
        if self.is_shown:
            remove(self.path)
            self.is_shown = False

    def take(self, memory, at, end):
        """Nothing is copied."""

    def grow(self, memory, end):
        """Nothing is copied."""

    def close(self):
        self.hide()


class Quick:
    """A folder of the bridge's own in memory, for files that change with each commit: to rename one on a disk costs ten times as much, and may wait."""

    def __init__(self, place):
        for each in pathlib.Path(place).glob("wlframe-bridge-*"):  # what bridges left that were killed
            if each.stat().st_uid == os.getuid() and not os.path.exists(f"/proc/{each.name.split('-')[2]}"):
                shutil.rmtree(each, ignore_errors=True)
        self.folder = tempfile.mkdtemp(prefix=f"wlframe-bridge-{os.getpid()}-", dir=place)
        self.descriptor = os.open(self.folder, os.O_RDONLY | os.O_DIRECTORY | os.O_CLOEXEC)

    def place_of(self, name):
        """Where the bridge has a file."""
        return os.path.join(self.folder, name)

    def target_of(self, name):
        """Where a link to it leads."""
        return f"{OWN_FILES}/{self.descriptor}/{name}"

    def close(self):
        shutil.rmtree(self.folder, ignore_errors=True)
        os.close(self.descriptor)


def quick_folder():
    """A folder in memory, or None where there is no place for one."""
    for place in filter(None, ("/dev/shm", os.environ.get("XDG_RUNTIME_DIR"))):
        with contextlib.suppress(OSError):
            descriptor = os.open(place, os.O_RDONLY | os.O_DIRECTORY | os.O_CLOEXEC)
            try:
                if is_in_memory(descriptor):
                    return Quick(place)
            finally:
                os.close(descriptor)
    return None


class Sight:
    """What of a client's memory the server can see at the moment, and which of the bridge's own syncs tells that it has seen it."""

    wants_own = True  # openings of the clients' memory, for links to them

    def __init__(self, folder, number, quick=None):
        self.quick = quick
        self.sent = self.answered = 0  # own syncs
        self.wanted = 0  # the number of the sync that has to be sent
        remove(os.path.join(folder, f"{number}.r"))  # what an earlier bridge left

    def can_link(self, pool, begin):
        """Whether a store of a pool's bytes from begin on can be a link."""
        return False

    def made(self, store):
        """There is a new store."""

    def show(self, buffer, spans):
        """A commit of a buffer goes out, for which the server has to read these spans of the bytes of its store."""

    def before_bytes(self):
        """What was shown since the last call has to be seen by the server before it gets the bytes that wait."""

    def seen(self):
        """A sync was answered: what was to be read before it was read."""
        self.answered += 1

    def released(self, buffer):
        """The server tells that it doesn't need a buffer any more: it read what its last commit showed."""

    def wants_sync(self):
        """Whether a sync has to go out now."""
        return self.wanted > self.sent and self.sent - self.answered < SYNCS

    def sync(self):
        """A sync goes out behind all that was shown."""
        self.sent += 1

    def close(self):
        """The client is gone."""


class Copies(Sight):
    """The server reads copies, which are there all the time."""

    wants_own = False


class Links(Sight):
    """The server reads whole stores, by links that go once it has done so."""

    def __init__(self, folder, number, quick=None):
        super().__init__(folder, number, quick)
        self.until = {}  # by store: the number of the sync behind its last commit

    def can_link(self, pool, begin):
        return pool.is_own and begin == 0

    def show(self, buffer, spans):
        buffer.store.show()
        self.wanted = self.until[buffer.store] = self.sent + 1

    def seen(self):
        super().seen()
        for store in [it for it, number in self.until.items() if number <= self.answered]:
            del self.until[store]
            store.hide()


class Ranges(Sight):
    """The server reads the bytes that a file tells of, by links that stay.

    What is told is taken back as soon as the server is known to have read it: once a sync is answered that went behind the commit, or the buffer is
    released. For then the client may draw into it, and later tell but a part of what it did as damage.
    """

    def __init__(self, folder, number, quick=None):
        super().__init__(folder, number, quick)
        self.path = os.path.join(folder, f"{number}.r")
        self.file = quick.place_of(f"{number}.r") if quick else self.path
        self.told = {}  # by the number of a commit: that of the sync behind it, the store, and the spans of its bytes that are to be read
        self.commits, self.commit_of = 0, weakref.WeakKeyDictionary()  # by buffer: the number of its last commit
        self.is_written = False
        self.before_bytes()
        if quick:
            os.symlink(quick.target_of(f"{number}.r"), self.path)

    def can_link(self, pool, begin):
        return pool.is_own

    def made(self, store):
        store.show()

    def show(self, buffer, spans):
        self.commits += 1
        self.commit_of[buffer] = self.commits
        if len(spans) > SPANS:
            spans = [(spans[0][0], spans[-1][1])]  # all of them lie in the buffer
        if spans:
            self.wanted = self.sent + 1
            self.told[self.commits] = self.wanted, buffer.store, spans
            self.is_written = False
            if len(self.told) > COMMITS:
                self.gather()

    def gather(self):
        """What many commits told, as if the last of them told all of it."""
        for store, spans in by_store(self.told.values()):
            self.commits += 1
            self.told[self.commits] = self.wanted, store, spans
        self.told = dict(list(self.told.items())[COMMITS + 1 :])

    def before_bytes(self):
        if not self.is_written:
            new = self.file + ".new"
            remove(new)
            file = os.open(new, os.O_WRONLY | os.O_CREAT | os.O_EXCL | os.O_CLOEXEC, 0o600)
            with open(file, "w", encoding="ascii") as stream:
                stream.write(in_lines(fewer(by_store(self.told.values()))))
            os.rename(new, self.file)  # so that the server finds the old lines or the new ones
            self.is_written = True

    def drop(self, is_read):
        """Takes back what was told by commits that the server has read, of which is_read answers by their numbers and those of their syncs."""
        kept = {commit: it for commit, it in self.told.items() if not is_read(commit, it[0])}
        if len(kept) < len(self.told):
            self.told, self.is_written = kept, False
            self.before_bytes()

    def seen(self):
        super().seen()
        self.drop(lambda _, sync: sync <= self.answered)

    def released(self, buffer):
        until = self.commit_of.get(buffer, 0)
        self.drop(lambda commit, _: commit <= until)

    def close(self):
        for path in (self.path, self.file, self.file + ".new"):
            remove(path)


WAYS = {"copies": Copies, "links": Links, "ranges": Ranges}


def by_store(told):
    """The spans that were told of each store, by its number."""
    found = {}
    for _, store, spans in told:
        found.setdefault(store, []).extend(spans)
    return sorted(((store, merged(spans)) for store, spans in found.items()), key=lambda it: it[0].number)


def fewer(stores):
    """Of too many spans each store gets one, around all of its own. Then bytes between them are read too, also of buffers into which the client may draw."""
    if sum(len(spans) for _, spans in stores) <= LINES:
        return stores
    for store, _ in stores:
        store.pool.forget()
    return [(store, [(spans[0][0], spans[-1][1])]) for store, spans in stores][-LINES:]


def in_lines(stores):
    """The lines `K AT LEN FROM`: up to LEN bytes of the k-th store's file, from its byte FROM on, go to AT."""
    return "".join(f"{store.number} {begin} {end - begin} {begin + store.skip}\n" for store, spans in stores for begin, end in spans)
