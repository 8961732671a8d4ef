"""The clients' shared memory: their pools, what a surface shows of them, and their copies in the server's folder where the server can't read them."""
import contextlib
import os

from wlframe.bridge.links import Unfit, look_at, opened, remove
from wlframe.bridge.ranges import Damage

PIECE = 1 << 20  # bytes copied at a time
MOST = 1 << 28  # bytes that a client's pools may have: the server refuses more
CROWD = 64  # buffers of a pool of which is known which lie on each other


class Excess(Exception):
    """Why a client's share isn't enough for what it asks."""


class Share:
    """What a client may have of the bridge's descriptors and of the folder."""

    def __init__(self, files, space):
        self.files, self.space = files, space  # how many files, and how many bytes of copies
        self.had_files = self.had_space = 0

    def file(self):
        """One file more: a pool's memory, or a side file."""
        if self.had_files >= self.files:
            raise Excess(f"it has {self.files} pools and side files, which is the most of --files")
        self.had_files += 1

    def room(self, size):
        """So many bytes of copies more."""
        if self.had_space + size > self.space:
            raise Excess(f"copies of its memory would be {self.had_space + size} bytes, and may be {self.space} (--space)")
        self.had_space += size


@contextlib.contextmanager
def naming(path):
    """Names the file in faults of calls that have its descriptor alone."""
    try:
        yield
    except OSError as fault:
        raise OSError(fault.errno, fault.strerror, path) from None


def taken(descriptor, wants_own):
    """The memory of a descriptor, which is the bridge's from now on, and whether that is an opening of its own."""
    try:
        look_at(descriptor)
        own = opened(descriptor) if wants_own else None
    except Unfit:
        os.close(descriptor)
        raise
    if own is None:
        return descriptor, False
    os.close(descriptor)
    return own, True


def piece_of(memory, at, end):
    """The next bytes of a client's memory."""
    try:
        return os.pread(memory, min(PIECE, end - at), at)
    except OSError as fault:
        raise Unfit(f"its memory can't be read: {fault.strerror}") from None


class Store:
    """The side file of one of the server's stores, as a copy. It stands for a client's memory from its byte `begin` on."""

    skip = 0  # bytes of the file before those that it stands for

    def __init__(self, path, number, pool, begin=0):
        self.path, self.number, self.pool, self.begin = path, number, pool, begin
        self.share, self.size = pool.client.share, 0
        remove(path)  # what an earlier bridge left
        self.file = os.open(path, os.O_RDWR | os.O_CREAT | os.O_EXCL | os.O_CLOEXEC, 0o600)

    def take(self, memory, at, end, is_new=False):
        """Copies these bytes of the memory, as far as it has them; of new ones none that are 0, which the file has anyway."""
        with naming(self.path):
            while at < end:
                piece = piece_of(memory, at, end)
                if not piece:
                    return
                if not is_new or piece != bytes(len(piece)):
                    self.write(piece, at - self.begin)
                at += len(piece)

    def write(self, content, at):
        while content:
            count = os.pwrite(self.file, content, at)
            content, at = content[count:], at + count

    def grow(self, memory, end):
        """Holds the memory up to this byte, as far as it has it. What was there before stays."""
        with naming(self.path):
            had, has = self.begin + self.size, min(end, os.fstat(memory).st_size)
            if had < has <= self.begin + MOST:
                self.share.room(has - had)
                self.size = has - self.begin
                os.ftruncate(self.file, self.size)
                self.take(memory, had, has, is_new=True)

    def show(self):
        """It is there all the time."""

    def hide(self):
        """It is there all the time."""

    def close(self):
        self.share.had_space -= self.size
        os.close(self.file)
        remove(self.path)


class Pool:
    """Shared memory of a client. It is used as long as its wl_shm_pool or one of its buffers is there. A small one has a store at the server; of a large
    one the server doesn't know, and each of its buffers has a store of its own."""

    def __init__(self, memory, is_own, size, shm, client):
        """The pool has the memory, a descriptor, from now on; is_own tells that it is the bridge's own opening. The client makes its stores."""
        self.memory, self.is_own, self.size, self.shm, self.client = memory, is_own, size, shm, client
        self.uses, self.stores, self.store, self.resized = 1, set(), None, 0
        self.buffers = set()  # those that are there, and no more than CROWD

    def add_store(self, begin, end):
        """The next store that the server makes is for its bytes from one to another."""
        self.client.share.file()
        made = self.client.store(self, begin)
        self.stores.add(made)
        made.grow(self.memory, end)
        return made

    def drop_store(self, store):
        """The server has no such store any more."""
        self.stores.remove(store)
        store.close()
        self.client.share.had_files -= 1

    @contextlib.contextmanager
    def writable(self):
        """A descriptor by which the memory can be written, as the client asks for it."""
        descriptor = os.open(f"/proc/self/fd/{self.memory}", os.O_WRONLY | os.O_NONBLOCK | os.O_CLOEXEC) if self.is_own else self.memory
        try:
            yield descriptor
        finally:
            if self.is_own:
                os.close(descriptor)

    def forget(self):
        """The server may have read its buffers while the client drew into them."""
        for each in self.buffers:
            each.seen = None

    def resize(self, size):
        """The pool has this size now."""
        self.size = size
        self.resized += 1
        if self.store is not None:
            self.store.grow(self.memory, size)

    def let_go(self):
        """One use less: the server has given it back, and reads the file no more. Answers whether it was the last."""
        self.uses -= 1
        if self.uses == 0:
            self.close()
        return self.uses == 0

    def close(self):
        for each in list(self.stores):
            self.drop_store(each)
        os.close(self.memory)  # after the links to it
        self.client.share.had_files -= 1


class Buffer:
    """A rectangle of a pool, with a store of its own where the pool is a large one."""

    def __init__(self, pool, offset, width, height, stride):
        self.pool, self.offset, self.width, self.height, self.stride = pool, offset, width, height, stride
        self.store, self.is_there, self.seen = pool.store, True, None
        pool.uses += 1
        self.is_counted = len(pool.buffers) < CROWD
        self.near = {it for it in pool.buffers if it.offset < self.end and self.offset < it.end}  # those that share bytes with it
        if self.is_counted:
            pool.buffers.add(self)
            for each in self.near:
                each.near.add(self)

    @property
    def end(self):
        """The byte of the pool behind its last row."""
        return self.offset + self.stride * self.height

    @property
    def resized(self):
        return self.pool.resized

    def is_within(self):
        """Whether all of it lies in the pool."""
        is_some = self.width > 0 and self.height > 0 and self.stride >= 4 * self.width
        return is_some and 0 <= self.offset <= self.pool.size - self.stride * self.height

    def own(self):
        """Gives it a store of its own, for its bytes alone."""
        self.store = self.pool.add_store(self.offset, self.end)

    def bytes_of(self, begin, end):
        """Where these rows lie in the pool, without what is behind the last."""
        return self.offset + self.stride * begin, self.offset + self.stride * (end - 1) + 4 * self.width

    def show(self, damage, sight):
        """A commit shows it, for which the server has to read what the surface's damage tells. One that lies outside of its pool the server has refused."""
        if self.is_there and self.is_within():
            store, memory = self.store, self.pool.memory
            store.take(memory, *self.bytes_of(0, self.height))
            self.seen = self.seen if self.is_counted else None
            rows = damage.commit(self)
            sight.show(self, [(begin - store.begin, end - store.begin) for begin, end in (self.bytes_of(*it) for it in rows)])
            for each in self.near if self.is_counted else self.pool.buffers:
                each.seen = None

    def let_go(self):
        """The server has given it back. Answers whether its pool has no other use."""
        self.is_there = False
        self.pool.buffers.discard(self)
        for each in self.near:
            each.near.discard(self)
        if self.store is not self.pool.store:
            self.pool.drop_store(self.store)
        return self.pool.let_go()


class Surface:
    """What a surface shows, as far as the server has to read it."""

    def __init__(self):
        self.buffer = None  # what was attached last
        self.is_changed = False  # since the last commit something was attached or damaged
        self.damage = Damage()

    def attach(self, buffer, x, y):
        self.buffer, self.is_changed = buffer, True
        self.damage.move(x, y)

    def told(self, name, values):
        """One of its requests that say how its buffer is shown, or what of it changed."""
        match name:
            case "damage":
                self.is_changed = True
                self.damage.of_surface.add(*values)
            case "damage_buffer":
                self.is_changed = True
                self.damage.of_buffer.add(*values)
            case "set_buffer_scale":
                self.damage.scale_by(values[0])
            case "set_buffer_transform":
                self.damage.transform = values[0]
            case "offset":
                self.damage.move(*values)

    def commit(self, sight):
        """Shows the server the buffer that a commit shows, where it may differ from what was shown before."""
        if self.is_changed and self.buffer is not None:
            self.buffer.show(self.damage, sight)
        elif self.is_changed:
            self.damage.commit(None)
        self.is_changed = False
