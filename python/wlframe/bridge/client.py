"""One client of the bridge: what it asks is followed, rewritten and passed on, and so is what it is told."""
import collections
import contextlib
import itertools
import os

from wlframe.bridge import refusals
from wlframe.bridge.links import SYNCS, WAYS, Link, Unfit
from wlframe.bridge.memory import Buffer, Excess, Pool, Share, Store, Surface, taken
from wlframe.bridge.posts import Posts
from wlframe.bridge.rewrites import LARGE, SHOWN, event, request, rewritten
from wlframe.bridge.serials import Serials
from wlframe.bridge.titles import Titles
from wlframe.wayland.objects import Objects, Said, cut, is_broken
from wlframe.wayland.table import INTERFACES, errors_of
from wlframe.wayland.wire import DISPLAY, header, message, spell

OWN_IDS = 0xFE000000  # ids from here on are of pools and syncs that the bridge makes at the server: no client counts so far
OBJECTS = 8192  # that the server gives a client: with so many a sync is refused
OWN_OBJECTS = 2 * OBJECTS  # of a client, those of which the server doesn't know among them
HELD = 28  # descriptors that requests may yet take: as many as libwayland sends at once


class Ended(Exception):
    """Why the bridge itself ends a client. What waits for the client is sent first."""


class Client:
    """A client's objects and memory, and the bytes that wait to go to the server and to the client."""

    def __init__(self, number, settings, say):
        self.number, self.folder, self.adapts = number, settings.dir, not settings.plain
        self.output, self.is_fullscreen = settings.output, settings.fullscreen
        self.say, self.log_file, self.trace_file = say, settings.log, settings.trace
        self.objects, self.waiting = Objects(), refusals.Waiting()
        self.titles = Titles()
        self.offered = dict(settings.offered)  # by name: the globals of the server and of the bridge, with their versions
        self.stores, self.pools = 0, set()  # how many stores the server has made for it, and the pools that are live
        self.own_ids = set()  # those of pools that the bridge itself makes, each for a buffer of a large pool, and of its syncs
        self.share, self.sight = Share(settings.files, settings.space), WAYS[settings.way](settings.dir, number, settings.quick)
        self.descriptors = collections.deque()  # those that no request has taken yet
        self.stream, self.events_stream = bytearray(), bytearray()  # what isn't a whole message yet
        self.to_server, self.to_client = bytearray(), bytearray()
        self.to_client_descriptors = collections.deque()  # those that go with what waits for the client
        self.is_refused = False
        self.serials, self.posts = Serials(), Posts()
        self.seat = settings.seat.join(self) if settings.seat is not None else None
        self.offered |= self.seat.globals if self.seat is not None else {}

    def requests(self, data, descriptors):
        """Takes bytes and descriptors that the client sent."""
        self.stream += data
        self.descriptors.extend(descriptors)
        for each in cut(self.stream):
            self.request(each)
        if is_broken(self.stream):  # the server refuses it, and takes nothing after it
            target, opcode, size = header(self.stream)
            said = Said(target, opcode, bytes(self.stream), self.objects.by_id.get(target), why=f"whose size is {size}")
            self.waiting.add(refusals.Asked(said, self))
            self.to_server += self.stream
            self.stream.clear()
        if len(self.descriptors) > HELD:
            raise Ended("was ended by the bridge: it sent more descriptors than its requests take")
        self.look()

    def look(self):
        """What its commits show can be seen by the server from now on; a sync tells when it was."""
        with self.refusing():
            self.sight.before_bytes()
        if self.sight.wants_sync() and len(self.objects.by_id) < OBJECTS - SYNCS:
            self.sight.sync()
            made = self.own("wl_callback", self.objects.by_id[DISPLAY], "sync")
            if self.trace_file:
                self.trace(f"   besides: wl_display#{DISPLAY}.sync(new {made})")

    def own(self, interface, target, name, *values):
        """Makes an object of the bridge's own at the server, of which the client isn't told, by a request whose first argument is its id."""
        number = next(it for it in itertools.count(OWN_IDS) if it not in self.objects.by_id)
        self.own_ids.add(number)
        made = self.objects.add(number, interface, 1)
        self.waiting.own(number)
        self.to_server += request(target, name, number, *values)
        return made

    def request(self, data):
        said = self.objects.read(data)
        self.tell("->", said)
        made = said.made() if said.values is not None else None
        old = self.objects.by_id.get(made[2]) if made else None
        if old is not None and 0 in (old.served, said.object.served):
            self.refuse("invalid_object", f"id {made[2]} is in use")
        descriptors = self.take_descriptors(said) if said.values is not None else []
        asked = refusals.Asked(said, self, old is not None and not old.ended)
        if asked.lacks_object:  # the server refuses it, and takes nothing after it
            close_all(descriptors)
            passed = [data]
        elif said.object.served == 0:
            try:
                self.answer(asked, descriptors)
            finally:
                close_all(descriptors)
            return
        else:
            with self.refusing(said.object if said.name == "wl_shm.create_pool" else None):
                made = self.objects.asked(said)
                self.follow(said, made, descriptors)
                self.titles.follow(said, made)
            passed = rewritten(self, "request", said) if self.adapts else [data]
        self.tell_rewritten(said, passed)
        for each in passed:
            self.to_server += each
        if passed:
            self.waiting.add(asked)

    def take_descriptors(self, said):
        """The descriptors that came with a request."""
        count = sum(it.kind == "fd" for it in said.message.arguments)
        if count > len(self.descriptors):
            self.refuse("invalid_method", f"{said.name} without its descriptor")
        return [self.descriptors.popleft() for _ in range(count)]

    def can_bind(self, name, bound):
        """Whether a bind is of what the client is shown."""
        interface, version, _ = bound
        offered, latest = self.offered.get(name, (None, 0))
        return interface == offered and 1 <= version <= (max(latest, SHOWN.get(interface, 0)) if self.adapts else latest)

    def answer(self, asked, descriptors):
        """Answers a request to an object of the bridge's own, of which the server doesn't know. Descriptors that are taken aren't among those any more."""
        said = asked.said
        if said.values is None:
            self.refuse("invalid_method", self.objects.in_words(said))
        if said.message.since > said.object.version:
            self.refuse("invalid_method", f"{self.objects.in_words(said)} at version {said.object.version}, which is there since version {said.message.since}")
        if asked.names_badly(self.objects):
            self.refuse("invalid_object", self.objects.in_words(said))
        sent = len(self.to_server)
        made, pool = self.objects.asked(said), said.object.state
        if len(self.objects.by_id) > OWN_OBJECTS:
            self.refuse("no_memory", f"it has more than {OWN_OBJECTS} objects")
        if said.name == "wl_shm_pool.create_buffer":
            self.create_own_buffer(said, made, pool)
        elif said.name == "wl_shm_pool.resize":
            pool.resize(said.values[0])
        elif not isinstance(pool, Pool):
            self.seat.answer(said, made, descriptors)
        if said.object.ended:
            if isinstance(pool, Pool) and pool.let_go():
                self.pools.discard(pool)
            del self.objects.by_id[said.target]
            if said.target <= refusals.MAX_CLIENT_ID:
                self.to_client += display_event("delete_id", said.target)
        self.tell_rewritten(said, cut(self.to_server[sent:]))

    def create_own_buffer(self, said, made, pool):
        """Makes a buffer of a large pool, by a pool at the server that has its bytes alone."""
        buffer = made.state = Buffer(pool, *said.values[1:5])
        made.served = 1
        if not buffer.is_within():
            self.refuse("invalid_stride", self.objects.in_words(said), said.object)
        with self.refusing():
            buffer.own()
        own = self.own("wl_shm_pool", self.objects.by_id[pool.shm], "create_pool", None, buffer.stride * buffer.height)
        self.to_server += request(own, "create_buffer", made.number, 0, buffer.width, buffer.height, buffer.stride, said.values[5])
        self.to_server += request(own, "destroy")

    def store(self, pool, begin):
        """The file of the next store that the server makes for the client, which is for a pool's bytes from begin on."""
        self.stores += 1
        path = os.path.join(self.folder, f"{self.number}.{self.stores}")
        made = (Link if self.sight.can_link(pool, begin) else Store)(path, self.stores, pool, begin)
        self.sight.made(made)
        return made

    @contextlib.contextmanager
    def refusing(self, shm=None):
        """Ends the client where its memory can't be taken, of this wl_shm, or the server can't be given it."""
        try:
            yield
        except Unfit as why:
            self.refuse("invalid_fd" if shm else "no_memory", str(why), shm)
        except Excess as why:
            self.refuse("no_memory", str(why))
        except OSError as fault:
            self.refuse("no_memory", f"{fault.filename}: {fault.strerror}; make room there, or give server and bridge another folder")

    def refuse(self, error, text, target=None):
        """Ends the client with an error of the bridge's own, of this object, or of the display."""
        target = target or self.objects.by_id[DISPLAY]
        self.to_client += display_event("error", target.number, errors_of(target.interface).values[error], text)
        raise Ended(f"was ended by the bridge: {text} ({error})")

    def follow(self, said, made, descriptors):
        """Keeps what copies need: which pool, buffer and surface is which."""
        state = said.object.state if said.object is not None else None
        match said.name:
            case "wl_shm.create_pool":
                self.create_pool(said, made, descriptors[0])
            case "wl_shm_pool.create_buffer" if isinstance(state, Pool):
                made.state = Buffer(state, *said.values[1:5])
            case "wl_shm_pool.resize" if isinstance(state, Pool):
                state.resize(said.values[0])
            case "wl_compositor.create_surface":
                made.state = Surface()
            case "xdg_wm_base.get_xdg_surface":
                made.state = said.values[1]
            case "wl_surface.attach" if isinstance(state, Surface):
                buffer = self.objects.by_id.get(said.values[0])
                state.attach(buffer.state if buffer is not None and isinstance(buffer.state, Buffer) else None, *said.values[1:])
            case "wl_surface.commit" if isinstance(state, Surface):
                state.commit(self.sight)
            case _ if isinstance(state, Surface):
                state.told(said.message.name, said.values)
        if self.seat is not None:
            self.seat.follow(said, made)

    def create_pool(self, said, made, descriptor):
        """Takes the memory of a pool. One that is large stays with the bridge."""
        size = said.values[2]
        memory, is_own = taken(descriptor, self.sight.wants_own)
        try:
            self.share.file()
        except Excess:
            os.close(memory)
            raise
        pool = made.state = Pool(memory, is_own, size, said.target, self)
        self.pools.add(pool)
        if self.adapts and size > LARGE:
            made.served = 0
        else:
            pool.store = pool.add_store(0, size)

    def events(self, data):
        """Takes bytes that the server sent."""
        self.events_stream += data
        for each in cut(self.events_stream):
            said = self.objects.read(each, "events")
            self.tell("<-", said)
            if said.name == "wl_display.error":
                self.tell_refused(said.values)
            passed = rewritten(self, "event", said) if self.adapts else [each]
            self.tell_rewritten(said, passed)
            for it in passed:
                self.to_client += it
            with self.refusing():
                self.was_read(said)
            self.given_back(said)
            if self.seat is not None:
                self.seat.told(said)

    def send_event(self, target, name, *values, descriptor=None):
        """Tells the client something that the server didn't, with a descriptor that is closed once it is sent. For the client's thread alone."""
        data = event(target, name, *values)
        self.to_client += data
        if descriptor is not None:
            self.to_client_descriptors.append(descriptor)
        if self.trace_file:
            self.trace(f"<- {self.objects.in_words(self.objects.read(data, 'events'))}, by the bridge")

    def was_read(self, said):
        """Where an event tells that the server has read what commits showed, that isn't shown any more, before the client hears of it."""
        if said.name == "wl_callback.done" and said.target in self.own_ids:
            self.sight.seen()
            self.look()
        elif said.name == "wl_buffer.release" and isinstance(said.object.state, Buffer):
            self.sight.released(said.object.state)

    def given_back(self, said):
        """Where an event gives an id back, the server has served all up to the request that ended its object, and uses that no more."""
        gone = self.objects.told(said)
        if said.name == "wl_display.delete_id":
            self.waiting.served(said.values[0])
        state = gone.state if gone is not None else None
        if isinstance(state, (Pool, Buffer)) and state.let_go():
            self.pools.discard(state.pool if isinstance(state, Buffer) else state)

    def tell_refused(self, values):
        said, sure = self.waiting.refused(self.objects, values[0], values[1])
        self.tell_end(refusals.in_words(self.objects, said, sure, values))

    def tell_end(self, why):
        """Tells why the client ended, if it didn't leave by itself."""
        self.is_refused = True
        self.say(why)
        self.log(f"refused: {why}")

    def log(self, text):
        if self.log_file:
            self.log_file.write(f"{self.number} {text}\n")

    def trace(self, text):
        self.trace_file.write(f"client {self.number} {text}\n")

    def tell(self, arrow, said):
        if self.trace_file:
            self.trace(f"{arrow} {self.objects.in_words(said)}")
        if said.name == "wl_registry.bind":
            interface, version, _ = said.values[1]
            self.log(f"binds {interface} {version}")

    def tell_rewritten(self, said, passed):
        """Tells what went on in place of what was said, where it was something else."""
        if self.trace_file and passed != [said.data]:
            kind = "events" if said.object is not None and said.message in INTERFACES[said.object.interface].events else "requests"
            words = "; ".join(self.objects.in_words(self.objects.read(each, kind)) for each in passed)
            self.trace(f"   passed on as: {words or 'nothing'}")

    def leave(self):
        """It is there no more for the others, and descriptors that no request has taken are closed."""
        if self.seat is not None:
            self.seat.gone()
        self.posts.close()
        close_all(self.descriptors)

    def close(self):
        """Lets all its memory go."""
        self.leave()
        close_all(self.to_client_descriptors)
        for pool in self.pools:
            pool.close()
        self.pools.clear()
        self.sight.close()


def close_all(descriptors):
    """Closes them, and they are no more."""
    while descriptors:
        os.close(descriptors.pop())


def display_event(name, *values):
    """An event of wl_display."""
    said = INTERFACES["wl_display"].event_named(name)
    return message(DISPLAY, said.opcode, spell(said, values))
