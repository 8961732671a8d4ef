"""The keyboard of the display, which the bridge has itself: the server knows of none.

Its keys come by the socket of --keys. Its keymap and modifiers are libxkbcommon's. Clients are told as the standard says of wl_keyboard: the keymap as it is
made, leave and then enter where the focus moves, with the keys that are down and the modifiers, each key, and the modifiers where a key changed them.
"""
import array
import fcntl
import functools
import os
import time
import typing

from wlframe.xkb import Keymap, State

XKB_V1 = 1  # wl_keyboard.keymap_format
RATE, NEVER = 1, 1_000_000_000  # of keys that repeat: a second, and milliseconds until the first does. By the rate 0, which says so too, imv 4.3 divides
SEALS = fcntl.F_SEAL_SEAL | fcntl.F_SEAL_SHRINK | fcntl.F_SEAL_GROW | fcntl.F_SEAL_WRITE


class Handed:
    """A keymap's text as clients are given it: sealed memory that ends with a NUL, open for reading alone, so that it can be mapped as clients please."""

    def __init__(self, keymap: Keymap):
        content = keymap.text().encode() + b"\0"
        self.size = len(content)
        memory = os.memfd_create("keymap", os.MFD_CLOEXEC | os.MFD_ALLOW_SEALING)
        try:
            os.write(memory, content)
            fcntl.fcntl(memory, fcntl.F_ADD_SEALS, SEALS)
            self.descriptor = os.open(f"/proc/self/fd/{memory}", os.O_RDONLY | os.O_CLOEXEC)
        finally:
            os.close(memory)

    def __del__(self):
        if hasattr(self, "descriptor"):
            os.close(self.descriptor)


class Keyboard:
    """The keys that are down, what they mean, and who is told of them. Whatever changes here changes under the focus's lock."""

    def __init__(self, layout: str, focus: typing.Any):
        self.focus, self.lock, self.begun = focus, focus.lock, time.monotonic()
        self.down: list[int] = []
        self.keymap: Keymap | None = None  # the one that clients have: the keyboard's own, or that of a virtual keyboard
        self.client: Keyboards | None = None  # of the client that has the focus
        self.all: list[Keyboards] = []
        self.lay_out(layout)

    def lay_out(self, layout: str) -> None:
        """The keyboard has this layout from now on. Unknown where there is none."""
        with self.lock:
            self.base, self.letters = Keymap.of_layout(layout), ""
            self.own = self.base
            self.use(self.own)

    def add_letters(self, letters: str) -> None:
        """The keymap has spare keys for these letters, beside those that were added before; of too many the last."""
        with self.lock:
            self.letters = "".join(it for it in self.letters if it not in letters) + letters
            self.own = self.base.with_letters(self.letters)
            self.use(self.own)

    def use(self, keymap: Keymap) -> None:
        """The keyboard has this keymap. Where it is another than before all clients are told. The keys that are down stay so."""
        with self.lock:
            if keymap is self.keymap:
                return
            self.keymap, self.state, self.handed = keymap, State(keymap), Handed(keymap)
            for code in self.down:
                self.state.update(code, True)
            self.modifiers = self.state.modifiers()
            for each in self.all:
                each.post(each.tell_keymap, self.handed)
            if self.client is not None:
                self.client.post(self.client.tell_modifiers, self.modifiers)

    def now(self) -> int:
        """The time of an event, in milliseconds from the bridge's start."""
        return int((time.monotonic() - self.begun) * 1000) & 0xFFFFFFFF

    def key(self, code: int, is_down: bool) -> None:
        """A key goes down or up. One that is down already, or up, does nothing, as a button of the pointer."""
        with self.lock:
            self.use(self.own)
            if self.tell_key(code, is_down):
                self.state.update(code, is_down)
                self.tell_modifiers(self.state.modifiers())

    def press(self, keymap: Keymap, code: int, is_down: bool) -> None:
        """A key of a virtual keyboard with this keymap goes down or up. What modifiers are in force it tells by itself."""
        with self.lock:
            self.use(keymap)
            self.tell_key(code, is_down)

    def modify(self, keymap: Keymap, modifiers: tuple[int, int, int, int]) -> None:
        """A virtual keyboard with this keymap has these modifiers in force."""
        with self.lock:
            self.use(keymap)
            self.state.set(*modifiers)
            self.tell_modifiers(modifiers)

    def tell_key(self, code: int, is_down: bool) -> bool:
        """Who has the focus is told of a key, if it does something; answers whether it does."""
        if (code in self.down) == is_down:
            return False
        (self.down.append if is_down else self.down.remove)(code)
        if self.client is not None:
            self.client.post(self.client.tell_key, self.now(), code, int(is_down))
        return True

    def tell_modifiers(self, modifiers: tuple[int, int, int, int]) -> None:
        """These modifiers are in force: who has the focus is told where they are others than before."""
        with self.lock:
            if modifiers != self.modifiers:
                self.modifiers = modifiers
                if self.client is not None:
                    self.client.post(self.client.tell_modifiers, modifiers)

    def move(self, old: "tuple[Keyboards, int] | None", new: "tuple[Keyboards, int] | None") -> None:
        """The focus moves from a client's surface to another."""
        with self.lock:
            if old is not None:
                old[0].post(old[0].leave)
            self.client = new[0] if new is not None else None
            if new is not None:
                new[0].post(new[0].enter, new[1], *self.held())

    def held(self) -> tuple[bytes, tuple[int, int, int, int]]:
        """The keys that are down, as wl_keyboard.enter has them, and the modifiers."""
        return array.array("I", self.down).tobytes(), self.modifiers


class Keyboards:
    """The wl_keyboards of a client. Whatever tells them something is called in the client's thread, in the order in which it happened."""

    def __init__(self, client: typing.Any, keyboard: Keyboard):
        self.client, self.keyboard = client, keyboard
        self.entered: dict[int, int] = {}  # by wl_keyboard: the surface that it was told to have the focus, or 0
        with keyboard.lock:
            keyboard.all.append(self)

    def post(self, tell: typing.Callable, *what: typing.Any) -> None:
        """Has the client told of something by its thread."""
        self.client.posts.add(functools.partial(tell, *what))

    def objects(self) -> list[typing.Any]:
        """The client's wl_keyboards, in rising id."""
        return [self.client.objects.by_id[it] for it in sorted(self.entered)]

    def add(self, made: typing.Any) -> None:
        """The client made a wl_keyboard. It enters behind what was posted before, of which it is told nothing."""
        self.entered[made.number] = 0
        with self.keyboard.lock:
            self.tell_keymap(self.keyboard.handed, [made])
            at = self.keyboard.focus.at
            if at is not None and at[0].client is self.client:
                self.post(self.enter, at[1], *self.keyboard.held(), made)

    def answer(self, said: typing.Any, _made: typing.Any, _descriptors: list[int]) -> None:
        """Answers the only request to a wl_keyboard: it is released."""
        self.entered.pop(said.target, None)

    def gone(self) -> None:
        """The client has gone."""
        with self.keyboard.lock:
            if self in self.keyboard.all:
                self.keyboard.all.remove(self)

    def is_there(self, surface: int) -> bool:
        """Whether the client's surface is there still: of one that it has destroyed it is told nothing."""
        found = self.client.objects.by_id.get(surface)
        return found is not None and found.interface == "wl_surface" and not found.ended

    def tell_keymap(self, handed: Handed, objects: list[typing.Any] | None = None) -> None:
        """Hands out a keymap. Keys don't repeat by themselves."""
        for each in self.objects() if objects is None else objects:
            self.client.send_event(each, "keymap", XKB_V1, None, handed.size, descriptor=os.dup(handed.descriptor))
            if objects is not None and each.version >= 4:
                self.client.send_event(each, "repeat_info", RATE, NEVER)

    def enter(self, surface: int, keys: bytes, modifiers: tuple[int, int, int, int], made: typing.Any = None) -> None:
        """A surface gets the focus; or it has it, and one wl_keyboard is told so."""
        objects = [it for it in self.objects() if not self.entered[it.number] and made in (None, it)]
        if not objects or not self.is_there(surface):
            return
        serial = self.client.serials.own()
        for each in objects:
            self.entered[each.number] = surface
            self.client.send_event(each, "enter", serial, surface, keys)
        self.tell_modifiers(modifiers, objects)

    def leave(self) -> None:
        """The surface that has the focus loses it."""
        objects = [it for it in self.objects() if self.entered[it.number]]
        serial = self.client.serials.own() if any(self.is_there(self.entered[it.number]) for it in objects) else 0
        for each in objects:
            if self.is_there(self.entered[each.number]):
                self.client.send_event(each, "leave", serial, self.entered[each.number])
            self.entered[each.number] = 0

    def tell_key(self, moment: int, code: int, state: int) -> None:
        """A key goes down or up."""
        objects = [it for it in self.objects() if self.entered[it.number]]
        if objects:
            serial = self.client.serials.own()
            for each in objects:
                self.client.send_event(each, "key", serial, moment, code, state)

    def tell_modifiers(self, modifiers: tuple[int, int, int, int], objects: list[typing.Any] | None = None) -> None:
        """These modifiers are in force."""
        objects = [it for it in self.objects() if self.entered[it.number]] if objects is None else objects
        if objects:
            serial = self.client.serials.own()
            for each in objects:
                self.client.send_event(each, "modifiers", serial, *modifiers)
