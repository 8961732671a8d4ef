"""Types into the clients of a display, by the socket of the bridge's --keys.

    with Keyboard("keys") as keyboard:
        keyboard.type("Grüße, née")
        keyboard.press("ctrl+a")
        keyboard.sync()               # all was sent to the client

Which keys make a text is found by the keymap that clients have (wlframe.xkb). A letter that no key makes is made of a dead key and a letter where its
decomposition says so; for any other that the layout lacks, the keymap gets a key. Keys have evdev's codes, as linux/input-event-codes.h has them.
"""
import functools
import itertools
import json
import socket
import typing
import unicodedata

from wlframe.xkb import Keymap, State, character_of, keysym

PIECE = 65536
KEYPAD = range(0xFF80, 0xFFBE)  # keysyms, which clients may tell from those of the same characters
LETTERS = 32  # characters that the keymap gets keys for at once
LAST_COMMON = 247  # beyond are keys of remote controls and the like
# By a combining character: the dead key for it.
DEAD = {
    "\u0300": "dead_grave",
    "\u0301": "dead_acute",
    "\u0302": "dead_circumflex",
    "\u0303": "dead_tilde",
    "\u0304": "dead_macron",
    "\u0306": "dead_breve",
    "\u0307": "dead_abovedot",
    "\u0308": "dead_diaeresis",
    "\u030a": "dead_abovering",
    "\u030b": "dead_doubleacute",
    "\u030c": "dead_caron",
    "\u0327": "dead_cedilla",
    "\u0328": "dead_ogonek",
}
# What keys are called in chords, beside the names of their keysyms.
MODIFIERS = {
    "ctrl": "Control_L",
    "control": "Control_L",
    "shift": "Shift_L",
    "alt": "Alt_L",
    "altgr": "ISO_Level3_Shift",
    "super": "Super_L",
    "meta": "Super_L",
    "win": "Super_L",
}
NAMES = {
    "enter": "Return",
    "esc": "Escape",
    "del": "Delete",
    "ins": "Insert",
    "pageup": "Prior",
    "pagedown": "Next",
    "plus": "plus",
}
CONTROLS = {"\n": "Return", "\r": "Return", "\t": "Tab", "\b": "BackSpace", "\x1b": "Escape", "\x7f": "Delete"}


class NoKey(ValueError):
    """No key of the keymap does this."""


class Failed(RuntimeError):
    """The bridge refuses what it was asked, or has gone."""


class Press(typing.NamedTuple):
    """A key, and those that are down meanwhile."""

    code: int
    held: tuple[int, ...] = ()

    @property
    def effort(self) -> tuple[bool, int]:
        """What is lesser for keys that keyboards have, and then for fewer of them."""
        return self.code > LAST_COMMON, len(self.held)

    def events(self) -> list[tuple[int, bool]]:
        """The codes that go down (True) and up, in their order."""
        downs = [*self.held, self.code]
        return [(it, True) for it in downs] + [(it, False) for it in reversed(downs)]


class Layout:
    """The presses that a keymap has for keysyms and for characters, each with the fewest other keys."""

    def __init__(self, keymap: Keymap):
        self.keymap = keymap
        self.presses: dict[int | str, Press] = {}
        holders = self.holders()
        for code in keymap.codes():
            for level in range(keymap.levels(code)):
                found = keymap.keysym_at(code, level)
                ways = [self.holding(mask, holders) for mask in keymap.masks_for(code, level)] if found else []
                for held in (it for it in ways if it is not None):
                    self.note(found, Press(code, held))
                    if found not in KEYPAD:
                        self.note(character_of(found), Press(code, held))

    def note(self, made: int | str, press: Press) -> None:
        """A press makes this keysym or character."""
        if made not in self.presses or press.effort < self.presses[made].effort:
            self.presses[made] = press

    def holders(self) -> dict[int, int]:
        """By the masks of modifiers: the first key that has them in force as long as it is down, and nothing after."""
        found: dict[int, int] = {}
        state = State(self.keymap)
        for code in self.keymap.codes():
            state.update(code, True)
            depressed, latched, locked, group = state.modifiers()
            state.update(code, False)
            if state.modifiers() != (0, 0, 0, 0):
                state = State(self.keymap)  # it locks or latches
            elif depressed and not (latched or locked or group):
                found.setdefault(depressed, code)
        return found

    @staticmethod
    def holding(mask: int, holders: dict[int, int]) -> tuple[int, ...] | None:
        """The fewest keys that have just these modifiers in force, or None."""
        for count in range(4):
            for some in itertools.combinations(holders, count):
                if functools.reduce(int.__or__, some, 0) == mask:
                    return tuple(holders[it] for it in some)
        return None

    def press(self, name: str) -> Press | None:
        """How the keysym of this name is pressed, if it can be."""
        return self.presses.get(keysym(name))

    def typed(self, character: str) -> list[Press] | None:
        """How a character is typed, by a key or by dead keys and a letter, if it can be."""
        if character in CONTROLS:
            found = self.press(CONTROLS[character])
            return [found] if found else None
        found = self.presses.get(character)
        if found:
            return [found]
        parts = unicodedata.normalize("NFD", character)
        if len(parts) < 2 or not all(it in DEAD for it in parts[1:]):
            return None
        # The mark that stands last is typed first.
        pressed = [self.press(DEAD[it]) for it in reversed(parts[1:])] + [self.presses.get(parts[0])]
        return typing.cast(list[Press], pressed) if all(pressed) else None


@functools.lru_cache(8)
def layout_of(keymap: str) -> Layout:
    """The presses that the keymap of a text has."""
    return Layout(Keymap.of_text(keymap))


def keys_for(text: str, keymap: str) -> list[Press]:
    """The presses that type a text, by a keymap's text. A line's end is Return, a tab Tab. NoKey where a character can't be typed."""
    layout = layout_of(keymap)
    found: list[Press] = []
    for character in unicodedata.normalize("NFC", text):
        presses = layout.typed(character)
        if presses is None:
            raise NoKey(f"no key of this layout makes {character!r} (U+{ord(character):04X})")
        found += presses
    return found


def lacking(text: str, keymap: str) -> str:
    """The characters of a text that can't be typed, each once."""
    layout = layout_of(keymap)
    return "".join(it for it in dict.fromkeys(unicodedata.normalize("NFC", text)) if layout.typed(it) is None)


def pieces(text: str, keymap: str) -> typing.Iterator[str]:
    """A text in pieces, of which no one has too many characters that can't be typed."""
    missing, begin, met = set(lacking(text, keymap)), 0, set()
    for at, character in enumerate(text):
        if character in missing and character not in met and len(met) == LETTERS:
            yield text[begin:at]
            begin, met = at, set()
        met |= {character} & missing
    yield text[begin:]


def chord(words: str) -> tuple[list[str], str]:
    """The keys of a chord, as 'ctrl+shift+a' or 'ctrl++': the names of the keysyms that are held, and of the one that is pressed, or a character."""
    front = words.removesuffix("++") if words.endswith("++") else None if words != "+" else ""
    *held, last = words.split("+") if front is None else [*filter(None, front.split("+")), "+"]
    unknown = [it for it in held if it.lower() not in MODIFIERS]
    if unknown or not last:
        raise NoKey(f"{words!r} is no chord: write one as ctrl+a, with {', '.join(MODIFIERS)}")
    last = last if len(last) == 1 else MODIFIERS.get(last.lower()) or NAMES.get(last.lower(), last)
    return [MODIFIERS[it.lower()] for it in held], last


def chord_for(words: str, keymap: str) -> Press:
    """How a chord is pressed by a keymap's text. NoKey where the keymap lacks one of its keys."""
    layout = layout_of(keymap)
    names, last = chord(words)
    held = [layout.press(it) for it in names]
    pressed = layout.presses.get(last) if len(last) == 1 else layout.press(last)
    if pressed is None or None in held:
        raise NoKey(f"this layout has no key for {words!r}")
    codes = [it.code for it in held if it is not None]
    return Press(pressed.code, tuple(dict.fromkeys([*codes, *pressed.held])))


class Keyboard:
    """A connection to the bridge's --keys. What it does is sent to the client that has the focus at that moment."""

    def __init__(self, path: str, timeout: float = 60.0):
        self.socket = socket.socket(socket.AF_UNIX)
        self.socket.settimeout(timeout)
        self.rest, self.count, self.known = b"", 0, ""
        try:
            self.socket.connect(str(path))
        except OSError:
            self.socket.close()
            raise

    def __enter__(self) -> "Keyboard":
        return self

    def __exit__(self, *_: object) -> None:
        self.close()

    def close(self) -> None:
        """Ends the connection. Keys that are down go up."""
        self.socket.close()

    def send(self, *lines: str) -> None:
        """Sends lines, as docs/BRIDGE.md has them."""
        try:
            self.socket.sendall("".join(f"{it}\n" for it in lines).encode())
        except ConnectionError:
            self.answer()  # which may tell why
            raise Failed("the bridge ended the connection") from None

    def answer(self) -> str:
        """The next line that the bridge answers. Failed where it tells that a line was bad, or has gone."""
        while b"\n" not in self.rest:
            try:
                piece = self.socket.recv(PIECE)
            except ConnectionError:
                piece = b""
            except TimeoutError:
                raise Failed("the bridge doesn't answer") from None
            if not piece:
                raise Failed("the bridge has gone")
            self.rest += piece
        line, _, self.rest = self.rest.partition(b"\n")
        if line.startswith(b"bad "):
            raise Failed(line[4:].decode())
        return line.decode()

    def ask(self, line: str) -> str:
        """Sends a line, and answers what is told of it without its first word."""
        self.send(line)
        return self.answer().partition(" ")[2]

    @property
    def keymap(self) -> str:
        """The text of the keymap that clients have."""
        self.known = self.known or json.loads(self.ask("keymap"))
        return self.known

    def layout(self, name: str) -> None:
        """Gives the keyboard another layout, as 'de' or 'us(intl)'."""
        self.ask(f"layout {name}")
        self.known = ""

    def key(self, code: int, down: bool) -> None:
        """A key goes down or up."""
        self.send(f"key {code} {int(down)}")

    def put(self, presses: list[Press]) -> None:
        self.send(*(f"key {code} {int(is_down)}" for press in presses for code, is_down in press.events()))

    def type(self, text: str) -> None:
        """Types a text. Where the layout lacks a character of it, the keymap gets a key for it first."""
        for piece in pieces(unicodedata.normalize("NFC", text), self.keymap):
            if missing := lacking(piece, self.keymap):
                self.ask(f"letters {json.dumps(missing)}")
                self.known = ""
            self.put(keys_for(piece, self.keymap))

    def press(self, words: str) -> None:
        """Presses a chord, as 'ctrl+a', 'Tab' or 'shift+F10'. NoKey where the layout lacks it."""
        self.put([chord_for(words, self.keymap)])

    def wheel(self, down: int, right: int = 0) -> None:
        """Turns the wheel by so many clicks, below 0 up and left. Who the pointer is over is told."""
        self.send(f"wheel {down} {right}")

    def sync(self) -> None:
        """Waits until all clients were sent what came before."""
        self.count += 1
        self.ask(f"sync {self.count}")

    def focus(self) -> tuple[int, int] | None:
        """The client and its surface that have the focus, by their numbers, or None."""
        words = self.ask("focus").split()
        return (int(words[0]), int(words[1])) if len(words) == 2 else None

    def resize(self, client: int, surface: int, width: int, height: int) -> None:
        """Asks a toplevel to have this size, in points; 0 by 0 leaves it to the client again."""
        self.ask(f"size {client} {surface} {width} {height}")

    @property
    def clipboard(self) -> str | None:
        """The text that was copied last, by a client or by copy; None where there is none."""
        return json.loads(self.ask("paste"))

    def copy(self, text: str) -> None:
        """Copies a text: clients paste it."""
        self.ask(f"copy {json.dumps(text)}")
