"""Keymaps, by libxkbcommon (its stable calls, without a header): compiled from a layout's name or from text, searched, and followed as keys go down and up.

    keymap = Keymap.of_layout("us(intl)")
    state = State(keymap)
    state.update(42, True)       # evdev's code of a key: left shift
    state.modifiers()            # depressed, latched, locked, group

Keys have evdev's codes here, as linux/input-event-codes.h has them; xkb's are greater by 8.
"""
import ctypes
import functools
import re
import typing

LIBRARY = "libxkbcommon.so.0"
OFFSET = 8  # from evdev's codes to xkb's
TEXT_V1 = 1  # the format of a keymap's text
QUIET = 10  # the level of log lines from which on libxkbcommon writes some by itself
CASE_INSENSITIVE = 1  # a flag of the search for a keysym's name
DEPRESSED, LATCHED, LOCKED, EFFECTIVE = 1, 2, 4, 128  # what is asked of a state: which modifiers or layout
# Codes of keys that can do without what they mean: browsers take letters from them, and none from keys that they don't know. F19, F24 and the others from F13 on, those
# of Sun's keyboards, of Korean and Japanese ones, and those between shift and slash and beside backspace.
KNOWN = (189, 194, 193, 192, 191, 190, *range(188, 182, -1), 129, *range(131, 139), 122, 123, *range(90, 95), 89, 124)
END = "};"  # of a part of a keymap's text, and of all of it
MASKS = 16  # ways to reach a level of a key that are looked at


class Missing(Exception):
    """libxkbcommon isn't installed."""


class Unknown(Exception):
    """There is no such layout, or the text is no keymap."""


class Names(ctypes.Structure):
    """struct xkb_rule_names"""

    _fields_ = [(it, ctypes.c_char_p) for it in ("rules", "model", "layout", "variant", "options")]


POINTER, WORD, INT, TEXT = ctypes.c_void_p, ctypes.c_uint32, ctypes.c_int, ctypes.c_char_p
# By the name of a call without xkb_: what it answers, and what it takes.
CALLS = {
    "context_new": (POINTER, INT),
    "context_set_log_level": (None, POINTER, INT),
    "keymap_new_from_names": (POINTER, POINTER, ctypes.POINTER(Names), INT),
    "keymap_new_from_string": (POINTER, POINTER, TEXT, INT, INT),
    "keymap_get_as_string": (POINTER, POINTER, INT),
    "keymap_unref": (None, POINTER),
    "keymap_min_keycode": (WORD, POINTER),
    "keymap_max_keycode": (WORD, POINTER),
    "keymap_num_levels_for_key": (WORD, POINTER, WORD, WORD),
    "keymap_key_get_syms_by_level": (INT, POINTER, WORD, WORD, WORD, ctypes.POINTER(ctypes.POINTER(WORD))),
    "keymap_key_get_mods_for_level": (ctypes.c_size_t, POINTER, WORD, WORD, WORD, ctypes.POINTER(WORD), ctypes.c_size_t),
    "state_new": (POINTER, POINTER),
    "state_unref": (None, POINTER),
    "state_update_key": (INT, POINTER, WORD, INT),
    "state_update_mask": (INT, POINTER, WORD, WORD, WORD, WORD, WORD, WORD),
    "state_serialize_mods": (WORD, POINTER, INT),
    "state_serialize_layout": (WORD, POINTER, INT),
    "keysym_from_name": (WORD, TEXT, INT),
    "keysym_to_utf32": (WORD, WORD),
}


@functools.cache
def library() -> typing.Any:
    """The library with its calls declared, or Missing."""
    try:
        found = ctypes.CDLL(LIBRARY)
        for name, (answer, *takes) in CALLS.items():
            call = getattr(found, f"xkb_{name}")
            call.restype, call.argtypes = answer, takes
    except (OSError, AttributeError) as fault:
        raise Missing(f"libxkbcommon isn't there, or is older than its version 1.0 ({fault}): Debian has it in the package libxkbcommon0") from None
    return found


@functools.cache
def context() -> int:
    """A context that writes no lines of its own."""
    made = library().xkb_context_new(0)
    if not made:
        raise Missing("libxkbcommon finds no folder of keymaps: Debian has them in the package xkb-data")
    library().xkb_context_set_log_level(made, QUIET)
    return made


def keysym(name: str) -> int:
    """The keysym of this name, as 'Return'; of several that differ in their letters' case alone the one that is spelled so. 0 where there is none."""
    return library().xkb_keysym_from_name(name.encode(), 0) or library().xkb_keysym_from_name(name.encode(), CASE_INSENSITIVE)


def character_of(found: int) -> str:
    """The character that a keysym stands for, or nothing."""
    number = library().xkb_keysym_to_utf32(found)
    return chr(number) if number else ""


class Keymap:
    """What the keys of a keyboard mean. Only its first layout is searched."""

    def __init__(self, made: int | None, what: str):
        if not made:
            raise Unknown(what)
        self.made = made

    def __del__(self):
        if getattr(self, "made", None):
            library().xkb_keymap_unref(self.made)

    @classmethod
    def of_layout(cls, layout: str) -> "Keymap":
        """The keymap of a layout as xkb calls it: 'us', 'us(intl)', or several of them parted by commas. Unknown where there is none."""
        parts = [re.fullmatch(r"(\w[\w-]*)(?:\(([\w-]+)\))?", it.strip(), re.ASCII) for it in layout.split(",")]
        if not all(parts):
            raise Unknown(f"{layout} is no layout: write one as us, de(neo) or us,ru")
        names = Names(b"evdev", b"pc105", ",".join(it[1] for it in parts).encode(), ",".join(it[2] or "" for it in parts).encode(), None)
        made = library().xkb_keymap_new_from_names(context(), ctypes.byref(names), 0)
        return cls(made, f"there is no layout {layout} (or no folder of layouts: Debian has them in the package xkb-data)")

    @classmethod
    def of_text(cls, text: str) -> "Keymap":
        """The keymap of a text, as a compositor hands one out. Unknown where it is none."""
        return cls(library().xkb_keymap_new_from_string(context(), text.encode(), TEXT_V1, 0), "the text is no keymap")

    def text(self) -> str:
        """Its text, as it is handed to clients."""
        found = library().xkb_keymap_get_as_string(self.made, TEXT_V1)
        try:
            return ctypes.string_at(found).decode()
        finally:
            release(found)

    def spare(self) -> list[str]:
        """The names of the keys that can be given a letter, the best first: of those that browsers know the ones that make no character, and then those that mean nothing."""
        named = {int(code): name for name, code in re.findall(r"(<[^<>\s]+>)\s*=\s*(\d+);", self.text().partition("xkb_types")[0])}
        there = [it for it in self.codes() if it + OFFSET in named]
        known = [it for it in KNOWN if it in there and not any(character_of(self.keysym_at(it, level)) for level in range(self.levels(it)))]
        return [named[it + OFFSET] for it in dict.fromkeys(known + [it for it in reversed(there) if not self.levels(it)])]

    def with_letters(self, letters: str) -> "Keymap":
        """This keymap, with spare keys that make these letters: the last of them, where they are more than there are such keys."""
        keys = "".join(f"\tkey {name} {{ [ U{ord(it):04X} ] }};\n" for name, it in zip(self.spare(), reversed(letters)))
        text = self.text()
        end = text.rindex(END, 0, text.rindex(END))  # of the symbols, which come last
        return Keymap.of_text(text[:end] + keys + text[end:])

    def codes(self) -> range:
        """The codes of its keys."""
        return range(max(library().xkb_keymap_min_keycode(self.made) - OFFSET, 0), library().xkb_keymap_max_keycode(self.made) - OFFSET + 1)

    def levels(self, code: int) -> int:
        """How many levels a key has."""
        return library().xkb_keymap_num_levels_for_key(self.made, code + OFFSET, 0)

    def keysym_at(self, code: int, level: int) -> int:
        """The keysym of a key at a level; 0 where it has none or several."""
        found = ctypes.POINTER(WORD)()
        count = library().xkb_keymap_key_get_syms_by_level(self.made, code + OFFSET, 0, level, ctypes.byref(found))
        return found[0] if count == 1 else 0

    def masks_for(self, code: int, level: int) -> list[int]:
        """The sets of modifiers, as masks, that bring a key to a level."""
        masks = (WORD * MASKS)()
        count = library().xkb_keymap_key_get_mods_for_level(self.made, code + OFFSET, 0, level, masks, MASKS)
        return list(masks[:count])


class State:
    """Which modifiers and which layout are in force, of a keyboard with a keymap whose keys are all up at first."""

    def __init__(self, keymap: Keymap):
        self.keymap = keymap  # kept as long as the state
        self.made = library().xkb_state_new(keymap.made)

    def __del__(self):
        if getattr(self, "made", None):
            library().xkb_state_unref(self.made)

    def update(self, code: int, is_down: bool) -> None:
        """A key goes down or up."""
        library().xkb_state_update_key(self.made, code + OFFSET, int(is_down))

    def set(self, depressed: int, latched: int, locked: int, group: int) -> None:
        """These are in force, whatever keys are down."""
        library().xkb_state_update_mask(self.made, depressed, latched, locked, 0, 0, group)

    def modifiers(self) -> tuple[int, int, int, int]:
        """The masks of the modifiers that are depressed, latched and locked, and the number of the layout: as wl_keyboard.modifiers has them."""
        ask = library().xkb_state_serialize_mods
        depressed, latched, locked = (ask(self.made, it) for it in (DEPRESSED, LATCHED, LOCKED))
        return depressed, latched, locked, library().xkb_state_serialize_layout(self.made, EFFECTIVE)


def release(memory: int) -> None:
    """Gives back what the C library's malloc gave."""
    free = ctypes.CDLL(None).free
    free.argtypes = [POINTER]
    free(memory)
