"""Messages as bytes and in words, after python/wlframe/wayland/table.py.

    body = spell(INTERFACES["wl_shm"].named("create_pool"), [9, None, 12800])
    sent = message(4, 0, body)
    read(INTERFACES["wl_shm"].named("create_pool"), body)   # [9, None, 12800]

A value is an int for an int, a uint, an object (0 is null) and a new id, a number for a fixed, a str for a string (None is null), bytes for an
array, and None for a descriptor, which is spelled by no bytes. The new id of wl_registry.bind is an interface's name, a version and an id.
"""
import struct

from wlframe.wayland.table import enum_of, error_named

HEADER = 8  # bytes: the object's id, then the size in the upper and the opcode in the lower half of a word
DISPLAY = 1
WORDS = {"int": "<i", "uint": "<I", "object": "<I", "new_id": "<I"}


class Misspelled(Exception):
    """Why a body isn't the arguments of its message."""


def message(target, opcode, body=b""):
    """A message with its header."""
    return struct.pack("<IHH", target, opcode, HEADER + len(body)) + body


def header(data, at=0):
    """Of the first bytes of a message, which begins there: its object, its opcode and its size."""
    return struct.unpack_from("<IHH", data, at)


def block(content):
    """Bytes as an array has them: their number, themselves, and what fills up the last word."""
    return struct.pack("<I", len(content)) + content + b"\0" * (-len(content) % 4)


def spelled_string(text):
    """A string: the number of its bytes with the final NUL, these, and what fills up the last word."""
    return struct.pack("<I", 0) if text is None else block(text.encode() + b"\0")


def spelled(argument, value):
    """The bytes of one argument."""
    match argument.kind:
        case "fd":
            return b""
        case "string":
            return spelled_string(value)
        case "array":
            return block(value)
        case "fixed":
            return struct.pack("<i", round(value * 256))
        case "new_id" if argument.interface is None:
            interface, version, made = value
            return spelled_string(interface) + struct.pack("<II", version, made)
    return struct.pack(WORDS[argument.kind], value)


def spell(said, values):
    """The bytes of a message's arguments."""
    return b"".join(spelled(argument, value) for argument, value in zip(said.arguments, values, strict=True))


class Reader:
    """Takes the arguments of a body from its front."""

    def __init__(self, body):
        self.body, self.at = body, 0

    def word(self, kind="<I"):
        if self.at + 4 > len(self.body):
            raise Misspelled("its bytes end within an argument")
        (value,) = struct.unpack_from(kind, self.body, self.at)
        self.at += 4
        return value

    def block(self):
        size = self.word()
        begin, self.at = self.at, self.at + size + -size % 4
        if self.at > len(self.body):
            raise Misspelled("its bytes end within a string or an array")
        return self.body[begin : begin + size]

    def string(self):
        content = self.block()
        if content and content[-1:] != b"\0":
            raise Misspelled("a string has no final NUL")
        return content[:-1].decode("utf-8", "backslashreplace") if content else None

    def argument(self, argument):
        match argument.kind:
            case "fd":
                return None
            case "string":
                return self.string()
            case "array":
                return self.block()
            case "fixed":
                return self.word("<i") / 256
            case "new_id" if argument.interface is None:
                return self.string(), self.word(), self.word()
        return self.word(WORDS[argument.kind])


def read(said, body):
    """The values of a message's arguments, of bytes that spell them and nothing more."""
    reader = Reader(body)
    values = [reader.argument(argument) for argument in said.arguments]
    if reader.at != len(body):
        raise Misspelled(f"{len(body) - reader.at} bytes stand behind its last argument")
    return values


def number_in_words(argument, value):
    """A number, by what its enum calls it where it has one that does."""
    named = enum_of(argument.enum).named(value) if argument.enum else None
    return named or f"{value:g}" if argument.kind == "fixed" else named or str(value)


def array_in_words(argument, value):
    """An array of words in brackets, by what its enum calls them; one that isn't of words as its bytes."""
    if len(value) % 4:
        return f"[{value.hex(' ')}]"
    numbers = struct.unpack(f"<{len(value) // 4}I", value)
    return f"[{', '.join(argument.enum and enum_of(argument.enum).named(it) or str(it) for it in numbers)}]"


def argument_in_words(argument, value, name_of):
    """An argument, with what an object is called by name_of, a function of its id and of the interface that is wanted."""
    match argument.kind:
        case "fd":
            return "a descriptor"
        case "string":
            return "null" if value is None else f'"{value}"'
        case "array":
            return array_in_words(argument, value)
        case "object":
            return "null" if value == 0 else name_of(value)
        case "new_id" if argument.interface is None:
            return f"new {value[0]}#{value[2]} of version {value[1]}"
        case "new_id":
            return f"new {argument.interface}#{value}"
    return number_in_words(argument, value)


def error_in_words(values, name_of, interface_of):
    """The arguments of wl_display.error: the object, the code with what its interface calls it, and the text."""
    target, code, text = values
    named = error_named(interface_of(target), code)
    return [name_of(target), f"{code} {named}" if named else str(code), f'"{text}"']


def arguments_in_words(said, values, name_of, interface_of, labels=False):
    """The arguments of a message, parted by commas; with labels each has its name before it."""
    if said.name == "error" and [it.kind for it in said.arguments] == ["object", "uint", "string"]:
        words = error_in_words(values, name_of, interface_of)
    else:
        words = [argument_in_words(argument, value, name_of) for argument, value in zip(said.arguments, values)]
    if labels:
        words = [f"{argument.name} {word}" for argument, word in zip(said.arguments, words)]
    return ", ".join(words)
