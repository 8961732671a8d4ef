"""Pictures with 8 bits for each of red, green and blue: streams of PPM images are read as they come, PNG images are read and written.

    for picture in read(open("frames.ppm", "rb")):
        picture.save("last.png")

A PNG of another kind than png() writes is read by Pillow, where that is installed (Debian: python3-pil).
"""
import io
import os
import re
import struct
import typing
import zlib

PIECE = 1 << 20  # bytes that are read at once
SIGNATURE = b"\x89PNG\r\n\x1a\n"
GAP = rb"(?:\s|#[^\n]*\n)+"  # what parts the words of a PPM's head; the last is parted from the pixels by one byte
HEAD = re.compile(rb"P6" + GAP + rb"(\d+)" + GAP + rb"(\d+)" + GAP + rb"(\d+)\s")
LONGEST_HEAD = 4096  # bytes


class Picture(typing.NamedTuple):
    """Rows from the top, of three bytes for each pixel: red, green, blue. Two pictures are equal where each pixel is."""

    width: int
    height: int
    pixels: bytes

    def pixel(self, x: int, y: int) -> tuple[int, int, int]:
        """Red, green and blue of a pixel, each from 0 to 255. IndexError where it is outside."""
        if not (0 <= x < self.width and 0 <= y < self.height):
            raise IndexError(f"there is no pixel {x}, {y} in a picture of {self.width}x{self.height}")
        at = 3 * (y * self.width + x)
        return self.pixels[at], self.pixels[at + 1], self.pixels[at + 2]

    def crop(self, box: tuple[int, int, int, int]) -> "Picture":
        """The part in a box of x, y, width and height, as far as it is within the picture. ValueError where nothing of it is."""
        left, top = max(box[0], 0), max(box[1], 0)
        right, bottom = min(box[0] + box[2], self.width), min(box[1] + box[3], self.height)
        if left >= right or top >= bottom:
            raise ValueError(f"nothing of the box {box} is within a picture of {self.width}x{self.height}")
        begins = range(3 * (top * self.width + left), 3 * (bottom * self.width), 3 * self.width)
        return Picture(right - left, bottom - top, b"".join(self.pixels[at : at + 3 * (right - left)] for at in begins))

    def save(self, path: str | os.PathLike) -> None:
        """Writes it as a PNG, or as a PPM where the name ends so."""
        is_ppm = str(path).endswith(".ppm")
        with open(path, "wb") as stream:
            stream.write(b"P6\n%d %d\n255\n" % (self.width, self.height) + self.pixels if is_ppm else png(self))

    def __repr__(self) -> str:
        return f"<Picture {self.width}x{self.height} {zlib.crc32(self.pixels):08x}>"


def load(path: str | os.PathLike) -> Picture:
    """The picture of a PNG or the first of a PPM file. Unreadable where it is none."""
    with open(path, "rb") as stream:
        try:
            for picture in read(stream):
                return picture
        except Unreadable as reason:
            raise Unreadable(f"{path}: {reason}") from None
    raise Unreadable(f"{path}: it is empty")


class Unreadable(Exception):
    """Why bytes are no picture."""


class Splitter:
    """Takes the bytes of PPM images that stand one behind the other, in pieces as they come, and gives the images."""

    def __init__(self):
        self.rest = bytearray()
        self.head = None  # of the image that began: where its pixels begin, width, height

    def pictures(self, piece):
        """The images that are whole with this piece."""
        self.rest += piece
        while self.has_head():
            begin, width, height = self.head
            end = begin + 3 * width * height
            if len(self.rest) < end:
                return
            picture = Picture(width, height, bytes(memoryview(self.rest)[begin:end]))
            del self.rest[:end]
            self.head = None
            yield picture

    def has_head(self):
        if self.head is None and self.rest:
            found = HEAD.match(self.rest[:LONGEST_HEAD])
            if found and int(found[3]) != 255:
                raise Unreadable(f"only PPM images with 8 bits a colour can be read, and this one has values up to {int(found[3])}")
            if found:
                self.head = found.end(), int(found[1]), int(found[2])
            elif len(self.rest) >= LONGEST_HEAD or not b"P6".startswith(self.rest[:2]):
                raise Unreadable("no PPM image (P6) begins where one should")
        return self.head is not None

    def is_within(self):
        """Whether an image began and isn't whole yet."""
        return bool(self.rest)


def read(stream):
    """The pictures of a stream of bytes: PPM images one behind the other, or one PNG."""
    piece = stream.read(len(SIGNATURE))
    if piece == SIGNATURE:
        yield read_png(piece + stream.read())
        return
    splitter = Splitter()
    while piece:
        yield from splitter.pictures(piece)
        piece = stream.read(PIECE)
    if splitter.is_within():
        raise Unreadable("the last image is cut off")


def chunk(name, content):
    """A chunk of a PNG: its length, its name, its content and a checksum."""
    return struct.pack(">I", len(content)) + name + content + struct.pack(">I", zlib.crc32(name + content))


def png(picture, level=6):
    """The bytes of a PNG. A 0 before each row says that it isn't filtered."""
    width, height, pixels = picture
    rows = b"".join(b"\0" + pixels[at : at + 3 * width] for at in range(0, len(pixels), 3 * width))
    head = struct.pack(">IIBBBBB", width, height, 8, 2, 0, 0, 0)
    return SIGNATURE + chunk(b"IHDR", head) + chunk(b"IDAT", zlib.compress(rows, level)) + chunk(b"IEND", b"")


def chunks(data):
    """The names and contents of a PNG's chunks, as far as their checksums hold."""
    at = len(SIGNATURE)
    while at + 12 <= len(data):
        (length,) = struct.unpack_from(">I", data, at)
        name, content = data[at + 4 : at + 8], data[at + 8 : at + 8 + length]
        if data[at : at + 12 + length] != chunk(name, content):
            raise Unreadable("the PNG is damaged or cut off")
        yield name, content
        at += 12 + length


def read_png(data):
    """A PNG as png() writes it, or whatever PNG Pillow reads."""
    found = {}
    for name, content in chunks(data):
        found[name] = found.get(name, b"") + content
    if not {b"IHDR", b"IDAT", b"IEND"} <= found.keys() or len(found[b"IHDR"]) != 13:
        raise Unreadable("the PNG is damaged or cut off")
    width, height, *kind = struct.unpack(">IIBBBBB", found[b"IHDR"])
    if kind == [8, 2, 0, 0, 0]:
        try:
            rows = zlib.decompress(found[b"IDAT"])
        except zlib.error:
            raise Unreadable("the PNG is damaged") from None
        step = 1 + 3 * width
        if len(rows) == step * height and not any(rows[::step]):
            return Picture(width, height, b"".join(rows[at + 1 : at + step] for at in range(0, len(rows), step)))
    return read_by_pillow(data)


def read_by_pillow(data):
    try:
        from PIL import Image  # pylint: disable=import-outside-toplevel
    except ImportError:
        raise Unreadable("to read this kind of PNG install Pillow (Debian: python3-pil)") from None
    try:
        with Image.open(io.BytesIO(data)) as image:
            return Picture(*image.size, image.convert("RGB").tobytes())
    except (OSError, SyntaxError, ValueError) as fault:
        raise Unreadable(f"Pillow can't read the PNG: {fault}") from None
