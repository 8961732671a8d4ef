"""Two pictures of one size: at which pixels they differ, and a picture of that.

It takes a picture's pixels as three planes, and each plane as one large number, so that two pictures of 1920 by 1080 are compared in a part of a second.
"""
import typing

from wlframe.pictures import Picture

Box = tuple[int, int, int, int]  # x, y, width, height, in pixels
PALED = bytes(170 + value // 3 for value in range(256))
RED = (0xD0, 0, 0)
ONE = bytes([0]) + bytes([1]) * 255  # 1 for each byte that isn't 0


def differing(first: bytes, second: bytes, tolerance: int) -> bytes:
    """For each byte of two strings of one length 0 where they differ by at most the tolerance, and another number elsewhere."""
    if tolerance == 0:
        return (int.from_bytes(first, "little") ^ int.from_bytes(second, "little")).to_bytes(len(first), "little")
    found = bytearray(len(first))
    for part in (0, 1):
        found[part::2] = apart(first[part::2], second[part::2], tolerance)
    return bytes(found)


def apart(first: bytes, second: bytes, tolerance: int) -> bytes:
    """As differing, in lanes of 16 bits: 256 and the difference, with what lifts it to 512 where it is above the tolerance."""
    lanes = []
    for each in (first, second):
        wide = bytearray(2 * len(each))
        wide[0::2] = each
        lanes.append(int.from_bytes(wide, "little"))
    count = len(first)
    lift = int.from_bytes((256 + 255 - tolerance).to_bytes(2, "little") * count, "little")
    over = ((lift + lanes[0] - lanes[1]) | (lift + lanes[1] - lanes[0])).to_bytes(2 * count + 1, "little")
    return bytes(over[1 : 2 * count : 2]).translate(bytes([0, 0, 1, 1] * 64))


def marks(first: Picture, second: Picture, tolerance: int = 0, mask: typing.Iterable[Box] = ()) -> bytearray:
    """A byte for each pixel of two pictures of one size: 1 where red, green or blue differ by more than the tolerance, outside of the mask's boxes, else 0."""
    size = first.width * first.height
    if first.pixels == second.pixels:
        return bytearray(size)
    over = differing(first.pixels, second.pixels, tolerance)
    planes = [int.from_bytes(over[part::3], "little") for part in range(3)]
    found = bytearray((planes[0] | planes[1] | planes[2]).to_bytes(size, "little").translate(ONE))
    for x, y, width, height in mask:
        left, right = max(x, 0), min(x + width, first.width)
        for row in range(max(y, 0), min(y + height, first.height)):
            begin, end = row * first.width + left, row * first.width + right
            if begin < end:
                found[begin:end] = bytes(end - begin)
    return found


def box_of(found: bytes, width: int) -> Box | None:
    """The smallest box around all that is marked."""
    first = found.find(1)
    if first < 0:
        return None
    top, bottom = first // width, found.rfind(1) // width
    rows = [found[row * width : (row + 1) * width] for row in range(top, bottom + 1)]
    left = min(at for at in (row.find(1) for row in rows) if at >= 0)
    right = max(row.rfind(1) for row in rows)
    return left, top, right - left + 1, bottom - top + 1


def draw(picture: Picture, found: bytes) -> Picture:
    """The picture, paled, with what is marked in red."""
    count = len(found)
    red = int.from_bytes(found.translate(bytes([0]) + b"\xff" * 255), "little")
    rest = int.from_bytes(b"\xff" * count, "little") ^ red
    pixels = bytearray(3 * count)
    for part, colour in enumerate(RED):
        plane = int.from_bytes(picture.pixels[part::3].translate(PALED), "little")
        marked = int.from_bytes(bytes([colour]) * count, "little")
        pixels[part::3] = ((plane & rest) | (marked & red)).to_bytes(count, "little")
    return Picture(picture.width, picture.height, bytes(pixels))


class Difference(typing.NamedTuple):
    """How two pictures differ: in words, at how many pixels, and in which box. Those of two sizes have no more than words."""

    text: str
    count: int = 0
    box: Box | None = None
    first: Picture | None = None
    found: bytes = b""

    def picture(self) -> Picture | None:
        """The first picture, paled, with the pixels that differ in red; None where the sizes differ."""
        return draw(self.first, self.found) if self.first else None


def difference(first: Picture, second: Picture, tolerance: int = 0, mask: typing.Iterable[Box] = (), max_pixels: int = 0) -> Difference | None:
    """How two pictures differ, if they do at more than max_pixels pixels."""
    if (first.width, first.height) != (second.width, second.height):
        return Difference(f"is {first.width}x{first.height} in the one and {second.width}x{second.height} in the other")
    found = marks(first, second, tolerance, mask)
    count = found.count(1)
    if count <= max_pixels:
        return None
    at = found.find(1)
    here, there = (it.pixels[3 * at : 3 * at + 3].hex() for it in (first, second))
    place = f"{at % first.width},{at // first.width}"
    text = f"differs at {count} of {len(found)} pixels, first at {place}, which is {here} in the one and {there} in the other"
    return Difference(text, count, box_of(found, first.width), first, bytes(found))
