"""Which rows of a buffer the server has to read: those that were damaged since it read them last.

A commit tells what differs from what its surface showed before. A client that draws into two buffers in turns changes in each of them what was
damaged since that buffer was committed last, which is more than what its own commit tells. So each surface keeps the damage of its last commits,
and each buffer keeps which of them the server read it with.

    told = Damage()
    told.commit(first)                      # [(0, 100)]: all rows of a buffer that is new
    told.commit(second)                     # [(0, 100)]
    told.of_surface.add(0, 10, 5, 2)
    told.commit(first)                      # [(10, 12)]
    told.of_surface.add(0, 20, 5, 2)
    told.commit(second)                     # [(10, 12), (20, 22)]

Rows are counted from the top of the buffer; a span is its first row and the first behind it.
"""
import collections
import dataclasses

AGES = 16  # commits whose damage a surface keeps: a buffer that is older is read whole
RECTANGLES = 256  # of one commit; more of them become the rectangle around them
TURNED = (1, 3, 5, 7)  # the transforms that exchange rows and columns
REVERSED = (1, 2, 6, 7)  # those by which the buffer's first rows are shown last


def merged(spans):
    """The spans in their order, none of them empty, none touching another."""
    found = []
    for begin, end in sorted(it for it in spans if it[0] < it[1]):
        if found and begin <= found[-1][1]:
            found[-1] = found[-1][0], max(end, found[-1][1])
        else:
            found.append((begin, end))
    return found


def cut(begin, size, most):
    """The span of so many from begin on, as far as it lies between 0 and most."""
    return max(begin, 0), min(begin + size, most)


@dataclasses.dataclass(frozen=True)
class Shape:
    """How a buffer is shown: its sides in pixels, and the scale and the transform of its surface (wl_surface.set_buffer_scale, set_buffer_transform)."""

    width: int
    height: int
    scale: int
    transform: int

    def rows_of_surface(self, x, y, width, height):
        """The rows that a rectangle of the surface shows."""
        is_turned = self.transform in TURNED
        at, size = (x, width) if is_turned else (y, height)
        across, wide = (y, height) if is_turned else (x, width)
        most, most_across = self.height // self.scale, self.width // self.scale
        begin, end = cut(at, size, most)
        if begin >= end or size <= 0 or wide <= 0 or across >= most_across or across + wide <= 0:
            return 0, 0
        if self.transform in REVERSED:
            begin, end = most - end, most - begin
        return begin * self.scale, end * self.scale

    def rows_of_buffer(self, x, y, width, height):
        """The rows of the surface's points that a rectangle of the buffer takes in: a point shows its first pixel, whichever of them was damaged."""
        begin, end = cut(x, width, self.width)
        if begin >= end or height <= 0:
            return 0, 0
        begin, end = cut(y, height, self.height)
        return begin // self.scale * self.scale, min(-(-end // self.scale) * self.scale, self.height)


class Rectangles:
    """Rectangles that were told one by one: x, y, width and height."""

    def __init__(self):
        self.kept = []

    def add(self, x, y, width, height):
        if width <= 0 or height <= 0:
            return
        self.kept.append((x, y, width, height))
        if len(self.kept) > RECTANGLES:
            left, top = min(it[0] for it in self.kept), min(it[1] for it in self.kept)
            right, bottom = max(it[0] + it[2] for it in self.kept), max(it[1] + it[3] for it in self.kept)
            self.kept = [(left, top, right - left, bottom - top)]

    def take(self):
        kept, self.kept = self.kept, []
        return kept


@dataclasses.dataclass(frozen=True)
class Seen:
    """When the server read a buffer last: with which surface, after how many of its damages, and how often its pool had been resized."""

    surface: object
    count: int
    resized: int


class Damage:
    """What a surface tells of its changes. A buffer has width, height, `resized`, and `seen`, which is kept here and is None at first."""

    def __init__(self):
        self.scale, self.transform, self.is_moved = 1, 0, False  # of the next commit
        self.of_surface, self.of_buffer = Rectangles(), Rectangles()
        self.shape = None  # of the last commit
        self.kept = collections.deque(maxlen=AGES)  # the rows of each of the last damages
        self.count = 0  # how many there were

    def scale_by(self, scale):
        """wl_surface.set_buffer_scale. The server refuses one below 1."""
        self.scale = max(scale, 1)

    def move(self, x, y):
        """The next buffer stands elsewhere: then all of it counts as damaged."""
        self.is_moved = self.is_moved or (x, y) != (0, 0)

    def forget(self):
        """Whatever the server read before doesn't count."""
        self.kept.clear()
        self.count += 1

    def commit(self, buffer):
        """The surface shows this buffer, or None: answers the spans of its rows that the server has to read, which it does now."""
        of_surface, of_buffer = self.of_surface.take(), self.of_buffer.take()
        shape = Shape(buffer.width, buffer.height, self.scale, self.transform) if buffer is not None else None
        if shape is None or shape != self.shape or self.is_moved:
            self.forget()
        self.shape, self.is_moved = shape, False
        if shape is None:
            return []
        rows = merged([*(shape.rows_of_surface(*it) for it in of_surface), *(shape.rows_of_buffer(*it) for it in of_buffer)])
        if rows:
            self.kept.append(rows)
            self.count += 1
        found = self.since(buffer)
        buffer.seen = Seen(self, self.count, buffer.resized)
        return found

    def since(self, buffer):
        """The rows that were damaged since the server read the buffer. All, where it never did so for this surface as it is."""
        seen = buffer.seen
        if seen is None or seen.surface is not self or seen.resized != buffer.resized or self.count - seen.count > len(self.kept):
            return [(0, buffer.height)]
        age = self.count - seen.count
        return merged(it for rows in list(self.kept)[len(self.kept) - age :] for it in rows)
