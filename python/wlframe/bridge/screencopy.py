"""zwlr_screencopy_manager_v1: a client that takes pictures of the output, as grim and wf-recorder do. They come from the server's viewer socket.

A picture is of the server's last tick once all was served that was asked before; a copy with damage waits for the next that differs.
"""
import functools
import os
import time
import typing

from wlframe.bridge.memory import Buffer
from wlframe.wayland.table import INTERFACES

FORMAT = INTERFACES["wl_shm"].enums["format"].values["xrgb8888"]


class Shot:
    """What a zwlr_screencopy_frame_v1 is to be of, in pixels of the output."""

    def __init__(self, x: int, y: int, width: int, height: int):
        self.x, self.y, self.width, self.height = x, y, width, height
        self.is_used = False


class Shots:
    """The pictures that a client takes."""

    def __init__(self, client: typing.Any, viewing: typing.Any):
        self.client, self.viewing, self.watch = client, viewing, None

    def answer(self, said: typing.Any, made: typing.Any, _descriptors: list[int]) -> None:
        """Answers a request to one of them, or to their manager."""
        values, picture = said.values, self.viewing.picture
        match said.message.name:
            case "capture_output":
                self.begin(made, 0, 0, picture.width, picture.height)
            case "capture_output_region":
                x, y, width, height = values[3:]
                left, top = min(max(x, 0), picture.width), min(max(y, 0), picture.height)
                self.begin(made, left, top, min(x + width, picture.width) - left, min(y + height, picture.height) - top)
            case "copy" | "copy_with_damage":
                self.copy(said.object, self.client.objects.by_id[values[0]].state, said.message.name == "copy_with_damage")

    def begin(self, frame: typing.Any, x: int, y: int, width: int, height: int) -> None:
        """Tells what buffer a picture needs; where it would be empty, that it failed."""
        frame.state = Shot(x, y, width, height)
        if width <= 0 or height <= 0:
            self.client.send_event(frame, "failed")
            return
        self.client.send_event(frame, "buffer", FORMAT, width, height, 4 * width)
        if frame.version >= 3:
            self.client.send_event(frame, "buffer_done")

    def copy(self, frame: typing.Any, buffer: typing.Any, with_damage: bool) -> None:
        """The client wants the picture in its buffer."""
        shot = frame.state
        if shot.is_used:
            self.client.refuse("already_used", "a frame is copied a second time", frame)
        shot.is_used = True
        if not isinstance(buffer, Buffer) or (buffer.width, buffer.height, buffer.stride) != (shot.width, shot.height, 4 * shot.width):
            self.client.refuse("invalid_buffer", "a buffer has other sides than the frame", frame)
        take = functools.partial(self.client.posts.add, functools.partial(self.take, frame, buffer, with_damage))
        if not with_damage:
            self.viewing.when_complete(take)
            return
        self.watch = self.watch or self.viewing.watch()
        self.viewing.when_changed(self.watch, take)

    def take(self, frame: typing.Any, buffer: Buffer, with_damage: bool) -> None:
        """Writes the picture of now into the client's buffer, and tells it so; in the client's thread."""
        shot, tell = frame.state, self.client.send_event
        if self.client.objects.by_id.get(frame.number) is not frame:
            return  # the client has destroyed it
        try:
            with self.viewing.lock, buffer.pool.writable() as memory:
                for y in range(shot.height):
                    row = self.viewing.picture.row(shot.y + y, shot.x, shot.x + shot.width)
                    os.pwrite(memory, row, buffer.offset + y * buffer.stride)
                damage = self.watch.taken() if self.watch is not None else None
            buffer.seen = None  # the server has to read all of it, where it is shown
        except OSError:  # its memory can't be written, or is shorter than it said
            tell(frame, "failed")
            return
        tell(frame, "flags", 0)
        if with_damage and damage is not None:
            tell(frame, "damage", *within(damage, shot))
        moment = time.clock_gettime_ns(time.CLOCK_MONOTONIC)
        tell(frame, "ready", moment // 1_000_000_000 >> 32, moment // 1_000_000_000 & 0xFFFFFFFF, moment % 1_000_000_000)

    def gone(self) -> None:
        """The client has gone."""
        if self.watch is not None:
            self.viewing.forget(self.watch)


def within(damage: tuple[int, int, int, int], shot: Shot) -> tuple[int, int, int, int]:
    """What of a rectangle of the output lies in a picture, in its pixels."""
    left, top = max(damage[0] - shot.x, 0), max(damage[1] - shot.y, 0)
    right, bottom = min(damage[0] + damage[2] - shot.x, shot.width), min(damage[1] + damage[3] - shot.y, shot.height)
    return left, top, max(right - left, 0), max(bottom - top, 0)
