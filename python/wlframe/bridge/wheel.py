"""The wheel of the display's pointer, which the bridge has itself: the server knows of none.

It goes to the client that the pointer is over, behind all that the server told it before. The client is told as the standard says of wl_pointer.axis: a group
of axis_source, axis_discrete (from version 8 on axis_value120), axis and frame, and axis alone where it bound a version that lacks the others.
"""
import dataclasses
import functools
import threading
import typing

VERTICAL, HORIZONTAL = 0, 1  # wl_pointer.axis
WHEEL = 0  # wl_pointer.axis_source
STEP = 10.0  # wl_pointer.axis of one click, as weston and mutter have it
WHOLE = 120  # wl_pointer.axis_value120 of one click


@dataclasses.dataclass(frozen=True)
class Turn:
    """How far one axis is scrolled: in points, and in clicks where a wheel has them. Down and right are above 0."""

    axis: int
    value: float
    clicks: int = 0
    is_end: bool = False  # a finger left the pad: the axis stops


class Wheel:
    """Who is told of what is scrolled."""

    def __init__(self, seat: typing.Any):
        self.seat = seat

    def click(self, down: int, right: int) -> None:
        """Turns the wheel by so many clicks, each a group of its own; up and left are below 0."""
        for axis, clicks in ((VERTICAL, down), (HORIZONTAL, right)):
            step = 1 if clicks > 0 else -1
            for _ in range(abs(clicks)):
                self.scroll(WHEEL, (Turn(axis, step * STEP, step),))

    def scroll(self, source: int, turns: tuple[Turn, ...]) -> None:
        """Tells a group to whom the pointer is over: each client's own thread knows whether that is the one."""
        moment = self.now()
        for seated in list(self.seat.clients.values()):
            seated.client.posts.add(functools.partial(tell, seated, moment, source, turns))

    def now(self) -> int:
        """The time of an event, in milliseconds: the server's, by which its own events of the pointer go, where a viewer knows it."""
        if self.seat.viewing is not None:
            return self.seat.viewing.moment
        return self.seat.keyboard.now() if self.seat.keyboard is not None else 0

    def settle(self, patience: float) -> bool:
        """Waits until the server has told the clients of all motions that it was sent before. False where it takes too long."""
        if self.seat.viewing is None:
            return True
        settled = threading.Event()
        self.seat.viewing.when_complete(settled.set)
        return settled.wait(patience)


def tell(seated: typing.Any, moment: int, source: int, turns: tuple[Turn, ...]) -> None:
    """Tells a client of a group, by each wl_pointer that is over a surface of it; in the client's thread."""
    client = seated.client
    for number, surface in sorted(seated.windows.over.items()):
        pointer, shown = client.objects.by_id.get(number), client.objects.by_id.get(surface)
        if pointer is not None and not pointer.ended and shown is not None and not shown.ended:
            for name, *values in events_of(pointer.version, moment, source, turns):
                client.send_event(pointer, name, *values)


def events_of(version: int, moment: int, source: int, turns: tuple[Turn, ...]) -> typing.Iterator[tuple]:
    """The events of a group for a wl_pointer of this version, each by its name and its values."""
    if version < 5:
        yield from (("axis", moment, it.axis, it.value) for it in turns if not it.is_end)
        return
    yield "axis_source", source
    for each in turns:
        if each.is_end:
            yield "axis_stop", moment, each.axis
            continue
        if each.clicks:
            yield ("axis_discrete", each.axis, each.clicks) if version < 8 else ("axis_value120", each.axis, each.clicks * WHOLE)
        yield "axis", moment, each.axis, each.value
    yield ("frame",)
