"""zwlr_virtual_pointer_manager_v1: a client that points and scrolls, as wayvnc and wlrctl do. The server takes its motions and buttons by its viewer socket; what it scrolls is the bridge's wheel's."""
import dataclasses
import typing

from wlframe.bridge.wheel import HORIZONTAL, WHEEL, Turn, Wheel

LAST_SOURCE = 3  # of wl_pointer.axis_source


@dataclasses.dataclass
class Pointer:
    """A virtual pointer: the buttons that it holds down, and what it scrolls with its next frame."""

    down: set[int] = dataclasses.field(default_factory=set)
    source: int = WHEEL
    turns: dict[int, Turn] = dataclasses.field(default_factory=dict)  # by axis


class VirtualPointers:
    """The virtual pointers of a client."""

    def __init__(self, client: typing.Any, viewing: typing.Any, wheel: Wheel):
        self.client, self.viewing, self.wheel = client, viewing, wheel
        self.pointers: dict[int, Pointer] = {}  # by number

    def answer(self, said: typing.Any, made: typing.Any, _descriptors: list[int]) -> None:
        """Answers a request to one of them, or to their manager."""
        values, picture = said.values, self.viewing.picture
        match said.message.name:
            case "create_virtual_pointer" | "create_virtual_pointer_with_output":
                self.pointers[made.number] = Pointer()
            case "motion":
                x, y = self.viewing.position
                self.viewing.move(x + values[1], y + values[2])
            case "motion_absolute" if values[3] and values[4]:
                self.viewing.move(values[1] * picture.width / values[3], values[2] * picture.height / values[4])
            case "button":
                self.viewing.tell(f"button {values[1]} {int(values[2] != 0)}")
                down = self.pointers[said.target].down
                (down.add if values[2] else down.discard)(values[1])
            case "axis" | "axis_stop" | "axis_discrete" | "axis_source":
                self.scroll(said)
            case "frame":
                self.end_group(self.pointers[said.target])
            case "destroy":
                self.end(said.target)

    def scroll(self, said: typing.Any) -> None:
        """A part of a group, which its frame ends."""
        name, values, pointer = said.message.name, said.values, self.pointers[said.target]
        if name == "axis_source":
            if values[0] > LAST_SOURCE:
                self.client.refuse("invalid_axis_source", f"there is no source {values[0]} of an axis", said.object)
            pointer.source = values[0]
            return
        axis = values[1]
        if axis > HORIZONTAL:
            self.client.refuse("invalid_axis", f"there is no axis {axis}", said.object)
        match name:
            case "axis":
                pointer.turns[axis] = Turn(axis, values[2])
            case "axis_discrete":
                pointer.turns[axis] = Turn(axis, values[2], values[3])
            case "axis_stop":
                pointer.turns[axis] = Turn(axis, 0.0, is_end=True)

    def end_group(self, pointer: Pointer) -> None:
        """A group is whole: it is told once the server has told of the motions before it."""
        turns, source = tuple(pointer.turns.values()), pointer.source
        pointer.turns, pointer.source = {}, WHEEL
        if turns:
            self.viewing.when_complete(lambda: self.wheel.scroll(source, turns))

    def end(self, number: int) -> None:
        """A virtual pointer has gone: its buttons go up."""
        pointer = self.pointers.pop(number, Pointer())
        self.viewing.tell(*(f"button {it} 0" for it in sorted(pointer.down)))

    def gone(self) -> None:
        """The client has gone."""
        for number in list(self.pointers):
            self.end(number)
