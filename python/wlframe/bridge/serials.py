"""The serials of a client: the server's and the bridge's own, numbered together.

Clients compare serials, to find out which of a press and a key came later. So the bridge's own are counted in where it draws them: the server's later ones
are told with numbers that are greater by as many as the bridge drew before. What the client hands back is turned into the server's numbers again.
"""
import bisect

KEPT = 1 << 16  # own serials that are told from the server's
NONE = 0  # a serial that the server never draws


class Serials:
    """Which numbers a client knows the server's serials by, and which it got from the bridge."""

    def __init__(self):
        self.latest = 0  # of the server's serials that the client was told
        self.after = []  # by the bridge's own, as they were drawn: the server's latest at that time
        self.forgotten = 0  # own ones that aren't among these any more

    def told(self, serial: int) -> int:
        """The number that stands for a serial of the server's, which is told to the client now."""
        self.latest = max(self.latest, serial)
        return serial + self.forgotten + bisect.bisect_left(self.after, serial)

    def own(self) -> int:
        """A new serial of the bridge's own: greater by one than all that the client was told."""
        if len(self.after) >= 2 * KEPT:
            del self.after[:KEPT]
            self.forgotten += KEPT
        self.after.append(self.latest)
        return self.latest + self.forgotten + len(self.after)

    def meant(self, number: int) -> int | None:
        """The server's serial that a client's number stands for, as it would be where none has been drawn yet; None for one of the bridge's own."""
        number -= self.forgotten
        at = bisect.bisect_left(range(len(self.after)), number, key=lambda it: self.after[it] + it + 1)
        if at < len(self.after) and self.after[at] + at + 1 == number:
            return None
        return max(number - at, NONE)

    def was_told(self, number: int) -> bool:
        """Whether the client was told such a serial, by the server or by the bridge."""
        return 0 < number <= self.latest + self.forgotten + len(self.after)
