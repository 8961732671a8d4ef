"""Pictures that are compared with those of an earlier run, which are kept as files."""
from __future__ import annotations

import os
import pathlib
import typing

from wlframe.comparing import Difference, difference
from wlframe.faults import PictureDiffers, TimeOver
from wlframe.pictures import Picture, Unreadable, load

UPDATE = "WLFRAME_UPDATE"  # 1 in the environment: the expected pictures are written
SETTLED = 0.3  # seconds that a picture has to stand before it is written as the expected one

Box = tuple[int, int, int, int]  # x, y, width, height, in pixels


def is_updating() -> bool:
    return os.environ.get(UPDATE, "") not in ("", "0")


class Expecting:
    """The part of a display that compares with expected pictures."""

    def __init__(self, expected: str | os.PathLike, failed: str | os.PathLike, update: bool | None):
        self.expected, self.failed = pathlib.Path(expected), pathlib.Path(failed)
        self.is_updating = is_updating() if update is None else update
        self.updated: list[pathlib.Path] = []  # those that were written

    def expect(
        self,
        name: str | os.PathLike,
        mask: typing.Sequence[Box] = (),
        tolerance: int = 0,
        max_pixels: int = 0,
        timeout: float = 5.0,
        window=None,
    ) -> None:
        """Waits until the picture is the expected one of this name, and raises PictureDiffers where it isn't so in so many seconds.

        Pixels in the boxes of the mask aren't compared; red, green and blue may differ by `tolerance` (0 to 255), and `max_pixels` pixels may differ by more. A name that is no
        absolute path is one of the folder `expected`. With --wlframe-update, or WLFRAME_UPDATE=1 in the environment, the picture is written in place of the expected one, once
        it stays the same for a while, if it differs."""
        if not 0 <= tolerance <= 255:
            raise ValueError(f"tolerance {tolerance}: give 0 to 255")
        path = self.expected / name
        shown = window.picture if window is not None else self.picture

        def compare() -> Difference | None:
            return difference(wanted, shown(), tolerance, mask, max_pixels)

        wanted = None
        if path.exists():
            try:
                wanted = load(path)
            except Unreadable:
                if not self.is_updating:
                    raise
        if self.is_updating:
            self.settle(timeout, mask, window)
            if wanted is None or compare():
                path.parent.mkdir(parents=True, exist_ok=True)
                shown().save(path)
                self.updated.append(path)
            return
        if wanted is None:
            actual = self.keep(name, "actual", shown())
            raise PictureDiffers(f"there is no expected picture {name} yet: --wlframe-update or {UPDATE}=1 writes it", path, actual)
        found = self.await_equal(compare, timeout)
        if found is not None:
            raise self.differs(name, path, wanted, shown(), found)

    def await_equal(self, compare: typing.Callable[[], Difference | None], timeout: float) -> Difference | None:
        """How the picture differs, once it doesn't or time is over."""
        found = [compare()]

        def is_equal(_picture: Picture) -> bool:
            found[0] = compare()
            return found[0] is None

        if found[0] is not None and timeout > 0:
            try:
                self.wait_for(is_equal, timeout)
            except TimeOver:
                pass
        return found[0]

    def settle(self, timeout: float, mask: typing.Sequence[Box], window) -> None:
        x, y = window.box[:2] if window is not None else (0, 0)
        ignore = [(x + left, y + top, width, height) for left, top, width, height in mask]
        try:
            self.wait_until_idle(SETTLED, max(timeout, 2 * SETTLED), ignore)
        except TimeOver:
            pass  # it never rests, and the picture is any of those

    def keep(self, name: str | os.PathLike, what: str, picture: Picture) -> pathlib.Path:
        """Writes a picture into the folder of what failed."""
        place = pathlib.Path(name)
        path = self.failed / f"{place.stem}-{what}.png"
        path.parent.mkdir(parents=True, exist_ok=True)
        picture.save(path)
        return path

    def differs(self, name, path: pathlib.Path, wanted: Picture, actual: Picture, found: Difference) -> PictureDiffers:
        kept = self.keep(name, "expected", wanted), self.keep(name, "actual", actual)
        drawn = found.picture()
        diff = self.keep(name, "diff", drawn) if drawn is not None else None
        where = ", all within {2}x{3} at {0}, {1}".format(*found.box) if found.box else ""
        return PictureDiffers(f"{name}: the picture {found.text}{where}", kept[0], kept[1], diff, found.count, found.box)
