"""Messages whose cost a client chooses, by kinds: what comes before, the message, and how dear it may be. `bench/hostile.py` measures them.

A kind's client has one toplevel of the whole output, or 250 on each other, and sends the same message again and again; or something before each tick.
"""
import os
import pathlib
import subprocess
import tempfile
import time
import typing

import frames
from frames import ARGB8888, LARGEST, XRGB8888, message
from opening import BASE, BEGIN, BEGUN, COMPOSITOR, FIRST, SHM, SUBCOMPOSITOR, shown
from server import ANSWER, Server, read

SMALL = 640, 480
WINDOWS = 250  # of a client, of 256 surfaces
SUBSURFACES = 253
CHANGES = 512  # of a region, at most
PLACES = 8  # of toplevels, one after another 32 pixels to the right and down
STEP = 32  # pixels
REST = 240, 240  # where the pointer rests
POOL, BUFFER, REGION, ROOT = FIRST, FIRST + 1, FIRST + 2, FIRST + 3  # ids; those of a toplevel follow its wl_surface's
CHILD = ROOT + 3  # the first id behind a toplevel
POPUP = 64  # pixels of a popup's side
MOST_POOL = 1 << 28  # bytes
TURN = 1 << 16  # bytes of a client that are read in a turn
PIECE = 60_000  # bytes of a line of a recording
LEAST = 0.5  # seconds of processor time that are to be measured
MOST = 1 << 14  # messages
SIDE_RATE, SIDE_TURNS = 250, 20  # turns a second, and turns
GIVEN_BACK = message(1, 1, CHILD)  # wl_display.delete_id of the callback


class Costly(typing.NamedTuple):
    """A message, and what has to be there before it. `again` gives the message by its number. It is paid for as it comes, or at the tick behind it."""

    words: str
    begin: typing.Callable[[tuple[int, int]], bytes]
    again: typing.Callable[[int], bytes]
    side: tuple[int, int] = SMALL  # of the output and of windows, in pixels
    is_of_ticks: bool = False
    limit: float | None = None  # milliseconds that one may take; none where it is honest work
    rests: bool = False  # whether the pointer rests over the windows
    pool: int = 0  # bytes, where they aren't those of a window


def pool_of(side, form=XRGB8888, pixels=None):
    """Binds the globals, and makes a buffer of a window of these sides, in a pool with room for as much as that needs."""
    width, height = pixels or side
    stride = 4 * width
    return BEGIN + message(SHM, 0, POOL, stride * height) + message(POOL, 0, BUFFER, 0, width, height, stride, form)


def changes_of(region, dots):
    """A region that is made by so many changes as may be, less one, and the points that aren't held by its second, which come first."""
    width, height = 2000, 2000
    made = [message(COMPOSITOR, 1, region), message(region, 1, 0, 0, width, height), message(region, 2, *dots)]
    lines = CHANGES - 3
    columns = lines // 2
    made += [message(region, 2, 2 * at + 1, 0, 1, height) for at in range(columns)]
    made += [message(region, 2, 0, 2 * at + 1, width, 1) for at in range(lines - columns)]
    return b"".join(made)


def halves_of(region):
    """A region of 512 changes that is 1,022 rectangles: all, without one column and every second row."""
    made = [message(COMPOSITOR, 1, region), message(region, 1, 0, 0, 4096, 4096), message(region, 2, 320, 0, 1, 4096)]
    return b"".join(made + [message(region, 2, 0, 2 * at + 1, 4096, 1) for at in range(CHANGES - 2)])


def tree(side, count=SUBSURFACES, form=XRGB8888, before=b""):
    """A toplevel with so many subsurfaces of the same size on it, which aren't synchronised."""
    made = [pool_of(side, form), before, shown(ROOT, 1, BUFFER)]
    for surface in range(CHILD, CHILD + 2 * count, 2):
        made += [message(COMPOSITOR, 0, surface), message(SUBCOMPOSITOR, 1, surface + 1, surface, ROOT), message(surface + 1, 5)]
        made += [message(surface, 4, REGION) if before else b"", message(surface, 1, BUFFER, 0, 0), message(surface, 6)]
    return b"".join(made) + (message(ROOT, 4, REGION) if before else b"") + message(ROOT, 6)


def restacked(number):
    """The lowest subsurface goes to the top, or back down."""
    beside = CHILD + 2 * (SUBSURFACES - 1) if number % 2 == 0 else ROOT
    return message(CHILD + 1, 2, beside) + message(ROOT, 6)


def moved(number):
    """The lowest subsurface goes to and fro by a pixel."""
    return message(CHILD + 1, 1, 1 - number % 2, 0) + message(ROOT, 6)


def piled(side):
    """250 toplevels on each other at one place, none of which takes input where the pointer rests; each asks all of its region's changes for that."""
    made = [pool_of(side), changes_of(REGION, (REST[0], 0, 1, 2000))]
    for number in range(WINDOWS):
        back = -STEP * (number % PLACES)
        surface = ROOT + 3 * number
        made += [shown(surface, 1 + number, BUFFER, (back, back)), message(surface, 5, REGION), message(surface, 6)]
    return b"".join(made)


def menus(side):
    """A toplevel with 250 popups on it."""
    width, height = side
    positioner = REGION
    made = [pool_of(side), message(POOL, 0, CHILD, 0, POPUP, POPUP, 4 * width, XRGB8888), shown(ROOT, 1, BUFFER), message(BASE, 1, positioner)]
    made += [message(positioner, 1, POPUP, POPUP), message(positioner, 3, 5), message(positioner, 4, 8)]
    for number in range(WINDOWS):
        surface, shell, popup = range(CHILD + 1 + 3 * number, CHILD + 4 + 3 * number)
        at = POPUP * (number % 9), POPUP * (number // 9 % 6)
        made += [message(positioner, 2, *at, 1, 1), message(COMPOSITOR, 0, surface), message(BASE, 2, shell, surface)]
        made += [message(shell, 2, popup, ROOT + 1, positioner), message(surface, 6), message(shell, 4, 2 + number)]
        made += [message(surface, 1, CHILD, 0, 0), message(surface, 6)]
    return b"".join(made)


def one(side):
    """A toplevel of the whole output."""
    return pool_of(side) + shown(ROOT, 1, BUFFER)


def damages(_):
    """All is damaged a thousand times, and committed."""
    return message(ROOT, 2, 0, 0, *LARGEST) * 1000 + message(ROOT, 6)


def columns(_):
    """Every second column is damaged, and committed."""
    return b"".join(message(ROOT, 2, 2 * at + 1, 0, 1, SMALL[1]) for at in range(SMALL[0] // 2)) + message(ROOT, 6)


def whole(_):
    """All is damaged, and committed."""
    return message(ROOT, 2, 0, 0, *LARGEST) + message(ROOT, 6)


def commit(_):
    return message(ROOT, 6)


def topmost(_):
    """A commit of the topmost of the toplevels."""
    return message(ROOT + 3 * (WINDOWS - 1), 6)


def synced(_):
    """A round trip."""
    return message(1, 0, CHILD)


# By their kinds. Those of more than 8 MiB of pools are LARGE.
COSTLY = {
    "stacks": Costly("place_above and commit, 253 subsurfaces of 640 by 480", tree, restacked, limit=1),
    "large_stacks": Costly("the same, of 4096 by 4096", tree, restacked, LARGEST, limit=5),
    "moves": Costly("set_position and commit, 253 subsurfaces of 640 by 480", tree, moved, limit=1),
    "large_moves": Costly("the same, of 4096 by 4096", tree, moved, LARGEST, limit=5),
    "hits": Costly("commit below a resting pointer, 250 windows with input regions of 512 changes", piled, topmost, limit=1, rests=True),
    "popups": Costly("commit of a toplevel with 250 popups", menus, commit, limit=1),
    "damages": Costly("1,000 damages of the whole of 4096 by 4096, and a commit", one, damages, LARGEST, limit=5),
    "changes": Costly("a region of 511 changes", one, lambda number: changes_of(CHILD + number, (REST[0], 0, 1, 2000)), limit=1),
    "copies": Costly(
        "a copy of it by set_opaque_region",
        lambda side: one(side) + changes_of(REGION, (REST[0], 0, 1, 2000)),
        lambda _: message(ROOT, 4, REGION),
        limit=1,
    ),
    "columns": Costly("odd columns damaged, 250 transparent windows", lambda side: tree(side, WINDOWS - 1, ARGB8888), columns, is_of_ticks=True),
    "opaque_columns": Costly(
        "the same, with opaque regions of 512 changes",
        lambda side: tree(side, WINDOWS - 1, ARGB8888, halves_of(REGION)),
        columns,
        is_of_ticks=True,
    ),
    "translucent": Costly("250 translucent windows of 4096 by 4096", lambda side: tree(side, WINDOWS - 1, ARGB8888), whole, LARGEST, is_of_ticks=True),
    "first_pool": Costly("first pool of 256 MiB", lambda _: BEGIN, lambda _: message(SHM, 0, POOL, MOST_POOL), pool=MOST_POOL),
    "side_file": Costly("the pool's side file read again in each turn", lambda _: BEGIN + message(SHM, 0, POOL, MOST_POOL), synced, limit=1, pool=MOST_POOL),
}
LARGE = [kind for kind, it in COSTLY.items() if it.side == LARGEST or it.pool]
HONEST = "columns", "opaque_columns", "translucent", "first_pool"  # kinds whose time is that of painting, and of writing zeros


def again(kind):
    """A kind of the crowd: what comes before, and then the message for ever, of which there are two in turn; a pool is made once. A region is made and goes."""

    def pieces(mine):
        it = COSTLY[kind]
        if kind != "first_pool":
            mine.put_file(1, it.pool or None)
        yield it.begin(it.side), BEGUN
        gone = message(CHILD, 0) if kind == "changes" else b""
        two = it.again(0) + gone + it.again(0 if gone else 1) + gone
        if kind == "first_pool":
            yield it.again(0), 1
            return
        times = max(1, TURN // 16 // len(two))
        while True:
            yield two * times, 2 * times

    pieces.__name__ = kind
    return pieces


def lines_of(stream):
    return [f"bytes 1 {stream[at : at + PIECE].hex()}" for at in range(0, len(stream), PIECE)]


def recording(costly, count):
    """What comes before, and so many of the message; where it is paid for at ticks, each before one."""
    lines = ["connect", *lines_of(costly.begin(costly.side))]
    if costly.rests:
        lines.append("motion 0 {} {}".format(*REST))
    if costly.is_of_ticks:
        lines += ["file 1 1 0 half", "tick 0"]
    messages = [costly.again(number) for number in range(count)]
    if costly.is_of_ticks:
        for number, it in enumerate(messages):
            lines += [*lines_of(it), f"tick {1 + number}"]
    else:
        each = max(1, PIECE // len(messages[0])) if messages else 1
        for at in range(0, count, each):
            lines += lines_of(b"".join(messages[at : at + each]))
    return "\n".join(lines).encode() + b"\n"


class Ended(Exception):
    """The server ended the client, so that nothing was measured."""


def seconds(program, costly, count, room):
    """The processor time of a replay of so many of the message."""
    words = [program, "replay", "--size", "x".join(map(str, costly.side)), "--dir", room]
    with tempfile.TemporaryFile(dir=room) as stream, tempfile.TemporaryFile(dir=room) as report:
        stream.write(recording(costly, count))
        stream.seek(0)
        child = subprocess.Popen(words, stdin=stream, stdout=report)
        _, status, used = os.wait4(child.pid, 0)
        child.returncode = os.waitstatus_to_exitcode(status)
        report.seek(0)
        ends = [line for line in report.read().splitlines() if line.startswith(b"end ")]
    if child.returncode != 0 or ends:
        raise Ended(f"the program ended with status {child.returncode}, and told {ends[:1]}")
    return used.ru_utime + used.ru_stime


def make_half(room, side):
    """A file of pixels that let half through."""
    with open(pathlib.Path(room) / "half", "wb") as it:
        for _ in range(side[1]):
            it.write(b"\0\0\0\x80" * side[0])


def replayed(program, costly, most, room):
    """Milliseconds of one, and how many were measured: as many as take a time that can be told."""
    if costly.is_of_ticks:
        make_half(room, costly.side)
    if costly.pool:
        most = 1
    before = seconds(program, costly, 0, room)
    count = 1
    while True:
        took = seconds(program, costly, count, room) - before
        if took >= LEAST or count >= most:
            return 1000 * max(took, 0) / count, count
        count = min(most, count * (2 if took > LEAST / 4 else 8))


class Filled(Server):
    """A server at a rate, with the side file of its first client's first pool."""

    def words(self):
        (pathlib.Path(self.room.name) / "1.1").touch()
        os.truncate(pathlib.Path(self.room.name) / "1.1", MOST_POOL)
        return [self.program, "serve", "--socket", self.path, "--rate", str(self.rate), "--dir", self.room.name, "--size", "64x64"]


def spent(process):
    """The seconds of processor time that a process took until now."""
    return int(pathlib.Path(f"/proc/{process.pid}/schedstat").read_text(encoding="ascii").split()[0]) / 1e9


def filled(program, costly, most):
    """Milliseconds of a turn in which a client sent something, and how many were measured."""
    turns = min(most, SIDE_TURNS)
    Filled.program = program
    with Filled(rate=SIDE_RATE) as server:
        client = server.connect()
        client.sendall(costly.begin(costly.side))
        time.sleep(1)
        for _ in range(2):  # what was told before is read first
            client.sendall(synced(0))
            told = b""
            while not told.endswith(GIVEN_BACK):
                told += client.recv(1 << 16)
        before = spent(server.process)
        for _ in range(turns):
            client.sendall(synced(0))
            read(client, ANSWER)
        return 1000 * (spent(server.process) - before) / turns, turns


def measured(program, kind, most):
    """Milliseconds of one of a kind, and how many were measured."""
    costly = COSTLY[kind]
    if kind == "side_file":
        return filled(program, costly, most)
    with tempfile.TemporaryDirectory(dir="/dev/shm" if os.path.isdir("/dev/shm") else None) as room:
        return replayed(program, costly, most, room)


def row(kind, took):
    """A row of the table: the kind, the message, its bytes, its milliseconds, those of a turn's worth, and what was wanted."""
    costly = COSTLY[kind]
    size = len(costly.again(0))
    if costly.is_of_ticks:
        size, worth = f"{size:,} (a tick)", "once a tick"
    elif kind == "first_pool":
        size, worth = f"{size:,}", "once a client"
    elif kind == "side_file":
        size, worth = "any", "once a turn"
    else:
        size, worth = f"{size:,}", f"{took * TURN / size:,.0f}"
    wanted = "honest work" if costly.limit is None else f"{costly.limit:g}{', above' * (took > costly.limit)}"
    return f"| `{kind}` | {costly.words} | {size} | {took:,.{0 if took >= 100 else 2 if took >= 1 else 4}f} | {worth} | {wanted} |"


def table(program, kinds, most=MOST):
    """Prints the table, row by row."""
    frames.PROGRAM = program
    print("| kind | message of one client | bytes | ms | ms of 65,536 bytes | wanted, ms |\n|---|---|---|---|---|---|", flush=True)
    for kind in kinds:
        took, _ = measured(program, kind, most)
        print(row(kind, took), flush=True)
