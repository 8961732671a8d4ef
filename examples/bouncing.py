#!/usr/bin/env python3
"""A ball that bounces over another client's window, and only its own points are painted again.

    examples/bouncing.py text > TEXT                    the text for examples/compose.py
    examples/bouncing.py picture FRAMES REPORT PICTURE  an animated PNG of the frames, with the damaged points beside them

FRAMES is the file that `wlframe replay --ppm FRAMES` wrote of the text's recording, and REPORT what it printed. The damaged points of a frame
are those of the rectangles that the ball's client said; where the report counts another number of them, no picture is written.
"""
import pathlib
import struct
import sys
import zlib

sys.path.insert(0, str(pathlib.Path(__file__).resolve().parent.parent / "python"))
from wlframe.pictures import SIGNATURE, chunk, read  # pylint: disable=wrong-import-position

OUTPUT = 160, 96
# The ball's window stands at the place of the second toplevel, and shows what is below it but for the ball.
CORNER = 32, 32
WINDOW = 128, 64
BALL = 16
STEPS = 64
STRIDE = 4 * WINDOW[0]
STRIPES = "0xff33557f", "0xff4a7ab0"


def place(step):
    """Where the ball's square is at a step: it turns at each side of the window."""

    def bounced(at, room):
        at %= 2 * room
        return min(at, 2 * room - at)

    return bounced(7 * step, WINDOW[0] - BALL), bounced(4 * step, WINDOW[1] - BALL)


def row(y):
    """Where a row of the ball begins, and how long it is."""
    half = BALL / 2
    wide = int((half**2 - (y + 0.5 - half) ** 2) ** 0.5)
    return int(half) - wide, 2 * wide


def toplevel():
    yield from (
        "connect",
        "registry = display.get_registry()",
        "compositor = registry.bind(wl_compositor, 2)",
        "shm = registry.bind(wl_shm, 1)",
        "wm_base = registry.bind(xdg_wm_base, 1)",
        "surface = compositor.create_surface()",
        "xdg_surface = wm_base.get_xdg_surface(surface)",
        "toplevel = xdg_surface.get_toplevel()",
        "surface.commit()",
        "xdg_surface.ack_configure(1)",
    )


def below():
    """The first client: a striped window of 112 by 80 pixels."""
    yield from toplevel()
    yield "pool = shm.create_pool(35840)"
    yield "buffer = pool.create_buffer(0, 112, 80, 448, xrgb8888)"
    for stripe in range(10):
        yield f"fill pool 112 8 {STRIPES[stripe % 2]} at {stripe * 8 * 448}"
    yield from ("surface.attach(buffer, 0, 0)", "surface.damage(0, 0, 112, 80)", "surface.commit()", "tick 0")


def drawn(buffer, step):
    """The ball is taken out of a buffer where it was two steps before, and drawn anew."""
    if step >= 2:
        x, y = place(step - 2)
        yield f"fill pool {BALL} {BALL} 0x00000000 at {buffer * STRIDE * WINDOW[1] + y * STRIDE + 4 * x} stride {STRIDE}"
    x, y = place(step)
    for line in range(BALL):
        start, long = row(line)
        yield f"fill pool {long} 1 0xffff9933 at {buffer * STRIDE * WINDOW[1] + (y + line) * STRIDE + 4 * (x + start)} stride {STRIDE}"


def text():
    """The second client has two buffers. While one is shown the other was released, and the ball is drawn there."""
    print("# A ball that bounces over another client's window. Made by examples/bouncing.py.")
    print(f"# ./wlframe replay --size {OUTPUT[0]}x{OUTPUT[1]} --ppm frames.ppm")
    print(*below(), *toplevel(), sep="\n")
    print(f"pool = shm.create_pool({2 * STRIDE * WINDOW[1]})")
    for buffer in range(2):
        print(f"buffer{buffer} = pool.create_buffer({buffer * STRIDE * WINDOW[1]}, {WINDOW[0]}, {WINDOW[1]}, {STRIDE}, argb8888)")
    for step in range(STEPS):
        print(*drawn(step % 2, step), sep="\n")
        print(f"surface.attach(buffer{step % 2}, 0, 0)")
        for rect in damage(step):
            print("surface.damage({}, {}, {}, {})".format(*rect))
        print(f"surface.commit()\ntick {16 * (step + 1)}")


def damage(step):
    """The rectangles that a step damages: the ball's square as it was and as it is; the first, which maps the window, all of it."""
    if step == 0:
        return [(0, 0, *WINDOW)]
    return [(*place(step - 1), BALL, BALL), (*place(step), BALL, BALL)]


def damaged(frame):
    """The damaged points of a frame. The first frame is the other client's."""
    if frame == 0:
        return {(x, y) for x in range(112) for y in range(80)}
    points = set()
    for left, top, width, height in damage(frame - 1):
        points |= {(CORNER[0] + x, CORNER[1] + y) for x in range(left, left + width) for y in range(top, top + height)}
    return points


def beside(pixels, points):
    """A frame with its damaged points at its right: white ones, and the others dark."""
    width, height = OUTPUT
    for y in range(height):
        yield b"\0" + pixels[3 * y * width : 3 * (y + 1) * width] + b"\0\0\0" * 4
        yield b"".join(b"\xff\xff\xff" if (x, y) in points else b"\x28\x28\x28" for x in range(width))


def animated(images, width, height, milliseconds):
    """The bytes of an animated PNG file that loops for ever."""
    yield SIGNATURE + chunk(b"IHDR", struct.pack(">IIBBBBB", width, height, 8, 2, 0, 0, 0))
    yield chunk(b"acTL", struct.pack(">II", len(images), 0))
    number = 0
    for at, image in enumerate(images):
        yield chunk(b"fcTL", struct.pack(">IIIIIHHBB", number, width, height, 0, 0, milliseconds, 1000, 0, 0))
        number += 1
        content = zlib.compress(image, 9)
        if at == 0:
            yield chunk(b"IDAT", content)
        else:
            yield chunk(b"fdAT", struct.pack(">I", number) + content)
            number += 1
    yield chunk(b"IEND", b"")


def picture(frames, report, to):
    counts = [int(line.split()[2]) for line in pathlib.Path(report).read_text().splitlines() if line.startswith("frame ")]
    images = []
    with open(frames, "rb") as stream:
        for at, (width, height, pixels) in enumerate(read(stream)):
            points = damaged(at)
            if (width, height) != OUTPUT or counts[at] != len(points):
                sys.exit(f"frame {at}: {len(points)} damaged points are said, and the report counts {counts[at]}")
            images.append(b"".join(beside(pixels, points)))
    pathlib.Path(to).write_bytes(b"".join(animated(images, 2 * OUTPUT[0] + 4, OUTPUT[1], 60)))


def main():
    if sys.argv[1:] == ["text"]:
        text()
    elif len(sys.argv) == 5 and sys.argv[1] == "picture":
        picture(*sys.argv[2:])
    else:
        sys.exit(__doc__)


main()
