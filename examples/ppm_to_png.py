#!/usr/bin/env python3
"""Writes each frame of a PPM file as a PNG image: FOLDER/0001.png, FOLDER/0002.png, and so on.

    examples/ppm_to_png.py FRAMES FOLDER
    examples/ppm_to_png.py --row FRAMES IMAGE    all of them in one image, from left to right

FRAMES is the file that `wlframe replay --ppm FRAMES` wrote. The folder is made where it isn't there.
"""
import pathlib
import sys

sys.path.insert(0, str(pathlib.Path(__file__).resolve().parent.parent / "python"))
from wlframe.pictures import Picture, Unreadable, png, read  # pylint: disable=wrong-import-position

GAP = 4  # columns between two frames of a row


def row(images):
    """The frames of one file, all of one size, as one image: from left to right, with white columns between them."""
    images = list(images)
    if not images:
        raise Unreadable("it holds no image")
    width, height, _ = images[0]
    lines = ((image[3 * y * width : 3 * (y + 1) * width] for _, _, image in images) for y in range(height))
    return Picture(len(images) * (width + GAP) - GAP, height, b"".join((b"\xff" * 3 * GAP).join(line) for line in lines))


def main():
    in_row = sys.argv[1:2] == ["--row"]
    words = sys.argv[1 + in_row :]
    if len(words) != 2:
        sys.exit(__doc__)
    source, to = map(pathlib.Path, words)
    try:
        with open(source, "rb") as stream:
            if in_row:
                to.write_bytes(png(row(read(stream))))
                return
            to.mkdir(parents=True, exist_ok=True)
            for number, frame in enumerate(read(stream), 1):
                (to / f"{number:04}.png").write_bytes(png(frame))
    except Unreadable as mistake:
        sys.exit(f"{source}: {mistake}")
    except OSError as fault:
        sys.exit(f"{fault.filename}: {fault.strerror}")


if __name__ == "__main__":
    main()
