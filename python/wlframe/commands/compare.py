"""Compares two pictures, or two sequences of frames.

    tools/compare A B [--tolerance N] [--max-pixels N] [--mask X,Y,W,H] [--diff FILE]

A and B are each a PPM file with one image or more (as `wlframe --ppm` writes it), a PNG, a folder of such files, which are taken in the order of
their names, or - for standard input. Status 0: they are equal, and nothing is printed. 1: they differ, and one line says in which frame first,
at how many of its pixels, and where first. 2: one of them can't be read, or the words are wrong; standard error says why.

--tolerance N takes two pixels as equal whose red, green and blue each differ by at most N (0 to 255; 0 if left out). --max-pixels N takes two frames as equal that
differ at N pixels at most. --mask X,Y,W,H leaves the pixels of a box out, as those of a clock; it may be given several times. --diff FILE writes the first frame that differs as a PNG:
A's picture, paled, with the pixels that differ in red. What a PNG says of transparency isn't looked at.
"""
import argparse
import itertools
import os
import pathlib
import sys

from wlframe import pictures
from wlframe.comparing import difference
from wlframe.places import box

NAME = os.path.basename(sys.argv[0])
EQUAL, DIFFERENT, FAILED = 0, 1, 2


def frames(name):
    """The frames that a word of the command line names."""
    if name == "-":
        yield from read(name, sys.stdin.buffer)
        return
    path = pathlib.Path(name)
    files = sorted(it for it in path.iterdir() if it.suffix in (".png", ".ppm")) if path.is_dir() else [path]
    for file in files:
        with open(file, "rb") as stream:
            yield from read(file, stream)


def read(name, stream):
    try:
        yield from pictures.read(stream)
    except pictures.Unreadable as reason:
        raise pictures.Unreadable(f"{name}: {reason}") from None


def compare(asked):
    """Compares frame by frame, says what differs first, and returns the status."""
    counted = [0, 0]
    for number, pair in enumerate(itertools.zip_longest(frames(asked.first), frames(asked.second)), 1):
        counted = [count + (it is not None) for count, it in zip(counted, pair)]
        if None in pair:
            shorter = asked.first if pair[0] is None else asked.second
            print(f"{shorter} has {number - 1} {'frame' if number == 2 else 'frames'}, and the other has more")
            return DIFFERENT
        found = difference(*pair, asked.tolerance, asked.mask, asked.max_pixels)
        if found:
            print(f"{asked.first} {asked.second}: frame {number} {found.text}")
            picture = found.picture() if asked.diff else None
            if picture is not None:
                pathlib.Path(asked.diff).write_bytes(pictures.png(picture, level=1))
            return DIFFERENT
    if counted == [0, 0]:
        raise pictures.Unreadable(f"{asked.first} and {asked.second} hold no picture")
    return EQUAL


def main():
    parser = argparse.ArgumentParser(description="Compares two pictures, or two sequences of frames: PPM, PNG or folders of them.")
    parser.add_argument("first", metavar="A")
    parser.add_argument("second", metavar="B")
    parser.add_argument("--tolerance", type=int, default=0, metavar="N", help="let red, green and blue differ by so much, 0 to 255 (0)")
    parser.add_argument("--max-pixels", type=int, default=0, metavar="N", help="let two frames differ at so many pixels (0)")
    parser.add_argument("--mask", type=box, action="append", default=[], metavar="X,Y,W,H", help="leave this box out; may be given several times")
    parser.add_argument("--diff", metavar="FILE", help="write the first frame that differs as a PNG, its differing pixels in red")
    asked = parser.parse_args()
    if not 0 <= asked.tolerance <= 255:
        parser.error(f"--tolerance {asked.tolerance}: give a number from 0 to 255")
    if asked.max_pixels < 0:
        parser.error(f"--max-pixels {asked.max_pixels}: give 0 or more")
    try:
        return compare(asked)
    except pictures.Unreadable as reason:
        print(f"{NAME}: {reason}", file=sys.stderr)
    except OSError as fault:
        print(f"{NAME}: {fault.filename or asked.diff}: {os.strerror(fault.errno)}", file=sys.stderr)
    return FAILED
