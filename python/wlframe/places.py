"""Where the package and what belongs to it stand."""
import argparse
import pathlib
import re
import sys

PACKAGE = pathlib.Path(__file__).resolve().parent
TOP = PACKAGE.parent.parent  # the checkout, or where tools/install puts what the tools share


def command(name: str) -> list[str]:
    """The words that start one of the package's commands as a process of its own."""
    begin = f"import sys; sys.argv[0] = {name!r}; sys.path.insert(0, {str(PACKAGE.parent)!r}); from wlframe.commands.{name} import main; sys.exit(main())"
    return [sys.executable, "-c", begin]


def box(text: str) -> tuple[int, int, int, int]:
    """A box of pixels of a command line, as 10,20,100,30."""
    if not re.fullmatch(r"\d{1,5},\d{1,5},\d{1,5},\d{1,5}", text, re.ASCII):
        raise argparse.ArgumentTypeError(f"{text}: write a box as X,Y,W,H, like 10,20,100,30")
    x, y, width, height = map(int, text.split(","))
    return x, y, width, height
