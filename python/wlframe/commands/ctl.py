"""Points at a display that runs, types, waits for what it shows, and takes pictures of it.

    tools/ctl [--control PATH] COMMAND ..

    click X Y [--button NAME] [--count N] [--window TITLE]      moves the pointer there and clicks: left, right, middle, side, extra or a number
    move X Y [--window TITLE]                                   moves the pointer
    drag X Y X Y [--steps N] [--button NAME] [--window TITLE]   presses at the first point, moves on in steps, and releases at the other
    scroll X Y DOWN [RIGHT] [--window TITLE]                    moves the pointer there and turns the wheel by clicks; below 0 up and left
    type TEXT                                                   types a text into the window that has the focus
    key CHORD                                                   presses a key, with others held: Tab, ctrl+a, shift+F10
    copy TEXT                                                   copies a text, which clients paste
    paste                                                       writes the text that was copied last, as it is
    resize W H [--window TITLE]                                 asks a window to have this size; 0 0 leaves it to the client
    shot FILE [--window TITLE]                                  writes what is shown, all or one window of it, as a PNG
    windows                                                     lists the windows that are shown, from bottom to top
    wait-idle [--seconds S] [--ignore X,Y,W,H]                  waits until the picture stayed the same for so long (0.2)
    wait-window [--title TITLE] [--app-id NAME]                 waits until such a window is shown, and tells where

Each waits at most 5 seconds (wait-idle 30), or --timeout S. What points or types waits for a first
window, or for the one that --window names. A click then counts in that window's own pixels.

PATH is the socket of `tools/run --control PATH` or `tools/display --control PATH`. WLFRAME_VIEWER
names it too, and is set for the clients of such a run.

    0    done, and the picture is complete
    1    it failed; standard error says why
    2    the words are wrong
    124  time ran out
"""
import argparse
import json
import os
import socket
import sys

from wlframe.control import NAMED
from wlframe.places import box

NAME = os.path.basename(sys.argv[0])
FAILED, TIME_OVER = 1, 124
COMMANDS = ("click", "move", "drag", "scroll", "type", "key", "copy", "paste", "resize", "shot", "windows", "wait-idle", "wait-window")
LATE = 60.0  # seconds that an answer may come behind the time that was asked


def seconds(text):
    value = float(text)
    if not 0 <= value < 1e6:
        raise ValueError
    return value


def button(text):
    return int(text) if text.isdecimal() else text


def parser_of():
    parser = argparse.ArgumentParser(prog=NAME, usage=f"{NAME} [--control PATH] COMMAND ..", formatter_class=argparse.RawDescriptionHelpFormatter)
    parser.description, parser.epilog = __doc__.partition("\n\n")[0], __doc__.partition("\n\n")[2].partition("\n\n")[2]
    parser.add_argument("--control", metavar="PATH", help="the display's socket")
    commands = parser.add_subparsers(dest="do", metavar="COMMAND", required=True)
    made = {it: commands.add_parser(it) for it in COMMANDS}
    for name, each in made.items():
        each.add_argument("--timeout", type=seconds, default=30.0 if name == "wait-idle" else 5.0, metavar="S")
        if name in ("click", "move", "drag", "scroll"):
            for point in ("x", "y") if name != "drag" else ("x", "y", "to_x", "to_y"):
                each.add_argument(point, type=int)
        if name in ("click", "drag"):
            each.add_argument("--button", type=button, default="left", metavar="NAME")
        if name in ("click", "move", "drag", "scroll", "resize", "shot"):
            each.add_argument("--window", metavar="TITLE")
    made["click"].add_argument("--count", type=int, default=1, metavar="N")
    made["drag"].add_argument("--steps", type=int, default=8, metavar="N")
    made["scroll"].add_argument("down", type=int, metavar="DOWN")
    made["scroll"].add_argument("right", type=int, nargs="?", default=0, metavar="RIGHT")
    for name in ("type", "copy"):
        made[name].add_argument("text", metavar="TEXT")
    made["key"].add_argument("chord", metavar="CHORD")
    for side in ("width", "height"):
        made["resize"].add_argument(side, type=int, metavar=side[0].upper())
    made["shot"].add_argument("path", metavar="FILE")
    made["wait-idle"].add_argument("--seconds", type=seconds, default=0.2, metavar="S")
    made["wait-idle"].add_argument("--ignore", type=box, action="append", default=[], metavar="X,Y,W,H")
    made["wait-window"].add_argument("--title")
    made["wait-window"].add_argument("--app-id")
    return parser


def request(asked):
    """What is asked of the display, of the words of the command line."""
    if asked["do"] == "drag":
        asked["begin"], asked["end"] = [asked.pop("x"), asked.pop("y")], [asked.pop("to_x"), asked.pop("to_y")]
    if asked["do"] == "shot":
        asked["path"] = os.path.abspath(asked["path"])
    return asked


def ask(path, asked):
    """What the display answers."""
    with socket.socket(socket.AF_UNIX) as asks:
        asks.settimeout(asked["timeout"] + LATE)
        try:
            asks.connect(path)
            asks.sendall(json.dumps(asked).encode() + b"\n")
            data = b""
            while not data.endswith(b"\n"):
                piece = asks.recv(1 << 16)
                if not piece:
                    return {"fault": f"{path}: the display ended", "kind": "ServerEnded"}
                data += piece
        except OSError as fault:
            return {"fault": f"{path}: no display answers there: {fault.strerror or fault}", "kind": "Failure"}
    return json.loads(data)


def write_text(text):
    """Writes what was copied, with no line's end behind it. The status."""
    if text is None:
        print(f"{NAME}: nothing was copied, or no text", file=sys.stderr)
        return FAILED
    sys.stdout.write(text)
    return 0


def main():
    parser = parser_of()
    asked = vars(parser.parse_args())
    path = asked.pop("control") or os.environ.get(NAMED)
    if not path:
        parser.error(f"which display? Name its socket by --control PATH, or by {NAMED} in the environment")
    told = ask(path, request(asked))
    if "fault" in told:
        print(f"{NAME}: {told['fault']}", file=sys.stderr)
        return TIME_OVER if told["kind"] in ("TimeOver", "NoWindow") else FAILED
    for it in told.get("windows", []):
        print(f"{it['width']}x{it['height']} at {it['x']}, {it['y']}: {it['kind']} {json.dumps(it['title'], ensure_ascii=False)} {it['app_id']}".rstrip())
    if asked["do"] == "paste":
        return write_text(told["text"])
    if asked["do"] == "wait-window":
        print("{width}x{height} at {x}, {y}".format(**told))
    return 0
