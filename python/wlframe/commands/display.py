"""Starts a display for clients and tools/ctl, and keeps it up until it is ended.

    tools/display --control PATH [--size WxH] [--rate HZ] [--record FILE] [--trace FILE] [--fullscreen] [--program FILE]
                  [--view] [--password FILE]

Once it is up it prints how clients find it, as lines that a shell takes:

    tools/display --control /tmp/ctl > /tmp/env &
    until [ -s /tmp/env ]; do sleep 0.1; done; . /tmp/env
    gtk4-demo &
    tools/ctl wait-window && tools/ctl shot shot.png

Clients may take pictures of it and point, as grim, wlrctl and wayvnc do.

--view starts wayvnc, and noVNC for browsers, on 127.0.0.1. Standard error tells where. The password
is the first line of --password FILE, and the user is wlframe.

It ends with status 0 at SIGTERM, SIGINT or SIGHUP. It ends with status 1 where something failed,
and standard error says what. It doesn't end clients that others started.
"""
import argparse
import os
import shlex
import signal
import sys

from wlframe import surroundings
from wlframe.commands.run import size
from wlframe.control import Control
from wlframe.display import Display
from wlframe.faults import Failure
from wlframe.view import View

NAME = os.path.basename(sys.argv[0])


class Stopped(Exception):
    """Someone asks for the end."""


def stop(*_):
    raise Stopped


def asked_of():
    parser = argparse.ArgumentParser(prog=NAME, description=__doc__, formatter_class=argparse.RawDescriptionHelpFormatter)
    parser.add_argument("--control", required=True, metavar="PATH", help="make a socket there for tools/ctl")
    parser.add_argument("--size", type=size, default=(1024, 768), metavar="WxH", help="the sides in pixels (1024x768)")
    parser.add_argument("--rate", type=int, default=60, metavar="HZ", help="frames a second (60)")
    parser.add_argument("--record", metavar="FILE", help="write a recording of all that is served")
    parser.add_argument("--trace", metavar="FILE", help="write each request and event in words")
    parser.add_argument("--program", metavar="FILE", help="the program wlframe (that of WLFRAME, or the built one)")
    parser.add_argument("--fullscreen", action="store_true", help="ask clients to fill the output")
    parser.add_argument("--view", action="store_true", help="show it to VNC viewers and browsers")
    parser.add_argument("--password", metavar="FILE", help="take the view's password from its first line")
    asked = parser.parse_args()
    if asked.password and not asked.view:
        parser.error("--password needs --view")
    return asked


def keep_up(display, control):
    """Tells how it is found, and keeps it up."""
    found = {**surroundings.environment(display.folder), **control.environment()}
    for name in sorted(found):
        if found[name] != os.environ.get(name):
            print(f"export {name}={shlex.quote(found[name])}")
    print("unset DISPLAY WAYLAND_SOCKET", flush=True)
    while True:
        display.turn(1.0)


def main():
    asked = vars(asked_of())
    for each in (signal.SIGTERM, signal.SIGINT, signal.SIGHUP):
        signal.signal(each, stop)
    path, password = asked.pop("control"), asked.pop("password")
    asked["view"] = asked["view"] and View(password=password)
    try:
        with Display(**asked, share=True, echo=True) as display, Control(display, path) as control:
            display.is_strict = False
            keep_up(display, control)
    except Stopped:
        return 0
    except (Failure, ValueError) as fault:
        print(f"{NAME}: {fault}", file=sys.stderr)
        return 1
