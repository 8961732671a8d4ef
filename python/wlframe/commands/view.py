"""Shows a display that runs to VNC viewers, by wayvnc, and to browsers, by noVNC and websockify, where they are installed.

    tools/view [--host ADDRESS] [--port N] [--page-port N] [--password FILE] [--layout NAME]

The display is the one that WAYLAND_DISPLAY names, of tools/display or of the bridge with --viewer:

    tools/display --control /tmp/ctl > /tmp/env &
    until [ -s /tmp/env ]; do sleep 0.1; done; . /tmp/env
    gtk4-demo &
    tools/view

It prints where the display is found: on 127.0.0.1 alone, or at the address of --host. Another
address needs --password. VNC viewers and browsers ask for that password and the user wlframe.

With a password VNC viewers connect by TLS, with a certificate that they don't know. Browsers don't
use TLS: an SSH tunnel is safer for them.

A viewer types by the layout us, or by that of --layout. Letters that the layout lacks aren't typed.

It ends with status 0 at SIGTERM, SIGINT or SIGHUP, and with 1 where something failed or the display
ended.
"""
import argparse
import os
import signal
import sys

from wlframe.faults import Failure
from wlframe.processes import Household, ready
from wlframe.view import View, Viewed

NAME = os.path.basename(sys.argv[0])
TICK = 0.5  # seconds between two looks at what has ended


class Stopped(Exception):
    """Someone asks for the end."""


def stop(*_):
    raise Stopped


def asked_of():
    parser = argparse.ArgumentParser(prog=NAME, description=__doc__, formatter_class=argparse.RawDescriptionHelpFormatter)
    parser.add_argument("--host", default="127.0.0.1", metavar="ADDRESS", help="listen at this address (127.0.0.1)")
    parser.add_argument("--port", type=int, metavar="N", help="the port for VNC viewers (the first free one from 5900 on)")
    parser.add_argument("--page-port", type=int, metavar="N", help="the port for browsers (the first free one from 6080 on)")
    parser.add_argument("--password", metavar="FILE", help="take the password from its first line")
    parser.add_argument("--layout", metavar="NAME", help="the layout of the viewer's keyboard, as xkb names it: de, fr-bepo (us)")
    return parser.parse_args()


def keep_up(viewed):
    """Waits until something ends that has to go on."""
    while True:
        ready([viewed.household], TICK)
        viewed.household.take(0)
        if why := viewed.ended():
            raise Failure(why)


def main():
    view = View(**vars(asked_of()))
    if not os.environ.get("WAYLAND_DISPLAY"):
        print(f"{NAME}: which display? Set WAYLAND_DISPLAY to it, as tools/display prints", file=sys.stderr)
        return 1
    for each in (signal.SIGTERM, signal.SIGINT, signal.SIGHUP):
        signal.signal(each, stop)
    household = Household()
    try:
        viewed = Viewed(view, household, os.environ)
        print("\n".join(viewed.sentences), flush=True)
        keep_up(viewed)
    except Stopped:
        return 0
    except Failure as fault:
        print(f"{NAME}: {fault}", file=sys.stderr)
        return 1
    finally:
        household.close()
