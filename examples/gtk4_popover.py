#!/usr/bin/env python3
"""A GTK 4 window with a popover that goes from point to point, by xdg_popup.reposition, and then leaves.

    tools/run --size 272x256 --frames frames -- examples/gtk4_popover.py

It needs PyGObject and GTK 4 (Debian: python3-gi, gir1.2-gtk-4.0).
"""
import sys

import gi

gi.require_version("Gdk", "4.0")
gi.require_version("Gtk", "4.0")
from gi.repository import Gdk, GLib, Gtk  # pylint: disable=wrong-import-position

POINTS = (60, 40), (180, 40), (180, 120), (60, 120), (120, 80)  # of the area below the title
PAUSE = 500  # milliseconds between two steps


def point_to(popover, x, y):
    """Lets a popover, shown or not, point at this point of the widget that it hangs on."""
    place = Gdk.Rectangle()
    place.x, place.y, place.width, place.height = x, y, 1, 1
    popover.set_pointing_to(place)
    popover.popup()
    popover.present()


def activate(application):
    window = Gtk.ApplicationWindow(application=application, title="popover", default_width=240, default_height=200)
    area = Gtk.DrawingArea(hexpand=True, vexpand=True)
    window.set_child(area)
    popover = Gtk.Popover(autohide=False, child=Gtk.Label(label="here"))
    popover.set_parent(area)
    points = iter(POINTS)

    def step():
        at = next(points, None)
        if at is None:
            application.quit()
            return False
        point_to(popover, *at)
        return True

    window.present()
    GLib.timeout_add(PAUSE, step)


def main():
    application = Gtk.Application()
    application.connect("activate", activate)
    return application.run([])


if __name__ == "__main__":
    sys.exit(main())
