"""Which toplevels and popups the clients of the bridge have, and what they are called: told to who connects to a socket, as JSON.

    [{"connection": 2, "process": 4711, "surface": 14, "number": 1, "kind": "toplevel", "title": "GTK Demo", "app_id": "gtk4-demo", "geometry": [14, 12, 800, 600]}]

`connection` counts the connections to the server, of which the bridge's own is the first; `surface` is the id of the wl_surface; `number` counts the
toplevels and popups of the client, since ids are used again; `geometry` is what xdg_surface.set_window_geometry last asked for, in the surface's
coordinates, or null.
"""
import contextlib
import json
import os
import socket
import struct
import threading

from wlframe.wayland.objects import Object

KINDS = {"xdg_toplevel": "toplevel", "xdg_popup": "popup"}


class Titles:
    """The toplevels and popups of one client."""

    def __init__(self):
        self.count = 0
        self.surfaces: dict[int, dict] = {}  # by the id of the xdg_surface: what is known of it
        self.roles: dict[int, tuple[Object, dict]] = {}  # by the id of the toplevel or popup: the object, and what is known

    def follow(self, said, made):
        """Keeps what a request says of them. It has been followed by the client's objects, to which what it made belongs."""
        match said.name:
            case "xdg_wm_base.get_xdg_surface" if made is not None:
                self.surfaces[made.number] = {"surface": said.values[1], "geometry": None}
            case "xdg_surface.get_toplevel" | "xdg_surface.get_popup" if made is not None and said.target in self.surfaces:
                self.count += 1
                known = self.surfaces[said.target]
                known.update(number=self.count, kind=KINDS[made.interface], title=None, app_id=None)
                self.roles[made.number] = made, known
            case "xdg_surface.set_window_geometry" if said.target in self.surfaces:
                self.surfaces[said.target]["geometry"] = list(said.values)
            case "xdg_toplevel.set_title" | "xdg_toplevel.set_app_id" if said.target in self.roles:
                self.roles[said.target][1][said.message.name.removeprefix("set_")] = said.values[0]
            case "xdg_toplevel.destroy" | "xdg_popup.destroy":
                self.roles.pop(said.target, None)
            case "xdg_surface.destroy":
                self.surfaces.pop(said.target, None)

    def known(self):
        """What is known of each that is there."""
        return [dict(known) for made, known in list(self.roles.values()) if not made.ended]


def process_of(near):
    """The process at the other end of a client's socket."""
    return struct.unpack("3i", near.getsockopt(socket.SOL_SOCKET, socket.SO_PEERCRED, 12))[0]


def listed(bridge):
    """What is told of all clients that are there."""
    found = []
    for connection in list(bridge.live):
        client = connection.client
        with contextlib.suppress(OSError):
            if client is not None:
                found += [{"connection": client.number, "process": process_of(connection.near), **known} for known in client.titles.known()]
    return found


def answer(listener, bridge):
    """Tells each that connects, until the listener is closed."""
    while True:
        try:
            asker, _ = listener.accept()
        except OSError:
            return
        with asker, contextlib.suppress(OSError):
            asker.settimeout(5)
            asker.sendall(json.dumps(listed(bridge)).encode())


@contextlib.contextmanager
def served(path, bridge):
    """Tells of them at a socket with this path, if there is one. It is removed at the end."""
    if not path:
        yield
        return
    with socket.socket(socket.AF_UNIX) as listener:
        listener.bind(path)
        listener.listen(16)
        threading.Thread(target=answer, args=(listener, bridge), daemon=True).start()
        try:
            yield
        finally:
            with contextlib.suppress(OSError):
                listener.shutdown(socket.SHUT_RDWR)
            with contextlib.suppress(FileNotFoundError):
                os.remove(path)
