"""What a client of these measurements sends first: the ids of its globals, the requests that bind them, and toplevels."""
from frames import message
from wlframe.wayland.table import GLOBALS, INTERFACES

REGISTRY, COMPOSITOR, SUBCOMPOSITOR, SHM, OUTPUT, SEAT, BASE, FIRST = 2, 3, 4, 5, 6, 7, 8, 9  # ids
BEGIN = message(1, 1, REGISTRY) + b"".join(
    message(REGISTRY, 0, 1 + place, interface, INTERFACES[interface].version, COMPOSITOR + place) for place, interface in enumerate(GLOBALS)
)
BEGUN = 1 + len(GLOBALS)  # requests


def shown(surface, serial, buffer=None, moved=(0, 0)):
    """Makes the toplevel surface + 2 of an xdg_surface surface + 1; where there is a buffer, maps it, moved from its place: its configure has the serial."""
    made = message(COMPOSITOR, 0, surface) + message(BASE, 2, surface + 1, surface) + message(surface + 1, 1, surface + 2)
    if buffer is None:
        return made
    return made + message(surface, 6) + message(surface + 1, 4, serial) + message(surface, 1, buffer, *moved) + message(surface, 6)
