"""Which of a client's requests was refused, found by the error that the server sent."""
import collections

from wlframe.wayland.table import error_named
from wlframe.wayland.wire import DISPLAY

KEPT = 4096  # requests that may not have been served yet
# By the interface of an error's object and the error: the requests that can be refused so (docs/PROTOCOL.md). Those of wl_display come below.
CAUSES = {
    ("wl_shm", "invalid_stride"): "wl_shm.create_pool",
    ("wl_shm_pool", "invalid_format"): "wl_shm_pool.create_buffer",
    ("wl_shm_pool", "invalid_stride"): "wl_shm_pool.create_buffer",
    ("wl_shm_pool", "invalid_fd"): "wl_shm_pool.resize",
    ("wl_surface", "invalid_scale"): "wl_surface.set_buffer_scale",
    ("wl_surface", "invalid_transform"): "wl_surface.set_buffer_transform",
    ("wl_surface", "invalid_size"): "wl_surface.commit",
    ("wl_surface", "defunct_role_object"): "wl_surface.destroy",
    ("wl_subcompositor", "bad_surface"): "wl_subcompositor.get_subsurface",
    ("wl_subcompositor", "bad_parent"): "wl_subcompositor.get_subsurface",
    ("wl_subsurface", "bad_surface"): "wl_subsurface.place_above wl_subsurface.place_below",
    ("wl_seat", "missing_capability"): "wl_seat.get_keyboard wl_seat.get_touch",
    ("wl_pointer", "role"): "wl_pointer.set_cursor",
    ("xdg_wm_base", "role"): "xdg_wm_base.get_xdg_surface xdg_surface.get_toplevel xdg_surface.get_popup",
    ("xdg_wm_base", "defunct_surfaces"): "xdg_wm_base.destroy",
    ("xdg_wm_base", "not_the_topmost_popup"): "xdg_popup.destroy",
    ("xdg_wm_base", "invalid_popup_parent"): "xdg_surface.get_popup",
    ("xdg_wm_base", "invalid_surface_state"): "xdg_wm_base.get_xdg_surface",
    ("xdg_wm_base", "invalid_positioner"): "xdg_surface.get_popup xdg_popup.reposition",
    ("xdg_positioner", "invalid_input"): "xdg_positioner.set_size xdg_positioner.set_anchor_rect xdg_positioner.set_anchor xdg_positioner.set_gravity",
    ("xdg_surface", "not_constructed"): "xdg_surface.set_window_geometry xdg_surface.ack_configure",
    ("xdg_surface", "already_constructed"): "xdg_surface.get_toplevel xdg_surface.get_popup",
    ("xdg_surface", "unconfigured_buffer"): "wl_surface.commit",
    ("xdg_surface", "invalid_serial"): "xdg_surface.ack_configure",
    ("xdg_surface", "invalid_size"): "xdg_surface.set_window_geometry",
    ("xdg_surface", "defunct_role_object"): "xdg_surface.destroy",
    ("xdg_popup", "invalid_grab"): "xdg_popup.grab",
}
MAX_CLIENT_ID = 0xFEFFFFFF


class Asked:
    """A request that went to the server, with what can be told of it at that time: only what the client has then tells whether it is right."""

    def __init__(self, said, client, was_in_use=False):
        self.said = said
        self.lacks_object = said.object is None or said.object.ended or was_in_use or self.makes_badly(client)
        self.is_bad = said.values is None or said.message.since > said.object.served or self.names_badly(client.objects)

    def makes_badly(self, client):
        """Whether it makes an object under an id that no client's object has, or binds what isn't offered."""
        made = self.said.made() if self.said.values is not None else None
        is_bad_bind = self.said.name == "wl_registry.bind" and not client.can_bind(*self.said.values)
        return is_bad_bind or made is not None and not 0 < made[2] <= MAX_CLIENT_ID

    def names_badly(self, objects):
        """Whether it names an object that isn't there, or is of another interface than it wants."""
        for argument, number in zip(self.said.message.arguments, self.said.values):
            if argument.kind == "object" and not (number == 0 and argument.nullable):
                named = objects.by_id.get(number)
                if named is None or named.ended or argument.interface not in (None, named.interface):
                    return True
        return False


class Waiting:
    """The requests of a client that went to the server and that nothing tells were served. An id that is given back tells it of the request that
    made or ended its object, and of all before."""

    def __init__(self):
        self.requests = collections.deque(maxlen=KEPT)
        self.count = 0
        self.last = {}  # by id: the number of the last request that made or ended its object

    def add(self, asked):
        """A request goes to the server."""
        self.count += 1
        self.requests.append((self.count, asked))
        said = asked.said
        made = said.made() if said.values is not None else None
        if made is not None:
            self.last[made[2]] = self.count
        elif said.object is not None and said.object.ended:
            self.last[said.target] = self.count

    def own(self, number):
        """An object of the bridge's own is made: its id, given back, tells that all before was served."""
        self.last[number] = self.count

    def served(self, number):
        """An id is given back."""
        until = self.last.pop(number, 0)
        while self.requests and self.requests[0][0] <= until:
            self.requests.popleft()

    def refused(self, objects, target, code):
        """The request that an error is for, if one can be, and whether it can be no other."""
        interface = objects.interface_of(target)
        waiting = [asked for _, asked in self.requests]
        if target == DISPLAY:
            return first_of_display(waiting, error_named(interface, code))
        causes = CAUSES.get((interface, error_named(interface, code)), "").split()
        found = [it for it in waiting if it.said.name in causes]
        named = {target, objects.by_id[target].state} if target in objects.by_id else {target}  # an xdg_surface and its surface
        found = [it for it in found if it.said.target in named] or found
        return (found[0].said, len(found) == 1) if found else (None, False)


def first_of_display(waiting, error):
    """The first of these requests that the display refuses with this error. What is misspelled or unknown is refused for certain."""
    match error:
        case "invalid_object":
            found = [it for it in waiting if it.lacks_object]
        case "invalid_method":
            found = [it for it in waiting if it.is_bad]
        case _:
            found = []
    if found:
        return found[0].said, True
    return (waiting[-1].said, len(waiting) == 1) if waiting else (None, False)


def in_words(objects, said, sure, values):
    """What was refused and why, in one line."""
    target, code, text = values
    error = f"{objects.name_of(target)} error {code}, {error_named(objects.interface_of(target), code) or text}"
    if said is None:
        return f"was refused a request that isn't known: {error}"
    version = f", at version {said.object.version}" if said.object else ""
    lowered = f" ({said.object.served} for the server)" if said.object and said.object.served != said.object.version else ""
    return f"was refused{'' if sure else ', likely,'} {objects.in_words(said, labels=True)}{version}{lowered}: {error}"
