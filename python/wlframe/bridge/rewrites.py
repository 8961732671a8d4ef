"""What the bridge rewrites between a client and the server, as one table (docs/BRIDGE.md has it for people).

The server offers early versions of some globals, and many clients insist on later ones. Where it offers less than SHOWN, the bridge shows the later
version and rewrites what differs; where a later server offers as much, nothing is rewritten, since each row looks at the version that the server has.
"""
import dataclasses
import itertools
import struct
import typing

from wlframe.bridge.serials import NONE
from wlframe.wayland.table import INTERFACES
from wlframe.wayland.wire import HEADER, message, spell

# The versions that clients are shown, where the server offers an earlier one.
SHOWN = {"wl_output": 3, "wl_seat": 7}
SEAT_NAME = "seat0"
POINTER_EVENTS = ("enter", "leave", "motion", "button")  # those that the server sends
# The messages with a serial; that of xdg_popup.grab has a row of its own, and others stay here.
TELL_SERIALS = ("wl_pointer.enter", "wl_pointer.leave", "wl_pointer.button", "xdg_wm_base.ping", "xdg_surface.configure")
HAND_BACK_SERIALS = (
    *("wl_pointer.set_cursor", "xdg_wm_base.pong", "xdg_positioner.set_parent_configure", "xdg_surface.ack_configure"),
    *("xdg_toplevel.show_window_menu", "xdg_toplevel.move", "xdg_toplevel.resize"),
)
STEP, ROUND = 32, 8  # points by which each toplevel is shown further to the right and down than the one before, and after how many one is at the corner again
LARGE = 1 << 26  # bytes of a pool above which the server isn't told of it
CAPABILITIES = INTERFACES["wl_seat"].enums["capability"].values
STATES = INTERFACES["xdg_toplevel"].enums["state"].values
# By the requests of a toplevel for a state: the state, and whether it is asked for or given up.
ASKS = {
    "set_fullscreen": ("fullscreen", True),
    "unset_fullscreen": ("fullscreen", False),
    "set_maximized": ("maximized", True),
    "unset_maximized": ("maximized", False),
}


def event(target, name, *values):
    """An event to an object."""
    said = INTERFACES[target.interface].event_named(name)
    return message(target.number, said.opcode, spell(said, values))


def request(target, name, *values):
    """A request to an object."""
    said = INTERFACES[target.interface].named(name)
    return message(target.number, said.opcode, spell(said, values))


def show_global(client, said):
    name, interface, version = said.values
    own = [event(said.object, "global", name, *of) for name, of in client.seat.globals.items()] if said.object.state is None else []
    said.object.state = "told"
    client.offered[name] = interface, version
    return [event(said.object, "global", name, interface, max(version, SHOWN.get(interface, 0))), *own]


def bind_own_global(client, said):
    name, (_, _, made) = said.values
    if name not in client.seat.globals:
        return None
    client.objects.by_id[made].served = 0
    return []


def lower_bind(client, said):
    name, (interface, version, made) = said.values
    offered = client.offered.get(name, (None, 0))
    if offered[0] != interface or not offered[1] < version <= SHOWN.get(interface, 0):
        return None
    client.objects.by_id[made].served = offered[1]
    return [request(said.object, "bind", name, (interface, offered[1], made))]


def show_keyboard(client, said):
    if client.seat.keyboards is None:
        return None
    return [event(said.object, "capabilities", said.values[0] | CAPABILITIES["keyboard"])]


def make_keyboard(client, said):
    if client.seat.keyboards is None:
        return None
    made = client.objects.by_id[said.values[0]]
    made.served = 0
    client.seat.keyboards.add(made)
    return []


def with_serial(said, number):
    """The bytes of a message with another serial."""
    at = HEADER + 4 * [it.name for it in said.message.arguments].index("serial")
    return said.data[:at] + struct.pack("<I", number) + said.data[at + 4 :]


def serial_of(said):
    return said.values[[it.name for it in said.message.arguments].index("serial")]


def count_in(client, said):
    number = client.serials.told(serial_of(said))
    return [with_serial(said, number)] if number != serial_of(said) else None


def count_out(client, said):
    meant = client.serials.meant(serial_of(said))
    meant = NONE if meant is None else meant
    return [with_serial(said, meant)] if meant != serial_of(said) else None


def grab_by_key(client, said):
    windows, meant = client.seat.windows, client.serials.meant(serial_of(said))
    if windows.keeps(said.target) or meant is None and not windows.clicked and windows.may_grab(said.target):
        windows.kept.append(said.target)
        return []
    return [with_serial(said, windows.clicked if meant is None else meant)]


def name_seat(client, said):
    return [said.data, event(said.object, "name", SEAT_NAME)] if said.object.version >= 2 > said.object.served else None


def frame_pointer(client, said):
    pointer = INTERFACES["wl_pointer"]
    if said.object.ended and pointer.named("release").since > said.object.served:
        return []  # the server doesn't know that it was released
    since = pointer.event_named("frame").since
    return [said.data, event(said.object, "frame")] if said.object.version >= since > said.object.served else None


def finish_output(client, said):
    if not said.object.version >= 2 > said.object.served:
        return None
    return [said.data, event(said.object, "scale", 1), event(said.object, "done")]


def swallow(client, said):
    return [] if said.message.since > said.object.served else None


def keep_large_pool(client, said):
    return [] if client.objects.by_id[said.values[0]].served == 0 else None


def pass_on(client, said):
    return None


def keep_own_answer(client, said):
    return [] if said.target in client.own_ids else None


def keep_own_id(client, said):
    if said.values[0] not in client.own_ids:
        return None
    client.own_ids.remove(said.values[0])
    return []


def note_state(client, said):
    state, is_asked = ASKS[said.message.name]
    states = said.object.state or set()
    said.object.state = states | {state} if is_asked else states - {state}


def states_of(client, toplevel):
    return (toplevel.state or set()) | ({"fullscreen"} if client.is_fullscreen else set())


def begin_at_corner(client, said):
    windows, (buffer, x, y) = client.seat.windows, said.values
    toplevel = windows.to_be_mapped(said.target)
    at = STEP * (windows.focus.mappings % ROUND)
    if not (buffer and at and toplevel and states_of(client, client.objects.by_id[toplevel])):
        return None
    return [request(said.object, "attach", buffer, x - at, y - at)]


def fill_output(client, said):
    states = states_of(client, said.object)
    if not states:
        size = client.seat.sizes.get(said.target, (0, 0))
        return [event(said.object, "configure", *size, said.values[2])] if size != (0, 0) else None
    told = said.values[2] + b"".join(STATES[it].to_bytes(4, "little") for it in sorted(states))
    return [event(said.object, "configure", *client.output, told)]


@dataclasses.dataclass(frozen=True)
class Rewriting:
    """What is done with a message, why, and whether a client could tell. `rewrite` takes the client and what was said, and answers the messages that go
    on in its place, or None where it goes on as it is."""

    of: str  # as 'wl_seat.release'
    kind: str  # request or event
    does: str
    why: str
    exact: str
    rewrite: typing.Callable


REWRITINGS = (
    Rewriting(
        "wl_registry.global",
        "event",
        f"shows {', '.join(f'{name} as version {version}' for name, version in SHOWN.items())}, and besides the bridge's own globals (below)",
        "clients leave where they find less, or bind a later version without looking (foot, wev)",
        "as exact as the rows below; what versions 6 and 7 of wl_seat brought is never sent",
        show_global,
    ),
    Rewriting(
        "wl_registry.bind",
        "request",
        "a bind of a global of the bridge's own stays here, and so does what is asked of it and of the objects that it makes",
        "the server has none of them; GTK, Qt, mpv and weston's toolkit want a clipboard",
        "as the table below says",
        bind_own_global,
    ),
    Rewriting(
        "wl_registry.bind",
        "request",
        "a bind of a version that is shown asks the server for the version that it has",
        "the server refuses a bind of more than it offers",
        "as exact as the rows below",
        lower_bind,
    ),
    Rewriting(
        "wl_seat.capabilities",
        "event",
        "has keyboard beside pointer, where the bridge has one",
        "the server has no keyboard; clients want one to be typed into",
        "yes",
        show_keyboard,
    ),
    Rewriting(
        "wl_seat.get_keyboard",
        "request",
        "stays here, and so does what is asked of the wl_keyboard: the bridge is the keyboard (below). Where it has none it goes on, and is refused",
        "the server refuses it with missing_capability",
        "as exact as the keyboard",
        make_keyboard,
    ),
    *(
        Rewriting(
            of,
            "event",
            "has a serial that is greater by as many as the bridge drew before it, for keys say",
            "clients compare serials to tell which came later",
            "yes: a client gets the numbers 1, 2, 3 and so on from both",
            count_in,
        )
        for of in TELL_SERIALS
    ),
    *(
        Rewriting(
            of,
            "request",
            f"has the serial that the server knows; {NONE}, which it never draws, for one that the bridge drew",
            "for the row above",
            "yes: a move by a key's serial has no effect, and the server looks at no other of these but ack_configure's",
            count_out,
        )
        for of in HAND_BACK_SERIALS
    ),
    Rewriting(
        "xdg_popup.grab",
        "request",
        "has the serial that the server knows; for one that the bridge drew that of the latest press or release that the client was told of. Where there "
        "was none, or the parent's grab stays here, it stays here",
        "menus are opened by keys too, and the server would dismiss them",
        "but for a grab that stays here: a press on another client's window dismisses its popup, and one beside all windows doesn't",
        grab_by_key,
    ),
    Rewriting(
        "wl_seat.capabilities",
        "event",
        f"sends the name {SEAT_NAME} behind, where version 2 or later was bound",
        "it is there since version 2",
        "yes",
        name_seat,
    ),
    Rewriting(
        "wl_seat.release",
        "request",
        "is swallowed",
        "it is there since version 5",
        "but for the id, which isn't given back: the client never uses it again",
        swallow,
    ),
    Rewriting(
        "wl_pointer.release",
        "request",
        "is swallowed",
        "it is there since version 3",
        "but for the id, which isn't given back: the client never uses it again",
        swallow,
    ),
    *(
        Rewriting(
            f"wl_pointer.{name}",
            "event",
            "sends frame behind, where version 5 or later was bound; isn't passed on where the client has released the wl_pointer",
            "frame is there since version 5, and clients do what they are told of the pointer once it comes; of release the server isn't told",
            "yes: leave and enter have a frame each, and no client may count on one for both",
            frame_pointer,
        )
        for name in POINTER_EVENTS
    ),
    Rewriting(
        "wl_output.mode",
        "event",
        "sends scale 1 and done behind, where version 2 or later was bound",
        "they are there since version 2, and clients wait for done before they open a window",
        "yes: the output has a pixel for each of its points, and mode is the last that the server tells of it",
        finish_output,
    ),
    Rewriting(
        "wl_output.release",
        "request",
        "is swallowed",
        "it is there since version 3",
        "but for the id, which isn't given back: the client never uses it again",
        swallow,
    ),
    Rewriting(
        "wl_shm.create_pool",
        "request",
        f"a pool of more than {LARGE >> 20} MB stays here; each of its buffers gets a pool of its own at the server, of just its bytes",
        "the server takes 256 MB of pools of a client, and reads them whole in each turn in which it hears of it; foot makes one of 512 MB",
        "yes, as long as there are at most 64 such buffers and other pools: so many stores a client can have",
        keep_large_pool,
    ),
    Rewriting(
        "wl_surface.commit",
        "request",
        "may have a wl_display.sync of the bridge's own behind it",
        "its answer tells that the server has read what was committed",
        "yes: it has an id from 0xFE000000 on, as the pools above have",
        pass_on,
    ),
    Rewriting(
        "wl_callback.done",
        "event",
        "isn't passed on for these syncs",
        "the client doesn't know of them",
        "yes",
        keep_own_answer,
    ),
    Rewriting(
        "wl_display.delete_id",
        "event",
        "isn't passed on for these pools and syncs",
        "the client doesn't know of them",
        "yes",
        keep_own_id,
    ),
    Rewriting(
        "xdg_toplevel.configure",
        "event",
        "has the output's size and the state fullscreen or maximized, while the client asks for it; with `--fullscreen` always the first; else the size that "
        "a line `size` asked for (below)",
        "the server answers whoever asks with no size and no state, and some then show nothing; kiosks fill the output",
        "no: the server doesn't know of it. One that asks once it is shown stays where it is",
        fill_output,
    ),
    Rewriting(
        "wl_surface.attach",
        "request",
        "has an offset that brings a toplevel that is to fill the output to its corner, as it is mapped",
        f"the server shows each toplevel {STEP} points further to the right and down than the one before, and every {ROUND}th at the corner",
        "but where several clients map one at the same moment",
        begin_at_corner,
    ),
    *(
        Rewriting(
            f"xdg_toplevel.{name}",
            "request",
            "goes on as it is, and is kept in mind",
            "for the row above",
            "yes",
            note_state,
        )
        for name in ASKS
    ),
)
BY_MESSAGE = {}
for _it in REWRITINGS:
    BY_MESSAGE.setdefault((_it.kind, _it.of), []).append(_it.rewrite)


def rewritten(client, kind, said):
    """The messages that go on in place of one: what the first row that changes it makes of it, and what each later one makes of the first of these."""
    passed = [said.data]
    for rewrite in BY_MESSAGE.get((kind, said.name), ()):
        made = rewrite(client, said)
        if made is not None:
            said = dataclasses.replace(said, data=made[0]) if made else said
            passed = made + passed[1:]
            if not made:
                break
    return passed


def in_markdown():
    """The table as docs/BRIDGE.md has it. Rows that differ in their message alone are one there."""
    rows = ["| message | what is done | why | exact |", "|---|---|---|---|"]
    for (kind, *said), alike in itertools.groupby(REWRITINGS, lambda it: (it.kind, it.does, it.why, it.exact)):
        rows.append(f"| {', '.join(f'`{it.of}`' for it in alike)}, {kind} | {' | '.join(said)} |")
    return "\n".join(rows) + "\n"
