"""The protocol as one table: every request and event of the interfaces that the tools speak of, with what its numbers are called.

    from wlframe.wayland.table import INTERFACES, GLOBALS
    INTERFACES["wl_surface"].requests[1].name          # 'attach'
    INTERFACES["wl_shm"].named("create_pool").opcode   # 0

examples/compose.py, tools/bridge, tools/words and the tests of the tools read it, and docs/check-protocol compares it with docs/PROTOCOL.md, with
the table that decoding is proved against, and with the protocol's own descriptions in XML. It has messages of later versions than the server
offers, and interfaces that it doesn't serve at all, so that what is refused can be named.
"""
import dataclasses
import re

from wlframe.wayland import extra

# An interface's name, with the version that the server offers where it is a global; then its messages in the order of their opcodes, with the
# version that each came with where that isn't 1, and its arguments as docs/PROTOCOL.md writes them, behind an int, a uint or an array the enum
# that it is of; then its enums, of which wl_shm.format has only what the server takes.
TABLE = """
wl_display
    request sync callback: new_id wl_callback
    request get_registry registry: new_id wl_registry
    event error object_id: object, code: uint, message: string
    event delete_id id: uint
    enum error invalid_object 0, invalid_method 1, no_memory 2, implementation 3

wl_registry
    request bind name: uint, id: new_id
    event global name: uint, interface: string, version: uint
    event global_remove name: uint

wl_callback
    event done callback_data: uint

wl_compositor 4
    request create_surface id: new_id wl_surface
    request create_region id: new_id wl_region

wl_region
    request destroy
    request add x: int, y: int, width: int, height: int
    request subtract x: int, y: int, width: int, height: int

wl_surface
    request destroy
    request attach buffer: object wl_buffer or null, x: int, y: int
    request damage x: int, y: int, width: int, height: int
    request frame callback: new_id wl_callback
    request set_opaque_region region: object wl_region or null
    request set_input_region region: object wl_region or null
    request commit
    request set_buffer_transform(2) transform: int wl_output.transform
    request set_buffer_scale(3) scale: int
    request damage_buffer(4) x: int, y: int, width: int, height: int
    request offset(5) x: int, y: int
    event enter output: object wl_output
    event leave output: object wl_output
    enum error invalid_scale 0, invalid_transform 1, invalid_size 2, invalid_offset 3, defunct_role_object 4

wl_shm 1
    request create_pool id: new_id wl_shm_pool, fd: fd, size: int
    event format format: uint wl_shm.format
    enum error invalid_format 0, invalid_stride 1, invalid_fd 2
    enum format argb8888 0, xrgb8888 1

wl_shm_pool
    request create_buffer id: new_id wl_buffer, offset: int, width: int, height: int, stride: int, format: uint wl_shm.format
    request destroy
    request resize size: int

wl_buffer
    request destroy
    event release

wl_subcompositor 1
    request destroy
    request get_subsurface id: new_id wl_subsurface, surface: object wl_surface, parent: object wl_surface
    enum error bad_surface 0, bad_parent 1

wl_subsurface
    request destroy
    request set_position x: int, y: int
    request place_above sibling: object wl_surface
    request place_below sibling: object wl_surface
    request set_sync
    request set_desync
    enum error bad_surface 0

wl_output 1
    request release(3)
    event geometry x: int, y: int, physical_width: int, physical_height: int, subpixel: int wl_output.subpixel, make: string, model: string, transform: int wl_output.transform
    event mode flags: uint wl_output.mode, width: int, height: int, refresh: int
    event done(2)
    event scale(2) factor: int
    event name(4) name: string
    event description(4) description: string
    enum subpixel unknown 0, none 1, horizontal_rgb 2, horizontal_bgr 3, vertical_rgb 4, vertical_bgr 5
    enum transform normal 0, 90 1, 180 2, 270 3, flipped 4, flipped_90 5, flipped_180 6, flipped_270 7
    enum mode bits current 1, preferred 2

wl_seat 1
    request get_pointer id: new_id wl_pointer
    request get_keyboard id: new_id wl_keyboard
    request get_touch id: new_id wl_touch
    request release(5)
    event capabilities capabilities: uint wl_seat.capability
    event name(2) name: string
    enum capability bits pointer 1, keyboard 2, touch 4
    enum error missing_capability 0

wl_pointer
    request set_cursor serial: uint, surface: object wl_surface or null, hotspot_x: int, hotspot_y: int
    request release(3)
    event enter serial: uint, surface: object wl_surface, surface_x: fixed, surface_y: fixed
    event leave serial: uint, surface: object wl_surface
    event motion time: uint, surface_x: fixed, surface_y: fixed
    event button serial: uint, time: uint, button: uint, state: uint wl_pointer.button_state
    event axis time: uint, axis: uint wl_pointer.axis, value: fixed
    event frame(5)
    event axis_source(5) axis_source: uint wl_pointer.axis_source
    event axis_stop(5) time: uint, axis: uint wl_pointer.axis
    event axis_discrete(5) axis: uint wl_pointer.axis, discrete: int
    event axis_value120(8) axis: uint wl_pointer.axis, value120: int
    enum error role 0
    enum button_state released 0, pressed 1
    enum axis vertical_scroll 0, horizontal_scroll 1
    enum axis_source wheel 0, finger 1, continuous 2, wheel_tilt 3

wl_keyboard
    request release(3)
    event keymap format: uint wl_keyboard.keymap_format, fd: fd, size: uint
    event enter serial: uint, surface: object wl_surface, keys: array
    event leave serial: uint, surface: object wl_surface
    event key serial: uint, time: uint, key: uint, state: uint wl_keyboard.key_state
    event modifiers serial: uint, mods_depressed: uint, mods_latched: uint, mods_locked: uint, group: uint
    event repeat_info(4) rate: int, delay: int
    enum keymap_format no_keymap 0, xkb_v1 1
    enum key_state released 0, pressed 1

wl_touch
    request release(3)
    event down serial: uint, time: uint, surface: object wl_surface, id: int, x: fixed, y: fixed
    event up serial: uint, time: uint, id: int
    event motion time: uint, id: int, x: fixed, y: fixed
    event frame
    event cancel
    event shape(6) id: int, major: fixed, minor: fixed
    event orientation(6) id: int, orientation: fixed

wl_data_device_manager
    request create_data_source id: new_id wl_data_source
    request get_data_device id: new_id wl_data_device, seat: object wl_seat
    enum dnd_action bits copy 1, move 2, ask 4

wl_data_device
    request start_drag source: object wl_data_source or null, origin: object wl_surface, icon: object wl_surface or null, serial: uint
    request set_selection source: object wl_data_source or null, serial: uint
    request release(2)
    event data_offer id: new_id wl_data_offer
    event enter serial: uint, surface: object wl_surface, x: fixed, y: fixed, id: object wl_data_offer or null
    event leave
    event motion time: uint, x: fixed, y: fixed
    event drop
    event selection id: object wl_data_offer or null
    enum error role 0

wl_data_source
    request offer mime_type: string
    request destroy
    request set_actions(3) dnd_actions: uint wl_data_device_manager.dnd_action
    event target mime_type: string or null
    event send mime_type: string, fd: fd
    event cancelled
    event dnd_drop_performed(3)
    event dnd_finished(3)
    event action(3) dnd_action: uint wl_data_device_manager.dnd_action
    enum error invalid_action_mask 0, invalid_source 1

wl_data_offer
    request accept serial: uint, mime_type: string or null
    request receive mime_type: string, fd: fd
    request destroy
    request finish(3)
    request set_actions(3) dnd_actions: uint wl_data_device_manager.dnd_action, preferred_action: uint wl_data_device_manager.dnd_action
    event offer mime_type: string
    event source_actions(3) source_actions: uint wl_data_device_manager.dnd_action
    event action(3) dnd_action: uint wl_data_device_manager.dnd_action
    enum error invalid_finish 0, invalid_action_mask 1, invalid_action 2, invalid_offer 3

xdg_wm_base 3
    request destroy
    request create_positioner id: new_id xdg_positioner
    request get_xdg_surface id: new_id xdg_surface, surface: object wl_surface
    request pong serial: uint
    event ping serial: uint
    enum error role 0, defunct_surfaces 1, not_the_topmost_popup 2, invalid_popup_parent 3, invalid_surface_state 4, invalid_positioner 5

xdg_positioner
    request destroy
    request set_size width: int, height: int
    request set_anchor_rect x: int, y: int, width: int, height: int
    request set_anchor anchor: uint xdg_positioner.anchor
    request set_gravity gravity: uint xdg_positioner.gravity
    request set_constraint_adjustment constraint_adjustment: uint xdg_positioner.constraint_adjustment
    request set_offset x: int, y: int
    request set_reactive(3)
    request set_parent_size(3) parent_width: int, parent_height: int
    request set_parent_configure(3) serial: uint
    enum error invalid_input 0
    enum anchor none 0, top 1, bottom 2, left 3, right 4, top_left 5, bottom_left 6, top_right 7, bottom_right 8
    enum gravity none 0, top 1, bottom 2, left 3, right 4, top_left 5, bottom_left 6, top_right 7, bottom_right 8
    enum constraint_adjustment bits slide_x 1, slide_y 2, flip_x 4, flip_y 8, resize_x 16, resize_y 32

xdg_surface
    request destroy
    request get_toplevel id: new_id xdg_toplevel
    request get_popup id: new_id xdg_popup, parent: object xdg_surface or null, positioner: object xdg_positioner
    request set_window_geometry x: int, y: int, width: int, height: int
    request ack_configure serial: uint
    event configure serial: uint
    enum error not_constructed 1, already_constructed 2, unconfigured_buffer 3, invalid_serial 4, invalid_size 5, defunct_role_object 6

xdg_toplevel
    request destroy
    request set_parent parent: object xdg_toplevel or null
    request set_title title: string
    request set_app_id app_id: string
    request show_window_menu seat: object wl_seat, serial: uint, x: int, y: int
    request move seat: object wl_seat, serial: uint
    request resize seat: object wl_seat, serial: uint, edges: uint xdg_toplevel.resize_edge
    request set_max_size width: int, height: int
    request set_min_size width: int, height: int
    request set_maximized
    request unset_maximized
    request set_fullscreen output: object wl_output or null
    request unset_fullscreen
    request set_minimized
    event configure width: int, height: int, states: array xdg_toplevel.state
    event close
    event configure_bounds(4) width: int, height: int
    event wm_capabilities(5) capabilities: array xdg_toplevel.wm_capabilities
    enum error invalid_resize_edge 0, invalid_parent 1, invalid_size 2
    enum resize_edge none 0, top 1, bottom 2, left 4, top_left 5, bottom_left 6, right 8, top_right 9, bottom_right 10
    enum state maximized 1, fullscreen 2, resizing 3, activated 4, tiled_left 5, tiled_right 6, tiled_top 7, tiled_bottom 8
    enum wm_capabilities window_menu 1, maximize 2, fullscreen 3, minimize 4

xdg_popup
    request destroy
    request grab seat: object wl_seat, serial: uint
    request reposition(3) positioner: object xdg_positioner, token: uint
    event configure x: int, y: int, width: int, height: int
    event popup_done
    event repositioned(3) token: uint
    enum error invalid_grab 0
"""
# The globals that the server announces, in the order of their names, from 1.
GLOBALS = ("wl_compositor", "wl_subcompositor", "wl_shm", "wl_output", "wl_seat", "xdg_wm_base")
DESTRUCTORS = ("destroy", "release")  # the requests after which their object is gone


@dataclasses.dataclass(frozen=True)
class Argument:
    """An argument: an object or a new id is of an interface where one is named, a number of an enum."""

    name: str
    kind: str  # int, uint, fixed, string, array, object, new_id or fd
    interface: str | None = None
    nullable: bool = False
    enum: str | None = None  # as 'wl_shm.format'


@dataclasses.dataclass(frozen=True)
class Message:
    """A request or an event. Its opcode is its place among those of its interface."""

    name: str
    opcode: int
    arguments: tuple[Argument, ...]
    since: int = 1

    @property
    def made(self):
        """The argument that is a new object, if there is one. That of wl_registry.bind has no interface here: the message names it."""
        return next((it for it in self.arguments if it.kind == "new_id"), None)


@dataclasses.dataclass(frozen=True)
class Enum:
    """What the values of an enum are called. Those of one with bits are added up."""

    name: str
    bits: bool
    values: dict[str, int]

    def named(self, value):
        """What the value is called, or nothing."""
        names = {number: name for name, number in self.values.items()}
        if not self.bits:
            return names.get(value)
        found = [name for number, name in names.items() if value & number]
        whole = value == sum(number for number in names if value & number)
        return "+".join(found) if found and whole else None


@dataclasses.dataclass(frozen=True)
class Interface:
    """An interface, with the version that the server offers where it is a global."""

    name: str
    version: int | None
    requests: tuple[Message, ...]
    events: tuple[Message, ...]
    enums: dict[str, Enum]

    def named(self, name):
        """The request of this name, or nothing."""
        return next((it for it in self.requests if it.name == name), None)

    def event_named(self, name):
        """The event of this name, or nothing."""
        return next((it for it in self.events if it.name == name), None)


def argument(text):
    name, _, rest = text.partition(": ")
    words = rest.split()
    nullable = words[-2:] == ["or", "null"]
    kind, of = words[0], words[1] if len(words) > 1 and words[1] != "or" else None
    known = {"interface": of} if kind in ("object", "new_id") else {"enum": of}
    return Argument(name, kind, nullable=nullable, **known)


def messages(lines, word):
    found = []
    for line in lines:
        said = re.fullmatch(rf"{word} (\w+)(?:\((\d+)\))?(?: (.+))?", line)
        if said:
            arguments = tuple(argument(it) for it in (said[3] or "").split(", ") if it)
            found.append(Message(said[1], len(found), arguments, int(said[2] or 1)))
    return tuple(found)


def enums(lines):
    found = {}
    for line in lines:
        said = re.fullmatch(r"enum (\w+)( bits)? (.+)", line)
        if said:
            pairs = [it.split() for it in said[3].split(", ")]
            found[said[1]] = Enum(said[1], bool(said[2]), {name: int(value) for name, value in pairs})
    return found


def interfaces(text):
    """The interfaces of a text as the table is."""
    found = {}
    for block in text.strip().split("\n\n"):
        head, *lines = [it.strip() for it in block.splitlines()]
        name, _, version = head.partition(" ")
        found[name] = Interface(name, int(version) if version else None, messages(lines, "request"), messages(lines, "event"), enums(lines))
    return found


STANDARD = interfaces(TABLE)
INTERFACES = STANDARD | interfaces(extra.TABLE)


def enum_of(text):
    """The enum that an argument names, as 'wl_shm.format'."""
    interface, _, name = text.partition(".")
    return INTERFACES[interface].enums[name]


def errors_of(interface):
    """The enum of the errors that are sent with an object of this interface, if there is one. Those of wl_shm are sent with its pools too."""
    name = "wl_shm" if interface == "wl_shm_pool" else interface
    return INTERFACES[name].enums.get("error") if name in INTERFACES else None


def error_named(interface, code):
    """What the code of an error with an object of this interface is called, or nothing."""
    errors = errors_of(interface)
    return errors.named(code) if errors else None
