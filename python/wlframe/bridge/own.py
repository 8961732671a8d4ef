"""The globals of the bridge's own, of which the server isn't told. Each is answered by a module here."""
import typing


class Own(typing.NamedTuple):
    """A global: its version, the module that answers it, and what has to be there: a keyboard, or the server's viewer socket."""

    interface: str
    version: int
    module: str
    needs: str = ""
    controls: bool = False  # whether --no-control hides it


FIRST_NAME = 0xFFFF0000  # of the first: no server gives such a name
OWN = (
    Own("wl_data_device_manager", 3, "clipboard.py"),
    Own("zwp_primary_selection_device_manager_v1", 1, "clipboard.py"),
    Own("zxdg_output_manager_v1", 3, "xdg_output.py"),
    Own("zwlr_data_control_manager_v1", 2, "data_control.py", controls=True),
    Own("zwp_virtual_keyboard_manager_v1", 1, "virtual_keyboard.py", "keyboard", controls=True),
    Own("zwlr_virtual_pointer_manager_v1", 2, "virtual_pointer.py", "viewer", controls=True),
    Own("zwlr_screencopy_manager_v1", 3, "screencopy.py", "viewer", controls=True),
)


def shown(has: set[str], has_control: bool) -> dict[int, tuple[str, int]]:
    """By their names: the globals that clients are shown, where these are there."""
    return {
        FIRST_NAME + at: (it.interface, it.version)
        for at, it in enumerate(OWN)
        if (not it.needs or it.needs in has) and (has_control or not it.controls)
    }


def in_markdown() -> str:
    """The table as docs/BRIDGE.md has it."""
    return "\n".join(f"| {it.interface} | {it.version} | {it.module} | {it.needs} |" for it in OWN) + "\n"
