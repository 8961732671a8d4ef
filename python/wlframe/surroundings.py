"""What the clients of a display find in their environment: the display, and settings by which toolkits draw the same each time."""
import os
import pathlib
import typing

# What toolkits are told, where the user tells them nothing.
DEFAULTS = {
    "XDG_SESSION_TYPE": "wayland",
    "GDK_BACKEND": "wayland",
    "QT_QPA_PLATFORM": "wayland",
    "SDL_VIDEODRIVER": "wayland",
    "MOZ_ENABLE_WAYLAND": "1",
    "LIBGL_ALWAYS_SOFTWARE": "1",
    "GSK_RENDERER": "cairo",
    "GSETTINGS_BACKEND": "keyfile",
}
GTK = "[Settings]\ngtk-cursor-blink=false\ngtk-enable-animations=true\n"
# The files below the clients' XDG_CONFIG_HOME, unless the user names one: cursors don't blink.
SETTINGS = {
    "gtk-3.0/settings.ini": GTK,
    "gtk-4.0/settings.ini": GTK,
    "glib-2.0/settings/keyfile": "[org/gnome/desktop/interface]\ncursor-blink=false\n",
}
OTHER_DISPLAYS = ("DISPLAY", "WAYLAND_SOCKET", "WAYLAND_DISPLAY")


def write_settings(folder: pathlib.Path) -> None:
    """Writes what toolkits are told by files."""
    for name, text in SETTINGS.items():
        path = folder / name
        path.parent.mkdir(parents=True, exist_ok=True)
        path.write_text(text, encoding="ascii")


def environment(folder: pathlib.Path, more: typing.Mapping[str, str] | None = None) -> dict[str, str]:
    """The environment of a client whose display is in the folder: the one of this process, over the defaults, and then `more`."""
    config = {"XDG_CONFIG_HOME": str(folder / "config")}
    own = {name: value for name, value in os.environ.items() if name not in OTHER_DISPLAYS}
    return {**DEFAULTS, **config, **own, "XDG_RUNTIME_DIR": str(folder), "WAYLAND_DISPLAY": "wayland-0", **(more or {})}
