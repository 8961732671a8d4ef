"""wlframe, for those who test Wayland clients: displays of their own, what clients show, and what it is compared with."""
import importlib
import typing

if typing.TYPE_CHECKING:
    from wlframe.clients import Client
    from wlframe.display import Display
    from wlframe.faults import ClientEnded, Failure, NotStarted, NoWindow, PictureDiffers, Refused, ServerEnded, TimeOver
    from wlframe.pictures import Picture, load
    from wlframe.windows import Window

# Where each name is, which is loaded as it is used, so that the bridge needn't load what it has no use for.
PLACES = {
    "clients": ["Client"],
    "display": ["Display"],
    "faults": ["ClientEnded", "Failure", "NoWindow", "NotStarted", "PictureDiffers", "Refused", "ServerEnded", "TimeOver"],
    "pictures": ["Picture", "load"],
    "windows": ["Window"],
}
__all__ = sorted(name for names in PLACES.values() for name in names)


def __getattr__(name: str) -> typing.Any:
    for place, names in PLACES.items():
        if name in names:
            return getattr(importlib.import_module(f"wlframe.{place}"), name)
    raise AttributeError(f"module {__name__!r} has no attribute {name!r}")
