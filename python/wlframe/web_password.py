"""A plug-in of websockify's that asks browsers for the password of a view (see view.py): `--auth-plugin wlframe.web_password.Password --auth-source FILE`."""
import pathlib

from websockify.auth_plugins import BasicHTTPAuth, InvalidOriginError  # pylint: disable=import-error

USER = "wlframe"


class Password(BasicHTTPAuth):
    """Takes those who name the user wlframe and the first line of a file, and no page of another site, for which browsers may send them too."""

    def __init__(self, source: str):
        super().__init__(f"{USER}:{pathlib.Path(source).read_text(encoding='utf-8').partition(chr(10))[0].strip()}")

    def authenticate(self, headers, target_host, target_port):
        origin = headers.get("Origin")
        if origin is not None and origin.partition("://")[2] != headers.get("Host"):
            raise InvalidOriginError(headers.get("Host"), origin)
        super().authenticate(headers, target_host, target_port)
