"""zxdg_output_manager_v1: where an output is and how large, and what it is called. There is one, at (0, 0), of as many points as pixels."""
import typing

NAME, DESCRIPTION = "wlframe", "the framebuffer of wlframe"


class Outputs:
    """The xdg_outputs of a client. They are told of behind their wl_output, as the server answers later than the bridge: SDL counts on it."""

    def __init__(self, client: typing.Any):
        self.client = client
        self.known: set[int] = set()  # the wl_outputs that the client was told of
        self.waiting: list[tuple[int, typing.Any]] = []  # by a wl_output that it wasn't told of: an xdg_output

    def answer(self, said: typing.Any, made: typing.Any, _descriptors: list[int]) -> None:
        """Answers a request to one of them, or to their manager."""
        if said.message.name == "get_xdg_output":
            self.waiting.append((said.values[1], made))
            self.tell()

    def heard(self, said: typing.Any) -> None:
        """The client is told of a mode: then it knows of the wl_output."""
        self.known.add(said.target)
        self.tell()

    def tell(self) -> None:
        """Tells of the xdg_outputs of which the client may hear by now."""
        for output, made in [it for it in self.waiting if it[0] in self.known]:
            self.waiting.remove((output, made))
            if not made.ended:
                self.describe(self.client.objects.by_id[output], made)

    def describe(self, output: typing.Any, made: typing.Any) -> None:
        """Tells all there is of an xdg_output."""
        tell = self.client.send_event
        tell(made, "logical_position", 0, 0)
        tell(made, "logical_size", *self.client.output)
        if made.version >= 2:
            tell(made, "name", NAME)
            tell(made, "description", DESCRIPTION)
        if made.version < 3:
            tell(made, "done")
        elif output.version >= 2:
            tell(output, "done")
