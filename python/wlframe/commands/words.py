"""Says recordings and reports of wlframe in the words of the protocol.

    tools/words [FILE ..] [--recording FILE] [--labels]

    tools/words < my.rec
    wlframe replay < my.rec | tools/words --recording my.rec

Without FILE it reads standard input. A line `bytes 1 0100..` becomes a line for each request that it completes, `client 1 ->
wl_display#1.sync(new wl_callback#2)`, and `to 1 0200..` one for each event, `client 1 <- wl_callback#2.done(0)`: an object has its id
behind its interface. All other lines stay, but for the bytes of `store` lines, of which only the number is said, and for `end` lines, which
tell what the error is called.

Which interface an object is of is told by the requests. So a report, which has only the events, is read beside its recording, which
--recording names; each of the recording's requests is said where it must have been served. With --labels each argument has its name before
it. A line that stands in neither a recording nor a report ends it with status 3.
"""
import argparse
import re
import sys

from wlframe.wayland.objects import Objects, cut, is_broken
from wlframe.wayland.table import error_named

HEX = r"((?: *[0-9a-fA-F]{2})+)"
CAUSE = r"memory|slow|gone|protocol (\d+) (\d+)"
# Of a recording: what happens; and of a report: what is told of it.
LINES = {
    "connect": r"connect",
    "bytes": rf"bytes +(\d+) {HEX}",
    "store": rf"store +(\d+) +(\d+) +(\d+) {HEX}",
    "gone": r"gone +(\d+)",
    "tick": r"tick +(\d+)",
    "as it is": r"(?:file( +\d+){3} +[\w.-]+|motion +\d+( +-?\d+){2}|button( +\d+){3}|(?:nostore|outside) \d+ \d+|none \d+)?",
    "client": r"client (\d+)",
    "full": r"full",
    "to": rf"to +(\d+) {HEX}",
    "frame": r"frame (\d+) (\d+)",
    "end": rf"end (\d+) ({CAUSE})",
}
FORMS = {kind: re.compile(form, re.ASCII) for kind, form in LINES.items()}
OF_RECORDING = ("connect", "bytes", "store", "gone", "tick")
# The lines of a report that are a step's own, each with the line of the recording that it tells of.
OWN = {"client": "connect", "full": "connect", "frame": "tick"}
MAX_CLIENTS = 32


class Mistake(Exception):
    """What is wrong with a line."""


class Client:
    """A client's objects, and what came of a message that isn't whole yet, each way."""

    def __init__(self):
        self.objects = Objects()
        self.requests, self.events = bytearray(), bytearray()


class Teller:
    """Says lines one after another, with what it knows of each client."""

    def __init__(self, labels):
        self.labels, self.clients = labels, {}

    def connect(self):
        """A client connects: it gets the lowest free number, if there is one."""
        free = set(range(1, 1 + MAX_CLIENTS)) - set(self.clients)
        if free:
            self.clients[min(free)] = Client()

    def requests(self, number, data):
        """The lines of the requests that these bytes complete."""
        client = self.clients.setdefault(number, Client())
        client.requests += data
        for message in cut(client.requests):
            said = client.objects.read(message)
            client.objects.asked(said)
            yield f"client {number} -> {client.objects.in_words(said, self.labels)}"
        if is_broken(client.requests):
            yield f"client {number} -> a header whose size is below 8: {client.requests.hex(' ', 4)}"
            client.requests.clear()

    def events(self, number, data):
        """The lines of the events that these bytes complete."""
        client = self.clients.setdefault(number, Client())
        client.events += data
        for message in cut(client.events):
            said = client.objects.read(message, "events")
            yield f"client {number} <- {client.objects.in_words(said, self.labels)}"
            client.objects.told(said)

    def ended(self, number, cause):
        """The line of a client's end, with the object and what its error is called."""
        client = self.clients.pop(number, Client())
        words = cause.split()
        if words[0] != "protocol":
            return f"end {number} {cause}"
        named = error_named(client.objects.interface_of(int(words[1])), int(words[2]))
        return f"end {number} protocol {client.objects.name_of(int(words[1]))} {words[2]}{f' {named}' if named else ''}"

    def lines(self, kind, found, text):
        """The lines in words that a line stands for."""
        match kind:
            case "connect":
                self.connect()
            case "client":
                self.clients.setdefault(int(found[1]), Client())
            case "bytes":
                return self.requests(int(found[1]), bytes.fromhex(found[2]))
            case "to":
                return self.events(int(found[1]), bytes.fromhex(found[2]))
            case "store":
                return [f"store {found[1]} {found[2]} {found[3]}: {len(bytes.fromhex(found[4]))} bytes"]
            case "gone":
                self.clients.pop(int(found[1]), None)
            case "end":
                return [self.ended(int(found[1]), found[2])]
        return [text]


def kind_of(text):
    """Which line it is, and what stands in it."""
    for kind, form in FORMS.items():
        found = form.fullmatch(text)
        if found:
            return kind, found
    raise Mistake("this is no line of a recording or a report")


def lines_of(name, stream):
    """The lines of a stream that aren't comments, each with its place."""
    for place, line in enumerate(stream, 1):
        if not line.startswith("#"):
            text = line.strip(" \n")
            try:
                yield (*kind_of(text), text)
            except Mistake as fault:
                raise Mistake(f"{name}:{place}: {fault}: {text[:60]}") from None


class Beside:
    """A recording whose report is read: its lines are said as far as the report tells that they were served."""

    def __init__(self, teller, lines):
        self.teller, self.left = teller, list(lines)[::-1]

    def step(self):
        """Says the next line of the recording. A client that it lets go stays known until the report tells of its end."""
        kind, found, text = self.left.pop()
        return [text] if kind == "gone" else self.teller.lines(kind, found, text)

    def until(self, reached):
        """Says lines up to the first that it is reached with, if there is one; `reached` takes what kind of line was said."""
        if any(reached(kind) for kind, _, _ in self.left):
            is_there = False
            while not is_there:
                is_there = reached(self.left[-1][0])
                yield from self.step()

    def missing(self, number, data):
        """Whether one of these events is of an object that isn't known yet, or gives back one that is still used."""
        objects = self.teller.clients[number].objects if number in self.teller.clients else Objects()
        for message in cut(bytearray(data)):
            said = objects.read(message, "events")
            if said.object is None:
                return True
            if said.name == "wl_display.delete_id":
                given_back = objects.by_id.get(said.values[0])
                if given_back is None or not (given_back.ended or given_back.interface == "wl_callback"):
                    return True
        return False

    def before(self, kind, found):
        """Says what was served before a line of the report."""
        if kind in OWN:
            yield from self.until(lambda it: it == OWN[kind])
        while kind == "to" and self.left and self.left[-1][0] not in OWN.values() and self.missing(int(found[1]), bytes.fromhex(found[2])):
            yield from self.step()
        if kind == "end" and found[2] == "gone":
            yield from self.until(lambda it: it == "gone")

    def rest(self):
        """Says the lines that are left."""
        while self.left:
            yield from self.step()


def told(lines, labels, recording):
    """All lines in words."""
    teller = Teller(labels)
    beside = Beside(teller, recording)
    for kind, found, text in lines:
        if recording and kind in OF_RECORDING:
            raise Mistake(f"a line of a recording in the report: {text[:60]}")
        yield from beside.before(kind, found)
        yield from teller.lines(kind, found, text)
    yield from beside.rest()


def read_all(names):
    """The lines of these files, one after another, or of standard input."""
    if not names:
        yield from lines_of("standard input", sys.stdin)
    for name in names:
        with open(name, encoding="ascii", errors="replace") as stream:
            yield from lines_of(name, stream)


def main():
    parser = argparse.ArgumentParser(description="Says recordings and reports of wlframe in the words of the protocol.")
    parser.add_argument("files", nargs="*", metavar="FILE", help="a recording or a report (standard input)")
    parser.add_argument("--recording", metavar="FILE", help="the recording of which the report is")
    parser.add_argument("--labels", action="store_true", help="put the name of each argument before it")
    asked = parser.parse_args()
    try:
        recording = list(read_all([asked.recording])) if asked.recording else []
        for line in told(read_all(asked.files), asked.labels, recording):
            print(line)
    except Mistake as fault:
        print(f"words: {fault}", file=sys.stderr)
        return 3
    except BrokenPipeError:
        sys.stderr.close()
    except OSError as fault:
        print(f"words: {fault.filename}: {fault.strerror}", file=sys.stderr)
        return 1
    return 0
