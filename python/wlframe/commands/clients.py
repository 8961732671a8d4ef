"""Tries real clients under wlframe, one after another, and tells what each binds, how many frames it shows and how it ends.

    tools/clients [--write FILE] [--pictures FOLDER] [--seconds S] [NAME ..]

Those that are installed are tried, or of them those whose names are given. --write docs/CLIENTS.md writes that page, for which tools and toolkits are tried
besides, if no names are given (tools/tests/tries.py and toolkits.py), and clients are shown with their memory copied (twins.py); without it the rows of its table are printed. --pictures keeps the last frame of each. A client runs for some
seconds (--seconds S: as many times longer). Each is a program of Debian 12, run by tools/run. Status 0: each client ran; 1: not all.
"""
import argparse
import importlib
import os
import pathlib
import re
import shlex
import shutil
import subprocess
import sys
import tempfile
import typing

from wlframe.places import TOP
from wlframe.places import command as start_of

BUILT = TOP / "crates" / "wlframe" / "out" / "wlframe"  # by ./wlframe, which proves it
SECONDS = 6
TIME_OVER, FAILED = 124, 125
TELLERS = ("wayland-info", "weston-info")  # those that print what there is, and show nothing

# Each client: its command, its package and, behind it, how many seconds it gets where that isn't SECONDS. In a command {top} is this repository and
# {folder} an empty folder; NAME=VALUE before it is for its environment, and --OPTION=VALUE for tools/run.
CLIENTS = """
wayland-info | wayland-utils
weston-info | weston
weston-simple-shm | weston
weston-simple-damage | weston
weston-simple-touch | weston
weston-simple-egl | weston
weston-simple-dmabuf-feedback | weston
weston-presentation-shm | weston
weston-calibrator | weston
weston-clickdot | weston
weston-cliptest | weston
weston-confine | weston
weston-content_protection | weston
weston-dnd | weston
weston-editor | weston
weston-eventdemo | weston
weston-flower | weston
weston-fullscreen | weston
weston-image {top}/docs/two_windows.png | weston
weston-multi-resource | weston
weston-resizor | weston
weston-scaler | weston
weston-smoke | weston
weston-stacking | weston
weston-subsurfaces | weston
weston-terminal | weston
weston-transformed | weston
es2gears_wayland | mesa-utils
foot | foot
wev | wev
alacritty | alacritty | 15
kitty | kitty | 15
mpv --vo=wlshm --no-audio --no-terminal --no-config av://lavfi:testsrc | mpv
gst-launch-1.0 -q videotestsrc ! waylandsink | gstreamer1.0-plugins-bad
ffplay -loglevel error -f lavfi testsrc | ffmpeg
tuxpaint --windowed --640x480 --nosound | tuxpaint | 15
imv-wayland {top}/docs/two_windows.png | imv
swayimg {top}/docs/two_windows.png | swayimg
gtk3-demo | gtk-3-examples
gtk3-demo --run=pixbufs | gtk-3-examples
gtk3-widget-factory | gtk-3-examples | 15
mousepad | mousepad
galculator | galculator
sakura | sakura
evince | evince | 15
eog {top}/docs/two_windows.png | eog | 15
zathura | zathura
zenity --info --text=hello | zenity
gtk4-demo | gtk-4-examples
gtk4-widget-factory | gtk-4-examples | 15
gnome-calculator | gnome-calculator | 15
qterminal | qterminal | 15
kcalc | kcalc | 15
konsole | konsole | 15
featherpad | featherpad | 15
qt6ct | qt6ct | 15
/usr/bin/python3 {top}/examples/qt_subsurface.py | python3-pyqt6 | 15
/usr/bin/python3 {top}/examples/gtk4_popover.py | gir1.2-gtk-4.0 | 15
cog --platform=wl data:text/html,<h1>hello | cog | 20
chromium --no-sandbox --ozone-platform=wayland --disable-gpu --no-first-run --user-data-dir={folder} data:text/html,<h1>hello | chromium | 20
HOME={folder} firefox-esr --no-remote --profile {folder} data:text/html,<h1>hello | firefox-esr | 20
--size=480x360 --pointer={top}/examples/gtk3_menus.pointer gtk3-demo --run=menus | gtk-3-examples | 20
--size=480x360 --pointer={top}/examples/gtk4_dropdown.pointer gtk4-demo --run=dropdown | gtk-4-examples | 20
--size=500x420 --pointer={top}/examples/weston_menu.pointer weston-clickdot | weston | 20
--size=480x360 --pointer={top}/examples/qt6_combo.pointer qt6ct | qt6ct | 20
"""
# What is counted of a client that is pointed at, by its trace.
POINTED = {
    "entered": r"<- wl_pointer#\d+\.enter\(",
    "pressed": r"<- wl_pointer#\d+\.button\(.*, pressed\)",
    "popups placed": r"<- xdg_popup#\d+\.configure\(",
    "grabs asked for": r"-> xdg_popup#\d+\.grab\(",
}
# What is counted of any client, where it did so.
DONE = {
    "buffer scales above 1": r"-> wl_surface#\d+\.set_buffer_scale\((?!1\))",
    "popups placed anew": r"<- xdg_popup#\d+\.repositioned\(",
}
# Why some don't run, where they don't say so themselves.
WHY = {
    "weston-content_protection": "it wants weston_content_protection, a protocol of weston's own",
    "weston-simple-dmabuf-feedback": "it wants linux-dmabuf, memory of a graphics card",
    "weston-editor": "it wants a protocol for text input",
}
HEAD = """# Clients

Which unmodified clients were tried, and what came of it. This page is written by `tools/clients --write docs/CLIENTS.md`, which runs each that is
installed for some seconds by `tools/run -- CLIENT`, with the programs of Debian 12, drawing without a graphics card. The machine did other things
beside, so the frames tell that a client goes on, and not how fast.

A client *runs* if it showed a frame, or did what it does without one, and was refused nothing. What it binds are the versions that it asked for; of wl_output
and wl_seat the bridge shows later ones than the server has ([BRIDGE.md](BRIDGE.md) tells what it rewrites). Each that was refused was ended alone, with the
error that stands there; the server went on. Of those that draw at a scale, or place a popup anew, it is told how often they asked for it.

Those with `--pointer` are pointed at, by a file of [examples](../examples/README.md): they run if besides they were entered and pressed, and opened a menu that asked
for the grab.

![Twelve of them](clients.png)

The demo of menus of GTK 3, which is hovered over and clicked; its menu and the submenu have the grab, and a click beside them closes both:

![A button lights up, a menu is opened, its first entry opens a submenu, and both are closed as the window below is clicked](gtk3-menus.png)

    tools/run --size 480x360 --pointer examples/gtk3_menus.pointer --seconds 20 --film menus.gif -- gtk3-demo --run=menus

And the demo of drop-downs of GTK 4: an entry is picked from the first, and the second is opened and closed.

![A drop-down is opened, its second entry is picked, and another is opened and closed](gtk4-dropdown.png)

    tools/run --size 480x360 --pointer examples/gtk4_dropdown.pointer --seconds 20 --film dropdown.gif -- gtk4-demo --run=dropdown

A popover of GTK 4 that goes from point to point: it is placed anew by xdg_popup.reposition, and of each frame its old and its new place are painted again, and no more:

![A popover with an arrow in four places of a window, one after another](gtk4-popover.png)

    tools/run --size 272x224 --frames frames -- examples/gtk4_popover.py
"""
TRIES = """## Tools for wlroots' compositors

They ask the bridge for protocols by which clients take pictures, type and copy ([BRIDGE.md](BRIDGE.md#its-own-globals)). Each command ran as a shell runs it, on a
display of its own of 240 by 160 pixels (`Display(share=True)`), and what came of it was compared with what its manual says: tools/tests/tries.py has each, and
test_tries.py tries them all again.
"""
TOOLKITS = """## Text and the clipboard

An entry of each of these was typed into: {text}, whose letters the layout `us` lacks, and {other} in its place behind ctrl+a. That was copied, by ctrl+c behind ctrl+a,
and pasted into an entry of each by ctrl+v. In foot the word was marked by a double click, and shift held besides. tools/tests/test_toolkits.py does some of it again.
"""
TWINS = """## Memory by links and ranges, and copied

Are links and ranges the same as copies of each committed buffer (`--whole`)? Each client that shows something was a client of two displays at once, one of either kind
(tools/tests/twins.py). About once a second, once both have shown all that it asked, their pictures are compared to the byte.
"""


class Client(typing.NamedTuple):
    """A row of CLIENTS."""

    command: str
    package: str
    seconds: float

    def split(self):
        """What is for the environment, the options of tools/run, and the words of the command."""
        settings, options, words = {}, [], shlex.split(self.command.replace("<", "'<'"))
        while re.match(r"[A-Z_]+=|--", words[0]):
            word = words.pop(0)
            if word.startswith("--"):
                options.append(word)
            else:
                settings.update([word.split("=", 1)])
        return settings, options, words

    @property
    def words(self):
        return self.split()[2]

    @property
    def program(self):
        return self.words[0]

    @property
    def is_pointed_at(self):
        return any(it.startswith("--pointer") for it in self.split()[1])

    @property
    def shown(self):
        """The command as the page has it."""
        return self.command.replace("/usr/bin/", "").replace("{top}/", "").replace("{folder}", "FOLDER")


class Outcome(typing.NamedTuple):
    """What came of a client."""

    client: Client
    binds: list
    frames: int
    ended: str
    runs: bool

    def row(self):
        """A row of the page's table."""
        binds = ", ".join(self.binds) or "nothing"
        return f"| `{self.client.shown}` | {version_of(self.client.package)} | {binds} | {self.frames} | {self.ended} |"


def read_clients():
    found = []
    for line in CLIENTS.strip().splitlines():
        command, package, *seconds = [it.strip() for it in line.split(" | ")]
        found.append(Client(command, package, float(seconds[0]) if seconds else SECONDS))
    return found


def is_installed(client):
    """Whether the program is there, and the package too where Debian's list of packages is."""
    return bool(shutil.which(client.program)) and (not shutil.which("dpkg-query") or " " in version_of(client.package))


def version_of(package):
    """A package with its version."""
    asked = ["dpkg-query", "--show", "--showformat=${db:Status-Status} ${Version}", package]
    try:
        said = subprocess.run(asked, capture_output=True, text=True, check=True).stdout
    except (OSError, subprocess.CalledProcessError):
        return package
    status, _, version = said.partition(" ")
    return f"{package} {version}" if status == "installed" else package


def binds_of(trace):
    """What the client of a trace bound, in the order in which it did, each version once."""
    found = re.findall(r"-> wl_registry#\d+\.bind\(\d+, new (\w+)#\d+ of version (\d+)\)", trace)
    return list(dict.fromkeys(f"{interface} {version}" for interface, version in found))


def refusals_of(said):
    """What the bridge said was refused: which request, at which version, and the error."""
    return re.findall(r"^bridge: client \d+(?: \(.*?\))? (was .*)", said, re.MULTILINE)


def pointed_of(trace):
    """What a client that was pointed at was told and did, and whether nothing of it is missing."""
    counts = {what: len(re.findall(pattern, trace)) for what, pattern in POINTED.items()}
    return ", ".join(f"{what}: {count}" for what, count in counts.items()), all(counts.values())


def done_of(trace):
    """What a client did of what not every client does, as far as it did."""
    counts = {what: len(re.findall(pattern, trace)) for what, pattern in DONE.items()}
    return ", ".join(f"{what}: {count}" for what, count in counts.items() if count)


def in_a_cell(text):
    """A text that may stand in a cell of a table."""
    return text.replace("|", "\\|").replace("<", "&lt;")


def outcome_of(client, status, report, trace, said):
    """Reads what was written down of a client."""
    frames = len(re.findall("^frame ", report, re.MULTILINE))
    refusals = refusals_of(said)
    lines = [it for it in said.splitlines() if it.strip() and not it.startswith(("run: ", "bridge: "))]
    last = WHY.get(client.program) or (in_a_cell(lines[-1].strip()) if lines else "it says nothing")
    own = re.findall("^run: (.*)", said, re.MULTILINE)
    if status == FAILED and own and own[-1].endswith("showed nothing, so there is no picture"):
        status = 0  # the client's own
    elif status == FAILED and own:
        last = own[-1]
    does = frames > 0 or client.program in TELLERS
    if refusals:
        ended = in_a_cell(refusals[0])
    elif status == TIME_OVER:
        ended = "ran until it was stopped" if frames else f"showed nothing until it was stopped: {last}"
    elif status == 0:
        ended = "left by itself" if does else f"left by itself: {last}"
    else:
        ended = f"left by itself with status {status}: {last}"
    if done := done_of(trace):
        ended = f"{ended}; {done}"
    if client.is_pointed_at:
        told, does_all = pointed_of(trace)
        ended, does = f"{ended}; {told}", does and does_all
    return Outcome(client, binds_of(trace), frames, ended, does and not refusals and status in (0, TIME_OVER))


def run(client, times, pictures):
    """Runs a client, and returns what came of it."""
    with tempfile.TemporaryDirectory(ignore_cleanup_errors=True) as folder:
        room = pathlib.Path(folder)
        home = room / "home"
        home.mkdir()
        places = {"top": str(TOP), "folder": str(home)}
        settings, options, words = client.split()
        words, options = [word.format(**places) for word in words], [option.format(**places) for option in options]
        settings = {name: value.format(**places) for name, value in settings.items()}
        command = [*start_of("run"), *options, "--seconds", str(client.seconds * times), "--report", room / "report", "--trace", room / "trace"]
        if pictures:
            name = "-".join(re.findall(r"[\w.]+", " ".join(it.removeprefix("/usr/bin/") for it in client.words[:2] if "{" not in it)))
            name += "-pointed" if client.is_pointed_at else ""
            command += ["--png", pathlib.Path(pictures) / f"{name}.png"]
        done = subprocess.run([*command, "--", *words], env={**os.environ, **settings}, capture_output=True, text=True, errors="replace", check=False)
        texts = [it.read_text(errors="replace") if it.exists() else "" for it in (room / "report", room / "trace")]
        return outcome_of(client, done.returncode, *texts, done.stderr)


def program_in_words():
    """Under which program clients are tried."""
    path = pathlib.Path(os.environ.get("WLFRAME") or BUILT).resolve()
    if path.exists() and path == BUILT.resolve():
        return "They were tried under the program that `./wlframe` proves and builds."
    return "They were tried under another program than the one that `./wlframe` proves and builds: `tools/unproved` makes one without its proofs."


def tried():
    """The modules that try tools and toolkits, which lie beside the tests of the tools."""
    sys.path.insert(0, str(TOP / "tools" / "tests"))
    return [importlib.import_module(it) for it in ("tries", "toolkits", "twins")]


def tools():
    """The page's lines of tools, each of which is tried."""
    rows, wrong = [], 0
    for each in tried()[0].ALL:
        fault = each.lacks() or each.outcome()
        wrong += bool(fault)
        told = f"no: {in_a_cell(each.known or fault)}" if fault else "yes"
        rows.append(f"| `{each.command.replace('|', chr(92) + '|')}` | {version_of(each.package)} | {each.says} | {told} |")
        print(rows[-1], flush=True)
    return [TRIES, f"{len(rows) - wrong} of {len(rows)} do what they say.", "", "| command | package | what its manual says | so it is |", "|---|---|---|---|", *rows, ""]


def toolkits():
    """The page's lines of toolkits, each of which is typed into, copied from, and pasted into."""
    module = tried()[1]
    found, missing = list(module.rows()), [it for it in module.ALL if it.lacks()]
    names = [it.toolkit.name for it in found]
    lines = [TOOLKITS.format(text=module.TEXT, other=module.OTHER), "| | typed | copied | " + " | ".join(f"into {it}" for it in names) + " |", "|---" * (3 + len(names)) + "|"]
    for row in found:
        marks = ["yes" if it else "no" for it in (row.is_typed, row.is_copied, *(row.pasted[name] for name in names))]
        lines.append(f"| {row.toolkit.name} ({version_of(row.toolkit.packages[0])}) | {' | '.join(marks)} |")
        print(lines[-1], flush=True)
    faults = [f"- From {row.toolkit.name}: {in_a_cell(it)}" for row in found for it in row.faults]
    lines += ["", *faults] if faults else []
    return [*lines, *(["", "Not tried: " + "; ".join(it.lacks() for it in missing) + "."] if missing else []), ""]


def twins(listed):
    """The page's lines of whether these clients are shown the same where their memory is copied."""
    module = tried()[2]
    found = [it for it in map(module.row_of, listed) if it.pictures]
    wrong = [it for it in found if not it.is_same]
    for each in found:
        print(f"{each.client.shown}: {'the same' if each.is_same else 'otherwise'}, {each.compared} times", flush=True)
    told = f"{len(found) - len(wrong)} of {len(found)} were shown the same each time, in {sum(it.compared for it in found)} comparisons of {sum(it.pictures for it in found)} pictures."
    return [TWINS, told, "", *[f"- `{it.client.shown}` wasn't." for it in wrong], *([""] if wrong else [])]


def page(outcomes, missing, more=()):
    """The page of all clients, with more lines behind."""
    lines = [HEAD, program_in_words(), "", f"{sum(it.runs for it in outcomes)} of {len(outcomes)} run.", ""]
    for title, runs in (("## Those that run", True), ("## Those that don't", False)):
        rows = [it.row() for it in outcomes if it.runs == runs]
        if rows:
            lines += [title, "", "| client | package | binds | frames | how it ended |", "|---|---|---|---|---|", *rows, ""]
    if missing:
        lines += ["Not tried, since they weren't installed: " + ", ".join(f"`{it.shown}`" for it in missing) + ".", ""]
    return "\n".join([*lines, *more])


def main():
    parser = argparse.ArgumentParser(description="Tries real clients under wlframe, one after another.")
    parser.add_argument("names", nargs="*", metavar="NAME", help="a client of the list (all that are installed)")
    parser.add_argument("--write", metavar="FILE", help="write what came of it to this page")
    parser.add_argument("--pictures", metavar="FOLDER", help="keep the last frame of each client there")
    parser.add_argument("--seconds", type=float, default=1.0, metavar="S", help="let each client run so many times as long (1)")
    asked = parser.parse_args()
    if asked.pictures:
        os.makedirs(asked.pictures, exist_ok=True)
    known = read_clients()
    unknown = [name for name in asked.names if not any(name in it.command.split() for it in known)]
    if unknown:
        parser.error(f"{unknown[0]} is no client of the list; `tools/run -- {unknown[0]}` runs any program")
    clients = [it for it in known if not asked.names or any(name in it.command.split() for name in asked.names)]
    outcomes = []
    for client in filter(is_installed, clients):
        outcomes.append(run(client, asked.seconds, asked.pictures))
        print(outcomes[-1].row(), flush=True)
    if asked.write:
        pathlib.Path(asked.write).write_text(page(outcomes, [it for it in clients if not is_installed(it)], [] if asked.names else [*tools(), *toolkits(), *twins(list(filter(is_installed, clients)))]), encoding="utf-8")
    print(f"{sum(it.runs for it in outcomes)} of {len(outcomes)} run", file=sys.stderr)
    return 0 if all(it.runs for it in outcomes) else 1
