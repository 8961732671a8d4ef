"""The program wlframe: where it is found, and what it can do."""
import functools
import os
import shutil
import subprocess
import sys

from wlframe.faults import Failure
from wlframe.places import TOP

UNPROVED = TOP / "out" / "wlframe-unproved"  # by tools/unproved
BUILT = TOP / "crates" / "wlframe" / "out" / "wlframe"  # by ./wlframe, which proves it
INSTALLED = TOP / "bin" / "wlframe"  # by tools/install


def find(named: str | os.PathLike | None = None, tell=lambda text: print(text, file=sys.stderr)) -> str:
    """The path of the program: the one that is named here, or by WLFRAME, or the one that is built or installed. Failure where there is none."""
    named = named or os.environ.get("WLFRAME")
    found = shutil.which(named) if named else next(filter(os.path.exists, [BUILT, INSTALLED]), None) or shutil.which("wlframe")
    if not found and not named and UNPROVED.exists():
        tell(f"takes {UNPROVED}, which isn't proved and is slow; ./wlframe --help proves and builds the program")
        found = UNPROVED
    if found:
        return os.path.abspath(found)
    if named:
        raise Failure(f"{named} is no program")
    raise Failure("there is no program yet: ./wlframe --help proves and builds it once, tools/unproved makes one without proofs in a minute")


@functools.cache
def options(program: str) -> str:
    """What `serve --help` of the program tells."""
    try:
        return subprocess.run([program, "serve", "--help"], capture_output=True, text=True, check=True, stdin=subprocess.DEVNULL).stdout
    except (OSError, subprocess.CalledProcessError) as fault:
        raise Failure(f"{program} doesn't run: {fault}") from None


def need(program: str, option: str, why: str) -> None:
    """Failure where the program hasn't an option that is needed."""
    if option not in options(program):
        raise Failure(f"{program} is too old to {why}: it has no {option}. Build it anew, or name a later one")
