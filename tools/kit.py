"""What the scripts here know of the Rattle kit beyond the commands that `rt` prints: the flags of its `rattle`, and where its files lie.

wlframe and tools/check prove crates by it, tools/unproved makes the program by it, and bench/ measures proofs by it; no other file names any of this.
`rt check` and `rt run` would do without it. But they prove one crate after another, and to see whether a library is up to date they take a sum of what
is below it along each way through crates.txt: 3,000 for the program, which takes minutes before anything is proved.

The libraries that a crate is proved over are those that tools/build.py keeps.
"""
import functools
import importlib.machinery
import importlib.util
import os
import re
import shutil
import subprocess
import sys
import tempfile
import time

TOP = os.path.dirname(os.path.dirname(os.path.realpath(__file__)))
KEPT = f"{TOP}/crates/wlframe/out/rlib"  # what rattle made of each crate
PARTS = ("src", "specs", "proofs")  # the folders of a crate that a check reads


class Crate:
    """A crate of crates.txt, with the libraries that it uses, of this repository and of the kit."""

    def __init__(self, name, is_static, uses):
        self.name, self.is_static, self.uses = name, is_static, uses
        self.folder = f"{TOP}/crates/{name}"
        self.is_program = os.path.exists(f"{self.folder}/src/main.rt")
        self.made = f"{KEPT}/{name}.{'o' if self.is_program else 'rlib'}"  # its library, or the program before it is linked

    def own(self):
        """Returns the crates of this repository that it uses."""
        return [crates()[it] for it in self.uses if it in crates()]

    @functools.lru_cache(maxsize=None)
    def below(self):
        """Returns all crates that it stands on, lowest first."""
        return [*dict.fromkeys(it for low in self.own() for it in (*low.below(), low))]

    def copy(self, room):
        """Copies to the folder what a check reads."""
        for part in PARTS:
            if os.path.isdir(f"{self.folder}/{part}"):
                shutil.copytree(f"{self.folder}/{part}", f"{room}/{part}")


@functools.lru_cache(maxsize=None)
def crates():
    """Returns {name: crate} of crates.txt."""
    with open(f"{TOP}/crates.txt", encoding="utf-8") as it:
        rows = [row.partition("#")[0].partition(":") for row in it]
    rows = [(head.split(), uses.split()) for head, _, uses in rows if head.strip()]
    return {head[0]: Crate(head[0], "staticlib" in head, uses) for head, uses in rows}


def crate_named(name):
    """Returns the crate of that name. Without one it ends the script."""
    return crates().get(name) or sys.exit(f"no crate {name}")


@functools.lru_cache(maxsize=None)
def folder():
    """Returns the kit's folder. Without a kit it ends the script."""
    if not shutil.which("rt"):
        sys.exit(f"{sys.argv[0]}: there is no command rt of the Rattle kit")
    return os.path.dirname(subprocess.run(["rt", "doc"], stdout=subprocess.PIPE, text=True, check=True).stdout.strip())


def version():
    return subprocess.run(["rt", "version"], stdout=subprocess.PIPE, text=True, check=True).stdout


def words(crate, jobs, *more, sources=()):
    """Returns the flags that name to rattle a crate and what it is proved over, and these besides. Of the crates `sources` it reads the files, and not the library."""
    found = ["--crate-name", crate.name, "src/main.rt" if crate.is_program else "src/lib.rt", "--links", f"{crate.name}=", "--jobs", str(jobs)]
    found += ["--antt-project", f"{folder()}/rattle/logic/antt-project.json", "--logic-built", f"{folder()}/logic_built"]
    found += ["-L", f"dependency={folder()}/rlibs", "-L", f"dependency={KEPT}"]
    for it in dict.fromkeys(("std", *crate.uses, *(used for it in sources for used in it.uses))):
        if crates().get(it) not in sources:
            found += ["--extern", f"{it}={KEPT if it in crates() else f'{folder()}/rlibs'}/{it}.rlib"]
    for it in sources:
        found += ["--lib", f"{it.name}:{','.join(('std', *it.uses))}={it.folder}/src/lib.rt"]
    if crate.is_static and "--test" not in more:
        found += ["--crate-type", "staticlib"]
    return [*found, *more]


def check_words(crate, *more, jobs=1, keeps=None, sources=()):
    """Returns the command that checks the crate in the folder it runs in, with more flags of `rattle check`. What is proved is kept in the folder `keeps`."""
    return [f"{folder()}/bin/rattle", "check", *words(crate, jobs, *more, sources=sources), *(["--incremental", keeps] if keeps else [])]


def build_words(crate, jobs):
    """Returns the command that proves the crate, in its folder, and makes `crate.made`."""
    how = ["--toolchain", f"{folder()}/toolchain", "--backend", "llvm"] if crate.is_program else ["--statements"]
    return [f"{folder()}/bin/rattle", "build", *words(crate, jobs, *how), "-o", crate.made]


def is_proved(said):
    """Returns whether what rattle said of a build tells that the crate is proved."""
    return bool(re.search("^logic=proved ", said, re.M))


def link_words(crate, to):
    """Returns the command that links the program."""
    libraries = [f"{folder()}/c/{it}" for it in ("libos_c.a", "liblibc_c.a")]
    target = ["--target", "x86_64-unknown-linux-gnu", "--toolchain", f"{folder()}/toolchain"]
    return [f"{folder()}/bin/rattle-link", *target, "-o", to, crate.made, *libraries]


def make_unproved(crate, to):
    """Makes the program in that file without its proofs, as `rt try` compiles it. Returns what that said where it made none, and else nothing."""
    with tempfile.TemporaryDirectory() as room, open(f"{room}/said", "w+", encoding="utf-8", errors="replace") as said:
        # While it serves, the program lies in a folder of rt's.
        serving = ["rt", "try", "--", "serve", "--socket", f"{room}/socket", "--turns", "1000000", "--size", "1x1"]
        how = {"cwd": crate.folder, "env": {**os.environ, "TMPDIR": room}, "stdin": subprocess.DEVNULL}
        with subprocess.Popen(serving, stdout=said, stderr=subprocess.STDOUT, **how) as ran:
            try:
                while not os.path.exists(f"{room}/socket"):
                    if ran.poll() is not None:
                        said.seek(0)
                        return said.read()
                    time.sleep(0.2)
                made = [f"{at}/program" for at, _, names in os.walk(room) if "program" in names]
                if not made:
                    return "there is no file `program` of rt's\n"
                shutil.copy(made[0], to)
            finally:
                ran.terminate()
    return ""


def read_edit(file, crate):
    """Returns the texts, by path, that a must-fail edit of the crate makes, and why there are none, as rt reads it."""
    sys.dont_write_bytecode = True  # none into the kit
    loader = importlib.machinery.SourceFileLoader("rt", f"{folder()}/bin/rt")
    made = importlib.util.module_from_spec(importlib.util.spec_from_loader("rt", loader))
    loader.exec_module(made)
    return made.read_edit(file, crate.folder)


def provers():
    """Returns {(process, start): (crate, kind, seconds of processor time)} of each prover that runs. A kind is proof, tests, program or edits."""
    found, tick = {}, os.sysconf("SC_CLK_TCK")
    for pid in filter(str.isdigit, os.listdir("/proc")):
        try:
            with open(f"/proc/{pid}/cmdline", "rb") as it:
                said = it.read().decode(errors="replace").split("\0")
            if os.path.basename(said[0]) != "rattle" or "--crate-name" not in said:
                continue
            with open(f"/proc/{pid}/stat", encoding="utf-8", errors="replace") as it:
                fields = it.read().rpartition(")")[2].split()
            is_edit = os.path.basename(os.readlink(f"/proc/{pid}/cwd")).startswith("rt-edit-")
            kind = "edits" if is_edit else "tests" if "--test" in said else "program" if "--crate-checked" in said else "proof"
            found[pid, fields[19]] = said[said.index("--crate-name") + 1], kind, (int(fields[11]) + int(fields[12])) / tick
        except OSError:
            pass  # it ended
    return found
