"""Proves crates, and keeps what rattle made of each in crates/wlframe/out/rlib: 1.7 GB for the program.

A crate is proved once those that it uses are: as many side by side as there are processors and memory for, those with the longest chains behind them
first, and where few can go on, each with several processors. Each that is proved is kept with a sum of all that it was made from, NAME.sum, with what
rattle said, NAME.log, and with the seconds that it took, NAME.took: so a build that was interrupted goes on where it stopped, one after an edit proves
what changed and what stands on it, and each says how long it will take.
"""
import collections
import contextlib
import fcntl
import hashlib
import os
import shutil
import signal
import subprocess
import sys
import time

import kit

# A crate that is being proved: with how many jobs, as how many processors and megabytes it counts, and since when.
Run = collections.namedtuple("Run", "crate jobs share need since")
SECONDS_A_LINE = 0.15  # of a crate that wasn't proved on this machine yet, by the lines of its code


def say(what):
    print(f"{os.path.relpath(os.path.realpath(sys.argv[0]), kit.TOP)}: {what}", file=sys.stderr, flush=True)


def text_of(path):
    with contextlib.suppress(FileNotFoundError), open(path, encoding="utf-8", errors="replace") as it:
        return it.read()
    return ""


def lines_of(crate):
    """Returns how many lines of code a crate has."""
    sources = (f"{at}/{it}" for at, _, names in os.walk(f"{crate.folder}/src") for it in names if it.endswith(".rt"))
    return sum(text_of(it).count("\n") for it in sources)


def seconds_of(crate):
    """Returns how many seconds the crate will take: as many as the last time, where it was proved here, and else by its lines."""
    took = text_of(file_of(crate, "took"))
    return float(took) if took else lines_of(crate) * SECONDS_A_LINE


def file_of(crate, kind):
    return f"{kit.KEPT}/{crate.name}.{kind}"


def sum_of(crate):
    """Returns a sum of the crate's own files."""
    found = hashlib.sha256()
    walked = (it for part in kit.PARTS for it in os.walk(f"{crate.folder}/{part}"))
    for path in sorted(f"{at}/{it}" for at, _, names in walked for it in names):
        with open(path, "rb") as it:
            found.update(f"{os.path.relpath(path, crate.folder)} {hashlib.sha256(it.read()).hexdigest()}\n".encode())
    return found.hexdigest()


class Build:
    """A build of these crates, of which those that it uses come before each."""

    def __init__(self, crates):
        self.crates, version = crates, kit.version()
        self.files = {it: sum_of(it) for it in crates}
        self.sums = {}  # of all that a crate is made from
        for it in crates:
            made_from = (version, it.uses, [self.sums[low] for low in it.own()], self.files[it])
            self.sums[it] = hashlib.sha256(repr(made_from).encode()).hexdigest()
        self.measure_chains()
        self.proved = {it for it in crates if os.path.exists(it.made) and text_of(file_of(it, "sum")) == self.sums[it]}
        self.waiting = [it for it in crates if it not in self.proved]
        self.running = {}  # by process
        self.processors = self.idle = len(os.sched_getaffinity(0))
        free = next(row for row in text_of("/proc/meminfo").splitlines() if row.startswith("MemAvailable:"))
        self.memory = int(free.split()[1]) * 85 // 100 // 1000

    def measure_chains(self):
        """Says what each crate takes to be proved, in seconds, and what the longest chain takes that begins with it."""
        self.lines = {it: lines_of(it) for it in self.crates}
        self.work, self.behind = {it: seconds_of(it) for it in self.crates}, dict.fromkeys(self.crates, 0.0)
        for crate in reversed(self.crates):
            self.behind[crate] += self.work[crate]
            for low in crate.own():
                self.behind[low] = max(self.behind[low], self.behind[crate])

    def minutes_left(self):
        """Returns how many minutes the rest will take: what its longest chain takes, or all of it over all processors, whichever is more."""
        running = {it.crate: time.monotonic() - it.since for it in self.running.values()}
        left = {it: max(self.work[it] - running.get(it, 0.0), 0.0) for it in (*self.waiting, *running)}
        chains = dict.fromkeys(left, 0.0)
        for crate in reversed([it for it in self.crates if it in left]):
            chains[crate] += left[crate]
            for low in crate.own():
                if low in chains:
                    chains[low] = max(chains[low], chains[crate])
        return max(sum(left.values()) / self.processors, *chains.values()) / 60 if left else 0.0

    def run(self):
        """Proves what isn't proved. Where a crate isn't, it ends the script."""
        try:
            self.begin_ready()
            while self.running:
                time.sleep(0.1)
                for process in [it for it in self.running if it.poll() is not None]:
                    self.end(process)
        finally:
            for process in self.running:
                with contextlib.suppress(ProcessLookupError):
                    os.killpg(process.pid, signal.SIGTERM)

    def is_waited_for(self, crate):
        """Returns whether the crate is the first of the longest chain, and this is what a build now waits for: four jobs prove a crate in half the
        time of one, so what is left of the crates would, side by side with one job each, be done before the chain is."""
        left = [*self.waiting, *(it.crate for it in self.running.values())]
        return all(self.behind[it] <= self.behind[crate] for it in left) and sum(self.work[it] for it in left) < 2 * self.behind[crate]

    def begin_ready(self):
        """Begins what there are processors and megabytes for. What a build waits for gets a job for each processor, and counts as one; the others get
        their shares of the processors that are left. A crate is taken to need 1 GB, 2 MB more for each line, and 0.7 GB for each job but one."""
        ready = [it for it in self.waiting if self.proved.issuperset(it.own())]
        ready.sort(key=lambda it: -self.behind[it])
        for at, crate in enumerate(ready):
            need = 1000 + 2 * self.lines[crate]
            if self.is_waited_for(crate):
                share, jobs = 1, self.processors
            else:
                share = jobs = max(self.idle // (len(ready) - at), 1)
                if self.running and self.idle < 1:
                    return
            if self.running and self.memory < need:
                return
            jobs = min(jobs, 4)
            while jobs > 1 and need + 700 * (jobs - 1) > self.memory:
                jobs -= 1
            run = Run(crate, jobs, min(share, jobs), need + 700 * (jobs - 1), time.monotonic())
            self.waiting.remove(crate)
            self.idle -= run.share
            self.memory -= run.need
            self.begin(run)

    def begin(self, run):
        made = run.crate.made
        if os.path.isdir(made):
            shutil.rmtree(made)
        for path in (made, file_of(run.crate, "sum")):
            with contextlib.suppress(FileNotFoundError):
                os.remove(path)
        how = {"cwd": run.crate.folder, "stdin": subprocess.DEVNULL, "stderr": subprocess.STDOUT}
        with open(file_of(run.crate, "log"), "wb") as log:
            # in a session of its own, so that it can be ended with what it starts
            self.running[subprocess.Popen(kit.build_words(run.crate, run.jobs), stdout=log, start_new_session=True, **how)] = run

    def end(self, process):
        run = self.running.pop(process)
        if process.returncode == -signal.SIGKILL and run.jobs > 1:  # most likely for memory
            self.begin(run._replace(jobs=1))
            return
        self.idle += run.share
        self.memory += run.need
        name, log = run.crate.name, file_of(run.crate, "log")
        if process.returncode != 0 or not kit.is_proved(text_of(log)):
            say(f"{name} is not proved; {log} says why.")
            sys.exit(1)
        if sum_of(run.crate) != self.files[run.crate]:
            say(f"{name} was changed while it was proved; run this again.")
            sys.exit(1)
        with open(file_of(run.crate, "sum"), "w", encoding="utf-8") as it:
            it.write(self.sums[run.crate])
        for kind, text in (("own", self.files[run.crate]), ("took", f"{time.monotonic() - run.since:.1f}")):
            with open(file_of(run.crate, kind), "w", encoding="utf-8") as it:
                it.write(text)
        self.proved.add(run.crate)
        self.begin_ready()
        left = len(self.crates) - len(self.proved)
        say(f"{name} is proved, {left} of {len(self.crates)} crates are left{in_minutes(self.minutes_left()) if left else ''}")


def in_minutes(minutes):
    """How long something takes, in words."""
    return ", for less than a minute" if minutes < 1 else f", for some {minutes:.0f} minute{'s' if round(minutes) != 1 else ''}"


@contextlib.contextmanager
def alone():
    """Waits until no other build goes on, and keeps others out."""
    os.makedirs(kit.KEPT, exist_ok=True)
    with open(f"{kit.KEPT}/lock", "w", encoding="utf-8") as lock:
        fcntl.flock(lock, fcntl.LOCK_EX)
        yield


def prove(crates, what):
    """Proves these crates, of which those that it uses come before each, where that isn't done yet, and says so: "proving WHAT"."""
    for it in (signal.SIGHUP, signal.SIGINT, signal.SIGTERM):
        if signal.getsignal(it) != signal.SIG_IGN:
            signal.signal(it, lambda *_: sys.exit(130))
    build = Build(crates)
    if build.waiting:
        say(f"proving {what}: {len(build.waiting)} of {len(crates)} crates{in_minutes(build.minutes_left())}: {', '.join(it.name for it in build.waiting)}")
    build.run()


def provide_below(crate, but=()):
    """Proves what the crate stands on, but these crates, where a library of it isn't there. After an edit below, those of the last build stay."""
    wanted = [it for it in crate.below() if it not in but]
    if not all(os.path.exists(it.made) for it in wanted):
        with alone():
            prove(wanted, f"what is below {crate.name}")


def upwards(names, crate):
    """Returns the crates of these names that are below this one, and those between that stand on them, lowest first."""
    named = [kit.crate_named(it) for it in names]
    for it in named:
        if it not in crate.below():
            sys.exit(f"{crate.name} doesn't stand on {it.name}")
    return [it for it in crate.below() if it in named or any(low in named for low in it.below())]


def prove_changed(upper):
    """Proves the crates that changed since they were last proved, lowest first, and what stands on them, as far up as is wanted: up to this crate,
    or, where none is named, to the last that changed."""
    build = Build([*upper.below(), upper] if upper else list(in_order(kit.crates().values())))
    changed = [it for it in build.waiting if is_changed(it, build)]
    if not changed:
        say("nothing changed since it was proved")
        return
    say(f"changed: {', '.join(it.name for it in changed)}")
    wanted = [*upper.below(), upper] if upper else in_order(changed)
    with alone():
        prove(wanted, "what changed" + (f" and what {upper.name} needs of it" if upper else ""))


def is_changed(crate, build):
    """Returns whether the crate's own files changed since it was proved, or it wasn't proved yet."""
    return text_of(file_of(crate, "own")) != build.files[crate]


def in_order(crates):
    """Returns these crates and all that they stand on, each behind what it uses."""
    return [*dict.fromkeys(it for crate in crates for it in (*crate.below(), crate))]


def make(crate, program):
    """Proves the program's crate and all below it, and links it."""
    begun = time.time() - 1  # the clock of the files may be behind
    prove([*crate.below(), crate], "and building the program")
    log = file_of(crate, "log")
    with open(log, "ab") as said:
        if subprocess.run(kit.link_words(crate, f"{program}.new"), stdout=said, stderr=subprocess.STDOUT, check=False).returncode != 0:
            say(f"the program is proved and can't be linked; {log} says why.")
            sys.exit(1)
    os.utime(f"{program}.new", (begun, begun))  # so that what was changed meanwhile is newer
    os.replace(f"{program}.new", program)
