"""Runs wlcs, Canonical's suite of tests of Wayland compositors (Debian: wlcs), over wlframe and its bridge.

    tools/conformance [--filter REGEX] [--jobs N] [--work FOLDER] [--write FILE] [--program FILE]
    tools/conformance --write docs/CONFORMANCE.md

It builds tools/wlcs/module.c by gcc (Debian: gcc, libwayland-dev), and runs each test by itself,
with a server and a bridge of its own. A test that fails runs once more with tools/wlcs/mend.c,
which places windows and acknowledges configures where wlcs doesn't.

FOLDER/results.json keeps the results (out/wlcs), so a run that was ended goes on where it was.
--again forgets them.

    0    each test passed, was skipped, or has its reason in tools/wlcs/classes.txt
    1    not so
    2    the tests can't be run
"""
import argparse
import collections
import concurrent.futures
import json
import os
import pathlib
import re
import shutil
import subprocess
import sys

from wlframe import programs
from wlframe.faults import Failure
from wlframe.places import TOP

NAME = os.path.basename(sys.argv[0])
WLCS = pathlib.Path("/usr/lib/x86_64-linux-gnu/wlcs/wlcs")
SOURCES = TOP / "tools" / "wlcs"
LIMIT = 120  # seconds of one run
PASSED, MENDED, SKIPPED = "passed", "passed, mended", "skipped"
HEAD = """# Conformance

What [wlcs](https://github.com/MirServer/wlcs) finds of wlframe and its bridge. It is Canonical's
suite of tests of Wayland compositors. `tools/conformance --write docs/CONFORMANCE.md` writes this
page. Each test has a server and a bridge of its own, whose pointer it moves by the viewer's socket.

Where a test wants them, two things are done for wlcs (tools/wlcs/mend.c). It commits buffers before
it has acknowledged a configure, which xdg-shell forbids; so the acknowledgement is put in. And it
wants windows at a place, which no request asks for; so buffers are attached with an offset.
"""
TOUCH = "Wants touch. The seat has none, and says so."
# What the classes of tests that don't pass mean, in the order of the page.
MEANINGS = {
    "against the text": "The standard says what the test wants, and wlframe does otherwise.",
    "open in the text": "The standard leaves it to the compositor, or says nothing of it.",
    "not served": "What the test is of isn't there.",
    "wlcs is wrong": "The test wants what the standard forbids, or doesn't give.",
    "not explained": "Nobody has looked at these yet.",
}
APPLY = (PASSED, MENDED, "against the text", "open in the text", "not explained")


class Asked(argparse.Namespace):
    """What the command line asks, and what follows from it."""

    work: pathlib.Path
    program: str
    order: list


def build(work):
    """Builds what wlcs loads."""
    if not WLCS.exists():
        raise Failure(f"{WLCS} isn't there (Debian: apt-get install wlcs)")
    for name in ("module", "mend"):
        words = ["gcc", *"-std=gnu11 -O1 -g -Wall -Wextra -shared -fPIC".split(), "-o", work / f"{name}.so", SOURCES / f"{name}.c", "-lwayland-client", "-ldl"]
        try:
            done = subprocess.run(words, capture_output=True, text=True, check=False)
        except FileNotFoundError:
            raise Failure("gcc isn't installed (Debian: apt-get install gcc libwayland-dev)") from None
        if done.returncode:
            raise Failure(f"{name}.c can't be built: {done.stderr.strip()}")


def tests(work):
    """The names of all tests."""
    told = subprocess.run([WLCS, work / "module.so", "--gtest_list_tests"], capture_output=True, text=True, check=True).stdout
    suite, found = "", []
    for line in told.splitlines():
        if line.startswith("  "):
            found.append(suite + line.split("#")[0].strip())
        elif line.rstrip().endswith(".") or ".  #" in line:
            suite = line.split("#")[0].strip()
    return found


def ended(status, output):
    """How a test ended."""
    if status is None:
        return "time over"
    if status < 0:
        return "crashed"
    if "[     SKIP ]" in output:
        return SKIPPED
    return PASSED if "[       OK ]" in output and status == 0 else "failed"


def run(asked, test, is_mended):
    """Runs a test, and answers how it ended and what it said."""
    folder = asked.work / f"{'m' if is_mended else 'p'}{asked.order.index(test)}"  # short, since a socket's path is at most 107 bytes long
    shutil.rmtree(folder, ignore_errors=True)
    folder.mkdir(parents=True)
    environment = {**os.environ, "WLFRAME": asked.program, "BRIDGE": str(TOP / "tools" / "bridge"), "WLCS_DIR": str(folder)}
    environment |= {"LD_PRELOAD": str(asked.work / "mend.so")} if is_mended else {}
    words = [WLCS, asked.work / "module.so", f"--gtest_filter={test}", *(["--gtest_also_run_disabled_tests"] if "DISABLED_" in test else [])]
    process = subprocess.Popen(words, env=environment, stdin=subprocess.DEVNULL, stdout=subprocess.PIPE, stderr=subprocess.STDOUT)
    try:
        output, status = process.communicate(timeout=LIMIT)[0], process.returncode
    except subprocess.TimeoutExpired:
        process.kill()
        output, status = process.communicate()[0], None
    text = output.decode(errors="replace")
    (folder / "output").write_text(text, encoding="utf-8")
    shutil.rmtree(folder / "pools", ignore_errors=True)
    return {"end": ended(status, text), "why": why(text), "touch": "touch is asked for" in text}


def why(output):
    """What wlcs said of a test that didn't pass."""
    kept = [it.strip() for it in output.splitlines() if re.search(r"Failure|Expected|Actual|Value of|Which is|exception|Missing|error", it)]
    return re.sub(r"0x[0-9a-f]+", "0x..", " / ".join(kept))[:300]


def both(asked, test):
    """Runs a test as it is, and once more mended where it has to be."""
    plain = run(asked, test, is_mended=False)
    return {"plain": plain, "mended": run(asked, test, is_mended=True) if plain["end"] not in (PASSED, SKIPPED) else None}


def classes():
    """Why tests don't pass: each class, the pattern of its tests and the reason."""
    lines = [it for it in (SOURCES / "classes.txt").read_text(encoding="utf-8").splitlines() if it.strip() and not it.startswith("#")]
    return [(name, re.compile(pattern), reason) for name, pattern, reason in (it.split(" | ", 2) for it in lines)]


def judged(test, found, known):
    """The class of a test, and why it is in that."""
    last = found["mended"] or found["plain"]
    if last["end"] == PASSED:
        return (MENDED if found["mended"] else PASSED), ""
    if last["end"] == SKIPPED:
        missing = re.search(r"Missing extension: (\w+>= \d+)", last["why"])
        return SKIPPED, missing[1] if missing else ""
    if last["touch"]:
        return "not served", TOUCH
    for name, pattern, reason in known:
        if pattern.search(test):
            return name, reason
    return "not explained", f"{last['end']}: {last['why']}"


def in_a_cell(text):
    return text.replace("|", "\\|").replace("<", "&lt;").replace("\n", " ")


def short(tests):
    """The names of tests, those that differ by their last number alone as one."""
    numbers = {}
    for test in tests:
        name, _, number = test.rpartition("/") if test.rpartition("/")[2].isdigit() else (test, "", "")
        numbers.setdefault(name, []).append(number)
    return ", ".join(f"`{in_a_cell(name)}`{' ' * any(them)}{', '.join(f'/{it}' for it in them if it)}" for name, them in numbers.items())


def page(rows, program):
    """The page of all tests that don't pass."""
    counts = collections.Counter(name for _, name, _ in rows)
    apply = sum(counts[name] for name in APPLY)
    table = [
        (f"of wlcs, over `{pathlib.Path(program).name}`", len(rows)),
        ("skipped, since they want protocols that aren't there", counts[SKIPPED]),
        ("not served", counts["not served"]),
        ("wlcs is wrong", counts["wlcs is wrong"]),
        ("**that apply**", apply),
        ("passed", f"{counts[PASSED] + counts[MENDED]}, of them {counts[MENDED]} with what is done for wlcs"),
        *((name, counts[name]) for name in APPLY[2:] if counts[name]),
    ]
    lines = [HEAD, "| tests | |", "|---|---|", *(f"| {name} | {count} |" for name, count in table)]
    for name, meaning in MEANINGS.items():
        found = {}
        for test, _, reason in (it for it in rows if it[1] == name):
            found.setdefault(reason, []).append(test)
        if found:
            lines += ["", f"## {name.capitalize()}", "", meaning, "", "| what a test wants, and what comes of it | tests | |", "|---|---|---|"]
            lines += [f"| {in_a_cell(reason)} | {len(tests)} | {short(tests)} |" for reason, tests in found.items()]
    skipped = collections.Counter(reason for _, name, reason in rows if name == SKIPPED)
    lines += ["", "## Skipped", "", "| protocol | tests |", "|---|---|"]
    lines += [f"| {reason or 'none: wlcs tests itself'} | {count} |" for reason, count in skipped.most_common()]
    return "\n".join(lines) + "\n"


def asked_of():
    parser = argparse.ArgumentParser(prog=NAME, description=__doc__, formatter_class=argparse.RawDescriptionHelpFormatter)
    parser.add_argument("--filter", default="", metavar="REGEX", help="run the tests whose names match (all)")
    parser.add_argument("--jobs", type=int, default=2, metavar="N", help="run so many tests side by side (2)")
    parser.add_argument("--work", type=pathlib.Path, default=TOP / "out" / "wlcs", metavar="FOLDER", help="keep runs and results there (out/wlcs)")
    parser.add_argument("--again", action="store_true", help="forget earlier results")
    parser.add_argument("--write", type=pathlib.Path, metavar="FILE", help="write the results as this page")
    parser.add_argument("--program", metavar="FILE", help="the program wlframe (that of WLFRAME, or the built one)")
    return parser.parse_args(namespace=Asked())


def run_all(asked):
    """Runs the tests that weren't run, and answers what was found of all."""
    kept = asked.work / "results.json"
    found = json.loads(kept.read_text(encoding="utf-8")) if kept.exists() and not asked.again else {}
    todo = [it for it in asked.order if re.search(asked.filter, it) and it not in found]
    with concurrent.futures.ThreadPoolExecutor(asked.jobs) as pool:
        waiting = {pool.submit(both, asked, it): it for it in todo}
        for count, job in enumerate(concurrent.futures.as_completed(waiting), 1):
            found[waiting[job]] = job.result()
            kept.write_text(json.dumps(found, indent=1), encoding="utf-8")
            print(f"{count} of {len(todo)}: {waiting[job]}", file=sys.stderr, flush=True)
    return found


def main():
    asked = asked_of()
    try:
        asked.program = programs.find(asked.program)
        programs.need(asked.program, "--viewer", "the pointer is moved")
        asked.work = asked.work.resolve()
        asked.work.mkdir(parents=True, exist_ok=True)
        build(asked.work)
        asked.order = tests(asked.work)
        found = run_all(asked)
    except (Failure, OSError, subprocess.CalledProcessError) as fault:
        print(f"{NAME}: {fault}", file=sys.stderr)
        return 2
    known = classes()
    rows = [(it, *judged(it, found[it], known)) for it in asked.order if it in found]
    if asked.write:
        asked.write.write_text(page(rows, asked.program), encoding="utf-8")
    counts = collections.Counter(name for _, name, _ in rows)
    print("\n".join(f"{count:4} {name}" for name, count in sorted(counts.items())))
    return 1 if counts["not explained"] else 0
