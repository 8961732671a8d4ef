"""Runs the tests of the tools over the real program, and those of the package: python3 tools/tests. The last line is 'N passed, M failed'.

Each file of tests is run by a process of its own, so many side by side as there are processors, the longest texts first. Standard error tells how many seconds each took. A
file may be named: python3 tools/tests test_run
"""
import concurrent.futures
import os
import pathlib
import re
import subprocess
import sys
import time

HERE = pathlib.Path(__file__).resolve().parent
PLACES = [HERE, HERE.parent.parent / "python" / "tests"]


def run(path):
    """Runs the tests of a file, and returns how many passed, how many failed, what was said, and how many seconds it took."""
    begun = time.monotonic()
    done = subprocess.run(
        [sys.executable, "-m", "unittest", "-v", path.stem], cwd=path.parent, stdin=subprocess.DEVNULL, stdout=subprocess.PIPE, stderr=subprocess.STDOUT, text=True, check=False
    )
    ran = re.search(r"^Ran (\d+) tests?", done.stdout, re.MULTILINE)
    counts = {kind: int(count) for kind, count in re.findall(r"(failures|errors|skipped|unexpected successes)=(\d+)", done.stdout.rpartition("\n\n")[2])}
    skipped, failed = counts.pop("skipped", 0), sum(counts.values())
    took = time.monotonic() - begun
    if not ran or not int(ran[1]) or bool(failed) != bool(done.returncode):
        return 0, max(failed, 1), done.stdout, took
    return int(ran[1]) - failed - skipped, failed, done.stdout, took


def main():
    files = [it for place in PLACES for it in place.glob("test_*.py") if it.stem in (sys.argv[1:] or [it.stem])]
    files.sort(key=lambda it: -it.stat().st_size)
    passed = failed = 0
    seconds = []
    with concurrent.futures.ThreadPoolExecutor(len(os.sched_getaffinity(0))) as pool:
        for path, (good, bad, said, took) in zip(files, pool.map(run, files)):
            passed, failed = passed + good, failed + bad
            seconds.append((took, path.stem))
            print(said, file=sys.stderr, flush=True)
            for name, why in re.findall(r"^(test_\w+) (?:.*\n)?.*\.\.\. skipped '(.*)'$", said, re.MULTILINE):
                print(f"skipped: {name}: {why}", flush=True)
    print("".join(f"{took:6.1f} seconds {name}\n" for took, name in sorted(seconds, reverse=True)), end="", file=sys.stderr, flush=True)
    print(f"{passed} passed, {failed} failed", flush=True)
    return 1 if failed or not passed else 0


if __name__ == "__main__":
    sys.exit(main())
