"""wlframe, tools/check and tools/build.py, over a copy with three small crates, and a kit that proves nothing: its prover does what the sources say."""
import os
import pathlib
import shutil
import signal
import subprocess
import sys
import tempfile
import time
import unittest

sys.path.insert(0, str(pathlib.Path(__file__).resolve().parent))
from rig import PATIENCE, TOOLS  # pylint: disable=wrong-import-position

CRATES = "# the crates\nlow: slab\nmid: low\nwlframe: low mid # the program\n"
RT = """#!/bin/sh
case "$1" in doc) echo "$KIT/START.md" ;; version) echo "kit 1" ;; esac
"""
# It makes of a crate what the source is, after what its last line says, and writes to $KIT/ran what it was called for.
RATTLE = """#!/usr/bin/env python3
import os, signal, sys, time
words, kit = sys.argv, os.environ["KIT"]
after = lambda flag: words[words.index(flag) + 1]
source = next(it for it in words if it.endswith(".rt"))
with open(source) as it:
    text = it.read()
say = text.rstrip().rpartition("\\n")[2]
with open(f"{kit}/ran", "a") as it:
    it.write(f"{words[1]} {after('--crate-name')}\\n")
if say == "// hungry" and after("--jobs") != "1":
    os.kill(os.getpid(), signal.SIGKILL)
if say == "// slow":
    with open(f"{kit}/slow", "w") as it:
        it.write(str(os.getpid()))
    time.sleep(600)
if say == "// edited":
    with open(source, "a") as it:
        it.write("// now\\n")
if say == "// wrong":
    sys.exit("logic=not-proved")
for it in words:
    name, _, path = it.partition("=")
    if it.endswith(".rlib") and name != "std" and name != "slab" and not os.path.exists(path or it) and words[words.index(it) - 1] != "-o":
        sys.exit(f"{it} isn't there")
if words[1] == "build":
    with open(after("-o"), "w") as it:
        it.write(text)
print("reading\\nlogic=proved functions=1")
"""
LINK = """#!/bin/sh
while [ "$1" != -o ]; do shift; done
cp "$3" "$2" && chmod +x "$2"
"""


class Builds(unittest.TestCase):
    def setUp(self):
        self.room = pathlib.Path(self.enterContext(tempfile.TemporaryDirectory()))
        self.kit = self.room / "kit"
        self.kept = self.room / "crates" / "wlframe" / "out" / "rlib"
        self.environment = {**os.environ, "KIT": str(self.kit), "PATH": f"{self.kit}/bin:{os.environ['PATH']}"}
        self.put("crates.txt", CRATES)
        for name, text in {"rt": RT, "rattle": RATTLE, "rattle-link": LINK}.items():
            self.put(f"kit/bin/{name}", text).chmod(0o755)
        self.put("crates/low/src/lib.rt", "// low\n")
        self.put("crates/mid/src/lib.rt", "// mid\n")
        self.put("crates/wlframe/src/main.rt", "#!/bin/sh\necho first $*\n")
        (self.room / "tools").mkdir()
        for name in ("wlframe", "tools/kit.py", "tools/build.py", "tools/check"):
            shutil.copy(TOOLS.parent / name, self.room / name)

    def put(self, name, text):
        path = self.room / name
        path.parent.mkdir(parents=True, exist_ok=True)
        path.write_text(text, encoding="utf-8")
        return path

    def call(self, *words, script="wlframe"):
        return subprocess.run([self.room / script, *words], env=self.environment, capture_output=True, text=True, timeout=PATIENCE, check=False)

    def expect(self, done, ran, status=0, out=""):
        """The call ended so, and rattle was called for these."""
        said = (self.kit / "ran").read_text(encoding="utf-8").splitlines() if (self.kit / "ran").exists() else []
        (self.kit / "ran").unlink(missing_ok=True)
        self.assertEqual((done.returncode, done.stdout, said), (status, out, ran), done.stderr)

    def all_built(self):
        self.expect(self.call("--help"), ["build low", "build mid", "build wlframe"], out="first --help\n")

    def test_from_nothing(self):
        done = self.call("one", "two")
        self.expect(done, ["build low", "build mid", "build wlframe"], out="first one two\n")
        soon = ", for less than a minute"
        says = [f"proving and building the program: 3 of 3 crates{soon}: low, mid, wlframe"]
        says += [f"{name} is proved, {left} of 3 crates are left{soon if left else ''}" for name, left in (("low", 2), ("mid", 1), ("wlframe", 0))]
        self.assertEqual(done.stderr.splitlines(), [f"wlframe: {it}" for it in says])
        self.expect(self.call(), [], out="first\n")

    def test_without_a_kit(self):
        python = self.room / "python"
        python.mkdir()
        (python / "python3").symlink_to(sys.executable)
        self.environment["PATH"] = f"{python}:/usr/bin:/bin"
        done = self.call()
        self.expect(done, [], status=1)
        self.assertEqual(done.stderr, "wlframe: the program isn't built yet, and there is no command rt of the Rattle kit to build it by\n")

    def test_what_changed_is_proved_and_what_stands_on_it(self):
        self.all_built()
        self.put("crates/mid/src/lib.rt", "// mid, changed\n")
        self.expect(self.call(), ["build mid", "build wlframe"], out="first\n")
        self.put("crates/low/proofs/More.antt", "-- more\n")
        self.expect(self.call(), ["build low", "build mid", "build wlframe"], out="first\n")
        (self.room / "crates/low/proofs/More.antt").unlink()
        self.expect(self.call(), ["build low", "build mid", "build wlframe"], out="first\n")
        self.put("crates/wlframe/src/main.rt", "#!/bin/sh\necho second\n")
        self.expect(self.call(), ["build wlframe"], out="second\n")

    def test_what_was_only_touched_is_not_proved(self):
        self.all_built()
        (self.room / "crates/low/src/lib.rt").touch()
        self.expect(self.call(), [], out="first\n")

    def test_what_is_not_proved(self):
        self.put("crates/mid/src/lib.rt", "// wrong\n")
        done = self.call()
        self.expect(done, ["build low", "build mid"], status=1)
        self.assertEqual(done.stderr.splitlines()[-1], f"wlframe: mid is not proved; {self.kept}/mid.log says why.")
        self.assertIn("logic=not-proved", (self.kept / "mid.log").read_text(encoding="utf-8"))
        self.put("crates/mid/src/lib.rt", "// mid\n")
        self.expect(self.call(), ["build mid", "build wlframe"], out="first\n")

    def test_what_was_killed_is_tried_with_one_job(self):
        self.put("crates/low/src/lib.rt", "// hungry\n")
        many = ["build low"] * (1 + (len(os.sched_getaffinity(0)) > 1))
        self.expect(self.call(), [*many, "build mid", "build wlframe"], out="first\n")

    def test_an_edit_while_it_is_proved(self):
        self.put("crates/mid/src/lib.rt", "// edited\n")
        done = self.call()
        self.expect(done, ["build low", "build mid"], status=1)
        self.assertEqual(done.stderr.splitlines()[-1], "wlframe: mid was changed while it was proved; run this again.")
        self.expect(self.call(), ["build mid", "build wlframe"], out="first\n")

    def test_an_interrupted_build_ends_its_provers_and_goes_on(self):
        self.put("crates/mid/src/lib.rt", "// slow\n")
        with subprocess.Popen([self.room / "wlframe"], env=self.environment, stderr=subprocess.DEVNULL) as building:
            end = time.monotonic() + PATIENCE
            while not (self.kit / "slow").exists() or not (prover := (self.kit / "slow").read_text(encoding="ascii")):
                self.assertLess(time.monotonic(), end)
                time.sleep(0.05)
            building.send_signal(signal.SIGTERM)
            self.assertEqual(building.wait(PATIENCE), 130)
        while pathlib.Path(f"/proc/{prover}/stat").exists() and " Z " not in pathlib.Path(f"/proc/{prover}/stat").read_text(encoding="utf-8"):
            self.assertLess(time.monotonic(), end)
            time.sleep(0.05)
        (self.kit / "ran").unlink()
        self.put("crates/mid/src/lib.rt", "// mid\n")
        self.expect(self.call(), ["build mid", "build wlframe"], out="first\n")

    def test_one_crate_is_checked(self):
        self.assertEqual(self.call(script="tools/check").returncode, 2)
        self.assertEqual(self.call("high", script="tools/check").returncode, 2)
        done = self.call("mid", script="tools/check")
        self.expect(done, ["build low", "check mid"], out="reading\nlogic=proved functions=1\n")
        self.assertIn("tools/check: proving what is below mid: 1 of 1 crates, for less than a minute: low", done.stderr)
        self.put("crates/low/src/lib.rt", "// low, changed\n")
        self.expect(self.call("mid", "--test", script="tools/check"), ["check mid"], out="reading\nlogic=proved functions=1\n")

    def test_one_crate_is_checked_over_sources(self):
        """Lower crates that aren't proved are read as they are, and so is each crate between."""
        (self.room / "crates" / "low" / "src" / "lib.rt").write_text("// wrong\n")
        done = self.call("wlframe", "--sources", "low", "--only", "wlframe::main", script="tools/check")
        self.expect(done, ["check wlframe"], out="reading\nlogic=proved functions=1\n")
        self.assertFalse(self.kept.exists() and any(it.suffix == ".rlib" for it in self.kept.iterdir()))
        done = self.call("wlframe", "--sources", "low", script="tools/check")
        self.assertEqual((done.returncode, done.stderr.partition(",")[0]), (1, "tools/check: with --sources name a function by --only"))
        done = self.call("low", "--sources", "mid", "--only", "low::a", script="tools/check")
        self.assertEqual((done.returncode, done.stderr), (1, "low doesn't stand on mid\n"))

    def test_what_changed_is_checked(self):
        self.all_built()
        self.assertEqual(self.call("--changed", "high", script="tools/check").returncode, 2)
        self.assertEqual(self.call("--changed", "mid", "more", script="tools/check").returncode, 2)
        done = self.call("--changed", script="tools/check")
        self.expect(done, [])
        self.assertEqual(done.stderr, "tools/check: nothing changed since it was proved\n")
        self.put("crates/low/src/lib.rt", "// low, changed\n")
        done = self.call("--changed", script="tools/check")
        self.expect(done, ["build low"])
        self.assertEqual(done.stderr.splitlines()[:2], ["tools/check: changed: low", "tools/check: proving what changed: 1 of 1 crates, for less than a minute: low"])
        self.put("crates/low/src/lib.rt", "// low, changed again\n")
        done = self.call("--changed", "mid", script="tools/check")
        self.expect(done, ["build low", "build mid"])
        self.assertIn("proving what changed and what mid needs of it: 2 of 2 crates", done.stderr)

    def test_how_long_it_took_is_told(self):
        self.all_built()
        (self.kept / "mid.took").write_text("150", encoding="ascii")
        self.put("crates/mid/src/lib.rt", "// mid, changed\n")
        done = self.call("--changed", script="tools/check")
        self.assertIn("proving what changed: 1 of 2 crates, for some 2 minutes: mid", done.stderr)
        self.assertLess(float((self.kept / "mid.took").read_text(encoding="ascii")), 60)


if __name__ == "__main__":
    unittest.main()
