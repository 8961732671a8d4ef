"""tools/release: what it packs works where it is unpacked, also on a clean Debian, says what was proved, and is the same twice."""
import os
import pathlib
import re
import shutil
import subprocess
import sys
import tempfile
import unittest
import unittest.mock

HERE = pathlib.Path(__file__).resolve().parent
sys.path.insert(0, str(HERE))
from rig import TOOLS, loaded, program  # pylint: disable=wrong-import-position
from wlframe.pictures import read  # pylint: disable=wrong-import-position

CLEAN = TOOLS.parent / "out" / "debian"  # what debootstrap made, which is kept
SUITE = "bookworm"  # Debian 12, the first with Python 3.11
LONG = 600  # seconds


class Release(unittest.TestCase):
    @classmethod
    def setUpClass(cls):
        cls.room = pathlib.Path(cls.enterClassContext(tempfile.TemporaryDirectory()))
        cls.archives = [cls.make(name) for name in ("one", "two")]

    @classmethod
    def make(cls, name):
        """An archive in a folder of this name."""
        environment = {**os.environ, "WLFRAME": str(program())}
        done = subprocess.run([TOOLS / "release", cls.room / name], env=environment, capture_output=True, text=True, check=True)
        archive = cls.room / name / "wlframe-x86_64.tar.gz"
        assert done.stdout.startswith(f"{archive}: sha256 "), done.stdout
        return archive

    def test_twice_the_same(self):
        one, two = (it.read_bytes() for it in self.archives)
        self.assertEqual(one, two)

    def test_it_is_installed_by_one_line_and_shows_a_client(self):
        prefix = self.room / "prefix"
        prefix.mkdir()
        subprocess.run(["tar", "-C", prefix, "--strip-components", "1", "-xzf", self.archives[0]], check=True)
        alone = {"PATH": os.environ["PATH"], "TMPDIR": str(self.room)}
        words = [prefix / "bin" / "wlframe-run", "--size", "64x48", "--png", "shot.png", "--", sys.executable, HERE / "painter.py", "ff0000"]
        done = subprocess.run(words, cwd=self.room, env=alone, capture_output=True, text=True, check=False)
        self.assertEqual((done.returncode, done.stderr), (0, ""))
        with open(self.room / "shot.png", "rb") as shot:
            self.assertEqual([it.width for it in read(shot)], [64])
        said = (prefix / "share/doc/wlframe/PROVED").read_text(encoding="utf-8")
        self.assertRegex(said, r"\Acommit   [0-9a-f]{40}")
        self.assertIn("The program was named by WLFRAME: nothing is said here", said)
        pages = prefix / "share/doc/wlframe"
        for link in re.findall(r"\]\((docs/[\w.-]+)", (pages / "README.md").read_text(encoding="utf-8")):
            self.assertTrue((pages / link).exists(), link)
        package = {**alone, "PYTHONPATH": str(prefix / "lib/wlframe/python")}
        done = subprocess.run([sys.executable, "-c", "from wlframe import programs; print(programs.find())"], cwd="/", env=package, capture_output=True, text=True, check=True)
        self.assertEqual(pathlib.Path(done.stdout.strip()).resolve(), (prefix / "bin" / "wlframe").resolve())

    def test_a_clean_debian(self):
        """Where there is nothing but Debian's smallest system and Python, the archive is unpacked and takes a picture of a client. A small client of this folder's is shown, since
        others bring half a system with them."""
        if os.getuid() != 0 or not shutil.which("debootstrap") or not shutil.which("unshare"):
            self.skipTest("it takes root, debootstrap and unshare (Debian: debootstrap, util-linux)")
        if not (CLEAN / "usr/bin/python3").exists():
            self.debootstrap()
        room = pathlib.Path(self.enterContext(tempfile.TemporaryDirectory(dir=CLEAN / "root")))
        prefix = room / "prefix"
        prefix.mkdir()
        subprocess.run(["tar", "-C", prefix, "--strip-components", "1", "-xzf", self.archives[0]], check=True)
        for name in ("painter.py", "client.py"):
            shutil.copy(HERE / name, room)
        run = "prefix/bin/wlframe-run --size 64x48 --png shot.png -- env PYTHONPATH=prefix/lib/wlframe/python python3 painter.py ff0000"
        inside = ["chroot", CLEAN, "env", "-i", "PATH=/usr/bin:/bin", "sh", "-c", f"cd /{room.relative_to(CLEAN)} && {run}"]
        words = ["unshare", "--mount", "--pid", "--fork", f"--mount-proc={CLEAN}/proc", *inside]
        done = subprocess.run(words, capture_output=True, text=True, check=False, timeout=LONG)
        self.assertEqual((done.returncode, done.stdout), (0, "asked for 0x0\n"), done.stderr)
        for line in done.stderr.splitlines():
            self.assertRegex(line, "^bridge: there is no keyboard: .*Debian has it in the package libxkbcommon0$")
        with open(room / "shot.png", "rb") as shot:
            self.assertEqual([it.pixel(0, 0) for it in read(shot)], [(255, 0, 0)])
        self.assertEqual([it for it in os.listdir(CLEAN / "tmp") if it.startswith("wlframe")], [])

    def debootstrap(self):
        """Makes the clean system, which takes a minute or three."""
        made = CLEAN.with_name("debian.new")
        shutil.rmtree(made, ignore_errors=True)
        made.parent.mkdir(exist_ok=True)
        # What it mounts and starts goes with it, also where time runs out.
        words = ["unshare", "--mount", "--pid", "--fork", "--kill-child", "--mount-proc", "debootstrap", "--variant=minbase", "--include=python3", SUITE, made]
        try:
            done = subprocess.run(words, capture_output=True, text=True, check=False, timeout=LONG)
            fault = (done.stdout + done.stderr).strip().splitlines()[-1] if done.returncode else ""
        except subprocess.TimeoutExpired:
            fault = f"it takes more than {LONG} seconds"
        if fault:
            shutil.rmtree(made, ignore_errors=True)
            self.skipTest(f"debootstrap makes no system, as without a network: {fault}")
        made.rename(CLEAN)

    def test_wrong_options(self):
        done = subprocess.run([TOOLS / "release", "--what"], capture_output=True, text=True, check=False)
        self.assertEqual(done.returncode, 2)
        self.assertIn("tools/release [FOLDER]", done.stderr)

    def test_what_the_gate_said(self):
        """Of each crate the line that counts, or that it was proved before."""
        self.enterContext(unittest.mock.patch.object(sys, "path", [str(TOOLS), *sys.path]))
        release = loaded(TOOLS / "release")
        release.GATE, release.PROGRAM = self.room / "gate.checks", self.room / "program"
        crates = {it: release.kit.Crate(it, False, []) for it in ("one", "two", "three")}
        release.PROGRAM.touch()
        release.GATE.write_text("logic=proved functions=1\nrt: one proved\nlogic=proved functions=2\nfn b: proved\nrt: two proved\nrt: three is kept: it was proved\n")
        nothing = "nothing is kept of what the prover said"
        self.assertEqual([release.said_of(it) for it in crates.values()], ["logic=proved functions=1", "logic=proved functions=2", "it was proved"])
        self.assertEqual(release.said_of(release.kit.Crate("four", False, [])), nothing)
        os.utime(release.PROGRAM, (2e9, 2e9))  # another build made it later
        self.assertEqual(release.said_of(crates["one"]), nothing)


if __name__ == "__main__":
    unittest.main()
