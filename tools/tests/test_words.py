"""Recordings and reports in the words of the protocol."""
import contextlib
import io
import pathlib
import re
import subprocess
import sys
import tempfile
import unittest
from unittest import mock

sys.path.insert(0, str(pathlib.Path(__file__).resolve().parent))
from rig import TOOLS, program  # pylint: disable=wrong-import-position
from wlframe.commands import words as script  # pylint: disable=wrong-import-position

EXAMPLES = TOOLS.parent / "examples"
SYNC = "01000000 00000c00 02000000"
DONE = "0200000000000c00000000000100000001000c0002000000"


def words(text, *options):
    """What the script makes of a text: its status, its lines and what it says."""
    lines, said = io.StringIO(), io.StringIO()
    with contextlib.redirect_stdout(lines), contextlib.redirect_stderr(said):
        with mock.patch.multiple(sys, argv=["words", *map(str, options)], stdin=io.StringIO(text)):
            status = script.main()
    return status, lines.getvalue().splitlines(), said.getvalue()


class Words(unittest.TestCase):
    def expect(self, text, *lines, options=()):
        self.assertEqual(words(text, *options), (0, list(lines), ""))

    def recording(self, text):
        """A file that holds this recording."""
        stream = self.enterContext(tempfile.NamedTemporaryFile("w", suffix=".rec"))
        stream.write(text)
        stream.flush()
        return stream.name

    def test_requests(self):
        self.expect(f"connect\n# a comment\n\nbytes 1 {SYNC}\ntick 0\n", "connect", "", "client 1 -> wl_display#1.sync(new wl_callback#2)", "tick 0")

    def test_command(self):
        ran = subprocess.run([TOOLS / "words", EXAMPLES / "sync.rec"], capture_output=True, text=True, check=True)
        self.assertEqual(ran.stdout, "connect\nclient 1 -> wl_display#1.sync(new wl_callback#2)\ntick 0\n")

    def test_labels(self):
        self.expect(f"connect\nbytes 1 {SYNC}", "connect", "client 1 -> wl_display#1.sync(callback new wl_callback#2)", options=["--labels"])

    def test_stream_that_is_cut_anywhere(self):
        for pieces in (SYNC.split(), re.findall("..", SYNC.replace(" ", ""))):
            lines = ["connect", *(f"bytes 1 {it}" for it in pieces)]
            self.expect("\n".join(lines), "connect", "client 1 -> wl_display#1.sync(new wl_callback#2)")

    def test_report_beside_its_recording(self):
        recording = self.recording(f"connect\nbytes 1 {SYNC}\ntick 0\n")
        self.expect(
            f"client 1\nto 1 {DONE}\nframe 0 0\n",
            "connect",
            "client 1",
            "client 1 -> wl_display#1.sync(new wl_callback#2)",
            "client 1 <- wl_callback#2.done(0)",
            "client 1 <- wl_display#1.delete_id(2)",
            "tick 0",
            "frame 0 0",
            options=["--recording", recording],
        )

    def test_id_that_is_used_again(self):
        recording = self.recording(f"connect\nbytes 1 {SYNC}\nbytes 1 01000000 01000c00 02000000\n")
        told = "02000000 00001c00 03000000 07000000 776c5f73686d0000 01000000"
        lines = words(f"client 1\nto 1 {DONE}\nto 1 {told}\n", "--recording", recording)[1]
        self.assertEqual(lines[-2:], ["client 1 -> wl_display#1.get_registry(new wl_registry#2)", 'client 1 <- wl_registry#2.global(3, "wl_shm", 1)'])
        self.assertIn("client 1 <- wl_callback#2.done(0)", lines)

    def test_error_and_end(self):
        error = "01000000 00002400 01000000 01000000 0f000000 696e76616c69645f6d6574686f640000"
        self.expect(
            f"client 1\nto 1 {error}\nend 1 protocol 1 1\n",
            "client 1",
            'client 1 <- wl_display#1.error(wl_display#1, 1 invalid_method, "invalid_method")',
            "end 1 protocol wl_display#1 1 invalid_method",
        )

    def test_what_cannot_be_named(self):
        event = "07000000 02000c00 05000000"
        self.expect(f"client 1\nto 1 {event}", "client 1", f"client 1 <- #7, opcode 2, of an object that isn't known: {event}")
        self.expect("bytes 1 01000000 09000800", "client 1 -> wl_display#1, opcode 9, of an opcode that wl_display hasn't: 01000000 09000800")
        self.expect("bytes 1 01000000 00000400", "client 1 -> a header whose size is below 8: 01000000 00000400")

    def test_bad_lines(self):
        for text in ("tock 1", "connect now", "bytes 1", "bytes 1 0", "bytes 1 0g", "to one 00", "tick -1", "end 1 well", " # late comment"):
            with self.subTest(text):
                status, lines, said = words(f"tick 0\n{text}\n")
                self.assertEqual((status, lines), (3, ["tick 0"]))
                self.assertIn("words: standard input:2: this is no line of a recording or a report", said)

    def test_missing_file(self):
        status, lines, said = words("", "there-is-none")
        self.assertEqual((status, lines, said), (1, [], "words: there-is-none: No such file or directory\n"))

    def test_examples_are_what_they_were_composed_of(self):
        for text in sorted(EXAMPLES.glob("*.txt")):
            with self.subTest(text.name):
                said = [line for line in text.read_text(encoding="utf-8").splitlines() if not line.startswith("#")]
                asked = [re.search(r"\.(\w+) *\(", line)[1] for line in said if re.search(r"\.\w+ *\(.*\)$", line)]
                status, lines, _ = words("", text.with_suffix(".rec"))
                self.assertEqual(status, 0)
                self.assertEqual([re.search(r"#\d+\.(\w+)\(", line)[1] for line in lines if " -> " in line], asked)

    def test_examples_with_their_reports(self):
        for recording in sorted(EXAMPLES.glob("*.rec")):
            with self.subTest(recording.name):
                size = ["--size", "112x96"]
                with open(recording, encoding="ascii") as stream:
                    report = subprocess.run([program(), "replay", *size], stdin=stream, capture_output=True, text=True, check=True).stdout
                status, lines, _ = words(report, "--recording", recording)
                self.assertEqual(status, 0)
                self.assertFalse([line for line in lines if "isn't known" in line or "opcode" in line or "misspelled" in line])
                self.assertEqual(sum(" -> " in line for line in lines), sum(" -> " in line for line in words("", recording)[1]))


if __name__ == "__main__":
    unittest.main()
