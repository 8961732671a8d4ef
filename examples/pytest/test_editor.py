"""A text is typed into an editor and saved, as docs/TESTING.md tells of a program of one's own.

    pytest examples/pytest/test_editor.py           needs l3afpad
"""
import shutil

import pytest

PATIENCE = 60  # seconds: a machine that does much else isn't a fault of the program
TEXT = "Grüße, née\n"


@pytest.mark.skipif(not shutil.which("l3afpad"), reason="l3afpad isn't installed (Debian: l3afpad)")
@pytest.mark.wlframe(size=(640, 480))
def test_typed_and_saved(tmp_path, wlframe_display):
    """What was typed is shown as its keys were pressed, and stands in the file once it is saved."""
    file = tmp_path / "a.txt"
    file.write_text("")
    wlframe_display.run("l3afpad", file)
    wlframe_display.window(title="a.txt", timeout=PATIENCE)
    before = wlframe_display.wait_until_idle(0.5, PATIENCE)
    wlframe_display.type(TEXT)
    wlframe_display.window(title="*a.txt", timeout=PATIENCE)
    assert wlframe_display.wait_until_idle(0.5, PATIENCE) != before
    wlframe_display.press("ctrl+s")
    wlframe_display.wait_until(lambda: file.read_text() == TEXT, PATIENCE, "nothing was saved")
    wlframe_display.window(title="a.txt", timeout=PATIENCE)
