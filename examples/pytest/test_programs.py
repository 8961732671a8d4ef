"""Five tests of programs of Debian and of one beside this file, by the plug-in of the package wlframe.

    pytest examples/pytest                          needs gtk-4-examples, weston, python3-pyqt6 and qt6-wayland
    pytest examples/pytest --wlframe-update         writes the pictures in expected/ anew, as after an update of the system's fonts
"""
import pathlib
import re

import pytest

HERE = pathlib.Path(__file__).resolve().parent
PATIENCE = 60  # seconds: a machine that does much else isn't a fault of the program
QT = ("/usr/bin/python3", HERE / "counter.py")
pytestmark = pytest.mark.wlframe(size=(480, 360))


def test_drop_down_of_gtk(wlframe_display):
    """A click opens the list, another one picks an entry and closes it."""
    wlframe_display.run("gtk4-demo", "--run=dropdown")
    window = wlframe_display.window(title="Selections", timeout=PATIENCE)
    wlframe_display.wait_until_idle(0.5, PATIENCE)
    window.click(100, 105)
    popup = wlframe_display.window(kind="popup", timeout=PATIENCE)
    wlframe_display.wait_until_idle(0.5, PATIENCE)
    popup.click(60, 60)
    wlframe_display.wait_until(lambda: not popup.is_shown, PATIENCE, "the list is still open")


def test_dots_of_weston(wlframe_display):
    """A dot is drawn where the pointer is pressed, and nowhere else."""
    wlframe_display.run("weston-clickdot")
    window = wlframe_display.window(timeout=PATIENCE)
    wlframe_display.wait_until_idle(0.5, PATIENCE)
    before = window.picture()
    window.click(150, 150)
    wlframe_display.wait_for_change(PATIENCE)
    wlframe_display.wait_until_idle(0.5, PATIENCE)
    assert window.picture().crop((140, 140, 20, 20)) != before.crop((140, 140, 20, 20))
    assert window.picture().crop((60, 60, 40, 40)) == before.crop((60, 60, 40, 40))


def test_menu_of_weston(wlframe_display):
    """The right button opens a menu of the frame, and a press elsewhere closes it."""
    wlframe_display.run("weston-clickdot")
    window = wlframe_display.window(timeout=PATIENCE)
    wlframe_display.wait_until_idle(0.5, PATIENCE)
    window.click(168, 13, button="right")
    menu = wlframe_display.window(kind="popup", timeout=PATIENCE)
    window.click(60, 300)
    wlframe_display.wait_until(lambda: not menu.is_shown, PATIENCE, "the menu is still open")


def test_button_of_qt(wlframe_display):
    """Three clicks are three counts, and the picture shows them. Qt draws the window's frame itself, 30 pixels high, so that its pixels are the window's too."""
    wlframe_display.run(*QT)
    window = wlframe_display.window(title="Counter", timeout=PATIENCE)
    for count in (1, 2, 3):
        window.click(103, 119)
        window = wlframe_display.window(title=f"Counter: {count}", timeout=PATIENCE)
    wlframe_display.move(479, 359)  # so that no button is lit
    window.expect("three.png", timeout=PATIENCE)


def test_end_of_qt(wlframe_display):
    """The other button ends it with the status that is asked for."""
    client = wlframe_display.run(*QT)
    wlframe_display.window(title=re.compile("^Counter"), timeout=PATIENCE).click(103, 171)
    assert client.wait(PATIENCE) == 3
    wlframe_display.wait_until(lambda: client.windows() == [], PATIENCE, "its window is still shown")
