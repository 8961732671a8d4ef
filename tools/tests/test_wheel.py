"""The wheel of the bridge, over the real program: who is told, of what, and after what; and a list of GTK 4 that is scrolled."""
import pathlib
import socket
import subprocess
import sys
import unittest

sys.path.insert(0, str(pathlib.Path(__file__).resolve().parent))
from client import Client, Window  # pylint: disable=wrong-import-position
from rig import Rig, has_option  # pylint: disable=wrong-import-position
from test_display import Displays  # pylint: disable=wrong-import-position
from toolkits import PYTHON  # pylint: disable=wrong-import-position
import wlframe  # pylint: disable=wrong-import-position
from wlframe import keys  # pylint: disable=wrong-import-position
from wlframe.bridge import wheel  # pylint: disable=wrong-import-position

LONG = 60
FINGER = 1  # wl_pointer.axis_source
GTK_LIST = """
import sys, gi
gi.require_version("Gtk", "4.0")
from gi.repository import Gtk
def activate(app):
    Gtk.Settings.get_default().set_property("gtk-enable-animations", False)
    window = Gtk.ApplicationWindow(application=app, title="List", default_width=200, default_height=200)
    rows = Gtk.ListBox()
    for number in range(60):
        rows.append(Gtk.Label(label=f"row {number}"))
    scrolled = Gtk.ScrolledWindow(overlay_scrolling=False, kinetic_scrolling=False)
    scrolled.set_child(rows)
    window.set_child(scrolled)
    window.present()
app = Gtk.Application(application_id="org.example.list")
app.connect("activate", activate)
app.run([])
"""


class Events(unittest.TestCase):
    """What a group is for each version of wl_pointer."""

    def test_versions(self):
        down, left = wheel.Turn(wheel.VERTICAL, 20.0, 2), wheel.Turn(wheel.HORIZONTAL, -10.0, -1)
        told = {it: list(wheel.events_of(it, 7, wheel.WHEEL, (down, left))) for it in (1, 4, 5, 7, 8)}
        axes = [("axis", 7, 0, 20.0), ("axis", 7, 1, -10.0)]
        self.assertEqual((told[1], told[4]), (axes, axes))
        self.assertEqual(told[5], [("axis_source", 0), ("axis_discrete", 0, 2), axes[0], ("axis_discrete", 1, -1), axes[1], ("frame",)])
        self.assertEqual(told[7], told[5])
        self.assertEqual(told[8], [("axis_source", 0), ("axis_value120", 0, 240), axes[0], ("axis_value120", 1, -120), axes[1], ("frame",)])

    def test_fingers(self):
        slides, ends = wheel.Turn(wheel.VERTICAL, 1.5), wheel.Turn(wheel.HORIZONTAL, 0.0, is_end=True)
        self.assertEqual(list(wheel.events_of(1, 7, FINGER, (slides, ends))), [("axis", 7, 0, 1.5)])
        self.assertEqual(list(wheel.events_of(5, 7, FINGER, (slides, ends))), [("axis_source", 1), ("axis", 7, 0, 1.5), ("axis_stop", 7, 1), ("frame",)])


@unittest.skipIf(not has_option("--viewer"), "the program has no --viewer")
class Turns(unittest.TestCase):
    """Who is told, and after what."""

    def setUp(self):
        self.rig = self.enterContext(Rig("--keys", "keys", "--viewer", "viewer", "--view", "view", viewer=True))
        self.keys = self.enterContext(keys.Keyboard(self.rig.room / "keys"))
        self.view = self.enterContext(socket.socket(socket.AF_UNIX))
        self.view.connect(str(self.rig.room / "view"))

    def client(self):
        return self.enterContext(Client(self.rig.wayland))

    def window(self, *versions):
        """A client with a window of 8 by 8 that is shown, and a wl_pointer of each of these versions. The first window stands at the corner, the next one 32 points further."""
        client = self.client()
        window = Window(client, 8, 8)
        pointers = [client.send(client.bind(window.registry, "wl_seat", it), "get_pointer") for it in versions]
        window.show(0)
        client.take()
        return client, window, pointers

    def point(self, x, y):
        """Moves the pointer. That it went there isn't waited for."""
        self.view.sendall(f"motion {x} {y}\n".encode())

    def told(self, client):
        """What the client is told of its wl_pointers by what was asked before: by each the names and values, without serials and times."""
        self.keys.sync()
        client.round_trip()
        found = [said for said, _ in client.events if said.name.startswith("wl_pointer.")]
        client.take()
        words = {}
        for said in found:
            words.setdefault(said.target, []).append((said.message.name, *said.values[1 if said.message.name in ("enter", "leave", "motion", "axis") else 0 :]))
        return words

    @staticmethod
    def click(version, axis, way):
        """The events of a click, without times."""
        return [("axis_source", 0), ("axis_discrete", axis, way), ("axis", axis, 10 * way), ("frame",)] if version >= 5 else [("axis", axis, 10 * way)]

    def test_behind_the_motion_by_each_pointer(self):
        """All wl_pointers of the client are told, each as its version has it, behind the enter that the motion before led to."""
        versions = (1, 4, 5, 7)
        client, window, pointers = self.window(*versions)
        for _ in range(20):
            self.point(3, 4)
            self.keys.wheel(2)
            self.keys.wheel(-1, 1)
            told = self.told(client)
            for pointer, version in zip(pointers, versions):
                framed = [("frame",)] if version >= 5 else []
                clicks = [it for axis, way in ((0, 1), (0, 1), (0, -1), (1, 1)) for it in self.click(version, axis, way)]
                self.assertEqual(told[pointer], [("enter", window.surface, 3, 4), *framed, *clicks], version)
            self.point(60, 40)
            self.assertEqual({it[0][0] for it in self.told(client).values()}, {"leave"})

    def test_only_who_is_under_the_pointer(self):
        first, _, (one,) = self.window(7)
        second, _, (other,) = self.window(7)
        for x, (client, pointer) in ((1, (first, one)), (33, (second, other)), (2, (first, one))):
            self.point(x, x)
            self.keys.wheel(1)
            self.assertEqual(self.told(client)[pointer][-4:], self.click(7, 0, 1))
        self.assertNotIn("axis", [it[0] for it in self.told(second)[other]])
        self.point(20, 4)  # over none
        self.keys.wheel(1)
        self.assertEqual([it[0] for it in self.told(first)[one]], ["leave", "frame"])
        self.assertEqual(self.told(second), {})

    def test_pointers_that_are_released_or_late(self):
        client, window, (one,) = self.window(7)
        self.point(1, 1)
        self.told(client)
        client.send(one, "release")
        late = client.send(client.bind(window.registry, "wl_seat", 5), "get_pointer")
        client.round_trip()
        self.keys.wheel(0, -1)
        self.assertEqual(self.told(client), {late: [("enter", window.surface, 1, 1), ("frame",), *self.click(5, 1, -1)]})
        client.send(window.toplevel, "destroy")
        client.send(window.shell, "destroy")
        client.send(window.surface, "destroy")
        self.keys.wheel(1)
        self.assertNotIn("axis", [it[0] for it in self.told(client).get(late, [])])

    def test_bad_lines(self):
        for line, why in (("wheel 1", "write wheel DOWN RIGHT"), ("wheel 1001 0", "from 0 to 1000, not 1001"), ("wheel 0 -1001", "behind -, has to be a number"), ("wheel x 0", "not x")):
            with self.subTest(line), keys.Keyboard(self.rig.room / "keys") as other:
                other.send(line)
                with self.assertRaisesRegex(keys.Failed, why):
                    other.sync()

    def virtual(self):
        """A client with a virtual pointer."""
        client = self.client()
        registry = client.begin()
        seat = client.bind(registry, "wl_seat", 7)
        manager = client.bind(registry, "zwlr_virtual_pointer_manager_v1", 2)
        return client, client.send(manager, "create_virtual_pointer", seat)

    def test_virtual_pointers(self):
        """What one scrolls is told as one group with its frame, behind its motion."""
        client, window, (one, other) = self.window(7, 1)
        virtual, made = self.virtual()
        virtual.put(made, "motion_absolute", 0, 3, 4, 64, 48)
        virtual.put(made, "axis_source", FINGER)
        virtual.put(made, "axis_discrete", 0, 0, 15.0, 1)
        virtual.put(made, "axis", 0, 1, -2.5)
        virtual.send(made, "frame")
        virtual.send(made, "axis_stop", 0, 1)
        virtual.send(made, "frame")
        virtual.send(made, "frame")
        client.until("wl_pointer.axis_stop")
        entered, axes = ("enter", window.surface, 3, 4), [("axis", 0, 15), ("axis", 1, -2.5)]
        group = [("axis_source", FINGER), ("axis_discrete", 0, 1), *axes, ("frame",), ("axis_source", 0), ("axis_stop",), ("frame",)]
        told = self.told(client)
        self.assertEqual([it if it[0] != "axis_stop" else it[:1] for it in told[one]], [entered, ("frame",), *group])
        self.assertEqual(told[other], [entered, *axes])

    def test_bad_virtual_pointers(self):
        for name, values, error in (("axis", (0, 2, 1.0), "0 invalid_axis"), ("axis_stop", (0, 2), "0 invalid_axis"), ("axis_source", (4,), "1 invalid_axis_source")):
            with self.subTest(name):
                client, made = self.virtual()
                client.send(made, name, *values)
                self.assertIn(f"zwlr_virtual_pointer_v1#{made}, {error}", client.error())


class Scrolls(Displays):
    """The package."""

    def test_a_list_of_gtk(self):
        """It goes down and comes back, to the byte."""
        if why := lacks_gtk():
            self.skipTest(why)
        display = self.display(size=(240, 240))
        display.is_strict = False
        client = display.run(PYTHON, "-c", GTK_LIST)
        window = display.window(client=client, timeout=LONG)
        display.wait_until_idle(0.5, LONG)
        window.scroll(100, 120)
        display.wait_until_idle(0.5, LONG)
        top = window.picture()
        window.scroll(100, 120, down=3)
        display.wait_for(lambda _: window.picture() != top, LONG)
        display.wait_until_idle(0.5, LONG)
        window.scroll(100, 120, down=-20)
        display.wait_for(lambda _: window.picture() == top, LONG)

    def test_what_can_not_be_scrolled(self):
        display = self.display()
        with self.assertRaisesRegex(wlframe.NoWindow, "none is shown yet"):
            display.scroll(1, 1, down=1)
        with self.assertRaisesRegex(ValueError, "give a wheel at most 1000 at once"):
            display.scroll(1, 1, down=1001)
        self.lamp(display)
        with self.assertRaisesRegex(wlframe.Failure, "isn't within the display of 64x48"):
            display.scroll(64, 0, down=1)


def lacks_gtk():
    """Why there is no GTK 4 for Python, in words, or nothing."""
    done = subprocess.run([PYTHON, "-c", 'import gi; gi.require_version("Gtk", "4.0")'], capture_output=True, text=True, check=False)
    return "" if done.returncode == 0 else "there is no GTK 4 for Python"


if __name__ == "__main__":
    unittest.main()
