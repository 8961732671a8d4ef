"""What the bridge tells of its clients' toplevels and popups, by --windows."""
import json
import os
import pathlib
import socket
import sys
import unittest

sys.path.insert(0, str(pathlib.Path(__file__).resolve().parent))
from client import Client, Menu, Window  # pylint: disable=wrong-import-position
from rig import Rig, wait_for  # pylint: disable=wrong-import-position


class Tells(unittest.TestCase):
    def setUp(self):
        self.rig = self.enterContext(Rig("--windows", "titles"))

    def connect(self):
        return self.enterContext(Client(self.rig.wayland))

    def told(self):
        with socket.socket(socket.AF_UNIX) as asks:
            asks.connect(str(self.rig.room / "titles"))
            data = b""
            while piece := asks.recv(4096):
                data += piece
        return json.loads(data)

    def test_nobody(self):
        self.assertEqual(self.told(), [])

    def test_toplevel_from_its_beginning_to_its_end(self):
        client = self.connect()
        window = Window(client, 20, 10)
        known = {"connection": 2, "process": os.getpid(), "surface": window.surface, "geometry": None, "number": 1, "kind": "toplevel", "title": None, "app_id": None}
        self.assertEqual(self.told(), [known])
        client.put(window.toplevel, "set_title", "Ä title")
        client.put(window.toplevel, "set_app_id", "org.example")
        client.put(window.shell, "set_window_geometry", 1, 2, 3, 4)
        client.flush()
        client.round_trip()
        self.assertEqual(self.told(), [{**known, "title": "Ä title", "app_id": "org.example", "geometry": [1, 2, 3, 4]}])
        client.put(window.toplevel, "destroy")
        client.flush()
        client.round_trip()
        self.assertEqual(self.told(), [])

    def test_second_role_of_a_surface(self):
        client = self.connect()
        window = Window(client, 20, 10)
        client.put(window.toplevel, "set_title", "One")
        client.put(window.toplevel, "destroy")
        client.put(window.shell, "destroy")
        shell = client.put(window.base, "get_xdg_surface", window.surface)
        client.put(shell, "get_toplevel")
        client.flush()
        client.round_trip()
        (known,) = self.told()
        self.assertEqual((known["number"], known["title"], known["surface"]), (2, None, window.surface))

    def test_popup(self):
        client = self.connect()
        window = Window(client, 20, 10)
        window.show(0)
        menu = Menu(window, 5, 5)
        found = self.told()
        self.assertEqual([(it["kind"], it["surface"]) for it in found], [("toplevel", window.surface), ("popup", menu.surface)])

    def test_clients_side_by_side(self):
        first, second = self.connect(), self.connect()
        Window(first, 20, 10)
        Window(second, 20, 10)
        self.assertEqual([it["connection"] for it in self.told()], [2, 3])
        first.socket.close()
        wait_for(lambda: [it["connection"] for it in self.told()] == [3], "the first is still told of")

    def test_socket_goes_with_the_bridge(self):
        self.assertEqual(self.rig.end(), 0)
        self.assertFalse((self.rig.room / "titles").exists())


if __name__ == "__main__":
    unittest.main()
