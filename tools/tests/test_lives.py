"""How a bridge begins and ends: servers that come late, go, or read another folder; sockets that are left over; signals; a disk that is full."""
import pathlib
import resource
import signal
import socket
import sys
import unittest

sys.path.insert(0, str(pathlib.Path(__file__).resolve().parent))
from client import Client, Gone, Window  # pylint: disable=wrong-import-position
from rig import Rig, wait_for  # pylint: disable=wrong-import-position


class Lives(unittest.TestCase):
    def rig(self, *options, **named):
        return self.enterContext(Rig(*options, **named))

    def expect_end(self, rig, status, text):
        """The bridge ends with this status and says this last, and its socket is gone."""
        self.assertEqual(rig.ended(), status)
        self.assertIn(text, rig.words().splitlines()[-1])

    def test_no_server(self):
        rig = self.rig(server=False, bridge=False)
        rig.begin_bridge("--wait", "0.1")
        self.expect_end(rig, 1, "bridge: no server listens at server: start `wlframe serve --socket server ..`")
        self.assertFalse(rig.wayland.exists())

    def test_server_that_comes_later(self):
        rig = self.rig(server=False, bridge=False)
        rig.begin_bridge()
        wait_for(rig.wayland.exists, "the bridge makes no socket")
        with Client(rig.wayland) as client:
            rig.start_server()
            client.begin()
            self.assertIn("wl_shm", client.globals)

    def test_server_that_goes(self):
        rig = self.rig()
        with Client(rig.wayland) as client:
            client.begin()
            rig.server.kill()
            with self.assertRaises((Gone, ConnectionError)):
                while True:
                    client.receive()
        self.expect_end(rig, 1, "bridge: the server at server is gone")
        self.assertIn("was ended: the server is gone", rig.words())
        self.assertFalse(rig.wayland.exists())

    def test_server_whose_turns_are_over(self):
        rig = self.rig(server=False, bridge=False)
        rig.start_server(turns=1)
        rig.server.wait()
        rig.begin_bridge("--wait", "0.1")
        self.expect_end(rig, 1, "bridge: no server listens at server")

    def test_socket_that_is_left_over(self):
        rig = self.rig(bridge=False)
        with socket.socket(socket.AF_UNIX) as old:
            old.bind(str(rig.wayland))
        rig.start_bridge()
        with Client(rig.wayland) as client:
            client.begin()

    def test_socket_that_is_alive(self):
        rig = self.rig()
        living, said = rig.bridge, rig.said
        rig.said = rig.room / "said of the second"
        rig.begin_bridge()
        self.expect_end(rig, 1, "bridge: wayland exists already: another bridge or compositor listens there")
        rig.bridge, rig.said = living, said
        with Client(rig.wayland) as client:
            client.begin()

    def test_file_in_the_place_of_the_socket(self):
        rig = self.rig(bridge=False)
        rig.wayland.write_text("mine")
        rig.begin_bridge()
        self.expect_end(rig, 1, "or it is no socket")
        self.assertEqual(rig.wayland.read_text(), "mine")

    def test_signals(self):
        for number in (signal.SIGTERM, signal.SIGINT):
            with self.subTest(number.name):
                rig = self.rig("--whole")
                with Client(rig.wayland) as client:
                    window = Window(client, 8, 8)
                    window.show(0)
                    self.assertEqual([it.name for it in rig.pools.iterdir()], ["2.1"])
                    self.assertEqual(rig.end(number), 0)
                self.assertEqual(list(rig.pools.iterdir()), [])
                self.assertFalse(rig.wayland.exists())

    def test_folders_that_differ(self):
        rig = self.rig(server=False, bridge=False)
        (rig.room / "others").mkdir()
        rig.start_server(folder="others")
        rig.begin_bridge()
        self.expect_end(rig, 1, "the server didn't read pools/1.1: give both the same folder (--dir)")
        self.assertEqual(list(rig.pools.iterdir()), [])

    def test_second_bridge_of_one_server(self):
        rig = self.rig()
        rig.end()
        rig.begin_bridge()
        self.expect_end(rig, 1, "If another client or bridge connected to the server before, start both anew")

    def test_folder_that_is_missing(self):
        rig = self.rig(bridge=False)
        rig.pools.rmdir()
        rig.begin_bridge()
        self.expect_end(rig, 1, "bridge: there is no folder pools: make it, and give it to wlframe too (--dir)")

    def test_what_listens_is_no_compositor(self):
        rig = self.rig(server=False, bridge=False)
        with socket.socket(socket.AF_UNIX) as other:
            other.bind(str(rig.room / "server"))
            other.listen()
            rig.begin_bridge()
            other.accept()[0].close()
            self.expect_end(rig, 1, "is it `wlframe serve`?")

    def test_disk_that_is_full(self):
        rig = self.rig(bridge=False)
        rig.start_bridge("--whole", preexec_fn=lambda: resource.setrlimit(resource.RLIMIT_FSIZE, (1000, 1000)))
        with Client(rig.wayland) as client:
            with self.assertRaises((Gone, ConnectionError)):
                Window(client, 20, 20)
            self.assertIn("2 no_memory", client.error())
        self.assertIn("pools/2.1: File too large; make room there", rig.line_with("was ended"))
        with Client(rig.wayland) as client:  # the others go on
            Window(client, 4, 4).show(0)

    def test_client_that_dies(self):
        rig = self.rig()
        client = Client(rig.wayland)
        Window(client, 8, 8).show(0)
        client.socket.close()
        wait_for(lambda: not list(rig.pools.iterdir()), "its files stay")
        with Client(rig.wayland) as other:
            other.begin()

    def test_usage(self):
        rig = self.rig(server=False, bridge=False)
        self.assertEqual(rig.begin_bridge("--plain", "--fullscreen").wait(), 2)


if __name__ == "__main__":
    unittest.main()
