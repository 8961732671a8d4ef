"""The keyboard and the clipboard of the bridge, over the real program, and what types by them."""
import fcntl
import mmap
import os
import pathlib
import struct
import sys
import threading
import unittest
import unittest.mock

sys.path.insert(0, str(pathlib.Path(__file__).resolve().parent))
from client import Client, Menu, Window  # pylint: disable=wrong-import-position
from rig import Rig, wait_for  # pylint: disable=wrong-import-position
from wlframe import keys, xkb  # pylint: disable=wrong-import-position
from wlframe.bridge.seat import Seat  # pylint: disable=wrong-import-position
from wlframe.bridge.serials import Serials  # pylint: disable=wrong-import-position

try:
    xkb.Keymap.of_layout("us")
    WHY_NOT = ""
except (xkb.Missing, xkb.Unknown) as _fault:
    WHY_NOT = str(_fault)
LEFT_SHIFT, LEFT_CTRL, A, B, TAB = 42, 29, 30, 48, 15
SHIFT, CAPS_LOCK, CONTROL = 1, 2, 4  # modifiers
PLAIN = "text/plain;charset=utf-8"


class Serial(unittest.TestCase):
    """How the bridge's serials are counted in with the server's."""

    def test_nothing_of_the_bridge(self):
        serials = Serials()
        self.assertEqual([serials.told(it) for it in (1, 2, 2, 3)], [1, 2, 2, 3])
        self.assertEqual([serials.meant(it) for it in (0, 1, 3, 4, 9)], [0, 1, 3, 4, 9])

    def test_both(self):
        serials = Serials()
        told = [serials.told(1), serials.own(), serials.own(), serials.told(2), serials.told(2), serials.own(), serials.told(3), serials.told(2)]
        self.assertEqual(told, [1, 2, 3, 4, 4, 5, 6, 4])
        self.assertEqual([serials.meant(it) for it in range(8)], [0, 1, None, None, 2, None, 3, 4])
        self.assertEqual([serials.was_told(it) for it in (0, 1, 6, 7)], [False, True, True, False])

    def test_many(self):
        serials = Serials()
        numbers = [serials.own() for _ in range(300_000)]
        self.assertEqual(numbers, list(range(1, 300_001)))
        self.assertEqual((serials.told(1), serials.meant(300_000), serials.meant(300_001)), (300_001, None, 1))
        self.assertLess(len(serials.after), 200_000)


@unittest.skipIf(WHY_NOT, WHY_NOT)
class Layouts(unittest.TestCase):
    """Which keys make what."""

    @classmethod
    def setUpClass(cls):
        cls.us, cls.intl, cls.de, cls.fr = (xkb.Keymap.of_layout(it).text() for it in ("us", "us(intl)", "de", "fr"))

    def test_letters(self):
        self.assertEqual(keys.keys_for("aA1!\n\t", self.us), [(30, ()), (30, (42,)), (2, ()), (2, (42,)), (28, ()), (15, ())])
        self.assertEqual(keys.keys_for("az", self.fr), [(16, ()), (17, ())])
        self.assertEqual(keys.keys_for("yß", self.de), [(44, ()), (12, ())])

    def test_accents(self):
        # dead_acute is beside backspace, and then e
        self.assertEqual(keys.keys_for("é", self.de), [(13, ()), (18, ())])
        self.assertEqual(keys.keys_for("e\u0301", self.de), keys.keys_for("é", self.de))
        self.assertEqual(keys.keys_for("É", self.de), [(13, ()), (18, (42,))])
        self.assertEqual(keys.keys_for("é", self.fr), [(3, ())])
        # dead_diaeresis is shift and apostrophe
        self.assertEqual(keys.keys_for("ï", self.intl), [(40, (42,)), (23, ())])
        with self.assertRaisesRegex(keys.NoKey, "U\\+00E9"):
            keys.keys_for("é", self.us)

    def test_letters_that_are_added(self):
        text = xkb.Keymap.of_layout("us").with_letters("éя丂").text()
        self.assertEqual(keys.lacking("aéя丂ñé", self.us), "éя丂ñ")
        self.assertEqual(keys.lacking("aéя丂ñé", text), "ñ")
        self.assertEqual(len({it.code for it in keys.keys_for("aéя丂", text)}), 4)

    def test_keys_that_letters_are_given(self):
        """Those that browsers know come first, of which none makes a character of the layout."""
        for layout, lost in (("us", ()), ("jp", (89, 124)), ("br", (89,))):
            given = [it.code for it in keys.keys_for("еёж", xkb.Keymap.of_layout(layout).with_letters("еёж").text())]
            self.assertEqual(given, [193, 194, 189], layout)
            text = xkb.Keymap.of_layout(layout).with_letters("".join(map(chr, range(0x4E00, 0x4E20)))).text()
            codes = [it.code for it in keys.keys_for("".join(map(chr, range(0x4E00, 0x4E20))), text)]
            self.assertEqual(set(xkb.KNOWN) - set(codes), set(lost), layout)
            self.assertEqual(keys.keys_for("az/_?\\|", text), keys.keys_for("az/_?\\|", xkb.Keymap.of_layout(layout).text()), layout)

    def test_chords(self):
        self.assertEqual(keys.chord("ctrl+shift+a"), (["Control_L", "Shift_L"], "a"))
        self.assertEqual(keys.chord("ctrl++"), (["Control_L"], "+"))
        self.assertEqual(keys.chord("Enter"), ([], "Return"))
        self.assertEqual(keys.chord_for("ctrl+a", self.us), (30, (29,)))
        self.assertEqual(keys.chord_for("ctrl+a", self.fr), (16, (29,)))
        self.assertEqual(keys.chord_for("ctrl++", self.us), (13, (29, 42)))
        self.assertEqual(keys.chord_for("shift+F10", self.us), (68, (42,)))
        for bad in ("hyper+a", "ctrl+", "ctrl+nosuchkey", ""):
            with self.subTest(bad=bad), self.assertRaises(keys.NoKey):
                keys.chord_for(bad, self.us)

    def test_events(self):
        self.assertEqual(keys.Press(30, (29, 42)).events(), [(29, True), (42, True), (30, True), (30, False), (42, False), (29, False)])

    def test_layout_that_is_none(self):
        for bad in ("nolayout", "us(novariant)", "us;de", ""):
            with self.subTest(bad=bad), self.assertRaises(xkb.Unknown):
                xkb.Keymap.of_layout(bad)

    def test_no_library(self):
        with unittest.mock.patch.object(xkb, "library", side_effect=xkb.Missing("there is no library")), unittest.mock.patch.object(xkb, "context", xkb.context.__wrapped__):
            seat = Seat("us")
        self.assertIsNone(seat.keyboard)
        self.assertEqual(seat.why_none, "there is no library")


class WithKeys(unittest.TestCase):
    """Tests that share a server and a bridge with its socket of keys. Each has clients of its own, which are gone when it ends."""

    options, pointer = (), ""

    @classmethod
    def setUpClass(cls):
        if WHY_NOT:
            raise unittest.SkipTest(WHY_NOT)
        cls.rig = cls.enterClassContext(Rig("--keys", "keys", *cls.options, pointer=cls.pointer))

    def setUp(self):
        self.keys = self.enterContext(keys.Keyboard(self.rig.room / "keys"))

    def client(self):
        return self.enterContext(Client(self.rig.wayland))

    def window(self, version=7, keyboard=True, shown=True):
        """A client's window, with a seat and a wl_keyboard of this version."""
        client = self.client()
        window = Window(client, 8, 8)
        window.seat = client.bind(window.registry, "wl_seat", version)
        window.keyboard = client.send(window.seat, "get_keyboard") if keyboard else None
        window.manager = client.bind(window.registry, "wl_data_device_manager", 3)
        window.device = client.send(window.manager, "get_data_device", window.seat)
        client.round_trip()
        client.take()
        if shown:
            window.show(0)
        return client, window

    def told(self, client):
        """What the client is told of its wl_keyboards by what was asked before: the names, with the values but serials and times. It isn't told that again."""
        self.keys.sync()
        client.round_trip()
        found = [said for said, _ in client.events if said.name.startswith("wl_keyboard.")]
        client.take()
        return [(said.message.name, *said.values[2 if said.message.name == "key" else 1 :]) for said in found]


def content_of(memory, size):
    """The text that is in a keymap's memory, without the NUL behind it."""
    return os.pread(memory, size - 1, 0).decode()


def down(*codes):
    """The keys that are down, as wl_keyboard.enter has them."""
    return struct.pack(f"<{len(codes)}I", *codes)


NO_MODIFIERS = ("modifiers", 0, 0, 0, 0)
NEVER = 1_000_000_000  # milliseconds until a key repeats


class Typed(WithKeys):
    """What clients are told of the keyboard."""

    def test_keymap(self):
        client, window = self.window(shown=False)
        client.send(window.seat, "get_keyboard")
        client.round_trip()
        form, _, size = client.until("wl_keyboard.keymap").values
        self.assertEqual((form, len(client.received)), (1, 2))
        memory = client.received[1]
        self.assertEqual(os.fstat(memory).st_size, size)
        self.assertEqual(fcntl.fcntl(memory, fcntl.F_GET_SEALS), fcntl.F_SEAL_SEAL | fcntl.F_SEAL_SHRINK | fcntl.F_SEAL_GROW | fcntl.F_SEAL_WRITE)
        for how in (mmap.MAP_PRIVATE, mmap.MAP_SHARED):
            with mmap.mmap(memory, size, how, mmap.PROT_READ) as content:
                self.assertEqual((content[:10], content[-1:]), (b"xkb_keymap", b"\0"))
        with self.assertRaises(PermissionError):
            mmap.mmap(memory, size)
        self.assertEqual(content_of(memory, size), self.keys.keymap)

    def test_versions(self):
        for version, told in ((1, ["keymap"]), (3, ["keymap"]), (4, ["keymap", "repeat_info"]), (7, ["keymap", "repeat_info"])):
            client, window = self.window(version, keyboard=False, shown=False)
            keyboard = client.send(window.seat, "get_keyboard")
            client.round_trip()
            self.assertEqual([said.message.name for said, _ in client.events if said.target == keyboard], told)
            self.assertEqual([said.values for said, _ in client.events if said.name == "wl_keyboard.repeat_info"], [[1, NEVER]] * (len(told) - 1))

    def test_typed(self):
        client, window = self.window()
        serials = [said.values[0] for said, _ in client.events if said.name in ("wl_keyboard.enter", "wl_keyboard.modifiers")]
        self.assertEqual(self.told(client), [("enter", window.surface, b""), NO_MODIFIERS])
        for code, is_down in ((A, True), (A, False), (LEFT_SHIFT, True), (LEFT_SHIFT, True), (B, True), (LEFT_SHIFT, False), (B, False), (B, False)):
            self.keys.key(code, is_down)
        self.keys.sync()
        client.round_trip()
        found = [said for said, _ in client.events if said.name.startswith("wl_keyboard.")]
        moments = [said.values[1] for said in found if said.message.name == "key"]
        self.assertEqual(moments, sorted(moments))
        serials += [said.values[0] for said in found]
        self.assertEqual(serials, list(range(serials[0], serials[0] + 10)))
        pressed = [("key", A, 1), ("key", A, 0), ("key", LEFT_SHIFT, 1), ("modifiers", SHIFT, 0, 0, 0), ("key", B, 1)]
        self.assertEqual(self.told(client), [*pressed, ("key", LEFT_SHIFT, 0), NO_MODIFIERS, ("key", B, 0)])

    def test_caps_lock(self):
        client, _ = self.window()
        self.told(client)
        self.keys.press("Caps_Lock")
        self.keys.press("Caps_Lock")
        found = [it[1:] for it in self.told(client) if it[0] == "modifiers"]
        self.assertEqual(found, [(CAPS_LOCK, 0, CAPS_LOCK, 0), (0, 0, CAPS_LOCK, 0), (CAPS_LOCK, 0, CAPS_LOCK, 0), (0, 0, 0, 0)])

    def test_each_keyboard_is_told(self):
        client, window = self.window()
        self.told(client)
        self.keys.key(A, True)
        self.keys.sync()
        other = client.send(window.seat, "get_keyboard")
        client.round_trip()
        self.assertEqual([it for it in self.told(client) if it[0] != "keymap"], [("key", A, 1), ("repeat_info", NEVER), ("enter", window.surface, down(A)), NO_MODIFIERS])
        self.keys.key(A, False)
        self.keys.sync()
        client.round_trip()
        found = [(said.target, said.values[0]) for said, _ in client.events if said.name == "wl_keyboard.key"]
        self.assertEqual(found, [(window.keyboard, found[0][1]), (other, found[0][1])])
        client.take()
        client.send(window.keyboard, "release")
        client.round_trip()
        self.assertIn(f"wl_display#1.delete_id({window.keyboard})", client.take())
        self.keys.key(A, True)
        self.keys.sync()
        client.round_trip()
        self.assertEqual([said.target for said, _ in client.events if said.name == "wl_keyboard.key"], [other])
        self.keys.key(A, False)

    def test_focus_goes_to_what_is_mapped_last_and_back(self):
        one, first = self.window()
        self.told(one)
        self.keys.key(A, True)
        two, second = self.window()
        self.assertEqual(self.told(one), [("key", A, 1), ("leave", first.surface)])
        self.assertEqual(self.told(two), [("enter", second.surface, down(A)), NO_MODIFIERS])
        self.keys.key(A, False)
        self.assertEqual((self.told(one), self.told(two)), ([], [("key", A, 0)]))
        two.put(second.surface, "attach", 0, 0, 0)
        two.send(second.surface, "commit")
        two.round_trip()
        self.assertEqual(self.told(two), [("leave", second.surface)])
        self.assertEqual(self.told(one), [("enter", first.surface, b""), NO_MODIFIERS])

    def test_a_surface_that_is_destroyed_is_not_left(self):
        one, first = self.window()
        two, second = self.window()
        self.told(one), self.told(two)
        for each in (second.toplevel, second.shell, second.surface):
            two.put(each, "destroy")
        two.flush()
        two.round_trip()
        self.assertEqual(self.told(two), [])
        self.assertEqual(self.told(one), [("enter", first.surface, b""), NO_MODIFIERS])

    def test_a_client_that_leaves(self):
        one, first = self.window()
        two, _ = self.window()
        self.told(one)
        two.socket.close()
        one.until("wl_keyboard.enter")
        self.assertEqual(self.told(one), [("enter", first.surface, b""), NO_MODIFIERS])
        one.socket.close()
        wait_for(lambda: self.keys.focus() is None, "the focus stays")
        self.keys.type("nobody")
        self.keys.sync()

    def test_two_windows_of_a_client(self):
        client, window = self.window()
        other = Window(client, 4, 4)
        self.told(client)
        other.show(0)
        self.assertEqual(self.told(client), [("leave", window.surface), ("enter", other.surface, b""), NO_MODIFIERS])

    def test_menu_by_a_key(self):
        client, window = self.window()
        self.told(client)
        self.keys.key(A, True)
        self.keys.sync()
        client.round_trip()
        serial = client.until("wl_keyboard.key").values[0]
        self.told(client)
        menu = Menu(window, 0, 0, grab=(window.seat, serial))
        menu.show(0)
        self.assertEqual(self.told(client), [("leave", window.surface), ("enter", menu.surface, down(A)), NO_MODIFIERS])
        inner = Menu(menu, 1, 1, grab=(window.seat, serial))
        inner.show(0)
        self.assertEqual(self.told(client), [("leave", menu.surface), ("enter", inner.surface, down(A)), NO_MODIFIERS])
        for each in (inner, menu):
            client.send(each.popup, "destroy")
            client.round_trip()
        self.keys.key(A, False)
        found = [it for it in self.told(client) if it[0] in ("enter", "key")]
        self.assertEqual(found, [("enter", menu.surface, down(A)), ("enter", window.surface, down(A)), ("key", A, 0)])

    def test_menu_without_a_grab(self):
        client, window = self.window()
        self.told(client)
        Menu(window, 0, 0).show(0)
        self.assertEqual(self.told(client), [])

    def test_serials_of_the_server_are_known_again(self):
        client, window = self.window()
        self.keys.type("some")
        self.told(client)
        for _ in range(3):
            client.send(window.toplevel, "set_maximized")
            serial = client.until("xdg_surface.configure").values[0]
            client.take()
            self.keys.type("more")
            client.send(window.shell, "ack_configure", serial)
        client.round_trip()
        client.send(window.shell, "ack_configure", self.key_serial(client))
        self.assertIn("4 invalid_serial", client.error())

    def key_serial(self, client):
        self.keys.type("x")
        return client.until("wl_keyboard.key").values[0]


class Asked(WithKeys):
    """The lines of the socket."""

    def test_keys_go_up_as_who_pressed_them_leaves(self):
        client, _ = self.window()
        self.told(client)
        with keys.Keyboard(self.rig.room / "keys") as other:
            other.key(A, True)
            other.key(LEFT_CTRL, True)
            other.sync()
        told = []

        def are_up():
            told.extend(self.told(client))
            return {("key", A, 0), ("key", LEFT_CTRL, 0), NO_MODIFIERS} <= set(told)

        wait_for(are_up, "the keys stay down")

    def test_bad_lines(self):
        for line, why in (
            ("hello", "hello is no order"),
            ("key 30", "a key's state has to be a number from 0 to 1, not "),
            ("key 9999 1", "a key's code has to be a number from 0 to 767, not 9999"),
            ("key 30 2", "a key's state has to be a number from 0 to 1, not 2"),
            ("layout nowhere", "there is no layout nowhere"),
            ("size 1 2 3", "size C S W H"),
            ("size 900 2 30 30", "client 900 has no toplevel with the surface 2"),
            ("copy hello", "the text to copy has to be a JSON string"),
            ('copy "\\ud800"', "the text to copy has to be a JSON string"),
            ("sync", "the number of a sync has to be a number"),
        ):
            with self.subTest(line=line), keys.Keyboard(self.rig.room / "keys") as other, self.assertRaises(keys.Failed) as caught:
                other.send("", "# nothing", line)
                other.answer()
            self.assertIn(why, str(caught.exception))

    def test_layout(self):
        client, window = self.window(shown=False)
        client.received.clear()
        self.keys.layout("de")
        self.addCleanup(lambda: self.keys.layout("us"))
        self.assertEqual([it[0] for it in self.told(client)], ["keymap"])
        window.show(0)
        self.told(client)
        self.keys.type("ä")
        self.assertEqual([it[1] for it in self.told(client) if it[0] == "key"], [40, 40])

    def test_letters_that_the_layout_lacks(self):
        client, _ = self.window()
        self.told(client)
        self.keys.type("aéя")
        found = self.told(client)
        self.assertEqual([it[0] for it in found if it[0] in ("key", "keymap")], ["keymap", *["key"] * 6])
        made = xkb.Keymap.of_text(self.keys.keymap)
        self.assertEqual([xkb.character_of(made.keysym_at(it[1], 0)) for it in found if it[0] == "key" and it[2]], ["a", "é", "я"])

    def test_size(self):
        client, window = self.window()
        number, surface = self.keys.focus()
        self.assertEqual(surface, window.surface)
        self.told(client)
        for width, height, states in ((40, 30, [4]), (0, 0, [4])):
            self.keys.resize(number, surface, width, height)
            told = client.until("xdg_toplevel.configure")
            self.assertEqual(told.values, [width, height, down(*states)])
            client.send(window.shell, "ack_configure", client.until("xdg_surface.configure").values[0])
            client.take()
        self.keys.resize(number, surface, 40, 30)
        client.until("xdg_surface.configure")
        client.take()
        client.send(window.toplevel, "set_fullscreen", 0)
        self.assertEqual(client.until("xdg_toplevel.configure").values, [64, 48, down(4, 2)])
        client.take()
        client.send(window.toplevel, "unset_fullscreen")
        self.assertEqual(client.until("xdg_toplevel.configure").values, [40, 30, down(4)])

    def test_many_at_once(self):
        client, _ = self.window()
        self.told(client)

        def tap():
            with keys.Keyboard(self.rig.room / "keys") as other:
                for _ in range(50):
                    other.type("ab")
                other.sync()

        threads = [threading.Thread(target=tap) for _ in range(4)]
        for each in threads:
            each.start()
        told = []
        while any(each.is_alive() for each in threads):
            told += self.told(client)  # small messages fill a socket soon
        codes = [it[1:] for it in told + self.told(client) if it[0] == "key"]
        # who presses a key that is down already changes nothing, and neither does who releases one that is up
        for code in (A, B):
            states = [state for it, state in codes if it == code]
            self.assertEqual(states, [1, 0] * (len(states) // 2))


class Pressed(WithKeys):
    """The pointer comes over a window at the output's corner again and again, and clicks it."""

    AROUND = ("motion {} 3 2", "button {} 272 1", "button {} 272 0", "motion {} 60 40")
    pointer = "\n".join(line.format(120 * at) for at, line in enumerate(AROUND * 500))

    def test_press_takes_the_focus(self):
        one, first = self.window()
        first.pointer = one.send(first.seat, "get_pointer")
        self.assertEqual(self.told(one), [("enter", first.surface, b""), NO_MODIFIERS])
        two, second = self.window()
        self.assertEqual(self.told(two), [("enter", second.surface, b""), NO_MODIFIERS])
        one.until("wl_keyboard.leave")
        one.take()
        one.until("wl_pointer.button")
        one.until("wl_keyboard.enter")
        two.until("wl_keyboard.leave")
        # a grab that the server knows nothing of ends with a press elsewhere
        third = Window(two, 8, 8)
        third.show(0)
        two.until("wl_keyboard.enter", second.keyboard)
        two.take()
        menu = Menu(third, 0, 0, grab=(second.seat, 2))
        menu.show(0)
        two.until("xdg_popup.popup_done", menu.popup)


class Copied(WithKeys):
    """The clipboard, between clients and from and to a test."""

    def source(self, window, *kinds, serial=None):
        """A selection that a client sets, with the serial by which it was entered."""
        client = window.client
        made = client.put(window.manager, "create_data_source")
        for kind in kinds:
            client.put(made, "offer", kind)
        client.send(window.device, "set_selection", made, serial or client.until("wl_keyboard.enter").values[0])
        client.round_trip()
        return made

    def offered(self, client):
        """The offer that a client is told to be the selection, with what can be had of it; the last, after a sync."""
        self.keys.sync()
        client.round_trip()
        told = [said for said, _ in client.events if said.name == "wl_data_device.selection"][-1].values[0]
        return told, [said.values[0] for said, _ in client.events if said.name == "wl_data_offer.offer" and said.target == told]

    def received(self, client, offer, kind=PLAIN):
        """Asks for what an offer is of, and answers the end that it can be read from."""
        taken, given = os.pipe()
        client.send(offer, "receive", kind, descriptor=given)
        client.round_trip()
        os.close(given)
        return open(taken, "rb")

    def test_from_client_to_client(self):
        one, first = self.window()
        made = self.source(first, PLAIN, "text/html")
        self.assertEqual(self.offered(one)[1], [PLAIN, "text/html"])
        two, second = self.window()
        offer, kinds = self.offered(two)
        names = [said.name for said, _ in two.events if said.name in ("wl_data_device.selection", "wl_keyboard.enter")]
        self.assertEqual((kinds, names), ([PLAIN, "text/html"], ["wl_data_device.selection", "wl_keyboard.enter"]))
        self.assertGreaterEqual(offer, 0xFF000000)
        with self.received(two, offer, "text/html") as taken:
            one.received.clear()
            self.assertEqual(one.until("wl_data_source.send", made).values[0], "text/html")
            with open(one.received.pop(), "wb") as given:
                given.write("<b>né</b>".encode())
            self.assertEqual(taken.read().decode(), "<b>né</b>")
        with self.received(two, offer, "image/png") as taken:
            self.assertEqual(taken.read(), b"")
        two.send(offer, "destroy")
        serial = two.until("wl_keyboard.enter").values[0]
        two.round_trip()
        two.take()
        other = self.source(second, PLAIN, serial=serial)
        one.until("wl_data_source.cancelled", made)
        self.assertEqual(self.offered(two), (offer, [PLAIN]))  # the id is free again
        two.send(other, "destroy")
        two.round_trip()
        self.assertEqual(self.offered(two), (0, []))

    def test_source_of_a_client_that_left(self):
        one, first = self.window()
        self.source(first, PLAIN)
        two, _ = self.window()
        offer, _ = self.offered(two)
        one.socket.close()
        wait_for(lambda: self.offered(two) == (0, []), "the selection stays")
        with self.received(two, offer) as taken:
            self.assertEqual(taken.read(), b"")
        self.assertIsNone(self.keys.clipboard)

    def test_copied_by_the_test(self):
        client, window = self.window()
        text = "né\n" * 100_000  # more than a pipe takes at once
        self.keys.copy(text)
        offer, kinds = self.offered(client)
        self.assertIn("text/plain", kinds)
        with self.received(client, offer) as taken:
            self.assertEqual(taken.read().decode(), text)
        self.assertEqual(self.keys.clipboard, text)
        late = client.send(window.manager, "get_data_device", window.seat)
        client.take()
        client.round_trip()
        self.assertEqual([said.name for said, _ in client.events if said.target == late], ["wl_data_device.data_offer", "wl_data_device.selection"])

    def test_pasted_by_the_test(self):
        client, window = self.window()
        made = self.source(window, "text/plain", PLAIN)
        answered = []
        asking = threading.Thread(target=lambda: answered.append(self.keys.clipboard))
        asking.start()
        client.received.clear()
        self.assertEqual(client.until("wl_data_source.send", made).values[0], PLAIN)
        with open(client.received.pop(), "wb") as given:
            given.write("né".encode())
        asking.join()
        self.assertEqual(answered, ["né"])

    def test_serial_that_was_never_told(self):
        client, window = self.window()
        self.keys.copy("kept")
        made = client.put(window.manager, "create_data_source")
        client.put(made, "offer", PLAIN)
        client.send(window.device, "set_selection", made, 5000)
        client.round_trip()
        self.assertEqual(self.keys.clipboard, "kept")

    def test_drag_is_cancelled(self):
        client, window = self.window()
        made = client.put(window.manager, "create_data_source")
        client.send(window.device, "start_drag", made, window.surface, 0, 1)
        client.until("wl_data_source.cancelled", made)

    def test_bad_object(self):
        client, window = self.window()
        client.send(window.device, "set_selection", window.surface, 1)
        self.assertIn("0 invalid_object", client.error())


class Without(WithKeys):
    """A bridge that shows no keyboard."""

    options = ("--no-keyboard",)

    def test_refused(self):
        client = self.client()
        seat = client.bind(client.begin(), "wl_seat", 7)
        self.assertEqual(client.until("wl_seat.capabilities").values, [1])
        with keys.Keyboard(self.rig.room / "keys") as other, self.assertRaisesRegex(keys.Failed, "there is no keyboard: it was asked for none"):
            other.key(A, True)
            other.sync()
        client.send(seat, "get_keyboard")
        self.assertIn("0 missing_capability", client.error())

    def test_layout_that_is_none(self):
        with Rig("--layout", "nowhere", bridge=False) as rig:
            rig.begin_bridge()
            self.assertEqual(rig.ended(), 1)
            self.assertIn("there is no layout nowhere", rig.words())


if __name__ == "__main__":
    unittest.main()
