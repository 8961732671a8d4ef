"""The tools' table of messages against the others of the repository. docs/check-protocol compares it with the protocol's own descriptions besides."""
import pathlib
import sys
import unittest

sys.path.insert(0, str(pathlib.Path(__file__).resolve().parent))
from rig import TOOLS, loaded  # pylint: disable=wrong-import-position
from wlframe.wayland import extra  # pylint: disable=wrong-import-position
from wlframe.wayland.table import INTERFACES, enum_of  # pylint: disable=wrong-import-position

CHECK = loaded(TOOLS.parent / "docs" / "check-protocol")


class Table(unittest.TestCase):
    def test_people_read_the_same(self):
        people, _, _, _, announced = CHECK.for_people()
        self.assertEqual(len(people), 19)
        self.assertEqual(CHECK.differences_from_people(people, announced), [])

    def test_what_is_proved_is_the_same(self):
        for interface, entry in CHECK.proved().items():
            for kind, messages in entry.items():
                with self.subTest(interface=interface, kind=kind):
                    ours = [CHECK.as_proved(it) for it in CHECK.of_tools(interface, kind)]
                    self.assertEqual(messages, ours[: len(messages)])

    def test_what_the_bridge_answers_itself_is_the_same(self):
        folder = pathlib.Path("/usr/share/wayland-protocols/unstable")
        paths = [folder / "xdg-output" / "xdg-output-unstable-v1.xml", folder / "primary-selection" / "primary-selection-unstable-v1.xml"]
        if not all(it.exists() for it in paths):
            self.skipTest("Debian's package wayland-protocols isn't installed")
        for path in paths:
            for made in loaded(TOOLS.parent / "docs" / "table-of").table(path):
                self.assertIn(f"\n\n{made}\n\n", f"\n{extra.TABLE}\n")

    def test_errors_are_named(self):
        _, errors, _, _, _ = CHECK.for_people()
        for interface, name, code in errors:
            known = INTERFACES["wl_shm" if interface == "wl_shm_pool" else interface].enums["error"].values
            self.assertEqual(known.get(name), code, f"{interface}.{name}")

    def test_what_arguments_name_is_there(self):
        for interface in INTERFACES.values():
            for message in interface.requests + interface.events:
                for argument in message.arguments:
                    self.assertIn(argument.kind, ("int", "uint", "fixed", "string", "array", "object", "new_id", "fd"))
                    self.assertTrue(argument.interface is None or argument.interface in INTERFACES)
                    self.assertTrue(argument.enum is None or enum_of(argument.enum))


if __name__ == "__main__":
    unittest.main()
