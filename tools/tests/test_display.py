"""wlframe.Display over the real program: clients, windows, the pointer, waiting, pictures, and how each fault is told."""
import os
import pathlib
import re
import signal
import subprocess
import sys
import tempfile
import time
import unittest
import unittest.mock

HERE = pathlib.Path(__file__).resolve().parent
PYTHON = HERE.parent.parent / "python"
sys.path[:0] = [str(HERE), str(PYTHON)]
import wlframe  # pylint: disable=wrong-import-position
from wlframe import pictures  # pylint: disable=wrong-import-position
from rig import has_option, program, wait_for  # pylint: disable=wrong-import-position

DARK, RED, GREEN, BLUE, BLACK, WHITE = (0, 0, 128), (255, 0, 0), (0, 255, 0), (0, 0, 255), (0, 0, 0), (255, 255, 255)
LONG = 60  # seconds that anything may take on a machine that does much else
LAMP = (sys.executable, HERE / "lamp.py")


class Displays(unittest.TestCase):
    """Tests with displays of their own, whose folders have to be gone at the end."""

    def setUp(self):
        self.room = pathlib.Path(self.enterContext(tempfile.TemporaryDirectory()))
        self.own = self.room / "own"
        self.own.mkdir()
        self.enterContext(unittest.mock.patch.dict(os.environ, {"TMPDIR": str(self.own), "WLFRAME": str(program())}))
        self.enterContext(unittest.mock.patch.object(tempfile, "tempdir", None))
        self.addCleanup(lambda: self.assertEqual(os.listdir(self.own), []))

    def display(self, **how):
        """A display that is closed at the end."""
        options = {"size": (64, 48), "expected": self.room / "expected", "failed": self.room / "failed", "update": False, **how}
        return self.enterContext(wlframe.Display(**options))

    def lamp(self, display, *options, wait=True):
        client = display.run(*LAMP, *options)
        return client, display.window(client=client, timeout=LONG) if wait else None


class Windows(Displays):
    def test_found_by_title_app_id_and_client(self):
        display = self.display()
        first, _ = self.lamp(display, "--title", "One")
        second, _ = self.lamp(display, "--title", "Two", "--app-id", "org.example.two")
        self.assertEqual([display.window(**how).client for how in ({"title": "One"}, {"app_id": "org.example.two"}, {"client": first})], [first, second, first])
        self.assertIs(display.window(title=re.compile("^T")).client, second)
        self.assertIs(display.window(title=re.compile("w"), app_id=re.compile("two$")).client, second)
        self.assertEqual([it.title for it in display.windows()], ["One", "Two"])
        self.assertEqual([it.title for it in second.windows()], ["Two"])
        self.assertEqual(display.popups(), [])

    def test_place_size_and_picture(self):
        display = self.display()
        _, window = self.lamp(display, "--size", "20x10")
        self.assertEqual((window.width, window.height), (20, 10))
        self.assertEqual(window.box, (window.x, window.y, 20, 10))
        self.assertEqual(window.picture(), wlframe.Picture(20, 10, bytes(DARK) * 200))
        self.assertEqual(window.app_id, "org.example.lamp")

    def test_geometry_leaves_a_shadow_out(self):
        display = self.display()
        client, window = self.lamp(display, "--geometry", "4,3,20,10")
        self.assertEqual((window.x, window.y, window.width, window.height), (4, 3, 20, 10))
        window.click(0, 0)
        display.wait_until(lambda: "pressed" in client.output, LONG, "no press came")
        self.assertEqual(client.output, "pressed 0x110 at 4, 3\n")

    def test_click_in_its_own_pixels(self):
        display = self.display()
        self.lamp(display, "--size", "12x40")
        client, window = self.lamp(display, "--title", "Two")
        window.click(5, 7)
        display.wait_for_change(LONG)
        self.assertEqual(window.picture().pixel(5, 7), RED)
        self.assertEqual(client.output, "pressed 0x110 at 5, 7\n")
        for place in ((32, 0), (0, 24), (-1, 0)):
            with self.assertRaisesRegex(wlframe.Failure, "isn't within \"Two\" of org.example.lamp \\(32x24 at"):
                window.click(*place)

    def test_gone(self):
        display = self.display()
        client, window = self.lamp(display)
        self.assertTrue(window.is_shown)
        client.terminate()
        display.wait_until(lambda: not window.is_shown, LONG, "it is still shown")
        with self.assertRaisesRegex(wlframe.NoWindow, '^"Lamp" of org.example.lamp .* is no longer shown; no window is there$'):
            window.click(1, 1)

    def test_not_in_time(self):
        display = self.display()
        self.lamp(display)
        with self.assertRaises(wlframe.NoWindow) as caught:
            display.window(title="Other", app_id=re.compile("x"), timeout=0.1)
        x, y = display.windows()[0].box[:2]
        there = f'"Lamp" of org.example.lamp (32x24 at {x}, {y})'
        self.assertEqual(str(caught.exception), f'a toplevel with the title "Other" and the app_id "x" wasn\'t shown in 0.1 seconds; there are {there}')
        self.assertEqual(caught.exception.there, [there])

        with self.assertRaisesRegex(wlframe.NoWindow, '^a popup wasn.t shown in 0.1 seconds, or is drawn into its window, as GTK 3 draws popovers; there are "Lamp"'):
            display.window(kind="popup", timeout=0.1)

    def test_one_that_comes_late(self):
        display = self.display()
        client, _ = self.lamp(display, "--after", "0.5", wait=False)
        self.assertEqual(display.window(title="Lamp", timeout=LONG).client, client)


class Points(Displays):
    def test_click_counts_and_buttons(self):
        display = self.display()
        client, window = self.lamp(display)
        left, top = window.box[:2]
        display.click(left + 3, top + 4, count=3)
        display.wait_until(lambda: client.output.count("pressed") == 3, LONG, "three presses didn't come")
        display.wait_for(lambda picture: picture.pixel(left, top) == BLUE, LONG)
        display.click(left, top, button="right")
        self.assertEqual(client.wait(LONG), 7)
        self.assertEqual(client.output.splitlines()[-2:], ["pressed 0x111 at 0, 0", "ends as it was told"])

    def test_press_move_and_release(self):
        display = self.display(trace=self.room / "trace")
        client, window = self.lamp(display)
        window.move(2, 2)
        display.press_button()
        window.move(6, 5)
        display.release_button(0x110)
        display.wait_for(lambda picture: picture.pixel(*window.box[:2]) == RED, LONG)
        self.assertEqual(client.output, "pressed 0x110 at 2, 2\n")
        told = re.findall(r"<- wl_pointer#\d+\.(?:motion|button)\((?:\d+, )+(.*)\)", (self.room / "trace").read_text())
        self.assertEqual([told[0], told[-1]], ["pressed", "released"])

    def test_drag(self):
        display = self.display(trace=self.room / "trace")
        _, window = self.lamp(display)
        window.drag((0, 0), (20, 10), steps=4)
        moved = re.findall(r"<- wl_pointer#\d+\.motion\(\d+, (\d+), (\d+)\)", (self.room / "trace").read_text())
        self.assertEqual(moved, [("5", "2"), ("10", "5"), ("15", "8"), ("20", "10")])

    def test_what_can_not_be_pointed_at(self):
        display = self.display()
        with self.assertRaisesRegex(wlframe.NoWindow, "a click needs a window, and none is shown yet"):
            display.click(1, 1)
        with self.assertRaisesRegex(wlframe.NoWindow, "none is shown yet"):
            display.press_button()
        display.move(63, 47)
        for place in ((64, 0), (0, 48), (-1, 0)):
            with self.assertRaisesRegex(wlframe.Failure, "isn't within the display of 64x48"):
                display.move(*place)
        with self.assertRaisesRegex(ValueError, "give a button by its number, or as one of left, right, middle"):
            display.release_button("fourth")
        with self.assertRaisesRegex(ValueError, "give a drag at least one"):
            display.drag((0, 0), (1, 1), steps=0)


class Waits(Displays):
    def test_change_since_the_last_call(self):
        display = self.display()
        _, window = self.lamp(display)
        display.wait_until_idle(0.1, LONG)
        window.click(1, 1)
        display.pause(0.5)  # the change has most likely come by now
        self.assertEqual(display.wait_for_change(LONG).pixel(*window.box[:2]), RED)
        with self.assertRaisesRegex(wlframe.TimeOver, "^the picture didn't change after 0.1 seconds$"):
            display.wait_for_change(0.1)

    def test_condition(self):
        display = self.display()
        _, window = self.lamp(display)
        left, top = window.box[:2]
        display.click(left, top, count=2)
        self.assertEqual(display.wait_for(lambda picture: picture.pixel(left, top) == GREEN and "green", LONG), "green")
        with self.assertRaisesRegex(wlframe.TimeOver, "^the picture isn't as it was waited for after 0.1 seconds$"):
            display.wait_for(lambda picture: False, 0.1)

    def test_idle_but_for_a_box(self):
        display = self.display()
        _, window = self.lamp(display, "--blink", "2,3,4,5")
        x, y = window.box[:2]
        with self.assertRaisesRegex(wlframe.TimeOver, r"^the picture didn't stay the same for 30 seconds in 1: it changed last at \(\d+, \d+, \d+, \d+\); ignore="):
            display.wait_until_idle(30, timeout=1)
        picture = display.wait_until_idle(0.3, LONG, ignore=[(x + 2, y + 3, 4, 5)])
        self.assertEqual(picture.pixel(x, y), DARK)
        self.assertGreaterEqual(min(picture.pixel(x + 2, y + 3)), 128)  # as each colour that it blinks in

    def test_nothing_shown(self):
        display = self.display()
        with self.assertRaisesRegex(wlframe.TimeOver, "^nothing was shown in 0.1 seconds$"):
            display.wait_until_idle(0.1, timeout=0.1)

    def test_change_but_for_a_box(self):
        display = self.display()
        _, window = self.lamp(display, "--blink", "2,3,4,5")
        x, y = window.box[:2]
        box = (x + 2, y + 3, 4, 5)
        window.move(0, 0)
        with self.assertRaises(wlframe.TimeOver):
            display.wait_for_change(0.3, ignore=[box])
        window.click(0, 0)
        self.assertEqual(display.wait_for_change(LONG, ignore=[box]).pixel(x, y), RED)

    def test_frames(self):
        display = self.display()
        client, window = self.lamp(display)
        x, y, width, height = window.box
        seen = display.frames()
        window.click(0, 0)
        when, boxes, picture = next(seen)
        self.assertEqual((boxes, picture.pixel(x, y)), ([(x, y, width, height)], RED))
        self.assertLessEqual(when, display.sync())
        client.terminate()
        self.assertEqual([it[2].pixel(x, y) for it in seen], [BLACK])
        self.assertEqual(list(seen), [])
        self.assertEqual(list(display.frames(seconds=0.1)), [])

    def test_frames_while_something_else_is_done(self):
        display = self.display()
        _, window = self.lamp(display)
        x, y, _, _ = window.box
        seen = display.frames(seconds=LONG)
        window.click(0, 0)
        display.wait_for_change(LONG)
        window.click(0, 0)
        display.wait_for_change(LONG)
        self.assertEqual([next(seen)[2].pixel(x, y) for _ in range(2)], [RED, GREEN])
        seen.close()
        self.assertEqual(list(seen), [])

    def test_sync_tells_the_time(self):
        display = self.display()
        first, second = display.sync(), display.sync()
        self.assertLess(first, second)


class Expects(Displays):
    def test_written_and_compared(self):
        display = self.display(update=True)
        _, window = self.lamp(display)
        display.expect("lamp.png", timeout=LONG)
        window.expect("window.png", timeout=LONG)
        self.assertEqual(display.updated, [self.room / "expected" / "lamp.png", self.room / "expected" / "window.png"])
        display.updated.clear()
        display.expect("lamp.png", timeout=LONG)
        self.assertEqual(display.updated, [])
        display.is_updating = False
        self.assertEqual(wlframe.load(self.room / "expected" / "window.png"), window.picture())
        display.expect("lamp.png")
        window.expect("window.png")
        window.click(1, 1)
        display.wait_for_change(LONG)
        with self.assertRaises(wlframe.PictureDiffers) as caught:
            window.expect("window.png", timeout=0.5)
        fault = caught.exception
        self.assertEqual((fault.count, fault.box), (32 * 24, (0, 0, 32, 24)))
        self.assertEqual([it.name for it in (fault.expected, fault.actual, fault.diff)], ["window-expected.png", "window-actual.png", "window-diff.png"])
        self.assertEqual(wlframe.load(fault.actual).pixel(0, 0), RED)
        self.assertEqual(wlframe.load(fault.expected).pixel(0, 0), DARK)
        self.assertEqual(wlframe.load(fault.diff).pixel(0, 0), (0xD0, 0, 0))
        said = "window.png: the picture differs at 768 of 768 pixels, first at 0,0, which is 000080 in the one and ff0000 in the other, all within 32x24 at 0, 0\n"
        self.assertTrue(str(fault).startswith(said + f"  expected: {fault.expected}\n"), fault)
        self.assertIsInstance(fault, AssertionError)

    def test_waited_for(self):
        display = self.display()
        _, window = self.lamp(display)
        expected = self.room / "expected" / "green.png"
        expected.parent.mkdir()
        wlframe.Picture(32, 24, bytes(GREEN) * 768).save(expected)
        window.click(1, 1, count=2)
        window.expect("green.png", timeout=LONG)

    def test_masks_tolerance_and_pixels(self):
        display = self.display()
        _, window = self.lamp(display)
        expected = self.room / "expected" / "near.png"
        expected.parent.mkdir()
        dark = bytes(DARK) * 32
        wlframe.Picture(32, 24, bytes([0, 0, 130]) * 3 + dark[9:] + dark * 23).save(expected)
        window.expect("near.png", tolerance=2)
        window.expect("near.png", max_pixels=3)
        window.expect("near.png", mask=[(0, 0, 3, 1)])
        for how in ({"tolerance": 1}, {"max_pixels": 2}, {"mask": [(0, 0, 2, 1)]}):
            with self.assertRaisesRegex(wlframe.PictureDiffers, "near.png: the picture differs at"):
                window.expect("near.png", timeout=0.1, **how)
        with self.assertRaisesRegex(ValueError, "tolerance 256"):
            window.expect("near.png", tolerance=256)

    def test_not_there_yet(self):
        display = self.display()
        self.lamp(display)
        with self.assertRaisesRegex(wlframe.PictureDiffers, "there is no expected picture none.png yet: --wlframe-update or WLFRAME_UPDATE=1 writes it") as caught:
            display.expect("none.png")
        self.assertTrue(caught.exception.actual.exists())

    def test_another_size(self):
        display = self.display()
        _, window = self.lamp(display)
        expected = self.room / "expected" / "small.png"
        expected.parent.mkdir()
        wlframe.Picture(1, 1, bytes(3)).save(expected)
        with self.assertRaisesRegex(wlframe.PictureDiffers, "the picture is 1x1 in the one and 32x24 in the other") as caught:
            window.expect("small.png", timeout=0.1)
        self.assertIsNone(caught.exception.diff)


class Clients(Displays):
    def test_output_and_status(self):
        display = self.display(env={"ONE": "1", "TWO": "2"})
        client = display.run("sh", "-c", 'echo "$ONE $TWO"; pwd; exit 3', env={"TWO": "3"}, folder="/")
        self.assertEqual(client.wait(LONG), 3)
        self.assertEqual((client.output, client.returncode), ("1 3\n/\n", 3))
        display.close()
        self.assertEqual(client.output, "1 3\n/\n")

    def test_not_started(self):
        display = self.display()
        with self.assertRaisesRegex(wlframe.NotStarted, "^no-such-client isn't installed$"):
            display.run("no-such-client")
        with self.assertRaisesRegex(wlframe.NotStarted, "^/no/such/client isn't there$"):
            display.run("/no/such/client")
        other = self.room / "a-game"
        other.write_text("#!/bin/sh\n")
        other.chmod(0o755)
        with unittest.mock.patch("wlframe.display.BESIDE", str(self.room)), self.assertRaisesRegex(wlframe.NotStarted, f"^a-game isn't in PATH, and {other} is there$"):
            display.run("a-game")
        with self.assertRaisesRegex(wlframe.NotStarted, "^/etc/passwd may not be started$"):
            display.run("/etc/passwd")
        with self.assertRaisesRegex(ValueError, "which client"):
            display.run()

    def test_end_before_its_window(self):
        display = self.display()
        client = display.run("sh", "-c", "echo no such option >&2; exit 5")
        with self.assertRaises(wlframe.ClientEnded) as caught:
            display.window(title="Lamp", timeout=LONG)
        self.assertEqual(str(caught.exception), "a toplevel with the title \"Lamp\" wasn't shown: sh ended with status 5\nno such option")
        self.assertEqual((caught.exception.client, caught.exception.last), (client, "no such option"))
        with self.assertRaisesRegex(wlframe.ClientEnded, "^a toplevel of sh wasn't shown: sh ended with status 5\n"):
            display.window(client=client, timeout=LONG)
        with self.assertRaisesRegex(wlframe.ClientEnded, "^nothing was shown: sh ended with status 5\n"):
            display.wait_until_idle(timeout=LONG)
        with self.assertRaisesRegex(wlframe.ClientEnded, "^the picture didn't change: sh ended with status 5\n"):
            display.wait_for_change(LONG)

    def test_crash(self):
        """It is told by whatever waits next, once."""
        display = self.display()
        client, window = self.lamp(display)
        with self.assertRaisesRegex(wlframe.ClientEnded, "was ended by SIGSEGV\npressed 0x113 at 1, 1$") as caught:
            window.click(1, 1, button="side")  # which is told of it, where the client is quick
            display.wait_for(lambda picture: False, LONG)
        self.assertIs(caught.exception.client, client)
        display.sync()

    def test_refused(self):
        display = self.display()
        client, window = self.lamp(display)
        with self.assertRaises(wlframe.Refused) as caught:
            window.click(1, 1, button="middle")
            display.wait_for(lambda picture: False, LONG)
        self.assertRegex(caught.exception.sentence, r"^client 2 \(.*, process \d+\) was refused xdg_wm_base#\d+\.get_xdg_surface\(")
        self.assertIs(caught.exception.client, client)

    def test_crash_that_nothing_waited_for(self):
        with self.assertRaisesRegex(wlframe.ClientEnded, "was ended by SIGSEGV"):
            with wlframe.Display(size=(64, 48)) as display:
                client, window = self.lamp(display)
                window.click(1, 1, button="side")
                wait_for(lambda: client.returncode is not None, "it doesn't crash")
        self.assertEqual(os.listdir(self.own), [])

    def test_asked_to_end(self):
        display = self.display()
        first, second = self.lamp(display)[0], self.lamp(display)[0]
        first.terminate()
        self.assertEqual(first.wait(LONG), -signal.SIGTERM)
        second.kill()
        self.assertEqual(second.returncode, -signal.SIGKILL)
        self.assertRegex(repr(first), r"^<Client .*lamp.py was ended by SIGTERM>$")
        display.sync()

    def test_that_does_not_end(self):
        client, _ = self.lamp(self.display())
        with self.assertRaisesRegex(wlframe.TimeOver, "hasn't ended after 0.1 seconds$"):
            client.wait(0.1)

    def test_cursors_that_do_not_blink(self):
        display = self.display()
        client = display.run("sh", "-c", "cat $XDG_CONFIG_HOME/gtk-4.0/settings.ini $XDG_CONFIG_HOME/glib-2.0/settings/keyfile")
        self.assertEqual(client.wait(LONG), 0)
        self.assertIn("gtk-cursor-blink=false", client.output)
        self.assertIn("cursor-blink=false", client.output.partition("[org/gnome/desktop/interface]")[2])


class Keeps(Displays):
    """What is kept of a display."""

    def test_film(self):
        """The last seconds, from the picture before them to the last."""
        display = self.display()
        self.assertFalse(display.save_film(self.room / "film.png"))
        self.assertFalse((self.room / "film.png").exists())
        display.keep_film(seconds=600)
        _, window = self.lamp(display)
        display.wait_until_idle(0.1, LONG)  # pictures that stand for less than 33 ms aren't in it
        window.click(1, 1)
        display.wait_for_change(LONG)
        self.assertTrue(display.save_film(self.room / "film.png"))
        names = [name for name, _ in pictures.chunks((self.room / "film.png").read_bytes())]
        self.assertGreaterEqual(names.count(b"fcTL"), 3)
        self.assertEqual(wlframe.load(self.room / "film.png"), wlframe.Picture(64, 48, bytes(3 * 64 * 48)))

    def test_last_picture(self):
        display = wlframe.Display(size=(64, 48))
        self.assertFalse(display.save_last(self.room / "last.png"))
        with display:
            self.lamp(display)
        self.assertTrue(display.save_last(self.room / "last.png"))
        self.assertEqual(wlframe.load(self.room / "last.png").pixel(0, 0), DARK)

    def test_recording(self):
        """A recording shows the same again, where the program makes one; record=True keeps it for save_recording."""
        self.assertFalse(self.display().save_recording(self.room / "none.rec"))
        if not has_option("--record"):
            for record in (True, self.room / "made.rec"):
                with self.assertRaisesRegex(wlframe.Failure, "is too old to record what is served: it has no --record. Build it anew"):
                    self.display(record=record)
            return
        display, named = self.display(record=True), self.display(record=self.room / "named.rec")
        for each in (display, named):
            self.lamp(each)
        self.assertTrue(display.save_recording(self.room / "saved.rec"))
        self.assertFalse(named.save_recording(self.room / "none.rec"))
        named.close()
        for name in ("saved.rec", "named.rec"):
            with open(self.room / name, "rb") as recording:
                subprocess.run([program(), "replay", "--size", "64x48", "--ppm", self.room / "again.ppm"], stdin=recording, capture_output=True, check=True)
            with open(self.room / "again.ppm", "rb") as stream:
                self.assertIn(DARK, [it.pixel(0, 0) for it in pictures.read(stream)], name)
            (self.room / "again.ppm").unlink()


class Begins(Displays):
    def test_wrong_arguments(self):
        for size in ((0, 1), (1, 4097), (1,)):
            with self.assertRaisesRegex(ValueError, "two sides from 1 to 4096"):
                wlframe.Display(size=size)
        for rate in (0, 1001):
            with self.assertRaisesRegex(ValueError, "give 1 to 1000 frames"):
                wlframe.Display(rate=rate)

    def test_not_started_or_closed(self):
        display = wlframe.Display()
        uses = [display.sync, display.picture, lambda: display.move(1, 1), lambda: display.run("true"), display.windows, display.need_window]
        for use in uses:
            with self.assertRaisesRegex(wlframe.Failure, "never started|closed, or wasn't started"):
                use()
        with display:
            display.sync()
        for use in (display.sync, lambda: display.move(1, 1), lambda: display.run("true")):
            with self.assertRaisesRegex(wlframe.Failure, "closed, or wasn't started"):
                use()

    def test_last_picture_of_a_closed_display(self):
        with wlframe.Display(size=(64, 48)) as display:
            _, window = self.lamp(display)
            place = window.box[:2]
            display.wait_until_idle(0.1, LONG)
            self.assertEqual(display.picture().pixel(*place), DARK)
        self.assertEqual(display.picture().width, 64)

    def stand_in(self, text):
        path = self.room / "stand-in"
        path.write_text(f'#!/bin/sh\ncase "$*" in *--help*) exec {program()} "$@";; esac\n{text}\n')
        path.chmod(0o755)
        return path

    def test_server_that_does_not_start(self):
        with self.assertRaisesRegex(wlframe.ServerEnded, "^the server didn't start: it ended with status 1, and it said: wlframe: bind failed$"):
            self.display(program=self.stand_in("echo wlframe: bind failed >&2; exit 1"))
        self.assertEqual(os.listdir(self.own), [])

    def test_server_that_dies(self):
        display = self.display()
        self.lamp(display)
        os.kill(display.server.pid, signal.SIGKILL)
        with self.assertRaisesRegex(wlframe.ServerEnded, "^the server was ended by SIGKILL before the display was closed: .*; please report this$"):
            display.pause(LONG)

    def test_bridge_that_dies(self):
        display = self.display()
        os.kill(display.bridge.pid, signal.SIGKILL)
        with self.assertRaisesRegex(wlframe.ServerEnded, "^the bridge was ended by SIGKILL before the display was closed: "):
            display.pause(LONG)

    def test_no_program(self):
        with self.assertRaisesRegex(wlframe.Failure, "^/nowhere/wlframe is no program$"):
            self.display(program="/nowhere/wlframe")

    def test_program_without_a_viewer(self):
        path = self.room / "old"
        path.write_text("#!/bin/sh\necho --turns N\n")
        path.chmod(0o755)
        with self.assertRaisesRegex(wlframe.Failure, "old is too old to see what clients show: it has no --viewer. Build it anew"):
            self.display(program=path)

    def test_fullscreen_and_pointer_file(self):
        (self.room / "moves").write_text("motion 0 3 4\n")
        display = self.display(fullscreen=True, pointer=self.room / "moves", trace=self.room / "trace")
        self.lamp(display)
        wait_for(lambda: "wl_pointer#" in (self.room / "trace").read_text(), "there is no pointer")
        self.assertRegex((self.room / "trace").read_text(), r"xdg_toplevel#\d+\.configure\(64, 48, \[.*fullscreen")

    def test_descriptors_are_closed(self):
        def opened():
            return len(os.listdir("/proc/self/fd"))

        wlframe.Display()
        before = opened()
        for _ in range(2):
            with wlframe.Display(size=(64, 48)) as display:
                self.lamp(display)
        self.assertEqual(opened(), before)

    def test_two_side_by_side(self):
        one, two = self.display(), self.display(size=(32, 24))
        self.lamp(one)
        self.lamp(two)[1].click(1, 1)
        two.wait_for(lambda picture: picture.pixel(0, 0) == RED, LONG)
        self.assertEqual((one.picture().width, two.picture().width), (64, 32))


RUN = """
import pathlib, sys
sys.path.insert(0, sys.argv[1])
import wlframe
with wlframe.Display(size=(64, 48)) as display:
    client = display.run(sys.executable, sys.argv[2])
    display.window(client=client, timeout=60)
    print(display.household.supervisor.pid, display.server.pid, display.bridge.pid, client.pid, flush=True)
    sys.stdin.read()
"""


class Leaves(Displays):
    def test_nothing_of_a_run_that_is_killed(self):
        words = [sys.executable, "-c", RUN, str(PYTHON), str(HERE / "lamp.py")]
        with subprocess.Popen(words, stdin=subprocess.PIPE, stdout=subprocess.PIPE, text=True) as run:
            processes = run.stdout.readline().split()
            self.assertEqual(len(processes), 4)
            run.kill()
            begun = time.monotonic()
            wait_for(lambda: not any(pathlib.Path(f"/proc/{it}").exists() for it in processes), "a process is left")
            self.assertLess(time.monotonic() - begun, LONG)
        self.assertEqual(os.listdir(self.own), [])


if __name__ == "__main__":
    unittest.main()
