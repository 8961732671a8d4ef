"""A window with one line of text, whose title is that text in brackets: entry.py gtk3|gtk4|qt6|sdl|terminal

The last is for a terminal, and keeps what it is typed as a line would: control-A has all of it replaced by what comes next.
"""
import ctypes
import os
import sys
import termios
import tty

SIDES = 240, 80
SELECT_ALL, BACKSPACE = "\x01", "\x7f"


def titled(text):
    return f"[{text}]"


def gtk(version):
    """An entry of GTK 3 or 4."""
    import gi  # pylint: disable=import-outside-toplevel

    gi.require_version("Gtk", version)
    from gi.repository import GLib, Gtk  # pylint: disable=import-outside-toplevel

    if version == "3.0":
        Gtk.init()
    window, entry = Gtk.Window(), Gtk.Entry()
    window.set_default_size(*SIDES)
    entry.connect("changed", lambda it: window.set_title(titled(it.get_text())))
    window.set_title(titled(""))
    if version == "3.0":
        window.add(entry)
        window.show_all()
    else:
        window.set_child(entry)
        window.present()
    entry.grab_focus()
    GLib.MainLoop().run()


def qt6():
    """An entry of Qt 6."""
    from PyQt6.QtWidgets import QApplication, QLineEdit  # pylint: disable=import-outside-toplevel

    application, entry = QApplication([]), QLineEdit()
    entry.resize(*SIDES)
    entry.textChanged.connect(lambda text: entry.setWindowTitle(titled(text)))
    entry.setWindowTitle(titled(""))
    entry.show()
    application.exec()


class Line:
    """A text of which all may be marked."""

    def __init__(self, show):
        self.text, self.is_marked, self.show = "", False, show
        show(titled(""))

    def add(self, text):
        self.text = text if self.is_marked else self.text + text
        self.is_marked = False
        self.show(titled(self.text))


def terminal():
    """What a terminal sends, and as its title what came of it."""
    def show(title):
        sys.stdout.write(f"\x1b]2;{title}\x1b\\\x1b[2J\x1b[H{title[1:-1]}")
        sys.stdout.flush()

    tty.setraw(0, termios.TCSANOW)
    line, rest = Line(show), b""
    while data := os.read(0, 4096):
        text, rest = (rest + data).decode(errors="strict"), b""
        for piece in text:
            if piece == SELECT_ALL:
                line.is_marked = True
            else:
                line.add(piece)


def sdl():
    """What SDL 2 tells of keys and text; control with A, C and V mark all, copy it, and paste."""
    library = ctypes.CDLL("libSDL2-2.0.so.0")
    library.SDL_GetClipboardText.restype = ctypes.c_char_p
    library.SDL_CreateWindow.restype = ctypes.c_void_p
    os.environ["SDL_VIDEODRIVER"] = "wayland"
    if library.SDL_Init(0x20):  # video
        sys.exit("SDL doesn't start")
    window = ctypes.c_void_p(library.SDL_CreateWindow(b"[]", 0, 0, *SIDES, 0))
    library.SDL_FillRect(ctypes.c_void_p(library.SDL_GetWindowSurface(window)), None, 0x808080)
    library.SDL_UpdateWindowSurface(window)
    library.SDL_StartTextInput()
    line = Line(lambda title: library.SDL_SetWindowTitle(window, title.encode()))
    event = ctypes.create_string_buffer(56)
    while library.SDL_WaitEvent(event):
        kind = int.from_bytes(event[:4], sys.byteorder)
        if kind == 0x300 and int.from_bytes(event[24:26], sys.byteorder) & 0xC0:  # a key, with control
            key = int.from_bytes(event[20:24], sys.byteorder)
            if key == ord("a"):
                line.is_marked = True
            elif key == ord("c"):
                library.SDL_SetClipboardText(line.text.encode())
            elif key == ord("v"):
                line.add(library.SDL_GetClipboardText().decode())
        elif kind == 0x303:  # text
            line.add(event[12:44].partition(b"\0")[0].decode())
        elif kind == 0x100:  # the end
            return


if __name__ == "__main__":
    {"gtk3": lambda: gtk("3.0"), "gtk4": lambda: gtk("4.0"), "qt6": qt6, "sdl": sdl, "terminal": terminal}[sys.argv[1]]()
