#!/usr/bin/env python3
"""A Qt window with a child window inside it, a subsurface on Wayland, that moves to the right twenty times and then leaves.

    tools/run --frames frames -- examples/qt_subsurface.py

It needs PyQt 6 and the plugin of Qt for Wayland (Debian: python3-pyqt6, qt6-wayland).
"""
import sys

from PyQt6.QtCore import QTimer
from PyQt6.QtGui import QColor, QGuiApplication, QPainter, QRasterWindow

STEPS = 20
PAUSE = 50  # milliseconds between two steps


class Patch(QRasterWindow):
    """A window of one colour."""

    def __init__(self, colour, parent=None):
        super().__init__(parent)
        self.colour = QColor(colour)

    def paintEvent(self, event):
        painter = QPainter(self)
        painter.fillRect(0, 0, self.width(), self.height(), self.colour)
        painter.end()


def main():
    application = QGuiApplication(sys.argv)
    window = Patch("#3366cc")
    window.setTitle("parent")
    window.resize(240, 120)
    child = Patch("#ff9933", window)
    child.setGeometry(8, 8, 64, 48)
    window.show()
    child.show()
    steps = iter(range(STEPS))

    def step():
        at = next(steps, None)
        if at is None:
            application.quit()
            return
        child.setPosition(8 + 8 * (at + 1), 8 + 2 * (at + 1))
        window.requestUpdate()

    timer = QTimer()
    timer.timeout.connect(step)
    timer.start(PAUSE)
    return application.exec()


if __name__ == "__main__":
    sys.exit(main())
