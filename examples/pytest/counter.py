"""A Qt program to be tested: a button that counts how often it was clicked, and one that ends it with status 3."""
import os
import sys

from PyQt6.QtCore import Qt
from PyQt6.QtWidgets import QApplication, QLabel, QPushButton, QVBoxLayout, QWidget


class Counter(QWidget):
    """The window."""

    def __init__(self):
        super().__init__()
        self.count = 0
        self.shown, button, leave = QLabel("0", alignment=Qt.AlignmentFlag.AlignCenter), QPushButton("Count"), QPushButton("Leave")
        button.clicked.connect(self.add)
        leave.clicked.connect(lambda: QApplication.exit(3))
        layout = QVBoxLayout(self)
        for each in (self.shown, button, leave):
            each.setFixedHeight(40)
            layout.addWidget(each)
        self.setFixedSize(200, 180)
        self.setWindowTitle("Counter")

    def add(self):
        self.count += 1
        self.shown.setText(str(self.count))
        self.setWindowTitle(f"Counter: {self.count}")


application = QApplication(sys.argv)
window = Counter()
window.show()
os._exit(application.exec())  # as Qt 6.4 takes its connection down it may wait for a thread of its own for ever
