"""A small viewer that speaks RFB 3.8, as wayvnc does, over TCP, TLS with a password, or a WebSocket, for tests."""
import base64
import os
import socket
import ssl
import struct

PATIENCE = 60  # seconds that an answer may take
NONE, VENCRYPT, X509_PLAIN = 1, 19, 262  # kinds of security
FORMAT = struct.pack(">BBBBHHHBBB3x", 32, 24, 0, 1, 255, 255, 255, 16, 8, 0)  # blue, green, red, nothing
RAW = 0
BINARY, FIN, MASKED = 0x2, 0x80, 0x80


class Refused(Exception):
    """The other side doesn't take this viewer."""


class Line:
    """A connection of which a number of bytes can be read."""

    def __init__(self, host, port):
        self.socket = socket.create_connection((host, port), PATIENCE)

    def read(self, count):
        data = b""
        while len(data) < count:
            piece = self.socket.recv(count - len(data))
            if not piece:
                self.socket.close()
                raise Refused("the connection was closed")
            data += piece
        return data

    def write(self, data):
        self.socket.sendall(data)


class Web(Line):
    """The same by a WebSocket, as noVNC's page opens it."""

    def __init__(self, host, port, origin, password=None):
        super().__init__(host, port)
        self.rest = b""
        words = [f"GET /websockify HTTP/1.1\r\nHost: {host}:{port}\r\nOrigin: {origin}\r\nConnection: Upgrade\r\nUpgrade: websocket\r\n"]
        words += ["Sec-WebSocket-Version: 13\r\nSec-WebSocket-Protocol: binary\r\n"]
        words += [f"Sec-WebSocket-Key: {base64.b64encode(os.urandom(16)).decode()}\r\n"]
        words += [f"Authorization: Basic {base64.b64encode(password.encode()).decode()}\r\n"] if password else []
        super().write(("".join(words) + "\r\n").encode())
        head = b""
        while not head.endswith(b"\r\n\r\n"):
            head += super().read(1)
        if b" 101 " not in head.split(b"\r\n")[0]:
            self.socket.close()
            raise Refused(head.split(b"\r\n")[0].decode())

    def read(self, count):
        while len(self.rest) < count:
            _, length = super().read(2)
            length = length if length < 126 else int.from_bytes(super().read(2 if length == 126 else 8))
            self.rest += super().read(length)
        found, self.rest = self.rest[:count], self.rest[count:]
        return found

    def write(self, data):
        assert len(data) < 126
        super().write(bytes([FIN | BINARY, MASKED | len(data), 0, 0, 0, 0]) + data)


class Viewer:
    """A viewer with what the display shows."""

    def __init__(self, line, user="", password=""):
        self.line = line
        line.write(line.read(12))
        kinds = line.read(line.read(1)[0])
        if NONE in kinds:
            line.write(bytes([NONE]))
        elif VENCRYPT in kinds:
            self.encrypt(user.encode(), password.encode())
        else:
            raise Refused(f"kinds of security: {list(kinds)}")
        if self.number("I"):
            line.socket.close()
            raise Refused("the password is wrong")
        line.write(b"\1")
        self.width, self.height = self.number("H"), self.number("H")
        line.read(16)
        self.name = line.read(self.number("I")).decode()
        line.write(b"\0\0\0\0" + FORMAT)
        line.write(struct.pack(">BxHi", 2, 1, RAW))

    def number(self, form):
        return struct.unpack(f">{form}", self.line.read(struct.calcsize(form)))[0]

    def encrypt(self, user, password):
        """Goes on by TLS, and tells who it is."""
        line = self.line
        line.write(bytes([VENCRYPT]))
        line.write(line.read(2))  # the version
        if line.read(1) != b"\0":
            raise Refused("the version isn't taken")
        kinds = [self.number("I") for _ in range(line.read(1)[0])]
        if X509_PLAIN not in kinds:
            raise Refused(f"kinds of encryption: {kinds}")
        line.write(struct.pack(">I", X509_PLAIN))
        line.read(1)
        how = ssl.SSLContext(ssl.PROTOCOL_TLS_CLIENT)
        how.check_hostname, how.verify_mode = False, ssl.CERT_NONE
        line.socket = how.wrap_socket(line.socket)
        line.write(struct.pack(">II", len(user), len(password)) + user + password)

    def picture(self):
        """What is shown, as rows of red, green and blue."""
        self.line.write(struct.pack(">BBHHHH", 3, 0, 0, 0, self.width, self.height))
        shown, seen = bytearray(3 * self.width * self.height), 0
        while seen < self.width * self.height:
            assert self.line.read(1) == b"\0", "no update of the picture"
            self.line.read(1)
            for _ in range(self.number("H")):
                x, y, width, height = (self.number("H") for _ in range(4))
                assert self.number("i") == RAW
                data, seen = self.line.read(4 * width * height), seen + width * height
                for row in range(height):
                    at, to = 4 * row * width, 3 * ((y + row) * self.width + x)
                    for colour in range(3):
                        shown[to + colour : to + 3 * width : 3] = data[at + 2 - colour : at + 4 * width : 4]
        return bytes(shown)

    def changes(self):
        """Waits for the next update of what has changed, and passes it over."""
        self.line.write(struct.pack(">BBHHHH", 3, 1, 0, 0, self.width, self.height))
        assert self.line.read(2)[0] == 0, "no update of the picture"
        for _ in range(self.number("H")):
            width, height = struct.unpack(">4xHH", self.line.read(8))
            assert self.number("i") == RAW
            self.line.read(4 * width * height)

    def key(self, keysym, is_down):
        self.line.write(struct.pack(">BBxxI", 4, is_down, keysym))

    def point(self, x, y, buttons):
        self.line.write(struct.pack(">BBHH", 5, buttons, x, y))

    def close(self):
        self.line.socket.close()
