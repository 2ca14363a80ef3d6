"""Somebody who speaks as a node of a cluster does, by docs/cluster.md and docs/frames.md, for the tests of clusters."""
import contextlib
import socket
import threading
import time

VERSION = 2
# The kinds of records, and of the frames that the tests send and look for.
HELLO, INTRODUCTION = 1, 2
JOIN, NEIGHBOR, SHUFFLE, SHUFFLEREPLY = 1, 3, 6, 7


def named(name):
    return bytes([len(name)]) + name.encode()


def place(port):
    """Returns the bytes of an address of this machine."""
    return bytes([4, 127, 0, 0, 1]) + port.to_bytes(2, "big")


def hello(name, port, to, label="plumtree", version=VERSION):
    """Returns the record with which a connection begins: who dials, where it listens, and who is meant."""
    text = b"PLUM" + bytes([version]) + named(label) + named(to) + named(name) + place(port)
    return bytes([HELLO, len(text)]) + text


def introduction(name, port):
    """Returns the record by which a node tells where another listens."""
    text = named(name) + place(port)
    return bytes([INTRODUCTION, len(text)]) + text


def frame(name, number, kind, fields=b""):
    """Returns a frame of the first run of a node."""
    body = bytes([1, kind]) + named(name) + (1).to_bytes(8, "big") + number.to_bytes(8, "big") + fields
    return len(body).to_bytes(4, "big") + body


def parts_of(text):
    """Returns the records and frames that the text of a connection begins with, each as its kind, 0 for a frame, and its bytes."""
    found, at = [], 0
    while at + 4 <= len(text):
        kind = text[at]
        start = at + (4 if kind == 0 else 2)
        end = start + (int.from_bytes(text[at:start], "big") if kind == 0 else text[at + 1])
        if end > len(text):
            break
        found.append((kind, text[start:end]))
        at = end
    return found


def is_shuffle(part, name):
    """Whether a part is a frame by which names are exchanged, and this name is one of them."""
    kind, body = part
    return kind == 0 and body[1] in (SHUFFLE, SHUFFLEREPLY) and named(name) in body[3 + body[2] + 16 :]


def records_before(parts, at):
    """Returns the records between the frame at this place and the frame before it."""
    start = at
    while start > 0 and parts[start - 1][0] != 0:
        start -= 1
    return parts[start:at]


class Peer:
    """Listens, takes connections, and keeps what comes over each, and in which pieces."""

    def __init__(self, name):
        self.name, self.texts, self.pieces, self.streams, self.numbers = name, [], [], [], 0
        self.socket = socket.create_server(("127.0.0.1", 0))
        self.port = self.socket.getsockname()[1]
        threading.Thread(target=self.take, daemon=True).start()

    def take(self):
        while True:
            try:
                stream, _ = self.socket.accept()
            except OSError:
                return
            text = bytearray()
            self.texts.append(text)
            self.streams.append(stream)
            threading.Thread(target=self.keep, args=(stream, text), daemon=True).start()

    def keep(self, stream, text):
        with stream:
            try:
                while piece := stream.recv(65_536):
                    text += piece
                    self.pieces.append(piece)
            except OSError:
                pass

    def parts(self):
        """Returns what came, connection by connection."""
        return [parts_of(bytes(text)) for text in self.texts]

    def greet(self, port, to):
        """Dials the node of this name, and says who it is. Returns the connection."""
        stream = socket.create_connection(("127.0.0.1", port))
        stream.sendall(hello(self.name, self.port, to))
        return stream

    def ask(self, stream):
        """Asks over a connection to be taken into the group, by a frame that comes in two pieces."""
        self.numbers += 1
        text = frame(self.name, self.numbers, JOIN)
        stream.sendall(text[:7])
        time.sleep(0.1)
        stream.sendall(text[7:])

    def join(self, port, to):
        """Dials the node of this name, and asks it to be taken into its group. Returns the connection."""
        stream = self.greet(port, to)
        self.ask(stream)
        return stream

    def hang_up(self):
        """Ends the connections that came, and takes no others."""
        self.close()
        for stream in self.streams:
            # (the other end may have closed it)
            with contextlib.suppress(OSError):
                stream.shutdown(socket.SHUT_RDWR)

    def close(self):
        self.socket.close()
