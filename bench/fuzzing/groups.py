"""Groups that run while strangers write to their nodes, and what the program is to answer."""
import itertools
import socket
import struct
import threading
import time

from fuzzing.answers import complaint, letter_of, play
from fuzzing.frames import cut
from fuzzing.streams import GROUP, any_frame, any_stream

NAMES = GROUP.decode()
TICKS = 100
# What a stranger does after it wrote.
ENDS = ["close", "reset", "shut", "stay"]


def free_ports(count):
    """Ports of this machine that nobody uses. Others may take them before the group does."""
    kept = [socket.create_server(("127.0.0.1", 0)) for _ in range(count)]
    ports = [it.getsockname()[1] for it in kept]
    for it in kept:
        it.close()
    return ports


def group_of(ports):
    """A group in which each node has all others as peers and says two texts."""
    nodes = []
    for name, port in zip(NAMES, ports):
        peers = ", ".join(f'"{it}"' for it in NAMES if it != name)
        nodes.append(f'[[node]]\nname = "{name}"\nport = {port}\npeers = [{peers}]\nsay = ["one from {name}", "two from {name}"]\n')
    return f"ticks = {TICKS}\n" + "".join(nodes)


def lines_of():
    """What such a group prints, but for the branches of trees."""
    messages = [(name, number, f"{word} from {name}".encode()) for name in NAMES for number, word in ((1, "one"), (2, "two"))]
    for node, (name, number, text) in itertools.product(NAMES, messages):
        yield f"deliver {node}/1 {name}/1/{number} {len(text)} {text.hex()}"
    yield "merge ok"
    for name, number, _ in messages:
        yield f"tree {name}/1/{number} rest yes"


class Stranger:
    """What a stranger writes to a node, in pieces, and how it ends."""

    def __init__(self, dice, has_frames):
        self.node = dice.randrange(len(NAMES))
        self.stream = stream_of(dice, has_frames)
        self.piece = dice.choice([1, 7, 100, 5_000, 100_000]) if len(self.stream) < 500 else dice.choice([100, 5_000, 100_000])
        self.end = dice.choice(ENDS)

    def line(self):
        return f"{NAMES[self.node]} {self.piece} {self.end} {self.stream.hex() or '-'}"

    def visit(self, port, kept):
        """Writes what the node takes: it may have closed the connection, or be gone."""
        try:
            stranger = socket.create_connection(("127.0.0.1", port), timeout=2)
            kept.append(stranger)
            for place in range(0, len(self.stream), self.piece):
                stranger.sendall(self.stream[place : place + self.piece])
            self.leave(stranger)
        except OSError:
            pass

    def leave(self, stranger):
        if self.end == "reset":
            stranger.setsockopt(socket.SOL_SOCKET, socket.SO_LINGER, struct.pack("ii", 1, 0))
        if self.end == "shut":
            stranger.shutdown(socket.SHUT_WR)
        elif self.end != "stay":
            stranger.close()


def stream_of(dice, has_frames):
    """A stream that begins with no frame, or one that begins with a frame, some of nodes of the group."""
    if has_frames:
        return any_frame(dice, True) + any_stream(dice)
    streams = (any_stream(dice) if dice.random() < 0.9 else dice.randbytes(dice.choice([0, 3, 20_000])) for _ in itertools.count())
    return next(it for it in streams if not cut(it)[0])


class Group:
    """A group and the strangers who come while it runs. Those who write frames do so under names of its nodes too."""

    def __init__(self, dice, has_frames):
        self.has_frames = has_frames
        self.ports = free_ports(len(NAMES))
        self.text = group_of(self.ports)
        self.strangers = [Stranger(dice, has_frames) for _ in range(dice.choice([5, 20, 60]))]

    def file(self):
        """What is kept of it: the scenario, and in comments who came."""
        return "".join([self.text, *(f"# {it.line()}\n" for it in self.strangers)])

    def play(self, program):
        """The answer of the program to the scenario, while the strangers come."""
        kept = []
        visits = threading.Thread(target=self.visit_all, args=(kept,))
        visits.start()
        answer = play([program, "run"], self.text.encode())
        visits.join()
        for it in kept:
            it.close()
        return answer

    def visit_all(self, kept):
        """Sends the strangers one after the other, while the group runs."""
        time.sleep(0.3)
        for stranger in self.strangers:
            stranger.visit(self.ports[stranger.node], kept)
            time.sleep(TICKS * 0.01 / len(self.strangers))

    def complaint(self, _, answer):
        """What is wrong with an answer, or nothing. Frames may do what their senders could, and the merge may find them."""
        is_whole = [line for line in answer.lines if letter_of(line) != "b"] == list(lines_of())
        why = complaint("run", answer)
        if why or self.has_frames or "cannot listen" in answer.err or is_whole:
            return why
        return f"status {answer.status}, and other deliveries, merge or trees than wanted"
