"""Calls of a node of bytes: connections that are cut anywhere, ends, broadcasts and ticks, and what the program is to answer."""
import re

from fuzzing.frames import FAULTS, MAX_PAYLOAD, Fault, decode
from fuzzing.streams import GROUP, MUTATIONS, Writer, any_stream, word

ME, RUN = "c", "c/1"
NO_CONNECTION = "there is no such connection"
# A name goes down before much more waits for it than may: by this many bytes, which the step sends that takes another down.
SLACK = 4_096
# How many messages that it asked for may be on their way.
MOST_ASKED = 128


class Speaker(Writer):
    """Writes a frame of one sender."""

    def __init__(self, dice, sender):
        super().__init__(dice)
        self.sender = sender

    def origin(self):
        if not self.sender:
            return super().origin()
        self.put("name", word(len(self.sender), 1) + self.sender)
        self.put("incarnation", word(1, 8))
        self.sender = None

    def spelled(self):
        body = b"".join(data for _, data in self.frame())
        return word(len(body), 4) + body


def any_speech(dice):
    """What comes over a connection: most of it of one sender and well spelled, else anything."""
    if dice.random() < 0.3:
        return any_stream(dice)
    sender, frames = bytes([dice.choice(GROUP)]), []
    for _ in range(dice.choice([1, 2, 5, 20])):
        frame = Speaker(dice, sender).spelled()
        frames.append(dice.choice(MUTATIONS)(dice, frame) if dice.random() < 0.03 else frame)
    return b"".join(frames)


def frames_of(data):
    """The whole frames that bytes begin with, each as text and as bytes, the fault behind them, and what is left."""
    frames = []
    while True:
        try:
            text, size = decode(data)
        except Fault as fault:
            return frames, None if str(fault) == "Short" else FAULTS[str(fault)], data
        frames.append((text, data[:size]))
        data = data[size:]


def payload_of(text, data):
    """The id and the payload of a frame that brings a message."""
    words = text.split()
    if words[3] != "GOSSIP":
        return None
    return words[4], data[len(data) - int(words[6]) :]


class Wrong(Exception):
    """Why an answer is wrong."""


def ensure(is_right, why):
    if not is_right:
        raise Wrong(why)


class Connection:
    """What came over a connection and is no whole frame, who spoke first, and whether it came to what is no frame."""

    def __init__(self):
        self.left, self.peer, self.is_over = b"", None, False


class Model:
    """What a node is to do, as far as that is seen without its views and lists."""

    def __init__(self, limit):
        self.limit, self.connections, self.accepted, self.ticks, self.said = limit, {}, 0, 0, 0
        self.payloads, self.heard, self.downs, self.numbers = {}, [], [], {}

    def deliver(self, message, payload):
        self.payloads[message] = payload
        self.heard.append(f"{message} ={payload.hex()}")

    def arrive(self, text, data):
        """Takes a frame. A message is delivered once, unless it is of this run or comes under this node's name."""
        brought, sender = payload_of(text, data), text.split()[1]
        if not brought or sender.split("/")[0] == ME or brought[0].startswith(f"{RUN}/") or brought[0] in self.payloads:
            return
        self.deliver(*brought)

    def note_downs(self, steps, expected):
        """Takes the names that went down off the steps: those that are expected, and those for whom too much waits."""
        downs = [it[5:] for it in steps if it.startswith("down ")]
        self.downs += downs
        ensure(downs[: len(expected)] == expected, f"it took {downs} down, and not {expected} first")
        ensure(self.limit < 10**9 or downs == expected, f"it took {downs} down, though not too much waits")
        ensure(ME not in downs, "it took itself down")
        return [it for it in steps if not it.startswith("down ")]

    def give(self, answer, steps, number, digits):
        link, data = self.connections.get(int(number)), bytes.fromhex(digits)
        if not link:
            return ensure(answer == f"{NO_CONNECTION} after 0" and not steps, "there is no such connection")
        frames, fault, left = frames_of(link.left + data)
        steps = self.note_downs(steps, [])
        ensure(steps == [text for text, _ in frames], f"the frames are {[text for text, _ in frames]}")
        for text, whole in frames:
            link.peer = link.peer or text.split()[1].split("/")[0]
            self.arrive(text, whole)
        if not fault:
            link.left = left
            return ensure(answer == "done", "these are frames")
        link.is_over = True
        told = re.fullmatch(f"{fault} after ([0-9]+)", answer)
        ensure(told and int(told[1]) <= len(data), f"behind the frames {fault}")

    def end(self, answer, steps, number):
        link = self.connections.pop(int(number), None)
        if not link:
            return ensure(answer == NO_CONNECTION and not steps, "there is no such connection")
        may_be_down = link.peer and all(it.peer != link.peer for it in self.connections.values())
        expected = [link.peer] if may_be_down and steps else []
        ensure(answer == "done" and not self.note_downs(steps, expected), "it steps though no frame came")

    def accept(self, answer, steps):
        self.accepted += 1
        self.connections[self.accepted] = Connection()
        ensure(answer == f"connection {self.accepted}" and not steps, "the connection has this number")

    def say(self, answer, steps, size):
        size = int(size)
        if size > MAX_PAYLOAD:
            return ensure(answer == "the payload is too long" and not steps, "the payload is too long")
        self.said += 1
        self.deliver(f"{RUN}/{self.said}", bytes(size))
        ensure(answer == f"message {RUN}/{self.said}", "the message has the next number")
        ensure(self.note_downs(steps, []) == [f"broadcast {size}"], "a broadcast is one step")

    def lose(self, answer, steps, name):
        ensure(answer == "done" and not self.note_downs(steps, [name]), "a name that is lost is one step")

    def join(self, answer, steps, name):
        ensure(answer == "done" and self.note_downs(steps, []) == [f"join {name}"], "to be told to join is one step")

    def tick(self, answer, steps):
        self.ticks += 1
        first, *fired = self.note_downs(steps, [])
        ensure(answer == "done" and first == "flush", "a tick flushes first")
        ensure((fired[-1:] == ["shuffle"]) == (self.ticks % 10 == 0), "every tenth tick shuffles")
        ensure(len(fired) == (self.ticks % 10 == 0) or self.ticks % 5 == 0, "timers fire at every fifth tick alone")
        ensure(len(fired) <= MOST_ASKED + 1, "it asks for no more messages than may be on their way")
        for it in fired[:-1] if self.ticks % 10 == 0 else fired:
            ensure(it.startswith("fire ") and it[5:] not in self.payloads, "a timer fires for what is known")

    def send(self, answer, steps, _):
        words = answer.split(" ")
        ensure(words[0] == "sent" and not steps and len(words) % 2 == 1, "it sends by name")
        for name, digits in zip(words[1::2], words[2::2]):
            self.go_out(name, bytes.fromhex(digits))

    def go_out(self, name, data):
        """Reads what goes out to a name: whole frames of this node, in the order of their numbers."""
        ensure(name != ME, "it sends to itself")
        ensure(0 < len(data) <= self.limit + SLACK, f"{len(data)} bytes wait for {name}")
        frames, _, left = frames_of(data)
        ensure(not left, f"what goes out to {name} is no frame after {len(frames)} frames")
        for text, whole in frames:
            _, sender, number, *_ = text.split()
            ensure(sender == RUN, f"it sends under the name {sender}")
            ensure(self.numbers.get(name, 0) < int(number), f"the number {number} comes late")
            self.numbers[name] = int(number)
            brought = payload_of(text, whole)
            ensure(not brought or self.payloads.get(brought[0]) == brought[1], "it sends a message that it has not")

    def hear(self, answer, steps):
        ensure(answer == " ".join(["heard", *self.heard]) and not steps, f"delivered are {[it[:60] for it in self.heard]}")
        self.heard = []

    def lost(self, answer, steps):
        ensure(answer == " ".join(["lost", *self.downs]) and not steps, f"down went {self.downs}")
        self.downs = []


class Calls:
    """How many bytes may wait for a name, and calls of a node."""

    def __init__(self, dice):
        self.dice, self.limit = dice, dice.choice([200, 5_000, 40_000, 10**9, 10**9, 10**9])
        self.calls, self.streams, self.left, self.accepted = [], {}, {}, 0
        for _ in range(dice.choice([3, 20, 20, 100])):
            self.calls.append(self.any_call())
        self.calls += ["hear", f"send:{dice.choice([1, 7, 100, 65536])}", "lost"]

    def any_call(self):
        what = self.dice.random()
        if not self.streams or what < 0.08:
            self.accepted += 1
            self.streams[self.accepted] = any_speech(self.dice)
            return "accept"
        if what < 0.75:
            return self.any_piece()
        if what < 0.79:
            number = self.dice.choice([*self.streams, 99])
            self.streams.pop(number, None)
            return f"end:{number}"
        if what < 0.83:
            return f"say:{self.dice.choice([0, 1, 100, 100, 5_000, MAX_PAYLOAD, MAX_PAYLOAD + 1])}"
        if what < 0.93:
            return "tick"
        if what < 0.95:
            return f"lose:{chr(self.dice.choice(GROUP.replace(ME.encode(), b'')))}"
        if what < 0.97:
            return f"join:{chr(self.dice.choice(GROUP))}"
        return self.dice.choice(["hear", "lost", f"send:{self.dice.choice([1, 7, 100, 65536])}"])

    def any_piece(self):
        """The next bytes of a connection. One that came to what is no frame gets nothing more but its end."""
        number = self.dice.choice([*self.streams])
        stream, left = self.streams[number], self.left.pop(number, b"")
        if not stream:
            del self.streams[number]
            return f"end:{number}"
        size = self.dice.randint(1, self.dice.choice([1, 5, 100, 5_000, 100_000]))
        data, self.streams[number] = stream[:size], stream[size:]
        _, fault, self.left[number] = frames_of(left + data)
        if fault:
            self.streams[number] = b""
        return f"give:{number}:{data.hex()}"

    def line(self):
        return f"node {self.limit} {' '.join(self.calls)}"

    def complaint(self, line):
        """Why the answers to the calls are wrong, if they are."""
        model, answers = Model(self.limit), line.split("; ")
        if len(answers) != len(self.calls) + 1:
            return f"{len(answers) - 1} answers to {len(self.calls)} calls"
        for place, (call, told) in enumerate(zip(self.calls, answers)):
            verb, *words = call.split(":")
            answer, *steps = told.split(", ")
            try:
                getattr(model, verb)(answer, steps, *words)
            except (Wrong, ValueError) as why:
                return f"call {place}, {call[:200]}: {why}\nanswer: {told[:1000]}"
        return None

    def labels(self):
        """What is counted of it: how many calls of each kind there are, and whether names go down for what waits for them."""
        yield "much waits" if self.limit == 10**9 else f"{self.limit} bytes wait at most"
        for call in self.calls:
            yield call.split(":")[0]
