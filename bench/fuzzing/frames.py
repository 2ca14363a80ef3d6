"""A reader and a writer of frames by docs/frames.md, which shares nothing with the crates."""
import re

MAX_BODY = 32_876
MAX_PAYLOAD = 32_768
MAX_NAMES = 8
MAX_ANNOUNCEMENTS = 64
# Of each kind its name and its fields.
KINDS = {
    1: "JOIN",
    2: "FORWARDJOIN name ttl",
    3: "NEIGHBOR flag",
    4: "NEIGHBORREPLY flag",
    5: "DISCONNECT",
    6: "SHUFFLE name ttl names",
    7: "SHUFFLEREPLY names",
    8: "GOSSIP id round payload",
    9: "IHAVE announcements",
    10: "GRAFT id round",
    11: "PRUNE",
    12: "GRAFT",
}
# The kinds that are written in version 2. All others are in version 1.
SECOND = {12}
# What the program calls each fault.
FAULTS = {
    "Short": "the frame is not whole",
    "TooLong": "the frame is too long",
    "BadVersion": "the version is unknown",
    "BadKind": "the kind of the frame is unknown",
    "BadName": "a name is malformed",
    "BadField": "a field is cut off or out of range",
    "BadCount": "a count is out of range",
    "Trailing": "bytes follow the last field",
}


def version_of(kind):
    """The version that frames of a kind are written in."""
    return 2 if kind in SECOND else 1


class Fault(Exception):
    """Why bytes are no frame, by a name of FAULTS."""


def ensure(is_good, fault):
    if not is_good:
        raise Fault(fault)


class Fields:
    """Reads a body from left to right. Each field is answered as the program prints it."""

    def __init__(self, body):
        self.rest = body

    def octets(self, count):
        ensure(len(self.rest) >= count, "BadField")
        front, self.rest = self.rest[:count], self.rest[count:]
        return front

    def word(self, size):
        return int.from_bytes(self.octets(size), "big")

    def number(self):
        number = self.word(8)
        ensure(number > 0, "BadField")
        return number

    def name(self):
        size = self.word(1)
        ensure(1 <= size <= 32, "BadName")
        letters = self.octets(size)
        ensure(re.fullmatch(rb"[a-z0-9-]+", letters), "BadName")
        return letters.decode()

    def origin(self):
        return f"{self.name()}/{self.word(8)}"

    def id(self):
        return f"{self.origin()}/{self.number()}"

    def flag(self):
        flag = self.word(1)
        ensure(flag <= 1, "BadField")
        return "true" if flag else "false"

    def ttl(self):
        return str(self.word(1))

    def round(self):
        return str(self.word(4))

    def names(self):
        count = self.word(1)
        ensure(count <= MAX_NAMES, "BadCount")
        return " ".join(self.name() for _ in range(count))

    def payload(self):
        size = self.word(4)
        ensure(size <= MAX_PAYLOAD, "BadField")
        return str(len(self.octets(size)))

    def announcements(self):
        count = self.word(2)
        ensure(1 <= count <= MAX_ANNOUNCEMENTS, "BadCount")
        return " ".join(f"{self.id()} {self.round()}" for _ in range(count))


def read_body(body):
    """What a body says, as the program prints it."""
    fields = Fields(body)
    version = fields.word(1)
    ensure(version in (1, 2), "BadVersion")
    kind = fields.word(1)
    ensure(kind in KINDS and version == version_of(kind), "BadKind")
    told = [fields.origin(), str(fields.number())]
    name, *layout = KINDS[kind].split()
    told += [name, *(getattr(fields, field)() for field in layout)]
    ensure(not fields.rest, "Trailing")
    return " ".join(word for word in told if word)


def decode(data):
    """The first frame of some bytes, as the program prints it, and how many bytes it takes."""
    ensure(len(data) >= 4, "Short")
    size = int.from_bytes(data[:4], "big")
    ensure(size <= MAX_BODY, "TooLong")
    ensure(len(data) >= 4 + size, "Short")
    return f"{4 + size} {read_body(bytes(data[4:4 + size]))}", 4 + size


def cut(data):
    """All frames that a stream begins with, the fault after them if it is another than Short, and how many bytes are left."""
    frames, rest = [], memoryview(data)
    try:
        while True:
            frame, size = decode(rest)
            frames.append(frame)
            rest = rest[size:]
    except Fault as fault:
        name = str(fault)
        return frames, None if name == "Short" else name, len(rest)
