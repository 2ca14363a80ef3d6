"""Streams of frames, most of them spoiled, and what the program is to answer to each."""
import re

from fuzzing.frames import FAULTS, KINDS, MAX_ANNOUNCEMENTS, MAX_BODY, MAX_NAMES, MAX_PAYLOAD, Fault, cut, decode, version_of

LETTERS = b"abcdefghijklmnopqrstuvwxyz0123456789-"
# The names of nodes in groups that run.
GROUP = b"abcde"
NO_LETTERS = b"\0\nAZ_./ `{:\x7f\x80\xff"
# `pump` reads no more at once.
READ = 4_096


def word(number, size):
    return (number % 256**size).to_bytes(size, "big")


class Writer:
    """Writes a frame of random fields as a list of parts, each with what it is."""

    def __init__(self, dice):
        self.dice, self.parts = dice, []

    def put(self, label, data):
        self.parts.append((label, data))

    def name(self):
        size = self.dice.choice([1, 1, 2, 5, 31, 32])
        letters = LETTERS if size > 1 else GROUP
        self.put("name", word(size, 1) + bytes(self.dice.choices(letters, k=size)))

    def number(self):
        self.put("number", word(self.dice.choice([1, 2, 255, 256, 2**63, 2**64 - 1]), 8))

    def origin(self):
        self.name()
        self.put("incarnation", word(self.dice.choice([0, 1, 1, 1, 2**32, 2**64 - 1]), 8))

    def id(self):
        self.origin()
        self.number()

    def flag(self):
        self.put("flag", word(self.dice.randrange(2), 1))

    def ttl(self):
        self.put("ttl", word(self.dice.choice([0, 1, 6, 255]), 1))

    def round(self):
        self.put("round", word(self.dice.choice([0, 1, 2**32 - 1]), 4))

    def names(self):
        count = self.dice.choice([0, 1, 3, MAX_NAMES])
        self.put("names", word(count, 1))
        for _ in range(count):
            self.name()

    def payload(self):
        sizes = [4_000, MAX_PAYLOAD - 1, MAX_PAYLOAD] if self.dice.random() < 0.05 else [0, 1, 7, 100]
        size = self.dice.choice(sizes)
        self.put("payload", word(size, 4))
        self.put("bytes", self.dice.randbytes(size))

    def announcements(self):
        count = self.dice.choice([1, 1, 2, 5, MAX_ANNOUNCEMENTS])
        self.put("announcements", word(count, 2))
        for _ in range(count):
            self.id()
            self.round()

    def frame(self):
        kind = self.dice.choice(list(KINDS))
        self.put("version", word(version_of(kind), 1))
        self.put("kind", word(kind, 1))
        self.origin()
        self.number()
        for field in KINDS[kind].split()[1:]:
            getattr(self, field)()
        return self.parts


def spoil_name(dice, name):
    size, letters = name[0], bytearray(name[1:])
    what = dice.randrange(3)
    if what == 0:
        letters[dice.randrange(size)] = dice.choice(NO_LETTERS)
        return word(size, 1) + letters
    if what == 1:
        return word(dice.choice([0, 33, 255, size + 1, size - 1]), 1) + letters
    return word(33, 1) + bytes(dice.choices(LETTERS, k=33))


def spoil_by(*numbers):
    """Changes a number to one of these."""
    return lambda dice, was: word(dice.choice(numbers), len(was))


def spoil_count(most):
    """Changes a count of at most so many: by one, or to a limit."""

    def spoil(dice, was):
        count = int.from_bytes(was, "big")
        return word(dice.choice([count + 1, count - 1, 0, most, most + 1, -1]), len(was))

    return spoil


# Of each part that can be wrong, what changes it.
SPOILED = {
    "version": spoil_by(0, 1, 2, 3, 255),
    "kind": spoil_by(0, 13, 255, *KINDS),
    "name": spoil_name,
    "number": spoil_by(0),
    "flag": spoil_by(2, 255),
    "names": spoil_count(MAX_NAMES),
    "payload": spoil_count(MAX_PAYLOAD),
    "announcements": spoil_count(MAX_ANNOUNCEMENTS),
}


def any_frame(dice, is_good):
    """A frame of random fields, or one of which a part is wrong. The length is that of its bytes."""
    parts = Writer(dice).frame()
    if not is_good:
        wrong = dice.choice(sorted({label for label, _ in parts if label in SPOILED}))
        place = dice.choice([at for at, (label, _) in enumerate(parts) if label == wrong])
        parts[place] = wrong, SPOILED[wrong](dice, parts[place][1])
    body = b"".join(data for _, data in parts)
    return word(len(body), 4) + body


def change_length(dice, data):
    size = len(data) - 4
    return word(dice.choice([0, size - 1, size + 1, MAX_BODY, MAX_BODY + 1, 2**32 - 1]), 4) + data[4:]


def flip(dice, data):
    place = dice.randrange(len(data))
    return data[:place] + bytes([data[place] ^ dice.choice([1, 2, 16, 128, 255])]) + data[place + 1 :]


def truncate(dice, data):
    return data[: dice.randrange(len(data))]


def repeat(dice, data):
    start, end = sorted(dice.choices(range(len(data) + 1), k=2))
    return data[:end] + data[start:]


def splice(dice, data):
    other = any_frame(dice, True)
    return data[: dice.randrange(len(data))] + other[dice.randrange(len(other)) :]


def lengthen(dice, data):
    """Bytes after the last field, within the length."""
    more = dice.randbytes(dice.choice([1, 2, 9]))
    return word(len(data) - 4 + len(more), 4) + data[4:] + more


MUTATIONS = [change_length, flip, truncate, repeat, splice, lengthen]


def any_part(dice):
    """A frame, one that is spoiled, or random bytes, which may stand behind a length."""
    what = dice.random()
    if what < 0.4:
        return any_frame(dice, True)
    if what < 0.7:
        return any_frame(dice, False)
    if what < 0.95:
        return dice.choice(MUTATIONS)(dice, any_frame(dice, True))
    data = dice.randbytes(dice.choice([1, 3, 4, 30, 300]))
    return data if dice.random() < 0.5 else word(len(data), 4) + data


def any_stream(dice):
    return b"".join(any_part(dice) for _ in range(dice.choice([1, 1, 1, 2, 4, 10])))


def any_pieces(dice, size):
    """Sizes of pieces. What is left comes as one."""
    widest = dice.choice([1, 2, 5, 100, READ, 2 * READ])
    return [dice.randint(1, widest) for _ in range(dice.choice([0, 1, 10, min(size, 300)]))]


class Case:
    """A stream, the sizes of its pieces, how many frames the sink takes, and the read that fails, counted from 0."""

    def __init__(self, dice):
        self.stream = any_stream(dice)
        self.pieces = any_pieces(dice, len(self.stream))
        self.most = dice.choice([0, 1, 2]) if dice.random() < 0.1 else 1_000_000
        self.fails = dice.choice([0, 1, 2, 10]) if dice.random() < 0.1 else None

    def line(self):
        pieces = ",".join(map(str, self.pieces)) or "-"
        fails = "-" if self.fails is None else self.fails
        return f"{pieces} {self.most} {fails} {self.stream.hex() or '-'}"

    def reads(self):
        """How many bytes each read has, but for the last one, which has none."""
        sizes, left = list(self.pieces), len(self.stream)
        while left:
            size = min(sizes.pop(0) if sizes else READ, READ, left)
            left -= size
            yield size

    def decoded(self):
        try:
            return decode(self.stream)[0]
        except Fault as fault:
            return FAULTS[str(fault)]

    def cut(self):
        frames, fault, left = cut(self.stream)
        return ", ".join([*frames, FAULTS[fault] if fault else f"{left} left"])

    def pumped(self):
        reads = list(self.reads())
        has_failed = self.fails is not None and self.fails <= len(reads)
        came = sum(reads[: self.fails]) if has_failed else len(self.stream)
        frames, fault, left = cut(self.stream[:came])
        if len(frames) > self.most:
            end = "the sink takes no more"
        elif fault:
            end = FAULTS[fault]
        else:
            end = "the reader failed" if has_failed else f"the stream ended with {left} bytes of a frame"
        return ", ".join([*frames[: self.most], end])

    def wanted(self):
        """The line that the program is to print."""
        return "; ".join([self.decoded(), self.cut(), self.pumped()])

    def complaint(self, line):
        """Why a line is the wrong answer, if it is."""
        wanted = self.wanted()
        return None if line == wanted else f"another answer than by docs/frames.md\nwanted: {wanted}\nfound:  {line}"

    def labels(self):
        """What is counted of it: what `decode` answers, and how `pump` ends."""
        decoded, end = self.decoded(), self.pumped().split(", ")[-1]
        yield "decode: a frame" if decoded[0].isdigit() else f"decode: {decoded}"
        yield f"pump: {re.sub('[1-9][0-9]*', 'some', end)}"
