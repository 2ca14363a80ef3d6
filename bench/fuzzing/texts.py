"""Scenarios that are spoiled."""
import glob
import re

from fuzzing.answers import complaint, is_toml, play

LONGEST = 1_048_576
# A group of so long a text runs for long.
LONGEST_GROUP = 2_000
NUMBERS = (
    b"-1 0 1 2 8 9 31 255 256 32768 65535 65536 9223372036854775807 9223372036854775808 18446744073709551616 "
    b"007 1_0 +1 1.0 1e300 nan 0x7f 0b1 1979-05-27"
).split()
LIMITS = re.compile(rb"\d+")
PORT = re.compile(rb"port = \d+")
WORDS = re.compile(rb"[A-Za-z_-]+|\"[^\"\n]*\"")
BRACKETS = b"\"'[]{}=,.#\n\\"
NO_TEXTS = [b"\xff", b"\xc0\x80", b"\xed\xa0\x80", b"\xf4\x90\x80\x80", b"\xe2\x82", b"\xef\xbb\xbf", b"\0"]
NESTS = [
    (b"[", b"]"),
    (b"{a=", b"}"),
    (b"{a.a=", b"}"),
    (b"a.", b"a=1\n"),
    (b"[a.", b"a]\n"),
    (b'"', b'"'),
    (b"'''", b"'''"),
    (b"[[a]]\n", b""),
]


def texts_of(pattern):
    """The scenarios of files, and the small cases of those that have many."""
    for name in sorted(glob.glob(pattern)):
        with open(name, "rb") as file:
            text = file.read()
        if name.endswith(".toml"):
            yield text
        else:
            yield from (case.partition(b"----\n")[0] for case in text.split(b"\n\n") if b"----\n" in case)


def drop_line(dice, text, _):
    lines = text.splitlines(True)
    del lines[dice.randrange(len(lines))]
    return b"".join(lines)


def double_line(dice, text, _):
    lines = text.splitlines(True)
    line, place = dice.choice(lines), dice.randrange(len(lines))
    return b"".join([*lines[:place], *[line] * dice.choice([1, 1, 2, 100]), *lines[place:]])


def swap_lines(dice, text, _):
    lines = text.splitlines(True)
    one, other = dice.choices(range(len(lines)), k=2)
    lines[one], lines[other] = lines[other], lines[one]
    return b"".join(lines)


def replace(dice, text, pattern, new):
    """Replaces one of the places where the text has the pattern."""
    found = list(pattern.finditer(text))
    if not found:
        return text
    place = dice.choice(found)
    return text[: place.start()] + new + text[place.end() :]


def change_number(dice, text, _):
    return replace(dice, text, LIMITS, dice.choice(NUMBERS))


def change_word(dice, text, texts):
    words = WORDS.findall(dice.choice(texts)) or [b"x"]
    return replace(dice, text, WORDS, dice.choice(words))


def insert(dice, text, new):
    place = dice.randrange(len(text) + 1)
    return text[:place] + new + text[place:]


def insert_bracket(dice, text, _):
    return insert(dice, text, bytes([dice.choice(BRACKETS)]))


def insert_bytes(dice, text, _):
    return insert(dice, text, dice.randbytes(dice.choice([1, 2, 20])))


def insert_no_text(dice, text, _):
    return insert(dice, text, dice.choice(NO_TEXTS))


def drop_byte(dice, text, _):
    place = dice.randrange(len(text))
    return text[:place] + text[place + 1 :]


def truncate(dice, text, _):
    return text[: dice.randrange(len(text))]


def splice(dice, text, texts):
    other = dice.choice(texts)
    return text[: dice.randrange(len(text) + 1)] + other[dice.randrange(len(other) + 1) :]


def nest(dice, text, _):
    opening, closing = dice.choice(NESTS)
    deep = dice.choice([2, 79, 80, 81, 1_000, 100_000])
    value = opening * deep + closing * dice.choice([1, deep, deep - 1])
    return dice.choice([b"x=" + value + b"\n" + text, value + text, text + value])


def fill(dice, text):
    """Makes the text about as long as it may be."""
    size = max(0, LONGEST + dice.choice([-1, 0, 1]) - len(text) - 2)
    return b"#" + dice.choice([b"#", b" ", b"\xff"]) * size + b"\n" + text


# The likeliest keep a text TOML.
MUTATIONS = [
    *[change_number, change_word] * 4,
    *[drop_line, double_line, swap_lines] * 2,
    *[insert_bracket, insert_bytes, insert_no_text, drop_byte, truncate, splice, nest],
]


def any_text(dice, texts):
    """One of the texts, spoiled a few times."""
    text = dice.choice(texts)
    for _ in range(dice.choice([1, 1, 1, 2, 3, 8])):
        if text:
            text = dice.choice(MUTATIONS)(dice, text, texts)
    return fill(dice, text) if dice.random() < 0.01 else text


def with_own_ports(dice, text):
    """The text of a group with ports that the tests don't use."""
    first = dice.randrange(20_000, 30_000)
    ports = {port: b"port = %d" % (first + place) for place, port in enumerate(sorted(set(PORT.findall(text))))}
    return PORT.sub(lambda found: ports[found[0]], text)


def is_long(text):
    """Whether a group may run for more than a few seconds."""
    return any(len(ticks) > 2 for ticks in re.findall(rb"ticks\W*(\w+)", text))


class Text:
    """A spoiled scenario, and what is to be done with it: `sim`, `dot` or `run`."""

    def __init__(self, dice, task, texts):
        self.task, self.text = task, any_text(dice, texts)
        if task == "run":
            self.text = with_own_ports(dice, self.text)

    def file(self):
        return self.text

    def play(self, program):
        return play([program, *(["sim", "--dot"] if self.task == "dot" else [self.task])], self.text)

    def complaint(self, program, answer):
        """What is wrong with an answer, or nothing. Played again it is the same, but not where nodes ran: these have a clock."""
        why = complaint(self.task, answer)
        if not why and self.task == "run" and answer.is_unmerged():
            why = f"nobody wrote to the nodes, and {answer.lines[-1]}"
        toml = is_toml(self.text)
        if not why and toml is not None and toml != ("not TOML" not in answer.err):
            why = f"Python says that this is {'' if toml else 'no '}TOML"
        is_fixed = self.task != "run" or answer.status == 2
        if not why and is_fixed and not self.play(program).same(answer):
            why = "another answer when it was played again"
        return why
