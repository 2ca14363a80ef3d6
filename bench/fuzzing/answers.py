"""What the program may answer to a scenario, by docs/scenarios.md."""
import math
import re
import subprocess

try:
    import tomllib
except ImportError:
    tomllib = None

# In seconds: a group runs for two.
PATIENCE = 30
# The program's reader of TOML goes no deeper.
DEEPEST = 80
WHERE = r"top|limits|event \d+|node \d+"
# What stands on standard error, by the status. Status 0 may come with a line that says what the scenario lacks for the command.
FITTING = r"no \[\[event\]\] to play; `plumtree run` runs its nodes|no \[\[node\]\] to run; `plumtree sim` plays its events"
FAULTS = {
    0: rf"(plumtree: scenario: ({FITTING}|neither an \[\[event\]\] nor a \[\[node\]\])\n)?",
    1: r"plumtree: (event \d+: (W[124567]|W3 highest \d+|S[12]|no end after 10000 arrivals)|node [a-z0-9-]{1,32}: (cannot listen: (the port is in use|node [a-z0-9-]{1,32} has the port)|H2))\n",
    2: rf"plumtree: (scenario too long|scenario is not TOML|scenario: ({WHERE}): \w+)\n",
}
NODE = r"[a-z0-9-]{1,32}/\d+"
# The lines of standard output, each with a letter, and in which order the letters come. A group without nodes prints nothing.
LINES = {
    "d": rf"deliver {NODE} {NODE}/\d+ \d+ (-|[0-9a-f]+)",
    "o": r"merge ok",
    "m": rf"merge M[12] {NODE} \d+",
    "t": rf"tree {NODE}/\d+ rest (yes|no)",
    "b": rf"  {NODE} <- ({NODE}|-)",
}
ORDERS = {"sim": r"d*(tb*)*", "run": r"(d*(o(tb*)*|m))?"}


class Answer:
    """The status of a call of the program, if it ended, and what it wrote."""

    def __init__(self, status, out, err):
        self.status, self.err = status, err.decode(errors="replace")
        self.lines = out.decode(errors="replace").splitlines()

    def same(self, other):
        return (self.status, self.err, self.lines) == (other.status, other.err, other.lines)

    def is_unmerged(self):
        return bool(self.lines) and letter_of(self.lines[-1]) == "m"

    def label(self):
        """What is counted of it: what it ends with, without numbers."""
        if self.err:
            return re.sub(r" highest \d+| after \d+ arrivals", "", self.err.splitlines()[-1].split(": ")[-1])
        if self.is_unmerged():
            return self.lines[-1].split()[1]
        return "all was played" if self.status == 0 else f"status {self.status}"


def play(words, text):
    """The answer of the program to a text on its standard input."""
    with subprocess.Popen(words, stdin=subprocess.PIPE, stdout=subprocess.PIPE, stderr=subprocess.PIPE) as process:
        try:
            out, err = process.communicate(text, timeout=PATIENCE)
            return Answer(process.returncode, out, err)
        except subprocess.TimeoutExpired:
            process.kill()
            return Answer(None, b"", b"")


def depth(value):
    """How deep a value of TOML is nested; as deep as none may be where it has a number that no reader needs to take."""
    if isinstance(value, (int, float)):
        return 1 if -(2**63) <= value < 2**63 or isinstance(value, float) and not math.isinf(value) else DEEPEST
    parts = value.values() if isinstance(value, dict) else value if isinstance(value, list) else []
    return 1 + max(map(depth, parts), default=0)


def is_toml(text):
    """Whether Python reads a text as TOML, or nothing where that tells nothing: it reads TOML 1.0 to any depth, the program 1.1."""
    if tomllib is None or len(text) > 20_000:
        return None
    try:
        return True if depth(tomllib.loads(text.decode("utf-8-sig"))) < DEEPEST else None
    except RecursionError:
        return None
    except ValueError:
        # What 1.1 adds is in inline tables, escapes and times.
        return None if re.search(rb"[{\\:]", text) else False


def letter_of(line):
    return next((letter for letter, form in LINES.items() if re.fullmatch(form, line)), "?")


def complaint_of_lines(task, lines):
    """What is wrong with lines of deliveries and trees, or nothing."""
    if not re.fullmatch(ORDERS[task], "".join(letter_of(line) for line in lines)):
        return "a line of another form, or at another place"
    delivered = [line.split() for line in lines if line.startswith("deliver")]
    if len(delivered) != len({(node, message) for _, node, message, *_ in delivered}):
        return "a message was delivered twice"
    if any(int(size) * 2 != len(digits.strip("-")) for *_, size, digits in delivered):
        return "a payload of another length"
    return None


def complaint(task, answer):
    """What is wrong with an answer, or nothing."""
    if answer.status is None:
        return f"no end in {PATIENCE} seconds"
    if answer.status not in FAULTS:
        return f"status {answer.status} with standard error {answer.err[:500]!r}"
    is_quiet = task == "run" and answer.status == 1 and answer.is_unmerged()
    if not re.fullmatch(FAULTS[0 if is_quiet else answer.status], answer.err):
        return f"status {answer.status} with standard error {answer.err[:500]!r}"
    if answer.status == 2 or task == "run" and answer.err:
        return "output beside a refusal" if answer.lines else None
    return complaint_of_lines(task, answer.lines) if task in ORDERS else None
