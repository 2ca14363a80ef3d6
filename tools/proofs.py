"""Proves crates side by side with `rt`, which keeps what passes, for the scripts of this repository."""
import os
import re
import subprocess
import sys
import time

from tools.crates import TOP

# What one crate's proof may take, in KiB.
MEMORY = 5 << 20
# What a crate is taken for that docs/GATE.md does not list, in processor minutes.
UNKNOWN = 5.0
# A row of the table of docs/GATE.md: a crate and its processor minutes.
ROW = re.compile(r"^\| `(\w+)` \| (\d+\.\d) \|", re.MULTILINE)


def recorded(crates):
    """Returns the processor minutes that docs/GATE.md records of each of these crates."""
    with open(f"{TOP}/docs/GATE.md", encoding="utf-8") as page:
        found = {name: float(minutes) for name, minutes in ROW.findall(page.read())}
    return {name: found.get(name, UNKNOWN) for name in crates}


def chains(crates):
    """Returns how many processor minutes each crate's longest chain of crates that wait for one another takes, itself counted."""
    minutes, known = recorded(crates), {}
    above = {name: [it for it in crates if name in crates[it]] for name in crates}

    def chain(name):
        if name not in known:
            known[name] = minutes[name] + max((chain(it) for it in above[name]), default=0)
        return known[name]

    return {name: chain(name) for name in crates}


class Queue:
    """Which crates to prove next: of those whose libraries have passed, the ones that begin the longest chains."""

    def __init__(self, crates, most):
        self.crates, self.most, self.chains = crates, most, chains(crates)
        self.running, self.passed = set(), set()

    def ready(self):
        """Returns the crates that can be begun, the most urgent first."""
        waiting = [it for it in self.crates if it not in self.passed and it not in self.running]
        return sorted((it for it in waiting if self.crates[it] <= self.passed), key=lambda it: -self.chains[it])

    def begin(self):
        """Returns the crates to begin now."""
        found = self.ready()[: max(0, self.most - len(self.running))]
        self.running |= {*found}
        return found

    def end(self, name, is_passed):
        self.running.discard(name)
        if is_passed:
            self.passed.add(name)

    def is_done(self):
        return len(self.passed) == len(self.crates)


class Proof:
    """A run of `rt ci` for one crate on one processor, which finds what it stands on kept. Processors that share a proof read the
    libraries each for itself, which costs up to half as much again."""

    def __init__(self, name, room):
        self.name, self.log, self.began = name, f"{room}/{name}", time.monotonic()
        # (`rt` takes no crates' names where CI is set, since only a run over all is the gate)
        environment = {key: text for key, text in os.environ.items() if key != "CI"}
        environment["RT_JOBS"] = "1"
        with open(self.log, "w", encoding="utf-8") as log:
            self.process = subprocess.Popen(["rt", "ci", name], cwd=TOP, env=environment, stdin=subprocess.DEVNULL, stdout=log, stderr=log)
        self.seconds, self.took = 0.0, 0.0

    def has_ended(self):
        """Returns whether it has ended, and notes then how long it took, and how much of the processors."""
        pid, status, usage = os.wait4(self.process.pid, os.WNOHANG)
        if pid == 0:
            return False
        self.process.returncode = os.waitstatus_to_exitcode(status)
        self.seconds, self.took = usage.ru_utime + usage.ru_stime, time.monotonic() - self.began
        return True

    def text(self):
        with open(self.log, encoding="utf-8", errors="replace") as log:
            return log.read()

    def passed(self):
        return self.process.returncode == 0

    def was_killed(self):
        """Returns whether the system ended a check of it, most likely for memory."""
        return not self.passed() and "the check was killed" in self.text()

    def is_refused(self):
        """Returns whether the prover refused it, and nothing else went wrong."""
        return self.process.returncode == 1 and "NOT PROVED" in self.text() and not self.was_killed()

    def is_unknown(self):
        """Returns whether this `rt` proves all crates alone: it takes no names, and printed its usage."""
        return self.process.returncode == 2 and self.text().startswith("usage: ")

    def was_kept(self):
        return f"rt: {self.name} is kept" in self.text()

    def stop(self):
        self.process.terminate()
        self.process.wait()


def told(proof):
    """Returns what there is to say of a proof that has ended."""
    if not proof.passed():
        return f"{proof.text()}prove: {proof.name} {'was refused' if proof.is_refused() else 'was not proved, and not refused either'}"
    return f"{proof.name}: kept" if proof.was_kept() else f"{proof.name}: {proof.seconds / 60:.1f} processor minutes, {proof.took / 60:.1f} minutes"


def keeps(name, room):
    """Returns whether `rt` keeps what passes, by two runs of a crate that stands on none. One that does not pass ends the script. An `rt`
    that takes no names keeps nothing."""
    for _ in range(2):
        proof = Proof(name, room)
        while not proof.has_ended():
            time.sleep(0.2)
        if proof.was_kept():
            return True
        if proof.is_unknown():
            return False
        print(told(proof), flush=True)
        if not proof.passed():
            sys.exit(1 if proof.is_refused() else 2)
    return False


class Teller:
    """Prints what comes of proofs, each as it ends."""

    def tell(self, text):
        print(text, flush=True)

    def watch(self, passed, running):
        """Is told now and then which crates have passed, and which proofs are under way."""


def prove(crates, room, most, teller):
    """Proves crates, each once those that it stands on have passed and at most `most` at once. Returns the first that did not pass,
    if one did not, and the processors' seconds. One that the system ended for memory is proved once more, alone."""
    queue, running, seconds, failed = Queue(crates, most), {}, 0.0, None
    try:
        while running or not (queue.is_done() or failed):
            for name in [] if failed else queue.begin():
                running[name] = Proof(name, room)
            teller.watch(queue.passed, [*running.values()])
            time.sleep(0.5)
            for proof in [it for it in running.values() if it.has_ended()]:
                del running[proof.name]
                queue.end(proof.name, proof.passed())
                seconds += proof.seconds
                if proof.was_killed() and queue.most > 1:
                    teller.tell(f"{proof.name}: ended by the system, most likely for memory: from now on one at a time")
                    queue.most = 1
                    continue
                teller.tell(told(proof))
                failed = failed or (None if proof.passed() else proof)
    finally:
        for proof in running.values():
            proof.stop()
    return failed, seconds
