"""Proves and builds the program of this checkout, as out/plumtree, and the library for other languages. tools/program calls it, and
./release.

What it stands on is proved side by side, and kept by `rt`. Then the program is made of that. Standard error shows how far it is.
"""
import fcntl
import os
import shutil
import signal
import subprocess
import sys
import tempfile
import time

sys.dont_write_bytecode = True
sys.path.insert(0, os.path.dirname(os.path.dirname(os.path.realpath(__file__))))
from tools import proofs
from tools.crates import TOP, lanes, own, with_all_below
from tools.plan import plan
from tools.toolchain import Toolchain

PROGRAM = "plumtree"
LIBRARY = "plumtree_c"
OUT = f"{TOP}/out"


def sources():
    """Returns the sum over what the program and the library are made of, as a line."""
    return subprocess.run([f"{TOP}/tools/sources"], stdout=subprocess.PIPE, text=True, check=True).stdout


class Progress(proofs.Teller):
    """The line on standard error that says how far the proofs are. A terminal has one, which is written over; a file one each 20 seconds.
    What comes of a proof stands above it."""

    def __init__(self, crates, most):
        self.count, self.expected = len(crates), plan(crates, most)[1]
        self.began, self.next = time.monotonic(), 0
        self.is_terminal = sys.stderr.isatty()

    def watch(self, passed, running):
        now = int(time.monotonic() - self.began)
        if now < self.next:
            return
        self.next = now + (1 if self.is_terminal else 20)
        at = ", ".join(it.name for it in running)
        text = f"plumtree: {now // 60}:{now % 60:02} of at most some {self.expected:.0f} minutes, {len(passed)} of {self.count} crates proved; at {at}"
        sys.stderr.write(f"\r\033[K{text[:150]}" if self.is_terminal else f"{text}\n")
        sys.stderr.flush()

    def tell(self, text):
        self.clear()
        sys.stderr.write(f"{text}\n")

    def clear(self):
        if self.is_terminal:
            sys.stderr.write("\r\033[K")


def prove(crates, room):
    """Proves the crates side by side where `rt` keeps what passes. Where it does not, the build proves them one after the other."""
    most = lanes(proofs.MEMORY)
    if not proofs.keeps(next(it for it in crates if not crates[it]), room):
        print("plumtree: the toolchain keeps nothing here, so all is proved by one run, which says nothing before it ends")
        return
    progress = Progress(crates, most)
    failed, _ = proofs.prove(crates, room, most, progress)
    progress.clear()
    if failed:
        sys.exit("plumtree: so the program was not built")


def proved_again(crates, room):
    """Makes a repository of these crates alone, and has the toolchain's gate pass over it, which finds what was proved."""
    with open(f"{TOP}/crates.txt", encoding="utf-8") as lines:
        listed = [it for it in lines if (it.partition(":")[0].split() or [""])[0] in crates]
    os.makedirs(f"{room}/.git")
    for name in crates:
        shutil.copytree(f"{TOP}/crates/{name}", f"{room}/crates/{name}", ignore=shutil.ignore_patterns("out"))
    shutil.copy(f"{TOP}/HANDLES", room)
    with open(f"{room}/crates.txt", "w", encoding="utf-8") as it:
        it.writelines(listed)
    ran = subprocess.run(["rt", "ci"], cwd=room, stdin=subprocess.DEVNULL, stdout=subprocess.PIPE, stderr=subprocess.STDOUT, text=True, errors="replace")
    if ran.returncode:
        sys.exit(f"{ran.stdout}plumtree: so nothing was built")


def make(crates, room):
    """Makes the program of what was proved, and returns its path."""
    proved_again(crates, room)
    return f"{room}/crates/{PROGRAM}/out/{PROGRAM}"


def call(words, where):
    """Calls the prover in a crate's folder, and ends with what it says if it refuses."""
    ran = subprocess.run(words, cwd=where, stdin=subprocess.DEVNULL, stdout=subprocess.PIPE, stderr=subprocess.STDOUT, text=True, errors="replace")
    if ran.returncode:
        sys.exit(f"{ran.stdout}plumtree: so the library was not built")


def archives_in(top, target, backends=("llvm",)):
    """Proves the static library for a target in a repository over which the toolchain's gate has passed, makes it by each of these
    compilers of the toolchain, and returns the paths of the archives."""
    toolchain, where, out = Toolchain(), f"{top}/crates/{LIBRARY}", f"out/{target}"
    shutil.rmtree(f"{where}/{out}", ignore_errors=True)
    os.makedirs(f"{where}/{out}")
    proved = f"{out}/proved"
    call([*toolchain.words(LIBRARY, "check", top, jobs=lanes(proofs.MEMORY)), "--target", target, "-o", proved], where)
    for backend in backends:
        os.makedirs(f"{where}/{out}/{backend}")
        words = [*toolchain.words(LIBRARY, "build", top, proved), "--target", target, "--backend", backend]
        call([*words, "--toolchain", f"{toolchain.kit}/toolchain", "-o", f"{out}/{backend}/lib{LIBRARY}.a"], where)
    return [f"{where}/{out}/{backend}/lib{LIBRARY}.a" for backend in backends]


def build_libraries(paths):
    """Proves and builds the static library for each target, and copies it to the target's path."""
    crates = with_all_below(own(), [LIBRARY])
    with tempfile.TemporaryDirectory(prefix="plumtree-") as room:
        os.makedirs(f"{room}/logs")
        prove(crates, f"{room}/logs")
        proved_again(crates, f"{room}/repository")
        for target, to in paths.items():
            shutil.copy(archives_in(f"{room}/repository", target)[0], to)


def build():
    """Builds out/plumtree, once no other call does, and notes the sources that it was made of."""
    os.makedirs(OUT, exist_ok=True)
    with open(f"{OUT}/building", "w", encoding="utf-8") as lock, tempfile.TemporaryDirectory(prefix="plumtree-") as room:
        fcntl.flock(lock, fcntl.LOCK_EX)
        made_of, crates = sources(), with_all_below(own(), [PROGRAM])
        os.makedirs(f"{room}/logs")
        prove(crates, f"{room}/logs")
        made = make(crates, f"{room}/repository")
        shutil.copy(made, f"{OUT}/{PROGRAM}.new")
        os.replace(f"{OUT}/{PROGRAM}.new", f"{OUT}/{PROGRAM}")
        with open(f"{OUT}/SOURCES", "w", encoding="utf-8") as it:
            it.write(made_of)


def main():
    print("plumtree: proving and building the program, and what it stands on first", file=sys.stderr)
    signal.signal(signal.SIGTERM, lambda *_: sys.exit(143))
    try:
        build()
    except KeyboardInterrupt:
        sys.exit("\nplumtree: stopped")
    except OSError as error:
        sys.exit(f"plumtree: the program cannot be built: {error}")


if __name__ == "__main__":
    main()
