"""The crates of crates.txt, and how many of them to prove at once, for the scripts of this repository."""
import os
import re

TOP = os.path.dirname(os.path.dirname(os.path.realpath(__file__)))


def listed():
    """Returns the lines of crates.txt: the words before the colon, a crate's name and `staticlib` if that is what is made of it, and
    those behind it."""
    with open(f"{TOP}/crates.txt", encoding="utf-8") as lines:
        parts = [line.partition("#")[0].partition(":") for line in lines]
    return [(before.split(), behind.split()) for before, colon, behind in parts if colon]


def libraries():
    """Returns the crates, in the order of crates.txt, each with the libraries that it stands on itself, the toolchain's too."""
    return {name: below for (name, *_), below in listed()}


def static_libraries():
    """Returns the crates of which a static library is made."""
    return {name for (name, *kind), _ in listed() if kind == ["staticlib"]}


def own():
    """Returns the crates, in that order, each with those of them that it stands on itself."""
    found = libraries()
    return {name: {it for it in below if it in found} for name, below in found.items()}


def with_all_below(crates, names):
    """Returns these crates and all that they stand on, each with what it has in `crates`, and in that order."""
    found, rest = set(), [*names]
    while rest:
        name = rest.pop()
        if name not in found:
            found.add(name)
            rest += crates[name]
    return {name: below for name, below in crates.items() if name in found}


def lanes(memory):
    """Returns how many crates to prove at once, where a proof may take so many KiB: one a processor, as far as there is memory."""
    with open("/proc/meminfo", encoding="utf-8") as lines:
        free = int(re.search(r"MemAvailable:\s+(\d+)", lines.read())[1])
    return max(1, min(len(os.sched_getaffinity(0)), free // memory))
