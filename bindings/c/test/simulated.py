#!/usr/bin/env python3
"""Compares random groups over the library with the same groups in the simulator.

usage: bindings/c/test/simulated.py GROUP PLUMTREE SEED GROUPS EVENTS
       GROUP is the program of group.c and PLUMTREE the simulator; GROUPS groups are played, from this seed on, each of EVENTS events

Each group must send the same frames in the same order, deliver the same, and end with the same views, links, timers and counts. The frames
are read by bench/fuzzing/frames.py, which shares nothing with the library.
"""
import os
import re
import subprocess
import sys
import tempfile

TOP = os.path.realpath(f"{os.path.dirname(os.path.realpath(__file__))}/../../..")
sys.path.insert(0, f"{TOP}/bench")
sys.dont_write_bytecode = True
from fuzzing.frames import decode

# How the trace of the simulator prints what a frame says, by its kind and how many fields it has.
FORMS = {
    ("FORWARDJOIN", 2): "{} ttl {}",
    ("GOSSIP", 3): "{} round {} length {}",
    ("GRAFT", 2): "{} round {}",
}


class Different(Exception):
    """What the library and the simulator do not agree on."""


def said(kind, fields):
    """What a frame says, as a trace has it."""
    if kind == "NEIGHBOR":
        return f"NEIGHBOR {'high' if fields == ['true'] else 'low'}"
    if kind == "NEIGHBORREPLY":
        return f"NEIGHBORREPLY {'accepted' if fields == ['true'] else 'refused'}"
    if kind == "SHUFFLE":
        return f"SHUFFLE of {fields[0]} ttl {fields[1]} names {' '.join(fields[2:]) or '-'}"
    if kind == "SHUFFLEREPLY":
        return f"SHUFFLEREPLY names {' '.join(fields) or '-'}"
    if kind == "IHAVE":
        return "IHAVE " + " ".join(f"{id}@{round}" for id, round in zip(fields[::2], fields[1::2]))
    if (kind, fields) == ("GRAFT", []):
        return "GRAFT_PEER"
    return " ".join([kind, FORMS[kind, len(fields)].format(*fields)] if fields else [kind])


def packet_line(line):
    """A packet of the library, as a trace has it."""
    _, number, run, arrow, to, text = line.split()
    frame, length = decode(bytes.fromhex(text))
    _, sender, count, kind, *fields = frame.split()
    if sender != run or 2 * length != len(text):
        raise Different(f"packet {number} of {run} is {frame}")
    return f"packet {number} {run} {arrow} {to} #{count} {said(kind, fields)}"


def node_line(line):
    """A node of a trace, as the library's program prints it."""
    head, *parts = line.split(" | ")
    names = {part.partition(":")[0]: part.partition(":")[2].split() for part in parts}
    shown = [f" | {part}: {' '.join(names[part])}" for part in ("active", "passive", "eager", "lazy") if names[part] != ["-"]]
    counts = [f" | {part} {len([it for it in names[part] if it != '-'])}" for part in ("queue", "wants")]
    timers = " ".join(["timers:", *(it for it in names["timers"] if it != "-")])
    return f"{head}{''.join(shown)}{''.join(counts)} | {timers}"


def ran(*words):
    done = subprocess.run(words, capture_output=True, text=True, timeout=600)
    if done.returncode != 0:
        raise Different(f"{' '.join(words)}: status {done.returncode}: {done.stderr[-2000:]}")
    return done


def same(what, ours, theirs):
    """Raises where two lists differ, with the first place."""
    for place, (one, other) in enumerate(zip(ours, theirs)):
        if one != other:
            raise Different(f"{what} {place}: the library has {one!r}, the simulator {other!r}")
    if len(ours) != len(theirs):
        raise Different(f"{what}: the library has {len(ours)}, the simulator {len(theirs)}")


def lines_of(text, word):
    return [line for line in text.splitlines() if line.startswith(word)]


def compare(group, plumtree, seed, events, room):
    """Plays one group in both, and returns how many calls it made, and how many packets it sent."""
    scenario = f"{room}/{seed}.toml"
    played = ran(group, str(seed), str(events), scenario)
    simulated, traced = ran(plumtree, "sim", scenario), ran(plumtree, "sim", "--trace", scenario)
    packets = [packet_line(line) for line in lines_of(played.stdout, "packet ")]
    same("deliveries", sorted(lines_of(played.stdout, "deliver ")), sorted(lines_of(simulated.stdout, "deliver ")))
    same("packets", packets, [line.strip() for line in lines_of(traced.stdout, "  packet ")])
    running = [line for line in lines_of(traced.stdout, "node ") if not line.endswith(" stopped")]
    same("nodes", sorted(lines_of(played.stdout, "node ")), sorted(map(node_line, running)))
    return int(re.search(r"(\d+) calls", played.stderr)[1]), len(packets)


def compare_all(group, plumtree, first, groups, events):
    """Plays groups from a seed on, and returns how many calls they made, and how many packets they sent."""
    calls = packets = 0
    with tempfile.TemporaryDirectory(prefix="simulated-") as room:
        for seed in range(first, first + groups):
            try:
                made, sent = compare(group, plumtree, seed, events, room)
            except Different as fault:
                raise Different(f"group {seed} {events}: {fault}") from None
            calls, packets = calls + made, packets + sent
    return calls, packets


def main():
    if len(sys.argv) != 6 or not all(word.isdigit() for word in sys.argv[3:]):
        sys.exit(__doc__)
    group, plumtree, *numbers = sys.argv[1:]
    try:
        calls, packets = compare_all(group, plumtree, *map(int, numbers))
    except Different as fault:
        sys.exit(f"simulated: {fault}")
    print(f"simulated: {numbers[1]} groups are the same: {calls} calls, {packets} packets")


if __name__ == "__main__":
    main()
