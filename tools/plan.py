"""When each crate would be proved on so many processors, by the minutes of docs/GATE.md."""
from tools.proofs import Queue, recorded


def plan(crates, most):
    """Returns rows of a crate and the minutes at which it begins and ends, and how many minutes all of them take."""
    queue, minutes, ends, rows, now = Queue(crates, most), recorded(crates), {}, [], 0.0
    while not queue.is_done():
        for name in queue.begin():
            ends[name] = now + minutes[name]
            rows.append((name, now, ends[name]))
        first = min(ends, key=ends.get)
        now = ends.pop(first)
        queue.end(first, True)
    return rows, now
