"""Numbers by name that add up, and runs that differ. Each is of single seeds, so that their sum hangs on
the seeds alone, and not on how they were cut."""
import hashlib

# the sum of all lines that runs printed, to hold two sweeps to each other by one number
LINES = "lines"


def add(sums, more):
    """Adds numbers to those of the same names; a name with 0 stays, too."""
    for name, number in more.items():
        sums[name] = sums.get(name, 0) + number


def of_line(seed, board, text):
    """The number of what a run printed."""
    return int.from_bytes(hashlib.sha256(f"{seed}\0{board}\0".encode() + text).digest()[:8], "big")


class Unfinished(Exception):
    """A chunk cannot be finished here and now, for no fault of its seeds: no memory, a full disk, a signal.
    The text says why."""


def by_seed(differences):
    """What differs, each with its runs in the order of seeds, and of a seed in the order of its boards, in which
    files were kept."""
    found = {}
    for it in sorted(differences, key=lambda it: it["seed"]):
        found.setdefault(it["what"], []).append(it)
    return sorted(found.items())
