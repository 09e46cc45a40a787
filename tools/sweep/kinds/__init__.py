"""The kinds of work, a file and a class each. A class has

    NAME                        what `./psci sweep` calls it
    LOOKED_AT                   the name of the number that says how much was looked at, and what one of it is called
    options(add)                adds its own words to the command line (as argparse's add_argument)
    settings(words)             its settings, of which JSON can be made; Wrong where a word is at fault
    gather(words, folder)       puts the files that chunks need into the folder of the sweep; their names
    __init__(settings, folder)  what is done once for a chunk
    runs(seed, room)            the runs of a seed: Run for each; Unfinished where no fault of the seed hinders
    lines(settings, sums)       what the report says of the sums
    ended(plan)                 where there is such: what is done once all chunks are finished; what to say of it

Numbers of a Run are summed by name, nothing else: so no report hangs on how seeds were cut. A file of a Run
that differs is kept under its board and seed.
"""
from collections import namedtuple

# what came of a seed on a board: numbers by name, and (what differs, the files to keep by their endings)
Run = namedtuple("Run", "board sums differences")


class Wrong(Exception):
    """A word of the command line is at fault; the text says why."""


def every():
    """The kinds by name."""
    from . import beside, fuzz, lists, storm, threads
    return {it.NAME: it for it in (storm.Storm, threads.Threads, lists.Lists, beside.Beside, fuzz.Fuzz)}


def of(plan):
    """The kind of a plan, ready to run its seeds."""
    return every()[plan.kind](plan.settings, plan.folder)
