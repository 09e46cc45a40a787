"""Polls in a record: AFFINITY_INFO of a core, answered by one load, without the lock."""
from collections import namedtuple

NAMES = {0: "ON", 1: "OFF", 2: "ON_PENDING"}

# At this line core `by` was told of core `of` what was said. It had seen all up to its own last
# event, numbered `seen`. What it was told may be as new as event `end`, the next one of the firmware,
# which was perhaps on its way; None where there is none.
Poll = namedtuple("Poll", "line text by of said seen end")


class Polls:
    """The polls of a record, in order."""

    def __init__(self):
        self.all, self.ended = [], 0
        # of each core the number of its own last event
        self.own = {}

    def add(self, line, text, by, of, said):
        self.all.append(Poll(line, text, by, of, said, self.own.get(by, 0), None))

    def event(self, number, word, core):
        """The event of this number is a call or an entry of this core, or a take."""
        if word != "take":
            self.own[core] = number
        self.all[self.ended:] = [it._replace(end=number) for it in self.all[self.ended:]]
        self.ended = len(self.all)

    def told(self, many):
        """The polls of which it is known what they could see, with so many events looked at."""
        return [it for it in self.all if (it.end or it.seen) <= many]


def first_wrong(polls, statuses):
    """The first poll that told no status which the core had then, and why. The list has the statuses
    of the cores after so many events. No core is told an older one than it was told before."""
    last = {}
    for poll in polls:
        first = max(poll.seen, last.get((poll.by, poll.of), 0))
        behind = len(statuses) if poll.end is None else poll.end + 1
        had = [it[poll.of] for it in statuses[first:behind]]
        if poll.said not in had:
            names = " or ".join(sorted({NAMES[it] for it in had}))
            return poll, f"core {poll.of} was {names} after event {first} and since"
        last[poll.by, poll.of] = first + had.index(poll.said)
    return None, None
