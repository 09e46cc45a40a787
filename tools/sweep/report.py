"""The report of a sweep, or of several of one kind: a sum over the seeds that are done. Nothing of it hangs on
chunks, engines, machines or time."""
import os
from collections import namedtuple

import sentence

from . import kinds, plan as plans, sums
from .sums import LINES


# a chunk, how many of its seeds differ, what it took, and when it ended: nothing of that where it is not finished
Piece = namedtuple("Piece", "plan first last differs cost ended")


class Together:
    """What is done of some plans that make the same of each seed, and have no seed in common."""

    def __init__(self, every):
        self.plans, self.sums, self.differences = every, {}, []
        self.cost, self.done, self.left, self.unfinished, self.chunks = {}, [], [], 0, []
        for plan in every:
            for number in plan.chunks:
                self.take(plan, number)
        # seeds that follow each other are one range, whoever did them
        self.done, self.left = joined(self.done), joined(self.left)

    def take(self, plan, number):
        found, seeds = plans.result(plan, number), plan.seeds_of(number)
        if found is None:
            self.left.append((seeds[0], seeds[-1]))
            self.unfinished += 1
            self.chunks.append(Piece(plan, seeds[0], seeds[-1], 0, None, None))
            return
        self.done.append((seeds[0], seeds[-1]))
        sums.add(self.sums, found["sums"])
        self.differences += [{**it, "folder": plan.folder} for it in found["differences"]]
        self.chunks.append(Piece(plan, seeds[0], seeds[-1], len(found["differences"]), found["cost"],
                                 os.stat(plan.path_of(number)).st_mtime))
        cost = self.cost.setdefault(found["cost"]["machine"], [0, 0.0, 0.0])
        cost[0] += 1
        cost[1] += found["cost"]["processor"]
        cost[2] += found["cost"]["seconds"]

    @property
    def seeds(self):
        return sum(last + 1 - first for first, last in self.done)

    @property
    def by(self):
        """What answered, where that is our program: a proved one, if each of these sweeps had that."""
        every = {plan.text.get("by") for plan in self.plans}
        return every.pop() if len(every) == 1 else sentence.UNPROVED

    def count(self, name):
        """The sum of the numbers of this name over all boards."""
        return sum(number for key, number in self.sums.items() if key.partition("\t")[2] == name)


def joined(ranges):
    """These ranges in order, where those that follow each other are one."""
    made = []
    for first, last in sorted(ranges):
        if made and made[-1][1] + 1 == first:
            made[-1] = (made[-1][0], last)
        else:
            made.append((first, last))
    return made


def misfit(every):
    """Why these plans have no report together; nothing if they have one."""
    one = every[0]
    for plan in every[1:]:
        if not plan.is_like(one):
            return f"{plan.folder} differs from {one.folder} in kind, settings or program"
    ordered = sorted(every, key=lambda it: it.first)
    for plan, other in zip(ordered, ordered[1:]):
        if other.first <= plan.last:
            return f"{plan.folder} and {other.folder} both have seed {other.first}"
    return None


def ranges(them):
    return ", ".join(f"{first}..{last}" if first != last else str(first) for first, last in them)


def first_line(found):
    """How many seeds are done and differ, and by which program; where seeds are done, something happened in them."""
    kind, by = kinds.every()[found.plans[0].kind], " by {by}" if found.by else ""
    whole = sum(it.seeds for it in found.plans)
    several = len({it["seed"] for it in found.differences})
    if not found.seeds:
        return f"sweep of {kind.NAME}: none of {whole} seeds is done"
    number, what = kind.LOOKED_AT
    return sentence.told(f"sweep of {kind.NAME}{by}: {found.seeds} of {whole} seeds are done, {several} of them differ",
                         found.count(number) + several, what, by=found.by)


def of_sums(found):
    """What the report says of the sums."""
    plan = found.plans[0]
    if LINES in found.sums:
        yield f"all that was printed comes to {found.sums[LINES] % 2 ** 64:016x}"
    yield from kinds.every()[plan.kind].lines(plan.settings, found.sums)


def lines(found):
    """The report, line by line."""
    yield first_line(found)
    yield f"seeds: {ranges(found.done)}"
    if found.left:
        yield f"left: {ranges(found.left)}"
    yield from of_sums(found)
    for what, runs in sums.by_seed(found.differences):
        yield f"differs: {len(runs)} x {what}"
        yield f"  the first: seed {runs[0]['seed']}, {runs[0]['board']}: failed/ has {', '.join(runs[0]['kept'])}"
        yield f"  seeds: {ranges(joined(sorted({(it['seed'], it['seed']) for it in runs})))}"


def costs(found):
    """What it took: by each machine, which no report says."""
    for machine, (chunks, processor, seconds) in sorted(found.cost.items()):
        yield (f"{machine}: {chunks} chunks, {processor:.1f} processor seconds, {seconds:.1f} seconds of workers, "
               f"{processor / max(seconds, 0.001):.2f} of a processor each")
