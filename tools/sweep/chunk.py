"""Does one chunk: each of its seeds, and then its result, in one file."""
import os
import resource
import socket
import tempfile
import time

from . import kinds, plan as plans, sums, whole
from .sums import Unfinished

DONE, WRITE_FAULT, UNFINISHED = 0, 4, 5
# of what differs in one way, so many scripts of a chunk are kept; the seed makes the others again
KEPT = 3


def processor_seconds():
    """What this process and those that it started have taken."""
    used = [resource.getrusage(who) for who in (resource.RUSAGE_SELF, resource.RUSAGE_CHILDREN)]
    return sum(it.ru_utime + it.ru_stime for it in used)


class Chunk:
    """What is added up of a chunk, seed by seed."""

    def __init__(self, plan):
        self.plan, self.sums, self.differences, self.kept = plan, {}, [], {}

    def add(self, seed, run):
        sums.add(self.sums, run.sums)
        for what, files in run.differences:
            kept = self.kept[what] = self.kept.get(what, 0) + 1
            names = [f"{run.board}-{seed}.{ending}" for ending in sorted(files)] if kept <= KEPT else []
            for name, ending in zip(names, sorted(files)):
                whole.write(f"{self.plan.folder}/failed/{name}", files[ending])
            self.differences.append({"seed": seed, "board": run.board, "what": what, "kept": names})


def done(plan, number):
    """The result of a chunk, where what made it is still what the sweep began with."""
    begun, used, before = time.time(), processor_seconds(), plans.identities(plan)
    found, seeds = Chunk(plan), plan.seeds_of(number)
    with tempfile.TemporaryDirectory(prefix="psci-sweep-") as room:
        kind = kinds.of(plan)
        for seed in seeds:
            for run in kind.runs(seed, room):
                found.add(seed, run)
    plans.look_at_files(plan, before)
    cost = {"processor": round(processor_seconds() - used, 3), "seconds": round(time.time() - begun, 3),
            "machine": socket.gethostname()}
    return {"plan": plan.stamp, "first": seeds[0], "last": seeds[-1], "seeds": len(seeds), "sums": found.sums,
            "differences": found.differences, "cost": cost}


def say(number, why):
    """Says it in the log, which may be on a disk that is full."""
    try:
        os.write(2, f"chunk {number}: {why}\n".encode(errors="replace"))
    except OSError:
        pass


def main(folder, number):
    """Does a chunk whose result is not there yet; the status says whether it is then."""
    plan = None
    try:
        plan = plans.read(os.path.abspath(folder))
        if number not in plan.chunks:
            raise whole.Broken(f"{folder}: it has no chunk {number}")
        if plans.result(plan, number) is None:
            whole.write_summed(plan.path_of(number), done(plan, number))
        plans.hinder(plan, number, None)
        return DONE
    except (OSError, whole.Broken, Unfinished, kinds.Wrong) as why:
        say(number, why)
        if plan:
            plans.hinder(plan, number, why)
        return WRITE_FAULT if isinstance(why, (OSError, whole.Broken)) else UNFINISHED
