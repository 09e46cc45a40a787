"""What a sweep is to do: its kind, its settings, its seeds, and how they are cut into chunks.

It stands in the folder of the sweep, beside all that a chunk needs (the program, say):

    plan.json        this plan, written last of what begins a sweep; the same words go on with it
    results/N.json   what came of chunk N: there once the chunk is finished, and whole
    failed/          the scripts or records of runs that differ
    logs/            what engines and chunks said; logs/why-N says why chunk N could not be finished
    sweep.html       a page of it, to look at
"""
import hashlib
import json
import os

from . import whole

FORM, WHY = 1, "why-"


class Plan:
    """A plan, in its folder."""

    def __init__(self, folder, text):
        self.folder, self.text = folder, text
        self.kind, self.settings = text["kind"], text["settings"]
        self.first, self.last, self.size = text["first"], text["last"], text["size"]

    @property
    def seeds(self):
        return self.last + 1 - self.first

    @property
    def chunks(self):
        return range(-(-self.seeds // self.size))

    def seeds_of(self, number):
        """The seeds of a chunk."""
        begin = self.first + number * self.size
        return range(begin, min(begin + self.size, self.last + 1))

    def path_of(self, number):
        """Where the result of a chunk stands: one name for it, whoever does it, and how often."""
        return f"{self.folder}/results/{number}.json"

    @property
    def stamp(self):
        """The sum of the plan, which each of its results names."""
        return hashlib.sha256(json.dumps(self.text, sort_keys=True).encode()).hexdigest()

    def is_like(self, other):
        """Whether both make the same of a seed: of the same kind, with the same settings and files."""
        return all(self.text[name] == other.text[name] for name in ("kind", "settings", "files"))


def sum_of(path):
    """The sum of a file, all of which is on the disk then."""
    with open(path, "rb") as file:
        os.fsync(file.fileno())
        return hashlib.sha256(file.read()).hexdigest()


def make(folder, kind, settings, files, seeds, size, by=None, words=None):
    """Writes a plan into its folder, with the sums of the files that its chunks need; what answers, where that is our
    program: a proved one or not, as it is now; and the words by which it was begun."""
    sums = {name: sum_of(f"{folder}/{name}") for name in files}
    plan = Plan(folder, {"form": FORM, "kind": kind, "settings": settings, "files": sums, "first": seeds[0],
                         "last": seeds[1], "size": size, "by": by, "words": words, "in": os.getcwd()})
    whole.write_summed(f"{folder}/plan.json", plan.text)
    return plan


def read(folder):
    """The plan in a folder."""
    text = whole.read_summed(f"{folder}/plan.json")
    if text.get("form") != FORM:
        raise whole.Broken(f"{folder}/plan.json has form {text.get('form')}; this program reads form {FORM}")
    return Plan(folder, text)


def look_at_files(plan, before=None):
    """Holds that chunks still have what the sweep began with, and that they had no other files meanwhile."""
    for name, wanted in plan.text["files"].items():
        if sum_of(f"{plan.folder}/{name}") != wanted:
            raise whole.Broken(f"{plan.folder}/{name} has changed since the sweep began")
    if before and identities(plan) != before:
        raise whole.Broken(f"{plan.folder}: a file of the sweep was exchanged while this chunk ran, and is back")


def identities(plan):
    """Which files chunks have: one that is exchanged, and is back, is another one, or has another time of change."""
    found = [os.stat(f"{plan.folder}/{name}") for name in plan.text["files"]]
    return [(it.st_dev, it.st_ino, it.st_ctime_ns) for it in found]


def is_there(folder):
    return os.path.exists(f"{folder}/plan.json")


def result(plan, number):
    """The result of a chunk, or nothing where it is not finished: not there, not whole, of another plan, or
    without some of its seeds."""
    try:
        found = whole.read_summed(plan.path_of(number))
    except (FileNotFoundError, whole.Broken, ValueError):
        return None
    seeds = plan.seeds_of(number)
    wanted = {"plan": plan.stamp, "first": seeds[0], "last": seeds[-1], "seeds": len(seeds)}
    return found if all(found.get(name) == value for name, value in wanted.items()) else None


def hindered(plan):
    """The chunks that could not be finished, and why: what a chunk said when it was tried last."""
    found = []
    for name in os.listdir(f"{plan.folder}/logs"):
        number = name.removeprefix(WHY)
        if name != number and number.isdigit():
            try:
                with open(f"{plan.folder}/logs/{name}", encoding="utf-8", errors="replace") as file:
                    found.append((int(number), file.read().strip()))
            except FileNotFoundError:
                # it is done by now
                pass
    return sorted(found)


def hinder(plan, number, why):
    """Keeps why a chunk is not finished; nothing, where it is."""
    path = f"{plan.folder}/logs/{WHY}{number}"
    try:
        if why is not None:
            whole.write(path, f"{why}\n".encode(errors="replace"))
        elif os.path.exists(path):
            os.unlink(path)
    except OSError:
        # where nothing can be written, the log has it, or nothing has
        pass


def left(plan):
    """The chunks that are not finished."""
    return [number for number in plan.chunks if result(plan, number) is None]
