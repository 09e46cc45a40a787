"""Lists of events that are drawn blindly, for a peer beside the library in one process (docs/compare/BESIDE.md)."""
import os
import re
import shutil
import subprocess

from ..sums import LINES, Unfinished, of_line
from . import Run, Wrong
from .program import SENT

LAST = re.compile(rb"beside: (.*): ([0-9]+) lists, ([0-9]+) events, [0-9.]+ s, ([0-9]+) groups in [0-9]+ ways, [0-9]+ of them new\n")
NUMBERS = ("runs", "lists", "events")
# the generator of a target takes bits from its seed as they are: so seeds are spread over all of them
SPREAD, WORD = 0x9E3779B97F4A7C15, 2 ** 64


def keys_of(report):
    """The groups of a report, and what is new in one that the stored one has, with = or + before what that has or has not."""
    return [line for line in report.decode(errors="replace").splitlines() if line[:2] in ("= ", "+ ")]


def has_target(words):
    """Whether there is a program that --target names."""
    return words.target and os.access(words.target, os.X_OK) and not os.path.isdir(words.target)


class Beside:
    """Some lists of each seed, by a target that hosts/beside/build has made without a fuzzer."""
    NAME, LOOKED_AT = "beside", ("events", "event")

    @staticmethod
    def options(add):
        add("--target", metavar="FILE", help="a target, built with LIB_FUZZING_ENGINE=none")
        add("--count", metavar="N", type=int, default=1000, help="lists of each seed (1000)")

    @staticmethod
    def settings(words):
        if not has_target(words):
            raise Wrong("beside takes --target FILE; LIB_FUZZING_ENGINE=none hosts/beside/build PEER makes one")
        if not 1 <= words.count <= 10 ** 9:
            raise Wrong("--count takes 1 to 1000000000")
        return {"count": words.count, "target": os.path.basename(words.target)}

    @staticmethod
    def gather(words, folder):
        shutil.copy(words.target, f"{folder}/target")
        return ["target"]

    def __init__(self, settings, folder):
        self.count, self.name, self.target = settings["count"], settings["target"], f"{folder}/target"

    def runs(self, seed, room):
        path = f"{room}/report"
        words = ["--draws", str(self.count), str((seed + 1) * SPREAD % WORD)]
        ran = subprocess.run([self.target, *words], capture_output=True, check=False, stdin=subprocess.DEVNULL,
                             env={**os.environ, "BESIDE_REPORT": path})
        if -ran.returncode in SENT or ran.returncode == 1:
            raise Unfinished(f"{self.name} {' '.join(words)}: status {ran.returncode}: {ran.stderr[-200:]!r}")
        report = b""
        if os.path.exists(path):
            with open(path, "rb") as file:
                report = file.read()
            os.unlink(path)
        found, whats = self.read(ran, report)
        found[LINES] = of_line(seed, self.name, report)
        files = {"groups": report, "txt": f"{self.name} {' '.join(words)}\n".encode() + ran.stderr[-4096:]}
        yield Run(self.name, found, [(what, files) for what in whats])

    def read(self, ran, report):
        """The numbers of a run, and what differs in it."""
        found, last = {f"{self.name}\truns": 1}, LAST.search(ran.stderr)
        if ran.returncode or not last:
            why = ran.stderr.decode(errors="replace").strip().splitlines() or ["it says nothing"]
            return found, [f"status {ran.returncode}: {why[0][:80]}"]
        keys = keys_of(report)
        found.update({f"{self.name}\tlists": int(last[2]), f"{self.name}\tevents": int(last[3])})
        found.update({f"{self.name}\tgroup {key[2:]}": 1 for key in keys})
        if len(keys) < int(last[4]):
            raise Unfinished(f"{self.name}: its report has {len(keys)} groups and not {int(last[4])}")
        return found, [key[2:] for key in keys if key[0] == "+"]

    @staticmethod
    def lines(settings, found):
        mine = {key.partition("\t")[2]: number for key, number in sorted(found.items()) if "\t" in key}
        yield f"{settings['target']} beside the library"
        yield "  " + ", ".join(f"{mine.get(it, 0)} {it}" for it in NUMBERS)
        yield from (f"    group of {number} seeds: {key.removeprefix('group ')}" for key, number in mine.items()
                    if key.startswith("group "))
