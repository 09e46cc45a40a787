"""A fuzz target that libFuzzer leads by its branches: from each seed, over the same inputs (docs/compare/BESIDE.md)."""
import glob
import os
import re
import shutil
import subprocess
import tempfile

from .. import inputs, whole
from ..sums import LINES, Unfinished, of_line
from . import Run, Wrong
from .beside import LAST, Beside, has_target, keys_of
from .program import SENT

START, CORPORA = f"start{inputs.ENDING}", "corpora"
DONE = re.compile(rb"^stat::number_of_executed_units: ([0-9]+)$", re.M)
SUMMARY = re.compile(rb"^SUMMARY: (.*)$", re.M)
MERGED = re.compile(rb"^MERGE-OUTER: ([0-9]+) new files ", re.M)
NUMBERS = ("runs", "inputs", "kept")
# seed 0 is one of the clock's for libFuzzer, which takes 31 bits
SEEDS = 2 ** 31 - 1
# the target says so where it cannot begin, and where a signal ends it
HINDERED = (1, 72)


def is_led(target):
    """Whether this target has libFuzzer in it."""
    ran = subprocess.run([target, "-help=1"], capture_output=True, check=False, stdin=subprocess.DEVNULL)
    return ran.returncode == 0 and b" merge " in ran.stdout + ran.stderr


class Fuzz(Beside):
    """Inputs by libFuzzer from each seed, led by the branches of a target, and all corpora merged at the end."""
    NAME, LOOKED_AT = "fuzz", ("inputs", "input")

    @staticmethod
    def options(add):
        add("--target", metavar="FILE", help="a target with libFuzzer, as hosts/beside/build makes it")
        add("--count", metavar="N", type=int, default=100000, help="inputs of each seed (100000)")
        add("--length", metavar="N", type=int, default=400, help="most bytes of an input (400)")
        add("--corpus", metavar="FOLDER", action="append", default=[],
            help="inputs with which each seed begins; may be repeated")

    @staticmethod
    def settings(words):
        for folder in words.corpus:
            if not os.path.isdir(folder):
                raise Wrong(f"--corpus {folder}: not a folder")
        if words.length < 1:
            raise Wrong("--length takes a number above 0")
        if not has_target(words):
            raise Wrong("fuzz takes --target FILE; hosts/beside/build PEER makes one")
        settings = Beside.settings(words)
        if not is_led(words.target):
            raise Wrong(f"--target {words.target}: built without libFuzzer; use it with ./psci sweep beside")
        return {**settings, "length": words.length}

    @staticmethod
    def gather(words, folder):
        os.makedirs(f"{folder}/{CORPORA}", exist_ok=True)
        whole.write(f"{folder}/{START}", inputs.packed(inputs.found_in(words.corpus)))
        return [*Beside.gather(words, folder), START]

    def __init__(self, settings, folder):
        super().__init__(settings, folder)
        self.folder, self.length, self.begins = folder, settings["length"], None

    def begin(self, room):
        """The inputs that each seed begins with, and their list: the order of a folder is the machine's."""
        os.makedirs(f"{room}/start")
        inputs.unpack(f"{self.folder}/{START}", f"{room}/start")
        names = sorted(os.listdir(f"{room}/start"))
        with open(f"{room}/list", "w", encoding="utf-8") as file:
            file.write(",".join(f"{room}/start/{name}" for name in names))
        self.begins = len(names)

    def words(self, seed, room):
        """The words of a seed; what was found is to be in room/found."""
        return [f"-seed={seed % SEEDS + 1}", f"-runs={self.count + self.begins}", f"-max_len={self.length}",
                "-reload=0", "-print_final_stats=1", f"-artifact_prefix={room}/",
                *([f"-seed_inputs=@{room}/list"] if self.begins else []), f"{room}/found"]

    def runs(self, seed, room):
        found, report = f"{room}/found", f"{room}/report"
        if self.begins is None:
            self.begin(room)
        os.makedirs(found)
        ran = subprocess.run([self.target, *self.words(seed, room)], capture_output=True, check=False,
                             stdin=subprocess.DEVNULL, env={**os.environ, "BESIDE_REPORT": report})
        if -ran.returncode in SENT or ran.returncode in HINDERED:
            raise Unfinished(f"{self.name}, seed {seed}: status {ran.returncode}: {ran.stderr[-200:]!r}")
        if not inputs.is_whole(found):
            raise Unfinished(f"{self.name}, seed {seed}: not all that it found could be written")
        new = inputs.found_in([found])
        whole.write(f"{self.folder}/{CORPORA}/{seed}{inputs.ENDING}", inputs.packed(new))
        yield self.run(seed, ran, self.taken(report), self.taken(*glob.glob(f"{room}/[a-z]*-*")), new)
        shutil.rmtree(found)

    @staticmethod
    def taken(*paths):
        """What stands in the first of these files, if there is one; all of them go."""
        data = b""
        for path in filter(os.path.exists, reversed(paths)):
            with open(path, "rb") as file:
                data = file.read()
            os.unlink(path)
        return data

    def run(self, seed, ran, report, artifact, new):
        """The numbers of a seed, and what differs in it."""
        keys, done, last = keys_of(report), DONE.search(ran.stderr), LAST.search(ran.stderr)
        if last and len(keys) != int(last[4]):
            raise Unfinished(f"{self.name}, seed {seed}: its report has {len(keys)} groups and not {int(last[4])}")
        found = {"runs": 1, "inputs": int(done[1]) if done else 0, "kept": len(new)}
        found = {f"{self.name}\t{name}": number for name, number in found.items()}
        found.update({f"{self.name}\tgroup {key[2:]}": 1 for key in keys})
        found[LINES] = of_line(seed, self.name, report + "\n".join(sorted(new)).encode())
        whats = [key[2:] for key in keys if key[0] == "+"]
        if ran.returncode or not done:
            why = SUMMARY.findall(ran.stderr) or ran.stderr.strip().splitlines()[-1:] or [b"it says nothing"]
            whats.append(f"status {ran.returncode}: {why[-1].decode(errors='replace')[:80]}")
        words = " ".join([self.name, *self.words(seed, ".")])
        files = {"groups": report, "input": artifact, "txt": f"{words}\n".encode() + ran.stderr[-4096:]}
        files = {ending: data for ending, data in files.items() if data}
        return Run(self.name, found, [(what, files) for what in whats])

    @staticmethod
    def lines(settings, found):
        mine = {key.partition("\t")[2]: number for key, number in sorted(found.items()) if "\t" in key}
        yield f"{settings['target']}, led by its branches"
        yield "  " + ", ".join(f"{mine.get(it, 0)} {it}" for it in NUMBERS)
        yield from (f"    group of {number} seeds: {key.removeprefix('group ')}" for key, number in mine.items()
                    if key.startswith("group "))

    @staticmethod
    def ended(plan):
        """Has libFuzzer merge what all seeds have found, if that is not done yet; what there is to say of it."""
        corpus, merging = f"{plan.folder}/corpus", f"{plan.folder}/corpus.merging"
        if os.path.isdir(corpus):
            return None
        shutil.rmtree(merging, ignore_errors=True)
        os.makedirs(merging)
        many = merged(plan, merging)
        # the folder gets its name once all of it is on the disk
        os.sync()
        os.rename(merging, corpus)
        return f"{corpus} has {len(os.listdir(corpus))} inputs, which reach all that {many} do"


def merged(plan, into):
    """Merges the inputs of a sweep into an empty folder; how many they are."""
    with tempfile.TemporaryDirectory(prefix="psci-sweep-") as room:
        every = f"{room}/every"
        inputs.unpack(f"{plan.folder}/{START}", every)
        for seed in range(plan.first, plan.last + 1):
            inputs.unpack(f"{plan.folder}/{CORPORA}/{seed}{inputs.ENDING}", every)
        many = len(os.listdir(every))
        words = [f"{plan.folder}/target", "-merge=1", f"-artifact_prefix={room}/", into, every]
        ran = subprocess.run(words, capture_output=True, check=False, stdin=subprocess.DEVNULL,
                             env={**os.environ, "BESIDE_REPORT": f"{room}/report"})
    said = MERGED.search(ran.stderr)
    if ran.returncode or not inputs.is_whole(into) or said and int(said[1]) != len(os.listdir(into)):
        raise Unfinished(f"{into}: status {ran.returncode} of -merge=1, or not all is written: {ran.stderr[-200:]!r}")
    return many
