"""Drawn lists of calls, of each seed a boot: played by hosts/payload on a machine, judged by tools/judge."""
import os
import shutil
import subprocess
import sys
import tempfile

from ..sums import Unfinished, of_line, LINES
from . import Run, Wrong
from .program import TOP

PAYLOAD = f"{TOP}/hosts/payload"
# what a machine may take for a list, and the judge for its record, in seconds
BOOT, JUDGE = 30, 3600
STATES = 20000
NUMBERS = ("runs", "answers", "agrees", "differs", "undecided")


def judge():
    """The modules of the judge, over the second model."""
    sys.path[:0] = [] if f"{TOP}/model" in sys.path else [f"{TOP}/model"]
    from judge import groups, profile, record, report, verdict, words
    return groups, profile, record, report, verdict, words


def text_of(path):
    with open(path, encoding="ascii") as file:
        return file.read()


class Lists:
    """A list of each seed, with power-downs too where these are asked for."""
    NAME, LOOKED_AT = "lists", ("answers", "answer")

    @staticmethod
    def options(add):
        add("--on", metavar="MACHINE", help="a machine of hosts/payload/run, as qemu")
        add("--command", metavar="TEXT", help="what boots the payload; IMAGE stands for its file")
        add("--profile", metavar="FILE", help="the profile of the firmware (docs/compare/JUDGE.md)")
        add("--baseline", metavar="FILE", help="known groups, which are no difference")
        add("--down", action="store_true", help="lists with power-downs, too")
        add("--one-thread", action="store_true", help="QEMU runs all cores in turn, with a clock that counts instructions")
        add("--payload", metavar="FILE", default=f"{PAYLOAD}/out/payload.bin", help="the payload that make -C hosts/payload built")

    @staticmethod
    def settings(words):
        if (words.on is None) == (words.command is None):
            raise Wrong("lists take --on MACHINE or --command TEXT")
        if words.profile is None:
            raise Wrong("lists take --profile FILE (docs/compare/JUDGE.md)")
        groups, profile, _, report, _, _ = judge()
        try:
            profile.read(words.profile)
            known = report.read_baseline(words.baseline) if words.baseline else set()
        except (profile.Wrong, ValueError) as fault:
            raise Wrong(str(fault)) from fault
        machine = ["--on", words.on] if words.on else ["--command", words.command]
        lists = ["storm", *(["storm-down"] if words.down else [])]
        return {"machine": machine + ["--one-thread"] * words.one_thread, "lists": lists,
                "profile": text_of(words.profile), "known": sorted(map(list, known))}

    @staticmethod
    def gather(words, folder):
        if not os.path.isfile(words.payload):
            raise Wrong(f"no {words.payload}; make -C hosts/payload builds it")
        shutil.copy(words.payload, f"{folder}/payload.bin")
        return ["payload.bin"]

    def __init__(self, settings, folder):
        self.machine, self.lists, self.payload = settings["machine"], settings["lists"], f"{folder}/payload.bin"
        self.groups, profile, self.record, self.report, self.verdict, self.words = judge()
        self.known = {self.groups.Group(*it) for it in settings["known"]}
        with tempfile.NamedTemporaryFile("w", encoding="ascii") as file:
            file.write(settings["profile"])
            file.flush()
            self.profile = profile.read(file.name)

    def runs(self, seed, room):
        for name in self.lists:
            path, said = self.played(f"{name}-{seed}", room)
            with open(path, "rb") as file:
                data = file.read()
            found, whats = self.judged(name, path)
            found[LINES] = of_line(seed, name, data)
            files = {"record": data, "txt": f"{name}-{seed}: {said}\n".encode()}
            yield Run(name, found, [(what, files) for what in whats])
            os.unlink(path)

    def played(self, name, room):
        """The record of a list that was played, and what was said of it."""
        ran = subprocess.run([f"{PAYLOAD}/run", *self.machine, "--payload", self.payload, "--out", room,
                              "--seconds", str(BOOT), name], capture_output=True, check=False)
        said = (ran.stdout + ran.stderr).decode(errors="replace").strip()
        path = f"{room}/{name}.record"
        if ran.returncode or not os.path.exists(path) or not os.path.getsize(path):
            raise Unfinished(f"{PAYLOAD}/run: {said}")
        return path, said

    def judged(self, name, path):
        """The numbers of a record, and what differs in it."""
        found = {f"{name}\truns": 1}
        try:
            lives = self.record.read(path)
            verdict = self.verdict.judged(name, lives, self.profile, STATES, JUDGE)
        except self.record.Unreadable as fault:
            return found, [f"no record: {fault}"]
        found.update({f"{name}\tanswers": verdict.answers, f"{name}\t{verdict.word}": 1})
        for life in lives:
            for it in life.ordered():
                came = f"came {self.words.function_of(it.word) if it.regs else 'core'} {self.groups.theirs_of(it)}"
                found[f"{name}\t{came}"] = found.get(f"{name}\t{came}", 0) + 1
        groups = self.groups.grouped([verdict])
        for group, seen in groups.items():
            found[f"{name}\tgroup {in_words(group)}"] = seen.count
        whats = [in_words(it) for it in groups if it not in self.known]
        return found, whats + [f"undecided: {verdict.undecided}"] * (verdict.word == self.verdict.UNDECIDED)

    @staticmethod
    def lines(settings, found):
        for name in settings["lists"]:
            mine = {key.partition("\t")[2]: number for key, number in sorted(found.items())
                    if key.startswith(f"{name}\t")}
            yield f"lists {name}-SEED"
            yield "  " + ", ".join(f"{mine.get(it, 0)} {it}" for it in NUMBERS)
            for mark in ("came ", "group "):
                yield from (f"    {key.removeprefix('came ')}: {number}" for key, number in mine.items()
                            if key.startswith(mark))


def in_words(group):
    return f"{group.kind} {group.what}: theirs {group.theirs}; ours {group.ours}"
