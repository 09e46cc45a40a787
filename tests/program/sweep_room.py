"""Where the stories of tests/program/swept run: a folder, a program, and sweeps by the tools of a repository."""
import os
import re
import resource
import subprocess

# what stands before the program in these: $flag is a file that is not there at first
WRAPPED = """#!/bin/sh
flag='{flag}'
case "$*" in *"{when}"*) {does} ;; esac
exec '{program}' "$@"
"""
SEEDS, COUNT = 24, 12


class Broken(Exception):
    """A story that does not hold, and why."""


class Missing(Exception):
    """A story that cannot run here, for want of what the text says."""


def wants(holds, text):
    if not holds:
        raise Broken(text)


def by_whomever(report):
    """A report without what answered: a wrapped program is none that was proved."""
    return re.sub(r" by (the|an) (un)?proved program:", ":", report, count=1)


class Room:
    """A folder in which sweeps run, with the tools of a repository."""

    def __init__(self, program, folder, top):
        self.program, self.folder, self.top = program, folder, top
        os.makedirs(folder)

    def path(self, name):
        return f"{self.folder}/{name}"

    def wrapped(self, does, when="--seed 13 "):
        """A program that does something first, where its words have this text."""
        path = self.path(f"wrapped{len(os.listdir(self.folder))}")
        with open(path, "w", encoding="utf-8") as file:
            file.write(WRAPPED.format(flag=f"{path}.flag", when=when, does=does, program=self.program))
        os.chmod(path, 0o755)
        return path

    def held(self, when):
        """A program that waits before it does what its words have this text for, and the file as long as which
        is there."""
        held = self.path(f"held{len(os.listdir(self.folder))}")
        with open(held, "w", encoding="utf-8"):
            pass
        return self.wrapped(f"while [ -e '{held}' ]; do sleep 0.1; done", when), held

    def words(self, out, *more, program=None, seeds=f"1..{SEEDS}", kind="storm"):
        return [f"{self.top}/psci", "sweep", kind, "--out", self.path(out), "--seeds", seeds, "--count", str(COUNT),
                "--program", program or self.program, *(more or ("--chunk", "5"))]

    def sweep(self, out, *more, limit=None, **named):
        """The status of a sweep, its report, and what it said."""
        limited = limit and (lambda: resource.setrlimit(resource.RLIMIT_FSIZE, (limit, limit)))
        ran = subprocess.run(self.words(out, *more, **named), capture_output=True, text=True, check=False,
                             preexec_fn=limited, stdin=subprocess.DEVNULL)
        return ran.returncode, ran.stdout, ran.stderr

    def report(self, *outs):
        paths = [it if it.startswith("--") else self.path(it) for it in outs]
        ran = subprocess.run([f"{self.top}/psci", "sweep", "report", *paths], capture_output=True, text=True,
                             check=False)
        return ran.returncode, ran.stdout, ran.stderr

    def results(self, out):
        """The files of results, and when each was written."""
        found = {}
        for it in sorted(os.scandir(self.path(f"{out}/results")), key=lambda it: it.name):
            try:
                found[it.name] = it.stat().st_mtime_ns
            except FileNotFoundError:
                # it has its name by now
                pass
        return found

    def finished(self, out):
        """Of these files those that have their name, and so all that a result has."""
        return {it: at for it, at in self.results(out).items() if it.endswith(".json")}

    def good(self):
        """The report of an undisturbed sweep."""
        if not os.path.exists(self.path("good.txt")):
            status, text, said = self.sweep("good", "--chunk", str(SEEDS), "--jobs", "1")
            wants(status == 0, f"an undisturbed sweep ended with {status}: {said}")
            with open(self.path("good.txt"), "w", encoding="utf-8") as file:
                file.write(text)
        with open(self.path("good.txt"), encoding="utf-8") as file:
            return file.read()

    def is_good(self, found, status=0):
        wants(found[0] == status, f"status {found[0]} and not {status}: {found[2]}")
        wants(by_whomever(found[1]) == by_whomever(self.good()), f"another report:\n{found[1][:400]}")
