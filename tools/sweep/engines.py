"""Who does the chunks: the processors of this machine, Slurm, or GNU parallel.

An engine only starts `tools/sweep chunk FOLDER NUMBER` for each chunk. What is done is what has a result in
the folder, whatever the engine says of it.
"""
import os
import re
import shlex
import subprocess
import sys
import time
from collections import Counter

from . import plan as plans
from .chunk import DONE, WRITE_FAULT
from .kinds import Wrong

TOOL = os.path.dirname(os.path.abspath(__file__))
# how often a chunk is begun on this machine, and how many chunks a job array has at most without a word of Slurm's
TRIES, MOST = 3, 1000
JOB = """#!/bin/sh
#SBATCH --job-name=psci-sweep --requeue
exec python3 {tool} chunk {folder} "$(sed -n "$((SLURM_ARRAY_TASK_ID + 1))p" {numbers})"
"""


class Local:
    """A process for each processor, and a chunk for each process."""

    def __init__(self, plan, far, jobs, _words):
        self.plan, self.far = plan, far
        self.jobs, self.running = jobs or len(os.sched_getaffinity(0)), {}
        self.is_full = False

    def start(self, number):
        log = open(f"{self.plan.folder}/logs/{number}", "ab")
        with log:
            self.running[number] = subprocess.Popen(
                [sys.executable, TOOL, "chunk", self.plan.folder, str(number)], stdin=subprocess.DEVNULL,
                stdout=log, stderr=log)

    def run(self, left):
        waiting, tries = list(reversed(left)), {}
        self.far.look()
        try:
            while (waiting and not self.is_full) or self.running:
                while waiting and not self.is_full and len(self.running) < self.jobs:
                    tries[waiting[-1]] = tries.get(waiting[-1], 0) + 1
                    self.begin(waiting.pop())
                self.far.look()
                for number, status in self.ended():
                    if status == WRITE_FAULT:
                        self.give_up(f"chunk {number} could not be read or written")
                    if status != DONE and tries[number] < TRIES:
                        waiting.append(number)
        finally:
            self.stop()

    def begin(self, number):
        """Starts a chunk, if there is room for its log, and for a process."""
        try:
            self.start(number)
        except OSError as fault:
            self.give_up(f"chunk {number} cannot be begun: {fault.strerror}")

    def give_up(self, why):
        """Where nothing can be written, other chunks would fare no better."""
        if not self.is_full:
            self.is_full = True
            self.far.say(f"{why}; no further chunk is begun")

    def ended(self):
        """The processes that have ended, and how."""
        for number, process in list(self.running.items()):
            if process.poll() is not None:
                del self.running[number]
                yield number, process.returncode
        time.sleep(0.02)

    def stop(self):
        for process in self.running.values():
            process.terminate()
        for process in self.running.values():
            end(process)


def end(process):
    """Waits until a process has ended that was asked to. One that was about to wait itself did not notice, and is
    asked again."""
    while True:
        try:
            process.wait(timeout=1)
            return
        except subprocess.TimeoutExpired:
            process.terminate()


class Farm:
    """Engines that are handed numbers in a file, and return once all of them were tried."""

    def __init__(self, plan, far, jobs, words):
        self.plan, self.far, self.jobs, self.words = plan, far, jobs, shlex.split(words)
        self.most = None

    def run(self, left):
        """Hands out what is left, until a round finishes nothing more."""
        before = None
        while left and left != before:
            before = left
            most = self.most or len(left)
            for at in range(0, len(left), most):
                self.hand_out(left[at:at + most])
            left = plans.left(self.plan)
            if left:
                self.far.say(f"{len(left)} chunks have no result after this round")

    def numbers(self, left):
        # a job array of a sweep that was ended may still read its own
        path = f"{self.plan.folder}/logs/numbers-{time.time_ns()}"
        with open(path, "w", encoding="ascii") as file:
            file.writelines(f"{it}\n" for it in left)
        return path

    def wait(self, command, **more):
        with open(f"{self.plan.folder}/logs/engine", "ab") as log:
            try:
                process = subprocess.Popen(command, stderr=log, **{"stdout": log, **more})
            except FileNotFoundError:
                raise Wrong(f"there is no {command[0]} here") from None
            try:
                while process.poll() is None:
                    self.far.look()
                    time.sleep(0.1)
            except BaseException:
                process.terminate()
                end(process)
                raise
        if process.returncode:
            self.far.say(f"{command[0]} ended with status {process.returncode}{self.last_line()}")

    def last_line(self):
        """What an engine said last."""
        with open(f"{self.plan.folder}/logs/engine", encoding="utf-8", errors="replace") as log:
            said = log.read().strip().splitlines()
        return f": {said[-1]}" if said else ""


class Slurm(Farm):
    """Job arrays by sbatch; the folder and these tools have to be there by the same paths on each node."""

    def __init__(self, *given):
        super().__init__(*given)
        try:
            said = subprocess.run(["scontrol", "show", "config"], capture_output=True, text=True, check=False).stdout
        except FileNotFoundError:
            raise Wrong("there is no scontrol here") from None
        found = re.search(r"^MaxArraySize *= *([0-9]+)", said, re.M)
        self.most = max(1, int(found[1]) - 1) if found else MOST

    def hand_out(self, left):
        folder = self.plan.folder
        job = JOB.format(tool=shlex.quote(TOOL), folder=shlex.quote(folder),
                         numbers=shlex.quote(self.numbers(left)))
        limit = f"%{self.jobs}" if self.jobs else ""
        name = f"psci-sweep-{os.getpid()}-{time.time_ns()}"
        command = ["sbatch", "--wait", f"--job-name={name}", f"--array=0-{len(left) - 1}{limit}",
                   f"--output={folder}/logs/slurm-%A-%a", *self.words]
        self.far.more = lambda: self.queued(name)
        with open(f"{folder}/logs/job", "w+", encoding="utf-8") as script:
            script.write(job)
            script.seek(0)
            try:
                self.wait(command, stdin=script)
            except BaseException:
                subprocess.run(["scancel", f"--name={name}"], check=False)
                raise

    def queued(self, name):
        """How the tasks of a job array are, and what they wait for; of one that is held also, once, what lets it go on."""
        said = subprocess.run(["squeue", "-h", "-r", f"--name={name}", "-o", "%T %r"], capture_output=True, text=True,
                              check=False).stdout.splitlines()
        counts = Counter(it if it.startswith("PENDING") else it.split()[0] for it in said if it)
        if name not in self.far.told and re.search("h[eo]ld|SPECIAL_EXIT", "".join(said), re.I):
            self.far.told.add(name)
            self.far.say(f"a task is held, and waits for `scontrol release jobname={name}`")
        return "".join(f"; {count} {what}" for what, count in sorted(counts.items()))


class Parallel(Farm):
    """GNU parallel, over ssh where its words name machines; the folder and these tools as with Slurm."""

    def hand_out(self, left):
        jobs = ["--jobs", str(self.jobs)] if self.jobs else []
        command = ["parallel", *jobs, "--retries", str(TRIES), *self.words, "--arg-file", self.numbers(left),
                   f"python3 {shlex.quote(TOOL)} chunk {shlex.quote(self.plan.folder)} {{}}"]
        self.wait(command, stdin=subprocess.DEVNULL)


ENGINES = {"local": Local, "slurm": Slurm, "parallel": Parallel}
