"""The command line of a sweep."""
import argparse
import fcntl
import os
import signal
import sys
import tempfile
import time

import sentence
from front.words import Words, fault, number, one_of, seeds

from . import kinds, page, plan as plans, report, whole
from .engines import ENGINES
from .far import Far
from .kinds import Wrong
from .sums import Unfinished

SAME, COMMAND, READ, DIFFERS, LEFT = 0, 2, 4, 6, 7
TEXT = """Runs a range of seeds, on all processors of this machine or on many machines.
The same command continues an interrupted sweep: finished seeds are kept in its folder.

  ./psci sweep storm   --seeds 1..100000 --out out/night --boards tests/program/tally-floors.txt
  ./psci sweep threads --seeds 1..10000 --out out/threads --model
  ./psci sweep lists   --seeds 1..10000 --out out/boots --on qemu --profile hosts/payload/profiles/qemu
  ./psci sweep fuzz    --seeds 1..1000 --out out/fuzz --target out/beside/tfa --corpus corpus
  ./psci sweep storm   --seeds 1..100000 --out out/night --engine slurm --engine-words '--partition=all'
  ./psci sweep report out/night out/another
"""
ENDING = """Status 0: all seeds are done and none differs; 6: a seed differs; 7: seeds are left and none differs, or nothing
happened in them. See docs/compare/SWEEP.md.
"""


def parsed(words):
    """The words of a kind of work, or of the report."""
    every = kinds.every()
    if words[:1] in ([], ["--help"], ["-h"]):
        parser = Words("sweep", TEXT, f"{' | '.join([*every, 'report'])} [OPTIONS]", ENDING)
        parser.add_argument("kind", metavar="KIND", help="see psci sweep KIND --help")
        return parser.read(words)
    kind = one_of(*every, "report")
    try:
        kind(words[0])
    except argparse.ArgumentTypeError as why:
        fault(["sweep", *words], 1, why, f"`psci sweep {' | '.join([*every, 'report'])}`; see `psci sweep --help`")
    found = (of_report() if words[0] == "report" else of_kind(every[words[0]])).read(words[1:])
    found.kind = words[0]
    return found


def of_report():
    """What the report takes."""
    one = Words("sweep report", "Prints the report of finished seeds.", "[--costs] [--page FILE] FOLDER..", ENDING)
    one.add_argument("folders", metavar="FOLDER", nargs="+", help="folders of sweeps of one kind, with no seed in common")
    one.flag("--costs", help="print time and machines, too")
    one.add_argument("--page", metavar="FILE", help="write the report as a page")
    return one


def of_kind(kind):
    """What a kind of work takes."""
    one = Words(f"sweep {kind.NAME}", kind.__doc__, "--seeds FIRST..LAST --out FOLDER [OPTIONS]", ENDING,
                may_repeat=True)
    add = one.add_argument
    add("--seeds", metavar="FIRST..LAST", type=seeds, required=True, help="the seeds, each of at most 18 digits")
    add("--out", metavar="FOLDER", required=True, help="the folder of the sweep: results, and where it continues")
    add("--engine", metavar="NAME", type=one_of(*ENGINES), default="local", help="local (the default), slurm or parallel")
    add("--engine-words", metavar="TEXT", default="", help="further options of sbatch or parallel")
    add("--jobs", metavar="N", type=number(1, 10 ** 6), help="chunks at the same time")
    add("--minutes", metavar="N", type=float, default=3, help="about how long a chunk takes (3)")
    add("--chunk", metavar="N", type=number(1, 10 ** 18), help="seeds of a chunk, instead of an estimate")
    kind.options(add)
    return one


def say(text):
    print(f"psci sweep: {text}", file=sys.stderr)


# ---- a sweep begins, or goes on

def locked(folder):
    """Holds the folder for this process, as long as it lives."""
    file = open(f"{folder}/lock", "ab")
    try:
        fcntl.flock(file, fcntl.LOCK_EX | fcntl.LOCK_NB)
    except BlockingIOError:
        raise Wrong(f"{folder}: another sweep uses it") from None
    return file


def guessed(kind, seeds, words):
    """How many seeds a chunk of some minutes has, by the time of the first seed; on this machine there are
    several chunks for each processor."""
    begun = time.time()
    with tempfile.TemporaryDirectory(prefix="psci-sweep-") as room:
        for _ in kind.runs(seeds[0], room):
            pass
    size = max(1, int(words.minutes * 60 / (time.time() - begun)))
    whole_range = seeds[1] + 1 - seeds[0]
    workers = words.jobs or len(os.sched_getaffinity(0))
    return min(size, -(-whole_range // (4 * workers))) if words.engine == "local" else min(size, whole_range)


def begun(folder, words, settings, seeds):
    """The plan of a sweep, which is written once all that it needs is in its folder."""
    kind = kinds.every()[words.kind]
    files = kind.gather(words, folder)
    # the first seed is tried in any case, which tells of faulty words
    size = guessed(kind(settings, folder), seeds, words)
    by = sentence.by_whom(f"{folder}/program") if "program" in files else None
    return plans.make(folder, words.kind, settings, files, seeds, words.chunk or size, by, words.typed)


def plan_of(words):
    """The plan of these words: that of the folder, if it is the same."""
    settings = kinds.every()[words.kind].settings(words)
    if not words.minutes > 0:
        raise Wrong("--minutes takes a number above 0")
    folder = os.path.abspath(words.out)
    for name in ("results", "failed", "logs"):
        os.makedirs(f"{folder}/{name}", exist_ok=True)
    lock = locked(folder)
    for name in ("", "/results", "/failed", "/logs"):
        whole.clear(folder + name)
    if not plans.is_there(folder):
        return begun(folder, words, settings, words.seeds), lock
    plan = plans.read(folder)
    if (plan.kind, plan.settings, plan.first, plan.last) != (words.kind, settings, *words.seeds):
        raise Wrong(f"{folder} has another sweep: {plan.kind}, seeds {plan.first}..{plan.last}, "
                    f"{plan.settings}; take another folder")
    plans.look_at_files(plan)
    return plan, lock


def swept(words):
    """Does what is left of a sweep, and reports."""
    plan, lock = plan_of(words)
    left = plans.left(plan)
    if len(left) < len(plan.chunks):
        say(f"{len(plan.chunks) - len(left)} of {len(plan.chunks)} chunks are done already")
    far = Far(plan, left)
    try:
        ENGINES[words.engine](plan, far, words.jobs, words.engine_words).run(left)
    except KeyboardInterrupt:
        say("interrupted; the same command continues it")
    finally:
        far.end()
    try:
        ended(plan)
        return told([plan], True, f"{plan.folder}/{page.NAME}")
    finally:
        lock.close()


def ended(plan):
    """What its kind does once all chunks are finished."""
    at_end = getattr(kinds.every()[plan.kind], "ended", None)
    said = at_end(plan) if at_end and not plans.left(plan) else None
    if said:
        say(said)


def told(every, has_costs, path=None):
    """Prints the report of what was made by what each sweep began with, and writes its page; its status."""
    for plan in every:
        plans.look_at_files(plan)
    found = report.Together(every)
    try:
        print("\n".join(report.lines(found)), flush=True)
    except sentence.Nothing as why:
        say(f"{every[0].folder}: {why}")
        return LEFT
    if has_costs:
        for line in report.costs(found):
            say(line)
    if found.left:
        say(f"{found.unfinished} chunks are not finished, seeds {report.ranges(found.left)}; "
            f"see {every[0].folder}/logs; the same command continues it")
    status = DIFFERS if found.differences else LEFT if found.left else SAME
    return status or READ if path and not written(path, found) else status


def written(path, found):
    """Whether the page of it could be written; says so, or why not."""
    try:
        whole.write(os.path.abspath(path), page.page(found, path).encode())
    except OSError as fault:
        say(f"{path}: {fault.strerror}")
        return False
    say(f"{path} is a page of it")
    return True


def reported(words):
    every = [plans.read(os.path.abspath(it)) for it in words.folders]
    why = report.misfit(every)
    if why:
        raise Wrong(why)
    return told(every, words.costs, words.page)


def interrupted(*_):
    raise KeyboardInterrupt


def main(words, ours=None):
    """Runs ./psci sweep with these words; `ours` makes the path of the program, once it is needed."""
    typed, words = list(words), parsed(words)
    words.typed, words.ours = typed, ours
    signal.signal(signal.SIGTERM, interrupted)
    try:
        return reported(words) if words.kind == "report" else swept(words)
    except Wrong as why:
        say(why)
        return COMMAND
    except (Unfinished, whole.Broken) as why:
        say(why)
        return READ
    except OSError as fault:
        say(f"{fault.filename or getattr(words, 'out', 'report')}: {fault.strerror}")
        return READ
