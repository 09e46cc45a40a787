"""The command line of the judge."""
import os
import sys

import sentence
from front.programs import Progress
from front.words import Words, number

from . import profile, record, report, tallies
from .groups import grouped
from .verdict import AGREES, DIFFERS, UNDECIDED, judged

STATUS = {AGREES: 0, DIFFERS: 6, UNDECIDED: 7}
COMMAND, RECORD, READ = 2, 3, 4
ENDING = """Status 0: all agree, or differ only by the groups of the baseline; 6: a record differs, or its groups are not
those of the baseline; 7: a record is undecided, and none differs.
"""


def parser():
    """What is taken."""
    found = Words("compare", "Judges records of the calls of any PSCI firmware.", "--profile FILE [OPTIONS] RECORD..", ENDING)
    add = found.add_argument
    add("records", metavar="RECORD", nargs="+", help="a record of calls (docs/compare/JUDGE.md)")
    add("--profile", metavar="FILE", help="the profile of the firmware: its board, functions, power states")
    found.flag("--declare", help="print a profile's line of functions, from the answers to PSCI_FEATURES")
    found.flag("--tallies", help="print how often each function had each answer, and in which lists")
    found.flag("--each", help="print each difference")
    found.flag("--times", help="print the seconds and states of each search")
    add("--baseline", metavar="FILE", help="compare with known groups: new and vanished ones fail")
    add("--write-baseline", metavar="FILE", help="write the groups that were seen")
    found.flag("--tap", help="print only TAP")
    add("--junit", metavar="FILE", help="write JUnit's XML")
    add("--bound", metavar="N", type=number(1, 10 ** 9), default=20000, help="most states for one answer (20000)")
    add("--limit", metavar="SECONDS", type=float, default=60, help="most seconds for one record (60)")
    found.flag("--whole", help="search without reductions")
    return found


def end(status, text):
    print(f"psci compare: {text}", file=sys.stderr)
    sys.exit(status)


def names_of(paths):
    """Short names of records: the last folder and the file, without its ending."""
    return ["/".join(os.path.splitext(os.path.abspath(it))[0].split("/")[-2:]) for it in paths]


def verdicts_on(words, lives_of, peer):
    """The verdicts, by the version of the calling convention that some record tells."""
    version = max(record.convention(lives) for _, lives in lives_of)
    for path, (name, lives) in zip(words.records, lives_of):
        try:
            yield judged(name, lives, peer, words.bound, words.limit, words.whole, version=version)
        except record.Unreadable as fault:
            end(RECORD, f"{path}: {fault}")


def judge(words, lives_of, peer):
    verdicts = list(Progress("the records").over(verdicts_on(words, lives_of, peer), len(lives_of)))
    groups = grouped(verdicts)
    known = report.read_baseline(words.baseline) if words.baseline else None
    if words.write_baseline:
        report.write_baseline(words.write_baseline, groups)
    if words.junit:
        with open(words.junit, "w", encoding="utf-8") as file:
            file.write(report.junit(verdicts, known or set()))
    if words.tap:
        print("\n".join(report.tap(verdicts, known or set())))
    else:
        print("\n".join(report.lines(verdicts, groups, words.each, words.times)))
    found = {it.word for it in verdicts}
    if known is not None:
        changes = report.against(known, groups)
        if not words.tap:
            print("\n".join(changes or ["the groups are those of the baseline"]))
        found = (found - {DIFFERS}) | {DIFFERS if changes else AGREES}
    return max((STATUS[it] for it in found), key=(0, 7, 6).index)


def main(words):
    words = parser().read(words)
    try:
        lives_of = []
        for name, path in zip(names_of(words.records), words.records):
            try:
                lives_of.append((name, record.read(path)))
            except record.Unreadable as fault:
                end(RECORD, f"{path}: {fault}")
        if words.declare:
            print(profile.declared([life for _, lives in lives_of for life in lives]))
            return 0
        if words.tallies:
            print("\n".join(tallies.lines(*zip(*lives_of))))
            return 0
        if not words.profile:
            end(COMMAND, "a record of calls needs --profile FILE (docs/compare/JUDGE.md)")
        return judge(words, lives_of, profile.read(words.profile))
    except sentence.Nothing as why:
        end(STATUS[UNDECIDED], why)
    except (profile.Wrong, ValueError) as fault:
        end(RECORD, fault)
    except OSError as fault:
        end(READ, f"{fault.filename or 'standard output'}: {fault.strerror}")
