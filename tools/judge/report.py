"""What is printed and written: verdicts, groups, a baseline, TAP, JUnit."""
from collections import Counter
from xml.sax.saxutils import escape, quoteattr

import sentence
from sentence import counted

from .groups import Group, group_of, theirs_of
from .verdict import UNDECIDED


def summary(verdict, has_times):
    later = sum(it.is_later for it in verdict.differences)
    return (f"{verdict.word:9} {verdict.name}: {counted(verdict.answers, 'answer')}, "
            f"{counted(len(verdict.differences), 'difference')}" + f", {later} of them later" * bool(later)
            + f"; {verdict.undecided}" * bool(verdict.undecided)
            + f" ({verdict.seconds:.1f} s, {verdict.tried} states at most)" * has_times)


def each(verdict):
    """A line for each difference."""
    for it in verdict.differences:
        operation, group = it.operation, group_of(it)
        theirs = " ".join([theirs_of(operation), *map(hex, operation.want[1:] if operation.want[0] == "enter" else ())])
        yield (f"  {group.kind:6} {'later  ' if it.is_later else ''}{operation.text}: theirs {theirs}; "
               f"ours {' or '.join(it.ours)}")


def of_groups(groups):
    for group, seen in groups.items():
        later = f", {seen.later} of them later" if seen.later else ""
        yield f"{group.kind:6} {seen.count:4} x {group.what}: theirs {group.theirs}; ours {group.ours}{later}"
        yield f"              {group.why}"
        yield f"              the first: {seen.first}"


def of_notes(verdicts):
    notes = Counter(it.what for verdict in verdicts for it in verdict.remarks if it.kind == "note")
    first = {}
    for verdict in verdicts:
        for it in verdict.remarks:
            first.setdefault(it.what, f"{verdict.name}, {it.text}")
    for what, count in sorted(notes.items()):
        yield f"note   {count:4} x {what}; the first: {first[what]}"


def lines(verdicts, groups, has_each, has_times):
    for verdict in verdicts:
        yield summary(verdict, has_times)
        if has_each:
            yield from each(verdict)
    yield from of_groups(groups)
    yield from of_notes(verdicts)
    words = Counter(verdict.word for verdict in verdicts)
    records = f"{counted(len(verdicts), 'record')}: " + ", ".join(f"{words[it]} {it}" for it in words)
    yield sentence.told(f"{records}; {{count}}, {counted(len(groups), 'group')}",
                        sum(it.answers for it in verdicts), "answer")


# ---- a baseline: a line for each group

def baseline_line(group):
    return "\t".join(group)


def read_baseline(path):
    with open(path, encoding="ascii") as file:
        rows = [line.rstrip("\n").split("\t") for line in file if line.strip() and not line.startswith("#")]
    if any(len(row) != len(Group._fields) for row in rows):
        raise ValueError(f"{path}: not a line of a baseline")
    return {Group(*row) for row in rows}


def write_baseline(path, groups):
    with open(path, "w", encoding="ascii") as file:
        file.writelines(f"{baseline_line(it)}\n" for it in groups)


def against(known, groups):
    """What is new against a baseline, and what of it has vanished, a line for each."""
    fresh = [f"new group: {it.kind} {it.what}: theirs {it.theirs}; ours {it.ours}" for it in groups if it not in known]
    gone = [f"vanished group: {it.kind} {it.what}: theirs {it.theirs}; ours {it.ours}"
            for it in sorted(known) if it not in groups]
    return fresh + gone


# ---- for machines

def failing(verdict, known):
    """What makes a test of this record fail, beside a baseline of known groups."""
    found = [f"{group.what}: theirs {group.theirs}; ours {group.ours}: {it.operation.text}"
             for it in verdict.differences for group in (group_of(it),) if group not in known]
    if verdict.undecided:
        found.append(f"undecided: {verdict.undecided}")
    return found


def tap(verdicts, known):
    yield "TAP version 13"
    yield f"1..{len(verdicts)}"
    for number, verdict in enumerate(verdicts, 1):
        found = failing(verdict, known)
        skips = " # SKIP undecided" if verdict.word == UNDECIDED else ""
        yield f"{'not ok' if found and not skips else 'ok'} {number} - {verdict.name}{skips}"
        yield from (f"# {it}" for it in found)


def junit(verdicts, known):
    tests = []
    for verdict in verdicts:
        found = failing(verdict, known)
        inner = "" if not found else (f'<skipped message={quoteattr(found[0])}/>' if verdict.word == UNDECIDED else
                                      f'<failure message={quoteattr(found[0])}>{escape(chr(10).join(found))}</failure>')
        tests.append(f'  <testcase classname="psci" name={quoteattr(verdict.name)} '
                     f'time="{verdict.seconds:.2f}">{inner}</testcase>')
    bad = sum("<failure" in it for it in tests)
    skipped = sum(verdict.word == UNDECIDED for verdict in verdicts)
    return "\n".join(['<?xml version="1.0" encoding="UTF-8"?>',
                      f'<testsuite name="psci" tests="{len(tests)}" failures="{bad}" skipped="{skipped}">',
                      *tests, "</testsuite>", ""])
