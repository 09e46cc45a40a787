"""The lines of a record of calls, and whether all of them are there: each once, by one clock (docs/compare/JUDGE.md)."""
import re
import zlib
from collections import namedtuple

MARK, END = "psci: ", " ."
# how many numbers each kind of line has
FIELDS = {"head": 6, "call": 14, "open": 7, "enter": 5, "late": 2, "lacks": 5, "fault": 3, "lost": 2, "state": 4,
          "odd": 3, "told": 2}
# what the payload sees beside answers (hosts/payload/odd.h)
ODD = ("it executes, and nobody has started it in this life", "an interrupt that was pending is lost",
       "interrupts that a reset has left", "registers of EL2 as they were before the entry",
       "CNTFRQ_EL0 is not that of the boot core")
# kinds whose lines a core counts
COUNTED = ("call", "open", "enter", "lacks")
FORM, NUMBER = 1, re.compile("[0-9a-f]{1,16}")

# a line of a record: its place in the file, its kind, its numbers, and itself
Line = namedtuple("Line", "at kind numbers text")


class Unreadable(Exception):
    """This is no record of calls; the text says why."""


def wants(holds, line, why):
    if not holds:
        raise Unreadable(f"line {line.at}: {why}")


def lines_of(file):
    """The lines of a file that are the record's."""
    for at, text in enumerate(file, 1):
        text = text.strip()
        if not (text.startswith(MARK) and text.endswith(END)):
            continue
        kind, *numbers = text[len(MARK):-len(END)].split(" ")
        line = Line(at, kind, [int(it, 16) for it in numbers if NUMBER.fullmatch(it)], text)
        wants(len(line.numbers) == len(numbers), line, "not a hexadecimal number")
        wants(len(numbers) == FIELDS.get(kind), line, "not a line of a record")
        wants(kind != "odd" or line.numbers[1] < len(ODD), line, "not a line of a record")
        yield line


class Lines:
    """The lines of a life, one by one: each is looked at beside those before it."""

    def __init__(self, head):
        wants(head.numbers[0] == FORM, head, f"the record has form {head.numbers[0]}; this program reads form {FORM}")
        wants(head.numbers[5] == 0, head, "the boot core is not core 0")
        self.head, self.cores = head.numbers, head.numbers[4]
        # of each core its lines by number; what has no number; how many lines there are, and the sum of their texts
        self.of_core, self.others, self.many, self.sum = {}, [], 0, 0
        self.count(head)

    def count(self, line):
        self.many, self.sum = self.many + 1, zlib.crc32(line.text.encode(), self.sum)

    def add(self, line):
        if line.kind == "told":
            wants(line.numbers[0] == self.many, line,
                  f"{line.numbers[0]} lines of this life were written before it, but {self.many} are here")
            wants(line.numbers[1] == self.sum, line, "the lines of this life are not those that were written")
        else:
            self.look_at_cores(line)
            (self.numbered if line.kind in COUNTED else self.others.append)(line)
        self.count(line)

    def look_at_cores(self, line):
        """An exception may be that of a core which the head does not know."""
        named = [line.numbers[0]] * (line.kind != "fault") + line.numbers[3:4] * (line.kind == "lacks")
        for core in named:
            wants(core < self.cores, line, f"core {core} is not among the {self.cores} of the head")

    def numbered(self, line):
        """A call, or an entry, by its number: an open call gives way to what came of it."""
        core, number = line.numbers[:2]
        mine = self.of_core.setdefault(core, {})
        was = mine.get(number)
        if was is None:
            mine[number] = line
            return
        wants({was.kind, line.kind} == {"open", "call"}, line,
              f"core {core} has line {number} twice, first in line {was.at}")
        opened, back = (was, line) if was.kind == "open" else (line, was)
        wants(opened.numbers[3:] == back.numbers[5:9], line,
              f"line {number} of core {core} is a different call in line {was.at}")
        mine[number] = back

    def ended(self):
        """The lines of each core in their order, once all are there."""
        for core, mine in self.of_core.items():
            for number, at in enumerate(sorted(mine)):
                wants(number == at, mine[at], f"core {core} has no line {number}: it is missing")
            self.of_core[core] = [mine[it] for it in sorted(mine)]
            self.look_at_calls(core)
            self.look_at_clock(core)
        return self

    def look_at_calls(self, core):
        """Behind a call from which it did not come back a core can only have entered."""
        for line, after in zip(self.of_core[core], self.of_core[core][1:]):
            wants(line.kind != "open" or after.kind == "enter", after,
                  f"core {core} goes on, but its call in line {line.at} did not come back: a line is missing")

    def look_at_clock(self, core):
        last, was = -1, None
        for line in self.of_core[core]:
            begin, end = line.numbers[2:4] if line.kind == "call" else line.numbers[2:3] * 2
            wants(begin <= end, line, f"it ends at {end}, before it began at {begin}")
            wants(last <= begin, line, f"it begins at {begin}, but line {was} of core {core} was at {last}")
            last, was = end, line.numbers[1]


def is_of_calls(path):
    """Whether a file is a record of calls."""
    with open(path, encoding="ascii", errors="replace") as file:
        return any(line.startswith(f"{MARK}head ") for line in file)


def read(path):
    """The lines of a record, life by life."""
    lives = []
    with open(path, encoding="ascii", errors="replace") as file:
        for line in lines_of(file):
            if line.kind == "head":
                lives.append(Lines(line))
                continue
            wants(lives, line, "a line before the first psci: head")
            lives[-1].add(line)
    if not lives:
        raise Unreadable("no line psci: head")
    return [it.ended() for it in lives]
