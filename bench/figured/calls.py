"""How many instructions a call of the C library takes: one step after the other, in the dearest state that was found.

lists.txt has that state of each kind of call, on each board, in the board's words or in those of a machine: a line
BOARD | MACHINE | LIST | PROBE, which bench/programs/figures plays and counts.
"""
import collections
import os
import subprocess
import sys

from figured.library import said
from figured.pages import TOP, Table, grouped

PAGE = "docs/maintain/COSTS.md"
LISTS = f"{TOP}/bench/figured/lists.txt"
# the columns: the board and the machine
BOARD = {"4 cores": ("2x2", "board"), "64": ("16x4", "board"), "256": ("16x16", "board"),
         "256, height 3": ("16x4x4", "board"), "256, one a cluster": ("1x16x16", "board")}
MACHINE = {"4 cores": ("2x2", "fields"), "64": ("16x4", "fields"), "256": ("16x16", "fields"),
           "256, height 3": ("16x4x4", "fields"), "256, strewn": ("16x16", "strewn")}
EVERY = [*BOARD.values(), *MACHINE.values()]
# what reads a machine's names; beside these only a call is in its words
NAMES = ("psci_core_of", "psci_mpidr_of", "psci_place_of")
# boards of each height, for the stack; and those of --check that are searched besides
SMALL = ("3", "2x2", "2x2x2")
SEARCHED = (("16x16", "board"),)
# how many states are made, before others are drawn
MADE, FEW = 52, 12

Found = collections.namedtuple("Found", "instructions given function row board machine list probe")

# the code of the library becomes one section, so that a step is known to be in it
SECTION = "SECTIONS { psci_text : { *(.text .text.*) } }\n"


class Program:
    """bench/programs/figures over an archive."""

    def __init__(self, archive, room):
        script, library, self.path = f"{room}/section.ld", f"{room}/library.o", f"{room}/figures"
        self.stacks = {}
        with open(script, "w", encoding="utf-8") as file:
            file.write(SECTION)
        said("ld", "-r", "-T", script, "--whole-archive", archive, "-o", library)
        folder = "bench/programs/figures"
        said("cc", "-std=c11", "-O2", "-mno-red-zone", "-Wall", "-Wextra", "-Werror", "-Iinclude", "-o", self.path,
             *(f"{folder}/{it}" for it in sorted(os.listdir(f"{TOP}/{folder}")) if it.endswith(".c")), library)

    def run(self, *words, given=""):
        """What it finds. What each call took of the stack is kept besides."""
        ran = subprocess.run([self.path, *map(str, words)], input=given, text=True, capture_output=True, check=False)
        if ran.returncode:
            sys.exit(f"bench/figures: {' '.join(map(str, words))}: {ran.stderr or ran.returncode}")
        found = []
        for line in ran.stdout.splitlines():
            parts = line.split(" | ")
            if len(parts) == 1:
                name, most = line.split()
                self.stacks[name] = max(self.stacks.get(name, 0), int(most))
            else:
                found.append(Found(int(parts[0]), int(parts[1]), *parts[2:]))
        return found

    def replay(self, lines):
        return self.run("replay", given="".join(f"{it}\n" for it in lines))

    def search(self, board, machine, seed, states, lines=()):
        """The dearest of each kind: in these lists, in states that are made, and in states drawn from the dearest."""
        return self.run("search", board, machine, seed, states, given="".join(f"{it}\n" for it in lines))

    def step_stacks(self):
        """Each call on boards of each height, and openings and closings with each request for memory refused."""
        self.run("stacks", *SMALL)
        searches = [(board, "board", MADE) for board in SMALL] + [(board, "fields", FEW) for board in SMALL[:-1]]
        return [it for board, machine, states in [*searches, (SMALL[-1], "fields", MADE)]
                for it in self.search(board, machine, 1, states)]


def is_kept(it):
    """Whether a list is kept of it: in the words of a machine only of what has them."""
    return it.function not in NAMES if it.machine == "board" else it.function in ("psci_smc", *NAMES)


def dearest(found):
    """Of each kind of call, on each board and machine, the dearest."""
    most = {}
    for it in filter(is_kept, found):
        key = it.board, it.machine, it.row
        if key not in most or it.instructions > most[key].instructions:
            most[key] = it
    return most


def stored():
    with open(LISTS, encoding="utf-8") as file:
        return [line for line in file.read().splitlines() if line and not line.startswith("#")]


def store(most):
    """Writes the lists, in the order of boards, machines and kinds of call."""
    lines = [" | ".join((it.board, it.machine, it.list, it.probe))
             for key, it in sorted(most.items(), key=lambda pair: (EVERY.index(pair[0][:2]), pair[0][2]))]
    with open(LISTS, "w", encoding="utf-8") as file:
        file.write("\n".join(["# BOARD | MACHINE | LIST | PROBE: the dearest state of each kind of call that "
                              "bench/figures --search has found", *lines, ""]))


def order(row):
    """Calls of the normal world first, then entries, acknowledgements, the controller, readers."""
    groups = ("PSCI", "CPU", "AFF", "NODE", "SYSTEM", "a call", "a function", "the first", "an entry", "an ack", "the")
    return next((at for at, it in enumerate(groups) if row.startswith(it)), len(groups)), row


def table(head, columns, most):
    """A row for each kind of call."""
    rows = sorted({row for board, machine, row in most if (board, machine) in columns.values()}, key=order)
    return Table(PAGE, [head, *columns], [[row, *(grouped(most[(*it, row)].instructions) if (*it, row) in most else ""
                                                  for it in columns.values())] for row in rows])


def tables(most):
    return [table("Instructions, the board's words", BOARD, most),
            table("Instructions, a machine's words", MACHINE, most)]


def not_bounded(most, found):
    """What a search has found that is dearer than what the stored lists come to."""
    return [f"{it.row} on {it.board}, {it.machine}: {it.instructions} by {it.list} | {it.probe}, and the stored list "
            f"comes to {most[key].instructions if key in most else 'nothing'}"
            for key, it in sorted(dearest(found).items())
            if key[:2] in EVERY and (key not in most or it.instructions > most[key].instructions)]
