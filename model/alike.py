"""Holds what ./psci makes of a machine's words (tools/front) to the rules of machine.py.

`random` compares both on random texts and calls; `scripts` answers the stored calls of examples/boards by this model
alone. The C library answers the same calls (tests/hosts/machine-library).
"""
import glob
import os
import sys
from collections import Counter

import firmware as fw
import machine as rules
from board import Fault
from draw_machine import DrawMachine
from script import World, number

TOP = os.path.dirname(os.path.dirname(os.path.abspath(__file__)))
sys.path.insert(0, f"{TOP}/tools")
from front import machine_calls, machine_faults, machine_swap, machines

# how many calls of a text are compared; how often each fault has to come
CALLS, LEAST = 12, 20
FAULTS = ("WrongCount", "BadMpidr", "SameMpidr", "NoBootCore", "LateBootCore", "TooManyLevels", "FallingClass",
          "TooManyRows", "BadWord", "SameWord", "WrongType", "BadStates", "BadSystem", "BadFunctions")


# ---- random texts

def said_here(text):
    """The machine of a text and the fault of it, in words, by this model."""
    try:
        machine = rules.Machine(text)
    except Fault as fault:
        return None, str(fault).removeprefix("line 1: ")
    found = rules.fault(machine)
    return machine, f"machine fault {found}" if found else None


def said_there(text):
    try:
        return machine_faults.checked(text), None
    except machines.Fault as fault:
        return None, f"{fault.kind} fault {fault.number}"


def numbers_here(machine):
    return [rules.other(machine, core) for core in machine.board.cores]


def numbers_there(machine):
    return [machine_swap.other_core(machine, core) for core in range(len(machine.cores))]


def random(count, seed):
    """Compares both on so many random texts and on calls of the good ones."""
    draw, seen = DrawMachine(seed), Counter()
    for _ in range(count):
        text = draw.text()
        (ours, fault), (theirs, other) = said_here(text), said_there(text)
        seen[fault] += 1
        seen["boot core elsewhere"] += not fault and ours.boot != ours.mpidrs[0]
        if fault != other:
            print(f"this text is read in two ways\n{text}\nthe model: {fault}\ntools/front: {other}")
            return 1
        if not fault and numbers_here(ours) != numbers_there(theirs):
            print(f"these cores are numbered in two ways\n{text}\nthe model: {numbers_here(ours)}\n"
                  f"tools/front: {numbers_there(theirs)}")
            return 1
        for _ in range(0 if fault else CALLS):
            regs, mode = draw.regs(ours), draw.choice((fw.PLATFORM, fw.OS_INITIATED))
            if rules.asked(ours, mode, regs) != machine_calls.translated(theirs, mode, regs):
                print(f"this call is translated in two ways\n{text}\nmode {mode}, {[hex(it) for it in regs]}\n"
                      f"the model: {rules.asked(ours, mode, regs)}\n"
                      f"tools/front: {machine_calls.translated(theirs, mode, regs)}")
                return 1
    wanted = [None, "boot core elsewhere", *(f"machine fault {at}" for at in range(len(FAULTS) + 1))]
    few = [name for name in wanted if seen[name] < LEAST]
    print(f"{count} texts of machines are read alike, {seen[None]} of them without a fault, "
          f"{seen['boot core elsewhere']} of these with a boot core that is not the first one")
    if few and count >= 5000:
        print(f"seldom: {few}")
        return 1
    return 0


# ---- stored calls

class Calls:
    """A script of a machine's calls: the same events, asked in its words."""

    def __init__(self, machine):
        self.machine, self.world = machine, World(machine.board)

    def core(self, text):
        if text[:2] != "0x":
            return int(text)
        return rules.other(self.machine, self.machine.mpidrs.index(int(text, 16)))

    def answer(self, line):
        word, first, *others = line.split(" ")
        if word in ("deliver", "take"):
            return getattr(self.world, word)(int(first))
        if word != "call":
            return getattr(self.world, word)(self.core(first))
        named = others[0] if others[0][0].isdigit() else str(self.function(others[0]))
        regs = [number(it, True) for it in [named, *others[1:]]]
        regs, asked = rules.asked(self.machine, self.world.firmware.mode, regs + [0] * (4 - len(regs)))
        said = self.world.call(self.core(first), list(regs))
        if asked is None or not said.startswith("stop #"):
            return said
        what = f"states {' '.join(map(str, asked[:self.machine.board.height + 1]))}" if isinstance(asked, tuple) \
            else f"reset {asked:#x}"
        return said.replace("stop", f"stop {what}", 1)

    @staticmethod
    def function(name):
        return getattr(fw, name.upper())[-1]

    def named(self, said):
        """An answer with MPIDRs for cores."""
        words = said.split(" ")
        for at, word in enumerate(words):
            if word[:1] == "#" and words[at + 1] in ("down", "start", "off", "reset"):
                words[at + 2] = hex(self.machine.mpidrs[rules.other(self.machine, int(words[at + 2]))])
        return " ".join(words)


def scripts():
    """Whether the stored calls of each machine are answered as the files say."""
    bad, paths = 0, sorted(glob.glob(f"{TOP}/examples/boards/*.calls"))
    for path in paths:
        base = path.removesuffix(".calls")
        texts = []
        for name in (f"{base}.machine", path, f"{base}.answers"):
            with open(name, encoding="ascii") as file:
                texts.append(file.read())
        machine, fault = said_here(texts[0])
        calls, lines = machine and Calls(machine), texts[1].splitlines()
        events = [it for it in lines[1:] if it and it[0] != "#"]
        said = [calls.named(calls.answer(it)) for it in events] if machine else []
        answers = "".join(f"{at} {it}\n" for at, it in enumerate(said, 1))
        if fault or lines[0] != f"board {machine.text}" or answers != texts[2]:
            print(f"{base}: the model answers\n{fault or answers}")
            bad += 1
    print(f"{len(paths) - bad} machines are answered as wanted, {bad} not")
    return 1 if bad or len(paths) < 12 else 0
