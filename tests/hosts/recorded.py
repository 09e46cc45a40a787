"""Records of calls that the program makes: its threads play a run, or one is drawn; `replay` answers it, and
what a payload would have written of it is written down. Each call took effect at its place of the run; its
beginning and its end are drawn around that place, as wide as the core's own lines and WIDE events let them be."""
import subprocess

import firmware as fw
from judge.words import ENDS

# how many events a call may begin before its effect, and end behind it
WIDE = 4


def threads(program, board, seed, calls, path):
    """The events of a run of threads and their answers, in words, without the board."""
    subprocess.run([*program, "threads", "--board", board, "--seed", str(seed), "--count", str(calls), "--keep", path],
                   check=True, stdout=subprocess.DEVNULL, stderr=subprocess.DEVNULL)
    with open(path, encoding="ascii") as file:
        return answered(program, file.read().splitlines())


def answered(program, script):
    """The events of a script and the program's answers."""
    answers = subprocess.run([*program, "replay"], check=True, input="\n".join([*script, ""]), stdout=subprocess.PIPE,
                             stderr=subprocess.DEVNULL, encoding="ascii").stdout.splitlines()
    return [(event.split(" "), said.split(" ")[1:]) for event, said in zip(script[1:], answers, strict=True)]


class Lines:
    """What the cores did, in the order of the run: [kind, core, place, last place, numbers]."""

    def __init__(self, cores):
        self.made, self.running, self.call = [], [False] * cores, [None] * cores
        self.is_asleep = [False] * cores

    def add(self, kind, core, place, *numbers):
        self.made.append([kind, core, place, place, numbers])
        return self.made[-1]

    def event(self, place, event, said):
        """Keeps an event; says whether a record of calls can have it."""
        kind, core = event[0], int(event[1])
        if said[0] in ("ignored", "absent"):
            return True
        if kind == "call":
            return self.called(place, core, [int(it, 16) for it in event[2:]], said)
        if kind == "enter":
            self.entered(place, core, said)
        # a core is reset, or a wake-up starts one that is off: no line tells of that
        return kind not in ("wake", "reset") or kind == "wake" and self.is_asleep[core]

    def called(self, place, core, regs, said):
        word = regs[0] % 2**32
        if said[0] == "stop":
            self.call[core] = self.add("open", core, place, *regs)
            self.running[core] = False
            self.is_asleep[core] = word in fw.CPU_SUSPEND + fw.SYSTEM_SUSPEND
            return word not in ENDS
        self.answer(self.add("call", core, place, *regs), int(said[1]))
        return True

    @staticmethod
    def answer(line, code):
        regs = line[4]
        bits = 64 if regs[0] & fw.SMC64 else 32
        line[0], line[4] = "call", (*regs, code % 2**bits, *regs[1:], 0)

    def entered(self, place, core, said):
        self.running[core], self.is_asleep[core] = said[0] != "stop", False
        if said[0] == "resume":
            self.answer(self.call[core], 0)
            self.call[core][3] = place
        elif said[0] == "enter" and place:
            self.add("enter", core, place, *(int(it, 16) for it in said[1:3]))


def times(made, draw):
    """When each line began and was over, as times of one clock."""
    by_core, raw = {}, {}
    for at, line in enumerate(made):
        by_core.setdefault(line[1], []).append(at)
    for mine in by_core.values():
        last = 0.0
        for at, behind in zip(mine, [*mine[1:], None]):
            first, end = made[at][2], made[at][3]
            after = made[behind][2] if behind is not None else end + WIDE
            raw[at, 0] = draw.uniform(max(last, first - WIDE), first)
            raw[at, 1] = last = draw.uniform(end, min(after, end + WIDE))
    clock = {it: time for time, it in enumerate(sorted(raw, key=raw.get))}
    return [(clock[at, 0], clock[at, 1]) for at in range(len(made))]


def lines_of(events, cores, draw):
    """The lines of a record: up to what none can have, and until some core runs, which ends the run."""
    lines, cut = Lines(cores), 0
    for place, (event, said) in enumerate(events):
        if not lines.event(place, event, said):
            break
        if any(lines.running):
            cut = len(lines.made), lines.running.index(True), place
    many, core, place = cut
    made = [it for it in lines.made[:many] if it[2] <= place]
    made.append(["open", core, place + 1, place + 1, (fw.SYSTEM_OFF[0], 0, 0, 0)])
    return [f"head 1 40000000 40000000 0 {cores:x} 0", *told(made, place, draw)]


def told(made, end, draw):
    numbers = {}
    for (kind, core, _, over, words), (begin, back) in zip(made, times(made, draw)):
        if over > end + 1:  # it was still asleep where the record ends
            kind, words = "open", words[:4]
        number = numbers[core] = numbers.get(core, -1) + 1
        clock = {"call": (begin, back, 1), "open": (begin,), "enter": (back,)}[kind]
        yield " ".join([kind, *(f"{it:x}" for it in (core, number, *clock, *words))])
