"""Which answers have come in a run of random scripts, and which of them too seldom.

A rule may be wrong for one caller alone, in one mode or in one life. So an answer counts for
itself by the mode of suspends, by whether another core than the boot core called or entered, and
by whether the life was the first; and so do the calls in a life that is to end.
"""
from collections import Counter, namedtuple
from itertools import product

import firmware as fw
from script import World

Seen = namedtuple("Seen", "function answer mode core life")
MODES, CORES = ("platform-coordinated", "OS-initiated"), ("boot core", "another core")
LIVES = ("first life", "later life")
LEAST = 20
STOPS = "stops without a message"

NAMES = {words: name for words, (name, _) in fw.FUNCTIONS.items()}
OTHER = "another word"
# what is told apart of the answers of some functions
APART = {
    "CPU_SUSPEND": {"-2": ("-2 faulty",), "down": ("down 1", "down 2", "down 3")},
    "PSCI_SET_SUSPEND_MODE": {"0": ("0 as before", "0 changed")},
}
LEVELED = tuple(fw.FUNCTIONS[words][0] for words in (fw.AFFINITY_INFO, fw.NODE_HW_STATE))


def told_apart(name, answer):
    """What an answer of a function counts as: it has to come in each of these cases."""
    if name in LEVELED:
        return tuple(f"{answer} of a {what}" for what in ("core", "domain"))
    return APART.get(name, {}).get(answer, (answer,))


# every answer that each function has in a life that goes on
ANSWERS = {
    **{name: tuple(it for answer in answers.split() for it in told_apart(name, answer))
       for name, answers in fw.FUNCTIONS.values()},
    OTHER: ("-1",),
    "enter": ("enter", "resume", "parks", STOPS),
    "take": ("used", "old"),
}
OS_INITIATED_ALONE = {"CPU_SUSPEND": ("-2 not the last core", "-3")}


def wanted():
    """Every answer that has to come, at every place along the axes where it can."""
    for function, answers in ANSWERS.items():
        silent = () if function in ("enter", "take") else (STOPS,)
        for answer in answers + silent:
            yield from (Seen(function, answer, *at) for at in product(MODES, CORES, LIVES))
    for function, answers in OS_INITIATED_ALONE.items():
        for answer in answers:
            yield from (Seen(function, answer, MODES[1], *at) for at in product(CORES, LIVES))


def seldom(seen):
    """A line for each answer that has come too seldom."""
    return [f"{' '.join(it)}: {seen[it]} times, {LEAST} are wanted"
            for it in wanted() if seen[it] < LEAST]


class Counted(World):
    """A world that counts its answers."""

    def __init__(self, board, seen):
        super().__init__(board)
        self.seen = seen

    def count(self, function, answer, core, mode):
        life = LIVES[self.firmware.life > 1]
        self.seen[Seen(function, answer, MODES[mode], CORES[core != 0], life)] += 1

    def call(self, core, regs):
        firmware = self.firmware
        mode, halting = firmware.mode, firmware.halting
        text = super().call(core, regs)
        if text not in ("absent", "ignored"):
            word = regs[0] % 2**32
            name = next((name for words, name in NAMES.items() if word in words), OTHER)
            answer = STOPS if halting else self.answered(name, regs, text.split(), mode)
            self.count(name, answer, core, mode)
        return text

    def answered(self, name, regs, words, mode):
        """An answer as ANSWERS has it."""
        said = words[1] if words[0] == "return" else words[2]
        if name == "CPU_ON":
            return "start" if "start" in words else said
        if name in LEVELED:
            return f"{said} of a {'domain' if regs[2] % 2**32 else 'core'}"
        if name == "PSCI_SET_SUSPEND_MODE" and said == "0":
            return "0 as before" if self.firmware.mode == mode else "0 changed"
        if name == "CPU_SUSPEND":
            depths = fw.depths_of(regs[1] % 2**32, self.board)
            if said == "-2":
                return "-2 faulty" if depths is None else "-2 not the last core"
            return f"down {depths[0]}" if said == "down" else said
        return said

    def enter(self, core):
        text = super().enter(core)
        if text not in ("absent", "ignored"):
            words = text.split()
            answer = STOPS if words == ["stop"] else "parks" if words[0] == "stop" else words[0]
            self.count("enter", answer, core, self.firmware.mode)
        return text

    def take(self, index):
        text = super().take(index)
        if text != "absent":
            self.count("take", text, self.acks[index].core, self.firmware.mode)
        return text
