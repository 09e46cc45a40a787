"""Differences of one kind: function, their answer, ours, and what it is.

What the standard says is told in the words of docs/port/SUPPORT.md, by the name of the function's
section (DEN0022D; the calling convention is DEN0028), with its number where a choice lies in a part of it.
"""
from collections import namedtuple

import firmware as fw

from .words import LEVELED, LOW, SLEEPS, function_of, name_of

Group = namedtuple("Group", "kind what theirs ours why")
Seen = namedtuple("Seen", "count later first")

MANDATORY = fw.VERSION + fw.CPU_OFF + fw.CPU_ON + fw.AFFINITY_INFO + fw.SYSTEM_OFF + fw.SYSTEM_RESET
# the codes that a function has by its section, and NOT_SUPPORTED where a profile may say that it is not there
CODES = ((fw.CPU_SUSPEND, (0, -1, -2, -3, -9)), (fw.NODE_HW_STATE, (0, 1, 2, -1, -2)), (fw.SYSTEM_SUSPEND, range(-9, 1)),
         (fw.SYSTEM_RESET2, range(-9, 0)), (fw.FEATURES, range(-1, 2**31)))


def theirs_of(operation):
    want = operation.want
    return {"return": lambda: str(want[1]), "any": lambda: "never came back", "enter": lambda: "enters",
            "resume": lambda: "goes on", "absent": lambda: "has not entered"}.get(want[0], lambda: want[0])()


def in_words(answers):
    return " or ".join(sorted({it.split(" 0x")[0].replace("enter", "enters differently") for it in answers}))


class Case:
    """A difference, as the rules below ask for it."""

    def __init__(self, difference):
        operation = difference.operation
        self.word, self.regs = operation.word, operation.regs or [0, 0, 0, 0]
        self.code = operation.want[1] if operation.want[0] == "return" else None
        self.want, self.ours = operation.want[0], set(difference.ours)

    def of(self, words):
        return self.word in words

    def pair(self, code, *ours):
        return self.code == code and self.ours <= set(map(str, ours))

    @property
    def has_no_such(self):
        """Whether the code is one that the function does not have."""
        return self.code is not None and any(self.of(words) and self.code not in codes for words, codes in CODES)

    @property
    def is_dirty(self):
        """Whether bits are set above an argument or a word of 32 bits."""
        first = self.regs[1] > LOW and not self.regs[0] & fw.SMC64
        level = self.of(LEVELED) and self.regs[2] > LOW
        return first or level

    @property
    def asked(self):
        return self.regs[1] & LOW


# the first rule that holds says what a difference is
RULES = (
    (lambda it: it.word is not None and it.regs[0] > LOW and it.code == -1, "fault",
     "DEN0028: the function word is w0; the upper half of x0 is ignored"),
    (lambda it: it.word is not None and it.is_dirty, "fault",
     "DEN0028: an argument of 32 bits is in w1 or w2; the upper half is ignored"),
    (lambda it: it.want == "any" and it.of(SLEEPS), "fault",
     "CPU_SUSPEND, SYSTEM_SUSPEND: the core did not come back, though its timer was set"),
    (lambda it: it.want == "any" and it.of(fw.SYSTEM_RESET2) and it.regs[1] >> 31 & 1, "choice",
     "SYSTEM_RESET2: a vendor's reset that the profile does not have"),
    (lambda it: it.want == "any", "fault", "the system ended by a call that must be refused"),
    (lambda it: it.want == "absent", "fault", "CPU_ON: it was accepted, and the core did not enter"),
    (lambda it: it.has_no_such, "fault", "the function has no such code: its section lists those that it has"),
    (lambda it: it.of(fw.FEATURES) and it.asked in MANDATORY and it.code == -1, "fault",
     "PSCI_FEATURES: a mandatory function is reported absent"),
    (lambda it: it.of(fw.FEATURES), "choice",
     "PSCI_FEATURES: the answer contradicts the profile: correct the profile or the firmware"),
    (lambda it: it.of(fw.CPU_ON) and it.code == 0 and "-5" in it.ours, "fault",
     "CPU_ON: ON_PENDING while a CPU_ON is being processed; one caller's entry is lost"),
    (lambda it: it.of(fw.CPU_ON) and it.code in (0, -4, -5) and "-2" in it.ours, "fault",
     "CPU_ON: INVALID_PARAMETERS where the target is no core; unused fields are zero"),
    (lambda it: it.of(fw.CPU_ON) and it.pair(0, -4), "habit", "CPU_ON: the target counts as off inside its CPU_OFF"),
    (lambda it: it.of(fw.CPU_ON) and it.pair(-4, -5, 0), "habit",
     "CPU_ON: the target counts as ON before it has entered; ON_PENDING is never reported"),
    (lambda it: it.of(fw.CPU_ON) and it.code == -2 and "-9" in it.ours, "habit",
     "CPU_ON: a bad entry point is INVALID_ADDRESS from version 1.0 on"),
    (lambda it: it.of(fw.CPU_ON) and it.pair(0, -9), "choice",
     "CPU_ON: INVALID_ADDRESS where the firmware knows it; the profile says which entry points there are"),
    (lambda it: it.of(fw.CPU_ON) and it.code in (-2, -9) and "0" in it.ours, "fault",
     "CPU_ON: a good target and entry point are refused"),
    (lambda it: it.of(fw.CPU_ON), "fault", "CPU_ON: no order of calls gives this answer"),
    (lambda it: it.of(fw.AFFINITY_INFO) and it.code in (0, 1, 2) and "-2" in it.ours, "fault",
     "AFFINITY_INFO: INVALID_PARAMETERS for what is no core or domain; unused fields are zero"),
    (lambda it: it.of(fw.AFFINITY_INFO) and it.code == 1 and it.ours <= {"0", "2"}, "fault",
     "AFFINITY_INFO: OFF is reported for a core that is ON, or whose CPU_ON was accepted"),
    (lambda it: it.of(fw.AFFINITY_INFO) and it.pair(0, 2), "habit",
     "AFFINITY_INFO: ON at once after CPU_ON; ON_PENDING is never reported"),
    (lambda it: it.of(fw.AFFINITY_INFO), "fault", "AFFINITY_INFO: no order of calls gives this answer"),
    (lambda it: it.of(fw.NODE_HW_STATE), "choice",
     "NODE_HW_STATE: the hardware's state, and the levels, are the platform's"),
    (lambda it: it.of(fw.CPU_SUSPEND) and it.code == 0 and it.ours <= {"-2"}, "fault",
     "CPU_SUSPEND: INVALID_PARAMETERS for a power state that the platform does not have"),
    (lambda it: it.of(fw.CPU_SUSPEND) and it.code == 0, "choice",
     "CPU_SUSPEND: it may come back at once; the profile says so by 'early yes'"),
    (lambda it: it.of(fw.CPU_SUSPEND) and it.code == -1, "fault",
     "CPU_SUSPEND: NOT_SUPPORTED by a firmware whose profile has it"),
    (lambda it: it.of(fw.CPU_SUSPEND) and it.code == -2, "choice",
     "CPU_SUSPEND: power states are the platform's (5.4, power_state); the profile says by 'state' which there are"),
    (lambda it: it.of(fw.CPU_SUSPEND) and it.code == -3, "choice",
     "CPU_SUSPEND: DENIED is of OS-initiated mode (5.4), and which cores are in the way then the platform's"),
    (lambda it: it.of(fw.CPU_SUSPEND) and it.code == -9, "choice",
     "CPU_SUSPEND: INVALID_ADDRESS where the firmware knows it (5.4); the profile says which entry points there are"),
    (lambda it: it.of(fw.CPU_SUSPEND), "fault", "CPU_SUSPEND: no order of calls gives this answer"),
    (lambda it: it.want == "resume", "choice", "CPU_SUSPEND: a power-down was made a standby; 'early yes' allows it"),
    (lambda it: it.want == "enter", "fault", "a core enters differently than CPU_ON asked, or without a CPU_ON"),
    (lambda it: it.of(fw.SYSTEM_SUSPEND) and it.pair(0, -3), "fault",
     "SYSTEM_SUSPEND: DENIED where another core is not off"),
    (lambda it: it.word is not None and it.ours == {"-1"}, "choice",
     "PSCI_FEATURES: optional functions are the firmware's; the profile does not have this one"),
    (lambda it: True, "fault", "no order of calls gives this answer"),
)


def group_of(difference):
    case = Case(difference)
    kind, why = next((kind, why) for holds, kind, why in RULES if holds(case))
    operation = difference.operation
    what = function_of(operation.regs[0]) if operation.regs else "an entry" if case.want == "enter" else (
        "a wait" if case.want == "absent" else "a standby")
    if case.of(fw.FEATURES):
        what += f" of {name_of(case.asked)}"
    return Group(kind, what, theirs_of(operation), in_words(difference.ours), why)


def grouped(verdicts):
    """The groups of all differences and faults that were seen, each with its count and first line."""
    found = {}
    for verdict in verdicts:
        for it in verdict.differences:
            operation = it.operation
            clock = f", clock {operation.begin}..{operation.end}" if operation.begin is not None else ""
            add(found, group_of(it), it.is_later, f"{verdict.name}, {operation.text}{clock}")
        for it in verdict.remarks:
            if it.kind == "fault":
                add(found, Group("fault", it.what, "seen", "never", "by a line of the record"), False,
                    f"{verdict.name}, {it.text}")
    return dict(sorted(found.items()))


def add(found, group, is_later, where):
    seen = found.get(group)
    if seen is None:
        found[group] = Seen(1, int(is_later), where)
    else:
        first = where if not is_later and seen.count == seen.later else seen.first
        found[group] = Seen(seen.count + 1, seen.later + is_later, first)
