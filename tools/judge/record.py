"""Reads a record of calls: the operations of each core, life by life."""
from collections import namedtuple

from . import lines
from .lines import ODD, Unreadable, is_of_calls  # noqa: F401
from .words import CONVENTION, LOW, SLEEPS, STOPS, code_of, name_of

INFINITE = float("inf")
# registers that a call has to keep by every version of the calling convention: x18 to x30, v0 to v31
KEPT = 0x7FFC0000 | 0xFFFFFFFF << 32
# what each version of the convention but 1.0 has a call keep, too
EARLY_REGISTERS = "x4 to x17 changed, as version 1.0 of the convention lets them"
# what a record says that is no answer: kind is "fault" or "note"
Remark = namedtuple("Remark", "kind what text")


class Operation:
    """What a core did: a call with its answer, an entry, the end of a standby, or a look whether
    another core has entered. It took effect between `begin` and `end`.

    `want` is ("return", code), ("stop",), ("enter", address, context), ("resume",),
    ("absent", core), or ("any",) for a call that is open at the end."""
    __slots__ = ("core", "at", "begin", "end", "regs", "want", "text", "is_halved")

    def __init__(self, core, begin, end, regs, want, text):
        self.core, self.begin, self.end, self.regs, self.want, self.text = core, begin, end, regs, want, text
        self.at, self.is_halved = 0, False

    @property
    def word(self):
        return self.regs[0] & LOW if self.regs else None


class Life:
    """What was recorded from a start of the machine to its end."""

    def __init__(self, head):
        self.head, self.operations, self.remarks = head, {}, []
        # of each core the time of its last entry
        self.last_entry = {}
        # suspends from which no core came back
        self.broken = []

    def ordered(self):
        """The operations that came to an end, as their ends follow each other."""
        every = [it for mine in self.operations.values() for it in mine if it.end < INFINITE]
        return sorted(every, key=lambda it: (it.end, it.core, it.at))


def read(path):
    """The lives of a record."""
    return [life_of(it) for it in lines.read(path)]


def life_of(found):
    """A life, by its lines."""
    life = Life(found.head)
    for line in found.others:
        remark(life, line.kind, line.numbers)
    gather(life, {core: [(it.kind, it.numbers) for it in mine] for core, mine in sorted(found.of_core.items())})
    # a suspend that is open as the system goes off may just have begun: a step has to be late, too
    if not any(it.what == "late" for it in life.remarks):
        life.broken = []
    return life


def remark(life, kind, numbers):
    """Keeps what a line says that is no answer."""
    if kind == "late":
        life.remarks.append(Remark("note", "late", f"core {numbers[0]}: step {numbers[1]} did not end in time"))
    elif kind == "fault":
        text = f"core {numbers[0]}: exception, syndrome {numbers[1]:#x}, at {numbers[2]:#x}"
        life.remarks.append(Remark("fault", "exception", text))
    elif kind == "lost":
        names = names_of(numbers[1], 4)
        life.remarks.append(Remark("fault", "registers that changed without a call", f"core {numbers[0]}: {names}"))
    elif kind == "odd":
        life.remarks.append(Remark("fault", ODD[numbers[1]], f"core {numbers[0]}: {numbers[2]:#x}"))
    else:
        text = f"core {numbers[0]}: CurrentEL {numbers[1]:#x}, DAIF {numbers[2]:#x}, SCTLR {numbers[3]:#x}"
        life.remarks.append(Remark("fault", "the state in which a core enters", text))


def gather(life, of_core):
    """Makes operations of the lines of each core."""
    life.last_entry = {core: max(it[2] for kind, it in mine if kind == "enter") for core, mine in of_core.items()
                       if any(kind == "enter" for kind, _ in mine)}
    for core, every in of_core.items():
        mine = life.operations[core] = []
        for at, (kind, numbers) in enumerate(every):
            is_last = at + 1 == len(every)
            mine += {"call": called, "open": opened, "enter": entered, "lacks": lacked}[kind](life, numbers, is_last)
        for at, it in enumerate(mine):
            it.at = at
            if it.want == ("stop",) and at + 1 < len(mine):
                it.end = mine[at + 1].end


def convention(lives):
    """The highest version of the calling convention that was told, 0 where none was asked for."""
    return max((it.want[1] for life in lives for mine in life.operations.values() for it in mine
                if it.word == CONVENTION and it.want[0] == "return"), default=0)


def told(core, regs):
    return f"core {core}: {name_of(regs[0])} " + " ".join(f"{it:#x}" for it in regs[1:])


def called(life, numbers, _is_last):
    """A call that came back; two operations where it is a run of polls, or may be a standby."""
    core, _, begin, end, many = numbers[:5]
    regs, results, lost = numbers[5:9], numbers[9:13], numbers[13]
    code = code_of(regs[0], results[0])
    first = Operation(core, begin, end, regs, ("return", code), told(core, regs))
    look_at_registers(life, first, results, lost)
    if many > 1:
        return [first, Operation(core, begin, end, regs, ("return", code), first.text + " (the last poll)")]
    if first.word in SLEEPS and code == 0:
        first.is_halved = True
        return [first, Operation(core, None, end, None, ("resume",), first.text + " (it goes on)")]
    return [first]


def names_of(lost, first):
    """The registers that these bits stand for, from this one on."""
    return ", ".join(f"x{it}" if it < 32 else f"v{it - 32}" for it in range(first, 64) if lost >> it & 1)


def look_at_registers(life, operation, results, lost):
    regs = operation.regs
    if lost & KEPT:
        life.remarks.append(Remark("fault", "registers that a call must keep", f"{operation.text}: {names_of(lost, 18)}"))
    elif lost:
        life.remarks.append(Remark("note", EARLY_REGISTERS, operation.text))
    if results[1:] != regs[1:]:
        life.remarks.append(Remark("note", "x1 to x3 changed", operation.text))
    if not regs[0] & 1 << 30 and results[0] > LOW:
        life.remarks.append(Remark("note", "the upper half of a 32-bit result is not zero", operation.text))


def opened(life, numbers, is_last):
    """A call that did not come back: the core stopped, or the record ended."""
    core, _, begin, regs = *numbers[:3], numbers[3:]
    operation = Operation(core, begin, INFINITE, regs, ("any",) if is_last else ("stop",), told(core, regs))
    if is_last and operation.word in SLEEPS:
        life.broken.append(operation)
    elif is_last and operation.word not in STOPS:
        life.remarks.append(Remark("note", "never came back", operation.text))
    return [operation]


def entered(_life, numbers, _is_last):
    core, _, at, address, context = numbers
    return [Operation(core, None, at, None, ("enter", address, context),
                      f"core {core} enters {address:#x} {context:#x}")]


def lacked(life, numbers, _is_last):
    """A look at a core that has not entered. It is none where the core does so later: the machine is slow."""
    core, _, at, target, times = numbers
    if life.last_entry.get(target, -1) > at:
        text = f"core {core} waits for entry {times} of core {target}"
        life.remarks.append(Remark("note", "an entry came after the list stopped waiting", text))
        return []
    return [Operation(core, None, at, None, ("absent", target),
                      f"core {core} waits for entry {times} of core {target}")]
