"""What the firmware is called with for a call of a machine: psci_platform's rules once more.

What the machine does not have becomes a word that no firmware has, so that the firmware refuses it
itself, and where its own order has it.
"""
from . import plain
from .machine_faults import depths, is_ask
from .machine_swap import other_word
from .machines import FUNCTIONS

NO_FUNCTION, NO_STATE, NO_CORE = 0, 0xFFFFFFFF, 0xFFFFFFFF
PLATFORM, OS_INITIATED = 0, 1
# PSCI_SET_SUSPEND_MODE is there where CPU_SUSPEND is
NEEDS = {"set_suspend_mode": "cpu_suspend"}


def function_of(word):
    """The name of the function that this word calls, or nothing."""
    return plain.NAMES.get(word % 2 ** 32, "").partition(".")[0]


def first_of(name):
    """The kind of a function's first argument, or nothing."""
    takes = plain.FUNCTIONS[name].takes if name in plain.FUNCTIONS else ()
    return takes[0] if takes else None


def is_there(machine, name):
    """Whether the machine has a function; one that nobody has is the firmware's to refuse."""
    name = NEEDS.get(name, name)
    return name not in FUNCTIONS or name in machine.functions


def core_named(machine, word, level):
    """The first core whose MPIDR has the fields of a word, at this level and above; or nothing."""
    if level > machine.height:
        return None
    return next((core for core, mpidr in enumerate(machine.mpidrs)
                 if mpidr >> 8 * level == word >> 8 * level), None)


def core_word(machine, word, level):
    """The board's affinity word for an MPIDR at a level: the firmware's, whichever core boots."""
    core = core_named(machine, word, level)
    return NO_CORE if core is None else other_word(machine, machine.cores[core])


def can_ask(machine, mode, states):
    """Platform-coordinated, only the first state of a class is asked for above the core."""
    return mode == OS_INITIATED or not any(
        number and classes[number] == classes[number - 1]
        for number, classes in zip(states[1:], machine.classes[1:]))


def states_of(machine, mode, word):
    """The states that a power state word asks for in a mode, or nothing."""
    row = next((it for it in machine.rows if word & it.mask == it.word), None)
    return row.states if row and can_ask(machine, mode, row.states) else None


def word_for(machine, states):
    """The board's power state word for these states."""
    if states is None or not is_ask(depths(machine, states)):
        return NO_STATE
    asked = depths(machine, states)
    word = sum(depth << 4 * level for level, depth in enumerate(asked))
    if machine.is_extended:
        return word | (asked[0] == 3) << 30
    return word | (asked[0] == 3) << 16 | max(level for level in range(4) if asked[level]) << 24


def translated(machine, mode, regs):
    """The registers that the firmware is called with, and what is asked beside: nothing, the states
    of the levels, or a reset type of the vendor."""
    x0, x1, x2, x3 = regs
    name = function_of(x0)
    if not is_there(machine, name):
        return (NO_FUNCTION, x1, x2, x3), None
    wide = x1 if x0 >> 30 & 1 else x1 % 2 ** 32
    kind, asked = first_of(name), None
    if kind == "state":
        asked = states_of(machine, mode, x1 % 2 ** 32)
        x1 = word_for(machine, asked)
    elif kind in ("core", "domain"):
        x1 = core_word(machine, wide, 0 if kind == "core" else x2 % 2 ** 32)
    elif kind == "function":
        x1 = x1 % 2 ** 32 if is_there(machine, function_of(x1)) else NO_FUNCTION
    elif name == "system_suspend":
        asked = machine.system
    elif name == "system_reset2":
        own = x1 % 2 ** 32
        x1, asked = (0, own) if own in machine.resets else (own, None)
    return (x0, x1, x2, x3), asked
