"""The text of a machine, its faults, and what the firmware is asked for its calls.

Written from docs/port/FORMATS.md. `Machine` reads a text, `fault` finds the first fault of what it says, and
`asked` says of a call which registers the firmware is called with, and what else is asked. `Caller` answers
a script of a machine's calls, by the world of script.py.
"""
import re

import firmware as fw
from board import DEC, HEX, Board, Fault

CLASSES = {"standby": 1, "retention": 2, "power-down": 3, "running": 0}
FUNCTIONS = {"cpu_suspend": fw.CPU_SUSPEND + fw.SET_SUSPEND_MODE, "cpu_off": fw.CPU_OFF, "cpu_on": fw.CPU_ON,
             "system_off": fw.SYSTEM_OFF, "system_reset": fw.SYSTEM_RESET, "node_hw_state": fw.NODE_HW_STATE,
             "system_suspend": fw.SYSTEM_SUSPEND, "system_reset2": fw.SYSTEM_RESET2}
NAMED = "|".join(FUNCTIONS)
LINES = [
    rf"core ({HEX})", rf"(boot) ({HEX})", rf"(levels) ({DEC})",
    rf"(class [0-3])((?: (?:{'|'.join(CLASSES)})){{1,15}})", rf"word ({HEX})(?:/({HEX}))?((?: {DEC}){{1,4}})",
    rf"(system-suspend)((?: {DEC}){{1,4}})", rf"(functions)((?: (?:{NAMED}))*)", rf"reset ({HEX})",
]
NOTHING = 0xFFFFFFFF


class Machine:
    """A description, by its text; raises fault 0 where that is none, and the board's fault."""

    def __init__(self, text):
        lines = text.split("\n")
        if not lines[0].startswith("board "):
            raise Fault("machine fault 0")
        self.text = lines[0][len("board "):]
        self.board = Board(self.text)
        self.mpidrs, self.rows, self.resets, once = [], [], [], {}
        for line in lines[1:]:
            if line and line[0] != "#":
                self.line(line, once)
        if not {"boot", "levels", "functions"} <= set(once):
            raise Fault("machine fault 0")
        self.boot, self.levels = int(once["boot"], 16), int(once["levels"])
        self.there = set(once["functions"].split())
        given = [[CLASSES[it] for it in once.get(f"class {level}", "").split()] for level in range(4)]
        self.system = self.vector(once.get("system-suspend", "0"))
        if any(number > len(given[level]) for _, _, states in self.rows + [(0, 0, self.system)]
               for level, number in enumerate(states)) or self.levels >= 2**32:
            raise Fault("machine fault 0")
        # of each level the depth of each number
        self.depths = [[0] + classes + [([0] + classes)[-1]] * (15 - len(classes)) for classes in given]

    def line(self, line, once):
        found = [match.groups() for match in (re.fullmatch(it, line) for it in LINES) if match]
        if not found:
            raise Fault("machine fault 0")
        first, *others = found[0]
        if line.startswith("core "):
            self.mpidrs.append(int(first, 16))
        elif line.startswith("reset "):
            self.resets.append(self.narrow(first))
        elif line.startswith("word "):
            self.rows.append((self.narrow(first), self.narrow(others[0] or "0xffffffff"), self.vector(others[1])))
        else:
            names = others[0].split()
            if first in once or (first == "functions" and len(set(names)) < len(names)):
                raise Fault("machine fault 0")
            once[first] = others[0]

    @staticmethod
    def narrow(text):
        if int(text, 16) >= 2**32:
            raise Fault("machine fault 0")
        return int(text, 16)

    @staticmethod
    def vector(text):
        numbers = [int(it) for it in text.split()]
        return tuple(numbers + [0] * (4 - len(numbers)))


def depth(m, level, number):
    return m.depths[level][number] if number < 16 else 3


def asks(m, states):
    """The depths of some states, or None where they are no power state."""
    depths = [depth(m, level, number) for level, number in enumerate(states)]
    falls = all(above <= below for below, above in zip(depths, depths[1:]))
    return depths if depths[0] and falls else None


def has(m, states):
    """The machine has these states, and none above its levels."""
    return all(it < 16 for it in states) and not any(states[level] for level in (1, 2, 3) if level > m.levels)


# ---- the boot core, of which the firmware takes the number to be 0

def moved(m, node):
    """What a domain is swapped with, which need be none of the board: core 0 and the boot core, and the domains
    above them, trade numbers with each other among their siblings, and every other one keeps its own."""
    level, fields = node
    if level == m.board.height:
        return node
    first, boot = m.board.path(0), m.board.path(m.mpidrs.index(m.boot))
    number, above = fields[0], (level + 1, fields[1:])
    if above in (first[level + 1], boot[level + 1]):
        pair = [0, boot[level][1][0]]
        number = pair[1 - pair.index(number)] if number in pair else number
    return level, (number, *moved(m, above)[1])


def other(m, core):
    """The firmware's number of a core, and the core of a number of the firmware."""
    return m.board.places.index(moved(m, (0, m.board.places[core]))[1])


def symmetric(m):
    """Each core and domain of the board is swapped with one of the board, and that with it."""
    return all(moved(m, node) in m.board.nodes and moved(m, moved(m, node)) == node for node in m.board.nodes)


def fault(m):
    """The number of the first fault of a description, 0 where there is none."""
    zero, down = (0xB0000000, 1 << 30) if m.board.extended else (0xFCFE0000, 1 << 16)
    deep = lambda states: depth(m, 0, states[0]) == 3
    good = (
        len(m.mpidrs) == len(m.board.cores),
        all(mpidr & 0xFF00FFFFFF == mpidr for mpidr in m.mpidrs),
        len(set(m.mpidrs)) == len(m.mpidrs),
        m.boot in m.mpidrs,
        m.boot in m.mpidrs[:len(m.board.cores)] and symmetric(m),
        m.levels <= m.board.height,
        all(line[0] == 0 and line == sorted(line) for line in m.depths),
        len(m.rows) <= 64,
        all(word | mask == mask and mask & zero == zero and word & zero == 0 for word, mask, _ in m.rows),
        not any((one[0] ^ two[0]) & one[1] & two[1] == 0
                for at, one in enumerate(m.rows) for two in m.rows[:at]),
        all(mask & down and (word & down != 0) == deep(states) for word, mask, states in m.rows),
        all(has(m, states) and asks(m, states) for _, _, states in m.rows),
        "system_suspend" not in m.there or (
            has(m, m.system)
            and asks(m, m.system) == [3 if level <= m.board.height else 0 for level in range(4)]),
        ("cpu_off" not in m.there or "cpu_on" in m.there)
        and ("system_suspend" not in m.there or "cpu_suspend" in m.there)
        and all(it >> 31 for it in m.resets) and ("system_reset2" in m.there or not m.resets),
    )
    return good.index(False) + 1 if False in map(bool, good) else 0


# ---- calls

def lacks(m, word):
    return any(word in words and name not in m.there for name, words in FUNCTIONS.items())


def named(m, word, level):
    """The board's affinity word for an MPIDR, as the firmware numbers its cores."""
    if level > m.board.height:
        return NOTHING
    for core, mpidr in enumerate(m.mpidrs):
        if mpidr >> 8 * level == word >> 8 * level:
            return sum(field << 8 * at for at, field in enumerate(m.board.places[other(m, core)]))
    return NOTHING


def states_of(m, mode, word):
    """The states that a word asks for in this mode, or None."""
    for bits, mask, states in m.rows:
        if word & mask == bits:
            second = any(n and depth(m, level, n) == depth(m, level, n - 1) for level, n in enumerate(states) if level)
            return None if second and mode == fw.PLATFORM else states
    return None


def board_word(m, states):
    """The board's power state word for some states."""
    depths = asks(m, states) if states else None
    if depths is None:
        return NOTHING
    word = sum(it << 4 * level for level, it in enumerate(depths))
    if m.board.extended:
        return word + (1 << 30 if depths[0] == 3 else 0)
    return word + (1 << 16 if depths[0] == 3 else 0) + (max(at for at in range(4) if depths[at]) << 24)


def asked(m, mode, regs):
    """The registers of the firmware, and what else is asked: states, a reset of the vendor, or None."""
    x0, x1, x2, x3 = regs
    word = x0 % 2**32
    target = x1 if word & fw.SMC64 else x1 % 2**32
    if lacks(m, word):
        return (0, x1, x2, x3), None
    if word in fw.CPU_SUSPEND:
        states = states_of(m, mode, x1 % 2**32)
        return (x0, board_word(m, states), x2, x3), states
    if word in fw.CPU_ON:
        return (x0, named(m, target, 0), x2, x3), None
    if word in fw.AFFINITY_INFO + fw.NODE_HW_STATE:
        return (x0, named(m, target, x2 % 2**32), x2, x3), None
    if word in fw.FEATURES:
        return (x0, 0 if lacks(m, x1 % 2**32) else x1 % 2**32, x2, x3), None
    if word in fw.SYSTEM_SUSPEND:
        return regs, m.system
    if word in fw.SYSTEM_RESET2:
        kind = x1 % 2**32
        return (x0, 0 if kind in m.resets else kind, x2, x3), kind if kind in m.resets else None
    return regs, None
