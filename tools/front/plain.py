"""Scripts by name: calls whose registers are names, made plain, and plain calls said by name.

In a line `call CORE NAME ..` the name of a function stands for its word, and arguments may be names, too, as
docs/port/FORMATS.md has them, in capitals or small letters.
"""
import re
from collections import namedtuple

import functions

from . import boards
from .events import read_event
from .reader import MOST_BYTES, TOO_LONG, Wrong, near, number_fault, strange

# A function: its words by SMC32 and SMC64 (None where there is none), and the kinds of its arguments.
Function = namedtuple("Function", "smc32 smc64 takes")
# the kinds of arguments that have names, by what the table of functions calls them
KINDS = {"PowerState": "state", "Word": "function", "Mode": "mode"}


def kinds(takes):
    """The kinds of these arguments: a target is a domain where its level comes with it."""
    named = {**KINDS, "Target": "domain" if "Level" in takes else "core"}
    return tuple(named.get(it, "number") for it in takes)


FUNCTIONS = {it.short: Function(it.smc32, it.smc64, kinds(it.takes)) for it in functions.TABLE}
MODES = {"platform": 0, "os": 1}
# what is said to be expected of an argument
EXPECTED = {
    "core": "a core of this board, as 3 or core3",
    "domain": "a domain of this board, as 3, cluster1 or system",
    "state": "a power state, as cluster or power-down,retention",
    "mode": "platform or os",
    "function": "a function",
}
# the beginning of a call by name
NAMED = re.compile(r"call ([0-9]+) ([A-Za-z][^ ]*)")
DEPTHS = ("on", "standby", "retention", "power-down")
LEVELS = {1: ("core", "cluster"), 2: ("core", "cluster", "system"),
          3: ("core", "cluster", "group", "system")}


def word_of(name):
    """The function word of a name, which is that of SMC64 where there is one, unless .32 ends it."""
    base, dot, bits = name.partition(".")
    function = FUNCTIONS.get(base)
    if function is None or (dot and (bits != "32" or function.smc64 is None)):
        return None
    return function.smc32 if dot or function.smc64 is None else function.smc64


NAMES = {word_of(name): name for base in FUNCTIONS for name in (base, f"{base}.32") if word_of(name)}


class Board:
    """What names need of a board: its levels, the affinity words of its domains, and the format."""

    def __init__(self, text):
        number = boards.number(text)
        if number:
            raise Wrong(*boards.fault(number, text))
        tree = boards.read_board(text)[0]
        members = tree.members or [tree.single]
        height = 1 if tree.members is None else 3 if isinstance(members[0][1], list) else 2
        groups = [it for _, it in members] if height == 3 else [members]
        self.levels, self.is_extended = LEVELS[height], text.endswith(" format extended")
        # of each level its domains' affinity words, in order
        self.words = {name: [] for name in self.levels}
        for group, clusters in enumerate(groups):
            if height == 3:
                self.words["group"].append(group << 16)
            for cluster, (_, cores) in enumerate(clusters):
                self.words["cluster"].append(group << 16 | cluster << 8)
                self.words["core"] += [group << 16 | cluster << 8 | core for core in range(cores)]
        if height > 1:
            self.words["system"].append(0)

    def domain(self, name):
        """The affinity word and the level of core 3, cluster1, system or the like; nothing if it is none."""
        match = re.fullmatch(r"([a-z]*)(|0|[1-9][0-9]{0,2})", name)
        level = (match[1] or "core") if match else None
        found = self.words.get(level, [])
        at = int(match[2] or 0) if match else 0
        if at >= len(found) or (not match[2] and len(found) > 1):
            return None
        return found[at], self.levels.index(level)

    def name(self, word, level):
        """The name of the domain that has this word at this level, or nothing."""
        if level >= len(self.levels):
            return None
        found = self.words[self.levels[level]]
        mask = -1 << 8 * level if level < len(self.levels) - 1 or level == 0 else None
        known = 0 if mask is None and word == 0 else word
        if mask is None and word != 0:
            return None
        if known not in found:
            return None
        return self.levels[level] + ("" if len(found) == 1 and level else str(found.index(known)))

    def state(self, name):
        """The power state word of a name: a level that is powered down with all below it, or depths
        from the core up, as `power-down,retention`. Nothing where it is none."""
        if name in self.levels:
            depths = [3] * (self.levels.index(name) + 1)
        elif all(it in DEPTHS for it in name.split(",")):
            depths = [DEPTHS.index(it) for it in name.split(",")]
        else:
            return None
        if len(depths) > len(self.levels) or depths != sorted(depths, reverse=True):
            return None
        while depths and depths[-1] == 0:
            depths.pop()
        if not depths:
            return None
        word = sum(depth << 4 * level for level, depth in enumerate(depths))
        if self.is_extended:
            return word | (depths[0] == 3) << 30
        return word | (depths[0] == 3) << 16 | (len(depths) - 1) << 24

    def state_name(self, word):
        """The name of a power state word that is accepted, or nothing."""
        depths = [word >> 4 * level & 15 for level in range(len(self.levels))]
        while depths and depths[-1] == 0:
            depths.pop()
        if not depths or max(depths) > 3:
            return None
        down = all(it == 3 for it in depths)
        name = self.levels[len(depths) - 1] if down else ",".join(DEPTHS[it] for it in depths)
        return name if self.state(name) == word else None


def argument(board, kind, word, at):
    """The registers that an argument stands for: its number, and the level of a domain by name."""
    if re.match("[0-9]", word) and not (kind in ("core", "domain") and word.isdigit()):
        numbered(word, "a register", None, at)
        return [word]
    found = {"core": board.domain, "domain": board.domain, "state": board.state, "mode": MODES.get,
             "function": word_of_any}.get(kind, lambda name: None)(word.lower())
    if found is None or (kind == "core" and found[1] != 0):
        raise Wrong(at, f"'{word}'; expected {EXPECTED.get(kind, 'a number')}")
    if kind == "domain":
        return [f"{found[0]:#x}", str(found[1])]
    return [f"{found[0] if kind == 'core' else found:#x}"]


def numbered(word, what, hexadecimal, at):
    """Raises where a word at this place is no number."""
    reason = number_fault(word, what, hexadecimal)
    if reason:
        raise Wrong(at + reason[0], reason[1])


def word_of_any(name):
    """The function word of a name in small letters, as the standard has it or shorter; nothing if it is none."""
    name = name.removeprefix("psci_")
    return word_of(f"cpu_{name}" if name in ("suspend", "suspend.32") else name)


def called(name, at):
    """The function word of a name in a call, which stands at this place."""
    word = word_of_any(name.lower())
    if word is None:
        like = near(name.lower(), list(FUNCTIONS))
        raise Wrong(at, f"unknown function '{name}'" + (f": did you mean {like[-1]}?" if like else ""))
    return word


def form_of(line):
    """What a call of this name takes, if the line names a function."""
    match = NAMED.match(line)
    word = word_of_any(match[2].lower()) if match else None
    if word is None:
        return None
    takes = next(it.takes for it in functions.TABLE if it.short == NAMES[word].partition(".")[0])
    words = [re.sub("(?<=[a-z])(?=[A-Z])", "-", it).upper() for it in takes]
    return f"call CORE {match[2]}" + "".join(f" [{it}" for it in words) + "]" * len(words)


def takes_of(word):
    """The kinds of what a call of this word takes."""
    return FUNCTIONS[NAMES[word].partition(".")[0]].takes


def plain_call(board, line):
    """The plain line of a call by name; one that is plain already, or faulty, as it is."""
    match = NAMED.match(line)
    if not match:
        return line
    if len(line) > MOST_BYTES:
        raise Wrong(MOST_BYTES, TOO_LONG)
    bad = re.search(r"[^ -~]", line)
    if bad:
        raise Wrong(bad.start(), f"{strange(bad[0])}, where only letters and blanks are allowed")
    numbered(match[1], "the number of a core", False, match.start(1))
    word, at = called(match[2], match.start(2)), match.end()
    takes, registers = takes_of(word), []
    for given in line[at:].split(" ")[1:]:
        at += 1
        if len(registers) >= len(takes):
            raise Wrong(at, f"a word too many: {NAMES[word]} takes {len(takes)}")
        registers += argument(board, takes[len(registers)], given, at)
        at += len(given)
    return " ".join([f"call {match[1]} 0x{word:X}", *registers])


def argument_name(board, kind, word, given):
    """An argument of a plain call said by name, as far as it has one; in hexadecimal where a decimal
    number would name a core."""
    value = int(word, 0)
    if kind == "state":
        return board.state_name(value) or word
    if kind == "core":
        return board.name(value, 0) or f"{value:#x}"
    if kind == "domain":
        return board.name(value, int(given[1], 0)) if len(given) > 1 else f"{value:#x}"
    if kind == "mode":
        return next((name for name, it in MODES.items() if it == value), word)
    return NAMES.get(value, word) if kind == "function" else word


def named_call(board, line):
    """A plain call said by name, as far as its words have names; any other line as it is."""
    try:
        read_event(line)
    except Wrong:
        return line
    words = line.split(" ")
    name = NAMES.get(int(words[2], 0)) if words[0] == "call" else None
    takes, given = FUNCTIONS[name.partition(".")[0]].takes if name else (), words[3:]
    if name is None or len(given) > len(takes):
        return line
    said = [argument_name(board, kind, word, given) for kind, word in zip(takes, given)]
    if said and takes[0] == "domain" and len(given) > 1:
        said = said[:1] if said[0] else [f"{int(given[0], 0):#x}", given[1]]
    return " ".join([*words[:2], name, *said])
