"""The text of a machine (docs/port/FORMATS.md) from the facts of its device tree, with what these do not say.

The tree of power domains is that of the PSCI power domains where there are some, else that of the
affinity fields; a cpu-map, which is the scheduler's, is not looked at. A power state word is taken as
it is, whole. Its level is that of its power domain; without one it is what its node is called, a guess.
"""
from collections import Counter

from front import machine_faults, machines

from .facts import Facts, NoBoard
from .reader import Fault

RETENTION, POWER_DOWN = "retention", "power-down"
MOST_HEIGHT, MOST_BELOW, MOST_CORES, MOST_RANGES, MOST_STATES = 3, 16, 256, 4, 15
ANYWHERE = (0x40000000, 0x80000000)
LATE_BOOT_CORE = 5


def fields_of(mpidr):
    """The affinity fields, the lowest first."""
    return [mpidr >> shift & 255 for shift in (0, 8, 16, 32)]


class Description:
    """A description in the making: lines, and what is not told."""

    def __init__(self, facts, boot=None, ranges=(), is_first=False):
        self.facts, self.unknown, self.ranges = facts, [], list(ranges)
        if facts.method != "psci":
            self.unknown.append(f"PSCI: the cores of the tree are started by {facts.method}")
        self.cores = self.in_order(boot, is_first)
        self.boot = self.cores[0].mpidr if boot is None else boot
        self.made_up = 0
        self.paths = self.paths_of()
        self.height = max(len(path) for path in self.paths.values())
        self.tree = self.nested(self.cores, 0)
        # of each level the words of its states, and the classes of these
        self.states, self.rows = {}, {}
        self.words = self.words_of()
        self.is_extended = self.format()
        self.number_states()

    def in_order(self, boot, is_first):
        """The cores in the tree's order; or the boot core first, and so are the domains above it."""
        cores = self.facts.cores
        if boot is None:
            self.unknown.append("which core boots: the first one in the tree is taken")
            return cores
        if boot not in [it.mpidr for it in cores]:
            raise NoBoard(f"it has no core with the MPIDR {boot:#x}")
        return sorted(cores, key=lambda core: is_first and core.mpidr != boot)

    # ---- the tree of power domains

    def paths_of(self):
        """Of each core the domains over it, the topmost first."""
        paths = self.paths_of_domains() if self.facts.has_domains else self.paths_of_fields()
        height = max(map(len, paths.values()))
        for core, path in paths.items():
            if len(path) < height:
                self.unknown.append(f"a cluster of the core {core.mpidr:#x}: it is made up")
                path += [core] * (height - len(path))
        if len({path[0] for path in paths.values()}) > 1:
            self.unknown.append("a domain above the others: the top of the tree is made up, and no word may name it")
            self.made_up = 1
            paths = {core: [None, *path] for core, path in paths.items()}
        return paths

    def paths_of_domains(self):
        shared = Counter(core.domains[0] for core in self.cores)
        paths = {}
        for core in self.cores:
            # a domain that is of one core alone is the core's
            above = core.domains if shared[core.domains[0]] > 1 else core.domains[1:]
            paths[core] = above[::-1]
        if not any(paths.values()):
            return {core: ["cluster"] for core in self.cores} if len(self.cores) == 1 else {
                core: [core] for core in self.cores}
        return paths

    def paths_of_fields(self):
        self.unknown.append("power domains: the tree is that of the affinity fields")
        fields = [fields_of(core.mpidr) for core in self.cores]
        is_shifted = len(fields) > 1 and not any(it[0] for it in fields)
        above = [it[2 if is_shifted else 1:] for it in fields]
        while above[0] and len({it[-1] for it in above}) == 1:
            above = [it[:-1] for it in above]
        return {core: [None] + [tuple(it[at:]) for at in reversed(range(len(it)))]
                for core, it in zip(self.cores, above)}

    def nested(self, cores, depth):
        """The cores by their domains from this depth of their paths on, in the order in which they come."""
        if depth == self.height:
            return cores
        groups = {}
        for core in cores:
            groups.setdefault(self.paths[core][depth], []).append(core)
        return [self.nested(it, depth + 1) for it in groups.values()]

    def tree_text(self, part=None, depth=0):
        part = self.tree[0] if part is None else part
        if depth + 1 == self.height:
            return str(len(part))
        return f"({' '.join(self.tree_text(it, depth + 1) for it in part)})"

    def listed(self, part=None):
        """The cores in the order of the tree."""
        part = self.tree if part is None else part
        return [core for it in part for core in (self.listed(it) if isinstance(it, list) else [it])]

    def too_large(self):
        """Why no board has this tree, or nothing."""
        def widths(part):
            return [len(part), *(it for below in part if isinstance(below, list) for it in widths(below))]

        if self.height > MOST_HEIGHT:
            return f"its power domains have {self.height} levels above the cores"
        if len(self.cores) > MOST_CORES:
            return f"it has {len(self.cores)} cores"
        if max(widths(self.tree[0])) > MOST_BELOW:
            return "a power domain has more than 16 children"
        return None

    # ---- words

    def words_of(self):
        """The words, each once, with what their nodes say."""
        found, facts = {}, self.facts
        shared = Counter(core.domains[0] for core in self.cores if core.domains)
        for core in self.cores:
            words = facts.words(core.node, "cpu-idle-states", 0 if facts.has_domains else None)
            for at, domain in enumerate(core.domains):
                level = at + (shared[core.domains[0]] > 1)
                words += facts.words(domain, "domain-idle-states", level)
            for word in words:
                found.setdefault(word.word, word)
        return list(found.values())

    def format(self):
        """Whether the words are of the extended format."""
        words = [it.word for it in self.words]
        if any(word >> 30 & 1 for word in words):
            return True
        if not any(word >> 16 & 1 for word in words):
            self.unknown.append("the format of its words: all of them are well-formed in both, and the original one "
                                "is taken" if words else "words: it has no idle state")
        return False

    def is_down(self, word):
        return bool(word.word >> (30 if self.is_extended else 16) & 1)

    def level_of(self, word):
        """The level of a word: its power domain's, else what its node is called says, as far as it can."""
        if word.level is not None:
            return word.level
        level = int("cluster" in word.name)
        field = word.word >> 24 & 3
        beside = "" if self.is_extended or field == level else f", and its level field {field}"
        self.unknown.append(f"the level of {word.word:#010x}: its node is called '{word.name}'{beside}")
        return level

    def class_of(self, word, level):
        down = self.is_down(word)
        if level == 0:
            return POWER_DOWN if down else RETENTION
        return POWER_DOWN if down and RETENTION not in word.name else RETENTION

    def number_states(self):
        """Numbers the states of each level, by their classes, and finds the row of each word."""
        levels = {word.word: self.level_of(word) for word in self.words}
        for level in range(self.height + 1):
            here = [(word, self.class_of(word, level)) for word in self.words if levels[word.word] == level]
            if level and here:
                self.unknown.append(f"the classes of level {level}: a word says the core's alone")
            for word in self.words:
                if levels[word.word] > level and not any(self.goes_with(word, level, kind) for _, kind in here):
                    self.unknown.append(f"the state of level {level} under {word.word:#010x}: one is made up")
                    here.append((None, self.kind_below(word)))
            self.states[level] = sorted(here, key=lambda it: it[1] == POWER_DOWN)
        if any(kind == RETENTION for here in self.states.values() for _, kind in here):
            self.unknown.append("whether a state is standby or retention")
        for word in self.words:
            level = levels[word.word]
            own = [it for it, _ in self.states[level]].index(word) + 1
            self.rows[word.word] = [*(self.deepest(word, it) for it in range(level)), own]

    def kind_below(self, word):
        """The class of the core under a word, and of what is made up between them."""
        return POWER_DOWN if self.is_down(word) else RETENTION

    def goes_with(self, word, level, kind):
        """Whether a state of this class may be under the word's: the core's is what StateType says."""
        return kind == self.kind_below(word) or bool(level and self.is_down(word))

    def deepest(self, word, level):
        """The deepest state of a level below a word's that goes with it."""
        return max(number for number, (_, kind) in enumerate(self.states[level], 1)
                   if self.goes_with(word, level, kind))

    # ---- the text

    def board(self):
        found = self.ranges or self.facts.memory()
        if not self.ranges:
            self.unknown.append("addresses that may be entered: " + (
                "the memory of the tree is taken" if 0 < len(found) <= MOST_RANGES else
                f"the tree has {len(found)} pieces of memory, and a board four ranges" if found else
                "the tree has no memory, and a range is made up"))
        self.unknown.append("where the boot core enters: the first of these addresses is taken")
        ranges = found if 0 < len(found) <= MOST_RANGES else [ANYWHERE]
        text = " ".join(f"{first:#x}-{end:#x}" for first, end in ranges)
        entry = ranges[0][0] + 3 & ~3
        form = " format extended" if self.is_extended else ""
        return f"board {self.tree_text()} exec {text} boot {entry:#x} starts 4294967295 lives 65535{form}"

    def functions(self):
        found = self.facts.functions()
        self.unknown += ["which functions are there: those that the binding asks for are taken",
                         "SYSTEM_SUSPEND, SYSTEM_RESET2 and NODE_HW_STATE, and the resets of the vendor"]
        return [it for it in found if it != "cpu_suspend" or self.words]

    def lines(self):
        board, functions, cores = self.board(), self.functions(), self.listed()
        yield board
        yield f"# {self.facts.model}"
        yield from (f"core {it.mpidr:#x}" for it in cores)
        yield f"boot {self.boot:#x}"
        yield f"levels {self.height - self.made_up}"
        for level, here in self.states.items():
            if here:
                yield " ".join([f"class {level}", *(kind for _, kind in here)])
        for word in self.words:
            yield f"word {word.word:#010x} {' '.join(map(str, self.rows[word.word]))}"
        yield " ".join(["functions", *functions])
        yield from (f"# not in the tree: {it}" for it in dict.fromkeys(self.unknown))
        yield from (f"# odd: {it}" for it in dict.fromkeys(self.facts.odd))

    def text(self):
        reason = self.too_large()
        if reason:
            raise NoBoard(reason)
        return "".join(f"{it}\n" for it in self.lines())


def is_late(text):
    """Whether a text has the fault that the tree has to be written with the boot core first."""
    try:
        machine_faults.checked(text)
    except machines.Fault as fault:
        return fault.kind == "machine" and fault.number == LATE_BOOT_CORE
    return False


def described(data, boot=None, ranges=(), method="psci"):
    """The text of the machine of a device tree's bytes, whose cores are started by this method there, in its order where
    the boot core may stand there; raises why there is none."""
    try:
        text = Description(Facts(data, method), boot, ranges).text()
        if boot is not None and is_late(text):
            text = Description(Facts(data, method), boot, ranges, True).text()
        return text
    except Fault as fault:
        raise NoBoard(f"not a readable device tree: {fault}") from fault
