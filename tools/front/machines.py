"""The text of a machine: its board, and what the machine calls its cores, states and functions.

docs/port/FORMATS.md has its lines. What is read is what psci_platform calls a description, and beside it
where each number stands, so that a fault can be shown.
"""
import re
from collections import namedtuple

from views import faults

from . import boards, plain, told
from .reader import Reader, Wrong, end_of, near, pointed

CLASSES = ("running", "standby", "retention", "power-down")
FUNCTIONS = ("cpu_suspend", "cpu_off", "cpu_on", "system_off", "system_reset", "node_hw_state",
             "system_suspend", "system_reset2")
LEVELS, STATES = 4, 16
# lines of which there is exactly one, and that of SYSTEM_SUSPEND, which may be left out
ONCE = ("boot", "levels", "functions")
WORDS = ("core", "boot", "levels", "class", "word", "functions", "system-suspend", "reset")

# a number and where it stands: the number of its line, and its place in that
At = namedtuple("At", "line at")
# A power state word: its bits, those that count, the state of each level.
Row = namedtuple("Row", "word mask states")


class Fault(Exception):
    """A fault of a machine's text: its number, where it stands, and what is wrong there."""

    def __init__(self, number, where, text, line=None, kind="machine"):
        super().__init__(text)
        self.number, self.where, self.text, self.line, self.kind = number, where, text, line, kind

    def lines(self, name, text):
        """What is said of it: the line of its number, the fault in words, and where it stands."""
        shown = text.split("\n")[self.where.line - 1] if text else ""
        return [f"{name}: line {self.where.line}: {self.kind} fault {self.number}",
                f"psci: {name}, line {self.where.line}, column {self.where.at + 1}: {self.text}",
                *pointed(shown, self.where.at)]


class Machine:
    """A description, its board and its boot core; `places` has where the parts of it stand."""

    def __init__(self, board):
        self.text, self.board = board, plain.Board(board)
        self.height, self.cores = len(self.board.levels) - 1, self.board.words["core"]
        self.mpidrs, self.boot, self.levels = [], None, None
        self.classes = [[0] * STATES for _ in range(LEVELS)]
        self.rows, self.system, self.functions, self.resets = [], (0,) * LEVELS, frozenset(), []
        # by the word of a line: where each of its numbers stands, line after line
        self.places = {word: [] for word in WORDS}

    @property
    def is_extended(self):
        return self.board.is_extended


class Lines:
    """Reads the lines behind the board's, one by one."""

    def __init__(self, machine):
        self.machine, self.classed = machine, [None] * LEVELS
        # where a state's number stands, its level and the number: levels are known at the end
        self.numbers = []

    def read(self, number, line):
        """Reads a line; raises what is wrong with it."""
        if not line or line.startswith("#"):
            return
        reader = Reader(line)
        word = reader.word()
        if word not in WORDS:
            like = near(word.lower(), list(WORDS))
            raise Wrong(0, f"{reader.here()}" + (f": did you mean {like[-1]}?" if like else
                                                 f": expected one of {', '.join(WORDS)}"))
        if word in (*ONCE, "system-suspend") and self.machine.places[word]:
            raise Wrong(0, f"a second line '{word}'")
        reader.at = len(word)
        self.line, self.places = number, []
        getattr(self, f"read_{word.replace('-', '_')}")(reader)
        end_of(reader)
        self.machine.places[word].append(self.places)

    # ---- parts of a line

    def mark(self, reader):
        self.places.append(At(self.line, reader.at))

    def number(self, reader, what, most, hexadecimal=True):
        reader.blank(what)
        self.mark(reader)
        at = reader.at
        found = reader.number(what, hexadecimal, " /")
        if found >= most:
            raise Wrong(at, f"{what} is above {hex(most - 1) if hexadecimal else most - 1}")
        return found

    def name(self, reader, names, what):
        reader.blank(what)
        self.mark(reader)
        word = reader.word()
        if word not in names:
            like = near(word.lower(), list(names))
            tip = f"did you mean {like[-1]}?" if like else f"expected {what}: {', '.join(names)}"
            raise Wrong(reader.at, f"{reader.here()}: {tip}")
        reader.at += len(word)
        return word

    def states(self, reader):
        """The states of the levels from the core's up, at least one; the others go on running."""
        found = []
        while not reader.is_done() or not found:
            if len(found) == LEVELS:
                raise Wrong(reader.at, f"more than {LEVELS} states: there is one of each level")
            found.append(self.number(reader, "the number of a state", 256, False))
            self.numbers.append((self.places[-1], len(found) - 1, found[-1]))
        return tuple(found + [0] * (LEVELS - len(found)))

    # ---- each line, by its word

    def read_core(self, reader):
        self.machine.mpidrs.append(self.number(reader, "an MPIDR", 2 ** 64))

    def read_boot(self, reader):
        self.machine.boot = self.number(reader, "the MPIDR of the boot core", 2 ** 64)

    def read_levels(self, reader):
        self.machine.levels = self.number(reader, "the number of levels that can be taken down", 2 ** 32, False)

    def read_class(self, reader):
        level = self.number(reader, "a level, 0 to 3", LEVELS, False)
        if self.classed[level] is not None:
            raise Wrong(len("class "), f"a second line of the classes of level {level}")
        found = [0]
        while not reader.is_done() or len(found) == 1:
            if len(found) == STATES:
                raise Wrong(reader.at, f"more than {STATES - 1} states of a level")
            found.append(CLASSES.index(self.name(reader, CLASSES, "a class")))
        self.classed[level] = len(found)
        self.machine.places[f"class {level}"] = [self.places]
        self.machine.classes[level] = found + found[-1:] * (STATES - len(found))

    def read_word(self, reader):
        word, mask = self.number(reader, "a power state word", 2 ** 32), 2 ** 32 - 1
        # without bits that count they stand where the word does
        self.places += self.places
        if reader.text.startswith("/", reader.at):
            reader.at += 1
            self.places[-1] = At(self.line, reader.at)
            mask = reader.number("the bits that count", True)
            if mask >= 2 ** 32:
                raise Wrong(self.places[-1].at, "the mask has at most 32 bits")
        self.machine.rows.append(Row(word, mask, self.states(reader)))

    def read_system_suspend(self, reader):
        self.machine.system = self.states(reader)

    def read_functions(self, reader):
        found = []
        while not reader.is_done():
            found.append(self.name(reader, FUNCTIONS, "a function"))
            if found.count(found[-1]) > 1:
                raise Wrong(self.places[-1].at, f"{found[-1]} is given twice")
        self.machine.functions = frozenset(found)

    def read_reset(self, reader):
        self.machine.resets.append(self.number(reader, "a reset type", 2 ** 32))

    def missing_class(self):
        """The first number of a state for which its level has no class."""
        for where, level, number in self.numbers:
            count = self.classed[level] or 1
            if number >= count:
                return where, (f"state {number} of level {level}, which has "
                               f"{f'only states 0 to {count - 1}' if count > 1 else 'no line of classes'}")
        return None


def board_of(text):
    """The board of line 1, of which a fault is a board's."""
    line = text.partition("\n")[0]
    if not line.startswith("board "):
        raise Fault(0, At(1, 0), told.no_board(line)[1])
    board = line[len("board "):]
    number = boards.number(board)
    if number:
        at, why = boards.fault(number, line, len("board "))
        raise Fault(number, At(1, at), why, kind="board")
    return Machine(board)


def read(text):
    """The machine of a text, which may still have a fault of its description; raises one of the text."""
    machine, lines = board_of(text), text.split("\n")
    reading = Lines(machine)
    for number, line in enumerate(lines[1:], 2):
        try:
            reading.read(number, line)
        except Wrong as wrong:
            raise Fault(0, At(number, wrong.at), wrong.text) from wrong
    last = At(len(lines) - (not lines[-1] and len(lines) > 1), 0)
    for word in ONCE:
        if not machine.places[word]:
            raise Fault(0, last, f"missing line '{word}'")
    missing = reading.missing_class()
    if missing:
        raise Fault(0, *missing)
    return machine


def words_of(number):
    """The words of a fault, as docs/port/FORMATS.md has them."""
    return re.sub("`", "", faults.words_of("machine")[number].partition(": ")[2])
