"""The definitions with what a firmware declares of itself, and their power controller, which can
both be copied at any time."""
import firmware as fw
from board import Board
from controller import Controller

from .words import LOW, arguments_of

NO_ARGUMENT, BAD_ADDRESS = fw.INVALID_PARAMETERS, fw.INVALID_ADDRESS


class Flat(Board):
    """A board of which no domain above the cores is looked at."""

    def __init__(self, board):
        self.__dict__.update(board.__dict__)
        self.nodes = {node for core in self.cores for node in self.path(core)}

    def path(self, core):
        return [(0, self.places[core])]


class Peer(fw.Firmware):
    """The firmware of the definitions, as this profile narrows it."""

    def __init__(self, board, profile):
        self.profile = profile
        super().__init__(board)

    def copy(self):
        it = object.__new__(Peer)
        it.profile, it.board = self.profile, self.board
        it.life, it.halting, it.mode = self.life, self.halting, self.mode
        it.known, it.status = self.known[:], self.status[:]
        it.opening, it.last = self.opening[:], self.last[:]
        it.granted, it.claim = dict(self.granted), dict(self.claim)
        it.confirmed, it.slots = set(self.confirmed), dict(self.slots)
        return it

    # ---- what the profile changes

    def function(self, core, word, x1, x2, x3):
        profile = self.profile
        if not profile.has(word):
            return fw.NOT_SUPPORTED
        if word in fw.VERSION:
            return profile.version
        if word in fw.AFFINITY_INFO and x2 & LOW > profile.levels:
            return NO_ARGUMENT
        if word in fw.CPU_SUSPEND and not profile.reads_states:
            return NO_ARGUMENT if x1 & profile.zero else 0
        return super().function(core, word, x1, x2, x3)

    def features(self, word):
        if not self.profile.has(word):
            return fw.NOT_SUPPORTED
        said = super().features(word)
        if word in fw.CPU_SUSPEND and not self.profile.has(fw.SET_SUSPEND_MODE[0]):
            said &= ~1
        return said

    def may_enter(self, address):
        return self.board.may_enter(address & -4) and address % self.profile.aligned == 0

    def cpu_on(self, target, entry, context):
        named = self.board.named(target, 0)
        if not named or not self.may_enter(entry):
            return BAD_ADDRESS if named else NO_ARGUMENT
        said = super().cpu_on(target, entry & -4, context)
        if isinstance(said, fw.Outcome):
            self.opening[named[0]] = entry, context
        return said

    def system_suspend(self, core, entry, context):
        if not self.may_enter(entry):
            return BAD_ADDRESS
        said = super().system_suspend(core, entry & -4, context)
        if isinstance(said, fw.Outcome):
            self.opening[core] = entry, context
        return said

    def cpu_suspend(self, core, word, entry, context):
        depths = self.profile.depths(word, self.board)
        if depths is None:
            return NO_ARGUMENT
        if depths[0] == 3 and not self.may_enter(entry):
            return BAD_ADDRESS
        return self.suspend(core, depths, (entry, context) if depths[0] == 3 else None)

    # ---- what else is right

    def is_free(self, regs):
        """Whether any answer is right: the function is there, and ours has none, or its features."""
        word = regs[0] & LOW
        asked = regs[1] & LOW if word in fw.FEATURES else word
        return self.profile.has(asked) and asked not in fw.SUPPORTED

    def refusals(self, core, regs):
        """Every refusal that applies to a call: the standard sets no order of checks."""
        word, (x1, x2, x3) = regs[0] & LOW, arguments_of(regs)
        if not self.profile.has(word):
            return set()
        if word in fw.CPU_ON:
            return self.refusals_of_cpu_on(x1, x2)
        if word in fw.CPU_SUSPEND and self.profile.reads_states:
            return self.refusals_of_suspend(core, x1 & LOW, x2)
        if word in fw.SYSTEM_SUSPEND:
            found = set() if self.may_enter(x1) else {BAD_ADDRESS}
            if any(self.status[it] != fw.OFF for it in self.board.cores if it != core):
                found.add(fw.DENIED)
            return found
        return set()

    def refusals_of_cpu_on(self, target, entry):
        named, found = self.board.named(target, 0), set()
        if not named:
            found.add(NO_ARGUMENT)
        elif self.status[named[0]] != fw.OFF:
            found.add(fw.ALREADY_ON if self.status[named[0]] == fw.ON else fw.ON_PENDING)
        if not self.may_enter(entry):
            found.add(BAD_ADDRESS)
        return found

    def refusals_of_suspend(self, core, word, entry):
        depths, found = self.profile.depths(word, self.board), set()
        goes_down = word >> (30 if self.board.extended else 16) & 1 if depths is None else depths[0] == 3
        if depths is None:
            found.add(NO_ARGUMENT)
        elif self.mode == fw.OS_INITIATED:
            found |= {self.last_core(core, depths)} - {None}
        if goes_down and not self.may_enter(entry):
            found.add(BAD_ADDRESS)
        return found


class Power(Controller):
    def copy(self):
        it = object.__new__(Power)
        it.board, it.life, it.starts = self.board, self.life, self.starts[:]
        it.depth, it.started = dict(self.depth), dict(self.started)
        return it
