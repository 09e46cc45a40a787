"""The search: is there a run of the definitions that gives the answers of a record?

Operations are taken as their ends follow each other. For each, from every state that is kept, all
inner steps and all calls that have begun are tried until the operation has had its effect. With
reductions only the steps of those cores are tried that the answer is about, or that are calling
about them; and domains above the cores are left out where no answer shows them.
"""
import time

import firmware as fw

from .peer import Flat
from .state import State
from .steps import Steps, is_due, said
from .words import LEVELED, LOW, arguments_of

# how many operations of a core the reduction looks ahead, and how far states are covered
AHEAD, COVER = 6, 3000


class Undecided(Exception):
    """The bound of states, or the time, was reached."""


def shows_above(operation):
    """Whether an answer can depend on what was claimed above the cores."""
    if operation.word in fw.NODE_HW_STATE:
        return 0 < operation.regs[2] & LOW < 4
    return operation.word in fw.SET_SUSPEND_MODE and operation.regs[1] & LOW == 1 and operation.want == ("return", 0)


class Search:
    def __init__(self, life, profile, bound=20000, until=None, is_whole=False):
        self.profile, self.bound, self.until, self.is_whole = profile, bound, until, is_whole
        self.steps = Steps(life.operations, life.head[2])
        every = [it for mine in life.operations.values() for it in mine]
        board = profile.board
        if not is_whole and not any(map(shows_above, every)):
            board = Flat(board)
        board.order = sorted(board.nodes)
        self.board = board
        self.states = [State.first(board, profile)]
        self.tried = 0

    # ---- which cores an operation is about

    def about(self, operation):
        """The cores whose state an operation looks at or changes, its own first."""
        found = {operation.core}
        if operation.want[0] == "absent":
            found.add(operation.want[1])
        if operation.regs is None or not self.profile.has(operation.word):
            return found
        x1, x2, _ = arguments_of(operation.regs)
        if operation.word in fw.CPU_ON:
            found.update(self.board.named(x1, 0))
        elif operation.word in LEVELED:
            found.update(self.board.named(x1, x2 & LOW))
        elif operation.word in fw.SYSTEM_SUSPEND + fw.SET_SUSPEND_MODE:
            found.update(self.board.cores)
        return found

    def cores_about(self, operation):
        """Those cores, and all that are calling about them."""
        if self.is_whole:
            return list(self.board.cores)
        ahead = {}
        for core, mine in self.steps.operations.items():
            first = min(state.position[core] for state in self.states)
            ahead[core] = [self.about(it) - {core} for it in mine[first:first + AHEAD]
                           if it.regs and it.begin <= operation.end]
        found, grows = self.about(operation), True
        while grows:
            more = {core for core, mine in ahead.items() if core not in found and any(it & found for it in mine)}
            grows = bool(more)
            found |= more
        return sorted(found)

    # ---- an answer

    def answer(self, operation):
        """Keeps the states in which this operation has had its answer. Where there is none, the states
        are left as they were, and what ours would have answered is returned."""
        cores, core = self.cores_about(operation), operation.core
        done = [it for it in self.states if it.position[core] > operation.at]
        todo = [it for it in self.states if it.position[core] <= operation.at]
        known, seen, found = {it.key() for it in self.states}, set(), []
        while todo:
            self.watch(len(known))
            later = []
            for state in todo:
                self.look(state, operation, seen)
                for it in self.after(state, operation.end, cores):
                    if it.key() not in known:
                        known.add(it.key())
                        (found if it.position[core] > operation.at else later).append(it)
            todo = later
        if not done and not found:
            return sorted(seen) or ["nothing: the core does not run"]
        self.states = self.uncovered(done, found, cores)
        return None

    def after(self, state, now, cores):
        yield from self.steps.inner(state, cores)
        yield from self.steps.calls(state, now, cores)

    def watch(self, many):
        self.tried = max(self.tried, many)
        if many > self.bound:
            raise Undecided(f"more than {self.bound} states for one answer")
        if self.until is not None and time.monotonic() > self.until:
            raise Undecided("the time limit")

    def look(self, state, operation, seen):
        """Sees what ours would answer in this state."""
        core = operation.core
        if state.position[core] != operation.at:
            return
        if operation.want[0] == "absent":
            if is_due(state, operation.want[1]):
                seen.add("enter")
        elif operation.regs is not None:
            if state.place[core] == "running":
                list(self.steps.called(state, operation, seen))
        elif state.place[core] == "started":
            seen.add(said(state.firmware.copy().enter(core, *state.power.started[core])))

    def uncovered(self, done, found, cores):
        """The states without those that can still be reached from another one that is kept."""
        if len(done) + len(found) == 1:
            return done + found
        covered = set()
        for it in done:
            covered |= self.reach(it, cores)
        kept = done
        for it in found:
            if it.key() not in covered:
                kept.append(it)
                covered |= self.reach(it, cores)
        return kept

    def reach(self, state, cores):
        """The keys of what inner steps reach from a state."""
        known, todo = {state.key()}, [state]
        while todo and len(known) < COVER:
            for it in self.steps.inner(todo.pop(), cores):
                if it.key() not in known:
                    known.add(it.key())
                    todo.append(it)
        return known
