"""What may happen next in a state, step by step."""
import firmware as fw

# how many entry points a payload has, eight bytes apart
ENTRIES = 16


def fits(outcome, want):
    """Whether an outcome of the definitions is what was recorded."""
    if want[0] == "any":
        return True
    if outcome.act == "return":
        return want == ("return", outcome.values[0])
    if outcome.act == "enter":
        return want == ("enter", *outcome.values)
    return want == (outcome.act,)


def is_due(state, core):
    """Whether a CPU_ON of this core was accepted, and its entry is still to be seen."""
    return state.firmware.status[core] == fw.PENDING or state.place[core] == "unseen"


def said(outcome):
    if outcome.act == "return":
        return f"{outcome.values[0]}"
    return " ".join([outcome.act, *map(hex, outcome.values)])


class Steps:
    """The steps of a machine whose cores did these operations; a payload's entries stand from one on."""

    def __init__(self, operations, entries):
        self.operations = operations
        self.entries = range(entries, entries + 8 * ENTRIES, 8)

    def next_of(self, state, core):
        mine, at = self.operations.get(core, ()), state.position[core]
        return mine[at] if at < len(mine) else None

    def inner(self, state, cores):
        """States after one step of these cores that no call is."""
        for message in list(state.firmware.slots.values()):
            if message.kind in ("start", "down") and message.core in cores:
                yield from self.delivered(state, message)
        for ack in sorted(state.acks):
            if ack.core in cores:
                it = state.copy()
                if it.firmware.take(ack) == "used":
                    it.forget_old_acks()
                    yield it
        for core in cores:
            if state.place[core] == "started":
                yield from self.entered(state, core)
            elif state.place[core] == "stopped":
                yield from self.woken(state, core)

    @staticmethod
    def delivered(state, message):
        it = state.copy()
        ack = it.power.deliver(message)
        if ack is not None:
            if message.kind == "start" and ack.applied:
                it.place[message.core] = "started"
            it.acks = state.acks | {ack}
            yield it

    def woken(self, state, core):
        """A suspended core is woken, where its record goes on."""
        next_one = self.next_of(state, core)
        if state.firmware.phase(core) == "suspended" and next_one and next_one.want[0] in ("enter", "resume"):
            it = state.copy()
            if it.power.kick(core, it.power.starts[core], "wake"):
                it.place[core] = "started"
                yield it

    def entered(self, state, core):
        """A started core enters: as recorded, or unseen where nothing more is recorded of it."""
        it = state.copy()
        outcome = it.firmware.enter(core, *it.power.started[core])
        it.forget_old_acks()
        next_one = self.next_of(state, core)
        it.place[core] = "stopped" if outcome.act == "stop" else "running"
        if next_one is None and outcome.act == "enter" and outcome.values[0] in self.entries:
            it.place[core] = "unseen"
        if outcome.act == "stop" or next_one is None:
            yield it
        elif fits(outcome, next_one.want):
            it.advance(core)
            yield it

    def calls(self, state, now, cores):
        """States after a call of one of these cores that has begun by now, or after its look."""
        for core in cores:
            next_one = self.next_of(state, core)
            if next_one is None or state.place[core] != "running":
                continue
            if next_one.want[0] == "absent":
                if next_one.end <= now and not is_due(state, next_one.want[1]):
                    it = state.copy()
                    it.advance(core)
                    yield it
            elif next_one.regs is not None and next_one.begin <= now:
                yield from self.called(state, next_one)

    def called(self, state, call, seen=None):
        """States after this call has taken effect with the answer that was recorded."""
        core, want = call.core, call.want
        it = state.copy()
        outcome = it.firmware.smc(core, call.regs)
        it.forget_old_acks()
        if seen is not None:
            seen.add(said(outcome))
        if outcome.act == "stop":
            it.place[core] = "stopped"
        if fits(outcome, want):
            it.advance(core, 1 + call.is_halved)
            yield it
        elif self.may_answer(state, call, outcome, seen):
            other = state.copy()
            other.advance(core, 1 + call.is_halved)
            yield other
        elif call.is_halved and outcome.act == "stop":
            yield from self.halved(state, it, core)

    @staticmethod
    def may_answer(state, call, outcome, seen):
        """Whether what was recorded is right, too, and changes nothing."""
        if call.want[0] != "return":
            return False
        if state.firmware.is_free(call.regs):
            return True
        if outcome.act != "return" or outcome.values[0] >= 0:
            return False
        others = state.firmware.refusals(call.core, call.regs)
        if seen is not None:
            seen |= {str(code) for code in others}
        return call.want[1] in others

    @staticmethod
    def halved(state, stopped, core):
        """A suspend that answered 0: it stopped and goes on later, or came back at once."""
        stopped.advance(core)
        yield stopped
        if state.firmware.profile.is_early:
            it = state.copy()
            it.advance(core, 2)
            yield it
