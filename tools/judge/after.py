"""After a difference: goes on as if that answer had been right. What is found then is less sure."""
import firmware as fw

from .words import SLEEPS, arguments_of

# how many states are looked for, and with how many the search goes on
LOOKED, KEPT = 400, 4


def go_on(search, operation):
    """Puts states in which the operation is over into the search."""
    found, keys = [], set()
    for state in reachable(search, operation) or search.states:
        for it in believed(state.copy(), operation, search.board):
            at = max(it.position[operation.core], operation.at + 1 + operation.is_halved)
            it.advance(operation.core, at - it.position[operation.core])
            if it.key() not in keys:
                keys.add(it.key())
                found.append(it)
        if len(found) >= KEPT:
            break
    search.states = found[:KEPT]


def reachable(search, operation):
    """States in which the core is about to do this operation."""
    core, found, known, todo = operation.core, [], set(), list(search.states)
    while todo and len(known) < LOOKED:
        state = todo.pop(0)
        if state.key() in known or state.position[core] > operation.at:
            continue
        known.add(state.key())
        if state.position[core] == operation.at and (operation.regs is None or state.place[core] == "running"):
            found.append(state)
        todo += search.after(state, operation.end, list(search.board.cores))
    return found


def believed(state, operation, board):
    """The states that this operation leaves, if its answer is right."""
    core, firmware, want = operation.core, state.firmware, operation.want
    if operation.regs is None:
        if want[0] != "absent":
            run(state, core)
    elif want == ("return", 0) and operation.word in fw.CPU_ON:
        yield from asked_on(state, operation, board)
        return
    elif want == ("stop",):
        state.place[core] = "stopped"
        if operation.word in SLEEPS:
            x1, x2, x3 = arguments_of(operation.regs)
            firmware.opening[core] = (x2, x3) if operation.word in fw.CPU_SUSPEND else (x1, x2)
            firmware.stop(core, [3, 0, 0, 0])
        else:
            firmware.silent_stop(core)
    else:
        state.place[core] = "running"
    yield state


def run(state, core):
    """The core runs, whatever it was."""
    firmware, power = state.firmware, state.power
    if power.starts[core] == firmware.known[core]:
        power.starts[core] += 1
    firmware.known[core] = power.starts[core]
    firmware.opening[core], firmware.last[core], firmware.status[core] = None, "running", fw.ON
    firmware.slots.pop(core, None)
    firmware.disturb(core)
    state.place[core] = "running"


def asked_on(state, operation, board):
    """CPU_ON was accepted: by a core that is on its way, its first entry may hold or the second."""
    x1, entry, context = arguments_of(operation.regs)
    firmware, target = state.firmware, board.named(x1 % 2**24, 0)
    if not target or firmware.phase(target[0]) == "running":
        yield state
        return
    target = target[0]
    if firmware.status[target] == fw.PENDING:
        yield state.copy()
    else:
        firmware.status[target], firmware.last[target] = fw.PENDING, "away"
        firmware.disturb(target)
        firmware.send("start", target)
        state.forget_old_acks()
    firmware.opening[target] = entry, context
    yield state
