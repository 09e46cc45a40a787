"""Starts that nobody takes up: a CPU_ON was accepted, and its core is not seen to enter."""
import firmware as fw

from .record import INFINITE, Remark
from .steps import ENTRIES
from .words import ENDS, arguments_of

NEVER = "started and never entered"


def never_entered(life, board):
    """A note for each accepted CPU_ON, at an entry point that tells of it, whose core neither enters nor calls from
    then on, though other calls were made before the life ended. No answer is wrong by that: the core may be slow. Where
    it was waited for, the record has a line of that, which is judged."""
    every = [it for mine in life.operations.values() for it in mine]
    entries = range(life.head[2], life.head[2] + 8 * ENTRIES, 8)
    for call in every:
        if call.word in fw.CPU_ON and call.want == ("return", 0):
            target, entry, _ = arguments_of(call.regs)
            core = next(iter(board.named(target, 0) if entry in entries else ()), life.head[4])
            if core < life.head[4] and goes_on(every, call) and not (
                    is_seen(life, core, call) or is_looked_for(every, core, call)):
                yield Remark("note", NEVER, f"core {core}, by {call.text}")


def goes_on(every, call):
    """Whether another call began once this one was back, which did not just end the life."""
    return any(it.regs and it.begin is not None and it.begin > call.end and it.word not in ENDS for it in every)


def is_seen(life, core, call):
    """Whether the core did something that came to be known after the call had begun."""
    times = [it.end if it.begin is None else it.begin for it in life.operations.get(core, ())]
    return any(call.begin < time < INFINITE for time in times if time is not None)


def is_looked_for(every, core, call):
    return any(it.want == ("absent", core) and it.end > call.begin for it in every)
