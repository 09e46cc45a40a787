"""What ended a life: a call by which ours ends the system, or one that ours answers."""
import firmware as fw

from .peer import Peer
from .words import ENDS, SYSTEM_OFF2

RESETS = fw.SYSTEM_RESET + fw.SYSTEM_RESET2


def answered(operation, profile):
    """The code that ours answers to a call that ends systems, or that the profile lacks; None where it ends it."""
    if operation.word in SYSTEM_OFF2 and profile.has(operation.word):
        return None
    outcome = Peer(profile.board, profile).smc(operation.core, operation.regs)
    return outcome.values[0] if outcome.act == "return" else None


def endings(life, profile):
    """The calls that may have ended the life, since they did not come back: each with the code of `answered`."""
    every = [mine[-1] for mine in life.operations.values() if mine and mine[-1].want == ("any",)]
    words = ENDS + SYSTEM_OFF2
    return [(it, answered(it, profile)) for it in every if it.word in words or not profile.has(it.word)]


def is_ended(life, profile, is_last=False):
    """Whether the system ended by ours, too; the last life is not ended by a reset, behind which another one begins."""
    return any(code is None and not (is_last and it.word in RESETS) for it, code in endings(life, profile))


def taken(life, profile):
    """The call that ended a life behind which there is another one, and that ours answers, with its code; or None."""
    if is_ended(life, profile):
        return None
    return max(endings(life, profile), key=lambda it: it[0].begin, default=None)
