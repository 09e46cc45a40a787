"""Ctrl-C: a command ends by it, and says nothing of where it was."""
import os
import signal
import sys
from traceback import clear_frames


def hold():
    """Holds Ctrl-C back until the tool that begins says what becomes of it: Python, as it begins, would tell where."""
    signal.pthread_sigmask(signal.SIG_BLOCK, {signal.SIGINT})


def heed():
    """From here on Ctrl-C is a KeyboardInterrupt, unless it is ignored; where nobody catches that, the signal ends us."""
    if signal.getsignal(signal.SIGINT) != signal.SIG_IGN:
        sys.excepthook, sys.unraisablehook = uncaught, ignored
        signal.signal(signal.SIGINT, signal.default_int_handler)
    signal.pthread_sigmask(signal.SIG_UNBLOCK, {signal.SIGINT})


def uncaught(kind, fault, trace):
    if issubclass(kind, KeyboardInterrupt):
        # what stands on a terminal is wiped as generators end, which these frames hold
        clear_frames(trace)
        end()
    sys.__excepthook__(kind, fault, trace)


def ignored(found):
    """What came where Python catches everything, as it ends."""
    if issubclass(found.exc_type, KeyboardInterrupt):
        end()
    sys.__unraisablehook__(found)


def end():
    signal.signal(signal.SIGINT, signal.SIG_DFL)
    os.kill(os.getpid(), signal.SIGINT)
