"""What the commands of views have in common: what they read, how they fail."""
import os
import sys

from front import running

from . import clock, shown, window


def opened(words):
    """The run that comes from standard input, the window of it, and its clock."""
    run = shown.Run(sys.stdin)
    if run.board is None:
        # the program has told why there is nothing
        sys.exit(0)
    highest = max(words.cores or [0])
    if highest >= run.board.cores:
        raise Refused(f"no core {highest}: the board has {run.board.cores} cores")
    times = clock.read(words.clock) if words.clock else None
    return run, window.Window(run.board, words), clock.Clock(times)


def screen_lines():
    """How many lines a screen has; 24 where there is none."""
    try:
        return max(os.get_terminal_size(sys.stdout.fileno()).lines - 1, 10)
    except OSError:
        return 24


class Refused(Exception):
    """What the words of the command ask for cannot be had, and why."""


def run(main, name):
    """Runs a command, which gives the window that it has looked at: what it cannot do is said in a line, with the
    statuses of the program."""
    running.open_streams()
    try:
        window = main()
        sys.stdout.flush()
        if not window.count:
            sys.exit(running.nothing_there(name))
    except Refused as fault:
        # the program is heard to its end, and has no write fault to tell of
        for _ in sys.stdin:
            pass
        end(name, fault, 2)
    except clock.BadClock as fault:
        end(name, fault, 3)
    except shown.NotShown:
        end(name, "standard input is not what `./psci show --json` writes", 3)
    except OSError as fault:
        sys.exit(running.not_written(fault=fault))


def end(name, said, status):
    print(f"psci {name}: {said}", file=sys.stderr)
    sys.exit(status)
