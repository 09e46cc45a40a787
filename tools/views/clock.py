"""The clock of a run: when each event happened, in nanoseconds, an event a line.

docs/port/FORMATS.md has the form. The script of the run stays as it is, and the clock lies beside it.
"""
import re


class BadClock(Exception):
    """A file that is no clock of this run, and why."""


def read(path):
    """The times of a file, in nanoseconds, one an event."""
    try:
        with open(path, encoding="ascii", errors="replace", newline="\n") as file:
            return times_of(file, path)
    except OSError as fault:
        raise BadClock(f"{path}: {fault.strerror}") from fault


def times_of(lines, path):
    times = []
    for at, line in enumerate(lines, 1):
        if not re.fullmatch(r"(0|[1-9][0-9]{0,17})\n?", line):
            raise BadClock(f"{path} line {at}: not a number of nanoseconds")
        if times and int(line) < times[-1]:
            raise BadClock(f"{path} line {at}: earlier than the line before")
        times.append(int(line))
    return times


class Clock:
    """When events happen: by a file, or where there is none a step of time for each event."""

    def __init__(self, times=None, step=1000):
        self.times, self.step = times, step

    def at(self, number):
        """When the event of this number happens, in nanoseconds."""
        if self.times is None:
            return (number - 1) * self.step
        if number > len(self.times):
            raise BadClock(f"the clock has {len(self.times)} lines, but the run has an event {number}")
        return self.times[number - 1]
