"""The shortest list of calls that still differs: what can be left out is left out, and the machine asked again.

Whether a list differs is asked of its record, as it is played anew; nothing is guessed of a record with
lines cut out, which would be that of no run.
"""
import re

from .groups import group_of
from .verdict import judged


def certain(lives, profile, limit=60.0):
    """The groups of the differences of a record that are certain: the first one of each life."""
    verdict = judged("", lives, profile, limit=limit, has_later=False)
    return [group_of(it) for it in verdict.differences if not it.is_later]


def shortest(lines, differs):
    """Lines of which none can be left out, and no storm shortened, so that `differs` still holds."""
    size = len(lines)
    while size:
        size, at, many = max(size // 2, 1), 0, len(lines)
        while at < len(lines):
            fewer = lines[:at] + lines[at + size:]
            if fewer and differs(fewer):
                lines = fewer
            else:
                at += size
        if size == 1 and many == len(lines):
            break
    return calmed(lines, differs)


def calmed(lines, differs):
    """The same lines with storms of as few calls as still differ."""
    for at, line in enumerate(lines):
        while storm := re.fullmatch(r"(\+? ?\d+ storm \d+) (\d+)(.*)", lines[at]):
            fewer = [*lines[:at], f"{storm[1]} {int(storm[2]) // 2}{storm[3]}", *lines[at + 1:]]
            if int(storm[2]) < 2 or not differs(fewer):
                break
            lines = fewer
    return lines


class Seeker:
    """Plays a list some times, until a difference of the group that is sought shows itself."""

    def __init__(self, play, profile, tries=1):
        self.play, self.profile, self.tries = play, profile, tries
        self.group, self.played = None, 0

    def __call__(self, lines):
        for _ in range(self.tries):
            self.played += 1
            for group in certain(self.play(lines), self.profile):
                if self.group is None:
                    self.group = group
                # what ours would have answered may depend on what is left out
                if (group.what, group.theirs, group.why) == (self.group.what, self.group.theirs, self.group.why):
                    return True
        return False
