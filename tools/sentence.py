#!/usr/bin/env python3
"""The sentence that a check ends with: all is answered as by the proved program, none differs, each fault is seen.

`told` alone makes it, of how many were looked at and of the program that answered, which it names as it is, proved or
not. Of nothing it says nothing: that raises Nothing, a failure with a status of its own. Whoever says "proved",
"differ" or "seen" of what was tried says it by this (tests/docs/sentences looks).

    tools/sentence.py TEXT COUNT WHAT       prints it for a shell; its status is 7 where COUNT is 0
    tools/sentence.py planted SEEN UNSEEN   the same of planted faults; its status is 1 where one is not seen
"""
import sys

from front import programs

# the status of a check that looked at nothing, or that is undecided
NOTHING = 7
PROVED, UNPROVED = "the proved program", "an unproved program"


class Nothing(Exception):
    """Nothing was looked at; the text says of what there is none."""


def by_whom(program):
    """What a program is, by its bytes: one that was proved, of the sources as they are now, or any other one."""
    return PROVED if programs.is_proved(program) else UNPROVED


def counted(count, what):
    return f"{count} {what}{'' if count == 1 else 's'}"


def told(text, count, what, program=None, by=None):
    """The sentence of a check: in `text`, {count} is how many of `what` it has looked at, and {by} names the program
    that answered, by its path, or as `by` has named it before."""
    if count < 1:
        raise Nothing(f"there is no {what} in it, so that nothing was looked at")
    text = text.replace("{count} are ", "{count} is ") if count == 1 else text
    return text.replace("{count}", counted(count, what)).replace("{by}", by or (by_whom(program) if program else ""))


def ended(seen, lines=(), unseen=None):
    """Prints what came of planted faults: lines of those that are not seen, or could not be tried, and the sentence.
    Without `unseen` there is a line for each that is not seen. The status of a test that plants them."""
    unseen = len(lines) if unseen is None else unseen
    text = f"{{count}}: {seen} seen, {unseen} not" if unseen else "{count}: each is seen"
    try:
        print("\n".join([*lines, told(text, seen + unseen, "planted fault")]))
    except Nothing as why:
        print("\n".join([*lines, str(why)]))
        return NOTHING
    return 1 if unseen else 0


def main(words):
    if len(words) != 3 or not words[1].isdigit():
        sys.exit(__doc__)
    if words[0] == "planted" and words[2].isdigit():
        return ended(int(words[1]), [], unseen=int(words[2]))
    try:
        print(told(words[0], int(words[1]), words[2]))
    except Nothing as why:
        print(why, file=sys.stderr)
        return NOTHING
    return 0


if __name__ == "__main__":
    sys.dont_write_bytecode = True
    sys.exit(main(sys.argv[1:]))
