"""Whole scripts whose calls are made plain, or said by name, line for line: each line keeps its number."""
import re

from . import plain, told
from .reader import MOST_BYTES, Wrong, pointed

# the beginning of a line with a call by name, as bytes
NAMED = re.compile(rb"^call [0-9]+ [A-Za-z]", re.M)
# how many lines, and beginnings of lines, are kept with what they are made, and how long three registers are at most
KEPT, MOST_REST = 1 << 16, 3 * len(" 18446744073709551615")


class Names:
    """Makes the calls by name of a script plain as it comes, and leaves each other byte as it is. A call that is at
    fault stays, too, and the program finds it."""

    def __init__(self):
        self.first, self.waiting, self.is_inside = b"", b"", False
        # what lines are made, and beginnings of lines with the words that may follow: most lines of a script are alike
        self.board, self.made, self.begun = None, {}, {}

    def plain(self, some):
        """What is known of the plain script once these bytes have come; all of it where nothing more comes. A line
        that has not ended waits, up to the length that the program finds too long."""
        whole = self.waiting + some
        cut = whole.rfind(b"\n") + 1
        if not some or len(whole) - cut > MOST_BYTES:
            cut = len(whole)
        ready, self.waiting = whole[:cut], whole[cut:]
        if b"\n" not in self.first:
            self.first += ready[:MOST_BYTES + 1]
        begin = (ready.find(b"\n") + 1 or len(ready)) if self.is_inside else 0
        if ready:
            self.is_inside = not ready.endswith(b"\n")
        if not NAMED.search(ready, begin):
            return ready
        if len(self.made) > KEPT:
            self.made.clear()
        made = self.made
        return ready[:begin] + b"\n".join([made.get(it) or self.line(it) for it in ready[begin:].split(b"\n")])

    def line(self, line):
        """What a line is made, which is not kept: a plain one of a call by name."""
        words = line.split(b" ", 4)
        rest = b" " + words.pop() if len(words) > 4 else b""
        if words[0] != b"call" or len(rest) > MOST_REST:
            return line
        known = self.begun.get(tuple(words)) or self.beginning(words)
        # only the first argument of a call has a name; the program reads the others
        made = known[0] + rest if rest.count(b" ") <= known[1] else line
        self.made[line] = made
        return made

    def beginning(self, words):
        """What these first words of a call are made, and how many more may follow. Those at fault stay, and the
        program finds it."""
        line = b" ".join(words)
        found = line, MOST_BYTES
        if NAMED.match(line):
            try:
                if self.board is None:
                    first = self.first.partition(b"\n")[0].decode(errors="replace")
                    self.board = plain.Board(first.removeprefix("board "))
                made = plain.plain_call(self.board, line.decode(errors="replace")).split(" ")
                found = " ".join(made).encode(), len(plain.takes_of(int(made[2], 16))) - len(made[3:])
            except Wrong:
                pass
        if len(self.begun) > KEPT:
            self.begun.clear()
        self.begun[tuple(words)] = found
        return found


def plain_of(script):
    """A whole script with its calls plain."""
    names = Names()
    return names.plain(script) + names.plain(b"")


def lines(text, change):
    """Each line of a script, changed by this of the board and the line; raises a fault with the
    number of its line."""
    board = None
    for number, line in enumerate(text.split("\n"), 1):
        try:
            if number == 1:
                if not line.startswith("board "):
                    raise Wrong(*told.no_board(line))
                board = plain.Board(line[len("board "):])
                yield line
            else:
                yield change(board, line)
        except Wrong as wrong:
            at = wrong.at + (len("board ") if number == 1 and line.startswith("board ") else 0)
            raise Fault(number, at, line, wrong.text) from wrong


class Fault(Exception):
    """A fault of a script by name, at a line and a place in it."""

    def __init__(self, number, at, line, text):
        super().__init__(text)
        self.lines = [f"line {number}, column {at + 1}: {text}", *pointed(line, at)]
