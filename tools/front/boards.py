"""Reads a board text by its grammar, and finds where a fault of it is."""
import re

from views import faults

from .reader import Reader, Wrong, end_of


class Tree:
    """The tree of a board: its members, each a cluster's place and cores, or a place and such members."""

    def __init__(self, reader):
        self.reader = reader
        self.members = self.read(2) if reader.text.startswith("(", reader.at) else None
        self.single = None if self.members is not None else self.cluster()

    def cluster(self):
        at = self.reader.at
        return at, self.reader.number("the number of cores of a cluster", False, " ()")

    def read(self, levels):
        """A list of members between ( and ), at most so many lists deep."""
        self.reader.fixed("(")
        members = []
        while True:
            at = self.reader.at
            if levels > 1 and self.reader.text.startswith("(", at):
                members.append((at, self.read(levels - 1)))
            else:
                members.append(self.cluster())
            if not self.reader.text.startswith(" ", self.reader.at):
                self.reader.fixed(")", "a blank or )")
                return members
            self.reader.blank("a member")

    def clusters(self):
        """Each cluster: where it stands, and its cores."""
        for at, it in ([self.single] if self.members is None else self.members):
            yield from it if isinstance(it, list) else [(at, it)]


def read_board(text, at=0):
    """Reads a board text from this place on: the tree, the ranges, the boot address and the limits,
    with the places of the numbers. Raises what is wrong with the grammar."""
    reader = Reader(text, at)
    tree, ranges, limits = Tree(reader), [], {}
    reader.blank("exec")
    reader.fixed("exec")
    while not ranges or not reader.text.startswith(" boot", reader.at):
        reader.blank("a range, or boot")
        place = reader.at
        if ranges and not re.match("[0-9]", reader.text[place:]):
            raise Wrong(place, f"{reader.here()}; expected a range or 'boot'")
        first = reader.number("the first address of a range", True, " -")
        reader.fixed("-", "- and the address after the range")
        ranges.append((place, first, reader.number("the address after the range", True)))
    for word, hexadecimal in (("boot", True), ("starts", False), ("lives", False)):
        reader.blank(word)
        reader.fixed(word)
        reader.blank("a number")
        limits[word] = reader.at, reader.number(f"the number of {word}", hexadecimal)
    if not reader.is_done():
        reader.blank("format")
        reader.fixed("format")
        reader.blank("original or extended")
        if reader.word() not in ("original", "extended"):
            raise Wrong(reader.at, f"{reader.here()}; expected original or extended")
        reader.at += len(reader.word())
        end_of(reader)
    return tree, ranges, limits


def number(text):
    """The number of the first fault of a board text, or nothing."""
    try:
        tree, ranges, limits = read_board(text)
    except Wrong:
        return 1
    members = tree.members or []
    groups = [it for _, it in members if isinstance(it, list)]
    sizes = [cores for _, cores in tree.clusters()]
    boot, starts, lives = (limits[it][1] for it in ("boot", "starts", "lives"))
    holds = (
        (2, groups and len(groups) < len(members)),
        (3, any(not 1 <= it <= 16 for it in [*sizes, *map(len, groups), len(members) or 1])),
        (4, sum(sizes) > 256),
        (5, len(ranges) > 4 or any(first >= end for _, first, end in ranges)),
        (6, boot % 4 or not any(first <= boot < end for _, first, end in ranges)),
        (7, not (1 <= starts < 2 ** 32 and 1 <= lives < 2 ** 16)),
    )
    return next((it for it, is_so in holds if is_so), None)


def place(number, text, at=0):
    """Where the fault of this number is in a board text."""
    tree, ranges, limits = read_board(text, at)
    members = tree.members or []
    if number == 2:
        first = isinstance(members[0][1], list)
        return next(place for place, it in members if isinstance(it, list) != first)
    if number == 3:
        wide = [place for place, it in members if isinstance(it, list) and len(it) > 16]
        bad = [place for place, cores in tree.clusters() if not 1 <= cores <= 16]
        return min(wide + bad + ([at] if len(members) > 16 else []))
    if number == 5:
        return next((place for place, first, end in ranges if first >= end), ranges[-1][0])
    if number == 6:
        return limits["boot"][0]
    if number == 7:
        starts, lives = limits["starts"], limits["lives"]
        return starts[0] if not 1 <= starts[1] < 2 ** 32 else lives[0]
    return at


def fault(number, text, at=0):
    """The place and the words of a board fault."""
    try:
        return place(number, text, at), faults.words_of("board")[number].partition(": ")[2]
    except Wrong as wrong:
        return wrong.at, wrong.text
