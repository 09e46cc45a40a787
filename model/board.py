"""The board of a script: its tree of power domains, where cores may enter, its limits, and the
format of its power state words."""
import re

DEC = r"(?:0|[1-9][0-9]*)"
HEX = r"0x[0-9a-fA-F]{1,16}"
MEMBER = rf"(?:{DEC}|\({DEC}(?: {DEC})*\))"
TREE = rf"(?:{DEC}|\({MEMBER}(?: {MEMBER})*\))"
FORMAT = r"(?: format (original|extended))?"
BOARD = rf"({TREE}) exec((?: {HEX}-{HEX})+) boot ({HEX}) starts ({DEC}) lives ({DEC}){FORMAT}"


class Fault(Exception):
    """The script ends here, with this said of it."""


class Board:
    def __init__(self, text):
        match = re.fullmatch(BOARD, text)
        if not match:
            raise Fault("line 1: board fault 1")
        tree, ranges, boot, starts, lives, form = match.groups()
        decimals = re.findall(rf"(?<![0-9a-zA-Z]){DEC}(?![0-9a-zA-Z])", text)
        if any(int(it) >= 2**64 for it in decimals):
            raise Fault("line 1: board fault 1")
        members = re.findall(r"\([^()]*\)|[0-9]+", tree[1:-1] if tree[0] == "(" else tree)
        groups = [[int(it) for it in re.findall("[0-9]+", member)] for member in members]
        self.height = 1 if tree[0] != "(" else 3 if "(" in tree[1:] else 2
        self.ranges = [[int(it, 16) for it in pair.split("-")] for pair in ranges.split()]
        self.boot, self.starts, self.lives = int(boot, 16), int(starts), int(lives)
        self.extended = form == "extended"
        sizes = [it for group in groups for it in group]
        lists = [len(groups)] + [len(group) for group in groups]
        faults = [
            (2, len({member[0] == "(" for member in members}) > 1),
            (3, any(it < 1 or it > 16 for it in sizes + lists)),
            (4, sum(sizes) > 256),
            (5, len(self.ranges) > 4 or any(first >= end for first, end in self.ranges)),
            (6, not self.may_enter(self.boot)),
            (7, not (1 <= self.starts < 2**32 and 1 <= self.lives < 2**16)),
        ]
        for number, holds in faults:
            if holds:
                raise Fault(f"line 1: board fault {number}")
        # of each core its number in its cluster, its cluster's in the group, its group's
        if self.height == 3:
            self.places = [(core, cluster, group) for group, them in enumerate(groups)
                           for cluster, size in enumerate(them) for core in range(size)]
        else:
            self.places = [(core, cluster, 0) for cluster, size in enumerate(sizes)
                           for core in range(size)]
        self.cores = range(len(self.places))
        self.nodes = {node for core in self.cores for node in self.path(core)}

    def may_enter(self, address):
        return address % 4 == 0 and any(first <= address < end for first, end in self.ranges)

    def named(self, word, level):
        """The cores below the domain that an affinity word names, none where it names no domain."""
        if level > self.height or word >> 24:
            return []
        fields = [word >> 8 * at & 255 for at in range(3)]
        # above the height of the board there is one domain, of number 0
        return self.below((level, tuple(fields[level:])))

    # a domain is its level and the fields of its affinity from that level up

    def path(self, core):
        """The core and the domains above it, from level 0 up."""
        return [(level, self.places[core][level:]) for level in range(self.height + 1)]

    def below(self, node):
        """The cores below a domain."""
        level, fields = node
        return [core for core in self.cores if self.places[core][level:] == fields]

    def children(self, node):
        """The domains one level down, none of a core."""
        level = node[0] - 1
        if level < 0:
            return set()
        return {(level, self.places[core][level:]) for core in self.below(node)}
