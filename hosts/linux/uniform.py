"""A board whose clusters are of one size, and whose groups are."""
import re


class Board:
    """The domains of a board with clusters and groups of one size each."""

    def __init__(self, text):
        tree = text.partition(" exec ")[0]
        members = re.findall(r"\([^()]*\)|\d+", tree[1:-1] if tree[0] == "(" else tree)
        sizes = [[int(it) for it in re.findall(r"\d+", member)] for member in members]
        self.height = 1 if tree[0] != "(" else 3 if "(" in tree[1:] else 2
        groups = sizes if self.height == 3 else [[size for group in sizes for size in group]]
        self.size, self.clusters = groups[0][0], len(groups[0])
        if any(group != [self.size] * self.clusters for group in groups):
            raise SystemExit("device tree: the clusters of the board, and its groups, need to be alike")
        self.groups, self.cores = len(groups), len(groups) * self.clusters * self.size

    def path(self, core):
        """The domains of a core, from its own up: level and number."""
        cluster = core // self.size
        return [(0, core), (1, cluster), (2, cluster // self.clusters), (3, 0)][:self.height + 1]
