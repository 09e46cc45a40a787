"""Where the boxes of a picture stand, each above those that it stands on, and how the lines between them run.

A line goes from a layer to the next one down. One that goes further has a joint in each layer between, which all
lines down to the same box share.
"""
BOX, JOINT, APART = 128, 6, 10
SWEEPS = 40


class Layers:
    """The layers of a graph: of each name the names that it stands on."""

    def __init__(self, below):
        self.below = reduced(below)
        self.level = {}
        for name in below:
            self.raise_to(name)
        self.rows = [[] for _ in range(max(self.level.values()) + 1)]
        self.down = {}
        for name, lower in self.below.items():
            self.put(name, self.level[name])
            for it in lower:
                self.join(name, it)
        self.up = {node: [it for it in self.down if node in self.down[it]] for node in self.down}
        self.x = {node: at for row in self.rows for at, node in enumerate(row)}
        for sweep in range(SWEEPS):
            self.sweep(self.down if sweep % 2 == 0 else self.up, sweep < SWEEPS // 2)
        self.narrow()

    def raise_to(self, name):
        """The layer of a name: one above the highest that it stands on."""
        if name not in self.level:
            self.level[name] = 1 + max(map(self.raise_to, self.below[name]), default=-1)
        return self.level[name]

    def put(self, node, level):
        if node not in self.down:
            self.down[node] = []
            self.rows[level].append(node)

    def join(self, name, lower):
        """The line from a name down to one that it stands on, by a joint in each layer between."""
        for level in range(self.level[name] - 1, self.level[lower], -1):
            joint = (lower, level)
            self.put(joint, level)
            if joint not in self.down[name]:
                self.down[name].append(joint)
            name = joint
        if lower not in self.down[name]:
            self.down[name].append(lower)

    def sweep(self, beside, may_exchange):
        """Each box comes near to the middle of those that it is joined to, above or below."""
        for row in self.rows if beside is self.down else reversed(self.rows):
            wanted = {it: middle([self.x[other] for other in beside[it]] or [self.x[it]]) for it in row}
            if may_exchange:
                row.sort(key=wanted.get)
            self.x.update(spread(row, wanted))

    def narrow(self):
        """At the end each row is where all its joins, above and below, want it; none is left of 0."""
        for _ in range(SWEEPS):
            for row in self.rows:
                wanted = {it: middle([self.x[other] for other in self.down[it] + self.up[it]]) for it in row}
                self.x.update(spread(row, wanted))
        left = min(self.x[it] - wide(it) / 2 for it in self.x)
        self.x = {it: round(x - left) for it, x in self.x.items()}


def reduced(below):
    """The graph without each line that others already make: one that leads down by another name."""
    def reached(name):
        return {name}.union(*map(reached, below[name]))
    return {name: [it for it in lower if not any(it in reached(other) for other in lower if other != it)]
            for name, lower in below.items()}


def wide(node):
    """How wide a box is, or a joint."""
    return BOX if isinstance(node, str) else JOINT


def middle(places):
    return sum(places) / len(places)


def spread(row, wanted):
    """Where the nodes of a row stand: in its order, apart, and as near as can be to where each is wanted."""
    offsets, at = [], 0.0
    for node in row:
        offsets.append(at + wide(node) / 2)
        at += wide(node) + APART
    # neighbors that want to pass each other stand together, in the middle of what they want
    groups = []
    for node, offset in zip(row, offsets):
        groups.append([wanted[node] - offset, 1])
        while len(groups) > 1 and groups[-2][0] > groups[-1][0]:
            (one, many), (other, more) = groups[-2:]
            groups[-2:] = [[(one * many + other * more) / (many + more), many + more]]
    places = [place for place, many in groups for _ in range(many)]
    return {node: place + offset for node, place, offset in zip(row, places, offsets)}
