"""A run as `./psci show --json` writes it: the board, and then a row for each event.

A row of a large board is long, and most of it is as in the row before. So the lists of a line are
compared as text, and read only where they changed and somebody asks.
"""
import itertools
import json
import operator

# the letter of each state, and what it means, as the legend of `show` has them
STATES = {
    "running": ("R", "runs"),
    "started": ("S", "was started, and has not entered"),
    "standby": ("b", "is suspended to standby"),
    "retention": ("r", "is suspended to retention"),
    "power-down": ("d", "is suspended to power-down"),
    "going off": ("g", "goes off, which is not acknowledged yet"),
    "off": (".", "is off"),
    "pending": ("P", "is to be started by a CPU_ON"),
}
# what stands in a line before the states, the places, the depths, the granted depths, and behind
MARKS = (', "cores": ', ', "places": ', ', "depths": ', ', "granted": ', ', "sent": ')

CORES, _, DEPTHS, GRANTED = range(4)

# reads the value at the beginning of a text, faster than json.loads
read_value = json.JSONDecoder().raw_decode


def read_json(text):
    """The value that a text begins with."""
    return read_value(text)[0]


class NotShown(Exception):
    """Standard input is no run as `show --json` writes it."""


class Board:
    """The board of a run: its text, and its power domains level by level from the cores up."""

    def __init__(self, line):
        value = json.loads(line)
        self.text, self.cores, self.domains = value["board"], value["cores"], value["domains"]
        self.nodes = [(level, index) for level, row in enumerate(self.domains)
                      for index in range(len(row))]

    def name(self, node):
        level, index = node
        return self.domains[level][index]["name"]

    def cores_of(self, node):
        level, index = node
        return self.domains[level][index]["cores"]

    def tree(self):
        """Each power domain above its parts: level, index, and how far below the system."""
        def below(level, index, indent):
            cores = set(self.cores_of((level, index)))
            yield level, index, indent
            for at, part in enumerate(self.domains[level - 1] if level else ()):
                if set(part["cores"]) <= cores:
                    yield from below(level - 1, at, indent + 1)
        return below(len(self.domains) - 1, 0, 0)


class Listed:
    """A list of a line: its text, which is read once."""

    def __init__(self, text):
        self.text, self.read = text, []

    @property
    def value(self):
        if not self.read:
            try:
                self.read.append(read_json(self.text))
            except ValueError as fault:
                raise NotShown from fault
        return self.read[0]


def differing(values, before):
    """The places at which two lists differ."""
    return itertools.compress(itertools.count(), map(operator.ne, values, before))


class Row:
    """An event, and what holds after it: the members of its object, by their names."""

    def __init__(self, text, last=None):
        at = [-1]
        for mark in MARKS:
            at.append(text.find(mark, at[-1] + 1))
            if at[-1] < 0:
                raise NotShown
        del at[0]
        head, tail = read_json(text[:at[0]] + "}"), read_json("{" + text[at[4] + 2:])
        self.text = text
        self.number, self.line, self.event = head["number"], head["line"], head["event"]
        self.asked, self.answer, self.said = head["asked"], head["answer"], head["said"]
        self.sent, self.acknowledged, self.taken = tail["sent"], tail["acknowledged"], tail["taken"]
        self.life, self.live = tail["life"], tail["live"]
        # a list is that of the last row where nothing in it changed
        texts = [text[begin + len(mark):end] for mark, begin, end in zip(MARKS, at, at[1:])]
        lists = last.lists if last else [None] * len(texts)
        self.lists = [old if old and old.text == new else Listed(new) for old, new in zip(lists, texts)]

    @property
    def cores(self):
        return self.lists[CORES].value

    @property
    def depths(self):
        return self.lists[DEPTHS].value

    @property
    def granted(self):
        return self.lists[GRANTED].value

    @property
    def words(self):
        """What was asked and what was answered, as `show` says it."""
        return f"{self.asked} -> {self.said}"

    def depths_of(self, node):
        """The depth of a power domain, and the granted one: as it is, while none is known."""
        level, index = node
        depth = self.depths[level][index]
        return depth, self.granted[level][index] if self.granted else depth

    def look(self, node):
        """What is shown of a core or power domain: the core's state, and the depths."""
        return (self.cores[node[1]] if node[0] == 0 else None, *self.depths_of(node))

    def changed(self, last):
        """The cores and power domains of which something that is shown is not as in this row, in their order: those
        alone whose list is another one are looked at."""
        if self.is_like(last):
            return []
        found = {(0, at) for at in differing(self.cores, last.cores)}
        for lists, before in ((self.depths, last.depths), (self.granted or self.depths, last.granted or last.depths)):
            if lists is not before:
                found.update((level, at) for level, (values, old) in enumerate(zip(lists, before)) if values != old
                             for at in differing(values, old))
        return sorted(found)

    def is_like(self, last):
        """Whether all that is shown of the board is as it was."""
        return all(self.lists[at] is last.lists[at] for at in (CORES, DEPTHS, GRANTED))


class Run:
    """A run that comes from a file or a pipe: its board, and its rows one after the other."""

    def __init__(self, file):
        self.file = iter(file)
        first = self.first = next(self.file, None)
        try:
            self.board = Board(first) if first else None
        except (ValueError, KeyError, TypeError) as fault:
            raise NotShown from fault

    def __iter__(self):
        last = None
        for text in self.file:
            try:
                last = Row(text, last)
            except (ValueError, KeyError, TypeError) as fault:
                raise NotShown from fault
            yield last
