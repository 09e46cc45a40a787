"""Rows in words: as `./psci show` writes them, for a window or for what changed alone.

Without a window these lines are byte for byte those of the proved program, which a test holds them
to. docs/port/FORMATS.md says what they mean.
"""
from .shown import STATES

# columns before a row, the fewest of a line, and the fewest for words
MARGIN, NARROWEST, FEWEST = 6, 40, 20
# the color of a state, as a terminal counts them
COLORS = {"running": 32, "going off": 33, "standby": 34, "retention": 34, "power-down": 34,
          "started": 36, "pending": 36, "off": 90}


def wrapped(words, indent, room):
    """Words in lines that have this room, behind an indent but for the first."""
    lines, line = [], None
    for word in words:
        if line is None:
            line = word
        elif len(line) + 1 + len(word) <= room:
            line += f" {word}"
        else:
            lines.append(line)
            line = word
    return f"\n{' ' * indent}".join([*lines, line or ""]) + "\n"


def marked(depth, granted):
    """A depth, with a mark behind it where another one was granted."""
    return f"{depth}" if depth == granted else f"{depth}!"


def is_quiet(state, depth, granted):
    """Whether nothing is said of this: a core that is off, or a domain that is down, as granted."""
    return depth == granted and (state == "off" or state is None and depth == 3)


class Lines:
    """How the rows of a window are written."""

    def __init__(self, window, width, color, changes):
        self.window, self.nodes, self.board = window, window.nodes, window.board
        self.width, self.color, self.changes = max(NARROWEST, width), color, changes
        self.levels = [[node for node in self.nodes if node[0] == level]
                       for level in range(len(self.board.domains))]
        self.row_width = len(self.levels[0]) + sum(3 * len(it) + 1 for it in self.levels)
        self.beside = MARGIN + 2 + self.row_width <= self.width // 2

    def written(self, row, last):
        """The lines of a row; for changes, against the row before, or without one whole."""
        before = last if self.changes else None
        words = row.words.split(" ")
        if not self.beside:
            room, entries = self.width - MARGIN, self.entries(row, before)
            below = f"{' ' * MARGIN}{wrapped(entries, MARGIN, room)}" if entries else ""
            return f"{row.number:4}  {wrapped(words, MARGIN, room)}{below}"
        indent = MARGIN + 2 + self.row_width
        room = max(FEWEST, self.width - indent)
        return f"{row.number:4}  {self.columns(row, before)}  {wrapped(words, indent, room)}"

    def columns(self, row, before):
        """A letter for each core, and the depths level by level; what did not change is blank."""
        letters = "".join(self.letter(row, node, before) for node in self.levels[0])
        return letters + "".join(" " + "".join(self.depth(row, node, before) for node in level)
                                 for level in self.levels)

    def letter(self, row, node, before):
        state = row.cores[node[1]]
        if before and before.cores[node[1]] == state:
            return " "
        letter = STATES[state][0]
        return f"\x1b[{COLORS[state]}m{letter}\x1b[0m" if self.color else letter

    @staticmethod
    def depth(row, node, before):
        depths = row.depths_of(node)
        if before and before.depths_of(node) == depths:
            return "   "
        return f" {marked(*depths):2}"

    def entries(self, row, before):
        """What is not off, or not as granted, by its name; or what changed."""
        if before:
            found = [self.entry(row, node) for node in self.window.changed(row, before)]
        else:
            found = [self.entry(row, node) for node in self.nodes
                     if not is_quiet(*row.look(node))] or ["all off"]
        return [f"{it};" for it in found[:-1]] + found[-1:]

    def entry(self, row, node):
        """What is said of a core, or of a power domain above the cores."""
        state, depth, granted = row.look(node)
        name = self.board.name(node)
        if state is None:
            return f"{name}: {marked(depth, granted)}"
        if state == "off" and not self.changes:
            return f"{name}: {marked(depth, granted)}"
        said = STATES[state][0]
        return f"{name}: {said}" + (f" {marked(depth, granted)}" if depth != granted else "")

    def heading(self):
        """The names of the columns, in two lines."""
        if not self.beside:
            return "   n  asked -> answered, and below it what changed\n"
        cores = self.levels[0]
        names = " " * MARGIN + f"{'core':{len(cores)}.{len(cores)}}"
        numbers = "   n  " + "".join(str(index % 10) for _, index in cores)
        for level in self.levels:
            name = self.board.name(level[0]).split(" ")[0]
            names += f"  {name:{3 * len(level) - 1}.{3 * len(level) - 1}}"
            numbers += " " + "".join(f" {index:<2}" for _, index in level)
        return f"{names}\n{numbers}  asked -> answered\n"


def write(window, run, out, lines, screen):
    """Writes the rows of a window; for changes with a heading on each screen of so many lines. The first row has all
    that is shown: no row stands before it."""
    left, is_first = 0, True
    for row, last in window.rows(run):
        text = lines.written(row, None if is_first else last)
        is_first = False
        height = text.count("\n")
        if lines.changes and left < height:
            heading = lines.heading()
            out.write(heading)
            left = max(screen - heading.count("\n"), height)
        out.write(text)
        left -= height
