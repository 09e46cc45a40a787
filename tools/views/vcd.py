"""A run as value changes, which wave viewers open (VCD, IEEE 1364).

Each core has its state, as the letter that `show` gives it in ASCII, and each core and power domain
its depth and its granted depth. Beside them stand the number of the event and the life, which is 0
where there is none. What an event changes stands at its time, and events at one time come in order.
"""
from .shown import STATES


def code_of(number):
    """A short name of a variable, in printable characters."""
    code = ""
    while True:
        code += chr(33 + number % 94)
        number //= 94
        if not number:
            return code


class Changes:
    """A VCD file on its way out."""

    def __init__(self, window, out, clock):
        self.window, self.board, self.out, self.clock = window, window.board, out, clock
        self.count, self.codes, self.values = 0, {}, {}

    def head(self):
        """The variables: of each power domain a scope, with those of its parts in it."""
        self.out.write("$comment a run of PSCI: the board is "
                       f"{self.board.text}; a state is a letter in ASCII $end\n"
                       "$timescale 1 ns $end\n$scope module run $end\n")
        self.variable("event", "event", 32)
        self.variable("life", "life", 32)
        depth = -1
        for level, index, indent in self.board.tree():
            if (level, index) not in self.window.nodes:
                continue
            self.leave(depth - indent + 1)
            self.scope((level, index))
            depth = indent
        self.leave(depth + 1)
        self.out.write("$upscope $end\n$enddefinitions $end\n")

    def leave(self, count):
        self.out.write("$upscope $end\n" * count)

    def scope(self, node):
        self.out.write(f"$scope module {self.board.name(node).replace(' ', '_')} $end\n")
        if node[0] == 0:
            self.variable((node, "state"), "state", 8)
        self.variable((node, "depth"), "depth", 2)
        self.variable((node, "granted"), "granted", 2)

    def variable(self, key, name, bits):
        self.codes[key] = code_of(self.count)
        self.count += 1
        self.out.write(f"$var wire {bits} {self.codes[key]} {name} $end\n")

    def put(self, key, value):
        """Writes a value where it changed."""
        if self.values.get(key) != value:
            self.values[key] = value
            self.out.write(f"b{value:b} {self.codes[key]}\n")

    def row(self, row, last):
        """What an event changes."""
        self.put("event", row.number)
        self.put("life", row.life or 0)
        for node in self.window.changed(row, last):
            state, depth, granted = row.look(node)
            if state:
                self.put((node, "state"), ord(STATES[state][0]))
            self.put((node, "depth"), depth)
            self.put((node, "granted"), granted)


def write(window, run, out, clock):
    """Writes the value changes of a window."""
    changes, now, last = Changes(window, out, clock), None, None
    changes.head()
    for row, _ in window.rows(run):
        if clock.at(row.number) != now:
            now = clock.at(row.number)
            out.write(f"#{now}\n")
        changes.row(row, last)
        last = row
    if last:
        out.write(f"#{now + clock.step}\n")
