"""A window of a run: the events from one number to another, and those of some cores."""
import argparse
import re

LARGEST = 10 ** 9


def number_from_one(text):
    """The number of an event."""
    if not re.fullmatch(r"[1-9][0-9]{0,8}", text):
        raise argparse.ArgumentTypeError(f"'{text}'; expected the number of an event, 1 or more")
    return int(text)


def core_list(text):
    """The cores of a list of numbers and ranges, as 0-3,8."""
    cores = set()
    for part in text.split(","):
        match = re.fullmatch(r"(\d{1,3})(?:-(\d{1,3}))?", part)
        if not match or int(match[2] or match[1]) < int(match[1]):
            raise argparse.ArgumentTypeError(f"'{text}'; expected a list of cores, as 0-3,8")
        cores |= set(range(int(match[1]), int(match[2] or match[1]) + 1))
    return frozenset(cores)


def add_words(parser):
    """The options of a window."""
    parser.add_argument("--from", dest="first", type=number_from_one, default=1, metavar="N",
                        help="begin with event N")
    parser.add_argument("--to", dest="last", type=number_from_one, default=LARGEST, metavar="N",
                        help="end with event N")
    parser.add_argument("--cores", type=core_list, metavar="LIST",
                        help="only these cores, as 0-3,8, the domains above them, and their events")


# the words of a window that leaves nothing out
WHOLE = argparse.Namespace(first=1, last=LARGEST, cores=None)


class Window:
    """What a view looks at."""

    def __init__(self, board, words):
        self.board, self.first, self.last = board, words.first, words.last
        # how many of the run's rows are in it, and whether the run goes on behind it
        self.cores, self.count, self.goes_on = words.cores, 0, False
        self.nodes = [node for node in board.nodes if self.has_node(node)]
        self.known = frozenset(self.nodes)
        # the core of each message, and of the message of each acknowledgement
        self.messages, self.replies = {}, {}

    def has_node(self, node):
        return self.cores is None or not self.cores.isdisjoint(self.board.cores_of(node))

    def rows(self, run):
        """The rows inside, each with the row of the run before it; what comes behind is only read."""
        last = None
        for row in run:
            if row.number > self.last:
                self.goes_on = True
                for _ in run.file:
                    pass
                return
            is_of = self.is_of(row)
            if row.number >= self.first and (is_of or self.shows_change(row, last)):
                self.count += 1
                yield row, last
            last = row

    def is_of(self, row):
        """Whether the event is one of these cores: its own, or one of a message of it."""
        if self.cores is None:
            return True
        kind, number = row.event["kind"], row.event["number"]
        if row.sent:
            self.messages[row.sent["index"]] = row.sent["core"]
        if row.acknowledged:
            self.replies[row.acknowledged["index"]] = row.acknowledged["core"]
        if row.sent and row.sent["core"] in self.cores:
            return True
        known = {"deliver": self.messages, "take": self.replies}.get(kind)
        return (known.get(number) if known is not None else number) in self.cores

    def shows_change(self, row, last):
        """Whether something that is shown of these cores changed."""
        return last is None or bool(self.changed(row, last))

    def changed(self, row, last):
        """The cores and power domains of which an event changed something since this row; all of them without one."""
        return [node for node in row.changed(last) if node in self.known] if last else self.nodes
