"""A run as a page: one file that needs no net, made of tools/page/ and of the run, packed.

The page has its numbers and texts in four streams: what happened in each event, what each changed,
the words, and the times where there is a clock. tools/page/unpack.js and run.js read them.
"""
import html
import json
import operator
import os
import re
from itertools import compress

from .packing import Stream
from .shown import CORES, DEPTHS, GRANTED, STATES

FOLDER = os.path.join(os.path.dirname(os.path.dirname(os.path.abspath(__file__))), "page")
# the scripts of a page, each after those that it uses
SCRIPTS = ("unpack", "run", "palette", "scale", "rows", "paint", "labels", "link", "minimap",
           "details", "sums", "search", "controls", "view")
KINDS = ("call", "enter", "wake", "reset", "deliver", "take")
MESSAGE_KINDS = ("down", "start", "off", "reset")
CODES = {state: code for code, state in enumerate(STATES)}
# the granted depth while none is known
UNKNOWN = 4
# of the text of depths, which are digits, makes their numbers
NUMBERS = bytes(it - ord("0") & 255 for it in range(256))
# rows between two times that the streams are compressed
FLUSHED = 4096


def outcome(answer):
    """What came of an event: fine, refused, ignored, absent, stale or old."""
    if answer.startswith("return -"):
        return 1
    return {"ignored": 2, "absent": 3, "stale": 4, "old": 5}.get(answer.rpartition(" ")[2], 0)


class Packed:
    """A run on its way into a page."""

    def __init__(self, window, clock):
        self.window, self.board, self.clock = window, window.board, clock
        # the places of what is shown among all cores, and among all nodes
        self.cores = [index for level, index in window.nodes if level == 0]
        self.nodes = [self.board.nodes.index(node) for node in window.nodes]
        self.is_whole = len(self.nodes) == len(self.board.nodes)
        # what the cells of a row are made of, and the cells of the last row
        self.picks = {CORES: self.states, DEPTHS: self.depths, GRANTED: self.depths}
        self.values, self.last = {}, None
        self.events, self.changes, self.texts, self.times = (Stream() for _ in range(4))
        self.count, self.number, self.time = 0, 0, 0

    def read(self, run):
        """Takes all rows of the window."""
        for row, _ in self.window.rows(run):
            self.put_event(row)
            self.put_changes(row)
            self.texts.text(f"{row.asked}\t{row.said}\t{row.answer}\t{row.line}\n")
            if self.clock.times is not None:
                self.times.number(self.clock.at(row.number) - self.time)
                self.time = self.clock.at(row.number)
            self.count, self.number = self.count + 1, row.number
            if self.count % FLUSHED == 0:
                for stream in self.streams().values():
                    stream.flush()
        return self

    def streams(self):
        return {"events": self.events, "changes": self.changes, "texts": self.texts,
                "times": self.times}

    def put_event(self, row):
        """What the event is, what came of it, and its message or acknowledgement."""
        events, sent, ack, taken = self.events, row.sent, row.acknowledged, row.taken
        events.byte(KINDS.index(row.event["kind"]) | bool(sent) << 3 | bool(ack) << 4
                    | bool(taken) << 5 | row.live << 6)
        events.number(row.number - self.number)
        events.number(row.event["number"])
        events.byte(outcome(row.answer))
        events.number(row.life or 0)
        if sent:
            events.number(sent["index"])
            events.byte(MESSAGE_KINDS.index(sent["kind"]))
            events.number(sent["core"])
        if ack:
            events.number(ack["index"])
            events.number(ack["message"])
        if taken:
            events.number(taken["index"])
            events.number(taken["message"])

    def put_changes(self, row):
        """Each cell that is not as in the row before: how far behind the last, and its value."""
        found, first, last = [], 0, self.last
        for name, pick in self.picks.items():
            listed = row.lists[name]
            if last is None:
                self.values[name] = pick(listed)
                found += enumerate(self.values[name], first)
            elif listed is not last.lists[name]:
                old, new = self.values[name], pick(listed)
                self.values[name] = new
                found += [(first + at, new[at]) for at in compress(range(len(old)), map(operator.ne, old, new))]
            first += len(self.values[name])
        self.changes.number(len(found))
        at = 0
        for cell, value in found:
            self.changes.number(cell - at)
            self.changes.byte(value)
            at = cell
        self.last = row

    def states(self, listed):
        """The codes of the states of the cores that are shown."""
        codes = bytes(map(CODES.__getitem__, listed.value))
        return codes if self.is_whole else bytes(map(codes.__getitem__, self.cores))

    def depths(self, listed):
        """The depths of what is shown, or the granted ones."""
        if listed.text == "null":
            return bytes([UNKNOWN] * len(self.nodes))
        flat = listed.text.encode().translate(NUMBERS, b"[], ")
        return flat if self.is_whole else bytes(map(flat.__getitem__, self.nodes))

    def head(self):
        """What the page has to know first."""
        nodes = [{"level": node[0], "index": node[1], "name": self.board.name(node),
                  "cores": self.board.cores_of(node)} for node in self.window.nodes]
        states = [[name, letter, meaning] for name, (letter, meaning) in STATES.items()]
        return {"board": self.board.text, "nodes": nodes, "states": states, "count": self.count}

    def value(self):
        """All of it, as the page reads it."""
        return {"head": self.head(),
                "streams": {name: stream.packed() for name, stream in self.streams().items()}}


def text_of(name):
    with open(f"{FOLDER}/{name}", encoding="utf-8") as file:
        return file.read()


def assembled(title, data, start="opened", editor=False):
    """The page of tools/page/ with its style, its scripts and its data in it, and how it starts."""
    scripts = [text_of(f"{script}.js") for script in (*SCRIPTS, *["editor"] * editor)]
    places = {"title": html.escape(title), "style": text_of("page.css"), "start": start,
              "script": "\n".join(scripts), "editor": text_of("editor.html") if editor else "",
              "data": json.dumps(data, separators=(",", ":")).replace("<", "\\u003c")}
    return re.sub(r"\{\{(\w+)\}\}", lambda match: places[match[1]], text_of("page.html"))


def write(window, run, out, clock):
    """Writes the page of a window, if there is an event to look at."""
    packed = Packed(window, clock).read(run)
    if packed.count:
        out.write(assembled(f"board {window.board.text}", packed.value()))
