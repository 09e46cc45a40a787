"""Wrong firmware and wrong power controllers, each with the script of tests/program/scripts/safe.txt that
shows it.

Each is a method in place of the right one. With it the run's first wrong line is the one that the
comment in the script says, and the sentence of docs/HEADLINE.md is broken, or none by this alone.
"""
from collections import namedtuple

import firmware as fw
from controller import Controller
from firmware import Ack, Firmware, Outcome

# the class and the method, the script, its first wrong line, and the sentence
Wrong = namedtuple("Wrong", "owner method script line sentence")
WRONG = {}
RIGHT = {name: getattr(Firmware, name)
         for name in ("function", "claimed", "enter", "open_life", "cpu_on", "take")}
STARTS = Controller.start


def wrong(owner, method, script, line, sentence):
    def keep(function):
        WRONG[function] = Wrong(owner, method, f"safe-{script}", line, sentence)
        return function
    return keep


# ---- power controllers

@wrong(Controller, "down", "running-core-keeps-its-cluster", "8 ack #1 applied 2", 1)
def no_generations(self, message):
    path, applied = self.board.path(message.core), 0
    for level, depth, _ in message.parts:
        if any(self.depth[child] < depth for child in self.board.children(path[level])):
            return applied, False
        self.depth[path[level]] = depth
        applied += 1
    return applied, False


@wrong(Controller, "down", "started-neighbour-keeps-the-cluster", "8 ack #2 applied 2", 1)
def sender_alone(self, message):
    if message.parts[0][2] != self.starts[message.core]:
        return 0, True
    for node, part in zip(self.board.path(message.core), message.parts):
        self.depth[node] = part[1]
    return len(message.parts), False


@wrong(Controller, "deliver", "claims-end-with-their-life", "12 ack #3 applied 2", 1)
def any_life(self, message):
    if message.kind == "down":
        return Ack(*message[:4], *self.down(message))
    if message.kind == "start":
        applied = self.kick(message.core, message.number, "on")
        return Ack(*message[:4], int(applied), not applied)
    self.begin(self.life + 1)
    return Ack(*message[:4], 1, False)


@wrong(Controller, "start", "least-ask-of-the-cluster", "17 ack #5 applied 3", 1)
def wakes_the_core_alone(self, core, cause):
    depths = dict(self.depth)
    STARTS(self, core, cause)
    if cause == "wake":
        self.depth.update((node, depths[node]) for node in self.board.path(core)[1:])


# ---- firmware

@wrong(Firmware, "function", "off-means-powered-down", "6 return 1", 1)
def off_at_once(self, core, word, *args):
    if word in fw.CPU_OFF:
        self.status[core] = fw.OFF
    return RIGHT["function"](self, core, word, *args)


@wrong(Firmware, "take", "off-means-powered-down", "10 return 1", 1)
def off_by_any_acknowledgement(self, ack):
    return RIGHT["take"](self, ack._replace(applied=max(ack.applied, 1)))


@wrong(Firmware, "take", "running-core-keeps-its-cluster", "9 used", None)
def takes_any_start(self, ack):
    return "used"


@wrong(Firmware, "claimed", "one-core-claims-the-cluster",
       "8 stop #2 down 2 life 1 number 1 parts 0:3:1 1:3:2", 2)
def own_ask(self, node, last):
    return 3 if last == "away" else last[node[0]]


@wrong(Firmware, "claimed", "least-ask-of-the-cluster",
       "10 stop #3 down 3 life 1 number 1 parts 0:3:1 1:3:2", 3)
def greatest_ask(self, node, last):
    asks = [self.ask(core, node[0]) for core in self.board.below(node)]
    return max(asks) if min(asks) else 0


@wrong(Firmware, "last_core", "one-claim-in-os-initiated-mode",
       "9 stop #2 down 2 life 1 number 1 parts 0:3:1 1:3:2", 2)
def no_check(self, core, depths):
    return None


@wrong(Firmware, "last_core", "last-core-asks-no-deeper",
       "11 stop #3 down 3 life 1 number 1 parts 0:3:1 1:3:2", None)
def running_cores_alone(self, core, depths):
    path = self.board.path(core)
    beside = [child for at, node in enumerate(path[1:]) for child in self.board.children(node)
              if child != path[at] and depths[at + 1]]
    return None if all(self.nobody_active(child) for child in beside) else fw.DENIED


@wrong(Firmware, "last_core", "last-core-asks-no-deeper",
       "18 stop #5 down 0 life 1 number 1 parts 0:3:1 1:3:1 2:3:4", None)
def own_cluster_alone(self, core, depths):
    cluster = self.board.path(core)[1]
    shallow = any(self.granted[child] < depths[1] for child in self.board.children(cluster)
                  if child != self.board.path(core)[0])
    return fw.INVALID_PARAMETERS if shallow else None


@wrong(Firmware, "claimed", "last-core-asks-no-deeper",
       "16 stop #4 down 3 life 1 number 1 parts 0:3:1 1:3:3", 3)
def by_the_state_type(self, node, last):
    depth = RIGHT["claimed"](self, node, last)
    return 3 if depth and last != "away" and last[0] == 3 else depth


@wrong(Firmware, "enter", "entry-point-used-once", "11 enter 0x40001000 0x7", 4)
def keeps_entry_points(self, core, life, number, cause):
    kept = self.opening[core] if life == self.life else None
    outcome = RIGHT["enter"](self, core, life, number, cause)
    self.opening[core] = kept
    return outcome


@wrong(Firmware, "open_life", "entry-point-of-its-life", "9 enter 0x40001000 0x7", 4)
def keeps_them_over_lives(self, life):
    kept = getattr(self, "opening", [])
    RIGHT["open_life"](self, life)
    for core, opening in enumerate(kept):
        self.opening[core] = opening or self.opening[core]


@wrong(Firmware, "cpu_on", "entry-point-of-its-life", "5 enter 0x40001000 0x7", 4)
def one_entry_point(self, target, entry, context):
    said = RIGHT["cpu_on"](self, target, entry, context)
    if isinstance(said, Outcome):
        self.opening = [(entry, context) if it else None for it in self.opening]
    return said
