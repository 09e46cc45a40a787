"""A machine of the second model that plays drawn calls, side by side, and writes down what a payload would;
and the script of what happened, which the program can answer."""
import random

import firmware as fw
from board import Board
from judge.peer import Peer, Power
from judge.profile import Profile

BOARDS = ("3", "(2 1)", "((2) (1))")
REST = "exec 0x40000000-0x40100000 boot 0x40000000 starts 100000 lives 3"


class Recorder:
    """Its lines are those of a record, and its script the events in their order."""

    def __init__(self, seed):
        self.random = random.Random(seed)
        self.text = f"{self.random.choice(BOARDS)} {REST}"
        self.board = Board(self.text)
        self.profile = Profile(board=self.board)
        self.firmware, self.power = Peer(self.board, self.profile), Power(self.board)
        self.firmware.enter(0, *self.power.started[0])
        cores = self.board.cores
        self.place, self.doing = ["running"] + ["stopped"] * (len(cores) - 1), [None] * len(cores)
        self.numbers, self.time, self.acks, self.made = [0] * len(cores), 0, [], 0
        self.script, self.sent, self.given = ["enter 0"], [], []
        self.lines = [f"head 1 40000000 40000040 0 {len(cores):x} 0"]

    def tick(self):
        self.time += 1
        return self.time - 1

    def tell(self, kind, core, *numbers):
        self.lines.append(" ".join([kind, *(f"{it % 2**64:x}" for it in (core, self.numbers[core], *numbers))]))
        self.numbers[core] += 1

    # ---- what a core calls

    def target(self):
        core = self.random.choice(self.board.cores)
        return sum(field << 8 * at for at, field in enumerate(self.board.places[core]))

    def entry(self):
        return 0x40000040 + 8 * self.random.randrange(16), self.random.getrandbits(16)

    def call(self, core):
        draw, width = self.random.randrange(20), self.random.choice((0, fw.SMC64))
        if draw < 6:
            return [0x84000003 | width, self.target(), *self.entry()]
        if draw < 11:
            return [0x84000004 | width, self.target(), self.random.choice((0, 0, 0, 1, 2)), 0]
        if draw < 13:
            return [0x8400000D | width, self.target(), self.random.choice((0, 0, 1)), 0]
        if draw < 15 and core:
            return [0x84000002, 0, 0, 0]
        if draw < 18:
            return [0x84000001 | width, self.random.choice((1, 1, 2, 0x10003, 0x1010033, 0x1000011)), *self.entry()]
        if draw < 19:
            return [0x8400000F, self.random.randrange(3), 0, 0]
        return [0x8400000E | width, *self.entry(), 0]

    # ---- what may happen next

    def steps(self, is_ending):
        for core in self.board.cores:
            doing = self.doing[core]
            if self.place[core] == "running":
                if doing is None and not is_ending:
                    yield self.begin, core
                elif doing is not None:
                    yield {"over": self.end, "entered": self.write_entry}.get(doing[0], self.take_effect), core
            elif self.place[core] == "started":
                yield self.enter, core
            elif self.firmware.phase(core) == "suspended":
                yield self.wake, core
        for message in self.firmware.slots.values():
            yield self.deliver, message
        for ack in self.acks:
            yield self.take, ack

    def begin(self, core):
        self.doing[core] = "begun", self.tick(), self.call(core)
        self.made += 1

    def take_effect(self, core):
        _, begin, regs = self.doing[core]
        outcome = self.firmware.smc(core, regs)
        self.script.append(f"call {core} " + " ".join(map(hex, regs)))
        if outcome.message is not None:
            self.sent.append(outcome.message)
        if outcome.act == "return":
            self.doing[core] = "over", begin, regs, outcome.values[0]
        else:
            self.doing[core] = "stopped", begin, regs
            self.place[core] = "stopped"

    def end(self, core):
        _, begin, regs, code = self.doing[core]
        result = code % 2**64 if regs[0] & fw.SMC64 else code % 2**32
        self.tell("call", core, begin, self.tick(), 1, *regs, result, *regs[1:], 0)
        self.doing[core] = None

    def enter(self, core):
        outcome = self.firmware.enter(core, *self.power.started[core])
        self.script.append(f"enter {core}")
        self.place[core] = "stopped" if outcome.act == "stop" else "running"
        if outcome.act == "enter":
            if self.doing[core]:
                self.tell("open", core, *self.doing[core][1:2], *self.doing[core][2])
            self.doing[core] = "entered", outcome.values
        elif outcome.act == "resume":
            self.doing[core] = "over", *self.doing[core][1:3], 0

    def write_entry(self, core):
        self.tell("enter", core, self.tick(), *self.doing[core][1])
        self.doing[core] = None

    def wake(self, core):
        self.script.append(f"wake {core}")
        if self.power.kick(core, self.power.starts[core], "wake"):
            self.place[core] = "started"

    def deliver(self, message):
        self.script.append(f"deliver {self.sent.index(message)}")
        ack = self.power.deliver(message)
        if ack is not None:
            self.acks.append(ack)
            self.given.append(ack)
            if message.kind == "start" and ack.applied:
                self.place[message.core] = "started"

    def take(self, ack):
        self.script.append(f"take {self.given.index(ack)}")
        self.firmware.take(ack)
        self.acks.remove(ack)

    def is_still(self):
        """Whether nothing is under way."""
        waits = any(it for core, it in enumerate(self.doing) if self.place[core] == "running")
        return not waits and "started" not in self.place and all(
            self.firmware.phase(core) in ("running", "away") for core in self.board.cores)

    def record(self, calls):
        """Plays so many calls, and then until nothing is under way."""
        while True:
            is_ending = self.made >= calls
            steps = list(self.steps(is_ending))
            if is_ending and self.is_still():
                for core, doing in enumerate(self.doing):
                    if doing:
                        self.tell("open", core, doing[1], *doing[2])
                self.tell("open", 0, self.tick(), fw.SYSTEM_OFF[0], 0, 0, 0)
                return self.lines
            step, what = self.random.choice(steps)
            step(what)
