"""Scripts, the world that they drive, and the lines that they are answered with."""
import re

from board import DEC, HEX, Board, Fault
from controller import Controller
from firmware import Firmware


class World:
    """Board, firmware and power controller, where each core is, and all that was sent."""

    def __init__(self, board):
        self.board, self.firmware, self.controller = board, Firmware(board), Controller(board)
        self.sent, self.acks = [], []
        self.place = self.places_at_start()

    def places_at_start(self):
        started = self.controller.started
        return ["started" if core in started else "stopped" for core in self.board.cores]

    # every method answers the text of one event

    def call(self, core, regs):
        if core not in self.board.cores:
            return "absent"
        if self.place[core] != "running":
            return "ignored"
        return self.outcome(core, self.firmware.smc(core, regs))

    def enter(self, core):
        if core not in self.board.cores:
            return "absent"
        if self.place[core] != "started":
            return "ignored"
        return self.outcome(core, self.firmware.enter(core, *self.controller.started[core]))

    def outcome(self, core, outcome):
        self.place[core] = "stopped" if outcome.act == "stop" else "running"
        words = [outcome.act]
        if outcome.act == "return":
            words.append(str(outcome.values[0]))
        elif outcome.act == "enter":
            words += [f"{it:#x}" for it in outcome.values]
        elif outcome.act == "resume":
            words.append("0")
        if outcome.message is not None:
            kind, sender, life, number, parts = outcome.message
            words.append(f"#{len(self.sent)} {kind} {sender} life {life} number {number}")
            words += ["parts"] * (kind == "down") + [":".join(map(str, part)) for part in parts]
            self.sent.append(outcome.message)
        return " ".join(words)

    def wake(self, core):
        if core in self.board.cores and self.place[core] != "stopped":
            return "ignored"
        return self.kicked(core, "wake")

    def reset(self, core):
        return self.kicked(core, "reset")

    def kicked(self, core, cause):
        if core not in self.board.cores:
            return "absent"
        if not self.controller.kick(core, self.controller.starts[core], cause):
            return "ignored"
        self.place[core] = "started"
        return f"started {self.controller.starts[core]}"

    def deliver(self, index):
        if index >= len(self.sent):
            return "absent"
        message = self.sent[index]
        ack = self.controller.deliver(message)
        if ack is None:
            return "ignored"
        if message.kind in ("off", "reset"):
            self.place = self.places_at_start()
        elif message.kind == "start" and ack.applied:
            self.place[message.core] = "started"
        self.acks.append(ack)
        return f"ack #{len(self.acks) - 1} applied {ack.applied}" + " stale" * ack.stale

    def take(self, index):
        return self.firmware.take(self.acks[index]) if index < len(self.acks) else "absent"


def number(text, may_be_hex):
    if re.fullmatch(DEC, text) and int(text) < 2**64:
        return int(text)
    if may_be_hex and re.fullmatch(HEX, text):
        return int(text, 16)
    return None


def answer(world, line):
    """The answer of an event line, or None where it is no event line."""
    word, *words = line.split(" ")
    if not words:
        return None
    first, regs = number(words[0], False), [number(it, True) for it in words[1:]]
    if first is None or None in regs:
        return None
    if word == "call" and 1 <= len(regs) <= 4:
        return world.call(first, regs + [0] * (4 - len(regs)))
    if word == "enter" and not regs:
        return world.enter(first)
    if not regs and word in ("wake", "reset", "deliver", "take"):
        return getattr(world, word)(first)
    return None


def replay(script, world_of=World, look=lambda world: None):
    """What is written, what is said on standard error, and the exit status.

    The world is made by `world_of`, and looked at after each event."""
    lines = script.split(b"\n")
    if lines[-1] == b"":
        lines.pop()
    written, events, world = [], 0, None
    try:
        if not lines:
            raise Fault("line 1: script fault 1")
        for at, line in enumerate(lines, 1):
            if at > 1000000:
                raise Fault(f"line {at}: script fault 4")
            if len(line) > 256:
                raise Fault(f"line {at}: script fault 3")
            text = line.decode("latin-1")
            if at == 1:
                if not text.startswith("board "):
                    raise Fault("line 1: script fault 1")
                world = world_of(Board(text[len("board "):]))
            elif text and text[0] != "#":
                said = answer(world, text)
                if said is None:
                    raise Fault(f"line {at}: script fault 2")
                look(world)
                events += 1
                written.append(f"{events} {said}\n")
    except Fault as fault:
        return "".join(written), f"{fault}\n", 3
    return "".join(written), "", 0
