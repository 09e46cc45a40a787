"""Whether a run is safe, sentence by sentence (docs/HEADLINE.md), looked at after every event."""
from collections import namedtuple

import firmware as fw
from script import World

# a request to take a domain down: the life and generation it is of, and whether the cores below
# had asked for as much as it was made
Claim = namedtuple("Claim", "life node depth generation asked")
# an entry point that waits for a core in a life
Opening = namedtuple("Opening", "life core values")


class Unsafe(Exception):
    """A sentence that the run has broken."""


class Watched(World):
    """A world that keeps what the sentences speak of, and looks at them after every event."""

    def __init__(self, board):
        super().__init__(board)
        self.claims, self.openings, self.slept, self.was = [], [], set(), set()
        self.begun = 0
        self.look()

    # ---- what an event adds

    def outcome(self, core, outcome):
        self.opened()
        if outcome.act == "enter":
            self.take_up(Opening(self.firmware.life, core, outcome.values))
        if outcome.act in ("enter", "resume"):
            self.slept.discard((self.firmware.life, core))
        if outcome.message is not None and outcome.message.kind == "down":
            self.claims += [self.claim(outcome.message, part) for part in outcome.message.parts]
        return super().outcome(core, outcome)

    def opened(self):
        """The boot core's entry point waits for it as a life begins."""
        if self.firmware.life != self.begun:
            self.begun = self.firmware.life
            self.openings.append(Opening(self.begun, 0, (self.board.boot, 0)))

    def call(self, core, regs):
        answer = super().call(core, regs)
        word, there = regs[0] % 2**32, (core, 0)
        sent = self.sent[-1] if " #" in answer else None
        if sent is None or self.firmware.halting:
            return answer
        args = regs[1:] if word & fw.SMC64 else [it % 2**32 for it in regs[1:]]
        if word in fw.CPU_ON:
            there = sent.core, args[1:]
        elif word in fw.SYSTEM_SUSPEND:
            there = core, args[:2]
        elif word in fw.CPU_SUSPEND and args[0] % 16 == 3:
            there = core, args[1:]
        else:
            return answer
        self.openings.append(Opening(self.firmware.life, there[0], tuple(there[1])))
        return answer

    def take_up(self, opening):
        if opening not in self.openings:
            raise Unsafe(f"4: no entry point waits for {opening}")
        self.openings.remove(opening)

    def claim(self, message, part):
        level, depth, generation = part
        node, firmware = self.board.path(message.core)[level], self.firmware
        below, os_initiated = self.board.below(node), firmware.mode == fw.OS_INITIATED
        asked = all(firmware.ask(it, 0 if os_initiated else level) >= depth for it in below)
        if os_initiated:
            asked = asked and firmware.ask(message.core, level) >= depth
        return Claim(message.life, node, depth, generation, asked)

    # ---- the sentences

    def live(self, node):
        """The claims of this life whose generation is that of all starts below the domain."""
        life, at_first = self.controller.life, []
        if node not in self.board.path(0):
            at_first = [Claim(life, node, 3, 0, True)]
        starts = sum(self.controller.starts[core] for core in self.board.below(node))
        return [it for it in self.claims + at_first
                if (it.life, it.node, it.generation) == (life, node, starts)]

    def forget(self, node):
        """Drops the claims of the domain that have fewer starts than there were: they stay so."""
        life = self.controller.life
        starts = sum(self.controller.starts[core] for core in self.board.below(node))
        self.claims = [it for it in self.claims
                       if it.node != node or it.life == life and it.generation >= starts]

    def look(self):
        """Raises Unsafe where a sentence does not hold."""
        controller, firmware = self.controller, self.firmware
        if controller.life is not None:
            self.slept |= {(controller.life, core) for core in self.board.cores
                           if controller.depth[self.board.path(core)[0]] == 3}
        for core in self.board.cores:
            path = self.board.path(core)
            if self.place[core] != "stopped" and any(controller.depth[node] for node in path):
                raise Unsafe(f"1: core {core} executes below a domain that sleeps")
            if firmware.life and firmware.status[core] == fw.OFF:
                if self.place[core] == "running" or (firmware.life, core) not in self.slept:
                    raise Unsafe(f"1: core {core} is said to be OFF, and did not sleep")
        if controller.life is not None:
            self.look_at_domains()
        self.look_at_states()

    def look_at_states(self):
        controller, firmware = self.controller, self.firmware
        total = lambda numbers, node: sum(numbers[core] for core in self.board.below(node))
        if controller.life is not None:
            self.was |= {(controller.life, node, total(controller.starts, node), depth)
                         for node, depth in controller.depth.items() if depth}
        for node in self.board.nodes if firmware.life else ():
            state = firmware.hw(node)
            depths = {fw.HW_ON: (), fw.HW_OFF: (3,), fw.HW_STANDBY: (1, 2)}[state]
            known = total(firmware.known, node)
            if depths and not any((firmware.life, node, known, it) in self.was for it in depths):
                raise Unsafe(f"5: domain {node} is said to be in state {state}, and never was")

    def look_at_domains(self):
        for node in self.board.nodes:
            self.forget(node)
            live, depth = self.live(node), self.controller.depth[node]
            if len(live) > 1:
                raise Unsafe(f"2: domain {node} has the live claims {live}")
            if depth and not any(it.depth == depth and it.asked for it in live):
                raise Unsafe(f"3: domain {node} has depth {depth} and the live claims {live}")
