"""What has come in a run of random scripts level by level, and which of it too seldom.

A rule may be wrong at one level alone, or on boards of one height, or for a message of which a part
was applied. So what a domain was asked and answered counts by its level and by how high its board
is, what a stop claims by mode and level, and a Down by how many of its parts were applied.
"""
from collections import namedtuple

import firmware as fw
from seen import Counted

# what came, at which level (for a Down: how many parts were applied), on a board of which height
Case = namedtuple("Case", "what level height")
HEIGHTS, LEAST = (1, 2, 3), 20
MODES = ("platform-coordinated mode", "OS-initiated mode")
ASKED = {"AFFINITY_INFO": fw.AFFINITY_INFO, "NODE_HW_STATE": fw.NODE_HW_STATE}
LIGHT = "a claim is granted beside a domain that sleeps less deeply than power-down"
NOBODY, AWAKE = "refused with -2 by a domain below", "refused with -3 by a domain below"
STALE, WAITS = "Down is stale with so many parts applied", "Down waits with so many parts applied"


def wanted():
    """All that has to come. The domain of all cores is on while one of them calls."""
    for height in HEIGHTS:
        for name in ASKED:
            for level in range(height + 1):
                for answer in (0, 1, 2) if level < height else (0,):
                    yield Case(f"{name} answers {answer}", level, height)
            yield Case(f"{name} answers -2 above the board", height + 1, height)
        for level in range(height + 1):
            for mode in MODES:
                yield Case(f"a Down claims up to here in {mode}", level, height)
            yield Case(STALE, level, height)
            if level:
                yield Case(WAITS, level, height)
                yield from (Case(what, level, height) for what in (LIGHT, NOBODY, AWAKE))


def seldom(seen):
    """A line for each case that has come too seldom."""
    return [f"{it.what}: level {it.level} of a board of height {it.height}: {seen[it]} times, "
            f"{LEAST} are wanted" for it in wanted() if seen[it] < LEAST]


class Levelled(Counted):
    """A world that counts its answers, and these cases."""

    def case(self, what, level):
        self.seen[Case(what, level, self.board.height)] += 1

    def call(self, core, regs):
        firmware, many = self.firmware, len(self.sent)
        mode, runs = firmware.mode, core in self.board.cores and self.place[core] == "running"
        asks = runs and not firmware.halting and regs[0] % 2**32 in fw.CPU_SUSPEND
        depths = fw.depths_of(regs[1] % 2**32, self.board) if asks else None
        beside = self.beside(core, depths) if depths and mode == fw.OS_INITIATED else []
        text = super().call(core, regs)
        words = text.split()
        if runs and words[0] == "return":
            self.answered_at(regs, int(words[1]))
        if beside and words[0] == "return" and words[1] in ("-2", "-3"):
            self.refused(beside, depths, words[1])
        if len(self.sent) > many and self.sent[-1].kind == "down":
            claimed = len(self.sent[-1].parts) - 1
            self.case(f"a Down claims up to here in {MODES[mode]}", claimed)
            for level in {level for level, granted, _ in beside if granted < 3}:
                self.case(LIGHT, level)
        return text

    def beside(self, core, depths):
        """Each domain beside the path of a core that asks these depths: the level that it stands
        below, as far as the core asks, its depth, and whether nobody is awake in it."""
        path, firmware = self.board.path(core), self.firmware
        return [(at + 1, firmware.granted[child], firmware.nobody_active(child))
                for at, node in enumerate(path[1:]) if depths[at + 1]
                for child in self.board.children(node) if child != path[at]]

    def refused(self, beside, depths, code):
        """Counts the lowest level at which a domain is in the way: for -2 one with nobody awake."""
        in_way = [level for level, granted, asleep in beside
                  if granted < depths[level] and asleep == (code == "-2")]
        self.case(NOBODY if code == "-2" else AWAKE, min(in_way))

    def answered_at(self, regs, code):
        for name, words in ASKED.items():
            if regs[0] % 2**32 in words and not self.firmware.halting:
                level = regs[2] % 2**32
                if code >= 0:
                    self.case(f"{name} answers {code}", level)
                elif level == self.board.height + 1:
                    self.case(f"{name} answers -2 above the board", level)

    def deliver(self, index):
        many = len(self.acks)
        text = super().deliver(index)
        if len(self.acks) > many and self.acks[-1].kind == "down":
            ack, message = self.acks[-1], self.sent[index]
            if ack.stale:
                self.case(STALE, ack.applied)
            elif ack.applied < len(message.parts):
                self.case(WAITS, ack.applied)
        return text
