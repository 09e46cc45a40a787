"""The power controller: it starts cores and takes domains down, life after life."""
from firmware import Ack


class Controller:
    def __init__(self, board):
        self.board = board
        self.begin(1)

    def begin(self, life):
        """A life begins, or none does: the boot core is started, and all off its path sleeps."""
        self.life = life
        self.starts = [0 for _ in self.board.cores]
        self.depth = {node: 3 for node in self.board.nodes}
        self.started = {}
        if life is not None:
            self.start(0, "boot")

    def start(self, core, cause):
        self.starts[core] += 1
        for node in self.board.path(core):
            self.depth[node] = 0
        self.started[core] = self.life, self.starts[core], cause

    def kick(self, core, number, cause):
        """Starts a core whose last start has this number; says whether it did."""
        if self.life is None or not self.starts[core] == number < self.board.starts:
            return False
        self.start(core, cause)
        return True

    def deliver(self, message):
        """The acknowledgement of a message, or None where it is of another life."""
        if self.life is None or message.life != self.life:
            return None
        applied, stale = 1, False
        if message.kind == "start":
            applied = int(self.kick(message.core, message.number, "on"))
            stale = applied == 0
        elif message.kind == "down":
            applied, stale = self.down(message)
        else:
            last = message.kind == "off" or self.life == self.board.lives
            self.begin(None if last else self.life + 1)
        return Ack(*message[:4], applied, stale)

    def down(self, message):
        path, applied = self.board.path(message.core), 0
        for level, depth, generation in message.parts:
            node = path[level]
            if generation != sum(self.starts[core] for core in self.board.below(node)):
                return applied, True
            if any(self.depth[child] < depth for child in self.board.children(node)):
                return applied, False
            self.depth[node] = depth
            applied += 1
        return applied, False
