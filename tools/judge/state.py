"""A state of the search: firmware, power controller, where each core is, and how far its record is."""
from .peer import Peer, Power


def thawed(value):
    return tuple(value) if isinstance(value, list) else value


class State:
    """Copied before each step. `position` counts the operations of each core that took effect."""
    __slots__ = ("firmware", "power", "place", "acks", "position", "_key")

    @classmethod
    def first(cls, board, profile):
        """The machine as it starts: core 0 has entered, all others are off."""
        it = cls()
        it.firmware, it.power = Peer(board, profile), Power(board)
        it.place = ["stopped" for _ in board.cores]
        it.acks, it.position, it._key = frozenset(), (0,) * len(board.cores), None
        it.firmware.enter(0, *it.power.started[0])
        it.place[0] = "running"
        return it

    def copy(self):
        it = object.__new__(State)
        it.firmware, it.power = self.firmware.copy(), self.power.copy()
        it.place, it.acks, it.position, it._key = self.place[:], self.acks, self.position, None
        return it

    def advance(self, core, many=1):
        position = list(self.position)
        position[core] += many
        self.position, self._key = tuple(position), None

    def forget_old_acks(self):
        """Keeps the acknowledgements that the firmware still waits for: it takes no other one."""
        slots = self.firmware.slots
        self.acks = frozenset(it for it in self.acks if it.core in slots and slots[it.core][:4] == it[:4])

    # ---- which states are one

    def since(self, message):
        """A message with its numbers counted from the starts that the firmware knows: no answer shows
        more of them, as long as the board's limit is far."""
        known, board = self.firmware.known, self.firmware.board
        if message is None:
            return None
        path = board.path(message.core)
        return (message.kind, message.core, message.number - known[message.core],
                tuple((level, depth, generation - sum(known[it] for it in board.below(path[level])))
                      for level, depth, generation in message.parts))

    def key(self):
        if self._key is None:
            self._key = (self.position, tuple(self.place), *self.key_of_firmware(), *self.key_of_power())
        return self._key

    def key_of_firmware(self):
        it = self.firmware
        nodes = it.board.order
        return (tuple(it.status), tuple(it.opening), tuple(map(thawed, it.last)), it.mode, it.halting,
                tuple(it.granted[node] for node in nodes),
                tuple(self.since(it.claim.get(node)) for node in nodes),
                frozenset(it.confirmed), frozenset(map(self.since, it.slots.values())))

    def key_of_power(self):
        known, power = self.firmware.known, self.power
        starts = tuple(start - seen for start, seen in zip(power.starts, known))
        waiting = tuple(power.started[core][1:] if self.place[core] == "started" else None
                        for core in power.board.cores)
        waiting = tuple(it and (it[0] - known[core], it[1]) for core, it in enumerate(waiting))
        acks = frozenset((it.kind, it.core, it.number - known[it.core], it.applied, it.stale) for it in self.acks)
        return starts, tuple(power.depth[node] for node in power.board.order), waiting, acks
