"""What a random script begins with: random events alone seldom come to it."""
import firmware as fw


class Scenes:
    """Events that bring a world to a later life, into either mode, to cores that sleep or to a life that
    ends. The class that draws (draw.py) has `choice` and `randrange`, and the entries of its board."""

    def scene(self, world):
        """A later life or the first, either mode, some cores, and at times a life that ends."""
        yield "enter 0"
        if world.board.lives > 1 and self.randrange(5) < 3:
            yield "call 0 0x84000009"
            yield self.last(world, "deliver")
            yield "enter 0"
        if self.randrange(2):
            yield "call 0 0x8400000f 1"
        others, ends = world.board.cores[1:], self.randrange(5) < 2
        many = self.choice((2, 3, 4, 5) if ends else (0, 1, 1, 2, 3))
        for core in self.some_cores(world.board, many):
            yield from self.brought_up(world, core)
        if others and not ends and self.randrange(3) == 0:
            yield "call 0 0x84000002"
            yield self.last(world, "deliver")
            yield self.last(world, "take")
        running = [core for core in world.board.cores if world.place[core] == "running"]
        if len(running) > 1 and not ends and self.randrange(3):
            yield from self.put_to_sleep(world, running)
        if len(running) > 1 and ends:
            # mostly another core, so that the boot core is there to call afterwards
            caller = self.choice(running[1:] * 6 + running[:1])
            if self.randrange(3):
                others = [core for core in running if core != caller]
                yield f"reset {self.choice((others[0], self.choice(others)))}"
            yield f"call {caller} {self.choice((0x84000008, 0x84000009))}"

    def some_cores(self, board, many):
        """So many cores beside the boot core: any, or each of another domain of some level."""
        level = self.choice((0, self.randrange(board.height)))
        mixed = self.sample(board.cores[1:], len(board.cores) - 1)
        others = {board.places[core][level:]: core for core in mixed}
        return list(others.values())[:many]

    def brought_up(self, world, core):
        """The boot core asks the core on, which mostly enters."""
        yield f"call 0 0xc4000003 {self.word_of(world.board, core):#x} {self.ends[0]:#x} {core}"
        if self.randrange(4):
            yield self.last(world, "deliver")
            if self.randrange(6):
                yield f"enter {core}"
                if world.firmware.mode == fw.OS_INITIATED and self.randrange(3) == 0:
                    yield f"call {core} 0xc4000001 {self.choice((1, 2))}"

    def put_to_sleep(self, world, running):
        """All that run below a domain go to standby or retention one by one, which is acknowledged;
        another core asks for the domain's state, and may then ask as much of a domain above it."""
        board, caller = world.board, self.choice(running)
        aside = [node for core in running for node in board.path(core)
                 if caller not in board.below(node)]
        highest = max(node[0] for node in aside)
        level = self.choice((highest, highest, highest, 0, 1))
        node = self.choice([node for node in aside if node[0] == min(level, highest)])
        level, depth = node[0], self.choice((1, 2))
        for core in running:
            if core in board.below(node):
                yield from self.falls_asleep(world, core, depth, level)
        target = self.word_of(board, board.below(node)[0])
        yield f"call {caller} 0xc400000d {target:#x} {self.choice((0, level, level, level))}"
        if world.firmware.mode == fw.OS_INITIATED or self.randrange(3) == 0:
            yield from self.asks_beside(world, running, caller, level)

    def asks_beside(self, world, running, caller, level):
        """The others below the domain above fall asleep, mostly all, and the caller asks for it."""
        board = world.board
        above = board.path(caller)[level + 1]
        for core in running:
            if core != caller and core in board.below(above) and self.randrange(8):
                yield from self.falls_asleep(world, core, self.choice((1, 2, 2)), level)
        levels, depth = self.choice((level + 1, level + 1, board.height)), self.choice((1, 2))
        yield f"call {caller} 0xc4000001 {self.asked(board, [depth] * (levels + 1)):#x}"
        yield self.last(world, "deliver")

    def falls_asleep(self, world, core, depth, level):
        """A core that runs asks this depth of itself and of the domains above it up to the level:
        in OS-initiated mode of those whose last core it is. It is acknowledged."""
        board = world.board
        if world.place[core] != "running":
            return
        if world.firmware.mode == fw.OS_INITIATED:
            awake = [it for it in board.cores if world.place[it] == "running" and it != core]
            while level and any(it in board.below(board.path(core)[level]) for it in awake):
                level -= 1
        yield f"call {core} 0xc4000001 {self.asked(board, [depth] * (level + 1)):#x}"
        yield self.last(world, "deliver")
        yield self.last(world, "take")

    @staticmethod
    def asked(board, depths):
        """The power state word of depths of standby and retention, from the core up."""
        word = sum(depth << 4 * level for level, depth in enumerate(depths))
        return word if board.extended else word | len(depths) - 1 << 24

    @staticmethod
    def last(world, word):
        """The last message is delivered, or the last acknowledgement taken."""
        return f"{word} {max(0, len(world.sent if word == 'deliver' else world.acks) - 1)}"
