"""Random scripts: mostly good ones, near the limits, and some with a wrong byte."""
import random

import firmware as fw
from board import Board, Fault
from scenes import Scenes
from script import World, answer

# what ends a life, or nearly
LAST = (fw.CPU_OFF, fw.CPU_OFF, fw.SYSTEM_OFF, fw.SYSTEM_RESET, fw.SYSTEM_RESET, fw.SYSTEM_RESET,
        fw.SYSTEM_RESET2, fw.SYSTEM_RESET2)
# how often a function is drawn otherwise, if not once; not at all where each of its calls ends something
OFTEN = {
    fw.CPU_SUSPEND: 6, fw.CPU_OFF: 0, fw.CPU_ON: 9, fw.AFFINITY_INFO: 5, fw.SYSTEM_OFF: 0,
    fw.SYSTEM_RESET: 0, fw.FEATURES: 2, fw.NODE_HW_STATE: 5, fw.SYSTEM_SUSPEND: 2, fw.SET_SUSPEND_MODE: 3,
}
FUNCTIONS = {words: OFTEN.get(words, 1) for words in fw.FUNCTIONS if OFTEN.get(words, 1)}
EVERY = tuple(dict.fromkeys((*FUNCTIONS, *LAST)))
assert set(fw.FUNCTIONS) <= set(EVERY), "not drawn"
# functions that are left out, words of a width that a function lacks, and other services
OTHERS = (0x84000005, 0x84000007, 0x8400000B, 0x8400000C, 0x84000010, 0x84000011,
          0x84000013, 0x84000014, 0x80000000, 0x04000003, 0xC4000000, 0xC4000002, 0xC4000006,
          0xC4000008, 0xC4000009, 0xC400000A, 0xC400000F, 0xC4000013)
OTHERS = tuple(word for word in OTHERS if word not in fw.SUPPORTED)
# what is changed in a power state: depths, the state type, the power level, bits that are zero
CHANGES = (1, 2, 3, 4, 16, 32, 48, 0x100, 0x200, 0x1000, 1 << 16, 1 << 24, 2 << 24,
           1 << 17, 1 << 23, 1 << 26, 1 << 27, 1 << 28, 1 << 30, 1 << 31)


class Draw(Scenes, random.Random):
    def rarely(self, common, *others):
        return self.choice(others) if self.randrange(32) == 0 else common

    def board(self):
        rarely = self.rarely
        cluster = lambda: str(rarely(self.choice((1, 1, 2, 2, 3, 4)), 16, 16, 16, 17, 0, 2**64))
        some = lambda member, many: f"({' '.join(member() for _ in range(many))})"
        group = lambda: some(cluster, self.choice((1, 2, 3)))
        either = lambda: self.choice((cluster, group))()
        kind, many = self.randrange(24), rarely(self.choice((1, 2, 2, 3, 4)), 16, 17)
        tree = (cluster() if kind < 5 else some(cluster, many) if kind < 13
                else some(group, many) if kind < 22 else some(either, many) if kind < 23
                else self.large())
        ends = lambda: self.choice(((0, 4), (0x10, 0x20), (0x40000000, 0x40100000),
                                    (0x10, 2**64 - 1), rarely((0, 8), (4, 4), (8, 4))))
        ranges = [ends() for _ in range(rarely(self.choice((1, 1, 2, 4)), 5))]
        first, end = self.choice(ranges)
        self.ends = first, end
        good = self.choice((first, first, first, end - 4))
        boot = rarely(good, 2, end, end - 4, first + 1) % 2**64
        starts = rarely(self.choice((1, 2, 3, 1000, 2**32 - 1)), 0, 2**32)
        lives = rarely(self.choice((1, 2, 3, 3, 65535, 65535)), 0, 65536)
        spelled = lambda it: self.choice((f"{it:#x}", f"0x{it:X}", f"0x{it:016x}"))
        pairs = " ".join(f"{spelled(first)}-{spelled(end)}" for first, end in ranges)
        form = rarely(self.choice(("", "", " format original", " format extended",
                                   " format extended")), " format", " format Extended",
                      "format extended", " format original format extended")
        return f"{tree} exec {pairs} boot {spelled(boot)} starts {starts} lives {lives}{form}"

    def large(self):
        """A tree of as many cores as a board may have, or one fewer, or one more."""
        some = lambda *sizes: f"({' '.join(map(str, sizes))})"
        last = self.choice((16, 16, 16, 15, 17))
        fours = [some(16, 16, 16, 16)] * 3
        return self.choice((
            some(*[16] * 15, last), some(*fours, some(16, 16, 16, last)),
            some(some(*[16] * 15), some(last)), some(some(*[16] * 15), some(last - 1, 1)),
        ))

    def affinity(self, world):
        any_fields = (0, 1, 2, 3, 15, 16), (0, 0, 1, 2, 15), (0, 0, 1, 2)
        pending = [core for core in world.board.cores if world.firmware.status[core] == fw.PENDING]
        if pending and self.randrange(3) == 0:
            return self.word_of(world.board, self.choice(pending))
        fields = self.choice([self.choice(world.board.places)] * 3 + [map(self.choice, any_fields)])
        word = sum(field << 8 * at for at, field in enumerate(fields))
        return self.rarely(word, *(word | 1 << at for at in (3, 11, 19, 24, 31, 32, 39, 40, 63)))

    @staticmethod
    def word_of(board, core):
        """The affinity word of a core."""
        return sum(field << 8 * at for at, field in enumerate(board.places[core]))

    def entry(self):
        first, end = self.ends
        good = self.choice((first, first, end - 4 & -4))
        return self.choice((good,) * 9 + (first + 2, end, first - 4, self.getrandbits(64))) % 2**64

    def power_state(self, board):
        """A word that is accepted, or nearly one, mostly in the format of the board."""
        many = self.choice((1, 2, board.height + 1))
        depths = sorted((self.choice((0, 1, 2, 3, 3)) for _ in range(many)), reverse=True)
        if self.randrange(4) == 0:
            depths = [3] * (board.height + 1)
        highest = max([0] + [level for level, depth in enumerate(depths) if depth])
        word = sum(depth << 4 * level for level, depth in enumerate(depths))
        if board.extended != (self.randrange(8) == 0):
            word |= (depths[0] == 3) << 30
        else:
            word |= highest << 24 | (depths[0] == 3) << 16
        if self.randrange(5) < 2:
            word ^= self.choice(CHANGES + (self.getrandbits(32),))
        return word

    def registers(self, words, world):
        """The arguments of a function, some faulty, and some with bits that are not looked at."""
        if words == fw.CPU_ON:
            regs = [self.affinity(world), self.entry(), self.getrandbits(self.choice((8, 64)))]
        elif words in (fw.AFFINITY_INFO, fw.NODE_HW_STATE):
            regs = [self.affinity(world), self.choice((0, 0, 1, 1, 1, 2, 3, 4)), 0]
        elif words == fw.CPU_SUSPEND:
            state = self.power_state(world.board)
            regs = [state, self.entry(), self.getrandbits(self.choice((8, 64)))]
        elif words == fw.SYSTEM_SUSPEND:
            regs = [self.entry(), self.getrandbits(64), 0]
        elif words == fw.SET_SUSPEND_MODE:
            regs = [self.choice((0, 1, 1, 1, 2, 2**31, 2**32 - 1)), 0, 0]
        elif words == fw.SYSTEM_RESET2:
            kind = self.choice((0, 1, 2**31, 2**31 | 1, self.getrandbits(32)))
            regs = [kind, self.getrandbits(64), 0]
        elif words == fw.FEATURES:
            word = self.choice(fw.SUPPORTED + OTHERS + fw.CPU_SUSPEND * 6)
            regs = [word ^ self.rarely(0, 1, fw.SMC64, 1 << 20), 0, 0]
        else:
            regs = [self.choice((0, self.getrandbits(64))) for _ in range(3)]
        upper = [self.rarely(0, self.getrandbits(32)) << 32 for _ in regs]
        return [it | bits for it, bits in zip(regs, upper)]

    def call(self, world):
        alone = world.place.count("running") < 2
        pending = fw.PENDING in world.firmware.status
        if world.firmware.halting:
            words = self.choice(EVERY + ((self.choice(OTHERS),),))
        elif self.randrange(40) == 0:
            words = self.choice(LAST)
        elif not alone and self.randrange(8) == 0:
            words = fw.CPU_OFF
        elif pending and self.randrange(2):
            words = self.choice((fw.CPU_ON, fw.AFFINITY_INFO, fw.AFFINITY_INFO))
        elif self.randrange(12) == 0:
            words = (self.choice(OTHERS), self.getrandbits(32))
        else:
            words = self.choices(list(FUNCTIONS), FUNCTIONS.values())[0]
        word = self.choice(words) | self.rarely(0, self.getrandbits(32)) << 32
        regs = [word] + self.registers(words, world)
        regs = regs[:self.choice((2, 3, 4, 4, 4, 4, 4, 4))]
        spelled = [self.choice((str, hex))(it) for it in regs]
        return f"call {self.core(world, 'running')} {' '.join(spelled)}"

    def core(self, world, place):
        """Mostly a core that is there."""
        there = [core for core in world.board.cores if world.place[core] == place]
        if there and self.randrange(8):
            return self.choice(there)
        return self.choice((0, 0, 0, 1, 2, 3, 255, 256, 2**32, 2**64 - 1))

    def index(self, many):
        """Mostly one of the last that there are."""
        others = many - 2, many - 3, self.randrange(many + 1), self.randrange(many + 1), many
        return max(0, self.choice((many - 1,) * 6 + others))

    def onward(self, world):
        """What brings on the next life, or a core that was started, asked on or suspended."""
        cores, firmware = world.board.cores, world.firmware
        started, stopped, running = ([core for core in cores if world.place[core] == place]
                                     for place in ("started", "stopped", "running"))
        asked = [at for at, it in enumerate(world.sent)
                 if it.kind == "start" and firmware.slots.get(it.core) is it]
        asleep = [core for core in stopped if firmware.phase(core) == "suspended"]
        ended = [at for at, it in enumerate(world.sent)
                 if it.kind in ("off", "reset") and it.life == world.controller.life]
        if ended and (not running or self.randrange(4) == 0):
            return f"deliver {ended[-1]}"
        if started:
            return f"enter {self.choice(started)}"
        if asked and self.randrange(2):
            return f"deliver {self.choice(asked)}"
        if asleep and (not running or self.randrange(6) == 0):
            return f"wake {self.choice(asleep)}"
        return self.call(world) if running else None

    def goes_on(self, world):
        """Whether some core is there that may call, or may come to it."""
        return any(world.place[core] != "stopped" or world.firmware.phase(core) != "away"
                   for core in world.board.cores)

    def event(self, world):
        if world.firmware.halting and "running" in world.place and self.randrange(8):
            return self.call(world)
        onward = self.onward(world) if self.randrange(5) < 3 else None
        if onward:
            return onward
        word = self.choices(("call", "enter", "deliver", "take", "wake", "reset"),
                            (10, 4, 5, 4, 3, 1))[0]
        if word == "call":
            return self.call(world)
        if word in ("deliver", "take"):
            return f"{word} {self.index(len(world.sent if word == 'deliver' else world.acks))}"
        place = {"enter": "started", "wake": "stopped", "reset": "running"}[word]
        return f"{word} {self.core(world, place)}"

    def script(self):
        lines = [f"board {self.board()}"]
        try:
            world = World(Board(lines[0][len("board "):]))
        except Fault:
            world = World(Board("2 exec 0x0-0x4 boot 0x0 starts 1 lives 1"))
        scene = self.scene(world) if self.randrange(8) else iter(())
        for at in range(self.choice((0, 3, 20, 30, 30, 30, 60, 90))):
            # nobody is left to call; a few more lines are enough
            if at > 3 and not self.goes_on(world) and self.randrange(8) == 0:
                break
            if self.randrange(12) == 0:
                lines.append(self.choice(("", "#", "# " + "x" * 254)))
            line = next(scene, None) or self.event(world)
            answer(world, line)
            lines.append(line)
        text = "\n".join(lines).encode() + self.choice((b"\n", b""))
        return text if self.randrange(8) else self.bent(bytearray(text))

    def bent(self, text):
        """The same with one byte put in, taken out or changed."""
        at, byte = self.randrange(len(text)), self.choice(b" \n\t#()-x0159agz\r\0\xff-+;ABF")
        if self.randrange(2):
            text[at] = byte
        elif self.randrange(2):
            text.insert(at, byte)
        else:
            del text[at]
        return bytes(text)
