"""Random texts of machines: mostly good ones, near the limits, some with a fault, and calls of them."""
import random

import firmware as fw
from machine import CLASSES, FUNCTIONS

LIMITS = "exec 0x40000000-0x40100000 boot 0x40000000 starts 1000 lives 3"
TREES = ("1", "4", "16", "(2 2)", "(4 4)", "(1 3 2)", "(2 4 2)", "((1 2) (2))", "((2 2) (2 2))", "((1) (1))",
         "((2 1 1 2) (2 2))", "((1 2 3) (1 3 2))", "((1 2) (1 2) (2 1))")
DEEP = ["power-down"]


class DrawMachine(random.Random):
    def rarely(self, common, *others):
        return self.choice(others) if self.randrange(24) == 0 else common

    def mpidrs(self, tree):
        """An MPIDR for each core, by shifted fields or not, with gaps and offsets."""
        members = tree[1:-1].split() if tree[0] == "(" else [tree]
        sizes, shift, step = [int(it.strip("()")) for it in members], self.choice((0, 8)), self.choice((1, 1, 2))
        high = self.choice((0, 0, 1 << 32))
        found = [high | (cluster * step << 8 | core * step) << shift
                 for cluster, size in enumerate(sizes) for core in range(size)]
        first = self.choice((0, 0, 0, len(found) // 2))
        found = found[first:] + found[:first]
        if self.randrange(12) == 0:
            found[self.randrange(len(found))] = self.choice((found[0], 1 << 24, 1 << 31, 1 << 40, 0xFF00FFFFFF))
        if self.randrange(24) == 0:
            found = self.choice((found[:-1], found + [0x77]))
        return found

    def classes(self):
        """The classes of a level, which mostly rise."""
        found = sorted(self.choices(("standby", "retention", "power-down", "power-down"), k=self.choice((0, 1, 2, 3))),
                       key=CLASSES.get) + self.choice(([], DEEP))
        if self.randrange(40) == 0:
            found = self.choice((found + ["running"], DEEP * self.choice((15, 16))))
        return found

    def states(self, classes, height):
        """A state of each level, as many as a row has."""
        many = self.choice((1, 1, 2, 3, height + 1, height + 1, 4))
        return [self.rarely(self.randrange(len(it) + 1) if self.randrange(3) else len(it), 0, 15, 16, 1)
                for it in classes[:many]]

    def word(self, is_extended, is_down):
        low = self.choice((0, 1, 2, 3, 0x33, 0x44, 0x3444))
        word = low | (is_down << 30 if is_extended else is_down << 16 | self.randrange(4) << 24)
        return word ^ self.rarely(0, 1 << 16, 1 << 17, 1 << 30, 1 << 31, 1 << 28)

    def row(self, classes, height, is_extended):
        states = self.states(classes, height)
        if not states[0] and self.randrange(8):
            states[0] = len(classes[0])
        number = states[0] - 1
        is_down = 0 <= number < len(classes[0]) and classes[0][number] == "power-down"
        word = self.word(is_extended, is_down ^ (self.randrange(24) == 0))
        mask = self.choice(("", "", "", "/0xffffffff", "/0xffffff00", "/0xfffffffe", "/0xfeffffff",
                            "/0xfffeffff", "/0xbfffffff"))
        if mask and self.randrange(6):
            word &= int(mask[1:], 16)
        return f"word {word:#x}{mask} {' '.join(map(str, states))}"

    def functions(self):
        kept = [it for it in FUNCTIONS if self.randrange(8)]
        if self.randrange(4) and "cpu_off" in kept and "cpu_on" not in kept:
            kept.append("cpu_on")
        if self.randrange(4) and "system_suspend" in kept and "cpu_suspend" not in kept:
            kept.append("cpu_suspend")
        return kept

    def text(self):
        """The text of a machine."""
        tree = self.choice(TREES)
        height = 1 if tree[0] != "(" else 3 if "(" in tree[1:] else 2
        is_extended, mpidrs = self.randrange(2), self.mpidrs(tree)
        classes = [self.classes() if level else self.classes() or DEEP for level in range(4)]
        lines = [f"core {it:#x}" for it in mpidrs]
        boot = self.choice((mpidrs[0], mpidrs[0], self.choice(mpidrs))) if mpidrs else 0
        lines += [f"boot {self.rarely(boot, 0x9900):#x}",
                  f"levels {self.rarely(height, height - 1, height + 1, 0)}"]
        lines += [f"class {level} {' '.join(it)}" for level, it in enumerate(classes) if it]
        many = self.rarely(self.choice((0, 1, 1, 2, 3)), 63, 64, 65)
        if many > 3:
            lines += [f"word {(1 << 30 if is_extended else 1 << 16) + at:#x} {len(classes[0])}" for at in range(many)]
        else:
            lines += [self.row(classes, height, is_extended) for _ in range(many)]
        kept = self.functions()
        full = [len(it) for it in classes[:height + 1]]
        if self.randrange(3) == 0:
            lines.append(f"system-suspend {' '.join(map(str, self.rarely(full, full[:-1] or [0], full + [0])))}")
        elif self.randrange(6):
            kept = [it for it in kept if it != "system_suspend"]
        own = self.rarely([], [0x7fffffff]) + self.choice(([], [], [0x80000001]))
        if "system_reset2" not in kept and self.randrange(6):
            own = []
        lines += [f"reset {it:#x}" for it in own]
        lines.append(" ".join(["functions", *kept]))
        if self.randrange(2):
            self.shuffle(lines)
            cores = iter([it for it in [f"core {it:#x}" for it in mpidrs]])
            lines = [next(cores) if it.startswith("core ") else it for it in lines]
        board = f"board {tree} {LIMITS}{' format extended' if is_extended else ''}"
        text = "\n".join([board, *lines]) + self.choice(("\n", ""))
        return self.bent(text) if self.randrange(8) == 0 else text

    def bent(self, text):
        """The same with a line or a byte put in, taken out or changed."""
        lines, at = text.split("\n"), self.randrange(1 + text.count("\n"))
        kind = self.randrange(6)
        if kind == 0:
            lines.insert(at, self.choice(("", "# x", lines[at], "levels 1", "core 0x9", "class 2 standby", " ")))
        elif kind == 1 and len(lines) > 2:
            del lines[max(at, 1)]
        else:
            line, place = lines[at], self.randrange(1 + len(lines[at]))
            lines[at] = line[:place] + self.choice((" ", "x", "0", "-", "/", "0x", "")) + line[place + kind % 2:]
        return "\n".join(lines)

    def regs(self, machine):
        """The registers of a call, mostly in the words of the machine."""
        words = self.choice((fw.CPU_SUSPEND, fw.CPU_SUSPEND, fw.CPU_ON, fw.AFFINITY_INFO, fw.NODE_HW_STATE,
                             fw.FEATURES, fw.SYSTEM_SUSPEND, fw.SYSTEM_RESET2, fw.SET_SUSPEND_MODE, fw.CPU_OFF,
                             fw.SYSTEM_OFF, fw.SYSTEM_RESET, fw.VERSION, (0x84000005, 0, 0xC4000002)))
        x1 = self.choice(machine.mpidrs + [0x77, 1]) ^ self.choice((0, 0, 0, 1, 0x100, 1 << 32))
        x2 = self.choice((0, 1, 2, 3, 4, 1 << 32))
        if words == fw.CPU_SUSPEND and machine.rows:
            word, mask = self.choice(machine.rows)[:2]
            x1 = word | self.getrandbits(32) & ~mask
            x1 ^= self.rarely(0, 1, 1 << 16, 1 << 32)
        elif words == fw.FEATURES:
            x1 = self.choice(fw.SUPPORTED + (0x84000005, 0))
        elif words == fw.SYSTEM_RESET2:
            x1 = self.choice(machine.resets + [0, 1, 0x80000002]) | self.choice((0, 1 << 32))
        return self.choice(words) | self.choice((0, 0, 1 << 33)), x1, x2, self.getrandbits(8)
