"""The whole firmware in some 250 lines of Python: what it answers, rule by rule.

Read it from the top. `open_life` lists all that the firmware keeps. `function` names each function
of the standard with its rule: `cpu_on`, `affinity_info`, `cpu_suspend` and so on, whose checks
stand in the order in which they refuse. `stop` is where power goes down: `claimed` says what a core
that stops asks of each domain above it, and `last_core` when an OS-initiated request is refused.
`enter` answers a core that was started, and `take` an acknowledgement. Nothing is cached: what a
domain asks for, its known starts and who runs below it are looked up core by core each time.
controller.py is the power controller, board.py the board, and script.py the world around all three.
`model/check compare` holds the proved program to these answers on random scripts.
"""
from collections import namedtuple

# parts: level, depth and generation of each
Message = namedtuple("Message", "kind core life number parts")
# of a message: its first four fields, how many parts were applied, and whether it came too late
Ack = namedtuple("Ack", "kind core life number applied stale")
# what the core does now: "return" with a code, "stop", "enter" with address and context, "resume"
Outcome = namedtuple("Outcome", "act values message")

NOT_SUPPORTED, INVALID_PARAMETERS, DENIED, ALREADY_ON, ON_PENDING = -1, -2, -3, -4, -5
INTERNAL_FAILURE, INVALID_ADDRESS = -6, -9
ON, OFF, PENDING = 0, 1, 2
HW_ON, HW_OFF, HW_STANDBY = 0, 1, 2
PLATFORM, OS_INITIATED = 0, 1
SMC64 = 1 << 30
SYSTEM = "system"

VERSION, MIGRATE_INFO_TYPE, FEATURES = (0x84000000,), (0x84000006,), (0x8400000A,)
CPU_SUSPEND, CPU_OFF = (0x84000001, 0xC4000001), (0x84000002,)
CPU_ON, AFFINITY_INFO = (0x84000003, 0xC4000003), (0x84000004, 0xC4000004)
SYSTEM_OFF, SYSTEM_RESET = (0x84000008,), (0x84000009,)
SYSTEM_SUSPEND, SET_SUSPEND_MODE = (0x8400000E, 0xC400000E), (0x8400000F,)
NODE_HW_STATE, SYSTEM_RESET2 = (0x8400000D, 0xC400000D), (0x84000012, 0xC4000012)
# each function: its name in the standard, and how its calls end in a life that goes on: by a code, or by a
# message that is sent. seen.py wants to see each of these
FUNCTIONS = {
    VERSION: ("PSCI_VERSION", "65537"), CPU_SUSPEND: ("CPU_SUSPEND", "-2 -9 0 down"),
    CPU_OFF: ("CPU_OFF", "down"), CPU_ON: ("CPU_ON", "-2 -9 -4 -5 -6 start"),
    AFFINITY_INFO: ("AFFINITY_INFO", "-2 0 1 2"), MIGRATE_INFO_TYPE: ("MIGRATE_INFO_TYPE", "2"),
    SYSTEM_OFF: ("SYSTEM_OFF", "off"), SYSTEM_RESET: ("SYSTEM_RESET", "reset"),
    FEATURES: ("PSCI_FEATURES", "-1 0 1 3"), NODE_HW_STATE: ("NODE_HW_STATE", "-2 0 1 2"),
    SYSTEM_SUSPEND: ("SYSTEM_SUSPEND", "-9 -3 down"), SET_SUSPEND_MODE: ("PSCI_SET_SUSPEND_MODE", "-2 -3 0"),
    SYSTEM_RESET2: ("SYSTEM_RESET2", "-2 reset"),
}
SUPPORTED = tuple(word for words in FUNCTIONS for word in words)


def depths_of(word, board):
    """The depth that a power state word asks at each level, or None where it is faulty."""
    zero, power_down = (0xBFFF0000, 1 << 30) if board.extended else (0xFCFE0000, 1 << 16)
    depths = [word >> 4 * level & 15 for level in range(4)]
    asked = [level for level in range(4) if depths[level]]
    good = (word & zero == 0 and depths[0] >= 1 and max(depths) <= 3
            and depths == sorted(depths, reverse=True)
            and asked[-1] <= board.height and (board.extended or asked[-1] == word >> 24 & 3)
            and (word & power_down != 0) == (depths[0] == 3))
    return depths if good else None


class Firmware:
    def __init__(self, board):
        self.board = board
        self.open_life(0)

    def open_life(self, life):
        cores, path = self.board.cores, self.board.path(0)
        self.life, self.halting, self.mode = life, False, PLATFORM
        self.known = [0 for _ in cores]
        self.status = [OFF for _ in cores]
        self.status[0] = PENDING
        self.opening = [None for _ in cores]
        self.opening[0] = (self.board.boot, 0)
        # "running", the depths of the suspend that the core stopped in, or "away"
        self.last = ["away" for _ in cores]
        self.granted = {node: 0 if node in path else 3 for node in self.board.nodes}
        # the Down that last claimed a domain, and the domains whose last claim was carried out
        self.claim = {}
        self.confirmed = {node for node in self.board.nodes if node not in path}
        self.slots = {}

    def phase(self, core):
        if self.status[core] == PENDING:
            return "pending"
        return "suspended" if isinstance(self.last[core], list) else self.last[core]

    def ask(self, core, level):
        phase = self.phase(core)
        return self.last[core][level] if phase == "suspended" else 3 if phase == "away" else 0

    def nobody_active(self, node):
        return all(self.phase(core) in ("suspended", "away") for core in self.board.below(node))

    # ---- outcomes

    def send(self, kind, core, parts=()):
        message = Message(kind, core, self.life, self.known[core], tuple(parts))
        self.slots[SYSTEM if kind in ("off", "reset") else core] = message
        return message

    def silent_stop(self, core):
        self.last[core] = "away"
        return Outcome("stop", (), None)

    def stop(self, core, last):
        """The core goes off, or suspends with its depths, and claims what is not used any more."""
        self.last[core] = last
        parts = []
        for node in self.board.path(core):
            depth = self.claimed(node, last)
            if depth == 0:
                break
            parts.append((node[0], depth, sum(self.known[it] for it in self.board.below(node))))
            self.granted[node] = depth
        message = self.send("down", core, parts)
        for node in self.board.path(core)[:len(parts)]:
            self.claim[node] = message
            self.confirmed.discard(node)
        return Outcome("stop", (), message)

    def claimed(self, node, last):
        """What a core that stops asks of a domain of its path."""
        level, below = node[0], self.board.below(node)
        if self.mode == PLATFORM:
            return min(self.ask(it, level) for it in below)
        if last != "away":
            return last[level]
        return 3 if level == 0 or all(self.phase(it) == "away" for it in below) else 0

    def disturb(self, core):
        for node in self.board.path(core):
            self.granted[node] = 0
            self.claim[node] = None
            self.confirmed.discard(node)

    # ---- calls

    def smc(self, core, regs):
        if self.halting:
            return self.silent_stop(core)
        word = regs[0] % 2**32
        args = regs[1:] if word & SMC64 else [it % 2**32 for it in regs[1:]]
        said = self.function(core, word, *args)
        return said if isinstance(said, Outcome) else Outcome("return", (said,), None)

    def function(self, core, word, x1, x2, x3):
        """The code that is returned, or the outcome where it is more than a code."""
        answers = {
            VERSION: lambda: 0x10001,
            MIGRATE_INFO_TYPE: lambda: 2,
            FEATURES: lambda: self.features(x1 % 2**32),
            CPU_ON: lambda: self.cpu_on(x1, x2, x3),
            AFFINITY_INFO: lambda: self.affinity_info(x1, x2 % 2**32),
            NODE_HW_STATE: lambda: self.node_hw_state(x1, x2 % 2**32),
            CPU_SUSPEND: lambda: self.cpu_suspend(core, x1 % 2**32, x2, x3),
            CPU_OFF: lambda: self.stop(core, "away"),
            SYSTEM_SUSPEND: lambda: self.system_suspend(core, x1, x2),
            SYSTEM_OFF: lambda: self.halt(core, "off"),
            SYSTEM_RESET: lambda: self.halt(core, "reset"),
            SET_SUSPEND_MODE: lambda: self.set_suspend_mode(core, x1 % 2**32),
            SYSTEM_RESET2: lambda: self.system_reset2(core, x1 % 2**32),
        }
        named = [answer for words, answer in answers.items() if word in words]
        return named[0]() if named else NOT_SUPPORTED

    def features(self, word):
        if word in CPU_SUSPEND:
            return 3 if self.board.extended else 1
        return 0 if word in SUPPORTED else NOT_SUPPORTED

    def cpu_on(self, target, entry, context):
        named = self.board.named(target, 0)
        if not named:
            return INVALID_PARAMETERS
        if not self.board.may_enter(entry):
            return INVALID_ADDRESS
        core = named[0]
        if self.status[core] != OFF:
            return ALREADY_ON if self.status[core] == ON else ON_PENDING
        if self.known[core] == self.board.starts:
            return INTERNAL_FAILURE
        self.status[core], self.opening[core] = PENDING, (entry, context)
        self.disturb(core)
        return Outcome("return", (0,), self.send("start", core))

    def affinity_info(self, target, level):
        found = {self.status[core] for core in self.board.named(target, level)}
        if not found:
            return INVALID_PARAMETERS
        return ON if ON in found else PENDING if PENDING in found else OFF

    def node_hw_state(self, target, level):
        below = self.board.named(target, level)
        if not below:
            return INVALID_PARAMETERS
        return self.hw(self.board.path(below[0])[level])

    def hw(self, node):
        if node not in self.confirmed:
            return HW_ON
        return HW_OFF if self.granted[node] == 3 else HW_STANDBY

    def cpu_suspend(self, core, word, entry, context):
        depths = depths_of(word, self.board)
        if depths is None:
            return INVALID_PARAMETERS
        if depths[0] == 3 and not self.board.may_enter(entry):
            return INVALID_ADDRESS
        if self.known[core] == self.board.starts:
            return 0
        return self.suspend(core, depths, (entry, context) if depths[0] == 3 else None)

    def system_suspend(self, core, entry, context):
        if not self.board.may_enter(entry):
            return INVALID_ADDRESS
        if any(self.status[it] != OFF for it in self.board.cores if it != core):
            return DENIED
        if self.known[core] == self.board.starts:
            return DENIED
        depths = [3 if level <= self.board.height else 0 for level in range(4)]
        return self.suspend(core, depths, (entry, context))

    def suspend(self, core, depths, opening):
        refused = self.last_core(core, depths) if self.mode == OS_INITIATED else None
        if refused is not None:
            return refused
        if opening is not None:
            self.opening[core] = opening
        return self.stop(core, depths)

    def last_core(self, core, depths):
        """Why the caller is not the last core of all that it asks down, or None where it is."""
        path = self.board.path(core)
        shallow = [child for at, node in enumerate(path[1:]) for child in self.board.children(node)
                   if child != path[at] and self.granted[child] < depths[at + 1]]
        if any(self.nobody_active(child) for child in shallow):
            return INVALID_PARAMETERS
        return DENIED if shallow else None

    def halt(self, core, kind):
        self.halting, self.last[core] = True, "away"
        return Outcome("stop", (), self.send(kind, core))

    def system_reset2(self, core, reset_type):
        return self.halt(core, "reset") if reset_type == 0 else INVALID_PARAMETERS

    def set_suspend_mode(self, core, mode):
        if mode not in (PLATFORM, OS_INITIATED):
            return INVALID_PARAMETERS
        if mode == self.mode:
            return 0
        if mode == OS_INITIATED:
            refused = any(self.phase(it) in ("suspended", "pending") for it in self.board.cores)
        else:
            refused = any(self.phase(it) != "away" for it in self.board.cores if it != core)
        if refused:
            return DENIED
        self.mode = mode
        return 0

    # ---- entries and acknowledgements

    def enter(self, core, life, number, cause):
        if life > self.life:
            self.open_life(life)
        phase, last, opening = self.phase(core), self.last[core], self.opening[core]
        next_one = number == self.known[core] + 1
        self.known[core], self.opening[core] = number, None
        self.disturb(core)
        self.slots.pop(core, None)
        if self.halting:
            return self.silent_stop(core)
        if opening is not None:
            self.last[core], self.status[core] = "running", ON
            return Outcome("enter", opening, None)
        if phase == "suspended" and last[0] < 3 and cause == "wake" and next_one:
            self.last[core], self.status[core] = "running", ON
            return Outcome("resume", (), None)
        return self.stop(core, "away")

    def take(self, ack):
        slot = SYSTEM if ack.kind in ("off", "reset") else ack.core
        held = self.slots.get(slot)
        if held is None or ack.life != self.life or held[:4] != ack[:4]:
            return "old"
        if ack.kind == "down" and ack.applied >= 1 and self.phase(ack.core) == "away":
            self.status[ack.core] = OFF
        if ack.kind == "down":
            path = self.board.path(ack.core)[:ack.applied]
            self.confirmed |= {node for node in path if self.claim.get(node) is held}
        if ack.kind != "down" or ack.stale or ack.applied >= len(held.parts):
            del self.slots[slot]
        return "used"
