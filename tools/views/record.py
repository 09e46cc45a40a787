"""The record of a port's run (docs/compare/RECORD.md): its script, and what the port answered to each event."""
import re
from collections import namedtuple
from functools import cached_property

from views.polls import Polls

FRAME_LEN = 53
KINDS = {1: "down", 2: "start", 3: "off", 4: "reset"}
ACKS = {kind | said: (kind, said) for kind in KINDS for said in (0x10, 0x20)}
BOOT, ON, WAKE, RESET = range(4)
AFFINITY_INFO = (0x84000004, 0xC4000004)
CPU_ON = (0x84000003, 0xC4000003)
TARGETS = (*AFFINITY_INFO, *CPU_ON, 0x8400000D, 0xC400000D)
NOBODY, INVALID_PARAMETERS = 2**64 - 1, -2

DEC, HEX = r"(0|[1-9]\d{0,19})", r"(0x[0-9a-f]{1,16})"
CORE = rf"({DEC[1:-1]}|{HEX[1:-1]})"
FRAME = rf"((?:[0-9a-f]{{2}}){{1,{FRAME_LEN}}})"
ANSWER = (r"(return -?\d+|stop|enter 0x[0-9a-f]+ 0x[0-9a-f]+|resume|refused \d+)"
          rf"(?: {FRAME})?")
START = r"(started \d+|ignored|refused \d+)"
LINES = {
    "call": rf"call {CORE} {HEX} {HEX} {HEX} {HEX} -> {ANSWER}",
    "poll": rf"poll {CORE} {HEX} {HEX} {HEX} -> (?:return (-?\d+)|(refused \d+))",
    "leaves": rf"leaves {CORE} {HEX}",
    "begins": rf"begins {CORE} {HEX} {HEX}(?: {HEX} {HEX})?",
    "enter": rf"enter {CORE} {DEC} {DEC} {DEC} -> {ANSWER}",
    "take": rf"take {FRAME} -> (used|old|refused \d+)",
    "deliver": rf"deliver {FRAME} -> (?:{FRAME}|(ignored|refused \d+))",
    "stands": rf"stands {CORE} {DEC}",
    "wake": rf"wake {CORE} {DEC} -> {START}",
    "reset": rf"reset {CORE} -> {START}",
}
OF_FRAMES = ("take", "deliver")
# of SPSR: that it is of AArch32, its mode, and what masks interrupts; of SCTLR: the MMU, the data cache
AARCH32, MODE, MASKS_32, MASKS_64 = 0x10, 0x1F, 0x1C0, 0x3C0
MMU, DATA_CACHE = 1, 4
PATTERNS = {word: re.compile(pattern) for word, pattern in LINES.items()}

# where it stands in the record, its line of the script, and what the port said
Event = namedtuple("Event", "line text said")


class Fault(Exception):
    """A line that is no line of a record, or a record without a board."""


class Impossible(Exception):
    """What no run can have at this place, whatever was answered before."""


def bytes_of(digits):
    return bytes.fromhex(digits).ljust(FRAME_LEN, b"\0")


def number(frame, at, size=4):
    return int.from_bytes(frame[at:at + size], "big")


def said_of(frame, index):
    """A message as answer lines have it."""
    if frame[2] not in KINDS:
        return f"#{index} frame {frame.hex()}"
    said = f"#{index} {KINDS[frame[2]]} {frame[3]} life {number(frame, 4)} number {number(frame, 8)}"
    fields = [frame[at:at + 10] for at in range(13, 13 + 10 * min(frame[12], 4), 10)]
    parts = [f" {it[0]}:{it[1]}:{number(it, 2, 8)}" for it in fields]
    return said + " parts" * bool(parts) + "".join(parts)


def register_of(word, code):
    """What a code makes of x0, by the function word of the call."""
    return code % 2**(64 if word >> 30 & 1 else 32)


def affinities(tree):
    """The affinity words of a board's cores, in their order."""
    members = re.findall(r"\([^()]*\)|\d+", tree[1:-1] if tree[:1] == "(" else tree)
    groups = [[int(it) for it in re.findall(r"\d+", member)] for member in members]
    if "(" not in tree[1:]:
        groups = [[size for group in groups for size in group]]
    return [group << 16 | cluster << 8 | core for group, sizes in enumerate(groups)
            for cluster, size in enumerate(sizes) for core in range(size)]


class Record:
    """The events of a record, in order, up to the first that no run can have."""

    def __init__(self, lines, translator=None):
        """The record of these lines. Where there is a translator (tools/front/machine_runs.py), its calls
        are in the words of that machine."""
        self.board, self.words, self.events, self.impossible = None, None, [], None
        self.translator = translator
        self.polls, self.at = Polls(), 0
        self.sent, self.acks = {}, {}
        self.many_sent = self.many_acks = 0
        self.life, self.starts, self.found = 1, {0: 1}, {0: (1, 1, BOOT)}
        # each entry, by its core and start; of each life the cores that were started and did not enter
        self.entered, self.absent = set(), []
        # the cores that were started since some core called or entered
        self.fresh = set()
        # of each core the start in whose stop it stands, if the record tells of that
        self.stops, self.tells_stops = {}, False
        # whether it tells of each core that enters that it begins
        self.tells_begins = False
        # of each core the lines with one of which it has to leave the monitor, by what it was answered last
        self.leaving = {}
        # the mode in which the first core began, and how many lines of what happened there were
        self.mode, self.many = None, 0
        for at, line in enumerate(lines, 1):
            line = line.rstrip("\r\n")
            if line and line[0] != "#" and not self.read(at, line):
                break
        if self.board is None:
            raise Fault("line 1: the record has no board")
        self.end_of_life()

    def read(self, at, line):
        """Whether the record goes on."""
        word = line.partition(" ")[0]
        if word in ("board", "mpidr", "tells", "told"):
            self.head(at, line)
            return True
        self.many += 1
        match = PATTERNS[word].fullmatch(line) if word in PATTERNS else None
        if match is None or self.board is None:
            raise Fault(f"line {at}: not a line of a record")
        self.at, parts = at, list(match.groups())
        try:
            if word not in OF_FRAMES:
                parts[0] = self.numbered(parts[0])
            text, said = getattr(self, word)(*parts)
        except Impossible as why:
            self.impossible = Event(at, line.partition(" -> ")[0], str(why))
            return False
        if text:
            self.events.append(Event(at, text, said))
        if word in ("call", "enter", "take"):
            self.polls.event(len(self.events), word, parts[0])
        return True

    def head(self, at, line):
        if re.fullmatch("told [0-9]+", line):
            if int(line[5:]) != self.many:
                raise Fault(f"line {at}: {line[5:]} lines were written before it, but {self.many} are here")
            return
        if not self.events and self.board is None and line.startswith("board "):
            if self.translator and line != f"board {self.translator.machine.text}":
                raise Fault(f"line {at}: this is not the board of the machine")
            self.board = line
        elif not self.events and self.board is not None and line == "tells stands":
            self.tells_stops = True
        elif not self.events and self.board is not None and line == "tells begins":
            self.tells_begins = True
        elif not self.events and self.board is not None and re.fullmatch(f"mpidr( {HEX})+", line):
            words = [int(it, 16) for it in line.split()[1:]]
            if len(words) != len(self.cores):
                raise Fault(f"line {at}: not a line of a record")
            if self.translator and words != self.translator.machine.mpidrs:
                raise Fault(f"line {at}: these are not the MPIDRs of the machine")
            self.words = dict(zip(words, self.cores))
        else:
            raise Fault(f"line {at}: not a line of a record")

    @cached_property
    def cores(self):
        return affinities(self.board.removeprefix("board ").partition(" exec")[0])

    @cached_property
    def highest(self):
        """The highest level of the board, at which there is one domain."""
        return 1 + re.match(r"board (\(*)", self.board)[1].count("(")

    # ---- cores

    def core_of(self, mpidr):
        """The number of the core that the machine names so, or nothing."""
        if self.translator:
            return self.translator.core(mpidr)
        word = mpidr if self.words is None else self.words.get(mpidr)
        return self.cores.index(word) if word in self.cores else None

    def numbered(self, core):
        """The number of a core, as digits, which may be named by its MPIDR, in hexadecimal."""
        if not core.startswith("0x"):
            return core
        found = self.core_of(int(core, 16))
        if found is None:
            raise Impossible(f"no core has the MPIDR {core}")
        return str(found)

    # ---- the firmware

    def outcome(self, answer, frame):
        said = "resume 0" if answer == "resume" else answer
        if frame:
            message = bytes_of(frame)
            said += " " + said_of(message, self.many_sent)
            self.sent[message] = self.many_sent
            self.many_sent += 1
        return said

    def named(self, word, x1, level=0):
        """The board's affinity word for that of the machine. The fields below a level say nothing: at the
        highest one a word need not be that of a core."""
        target = int(x1, 16) % 2**(64 if word >> 30 & 1 else 32)
        if self.words is None:
            return target
        return self.words.get(target >> 8 * level << 8 * level if level == self.highest else target, NOBODY)

    def call(self, core, x0, x1, x2, x3, answer, frame):
        if self.has_not_begun(core):
            raise Impossible("it has not begun")
        self.fresh.clear()
        word = int(x0, 16) % 2**32
        self.answered(core, word, answer)
        if self.translator:
            text = self.translator.call(f"call {core} {x0} {x1} {x2} {x3}")
            return text, self.heeded(text, self.outcome(answer, frame))
        if self.words is not None and word in TARGETS:
            x1 = hex(self.named(word, x1, int(x2, 16) % 2**32 if word not in CPU_ON else 0))
        return f"call {core} {x0} {x1} {x2} {x3}", self.outcome(answer, frame)

    def answered(self, core, word, answer, cause=None):
        """Keeps how the core leaves that was answered so: a boot core begins with an x0 of the port's own."""
        said, *values = answer.split(" ")
        if said == "return":
            self.leaving[core] = "leaves", register_of(word, int(values[0]))
        elif said == "resume":
            self.leaving[core] = "leaves", 0
        elif said == "enter":
            address, context = (int(it, 16) for it in values)
            self.leaving[core] = "begins", address, None if cause == BOOT else context
        else:
            self.leaving.pop(core, None)

    def left(self, core, *how):
        """The core left so: no event, but it has to be as it was answered, and once for each answer."""
        wanted = self.leaving.pop(core, None)
        if wanted is None:
            raise Impossible("no answer of before lets it go")
        if wanted[0] != how[0]:
            raise Impossible(f"it was answered that it {wanted[0]}")
        for name, ours, theirs in zip(("address", "x0")[3 - len(how):], how[1:], wanted[1:]):
            if theirs not in (None, ours):
                raise Impossible(f"it was answered {name} {theirs:#x}")
        return None, None

    def leaves(self, core, x0):
        return self.left(core, "leaves", int(x0, 16))

    def begins(self, core, address, x0, spsr, sctlr):
        self.left(core, "begins", int(address, 16), int(x0, 16))
        return self.in_state(int(spsr, 16), int(sctlr, 16)) if spsr else (None, None)

    def in_state(self, spsr, sctlr):
        """The state at an entry: the boot core's mode, all interrupts masked, and neither MMU nor data cache on."""
        masks = MASKS_32 if spsr & AARCH32 else MASKS_64
        if self.mode is None:
            self.mode = spsr & MODE
        if spsr & MODE != self.mode:
            raise Impossible(f"it begins in mode {spsr & MODE:#x}, and the first core in mode {self.mode:#x}")
        if spsr & masks != masks:
            raise Impossible(f"an interrupt is not masked: SPSR {spsr:#x}")
        if sctlr & (MMU | DATA_CACHE):
            raise Impossible(f"its MMU or its data cache is on: SCTLR {sctlr:#x}")
        return None, None

    def heeded(self, text, said):
        """What was said, of which the machine's words keep what they depend on."""
        if self.translator:
            self.translator.heed(text, f"{len(self.events) + 1} {said}")
        return said

    def poll(self, core, x0, x1, x2, code, refused):
        word = int(x0, 16) % 2**32
        if word not in AFFINITY_INFO or int(x2, 16) % 2**32:
            raise Impossible("a poll is AFFINITY_INFO of a core, with level 0")
        if refused:
            raise Impossible(f"it was {refused}: there is no firmware to poll")
        self.answered(core, word, f"return {code}")
        target = self.core_of(int(x1, 16) % 2**(64 if word >> 30 & 1 else 32))
        if target is not None:
            text = f"poll {core} {x0} {x1} {x2}"
            self.polls.add(self.at, text, core, target, int(code))
        elif int(code) != INVALID_PARAMETERS:
            raise Impossible(f"it was answered {code}, but its target is no core: that is -2")
        return None, None

    def enter(self, core, life, start, cause, answer, frame):
        by, found = (int(life), int(start), int(cause)), self.found.get(int(core))
        if found and by != found:
            raise Impossible("it entered by start {1} of life {0}, cause {2}; ".format(*by) +
                             "its last one is start {1} of life {0}, cause {2}".format(*found))
        self.entered.add((int(core), *by))
        self.fresh.clear()
        self.answered(core, 0, answer, int(cause))
        return f"enter {core}", self.outcome(answer, frame)

    def take(self, frame, said):
        if bytes_of(frame) not in self.acks:
            raise Impossible("no acknowledgement of these bytes was made before")
        return f"take {self.acks[bytes_of(frame)]}", said

    def stands(self, core, start):
        self.stops[int(core)] = int(start)
        return None, None

    # ---- the power controller

    def stops_in(self, core, start):
        """Whether the core stands in its stop of this start, where that is the last one."""
        return (not self.tells_stops or start != self.starts.get(core, 0)
                or self.stops.get(core) == start)

    def deliver(self, frame, ack, said):
        message = bytes_of(frame)
        if message not in self.sent:
            raise Impossible("no message of these bytes was sent before")
        if message[2] == 1 and number(message, 4) == self.life and not self.stops_in(
                message[3], number(message, 8)):
            raise Impossible(f"core {message[3]} was taken down before it stood in its stop")
        text = f"deliver {self.sent[message]}"
        return text, self.heeded(text, said or self.acknowledged(message, bytes_of(ack)))

    def acknowledged(self, message, ack):
        kind, said = ACKS.get(ack[2], (0, 0))
        if kind != message[2] or ack[:2] + ack[3:12] != message[:2] + message[3:12] or any(ack[13:]):
            raise Impossible("its acknowledgement is that of another message")
        self.acks[ack] = self.many_acks
        self.many_acks += 1
        if kind == 2 and said == 0x10:
            self.started(message[3], self.starts.get(message[3], 0) + 1, ON)
        elif kind in (3, 4):
            self.end_of_life(self.fresh)
            self.life, self.starts, self.stops = self.life + 1, {0: 1}, {}
            self.found = {0: (self.life, 1, BOOT)}
        return f"ack #{self.many_acks - 1} applied {ack[12]}" + " stale" * (said == 0x20)

    def end_of_life(self, late=()):
        """Keeps which cores were started in this life, and have not entered by that start. Of a life that no core has
        entered nothing is said: the machine may be off; and nothing of those that were started too late, as the life
        was about to be ended."""
        cores = [core for core, by in sorted(self.found.items())
                 if core not in late and ((core, *by) not in self.entered or self.has_not_begun(core))]
        cores = cores if any(life == self.life for _, life, _, _ in self.entered) else []
        self.absent += [(self.life, cores)] if cores else []

    def has_not_begun(self, core):
        return self.tells_begins and self.leaving.get(str(core), ("",))[0] == "begins"

    def started(self, core, start, cause):
        self.starts[core], self.found[core] = start, (self.life, start, cause)
        self.fresh.add(core)

    def kicked(self, core, said, cause):
        if said.startswith("started "):
            self.started(int(core), int(said.split()[1]), cause)
        return said

    def wake(self, core, halted, said):
        if not self.stops_in(int(core), int(halted)):
            raise Impossible(f"core {core} was woken before it stood in its stop")
        if int(halted) == self.starts.get(int(core), 0):
            return f"wake {core}", self.kicked(core, said, WAKE)
        if said != "ignored":
            raise Impossible(f"it was started by a wake-up of start {halted}, which is not its last one")
        return None, said

    def reset(self, core, said):
        return f"reset {core}", self.kicked(core, said, RESET)

    # ---- what is made of it

    def never_entered(self):
        """What is said of cores that were started and never entered; nothing where there is none."""
        said = [f"core{'s' * (len(cores) > 1)} {', '.join(map(str, cores))} in life {life}" for life, cores in self.absent]
        return said and f"started and never entered: {'; '.join(said)}"

    def script(self, many=None):
        events = self.events[:many]
        return f"{self.board}\n" + "".join(f"{it.text}\n" for it in events)

    def answers(self):
        return [f"{at} {it.said}" for at, it in enumerate(self.events, 1)]
