"""What happens in a worked example: its events in turn, and what is said of some of them.

A statement is read as text, with the names of its events written out. A saying stands behind its
event: in a run that breaks a clause those that are written out are the wrong ones, and what breaks
the clause is their core's. Cores go by the numbers or MPIDRs that the text has.
"""
import re

NUMBER = r"(0x[0-9a-fA-F]+|\d+)"
# an event, by its first word, with how many words follow of which the first is its core
EVENTS = {"Enter": 1, "Wake": 1, "Reset": 1, "Deliver": 1, "Take": 1, "off": 1, "retention": 1,
          "standby": 1, "version": 1, "system_off": 1, "system_reset": 1, "call": 5,
          "status_of": 3, "state_of": 3}
# a saying, by its first word, with how many words follow
SAYINGS = {"goes_down": 4, "acked": 7, "enters": 2, "value": 1, "resumes": 0, "stops": 0, "used": 0,
           "halts": 5, "returns": 0, "part": 3, "below": 3}
ATOM = r"(?:\([^()]*\)|[\w.]+)"
WORD = re.compile(r"(?<![\w.])(?:" + "|".join(
    rf"{word}(?: {ATOM}){{{count}}}" if count else word
    for word, count in {**EVENTS, **SAYINGS, "suspend": 2}.items()) + r")(?![\w.])")
# the cores of a board by the fields of their MPIDRs, and those below each domain of a level
BOARDS = {"tall": ((0, 0x100, 0x10000, 0x10100), ((0,), (1,), (2,), (3,)), ((0, 1), (2, 3))),
          "five": ((0, 1, 2, 0x100, 0x101), ((0, 1, 2), (3, 4))),
          "one_core": ((0,),), "board": ((0, 1, 0x100, 0x101), ((0, 1), (2, 3)))}
# the boot core of a platform
BOOTS = {"two": 0x200, "tall": 0x100}
CPU_ON, SUSPEND, MODE = 0xC4000003, 0xC4000001, 0x8400000F
# what the proof that a sentence is broken gives to it: its core, and the level if it has one
AT = (re.compile(rf"\b(?:one|none)(?:_\w+)? {NUMBER} {NUMBER} \("),
      re.compile(rf"\bdeeper _ _ {NUMBER} {NUMBER} "), re.compile(rf"\bnever_\w+ _ _ {NUMBER} "))
BY_WORD = re.compile(rf"\((?:down|real) {NUMBER} {NUMBER} {NUMBER} ")
# and where the statement itself says so
SAID_AT = (re.compile(rf"\bdomain_above \w+ {NUMBER} {NUMBER}"),
           re.compile(rf"(?<![\w.])WasAskedFor .* {NUMBER} {NUMBER} {NUMBER} {NUMBER}$"),
           re.compile(rf"(?<![\w.])(?:IsOff|Waits) .*? {NUMBER}(?: \(at .*)?$"))


def number_of(word):
    """The number that a word says; a sum is worked out, and what is no number is -1."""
    word = word.strip("()")
    if re.fullmatch(rf"{NUMBER}(?: \+ {NUMBER})*", word):
        return sum(int(it, 0) for it in word.split(" + "))
    return -1


class Step:
    """An event, or a saying: its first word, its core, if it names one, and its numbers."""

    def __init__(self, text):
        words = re.findall(ATOM, text)
        self.word, self.text, self.numbers = words[0], words[1:], [number_of(it) for it in words[1:]]
        self.is_event = self.word in EVENTS or self.word == "suspend"
        self.core = None
        if self.word == "suspend" and self.numbers[0] == -1:
            self.core, self.numbers = self.numbers[1], [self.numbers[1], 0x00010003]
        elif self.is_event and self.word not in ("Deliver", "Take"):
            self.core = self.numbers[0]
        elif self.word in ("goes_down", "acked"):
            self.core = self.numbers[1 + (self.word == "acked")]

    def asked(self):
        """The power state word by which a core asks to be suspended, or None."""
        if self.word == "call" and self.numbers[1] == SUSPEND:
            return self.numbers[2]
        return {"suspend": self.numbers[-1:], "retention": [2], "standby": [1]}.get(
            self.word, [None])[0]

    def stops(self):
        """Whether by this event its core asks to be taken down."""
        return self.word == "off" or self.asked() is not None or self.is_call(0xC400000E)

    def is_call(self, word):
        return self.word == "call" and self.numbers[1] == word

    def powers_down(self):
        """Whether it asks for power-down."""
        asked = self.asked()
        return self.word == "off" or self.is_call(0xC400000E) or asked is not None and (
            asked >> 16 & 1 == 1 or asked >> 30 == 1)

    def reaches(self):
        """The highest level that it asks down; None where that is not in its words."""
        asked = self.asked()
        if asked is None:
            return None
        return max(level for level in range(4) if asked >> 4 * level & 15 or level == 0)


class Happens:
    """What happens in an example."""

    def __init__(self, statement, proof=""):
        self.text, self.proof = statement, proof
        self.steps = [Step(it[0]) for it in WORD.finditer(statement)]
        self.events = [it for it in self.steps if it.is_event]
        board = re.search(r"(?<![\w.])(tall|five|one_core|board|two)(?!\w)", statement)
        self.board = board[1] if board else "board"

    # ---- which core and which level

    def instance(self):
        """The core and the level of which a platform's sentence is said to hold, or not; None each
        where neither the statement nor the proof says so."""
        for pattern in AT:
            found = pattern.search(self.proof)
            if found:
                return [int(it, 0) for it in found.groups()] + [None] * (2 - len(found.groups()))
        found = BY_WORD.search(self.proof)
        if found:
            return [int(found[3], 0), int(found[2], 0)]
        asked = re.search(rf"(?<![\w.])IsAskedOf \w+ {NUMBER} {NUMBER} {NUMBER}", self.text)
        if asked:
            return [int(asked[3], 0), int(asked[2], 0)]
        for pattern in SAID_AT:
            found = pattern.search(self.text)
            if found:
                return [int(it, 0) for it in found.groups()[:2]] + [None] * (2 - len(found.groups()))
        return [None, None]

    def clause(self):
        """The level and place, or 0 and the core, that the clause says that breaks."""
        found = re.search(rf"\bBreaks \(\w+ {NUMBER}(?: {NUMBER})?\)|\bat {NUMBER} {NUMBER}", self.text)
        if not found:
            return None
        numbers = [int(it, 0) for it in found.groups() if it]
        return numbers if len(numbers) == 2 else [0, *numbers]

    def wrong(self):
        """The cores of which something is said that is written out."""
        found, core = [], None
        for step in self.steps:
            if step.is_event:
                core = step.core
            elif step.word not in ("part", "below"):
                found.append(step.core if step.core is not None else core)
        return [it for it in found if it is not None]

    def awake(self):
        """The cores that are not stopped at the end."""
        found = set()
        for step in self.events:
            if step.word == "Enter":
                found.add(step.core)
            elif step.stops():
                found.discard(step.core)
        return found

    def subjects(self, clause_name, is_break):
        """The cores that the example is about."""
        if clause_name == "NoneBelowSleeping" and not is_break:
            return self.awake()
        clause = self.clause()
        if clause and clause[0] == 0:
            return {clause[1]}
        if is_break and self.wrong():
            return set(self.wrong())
        entered = {it.core for it in self.events if it.word == "Enter"}
        return {it.core for it in self.events if it.stops()} & entered or entered

    def wrong_level(self):
        """The level that the clause says, or the highest one of the parts, and of what was applied of
        them, that are written out; None without any."""
        if self.clause():
            return self.clause()[0]
        parts = [it.numbers[0] for it in self.steps if it.word == "part"]
        applied = [it.numbers[5] - 1 for it in self.steps if it.word == "acked"]
        return max(parts + applied, default=None)

    def levels(self):
        """The highest level of which the example has a domain that goes to sleep."""
        found, awake = self.wrong_level() or 0, set()
        for step in self.events:
            if step.word == "Enter":
                awake.add(step.core)
            if step.stops():
                awake.discard(step.core)
                found = max(found, self.reached(step, awake))
        return found

    def reached(self, step, awake):
        """The highest level of which a step takes a domain down, where these cores are awake."""
        if step.reaches() is not None:
            return step.reaches()
        domains, level = BOARDS.get(self.board, BOARDS["board"])[1:], 0
        for groups in domains:
            if any(step.core in them and awake & set(them) for them in groups):
                return level
            level += 1
        return level if awake else level + 1

    # ---- when

    def last(self):
        """Where the last saying stands; without any, the last event."""
        said = [at for at, it in enumerate(self.steps) if not it.is_event]
        return max(said or [len(self.steps) - 1])

    def resets(self):
        """Where the resets stand after which a message comes: each begins a life."""
        comes = [at for at, it in enumerate(self.steps) if it.word == "Deliver"]
        return [at for at, it in enumerate(self.steps)
                if it.word == "system_reset" and any(other > at for other in comes)]

    def starts(self, core):
        """How often a core is started in its last life."""
        begun, count = max(self.resets() or [-1]), int(core in (0, BOOTS.get(self.board)))
        for step in self.steps[begun + 1:]:
            named = step.is_call(CPU_ON) and self.named(step.numbers[2])
            count += step.word in ("Wake", "Reset") and step.core == core
            count += named is not False and named == core
        return count

    def named(self, mpidr):
        """The core that an MPIDR names on a board."""
        cores = BOARDS.get(self.board, BOARDS["board"])[0]
        return cores.index(mpidr) if mpidr in cores else mpidr

    def enters_between(self, core, by_power_down):
        """Whether this core goes down, enters after it, and then goes down again."""
        state = 0
        for at, step in enumerate(self.steps):
            said = self.steps[at + 1].word == "goes_down" if at + 1 < len(self.steps) else False
            deep = said and any(it.word == "part" and it.numbers[:2] == [0, 3]
                                for it in self.steps[at + 2:at + 3])
            if step.core != core:
                continue
            if state == 0 and step.is_event and step.stops():
                state = int(not by_power_down or deep or not said and step.powers_down())
            elif state == 1 and step.word == "Enter":
                state = 2
            elif state == 2 and step.is_event and step.stops():
                return True
        return False
