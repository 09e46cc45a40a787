"""The axes of the table of cells, and whether an example uses a value of one of them.

    uses(axis, clause, happens, is_break, of_platform)    why it does not; None if it does
    shows(axis, statement)                                the same where only words are looked at
    acts(axis, statement)                                 the same of a port's acts
    serves(axis, statement)                               the same of a message and its board
"""
import re

from happens import BOARDS, BOOTS, CPU_ON, MODE

AXES = ("level 0", "level 1", "level 2", "level 3", "life 1", "life 2", "life 3", "platform mode",
        "OS-initiated mode", "going on", "halting", "boot core", "second core",
        "first of another cluster", "last of five", "start 1", "start 2", "start 3", "start 4",
        "caller", "bystander", "original format", "extended format")
TWO_CORES = tuple("another core" if it == "second core" else it for it in AXES
                  if it not in ("first of another cluster", "last of five"))
PAIRS = (*(f"level {level} in {value}" for value in ("life 2", "OS-initiated mode")
           for level in (1, 2, 3)),
         "boot core in life 2", "caller in life 2", "bystander in life 2",
         "boot core after an entry", "another core after an entry")
PORT = ("life 1", "life 2", "boot core", "another core", "boot core in life 2")
SERVED = ("low board", "height 3", "life 1", "life 2", "boot core", "another core", "power-down",
          "standby", "going on", "halting")
NAMED_AXES = {"pairs": PAIRS, "two cores": TWO_CORES, "port": PORT, "served": SERVED}
# the numbers of cores on a board
CORES = {"boot core": 0, "second core": 1, "first of another cluster": 2, "last of five": 4}
# the clauses that speak of cores that are powered down: retention is no sleep to them
OF_POWER_DOWN = ("PoweredDown", "AllOff", "OffIsDown")


def shows(axis, text):
    """Whether a statement has what shows of this value of an axis."""
    resets = len(re.findall(r"\bsystem_reset |\b0x84000009 ", text))
    starts = len(re.findall(r"\b(?:Wake|Reset|wakes|resets) \d", text)) + 1
    word, _, value = axis.partition(" ")
    if word == "life":
        return resets >= int(value) - 1
    if word == "start":
        return starts + text.count("on_3") >= int(value)
    return {"level 3": "tall" in text, "OS-initiated mode": "0x8400000f 1" in text,
            "platform mode": "0x8400000f 1" not in text,
            "halting": "system_off" in text or resets > 0,
            "extended format": "Extended" in text,
            "original format": "Extended" not in text}.get(axis, True)


# an act of a core of a port
ACT = re.compile(r"\b(?:Locks|Unlocks|asks|Finishes|TakesUp|Stands|Arms|Sleeps|Resets|Writes|Opens"
                 r"|door|comes) (\d+)")


def acts(axis, text):
    """Whether the last act of a port's example is of this core, level and life."""
    if " in " in axis:
        return all(acts(it, text) for it in axis.split(" in "))
    word, _, value = axis.partition(" ")
    if word == "level":
        return re.findall(r"\bCuts (\d+)", text)[-1:] == [value]
    if word == "life":
        return len(re.findall(r"\b0x84000009 ", text)) == int(value) - 1
    last = ACT.findall(text)[-1:]
    return last != [] and (last == ["0"]) == (axis == "boot core")


# a message, with its life: a Down of a core, or one that ends the life, of the boot core
MESSAGE = re.compile(r"\b(?:down_of (\d+)|of_system \w+) (\d+)")


def serves(axis, text):
    """Whether the board and the last message of an example are of this value."""
    core, life = (MESSAGE.findall(text) or [("none", "")])[-1]
    word, _, value = axis.partition(" ")
    if word == "life":
        return life == value
    if axis in ("boot core", "another core"):
        return (core in ("", "0")) == (axis == "boot core")
    sign = {"height 3": r"\btall\b", "low board": r"\btall\b", "standby": "standby",
            "power-down": "standby", "halting": "of_system", "going on": "of_system"}[axis]
    return bool(re.search(sign, text)) == (axis in ("height 3", "standby", "halting"))


def core_of(axis, happens, of_platform):
    """Whether a core is the one that the axis names, as a function."""
    if axis == "another core":
        boot = BOOTS[happens.board] if of_platform else 0
        return lambda core: core is not None and core != boot
    number = BOOTS[happens.board] if of_platform else CORES[axis]
    return lambda core: core == number


def uses(axis, clause, happens, is_break, of_platform=False):
    """Why an example does not use this value of an axis; None if it does."""
    for sign in (" in ", " after "):
        if sign in axis:
            return uses_pair(*axis.split(sign), clause, happens, is_break, of_platform)
    word, _, value = axis.partition(" ")
    instance = happens.instance() if of_platform else [None, None]
    if axis in CORES or axis == "another core":
        is_its = core_of(axis, happens, of_platform)
        cores = {instance[0]} if instance[0] is not None else happens.subjects(clause, is_break)
        return None if any(is_its(it) for it in cores) else f"it is of another core: {cores}"
    if word == "level":
        return uses_level(int(value), clause, happens, instance, is_break)
    if word == "life":
        return uses_life(int(value), clause, happens)
    if word == "start":
        most = max([happens.starts(it) for it in happens.subjects(clause, is_break)], default=0)
        return None if most >= int(value) else f"its core has {most} starts"
    others = {"OS-initiated mode": uses_mode, "platform mode": uses_mode, "halting": uses_halting,
              "going on": uses_halting, "bystander": uses_bystander,
              "original format": uses_format, "extended format": uses_format}
    return others[axis](axis, happens) if axis in others else None


def uses_pair(first, second, clause, happens, is_break, of_platform):
    """The same of a value of one axis with a value of another one."""
    why = uses(first, clause, happens, is_break, of_platform)
    if why or second != "an entry":
        return why or uses(second, clause, happens, is_break, of_platform)
    is_its = core_of(first, happens, of_platform)
    cores = {it.core for it in happens.events if it.core is not None and is_its(it.core)}
    if any(happens.enters_between(it, clause in OF_POWER_DOWN) for it in cores):
        return None
    return "its core does not enter between two times that it goes down"


def uses_level(level, clause, happens, instance, is_break):
    if instance[0] is not None:
        return None if instance[1] in (None, level) else f"it is of level {instance[1]}"
    if clause in ("Few", "settled", "NoneBelowSleeping"):
        height = len(BOARDS.get(happens.board, BOARDS["board"]))
        return None if height >= level else f"its board has height {height}"
    wrong = happens.wrong_level() if is_break else None
    if wrong is not None:
        return None if wrong == level else f"what is wrong is of level {wrong}"
    return None if happens.levels() >= level else f"no domain of level {level} goes down"


def uses_life(life, clause, happens):
    begun = happens.resets()
    if clause != "OneEntryEach" and len(begun) != life - 1:
        return f"there are {len(begun)} resets"
    return None if not begun or begun[-1] < happens.last() else "it is of the life before"


def uses_mode(axis, happens):
    asks = [at for at, it in enumerate(happens.steps)
            if it.is_call(MODE) and it.numbers[2] == 1 and at < happens.last()]
    return None if bool(asks) == (axis != "platform mode") else "it is in another mode"


def uses_format(axis, happens):
    extended = re.search(r"(?<!\w)[Ee]xtended(?!\w)", happens.text) is not None
    return None if extended == (axis == "extended format") else "its board has the other format"


def uses_bystander(axis, happens):
    others = {it.core for it in happens.events}
    others |= {happens.named(it.numbers[2]) for it in happens.events if it.is_call(CPU_ON)}
    others -= {None, 0, BOOTS.get(happens.board)}
    if len(others) > 1 or happens.events and happens.events[-1].word == "Wake":
        return None
    return "no core takes part beside the one that calls"


def uses_halting(axis, happens):
    ends = [at for at, it in enumerate(happens.steps) if it.word in ("system_off", "system_reset")]
    begins = [at for at, it in enumerate(happens.steps) if it.word == "Enter"
              and it.core in (0, BOOTS.get(happens.board))]
    is_halting = any(not any(it > end for it in begins) for end in ends)
    if is_halting == (axis == "halting"):
        return None
    return "its life is halting" if is_halting else "its life goes on"
