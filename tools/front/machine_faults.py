"""The faults of a machine's description, in their order, each with where it stands."""
from . import machines
from .machine_swap import is_symmetric
from .machines import At, Fault

MOST_ROWS = 64
AFFINITY_FIELDS = 0xFF00FFFFFF
# of a format, original and extended: the bits that are reserved, and StateType
RESERVED, STATE_TYPE = (0xFCFE0000, 0xB0000000), (0x00010000, 0x40000000)
POWER_DOWN = 3


# ---- what a description has

def depth(machine, level, number):
    """The depth of the state of this number, where one that there is not is power-down."""
    return machine.classes[level][number] if number < machines.STATES else POWER_DOWN


def depths(machine, states):
    return [depth(machine, level, number) for level, number in enumerate(states)]


def is_ask(asked):
    """The core stops, and no level goes deeper than the one below it."""
    return asked[0] >= 1 and asked == sorted(asked, reverse=True)


def meet(row, other):
    """Some word is read by both rows."""
    return row.word & other.mask == other.word & row.mask


def unknown_state(machine, states):
    """The level of the first state that the machine does not have, or that is above its levels."""
    return next((level for level, number in enumerate(states) if number >= machines.STATES
                 or (level > machine.levels and number)), None)


def place(machine, word, line, at=0):
    """Where a number of a line stands, or the nearest one before it; line 1 without such a line."""
    lines = machine.places.get(word, [])
    found = lines[line] if -len(lines) <= line < len(lines) else []
    return found[min(at, len(found) - 1)] if found else At(1, 0)


# ---- faults, by their number: where, if there is one

def wrong_count(machine):
    many, wanted = len(machine.mpidrs), len(machine.cores)
    if many != wanted:
        yield place(machine, "core", wanted if many > wanted else -1)


def bad_mpidr(machine):
    for at, mpidr in enumerate(machine.mpidrs):
        if mpidr & ~AFFINITY_FIELDS:
            yield place(machine, "core", at)


def same_mpidr(machine):
    for at, mpidr in enumerate(machine.mpidrs):
        if mpidr in machine.mpidrs[:at]:
            yield place(machine, "core", at)


def no_boot_core(machine):
    if machine.boot not in machine.mpidrs:
        yield place(machine, "boot", 0)


def late_boot_core(machine):
    if not is_symmetric(machine):
        yield place(machine, "boot", 0)


def too_many_levels(machine):
    if machine.levels > machine.height:
        yield place(machine, "levels", 0)


def falling_class(machine):
    for level, classes in enumerate(machine.classes):
        for number, found in enumerate(classes):
            if found < (classes[number - 1] if number else 0) or (number == 0 and found):
                yield place(machine, f"class {level}", 0, number)


def too_many_rows(machine):
    if len(machine.rows) > MOST_ROWS:
        yield place(machine, "word", MOST_ROWS)


def bad_word(machine):
    reserved = RESERVED[machine.is_extended]
    for at, row in enumerate(machine.rows):
        if row.word & ~row.mask or row.mask & reserved != reserved or row.word & reserved:
            yield place(machine, "word", at, 0 if row.word & reserved else 1)


def same_word(machine):
    for at, row in enumerate(machine.rows):
        if any(meet(row, other) for other in machine.rows[:at]):
            yield place(machine, "word", at)


def wrong_type(machine):
    bit = STATE_TYPE[machine.is_extended]
    for at, row in enumerate(machine.rows):
        is_down = depth(machine, 0, row.states[0]) == POWER_DOWN
        if not row.mask & bit or bool(row.word & bit) != is_down:
            yield place(machine, "word", at)


def bad_states(machine):
    for at, row in enumerate(machine.rows):
        unknown, asked = unknown_state(machine, row.states), depths(machine, row.states)
        if unknown is not None or not is_ask(asked):
            grows = (level for level in range(1, len(asked)) if asked[level] > asked[level - 1])
            yield place(machine, "word", at, 2 + (next(grows, 0) if unknown is None else unknown))


def bad_system(machine):
    if "system_suspend" in machine.functions:
        asked = [POWER_DOWN if level <= machine.height else 0 for level in range(machines.LEVELS)]
        if unknown_state(machine, machine.system) is not None or depths(machine, machine.system) != asked:
            is_said = machine.places.get("system-suspend")
            yield place(machine, "system-suspend" if is_said else "functions", 0)


def bad_functions(machine):
    there = machine.functions
    for function, needs in (("cpu_off", "cpu_on"), ("system_suspend", "cpu_suspend")):
        if function in there and needs not in there:
            yield place(machine, "functions", 0)
    for at, own in enumerate(machine.resets):
        if own < 2 ** 31 or "system_reset2" not in there:
            yield place(machine, "reset", at)


FAULTS = (wrong_count, bad_mpidr, same_mpidr, no_boot_core, late_boot_core, too_many_levels, falling_class,
          too_many_rows, bad_word, same_word, wrong_type, bad_states, bad_system, bad_functions)


def first(machine):
    """The number of the first fault and where it stands; nothing where there is none."""
    for number, found in enumerate(FAULTS, 1):
        where = next(found(machine), None)
        if where:
            return number, where
    return None


def checked(text):
    """The machine of a text; raises its first fault."""
    machine = machines.read(text)
    found = first(machine)
    if found:
        raise Fault(*found, machines.words_of(found[0]))
    return machine
