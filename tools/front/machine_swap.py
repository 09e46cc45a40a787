"""A boot core that is not the first one of the tree: psci_platform's swap, by affinity words.

The firmware boots core 0. So core 0 and the boot core have each other's number, and so have, level by
level, the domains above them; all other domains keep theirs, below parents that may have moved.
"""


def other_word(machine, word):
    """The affinity word that is swapped with a core's or a domain's; perhaps no core's."""
    boot, other = machine.cores[machine.mpidrs.index(machine.boot)], 0
    for shift in (16, 8, 0):
        number, own = word >> shift & 255, boot >> shift & 255
        if word >> shift + 8 in (0, boot >> shift + 8):
            number = {0: own, own: 0}.get(number, number)
        other = other << 8 | number
    return other


def is_symmetric(machine):
    """Whether every core is swapped with one of the board, and so is each domain above it."""
    return all(other_word(machine, word) in machine.cores for word in machine.cores)


def other_core(machine, core):
    """The firmware's number of the core at a place of the tree, and the place of one of the firmware's."""
    return machine.cores.index(other_word(machine, machine.cores[core]))
