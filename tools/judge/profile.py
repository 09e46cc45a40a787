"""What a firmware declares of itself: the standard leaves these to it (docs/compare/JUDGE.md)."""
import os

import firmware as fw
from board import Board, Fault

from .words import LOW, name_of, word_of


class Wrong(Exception):
    """This is no profile; the text says why."""


class Profile:
    def __init__(self, name="the definitions", board=None):
        self.name, self.board = name, board
        self.aligned, self.version, self.levels, self.zero = 4, 0x10001, 3, 0
        self.functions = None
        self.reads_states, self.is_early, self.keeps_early = True, False, False
        self.states = {}

    def has(self, word):
        return word in (fw.SUPPORTED if self.functions is None else self.functions)

    def depths(self, word, board):
        """The depths that a power state word asks at each level, or None where there is no such."""
        return list(self.states[word]) if word in self.states else None if self.states else fw.depths_of(word, board)


def yes(value):
    if value not in ("yes", "no"):
        raise ValueError
    return value == "yes"


def kept(value):
    if value != "x4-x17":
        raise ValueError
    return True


def functions_of(value):
    """The function words of these names, where `ours` names all that the definitions have."""
    return frozenset(word for it in value.split() for word in (fw.SUPPORTED if it == "ours" else (word_of(it),)))


def state(value, states):
    word, depths = value.split(" ")
    if not 1 <= len(depths) <= 4 or set(depths) - set("0123"):
        raise ValueError
    return {**states, int(word, 16): [int(it) for it in depths.ljust(4, "0")]}


def read(path):
    """The profile in a file."""
    profile = Profile(os.path.basename(path))
    setters = {
        "name": lambda value: setattr(profile, "name", value),
        "board": lambda value: setattr(profile, "board", Board(value)),
        "aligned": lambda value: setattr(profile, "aligned", int(value)),
        "version": lambda value: setattr(profile, "version", int(value, 16)),
        "functions": lambda value: setattr(profile, "functions", functions_of(value)),
        "levels": lambda value: setattr(profile, "levels", int(value)),
        "states-read": lambda value: setattr(profile, "reads_states", yes(value)),
        "zero": lambda value: setattr(profile, "zero", int(value, 16)),
        "state": lambda value: setattr(profile, "states", state(value, profile.states)),
        "keeps": lambda value: setattr(profile, "keeps_early", kept(value)),
        "early": lambda value: setattr(profile, "is_early", yes(value)),
    }
    with open(path, encoding="ascii") as file:
        for number, line in enumerate(file, 1):
            word, _, value = line.strip().partition(" ")
            if not word or word.startswith("#"):
                continue
            try:
                setters[word](value.strip())
            except (KeyError, ValueError):
                raise Wrong(f"{path}: line {number}: not a line of a profile") from None
            except Fault as fault:
                raise Wrong(f"{path}: line {number}: {str(fault).removeprefix('line 1: ')}") from None
    if profile.board is None:
        raise Wrong(f"{path}: missing line 'board'")
    return profile


def declared(lives):
    """The line `functions`, by the answers to PSCI_FEATURES that were recorded."""
    words = {}
    for life in lives:
        for mine in life.operations.values():
            for it in mine:
                is_asked = it.regs and it.word in fw.FEATURES and it.regs[1] <= LOW
                if is_asked and it.want[0] == "return":
                    words[it.regs[1]] = it.want[1]
    there = sorted(word for word, code in words.items() if code >= 0)
    return "functions " + " ".join(name_of(it) if name_of(it).endswith("_64") or name_of(it)[0] != "0"
                                   else f"{it:x}" for it in there)
