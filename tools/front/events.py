"""Reads a line of a script by the grammar of docs/port/FORMATS.md."""
import re

from .reader import Reader, Wrong, end_of, near, strange

CORE, REGISTER, INDEX = "CORE", "REGISTER", "INDEX"
EVENTS = {"call": (CORE, REGISTER), "enter": (CORE,), "wake": (CORE,), "reset": (CORE,),
          "deliver": (INDEX,), "take": (INDEX,)}
MOST_REGISTERS = 4


def read_event(line):
    """Reads a line behind the board's; raises what is wrong with it."""
    if not line or line.startswith("#"):
        return
    reader = Reader(line)
    name = reader.word()
    if line[0] in " \t":
        raise Wrong(0, "the line is indented; each line begins with its word, a comment with #, or is empty")
    bad = re.search(r"[^ -~]", name)
    if bad:
        raise Wrong(bad.start(), f"{strange(bad[0])}, where only letters and blanks are allowed")
    if name not in EVENTS:
        raise Wrong(*unknown(name, EVENTS))
    reader.at = len(name)
    for kind in EVENTS[name]:
        what = {CORE: "the number of a core", REGISTER: "X0", INDEX: "the number K"}[kind]
        reader.blank(what)
        reader.number(what, None if kind is REGISTER else False)
    if name == "call":
        for at in range(1, MOST_REGISTERS):
            if not reader.is_done():
                reader.blank(f"X{at}")
                reader.number(f"X{at}")
    end_of(reader)


def unknown(word, names):
    """Where a word is none of these names, and what may be meant."""
    low = word.lower()
    if low in names:
        at = next(at for at, (a, b) in enumerate(zip(word, low)) if a != b)
        return at, f"a capital: the word is {low}"
    if low == "board":
        return 0, "the board is in line 1, and in no other"
    like = near(low, list(names))
    tip = f"did you mean {like[-1]}?" if like else f"expected one of {', '.join(names)}"
    return 0, f"unknown word '{word}': {tip}"
