"""The fault of a script or a board in words: which column, and what was expected there.

The program's own line names the fault by its number. Here the line is read again, by the grammar of
docs/port/FORMATS.md, up to the first byte that does not fit it; a call by name as it was written.
"""
import re

from views import faults

from . import boards, plain
from .events import EVENTS, read_event, unknown
from .reader import MOST_BYTES, TOO_LONG, Wrong, pointed, strange

FORMS = {"call": "call CORE X0 [X1 [X2 [X3]]]", "deliver": "deliver K", "take": "take K"}


def no_board(line):
    """The place and the words where line 1 gives no board."""
    if not line:
        return 0, "line 1 must be the board, as `board (2 2) exec 0x0-0x1000 boot 0x0 starts 9 lives 3`"
    word = line.partition(" ")[0]
    if line.startswith("#"):
        return 0, "a comment: line 1 must be the board, and comments follow it"
    if line[0] in " \t\ufeff":
        return 0, f"{strange(line[0])}: line 1 must begin with 'board '"
    if word == "board":
        return 5, "expected one blank and the board's text"
    if word.lower() == "board":
        return unknown(word, ["board"])
    return 0, "line 1 must be the board, as `board TEXT`"


def place_of(kind, number, line, first):
    """The place, counted from 0, and the words of a fault that the program named in this line, of a script with this
    first one."""
    if kind == "board":
        return boards.fault(number, line, len("board "))
    if number == 1:
        return no_board(line)
    if number == 2:
        try:
            if first and plain.NAMED.match(line):
                plain.plain_call(plain.Board(first[len("board "):]), line)
            read_event(line)
        except Wrong as wrong:
            return wrong.at, wrong.text
    if number == 3:
        return MOST_BYTES, TOO_LONG
    return 0, faults.words_of("script")[number].partition(": ")[2]


def place(said, line_of):
    """Of what the program said: the number of the line, 0 for a board in the command line; that line; the place of the
    fault in it, the words, and the form that was expected, if it is of an event. Nothing where it told of no such fault.

    line_of(N) is line N of the script, or nothing where it is not known; of a board that stands in the
    command line, it is asked for line 0."""
    match = re.search(r"^(?:line (\d+): )?(script|board) fault (\d+)$", said, re.M)
    number = int(match[1] or 0) if match else 0
    line = line_of(number) if match else None
    if line is None:
        return None
    found = place_of(match[2], int(match[3]), line, line_of(1)) if number else \
        (0, "leave out 'board': what stands behind it is the board") if line.startswith("board ") else \
        boards.fault(int(match[3]), line)
    word = line.partition(" ")[0].lower()
    is_event = match[2] == "script" and match[3] == "2" and word in EVENTS
    return (number, line, *found, plain.form_of(line) or FORMS.get(word, f"{word} CORE") if is_event else None)


def words(said, line_of):
    """The lines that say in words what the program said; none where it told of no such fault."""
    found = place(said, line_of)
    if found is None:
        return []
    number, line, at, why, form = found
    lines = [f"psci: {f'line {number}' if number else 'the board'}, column {at + 1}: {why}", *pointed(line, at)]
    return lines + [f"psci: expected `{form}`"] * bool(form)
