"""Storms: random events on each board, from each seed (docs/port/FORMATS.md, the lines of a storm)."""
import os
import re

from .. import sums
from . import Run, program

LINE = re.compile(rb"storm events ([0-9]+) sent ([0-9]+) (?:quiet [0-9]+|(halting))\n")


class Storm(program.Program):
    """A storm of each seed on each board."""
    NAME, LOOKED_AT = "storm", ("events", "event")

    @staticmethod
    def options(add):
        program.options(add, program.MOST_EVENTS)

    settings, gather = staticmethod(program.settings), staticmethod(program.gather)

    def runs(self, seed, room):
        for board, text in self.boards.items():
            yield Run(board, *self.storm(seed, board, text, f"{room}/script"))

    def storm(self, seed, board, text, script):
        """The numbers of a storm, and what differs in it."""
        words = ["storm", "--board", text, "--seed", str(seed), "--count", self.count, "--counts"]
        keeps = ["--keep", script] if self.is_held else []
        status, out, said = self.run(*words, *keeps)
        first, _, rest = out.partition(b"\n")
        line = LINE.fullmatch(first + b"\n")
        tallies = [it.rpartition(" ") for it in rest.decode(errors="replace").splitlines()]
        found = {f"{board}\truns": 1}
        what = None
        if status or not line or not all(number.isdigit() for _, _, number in tallies):
            what = f"status {status}: {said or first.decode(errors='replace')}"
        else:
            found.update({f"{board}\tevents": int(line[1]), f"{board}\tmessages": int(line[2]),
                          f"{board}\thalting": int(bool(line[3])), sums.LINES: sums.of_line(seed, board, out)})
            found.update({f"{board}\tcame {name}": int(number) for name, _, number in tallies})
            what = self.against_model(script) if self.is_held else None
        if what is None:
            return found, []
        if not self.is_held and len(text.encode()) <= program.MOST_OF_BOARD:
            self.run(*words, "--keep", script)
        kept = program.files(script, what, program.shown(words))
        if os.path.exists(script):
            os.unlink(script)
        return found, [(what, kept)]

    @staticmethod
    def lines(settings, found):
        return program.lines(settings, found, ("events", "messages", "halting"))
