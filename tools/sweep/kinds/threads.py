"""Runs of core threads, of each seed on each board: their calls are the seed's, their order the machine's."""
import os
import re

from . import Run, program

LINE = re.compile(rb"threads firmware ([0-9]+) controller ([0-9]+) audited ([0-9]+)\n")
CORE = re.compile(r"core [0-9]+ calls ([0-9]+) entries ([0-9]+) polls ([0-9]+)")
NUMBERS = ("calls", "entries", "polls", "firmware", "controller", "audited")


class Threads(program.Program):
    """A run of threads of each seed on each board, audited."""
    NAME, LOOKED_AT = "threads", ("audited", "audited entry")

    @staticmethod
    def options(add):
        program.options(add, 200)

    settings, gather = staticmethod(program.settings), staticmethod(program.gather)

    def runs(self, seed, room):
        for board, text in self.boards.items():
            script = f"{room}/script"
            words = ["threads", "--board", text, "--seed", str(seed), "--count", self.count, "--counts"]
            can_keep = len(text.encode()) <= program.MOST_OF_BOARD
            ran = self.run(*words, *(["--keep", script] if can_keep else []))
            numbers, what = self.looked_at(*ran)
            if what is None and can_keep:
                tallies, what = program.came(script, *self.answers(script))
                numbers.update(tallies)
            if what is None and self.is_held:
                what = self.against_model(script)
            kept = [(what, program.files(script, what, program.shown(words), ran[2]))] if what else []
            if os.path.exists(script):
                os.unlink(script)
            yield Run(board, {f"{board}\t{name}": number for name, number in numbers.items()}, kept)

    @staticmethod
    def looked_at(status, out, said):
        """The numbers of a run, and what is wrong with it."""
        first, _, rest = out.partition(b"\n")
        line, cores = LINE.fullmatch(first + b"\n"), CORE.findall(rest.decode(errors="replace"))
        if status or not line or len(cores) != rest.count(b"\n"):
            return {"runs": 1}, f"status {status}: {said or first.decode(errors='replace')}"
        books = [int(it) for it in line.groups()]
        sums = [sum(map(int, column)) for column in zip(*cores)]
        what = None if books[0] + books[1] == books[2] else "not every entry of both books was audited"
        return {"runs": 1, **dict(zip(NUMBERS, sums + books))}, what

    @staticmethod
    def lines(settings, found):
        return program.lines(settings, found, NUMBERS)
