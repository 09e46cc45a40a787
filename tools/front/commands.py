"""The commands of ./psci: those of the program, and its own."""
import os
import subprocess
import sys

import repo
from views import window

from . import interrupts, machine_runs, plain, running, scripts, storms, words
from .programs import REPLAYER, WHOLE, Progress, Stopped, built, is_current, kit, say, unproved
from .running import write

# the options of show that tools/show answers
VIEWS = ("first", "last", "cores", "clock", "changes", "trace", "vcd", "script")


class Front:
    """The commands, over the programs that are there."""

    def __init__(self, is_unproved=False):
        self.is_unproved = is_unproved

    def has(self, name):
        """Whether this program is proved, as its sources are now, and is to be used."""
        return not self.is_unproved and is_current(name)

    def program(self, name=WHOLE):
        """The program to run: the whole one if it is proved, else this one, unproved if need be."""
        found = next((it for it in (WHOLE, name) if self.has(it)), None)
        return built(found) if found else unproved(name)

    # ---- the program's commands

    def replay(self, given):
        asked = words.replay().read(given)
        script = running.opened(asked.file)
        if asked.machine:
            machine = machine_runs.machine_in(asked.machine)
            return machine_runs.run(self.program(REPLAYER), machine, script)
        return running.run(self.program(REPLAYER), ["replay"], script)

    def show(self, given):
        asked = words.show().read(given)
        script = running.opened(asked.file)
        default = words.show().read([])
        if any(getattr(asked, it) != getattr(default, it) for it in VIEWS):
            return self.viewed("show", asked, script)
        script, status = self.plain_of(asked.machine, script)
        return running.run(self.program(), ["show", *terminal_words(asked), *flags(asked, "json", "legend")],
                           script, looks=True) or status

    def plain_of(self, path, script):
        """A script in the words of the machine that this file describes, made plain, and the status of that."""
        if path is None:
            return script, 0
        machine, file = machine_runs.machine_in(path), os.memfd_create("plain")
        with os.fdopen(os.dup(file), "wb") as out:
            status = machine_runs.run(self.program(REPLAYER), machine, script, out)
        os.lseek(file, 0, os.SEEK_SET)
        return file, status

    def storm(self, given):
        asked = words.storm().read(given)
        if asked.seeds:
            return storms.run(self.program, asked.seeds, asked.board, asked.count)
        return self.drawn("storm", asked)

    def threads(self, given):
        return self.drawn("threads", words.threads().read(given))

    def drawn(self, name, asked):
        """A storm or threads: a board in the words may be at fault, or the file that is to be kept."""
        program, words_of = self.program(), [name, *values(asked, "board", "seed")]
        guess = running.Guess(program, words_of, asked.count) if name == "threads" else None
        return running.run(program, [*words_of, *values(asked, "count", "keep"), *flags(asked, "counts")], None,
                           board=asked.board, keep=asked.keep, guess=guess)

    # ---- views

    def viewed(self, tool, asked, script):
        """What a tool makes of the rows of a run."""
        script, made = self.plain_of(asked.machine, script)
        program = self.program()
        read, write_end = os.pipe()
        view = subprocess.Popen([f"{repo.TOP}/tools/{tool}", *view_words(tool, asked)], stdin=read,
                                preexec_fn=interrupts.hold)
        os.close(read)
        status = running.run(program, ["show", "--json"], script, output=os.fdopen(write_end, "wb"))
        seen = running.ended(view)
        # a view that ends early lets the program's rows unread
        return seen if status == 4 and seen else status or made or seen

    def draw(self, given):
        asked = words.draw().read(given)
        return self.viewed("draw", asked, running.opened(asked.file))

    def serve(self, given):
        asked = words.serve().read(given)
        os.close(running.opened(asked.file)) if asked.file else None
        file = ["--", asked.file] if asked.file else []
        program = self.program()
        interrupts.hold()
        os.execv(f"{repo.TOP}/tools/try", ["try", "--program", program, f"--port={asked.port}", *file])

    def compare(self, given):
        unproved_too = ["--unproved"] if self.is_unproved else []
        interrupts.hold()
        os.execv(f"{repo.TOP}/tools/compare", ["compare", *unproved_too, *given])

    def sweep(self, given):
        from sweep import command
        return command.main(given, self.program)

    # ---- what is here alone

    def plain(self, given):
        """Makes a script by name a plain one."""
        asked = words.plain().read(given)
        script = running.opened(asked.file)
        if asked.machine:
            machine = machine_runs.machine_in(asked.machine)
            return machine_runs.run(self.program(REPLAYER), machine, script, sys.stdout.buffer)
        text = running.text_of(script)
        lines = Progress().over(scripts.lines(text, plain.plain_call), text.count("\n") + 1)
        try:
            return write("\n".join(lines))
        except scripts.Fault as fault:
            raise Stopped("\n".join(fault.lines), 3) from fault

    def prove(self, given):
        """Proves and builds the program that replays, or the whole one, if it is not there; or the C
        library, in any case."""
        asked = words.prove().read(given)
        if asked.what == "lib":
            made, ending = ("compiled, and not proved", "-unproved") if asked.unproved else ("built", "")
            return self.by_prover(["lib", *values(asked, "target"), *flags(asked, "unproved")],
                                  f"{made}; the library is in out/lib/{asked.target or 'x86_64'}{ending}")
        name = WHOLE if asked.what else REPLAYER
        if is_current(name):
            return 0
        which, minutes = ("the whole program", "about 13") if asked.what else ("the program of replay", "about 7")
        say(f"proving {which}: from nothing {minutes} minutes on four processors")
        return self.by_prover([name], "built; ./psci runs it from now on")

    @staticmethod
    def by_prover(asked, done):
        kit()
        status = running.ended(subprocess.Popen([f"{repo.TOP}/tools/prove", *asked], preexec_fn=interrupts.hold))
        if not status:
            say(done)
        return status

    def run(self, given, before=()):
        """Runs the command that these words name, behind those before."""
        first, rest = given[0] if given else None, given[1:]
        if first in ("--version", "-V"):
            return write(f"psci {words.version()}\n")
        if first in ("--help", "-h") or (first == "help" and rest[:1] in ([], ["help"], ["--help"], ["-h"])):
            return write(words.help_text())
        if first == "help":
            return self.run([rest[0], "--help"], ("help",)) if rest[0] in words.COMMANDS else \
                words.no_command([*before, *given], len(before) + 1)
        if first not in words.COMMANDS:
            return words.no_command([*before, *given], len(before))
        return getattr(self, {"try": "serve"}.get(first, first))(rest)


# ---- words for the program and the tools

def values(asked, *names):
    """The options of these names, as far as they were given."""
    return [f"--{it}={getattr(asked, it)}" for it in names if getattr(asked, it) is not None]


def flags(asked, *names):
    return [f"--{it}" for it in names if getattr(asked, it)]


def terminal_words(asked):
    """How wide lines are and whether letters are colored, which the program cannot see: on a terminal as that is,
    unless NO_COLOR is set or the terminal knows no colors."""
    width, color = asked.width, asked.color
    is_terminal = os.isatty(1)
    if width is None and is_terminal:
        width = os.get_terminal_size(1).columns or None
    if color == "auto":
        is_dull = os.environ.get("NO_COLOR") or os.environ.get("TERM") == "dumb"
        color = "always" if is_terminal and not is_dull else "never"
    return [*([f"--width={width}"] if width is not None else []), f"--color={color}"]


def view_words(tool, asked):
    """The words of tools/show and tools/draw."""
    part = [f"--from={asked.first}", f"--to={asked.last}" if asked.last != window.LARGEST else "",
            f"--cores={','.join(map(str, sorted(asked.cores)))}" if asked.cores else ""]
    more = [*terminal_words(asked), *flags(asked, "json", "changes", "script", "trace", "vcd")] if tool == "show" else \
        flags(asked, "page")
    return [*filter(None, part), *values(asked, "clock"), *more]


def main(given):
    """Runs ./psci with these words, and ends with its status."""
    running.open_streams()
    interrupts.heed()
    try:
        is_unproved = given[:1] == ["--unproved"]
        sys.exit(Front(is_unproved).run(given[is_unproved:], given[:is_unproved]))
    except Stopped as why:
        say(why.text)
        sys.exit(why.status)
    except OSError as fault:
        say(f"{fault.filename or 'read or write'}: {fault.strerror}")
        sys.exit(4)
