"""Runs the program on a script in the words of a machine: ./psci replay --machine FILE.

Each line is translated as it comes, since which states can be asked for depends on the suspend mode,
which the answers before it say. The script has the lines that docs/port/FORMATS.md has, but its calls are the
machine's; a core may be named by its MPIDR, in hexadecimal, and a function by its name. In decimal it has
the firmware's number, which is 0 of the boot core.
"""
import os
import re
import subprocess
import sys
import tempfile

from . import plain, told
from .machine_calls import PLATFORM, function_of, translated
from .programs import Progress, Stopped, complain
from .machine_faults import checked
from .machine_swap import other_core
from .machines import Fault
from .reader import Wrong, pointed
from .running import Script, ended, not_written, tell

CORE_EVENTS = ("call", "enter", "wake", "reset")


def machine_in(path):
    """The machine of a file; raises why there is none, with the status."""
    try:
        # lines end with LF alone
        with open(path, encoding="ascii", errors="replace", newline="\n") as file:
            text = file.read()
    except OSError as fault:
        raise Stopped(f"cannot read {path}: {fault.strerror}", 4) from fault
    try:
        return checked(text)
    except Fault as fault:
        complain("\n".join(fault.lines(path, text)) + "\n")
        sys.exit(3)


class Words:
    """A line of the script whose words are replaced, and where what stands behind them stood."""

    def __init__(self, line):
        self.line, self.moved = line, []

    def replace(self, match, group, word):
        start, end = match.span(group)
        self.line = self.line[:start] + word + self.line[end:]
        self.moved.append((start + len(word), end - start - len(word)))

    def place(self, at):
        """Where a place of the line was before its words were replaced."""
        for end, by in reversed(self.moved):
            at += by if at >= end else 0
        return at


class Translator:
    """The words of a machine, and the suspend mode of the firmware, as the answers say it."""

    def __init__(self, machine):
        self.machine, self.mode = machine, PLATFORM
        # messages by which the system goes off or is reset, and what the call that is asked names
        self.halts, self.asked = set(), None

    # ---- a line of the script

    def line(self, number, line):
        """The plain line of a line of the script; raises where it is faulty."""
        self.asked = None
        if number == 1:
            if line.startswith("board ") and line[len("board "):] != self.machine.text:
                raise Wrong(len("board "), "this is not the board of the machine's text")
            return line
        words = Words(line)
        self.named_core(words)
        match = re.match(r"call \S+ ([A-Za-z][^ ]*)", words.line)
        if match:
            word = plain.called(match[1], words.place(match.start(1)))
            words.replace(match, 1, f"0x{word:X}")
        try:
            told.read_event(words.line)
        except Wrong as wrong:
            raise Wrong(words.place(wrong.at), wrong.text) from wrong
        return self.call(words.line) if words.line.startswith("call ") else words.line

    def core(self, mpidr):
        """The firmware's number of the core with this MPIDR, or nothing."""
        found = self.machine.mpidrs
        return other_core(self.machine, found.index(mpidr)) if mpidr in found else None

    def named_core(self, words):
        """A core that is named by its MPIDR."""
        match = re.match(rf"(?:{'|'.join(CORE_EVENTS)}) (0x[0-9a-fA-F]{{1,16}})(?= |$)", words.line)
        if not match:
            return
        core = self.core(int(match[1], 16))
        if core is None:
            raise Wrong(match.start(1), f"no core of the machine has the MPIDR {match[1]}")
        words.replace(match, 1, str(core))

    def call(self, line):
        """The plain call, whose registers are those that the firmware is called with."""
        given = line.split(" ")[2:]
        regs = [int(it, 0) for it in given] + [0] * (4 - len(given))
        changed, self.asked = translated(self.machine, self.mode, regs)
        said = [it if int(it, 0) == new else f"{new:#x}" for it, new in zip(given, changed)]
        more = [f"{new:#x}" for new in changed[len(given):]]
        while more and more[-1] == "0x0":
            more.pop()
        return " ".join([*line.split(" ")[:2], *said, *more])

    # ---- an answer

    def heed(self, line, answer):
        """Keeps what the answer of a plain line says of the mode."""
        match = re.search(r"#(\d+) (off|reset) ", answer)
        if match:
            self.halts.add(int(match[1]))
        words = line.split(" ")
        if words[0] == "call" and function_of(int(words[2], 0)) == "set_suspend_mode":
            if answer.split(" ")[1:] == ["return", "0"]:
                self.mode = int(words[3], 0) % 2 ** 32 if words[3:] else PLATFORM
        if words[0] == "deliver" and int(words[1]) in self.halts and " applied 1" in answer:
            self.mode = PLATFORM

    def answer(self, answer):
        """An answer in the machine's words: the MPIDR of a core, and which states or which reset of
        the vendor a stop is of."""
        def named(match):
            return f"{match[1]}{self.machine.mpidrs[other_core(self.machine, int(match[2]))]:#x}"

        said = re.sub(r"(#\d+ (?:down|start|off|reset) )(\d+)", named, answer)
        if self.asked is None or not re.match(r"\d+ stop #", said):
            return said
        if isinstance(self.asked, int):
            asked = f"reset {self.asked:#x}"
        else:
            asked = "states " + " ".join(map(str, self.asked[:self.machine.height + 1]))
        return said.replace(" stop ", f" stop {asked} ", 1)


class Run:
    """A run of the program, fed line by line."""

    def __init__(self, program, machine, out, is_plain):
        self.translator, self.is_plain, self.last, self.fault = Translator(machine), is_plain, "", None
        self.out = out
        self.said = tempfile.TemporaryFile()
        self.process = subprocess.Popen(["psci", "replay"], executable=program, stdin=subprocess.PIPE,
                                        stdout=subprocess.PIPE, stderr=self.said)

    def feed(self, number, line):
        """Whether the run goes on behind this line."""
        self.last = line
        try:
            text = self.translator.line(number, line)
        except Wrong as wrong:
            self.fault = [f"line {number}: script fault {1 if number == 1 else 2}",
                          f"psci: line {number}, column {wrong.at + 1}: {wrong.text}",
                          *pointed(line, wrong.at)]
            return False
        try:
            self.process.stdin.write(f"{text}\n".encode("latin-1"))
            self.process.stdin.flush()
        except OSError:
            return False
        answer = ""
        if number > 1 and text and not text.startswith("#"):
            answer = self.process.stdout.readline().decode("latin-1").rstrip("\n")
            if not answer:
                return False
            self.translator.heed(text, answer)
        self.write(text if self.is_plain else answer and self.translator.answer(answer))
        return True

    def write(self, text):
        if text or self.is_plain:
            self.out.write(f"{text}\n".encode("latin-1"))
            self.out.flush()

    def end(self):
        """The status, once what was wrong is told."""
        try:
            self.process.stdin.close()
        except OSError:
            pass
        self.process.stdout.read()
        status = ended(self.process)
        if self.fault:
            # the program had the lines before it, and may miss the first one
            complain("\n".join(self.fault) + "\n")
            return 3
        self.said.seek(0)
        tell(self.said.read(), lambda number: self.last)
        return status


def run(program, machine, file, out=None):
    """Answers the script of this file in the machine's words; or makes it plain, into a file. The status."""
    going = Run(program, machine, out or sys.stdout.buffer, out is not None)
    script, progress = Script(file), Progress(is_silent=False)
    try:
        with os.fdopen(os.dup(file), "rb") as lines:
            for number, line in enumerate(lines, 1):
                script.look(progress)
                if not going.feed(number, line.rstrip(b"\n").decode("latin-1")):
                    break
    except OSError as fault:
        going.process.kill()
        going.process.wait()
        return not_written(fault=fault)
    finally:
        progress.end()
    return going.end()
