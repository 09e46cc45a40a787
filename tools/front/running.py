"""Runs the program on a script, and says in words which fault it named."""
import errno
import fcntl
import mmap
import os
import re
import select
import signal
import stat
import subprocess
import sys
import tempfile
import time

from . import told
from .programs import Progress, Stopped, complain, say
from .scripts import NAMED, Names

# behind the board a line that is neither empty nor a comment
EVENT = re.compile(rb"\n[a-z]")
# how many of the last bytes that came by a pipe are kept, to tell of a line
KEPT = 1 << 20


class Script:
    """The script that a program reads, by a file or by a pipe. A file without names the program reads itself."""

    def __init__(self, file):
        self.file, self.gone, self.last, self.names, self.had_event = file, 0, b"", Names(), False
        try:
            mode = 0 if file is None else os.fstat(file).st_mode
        except OSError:
            mode = 0
        self.is_file = stat.S_ISREG(mode)
        self.start = os.lseek(file, 0, os.SEEK_CUR) if self.is_file else 0
        self.comes_by = stat.S_ISFIFO(mode) or stat.S_ISSOCK(mode) or (mode and os.isatty(file)) or self.has_names()

    def source(self):
        """What the program has for its standard input."""
        if self.file is None:
            return subprocess.DEVNULL
        return subprocess.PIPE if self.comes_by else self.file or None

    def has_names(self):
        """Whether this is a file with calls by name."""
        if not self.is_file or os.fstat(self.file).st_size <= self.start:
            return False
        with mmap.mmap(self.file, 0, access=mmap.ACCESS_READ) as text:
            return NAMED.search(text, self.start) is not None

    def feed(self, process):
        """Hands what comes on to the program, with its calls plain, until one of them ends."""
        with Progress(is_silent=False) as progress:
            while process.poll() is None:
                self.look(progress)
                if not select.select([self.file], [], [], 0.05)[0]:
                    continue
                some = os.read(self.file, 1 << 16)
                self.keep(some)
                try:
                    process.stdin.write(self.names.plain(some))
                except OSError:
                    break
                if not some:
                    break
        try:
            process.stdin.close()
        except OSError:
            pass

    def watch(self, process, guess=None):
        """Waits for a program that reads the file itself, or none, and says how far it is."""
        with Progress(guess.what if guess else "the script", is_silent=False) as progress:
            while progress.is_heard and process.poll() is None:
                progress.tell(guess.part(progress.begun)) if guess else self.look(progress)
                time.sleep(0.05)

    def look(self, progress):
        """Says how much of a file was read: the program reads on where this does."""
        size = os.fstat(self.file).st_size - self.start if self.is_file else 0
        progress.tell((os.lseek(self.file, 0, os.SEEK_CUR) - self.start) / size if size else 0)

    def keep(self, some):
        """Keeps the last bytes that came."""
        whole = self.last + some
        self.had_event = self.had_event or EVENT.search(whole, max(len(self.last) - 1, 0)) is not None
        cut = max(len(whole) - KEPT, 0)
        self.gone += whole[:cut].count(b"\n")
        self.last = whole[cut:]

    def has_event(self):
        """Whether there is an event in it, once it was read to its end."""
        if not self.is_file or os.fstat(self.file).st_size <= self.start:
            return self.had_event
        with mmap.mmap(self.file, 0, access=mmap.ACCESS_READ) as text:
            return EVENT.search(text, self.start) is not None

    def line(self, number):
        """A line of the script, or nothing where it is not known any more."""
        text = self.last
        if number == 1 and self.gone:
            return self.names.first.partition(b"\n")[0].decode(errors="replace")
        if self.is_file:
            os.lseek(self.file, self.start, os.SEEK_SET)
            with os.fdopen(os.dup(self.file), "rb") as file:
                text = file.read()
        lines = text.split(b"\n")
        at = number - 1 - self.gone
        if not 0 <= at < len(lines) or (at == 0 and self.gone):
            return None
        return lines[at].decode(errors="replace")


class Guess:
    """How far a run of threads is, which says nothing before its end: by the time that a part of its calls takes."""
    what, PARTS = "the calls", 20

    def __init__(self, program, words, count):
        self.command, self.program, self.whole = ["psci", *words, f"--count={count // self.PARTS}"], program, 0.0

    def part(self, begun):
        """How much of it may be done. What takes no second is not guessed."""
        if not self.whole and time.time() - begun > 1:
            now = time.time()
            subprocess.run(self.command, executable=self.program, stdin=subprocess.DEVNULL, stdout=subprocess.DEVNULL,
                           stderr=subprocess.DEVNULL, check=False)
            self.whole = self.PARTS * (time.time() - now)
        return min((time.time() - begun) / self.whole, 0.99) if self.whole else 0


def opened(path):
    """The script of this name; standard input without one, or where it is -."""
    if path in (None, "-"):
        return 0
    try:
        if os.path.isdir(path):
            raise IsADirectoryError(errno.EISDIR, os.strerror(errno.EISDIR))
        return os.open(path, os.O_RDONLY)
    except OSError as fault:
        raise Stopped(f"cannot read {path}: {fault.strerror}", 4) from fault


def text_of(file):
    """All that a file has, whose bytes may be of any kind."""
    try:
        # piece by piece: within one long reading Python does not hear Ctrl-C
        return b"".join(iter(lambda: os.read(file, 1 << 20), b"")).decode(errors="surrogateescape")
    except OSError as fault:
        raise Stopped(f"cannot read the script: {fault.strerror}", 4) from fault


def ended(process, was_interrupted=False):
    """The status of a program that has ended, as a shell has it. Ctrl-C is the program's, whose status may be lost by
    that."""
    while True:
        try:
            status = process.wait()
            return 128 - status if status < 0 else status or (128 + signal.SIGINT) * was_interrupted
        except KeyboardInterrupt:
            was_interrupted = True


def run(program, words, file=0, output=None, board=None, keep=None, looks=False, guess=None):
    """Runs the program with these words on the script of this file, if there is one; its status. Where it names a
    fault, of the script or of a board in the words, its own line comes first. One that looks at a run has to find an
    event there. A guess says how far it is where nothing else does."""
    script = Script(file)
    if script.comes_by and os.isatty(script.file):
        say("reading the script from the terminal; Ctrl-D ends it")
    with tempfile.TemporaryFile() as said:
        process = subprocess.Popen(["psci", *words], executable=program, stdout=output, stderr=said, bufsize=0,
                                   stdin=script.source())
        if output is not None:
            output.close()
        was_interrupted = False
        try:
            if script.comes_by:
                script.feed(process)
            else:
                script.watch(process, guess)
        except KeyboardInterrupt:
            was_interrupted = True
        status = ended(process, was_interrupted)
        said.seek(0)
        text = said.read()
    if status == 4 and text == b"write fault\n":
        # who reads rows that a tool makes a view of says itself why it ended
        return not_written(keep) if output is None else 4
    tell(text, lambda number: script.line(number) if number else board)
    if looks and status == 0 and not script.has_event():
        return nothing_there(words[0])
    return status


# the status where nothing was there to look at
NOTHING = 7


def nothing_there(name):
    """Says that there was nothing to look at; the status."""
    complain(f"psci {name}: there is no event in this part of the run\n")
    return NOTHING


def tell(text, line_of):
    """Writes what the program said, and what its fault is in words."""
    complain(text)
    complain("".join(f"{line}\n" for line in told.words(text.decode(errors="replace"), line_of)))


# ---- what is not written

def write(text):
    """Writes on standard output; the status, which tells of a write fault."""
    rest = text.encode(errors="surrogateescape")
    try:
        while rest:
            rest = rest[os.write(1, rest):]
        return 0
    except OSError as fault:
        return not_written(fault=fault)


def not_written(keep=None, fault=None):
    """Says which file is not written, and why, as far as that is known; the status. A pipe that nobody reads any more
    is no fault."""
    name, why = place_of(1), getattr(fault, "strerror", None) or reason(1)
    is_closed = isinstance(fault, BrokenPipeError) if fault else is_unread(1)
    if fault:
        # what is still to be written goes nowhere
        os.dup2(os.open(os.devnull, os.O_WRONLY), 1)
    if is_closed:
        return 128 + signal.SIGPIPE
    if keep is not None and why is None:
        name, why = f"--keep {keep}", reason_of(keep)
    complain(f"write fault\npsci: {name} was not written completely: {why or 'the file takes no more'}\n")
    return 4


def open_streams():
    """Fills the places of streams that are closed with such as cannot be read or written: a file that is opened later
    would stand there."""
    for file, how in ((0, os.O_WRONLY), (1, os.O_RDONLY), (2, os.O_WRONLY)):
        try:
            os.fstat(file)
        except OSError:
            os.open(os.devnull, how)
    sys.stdout = sys.stdout or os.fdopen(1, "w", closefd=False)


def is_unread(file):
    """Whether this is a pipe that nobody reads."""
    poll = select.poll()
    poll.register(file, select.POLLOUT)
    return any(event & select.POLLERR for _, event in poll.poll(0))


def place_of(file):
    """The name of an open file."""
    try:
        name = os.readlink(f"/proc/self/fd/{file}")
        return name if name.startswith("/") and name != os.devnull else "standard output"
    except OSError:
        return "standard output"


def reason(file):
    """Why an open file cannot be written, if one sees that."""
    try:
        if fcntl.fcntl(file, fcntl.F_GETFL) & os.O_ACCMODE == os.O_RDONLY:
            return os.strerror(errno.EBADF)
        found = os.fstat(file)
        # a pipe has no room of its own, and is not full
        is_full = found.st_rdev == os.makedev(1, 7) or stat.S_ISREG(found.st_mode) and not os.fstatvfs(file).f_bavail
        return os.strerror(errno.ENOSPC) if is_full else None
    except OSError as fault:
        return fault.strerror


def reason_of(path):
    """Why a file cannot be written, if one sees that."""
    try:
        file = os.open(path, os.O_WRONLY)
    except OSError as fault:
        return fault.strerror
    try:
        return reason(file)
    finally:
        os.close(file)
