"""The words of ./psci: what each command takes, its help, and what is said of a word that is at fault.

One parser reads them all, also those of the tools that ./psci calls. What is wrong is said as of a script: which
word, the line with a caret below it, what was expected and what to do.
"""
import argparse
import re
import shlex
import sys
import textwrap

import repo
from views import window

from .programs import complain
from .reader import near, pointed
from .running import write

BOARD = "(2 2) exec 0x40000000-0x40100000 boot 0x40000000 starts 1000 lives 3"
STATUS = """Exit status: 0 done, 1 not proved or not run, 2 wrong command line, 3 wrong script, record or machine,
4 read or write failed, 5 out of memory, 6 threads at fault, or a port or seed differs,
7 undecided, unfinished or no event
"""
MINUTES = "Times are for a first run on four processors with 3 GiB each."
COMMAND_FAULT = 2
# how argparse begins to tell which words are not there
REQUIRED = "the following arguments are required: "
# what a board's text has at most, so that `board TEXT` is a line of a script
MOST_OF_BOARD = 250


def fault(words, at, why, expected):
    """Ends with what is wrong with a word, counted from 0, of a command line."""
    line, place = "psci", 0
    for number, word in enumerate(words):
        place = len(line) + 1 if number == at else place
        line += " " + shlex.quote(word)
    place = place or len(line) + 1
    complain("\n".join([f"psci: word {at + 1}: {why}", *pointed(line, place), f"psci: expected {expected}", ""]))
    sys.exit(COMMAND_FAULT)


class Once(argparse.Action):
    """An option that stands there once; a flag, where it takes no value."""

    def __call__(self, parser, found, values, option_string=None):
        seen = found.__dict__.setdefault("seen", set())
        if self.dest in seen and not parser.may_repeat:
            raise argparse.ArgumentError(self, "is given twice")
        seen.add(self.dest)
        setattr(found, self.dest, True if self.nargs == 0 else values)


class Words(argparse.ArgumentParser):
    """What a command takes, behind what was typed before its words."""

    def __init__(self, name, about, form, more="", may_repeat=False):
        super().__init__(prog=f"psci {name}", add_help=False, allow_abbrev=False, exit_on_error=False)
        self.name, self.words, self.actions, self.rules = name, [], [], []
        # options of which one has to stand there
        self.either = ()
        # whether the last one counts of an option that stands there several times
        self.may_repeat = may_repeat
        self.about, self.form, self.more = about, f"psci {name} {form}", f"{more}\n" if more else ""
        for name in (None, "store"):
            self.register("action", name, Once)
        self.flag("--help", "-h", help="print this")

    def add_argument(self, *names, **how):
        action = super().add_argument(*names, **how)
        self.actions.append(action)
        return action

    def flag(self, *names, **how):
        """An option without a value."""
        self.add_argument(*names, action=Once, nargs=0, default=False, **how)

    def help_text(self):
        """What --help prints."""
        rows = [(", ".join(it.option_strings) or it.metavar, it) for it in self.actions if it.help != argparse.SUPPRESS]
        rows = [(f"{name} {it.metavar}" if it.option_strings and it.metavar else name, it.help) for name, it in rows]
        wide = max(len(name) for name, _ in rows)
        lines = [textwrap.fill(text or "", 100, initial_indent=f"  {name:{wide}}  ", subsequent_indent=" " * (wide + 4))
                 for name, text in sorted(rows, key=lambda row: row[0].startswith("-"))]
        return f"{self.about}\n\nUsage: {self.form}\n\n" + "\n".join(lines) + f"\n\n{self.more}{STATUS}"

    def rule(self, is_broken, option, why):
        """What may not be of the values of the words; the option stands where it is told, or the words end there."""
        self.rules.append((is_broken, option, why))

    def read(self, words):
        """The values of these words; ends with help where they ask for it, and at the first fault."""
        self.words = list(words)
        before = self.words[:self.words.index("--")] if "--" in self.words else self.words
        if {"-h", "--help"} & set(before):
            sys.exit(write(self.help_text()))
        joined = self.joined(before)
        known = [it for action in self.actions for it in action.option_strings]
        unknown = [it for it in joined if re.match("-[^-0-9]|--.", it) and it.partition("=")[0] not in known]
        if unknown:
            self.no_option(unknown[0], known)
        try:
            found, more = self.parse_known_args([*joined, *self.words[len(before):]])
        except argparse.ArgumentError as wrong:
            self.wrong_value(wrong)
        if self.lacking():
            self.error("")
        for word in more:
            if word != "--":
                self.fault(self.place(word), f"one word too many: {shown(word)}")
        for is_broken, option, why in self.rules:
            if is_broken(found):
                at = self.place(option)
                self.fault(at if at >= 0 else len(self.words), f"{option} {why(found) if callable(why) else why}")
        return found

    def joined(self, words):
        """The words, of which an option that takes any text has that behind =, also where the text begins with -."""
        texts, made = [it for action in self.actions if action.metavar == "TEXT" for it in action.option_strings], []
        for word in words:
            if made and made[-1] in texts:
                made[-1] += f"={word}"
            else:
                made.append(word)
        return made

    def fault(self, at, why, expected=None):
        name = self.name.split()
        fault([*name, *self.words], at + len(name), why,
              f"{expected or f'`{self.form}`'}; see `psci {self.name} --help`")

    def place(self, word):
        """The last word that is this one, or begins with this one and =."""
        return max((at for at, it in enumerate(self.words) if it == word or it.startswith(f"{word}=")), default=-1)

    def wrong_value(self, wrong):
        """An option without a value, or with a wrong one."""
        names = (wrong.argument_name or "").split("/")
        name, at = max(((it, self.place(it)) for it in names), key=lambda it: it[1])
        why = wrong.message
        if REQUIRED in why:
            # what argparse told by `error` before Python 3.13
            self.error(why)
        if why.startswith("expected "):
            self.fault(at + 1, f"{name} needs a value")
        if why.startswith("ignored explicit argument"):
            self.fault(at, f"{name} takes no value")
        why = why.replace("not allowed with argument", "does not go with")
        if at < 0:
            self.fault(next((it for it, word in enumerate(self.words) if why.startswith(shown(word))), 0), why)
        is_value = "=" not in self.words[at] and "; expected" in why
        self.fault(at + is_value, f"{name}{':' if '; expected' in why else ''} {why}")

    def no_option(self, word, known):
        """An option that there is not."""
        at = self.words.index(word)
        if word == "--unproved":
            self.fault(at, "--unproved goes before the command", "`psci --unproved " + self.name + " ..`")
        name = word.partition("=")[0]
        like = near(name, [it for it in known if it.startswith("--")])
        tip = f": did you mean {like[0]}?" if like else ""
        self.fault(at, f"{self.name} has no option {shown(name)}{tip}")

    def lacking(self):
        """The options of which one has to stand there, in a list, where none does."""
        is_there = not self.either or any(self.place(it) >= 0 for it in self.either)
        return [] if is_there else [f"{self.either[0]} (or {self.either[1]})"]

    def error(self, message):
        """What is found in the end: words that are not there, or two that do not go together."""
        missing = [*self.lacking(), *filter(None, message.partition(REQUIRED)[2].split(", "))]
        self.fault(len(self.words), f"missing {' and '.join(missing)}" if missing else message)


def shown(word):
    """A word in what is said of it."""
    return "'" + re.sub(r"[^ -~]", "?", word) + "'"


# ---- values

def number(low, high):
    """A number in decimal, as it was typed."""
    def read(text):
        if not re.fullmatch(r"\+?[0-9]{1,40}", text) or not low <= int(text) <= high:
            raise argparse.ArgumentTypeError(f"{shown(text)}; expected a number from {low} to {high}")
        return int(text)
    return read


def one_of(*names):
    def read(text):
        if text not in names:
            like = near(text, names)
            raise argparse.ArgumentTypeError(f"{shown(text)}; expected {', '.join(names[:-1])} or {names[-1]}"
                                             + (f": did you mean {like[0]}?" if like else ""))
        return text
    read.names = names
    return read


def seeds(text):
    """The first and the last one of a range of seeds."""
    match = re.fullmatch(r"([0-9]{1,18})\.\.([0-9]{1,18})", text)
    if not match or int(match[1]) > int(match[2]):
        raise argparse.ArgumentTypeError(f"{shown(text)}; expected FIRST..LAST, the lower seed first, each of at most "
                                         "18 digits")
    return int(match[1]), int(match[2])


# ---- what the commands of scripts and runs take

def script(words, text="the script; standard input if left out or -"):
    words.add_argument("file", metavar="FILE", nargs="?", help=text)


def machine(words):
    words.add_argument("--machine", metavar="FILE",
                       help="read calls in the words of the machine that FILE describes (docs/port/BOARDS.md)")


def replay():
    words = Words("replay", "Answers each event of a script with a line.", "[--machine FILE] [FILE]",
                  "A script has its board in line 1, then events: `call CORE X0 ..`, or by name as\n"
                  "`call 0 CPU_ON 3 0x40001000 0x7`, `enter CORE`, `wake CORE`, `reset CORE`, `deliver K`,\n`take K`.\n\n"
                  "Example:\n"
                  f"  printf '%s\\n' 'board {BOARD}' \\\n"
                  "      'enter 0' 'call 0 PSCI_VERSION' | ./psci replay\nwrites\n"
                  "  1 enter 0x40000000 0x0\n  2 return 65537\n\ndocs/port/FORMATS.md has every line and name.\n")
    machine(words)
    script(words)
    return words


def storm_of(words, seeds_too):
    words.add_argument("--board", metavar="TEXT", help="the board; two clusters of two cores if left out")
    words.add_argument("--seed", metavar="N", type=number(0, 2 ** 64 - 1), required=not seeds_too,
                       help="the seed of all random choices, 0 to 18446744073709551615")
    words.add_argument("--count", metavar="N", type=number(0, 10000), required=True,
                       help="number of events, or of calls of each core, 0 to 10000")
    words.flag("--counts", help="print one more line for each tally, or for each core")
    words.add_argument("--keep", metavar="FILE", help="write the run to FILE, as a script")
    words.rule(lambda it: it.keep and it.board and len(it.board.encode(errors="replace")) > MOST_OF_BOARD, "--keep",
               lambda it: f"writes a script, whose board has at most {MOST_OF_BOARD} bytes: this has "
                          f"{len(it.board.encode())}")


def storm():
    words = Words("storm", "Makes random events on a board, then lets it settle. The same seed makes the same storm.",
                  "(--seed N | --seeds FIRST..LAST) --count N [--board TEXT] [--counts] [--keep FILE]")
    storm_of(words, seeds_too=True)
    words.add_argument("--seeds", metavar="FIRST..LAST", type=seeds,
                       help="make a storm of each seed, with a line for each")
    words.either = "--seed", "--seeds"
    for name in ("seed", "counts", "keep"):
        words.rule(lambda it, name=name: it.seeds and getattr(it, name) not in (None, False), f"--{name}",
                   "is for one storm, not for --seeds")
    return words


def threads():
    words = Words("threads", "Runs a thread for each core, and audits their calls.",
                  "--seed N --count N [--board TEXT] [--counts] [--keep FILE]")
    storm_of(words, seeds_too=False)
    return words


def view(words):
    """A part of a run, and when its events happened."""
    window.add_words(words)
    words.add_argument("--clock", metavar="FILE", help="the time of each event in nanoseconds, one line each")


def show():
    words = Words("show", "Shows the run of a script in words, with the state of each core and power domain.",
                  "[OPTIONS] [FILE]")
    forms = words.add_mutually_exclusive_group()
    for name, text in (("json", "print JSON: an object for the board, and one for each event"),
                       ("changes", "print only what each event changed"), ("script", "print the run as a script by name"),
                       ("trace", "print a JSON trace, for Perfetto or a browser's viewer"),
                       ("vcd", "print value changes, for wave viewers")):
        words.actions.append(forms.add_argument(f"--{name}", action=Once, nargs=0, default=False, help=text))
    words.flag("--legend", help="explain letters and marks first")
    words.add_argument("--width", metavar="COLUMNS", type=number(0, 65535), help="the width of lines, 0 to 65535; under 40 as 40")
    words.add_argument("--color", metavar="WHEN", type=one_of("auto", "always", "never"), default="auto",
                       help="auto (color on a terminal unless NO_COLOR is set), always or never")
    view(words)
    words.rule(lambda it: it.clock and not (it.trace or it.vcd), "--clock", "goes with --trace or --vcd")
    machine(words)
    script(words)
    return words


def draw():
    words = Words("draw", "Draws the run of a script as SVG, or as a page of HTML.", "[OPTIONS] [FILE] > PICTURE")
    words.flag("--page", help="make a page, to zoom, step and search in runs of any size")
    view(words)
    words.rule(lambda it: it.clock and not it.page, "--clock", "goes with --page")
    machine(words)
    script(words)
    return words


def serve():
    words = Words("try", "Serves a page on 127.0.0.1 that runs scripts as you type. Ctrl-C ends it.",
                  "[--port N] [FILE]")
    words.add_argument("--port", metavar="N", type=number(0, 65535), default=0,
                       help="the port of the page; any free one if left out")
    script(words, "the script to begin with")
    return words


def plain():
    words = Words("plain", "Turns the calls by name of a script into calls by register, line for line.",
                  "[--machine FILE] [FILE]",
                  "On a board (2 2) it turns `call 0 CPU_ON 3 0x40001000 0x7` into `call 0 0xC4000003 0x101 0x40001000 0x7`.\n"
                  "docs/port/FORMATS.md has every name.\n")
    machine(words)
    script(words)
    return words


def compare():
    words = Words("compare", "Compares the record of a port's run (docs/compare/RECORD.md) with the program.",
                  "[--quick] [--machine FILE] [--script FILE] RECORD",
                  "Judges a record of any firmware's calls, which has a line 'psci: head' (docs/compare/JUDGE.md):\n"
                  "see `psci compare --declare --help`.\n")
    words.flag("--quick", help="leave out the second model")
    machine(words)
    words.add_argument("--script", metavar="FILE", help="keep the run as a script, and the port's answers in FILE.out")
    words.add_argument("record", metavar="RECORD", help="the record of one run")
    return words


def prove():
    words = Words("prove", "Proves and builds what ./psci runs; proved crates are kept in ~/.cache/gumdarts.",
                  "[all | lib [--target MACHINE] [--unproved]]",
                  "prove        the program of replay: about 7 minutes\n"
                  "prove all    the program of every command: about 13 minutes\n"
                  "prove lib    the C library, into out/lib; with --unproved in a minute, marked as unproved\n\n"
                  f"{MINUTES}\n")
    words.add_argument("what", metavar="WHAT", nargs="?", type=one_of("all", "lib"),
                       help="all or lib; the program of replay if left out")
    words.add_argument("--target", metavar="MACHINE", type=one_of("x86_64", "aarch64"),
                       help="for lib: x86_64 or aarch64")
    words.flag("--unproved", help="for lib: compile it without a proof, into out/lib/MACHINE-unproved")
    words.rule(lambda it: it.target and it.what != "lib", "--target", "goes with lib")
    words.rule(lambda it: it.unproved and it.what != "lib", "--unproved", "goes with lib")
    return words


COMMANDS = {
    "replay": (replay, "answer a script, one line for each event"),
    "show": (show, "show its run in words, with the state of each core and power domain"),
    "draw": (draw, "draw its run, or with --page make a page of it"),
    "try": (serve, "serve a page on this machine that runs scripts as you type"),
    "plain": (plain, "turn calls by name, as `call 0 CPU_ON 3`, into calls by register"),
    "storm": (storm, "make random events, then let the board settle"),
    "threads": (threads, "run a thread for each core, and audit their calls"),
    "compare": (compare, "compare the record of a port's run with the program, or judge any firmware's calls"),
    "sweep": (None, "run many seeds, on all processors or on many machines"),
    "prove": (prove, "prove and build the program, or the C library"),
}
FIRST = ("help", "--help", "--version", "--unproved")


def help_text():
    """The help of ./psci."""
    rows = "".join(f"  {name:8} {text}\n" for name, (_, text) in COMMANDS.items())
    return ("Power firmware whose answers are proved: runs scripts of PSCI calls.\n\n"
            "Usage: psci [--unproved] COMMAND [OPTIONS] [FILE]\n\n"
            f"Commands:\n{rows}  help     print this, or the help of a command: psci help show\n\n"
            "Before a command:\n  --unproved    run an unproved program, even if a proved one is there\n"
            "  --version     print the version\n\n"
            "A script is read from FILE, or from standard input; its calls have registers or names.\n\n"
            f"{STATUS}")


def no_command(words, at):
    """Ends where a word is no command."""
    word, before = words[at] if at < len(words) else "", words[:at]
    names = (*COMMANDS, *FIRST) if "help" not in before else COMMANDS
    like = near(word, [it for it in names if it not in before and it.startswith("--") == word.startswith("--")])
    why = "missing command" if at == len(words) else f"{word} is given twice" if word in before else \
        f"{shown(word)} is not a command"
    fault(words, at, why + (f": did you mean {like[0]}?" if like else ""),
          f"a command: {', '.join(COMMANDS)}; see `psci --help`")


def version():
    """The version that the program names."""
    text = repo.text_of(f"{repo.TOP}/crates/psci_command/src/command_line.rt")
    return re.search(r'^const VERSION: &str = "(.*)";$', text, re.M)[1]
