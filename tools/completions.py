#!/usr/bin/env python3
"""Writes completions/ for bash, zsh and fish, of what tools/front/words.py says that each command takes.

    tools/completions.py [--check]     writes them; or says which are not as they should be

A release has the program alone, and so other ones, which `tools/release` makes by `texts`.
"""
import os
import sys

sys.dont_write_bytecode = True
sys.path.insert(0, os.path.dirname(os.path.abspath(__file__)))
import repo
sys.path.insert(1, f"{repo.TOP}/model")
from front import words
from judge import command as judge
from sweep import command as sweep

FOLDER, NAMES = f"{repo.TOP}/completions", {"bash": "psci.bash", "zsh": "_psci", "fish": "psci.fish"}
FILES = ("FILE", "FOLDER", "RECORD")


class Taken:
    """What a command takes: its options, each with the values that it may have, and what stands without an option."""

    def __init__(self, *parsers, more=()):
        self.options, self.words, self.has_files = {}, list(more), False
        for action in (it for parser in parsers for it in parser.actions):
            names = getattr(action.type, "names", ())
            for option in action.option_strings:
                if option.startswith("--"):
                    kind = "flag" if action.nargs == 0 else "file" if action.metavar in FILES else names or "value"
                    self.options[option] = kind, action.help
            if not action.option_strings:
                self.has_files = self.has_files or action.metavar in FILES
                self.words += [it for it in names if it not in self.words]


def every():
    """What each command takes, by its name; of sweep behind its kind, too."""
    found = {name: Taken(parser()) for name, (parser, _) in words.COMMANDS.items() if parser}
    found["compare"] = Taken(words.compare(), judge.parser())
    kinds = {**{name: sweep.of_kind(kind) for name, kind in sweep.kinds.every().items()}, "report": sweep.of_report()}
    found.update({f"sweep {name}": Taken(parser) for name, parser in kinds.items()})
    found["sweep"] = Taken(more=kinds)
    found["help"] = Taken(more=list(words.COMMANDS))
    return found


# what the program alone takes, of its own words and of those that have its names here
OF_PROGRAM = {"replay": (), "show": ("--json", "--legend", "--width", "--color"),
              "storm": ("--board", "--seed", "--count", "--counts", "--keep"),
              "threads": ("--board", "--seed", "--count", "--counts", "--keep")}


def of_program():
    """What each command of the program takes, which reads scripts from standard input alone."""
    found = {name: Taken(words.COMMANDS[name][0]()) for name in OF_PROGRAM}
    for name, it in found.items():
        it.options = {option: kind for option, kind in it.options.items() if option in ("--help", *OF_PROGRAM[name])}
        it.has_files = False
    return {**found, "help": Taken(more=list(OF_PROGRAM))}


def first_words(taken, is_whole):
    return [*(it for it in taken if " " not in it), *(["--unproved"] if is_whole else []), "--help", "--version"]


# ---- each shell

def bash(taken, is_whole):
    does = {"file": "_psci_files; ", "value": "", "flag": None}
    kinds = {}
    for name, it in taken.items():
        for option, (kind, _) in it.options.items():
            kinds.setdefault(does.get(kind, f"_psci_words {' '.join(kind)}; "), []).append(f'"{name} {option}"')
    kinds["_psci_files; "] += ['*" <"', '*" >"']
    lines = [f"        {' | '.join(places)}) {what}return ;;" for what, places in kinds.items() if what is not None]
    lines += [f'        "{name} {name}") _psci_words {" ".join([*it.words, "--help"])}; return ;;'
              for name, it in taken.items() if it.words]
    names = " | ".join(quoted(it) if " " in it else it for it in taken)
    cases = [f'        {quoted(name) if " " in name else name}) _psci_words {" ".join(it.options or ["--help"])}'
             f'{"; _psci_files" * it.has_files} ;;' for name, it in taken.items()]
    return "\n".join([
        "# Completion of `psci` and `./psci` for bash, which tools/completions.py writes:",
        "#   source completions/psci.bash", "", "_psci_words() { mapfile -t -O ${#COMPREPLY[@]} COMPREPLY < <(compgen -W \"$*\" -- \"$word\"); }",
        "_psci_files() {", "    [[ $word == -* ]] && return", "    compopt -o filenames 2> /dev/null",
        "    mapfile -t -O ${#COMPREPLY[@]} COMPREPLY < <(compgen -f -- \"$word\")", "}", "", "_psci() {",
        "    local word=${COMP_WORDS[COMP_CWORD]} before=${COMP_WORDS[COMP_CWORD - 1]} command= at",
        "    # bash has --color=auto as three words",
        "    if [[ $word == = ]]; then word=; elif [[ $before == = ]]; then before=${COMP_WORDS[COMP_CWORD - 2]}; fi",
        "    for ((at = 1; at < COMP_CWORD; at++)); do",
        *(["        [[ ${COMP_WORDS[at]} != --unproved ]] || continue"] if is_whole else []),
        f"        case ${{command:+$command }}${{COMP_WORDS[at]}} in {names}) command+=${{command:+ }}${{COMP_WORDS[at]}} ;; *) break ;; esac", "    done",
        "    COMPREPLY=()", '    case "$command $before" in', *lines, "    esac", "    case $command in",
        f'        "") _psci_words {" ".join(first_words(taken, is_whole))} ;;', *cases, "    esac", "}", "",
        "complete -F _psci psci ./psci", ""])


def quoted(text):
    return "'" + text.replace("'", "'\\''") + "'"


def zsh(taken, is_whole):
    two = [quoted(it) for it in taken if " " in it]
    lines = ["#compdef psci", "# Completion of `psci` for zsh, which tools/completions.py writes: a folder of fpath has this",
             "# file, before compinit runs.", "", "_psci() {", "    local at=2",
             *(["    [[ $words[2] == --unproved ]] && at=3"] if is_whole else []),
             f"    if (( CURRENT == at )); then compadd -- {' '.join(first_words(taken, is_whole))}; return; fi",
             "    local name=$words[at]",
             *([f"    if (( CURRENT > at + 1 )); then case \"$name $words[at+1]\" in {'|'.join(two)}) name+=\" $words[++at]\" ;; esac; fi"]
               if two else []), "    shift $((at - 1)) words", "    (( CURRENT -= at - 1 ))", "    case $name in"]
    for name, it in taken.items():
        parts = []
        for option, (kind, text) in it.options.items():
            text = "[" + (text or "").replace("[", "(").replace("]", ")").replace(":", "\\:") + "]"
            value = {"flag": None, "file": ":file:_files", "value": ":value: "}.get(kind, f":value:({' '.join(kind)})")
            parts.append(quoted(f"{option}{text}" if value is None else f"{option}={text}{value}"))
        rest = [quoted("*:file:_files")] if it.has_files else [quoted(f"1:word:({' '.join(it.words)})")] if it.words else []
        lines.append(f"        {quoted(name) if ' ' in name else name}) _arguments {' '.join([*parts, *rest])} ;;")
    return "\n".join([*lines, "    esac", "}", "", '_psci "$@"', ""])


# whether the words before the one at the cursor begin with these, or are these
FISH = """function __psci_words
    set -l words (commandline -opc)
    set -e words[1]
    test "$words[1]" = --unproved; and set -e words[1]
    echo "$words"
end
function __psci_in
    string match -q -- "$argv *" (__psci_words)" "
end
function __psci_behind
    test (__psci_words) = "$argv"
end
"""


def fish(taken, is_whole):
    lines = ["# Completion of `psci` for fish, which tools/completions.py writes: ~/.config/fish/completions has this file.", "",
             FISH, "complete -c psci -f"]
    lines.append(f"complete -c psci -n __psci_behind -a {quoted(' '.join(first_words(taken, is_whole)))}")
    for name, it in taken.items():
        seen = f"complete -c psci -n '__psci_in {name}'"
        if it.has_files:
            lines.append(f"{seen} -F")
        if it.words:
            lines.append(f"complete -c psci -n '__psci_behind {name}' -a {quoted(' '.join(it.words))}")
        for option, (kind, text) in it.options.items():
            value = {"flag": "", "file": " -r -F", "value": " -x"}.get(kind, f" -x -a {quoted(' '.join(kind))}")
            lines.append(f"{seen} -l {option[2:]}{value} -d {quoted(text or '')}")
    return "\n".join([*lines, ""])


def texts(taken, is_whole=True):
    """The text of each shell."""
    return {"bash": bash(taken, is_whole), "zsh": zsh(taken, is_whole), "fish": fish(taken, is_whole)}


def main(given):
    wrong = 0
    for shell, text in texts(every()).items():
        path = f"{FOLDER}/{NAMES[shell]}"
        if given == ["--check"]:
            if not os.path.exists(path) or repo.text_of(path) != text:
                print(f"completions/{NAMES[shell]} is not what tools/completions.py writes")
                wrong = 1
        else:
            repo.write(FOLDER, {NAMES[shell]: text})
    return wrong


if __name__ == "__main__":
    if sys.argv[1:] not in ([], ["--check"]):
        sys.exit(__doc__)
    sys.exit(main(sys.argv[1:]))
