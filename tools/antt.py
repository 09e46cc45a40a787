"""Reads what a crate defines and proves (*.antt), with the comments above it, and the constants of its code (*.rt)."""
import glob
import os
import re

import repo

# what may stand before a name that is declared, and what ends the name
DECLARED = re.compile(r"((?:(?:pub|abbrev|unfoldable|record|data) )*)([^\s:(){}\[\],]+) (?:: |\(|\{)")
HEADING = re.compile(r"-- (.*?) ?-{4,}$")
CONSTANT = re.compile(r"((?:^ */// ?.*\n)+)^pub const (\w+): [^=]*= ?([^;\n]{1,40};)?", re.M)


class Item:
    """What a file declares: its name, the comment above it and its lines."""

    def __init__(self, name, words, comment, lines):
        self.name, self.words, self.comment, self.lines = name, words.split(), comment, lines

    def is_definition(self):
        return "pub" in self.words and len(self.words) > 1

    def split(self):
        """Its statement and its body; a record is all body."""
        ends = len(self.lines)
        for at, line in enumerate(self.lines[1:], 1):
            if re.match(rf"{re.escape(self.name)}(\s|$)|unfolding ", line):
                ends = at
                break
        if "record" in self.words or "data" in self.words:
            ends = 0
        return "\n".join(self.lines[:ends]), "\n".join(self.lines[ends:])

    def parts(self):
        """The parts of a record that have a comment, as pairs of names and comments."""
        found, comment = [], []
        for line in self.lines[1:]:
            match = re.match(r"  (?:pub )?(\w+) :", line)
            if line.startswith("  --"):
                comment.append(line[4:].strip())
            elif match and comment:
                found.append((match[1], " ".join(comment)))
                comment = []
        return found


class File:
    """A file of definitions or of theorems: what it is about, and what it declares, under headings."""

    def __init__(self, path):
        self.path, self.name = path, os.path.basename(path).removesuffix(".antt")
        self.about, self.items, self.headings = "", [], {}
        text = repo.text_of(path)
        for block in re.split(r"\n\n+", text):
            self.read(block.split("\n"))

    def read(self, lines):
        """A block of lines between empty ones: comments, and what follows them."""
        comment = []
        for at, line in enumerate(lines):
            if HEADING.match(line):
                self.headings[len(self.items)] = HEADING.match(line)[1]
            elif line.startswith("--"):
                comment.append(line[2:].strip())
            elif re.match(r"(pub )?(use|mod) ", line):
                self.about, comment = self.about or " ".join(comment), []
            else:
                match = DECLARED.match(line)
                if match:
                    self.items.append(Item(match[2], match[1], " ".join(comment), lines[at:]))
                return


def files(folder):
    """The files of a folder and the folders in it, in the order of their names."""
    return [File(path) for path in sorted(glob.glob(f"{folder}/**/*.antt", recursive=True))
            if os.path.basename(path) != "Lib.antt"]


def code_of(folder):
    """The texts of a crate's code."""
    return [repo.text_of(path) for path in sorted(glob.glob(f"{folder}/src/**/*.rt", recursive=True))]


def constants_of(text):
    """The constants of a text of code: their names, their values if they are short, and their doc comments."""
    return [(name, value.rstrip(";"), " ".join(re.sub(r"^ */// ?", "", comment, flags=re.M).split()))
            for comment, name, value in CONSTANT.findall(text)]


def words_of(folder):
    """The words that a crate's code opens with."""
    path = next(it for it in (f"{folder}/src/lib.rt", f"{folder}/src/main.rt") if os.path.exists(it))
    lines = []
    for line in repo.text_of(path).splitlines():
        if not line.startswith("//!"):
            break
        lines.append(line[3:].removeprefix(" "))
    return lines
