#!/usr/bin/env python3
"""Reads what this repository says of itself: its crates (crates.txt) and its edits (*.edit).

As a module it serves the commands that are written in Python. Those that are written in shell call

    tools/repo.py below CRATE..             these crates and all that they stand on, lowest first
    tools/repo.py ways [CRATE..]            in how many ways crates.txt leads down from each
    tools/repo.py copy ROOM PARTS CRATE..   makes ROOM a repository of these crates and of all that
                                            they stand on, with these of their folders, as
                                            src,specs,proofs,out
"""
import os
import re
import shutil
import subprocess
import sys
from collections import namedtuple

TOP = os.path.dirname(os.path.dirname(os.path.abspath(__file__)))
# the folders of a crate that hold its text
TEXTS = ("src", "specs", "proofs")
# these with what earlier checks of it kept, which a check of a copy goes on from
CHECKED = (*TEXTS, "out")

# One replacement in a file: its path, the text that stands in it once, and what stands there then.
Change = namedtuple("Change", "path old new")
# A file of edits: its changes, and the texts of its other lines by their first word.
Edit = namedtuple("Edit", "changes words")


class BadEdit(Exception):
    """An edit that cannot be made, and why."""


def text_of(path):
    """The text of a file."""
    with open(path, encoding="utf-8") as file:
        return file.read()


def write(folder, texts):
    """Writes texts into a folder, by their paths in it."""
    for path, text in texts.items():
        with open(f"{folder}/{path}", "w", encoding="utf-8") as file:
            file.write(text)


# ---- crates

class Crates:
    """The crates of a repository, as its crates.txt lists them."""

    def __init__(self, top=TOP):
        self.top, self.lines, listed = top, {}, {}
        for line in text_of(f"{top}/crates.txt").splitlines():
            name, _, words = line.partition("#")[0].partition(":")
            if name.strip():
                # behind its name may stand what the crate is, as staticlib
                name = name.split()[0]
                self.lines[name] = line.partition("#")[0].strip()
                listed[name] = words.split()
        # of each crate the libraries of this repository that its line names
        self.named = {name: [it for it in words if it in listed] for name, words in listed.items()}

    def __iter__(self):
        return iter(self.named)

    def below(self, *names):
        """These crates and all that they stand on, each after what it stands on."""
        found = []

        def visit(name):
            for it in self.named[name]:
                visit(it)
            if name not in found:
                found.append(name)

        for name in names:
            if name not in self.named:
                sys.exit(f"crates.txt has no crate {name}")
            visit(name)
        return found

    def above(self, name):
        """The crate and all that stand on it, in the order of crates.txt."""
        return [it for it in self if name in self.below(it)]

    def ways(self, name):
        """In how many ways crates.txt leads down from the crate, with that which stays at it."""
        return 1 + sum(self.ways(it) for it in self.named[name])

    def folder(self, name):
        return f"{self.top}/crates/{name}"

    def copy(self, room, names, parts=CHECKED):
        """Makes the folder a repository of these crates and of all that they stand on, with these
        parts of each. Nothing of this repository is changed by what is done there."""
        names = self.below(*names)
        subprocess.run(["git", "init", "-q", room], check=True)
        write(room, {"crates.txt": "".join(f"{self.lines[name]}\n" for name in names)})
        for name in names:
            os.makedirs(f"{room}/crates/{name}")
            for part in parts:
                if os.path.isdir(f"{self.folder(name)}/{part}"):
                    shutil.copytree(f"{self.folder(name)}/{part}", f"{room}/crates/{name}/{part}")
        return Crates(room)


# ---- edits

def cases(path):
    """The texts of the cases in a file of them, by their names: each stands behind a line '== NAME', or behind one
    '== NAME in PATH', which says its line 'file: PATH' as well."""
    parts = re.split(r"^== (\S+)(?: in (\S+))?\n", text_of(path), flags=re.M)
    names = parts[1::3]
    if parts[0].strip() or len(set(names)) != len(names):
        raise BadEdit(f"{path} has a text without a name, or a name twice")
    return {name: f"file: {file}\n{text}" if file else text for name, file, text in zip(names, parts[2::3], parts[3::3])}


def read_edit(path):
    """Reads a file of edits, as parse_edit says."""
    return parse_edit(text_of(path))


def parse_edit(text):
    """Reads the text of edits. Its lines begin with a word:

        file: PATH     a file, in the crate or in the repository, which the changes after it are of
        old: TEXT      what stands in it once
        new: TEXT      what stands there then
        more: TEXT     a further line of the text before it

    Lines of other words, as 'run: ..', are kept by their words, and lines without one are comments.
    """
    changes, words, file, old = [], {}, None, None
    for line in text.splitlines():
        match = re.match(r"(\w+):(?: (.*))?$", line)
        word, said = (match[1], match[2] or "") if match else ("", "")
        if word == "file":
            file, old = said.strip(), None
        elif word == "old":
            old = said
        elif word == "new":
            if not file or not old:
                raise BadEdit("a line 'new:' stands behind no line 'file:' and 'old:'")
            changes.append(Change(file, old, said))
            old = None
        elif word == "more":
            if old is not None:
                old = f"{old}\n{said}"
            elif changes and changes[-1].path == file:
                changes[-1] = changes[-1]._replace(new=f"{changes[-1].new}\n{said}")
            else:
                raise BadEdit("a line 'more:' stands behind no line 'old:' or 'new:'")
        elif word:
            words.setdefault(word, []).append(said)
    if not changes:
        raise BadEdit("it changes nothing")
    return Edit(changes, words)


def edited(changes, folder):
    """The texts of the files that the changes are of, before and after them, by their paths."""
    before, after = {}, {}
    for path, old, new in changes:
        if path not in before:
            if not os.path.isfile(f"{folder}/{path}"):
                raise BadEdit(f"there is no file {path}")
            before[path] = after[path] = text_of(f"{folder}/{path}")
        count = after[path].count(old)
        if count != 1:
            raise BadEdit(f"an old text stands in {path} {count} times: {old}")
        after[path] = after[path].replace(old, new)
    return before, after


def main(words):
    crates = Crates()
    if words[:1] == ["below"] and words[1:]:
        print("\n".join(crates.below(*words[1:])))
    elif words[:1] == ["ways"]:
        for name in words[1:] or crates:
            print(name, crates.ways(name))
    elif words[:1] == ["copy"] and words[3:]:
        crates.copy(words[1], words[3:], words[2].split(","))
    else:
        sys.stderr.write(__doc__)
        return 2
    return 0


if __name__ == "__main__":
    sys.exit(main(sys.argv[1:]))
