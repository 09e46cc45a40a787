"""What refuses a wrong definition: which theorems count, and whether those that a case names are there."""
import functools
import glob
import os
import re

import repo

# ---- which theorems count

CITES = re.compile(r"^(?:pub )?use \S*\bproofs\.(?:\w+\.)*(\w+)\.\{([^}]*)\}", re.M)


@functools.cache
def cited_above(crate):
    """What the crates that stand on this one bring in from proofs: names of files, and of theorems
    in them, of whichever crate below, since a crate passes on the proofs of those below it."""
    crates, found = repo.Crates(), set()
    above = [it for it in crates.above(crate) if it != crate] if crate in crates.named else []
    for it in above:
        for path in glob.glob(f"{crates.folder(it)}/*/**/*.antt", recursive=True):
            for file, names in CITES.findall(repo.text_of(path)):
                found |= {(file, name.split(" as ")[0].strip()) for name in names.split(",")}
    return found


# how files begin in which lemmas of the cases, or negations, stand on a copy
JUDGES = "Judged"


class Texts:
    """The texts of a crate, by their paths in it."""

    def __init__(self, crate):
        self.texts, self.above = {}, cited_above(os.path.basename(crate))
        for part in repo.TEXTS:
            for at, _, files in os.walk(f"{crate}/{part}"):
                for file in (it for it in files if it.endswith((".rt", ".antt"))):
                    path = os.path.relpath(f"{at}/{file}", crate)
                    self.texts[path] = repo.text_of(f"{at}/{file}")

    def is_cited(self, path, name):
        """Whether anything but its own statement and proof names the theorem: its own file, or one
        that names this file, of this crate or of one above. What a comment says does not count, nor a
        field that is called so."""
        if (os.path.basename(path).removesuffix(".antt"), name) in self.above:
            return True
        word = re.compile(rf"(?<![\w.'-]){re.escape(name)}(?![\w'-]| [=:]\s)")
        own = re.compile(rf"^(?:pub )?{re.escape(name)}\b", re.M)
        module = re.compile(rf"\.{re.escape(path.removesuffix('.antt').replace('/', '.'))}\b")
        for at, text in self.plain().items():
            if name not in text:
                continue
            if at == path and word.search(own.sub("", text)):
                return True
            if at != path and module.search(text) and word.search(text):
                return True
        return False

    @functools.cache
    def plain(self):
        """The texts without their comments."""
        return {path: COMMENT.sub("", text) for path, text in self.texts.items()}

    def kind_of(self, path, name):
        """What sort of theorem it is, or None where it counts for nothing."""
        if os.path.dirname(path) != "proofs" or os.path.basename(path).startswith(JUDGES):
            return None
        if re.search(rf"^{re.escape(name)} =\s+refl$", self.texts[path], re.M):
            return "example"
        return None if self.is_cited(path, name) else "theorem"

COMMENT = re.compile(r"^ *(?:--|//).*$", re.M)
# ---- the theorems that cases name

# a line 'refused: ..' names theorems, with the file in brackets behind one or several of them
NAMED = re.compile(r"\(([^)]*)\)|([\w.'’-]+(?:::[\w.'-]+)*)")
NO_NAMES = {"refused", "by", "example", "theorem", "law", "test", "and", "more", "others", "the", "of"}


def named_by(line):
    """The theorems, laws and tests that the line names, each with its file or None."""
    found, waiting = [], []
    for file, word in NAMED.findall(line):
        if word and word not in NO_NAMES and not word.isdigit():
            waiting.append(word)
        elif file:
            name = re.sub(r"\.antt(:\d+)?$", "", file.rpartition("/")[2])
            found += [(it, name) for it in waiting]
            waiting = []
    return [*found, *((it, None) for it in waiting)]


@functools.cache
def declared_in(crate):
    """The names that a crate's proofs declare, by their files, and those of its functions, by no file."""
    crates, found = repo.Crates(), {"": set()}
    if crate not in crates.named:
        return found
    for path in glob.glob(f"{crates.folder(crate)}/proofs/**/*.antt", recursive=True):
        names = re.findall(r"^(?:pub )?([^\s:(]+) :(?=\s)", repo.text_of(path), re.M)
        found.setdefault(os.path.basename(path).removesuffix(".antt"), set()).update(names)
    for path in glob.glob(f"{crates.folder(crate)}/src/**/*.rt", recursive=True):
        found[""].update(re.findall(r"\bfn (\w+)", repo.text_of(path)))
    return found


def files_named(crate, lines):
    """The files of the crate that have the theorems which these lines name."""
    known = declared_in(crate)
    return [at for at in known if any(name in known[at] and file in (None, at)
                                      for line in lines for name, file in named_by(line))]


@functools.cache
def standing_on(crate):
    return repo.Crates().above(crate)


def is_there(crate, name, file):
    """Whether the crate has it, or one above the crate; a test has the name of its crate before it."""
    owner, _, name = name.rpartition("::")
    for it in [owner] if owner else standing_on(crate):
        known = declared_in(it)
        if any(name in known.get(at, ()) for at in ([file] if file else known)):
            return True
    return False


def strays(crate, words):
    """What these lines 'refused: ..' of a case name that is nowhere, as words."""
    for line in words:
        for name, file in named_by(line):
            if not is_there(crate, name, file):
                yield f"{name} ({file})" if file else name
