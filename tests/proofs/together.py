"""Tries many wrong definitions of a crate in one check, each on copies of the modules that it reaches.

Most of what a check costs is the same for every case: reading the crate and the libraries below. So
the modules that a case changes, and those between them and the files of examples that are asked, are
written once more, under names of the case's own (`Safe` as `SafeOfCase7`), and one check asks the
examples of all cases. What it says of a copy it says of that case.

A law counts where a term of the case shows its negation, for which no proof of the law is asked. So
nothing is left that a check of the whole crate could add. Only a case whose change a type of the code
may speak of is tried by itself, in its place, since types are not copied.
"""
import functools
import glob
import os
import re

import refusers
import refuted
import repo

# a line that brings in names of a file of the crate, or the file itself
USE = r"^((?:pub )?use )Rattle\.{crate}\.(specs|proofs)\.(\w+)(?:\.\{{([^}}]*)\}}|(?!\w)(.*))$"
# a name of what `rt` makes of a type of the crate's code, and what such a type says by definitions
MADE = r"^(?:pub )?use Rattle\.{crate}\.(?:specs|proofs)\.declared\.((?:[a-z]\w*\.)+)"
GHOST_FIELD = re.compile(r"^ +(?:pub(?:\(\w+\))? )?ghost \w+:", re.M)
# the names that a file of the code brings in from definitions
BROUGHT = re.compile(r"ghost use [^;{]*\bspecs\.[^;{]*\{([^}]*)\}")
BLOCK = re.compile(r"\n\n(?=\S)")
WORD, DECLARES = refuted.WORD, refuted.DECLARES
ONLY_USES = re.compile(r"(?:(?:(?:pub )?use .*|--.*|)\n)*")


class Modules:
    """The files directly in specs/ and proofs/ of a crate, by their paths, and what each names of them.
    A file that only passes names on, as Words, stands between no others: its names are those of the
    files that it has them from."""

    def __init__(self, folder):
        self.folder, self.crate = folder, os.path.basename(folder)
        self.use = re.compile(USE.format(crate=self.crate), re.M)
        self.texts = {f"{part}/{file}": repo.text_of(f"{folder}/{part}/{file}")
                      for part in ("specs", "proofs") if os.path.isdir(f"{folder}/{part}")
                      for file in sorted(os.listdir(f"{folder}/{part}"))
                      if file.endswith(".antt") and file != "Lib.antt"}
        self.made = re.compile(MADE.format(crate=self.crate), re.M)
        self.code = {os.path.relpath(it, f"{folder}/src")[:-3]: repo.text_of(it)
                     for it in glob.glob(f"{folder}/src/**/*.rt", recursive=True)}
        self.passing = {path: self.passed_on(text) for path, text in self.texts.items()
                        if ONLY_USES.fullmatch(text)}

    def passed_on(self, text):
        """The names that a file passes on, each with the file of the crate and the name there."""
        return {word.split(" as ")[-1].strip(): (f"{part}/{name}.antt", word.split(" as ")[0].strip())
                for _, part, name, words, _ in self.use.findall(text) if words for word in words.split(",")}

    def source(self, path, word):
        """The file of the crate that a name is of which is brought in from this one, and its name there; or
        None where a crate below has it."""
        while path in self.passing:
            if word not in self.passing[path]:
                return None
            path, word = self.passing[path][word]
        return path, word

    def sources(self, part, name, words):
        """The names that a line brings in, each with where it is from and its name there."""
        for word in words.split(","):
            there, _, here = word.strip().partition(" as ")
            yield here or there, self.source(f"{part}/{name}.antt", there), word.strip()

    @functools.cache
    def named_in(self, text):
        found = set()
        for _, part, name, words, _ in self.use.findall(text):
            if words and f"{part}/{name}.antt" in self.passing:
                found |= {it[0] for _, it, _ in self.sources(part, name, words) if it}
            else:
                found.add(f"{part}/{name}.antt")
        return found & self.texts.keys()

    def below(self, paths, texts):
        """These modules and all that they stand on, by these texts."""
        found, waiting = set(), list(paths)
        while waiting:
            path = waiting.pop()
            if path not in found:
                found.add(path)
                waiting += self.named_in(texts[path])
        return found

    def reached(self, changed, asked):
        """The texts of the modules that stand between what is changed and what is asked, both with them, and
        whether nothing else does."""
        texts = {**self.texts, **changed}
        needed, found = self.below(asked, texts), set(changed)
        while more := {it for it in needed - found if self.named_in(texts[it]) & found}:
            found |= more
        found &= needed
        names = self.touched(changed, {it: texts[it] for it in found})
        is_all = not any(self.is_by_definitions(it.rstrip(".").replace(".", "/"), names)
                         for at in found for it in self.made.findall(texts[at]))
        return {it: texts[it] for it in found}, is_all

    def touched(self, changed, texts):
        """The names in these texts that the changes touch, themselves or by others."""
        blocks = [({*DECLARES.findall(it)}, {*WORD.findall(it)}) for text in texts.values() for it in BLOCK.split(text)]
        found = {name for path, text in changed.items() for it in {*BLOCK.split(text)} - {*BLOCK.split(self.texts[path])}
                 for name in DECLARES.findall(it)}
        while more := {name for names, words in blocks if words & found for name in names} - found:
            found |= more
        return found

    def is_by_definitions(self, path, names):
        """Whether a type of this file of the code may say something by these definitions of the crate, by a file
        that it names, too."""
        found, waiting = set(), [path]
        while waiting:
            path = waiting.pop()
            if path not in found and path in self.code:
                found.add(path)
                waiting += re.findall(r"\bcrate::(\w+)", self.code[path])
        return any(GHOST_FIELD.search(self.code[it]) and names & {
            word.split(" as ")[0].strip() for words in BROUGHT.findall(self.code[it]) for word in words.split(",")}
                   for it in found)

    def renamed(self, text, paths, tag):
        """The text, where modules of these paths have names with the tag."""
        def line(match):
            use, part, name, words, rest = match.groups()
            path = f"{part}/{name}.antt"
            if path not in self.passing or not words:
                brought = f".{{{words}}}" if words else rest
                return f"{use}Rattle.{self.crate}.{part}.{name}{tag if path in paths else ''}{brought}"
            of, kept = {}, []
            for here, source, word in self.sources(part, name, words):
                if source and source[0] in paths:
                    of.setdefault(source[0], []).append(f"{source[1]} as {here}" if here != source[1] else here)
                else:
                    kept.append(word)
            lines = [f"{use}Rattle.{self.crate}.{part}.{name}.{{{', '.join(kept)}}}"] if kept else []
            return "\n".join([*lines, *(f"{use}Rattle.{self.crate}.{at[:-5].replace('/', '.')}{tag}."
                                        f"{{{', '.join(some)}}}" for at, some in of.items())])
        return self.use.sub(line, text)


def with_theorems(folder, modules):
    """The paths of the files of proofs/ with theorems that nothing rests on."""
    texts = refusers.Texts(folder)
    return [path for path, text in modules.texts.items() if path.startswith("proofs/")
            and any(texts.kind_of(path, name) for name in THEOREM.findall(text))]


THEOREM = re.compile(r"^(?:pub )?([^\s(){}:]+) :(?=\s)", re.M)
# within a type, or a section
INSIDE = re.compile(r"^  (?:(?:pub|abbrev) )*([^\s(){}:]+)(?= :\s)", re.M)
HOLDS = re.compile(r"^(?:pub )?(?:record|data|module) ", re.M)


def cut(text, names):
    """The text without the theorems that are neither of these names nor needed for those that are."""
    head, *blocks = BLOCK.split(text)
    said = [{*DECLARES.findall(it), *(INSIDE.findall(it) if HOLDS.search(it) else ())} for it in blocks]
    # an operator is used by its parts
    kept = {at for at, it in enumerate(said) if it & set(names) or any("◌" in word for word in it)}
    waiting = list(kept)
    while waiting:
        words = set(WORD.findall(blocks[waiting.pop()]))
        more = {at for at, it in enumerate(said) if it & words} - kept
        kept |= more
        waiting += more
    return "\n\n".join([head, *(it for at, it in enumerate(blocks) if at in kept)]).rstrip("\n") + "\n"


BRINGS = re.compile(r"^(use \S+)\.\{([^}]*)\}$", re.M)


def pruned(text, words):
    """The text, where its lines 'use ..' bring in what it names, and these words, alone."""
    words = words | set(WORD.findall(BRINGS.sub("", text)))

    def line(match):
        kept = [it for it in match[2].split(", ")
                if not WORD.fullmatch(it) or "◌" in it or it.split(" as ")[-1] in words]
        return f"{match[1]}.{{{', '.join(kept)}}}" if kept else ""
    return BRINGS.sub(line, text)


class Copies:
    """The copies of one case: their texts by their paths, and of each the path of what it is a copy of. Of
    the files that are asked they have these theorems alone, if some are named."""

    def __init__(self, modules, name, edit, number, changed, asked, names=()):
        self.name, self.edit = name, edit
        brought = [f"use {it}" for it in edit.words.get("use", [])]
        laws = refuted.laws_of(modules.folder, edit)
        lines = [*brought, *(line for _, uses in laws.values() for line in uses)]
        texts, self.is_all = modules.reached(changed, [*asked, *modules.named_in("\n".join(lines))])
        # what a type of the code may speak of is changed in its own place, for a check of this case alone
        self.tag = f"OfCase{number}" if self.is_all else ""
        self.texts, self.of = {}, {}
        for path, text in texts.items():
            to = path.replace(".antt", f"{self.tag}.antt")
            self.texts[to] = modules.renamed(text, texts, self.tag)
            self.of[to] = path
        self.asked = [to for to, path in self.of.items() if path in asked]
        given = {*WORD.findall("\n".join([*lines, *edit.words.get("false", []), *edit.words.get("unfolding", [])]))}
        if names and self.is_all:
            self.texts |= {to: pruned(cut(self.texts[to], names), given) for to in self.asked}
        if self.is_all:
            self.trim(given)
        self.uses = [modules.renamed(it, texts, self.tag) for it in brought]
        self.laws = {law: (says, [modules.renamed(it, texts, self.tag) for it in uses])
                     for law, (says, uses) in laws.items()}

    def trim(self, words):
        """Leaves of the copies that are not asked what these words and the other copies name."""
        whole = {to: text for to, text in self.texts.items() if to not in self.asked}
        words |= {word for to in self.asked for word in WORD.findall(self.texts[to])}
        while True:
            self.texts |= {to: pruned(cut(text, words), set()) for to, text in whole.items()}
            more = {word for to in whole for word in WORD.findall(self.texts[to])}
            if more <= words:
                break
            words |= more

    def negations(self, failures):
        """The negations of these theorems, and of the laws that the case says to be false."""
        found = refuted.Negations(self.edit, self.uses, self.texts)
        for failure in failures:
            found.add(failure)
        for law, said in self.laws.items():
            found.add_law(law, said, f"proofs/{refuted.LAWS}{self.tag}.antt")
        return found


LIBS = ("specs/Lib.antt", "proofs/Lib.antt")


class Together:
    """Some cases in one check of a crate's copy."""

    def __init__(self, folder, check, copies):
        # check: runs the check of the copy and gives what it wrote
        self.folder, self.check, self.copies = folder, check, copies
        self.texts = refusers.Texts(folder)

    def refused(self):
        """Of each case, by its name, what refuses it, and what broke and may hold, or an error in its
        definitions; all as words."""
        counts = {it.name: [] for it in self.copies}
        lost = {it.name: [] for it in self.copies}
        text = self.said({}, self.copies)
        bad = self.unread(text)
        for it, failure, kind in self.failing(text):
            values = refuted.computed(failure, self.theorem(it, failure))
            if values:
                counts[it.name].append(f"{kind} {self.at(it, failure)}, where {values}")
            else:
                lost[it.name].append((kind, failure))
        self.count_negations(counts, lost)
        said = {it.name: [f"{kind} {self.at(it, failure)}" for kind, failure in lost[it.name]]
                for it in self.copies}
        return {**counts, **dict.fromkeys(bad, [])}, {**said, **bad}

    def count_negations(self, counts, lost):
        """Counts what is lost, and the laws of cases, where its negation is proved; of cases that have none."""
        asked = {it: it.negations([failure for _, failure in lost[it.name]])
                 for it in self.copies if (lost[it.name] or it.laws) and not counts[it.name]}
        written = {path: text for some in asked.values() for path, text in some.written().items()}
        text = self.said(written, list(asked)) if written else ""
        for it, some in asked.items():
            shown = some.shown(text)
            counts[it.name] = [f"{kind} {self.at(it, failure)}, whose negation is proved"
                               for kind, failure in lost[it.name] if (failure.path, failure.name) in shown]
            counts[it.name] += [f"law {law}, whose negation is proved" for _, law in shown if law in it.laws]

    def unread(self, text):
        """The cases of which a definition is refused, with what is said of it."""
        of = {path: it.name for it in self.copies for path in it.texts if path.startswith("specs/")}
        return {of[failure.path]: f"BAD CASE: the definition does not compile: {failure.words[:200]}"
                for failure in refuted.failures(text) if failure.path in of}

    def failing(self, text):
        """Yields of what failed the case, what was said, and which sort of theorem it is, where it counts."""
        of = {path: it for it in self.copies for path in it.texts}
        for failure in refuted.all_failures(text, lambda path: of[path].texts[path] if path in of else ""):
            it = of.get(failure.path)
            kind = it and failure.name and self.texts.kind_of(it.of[failure.path], failure.name)
            if kind:
                yield it, failure, kind

    def theorem(self, it, failure):
        return refuted.theorem(it.texts[failure.path], failure.name)

    @staticmethod
    def at(it, failure):
        return f"{failure.name} ({os.path.basename(it.of[failure.path])[:-5]})"

    def said(self, texts, copies):
        """What the check says of these copies, some of them with these texts."""
        all_texts = {path: text for it in copies for path, text in it.texts.items()} | texts
        before = {path: repo.text_of(f"{self.folder}/{path}") for path in (*all_texts, *LIBS)
                  if os.path.exists(f"{self.folder}/{path}")}
        listed = {path: before[path] + "".join(
            f"pub mod {os.path.basename(it)[:-5]}\n" for it in sorted(all_texts.keys() - before.keys())
            if os.path.dirname(it) == os.path.dirname(path)) for path in LIBS}
        repo.write(self.folder, {**all_texts, **listed})
        try:
            asked = {at for it in copies for at in it.asked} | {at for at in texts if refuted.LAWS in at}
            return self.check(sorted(os.path.basename(at)[:-5] for at in asked)) if asked else ""
        finally:
            repo.write(self.folder, before)
            for path in all_texts.keys() - before.keys():
                os.remove(f"{self.folder}/{path}")
