"""Whether a theorem whose proof no longer checks says something false: by computing, or by the prover.

A proof that breaks says nothing of its statement. A premise that is put before a clause breaks each
proof that uses the clause by its shape, and what such a proof is of may hold as before. So a
statement S counts as false in two ways alone:

    computed   the check of a `refl` computed both sides as far as they go, and where they first
               differ stand two values that are not the same: constructors or numerals, and no call
               and no variable
    shown      the prover admits `(S) → ⊥`, which `Negations` puts behind the theorem on a copy, by
               one of a few searches or by a term that the case brings; or a search for S itself
               ends with values at which S fails, which the kernel has checked

Nothing is said where neither is so: the statement may hold.
"""
import glob
import os
import re

import antt
import repo

# ---- what a check says of each theorem

HEAD = re.compile(r"^(?:\./)?(\S+\.antt):(\d+):(\d+): (?:error: )?(?:`([^`]*)`(?:: | is not admitted))?")


class Failure:
    """What a check said of one theorem that is not admitted: where, and in which words."""

    def __init__(self, path, line, column, name, words):
        self.path, self.line, self.column = os.path.normpath(path), int(line), int(column)
        self.name, self.words = name, words

    def __str__(self):
        return f"{self.name or 'the script'} ({self.path}:{self.line})"


def failures(text):
    """The errors in what a check wrote, each with the further lines of it."""
    found, words = [], None
    for line in text.splitlines():
        match = HEAD.match(line)
        if match:
            words = [line[match.end():]]
            if " error: " in line or "is not admitted" in line:
                found.append((*match.groups(), words))
        elif line.startswith("  ") and words is not None:
            words.append(line.strip())
        else:
            words = None
    return [Failure(path, line, column, name, " ".join(words))
            for path, line, column, name, words in found]


# what rests on a declaration that was refused is not checked, and not named to its end
DEPENDS = re.compile(r"declarations? that depends? on `([^`]*)`, which was (?:rejected|not admitted), w\w+ not checked")
DECLARES = re.compile(r"^(?:(?:pub|abbrev|unfoldable|record|data) )*([^\s(){}:]+)(?= :\s| \(| \{)", re.M)


def all_failures(text, text_of):
    """The errors in what a check wrote, and one of each declaration that may not have been checked since it
    names what was refused, itself or by others; by the texts of the files."""
    found = failures(text)
    rejected = [(it, DEPENDS.search(it.words)) for it in found]
    return found + [Failure(it.path, it.line, it.column, name, it.words) for it, by in rejected if by
                    for name in sorted(dependents(text_of(it.path), by[1]))]


def dependents(text, word):
    """What a file declares that names this word, itself or by others."""
    blocks = [({*DECLARES.findall(it)}, {*WORD.findall(NO_NAME.sub("", it))})
              for it in re.split(r"\n\n(?=\S)", text)]
    found, more = {word}, True
    while more:
        more = {name for names, words in blocks if words & found for name in names} - found
        found |= more
    return found - {word}


WORD = re.compile(r"[^\s(){}\[\],;.:]+")
# what names nothing: a comment, a field that is set, or taken
NO_NAME = re.compile(r"^ *--.*$|\.[\w'-]+|(?<![\w'-])[\w'-]+ =(?=\s)", re.M)

# ---- computed

APART = re.compile(r"computed as far as they go, the two types (?:differ only|first differ) where one has"
                   r" `([^`]*)` \(expected\)(?:, right after `[^`]*`,)? and the other has `([^`]*)`"
                   r" \(found\)")
# a constructor: the names of the code's own are capitals
VALUE = r"(?:[A-Z]\w*|true|false|pos|negsuc|inl|inr)(?!\S*[.\w])"
BARE = re.compile(rf"({VALUE})")


def parts_at_top(text):
    """The text without what stands in its brackets."""
    depth, found = 0, []
    for sign in text:
        depth -= sign in ")}]"
        if not depth:
            found.append(sign)
        depth += sign in "({["
    return "".join(found)


def head_of(value):
    """The constructor or numeral that a printed value begins with; None where it may be a call."""
    value = value.strip()
    while value.startswith("(") and value.endswith(")") and parts_at_top(value) == "()":
        if "," in parts_at_top(value[1:-1]):
            return None
        value = value[1:-1].strip()
    if re.fullmatch(r"\d+", value):
        return int(value)
    top = parts_at_top(value)
    if "∷" in top and "++" not in top and not top.startswith("λ"):
        return "∷"
    if value == "[]":
        return "[]"
    bare = BARE.match(value)
    return bare[1] if bare and not re.search(r"[→×≡+*/<≤]| - |\blet\b", top) else None


def theorem(text, name):
    """What a text states and proves under the name, or None."""
    begins = re.search(rf"^(pub )?{re.escape(name)} :(?=\s)", text, re.M)
    block = begins and text[begins.start():].partition("\n\n")[0]
    return antt.Item(name, begins[1] or "", "", block.split("\n")) if begins else None


# a proof of `refl` alone, in whatever tuples and records: each of them is of a part of the statement,
# and none is chosen
BY_REFL = re.compile(r"(?:[^\n]*\n(?: [^\n]*\n)*)??\S+ =\s"
                     r"(?:\b(?:refl|tt|omega arith|record)\b|[(),;{}\s]|\w+ =)+")


def computed(failure, item):
    """Two different values to which the sides of an equation that the theorem states compute at one
    place, as words; or None. What a `refl` in a longer proof is of, the theorem does not state."""
    if item is None or not BY_REFL.fullmatch(item.split()[1].strip() + "\n"):
        return None
    return differ(failure)


def differ(failure):
    """Two different values at one place in what two sides compute to, as words; or None."""
    apart = APART.search(failure.words)
    if not apart or "…" in apart[0] or apart[1] == apart[2]:
        return None
    heads = [head_of(it) for it in apart.groups()]
    if all(map(is_literal, apart.groups())) or None not in heads and heads[0] != heads[1]:
        return f"{apart[1]} is {apart[2]}"
    return None


def is_literal(value):
    """Whether a printed value is of constructors and numerals alone, so that another text is another one."""
    words = re.sub(r"\w+ = |\brecord\b", "", value)
    return bool(re.fullmatch(rf"(?:(?:[\w.]+\.)?{VALUE}|◌∷◌|\d+|[\[\](){{}},;∷\s])+", words))


# ---- shown

# what each search may use, beside what stands in the statement
LAWS = "JudgedLaws"
USED = """\
use Rattle.std.proofs.Common.{{arith as {0}arith, ap as {0}ap}}
use Rattle.std.proofs.lemmas.Bool.Decides.{{nat_tests as {0}tests}}
use Rattle.std.proofs.lemmas.Bool.{{ne_eqb as {0}ne}}
use Rattle.std.proofs.lemmas.Option.{{same_Some as {0}same}}
"""
MARK = "judged_"
SEARCH = f"grind ({MARK}arith, {MARK}tests, {MARK}ne, {MARK}same)"
# what a search says that has found such values
FAILS = "`grind`: the goal does not follow. The hypotheses hold, and the goal fails"
# behind each proof stands a false statement that names it: an error is told of that only where the proof
# was admitted, since what rests on a refused one is not checked
HEARD = "_heard"


class Negations:
    """The negations of some theorems, put into their files on a copy, each with several proofs."""

    def __init__(self, edit, uses, texts):
        # the texts of the copy; of each theorem the terms that the case brings, and what these bring in and unfold
        self.bare, self.texts, self.uses = texts, {}, uses
        self.given = terms(edit.words.get("false", []))
        self.unfolds = " ".join(edit.words.get("unfolding", []))
        # of each theorem or clause the names of its negations, with their proofs
        self.tried, self.files = {}, {}

    def add(self, failure):
        """Puts the negation of a theorem in, once for each way in which it may be shown."""
        text = self.bare[failure.path]
        item = theorem(text, failure.name)
        if item is None:
            return
        statement, body = item.split()
        stated = re.match(rf"(?:pub )?{re.escape(item.name)} :(.*)", statement, re.S)
        if not stated or not body:
            return
        self.texts.setdefault(failure.path, text)
        opened = re.match(r"unfolding .*(?:\n .*)*\n", body)
        opened = opened[0].rstrip() if opened else None
        key, given = (failure.path, failure.name), self.given.get(item.name, [])
        if key not in self.tried:
            self.tried[key] = {}
            self.put(failure.path, f"{self.mark(key)}again", stated[1], opened, SEARCH)
        for proof in [*given, *ways(stated[1])]:
            if proof not in self.tried[key].values():
                own = f"{opened or 'unfolding'} {self.unfolds}" if proof in given and self.unfolds else opened
                self.deny(key, stated[1], own, proof)

    def mark(self, key):
        return f"{MARK}{list(self.tried).index(key)}_"

    def put(self, path, name, statement, opened, proof):
        lines = ["", f"{name} :{statement}", opened, f"{name} = {proof}", ""]
        self.texts[path] += "\n".join(it for it in lines if it is not None)

    def deny(self, key, statement, opened, proof):
        """Puts a proof of the negation of a statement in, and what is heard of it."""
        path, name = key[0], f"{self.mark(key)}{len(self.tried[key])}"
        self.tried[key][name] = proof
        self.put(path, name, f" ({statement}\n    ) → ⊥", opened, proof)
        self.put(path, f"{name}{HEARD}", " Unit {0} → ⊥", None, f"λ u. let n = {name} in u")

    def add_law(self, name, law, path):
        """Puts the negation of a law's clause in, by its name with the label, what it says and what that brings
        in, by the terms of the case; into this file."""
        statement, uses = law
        before = self.texts.get(path, "")
        self.texts[path] = "".join(f"{it}\n" for it in uses if it not in before.splitlines()) + before
        self.tried[path, name] = {}
        for term in self.given[name]:
            self.deny((path, name), statement, f"unfolding {self.unfolds}" if self.unfolds else None, term)

    def written(self):
        """The files with what was put in, by their paths."""
        brought = {path for path, name in self.tried if name in self.given}
        for path, text in self.texts.items():
            lines = text.splitlines()
            last = max(at for at, it in enumerate(lines) if re.match(r"(pub )?use ", it))
            lines[last + 1:last + 1] = [*USED.format(MARK).splitlines(), *(self.uses if path in brought else [])]
            self.files[path] = "\n".join([*lines, ""])
        return self.files

    def name_at(self, failure):
        """The name of what was put in where the check has found the failure, or of what it names."""
        lines = self.files.get(failure.path, "").splitlines()[:failure.line]
        names = [it[1] for it in map(re.compile(rf"({MARK}\w+) :").match, lines) if it]
        return names[-1] if names else failure.name

    def shown(self, text):
        """The theorems whose negation the check has admitted, by what it wrote."""
        said = {(it.path, self.name_at(it)): it.words for it in failures(text) if not DEPENDS.search(it.words)}
        return [key for key, names in self.tried.items()
                if said.get((key[0], f"{self.mark(key)}again"), "").startswith(FAILS)
                or any((key[0], f"{it}{HEARD}") in said for it in names)]


def laws_of(folder, edit):
    """Of each law that the case says to be false, by its name with the label of its clause, as
    law_safe.always, what it says and the lines that its file brings that in by."""
    found = {name: clause_of(folder, *name.partition(".")[::2]) for name in terms(edit.words.get("false", []))
             if name.startswith("law_")}
    return {name: law for name, law in found.items() if law}


def clause_of(folder, law, label):
    for path in sorted(glob.glob(f"{folder}/src/**/*.rt", recursive=True)):
        text = repo.text_of(path)
        contract = re.search(rf"^ *pub fn {law}\(.*?^\{{", text, re.M | re.S)
        clause = contract and re.search(rf"ensures {label + ' ' if label else ''}\{{(.*?)\}}\s*"
                                        r"(?=ensures|//|\{)", contract[0], re.S)
        if clause:
            uses = re.findall(r"^ *ghost use ([^;]*);", text, re.M)
            return re.sub(r"//.*", "", clause[1]), [f"use {' '.join(it.split())}" for it in uses]
    return None


def terms(lines):
    """The terms that lines 'false: NAME TERM' of a case bring, by the names of their theorems."""
    found = {}
    for line in lines:
        name, _, term = line.partition(" ")
        found.setdefault(name, []).append(term)
    return found


def ways(statement):
    """Proofs by which the negation of a statement may be shown, in the terms of antt: by a search, and of each
    denial that it has, of what that denies by searches."""
    yield f"λ {MARK}h. {SEARCH}"
    stated = re.sub(r"^ *--.*\n", "", statement, flags=re.M)
    factors = [stated] if len(split_at(stated, "→")) > 1 else split_at(stated, "×")
    for place, factor in enumerate(factors):
        taken = denied(factor)
        if taken:
            at = f".{place}" if factors[1:] else ""
            yield f"λ {MARK}h. {MARK}h{at}" + f" ({SEARCH})" * taken


def split_at(text, sign):
    """The parts of a text between these signs outside brackets."""
    depth, parts = 0, [""]
    for it in text:
        depth += (it in "({[") - (it in ")}]")
        if it == sign and not depth:
            parts.append("")
        else:
            parts[-1] += it
    return [it.strip() for it in parts]


def denied(factor):
    """How many arguments a denial takes; 0 of what is none."""
    if factor.startswith("¬"):
        return 1
    if factor.startswith("(") and parts_at_top(factor) == "()":
        return denied(factor[1:-1].strip())
    *taken, last = split_at(factor, "→")
    names = [re.fullmatch(r"((?:\([^():]*:[^:]*\)\s*)+)", it) for it in taken]
    return sum(len(" ".join(re.findall(r"\(([^():]*):", it[1])).split()) if it else 1 for it in names) if last == "⊥" else 0
