"""The worked examples of a crate: theorems that are proved by computing, and the rows of those that are
tables, by their names. `tools/cells` says how a row is named.
"""
import os
import re

from repo import TOP, text_of

# in these crates what breaks is said by a theorem that there is none, whatever its proof
BY_NONE = ("psci_audit", "psci_shared", "psci_platform_safe")
# an example of these crates has to use what its cell names
USED = ("psci_headline", "psci_platform_safe")
# how the proof of a theorem begins that computes
PROVED = re.compile(r"refl|\(refl, refl\)"
                    r"|record \{\s*(?:legal = [^;]*;\s*)?(?:only|on|events) = refl\b")
# the name of a row, in a line above it
NAME = re.compile(r"^ *-- (\w+): .*$", re.M)
# a statement of each message on its board, or of each of the cases of `Each`
OF_EACH = re.compile(r"(Each\w*) \(λ (\w+) (\w+)\. (.*)\)|\((\w+) : BoardValue\) \((\w+) : MessageValue\) → (.*)")


def split(text, between):
    """The parts of a text between these characters, where they stand in no brackets."""
    parts, depth = [""], 0
    for it in text:
        depth += (it in "([{") - (it in ")]}")
        if it in between and not depth:
            parts.append("")
        else:
            parts[-1] += it
    return parts


def marked(text):
    """A text without its comments, but for the names of rows, each before its row."""
    text = re.sub(r"^ *--.*$", "", NAME.sub(r"⟦\1⟧", text), flags=re.M)
    text = re.sub(r"^([^⟦]+) ⟦(\w+)⟧ \(", r"\1 (⟦\2⟧ ", " ".join(text.split()))
    return re.sub(r"⟦(\w+)⟧ ([∷×])", r"\2 ⟦\1⟧", text)


def listed(text):
    """The items of a list that have a name, each with its name."""
    *items, last = split(text, "∷")
    for item in items if last.strip() == "[]" else ():
        found = re.fullmatch(r"⟦(\w+)⟧ ([^⟦]*)", item.strip())
        if found:
            yield found[1], found[2]


def multiplied(text):
    """The factors of a product that have a name, each with its place and its name."""
    for at, factor in enumerate(split(text, "×")):
        found = re.fullmatch(r"⟦(\w+)⟧ \(?([^⟦]*?)\)?", factor.strip())
        if found:
            yield at, found[1], found[2]


class Examples:
    """The theorems of a crate that are proved by computing, by file and name, with all that their
    statements say: names of events in a row are written out."""

    def __init__(self, crate, by_none=None):
        self.folder = f"{TOP}/crates/{crate}/proofs"
        self.files, self.kept = {}, {}
        self.by_none = crate in BY_NONE if by_none is None else by_none
        # what else is written out: an example that has to use its cell goes by the names of boards
        self.named = "Event" if crate in USED else "BoardValue"
        # runs that several files of examples name
        paths = [f"{TOP}/crates/{crate}/proofs/{file}.antt" for file in ("Histories", "Waiting", "Playing")]
        paths += [f"{TOP}/crates/psci_port/proofs/Playing.antt"] * (crate == "psci_sides")
        paths += [f"{TOP}/crates/psci_world_spec/proofs/Scripts.antt"] * (crate == "psci_headline")
        self.shared = "\n".join(text_of(path) for path in paths if os.path.exists(path))

    def statement(self, name):
        """The statement of a theorem, or of a row, and its proof; None where there is none that is
        proved so."""
        file, _, word = name.partition(".")
        if file not in self.files:
            path = f"{self.folder}/{file}.antt"
            text, said = text_of(path) if os.path.exists(path) else "", {}
            for theorem, it, proof in self.theorems(text):
                for row, words, how in ((theorem, " ".join(it.split()), proof),
                                        *self.rows(text, it, proof), *self.of_each(theorem, text, it, proof)):
                    said.setdefault(row, []).append((words, how))
            self.files[file] = text, said
        found = self.files[file][1].get(word, ())
        return (self.written_out(file, found[0][0]), found[0][1]) if len(found) == 1 else None

    def theorems(self, text):
        """The theorems that are proved so, each with its statement and its proof."""
        arguments = "(?: [^=\\n]+?)?" if self.by_none else ""
        theorem = (rf"^(?:pub )?(\w+) :\s((?:(?!\n\n).)*?)\n(?:unfolding (?:(?!\n\n).)*?\n)?"
                   rf"\1{arguments} =\s+")
        for found in re.finditer(theorem, text, re.M | re.S):
            if self.by_none or PROVED.match(text, found.end()):
                yield found[1], found[2], " ".join(text[found.end():].split("\n\n")[0].split())

    def rows(self, text, statement, proof):
        """The rows of a theorem that is a table, each with its name, all that it says and its part
        of the proof."""
        if self.by_none:
            parts = split(proof[1:-1], ",") if proof.startswith("(") else []
            for at, name, words in multiplied(marked(statement)):
                yield name, words, parts[at] if at < len(parts) else ""
            return
        *head, table = split(marked(statement), " ")
        head, table = " ".join(head), table[1:-1]
        each = re.fullmatch(r"each (\w+) (.*)", table)
        if not each:
            for name, row in listed(table):
                yield name, f"{head} {row}", proof
            return
        parameters, rows = self.body(text, each[1])
        cases = self.body(text, each[2])[1] if re.fullmatch(r"\w+", each[2]) else each[2][1:-1]
        for case, values in listed(cases):
            values = values[1:-1] if values.startswith("(") else values
            values = [it.strip() for it in split(values, ",")]
            for name, row in listed(rows) if len(values) == len(parameters) else ():
                given = dict(zip(parameters, values))
                row = re.sub(r"(?<![\w.])\w+", lambda it: given.get(it[0], it[0]), row)
                yield f"{case}.{name}", f"{head} {row}", proof

    def of_each(self, theorem, text, statement, proof):
        """The same of each case of a theorem that is of each message on its board, named CASE.THEOREM."""
        found = OF_EACH.fullmatch(" ".join(statement.split())) if self.by_none else None
        if not found:
            return
        word, *names = found.groups()[:3] if found[1] else ("Each", found[5], found[6])
        parts = [] if found[7] or not proof.startswith("(") else split(proof[1:-1], ",")
        for at, factor in enumerate(split(self.body(text, word)[1], "×")):
            case, _, *values = split(factor.strip(), " ")
            given = dict(zip(names, values))
            row = re.sub(r"(?<![\w.])\w+", lambda it: given.get(it[0], it[0]), found[4] or found[7])
            yield f"{case[1:-1]}.{theorem}", row, parts[at] if at < len(parts) else proof

    def body(self, text, word):
        """The parameters of an abbreviation, and what it stands for."""
        found = re.search(rf"^abbrev (?:pub )?{word} : .*?\n{word}\b(.*?) =\s+(.*?)\n(?:\n|\Z)",
                          f"{text}\n{self.shared}", re.M | re.S)
        return (re.findall(r"\w+", found[1]), marked(found[2])) if found else ((), "")

    def written_out(self, at, statement):
        """A statement with the names of events written out, in a file."""
        named, calls = self.abbreviations(at)
        for name, (parameters, body) in calls.items():
            call = rf"(?<![\w.]){name}" + r" (\([^()]*\)|[\w.]+)" * len(parameters)
            for found in re.finditer(call, statement) if name in statement else ():
                events = put(body, dict(zip(parameters, found.groups())))
                statement = statement.replace(found[0], f"({events})")
        before = None
        while before != statement:
            before, statement = statement, put(statement, named)
        return statement

    def abbreviations(self, at):
        """What stands for events in a file: names, and abbreviations of some values with their
        parameters; each with what it stands for."""
        if at not in self.kept:
            text = f"{self.shared}\n{self.files[at][0]}"
            kinds = rf"(?:List (?:Event|Record|Entry|Act)|{self.named})"
            named = re.findall(rf"^abbrev (?:pub )?(\w+) : {kinds}\n\1 =\s+(.*?)\n(?:\n|\Z)", text,
                               re.M | re.S)
            calls = re.findall(r"^abbrev (?:pub )?(\w+) : [^\n=]*→ List (?:Event|Act)\n\1 ([\w ]+) =\s+"
                               r"(.*?)\n(?:\n|\Z)", text, re.M | re.S)
            self.kept[at] = ({name: " ".join(body.split()) for name, body in named},
                             {name: (words.split(), " ".join(body.split()))
                              for name, words, body in calls})
        return self.kept[at]


def put(text, named):
    """A text with these words written out."""
    return re.sub(r"(?<![\w.])[A-Za-z_]\w*", lambda it: named.get(it[0], it[0]), text)
