"""The size of each archive, what ports link of it, the bound of the stack of each call, and a board's memory."""
import os
import subprocess
import sys
import tempfile

from figured.pages import TOP, Sentence, Table, grouped

sys.path.insert(0, f"{TOP}/tools")
from sources import KIT

PAGE = "docs/port/REFERENCE.md"
# the columns of the table of code: what each is called, and its archive
COLUMNS = {
    "x86-64": "x86_64/libpsci_ffi.a",
    "aarch64": "aarch64/libpsci_ffi.a",
    "aarch64, aligned": "aarch64/libpsci_ffi-strict-align.a",
}
STEPPED = "x86-64, stepped"
CODE = ["Bytes", *COLUMNS]
STACK = ["Stack, bytes", *COLUMNS, STEPPED]
# what a port links that makes these calls alone
CALLS = ("psci_smc", "psci_enter", "psci_take")
KICKS = ("psci_ctl_deliver", "psci_ctl_wake", "psci_ctl_reset", "psci_ctl_started")
LINKED = {
    "linked: a firmware, opened from a struct": ("psci_open_board", *CALLS),
    "linked: a firmware, opened from a text": ("psci_open", *CALLS),
    "linked: a power controller, opened from a struct": ("psci_ctl_open_board", *KICKS),
}
MEMORY = ["Board", "kept, bytes", "in requests", "at most at one time, bytes", "a power controller, bytes"]


def row_of(part, times):
    """So many of these parts of a tree, side by side."""
    return f"({' '.join([part] * times)})"


TREES = {
    "one core": "1",
    "`(2 2)`": "(2 2)",
    "`(4 4 4 4)`": "(4 4 4 4)",
    "sixteen clusters of 16": row_of("16", 16),
    "four groups of four clusters of 16": row_of("(16 16 16 16)", 4),
    "256 clusters of one core, in sixteen groups": row_of(row_of("1", 16), 16),
}


def said(*command, **more):
    return subprocess.run(command, cwd=TOP, text=True, stdout=subprocess.PIPE, check=True, **more).stdout


class Archives:
    """The three archives: those that ./psci prove lib builds, or others in their place."""

    def __init__(self, folder):
        self.paths = {column: f"{folder}/{path}" for column, path in COLUMNS.items()}
        for path in self.paths.values():
            if not os.path.exists(path):
                sys.exit(f"bench/figures: there is no {path}, which ./psci prove lib builds")

    def size(self, path):
        """The bytes of text, constants and data of an archive or of what was linked."""
        rows = [line.split() for line in said("size", path).splitlines()[1:]]
        return sum(int(it) for row in rows for it in row[:3])

    def linked(self, column, calls):
        """How many bytes of an archive these calls reach."""
        machine = "elf_x86_64" if column.startswith("x86-64") else "aarch64linux"
        roots = [word for name in calls for word in ("-u", name)]
        with tempfile.TemporaryDirectory() as room:
            said(f"{KIT}/toolchain/bin/ld.lld", "-m", machine, "--gc-sections", "-e", calls[0], *roots,
                 "--unresolved-symbols=ignore-all", "-o", f"{room}/linked", self.paths[column])
            return grouped(self.size(f"{room}/linked"))

    def code(self):
        sizes = [grouped(self.size(path)) for path in self.paths.values()]
        return Table(PAGE, CODE, [["text and constants", *sizes],
                                  *([name, *(self.linked(column, calls) for column in COLUMNS)]
                                    for name, calls in LINKED.items())])

    def bounds(self):
        """The stack of each call, by the code of each archive."""
        found = {}
        for column, path in self.paths.items():
            for line in said("tests/hosts/stack-need", path).splitlines():
                name, most = line.split()
                found.setdefault(name, {})[column] = int(most)
        return found

    def memory(self):
        with tempfile.TemporaryDirectory() as room:
            program, programs = f"{room}/memory", "tests/hosts/programs"
            said("cc", "-std=c11", "-O2", "-Iinclude", "-o", program, f"{programs}/memory.c",
                 f"{programs}/counted.c", self.paths["x86-64"])
            lines = said(program, *TREES.values()).splitlines()
        return Table(PAGE, MEMORY, [[name, *map(grouped, line.split())]
                                    for name, line in zip(TREES, lines, strict=True)])


def stack_table(bounds, stepped):
    """The bound of each call in each archive, and what was seen of it at most. Calls of the same figures share a row."""
    rows = {}
    for name, most in sorted(bounds.items()):
        figures = (*(grouped(most[it]) for it in COLUMNS), grouped(stepped.get(name, 0)))
        rows.setdefault(figures, []).append(f"`{name}`")
    return Table(PAGE, STACK, [[", ".join(names), *figures] for figures, names in rows.items()])


def sentences(bounds):
    """What docs/port/TFA.md says of the archive that is linked into TF-A."""
    most = {name: grouped(it["aarch64, aligned"]) for name, it in bounds.items()}
    return [Sentence("docs/port/TFA.md", "By the code `psci_open_board` takes", "bytes of it at most",
                     most["psci_open_board"]),
            Sentence("docs/port/TFA.md", "A call takes", "bytes of the library at most", most["psci_smc"]),
            Sentence("docs/port/TFA.md", "bytes of the library at most, an entry", "bytes. There is no vector", most["psci_enter"])]


def too_deep(bounds, stepped):
    """The calls that take more than their bound, that no step was taken in, or that an archive has not."""
    found = [f"{name}: {most} bytes of stack were taken, and the code is said to take "
             f"{bounds.get(name, {}).get('x86-64', 0)}" for name, most in stepped.items()
             if most > bounds.get(name, {}).get("x86-64", 0)]
    found += [f"{name}: not stepped" for name in bounds if name not in stepped]
    return found + [f"{name}: not in each archive" for name, most in bounds.items() if len(most) < len(COLUMNS)]
