"""What the code of an archive is, by a disassembler: x86-64 by `objdump`, aarch64 by the kit's.

Each line that the disassembler prints is read, or the reader ends with what it can't read. So it does where a call or a
jump leads to what is no function of the archive and none that its user gives, and where code takes the address of a
function: then a jump through a register, which is taken for one by a table, could leave its function.
"""
import os
import re
import shutil
import subprocess
import sys
from collections import namedtuple

KIT = os.path.dirname(os.path.dirname(os.path.realpath(shutil.which("rt") or "rt")))
# the number of a machine in an ELF file, its name, and the program that is its disassembler under the
# name that it is called by
MACHINES = {
    62: ("x86-64", "objdump", "objdump"),
    183: ("aarch64", "llvm-objdump", f"{KIT}/toolchain/bin/clang"),
}
# what the user of an archive gives
GIVEN = ("memcpy", "memmove", "memset", "rattle_alloc", "rattle_realloc", "rattle_dealloc")
PREFIXES = ("lock", "rep", "repz", "repnz", "data16", "addr32", "notrack", "bnd", "cs", "ds", "es", "fs", "gs", "ss")
BRANCHES = {"x86-64": re.compile(r"call\w*|j[a-z]+|loop\w*"),
            "aarch64": re.compile(r"bl|b|b\.[a-z]+|bc\.[a-z]+|cbn?z|tbn?z")}
INDIRECT = {"x86-64": re.compile(r"(call|jmp)\w* \*.*"), "aarch64": re.compile(r"(blr|br)(a[ab]z?)? .*")}
NO_CODE = ("(bad)", "<unknown>", ".word", ".inst", ".byte", ".long")
# sections whose relocations say where code stands and are not read by it
BESIDE = (".eh_frame", ".debug", ".note", ".comment", ".llvm", ".text")

# An instruction; the function whose first instruction its operand names, where it names one.
Instruction = namedtuple("Instruction", "word operands target")


def machine_of(archive):
    """The machine whose code the archive has."""
    with open(archive, "rb") as file:
        data = file.read()
    found = data.find(b"\x7fELF")
    number = int.from_bytes(data[found + 18:found + 20], "little")
    if found < 0 or number not in MACHINES:
        sys.exit(f"{archive} has no code of {' or '.join(it[0] for it in MACHINES.values())}")
    return MACHINES[number]


class Line:
    """An instruction as it is printed, and the relocation of it."""

    def __init__(self, address, text):
        self.address, self.moved = address, None
        self.word, _, self.rest = text.strip().partition("\t" if "\t" in text.strip() else " ")
        while self.word in PREFIXES and self.rest:
            self.word, _, self.rest = self.rest.strip().partition(" ")
        self.word, _, more = self.word.partition(" ")
        self.rest = f"{more} {self.rest}".strip()


class Code:
    """The functions of an archive: the instructions of each, by its name."""

    def __init__(self, archive):
        self.archive = archive
        self.machine, self.name, self.program = machine_of(archive)
        # of each function its section, where it begins there, and its lines; of each place the function there
        self.lines, self.begins = {}, {}
        self.read(self.said("-d", "-r", "--no-show-raw-insn"))
        self.functions = {name: [self.instruction(name, it) for it in lines]
                          for name, (_, _, lines) in self.lines.items()}
        self.look_at_tables(self.said("-r"))

    def said(self, *words):
        return subprocess.run([self.name, *words, self.archive], executable=self.program, text=True,
                              stdout=subprocess.PIPE, check=True).stdout

    def refuse(self, why):
        sys.exit(f"{self.archive}: {why}")

    def read(self, said):
        """Each line: of a section, of a function, an instruction, or what is filled in at a link."""
        section, inside, member = None, None, 0
        for line in said.splitlines():
            part = re.fullmatch(r"Disassembly of section (.+):", line)
            head = re.fullmatch(r"([0-9a-f]+) <(.+)>:", line)
            moved = re.fullmatch(r"\s+[0-9a-f]+:\s+(R_\w+)\s+(\S.*)", line)
            code = re.fullmatch(r"\s+([0-9a-f]+):\s+(\S.*)", line)
            if re.search(r":\s+file format \S+$", line):
                member += 1
            elif part:
                section, inside = (member, part[1]), None
            elif head:
                inside = self.begin(section, int(head[1], 16), head[2])
            elif moved and inside:
                inside[-1].moved = (moved[1], moved[2])
            elif code and inside is not None and not code[2].startswith(NO_CODE):
                inside.append(Line(int(code[1], 16), code[2]))
            elif line and not line.startswith("In archive "):
                self.refuse(f"can't read this line: {line.strip()}")

    def begin(self, section, address, name):
        """A function, which has a name of its own."""
        if name in self.lines:
            self.refuse(f"there are two of {name}")
        self.lines[name] = (section, address, [])
        self.begins.setdefault(section, {})[address] = name
        return self.lines[name][2]

    def instruction(self, name, line):
        """An instruction without the address of what it names, and comments."""
        rest = re.sub(r"\s*//.*", "", line.rest) if self.machine == "aarch64" else line.rest
        target = None
        if INDIRECT[self.machine].fullmatch(f"{line.word} {rest}"):
            target = None
        elif BRANCHES[self.machine].fullmatch(line.word):
            target = self.target(name, line, rest)
        elif line.moved:
            self.look_at_address(name, line)
        return Instruction(line.word, re.sub(r"(\s*#)?\s*\S+ <.*", "", rest), target)

    def target(self, name, line, rest):
        """The function that a branch leads to; none where it stays inside its own."""
        if line.moved:
            return self.moved_to(name, line)
        section, _, lines = self.lines[name]
        shown = re.search(r"(?:^|[\s,])(?:0x)?([0-9a-f]+) <.+>$", rest)
        if not shown:
            self.refuse(f"can't read where {name} goes: {line.word} {line.rest}")
        address = int(shown[1], 16)
        if address in self.begins[section]:
            return self.begins[section][address]
        if not lines[0].address < address <= lines[-1].address:
            self.refuse(f"{name} goes into the middle of another function: {line.word} {line.rest}")
        return None

    def symbol(self, kind, text):
        """What a relocation names, and how far behind it it is."""
        symbol, more = re.fullmatch(r"(.+?)([+-]0x[0-9a-f]+)?", text).groups()
        return symbol, int(more or "0", 16) + (4 if kind.startswith("R_X86_64_P") else 0)

    def function_at(self, name, symbol, offset):
        """The function that stands so far behind a symbol, where that is one of this archive's code."""
        if symbol in self.lines:
            section, begin, _ = self.lines[symbol]
            return self.begins[section].get(begin + offset)
        section = (self.lines[name][0][0], symbol)
        return self.begins[section].get(offset) if section in self.begins else None

    def moved_to(self, name, line):
        """Where a branch leads by its relocation."""
        symbol, offset = self.symbol(*line.moved)
        if symbol in GIVEN and offset == 0:
            return symbol
        found = self.function_at(name, symbol, offset)
        if not found:
            self.refuse(f"{name} goes to what is not there: {line.moved[1]}")
        return found

    def look_at_address(self, name, line):
        """Other instructions name data, and places inside their own function."""
        symbol, offset = self.symbol(*line.moved)
        is_code = symbol in self.lines or symbol.startswith(".text") or symbol in GIVEN
        if is_code and (symbol not in (name, f".text.{name}") or offset == 0):
            self.refuse(f"{name} takes the address of a function: {line.word} {line.moved[1]}")

    def look_at_tables(self, said):
        """What is kept of places in the code are tables by which a function jumps inside itself."""
        section = ""
        for line in said.splitlines():
            part = re.fullmatch(r"RELOCATION RECORDS FOR \[(.+)\]:", line)
            moved = re.fullmatch(r"[0-9a-f]+\s+(R_\w+)\s+(\S.*)", line)
            section = part[1] if part else section
            if not moved or section.startswith(BESIDE):
                continue
            symbol, _ = self.symbol(moved[1], moved[2])
            is_code = symbol in self.lines or symbol.startswith(".text") or symbol in GIVEN
            if is_code and symbol.removeprefix(".text.") != section.removeprefix(".rodata."):
                self.refuse(f"{section} keeps the address of a function: {moved[2]}")
