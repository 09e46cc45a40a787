#!/usr/bin/env python3
"""A board of hosts/el3, from boards/NAME/board:

    boards.py place NAME           place.h: what stands where, and the map of EL3
    boards.py tree NAME FILE       the guest's device tree for this machine, where the board has its own
    boards.py staged ADDRESS OUT TO FILE..   how QEMU loads images that the board places; the table of them into OUT
    boards.py rows                 the table of README
    boards.py check                whether each board's place.h is that of its board, and each has at most 200 lines

A line of that file is a name and what it says; several ranges and devices may stand there. Behind `device-tree` the rest
is what the guest's tree has besides cores, memory and PSCI; without it QEMU's own tree is taken.
"""
import glob
import os
import struct
import sys

sys.dont_write_bytecode = True
HERE = os.path.dirname(os.path.abspath(__file__))
MOST, STAGE, GUARD = 200, 1 << 20, 1 << 12

PAGE, LEVELS = 12, 4
# attributes of a block, whose descriptor ends with 1; a page's ends with 3. 0x40.. is never executed; bit 6 is always set in EL3
KINDS = {"code": 0x7c1, "device": 0x40000000000445, "secure": 0x40000000000741, "normal": 0x40000000000761}
# how many bits an address has, by the highest one, and what TCR_EL3 says of that: T0SZ, PS, and where walks begin
WIDTHS = ((32, 0), (36, 1), (40, 2), (48, 5))


def name_of(path):
    return os.path.basename(os.path.dirname(path))


class Board:
    """The lines of a board, by their first words."""

    def __init__(self, name):
        self.name, self.lines, self.tree = name, {}, None
        with open(f"{HERE}/boards/{name}/board", encoding="ascii") as file:
            text, mark, rest = file.read().partition("\ndevice-tree\n")
        self.tree = rest if mark else None
        for line in text.splitlines():
            if line and line[0] != "#":
                word, _, more = line.partition(" ")
                self.lines.setdefault(word, []).append(more)

    def get(self, word, without=None):
        return self.lines[word][0] if word in self.lines else without

    def numbers(self, word):
        return [int(it, 16) for it in self.get(word).split() if it.startswith("0x")]

    def gics(self):
        return [it for it in (2, 3) if f"gicv{it}" in self.lines]

    def rows(self):
        """How many cores QEMU has in a row, by the version of the interrupt controller; 0 is none."""
        return dict(zip(self.gics() or [0], map(int, self.get("rows").split())))

    def has_core(self):
        """Whether the power controller has a core of its own."""
        return self.get("controller") == "core"

    def ranges(self):
        for line in self.lines["range"]:
            first, end, kind = line.split()
            yield int(first, 16), int(end, 16), KINDS[kind]


# ---- the map

def entry_of(ranges, first, size):
    """What stands for these addresses: an attribute, 0, or None where it takes a table."""
    for begin, end, kind in ranges:
        if begin <= first and first + size <= end:
            return kind
    return None if any(begin < first + size and first < end for begin, end, _ in ranges) else 0


class Map:
    """The tables of a translation, each with the entries in it."""

    def __init__(self, ranges, stacks):
        self.ranges = list(ranges)
        self.stacks, self.size, self.end = stacks
        top = max(end for _, end, _ in self.ranges) - 1
        self.width, size = next((it for it in WIDTHS if top >> it[0] == 0))
        self.tcr = 0x80803500 | size << 16 | 64 - self.width
        self.start = next(level for level in range(LEVELS) if self.width > self.shift(level))
        self.tables = []
        self.table("map", self.start, 0, 1 << self.width - self.shift(self.start))

    @staticmethod
    def shift(level):
        return PAGE + 9 * (LEVELS - 1 - level)

    def entry(self, first, size):
        """Of the stacks the lowest page of each has no memory."""
        entry = entry_of(self.ranges, first, size)
        if not entry or first + size <= self.stacks or self.end <= first:
            return entry
        return None if size > GUARD else 0 if (first - self.stacks) % self.size < GUARD else entry

    def table(self, name, level, base, many):
        lines, size = [], 1 << self.shift(level)
        self.tables.append((name, lines))
        for at in range(many):
            first = base + at * size
            entry = self.entry(first, size)
            if entry is None and level == LEVELS - 1:
                sys.exit(f"boards.py: the page at {first:#x} is half in a range")
            if entry is None or (entry and level == 0):
                under = f"map_{len(self.tables)}"
                self.table(under, level + 1, first, 512)
                lines.append((f"{under} + 3", 1, None, None))
            elif not entry:
                self.add(lines, 0, 0, 0)
            else:
                self.add(lines, first, size, entry | 2 * (level == LEVELS - 1))

    @staticmethod
    def add(lines, first, size, kind):
        """One entry more, in a row of such ones if it goes on there."""
        if lines and lines[-1][2:] == (size, kind):
            was = lines.pop()
            lines.append((was[0], was[1] + 1, size, kind))
        else:
            lines.append((first, 1, size, kind))

    def guarded(self, lines):
        """How many stacks stand at the head of these lines, a page without memory and then the stack of each."""
        pages, many = self.size // GUARD - 1, 0
        while lines[2 * many:] and lines[2 * many][1:] == (1, 0, 0) and lines[2 * many + 1:] \
                and lines[2 * many + 1][1:3] == (pages, GUARD):
            many += 1
        return many

    def text(self):
        for name, lines in self.tables:
            yield "        .balign 4096"
            yield f"{name}:"
            while lines:
                many = self.guarded(lines)
                first, count, size, kind = lines[many > 0]
                if many:
                    yield f"        guarded {many}, {first:#x}, {count}, {kind:#x}"
                elif size is None:
                    yield f"        .quad   {first}"
                elif not kind:
                    yield f"        .zero   {8 * count}"
                else:
                    yield f"        entries {count}, {first:#x}, {size:#x}, {kind:#x}"
                lines = lines[2 * many or 1:]


# ---- place.h

def place_of(board):
    stacks = board.numbers("stacks")
    map_ = Map(board.ranges(), stacks)
    yield "/* What stands where on this board, of its `board`, by hosts/el3/boards.py. */"
    record = board.numbers("record")
    fixed = {"IMAGE": board.numbers("image")[0], "DATA": board.numbers("data")[0], "STACKS": stacks[0],
             "STACK": stacks[1], "STACKS_END": stacks[2], "GUARD": GUARD, "RECORD_START": record[0], "RECORD_END": record[1],
             "DEVICE_TREE": board.numbers("tree")[0], "UART": board.numbers("uart")[0],
             "FREQUENCY": int(board.get("frequency")), "TCR": map_.tcr}
    for version in board.gics():
        fixed["GICD"], fixed["GICC" if version == 2 else "GICR"] = board.numbers(f"gicv{version}")
    for line in board.lines.get("device", []):
        name, at = line.split()
        fixed[name] = int(at, 16)
    yield from (f"#define {name} {value:#x}" for name, value in fixed.items())
    yield "\n#ifdef MAP"
    yield from map_.text()
    yield "#endif"


# ---- the guest's device tree

def tree_of(board, path):
    with open(path, encoding="ascii") as file:
        lines = [line.split() for line in file]
    mpidrs = [int(it[1], 16) for it in lines if it and it[0] == "core"]
    row = int(board.get("rows"))
    first, end = (int(it, 16) for it in board.get("enter").split("-"))
    print("/dts-v1/;\n/ { #address-cells = <2>; #size-cells = <2>; compatible = \"" + board.get("compatible") + "\";")
    print('    cpus { #address-cells = <2>; #size-cells = <0>; cpu-map { };')
    for it in mpidrs:
        print(f'        cpu@{(it >> 8) * row + it % 256} {{ device_type = "cpu"; compatible = "arm,armv8"; '
              f'reg = <0 {it:#x}>; enable-method = "psci"; }};')
    cells = " ".join(f"{it >> 32:#x} {it & 0xffffffff:#x}" for it in (first, end - first))
    print(f'    }};\n    memory@{first:x} {{ device_type = "memory"; reg = <{cells}>; }};\n    chosen {{ }};\n}};\n/ {{')
    print(board.tree, end="};\n")


# ---- images that a board places itself

def staged(at, out, *images):
    """Writes where each image goes, how long it is and where it was loaded, and prints how QEMU loads it there."""
    table, at = b"", int(at, 16)
    print(f"-device loader,file={out},addr={at:#x},force-raw=on")
    for to, path in zip(images[::2], images[1::2]):
        at = -(-(at + 1) // STAGE) * STAGE
        size = os.path.getsize(path)
        table += struct.pack("<QQQ", int(to, 16), size, at)
        print(f"-device loader,file={path},addr={at:#x},force-raw=on")
        at += size
    with open(out, "wb") as file:
        file.write(table + bytes(24))


def lines_of(name):
    """How many lines the folder of a board has."""
    count = 0
    for path in glob.glob(f"{HERE}/boards/{name}/*"):
        with open(path, encoding="ascii") as file:
            count += len(file.readlines())
    return count


def every():
    return sorted(name_of(it) for it in glob.glob(f"{HERE}/boards/*/board"))


def rows():
    print("| Board | UART | Interrupts | Power controller | Woken by | Lines |\n|---|---|---|---|---|---|")
    for name in every():
        board = Board(name)
        gic = ", ".join(f"GICv{it}" for it in board.gics())
        print(f"| `{name}` | {board.get('uart').split()[0]} | {gic or 'hooks'} | "
              f"{'last core' if board.has_core() else 'monitors'} | {board.get('wakes')} | {lines_of(name)} |")


def check():
    wrong = []
    for name in every():
        with open(f"{HERE}/boards/{name}/place.h", encoding="ascii") as file:
            if file.read() != "\n".join(place_of(Board(name))) + "\n":
                wrong.append(f"boards/{name}/place.h is not that of its board")
        if lines_of(name) > MOST:
            wrong.append(f"boards/{name} has {lines_of(name)} lines, more than {MOST}")
    sys.exit("\n".join(wrong) or 0)


def main(word, *more):
    if word == "place":
        print("\n".join(place_of(Board(*more))))
    elif word == "tree":
        tree_of(Board(more[0]), more[1])
    elif word == "staged":
        staged(*more)
    elif word == "rows":
        rows()
    else:
        check()


if __name__ == "__main__":
    if len(sys.argv) < 2 or sys.argv[1] not in ("place", "tree", "staged", "rows", "check"):
        sys.exit(__doc__)
    main(*sys.argv[1:])
