"""Turns of calls, in the state in which they usually come: each call of a turn is counted alone, and the sum is said."""
import re
import shutil
import subprocess

from figured.calls import BOARD, PAGE
from figured.library import said
from figured.pages import Table, grouped

HEAD = "Instructions, turns"
ON_AARCH64 = ["Instructions on aarch64, 4 cores", "general registers", "and aligned accesses"]
# of each board its children from the cores' level up
SHAPES = {"2x2": (2, 2), "16x4": (16, 4), "16x16": (16, 16), "16x4x4": (16, 4, 4), "1x16x16": (1, 16, 16)}
ENTRY = "0x40001000"
# the turns of bench/programs/calls, and what they are called
TURNS = {"on": "CPU_ON, entry, CPU_OFF, acknowledgement", "suspend": "CPU_SUSPEND to the system, wake-up",
         "core": "AFFINITY_INFO of a core", "system": "AFFINITY_INFO of the system", "version": "PSCI_VERSION",
         "poll": "a poll"}
SLEEP, MODES = "SYSTEM_SUSPEND, wake-up", "OS-initiated mode and back"
# a turn beside cores that are suspended, each to the system
LATER = "the same, every other core suspended"
STANDBY = "CPU_SUSPEND to standby, wake-up"
INITIATED, DENIED = (f"CPU_SUSPEND to the system, OS-initiated, {it}" for it in ("wake-up", "denied"))


def lists(board):
    """The calls of each turn of the last core: what has happened before, and the call. Every other core is off, but for
    core 0 in the first turn."""
    shape = SHAPES[board]
    cores = shape[0] * shape[1] * (shape[2] if len(shape) > 2 else 1)
    last, height = cores - 1, len(shape)
    word = sum((width - 1) << 8 * at for at, width in enumerate(shape))
    deep = f"{height << 24 | 1 << 16 | int('3' * (height + 1), 16):#x}"
    on = f"on {last}-{last}; enter {last}-{last}"
    alone = f"{on}; off 0-0; deliver 0-0; take 0-0"
    others = f"on 1-{last}; enter 1-{last}; suspend 0-{last - 1} {deep}"
    return {
        TURNS["on"]: [("", f"smc 0 0xc4000003 {word:#x} {ENTRY} 7"), (f"on {last}-{last}", f"enter {last} 1 1 1"),
                      (on, f"smc {last} 0x84000002 0 0 7"), (f"{on}; off {last}-{last}", f"take {last} 0x11 1 4")],
        TURNS["suspend"]: [(alone, f"smc {last} 0xc4000001 {deep} {ENTRY} 7"),
                           (f"{alone}; suspend {last}-{last} {deep}", f"enter {last} 1 2 2")],
        LATER: [(others, f"smc {last} 0xc4000001 {deep} {ENTRY} 7"),
                (f"{others}; suspend {last}-{last} {deep}", f"enter {last} 1 2 2")],
        STANDBY: [(alone, f"smc {last} 0xc4000001 0x1 {ENTRY} 7"),
                  (f"{alone}; suspend {last}-{last} 0x1", f"enter {last} 1 2 2")],
        SLEEP: [(alone, f"smc {last} 0xc400000e {ENTRY} 7 7"),
                (f"{alone}; sleep {last}-{last}", f"enter {last} 1 2 2")],
        MODES: [(alone, f"smc {last} 0x8400000f 1 0 7"),
                (f"{alone}; mode 1", f"smc {last} 0x8400000f 0 0 7")],
        INITIATED: [(f"{alone}; mode 1", f"smc {last} 0xc4000001 {deep} {ENTRY} 7"),
                    (f"{alone}; mode 1; suspend {last}-{last} {deep}", f"enter {last} 1 2 2")],
        DENIED: [(f"{on}; mode 1", f"smc {last} 0xc4000001 {deep} {ENTRY} 7")],
        TURNS["core"]: [(alone, f"smc {last} 0xc4000004 {word:#x} 0 7")],
        TURNS["system"]: [(alone, f"smc {last} 0xc4000004 0 {height} 7")],
        TURNS["version"]: [(alone, f"smc {last} 0x84000000 0 0 7")],
        TURNS["poll"]: [(alone, f"poll {word:#x}")],
    }


def turns(program):
    """The table of turns on each board."""
    rows = {}
    for board, machine in BOARD.values():
        for name, steps in lists(board).items():
            found = program.replay([" | ".join((board, machine, before, call)) for before, call in steps])
            rows.setdefault(name, []).append(grouped(sum(it.instructions for it in found)))
    return Table(PAGE, [HEAD, *BOARD], [[name, *row] for name, row in rows.items()])


def emulated(path, what, times):
    """The instructions of a whole run, by an emulator that takes one at a time."""
    command = ["qemu-aarch64-static", "-singlestep", "-d", "nochain,exec", "-D", "/dev/stdout", path, "(2 2)", "257", what,
               str(times)]
    with subprocess.Popen(command, stdout=subprocess.PIPE) as ran:
        count = sum(it.startswith(b"Trace") for it in ran.stdout)
    return count


def on_aarch64(archives, room):
    """The same on `(2 2)` by the archives for aarch64, with the loop that calls. None where there is no emulator."""
    rows = {what: [TURNS[what]] for what in TURNS}
    for column in ("aarch64", "aarch64, aligned"):
        path = f"{room}/{re.sub('[^a-z0-9]', '', column)}"
        is_here = all(map(shutil.which, ("qemu-aarch64-static", "aarch64-linux-gnu-gcc")))
        if is_here:
            said("aarch64-linux-gnu-gcc", "-std=c11", "-O2", "-static", "-Iinclude", "-Ihosts", "-o", path,
                 "bench/programs/calls/main.c", "hosts/pool.c", archives.paths[column])
        for what, row in rows.items():
            row.append(grouped((emulated(path, what, 30) - emulated(path, what, 10)) // 20) if is_here else None)
    return Table(PAGE, ON_AARCH64, list(rows.values()))

