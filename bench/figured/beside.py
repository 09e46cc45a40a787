"""Turns of TF-A's lib/psci of each release beside those of the library: step by step, of its own code alone."""
import subprocess
import sys

from figured.calls import BOARD, PAGE
from figured.pages import TOP, Sentence, Table, grouped
from figured.turns import DENIED, INITIATED, MODES, SHAPES, SLEEP, TURNS

HEAD = "Instructions, turns beside TF-A"
PEERS = {"TF-A 2.8": "tfa", "TF-A 2.12": "tfa-2.12"}
# by their names in bench/programs/tfa/turns.c; nobody acknowledges to TF-A
NAMES = {"on": TURNS["on"], "suspend": TURNS["suspend"], "sleep": SLEEP, "initiated": INITIATED, "denied": DENIED,
         "modes": MODES, "core": TURNS["core"], "version": TURNS["version"]}
NOT_IN_2_8 = ("initiated", "denied", "modes")
# the page's figures are those of this version of gcc
COMPILER = "12.2.0"
NO_SOURCES = 3


def is_compiled_here():
    ran = subprocess.run(["cc", "-dumpfullversion"], text=True, capture_output=True, check=False)
    return ran.stdout.strip() == COMPILER


def counted(peer, shape, room):
    """The instructions of each turn; none where they can't be counted here."""
    path = f"{room}/{peer}"
    built = subprocess.run([f"{TOP}/bench/programs/tfa/build", peer, "turns", path, *map(str, shape)], check=False)
    if built.returncode == NO_SOURCES:
        return {}
    ran = subprocess.run([path], text=True, capture_output=True, check=False) if built.returncode == 0 else built
    if ran.returncode:
        sys.exit(f"bench/figures: {peer}: {ran.stderr or 'it cannot be built'}")
    return {name: grouped(number) for name, number in map(str.split, ran.stdout.splitlines())}


def table(turns, room):
    """Each turn on each board: that of the library, as its own table has it, and those of TF-A."""
    ours = {row[0]: row[1:] for row in turns.rows}
    found = {who: [counted(peer, SHAPES[board], room) if is_compiled_here() else {} for board, _ in BOARD.values()]
             for who, peer in PEERS.items()}
    rows = []
    for name, turn in NAMES.items():
        rows += [[f"{turn}: the library", *ours[turn]]] if turn in ours else []
        turn = turn.removesuffix(", acknowledgement")
        rows += [[f"{turn}: {who}", *(it.get(name) for it in boards)] for who, boards in found.items()
                 if name not in NOT_IN_2_8 or PEERS[who] != "tfa"]
    return Table(PAGE, [HEAD, *BOARD], rows)


def sentences(tables):
    """What README says of one turn: of the library with 4 cores, which 256 leave as it is, and of TF-A 2.12 with both."""
    rows = {row[0]: row[1:] for it in tables if it.head[0] == HEAD for row in it.rows}
    ours, theirs = rows[f"{TURNS['on']}: the library"], rows["CPU_ON, entry, CPU_OFF: TF-A 2.12"]
    found = [Sentence("README.md", "CPU_ON, entry, CPU_OFF and acknowledgement take", "instructions with 4 cores and with 256.",
                      ours[0] if ours[0] == ours[2] else f"{ours[0]} to {ours[2]}")]
    if theirs[0]:
        found += [Sentence("README.md", "which acknowledges nothing, takes", "and", theirs[0]),
                  Sentence("README.md", "and", "without locks and hooks", theirs[2])]
    return found
