"""Holds the frames of frame.py to frames that were recorded, and to themselves.

`records` reads each frame of the stored records, and spells what the model sends in the same runs; `random` reads
frames that were drawn, and the same with a byte changed.
"""
import os
import random as randoms
import re
import sys
import tarfile
from collections import Counter

import frame as frames
from board import Board
from firmware import Ack, Message
from script import World, answer

TOP = os.path.dirname(os.path.dirname(os.path.abspath(__file__)))
sys.path.insert(0, f"{TOP}/tools")
from views.record import Record as Run

# how often each fault has to come
LEAST = 20
# records whose runs the model goes through, besides reading their frames
RUNS = ("short.record", "probe.record", "os-initiated.record")
BOARDS = ("2 exec 0x0-0x4 boot 0x0 starts 9 lives 9", "(2 2) exec 0x0-0x4 boot 0x0 starts 9 lives 9",
          "((1 2) (3)) exec 0x0-0x4 boot 0x0 starts 9 lives 9")


# ---- the records

def stored():
    """The stored records: their names and lines."""
    with open(f"{TOP}/tests/hosts/records/{RUNS[0]}", encoding="ascii") as file:
        yield RUNS[0], file.read().splitlines()
    with tarfile.open(f"{TOP}/hosts/el3/runs.tar.xz") as tar:
        for it in tar:
            yield it.name, tar.extractfile(it).read().decode().splitlines()


def written(digits):
    return bytes.fromhex(digits).ljust(frames.LENGTH, b"\0")


def faults_of(lines):
    """What is wrong with the frames of a record: each has no fault, and spells what it says."""
    board = Board(lines[0].removeprefix("board "))
    for digits in dict.fromkeys(re.findall(r"\b5044[0-9a-f]+\b", "\n".join(lines))):
        it = written(digits)
        fault = frames.first_fault(it, board)
        if fault or frames.spelled(frames.said_by(it)) != it:
            yield f"{digits} has fault {fault}, or is spelled otherwise"


def sent_in(lines):
    """The messages and the acknowledgements that the lines of a record tell, in their order."""
    sent = [line.rpartition(" ")[2] for line in lines if re.match(r"(call|enter) .* 5044[0-9a-f]+$", line)]
    acks = [line.rpartition(" ")[2] for line in lines if re.match(r"deliver .* -> 5044[0-9a-f]+$", line)]
    return [written(it) for it in sent], [written(it) for it in acks]


def records():
    """Whether the frames of the stored records are read, and those of their runs spelled, as they stand."""
    wrong, many = [], 0
    for name, lines in stored():
        wrong += [f"{name}: {it}" for it in faults_of(lines)]
        if name in RUNS:
            world = World(Board(lines[0].removeprefix("board ")))
            for event in Run(lines).events:
                answer(world, event.text)
            spelled = [frames.spelled(it) for it in world.sent], [frames.spelled(it) for it in world.acks]
            many += len(spelled[0]) + len(spelled[1])
            if spelled != sent_in(lines):
                wrong.append(f"{name}: the frames of the run are not those of the record")
    print("\n".join(wrong) or f"each frame of the records is read; {many} frames of runs are spelled as recorded")
    return 1 if wrong or not many else 0


# ---- random frames

def drawn(draw, board):
    """A message or an acknowledgement of the board."""
    kind, core = draw.choice(frames.KINDS), draw.choice(board.cores)
    life, number = (draw.choice((0, 1, draw.getrandbits(32))) for _ in range(2))
    if draw.randrange(2):
        return Ack(kind, core, life, number, draw.randrange(5 if kind == "down" else 2), draw.choice((False, True)))
    many = draw.randrange(1, board.height + 2) if kind == "down" else 0
    depths = sorted((draw.randrange(1, 4) for _ in range(many)), reverse=True)
    return Message(kind, core, life, number,
                   tuple((level, depth, draw.getrandbits(64)) for level, depth in enumerate(depths)))


def bent(draw, it):
    """The same bytes with one changed, or one more or less."""
    where, it = draw.choice((draw.randrange(frames.LENGTH), draw.randrange(24))), bytearray(it)
    it[where] = draw.choice((draw.randrange(256), draw.randrange(5), it[where] ^ 0x10, it[where] ^ 1))
    return bytes(draw.choice((it,) * 14 + (it[:-1], it + b"\0")))


def random(count, seed):
    """Whether frames say what they spell, and bytes without a fault are spelled in that one way."""
    draw, seen = randoms.Random(seed), Counter()
    for _ in range(count):
        board = Board(draw.choice(BOARDS))
        said = drawn(draw, board)
        it = frames.spelled(said)
        other = bent(draw, it)
        fault = frames.first_fault(other, board)
        seen[fault] += 1
        if frames.first_fault(it, board) or frames.said_by(it) != said:
            print(f"{said} is not read as it is spelled: {it.hex()}")
            return 1
        if fault is None and frames.spelled(frames.said_by(other)) != other:
            print(f"{other.hex()} is read, and spelled otherwise")
            return 1
    few = [at for at in (None, *range(1, len(frames.FAULTS) + 1)) if seen[at] < LEAST]
    print(f"{count} frames are read as they are spelled; of those that were bent {seen[None]} have no fault")
    if few and count >= 5000:
        print(f"seldom: faults {few}")
        return 1
    return 0
