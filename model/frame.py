"""Frames of messages and acknowledgements, from docs/port/FORMATS.md alone: how each is spelled in bytes, the
first fault of bytes that are none, and what a frame says."""
from firmware import Ack, Message

LENGTH, HEADER, PART, MAGIC = 53, 13, 10, b"\x50\x44"
KINDS = ("down", "start", "off", "reset")
FAULTS = ("Length", "Magic", "Kind", "Count", "Unused", "Core", "Depth", "Level")


def spelled(frame):
    """The bytes of a message or an acknowledgement."""
    is_ack = isinstance(frame, Ack)
    high = (2 if frame.stale else 1) if is_ack else 0
    parts = () if is_ack else frame.parts
    count = frame.applied if is_ack else len(parts)
    head = MAGIC + bytes((high << 4 | KINDS.index(frame.kind) + 1, frame.core))
    head += frame.life.to_bytes(4, "big") + frame.number.to_bytes(4, "big") + bytes((count,))
    for level, depth, generation in parts:
        head += bytes((level, depth)) + generation.to_bytes(8, "big")
    return head.ljust(LENGTH, b"\0")


def heading(byte):
    """What a kind byte says: message, acknowledgement or a stale one, and the kind; or nothing."""
    high, low = byte >> 4, byte & 15
    return (high, KINDS[low - 1]) if high <= 2 and 1 <= low <= 4 else None


def most(high, kind):
    """The counts that go with a kind."""
    if high == 0:
        return range(1, 5) if kind == "down" else range(1)
    return range(5) if kind == "down" else range(2)


def parts_in(frame, count):
    fields = [frame[HEADER + PART * at:HEADER + PART * (at + 1)] for at in range(count)]
    return tuple((it[0], it[1], int.from_bytes(it[2:], "big")) for it in fields)


def first_fault(frame, board):
    """The number of the first fault in the table of docs/port/FORMATS.md, or None where there is none."""
    if len(frame) != LENGTH:
        return 1
    if frame[:2] != MAGIC:
        return 2
    says = heading(frame[2])
    if says is None:
        return 3
    if frame[12] not in most(*says):
        return 4
    count = frame[12] if says[0] == 0 else 0
    if any(frame[HEADER + PART * count:]):
        return 5
    if frame[3] not in board.cores:
        return 6
    parts = parts_in(frame, count)
    depths = [depth for _, depth, _ in parts]
    if any(not 1 <= depth <= 3 for depth in depths) or depths != sorted(depths, reverse=True):
        return 7
    if [level for level, _, _ in parts] != list(range(count)) or count > board.height + 1:
        return 8
    return None


def said_by(frame):
    """The message or the acknowledgement that bytes without a fault are."""
    high, kind = heading(frame[2])
    life, number = (int.from_bytes(frame[at:at + 4], "big") for at in (4, 8))
    if high == 0:
        return Message(kind, frame[3], life, number, parts_in(frame, frame[12]))
    return Ack(kind, frame[3], life, number, frame[12], high == 2)
