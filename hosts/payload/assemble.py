#!/usr/bin/env python3
"""Makes an image of the payload and a list of calls: assemble.py PAYLOAD LIST IMAGE

A list has a line for each step:
    CORE call  X0 [X1 X2 X3]           a call that returns
    CORE stop  X0 [..]                 a call that may not return: the next step begins with it
    CORE sleep X0 [..] for MICROSECONDS
                                       a suspend with the core's timer set, until it returns or the core enters
    CORE poll  X0 [..] until CODE      repeats the call until it returns CODE, for at most 300 ms
    CORE visit X0 [..] [by WORD]
                                       a CPU_ON whose target goes off as soon as it enters, by CPU_OFF or first by this
                                       word, until AFFINITY_INFO says so
    CORE await CORE TIMES              until that core has entered TIMES times, for at most 300 ms
    CORE delay MICROSECONDS
    CORE beat                          counts for ever, also behind the end of the life, which the record then tells
    CORE quiet CORE                    whether that core, which is to stand, still counts
    CORE open SGI                      turns this software interrupt on for the core
    CORE ring CORE SGI                 makes it pending for that core
    CORE rung SGI                      whether it is pending for this core
    CORE leave SPI                     a shared interrupt is on and pending
    CORE left                          whether any but the timer's is on, pending or active
    CORE mark                          a trap in HCR_EL2, which the core's next entry must not find there
    CORE storm SEED MANY STANDBY DOWN [1]
                                       MANY drawn calls of each core, with these power states (0: none); with 1
                                       every second call is a rare one, good or bad
    reset                              the steps after it are played after a reset of the system
A step begins when all before it are over, or after 3 s; one that begins with + runs beside the one before.
Words are numbers, E0 to E15 (the payload's entry points), E1+2, B+16 or B-16 (beside where it is loaded), P+16 (beside
its entry points far from it, places.c), and names of functions, as CPU_ON_64.
"""
import os
import struct
import sys
import zlib

sys.dont_write_bytecode = True
TOP = os.path.dirname(os.path.dirname(os.path.dirname(os.path.abspath(__file__))))
sys.path[:0] = [f"{TOP}/tools", f"{TOP}/model"]
from judge.words import word_of

KINDS = ("call", "stop", "poll", "sleep", "delay", "await", "storm", "visit",
         "beat", "quiet", "open", "ring", "rung", "leave", "left", "mark")
# a word that counts from the entry points, or from where the image is
FROM_ENTRIES, FROM_IMAGE = 1, 16
# where the far entry points are, from the image
PLACES = 0x1000000
# a list has this room in the image
MOST = 0x10000


def word(text):
    """A word's value, and from where it counts."""
    if text[0] == "E" and text[1:2].isdigit():
        entry, _, more = text[1:].partition("+")
        return 8 * int(entry) + int(more or "0", 0), FROM_ENTRIES
    if text[0] in "BP":
        return (int(text[1:] or "0", 0) + PLACES * (text[0] == "P")) % 2**64, FROM_IMAGE
    try:
        return int(text, 0) % 2**64, 0
    except ValueError:
        return word_of(text), 0


def step(core, kind, words, need, life):
    """The bytes of a step."""
    more = word("CPU_OFF")[0] if kind == "visit" else 0
    if kind in ("sleep", "poll") or "by" in words:
        more = word(words[-1])[0]
        words = words[:-2]
    elif kind in ("await", "delay", "storm", "ring"):
        at = 0 if kind == "delay" else 1
        more = int(words[at], 0)
        words = words[:at] + words[at + 1:]
    values = [word(it) for it in words] + [(0, 0)] * (4 - len(words))
    relative = sum(origin << at for at, (_, origin) in enumerate(values))
    return struct.pack("<IBBBB5Q", need, core, KINDS.index(kind), relative, life, *[it for it, _ in values], more)


def steps(lines):
    """The bytes of all steps, and how many they are."""
    made, need, life = [], 0, 0
    for number, line in enumerate(lines, 1):
        text = line.partition("#")[0].strip()
        if text == "reset":
            life += 1
        elif text:
            if text[0] != "+":
                need = len(made)
            try:
                core, kind, *words = text.lstrip("+ ").split()
                made.append(step(int(core), kind, words, need, life))
            except (ValueError, IndexError):
                sys.exit(f"assemble.py: line {number}: not a line of a list")
    return b"".join(made), len(made)


def image(payload, lines):
    """The payload with this list behind it."""
    body, many = steps(lines)
    whole = struct.pack("<II", many, zlib.crc32(body) | 1) + body
    if len(whole) > MOST:
        sys.exit("assemble.py: the list is too long")
    return payload + whole


def main():
    if len(sys.argv) != 4:
        sys.exit(__doc__)
    with open(sys.argv[1], "rb") as file:
        payload = file.read()
    with open(sys.argv[2], encoding="ascii") as file:
        whole = image(payload, file)
    with open(sys.argv[3], "wb") as file:
        file.write(whole)


if __name__ == "__main__":
    main()
