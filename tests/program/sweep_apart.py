"""Stories of tests/program/swept that need more of a machine: a disk of their own, and clang with libFuzzer."""
import ctypes
import os
import re
import shutil
import subprocess

from sweep_room import Missing, wants

TARGET = os.path.join(os.path.dirname(os.path.abspath(__file__)), "sweep-target.c")
NEW_MOUNTS = 0x20000
SEEDS, COUNT, LENGTH = 6, 300, 8
# of one seed it cannot begin before there is a flag; of another one it finds no room for what it finds, once
HINDERED = """#!/bin/sh
case "$*" in
    *-seed=5*) [ -e {flag} ] || exit 1 ;;
    *-seed=7*) [ -e {flag}2 ] || {{
        {target} "$@"; status=$?
        for it; do last=$it; done
        for it in "$last"/*; do : > "$it"; break; done
        : > {flag}2
        exit $status
    }} ;;
esac
exec {target} "$@"
"""


def small_disk(path, words):
    """Puts a disk of these words there, which nobody else sees, and which goes with this process."""
    os.makedirs(path)
    if ctypes.CDLL(None).unshare(NEW_MOUNTS):
        raise Missing("leave to mount a disk")
    for command in (["mount", "--make-rprivate", "/"], ["mount", "-t", "tmpfs", "-o", words, "tmpfs", path]):
        if subprocess.run(command, stderr=subprocess.DEVNULL, check=False).returncode:
            raise Missing("leave to mount a disk")


def no_space(room):
    """A disk gets full in the middle of a sweep, and later has no room for a further file: what was finished
    stays, nothing half does, and it goes on."""
    disk = room.path("disk")
    small_disk(disk, "size=400k,nr_inodes=300")
    program = room.wrapped(f'[ -e "$flag" ] || {{ : > "$flag"; cat /dev/zero > {disk}/ballast 2> /dev/null; }}',
                           "--seed 9 ")
    words, named = ("disk/swept", "--chunk", "2", "--jobs", "1"), {"program": program}
    status, text, said = room.sweep(*words, **named)
    was = room.results("disk/swept")
    wants(status == 7 and "seeds: 1..8\nleft: 9..24\n" in text, f"on a full disk: status {status}: {text[:99]}{said}")
    wants(list(was) == [f"{it}.json" for it in range(4)], f"a full disk leaves {list(was)}")
    wants(said.count("no further chunk is begun") == 1, f"it goes on though nothing can be written: {said}")
    for it in ("ballast", "swept/logs/4"):
        os.unlink(f"{disk}/{it}")
    fillers = []
    try:
        while True:
            fillers.append(f"{disk}/filler{len(fillers)}")
            with open(fillers[-1], "wb"):
                pass
    except OSError:
        pass
    status, text, said = room.sweep(*words, **named)
    wants(status == 7 and said.count("No space left on device; no further chunk") == 1, f"status {status}: {said}")
    wants(room.results("disk/swept") == was, "without room for a file something was written, or is lost")
    for it in fillers[:-1]:
        os.unlink(it)
    room.is_good(room.sweep(*words, **named))
    now = room.results("disk/swept")
    wants(all(now[it] == was[it] for it in was), "a finished chunk was done twice")


def built(room, *words):
    """The target of these stories."""
    path = room.path("-".join(["target", *words]).replace("=", ""))
    ran = shutil.which("clang") and subprocess.run(["clang", "-O0", "-fsanitize=fuzzer", *words, TARGET, "-o", path],
                                                   capture_output=True, check=False)
    if not ran or ran.returncode:
        raise Missing("clang with libFuzzer")
    return path


def reached(target, *folders):
    """What the inputs in these folders reach of the target's branches, as libFuzzer counts it."""
    ran = subprocess.run([target, "-runs=0", *folders], capture_output=True, text=True, check=True)
    return re.search(r"(?:INITED|DONE) +(cov: [0-9]+ ft: [0-9]+) ", ran.stderr)[1]


def by_hand(room, target):
    """What each seed finds, by libFuzzer alone."""
    folders = []
    for seed in range(1, SEEDS + 1):
        folders.append(room.path(f"hand{seed}"))
        os.makedirs(folders[-1])
        subprocess.run([target, f"-seed={seed + 1}", f"-runs={COUNT + 1}", f"-max_len={LENGTH}", "-reload=0",
                        f"-seed_inputs={room.path('start/one')}", folders[-1]], check=True, stderr=subprocess.DEVNULL)
    return folders


def led(room, out, target, *more):
    words = [f"{room.top}/psci", "sweep", "fuzz", "--out", room.path(out), "--seeds", f"1..{SEEDS}", "--count",
             str(COUNT), "--length", str(LENGTH), "--corpus", room.path("start"), "--target", target, *more]
    ran = subprocess.run(words, capture_output=True, text=True, check=False, stdin=subprocess.DEVNULL)
    return ran.returncode, ran.stdout, ran.stderr


def fuzz(room):
    """What seeds of a fuzzer found is merged once all are done, and reaches all that they did."""
    target = built(room)
    os.makedirs(room.path("start"))
    with open(room.path("start/one"), "wb") as file:
        file.write(b"begin")
    folders = by_hand(room, target)
    all_of_them = reached(target, *folders, room.path("start"))
    wants(all(reached(target, *folders[:at], *folders[at + 1:], room.path("start")) != all_of_them
              for at in range(SEEDS)), "some seed finds nothing of its own")
    status, text, said = led(room, "led", target, "--chunk", "1")
    kept = sum(len(os.listdir(it)) for it in folders)
    wants(status == 0 and f"{SEEDS} runs, {SEEDS * (COUNT + 1)} inputs, {kept} kept" in text, f"{status}: {text}{said}")
    wants(reached(target, room.path("led/corpus")) == all_of_them, "the merged corpus reaches less")
    # a target that cannot begin is no difference of its seed, and nothing is merged before that is done
    hindered = room.path("hindered/target")
    os.makedirs(os.path.dirname(hindered))
    with open(hindered, "w", encoding="utf-8") as file:
        file.write(HINDERED.format(flag=f"{hindered}.flag", target=target))
    os.chmod(hindered, 0o755)
    status, _, said = led(room, "led3", hindered, "--chunk", "4", "--jobs", "1")
    wants(status == 7 and not os.path.exists(room.path("led3/corpus")), f"it is merged with status {status}: {said}")
    with open(f"{hindered}.flag", "wb"):
        pass
    status, another, said = led(room, "led3", hindered)
    wants(status == 0 and another == text, f"another report: {another}{said}")
    wants(reached(target, room.path("led3/corpus")) == all_of_them, "cut otherwise, the merged corpus reaches less")


def fuzz_differs(room):
    """An input that ends the target is kept, and ends it again."""
    target = built(room, "-DDOOR=85")
    os.makedirs(room.path("start"), exist_ok=True)
    status, text, said = led(room, "ends", target, "--chunk", "2")
    first = re.search(r"differs: [0-9]+ x status 77: libFuzzer: deadly signal\n  the first: seed ([0-9]+), ", text)
    wants(status == 6 and first, f"status {status}: {text}{said}")
    kept = room.path(f"ends/failed/{os.path.basename(target)}-{first[1]}.input")
    ran = subprocess.run([target, kept], capture_output=True, check=False)
    wants(ran.returncode == 77, f"with the kept input it ends with {ran.returncode}")
    wants(os.path.isdir(room.path("ends/corpus")), "where a seed differs, nothing is merged")


APART = {it.__name__: it for it in (no_space, fuzz, fuzz_differs)}
