"""What runs against each wrong body, and what it wants: the answers that are stored, those of the second model, or
what the same program does with no wrong body at work.

A killer is a name and a function that says whether a program with a number at work does otherwise. What comes to no
end does otherwise.
"""
import errno
import functools
import glob
import os
import pickle
import re
import shutil
import struct
import subprocess
import sys
import tempfile
import time
from collections import namedtuple
from concurrent.futures import ProcessPoolExecutor

import repo
import schema

Killer = namedtuple("Killer", "name differs")
Stored = namedtuple("Stored", "name script out err status")
# in seconds: more than any of these takes with no wrong body at work, on a busy machine
PATIENCE = 20
# how many random scripts of the second model there are, and how many of them are drawn together
RANDOM, TOGETHER = 2000, 100
# how the names of the program's killers begin
OF_PROGRAM = ("script", "random", "storm", "threads", "show", "whole")
CACHE = f"{os.environ.get('XDG_CACHE_HOME') or os.path.expanduser('~/.cache')}/gumdarts/mutants"
# threads of the program, each a run that is audited
THREADS = [("threads", "--seed", str(seed), "--count", "200") for seed in range(1, 6)]
# tests of the built program as a whole, which are functions of tests/program/*.sh
WHOLE = ("command_lines", "streams", "slow_pipe", "by_hand", "storms", "kept_storms", "core_threads",
         "thread_counts", "kept_threads", "frames_travel", "no_threads", "storm_counts", "little_memory", "long_scripts")
ALONE = """
top=$1 program=$2 work=$3 patience=60 failed=0
cd "$top" || exit 2
say() { :; }
pass() { :; }
fail() { failed=1; }
skip() { :; }
has_python() { :; }
has_full() { [ -c /dev/full ]; }
same() { if [ -f "$1" ]; then cmp -s "$1" "$2"; else [ ! -s "$2" ]; fi; }
for part in program long-scripts; do . "tests/program/$part.sh"; done
"$4"
exit "$failed"
"""
# a program over the C library: its sources beside the heap's, and its words: RECORD is a file that it writes, FOLDER a folder
# of its own
Program = namedtuple("Program", "name sources words")
TESTS, HOSTS = "tests/hosts/programs", "hosts"
RECORD_BOARD = "(1 3) exec 0x40000000-0x50000000 boot 0x40200000 starts 6 lives 40"
REST = " exec 0x40000000-0x40100000 boot 0x40000000 starts 9 lives 3"
PROGRAMS = [
    *(Program(name, (f"{TESTS}/{name}.c", "hosts/pool.c"), ()) for name in
      ("library", "controller", "guest", "lines", "machine-sizes")),
    Program("heaps", (f"{TESTS}/heaps.c",), ()),
    *(Program(name, (f"hosts/{name}.c", "hosts/machine.c", "hosts/pool.c"), ()) for name in
      ("rules", "resets", "link", "lock", "power")),
    *(Program(name, (f"hosts/{name}.c", "hosts/pool.c"), ()) for name in ("boot", "stop")),
    Program("size", ("hosts/size.c", "hosts/pool.c"),
            ("1 exec 0x0-0x8 boot 0x0 starts 1 lives 1", f"((1 1) (16)){REST}", f"(16 16){REST}")),
    *(Program(f"sides {seed}", (f"{TESTS}/sides.c", "hosts/pool.c"), (seed, "100000")) for seed in "123"),
    *(Program(f"turns {seed}", (f"{TESTS}/turns.c", "hosts/kvm/cores.c", "hosts/kvm/record.c", "hosts/pool.c"),
              (seed, "3000", "RECORD", RECORD_BOARD)) for seed in "12"),
]
# what each of these programs does for a script of an event list
LOOP = ("hosts/loop.c", "hosts/player.c", "hosts/pool.c")
CTL_LOOP = ("hosts/ctl_loop.c", "hosts/pool.c")
NAMED = ("hosts/named.c", "hosts/player.c", "hosts/words.c", "hosts/pool.c")
# sets the number that is at work before main
PICK = f"""#include <stdint.h>
#include <stdlib.h>
uint32_t psci_mutant = {schema.NONE}u;
__attribute__((constructor)) static void pick(void)
{{
    const char *number = getenv("PSCI_MUTANT");
    if (number)
        psci_mutant = (uint32_t)strtoul(number, NULL, 10);
}}
"""


def ran(command, given=b"", env=None, cwd=None, patience=PATIENCE):
    """What a command writes, and how it ends; nothing where it comes to no end."""
    while True:
        try:
            done = subprocess.run(command, input=given, stdout=subprocess.PIPE, stderr=subprocess.PIPE, timeout=patience,
                                  env=env, cwd=cwd, check=False)
            return done.stdout, done.stderr, done.returncode
        except subprocess.TimeoutExpired:
            return None
        except OSError as fault:
            # another thread's child has not yet closed the file that it has from this process
            if fault.errno != errno.ETXTBSY:
                raise
            time.sleep(0.01)


# ---- scripts

def lists(top):
    """What reads the stored scripts and texts."""
    sys.path.insert(0, f"{top}/tests/program")
    import stored as found
    return found


def stored(top):
    """The stored scripts with their answers."""
    return list(lists(top).scripts())


def drawn(top, seed):
    """So many random scripts of the second model, each with what that answers."""
    sys.path.insert(0, f"{top}/model")
    from draw import Draw
    from script import replay
    draw = Draw(seed)
    found = []
    for count in range(TOGETHER):
        script = draw.script()
        out, err, status = replay(script)
        found.append(Stored(f"{seed}.{count}", script if isinstance(script, bytes) else script.encode("latin-1"),
                            out.encode("latin-1"), err.encode("latin-1"), status))
    return found


def random_scripts(top, jobs):
    """Those of all seeds. They are kept by the sum of the model's sources."""
    import hashlib
    stamp = hashlib.sha256()
    for path in sorted(glob.glob(f"{top}/model/*.py")):
        stamp.update(repo.text_of(path).encode())
    path = f"{CACHE}/random-{stamp.hexdigest()[:32]}"
    if not os.path.exists(path):
        with ProcessPoolExecutor(jobs) as pool:
            found = [it for those in pool.map(drawn, [top] * (RANDOM // TOGETHER), range(RANDOM // TOGETHER))
                     for it in those]
        os.makedirs(CACHE, exist_ok=True)
        with open(f"{path}.{os.getpid()}", "wb") as file:
            pickle.dump([tuple(it) for it in found], file)
        os.replace(f"{path}.{os.getpid()}", path)
    with open(path, "rb") as file:
        return [Stored(*it) for it in pickle.load(file)]


# ---- the whole program

class Binary:
    """A program in which the number that is at work is written over."""

    def __init__(self, path, room):
        with open(path, "rb") as file:
            self.bytes = file.read()
        self.mark, self.room = struct.pack("<I", schema.NONE), room
        self.places = self.bytes.count(self.mark)
        if self.places > 1:
            sys.exit(f"mutants: {path} keeps its number in {self.places} places")

    def at_work(self, number):
        """The path of the program with this number at work."""
        path = f"{self.room}/at-work-{number}"
        if not os.path.exists(path):
            with open(f"{path}.new", "wb") as file:
                file.write(self.bytes.replace(self.mark, struct.pack("<I", number)))
            os.chmod(f"{path}.new", 0o755)
            os.replace(f"{path}.new", path)
        return path

    def leave(self, number):
        """Removes it again."""
        if os.path.exists(f"{self.room}/at-work-{number}"):
            os.remove(f"{self.room}/at-work-{number}")


def script(kind, it, binary):
    """A script with its answers."""
    wanted = (it.out, it.err, it.status)
    return Killer(f"{kind} {it.name}", lambda number: ran([binary.at_work(number), "replay"], it.script) != wanted)


def of_scripts(top, binary):
    """The stored scripts."""
    return [script("script", it, binary) for it in stored(top)]


def of_program(top, binary, jobs):
    """The killers of the whole program: first what is quick."""
    killers = of_scripts(top, binary)
    for seed, line in re.findall(r"^(\d+) (storm events .*)$", repo.text_of(f"{top}/tests/program/front.sh"), re.M):
        words, wanted = ("storm", "--seed", seed, "--count", "10000"), (f"{line}\n".encode(), b"", 0)
        killers.append(Killer(" ".join(words), lambda number, words=words, wanted=wanted:
                              ran([binary.at_work(number), *words]) != wanted))
    before = kept(binary, schema.NONE)
    killers.append(Killer("storm kept", lambda number: kept(binary, number) != before))
    for words in THREADS:
        killers.append(Killer(" ".join(words), lambda number, words=words:
                              not is_audited(ran([binary.at_work(number), *words]))))
    killers += [*shown(top, binary), *whole(top, binary)]
    return killers + [script("random", it, binary) for it in random_scripts(top, jobs)]


def kept(binary, number):
    """The counts of a storm by their names, and its calls: what tests/program/tally-floors holds to the functions."""
    path = f"{binary.room}/kept-{number}"
    said = ran([binary.at_work(number), "storm", "--seed", "1", "--count", "10000", "--counts", "--keep", path])
    text = b""
    if os.path.exists(path):
        with open(path, "rb") as file:
            text = file.read()
        os.remove(path)
    return said, text


def whole(top, binary):
    """The tests of the built program as a whole. What fails once is tried again, since some look at the time; one that
    fails with no wrong body at work says nothing."""
    def fails(name, number):
        with tempfile.TemporaryDirectory(prefix="psci-mutants-") as work:
            done = ran(["bash", "-c", ALONE, "bash", top, binary.at_work(number), work, name], patience=15 * PATIENCE)
        return done is None or done[2] != 0

    return [Killer(f"whole {name}", lambda number, name=name: fails(name, number) and fails(name, number) and
                   not fails(name, schema.NONE)) for name in WHOLE]


def is_audited(said):
    """Whether threads have come to their end, and all that was said was audited."""
    match = said and re.fullmatch(rb"threads firmware (\d+) controller (\d+) audited (\d+)\n", said[0])
    return bool(match) and said[2] == 0 and int(match[1]) + int(match[2]) == int(match[3])


def shown(top, binary):
    """The stored texts of `show`."""
    killers, known = [], {it.name: it for it in stored(top)}
    for it in lists(top).read(f"{top}/tests/program/shown.txt")[1]:
        words, script = it.script.decode().strip().split(" < ")
        killers.append(Killer(f"show {it.name}", lambda number, words=words.split(), given=known[script].script, wanted=it:
                              ran([binary.at_work(number), *words], given) != (wanted.out, b"", 0)))
    return killers


# ---- programs over the C library

def compiled(top, archive, room, sources, name):
    """A program over the archive."""
    with open(f"{room}/pick.c", "w", encoding="utf-8") as file:
        file.write(PICK)
    path = f"{room}/{name.split()[0]}.program"
    if not os.path.exists(path):
        words = ["cc", "-std=gnu11", "-O2", "-w", "-pthread", "-Iinclude", "-Ihosts", "-Ihosts/kvm", "-o", path, *sources,
                 f"{room}/pick.c", archive]
        done = subprocess.run(words, cwd=top, stderr=subprocess.PIPE, text=True, check=False)
        if done.returncode:
            sys.exit(f"mutants: {name} does not compile:\n{done.stderr}")
    return path


def by_number(number):
    return {**os.environ, "PSCI_MUTANT": str(number)}


def of_archive(top, archive, room):
    """The killers of the C library: each program of tests and hosts, and each script by three of them."""
    killers = []

    def add(name, command, wanted=None):
        """A command, which has to say what is wanted, or what it says with no wrong body at work."""
        def said(number, patience):
            """What the program says, and what it writes into a file."""
            here = f"{room}/{number}-{name.replace('/', '-').replace(' ', '-')}"
            if "FOLDER" in command:
                os.makedirs(here)
            done = ran([here if it in ("RECORD", "FOLDER") else it for it in command], env=by_number(number), cwd=top,
                       patience=patience)
            text = None
            if os.path.isdir(here):
                shutil.rmtree(here)
            elif os.path.exists(here):
                with open(here, "rb") as file:
                    text = file.read()
                os.remove(here)
            # the stack that a call took is no answer
            return done and (re.sub(rb"(?m)^stack \d+$", b"", done[0]), done[2]), text
        if wanted:
            killers.append(Killer(name, lambda number: said(number, PATIENCE)[0] != wanted))
            return
        begun = time.time()
        before = said(schema.NONE, 20 * PATIENCE)
        patience = PATIENCE + 10 * (time.time() - begun)
        if before == said(schema.NONE, 20 * PATIENCE):
            killers.append(Killer(name, lambda number: said(number, patience) != before))
        else:
            killers.append(Killer(name, lambda number: (said(number, patience)[0] or (0, -1))[1] != before[0][1]))

    for it in PROGRAMS:
        path = compiled(top, archive, room, it.sources, it.name)
        add(it.name, [path, *it.words])
    named = compiled(top, archive, room, NAMED, "named")
    loop, ctl_loop = compiled(top, archive, room, LOOP, "loop"), compiled(top, archive, room, CTL_LOOP, "ctl_loop")
    add("machine-library", ["tests/hosts/machine-library", named, "FOLDER"])
    os.makedirs(f"{room}/scripts", exist_ok=True)
    for it in stored(top):
        if it.status:
            continue
        path = f"{room}/scripts/{it.name.replace('/', '-')}"
        for ending, text in (("psci", it.script), ("out", it.out)):
            with open(f"{path}.{ending}", "wb") as file:
                file.write(text)
        add(f"loop {it.name}", [loop, f"{path}.psci"], (it.out, 0))
        add(f"ctl_loop {it.name}", [ctl_loop, f"{path}.psci", f"{path}.out", "saved"], (it.out, 0))
    return killers


# ---- crates of tests

def of_tests(binary, crate):
    """The tests of a crate, each by its name."""
    listed, _, status = ran([binary.at_work(schema.NONE), "--list"])
    names = re.findall(rb"^(\S+): test$", listed, re.M)
    if status or not names:
        sys.exit(f"mutants: {crate} lists no tests")

    @functools.cache
    def passes(name):
        said = ran([binary.at_work(schema.NONE), name], patience=50 * PATIENCE)
        return bool(said) and said[2] == 0

    def fails(name, number):
        said = ran([binary.at_work(number), name], patience=50 * PATIENCE)
        if said and said[2] == 0:
            return False
        if not passes(name):
            sys.exit(f"mutants: {crate}/{name} fails with no wrong body at work")
        return True

    return [Killer(f"test {crate}/{name}", lambda number, name=name: fails(name, number))
            for name in (it.decode() for it in names)]
