"""What the program takes for a line of a script, and a firmware that threads share for a call."""
import glob
import os
import re
import resource
import subprocess
import tempfile
import time

from figured.pages import TOP, Table, grouped

PAGE = "docs/maintain/COSTS.md"
PROGRAM = f"{TOP}/crates/psci_cli/out/psci_cli"
REPLAYED = ["Replay", "calls", "turns"]
PASSED = ["Instructions through a pass", "PSCI_VERSION", "suspend and wake", "on, entry, off, acknowledgement"]
# the boards of `bench/shared counts`, and what it calls its turns
BOARDS = {"(2 2)": "`(2 2)`", "(16 16 16 16)": "`(16 16 16 16)`", "sixteen": "sixteen clusters of 16"}
PARTS = ("version", "suspend", "on")
BOARD = "board (2 2) exec 0x40000000-0x40100000 boot 0x40000000 starts 4294967295 lives 3\nenter 0\n"
CALLS = ("call 0 0x84000000", "call 0 0xc4000004 0x101 0")


class Near(Table):
    """A table whose figures may be off by one in a hundred: another compiler of the same release moves a few bytes."""

    def stale(self, page):
        said = self.said(page)
        for row in self.rows:
            was = said.get(row[0], [])
            row[1:] = [it if self.is_near(it, now) else now for it, now in zip(was[1:], row[1:])] or row[1:]
        return super().stale(page)

    @staticmethod
    def is_near(was, now):
        try:
            was, now = (float(it.replace(",", "")) for it in (was, now))
        except ValueError:
            return False
        return abs(was - now) <= 0.01 * now


def calls(count):
    """An entry, and so many calls of two kinds in turn."""
    return BOARD + "".join(f"{CALLS[at % 2]}\n" for at in range(count))


def turns(count):
    """An entry, and then a core that comes and goes, six lines a turn."""
    steps = ("call 0 0xc4000003 0x101 0x40001000 0x7", "deliver {0}", "enter 3", "call 3 0x84000002", "deliver {1}", "take {1}")
    lines = (steps[at % 6].format(at // 6 * 2, at // 6 * 2 + 1) for at in range(count))
    return BOARD + "".join(f"{it}\n" for it in lines)


def instructions(script, program=PROGRAM):
    """The instructions of a replay, by valgrind."""
    words = ("valgrind", "--tool=callgrind", "--callgrind-out-file=/dev/null", program, "replay")
    ran = subprocess.run(words, input=script, stdout=subprocess.DEVNULL, stderr=subprocess.PIPE, text=True, check=True)
    return int(re.search(r"Collected : (\d+)", ran.stderr)[1])


RATIOS = ["What is done", "by", "ratio"]
LARGE = f"({' '.join(['16'] * 16)}) exec 0x40000000-0x40100000 boot 0x40000000 starts 1000 lives 3"
NAMES = {"0x84000000": "version", "0xc4000004 0x101 0": "affinity_info 3", "0xc4000003 0x101": "cpu_on 3", "0x84000002": "cpu_off"}


def spent(*words, script=None, out=os.devnull, **more):
    """The processor seconds that a command takes, with all that it calls."""
    with open(script or os.devnull, "rb") as source, open(out, "wb") as sink:
        subprocess.run(words, stdin=source, stdout=sink, stderr=subprocess.DEVNULL, check=True, **more)
    now = resource.getrusage(resource.RUSAGE_CHILDREN)
    taken, spent.before = now.ru_utime + now.ru_stime - spent.before, now.ru_utime + now.ru_stime
    return taken


spent.before = 0


def ratios():
    """What stands round a replay, each by what does the same without it, in processor time of one run."""
    front, rows = f"{TOP}/psci", []
    usage = resource.getrusage(resource.RUSAGE_CHILDREN)
    spent.before = usage.ru_utime + usage.ru_stime
    with tempfile.TemporaryDirectory() as room:
        def add(what, by, taken, other):
            rows.append([what, by, f"{taken / other:.2f}"])

        def kept(name, text):
            with open(f"{room}/{name}", "w", encoding="ascii") as file:
                file.write(text)
            return file.name

        storms = [sum(spent(PROGRAM, "storm", "--seed", str(seed), "--count", "10000", *more) for seed in range(20))
                  for more in ((), ("--counts",), ("--board", LARGE))]
        add("storm --counts", "a storm", storms[1], storms[0])
        add("a storm on 256 cores", "on 4", storms[2], storms[0])
        add("20 seeds of sweep storm", "20 storms",
            spent(front, "sweep", "storm", "--seeds", "0..19", "--count", "10000", "--jobs", "1", "--out", f"{room}/sweep"), storms[0])
        for name, made in (("calls", calls), ("turns", turns)):
            text = made(999998)
            plain = spent(front, "replay", kept("plain", text))
            for word, function in NAMES.items():
                text = text.replace(word, function)
            add(f"a million lines by name, {name}", "by registers", spent(front, "replay", kept("named", text)), plain)
        script = f"{room}/large"
        spent(PROGRAM, "storm", "--board", LARGE, "--seed", "1", "--count", "10000", "--keep", script)
        shown = spent(PROGRAM, "show", "--json", script=script, out=f"{room}/rows")
        for view in ("--trace", "--vcd", "--changes"):
            add(f"show {view}, 256 cores", "the rows alone", spent(front, "show", view, script), shown)
        whole = os.path.getsize(f"{room}/rows")
        spent(PROGRAM, "show", "--json", script=kept("small", calls(10000)), out=f"{room}/rows")
        add("bytes of show --json, 256 cores", "4 cores", whole / 10000, os.path.getsize(f"{room}/rows") / 10000)
        first = spent(front, "--unproved", "show", kept("one", calls(1)), env={**os.environ, "XDG_CACHE_HOME": room})
        add("the first show of a clone", "60 processor seconds", first, 60)
        unproved = glob.glob(f"{room}/gumdarts/unproved/psci_cli-*")[0]
        add("instructions of a line, unproved", "proved", *(line_of(calls, it) for it in (unproved, PROGRAM)))
    return rows


def line_of(made, program=PROGRAM):
    """The instructions of a line, as the difference of two runs."""
    return (instructions(made(20000), program) - instructions(made(10000), program)) / 10000


def resident(script, events):
    """The kibibytes of memory that a replay holds once it has answered so many events, while it waits for more."""
    with tempfile.TemporaryFile() as answers, \
            subprocess.Popen([PROGRAM, "replay"], stdin=subprocess.PIPE, stdout=answers) as ran:
        ran.stdin.write(script.encode())
        ran.stdin.flush()
        last, end = f"\n{events} ".encode(), time.time() + 120
        while time.time() < end:
            length = answers.seek(0, os.SEEK_END)
            answers.seek(max(0, length - 200))
            if last in answers.read():
                break
            time.sleep(0.05)
        with open(f"/proc/{ran.pid}/status", encoding="ascii") as file:
            held = int(re.search(r"VmRSS:\s+(\d+)", file.read())[1])
        ran.stdin.close()
    return held


def replayed():
    """Instructions a line, as the difference of two runs, and bytes kept for each event of a long one."""
    made = calls, turns
    lines = [line_of(it) for it in made]
    few, many = 60, 900000
    kept = [(resident(it(many), many + 1) - resident(it(few), few + 1)) * 1024 / (many - few) for it in made]
    return Near(PAGE, REPLAYED, [["instructions a line", *(grouped(it + 0.5) for it in lines)],
                                 ["bytes kept for each event", *(grouped(it + 0.5) for it in kept)]])


def passed():
    """Instructions of calls through a pass on three boards, with the loop that measures, by a program that is made anew."""
    if os.path.exists(made := f"{TOP}/out/bench/shared/passes"):
        os.remove(made)
    ran = subprocess.run([f"{TOP}/bench/shared", "counts"], stdout=subprocess.PIPE, text=True, check=True)
    found = {}
    for tree, what, count in re.findall(r"^  (\(.*\)): (\w+) (\d+) ", ran.stdout, re.M):
        found.setdefault(tree if tree in BOARDS else "sixteen", {})[what] = grouped(count)
    return Near(PAGE, PASSED, [[name, *(found[tree][it] for it in PARTS)] for tree, name in BOARDS.items()])
