"""Stories of tests/program/swept about what a sweep says as it goes, and about its page."""
import os
import pty
import re
import subprocess
import threading
import time

import browser
from sweep_room import COUNT, Missing, wants

# seed 2 differs, seed 13 finds no memory, and seed 20 waits as long as there is a file
FAILING = ('case "$*" in *"--seed 2 "*) echo "audit fault 1 <b>" >&2; exit 6 ;; '
           '*"--seed 13 "*) [ -e "$flag" ] || {{ echo "no memory" >&2; exit 5; }} ;; '
           '*"--seed 20 "*) while [ -e "{held}" ]; do sleep 0.1; done ;; esac')


def failing(room, name):
    held = room.path(f"{name}-held")
    with open(held, "w", encoding="utf-8"):
        pass
    return room.wrapped(FAILING.format(held=held), "--seed"), held


def waited_for(process, folder, said, wanted):
    """How many lines were said once all that is wanted was; nothing, if it is not some time after all chunks but two
    are done, or where the sweep ends before."""
    since = None
    while not all(any(re.search(it, line) for line in said) for it in wanted):
        is_all = os.path.isdir(folder) and len([it for it in os.listdir(folder) if it.endswith(".json")]) >= 6
        since = since or (time.monotonic() if is_all else None)
        if process.poll() is not None or since and time.monotonic() - since > 120:
            return None
        time.sleep(0.1)
    return len(said)


def told(room):
    """Also where there is no terminal a sweep says how far it is, what differs, and why a chunk is not finished, while
    it runs; and at its end what is left."""
    program, held = failing(room, "told")
    process = subprocess.Popen(room.words("told", "--chunk", "3", "--jobs", "2", program=program), text=True,
                               stdout=subprocess.DEVNULL, stderr=subprocess.PIPE, stdin=subprocess.DEVNULL)
    wanted = [r"psci sweep: [0-7] of 8 chunks are done, [1-8] left",
              r"differs: seed 2, default: status 6: audit fault 1 <b>: \S+/failed/default-2\.txt",
              r"chunk 4 is not finished: storm: status 5: no memory"]
    said = []

    def read_on():
        for line in process.stderr:
            said.append(line)

    reader = threading.Thread(target=read_on)
    reader.start()
    seen_all = waited_for(process, room.path("told/results"), said, wanted)
    os.unlink(held)
    reader.join()
    wants(process.wait() == 6, f"status {process.returncode}: {said}")
    wants(seen_all, f"it says nothing while it runs: {said}")
    wants(len([it for it in said if "no memory" in it]) == 1, f"one failure is told more than once: {said}")
    wants("1 chunks are not finished, seeds 13..15; " in "".join(said[seen_all:]), f"it says not what is left: {said}")


# a Slurm that holds the tasks of its first job for a minute, or until it is told to release them
HOLDING = {
    "scontrol": '[ "$1 $2" != "release jobname=$(cat {name})" ] || : > {released}',
    "squeue": '[ -e {released} ] || echo "PENDING launch failed requeued held"',
    "sbatch": """for it; do case $it in --job-name=*) echo "${{it#*=}}" > {name} ;; --array=0-*) last=${{it##*-}} ;; esac; done
cat > {job}
for wait in $(seq 600); do [ -e {released} ] || sleep 0.1; done
for task in $(seq 0 $last); do SLURM_ARRAY_TASK_ID=$task sh {job}; done"""}


def held_task(room):
    """Also on a terminal a sweep says what lets a task go on that Slurm holds, and goes on by that."""
    os.mkdir(room.path("bin"))
    for name, text in HOLDING.items():
        with open(room.path(f"bin/{name}"), "w", encoding="utf-8", opener=lambda *it: os.open(*it, 0o755)) as file:
            file.write("#!/bin/sh\n" + text.format(**{it: room.path(it) for it in ("name", "released", "job")}) + "\n")
    path = {**os.environ, "PATH": f"{room.path('bin')}:{os.environ['PATH']}"}
    ours, theirs = pty.openpty()
    process = subprocess.Popen(room.words("queued", "--engine", "slurm", "--chunk", "12"), stderr=theirs, env=path,
                               stdout=subprocess.DEVNULL, stdin=subprocess.DEVNULL)
    os.close(theirs)
    seen, remedy = b"", None
    try:
        while some := os.read(ours, 4096):
            seen += some
            if not remedy and (remedy := re.search(b"a task is held, and waits for `(.*)`", seen)):
                subprocess.run(remedy[1].decode(), shell=True, env=path, check=True)
    except OSError:
        # a terminal without writers
        pass
    os.close(ours)
    wants(process.wait() == 0 and remedy and seen.count(b"is held") == 1, f"status {process.returncode}: it says {seen!r}")


def page(room):
    """The page of a sweep has what the report says, when and where it ran, what hinders it, and how to go on; what a
    program says is text there."""
    program, held = failing(room, "page")
    os.unlink(held)
    room.sweep("page", "--chunk", "3", program=program)
    text = read(room.path("page/sweep.html"))
    for it in ("<b>21 of 24</b>seeds are done", "<b>1 of 8</b>chunks are left", "audit fault 1 &lt;b&gt;",
               'href="failed/default-2.txt"', "Chunk 4 of ", "storm: status 5: no memory", "--chunk 3",
               'class="differs" title="seeds 1..3: differs"', 'class="left" title="seeds 13..15: left"',
               'class="done" title="seeds 4..6: done"', "<b>1</b>groups", f"--count {COUNT}", os.uname().nodename):
        wants(it in text, f"the page has no {it!r}")
    wants(text.count("<i class=") == 8 + 3, "the bar has another number of chunks")
    with open(f"{program}.flag", "wb"):
        pass
    wants(room.sweep("page", program=program)[0] == 6, "it does not go on")
    text = read(room.path("page/sweep.html"))
    wants("<b>24 of 24</b>" in text and "no memory" not in text and "All seeds are done" in text, "an old page stays")
    wants(not os.path.exists(room.path("page/logs/why-4")), "a chunk that is finished still has a reason why it is not")
    status, out, said = room.report("page", "--page", "elsewhere.html")
    elsewhere = read(room.path("elsewhere.html"))
    wants(status == 6 and 'href="page/failed/default-2.txt"' in elsewhere, f"status {status}: {said}")
    wants(all(line.strip() in elsewhere for line in out.splitlines()[2:9]), "the page has other counts than the report")


def read(path):
    with open(path, encoding="utf-8") as file:
        return file.read()


def seen(room):
    """The page in a browser: it is read by light and by dark, and a narrow window does not cut it."""
    if not browser.found():
        raise Missing("chromium")
    program, held = failing(room, "seen")
    os.unlink(held)
    room.sweep("seen", "--chunk", "3", program=program)
    it = browser.Browser()
    try:
        grounds = []
        for is_dark in (False, True):
            it.dark(is_dark)
            it.ask("Page.navigate", url=f"file://{room.path('seen/sweep.html')}")
            it.until("document.readyState === 'complete' && !!document.querySelector('.bar i')")
            colours = it.value("['color', 'backgroundColor'].map((name) => getComputedStyle(document.body)[name])")
            ink, ground = [sum(map(int, re.findall("[0-9]+", colour)[:3])) for colour in colours]
            wants(abs(ink - ground) > 450, f"text of {colours[0]} on {colours[1]}")
            grounds.append(ground)
            wants(it.value("new Set([...document.querySelectorAll('.bar i')].map((it) => "
                           "getComputedStyle(it).backgroundColor)).size") == 3, "parts of the bar look alike")
        wants(grounds[0] > 600 > 200 > grounds[1], f"by light and dark it has grounds {grounds}")
        it.size(420, 800)
        wants(it.value("document.documentElement.scrollWidth") <= 420, "a narrow window cuts the page")
    finally:
        it.close()


TOLD = {it.__name__: it for it in (told, held_task, page, seen)}
