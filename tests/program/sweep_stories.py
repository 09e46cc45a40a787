"""The stories of tests/program/swept. Each ends a sweep in some way, begins it again, cuts it otherwise or spoils what it
has written."""
import os
import pty
import shutil
import signal
import subprocess
import threading
import time

from sweep_room import COUNT, SEEDS, wants


def go_on(program):
    """Puts the flag of a program there."""
    with open(f"{program}.flag", "wb"):
        pass


def waited(holds):
    """Waits until this holds; a slow machine may take long."""
    until = time.time() + 600
    while not holds():
        wants(time.time() < until, "it does not come so far")
        time.sleep(0.02)


def sums(room):
    """The numbers of a report are those of its storms, one by one."""
    events = messages = 0
    for seed in range(1, SEEDS + 1):
        ran = subprocess.run([room.program, "storm", "--seed", str(seed), "--count", str(COUNT)], text=True,
                             capture_output=True, check=True)
        events, messages = events + int(ran.stdout.split()[2]), messages + int(ran.stdout.split()[4])
    rows = {line.split()[0]: line.split()[-1] for line in room.good().splitlines() if line.startswith("  ")}
    wants(rows["runs"] == str(SEEDS) and rows["events"] == str(events) and rows["messages"] == str(messages),
          f"{rows['runs']} runs, {rows['events']} events and not {events}, {rows['messages']} messages and not "
          f"{messages}")


def cuts(room):
    """However it is cut, and by whatever time, the report is the same."""
    room.is_good(room.sweep("cut", "--chunk", "7", "--jobs", "3"))
    room.is_good(room.sweep("guessed", "--minutes", "0.01"))


def killed_worker(room):
    """A worker that is killed loses nothing: its chunk is begun again."""
    program = room.wrapped('[ -e "$flag" ] || { : > "$flag"; kill -9 $PPID; sleep 5; }')
    room.is_good(room.sweep("killed", program=program))


def killed_program(room):
    """A program that the machine kills is no difference of its seed."""
    program = room.wrapped('[ -e "$flag" ] || { : > "$flag"; kill -9 $$; }')
    room.is_good(room.sweep("shot", program=program))


def begun_again(room):
    """A sweep that is killed goes on with what is not finished, and does nothing twice."""
    program, held = room.held("--seed 20 ")
    process = subprocess.Popen(room.words("ended", "--chunk", "2", "--jobs", "2", program=program),
                               stdout=subprocess.DEVNULL, stderr=subprocess.DEVNULL, start_new_session=True)
    waited(lambda: os.path.isdir(room.path("ended/results")) and len(room.finished("ended")) > 2)
    # with all that it has started, as by the machine
    os.killpg(process.pid, signal.SIGKILL)
    process.wait()
    os.unlink(held)
    status, _, said = room.sweep("ended", "--chunk", "2", "--jobs", "2", program=program, seeds="1..25")
    wants(status == 2, f"a sweep of other seeds goes on in the folder: {said}")
    some = room.report("ended")
    wants(some[0] == 7 and "\nleft: " in some[1], f"part of a sweep is reported with {some[0]}")
    was = room.finished("ended")
    room.is_good(room.sweep("ended", "--chunk", "9", program=program))
    now = room.results("ended")
    wants(len(was) > 2 and all(now[it] == was[it] for it in was), "a finished chunk was done twice")
    # an engine may start a chunk that another one has finished in the meantime
    for number in range(2):
        subprocess.run(["python3", f"{room.top}/tools/sweep", "chunk", room.path("ended"), str(number)], check=True)
    wants(room.results("ended") == now, "a finished chunk was done once more")


def full_disk(room):
    """Where results cannot be written, nothing half stays, and the sweep goes on later."""
    program = room.wrapped('[ -e "$flag" ] || exit 5', "--seed 2")
    wants(room.sweep("full", "--chunk", "1", program=program)[0] == 7, "a sweep without memory is finished")
    was = room.results("full")
    go_on(program)
    status, _, said = room.sweep("full", program=program, limit=400)
    wants(status == 7, f"a sweep on a full disk ended with {status}: {said}")
    wants(room.results("full") == was, "on a full disk something was written, or left")
    wants(said.count("no further chunk is begun") == 1, "it goes on though nothing can be written")
    # a log that cannot be written, either, hinders nobody to see what it is
    with open("/dev/full", "wb") as full:
        ran = subprocess.run(["python3", f"{room.top}/tools/sweep", "chunk", room.path("there-is-none"), "1"],
                             stderr=full, check=False)
    wants(ran.returncode == 4, f"a full log makes of status 4 {ran.returncode}")
    with open(room.path("full/logs/1"), encoding="utf-8") as file:
        wants("File too large" in file.read(), "nothing says that the disk is full")
    room.is_good(room.sweep("full", program=program))


def spoiled(room):
    """Results that are cut short, changed, or of another chunk or sweep, are none."""
    room.is_good(room.sweep("spoiled"))
    room.sweep("other", "--chunk", "5", "--count", str(COUNT - 1))
    paths = [room.path(f"spoiled/results/{number}.json") for number in range(4)]
    with open(paths[0], "r+b") as file:
        file.truncate(os.path.getsize(paths[0]) // 2)
    with open(paths[1], "rb") as file:
        data = file.read()
    with open(paths[1], "wb") as file:
        file.write(data.replace(b'runs":5', b'runs":6'))
    shutil.copy(paths[3], paths[2])
    shutil.copy(room.path("other/results/3.json"), paths[3])
    status, text, _ = room.report("spoiled")
    wants(status == 7 and "\nleft: 1..20\n" in text, f"spoiled results are taken:\n{text[:200]}")
    with open(room.path("spoiled/program"), "ab") as file:
        file.write(b"\n")
    status, _, said = room.sweep("spoiled")
    wants(status == 4 and "has changed since the sweep began" in said, f"it goes on by another program: {status}: {said}")
    shutil.copy(room.program, room.path("spoiled/program"))
    room.is_good(room.sweep("spoiled"))


def exchanged(room):
    """A program that is exchanged in mid sweep is noticed, by the chunk that it answered and by each report; what was
    finished before stays, and once the program is there again the sweep goes on. So is one that is back by then."""
    other = room.path("another-program")
    with open(other, "w", encoding="utf-8") as file:
        file.write("#!/bin/sh\necho storm events 9 sent 1 quiet 0\necho enter enter 9\n")
    os.chmod(other, 0o755)
    program = room.wrapped(f'[ -e "$flag" ] || {{ : > "$flag"; cp -p "$0" "$0.was"; cp -p \'{other}\' "$0.new"; '
                           'mv "$0.new" "$0"; }')
    for out, more in (("exchanged", ("--chunk", "5", "--jobs", "1")), ("whole", ("--chunk", "24", "--jobs", "1"))):
        if os.path.exists(f"{program}.flag"):
            os.unlink(f"{program}.flag")
        status, text, said = room.sweep(out, *more, program=program)
        # the first seed is tried before the sweep begins, and seed 13 is in the third chunk of five
        wants(status == 4 and not text, f"a program is exchanged, and it ends with {status}: {text}{said}")
        wants(f"{out}/program has changed since the sweep began" in said, f"it says nothing of the program: {said}")
        wants(list(room.finished(out)) == ["0.json", "1.json"][:2 * (out == "exchanged")],
              f"results of another program: {list(room.finished(out))}")
        status, _, said = room.report(out)
        wants(status == 4 and "has changed since the sweep began" in said, f"the report ends with {status}: {said}")
        shutil.copy(room.path(f"{out}/program.was"), room.path(f"{out}/program"))
        room.is_good(room.sweep(out, *more, program=program))
    program = room.wrapped('[ -e "$flag" ] || { : > "$flag"; cp -p "$0" "$0.new"; mv "$0.new" "$0"; }')
    status, text, said = room.sweep("back", "--chunk", "24", "--jobs", "1", program=program)
    wants(status == 7 and "was exchanged while this chunk ran, and is back" in said,
          f"a program is exchanged, and is back: {status}: {text}{said}")
    room.is_good(room.sweep("back", "--chunk", "24", "--jobs", "1", program=program))


def nothing(room):
    """Where in no seed anything happened, nothing is said of them."""
    program = room.wrapped('echo storm events 0 sent 0 quiet 0; exit', "storm")
    status, text, said = room.sweep("nothing", program=program)
    wants(status == 7 and not text and "there is no event in it" in said, f"of nothing it says {status}: {text}{said}")


def by_whom(room):
    """The report names what answered: of a wrapped program nothing is proved."""
    text = room.sweep("by-whom", program=room.wrapped("true"))[1]
    wants(text.startswith(f"sweep of storm by an unproved program: {SEEDS} of {SEEDS} seeds are done, 0 of them differ"),
          f"it says {text[:100]}")


def unwritten(room):
    """A file that cannot be written is as it was before."""
    path = room.path("file")
    code = ("import resource, sys; sys.path[:0] = [sys.argv[1]]; from sweep import whole\n"
            "whole.write(sys.argv[2], b'old')\nresource.setrlimit(resource.RLIMIT_FSIZE, (9, 9))\n"
            "try: whole.write(sys.argv[2], b'new' * 1000)\nexcept OSError: print(open(sys.argv[2]).read())")
    ran = subprocess.run(["python3", "-B", "-c", code, f"{room.top}/tools", path], capture_output=True, text=True,
                         check=False)
    wants(ran.stdout == "old\n", f"after a fault it has {ran.stdout!r}: {ran.stderr}")
    wants(not [it for it in os.listdir(room.folder) if it.startswith("file.")], "something was left beside it")


def parts(room):
    """Two folders make the report of one; two that share a seed make none."""
    half = SEEDS // 2
    room.sweep("low", seeds=f"1..{half}")
    room.sweep("high", seeds=f"{half + 1}..{SEEDS}")
    room.is_good(room.report("high", "low"))
    room.sweep("shared", seeds=f"{half}..{SEEDS}")
    wants(room.report("low", "shared")[0] == 2, "a seed in two folders is counted twice")
    room.sweep("another", "--board", "(3) exec 0x0-0x1000 boot 0x0 starts 9 lives 3", seeds=f"{half + 1}..{SEEDS}")
    wants(room.report("low", "another")[0] == 2, "storms on two boards are summed as one")


def differs(room):
    """A seed that fails is told, with what it takes to look at it."""
    program = room.wrapped('for it; do last=$it; done; echo "audit fault 1" >&2; '
                           '[ "$last" = --counts ] || echo script > "$last"; exit 6')
    for out, more in (("differs", ("--chunk", "5")), ("differs7", ("--chunk", "7", "--jobs", "1"))):
        status, text, _ = room.sweep(out, *more, program=program)
        wants(status == 6 and "differs: 1 x status 6: audit fault 1\n  the first: seed 13, default: failed/ has "
              "default-13.psci, default-13.txt\n  seeds: 13\n" in text, f"status {status}: {text[-300:]}")
        with open(room.path(f"{out}/failed/default-13.psci"), encoding="utf-8") as file:
            wants(file.read() == "script\n", "the script of a failed seed is not kept")
    wants(room.report("differs")[1] == room.report("differs7")[1], "the report hangs on the cut")
    # of more boards than files are kept of, the first that is told is one with files
    path = room.path("boards.txt")
    with open(path, "w", encoding="utf-8") as file:
        file.writelines(f"board {it} (2) exec 0x0-0x1000 boot 0x0 starts 9 lives 3\n" for it in "zyxa")
    _, text, said = room.sweep("boards", "--chunk", "8", "--boards", path, program=program)
    wants("differs: 4 x " in text and "  the first: seed 13, z: failed/ has z-13.psci, z-13.txt\n" in text,
          text[-300:] + said)
    another = room.sweep("boards5", "--chunk", "5", "--boards", path, program=program)[1]
    wants(another == text, "of several boards the report hangs on the cut")


def model(room):
    """The second model sees an answer that is another one."""
    status, text, said = room.sweep("held", "--model", seeds="1..4")
    wants(status == 0, f"the second model answers otherwise: {text}{said}")
    wrong = room.wrapped(f"'{room.program}' \"$@\" | sed 's/^1 enter/1 resume/'; exit", "replay")
    status, text, _ = room.sweep("wrong", "--model", program=wrong, seeds="1..4")
    wants(status == 6 and "the second model answers differently: ours resume, theirs enter" in text, "it sees nothing")


def alone(room):
    """Two sweeps are not at one folder."""
    program, held = room.held("--seed 9 ")
    # who runs these tests behind may have them ignore an interrupt, and what they start with them
    process = subprocess.Popen(room.words("alone", program=program), stdout=subprocess.DEVNULL, stderr=subprocess.DEVNULL,
                               preexec_fn=lambda: signal.signal(signal.SIGINT, signal.SIG_DFL))
    waited(lambda: os.path.exists(room.path("alone/plan.json")))
    # where the second one is not refused, it has to end, too
    late = threading.Timer(60, os.unlink, [held])
    late.start()
    status, _, said = room.sweep("alone", program=program)
    late.cancel()
    process.send_signal(signal.SIGINT)
    process.wait()
    wants(status == 2 and "another sweep uses it" in said, f"two sweeps are at one folder: {said}")
    os.unlink(held)
    room.is_good(room.sweep("alone", program=program))


def refused(room):
    """Words at fault are told before anything is begun."""
    for more, text in ((("--board", "(2 2"), "board fault 1"), (("--count", "10001"), "--count takes"),
                       (("--seeds", "5..1"), "expected FIRST..LAST"), (("--jobs", "0"), "from 1 to"),
                       (("--boards", "/dev/null"), "no lines 'board"), (("--minutes", "0"), "above 0")):
        status, _, said = room.sweep("refused", *more)
        wants(status == 2 and text in said, f"{more}: status {status}: {said}")
    wants(not os.path.exists(room.path("refused/plan.json")), "a sweep was begun")


def terminal(room):
    """On a terminal stands how far it is."""
    program = room.wrapped("sleep 0.6", "--seed 2")
    ours, theirs = pty.openpty()
    process = subprocess.Popen(room.words("shown", "--chunk", "3", "--jobs", "2", program=program), stderr=theirs,
                               stdout=subprocess.DEVNULL, stdin=subprocess.DEVNULL)
    os.close(theirs)
    seen = b""
    try:
        while some := os.read(ours, 4096):
            seen += some
    except OSError:
        # a terminal without writers
        pass
    os.close(ours)
    wants(process.wait() == 0, "it failed")
    wants(b"0 of 8 chunks are done, 8 left" in seen and b" to come" in seen, f"it says {seen!r}")


def threads(room):
    """Runs of threads are audited and summed."""
    status, text, said = room.sweep("threads", "--chunk", "2", kind="threads", seeds="1..4")
    rows = {line.split()[0]: line.split()[-1] for line in text.splitlines() if line.startswith("  ")}
    wants(status == 0 and rows["runs"] == "4" and int(rows["calls"]) == 4 * 4 * COUNT, f"{status}: {text}{said}")
    wants(int(rows["firmware"]) + int(rows["controller"]) == int(rows["audited"]), "the books do not add up")


def lists(room):
    """Lists are judged, and a record that differs is kept; the machine is one that prints a record."""
    record = room.path("one.record")
    with open(f"{room.top}/tests/hosts/records/calls.record", encoding="ascii") as file:
        text = file.read()
    with open(record, "w", encoding="ascii") as file:
        file.write(text)
    words = [f"{room.top}/psci", "sweep", "lists", "--seeds", "1..3", "--chunk", "2", "--payload", record,
             "--command", f"cat {record}", "--profile", f"{room.top}/tests/hosts/records/calls.profile", "--out"]
    ran = subprocess.run([*words, room.path("lists")], capture_output=True, text=True, check=False)
    wants(ran.returncode == 0 and "3 agrees, 0 differs" in ran.stdout, f"{ran.returncode}: {ran.stdout}{ran.stderr}")
    with open(record, "w", encoding="ascii") as file:
        file.write(text.replace("fffffffffffffffb", "fffffffffffffffe"))
    ran = subprocess.run([*words, room.path("worse")], capture_output=True, text=True, check=False)
    wants(ran.returncode == 6 and "differs: 3 x " in ran.stdout and "the first: seed 1," in ran.stdout,
          f"{ran.returncode}: {ran.stdout}{ran.stderr}")
    wants(os.path.getsize(room.path("worse/failed/storm-1.record")) > 0, "no record is kept")
    another = subprocess.run([*words, room.path("worse3"), "--chunk", "3"], capture_output=True, text=True, check=False)
    wants(another.stdout == ran.stdout, "the report of lists hangs on the cut")


TOGETHER = {it.__name__: it for it in (sums, cuts, killed_worker, killed_program, begun_again, full_disk, spoiled,
                                       exchanged, nothing, by_whom, unwritten, parts, differs, model, alone, refused, terminal, threads,
                                       lists)}
