"""What kinds have in common that run the program: boards, the program itself, and what it ends with."""
import os
import re
import shlex
import shutil
import subprocess
import sys

from front.plain import NAMES

from ..sums import Unfinished
from . import Wrong

TOP = os.path.dirname(os.path.dirname(os.path.dirname(os.path.dirname(os.path.abspath(__file__)))))
BOARD = "(2 2) exec 0x40000000-0x40100000 boot 0x40000000 starts 1000 lives 3"
MOST_EVENTS, MOST_OF_BOARD = 10000, 250
# signals that somebody else sends: of the machine, or of who ends a job
SENT = (1, 2, 9, 15, 24)


def options(add, count):
    """The words of a kind that runs the program on boards."""
    add("--count", metavar="N", type=int, default=count, help=f"events, or calls of each core: {count}")
    add("--board", metavar="TEXT", action="append", default=[], help="a board; may be repeated")
    add("--boards", metavar="FILE", help="a file of boards, with lines 'board NAME TEXT'")
    add("--model", action="store_true", help="compare each answer with the second model")
    add("--program", metavar="FILE", help="another program than ours")


def boards_of(words):
    """The boards by name, in their order."""
    found = {f"board{at}": text for at, text in enumerate(words.board, 1)}
    if words.boards:
        with open(words.boards, encoding="ascii") as file:
            rows = [line.split(None, 2)[1:] for line in file if line.startswith("board ")]
        found.update({name: text.strip() for name, text in rows})
        if not rows or any(not re.fullmatch(r"[\w-]+", name) for name, _ in rows):
            raise Wrong(f"{words.boards}: no lines 'board NAME TEXT'")
    return found or {"default": BOARD}


def settings(words):
    """The settings of such a kind."""
    boards = boards_of(words)
    if not 0 <= words.count <= MOST_EVENTS:
        raise Wrong(f"--count takes 0 to {MOST_EVENTS}")
    long = [name for name, text in boards.items() if len(text.encode()) > MOST_OF_BOARD]
    if words.model and long:
        raise Wrong(f"--model needs boards of at most {MOST_OF_BOARD} bytes: {long[0]} is longer")
    return {"count": words.count, "boards": [list(it) for it in boards.items()], "model": words.model}


def gather(words, folder):
    """Keeps the program in the folder: a sweep has one program from its beginning to its end."""
    shutil.copy(words.program or words.ours(), f"{folder}/program")
    os.chmod(f"{folder}/program", 0o755)
    return ["program"]


class Program:
    """The program of a sweep."""

    def __init__(self, settings, folder):
        self.path, self.boards = f"{folder}/program", dict(settings["boards"])
        self.count, self.is_held = str(settings["count"]), settings["model"]

    def run(self, *words, script=None):
        """What the program ended with, wrote and said."""
        ran = subprocess.run(["psci", *words], executable=self.path, capture_output=True, check=False,
                             stdin=script or subprocess.DEVNULL)
        said = ran.stderr.decode(errors="replace").strip()
        if ran.returncode == 2:
            raise Wrong(f"{shlex.join(words)}: {said}")
        if ran.returncode in (4, 5) or -ran.returncode in SENT:
            raise Unfinished(f"{words[0]}: status {ran.returncode}: {said}")
        return ran.returncode, ran.stdout, said

    def answers(self, path):
        """The program's answers to a script, and what is wrong if it does not answer."""
        with open(path, "rb") as file:
            status, out, said = self.run("replay", script=file)
        return out.decode().splitlines(), f"replay: status {status}: {said}" if status else None

    def against_model(self, path):
        """What the second model answers otherwise to a script, or finds unsafe in it; nothing if all is well."""
        sys.path[:0] = [] if f"{TOP}/model" in sys.path else [f"{TOP}/model"]
        import safe
        import script
        ours, fault = self.answers(path)
        if fault:
            return fault
        try:
            with open(path, "rb") as file:
                theirs = script.replay(file.read(), safe.Watched)[0].splitlines()
        except safe.Unsafe as broken:
            return f"the run is not safe: {broken}"
        pairs = [(words_of(a), words_of(b)) for a, b in zip(ours, theirs) if a != b]
        if not pairs and len(ours) == len(theirs):
            return None
        return "the second model answers differently: " + (
            f"ours {pairs[0][0]}, theirs {pairs[0][1]}" if pairs else "one of them has more lines")


def came(path, answers, fault):
    """How often each kind of event was answered in each way, and the fault."""
    with open(path, encoding="ascii") as file:
        events = [line.split() for line in file][1:]
    found = {}
    for event, answer in zip(events, answers):
        asked = event[0]
        if asked == "call":
            number = int(event[2], 16) % 2 ** 32
            asked = NAMES.get(number, NAMES.get(number | 1 << 30, "unknown")).partition(".")[0]
        name = f"came {asked} {words_of(answer)}"
        found[name] = found.get(name, 0) + 1
    return found, fault


def words_of(answer):
    """An answer without its number, addresses and messages, so that alike ones are one."""
    words = [it for it in answer.split()[1:] if not it.startswith("0x")]
    return " ".join(words[:2] if words[:1] == ["return"] else words[:1])


def shown(words):
    """Words as a shell takes them."""
    return shlex.join(["psci", *words])


def files(path, *texts):
    """The files to keep of a run: its script, where there is one, and what was said."""
    kept = {"txt": "\n".join(texts).encode() + b"\n"}
    if os.path.exists(path):
        with open(path, "rb") as file:
            kept["psci"] = file.read()
    return kept


def lines(settings, found, names):
    """What the report says of each board: these numbers, and how often each kind of answer came, in a table
    of which a column is a board."""
    boards = [board for board, _ in settings["boards"]]
    rows = {}
    for name, number in found.items():
        board, _, row = name.partition("\t")
        if row:
            rows.setdefault(row, {})[board] = number
    yield from (f"board {board}: {text}" for board, text in settings["boards"])
    kinds = sorted(row for row in rows if row.startswith("came "))
    shown = [("", boards)]
    shown += [(row, [rows.get(row, {}).get(it, 0) for it in boards]) for row in ("runs", *names, *kinds)]
    shown.append(("kinds of answers that came", [sum(bool(rows[row].get(it)) for row in kinds) for it in boards]))
    shown.append(("kinds of answers that never came", [sum(not rows[row].get(it) for row in kinds) for it in boards]))
    wide = max(len(row.removeprefix("came ")) for row, _ in shown)
    columns = [max(len(str(numbers[at])) for _, numbers in shown) for at in range(len(boards))]
    for row, numbers in shown:
        cells = "  ".join(f"{number:>{column}}" for number, column in zip(numbers, columns))
        yield f"  {row.removeprefix('came '):{wide}}  {cells}"
