"""How often each function had each answer, by the kind of list: what a run of lists has tried, and what not."""
import re

import firmware as fw
import functions

from .words import STOPS, function_of

# what is answered of how often a core may be started, and of the extended format, which no list tries
UNTRIED = {"CPU_ON": (-6,), "FEATURES": (3,)}


def answers_of(it):
    """The answers that a function may have by the definitions, where cores and entry points are all that is seen."""
    what = function_of(it.smc32)
    codes = [str(code) for code in it.codes if code not in UNTRIED.get(what, ())]
    return what, codes + ["stop"] * (it.smc32 in STOPS)


ANSWERS = {**dict(map(answers_of, functions.TABLE)), "unknown": ["-1"]}


def kind_of(name):
    """A list's kind: its name without a number."""
    return re.sub(r"-\d+$", "", name.rpartition("/")[2])


def answer_of(operation, is_last):
    want = operation.want
    if want[0] == "return":
        return str(want[1])
    return "stop" if want[0] == "stop" or is_last else None


def counted(names, lives_of):
    """Of each function and answer, how often it came in each kind of list."""
    found = {(what, answer): {} for what, answers in ANSWERS.items() for answer in answers}
    for name, lives in zip(names, lives_of):
        for mine in (mine for life in lives for mine in life.operations.values()):
            for operation in mine:
                answer = operation.regs and answer_of(operation, operation is mine[-1])
                if answer is None or not operation.regs:
                    continue
                what = function_of(operation.regs[0]) if operation.word in fw.SUPPORTED else "unknown"
                kinds = found.setdefault((what, answer), {})
                kinds[kind_of(name)] = kinds.get(kind_of(name), 0) + 1
    return found


def lines(names, lives_of):
    """A row for each function and answer: how often it came, how often in storms, and in which other lists."""
    yield "| Function | Answer | Times | In storms | Lists |"
    yield "|---|---|---|---|---|"
    for (what, answer), kinds in counted(names, lives_of).items():
        in_storms = sum(many for kind, many in kinds.items() if kind.startswith("storm"))
        lists = sorted((kind for kind in kinds if not kind.startswith("storm")), key=lambda it: (-kinds[it], it))
        more = f", and {len(lists) - 4} more" if len(lists) > 4 else ""
        yield (f"| {what} | {answer} | {sum(kinds.values()) or '**never**'} | {in_storms} | "
               f"{', '.join(f'`{it}`' for it in lists[:4])}{more} |")
