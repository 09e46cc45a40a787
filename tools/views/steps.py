"""The steps of a port as a picture: who does each, time downward; and whether a port may take them in this order."""
import re
from collections import namedtuple

from views.picture import BLUE, CORES, FAINT, FILLS, GRAY, LEFT, Picture

Step = namedtuple("Step", "acts who whom words")
LANES = {"core": "core", "firmware": "firmware, under the lock", "mailbox": "mailbox",
         "controller": "power controller"}
LANE, HIGH, HEAD = 180, 27, 46
# What Rules.antt says that an act waits for, and this for a core that stops and comes back: what has to be so, what is
# so no more behind it, and what is so then. Another core takes the acknowledgement.
Rule = namedtuple("Rule", "said wanted used left")
RULES = {
    "Locks": Rule("(c < cores b) × (p.lock ≡ None) × (may_hold (stage_at p c) ≡ true)", "free", "free", "locked"),
    "Unlocks": Rule("HasLock p c", "locked idle", "locked", "free"),
    "Calls": Rule("(c < cores b) × HasLock p c × (stage_at p c ≡ Normal)",
                  "locked idle normal", "idle normal", "begun leaving"),
    "Enters": Rule("(c < cores b) × HasLock p c × ((s : Start) × (stage_at p c ≡ Entering s))",
                   "locked idle entering", "idle entering", "begun normal"),
    "Takes": Rule("HasLock p c", "locked idle answered", "idle answered", "begun"),
    "Finishes": Rule("(r : Record) × ((p.row c).begun ≡ Some r)", "begun", "begun", "idle sent"),
    "Stands": Rule("(stage_at p c ≡ Leaving) × LacksLock p c", "leaving free", "leaving", "standing"),
    "Delivers": Rule("IsSendable b m × (waits b p.values (words p) (asked.Deliver m) ≡ false) × "
                     "(touches b p.values m ≡ true → m.kind ≡ kinds.Start → LacksLock p m.core.number)",
                     "sent standing", "sent", "down answered"),
    "Cuts": Rule("(0 < p.values.depth level place) × NoneArmed b p level place", "down", "", ""),
    "Wakes": Rule("(c < cores b) × (stands p.values (words p) c ≡ true) × LacksLock p c",
                  "standing free", "down", "started"),
    "Writes": Rule("((p.row c).opened == p.values.starts c) ≡ false", "started", "started", "written"),
    "Opens": Rule("(p.row c).door ≡ last_start p.values c", "written", "written", "opened"),
    "TakesUp": Rule("(is_started (stage_at p c) ≡ true) × ((p.row c).held ≡ false) × "
                    "(((p.row c).opened == (p.row c).used) ≡ false) × LacksLock p c",
                    "opened standing free", "opened standing", "entering"),
}
FIRST = {"free", "idle", "normal"}


def read(text):
    """The steps of a text, by phase."""
    phases = []
    for line in text.splitlines():
        if line.startswith("= "):
            phases.append((line[2:], []))
        elif line and not line.startswith("#"):
            acts, lanes, words = line.split(" | ")
            who, _, whom = lanes.partition(" > ")
            phases[-1][1].append(Step(acts.replace("-", "").split(), who, whom or None, words))
    return phases


def clauses(rules):
    """What each act waits for, by the text of the rules."""
    found = re.findall(r"^May b p \(?(\w+)[^=]*? =\s*(.*?)(?=^May|^--|^\s*$)", rules, re.M | re.S)
    return {act: " ".join(said.split()) for act, said in found}


def told(phases, rules, headers):
    """What is wrong with the steps, by the texts of the rules and of what declares the functions."""
    known, so = clauses(rules), set(FIRST)
    for step in (it for _, steps in phases for it in steps):
        for act in step.acts:
            if act not in known or act not in RULES:
                yield f"there is no act {act}"
            elif known[act] != RULES[act].said:
                yield f"the rules say of {act}: {known[act]}"
        yield from (f"there is no lane {it}" for it in (step.who, step.whom) if it not in (*LANES, None))
        for name in re.findall(r"\b(?:psci_|PSCI_)\w+", step.words):
            if not re.search(rf"\b{name}\b", headers):
                yield f"no header has {name}"
        for act in (it for it in step.acts if it in RULES):
            wanted, used, left = (set(it.split()) for it in RULES[act][1:])
            if wanted - so:
                yield f"{act} ({step.words}) comes before it may: {', '.join(sorted(wanted - so))}"
            so = so - used | left
    if FIRST - so:
        yield f"at the end it is not as it began: {', '.join(sorted(FIRST - so))}"


def drawn(phases):
    """The picture of the steps."""
    picture = Picture()
    many = sum(len(steps) for _, steps in phases)
    x = {lane: LEFT + LANE // 2 + at * LANE for at, lane in enumerate(LANES)}
    for lane, name in LANES.items():
        picture.box(x[lane] - 78, 10, 156, 24, CORES["started"], f' stroke="{GRAY}" rx="4"')
        picture.text(x[lane], 26, name, "name", anchor="middle")
    y, number, width, height = HEAD, 0, LEFT + len(LANES) * LANE, HEAD + many * HIGH + len(phases) * 8
    for name, steps in phases:
        high = len(steps) * HIGH
        picture.box(8, y, width - 16, high + 4, FILLS[0])
        picture.text(16, y + 18, name, "name")
        for lane in LANES:
            picture.line(x[lane], y, x[lane], y + high + 4)
        for step in steps:
            number += 1
            row(picture, x, y + 20, number, step)
            y += HIGH
        y += 8
    return picture.written(width, height + 4)


def row(picture, x, y, number, step):
    """A step: an arrow with its words above it, or what one does by itself."""
    begin, end = x[step.who], x[step.whom or step.who]
    if begin == end:
        picture.box(begin - 3, y - 9, 6, 12, BLUE)
        is_last = step.who == list(LANES)[-1]
        picture.text(begin + (-8 if is_last else 8), y, f"{number}  {step.words}", fill=FAINT,
                     anchor="end" if is_last else "start")
        return
    side = 1 if end > begin else -1
    picture.line(begin, y, end, y, BLUE, ' stroke-width="1.5"')
    picture.parts.append(f'<path d="M {end} {y} l {-8 * side} -4 l 0 8 z" fill="{BLUE}"/>')
    picture.text(min(begin, end) + 8, y - 4, f"{number}  {step.words}", fill=FAINT)
