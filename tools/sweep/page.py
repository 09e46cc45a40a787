"""The page of a sweep: what its report says, and what no report does: time, machines, how to go on."""
import os
import shlex
import time
from html import escape
from urllib.parse import quote

import sentence

from . import plan as plans, report, sums
from .far import in_words

NAME = "sweep.html"
HERE = os.path.dirname(os.path.abspath(__file__))
# a bar has so many parts at most; of a group so many ranges of seeds are shown
MOST_PARTS, MOST_SEEDS = 300, 20
STATES = {"done": "done", "differs": "differs", "left": "left"}


def title(found):
    try:
        return report.first_line(found)
    except sentence.Nothing as why:
        return str(why)


def numbers(found):
    """The numbers that say how it stands."""
    costs = [it.cost for it in found.chunks if it.cost]
    differ = len({it["seed"] for it in found.differences})
    hours = sum(it["processor"] for it in costs) / 3600
    yield "seeds are done", f"{found.seeds:,} of {sum(it.seeds for it in found.plans):,}"
    yield "seeds differ", f"{differ:,}"
    yield "groups", f"{len({it['what'] for it in found.differences}):,}"
    yield "chunks are left", f"{found.unfinished:,} of {len(found.chunks):,}"
    yield "processor hours", f"{hours:,.2f}"


def state_of(chunks):
    """What a part of the bar shows: what is worst in these chunks."""
    if any(it.differs for it in chunks):
        return "differs"
    return "left" if any(it.cost is None for it in chunks) else "done"


def bar(chunks):
    """The chunks of a plan in the order of their seeds."""
    size = -(-len(chunks) // MOST_PARTS)
    yield '<div class="bar">'
    for at in range(0, len(chunks), size):
        some = chunks[at:at + size]
        state = state_of(some)
        yield f'<i class="{state}" title="seeds {some[0].first}..{some[-1].last}: {STATES[state]}"></i>'
    yield "</div>"


def bars(found):
    for plan in found.plans:
        yield f'<p class="soft">Seeds {plan.first}..{plan.last} in {len(plan.chunks)} chunks, {escape(plan.folder)}</p>'
        yield from bar([it for it in found.chunks if it.plan is plan])
    keys = "".join(f'<span><i class="{name}"></i>{text}</span>' for name, text in STATES.items())
    yield f'<p class="key soft">{keys}</p>'


def groups(found, folder):
    """What differs, each with its seeds and with the files of the first of them."""
    yield "<h2>What differs</h2>"
    for what, runs in sums.by_seed(found.differences):
        first = runs[0]
        seeds = report.joined(sorted({(it["seed"], it["seed"]) for it in runs}))
        more = f" and {len(seeds) - MOST_SEEDS} ranges more" * (len(seeds) > MOST_SEEDS)
        yield f'<div class="group"><p><b>{len(runs)} x</b> {escape(what)}</p>'
        yield f'<p class="soft">seeds {report.ranges(seeds[:MOST_SEEDS])}{more}</p>'
        yield f"<p>The first: seed {first['seed']}, {escape(first['board'])}: {links(first, folder)}</p></div>"
    if not found.differences:
        yield f"<p>Nothing{' of what is done' * bool(found.left)}.</p>"


def links(run, folder):
    """The files that were kept of a run, as seen from the folder of the page."""
    paths = [os.path.relpath(f"{run['folder']}/failed/{name}", folder) for name in run["kept"]]
    return ", ".join(f'<a href="{quote(it)}"><code>{escape(os.path.basename(it))}</code></a>' for it in paths)


def counts(found):
    yield "<h2>Counts</h2>"
    text = "\n".join(report.of_sums(found))
    yield f"<pre>{escape(text)}</pre>"


def moment(seconds):
    return time.strftime("%Y-%m-%d %H:%M:%S", time.localtime(seconds))


def times(found):
    """When it ran, how long chunks took, and on which machines."""
    done = [it for it in found.chunks if it.cost]
    yield "<h2>Time and machines</h2>"
    if not done:
        yield "<p>No chunk is finished.</p>"
        return
    begun = min(it.ended - it.cost["seconds"] for it in done)
    took = sorted(it.cost["seconds"] for it in done)
    yield f"<p>From {moment(begun)} to {moment(max(it.ended for it in done))}. A chunk took {in_words(took[0])} to "
    yield f"{in_words(took[-1])}, the middle one {in_words(took[len(took) // 2])}.</p>"
    names = ("machine", "chunks", "processor seconds", "seconds of workers", "of a processor each")
    head = "".join(f'<th class="{"number" if at else ""}">{name}</th>' for at, name in enumerate(names))
    yield f'<div class="scroll"><table><tr>{head}</tr>'
    for machine, (chunks, processor, seconds) in sorted(found.cost.items()):
        cells = (f"{chunks:,}", f"{processor:,.1f}", f"{seconds:,.1f}", f"{processor / max(seconds, 0.001):.2f}")
        yield f"<tr><td>{escape(machine)}</td>" + "".join(f'<td class="number">{it}</td>' for it in cells) + "</tr>"
    yield "</table></div>"


def next_steps(found):
    """The words that go on, and why chunks are not finished."""
    if found.left:
        yield f"<h2>How to go on</h2><p>Seeds {report.ranges(found.left)} are left. The same command continues:</p>"
        yield "<pre>" + "\n".join(escape(words_of(plan)) for plan in found.plans if plans.left(plan)) + "</pre>"
        why = [(plan, *it) for plan in found.plans for it in plans.hindered(plan)]
        yield from (f"<p>Chunk {number} of {escape(plan.folder)} is not finished: {escape(said)}</p>"
                    for plan, number, said in why[:10])
        logs = escape(f"{found.plans[0].folder}/logs")
        yield f'<p class="soft">What engines and chunks said is in <code>{logs}</code>.</p>'
    else:
        yield "<h2>How to go on</h2>"
        yield "<p>All seeds are done. Further ones go into another folder, and one report has both:</p>"
        yield f"<pre>./psci sweep report {escape(shlex.join(it.folder for it in found.plans))} FOLDER</pre>"
    if found.differences:
        yield "<p>A file <code>.txt</code> of what differs has the command that repeats that run.</p>"


def words_of(plan):
    """The words by which a sweep was begun, where they are known."""
    words, folder = plan.text.get("words"), plan.text.get("in")
    if not words:
        return f"./psci sweep {plan.kind} --seeds {plan.first}..{plan.last} --out {shlex.quote(plan.folder)} .."
    return f"# in {folder}\n./psci sweep {shlex.join(words)}"


def page(found, path):
    """The page of these plans, which is to stand at this path."""
    with open(f"{HERE}/page.css", encoding="utf-8") as file:
        style = file.read()
    head, _, rest = title(found).partition(": ")
    boxes = "".join(f"<div><b>{number}</b>{name}</div>" for name, number in numbers(found))
    folder = os.path.dirname(os.path.abspath(path))
    return "\n".join([
        '<!DOCTYPE html>', '<html lang="en"><meta charset="utf-8"><meta name="viewport" content="width=device-width">',
        f"<title>{escape(head)}</title><style>{style}</style>",
        f"<h1>{escape(head[:1].upper() + head[1:])}</h1><p>{escape(rest)}</p>", f'<div class="numbers">{boxes}</div>',
        *bars(found), *groups(found, folder), *next_steps(found), *times(found), *counts(found), "</html>", ""])
