"""Tries wrong definitions on the copy of a crate: whether something that counts is shown to be false."""
import glob
import os
import re
import subprocess

import refusers
import repo
import together


def said(folder, *words):
    """How the command ended that was run in the folder, and all that it wrote."""
    ran = subprocess.run(words, cwd=folder, stdin=subprocess.DEVNULL, text=True,
                         stdout=subprocess.PIPE, stderr=subprocess.STDOUT, errors="replace")
    return ran.returncode, ran.stdout


def listed(names, most=3):
    more = f" and {len(names) - most} more" if names[most:] else ""
    return ", ".join(names[:most]) + more


def rounds(crate, edit):
    """The files to be asked, in turn: those with a theorem that the case names, and all with examples."""
    words = edit.words.get("refused", [])
    named = [it for it in refusers.files_named(os.path.basename(crate), words)
             if os.path.exists(f"{crate}/proofs/{it}.antt")]
    return [named, examples(crate)] if named else [examples(crate)]


def examples(crate):
    """The files of worked examples of a crate."""
    return sorted(os.path.basename(it).removesuffix(".antt") for it in
                  glob.glob(f"{crate}/proofs/*Rows.antt"))


# a function of the copy whose proof brings in files of worked examples, so that a check asks no more
EXAMPLES = "judged_examples"


def bring(crate, files):
    """Has that function's proof bring in these files."""
    os.makedirs(f"{crate}/proofs/{EXAMPLES}", exist_ok=True)
    repo.write(crate, {f"proofs/{EXAMPLES}/Answers.antt": "".join(
        f"use Rattle.{os.path.basename(crate)}.proofs.{it}\n" for it in files)})


def ready(folder, beside):
    """Makes the copy of a crate one that examples are asked of, with the files of lemmas that lie beside
    its cases; why that cannot be, or None."""
    # (they are not called .antt, since the gate takes no such file outside a crate)
    paths = sorted(glob.glob(f"{beside}/{refusers.JUDGES}*.lemmas"))
    name_libraries(folder, "".join(map(repo.text_of, paths)))
    names = [os.path.basename(it).removesuffix(".lemmas") for it in paths]
    lemmas = {f"proofs/{name}.antt": repo.text_of(it) for name, it in zip(names, paths)}
    repo.write(folder, {**lemmas, "proofs/Lib.antt": repo.text_of(f"{folder}/proofs/Lib.antt")
                        + "".join(f"pub mod {it}\n" for it in names)})
    root = next(it for it in ("src/lib.rt", "src/main.rt") if os.path.exists(f"{folder}/{it}"))
    repo.write(folder, {root: repo.text_of(f"{folder}/{root}") + f"\nfn {EXAMPLES}() {{}}\n"})
    bring(folder, examples(folder))
    status, text = said(folder, "rt", "check", "--jobs", "1", "--only", EXAMPLES)
    return f"NOT TRIED: the crate itself is not proved: {text[-400:]}" if status else None


def name_libraries(folder, text):
    """Has the line of a copied crate name those crates below it, too, that the text names."""
    room = os.path.dirname(os.path.dirname(folder))
    crates, crate = repo.Crates(room), os.path.basename(folder)
    below = {it for it in re.findall(r"\bRattle\.(\w+)\.", text)} & {*crates.below(crate)[:-1]}
    more = sorted(below - {*crates.named[crate]})
    lines = {**crates.lines, crate: " ".join([crates.lines[crate], *more])}
    repo.write(room, {"crates.txt": "".join(f"{it}\n" for it in lines.values())})


def tried(folder, cases_of, is_quick=False):
    """Yields of each case, by its name and file, whether the crate in the folder is refused with it, and
    what is to be said of it."""
    hindered, edits = ready(folder, os.path.dirname(next(iter(cases_of.values())))), {}
    for name, path in cases_of.items():
        try:
            edit = repo.read_edit(path)
            edits[name] = edit, repo.edited(edit.changes, folder)[1]
        except repo.BadEdit as error:
            yield name, False, f"BAD CASE: {error}"
    if hindered:
        yield from ((name, False, hindered) for name in edits)
        return
    for name, counts, what in together_tried(folder, edits, is_quick):
        yield name, bool(counts), f"refused by {listed(counts)}" if counts else what


# how many lines of copies one check reads, beyond those of one case
AT_ONCE = 16000


def together_tried(folder, edits, is_quick):
    """Yields of the cases what refuses them, or what is to be said where nothing does."""
    modules, waiting, lost_of = together.Modules(folder), [], {name: [] for name in edits}
    others = [] if is_quick else together.with_theorems(folder, modules)
    for number, (name, (edit, after)) in enumerate(edits.items()):
        names = [it for line in edit.words.get("refused", []) for it, _ in refusers.named_by(line)]
        waiting.append((name, edit, number, after, names, turns(modules, folder, edit, after, others)))

    def check(names):
        bring(folder, names)
        return said(folder, "rt", "check", "--jobs", "1", "--only", EXAMPLES)[1]

    while waiting:
        now, lines = [], 0
        while waiting and lines < AT_ONCE:
            name, edit, number, after, names, files = waiting[0]
            copies = together.Copies(modules, name, edit, number, after, files[0], names)
            if now and not copies.is_all:
                break
            waiting.pop(0)
            now.append((copies, (name, edit, number, after, (), files[1:])))
            lines += sum(text.count("\n") for text in copies.texts.values()) if copies.is_all else AT_ONCE
        counts, lost = together.Together(folder, check, [it for it, _ in now]).refused()
        for _, it in now:
            name, left = it[0], it[-1]
            lost_of[name] = lost[name] if isinstance(lost[name], str) else [*lost_of[name], *lost[name]]
            if not counts[name] and left and not isinstance(lost[name], str):
                waiting.append(it)
            else:
                yield name, list(dict.fromkeys(counts[name])), told(lost_of[name])


def turns(modules, folder, edit, after, others):
    """The files to be asked in turn, by their paths, of those that the change reaches: those with the theorems
    that the case names, then others with examples, first those that name what is changed, then the small
    ones, and then these other ones. The named ones are asked for these theorems first, and again among all."""
    paths = [[f"proofs/{it}.antt" for it in files] for files in rounds(folder, edit)]
    reached, _ = modules.reached(after, [*(it for files in paths for it in files), *others])
    named = [it for it in paths[0] if paths[1:] and it in reached]
    rest = sorted((it for it in paths[-1] if it in reached), key=lambda it: modules.texts[it].count("\n"))
    near = [it for it in rest if modules.named_in(modules.texts[it]) & after.keys()]
    far = [it for it in rest if it not in near]
    more = [it for it in others if it in reached and it not in rest]
    return [it for it in [named, near, far[:4], far[4:12], far[12:], more] if it] or [[]]


def told(lost):
    """What is to be said of a case that nothing refuses."""
    if isinstance(lost, str):
        return lost
    if lost:
        return f"NOT REFUSED: what broke may hold, as nothing shows it to be false: {listed(lost, 4)}"
    return "NOT REFUSED: each example and theorem holds"
