"""All wrong bodies in one copy of the repository: which one is at work is a number that the built program keeps.

The body of each function that cases change becomes `if psci_abi::mutant() == K {..} else ..`, where K is the
number of a case and the last arm is the body as it is. Nothing but bodies may change: what is not imported is
named by its whole path.
"""
import glob
import os
import re
import subprocess
from collections import defaultdict, namedtuple

import repo

# the number that stands for none of them, as it stands in the module of LLVM and in the program
NONE = 1592594996
WHICH = f"""//! Which wrong body is at work.

/// Its number.
#[inline(never)]
pub fn mutant() -> u32 {{
    {NONE}
}}
"""
FN = re.compile(r"^( *)(?:pub(?:\([^)]*\))? )?(?:const )?(?:unsafe )?(?:extern \"C\" )?fn \w+")

# A case: its name as CRATE/CASE, what it changes by file, and the texts of its other lines by their first word.
Case = namedtuple("Case", "name changes words")
# The lines of a function's body, from the one after its brace to the one before the brace that ends it.
Body = namedtuple("Body", "first last")


def cases(top):
    """All cases of the repository, by their order: the first has the number 1."""
    found = []
    for path in sorted(glob.glob(f"{top}/tests/mutants/*.edits")):
        crate = os.path.basename(path).removesuffix(".edits")
        for name, text in repo.cases(path).items():
            edit = repo.parse_edit(text)
            changes = [it._replace(path=os.path.normpath(f"crates/{crate}/{it.path}")) for it in edit.changes]
            found.append(Case(f"{crate}/{name}", changes, edit.words))
    return found


def bodies(lines):
    """The bodies of all functions of a file, as `rt fmt` lays them out."""
    found = []
    for at, line in enumerate(lines):
        match = FN.match(line)
        if not match:
            continue
        margin = match[1]
        for begin in range(at, len(lines)):
            it = lines[begin]
            if it == f"{margin}{{" or (it.endswith(" {") and re.match(rf"{margin}\S", it)):
                found.append(Body(begin + 1, lines.index(f"{margin}}}", begin)))
                break
            if it.endswith((";", "{}")) and re.match(rf"{margin}\S", it):
                break
    return found


def changed(case, top):
    """The bodies that a case changes: of each file, by the place of the function in it, the lines of its body."""
    before, after = repo.edited(case.changes, top)
    found = {}
    for path, text in before.items():
        was, now = text.splitlines(), after[path].splitlines()
        old, new = bodies(was), bodies(now)

        def rest(lines, those):
            inside = {at for it in those for at in range(it.first, it.last)}
            return [line for at, line in enumerate(lines) if at not in inside]

        if len(old) != len(new) or rest(was, old) != rest(now, new):
            raise repo.BadEdit(f"more than bodies of functions changes in {path}")
        found[path] = {place: now[new[place].first:new[place].last] for place in range(len(old))
                       if was[old[place].first:old[place].last] != now[new[place].first:new[place].last]}
    return found


def merged(text, wrong, name):
    """A file in which each body has its wrong ones before it: by function, pairs of number and lines. Beside it the
    number to which each line belongs, by lines from 1."""
    lines, numbers, out, at = text.splitlines(), {}, [], 0
    for place, body in enumerate(bodies(lines)):
        # a function within another one has changed with that
        if place not in wrong or body.first < at:
            continue
        out += lines[at:body.first]
        for count, (number, new) in enumerate(wrong[place]):
            out.append(f"{'} else ' if count else ''}if {name}() == {number} {{")
            numbers.update((len(out) + 1 + it, number) for it in range(len(new)))
            out += new
        out += ["} else {", *lines[body.first:body.last], "}"]
        at = body.last
    return "\n".join([*out, *lines[at:], ""]), numbers


def write(top, room, those):
    """Makes the folder a copy of the repository that has all these cases, by number. Says of each line of a changed
    file to which number it belongs."""
    files = subprocess.run(["git", "-C", top, "ls-files", "-co", "--exclude-standard"], stdout=subprocess.PIPE, text=True,
                           check=True).stdout.splitlines()
    wanted = [it for it in files if os.path.exists(f"{top}/{it}") and
              it.split("/")[0] in ("crates", "crates.txt", "tools", "hosts", "include", "tests", "model", "examples", "psci")]
    subprocess.run(["cp", "--parents", "-P", "-t", room, *wanted], cwd=top, check=True)
    wrong = defaultdict(lambda: defaultdict(list))
    for number, case in those.items():
        try:
            for path, found in changed(case, top).items():
                for place, lines in found.items():
                    wrong[path][place].append((number, lines))
        except repo.BadEdit as fault:
            raise repo.BadEdit(f"{case.name}: {fault}") from fault
    numbers = {}
    for path, found in wrong.items():
        name = "crate::mutant" if path.startswith("crates/psci_abi/") else "psci_abi::mutant"
        text, numbers[path] = merged(repo.text_of(f"{top}/{path}"), found, name)
        repo.write(room, {path: text})
    root = repo.text_of(f"{top}/crates/psci_abi/src/lib.rt")
    root = re.sub(r"^mod ", "mod which;\nmod ", root, count=1, flags=re.M)
    root = re.sub(r"^pub use ", "pub use which::mutant;\npub use ", root, count=1, flags=re.M)
    listed = re.sub(r"^((?!psci_abi\b)\w[^:\n]*:)(?!.* psci_abi\b)", r"\1 psci_abi", repo.text_of(f"{top}/crates.txt"),
                    flags=re.M)
    repo.write(room, {"crates/psci_abi/src/lib.rt": root, "crates/psci_abi/src/which.rt": WHICH, "crates.txt": listed})
    return numbers
