"""What the crates below a program are made from, and where what is proved of them is kept."""
import glob
import hashlib
import os
import shutil

import repo

KIT = os.path.dirname(os.path.dirname(os.path.realpath(shutil.which("rt") or "rt")))
CACHE = f"{os.environ.get('XDG_CACHE_HOME') or os.path.expanduser('~/.cache')}/gumdarts/proved"
MEASURED = f"{repo.TOP}/bench/proof-seconds"


class Sources:
    """What the crates below a program are made from."""

    def __init__(self, program):
        self.crates = repo.Crates()
        self.names = self.crates.below(program)
        # how long each took in the last gate that was measured, of one processor
        measured = repo.text_of(MEASURED) if os.path.exists(MEASURED) else ""
        seconds = {name: int(it) for name, it in map(str.split, measured.splitlines())}
        self.stamps, self.work = {}, {}
        kit = repo.text_of(f"{KIT}/KIT-ID")
        for name in self.names:
            stamp, self.work[name] = hashlib.sha256((kit + self.crates.lines[name]).encode()), 1
            for path in self.files(name):
                text = repo.text_of(path)
                stamp.update(f"\0{os.path.relpath(path, self.crates.top)}\0{text}".encode())
                # of a crate that was not measured: forty lines a second
                self.work[name] += text.count("\n") / 40
            self.work[name] = seconds.get(name, self.work[name])
            stamp.update("".join(self.stamps[it] for it in self.crates.named[name]).encode())
            self.stamps[name] = stamp.hexdigest()

    def files(self, name):
        found = []
        for part in repo.TEXTS:
            found += glob.glob(f"{self.crates.folder(name)}/{part}/**/*.*t", recursive=True)
        return sorted(found)

    def behind(self):
        """Of each crate the work of the longest chain that waits for it, its own included."""
        behind = dict(self.work)
        for name in reversed(self.names):
            for it in self.crates.named[name]:
                behind[it] = max(behind[it], self.work[it] + behind[name])
        return behind

    def place(self, name):
        """The library of a crate of ours, or of the kit."""
        if name in self.stamps:
            return f"{CACHE}/{name}-{self.stamps[name][:32]}/{name}.rlib"
        return f"{KIT}/rlibs/{name}.rlib"

    def words(self, name, root):
        """What each command of the prover is told of a crate."""
        line = self.crates.lines[name].partition(":")[2].split()
        words = ["--crate-name", name, root, "-L", f"dependency={KIT}/rlibs"]
        for it in ["std", *line]:
            words += ["--extern", f"{it}={self.place(it)}"]
        for it in self.crates.below(name)[:-1]:
            words += ["-L", f"dependency={os.path.dirname(self.place(it))}"]
        return [*words, "--antt-project", f"{KIT}/rattle/logic/antt-project.json",
                "--links", f"{name}="]
