"""What was counted, in files of a folder, so that pages can be compared with it once more."""
import json
import os

from figured import beside, calls, library, pages


class Counted:
    """The tables, what the stored lists came to and what a short search found, and the stack of each call."""

    def __init__(self, tables, replayed, searched, bounds, stepped):
        self.fixed, self.replayed, self.searched = tables, replayed, searched
        self.bounds, self.stepped = bounds, stepped

    def tables(self):
        most = calls.dearest(self.replayed)
        return [library.stack_table(self.bounds, self.stepped), *calls.tables(most), *self.fixed,
                *library.sentences(self.bounds), *beside.sentences(self.fixed)]

    def wrong(self, read):
        """What the pages say otherwise, and what no page may say."""
        return (pages.compare(self.tables(), read) + library.too_deep(self.bounds, self.stepped)
                + calls.not_bounded(calls.dearest(self.replayed), self.searched))

    def keep(self, folder):
        os.makedirs(folder, exist_ok=True)
        parts = {"fixed": [json.dumps([it.path, it.head, it.rows]) for it in self.fixed],
                 "replayed": [json.dumps(it) for it in self.replayed],
                 "searched": [json.dumps(it) for it in self.searched],
                 "bounds": [json.dumps(it) for it in self.bounds.items()],
                 "stepped": [json.dumps(it) for it in self.stepped.items()]}
        for name, lines in parts.items():
            with open(f"{folder}/{name}", "w", encoding="utf-8") as file:
                file.write("".join(f"{it}\n" for it in lines))


def kept(folder):
    def part(name):
        with open(f"{folder}/{name}", encoding="utf-8") as file:
            return [json.loads(line) for line in file]
    return Counted([pages.Table(*it) for it in part("fixed")], [calls.Found(*it) for it in part("replayed")],
                   [calls.Found(*it) for it in part("searched")], dict(part("bounds")), dict(part("stepped")))
