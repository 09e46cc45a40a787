"""Tables of pages: what they say, and what is so."""
import os
import re
import sys

TOP = os.path.dirname(os.path.dirname(os.path.dirname(os.path.abspath(__file__))))


def grouped(number):
    return f"{int(number):,}"


def line_of(row):
    return f"| {' | '.join(row)} |"


def lines_of(head, rows):
    """A table of a page."""
    return [line_of(head), f"|{'---|' * len(head)}", *map(line_of, rows)]


class Table:
    """A table of a page, by its head, and the rows that it has to have. A row whose figures could not be counted here
    is not compared."""

    def __init__(self, path, head, rows):
        self.path, self.head, self.rows = path, head, rows

    def place(self, page):
        """Where it stands in the lines of the page."""
        line = line_of(self.head)
        if page.count(line) != 1:
            sys.exit(f"bench/figures: {self.path} has no table {line}")
        first = last = page.index(line)
        while last < len(page) and page[last].startswith("|"):
            last += 1
        return first, last

    def said(self, page):
        """The rows that the page has, by their names, in order."""
        first, last = self.place(page)
        rows = [[it.strip() for it in line.strip("|").split("|")] for line in page[first + 2:last]]
        return {row[0]: row for row in rows}

    def stale(self, page):
        """What the page says otherwise than these rows."""
        said, found = self.said(page), []
        for row in self.rows:
            was = said.get(row[0])
            if not was:
                found.append(f"{row[0]}: {self.path} does not say it")
                continue
            found += [f"{row[0]}, {column}: {self.path} says {it or 'nothing'}, it is {now or 'nothing'}"
                      for column, it, now in zip(self.head[1:], was[1:], row[1:]) if now is not None and it != now]
        known = [row[0] for row in self.rows]
        return found + [f"{it}: {self.path} says it, and there is none" for it in said if it not in known]

    def written(self, page):
        """The page with these rows; what was not counted stays."""
        said = self.said(page)
        rows = [[it if it is not None else (said.get(row[0]) or [""] * 99)[at] for at, it in enumerate(row)]
                for row in self.rows]
        first, last = self.place(page)
        return [*page[:first], *lines_of(self.head, rows), *page[last:]]


class Sentence:
    """A figure in a sentence of a page, or what of a few words stands there, by the words before it and behind it."""

    def __init__(self, path, before, behind, figure, form="[0-9,]+"):
        self.path, self.before, self.behind, self.figure = path, before, behind, figure
        words = [r"\s+".join(map(re.escape, it.split())) for it in (before, behind)]
        self.form = re.compile(rf"({words[0]}\s+)({form})(\s+{words[1]})")

    def found(self, page):
        said = self.form.findall("\n".join(page))
        if len(said) != 1:
            sys.exit(f"bench/figures: {self.path} has no sentence {self.before} .. {self.behind}")
        return said[0][1]

    def stale(self, page):
        was = self.found(page)
        return [] if was == self.figure else [f"{self.before} .. {self.behind}: {self.path} says {was}, it is {self.figure}"]

    def written(self, page):
        self.found(page)
        return self.form.sub(rf"\g<1>{self.figure}\g<3>", "\n".join(page)).split("\n")


def read(path):
    with open(f"{TOP}/{path}", encoding="utf-8") as file:
        return file.read().split("\n")


def compare(tables, top=read):
    """What the pages say otherwise."""
    return [line for table in tables for line in table.stale(top(table.path))]


def write(tables):
    for table in tables:
        page = table.written(read(table.path))
        with open(f"{TOP}/{table.path}", "w", encoding="utf-8") as file:
            file.write("\n".join(page))
