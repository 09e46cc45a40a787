"""How far a sweep is, on standard error: in one line of a terminal that is written over, elsewhere in lines, at first
after seconds and then twice a minute. What differs, and why a chunk is not finished, is told as it is found."""
import os
import sys
import time

from . import plan as plans

# how often it is looked, in seconds; and how long a line waits at first and at most, where there is no terminal
EVERY, SOON, MOST_WAIT = 1.0, 2.0, 30.0
# of so many groups the first is told at once; the report has all
MOST_TOLD = 10


def in_words(seconds):
    """About how long that is."""
    for size, word in ((86400, "days"), (3600, "hours"), (60, "minutes")):
        if seconds >= 2 * size:
            return f"{seconds / size:.1f} {word}"
    return f"{int(seconds) + 1} s"


class Far:
    """Looks which results are there, once a second."""

    def __init__(self, plan, left):
        self.plan, self.left, self.begun, self.looked = plan, set(left), time.time(), 0.0
        self.rest, self.told = set(left), set()
        self.is_shown = sys.stderr is not None and sys.stderr.isatty()
        self.said, self.wait, self.more = time.time(), SOON, None

    def text(self):
        """Done, left, and the time to come, by the chunks that this run has done so far."""
        whole, rest, done = len(self.plan.chunks), len(self.rest), len(self.left) - len(self.rest)
        spent = time.time() - self.begun
        to_come = f", about {in_words(spent / done * rest)} to come" if done and rest else ""
        return f"psci sweep: {whole - rest} of {whole} chunks are done, {rest} left{to_come}"

    def look(self):
        if time.time() - self.looked < EVERY:
            return
        self.looked = time.time()
        self.news()
        if self.is_shown:
            self.write(f"\r\033[K{self.text()}")
        if time.time() - self.said >= self.wait:
            self.said, self.wait = time.time(), min(2 * self.wait, MOST_WAIT)
            more = self.more() if self.more else ""
            if not self.is_shown:
                self.write(f"{self.text()}{more}\n")

    def news(self):
        """What came since it was looked last: results, and why chunks are not finished."""
        there = {int(name[:-5]) for name in os.listdir(f"{self.plan.folder}/results") if name.endswith(".json")}
        for number in sorted(self.rest & there):
            self.rest.discard(number)
            for it in (plans.result(self.plan, number) or {"differences": []})["differences"]:
                files = f": {self.plan.folder}/failed/{it['kept'][0]}" if it["kept"] else ""
                self.tell_once(it["what"], f"differs: seed {it['seed']}, {it['board']}: {it['what']}{files}")
        for number, why in plans.hindered(self.plan):
            self.tell_once(why, f"chunk {number} is not finished: {why}")

    def tell_once(self, what, text):
        """Tells the first of a kind."""
        if what not in self.told and len(self.told) < MOST_TOLD:
            self.told.add(what)
            self.say(text)

    def say(self, text):
        """Says a line, in place of how far it is."""
        self.clear()
        self.write(f"psci sweep: {text}\n")

    @staticmethod
    def write(text):
        sys.stderr.write(text)
        sys.stderr.flush()

    def clear(self):
        if self.is_shown:
            self.write("\r\033[K")

    def end(self):
        """What came last is told, too."""
        self.news()
        self.clear()
