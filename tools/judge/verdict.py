"""The verdict on a record."""
import time
from collections import namedtuple

from . import after, ends
from .record import EARLY_REGISTERS, Remark, Unreadable, convention
from .search import Search, Undecided
from .starts import never_entered
from .words import KEEPS_EARLY

# operation, what ours answers, and whether an earlier difference of the record came first
Difference = namedtuple("Difference", "operation ours is_later")
AGREES, DIFFERS, UNDECIDED = "agrees", "differs", "undecided"


class Verdict:
    """What was found of a record: its differences, remarks, and why it is undecided, if it is."""

    def __init__(self, name):
        self.name, self.answers, self.differences, self.remarks = name, 0, [], []
        self.undecided, self.seconds, self.tried = None, 0.0, 0

    @property
    def word(self):
        certain = self.differences or any(it.kind == "fault" for it in self.remarks)
        return DIFFERS if certain else UNDECIDED if self.undecided else AGREES

    def add(self, operation, ours, is_first_of_life=False):
        self.differences.append(Difference(operation, ours, bool(self.differences) and not is_first_of_life))


def seen(remark, profile, version):
    """A remark on a firmware that keeps more than it has to by each version of the convention: as it declares, or by
    the version that it tells."""
    if remark.what != EARLY_REGISTERS or not profile.keeps_early and version < KEEPS_EARLY:
        return remark
    why = "which its profile says it keeps" if profile.keeps_early else (
        f"which a call keeps in version {version >> 16}.{version % 2**16} of the convention, its own")
    return Remark("fault", f"x4 to x17 changed, {why}", remark.text)


def judged(name, lives, profile, bound=20000, limit=60.0, is_whole=False, has_later=True, version=0):
    """The verdict on the lives of a record; without later differences it ends with the first one. Another record of
    the same firmware may tell the version of the calling convention."""
    verdict, began = Verdict(name), time.monotonic()
    version = max(version, convention(lives))
    for life in lives:
        if life.head[4] > len(profile.board.cores):
            many = len(profile.board.cores)
            raise Unreadable(f"its head has {life.head[4]} cores, but the board of the profile has {many}")
        verdict.remarks += [seen(it, profile, version) for it in life.remarks]
        verdict.remarks += never_entered(life, profile.board)
        if has_later or not verdict.differences:
            look_at_life(verdict, life, profile, bound, began + limit, is_whole, has_later)
        if has_later or not verdict.differences:
            look_at_end(verdict, life, profile, life is lives[-1])
    verdict.seconds = time.monotonic() - began
    return verdict


def look_at_life(verdict, life, profile, bound, until, is_whole, has_later):
    search, has_differed, at = Search(life, profile, bound, until, is_whole), False, 0
    ordered = life.ordered()
    try:
        while at < len(ordered):
            ours = search.answer(ordered[at])
            if ours is not None and not search.is_whole:
                # reductions only make it faster: what they find is looked for once more without them,
                # from the beginning, or behind an earlier difference from here
                if not has_differed:
                    search, at = Search(life, profile, bound, until, is_whole=True), 0
                    continue
                search.is_whole = True
                ours = search.answer(ordered[at])
            if ours is not None:
                verdict.add(ordered[at], ours, not has_differed)
                has_differed = True
                if not has_later:
                    break
                after.go_on(search, ordered[at])
            if has_differed:
                search.is_whole = is_whole
            at += 1
    except Undecided as why:
        verdict.undecided = f"{why}, at {ordered[at].text}"
    verdict.answers += at
    verdict.tried = max(verdict.tried, search.tried)
    for operation in life.broken:
        verdict.add(operation, ["a wake-up"], not has_differed)


def look_at_end(verdict, life, profile, is_last):
    """A life ends by a call that ends the system by ours, too. By any other one the last life may just break off, and
    behind a reset another one begins."""
    by = None if is_last else ends.taken(life, profile)
    if by:
        verdict.add(by[0], [str(by[1])])
    elif not ends.is_ended(life, profile, is_last):
        verdict.undecided = verdict.undecided or "the record breaks off"
