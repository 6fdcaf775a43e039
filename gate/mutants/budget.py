"""Trying groups of mutants until a budget of CPU seconds is used up.

The seconds are those of the checks that ran, user and system, and not of the clock: a slow machine
ends too. A check that runs when the budget is used up ends, and no further one begins, but for the
one of a lane that proves functions unchanged, without which nothing that it rejected would count.
What was not decided waits: it counts neither as passed nor as failed.
"""
import shutil
import tempfile
import threading
from concurrent.futures import ThreadPoolExecutor

from . import seen
from .batches import SAMPLE, Lane
from .crates import jobs
from .tally import Tally


class Budget:
    """CPU seconds, of which the checks of all lanes take theirs; without a number, no bound."""

    def __init__(self, seconds=None):
        self.seconds, self.used, self.lock = seconds, 0.0, threading.Lock()

    def take(self, seconds):
        with self.lock:
            self.used += seconds

    def is_used_up(self):
        return self.seconds is not None and self.used >= self.seconds


class UsedUp(Exception):
    """The budget is used up, and a check was to begin."""


class Results(Tally):
    """A tally that notes of what there is a result."""

    def __init__(self, crate):
        super().__init__(crate)
        self.decided = set()

    def say(self, label, text, passes):
        super().say(label, text, passes)
        self.decided.add(label)


class Bounded(Lane):
    """A lane whose checks take from a budget."""

    def __init__(self, crates, crate, top, stamps, budget):
        super().__init__(crates, crate, top, stamps)
        self.tally, self.budget, self.is_bound = Results(crate), budget, True

    def check(self, texts, edits, way, beside=()):
        if self.is_bound and self.budget.is_used_up():
            raise UsedUp
        said = super().check(texts, edits, way, beside)
        self.budget.take(said.seconds)
        return said

    def try_all(self, edits, draw):
        """Tries all edits, or those that the budget suffices for. Also of these none counts as
        rejected where functions of the lane are not proved unchanged after them."""
        self.unproved = None
        try:
            return super().try_all(edits, draw)
        except UsedUp:
            self.is_bound = False
            rejected = {it.function: it for it in self.tally.seen}
            if self.unproved is None:
                self.unproved = [*rejected.values()][:SAMPLE]
            if self.unproved and rejected:
                self.prove_unchanged()
            shutil.rmtree(self.top)
            return self.tally


def parts_of(groups):
    """The groups, each in several parts where there are fewer than processors."""
    number = max(1, jobs() // max(1, len(groups)))
    return [part for it in groups for part in (it[at::number] for at in range(number)) if part]


def try_groups(crates, groups, tallies, stamps, budget):
    """Tries groups of edits, each of one crate, in their order, in as many lanes as run in
    parallel, while the budget lasts. Returns the labels of those that were decided."""
    decided, lock = set(), threading.Lock()

    def try_group(number, edits, top):
        if budget.is_used_up():
            return
        crate = edits[0].crate
        lane = Bounded(crates, crate, f"{top}/{number}", stamps, budget)
        results = lane.try_all(edits, seen.draw())
        with lock:
            tallies[crate].add(results)
            decided.update(results.decided)
            print("\n".join([*results.lines, results.summary()]), flush=True)

    with tempfile.TemporaryDirectory(prefix="wrong-") as top:
        with ThreadPoolExecutor(jobs()) as pool:
            list(pool.map(lambda it: try_group(*it, top), enumerate(parts_of(groups))))
    return decided
