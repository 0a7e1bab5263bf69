"""What the next task does: how it begins, for how long, and up to how many sets.

A run that is told nothing finds the easy sets, under each numbering others, and more and more of them twice. One that is told
what is known finds none twice, at a price that grows with what is known. Longer tasks cost less beside what they begin with.
What pays is told by the new sets a second, choice by choice: each is worth what its last tasks gave. Since sets get dearer, what
was measured long ago is too high if anything: so a choice that was left comes again by itself, once the others have come down to
it. One that is told and was never tried is taken to find what the fresh one finds in all, half as fast: so it comes once half of
the sets were found before. A sixteenth of the time goes to trying the others in turn.
"""
from collections import namedtuple

from gmus_tools.spreading.task import EVIDENCE, FRESH, JOURNAL

Choice = namedtuple("Choice", "how seconds sets")
SECONDS = (1, 4, 16, 64)
# How many sets a task may find for each second that it has: so many can be mapped in about that time. One that gives nothing if
# it is stopped has a goal that it can reach.
SETS = {FRESH: 256, JOURNAL: 256, EVIDENCE: 16}
# The part of the time of all tasks that goes to trying others than the best.
SHARE = 1 / 16
# What is hoped for of one that is told, of all that the fresh one finds.
HOPE = 1 / 2


def all_choices(seconds=None):
    """The choices, or those of one length."""
    return [Choice(how, each, SETS[how] * each) for each in ([seconds] if seconds else SECONDS) for how in (FRESH, JOURNAL, EVIDENCE)]


class Tally:
    """What the tasks of one choice took and gave; the last one counts as much as all before it."""

    def __init__(self):
        self.seconds, self.sets, self.new, self.last = 0.0, 0.0, 0.0, 0

    def add(self, seconds, sets, new, at):
        self.seconds, self.sets, self.new = self.seconds / 2 + seconds, self.sets / 2 + sets, self.new / 2 + new
        self.last = at

    def rate(self):
        return self.new / max(self.seconds, 0.001)

    def hope(self):
        return self.sets / max(self.seconds, 0.001) * HOPE


class Choices:
    """The choices and what they gave."""

    def __init__(self, seconds=None):
        self.all, self.tallies = all_choices(seconds), {}
        self.tasks, self.spent, self.tried = 0, 0.0, 0.0

    def add(self, choice, seconds, sets, new):
        """Notes what a task took, how many sets it found, and how many of these were new."""
        self.tasks, self.spent = self.tasks + 1, self.spent + seconds
        self.tallies.setdefault(choice, Tally()).add(seconds, sets, new, self.tasks)

    def longest(self):
        return self.all[-1].seconds

    def hopes(self):
        """What is hoped for of choices that were never tried."""
        fresh = {it.seconds: tally.hope() for it, tally in self.tallies.items() if it.how == FRESH}
        return {it: fresh[it.seconds] for it in self.all if it not in self.tallies and it.seconds in fresh}

    def next(self, known, running):
        """The choice of the next task, where so many sets are known and these choices are under way."""
        rates = {it: tally.rate() for it, tally in self.tallies.items()}
        last = {it: tally.last for it, tally in self.tallies.items()}
        choice, is_try = chosen(self.all, rates, self.hopes() if known else {}, last, known, running, SHARE * self.spent - self.tried)
        self.tried += choice.seconds if is_try else 0
        return choice


def chosen(choices, rates, hopes, last, known, running, spare):
    """The rule: a choice, and whether it is to try another than the best. `rates` has what each choice that was tried gives a
    second, `hopes` what is hoped for of others, `last` after how many tasks one was tried last, and so many seconds are to spare
    for trying."""
    able = [it for it in choices if known or it.how == FRESH]
    worth = {**hopes, **rates}
    if not any(worth.values()):
        # nothing is found: longer tasks may find something
        begun = [it for it in able if it in rates or it in running]
        longer = [it for it in able if it not in begun and rates]
        return (longer[0] if longer else begun[-1] if begun else able[0]), False
    best = max(worth, key=worth.get)
    others = [it for it in able if it != best and it not in running]
    turn = min(others, key=lambda it: last.get(it, 0), default=None)
    return (turn, True) if turn and turn.seconds <= spare else (best, False)
