"""The tasks under way: which are given, what comes back, and what goes wrong with them.

Nothing that comes back is believed. Where the engine is gone, as a pool with a dead process is, it is made anew and its tasks
are done again. For a task that doesn't answer nobody waits.
"""
import concurrent.futures
import os
import time
from collections import namedtuple

from gmus_tools import program
from gmus_tools.command import plain
from gmus_tools.spreading.choice import Choices
from gmus_tools.spreading.task import FRESH, MORE, Nonsense, Order, answer_of

# What was given: the order, how it was chosen, how many times it was given, and when the last time. Beside its own time a task
# has so many seconds, and so many for each record that it is told.
Given = namedtuple("Given", "order choice times begun")
PATIENCE, FOR_A_RECORD = 30.0, 0.01
# What it gave: the machine that it names, how long it took, how the program ended, and how many sets it says that it found.
Gave = namedtuple("Gave", "host given seconds status sets")
# So many times a task is given whose process dies.
TIMES = 3
# Batches that wait to be judged: up to so many for each task under way.
WAITING = 2
# After a failure one task less is given for a second, and if nobody gives anything else, for twice as long each time, up to this.
LONGEST_REST = 60.0
# So many seconds pass between two looks whether an engine is back.
RENEWAL = 5.0
# A machine may say what it likes of itself: up to so many characters are shown.
SHOWN = 60


class Tasks:
    """The tasks of one engine. `tell` is told each line of what goes wrong."""

    def __init__(self, engine, judge, found, tell, seconds=None):
        self.engine, self.judge, self.found, self.tell = engine, judge, found, tell
        self.choices, self.under_way, self.again, self.forgotten = Choices(seconds), {}, [], []
        self.number = int.from_bytes(os.urandom(4), "big")
        self.slots, self.known, self.fruitless, self.failures, self.rests = 0, 0, 0, 0, []
        self.is_lost, self.losses, self.renews, self.has_none = False, 0, 0.0, False
        self.hosts, self.done, self.sets, self.new, self.refused = set(), 0, 0, 0, 0

    def give(self):
        """Gives tasks to whoever has none."""
        if self.is_lost and time.monotonic() >= self.renews:
            self.is_lost = not self.engine.renew()
            self.renews = time.monotonic() + RENEWAL
        try:
            while not self.is_lost and self.has_room():
                self.give_one()
        except Exception as error:
            # whatever an engine raises, it is of no use
            self.lose(f"{type(error).__name__}: {error}")
        self.has_none = not self.under_way

    def give_one(self):
        if not self.again:
            self.again.append(self.next_order())
        order, choice, times = self.again[-1]
        self.under_way[self.engine.submit(order)] = Given(order, choice, times + 1, time.monotonic())
        self.again.pop()

    def has_room(self):
        self.forgotten = [it for it in self.forgotten if not it.done()]
        self.rests = [it for it in self.rests if it > time.monotonic()]
        self.slots = self.engine.slots() - len(self.forgotten)
        return len(self.under_way) + len(self.rests) < self.slots and len(self.judge.asked) < WAITING * self.slots

    def next_order(self):
        choice = self.choices.next(len(self.found), [it.choice for it in self.under_way.values()])
        told = 0 if choice.how == FRESH else len(self.found)
        if told > self.known:
            self.engine.tell(self.found.texts[self.known:told])
            self.known = told
        self.number += 1
        return Order(self.number, choice.how, choice.seconds, choice.sets, told), choice, 0

    def take(self, seconds):
        """Waits so long for answers, and takes those that came."""
        done = concurrent.futures.wait(self.under_way, seconds, concurrent.futures.FIRST_COMPLETED).done
        for future in done:
            if future in self.under_way:
                self.take_one(future, self.under_way.pop(future))

    def take_one(self, future, given):
        try:
            answer = answer_of(future.result())
        except self.engine.lost as error:
            self.lose(f"{type(error).__name__}: {error}", given)
        except Nonsense as why:
            self.fail(f"task {given.order.number}", str(why))
        except Exception as error:
            self.fail(f"task {given.order.number}", shown(f"{type(error).__name__}: {error}"))
        else:
            self.take_answer(answer, given)

    def take_answer(self, answer, given):
        host = shown(answer.host)
        self.hosts.add(host)
        if answer.fault is not None:
            self.fail(f"{host}, task {given.order.number}", shown(answer.fault))
        else:
            self.failures = self.losses = 0
        whose = Gave(host, given, time.monotonic() - given.begun, answer.status, answer.sets)
        if answer.batch:
            self.judge.ask(whose, answer.batch)
        else:
            self.count(whose, 0, 0)

    def judged(self, verdict):
        """Takes a verdict on a task's batch."""
        whose = verdict.whose
        if verdict.refusal is not None:
            self.refused += 1
            self.fail(f"{whose.host}, task {whose.given.order.number}", f"refused: {shown(verdict.refusal)}")
        self.count(whose, min(whose.sets, len(verdict.texts)), self.found.add(verdict.texts))

    def count(self, whose, sets, new):
        """Counts the sets that a task gave, and those of them that are new."""
        self.done, self.sets, self.new = self.done + 1, self.sets + sets, self.new + new
        self.choices.add(whose.given.choice, whose.seconds, sets, new)
        if new:
            self.fruitless = 0
        elif whose.status == program.DONE:
            # it says that there are no others
            self.fruitless = max(1, self.slots)
        elif whose.given.choice.seconds == self.choices.longest():
            # shorter ones that find nothing new only say that they are too short
            self.fruitless += 1

    def is_fruitless(self):
        """Whether a round of tasks found nothing new, or none can be given."""
        return self.has_none or self.fruitless >= max(1, self.slots)

    def lose(self, why, *given):
        """The engine is gone: what it had is done again by the next one."""
        self.again += [it[:3] for it in given if it.times < TIMES]
        if not self.is_lost:
            self.again += [it[:3] for it in self.under_way.values() if it.times < TIMES]
            self.is_lost, self.under_way = True, {}
            self.losses += 1
            self.renews = time.monotonic() + min(LONGEST_REST, 2.0 ** (self.losses - 1) - 1)
            self.tell(f"{self.engine.gone}, and what they did is done again ({shown(why)})", self.engine.gone)

    def fail(self, what, line):
        """Tells of a failure, and has one task less given for a while."""
        self.failures += 1
        self.rests.append(time.monotonic() + min(LONGEST_REST, 2.0 ** (self.failures // max(1, self.slots))))
        self.tell(f"{what}: {line}", line)

    def forget_late(self):
        """Gives up tasks that had their time."""
        for future, given in list(self.under_way.items()):
            order = given.order
            if time.monotonic() > given.begun + MORE * order.seconds + PATIENCE + FOR_A_RECORD * order.told:
                del self.under_way[future]
                self.fail(f"task {order.number}", "no answer in its time")
                if self.engine.is_local:
                    # only a new pool gets its process back
                    self.lose("it did not answer")
                else:
                    future.cancel()
                    self.forgotten.append(future)


def shown(text):
    """A text that came from elsewhere, short and without control characters."""
    text = plain(text)
    return text if len(text) <= SHOWN else text[:SHOWN - 1] + "\u2026"
