#!/usr/bin/env python3
"""Tests of what spread.py has the next task do, as a table of cases. What is wanted was worked out by hand from the rule."""
import unittest

import places  # noqa: F401
from gmus_tools.spreading.choice import Choice, Choices, all_choices, chosen
from gmus_tools.spreading.task import EVIDENCE, FRESH, JOURNAL

F1, F4, F16, F64 = (Choice(FRESH, seconds, 256 * seconds) for seconds in (1, 4, 16, 64))
J1, J4, J16, J64 = (Choice(JOURNAL, seconds, 256 * seconds) for seconds in (1, 4, 16, 64))
E1, E4, E16, E64 = (Choice(EVIDENCE, seconds, 16 * seconds) for seconds in (1, 4, 16, 64))
ALL = [F1, J1, E1, F4, J4, E4, F16, J16, E16, F64, J64, E64]


class TheRule(unittest.TestCase):
    def test_cases(self):
        self.assertEqual(all_choices(), ALL)
        self.assertEqual(all_choices(7), [Choice(FRESH, 7, 1792), Choice(JOURNAL, 7, 1792), Choice(EVIDENCE, 7, 112)])
        best, a_try = (lambda it: (it, False)), (lambda it: (it, True))
        for what, rates, hopes, last, known, running, spare, wanted in (
                ("the first task begins with nothing", {}, {}, {}, 0, [], 0, best(F1)),
                ("so do those beside it", {}, {}, {}, 0, [F1, F1], 0, best(F1)),
                ("and the first one of a run that goes on", {}, {}, {}, 500, [], 0, best(F1)),
                ("what found nothing gives way to what is longer", {F1: 0.0}, {}, {F1: 1}, 0, [F1], -1, best(F4)),
                ("and beside it to what is longer still", {F1: 0.0}, {}, {F1: 1}, 0, [F1, F4], -1, best(F16)),
                ("up to the longest", {F1: 0.0, F4: 0.0, F16: 0.0}, {}, {F1: 1, F4: 2, F16: 3}, 0, [F64], -99, best(F64)),
                ("of those that are told too, if something is known", {F1: 0.0}, {J1: 0.0, E1: 0.0}, {F1: 1}, 9, [], 0, best(J1)),
                ("nothing to tell: nobody is told", {F1: 30.0}, {}, {F1: 1}, 0, [], 2, best(F1)),
                ("no time to spare: the best goes on", {F1: 30.0}, {J1: 15.0, E1: 15.0}, {F1: 9}, 9, [], 0.9, best(F1)),
                ("what was never tried comes first, in order", {F1: 30.0}, {J1: 15.0, E1: 15.0}, {F1: 9}, 9, [], 1, a_try(J1)),
                ("then the next", {F1: 30.0, J1: 5.0}, {E1: 15.0}, {F1: 9, J1: 8}, 9, [], 1, a_try(E1)),
                ("but not twice at one time", {F1: 30.0}, {J1: 15.0, E1: 15.0}, {F1: 9}, 9, [J1], 1, a_try(E1)),
                ("a longer one waits for its time", {F1: 30.0, J1: 5.0, E1: 4.0}, {}, {F1: 9, J1: 7, E1: 8}, 9, [], 3.9, best(F1)),
                ("and then comes", {F1: 30.0, J1: 5.0, E1: 4.0}, {}, {F1: 9, J1: 7, E1: 8}, 9, [], 4, a_try(F4)),
                ("if all were tried, that of longest ago comes", dict.fromkeys(ALL, 5.0) | {F1: 30.0}, {},
                 dict(zip(ALL, range(20, 32))) | {J4: 3}, 9, [], 4, a_try(J4)),
                ("if that is a long one, it is waited for", dict.fromkeys(ALL, 5.0) | {F1: 30.0}, {},
                 dict(zip(ALL, range(20, 32))) | {J64: 3}, 9, [], 40, best(F1)),
                ("the best is what gives most, however it begins", {F1: 2.0, J16: 2.1}, {}, {F1: 9, J16: 8}, 9, [], 0, best(J16)),
                ("what found nothing is no choice once something else does", {F1: 0.0, F4: 0.1}, {}, {F1: 1, F4: 2}, 9, [], 0, best(F4)),
                ("if most is found twice, the told come without a try", {F1: 4.0}, {J1: 15.0, E1: 15.0}, {F1: 9}, 9, [F1], 0, best(J1)),
                ("also several at one time", {F1: 4.0}, {J1: 15.0, E1: 15.0}, {F1: 9}, 9, [J1, J1], 0, best(J1)),
                ("and if they don't keep that, the others come", {F1: 4.0, J1: 1.0}, {E1: 15.0}, {F1: 9, J1: 10}, 9, [], 0, best(E1)),
        ):
            self.assertEqual(chosen(ALL, rates, hopes, last, known, running, spare), wanted, what)

    def test_a_rate_is_mostly_that_of_the_last_tasks(self):
        choices = Choices()
        choices.add(F1, 1.0, 40, 40)
        choices.add(F1, 1.0, 40, 10)
        # half of 40 and 10, in half of 1 and 1 seconds
        self.assertAlmostEqual(choices.tallies[F1].rate(), 30 / 1.5)
        self.assertEqual(choices.tallies[F1].last, 2)
        # half of what it finds in all, 60 in the same time, is hoped for of those of its length that are told
        self.assertEqual(choices.hopes(), {J1: 20.0, E1: 20.0})
        choices.add(J1, 1.0, 5, 5)
        self.assertEqual(choices.hopes(), {E1: 20.0})

    def test_a_sixteenth_of_the_time_goes_to_others(self):
        choices, given = Choices(), []
        for _ in range(5000):
            choice = choices.next(9, [])
            given.append(choice)
            sets = 30 * choice.seconds if choice == F1 else choice.seconds
            choices.add(choice, choice.seconds, sets, sets)
        others = sum(it.seconds for it in given if it != F1)
        self.assertTrue(0.9 / 16 < others / sum(it.seconds for it in given) <= 1 / 16)
        self.assertEqual({*given}, {*ALL})

    def test_it_changes_when_another_pays_more(self):
        # fresh tasks find ever more twice, what is told finds 4 a second
        choices, rate, given = Choices(), 100.0, []
        for _ in range(200):
            choice = choices.next(9, [])
            given.append(choice.how)
            rate = rate * 0.95 if choice.how == FRESH else rate
            new = rate * choice.seconds if choice.how == FRESH else 4 * choice.seconds
            choices.add(choice, choice.seconds, new, new)
        self.assertLess(given[:60].count(JOURNAL), 6)
        self.assertGreater(given[-60:].count(JOURNAL) + given[-60:].count(EVIDENCE), 40)


if __name__ == "__main__":
    unittest.main()
