#!/usr/bin/env python3
"""Tests of make_case.py: python3 -m unittest discover -s tools/tests (nothing but Python 3.9 is needed)."""
import itertools
import os
import subprocess
import sys
import unittest

from places import TOOLS
from gmus_tools.commands import make_case

TWO_GROUPS = ("p gcnf 5 8 2\n{1} 1 2 3 0\n{1} 1 2 -3 0\n{1} 1 -2 3 0\n{1} 1 -2 -3 0\n"
              "{2} -1 4 5 0\n{2} -1 4 -5 0\n{2} -1 -4 5 0\n{2} -1 -4 -5 0\n")
THREE_GROUPS = ("p gcnf 7 12 3\n{1} 1 2 3 0\n{1} 1 2 -3 0\n{1} 1 -2 3 0\n{1} 1 -2 -3 0\n"
                "{2} 1 4 5 0\n{2} 1 4 -5 0\n{2} 1 -4 5 0\n{2} 1 -4 -5 0\n"
                "{3} -1 6 7 0\n{3} -1 6 -7 0\n{3} -1 -6 7 0\n{3} -1 -6 -7 0\n")


def run(*words):
    return subprocess.run([sys.executable, os.path.join(TOOLS, "make_case.py"), *words],
                          stdout=subprocess.PIPE, stderr=subprocess.PIPE)


def satisfied(clauses, groups, variables):
    """The sets of groups that some assignment satisfies just so."""
    for values in itertools.product((False, True), repeat=variables):
        failed = {group for group, lits in clauses if not any(values[abs(lit) - 1] == (lit > 0) for lit in lits)}
        yield frozenset(range(1, groups + 1)) - failed


def minimal_sets(seed, size):
    """How many minimal conflicts and minimal corrections there are, by trying all assignments and all sets."""
    clauses, groups = make_case.clauses(seed, size)
    models = set(satisfied(clauses, groups, size + 2 * groups))
    everything = frozenset(range(1, groups + 1))
    subsets = [frozenset(s) for n in range(groups + 1) for s in itertools.combinations(everything, n)]
    unsat = {s for s in subsets if not any(s <= model for model in models)}
    conflicts = [s for s in unsat if not any(s - {group} in unsat for group in s)]
    repairs = {s for s in subsets if everything - s not in unsat}
    corrections = [s for s in repairs if not any(s - {group} in repairs for group in s)]
    return len(conflicts), len(corrections)


class MakeCase(unittest.TestCase):
    def test_small_texts_are_these(self):
        for seed, wanted in ((0, TWO_GROUPS), (65537, TWO_GROUPS), (2 ** 64 - 1, TWO_GROUPS), (900, THREE_GROUPS)):
            self.assertEqual(make_case.text_of(seed, 1), wanted, seed)

    def test_wide_links_stand_where_the_states_say(self):
        self.assertEqual(make_case.widths(7, 12), [1, 1, 1, 2, 1, 1, 1, 2, 2, 1, 1, 1, 1])
        lines = make_case.text_of(7, 12).split("\n")
        self.assertEqual((lines[0], lines[13], lines[18], lines[63]),
                         ("p gcnf 44 64 16", "{4} -3 4 19 20 0", "{5} -3 4 21 -22 0", "{16} -12 -43 44 0"))

    def test_no_more_than_eight_links_are_wide(self):
        for seed in range(20):
            for size in (1, 60, 1000):
                self.assertLessEqual(make_case.widths(seed, size).count(2), 8, (seed, size))
        self.assertEqual(make_case.widths(1, 1000).count(2), 8)

    def test_sets_are_as_many_as_the_widths_say(self):
        for seed, size in ((0, 1), (900, 1), (1, 2), (2, 2)):
            wide = make_case.widths(seed, size).count(2)
            self.assertEqual(minimal_sets(seed, size), (2 ** wide, size + 1), (seed, size))

    def test_program_writes_the_text_or_refuses(self):
        self.assertEqual((run("900", "1").returncode, run("900", "1").stdout), (0, THREE_GROUPS.encode()))
        for words in ((), ("1",), ("1", "2", "3"), ("x", "1"), ("-1", "1"), ("1", "0"), ("1", "1001"),
                      (str(2 ** 64), "1"), ("+1", "1"), ("²", "1")):
            ended = run(*words)
            self.assertEqual((ended.returncode, ended.stdout), (2, b""), words)
            self.assertTrue(ended.stderr.startswith(b"make_case.py: "), words)


if __name__ == "__main__":
    unittest.main()
