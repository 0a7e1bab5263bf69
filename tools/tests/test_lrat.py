"""Tests of check_lrat.py, and of what checks/exports.py says of an exported conflict. What is wanted was worked out by hand."""
import os
import subprocess
import sys
import tempfile
import unittest

from places import EXAMPLES, TOOLS
from checks import exports
from gmus_tools.evidence import check_evidence, check_lrat

# x, not x or y, and not y.
THREE = "p cnf 2 3\n1 0\n-1 2 0\n-2 0\n"


def told(cnf, lrat):
    """None where the proof passes, and else what is wrong with it."""
    try:
        return None if check_lrat.check(*check_lrat.read_cnf(cnf, "f"), lrat, "p") else "no empty clause"
    except check_lrat.Wrong as wrong:
        return str(wrong)


class Proofs(unittest.TestCase):
    def test_proofs_that_pass(self):
        for cnf, lrat in [
            ("p cnf 1 2\n1 0\n-1 0\n", "3 0 1 2 0\n"),
            (THREE, "4 0 1 2 3 0\n"),
            (THREE, "c in two steps\n4 2 0 1 2 0\n5 0 4 3 0\n"),
            (THREE, "4 2 0 1 2 0\n4 d 1 2 0\n5 0 4 3 0\n"),
            (THREE, "7 2 2 0 1 2 0\n9 0 7 3 0\n"),
            ("c two lines for a clause\np cnf 1 2\n1\n0 -1 0\n%\n0\n", "3 0 1 2 0\n"),
            ("p cnf 0 1\n0\n", "2 0 1 0\n"),
            ("p cnf 0 1\n0\n", ""),
            # A literal twice, and a clause that is true in any case.
            ("p cnf 2 3\n1 1 0\n-1 -1 0\n2 -2 0\n", "4 0 1 2 0\n"),
        ]:
            with self.subTest(cnf=cnf, lrat=lrat):
                self.assertIsNone(told(cnf, lrat))

    def test_proofs_that_are_refused(self):
        for lrat, wanted in [
            ("", "no empty clause"),
            ("4 2 0 1 2 0\n", "no empty clause"),
            ("4 0 1 2 0\n", "p: line 1: the hints lead to no clause that is false"),
            ("4 0 2 1 3 0\n", "p: line 1: the clause 2 has 2 literals that are not false"),
            ("4 0 1 2 3 3 0\n", "p: line 1: the clause 3 is false already, and hints stand behind it"),
            ("4 0 1 2 5 0\n", "p: line 1: no clause has the id 5"),
            ("4 2 0 1 2 0\n4 d 1 0\n5 0 1 4 3 0\n", "p: line 3: no clause has the id 1"),
            ("4 d 4 0\n", "p: line 1: no clause has the id 4"),
            ("3 0 1 2 3 0\n", "p: line 1: the id 3 is not above 3"),
            ("5 2 0 1 2 0\n5 0 5 3 0\n", "p: line 2: the id 5 is not above 5"),
            ("4 3 0 1 2 0\n", "p: line 1: a variable is above 2, or a literal stands with its negation"),
            ("4 2 -2 0 1 0\n", "p: line 1: a variable is above 2, or a literal stands with its negation"),
            ("4 0 1 2 -3 0\n", "p: line 1: the hint -3 begins a resolution, which is not checked"),
            ("4 0 1 2 3\n", "p: line 1: a 0 is missing"),
            ("4 0 1 2 3 0 0\n", "p: line 1: something stands behind the last 0"),
            ("x 0 1 2 3 0\n", "p: line 1: a number is wanted, and not 'x'"),
        ]:
            with self.subTest(lrat=lrat):
                self.assertEqual(told(THREE, lrat), wanted)

    def test_files_that_are_refused(self):
        for cnf, wanted in [
            ("", "f: this is no CNF file: it doesn't begin with 'p cnf', and two numbers"),
            ("p gcnf 1 1 1\n{1} 1 0\n", "f: this is no CNF file: it doesn't begin with 'p cnf', and two numbers"),
            ("p cnf 1 2\n1 0\n", "f: 2 clauses are promised, and 1 stand there"),
            ("p cnf 1 1\n1 0\n1\n", "f: 1 clauses are promised, and 1 stand there, and a part of one"),
            ("p cnf 1 1\n2 0\n", "f: line 2: the variable 2 is above 1"),
        ]:
            with self.subTest(cnf=cnf):
                self.assertEqual(told(cnf, ""), wanted)


class Exports(unittest.TestCase):
    def told(self, groups, cnf, lrat):
        return exports.fault_of(check_evidence.problem_of(os.path.join(EXAMPLES, "first.gcnf")), groups, cnf, lrat)

    def test_the_stored_one_and_another_with_a_step_more(self):
        stored = [exports.text_of(os.path.join(EXAMPLES, "first_2." + name)) for name in ("cnf", "lrat")]
        self.assertEqual(stored, [THREE, "4 0 1 2 3 0\n"])
        self.assertIsNone(self.told([1, 3, 4], *stored))
        self.assertIsNone(self.told([1, 3, 4], THREE, "4 2 0 1 2 0\n5 0 4 3 0\n"))

    def test_clauses_that_are_not_those_of_the_conflict(self):
        for cnf in ("p cnf 2 3\n1 0\n-2 0\n-1 2 0\n", "p cnf 2 4\n1 0\n-1 0\n-1 2 0\n-2 0\n", "p cnf 3 3\n1 0\n-1 2 0\n-2 0\n",
                    "p cnf 2 3\n1 0\n2 -1 0\n-2 0\n", "p cnf 2 2\n1 0\n-1 0\n"):
            self.assertEqual(self.told([1, 3, 4], cnf, "4 0 1 2 3 0\n"), "the CNF is not that of the conflict's clauses")

    def test_refutations_of_another_form(self):
        for lrat, wanted in [
            ("4 0 1 2 0\n", "the refutation: line 1: the hints lead to no clause that is false"),
            ("5 0 1 2 3 0\n", "no step has the id 4 and the form of one: 5 0 1 2 3 0"),
            ("4 2 0 1 2 0\n4 d 2 0\n5 0 4 3 0\n", "no step has the id 5 and the form of one: 4 d 2 0"),
            ("4  0 1 2 3 0\n", "no step has the id 4 and the form of one: 4  0 1 2 3 0"),
            ("4 0 1 1 2 3 0\n", "4 0 1 1 2 3 0: the hint 1 makes nothing true"),
            ("4 0 1 2 3 0\n5 2 0 1 2 0\n", "the last step is not the empty clause"),
            ("4 0 1 2 3 0", "the last step is not the empty clause"),
            ("", "the last step is not the empty clause"),
        ]:
            with self.subTest(lrat=lrat):
                self.assertEqual(self.told([1, 3, 4], THREE, lrat), wanted)


class Program(unittest.TestCase):
    def run_on(self, *words):
        return subprocess.run([sys.executable, os.path.join(TOOLS, "check_lrat.py"), *words], stdout=subprocess.PIPE,
                              stderr=subprocess.PIPE, universal_newlines=True, check=False)

    def test_its_answers(self):
        with tempfile.TemporaryDirectory() as room:
            cnf, good, bad = (os.path.join(room, name) for name in ("f", "good", "bad"))
            for name, text in [(cnf, THREE), (good, "4 0 1 2 3 0\n"), (bad, "4 0 1 3 0\n")]:
                with open(name, "w", encoding="ascii") as file:
                    file.write(text)
            ended = self.run_on(cnf, good)
            self.assertEqual((ended.returncode, ended.stdout, ended.stderr), (0, "s VERIFIED\n", ""))
            ended = self.run_on(cnf, bad)
            self.assertEqual((ended.returncode, ended.stdout), (1, ""))
            self.assertEqual(ended.stderr, f"check_lrat.py: {bad}: line 1: the hints lead to no clause that is false\n")
            self.assertEqual(self.run_on(cnf).returncode, 2)
            self.assertEqual(self.run_on(cnf, os.path.join(room, "none")).returncode, 1)


if __name__ == "__main__":
    unittest.main()
