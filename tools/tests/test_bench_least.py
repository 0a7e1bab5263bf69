#!/usr/bin/env python3
"""Tests of the programs that gmus is compared with for smallest sets: python3 -m unittest discover -s tools/tests (Python 3.9; of the
baseline g++, make and MiniSat; clasp; z3)."""
import contextlib
import io
import os
import random
import shutil
import subprocess
import tempfile
import unittest

from places import BENCH
from bench.compare import least, run
from oracles import brute_force

LETTERS = {"conflicts": "u", "corrections": "m"}
WAYS = [("--count", 1), ("--count", 3), ("--count", 10 ** 6), ("--within", 0), ("--within", 2)]


def random_problem(numbers):
    """A small problem, with unsatisfiable backgrounds and empty clauses among them: variables, groups, clauses."""
    variables, groups = numbers.randint(1, 6), numbers.randint(1, 8)
    return variables, groups, [
        (numbers.randint(0 if numbers.random() < 0.2 else 1, groups),
         [numbers.choice([-1, 1]) * numbers.randint(1, variables) for _ in range(numbers.choice([0, 1, 1, 1, 2, 2, 2, 2, 3, 3]))])
        for _ in range(numbers.randint(4, 20))]


def text_of(variables, groups, clauses):
    lines = [" ".join([f"{{{group}}}", *map(str, lits), "0"]) for group, lits in clauses]
    return "\n".join([f"p gcnf {variables} {len(clauses)} {groups}", *lines, ""])


def sets_of(report, kind):
    """All sets of a kind in a report by brute force, smaller ones first."""
    lines = [line.split()[1:-1] for line in report.splitlines() if line.startswith(LETTERS[kind])]
    return sorted((tuple(map(int, words)) for words in lines), key=lambda groups: (len(groups), groups))


def smallest(every, groups, kind, way, number):
    """The report of the smallest sets among all of them."""
    most = min(number, groups) if way == "--within" else len(every[number - 1]) if len(every) >= number else groups
    kept = [each for each in every if len(each) <= most]
    lines = [" ".join([LETTERS[kind], *map(str, each), "0"]) for each in kept]
    return "\n".join([f"p least {groups}", f"s ATMOST {most}", *lines, f"e {len(kept)}", ""])


class Folder(unittest.TestCase):
    def setUp(self):
        folder = tempfile.TemporaryDirectory()
        self.addCleanup(folder.cleanup)
        self.folder = folder.name

    def written(self, name, text):
        path = os.path.join(self.folder, name)
        with open(path, "w", encoding="utf-8") as file:
            file.write(text)
        return path


class Answers(Folder):
    def test_the_baseline_finds_what_brute_force_finds(self):
        with contextlib.redirect_stderr(io.StringIO()):
            built = run.build_baselines({"bound": ["least-minisat"]})
        if not built:
            self.skipTest("the baseline can't be built: MiniSat's library or g++ is not there")
        for seed in range(25):
            problem = random_problem(random.Random(seed))
            file, report = self.written("problem", text_of(*problem)), brute_force.report(*problem)
            for kind in LETTERS:
                every = sets_of(report, kind)
                for way, number in WAYS:
                    ended = subprocess.run([*built["bound"], kind, file, way, str(number)], stdout=subprocess.PIPE,
                                           stderr=subprocess.PIPE, check=False, text=True)
                    wanted = smallest(every, problem[1], kind, way, number)
                    self.assertEqual((ended.returncode, ended.stdout), (0, wanted), (seed, kind, way, number))

    def optima(self, name, command):
        """Compares the corrections of a program with brute force."""
        if not shutil.which(command[0]):
            self.skipTest(f"{name} is not there")
        for seed in range(25):
            problem = random_problem(random.Random(seed))
            every = sets_of(brute_force.report(*problem), "corrections")
            wcnf = os.path.join(self.folder, "wcnf")
            sizes = least.write_wcnf(self.written("problem", text_of(*problem)), wcnf)
            self.assertEqual(sizes, problem[:2])
            ended = subprocess.run([*command, wcnf], stdout=subprocess.PIPE, stderr=subprocess.PIPE, check=False, text=True)
            status, groups = least.optimum_of(name, ended.stdout, *sizes)
            wanted = [frozenset(each) for each in every if len(each) == len(every[0])]
            self.assertEqual(status, "complete", seed)
            self.assertTrue(groups in wanted if wanted else groups is None, (seed, groups, wanted))

    def test_clasp_finds_a_smallest_correction(self):
        self.optima("clasp", least.OTHERS["clasp"])

    def test_z3_finds_a_smallest_correction(self):
        self.optima("z3", least.OTHERS["z3"])


class Reading(Folder):
    def test_a_problem_becomes_one_with_a_clause_for_each_group(self):
        wanted = "p wcnf 4 5 3\n3 1 2 0\n3 -3 -1 0\n3 -4 0\n1 3 0\n1 4 0\n"
        self.assertEqual(least.write_wcnf(self.written("g", "p gcnf 2 3 2\n{0} 1 2 0\n{1} -1 0\n{2} 0\n"), self.folder + "/w"), (2, 2))
        with open(self.folder + "/w", encoding="utf-8") as file:
            self.assertEqual(file.read(), wanted)
        self.assertEqual(least.write_wcnf(self.written("c", "p cnf 2 2\n1 2 0\n-1 0\n"), self.folder + "/w"), (2, 2))
        with open(self.folder + "/w", encoding="utf-8") as file:
            self.assertEqual(file.read(), "p wcnf 4 4 3\n3 -3 1 2 0\n3 -4 -1 0\n1 3 0\n1 4 0\n")

    def test_what_the_others_say_is_read(self):
        # of two variables and three groups, whose variables are 3 to 5
        for name, told, wanted in (
                ("clasp", "c Answer: 1\nv 1 -2 3 \nv -4 -5 0\ns OPTIMUM FOUND\n", ("complete", {2, 3})),
                ("clasp", "v -1 -2 3 4 5 0\ns OPTIMUM FOUND\n", ("complete", set())),
                ("clasp", "v -1 -2 -3 4 5 0\ns SATISFIABLE\n", ("time", None)),
                ("clasp", "s UNSATISFIABLE\n", ("complete", None)), ("clasp", "", ("time", None)),
                ("z3", "sat\n(define-fun k!1 () Bool\n  false)\n(define-fun k!4 () Bool\n  false)\n(define-fun k!5 () Bool\n  true)\n",
                 ("complete", {2})),
                ("z3", "unsat\n", ("complete", None)), ("z3", "unknown\n", ("time", None)), ("z3", "", ("time", None))):
            self.assertEqual(least.optimum_of(name, told, 2, 3), wanted, told)

    def test_a_report_is_read_or_refused(self):
        whole = "p least 4\ns ATMOST 2\nm 1 0\nm 2 3 0\ne 2\n"
        self.assertEqual(least.read_least(0, whole, "corrections"), ("complete", 2, [frozenset([1]), frozenset([2, 3])]))
        self.assertEqual(least.read_least(3, whole.replace("ATMOST", "PARTIAL"), "corrections")[:2], ("time", 2))
        for code, text in ((3, whole), (0, whole.replace("ATMOST", "PARTIAL")), (0, whole.replace("e 2", "e 3")), (0, ""), (2, ""),
                           (0, whole.replace("m 1 0", "u 1 0")), (0, whole.replace("m 1 0", "m 1 2 4 0")), (0, whole.replace("2 3", "1"))):
            self.assertTrue(least.read_least(code, text, "corrections")[0].startswith("failed"), (code, text))

    def test_results_that_can_not_be_right_together_are_told(self):
        def whole(*sets):
            return least.Result("complete", 2, [frozenset(each) for each in sets], 1.0, 1.0, f"{sets}")

        def partial(bound, *sets):
            return least.Result("time", bound, [frozenset(each) for each in sets], 1.0, 1.0, "partial")

        one = whole({1, 2}, {3, 4})
        for results, wanted in (
                ({"gmus": one, "bound": one, "clasp": whole({3, 4}), "z3": whole({1, 2})}, None),
                ({"gmus": one, "bound": whole({1, 2})}, "gmus and bound differ"),
                ({"gmus": one, "clasp": whole({1})}, "clasp and gmus differ"),
                ({"gmus": one, "clasp": whole()}, "clasp and gmus differ"),
                ({"gmus": whole(), "clasp": whole()}, None),
                ({"gmus": partial(2, {1, 2, 3}), "bound": one}, None),
                ({"gmus": partial(3, {1, 2, 3}), "bound": one}, "gmus, which is partial, can't be right"),
                ({"gmus": partial(1, {1}), "bound": one}, "gmus, which is partial, can't be right"),
                ({"gmus": partial(3), "clasp": whole({1, 2})}, "gmus, which is partial, can't be right"),
                ({"clasp": whole({1, 2}), "z3": whole({1})}, "sizes differ: [1, 2]")):
            self.assertEqual(least.disagreement(results), wanted, results)

    def test_means_are_over_what_both_ended(self):
        def took(seconds, status="complete"):
            return least.Result(status, 1, [], seconds, 1.0, "")

        rows = [("a correction", {"gmus": took(1.0), "bound": took(2.0), "clasp": took(4.0)}),
                ("a correction", {"gmus": took(8.0), "bound": took(1.0), "clasp": took(20.0, "time")}),
                ("a conflict", {"gmus": took(20.0, "time"), "bound": took(1.0)})]
        told = least.summary(rows, ["gmus", "bound", "clasp"]).split("\n")
        self.assertEqual(told[0], "A correction, of 2: ended by gmus 2, bound 2, clasp 1; gmus / bound 2 over 2; gmus / clasp 0.25 over 1; "
                                  "bound / clasp 0.5 over 1.")
        self.assertEqual(told[2], "A conflict, of 1: ended by gmus 0, bound 1; no mean.")


if __name__ == "__main__":
    unittest.main()
