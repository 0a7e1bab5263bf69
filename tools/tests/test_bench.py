#!/usr/bin/env python3
"""Tests of what measures: python3 -m unittest discover -s tools/tests (Python 3.9; of the baselines alone g++, make and MiniSat)."""
import os
import random
import re
import subprocess
import sys
import tempfile
import unittest

from places import BENCH, EXAMPLES
from bench.compare import endless, run
from oracles import brute_force

HOW = [[], ["--save"], ["--harvest", "3"], ["--recursive"], ["--recursive", "--harvest", "2"]]


def random_problem(numbers):
    """A small problem as text, with empty clauses, repeated ones, and an unsatisfiable background in some."""
    variables, groups = numbers.randint(1, 5), numbers.randint(1, 6)
    clauses = [(numbers.randint(0 if numbers.random() < 0.3 else 1, groups),
                [numbers.choice([-1, 1]) * numbers.randint(1, variables) for _ in range(numbers.choice([0, 1, 1, 2, 2, 2, 3, 3]))])
               for _ in range(numbers.randint(0, 14))]
    lines = [" ".join([f"{{{group}}}", *map(str, lits), "0"]) for group, lits in clauses]
    return "\n".join([f"p gcnf {variables} {len(clauses)} {groups}", *lines, ""])


def attempt_at(rate, most, seconds):
    """A program that finds so many sets a second, and no more than `most`, as `most_within` asks it."""
    def attempt(limit):
        found = min(limit, most)
        taken = found / rate
        return None if taken > seconds else endless.Have([found, 0], taken, found < limit)
    return attempt


class Numbers(unittest.TestCase):
    def test_the_most_sets_within_the_seconds_are_found(self):
        # sets a second, all sets, the fewest that have to be found in 5 s, the most, whether the list ends
        for rate, most, least, greatest, ends in ((1000, 10 ** 9, 4850, 5000, False), (3, 10 ** 9, 14, 15, False),
                                                  (0.25, 10 ** 9, 1, 1, False), (10 ** 6, 10 ** 9, 4_850_000, 5_000_000, False),
                                                  (1000, 700, 700, 700, True), (51.2, 10 ** 9, 248, 256, False)):
            have = endless.most_within(5, attempt_at(rate, most, 5))
            self.assertTrue(least <= have.sets[0] <= greatest, (rate, have))
            self.assertEqual(have.ended, ends, rate)
        self.assertIsNone(endless.most_within(5, attempt_at(0.1, 9, 5)))

    def test_ratios_are_by_the_most_of_each_kind_and_of_both(self):
        results = {name: endless.Have(sets, 5, False) for name, sets in (("gmus", [9, 39]), ("one", [19, 0]), ("other", [0, 79]))}
        self.assertEqual(endless.ratios(results), [10 / 20, 40 / 80, 49 / 80])
        self.assertIsNone(endless.ratios({"one": results["one"]}))
        self.assertIsNone(endless.ratios({"gmus": results["gmus"]}))

    def test_means_of_lists_that_do_not_end(self):
        told = endless.summary([[0.5, 2.0, 1.0], [2.0, 8.0, 0.25]])
        self.assertEqual(re.findall(r"[0-9.]+(?= of| in)", told), ["1.00", "4.00", "2.00", "0.50"])
        self.assertIn("No problem", endless.summary([]))

    def test_rich_problems_have_means_of_their_own(self):
        def pair(kind, ours, best, megabytes):
            took = [run.Result("complete", "1+1", seconds, size, False) for seconds, size in ((ours, megabytes), (best, 10))]
            return run.Pair("name", kind, *took)

        bench = run.Bench.__new__(run.Bench)
        bench.programs, bench.floor, bench.behind = {"gmus": [], "minisat": []}, 1, []
        bench.pairs = [pair("small", 0.1, 0.2, 5), pair("middle", 0.2, 0.1, 5)]
        bench.pairs += [pair("rich", 0.4, 0.1, 40), pair("rich", 0.1, 0.1, 1)]
        told = bench.summary()
        self.assertIn("both end 2. There the geometric mean of gmus / best of 1 is 1: 0.5 over the small ones, 2 over the middle ones.", told)
        self.assertIn("Of the rich problems they both end 2, with a mean of 2, and that of memory 4 over the 1 where it is known.", told)
        bench.pairs = bench.pairs[:2]   # none of them rich
        self.assertNotIn("rich", bench.summary())


class Problems(unittest.TestCase):
    def test_each_problem_is_of_a_family_and_named_once(self):
        with open(os.path.join(BENCH, "generate.py"), encoding="utf-8") as file:
            families = set(re.findall(r'"([a-z-]+)": \w+[,}]', file.read().partition("FAMILIES = ")[2]))
        for problems in (run.PROBLEMS, endless.PROBLEMS):
            self.assertLessEqual({problem.family.replace("-cnf", "") for problem in problems}, families)
            names = [problem[1:] for problem in problems]
            self.assertEqual(len(names), len(set(names)))
        sorts = [problem.kind for problem in endless.PROBLEMS]
        self.assertEqual({sorts.count(sort) for sort in sorts}, {3})
        self.assertEqual(len(set(sorts)), 8)

    def test_a_problem_is_made_with_its_counts(self):
        with tempfile.TemporaryDirectory() as folder:
            for family, counts in (("parity", ("12", "48")), ("parity-cnf", ("48", "48"))):
                file, *told = run.make(run.Problem("small", family, "12", "1", "-"), folder)
                self.assertEqual(tuple(told), counts)
                self.assertTrue(os.path.getsize(file))


class Runs(unittest.TestCase):
    def test_a_run_tells_its_status_and_its_own_peak(self):
        peak = run.peak_program()
        if not peak:
            self.skipTest("bench/compare/marco/peak can't be built")
        with tempfile.TemporaryDirectory() as folder:
            names = [os.path.join(folder, name) for name in ("report", "errors")]
            for script, patience, code in (("exit 3", 60, 3), ("kill -9 $$", 60, -9), ("echo so; sleep 60", 0.5, None)):
                ended = run.run(["sh", "-c", script], *names, patience, peak)
                self.assertEqual(ended.code, code, script)
                self.assertLess(ended.megabytes, 8, script)   # this test itself has more
            with open(names[0], encoding="utf-8") as report:
                self.assertEqual(report.read(), "so\n")

    def test_a_run_beyond_its_seconds_of_the_processor_is_killed(self):
        with tempfile.TemporaryDirectory() as folder:
            report = os.path.join(folder, "report")
            code, taken = endless.run_for([sys.executable, "-c", "while True: pass"], report, 0.3)
            self.assertIsNone(code)
            self.assertTrue(0.3 < taken < 2, taken)
            self.assertEqual(endless.run_for(["sh", "-c", "exit 4"], report, 5)[0], 4)


class Baselines(unittest.TestCase):
    @classmethod
    def setUpClass(cls):
        cls.folder = tempfile.TemporaryDirectory()
        cls.programs = {name: os.path.join(BENCH, "compare", "marco", name) for name in ("marco-minisat", "check-minisat")}
        made = subprocess.run(["make", "-s", "-C", os.path.join(BENCH, "compare", "marco"), *cls.programs], stdout=subprocess.DEVNULL,
                              stderr=subprocess.DEVNULL, check=False)
        if made.returncode:
            raise unittest.SkipTest("the baselines can't be built: MiniSat's library or g++ is not there")

    @classmethod
    def tearDownClass(cls):
        cls.folder.cleanup()

    def written(self, name, text):
        path = os.path.join(self.folder.name, name)
        with open(path, "w", encoding="utf-8") as file:
            file.write(text)
        return path

    def told(self, program, *words):
        ended = subprocess.run([self.programs[program], *words], stdout=subprocess.PIPE, stderr=subprocess.PIPE, text=True, check=False)
        return ended.returncode, ended.stdout

    def test_each_way_lists_what_brute_force_lists(self):
        for seed in range(25):
            text = random_problem(random.Random(seed))
            wanted, file = brute_force.report(*brute_force.problem_of(text.splitlines())), self.written("problem", text)
            for words in HOW:
                self.assertEqual(self.told("marco-minisat", file, *words), (0, wanted), (seed, words))
            counts = wanted.split()[-2:]
            told = "minimal: {0} of {0} conflicts, {1} of {1} corrections\n".format(*counts)
            self.assertEqual(self.told("check-minisat", file, self.written("report", wanted)), (0, told), seed)

    def test_no_more_seconds_are_taken_than_given(self):
        made = subprocess.run([sys.executable, os.path.join(BENCH, "generate.py"), "types", "--size", "120", "--seed", "2"],
                              stdout=subprocess.PIPE, check=True, text=True)
        file = self.written("types", made.stdout)
        for words in HOW:
            report = os.path.join(self.folder.name, "types.report")
            code, taken = endless.run_for([self.programs["marco-minisat"], file, "--cpu", "0.3", *words], report, 20)
            self.assertEqual(code, 3, words)
            self.assertLess(taken, 2, words)
            self.assertEqual(self.told("check-minisat", file, report, "--cpu", "0.2")[0], 0, words)

    def test_what_is_not_minimal_is_told(self):
        file = os.path.join(EXAMPLES, "laptop.gcnf")
        for line, told in (("u 1 2 7 0", "not minimal, does not need 7: u 1 2 7 0\n"), ("u 3 0", "not minimal, can be satisfied: u 3 0\n"),
                           ("m 1 2 3 4 5 6 7 0", "not minimal, does not need"), ("m 1 0", "not minimal, leaves what can't be satisfied: m 1 0\n"),
                           ("u 3 5 0\nu 5 3 0", "is there twice: u 3 5 0\n")):
            code, said = self.told("check-minisat", file, self.written("report", f"p gmus 7\ns PARTIAL\n{line}\n"))
            self.assertEqual((code, said[:len(told)]), (1, told), line)


if __name__ == "__main__":
    unittest.main()
