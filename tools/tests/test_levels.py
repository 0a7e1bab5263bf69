#!/usr/bin/env python3
"""Tests of oracles/levels.py and oracles/level_cnf.py, of what tools/check_evidence.py says of levels, and of what bench/try/ has that says
it of it. What is wanted was worked out by hand, or found by trying every set of groups."""
import itertools
import os
import random
import subprocess
import sys
import tempfile
import unittest
import unittest.mock

from places import BENCH, EXAMPLES, TOP
from gmus_tools.evidence import check_evidence, check_lrat
from oracles import levels, plain_evidence
from test_evidence import FIRST, LEAST, SHORT

sys.path.append(os.path.join(BENCH, "try"))
import agree  # noqa: E402
import mutate_evidence  # noqa: E402

TRIALS = int(os.environ.get("GMUS_TRIALS", 600))
# the conflicts and the corrections of examples/first.gcnf
CONFLICTS, CORRECTIONS = [("u", (1, 2)), ("u", (1, 3, 4))], [("m", (1,)), ("m", (2, 3)), ("m", (2, 4))]
CNF = """\
p cnf 12 16
-1 -2 0
-1 -3 -4 0
1 0
1 5 0
-5 7 0
2 7 0
2 -5 8 0
-7 9 0
3 9 0
-8 10 0
3 -7 10 0
-9 11 0
4 11 0
-10 12 0
4 -9 12 0
-12 0
"""
LRAT = "17 12 0 3 1 6 14 11 2 15 8 0\n18 0 16 17 0\n"


def is_refuted(cnf, lrat):
    return check_lrat.check(*check_lrat.read_cnf(cnf, "cnf"), lrat, "lrat")


def steps_of(lines):
    """The steps of a closing part, and the id of its goal, as levels.read finds them behind no records."""
    _, steps, goal = levels.read("\n".join(["p gmev 3 0 0 9", *lines, ""]).encode())
    return steps, goal


def extends(clauses, given):
    """Whether this assignment of the first variables, as literals, has one of all that stand there that makes the clauses true."""
    others = sorted({abs(lit) for lits in clauses for lit in lits if abs(lit) > len(given)})
    return any(all(set(lits) & {*given, *chosen} for lits in clauses)
               for chosen in itertools.product(*((lit, -lit) for lit in others)))


class Clauses(unittest.TestCase):
    def test_what_is_shown_is_the_cnf_and_its_refutation(self):
        level, steps, goal = levels.read("\n".join([*LEAST, ""]).encode())
        self.assertEqual((level.cnf(), level.lrat(steps, goal)), (CNF, LRAT))
        self.assertTrue(is_refuted(CNF, LRAT))
        # without its last clause nothing is wrong with more that count
        self.assertTrue(extends(level.clauses, (1, -2, 3, -4)))

    def test_orders_and_what_is_left_out_of_them(self):
        for kind, most, records, order, goal in (
                ("m", 1, CONFLICTS + CORRECTIONS[:1], [1, 2, 3, 4], [12]), ("m", 1, CONFLICTS[:1], [1, 2], [8]), ("m", 4, CONFLICTS, [1, 2, 3, 4], []),
                ("m", 0, CONFLICTS, [1, 2, 3, 4], [8]), ("u", 1, CORRECTIONS[:1], [], []), ("u", 2, CORRECTIONS, [2, 3, 4], [10]),
                ("u", 0, CORRECTIONS, [1, 2, 3, 4], [8]), ("u", 3, CORRECTIONS, [2, 3, 4], [13]), ("u", 4, CORRECTIONS, [2, 3, 4], []),
                ("u", 1, [("m", (2, 4)), ("m", (4,)), ("m", (3,))], [2, 3], [6]), ("u", 0, [], [], []), ("m", 0, [("u", ())], [], [])):
            level = levels.Level(4, kind, most, records)
            self.assertEqual((level.order, level.goal), (order, goal), (kind, most, records))

    def test_a_counter_can_be_true_if_no_more_than_the_bound_count(self):
        for size, kind in itertools.product(range(1, 5), "um"):
            order = random.Random(size).sample(range(1, size + 1), size)
            for bound in range(size):
                counter = levels.Counter(size, kind, bound, order)
                clauses = counter.clauses + [[-counter.too_many()]]
                for given in itertools.product(*((group, -group) for group in range(1, size + 1))):
                    count = sum((lit > 0) == (kind == "u") for lit in given)
                    self.assertEqual(extends(clauses, given), count <= bound, (order, kind, bound, given))
                self.assertEqual(max(abs(lit) for lits in clauses for lit in lits), counter.too_many())


class Shown(unittest.TestCase):
    def test_a_level_is_shown_exactly_if_it_is_explored(self):
        told = set()
        for seed in range(TRIALS):
            chance = random.Random(seed)
            groups = chance.randint(0, 5)
            records, kind, most = levels.random_records(chance, groups), chance.choice("um"), chance.randint(0, groups)
            level = levels.Level(groups, kind, most, records)
            lines, wanted = level.lines(), levels.is_explored(groups, kind, most, records)
            self.assertEqual(lines is not None, wanted, (groups, kind, most, records))
            told.add((kind, wanted, bool(level.goal)))
            if lines:
                self.assertTrue(is_refuted(level.cnf(), level.lrat(*steps_of(lines))), seed)
        self.assertEqual(len(told), 8)

    def test_both_count_by_the_same_clauses(self):
        for seed in range(TRIALS):
            chance = random.Random(seed)
            groups = chance.randint(0, 9)
            problem = check_evidence.Problem(f"p gcnf 0 0 {groups}")
            records, kind, most = levels.random_records(chance, groups), chance.choice("um"), chance.randint(0, groups)
            level, other = levels.Level(groups, kind, most, records), check_evidence.Level(problem, records, kind, most)
            clauses = level.clauses[len(records):]
            self.assertEqual([other.clause(number) for number in range(1, other.size() + 1)], clauses, seed)
            self.assertEqual((level.variables, set(level.goal)), (other.variables, other.goal), seed)

    def test_evidence_of_problems_made_by_chance(self):
        kinds = set()
        for seed in range(TRIALS // 3):
            chance = random.Random(seed)
            text = plain_evidence.random_problem(chance)
            problem = check_evidence.Problem(text)
            made = levels.evidence(problem, chance)
            says, sets = check_evidence.check(problem, made)
            level, steps, goal = levels.read(made)
            self.assertTrue(is_refuted(level.cnf(), level.lrat(steps, goal)), seed)
            if says is True:
                kinds.add("complete")
                continue
            kinds.add(says.kind)
            every = [groups for kind, groups in plain_evidence.minimal_sets(problem) if kind == says.kind and len(groups) <= says.most]
            self.assertEqual(check_evidence.report(problem, says, sets), "\n".join([
                f"p least {problem.groups}", f"s ATMOST {says.most}",
                *(plain_evidence.numbers(says.kind, *groups, 0) for groups in sorted(every, key=lambda groups: (len(groups), groups))),
                f"e {len(every)}", ""]), seed)
        self.assertEqual(kinds, {"u", "m", "complete"})


class Trials(unittest.TestCase):
    def test_a_checker_that_says_yes_to_more_is_told(self):
        problem = check_evidence.Problem(FIRST)
        every = list(plain_evidence.minimal_sets(problem))
        for lines, wanted in ((LEAST, None), (LEAST[:12] + LEAST[15:], "a set is missing"), (LEAST[:-1] + ["e corrections 2"], "a set is missing"),
                              (LEAST[:1] + ["u 1 2 3 0", *LEAST[2:5], "w 2 0", "w 3 0", *LEAST[6:]], "a set is not minimal"),
                              (LEAST[:15] + ["d 16 12 0 3 1 0", *LEAST[16:]], "check_lrat.py refuses the closing part")):
            text = "\n".join([*lines, ""]).encode()
            with unittest.mock.patch.multiple(check_evidence, check_record=lambda *given: None, check_closing=lambda *given: None), \
                    unittest.mock.patch.object(plain_evidence, "minimal_sets", lambda of: every):
                (word, _), why = mutate_evidence.fault_of_alone(problem, text)
            self.assertEqual((word, why and why.startswith(wanted or "")), ("yes", wanted and True), (lines, why))

    def test_levels_that_are_not_as_they_should_be_are_told(self):
        drawn = 4, "m", 1, CONFLICTS + CORRECTIONS[:1]
        with tempfile.TemporaryDirectory() as folder, unittest.mock.patch.object(agree, "solvers", lambda: {"some": lambda name: True}), \
                unittest.mock.patch.object(agree, "checkers", lambda: []):
            judges = agree.Judges(folder)
            self.assertEqual(agree.fault_of_level(drawn, judges), "some says that its CNF can be satisfied")
            judges.solvers = {}
            self.assertIsNone(agree.fault_of_level(drawn, judges))
            for module, name, made, wanted in (
                    (levels, "is_explored", lambda *given: False, "it is not explored, and a closing part shows that it is"),
                    (levels.Level, "lines", lambda level: None, "it is explored, and nothing shows that it is"),
                    (levels.Level, "lines", lambda level: [*LEAST[15:16], "x 15", LEAST[17]], "check_evidence.py refuses what shows it: line 2: 17 NotRefuting"),
                    (check_evidence.Level, "clause", lambda level, number: [], "check_evidence.py has other clauses"),
                    (levels.Level, "lrat", lambda *given: "17 0 1 0\n", "check_lrat.py refuses it: lrat: line 1: the clause 1 has")):
                with unittest.mock.patch.object(module, name, made):
                    self.assertTrue((agree.fault_of_level(drawn, judges) or "").startswith(wanted), (name, agree.fault_of_level(drawn, judges)))


class Command(unittest.TestCase):
    def run_on(self, *words):
        done = subprocess.run([sys.executable, os.path.join(TOP, "oracles", "level_cnf.py"), *words], stdout=subprocess.PIPE,
                              stderr=subprocess.PIPE, universal_newlines=True, check=False)
        return done.returncode, done.stdout, done.stderr

    def test_statuses(self):
        with tempfile.TemporaryDirectory() as room:
            names = [os.path.join(room, name) for name in ("evidence", "cnf", "lrat")]

            def texts(lines):
                with open(names[0], "w", encoding="utf-8") as file:
                    file.write("".join(line + "\n" for line in lines))
                ended = self.run_on(*names)
                read = []
                for name in names[1:]:
                    if os.path.exists(name):
                        with open(name, encoding="utf-8") as file:
                            read.append(file.read())
                        os.remove(name)
                return ended, read

            self.assertEqual(texts(LEAST), ((0, "", ""), [CNF, LRAT]))
            # what is complete has no counter
            whole = "p cnf 4 5\n-1 -2 0\n-1 -3 -4 0\n1 0\n2 3 0\n2 4 0\n", "6 0 3 1 4 5 2 0\n7 0 6 0\n"
            self.assertEqual(texts(SHORT), ((0, "", ""), [*whole]))
            self.assertTrue(is_refuted(*whole))
            for lines in ([], LEAST[:-1], LEAST[:15] + ["e partial"], ["p gmev 3 2 4", *LEAST[1:]], LEAST[:-1] + ["e both 1"],
                          LEAST[:-2] + ["x 99", LEAST[-1]], LEAST[:-3] + ["d 16 12 3 1", *LEAST[-2:]]):
                self.assertEqual(texts(lines), ((1, "", f"level_cnf.py: {names[0]}: this is no evidence with a closing part\n"), []), lines)
        self.assertEqual(self.run_on("a", "b")[0], 2)
        first = os.path.join(EXAMPLES, "first.evidence")
        self.assertEqual(self.run_on(first, first, "x")[:2], (1, ""))
        self.assertIn("two of these are one file", self.run_on(first, "x", "x")[2])


if __name__ == "__main__":
    unittest.main()
