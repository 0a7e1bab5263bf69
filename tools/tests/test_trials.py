#!/usr/bin/env python3
"""Tests of the scripts of trials: what each program has to print is what its script says, no case is there twice, what
people wrote is what another program finds, and each refusal is tried."""
import os
import re
import unittest

import places  # noqa: F401
from dev import trials

# What is in no script, since it takes more than two gibibytes of evidence.
UNTRIED = {"6 TooLong"}


def refusals():
    """The number and the name of each refusal of an input, and of each one of evidence, that docs/FORMATS.md lists."""
    formats = trials.text_of(os.path.join(trials.TOP, "docs", "FORMATS.md"))
    rows = re.findall(r"(?m)^### (.*)$|^## (.*)$|^\| (\d+) \| (\w+) \|", formats)
    found, heading = {}, ""
    for deep, high, number, name in rows:
        if number:
            found.setdefault(heading, set()).add(f"{number} {name}")
        else:
            heading = deep or high
    return found["Refusals"], found["What it is refused for"]


def tried():
    """The refusals of inputs and of evidence that have to be printed by some script."""
    lines = "\n".join(line for crate in trials.crates() for line in trials.script_of(crate).split("\n") if line.startswith("= "))
    return (set(re.findall(r"input refused: (\d+ \w+)", lines)), set(re.findall(r"evidence refused: line \d+: (\d+ \w+)", lines)))


def whole_reports(text):
    """The file that is listed, the groups in focus or None, and the report that has to be printed, for each run that gives a
    report in which no set is missing."""
    problem, focus, printed = None, None, []
    for line, more, texts in trials.walk(text + "\nend"):
        if more and not line.startswith("== "):
            printed += more
        elif line and line[0] not in "#|":
            report = [text for text in printed if text.startswith("out")]
            if printed[:1] == ["status 0"] and "out s COMPLETE" in report and problem is not None:
                yield problem, focus, report
            named = re.search(r" --focus[ =](\S+)", line)
            focus = {int(number) for number in re.findall(r"\d+", named.group(1))} if named else None
            listed = re.search(r" (?:list|check|carry \S+ \S+) ([a-z])\b", line)
            problem, printed = texts.files.get(listed.group(1) if listed else "f"), []


def is_small(problem):
    """Whether brute force ends soon: it tries all assignments of all sets of groups."""
    variables, groups = trials.brute_force.problem_of(problem.split("\n"))[:2]
    return variables <= 20 and groups <= 12


class Trials(unittest.TestCase):
    def test_what_has_to_be_printed_is_what_the_script_says(self):
        for crate in trials.crates():
            stored = trials.text_of(os.path.join(trials.TOP, "crates", crate, "stdout"))
            self.assertEqual(stored, trials.wanted(trials.script_of(crate)), crate)

    def test_each_case_has_a_name_of_its_own(self):
        for crate in trials.crates():
            names = trials.cases_in(trials.script_of(crate))
            self.assertEqual(sorted(set(names)), sorted(names), crate)

    def test_lines_of_a_script(self):
        script = "# a comment\n== one\nhold f\n| p\n|. = x\nlist f\n= status 0\n=\n\n== two\n"
        self.assertEqual(trials.wanted(script), "== one\nstatus 0\n\n== two\n")

    def test_lines_of_texts(self):
        script = "text A\n| a \\x41\\t\\\\\n|\n\ntext B A\n|. b\n== one\nrun\n=out B\n=held A\n"
        self.assertEqual(trials.wanted(script), "== one\nout a A\t\\\nout\nout. b\nheld a A\t\\\nheld\n")

    def test_report_of_a_file(self):
        script = "text P\n| {1} 1 0\n== one\nhold f\n| p gcnf 1 2 1\n| {0} -1 0\n| {1} 1 0\nrun list f\n=report f\n"
        self.assertEqual(trials.wanted(script), "== one\nout p gmus 1\nout s COMPLETE\nout u 1 0\nout m 1 0\nout e 1 1\n")
        with self.assertRaises(KeyError):
            trials.wanted("== one\nhold f\nchange f 1 1\nrun list f\n=report f\n")

    def test_reports_that_people_wrote_are_those_of_brute_force(self):
        compared = focused = 0
        for problem, focus, report in whole_reports(trials.script_of("run_trials")):
            if is_small(problem):
                variables, groups, clauses = trials.brute_force.problem_of(problem.split("\n"))
                kept = [clause for clause in clauses if focus is None or clause[0] in focus | {0}]
                wanted = trials.brute_force.report(variables, groups, kept)
                self.assertEqual(report, trials.behind("out", wanted), (problem, focus))
                compared += 1
                focused += focus is not None
        self.assertGreater(compared, 30)
        self.assertGreater(focused, 7)

    def test_each_refusal_is_tried(self):
        for listed, names in zip(refusals(), tried()):
            self.assertLessEqual(listed - UNTRIED, names)
            self.assertLessEqual(names, listed)


if __name__ == "__main__":
    unittest.main()
