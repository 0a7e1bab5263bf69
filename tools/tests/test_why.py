#!/usr/bin/env python3
"""Tests of why.py. What is wanted was worked out by hand; of problems made by chance, it is tried for each assignment.

GMUS_TRIALS=300 in the environment tries so many of these, and GMUS names another program than the built one.
"""
import html.parser
import io
import itertools
import os
import random
import subprocess
import sys
import tempfile
import unittest

from places import EXAMPLES, TOOLS, TOP
from gmus_tools import command
from gmus_tools.commands import why
from gmus_tools.why import evidence as why_evidence, problem as why_problem

GMUS = os.environ.get("GMUS") or os.path.join(TOP, "crates", "gmus", "out", "gmus")
FIRST, EVIDENCE = (os.path.join(EXAMPLES, name) for name in ("first.gcnf", "first.evidence"))
# The clauses 1: x, 2: not x, 3: not x or y, 4: not y, of the groups 1 to 4, as in examples/first.gcnf.
PLAIN = "p gcnf 2 4 4\n{1} 1 0\n{2} -1 0\n{3} -1 2 0\n{4} -2 0\n"
HEAD = "p gmev 1 2 4 4\n"
# Rules with a line that gives two clauses, of which one counts: x; x implies y and z; not y
RULED = """\
c variable 1 x
c variable 2 a y
p gcnf 3 4 2
c rule 2 x implies "a y" and z
{0} -1 2 0
{0} -1 3 0
c group 0 as it is
c group 1 the first
c rule 5 x
{1} 1 0
c group 2 the <second>
c rule 7 not "a y"
{2} -2 0
"""
RULED_EVIDENCE = "p gmev 1 3 4 2\nu 1 2 0\nd 5 -4 1 0 3 0\nd 6 -4 -5 0 3 1 4 0\nr 0 6\nw 1 0\nw 2 1 2 3 0\ne partial\n"


def problem(text, name="f"):
    return why_problem.Problem(io.BytesIO(text.encode()), name)


def evidence(text, of, name="e"):
    return why_evidence.Evidence(io.BytesIO(text.encode("latin-1")), name, of)


def used(problem_text, evidence_text):
    """For each conflict the numbers of the clauses on which its refutation rests."""
    found = evidence(evidence_text, problem(problem_text))
    return {groups: found.clauses_of(at) for at, groups in enumerate(found.conflicts)}


def run(*words, given=b""):
    return subprocess.run([sys.executable, os.path.join(TOOLS, "why.py"), *words], input=given,
                          stdout=subprocess.PIPE, stderr=subprocess.PIPE)


class Followed(unittest.TestCase):
    def test_only_what_the_refutation_needs_is_named(self):
        for what, lines in (
                ("one step", "d 5 -3 -4 0 1 2 0\nr 0 5\n"),
                ("a step that is not needed", "d 5 -5 -6 1 0 3 4 0\nd 6 -3 -4 0 1 2 0\nr 0 6\n"),
                ("a step behind the goal", "d 5 -3 -4 0 1 2 0\nd 6 -5 -6 -1 0 3 4 0\nr 0 5\n"),
                ("a wrong step that is not needed", "d 5 0 1 0\nd 6 -3 -4 0 1 2 0\nr 0 6\n"),
                ("a hint whose literal is true already", "d 5 -3 -4 0 1 1 2 0\nr 0 5\n"),
                ("two steps", "d 8 1 -3 0 1 0\nd 9 -3 -4 0 8 2 0\nr 0 9\n"),
                ("a step with a literal and its negative", "d 5 -3 3 0 1 0\nd 6 -3 -4 0 5 1 2 0\nr 0 6\n"),
                ("a step that is needed twice", "d 8 1 -3 0 1 0\nd 9 1 1 -3 0 8 0\nd 20 -3 -4 0 8 9 2 0\nr 0 20\n"),
        ):
            text = HEAD + "u 1 2 0\n" + lines + "w 1 0\nw 2 1 0\ne partial\n"
            self.assertEqual(used(PLAIN, text), {(1, 2): [1, 2]}, what)

    def test_a_hint_that_the_propagation_does_not_need_is_not_named(self):
        text = "p gmev 1 2 3 2\nu 1 2 0\nd 4 -3 -4 0 1 3 2 0\nr 0 4\nw 1 0\nw 2 1 0\ne partial\n"
        self.assertEqual(used("p gcnf 2 3 2\n{1} 1 0\n{2} -1 0\n{0} -1 2 0\n", text), {(1, 2): [1, 2]})

    def test_a_clause_outside_the_conflict_is_not_named(self):
        # Step 5 is weakened by the selector of group 3, with which clause 3 then makes step 6.
        text = "p gmev 1 1 3 3\nu 1 2 0\nd 4 4 1 -2 0 1 0\nd 5 1 -2 0 4 3 0\nd 6 -2 -3 0 5 2 0\nr 0 6\nw 1 0\nw 2 1 0\ne partial\n"
        self.assertEqual(used("p gcnf 1 3 3\n{1} 1 0\n{2} -1 0\n{3} 1 0\n", text), {(1, 2): [1, 2]})

    def test_what_is_of_always_is_told_so_wherever_it_stands(self):
        file = "p gcnf 2 3 2\nc rule 2 x\n{1} 1 0\nc always 1 x implies y\n{1} -1 2 0\nc rule 3 not y\n{2} -2 0\n"
        text = "p gmev 1 2 3 2\nu 1 2 0\nd 4 -3 -4 0 1 2 3 0\nr 0 4\nw 1 0\nw 2 1 2 0\ne partial\n"
        found = problem(file)
        self.assertEqual([reason.parts for reason in why.reasons(found, evidence(text, found))], [
            [(0, [("line 1", "x implies y")]), (1, [("line 2", "x")]), (2, [("line 3", "not y")])]])

    def test_lines_that_come_from_another_file_are_told_by_that(self):
        file = "p gcnf 1 2 2\nc from 6 a b.smt2\nc rule 2 x\n{1} 1 0\nc rule 3 not x\n{2} -1 0\n"
        text = "p gmev 1 1 2 2\nu 1 2 0\nd 3 -2 -3 0 1 2 0\nr 0 3\nw 1 0\nw 2 1 0\ne partial\n"
        found = problem(file)
        self.assertEqual([reason.parts for reason in why.reasons(found, evidence(text, found))], [
            [(1, [("a b.smt2:6", "x")]), (2, [("line 3", "not x")])]])

    def test_conflicts_come_in_the_order_of_the_report(self):
        with open(EVIDENCE) as stored:
            text = stored.read()
        self.assertEqual(used(PLAIN, text), {(1, 2): [1, 2], (1, 3, 4): [1, 3, 4]})
        records = text.split("u 1 3 4 0\n")
        head, first = records[0].split("\n", 1)
        turned = head + "\nu 1 3 4 0\n" + records[1].split("m 1 0\n")[0] + first + "e partial\n"
        self.assertEqual(list(used(PLAIN, turned)), [(1, 2), (1, 3, 4)])

    def test_other_files(self):
        record = "u 1 2 0\nd 5 -3 -4 0 1 2 0\nr 0 5\nw 1 0\nw 2 1 0\n"
        for what, file, text, wanted in (
                ("the background clashes", "p gcnf 1 2 1\n{0} 1 0\n{0} -1 0\n",
                 "p gmev 1 1 2 1\nu 0\nd 3 0 1 2 0\nr 0 3\ne partial\n", {(): [1, 2]}),
                ("an empty clause", "p gcnf 0 1 1\n{1} 0\n", "p gmev 1 0 1 1\nu 1 0\nr 0 1\nw 1 0\ne partial\n", {(1,): [1]}),
                ("the background helps", "p gcnf 1 2 1\n{0} -1 0\n{1} 1 0\n",
                 "p gmev 1 1 2 1\nu 1 0\nd 3 -2 0 1 2 0\nr 0 3\nw 1 0\ne partial\n", {(1,): [1, 2]}),
                ("no conflict", "p gcnf 0 0 0\n", "p gmev 1 0 0 0\nm 0\nw 0 0\nx 1\ne complete\n", {}),
                ("a CNF file", "p cnf 2 4\n1 0\n-1 0 -1\n2 0\n-2 0", HEAD + record + "e partial\n", {(1, 2): [1, 2]}),
                ("a CNF file that ends by %", "p cnf 2 4\n1 0\n-1 0 -1 2 0\n-2 0\n%\n0\n{ x\n", HEAD + record + "e partial\n", {(1, 2): [1, 2]}),
                ("with % behind the last clause", "p cnf 2 4\n1 0\n-1 0 -1\n2 0 -2 0 % 1 0", HEAD + record + "e partial\n", {(1, 2): [1, 2]}),
                ("a layout of its own", "p gcnf\n 2 4 4\r\n{ 1 }1 0\n\tc x\n{2} -1 0 {3} -1\n2 0\n{4} -2 0",
                 HEAD + record + "e partial\n", {(1, 2): [1, 2]}),
                ("version 2", PLAIN, "p gmev 2 2 4 4\nm 1 0\nt 2 3\nw 0 0\nt 5 6\nr 1 5\n" + record + "e partial\n",
                 {(1, 2): [1, 2]}),
        ):
            self.assertEqual(used(file, text), wanted, what)

    def test_what_is_wrong_is_told_with_its_line(self):
        record = HEAD + "u 1 2 0\nd 5 -3 -4 0 1 2 0\nr 0 5\nw 1 0\nw 2 1 0\ne partial\n"
        step = "d 5 -3 -4 0 1 2 0"
        for text, wanted in (
                ("", "e: line 1: 3 Truncated"),
                ("p gmus 4\ns COMPLETE\n", "e: line 1: this is no evidence"),
                (record.replace("gmev 1", "gmev 4"), "e: line 1: this evidence is of a version"),
                (record.replace("e partial", "e conflicts 4"), "e: line 8: 3 Truncated"),
                *((record.replace("gmev 1", "gmev 3").replace("partial", end), f"e: line {wanted}") for end, wanted in (
                    ("conflicts 5", "7: 2 BadNumber: a number of groups up to 4 is due here"), ("conflicts 04", "8: 3 Truncated"),
                    ("corrections", "8: 3 Truncated"), ("both 1", "8: 3 Truncated"))),
                (record.replace("2 4 4", "2 4 5"), "e: line 1: 4 OtherProblem: this is no evidence about f"),
                (record[:-1], "e: line 7: 3 Truncated"),
                (record.replace("e partial\n", ""), "e: line 7: 3 Truncated"),
                (record + "x\n", "e: line 8: this is no line of evidence"),
                (record + "w 1 0\n", "e: line 9: 3 Truncated"),
                (record.replace("u 1 2 0", "u 2 1 0"), "e: line 2: 2 BadNumber"),
                (record.replace("u 1 2 0", "u 1 5 0"), "e: line 2: 2 BadNumber"),
                (record.replace("u 1 2 0", "u 1 2"), "e: line 2: 2 BadNumber"),
                (record.replace("u 1 2 0", "u 1 \xff 0"), "e: line 2: 2 BadNumber"),
                (record.replace("e partial", "u 1 2 0\ne partial"), "e: line 7: 19 RepeatedSet"),
                (record.replace(step, "d 4 -3 -4 0 1 2 0"), "e: line 3: 14 IdNotRising"),
                (record.replace(step, step + "\n" + step), "e: line 4: 14 IdNotRising"),
                (record.replace(step, "d x -3 -4 0 1 2 0"), "e: line 3: 2 BadNumber"),
                (record.replace(step, "d 5 -3 -4 0 1 2"), "e: line 3: 1 BadLine"),
                (record.replace(step, "d 5 -3 -4 0 1 2 0 0"), "e: line 3: 1 BadLine"),
                (record.replace(step, "d 5 -3 -9 0 1 2 0"), "e: line 3: 2 BadNumber"),
                (record.replace(step, "d 5 -3 -4 0 1 -2 0"), "e: line 3: 2 BadNumber"),
                (record.replace(step, "d 5 -3 -4 0 1 6 0"), "e: line 3: 10 UnknownHint"),
                (record.replace(step, "d 5 -3 -4 0 1 5 0"), "e: line 3: 10 UnknownHint"),
                (record.replace(step, "d 5 -3 -4 0 3 2 0"), "e: line 3: 11 NotUnit"),
                (record.replace(step, "d 5 -3 -4 0 1 0"), "e: line 3: 12 NotFalse"),
                (record.replace(step, "d 5 -3 -4 0 0"), "e: line 3: 12 NotFalse"),
                (record.replace(step, "d 5 -3 -4 0 1 2 1 0"), "e: line 3: 13 HintsLeft"),
                (record.replace("r 0 5", "r 0 6"), "e: line 4: 16 UnknownClause"),
                (record.replace("r 0 5", "r 0 1"), "e: line 4: 17 NotRefuting"),
                (record.replace("r 0 5", "r 1 5"), "e: line 4: 1 BadLine"),
                (record.replace("r 0 5\n", ""), "e: line 4: 1 BadLine"),
                (record.replace("u 1 2 0", "u 1 2 3 0"), "e: line 4: this conflict is not minimal: its refutation rests on no "
                                                         "clause of group 3"),
        ):
            with self.assertRaises(command.Refused, msg=text) as refused:
                used(PLAIN, text)
            self.assertTrue(str(refused.exception).startswith(wanted), (text, str(refused.exception)))

    def test_files_that_are_none_are_told_with_their_line(self):
        for text, wanted in (
                ("", "f: line 1: this is no GCNF or CNF file"),
                ("p gmev 1 2 4 4\n", "f: line 1: this is no GCNF or CNF file"),
                ("p gcnf 2 x 4\n", "f: line 1: the header has a number that is none"),
                ("p gcnf 1 2 1\n{1} 1 0\n", "f: line 2: the file ends with 1 whole clauses, and its header says 2"),
                ("p gcnf 1 1 1\n{1} 1", "f: line 2: the file ends with 0 whole clauses"),
                ("p gcnf 1 1 1\n{1} 1 0\n{1} 1 0\n", "f: line 3: there are more clauses"),
                ("p gcnf 1 1 1\n{2} 1 0\n", "f: line 2: there are more clauses or groups"),
                ("p gcnf 1 1 1\n{1} 2 0\n", "f: line 2: there are more variables"),
                ("p gcnf 1 1 1\n{1} x 0\n", "f: line 2: this is no clause"),
                ("p gcnf 1 1 1\n1 0\n", "f: line 2: this is no clause"),
                ("p gcnf 1 1 1\n{1 1 0\n", "f: line 2: this is no clause"),
                ("p gcnf 1 1 1\n{1} 1 0\n%\n", "f: line 3: this is no clause"),
                ("p cnf 1 2\n1 0\n%\n", "f: line 3: this is no clause"),
                ("p cnf 1 1\n1 %\n", "f: line 2: this is no clause"),
        ):
            with self.assertRaises(command.Refused, msg=text) as refused:
                problem(text)
            self.assertTrue(str(refused.exception).startswith(wanted), (text, str(refused.exception)))


class Told(unittest.TestCase):
    def test_text_has_the_lines_as_they_were_written(self):
        of = problem(RULED, "folder/x.gcnf")
        self.assertEqual(why.as_text(why.Page(of, evidence(RULED_EVIDENCE, of), None, "0123456789abcdef")), """\
What makes the rules of x.gcnf clash
====================================

1 conflict. The evidence is partial: there may be others.

Conflict 1 of 1: the first; the <second>
----------------------------------------

These lines can't all hold together.

What always holds: as it is
    line 2  x implies "a y" and z
the first
    line 5  x
the <second>
    line 7  not "a y"

Made of x.gcnf, SHA-256 0123456789abcdef.
""")

    def test_evidence_of_some_groups(self):
        # Without group 1 the clauses 2 to 4 are 1 to 3.
        text = "p gmev 1 2 3 4\nu 3 4 0\nd 4 -1 -5 -6 0 2 3 0\nr 0 4\nw 3 0\nw 4 0\ne partial\n"
        of = why_problem.Problem(io.BytesIO(PLAIN.replace("{2} -1", "{0} 1").encode()), "f", {3, 4})
        with self.assertRaisesRegex(command.Refused, "17 NotRefuting"):
            list(why.reasons(of, evidence(text, of)))
        text = text.replace("d 4 -1 -5 -6 0 2 3 0", "d 4 -5 -6 0 1 2 3 0")
        self.assertEqual([reason.parts for reason in why.reasons(of, evidence(text, of))], [
            [(0, [("clause 2", "1")]), (3, [("clause 3", "not 1 or 2")]), (4, [("clause 4", "not 2")])]])
        for whole, told in ((problem(PLAIN), ""), (why_problem.Problem(io.BytesIO(PLAIN.encode()), "f", {1, 2}), " with this focus")):
            with self.assertRaises(command.Refused) as refused:
                evidence(text, whole)
            self.assertEqual(str(refused.exception), "e: line 1: 4 OtherProblem: this is no evidence about f" + told)

    def test_evidence_of_small_sets_tells_which_others_there_may_be(self):
        for end, wanted in (("e partial", "1 conflict. The evidence is partial: there may be others."), ("x 1\ne complete", "1 conflict."),
                            ("x 1\ne conflicts 1", "1 conflict. There may be others, each of more than 1 rule."),
                            ("x 1\ne conflicts 2", "1 conflict. There may be others, each of more than 2 rules."),
                            ("x 1\ne corrections 2", "1 conflict. The evidence is partial: there may be others.")):
            text = RULED_EVIDENCE.replace("gmev 1", "gmev 3").replace("e partial", end)
            of = problem(RULED)
            self.assertEqual(why.Page(of, evidence(text, of), None, "").summary(), wanted)

    def test_clauses_of_others_are_told_with_the_names_of_their_variables(self):
        without = "".join(line + "\n" for line in RULED.split("\n")[:-1] if not line.startswith("c rule"))
        of = problem(without.replace("c variable 1 x\n", ""))
        reason = next(why.reasons(of, evidence(RULED_EVIDENCE, of)))
        self.assertEqual(reason.parts, [(0, [("clause 1", 'not 1 or "a y"')]), (1, [("clause 3", "1")]),
                                        (2, [("clause 4", 'not "a y"')])])

    def test_a_rule_counts_up_to_a_clause_of_another_group(self):
        of = problem("c group 1 a\nc group 1 b\np gcnf 1 4 2\n{1} 1 0\nc rule 3 x\x1b[2J\n{1} 1 0 {1} 1 0\n{2} 1 0\n")
        self.assertEqual([of.written_as(clause) for clause in range(1, 5)],
                         [("clause 1", "1"), ("line 3", "x\ufffd[2J"), ("line 3", "x\ufffd[2J"), ("clause 4", "1")])
        self.assertEqual((of.name(1), of.name(2)), ("a b", "group 2"))

    def test_page_is_escaped_closes_what_it_opens_and_stands_by_itself(self):
        bad = "</script><script>alert(1)</script> & \"x\" '"
        of = problem(RULED.replace("the <second>", bad).replace("5 x", "5 " + bad), bad)
        made = why.as_html(why.Page(of, evidence(RULED_EVIDENCE, of), 1, "0123456789abcdef"))
        opened = []

        class Reader(html.parser.HTMLParser):
            def handle_starttag(self, tag, attrs):
                if tag != "meta":
                    opened.append(tag)

            def handle_endtag(self, tag):
                assert opened.pop() == tag, tag

        Reader().feed(made)
        self.assertEqual(opened, [])
        for word in ("<script", "</script", "http", "src="):
            self.assertNotIn(word, made)
        self.assertEqual(made.count(html.escape(bad)), 3)   # heading, group and line; the title and the last line have its last part alone

    def test_how_it_ends(self):
        laptop = os.path.join(EXAMPLES, "laptop.gcnf")
        usage = b"    gmus list FILE --evidence EVIDENCE\n    tools/why.py FILE EVIDENCE [N] [--html] [--focus LIST] [-o TEXT]\n"
        with tempfile.TemporaryDirectory() as folder:
            cut = os.path.join(folder, "cut")
            with open(EVIDENCE, "rb") as whole, open(cut, "wb") as part:
                part.write(whole.read()[:100])
            for words, status, told in (
                    ([FIRST, EVIDENCE], 0, b""),
                    ([FIRST, EVIDENCE, "2", "--html"], 0, b""),
                    ([FIRST, EVIDENCE, "3"], 1, f"why.py: {EVIDENCE}: there is no conflict 3: it has 2\n".encode()),
                    ([EVIDENCE, FIRST], 1, f"why.py: {EVIDENCE}: line 1: this is no GCNF or CNF file".encode()),
                    ([laptop, EVIDENCE], 1,
                     f"why.py: {EVIDENCE}: line 1: 4 OtherProblem: this is no evidence about {laptop}\n".encode()),
                    ([FIRST, os.path.join(EXAMPLES, "first.report")], 1, b"why.py: "),
                    ([FIRST, FIRST], 1, f"why.py: {FIRST}: line 1: this is no evidence of gmus".encode()),
                    ([FIRST, cut], 1, f"why.py: {cut}: line ".encode()),
                    ([FIRST, sys.executable], 1, f"why.py: {sys.executable}: line ".encode()),
                    ([sys.executable, EVIDENCE], 1, f"why.py: {sys.executable}: line ".encode()),
                    ([FIRST, folder], 1, f"why.py: {folder}: Is a directory\n".encode()),
                    ([FIRST, folder + "/none"], 1, f"why.py: {folder}/none: No such file or directory\n".encode()),
                    ([FIRST], 2, b"why.py: a file and evidence about it are wanted\n" + usage),
                    ([FIRST, EVIDENCE, "0"], 2, b"why.py: the number of a conflict is wanted, from 1 on, in place of 0\n" + usage),
                    ([FIRST, EVIDENCE, "x"], 2, b"why.py: the number of a conflict"),
                    ([FIRST, EVIDENCE, "--all"], 2, b"why.py: what is --all?\n" + usage),
                    (["--help"], 0, b""),
            ):
                ended = run(*words)
                self.assertEqual((ended.returncode, bool(ended.stdout)), (status, status == 0), (words, ended.stderr))
                self.assertTrue(ended.stderr.startswith(told) and bool(told) == bool(ended.stderr), (words, ended.stderr))
        with open(EVIDENCE, "rb") as stored:
            self.assertEqual(run(FIRST, "-", given=stored.read()).stdout, run(FIRST, EVIDENCE).stdout)


def chance_problem(draw):
    """A problem of a few variables and groups, with a background: text, and its clauses with their groups."""
    variables, groups, count = draw.randint(2, 7), draw.randint(2, 9), draw.randint(8, 30)
    clauses = []
    for _ in range(count):
        size = 0 if draw.random() < 0.01 else draw.choice((1, 2, 2, 3, 3, 3))
        lits = [draw.choice((1, -1)) * draw.randint(1, variables) for _ in range(size)]
        clauses.append((draw.randint(0, groups), lits))
    lines = [" ".join([f"{{{group}}}", *map(str, lits), "0"]) for group, lits in clauses]
    return f"p gcnf {variables} {count} {groups}\n" + "\n".join(lines) + "\n", variables, clauses


def can_hold(variables, clauses):
    """Whether one of all assignments makes the clauses true."""
    return any(all(any(lit * values[abs(lit) - 1] > 0 for lit in lits) for lits in clauses)
               for values in itertools.product((1, -1), repeat=variables))


@unittest.skipUnless(os.access(GMUS, os.X_OK), f"the program is not built ({GMUS}), so no evidence of it is tried")
class Program(unittest.TestCase):
    def test_the_clauses_can_not_hold_and_their_groups_are_the_conflict(self):
        conflicts = 0
        with tempfile.TemporaryDirectory() as folder:
            file, written = os.path.join(folder, "f"), os.path.join(folder, "e")
            for number in range(int(os.environ.get("GMUS_TRIALS", 40))):
                text, variables, clauses = chance_problem(random.Random(number))
                with open(file, "w") as out:
                    out.write(text)
                ran = subprocess.run([GMUS, "list", file, "--evidence", written], stdout=subprocess.PIPE, check=True)
                listed = [tuple(map(int, line.split()[1:-1])) for line in ran.stdout.split(b"\n") if line.startswith(b"u")]
                of = problem(text)
                with open(written, "rb") as opened:
                    found = why_evidence.Evidence(opened, "e", of)
                    self.assertEqual(found.conflicts, listed, number)
                    for at, groups in enumerate(found.conflicts):
                        used = [clauses[clause - 1] for clause in found.clauses_of(at)]
                        self.assertEqual({group for group, _ in used} - {0}, set(groups), (number, groups))
                        self.assertFalse(can_hold(variables, [lits for _, lits in used]), (number, groups))
                        conflicts += 1
        self.assertGreater(conflicts, 10)


if __name__ == "__main__":
    unittest.main()
