#!/usr/bin/env python3
"""Tests of what corrections leave, in the text, as JSON and on the page without scripts. What is wanted was worked out by hand."""
import io
import json
import os
import shutil
import tempfile
import unittest

import places  # noqa: F401
from checks.trying import tried
from gmus_tools import page, report
from gmus_tools.command import Refused
from gmus_tools.configurations import Configurations
from gmus_tools.why.evidence import Evidence
from gmus_tools.why.problem import Problem

# One of two colours, and a helper that is true: 3 has no name. Group 1 wants red, group 2 wants no red and a name with a blank,
# and group 3 is empty.
PROBLEM = """\
c variable 1 red
c variable 2 blue
c variable 4 two words
c group 1 in red
c group 2 not in red
p gcnf 4 5 3
{0} 1 2 0
{0} 3 0
{1} 1 0
{2} -1 0
{2} 4 0
"""
HEAD, END = "p gmev 2 4 5 3\n", "e partial\n"
ONE, TWO = "m 1 0\nw 0 2 3 4 0\nd 6 -5 -6 0 3 4 0\nr 1 6\n", "m 2 0\nw 0 1 3 0\nd 6 -5 -6 0 3 4 0\nr 2 6\n"
REPORT = "p gmus 3\ns PARTIAL\nm 1 0\nm 2 0\ne 0 2\n"


def left(records, wanted=None, problem=PROBLEM, focus=None):
    of = Problem(io.BytesIO(problem.encode()), "f", focus)
    return Configurations(of, Evidence(io.BytesIO((HEAD + records + END).encode()), "e", of), wanted)


class Left(unittest.TestCase):
    def test_names_that_hold_stand_in_their_order_and_helpers_never(self):
        found = left(ONE + TWO)
        self.assertEqual([found.of(groups) for groups in ([1], (2,), [3], [])], [["blue", '"two words"'], ["red"], None, None])
        self.assertEqual((left(ONE + TWO, [[2], [3]]).of([1]), left(TWO, [[2]]).of([2])), (None, ["red"]))
        unnamed = "\n".join(line for line in PROBLEM.split("\n") if not line.startswith("c variable"))
        self.assertEqual((left(ONE, problem=unnamed).of([1]), left(ONE, problem=unnamed).names), (None, {}))

    def test_what_is_left_out_of_focus_is_not_asked_for(self):
        problem = PROBLEM.replace("{0} 3 0", "{3} -3 0")
        of = Problem(io.BytesIO(problem.encode()), "f", {1, 2})
        found = Configurations(of, Evidence(io.BytesIO(f"p gmev 2 4 4 3\n{ONE}{END}".encode()), "e", of))
        self.assertEqual(found.of([1]), ["blue", '"two words"'])
        with self.assertRaises(Refused):
            left(ONE, problem=problem)

    def test_a_witness_that_leaves_a_clause_false_is_refused(self):
        for records, line, what in (
                (ONE.replace("w 0 2 3 4 0", "w 0 3 4 0"), 3, "18 WitnessFails: this assignment does not make all other clauses true"),
                (ONE.replace("w 0 2 3 4 0", "w 0 2 4 0"), 3, "18 WitnessFails: "), (ONE.replace("w 0 2 3 4 0", "w 0 1 3 4 0"), 3, "18 WitnessFails: "),
                (ONE.replace("w 0 2 3 4 0", "w 0 2 3 0"), 3, "18 WitnessFails: "), (ONE + TWO.replace("w 0 1 3 0", "w 0 2 3 0"), 7, "18 WitnessFails: "),
                (ONE.replace("w 0 2 3 4 0", "w 0 0"), 3, "18 WitnessFails: "), (ONE.replace("w 0", "w 1"), 3, "1 BadLine: a line 'w 0 .. 0'"),
                (ONE.replace("w 0 2 3 4 0", "w 0 2 3 5 0"), 3, "2 BadNumber: this is no set of variables"),
                (ONE.replace("w 0 2 3 4 0", "w 0 3 2 4 0"), 3, "2 BadNumber"), (ONE.replace("w 0 2 3 4 0", "w 0 2 x 4 0"), 3, "2 BadNumber: a number"),
                (ONE.replace("m 1 0", "m 4 0"), 2, "2 BadNumber: this is no set of groups"), (ONE + ONE, 6, "19 RepeatedSet: this correction")):
            with self.assertRaises(Refused, msg=records) as refused:
                left(records)
            self.assertTrue(str(refused.exception).startswith(f"e: line {line}: {what}"), str(refused.exception))

    def test_more_witnesses_than_are_checked_together(self):
        # Each of 200 groups wants a variable, and one clause says that not both of two neighbours hold.
        count = 200
        lines = [f"c variable {at} x{at}" for at in range(1, count + 1)] + [f"p gcnf {count} {count + 1} {count}", "{0} -1 -2 0"]
        of = Problem(io.BytesIO("\n".join([*lines, *(f"{{{at}}} {at} 0" for at in range(1, count + 1))]).encode()), "f")

        def evidence(*wrong):
            records = "".join(f"m {at} 0\nw 0 {' '.join(str(it) for it in range(1, count + 1) if it != at and it not in wrong)} 0\n" for at in (1, 2))
            return Evidence(io.BytesIO(f"p gmev 1 {count} {count + 1} {count}\n{records}{END}".encode()), "e", of)

        every = [f"x{at}" for at in range(1, count + 1)]
        from gmus_tools import configurations
        for most in (1, 2, 64):
            self.addCleanup(setattr, configurations, "LEAST", configurations.LEAST)
            configurations.LEAST, configurations.BITS = most, 0
            found = Configurations(of, evidence())
            self.assertEqual([found.of([1]), found.of([2])], [every[1:], [every[0], *every[2:]]])
            with self.assertRaises(Refused) as refused:
                Configurations(of, evidence(200))
            self.assertTrue(str(refused.exception).startswith("e: line 3: 18 WitnessFails"))


class Shown(unittest.TestCase):
    def setUp(self):
        self.room = tempfile.mkdtemp()
        self.addCleanup(shutil.rmtree, self.room)
        for name, text in (("f", PROBLEM), ("r", REPORT), ("e", HEAD + ONE + TWO + END), ("half", HEAD + TWO + END)):
            with open(os.path.join(self.room, name), "w") as file:
                file.write(text)

    def names(self, *words):
        status, output, said = tried("names.py", "f", "r", *words, room=self.room)
        self.assertEqual((status, said), (0, ""), words)
        return output

    def test_the_text_has_a_line_below_each_correction(self):
        both = '1.    Giving up in red alone mends all.\n      left, for example: blue, "two words"\n\n2.    Giving up not in red alone mends all.\n'
        for option in ("--evidence", "--why"):
            self.assertIn(f"{both}      left, for example: red\n\nMade of", self.names(option, "e"))
        self.assertIn("1.    Giving up in red alone mends all.\n\n2.    Giving up not in red alone mends all.\n      left, for example: red\n",
                      self.names("--evidence=half"))
        self.assertIn("mends all.\n\nWhat each leaves: list with --evidence to see it.\n\nMade of", self.names())
        self.assertNotIn("What each leaves", self.names("--evidence", "half"))
        # of what isn't shown nothing is looked at
        self.assertIn('blue, "two words"\n\n1 more is left', self.names("--evidence", "e", "--first", "1"))

    def test_a_long_list_is_cut(self):
        names = [f"x{at}" for at in range(22)]
        for some, wanted in ((names, ", ".join(names[:20]) + " and 2 more"), (names[:20], ", ".join(names[:20])), ([], "nothing that has a name")):
            self.assertEqual(report.configuration_line(some), "left, for example: " + wanted)

    def test_json_has_all_names(self):
        self.assertEqual([json.loads(self.names("--json", *words))["left"] for words in ([], ["--evidence", "e"], ["--evidence", "half"])],
                         [None, [["blue", '"two words"'], ["red"]], [None, ["red"]]])

    def test_the_page_has_them_without_scripts_and_for_them(self):
        made = self.names("--html", "--evidence", "half")
        self.assertIn('</a> alone mends all.<div class="pale">left, for example: red</div></li>', made)
        data = json.loads(made.partition('id="data">')[2].partition("</script>")[0])
        self.assertEqual((data["left"], data["unseen"]), ({"names": ["red"], "sets": [None, "1"]}, ""))
        data = json.loads(self.names("--html").partition('id="data">')[2].partition("</script>")[0])
        self.assertEqual((data["left"], data["unseen"]), (None, "What each leaves: list with --evidence to see it."))
        self.assertIn("<p>What each leaves: list with --evidence to see it.</p>", self.names("--html"))

    def test_digits_have_the_first_name_in_their_lowest_bit(self):
        for places, wanted in (([], "0"), ([0], "1"), ([1, 3, 4], "a1"), ([8], "001"), (range(9), "ff1")):
            self.assertEqual(page.digits_of(places), wanted)


if __name__ == "__main__":
    unittest.main()
