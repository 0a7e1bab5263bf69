#!/usr/bin/env python3
"""Tests of names.py over reports of roles. What is wanted was worked out by hand."""
import json
import unittest

import places  # noqa: F401
from gmus_tools import roles_report
from gmus_tools.command import Refused
from gmus_tools.report import Origin
from test_names import LAPTOP, run

NAMES = "c group 1 a <touch> screen\nc group 3 no fan\np gcnf 2 4 4\n"
ROLES = "p roles 4\nr 1 every\nr 2 some\nr 3 some\nr 4 none\n"
TEXT = """\
Which rules clash in f.gcnf
===========================

1 rule in every conflict, 2 rules in some, 1 rule in none.

In every conflict
-----------------

Giving up any one of these alone mends all.

    1  a <touch> screen

In some conflicts
-----------------

Each of these is part of a clash, and no one of them alone mends all.

    2  group 2
    3  no fan

In no conflict
--------------

No clash needs any of these.

    4  group 4
"""


def roles(report=ROLES, file=NAMES):
    return roles_report.Roles(Origin(file, "in/f.gcnf"), report)


class Roles(unittest.TestCase):
    def test_three_lists(self):
        self.assertEqual(roles_report.as_text(roles()), TEXT)
        self.assertEqual(roles_report.as_text(roles(), 1), TEXT.replace("    3  no fan\n", "\n1 more is left: --first 2 has all of them.\n"))

    def test_what_came_to_always_is_told(self):
        file = NAMES + "{1} 1 0\nc always 3 a implies b\n{1} 1 0\n"
        self.assertEqual(roles_report.as_text(roles(file=file)).split("\n")[4:7], [
            "", "What came to [always] since stands with the rules that need it:", "  line 3, with a <touch> screen: a implies b"])
        self.assertIn("<li>line 3, with a &lt;touch&gt; screen: a implies b</li>", roles_report.as_html(roles(file=file)))

    def test_what_is_left_out_by_a_focus_is_in_no_list(self):
        found = roles_report.Roles(Origin(NAMES, "f", focus={1, 2, 3}), ROLES)
        self.assertEqual(roles_report.as_text(found).split("\n")[3:7], [
            "1 rule in every conflict, 2 rules in some, 0 rules in none.", "", "Left out by --focus: group 4.", ""])
        self.assertEqual([json.loads(roles_report.as_json(found))[key] for key in ("focus", "groups", "none")], [[1, 2, 3], 4, []])
        self.assertIn("<p>Left out by --focus: group 4.</p>", roles_report.as_html(found))
        with self.assertRaisesRegex(Refused, "group 3 is in a conflict, and --focus leaves that group out"):
            roles_report.Roles(Origin(NAMES, "f", focus={1, 2}), ROLES)

    def test_one_rule_alone_is_not_in_some_conflicts(self):
        with self.assertRaisesRegex(Refused, "one rule alone is in some conflicts; no file has such a report"):
            roles(ROLES.replace("2 some", "2 none"))

    def test_a_list_that_has_none_is_left_out(self):
        self.assertEqual(roles_report.as_text(roles("p roles 2\nr 1 none\nr 2 none\n", "p cnf 1 2\n")).split("\n")[3:], [
            "No rule is in a conflict: all rules fit together, unless the background clashes with itself.", "", "In no conflict",
            "--------------", "", "No clash needs any of these.", "", "    1  group 1", "    2  group 2", ""])
        self.assertEqual(roles_report.as_text(roles("p roles 0\n", "p gcnf 0 0 0\n")).count("\n"), 4)

    def test_as_json(self):
        self.assertEqual(json.loads(roles_report.as_json(roles())), {
            "version": 1, "file": "f.gcnf", "sha256": "", "focus": None, "groups": 4, "names": {"1": "a <touch> screen", "3": "no fan"},
            "every": [1], "some": [2, 3], "none": [4]})

    def test_as_a_page(self):
        page = roles_report.as_html(roles())
        for wanted in ("<title>Which rules clash in f.gcnf</title>", "<td>a &lt;touch&gt; screen</td>", '<td class="n">4</td>',
                       "<h2>In every conflict</h2>", "<h2>In some conflicts</h2>", "<h2>In no conflict</h2>"):
            self.assertEqual(page.count(wanted), 1, wanted)
        self.assertNotIn("<script", page)

    def test_reports_that_are_none(self):
        for report in ("p roles 4\nr 1 every\n", ROLES[:-1], ROLES + "r 5 none\n", ROLES.replace("r 2", "r 3"), ROLES.replace("some", "any"),
                       ROLES.replace("roles 4", "roles x"), "p roles \n", ROLES.replace("r 4 none\n", ""), "p roles 5\n" + ROLES[10:] + "r 5 none\n"):
            with self.assertRaises(Refused, msg=report):
                roles(report)
        with self.assertRaises(Refused):
            roles(file="p dnf 1 1\n")

    def test_the_command(self):
        report = ("p roles 7\n" + "".join(f"r {group} some\n" for group in range(1, 8))).encode()
        status, output, said = run(LAPTOP, "-", given=report)
        self.assertEqual((status, said, output.split("\n")[3]), (0, "", "0 rules in every conflict, 7 rules in some, 0 rules in none."))
        self.assertIn("    6  the large battery\n", output)
        self.assertEqual(run(LAPTOP, "--fail-on-conflict", given=report)[0], 3)
        self.assertEqual(run(LAPTOP, "--json", given=report)[1].count("\n"), 11)
        self.assertTrue(run(LAPTOP, "--html", given=report)[1].startswith("<!DOCTYPE html>"))
        self.assertEqual(run(LAPTOP, "--html", "--why", "e", given=report)[::2], (
            1, "names.py: --evidence: a report of roles has no sets to tell of\n"))
        self.assertEqual(run(LAPTOP, "--fail-on-conflict", given=report.replace(b"some", b"none"))[::2], (
            1, "names.py: whether something clashes is not known: no rule is in a conflict, and the background may clash with itself\n"))
        self.assertEqual(run(LAPTOP, given=b"p roles 6\n" + report[10:-9])[0], 1)


if __name__ == "__main__":
    unittest.main()
