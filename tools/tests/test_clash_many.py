#!/usr/bin/env python3
"""Tests of clash.py over many files of rules, over the plain program of oracles/plain_gmus.py: the index, the pages, the file for a CI,
and how it ends. What is wanted was worked out by hand."""
import html
import os
import re
import shutil
import tempfile
import unittest
import xml.etree.ElementTree as ElementTree
from unittest import mock

from places import TOP
from checks.trying import tried
from gmus_tools import clash_pages

PLAIN = os.path.join(TOP, "oracles", "plain_gmus.py")
DOOR = "[always]\nnever open and shut\n[the door is open]\nopen\n[the door is shut]\nshut\n"
FITS = "[names]\nopen\n[the door is open]\nopen\n"
WRONG = "[r]\nx y\n"
COMPLETE = "The report is complete: there are no others."


class Room(unittest.TestCase):
    def setUp(self):
        self.room = os.path.realpath(tempfile.mkdtemp())
        self.addCleanup(shutil.rmtree, self.room)
        for name, text in (("door.rules", DOOR), ("fits.rules", FITS), ("wrong.rules", WRONG)):
            self.write(name, text)

    def at(self, name):
        return os.path.join(self.room, name)

    def write(self, name, text):
        os.makedirs(os.path.dirname(self.at(name)), exist_ok=True)
        with open(self.at(name), "w", encoding="utf-8") as file:
            file.write(text)

    def read(self, name):
        with open(self.at(name), encoding="utf-8") as file:
            return file.read()

    def clash(self, *words):
        return tried("clash.py", *words, room=self.room, GMUS=PLAIN)


class Many(Room):
    def test_each_file_has_a_line_a_page_and_a_row(self):
        status, output, said = self.clash("door.rules", "fits.rules", "--pages", "pages", "--junit=found.xml")
        self.assertEqual((status, said), (0, ""))
        self.assertEqual(output, f"door.rules: clashes. 1 conflict and 2 corrections. {COMPLETE}\n"
                                 "fits.rules: fits. Nothing clashes: all rules fit together.\n")
        self.assertEqual(sorted(os.listdir(self.at("pages"))), ["door.rules.html", "fits.rules.html", "index.html"])
        page = self.read("pages/door.rules.html")
        for wanted in ("<title>What clashes in door.rules</title>", "<dd>line 4: open</dd>", "left, for example: shut"):
            self.assertIn(wanted, page)
        rows = re.findall(r"<tr><td>(.*)</td><td>(.*)</td><td class=\"n\">(.*)</td><td>(.*)</td><td class=\"n\">[0-9]+\.[0-9]</td></tr>",
                          self.read("pages/index.html"))
        self.assertEqual(rows, [('<a href="./door.rules.html">door.rules</a>', "clashes", "1", "1 rule: the door is open"),
                                ('<a href="./fits.rules.html">fits.rules</a>', "fits", "0", "")])
        self.assertIn("<p>2 files: 1 clashes, 1 fits.</p>", self.read("pages/index.html"))

    def test_what_is_refused_is_told_and_the_others_are_looked_at(self):
        status, output, said = self.clash("wrong.rules", "no.rules", "door.rules", "--pages", "pages", "--fail-on-conflict")
        line = output.split("\n")
        self.assertEqual((status, line[-2]), (1, f"door.rules: clashes. 1 conflict and 2 corrections. {COMPLETE}"))
        self.assertTrue(line[0].startswith("wrong.rules: wrong.rules: line 2: 'y' can't come here"), output)
        self.assertIn("\nclash.py: no.rules: No such file or directory\n", said)
        self.assertEqual(sorted(os.listdir(self.at("pages"))), ["door.rules.html", "index.html"])
        self.assertIn("<tr><td>no.rules</td><td>refused</td><td class=\"n\"></td><td>no.rules: No such file or directory</td>",
                      self.read("pages/index.html"))

    def test_what_is_too_deep_stops_no_other(self):
        self.assertEqual(clash_pages.refusal_of(RecursionError(), "f"), "f: what was given is too deep")
        self.assertEqual(clash_pages.refusal_of(OSError(2, "No such file", "g"), "f"), "g: No such file")
        with mock.patch.object(clash_pages, "answered", side_effect=RecursionError):
            status, output, said = self.clash("door.rules", "fits.rules", "--junit", "found.xml")
        self.assertEqual((status, output.count("what was given is too deep"), said.count("what was given is too deep")), (1, 2, 2))

    def test_how_it_ends(self):
        for words, status in ((["door.rules", "fits.rules"], 0), (["door.rules", "fits.rules", "--fail-on-conflict"], 3), (["fits.rules"], 0),
                              (["fits.rules", "--fail-on-conflict"], 0), (["wrong.rules", "fits.rules"], 1), (["door.rules", "wrong.rules"], 1)):
            self.assertEqual(self.clash(*words, "--junit", "found.xml")[0], status, words)
        results = [clash_pages.Result("f", clash_pages.UNKNOWN, "", "", None, "f.html", 0, "", 0.0)]
        self.assertEqual([clash_pages.status_of(results, fails) for fails in (False, True)], [0, 1])

    def test_the_file_for_a_ci(self):
        self.write("sub/door.rules", DOOR.replace("[the door is open]", '[a <b> & "c"\x07]'))
        self.clash("sub/door.rules", "fits.rules", "wrong.rules", "--junit", "found.xml", "--first", "1")
        root = ElementTree.parse(self.at("found.xml")).getroot()
        suite, = root
        for element in (root, suite):
            self.assertEqual([element.get(key) for key in ("name", "tests", "failures", "errors")], ["clash.py", "3", "1", "1"])
        first, second, third = suite
        self.assertEqual([case.get("name") for case in suite], ["sub/door.rules", "fits.rules", "wrong.rules"])
        self.assertEqual([len(case) for case in suite], [1, 0, 1])
        self.assertEqual((first[0].tag, first[0].get("type"), first[0].get("message")),
                         ("failure", "clashes", f"clashes. 1 conflict and 2 corrections. {COMPLETE}"))
        self.assertIn('1.    a <b> & "c"\ufffd\n          line 4: open\n', first[0].text)
        self.assertIn("1 more is left: --first 2 has all of them.", first[0].text)
        self.assertEqual((third[0].tag, third[0].get("type")), ("error", "refused"))
        self.assertIn("line 2: 'y' can't come here", third[0].get("message"))
        self.assertRegex(suite.get("time"), r"^[0-9]+\.[0-9]{3}$")

    def test_names_of_pages_are_each_for_one_file(self):
        self.assertEqual(clash_pages.page_names(["a/x", "b/x", "x-2", "index", "c/x"]),
                         ["x.html", "x-2.html", "x-2-2.html", "index-2.html", "x-3.html"])
        self.write("a b#?%<i>.rules", FITS)
        self.assertEqual(self.clash("a b#?%<i>.rules", "--pages", "pages")[0], 0)
        index = self.read("pages/index.html")
        link = html.unescape(re.search('<a href="(.*?)">', index)[1])
        self.assertEqual(link, "./a%20b%23%3F%25%3Ci%3E.rules.html")
        self.assertIn(">a b#?%&lt;i&gt;.rules</a>", index)
        self.assertIn("a b#?%<i>.rules.html", os.listdir(self.at("pages")))

    def test_the_smallest_correction_is_told_by_names(self):
        many = "".join(f"[wish {at}]\nx{at}\nnot x{at}\n" for at in range(7))
        weighed = DOOR.replace("[the door is open]", "[the door is open] weight 5")
        self.write("many.rules", many)
        self.write("weighed.rules", weighed)
        self.clash("many.rules", "weighed.rules", "--pages", "pages")
        index = self.read("pages/index.html")
        self.assertIn("<td>7 rules: wish 0; wish 1; wish 2; wish 3; wish 4 and 2 more</td>", index)
        self.assertIn("<td>1 rule: the door is shut (weight 1)</td>", index)

    def test_words_and_places(self):
        for words, status, told in (
                (["a", "b"], 2, "one file of rules is wanted; for more, --pages or --junit has to stand here"),
                (["--pages", "p"], 2, "one file of rules is wanted"), (["a", "--pages"], 2, "--pages has nothing behind it"),
                (["a", "--pages", "p", "--html", "x"], 2, "--html is for one file, and goes with neither --pages nor --junit"),
                (["a", "--junit", "p", "--evidence=x"], 2, "--evidence is for one file, and goes with neither --pages nor --junit"),
                (["fits.rules", "--junit", "fits.rules"], 1, "fits.rules, fits.rules: two of these are one file"),
                (["fits.rules", "--pages", "p", "--junit", "p/index.html"], 1, "fits.rules, p/index.html, p/fits.rules.html, p/index.html: two"),
                (["fits.rules", "--junit", "no/x"], 1, "no/x: its folder is not there"),
                (["fits.rules", "--pages", "door.rules"], 1, "door.rules: File exists")):
            ended, output, said = self.clash(*words)
            self.assertEqual((ended, output), (status, ""), (words, said))
            self.assertTrue(said.split("\n")[0].startswith("clash.py: " + told), (words, said))


if __name__ == "__main__":
    unittest.main()
