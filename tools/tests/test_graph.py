#!/usr/bin/env python3
"""Tests of the drawing of conflicts: what is written for Graphviz, and what the page has of it. What is wanted was worked out by hand."""
import os
import re
import shutil
import stat
import tempfile
import unittest
import xml.etree.ElementTree as ElementTree
from unittest import mock

from places import EXAMPLES
from checks.trying import tried
from gmus_tools import graph, page
from gmus_tools.command import Refused
from test_page import HOSTILE, hostile, shown

LAPTOP = [os.path.join(EXAMPLES, "laptop" + ending) for ending in (".gcnf", ".report")]
NODE = re.compile(r'  g([0-9]+) \[label=(".*?(?<!\\)(?:\\\\)*"), tooltip="in ([0-9]+) of [0-9]+ conflicts"(, peripheries=2)?\];')
EDGE = re.compile(r"  g([0-9]+) -- g([0-9]+) \[label=([0-9]+), penwidth=([0-9.]+), weight=\3\];")


def parts(dot):
    """The nodes and the edges of a drawing."""
    lines = dot.split("\n")
    return [NODE.fullmatch(line).groups() for line in lines if re.match("  g[0-9]+ .label", line)], [
        EDGE.fullmatch(line).groups() for line in lines if " -- " in line]


class Written(unittest.TestCase):
    def test_two_rules_are_joined_by_the_conflicts_that_have_both(self):
        nodes, edges = parts(graph.dot_of(shown("p gmus 6\ns PARTIAL\nu 1 2 0\nu 1 2 3 0\nu 1 2 5 0\nu 1 3 4 0\nu 6 0\nm 1 6 0\ne 5 1\n")))
        self.assertEqual(nodes, [("1", '"group 1"', "4", None), ("2", '"group 2"', "3", None), ("3", '"group 3"', "2", None),
                                 ("6", '"group 6"', "1", ", peripheries=2"), ("4", '"group 4"', "1", None), ("5", '"group 5"', "1", None)])
        self.assertEqual(edges, [("1", "2", "3", "8.00"), ("1", "3", "2", "4.50"), ("1", "4", "1", "1.00"), ("1", "5", "1", "1.00"),
                                 ("2", "3", "1", "1.00"), ("2", "5", "1", "1.00"), ("3", "4", "1", "1.00")])

    def test_of_many_rules_those_in_most_conflicts_are_drawn(self):
        made = shown("p gmus 4\ns PARTIAL\nu 1 2 0\nu 1 3 0\nu 2 3 4 0\ne 3 0\n")
        nodes, edges = parts(graph.dot_of(made, 2))
        self.assertEqual(([node[0] for node in nodes], [edge[:3] for edge in edges]), (["1", "2"], [("1", "2", "1")]))
        self.assertIn('label="2 of 4 rules, those in most conflicts";', graph.dot_of(made, 2))
        self.assertNotIn("most conflicts", graph.dot_of(made))
        status, output, said = tried("names.py", *LAPTOP, "--dot", "--first", "1")
        self.assertEqual((status, said, len(parts(output)[0])), (0, "", 1))

    def test_labels_are_text_whatever_they_hold(self):
        for text, wanted in (('a "b"', r'"a \"b\""'), ("\\", r'"\\"'), ("\\N", r'"\\N"'), ("a b " * 10, r'"a b a b a b a b a b a b\na b a b a b a b"'),
                             ("<b>", '"<b>"'), ("&lt;", '"&amp;lt;"'), ("W" * 130, '"' + r"\n".join(["W" * 24] * 4 + ["W" * 23 + "\u2026"]) + '"')):
            self.assertEqual(graph.label_of(text), wanted)
        self.assertEqual(len(parts(graph.dot_of(hostile()))[0]), len(HOSTILE))


class Drawn(unittest.TestCase):
    def setUp(self):
        self.room = tempfile.mkdtemp()
        self.addCleanup(shutil.rmtree, self.room)

    def page_with(self, script):
        """How names.py ends that writes a page, where this is the program that draws, if there is any."""
        if script is not None:
            name = os.path.join(self.room, "dot")
            with open(name, "w") as file:
                file.write(f"#!/bin/sh\n{script}\n")
            os.chmod(name, stat.S_IRWXU)
        with mock.patch.dict(os.environ, PATH=self.room):
            return tried("names.py", *LAPTOP, "--html", "--graph")

    def test_the_page_has_what_the_program_draws(self):
        status, output, said = self.page_with('test "$1" = -Tsvg && echo "<?xml?><!DOCTYPE x><svg><title>t</title></svg>"')
        self.assertEqual((status, said), (0, ""))
        self.assertIn('<div class="graph" role="img" aria-label="rules, joined if a conflict has both"><svg><title>t</title></svg></div>', output)
        self.assertNotIn("<svg", tried("names.py", *LAPTOP, "--html")[1])

    def test_what_is_missing_is_told(self):
        for script, wanted in ((None, "the program 'dot' is not there, which draws it: Debian has it as graphviz"),
                               ("echo no fonts >&2; exit 1", "dot ended with 1: no fonts"), ("true", "dot ended with 0: ")):
            self.assertEqual(self.page_with(script), (1, "", f"names.py: --graph: {wanted}\n"))

    def test_what_does_not_go_together(self):
        for words, wanted in ((["--graph"], "--graph is for the page: --html has to stand beside it"),
                              (["--dot", "--html"], "--dot and --html don't go together"), (["--json", "--graph"], "--graph is for the page")):
            status, output, said = tried("names.py", *LAPTOP, *words)
            self.assertEqual((status, output, said.startswith("names.py: " + wanted)), (2, "", True), said)

    @unittest.skipUnless(shutil.which("dot"), "no Graphviz is there to draw with")
    def test_graphviz_draws_text_as_text(self):
        made = hostile()
        drawing = graph.svg_of(graph.dot_of(made))
        root = ElementTree.fromstring(drawing)
        texts = "".join("".join(it.itertext()) for it in root.iter("{http://www.w3.org/2000/svg}text"))
        for name in HOSTILE[1:-1]:
            self.assertIn(re.sub(r"\s", "", name), re.sub(r"\s", "", texts))
        self.assertEqual([it.tag for it in root.iter() if it.tag.rpartition("}")[2] in ("b", "script", "noscript")], [])
        self.assertIn(drawing, page.as_html(made, None, drawing))
        with self.assertRaises(Refused):
            graph.svg_of("graph {")


if __name__ == "__main__":
    unittest.main()
