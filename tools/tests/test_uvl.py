#!/usr/bin/env python3
"""Tests of uvl.py: python3 -m unittest discover -s tools/tests (nothing but Python 3.9 is needed)."""
import itertools
import os
import subprocess
import sys
import unittest

from places import TOOLS, TOP
from gmus_tools import command
from gmus_tools.commands import uvl
from gmus_tools.rules import language
from oracles import brute_force

MODEL = """\
namespace Sandwich  // a comment
include
    Boolean.group-cardinality
    Arithmetic.*

features
    Sandwich {abstract, price 5.20, tags [1, 'a', -3], deep {x 1, y {z true}}}
        mandatory
            Bread                      /* over
            two lines */
                alternative
                    "Full Grain" {Calories 203, constraint !Gouda}
                    Flatbread

                    Toast
        optional
            Sauce
                or
                    Ketchup
                    Mustard
            Boolean Cheese {
                constraints [Gouda | Cheddar, Bread]
            }
                [1..2]
                    Gouda
                    Cheddar
                    not
constraints
    Ketchup => Cheese
    !(Mustard & Toast) | Cheese <=>   ("Full Grain")
    Ketchup  /* and */ =>  Cheese // why
    Toast <=> !Toast
"""


def lines_of(text):
    """The lines of the rules, without comments and empty lines."""
    made, told = uvl.rules_of("m", text)
    assert not told, told
    language.read(made, "made")
    return [line for line in made.split("\n") if line and not line.startswith("#")]


def refusal(text, *more):
    try:
        uvl.rules_of("m", text, *more)
    except command.Refused as why:
        return str(why)
    return None


def below(*lines):
    """A model with the root r, and these lines below it."""
    return "features\n\tr\n" + "".join(f"\t\t{line}\n" for line in lines) + "constraints\n\tr\n"


class Rules(unittest.TestCase):
    def test_a_model_gives_its_tree_and_its_constraints(self):
        self.assertEqual(lines_of(MODEL), [
            "[always]", "Sandwich",
            "Sandwich iff Bread", "Sauce implies Sandwich", "Cheese implies Sandwich",
            '"Full Grain" implies Bread', "Flatbread implies Bread", "Toast implies Bread",
            'Bread implies exactly one of ("Full Grain", Flatbread, Toast)',
            "Sauce iff (Ketchup or Mustard)",
            "Gouda implies Cheese", "Cheddar implies Cheese", '"not" implies Cheese',
            'Cheese implies at least one of (Gouda, Cheddar, "not")', 'Cheese implies at most 2 of (Gouda, Cheddar, "not")',
            "[!Gouda]", "not Gouda",
            "[Gouda | Cheddar]", "Gouda or Cheddar",
            "[Bread]", "Bread",
            "[Ketchup => Cheese]", "Ketchup implies Cheese",
            '[!(Mustard & Toast) | Cheese <=> ("Full Grain")]', '(not (Mustard and Toast) or Cheese) iff "Full Grain"',
            "[Ketchup => Cheese (line 31)]", "Ketchup implies Cheese",
            "[Toast <=> !Toast]", "Sandwich and not Sandwich",
        ])

    def test_the_page_tells_what_comes_of_a_model(self):
        with open(os.path.join(TOP, "docs", "IMPORT.md"), encoding="utf-8") as page:
            blocks = page.read().partition("tools/uvl.py\n\n")[2].split("```")
        given, wanted = (block.partition("text\n")[2] for block in (blocks[1], blocks[3]))
        self.assertEqual(uvl.rules_of("laptop.uvl", given), (wanted, []))

    def test_each_group_gives_its_lines(self):
        children = ["\ta", "\tb", "\tc"]
        implied = ["a implies r", "b implies r", "c implies r"]
        for group, wanted in (
                ("optional", implied),
                ("mandatory", ["r iff a", "r iff b", "r iff c"]),
                ("or", ["r iff (a or b or c)"]),
                ("alternative", implied + ["r implies exactly one of (a, b, c)"]),
                ("[1]", implied + ["r implies exactly one of (a, b, c)"]),
                ("[2]", implied + ["r implies exactly 2 of (a, b, c)"]),
                ("[0]", implied + ["r implies exactly 0 of (a, b, c)"]),
                ("[0..*]", implied),
                ("[0..3]", implied),
                ("[0..1]", implied + ["r implies at most one of (a, b, c)"]),
                ("[2..*]", implied + ["r implies at least 2 of (a, b, c)"]),
                ("[1..2]", implied + ["r implies at least one of (a, b, c)", "r implies at most 2 of (a, b, c)"]),
        ):
            self.assertEqual(lines_of(below(group, *children))[2:-2], wanted, group)

    def test_a_group_that_can_never_be_filled_is_told(self):
        made, told = uvl.rules_of("m", below("[4..9]", "\ta", "\tb", "\tc"))
        self.assertIn("c implies r\nnot r\n", made)
        self.assertEqual(told, ["m: line 3, column 3: this group wants 4 of 3 features, so 'r' can't be there"])

    def test_wishes_are_rules_and_the_model_holds(self):
        model = below("optional", "\ta", "\tb {constraint !r | a}") + "\ta => b\n"
        wishes = "# why\n  a\n!b // no\n\n(a\n & r) => b /* ! */\n\t a\n"
        made, told = uvl.rules_of("m", model, ("w", wishes))
        self.assertEqual((made.split("\n")[2:], told), ([
            "r", "#: m:2", "a implies r", "b implies r", "#: m:5", "not r or a", "#: m:7", "r", "#: m:8", "a implies b", "",
            "[a]", "#: w:2", "a", "", "[!b]", "#: w:3", "not b", "", "[(a & r) => b]", "#: w:5", "a and r implies b", "",
            "[a (line 7)]", "#: w:7", "a", ""], []))
        language.read(made, "made")
        self.assertEqual(uvl.rules_of("m", "features\n\tr\n", ("w", "r"))[0], "[always]\n#: m:2\nr\n\n[r]\n#: w:1\nr\n")
        for wrong, wanted in (
                ("", "w: there is no wish in it: a wish is a line such as 'Touch', '!Touch' or 'Touch => Matte'"),
                ("a\nc", "w: line 2, column 1: 'c' is no feature of this model"), ("a, b", "w: line 1, column 2: the line's end is due here, and not ','"),
                ("a > 3", "w: line 1, column 3: '>' is not read: arithmetic is not Boolean"),
                ("a)", "w: line 1, column 2: no bracket is open that ')' closes")):
            self.assertEqual(refusal(model, ("w", wrong)), wanted, wrong)
        self.assertEqual(refusal(below("optional", "\tGlossy"), ("w", "glosy")), "w: line 1, column 1: 'glosy' is no feature of this model. "
                                                                               "Is 'Glossy' meant?")

    def test_what_rules_cannot_say_is_left_out_and_told(self):
        model = """features
\tr {constraint r.x > 3, constraints [a, 'x' == b, b], price 4}
\t\toptional
\t\t\tInteger a {min 1}
\t\t\tb
constraints
\tsum(price, a) < 9 | b
\ta => b
\t(b + 1 > 2) => c.d
\tzzz == 3
"""
        made, told = uvl.rules_of("m", model, None, True)
        self.assertEqual([line for line in made.split("\n") if line.startswith("[")], ["[always]", "[a]", "[b]", "[a => b]"])
        left = ", so this constraint is left out"
        self.assertEqual(told, [
            "m: line 2, column 16: 'r.x' is no feature of this model: attributes and other models are not read" + left,
            "m: line 2, column 41: numbers and texts in constraints are not read; features are" + left,
            "m: line 4, column 4: features of the type Integer are not read; only Boolean ones are, so the value of this one is left out",
            "m: line 7, column 2: 'sum(..)' is not read; features are" + left,
            "m: line 9, column 5: '+' is not read: arithmetic is not Boolean" + left,
            "m: line 10, column 6: '==' is not read: arithmetic is not Boolean" + left])
        for text, wanted in (
                (OPENING + "a > 3", "m: there is no constraint in it that rules can say, so nothing can be given up; a list of wishes may be named "
                                    "behind it"),
                (OPENING + "a > 3\n\ta b", "m: line 8, column 4: '&', '|', '=>', '<=>' or the end of the constraint is due here, and not 'b'"),
                (OPENING + "c", "m: line 7, column 2: 'c' is no feature of this model")):
            self.assertEqual(refusal(text, None, True), wanted, text)

    def test_each_constraint_gives_its_line(self):
        for constraint, wanted in (
                ("a", ["a"]), ("!a", ["not a"]), ("!!a", ["a"]), ("((a))", ["a"]), ("a & b & c", ["a", "b", "c"]),
                ("a | b & c", ["a or (b and c)"]), ("a & b | c", ["(a and b) or c"]), ("!a | b", ["not a or b"]),
                ("!(a | b)", ["not a", "not b"]), ("a => b | c", ["a implies b or c"]), ("a & b => c", ["a and b implies c"]),
                ("a => b <=> c", ["(a implies b) iff c"]), ("a <=> b => c", ["a iff (b implies c)"]),
                ("(a => b) => c", ["(a implies b) implies c"]), ("a => (b => c)", ["a and b implies c"]),
                ("a <=> b <=> c", ["(a iff b) iff c"]), ("(a\n&\n  b)", ["a", "b"]),
                ("a => a", ["a implies a"]), ("a <=> a", ["r or not r"]),
        ):
            text = "features\n  r\n    optional\n      a\n      b\n      c\nconstraints\n  " + constraint + "\n"
            self.assertEqual(lines_of(text)[6:], wanted, constraint)

    def test_the_tree_has_the_configurations_that_can_be_counted_by_hand(self):
        # Of the or group 3, of the optional feature with an alternative below 1 + 2, of the numbered group 3 + 3.
        text = """features
            r
              mandatory
                a
                  or
                    x
                    y
              optional
                b
                  alternative
                    p
                    q
              [1..2]
                c
                d
                e
constraints
  r"""
        variables, _, clauses = brute_force.problem_of(language.read(uvl.rules_of("m", text)[0], "m").gcnf().split("\n"))
        count = sum(all(any(values[abs(lit) - 1] == (lit > 0) for lit in clause) for _, clause in clauses)
                    for values in itertools.product((False, True), repeat=variables))
        self.assertEqual(count, 3 * 3 * 6)

    def test_deep_brackets_and_trees_are_read(self):
        deep = 3_000
        brackets = below("optional", "\ta") + "\t" + "(" * deep + "!(" * deep + "a" + ")" * 2 * deep
        self.assertEqual(lines_of(brackets)[-1], "a")
        tree = "features\n f0\n" + "".join(" " * (2 * at + 2) + "optional\n" + " " * (2 * at + 3) + f"f{at + 1}\n"
                                           for at in range(300))
        self.assertEqual(len(lines_of(tree + "constraints\n f0")), 1 + 1 + 300 + 2)


OPENING = "features\n\tr\n\t\toptional\n\t\t\ta\n\t\t\tb\nconstraints\n\t"
REFUSED = (
    ("", "line 1, column 1: there is no feature: a section 'features' has them"),
    ("features\n", "line 1, column 1: there is no feature below this line"),
    ("feature\n\tr\n", "line 1, column 1: 'feature' begins no section; one of namespace, include, imports, features, "
                       "constraints does"),
    ("constraints\n\ta\nfeatures\n\ta\n", "line 3, column 1: 'features' stands too late: the sections are namespace, include, "
                                          "imports, features, constraints, each once"),
    ("imports\n\tother\nfeatures\n\tr\n",
     "line 1, column 1: imports are not read: put the features of all models into one file"),
    ("include\n\tBoolean..x\nfeatures\n\tr\n", "line 2, column 2: 'Boolean..x' is no level of the language"),
    ("features\n\tr\n\ts\n", "line 3, column 2: a model has one root, and this is a second"),
    ("features\n\tr\n\t\ta\n", "line 3, column 3: a group begins here, one of mandatory, optional, or, alternative or [1..2], "
                               "and not 'a'"),
    ("features\n\tr\n\t\tor\n", "line 3, column 3: there is no feature below this group"),
    ("features\n\tr\n\t\tor\n\t\t\ta\n\t\t\tr\n", "line 5, column 4: the feature 'r' stands in line 2 already"),
    ("features\n\tr\n\t\tor\n\t\t\ta\n  b\n", "line 5, column 3: this line is set in as no line above"),
    ("features\n\tr\n\t\t[3..2]\n\t\t\ta\n", "line 3, column 3: the least, 3, is above the greatest, 2"),
    ("features\n\tr\n\t\t[1.5]\n\t\t\ta\n", "line 3, column 4: '1.5' is no number of features"),
    ("features\n\tr\n\t\t[*]\n\t\t\ta\n", "line 3, column 4: a number is due here, and not '*'"),
    ("features\n\tInteger r\n", "line 2, column 2: features of the type Integer are not read; only Boolean ones are"),
    ("features\n\tString r\n", "line 2, column 2: features of the type String are not read; only Boolean ones are"),
    ("features\n\tr cardinality [1..3]\n", "line 2, column 4: a feature that comes several times is not read"),
    ("features\n\tr.s\n", "line 2, column 2: features of other models are not read"),
    ("features\n\tr {a 1\n", "line 2, column 4: this bracket is never closed"),
    ("features\n\tr {a 1 2}\n", "line 2, column 9: ',' is due here, and not '2'"),
    ("features\n\tr {a 1]\n", "line 2, column 8: no bracket is open that ']' closes"),
    ("features\n\tr-s\n", "line 2, column 3: the line's end is due here, and not '-'"),
    ("features\n\tr $\n", "line 2, column 4: '$' may not stand here; a name with such a character stands in quotes"),
    ("features\n\t\"r\n", "line 2, column 2: a text in \" \" begins here and doesn't end on its line"),
    ("features\n\tr /* x\n", "line 2, column 4: a comment begins here and doesn't end"),
    ("features\n\tr\n", "there is no constraint in it, so nothing can be given up; a list of wishes may be named behind it"),
    (OPENING + "c", "line 7, column 2: 'c' is no feature of this model"),
    (OPENING + "a &", "line 7, column 5: a feature, '!' or '(' is due here, and not the line's end"),
    (OPENING + "a b", "line 7, column 4: '&', '|', '=>', '<=>' or the end of the constraint is due here, and not 'b'"),
    (OPENING + "a => b => a", "line 7, column 9: '=>' stands twice: brackets say which comes first"),
    (OPENING + "(a", "line 7, column 2: this bracket is never closed"),
    (OPENING + "a)", "line 7, column 3: no bracket is open that ')' closes"),
    (OPENING + "a.price > 3",
     "line 7, column 2: 'a.price' is no feature of this model: attributes and other models are not read"),
    (OPENING + "a > b", "line 7, column 4: '>' is not read: arithmetic is not Boolean"),
    (OPENING + "a == 'x'", "line 7, column 4: '==' is not read: arithmetic is not Boolean"),
    (OPENING + "3 < 4", "line 7, column 2: numbers and texts in constraints are not read; features are"),
    (OPENING + "sum(price) < 4", "line 7, column 2: 'sum(..)' is not read; features are"),
    (OPENING + "a <= b", "line 7, column 4: '<=' is not read: arithmetic is not Boolean"),
    ("features\n\tr {constraint a}\nconstraints\n\tr\n", "line 2, column 16: 'a' is no feature of this model"),
)


class Refusals(unittest.TestCase):
    def test_what_is_not_read_is_told_with_its_place(self):
        for text, wanted in REFUSED:
            self.assertEqual(refusal(text), "m: " + wanted, text)

    def test_program_ends_as_all_tools_do(self):
        def run(*words, given=b""):
            return subprocess.run([sys.executable, os.path.join(TOOLS, "uvl.py"), *words], input=given, stdout=subprocess.PIPE,
                                  stderr=subprocess.PIPE)

        usage = b"\n    tools/uvl.py [--skip] MODEL.uvl [WISHES] [-o RULES]\n"
        missing = os.path.join(TOOLS, "no such file")
        for words, given, status, wanted in (
                ([], b"", 2, b"uvl.py: one model is wanted, and a list of wishes may be named" + usage),
                (["--skip", "-", "-"], b"", 2, b"uvl.py: MODEL and WISHES can't both come from standard input" + usage),
                (["--x"], b"", 2, b"uvl.py: '--x' is no option" + usage),
                ([missing], b"", 1, b"uvl.py: " + os.fsencode(missing) + b": No such file or directory\n"),
                (["-"], b"\xff", 1, b"uvl.py: -: line 1: the bytes are no UTF-8. "
                                    b"If they are Latin-1: iconv -f LATIN1 -t UTF-8 FILE > TEXT\n"),
                (["-"], b"p gcnf 1 1 1\n", 1, b"uvl.py: -: line 1, column 1: 'p' begins no section; one of namespace, "
                                             b"include, imports, features, constraints does\n"),
        ):
            ended = run(*words, given=given)
            self.assertEqual((ended.returncode, ended.stdout, ended.stderr), (status, b"", wanted), words)
        self.assertEqual(run("--help").returncode, 0)
        ended = run("-", given=b"features\r\n\tr\r\nconstraints\r\n\t!r\r\n")
        self.assertEqual((ended.returncode, ended.stdout, ended.stderr),
                         (0, b"[always]\n#: standard input:2\nr\n\n[!r]\n#: standard input:4\nnot r\n", b""))


if __name__ == "__main__":
    unittest.main()
