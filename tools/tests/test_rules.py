#!/usr/bin/env python3
"""Tests of language.py and gcnf.py: which clauses come of rules, and what is told of mistakes. All was worked out by hand."""
import os
import subprocess
import sys
import tempfile
import unittest
from unittest import mock

from places import EXAMPLES, TOOLS, TOP
from gmus_tools import command, limits
from gmus_tools.rules import language

OPERATOR = "here may come 'and', 'or', 'implies', 'iff', or the line's end"
OPERAND = "here may come a name, 'not', '(', 'at most', 'at least' or 'exactly'"
NAMES = "a name is letters, digits and any of _ - . + : = / ~ @; any other text stands in quotes"
LIST = "here may come ',' or the list's end; a formula that counts as one stands in brackets: (a or b)"
COUNT = "here may come ',' or the list's end; a list that is part of a formula stands in brackets: exactly one of (a, b)"
HEAD = "a rule begins with [NAME]"
SCREEN = "'screen' can't come here: a name with a blank in it stands in quotes, \"touch screen\""
TOGETHER = "'at most one of a, b' says that they exclude each other"
NO_ARITHMETIC = "there is no arithmetic but the weights of rules"
COMPARED = NO_ARITHMETIC + ". What is compared has a name of its own, such as "
WEIGHT, PREFERENCE = "a weight is a whole number from 1 to 1000000000", "a heading is [NAME], [NAME] weight 3 or [NAME] keep"
QUOTES = 'a name in quotes is "any text"'
# A line with | before the place, what is told of it, and what may come there.
MISTAKES = (
    ("a |implys b", "'implys' can't come here. Is 'implies' meant?", OPERATOR),
    ("a |-> b", "'->' can't come here. Is 'implies' meant?", OPERATOR),
    ("a |=> b", "'=>' can't come here. Is 'implies' meant?", OPERATOR),
    ("a-|>b", "a name has no '>' without quotes. Is 'a implies b' meant?", NAMES),
    ("a |<-> b", "'<->' can't come here. Is 'iff' meant?", OPERATOR),
    ("a |== b", "'==' can't come here. Is 'iff' meant?", OPERATOR),
    ("a |&& b", "'&&' can't come here. Is 'and' meant?", OPERATOR),
    ("|!a or b", "a name has no '!' without quotes. Is 'not a' meant?", NAMES),
    ("|~a or b", "a name doesn't begin with '~' without quotes. Is 'not a' meant?", NAMES),
    ("|! a", "'!' can't come here. Is 'not' meant?", OPERAND),
    ("a |xor b", "'xor' can't come here: 'exactly one of (a, b)' says this", OPERATOR),
    ("a |unless b", "'unless' can't come here: 'b implies a' says that a holds if b does", OPERATOR),
    ("if |a then b", "'a' can't come here: without 'if', 'a implies b' says that b holds if a does", OPERATOR),
    ("a |excludes b", "'excludes' can't come here: 'never a and b' says that not both hold", OPERATOR),
    ("a and b |mutually exclusive", "'mutually' can't come here: " + TOGETHER, OPERATOR),
    ("mutually |exclusive a, b", "'exclusive' can't come here: " + TOGETHER, OPERATOR),
    ("exclusive|: a, b", "a name doesn't end with ':' without quotes: " + TOGETHER, NAMES),
    ("between |1 and 2 of a, b, c",
     "'1' can't come here: 'at least 1 of (a, b) and at most 2 of (a, b)' says this", OPERATOR),
    ("price |<= 40000", "'<=' can't come here: " + COMPARED + "price_up_to_40000", OPERATOR),
    ("price|<=40000", "a name has no '<' without quotes: " + COMPARED + "price_up_to_40000", NAMES),
    ("x and price |≥ 3", "'≥' can't come here: " + COMPARED + "price_from_3", OPERATOR),
    ("price |= 1.5", "'=' can't come here: " + COMPARED + "price_is_1.5", OPERATOR),
    ("a |+ b + c <= 2", "'+' can't come here: 'at most 2 of a, b, c' says this", OPERATOR),
    ("2 |* a + b > 3", "'*' can't come here: " + NO_ARITHMETIC + ". What is compared has a name of its own", OPERATOR),
    ("a |< b", "'<' can't come here: " + NO_ARITHMETIC, OPERATOR),
    ("a |!= b", "'!=' can't come here: 'exactly one of (a, b)' says that one holds and the other doesn't", OPERATOR),
    ("price |1.5", "'1.5' can't come here: a name with a blank in it stands in quotes, \"price 1.5\", and " + NO_ARITHMETIC,
     OPERATOR),
    ("at most |1.5 of a, b", "a number is due in place of '1.5': what is counted is whole", "here may come 'one', or a number as 2"),
    ("nver |a and b", "'a' can't come here. Is 'never' meant in place of 'nver'?", OPERATOR),
    ("touch |screen implies glossy", SCREEN, OPERATOR),
    ("a|, b", "',' can't come here: commas stand in the lists of counts alone", "such as: at most one of a, b"),
    ("a or|", "a formula is due at the line's end", OPERAND),
    ("|and b", "'and' can't come here", OPERAND),
    ("a or |always", "'always' is no literal", "[always] is a line of its own; a name that is a keyword stands in quotes"),
    ("a or |never b", "'never' can't come here", "it begins a line, a bracket, or what is implied; else 'not' is the word"),
    ("never a |implies b", "'implies' can't come behind 'never ..'", "brackets say what is meant: never (..)"),
    ("a iff b |iff c", "'iff' stands twice", "brackets say which comes first: (a iff b) iff c"),
    ("a or |(b", "the bracket that begins here has no end", "at the line's end may come 'and', 'or', 'implies', 'iff' or ')'"),
    ("a or b|)", "')' can't come here: no bracket is open", OPERATOR),
    ("(a |b)", "'b' can't come here: a name with a blank in it stands in quotes, \"a b\"",
     "here may come 'and', 'or', 'implies', 'iff' or ')'"),
    ("one |of a, b", "'of' can't come here: a count begins with 'at most', 'at least' or 'exactly'", OPERATOR),
    ("at |mst one of a", "'mst' can't come here. Is 'most' meant?", OPERATOR),
    ("at most |two of a, b", "a number is due in place of 'two'. Is '2' meant?", "here may come 'one', or a number as 2"),
    ("exactly |of a, b", "a number is due in place of 'of'", "here may come 'one', or a number as 2"),
    ("at least 2 |a, b", "'of' is due in place of 'a'", "a count is 'at most 2 of a, b, c'"),
    ("exactly one of a, b |or c", "'or' can't come in a list", LIST),
    ("exactly 2 of a, b |implies c", "'implies' can't come in a list", COUNT),
    ("at most one of a, |at most 1 of b, c", "a count in a list needs brackets around its own list",
     "such as: at most one of (a, b)"),
    ("exactly one of a, b, |a", "a literal stands twice in this list", "each literal counts once"),
    ("a or b|.", "a name doesn't end with '.' without quotes", NAMES),
    ("a|: b", "a name doesn't end with ':' without quotes", NAMES),
    ("|\"touch screen", "the quote that begins here has no end", QUOTES),
    ("|“touch screen”", "a name has no '“' without quotes. A quote is written \"", NAMES),
    ('"a|\\n"', "'\\n' says nothing in a quoted name", 'in a quoted name stand \\" for " and \\\\ for \\'),
    ('a or |""', "nothing stands in these quotes", QUOTES),
    ("日本語 or (日本|; x)", "a name has no ';' without quotes", NAMES),
    ("touch |screen implies a!", SCREEN, OPERATOR),
    ("[x|", "no rule begins here: its ']' is missing", HEAD),
    ("[x]| a", "behind ']' stands nothing but a weight, 'keep' or a comment", "the lines of a rule stand below its [NAME], as in: [NAME] weight 3"),
    ("[x]| wieght 3", "behind ']' stands nothing but a weight, 'keep' or a comment. Is 'weight' meant?",
     "the lines of a rule stand below its [NAME], as in: [NAME] weight 3"),
    *((f"[x] weight |{number}", WEIGHT, PREFERENCE) for number in ("0", "1.5", "-1", "x", "1000000001", "9" * 30, "\u0663")),
    ("[x] weight|", WEIGHT, PREFERENCE),
    ("[x] weight |3 4", WEIGHT + ", and nothing stands behind it", PREFERENCE),
    ("[x] keep |weight 3", "a rule that is kept is never given up, so nothing stands behind 'keep'", PREFERENCE),
    ("[always]| weight 3", "[always] can't be given up, so it has no weight and no 'keep'", "it stands alone"),
    ("[Names]| keep", "[names] can't be given up, so it has no weight and no 'keep'", "it stands alone"),
    ("[| ]", "a rule without a name", HEAD),
    ("|[r]", "a rule 'r' stood before, in line 1", "each rule has a name of its own"),
)


def run(*words, given=b""):
    return subprocess.run([sys.executable, os.path.join(TOOLS, "gcnf.py"), *words], input=given,
                          stdout=subprocess.PIPE, stderr=subprocess.PIPE)


def clauses(*lines):
    """The clauses of a rule of these lines; variables are numbered as they come."""
    made = language.read("\n".join(["[r]", *lines]), "r")
    return [list(map(int, line.split()[1:-1])) for line in made.gcnf().split("\n") if line.startswith("{")]


def refusal(text):
    try:
        language.read(text, "f.rules")
    except command.Refused as why:
        return str(why)
    return None


class Clauses(unittest.TestCase):
    def test_lines_of_before_give_the_same_clauses(self):
        for line, wanted in (
                ("a implies b", [[-1, 2]]),
                ("not a implies not b", [[1, -2]]),
                ("a and b implies c or not d", [[-1, -2, 3, -4]]),
                ("at most one of a, b, c", [[-1, -2], [-1, -3], [-2, -3]]),
                ("at most one of a", []),
                ("at most one of a, not b", [[-1, 2]]),
                ("at most one of a, not a", [[-1, 1]]),
                ("exactly one of a, b", [[1, 2], [-1, -2]]),
                ("exactly one of a", [[1]]),
                ("never a and b", [[-1, -2]]),
                ("never a and not b and c", [[-1, 2, -3]]),
                ("a or not b", [[1, -2]]),
                ("a or a", [[1, 1]]),
                ("a implies a", [[-1, 1]]),
                ("  not   a # a comment", [[-1]]),
                ("a or b# a comment", [[1, 2]]),
                ("land or order", [[1, 2]]),
                ("größe.1 or x-2", [[1, 2]]),
                ("at or most or one or exactly or least", [[1, 2, 3, 4, 5]]),
                ("-a or .b or 3", [[1, 2, 3]]),
        ):
            self.assertEqual(clauses(line), wanted, line)

    def test_formulas_give_their_clauses(self):
        for line, wanted in (
                ("a and b", [[1], [2]]),
                ("not not a", [[1]]),
                ("not (a or b)", [[-1], [-2]]),
                ("a or b and c", [[1, 2], [1, 3]]),
                ("(a or b) and c", [[1, 2], [3]]),
                ("not a and b", [[-1], [2]]),
                ("a implies b implies c", [[-1, -2, 3]]),
                ("(a implies b) implies c", [[1, 3], [-2, 3]]),
                ("a or b implies c and d", [[-1, 3], [-1, 4], [-2, 3], [-2, 4]]),
                ("a implies b iff c", [[1, 3], [-2, 3], [-1, 2, -3]]),
                ("a iff b", [[-1, 2], [1, -2]]),
                ("a iff exactly one of b, c", [[-1, 2, 3], [-1, -2, -3], [1, -2, 3], [1, -3, 2]]),
                ("never a or b", [[-1], [-2]]),
                ("a implies never b and c", [[-1, -2, -3]]),
                ("at most 2 of a, b, c", [[-1, -2, -3]]),
                ("at least 2 of a, b, c", [[1, 2], [1, 3], [2, 3]]),
                ("at least one of (a, not b)", [[1, -2]]),
                ("exactly 2 of (a, b) implies c", [[-1, -2, 3]]),
                ("not at least one of a, b", [[-1], [-2]]),
                ("at most one of (a and b), c", [[-1, -2, -3]]),
                ("at most one of a, (at least one of b, c)", [[-1, -2], [-1, -3]]),
                ("at most 3 of a, b", []),
                ("at least 3 of a, b", [[]]),
                ("NOT a Or b", [[-1, 2]]),
                ("At Most ONE Of a, b", [[-1, -2]]),
        ):
            self.assertEqual(clauses(line), wanted, line)

    def test_names(self):
        for line, wanted in (
                ("libstdc++6 or python3:any or CONFIG_X=m", ["libstdc++6", "python3:any", "CONFIG_X=m"]),
                ("@scope/pkg or /usr/bin or 1.0~rc1 or numpy==1.2", ["@scope/pkg", "/usr/bin", "1.0~rc1", "numpy==1.2"]),
                ('"touch screen" or "c#" or "a \\"b\\" \\\\"', ["touch screen", "c#", 'a "b" \\']),
                ('"not" or "a" or a', ["not", "a"]),
                ("rock-and-roll or हिन्दी or 日本語", ["rock-and-roll", "हिन्दी", "日本語"]),
                ("exactly or at", ["exactly", "at"]),
        ):
            made = language.read(f"[r]\n{line}", "r")
            self.assertEqual(list(made.variables), wanted, line)
            again = language.read("[r]\n" + " or ".join(map(language.written, made.variables)), "r")
            self.assertEqual(again.variables, made.variables, line)

    def test_headings(self):
        for name, wanted in (("a", "[a]"), (" a \n b] ", "[a b]]"), ("C# or #2", "[C# or #2]"), ("always on", "[always on]"),
                             ("a # b", None), ("a] #", None), ("Always", None), ("NAMES", None), (" ", None)):
            if wanted:
                self.assertEqual(language.heading(name), wanted)
                self.assertEqual(language.read(f"{wanted}\nx", "r").names, ["", wanted[1:-1]])
            else:
                with self.assertRaisesRegex(command.Refused, "no rule can have the name", msg=name):
                    language.heading(name)

    def test_weights_and_rules_that_are_kept(self):
        text = "[a] weight 3  # dear\nx\n[b] KEEP\nnot x\n[c]\nx\n[C# or #2] Weight 1000000000\nx\n[d] weight 3]\nx\n[e] weight 1#\nx\n"
        made = language.read(text, "r")
        self.assertEqual((made.names[1:], made.weights[1:]), (["a", "b", "c", "C# or #2", "d] weight 3", "e"], [3, None, 1, 10 ** 9, 1, 1]))
        plain = language.read(text.replace(" weight 3  #", " #").replace(" KEEP", "").replace(" Weight 1000000000", "").replace(" weight 1#", "#"), "r")
        self.assertEqual([line for line in made.gcnf().split("\n") if not line.startswith(("c weight", "c keep"))], plain.gcnf().split("\n"))
        self.assertEqual([line for line in made.gcnf().split("\n") if line.startswith(("c group", "c weight", "c keep"))], [
            "c group 1 a", "c weight 1 3", "c group 2 b", "c keep 2", "c group 3 c", "c group 4 C# or #2", "c weight 4 1000000000",
            "c group 5 d] weight 3", "c group 6 e"])
        for name, weight, wanted in (("a", 3, "[a] weight 3"), ("a b", None, "[a b] keep"), ("a", 1, "[a]")):
            self.assertEqual(language.heading(name, weight), wanted)
        for weight in (0, 10 ** 10, 1.5, "x"):
            with self.assertRaisesRegex(command.Refused, "no rule can have the name 'a' and the weight"):
                language.heading("a", weight)

    def test_variables_are_numbered_as_they_come_and_keep_their_numbers(self):
        self.assertEqual(clauses("b or a", "never a and c"), [[1, 2], [-2, -3]])

    def test_file_has_header_names_rules_and_groups_in_order(self):
        text = "\ufeff[b]\ny\n[always]\nx implies y\r\n[a rule {1} 0]\n  not x  # never\n[ALWAYS]\nnot x\n[C# or #2]\n"
        text += "x or " * 3000 + "y"
        self.assertEqual(language.read(text, "r").gcnf(), f"""\
c variable 1 y
c variable 2 x
p gcnf 2 5 3
c rule 4 x implies y
{{0}} -2 1 0
c rule 8 not x
{{0}} -2 0
c group 1 b
c rule 2 y
{{1}} 1 0
c group 2 a rule {{1}} 0
c rule 6 not x
{{2}} -2 0
c group 3 C# or #2
c rule 10 {"x or " * 3000}y
{{3}} {"2 " * 3000}1 0
""")

    def test_lines_that_were_made_of_others_say_so(self):
        made = language.read("[always]\n#: a b.smt2:6\nx\n  # why\nnot y\n#:\nz\n#: w:x\nz\n#: c:d:7 \ny\n[r]\nx\n#: e:1\n[s]\nx", "r")
        self.assertEqual([line for line in made.gcnf().split("\n") if line.startswith(("c rule", "c from"))], [
            "c from 6 a b.smt2", "c rule 3 x", "c from 6 a b.smt2", "c rule 5 not y", "c rule 7 z", "c rule 9 z", "c from 7 c:d",
            "c rule 11 y", "c rule 13 x", "c rule 16 x"])

    def test_examples_are_what_the_tool_makes_of_their_rules(self):
        for name in sorted(os.listdir(EXAMPLES)):
            if name.endswith(".rules"):
                made = run(os.path.join(EXAMPLES, name))
                with open(os.path.join(EXAMPLES, name.replace(".rules", ".gcnf")), "rb") as example:
                    self.assertEqual((made.returncode, made.stdout), (0, example.read()), name)


class Mistakes(unittest.TestCase):
    def test_each_is_told_with_its_place_and_what_may_come(self):
        for marked, told, may in MISTAKES:
            line, before = marked.replace("|", "", 1), marked.partition("|")[0]
            blanks = " " * sum(2 if char in "日本語" else 1 for char in before)
            wanted = f"f.rules: line 3: {told}\n    {line}\n    {blanks}^\n  {may}"
            self.assertEqual(refusal(f"[r]\na\n{line}\n[end]\na"), wanted, marked)

    def test_texts_without_what_they_need(self):
        ask = "  below it comes what it asks for, such as: a implies b"
        none = "  a rule begins with [NAME], and below it comes what it asks for, such as: a implies b"
        for text, wanted in (
                ("a or b", "line 1: no rule begins before this line\n    a or b\n    ^\n  here may come [NAME], [always] or [names]"),
                ("p gmus 7\ns COMPLETE", "line 1: no rule begins before this line: this is a file of gmus, and no text of rules\n"
                                         "    p gmus 7\n    ^\n  here may come [NAME], [always] or [names]"),
                ("[a]\nx\n[b]\n# nothing\n\n[c]\nx", "line 3: the rule 'b' has no line\n" + ask),
                ("[a]\n[always]\nx", "line 1: the rule 'a' has no line\n" + ask),
                ("[a]\nx\n[b]\n", "line 3: the rule 'b' has no line\n" + ask),
                ("", "line 1: no rule stands in this text\n" + none),
                ("# nothing\n\n", "line 2: no rule stands in this text\n" + none),
                ("[always]\nx\n", "line 2: no rule stands in this text\n" + none),
                ("[ # ]", "line 1: no rule begins here: its ']' is missing\n    [ # ]\n     ^\n  a rule begins with [NAME]"),
        ):
            self.assertEqual(refusal(text), "f.rules: " + wanted, text)

    def test_a_long_line_is_shown_around_its_place(self):
        told = refusal("[r]\n" + "a or " * 2000 + "b\x1b c").split("\n")
        self.assertEqual(told[0], "f.rules: line 2: a name has no 'U+001B' without quotes")
        self.assertEqual((told[1][:7], told[1][-3:], told[2]), ("    .. ", "\ufffd c", " " * told[1].index("\ufffd") + "^"))
        self.assertLess(len(told[1]), 120)

    def test_limits_are_told_at_their_line(self):
        names = ", ".join(f"x{number}" for number in range(100))
        for name, limit, text, wanted in (
                ("VARIABLES", 3, "[r]\na or b or c\n\nd", "line 4: more than 3 variables"),
                ("VARIABLES", 150, f"[r]\nat most 50 of {names}", "line 2: more than 150 variables"),
                ("CLAUSES", 3, "[r]\nat most one of a, b, c\na", "line 3: more than 3 clauses"),
                ("LITERALS", 3, "[r]\na or b or c\na", "line 3: more than 3 literals"),
                ("GROUPS", 1, "[r]\na\n[s]\na", "line 3: more than 1 rules\n    [s]\n    ^"),
        ):
            with mock.patch.object(limits, name, limit):
                self.assertEqual(refusal(text), f"f.rules: {wanted}\n  docs/FORMATS.md has the limits of a file", text)

    def test_limits_are_those_of_the_documents(self):
        with open(os.path.join(TOP, "docs", "FORMATS.md"), encoding="utf-8") as formats:
            self.assertIn(f"At most {limits.VARIABLES:,} variables, {limits.CLAUSES:,} clauses, {limits.GROUPS:,} groups, "
                          f"{limits.LITERALS:,} literals in all clauses, and {limits.BYTES:,} bytes.", formats.read())

    def test_brackets_may_be_deep_but_not_too_deep(self):
        for deep, told in ((200, None), (201, "f.rules: line 2: more than 200 brackets stand in each other")):
            said = refusal("[r]\n" + "(a or not " * deep + "b" + ")" * deep)
            self.assertEqual(said and said.split("\n")[0], told)
        for nested in ("(a iff b or c and not at least 2 of d, e, {})",
                       "(not exactly 2 of a, (b iff {}), c, d, e, f, g, h, i)"):
            text = "x"
            for _ in range(200 // nested.count("(")):
                text = nested.format(text)
            self.assertIsNone(refusal("[r]\n" + text), nested)
        self.assertEqual(clauses("not " * 20_001 + "a"), [[-1]])
        self.assertEqual(clauses("a implies " * 5_000 + "b")[0][-1], 2)


class Notes(unittest.TestCase):
    def test_names_of_one_sign(self):
        others = "stand with one sign only: no clause with such a name is in any conflict"
        one = others.replace("stand", "stands", 1)
        for lines, wanted in (
                ("a implies b\nb implies a", []),
                ("a implies b\nnot b", [f"r: 1 name {one}"]),
                ("a iff b\nexactly one of a, b", []),
                ("at most one of a, b\nat least one of a, b", []),
                ("at most one of a, b", [f"r: 2 names {others}"]),
                ("not (a implies b)\nnever a and not b", []),
                ("touch implies glosy\nglossy or touch\nnot glossy",
                 ["r: line 2: 'glosy' stands with one sign only. Is 'glossy' meant?"]),
                ("touch implies glosy\nglossy and touch and x and y and not z",
                 ["r: line 2: 'glosy' stands with one sign only. Is 'glossy' meant?",
                  "r: line 3: 'glossy' stands with one sign only. Is 'glosy' meant?", f"r: 3 other names {others}"]),
                ("Touch-screen and not touch_screen and tuochscreen",
                 ["r: line 2: 'Touch-screen' stands with one sign only. Is 'touch_screen' meant?",
                  "r: line 2: 'touch_screen' stands with one sign only. Is 'Touch-screen' meant?",
                  "r: line 2: 'tuochscreen' stands with one sign only. Is 'Touch-screen' meant?"]),
                ("slot_11 and slot_12 and slot_1_2 and n:int and m:int and fan and fans", [f"r: 7 names {others}"]),
                ("x-on and X_on", ["r: line 2: 'x-on' stands with one sign only. Is 'X_on' meant?",
                                   "r: line 2: 'X_on' stands with one sign only. Is 'x-on' meant?"]),
                ("c# implies dotnet\nnot c",
                 ["r: line 2: '#' begins a comment, though it stands right behind 'c': a name with '#' stands in quotes"]),
                ("at least 3 of a, b\nnot a or not b", ["r: line 2: 3 of a list of 2 never hold"]),
        ):
            self.assertEqual(language.read(f"[r]\n{lines}", "r").notes(), wanted, lines)


class Alike(unittest.TestCase):
    """Names that look like others. The Cyrillic letters are written as such."""

    def test_rules_and_names_that_look_like_others(self):
        both = "f: line {}: {} differ by letters of two scripts that look alike, such as U+{}"
        for text, wanted in (
                ("[a]\nx iff y\n[A]\nx iff y", ["f: line 3: the rule 'A' and 'a' of line 1 differ in capitals alone"]),
                ("[a b]\nx iff y\n[a-b]\nx iff y", []),
                ("[\u0430]\nx iff y\n\n[a]\nx iff y", [both.format(4, "the rule 'a' and '\u0430' of line 1", "0430")]),
                ("[PAGE]\nx iff y\n[p\u0430ge]\nx iff y", [both.format(3, "the rule 'p\u0430ge' and 'PAGE' of line 1", "0430")]),
                ("[r]\npage iff x\nx iff p\u0430ge", [both.format(3, "'p\u0430ge' and 'page' of line 2", "0430")]),
                ("[r]\nA iff \u0391", [both.format(2, "'\u0391' and 'A' of line 2", "0391")]),
                ("[r]\ncafe\u0301 iff caf\u00e9", ["f: line 2: 'caf\u00e9' and 'cafe\u0301' of line 2 differ in how their letters are composed"]),
                ("[r]\np\u0430ge iff x", ["f: line 2: 'p\u0430ge' has letters of two scripts in one word, such as U+0430"]),
                ("[r]\nA iff a", []),
                ("[r]\n\u0446\u0435\u043d\u0430_max iff \u03bcm", []),
        ):
            self.assertEqual(language.read(text, "f").notes(), wanted, text)

    def test_a_letter_of_another_script_is_told_where_names_are_declared(self):
        told = refusal("[names]\npage\n[r]\np\u0430ge").split("\n")[0]
        self.assertEqual(told, "f.rules: line 4: 'p\u0430ge' is not declared under [names]; it and 'page' differ by letters of two "
                               "scripts that look alike, such as U+0430")


class Declared(unittest.TestCase):
    """Names that stand under [names]."""

    def test_a_declared_name_may_have_one_sign_and_changes_no_file(self):
        text = "[r]\na implies b\n[s]\na\n"
        for names in ("[names]\na, b\n", "[NAMES]   # all\na   # one\n\n\"b\",c\n", "[names]\nb, a, b\n[names]\n\"not\", a"):
            made = language.read(names + "\n" + text, "f")
            self.assertEqual((made.notes(), made.notes(True), list(made.variables)), ([], [], ["a", "b"]))
            plain = language.read("\n" * (names.count("\n") + 1) + text, "f").gcnf()
            self.assertEqual(made.gcnf(), plain)
        behind = language.read(text + "[names]\na, b", "f")
        self.assertEqual((behind.notes(), behind.gcnf()), ([], language.read(text, "f").gcnf()))
        self.assertEqual(len(language.read(text + "[names]\n# none\n", "f").notes(True)), 1)

    def test_an_undeclared_name_is_refused_at_each_first_place(self):
        may = "  under [names] stand all names that rules may have, with commas between"
        for text, told in (
                ("[names]\nglossy, touch\n[r]\ntouch implies glosy\nglosy", [
                    "f.rules: line 4: 'glosy' is not declared under [names]. Is 'glossy' meant?", "    touch implies glosy",
                    "                  ^", may]),
                ("[r]\nx or (\"y z\" and q)\n[names]\nx", [
                    "f.rules: line 2: 'y z' is not declared under [names]", '    x or ("y z" and q)', "          ^",
                    "f.rules: line 2: 'q' is not declared under [names]", '    x or ("y z" and q)', "                    ^", may]),
        ):
            self.assertEqual(refusal(text), "\n".join(told))
        many = refusal("[names]\nx\n[r]\n" + " or ".join(f"a{number}" for number in range(99))).split("\n")
        self.assertEqual((len(many), many[-2]), (20 * 3 + 2, "  and 79 more names"))

    def test_what_is_no_list_of_names(self):
        name, comma = "here may come a name; a keyword is one in quotes alone", "here may come ',' and another name, or the line's end"
        for marked, told, may in (("a |b", "'b' can't come here", comma), ("a, |or", "'or' can't come here", name),
                                  ("a,|", "the line's end can't come here", name), ("|, a", "',' can't come here", name),
                                  ("a |implies b", "'implies' can't come here", comma), ("a, b|.", "a name doesn't end with '.' without quotes", NAMES)):
            line, before = marked.replace("|", "", 1), marked.partition("|")[0]
            self.assertEqual(refusal(f"[names]\n{line}\n[r]\na"), f"f.rules: line 2: {told}\n    {line}\n    {' ' * len(before)}^\n  {may}", marked)
        self.assertEqual(language.read("[names]\na#b\n[r]\na", "f").notes(),
                         ["f: line 2: '#' begins a comment, though it stands right behind 'a': a name with '#' stands in quotes"])

    def test_each_example_holds_with_strict(self):
        for name in sorted(os.listdir(EXAMPLES)):
            if name.endswith(".rules"):
                with open(os.path.join(EXAMPLES, name), encoding="utf-8") as file:
                    self.assertEqual(language.read(file.read(), name).notes(True), [], name)


class Program(unittest.TestCase):
    def test_how_it_ends(self):
        usage = b"    tools/gcnf.py RULES [--strict] [-o FILE.gcnf]\n"
        with tempfile.TemporaryDirectory() as folder:
            for words, given, status, told in (
                    (["-"], b"[r]\na b\n", 1, b"gcnf.py: -: line 2: 'b' can't come here"),
                    (["-"], b"[r]\n# x\ngr\xf6\xdfe\n", 1, b"gcnf.py: -: line 3: the bytes are no UTF-8. "
                                                   b"If they are Latin-1: iconv -f LATIN1 -t UTF-8 FILE > TEXT\n"),
                    (["-"], b"\x7fELF\x02\x01\0\0\xff", 1, b"gcnf.py: -: line 1: the bytes are no UTF-8\n"),
                    (["-"], b"\0\0", 1, b"gcnf.py: -: line 1: "),
                    ([folder], b"", 1, f"gcnf.py: {folder}: Is a directory\n".encode()),
                    ([folder + "/none"], b"", 1, f"gcnf.py: {folder}/none: No such file or directory\n".encode()),
                    ([os.path.join(EXAMPLES, "laptop.gcnf")], b"", 1, b"gcnf.py: "),
                    ([], b"", 2, b"gcnf.py: one file of rules is wanted\n" + usage),
                    (["a", "b"], b"", 2, b"gcnf.py: one file of rules is wanted\n" + usage),
                    (["--lax", "a"], b"", 2, b"gcnf.py: what is --lax?\n" + usage),
                    (["--strict", "-"], b"[r]\nglosy\nglossy or\\\nb implies c".replace(b"\\\n", b" "), 1,
                     b"gcnf.py: -: line 2: 'glosy' stands with one sign only. Is 'glossy' meant?\n"
                     b"gcnf.py: -: line 3: 'glossy' stands with one sign only. Is 'glosy' meant?\n"
                     b"gcnf.py: -: line 3: 'b' stands with one sign only: no clause with it is in any conflict\n"
                     b"gcnf.py: -: line 3: 'c' stands with one sign only: no clause with it is in any conflict\n"
                     b"gcnf.py: -: with --strict this is refused; names that are meant so are declared under [names]\n"),
            ):
                ended = run(*words, given=given)
                self.assertEqual((ended.returncode, ended.stdout), (status, b""), words)
                self.assertTrue(ended.stderr.startswith(told), (words, ended.stderr))
                self.assertNotIn(b"Traceback", ended.stderr)

    def test_what_it_writes(self):
        file = b"c variable 1 a\np gcnf 1 2 1\nc group 1 r\nc rule 2 a and not a\n{1} 1 0\n{1} -1 0\n"
        for words, given, status, wanted, told in (
                (["-"], b"\xef\xbb\xbf[r]\r\na and not a\r\n", 0, file, b""),
                (["-", "--strict"], b"[r]\na and not a", 0, file, b""),
                (["-"], b"[r]\na\n", 0, b"c variable 1 a\np gcnf 1 1 1\nc group 1 r\nc rule 2 a\n{1} 1 0\n",
                 b"gcnf.py: -: 1 name stands with one sign only: no clause with such a name is in any conflict\n"),
        ):
            ended = run(*words, given=given)
            self.assertEqual((ended.returncode, ended.stdout, ended.stderr), (status, wanted, told), (words, given))
        self.assertTrue(run("--help").stdout.startswith(b"Writes a GCNF file from named rules.\n"))


if __name__ == "__main__":
    unittest.main()
