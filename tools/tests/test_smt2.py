#!/usr/bin/env python3
"""Tests of smt2.py: python3 -m unittest discover -s tools/tests (nothing but Python 3.9 is needed)."""
import itertools
import os
import random
import subprocess
import sys
import unittest

from places import TOOLS, TOP
from gmus_tools import command, formulas
from gmus_tools.commands import smt2
from gmus_tools.rules import language
from oracles import brute_force

DECLARED = "(declare-const a Bool) (declare-const b Bool) (declare-fun c () Bool)\n"


def run(*words, given=b""):
    return subprocess.run([sys.executable, os.path.join(TOOLS, "smt2.py"), *words], input=given, stdout=subprocess.PIPE,
                          stderr=subprocess.PIPE)


def lines_of(text, **how):
    """The rules that come of a text, without comments and empty lines."""
    return [line for line in smt2.rules_of("f", text, **how).split("\n") if line and not line.startswith("#")]


def refusal(text, is_each=False, is_tracked=False):
    try:
        smt2.rules_of("f", text, is_each, is_tracked)
    except command.Refused as why:
        return str(why)
    return None


class Words(unittest.TestCase):
    def test_each_term_gives_its_lines(self):
        for term, wanted in (
                ("a", ["a"]),
                ("(not a)", ["not a"]),
                ("(not (not a))", ["a"]),
                ("(and a b)", ["a", "b"]),
                ("(and a (and b (not c)))", ["a", "b", "not c"]),
                ("(or a (not b) c)", ["a or not b or c"]),
                ("(or a (or b c))", ["a or b or c"]),
                ("(not (or a b))", ["not a", "not b"]),
                ("(not (and a b))", ["not (a and b)"]),
                ("(=> a b)", ["a implies b"]),
                ("(=> a b c)", ["a and b implies c"]),
                ("(=> a (=> b c))", ["a and b implies c"]),
                ("(=> (=> a b) c)", ["(a implies b) implies c"]),
                ("(=> a (and b c))", ["a implies b", "a implies c"]),
                ("(not (=> a b))", ["a", "not b"]),
                ("(=> (or a b) c)", ["a or b implies c"]),
                ("(= a b)", ["a iff b"]),
                ("(= a b c)", ["a iff b", "b iff c"]),
                ("(= a (and b c))", ["a iff (b and c)"]),
                ("(xor a b)", ["a iff not b"]),
                ("(xor a b c)", ["(a iff not b) iff not c"]),
                ("(distinct a b)", ["a iff not b"]),
                ("(distinct a b c)", ["a and not a"]),
                ("(ite a b c)", ["(a implies b) and (not a implies c)"]),
                ("(or (and a b) c)", ["(a and b) or c"]),
                ("(and a true)", ["a"]),
                ("(or a false)", ["a"]),
                ("(=> false a)", ["a or not a"]),
                ("(=> a false)", ["not a"]),
                ("(ite true a b)", ["a"]),
                ("(ite a true b)", ["a or b"]),
                ("(ite a b true)", ["a implies b"]),
                ("(= a true)", ["a"]),
                ("(= a false)", ["not a"]),
                ("(= a a)", ["a or not a"]),
                ("(xor a a)", ["a and not a"]),
                ("true", ["a or not a"]),
                ("false", ["a and not a"]),
                ("(let ((a b) (b a)) (=> a b))", ["b implies a"]),
                ("(let ((x a)) (let ((x (not x)) (y x)) (or x y)))", ["not a or a"]),
                ("|a|", ["a"]),
                ("(! (or a b) :named inner)", ["a or b"]),
                ("(f (not a) b)", ["not a or b"]),
                ("(or ; a comment )\n a\tb)", ["a or b"]),
                ("((_ at-most 1) a b c)", ["at most one of (a, b, c)"]),
                ("((_ at-least 2) a b (not c))", ["at least 2 of (a, b, not c)"]),
                ("(not ((_ at-least 2) a b c))", ["at most one of (a, b, c)"]),
                ("(not ((_ at-most 1) a b c))", ["at least 2 of (a, b, c)"]),
                ("((_ pble 1 1 1 1) a b c)", ["at most one of (a, b, c)"]),
                ("((_ pbge 2 1 1 1) a b c)", ["at least 2 of (a, b, c)"]),
                ("((_ pbeq 2 1 1 1) a b c)", ["exactly 2 of (a, b, c)"]),
                ("(not ((_ pbeq 1 1 1) a b))", ["not exactly one of (a, b)"]),
                ("(=> a ((_ at-most 1) a (and b c) c))", ["a implies at most one of (a, (b and c), c)"]),
                ("(or ((_ pbeq 1 1 1) b c) a)", ["exactly one of (b, c) or a"]),
                ("((_ at-most 2) a a b c)", ["at most 2 of (a, (a or a), b, c)"]),
                ("((_ at-most 2) a true b c)", ["at most one of (a, b, c)"]),
                ("((_ at-least 1) a b)", ["a or b"]),
                ("((_ at-most 0) a b)", ["not a", "not b"]),
                ("((_ at-most 2) a b)", ["a or not a"]),
                ("((_ pbge 99999999999999999999 1) a)", ["a and not a"]),
        ):
            text = DECLARED + "(define-fun f ((x Bool) (y Bool)) Bool (or x (and y y)))" + f"(assert (! {term} :named r))"
            self.assertEqual(lines_of(text), ["[r]", *wanted], term)

    def test_a_text_gives_its_rules_and_what_always_holds(self):
        text = """(set-logic QF_UF)(set-option :produce-unsat-cores true)(set-info :source |a
            text| ) (set-info :notes "a ""quoted"" text (")
            (declare-const |a b| Bool)
            (declare-const at Bool)
            (define-fun safe () Bool (and |a b| at))
            (assert (or |a b| at))
            (assert (! (=> safe later) :named |rule [1] # x|))
        """.replace("later", "(not at)") + """
            (assert (! safe :named always)) (assert (! safe :named |x # y|))
            (assert true)
            (assert (! true :named idle)) (check-sat) (get-unsat-core) (echo "x") (exit) this is not read"""
        self.assertEqual(smt2.rules_of("f", text), "\n".join((
            "[always]", "#: f:6", '"a b" or "at"', "# line 10 is true",
            "# names for what stands more than once, or would make a line too long", "#:", 'safe iff ("a b" and "at")', "",
            "[rule [1] \uff03 x]", "#: f:7", 'safe implies not "at"', "",
            "['always']", "#: f:9", "safe", "", "[x \uff03 y]", "#: f:9", "safe", "",
            "[idle]", "# line 11 is true", "#: f:11", '"a b" or not "a b"', "")))

    def test_the_page_tells_what_comes_of_a_text(self):
        with open(os.path.join(TOP, "docs", "IMPORT.md"), encoding="utf-8") as page:
            blocks = page.read().partition("tools/smt2.py\n\n")[2].split("```")
        given, wanted = (block.partition("text\n")[2] for block in (blocks[1], blocks[3]))
        self.assertEqual(smt2.rules_of("plan.smt2", given), wanted)

    def test_with_each_every_assertion_is_a_rule(self):
        made = smt2.rules_of("f", DECLARED + "(assert a)\n(assert (! b :named n))(assert c)", True)
        self.assertEqual([line for line in made.split("\n") if line.startswith("[")], ["[line 2]", "[n]", "[line 3]"])

    def test_tracked_assertions_are_rules(self):
        declared = DECLARED + "(declare-const t Bool) (declare-const u Bool)\n"
        text = declared + "(assert (=> t (and a b)))\n(assert (=> u (not a)))(assert (=> u c))\n(assert (=> a b))\n(assert (=> t true))"
        self.assertEqual(smt2.rules_of("f", text + "(check-sat-assuming (t u))", is_tracked=True), "\n".join((
            "[always]", "#: f:5", "a implies b", "", "[t]", "#: f:3", "a", "b", "# line 6 is true", "#: f:6", "a or not a", "",
            "[u]", "#: f:4", "not a", "#: f:4", "c", "")))
        self.assertEqual(lines_of(text + "(assert (! c :named n))"), [
            "[always]", "t implies a", "t implies b", "u implies not a", "u implies c", "a implies b", "[n]", "c"])
        # A constant that stands elsewhere tracks nothing, and neither does a term, or one that let binds.
        for more in ("(assert (! t :named n))", "(assert (! (let ((x t)) x) :named n))", "(define-fun g () Bool (not t)) (assert (! c :named n))"):
            self.assertIn("t implies a", lines_of(text + more, is_tracked=True), more)
        self.assertEqual(lines_of(declared + "(assert (! (let ((t a)) t) :named n)) (assert (=> t b)) (assert (=> (not u) b))", is_tracked=True),
                         ["[always]", "not u implies b", "[n]", "a", "[t]", "b"])
        self.assertEqual(lines_of(declared + "(assert_and_track a t) (assert-and-track (not a) new) (assert b)"),
                         ["[always]", "b", "[t]", "a", "[new]", "not a"])

    def test_what_is_no_tracker_is_told(self):
        start = "(declare-const p Bool) (declare-const t Bool)\n(assert (=> t p))\n"
        for more, wanted in (
                ("", "f: no assertion has a name, so nothing can be given up: each is (=> NAME TERM) with a NAME that stands nowhere else, "
                     "so let --tracked make a rule of each"),
                ("(assert p)", "f: no assertion has a name, so nothing can be given up: write (assert (! TERM :named NAME)), or let --each "
                               "make a rule of each assertion"),
                ("(assert_and_track p t) (assert t)", "f: line 3, column 21: 't' stands in other terms too, so it is not only a tracker"),
                ("(assert_and_track p and)", None), ("(assert_and_track p (p))", "f: line 3, column 21: '(p ..)' is no constant of the sort Bool"),
                ("(define-fun g () Bool p) (assert_and_track p g)", "f: line 3, column 46: 'g' is no constant of the sort Bool"),
                ("(check-sat-assuming (t))", "f: line 3, column 1: 'check-sat-assuming' is not read: assert what is assumed, under a name each"),
        ):
            self.assertEqual(refusal(start + more), wanted, more)
        for more, wanted in (
                ("(check-sat-assuming (t p))", "f: line 3, column 24: 'p' is assumed here, and no assertion is tracked by it alone"),
                ("(check-sat-assuming ((not t)))", "f: line 3, column 22: names alone can be assumed here, which track assertions"),
                ("(check-sat-assuming t)", "f: line 3, column 21: a list of what is assumed is due here, in brackets"),
        ):
            self.assertEqual(refusal(start + more, is_tracked=True), wanted, more)

    def test_each_name_is_told_as_rules_can_have_it(self):
        for name, literal, rule in (
                ("x", "x", "[x]"),
                ("libc6:any", "libc6:any", "[libc6:any]"),
                ("two words", '"two words"', "[two words]"),
                ("  two \n words ", '"two words"', "[two words]"),
                ("x.", '"x."', "[x.]"),
                ("NOT", '"NOT"', "[NOT]"),
                ("Always", '"Always"', "['Always']"),
                ("exactly", '"exactly"', "[exactly]"),
                ("", '"?"', "[?]"),
                ("#", '"#"', "[\uff03]"),
                ("x # y", '"x # y"', "[x \uff03 y]"),
                ("c#m", '"c#m"', "[c#m]"),
                ("x]", '"x]"', "[x]]"),
                ('say "x"', '"say \\"x\\""', '[say "x"]'),
                ("x\x07\u202ey", '"x\ufffd\ufffdy"', "[x\ufffd\ufffdy]"),
        ):
            made = lines_of(f"(declare-const |{name}| Bool) (assert (! |{name}| :named n)) (assert (! true :named |{name} |))")
            self.assertEqual([made[1], made[2]], [literal, rule], name)
            language.read("\n".join(made), "made")

    def test_names_that_would_be_one_are_told_apart(self):
        text = "(declare-const |a b| Bool) (declare-const |a  b| Bool) (assert (! (or |a b| |a  b|) :named |c d|))"
        self.assertEqual(lines_of(text + " (assert (! |a  b| :named |c\nd|))"),
                         ["[c d]", '"a b" or "a b (2)"', "[c d (2)]", '"a b (2)"'])

    def test_a_named_term_can_be_used_by_its_name(self):
        text = DECLARED + "(assert (! (or a b) :named n)) (assert (! (=> n c) :named m))"
        self.assertEqual(lines_of(text), ["[n]", "a or b", "[m]", "a or b implies c"])


INDEXED = "at-most, at-least, and pble, pbge, pbeq with weights 1, are"
REFUSED = (
    ("(assert a)", "line 2, column 9: 'a' is declared nowhere above"),
    ("(assert (or q (not r)))", "line 2, column 13: 'q' is declared nowhere above"),
    ("(push 1)", "line 2, column 1: 'push' is not read: write one file for each question"),
    ("(pop 1)", "line 2, column 1: 'pop' is not read: write one file for each question"),
    ("(check-sat-assuming (p))", "line 2, column 1: 'check-sat-assuming' is not read: assert what is assumed, under a name "
                                 "each"),
    ("(declare-sort S 0)", "line 2, column 1: 'declare-sort' is not read"),
    ("(declare-const x Int)", "line 2, column 18: the sort 'Int' is not read; only Bool is"),
    ("(declare-const x (Array Int Int))", "line 2, column 18: the sort '(Array ..)' is not read; only Bool is"),
    ("(declare-const x)", "line 2, column 1: this command is (declare-const NAME Bool)"),
    ("(declare-const let Bool)", "line 2, column 16: 'let' is no name"),
    ("(declare-const and Bool)", "line 2, column 16: 'and' has a meaning already"),
    ("(declare-const p Bool)", "line 2, column 16: 'p' has a meaning already"),
    ("(declare-fun g (Bool) Bool)", "line 2, column 16: only constants are read, so '()' is due here"),
    ("(declare-fun g () Real)", "line 2, column 19: the sort 'Real' is not read; only Bool is"),
    ("(define-fun g ((x Int)) Bool p)", "line 2, column 19: the sort 'Int' is not read; only Bool is"),
    ("(define-fun g (x) Bool p)", "line 2, column 16: a list of a name and a sort is due here, in brackets"),
    ("(define-fun g ((x Bool) (x Bool)) Bool p)", "line 2, column 26: the parameter 'x' stands twice"),
    ("(define-fun g () Bool g)", "line 2, column 23: 'g' is declared nowhere above"),
    ("(define-fun g ((x Bool)) Bool x) (assert g)", "line 2, column 42: 'g' takes 1 terms"),
    ("(define-fun g ((x Bool)) Bool x) (assert (g p p))", "line 2, column 42: 'g' takes 1 terms, and has 2"),
    ("(define-fun g ((x Bool)) Bool (! (not x) :named n))", "line 2, column 49: 'n' names a term with a parameter in it"),
    ("(define-fun-rec g () Bool p)", "line 2, column 1: 'define-fun-rec' is not read"),
    ("(assert (not p p))", "line 2, column 9: 'not' takes 1 terms, and has 2"),
    ("(assert (=> p))", "line 2, column 9: '=>' takes 2 or more terms, and has 1"),
    ("(assert (and))", "line 2, column 9: 'and' takes 1 or more terms, and has 0"),
    ("(assert ())", "line 2, column 9: a term is due here, and '()' is none"),
    ("(assert (p))", "line 2, column 10: 'p' takes no terms"),
    ("(assert (+ p p))", "line 2, column 10: '+' is no function of the Boolean part, and is defined nowhere above"),
    ("(assert (<= 1 2))", "line 2, column 10: '<=' is no function of the Boolean part, and is defined nowhere above"),
    ("(assert (= p 1))", "line 2, column 14: '1' is not Boolean"),
    ("(assert (= p #b1))", "line 2, column 14: '#b1' is not Boolean"),
    ('(assert "p")', "line 2, column 9: '\"p\"' is not Boolean"),
    ("(assert (forall ((x Bool)) x))", "line 2, column 9: 'forall' is not read"),
    ("(assert ((_ is p) p))", "line 2, column 10: '(_ is ..)' is not read: of operators with indices " + INDEXED),
    ("(assert ((_ +) p))", "line 2, column 10: '(_ + ..)' is not read: of operators with indices " + INDEXED),
    ("(assert (= p (_ bv1 32)))", "line 2, column 14: '(_ bv1 ..)' is not read"),
    ("(assert ((as p Bool) p))", "line 2, column 9: '(as ..)' is not read"),
    ("(assert ((_ at-most) p))", "line 2, column 10: whole numbers are due behind 'at-most' in its brackets"),
    ("(assert ((_ at-most 1.5) p))", "line 2, column 10: whole numbers are due behind 'at-most' in its brackets"),
    ("(assert ((_ at-most 1 2) p p))", "line 2, column 10: '(_ at-most ..)' has one number"),
    ("(assert ((_ at-least 1)))", "line 2, column 9: '(_ at-least ..)' takes 1 or more terms, and has 0"),
    ("(assert ((_ pble 2 1) p p))", "line 2, column 10: '(_ pble ..)' has a number, and a weight for each of its 2 terms"),
    ("(assert ((_ pbeq 2 1 3) p p))", "line 2, column 22: '(_ pbeq ..)' is read with weights 1 alone, and this one is 3"),
    ("(assert \u00b2)", "line 2, column 9: '\u00b2' may not stand here; a name with such a character stands in | |"),
    ("(assert \u0663x)", "line 2, column 9: '\u0663' may not stand here; a name with such a character stands in | |"),
    ("(assert (let () p))", "line 2, column 9: a let is (let ((NAME TERM) ..) TERM)"),
    ("(assert (let ((x p) (x p)) x))", "line 2, column 22: 'x' stands twice in this let"),
    ("(assert (let ((x p)) x) x)", "line 2, column 1: this command is (assert TERM)"),
    ("(assert (! p :weight 3))", "line 2, column 14: the attribute ':weight' is not read; only :named is"),
    ("(assert (! p :named))", "line 2, column 9: a term with a name is (! TERM :named NAME)"),
    ("(assert (! p :named n)) (assert (! p :named n))", "line 2, column 45: 'n' has a meaning already"),
    ("(assert p", "line 2, column 1: this bracket is never closed"),
    ("(assert p))", "line 2, column 11: this bracket closes nothing"),
    ("assert", "line 2, column 1: 'assert' stands outside of brackets; a command begins with '('"),
    ("()", "line 2, column 1: a command begins with its name"),
    ("(assert |p)", "line 2, column 9: a symbol in | | begins here and doesn't end"),
    ("(assert |p\\|)", "line 2, column 9: a symbol in | | may have no backslash"),
    ('(echo "p)', "line 2, column 7: a string begins here and doesn't end"),
    ("(assert ö)", "line 2, column 9: 'ö' may not stand here; a name with such a character stands in | |"),
    ("(assert 1p)", "line 2, column 9: '1p' is neither a number nor a symbol"),
    ("(check-sat now)", "line 2, column 12: 'check-sat' stands alone in its brackets"),
    ("(assert p)", "no assertion has a name, so nothing can be given up: write (assert (! TERM :named NAME)), or let --each "
                  "make a rule of each assertion"),
)


class Refusals(unittest.TestCase):
    def test_what_is_not_read_is_told_with_its_place(self):
        for text, wanted in REFUSED:
            self.assertEqual(refusal("(declare-const p Bool)\n" + text), "f: " + wanted, text)
        self.assertEqual(refusal("(check-sat)", True), "f: there is no assertion in it")

    def test_program_ends_as_all_tools_do(self):
        missing = os.path.join(TOOLS, "no such file")
        for words, given, status, wanted in (
                ([], b"", 2, b"smt2.py: one file is wanted\n    tools/smt2.py [--tracked] [--each] FILE.smt2 [-o RULES]\n"),
                (["-x"], b"", 2, b"smt2.py: '-x' is no option\n    tools/smt2.py [--tracked] [--each] FILE.smt2 [-o RULES]\n"),
                ([missing], b"", 1, b"smt2.py: " + os.fsencode(missing) + b": No such file or directory\n"),
                ([TOOLS], b"", 1, b"smt2.py: " + os.fsencode(TOOLS) + b": Is a directory\n"),
                (["-"], b"\xff", 1, b"smt2.py: -: line 1: the bytes are no UTF-8. "
                                    b"If they are Latin-1: iconv -f LATIN1 -t UTF-8 FILE > TEXT\n"),
                (["-"], b"\x00", 1, b"smt2.py: -: line 1, column 1: '\\x00' may not stand here; a name with such a character "
                                    b"stands in | |\n"),
        ):
            ended = run(*words, given=given)
            self.assertEqual((ended.returncode, ended.stdout), (status, b""), words)
            self.assertTrue(ended.stderr.startswith(wanted), ended.stderr)
        self.assertEqual(run("--help").returncode, 0)
        ended = run("-", given=b"(declare-const p Bool)(assert (! p :named n))")
        self.assertEqual((ended.returncode, ended.stdout, ended.stderr), (0, b"[n]\n#: standard input:1\np\n", b""))


def satisfiable(clauses):
    """By unit propagation and splitting, for small problems."""
    clauses = [set(clause) for clause in clauses]
    while clauses:
        shortest = min(clauses, key=len)
        if not shortest:
            return False
        if len(shortest) > 1:
            lit = next(iter(shortest))
            return any(satisfiable(clauses + [{it}]) for it in (lit, -lit))
        lit, = shortest
        clauses = [clause - {-lit} for clause in clauses if lit not in clause]
    return True


def kept_together(gcnf):
    """Of each set of groups, in a fixed order, whether they can all hold."""
    _, groups, clauses = brute_force.problem_of(gcnf.split("\n"))
    found = []
    for kept in itertools.product((False, True), repeat=groups):
        found.append(satisfiable([clause for group, clause in clauses if group == 0 or kept[group - 1]]))
    return found


class Random:
    """Terms at random, as text and as what they are for given values."""

    VARIABLES = "pqrs"

    def __init__(self, seed):
        self.dice = random.Random(seed)

    def term(self, depth, bound=()):
        """A term's text, and a call from values to its truth."""
        dice = self.dice
        if depth == 0 or dice.random() < 0.1:
            names = list(self.VARIABLES) + list(bound)
            name = dice.choice(names + ["true", "false"][:dice.random() < 0.1])
            return name, lambda values: name == "true" or name != "false" and values[name]
        kind = dice.choice(("not", "and", "or", "xor", "=>", "=", "distinct", "ite", "let", "f", *COUNTS))
        if kind == "let":
            return self.let(depth, bound)
        count = {"not": 1, "ite": 3, "f": 2}.get(kind) or dice.choice((2, 2, 3))
        parts = [self.term(depth - 1, bound) for _ in range(count)]
        if kind in COUNTS:
            number = dice.randint(0, count + 1)
            shown = f"(_ {kind} {number}{' 1' * count if kind.startswith('pb') else ''})"
            return (f"({shown} {' '.join(text for text, _ in parts)})",
                    lambda values: COUNTS[kind](sum(it(values) for _, it in parts), number))
        return f"({kind} {' '.join(text for text, _ in parts)})", lambda values: MEANING[kind]([it(values) for _, it in parts])

    def let(self, depth, bound):
        names = [f"x{self.dice.randrange(3)}"]
        values_of = [self.term(depth - 1, bound) for _ in names]
        body, meaning = self.term(depth - 1, (*bound, *names))
        pairs = " ".join(f"({name} {text})" for name, (text, _) in zip(names, values_of))
        return (f"(let ({pairs}) {body})",
                lambda values: meaning({**values, **{name: it(values) for name, (_, it) in zip(names, values_of)}}))


MEANING = {
    "not": lambda it: not it[0],
    "and": all,
    "or": any,
    "xor": lambda it: sum(it) % 2 == 1,
    "=>": lambda it: not all(it[:-1]) or it[-1],
    "=": lambda it: len(set(it)) == 1,
    "distinct": lambda it: len(set(it)) == len(it),
    "ite": lambda it: it[1] if it[0] else it[2],
    "f": lambda it: it[0] and not it[1],
}


COUNTS = {
    "at-most": lambda held, number: held <= number,
    "at-least": lambda held, number: held >= number,
    "pble": lambda held, number: held <= number,
    "pbge": lambda held, number: held >= number,
    "pbeq": lambda held, number: held == number,
}


class Meaning(unittest.TestCase):
    def test_rules_fit_together_where_the_terms_do(self):
        head = "".join(f"(declare-const {name} Bool)" for name in Random.VARIABLES)
        head += "(define-fun f ((x Bool) (y Bool)) Bool (and x (not y)))"
        usual = formulas.FEW_CLAUSES, formulas.FEW_LEAVES, formulas.DEEP
        try:
            for seed in range(int(os.environ.get("GMUS_TRIALS", 60))):
                # Small limits, so that there are definitions in small terms.
                formulas.FEW_CLAUSES, formulas.FEW_LEAVES, formulas.DEEP = (usual, (4, 2, 3), (2, 1, 1))[seed % 3]
                made = Random(seed)
                terms = [made.term(4) for _ in range(4)]
                text = head + f"(assert {terms[0][0]})"
                text += "".join(f"(assert (! {term} :named n{at}))" for at, (term, _) in enumerate(terms[1:]))
                truths = []
                for bits in itertools.product((False, True), repeat=len(Random.VARIABLES)):
                    truths.append([it(dict(zip(Random.VARIABLES, bits))) for _, it in terms])
                wanted = [any(all(it or not is_kept for it, is_kept in zip(truth, (True, *kept))) for truth in truths)
                          for kept in itertools.product((False, True), repeat=3)]
                found = kept_together(language.read(smt2.rules_of("f", text), "f").gcnf())
                self.assertEqual(found, wanted, (seed, text))
        finally:
            formulas.FEW_CLAUSES, formulas.FEW_LEAVES, formulas.DEEP = usual

    def test_what_is_deep_or_shared_stays_small(self):
        deep = 2_000
        for name, text, most in (
                ("not", "(not " * deep + "a" + ")" * deep, 100),
                ("or", "(or b " * deep + "a" + ")" * deep, 6 * deep),
                ("and in or", "(or b (and a " * deep + "c" + "))" * deep, 100 * deep),
                ("xor", "(xor b " * deep + "a" + ")" * deep, 100 * deep),
                ("ite", "(ite b a " * deep + "c" + ")" * deep, 100 * deep),
                ("let", "(let ((a (xor a b))) " * 200 + "a" + ")" * 200, 20_000),
                ("let twice", "(let ((a (ite (xor a b) (and a c) (or a b)))) " * 60 + "a" + ")" * 60, 20_000),
                ("wide", "(or " + "(and a b) (and b c) (xor a c) " * 50 + ")", 20_000),
        ):
            made = smt2.rules_of("f", DECLARED + f"(assert (! {text} :named n))")
            self.assertLess(len(made), most, name)

    def test_definitions_that_grow_without_end_are_refused(self):
        text = "(define-fun f0 ((x Bool) (y Bool)) Bool (xor x y))"
        for at in range(1, 40):
            text += f"\n(define-fun f{at} ((x Bool) (y Bool)) Bool (or (f{at - 1} (and x y) y) (f{at - 1} y (xor x y))))"
        usual, formulas.MOST_PARTS = formulas.MOST_PARTS, 10_000
        try:
            told = refusal(DECLARED + text)
        finally:
            formulas.MOST_PARTS = usual
        self.assertRegex(told, r"^f: line \d+, column \d+: what the definitions stand for has more than 10000 parts$")


if __name__ == "__main__":
    unittest.main()
