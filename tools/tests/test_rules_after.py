#!/usr/bin/env python3
"""Tests of gcnf.py --after: what a longer file has, and what is refused."""
import itertools
import os
import random
import subprocess
import sys
import unittest

from places import TOOLS, TOP
from gmus_tools.command import Refused
from gmus_tools.rules import language
from gmus_tools.rules.after import Old

ALWAYS = "[always]\nglossy or matte\ntouch implies glossy\n"
TOUCH = "[a touch screen]\ntouch\n"
MATTE = "[a matte screen]\nmatte\nnot glossy\n"
# The first line is plain, the second defines variables.
FEW = "[few]\nnot (touch and pen)\nat most 2 of " + ", ".join(f"x{i}" for i in range(9)) + "\n"
NAMES = "[of new names]\npen implies rubber and not touch\n"
# Where each defines something, and names stand between.
MORE = "[more]\nat least 3 of " + ", ".join(f"y{i}" for i in range(9)) + "\nz or not touch\n"


def longer(old, text):
    return Old(language.read(old, "a.rules").gcnf() if old.startswith("[") else old, "a.gcnf").longer(language.read(text, "b.rules"))


def parts_of(file):
    """Of a file: its counts, its clauses with their groups, the numbers of names, and the names of groups."""
    counts, clauses, variables, groups = None, [], {}, []
    for line in file.split("\n")[:-1]:
        words = line.split(" ")
        if words[:2] == ["c", "variable"]:
            variables[" ".join(words[3:])] = int(words[2])
        elif words[:2] == ["c", "group"]:
            groups.append(" ".join(words[3:]))
        elif words[0] == "p":
            counts = tuple(map(int, words[2:]))
        elif words[0] != "c":
            clauses.append((int(words[0][1:-1]), [int(word) for word in words[1:-1]]))
    return counts, clauses, variables, groups


def says(file, names):
    """Of each named rule, and of the background, the assignments of the names that satisfy it, whatever else is defined."""
    (variables, _, groups), clauses, places, titles = parts_of(file)
    defined = [variable for variable in range(1, variables + 1) if variable not in places.values()]
    found = {}
    for group in range(groups + 1):
        own = [clause for number, clause in clauses if number == group]
        free = [variable for variable in defined if any(abs(literal) == variable for clause in own for literal in clause)]
        for values in itertools.product((False, True), repeat=len(names)):
            given = {places[name]: value for name, value in zip(names, values) if name in places}
            holds = any(all(any({**given, **dict(zip(free, more))}.get(abs(literal), False) == (literal > 0) for literal in clause)
                            for clause in own) for more in itertools.product((False, True), repeat=len(free)))
            found.setdefault(titles[group - 1] if group else "", []).append(holds)
    return found


class Longer(unittest.TestCase):
    def test_a_file_by_hand(self):
        old = "c variable 1 a\nc variable 2 b\np gcnf 3 3 1\nc rule 2 a or b\n{0} 1 2 0\nc group 1 one\nc rule 4 x\n{1} 3 0\n{1} -3 -1 0\n"
        found = Old(old, "a.gcnf")
        self.assertEqual((found.variables, found.names, found.header), ({"a": 1, "b": 2}, ["", "one"], (3, 3, 1)))
        self.assertEqual(longer("[always]\na or b\n[one]\nnot a\n", "[two]\nc or b\n\n[always]\na or b\n[one]\nnot a\n"), "\n".join([
            "c variable 1 a", "c variable 2 b", "c variable 3 c", "p gcnf 3 3 2", "c rule 5 a or b", "{0} 1 2 0",
            "c group 1 one", "c rule 7 not a", "{1} -1 0", "c group 2 two", "c rule 2 c or b", "{2} 3 2 0", ""]))

    def test_the_old_file_comes_first_and_new_rules_stand_in_new_groups(self):
        for old, new in (((ALWAYS, TOUCH), (MATTE,)), ((ALWAYS, TOUCH, FEW), (MATTE, NAMES, MORE)), ((TOUCH,), (FEW, MORE)),
                         ((ALWAYS, FEW, MORE), (NAMES,)), ((ALWAYS, MATTE), ())):
            before = parts_of(language.read("".join(old), "a").gcnf())
            for order in ([*old, *new], [*new, *old], [*old[::-1], *new]):
                text = "".join(order)
                file = longer("".join(old), text)
                after, fresh = parts_of(file), parts_of(language.read(text, "b").gcnf())
                self.assertEqual(after[0], fresh[0])
                self.assertEqual(after[1][:len(before[1])], before[1])
                self.assertTrue(all(group > before[0][2] for group, _ in after[1][len(before[1]):]))
                self.assertEqual({name: after[2][name] for name in before[2]}, before[2])
                self.assertEqual(len(set(after[2].values())), len(fresh[2]))
                self.assertEqual(after[3][:before[0][2]], before[3])
                self.assertEqual(sorted(after[3]), sorted(fresh[3]))
                # And once more behind it, with nothing that is new.
                self.assertEqual(longer(file, text), file)

    def test_it_says_what_a_fresh_file_says(self):
        chance = random.Random(1)
        names = ["a", "b", "c", "d", "e"]
        def formula():
            few = chance.sample(names, chance.choice([2, 3, 5]))
            return chance.choice([" or ".join(few), f"exactly 2 of {', '.join(few)}", f"({few[0]} iff not {few[1]}) implies {few[-1]}",
                                  f"not ({few[0]} and {few[1]})", few[0]])
        for _ in range(20):
            each = [f"[{number}]\n{formula()}\n{formula()}\n" for number in range(4)]
            old = "[always]\n" + formula() + "\n" + "".join(each[:2])
            text = old + "".join(each[2:])
            self.assertEqual(says(longer(old, text), names), says(language.read(text, "b").gcnf(), names), text)

    def test_what_is_written_otherwise_and_says_the_same(self):
        old = "[one]\na   implies b\nat least 3 of " + ", ".join(f"x{i}" for i in range(9)) + "\n"
        text = "# why\n[one]   # more\n" + old.split("\n")[1].replace("   ", " ") + "  # it\n" + old.split("\n")[2] + "\n[two]\na\n"
        self.assertIn("\nc rule 3 a implies b\n", longer(old, text))

    def test_weights_are_those_of_the_new_rules(self):
        old = "[one] weight 3\na\n[two] keep\nb\n"
        file = longer(old, "[one] keep\na\n[two]\nb\n[three] weight 7\nc\n")
        self.assertEqual([line for line in file.split("\n") if line.startswith(("c group", "c keep", "c weight"))],
                         ["c group 1 one", "c keep 1", "c group 2 two", "c group 3 three", "c weight 3 7"])
        self.assertIn("c weight 1 2\n", longer(file, "[one] weight 2\na\n[two]\nb\n[three]\nc\n"))
        for wrong in ("c weight 2 3", "c keep 0", "c weight 1 x", "c weight 1 0"):
            with self.assertRaises(Refused, msg=wrong):
                longer(file.replace("c keep 1", wrong), old)

    def test_where_lines_come_from_is_kept(self):
        old = "[always]\n#: p:3\na\n[one]\n#: p:4\nb\n"
        file = longer(old, old + "[two]\n#: p:7\nc\n")
        self.assertEqual([line for line in file.split("\n") if line.startswith(("c rule", "c from"))], [
            "c from 3 p", "c rule 3 a", "c from 4 p", "c rule 6 b", "c from 7 p", "c rule 9 c"])
        self.assertEqual(longer(file, old + "[two]\n#: p:7\nc\n"), file)

    def test_what_changed_or_is_gone_is_told_with_its_line(self):
        old = ALWAYS + TOUCH + MATTE
        for text, told in (
                (ALWAYS + TOUCH, ["a.gcnf: line 12: the rule 'a matte screen' is gone from b.rules"]),
                (ALWAYS + MATTE + "[other]\nx\n", ["a.gcnf: line 9: the rule 'a touch screen' is gone from b.rules"]),
                (ALWAYS + TOUCH.replace("\ntouch", "\nnot touch") + MATTE, ["b.rules: line 5: the rule 'a touch screen' is not as in a.gcnf"]),
                (ALWAYS + TOUCH + "pen\n" + MATTE, ["b.rules: line 6: the rule 'a touch screen' is not as in a.gcnf"]),
                (ALWAYS + TOUCH + MATTE.replace("not glossy\n", ""), ["a.gcnf: line 16: of the rule 'a matte screen' this is gone from b.rules"]),
                (TOUCH + MATTE, ["a.gcnf: line 6: of [always] this is gone from b.rules"]),
                (ALWAYS.replace("or matte", "or not matte") + "pen or touch\n" + TOUCH + MATTE, ["b.rules: line 2: [always] is not as in a.gcnf"]),
                ("[always]\nmatte or glossy\ntouch implies glossy\n" + TOUCH.replace("touch\n", "pen\n") + MATTE,
                 ["b.rules: line 2: [always] is not as in a.gcnf", "b.rules: line 5: the rule 'a touch screen' is not as in a.gcnf"]),
        ):
            with self.assertRaises(Refused) as refused:
                longer(old, text)
            self.assertEqual(str(refused.exception).split("\n")[:-1], told)

    def test_defined_variables_are_not_names(self):
        counted = "[one]\nat most 2 of " + ", ".join(f"x{i}" for i in range(9)) + "\n"
        file = language.read(counted, "a").gcnf()
        # A clause in which one defined variable stands for another, and one in which a name does.
        for before, after in ((" -10 ", " -11 "), (" -10 ", " -1 ")):
            changed = file.replace(before, after, 1)
            self.assertNotEqual(changed, file)
            with self.assertRaises(Refused):
                Old(changed, "a.gcnf").longer(language.read(counted + TOUCH, "b"))

    def test_files_that_were_not_made_from_rules(self):
        good = language.read(ALWAYS + TOUCH, "a").gcnf()
        lines = good.split("\n")
        at = next(place for place, line in enumerate(lines) if line.startswith("p "))
        for file, line in (("", 1), ("p cnf 1 1\n1 0\n", 1), (good.replace("{1} ", "{2} "), len(lines) - 1), (good + "{0} 1 0\n", len(lines)),
                           (good.replace("c group 1 a touch screen\n", ""), len(lines) - 2), (good + "x\n", len(lines)),
                           ("\n".join([*lines[:at], "p gcnf 3 9 1", *lines[at + 1:]]), len(lines) - 1), ("x\n" + good, 1),
                           ("c variable 3 touch\nc variable 3 pen\n" + "\n".join(lines[at:]), 3), (good + "{1} 9 0\n", len(lines)),
                           ("c variable 9 touch\n" + "\n".join(lines[at:]), 2), (good + "c group 3 x\n", len(lines))):
            with self.assertRaises(Refused, msg=file) as refused:
                Old(file, "a.gcnf")
            self.assertEqual(str(refused.exception), f"a.gcnf: line {line}: what stands here is in no file that gcnf.py makes", file)

    def test_the_command(self):
        def call(*words, given=""):
            ended = subprocess.run([sys.executable, os.path.join(TOOLS, "gcnf.py"), *words], input=given, stdout=subprocess.PIPE,
                                   stderr=subprocess.PIPE, universal_newlines=True, check=False)
            return ended.returncode, ended.stdout, ended.stderr
        example = os.path.join(TOP, "examples", "laptop")
        with open(example + ".gcnf") as file, open(example + ".rules") as text:
            made, held = file.read(), text.read()
        self.assertEqual(call("--after", example + ".gcnf", example + ".rules"), (0, made, ""))
        status, output, said = call(f"--after={example}.gcnf", "-", given=held + "\n[a pen]\npen implies touch\npen\n")
        self.assertEqual((status, said, parts_of(output)[1][:14]), (0, "", parts_of(made)[1]))
        self.assertEqual(parts_of(output)[1][14:], [(8, [-9, 3]), (8, [9])])
        self.assertEqual(call("--after", example + ".gcnf", "-", given=held.replace("[no fan]", "[fan]"))[:2], (1, ""))
        for words in (["--after"], ["a", "--after"], ["--after", "a"], ["--after", "-", "-"]):
            self.assertEqual(call(*words)[:2], (2, ""), words)


if __name__ == "__main__":
    unittest.main()
