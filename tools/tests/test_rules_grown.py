#!/usr/bin/env python3
"""Tests of grown.py: an [always] that grew behind --after. A longer file has to have the sets of a fresh one."""
import itertools
import os
import random
import subprocess
import tempfile
import unittest

from places import TOP
from checks.trying import tried
from gmus_tools.command import Refused
from gmus_tools.rules import language
from gmus_tools.rules.after import Old
from gmus_tools.rules.grown import clashing_lines
from test_rules_clauses import can_hold

PROGRAM = os.environ.get("GMUS") or os.path.join(TOP, "crates", "gmus", "out", "gmus")
OLD = "[always]\nglossy or matte\ntouch implies glossy\n[a touch screen]\ntouch\n[a matte screen]\nmatte and not glossy\n"
PEN = "[a pen]\npen\n"
WAY_OUT = "  it can be a rule of its own, under [NAME]; a file that says this is made without --after, and carries nothing over"


def clashing(lines):
    """What the program finds, by trying: a smallest choice of lines that can't hold together."""
    for count in range(1, len(lines) + 1):
        for some in itertools.combinations(range(len(lines)), count):
            if not can_hold([clause for at in some for clause in lines[at]]):
                return list(some)
    return []


def longer(old, text, asked=clashing):
    return Old(language.read(old, "a.rules").gcnf() if old.startswith("[") else old, "a.gcnf").longer(language.read(text, "b.rules"), asked)


def sets_of(file):
    """The sets of rules that can be kept together, as names."""
    names, clauses = {}, []
    for line in file.split("\n")[:-1]:
        words = line.split(" ")
        if words[:2] == ["c", "group"]:
            names[int(words[2])] = " ".join(words[3:])
        elif words[0].startswith("{"):
            clauses.append((int(words[0][1:-1]), [int(word) for word in words[1:-1]]))
    found = set()
    for kept in itertools.product((False, True), repeat=len(names)):
        some = {0} | {group for group, is_kept in zip(sorted(names), kept) if is_kept}
        if can_hold([clause for group, clause in clauses if group in some]):
            found.add(frozenset(names[group] for group in some - {0}))
    return found


def refusal(old, text):
    try:
        longer(old, text)
    except Refused as why:
        return str(why)
    return None


def grown(*lines):
    """The old rules with these lines behind the first one of [always]."""
    return OLD.replace("touch implies", "".join(line + "\n" for line in lines) + "touch implies")


class Grown(unittest.TestCase):
    def test_what_came_stands_with_the_new_rules_that_need_it(self):
        text = grown("pen implies touch  # of course", "cap implies pen", "ink implies paper", "dust or not dust2")
        text += PEN + "[paper]\nnot paper\n[nothing new]\nnot touch\n"
        self.assertEqual(longer(OLD, text).split("\n")[3:], """\
c variable 4 pen
c variable 5 cap
c variable 6 ink
c variable 7 paper
c variable 8 dust
c variable 9 dust2
p gcnf 9 11 5
c rule 2 glossy or matte
{0} 1 2 0
c rule 7 touch implies glossy
{0} -3 1 0
c group 1 a touch screen
c rule 9 touch
{1} 3 0
c group 2 a matte screen
c rule 11 matte and not glossy
{2} 2 0
{2} -1 0
c group 3 a pen
c rule 13 pen
{3} 4 0
c always 3 pen implies touch
{3} -4 3 0
c always 4 cap implies pen
{3} -5 4 0
c group 4 paper
c rule 15 not paper
{4} -7 0
c always 5 ink implies paper
{4} -6 7 0
c group 5 nothing new
c rule 17 not touch
{5} -3 0
""".split("\n"))

    def test_it_grows_again(self):
        first = grown("pen implies touch", "dust or dust2") + PEN
        second = grown("pen implies touch", "dust or dust2", "ink implies pen and dust") + PEN + "[ink]\nink\n[no pen]\nnot pen\n"
        file = longer(longer(OLD, first), second)
        self.assertEqual(sets_of(file), sets_of(language.read(second, "b").gcnf()))
        ends = file.split("\n")
        # Ink needs a pen and dust, and by these what came before; who wants no pen needs what came with it.
        self.assertEqual([line for line in ends[ends.index("c group 4 ink"):] if not line.startswith("{")], [
            "c group 4 ink", "c rule 14 ink", "c always 3 pen implies touch", "c always 4 dust or dust2", "c always 5 ink implies pen and dust",
            "c group 5 no pen", "c rule 16 not pen", "c always 3 pen implies touch", ""])
        # With nothing that is new it stays as it is.
        self.assertEqual(longer(file, second), file)
        self.assertEqual(refusal(file, second.replace("pen implies touch\n", "")),
                         "a.gcnf: line 24: of [always] this is gone from b.rules\n"
                         "  a file that says this is made without --after, and carries nothing over")

    def test_what_new_names_alone_cannot_make_true_is_told(self):
        start = "b.rules: line 3: this line of [always] is not in a.gcnf, and new names alone can't make it "
        for lines, told in ((["touch implies matte"], "true"), (["matte or pen and glossy"], "true"), (["pen and not pen"], "true"),
                            (["pen or touch", "x", "matte implies not pen"], "and those of line 5 true together"),
                            (["x or y", "not x", "z", "y implies touch"], "and those of line 4, 6 true together")):
            self.assertEqual(refusal(OLD, grown(*lines) + PEN), start + told + "\n" + WAY_OUT, lines)

    def test_what_was_said_already_may_be_said_again(self):
        for lines in (["glossy or matte"], ["glossy or matte", "pen implies pen", "touch implies glossy"], []):
            made = longer(OLD, grown(*lines) + PEN)
            self.assertEqual(("c always" in made, made.count("{0}")), (len(lines) > 1, 2), lines)

    def test_lines_may_be_split_otherwise(self):
        old = "[always]\na and b\nc or a\n[r]\na\n"
        made = longer(old, "[always]\na\nx or a\nb\nc or a\n[r]\na\n[s]\nx\n")
        self.assertEqual([line for line in made.split("\n") if line[:1] == "{" or line.startswith("c always")],
                         ["{0} 1 0", "{0} 2 0", "{0} 3 1 0", "{1} 1 0", "{2} 4 0", "c always 3 x or a", "{2} 4 1 0"])
        # The first line of these could be the old one too, but then the others were not met.
        made = longer(old, "[always]\na\na and b\nc or a\n[r]\na\n")
        self.assertEqual([line for line in made.split("\n") if line[:3] in ("{0}", "c r")], [
            "c rule 3 a and b", "{0} 1 0", "{0} 2 0", "c rule 4 c or a", "{0} 3 1 0", "c rule 6 a"])

    def test_a_longer_file_has_the_sets_of_a_fresh_one(self):
        """By chance: it grows twice, with lines of [always] and rules over old names and new ones."""
        taken = 0
        for seed in range(int(os.environ.get("GMUS_TRIALS", 60))):
            draw = random.Random(seed)

            def formula(names, wanted=()):
                few = [*wanted, *draw.sample(names, draw.choice([1, 2, 2, 3]))]
                signed = [draw.choice(["", "not "]) + name for name in dict.fromkeys(few)]
                forms = [" or ".join(signed), f"({' and '.join(signed)}) or {signed[0]}"]
                if len(few) > 2:
                    forms.append(f"at most {draw.randint(0, 2)} of {', '.join(signed)}")
                    forms.append(f"{signed[0]} iff ({' or '.join(signed[1:])})")
                return draw.choice(forms)

            names, always, each = ["a", "b", "c"], [], []
            file = None
            for step, new in enumerate(([], ["p", "q"], ["s", "t"])):
                names = names + new
                always += [formula(names, [draw.choice(new)] if new and draw.random() < 0.9 else []) for _ in range(draw.randint(1, 3))]
                draw.shuffle(always) if not step else None
                each += [f"[rule {step} {at}]\n{formula(names)}\n{formula(names)}\n" for at in range(2)]
                text = "[always]\n" + "\n".join(always) + "\n" + "".join(each)
                fresh = language.read(text, "b.rules").gcnf()
                try:
                    file = longer(file, text) if file else fresh
                except Refused:
                    break
                self.assertEqual(sets_of(file), sets_of(fresh), (seed, text))
                taken += step
        self.assertGreater(taken, 10)

    @unittest.skipUnless(os.access(PROGRAM, os.X_OK), f"the program is not built: {PROGRAM}")
    def test_the_program_finds_what_can_hold(self):
        for lines, wanted in (([[[1], [2, 3]], [[-2]]], []), ([[[1]], [[2]], [[-1]]], [0, 2]), ([[[]]], [0]), ([[[1, 2]]], []),
                              ([[[1], [-1]], [[2]]], [0])):
            self.assertEqual(clashing_lines(lines), wanted)

    @unittest.skipUnless(os.access(PROGRAM, os.X_OK), f"the program is not built: {PROGRAM}")
    def test_the_command_and_what_is_carried_over(self):
        """The laptop with a longer catalogue, as RULES.md tells it: the report is that of a fresh file."""
        with open(os.path.join(TOP, "examples", "laptop_more.rules"), encoding="utf-8") as file:
            more = file.read()
        more = more.replace("budget implies not card\n", "budget implies not card\npen implies touch\nexactly one of ballpoint, pencil, nothing\npencil implies pen\n")
        more = more.replace("pen\npen implies touch\n", "pen\n") + "[a pencil]\npencil\n"
        with tempfile.TemporaryDirectory() as room:
            for name, text in (("more.rules", more), ("no.rules", more.replace("pencil implies pen", "pencil implies pen\ntouch implies matte"))):
                with open(os.path.join(room, name), "w", encoding="utf-8") as file:
                    file.write(text)
            old = os.path.join(TOP, "examples", "laptop.gcnf")
            self.assertEqual(tried("gcnf.py", "--after", old, "more.rules", "-o", "longer", room=room, GMUS=PROGRAM), (0, "", ""))
            self.assertEqual(tried("gcnf.py", "more.rules", "-o", "fresh", room=room), (0, "", ""))
            self.assertEqual(tried("gcnf.py", "--after", old, "no.rules", "-o", "no", room=room, GMUS=PROGRAM), (1, "", (
                f"gcnf.py: no.rules: line 12: this line of [always] is not in {old}, and new names alone can't make it true\n{WAY_OUT}\n")))

            def said(*words):
                return subprocess.run([PROGRAM, *words], cwd=room, stdout=subprocess.PIPE, check=True).stdout

            said("list", old, "--evidence", "evidence")
            carried = said("carry", old, "evidence", "longer")
            self.assertEqual(carried, said("list", "longer"))
            self.assertEqual(carried, said("list", "fresh"))
            shown = tried("names.py", "longer", given=carried, room=room)[1]
            self.assertIn("\nWhat came to [always] since stands with the rules that need it:\n  line 9, with a pen; a pencil: pen implies touch\n", shown)
            self.assertIn("  line 10, with a pen; a pencil: exactly one of ballpoint, pencil, nothing\n", shown)


if __name__ == "__main__":
    unittest.main()
