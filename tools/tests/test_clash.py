#!/usr/bin/env python3
"""Tests of clash.py, over a program that answers as stored files do, and over the built one if it is there."""
import os
import shutil
import stat
import subprocess
import tempfile
import unittest

from places import EXAMPLES, TOP
from checks.trying import tried

PROGRAM = os.environ.get("GMUS") or os.path.join(TOP, "crates", "gmus", "out", "gmus")
# It writes the stored report and evidence of the first example, or ends as it is told to.
FAKE = f"""#!/bin/sh
for word; do
    case $word in --evidence=*) cp "{EXAMPLES}/first.evidence" "${{word#--evidence=}}" ;; esac
done
[ ! -e ended ] || {{ cat ended >&2 && exit "$(cat status)"; }}
cat "{EXAMPLES}/first.report"
"""
FIRST = """\
What clashes in first.gcnf
==========================

2 conflicts and 3 corrections. The report is complete: there are no others.

Rules
-----

  no.  conflicts  corrections  name
    1          2            1  x holds
    2          1            2  x does not hold

2 more are left: --first 4 has all of them.

Conflicts
---------

Not all rules of a conflict can be kept. Without any one of them, its others can.

1.    x holds
          clause 1: 1
      x does not hold
          clause 2: not 1

2.    x holds
          clause 1: 1
      x implies y
          clause 3: not 1 or 2
      y does not hold
          clause 4: not 2

Corrections
-----------

Give up the rules of one correction, and all others fit together. No part of it is enough.

1.    Giving up x holds alone mends all.

2.    x does not hold
      x implies y

1 more is left: --first 3 has all of them.

Made of first.gcnf, SHA-256 6b60ae6468ab8bee.
"""
RULES = "[always]\nnever open and shut\n[the door is open]\nopen\n[the door is shut]\nshut\n[the light is on]\nlight or not light\n"


class Room(unittest.TestCase):
    def setUp(self):
        self.room = os.path.realpath(tempfile.mkdtemp())
        self.addCleanup(shutil.rmtree, self.room)
        shutil.copy(os.path.join(EXAMPLES, "first.gcnf"), self.room)
        self.write("fake", FAKE)
        os.chmod(self.at("fake"), stat.S_IRWXU)

    def at(self, name):
        return os.path.join(self.room, name)

    def write(self, name, text):
        with open(self.at(name), "w", encoding="utf-8") as file:
            file.write(text)

    def read(self, name):
        with open(self.at(name), encoding="utf-8") as file:
            return file.read()

    def clash(self, *words, program=None, given=""):
        return tried("clash.py", *words, given=given, room=self.room, GMUS=program or self.at("fake"))


class Clash(Room):
    def test_it_tells_the_rules_the_conflicts_with_their_lines_and_the_corrections(self):
        self.assertEqual(self.clash("first.gcnf", "--first", "2"), (0, FIRST, ""))

    def test_what_it_keeps(self):
        status, output, said = self.clash("--html=page", "first.gcnf", "--evidence", "kept", "-o", "text", "--first=2")
        self.assertEqual((status, output, said, self.read("text")), (0, "", "", FIRST))
        with open(os.path.join(EXAMPLES, "first.evidence"), encoding="utf-8") as file:
            self.assertEqual(self.read("kept"), file.read())
        page = self.read("page")
        self.assertIn("<title>What clashes in first.gcnf</title>", page)
        self.assertIn("<dd>clause 3: not 1 or 2</dd>", page)
        self.assertIn("Made of first.gcnf, SHA-256 6b60ae6468ab8bee.", page)

    def test_a_clash_fails_if_it_is_asked_to(self):
        self.assertEqual(self.clash("first.gcnf", "--first", "2", "--fail-on-conflict"), (3, FIRST, ""))

    def test_what_is_told_of_rules(self):
        self.write("rules", "[r]\nglosy\nglossy\n")
        told = ("clash.py: rules: line 2: 'glosy' stands with one sign only. Is 'glossy' meant?\n"
                "clash.py: rules: line 3: 'glossy' stands with one sign only. Is 'glosy' meant?\n")
        self.assertEqual(self.clash("rules", "--strict"), (1, "", told + "clash.py: rules: with --strict this is refused; names that are "
                                                                         "meant so are declared under [names]\n"))
        self.assertEqual(self.clash("-", given="[r]\nx y\n"), (1, "", """\
clash.py: -: line 2: 'y' can't come here: a name with a blank in it stands in quotes, "x y"
    x y
      ^
  here may come 'and', 'or', 'implies', 'iff', or the line's end
"""))

    def test_how_the_program_ends_is_told_with_its_reason(self):
        for status, line, wanted in (
                (5, "input refused: 5 GroupTooBig at line 2 byte 2", "input refused: 5 GroupTooBig at line 2 byte 2: a group is above the header's"),
                (8, "out of memory", "out of memory: there is not enough memory"), (77, "it fell", "it fell"),
                # what the second line says stands for the reason
                (6, "read fault on input\n  f: Permission denied (os error 13)", "read fault on input: f: Permission denied (os error 13)"),
                (7, "write fault on evidence\n  e: No space left on device (os error 28)",
                 "write fault on evidence: e: No space left on device (os error 28)")):
            self.write("ended", f"gmus: {line}\n")
            self.write("status", str(status))
            self.assertEqual(self.clash("first.gcnf", "--html", "page", "-o", "text"), (1, "", f"clash.py: gmus: {wanted}\n"))
        self.assertEqual(set(os.listdir(self.room)), {"first.gcnf", "fake", "ended", "status"})
        self.assertEqual(self.clash("first.gcnf", program=self.at("none"))[::2], (
            1, f"clash.py: gmus: the program can't be started: {self.at('none')}: No such file or directory: the program is not there, or "
               "could not be built\n"))

    def test_wrong_words_and_places(self):
        os.mkdir(self.at("folder"))
        for words, status, told in (
                ([], 2, "one file of rules is wanted"), (["a", "b"], 2, "one file of rules is wanted; for more, --pages or --junit has to stand here"), (["--what", "a"], 2, "--what is no option"),
                (["a", "--html"], 2, "--html has nothing behind it"), (["a", "--first", "x"], 2, "--first x: a number has to stand here"),
                (["a", "--jobs", "-1"], 2, "--jobs -1: a number has to stand here"), (["a", "--html=b", "--html=c"], 2, "--html stands twice"),
                *((["a", "--seconds", text], 2, f"--seconds {text}: a number above 0 has to stand here") for text in ("0", "0.0", "x", "-1", "1e3", "")),
                (["first.gcnf", "--jobs", "65"], 1, "gmus: jobs=65: a whole number from 1 to 64 is wanted: the words have no reading"),
                (["first.gcnf", "--html", "first.gcnf"], 1, "first.gcnf, first.gcnf: two of these are one file"),
                (["first.gcnf", "--html", "x", "-o", "./x"], 1, "first.gcnf, ./x, x: two of these are one file"),
                (["first.gcnf", "--evidence", "no/x"], 1, "no/x: its folder is not there"),
                (["first.gcnf", "--html", "folder"], 1, "folder: this is no plain file, and is left as it is"),
        ):
            ended, output, said = self.clash(*words)
            self.assertEqual((ended, output, said.split("\n")[0]), (status, "", "clash.py: " + told), words)


@unittest.skipUnless(os.access(PROGRAM, os.X_OK), f"the program is not built: {PROGRAM}")
class Built(Room):
    def test_rules(self):
        self.write("door.rules", RULES)
        status, output, said = self.clash("door.rules", "--evidence", "kept", "--jobs", "2", program=PROGRAM)
        self.assertEqual((status, said), (0, ""))
        self.assertIn("\n1.    the door is open\n          line 4: open\n      the door is shut\n          line 6: shut\n"
                      "      always\n          line 2: never open and shut\n", output)
        self.assertIn("\nIn none: the light is on.\n", output)
        made = tried("gcnf.py", "door.rules", "-o", "door.gcnf", room=self.room)
        checked = subprocess.run([PROGRAM, "check", "door.gcnf", "kept"], cwd=self.room, stdout=subprocess.PIPE, check=True)
        self.assertEqual((made, checked.stdout), ((0, "", ""), b"p gmus 3\ns COMPLETE\nu 1 2 0\nm 1 0\nm 2 0\ne 1 2\n"))
        self.write("fine.rules", RULES.replace("\nshut\n", "\nnot shut\n"))
        self.assertIn("Nothing clashes: all rules fit together.", self.clash("fine.rules", "--fail-on-conflict", program=PROGRAM)[1])

    def test_so_many_seconds(self):
        pairs = 15      # of names, each of which is wished and not wished: 32,768 corrections
        self.write("many.rules", "".join(f"[{at}]\nx{at}\n[not {at}]\nnot x{at}\n" for at in range(pairs)))
        status, output, said = self.clash("many.rules", "--seconds", "0.5", "--evidence", "kept", "--first", "1", program=PROGRAM)
        self.assertEqual((status, said), (0, "clash.py: timeout of 0.5 seconds\n"))
        self.assertIn("were found. The report is partial: there may be others.", output)
        self.assertTrue(self.read("kept").endswith("\ne partial\n"))


if __name__ == "__main__":
    unittest.main()
