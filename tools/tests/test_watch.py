#!/usr/bin/env python3
"""Tests of watch.py over a made-up program, and over the built one if it is there."""
import os
import re
import shutil
import signal
import stat
import subprocess
import sys
import tempfile
import time
import unittest

from places import TOOLS, TOP
from gmus_tools.command import Refused, WrongWords
from gmus_tools.commands import watch

BUILT = os.environ.get("GMUS") or os.path.join(TOP, "crates", "gmus", "out", "gmus")

# It knows a problem of 50 conflicts, each of one group, and so of one correction. It notes its words, writes evidence of as many
# conflicts as the limit allows, beside its name as gmus does, and ends as gmus does, but at a limit with a status that it was told,
# or never.
FAKE = f"""#!{sys.executable} -SE
import os, re, sys, time
words = sys.argv[1:]
room = os.path.dirname(os.path.abspath(__file__))
open(room + "/calls", "a").write(re.sub(r"[0-9]+\\.new", "N.new", " ".join(words)).replace(room + "/", "") + "\\n")
value = lambda option: words[words.index(option) + 1]
limit = int(value("--limit"))
if "--resume" in words and not open(value("--resume")).read().endswith("e partial\\n"):
    print("gmus: evidence refused: line 1: 1 BadLine", file=sys.stderr)
    sys.exit(9)
told = dict(line.split("=") for line in open(room + "/told").read().split())
folder, last = os.path.split(value("--evidence"))
beside = os.path.join(folder, f".{{last}}.gmus-{{os.getpid()}}")
evidence = open(beside, "w")
evidence.write("p gmev 1 1 50 50\\n")
evidence.flush()
if told.get("hangs") == str(limit):
    print("begun", file=open(room + "/begun", "w"))
    time.sleep(60)
if told.get("fails") == str(limit):
    os.rename(beside, value("--evidence"))
    print("gmus: out of memory", file=sys.stderr)
    sys.exit(8)
found = min(limit, 50)
lines = [f"u {{group}} 0" for group in range(1, found + 1)]
spent = told.get("spends") == str(limit)
lines += [] if limit <= 50 or spent else [f"m {{' '.join(map(str, range(1, 51)))}} 0"]
evidence.write("".join(f"{{line}}\\nd 51 0 1 0\\nr 0 51\\nw 1 0\\n" for line in lines) + "e partial\\n")
evidence.close()
os.rename(beside, value("--evidence"))
print("\\n".join(["p gmus 50", "s PARTIAL" if limit <= 50 or spent else "s COMPLETE", *lines, f"e {{found}} {{len(lines) - found}}"]))
if spent:
    print("gmus: budget of 7 conflicts spent", file=sys.stderr)
    sys.exit(3)
if limit <= 50:
    print(f"gmus: limit of {{limit}} records reached", file=sys.stderr)
    sys.exit(4)
"""


class Room(unittest.TestCase):
    def setUp(self):
        self.room = os.path.realpath(tempfile.mkdtemp())
        self.addCleanup(shutil.rmtree, self.room)
        self.write("fake", FAKE)
        os.chmod(self.at("fake"), stat.S_IRWXU)
        self.write("told", "")
        self.write("f.gcnf", "c group 1 the <first> rule\np gcnf 1 50 50\n")

    def at(self, name):
        return os.path.join(self.room, name)

    def write(self, name, text):
        with open(self.at(name), "w") as file:
            file.write(text)

    def read(self, name):
        with open(self.at(name)) as file:
            return file.read()

    def start(self, *words, program=None):
        return subprocess.Popen([sys.executable, os.path.join(TOOLS, "watch.py"), *words], cwd=self.room,
                                env={**os.environ, "GMUS": program or self.at("fake")}, stdin=subprocess.DEVNULL,
                                stdout=subprocess.PIPE, stderr=subprocess.PIPE, universal_newlines=True)

    def watch(self, *words, program=None):
        child = self.start(*words, program=program)
        output, said = child.communicate(timeout=50)
        return child.returncode, output, said

    def files(self):
        return sorted(set(os.listdir(self.room)) - {"fake", "told", "calls", "begun", "f.gcnf"})


class Rounds(Room):
    def test_limits_double_and_each_round_goes_on_from_the_last(self):
        status, output, said = self.watch("f.gcnf", "--html", "page.html", "--", "--jobs", "2")
        self.assertEqual((status, said), (0, ""))
        self.assertEqual(self.read("calls"), "".join(f"list --limit {line} --jobs 2 -- f.gcnf\n" for line in (
            "20 --evidence f.gcnf.evidence.N.new", "40 --evidence f.gcnf.evidence.N.new --resume f.gcnf.evidence",
            "80 --evidence f.gcnf.evidence.N.new --resume f.gcnf.evidence")))
        self.assertEqual(self.files(), ["f.gcnf.evidence", "page.html"])
        for line in ("up to 20 sets, after ", "20 conflicts and 0 corrections were found.", "    new conflict: the <first> rule\n",
                     "    new conflict: group 2\n", "    and 17 more new conflicts\n", "    and 7 more new conflicts\n",
                     "50 conflicts and 1 correction. The report is complete: there are no others.", "f.gcnf.evidence has 51 sets."):
            self.assertIn(line, output)
        self.assertNotIn("To go on", output)
        page = re.sub("<[^>]*>", "", self.read("page.html"))
        self.assertTrue("50 conflicts and 1 correction. The report is complete" in page, "the page has other counts")

    def test_how_rounds_end(self):
        for told, words, wanted, limits, said, go_on in (
                ("", ["--limit", "30"], 4, [20, 30], "gmus: limit of 30 records reached\n", "-- --limit 60"),
                ("", ["--limit=15"], 4, [15], "gmus: limit of 15 records reached\n", "-- --limit 30"),
                ("spends=40", ["--conflicts", "7"], 3, [20, 40], "gmus: budget of 7 conflicts spent\n", "-- --conflicts 14"),
                ("fails=40", ["--evidence", "e"], 8, [20, 40], "gmus: out of memory\n", "-- --evidence e"),
        ):
            self.write("told", told)
            self.write("calls", "")
            status, output, errors = self.watch("f.gcnf", "--", *words)
            self.assertEqual((status, errors), (wanted, said), words)
            self.assertEqual([int(line.split()[2]) for line in self.read("calls").splitlines()], limits, words)
            self.assertTrue(output.endswith(f"To go on: {os.path.join(TOOLS, 'watch.py')} f.gcnf {go_on}\n"), output)
            evidence, = set(self.files())
            self.assertTrue(self.read(evidence).endswith("\ne partial\n"), words)
            os.remove(self.at(evidence))

    def test_it_goes_on_from_evidence_that_is_there(self):
        self.watch("f.gcnf", "--", "--limit", "40")
        self.write("calls", "")
        status, output, _ = self.watch("f.gcnf")
        self.assertEqual((status, self.read("calls")), (
            0, "list --limit 80 --evidence f.gcnf.evidence.N.new --resume f.gcnf.evidence -- f.gcnf\n"))
        self.assertIn("    and 7 more new conflicts\n", output)

    def test_refused_evidence_stays_as_it_is(self):
        for held in ("", "other", "u 1 0\n", "\xff\0"):
            self.write("f.gcnf.evidence", held)
            status, output, said = self.watch("f.gcnf")
            self.assertEqual((status, output), (9, ""), held)
            self.assertTrue(said.startswith("gmus: evidence refused: line 1: 1 BadLine\nwatch.py: f.gcnf.evidence was refused"), said)
            self.assertEqual((self.files(), self.read("f.gcnf.evidence")), (["f.gcnf.evidence"], held))

    def test_an_interrupt_ends_the_program_and_leaves_whole_evidence(self):
        for number, limit, left in ((signal.SIGINT, 40, ["f.gcnf.evidence"]), (signal.SIGTERM, 20, [])):
            self.write("told", f"hangs={limit}")
            child = self.start("f.gcnf")
            for _ in range(1000):
                if not os.path.exists(self.at("begun")):
                    time.sleep(0.02)
            child.send_signal(number)
            output, said = child.communicate(timeout=30)
            self.assertEqual((child.returncode, said, self.files()), (128 + number, "", left), number)
            self.assertTrue(output.endswith(f"To go on: {os.path.join(TOOLS, 'watch.py')} f.gcnf\n"), output)
            for name in left + ["begun"]:
                self.assertTrue(name == "begun" or self.read(name).endswith("\ne partial\n"))
                os.remove(self.at(name))

    def test_wrong_words_and_places(self):
        os.mkdir(self.at("folder"))
        file = self.at("f.gcnf")
        for words, kind, wanted in (
                ([], WrongWords, "a FILE has to be named"),
                (["--html"], WrongWords, "--html has nothing behind it"),
                (["a", "b"], WrongWords, "b can't stand here; words of gmus stand behind --"),
                (["a", "--jobs", "2"], WrongWords, "--jobs can't stand here; words of gmus stand behind --"),
                (["a", "--", "--resume", "e"], WrongWords, "--resume can't stand behind --: --jobs, --conflicts, --limit, --evidence, --focus may"),
                (["a", "--", "--jobs"], WrongWords, "--jobs has nothing behind it"),
                (["a", "--", "--limit", "0"], WrongWords, "--limit 0: a number from 1 to 1000000000 has to stand here"),
                (["a", "--", "--limit", "1", "--limit=2"], WrongWords, "--limit stands twice"),
                ([file, "--html", file], Refused, f"{file}, {file}.evidence, {file}: two of these are one file"),
                ([file, "--html", self.at("no/page")], Refused, f"{self.at('no/page')}: its folder is not there"),
                ([file, "--html", self.at("folder")], Refused, f"{self.at('folder')}: this is no plain file"),
                ([file, "--", "--evidence", "/dev/null"], Refused, "/dev/null: this is no plain file"),
                ([file, "--journal"], WrongWords, "--journal has nothing behind it"),
                ([file, "--once"], WrongWords, "--once is for --journal"),
                ([file, "--focus", "1"], WrongWords, "--focus stands before -- with --journal alone"),
                ([file, "--", "--focus", "1,"], WrongWords, "--focus 1,: numbers from 1 to 4294967295 have to stand here"),
                ([file, "--journal", "j", "--", "--jobs", "2"], WrongWords, "nothing is called with --journal"),
                ([file, "--journal", file], Refused, f"{file}, {file}: two of these are one file"),
                ([file, "--journal", "j", "--html", "j"], Refused, f"{file}, j, j: two of these are one file"),
        ):
            with self.assertRaises(kind, msg=words) as refused:
                watch.Words(words)
            self.assertTrue(str(refused.exception).startswith(wanted), (words, str(refused.exception)))
        status, output, said = self.watch()
        self.assertEqual((status, output), (2, ""))
        self.assertTrue(said.startswith("watch.py: a FILE has to be named\n    tools/watch.py FILE"), said)

    def test_a_program_that_is_not_there(self):
        status, output, said = self.watch("f.gcnf", program=self.at("no program"))
        self.assertEqual((status, output), (1, ""))
        self.assertTrue(said.startswith("watch.py: the program can't be started: "), said)


def frame(text):
    """An open gate and a text, whose length stands before it in eight bytes."""
    return b"\1" + len(text).to_bytes(8, "big") + text


class Journals(Room):
    """Journals are read; the program is never called."""

    # The clauses 1: x, 2: not x, 3: x, of the groups 1 to 3 of 50. Their conflicts are 1 2 and 2 3, their corrections 1 3 and 2.
    PROBLEM = "c group 1 the <first> rule\np gcnf 1 3 50\n{1} 1 0\n{2} -1 0\n{3} 1 0\n"
    FIRST = frame(b"u 1 2 0\nd 4 -2 -3 0 1 2 0\nr 0 4\nw 1 0\nw 2 1 0\n")
    SECOND = frame(b"m 2 0\nw 0 1 0\nd 4 -2 -3 0 1 2 0\nr 2 4\n")
    THIRD = frame(b"u 2 3 0\nd 4 -3 -4 0 3 2 0\nr 0 4\nw 2 1 0\nw 3 0\n")

    def setUp(self):
        super().setUp()
        self.write("f.gcnf", self.PROBLEM)

    def hold(self, held):
        with open(self.at("j"), "wb") as file:
            file.write(held)

    def test_whole_frames_alone_are_shown_once(self):
        whole = self.FIRST + self.SECOND
        for held, found in ((b"", "0 conflicts and 0 corrections"), (b"\0", "0 conflicts and 0 corrections"),
                            (b"\0u 1 0", "0 conflicts and 0 corrections"), (self.FIRST + b"\0", "1 conflict and 0 corrections"),
                            (whole + b"\0", "1 conflict and 1 correction"), (whole + b"\0" + self.THIRD, "1 conflict and 1 correction"),
                            (whole + b"\2", "1 conflict and 1 correction"), (whole + self.THIRD[:-1], "1 conflict and 1 correction"),
                            (whole + self.THIRD, "1 conflict and 1 correction"), (whole + b"\1", "1 conflict and 1 correction"),
                            (whole + b"\1" + b"\xff" * 8 + b"u 1 0\n\0", "1 conflict and 1 correction")):
            self.hold(held)
            status, output, said = self.watch("f.gcnf", "--journal", "j", "--once")
            self.assertEqual((status, said, output.split("\n")[0]), (0, "", found + " are there"), held)
            with open(self.at("j"), "rb") as file:
                self.assertEqual(file.read(), held)
        self.assertEqual(self.files(), ["j"])

    def test_names_and_the_page(self):
        self.hold(self.FIRST + self.THIRD + self.SECOND + frame(b"m 1 3 0\n") + b"\0")
        status, output, said = self.watch("f.gcnf", "--journal=j", "--once", "--html=page.html")
        self.assertEqual((status, said, output.split("\n")), (0, "", [
            "2 conflicts and 2 corrections are there", "    newest correction: the <first> rule; group 3", "    newest correction: group 2",
            "    newest conflict: group 2; group 3",
            "    in most conflicts: group 2 (2); the <first> rule (1); group 3 (1)", ""]))
        self.assertIn("What clashes in f.gcnf", self.read("page.html"))
        self.assertEqual(self.files(), ["j", "page.html"])

    def test_where_nothing_clashes_there_is_the_empty_correction(self):
        self.write("f.gcnf", "p gcnf 0 0 0\n")
        self.hold(frame(b"m 0\nw 0 0\n") + b"\0")
        self.assertEqual(self.watch("f.gcnf", "--journal", "j", "--once"), (
            0, "0 conflicts and 1 correction are there\n    newest correction: the empty one\n", ""))

    def test_what_is_no_journal_of_the_problem(self):
        no_record = f"at byte {len(self.FIRST)} it has what is no record of a journal"
        other = "the record at byte {} belongs to another problem, or to another focus: {}"
        for held, told in (
                *((self.FIRST + frame(text) + b"\0", no_record) for text in (b"", b"u 1 0", b"x 1 0\n", b"u 01 0\n", b"e partial\n")),
                (self.FIRST + frame(b"u 51 0\n") + b"\0", other.format(len(self.FIRST), "it has a group above 50")),
                (frame(b"u 1 2 0\nd 3 -2 -3 0 1 2 0\nr 0 3\nw 1 0\nw 2 1 0\n") + b"\0", other.format(0, "by f.gcnf, line 2: 14 IdNotRising")),
                (frame(b"u 1 3 0\nd 4 -2 -4 0 1 3 0\nr 0 4\nw 1 0\nw 3 1 0\n") + b"\0", other.format(0, "by f.gcnf, line 2: 12 NotFalse")),
                (self.SECOND + self.FIRST + self.SECOND + b"\0",
                 f"the record at byte {len(self.SECOND + self.FIRST)} has a set that stood before, as in no journal of one problem"),
                (b"u 1 2 0\n", "this is no journal: its first byte is neither 0 nor 1"),
                (b"\2", "this is no journal: its first byte is neither 0 nor 1"),
        ):
            self.hold(held)
            status, output, said = self.watch("f.gcnf", "--journal", "j", "--once")
            self.assertEqual((status, output, said), (1, "", f"watch.py: j: {told}\n"), held)
        status, output, said = self.watch("f.gcnf", "--journal", "none", "--once")
        self.assertEqual((status, output, said), (1, "", "watch.py: none: No such file or directory\n"))

    def test_a_journal_of_some_groups(self):
        # Without group 1 the clauses are two, so step 3 is behind them.
        self.hold(frame(b"u 2 3 0\nd 3 -3 -4 0 2 1 0\nr 0 3\nw 2 1 0\nw 3 0\n") + b"\0")
        self.assertEqual(self.watch("f.gcnf", "--journal", "j", "--once")[0], 1)
        status, output, said = self.watch("f.gcnf", "--journal", "j", "--once", "--focus", "3,2", "--html", "page")
        self.assertEqual((status, said, output.split("\n")[1]), (0, "", "    newest conflict: group 2; group 3"))
        self.assertIn("48 rules are left out by --focus.", self.read("page"))

    def test_it_follows_until_an_interrupt(self):
        child = self.start("f.gcnf", "--journal", "j")
        lines = iter(child.stdout.readline, "")
        time.sleep(0.5)
        self.hold(self.FIRST + b"\0")
        self.assertEqual(next(lines), "1 conflict and 0 corrections are there\n")
        began = time.monotonic()
        with open(self.at("j"), "r+b") as file:
            file.seek(len(self.FIRST) + 1)
            file.write(self.SECOND[1:] + b"\0")
            file.flush()
            file.seek(len(self.FIRST))
            file.write(b"\1")
        shown = [next(lines) for _ in range(4)]
        self.assertRegex(shown[2], r"^1 conflict and 1 correction, after [0-9.]+ s: [0-9]+ sets a minute\n$")
        self.assertEqual(shown[3], "    newest correction: group 2\n")
        # The time before there was a journal doesn't count.
        self.assertLess(float(shown[2].split()[6]), time.monotonic() - began + 0.1)
        self.hold(self.SECOND + b"\0")
        self.assertRegex([next(lines) for _ in range(2)][1], r"^0 conflicts and 1 correction, after ")
        child.send_signal(signal.SIGTERM)
        _, said = child.communicate(timeout=30)
        self.assertEqual((child.returncode, said), (143, ""))


@unittest.skipUnless(os.access(BUILT, os.X_OK), f"the program is not built: {BUILT}")
class Built(Room):
    def test_it_finds_all_sets_of_an_example(self):
        shutil.copy(os.path.join(TOP, "examples", "adder.gcnf"), self.at("f.gcnf"))
        self.assertEqual(self.watch("f.gcnf", "--", "--limit", "5", program=BUILT)[0], 4)
        status, output, said = self.watch("f.gcnf", program=BUILT)
        self.assertEqual((status, said), (0, ""))
        with open(os.path.join(TOP, "examples", "adder.report")) as report:
            wanted = report.read()
        checked = subprocess.run([BUILT, "check", "f.gcnf", "f.gcnf.evidence"], cwd=self.room, stdout=subprocess.PIPE)
        self.assertEqual((checked.returncode, checked.stdout.decode()), (0, wanted))

    def test_it_asks_about_some_groups(self):
        shutil.copy(os.path.join(TOP, "examples", "laptop.gcnf"), self.at("f.gcnf"))
        status, output, said = self.watch("f.gcnf", "--html", "page", "--", "--focus", "5,3,1", program=BUILT)
        self.assertEqual((status, said), (0, ""))
        self.assertIn("1 conflict and 2 corrections. The report is complete", output)
        self.assertIn("Left out by --focus: a matte screen; no fan;", self.read("page"))
        told = output.split("To read them: ")[1].strip()
        checked = subprocess.run(["sh", "-c", told], cwd=self.room, stdout=subprocess.PIPE, check=True).stdout.decode()
        self.assertIn("1.    a graphics card\n      the light case\n", checked)

    def test_what_it_refuses_is_told_by_its_own_line(self):
        for held, status, wanted in (("p gcnf x", 5, "gmus: input refused: 2 BadHeader"), (None, 6, "gmus: read fault on input")):
            os.remove(self.at("f.gcnf"))
            if held is not None:
                self.write("f.gcnf", held)
            ended, output, said = self.watch("f.gcnf", program=BUILT)
            self.assertEqual((ended, output), (status, ""), held)
            self.assertTrue(said.startswith(wanted), said)
            self.assertEqual(self.files(), [])


if __name__ == "__main__":
    unittest.main()
