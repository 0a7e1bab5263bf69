#!/usr/bin/env python3
"""Tests of names.py: what it reads, and what it writes as text and as JSON. What is wanted was worked out by hand."""
import io
import json
import os
import pty
import subprocess
import sys
import tempfile
import unittest
from unittest import mock

from places import EXAMPLES, TOOLS, TOP
from gmus_tools import command, report
from gmus_tools.commands import names

# the first digits that sha256sum tells of a file of the one line p gcnf 0 0 0
SUM = "232ad4fa62ef48fe"
LAPTOP = os.path.join(EXAMPLES, "laptop.gcnf")
LAPTOP_REPORT = os.path.join(EXAMPLES, "laptop.report")


def run(*words, given=b""):
    """How the tool ends: its status, and what it writes to standard output and to standard error."""
    streams = [io.TextIOWrapper(io.BytesIO(held), encoding="utf-8", write_through=True) for held in (given, b"", b"")]
    with mock.patch.multiple(sys, argv=["names.py", *words], stdin=streams[0], stdout=streams[1], stderr=streams[2]):
        try:
            command.run("names.py", names.main, names.__doc__)
        except SystemExit as end:
            return end.code, streams[1].buffer.getvalue().decode(), streams[2].buffer.getvalue().decode()


def shown(text, problem="", file="t"):
    return report.Named(report.Report(text), report.Origin(problem, file))


class Reading(unittest.TestCase):
    def test_names_are_read_from_comments_alone(self):
        for text, wanted in (
                ("c group 7 a touch screen\n", {7: "a touch screen"}),
                (" \tc  group\t2   x  \r\n", {2: "x"}),
                ("c group 1 a\nc group 2 b\nc group 1 c\n", {1: "a c", 2: "b"}),
                ("c group 0 the catalogue\n", {0: "the catalogue"}),
                ("c group 007 agent\n", {7: "agent"}),
                ("c group 3\nc group x y\nc groups 3 y\ncgroup 3 y\nx group 3 y\nc 3: y\n", {}),
                (f"c group {'9' * 5000} y\n", {}),
                ("p gcnf 1 1 1 {1} 1 0 c group 1 behind a clause", {}),
                ("c group 1 red \x1b[31m\x07\u202e", {1: "red \ufffd[31m\ufffd\ufffd"}),
                ("p cnf 1 2\n1 0\nc group 2 the second clause\n-1 0\n", {2: "the second clause"}),
        ):
            self.assertEqual(report.read_problem(text)[0], wanted, text)

    def test_header_is_read_over_lines_and_comments(self):
        for text, wanted in (
                ("p gcnf 2 4 9\n", 9), ("c x\np gcnf\n2\n c y\n4 9{1} 1 0", 9), ("p gcnf 0 0 0", 0), ("p cnf 3 12\n1 0", 12),
                ("p cnf\n3\nc x\n12 1 -2 0", 12), ("p cnf 0 0", 0), ("p cnf 3 2{1}", 2), ("", None), ("p gcnf 1 1", None),
                ("p cnf 1", None), ("p gmus 3\ns COMPLETE\ne 0 0\n", None), ("q cnf 1 1", None), ("p gcnf 1 1 x", None),
                (f"p gcnf 1 1 {'9' * 5000}", None)):
            self.assertEqual(report.read_problem(text)[1], wanted, text)

    def test_reports_that_are_none_are_refused(self):
        for text, wanted in (
                ("", "there is none"),
                ("p gmus 1\ns COMPLETE\nm 0\n", "it is cut off"),
                ("p gmus 1\ns COMPLETE\nm 0\ne 0 1", "it is cut off"),
                ("p gmev 1\ns COMPLETE\nm 0\ne 0 1\n", "it is no report"),
                ("p gmus 1\ns WHOLE\nm 0\ne 0 1\n", "it is no report"),
                (f"p gmus {'9' * 5000}\ns COMPLETE\nm 0\ne 0 1\n", "it is no report"),
                ("p gmus 1\ns COMPLETE\nm 2 0\ne 0 1\n", "line 3 is no set"),
                ("p gmus 1\ns COMPLETE\nx 1 0\ne 0 1\n", "line 3 is no set"),
                ("p gmus 2\ns COMPLETE\nm 2 1 0\ne 0 1\n", "line 3 is no set"),
                ("p gmus 2\ns COMPLETE\nm 1 1 0\ne 0 1\n", "line 3 is no set"),
                (f"p gmus 1\ns COMPLETE\nm {'9' * 5000} 0\ne 0 1\n", "line 3 is no set"),
                ("p gmus 1\ns COMPLETE\nm 0\ne 1 1\n", "its last line"),
                ("p gmus 2\ns PARTIAL\nu 2 0\nu 1 0\ne 2 0\n", "line 4 stands out of order"),
                ("p gmus 2\ns PARTIAL\nu 1 2 0\nu 1 0\ne 2 0\n", "line 4 stands out of order"),
                ("p gmus 20\ns PARTIAL\nm 10 0\nm 9 0\ne 0 2\n", "line 4 stands out of order"),
                ("p gmus 2\ns PARTIAL\nm 1 0\nu 1 0\ne 1 1\n", "line 4 stands out of order"),
                ("p gmus 2\ns PARTIAL\nm 1 0\nm 1 0\ne 0 2\n", "line 4 stands there twice"),
                ("p gmus 1\ns PARTIAL\nu 0\nu 1 0\ne 2 0\n", "'u 0' stands beside other sets"),
                ("p gmus 1\ns COMPLETE\nu 0\nm 1 0\ne 1 1\n", "'u 0' stands beside other sets"),
                ("p gmus 1\ns COMPLETE\nu 0\nm 0\ne 1 1\n", "'u 0' stands beside other sets"),
                ("p gmus 1\ns PARTIAL\nm 0\nm 1 0\ne 0 2\n", "'m 0' stands beside other sets"),
                ("p gmus 1\ns COMPLETE\nu 1 0\nm 0\ne 1 1\n", "'m 0' stands beside other sets"),
                ("p gmus 1\ns COMPLETE\ne 0 0\n", "it is complete, and has no sets;"),
                ("p gmus 1\ns COMPLETE\nu 1 0\ne 1 0\n", "it is complete, and has no corrections;"),
                ("p gmus 1\ns COMPLETE\nm 1 0\ne 0 1\n", "it is complete, and has no conflicts;"),
        ):
            with self.assertRaises(command.Refused, msg=text) as refused:
                report.Report(text)
            self.assertTrue(str(refused.exception).startswith(wanted), str(refused.exception))


class Texts(unittest.TestCase):
    def test_rules_are_counted_and_the_telling_ones_come_first(self):
        with open(LAPTOP_REPORT) as file:
            counts = report.Report(file.read()).counts()
        self.assertEqual(counts, [
            (3, [3, 4]), (5, [2, 4]), (1, [1, 3]), (2, [1, 3]), (4, [1, 2]), (6, [1, 2]), (7, [1, 2])])

    def test_small_sets_come_first(self):
        made = shown("p gmus 3\ns COMPLETE\nu 1 2 3 0\nu 2 0\nm 1 2 0\nm 2 3 0\nm 3 0\ne 2 3\n")
        self.assertEqual((made.conflicts, made.corrections), ([[2], [1, 2, 3]], [[3], [1, 2], [2, 3]]))

    def test_text_has_names_and_what_the_report_says(self):
        for text, problem, wanted in (
                ("p gmus 2\ns COMPLETE\nu 1 0\nm 1 0\ne 1 1\n", "c group 1 the rule\n",
                 ["1 conflict and 1 correction. The report is complete: there are no others.",
                  "    1          1            1  the rule\n", "In none: group 2.",
                  "1.    the rule can't be kept, whatever else is given up.\n", "1.    Giving up the rule alone mends all.\n"]),
                ("p gmus 2\ns COMPLETE\nu 1 2 0\nm 1 0\nm 2 0\ne 1 2\n", "c group 1 a {} b\n",
                 ["1.    a {} b\n      group 2\n", "1.    Giving up a {} b alone mends all.\n\n2.    Giving up group 2 alone mends all.\n"]),
                ("p gmus 2\ns PARTIAL\ne 0 0\n", "", ["0 conflicts and 0 corrections were found. The report is partial",
                                                     "In none so far: group 1; group 2."]),
                ("p gmus 3\ns COMPLETE\nm 0\ne 0 1\n", "", ["=\n\nNothing clashes: all rules fit together.\n"]),
                ("p gmus 3\ns COMPLETE\nu 0\ne 1 0\n", "", ["=\n\nThe background clashes with itself, whatever is given up"]),
                ("p gmus 99\ns COMPLETE\nu 7 0\nm 7 0\ne 1 1\n", "", ["98 other rules are in none."]),
        ):
            made = names.as_text(shown(text, problem))
            for line in wanted:
                self.assertIn(line, made)

    def test_the_first_of_each_list(self):
        text = "p gmus 4\ns COMPLETE\n" + "".join(f"u {at} 0\n" for at in range(1, 5)) + "m 1 2 3 4 0\ne 4 1\n"
        for first, wanted, unwanted in (
                (1, ["    1          1            1  group 1\n\n3 more are left: --first 4 has all of them.\n\nConflicts\n",
                     "1.    group 1 can't be kept, whatever else is given up.\n\n3 more are left: --first 4 has all of them.\n\nCorr",
                     "1.    group 1\n      group 2\n      group 3\n      group 4\n"], ["group 2 can't"]),
                (0, ["name\n\n4 more are left", "\n\n1 more is left"], ["    1 "]),
                (4, ["4.    group 4 can't"], ["left"]), (None, ["4.    group 4 can't"], ["left"]),
        ):
            made = names.as_text(shown(text), first)
            self.assertEqual([line for line in wanted if line not in made], [], (first, made))
            self.assertEqual([line for line in unwanted if line in made], [], (first, made))

    def test_a_huge_number_has_all(self):
        report = os.path.join(EXAMPLES, "laptop.report")
        whole = run(LAPTOP, report)
        for number in ("7", "9" * 18, "1" + "0" * 18, "9" * 30, "9" * 5000, "0" * 5000 + "7"):
            self.assertEqual(run(LAPTOP, report, "--first", number), whole, number[:40])

    def test_json_has_these_keys_in_this_order(self):
        made = names.as_json(shown("p gmus 3\ns PARTIAL\nu 1 2 0\nu 3 0\nm 1 3 0\ne 2 1\n", "c group 1 \"ä\\b\"\nc group 0 all\n", "/a/b.gcnf"))
        self.assertEqual(json.loads(made, object_pairs_hook=lambda pairs: [list(pair) for pair in pairs]), [
            ["version", 1], ["file", "b.gcnf"], ["sha256", ""], ["focus", None], ["complete", False], ["groups", 3], ["names", [["0", "all"], ["1", "\"ä\\b\""]]],
            ["weights", []], ["keep", []], ["left_out", 0], ["sums", [2]], ["left", None], ["later", []], ["counts", [[["group", 1], ["conflicts", 1], ["corrections", 1]], [["group", 3], ["conflicts", 1], ["corrections", 1]],
                        [["group", 2], ["conflicts", 1], ["corrections", 0]]]],
            ["conflicts", [[3], [1, 2]]], ["corrections", [[1, 3]]]])

    def test_json_of_an_example_is_as_the_formats_have_it(self):
        with open(os.path.join(TOP, "docs", "FORMATS.md")) as file:
            wanted = file.read().partition("### The report as JSON")[2].partition("```text\n")[2].partition("```")[0]
        first = os.path.join(EXAMPLES, "first")
        self.assertEqual(run(first + ".gcnf", first + ".report", "--json"), (0, wanted, ""))

    def test_corrections_come_by_weight_and_what_is_kept_is_never_given_up(self):
        problem = "c group 1 a\nc weight 1 5\nc group 2 b\nc keep 2\nc weight 3 03\nc weight 4 1\np gcnf 1 1 4\n"
        found = shown("p gmus 4\ns COMPLETE\nu 1 2 0\nu 3 4 0\nm 1 3 0\nm 1 4 0\nm 2 3 0\nm 2 4 0\ne 2 4\n", problem)
        made = names.as_text(found)
        for wanted in ("2 conflicts and 4 corrections. The report is complete", "  no.  conflicts  corrections      weight  name\n    1          1            2           5  a\n"
                       "    2          1            2        keep  b\n", "No part of it is enough. The one of the least weight comes first.\n\n1.    a\n      group 4\n"
                       "      (weight 6)\n\n2.    a\n      group 3\n      (weight 8)\n\n2 corrections are left out: each gives up a rule that is to be kept.\n"):
            self.assertIn(wanted, made)
        self.assertIn("1.    a\n      b (to be kept)\n\n2.    group 3\n      group 4\n", made)
        data = json.loads(names.as_json(found))
        self.assertEqual([data[key] for key in ("weights", "keep", "left_out", "sums", "corrections")],
                         [{"1": 5, "3": 3}, [2], 2, [6, 8], [[1, 4], [1, 3]]])
        # Ones of equal weight come as they do without weights: those of few rules first.
        even = shown("p gmus 4\ns COMPLETE\nu 1 2 0\nu 1 3 0\nm 1 0\nm 2 3 0\ne 2 2\n", "c weight 1 2\np gcnf 1 1 4\n")
        self.assertEqual(even.corrections, [[1], [2, 3]])
        self.assertIn("1.    Giving up group 1 alone mends all.\n      (weight 2)\n\n2.    group 2\n      group 3\n      (weight 2)\n", names.as_text(even))

    def test_where_all_of_a_conflict_is_kept_nothing_mends_it(self):
        both = "c keep 1\nc keep 2\np gcnf 1 1 3\n"
        for text, told in (
                ("COMPLETE\nu 1 2 0\nm 1 0\nm 2 0\ne 1 2", ["All rules of conflict 1 are to be kept, so nothing mends it.",
                                                         "2 corrections are left out: each gives up a rule that is to be kept. There is no other."]),
                ("PARTIAL\nu 1 0\nu 2 0\nm 1 2 0\ne 2 1", ["All rules of the conflicts 1, 2 are to be kept, so nothing mends these.",
                                                       "1 correction is left out: it gives up a rule that is to be kept."]),
                ("PARTIAL\nu 1 3 0\ne 1 0", []), ("COMPLETE\nm 0\ne 0 1", []), ("COMPLETE\nu 0\ne 1 0", [])):
            found = shown(f"p gmus 3\ns {text}\n", both)
            self.assertEqual(list(found.kept_lines()), told)
            made = names.as_text(found)
            self.assertEqual([line for line in told if "\n\n" + line + "\n" not in made], [])
            self.assertNotIn("(weight", made)

    def test_what_is_left_out_by_a_focus_is_told_so(self):
        problem = "c group 2 a pen\nc group 4 ink\np gcnf 1 2 5\n"
        text = "p gmus 5\ns COMPLETE\nu 1 3 0\nm 1 0\nm 3 0\ne 1 2\n"
        found = report.named(report.Origin(problem, "f", focus={1, 3, 4, 9}), text)
        made = names.as_text(found)
        self.assertIn("\n\nIn none: ink.\n\nLeft out by --focus: a pen; group 5.\n\nConflicts\n", made)
        self.assertEqual(json.loads(names.as_json(found))["focus"], [1, 3, 4])
        self.assertNotIn("Left out", names.as_text(report.named(report.Origin(problem, "f", focus=set(range(1, 9))), text)))
        with self.assertRaises(command.Refused) as refused:
            report.named(report.Origin(problem, "f", focus={1, 2}), text)
        self.assertEqual(str(refused.exception), "the report can't be read: group 3 is in a set of it, and --focus leaves that group out")
        many = report.named(report.Origin("p gcnf 1 1 99\n", "f", focus={1}), "p gmus 99\ns COMPLETE\nm 0\ne 0 1\n")
        self.assertIn("\n\n98 rules are left out by --focus.\n", names.as_text(many))

    def test_what_came_to_always_is_told_with_its_rules(self):
        problem = ("c variable 1 x\np gcnf 2 5 3\n{0} 1 0\nc group 2 a pen\n{2} 2 0\nc always 3 x implies pen\n{2} -1 2 0\n"
                   "c always 4 never twice\n{2} 1 0\n{2} 2 0\nc group 3 ink\nc always 4 never twice\n{3} 1 0\n")
        made = shown("p gmus 3\ns COMPLETE\nm 0\ne 0 1\n", problem)
        self.assertTrue(names.as_text(made).endswith(
            "all rules fit together.\n\nWhat came to [always] since stands with the rules that need it:\n"
            "  line 3, with a pen: x implies pen\n  line 4, with a pen; ink: never twice\n"))
        self.assertEqual(json.loads(names.as_json(made))["later"], [
            {"line": 3, "text": "x implies pen", "groups": [2]}, {"line": 4, "text": "never twice", "groups": [2, 3]}])
        self.assertEqual(shown("p gmus 3\ns COMPLETE\nm 0\ne 0 1\n", problem.replace("c always", "c rule")).origin.later, {})

    def test_json_of_special_reports(self):
        for text, complete, conflicts, corrections in (
                ("p gmus 0\ns COMPLETE\nm 0\ne 0 1\n", True, [], [[]]), ("p gmus 1\ns COMPLETE\nu 0\ne 1 0\n", True, [[]], []),
                ("p gmus 1\ns PARTIAL\ne 0 0\n", False, [], [])):
            made = json.loads(names.as_json(shown(text)))
            self.assertEqual((made["complete"], made["conflicts"], made["corrections"]), (complete, conflicts, corrections), text)


class Program(unittest.TestCase):
    def setUp(self):
        room = tempfile.TemporaryDirectory()
        self.addCleanup(room.cleanup)
        self.room = room.name

    def file(self, name, held):
        path = os.path.join(self.room, name)
        with open(path, "wb") as file:
            file.write(held)
        return path

    def held(self, path):
        with open(path, encoding="utf-8") as file:
            return file.read()

    def test_program_reads_a_file_or_standard_input(self):
        with open(LAPTOP_REPORT, "rb") as file:
            given = file.read()
        by_name = run(LAPTOP, LAPTOP_REPORT)
        self.assertEqual((by_name[0], by_name[2]), (0, ""))
        self.assertEqual(by_name, run(LAPTOP, given=given))
        self.assertEqual(by_name, run(LAPTOP, "-", given=given))
        self.assertTrue(by_name[1].startswith("What clashes in laptop.gcnf\n"))
        self.assertIn("\n2.    a graphics card\n      no fan\n", by_name[1])
        self.assertTrue(run("--html", LAPTOP, LAPTOP_REPORT)[1].startswith("<!DOCTYPE html>\n"))
        self.assertTrue(run("--json", LAPTOP, LAPTOP_REPORT)[1].startswith('{\n"version": 1,\n'))

    def test_reasons_are_those_that_the_evidence_shows(self):
        first = os.path.join(EXAMPLES, "first")
        self.assertIn("1.    x holds\n          clause 1: 1\n      x does not hold\n          clause 2: not 1\n",
                      run(first + ".gcnf", first + ".report", "--evidence", first + ".evidence")[1])
        status, made, said = run(first + ".gcnf", first + ".report", "--html", "--why", first + ".evidence")
        self.assertEqual((status, said), (0, ""))
        data = json.loads(made.partition('id="data">')[2].partition("</script>")[0])
        told = [[[rule, [data["lines"][line] for line in lines]] for rule, lines in each] for each in data["reasons"]]
        self.assertEqual(told, [
            [["x holds", ["clause 1: 1"]], ["x does not hold", ["clause 2: not 1"]]],
            [["x holds", ["clause 1: 1"]], ["x implies y", ["clause 3: not 1 or 2"]], ["y does not hold", ["clause 4: not 2"]]]])

    def test_it_says_of_which_file_it_was_made(self):
        file = self.file("f.gcnf", b"p gcnf 0 0 0\n")
        given = b"p gmus 0\ns COMPLETE\nm 0\ne 0 1\n"
        self.assertEqual(run(file, given=given)[1].split("\n")[3:], [
            "Nothing clashes: all rules fit together.", "", f"Made of f.gcnf, SHA-256 {SUM}.", ""])
        self.assertEqual(json.loads(run(file, "--json", given=given)[1])["sha256"], SUM)
        self.assertIn(f'<footer class="pale">Made of f.gcnf, SHA-256 {SUM}.</footer>\n</body>', run(file, "--html", given=given)[1])
        roles = b"p roles 0\n"
        self.assertTrue(run(file, given=roles)[1].endswith(f"\n\nMade of f.gcnf, SHA-256 {SUM}.\n"))
        self.assertEqual(json.loads(run(file, "--json", given=roles)[1])["sha256"], SUM)
        self.assertIn(f"Made of f.gcnf, SHA-256 {SUM}.</footer>", run(file, "--html", given=roles)[1])

    def test_a_focus_on_the_command_line(self):
        first = os.path.join(EXAMPLES, "first")
        given = b"p gmus 4\ns COMPLETE\nu 1 2 0\nm 1 0\nm 2 0\ne 1 2\n"
        for words in (["--focus", "2,1"], ["--focus=1,2"]):
            status, made, said = run(first + ".gcnf", *words, given=given)
            self.assertEqual((status, said), (0, ""))
            self.assertIn("\nLeft out by --focus: x implies y; y does not hold.\n", made)
        for words, told in ((["--focus"], "--focus has nothing behind it"), (["--focus", "1", "--focus", "1"], "--focus stands twice"),
                            (["--focus", "0"], "--focus 0: numbers from 1 to 4294967295 have to stand here, with commas between them"),
                            (["--focus", "1, 2"], "--focus 1, 2: numbers from 1")):
            status, made, said = run(first + ".gcnf", *words, given=given)
            self.assertEqual((status, made, said.startswith("names.py: " + told)), (2, "", True), said)

    def test_bytes_that_are_no_text_are_marked(self):
        file = self.file("f", b"\xef\xbb\xbfc group 1 Gr\xfc\xdfe\np gcnf 1 1 1\n")
        self.assertIn("Giving up Gr\ufffd\ufffde alone", run(file, given=b"p gmus 1\ns COMPLETE\nu 1 0\nm 1 0\ne 1 1\n")[1])

    def test_a_clash_fails_if_it_is_asked_to(self):
        problem = self.file("f", b"p gcnf 1 1 1\n")
        for sets, status, said in (
                ("COMPLETE\nu 1 0\nm 1 0\ne 1 1", 3, ""), ("COMPLETE\nm 0\ne 0 1", 0, ""), ("COMPLETE\nu 0\ne 1 0", 3, ""),
                ("PARTIAL\nu 1 0\ne 1 0", 3, ""), ("PARTIAL\nm 1 0\ne 0 1", 3, ""), ("PARTIAL\nm 0\ne 0 1", 0, ""),
                ("PARTIAL\ne 0 0", 1, "names.py: whether something clashes is not known: the report is partial, and has no set\n"),
        ):
            given = f"p gmus 1\ns {sets}\n".encode()
            plain, failing = run(problem, given=given), run(problem, "--fail-on-conflict", given=given)
            self.assertEqual((plain[0], plain[2], failing[0], failing[2]), (0, "", status, said), sets)
            self.assertEqual(plain[1], failing[1], sets)
            path = os.path.join(self.room, "out")
            self.assertEqual((run(problem, "--fail-on-conflict", "-o", path, given=given)[0], plain[1]), (status, self.held(path)))

    def test_what_is_refused_is_told(self):
        other, folder = os.path.join(EXAMPLES, "first.report"), self.room
        garbage, packed = self.file("garbage", bytes(range(256)) * 9), self.file("packed", b"\x1f\x8b\x08")
        for words, status, wanted in (
                ([LAPTOP], 1, "names.py: the report can't be read: there is none: see what gmus wrote on standard error\n"),
                ([LAPTOP, other], 1, f"names.py: the report can't be read: it is of another file: {LAPTOP} has groups up to 7, and "
                                     "it has them up to 4\n"),
                ([LAPTOP_REPORT, LAPTOP], 1, f"names.py: {LAPTOP_REPORT}: it has no header 'p gcnf ..' or 'p cnf ..'\n"),
                ([LAPTOP, LAPTOP], 1, "names.py: the report can't be read: it is cut off, or is no report\n"),
                ([LAPTOP, garbage], 1, "names.py: the report can't be read: it is cut off, or is no report\n"),
                ([garbage, LAPTOP_REPORT], 1, f"names.py: {garbage}: it has no header 'p gcnf ..' or 'p cnf ..'\n"),
                ([packed, LAPTOP_REPORT], 1, f"names.py: {packed}: this is packed by gzip, and a text in UTF-8 is wanted: gzip -dc {packed} > TEXT\n"),
                ([LAPTOP, "no such file"], 1, "names.py: no such file: No such file or directory\n"),
                ([folder, LAPTOP_REPORT], 1, f"names.py: {folder}: Is a directory\n"),
                ([], 2, "names.py: a FILE has to be named, and a REPORT may be\n    gmus list FILE | tools/names.py FILE"),
                (["-"], 2, "names.py: FILE and REPORT can't both come from standard input\n"),
                ([LAPTOP, LAPTOP_REPORT, "more"], 2, "names.py: a FILE has to be named, and a REPORT may be\n"),
                ([LAPTOP, "--htm"], 2, "names.py: --htm is no option\n"),
                ([LAPTOP, "--first"], 2, "names.py: --first has nothing behind it\n"),
                ([LAPTOP, "--first", "x"], 2, "names.py: --first x: a number has to stand here\n"),
                ([LAPTOP, "--first=-1"], 2, "names.py: --first -1: a number has to stand here\n"),
                ([LAPTOP, "--first=3", "--json"], 2, "names.py: --first is for the text: --json has the whole report\n"),
                ([LAPTOP, "--html", "--json"], 2, "names.py: --html and --json don't go together\n"),
                ([LAPTOP, "--evidence"], 2, "names.py: --evidence has nothing behind it\n"),
                ([LAPTOP, LAPTOP_REPORT, "--evidence", LAPTOP_REPORT], 1, f"names.py: {LAPTOP_REPORT}: line 1: this is no evidence of gmus"),
        ):
            ended, output, said = run(*words)
            self.assertEqual((ended, output), (status, ""), words)
            self.assertTrue(said.startswith(wanted), (words, said))

    def test_on_a_terminal_long_lists_are_cut(self):
        problem = self.file("f", b"p gcnf 1 21 21\n")
        lines = "".join(f"u {at} 0\n" for at in range(1, 22))
        found = self.file("r", f"p gmus 21\ns PARTIAL\n{lines}e 21 0\n".encode())
        ours, theirs = pty.openpty()
        for words, wanted in (([], 2), (["--first", "21"], 0)):
            child = subprocess.Popen([sys.executable, os.path.join(TOOLS, "names.py"), problem, found, *words], stdout=theirs)
            text = b""
            while b"Made of " not in text or not text.endswith(b"\n"):
                text += os.read(ours, 65536)
            self.assertEqual((child.wait(), text.count(b"1 more is left: --first 21 has all of them.")), (0, wanted), words)
        os.close(ours)
        os.close(theirs)


if __name__ == "__main__":
    unittest.main()
