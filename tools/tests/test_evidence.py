#!/usr/bin/env python3
"""Tests of check_evidence.py. What is wanted was worked out by hand."""
import os
import subprocess
import sys
import tempfile
import unittest

from places import EXAMPLES, TOOLS, TOP
from gmus_tools.evidence import check_evidence


def stored(name):
    with open(os.path.join(EXAMPLES, name), "rb") as file:
        return file.read()


FIRST = stored("first.gcnf").decode()
LINES = stored("first.evidence").decode().split("\n")[:-1]
REPORT = stored("first.report").decode()
# the same records, where corrections name earlier conflicts
SHORT = stored("first_short.evidence").decode().split("\n")[:-1]
# an unsatisfiable background, an empty clause in a group, and no clauses at all
CLASH = "p gcnf 1 2 1\n{0} 1 0\n{0} -1 0\n"
EMPTY = "p gcnf 0 1 1\n{1} 0\n"
NOTHING = "p gcnf 0 0 0\n"


def answer(problem, text):
    """The report, or the first refusal as its line and name."""
    problem = check_evidence.Problem(problem)
    text = text if isinstance(text, bytes) else text.encode("latin-1")
    try:
        return check_evidence.report(problem, *check_evidence.check(problem, text))
    except check_evidence.Refused as refused:
        return refused.args


def with_lines(first, last, *lines):
    """The stored evidence with other lines in place of those from the first to the last, which count from 1."""
    return "\n".join(LINES[:first - 1] + list(lines) + LINES[last:]) + "\n"


class Accepted(unittest.TestCase):
    def test_stored_evidence_gives_the_stored_report(self):
        self.assertEqual(answer(FIRST, "\n".join(LINES) + "\n"), REPORT)

    def test_without_its_closing_part_it_is_partial(self):
        self.assertEqual(answer(FIRST, with_lines(29, 31, "e partial")), REPORT.replace("COMPLETE", "PARTIAL"))

    def test_no_groups(self):
        text = "p gmev 1 0 0 0\nm 0\nw 0 0\nx 1\ne complete\n"
        self.assertEqual(answer(NOTHING, text), "p gmus 0\ns COMPLETE\nm 0\ne 0 1\n")

    def test_the_background_clashes(self):
        text = "p gmev 1 1 2 1\nu 0\nd 3 0 1 2 0\nr 0 3\nx 1\ne complete\n"
        self.assertEqual(answer(CLASH, text), "p gmus 1\ns COMPLETE\nu 0\ne 1 0\n")

    def test_an_input_clause_is_named(self):
        text = "p gmev 1 0 1 1\nu 1 0\nr 0 1\nw 1 0\nm 1 0\nw 0 0\nr 1 1\nd 3 0 1 2 0\nx 3\ne complete\n"
        self.assertEqual(answer(EMPTY, text), "p gmus 1\ns COMPLETE\nu 1 0\nm 1 0\ne 1 1\n")

    def test_a_hint_whose_literal_is_true_already_is_followed(self):
        self.assertEqual(answer(FIRST, with_lines(3, 3, "d 5 -3 -4 0 1 1 2 0")), REPORT)

    def test_repeated_literals_count_once(self):
        self.assertEqual(answer(FIRST, with_lines(3, 3, "d 5 -3 -3 -4 0 1 2 0")), REPORT)

    def test_ids_need_not_be_the_next_ones(self):
        self.assertEqual(answer(FIRST, with_lines(3, 4, "d 9223372036854775807 -3 -4 0 1 2 0", "r 0 9223372036854775807")), REPORT)


class References(unittest.TestCase):
    def rows(self, rows):
        for first, last, lines, wanted in rows:
            text = "\n".join(SHORT[:first - 1] + lines + SHORT[last:]) + "\n"
            self.assertEqual(answer(FIRST, text), wanted, lines)

    def test_stored_evidence_gives_the_stored_report(self):
        self.rows([(1, 0, [], REPORT), (18, 18, ["d 5 -3 -4 0 1 2 0", "r 2 5"], REPORT)])

    def test_the_number_is_that_of_an_earlier_record(self):
        self.rows([(15, 15, [line], (15, name)) for line, name in [
            ("t 1 3", "UnknownRecord"), ("t 1 4", "UnknownRecord"), ("t 1 9223372036854775807", "UnknownRecord"),
            ("t 1 9223372036854775808", "BadNumber"), ("t 1 0", "BadNumber"), ("t 2 1", "BadNumber"), ("t 1", "BadLine"),
            ("t 1 1 0", "BadLine"), ("t 1 ", "BadNumber")]])

    def test_it_is_a_conflict_without_other_groups_of_the_correction(self):
        self.rows([(15, 15, ["t 1 2"], REPORT), (19, 19, ["t 3 1"], (19, "NotInside")), (23, 23, ["t 4 3"], (23, "NotInside"))])

    def test_it_stands_in_place_of_a_derivation(self):
        self.rows([
            (1, 1, ["p gmev 1 2 4 4"], (15, "BadLine")), (18, 18, ["d 5 -3 -4 0 1 2 0", "t 2 1"], (19, "BadLine")),
            (9, 9, ["t 0 1"], (9, "BadLine")), (24, 24, ["t 0 1"], (24, "BadLine")), (14, 14, ["t 1 1"], (14, "BadLine"))])

    def test_lines_are_checked_in_order(self):
        self.rows([(17, 18, ["w 0 1 2 0", "t 2 9"], (17, "WitnessFails")), (18, 19, ["t 2 9", "t 3 9"], (18, "UnknownRecord")),
                   (18, 19, ["t 2 9", "t 4 1"], (19, "BadNumber"))])


def shown(begins):
    """The block of docs/FORMATS.md that begins so, as lines."""
    with open(os.path.join(TOP, "docs", "FORMATS.md"), encoding="utf-8") as page:
        return (begins + page.read().partition("```text\n" + begins)[2].partition("```")[0]).split("\n")[:-1]


LEAST = shown("p gmev 3 2 4 4\n")


class Levels(unittest.TestCase):
    def text(self, first, last, *lines):
        return "\n".join(LEAST[:first - 1] + list(lines) + LEAST[last:]) + "\n"

    def rows(self, rows):
        for first, last, lines, wanted in rows:
            self.assertEqual(answer(FIRST, self.text(first, last, *lines)), wanted, lines)

    def test_what_is_shown_gives_the_sets_with_so_many_groups(self):
        self.assertEqual(len(LEAST), 18)
        one = "p least 4\ns ATMOST 1\nm 1 0\ne 1\n"
        self.assertEqual(shown("p least 4\n"), one.split("\n")[:-1])
        rest = SHORT[15:23]
        self.rows([
            (1, 0, [], one),
            # a correction of more groups is passed over, and one more block stands before the counter
            (16, 17, [*rest[:4], "d 17 12 0 3 1 7 15 12 2 16 9 0", "x 17"], one),
            (16, 18, ["e partial"], "p gmus 4\ns PARTIAL\nu 1 2 0\nu 1 3 4 0\nm 1 0\ne 2 1\n"),
            (16, 18, [*rest, *SHORT[23:]], REPORT),
            # none has no group: 5 to 8 are s(1, 1) to s(4, 1), and 4: 1 5, 5: -5 6, 6: 2 6, 7: -6 7, 8: 3 7, 9: -7 8, 10: 4 8
            (16, 18, ["d 11 8 0 9 7 5 4 6 1 0", "x 11", "e corrections 0"], "p least 4\ns ATMOST 0\ne 0\n")])

    def test_smaller_sets_come_first(self):
        rest = SHORT[15:23]
        # no group is left out of k = 4, and no more than four count: nothing is counted
        for most, sets in ((4, ["m 1 0", "m 2 3 0", "m 2 4 0"]), (5, None)):
            wanted = (26, "BadNumber") if sets is None else "\n".join(["p least 4", f"s ATMOST {most}", *sets, f"e {len(sets)}", ""])
            self.rows([(16, 18, [*rest, "d 6 0 3 1 4 5 2 0", "x 6", f"e corrections {most}"], wanted)])
        # the conflict of group 3 stands behind that of 1 and 2 in the report
        self.assertEqual(answer("p gcnf 1 3 3\n{1} 1 0\n{2} -1 0\n{3} 0\n", "\n".join([
            "p gmev 3 1 3 3", "u 1 2 0", "d 4 -2 -3 0 1 2 0", "r 0 4", "w 1 0", "w 2 1 0", "u 3 0", "r 0 3", "w 3 0",
            # the order is 1, 3, 2, and no more than three count: nothing is counted
            "m 1 3 0", "w 0 0", "t 1 1", "t 3 2", "m 2 3 0", "w 0 1 0", "t 2 1", "t 3 2",
            "d 5 0 2 3 4 1 0", "x 5", "e conflicts 3", ""])), "p least 3\ns ATMOST 3\nu 3 0\nu 1 2 0\ne 2\n")

    def test_what_stands_alone_in_sets_of_the_other_kind_is_not_counted(self):
        # the correction of group 1 stands alone: each conflict has it
        sure = SHORT[:15] + ["x 1", "e conflicts 1"]
        self.assertEqual(answer(FIRST, "\n".join(sure).replace("gmev 2", "gmev 3") + "\n"), (16, "NotRefuting"))
        # With the three corrections 1 is sure, and of 2, 3, 4 one at most counts. 5, 7, 8, 9, 10 are s(1, 1), s(2, 1), s(2, 2), s(3, 1), s(3, 2).
        # Without the second conflict the blocks are 1: -1 -2, 2: 1, 3: 2 3, 4: 2 4, and the counter is
        # 5: -2 5, 6: -5 7, 7: -3 7, 8: -3 -5 8, 9: -7 9, 10: -4 9, 11: -8 10, 12: -4 -7 10
        part = ["p gmev 3 2 4 4", *LINES[1:6], *LINES[12:28], "d 13 10 0 2 1 3 4 7 12 0", "x 13", "e conflicts 2", ""]
        self.assertEqual(answer(FIRST, "\n".join(part)), "p least 4\ns ATMOST 2\nu 1 2 0\ne 1\n")
        whole = SHORT[:23]
        for end, wanted in (
                (["d 14 10 0 3 1 4 5 2 0", "x 14", "e conflicts 2"], "p least 4\ns ATMOST 2\nu 1 2 0\ne 1\n"),
                (["d 13 10 0 3 1 4 5 2 0", "x 13", "e conflicts 2"], (24, "IdNotRising")),
                (["d 14 11 0 3 1 4 5 2 0", "x 14", "e conflicts 2"], (24, "BadLiteral")),
                (["d 14 0 3 1 4 5 2 0", "x 14", "e conflicts 2"], "p least 4\ns ATMOST 2\nu 1 2 0\ne 1\n"),
                # with the smallest k of all, only the empty set has so few groups
                (["d 11 7 0 3 7 0", "x 11", "e conflicts 1"], (24, "NotFalse"))):
            self.assertEqual(answer(FIRST, "\n".join(whole + end).replace("gmev 2", "gmev 3") + "\n"), wanted, end)

    def test_what_is_shown_refused(self):
        self.rows([
            (17, 17, ["x 15"], (17, "NotRefuting")), (17, 17, ["x 17"], (17, "UnknownClause")), (18, 18, ["e corrections 5"], (18, "BadNumber")),
            (18, 18, ["e corrections 2"], (16, "IdNotRising")), (18, 18, ["e conflicts 1"], (16, "BadLiteral")),
            (7, 12, [], (10, "BadLiteral")), (18, 18, ["e complete"], (16, "BadLiteral")),
            (16, 16, [LEAST[15].replace(" 12 0", " 2147483647 0")], (16, "BadLiteral")),
            (16, 16, [LEAST[15].replace(" 12 0", " 2147483648 0")], (16, "BadNumber")),
            (16, 16, [LEAST[15].replace(" 12 0", " 13 0")], (16, "BadLiteral")),
            (16, 16, [LEAST[15].replace("d 16", "d 15")], (16, "IdNotRising")),
            (16, 16, ["d 16 12 11 0 3 1 6 14 11 2 15 8 0"], (17, "NotRefuting")),
            (16, 16, [LEAST[15].replace(" 8 0", " 17 0")], (16, "UnknownHint"))])

    def test_ends(self):
        self.rows([(18, 18, [line], (18, name)) for line, name in [
            ("e corrections", "BadLine"), ("e corrections ", "BadNumber"), ("e corrections 01", "BadNumber"), ("e corrections -1", "BadNumber"),
            ("e corrections 1 ", "BadLine"), ("e corrections 5 0", "BadNumber"), ("e corrections 1 0", "BadLine"), ("e Corrections 1", "BadLine"),
            ("e partial", "BadLine"), ("e complete 1", "BadLine"), ("e", "BadLine"), ("x corrections 1", "BadLine")]])
        self.rows([
            (16, 18, ["e corrections 1"], (16, "BadLine")), (18, 18, ["e corrections 1", ""], (19, "TrailingText")),
            (17, 18, ["x 99", "e corrections 5"], (18, "BadNumber")), (17, 18, ["x 99", "e corrections 1", "x"], (19, "TrailingText")),
            (1, 1, ["p gmev 2 2 4 4"], (16, "BadNumber")), (1, 1, ["p gmev 1 2 4 4"], (15, "BadLine")),
            (16, 17, ["x 3"], (16, "NotRefuting")), (17, 18, ["x 99", "e conflicts 1"], (16, "BadLiteral"))])
        self.assertEqual(answer(FIRST, self.text(1, 0)[:-1]), (18, "Truncated"))
        # in version 2 the ends of version 3 are none
        self.assertEqual(answer(FIRST, "\n".join(SHORT[:-1] + ["e conflicts 4", ""])), (26, "BadLine"))

    def test_a_counter_of_too_many_variables_is_refused_at_its_number(self):
        groups = 50_000
        problem = f"p gcnf 0 {groups} {groups}\n" + "".join(f"{{{group}}} 0\n" for group in range(1, groups + 1))
        lines = [f"p gmev 3 0 {groups} {groups}", " ".join(map(str, ["m", *range(1, groups + 1), 0])), "w 0 0",
                 *(f"r {group} {group}" for group in range(1, groups + 1)), "x 1"]
        # groups and groups (k + 1) variables
        for most, wanted in ((42_949, "BadNumber"), (42_948, "BadNumber"), (42_947, "NotRefuting"), (50_001, "BadNumber"), (50_000, "NotRefuting")):
            line = len(lines) + (wanted == "BadNumber")
            self.assertEqual(answer(problem, "\n".join([*lines, f"e conflicts {most}", ""])), (line, wanted), most)

    def test_a_version_may_be_too_new(self):
        problem = check_evidence.Problem(FIRST)
        with self.assertRaises(check_evidence.Refused) as refused:
            check_evidence.check(problem, self.text(1, 0).encode(), 2)
        self.assertEqual(refused.exception.args, (1, "BadNumber"))


class Texts(unittest.TestCase):
    def rows(self, rows):
        for text, line, name in rows:
            self.assertEqual(answer(FIRST, text), (line, name), text)

    def test_heads(self):
        tail = "\ne partial\n"
        self.rows([
            ("", 1, "Truncated"), ("p gmev 1 2 4 4", 1, "Truncated"), ("q", 1, "Truncated"), ("q\n", 1, "BadLine"), ("\n", 1, "BadLine"),
            ("p gmew 1 2 4 4" + tail, 1, "BadLine"), ("p gmev 4 2 4 4" + tail, 1, "BadNumber"), ("p gmev 0 2 4 4" + tail, 1, "BadNumber"),
            ("p gmev x 2 4 4" + tail, 1, "BadNumber"),
            ("p gmev 1 2 4" + tail, 1, "BadLine"), ("p gmev 1 2 4 4 4" + tail, 1, "BadLine"), ("p gmev 1 02 4 4" + tail, 1, "BadNumber"),
            ("p gmev 1  2 4 4" + tail, 1, "BadNumber"), ("p  gmev 1 2 4 4" + tail, 1, "BadLine"), (" p gmev 1 2 4 4" + tail, 1, "BadLine"),
            ("p gmev 1 2 4 4 " + tail, 1, "BadLine"), ("p gmev 1 2 4 4\r" + tail, 1, "BadNumber"), ("p gmev 1 18446744073709551616 4 4" + tail, 1, "BadNumber"),
            ("p gmev 1 18446744073709551615 4 4" + tail, 1, "OtherProblem"), ("p gmev 1 3 4 4" + tail, 1, "OtherProblem"),
            ("p gmev 1 2 4 3" + tail, 1, "OtherProblem"), ("p gmev 1 2 5 4" + tail, 1, "OtherProblem")])

    def test_sets_and_witnesses(self):
        self.rows([
            (with_lines(2, 2, "u 1 2"), 2, "BadLine"), (with_lines(2, 2, "u 1 2 0 0"), 2, "BadLine"), (with_lines(2, 2, "u 1 5 0"), 2, "BadNumber"),
            (with_lines(2, 2, "u 2 1 0"), 2, "BadNumber"), (with_lines(2, 2, "u 1 1 0"), 2, "BadNumber"), (with_lines(2, 2, "u -1 2 0"), 2, "BadNumber"),
            (with_lines(2, 2, "u  0"), 2, "BadNumber"), (with_lines(2, 2, "U 1 2 0"), 2, "BadLine"), (with_lines(2, 2, "w 1 2 0"), 2, "BadLine"),
            (with_lines(5, 5, "w 2 0"), 5, "BadNumber"), (with_lines(5, 5, "w 1 3 0"), 5, "BadNumber"), (with_lines(5, 5, "w 1"), 5, "BadLine"),
            (with_lines(6, 6), 6, "BadLine"), (with_lines(14, 14, "w 1 0"), 14, "BadNumber"), (with_lines(14, 14), 14, "BadLine")])

    def test_steps_and_goals(self):
        self.rows([
            (with_lines(3, 3, "d 0 -3 -4 0 1 2 0"), 3, "BadNumber"), (with_lines(3, 3, "d 9223372036854775808 -3 -4 0 1 2 0"), 3, "BadNumber"),
            (with_lines(3, 3, "d 5 -3 -7 0 1 2 0"), 3, "BadNumber"), (with_lines(3, 3, "d 5 -0 0 1 2 0"), 3, "BadNumber"),
            (with_lines(3, 3, "d 5 -3 -4 0 1 -2 0"), 3, "BadNumber"), (with_lines(3, 3, "d 5 -3 -4 0 1 2"), 3, "BadLine"),
            (with_lines(3, 3, "d 5 -3 -4 0"), 3, "BadLine"), (with_lines(3, 3, "d 5 -3 -4 0 1 2 0 "), 3, "BadLine"),
            (with_lines(4, 4, "r 1 5"), 4, "BadNumber"), (with_lines(4, 4, "r 0 0"), 4, "BadNumber"), (with_lines(4, 4, "r 0"), 4, "BadLine"),
            (with_lines(4, 4, "x 5"), 4, "BadLine"), (with_lines(29, 29, "d 6 5 0 1 0"), 29, "BadNumber"), (with_lines(30, 30, "x 6 0"), 30, "BadLine"),
            (with_lines(29, 30, "r 0 6"), 29, "BadLine")])

    def test_ends(self):
        whole = "\n".join(LINES) + "\n"
        self.rows([
            (with_lines(30, 30), 30, "BadLine"), (with_lines(29, 30), 29, "BadLine"), (with_lines(31, 31, "e partial"), 31, "BadLine"),
            (with_lines(31, 31, "e complete 0"), 31, "BadLine"), (with_lines(31, 31, "e"), 31, "BadLine"), (whole[:-1], 31, "Truncated"),
            (with_lines(31, 31), 31, "Truncated"), (with_lines(3, 31), 3, "Truncated"), (with_lines(3, 31) + "\0", 3, "Truncated"),
            (whole + "\n", 32, "TrailingText"), (whole + "e", 32, "TrailingText"), (with_lines(29, 31, "e partial", "u 1 2 0"), 30, "TrailingText")])


class Contents(unittest.TestCase):
    def rows(self, rows):
        for text, line, name in rows:
            self.assertEqual(answer(FIRST, text), (line, name), text)

    def test_steps(self):
        self.rows([
            (with_lines(8, 8, "d 5 -3 -5 -6 0 1 4 0"), 8, "NotFalse"), (with_lines(8, 8, "d 5 -3 -5 -6 0 1 3 4 4 0"), 8, "HintsLeft"),
            (with_lines(8, 8, "d 5 -3 -5 -6 0 3 1 4 0"), 8, "NotUnit"), (with_lines(8, 8, "d 5 -3 -5 -6 0 0"), 8, "NotFalse"),
            (with_lines(8, 8, "d 5 -3 -5 -6 0 1 3 5 0"), 8, "UnknownHint"), (with_lines(8, 8, "d 4 -3 -5 -6 0 1 3 4 0"), 8, "IdNotRising"),
            (with_lines(8, 8, "d 5 -3 3 0 1 3 4 0"), 8, "BadLiteral"), (with_lines(8, 8, "d 4 -3 3 0 9 0"), 8, "IdNotRising"),
            (with_lines(8, 8, "d 5 -3 3 0 9 0"), 8, "BadLiteral"), (with_lines(21, 21, "d 6 -3 -5 -6 0 1 3 5 0"), 21, "UnknownHint")])

    def test_goals_and_witnesses(self):
        self.rows([
            (with_lines(4, 4, "r 0 6"), 4, "UnknownClause"), (with_lines(4, 4, "r 0 4"), 4, "NotRefuting"),
            (with_lines(8, 9, "d 5 -3 -4 0 1 2 0", "r 0 5"), 9, "NotRefuting"), (with_lines(5, 5, "w 1 1 0"), 5, "WitnessFails"),
            (with_lines(12, 12, "w 4 1 0"), 12, "WitnessFails"), (with_lines(18, 18, "w 0 0"), 18, "WitnessFails"),
            (with_lines(19, 19, "d 5 -3 -5 -6 0 1 3 4 0"), 20, "NotRefuting"), (with_lines(21, 22, "r 3 5"), 21, "UnknownClause")])

    def test_closing_parts(self):
        self.rows([
            (with_lines(29, 30, "x 1"), 29, "NotRefuting"), (with_lines(30, 30, "x 7"), 30, "UnknownClause"),
            (with_lines(29, 29, "d 5 0 3 1 4 5 2 0"), 29, "IdNotRising"), (with_lines(29, 29, "d 6 0 3 1 4 2 0"), 29, "NotFalse"),
            (with_lines(23, 28), 23, "UnknownHint")])

    def test_repeated_sets(self):
        twice = with_lines(23, 22, *LINES[16:22])
        self.rows([(twice, 23, "RepeatedSet"), (with_lines(23, 22, *LINES[1:6]), 23, "RepeatedSet")])

    def test_an_equal_set_of_the_other_kind_is_no_repeated_one(self):
        self.assertEqual(answer(FIRST, with_lines(7, 6, "m 1 2 0", "w 0 0", "r 1 1", "r 2 1")), (9, "NotRefuting"))

    def test_a_records_text_comes_before_its_content(self):
        self.rows([
            (with_lines(3, 5, "d 5 -3 -4 0 9 0", "r 0 5", "w 2 0"), 5, "BadNumber"),
            (with_lines(23, 22, *LINES[16:21]), 28, "BadLine"),
            (with_lines(29, 31, "x 9", "e partial"), 30, "BadLine"), (with_lines(29, 31, "x 9", "e complete", ""), 31, "TrailingText")])

    def test_an_earlier_record_comes_before_a_later_text(self):
        self.rows([(with_lines(3, 7, "d 5 -3 -4 0 9 0", *LINES[3:6], "u 9 0"), 3, "UnknownHint")])

    def test_about_another_problem(self):
        whole = "\n".join(LINES) + "\n"
        self.assertEqual(answer("p gcnf 1 1 1\n{1} 1 0\n", whole), (1, "OtherProblem"))
        self.assertEqual(answer(FIRST.replace("{4} -2", "{4} 2"), whole), (8, "NotFalse"))

    def test_a_clause_of_cnf_is_a_group(self):
        whole = "\n".join(LINES) + "\n"
        for text, wanted in (("p cnf 2 4\n1 0 -1 0\nc x\n-1 2 0 -2 0\n", FIRST), ("p cnf 2 4 1 0 -1 0 -1 2 0 -2 0 % {0} x\n", FIRST),
                             ("p cnf 0 1 0\n", EMPTY), ("p cnf 0 0", NOTHING)):
            found, problem = check_evidence.Problem(text), check_evidence.Problem(wanted)
            self.assertEqual((found.vars, found.groups, found.clauses), (problem.vars, problem.groups, problem.clauses), text)
        self.assertEqual(answer("p cnf 2 4 1 0 -1 0 -1 2 0 2 0", whole), (8, "NotFalse"))


class Command(unittest.TestCase):
    def run_on(self, text):
        path = os.path.join(EXAMPLES, "first.gcnf")
        return subprocess.run([sys.executable, os.path.join(TOOLS, "check_evidence.py"), path, "/dev/stdin"], input=text,
                              stdout=subprocess.PIPE, stderr=subprocess.PIPE)

    def test_statuses(self):
        done = self.run_on(stored("first.evidence"))
        self.assertEqual((done.returncode, done.stdout.decode(), done.stderr), (0, REPORT, b""))
        done = self.run_on(with_lines(30, 30).encode())
        self.assertEqual((done.returncode, done.stdout, done.stderr), (9, b"", b"evidence refused: line 30: 1 BadLine\n"))

    def test_what_is_no_evidence_is_told(self):
        usage = "    tools/check_evidence.py FILE EVIDENCE [--focus LIST] [-o REPORT]\n"
        with tempfile.TemporaryDirectory() as room:
            for text, why in (("x", "it does not begin with 'p gcnf' or 'p cnf'"),
                              ("p gcnf 1 1", "a number is missing in its header or in a clause"),
                              ("p cnf 1", "a number is missing in its header or in a clause"),
                              ("p cnf 1 2 1 0 %", "a number is missing in its header or in a clause"),
                              ("p cnf 1 1 1 0 x", "something stands behind the last clause"),
                              ("p gcnf 1 1 1 1 0 0", "a clause begins with its group in braces"),
                              ("p gcnf 1 1 1 {1} 1", "a number is missing in its header or in a clause"),
                              ("p gcnf 1 1 1 {1} 1 0 {1} 1 0", "something stands behind the last clause")):
                path = os.path.join(room, "f")
                with open(path, "w", encoding="utf-8") as file:
                    file.write(text)
                self.told([path, path], 1, f"check_evidence.py: {path}: this is no GCNF or CNF file: {why}\n")
            self.told([room, room], 1, f"check_evidence.py: {room}: Is a directory\n")
            self.told([room + "/x", room], 1, f"check_evidence.py: {room}/x: No such file or directory\n")
        for words in ([], ["a"], ["a", "b", "c"], ["-x", "b"]):
            self.told(words, 2, "check_evidence.py: a file and evidence about it are wanted\n" + usage)

    def test_evidence_of_some_groups(self):
        # Without group 2 the clauses 1, 3 and 4 are 1 to 3.
        whole = b"p gmev 1 2 3 4\nu 1 3 4 0\nd 4 -3 -5 -6 0 1 2 3 0\nr 0 4\nw 1 0\nw 3 1 0\nw 4 1 2 0\ne partial\n"
        report = b"p gmus 4\ns PARTIAL\nu 1 3 4 0\ne 1 0\n"
        for words, wanted in ((["--focus", "4,3,1,9"], (0, report, b"")), ([], (9, b"", b"evidence refused: line 1: 4 OtherProblem\n")),
                              (["--focus=1,2,3"], (9, b"", b"evidence refused: line 3: 12 NotFalse\n"))):
            done = subprocess.run([sys.executable, os.path.join(TOOLS, "check_evidence.py"), os.path.join(EXAMPLES, "first.gcnf"), "/dev/stdin",
                                   *words], input=whole, stdout=subprocess.PIPE, stderr=subprocess.PIPE)
            self.assertEqual((done.returncode, done.stdout, done.stderr), wanted, words)

    def told(self, words, status, said):
        ended = subprocess.run([sys.executable, os.path.join(TOOLS, "check_evidence.py"), *words], stdout=subprocess.PIPE,
                               stderr=subprocess.PIPE, universal_newlines=True, check=False)
        self.assertEqual((ended.returncode, ended.stdout, ended.stderr), (status, "", said), words)


if __name__ == "__main__":
    unittest.main()
