#!/usr/bin/env python3
"""Tests of how spread.py numbers a problem anew and maps evidence. What is wanted was worked out by hand, or is stored in
examples/, or is what tools/check_evidence.py says."""
import os
import random
import unittest

from places import EXAMPLES
from gmus_tools.command import Refused
from gmus_tools.evidence import check_evidence
from gmus_tools.spreading.batch import Known, TooLong, batch_of, in_full
from gmus_tools.spreading.conflicts import Conflicts
from gmus_tools.spreading.numbering import Numbering, Sizes, Way, plain, sizes_of
from gmus_tools.spreading.records import NoReading, evidence_of, record_of, records_in
from oracles import plain_evidence


def stored(name):
    with open(os.path.join(EXAMPLES, name), "rb") as file:
        return file.read()


FIRST = Sizes(2, 4, 4)
# the five records of the first example, with refutations in full and with references
LONG, SHORT = records_in(stored("first.evidence")), records_in(stored("first_short.evidence"))


def mapped(way, texts):
    return [way.record(record_of(text)).text() for text in texts]


class Numberings(unittest.TestCase):
    def test_a_numbering_is_that_of_its_number(self):
        # Random(1).random() gives 0.134, 0.847, 0.764, 0.255, 0.495, 0.449, 0.652, 0.789, 0.094
        numbering = Numbering(Sizes(4, 4, 4), 1)
        self.assertEqual((numbering.there.variables, numbering.there.groups, numbering.there.clauses),
                         ([0, 4, 2, 3, 1], [0, 3, 1, 4, 2], [0, 2, 1, 4, 3]))
        self.assertEqual(numbering.back.groups, [0, 2, 4, 1, 3])
        for count in (0, 1, 2, 1000):
            of_number = [Numbering(Sizes(count, count, count), number).there for number in (1, 2)]
            for order in (of_number[0].variables, of_number[1].groups, of_number[1].clauses):
                self.assertEqual(sorted(order), list(range(count + 1)))
        self.assertNotEqual(of_number[0].variables, of_number[1].variables)

    def test_a_problem_under_other_numbers(self):
        numbering = Numbering(FIRST, 1)
        numbering.there = Way(FIRST, [0, 2, 1], [0, 3, 1, 4, 2], [0, 2, 4, 3, 1])
        numbering.back = Way(FIRST, [0, 2, 1], [0, 2, 4, 1, 3], [0, 4, 1, 3, 2])
        text = b"p gcnf 2 4 4\n{1} 1 0\n{2} -1 0\n{0} -1 2 0\n{4} -2 0\n"
        self.assertEqual(numbering.text(text), b"p gcnf 2 4 4\n{2} -1 0\n{3} 2 0\n{0} -2 1 0\n{1} -2 0\n")

    def test_plain_texts(self):
        for text, wanted in (
                (b"p gcnf 2 2 7\n{0} -1 2 0\n{7} 0\n", b"p gcnf 2 2 7\n{0} -1 2 0\n{7} 0\n"),
                (b"c {9} 9 0\n \tc p\np\r\n gcnf 02 2\t007{0}-1 002\n0{07} 00 ", b"p gcnf 2 2 7\n{0} -1 2 0\n{7} 0\n"),
                (b"p cnf 2 3\nc 1\n1 -2 0 0\n-1 -1\n0 % { x\n0\n", b"p gcnf 2 3 3\n{1} 1 -2 0\n{2} 0\n{3} -1 -1 0\n"),
                (b"p gcnf 0 0 0", b"p gcnf 0 0 0\n"),
        ):
            self.assertEqual(plain(text), wanted)
            problem, same = (check_evidence.Problem(it.decode()) for it in (text, wanted))
            self.assertEqual((problem.vars, problem.groups, problem.clauses), (same.vars, same.groups, same.clauses))
        for text in (b"", b"p cnf", b"p gcnf 1 1 1\n{1} 1", b"p gcnf 1 1 1\n{x} 1 0", b"p cnf 1 1\nx 0", b"q"):
            with self.assertRaises(Refused, msg=text):
                plain(text)


class Mapping(unittest.TestCase):
    def test_a_conflict_and_a_correction_by_hand(self):
        # variables 1 and 2 change places, groups 1 2 3 4 become 3 1 4 2, clauses 1 2 3 4 become 2 4 3 1
        way = Way(FIRST, [0, 2, 1], [0, 3, 1, 4, 2], [0, 2, 4, 3, 1])
        self.assertEqual(mapped(way, [
            b"u 1 3 4 0\nd 5 -3 -5 -6 0 1 3 4 0\nr 0 5\nw 1 0\nw 3 1 0\nw 4 1 2 0\n",
            b"m 2 3 0\nw 0 1 0\nd 5 -3 -4 0 1 2 0\nr 2 5\nt 3 2\n", b"m 2 3 0\nw 0 1 0\nr 2 3\nr 3 77\n"]), [
            b"u 2 3 4 0\nd 5 -5 -6 -4 0 2 3 1 0\nr 0 5\nw 2 1 2 0\nw 3 0\nw 4 2 0\n",
            b"m 1 4 0\nw 0 2 0\nd 5 -5 -3 0 2 4 0\nr 1 5\nt 4 2\n", b"m 1 4 0\nw 0 2 0\nr 1 3\nr 4 77\n"])

    def test_evidence_of_random_problems_there_and_back(self):
        for seed in range(200):
            chance = random.Random(seed)
            text = plain(plain_evidence.random_problem(chance).encode())
            problem, sizes = check_evidence.Problem(text.decode()), sizes_of(text)
            whole = plain_evidence.evidence(problem, chance, 1 + seed % 2)
            numbering = Numbering(sizes, seed)
            other = check_evidence.Problem(numbering.text(text).decode())
            texts = records_in(whole)
            there = mapped(numbering.there, texts)
            _, sets = check_evidence.check(other, evidence_of(sizes, there, 1 + seed % 2))
            self.assertEqual(sum(map(len, sets.values())), len(texts))
            self.assertEqual(mapped(numbering.back, there), texts, seed)
            # and as a journal would have it, as a batch, and as both again
            check_evidence.check(other, evidence_of(sizes, in_full(there), 1))
            _, sets = check_evidence.check(problem, batch_of(sizes, in_full(there), Known(), numbering.back.record))
            self.assertEqual(sets, check_evidence.check(problem, whole)[1], seed)


class Records(unittest.TestCase):
    def test_what_closes_evidence_is_no_record(self):
        self.assertEqual([text.split(b"\n")[0] for text in LONG], [b"u 1 2 0", b"u 1 3 4 0", b"m 1 0", b"m 2 3 0", b"m 2 4 0"])
        self.assertEqual(LONG[4], b"m 2 4 0\nw 0 1 2 0\nd 5 -3 -4 0 1 2 0\nr 2 5\nd 5 -3 -5 -6 0 1 3 4 0\nr 4 5\n")
        self.assertEqual(SHORT[4], b"m 2 4 0\nw 0 1 2 0\nt 2 1\nt 4 2\n")
        self.assertEqual(records_in(b"p gmev 1 0 0 0\nm 0\nw 0 0\nx 1\ne complete\n"), [b"m 0\nw 0 0\n"])
        self.assertEqual(records_in(b"p gmev 2 1 2 1\nu 0\nd 3 0 1 2 0\nr 0 3\nx 1\ne complete\n"), [b"u 0\nd 3 0 1 2 0\nr 0 3\n"])
        self.assertEqual(records_in(b"p gmev 2 7 7 7\ne partial\n"), [])

    def test_another_version_has_no_reading(self):
        for text in (b"p gmev 3 2 4 4\ne partial\n", b"p gmev 2 2 4 4\n", b"", b"u 1 0\n", b"p gmev 2 2 4 4\ne partial\nx"):
            with self.assertRaises(NoReading, msg=text):
                records_in(text)

    def test_texts_and_parts(self):
        for text in LONG + SHORT:
            self.assertEqual(record_of(text).text(), text)
            self.assertEqual(record_of(text).name(), text.split(b"\n")[0])


class Batches(unittest.TestCase):
    def test_references_give_way_to_refutations(self):
        self.assertEqual(in_full(SHORT), LONG)
        # the first three records have 46, 63 and 18 bytes, and what the third refers to has 17 in the lines of its steps
        self.assertEqual(in_full(SHORT[:3], 144), LONG[:3])
        for most in (0, 100, 143):
            with self.assertRaises(TooLong):
                in_full(SHORT[:3], most)

    def test_refutations_give_way_to_references(self):
        self.assertEqual(batch_of(FIRST, LONG, Known()), evidence_of(FIRST, SHORT))
        # conflicts come first, so each serves
        self.assertEqual(batch_of(FIRST, LONG[2:] + LONG[:2], Known()), evidence_of(FIRST, SHORT))
        # what names no conflict keeps its refutation
        self.assertEqual(batch_of(FIRST, [LONG[0], LONG[3]], Known()), evidence_of(FIRST, [
            LONG[0], b"m 2 3 0\nw 0 1 0\nt 2 1\nd 5 -3 -5 -6 0 1 3 4 0\nr 3 5\n"]))

    def test_a_batch_has_the_known_conflicts_that_it_needs(self):
        # of three records that were told, the second refutes group 3 and group 4
        told = [LONG[0], SHORT[2], LONG[1]]
        new = [b"m 2 3 0\nw 0 1 0\nt 2 1\nt 3 3\n", SHORT[4]]
        self.assertEqual(batch_of(FIRST, new, Known(told)), evidence_of(FIRST, [LONG[0], LONG[1], SHORT[3], SHORT[4]]))
        self.assertEqual(batch_of(FIRST, LONG[2:3], Known(told)), evidence_of(FIRST, [LONG[0], SHORT[2]]))
        self.assertEqual(batch_of(FIRST, [LONG[1], LONG[4]], Known(told)), evidence_of(FIRST, [
            LONG[1], LONG[0], b"m 2 4 0\nw 0 1 2 0\nt 2 2\nt 4 1\n"]))

    def test_which_conflict_refutes_which_group(self):
        conflicts = Conflicts()
        self.assertEqual(conflicts.serving((1, 2)), [None, None])
        for groups in ((1, 2), (2, 3), (3, 4), (1, 5), (4, 6)):
            conflicts.add(groups)
        for correction, wanted in (((1, 3, 6), [0, 1, 4]), ((2, 3, 5), [0, 2, 3]), ((1, 2, 4), [3, 1, 2]), ((2, 4, 5), [0, 2, 3]),
                                   ((), []), ((1, 2, 5, 7), [None, 1, None, None])):
            self.assertEqual(conflicts.serving(correction), wanted, correction)


if __name__ == "__main__":
    unittest.main()
