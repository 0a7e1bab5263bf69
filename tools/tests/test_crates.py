#!/usr/bin/env python3
"""Tests of what the tools make of crates.txt, and of what the gate's processes are taken for."""
import io
import os
import shutil
import tempfile
import unittest
import unittest.mock

import places  # noqa: F401
from dev import cost, crates, quick, read_of
import test_wrong

TEXT = """# NAME: libraries

# == low things
a:
b tests_may=Wait: a std
# == high things
c: a b  # a comment: with a colon
d:
"""
BELOW = {"a": [], "b": ["a"], "c": ["a", "b"], "d": []}


class Crates(unittest.TestCase):
    def test_crates_stand_on_those_of_their_lines(self):
        self.assertEqual(crates.named_in(TEXT)["b"], ["a", "std"])
        self.assertEqual(crates.below_in(TEXT), BELOW)

    def test_areas_have_their_crates_in_order(self):
        self.assertEqual(crates.areas_in(TEXT), [("low things", ["a", "b"]), ("high things", ["c", "d"])])

    def test_lowest_come_first(self):
        self.assertEqual(crates.lowest_first(BELOW, "c"), ["a", "b", "c"])
        self.assertEqual(crates.above(BELOW, ["b"]), ["b", "c"])
        self.assertEqual(crates.above(BELOW, ["a", "d"]), ["a", "b", "c", "d"])


class Pieces(unittest.TestCase):
    def test_a_command_belongs_to_a_piece(self):
        words = ["rattle", "check", "--crate-name", "low", "src/lib.rt"]
        begun = ["--incremental", "/tmp/rt-edits-7-x/12"]
        seed = ["--incremental", "/tmp/rt-edits-7-x/seed"]
        in_turn = ["--incremental", "/tmp/rt-edits-x"]
        for given, folder, wanted in (
                (words, "/work/crates/low", ("low", "library")),
                (words + ["--test"], "/work/crates/low", ("low", "tests")),
                (words + begun, "/tmp/rt-edit-7-y", ("low", 12)),
                (words + seed, "/tmp/rt-edit-7-y", ("low", "base")),
                (words, "/tmp/rt-edit-7-y", ("low", "alone")),
                (words + in_turn, "/tmp/rt-edit-y", ("low", "/tmp/rt-edit-y")),
                (["python3", "rt", "ci"], "/work", None)):
            self.assertEqual(cost.piece_of(given, folder), wanted)

    def test_tries_in_turn_get_their_numbers(self):
        rooms = {("a", "library"): 5, ("a", "/tmp/rt-edit-x"): 12, ("a", "/tmp/rt-edit-y"): 3, ("a", "/tmp/rt-edit-z"): 2}
        with unittest.mock.patch.object(cost, "edit_names", lambda crate: ["p", "q"]):
            told, in_turn = cost.numbered(rooms)
        self.assertEqual(told, {("a", "library"): 5, ("a", "base"): 12 - 3 + 2, ("a", 0): 3, ("a", 1): 3})
        self.assertEqual(cost.longest_chain(BELOW, told, in_turn)[0], 5 + 11 + 3 + 3)
        self.assertEqual(cost.numbered({("a", "base"): 4, ("a", 0): 2}), ({("a", "base"): 4, ("a", 0): 2}, False))

    def test_the_longest_chain_waits_for_libraries_and_tests(self):
        pieces = {("a", "library"): 5, ("a", "tests"): 30, ("a", "base"): 4, ("a", 0): 2, ("a", 1): 3,
                  ("b", "library"): 7, ("c", "library"): 9, ("c", "tests"): 11, ("d", "library"): 20}
        self.assertEqual(cost.longest_chain(BELOW, pieces), (37, [("a", "tests", 30), ("a", "base", 4), ("a", 1, 3)]))
        self.assertEqual(cost.longest_chain(BELOW, {**pieces, ("a", "tests"): 0})[0], 5 + 7 + 11)

    def test_the_table_has_the_dearest_first(self):
        rows = cost.table(BELOW, {("a", "library"): 1, ("b", "library"): 2, ("b", 0): 3}).split("\n")
        self.assertEqual(rows[2:], ["| b | 2 | 0 | 0 | 1 | 3 | 3 | 5 |", "| a | 1 | 0 | 0 | 0 | 0 | 0 | 1 |",
                                    "| all | 3 | 0 | 0 | 1 | 3 | | 6 |"])

    def test_a_function_takes_what_was_used_since_the_one_before(self):
        lines = ["ahead of the check: low::b: no proof\n", "checked low::a, 1 of 2\n", "so far: checked low::<T>::b, 2 of 2\n", "fn low::a: proved\n"]
        used = iter([1, 5, 5.5, 9])
        self.assertEqual(cost.times_in(lines, lambda: next(used)), [(4, "low::a"), (0.5, "low::<T>::b"), (3.5, cost.REST)])


class Quick(unittest.TestCase):
    def test_a_crate_differs_by_its_sources(self):
        files = ["crates/b/src/lib.rt", "crates/c/must-fail/x.edit", "crates/d/data/cases", "README.md", "crates/b/proofs/x/Lib.antt"]
        self.assertEqual(quick.changed_crates(files, BELOW), ["b"])
        self.assertEqual(quick.changed_crates(files, BELOW, ("data", "stdout")), ["d"])

    def test_a_stamp_that_is_due_is_told_from_what_fails(self):
        line = "=" * 70
        for said, wanted in (
                (f"..F\n{line}\nFAIL: {quick.STAMPS} (test_wrong.Places.{quick.STAMPS})\n{line}\n", {quick.STAMPS}),
                (f"E.F\n{line}\nERROR: test_x (test_y.Z.test_x)\n{line}\nFAIL: {quick.STAMPS} (test_wrong.Places)\n", {"test_x", quick.STAMPS}),
                ("...\nRan 3 tests\n\nOK\n", set())):
            self.assertEqual(quick.failing_in(said), wanted, said)
        self.assertTrue(hasattr(test_wrong.Places, quick.STAMPS))

    def proved_by(self, ends, noted, crates_given=("a", "b", "c", "d")):
        """What `prove` gives if the checks end so, and these crates were proved before; and what is noted then."""
        now = []
        with unittest.mock.patch.object(quick, "said_of", lambda crate, words: (ends[crate], b"", "")), \
                unittest.mock.patch.object(quick, "own_of", lambda crate: "sum of " + crate), \
                unittest.mock.patch.object(quick, "is_proved", lambda crate, below: crate in noted), \
                unittest.mock.patch.object(quick, "note_proved", lambda crate, below, own: now.append((crate, own))):
            return quick.prove(crates_given, BELOW, io.StringIO()), now

    def test_what_stands_on_a_failed_crate_is_left(self):
        self.assertEqual(self.proved_by({"a": 0, "b": 1, "d": 0}, []),
                         ((["a", "d"], [], ["b"]), [("a", "sum of a"), ("d", "sum of d")]))

    def test_what_was_proved_over_the_same_is_not_proved_again(self):
        self.assertEqual(self.proved_by({"a": 0, "d": 1}, ["b", "c"]), ((["a"], ["b", "c"], ["d"]), [("a", "sum of a")]))

    def test_what_was_left_out_is_said(self):
        told = "\n".join(quick.said(["a"], [], ["t"], [], ["a", "t"], 1.5))
        self.assertIn("proved a; played t; tested nothing", told)
        self.assertIn("proofs of t;", told)
        self.assertNotIn("before", told)
        told = "\n".join(quick.said(["a"], ["b"], ["t"], [], ["a", "b", "t"], 1.5))
        self.assertIn("proved before, over just what they would read now: b\n", told)
        self.assertIn("proofs of t;", told)


class Reading(unittest.TestCase):
    """Two crates of a made-up repository, of which b stands on a."""

    def setUp(self):
        self.room = tempfile.mkdtemp()
        self.addCleanup(shutil.rmtree, self.room)
        for name, value in (("TOP", self.room), ("text_of", lambda name: TEXT), ("kit", lambda: "a kit")):
            patch = unittest.mock.patch.object(read_of, name, value)
            patch.start()
            self.addCleanup(patch.stop)
        for name in ("a/src/lib.rt", "b/src/lib.rt", "b/proofs/Lib.antt", "a/out/rlib/a.rlib/interface/lang/src/lib.rt",
                     "a/out/rlib/a.rlib/lang/antt/specs/Sets.antt", "a/out/rlib/a.rlib/lang/antt/made.json",
                     "a/out/rlib/a.rlib/toolchain/mir.json"):
            self.write(name, "first")

    def write(self, name, text):
        path = os.path.join(self.room, "crates", name)
        os.makedirs(os.path.dirname(path), exist_ok=True)
        with open(path, "w", encoding="utf-8") as file:
            file.write(text)

    def test_a_body_below_is_not_read_and_what_is_shown_is(self):
        read_of.note_proved("b", BELOW, read_of.own_of("b"))
        for name, is_proved in (("a/src/lib.rt", True), ("a/out/rlib/a.rlib/toolchain/mir.json", True),
                                ("a/out/rlib/a.rlib/lang/antt/made.json", True), ("b/src/lib.rt", False),
                                ("b/proofs/Lib.antt", False), ("a/out/rlib/a.rlib/interface/lang/src/lib.rt", False),
                                ("a/out/rlib/a.rlib/lang/antt/specs/Sets.antt", False), ("b/specs/New.antt", False)):
            self.write(name, "second")
            self.assertEqual(read_of.is_proved("b", BELOW), is_proved, name)
            self.write(name, "first")
            if name == "b/specs/New.antt":
                os.remove(os.path.join(self.room, "crates", name))
            self.assertTrue(read_of.is_proved("b", BELOW), name)
        shutil.rmtree(os.path.join(self.room, "crates/a/out"))
        self.assertFalse(read_of.is_proved("b", BELOW))

    def test_sources_that_changed_meanwhile_are_not_noted(self):
        own = read_of.own_of("b")
        self.write("b/src/lib.rt", "second")
        read_of.note_proved("b", BELOW, own)
        self.assertFalse(read_of.is_proved("b", BELOW))
        self.assertFalse(os.path.exists(read_of.note_of("b")))


if __name__ == "__main__":
    unittest.main()
