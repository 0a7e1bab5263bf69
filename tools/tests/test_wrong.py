#!/usr/bin/env python3
"""Tests of the wrong bodies: how many stand where, that those outside the gate were refused on the tree as it is, and what
the toolchain's words on a try are taken for."""
import os
import shutil
import tempfile
import unittest
import unittest.mock

import places  # noqa: F401
from dev import wrong
from dev.crates import TOP, below_in, lowest_first, text_of

BELOW = below_in(text_of("crates.txt"))
GATE = os.path.join(TOP, "crates")
# The most that the gate tries of a crate of which others stand in wrong/, and of all crates; both only fall. Of one it tries none: to
# prove that a third time costs more than two bodies would tell.
MOST_OF_A_CRATE, MOST = 10, 157
NONE_OF = {"known_sets"}


def in_gate(crate):
    folder = os.path.join(GATE, crate, "must-fail")
    return sorted(name[:-len(".edit")] for name in os.listdir(folder)) if os.path.isdir(folder) else []


class Places(unittest.TestCase):
    def test_the_gate_tries_so_many_and_some_of_each_crate(self):
        counts = {crate: len(in_gate(crate)) for crate in BELOW}
        over = {crate: counts[crate] for crate in wrong.crates_with() if counts[crate] > MOST_OF_A_CRATE}
        self.assertEqual(over, {})
        self.assertLessEqual(sum(counts.values()), MOST)
        self.assertEqual({crate for crate in lowest_first(BELOW, "gmus") if not counts[crate]}, NONE_OF)

    def test_the_birds_eye_view_counts_them(self):
        gate = sum(len(in_gate(crate)) for crate in BELOW)
        every = gate + sum(len(wrong.edits_of(crate)) for crate in wrong.crates_with())
        self.assertIn(f"{every} wrong bodies, of which the gate has to refuse {gate},", text_of("docs/ARCHITECTURE.md"))

    def test_no_wrong_body_stands_twice_or_beside_no_crate(self):
        self.assertLessEqual(set(os.listdir(wrong.WRONG)), set(BELOW))
        for crate in wrong.crates_with():
            self.assertEqual(set(wrong.edits_of(crate)) & set(in_gate(crate)), set(), crate)
            others = [name for name in os.listdir(os.path.join(wrong.WRONG, crate)) if not name.endswith(".edit")]
            self.assertLessEqual(set(others), {wrong.STAMP}, crate)

    def test_stamps_are_of_the_tree(self):
        told = [it for it in (wrong.due(crate, BELOW) for crate in wrong.crates_with()) if it]
        self.assertEqual(told, [], "\n" + "\n".join(told))


class Verdicts(unittest.TestCase):
    def test_only_a_refused_value_counts(self):
        refused = "refused, as it must be"
        for said, wanted in (
                (f"must-fail low/x.edit: {refused}: src/a.rt:3:5: error: not proved", (True, "src/a.rt:3:5: error: not proved")),
                (f"rt: must-fail low/x.edit: {refused}: proofs/a/Answers.antt:1:2: error: no", (True, "proofs/a/Answers.antt:1:2: error: no")),
                (f"must-fail low/x.edit: {refused}", (False, refused)),
                (f"must-fail low/x.edit: {refused} (only because of a name): proofs/a.antt:1:2: error: no",
                 (False, f"{refused} (only because of a name): proofs/a.antt:1:2: error: no")),
                (f"must-fail low/x.edit: {refused} (only by a limit): src/a.rt:3:5: error: stopped",
                 (False, f"{refused} (only by a limit): src/a.rt:3:5: error: stopped")),
                ("must-fail low/x.edit: NOT REFUSED: still proved", (False, "NOT REFUSED: still proved")),
                ("must-fail low/x.edit: BAD EDIT: it changes nothing", (False, "BAD EDIT: it changes nothing")),
                ("must-fail low/x.edit: BAD EDIT: first lines:\nsrc/a.rt: error[unknown]: b", (False, "BAD EDIT: first lines:")),
                ("must-fail low/x.edit: NOT TRIED: killed", (False, "NOT TRIED: killed")),
                ("must-fail high/x.edit: refused, as it must be: src/a.rt", None),
                ("rt: low: 1 of its 3 must-fail edits were tried by an earlier run", None),
        ):
            self.assertEqual(wrong.verdicts_in(f"first\n{said}\nlast", "low").get("x"), wanted, said)

    def test_what_was_tried_before_is_told(self):
        self.assertTrue(wrong.is_found("rt: low: 1 of its 3 must-fail edits were tried by an earlier run", "low"))
        for said in ("rt: low: trying its must-fail edits (3)", "rt: high: 1 of its 3 must-fail edits were tried by an earlier run"):
            self.assertFalse(wrong.is_found(said, "low"), said)


class Stamps(unittest.TestCase):
    """A made-up repository of one crate with two wrong bodies."""

    def setUp(self):
        self.room = tempfile.mkdtemp()
        self.addCleanup(shutil.rmtree, self.room)
        self.sums = {"own": "1", "below": "2"}
        for name, value in (("WRONG", self.room), ("kit", lambda: "a kit"), ("own_of", lambda crate: self.sums["own"]),
                            ("shown_below", lambda crate, below: self.sums["below"])):
            patch = unittest.mock.patch.object(wrong, name, value)
            patch.start()
            self.addCleanup(patch.stop)
        self.write("low/x.edit", "new: 1")
        self.write("low/y.edit", "new: 2")
        os.mkdir(os.path.join(self.room, "bare"))

    def write(self, name, text):
        path = os.path.join(self.room, name)
        os.makedirs(os.path.dirname(path), exist_ok=True)
        with open(path, "w", encoding="utf-8") as file:
            file.write(text)

    def test_a_stamp_holds_for_what_it_was_made_of(self):
        self.assertEqual(wrong.crates_with(), ["low"])
        self.assertEqual(wrong.due("low", {}), "wrong/low has no stamp: call dev/wrong.py low, which takes some 84 seconds of processor "
                                               "(wrong bodies: 2)")
        wrong.stamped("low", wrong.sums_of("low", {}), 32)
        self.assertEqual(wrong.due("low", {}), "")
        stamp = wrong.stamp_of("low")
        self.assertEqual([stamp["kit"], stamp["refused"], stamp["seconds"]], ["a kit", "2", "32"])
        self.sums["own"] = "3"
        self.assertIn("is not of the tree as it is (the crate's own sources, definitions and proofs): call dev/wrong.py low, which "
                      "takes some 32 s", wrong.due("low", {}))
        self.sums.update(own="1", below="3")
        self.assertEqual(wrong.differing("low", {}), ["below"])
        self.sums["below"] = "2"
        for name, text in (("x", "new: 3"), ("z", "new: 3")):
            self.write(f"low/{name}.edit", text)
            self.assertEqual(wrong.differing("low", {}), ["edits"])

    def tried(self, said):
        """What is left open where the toolchain says this of the two, and what the stamp has then."""
        with unittest.mock.patch.object(wrong, "tried", lambda words, folder, crate: (said, 40)), \
                unittest.mock.patch("builtins.print"):
            left = wrong.try_crate("low", wrong.sums_of("low", {}), os.path.join(self.room, "copy"), "must-fail")
        shutil.rmtree(os.path.join(self.room, "copy"))
        return left, wrong.stamp_of("low").get("seconds")

    def test_a_crate_is_stamped_if_all_were_refused(self):
        lines = {name: f"must-fail low/{name}.edit: refused, as it must be: src/a.rt" for name in "xy"}
        self.assertEqual(self.tried(lines["x"]), (["low/y"], None))
        self.assertEqual(self.tried(lines["x"] + "\nmust-fail low/y.edit: NOT REFUSED: no"), (["low/y"], None))
        before = "rt: low: 2 of its 2 must-fail edits were tried before\n"
        self.assertEqual(self.tried(before + "\n".join(lines.values())), ([], None))
        self.assertEqual(wrong.due("low", {}), "")
        self.assertEqual(self.tried("\n".join(lines.values())), ([], "40"))
        # What was not tried anew takes no time, and the stamp keeps what it took.
        self.assertEqual(self.tried(before + "\n".join(lines.values())), ([], "40"))


if __name__ == "__main__":
    unittest.main()
