#!/usr/bin/env python3
"""Tests of one task of spread.py, over the plain program of oracles/plain_gmus.py, and over the built one if it is there."""
import glob
import os
import shutil
import stat
import subprocess
import sys
import tempfile
import unittest

from places import TOP
from gmus_tools.evidence import check_evidence, journal
from gmus_tools.spreading.numbering import plain
from gmus_tools.spreading.records import records_in
from gmus_tools.spreading.task import EVIDENCE, FRESH, JOURNAL, Nonsense, Order, answer_of, perform
from oracles import plain_gmus
from plain_program import PLAIN

BUILT = os.environ.get("GMUS") or os.path.join(TOP, "crates", "gmus", "out", "gmus")


def pairs(count):
    """As many pairs of opposite groups: so many conflicts, and 2 to the power of that many corrections."""
    lines = [f"p gcnf {count} {2 * count} {2 * count}"]
    for var in range(1, count + 1):
        lines += [f"{{{2 * var - 1}}} {var} 0", f"{{{2 * var}}} -{var} 0"]
    return "\n".join(lines + [""])


TEXT = pairs(4)
PROBLEM = check_evidence.Problem(TEXT)


class Room(unittest.TestCase):
    def setUp(self):
        self.room = os.path.realpath(tempfile.mkdtemp())
        self.addCleanup(shutil.rmtree, self.room)
        self.before = {name: os.environ.get(name) for name in ("GMUS", "PLAIN_PAUSE")}
        self.addCleanup(self.put_back)
        os.environ["GMUS"] = PLAIN

    def put_back(self):
        for name, value in self.before.items():
            os.environ.pop(name, None)
            if value is not None:
                os.environ[name] = value

    def script(self, lines):
        """A program in place of gmus."""
        name = os.path.join(self.room, "program")
        with open(name, "w") as file:
            file.write(lines)
        os.chmod(name, stat.S_IRWXU)
        os.environ["GMUS"] = name

    def perform(self, order, told=(), where=None, is_stopped=lambda: False):
        answer = answer_of(perform(order, plain(TEXT.encode()), list(told), where or self.room, is_stopped))
        left = set(os.listdir(self.room)) - {"program"}
        self.assertEqual(left, set(), "a task leaves nothing behind")
        return answer

    def sets(self, batch):
        """The sets of a batch; it is refused with an error."""
        complete, sets = check_evidence.check(PROBLEM, batch)
        self.assertFalse(complete)
        return {(kind, *groups) for kind in sets for groups in sets[kind]}


    def in_journals(self):
        """How many records stand in the journals of the tasks under way."""
        found = 0
        for name in glob.glob(os.path.join(self.room, "*", "journal")):
            with open(name, "rb") as file:
                found += len(journal.texts_in(file.read())[0])
        return found


class Tasks(Room):
    def test_each_way_gives_new_sets_in_the_numbers_of_the_file(self):
        every = {(kind, *groups) for kind, groups in plain_gmus.sets_of(PROBLEM)}
        self.assertEqual(len(every), 4 + 16)
        first = self.perform(Order(1, FRESH, 60, 6, 0))
        self.assertEqual((first.status, first.fault, first.sets), (4, None, 6))
        told = records_in(first.batch)
        known = self.sets(first.batch)
        self.assertEqual(len(known), 6)
        for how in (JOURNAL, EVIDENCE):
            for number in (1, 2, 3):
                answer = self.perform(Order(number, how, 60, 5, 6), told)
                self.assertEqual((answer.status, answer.fault, answer.sets), (4, None, 5), how)
                self.assertEqual(len(self.sets(answer.batch) - known), 5, how)
            whole = self.perform(Order(4, how, 60, 99, 6), told)
            self.assertEqual((whole.status, whole.sets), (0, 14), how)
            self.assertEqual(self.sets(whole.batch) | known, every, how)
        # it is told a part of what is there
        self.assertEqual(self.perform(Order(1, JOURNAL, 60, 99, 2), told).sets, 18)
        self.assertNotEqual(self.sets(self.perform(Order(2, FRESH, 60, 6, 0)).batch), known)

    def test_what_is_stopped_at_its_time_gives_what_its_journal_holds(self):
        os.environ["PLAIN_PAUSE"] = "0.2"
        for is_stopped, seconds in ((lambda: False, 1), (lambda: self.in_journals() > 2, 60)):
            answer = self.perform(Order(1, FRESH, seconds, 99, 0), is_stopped=is_stopped)
            self.assertEqual((answer.status, answer.fault), (None, None))
            self.assertEqual(len(self.sets(answer.batch)), answer.sets)
            self.assertTrue(0 < answer.sets < 20, answer.sets)
        # from evidence, nothing comes of a part
        self.assertEqual(self.perform(Order(1, EVIDENCE, 0.02, 99, 0))[1:], (None, None, 0, b""))

    def test_what_has_found_nothing_at_its_time_goes_on(self):
        os.environ["PLAIN_PAUSE"] = "1.5"
        answer = self.perform(Order(1, FRESH, 0.3, 99, 0))
        self.assertEqual((answer.status, answer.sets), (None, 1))
        os.environ["PLAIN_PAUSE"] = "60"
        answer = self.perform(Order(1, FRESH, 0.05, 99, 0))
        self.assertEqual((answer.status, answer.sets, answer.batch), (None, 0, b""))

    def test_what_goes_wrong_is_told(self):
        for lines, wanted, status in (
                ("#!/bin/sh\necho 'gmus: out of memory' >&2\nexit 8\n", "gmus: out of memory", 8),
                # a second line is for a person
                ("#!/bin/sh\nprintf 'gmus: read fault on journal\\n  journal: is no journal\\n' >&2\nexit 6\n", "gmus: read fault on journal", 6),
                ("#!/bin/sh\nexit 6\n", "the program ended with 6", 6),
                ("#!/bin/sh\nkill -9 $$\n", "the program ended with 137", 137),
                # it keeps a journal of records that nobody knows
                (f"#!{sys.executable}\nimport sys\nat = sys.argv.index('--journal') + 1\n"
                 "open(sys.argv[at], 'wb').write(bytes([1, 0, 0, 0, 0, 0, 0, 0, 4]) + b'z 0\\n' + bytes(1))\n",
                 "NoReading: this is no record: z 0", None),
        ):
            self.script(lines)
            answer = self.perform(Order(1, FRESH, 60, 5, 0))
            self.assertTrue(answer.fault.startswith(wanted), answer.fault)
            self.assertEqual((answer.status, answer.batch), (status, b""), lines)
        # it writes evidence of a version that is not known
        self.script(f"#!{sys.executable}\nimport sys\nat = sys.argv.index('--evidence') + 1\n"
                    "open(sys.argv[at], 'w').write('p gmev 3 4 8 8\\ne partial\\n')\n")
        answer = self.perform(Order(1, EVIDENCE, 60, 5, 0))
        self.assertEqual(answer.fault, "NoReading: this is no evidence of version 1 or 2: p gmev 3 4 8 8")
        os.environ["GMUS"] = os.path.join(self.room, "lost")
        self.assertIn("lost", self.perform(Order(1, FRESH, 60, 5, 0)).fault)
        self.assertIn("No such file or directory", self.perform(Order(1, FRESH, 60, 5, 0), where=self.room + "/lost").fault)

    def test_a_text_as_a_journal_is_refused_and_stays(self):
        name, file = os.path.join(self.room, "j"), os.path.join(self.room, "f")
        for path, text in ((name, "a text\n"), (file, TEXT)):
            with open(path, "w") as out:
                out.write(text)
        for program in (PLAIN, BUILT):
            if os.access(program, os.X_OK):
                ended = subprocess.run([program, "list", file, "--journal", name], stdout=subprocess.PIPE, stderr=subprocess.PIPE, check=False)
                self.assertEqual((ended.returncode, ended.stdout), (6, b""))
                self.assertEqual(ended.stderr.decode(), f"gmus: read fault on journal\n  {name}: is no journal; if a crash left it so, remove it\n")
                with open(name, "rb") as held:
                    self.assertEqual(held.read(), b"a text\n")

    def test_a_fault_takes_nothing_from_what_was_found(self):
        self.script(f"#!/bin/sh\n{PLAIN} \"$@\"\necho 'gmus: write fault on journal' >&2\nexit 7\n")
        answer = self.perform(Order(1, FRESH, 60, 5, 0))
        self.assertEqual((answer.status, answer.fault, len(self.sets(answer.batch))), (7, "gmus: write fault on journal", 5))

    def test_what_is_no_answer(self):
        good = b'{"host": "a", "status": 4, "fault": null, "sets": 2}\np gmev'
        self.assertEqual(answer_of(good), ("a", 4, None, 2, b"p gmev"))
        for held in (None, "text", 7, b"", b"\n", b"{}\n", b"[]\n", b"7\n", good.replace(b"2", b'"x"'), good.replace(b"2", b"null"), good.replace(b"{", b""),
                     good.replace(b"\n", b""), b" " * 200000 + good, b"[" * 90000 + b"\n"):
            with self.assertRaises(Nonsense, msg=held):
                answer_of(held)


@unittest.skipUnless(os.access(BUILT, os.X_OK), f"the program is not built: {BUILT}")
class Built(Room):
    def test_the_program_does_a_task(self):
        os.environ["GMUS"] = BUILT
        first = self.perform(Order(1, FRESH, 60, 6, 0))
        self.assertEqual((first.status, first.fault, len(self.sets(first.batch))), (4, None, 6))
        for how in (JOURNAL, EVIDENCE):
            rest = self.perform(Order(2, how, 60, 99, 6), records_in(first.batch))
            self.assertEqual((rest.status, rest.fault, rest.sets), (0, None, 14), how)
            self.assertEqual(len(self.sets(first.batch) | self.sets(rest.batch)), 20, how)


if __name__ == "__main__":
    unittest.main()
