#!/usr/bin/env python3
"""Tests of journal.py. What is wanted was worked out by hand from docs/FORMATS.md, 'The journal'."""
import contextlib
import fcntl
import io
import os
import shutil
import subprocess
import sys
import tempfile
import unittest

from places import EXAMPLES, TOOLS, TOP
from gmus_tools.evidence import check_evidence, journal

PROGRAM = os.environ.get("GMUS") or os.path.join(TOP, "crates", "gmus", "out", "gmus")


# the whole journal of a problem without groups, whose one correction is the empty set
TWENTY = bytes([1, 0, 0, 0, 0, 0, 0, 0, 10]) + b"m 0\nw 0 0\n" + bytes([0])
NOTHING = "p gcnf 0 0 0\n"
# three records of the first example, as they stand in its evidence; they have 46, 36 and 69 bytes
CONFLICT = b"u 1 2 0\nd 5 -3 -4 0 1 2 0\nr 0 5\nw 1 0\nw 2 1 0\n"
SINGLE = b"m 1 0\nw 0 0\nd 5 -3 -4 0 1 2 0\nr 1 5\n"
DOUBLE = b"m 2 3 0\nw 0 1 0\nd 5 -3 -4 0 1 2 0\nr 2 5\nd 5 -3 -5 -6 0 1 3 4 0\nr 3 5\n"


def first_problem():
    return check_evidence.problem_of(os.path.join(EXAMPLES, "first.gcnf"))


def answer(problem, held):
    """The sets that are read back, or the place that is refused."""
    try:
        return journal.salvaged(problem, held)
    except journal.Foreign as at:
        return at.args[0]


class Reading(unittest.TestCase):
    def test_twenty_bytes(self):
        problem = check_evidence.Problem(NOTHING)
        self.assertEqual(journal.framed([b"m 0\nw 0 0\n"]), TWENTY)
        for held, wanted in ((TWENTY, [("m",)]), (b"", []), (b"\0", []), (b"\0" + TWENTY[1:], []), (b"p gcnf 0 0 0\n", []),
                             (TWENTY.replace(b"m", b"u"), 0), (TWENTY[:-1], 0), (TWENTY[:5], 0), (b"\1", 0),
                             (TWENTY[:-1] + b"\2", [("m",)]), (TWENTY + b"anything", [("m",)])):
            self.assertEqual(answer(problem, held), wanted, held)

    def test_records_are_read_in_their_order(self):
        held = journal.framed([DOUBLE, CONFLICT, SINGLE])
        self.assertEqual(answer(first_problem(), held), [("m", 2, 3), ("u", 1, 2), ("m", 1)])
        self.assertEqual(journal.texts_in(held), ([DOUBLE, CONFLICT, SINGLE], len(held) - 1))
        self.assertEqual(journal.texts_in(held + b"\1"), journal.texts_in(held))

    def test_the_first_gate_with_a_fault_is_named(self):
        at = 1 + 8 + len(SINGLE)
        for text in (b"", CONFLICT[:-1], CONFLICT + b"\n", CONFLICT + SINGLE, b"e partial\n", SINGLE.replace(b"d 5", b"d 4"), SINGLE,
                     b"p gmev 1 2 4 4\n" + CONFLICT, SINGLE.replace(b"m 1", b"m 3"), b"m 1 0\nw 0 0\nt 1 1\n", CONFLICT.replace(b"\n", b"\r\n")):
            self.assertEqual(answer(first_problem(), journal.framed([SINGLE, text, b"no record"])), at, text)

    def test_a_frame_that_runs_past_the_end(self):
        held = journal.framed([SINGLE])
        for behind in (b"\1", b"\1" + bytes(7), b"\1" + bytes(8), b"\1" + b"\xff" * 8 + CONFLICT + b"\0"):
            self.assertEqual(answer(first_problem(), held[:-1] + behind), len(held) - 1, behind)


class Written(unittest.TestCase):
    def call(self, held):
        with tempfile.NamedTemporaryFile() as file:
            file.write(held)
            file.flush()
            ended = subprocess.run([sys.executable, os.path.join(TOOLS, "journal.py"), os.path.join(EXAMPLES, "first.gcnf"), file.name],
                                   stdout=subprocess.PIPE, stderr=subprocess.PIPE)
        return ended.returncode, ended.stdout, ended.stderr

    def test_it_is_evidence_of_the_first_version(self):
        status, text, said = self.call(journal.framed([DOUBLE, CONFLICT]) + b"old")
        self.assertEqual((status, text, said), (0, b"p gmev 1 2 4 4\n" + DOUBLE + CONFLICT + b"e partial\n", b""))
        complete, sets = check_evidence.check(first_problem(), text)
        self.assertEqual((complete, sets), (False, {"u": [[1, 2]], "m": [[2, 3]]}))

    def test_what_is_refused(self):
        self.assertEqual(self.call(journal.framed([SINGLE, SINGLE])), (10, b"", b"journal refused at byte 45\n"))


def frame(text):
    """A frame behind an open gate: the length of a text below 256 bytes is 7 zeros and one byte."""
    return bytes([1, 0, 0, 0, 0, 0, 0, 0, len(text)]) + text


class Front(unittest.TestCase):
    """The first of these frames has its gate at byte 0, the second at 1 + 8 + 36 = 45, and behind the third, whose gate is at
    45 + 1 + 8 + 46 = 100, the journal ends at 100 + 1 + 8 + 69 = 178."""
    FRAMES = frame(SINGLE), frame(CONFLICT), frame(DOUBLE)
    GATES = 0, 45, 100, 178

    def setUp(self):
        self.room = tempfile.mkdtemp()
        self.addCleanup(shutil.rmtree, self.room)
        shutil.copy(os.path.join(EXAMPLES, "first.gcnf"), self.at("f"))

    def at(self, name):
        return os.path.join(self.room, name)

    def write(self, name, held):
        with open(self.at(name), "wb") as out:
            out.write(held)

    def held(self):
        """What stands under each name, links followed."""
        found = {}
        for name in os.listdir(self.room):
            if os.path.isfile(self.at(name)):
                with open(self.at(name), "rb") as file:
                    found[name] = file.read()
        return found

    def front(self, *names):
        """Calls the tool in this folder: its status, and what it wrote."""
        ended = subprocess.run([sys.executable, os.path.join(TOOLS, "journal.py"), "--front", *names], cwd=self.room,
                               stdout=subprocess.PIPE, stderr=subprocess.PIPE, universal_newlines=True, check=False)
        return ended.returncode, ended.stdout, ended.stderr

    def tell(self, held):
        """As main does it, in this process: what is told, and what was written."""
        self.write("j", held)
        with contextlib.redirect_stdout(io.StringIO()) as told:
            journal.write_front(self.at("f"), self.at("j"), self.at("out"))
        return told.getvalue().replace(self.room + "/", ""), self.held()["out"]

    def test_a_journal_that_is_cut_behind_each_byte(self):
        whole = b"".join(self.FRAMES) + b"\0"
        self.assertEqual(len(whole), 179)
        for count in range(1, 179):
            # A frame is whole if the gate behind it is there too.
            many = sum(count > gate for gate in self.GATES[1:])
            records = "1 record" if many == 1 else f"{many} records"
            self.assertEqual(self.tell(whole[:count]), (f"out has the first {records} of j, which has a fault at byte {self.GATES[many]}\n",
                                                        b"".join(self.FRAMES[:many]) + b"\0"), count)
        for held, many in ((whole, 3), (b"", 0), (b"\0", 0), (whole[:45] + b"\0", 1), (whole[:100] + b"\2" + whole[101:], 2),
                           (whole + b"\1\1", 3)):
            records = "1 record" if many == 1 else f"{many} records"
            self.assertEqual(self.tell(held), (f"out has the first {records} of j, which has no fault\n",
                                               b"".join(self.FRAMES[:many]) + b"\0"), held)

    def test_a_frame_with_what_is_refused(self):
        first, second, third = self.FRAMES
        for bad in (frame(b""), frame(b"no record"), frame(CONFLICT[:-1]), frame(CONFLICT + b"\n"), frame(SINGLE + CONFLICT), frame(SINGLE),
                    frame(CONFLICT.replace(b"u 1 2", b"u 1 3")), frame(CONFLICT.replace(b"d 5", b"d 4")),
                    frame(CONFLICT.replace(b"w 1 0", b"w 1 1 0")), frame(b"m 1 0\nw 0 0\nt 1 1\n"), b"\1" + b"\xff" * 8 + CONFLICT):
            self.assertEqual(self.tell(first + bad + third + b"\0"),
                             ("out has the first 1 record of j, which has a fault at byte 45\n", first + b"\0"), bad)
        self.assertEqual(self.tell(first + second + frame(CONFLICT) + b"\0"),
                         ("out has the first 2 records of j, which has a fault at byte 100\n", first + second + b"\0"))

    def test_nothing_else_changes(self):
        first, second, third = self.FRAMES
        self.write("j", first + second)
        self.write("old", b"old")
        os.chmod(self.at("old"), 0o640)
        os.link(self.at("old"), self.at("hard"))
        os.symlink("old", self.at("link"))
        before = self.held()
        told = "has the first 1 record of j, which has a fault at byte 45\n"
        self.assertEqual(self.front("f", "j", "link"), (0, "link " + told, ""))
        self.assertEqual(self.held(), {**before, "old": first + b"\0", "link": first + b"\0"})
        self.assertEqual((os.readlink(self.at("link")), os.stat(self.at("old")).st_mode & 0o777), ("old", 0o640))
        self.assertEqual(self.front("f", "j", "new"), (0, "new " + told, ""))
        self.assertEqual(self.held()["new"], first + b"\0")

    def test_what_is_refused_and_changes_nothing(self):
        self.write("j", self.FRAMES[0] + b"\1")
        self.write("text", b"no journal\n")
        self.write("open", b"")
        os.link(self.at("j"), self.at("hard"))
        os.symlink("f", self.at("link"))
        os.mkdir(self.at("folder"))
        before = sorted(os.listdir(self.room)), self.held()
        with open(self.at("open"), "rb") as run:
            fcntl.flock(run, fcntl.LOCK_EX)
            for names, wanted in (
                    (("f", "text", "out"), "text: it is no journal: its first byte is neither 0 nor 1"),
                    (("f", "f", "out"), "f: it is no journal: its first byte is neither 0 nor 1"),
                    (("f", "j", "j"), "j: it is the file j, which would be lost"),
                    (("f", "j", "./j"), "./j: it is the file j, which would be lost"),
                    (("f", "j", "hard"), "hard: it is the file j, which would be lost"),
                    (("f", "j", "link"), "link: it is the file f, which would be lost"),
                    (("f", "j", "folder"), "folder: it is no regular file"),
                    (("f", "j", "open"), "open: a run has it open"),
                    (("text", "j", "out"), "text: this is no GCNF or CNF file: it does not begin with 'p gcnf' or 'p cnf'"),
                    (("f", "lost", "out"), "lost: No such file or directory"),
                    (("lost", "j", "out"), "lost: No such file or directory"),
                    (("f", "folder", "out"), "folder: Is a directory"),
            ):
                self.assertEqual(self.front(*names), (1, "", f"journal.py: {wanted}\n"), names)
        status, output, said = self.front("f", "j", "lost/out")
        self.assertEqual((status, output, said.endswith(": No such file or directory\n")), (1, "", True), said)
        for names in ((), ("f", "j"), ("f", "j", "out", "more"), ("f", "j", "-o"), ("f", "--front", "out")):
            self.assertEqual(self.front(*names)[:2], (2, ""), names)
        self.assertEqual((sorted(os.listdir(self.room)), self.held()), before)

    @unittest.skipUnless(os.path.exists(PROGRAM), f"the program is not built: {PROGRAM}")
    def test_the_program_goes_on_from_what_was_written(self):
        first, second, third = self.FRAMES
        with open(os.path.join(EXAMPLES, "first.report")) as file:
            report = file.read()
        for held, front in ((first + second + third[:30], first + second), (second + frame(b"no") + third + b"\0", second), (b"\1", b"")):
            self.tell(held)
            ended = subprocess.run([PROGRAM, "list", self.at("f"), "--journal", self.at("out")], stdout=subprocess.PIPE,
                                   stderr=subprocess.PIPE, universal_newlines=True, check=False)
            self.assertEqual((ended.returncode, ended.stdout, ended.stderr), (0, report, ""), held)
            left = self.held()["out"]
            self.assertEqual(left[:len(front)], front)
            self.assertEqual(len(answer(first_problem(), left)), 5)


if __name__ == "__main__":
    unittest.main()
