#!/usr/bin/env python3
"""Tests of gmus_tools: python3 -m unittest discover -s tools/tests (nothing but Python 3.9 is needed)."""
import os
import pathlib
import re
import shlex
import stat
import subprocess
import sys
import tempfile
import time
import unittest
from unittest import mock

from places import TOOLS, TOP
import gmus_tools
from gmus_tools import library_runs, reasons

PROGRAM = os.environ.get("GMUS") or os.path.join(TOP, "crates", "gmus", "out", "gmus")
EXAMPLE = re.compile(r"```python\n(.*?)```\n\n```text\n(.*?)```\n", re.DOTALL)
HEAD = "p gcnf 1 2 2\n{1} 1 0\n{2} -1 0\n"
FOUND = "p gmus 2\ns COMPLETE\nu 1 2 0\nm 1 0\nm 2 0\ne 1 2\n"
PART = "p gmus 2\ns PARTIAL\nu 1 2 0\ne 1 0\n"


class AsIf:
    """A program in place of gmus, which ends as it is told to, and keeps what it was called with."""

    def __init__(self, status, report="", told=""):
        self.parts = status, report, told

    def __enter__(self):
        self.folder = tempfile.TemporaryDirectory()
        path = os.path.join(self.folder.name, "gmus")
        self.kept = os.path.join(self.folder.name, "kept")
        status, report, told = self.parts
        end = f"kill -{-status} $$" if status < 0 else f"exit {status}"
        with open(path, "w") as out:
            out.write(f"#!/bin/sh\n{{ printf '%s\\n' \"$@\"; cat \"$2\"; }} > {shlex.quote(self.kept)}\n"
                      f"printf %s {shlex.quote(report)}\nprintf %s {shlex.quote(told)} >&2\n{end}\n")
        os.chmod(path, stat.S_IRWXU)
        self.before = os.environ.get("GMUS")
        os.environ["GMUS"] = path
        return self

    def __exit__(self, *_):
        os.environ.pop("GMUS")
        if self.before is not None:
            os.environ["GMUS"] = self.before
        self.folder.cleanup()

    def called_with(self):
        with open(self.kept) as kept:
            return kept.read()


def caught(call, *given, **options):
    """What the call raises: its class, and what it says of itself."""
    try:
        call(*given, **options)
    except gmus_tools.GmusError as error:
        return type(error).__name__, str(error), {name: value for name, value in vars(error).items() if value is not None and name != "reason"}
    return None


class Library(unittest.TestCase):
    def test_each_status_has_an_exception_of_its_own(self):
        for status, told, wanted in (
                (2, "gmus: bad command line\n", ("BadWords", "bad command line", {"status": 2})),
                (5, "gmus: input refused: 5 GroupTooBig at line 2 byte 2\n",
                 ("InputRefused", "input refused: 5 GroupTooBig at line 2 byte 2",
                  {"status": 5, "number": 5, "name": "GroupTooBig", "line": 2, "byte": 2})),
                (5, "gmus: input refused: 9 TooLarge vars at line 1 byte 8\n",
                 ("InputRefused", "input refused: 9 TooLarge vars at line 1 byte 8",
                  {"status": 5, "number": 9, "name": "TooLarge", "limit": "vars", "line": 1, "byte": 8})),
                (6, "gmus: read fault on input\n", ("ReadFault", "read fault on input", {"status": 6, "on": "input"})),
                # a second line tells a person more: it is handed on
                (2, "gmus: bad command line\n  --limit x: has to be a number from 1 to 1000000000\n",
                 ("BadWords", "bad command line: --limit x: has to be a number from 1 to 1000000000",
                  {"status": 2, "detail": "--limit x: has to be a number from 1 to 1000000000"})),
                (6, "gmus: read fault on input\n  f: No such file or directory (os error 2)\n",
                 ("ReadFault", "read fault on input: f: No such file or directory (os error 2)",
                  {"status": 6, "on": "input", "detail": "f: No such file or directory (os error 2)"})),
                (7, "gmus: write fault on evidence\n  gmus: : is the input\n",
                 ("WriteFault", "write fault on evidence: gmus: : is the input",
                  {"status": 7, "on": "evidence", "detail": "gmus: : is the input"})),
                (7, "gmus: write fault on evidence\nusage: gmus list FILE\n",
                 ("WriteFault", "write fault on evidence", {"status": 7, "on": "evidence"})),
                (7, "gmus: write fault on evidence\n",
                 ("WriteFault", "write fault on evidence", {"status": 7, "on": "evidence"})),
                (8, "gmus: out of memory\n", ("OutOfMemory", "out of memory", {"status": 8})),
                (9, "gmus: evidence refused: line 8: 12 NotFalse\n",
                 ("EvidenceRefused", "evidence refused: line 8: 12 NotFalse",
                  {"status": 9, "line": 8, "number": 12, "name": "NotFalse"})),
                (10, "gmus: journal refused at byte 40\n", ("JournalRefused", "journal refused at byte 40", {"status": 10, "byte": 40})),
                (11, "gmus: no conflict 3\n", ("NoConflict", "no conflict 3", {"status": 11, "number": 3})),
                (12, "gmus: not an extension: clause 5\n",
                 ("NotAnExtension", "not an extension: clause 5", {"status": 12, "clause": 5})),
                (127, "gmus: building\nx\ngmus: the build failed\n", ("ProgramNotBuilt", "the build failed", {"status": 127})),
                (1, "Traceback\n", ("ProgramFailed", "Traceback", {"status": 1})),
                (-15, "", ("ProgramFailed", "the program ended with -15", {"status": -15})),
                (0, "", ("ProgramFailed", "the report can't be read: there is none: see what gmus wrote on standard error", {})),
        ):
            with AsIf(status, told=told):
                self.assertEqual(caught(gmus_tools.list_gcnf, HEAD), wanted)

    def test_each_status_and_what_is_refused_has_a_reason(self):
        """The tables of the documents have the numbers and the names."""
        with open(os.path.join(TOP, "docs", "FORMATS.md"), encoding="utf-8") as page:
            formats = page.read()
        for status, heading, line, known in ((5, "## Refusals", "input refused: {} {} at line 1 byte 1", reasons.OFFENCES),
                                             (9, "### What it is refused for", "evidence refused: line 1: {} {}", reasons.REFUSALS)):
            rows = re.findall(r"(?m)^\| (\d+) \| (\w+) \|", formats.partition(heading)[2].partition("\n#")[0])
            self.assertEqual([int(number) for number, _ in rows], list(known))
            for number, name in rows:
                with AsIf(status, told="gmus: " + line.format(number, name) + "\n"):
                    with self.assertRaises(gmus_tools.GmusError) as raised:
                        gmus_tools.list_gcnf(HEAD)
                self.assertEqual((raised.exception.name, raised.exception.reason), (name, known[int(number)]))
        with open(os.path.join(TOP, "README.md"), encoding="utf-8") as page:
            statuses = [int(status) for status in re.findall(r"(?m)^\| (\d+) \| \w", page.read())]
        self.assertEqual([*statuses, 127], [0, 2, 3, 4, *[status for status in reasons.STATUSES if status > 2]])
        for status, said in reasons.STATUSES.items():
            if status not in (5, 9):
                with AsIf(status, told="gmus: it ended\n"):
                    with self.assertRaises(gmus_tools.GmusError) as raised:
                        gmus_tools.list_gcnf(HEAD)
                self.assertEqual((raised.exception.status, raised.exception.reason), (status, said))

    def test_what_is_handed_in_and_is_nothing_is_told_as_what_it_is(self):
        neither = "a text or the name of a file is wanted, and not "
        for call, given, options, kind, told in (
                (gmus_tools.solve, {1: "a"}, {}, "BadArgument", "rules: the name of a rule is a text, and not 1"),
                (gmus_tools.solve, None, {}, "BadArgument", "rules: a text, the name of a file or a mapping from names to lines is wanted, and not None"),
                (gmus_tools.solve, "", {}, "BadArgument", "rules: an empty text was given, which is no name of a file either"),
                (gmus_tools.solve, {"a": None}, {}, "BadArgument", "rules: the rule 'a' has a line or a list of lines, and not None"),
                (gmus_tools.solve, {"a": ["x", 1]}, {}, "BadArgument", "rules: a line of the rule 'a' is a text, and not 1"),
                (gmus_tools.solve, {"a": b"x"}, {}, "BadArgument", "rules: the rule 'a' has a line or a list of lines, and not b'x'"),
                (gmus_tools.solve, "a or b", {}, "RulesRefused", "a or b: No such file or directory; a string of one line is the name of a file"),
                (gmus_tools.list_gcnf, None, {}, "BadArgument", "file: " + neither + "None"),
                (gmus_tools.list_gcnf, "", {}, "BadArgument", "file: an empty text was given, which is no name of a file either"),
                (gmus_tools.list_gcnf, 7 * ["x"] * 9, {}, "BadArgument", None),
                (gmus_tools.list_gcnf, HEAD, {"jobs": 0}, "BadWords", "jobs=0: a whole number from 1 to 64 is wanted"),
                (gmus_tools.list_gcnf, HEAD, {"jobs": "2"}, "BadWords", "jobs='2': a whole number from 1 to 64 is wanted"),
                (gmus_tools.list_gcnf, HEAD, {"jobs": True}, "BadWords", "jobs=True: a whole number from 1 to 64 is wanted"),
                (gmus_tools.list_gcnf, HEAD, {"limit": 0}, "BadWords", "limit=0: a whole number from 1 to 1000000000 is wanted"),
                (gmus_tools.solve, {"a": "x"}, {"conflicts": -1}, "BadWords", "conflicts=-1: a whole number from 0 to 18446744073709551615 is wanted"),
                (gmus_tools.list_gcnf, HEAD, {"evidence": ""}, "BadArgument", "evidence: an empty text was given, which is no name of a file either"),
                (gmus_tools.list_gcnf, HEAD, {"focus": "1,2"}, "BadArgument", "focus: a list of names or numbers of rules is wanted, and not '1,2'"),
                (gmus_tools.list_gcnf, HEAD, {"focus": ["x"]}, "BadWords", "focus: 'x' is no name or number of a rule"),
                (gmus_tools.list_gcnf, HEAD, {"focus": [0]}, "BadWords", "focus: 0 is no name or number of a rule"),
                (gmus_tools.list_gcnf, HEAD, {"focus": []}, "BadWords", "focus: at least one rule is wanted"),
                (gmus_tools.list_gcnf, HEAD, {"timeout": 0}, "BadWords", "timeout=0: a number of seconds above 0 is wanted"),
                (gmus_tools.list_gcnf, HEAD, {"timeout": float("inf")}, "BadWords", "timeout=inf: a number of seconds above 0 is wanted"),
                (gmus_tools.list_gcnf, HEAD, {"timeout": 1, "journal": "j", "resume": "e"}, "BadWords",
                 "journal and resume don't go together: a journal is gone on from by itself"),
                (gmus_tools.list_gcnf, HEAD, {"timeout": 1, "resume": "no such file"}, "ReadFault", None),
        ):
            with AsIf(0, FOUND):
                found = caught(call, given, **options)
            self.assertEqual((found[0], told or found[1]), (kind, found[1]), (given, options))
        self.assertTrue(issubclass(gmus_tools.BadArgument, TypeError))
        for call, given in ((gmus_tools.check, (HEAD, None)), (gmus_tools.carry, (HEAD, None, HEAD)), (gmus_tools.export, (HEAD, None, 1))):
            self.assertEqual(caught(call, *given)[:2], ("BadArgument", "evidence: " + neither + "None"))
        self.assertEqual(caught(gmus_tools.export, HEAD, b"", 0)[:2], ("BadWords", "number=0: a whole number from 1 to 1000000000 is wanted"))

    def test_a_program_that_cannot_be_started_is_told(self):
        with AsIf(0) as program:
            os.unlink(os.environ["GMUS"])
            kind, told, _ = caught(gmus_tools.list_gcnf, HEAD)
            self.assertEqual(kind, "ProgramNotBuilt")
            self.assertTrue(told.startswith(f"the program can't be started: {program.folder.name}"), told)

    def test_a_program_that_ends_with_0_and_writes_nothing_is_told(self):
        with AsIf(0):
            none = "the report can't be read: there is none: see what gmus wrote on standard error"
            for call, given, wanted in (
                    (gmus_tools.list_gcnf, [HEAD], none), (gmus_tools.check, [HEAD, "x"], none), (gmus_tools.carry, [HEAD, "x\n", HEAD], none),
                    (gmus_tools.roles, [HEAD], "the report can't be read: it is cut off, or is no report"),
                    (gmus_tools.export, [HEAD, "x\n", 1], "the program ended with 0, and wrote no export")):
                self.assertEqual(caught(call, *given)[:2], ("ProgramFailed", wanted), call.__name__)

    def test_a_report_gives_a_result(self):
        with AsIf(0, FOUND):
            result = gmus_tools.list_gcnf("c group 2 shut\n" + HEAD)
        self.assertEqual((result.conflicts, result.corrections, result.names, result.numbers, result.complete, result.why),
                         ([{"group 1", "shut"}], [{"group 1"}, {"shut"}], ["group 1", "shut"], {"group 1": 1, "shut": 2}, True,
                          None))
        self.assertEqual((result.clashes(), repr(result)), (True, "<Result: 1 conflicts, 2 corrections, complete>"))

    def test_groups_with_one_name_are_told_apart(self):
        with AsIf(0, FOUND):
            result = gmus_tools.list_gcnf("c group 1 a\nc group 2 a\n" + HEAD)
        self.assertEqual(result.conflicts, [{"a (group 1)", "a (group 2)"}])
        with AsIf(0, FOUND.replace("s 2", "s 3")):
            result = gmus_tools.list_gcnf("c group 1 a\nc group 2 a\nc group 3 a (group 1)\n" + HEAD)
        self.assertEqual(result.names, ["a (group 1)", "a (group 2)", "a (group 1) (2)"])

    def test_partial_results_say_why(self):
        for status, told, why in ((3, "gmus: budget of 9 conflicts spent\n", "budget of 9 conflicts spent"),
                                  (4, "gmus: limit of 1 records reached\n", "limit of 1 records reached")):
            with AsIf(status, PART, told):
                result = gmus_tools.list_gcnf(HEAD)
            self.assertEqual((result.complete, result.why, result.conflicts), (False, why, [{"group 1", "group 2"}]))
        with AsIf(0, PART):
            self.assertEqual(gmus_tools.check(HEAD, b"").why, "the evidence is partial")

    def test_whether_something_clashes(self):
        for report, wanted in (("s COMPLETE\nm 0\ne 0 1\n", False), ("s COMPLETE\nu 0\ne 1 0\n", True),
                               ("s PARTIAL\ne 0 0\n", None), ("s PARTIAL\nm 1 0\ne 0 1\n", True)):
            with AsIf(0, "p gmus 2\n" + report):
                self.assertIs(gmus_tools.list_gcnf(HEAD).clashes(), wanted, report)

    def test_the_program_gets_the_options_and_the_file(self):
        with AsIf(0, FOUND) as program:
            gmus_tools.list_gcnf(HEAD, jobs=3, limit=5, conflicts=0, evidence="here", resume=pathlib.Path("/there"),
                                 focus=["group 2", 1])
            words = program.called_with().split("\n")
            self.assertEqual([words[0], *words[2:8]], ["list", "--jobs=3", "--limit=5", "--conflicts=0",
                                                       f"--evidence={os.path.abspath('here')}", "--resume=/there", "--focus=1,2"])
            self.assertTrue(program.called_with().endswith(HEAD))
            file = os.path.join(program.folder.name, "-f")
            pathlib.Path(file).write_text(HEAD)
            for given in (HEAD, HEAD.encode(), file, pathlib.Path(file)):
                self.assertEqual(len(gmus_tools.list_gcnf(given).conflicts), 1, given)

    def test_rules_are_a_text_a_file_or_a_mapping(self):
        text = "[open]\nx\n[shut]\nnot x\n"
        with AsIf(0, FOUND) as program:
            file = os.path.join(program.folder.name, "rules")
            pathlib.Path(file).write_text(text)
            for given in (text, text.encode(), file, pathlib.Path(file), {"open": "x", "shut": ["not x"]}):
                self.assertEqual(gmus_tools.solve(given).conflicts, [{"open", "shut"}], given)
            odd = {"] # [": "x", "Always": [], "": ["not x"]}
            self.assertEqual(gmus_tools.solve(odd).conflicts, [{"] # [", ""}])
        named = gmus_tools.gcnf({"a # b": "x", "rule 1": "x", "c": "x"})
        self.assertEqual(re.findall("c group .*", named), ["c group 1 rule 1'", "c group 2 rule 1", "c group 3 c"])
        self.assertEqual(gmus_tools.written("a b"), '"a b"')

    def test_weights_and_rules_that_are_kept(self):
        report = "p gmus 3\ns COMPLETE\nu 1 2 0\nu 2 3 0\nm 1 3 0\nm 2 0\ne 2 2\n"
        text = "[a] weight 2\nx\n[b] weight 5\nnot x\n[c]\nx\n"
        with AsIf(0, report) as program:
            for rules, options in ((text, {}), ({"a": "x", "b": "not x", "c": "x"}, {"weights": {"a": 2, "b": 5}})):
                found = gmus_tools.solve(rules, **options)
                self.assertEqual((found.weights, found.kept), ({"a": 2, "b": 5, "c": 1}, set()))
                self.assertEqual((found.corrections, found.lightest()), ([{"a", "c"}, {"b"}], [{"a", "c"}, {"b"}]))
                self.assertEqual([found.weight(it) for it in found.lightest()], [3, 5])
                self.assertIn("\nc weight 2 5\n", program.called_with())
            found = gmus_tools.solve(text, weights={"b": 3}, keep=["c"])
            self.assertEqual((found.weights["b"], found.kept, found.lightest()), (3, {"c"}, [{"b"}]))
            found = gmus_tools.list_gcnf(gmus_tools.gcnf(text, keep=("b",)))
            self.assertEqual((found.kept, found.lightest(), found.corrections), ({"b"}, [{"a", "c"}], [{"a", "c"}, {"b"}]))
            for options, kind, told in (({"weights": {"d": 2}}, "BadWords", "weights: 'd' is no name of a rule"),
                                        ({"weights": {"a": 0}}, "BadWords", "weight=0: a whole number from 1 to 1000000000 is wanted"),
                                        ({"weights": [1]}, "BadArgument", "weights: a mapping from names of rules to whole numbers is wanted, and not [1]"),
                                        ({"keep": "a"}, "BadArgument", "keep: a list of names of rules is wanted, and not 'a'"),
                                        ({"keep": [1]}, "BadWords", "keep: 1 is no name of a rule")):
                self.assertEqual(caught(gmus_tools.solve, text, **options)[:2], (kind, told))

    def test_rules_that_cannot_be_read_are_told_without_the_program(self):
        for given, wanted in (
                ("[a]\nx or\n", "rules: line 2: a formula is due at the line's end"),
                ("x\ny\n", "rules: line 1: no rule begins before this line"),
                ({"a": "x y"}, "rules: line 2: 'y' can't come here"),
                ({"a": "x\n[b]\ny"}, "rules: a line begins with '['"),
                (b"[a]\nx\n\xff", "rules: line 3: the bytes are no UTF-8"),
                ({}, "rules: line 1: no rule stands in this text"),
                (os.path.join(TOOLS, "no such file"), os.path.join(TOOLS, "no such file") + ": No such file or directory"),
        ):
            kind, told, _ = caught(gmus_tools.solve, given)
            self.assertEqual(kind, "RulesRefused", given)
            self.assertTrue(told.startswith(wanted), told)

    def test_records_are_taken_out_of_evidence(self):
        """Both versions have the same records; in version 2 a correction names earlier conflicts."""
        texts = []
        for name in ("first.evidence", "first_short.evidence"):
            with open(os.path.join(TOP, "examples", name), "rb") as file:
                texts.append(library_runs.records_in(file.read()))
        self.assertEqual(texts[0], texts[1])
        with open(os.path.join(TOP, "examples", "first.evidence"), "rb") as file:
            whole = file.read()
        self.assertEqual(b"p gmev 1 2 4 4\n" + b"".join(texts[0]) + b"d 6 0 3 1 4 5 2 0\nx 6\ne complete\n", whole)
        self.assertEqual(library_runs.texts_in(library_runs.framed(texts[0])), texts[0])
        held = library_runs.framed(texts[0][:2])
        for end, wanted in ((None, 2), (-1, 1), (-2, 1), (9, 0), (1, 0), (0, 0)):
            self.assertEqual(library_runs.texts_in(held[:end]), texts[0][:wanted], end)
        for odd in (b"", b"\n", b"p\nt 1 1\n", b"p\nu 1 0\nt 1 9\nt 1 x\nt\n", b"p\nm 1 0\nt 1 1", b"p\nd 1", b"p\nu\nd 1 0\n"):
            library_runs.records_in(odd)

    @unittest.skipUnless(os.path.exists(PROGRAM), f"the program is not built: {PROGRAM}")
    def test_what_was_found_in_time_is_a_partial_result(self):
        pairs = 14     # so many clash, and there are 16,384 corrections
        problem = f"p gcnf {pairs} {2 * pairs} {2 * pairs}\n" + "".join(f"{{{2 * at - 1}}} {at} 0\n{{{2 * at}}} -{at} 0\n" for at in range(1, pairs + 1))
        with tempfile.TemporaryDirectory() as room, mock.patch.dict(os.environ, GMUS=PROGRAM):
            evidence, journal = os.path.join(room, "evidence"), os.path.join(room, "journal")
            began = time.monotonic()
            found = gmus_tools.list_gcnf(problem, evidence=evidence, timeout=0.5)
            self.assertLess(time.monotonic() - began, 9)
            self.assertEqual((found.complete, found.why), (False, "timeout of 0.5 seconds"))
            self.assertGreater(len(found.conflicts) + len(found.corrections), 0)
            shown = gmus_tools.check(problem, evidence)
            self.assertEqual((shown.conflicts, shown.corrections, shown.complete), (found.conflicts, found.corrections, False))
            for resume in (evidence, evidence):
                more = gmus_tools.list_gcnf(problem, resume=resume, evidence=evidence, timeout=0.5)
                self.assertTrue(all(it in more.corrections for it in found.corrections))
                self.assertTrue(all(it in more.conflicts for it in found.conflicts))
                found = more
            for _ in range(2):
                kept = gmus_tools.list_gcnf(problem, journal=journal, timeout=0.3)
            has = gmus_tools.read_journal(problem, journal)
            self.assertEqual((kept.conflicts, kept.corrections, kept.complete), (has.conflicts, has.corrections, False))
            focused = gmus_tools.list_gcnf(problem, focus=["group 1", 2, 4], timeout=60, evidence=evidence)
            self.assertEqual((focused.conflicts, focused.complete), ([{"group 1", "group 2"}], True))
            self.assertTrue(gmus_tools.check(problem, evidence, focus=[1, 2, 4]).complete)
            late = gmus_tools.list_gcnf(problem, focus=[1, 2, 4], timeout=1e-6, evidence=evidence)
            self.assertEqual((late.complete, gmus_tools.check(problem, evidence, focus=[1, 2, 4]).complete), (False, False))
            with open(evidence, "ab") as file:
                file.write(b"x")
            self.assertEqual(caught(gmus_tools.list_gcnf, problem, resume=evidence, timeout=9)[0], "EvidenceRefused")

    @unittest.skipUnless(os.path.exists(PROGRAM), f"the program is not built: {PROGRAM}")
    def test_each_command(self):
        with open(os.path.join(TOP, "examples", "laptop.gcnf"), encoding="utf-8") as file, \
                open(os.path.join(TOP, "examples", "laptop_more.rules"), encoding="utf-8") as more, tempfile.TemporaryDirectory() as room, \
                mock.patch.dict(os.environ, GMUS=PROGRAM):
            laptop, rules = file.read(), more.read()
            found = gmus_tools.roles(laptop)
            self.assertEqual((found.every, len(found.some), found.none), ([], 7, []))
            found = gmus_tools.roles(laptop, focus=["a graphics card", "the light case", 1], jobs=2)
            self.assertEqual((found.every, found.some, found.none), (["a graphics card", "the light case"], [], ["a touch screen"]))
            evidence = os.path.join(room, "evidence")
            known = gmus_tools.list_gcnf(laptop, evidence=evidence)
            cnf, lrat = gmus_tools.export(laptop, evidence, 3)
            self.assertTrue(cnf.startswith("p cnf ") and lrat.endswith(" 0\n"))
            self.assertEqual(caught(gmus_tools.export, laptop, evidence, 6)[:2], ("NoConflict", "no conflict 6"))
            longer = gmus_tools.gcnf(rules, after=laptop)
            carried = gmus_tools.carry(laptop, evidence, longer, new_evidence=os.path.join(room, "new"))
            self.assertEqual(carried.conflicts, gmus_tools.solve(rules).conflicts)
            self.assertTrue(gmus_tools.check(longer, os.path.join(room, "new")).complete)
            self.assertEqual(caught(gmus_tools.carry, longer, os.path.join(room, "new"), laptop)[0], "NotAnExtension")
            self.assertEqual(caught(gmus_tools.gcnf, "[x]\na\n", after=laptop)[0], "RulesRefused")
            self.assertEqual(known.conflicts[2], {"a graphics card", "the light case"})

    @unittest.skipUnless(os.path.exists(PROGRAM), f"the program is not built: {PROGRAM}")
    def test_the_examples_of_the_page_give_what_it_says(self):
        with open(os.path.join(TOP, "docs", "LIBRARY.md"), encoding="utf-8") as page:
            examples = EXAMPLE.findall(page.read())
        self.assertGreaterEqual(len(examples), 10)
        environment = {**os.environ, "PYTHONPATH": TOOLS, "GMUS": PROGRAM}
        for code, wanted in examples:
            ended = subprocess.run([sys.executable, "-c", code], env=environment, stdout=subprocess.PIPE,
                                   stderr=subprocess.PIPE, universal_newlines=True, check=False)
            self.assertEqual((ended.stdout, ended.stderr, ended.returncode), (wanted, "", 0), code)


if __name__ == "__main__":
    unittest.main()
