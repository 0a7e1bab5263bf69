#!/usr/bin/env python3
"""Tests of command.py: what all tools for users say of a file that is no text. What is wanted was worked out by hand."""
import bz2
import gzip
import lzma
import os
import shutil
import subprocess
import sys
import tempfile
import unittest

from places import EXAMPLES, TOOLS
from checks.trying import tried
from gmus_tools import command

FIRST, EVIDENCE = (os.path.join(EXAMPLES, name) for name in ("first.gcnf", "first.evidence"))
RULES = "[größe]\nx and not x\n"
LZ4 = b"\x04\x22\x4d\x18\x60\x40\x82\x00\x00\x00\x00"     # of nothing
ZSTD = b"\x28\xb5\x2f\xfd\x24\x00\x01\x00\x00\x99\xe9\xd8\x51"


def told_of(held, name="f"):
    try:
        return command.text_in(held, name)
    except command.Refused as why:
        return str(why)


class Texts(unittest.TestCase):
    def test_what_is_no_text_is_told_by_its_name_with_the_command_that_makes_one(self):
        known, guessed = "this is {}, and a text in UTF-8 is wanted: {}", "line {}: the bytes are no UTF-8. If they are {}: {}"
        for held, wanted in (
                (gzip.compress(RULES.encode()), known.format("packed by gzip", "gzip -dc f > TEXT")),
                (lzma.compress(b""), known.format("packed by xz", "xz -dc f > TEXT")),
                (bz2.compress(b""), known.format("packed by bzip2", "bzip2 -dc f > TEXT")),
                (LZ4, known.format("packed by lz4", "lz4 -dc f > TEXT")),
                (ZSTD, known.format("packed by zstd", "zstd -dc f > TEXT")),
                (b"PK\x03\x04", known.format("packed by zip", "unzip -p f > TEXT")),
                (RULES.encode("utf-16"), known.format("in UTF-16", "iconv -f UTF-16 -t UTF-8 f > TEXT")),
                (b"\xfe\xff" + RULES.encode("utf-16-be"), known.format("in UTF-16", "iconv -f UTF-16 -t UTF-8 f > TEXT")),
                (RULES.encode("utf-16-le"), known.format("in UTF-16LE", "iconv -f UTF-16LE -t UTF-8 f > TEXT")),
                (RULES.encode("utf-16-be"), known.format("in UTF-16BE", "iconv -f UTF-16BE -t UTF-8 f > TEXT")),
                (RULES.encode("utf-32"), known.format("in UTF-32", "iconv -f UTF-32 -t UTF-8 f > TEXT")),
                (RULES.encode("latin-1"), guessed.format(1, "Latin-1", "iconv -f LATIN1 -t UTF-8 f > TEXT")),
                ("a\nb\n“c”".encode("cp1252"), guessed.format(3, "Windows-1252", "iconv -f CP1252 -t UTF-8 f > TEXT")),
                (b"\x7fELF\2\1\0\xff", "line 1: the bytes are no UTF-8"),
                (b"a\n\xff\x07", "line 2: the bytes are no UTF-8"),
        ):
            self.assertEqual(told_of(held), "f: " + wanted)

    def test_what_is_a_text_is_read(self):
        for text in ("", RULES, "\0\0", "ab", "BZ", "a\0b", "\x1f", "ÿþ", "日本語", "P"):
            self.assertEqual(told_of(text.encode()), text)
        self.assertEqual(told_of(b"\xef\xbb\xbfa"), "a")

    def test_a_name_is_told_as_a_shell_takes_it(self):
        self.assertTrue(told_of(b"BZh", "a b").endswith(": bzip2 -dc 'a b' > TEXT"))
        self.assertTrue(told_of(b"BZh", "-").endswith(": bzip2 -dc FILE > TEXT"))

    def test_the_commands_make_texts(self):
        with tempfile.TemporaryDirectory() as room:
            for held in (gzip.compress(RULES.encode()), lzma.compress(RULES.encode()), bz2.compress(RULES.encode()),
                         RULES.encode("utf-16"), RULES.encode("utf-16-be"), RULES.encode("utf-32"), RULES.encode("latin-1")):
                with open(os.path.join(room, "f"), "wb") as file:
                    file.write(held)
                words = told_of(held).rpartition(": ")[2]
                if shutil.which(words.split()[0]):
                    subprocess.run(["sh", "-c", words], cwd=room, check=True)
                    with open(os.path.join(room, "TEXT"), "rb") as file:
                        self.assertEqual(command.text_in(file.read(), "f"), RULES, words)


class Outputs(unittest.TestCase):
    """`-o FILE`, which a file takes once it is whole."""

    def setUp(self):
        room = tempfile.TemporaryDirectory()
        self.addCleanup(room.cleanup)
        self.room = room.name

    def run_tool(self, tool, *words, given=""):
        return tried(tool, *words, given=given, room=self.room)

    def held(self):
        found = {}
        for name in sorted(os.listdir(self.room)):
            with open(os.path.join(self.room, name), encoding="utf-8") as file:
                found[name] = file.read()
        return found

    def test_each_tool_that_writes_a_text_writes_it_to_a_file(self):
        with open(os.path.join(self.room, "in"), "w", encoding="utf-8") as file:
            file.write("[r]\nx\n")
        report = os.path.join(EXAMPLES, "first.report")
        for words, given in (
                (["gcnf.py", "in"], ""), (["gcnf.py", "-"], "[r]\nx and y\n"), (["names.py", FIRST, report], ""), (["names.py", FIRST, report, "--json"], ""),
                (["names.py", FIRST, report, "--html", "--why", EVIDENCE], ""), (["why.py", FIRST, EVIDENCE], ""), (["why.py", FIRST, EVIDENCE, "--html"], ""),
                (["smt2.py", "--each", "-"], "(declare-const p Bool)(assert p)"), (["uvl.py", "-"], "features\n\tr\nconstraints\n\t!r\n"),
                (["deb.py", "-", "in"], "Package: a\nVersion: 1\n"), (["make_case.py", "7", "3"], ""), (["check_evidence.py", FIRST, EVIDENCE], "")):
            if words[0] == "deb.py":
                with open(os.path.join(self.room, "in"), "w", encoding="utf-8") as file:
                    file.write("a\n")
            plain = self.run_tool(*words, given=given)
            self.assertEqual((plain[0], plain[1] != ""), (0, True), words)
            before = self.held()
            for place in (["-o", "out"], ["-o", "./out"]):
                self.assertEqual(self.run_tool(*words[:1], *place, *words[1:], given=given), (0, "", plain[2]), words)
                self.assertEqual(self.held(), {**before, "out": plain[1]}, words)
            self.assertEqual(self.run_tool(*words, "-o", "-", given=given)[:2], (0, plain[1]), words)

    def test_what_is_refused_leaves_files_as_they_are(self):
        for held in (None, "before"):
            if held:
                with open(os.path.join(self.room, "out"), "w", encoding="utf-8") as file:
                    file.write(held)
            for words, status in ((["gcnf.py", "-"], 1), (["names.py", FIRST], 1), (["check_evidence.py", FIRST, FIRST], 9), (["smt2.py"], 2),
                                  (["gcnf.py", "--strict", "-"], 1)):
                given = "[r]\nx\n" if "--strict" in words else "x"
                self.assertEqual(self.run_tool(*words, "-o", "out", given=given)[:2], (status, ""), words)
                self.assertEqual(self.held(), {"out": held} if held else {}, words)

    def test_a_clash_that_fails_is_written(self):
        status, output, _ = self.run_tool("names.py", FIRST, os.path.join(EXAMPLES, "first.report"), "--fail-on-conflict", "-o", "out")
        self.assertEqual((status, output, list(self.held())), (3, "", ["out"]))

    def test_places_that_are_refused_or_no_plain_files(self):
        with open(os.path.join(self.room, "in"), "w", encoding="utf-8") as file:
            file.write("[r]\nx\n")
        os.chmod(os.path.join(self.room, "in"), 0o640)
        os.symlink("in", os.path.join(self.room, "same"))
        for name in ("in", "same", "../" + os.path.basename(self.room) + "/in"):
            self.assertEqual(self.run_tool("gcnf.py", "in", "-o", name)[::2],
                             (1, "gcnf.py: in: 1 name stands with one sign only: no clause with such a name is in any conflict\n"
                                 f"gcnf.py: {name}: this was read, and is not written over\n"))
        self.assertEqual(self.held(), {"in": "[r]\nx\n", "same": "[r]\nx\n"})
        self.assertEqual(self.run_tool("make_case.py", "1", "1", "-o", "/dev/null"), (0, "", ""))
        ended = subprocess.run([sys.executable, os.path.join(TOOLS, "make_case.py"), "1", "1", "-o", "/dev/stdout"], stdout=subprocess.PIPE, check=True)
        self.assertTrue(ended.stdout.startswith(b"p gcnf 5 8 2\n"))
        self.assertEqual(self.run_tool("make_case.py", "1", "1", "-o", "no/out"), (1, "", "make_case.py: no/out: No such file or directory\n"))
        self.assertEqual(self.run_tool("make_case.py", "1", "1", "-o", "."), (1, "", "make_case.py: .: Is a directory\n"))
        # A link stays one, and the file behind it keeps who may read it.
        self.assertEqual(self.run_tool("make_case.py", "1", "1", "-o", "same")[0], 0)
        self.assertEqual((os.readlink(os.path.join(self.room, "same")), os.stat(os.path.join(self.room, "in")).st_mode & 0o777), ("in", 0o640))
        self.assertTrue(self.held()["in"].startswith("p gcnf 5 8 2\n"))

    def test_words_that_have_no_reading(self):
        for words, told in ((["-o"], "-o has nothing behind it"), (["-o", "a", "-o", "b"], "-o stands twice")):
            status, output, said = self.run_tool("make_case.py", "1", "1", *words)
            self.assertEqual((status, output, said.split("\n")[0]), (2, "", "make_case.py: " + told))
        self.assertEqual(self.run_tool("names.py", "--", "-o", "x")[::2], (1, "names.py: -o: No such file or directory\n"))


class Closed(unittest.TestCase):
    """Standard streams that are closed, as by `<&-` in a shell."""

    def test_a_closed_input_is_told(self):
        for words in (["gcnf.py", "-"], ["gcnf.py", "--after", "-", os.path.join(EXAMPLES, "laptop.rules")], ["names.py", FIRST],
                      ["names.py", "-", os.path.join(EXAMPLES, "first.report")], ["why.py", FIRST, "-"], ["why.py", "-", EVIDENCE],
                      ["smt2.py", "-"], ["deb.py", "-", FIRST], ["deb.py", FIRST, "-"], ["uvl.py", "-"], ["check_lrat.py", "-", FIRST]):
            ended = subprocess.run(["sh", "-c", 'exec "$@" <&-', "sh", sys.executable, os.path.join(TOOLS, words[0]), *words[1:]],
                                   stdout=subprocess.PIPE, stderr=subprocess.PIPE, universal_newlines=True, check=False)
            self.assertEqual((ended.returncode, ended.stdout, ended.stderr), (1, "", f"{words[0]}: standard input is closed\n"), words)

    def test_a_closed_output_is_told_and_what_cannot_be_told_goes_nowhere(self):
        for how, words, status, wanted in ((">&-", [FIRST, os.path.join(EXAMPLES, "first.report")], 1, "names.py: standard output is closed\n"),
                                           ("2>&-", [FIRST, FIRST], 1, ""), (">&- 2>&-", [FIRST, FIRST], 1, ""), ("2>&-", [], 2, "")):
            ended = subprocess.run(["sh", "-c", f'exec "$@" {how}', "sh", sys.executable, os.path.join(TOOLS, "names.py"), *words],
                                   stdin=subprocess.DEVNULL, stdout=subprocess.PIPE, stderr=subprocess.PIPE, universal_newlines=True, check=False)
            self.assertEqual((ended.returncode, ended.stdout, ended.stderr), (status, "", wanted), how)


if __name__ == "__main__":
    unittest.main()
