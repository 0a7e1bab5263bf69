#!/usr/bin/env python3
"""Tests of release.sh and licences.py: what they refuse, what of the kit the program holds, and that nothing is left of an
archive that fails when it is tried. A whole archive needs the built program, and release.sh tries it by itself."""
import os
import shutil
import subprocess
import sys
import tempfile
import unittest

import places  # noqa: F401
from dev import licences
from dev.crates import TOP

# It needs the C library alone, and ends with 0 whatever it is asked: so the first report that is compared differs.
PROGRAM = shutil.which("true")
KIT = "crate {}\n{}"


def is_plain(program):
    """Whether a program needs the C library alone."""
    told = subprocess.run(["ldd", program], stdout=subprocess.PIPE, stderr=subprocess.DEVNULL, universal_newlines=True,
                          check=False)
    return [line.split()[0] for line in told.stdout.splitlines() if "=>" in line] == ["libc.so.6"]


def run(program, target):
    environment = {**os.environ, "GMUS": program}
    ended = subprocess.run([os.path.join(TOP, "dev", "release.sh"), target], env=environment, stdin=subprocess.DEVNULL,
                           stdout=subprocess.PIPE, stderr=subprocess.PIPE, universal_newlines=True, check=False)
    return ended.returncode, ended.stdout.splitlines(), ended.stderr.splitlines()


class Release(unittest.TestCase):
    def setUp(self):
        self.room = tempfile.mkdtemp()
        self.addCleanup(shutil.rmtree, self.room)

    def test_without_a_program_that_others_can_run_there_is_none(self):
        for program, wanted in (
                (self.room + "/lost", "release.sh: there is no program: call ./gmus, which builds it"),
                (sys.executable, "release.sh: the program needs more than the C library: "),
        ):
            status, output, said = run(program, self.room)
            self.assertEqual((status, output), (1, []), program)
            self.assertTrue(said[0].startswith(wanted), said)

    @unittest.skipUnless(shutil.which("rt"), "no toolchain: no archive is made")
    @unittest.skipUnless(PROGRAM and is_plain(PROGRAM), "'true' needs more than the C library: no archive is made of it")
    def test_an_archive_that_fails_when_it_is_tried_is_not_left(self):
        status, output, said = run(PROGRAM, self.room)
        self.assertEqual((status, output), (1, ["tried: its checksums"]))
        self.assertEqual(said, ["release.sh: tried in an empty folder: gmus list: status 0, and see above"])
        self.assertEqual(os.listdir(self.room), [])

    def test_the_kits_libraries_below_the_program_are_found(self):
        for library, below in (("clap", "dep std\ndep strsim\n"), ("strsim", "dep std\n"), ("std", "dep os\n"), ("os", ""),
                               ("it", "")):
            folder = os.path.join(self.room, "rlibs", library + ".rlib")
            os.makedirs(folder)
            with open(os.path.join(folder, "format"), "w", encoding="utf-8") as file:
                file.write(KIT.format(library, below))
        crates = "words: clap\nother: it\ngmus: words\n"
        self.assertEqual(licences.used_of(self.room, crates),
                         {"clap": "words", "std": "every crate", "strsim": "clap", "os": "std"})

    def test_what_a_library_says_of_its_origin(self):
        for text, wanted in (
                ("A port of the crate `itoa` 1.0.18 (MIT or Apache-2.0, `LICENSE`).",
                 "after `itoa` 1.0.18 (MIT or Apache-2.0, `LICENSE`)"),
                ("It is no port.", ""),
        ):
            with open(os.path.join(self.room, "README.md"), "w", encoding="utf-8") as file:
                file.write(text)
            self.assertEqual(licences.words_of(self.room), wanted)
        self.assertEqual(licences.words_of(self.room + "/lost"), "")


if __name__ == "__main__":
    unittest.main()
